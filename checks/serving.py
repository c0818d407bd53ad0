"""What the checks of a running server share: they start one over files of their own, and see how it ends.

How long anything takes is no matter of these checks, so they wait as long as a slow and busy machine may need. Where a time is the
point of a check, that says what it compares it with.
"""

import json
import random
import select
import socket
import subprocess
import time
from contextlib import contextmanager
from pathlib import Path

ALL = {"rules": {".read": True, ".write": True}}
# How long a check waits for what has to come, in seconds: only what never comes takes so long.
PATIENCE = 120
# At how many ports a server tries to listen, since any other process may take one that was free.
MOST_PORTS = 10
CANT_LISTEN = "rtdb: can't listen\n"
# The ports that a server may be given, if the system gives them to nobody else.
FIRST_PORT, LAST_PORT = 10_000, 65_535


def ports():
    """The ports for servers: none that the system gives to whoever connects, as long as that leaves many."""
    first = int(Path("/proc/sys/net/ipv4/ip_local_port_range").read_text(encoding="ascii").split()[0])
    return range(FIRST_PORT, first if first >= 2 * FIRST_PORT else LAST_PORT)


def free_port():
    """A port of 127.0.0.1 on which nothing listens now. Another process may have it before a server does: see `begun`."""
    while True:
        port = random.SystemRandom().choice(ports())
        with socket.socket() as it:
            try:
                it.bind(("127.0.0.1", port))
                return port
            except OSError:
                pass


def words_of(program, room, port, options):
    """The command line of a server: numbers and files as they are, and a file of its own for what is JSON."""
    words = [program, "serve", "--port", str(port)]
    for name, value in options.items():
        if isinstance(value, dict):
            file = Path(room) / f"{name}-{port}.json"
            file.write_text(json.dumps(value), encoding="utf-8")
            value = file
        words += [f"--{name}", str(value)]
    return words


class Server:
    """A server that runs; `how` is what its process is given beside its words."""

    def __init__(self, program, room, port, options, **how):
        self.port = port
        self.url = f"ws://127.0.0.1:{port}/"
        self.words = words_of(program, room, port, {"rules": ALL, **options})
        self.child = subprocess.Popen(self.words, stdin=subprocess.DEVNULL, stdout=subprocess.PIPE, stderr=subprocess.PIPE, **how)
        self.told = None

    def line(self):
        """The next line that it prints."""
        ready, _, _ = select.select([self.child.stdout], [], [], PATIENCE)
        if not ready:
            raise AssertionError(f"the server printed nothing for {PATIENCE} s")
        return self.child.stdout.readline().decode("utf-8", "replace")

    def ended(self):
        """What it prints last, its status, and what it reports, once it ends by itself."""
        if self.told is None:
            said, reported = self.child.communicate(timeout=PATIENCE)
            self.told = said.decode("utf-8", "replace"), self.child.returncode, reported.decode("utf-8", "replace")
        return self.told

    def is_running(self):
        return self.child.poll() is None

    def memory(self):
        """The memory that it holds now, in KiB."""
        status = Path(f"/proc/{self.child.pid}/status").read_text(encoding="ascii")
        return int(status.split("VmRSS:")[1].split()[0])

    def processor_seconds(self):
        numbers = Path(f"/proc/{self.child.pid}/stat").read_text(encoding="ascii").rpartition(")")[2].split()
        return (int(numbers[11]) + int(numbers[12])) / 100

    def end(self):
        """Kills it, where it has not ended before."""
        self.child.kill()
        self.child.wait()
        self.child.stdout.close()
        self.child.stderr.close()


def begun(make):
    """A server that `make` starts at a port, and the line that it prints first. Where another process has taken that port since
    it was free, the server is started at another one."""
    for _ in range(MOST_PORTS):
        server = make(free_port())
        try:
            line = server.line()
            if line or server.ended() != ("", 3, CANT_LISTEN):
                return server, line
        except BaseException:
            server.end()
            raise
        server.end()
    raise AssertionError(f"of {MOST_PORTS} ports that were free none was so any more")


@contextmanager
def serving(program, room, **options):
    """A server over these files and numbers, which listens; it is killed at the end, where it has not ended before."""
    server, line = begun(lambda port: Server(program, room, port, options))
    try:
        if line != f"listening 127.0.0.1:{server.port}\n":
            raise AssertionError(f"the server printed {line!r} first")
        yield server
    finally:
        server.end()


def until(holds, seconds, what):
    """Waits until something holds."""
    end = time.monotonic() + seconds
    while not holds():
        if time.monotonic() > end:
            raise AssertionError(f"{what}: not within {seconds} s")
        time.sleep(0.01)
