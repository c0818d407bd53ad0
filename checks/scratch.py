"""What the scripts beside this file share: the crates, a scratch copy of the repository, and commands in it."""

import os
import re
import shutil
import signal
import subprocess
import sys
import tempfile
import threading
from contextlib import contextmanager
from pathlib import Path

ROOT = Path(__file__).resolve().parent.parent
# What a check of a crate takes at most, in bytes, as measured.
MEMORY_OF_A_CHECK = 4_000_000_000


def stop(why):
    """Ends the script with a message on standard error, and the status of a script that could not do its work."""
    print(f"{Path(sys.argv[0]).name}: {why}", file=sys.stderr)
    sys.exit(2)


def libraries_by_crate():
    """The crates of crates.txt, lowest first, each with those of the repository that it stands on."""
    lines = (ROOT / "crates.txt").read_text(encoding="utf-8").splitlines()
    rows = [line.split(":", 1) for line in lines if line.strip() and not line.startswith("#")]
    named = {front.split()[0]: deps for front, deps in rows}
    left = {name: [it for it in deps.split() if it in named] for name, deps in named.items()}
    ordered = {}
    while left:
        name = next(it for it in left if all(dep in ordered for dep in left[it]))
        ordered[name] = left.pop(name)
    return ordered


def chosen_crates(names):
    """The crates that the command line names, or all of them."""
    crates = libraries_by_crate()
    for name in names:
        if name not in crates:
            stop(f"crates.txt names no crate {name}")
    if shutil.which("rt") is None:
        stop("the kit's command rt is not on the path, and only it can try an edit or prove a crate")
    return [it for it in crates if not names or it in names]


def with_libraries(names):
    """These crates, and all that they stand on."""
    crates = libraries_by_crate()
    needed = set(names)
    for name in reversed(list(crates)):
        if name in needed:
            needed.update(crates[name])
    return [it for it in crates if it in needed]


def edits_in(folder):
    return sorted(folder.glob("*.edit"))


@contextmanager
def scratch_copy(keeps_libraries, names=None):
    """A copy of the work tree, or of these crates and what they stand on, that goes when the block ends: with the libraries that earlier checks built, or with nothing made."""
    # (an end by a signal is an end like any other, so that the copy goes then too)
    signal.signal(signal.SIGTERM, lambda number, frame: sys.exit(128 + number))
    skipped = shutil.ignore_patterns(*([] if keeps_libraries else ["out"]), "incremental", ".git")
    with tempfile.TemporaryDirectory(prefix="rtdb-checks-") as room:
        copy = Path(room) / "rtdb"
        copy.mkdir()
        kept = libraries_by_crate() if names is None else with_libraries(names)
        for name in kept:
            shutil.copytree(ROOT / "crates" / name, copy / "crates" / name, ignore=skipped)
        lines = (ROOT / "crates.txt").read_text(encoding="utf-8").splitlines()
        listed = [it for it in lines if it.startswith("#") or (it.split(":")[0].split() or [""])[0] in kept]
        (copy / "crates.txt").write_text("\n".join(listed) + "\n", encoding="utf-8")
        shutil.copyfile(ROOT / "HANDLES", copy / "HANDLES")
        try:
            yield copy
        finally:
            end_all()


running = set()
running_lock = threading.Lock()
has_ended = threading.Event()


def end_all():
    """Ends every command that still runs, and what these started, and lets no other begin."""
    has_ended.set()
    with running_lock:
        for it in running:
            try:
                os.killpg(it.pid, signal.SIGKILL)
            except OSError:
                pass


def begin(words, folder, out):
    """Begins a command, in a group of processes of its own, which ends with the script at the latest."""
    with running_lock:
        if has_ended.is_set():
            stop("it was ended")
        how = {"cwd": folder, "stdin": subprocess.DEVNULL, "stdout": out, "stderr": subprocess.STDOUT}
        begun = subprocess.Popen(words, start_new_session=True, **how)
        running.add(begun)
    return begun


def wait_for(begun):
    """Waits for a command, and returns its status and the processor seconds of it and of all that it started."""
    _, status, used = os.wait4(begun.pid, 0)
    begun.returncode = os.waitstatus_to_exitcode(status)
    with running_lock:
        running.discard(begun)
    return begun.returncode, used.ru_utime + used.ru_stime


def output_of(words, folder):
    """Runs a command, and returns its status and what it said."""
    with tempfile.TemporaryFile("w+", errors="replace") as said:
        status, _ = wait_for(begin(words, folder, said))
        said.seek(0)
        return status, said.read()


def lanes():
    """How many checks may run side by side: one a processor, as far as memory goes."""
    with open("/proc/meminfo", encoding="ascii") as it:
        free = 1024 * int(re.search(r"MemAvailable:\s+(\d+)", it.read())[1])
    return max(1, min(len(os.sched_getaffinity(0)), free // MEMORY_OF_A_CHECK))


def by_lanes(calls):
    """Makes calls side by side, as many at a time as there are lanes, and stops at the first that fails."""
    seats, failures = threading.Semaphore(lanes()), []

    def run(call):
        with seats:
            try:
                if not failures:
                    call()
            except BaseException as error:
                failures.append(error)

    threads = [threading.Thread(target=run, args=(call,), daemon=True) for call in calls]
    for it in threads:
        it.start()
    for it in threads:
        it.join()
    if failures:
        raise failures[0]
