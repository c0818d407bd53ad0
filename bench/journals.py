#!/usr/bin/env python3
"""What a database costs that is kept in a journal:

    python3 bench/journals.py PROGRAM [--kept FILE] [BENCH [NUMBER]]

PROGRAM is the built program rtdb. A scratch program over the crates, checks/kept.program, is built first, with no proof, in two minutes,
unless out/kept is of these sources; --kept names another. Without a bench all are measured, and without a number each takes its usual one.
All figures are processor time, the user's and the system's, the least of three runs, and the peak of memory.

recovery     a journal of so many entries of the chat example is recovered from a file; the same requests as a script take the program
             so long. Of its messages 10,000 stand at a time: then each new one takes an old one away
bytes        the same, of a journal of so many bytes, without a script
torn         a journal of 1,000 entries is recovered that has so many bytes behind its end which no group explains
appending    so many groups of 64 messages are appended, and none is synced; what it takes to make their entries is beside it
"""

import argparse
import hashlib
import json
import os
import random
import re
import shutil
import subprocess
import sys
import tempfile
import time
from itertools import islice
from pathlib import Path

ROOT = Path(__file__).resolve().parent.parent
sys.path.insert(0, str(ROOT / "checks"))

from journals import entry_text, sum_of  # noqa: E402
from trials import KEPT, scratch_program  # noqa: E402

TIMES = 3
NOW = 1_700_000_000_000
CHAT = ROOT / "examples" / "chat"
LIVE, GROUP = 10_000, 64
IDENTIFIER = b"k3w9x2m7q5t1z8b4"
DIGITS = "0123456789abcdefghijklmnopqrstuvwxyz"
PIECE = 1_000_000
USUAL = {"recovery": 1_000_000, "bytes": 1_000_000_000, "torn": 100_000_000, "appending": 20_000}


# ---- the requests of a chat


def key_of(number):
    """A key as the client makes one: it has the moment and eleven random letters."""
    moment, text = NOW + number, ""
    while moment:
        moment, digit = divmod(moment, 36)
        text = DIGITS[digit] + text
    return f"-{text.rjust(9, '0')}{hashlib.sha1(b'%d' % number).hexdigest()[:11]}"


def requests():
    """What is sent, without end: its moment, its verb, and its other members as text."""
    room = '"path":"/rooms/lobby","value":{"title":"The lobby","members":{"ann":"owner"}}'
    yield NOW, "set", room
    number = 0
    while True:
        text = f"What was said as number {number}, which is as long as such things are."
        yield NOW + number, "set", f'"path":"/messages/lobby/{key_of(number)}","value":{{"by":"ann","at":{{".sv":"timestamp"}},"text":"{text}"}}'
        number += 1
        if number > LIVE:
            yield NOW + number, "remove", f'"path":"/messages/lobby/{key_of(number - LIVE - 1)}"'


def script_lines(many):
    """The lines of a script with so many requests."""
    header = {"rules": (CHAT / "rules.json").read_text(encoding="utf-8"), **json.loads((CHAT / "tokens.json").read_text(encoding="utf-8"))}
    yield json.dumps(header)
    yield f'{{"do":"open","now":{NOW},"s":1}}'
    yield f'{{"do":"signin","now":{NOW},"s":1,"token":"secret of ann"}}'
    for now, verb, members in islice(requests(), many - 2):
        yield f'{{"do":"{verb}","now":{now},"s":1,{members}}}'


def entries():
    """The entries of the same, without end, behind those of the snapshot."""
    yield b"rules " + (CHAT / "rules.json").read_bytes()
    yield b"tree null"
    yield b"begin"
    yield b"%d 1 open" % NOW
    yield b'%d 1 signin {"uid":"ann","provider":"password","admin":false,"claims":[]}' % NOW
    for now, verb, members in requests():
        yield f'{now} 1 {{"do":"{verb}",{members}}}'.encode()


class Writer:
    """Writes a journal group by group."""

    def __init__(self, file):
        title = b"rtdb journal 1 " + IDENTIFIER + b" "
        self.file, self.before, self.number = file, sum_of(title), 1
        file.write(title + self.before + b"\n")
        self.len = self.durable = 97

    def group(self, some, stays=True):
        """Writes a group, and says whether more is on the disk since."""
        text = b"".join(map(entry_text, some))
        front = IDENTIFIER + b" %012d %08d %015d " % (self.number, len(text), self.durable) + self.before + b" "
        self.before = sum_of(front + text)
        self.file.write(front + self.before + b"\n" + text)
        self.len, self.number = self.len + 185 + len(text), self.number + 1
        self.durable = self.len if stays else self.durable


def write_journal(path, many=None, size=None):
    """A journal of so many entries behind its snapshot, or of some more bytes than these."""
    with path.open("wb") as file:
        writer, all_entries = Writer(file), entries()
        writer.group(islice(all_entries, 3))
        done = 0
        while (writer.len < size) if size else (done < many):
            least = GROUP if size else min(GROUP, many - done)
            writer.group(islice(all_entries, least))
            done += least
    return done


# ---- what is measured


def peak_of(process):
    """The most memory that a process has had so far, in bytes, as long as it runs."""
    found = re.search(r"VmHWM:\s+(\d+)", Path(f"/proc/{process}/status").read_text(encoding="ascii"))
    return int(found[1]) * 1024 if found else 0


def run(words, given=None):
    """The processor seconds of a user's and of the system's, the peak in bytes, and what was said."""
    with tempfile.TemporaryFile() as said, open(given or os.devnull, "rb") as source:
        child, peak = subprocess.Popen(words, stdin=source, stdout=said), 0
        while os.waitid(os.P_PID, child.pid, os.WEXITED | os.WNOHANG | os.WNOWAIT) is None:
            peak = max(peak, peak_of(child.pid))
            time.sleep(0.005)
        _, status, used = os.wait4(child.pid, 0)
        child.returncode = os.waitstatus_to_exitcode(status)
        said.seek(0)
        answer = said.read(200)
    if child.returncode:
        sys.exit(f"journals.py: {words} ended with status {child.returncode}")
    return used.ru_utime, used.ru_stime, peak, answer


def least(runs):
    """The run with the least processor time."""
    return min(runs, key=lambda it: it[0] + it[1])


def recovered(kept, path, room, times=TIMES):
    """The least run of a recovery, each of a copy of its own where the file is cut."""
    found = []
    for _ in range(times):
        copy = room / "copy"
        shutil.copyfile(path, copy)
        found.append(run([kept, "recover", copy]))
        if not found[-1][3].startswith(b"recovered"):
            sys.exit(f"journals.py: {path} is not recovered: {found[-1][3]}")
    copy.unlink()
    return least(found)


def say(what, used, extra=""):
    print(f"{what}: {used[0]:.3f} s, and {used[1]:.3f} s of the system's; {used[2] / 1e6:.0f} MB{extra}", flush=True)


def recovery(program, kept, room, many):
    script, journal = room / "script", room / "journal"
    with script.open("w", encoding="utf-8") as file:
        file.writelines(f"{line}\n" for line in script_lines(many))
    write_journal(journal, many)
    ran = least([run([program, "run"], script) for _ in range(TIMES)])
    say(f"a script of {many} requests, {script.stat().st_size / 1e6:.0f} MB", ran)
    found = recovered(kept, journal, room)
    say(f"a journal of {many} entries, {journal.stat().st_size / 1e6:.0f} MB", found)
    print(f"the journal takes {sum(found[:2]) / sum(ran[:2]):.2f} times as long as the script")


def of_bytes(program, kept, room, size):
    journal = room / "journal"
    done = write_journal(journal, size=size)
    found = recovered(kept, journal, room, 1)
    say(f"a journal of {journal.stat().st_size / 1e6:.0f} MB, {done} entries", found)


def tails(size):
    """What may stand behind the end of a journal: its name, and a function that writes it."""
    dice = random.Random(1)

    def groups(writer):
        # (a group that is torn, and whole ones behind it that were never on the disk for sure)
        all_entries = islice(entries(), 5, None)
        end = writer.len + size
        at = writer.file.tell()
        while writer.len < end:
            writer.group(islice(all_entries, GROUP), stays=False)
        writer.file.seek(at + 300)
        writer.file.write(b"\0")

    def pieces(make):
        return lambda writer: [writer.file.write(make(PIECE)) for _ in range(size // PIECE)]

    yield "zeros", pieces(bytes)
    yield "random bytes", pieces(dice.randbytes)
    yield "a first letter of the identifier at each place", pieces(lambda many: IDENTIFIER[:1] * many)
    yield "whole groups behind a torn one", groups


def torn(program, kept, room, size):
    for name, write in tails(size):
        journal = room / "journal"
        with journal.open("wb") as file:
            writer, all_entries = Writer(file), entries()
            for _ in range(1000 // GROUP):
                writer.group(islice(all_entries, GROUP))
            write(writer)
        say(f"{size / 1e6:.0f} MB behind the end, {name}", recovered(kept, journal, room, 1))


def appending(program, kept, room, many):
    journal = room / "journal"
    for verb in ("append", "compose"):
        once, twice = (least([run([kept, verb, journal, str(it)]) for _ in range(TIMES)]) for it in (many, 2 * many))
        user, system = ((b - a) / many * 1e6 for a, b in zip(once[:2], twice[:2]))
        print(f"{verb} of a group of {GROUP}: {user:.1f} µs, and {system:.1f} of the system's", flush=True)


BENCHES = {"recovery": recovery, "bytes": of_bytes, "torn": torn, "appending": appending}


def main():
    parser = argparse.ArgumentParser(description=__doc__.split("\n")[0])
    parser.add_argument("program", type=Path, help="the built program")
    parser.add_argument("--kept", type=Path, help="the scratch program, else it is built")
    parser.add_argument("bench", nargs="?", choices=BENCHES)
    parser.add_argument("number", nargs="?", type=int)
    given = parser.parse_intermixed_args()
    with tempfile.TemporaryDirectory(prefix="rtdb-bench-") as room:
        room = Path(room)
        kept = scratch_program(KEPT, given.kept)
        for name in [given.bench] if given.bench else BENCHES:
            BENCHES[name](given.program.resolve(), kept, room, given.number or USUAL[name])


main()
