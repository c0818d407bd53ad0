"""Tries planted edits drawn at random, within so many processor minutes: `checks/planted --sample MINUTES`.

Each is tried from nothing over the libraries that a run of `rt ci` has left beside the crates. Several edits of a crate
are tried in one check, where each turns a function that calls none of the others' functions; that check reads only these
functions and what they call. An edit that its own function does not refuse is tried in a check of the whole crate.
"""

import random
import re
import shutil
import signal
import sys
import tempfile
import threading
import time
from pathlib import Path

from contracts import functions_in
from records import ABOVE, PRESENT, Record, below, files_in_force, libraries_by_crate, note_refused
from scratch import ROOT, begin, edits_in, end_all, lanes, stop, wait_for

# What a check takes in processor seconds: to load the libraries, and for each line of code, its proof included; as measured.
LOADING, A_LINE = 20, 0.3
# What an edit comes to with which a crate is proved.
STAYS = "STAYS PROVED"
# How many edits one check tries at most.
MOST = 12
# A check that takes so many times what was expected of it is ended.
PATIENCE = 4


class Crate:
    """A crate whose edits are drawn: its functions, which of them each edit turns, and what each calls."""

    def __init__(self, name, crates, turned_by, reached_from):
        self.name, self.folder = name, ROOT / "crates" / name
        self.functions = functions_in(self.folder)
        self.calls = reached_from(self.functions)
        self.lines = {}
        for it in self.functions:
            self.lines[it.name] = self.lines.get(it.name, 0) + it.lines
        record = Record(name, crates)
        edits = [it for it in edits_in(self.folder / "planted") if not ABOVE.search(it.read_text(encoding="utf-8"))]
        # (an edit of a definition turns no function, and wants a check of the whole crate)
        self.turned = {it: turned_by(it, self.folder, self.functions) for it in edits}
        self.is_known = {it: record.says(it) == PRESENT for it in self.turned}
        self.files = files_in_force(name, crates)

    def cost(self, edits):
        """What a check of the functions that these edits turn is expected to take, in processor seconds."""
        if not all(self.turned[it] for it in edits):
            return self.whole_cost()
        names = {it.name for edit in edits for it in self.turned[edit]}
        reached = names.union(*(self.calls[it] for it in names))
        return LOADING + A_LINE * sum(self.lines[it] for it in reached)

    def whole_cost(self):
        return LOADING + A_LINE * sum(self.lines.values())

    def is_apart(self, edit, group):
        """Whether no function that this edit turns may call one that another edit turns, or be called by it."""
        if not all(self.turned[it] for it in (edit, *group)):
            return False
        names = {it.name for it in self.turned[edit]}
        others = {it.name for other in group for it in self.turned[other]}
        return not names & others and not any(self.calls[it] & others for it in names) and not any(self.calls[it] & names for it in others)


# ---- checks


def kit_folder():
    """The folder of the kit whose `rt` is on the path."""
    return Path(shutil.which("rt") or stop("the kit's command rt is not on the path")).resolve().parent.parent


def words_of_check(name, only):
    """The command that checks these functions of a crate, or all, from nothing, over the libraries that stand beside the crates."""
    kit, ours = kit_folder(), libraries_by_crate()
    rows = [line.split(":", 1) for line in (ROOT / "crates.txt").read_text(encoding="utf-8").splitlines() if ":" in line]
    uses = next(deps.split() for front, deps in rows if front.split()[0] == name)
    root = "main" if (ROOT / "crates" / name / "src" / "main.rt").is_file() else "lib"
    words = [kit / "bin" / "rattle", "check", "--crate-name", name, f"src/{root}.rt"]
    for it in ["std", *(it for it in uses if it not in ours)]:
        words += ["--extern", f"{it}={kit}/rlibs/{it}.rlib"]
    words += ["-L", f"dependency={kit}/rlibs"]
    for it in (it for it in uses if it in ours):
        words += ["--extern", f"{it}={library_of(it)}"]
    # (the libraries that these use themselves)
    for it in below(name, ours):
        words += ["-L", f"dependency={library_of(it).parent}"]
    words += ["--antt-project", kit / "rattle" / "logic" / "antt-project.json", "--logic-built", kit / "logic_built"]
    words += ["--jobs", "1", "--links", f"{name}="]
    return [str(it) for it in words] + [word for it in only for word in ("--only", it)]


def library_of(name):
    return ROOT / "crates" / name / "out" / "rlib" / f"{name}.rlib"


def has_libraries(name, crates):
    """Whether all that a crate stands on was built, after its files were written."""
    for it in below(name, crates):
        built = library_of(it) / "format"
        files = [file for part in ("src", "specs", "proofs") for file in (ROOT / "crates" / it / part).rglob("*") if file.is_file()]
        # (what is kept is linked into its place, which changes the time of its name alone)
        if not built.is_file() or built.stat().st_ctime < max(file.stat().st_mtime for file in files):
            return False
    return True


class Budget:
    """The processor seconds that are left, which several checks share."""

    def __init__(self, seconds):
        self.left, self.lock = seconds, threading.Lock()

    def reserve(self, seconds):
        """Takes what a check is expected to need, if it is left."""
        with self.lock:
            if seconds > self.left:
                return False
            self.left -= seconds
            return True

    def settle(self, expected, taken):
        with self.lock:
            self.left += expected - taken


def said_by_check(folder, name, only, most):
    """What a check says, its status, and the processor seconds that it took. One that takes longer than this is ended."""
    with tempfile.TemporaryFile("w+", errors="replace") as said:
        began = begin(words_of_check(name, only), folder, said)
        timer = threading.Timer(most, began.kill)
        timer.start()
        status, taken = wait_for(began)
        timer.cancel()
        said.seek(0)
        return said.read(), status, taken


# ---- drawing


class Sample:
    """What is drawn, and what became of it."""

    def __init__(self, crates, budget, seed):
        self.crates, self.budget, self.random = crates, budget, random.Random(seed)
        self.left = [(it, edit) for it in crates for edit in it.turned]
        self.random.shuffle(self.left)
        # (those without a record come first, in the order drawn)
        self.left.sort(key=lambda it: it[0].is_known[it[1]])
        self.lock, self.judged = threading.Lock(), {}

    def next_group(self):
        """The next edit drawn, with others of its crate that may be tried in the same check, as far as the budget goes."""
        with self.lock:
            for crate, first in list(self.left):
                if crate.cost([first]) > self.budget.left:
                    continue
                group = [first]
                for other, edit in self.left:
                    if other is crate and edit != first and len(group) < MOST and crate.is_apart(edit, group):
                        if crate.cost([*group, edit]) <= max(crate.cost([first]) * 2, self.budget.left / 3):
                            group.append(edit)
                cost = crate.cost(group)
                if self.budget.reserve(cost):
                    self.left = [it for it in self.left if it[1] not in group]
                    return crate, group, cost
            return None

    def note(self, crate, edit, what):
        with self.lock:
            self.judged[f"{crate.name}/{edit.stem}"] = what
        if what == "refused":
            note_refused(crate.name, [edit.stem], crate.files)
        print(f"{crate.name}/{edit.stem}: {what}", flush=True)


def scratch_crate(name, room):
    """A copy of a crate's code and proofs."""
    folder = Path(room) / name
    for part in ("src", "specs", "proofs"):
        if (ROOT / "crates" / name / part).is_dir():
            shutil.copytree(ROOT / "crates" / name / part, folder / part)
    return folder


def try_alone(sample, crate, edit, changed_by):
    """Tries one edit in a check of the whole crate, if the budget has room for it."""
    cost = crate.whole_cost()
    if not sample.budget.reserve(cost):
        return sample.note(crate, edit, "not decided: it wants a check of the whole crate, which takes longer than is left")
    with tempfile.TemporaryDirectory(prefix="rtdb-sample-") as room:
        folder = scratch_crate(crate.name, room)
        file, pairs = changed_by(edit)
        text = (folder / file).read_text(encoding="utf-8")
        for old, new in pairs:
            text = text.replace(old, new)
        (folder / file).write_text(text, encoding="utf-8")
        said, status, taken = said_by_check(folder, crate.name, [], PATIENCE * cost)
    sample.budget.settle(cost, taken)
    refused = status == 1 and re.search(r"^logic=not-proved", said, re.M)
    bad = re.search(r"\berror\[[\w-]+\]", said) and not refused
    sample.note(crate, edit, "refused" if refused else STAYS if status == 0 else "BAD EDIT: it does not compile" if bad else "not decided")


def work(sample, try_group, changed_by):
    """Tries groups of edits, one after the other, until the budget is used up."""
    while (drawn := sample.next_group()) is not None:
        crate, group, cost = drawn
        if not crate.turned[group[0]]:
            sample.budget.settle(cost, 0)
            try_alone(sample, crate, group[0], changed_by)
            continue
        taken = []

        def check(folder, only):
            said, status, seconds = said_by_check(folder, crate.name, only, PATIENCE * cost)
            taken.append((status, seconds))
            return said

        with tempfile.TemporaryDirectory(prefix="rtdb-sample-") as room:
            verdicts = try_group(scratch_crate(crate.name, room), group, crate.turned, check)
        sample.budget.settle(cost, sum(seconds for _, seconds in taken))
        was_ended = any(status < 0 for status, _ in taken)
        for edit, is_refused in verdicts.items():
            if is_refused:
                sample.note(crate, edit, "refused")
            elif was_ended:
                sample.note(crate, edit, "not decided: its check took longer than was expected")
            else:
                try_alone(sample, crate, edit, changed_by)


def sample_edits(minutes, seed, turned_by, reached_from, try_group, changed_by):
    """Tries edits drawn at random within so many processor minutes. The status is 1 where one stays proved, or none is refused."""
    crates = libraries_by_crate()
    names = [it for it in crates if edits_in(ROOT / "crates" / it / "planted") and has_libraries(it, crates)]
    if not names:
        stop("no crate with planted edits has its libraries built: run rt ci first")
    print(f"a sample of planted edits, drawn by the seed {seed}: at most {minutes} processor minutes", flush=True)
    sample = Sample([Crate(it, crates, turned_by, reached_from) for it in names], Budget(60 * minutes), seed)
    began = time.monotonic()
    threads = [threading.Thread(target=work, args=(sample, try_group, changed_by), daemon=True) for _ in range(lanes())]
    # (an end by a signal ends the checks too)
    signal.signal(signal.SIGTERM, lambda number, frame: sys.exit(128 + number))
    try:
        for it in threads:
            it.start()
        for it in threads:
            it.join()
    finally:
        end_all()
    found = list(sample.judged.values())
    refused, stays = found.count("refused"), found.count(STAYS)
    bad = sum(it.startswith("BAD EDIT") for it in found)
    print(f"{60 * minutes - sample.budget.left:.0f} processor seconds in {time.monotonic() - began:.0f} seconds")
    print(f"{len(found) - refused - stays - bad} not decided, {bad} to be mended")
    print(f"{refused} passed, {stays} failed")
    return 1 if stays or not refused else 0
