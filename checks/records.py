"""Records of planted edits: which of them the proofs have refused, over which files.

The file planted/record of a crate has a line for each edit that was refused: its name, the sum of the edit, and the sum of
all on which that verdict depends: the files of the crate, and what it sees of the crates below, their definitions and what
they promise. Lines that are comments alone do not count. A refusal over files that have changed since stays in the record
as one with earlier files, until the same edit is refused again.
"""

import hashlib
import re
import threading

from contracts import without_bodies
from scratch import ROOT, edits_in, libraries_by_crate

ABOVE = re.compile(r"^above: (\w+)$", re.M)
COMMENTS = {".rt": "//", ".antt": "--"}
REFUSED = re.compile(r"^refused (\S+) (\w+) (\w+)$")
# What is known of an edit.
PRESENT, EARLIER, NEVER = "refused with the present files", "refused with earlier files", "without a record"


def below(name, crates):
    """All crates that this one stands on, lowest first."""
    found = {it for dep in crates[name] for it in [*below(dep, crates), dep]}
    return [it for it in crates if it in found]


def without_comments(file, text):
    """The text of a file without the lines that are blank or only a comment, on which no verdict depends."""
    sign = COMMENTS.get(file.suffix)
    if sign is None:
        return text
    return "\n".join(it for it in text.splitlines() if it.strip() and not it.strip().startswith(sign))


def sum_of(texts):
    found = hashlib.sha256()
    for text in texts:
        found.update(text.encode() + b"\0")
    return found.hexdigest()[:32]


def files_of(name, *folders):
    found = [it for folder in folders for it in (ROOT / "crates" / name / folder).rglob("*") if it.is_file()]
    return sorted(it for it in found if it.name != "record")


def sum_of_own(name):
    """The sum of all files of a crate on which the verdict on an edit of it may depend."""
    files = files_of(name, "src", "specs", "proofs")
    return sum_of(text for it in files for text in (it.name, without_comments(it, it.read_text(encoding="utf-8"))))


SEEN = {}


def sum_of_seen(name):
    """The sum of what other crates see of one: its definitions, and its code without the bodies of functions."""
    if name not in SEEN:
        code = [without_bodies(it.read_text(encoding="utf-8")) for it in files_of(name, "src")]
        SEEN[name] = sum_of([*code, *(without_comments(it, it.read_text(encoding="utf-8")) for it in files_of(name, "specs"))])
    return SEEN[name]


def sum_of_edit(edit):
    return sum_of([edit.read_text(encoding="utf-8")])


def stood_on(name, crates):
    """The crates on which the verdicts on a crate's edits depend: those below, and those that refuse an edit of its definitions."""
    judges = {it for edit in edits_in(ROOT / "crates" / name / "planted") for it in ABOVE.findall(edit.read_text(encoding="utf-8"))}
    return [it for it in crates if it in judges or it in below(name, crates)]


def files_in_force(name, crates):
    """The sum of all files on which a verdict on the crate's edits depends now."""
    return sum_of([f"{name} {sum_of_own(name)}", *(f"{it} {sum_of_seen(it)}" for it in stood_on(name, crates))])


class Record:
    """The record of a crate."""

    def __init__(self, name, crates):
        self.file = ROOT / "crates" / name / "planted" / "record"
        lines = self.file.read_text(encoding="utf-8").splitlines() if self.file.exists() else []
        self.refused = {found[1]: (found[2], found[3]) for line in lines if (found := REFUSED.match(line))}
        self.files = files_in_force(name, crates)

    def says(self, edit):
        """What is known of an edit."""
        if self.refused.get(edit.stem) == (sum_of_edit(edit), self.files):
            return PRESENT
        return EARLIER if edit.stem in self.refused else NEVER

    def has(self, edit):
        return self.says(edit) == PRESENT

    def write(self):
        lines = [f"refused {edit} {' '.join(sums)}" for edit, sums in sorted(self.refused.items())]
        self.file.write_text("\n".join(lines) + "\n", encoding="utf-8")


recording = threading.Lock()


def note_refused(name, edits, files):
    """Adds refusals to the record of a crate, if its files are those of the start, and drops what is there of edits that are gone."""
    crates = libraries_by_crate()
    with recording:
        record = Record(name, crates)
        if not edits or files != record.files:
            return
        sums = {it.stem: sum_of_edit(it) for it in edits_in(record.file.parent)}
        record.refused = {edit: found for edit, found in record.refused.items() if edit in sums}
        record.refused |= {edit: (sums[edit], files) for edit in edits if edit in sums}
        record.write()


def known_of_edits(name, crates):
    """How many of a crate's planted edits were refused with the present files, how many with earlier ones, and how many never."""
    record = Record(name, crates)
    said = [record.says(it) for it in edits_in(ROOT / "crates" / name / "planted")]
    return {it: said.count(it) for it in (PRESENT, EARLIER, NEVER)}
