"""Builds a scratch program over the crates of the repository as `./build --unproved` builds the programs: with no proof."""

import hashlib
import os
import shutil
import tempfile
from importlib.machinery import SourceFileLoader
from pathlib import Path

from scratch import ROOT, stop

build = SourceFileLoader("build", str(ROOT / "build")).load_module()

# What each program uses itself.
MACHINE = ["journal", "disk", "entries", "requests", "json_lines", "tokens", "rtdb_core", "rtdb_model", "listeners", "judge", "evaluator",
           "rules_reader", "arena_snapshot", "path_capture", "json_tree", "tree_model", "serde_json", "bumpalo"]
KEPT = "kept", ["store", *MACHINE]
SHARED = "shared", ["hall_journal", "store", "locked_server", *MACHINE]


def scratch_program(which, named=None):
    """The file of the program: that which is named, if it is there, or out/NAME, which is built where a source has changed since."""
    if named:
        return named.resolve() if named.is_file() else stop(f"there is no {named}")
    if (line := build.kit_line()) != build.wanted_kit():
        stop(f"this way to build was not tried with the kit\n  {line}")
    name, uses = which
    crates = build.below(uses, build.crates_with_uses())
    note = hashlib.sha256((build.sum_of_sources(crates, line) + build.sum_of(source_of(name))).encode()).hexdigest()
    made, said = ROOT / "out" / name, ROOT / "out" / f"{name}.built"
    if not made.is_file() or not said.is_file() or said.read_text(encoding="utf-8") != note:
        made.parent.mkdir(exist_ok=True)
        said.unlink(missing_ok=True)
        build_to(made, name, uses)
        said.write_text(note, encoding="utf-8")
    return made


def source_of(name):
    return ROOT / "checks" / f"{name}.program"


def build_to(file, name, uses):
    """Builds the program in a copy, whose crates are those of the repository, and leaves it in a file."""
    with tempfile.TemporaryDirectory(prefix="rtdb-checks-") as room:
        copy = Path(room) / "copy"
        (copy / "crates" / name / "src").mkdir(parents=True)
        for it in (ROOT / "crates").iterdir():
            (copy / "crates" / it.name).symlink_to(it)
        shutil.copyfile(source_of(name), copy / "crates" / name / "src" / "main.rt")
        table = (ROOT / "crates.txt").read_text(encoding="utf-8")
        (copy / "crates.txt").write_text(f"{table}{name}: {' '.join(uses)}\n", encoding="utf-8")
        build.ROOT = copy
        try:
            made = build.build_unproved(name, build.kit_folder(), Path(room) / "made")
        except OSError as error:
            stop(str(error))
        finally:
            build.ROOT = ROOT
        shutil.copy(made, f"{file}.new")
        os.replace(f"{file}.new", file)
