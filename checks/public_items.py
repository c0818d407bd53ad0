"""What a crate hands out, as its code has it: functions with their clauses, types, doc comments, and how many tests it has."""

import re
from dataclasses import dataclass

from contracts import CLAUSES, HEAD, end_of_block, end_of_signature, tokens_of

# What a function that stands further in belongs to: the type of an impl, or a trait.
OWNER = re.compile(r"^(?:pub(?:\([^)]*\))? )?(?:impl(?:<.*?>)? (?:.* for )?|trait )(\w+)", re.M)
TYPE = re.compile(r"^(?:pub(?:\([^)]*\))? )?(?:struct|enum|trait|type) (\w+)", re.M)
HANDED_OUT = re.compile(r"^pub use [\w:]+?::(?:\{([^}]*)\}|(\w+));", re.M)
TEST = re.compile(r"^ *#\[test\]", re.M)
TAKES_NOTHING = re.compile(r"fn\s+\w+\s*\(\s*(&self)?\s*\)\s*(->.*)?", re.S)


@dataclass
class Function:
    """A function: its name, with that of its type or trait, and what is said of it. A law takes and answers nothing, and what
    a trait declares has no code.
    """

    crate: str
    file: str
    owner: str
    bare: str
    is_public: bool
    is_declared: bool
    is_law: bool
    is_getter: bool
    doc: str
    clauses: list

    @property
    def name(self):
        return f"{self.owner}::{self.bare}" if self.owner else self.bare


@dataclass
class Clause:
    """A clause: its kind, its name, which may be empty, and what stands between its braces."""

    kind: str
    name: str
    says: str


@dataclass
class Crate:
    """A crate: what its root file says that it is, its functions, the names of its types, and how many tests it has."""

    name: str
    doc: str
    functions: list
    types: set
    tests: int


def comment_above(source, start):
    """The doc comment of the item that begins at a place, in one line, attributes below it aside."""
    said = []
    for line in reversed(source[:start].split("\n")[:-1]):
        line = line.strip()
        if line.startswith("///"):
            said.append(line[3:].strip())
        elif not line.startswith("#["):
            break
    return " ".join(reversed(said))


def signature_of(source):
    """The head of the function with which a text begins, without its clauses, and these."""
    tokens = tokens_of(source)
    i = next(k for k, token in enumerate(tokens) if token == ("word", "fn"))
    end, head, clauses = end_of_signature(tokens, i), [], []
    while i < end:
        if tokens[i][0] != "word" or tokens[i][1] not in CLAUSES:
            head.append(tokens[i][1])
            i += 1
            continue
        brace = next((k for k in range(i, end) if tokens[k][0] == "brace"), end)
        behind = end_of_block(tokens, brace)
        name, says = ("".join(it for _, it in tokens[a:b]) for a, b in ((i + 1, brace), (brace + 1, behind - 1)))
        clauses.append(Clause(tokens[i][1], name.strip(), re.sub(r"\s+", " ", says).strip()))
        i = behind
    return "".join(head), clauses


def functions_of(crate, file, source, handed_out):
    """The functions of a file. What a library's root does not hand out is not public; of a program all is that says so."""
    owners = list(OWNER.finditer(source))
    for head in HEAD.finditer(source):
        around = [it for it in owners if it.start() < head.start()] if head[1] else []
        owner = around[-1][1] if around else ""
        in_trait = bool(around) and "trait " in around[-1][0]
        # (code is formatted: a signature ends in the first line as far in as its head that a brace or a semicolon ends)
        end = re.compile(rf"^{head[1]}(?:\{{.*|\).*[{{}};]|\S.*\bfn .*[{{}};])$", re.M).search(source, head.start())
        signature, clauses = signature_of(source[head.start() : end.end() if end else len(source)])
        is_public = (around[-1][0] if in_trait else head[0].lstrip()).startswith("pub ")
        is_public = is_public and (handed_out is None or (owner or head[2]) in handed_out)
        form = TAKES_NOTHING.fullmatch(signature)
        is_law, is_getter = form is not None and not form[2], form is not None and form[1] is not None and form[2] is not None
        doc = comment_above(source, head.start())
        yield Function(crate, file, owner, head[2], is_public, in_trait, is_law, is_getter, doc, clauses)


def crate_of(folder):
    """Reads a crate."""
    paths = sorted((folder / "src").rglob("*.rt"))
    texts = {it.relative_to(folder).as_posix(): it.read_text(encoding="utf-8") for it in paths}
    root, handed_out = texts.get("src/lib.rt"), None
    if root is not None:
        handed_out = {it for use in HANDED_OUT.finditer(root) for it in re.findall(r"\w+", use[1] or use[2])}
        handed_out |= {it[2] for it in HEAD.finditer(root)} | {it[1] for it in TYPE.finditer(root)}
    about = [it[3:].strip() for it in (root or texts["src/main.rt"]).split("\n") if it.startswith("//!")]
    functions = [it for file, source in texts.items() for it in functions_of(folder.name, file, source, handed_out)]
    types = {it[1] for source in texts.values() for it in TYPE.finditer(source)}
    doc = " ".join(about[: about.index("")] if "" in about else about)
    return Crate(folder.name, doc, functions, types, sum(len(TEST.findall(it)) for it in texts.values()))
