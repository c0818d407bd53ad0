"""What other crates see of a file of code: its items, without the bodies of its functions and without comments."""

import re

# A token that the parser of bodies has to know: what may hide a brace, the braces, and words.
TOKEN = re.compile(
    r"""(?P<comment>//[^\n]*)|(?P<text>b?"(?:[^"\\]|\\.)*"|b?r(?P<hashes>\#+)".*?"(?P=hashes)|b?'(?:[^'\\\n]|\\.[^'\n]*)'(?!\w))|(?P<brace>[{}])|(?P<word>\w+)|(?P<mark>[;()\[\]])|(?P<space>\s+)|(?P<other>.)""",
    re.S,
)
CLAUSES = {"requires", "ensures", "decreases", "preserves", "ghost"}


def tokens_of(source):
    """The tokens of a text, without comments, as pairs of kind and text."""
    found = [(it.lastgroup if it.lastgroup != "hashes" else "text", it[0]) for it in TOKEN.finditer(source)]
    return [it for it in found if it[0] not in ("comment",)]


def end_of_block(tokens, start):
    """The index behind the block whose brace stands at an index."""
    depth = 0
    for i in range(start, len(tokens)):
        if tokens[i][0] == "brace":
            depth += 1 if tokens[i][1] == "{" else -1
            if depth == 0:
                return i + 1
    return len(tokens)


def end_of_signature(tokens, start):
    """The index of the brace that opens the body of the function whose `fn` stands at an index, or of its semicolon."""
    i, depth, clause = start, 0, False
    while i < len(tokens):
        kind, text = tokens[i]
        if kind == "mark" and text in "([":
            depth += 1
        elif kind == "mark" and text in ")]":
            depth -= 1
        elif kind == "word" and text in CLAUSES and depth == 0:
            clause = True
        elif kind == "brace" and depth == 0:
            if not clause:
                return i
            i, clause = end_of_block(tokens, i), False
            continue
        elif kind == "mark" and text == ";" and depth == 0:
            return i
        i += 1
    return i


def without_bodies(source):
    """The items of a file, functions without their bodies, and blanks folded."""
    tokens, kept, i = tokens_of(source), [], 0
    while i < len(tokens):
        is_function = tokens[i] == ("word", "fn") and i + 2 < len(tokens) and tokens[i + 2][0] == "word"
        if not is_function:
            kept.append(tokens[i][1])
            i += 1
            continue
        end = end_of_signature(tokens, i)
        kept += [text for _, text in tokens[i:end]]
        is_body = end < len(tokens) and tokens[end][0] == "brace"
        kept.append(";" if is_body else "")
        i = end_of_block(tokens, end) if is_body else end
    return re.sub(r"\s+", " ", "".join(kept))


FUNCTION = re.compile(r"pub (?:const )?fn (\w+)")


def public_contracts(source):
    """The public functions of a file, each by its name with its signature and its clauses."""
    text = without_bodies(source)
    found = {}
    for it in FUNCTION.finditer(text):
        tokens = tokens_of(text[it.start() :])
        first = next(i for i, token in enumerate(tokens) if token == ("word", "fn"))
        said = "".join(token[1] for token in tokens[: end_of_signature(tokens, first)])
        found.setdefault(it[1], []).append(re.sub(r"\s+", " ", said).strip())
    return found


class Function:
    """A function of a crate: its name, the path by which a check calls it, where it stands, and the words in it."""

    def __init__(self, file, path, start, end, source):
        self.file, self.path, self.start, self.end = file, path, start, end
        self.name = path.split("::")[-1]
        self.lines = source.count("\n", start, end) + 1
        self.words = set(re.findall(r"\w+", source[start:end])) - {self.name}


IMPL = re.compile(r"^impl(?:<.*?>)? (?:.* for )?(\w+)", re.M)
HEAD = re.compile(r"^( *)(?:pub(?:\(crate\))? )?(?:const )?fn (\w+)", re.M)


TYPE = re.compile(r"^(?:pub(?:\(crate\))? )?(?:struct|enum) (\w+)", re.M)


def functions_in(folder):
    """The functions of a crate's code, as it is formatted: each ends at the first brace as far in as its head.

    A function of a type has the path of the module that declares the type, wherever it stands."""
    found, files = [], sorted((folder / "src").rglob("*.rt"))
    modules = {it: [part for part in it.relative_to(folder / "src").with_suffix("").parts if part not in ("lib", "main")] for it in files}
    homes = {it[1]: modules[path] for path in files for it in TYPE.finditer(path.read_text(encoding="utf-8"))}
    for path in files:
        source, file = path.read_text(encoding="utf-8"), path.relative_to(folder).as_posix()
        for head in HEAD.finditer(source):
            last = re.compile(rf"^{head[1]}}}|^{head[1]}\{{\}}", re.M).search(source, head.end())
            impls = [it for it in IMPL.finditer(source, 0, head.start())] if head[1] else []
            owner = impls[-1][1] if impls else None
            parts = [*homes.get(owner, modules[path]), owner, head[2]] if owner else [*modules[path], head[2]]
            found.append(Function(file, "::".join(parts), head.start(), last.end() if last else len(source), source))
    return found
