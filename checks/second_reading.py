"""A second reading of docs/RULES.md and docs/PROTOCOL.md: what a script is owed, written from these pages alone.

`answers(script)` takes the bytes of a script and gives the lines that answer it, byte for byte. It is written to be read
beside the pages, with nothing of the program's code in it, so that a mistake in the one is not a mistake in the other. It
knows nothing of memory, so it never answers `NoMemory`.

A tree is None where nothing stands, a boolean, a number or a text, or a dict of children, of which none is None.
"""

import json
import re
import sys
from collections import namedtuple

MOST = 2**53 - 1
MOST_TEXT = 65_536
MOST_LINE = 1_048_576

CODES = {
    "BadJson": 101, "BadRequest": 102, "BadPath": 103, "BadValue": 104, "TooDeep": 105, "BadQuery": 106,
    "EmptyUpdate": 107, "Overlap": 108, "TooLarge": 109, "UnknownToken": 201, "NoSession": 202, "SessionOpen": 203,
    "TooManySessions": 204, "NotAdmin": 205, "Leaving": 206, "TooManyActions": 207, "BadTokens": 208, "NotLeaving": 209,
    "DuplicateId": 301, "NoListener": 302, "TooManyListeners": 303, "BadRulesJson": 401, "BadRulesShape": 402,
    "BadExpression": 403, "NotInProfile": 404, "TypeError": 405, "UnknownName": 406, "TooManyRules": 407,
    "ReadDenied": 501, "WriteDenied": 502, "ValidateDenied": 503, "TreeFull": 504,
}

# (a chain of one operator is as deep as a text of 4,096 bytes has operators)
sys.setrecursionlimit(20_000)


class Refused(Exception):
    """A refusal: its name and its further members."""

    def __init__(self, name, **members):
        super().__init__(name)
        self.name, self.members = name, members

    def answer(self):
        return {"code": CODES[self.name], "name": self.name, "ok": False, **self.members}


def size(text):
    return len(text.encode("utf-8"))


def is_text(value):
    """A text that may be stored, bound a query or name somebody."""
    return isinstance(value, str) and size(value) <= MOST_TEXT


def is_whole(value):
    return type(value) is int and -MOST <= value <= MOST


def is_primitive(value):
    return isinstance(value, bool) or is_whole(value) or is_text(value)


# ---- JSON

SPACES = re.compile(r"[ \t\n\r]*")
STRING = re.compile(r'"(?:[^"\\\x00-\x1f]|\\["\\/bfnrt]|\\u[0-9a-fA-F]{4})*"')
NUMBER = re.compile(r"(-?(?:0|[1-9][0-9]*))((?:\.[0-9]+)?(?:[eE][-+]?[0-9]+)?)")
HALF_OF_A_PAIR = re.compile("[\ud800-\udfff]")
LITERALS = {"null": None, "true": True, "false": False}
MOST_NESTED = 127
# What a number is that is no whole one.
FRACTION = object()


class BadJson(Exception):
    pass


class JsonReader:
    """Reads the JSON value of a text."""

    def __init__(self, text):
        self.text, self.at = text, 0

    def whole(self):
        value = self.value(0)
        if self.next() != "":
            raise BadJson
        return value

    def next(self):
        """The next character that is no space, or the empty text at the end."""
        self.at = SPACES.match(self.text, self.at).end()
        return self.text[self.at : self.at + 1]

    def value(self, levels):
        first = self.next()
        if first == '"':
            return self.string()
        if first in ("{", "["):
            if levels == MOST_NESTED:
                raise BadJson
            self.at += 1
            return self.object(levels + 1) if first == "{" else self.array(levels + 1)
        for word, meant in LITERALS.items():
            if self.text.startswith(word, self.at):
                self.at += len(word)
                return meant
        return self.number()

    def string(self):
        found = STRING.match(self.text, self.at)
        if not found:
            raise BadJson
        self.at = found.end()
        text = json.loads(found[0])
        # (half of a UTF-16 pair is no character, so there is no UTF-8 of it)
        if HALF_OF_A_PAIR.search(text):
            raise BadJson
        return text

    def number(self):
        found = NUMBER.match(self.text, self.at)
        if not found or float(found[0]) in (float("inf"), float("-inf")):
            raise BadJson
        self.at = found.end()
        if found[2] or found[1] == "-0" or len(found[1]) > 20:
            return FRACTION
        return int(found[1])

    def array(self, levels):
        elements = []
        if self.next() == "]":
            self.at += 1
            return elements
        while True:
            elements.append(self.value(levels))
            if self.goes_on("]"):
                return elements

    def object(self, levels):
        members = {}
        if self.next() == "}":
            self.at += 1
            return members
        while True:
            if self.next() != '"':
                raise BadJson
            name = self.string()
            if self.next() != ":":
                raise BadJson
            self.at += 1
            # (of two members of one name the last counts)
            members[name] = self.value(levels)
            if self.goes_on("}"):
                return members

    def goes_on(self, end):
        """Whether the end stands here, and not a comma."""
        found = self.next()
        if found not in (",", end) or found == "":
            raise BadJson
        self.at += 1
        return found == end


def read_json(data):
    """The JSON value of bytes."""
    try:
        text = data.decode("utf-8")
    except UnicodeDecodeError:
        raise BadJson from None
    return JsonReader(text).whole()


def written(value):
    """Compact JSON, with the members in the order of their names."""
    return json.dumps(value, ensure_ascii=False, separators=(",", ":"), sort_keys=True)


# ---- keys, paths and trees

NO_KEY = re.compile(r"[\x00-\x1f\x7f.$#\[\]/]")
MOST_KEY = 768
MOST_KEYS = 32
MOST_LOCATIONS = 65_536


def is_key(text):
    return 1 <= size(text) <= MOST_KEY and not NO_KEY.search(text)


def pieces(text):
    """The pieces of a path: empty ones are dropped."""
    return tuple(it for it in text.split("/") if it)


def read_path(text):
    path = pieces(text)
    if not all(map(is_key, path)):
        raise Refused("BadPath")
    return within_depth(path)


def within_depth(path):
    if len(path) > MOST_KEYS:
        raise Refused("TooDeep")
    return path


def printed(path):
    return "/" + "/".join(path)


def is_lawful(value):
    """Whether all keys and primitives of a JSON value are lawful."""
    if isinstance(value, dict):
        return all(is_key(key) and is_lawful(it) for key, it in value.items())
    if isinstance(value, list):
        return all(map(is_lawful, value))
    return value is None or is_primitive(value)


def tree_of(value):
    """The tree that a lawful JSON value describes."""
    if isinstance(value, list):
        value = {str(at): it for at, it in enumerate(value)}
    if isinstance(value, dict):
        children = {key: tree_of(it) for key, it in value.items()}
        return {key: it for key, it in children.items() if it is not None} or None
    return value


def children_of(tree):
    return tree if isinstance(tree, dict) else {}


def depth(tree):
    """The most keys above a primitive."""
    return max((1 + depth(it) for it in children_of(tree).values()), default=0)


def count(tree):
    """How many locations exist."""
    return 0 if tree is None else 1 + sum(map(count, children_of(tree).values()))


def with_moment(value, now):
    """A written value with a moment in the place of each form that stands for it."""
    if value == {".sv": "timestamp"}:
        return now
    if isinstance(value, dict):
        return {key: with_moment(it, now) for key, it in value.items()}
    if isinstance(value, list):
        return [with_moment(it, now) for it in value]
    return value


def read_tree(value):
    if not is_lawful(value):
        raise Refused("BadValue")
    tree = tree_of(value)
    if depth(tree) > MOST_KEYS:
        raise Refused("TooDeep")
    return tree


def sub(tree, path):
    """What stands at a path."""
    for key in path:
        tree = children_of(tree).get(key)
    return tree


def put(tree, path, new):
    """The tree with another one at a path."""
    if not path:
        return new
    child = put(children_of(tree).get(path[0]), path[1:], new)
    if child is None:
        # (null below a primitive changes nothing)
        return {key: it for key, it in tree.items() if key != path[0]} or None if isinstance(tree, dict) else tree
    return {**children_of(tree), path[0]: child}


def proposed(tree, writes):
    for path, new in writes:
        tree = put(tree, path, new)
    return tree


# ---- expressions: tokens

MOST_EXPRESSION = 4_096
BLANK = re.compile(r"[ \t\n\r]+")
LEFT_OUT_NUMBER = re.compile(r"[0-9]+(?:\.[0-9]|[eE])")
DIGITS = re.compile(r"[0-9]+")
WORD = re.compile(r"[A-Za-z_][A-Za-z0-9_]*")
CAPTURE = re.compile(r"\$([A-Za-z_][A-Za-z0-9_]*)")
SIGNS = re.compile(r"===|!==|<=|>=|==|!=|&&|\|\||[()\[\],.?:!\-+*%<>]")
ESCAPES = {"\\": "\\", "'": "'", '"': '"', "/": "/", "b": "\b", "f": "\f", "n": "\n", "r": "\r", "t": "\t"}
FOUR_DIGITS = re.compile(r"[0-9a-fA-F]{4}")

# What a token is (number, text, word, capture, sign, end), what it says, and where it begins, in characters.
Token = namedtuple("Token", "kind said at")


class Fault(Exception):
    """A fault of an expression: its name, and where it shows (in characters) or what it is about."""

    def __init__(self, name, at=None, what=None):
        super().__init__(name)
        self.name, self.at, self.what = name, at, what


def bad(at):
    return Fault("BadExpression", at)


def tokens_of(text):
    """All tokens of an expression, or the fault that begins first."""
    try:
        found, fault = list(tokens_until_a_fault(text)), None
    except Fault as it:
        found, fault = None, it
    if size(text) > MOST_EXPRESSION and (fault is None or size(text[: fault.at]) >= MOST_EXPRESSION):
        raise Fault("BadExpression", what=MOST_EXPRESSION)
    if fault:
        raise fault
    return found


def tokens_until_a_fault(text):
    at = 0
    while True:
        blank = BLANK.match(text, at)
        at = blank.end() if blank else at
        if at == len(text):
            yield Token("end", None, at)
            return
        token, at = token_at(text, at)
        yield token


def token_at(text, at):
    """The longest token at a place, and where it ends."""
    if text[at] in "'\"":
        said, end = quoted(text, at)
        return Token("text", said, at), end
    if LEFT_OUT_NUMBER.match(text, at):
        raise Fault("NotInProfile", at, "number")
    if text[at] == "/":
        raise Fault("NotInProfile", at, "/")
    if found := DIGITS.match(text, at):
        if len(found[0].lstrip("0")) > 16 or int(found[0]) > MOST:
            raise bad(at)
        return Token("number", int(found[0]), at), found.end()
    if found := WORD.match(text, at):
        return Token("word", found[0], at), found.end()
    if found := CAPTURE.match(text, at):
        return Token("capture", found[1], at), found.end()
    if found := SIGNS.match(text, at):
        said = {"===": "==", "!==": "!="}.get(found[0], found[0])
        return Token("sign", said, at), found.end()
    raise bad(at)


def quoted(text, at):
    """What a text in quotes means, and where it ends."""
    quote, at, said = text[at], at + 1, []
    while at < len(text):
        if text[at] == quote:
            return "".join(said), at + 1
        if text[at] != "\\":
            said.append(text[at])
            at += 1
            continue
        escape, digits = text[at + 1 : at + 2], FOUR_DIGITS.match(text, at + 2)
        if escape in ESCAPES:
            said.append(ESCAPES[escape])
            at += 2
        elif escape == "u" and digits and not 0xD800 <= int(digits[0], 16) <= 0xDFFF:
            said.append(chr(int(digits[0], 16)))
            at += 6
        else:
            raise bad(at)
    raise bad(at)


# ---- expressions: the grammar
#
# An expression is a tuple that begins with its form:
#   ("literal", value)   ("variable", name)   ("capture", name)   ("parenthesis", expression)
#   ("!", a)   ("negated", a)   ("?", a, b, c)   an operator with two: ("&&", a, b)
#   ("use", receiver, name, arguments), where arguments is None for what is not called
#   ("list", elements), which stands among arguments alone

# The levels of the operators with two operands, from the loosest to the tightest.
LEVELS = [("||",), ("&&",), ("==", "!="), ("<", "<=", ">", ">="), ("+", "-"), ("*", "%")]
MOST_OPEN = 64


class Parser:
    def __init__(self, tokens):
        self.tokens, self.open = tokens, 0

    def whole(self):
        made = self.expression()
        if self.tokens[0].kind != "end":
            self.refuse()
        return made

    def refuse(self):
        raise bad(self.tokens[0].at)

    def is_sign(self, *signs):
        return self.tokens[0].kind == "sign" and self.tokens[0].said in signs

    def take(self):
        return self.tokens.pop(0).said

    def take_sign(self, sign):
        if not self.is_sign(sign):
            self.refuse()
        return self.take()

    def take_opening(self):
        """Takes a token that opens a level."""
        if self.open == MOST_OPEN:
            self.refuse()
        self.open += 1
        return self.take()

    def expression(self):
        condition = self.operation(0)
        if not self.is_sign("?"):
            return condition
        self.take_opening()
        chosen = self.expression()
        self.take_sign(":")
        otherwise = self.expression()
        self.open -= 1
        return "?", condition, chosen, otherwise

    def operation(self, level):
        if level == len(LEVELS):
            return self.unary()
        made = self.operation(level + 1)
        while self.is_sign(*LEVELS[level]):
            made = self.take(), made, self.operation(level + 1)
        return made

    def unary(self):
        if not self.is_sign("!", "-"):
            return self.postfix()
        sign = self.take_opening()
        operand = self.unary()
        self.open -= 1
        return "!" if sign == "!" else "negated", operand

    def postfix(self):
        made = self.primary()
        while self.is_sign("."):
            self.take()
            if self.tokens[0].kind != "word":
                self.refuse()
            name = self.take()
            made = "use", made, name, self.arguments() if self.is_sign("(") else None
        if self.is_sign("["):
            raise Fault("NotInProfile", self.tokens[0].at, "[")
        return made

    def primary(self):
        kind, said, _ = self.tokens[0]
        if kind in ("number", "text"):
            return "literal", self.take()
        if kind == "word":
            self.take()
            return ("literal", LITERALS[said]) if said in LITERALS else ("variable", said)
        if kind == "capture":
            return "capture", self.take()
        if not self.is_sign("("):
            self.refuse()
        self.take_opening()
        made = self.expression()
        self.take_sign(")")
        self.open -= 1
        return "parenthesis", made

    def arguments(self):
        self.take_opening()
        made = []
        while made or not self.is_sign(")"):
            made.append(self.argument())
            if not self.is_sign(","):
                break
            self.take()
        self.take_sign(")")
        self.open -= 1
        return made

    def argument(self):
        if not self.is_sign("["):
            return self.expression()
        self.take_opening()
        elements = [self.expression()]
        while self.is_sign(","):
            self.take()
            elements.append(self.expression())
        self.take_sign("]")
        self.open -= 1
        return "list", elements


def parse(text):
    return Parser(tokens_of(text)).whole()


# ---- expressions: sorts

VARIABLES = {
    ".read": {"auth": "auth", "now": "value", "root": "snapshot", "data": "snapshot", "query": "query"},
    ".write": {"auth": "auth", "now": "value", "root": "snapshot", "data": "snapshot", "newData": "snapshot"},
}
VARIABLES[".validate"] = VARIABLES[".write"]
QUERY_FIELDS = ("orderByKey", "orderByValue", "orderByChild", "startAt", "endAt", "equalTo", "limitToFirst", "limitToLast")
# What stands behind a dot: the sort of the receiver, the name, and how it is used: not called (None), with so many values,
# or with a list of values. What it gives.
ROWS = {
    **{("auth", name, None): "value" for name in ("uid", "provider")},
    ("auth", "token", None): "claims",
    **{("query", name, None): "value" for name in QUERY_FIELDS},
    ("value", "length", None): "value",
    **{("value", name, 1): "value" for name in ("contains", "beginsWith", "endsWith")},
    ("value", "replace", 2): "value",
    **{("snapshot", name, 0): "value" for name in ("val", "exists", "hasChildren", "isNumber", "isString", "isBoolean")},
    ("snapshot", "hasChild", 1): "value",
    ("snapshot", "hasChildren", "list"): "value",
    ("snapshot", "child", 1): "snapshot",
    ("snapshot", "parent", 0): "snapshot",
}
SPELLED = {name for _, name, _ in ROWS}
LEFT_OUT = ("matches", "toLowerCase", "toUpperCase", "getPriority", "orderByPriority")


def may_be_value(sort):
    return sort in ("value", "auth", "claims")


def sort_of(it, kind, captures):
    """The sort of an expression in a rule of this kind below captures of these names, or its first fault."""
    form, *parts = it
    if form == "literal":
        return "value"
    if form == "variable":
        if parts[0] not in VARIABLES[kind]:
            raise Fault("UnknownName", what=parts[0])
        return VARIABLES[kind][parts[0]]
    if form == "capture":
        if parts[0] not in captures:
            raise Fault("UnknownName", what="$" + parts[0])
        return "value"
    if form == "parenthesis":
        return sort_of(parts[0], kind, captures)
    if form == "use":
        return sort_of_use(*parts, kind, captures)
    if not all([may_be_value(sort_of(part, kind, captures)) for part in parts]):
        raise Fault("TypeError")
    return "value"


def sort_of_use(receiver, name, arguments, kind, captures):
    sort = sort_of(receiver, kind, captures)
    if arguments is None:
        used = None
    else:
        is_list = [it[0] == "list" for it in arguments]
        given = [sort_of(it, kind, captures) for each in arguments for it in (each[1] if each[0] == "list" else [each])]
        if not all(map(may_be_value, given)):
            used = "otherwise"
        elif is_list == [True]:
            used = "list"
        else:
            used = "otherwise" if any(is_list) else len(given)
    if (sort, name, used) in ROWS:
        return ROWS[sort, name, used]
    if sort == "claims" and used is None:
        return "value"
    if name in LEFT_OUT:
        raise Fault("NotInProfile", what=name)
    if name not in SPELLED:
        raise Fault("UnknownName", what=name)
    raise Fault("TypeError")


def checked(text, kind, captures):
    """The expression of a rule."""
    made = parse(text)
    if not may_be_value(sort_of(made, kind, captures)):
        raise Fault("TypeError")
    return made


# ---- rules files

PIECES = re.compile(rb'"(?:\\.|[^"\\])*"|//[^\n\r]*|/\*.*?\*/', re.S)
KINDS = (".read", ".validate", ".write")
MOST_RULES = 4_096

# An object of a rules file: its rules by their kind, and the objects below its keys and captures.
Node = namedtuple("Node", "rules children")


def plain(data):
    """A file with its comments as spaces, and the line feeds, carriage returns and tabs in its strings too."""

    def of_piece(found):
        it = found[0]
        return re.sub(rb"[\n\r\t]", b" ", it) if it.startswith(b'"') else b" " * len(it)

    return PIECES.sub(of_piece, data)


def is_part(name):
    """A key or a capture."""
    return CAPTURE.fullmatch(name) if name.startswith("$") else is_key(name)


def is_index(value):
    return isinstance(value, str) or isinstance(value, list) and all(isinstance(it, str) for it in value)


def may_stand(pattern, name, value):
    """Whether a member may stand in the object at a pattern."""
    if name in KINDS:
        return isinstance(value, (str, bool))
    if name == ".indexOn":
        return is_index(value)
    return is_part(name) and isinstance(value, dict) and name not in captures_of(pattern) and len(pattern) < MOST_KEYS


def is_sound(pattern, members):
    captures = [name for name in members if name.startswith("$")]
    return len(captures) <= 1 and all(may_stand(pattern, name, value) for name, value in members.items())


def captures_of(pattern):
    return [it for it in pattern if it.startswith("$")]


def objects(pattern, members):
    """An object and all in it, each with its pattern, in the order of patterns."""
    yield pattern, members
    for name in sorted(it for it in members if it not in KINDS and isinstance(members[it], dict)):
        yield from objects((*pattern, name), members[name])


def read_rules(data):
    """The top of a rules file and the number of its rules, or the refusal of the file."""
    if len(data) > MOST_LINE:
        raise Refused("BadRulesJson")
    try:
        file = read_json(plain(data))
    except BadJson:
        raise Refused("BadRulesJson") from None
    if not isinstance(file, dict) or list(file) != ["rules"] or not isinstance(file["rules"], dict):
        raise Refused("BadRulesShape", at="/")
    for pattern, members in objects((), file["rules"]):
        if not is_sound(pattern, members):
            raise Refused("BadRulesShape", at=printed(pattern))
    number = sum(name in KINDS for _, members in objects((), file["rules"]) for name in members)
    if number > MOST_RULES:
        raise Refused("TooManyRules")
    return node_of((), file["rules"]), number


def node_of(pattern, members):
    """An object of sound shape, its rules read: those of a pattern before those below it."""
    captures = [it[1:] for it in captures_of(pattern)]
    rules = {kind: read_rule(pattern, kind, members[kind], captures) for kind in KINDS if kind in members}
    below = sorted(it for it in members if not it.startswith("."))
    return Node(rules, {name: node_of((*pattern, name), members[name]) for name in below})


def read_rule(pattern, kind, stated, captures):
    text = stated if isinstance(stated, str) else "true" if stated else "false"
    try:
        return checked(text, kind, captures)
    except Fault as it:
        members = {"at": printed(pattern), "rule": kind}
        if it.name == "BadExpression":
            members["byte"] = size(text[: it.at]) if it.what is None else it.what
        elif it.name != "TypeError":
            members["what"] = it.what
        raise Refused(it.name, **members) from None


# ---- values

# What a rule sees: who is signed in, the moment, the stored tree, the place of the rule, the proposed tree of a write, the
# query of a read, and the keys of the captures by their names.
Scene = namedtuple("Scene", "identity now root path new query captures")
Snapshot = namedtuple("Snapshot", "tree path")
# `auth` and `auth.token`: where a value is wanted a record, or null where nobody is signed in.
Auth = namedtuple("Auth", "identity")
Claims = namedtuple("Claims", "identity")
Identity = namedtuple("Identity", "uid provider admin claims")
# What the query of a read asks for: a dict with the members of the query, empty where there is none.
Asked = namedtuple("Asked", "query")
SENTINEL, RECORD = object(), object()


class Erred(Exception):
    """The evaluation of an expression errs."""


def need(condition):
    if not condition:
        raise Erred


def type_of(value):
    for name, type_ in (("null", type(None)), ("boolean", bool), ("number", int), ("text", str)):
        if isinstance(value, type_):
            return name
    return "record" if value is RECORD else "sentinel"


def are(kind, *values):
    return all(type_of(it) == kind for it in values)


def in_range(number):
    need(is_whole(number))
    return number


def in_size(text):
    need(is_text(text))
    return text


def equal(a, b):
    types = type_of(a), type_of(b)
    need(not set(types) <= {"sentinel", "record"})
    return types[0] == types[1] and a == b


def plus(a, b):
    if are("number", a, b):
        return in_range(a + b)
    need({type_of(a), type_of(b)} in ({"text"}, {"text", "number"}))
    return in_size(f"{a}{b}")


def remainder(a, b):
    need(b != 0)
    return abs(a) % abs(b) * (-1 if a < 0 else 1)


def compare(test):
    def compared(a, b):
        need(are("number", a, b) or are("text", a, b))
        return test(a, b)

    return compared


def of_numbers(operator):
    def operated(a, b):
        need(are("number", a, b))
        return in_range(operator(a, b))

    return operated


# (texts are compared by their characters, which is the order of their bytes in UTF-8)
OPERATORS = {
    "==": equal,
    "!=": lambda a, b: not equal(a, b),
    "<": compare(lambda a, b: a < b),
    "<=": compare(lambda a, b: a <= b),
    ">": compare(lambda a, b: a > b),
    ">=": compare(lambda a, b: a >= b),
    "+": plus,
    "-": of_numbers(lambda a, b: a - b),
    "*": of_numbers(lambda a, b: a * b),
    "%": of_numbers(remainder),
}


def truth(value):
    need(are("boolean", value))
    return value


def mean(it, scene):
    """What an expression means: a value, a snapshot, the query, or `auth` or `auth.token`."""
    form, *parts = it
    if form == "literal":
        return parts[0]
    if form == "variable":
        return variable(parts[0], scene)
    if form == "capture":
        return scene.captures[parts[0]]
    if form == "parenthesis":
        return mean(parts[0], scene)
    if form == "use":
        receiver, name, arguments = parts
        return use(mean(receiver, scene), name, [given(each, scene) for each in arguments or []])
    if form == "&&":
        return truth(valued(parts[0], scene)) and truth(valued(parts[1], scene))
    if form == "||":
        return truth(valued(parts[0], scene)) or truth(valued(parts[1], scene))
    if form == "?":
        return valued(parts[1] if truth(valued(parts[0], scene)) else parts[2], scene)
    if form == "!":
        return not truth(valued(parts[0], scene))
    if form == "negated":
        number = valued(parts[0], scene)
        need(are("number", number))
        return -number
    return OPERATORS[form](valued(parts[0], scene), valued(parts[1], scene))


def valued(it, scene):
    """What an expression means where a value is wanted."""
    meant = mean(it, scene)
    if isinstance(meant, (Auth, Claims)):
        return None if meant.identity is None else RECORD
    return meant


def given(argument, scene):
    """What an argument means: a value, or a list of values."""
    return [valued(it, scene) for it in argument[1]] if argument[0] == "list" else valued(argument, scene)


def variable(name, scene):
    if name == "auth":
        return Auth(scene.identity)
    if name == "now":
        return scene.now
    if name == "query":
        return Asked(scene.query)
    if name == "root":
        return Snapshot(scene.root, ())
    return Snapshot(scene.new if name == "newData" else scene.root, scene.path)


def use(receiver, name, arguments):
    """What stands behind a dot."""
    if isinstance(receiver, Snapshot):
        return of_snapshot(receiver, name, arguments)
    if isinstance(receiver, Asked):
        return of_query(receiver.query, name)
    if isinstance(receiver, Auth):
        return Claims(receiver.identity) if name == "token" else receiver.identity and getattr(receiver.identity, name)
    if isinstance(receiver, Claims):
        return receiver.identity and receiver.identity.claims.get(name)
    return of_text(receiver, name, arguments)


def of_snapshot(snapshot, name, arguments):
    stands = sub(*snapshot)
    if name == "val":
        return SENTINEL if isinstance(stands, dict) else stands
    if name == "exists":
        return stands is not None
    if name == "hasChildren" and not arguments:
        return isinstance(stands, dict)
    if name == "hasChildren":
        return all([sub(*child(snapshot, it)) is not None for it in arguments[0]])
    if name == "hasChild":
        return sub(*child(snapshot, arguments[0])) is not None
    if name == "child":
        return child(snapshot, arguments[0])
    if name == "parent":
        need(snapshot.path)
        return Snapshot(snapshot.tree, snapshot.path[:-1])
    return are({"isNumber": "number", "isString": "text", "isBoolean": "boolean"}[name], stands)


def child(snapshot, text):
    need(are("text", text))
    path = (*snapshot.path, *pieces(text))
    need(all(map(is_key, path)) and len(path) <= MOST_KEYS)
    return Snapshot(snapshot.tree, path)


def of_query(query, name):
    order = query.get("orderBy")
    if name == "orderByKey":
        return order == "$key"
    if name == "orderByValue":
        return order == "$value"
    if name == "orderByChild":
        return "/".join(order) if isinstance(order, tuple) else None
    return query.get(name)


def of_text(text, name, arguments):
    need(are("text", text, *arguments))
    if name == "length":
        return len(text)
    if name == "contains":
        return arguments[0] in text
    if name == "beginsWith":
        return text.startswith(arguments[0])
    if name == "endsWith":
        return text.endswith(arguments[0])
    need(arguments[0] != "")
    return in_size(text.replace(*arguments))


def fails(rule, scene):
    """None where a rule holds, else the reason why not."""
    try:
        it = valued(rule, scene)
    except Erred:
        return "error"
    return None if it is True else "false" if it is False else "error"


# ---- judging


def standing(rules, path):
    """The objects that stand at a path and at its prefixes, shortest first: each with its place, pattern and captures."""
    place, pattern, captures = (), (), {}
    yield place, pattern, captures, rules
    for key in path:
        part = key if key in rules.children else next((it for it in rules.children if it.startswith("$")), None)
        if part is None:
            return
        if part.startswith("$"):
            captures = {**captures, part[1:]: key}
        place, pattern, rules = (*place, key), (*pattern, part), rules.children[part]
        yield place, pattern, captures, rules


def judge(rules, kind, path, scene):
    """None where some rule of the kind holds at the path or above it, else all of them, with the reasons."""
    named = []
    for place, pattern, captures, node in standing(rules, path):
        if kind in node.rules:
            why = fails(node.rules[kind], scene._replace(path=place, captures=captures))
            if why is None:
                return None
            named.append({"pattern": printed(pattern), "why": why})
    return named


def judge_read(rules, path, scene):
    named = judge(rules, ".read", path, scene)
    if named is not None:
        raise Refused("ReadDenied", rules=named)


def judge_writes(rules, locations, scene):
    for path in sorted(locations):
        named = judge(rules, ".write", path, scene)
        if named is not None:
            raise Refused("WriteDenied", at=printed(path), rules=named)
    for place in touched((), scene.new, locations):
        validate(rules, place, scene)


def touched(place, tree, locations):
    """The places that exist at, above or below one of the locations, in their order."""
    if tree is None or not any(place[: len(it)] == it[: len(place)] for it in locations):
        return
    yield place
    for key in sorted(children_of(tree)):
        yield from touched((*place, key), tree[key], locations)


def validate(rules, place, scene):
    for at, pattern, captures, node in standing(rules, place):
        if at == place and ".validate" in node.rules:
            why = fails(node.rules[".validate"], scene._replace(path=place, captures=captures))
            if why is not None:
                raise Refused("ValidateDenied", at=printed(place), pattern=printed(pattern), why=why)


# ---- queries

QUERY_MEMBERS = {"orderBy", "startAt", "endAt", "equalTo", "limitToFirst", "limitToLast"}
BOUNDS = ("startAt", "endAt", "equalTo")
LIMITS = ("limitToFirst", "limitToLast")
MOST_LIMIT = 1_000
NUMBER_KEY = re.compile(r"(-?)0*([0-9]{1,10})")


def read_query(said):
    """The query that an object is."""
    if not is_query(said):
        raise Refused("BadQuery")
    order = said.get("orderBy")
    return {**said, "orderBy": pieces(order)} if order not in (None, "$key", "$value") else said


def is_query(said):
    bounds, limits = [it for it in BOUNDS if it in said], [it for it in LIMITS if it in said]
    return (
        set(said) <= QUERY_MEMBERS
        and ("orderBy" not in said or is_order(said["orderBy"]))
        and all(is_primitive(said[it]) for it in bounds)
        and (not bounds or "orderBy" in said)
        and (said.get("orderBy") != "$key" or all(isinstance(said[it], str) for it in bounds))
        and ("equalTo" not in bounds or len(bounds) == 1)
        and all(type(said[it]) is int and 1 <= said[it] <= MOST_LIMIT for it in limits)
        and len(limits) <= 1
    )


def is_order(order):
    if order in ("$key", "$value"):
        return True
    return isinstance(order, str) and 1 <= len(pieces(order)) <= MOST_KEYS and all(map(is_key, pieces(order)))


def key_order(key):
    """What keys are ordered by: whole numbers of 32 bits first, and then all others by their bytes."""
    found = NUMBER_KEY.fullmatch(key)
    number = int(found[1] + found[2]) if found else None
    if found and -(2**31) <= number < 2**31:
        return 0, number, len(key), key
    return 1, key


def value_order(tree):
    """What stands somewhere, as what it is ordered by."""
    if tree is None:
        return (0,)
    if isinstance(tree, bool):
        return 1, tree
    if isinstance(tree, int):
        return 2, tree
    return (3, tree) if isinstance(tree, str) else (4,)


def selected(tree, query):
    """The children that a query keeps; without a query the whole tree."""
    if query is None:
        return tree
    order = query.get("orderBy", "$key")

    def place_of(key):
        if order == "$key":
            return key_order(key)
        return value_order(sub(tree[key], () if order == "$value" else order))

    bound = key_order if order == "$key" else value_order
    keys = sorted(children_of(tree), key=lambda key: (place_of(key), key_order(key)))
    if "startAt" in query:
        keys = [it for it in keys if place_of(it) >= bound(query["startAt"])]
    if "endAt" in query:
        keys = [it for it in keys if place_of(it) <= bound(query["endAt"])]
    if "equalTo" in query:
        keys = [it for it in keys if place_of(it) == bound(query["equalTo"])]
    if "limitToFirst" in query:
        keys = keys[: query["limitToFirst"]]
    if "limitToLast" in query:
        keys = keys[-query["limitToLast"] :]
    return {it: tree[it] for it in keys} or None


# ---- who may sign in


def read_tokens(said):
    """Who signs in by which secret."""
    if not isinstance(said, dict) or not all(it and is_text(it) for it in said):
        raise Refused("BadTokens")
    return {secret: read_identity(it) for secret, it in said.items()}


def read_identity(said):
    if not isinstance(said, dict) or not {"uid", "provider"} <= set(said) <= {"uid", "provider", "admin", "claims"}:
        raise Refused("BadTokens")
    it = Identity(said["uid"], said["provider"], said.get("admin", False), said.get("claims", {}))
    claims = it.claims.values() if isinstance(it.claims, dict) else [FRACTION]
    if not (is_text(it.uid) and is_text(it.provider) and isinstance(it.admin, bool)):
        raise Refused("BadTokens")
    if not all(claim is None or is_primitive(claim) for claim in claims):
        raise Refused("BadTokens")
    return it


# ---- messages

MOST_ID = 64


def is_moment(value):
    return is_whole(value) and value >= 0


def is_string(value):
    return isinstance(value, str)


def is_object(value):
    return isinstance(value, dict)


def is_anything(value):
    return True


def is_id(value):
    return isinstance(value, str) and 1 <= size(value) <= MOST_ID


# Of each verb the members beside `do`, `now` and `s`, with what each has to be. A query may be left out.
VERBS = {
    "open": {},
    "close": {},
    "signin": {"token": is_string},
    "signout": {},
    "get": {"path": is_string, "query": is_object},
    "set": {"path": is_string, "value": is_anything},
    "remove": {"path": is_string},
    "update": {"path": is_string, "values": is_object},
    "listen": {"id": is_id, "path": is_string, "query": is_object},
    "unlisten": {"id": is_id},
    "poll": {},
    "tick": {},
    "deploy": {"rules": is_string},
    "onset": {"path": is_string, "value": is_anything},
    "onremove": {"path": is_string},
    "onupdate": {"path": is_string, "values": is_object},
    "oncancel": {"path": is_string},
    "leave": {},
    "runnext": {},
}
# The verbs that say what is written, at once or when the session goes.
WRITING = {"set", "remove", "update", "onset", "onremove", "onupdate"}


def has_members(said, members, left_out=()):
    """Whether an object has these members and no others, each as it has to be."""
    if not isinstance(said, dict) or not set(members) - set(left_out) <= set(said) <= set(members):
        return False
    return all(members[name](it) for name, it in said.items())


def read_line(line):
    if len(line) > MOST_LINE:
        raise Refused("TooLarge")
    try:
        return read_json(line)
    except BadJson:
        raise Refused("BadJson") from None


def read_request(line):
    """What a line asks: its members, with paths, trees, writes and queries read."""
    said = read_line(line)
    verb = said.get("do") if isinstance(said, dict) else None
    members = VERBS.get(verb) if isinstance(verb, str) else None
    wanted = {"do": is_string, "now": is_moment, "s": is_moment}
    if members is None or not has_members(said, {**wanted, **members}, ("query",)):
        raise Refused("BadRequest")
    if "path" in said:
        said["path"] = read_path(said["path"])
    if verb in WRITING:
        said["writes"] = writes_of(said, said["now"])
    if "query" in said:
        said["query"] = read_query(said["query"])
    return said


def writes_of(said, now):
    """The writes that a request says, with this moment in the place of each form that stands for one."""
    if "values" in said:
        return [read_write_below(said["path"], *it, now) for it in sorted(said["values"].items())]
    # (a removal has no value, and null removes)
    return [read_write(said["path"], said.get("value"), now)]


def read_write(path, value, now):
    tree = read_tree(with_moment(value, now))
    if len(path) + depth(tree) > MOST_KEYS:
        raise Refused("TooDeep")
    return path, tree


def read_write_below(path, name, value, now):
    return read_write(within_depth(path + read_path(name)), value, now)


def locations_of(writes):
    return [path for path, _ in writes]


def is_below(location, path):
    """Whether a location is at a path or below it."""
    return location[: len(path)] == path


def need_apart(locations):
    """The locations of an update: there is one, and none is at or above another."""
    if not locations:
        raise Refused("EmptyUpdate")
    for at, path in enumerate(locations):
        if any(is_below(other, path) for other in locations[:at] + locations[at + 1 :]):
            raise Refused("Overlap")


# ---- the database

MOST_SESSIONS = 64
MOST_LISTENERS = 64
MOST_ACTIONS = 16


class Session:
    def __init__(self):
        self.identity, self.listeners, self.actions, self.leaving = None, {}, [], False


class Listener:
    def __init__(self, path, query):
        self.path, self.query, self.live, self.marked = path, query, True, False


class Database:
    def __init__(self, rules, tree, tokens):
        self.rules, self.tree, self.tokens, self.sessions = rules, tree, tokens, {}

    def answer(self, line):
        """The answer to a line that is no header."""
        try:
            it = read_request(line)
            return {"ok": True, **(getattr(self, it["do"])(it) or {})}
        except Refused as refusal:
            return refusal.answer()

    def session(self, it):
        """The session of a request, which has to be open."""
        if it["s"] not in self.sessions:
            raise Refused("NoSession")
        return self.sessions[it["s"]]

    def present(self, it):
        """The session of a request, which has to be open and may not be leaving."""
        session = self.session(it)
        if session.leaving:
            raise Refused("Leaving")
        return session

    def scene(self, session, now, new=None, query=None):
        return Scene(session.identity, now, self.tree, (), new, query or {}, {})

    # -- sessions

    def open(self, it):
        if it["s"] in self.sessions:
            raise Refused("SessionOpen")
        if len(self.sessions) == MOST_SESSIONS:
            raise Refused("TooManySessions")
        self.sessions[it["s"]] = Session()

    def close(self, it):
        left = len(self.session(it).actions)
        del self.sessions[it["s"]]
        return {"left": left}

    def signin(self, it):
        if it["token"] not in self.tokens:
            raise Refused("UnknownToken")
        self.present(it).identity = self.tokens[it["token"]]
        self.judge_again([self.session(it)], it["now"], self.tree)

    def signout(self, it):
        self.present(it).identity = None
        self.judge_again([self.session(it)], it["now"], self.tree)

    # -- reads and writes

    def get(self, it):
        session, query = self.present(it), it.get("query")
        judge_read(self.rules, it["path"], self.scene(session, it["now"], query=query))
        return {"value": selected(sub(self.tree, it["path"]), query)}

    def set(self, it):
        self.write(self.present(it), it["writes"], it["now"])

    remove = set

    def update(self, it):
        session = self.present(it)
        need_apart(locations_of(it["writes"]))
        self.write(session, it["writes"], it["now"])

    def write(self, session, writes, now):
        new = self.judged(session, writes, now)
        if count(new) > MOST_LOCATIONS:
            raise Refused("TreeFull")
        before, self.tree = self.tree, new
        self.judge_again(self.sessions.values(), now, before)

    def judged(self, session, writes, now):
        """The tree that writes propose, where the rules grant it."""
        new = proposed(self.tree, writes)
        judge_writes(self.rules, locations_of(writes), self.scene(session, now, new))
        return new

    # -- disconnect actions: each is the request that established it, since its writes have the moment of its run

    def onset(self, it):
        self.establish(self.present(it), it)

    onremove = onset

    def onupdate(self, it):
        session = self.present(it)
        need_apart(locations_of(it["writes"]))
        self.establish(session, it)

    def establish(self, session, it):
        if len(session.actions) == MOST_ACTIONS:
            raise Refused("TooManyActions")
        self.judged(session, it["writes"], it["now"])
        session.actions.append(it)

    def oncancel(self, it):
        session, path = self.present(it), it["path"]

        def goes(action):
            return all(is_below(each, path) for each in locations_of(action["writes"]))

        session.actions = [action for action in session.actions if not goes(action)]

    def leave(self, it):
        self.present(it).leaving = True

    def runnext(self, it):
        session, now = self.session(it), it["now"]
        if not session.leaving:
            raise Refused("NotLeaving")
        if not session.actions:
            return {"ran": "empty"}
        try:
            self.write(session, writes_of(session.actions.pop(0), now), now)
        except Refused as refusal:
            return {"ran": "skipped", "why": refusal.answer()}
        return {"ran": "applied"}

    # -- listeners

    def judge_again(self, sessions, now, before):
        """Judges the listeners of sessions again, once a step is made; before it this tree was stored."""
        for session in sessions:
            for listener in session.listeners.values():
                if listener.live:
                    self.judge_listener(session, listener, now, before)

    def judge_listener(self, session, listener, now, before):
        path, query = listener.path, listener.query
        try:
            judge_read(self.rules, path, self.scene(session, now, query=query))
        except Refused:
            listener.live = False
            return
        if written(selected(sub(self.tree, path), query)) != written(selected(sub(before, path), query)):
            listener.marked = True

    def listen(self, it):
        session = self.present(it)
        if it["id"] in session.listeners:
            raise Refused("DuplicateId")
        if len(session.listeners) == MOST_LISTENERS:
            raise Refused("TooManyListeners")
        answer = self.get(it)
        session.listeners[it["id"]] = Listener(it["path"], it.get("query"))
        return answer

    def unlisten(self, it):
        session = self.present(it)
        if it["id"] not in session.listeners:
            raise Refused("NoListener")
        del session.listeners[it["id"]]

    def poll(self, it):
        session = self.present(it)
        self.judge_again([session], it["now"], self.tree)
        news = []
        for name, listener in list(session.listeners.items()):
            if not listener.live:
                news.append({"cancelled": True, "id": name})
                del session.listeners[name]
            elif listener.marked:
                news.append({"id": name, "value": selected(sub(self.tree, listener.path), listener.query)})
                listener.marked = False
        return {"news": news}

    def tick(self, it):
        self.judge_again(self.sessions.values(), it["now"], self.tree)

    def deploy(self, it):
        rules, _ = read_rules(it["rules"].encode("utf-8"))
        session = self.present(it)
        if session.identity is None or not session.identity.admin:
            raise Refused("NotAdmin")
        self.rules = rules
        self.judge_again(self.sessions.values(), it["now"], self.tree)


# ---- scripts


def opened(line):
    """The database that a header opens, and the number of its rules."""
    said = read_line(line)
    if not has_members(said, {"rules": is_string, "data": is_anything, "tokens": is_anything}, ("data", "tokens")):
        raise Refused("BadRequest")
    rules, number = read_rules(said["rules"].encode("utf-8"))
    tree = read_tree(said.get("data"))
    tokens = read_tokens(said.get("tokens", {}))
    if count(tree) > MOST_LOCATIONS:
        raise Refused("TreeFull")
    return Database(rules, tree, tokens), number


def answers(script):
    """The lines that answer a script."""
    lines = [it for it in script.split(b"\n") if it.strip(b" \t\r")]
    if not lines:
        return []
    try:
        database, number = opened(lines[0])
    except Refused as refusal:
        return [written(refusal.answer())]
    return [written(it) for it in ({"ok": True, "rules": number}, *map(database.answer, lines[1:]))]
