"""Makes random scripts: rules files of random expressions, trees, and requests of several sessions.

`script(seed, number)` gives the bytes of a script, always the same for the same seed and number. Most of what it makes
means something: names, keys and texts are few, so that rules meet trees. The rest is wrong in each way that the documents
name: expressions that are ill-formed, ill-sorted or use unknown names, rules files of another shape, values that are not
lawful, forms that are not quite that of the server's time, and lines that are no requests.
"""

import json
import random
import re

dice = random.Random()
# A new seed is smaller, so that it is soon typed.
SEEDS = 1_000_000

KEYS = ["a", "b", "c", "n", "1", "2", "10", "01", "-3", "ann", "bob", "é"]
ODD_KEYS = ["-0", "+1", "2147483648", "-2147483648", "2147483647", "-2147483649", "00000000000001", "a b", "𝄞", "k" * 768, "é" * 384]
BAD_KEYS = ["a.b", "$x", "#", "[", "]", "x\x7f", "\t", "k" * 769, "é" * 385]
CAPTURES = ["x", "y", "_k9"]
TEXTS = ["", "a", "b", "ab", "aab", "ann", "bob", "B", "1", "a/b", "c", "n", "é", "𝄞", "x'y", 'x"y', "\\", "a\nb", "\x00"]
NUMBERS = [0, 1, 2, 3, 5, 10, 100, 1000, 2147483647, 2**53 - 1]
MOST = 2**53 - 1
SECRETS = ["of ann", "of bob", "of eve", "of nil"]
UIDS = ["ann", "bob", "1", ""]
# Keys under which mostly one type stands, so that what reads them mostly means something.
TYPED = {"n": "number", "1": "number", "ann": "text", "c": "text", "bob": "boolean"}
CLAIMS = ["staff", "level", "val", "matches", "length", "admin"]


def new_seed():
    """A seed that nobody has chosen."""
    return random.SystemRandom().randrange(SEEDS)


def chance(probability):
    return dice.random() < probability


class Oddity:
    """How often what is made is odd: as often as it says itself, or never, where nothing shall be refused."""

    share = 1


def odd(probability):
    return chance(probability * Oddity.share)


def some(make, least, most):
    return [make() for _ in range(dice.randint(least, most))]


# How often each verb comes: in scripts of everything, of many rules, of listeners, and of sessions that leave.
MIXED = {
    "open": 2, "close": 1, "signin": 6, "signout": 1, "get": 22, "set": 22, "remove": 4, "update": 9, "listen": 9, "unlisten": 2,
    "poll": 9, "tick": 2, "deploy": 12, "onset": 4, "onremove": 1, "onupdate": 2, "oncancel": 1, "leave": 1, "runnext": 0.5,
}
JUDGING = {
    "open": 0.5, "close": 0.2, "signin": 5, "signout": 1, "get": 45, "set": 25, "remove": 3, "update": 8, "listen": 3, "unlisten": 1,
    "poll": 2, "tick": 1, "deploy": 8, "onset": 3, "onremove": 1, "onupdate": 1, "oncancel": 0.5, "leave": 1, "runnext": 0.2,
}
LISTENING = {
    "open": 1, "close": 1, "signin": 4, "signout": 3, "get": 3, "set": 22, "remove": 4, "update": 9, "listen": 20, "unlisten": 2,
    "poll": 20, "tick": 4, "deploy": 4, "onset": 5, "onremove": 1, "onupdate": 2, "oncancel": 1, "leave": 2, "runnext": 0.5,
}
LEAVING = {
    "open": 1, "close": 1, "signin": 4, "signout": 4, "get": 8, "set": 10, "remove": 2, "update": 3, "listen": 8, "unlisten": 1,
    "poll": 10, "tick": 1, "deploy": 5, "onset": 20, "onremove": 4, "onupdate": 8, "oncancel": 4, "leave": 5, "runnext": 2,
}
# Where a database is kept, most of what is asked for changes something.
KEEPING = {
    "open": 3, "close": 2, "signin": 8, "signout": 2, "get": 1, "set": 26, "remove": 4, "update": 10, "listen": 2, "unlisten": 1,
    "poll": 1, "tick": 1, "deploy": 6, "onset": 12, "onremove": 4, "onupdate": 6, "oncancel": 3, "leave": 4, "runnext": 3,
}


class Mood:
    """What is asked for in the script that is made, how often its rules files grant most of it, and how many of their rules
    are plain grants. Then the patterns of the last rules file that is most likely in force, where most requests go."""

    verbs, grants, plain = MIXED, 0.25, 0.3
    patterns = [[]]


def sessions_leave():
    """Whether other rules shall come into force before the actions of sessions are run."""
    return Mood.verbs is LEAVING or Mood.verbs is KEEPING


# ---- JSON as it is spelled


class Raw:
    """A piece of JSON that stands as it is."""

    def __init__(self, text):
        self.text = text


class Pairs:
    """The members of an object in their order, of which two may have the same name."""

    def __init__(self, pairs):
        self.pairs = pairs


def spelled(value, spaces=0.02):
    """JSON, with a space here and there, and a character escaped here and there."""
    if isinstance(value, Raw):
        return value.text
    blank = dice.choice([" ", "\t", "  "]) if chance(spaces) else ""
    if isinstance(value, dict):
        value = Pairs(list(value.items()))
    if isinstance(value, Pairs):
        return blank + "{" + ",".join(spelled(name) + ":" + spelled(it) for name, it in value.pairs) + blank + "}"
    if isinstance(value, list):
        return "[" + blank + ",".join(map(spelled, value)) + "]" + blank
    return blank + json.dumps(value, ensure_ascii=isinstance(value, str) and chance(0.1))


# ---- expressions that mean something
#
# Each function gives the text of an expression. `room` is how many operators it may still go down, and `place` what stands
# around the rule: its kind, and the names of the captures that it may use.


class Place:
    def __init__(self, kind, captures):
        self.kind, self.captures = kind, captures


def quoted(text):
    """A text between quotes, some of its characters escaped."""
    quote, said = dice.choice("'\""), []
    for it in text:
        if it in (quote, "\\"):
            said.append("\\" + it)
        elif chance(0.03) and ord(it) < 0x10000:
            said.append(f"\\u{ord(it):04x}")
        else:
            said.append({"\n": "\\n", "/": dice.choice(["/", "\\/"])}.get(it, it))
    return quote + "".join(said) + quote


def enclosed(text):
    return f"({text})"


def maybe_enclosed(text):
    return enclosed(text) if chance(0.7) else text


def joined(sign, a, b):
    gap = " " if chance(0.8) else ""
    return f"{a}{gap}{sign}{gap}{b}"


def choice_of(make, room, place):
    return f"{maybe_enclosed(boolean(room, place))} ? {maybe_enclosed(make(room, place))} : {maybe_enclosed(make(room, place))}"


def boolean(room, place):
    if room <= 0:
        return dice.choice([lambda p: "true", lambda p: "false", small_test, small_test, small_test])(place)
    return dice.choice(BOOLEANS)(room - 1, place)


def small_test(place):
    """A test that rules often have."""
    tests = [
        lambda: "auth != null",
        lambda: f"auth.uid == {text(0, place)}",
        lambda: f"auth.token.{dice.choice(CLAIMS)} == {dice.choice(['true', '3', quoted('a'), 'null'])}",
        lambda: f"auth.provider == {quoted(dice.choice(['custom', 'password']))}",
        lambda: f"{snapshot(1, place)}.{dice.choice(['exists', 'hasChildren', 'isNumber', 'isString', 'isBoolean'])}()",
        lambda: typed("boolean", 1, place),
        lambda: f"{snapshot(1, place)}.hasChild({text(0, place)})",
        lambda: f"now {dice.choice(['<', '>=', '=='])} {dice.randint(0, 60)}",
        lambda: f"{typed('number', 1, place)} {dice.choice(['==', '<=', '!='])} now",
    ]
    if place.kind == ".read":
        tests += [lambda: query_test(place)] * 3
    return dice.choice(tests)()


def query_test(place):
    if chance(0.3):
        return "query." + dice.choice(["orderByKey", "orderByValue"])
    if chance(0.4):
        return f"query.{dice.choice(['limitToFirst', 'limitToLast'])} {dice.choice(['<=', '<', '==', '!='])} {dice.choice([2, 3, 5])}"
    if chance(0.3):
        return f"query.orderByChild == {quoted(dice.choice(['n', 'a', 'a/b']))}"
    return f"query.{dice.choice(['startAt', 'endAt', 'equalTo'])} {dice.choice(['==', '!=', '>='])} {anything(0, place)}"


def compared(room, place):
    make = dice.choice([number, text, anything])
    return joined(dice.choice(["<", "<=", ">", ">="]), maybe_enclosed(make(room, place)), maybe_enclosed(make(room, place)))


def equated(room, place):
    make = dice.choice([number, text, anything, boolean])
    signs = ["==", "!=", "===", "!=="]
    other = anything if chance(0.3) else make
    return joined(dice.choice(signs), maybe_enclosed(make(room, place)), maybe_enclosed(other(room, place)))


def with_operator(make, signs):
    return lambda room, place: joined(dice.choice(signs), maybe_enclosed(make(room, place)), maybe_enclosed(make(room, place)))


def text_test(room, place):
    return f"{receiver(text(room, place))}.{dice.choice(['contains', 'beginsWith', 'endsWith'])}({text(room, place)})"


def receiver(it):
    """An operand with a dot behind it."""
    return it if it.isidentifier() else enclosed(it)


BOOLEANS = [
    lambda room, place: small_test(place),
    lambda room, place: small_test(place),
    with_operator(boolean, ["&&"]),
    with_operator(boolean, ["&&", "||"]),
    with_operator(boolean, ["||"]),
    lambda room, place: "!" + maybe_enclosed(boolean(room, place)),
    lambda room, place: choice_of(boolean, room, place),
    compared,
    compared,
    equated,
    equated,
    text_test,
    lambda room, place: f"{snapshot(room, place)}.hasChild({text(room, place)})",
    lambda room, place: f"{snapshot(room, place)}.hasChildren([{', '.join(some(lambda: text(0, place), 1, 3))}])",
    lambda room, place: typed("boolean", room, place),
    lambda room, place: enclosed(boolean(room, place)),
]


def typed(type_, room, place):
    """The value under a key where mostly this type stands, or seldom under another."""
    key = dice.choice([it for it in TYPED if TYPED[it] == type_] if chance(0.9) else KEYS)
    return f"{snapshot(room, place)}.child({quoted(key)}).val()" if chance(0.85) else f"{snapshot(room, place)}.val()"


def number(room, place):
    if room <= 0 or chance(0.3):
        small = [str(dice.choice(NUMBERS)), str(dice.randint(0, 9)), "now", typed("number", 1, place), "00" + str(dice.randint(0, 9))]
        return dice.choice(small)
    made = [
        with_operator(number, ["+", "-", "*", "%"]),
        with_operator(number, ["+", "-", "*", "%"]),
        lambda room, place: "-" + maybe_enclosed(number(room, place)),
        lambda room, place: f"{receiver(text(room, place))}.length",
        lambda room, place: choice_of(number, room, place),
        lambda room, place: typed("number", room, place),
        lambda room, place: "auth.token.level",
    ]
    return dice.choice(made)(room - 1, place)


def capture(place):
    return "$" + dice.choice(place.captures)


def text(room, place):
    if room <= 0 or chance(0.4):
        if place.captures and chance(0.4):
            return capture(place)
        literals = [quoted(dice.choice(TEXTS)), quoted(dice.choice(KEYS)), quoted(dice.choice(KEYS))]
        return dice.choice([*literals, *literals, "auth.uid", typed("text", 1, place)])
    made = [
        with_operator(text, ["+"]),
        lambda room, place: joined("+", maybe_enclosed(text(room, place)), maybe_enclosed(number(room, place))),
        lambda room, place: f"{receiver(text(room, place))}.replace({text(room, place)}, {text(room, place)})",
        lambda room, place: choice_of(text, room, place),
        lambda room, place: typed("text", room, place),
        lambda room, place: "auth.provider",
    ]
    return dice.choice(made)(room - 1, place)


def anything(room, place):
    others = [lambda room, place: dice.choice(["null", "true", "false", "auth", "auth.token", "auth.token." + dice.choice(CLAIMS)])]
    return dice.choice([boolean, number, text, *others])(room, place)


def snapshot(room, place):
    if room <= 0 or chance(0.4):
        return dice.choice(["data", "data", "root"] + ([] if place.kind == ".read" else ["newData"] * 3))
    below = snapshot(room - 1, place)
    if chance(0.2):
        return f"{below}.parent()"
    if chance(0.05):
        return enclosed(below)
    return f"{below}.child({path_text() if chance(0.7) else text(room - 1, place)})"


def path_text():
    pieces = some(lambda: dice.choice(KEYS), 1, 3)
    return quoted(dice.choice(["", "/"] if chance(0.2) else [""]) + dice.choice(["/", "//"] if chance(0.1) else ["/"]).join(pieces))


# ---- expressions that are wrong, or may be

NAMES = ["auth", "now", "root", "data", "newData", "query", "request", "matches", "val", "Auth", "_", "nosuch"]
USES = [
    "uid", "provider", "token", "orderByKey", "orderByValue", "orderByChild", "startAt", "endAt", "equalTo", "limitToFirst",
    "limitToLast", "length", "contains", "beginsWith", "endsWith", "replace", "val", "exists", "hasChildren", "isNumber",
    "isString", "isBoolean", "hasChild", "child", "parent", "matches", "toLowerCase", "toUpperCase", "getPriority",
    "orderByPriority", "size", "true", "null", "e", "nosuch",
]
SIGNS = ["&&", "||", "==", "!=", "===", "!==", "<", "<=", ">", ">=", "+", "-", "*", "%"]
ODD_TOKENS = [
    "/", "//", "/*", "1.5", "1.", "1e", "1e3", "1E", "1.e", "1.a", "1a", ".5", "0x1", "[", "]", "[0]", "['a']", "[]", "&", "|", "=",
    "====", "!===", "<==", "=>", "&&&", "|||", "$", "$1", "$x", "$é", "é", "\u00a0", "\x00", "\n", "\r", "\t", "\x0b", "\x0c",
    "'", '"', "'a\\", "'a", "'\\q'", "'\\u12'", "'\\ud834'", "'\\udd1e'", "'\\ud834\\udd1e'", "'\\u00e9'", "'\\U00e9'", "'\\x41'",
    "'\\0'", "(", ")", "()", ",", ".", "?", ":", "!", "-", "--", "9007199254740991", "9007199254740992", "18446744073709551616",
    "99999999999999999999999.5", "000000000000000000000000000009", "`", "~", "^", "@", "#", ";", "{", "}", "true", "null",
    "\ufeff", "\ufeff1", "_", "a.b", "== ==",
]


def wild(room, place):
    """An expression of the grammar, whatever the sorts are."""
    if room <= 0:
        atoms = [
            lambda: dice.choice(NAMES),
            lambda: dice.choice(NAMES[:6]),
            lambda: dice.choice(NAMES[:6]),
            lambda: "$" + dice.choice([*CAPTURES, *place.captures, *place.captures]),
            lambda: str(dice.choice(NUMBERS)),
            lambda: quoted(dice.choice(TEXTS)),
            lambda: dice.choice(["true", "false", "null"]),
        ]
        return dice.choice(atoms)()
    made = [
        lambda: joined(dice.choice(SIGNS), wild(room - 1, place), wild(room - 1, place)),
        lambda: dice.choice("!-") + wild(room - 1, place),
        lambda: f"{wild(room - 1, place)} ? {wild(room - 1, place)} : {wild(room - 1, place)}",
        lambda: enclosed(wild(room - 1, place)),
        lambda: f"{wild_receiver(room - 1, place)}.{dice.choice(USES)}",
        lambda: f"{wild_receiver(room - 1, place)}.{dice.choice(USES)}({wild_arguments(room - 1, place)})",
        lambda: f"{wild_receiver(room - 1, place)}.{dice.choice(USES)}({wild_arguments(room - 1, place)})",
    ]
    return dice.choice(made)()


def wild_receiver(room, place):
    it = wild(room, place)
    return it if chance(0.6) else enclosed(it)


def wild_arguments(room, place):
    def argument():
        if chance(0.25):
            return "[" + ", ".join(some(lambda: wild(room - 1, place), 0 if chance(0.05) else 1, 3)) + "]"
        return wild(room - 1, place)

    return ", ".join(some(argument, 0, 2))


def mutated(it):
    """A text with a mistake in it, mostly where one piece meets another."""
    at = dice.randint(0, len(it))
    end = min(len(it), at + dice.randint(1, 4))
    gap = dice.choice(["", " "])
    odd = gap + dice.choice(ODD_TOKENS) + gap
    return dice.choice([it[:at] + odd + it[at:], it[:at] + odd + it[end:], it[:at] + it[end:], it + odd, odd + it, it[:at]])


def at_the_limits():
    """An expression that is about as deep, as long or as large as one may be."""
    levels = dice.choice([63, 64, 65])
    deep = [
        lambda: "(" * levels + "true" + ")" * levels,
        lambda: "!" * levels + "true",
        lambda: "-" * levels + "1 == 1",
        lambda: "true ? false : " * levels + "true",
        lambda: "true ? " * levels + "true" + " : false" * levels,
        lambda: "data.child(" * levels + "'a'" + ")" * levels + ".exists()",
        lambda: "data.hasChildren([" * (levels // 2) + "'a'" + "])" * (levels // 2) + dice.choice(["", " && (true)"]),
        lambda: "!(" * (levels // 2) + "data.hasChild('a')" + ")" * (levels // 2),
        lambda: "!(" * (levels // 2) + "true[" + ")" * (levels // 2),
        lambda: "(" * (levels - 1) + "data.hasChildren(['a'])" + ")" * (levels - 1),
        lambda: "data" + ".child('a')" * levels + ".exists()",
        lambda: "data" + ".parent()" * levels + ".exists()",
    ]
    long = 4096 - dice.choice([-2, -1, 0, 1, 2, 3])
    lengthy = [
        lambda: "true" + " " * (long - 4),
        lambda: "1" + "+1" * (long // 2) + " > 0",
        lambda: "true" + " &&true" * ((long - 4) // 7),
        lambda: "'" + "é" * ((long - 6) // 2) + "'==''",
        lambda: "'" + "a" * (long - 2) + "'",
        lambda: "'" + "a" * long,
        lambda: " " * (long - 3) + dice.choice(ODD_TOKENS),
        lambda: " " * (long - 3) + dice.choice(ODD_TOKENS) + " " * 5,
        lambda: "a" * long,
        lambda: "true" + " " * (long - 8) + "9007199254740992",
    ]
    return dice.choice(deep + lengthy)()


def faulty(place):
    """An expression that is most likely a fault."""
    if chance(0.04):
        return at_the_limits()
    it = wild(dice.randint(1, 4), place) if chance(0.6) else boolean(dice.randint(0, 3), place)
    while chance(0.4):
        it = mutated(it)
    return it


# ---- rules files

KINDS = [".read", ".write", ".validate"]


class Style:
    """How often the rules of a rules file are wrong, and how often its shape is."""

    def __init__(self, faults, shapes):
        self.faults, self.shapes = faults, shapes


def rule(kind, captures, style):
    place = Place(kind, captures)
    if chance(style.faults):
        return faulty(place)
    if chance(Mood.plain):
        return dice.choice([True, "true", " true ", False, "auth != null"] if kind != ".validate" else [True, "true"])
    return boolean(dice.choice([0, 1, 1, 2, 2, 3, 3, 4]), place)


def rules_object(depth, at, style):
    """An object at a pattern."""
    members, captures = [], [it[1:] for it in at if it.startswith("$")]
    for kind in KINDS:
        if chance(0.35 if kind == ".validate" else 0.5):
            members.append((kind, rule(kind, captures, style)))
    if members and style is SOUND:
        Mood.patterns.append(at)
    if chance(0.04):
        members.append((".indexOn", dice.choice(["n", ["n", "a"], []])))
    if depth > 0:
        names = dice.sample(KEYS[:9], dice.randint(0, 4))
        free = ["$" + it for it in CAPTURES if it not in captures]
        names += [dice.choice(free)] if free and chance(0.6) else []
        members += [(name, rules_object(depth - 1, [*at, name], style)) for name in names]
    if chance(style.shapes):
        members.append(odd_member(captures))
    if members and chance(style.shapes / 4):
        # (a second member of a name)
        members.append((dice.choice(members)[0], dice.choice([True, {}, 5])))
    dice.shuffle(members)
    return Pairs(members)


def odd_member(captures):
    """A member that may not stand in a rules file, or that seldom does."""
    names = [".x", ".Read", ".priority", "", "$", "$1", "$é", "$x", "$y", "a/b", "a.b", "é", *BAD_KEYS, *ODD_KEYS]
    names += ["$" + it for it in captures]
    values = [Pairs([]), True, 5, None, "true", [], Raw("-0"), Raw("1e309"), Raw('"\\ud800"'), Pairs([(".read", "1 +")])]
    return dice.choice([*KINDS, ".indexOn", "a", "n", *names, *names]), dice.choice([Pairs([]), *values])


def chain(levels):
    """An object below this many keys and captures."""
    it = Pairs([(".read", "true")])
    for level in range(levels):
        it = Pairs([(f"$c{level}" if level % 3 == 0 else "k", it)])
    return it


def odd_file(top):
    """A file that is none, but for one of which the second member of its name counts."""
    objects = [[], [("rules", None)], [("rules", top), ("x", 1)], [("rules", 1), ("rules", top)], [("Rules", top)]]
    return dice.choice([top, [], None, "rules", *map(Pairs, objects)])


# Grants that a session may have while it is there, and no longer when its actions are run.
PASSING = ["auth != null", "auth.uid == 'ann'", "now < 45", "now < 60", "auth != null && now < 75", "!data.child('a').exists()"]


def rules_text(style):
    """The text of a rules file."""
    Mood.patterns = [[]] if style is SOUND else Mood.patterns
    top = rules_object(dice.choice([1, 2, 2, 3, 3, 4]), [], style)
    if chance(Mood.grants):
        # (a file under which most is granted, so that other things are tried)
        reads = dice.choice([True, True, boolean(1, Place(".read", [])), small_test(Place(".read", []))])
        writes = True
        if sessions_leave():
            grants = [True] * (1 if Mood.verbs is LEAVING else 12)
            reads, writes = dice.choice([reads, *PASSING]), dice.choice([*grants, *PASSING])
        top.pairs = [*[it for it in top.pairs if it[0] not in (".read", ".write")], (".read", reads), (".write", writes)]
    if chance(style.shapes / 4):
        top = chain(dice.choice([31, 32, 33]))
    file = Pairs([("rules", top)])
    if chance(style.shapes / 3):
        file = odd_file(top)
    it = spelled(file)
    if chance(0.25):
        it = commented(it, style)
    if chance(style.shapes / 2):
        it = mutated(it)
    if chance(style.shapes / 8):
        it = "[" * dice.choice([126, 127, 128]) + "]" * dice.choice([126, 127, 128])
    if chance(style.shapes / 20):
        number = dice.choice([1365, 1366])
        many = ",".join(f'"k{it}":{{".read":true,".write":true,".validate":true}}' for it in range(number))
        it = '{"rules":{%s,"x":{".read":true%s}}}' % (many, ',".write":1' if chance(0.3) else "")
    return it


COMMENTS = ["// a word\n", "//\r", "/* a\nword */", "/**/", "/*/ */", "//\"\n", "/*\"*/", "// it's /* \n", "/* // */", "// é𝄞\n"]
COMMENTS += ["\n", "\r\n", "\t"]


def commented(it, style):
    """A text with comments between its tokens and, where they are none, in its strings."""
    parts = re.split(r'("(?:\\.|[^"\\])*")', it)
    for at, each in enumerate(parts):
        if at % 2 == 0 and chance(0.2):
            parts[at] = dice.choice([each + dice.choice(COMMENTS), dice.choice(COMMENTS) + each])
        elif chance(style.shapes / 15):
            place = dice.randint(0, len(each))
            parts[at] = each[:place] + dice.choice(["//", "/*", "*/", "/", "/* */", "\n", "\t", "\r"]) + each[place:]
    return "".join(parts) + dice.choice(["", "", "// the end", "/* the end */", "/* no end" if chance(style.shapes) else ""])


SOUND = Style(0, 0.001)
WRONG = Style(0.25, 0.02)
ODD = Style(0.02, 0.2)


# ---- trees, paths and queries

# The form that stands for the moment of a step, and others that are like it, of which few are lawful.
MOMENT = Raw('{".sv":"timestamp"}')
ODD_MOMENTS = [
    *map(Raw, ['{".sv":"x",".sv":"timestamp"}', '{".sv":"timestamp",".sv":"x"}', '{"\\u002esv":"timest\\u0061mp"}']),
    *map(Raw, ['{ ".sv" : "timestamp" }', '{".sv":"timestamp","a":1}', '{"a":1,".sv":"timestamp"}', '{".sv":"timestamp","a":null}']),
    *({".sv": it} for it in ["x", "", "Timestamp", "timestamp ", None, 1, True, ["timestamp"], {"increment": 1}, Pairs([]), MOMENT]),
    *({it: "timestamp"} for it in ["sv", ".Sv", ".sv ", ".svx", ".s"]),
]


def path(most=4):
    if odd(0.03):
        return odd_path()
    keys = some(lambda: dice.choice(KEYS[:8]), 0, dice.randint(0, most))
    if chance(0.5):
        known = [dice.choice(KEYS[:8]) if it.startswith("$") else it for it in dice.choice(Mood.patterns)]
        keys = known + keys[: dice.choice([0, 0, 1])]
    if chance(0.05):
        keys.append(dice.choice(ODD_KEYS))
    if chance(0.1):
        return "/".join([*keys, ""]).replace("/", "//", 1)
    return "/" + "/".join(keys)


def odd_path():
    bad = dice.choice(BAD_KEYS)
    return dice.choice(["", "/", "//", "a//b/", bad, f"a/{bad}/b", "/k" * dice.choice([31, 32, 33]), "a.b" + "/k" * 33])


def leaf(type_="any"):
    if odd(0.015):
        return odd_leaf()
    if odd(0.15 if type_ == "number" else 0.02):
        return dice.choice(ODD_MOMENTS) if chance(0.05) else MOMENT
    if type_ == "number":
        return dice.choice([dice.randint(-3, 12), dice.randint(-3, 12), dice.choice(NUMBERS)])
    if type_ == "text":
        return dice.choice([*TEXTS, *KEYS])
    if type_ == "boolean":
        return dice.choice([True, False])
    return None if chance(0.05) else leaf(dice.choice(["number", "text", "boolean"]))


def odd_leaf():
    numbers = ["1.0", "1e3", "-0", "0.5", "-0.0", "1E-2", "0e9", "18446744073709551615", "1" + "0" * 30]
    numbers += map(str, [-MOST, MOST + 1, -MOST - 1])
    texts = ["a" * 65_536, "a" * 65_537, "é" * 32_768, "é" * 32_768 + "a", "\x7f", "\u2028", "\ufeff", "𝄞"]
    return dice.choice([*map(Raw, numbers), *map(Raw, ['"\\u0000"', '"\\ud834\\udd1e"', '"\\/"']), *texts])


def tree(depth):
    if depth <= 0 or chance(0.25):
        return leaf()
    if chance(0.06):
        return some(lambda: tree(depth - 1), 0, 4)
    keys = dice.sample(KEYS, dice.randint(0 if chance(0.1) else 1, 6))
    if chance(0.06):
        keys.append(dice.choice(ODD_KEYS))
    if odd(0.01):
        keys.append(dice.choice([*BAD_KEYS, ""]))
    members = [(key, leaf(TYPED[key]) if key in TYPED and chance(0.8) else tree(depth - 1)) for key in keys]
    if chance(0.03) and members:
        members.append((dice.choice(members)[0], tree(depth - 1)))
    if odd(0.006):
        levels = dice.choice([*range(27, 34), 40, *range(123, 128)])
        members.append(("d", nested(levels, dice.choice([1, None, True, Raw("{}"), Raw("1.5"), MOMENT]))))
    return Pairs(members)


def nested(levels, inner):
    for _ in range(levels):
        inner = [inner] if chance(0.2) else Pairs([("k", inner)])
    return inner


def query():
    members = []
    if chance(0.8):
        members.append(("orderBy", dice.choice(["$key", "$key", "$value", "n", "a", "a/b", "/n/"])))
        for name in dice.choice([[], ["startAt"], ["endAt"], ["startAt", "endAt"], ["equalTo"]]):
            members.append((name, bound(members[0][1])))
    if chance(0.5):
        members.append((dice.choice(["limitToFirst", "limitToLast"]), dice.choice([1, 1, 2, 2, 3, 4, 1000])))
    if chance(0.08):
        members.append(odd_query_member())
    dice.shuffle(members)
    return Pairs(members)


def bound(order):
    if order == "$key" and chance(0.95):
        return dice.choice([*KEYS, *KEYS, "", *ODD_KEYS, *BAD_KEYS[:3], "0" * 5000 + "1"])
    it = leaf()
    return "" if it is None and chance(0.9) else it


def odd_query_member():
    names = ["orderBy", "startAt", "endAt", "equalTo", "limitToFirst", "limitToLast", "orderByChild", "limit", ""]
    values = [None, 0, 1, 1000, 1001, -1, Raw("1.0"), Raw("-0"), Raw("1e999"), True, [], Pairs([])]
    texts = ["", "/", "$key", "$priority", "$", "a.b", "/k" * 32, "/k" * 33, "n"]
    return dice.choice(names), dice.choice([*values, *texts])


# ---- requests

SESSIONS = [1, 2, 3]


def verb():
    return dice.choices(list(Mood.verbs), list(Mood.verbs.values()))[0]


def any_session():
    return dice.choice([1, 1, 1, 2, 2, 3]) if chance(0.98) else 4


def members_of(it):
    """The members of a request beside `do`, `now` and `s`."""
    if it == "signin":
        return [("token", dice.choice([*SECRETS, *SECRETS, "of nobody", ""]) if chance(0.4) else SECRETS[0])]
    if it in ("get", "listen"):
        named = [("id", name())] if it == "listen" else []
        return named + [("path", path(2 if named else 4))] + ([("query", query())] if chance(0.45) else [])
    if it in ("set", "onset"):
        presence = it == "onset" and chance(0.2)
        return [("path", path()), ("value", MOMENT if presence else tree(dice.randint(0, 3)))]
    if it in ("remove", "onremove"):
        return [("path", path())]
    if it == "oncancel":
        return [("path", path(2))]
    if it in ("update", "onupdate"):
        return [("path", path()), ("values", Pairs([(it, tree(dice.randint(0, 2))) for it in places_below()]))]
    if it == "unlisten":
        return [("id", name())]
    if it == "deploy":
        sound = sessions_leave() and chance(0.7)
        return [("rules", rules_text(SOUND if sound else dice.choice([SOUND, SOUND, WRONG, WRONG, ODD])))]
    return []


def name():
    return dice.choice(["", "l" * 64, "l" * 65, "é" * 32, "é" * 33]) if chance(0.03) else dice.choice(["l", "l", "m", "é"])


def places_below():
    """The names of the members of an update, of which seldom one is above another."""
    names = [it + dice.choice(["", "", "/a", "/n", "//b/"]) for it in dice.sample(KEYS[:8], dice.randint(0 if chance(0.2) else 1, 3))]
    return names + [dice.choice(["", path(), "a/b"])] if chance(0.15) else names


def request(now, it=None, session=None):
    it = it or verb()
    who = session or any_session()
    members = [("do", it), ("now", now), ("s", who), *members_of(it)]
    if chance(0.03):
        members = odd_members(members)
    if chance(0.1):
        dice.shuffle(members)
    line = spelled(Pairs(members)).encode()
    return odd_line(line) if chance(0.02) else line


def odd_members(members):
    """The members of a request, one of them gone, or of another type, or one too many."""
    at = dice.randrange(len(members))
    odd = [None, True, 0, -1, 5, MOST, MOST + 1, "", "x", "1", [], Pairs([])]
    odd += map(Raw, ["-0", "1.0", "1e2", "1e309", '"\\udc00"', '"\\ud800a"', "NaN", "01", "+1", "1.", "[1,]"])
    changed = (members[at][0], dice.choice(odd))
    if chance(0.3):
        return members[:at] + members[at + 1 :]
    if chance(0.3):
        # (of two members of one name the last counts)
        return [*members[:at], changed, *members[at:]]
    if chance(0.3):
        return [*members, (dice.choice(["x", "", "path", "value", "query", "id", "token", "Do", "now "]), dice.choice(odd))]
    return [*members[:at], changed, *members[at + 1 :]]


def odd_line(line):
    """A line that is no request, or hardly one."""
    at = dice.randint(0, len(line))
    bytes_ = [b"", b" ", b"\r", b"\t", b"\xff", b"\xc3", b"\xed\xa0\x80", b"\x00", b"\x01", b"\\", b'"', b"{", b"}", b",", b"//", b"0"]
    odd = dice.choice([*bytes_, b"\xef\xbb\xbf", b"\x0c"])
    changed = [line[:at], line[:at] + odd + line[at:], line[:at] + odd + line[at + 1 :], line + odd, odd + line, line + line]
    others = [b" \t\r", b"null", b"5", b"[]", b'"open"', b"{}", b"\xff", b"[" * 127 + b"]" * 127, b"[" * 128 + b"]" * 128, b'{"a":' * 5000]
    return dice.choice(changed if chance(0.6) else others)


# ---- scripts


def header():
    Oddity.share = 0 if chance(0.95) else 1
    style = SOUND if chance(0.96) else dice.choice([WRONG, ODD])
    members = [("rules", rules_text(style))]
    if chance(0.8):
        members.append(("data", array_of(dice.choice([65_535, 65_536])) if odd(0.05) else tree(4)))
    members.append(("tokens", Pairs([(secret, identity(uid, at)) for at, (secret, uid) in enumerate(zip(SECRETS, UIDS))])))
    if odd(0.3):
        members = odd_members(members)
    line = spelled(Pairs(members)).encode()
    it = odd_line(line) if odd(0.1) else line
    Oddity.share = 1
    return it


def identity(uid, at):
    claims = Pairs([(it, dice.choice([True, False, 3, "a", None, "ann"])) for it in dice.sample(CLAIMS, dice.randint(0, 4))])
    members = [("uid", uid), ("provider", dice.choice(["custom", "password"]))]
    members += [("admin", at == 0)] if at == 0 or chance(0.2) else []
    members += [("claims", claims)] if chance(0.8) else []
    return Pairs(odd_members(members) if odd(0.005) else members)


def requests():
    """The lines behind the header."""
    now = dice.randint(0, 20)
    lines = []
    for session in SESSIONS:
        if chance(0.97):
            lines.append(request(now, "open", session))
        if chance(0.8 if session < 3 else 0.3):
            lines.append(request(now, "signin", session))
    if Mood.verbs is LISTENING:
        lines += [request(now, "listen") for _ in range(4)]
    for _ in range(dice.randint(30, 55)):
        now = max(0, now + dice.choice([0, 0, 1, 1, 2, 5, -3])) if chance(0.99) else dice.choice([0, MOST, 10**12])
        it = verb()
        if it == "leave":
            departure(lines, now, any_session())
        else:
            lines.append(request(now, it))
    if chance(0.03):
        dice.choice([crowd_of_sessions, crowd_of_listeners, crowd_of_actions, full_tree, large_line])(lines, now)
    return lines


def departure(lines, now, session):
    """A session establishes actions and leaves, and they are run while others ask. What comes in between may be why some are
    skipped: another is signed in or nobody is, other rules are in force, the tree is another, or time has passed. Then the
    session is mostly closed, and opened again."""
    if chance(0.8):
        lines.append(request(now, "signin", session))
    actions = dice.choices(["onset", "onupdate", "onremove", "oncancel"], [8, 4, 2, 1], k=dice.randint(0, 8))
    lines += [request(now, it, session) for it in actions]
    # (what comes behind the departure may have an earlier moment, and so shows what was judged at a later one)
    now = min(MOST, now + dice.choice([0, 0, 30]))
    changes = dice.choice([[], ["signout"], ["signout"], ["signin"], ["deploy"], ["deploy"], ["set", "set"]])
    lines += [request(now, it, session) for it in [*changes, "leave"]]
    for _ in range(dice.randint(0, len(actions) + 1)):
        now = min(MOST, now + dice.choice([0, 0, 1, 5, 30]))
        lines.append(request(now, "runnext", session) if chance(0.7) else request(now))
    again = dice.choice([[], *[["open"], ["open", "signin"]] * 3])
    if chance(0.9):
        lines += [request(now, it, session) for it in ["close", *again]]


def crowd_of_sessions(lines, now):
    lines += [request(now, "open", number) for number in range(10, 75)]


def crowd_of_listeners(lines, now):
    for number in range(66):
        lines.append(sound_request(now, "listen", id=f"i{number}", path="/"))
    lines += [request(now) for _ in range(10)]


def sound_request(now, it, **members):
    return spelled({"do": it, "now": now, "s": 1, **members}).encode()


def most_granted(lines, now):
    """A new session is signed in, and most is granted."""
    lines += [sound_request(now, "close"), sound_request(now, "open"), sound_request(now, "signin", token=SECRETS[0])]
    rules = '{"rules":{".read":true,".write":true,"n":{".validate":"newData.isNumber()"}}}'
    lines.append(sound_request(now, "deploy", rules=rules))


def crowd_of_actions(lines, now):
    if chance(0.8):
        most_granted(lines, now)
    lines += [request(now, dice.choice(["onset", "onset", "onremove", "onupdate"]), 1) for _ in range(dice.randint(20, 40))]
    lines.append(request(now, "leave", 1))
    lines += [request(now, "runnext", 1) if chance(0.8) else request(now, "set") for _ in range(25)]
    lines.append(request(now, "close", 1))


def array_of(many):
    return Raw("[" + ",".join("1" * many) + "]")


def full_tree(lines, now):
    if chance(0.8):
        most_granted(lines, now)
    many = array_of(dice.choice([65_530, 65_534, 65_535, 65_536]))
    lines.append(sound_request(now, "set", path=dice.choice(["/", "/a"]), value=many))
    lines += [request(now, "set") for _ in range(3)]
    if chance(0.5):
        lines.append(sound_request(now, "onset", path="/b", value=array_of(8)))
    departure(lines, now, 1)


def large_line(lines, now):
    line = request(now)
    lines.append(line + b" " * (1_048_576 - len(line) + dice.choice([-1, 0, 1, 2])))
    lines.append(b" " * dice.choice([10, 1_048_580]))
    lines.append(request(now))


def script(seed, number):
    """The bytes of a script."""
    dice.seed(f"{seed}/{number}")
    moods = [(MIXED, 0.25, 0.3), (JUDGING, 0.05, 0.1), (JUDGING, 0.05, 0.1), (LISTENING, 0.8, 0.3), (LEAVING, 0.6, 0.3)]
    Mood.verbs, Mood.grants, Mood.plain = dice.choice(moods)
    Mood.patterns = [[]]
    ends = dice.choice([b"\n", b"\n", b"\n", b"\r\n"])
    return ends.join([header(), *requests()]) + dice.choice([b"", b"\n", b"\n", b"\n\n"])


def kept_script(seed, number):
    """The bytes of a script of which most requests are granted and change something."""
    dice.seed(f"kept {seed}/{number}")
    Mood.verbs, Mood.grants, Mood.plain = KEEPING, 0.95, 0.7
    Mood.patterns = [[]]
    return b"\n".join([header(), *requests()])
