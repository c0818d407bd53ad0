"""Which rules the requests of a script ask, and what each part of these rules means, by the second reading of the documents."""

from collections import Counter

import second_reading as reading

# What a request is refused by, where rules were asked for it.
DENIALS = ("ReadDenied", "WriteDenied", "ValidateDenied")


class File:
    """A rules file: the request that deployed it (of the header 0), its text, and its rules by their kind and pattern."""

    def __init__(self, since, text, rules):
        self.since, self.text = since, text
        self.rules = {(kind, pattern): Rule(it) for kind, pattern, it in rules_of((), rules)}


class Rule:
    """A rule: the requests that asked it, each with the place and the answer, and what each of its parts meant."""

    def __init__(self, whole):
        self.whole, self.asks = whole, []
        self.parts = [(part, Counter()) for part in parts_of(whole)]

    def counts(self):
        return [count for _, count in self.parts]


def rules_of(pattern, node):
    for kind, whole in node.rules.items():
        yield kind, reading.printed(pattern), whole
    for name, below in node.children.items():
        yield from rules_of((*pattern, name), below)


def parts_of(it):
    """An expression and its parts, from left to right, each before its own parts."""
    if it[0] != "list":
        yield it
    for inner in inner_of(it):
        yield from parts_of(inner)


def inner_of(it):
    form, *parts = it
    if form in ("literal", "variable", "capture"):
        return []
    if form == "use":
        return [parts[0], *(parts[2] or [])]
    return parts[0] if form == "list" else parts


class Watched(reading.Database):
    """A database that keeps which rules a request asks."""

    def __init__(self, database, text):
        super().__init__(database.rules, database.tree, database.tokens)
        self.files, self.asked, self.request, self.is_watched = [File(0, text, self.rules)], [], 0, True

    def answer(self, line):
        self.asked, self.request = [], self.request + 1
        answer = super().answer(line)
        if answer["ok"] or answer["name"] in DENIALS:
            self.keep()
        return answer

    def judge_again(self, *given):
        self.unwatched(super().judge_again, *given)

    def runnext(self, it):
        return self.unwatched(super().runnext, it)

    def deploy(self, it):
        super().deploy(it)
        self.files.append(File(self.request, it["rules"], self.rules))

    def unwatched(self, call, *given):
        self.is_watched = False
        try:
            return call(*given)
        finally:
            self.is_watched = True

    def keep(self):
        """Counts what the request asked."""
        by_whole = {id(rule.whole): rule for file in self.files for rule in file.rules.values()}
        by_part = {id(part): count for rule in by_whole.values() for part, count in rule.parts}
        for it, place, answer in self.asked:
            if place is None:
                by_part[id(it)][answer] += 1
            else:
                by_whole[id(it)].asks.append((self.request, reading.printed(place), answer))


class Watching:
    """Has the second reading report to a database which rules it asks, and which parts it takes the meaning of."""

    def __init__(self, database):
        self.database = database
        self.fails, self.mean, self.judge_writes = reading.fails, reading.mean, reading.judge_writes

    def __enter__(self):
        reading.fails, reading.mean, reading.judge_writes = self.watched_fails, self.watched_mean, self.watched_writes

    def __exit__(self, *_):
        reading.fails, reading.mean, reading.judge_writes = self.fails, self.mean, self.judge_writes

    def note(self, *what):
        if self.database.is_watched:
            self.database.asked.append(what)

    def watched_writes(self, rules, locations, scene):
        """An explanation asks for each location, also behind one that no rule grants."""
        denied = [path for path in sorted(locations) if reading.judge(rules, ".write", path, scene) is not None]
        if denied:
            self.database.unwatched(self.judge_writes, rules, locations, scene)
        for place in reading.touched((), scene.new, locations):
            reading.validate(rules, place, scene)

    def watched_fails(self, rule, scene):
        why = self.fails(rule, scene)
        self.note(rule, scene.path, {None: "true", "error": "an error"}.get(why, why))
        return why

    def watched_mean(self, it, scene):
        try:
            meant = self.mean(it, scene)
        except reading.Erred:
            self.note(it, None, "an error")
            raise
        self.note(it, None, "true" if meant is True else "false" if meant is False else "other")
        return meant


def coverage(script):
    """The rules files of a script, with what its requests asked of them; none where its header is refused."""
    lines = [it for it in script.split(b"\n") if it.strip(b" \t\r")]
    try:
        opened, _ = reading.opened(lines[0])
    except (IndexError, reading.Refused):
        return []
    database = Watched(opened, reading.read_line(lines[0])["rules"])
    with Watching(database):
        for line in lines[1:]:
            database.answer(line)
    return database.files
