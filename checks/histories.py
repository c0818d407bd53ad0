"""Histories of a server with many clients, and the search for one order of all that was asked that explains what was answered.

A history has what the server began with, and of each connection, in its order, the messages with their answers, and the pushes;
of each the moment before it was sent, and that at which it was there. `Search(history).order()` looks for an order of all steps in
which the machine of second_reading.py gives all these answers and pushes. The order keeps that of each connection, and a message
whose answer was there before another one was sent stands before it.

What a server does beside the messages, as docs/PROTOCOL.md has it:

- After each message it polls, and sends the news, if there are any; in between it polls too. So each push is a poll whose news are
  these. Where none stands between two messages, there were no news behind the first: the rules of a history give the same at all
  of its moments, so polls without news do nothing more.
- The moment of a step is one between its sending and its answer. It shows only where the server's time is written. Other sessions'
  steps may have later moments and stand before it.
- A session whose connection ended leaves, runs its actions, and is closed. Each run is a step at some moment behind this end, and
  before `over`, when other clients had all workers. Of the messages that were not answered before the end some may have been read.

The opening, the leaving and the close of a session show nowhere, so they are no steps of the search.

The search goes down one order after another, what was answered first before the rest, and remembers from where there is none. It makes
at once what fits and changes nothing for anybody, and gives up where something that is still told can't come about any more: news that
wait and are told nowhere, a number that is gone and told later, a read for which no write is left. That a history has no order is said
only after a second search that gives up nothing early.
"""

import copy
import json
import random
import re
import time
from collections import namedtuple
from functools import cached_property, lru_cache
from itertools import count, takewhile

from second_reading import (VERBS, WRITING, Database, Listener, Refused, Session, has_members, is_below, is_string, judge_writes, locations_of, pieces, proposed,
                            read_json, read_line, read_path, read_query, read_rules, read_tokens, read_tree, selected, standing, sub, written, writes_of)

# ---- what was asked and answered

# A moment of a run: on a clock that only goes on, in nanoseconds, and on that of the system, in milliseconds since 1970.
Moment = namedtuple("Moment", "tick ms")


def moment():
    return Moment(time.monotonic_ns(), time.time_ns() // 1_000_000)


class Event:
    """A message and its answer, or a push, which has no message. What was not answered has neither `said` nor `done`."""

    def __init__(self, message=None, sent=None, said=None, done=None):
        self.message, self.sent, self.said, self.done = message, sent, said, done

    @property
    def is_push(self):
        return self.message is None

    @cached_property
    def is_refused(self):
        return not self.is_push and not json.loads(self.said)["ok"]


class Visit:
    """A connection of a client: the answered messages and the pushes, in the order in which they came; the messages that were not
    answered when the client ended it; and when and how it did, if it did."""

    def __init__(self, client):
        self.client, self.events, self.unanswered, self.went, self.how = client, [], [], None, None


class History:
    """What a server began with, as the texts of its files, and all connections to it."""

    def __init__(self, rules, data, tokens):
        self.rules, self.data, self.tokens, self.visits, self.over = rules, data, tokens, [], None


# ---- the machine

# What a client over a socket may ask; the server does the rest.
ASKED = {verb: members for verb, members in VERBS.items() if verb not in ("open", "close", "tick", "leave", "runnext")}


@lru_cache(maxsize=None)
def read_message(message, session, now):
    """What a message of a session asks at a moment, or its refusal."""
    try:
        said = read_line(message)
        verb = said.get("do") if isinstance(said, dict) else None
        members = ASKED.get(verb) if isinstance(verb, str) else None
        if members is None or not has_members(said, {"do": is_string, **members}, ("query",)):
            raise Refused("BadRequest")
        said = {**said, "now": now, "s": session}
        if "path" in said:
            said["path"] = read_path(said["path"])
        if verb in WRITING:
            said["writes"] = writes_of(said, now)
        if "query" in said:
            said["query"] = read_query(said["query"])
        return said
    except Refused as refusal:
        return refusal


@lru_cache(maxsize=None)
def verb_of(message):
    """The verb of a message, or None where it is no request."""
    asked = read_message(message, 0, 0)
    return None if isinstance(asked, Refused) else asked["do"]


class Machine(Database):
    """The machine of the second reading, as a server has it."""

    # Whether what it answers and tells stands in the tree then.
    tells_what_stands = True

    def __init__(self, rules, tree, tokens):
        super().__init__(read_rules(rules.encode("utf-8"))[0], tree, tokens)
        # The rules in force and the tree, as texts, and the marked numbers in the tree.
        self.in_force, self.told, self.as_text, self.numbers = rules, self, "", frozenset()

    @classmethod
    def beginning(cls, history):
        tree = read_tree(read_json(history.data.encode("utf-8")))
        return cls(history.rules, tree, read_tokens(read_json(history.tokens.encode("utf-8"))["tokens"]))

    def copied(self, own):
        """A copy. A session without listeners is changed by its own steps alone."""
        it = copy.copy(self)
        it.sessions = {name: copy_of(session) if session.listeners or name == own else session for name, session in self.sessions.items()}
        return it

    def state(self, without=None):
        """All that later steps depend on, as what can be compared, but for one session."""
        self.look()
        return self.in_force, self.as_text, tuple((name, *state_of(it)) for name, it in self.sessions.items() if name != without)

    def look(self):
        """Notes the tree as a text, and the marked numbers in it."""
        if self.told is not self.tree:
            self.told, self.as_text = self.tree, written(self.tree)
            self.numbers = marked_in(self.as_text)
        return self.numbers

    def said(self, session, message, now):
        """The answer to a message of a session."""
        asked = read_message(message, session, now)
        try:
            if isinstance(asked, Refused):
                raise asked
            return written({"ok": True, **(getattr(self, asked["do"])(asked) or {})})
        except Refused as refusal:
            return written(refusal.answer())

    def pushed(self, session, now):
        """What a poll of the server pushes to a session, or None."""
        news = self.poll({"s": session, "now": now})["news"]
        return written({"push": news}) if news else None

    def deploy(self, it):
        super().deploy(it)
        self.in_force = it["rules"]


def copy_of(session):
    it = Session()
    it.identity, it.actions, it.leaving = session.identity, list(session.actions), session.leaving
    for name, listener in session.listeners.items():
        it.listeners[name] = Listener(listener.path, listener.query)
        it.listeners[name].live, it.listeners[name].marked = listener.live, listener.marked
    return it


def state_of(session):
    listeners = tuple((name, it.live, it.marked) for name, it in session.listeners.items())
    return id(session.identity), listeners, tuple(map(id, session.actions)), session.leaving


# Numbers that show who has written them: those of five digits, of which a run writes each once, and moments.
MARKED = re.compile(r"(?<![0-9])(?:[0-9]{5}|[0-9]{13})(?![0-9])")


def marked_in(text):
    return frozenset(MARKED.findall(text))


# ---- what may be new to a session at each place of its connection


class Told:
    """The listeners of which news may wait to be told: those that may be new, and those that may be gone."""

    def __init__(self, news):
        self.new = {it["id"] for it in news}
        self.gone = {it["id"] for it in news if "cancelled" in it}

    def also(self, name):
        it = Told([])
        it.new, it.gone = self.new | {name}, self.gone | {name}
        return it

    def holds(self, session):
        """Whether nothing else waits."""
        return all(name in (self.new if it.live else self.gone) for name, it in session.listeners.items() if it.marked or not it.live)


NOTHING = Told([])


def told_by(event):
    """What a push or the answer to a poll tells; None of what is neither."""
    if not event.is_push and (verb_of(event.message) != "poll" or '"news"' not in event.said):
        return None
    said = json.loads(event.said)
    return Told(said["push" if event.is_push else "news"])


def waiting_in(visit):
    """Of each event of a connection what may wait before it, as no event before it tells it. None is anything."""
    found, behind = [], None
    for at in reversed(range(len(visit.events))):
        event = visit.events[at]
        # (between two messages without a push, nothing waited)
        if at + 1 < len(visit.events) and not event.is_push and not visit.events[at + 1].is_push:
            behind = NOTHING
        if event.is_push or told_by(event):
            here = told_by(event)
        elif behind is not None and verb_of(event.message) == "unlisten":
            here = behind.also(read_message(event.message, 0, 0)["id"])
        else:
            here = behind
        found.append(here)
        behind = here
    return found[::-1]


# ---- the search

# What a session asks of itself alone: whether it is done now or later shows nowhere else.
OWN = {"unlisten", "onset", "onremove", "onupdate", "oncancel"}
NO_NEWS = '{"news":[],"ok":true}'
# Between moments that are so near, in milliseconds, each is tried; else those that were seen, and one that was not.
NEAR = 4


class Undecided(Exception):
    """The search took longer than it may."""


class Astray(Exception):
    """An attempt took more nodes than it may."""


# How many nodes the first attempt may take; each further one has twice as many.
FIRST_ATTEMPT = 300


# How soon a server mostly sees that a client has gone, in nanoseconds.
SOON = 12_000_000


class Lane:
    """A connection in the search. Its place is the number of its events that are done; then that of the messages that were not
    answered; and then it leaves, and is over."""

    def __init__(self, number, visit, over):
        self.number, self.visit, self.events, self.unanswered = number, visit, visit.events, visit.unanswered
        self.waiting = waiting_in(visit)
        self.answered = len(self.events)
        self.leaving = self.answered + len(self.unanswered)
        self.over = self.leaving + 1
        self.first = 0 if self.leaving else self.over
        last = over.tick if over else float("inf")
        # At each place when the next step was sent, and when it is done, by both clocks.
        self.sent, sent = [], 0
        for it in self.events:
            sent = sent if it.is_push else it.sent.tick
            self.sent.append(sent)
        self.done = [it.done.tick for it in self.events]
        self.done_ms = [it.done.ms for it in self.events]
        if visit.went:
            self.sent += [it.sent.tick for it in self.unanswered] + [visit.went.tick]
            self.done += [last] * (1 + len(self.unanswered))
            self.done_ms += [over.ms] * (1 + len(self.unanswered))
        # When it most likely is: a server mostly sees soon that a client has gone.
        self.likely = self.done[: self.answered] + [visit.went.tick + SOON if visit.went else 0] * (1 + len(self.unanswered))

    def needs_silence(self, place):
        """Whether nothing may wait right behind the message at this place."""
        return place + 1 < self.answered and not self.events[place + 1].is_push


class Traces:
    """Of each marked number where it is told, and where it may be written."""

    def __init__(self, lanes, over):
        # Of each mark the events that tell it, and the locations at which they do; and the messages that have it.
        self.told, self.places, self.written = {}, {}, {}
        # What may write its moment: until which place of its connection, between which moments, and at which locations.
        self.stamped = []
        for lane in lanes:
            for place, location, mark in told_in(lane.events):
                self.told.setdefault(mark, []).append((lane.number, place))
                self.places.setdefault(mark, set()).add(location)
            for place, it in enumerate([*lane.events, *lane.unanswered]):
                if not it.is_push:
                    self.note(lane, place, it, over)
        self.ends = self.ends_in(lanes)

    def note(self, lane, place, event, over):
        is_action = verb_of(event.message) in ("onset", "onupdate")
        # (an action may be run until the session is over)
        until = lane.over - 1 if is_action else place
        for mark in marked_in(event.message.decode("latin-1")):
            self.written.setdefault(mark, []).append((lane.number, until))
        if (locations := stamped_at(event.message)) and not (is_action and not lane.visit.went):
            first, last = (lane.visit.went, over) if is_action else (event.sent, event.done or over)
            self.stamped.append((lane.number, until, first.ms, last.ms, locations))

    def moments_at(self, locations):
        """The moments that are told of some locations."""
        return sorted(int(mark) for mark, places in self.places.items() if len(mark) == len(STAMP) and places & locations)

    def ends_in(self, lanes):
        """Of each mark that is written once the writes that end it and stand before something that tells it."""
        writes = [(lane, place, it) for lane in lanes for place, event in enumerate(lane.events) for it in writes_made(event)]
        places = {}
        for lane, place, (path, tree) in writes:
            for below, mark in leaves_of(tree):
                places.setdefault(mark, []).append((*path, *below))
        ends = {}
        for mark, found in places.items():
            if len(found) == 1 and len(self.written[mark]) == 1 and mark in self.told:
                last = max(self.told[mark], key=lambda it: lanes[it[0]].sent[it[1]])
                sent = lanes[last[0]].sent[last[1]]
                ends[mark] = [(lane.number, place) for lane, place, (path, tree) in writes
                              if lane.done[place] < sent and (is_below(found[0], path) or is_below(path, found[0]) and tree is not None)
                              and (lane.number, place) != self.written[mark][0]]
        return ends

    def is_ended(self, mark, places):
        """Whether a mark that stands will be gone before it is told."""
        return any(places[number] <= place for number, place in self.ends.get(mark, ()))

    def is_told(self, mark, places):
        return any(places[number] <= place for number, place in self.told.get(mark, ()))

    def may_be_written(self, mark, places):
        if len(mark) == len(STAMP):
            return any(places[number] <= until and first <= int(mark) <= last and locations & self.places[mark]
                       for number, until, first, last, locations in self.stamped)
        return any(places[number] <= until for number, until in self.written.get(mark, ()))

    def marks_of(self, step):
        """The marked numbers that a message might have written."""
        lane, place, _ = step
        if place >= lane.answered or lane.events[place].is_push:
            return frozenset()
        event = lane.events[place]
        moments = self.moments_at(locations) if (locations := stamped_at(event.message)) else []
        return marked_in(event.message.decode("latin-1")) | {str(it) for it in moments if event.sent.ms <= it <= event.done.ms}


def told_in(events):
    """Of the events of a connection each mark that is told: by which event, and at which location."""
    listened = {}
    for place, it in enumerate(events):
        said = json.loads(it.said)
        asked = {} if it.is_push else read_message(it.message, 0, 0)
        if not it.is_push and verb_of(it.message) == "listen" and said["ok"]:
            listened[asked["id"]] = asked["path"]
        news = said.get("push", said.get("news", []))
        values = [(listened[each["id"]], each.get("value")) for each in news] + ([(asked["path"], said["value"])] if "value" in said else [])
        for path, value in values:
            for below, mark in leaves_of(value):
                yield place, (*path, *below), mark


# A moment that no server has.
STAMP = "1000000000000"


@lru_cache(maxsize=None)
def stamped_at(message):
    """The locations at which a message writes the moment at which it is read or, later, run."""
    if verb_of(message) not in ("set", "update", "onset", "onupdate"):
        return frozenset()
    writes = read_message(message, 0, int(STAMP))["writes"]
    return frozenset((*path, *below) for path, tree in writes for below, mark in leaves_of(tree) if mark == STAMP)


def writes_made(event):
    """What a message has written for certain."""
    if event.is_push or verb_of(event.message) not in ("set", "remove", "update") or event.is_refused:
        return []
    return read_message(event.message, 0, 0)["writes"]


def leaves_of(tree):
    """The marked numbers in a tree, and where they stand in it."""
    if isinstance(tree, dict):
        for key, below in tree.items():
            for path, mark in leaves_of(below):
                yield (key, *path), mark
    elif type(tree) is int and MARKED.fullmatch(str(tree)):
        yield (), str(tree)


class Effects:
    """Of each message and push which other steps may make it fit, where it does not: those that write at, above or below what it reads,
    or what the rules look at that are asked, and deployments."""

    def __init__(self, history, lanes):
        self.of = {}
        self.files = [read_rules(it.encode("utf-8"))[0] for it in files_of(history)]
        self.validated = {it for file in self.files for it in all_looked_at(file, ())}
        changes = [it for lane in lanes for it in changes_in(lane)]
        for lane in lanes:
            for place, (event, paths) in enumerate(zip(lane.events, paths_read(lane.events))):
                if paths is not None:
                    is_read = event.is_push or verb_of(event.message) in ("get", "listen")
                    reads = self.reads(paths, is_read)
                    self.of[lane.number, place] = [
                        (number, first, last, rules) for number, first, last, sent, paths_, rules in changes
                        if number != lane.number and sent <= event.done.tick and (rules or touch(reads, paths_))]

    def reads(self, paths, is_read):
        """The locations on which it may depend whether some may be read, or written."""
        found = set(paths)
        for place, _, _, node in (it for path in paths for file in self.files for it in standing(file, path)):
            for kind, rule in node.rules.items():
                if (kind == ".read") == is_read:
                    found.update(looked_at(rule, place))
        # (what is written below may be validated by rules that look anywhere)
        return found if is_read or not paths else found | self.validated

    def left(self, lane, place, machine, places):
        """The lanes that have such a step left, and whether it is their next."""
        return {number: places[number] >= first for number, first, last, rules in self.of[lane.number, place]
                if places[number] <= last and rules != machine.in_force}


    def has_part(self, step, lane, place):
        """Whether a step that was made may be why an event does not fit. (With its leaving, a session makes no step that was not answered.)"""
        made, at, now = step
        leaves = at == made.leaving and now is None
        return made is lane or any(number == made.number and (leaves or first <= at <= last) for number, first, last, _ in self.of[lane.number, place])


def files_of(history):
    """The rules files that may be in force in a history."""
    messages = [it.message for visit in history.visits for it in [*visit.events, *visit.unanswered] if it.message and verb_of(it.message) == "deploy"]
    found = {history.rules, *(read_message(it, 0, 0)["rules"] for it in messages)}
    return [it for it in found if is_rules_file(it)]


def is_rules_file(text):
    try:
        read_rules(text.encode("utf-8"))
    except Refused:
        return False
    return True


def chain_of(it, place):
    """The location that an expression names by keys alone, in a rule at a place; or None."""
    if it[0] == "variable" and it[1] in ("root", "data", "newData"):
        return () if it[1] == "root" else place
    if it[0] == "use" and (base := chain_of(it[1], place)) is not None:
        if it[2] == "child" and len(it[3]) == 1 and it[3][0][0] == "literal" and isinstance(it[3][0][1], str):
            return (*base, *pieces(it[3][0][1]))
        if it[2] == "parent":
            return base[:-1]
    return None


def looked_at(it, place):
    """The locations that a rule at a place looks at or below."""
    if isinstance(it, list) or it[0] in ("literal", "list"):
        for each in it if isinstance(it, list) else it[1] if it[0] == "list" else []:
            yield from looked_at(each, place)
    elif (chain := chain_of(it, place)) is not None:
        yield chain
    elif it[0] == "use" and it[2] == "parent":
        yield ()
    else:
        for each in it[1:]:
            if isinstance(each, (tuple, list)):
                yield from looked_at(each, place)


def all_looked_at(node, pattern):
    """The locations that the `.validate` rules of a file look at, as far as their places are known; else all."""
    for rule in (it for kind, it in node.rules.items() if kind == ".validate"):
        for it in looked_at(rule, pattern):
            if not is_below(it, pattern) or any(key.startswith("$") for key in it):
                yield tuple(takewhile(lambda key: not key.startswith("$"), it))
    for name, below in node.children.items():
        yield from all_looked_at(below, (*pattern, name))


def paths_read(events):
    """Of each event of a connection the locations on whose trees it may depend, in so far as they are known without the rules: those that
    it reads or writes, and where it may be that news wait, all to which the connection has listened. None where it does neither."""
    listened = {}
    for it in events:
        asked, verb = ({}, None) if it.is_push else (read_message(it.message, 0, 0), verb_of(it.message))
        if it.is_push:
            own = []
        elif verb in WRITING:
            own = locations_of(asked["writes"])
        else:
            own = [asked["path"]] if verb in ("get", "listen") else None
        if own is None or is_judged_now(it):
            yield own
        else:
            yield [*own, *(path for paths in listened.values() for path in paths)]
        if verb == "listen" and not it.is_refused:
            listened.setdefault(asked["id"], []).append(asked["path"])


def is_judged_now(event):
    """Whether an answer is given by the tree, the rules in force, and who is signed in, alone, and changes nothing."""
    verb = None if event.is_push else verb_of(event.message)
    return verb == "get" or verb in ("set", "remove", "update") and event.is_refused


def changes_in(lane):
    """The steps of a connection that may change the tree or the rules: its number, the places at which they may be next, when they were
    sent, and the locations that they write, or the rules."""
    for place, it in enumerate([*lane.events, *lane.unanswered]):
        verb = None if it.is_push or it.said and it.is_refused else verb_of(it.message)
        if verb == "deploy":
            yield lane.number, place, place, it.sent.tick, [], read_message(it.message, 0, 0)["rules"]
        elif verb in ("set", "remove", "update"):
            yield lane.number, place, place, it.sent.tick, locations_of(read_message(it.message, 0, 0)["writes"]), None
        elif verb in ("onset", "onremove", "onupdate") and lane.visit.went:
            yield lane.number, lane.answered, lane.over - 1, lane.visit.went.tick, locations_of(read_message(it.message, 0, 0)["writes"]), None


def touch(some, others):
    return any(is_below(one, other) or is_below(other, one) for one in some for other in others)


class Search:
    """Looks for an order of a history."""

    def __init__(self, history, kind=Machine, seconds=60, tries_all_moments=False, is_plain=False):
        self.history, self.start, self.end = history, kind.beginning(history), time.process_time() + seconds
        self.lanes = [Lane(at, it, history.over) for at, it in enumerate(history.visits)]
        self.traces, self.effects, self.fitting = Traces(self.lanes, history.over), Effects(history, self.lanes), {}
        # What can't be made to fit any more: as long as the steps that are taken back have no part in it, nothing else is tried.
        self.lost = None
        # What a refusal and a read leave as it is may be changed by a planted fault; and a plain search gives nothing up before its time.
        self.is_sound, self.is_plain = kind is Machine and not is_plain, is_plain
        self.tries_all = tries_all_moments
        self.failed, self.path, self.nodes, self.most, self.shuffle, self.dice = set(), [], 0, 0, 0, random.Random(1)
        # The longest path so far, with the machine and the places behind it.
        self.best = [], self.start, tuple(it.first for it in self.lanes)

    def order(self):
        """An order, or None where there is none. What was done first is tried first; where that leads far astray, the search begins
        again and shuffles a little, and keeps what it has found to fail."""
        first = tuple(it.first for it in self.lanes)
        for attempt in count():
            self.most, self.path = self.nodes + FIRST_ATTEMPT * 2**attempt, []
            try:
                return self.path if self.goes_on(self.start, first) else None
            except Astray:
                self.shuffle = 2**attempt * 1_000_000

    def goes_on(self, machine, places):
        """Whether there is an order of what is left; it then stands on the path."""
        before, self.lost = len(self.path), None
        machine, places = self.settled(machine, places)
        if len(self.path) > len(self.best[0]):
            self.best = list(self.path), machine, places
        if all(place == lane.over for lane, place in zip(self.lanes, places)):
            return True
        key = places, machine.state()
        if key not in self.failed:
            self.nodes += 1
            if time.process_time() > self.end:
                raise Undecided
            if self.nodes > self.most:
                raise Astray
            for lane in self.promising(machine, places):
                for step, after, place in self.moves(machine, lane, places):
                    moved = with_place(places, lane, place)
                    if self.may_be(after, moved) and self.keeps(machine, step, after, moved):
                        self.path.append(step)
                        if self.goes_on(after, moved):
                            return True
                        self.path.pop()
                        if self.lost and not self.effects.has_part(step, *self.lost):
                            break
                        self.lost = None
                if self.lost:
                    break
            self.failed.add(key)
        if self.lost and any(self.effects.has_part(step, *self.lost) for step in self.path[before:]):
            self.lost = None
        del self.path[before:]
        return False

    def promising(self, machine, places):
        """The lanes whose steps may be next, those first that may let the first of the others go on; none, where one is lost."""
        ready, stuck = self.ready(places), None
        if not self.is_sound:
            return ready
        first = min(ready, key=lambda it: it.done[places[it.number]])
        for lane in ready:
            place = places[lane.number]
            # (what is settled has been tried)
            if (lane.number, place) in self.effects.of and self.is_stuck(machine, lane, places, lane is first):
                left = self.effects.left(lane, place, machine, places)
                if not left:
                    self.lost = lane, place
                    return []
                stuck = left if stuck is None or lane is first else stuck
        ready = [it for it in ready if places[it.number] >= it.answered or not is_judged_now(it.events[places[it.number]])]
        return ready if stuck is None else sorted(ready, key=lambda it: {True: 0, False: 1, None: 2}[stuck.get(it.number)])

    def is_stuck(self, machine, lane, places, is_first):
        """Whether the event of a lane does not fit now; of those that are not judged by the tree alone only the first is looked at."""
        if is_judged_now(lane.events[places[lane.number]]):
            session = machine.sessions.get(lane.number)
            return not self.fits(machine, lane, places[lane.number], session.identity if session else None)
        return is_first and next(self.moves(machine, lane, places), None) is None

    def ready(self, places):
        """The lanes whose next step may be the next of all, what was done first before the others."""
        left = [it for it in self.lanes if places[it.number] != it.over]
        bound = min(it.done[places[it.number]] for it in left)
        ready = (it for it in left if it.sent[places[it.number]] <= bound)
        return sorted(ready, key=lambda it: it.likely[places[it.number]] + self.shuffle * self.dice.random())

    def may_be(self, machine, places):
        """Whether of no session waits what is told nowhere."""
        if self.is_plain:
            return True
        for number, session in machine.sessions.items():
            lane = self.lanes[number]
            place = places[number]
            if session.listeners and place < lane.answered and lane.waiting[place] and not lane.waiting[place].holds(session):
                return False
        return True

    def keeps(self, machine, step, after, places):
        """Whether nothing that is still told is gone for good by a step."""
        if machine.tree is after.tree and step[1] >= step[0].answered or not machine.tells_what_stands or self.is_plain:
            return True
        lost, new = (machine.look() | self.traces.marks_of(step)) - after.look(), after.look() - machine.look()
        return not any(self.traces.is_ended(it, places) for it in new) and not any(self.traces.is_told(it, places) and not self.traces.may_be_written(it, places) for it in lost)

    # -- steps that may as well be made at once

    def settled(self, machine, places):
        """Makes all steps that fit and change nothing for anybody: whichever order there is, there is one in which they stand here."""
        goes_on = True
        while goes_on and any(place != lane.over for lane, place in zip(self.lanes, places)):
            goes_on = False
            for lane in self.ready(places):
                place = places[lane.number]
                if place < lane.answered and self.may_settle(machine, lane, place):
                    for step, after, moved in self.moves(machine, lane, places):
                        if after.state(lane.number) == machine.state(lane.number):
                            machine, places, goes_on = after, with_place(places, lane, moved), True
                            self.path.append(step)
                        break
        return machine, places

    def may_settle(self, machine, lane, place):
        """Whether a step is done now as well as later, if it fits and changes nothing but the session itself."""
        event, session = lane.events[place], machine.sessions.get(lane.number)
        verb = None if event.is_push else verb_of(event.message)
        if self.is_sound and is_judged_now(event):
            return self.fits(machine, lane, place, session.identity if session else None)
        if verb in ("signin", "signout"):
            return session is None or not session.listeners
        return verb in OWN or verb == "get" or event.said == NO_NEWS or event.is_refused

    def fits(self, machine, lane, place, identity):
        """Whether a read or a refusal fits, kept for the same tree."""
        key = lane.number, place, id(machine.tree), id(machine.rules), id(identity)
        if key not in self.fitting:
            event = lane.events[place]
            found = opened(machine, lane).said(lane.number, event.message, event.sent.ms) == event.said
            # (with the tree, so that no other has its number)
            self.fitting[key] = found, machine.tree, machine.rules
        return self.fitting[key][0]

    # -- steps

    def moves(self, machine, lane, places):
        """Each way in which the next step of a lane fits: the step, the machine behind it, and the place behind it."""
        place = places[lane.number]
        # No step is made before its moment, so none has a later one than what is done and still stands behind it.
        last = min(it.done_ms[places[it.number]] for it in self.lanes if places[it.number] != it.over)
        if place < lane.answered:
            event = lane.events[place]
            yield from self.pushes(machine, lane, place, event) if event.is_push else self.answers(machine, lane, place, event, last)
        elif place < lane.leaving:
            yield from self.unanswered(machine, lane, place, last)
        else:
            yield from self.runs(machine, lane, last)

    def pushes(self, machine, lane, place, event):
        after = opened(machine, lane)
        if after.pushed(lane.number, event.done.ms) == event.said:
            yield (lane, place, None), after, behind(after, lane, place + 1)

    def answers(self, machine, lane, place, event, last):
        for now in self.moments(event.sent.ms, last, stamped_at(event.message)):
            after = opened(machine, lane)
            if after.said(lane.number, event.message, now) != event.said:
                continue
            if lane.needs_silence(place) and not NOTHING.holds(after.sessions[lane.number]):
                continue
            yield (lane, place, now), after, behind(after, lane, place + 1)

    def unanswered(self, machine, lane, place, last):
        """The message was not read, nor any behind it; or it was."""
        after = opened(machine, lane)
        yield (lane, lane.leaving, None), after, behind(after, lane, lane.leaving)
        event = lane.unanswered[place - lane.answered]
        for now in self.moments(event.sent.ms, last, stamped_at(event.message)):
            after = opened(machine, lane)
            after.said(lane.number, event.message, now)
            yield (lane, place, now), after, behind(after, lane, place + 1)

    def runs(self, machine, lane, last):
        """An action is run."""
        action, went = machine.sessions[lane.number].actions[0], lane.visit.went.ms
        locations = [(*path, *below) for path, tree in writes_of(action, int(STAMP)) for below, mark in leaves_of(tree) if mark == STAMP]
        for now in self.moments(went, last, frozenset(locations)):
            after = machine.copied(lane.number)
            after.runnext({"s": lane.number, "now": now})
            yield (lane, lane.leaving, now), after, behind(after, lane, lane.leaving)

    def moments(self, first, last, locations):
        """The moments that a step may have which writes its own at some locations: first those that are told there."""
        if not locations:
            return [first]
        told = [it for it in self.traces.moments_at(locations) if first <= it <= last]
        others = (it for it in range(first, last + 1) if it not in told)
        if self.tries_all or last - first <= NEAR:
            return [*told, *others]
        # (one that is told nowhere is like each other such)
        other = next((it for it in others if str(it) not in self.traces.told), None)
        return told if other is None else [*told, other]


def with_place(places, lane, place):
    return (*places[: lane.number], place, *places[lane.number + 1 :])


def opened(machine, lane):
    """A copy of a machine in which the session of a lane is open."""
    it = machine.copied(lane.number)
    if lane.number not in it.sessions:
        it.sessions[lane.number] = Session()
    return it


def behind(machine, lane, place):
    """The place behind a step. Where nothing more is seen of the session, it goes."""
    session = machine.sessions[lane.number]
    if place == lane.leaving and lane.visit.went:
        session.leaving, session.listeners = True, {}
    if place >= lane.leaving and not (lane.visit.went and session.actions):
        del machine.sessions[lane.number]
        return lane.over
    return place


Found = namedtuple("Found", "has_order search")


def judged(history, kind=Machine, seconds=60):
    """Whether a history has an order, or None where that was not decided in this time; and the search that said so. That there is none
    is said by a plain search alone, which gives up nothing that may still fit."""
    read_message.cache_clear()
    search = Search(history, kind, seconds)
    try:
        if search.order() is not None:
            return Found(True, search)
        plain = Search(history, kind, seconds, tries_all_moments=True, is_plain=True)
        return Found(plain.order() is not None, search)
    except Undecided:
        return Found(None, search)


# ---- a history as a text

LONGEST = 300


def shortened(text):
    return text if len(text) <= LONGEST else f"{text[:LONGEST]} .. ({len(text)} characters)"


def spelled(message):
    return shortened(message.decode("utf-8", "backslashreplace"))


def lines_of(history, search):
    """A history for whoever looks for what is wrong: the files, each connection's messages, answers and pushes, with milliseconds
    since the first, and the longest beginning of an order."""
    ticks = [it.done.tick for visit in history.visits for it in visit.events]
    zero = min([it.sent.tick for visit in history.visits for it in visit.events if not it.is_push] or ticks or [0])

    def ms(moment_):
        return f"{(moment_.tick - zero) / 1e6:.3f}"

    yield f"rules: {history.rules}"
    yield f"data: {history.data}"
    yield f"tokens: {history.tokens}"
    for at, visit in enumerate(history.visits):
        yield f"connection {at}, of client {visit.client}"
        for number, it in enumerate(visit.events):
            if it.is_push:
                yield f"  {at}.{number}  by {ms(it.done)}  < {shortened(it.said)}"
            else:
                yield f"  {at}.{number}  {ms(it.sent)} to {ms(it.done)}  (at {it.sent.ms} to {it.done.ms})  > {spelled(it.message)}"
                yield f"      < {shortened(it.said)}"
        for it in visit.unanswered:
            yield f"  not answered  {ms(it.sent)}  > {spelled(it.message)}"
        if visit.went:
            yield f"  {visit.how} at {ms(visit.went)} ({visit.went.ms})"
    if history.over:
        yield f"all that have gone were gone by {ms(history.over)} ({history.over.ms})"
    yield from lines_of_best(search)


def lines_of_best(search):
    path, machine, places = search.best
    yield f"the longest beginning of an order that was found has {len(path)} steps:"
    yield "  " + " ".join(name_of(step) for step in path)
    yield f"  then the tree is {shortened(written(machine.tree))}"
    yield "what may come next does not fit, or nothing fits behind it:"
    for lane in search.ready(places) if any(place != it.over for it, place in zip(search.lanes, places)) else []:
        place = places[lane.number]
        if place >= lane.answered:
            yield f"  {name_of((lane, place, None))} may be"
            continue
        event, after = lane.events[place], opened(machine, lane)
        now = event.sent.ms if event.sent else event.done.ms
        owed = after.pushed(lane.number, now) if event.is_push else after.said(lane.number, event.message, now)
        waits = after.pushed(lane.number, now) if lane.needs_silence(place) else None
        why = f", and then {shortened(waits)}" if waits else ""
        yield f"  {lane.number}.{place} is owed {'nothing' if owed is None else shortened(owed)}{why}"


def name_of(step):
    lane, place, _ = step
    if place < lane.answered:
        return f"{lane.number}.{place}"
    return f"{lane.number}.unanswered" if place < lane.leaving else f"{lane.number}.leaves"


# ---- a history as a file


def as_json(history):
    def event(it):
        return [None if it.is_push else it.message.decode("latin-1"), it.sent, it.said, it.done]

    visits = [[it.client, list(map(event, it.events)), list(map(event, it.unanswered)), it.went, it.how] for it in history.visits]
    return json.dumps([history.rules, history.data, history.tokens, visits, history.over])


def from_json(text):
    rules, data, tokens, visits, over = json.loads(text)

    def moment_of(it):
        return it and Moment(*it)

    def event(it):
        return Event(None if it[0] is None else it[0].encode("latin-1"), moment_of(it[1]), it[2], moment_of(it[3]))

    history = History(rules, data, tokens)
    history.over = moment_of(over)
    for client, events, unanswered, went, how in visits:
        visit = Visit(client)
        visit.events, visit.unanswered = list(map(event, events)), list(map(event, unanswered))
        visit.went, visit.how = moment_of(went), how
        history.visits.append(visit)
    return history


# ---- faults that are planted into the machine, each of which a search has to find


class NoRemovals(Machine):
    """A listener is not told of a removal."""

    def judge_listener(self, session, listener, now, before):
        was = listener.marked
        super().judge_listener(session, listener, now, before)
        if selected(sub(self.tree, listener.path), listener.query) is None:
            listener.marked = was


class NeverCancelled(Machine):
    """A listener whose read is no longer granted is told what is written."""

    def judge_listener(self, session, listener, now, before):
        super().judge_listener(session, listener, now, before)
        if not listener.live:
            listener.live = listener.marked = True


class SilentEnds(Machine):
    """A listener that is cancelled ends without a word."""

    def poll(self, it):
        said = super().poll(it)
        return {"news": [each for each in said["news"] if "cancelled" not in each]}


class RefusedWrites(Machine):
    """What a `.validate` refuses is written all the same."""

    def judged(self, session, writes, now):
        try:
            return super().judged(session, writes, now)
        except Refused as refusal:
            if refusal.name == "ValidateDenied":
                self.tree = proposed(self.tree, writes)
            raise


class OldTree(Machine):
    """An update of several places is judged by the tree that stands, and not by that which it proposes."""

    def judged(self, session, writes, now):
        if len(writes) == 1:
            return super().judged(session, writes, now)
        judge_writes(self.rules, locations_of(writes), self.scene(session, now, self.tree))
        return proposed(self.tree, writes)


class HalfAnUpdate(Machine):
    """Of an update of several places the last is not made."""

    def update(self, it):
        super().update({**it, "writes": it["writes"][:-1]} if len(it["writes"]) > 1 else it)


class UnjudgedActions(Machine):
    """A disconnect action is not judged again when it is run."""

    def judged(self, session, writes, now):
        return proposed(self.tree, writes) if session.leaving else super().judged(session, writes, now)


class LostActions(Machine):
    """The last disconnect action is not run."""

    def runnext(self, it):
        actions = self.sessions[it["s"]].actions
        if len(actions) == 1:
            actions.clear()
        return super().runnext(it)


class LastActionFirst(Machine):
    """Of the disconnect actions the last is run first."""

    def runnext(self, it):
        actions = self.sessions[it["s"]].actions
        actions.insert(0, actions.pop())
        return super().runnext(it)


class NothingTakenBack(Machine):
    """An `oncancel` takes no action back."""

    def oncancel(self, it):
        self.present(it)


class TooMuchTakenBack(Machine):
    """An `oncancel` takes back an action that writes elsewhere too."""

    def oncancel(self, it):
        session = self.present(it)
        session.actions = [one for one in session.actions if not any(is_below(place, it["path"]) for place in locations_of(one["writes"]))]


class MomentOfPromise(Machine):
    """The server's time in a disconnect action is that at which it was established."""

    def runnext(self, it):
        actions = self.sessions[it["s"]].actions
        return super().runnext({**it, "now": actions[0]["now"]} if actions else it)


class ToldTwice(Machine):
    """What is told is told once more by the next poll."""

    def poll(self, it):
        marked = [listener for listener in self.present(it).listeners.values() if listener.marked is True]
        said = super().poll(it)
        for listener in marked:
            listener.marked = listener.live and "once more"
        return said


class OwnWritesUntold(Machine):
    """A session is not told what it has written itself."""

    def write(self, session, writes, now):
        marked = {name: listener.marked for name, listener in session.listeners.items()}
        super().write(session, writes, now)
        for name, was in marked.items():
            if session.listeners[name].live:
                session.listeners[name].marked = was


class OldRead(Machine):
    """A read is answered by the tree before the last write."""

    before = None
    tells_what_stands = False

    def write(self, session, writes, now):
        before = self.tree
        super().write(session, writes, now)
        self.before = (before,)

    def state(self, without=None):
        return *super().state(without), written(self.before)

    def get(self, it):
        now = self.tree
        if self.before:
            self.tree = self.before[0]
        try:
            return super().get(it)
        finally:
            self.tree = now


class SignedInForever(Machine):
    """Whoever signs out is still signed in."""

    def signout(self, it):
        self.present(it)


class RulesOfTheBeginning(Machine):
    """A deployment is answered, and the rules stay as they were."""

    def deploy(self, it):
        rules = self.rules
        super().deploy(it)
        self.rules = rules


class ListenersOfOne(Machine):
    """A write judges the listeners of its own session alone."""

    def write(self, session, writes, now):
        others = {name: it.listeners for name, it in self.sessions.items() if it is not session}
        for name in others:
            self.sessions[name].listeners = {}
        try:
            super().write(session, writes, now)
        finally:
            for name, listeners in others.items():
                self.sessions[name].listeners = listeners


FAULTS = [NoRemovals, NeverCancelled, SilentEnds, RefusedWrites, OldTree, HalfAnUpdate, UnjudgedActions, LostActions, LastActionFirst,
          NothingTakenBack, TooMuchTakenBack, MomentOfPromise, ToldTwice, OwnWritesUntold, OldRead, SignedInForever,
          RulesOfTheBeginning, ListenersOfOne]


# ---- faults that are planted into what was written down: each gives histories with one such fault


def of_events(history, change):
    """Copies of a history, each with one connection's events changed."""
    for at, visit in enumerate(history.visits):
        for events in change(visit):
            it = copy.copy(history)
            changed = copy.copy(visit)
            changed.events = events
            it.visits = [*history.visits[:at], changed, *history.visits[at + 1 :]]
            yield it


def a_push_is_lost(history):
    """A push did not come, and another of the same listener came later."""
    return of_events(history, lambda visit: [visit.events[:at] + visit.events[at + 1 :] for at, it in enumerate(visit.events[:-2]) if it.is_push])


def a_push_came_twice(history):
    """A push came once more right behind itself."""
    return of_events(history, lambda visit: [visit.events[: at + 1] + visit.events[at:] for at, it in enumerate(visit.events) if it.is_push])


def two_pushes_are_exchanged(history):
    """Two pushes of a connection came the other way round."""

    def change(visit):
        pushes = [at for at, it in enumerate(visit.events) if it.is_push]
        for one, other in zip(pushes, pushes[1:]):
            if visit.events[one].said != visit.events[other].said:
                events = list(visit.events)
                events[one], events[other] = (Event(said=events[b].said, done=events[a].done) for a, b in ((one, other), (other, one)))
                yield events

    return of_events(history, change)


def a_read_is_old(history):
    """A read of a connection is answered as the one of the same place before it, which was answered otherwise."""

    def change(visit):
        last = {}
        for at, it in enumerate(visit.events):
            if not it.is_push and verb_of(it.message) == "get":
                before = last.get(it.message)
                if before is not None and before != it.said:
                    yield [*visit.events[:at], Event(it.message, it.sent, before, it.done), *visit.events[at + 1 :]]
                last[it.message] = it.said

    return of_events(history, change)


EDITS = [a_push_is_lost, a_push_came_twice, two_pushes_are_exchanged, a_read_is_old]
