"""A second reading of docs/JOURNAL.md: what stands in the file of a journal, what is recovered of it, and what its entries lead to.

It is written from that page, and of what an entry's calls do it knows what second_reading.py says. It knows nothing of memory.
"""

import hashlib
import re

from second_reading import (
    MOST, MOST_ACTIONS, MOST_LOCATIONS, MOST_SESSIONS, BadJson, Database, Identity, Refused, Session, count, is_primitive, is_text, locations_of,
    need_apart, printed, read_json, read_path, read_rules, read_tree, read_write, writes_of, written,
)

TITLE = b"rtdb journal 1 "
FIRST_LINE, HEADER = 97, 185
MOST_GROUP = 16_777_216
NUMBER = rb"(?:0|[1-9][0-9]*)"


# ---- the file


def sum_of(data):
    return hashlib.new("sha512_256", data).hexdigest().encode()


def entry_text(entry):
    return b"%08d " % len(entry) + entry + b"\n"


def group_bytes(identifier, number, durable, before, entries):
    """The bytes of a group, and its sum."""
    text = b"".join(map(entry_text, entries))
    front = identifier + b" %012d %08d %015d " % (number, len(text), durable) + before + b" "
    return front + sum_of(front + text) + b"\n" + text, sum_of(front + text)


def file_of(identifier, groups):
    """The file of these groups, each a list of entries. Each says that all before it was on the disk."""
    title = TITLE + identifier + b" "
    before = sum_of(title)
    file = title + before + b"\n"
    for at, entries in enumerate(groups):
        group, before = group_bytes(identifier, at + 1, len(file), before, entries)
        file += group
    return file


class Damaged(Exception):
    """A file that is refused."""


def group_at(file, identifier, at):
    """The whole group at a place: its number, its sum before, how much was on the disk, its sum and its text; or None."""
    line = file[at : at + HEADER]
    found = re.fullmatch(re.escape(identifier) + rb" (\d{12}) (\d{8}) (\d{15}) ([^\n]{64}) ([^\n]{64})\n", line, re.DOTALL)
    if not found:
        return None
    number, size, durable = (int(found[it]) for it in (1, 2, 3))
    text = file[at + HEADER : at + HEADER + size]
    if size > MOST_GROUP or len(text) < size or durable > at or found[5] != sum_of(line[:120] + text):
        return None
    return number, found[4], durable, found[5], text


def entries_of(text):
    """The entries of a group's text, or None where it is none of entries."""
    entries = []
    while text:
        found = re.match(rb"(\d{8}) ", text)
        size = int(found[1]) if found else len(text)
        if text[9 + size : 10 + size] != b"\n":
            return None
        entries.append(text[9 : 9 + size])
        text = text[10 + size :]
    return entries


def read(file):
    """The identifier of a file, its groups, each a list of entries, and where they end. It may be refused as damaged."""
    identifier, title = file[15:31], file[:32]
    if len(file) < FIRST_LINE or title != TITLE + identifier + b" " or file[32:97] != sum_of(title) + b"\n":
        raise Damaged("File(NotAJournal)")
    at, before, groups = FIRST_LINE, sum_of(title), []
    while (found := group_at(file, identifier, at)) and found[:2] == (len(groups) + 1, before):
        entries = entries_of(found[4])
        if entries is None:
            raise Damaged(f"File(NoEntries {{ group: {len(groups) + 1} }})")
        groups.append(entries)
        at, before = at + HEADER + len(found[4]), found[3]
    place = file.find(identifier, at)
    while place >= 0:
        found = group_at(file, identifier, place)
        if found and found[2] > at:
            raise Damaged(f"File(Damaged {{ group: {len(groups) + 1}, at: {at} }})")
        place = file.find(identifier, place + 1)
    return identifier, groups, at


# ---- entries


class Unfit(Exception):
    """An entry that means nothing, or that can't stand where it does."""


def need(condition):
    if not condition:
        raise Unfit


def json_in(text):
    try:
        return read_json(text)
    except BadJson:
        raise Unfit from None


def number_in(digits):
    need(re.fullmatch(NUMBER, digits) and int(digits) < 2**64)
    return int(digits)


def identity_in(said):
    need(isinstance(said, dict) and {"uid", "provider", "admin", "claims"} <= set(said))
    it = Identity(said["uid"], said["provider"], said["admin"], said["claims"])
    need(is_text(it.uid) and is_text(it.provider) and isinstance(it.admin, bool) and isinstance(it.claims, list))
    for claim in it.claims:
        need(isinstance(claim, list) and len(claim) == 2 and isinstance(claim[0], str) and is_primitive(claim[1]))
    # (the first claim of a name counts)
    return it._replace(claims=dict(reversed(it.claims)))


class Replay:
    """What the entries so far lead to: the text of the rules, that of the tree, and the database once it is open."""

    def __init__(self):
        self.rules, self.json, self.database = None, b"", None

    def copy(self):
        """A replay that goes its own way; trees and rules are never changed in place."""
        it = Replay()
        it.rules, it.json, it.database = self.rules, self.json, self.database and copy_of(self.database)
        return it

    def follow(self, entry):
        """Does what an entry means."""
        try:
            word, _, rest = entry.partition(b" ")
            if entry == b"begin":
                self.begin()
            elif word == b"rules":
                need(self.rules is None and b" " in entry)
                self.rules = rest.decode("utf-8")
            elif word == b"tree":
                need(self.rules is not None and self.database is None and b" " in entry)
                self.json += rest
            else:
                need(self.database is not None)
                self.go_on(word, rest)
        except (Refused, UnicodeDecodeError):
            raise Unfit from None

    def begin(self):
        need(self.rules is not None and self.database is None)
        rules, _ = read_rules(self.rules.encode("utf-8"))
        tree = read_tree(json_in(self.json))
        need(count(tree) <= MOST_LOCATIONS)
        self.database = Database(rules, tree, {})

    def go_on(self, word, rest):
        number, space, last = rest.partition(b" ")
        need(space)
        number = number_in(number)
        if word == b"session":
            self.resume(number, json_in(last))
        elif word == b"action":
            self.establish(number, json_in(last))
        else:
            now = number_in(word)
            need(now <= MOST)
            self.call(now, number, last)

    def resume(self, number, said):
        need(isinstance(said, dict) and {"leaving", "who"} <= set(said) and isinstance(said["leaving"], bool))
        need(number not in self.database.sessions and len(self.database.sessions) < MOST_SESSIONS)
        session = Session()
        session.leaving, session.identity = said["leaving"], None if said["who"] is None else identity_in(said["who"])
        self.database.sessions[number] = session

    def establish(self, number, said):
        need(number in self.database.sessions and isinstance(said, list))
        need(all(isinstance(it, list) and len(it) == 2 and isinstance(it[0], str) for it in said))
        writes = [read_write(read_path(path), value, 0) for path, value in said]
        need_apart(locations_of(writes))
        session = self.database.sessions[number]
        need(len(session.actions) < MOST_ACTIONS)
        # (an action is kept as the request that would establish it)
        session.actions.append({"path": (), "values": dict(said), "writes": writes})

    def call(self, now, number, told):
        it = {"now": now, "s": number}
        if told in (b"open", b"close", b"leave"):
            getattr(self.database, told.decode())(it)
        elif told == b"runnext":
            need(self.database.runnext(it)["ran"] != "empty")
        elif told.startswith(b"signin "):
            who = identity_in(json_in(told[7:]))
            self.database.present(it).identity = who
        else:
            self.send(now, number, told)

    def send(self, now, number, message):
        """Makes the call that a message of a socket asks for."""
        said = json_in(message)
        need(isinstance(said, dict) and "now" not in said and "s" not in said)
        need(said.get("do") in ("signout", "set", "remove", "update", "deploy", "onset", "onremove", "onupdate", "oncancel"))
        line = b'{"now":%d,"s":%d,' % (now, number) + message.partition(b"{")[2]
        need(self.database.answer(line)["ok"])
        if said["do"] == "deploy":
            self.rules = said["rules"]


def copy_of(database):
    """A database with the same sessions, none of which listens to anything."""
    it = Database(database.rules, database.tree, {})
    for number, session in database.sessions.items():
        other = it.sessions[number] = Session()
        other.identity, other.leaving, other.actions = session.identity, session.leaving, [*session.actions]
    return it


def leave_all(database, now):
    """Lets each session leave, in the order of their numbers, runs its actions and closes it: the entries of that."""
    entries = []
    for number, session in sorted(database.sessions.items()):
        it = {"now": now, "s": number}
        if not session.leaving:
            database.leave(it)
            entries.append(b"%d %d leave" % (now, number))
        while database.runnext(it)["ran"] != "empty":
            entries.append(b"%d %d runnext" % (now, number))
        database.close(it)
        entries.append(b"%d %d close" % (now, number))
    return entries


# ---- databases, to be compared


def who_kept(identity):
    """Somebody, with the claims that have a value."""
    claims = identity and sorted((name, written(it)) for name, it in identity.claims.items() if it is not None)
    return identity and (identity.uid, identity.provider, identity.admin, claims)


def writes_kept(writes):
    return sorted((printed(path), written(tree)) for path, tree in writes)


def kept(database, rules):
    """A database, whoever is signed in, and what its actions would write at two moments."""
    sessions = {
        number: (who_kept(it.identity), it.leaving, [[writes_kept(writes_of(action, now)) for now in (7, 11)] for action in it.actions])
        for number, it in sorted(database.sessions.items())
    }
    return {"rules": rules, "tree": written(database.tree), "sessions": sessions}


def kept_in(snapshot):
    """The database of a snapshot as the program prints it, which has the rules, the tree, and then each session with its actions."""
    rules, *rest = snapshot
    need(rules.startswith(b"rules "))
    at = rest.index(b"begin")
    need(all(it.startswith(b"tree ") for it in rest[:at]))
    tree = written(read_tree(json_in(b"".join(it[5:] for it in rest[:at]))))
    sessions = {}
    for it in rest[at + 1 :]:
        word, number, last = it.split(b" ", 2)
        number, said = number_in(number), json_in(last)
        if word == b"session":
            need(number not in sessions and number > max(sessions, default=-1))
            sessions[number] = (who_kept(said["who"] and identity_in(said["who"])), said["leaving"], [])
        else:
            need(word == b"action" and number == max(sessions))
            sessions[number][2].append([writes_kept(read_write(read_path(path), value, now) for path, value in said) for now in (7, 11)])
    return {"rules": rules[6:].decode("utf-8"), "tree": tree, "sessions": sessions}
