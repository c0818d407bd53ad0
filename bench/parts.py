#!/usr/bin/env python3
"""What the parts of the database cost, measured on the built program:

    python3 bench/parts.py PROGRAM [BENCH [NUMBER ..]]

prints a table with what one operation takes, a column for each number. Without numbers a bench takes its usual ones, and
without a bench the script lists them all.

It compares two runs that differ only in what is measured: scripts with n and with 2n requests, or rules with and without a
part. Of each it takes the least processor time of five runs, and divides the difference. So the start of the program and
the header of a script cancel out. A request includes what it takes to read its line and to write its answer.

values       by the number of children of one location: a set and a get of all of them, a set and a get of one, and how long
             a rule takes to look one up
views        by the number of children of one location: a set of one, a write of an update of 10 and of 100 that are spread
             over them, a set that is laid over the stored tree and then denied, and how long a rule takes to look a child up
             in what a set proposes
selections   by the number of children, each with a number below it: a get of one; of the last 50 by key; of 50 from a key on;
             of the last 50 by the number; and of those with one number
rules_files  by the number of rules in a file of 1,048,576 bytes: a check of it, and of a comment as long
expressions  by the number of rounds, each of which evaluates a rule 100 times: one evaluation, for five rules as people write
             them, at a message four keys deep
verdicts     by the number of messages and of grades that are stored, under the rules of a chat and of a school: a message by
             a member of the room and by somebody else, a grade by the teacher of the class and by somebody else
steps        by the number of listeners, 64 in each session and all on one path: a set beside what they listen to, and below
hall         by the number of clients of one server, each with a WebSocket and a worker of its own: a set, by the clock, where
             each client sends 100 at once and then reads the answers; for no client, a set in a script
"""

import json
import os
import socket
import subprocess
import sys
import tempfile
import time
from concurrent.futures import ThreadPoolExecutor
from contextlib import contextmanager
from functools import partial
from typing import Callable, NamedTuple

TIMES = 5
# What so many requests as are measured take at least, in seconds.
LEAST_SECONDS = 0.25
NOW = 1_700_000_000_000
OK = b'"ok":true'
OPEN = {"rules": {".read": True, ".write": True}}
TOKENS = {name: {"uid": name, "provider": "custom"} for name in ("ann", "eve")}


def stop(why):
    sys.exit(f"parts.py: {why}")


# ---- scripts


class Script(NamedTuple):
    """The rules and the data of a header, what each request is by its number, how they are answered, and what comes first."""

    rules: dict
    request: Callable
    data: object = None
    answer: bytes = OK
    opening: tuple = ()


def line(some):
    return json.dumps(some, separators=(",", ":")).encode() + b"\n"


def asked(do, session=1, **members):
    return line({"do": do, "s": session, "now": NOW, **members})


def always(do, **members):
    """The same request each time."""
    text = asked(do, **members)
    return lambda _: text


def opened(session=1, name="ann"):
    return [asked("open", session), asked("signin", session, token=name)]


@contextmanager
def written(script, count):
    """A file with the script and so many requests."""
    with tempfile.TemporaryFile() as file:
        file.write(line({"rules": json.dumps(script.rules), "data": script.data, "tokens": TOKENS}))
        file.writelines(script.opening or opened())
        file.writelines(script.request(it) for it in range(count))
        file.flush()
        yield file


def check_answers(program, script):
    """Stops where a script is not answered as it should be, since its time would then say nothing."""
    with written(script, 2) as file:
        file.seek(0)
        answers = subprocess.run([program, "run"], stdin=file, stdout=subprocess.PIPE, check=False).stdout.splitlines()
    wanted = [OK] * (len(answers) - 2) + [script.answer] * 2
    for answer, part in zip(answers, wanted):
        if part not in answer:
            stop(f"the program answered {answer[:200]!r}")


# ---- time


def processor_seconds(words, file=subprocess.DEVNULL):
    """What a run of the program takes."""
    if file != subprocess.DEVNULL:
        file.seek(0)
    child = subprocess.Popen(words, stdin=file, stdout=subprocess.DEVNULL)
    _, status, used = os.wait4(child.pid, 0)
    child.returncode = os.waitstatus_to_exitcode(status)
    if child.returncode:
        stop(f"{' '.join(words)} ended with status {child.returncode}")
    return used.ru_utime + used.ru_stime


def difference(fewer, more):
    """By how much the one takes longer than the other, the least of some runs that alternate."""
    pairs = [(fewer(), more()) for _ in range(TIMES)]
    return min(it for _, it in pairs) - min(it for it, _ in pairs)


def difference_of_files(program, fewer, more):
    run = partial(processor_seconds, [program, "run"])
    return difference(partial(run, fewer), partial(run, more))


def enough(program, script):
    """A number of requests that take long enough."""
    count = 16
    with written(script, 0) as file:
        rest = processor_seconds([program, "run"], file)
    while True:
        with written(script, count) as file:
            if processor_seconds([program, "run"], file) - rest >= LEAST_SECONDS:
                return count
        count *= 2


def of_a_request(program, script):
    """What one request of a script takes."""
    check_answers(program, script)
    count = enough(program, script)
    with written(script, count) as fewer, written(script, 2 * count) as more:
        return difference_of_files(program, fewer, more) / count


def of_a_part(program, without, script, count=None):
    """How much longer a request of the script takes than one of the script without a part."""
    check_answers(program, without)
    check_answers(program, script)
    count = count or enough(program, script)
    with written(without, count) as fewer, written(script, count) as more:
        return difference_of_files(program, fewer, more) / count


# ---- values

# How often one rule looks a child up.
LOOK_UPS = 90


def numbers(width):
    return {f"k{it}": it for it in range(width)}


def set_of_all(program, width):
    return of_a_request(program, Script(OPEN, always("set", path="/p", value=numbers(width))))


def get_of_all(program, width):
    return of_a_request(program, Script(OPEN, always("get", path="/p"), {"p": numbers(width)}))


def set_of_one(program, width):
    return of_a_request(program, Script(OPEN, lambda it: asked("set", path="/p/k7", value=it), {"p": numbers(width)}))


def get_of_one(program, width):
    return of_a_request(program, Script(OPEN, always("get", path="/p/k7"), {"p": numbers(width)}))


def look_up(program, width):
    def script(rule):
        return Script({"rules": {".read": rule}}, always("get", path="/q"), {"p": numbers(width)})

    rule = "&&".join(["root.child('p').child('k7').exists()"] * LOOK_UPS)
    return of_a_part(program, script("true"), script(rule)) / LOOK_UPS


# ---- views


def write_of_update(size, program, width):
    """What one write takes in an update of so many."""
    keys = [f"k{it * (width // size)}" for it in range(size)]

    def request(number):
        return asked("update", path="/p", values=dict.fromkeys(keys, number))

    return of_a_request(program, Script(OPEN, request, {"p": numbers(width)})) / size


def denied_set(program, width):
    rules = {"rules": {".write": True, ".validate": "newData.child('p').child('k7').val() == 'never'"}}
    request = always("set", path="/p/k7", value=1)
    return of_a_request(program, Script(rules, request, {"p": numbers(width)}, b"ValidateDenied"))


def look_up_in_view(program, width):
    def script(rule):
        return Script({"rules": {".write": rule}}, always("set", path="/p/k7", value=1), {"p": numbers(width)})

    rule = "&&".join(["newData.child('p').child('k8').exists()"] * LOOK_UPS)
    return of_a_part(program, script("true"), script(rule)) / LOOK_UPS


# ---- selections

QUERIES = {
    "a get of the last 50 by key": {"orderBy": "$key", "limitToLast": 50},
    "a get of 50 from a key on": {"orderBy": "$key", "startAt": "k00050", "limitToFirst": 50},
    "a get of the last 50 by a value": {"orderBy": "at", "limitToLast": 50},
    "a get of those of one value": {"orderBy": "at", "equalTo": 7},
}


def with_moments(width):
    return {f"k{it:05}": {"at": it * 7_919 % 100_003} for it in range(width)}


def get_of_a_child(program, width):
    return of_a_request(program, Script(OPEN, always("get", path="/p/k00007"), {"p": with_moments(width)}))


def get_by_query(query, program, width):
    return of_a_request(program, Script(OPEN, always("get", path="/p", query=query), {"p": with_moments(width)}))


# ---- rules_files

FILE_BYTES = 1_048_576
LONG_RULE = (
    "auth != null && (auth.uid == $room || root.child('rooms').child($room).child('members').hasChild(auth.uid)"
    " || data.child('open').val() == true) && now >= 1700000000000 + %d"
)


def file_of(rules):
    """A file with so many rules, each below a key and a capture of its own, filled up with a comment."""
    tree = {f"k{it}": {"$room": {".read": LONG_RULE % it}} for it in range(rules)}
    text = line({"rules": tree}).rstrip() + b"//"
    return text + b"x" * (FILE_BYTES - len(text))


def check_of(program, file, text):
    """A function that has the program check a file with this text."""
    file.write(text)
    file.flush()
    return partial(processor_seconds, [program, "check", file.name])


def check_of_rules(program, rules):
    with tempfile.NamedTemporaryFile() as none, tempfile.NamedTemporaryFile() as file:
        return difference(check_of(program, none, b'{"rules":{}}'), check_of(program, file, file_of(rules)))


def check_of_comment(program, _):
    return check_of_rules(program, 0)


# ---- expressions

# How often a set evaluates the rule, and how many sets a round has.
EVALUATIONS, SETS = 25, 4
RULES = (
    "auth != null && newData.child('who').val() == auth.uid",
    "newData.child('text').isString() && newData.child('text').val().length > 0 && newData.child('text').val().length <= 140",
    "newData.hasChildren(['likes', 'text', 'who'])",
    "root.child('rooms').child($room).child('members').child(auth.uid).exists()",
    "newData.child('likes').val() == data.child('likes').val() + 1",
)


def message(likes):
    return {"likes": likes, "text": "hello, you", "who": "ann"}


def liked(number):
    return asked("set", path="/rooms/lobby/messages/m1", value=message(number + 1))


def evaluation(rule, program, rounds):
    def script(of_message):
        rules = {".write": True, "rooms": {"$room": {"messages": {"$message": {".validate": of_message}}}}}
        stored = {"rooms": {"lobby": {"members": {"ann": True, "bob": True}, "messages": {"m1": message(0)}}}}
        return Script({"rules": rules}, liked, stored)

    often = "&&".join([f"({rule})"] * EVALUATIONS)
    return of_a_part(program, script("true"), script(often), SETS * rounds) / EVALUATIONS


# ---- verdicts

CHAT = {
    ".read": False,
    ".write": False,
    "members": {"$room": {".read": "auth != null && data.hasChild(auth.uid)"}},
    "messages": {
        "$room": {
            ".read": "auth != null && root.child('members').child($room).hasChild(auth.uid) && query.limitToLast <= 100",
            "$message": {
                ".write": "auth != null && root.child('members').child($room).hasChild(auth.uid)"
                " && !root.child('bans').hasChild(auth.uid) && (!data.exists() || data.child('by').val() == auth.uid"
                " || root.child('members').child($room).child(auth.uid).child('role').val() == 'moderator')",
                ".validate": "newData.hasChildren(['by', 'at', 'text'])",
                "by": {".validate": "data.exists() ? newData.val() == data.val() : newData.val() == auth.uid"},
                "at": {".validate": "data.exists() ? newData.val() == data.val() : newData.val() == now"},
                "text": {".validate": "newData.isString() && newData.val().length > 0 && newData.val().length <= 2000"},
                "$other": {".validate": False},
            },
        }
    },
}
OF_TEACHER = "root.child('classes').child($class).child('teacher').val() == auth.uid"
SCHOOL = {
    ".read": "auth.token.role == 'office'",
    ".write": "auth.token.role == 'office'",
    "grades": {
        "$class": {
            ".read": OF_TEACHER,
            ".write": OF_TEACHER,
            "$subject": {
                ".validate": "root.child('subjects').hasChild($subject)",
                "$pupil": {
                    ".validate": "root.child('classes').child($class).child('pupils').hasChild($pupil)",
                    "$test": {
                        ".validate": "newData.hasChildren(['grade', 'at'])",
                        "grade": {".validate": "newData.isNumber() && newData.val() >= 1 && newData.val() <= 6"},
                        "at": {".validate": "newData.isNumber() && newData.val() <= now"},
                        "remark": {".validate": "newData.isString() && newData.val().length <= 500"},
                        "$other": {".validate": False},
                    },
                },
            },
        }
    },
}


def message_by(name, program, stored):
    """A message that goes to a room with so many; its author sets it again and again."""
    messages = {f"m{it}": {"by": "ann", "at": it, "text": "Hello"} for it in range(stored)}
    tree = {"members": {"hall": {"ann": {"role": "member", "since": 1}}}, "messages": {"hall": messages}}
    request = always("set", path="/messages/hall/new", value={"by": name, "at": NOW, "text": "Good morning"})
    return of_a_request(program, Script({"rules": CHAT}, request, tree, expected(name), opened(name=name)))


def grade_by(name, program, stored):
    """A grade of a pupil who has so many."""
    grades = {f"t{it}": {"grade": 2, "at": it} for it in range(stored)}
    classes = {"c1": {"teacher": "ann", "pupils": {"p1": True}}}
    tree = {"classes": classes, "subjects": {"maths": "Mathematics"}, "grades": {"c1": {"maths": {"p1": grades}}}}
    grade = {"grade": 2, "at": 1_690_000_000_000, "remark": "Well done"}
    request = always("set", path="/grades/c1/maths/p1/new", value=grade)
    return of_a_request(program, Script({"rules": SCHOOL}, request, tree, expected(name), opened(name=name)))


def expected(name):
    return OK if name == "ann" else b"WriteDenied"


# ---- steps

# How many listeners a session has at most.
EACH = 64


def heard_set(path, program, listeners):
    """A set at the path, beside so many listeners; session 0 makes it."""
    opening = opened(0)
    for it in range(listeners):
        session = it // EACH
        if session > 0 and it % EACH == 0:
            opening += opened(session)
        opening.append(asked("listen", session, id=str(it), path="/rooms/hall"))
    rules = {"rules": {".read": "auth.uid == 'ann'", ".write": "auth.uid == 'ann'"}}
    return of_a_request(program, Script(rules, lambda it: asked("set", 0, path=path, value=it), opening=opening))


# ---- hall

# How many sets all clients make together, and how many one client sends before it reads their answers.
ALL_SETS, AT_ONCE = 200_000, 100
TEXT = 0x81
DONE = b'{"ok":true}'
HANDSHAKE = (
    b"GET / HTTP/1.1\r\nHost: 127.0.0.1\r\nUpgrade: websocket\r\nConnection: Upgrade\r\n"
    b"Sec-WebSocket-Version: 13\r\nSec-WebSocket-Key: dGhlIHNhbXBsZSBub25jZQ==\r\n\r\n"
)


def free_port():
    with socket.socket() as it:
        it.bind(("127.0.0.1", 0))
        return it.getsockname()[1]


@contextmanager
def served(program, workers):
    """The port of a server with so many workers."""
    with tempfile.NamedTemporaryFile() as rules:
        rules.write(line(OPEN))
        rules.flush()
        port = free_port()
        words = [program, "serve", "--rules", rules.name, "--port", str(port), "--workers", str(workers)]
        child = subprocess.Popen(words, stdout=subprocess.PIPE)
        try:
            if not child.stdout.readline().startswith(b"listening"):
                stop("the server does not listen")
            yield port
        finally:
            child.kill()
            child.communicate()


def read_exactly(client, count):
    found = client.recv(count, socket.MSG_WAITALL)
    if len(found) < count:
        stop("the server ended a connection")
    return found


def connected(port):
    """A client, after its handshake."""
    client = socket.create_connection(("127.0.0.1", port))
    client.setsockopt(socket.IPPROTO_TCP, socket.TCP_NODELAY, 1)
    client.sendall(HANDSHAKE)
    head = b""
    while not head.endswith(b"\r\n\r\n"):
        head += read_exactly(client, 1)
    return client


def frame(text):
    """A message of less than 126 bytes; a mask of zeros leaves it as it is."""
    return bytes([TEXT, 0x80 | len(text)]) + b"\0\0\0\0" + text


def ask_often(number, client, rounds):
    """Sends the sets of a client, so many rounds of them."""
    texts = [json.dumps({"do": "set", "path": f"/rooms/r{number}/at", "value": it}) for it in range(AT_ONCE)]
    sent = b"".join(frame(it.encode()) for it in texts)
    answers = AT_ONCE * (bytes([TEXT, len(DONE)]) + DONE)
    for _ in range(rounds):
        client.sendall(sent)
        if read_exactly(client, len(answers)) != answers:
            stop("the server did not accept a set")


def seconds_of_clients(port, count, rounds):
    """How long so many clients take together, by the clock."""
    clients = [connected(port) for _ in range(count)]
    with ThreadPoolExecutor(count) as pool:
        began = time.perf_counter()
        list(pool.map(ask_often, range(count), clients, [rounds] * count))
        took = time.perf_counter() - began
    for it in clients:
        it.close()
    return took


def set_of_client(program, clients):
    if clients == 0:
        return of_a_request(program, Script(OPEN, lambda it: asked("set", path="/rooms/r0/at", value=it)))
    rounds = max(1, ALL_SETS // (clients * AT_ONCE))
    with served(program, clients) as port:
        least = min(seconds_of_clients(port, clients, rounds) for _ in range(TIMES))
    return least / (rounds * clients * AT_ONCE)


# ---- benches


class Bench(NamedTuple):
    """What its numbers count, the usual ones, the least and the most that is possible, and what it measures."""

    counts: str
    usual: list
    least: int
    most: int
    kinds: dict


BENCHES = {
    "values": Bench("children", [10, 1_000, 65_000], 10, 65_000, {
        "a set of all": set_of_all,
        "a get of all": get_of_all,
        "a set of one": set_of_one,
        "a get of one": get_of_one,
        "a look-up by a rule": look_up,
    }),
    "views": Bench("children", [100, 5_000, 50_000], 100, 65_000, {
        "a set of one": set_of_one,
        "each write of an update of 10": partial(write_of_update, 10),
        "each write of an update of 100": partial(write_of_update, 100),
        "a set that is laid and denied": denied_set,
        "a look-up in what is proposed": look_up_in_view,
    }),
    "selections": Bench("children", [100, 5_000, 30_000], 100, 32_000, {
        "a get of one": get_of_a_child,
        **{name: partial(get_by_query, query) for name, query in QUERIES.items()},
    }),
    "rules_files": Bench("rules", [64, 4_096], 1, 4_096, {
        "a check of the file": check_of_rules,
        "a check of a comment": check_of_comment,
    }),
    "expressions": Bench("rounds", [10_000], 1, 1_000_000, {f"`{it}`": partial(evaluation, it) for it in RULES}),
    "verdicts": Bench("messages or grades", [100, 5_000, 16_000], 1, 16_000, {
        "a message by a member": partial(message_by, "ann"),
        "a message by a non-member": partial(message_by, "eve"),
        "a grade by the teacher": partial(grade_by, "ann"),
        "a grade by somebody else": partial(grade_by, "eve"),
    }),
    "steps": Bench("listeners", [0, 64, 1_024, 4_096], 0, 4_096, {
        "a set beside": partial(heard_set, "/rooms/yard/at"),
        "a set below": partial(heard_set, "/rooms/hall/at"),
    }),
    "hall": Bench("clients", [0, 1, 2, 4, 8, 64], 0, 64, {"a set": set_of_client}),
}


def shown(seconds):
    scaled, unit = (seconds * 1e3, "ms") if seconds >= 1e-3 else (seconds * 1e6, "µs")
    digits = 2 if scaled < 10 else 1 if scaled < 100 else 0
    return f"{scaled:,.{digits}f} {unit}"


def show_row(cells):
    print("| " + " | ".join(cells) + " |", flush=True)


def usage():
    """The benches with their usual numbers."""
    rows = [f"  {name} {' '.join(map(str, it.usual))}, for numbers of {it.counts}" for name, it in BENCHES.items()]
    return "\n".join(["parts.py PROGRAM BENCH [NUMBER ..], with a bench and numbers such as", *rows])


def numbers_for(bench, words):
    """The numbers that were given, or the usual ones."""
    if not all(it.isdecimal() for it in words):
        stop("each argument behind the bench is a number")
    chosen = [int(it) for it in words] or bench.usual
    if min(chosen) < bench.least or max(chosen) > bench.most:
        stop(f"numbers of {bench.counts} are from {bench.least} to {bench.most}")
    return chosen


def main(words):
    if len(words) < 2:
        print(usage())
        return
    program, name = words[:2]
    if name not in BENCHES or not os.access(program, os.X_OK):
        stop(f"it takes the built program and a bench\n{usage()}")
    bench = BENCHES[name]
    chosen = numbers_for(bench, words[2:])
    show_row([bench.counts, *(f"{it:,}" for it in chosen)])
    print("|---" * (1 + len(chosen)) + "|")
    for kind, measure in bench.kinds.items():
        show_row([kind, *(shown(measure(program, it)) for it in chosen)])


main(sys.argv[1:])
