// Requests as pages make them, for checks/browser, which sends each to a server as it stands here, and asks for the same through
// web/rtdb.js: the library has to refuse what the server refuses, by the same code, without sending it; and to send all else.
// A faulty one stands with the member and the place that the library has to name, and with words of how it says what is wrong.

const text = (length) => "x".repeat(length);
const keys = (count) => Array.from({ length: count }, (_, at) => `k${at}`);
const pathOfKeys = (count) => pathOf(keys(count));
/** A value below so many keys. */
const below = (count, value) => keys(count).reduceRight((it, key) => ({ [key]: it }), value);
/** A value in so many arrays. */
const nested = (count, value) => Array.from({ length: count }).reduce((it) => [it], value);
const objects = (count) => Array.from({ length: count }).reduce((it) => ({ a: it }), {});
const pathOf = (them) => `/${them.join("/")}`;
const now = { ".sv": "timestamp" };
const set = (path, value) => ({ do: "set", path, value });
const update = (path, values) => ({ do: "update", path, values });
const get = (path, query) => ({ do: "get", path, query });
const MOST = Number.MAX_SAFE_INTEGER;
/** A `set` of so many bytes. */
const ofBytes = (bytes) => {
  const few = Array(16).fill(text(65_500));
  return set("/a", [...few, text(bytes - JSON.stringify(set("/a", [...few, ""])).length)]);
};

const BAD = [
  // Values.
  [set("/a", 1.5), "value", "/a", "fraction"],
  [set("/a", -0.25), "value", "/a", "fraction"],
  [set("/a", 1e-7), "value", "/a", "fraction"],
  [set("/a", MOST + 1), "value", "/a", "too large"],
  [set("/a", -MOST - 1), "value", "/a", "too large"],
  [set("/a", 1e21), "value", "/a", "too large"],
  [set("/a", Number.MAX_VALUE), "value", "/a", "too large"],
  [set("/a", { b: { c: 0.5 } }), "value", "/a/b/c", "fraction"],
  [set("/a", [1, 2, 2.5]), "value", "/a/2", "fraction"],
  [set("/a", [[], [{ b: 1e300 }]]), "value", "/a/1/0/b", "too large"],
  [set("/a", { "b.c": 1 }), "value", "/a/b.c", "has a ."],
  [set("/a", { $b: 1 }), "value", "/a/$b", "has a $"],
  [set("/a", { "b#": 1 }), "value", "/a/b#", "has a #"],
  [set("/a", { "b[": 1 }), "value", "/a/b[", "has a ["],
  [set("/a", { "b]": 1 }), "value", "/a/b]", "has a ]"],
  [set("/a", { "b/c": 1 }), "value", "/a/b/c", "has a /"],
  [set("/a", { "": 1 }), "value", "/a/", "empty"],
  [set("/a", { b: { "": null } }), "value", "/a/b/", "empty"],
  [set("/a", { "b\n": 1 }), "value", "/a/b\n", "control character"],
  [set("/a", { "b\u007f": 1 }), "value", "/a/b\u007f", "control character"],
  [set("/a", { "\u0000": 1 }), "value", "/a/\u0000", "control character"],
  [set("/a", { "b.": null }), "value", "/a/b.", "has a ."],
  [set("/a", { "b.": {} }), "value", "/a/b.", "has a ."],
  [set("/a", { [text(769)]: 1 }), "value", `/a/${text(769)}`, "769 bytes"],
  [set("/a", { ["ß".repeat(385)]: 1 }), "value", `/a/${"ß".repeat(385)}`, "770 bytes"],
  [set("/a", text(65_537)), "value", "/a", "65537 bytes"],
  [set("/a", "ß".repeat(32_769)), "value", "/a", "65538 bytes"],
  [set("/a", { b: ["", text(65_537)] }), "value", "/a/b/1", "65537 bytes"],
  [set("/a", { ".sv": "now" }), "value", "/a/.sv", "has a ."],
  [set("/a", { ".sv": 1 }), "value", "/a/.sv", "has a ."],
  [set("/a", { ".sv": null }), "value", "/a/.sv", "has a ."],
  [set("/a", { ".sv": now }), "value", "/a/.sv", "has a ."],
  [set("/a", { ".sv": "timestamp", b: null }), "value", "/a/.sv", "has a ."],
  [set("/a", { ".sv": { increment: 1 } }), "value", "/a/.sv", "has a ."],
  [set("/a", { ".priority": 1, ".value": 2 }), "value", "/a/.priority", "has a ."],
  [set("/a", below(32, 1)), "value", pathOf(["a", ...keys(32)]), "33 keys deep"],
  [set("/", below(33, 1)), "value", pathOfKeys(33), "33 keys deep"],
  [set("/a", below(32, now)), "value", pathOf(["a", ...keys(32)]), "33 keys deep"],
  [set(pathOfKeys(32), { a: 1 }), "value", `${pathOfKeys(32)}/a`, "33 keys deep"],
  [set("/a", nested(40, "b")), "value", pathOf(["a", ...Array(40).fill("0")]), "41 keys deep"],
  [set("/a", { b: below(40, 1), c: 0.5 }), "value", "/a/c", "fraction"],
  [set("/a", { b: "\ud834" }), "value", undefined, "UTF-16"],
  [set("/a", { "\udd1e": 1 }), "value", undefined, "UTF-16"],
  [set("/a", ["\udd1e\ud834"]), "value", undefined, "UTF-16"],
  [set("/a.", "\ud834"), "value", undefined, "UTF-16"],
  [set("/a", nested(127, 1)), "value", undefined, "127 deep"],
  [set("/a", nested(1_000, null)), "value", undefined, "127 deep"],
  [set("/a", objects(126)), "value", undefined, "127 deep"],
  [ofBytes(1_048_577), undefined, undefined, "1048577 bytes"],
  [set("/a", text(2_000_000)), undefined, undefined, "bytes"],
  [set("/a", `${text(1_100_000)}\ud834`), undefined, undefined, "bytes"],
  // Paths.
  [set("/a.b", 1), "path", "/a.b", "has a ."],
  [set("/a/$b", 1), "path", "/a/$b", "has a $"],
  [set("/a#", 1), "path", "/a#", "has a #"],
  [set("[", 1), "path", "[", "has a ["],
  [set("/]/b", 1), "path", "/]/b", "has a ]"],
  [set("/a\t", 1), "path", "/a\t", "control character"],
  [set("/a\u007f", 1), "path", "/a\u007f", "control character"],
  [set("/a.b", 1.5), "path", "/a.b", "has a ."],
  [set(`/${text(769)}`, 1), "path", `/${text(769)}`, "769 bytes"],
  [set(pathOfKeys(33), 1), "path", pathOfKeys(33), "33 keys deep"],
  [set(pathOfKeys(33), 1.5), "path", pathOfKeys(33), "33 keys deep"],
  [set(`${pathOfKeys(33)}.`, 1), "path", `${pathOfKeys(33)}.`, "has a ."],
  [set("/\ud834", 1), "path", undefined, "UTF-16"],
  [get(".info/connected"), "path", ".info/connected", "has a ."],
  [get("/a.b", { limitToFirst: 0 }), "path", "/a.b", "has a ."],
  [get(pathOfKeys(33)), "path", pathOfKeys(33), "33 keys deep"],
  [{ do: "remove", path: "/a." }, "path", "/a.", "has a ."],
  [{ do: "onremove", path: "/a." }, "path", "/a.", "has a ."],
  [{ do: "oncancel", path: "/a." }, "path", "/a.", "has a ."],
  [{ do: "onset", path: "/a", value: 1.5 }, "value", "/a", "fraction"],
  [{ do: "onupdate", path: "/a", values: { b: 1.5 } }, "values", "/a/b", "fraction"],
  [{ do: "onupdate", path: "/a", values: {} }, "values", undefined, "no members"],
  [{ do: "listen", id: "l", path: "/a." }, "path", "/a.", "has a ."],
  [{ do: "listen", id: "l", path: "/a", query: { limitToLast: 0 } }, "query.limitToLast", undefined, "no limit"],
  // What is of another kind.
  [set(5, 1), "path", undefined, "5 is no text"],
  [set(null, 1), "path", undefined, "null is no text"],
  [set(["a"], 1.5), "path", undefined, "is no text"],
  [get({}), "path", undefined, "is no text"],
  [{ do: "remove", path: true }, "path", undefined, "true is no text"],
  [update(1, {}), "path", undefined, "1 is no text"],
  [update("/a", null), "values", undefined, "null is no object"],
  [update("/a", [1]), "values", undefined, "is no object"],
  [update("/a", 5), "values", undefined, "5 is no object"],
  [update("/a.", "b"), "values", undefined, "is no object"],
  [get("/a", "b"), "query", undefined, "is no object"],
  [get("/a", [1]), "query", undefined, "is no object"],
  [get("/a.", 7), "query", undefined, "7 is no object"],
  [{ do: "signin", token: 5 }, "token", undefined, "the secret is no text"],
  [{ do: "signin", token: null }, "token", undefined, "the secret is no text"],
  [{ do: "signin", token: "mine\ud834" }, "token", undefined, "the secret has half"],
  [{ do: "deploy", rules: { rules: {} } }, "rules", undefined, "is no text"],
  [{ do: "deploy", rules: "\ud834" }, "rules", undefined, "UTF-16"],
  // Updates.
  [update("/a", {}), "values", undefined, "no members"],
  [update("/a", { b: 1, "b/c": 2 }), "values", "/a/b", "and below"],
  [update("/a", { "": 1, b: 2 }), "values", "/a", "and below"],
  [update("/a", { b: 1, "/b/": 2 }), "values", "/a/b", "twice"],
  [update("/", { "b/c/d": null, b: null }), "values", "/b", "and below"],
  [update("/a", { "b.c": 1 }), "values", "b.c", "has a ."],
  [update("/a", { b: 1, c: 1.5 }), "values", "/a/c", "fraction"],
  [update("/a", { "b/c": { d: MOST + 1 } }), "values", "/a/b/c/d", "too large"],
  [update("/a", { z: 1.5, "y.": 1 }), "values", "y.", "has a ."],
  [update("/a", { "\uffee.": 1, "𝄞": 1.5 }), "values", "\uffee.", "has a ."],
  [update("/a", { "𝄞.": 1, "\uffee": 1.5 }), "values", "/a/\uffee", "fraction"],
  [update("/a", { b: 1, "b/c": 1.5 }), "values", "/a/b/c", "fraction"],
  [update(pathOfKeys(32), { a: 1 }), "values", `${pathOfKeys(32)}/a`, "33 keys deep"],
  [update(pathOfKeys(20), { [keys(13).join("/")]: null }), "values", pathOfKeys(20) + pathOfKeys(13), "33 keys deep"],
  [update("/a", { b: below(31, 1) }), "values", pathOf(["a", "b", ...keys(31)]), "33 keys deep"],
  [update("/a", { b: { "c/d": 1 } }), "values", "/a/b/c/d", "has a /"],
  // Queries.
  [get("/a", { limitToFirst: 1, limitToLast: 1 }), "query.limitToFirst", undefined, "one limit"],
  [get("/a", { limitToFirst: 0 }), "query.limitToFirst", undefined, "no limit"],
  [get("/a", { limitToFirst: 1_001 }), "query.limitToFirst", undefined, "no limit"],
  [get("/a", { limitToLast: -1 }), "query.limitToLast", undefined, "no limit"],
  [get("/a", { limitToLast: 1.5 }), "query.limitToLast", undefined, "no limit"],
  [get("/a", { limitToLast: "5" }), "query.limitToLast", undefined, "no limit"],
  [get("/a", { limitToLast: null }), "query.limitToLast", undefined, "no limit"],
  [get("/a", { orderBy: "" }), "query.orderBy", undefined, "no keys"],
  [get("/a", { orderBy: "/" }), "query.orderBy", undefined, "no keys"],
  [get("/a", { orderBy: 5 }), "query.orderBy", undefined, "no order"],
  [get("/a", { orderBy: null }), "query.orderBy", undefined, "no order"],
  [get("/a", { orderBy: "$priority" }), "query.orderBy", undefined, "has a $"],
  [get("/a", { orderBy: "b.c" }), "query.orderBy", undefined, "has a ."],
  [get("/a", { orderBy: pathOfKeys(33) }), "query.orderBy", undefined, "33 keys deep"],
  [get("/a", { startAt: "b" }), "query.startAt", undefined, "needs an orderBy"],
  [get("/a", { equalTo: 5, limitToFirst: 1 }), "query.equalTo", undefined, "needs an orderBy"],
  [get("/a", { orderBy: "$key", startAt: 5 }), "query.startAt", undefined, "no key"],
  [get("/a", { orderBy: "$key", equalTo: true }), "query.equalTo", undefined, "no key"],
  [get("/a", { orderBy: "$value", equalTo: null }), "query.equalTo", undefined, "no bound"],
  [get("/a", { orderBy: "$value", endAt: {} }), "query.endAt", undefined, "no bound"],
  [get("/a", { orderBy: "b", endAt: [1] }), "query.endAt", undefined, "no bound"],
  [get("/a", { orderBy: "b", endAt: now }), "query.endAt", undefined, "no bound"],
  [get("/a", { orderBy: "b", startAt: 0.5 }), "query.startAt", undefined, "fraction"],
  [get("/a", { orderBy: "b", startAt: MOST + 1 }), "query.startAt", undefined, "too large"],
  [get("/a", { orderBy: "b", startAt: text(65_537) }), "query.startAt", undefined, "65537 bytes"],
  [get("/a", { orderBy: "b", equalTo: 1, startAt: 1 }), "query.startAt", undefined, "beside equalTo"],
  [get("/a", { orderBy: "b", equalTo: 1, endAt: 1 }), "query.endAt", undefined, "beside equalTo"],
  [get("/a", { orderBy: "b", startAfter: 1 }), "query.startAfter", undefined, "no such member"],
  [get("/a", { orderByChild: "b" }), "query.orderByChild", undefined, "no such member"],
  [get("/a", { limit: 5 }), "query.limit", undefined, "no such member"],
  [get("/a", { ".sv": "timestamp" }), "query..sv", undefined, "no such member"],
];

const GOOD = [
  ...[null, true, false, 0, -0, 1, -1, 5.0, MOST, -MOST, 1e3, "", "b", "ß𝄞\u0000\n", text(65_536), "ß".repeat(32_768), now].map((it) => set("/a", it)),
  set("/a", {}),
  set("/a", []),
  set("/a", [1, [], { b: 2 }]),
  set("/a", [null, null, 3]),
  set("/a", { b: null, c: {} }),
  set("/a", { b: { c: now }, d: [now] }),
  set("/a", { "-": 1, " ": 2, "b c": 3, "ß": 4, "𝄞": 5, "\u0080": 6, '"': 7, "\\": 8, "01": 9, "1": 10 }),
  set("/a", JSON.parse('{"__proto__":1,"constructor":2,"toJSON":3}')),
  set("/a", { [text(768)]: 1, ["ß".repeat(384)]: 2 }),
  set("/a", below(31, 1)),
  set("/", below(32, now)),
  set("/a", below(40, null)),
  set("/a", below(40, {})),
  set("/a", objects(125)),
  set("/a", nested(126, null)),
  set("/a", { ...below(31, 1), b: below(50, null) }),
  set(pathOfKeys(32), 1),
  set(pathOfKeys(32), {}),
  set(`/${text(768)}`, 1),
  set("a//b/", 1),
  ofBytes(1_048_576),
  { do: "remove", path: "/a" },
  { do: "remove", path: "" },
  { do: "onset", path: "/a", value: now },
  { do: "onupdate", path: "/a", values: { b: now, c: null } },
  { do: "onremove", path: "//" },
  { do: "oncancel", path: "/" },
  update("/a", { b: 1 }),
  update("/a", { "": 1 }),
  update("/a", { "b/c": 1, "b/d": null, "/e/": { f: [now] } }),
  update("", { b: 1, bc: 2, "c/b": 3 }),
  update("/a", { b: {} }),
  update(pathOfKeys(31), { a: 1 }),
  update("/a", { b: below(30, 1) }),
  get(""),
  get("/a", {}),
  get("/a", { limitToFirst: 1 }),
  get("/a", { limitToLast: 1_000 }),
  get("/a", { orderBy: "$key" }),
  get("/a", { orderBy: "$key", startAt: "", endAt: "." }),
  get("/a", { orderBy: "$value", startAt: false, endAt: "ß", limitToLast: 5 }),
  get("/a", { orderBy: "b/c", equalTo: -MOST }),
  get("/a", { orderBy: pathOfKeys(32), startAt: text(65_536) }),
  get("/a", { orderBy: "b", equalTo: "", limitToFirst: 2 }),
  { do: "listen", id: "one", path: "/a", query: { orderBy: "$value", equalTo: true } },
  { do: "listen", id: "two", path: "/" },
  { do: "signin", token: "secret of ann" },
  { do: "deploy", rules: '{"rules":{".read":true,".write":true}}' },
  { do: "signout" },
];

// Requests at random: often faulty, often in several ways, of which the server names the first.
const pick = (list) => list[Math.floor(Math.random() * list.length)];
const several = (most, one) => Array.from({ length: Math.floor(Math.random() * (most + 1)) }, one);
const ODD_KEYS = ["a.b", "$x", "", "#", "\u0007", "x/y", "ß", ".sv", text(768), text(769), "\ud834", "𝄞", "-1", "0", "k1"];
const ODD_VALUES = [1.5, MOST + 1, MOST, "\udd1e", text(65_536), text(65_537), { ".sv": "x" }, { ".sv": "timestamp", a: null }, [], -1];
const ODD_PATHS = [pathOfKeys(31), pathOfKeys(32), pathOfKeys(33), 5, null, {}, ["a"]];
const QUERY_MEMBERS = {
  orderBy: ["$key", "$value", "a", "a/b", "", "/", "$x", 5, "a.b", pathOfKeys(32), pathOfKeys(33)],
  startAt: ["a", 5, true, null, 1.5, {}, [], MOST + 1, text(65_537), "\ud834"],
  endAt: ["a", 5, false, null, -0.5],
  equalTo: ["a", 5, true, null],
  limitToFirst: [1, 5, 1_000, 1_001, 0, -1, 1.5, "5", null],
  limitToLast: [1, 1_000, 0, 2],
  limit: [1],
};

const randomKey = () => (Math.random() < 0.8 ? pick(["a", "b", "c"]) : pick(ODD_KEYS));
const randomPath = () => (Math.random() < 0.1 ? pick(ODD_PATHS) : several(3, randomKey).join("/"));
const randomQuery = () => Object.fromEntries(several(3, () => pick(Object.keys(QUERY_MEMBERS))).map((name) => [name, pick(QUERY_MEMBERS[name])]));
const randomValues = () => Object.fromEntries(several(3, () => [String(randomPath()), randomValue(2)]));

function randomValue(depth) {
  const kind = Math.random();
  if (depth === 0 || kind < 0.5) return Math.random() < 0.6 ? pick([0, "t", true, null, now, {}]) : pick(ODD_VALUES);
  if (kind < 0.65) return several(2, () => randomValue(depth - 1));
  if (kind < 0.75) return below(pick([28, 29, 30, 31, 32, 33, 125, 126]), randomValue(1));
  return Object.fromEntries(several(2, () => [randomKey(), randomValue(depth - 1)]));
}

function randomRequest() {
  const request = { do: pick(["set", "update", "get", "remove", "onset", "onupdate"]), path: randomPath() };
  if (request.do.endsWith("set")) request.value = randomValue(3);
  if (request.do.endsWith("update")) request.values = Math.random() < 0.9 ? randomValues() : pick([null, 5, "a", [1]]);
  if (request.do === "get" && Math.random() < 0.9) request.query = Math.random() < 0.9 ? randomQuery() : pick([5, "a", [1]]);
  return request;
}

const ring = { b: {} };
ring.b.c = ring;
const holes = [1, 2];
holes[4] = 5;

// What no JSON says, so that the server can't be asked about it.
const UNSAYABLE = [
  [set("/u", undefined), "value", "/u", "undefined"],
  [set("/u", { a: undefined }), "value", "/u/a", "undefined"],
  [set("/u", { a: [1, { b: undefined }] }), "value", "/u/a/1/b", "undefined"],
  [set("/u", holes), "value", "/u/2", "undefined"],
  [set("/u", { a: () => 1 }), "value", "/u/a", "function"],
  [set("/u", { toJSON: () => 1 }), "value", "/u/toJSON", "function"],
  [set("/u", Symbol("a")), "value", "/u", "symbol"],
  [set("/u", { [Symbol("a")]: 1 }), "value", "/u", "symbol"],
  [set("/u", { a: 5n }), "value", "/u/a", "bigint"],
  [set("/u", { a: new Date(0) }), "value", "/u/a", "Date"],
  [set("/u", new Map([["a", 1]])), "value", "/u", "Map"],
  [set("/u", { a: new Set() }), "value", "/u/a", "Set"],
  [set("/u", { a: new Uint8Array(2) }), "value", "/u/a", "Uint8Array"],
  [set("/u", { a: Object(5) }), "value", "/u/a", "Number"],
  [set("/u", { a: new (class Point { x = 1; })() }), "value", "/u/a", "Point"],
  [set("/u", Promise.resolve(1)), "value", "/u", "Promise"],
  [set("/u", { a: NaN }), "value", "/u/a", "NaN"],
  [set("/u", { a: -Infinity }), "value", "/u/a", "-Infinity"],
  [set("/u", ring), undefined, undefined, "within itself"],
  [update("/u", { a: undefined, c: 3 }), "values", "/u/a", "undefined"],
  [update("/u", { "a/b": { c: undefined } }), "values", "/u/a/b/c", "undefined"],
  [update("/u", undefined), "values", "/u", "undefined"],
  [update("/u", new Map()), "values", "/u", "Map"],
  [{ do: "onset", path: "/u", value: { a: undefined } }, "value", "/u/a", "undefined"],
  [{ do: "onupdate", path: "/u", values: { a: NaN } }, "values", "/u/a", "NaN"],
  [set(undefined, 1), "path", undefined, "undefined"],
  [get(undefined), "path", undefined, "undefined"],
  [get("/u", { orderBy: "$key", startAt: undefined }), "query.startAt", undefined, "undefined"],
  [get("/u", { orderBy: "$value", startAt: new Date(0) }), "query.startAt", undefined, "Date"],
  [get("/u", () => 1), "query", undefined, "function"],
  [{ do: "signin", token: undefined }, "token", undefined, "undefined"],
  [{ do: "deploy", rules: undefined }, "rules", undefined, "undefined"],
];
