// A client of an rtdb server, for browsers. It is one module and depends on nothing; docs/PROTOCOL.md has the messages.
//
//     const db = connect("ws://127.0.0.1:8080");
//     await db.signIn("secret of ann");
//     const stop = db.listen("/rooms/tea/title", null, (title) => show(title), (error) => show(error.message));
//     await db.onDisconnect("/online/tea/ann/c1").remove();
//     await db.set("/online/tea/ann/c1", serverTimestamp());
//
// Requests go out in the order in which they are made, and those made before the connection stands wait for it. What the server
// would refuse as faulty is not sent. After a loss the client connects again, signs in, establishes its disconnect actions and
// listens again. A read that was not answered is asked again; a write is rejected as `ConnectionLost`, since nobody knows
// whether the server has made it.

/** @typedef {null | boolean | number | string | { [key: string]: Value }} Value  what is read: there are no arrays */
/** @typedef {{ [path: string]: unknown }} Values */
/** @typedef {boolean | number | string} Bound */
/** @typedef {{ orderBy?: string, startAt?: Bound, endAt?: Bound, equalTo?: Bound, limitToFirst?: number, limitToLast?: number }} Query */
/** @typedef {"false" | "error"} Why  a rule did not hold */
/** @typedef {{ pattern: string, why: Why }} NamedRule */
/** @typedef {{ at?: string, rules?: NamedRule[], pattern?: string, why?: Why, rule?: string, byte?: number, what?: string }} Reasons */
/** @typedef {{ request?: string, member?: string, how?: string }} Findings  what this client finds: in which member of which request, and how it is wrong */
/** @typedef {{ code: number, name: string } & Reasons & Findings} Refusal */
/** @typedef {{ name: keyof typeof FAULT_CODES, member?: string, at?: string, how: string }} Fault */
/** @typedef {[keys: string[], value: unknown]} Place  of a value: the keys that lead to it, and what is there */
/** @typedef {{ id: string, value: Value, cancelled?: boolean }} News */
/** @typedef {Refusal & { ok?: boolean, value: Value, news: News[], push?: News[] }} Answer */
/** @typedef {{ do: string, [member: string]: unknown }} Message */
/** @typedef {{ text: string, again: boolean, resolve: (answer: Answer) => void, reject: (error: unknown) => void }} Request */
/** @typedef {(value: Value) => void} OnValue @typedef {(error: RtdbError) => void} OnCancelled */
/** @typedef {{ id: string, path: string, query: Query | null, onValue: OnValue, onCancelled: OnCancelled, hasEnded: boolean }} Listener */
/** @typedef {(key: string, value: Value, previousKey: string | null) => void} OnChild  with the key of the child before it */
/** @typedef {{ onAdded?: OnChild, onChanged?: OnChild, onRemoved?: (key: string, value: Value) => void }} OnChildren */
/** @typedef {"connecting" | "connected" | "lost" | "closed"} State */
/** @typedef {(state: State, error: RtdbError | null) => void} OnState */

// How long nothing may come where something was asked, before the connection is taken as lost.
const SILENCE_MS = 30_000;
// How long the server may leave a new connection without an answer, before the page is told so.
const UNANSWERED_MS = 5_000;
const FIRST_PAUSE_MS = 500;
const LONGEST_PAUSE_MS = 10_000;
const TOO_MANY_SESSIONS = 204; // comes by itself where the server can't open a session, and answers no request
const ASKED_AGAIN = ["signin", "signout", "get", "listen", "unlisten", "oncancel"];
const MOST_TRIES = 25; // of `retry`
const [READ_DENIED, WRITE_DENIED, VALIDATE_DENIED] = [501, 502, 503];
const FAILURES = {
  ConnectionLost: "the connection was lost before the server answered, so this was done or not",
  Closed: "this client was closed",
  Cancelled: "the server has ended this listener, since its read is no longer granted",
  NoAnswer: `the server has not answered for ${UNANSWERED_MS / 1_000} seconds: all its workers may be taken, and this client waits`,
};
const RULE_OF_DENIAL = new Map([[READ_DENIED, ".read"], [WRITE_DENIED, ".write"], [VALIDATE_DENIED, ".validate"]]);
// What the server takes (docs/PROTOCOL.md).
const MOST_MESSAGE_BYTES = 1_048_576;
const MOST_NESTING = 127; // of arrays and objects in a message
const MOST_DEPTH = 32; // of keys
const MOST_KEY_BYTES = 768;
const MOST_TEXT_BYTES = 65_536;
const MOST_LIMIT = 1_000; // of a query
const FAULT_CODES = { BadJson: 101, BadRequest: 102, BadPath: 103, BadValue: 104, TooDeep: 105, BadQuery: 106, EmptyUpdate: 107, Overlap: 108, TooLarge: 109 };
const BOUNDS = ["startAt", "endAt", "equalTo"];
const LIMITS = ["limitToFirst", "limitToLast"];

/** Connects to the server at the address of a WebSocket. `onState` is called at each change of the connection, and with an error
 *  where a session was refused, where signing in or a disconnect action was refused after a loss, and where no answer comes.
 *  @type {(url: string, onState?: OnState) => Database} */
export function connect(url, onState = () => {}) {
  return new Database(url, onState);
}

/** Stands in a written value for the moment at which the server writes it.
 *  @type {() => { ".sv": "timestamp" }} */
export const serverTimestamp = () => ({ ".sv": "timestamp" });
let lastMoment = 0; // of the newest key

/** A key for a new child. One that this page makes later sorts behind it, as the keys of Firebase's push do; those of others, by their clocks. */
export function newKey() {
  const moment = (lastMoment = Math.max(Date.now(), lastMoment + 1)).toString(36).padStart(9, "0");
  const random = Array.from(crypto.getRandomValues(new Uint8Array(11)), (it) => (it % 36).toString(36));
  return `-${moment}${random.join("")}`;
}

/** A refusal. Of a denial `rules` are the rules that were asked, each with why it did not hold, and `rule` is their kind. Of a
 *  faulty request, which is not sent, `member` is the faulty member, `request` what was to be done, and `how` what is wrong. */
export class RtdbError extends Error {
  /** @param {Refusal} refusal */
  constructor({ code, name, at, rule, rules, pattern, why = "false", byte, what, request, member, how }) {
    super();
    this.name = name;
    this.code = code;
    this.at = at;
    this.rule = rule ?? RULE_OF_DENIAL.get(code);
    this.rules = rules ?? (pattern === undefined ? [] : [{ pattern, why }]);
    this.byte = byte;
    this.what = what;
    this.request = request;
    this.member = member;
    this.how = how;
    this.message = sentenceOf(this);
  }
}

/** False where this is the denial of a read; any other error is thrown.
 *  @param {RtdbError} error */
function falseIfDenied(error) {
  if (error.code !== READ_DENIED) throw error;
  return false;
}

/** @param {RtdbError} error */
function sentenceOf({ code, name, at, rule, rules, byte, what, request, member, how }) {
  const place = at === undefined ? name : `${name} at ${at}`;
  if (how !== undefined) return `${place}${request === undefined ? "" : `, ${[member, request].filter(Boolean).join(" of ")}`}: ${how}`;
  if (!RULE_OF_DENIAL.has(code)) return [place, rule, byte !== undefined && `byte ${byte}`, what].filter(Boolean).join(", ");
  const reasons = rules.map((it) => `${rule} of ${it.pattern} ${it.why === "error" ? "errs" : "is false"}`);
  return `${place}: ${reasons.join(", ") || `no ${rule} stands at the path or above it`}`;
}

/** Calls a function of the page. What it throws is an uncaught error of the page's, and keeps nothing else from its turn.
 *  @template {unknown[]} T
 *  @param {(...values: T) => void} deed @param {T} values */
function call(deed, ...values) {
  try {
    deed(...values);
  } catch (error) {
    queueMicrotask(() => { throw error; });
  }
}

/** What this client says by itself, with the code 0.
 *  @param {keyof typeof FAILURES} name */
function failure(name) {
  return new RtdbError({ code: 0, name, how: FAILURES[name] });
}

// ---- paths and values

/** @type {(path: string) => string[]} */
const keysOf = (path) => path.split("/").filter(Boolean);
/** @type {(keys: string[]) => string} */
const pathOf = (keys) => `/${keys.join("/")}`;
/** @type {(value: unknown) => value is { [key: string]: unknown }} */
const isObject = (value) => typeof value === "object" && value !== null;
const encoder = new TextEncoder();
/** @type {(text: string) => number} */
const bytesOf = (text) => encoder.encode(text).length;
/** @type {(value: unknown) => boolean} */
const isTimestamp = (value) => isObject(value) && value[".sv"] === "timestamp" && Object.keys(value).length === 1;
/** @type {(value: unknown) => boolean} whether a value is at a place, and not below it */
const isPrimitive = (value) => isTimestamp(value) || (!isObject(value) && value !== null);

/** The keys of an object; of an array also those where nothing was ever put.
 *  @type {(value: object) => string[]} */
const keysIn = (value) => (Array.isArray(value) ? Array.from(value.keys(), String) : Object.keys(value));

/** The members that are there.
 *  @type {(members: { [name: string]: unknown }) => { [name: string]: unknown }} */
const optional = (members) => Object.fromEntries(Object.entries(members).filter(([, it]) => it !== undefined && it !== null));

/** All places of a value, each before those below it, as deep as a message may nest.
 *  @param {unknown} value @returns {Generator<Place, void>} */
function* placesIn(value) {
  /** @type {Place[]} */
  const left = [[[], value]];
  for (let place = left.pop(); place; place = left.pop()) {
    yield place;
    const [keys, it] = place;
    if (!isObject(it) || isTimestamp(it) || keys.length > MOST_NESTING) continue;
    for (const key of keysIn(it).reverse()) left.push([[...keys, key], it[key]]);
  }
}

/** By bytes of UTF-8, which is by code points, and not by the halves of which JavaScript makes some.
 *  @type {(a: string, b: string) => number} */
function compareTexts(a, b) {
  let at = 0;
  while (at < a.length && a[at] === b[at]) at += 1;
  return (a.codePointAt(at) ?? -1) - (b.codePointAt(at) ?? -1);
}

/** Whether a place is at another one or below it.
 *  @type {(keys: string[], above: string[]) => boolean} */
const isWithin = (keys, above) => above.every((key, at) => key === keys[at]);

/** Where a write writes.
 *  @type {(message: Message) => string[][]} */
const writtenBy = ({ path, values }) => Object.keys(values ?? { "": null }).map((name) => keysOf(`${path}/${name}`));

/** Whether two values are the same; what is read has its members in one order.
 *  @type {(a: Value, b: Value) => boolean} */
const isSame = (a, b) => JSON.stringify(a) === JSON.stringify(b);

// ---- the order of a query

/** The children of what was read, each with its key, in the order of its query; without one by their keys.
 *  @type {(value: Value, query?: Query | null) => [key: string, value: Value][]} */
export function entries(value, query) {
  const orderBy = query?.orderBy ?? "$key";
  const rankOf = (/** @type {Value} */ child) => (orderBy === "$key" ? null : orderBy === "$value" ? child : below(child, keysOf(orderBy)));
  const children = typeof value === "object" && value !== null ? Object.entries(value) : [];
  const ranked = children.map(([key, child]) => ({ key, child, rank: rankOf(child) }));
  ranked.sort((a, b) => compareValues(a.rank, b.rank) || compareKeys(a.key, b.key));
  return ranked.map(({ key, child }) => [key, child]);
}

/** @type {(value: Value, keys: string[]) => Value} */
function below(value, keys) {
  return keys.reduce((/** @type {Value} */ it, key) => (typeof it === "object" && it !== null && Object.hasOwn(it, key) ? it[key] : null), value);
}

/** @type {(a: Value, b: Value) => number} */
function compareValues(a, b) {
  if (typeof a === "number" && typeof b === "number") return a - b;
  if (typeof a === "string" && typeof b === "string") return compareTexts(a, b);
  return sortOf(a) - sortOf(b);
}

/** Nothing comes first, then false, true, numbers, texts, and places with children.
 *  @type {(value: Value) => number} */
function sortOf(value) {
  if (value === null) return 0;
  return typeof value === "boolean" ? 1 + Number(value) : ["number", "string", "object"].indexOf(typeof value) + 3;
}

/** Whole numbers of 32 bits come first, by number.
 *  @type {(a: string, b: string) => number} */
function compareKeys(a, b) {
  const [left, right] = [numberOfKey(a), numberOfKey(b)];
  if (left !== null && right !== null) return left - right || a.length - b.length || compareTexts(a, b);
  if (left !== null) return -1;
  return right !== null ? 1 : compareTexts(a, b);
}

/** @type {(key: string) => number | null} */
function numberOfKey(key) {
  const number = Number(key);
  return /^-?\d+$/.test(key) && number >= -(2 ** 31) && number < 2 ** 31 ? number : null;
}

/** Tells which children were added, changed and removed from one value to the next.
 *  @type {(before: Map<string, Value>, after: Map<string, Value>, deeds: OnChildren) => void} */
function tellChildren(before, after, { onAdded = () => {}, onChanged = () => {}, onRemoved = () => {} }) {
  for (const [key, value] of before) {
    if (!after.has(key)) call(onRemoved, key, value);
  }
  let previousKey = /** @type {string | null} */ (null);
  for (const [key, value] of after) {
    const old = before.get(key);
    if (old === undefined) call(onAdded, key, value, previousKey);
    else if (!isSame(old, value)) call(onChanged, key, value, previousKey);
    previousKey = key;
  }
}

// ---- the faults of a request, in the order in which the server finds them

/** A request as text.
 *  @param {Message} message @throws {RtdbError} its first fault */
function textOf(message) {
  const found = unsayableIn(message) ?? textFault(message) ?? shapeFault(message) ?? contentFault(message);
  if (found) throw new RtdbError({ ...found, code: FAULT_CODES[found.name], request: message.do });
  return JSON.stringify(message);
}

/** What is no JSON, and would be left out or changed without a word.
 *  @type {(message: Message) => Fault | null} */
function unsayableIn(message) {
  for (const [[member, ...keys], value] of placesIn(message)) {
    const how = wrongInSayable(value);
    if (how === null) continue;
    if (member === "query") return { name: "BadQuery", member: ["query", ...keys].join("."), how };
    if (member !== "value" && member !== "values") return { name: "BadRequest", member, how };
    const advice = value === undefined ? ": leave it out, or write null to remove what is there" : "";
    return { name: "BadValue", member, at: placeBelow(message.path, keys), how: how + advice };
  }
  return null;
}

/** @type {(value: unknown) => string | null} */
function wrongInSayable(value) {
  if (value === undefined) return "undefined is no value";
  if (["function", "symbol", "bigint"].includes(typeof value)) return `a ${typeof value} is no value`;
  if (typeof value === "number" && !Number.isFinite(value)) return `${value} is no value: numbers are whole`;
  if (!isObject(value) || Array.isArray(value)) return null;
  const prototype = Object.getPrototypeOf(value);
  if (prototype !== null && Object.getPrototypeOf(prototype) !== null) return `a ${prototype.constructor?.name || "class"} is no plain object`;
  return Object.getOwnPropertySymbols(value).length > 0 ? "the name of a member is a symbol" : null;
}

/** @type {(path: unknown, keys: string[]) => string | undefined} */
function placeBelow(path, keys) {
  return typeof path === "string" ? pathOf([...keysOf(path), ...keys.flatMap(keysOf)]) : undefined;
}

/** What is wrong with the text of a request.
 *  @type {(message: Message) => Fault | null} */
function textFault(message) {
  const size = sizeOf(message);
  if (size === null) return { name: "BadJson", how: "an object is within itself" };
  if (size > MOST_MESSAGE_BYTES) return { name: "TooLarge", how: `it has ${size} bytes, more than ${MOST_MESSAGE_BYTES}` };
  for (const [keys, value] of placesIn(message)) {
    const fault = { name: /** @type {const} */ ("BadJson"), member: keys[0] };
    if (isObject(value) && keys.length >= MOST_NESTING) return { ...fault, how: `objects nest more than ${MOST_NESTING} deep in it` };
    const broken = [value, keys.at(-1)].find((it) => typeof it === "string" && /\p{Surrogate}/u.test(it));
    if (broken !== undefined) return { ...fault, how: `${shownOf(keys[0], broken)} has half of a UTF-16 pair` };
  }
  return null;
}

/** How many bytes a request has; null where it never ends.
 *  @type {(message: Message) => number | null} */
function sizeOf(message) {
  try {
    return bytesOf(JSON.stringify(message));
  } catch {
    return null;
  }
}

/** @type {(value: unknown) => string} */
function shown(value) {
  const text = JSON.stringify(value);
  return text.length <= 60 ? text : `${text.slice(0, 50)}..${text.slice(-1)}`;
}

/** A value of a member; of a secret nothing is said, since errors are shown and kept.
 *  @type {(member: string, value: unknown) => string} */
const shownOf = (member, value) => (member === "token" ? "the secret" : shown(value));

/** The members that are not of their kind.
 *  @type {(message: Message) => Fault | null} */
function shapeFault(message) {
  const wrongText = ["path", "token", "rules"].find((it) => it in message && typeof message[it] !== "string");
  if (wrongText) return { name: "BadRequest", member: wrongText, how: `${shownOf(wrongText, message[wrongText])} is no text` };
  const wrongObject = ["values", "query"].find((it) => it in message && (!isObject(message[it]) || Array.isArray(message[it])));
  return wrongObject ? { name: "BadRequest", member: wrongObject, how: `${shown(message[wrongObject])} is no object` } : null;
}

/** @type {(message: Message) => Fault | null} */
function contentFault({ path, value, values, query }) {
  if (typeof path !== "string") return null;
  const fault = pathFault(path, "path");
  if (fault || value !== undefined) return fault ?? valueFault(keysOf(path), value, "value");
  if (isObject(values)) return updateFault(path, values);
  return isObject(query) ? queryFault(query) : null;
}

/** @type {(path: string, member: string) => Fault | null} */
function pathFault(path, member) {
  const how = keysOf(path).map(wrongInKey).find(Boolean);
  if (how) return { name: "BadPath", member, at: path, how };
  return keysOf(path).length > MOST_DEPTH ? tooDeep(keysOf(path), member) : null;
}

/** @type {(keys: string[], member: string) => Fault} */
function tooDeep(keys, member) {
  return { name: "TooDeep", member, at: pathOf(keys), how: `it is ${keys.length} keys deep, more than ${MOST_DEPTH}` };
}

/** What is wrong with a key; empty where nothing is.
 *  @type {(key: string) => string} */
function wrongInKey(key) {
  if (key === "") return "a key is empty";
  const [found] = /[\0-\x1f\x7f.$#[\]/]/.exec(key) ?? [];
  if (found) return `the key ${shown(key)} has ${found < " " || found === "\x7f" ? "a control character" : `a ${found}`}`;
  return bytesOf(key) > MOST_KEY_BYTES ? `the key ${shown(key)} has ${bytesOf(key)} bytes, more than ${MOST_KEY_BYTES}` : "";
}

/** @type {(above: string[], value: unknown, member: string) => Fault | null} */
function valueFault(above, value, member) {
  for (const [keys, it] of placesIn(value)) {
    const how = (keys.length > 0 && wrongInKey(keys[keys.length - 1])) || wrongInPrimitive(it);
    if (how) return { name: "BadValue", member, at: pathOf([...above, ...keys]), how };
  }
  for (const [keys, it] of placesIn(value)) {
    if (isPrimitive(it) && above.length + keys.length > MOST_DEPTH) return tooDeep([...above, ...keys], member);
  }
  return null;
}

/** What is wrong with a boolean, a number or a text; empty where nothing is.
 *  @type {(value: unknown) => string} */
function wrongInPrimitive(value) {
  if (typeof value === "string" && bytesOf(value) > MOST_TEXT_BYTES) return `a text has ${bytesOf(value)} bytes, more than ${MOST_TEXT_BYTES}`;
  if (typeof value !== "number") return "";
  if (!Number.isInteger(value)) return `${value} is a fraction: numbers are whole`;
  return Number.isSafeInteger(value) ? "" : `${value} is too large: numbers go from -(2^53 - 1) to 2^53 - 1`;
}

/** Each member is looked at on its own, in the order of the names.
 *  @type {(path: string, values: { [path: string]: unknown }) => Fault | null} */
function updateFault(path, values) {
  for (const name of Object.keys(values).sort(compareTexts)) {
    const keys = [...keysOf(path), ...keysOf(name)];
    const fault = pathFault(name, "values") ?? (keys.length > MOST_DEPTH ? tooDeep(keys, "values") : valueFault(keys, values[name], "values"));
    if (fault) return fault;
  }
  if (Object.keys(values).length === 0) return { name: "EmptyUpdate", member: "values", how: "it has no members" };
  return overlapIn(path, Object.keys(values).map(keysOf));
}

/** Two places of an update of which one is at or above the other.
 *  @type {(path: string, places: string[][]) => Fault | null} */
function overlapIn(path, places) {
  const seen = new Set(places.map(pathOf));
  const above = places.flatMap((keys) => keys.map((_, end) => pathOf(keys.slice(0, end)))).find((it) => seen.has(it));
  if (above === undefined && seen.size === places.length) return null;
  const twice = places.map(pathOf).find((it, at, all) => all.indexOf(it) < at);
  const how = above === undefined ? "it writes there twice" : "it writes there, and below";
  return { name: "Overlap", member: "values", at: placeBelow(path, [above ?? twice ?? ""]), how };
}

/** @type {(query: { [member: string]: unknown }) => Fault | null} */
function queryFault(query) {
  for (const name of Object.keys(query)) {
    const how = wrongInQuery(name, query[name], query);
    if (how) return { name: "BadQuery", member: `query.${name}`, how };
  }
  return null;
}

/** What is wrong with a member of a query, or with having it beside the others; empty where nothing is.
 *  @type {(name: string, value: unknown, query: { [member: string]: unknown }) => string} */
function wrongInQuery(name, value, query) {
  if (name === "orderBy") return wrongInOrder(value);
  if (BOUNDS.includes(name)) return wrongInBound(name, value, query);
  if (!LIMITS.includes(name)) return "a query has no such member";
  if (LIMITS.every((it) => it in query)) return "a query has one limit";
  const isLimit = typeof value === "number" && Number.isInteger(value) && value >= 1 && value <= MOST_LIMIT;
  return isLimit ? "" : `${shown(value)} is no limit, which is a whole number from 1 to ${MOST_LIMIT}`;
}

/** @type {(order: unknown) => string} */
function wrongInOrder(order) {
  if (typeof order !== "string") return `${shown(order)} is no order, which is $key, $value or a path below each child`;
  if (order === "$key" || order === "$value") return "";
  if (keysOf(order).length === 0) return "the path has no keys";
  return pathFault(order, "orderBy")?.how ?? "";
}

/** @type {(name: string, bound: unknown, query: { [member: string]: unknown }) => string} */
function wrongInBound(name, bound, query) {
  if (!("orderBy" in query)) return "a bound needs an orderBy";
  if (name !== "equalTo" && "equalTo" in query) return "beside equalTo there is no other bound";
  if (isObject(bound) || bound === null) return `${shown(bound)} is no bound, which is true, false, a whole number or a text`;
  if (query.orderBy === "$key" && typeof bound !== "string") return `${shown(bound)} is no key: a bound by $key is a text`;
  return wrongInPrimitive(bound);
}

// ---- the client

export class Database {
  #url;
  #onState;
  /** @type {WebSocket | undefined} */
  #socket;
  #state = /** @type {State} */ ("connecting");
  /** @type {Request[]} */
  #waiting = [];
  /** @type {Request[]} */
  #unanswered = [];
  /** @type {Map<string, Listener>} those that the server has granted */
  #listeners = new Map();
  /** @type {Message[]} the disconnect actions that it has granted, and that are established again after a loss */
  #actions = [];
  /** @type {string | null} the secret of whoever is signed in */
  #token = null;
  #ids = 0;
  #pause = FIRST_PAUSE_MS;
  #isSilent = false;
  /** @type {ReturnType<typeof setTimeout> | undefined} */
  #timer;

  /** @param {string} url @param {OnState} onState */
  constructor(url, onState) {
    this.#url = url;
    this.#onState = onState;
    this.#open();
  }

  /** Signs in whoever has this secret, in the place of whoever was.
   *  @param {string} token */
  async signIn(token) {
    await this.#ask({ do: "signin", token });
    this.#token = token;
  }

  async signOut() {
    await this.#ask({ do: "signout" });
    this.#token = null;
  }

  /** @param {string} path @param {Query | null} [query] @returns {Promise<Value>} */
  async get(path, query) {
    return (await this.#ask({ do: "get", path, ...optional({ query }) })).value;
  }

  /** @type {(path: string, value: unknown) => Promise<void>} */
  async set(path, value) {
    await this.#ask({ do: "set", path, value });
  }

  /** Puts values at paths below this one, all of them or none.
   *  @type {(path: string, values: Values) => Promise<void>} */
  async update(path, values) {
    await this.#ask({ do: "update", path, values });
  }

  /** @type {(path: string) => Promise<void>} */
  async remove(path) {
    await this.#ask({ do: "remove", path });
  }

  /** Puts the text of a rules file in force.
   *  @type {(rules: string) => Promise<void>} */
  async deploy(rules) {
    await this.#ask({ do: "deploy", rules });
  }

  /** Tells what stands at a path, or what a query selects of it, now and whenever that changes. The function that is given
   *  back ends it; where the server does, `onCancelled` is called.
   *  @type {(path: string, query: Query | null, onValue: OnValue, onCancelled?: OnCancelled) => () => void} */
  listen(path, query, onValue, onCancelled = () => {}) {
    this.#ids += 1;
    const listener = { id: `l${this.#ids}`, path, query, onValue, onCancelled, hasEnded: false };
    this.#begin(listener);
    return () => this.#stop(listener);
  }

  /** Tells of each child that is added, changed or removed, from one value of a listener to the next: what is removed first, and
   *  then the others in the order of the query. At first all children are added.
   *  @type {(path: string, query: Query | null, deeds: OnChildren, onCancelled?: OnCancelled) => () => void} */
  listenChildren(path, query, deeds, onCancelled) {
    /** @type {Map<string, Value>} */
    let before = new Map();
    return this.listen(path, query, (value) => {
      const [old, after] = [before, new Map(entries(value, query))];
      before = after;
      tellChildren(old, after, deeds);
    }, onCancelled);
  }

  /** Writes what `change` makes of what is at a path, or promises to make of it, and gives that back. Where the rules refuse it,
   *  and something else is there by then, it begins anew: so clients whose writes a rule compares with what is there undo nobody
   *  else's. Nothing is written where `change` gives undefined.
   *  @type {(path: string, change: (value: Value) => unknown, mostTries?: number) => Promise<any>} */
  async retry(path, change, mostTries = MOST_TRIES) {
    const value = await this.get(path);
    const next = await change(value);
    if (next === undefined) return value;
    const refusal = await this.set(path, next).then(() => null, (error) => error);
    if (!refusal) return next;
    const isDenied = refusal.code === WRITE_DENIED || refusal.code === VALIDATE_DENIED;
    if (!isDenied || mostTries <= 1 || isSame(value, await this.get(path))) throw refusal;
    return this.retry(path, change, mostTries - 1);
  }

  /** Which of these uids is signed in: the one that may read its place below a path, where the rules let each read its own alone,
   *  by `"$uid": { ".read": "auth != null && auth.uid == $uid" }`. Null where none of them may, or the rules let others too.
   *  @type {(path: string, uids: string[]) => Promise<string | null>} */
  async whoAmI(path, uids) {
    const keys = [newKey(), ...uids];
    const answers = await Promise.all(keys.map((key) => this.get(`${path}/${key}`).then(() => true, falseIfDenied)));
    const readable = keys.filter((_, at) => answers[at]);
    return readable.length === 1 && readable[0] !== keys[0] ? readable[0] : null;
  }

  /** What the server writes when this connection ends, however it ends; after a loss it is established again, unless `again` is
   *  false. `cancel` takes back what was to be written at this path and below.
   *  @param {string} path @param {{ again?: boolean }} [options] */
  onDisconnect(path, options) {
    const again = options?.again ?? true;
    return {
      /** @type {(value: unknown) => Promise<void>} */
      set: (value) => this.#establish({ do: "onset", path, value }, again),
      /** @type {(values: Values) => Promise<void>} */
      update: (values) => this.#establish({ do: "onupdate", path, values }, again),
      /** @type {() => Promise<void>} */
      remove: () => this.#establish({ do: "onremove", path }, again),
      /** @type {() => Promise<void>} */
      cancel: async () => {
        await this.#ask({ do: "oncancel", path });
        this.#actions = this.#actions.filter((it) => !writtenBy(it).every((keys) => isWithin(keys, keysOf(path))));
      },
    };
  }

  /** Ends the connection, and connects no more. */
  close() {
    this.#drop();
    this.#state = "closed";
    this.#listeners.clear();
    this.#actions = [];
    [...this.#unanswered.splice(0), ...this.#waiting.splice(0)].forEach((it) => it.reject(failure("Closed")));
    const onState = this.#onState;
    this.#onState = () => {};
    call(onState, this.#state, null);
  }

  #open() {
    const socket = new WebSocket(this.#url);
    socket.onopen = () => this.#opened();
    socket.onmessage = (event) => this.#heard(JSON.parse(event.data));
    socket.onclose = () => this.#lost(null);
    this.#socket = socket;
    this.#timer = setTimeout(() => call(this.#onState, this.#state, failure("NoAnswer")), UNANSWERED_MS);
  }

  #opened() {
    clearTimeout(this.#timer);
    this.#state = "connected";
    this.#send();
    this.#timer = setTimeout(() => this.#beat(), SILENCE_MS);
    call(this.#onState, this.#state, null);
  }

  /** Asks for news now and then: so a connection that broke without a word is found out, and none is cut for being idle. */
  #beat() {
    if (this.#isSilent) return this.#lost(null);
    this.#isSilent = true;
    this.#ask({ do: "poll" }).then((answer) => this.#report(answer.news), () => {});
    this.#timer = setTimeout(() => this.#beat(), SILENCE_MS);
  }

  #drop() {
    clearTimeout(this.#timer);
    this.#isSilent = false;
    if (!this.#socket) return;
    this.#socket.onopen = this.#socket.onmessage = this.#socket.onclose = null;
    this.#socket.close();
  }

  /** Asks again, before all that waits, for what the lost session had and for what it has not answered.
   *  @type {(error: RtdbError | null) => void} */
  #lost(error) {
    this.#drop();
    this.#state = "lost";
    const [unanswered, waiting] = [this.#unanswered, this.#waiting];
    [this.#unanswered, this.#waiting] = [[], []];
    this.#askAgain();
    this.#waiting.push(...unanswered.filter((it) => it.again), ...waiting);
    unanswered.filter((it) => !it.again).forEach((it) => it.reject(failure("ConnectionLost")));
    this.#timer = setTimeout(() => this.#open(), this.#pause * (0.5 + Math.random() / 2));
    this.#pause = Math.min(2 * this.#pause, LONGEST_PAUSE_MS);
    call(this.#onState, this.#state, error);
  }

  /** Asks a new session for what the lost one had been granted. */
  #askAgain() {
    const [token, actions, listeners] = [this.#token, this.#actions, [...this.#listeners.values()]];
    [this.#token, this.#actions] = [null, []];
    this.#listeners.clear();
    const tell = (/** @type {RtdbError} */ refusal) => call(this.#onState, this.#state, refusal);
    if (token !== null) this.signIn(token).catch(tell);
    actions.forEach((it) => this.#establish(it, true).catch(tell));
    listeners.forEach((it) => this.#begin(it));
  }

  /** The action is kept as it was when it was established, whatever the page makes of the value.
   *  @type {(message: Message, again: boolean) => Promise<void>} */
  async #establish(message, again) {
    const action = JSON.parse(textOf(message));
    await this.#ask(action, again);
    if (again) this.#actions.push(action);
  }

  /** @param {Message} message @param {boolean} [again] whether it is asked again after a loss that came before its answer
   *  @returns {Promise<Answer>} */
  #ask(message, again = ASKED_AGAIN.includes(message.do)) {
    return new Promise((resolve, reject) => {
      if (this.#state === "closed") throw failure("Closed");
      this.#waiting.push({ text: textOf(message), again, resolve, reject });
      if (this.#state === "connected") this.#send();
    });
  }

  #send() {
    for (const request of this.#waiting.splice(0)) {
      this.#unanswered.push(request);
      this.#socket?.send(request.text);
    }
  }

  /** @type {(answer: Answer) => void} */
  #heard(answer) {
    this.#isSilent = false;
    if (answer.push) return this.#report(answer.push);
    if (answer.code === TOO_MANY_SESSIONS) return this.#lost(new RtdbError(answer));
    this.#pause = FIRST_PAUSE_MS;
    const request = this.#unanswered.shift();
    if (answer.ok) request?.resolve(answer);
    else request?.reject(new RtdbError(answer));
  }

  /** @type {(listener: Listener) => void} */
  #begin(listener) {
    const { id, path, query } = listener;
    this.#ask({ do: "listen", id, path, ...optional({ query }) }).then((answer) => {
      if (listener.hasEnded) return;
      this.#listeners.set(id, listener);
      call(listener.onValue, answer.value);
    }, (error) => this.#cancel(listener, error));
  }

  /** @type {(news: News[]) => void} */
  #report(news) {
    for (const { id, value, cancelled } of news) {
      const listener = this.#listeners.get(id);
      if (listener && cancelled) this.#cancel(listener, failure("Cancelled"));
      else if (listener) call(listener.onValue, value);
    }
  }

  /** @type {(listener: Listener, error: RtdbError) => void} */
  #cancel(listener, error) {
    if (listener.hasEnded) return;
    listener.hasEnded = true;
    this.#listeners.delete(listener.id);
    call(listener.onCancelled, error);
  }

  /** @type {(listener: Listener) => void} */
  #stop(listener) {
    if (listener.hasEnded) return;
    listener.hasEnded = true;
    this.#listeners.delete(listener.id);
    // The server may have cancelled it meanwhile, and refuses then.
    this.#ask({ do: "unlisten", id: listener.id }).catch(() => {});
  }
}
