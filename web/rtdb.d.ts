// The types of rtdb.js, which says how each call works.

/** What is read: an array that was written is an object with the keys 0, 1, 2. */
export type Value = null | boolean | number | string | { [key: string]: Value };
/** What is written: numbers are whole, and nothing is undefined. */
export type Written = null | boolean | number | string | ServerTimestamp | readonly Written[] | { readonly [key: string]: Written };
/** What an update writes, by paths below its own. */
export type Values = { readonly [path: string]: Written };
export type ServerTimestamp = { ".sv": "timestamp" };

export type Bound = boolean | number | string;
type Limit = { limitToFirst?: number; limitToLast?: never } | { limitToFirst?: never; limitToLast?: number };
type Bounds<B> = { startAt?: B; endAt?: B; equalTo?: never } | { startAt?: never; endAt?: never; equalTo?: B };
type Order =
  | { orderBy?: never; startAt?: never; endAt?: never; equalTo?: never }
  | ({ orderBy: "$key" } & Bounds<string>)
  | ({ orderBy: string } & Bounds<Bound>);
/** At most one limit; bounds only beside an order, and `equalTo` beside no other bound. */
export type Query = Order & Limit;

export type NamedRule = { pattern: string; why: "false" | "error" };
export type State = "connecting" | "connected" | "lost" | "closed";
export type OnState = (state: State, error: RtdbError | null) => void;
export type OnValue = (value: Value) => void;
export type OnCancelled = (error: RtdbError) => void;
/** `previousKey` is the key of the child before this one, null for the first. */
export type OnChild = (key: string, value: Value, previousKey: string | null) => void;
export type OnChildren = { onAdded?: OnChild; onChanged?: OnChild; onRemoved?: (key: string, value: Value) => void };
export type OnDisconnect = {
  set(value: Written): Promise<void>;
  update(values: Values): Promise<void>;
  remove(): Promise<void>;
  cancel(): Promise<void>;
};

/** A refusal of the server's, a faulty request that was not sent, or what the client says by itself (then the code is 0). */
export class RtdbError extends Error {
  private constructor();
  readonly name: string;
  readonly code: number;
  /** The place that was refused or is faulty; of a rules file the pattern. */
  readonly at: string | undefined;
  /** `.read`, `.write` or `.validate`. */
  readonly rule: string | undefined;
  /** The rules that were asked, each with why it did not hold. */
  readonly rules: NamedRule[];
  /** Of a rules file: from which byte on the rule is no expression, and which name is meant. */
  readonly byte: number | undefined;
  readonly what: string | undefined;
  /** Of a faulty request: what was to be done, in which member it is faulty, and how. */
  readonly request: string | undefined;
  readonly member: string | undefined;
  readonly how: string | undefined;
}

export class Database {
  private constructor();
  signIn(token: string): Promise<void>;
  signOut(): Promise<void>;
  get(path: string, query?: Query | null): Promise<Value>;
  set(path: string, value: Written): Promise<void>;
  update(path: string, values: Values): Promise<void>;
  remove(path: string): Promise<void>;
  deploy(rules: string): Promise<void>;
  listen(path: string, query: Query | null, onValue: OnValue, onCancelled?: OnCancelled): () => void;
  listenChildren(path: string, query: Query | null, deeds: OnChildren, onCancelled?: OnCancelled): () => void;
  /** Gives what was written, or what is there where `change` gave undefined. */
  retry<W extends Written>(path: string, change: (value: Value) => W | Promise<W>, mostTries?: number): Promise<W>;
  retry<W extends Written>(path: string, change: (value: Value) => W | undefined | Promise<W | undefined>, mostTries?: number): Promise<W | Value>;
  whoAmI(path: string, uids: readonly string[]): Promise<string | null>;
  onDisconnect(path: string, options?: { again?: boolean }): OnDisconnect;
  close(): void;
}

export function connect(url: string, onState?: OnState): Database;
export function serverTimestamp(): ServerTimestamp;
export function newKey(): string;
/** The children of what was read, in the order of its query. */
export function entries(value: Value, query?: Query | null): [key: string, value: Value][];
