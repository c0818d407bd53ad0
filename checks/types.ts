// What a program in TypeScript says to web/rtdb.js: checks/browser has `tsc` compile it against web/rtdb.d.ts. Each line below a
// `@ts-expect-error` has to be refused.
import { connect, Database, entries, newKey, RtdbError, serverTimestamp } from "rtdb";
import type { Query, State, Value } from "rtdb";

const states: State[] = [];
const db: Database = connect("ws://127.0.0.1:8080", (state, error) => states.push(error?.name === "NoAnswer" ? "lost" : state));
const lastTen = { orderBy: "$key", limitToLast: 10 } as const;
const between: Query = { orderBy: "at", startAt: 5, endAt: "b", limitToFirst: 1 };
const show = (value: Value) => console.log(value);

export async function use(path: string, plain: Value, order: string): Promise<void> {
  await db.signIn("secret of ann");
  const value: Value = await db.get(path);
  await db.get(path, null);
  await db.get(path, { orderBy: order, equalTo: 5 });
  await db.get(path, { limitToFirst: 5 });
  await db.set(`${path}/${newKey()}`, { at: serverTimestamp(), by: "ann", tags: ["a", true, null], nested: { n: 1 } });
  await db.set(path, value);
  await db.update(path, { "a/b": null, c: plain });
  await db.remove(path);
  await db.deploy("{}");
  const stop: () => void = db.listen(path, lastTen, show, (error) => console.log(error.message, error.rules[0]?.pattern));
  stop();
  db.listen(path, null, show);
  db.listenChildren(path, between, { onAdded: (key, child, previousKey) => console.log(key.length, child, previousKey?.length) });
  db.listenChildren(path, null, { onRemoved: (key) => key, onChanged: (key) => key }, (error) => console.log(error.how));
  const count: number = await db.retry(path, (it) => (typeof it === "number" ? it + 1 : 1));
  const left: Value | number = await db.retry(path, (it) => (it === null ? 1 : undefined), 5);
  const uid: string | null = await db.whoAmI("/me", ["ann", "bob"]);
  await db.onDisconnect(path).set(serverTimestamp());
  await db.onDisconnect(path, { again: false }).update({ a: null });
  for (const [key, child] of entries(value, lastTen)) console.log(key.length + count, child, left, uid);
  try {
    await db.signOut();
  } catch (error) {
    if (error instanceof RtdbError) console.log(error.code + 1, error.at?.length, error.member, error.request);
  }
  db.close();
}

export async function misuse(path: string): Promise<void> {
  // @ts-expect-error A value is given.
  await db.set(path);
  // @ts-expect-error Nothing in it is undefined.
  await db.set(path, { a: undefined });
  // @ts-expect-error A date is no value.
  await db.set(path, { at: new Date() });
  // @ts-expect-error Neither is a function.
  await db.update(path, { at: () => 1 });
  // @ts-expect-error A map has no paths.
  await db.update(path, new Map([["a", 1]]));
  // @ts-expect-error A path is a text.
  await db.get(["a"]);
  // @ts-expect-error Two limits.
  await db.get(path, { limitToFirst: 1, limitToLast: 1 });
  // @ts-expect-error A bound without an order.
  await db.get(path, { startAt: "a" });
  // @ts-expect-error A bound beside equalTo.
  await db.get(path, { orderBy: "a", equalTo: 1, startAt: 1 });
  // @ts-expect-error A member that no query has.
  await db.get(path, { orderByChild: "a" });
  // @ts-expect-error The handler of a listener.
  db.listen(path, null);
  // @ts-expect-error A value of the database may be a boolean.
  const text: string = await db.get(path);
  // @ts-expect-error Only connect makes one.
  const other = new Database("ws://127.0.0.1:8080", () => {});
  console.log(text, other);
}
