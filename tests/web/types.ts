// What the types of the package let through, and what they don't: compiled by tsc, and never run.
import { Client, Core, KINDS, type Item, type Kind } from "kaltewi/client";
import {
    type DataSnapshot, type Database, type DatabaseReference, type EventType, type ListenOptions, type OnDisconnect, type Query,
    type QueryConstraint, type ThenableReference, type Unsubscribe, type Value,
    DatabaseError, child, endAt, endBefore, equalTo, get, getDatabase, goOffline, goOnline, limitToFirst, limitToLast, off, onChildAdded,
    onChildChanged, onChildMoved, onChildRemoved, onDisconnect, onValue, orderByChild, orderByKey, orderByValue, push, query, ref, remove, set,
    startAfter, startAt, update,
} from "kaltewi";

const db: Database = getDatabase("ws://127.0.0.1:8080/");
const scores: DatabaseReference = ref(db, "scores");
const constraints: QueryConstraint[] = [
    orderByKey(), orderByValue(), orderByChild("a/b"), startAt("k"), startAfter(1, "k"), endAt(true), endBefore(null), equalTo(5), limitToFirst(1),
];
const best: Query = query(scores, ...constraints, limitToLast(10));
const options: ListenOptions = { onlyOnce: true };
const event: EventType = "child_moved";

const stop: Unsubscribe = onValue(best, (it: DataSnapshot) => it.forEach(row => console.log(row.key?.length, row.val())));
onValue(best, it => it.child("a").exists(), why => console.log(why.code.length), options);
onChildAdded(best, (it, after) => console.log(it.size, after?.length), options);
for (const on of [onChildChanged, onChildMoved, onChildRemoved]) on(best, it => it.toJSON(), (why: DatabaseError) => why.message);
off(best);
off(best, event, () => {});
stop();

async function writes(): Promise<void> {
    const value: Value = { by: "ann", list: [1, true, null, "x"] };
    await set(child(scores, "ann"), value);
    await update(scores, { "ann/list": null, bob: 5 });
    await remove(scores);
    const pushed: ThenableReference = push(scores, value);
    const there: DatabaseReference = await pushed;
    console.log(there.key?.length, pushed.parent?.root.toString(), there.isEqual(null));
    const last: OnDisconnect = onDisconnect(there);
    await Promise.all([last.set(1), last.update({ a: 1 }), last.remove(), last.cancel()]);
    console.log((await get(best)).hasChild("ann"));
}
writes().catch((why: unknown) => console.log(why instanceof DatabaseError));
goOffline(db);
goOnline(db);

const client = new Client(64), kinds: Kind[] = ["added", "removed"];
client.want(client.listen("/a", '{"order":"/score"}'), kinds);
console.log(KINDS.value + KINDS[kinds[0]]);
client.receive('{"k":"ok","id":1}');
for (const item of client.items() as Iterable<Item>)
    if (item.k === "batch") for (const it of item.changes) console.log(it.k === "removed" ? it.old : it.value);
console.log([...client.outgoing()].join(), client.set("/a", "1") + 1, client.cover().length, new Core().line("[]").length);

// @ts-expect-error: a function is no value
set(scores, () => 1);
// @ts-expect-error: a query is no place to write to
set(best, 1);
// @ts-expect-error: an object is no bound
startAt({});
// @ts-expect-error: there is no such event
off(best, "moved");
// @ts-expect-error: constraints alone make a query
query(scores, "limit");
// @ts-expect-error: there is no such kind
client.want(1, ["child_added"]);
// @ts-expect-error: a snapshot is told, not made
new DataSnapshot();
