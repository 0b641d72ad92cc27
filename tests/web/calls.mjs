// The calls of kaltewi.js over a WebSocket that the test itself is, by a clock of the test's own.
import assert from "node:assert/strict";
import { beforeEach, test } from "node:test";
import { kaltewi } from "./common.mjs";
const { Database, DatabaseError, ref, child, query, get, set, update, remove, push, off, onDisconnect, goOffline, goOnline } = kaltewi;
const { onValue, onChildAdded, onChildChanged, onChildMoved, onChildRemoved } = kaltewi;
const { orderByKey, orderByValue, orderByChild, startAt, startAfter, endAt, endBefore, equalTo, limitToFirst, limitToLast } = kaltewi;

// ---- the other side, and time

class Socket {
    static made = [];
    sent = [];
    constructor(url) {
        this.url = url;
        Socket.made.push(this);
    }
    send(text) { this.sent.push(JSON.parse(text)); }
    close() { this.isClosed = true; }
    say(...messages) { for (const it of messages) this.onmessage({ data: JSON.stringify(it) }); }
    take() { return this.sent.splice(0).filter(it => it.k !== "hello"); }
}
const last = () => Socket.made.at(-1);
let now = 1e12, timers = [], warned = [];
Date.now = () => now;
globalThis.setTimeout = (call, ms = 0) => (timers.push({ call, at: now + ms }), timers.at(-1));
globalThis.clearTimeout = it => { timers = timers.filter(other => other !== it); };
console.warn = (...words) => { warned.push(words.join(" ")); };
// Lets so many milliseconds pass.
function passes(ms) {
    for (const end = now + ms; ; ) {
        const next = timers.filter(it => it.at <= end).sort((a, b) => a.at - b.at)[0];
        now = next ? next.at : end;
        if (!next) return;
        clearTimeout(next);
        next.call();
    }
}
const page = new EventTarget();
globalThis.addEventListener = page.addEventListener.bind(page);
globalThis.removeEventListener = page.removeEventListener.bind(page);
globalThis.document = Object.assign(new EventTarget(), { hidden: false });

const opened = () => {
    const db = new Database("ws://here/", { WebSocket: Socket });
    last().onopen();
    return db;
};
beforeEach(() => { [Socket.made, timers, warned] = [[], [], []]; });
const data = (path, value, tag = 1) => ({ k: "data", path, tag, value });
const settled = promise => promise.then(() => "ok", why => why.code);
const refused = (code, call) => assert.throws(call, it => (assert.ok(it instanceof DatabaseError), assert.equal(it.code, code), true));
const kinds = { value: onValue, child_added: onChildAdded, child_changed: onChildChanged, child_moved: onChildMoved, child_removed: onChildRemoved };
// All that is told of a query, in order.
function told(of, names = Object.keys(kinds), found = []) {
    for (const name of names) kinds[name](of, (it, after) => found.push([name, it.key, it.val(), ...(after === undefined ? [] : [after])]), why => found.push(why.code));
    return found;
}

// ---- listeners

test("one change is told in order, with the key before it", () => {
    const db = opened(), found = told(query(ref(db, "a"), orderByValue(), limitToFirst(3)));
    assert.deepEqual(last().take(), [{ k: "listen", path: "/a", q: { limit: ["first", 3], order: "value" }, tag: 1 }]);
    last().say(data("/a", { x: 1, y: 2, z: 3 }));
    assert.deepEqual(found.splice(0), [
        ["child_added", "x", 1, null], ["child_added", "y", 2, "x"], ["child_added", "z", 3, "y"], ["value", "a", { x: 1, y: 2, z: 3 }],
    ]);
    update(ref(db, "a"), { x: 5, w: 0, y: 2 });
    assert.deepEqual(found.splice(0), [
        ["child_removed", "x", 1], ["child_added", "w", 0, null], ["value", "a", { w: 0, y: 2, z: 3 }],
    ]);
    set(ref(db, "a/w"), 4);
    assert.deepEqual(found.splice(0), [
        ["child_moved", "w", 4, "z"], ["child_changed", "w", 4, "z"], ["value", "a", { w: 4, y: 2, z: 3 }],
    ]);
});

test("a refused write shows, is taken back, and then its promise is rejected", async () => {
    const db = opened(), found = told(ref(db, "a"), ["value", "child_changed"]);
    last().say(data("/a", { x: 1 }));
    const write = set(ref(db, "a/x"), 2).catch(why => found.push([why.code, why.message]));
    assert.deepEqual(found.splice(0), [["value", "a", { x: 1 }], ["child_changed", "x", 2, null], ["value", "a", { x: 2 }]]);
    assert.deepEqual(last().take().slice(1), [{ id: 1, k: "put", path: "/a/x", value: 2 }]);
    last().say({ id: 1, k: "no", why: "denied" });
    await write;
    assert.deepEqual(found, [["child_changed", "x", 1, null], ["value", "a", { x: 1 }], ["PERMISSION_DENIED", "denied"]]);
    assert.match(warned[0], /set at \/a\/x was refused: denied/);
});

test("one that joins is told what is there, and listens once; the last that goes unlistens", () => {
    const db = opened(), first = told(ref(db, "a"), ["value"]);
    last().say(data("/a", { x: 1, y: 2 }));
    const found = told(ref(db, "a"));
    assert.deepEqual(found, [["value", "a", { x: 1, y: 2 }], ["child_added", "x", 1, null], ["child_added", "y", 2, "x"]]);
    assert.deepEqual(last().take().map(it => it.k), ["listen"]);
    last().say(data("/a/x", 4));
    assert.deepEqual(told(ref(db, "a"), ["child_added"]), [["child_added", "x", 4, null], ["child_added", "y", 2, "x"]]);
    found.splice(3);
    first.pop();
    off(ref(db, "a"), "child_added");
    last().say(data("/a/z", 3));
    assert.deepEqual(found.slice(3), [["value", "a", { x: 4, y: 2, z: 3 }]]);
    assert.equal(first.length, 2);
    off(ref(db, "a"), "value");
    assert.deepEqual(last().take(), []);
    off(ref(db, "a"));
    assert.deepEqual(last().take(), [{ k: "unlisten", tag: 1 }]);
});

test("an unsubscribe, off of one call, and onlyOnce in both of its places", () => {
    const db = opened(), found = [], a = it => found.push(["a", it.val()]), b = it => found.push(["b", it.val()]);
    const stop = onValue(ref(db, "v"), a);
    onValue(ref(db, "v"), b);
    onValue(ref(db, "v"), it => found.push(["once", it.val()]), { onlyOnce: true });
    onChildAdded(ref(db, "v"), it => found.push(["first", it.key]), undefined, { onlyOnce: true });
    last().say(data("/v", { x: 1, y: 2 }));
    const v = { x: 1, y: 2 };
    assert.deepEqual(found.splice(0), [["first", "x"], ["a", v], ["b", v], ["once", v]]);
    stop();
    stop();
    last().say(data("/v", 2));
    assert.deepEqual(found.splice(0), [["b", 2]]);
    off(ref(db, "v"), "value", b);
    assert.deepEqual(last().take().map(it => it.k), ["listen", "unlisten"]);
});

test("off of a place ends the listeners of its queries, and off of a query its own", () => {
    const db = opened(), at = ref(db, "v"), first = query(at, limitToFirst(1)), two = query(at, limitToLast(1));
    for (const it of [at, first, two, child(at, "w")]) onValue(it, () => {});
    last().take();
    off(first);
    assert.deepEqual(db.client.cover().match(/by .*/g), ["by L1"]);
    off(at, "child_added");
    off(at, "value", () => {});
    assert.equal(db.views.size, 3);
    off(at);
    assert.deepEqual([...db.views.values()].map(it => it.query.path), ["/v/w"]);
    assert.deepEqual(last().take().map(it => it.k), ["listen", "unlisten"]);
});

test("a listener that is refused is cancelled, and may listen again", async () => {
    const db = opened(), found = told(ref(db, "secret"), ["value"]);
    const once = get(ref(db, "secret"));
    last().say({ k: "revoke", tag: 1, why: "denied" });
    assert.deepEqual(found, ["PERMISSION_DENIED"]);
    assert.equal(await settled(once), "PERMISSION_DENIED");
    onValue(ref(db, "secret"), () => {});
    assert.deepEqual(last().take().map(it => it.tag), [1, 2]);
    last().say({ k: "revoke", tag: 2, why: "closed" });
    assert.match(warned[0], /a listener at \/secret was ended: closed/);
});

test("who is told that a listener was refused may end another of it, and listen again", () => {
    const db = opened(), at = ref(db, "secret"), found = [];
    onValue(at, () => {}, () => {
        stop();
        onValue(at, it => found.push(it.val()));
        stop();
    });
    const stop = onValue(at, () => {}, why => found.push(why.code));
    last().say({ k: "revoke", tag: 1, why: "denied" });
    assert.deepEqual([found, db.views.size, db.numbered.size], [[], 1, 1]);
    last().say(data("/secret", 5, 2));
    assert.deepEqual(found, [5]);
    off(at);
    assert.deepEqual([db.views.size, db.numbered.size], [0, 0]);
});

test("the whole view is asked for only where a callback wants it", () => {
    const db = opened(), wanted = [], { client } = db, want = client.want.bind(client);
    client.want = (listener, kinds) => (wanted.push([listener, kinds.length]), want(listener, kinds));
    const rows = told(ref(db, "a"), ["child_added", "child_changed"]);
    last().say(data("/a", { x: 1 }), data("/a/x", 2));
    assert.deepEqual([wanted, rows.length], [[[1, 4]], 2]);
    const whole = told(ref(db, "a"), ["value"]);
    assert.deepEqual(whole, [["value", "a", { x: 2 }]]);
    last().say(data("/a/x", 3));
    assert.deepEqual([whole[1], rows.length], [["value", "a", { x: 3 }], 3]);
    assert.deepEqual(last().take().map(it => it.k), ["listen"]); // the server has the one listen
    off(ref(db, "a"), "value");
    assert.deepEqual(wanted.at(-1), [2, 4]);
    last().say(data("/a", 5));
    assert.deepEqual(told(ref(db, "a"), ["value"]), [["value", "a", 5]]);
    assert.deepEqual([db.numbered.size, db.views.size], [1, 1]);
});

test("a value is told at once of what is known, without a connection too, and a query's in its order", () => {
    const db = opened(), at = query(ref(db, "a"), orderByValue()), rows = told(at, ["child_added", "child_moved"]);
    last().say(data("/a", { x: 1, y: 2 }));
    last().onclose();
    set(ref(db, "a/x"), 3);
    const keys = [], stop = onValue(at, it => it.forEach(row => void keys.push(row.key)));
    assert.deepEqual([rows.length, keys.splice(0)], [3, ["y", "x"]]);
    stop();
    onValue(at, it => it.forEach(row => void keys.push(row.key)), { onlyOnce: true });
    assert.deepEqual(keys.splice(0), ["y", "x"]);
    passes(1000);
    last().onopen();
    assert.deepEqual(last().take().map(it => it.k), ["listen", "put"]);
    assert.deepEqual([keys, db.numbered.size], [[], 1]);
});

test("where memory lacks to say what is wanted, the client can't go on", () => {
    const db = opened(), found = told(ref(db, "a"), ["value"]);
    db.client.want = () => { throw new DatabaseError("client/NoMemory"); };
    assert.deepEqual(told(ref(db, "b"), ["child_added"]), ["client/NoMemory"]);
    assert.deepEqual([found, db.views.size], [["client/NoMemory"], 0]);
});

test("get", async () => {
    const db = opened(), it = get(child(ref(db, "a"), "b"));
    last().say(data("/a/b", [1, 2]));
    assert.deepEqual((await it).val(), [1, 2]);
    assert.deepEqual(last().take().map(it => it.k), ["listen", "unlisten"]);
});

test("a callback's own writes are told behind what is being told, and its fault keeps none from being told", () => {
    const db = opened(), found = [];
    onValue(ref(db, "a"), it => {
        found.push(it.val());
        if (it.val() === 1) set(ref(db, "a"), 2);
        if (it.val() === 1) throw new Error("a fault");
    });
    onValue(ref(db, "a"), it => found.push(["other", it.val()]));
    last().say(data("/a", 1));
    assert.deepEqual(found, [1, ["other", 1], 2, ["other", 2]]);
    assert.throws(() => passes(0), /a fault/);
});

test("who wants to be told once is told once, also where it throws", () => {
    const db = opened(), found = [];
    const once = it => {
        found.push(it.val());
        throw new Error("a fault");
    };
    onValue(ref(db, "a"), once, { onlyOnce: true });
    last().say(data("/a", 1), data("/a", 2));
    assert.deepEqual(found, [1]);
    assert.throws(() => passes(0), /a fault/);
});

// ---- the connection

test("writes settle with the server's answer, over a reconnection too", async () => {
    const db = opened(), up = told(ref(db, ".info/connected"), ["value"]), found = told(ref(db, "a"), ["value"]);
    const offset = told(ref(db, ".info/serverTimeOffset"), ["value"]), write = set(ref(db, "a"), 1);
    let is = "waits";
    write.then(() => { is = "ok"; });
    last().onclose();
    await null;
    assert.equal(is, "waits");
    const offline = remove(ref(db, "b"));
    passes(1000);
    assert.equal(Socket.made.length, 2);
    last().onopen();
    const sent = last().take();
    assert.deepEqual(sent.map(it => [it.k, it.path]), [["listen", "/a"], ["put", "/a"], ["put", "/b"]]);
    last().say(data("/a", 1, sent[0].tag), { id: 1, k: "ok" }, { id: 2, k: "no", why: "busy" });
    await write;
    assert.equal(await settled(offline), "SERVER_REFUSED");
    assert.deepEqual(up.map(it => it[2]), [true, false, true]);
    assert.equal(db.writes.size, 0);
    assert.deepEqual([found, offset], [[["value", "a", 1]], [["value", "serverTimeOffset", 0]]]);
});

test("the pauses grow from a second to 30, and begin anew behind a connection that stood", () => {
    const db = opened();
    const pauses = () => {
        const count = Socket.made.length, from = now;
        last().onclose();
        while (Socket.made.length === count) passes(1);
        return now - from;
    };
    for (const wanted of [1000, 2000, 4000, 8000, 16000, 30000, 30000]) {
        const it = pauses();
        assert.ok(it >= 0.75 * wanted && it <= wanted + 1, `${it} for ${wanted}`);
    }
    last().onopen();
    passes(30000);
    assert.ok(pauses() <= 1001);
    const { random } = Math;
    Math.random = () => 1; // the shortest
    assert.equal(pauses(), 1500);
    Math.random = random;
    const count = Socket.made.length;
    passes(30000); // one that does not come about is given up
    assert.ok(Socket.made[count - 1].isClosed);
    passes(4000);
    assert.equal(Socket.made.length, count + 1);
    goOffline(db);
});

test("a page that is seen again, and a network that is there again, are tried at once", () => {
    const db = opened();
    const tries = (target, type) => {
        const count = Socket.made.length;
        target.dispatchEvent(new Event(type));
        return Socket.made.length - count;
    };
    assert.equal(tries(page, "online"), 0); // it is connected
    for (let k = 0; k < 6; k++) {
        last().onclose();
        passes(30000);
    }
    last().onclose();
    assert.equal(tries(page, "online"), 1);
    last().onclose();
    document.hidden = true;
    assert.equal(tries(document, "visibilitychange"), 0);
    document.hidden = false;
    assert.equal(tries(document, "visibilitychange"), 1);
    assert.equal(tries(document, "visibilitychange"), 1); // one that hangs is given up
    assert.ok(Socket.made.at(-2).isClosed);
    Socket.made.at(-2).onopen();
    assert.equal(db.info.connected, false);
    const made = Socket.made.length;
    last().onclose();
    passes(1000); // the pauses begin anew
    assert.equal(Socket.made.length, made + 1);
    last().onerror(); // alone, as in Node 20
    assert.equal(timers.length, 1);
    goOffline(db);
    assert.equal(tries(page, "online") + tries(document, "visibilitychange"), 0);
    const count = Socket.made.length;
    goOnline(db);
    goOnline(db);
    assert.equal(Socket.made.length, count + 1);
    last().onopen();
    passes(1e6);
    assert.deepEqual(timers, []);
});

test("a callback that is told of the end may connect at once", () => {
    const db = opened();
    onValue(ref(db, ".info/connected"), it => it.val() || (goOffline(db), goOnline(db)));
    last().onclose();
    last().onopen();
    passes(1e6);
    assert.equal(Socket.made.length, 2);
    assert.ok(db.info.connected);
});

test("a promise that nobody looks at is kept quiet, but a warning says what was refused", async () => {
    const db = opened(), lost = [];
    const note = why => void lost.push(why);
    process.on("unhandledRejection", note);
    set(ref(db, "a"), 1);
    push(ref(db, "b"), 1);
    last().say({ id: 1, k: "no", why: "denied" }, { id: 2, k: "no", why: "denied" });
    await new Promise(resolve => setImmediate(resolve));
    process.off("unhandledRejection", note);
    assert.deepEqual([lost.length, warned.length], [0, 2]);
});

test("offline and online by hand", () => {
    const db = opened(), up = told(ref(db, ".info/connected"), ["value"]), first = last();
    goOffline(db);
    assert.ok(first.isClosed);
    set(ref(db, "a"), 1);
    passes(1e6);
    assert.equal(Socket.made.length, 1);
    first.onclose();
    goOnline(db);
    last().onopen();
    assert.deepEqual(last().take(), [{ id: 1, k: "put", path: "/a", value: 1 }]);
    assert.deepEqual(up.map(it => it[2]), [true, false, true]);
    for (const [path, value] of [["serverTimeOffset", 0], ["connected/x", null], ["toString", null]])
        assert.deepEqual(told(ref(db, `.info/${path}`), ["value"]), [["value", path.split("/").at(-1), value]]);
});

test("what is no message is passed over, and a client that can't go on ends all that waits", async () => {
    const db = opened(), found = told(ref(db, "a"), ["value"]), write = set(ref(db, "b"), 1);
    last().onmessage({ data: "{" });
    last().onmessage({ data: new ArrayBuffer(1) });
    assert.equal(warned.filter(it => it.includes("passed over")).length, 2);
    db.client.receive = () => { throw new DatabaseError("client/NoMemory"); };
    last().say(data("/a", 1));
    assert.deepEqual(found, ["client/NoMemory"]);
    assert.equal(await settled(write), "client/NoMemory");
    refused("client/NoMemory", () => set(ref(db, "a"), 1));
    refused("client/NoMemory", () => onValue(ref(db, "c"), () => {}));
    assert.deepEqual([db.info.connected, last().isClosed, db.writes.size, db.views.size], [false, true, 0, 0]);
    passes(1e6);
    goOnline(db);
    assert.equal(Socket.made.length, 1);
});

test("without an address or a WebSocket", () => {
    refused("client/NoAddress", () => kaltewi.getDatabase());
    refused("client/NoWebSocket", () => new Database("ws://here/", { WebSocket: null }));
});

// ---- places, queries, values

test("the calls of a query", () => {
    const db = opened(), a = ref(db, "a");
    const asked = (...parts) => {
        const stop = onValue(query(a, ...parts), () => {});
        stop();
        return last().take().find(it => it.k === "listen").q;
    };
    const [by, d] = [orderByChild("d/e"), "/d/e"];
    assert.equal(asked(), undefined);
    assert.equal(asked(orderByKey()), undefined);
    assert.deepEqual(asked(orderByKey(), startAt("k"), endBefore("m")), { lower: [null, "before", "k"], order: "key", upper: [null, "before", "m"] });
    assert.deepEqual(asked(orderByKey(), startAfter("k"), endAt("m")), { lower: [null, "after", "k"], order: "key", upper: [null, "after", "m"] });
    assert.deepEqual(asked(limitToFirst(2)), { limit: ["first", 2], order: "key" });
    assert.equal(asked(by), undefined);
    assert.deepEqual(asked(by, startAt(3)), { lower: [3, "min"], order: d });
    assert.deepEqual(asked(by, startAt(3, "k")), { lower: [3, "before", "k"], order: d });
    assert.deepEqual(asked(by, startAfter(true)), { lower: [true, "max"], order: d });
    assert.deepEqual(asked(by, startAt(3, 5)).lower, [3, "before", "5"]);
    assert.deepEqual(asked(by, startAfter("t", "k")), { lower: ["t", "after", "k"], order: d });
    assert.deepEqual(asked(by, endAt(3)), { order: d, upper: [3, "max"] });
    assert.deepEqual(asked(by, endBefore(3)), { order: d, upper: [3, "min"] });
    assert.deepEqual(asked(by, endBefore(3, "k")), { order: d, upper: [3, "before", "k"] });
    assert.deepEqual(asked(orderByValue(), equalTo(null), limitToLast(10)), { limit: ["last", 10], lower: [null, "min"], order: "value", upper: [null, "max"] });
    assert.deepEqual(asked(by, equalTo(false, "k")), { lower: [false, "before", "k"], order: d, upper: [false, "after", "k"] });
    refused("query/OrderTwice", () => query(a, orderByKey(), orderByValue()));
    refused("query/StartTwice", () => query(a, orderByValue(), startAt(1), startAfter(2)));
    refused("query/EndTwice", () => query(a, orderByValue(), endAt(1), equalTo(2)));
    refused("query/LimitTwice", () => query(a, limitToFirst(1), limitToLast(1)));
    refused("query/LimitZero", () => limitToFirst(0));
    refused("query/LimitZero", () => limitToLast(1.5));
    refused("query/LimitZero", () => limitToLast(2 ** 32));
    refused("query/NoOrder", () => query(a, startAt(1)));
    refused("query/NeedsText", () => query(a, orderByKey(), startAt(1)));
    refused("query/KeyNotAllowed", () => query(a, orderByKey(), startAt("a", "b")));
    refused("tree/NotWhole", () => query(a, orderByValue(), startAt(0.5)));
    refused("tree/NoValue", () => query(a, orderByValue(), startAt({})));
    assert.ok(query(a, orderByValue(), limitToLast(1)).isEqual(query(child(ref(db), "a"), orderByValue(), limitToLast(1))));
    assert.ok(!a.isEqual(query(a, limitToLast(1))) && !a.isEqual(null) && !a.isEqual(ref(opened(), "a")));
});

test("an order alone shows all children in that order", () => {
    const db = opened(), found = [];
    onValue(query(ref(db, "a"), orderByChild("n")), it => it.forEach(row => void found.push(row.key)));
    last().say(data("/a", { x: { n: 3 }, y: { n: 1 }, z: true, w: { n: "t" } }));
    assert.deepEqual(found, ["z", "y", "x", "w"]);
});

test("places", () => {
    const db = opened(), it = child(ref(db, "/chat//m 1/"), "text");
    assert.equal(it.key, "text");
    assert.equal(it.toString(), "ws://here/chat/m%201/text");
    assert.equal(JSON.stringify({ it }), '{"it":"ws://here/chat/m%201/text"}');
    assert.ok(it.parent.parent.isEqual(ref(db, "chat")) && it.root.isEqual(ref(db)));
    assert.equal(ref(db).key, null);
    assert.equal(ref(db).parent, null);
    for (const path of ["a.b", "a/$", "#", "[", "]", "\u0007", "\u007f", "\ud800", "a/.info"]) refused("tree/BadKey", () => ref(db, path));
    refused("tree/BadKey", () => onValue(ref(db, ".info"), () => {}));
    refused("tree/BadKey", () => set(ref(db, ".info/connected"), 1));
    refused("tree/KeyTooLong", () => set(ref(db, "k".repeat(769)), 1));
});

test("snapshots", async () => {
    const db = opened(), one = get(ref(db, "a"));
    const value = JSON.parse('{"-5":1,"2147483648":1,"__proto__":{"x":1},"b":{"c":[1,2]},"10":1,"9":1,"é":0}');
    last().say(data("/a", value));
    const it = await one, keys = [];
    assert.equal(it.forEach(row => void keys.push(row.key)), false);
    assert.deepEqual(keys, ["-5", "9", "10", "2147483648", "__proto__", "b", "é"]);
    assert.ok(it.forEach(row => row.key === "9"));
    assert.equal(it.forEach(() => 1), false);
    assert.ok(it.child("é").exists() && !it.child("e").exists());
    assert.equal(it.size, 7);
    assert.ok(it.exists() && it.hasChildren() && it.hasChild("b/c/1") && !it.hasChild("b/d") && !it.hasChild("toString"));
    assert.deepEqual(it.child("b/c").val(), [1, 2]);
    assert.equal(it.child("b/c").ref.toString(), "ws://here/a/b/c");
    assert.deepEqual(JSON.stringify(it.child("__proto__")), '{"x":1}');
    assert.equal(it.child("b/c/1/d").val(), null);
    assert.equal(it.child("b/c/0").size, 0);
    it.val().b.c.push(3);
    assert.equal(it.child("b/c").size, 2);
    const numbers = get(ref(db, "n"));
    last().say(data("/n", { in: Object.fromEntries(["00", "-0", "007", "7", "-07", "2147483648", "!", "a", "\uffff", "\u{1f600}", "0"].map(it => [it, 1])) }, 2));
    (await numbers).child("in").forEach(row => void keys.push(row.key));
    assert.deepEqual(keys.splice(7), ["-07", "0", "-0", "00", "7", "007", "!", "2147483648", "a", "\uffff", "\u{1f600}"]);
    const below = get(ref(db, "o"));
    last().say(data("/o", { in: value }, 3));
    const inner = [];
    (await below).child("in").forEach(row => void inner.push(row.key));
    assert.deepEqual(inner, keys);
});

test("an object is an array where more than half of its places are there", async () => {
    const db = opened();
    const shown = async (value, tag) => {
        const it = get(ref(db, "a"));
        last().say(data("/a", value, tag));
        return (await it).val();
    };
    const holes = await shown({ 1: "a", 2: "b" }, 1);
    assert.equal(holes.length, 3);
    assert.ok(!(0 in holes) && holes[2] === "b");
    set(ref(db, "b"), holes);
    assert.deepEqual(last().take().at(-1).value, { 1: "a", 2: "b" });
    assert.deepEqual(await shown({ 2: "a" }, 2), { 2: "a" });
    assert.deepEqual(await shown({ 0: "a", x: 1 }, 3), { 0: "a", x: 1 });
    assert.deepEqual(await shown({ "00": "a" }, 4), { "00": "a" });
});

test("values that can't be written", () => {
    const db = opened(), a = ref(db, "a");
    for (const it of [undefined, NaN, Infinity, () => 1, Symbol("s"), 5n, { x: undefined }, [1, undefined]]) refused("tree/NoValue", () => set(a, it));
    refused("tree/NotWhole", () => set(a, 0.5));
    refused("tree/NotWhole", () => set(a, 2 ** 53));
    refused("tree/BadKey", () => set(a, { "a.b": 1 }));
    refused("tree/TextTooLong", () => set(a, "x".repeat(65537)));
    refused("core/Overlap", () => update(a, { b: 1, "b/c": 2 }));
    refused("core/Overlap", () => update(a, { b: 1, "/b": 2 }));
    assert.deepEqual(last().take(), []);
});

test("writes", async () => {
    const db = opened(), a = ref(db, "a");
    set(a, { x: -0, y: [5.0, null], z: {} });
    update(a, { "b/c": 1, d: null });
    remove(a);
    await update(a, {});
    assert.deepEqual(last().take(), [
        { id: 1, k: "put", path: "/a", value: { x: 0, y: { 0: 5 } } },
        { entries: { "/a/b/c": 1, "/a/d": null }, id: 2, k: "merge" },
        { id: 3, k: "put", path: "/a", value: null },
    ]);
});

test("push", async () => {
    const db = opened(), list = ref(db, "list"), first = push(list), second = push(list, { by: "ann" });
    assert.ok(first.key.length === 20 && first.key < second.key);
    assert.ok((await first).isEqual(child(list, first.key)));
    assert.deepEqual(last().take(), [{ id: 1, k: "put", path: `/list/${second.key}`, value: { by: "ann" } }]);
    last().say({ id: 1, k: "no", why: "denied" });
    assert.equal(await settled(second), "PERMISSION_DENIED");
});

test("what the end of a connection does", async () => {
    const db = opened(), here = onDisconnect(ref(db, "here"));
    const all = [here.set(true), here.remove(), here.update({ a: 1 }), here.update({}), here.cancel()];
    assert.deepEqual(last().take(), [
        { id: 1, k: "od-put", path: "/here", value: true },
        { id: 2, k: "od-put", path: "/here", value: null },
        { entries: { "/here/a": 1 }, id: 3, k: "od-merge" },
        { id: 4, k: "od-cancel", path: "/here" },
    ]);
    last().say(...[1, 2, 3, 4].map(id => ({ id, k: "ok" })));
    await Promise.all(all);
});

test("one database for all who ask at an address", () => {
    const one = kaltewi.getDatabase("ws://there/", { WebSocket: Socket });
    assert.equal(kaltewi.getDatabase("ws://there/"), one);
    assert.equal(Socket.made.length, 1);
});

test("the chain of a view's children is that of its listener, whatever changes", () => {
    const db = opened(), shown = [], q = query(ref(db, "a"), orderByValue(), limitToLast(12));
    let seed = 7;
    const chance = n => (seed = (seed * 48271) % 2147483647) % n;
    onChildAdded(q, () => {});
    onValue(q, it => {
        shown.length = 0;
        it.forEach(row => void shown.push([row.val(), row.key]));
    });
    last().say(data("/a", { k0: 5 }));
    for (let step = 0; step < 300; step++) {
        update(ref(db, "a"), Object.fromEntries(Array.from({ length: 1 + chance(5) }, () => [`k${chance(30)}`, chance(4) ? chance(10) : null])));
        const sorted = [...shown].sort(([v, k], [w, l]) => v - w || (k < l ? -1 : 1));
        assert.deepEqual(shown, sorted);
        assert.ok(shown.length <= 12);
        assert.equal([...db.views.values()][0].rows.size, shown.length);
    }
});
