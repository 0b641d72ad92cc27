// Kaltewi for JavaScript: the modular calls of firebase/database over the proved client of client.js.
//
//   import { getDatabase, ref, query, orderByChild, limitToLast, onValue, set } from "kaltewi";
//   const db = getDatabase("ws://127.0.0.1:8080/");
//   const stop = onValue(query(ref(db, "scores"), orderByChild("points"), limitToLast(3)), it => console.log(it.val()));
//   await set(ref(db, "scores/ann"), { points: 5 });          // shows at once, and is taken back where the server refuses it
//
// What is proved is in kaltewi.wasm: views, their changes and order, pending writes, the fewest listens, messages. This file
// moves texts between that and a WebSocket, and keeps of each query what its listeners were told.
import { Client, DatabaseError, KINDS } from "./client.js";
export { DatabaseError };

// The pauses before the connection is made again, in milliseconds. A connection that stood as long as the longest begins with the first again,
// and one that takes as long to come about is given up.
const FIRST = 1000, LONGEST = 30000;
// What a view asks for: all kinds of changes, or those of its children alone.
const KINDS_ALL = Object.keys(KINDS), KINDS_OF_CHILDREN = KINDS_ALL.filter(it => it !== "value");

const refusal = why => new DatabaseError(why === "denied" ? "PERMISSION_DENIED" : "SERVER_REFUSED", why);

/** A client of one tree, with a connection that is made again where it ends. */
export class Database {
    constructor(url, { WebSocket = globalThis.WebSocket } = {}) {
        if (typeof url !== "string") throw new DatabaseError("client/NoAddress", "the address of a server is wanted, as ws://127.0.0.1:8080/");
        if (!WebSocket) throw new DatabaseError("client/NoWebSocket", "there is no WebSocket here: give one, as { WebSocket }");
        Object.assign(this, { url, WebSocket, client: new Client(), info: { connected: false, serverTimeOffset: 0 } });
        Object.assign(this, { views: new Map(), numbered: new Map(), writes: new Map(), events: [], pause: FIRST });
        // The page is seen again, or the machine has a network again.
        this.hurry = ({ type }) => {
            if (this.info.connected || (type === "visibilitychange" && document.hidden)) return;
            this.pause = FIRST;
            this.connect();
        };
        this.goOnline();
    }

    // ---- the connection
    goOnline() {
        if (this.wanted || this.failure) return;
        this.wanted = true;
        this.connect();
        watch("addEventListener", this.hurry);
    }
    goOffline() {
        this.wanted = false;
        watch("removeEventListener", this.hurry);
        this.lose();
    }
    connect() {
        const before = this.socket, socket = (this.socket = new this.WebSocket(this.url));
        before?.close();
        clearTimeout(this.timer);
        this.timer = setTimeout(() => this.lose(), LONGEST);
        socket.onopen = () => this.socket === socket && this.isUp(true);
        socket.onmessage = ({ data }) => this.socket === socket && this.hear(data);
        // Node 20 says of a connection that does not come about an error alone.
        socket.onerror = socket.onclose = () => this.socket === socket && this.lose();
    }
    // The connection has ended, or does not come about, or is wanted no more.
    lose() {
        const { socket } = this;
        this.socket = undefined;
        clearTimeout(this.timer);
        if (this.info.connected) this.isUp(false);
        socket?.close();
        if (!this.wanted || this.socket) return; // (a callback may have connected again)
        this.timer = setTimeout(() => this.connect(), this.pause * (1 - Math.random() / 4));
        this.pause = Math.min(2 * this.pause, LONGEST);
    }
    isUp(is) {
        clearTimeout(this.timer);
        if (is) this.since = Date.now();
        else if (Date.now() - this.since >= LONGEST) this.pause = FIRST;
        this.info.connected = is;
        for (const view of this.views.values()) if (view.info === "connected") view.take([{ k: "value", value: is }]);
        this.drain(() => (is ? this.client.connected() : this.client.disconnected()));
    }
    hear(data) {
        this.drain(() => {
            if (typeof data === "string" && this.client.receive(data)) return;
            console.warn("kaltewi: a message of the server is passed over:", data);
        });
    }

    // ---- what the client is asked, and tells
    ask(name, ...given) {
        if (this.failure) throw this.failure;
        return this.client[name](...given);
    }
    write(name, what, ...given) {
        const id = this.ask(name, ...given);
        const settled = new Promise((resolve, reject) => this.writes.set(id, { what, resolve, reject }));
        settled.catch(() => {}); // one that nobody looks at ends no program
        this.drain();
        return settled;
    }
    take() {
        for (const item of this.client.items()) {
            if (item.k === "batch") this.numbered.get(item.listener)?.take(item.changes);
            else if (item.k === "cancelled") this.numbered.get(item.listener)?.cancel(refusal(item.why));
            else if (item.k === "ok" || item.k === "no") this.settle(item);
        }
    }
    settle({ k, id, why }) {
        const { what, resolve, reject } = this.writes.get(id);
        this.writes.delete(id);
        if (k === "ok") return resolve();
        console.warn(`kaltewi: ${what} was refused: ${why}`);
        reject(refusal(why));
    }
    // Makes a step, takes what is new, and sends what is to be sent. Then it raises events in order: what a callback causes comes behind.
    drain(step) {
        try {
            if (!this.failure) {
                step?.();
                this.take();
                if (this.info.connected) for (const text of this.client.outgoing()) this.socket.send(text);
            }
        } catch (why) {
            this.fail(why);
        }
        if (this.isRaising) return;
        this.isRaising = true;
        for (let at = 0; at < this.events.length; at++) {
            try { this.events[at](); } catch (error) { setTimeout(() => { throw error; }); }
        }
        this.events = [];
        this.isRaising = false;
    }
    // The client can't go on, as where memory lacks: so can nothing that waits for it.
    fail(why) {
        this.failure = why;
        this.info.connected = false;
        this.goOffline();
        for (const view of [...this.views.values()]) view.cancel(why);
        for (const { reject } of this.writes.values()) reject(why);
        this.writes.clear();
    }
}
function watch(call, hurry) {
    globalThis[call]?.("online", hurry);
    globalThis.document?.[call]("visibilitychange", hurry);
}

// What the listeners of one query are shown: its children in order, as a chain, and its value.
class View {
    constructor(db, query) {
        Object.assign(this, { db, query, callbacks: [], rows: new Map(), head: { key: null }, isKnown: false, isWhole: true, isFresh: false });
        if (query.keys[0] === ".info") this.info = query.keys.slice(1).join("/");
        db.views.set(query.id, this);
    }
    begin() {
        const { info } = this.db;
        if (this.info) return this.take([{ k: "value", value: Object.hasOwn(info, this.info) ? info[this.info] : null }]);
        this.number = this.listen();
        this.ask();
    }
    listen() {
        const number = this.db.ask("listen", this.query.path, this.query.q);
        this.db.numbered.set(number, this);
        return number;
    }
    // Asks for the whole view where a callback wants it, and else for what has changed, which costs less.
    ask() {
        const isWhole = this.callbacks.some(it => it.kind === "value");
        if (isWhole === this.isWhole) return;
        this.isWhole = isWhole;
        this.db.drain(() => this.db.client.want(this.number, isWhole ? KINDS_ALL : KINDS_OF_CHILDREN));
    }
    // The view is known but for its value: another listener of the query is told that at once, and goes on in place of this one.
    renew() {
        this.isWhole = true;
        this.db.drain(() => {
            const old = this.number;
            this.number = this.listen();
            this.isFresh = true;
            this.db.numbered.delete(old);
            this.db.client.unlisten(old);
        });
    }
    lift({ before, next }) {
        before.next = next;
        if (next) next.before = before;
    }
    // Puts a row behind the one that it comes after, which may itself wait to be put.
    put(change, waiting) {
        for (const stack = [change]; stack.length; ) {
            const { key, after } = stack.at(-1), first = waiting.get(after);
            if (first && waiting.delete(after)) {
                stack.push(first);
                continue;
            }
            stack.pop();
            const before = after === null ? this.head : this.rows.get(after), row = this.rows.get(key);
            [row.before, row.next, before.next] = [before, before.next, row];
            if (row.next) row.next.before = row;
        }
    }
    take(changes) {
        if (this.isFresh) return this.refresh(changes.at(-1));
        const waiting = new Map();
        for (const it of changes) {
            const row = this.rows.get(it.key);
            if (it.k === "value") this.value = it.value;
            else if (it.k === "added") this.rows.set(it.key, { key: it.key, value: it.value });
            else if (it.k === "removed") this.rows.delete(it.key);
            else row.value = it.value;
            if (it.k === "removed" || it.k === "moved") this.lift(row);
            if (it.k === "added" || it.k === "moved") waiting.set(it.key, it);
        }
        for (const [key, change] of waiting) if (waiting.delete(key)) this.put(change, waiting);
        this.isKnown = true;
        for (const it of changes) this.raise(this.callbacks.filter(to => to.kind === it.k), it);
    }
    raise(to, { k, key, value, old, after }) {
        if (!to.length) return;
        const { ref } = this.query;
        const shot = k === "value" ? new DataSnapshot(ref, this.value, this.keys()) : new DataSnapshot(under(ref, [key]), k === "removed" ? old : value);
        for (const it of to) this.db.events.push(() => it.isOn && it.call(shot, after));
    }
    keys(keys = []) {
        for (let row = this.head.next; row; row = row.next) keys.push(row.key);
        return keys;
    }
    // Of a listener that was begun anew the value alone is new.
    refresh(change) {
        this.isFresh = false;
        this.value = change.value;
        this.raise(this.callbacks.filter(to => to.kind === "value"), change);
    }
    // A callback that joins is told what is there already.
    join(callback) {
        this.callbacks.push(callback);
        if (!this.isKnown) return this.number && this.ask();
        if (callback.kind === "value") return this.isWhole ? this.raise([callback], { k: "value" }) : this.renew();
        if (callback.kind !== "added") return;
        for (let row = this.head.next; row; row = row.next) this.raise([callback], { k: "added", key: row.key, value: row.value, after: row.before.key });
    }
    leave(which) {
        for (const it of this.callbacks.filter(which)) it.isOn = false;
        this.callbacks = this.callbacks.filter(it => it.isOn);
        if (this.db.views.get(this.query.id) !== this) return;
        if (this.callbacks.length) return this.number && this.ask();
        this.end();
        this.db.drain(() => this.number && this.db.client.unlisten(this.number));
    }
    end() {
        this.db.views.delete(this.query.id);
        this.db.numbered.delete(this.number);
    }
    cancel(why) {
        this.end();
        if (!this.callbacks.some(it => it.failed)) console.warn(`kaltewi: a listener at ${this.query.path} was ended: ${why.message}`);
        for (const it of this.callbacks) this.db.events.push(() => it.isOn && ((it.isOn = false), it.failed?.(why)));
    }
}

// ---- places and queries

const BAD_KEY = /[.#$[\]\u0000-\u001f\u007f\p{Surrogate}]/u;
function keysOf(text) {
    const keys = String(text).split("/").filter(it => it);
    if (keys.some((it, at) => BAD_KEY.test(it) && !(at === 0 && it === ".info"))) throw new DatabaseError("tree/BadKey", `no path: ${text}`);
    return keys;
}
/** The children of a path, or those of them that calls of a query name. */
export class Query {
    constructor(database, keys, parts = {}) {
        Object.assign(this, { database, keys, parts });
    }
    get path() { return "/" + this.keys.join("/"); }
    // The member q of the message that listens, or an order alone.
    get q() {
        const { limit, lower, order = "key", upper } = this.parts;
        return limit || lower || upper || order !== "key" ? JSON.stringify({ limit, lower, order, upper }) : "";
    }
    get id() { return this.path + "\n" + this.q; }
    get ref() { return new DatabaseReference(this.database, this.keys); }
    isEqual(other) { return other instanceof Query && other.database === this.database && other.id === this.id; }
    toString() { return this.database.url.replace(/\/$/, "") + this.keys.map(it => "/" + encodeURIComponent(it)).join(""); }
    toJSON() { return this.toString(); }
}
export class DatabaseReference extends Query {
    get key() { return this.keys.at(-1) ?? null; }
    get parent() { return this.keys.length ? new DatabaseReference(this.database, this.keys.slice(0, -1)) : null; }
    get root() { return new DatabaseReference(this.database, []); }
}
const under = (of, keys) => new DatabaseReference(of.database, [...of.keys, ...keys]);

const databases = new Map();
/** The database at that address, which is one for all who ask. */
export function getDatabase(url, options) {
    if (!databases.has(url)) databases.set(url, new Database(url, options));
    return databases.get(url);
}
export const ref = (db, path = "") => new DatabaseReference(db, keysOf(path));
export const child = (of, path) => under(of, keysOf(path));
export const query = (of, ...parts) => new Query(of.database, of.keys, parts.reduce((all, add) => add(all), of.parts));

const part = (name, twice, value) => all => {
    if (name in all) throw new DatabaseError("query/" + twice);
    return { ...all, [name]: typeof value === "function" ? value(all) : value };
};
const isLeaf = it => it === null || typeof it === "boolean" || Number.isSafeInteger(it) || typeof it === "string";
// A cut beside all children of a value, or beside a key among them. In the order of keys the value is the key.
const cut = (name, twice, side, beside) => (value = null, key = null) => part(name, twice, ({ order }) => {
    if (!order) throw new DatabaseError("query/NoOrder");
    if (!isLeaf(value)) throw new DatabaseError(typeof value === "number" ? "tree/NotWhole" : "tree/NoValue");
    if (order !== "key") return key === null ? [value, side] : [value, beside, String(key)];
    if (typeof value !== "string") throw new DatabaseError("query/NeedsText");
    if (key !== null) throw new DatabaseError("query/KeyNotAllowed");
    return [null, beside, value];
});
const limit = side => n => {
    if (!(Number.isInteger(n) && n > 0 && n < 2 ** 32)) throw new DatabaseError("query/LimitZero");
    return part("limit", "LimitTwice", [side, n]);
};
export const orderByKey = () => part("order", "OrderTwice", "key");
export const orderByValue = () => part("order", "OrderTwice", "value");
export const orderByChild = path => part("order", "OrderTwice", "/" + keysOf(path).join("/"));
export const startAt = cut("lower", "StartTwice", "min", "before");
export const startAfter = cut("lower", "StartTwice", "max", "after");
export const endAt = cut("upper", "EndTwice", "max", "after");
export const endBefore = cut("upper", "EndTwice", "min", "before");
export const equalTo = (value, key) => all => endAt(value, key)(startAt(value, key)(all));
export const limitToFirst = limit("first");
export const limitToLast = limit("last");

// ---- listening

const listener = kind => (query, given, failedOrOptions, options = failedOrOptions) => {
    const db = query.database, was = db.views.get(query.id), view = was ?? new View(db, query);
    const it = { kind, given, call: given, isOn: true };
    const stop = () => void (it.isOn && view.leave(other => other === it));
    if (typeof failedOrOptions === "function") it.failed = failedOrOptions;
    if (options?.onlyOnce) it.call = (...told) => (stop(), given(...told));
    view.join(it);
    try {
        if (!was) view.begin();
    } catch (why) {
        view.end();
        throw why;
    }
    db.drain();
    return stop;
};
export const onValue = listener("value");
export const onChildAdded = listener("added");
export const onChildChanged = listener("changed");
export const onChildMoved = listener("moved");
export const onChildRemoved = listener("removed");
// A place stands for all queries there; its own listen goes last, since it serves the others.
export function off(query, event, call) {
    const isGone = it => (!event || it.kind === event.replace("child_", "")) && (!call || it.given === call);
    const isPlace = Object.keys(query.parts).length === 0, isMeant = it => (isPlace ? it.query.path === query.path : it.query.id === query.id);
    const meant = [...query.database.views.values()].filter(isMeant).sort((a, b) => b.query.q.length - a.query.q.length);
    for (const it of meant) it.leave(isGone);
}
export const get = query => new Promise((resolve, reject) => onValue(query, resolve, reject, { onlyOnce: true }));

// Keys in the database's order, of those of an object whose text had them by their bytes: JavaScript has put numbers before the others.
const NUMERAL = /^-?\d+$/;
const ordered = keys => (keys.some(it => NUMERAL.test(it)) ? [...keys].sort(byKey) : keys);
// The integer of 32 bits that a key writes, or NaN.
const integerOf = key => (NUMERAL.test(key) && Number(key) === (Number(key) | 0) ? Number(key) : NaN);
// Those that write integers come first, by number, then by length.
function byKey(a, b) {
    const [m, n] = [integerOf(a), integerOf(b)];
    if (Number.isNaN(m) || Number.isNaN(n)) return Number.isNaN(m) - Number.isNaN(n) || byBytes(a, b);
    return m - n || a.length - b.length || byBytes(a, b);
}
function byBytes(a, b) {
    const [x, y] = [[...a], [...b]], at = x.findIndex((it, i) => it !== y[i]);
    return at < 0 ? x.length - y.length : (x[at].codePointAt() ?? 0) - (y[at]?.codePointAt() ?? -1);
}
const isObject = it => typeof it === "object" && it !== null;

/** What stood at a place at one moment. */
export class DataSnapshot {
    #value; #keys;
    constructor(ref, value, keys) {
        this.ref = ref;
        this.#value = value;
        this.#keys = keys;
    }
    get #all() { return (this.#keys ??= isObject(this.#value) ? ordered(Object.keys(this.#value)) : []); }
    get key() { return this.ref.key; }
    get size() { return this.#all.length; }
    exists() { return this.#value !== null; }
    val() { return plain(this.#value); }
    toJSON() { return this.val(); }
    child(path) {
        const below = (it, key) => (isObject(it) && Object.hasOwn(it, key) ? it[key] : null);
        return new DataSnapshot(child(this.ref, path), keysOf(path).reduce(below, this.#value));
    }
    hasChild(path) { return this.child(path).exists(); }
    hasChildren() { return this.size > 0; }
    forEach(call) { return this.#all.some(key => call(new DataSnapshot(under(this.ref, [key]), this.#value[key])) === true); }
}
// As the SDK gives it: an object is an array where more than half of the places up to its last are there.
function plain(value) {
    if (!isObject(value)) return value;
    const keys = Object.keys(value), last = Number(keys.at(-1));
    const isArray = keys.every(it => /^(?:0|[1-9]\d{0,8})$/.test(it)) && last < 2 * keys.length;
    if (!isArray) return Object.fromEntries(keys.map(key => [key, plain(value[key])]));
    const array = [];
    for (const key of keys) array[key] = plain(value[key]);
    return array;
}

// ---- writing

const isValue = it => it === null || ["boolean", "string", "object"].includes(typeof it) || Number.isFinite(it);
const json = value => JSON.stringify(value, function (key, it) {
    if (Array.isArray(this) && !Object.hasOwn(this, key)) return null; // a gap, as val() gives one
    if (!isValue(it)) throw new DatabaseError("tree/NoValue", `${key ? JSON.stringify(key) : "a value"} is ${String(it)}`);
    return it;
});
function entries(ref, values) {
    const all = Object.entries(values).map(([path, it]) => [child(ref, path).path, json(it)]);
    if (new Set(all.map(([path]) => path)).size < all.length) throw new DatabaseError("core/Overlap");
    return `{${all.map(([path, it]) => `${JSON.stringify(path)}:${it}`).join(",")}}`;
}
const write = (ref, name, ...given) => ref.database.write(name, `${name} at ${ref.path}`, ...given);
export const set = (ref, value) => write(ref, "set", ref.path, json(value));
export const remove = ref => write(ref, "remove", ref.path);
export const update = (ref, values) => Object.keys(values).length ? write(ref, "update", entries(ref, values)) : Promise.resolve();
export function push(parent, value) {
    const at = under(parent, [parent.database.client.pushKey()]), plainly = at.ref;
    const written = (value === undefined ? Promise.resolve() : set(at, value)).then(() => plainly);
    written.catch(() => {}); // as of a write
    return Object.assign(at, { then: written.then.bind(written), catch: written.catch.bind(written) });
}
export const onDisconnect = ref => ({
    set: value => write(ref, "onDisconnect", ref.path, json(value)),
    remove: () => write(ref, "onDisconnect", ref.path, "null"),
    update: values => Object.keys(values).length ? write(ref, "onDisconnectUpdate", entries(ref, values)) : Promise.resolve(),
    cancel: () => write(ref, "cancelDisconnect", ref.path),
});
export const goOffline = db => db.goOffline();
export const goOnline = db => db.goOnline();
