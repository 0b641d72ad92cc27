// Kaltewi's client for JavaScript, by the calls of include/kaltewi.h: it runs as WebAssembly, and talks to no network itself.
//
//   const client = new Client();
//   client.connected();
//   const listener = client.listen("/chat");                 // its number
//   for (const text of client.outgoing()) socket.send(text); // {"k":"hello","version":2}, {"k":"listen","path":"/chat","tag":1}
//   client.receive('{"k":"data","path":"/chat","tag":1,"value":{"m1":"hi"}}');
//   for (const item of client.items()) console.log(item);    // {k: "listened", listener: 1}, {k: "batch", listener: 1, changes: [..]}
//
// docs/FORMATS.md says what messages, items and lines are, include/kaltewi.h what each call does and how it ends.
const place = new URL("kaltewi.wasm", import.meta.url);
const MODULE = await WebAssembly.compile(await bytesOf(place));
// How a call ends, by its number.
const WORDS = [
    "Done", "None", "Stale", "TooSmall", "Closed", "NoMemory", "Failed", "BadText", "WrongSeat", "MailboxFull", "TooManySeats", "Refused",
];
/** The kinds of changes, each with its bit in the module's call. */
export const KINDS = { removed: 1, added: 2, moved: 4, changed: 8, value: 16 };
const unknown = kind => { throw new DatabaseError("client/NoKind", `there is no kind ${kind}`); };
const DONE = 0, NONE = 1, STALE = 2, TOO_SMALL = 3, BAD_TEXT = 7, MAILBOX_FULL = 9, REFUSED = 11;
const ROOM = 65536; // bytes that a text is first given
const MOST_ITEMS = 65536; // of a seat's ring
const encoder = new TextEncoder();
const decoder = new TextDecoder("utf-8", { fatal: true, ignoreBOM: true });

async function bytesOf(url) {
    const files = url.protocol === "file:" ? globalThis.process?.getBuiltinModule?.("node:fs") : undefined;
    if (files) return files.readFileSync(url);
    const answer = await fetch(url);
    if (!answer.ok) throw new Error(`${url} is not there: ${answer.status} ${answer.statusText}`);
    return answer.arrayBuffer();
}

/** Why something is refused: `code` is a layer and a name, as `tree/NotWhole`. */
export class DatabaseError extends Error {
    constructor(code, message = code) {
        super(message);
        this.name = "DatabaseError";
        this.code = code;
    }
}

// A handle in a memory of its own, until it is closed. Places and lengths in that memory are BigInts to the module's calls.
class Open {
    #calls; #kind; #room; #isBroken = false;
    constructor(kind, ...given) {
        this.#calls = new WebAssembly.Instance(MODULE, {}).exports;
        this.#kind = kind;
        // The handle, whose bytes are zero at first; a number that a call gives; the length of a text.
        const at = this.take(32);
        [this.handle, this.number, this.size] = [BigInt(at), BigInt(at + 16), BigInt(at + 24)];
        this.bytes.fill(0, at, at + 32);
        this.#room = { in: this.take(ROOM), out: this.take(ROOM) };
        this.check(this.run("open", ...given.map(it => this.#put(it))));
    }
    // Anew at each use: memory that has grown is another buffer.
    get bytes() { return new Uint8Array(this.#calls.memory.buffer); }
    get cells() { return new DataView(this.#calls.memory.buffer); }
    /** How many bytes the memory has. */
    get memory() { return this.#calls.memory.buffer.byteLength; }
    // A number on its way in: by value, or in a cell where it is an array of one.
    #put(it) {
        if (!Array.isArray(it)) return BigInt(it);
        this.cells.setBigUint64(Number(this.number), BigInt(it[0]), true);
        return this.number;
    }
    read(cell) { return Number(this.cells.getBigUint64(Number(cell), true)); }
    take(size) {
        const at = Number(this.#calls.kw_room(BigInt(size)));
        if (!at) throw new DatabaseError("client/NoMemory");
        return at;
    }
    // Lends a room of so many bytes: the one that stands, or for a longer text one of its own.
    lend(way, size, use) {
        if (size <= ROOM) return use(this.#room[way], ROOM);
        const at = this.take(size);
        try { return use(at, size); } finally { this.#calls.kw_free(BigInt(at)); }
    }
    // A call that the module breaks off, as where its stack is full, leaves what is open half changed: it answers nothing more.
    run(name, ...words) {
        if (this.#isBroken) throw new DatabaseError("client/Broken");
        this.#isBroken = true;
        let status;
        try {
            status = this.#calls[`kw_${this.#kind}_${name}`](this.handle, ...words);
        } catch (why) {
            throw new DatabaseError("client/Broken", String(why));
        }
        this.#isBroken = false;
        return status;
    }
    // Makes a call of some words, then texts, then words, and answers how it ends. A text may be bytes already.
    call(name, words, texts, later = []) {
        const most = texts.reduce((sum, it) => sum + (typeof it === "string" ? 3 * it.length : it.length), 0);
        return this.lend("in", most, (at, room) => {
            const { bytes } = this, given = [];
            for (let next = at, k = 0; k < texts.length; k++) {
                const here = bytes.subarray(next, at + room), text = texts[k];
                const size = typeof text === "string" ? encoder.encodeInto(text, here).written : (here.set(text), text.length);
                given.push(BigInt(next), BigInt(size));
                next += size;
            }
            return this.run(name, ...words, ...given, ...later);
        });
    }
    // The text that a call gives, or undefined where there is none.
    text(name, words = [], size = ROOM) {
        const status = this.lend("out", size, (at, room) => {
            const status = this.run(name, ...words, BigInt(at), BigInt(room), this.size);
            return status === DONE ? decoder.decode(this.bytes.subarray(at, at + this.read(this.size))) : status;
        });
        if (typeof status === "string") return status;
        if (status === TOO_SMALL) return this.text(name, words, this.read(this.size));
        if (status !== NONE) this.check(status);
        return undefined;
    }
    check(status) {
        if (status === DONE || status === STALE) return;
        if (status !== REFUSED) throw new DatabaseError("client/" + (WORDS[status] ?? status));
        throw new DatabaseError((this.text("error", [this.number]) ?? "client Refused").replace(" ", "/"));
    }
    close() { this.run("close"); }
}

/** A core that lines of a script drive, with its source of push ids. */
export class Core {
    #open = new Open("core");
    /** How many lines had none of the forms. */
    badLines = 0;
    /** Does what a line asks for, without the line feed at its end, and answers what it prints: of a bad line `bad line N` and a line feed. */
    line(line) {
        const status = this.#open.call("line", [], [line]);
        if (status === BAD_TEXT) this.badLines++;
        else this.#open.check(status);
        return this.#open.text("text");
    }
    get memory() { return this.#open.memory; }
    close() { this.#open.close(); }
}

/** A client with one seat, since a page has one thread. A call that is refused throws a DatabaseError, and changes nothing. */
export class Client {
    #open;
    // What was taken out of a full ring, and from where on it is still to be told.
    #taken = []; #at = 0;
    /** `ring` is how many items wait inside the module for `items()`, from 1 to 65,536: where it is full they wait here, and no call is refused. */
    constructor(ring = 64) {
        if (!(Number.isInteger(ring) && ring >= 1 && ring <= MOST_ITEMS)) throw new DatabaseError("client/BadRing");
        this.#open = new Open("client", [ring], 1);
    }
    // Makes a call of the seat, and once more where the ring was full, when what was in it is taken out.
    #make(call) {
        let status = call();
        if (status === MAILBOX_FULL) {
            for (let item; (item = this.#next()) !== undefined; ) this.#taken.push(item);
            status = call();
        }
        this.#open.check(status);
    }
    // Makes a call of the seat, and answers the number that it gives: a listener's or a request's.
    #ask(name, ...texts) {
        this.#make(() => this.#open.call(name, [1n], texts, [this.#open.number]));
        return this.#open.read(this.#open.number);
    }
    // The next item of the ring, which has what waits for it first.
    #next() {
        this.#open.check(this.#open.run("settle", 1n));
        const text = this.#open.text("next", [1n]);
        return text === undefined ? undefined : JSON.parse(text);
    }
    /** Registers a listener, and answers its number. The query is the member `q` of the message that listens, or an order alone, as `{"order":"/score"}`; none is all of the path. */
    listen(path, query = "") { return this.#ask("listen", path, query); }
    /** From now on a listener is told changes of these kinds alone, of `KINDS`. Without `value` a batch costs by what has changed. */
    want(listener, kinds) {
        const bits = kinds.reduce((sum, it) => sum | (KINDS[it] ?? unknown(it)), 0);
        this.#open.check(this.#open.run("want", 1n, BigInt(listener), bits));
    }
    unlisten(listener) { this.#make(() => this.#open.run("unlisten", 1n, BigInt(listener))); }
    /** Sets a tree, which is JSON, at a path, and answers the number of the request. */
    set(path, tree) { return this.#ask("set", path, tree); }
    /** Sets several trees in one write: entries are JSON, an object of trees by their paths. */
    update(entries) { return this.#ask("update", entries); }
    remove(path) { return this.#ask("remove", path); }
    /** Asks the server to set a tree when the connection ends. */
    onDisconnect(path, tree) { return this.#ask("on_disconnect", path, tree); }
    onDisconnectUpdate(entries) { return this.#ask("on_disconnect_update", entries); }
    /** Drops what was to be written at and below a path when the connection ends. */
    cancelDisconnect(path) { return this.#ask("cancel_disconnect", path); }
    /** A connection to the server stands. */
    connected() { this.#open.check(this.#open.run("connected")); }
    /** The connection has ended. */
    disconnected() { this.#open.check(this.#open.run("disconnected")); }
    /** Takes a message of the server. False where it is none, or the client can't take it. */
    receive(message) {
        const status = this.#open.call("server_message", [], [message]);
        if (status === BAD_TEXT || status === REFUSED) return false;
        this.#open.check(status);
        return true;
    }
    /** Takes out the messages that are to be sent, one after another. */
    *outgoing() {
        for (let text; (text = this.#open.text("take_outgoing")) !== undefined; ) yield text;
    }
    /** Takes what the seat is told, in order, until nothing waits. */
    *items() {
        for (;;) {
            while (this.#at < this.#taken.length) yield this.#taken[this.#at++];
            if (this.#at) [this.#taken, this.#at] = [[], 0];
            const item = this.#next();
            if (item === undefined) return;
            yield item;
        }
    }
    /** The listens that are kept at the server, a line each. */
    cover() { return this.#open.text("cover"); }
    /** The next push id, for a moment in milliseconds since 1970 and twelve numbers below 64: the moment now, and drawn at random. */
    pushKey(now = Date.now(), random = crypto.getRandomValues(new Uint8Array(12)).map(it => it & 63)) {
        if (random.length !== 12) throw new DatabaseError("push/TwelveNumbers");
        return this.#open.lend("in", 12, at => {
            this.#open.bytes.set(random, at);
            return this.#open.text("push_key", [BigInt(now), BigInt(at)]);
        });
    }
    get memory() { return this.#open.memory; }
    close() { this.#open.close(); }
}
