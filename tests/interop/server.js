// A server by Debian's node-ws, which tests/interop/servers.py starts. It reads the steps of tests/interop/server.py,
// prints 'port N', and takes them with the one client that comes. Its last line is 'well', or what it saw and
// had to see.
"use strict";
const { WebSocketServer } = require("ws");

const shown = (it) =>
    it.length <= 400 ? it : `${it.slice(0, 200)} .. ${it.slice(-160)} (${it.length} characters)`;

const must = (what, got, wanted) => {
    if (got !== wanted) throw new Error(`${what} is ${shown(String(got))}, not ${shown(String(wanted))}`);
};

// What comes of the client, one after the other: texts, pongs, and the code of its close.
class Heard {
    constructor(peer) {
        this.queue = [];
        this.waiting = [];
        peer.on("message", (data, isBinary) => this.put([isBinary ? "binary" : "text", data.toString()]));
        peer.on("pong", (data) => this.put(["pong", data.toString()]));
        peer.on("close", (code) => this.put(["close", code]));
        peer.on("error", () => {});
    }

    put(it) {
        this.waiting.length ? this.waiting.shift()(it) : this.queue.push(it);
    }

    next() {
        if (this.queue.length) return Promise.resolve(this.queue.shift());
        return new Promise((take) => this.waiting.push(take));
    }

    async must(kind, wanted) {
        const [came, it] = await this.next();
        must(`what comes for a ${kind}`, came, kind);
        must(`a ${kind}`, it, wanted);
    }
}

const padded = (text, size) => {
    const spaces = size ? size - Buffer.byteLength(text) : 0;
    return text.slice(0, -1) + " ".repeat(spaces) + text.slice(-1);
};

const send = (peer, data, options) =>
    new Promise((take) => peer.send(data, { binary: false, ...options }, () => take()));

const ping = async (peer, heard, payload) => {
    peer.ping(payload);
    await heard.must("pong", payload);
};

// One text in fragments, and what is done behind each of them.
const sendParts = async (peer, parts, behind = async () => {}) => {
    for (const [number, part] of parts.entries()) {
        await send(peer, part, { fin: number === parts.length - 1 });
        await behind(number);
    }
};

const chunks = (text, size) => {
    const count = Math.ceil(text.length / size);
    return Array.from({ length: count }, (_, i) => text.slice(i * size, (i + 1) * size));
};

const STEPS = {
    hear: (peer, heard, text) => heard.must("text", text),
    send: (peer, heard, text, size) => send(peer, padded(text, size)),
    parts: (peer, heard, parts) => sendParts(peer, parts),
    pinged: (peer, heard, parts) => sendParts(peer, parts, (number) => ping(peer, heard, String(number))),
    chunks: (peer, heard, text, size, part) => sendParts(peer, chunks(padded(text, size), part)),
    binary: (peer, heard, text) => send(peer, Buffer.from(text), { binary: true }),
    ping: (peer, heard, payload) => ping(peer, heard, payload),
    pong: async (peer, heard, payload) => peer.pong(payload),
    close: async (peer, heard, code, why) => {
        peer.close(code, why);
        await heard.must("close", code);
    },
    midst: async (peer, heard, text, code) => {
        await send(peer, text, { fin: false });
        peer.close(code);
        await heard.must("close", code);
    },
    closed: (peer, heard, code) => heard.must("close", code),
    gone: async (peer, heard) => must("what comes of one who has to go", (await heard.next())[0], "close"),
    vanish: async (peer) => peer.terminate(),
};

const end = (said) => process.stdout.write(`${said}\n`, () => process.exit(0));

const serve = (steps) => {
    const options = { host: "127.0.0.1", port: 0, maxPayload: 0, perMessageDeflate: false };
    const server = new WebSocketServer(options);
    server.on("listening", () => console.log(`port ${server.address().port}`));
    server.on("connection", async (peer) => {
        const heard = new Heard(peer);
        try {
            for (const [kind, ...words] of steps) await STEPS[kind](peer, heard, ...words);
            end("well");
        } catch (why) {
            end(why.message);
        }
    });
};

let line = "";
process.stdin.setEncoding("utf8");
process.stdin.on("data", (text) => (line += text));
process.stdin.on("end", () => serve(JSON.parse(line)));
