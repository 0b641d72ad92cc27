// Each call of client.js: what it answers, what it sends, and how it refuses.
import assert from "node:assert/strict";
import { test } from "node:test";
import { client as own } from "./common.mjs";
const { Client, Core, DatabaseError } = own;

const sent = client => [...client.outgoing()].map(JSON.parse);
const refused = (code, call) => assert.throws(call, it => it instanceof DatabaseError && it.code === code || assert.fail(`${it.code} for ${code}`));

test("a listener and writes", () => {
    const client = new Client();
    client.connected();
    assert.equal(client.listen("/chat"), 1);
    assert.equal(client.listen("/score", '{"limit":["last",2],"order":"/points"}'), 2);
    assert.deepEqual(sent(client), [
        { k: "hello", version: 2 },
        { k: "listen", path: "/chat", tag: 1 },
        { k: "listen", path: "/score", q: { limit: ["last", 2], order: "/points" }, tag: 2 },
    ]);
    assert.equal(client.cover(), 'T1 /chat by L1\nT2 /score {"limit":["last",2],"order":"/points"} by L2\n');
    assert.ok(client.receive('{"k":"data","path":"/chat","tag":1,"value":{"m1":"hi"}}'));
    assert.equal(client.set("/chat/m2", '"héllo \u{1f600}"'), 1);
    assert.equal(client.update('{"/chat/m1":null,"/b":1}'), 2);
    assert.equal(client.remove("/chat/m2"), 3);
    assert.deepEqual(sent(client).map(it => it.k), ["put", "merge", "put"]);
    assert.ok(client.receive('{"id":1,"k":"ok"}') && client.receive('{"id":3,"k":"no","why":"denied"}'));
    const kinds = [...client.items()].map(it => it.k);
    assert.deepEqual(kinds, ["listened", "listened", "batch", "wrote", "batch", "wrote", "batch", "wrote", "batch", "ok", "no"]);
    client.unlisten(1);
    assert.deepEqual(sent(client), [{ k: "unlisten", tag: 1 }]);
    assert.deepEqual([...client.items()], [{ k: "unlistened", listener: 1 }]);
    client.disconnected();
    client.close();
    refused("client/Closed", () => client.connected());
});

test("the end of a connection", () => {
    const client = new Client();
    client.connected();
    client.onDisconnect("/here", "true");
    client.onDisconnectUpdate('{"/a":1}');
    client.cancelDisconnect("/here");
    assert.deepEqual(sent(client).slice(1), [
        { id: 1, k: "od-put", path: "/here", value: true },
        { entries: { "/a": 1 }, id: 2, k: "od-merge" },
        { id: 3, k: "od-cancel", path: "/here" },
    ]);
    assert.deepEqual([...client.items()], [1, 2, 3].map(id => ({ id, k: "asked" })));
});

test("what is refused changes nothing", () => {
    const client = new Client();
    refused("tree/BadKey", () => client.set("/a.b", "1"));
    refused("tree/NotWhole", () => client.set("/a", "1.5"));
    refused("tree/NotJson", () => client.set("/a", '"\\ud800"'));
    refused("tree/NotJson", () => client.set("/a", "{"));
    refused("core/Overlap", () => client.update('{"/a":1,"/a/b":2}'));
    refused("core/EmptyUpdate", () => client.update("{}"));
    refused("wire/BadField", () => client.listen("/a", '{"order":"b"}'));
    refused("core/UnknownListener", () => client.unlisten(7));
    refused("core/NotConnected", () => client.disconnected());
    for (const ring of [0, 65537, 1.5]) refused("client/BadRing", () => new Client(ring));
    assert.deepEqual([...client.items()], []);
    client.connected();
    refused("core/AlreadyConnected", () => client.connected());
    assert.equal(client.receive("{"), false);
    assert.equal(client.receive(new Uint8Array([255])), false);
    assert.equal(client.receive('{"id":9,"k":"ok"}'), true); // stale
    assert.deepEqual(sent(client), [{ k: "hello", version: 2 }]);
});

test("a full ring refuses nothing, and loses nothing", () => {
    const client = new Client(1);
    for (let k = 0; k < 1000; k++) client.set(`/a/${k % 7}`, String(k));
    const items = client.items();
    assert.deepEqual([items.next().value, items.next().value], [1, 2].map(id => ({ id, k: "wrote" })));
    items.return(); // the others are still to be had
    const listener = client.listen("/a/0");
    client.unlisten(listener);
    const told = [...client.items()];
    assert.deepEqual(told.slice(0, 998).map(it => it.id), Array.from({ length: 998 }, (_, k) => k + 3));
    assert.deepEqual(told.slice(998).map(it => it.k), ["listened", "batch", "unlistened"]);
    assert.deepEqual([...client.items()], []);
});

test("a client takes little, and as much as is needed", () => {
    const client = new Client();
    assert.ok(client.memory < 1.25 * 1048576, `${client.memory}`);
    client.connected();
    client.listen("/many");
    const many = Object.fromEntries(Array.from({ length: 20000 }, (_, at) => [`key ${String(at).padStart(8, "0")}`, "ü".repeat(20)]));
    assert.ok(client.receive(JSON.stringify({ k: "data", path: "/many", tag: 1, value: many })));
    const batch = [...client.items()].find(it => it.k === "batch");
    assert.deepEqual(batch.changes.at(-1), { k: "value", value: many });
    assert.equal(batch.changes.length, 20001);
    assert.ok(client.memory > 4e6);
});

test("kinds of changes, and an order alone", () => {
    const client = new Client(), few = client.listen("/a", '{"order":"value"}');
    client.want(few, ["added", "removed"]);
    refused("client/NoKind", () => client.want(few, ["child_added"]));
    client.connected();
    assert.deepEqual(sent(client)[1], { k: "listen", path: "/a", tag: 1 });
    client.receive('{"k":"data","path":"/a","tag":1,"value":{"x":2,"y":1}}');
    client.set("/a/x", "3");
    const [first, second] = [...client.items()].filter(it => it.k === "batch").map(it => it.changes);
    assert.deepEqual(first, [{ after: null, k: "added", key: "y", value: 1 }, { after: "y", k: "added", key: "x", value: 2 }]);
    assert.deepEqual(second, []);
});

test("texts beyond the room that each is first given, which is given back", () => {
    const client = new Client(), { memory } = client, long = { a: "ü".repeat(20000), b: "ü".repeat(20000) };
    client.connected();
    client.set("/a", JSON.stringify(long));
    assert.deepEqual(sent(client)[1], { id: 1, k: "put", path: "/a", value: long });
    for (let k = 0; k < 200; k++) assert.equal(client.receive(JSON.stringify(long)), false);
    assert.ok(client.memory < memory + 4e6, `${client.memory}`);
});

// A client of whose calls some are others.
function changed(calls) {
    const { Instance } = WebAssembly;
    WebAssembly.Instance = function (...given) { return { exports: { ...new Instance(...given).exports, ...calls } }; };
    try { return new Client(); } finally { WebAssembly.Instance = Instance; }
}

test("a call that the module breaks off is the last one, and a room that lacks is said", () => {
    const client = changed({ kw_client_remove() { throw new WebAssembly.RuntimeError("unreachable"); } });
    client.set("/a", "1");
    refused("client/Broken", () => client.remove("/a"));
    refused("client/Broken", () => client.set("/a", "1"));
    refused("client/Broken", () => [...client.items()]);
    refused("client/NoMemory", () => changed({ kw_room: () => 0n }));
});

test("push ids", () => {
    const client = new Client();
    assert.equal(client.pushKey(1700000000000, new Uint8Array(12)), "-NjEtLV-------------");
    assert.equal(client.pushKey(1700000000000, new Uint8Array(12)), "-NjEtLV------------0");
    const [a, b] = [client.pushKey(), client.pushKey()];
    assert.ok(a.length === 20 && a < b);
    refused("push/TwelveNumbers", () => client.pushKey(0, new Uint8Array(11)));
    refused("push/MomentTooLarge", () => client.pushKey(2 ** 48));
    refused("push/RandomOutOfRange", () => client.pushKey(Date.now(), new Uint8Array(12).fill(64)));
});

test("a core", () => {
    const core = new Core();
    assert.equal(core.line('["connected"]'), "done\n");
    assert.equal(core.line("hello"), "bad line 2\n");
    assert.equal(core.badLines, 1);
    assert.equal(core.line("{}"), "bad line 3\n");
    assert.equal(core.badLines, 2);
    assert.equal(core.line('["set",1,"/c","x"]'), "done 1\n");
    core.close();
    refused("client/Closed", () => core.line("[]"));
});
