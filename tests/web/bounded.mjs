// The module with a memory that can't grow beyond so many pages: the line that lacks memory says so, and all before it prints as ever.
import assert from "node:assert/strict";
import { test } from "node:test";
import { PACKAGE, read } from "./common.mjs";

const PAGE = 65536, NO_MEMORY = 5;
const bytes = read(new URL("kaltewi.wasm", PACKAGE));

function number(at) {
    let found = 0;
    for (let shift = 0; ; shift += 7) {
        found += (bytes[at] & 127) * 2 ** shift;
        if (bytes[at++] < 128) return [found, at];
    }
}
const written = it => (it < 128 ? [it] : [(it & 127) | 128, ...written(Math.floor(it / 128))]);
// The module's bytes with that bound for its memory, in pages; and how many it has at first.
function bounded(most) {
    for (let at = 8; at < bytes.length; ) {
        const kind = bytes[at], [size, from] = number(at + 1);
        if (kind === 5) {
            const [first] = number(from + 2), content = [1, 1, ...written(first), ...written(most ?? first)];
            assert.deepEqual([...bytes.subarray(from, from + 2)], [1, 0], "one memory, of places of 32 bits and without a bound");
            return { first, module: [bytes.subarray(0, at), Buffer.from([5, content.length, ...content]), bytes.subarray(from + size)] };
        }
        at = from + size;
    }
    throw new Error("no memory");
}

// Writes that nobody settles, so that each is kept.
const tree = k => Object.fromEntries(Array.from({ length: 400 }, (_, at) => [`k${at}`, `${"x".repeat(k)}${at}`]));
const lines = ['["connected"]', ...Array.from({ length: 40 }, (_, k) => JSON.stringify(["set", 1, `/n${k}`, tree(k)]))];

// What the lines print, as long as memory is there.
function run(pages) {
    const it = new WebAssembly.Instance(new WebAssembly.Module(Buffer.concat(bounded(pages).module)), {}).exports;
    const size = Number(it.kw_room(24n)), room = Number(it.kw_room(BigInt(4 * PAGE)));
    if (!size || !room) return { printed: [], lacks: true };
    new Uint8Array(it.memory.buffer).fill(0, size, size + 24);
    let status = it.kw_core_open(BigInt(size + 8));
    const printed = [];
    for (const line of status ? [] : lines) {
        const { written } = new TextEncoder().encodeInto(line, new Uint8Array(it.memory.buffer, room, 4 * PAGE));
        status = it.kw_core_line(BigInt(size + 8), BigInt(room), BigInt(written));
        if (status) break;
        assert.equal(it.kw_core_text(BigInt(size + 8), BigInt(room), BigInt(4 * PAGE), BigInt(size)), 0);
        const length = Number(new DataView(it.memory.buffer).getBigUint64(size, true));
        printed.push(Buffer.from(new Uint8Array(it.memory.buffer, room, length)).toString());
    }
    assert.ok(status === 0 || status === NO_MEMORY, `status ${status}`);
    const lacks = status === NO_MEMORY;
    it.kw_core_close(BigInt(size + 8));
    return { printed, lacks, pages: it.memory.buffer.byteLength / PAGE };
}

test("each bound from the first memory to one that is enough", () => {
    const { first } = bounded(), whole = run(4000);
    assert.ok(!whole.lacks && whole.printed.length === lines.length && whole.pages > first + 16);
    let lacked = 0;
    for (let most = first; most <= whole.pages; most += 1 + Math.floor((whole.pages - first) / 40)) {
        const it = run(most);
        lacked += it.lacks;
        assert.ok(it.lacks || it.printed.length === lines.length);
        assert.deepEqual(it.printed, whole.printed.slice(0, it.printed.length));
    }
    assert.ok(lacked > 10 && !run(whole.pages).lacks, `${lacked} lacked`);
});
