// Each script of tests/scripts once for each growth that it asks for, with that growth refused: the line that needs it says so, or it prints the
// same; and in the end nothing is held. KALTEWI_TRY names a module that was linked with heap.c's calls for tries.
import assert from "node:assert/strict";
import { readdirSync } from "node:fs";
import { test } from "node:test";
import { ROOT, read } from "./common.mjs";

const NO_MEMORY = 5, MOST = 1_000_000n;
const module = new WebAssembly.Module(read(process.env.KALTEWI_TRY));

function run(script, at) {
    const it = new WebAssembly.Instance(module, {}).exports, size = Number(it.kw_room(24n)), handle = BigInt(size + 8);
    const [room, line] = [Number(it.kw_room(MOST)), Number(it.kw_room(MOST))];
    new Uint8Array(it.memory.buffer).fill(0, size, size + 24);
    const before = it.kw_held();
    it.kw_refuse(BigInt(at));
    let lacks = it.kw_core_open(handle) === NO_MEMORY, printed = "";
    for (const text of lacks ? [] : script.split("\n").slice(0, -1)) {
        const { written } = new TextEncoder().encodeInto(text, new Uint8Array(it.memory.buffer, line, Number(MOST)));
        lacks = it.kw_core_line(handle, BigInt(line), BigInt(written)) === NO_MEMORY;
        if (lacks) break;
        assert.equal(it.kw_core_text(handle, BigInt(room), MOST, BigInt(size)), 0);
        const length = Number(new DataView(it.memory.buffer).getBigUint64(size, true));
        printed += new TextDecoder().decode(new Uint8Array(it.memory.buffer, room, length));
    }
    const asked = Number(it.kw_asked());
    it.kw_core_close(handle);
    assert.equal(it.kw_held(), before, "nothing is held");
    return { lacks, printed, asked };
}

const folder = new URL("tests/scripts/", ROOT);
for (const name of readdirSync(folder).filter(it => it.endsWith(".script")))
    test(name, () => {
        const script = read(new URL(name, folder)).toString(), whole = run(script, 0), want = read(new URL(name.replace(".script", ".out"), folder)).toString();
        assert.equal(whole.printed, want);
        assert.ok(whole.asked > 0);
        for (let at = 1; at <= whole.asked; at++) {
            const it = run(script, at);
            assert.ok(it.lacks ? want.startsWith(it.printed) : it.printed === want, `growth ${at}`);
        }
    });
