// Each script row of tests/scripts and tests/rows through a Core of the package: it prints what the console prints, to the byte.
import assert from "node:assert/strict";
import { existsSync, readdirSync } from "node:fs";
import { test } from "node:test";
import { ROOT, client, read } from "./common.mjs";

const folders = ["tests/scripts/", "tests/rows/"].map(it => new URL(it, ROOT));
const files = folders.flatMap(folder => readdirSync(folder).filter(it => it.endsWith(".script")).map(it => new URL(it.slice(0, -7), folder)));
const of = (row, kind) => new URL(row.href + "." + kind);
const has = (row, kind) => existsSync(of(row, kind));

// The lines of a script, each as its bytes.
function* linesOf(script) {
    for (let from = 0, end; from < script.length; from = end + 1) {
        end = script.indexOf(10, from);
        if (end < 0) end = script.length;
        yield script.subarray(from, end);
    }
}

for (const row of files.filter(it => !has(it, "args")))
    test(row.pathname.slice(ROOT.pathname.length), () => {
        const core = new client.Core();
        const printed = [...linesOf(read(of(row, "script")))].map(line => core.line(line)).join("");
        core.close();
        assert.equal(printed, has(row, "out") ? read(of(row, "out")).toString() : "");
        assert.equal(core.badLines ? 1 : 0, has(row, "status") ? Number(read(of(row, "status"))) : 0);
    });
