// The package has what it says: the names of its types are those of its modules, and each name of include/kaltewi.h is a call of its module.
import assert from "node:assert/strict";
import { test } from "node:test";
import { PACKAGE, ROOT, client, kaltewi, read } from "./common.mjs";

const text = (file, folder = PACKAGE) => read(new URL(file, folder)).toString();
const found = (pattern, of) => [...new Set([...of.matchAll(pattern)].map(it => it[1]))].sort();

test("types", () => {
    const declared = /^export (?:class|const|function) (\w+)/gm;
    assert.deepEqual(found(declared, text("client.d.ts")), Object.keys(client).sort());
    assert.deepEqual([...found(declared, text("kaltewi.d.ts")), "DatabaseError"].sort(), Object.keys(kaltewi).sort());
    for (const [file, of] of [["client.d.ts", client], ["kaltewi.d.ts", kaltewi]])
        for (const [, name, body] of text(file).matchAll(/^export class (\w+)[^{]*\{\n([^]*?)^\}/gm))
            for (const member of found(/^    (?:readonly )?(\w+)[(:]/gm, body))
                assert.ok(member === "constructor" || isThere(of[name], member), `${name}.${member}`);
});
// On the class, or made in its constructor.
const isThere = (type, member) => member in type.prototype || new RegExp(`\\b${member}\\b`).test(String(type));

test("the calls of the header, and no more", async () => {
    const { exports, imports } = WebAssembly.Module;
    const module = await WebAssembly.compile(read(new URL("kaltewi.wasm", PACKAGE)));
    assert.deepEqual(exports(module).map(it => it.name).sort(), [...found(/\b(kw_\w+)\(/g, text("include/kaltewi.h", ROOT)), "kw_free", "kw_room", "memory"].sort());
    assert.deepEqual(imports(module), []);
});
