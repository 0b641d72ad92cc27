// Tabs of a browser and clients in Node beside one emulate, which is killed and started again. EMULATE is the program that emulates, BROWSER the
// browser; PYTHON a chat of bindings/python and ROOMS the program example_rooms, where they are there; SHOTS a folder for pictures.
import assert from "node:assert/strict";
import { spawn } from "node:child_process";
import { mkdtempSync, rmSync } from "node:fs";
import { createServer } from "node:http";
import { createServer as createPort } from "node:net";
import { tmpdir } from "node:os";
import { Browser } from "./browser.mjs";
import { PACKAGE, kaltewi, read, until } from "./common.mjs";
import { served, tree } from "./tree.mjs";
const { Database, ref, set, get, push, remove, update, onValue, onDisconnect, goOffline } = kaltewi;

const { EMULATE, BROWSER, PYTHON, ROOMS, SHOTS } = process.env;
const room = mkdtempSync(tmpdir() + "/kaltewi-tabs-");
let seen = 0, began = Date.now();
function ok(what) {
    console.log(`ok      ${what} (${((Date.now() - began) / 1000).toFixed(1)} seconds)`);
    [seen, began] = [seen + 1, Date.now()];
}

// ---- the pages, and the emulate

const TYPES = { html: "text/html", js: "text/javascript", wasm: "application/wasm" };
const here = new URL("./", import.meta.url);
const pages = createServer((request, answer) => {
    const { pathname } = new URL(request.url, "http://x/"), file = pathname.endsWith("/") ? pathname + "index.html" : pathname;
    if (file === "/favicon.ico") return answer.writeHead(204).end(); // a browser asks for it by itself
    const ours = /^\/(?:js|node_modules\/kaltewi)\/(.*)/.exec(file), at = ours ? new URL(ours[1], PACKAGE) : new URL(file.slice(1), here);
    try {
        const text = file === "/readme.html" ? chatOfReadme() : read(at);
        answer.writeHead(200, { "Content-Type": TYPES[file.split(".").at(-1)] ?? "text/plain" }).end(text);
    } catch {
        answer.writeHead(404).end();
    }
});
const chatOfReadme = () => /^```html\n([^]*?)^```/m.exec(read(new URL("README.md", PACKAGE)))[1].replace("ws://127.0.0.1:8080/", db);
await new Promise(resolve => pages.listen(0, "127.0.0.1", resolve));
// Whether nobody listens at a port. Of those from 10,000 to 29,999 the system gives none to a client, also while the emulate is started again.
const isFree = port => new Promise(resolve => {
    const it = createPort().on("error", () => resolve(false)).listen(port, "127.0.0.1", () => it.close(() => resolve(true)));
});
let port = 10000 + (process.pid % 20000);
while (!(await isFree(port))) port = 10000 + ((port + 1) % 20000);
const db = `ws://127.0.0.1:${port}/`, at = `http://127.0.0.1:${pages.address().port}`;
let emulate;
async function start() {
    const words = ["emulate", String(port), "--file", `${room}/tree.json`, "--deny", "/secret", "--page", PACKAGE.pathname];
    emulate = spawn(EMULATE, words, { stdio: ["ignore", "ignore", "pipe"], detached: true });
    let said = "";
    emulate.stderr.on("data", it => { said += it; });
    await until("emulate listens", () => said.includes("listening on") || (emulate.exitCode !== null && assert.fail(said)), 600);
    emulate.stderr.removeAllListeners("data").resume();
}
// With all that it has begun.
const kill = () => new Promise(resolve => {
    emulate.on("exit", resolve);
    process.kill(-emulate.pid, "SIGKILL");
});

// ---- what is seen

const text = page => page.run("document.getElementById('lines').innerText");
const shows = (page, words) => until(`a page shows ${words}`, async () => (await text(page)).includes(words));

async function tabs(browser) {
    const open = () => browser.page(`${at}/tab.html?db=${db}`), ann = await open(), bob = await open();
    for (const it of [ann, bob]) await it.until("window.db?.info.connected");
    await ann.run("kaltewi.set(kaltewi.child(chat, 'm1'), 'hi of ann')");
    await shows(bob, "hi of ann");
    await bob.run("kaltewi.push(chat, 'hello of bob').then(() => 0)");
    await shows(ann, "hello of bob");
    ok("two tabs see what either writes");
    const shown = await ann.run("(() => { window.write = kaltewi.set(kaltewi.child(chat, 'm3'), 'at once'); return document.getElementById('lines').innerText; })()");
    assert.ok(shown.includes("at once"));
    await ann.run("write.then(() => 0)");
    await bob.reload();
    await shows(bob, "hi of ann");
    await shows(bob, "at once");
    ok("a write shows before its call returns, and all is there behind a reload");

    const node = new Database(db);
    assert.equal((await get(ref(node, "chat/m1"))).val(), "hi of ann");
    await push(ref(node, "chat"), "of node");
    await shows(ann, "of node");
    ok("Node and the tabs see each other");
    await refusals(ann);
    await again(ann, bob);
    await ends(ann, bob, node);
    await quick(bob, node);
    goOffline(node);
    await bob.close();
}

async function refusals(ann) {
    await ann.run("kaltewi.set(kaltewi.ref(db, 'open'), 1).then(() => 0)");
    await ann.run("window.secret = []; kaltewi.onValue(kaltewi.ref(db, 'secret'), it => secret.push(it.val()), why => secret.push(why.code)); 0");
    await ann.until("String(secret) === 'PERMISSION_DENIED'");
    const told = await ann.run(`(async () => {
        const told = [], stop = kaltewi.onValue(kaltewi.ref(db, 'open'), it => told.push(it.val()));
        await kaltewi.get(kaltewi.ref(db, 'open'));
        told.push(await kaltewi.update(kaltewi.ref(db), { open: 2, 'secret/x': 1 }).then(() => 'ok', why => why.code));
        stop();
        return told.join();
    })()`);
    assert.equal(told, "1,2,1,PERMISSION_DENIED");
    ok("a refused listener is cancelled, and a refused write is taken back before its promise is rejected");
}

// Kills the emulate, waits for something, and starts it again. What was accepted before stands in its file's journal.
async function restart(wait) {
    await kill();
    await wait();
    await start();
}

async function again(ann, bob) {
    await kill();
    await ann.until("document.getElementById('up').innerText === 'no connection'");
    await ann.run("window.kept = 'waits'; kaltewi.set(kaltewi.child(chat, 'm9'), 'written offline').then(() => { kept = 'ok' }, why => { kept = why.code }); 0");
    await shows(ann, "written offline");
    assert.equal(await ann.run("kept"), "waits");
    await start();
    await ann.until("kept === 'ok'");
    await shows(bob, "written offline");
    ok("an emulate that was killed and started again has what was written meanwhile");
}

async function ends(ann, bob, node) {
    await ann.run("kaltewi.set(kaltewi.ref(db, 'here/ann'), true).then(() => kaltewi.onDisconnect(kaltewi.ref(db, 'here/ann')).remove()).then(() => 0)");
    await bob.run("window.here = []; kaltewi.onValue(kaltewi.ref(db, 'here'), it => here.push(it.val())); 0");
    await bob.until("JSON.stringify(here.at(-1)) === '{\"ann\":true}'");
    await ann.close();
    await bob.until("here.at(-1) === null");
    ok("what a tab asked for at the end of its connection is done");
    const pushed = Object.keys((await get(ref(node, "chat"))).val()).filter(it => it[0] === "-").sort().at(-1);
    await set(ref(node, "chat/m1"), "for a while");
    await update(ref(node, "chat"), { m1: "changed", m0: "before it" });
    await remove(ref(node, "chat/m1"));
    const want = [["changed", "m1", "for a while", pushed], ["added", "m0", "before it", pushed], ["changed", "m1", "changed", "m0"], ["removed", "m1", "changed", null]];
    await bob.until(`JSON.stringify(told.filter(it => /^m[01]$/.test(it[1])).slice(-4)) === '${JSON.stringify(want)}'`);
    ok("each change is told in order, with the child before it");
}

async function quick(bob, node) {
    await Promise.all(Array.from({ length: 1000 }, (_, k) => set(ref(node, `chat/q${k % 25}`), k)));
    const tree = (await get(ref(node, "chat"))).val(), last = Object.entries(tree).sort(([a], [b]) => (a < b ? -1 : 1)).slice(-20);
    const want = last.map(([key, value]) => `${key}: ${JSON.stringify(value)}`).join("\n");
    await until("the page ends with the tree", async () => (await text(bob)) === want);
    ok("a thousand quick changes end with the emulate's tree on the page");
}

// The example: two tabs, whose form is used by the keyboard alone.
async function example(browser) {
    const open = words => browser.page(`${at}/js/examples/chat/?db=${db}&${words}`);
    const node = new Database(db);
    await remove(ref(node, "chat"));
    const [ann, bob] = [await open("name=ann"), await open("name=bob")];
    for (const it of [ann, bob]) await it.until("document.getElementById('form').onsubmit !== null"); // a script waits for its module beyond the load
    await ann.type("hi, <b>all</b>\n");
    await shows(bob, "ann: hi, <b>all</b>");
    await bob.type("hello\n");
    await shows(ann, "bob: hello");
    assert.deepEqual(Object.values((await get(ref(node, "chat"))).val()), ["ann: hi, <b>all</b>", "bob: hello"]);
    ok("bindings/js/examples/chat: two tabs, by the keyboard");
    const short = await browser.page(`${at}/readme.html`);
    await shows(short, "ann: hi, <b>all</b>\nbob: hello");
    await short.type("of README\n");
    await shows(ann, "of README");
    await push(ref(node, "chat"), "of node");
    await until("it is last", async () => (await text(short)) === "ann: hi, <b>all</b>\nbob: hello\nof README\nof node");
    await short.close();
    ok("the chat of bindings/js/README.md");
    if (PYTHON) await python(ann);
    for (const it of [ann, bob]) await it.close();

    const [cid, dan] = [await open("name=cid&room=garden"), await open("name=dan&room=garden")];
    await cid.until("document.getElementById('here').innerText === 'Here: cid, dan'");
    await dan.type("in the garden\n");
    await shows(cid, "dan: in the garden");
    const said = Object.values((await get(ref(node, "rooms/garden/messages"))).val());
    assert.deepEqual(said, [{ by: "dan", text: "in the garden" }]);
    ok("bindings/js/examples/chat: a room, with who is there");
    await cid.type("tea is ready\n");
    await shows(dan, "dan: in the garden\ncid: tea is ready");
    await looks(cid);
    if (ROOMS) await rooms(cid);
    await dan.close();
    await cid.until("!document.getElementById('here').innerText.includes('dan')");
    ok("bindings/js/examples/chat: who closes a tab is gone");
    await cid.close();
    goOffline(node);
}

// Narrow and wide, dark and light: nothing stands out of the window, and what is written is light on dark or dark on light.
async function looks(page) {
    for (const width of [400, 1400])
        for (const isDark of [false, true]) {
            await page.look(width, 300, isDark);
            const [wide, color] = await page.run("[document.documentElement.scrollWidth, getComputedStyle(document.body).color]");
            assert.ok(wide <= width, `${wide} of ${width}`);
            assert.equal(color, isDark ? "rgb(255, 255, 255)" : "rgb(0, 0, 0)");
            if (SHOTS) await page.shot(`${SHOTS}/chat-${width}-${isDark ? "dark" : "light"}.png`);
        }
    ok("bindings/js/examples/chat: 400 and 1,400 pixels wide, dark and light");
}

async function python(page) {
    const ran = spawn(PYTHON, [new URL("../../bindings/python/chat.py", here).pathname, String(port)], { stdio: ["ignore", "pipe", "inherit"] });
    let said = "";
    ran.stdout.on("data", it => { said += it; });
    await until("the tab hears chat.py", async () => (await text(page)).split("\n").includes("ann: hi"));
    await until("chat.py hears the tab", () => said.includes("ann: hi, <b>all</b>"));
    ran.kill();
    ok("bindings/js/examples/chat talks with bindings/python/chat.py");
}

async function rooms(page) {
    const ran = spawn(ROOMS, [String(port), "garden", "eve"], { stdio: ["pipe", "pipe", "inherit"] });
    let said = "";
    ran.stdout.on("data", it => { said += it; });
    await until("eve hears what dan has said", () => said.includes("dan: in the garden"));
    await page.until("document.getElementById('here').innerText.includes('eve')");
    ran.stdin.write("of a terminal\n");
    await shows(page, "eve: of a terminal");
    await page.type("of a page\n");
    await until("eve hears the page", () => said.includes("cid: of a page"));
    ran.kill();
    await page.until("!document.getElementById('here').innerText.includes('eve')");
    ok("bindings/js/examples/chat talks with example_rooms");
}

let browser, late, failed = 0;
function isLate() {
    console.log("FAILED  it takes longer than 600 seconds", browser?.said.slice(-5), browser?.faults);
    process.exit(1);
}
// However this ends, nothing that it has begun goes on.
process.on("exit", () => {
    if (emulate && emulate.exitCode === null && emulate.signalCode === null) process.kill(-emulate.pid, "SIGKILL");
    browser?.ran.kill("SIGKILL");
});
try {
    await start();
    late = setTimeout(isLate, 600000);
    browser = await Browser.open(BROWSER);
    await tabs(browser);
    await example(browser);
    await tree({ browser, url: `${at}/js/examples/tree/?db=${db}`, node: new Database(db), restart, ok, shots: SHOTS });
    await served({ browser, url: `http://127.0.0.1:${port}/`, node: new Database(db), ok });
    assert.deepEqual(browser.faults, []);
    ok("no error in a console");
} catch (why) {
    failed = 1;
    console.log("FAILED ", why.stack, browser?.said.slice(-5), browser?.faults);
}
clearTimeout(late);
await browser?.close();
if (emulate.exitCode === null && emulate.signalCode === null) await kill();
rmSync(room, { recursive: true, force: true });
console.log(`${seen} passed, ${failed} failed`);
process.exit(failed);
