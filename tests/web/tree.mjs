// The page bindings/js/examples/tree, used by the keyboard alone beside an emulate that tabs.mjs has started.
import assert from "node:assert/strict";
import { kaltewi, until } from "./common.mjs";
const { get, goOffline, limitToLast, onValue, orderByChild, query, ref, remove, set, update } = kaltewi;

// The rows as they are shown, each with its key and its value.
const ROWS = "[...document.querySelectorAll('#tree .row')].map(it => [...it.children].slice(0, 2).map(it => it.textContent).join(' ')).join('\\n')";
const are = (...wanted) => `${ROWS} === ${JSON.stringify(wanted.join("\n"))}`;
const shows = (page, ...wanted) => page.until(are(...wanted));
const says = (page, words) => page.until(`document.getElementById('why').textContent.includes(${JSON.stringify(words)})`);
const logs = (page, words) => page.until(`document.getElementById('log').innerText.includes(${JSON.stringify(words)})`);
// The Tab key, until that is so of what has the focus, `it`.
async function goes(page, is) {
    for (let k = 0; k < 100; k++) {
        if (await page.run(`(it => ${is})(document.activeElement)`)) return;
        await page.press("Tab");
    }
    assert.fail(`the Tab key comes to nothing where ${is}`);
}
const button = (row, name) => `it.textContent === '${name}' && it.closest('.row')?.children[0].textContent.endsWith('${row}')`;
async function presses(page, row, name) {
    await goes(page, button(row, name));
    await page.press("Enter");
    await page.until("document.activeElement.tagName === 'INPUT'");
}

async function changes(page, node) {
    await shows(page, "▾ page {2}", "▾ a {2}", "x 1", 'y "t"', "b true");
    await update(ref(node, "page"), { "a/x": 2, c: null, "d/e/f": 1 });
    await shows(page, "▾ page {3}", "▾ a {2}", "x 2", 'y "t"', "b true", "▾ d {1}", "▾ e {1}", "f 1");
    await logs(page, "/page/a/x 1 → 2");
    await logs(page, '/page/d {"e":{"f":1}} added');
    assert.ok(await page.run("[...document.querySelectorAll('.lit')].some(it => it.textContent.startsWith('x2'))"));
    await remove(ref(node, "page/d/e"));
    await shows(page, "▾ page {2}", "▾ a {2}", "x 2", 'y "t"', "b true");
}

async function edits(page, other, node) {
    await presses(page, "x", "edit");
    await page.type("5\n");
    for (const it of [page, other]) await shows(it, "▾ page {2}", "▾ a {2}", "x 5", 'y "t"', "b true");
    assert.equal((await get(ref(node, "page/a/x"))).val(), 5);
    await presses(page, "b", "edit");
    await page.type("1.5\n");
    await says(page, "tree/NotWhole");
    await presses(page, "b", "edit");
    await page.press("Escape");
    await presses(page, "b", "add");
    await page.type("no.key\n");
    await says(page, "tree/BadKey");
    await presses(page, "b", "add");
    await page.type("k");
    await page.press("Tab");
    await page.type("of <i>hand</i>\n");
    await shows(page, "▾ page {2}", "▾ a {2}", "x 5", 'y "t"', "▾ b {1}", 'k "of <i>hand</i>"');
    await shows(other, "▾ page {2}", "▾ a {2}", "x 5", 'y "t"', "▸ b {1}");
    await goes(page, button("k", "remove"));
    await page.press("Enter");
    for (const it of [page, other]) await shows(it, "▾ page {1}", "▾ a {2}", "x 5", 'y "t"');
    await goes(page, "it.classList.contains('key') && it.textContent === '▾ a'");
    await page.press("Enter");
    await shows(page, "▾ page {1}", "▸ a {2}");
    await page.press("Enter");
    await shows(page, "▾ page {1}", "▾ a {2}", "x 5", 'y "t"');
}

// A leaf, nothing, and a tree again; and a path that is denied.
async function places(page, node) {
    await set(ref(node, "page"), "a leaf");
    await shows(page, 'page "a leaf"');
    await remove(ref(node, "page"));
    await shows(page, "page null");
    await presses(page, "page", "add");
    await page.press("Tab");
    await page.type("7\n");
    await until("it has a push id", async () => /^▾ page \{1\}\n-\S{19} 7$/.test(await page.run(ROWS)));
    await goes(page, "it.id === 'path'");
    await page.run("document.activeElement.select()");
    await page.type("/secret\n");
    await page.until("location.search.includes('secret') && document.readyState === 'complete'");
    await says(page, "PERMISSION_DENIED: denied");
    await page.run("document.getElementById('why').textContent = ''");
    await presses(page, "secret", "add");
    await page.type("x");
    await page.press("Tab");
    await page.type("1\n");
    await says(page, "PERMISSION_DENIED: denied");
}

const shown = value => Object.entries(value).map(([key, it]) => `${key} ${JSON.stringify(it)}`);
async function quick(page, node) {
    await Promise.all(Array.from({ length: 1000 }, (_, k) => set(ref(node, `page/q${String(k % 25).padStart(2, "0")}`), k)));
    const tree = (await get(ref(node, "page"))).val();
    await page.until(are(`▾ page {${Object.keys(tree).length}}`, ...shown(tree)), 120);
}

async function files(page, node) {
    await set(ref(node, "page"), { x: 1, list: ["a", "b"] });
    await shows(page, "▾ page {2}", "▾ list {2}", '0 "a"', '1 "b"', "x 1");
    const text = await page.run(`(async () => {
        let made;
        const { click } = HTMLAnchorElement.prototype, { createObjectURL } = URL;
        URL.createObjectURL = it => { made = it; return ""; };
        HTMLAnchorElement.prototype.click = () => {};
        document.getElementById("export").click();
        while (!made) await new Promise(resolve => setTimeout(resolve, 10));
        Object.assign(URL, { createObjectURL });
        Object.assign(HTMLAnchorElement.prototype, { click });
        return made.text();
    })()`);
    assert.deepEqual(JSON.parse(text), { x: 1, list: ["a", "b"] });
    const brings = text => page.run(`(() => {
        const it = document.getElementById("import"), files = new DataTransfer();
        files.items.add(new File([${JSON.stringify(text)}], "tree.json"));
        it.files = files.files;
        it.dispatchEvent(new Event("change"));
    })()`);
    await brings('{"y":{"z":[true]}}');
    await shows(page, "▾ page {1}", "▾ y {1}", "▾ z {1}", "0 true");
    await brings("{");
    await says(page, "SyntaxError");
}

// The emulate is killed, a value is edited meanwhile, and it is started again: what was written is there, also behind a reload.
async function restarts(page, node, restart) {
    await shows(page, "▾ page {1}", "q 0");
    await restart(async () => {
        await page.until("document.getElementById('up').textContent === 'no connection'");
        await presses(page, "q", "edit");
        await page.type("1\n");
        await shows(page, "▾ page {1}", "q 1");
    });
    await page.until("document.getElementById('up').textContent === 'connected'");
    await until("the emulate has what was written", async () => (await get(ref(node, "page/q"))).val() === 1);
    await page.reload();
    await shows(page, "▾ page {1}", "q 1");
}

// Those that are connected, each with what it listens to, as they are shown.
const WHO = "[...document.querySelectorAll('#clients > li')].map(it => it.innerText.replaceAll('\\n', ' | '))";
const says_of = (page, is) => page.until(`(clients => ${is})(${WHO})`);
async function connections(page, other, node, url) {
    const pages = new URL(url).origin;
    await says_of(page, `clients.filter(it => it.includes(' ${pages} ') && it.includes(' /page')).length === 2`);
    await says_of(page, `clients.filter(it => it.includes('asks who is connected')).length === 2`);
    const stop = onValue(query(ref(node, "page/b"), orderByChild("at"), limitToLast(2)), () => {});
    const best = JSON.stringify('/page/b {"limit":["last",2],"order":"/at"}');
    for (const it of [page, other]) await says_of(it, `clients.filter(it => it.endsWith(${best})).length === 1`);
    stop();
    const count = 5; // two of each page, and Node
    await says_of(page, `clients.length === ${count} && !clients.some(it => it.includes(${best}))`);
    const bare = new WebSocket(node.url);
    await says_of(page, `clients.length === ${count + 1} && clients.some(it => /^\\d+ 127\\.0\\.0\\.1:\\d+ \\| listens to nothing$/.test(it))`);
    assert.equal(await page.run("document.getElementById('whose').textContent"), `Who is connected (${count + 1})`);
    bare.close();
    await says_of(page, `clients.length === ${count}`);
    await goes(page, "it.id === 'clients'");
}

// What the pictures show.
const HOUSE = {
    members: { ann: { name: "Ann", here: true }, bob: { name: "Bob", here: false } },
    messages: { m1: { by: "ann", text: "the tea is ready" } },
    shopping: { apples: 6, bread: 1, milk: 2 },
    open: true,
};
async function looks(page, node, shots) {
    await page.until(`${ROWS}.includes("milk 2")`);
    const stop = onValue(query(ref(node, "house/messages"), orderByChild("by"), limitToLast(10)), () => {});
    await says_of(page, `clients.some(it => it.endsWith('/house/messages {"limit":["last",10],"order":"/by"}'))`);
    await set(ref(node, "house/members/bob/here"), true);
    await update(ref(node, "house"), { "shopping/bread": null, "messages/m2": { by: "bob", text: "on my way" } });
    await page.until(`${ROWS}.includes("on my way")`);
    let milk = 2;
    for (const [width, height] of [[400, 760], [1400, 520]])
        for (const isDark of [false, true]) {
            await page.look(width, height, isDark);
            await set(ref(node, "house/shopping/milk"), ++milk);
            await page.until(`${ROWS}.includes("milk ${milk}")`);
            if (shots) await page.shot(`${shots}/tree-${width}-${isDark ? "dark" : "light"}.png`);
            const [wide, color] = await page.run("[document.documentElement.scrollWidth, getComputedStyle(document.body).color]");
            assert.ok(wide <= width, `${wide} of ${width}`);
            assert.equal(color, isDark ? "rgb(255, 255, 255)" : "rgb(0, 0, 0)");
            const high = await page.run("[...document.querySelectorAll('#tree .row')].map(it => it.offsetHeight)");
            assert.ok(Math.max(...high) < 2 * Math.min(...high), "each row is one line");
        }
    stop();
}

// The page as the emulate itself serves it, which is its server then.
export async function served({ browser, url, node, ok }) {
    await set(ref(node, "page"), { a: 1 });
    const page = await browser.page(`${url}?path=page`);
    await shows(page, "▾ page {1}", "a 1");
    await presses(page, "a", "edit");
    await page.type("2\n");
    await until("the emulate has what was written", async () => (await get(ref(node, "page/a"))).val() === 2);
    await page.reload();
    await shows(page, "▾ page {1}", "a 2");
    await page.close();
    ok("bindings/js/examples/tree: at / of the emulate itself");
    goOffline(node);
}

export async function tree({ browser, url, node, restart, ok, shots }) {
    await set(ref(node, "page"), { a: { x: 1, y: "t" }, b: true });
    const open = path => browser.page(`${url}&path=${path}`), [page, other] = [await open("page"), await open("page")];
    await changes(page, node);
    ok("bindings/js/examples/tree: what changes is shown, lit and told");
    await connections(page, other, node, url);
    ok("bindings/js/examples/tree: who is connected, and what each listens to");
    await edits(page, other, node);
    await other.close();
    ok("bindings/js/examples/tree: values are edited, added, removed and refused, by the keyboard alone, and another tab shows them");
    await places(page, node);
    await page.close();
    ok("bindings/js/examples/tree: a leaf, nothing, and a path that is denied");
    await set(ref(node, "page"), { q: 0 });
    const again = await open("page");
    await restarts(again, node, restart);
    ok("bindings/js/examples/tree: an emulate that is killed and started again, and a reload");
    await quick(again, node);
    ok("bindings/js/examples/tree: a thousand quick changes end with the emulate's tree on the page");
    await files(again, node);
    await again.close();
    ok("bindings/js/examples/tree: an export and an import");
    await set(ref(node, "house"), HOUSE);
    const house = await open("house");
    await looks(house, node, shots);
    await house.close();
    ok("bindings/js/examples/tree: 400 and 1,400 pixels wide, dark and light");
    goOffline(node);
}
