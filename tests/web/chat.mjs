// A chat of two clients over a real emulate, at 127.0.0.1:KALTEWI_PORT: each has a connection of its own, and sees what either says, once and in order.
import assert from "node:assert/strict";
import { test } from "node:test";
import { kaltewi, until } from "./common.mjs";
const { Database, ref, child, push, set, update, get, query, limitToLast, onChildAdded, onChildRemoved, onValue, onDisconnect, goOffline } = kaltewi;

const url = `ws://127.0.0.1:${process.env.KALTEWI_PORT}/`;
class Chatter {
    constructor(name) {
        Object.assign(this, { name, db: new Database(url), heard: [], here: [] });
        this.chat = ref(this.db, "web/chat");
        onChildAdded(query(this.chat, limitToLast(50)), it => this.heard.push(it.val()));
        onChildRemoved(this.chat, it => this.heard.push(["gone", it.val()]));
        onValue(ref(this.db, "web/here"), it => { this.here = Object.keys(it.val() ?? {}); });
    }
    async enter() {
        const here = ref(this.db, `web/here/${this.name}`);
        await onDisconnect(here).remove();
        await set(here, true);
    }
    say(text) { return push(this.chat, `${this.name}: ${text}`); }
}

test("two clients", { timeout: 600000 }, async () => {
    const [ann, bob] = [new Chatter("ann"), new Chatter("bob")];
    await Promise.all([ann.enter(), bob.enter()]);
    await until("both are here", () => String(ann.here) === "ann,bob" && String(bob.here) === "ann,bob");
    const said = ann.say("hi \u{1f600}");
    assert.deepEqual(ann.heard, ["ann: hi \u{1f600}"]); // at once
    await said;
    await until("bob hears ann", () => bob.heard.length === 1);
    await bob.say("hello");
    await until("ann hears bob", () => ann.heard.length === 2);
    assert.deepEqual(ann.heard, ["ann: hi \u{1f600}", "bob: hello"]);
    assert.deepEqual(bob.heard, ann.heard);

    // A refused write: the emulate denies /secret.
    const shown = [], open = ref(ann.db, "web/open");
    await set(open, 1);
    onValue(open, it => shown.push(it.val()));
    await until("it is shown", () => shown.length === 1);
    const why = await update(ref(ann.db), { "web/open": 2, "secret/x": 1 }).then(() => "ok", it => it.code);
    assert.equal(why, "PERMISSION_DENIED");
    assert.deepEqual(shown, [1, 2, 1]);
    assert.equal(await get(ref(bob.db, "secret")).then(() => "ok", it => it.code), "PERMISSION_DENIED");

    // A thousand quick changes of both end with one tree.
    const counts = ref(ann.db, "web/counts");
    const all = Array.from({ length: 1000 }, (_, at) => set(ref([ann, bob][at % 2].db, `web/counts/k${at % 37}`), at));
    await Promise.all(all);
    const last = (await get(counts)).val();
    assert.equal(Object.keys(last).length, 37);
    await until("both have the same", async () => JSON.stringify((await get(ref(bob.db, "web/counts"))).val()) === JSON.stringify((await get(counts)).val()));

    // Who goes is taken out; who comes again goes on where it was.
    goOffline(bob.db);
    await until("bob is gone", () => String(ann.here) === "ann");
    const kept = child(bob.chat, "zz");
    const later = set(kept, "bob: written while offline");
    assert.equal(bob.heard.at(-1), "bob: written while offline");
    kaltewi.goOnline(bob.db);
    await later;
    await until("ann hears it", () => ann.heard.at(-1) === "bob: written while offline");
    goOffline(ann.db);
    goOffline(bob.db);
});
