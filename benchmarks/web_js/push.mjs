// The work that `benchmarks/web` times in Node: the pushes of child.c by the calls of the package for JavaScript, to onChildChanged and to onValue.
// Counts go to standard output, nanoseconds to standard error.
import { Database, onChildChanged, onValue, ref } from "../../bindings/js/kaltewi.js";

const ROUNDS = 5, SIZES = [10, 100, 1000, 10000], QUARTER = 250; // ms, the most that a round takes
const STEPS = 20000, KINDS = { onChildChanged, onValue };

class Fake {
    constructor() { Fake.last = this; }
    send() {}
    close() {}
}
const name = at => `k${String(at).padStart(5, "0")}`;
const tree = known => JSON.stringify(Object.fromEntries(Array.from({ length: known }, (_, at) => [name(at), at])));
const push = (known, number) => `{"k":"data","path":"/a/${name((number * 7919) % known)}","tag":1,"value":${1000000 + number}}`;

// Pushes to a listener of that kind which knows so many children, until it is told as often as child.c's, or for a quarter of a second.
function measure(kind, known) {
    const db = new Database("ws://none/", { WebSocket: Fake });
    let told = 0;
    KINDS[kind](ref(db, "a"), () => told++);
    Fake.last.onopen();
    Fake.last.onmessage({ data: `{"k":"data","path":"/a","tag":1,"value":${tree(known)}}` });
    told = 0;
    const start = performance.now();
    let count = 0;
    while (count < STEPS && (count % 8 || performance.now() - start < QUARTER)) Fake.last.onmessage({ data: push(known, count++) });
    const each = (performance.now() - start) / count;
    if (told !== count) throw new Error(`${count} pushes, of which ${told} were told`);
    console.error(`time ${kind} ${known} ${Math.round(each * 1e6)}`);
    db.goOffline();
}

for (let round = 0; round < ROUNDS; round++) for (const known of SIZES) for (const kind of Object.keys(KINDS)) measure(kind, known);
