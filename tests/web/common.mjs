// What the tests share. KALTEWI_JS names the folder of the package that is tried, which is bindings/js where it is left out.
import { readFileSync } from "node:fs";
import { pathToFileURL } from "node:url";

export const ROOT = new URL("../../", import.meta.url);
export const PACKAGE = process.env.KALTEWI_JS ? pathToFileURL(process.env.KALTEWI_JS + "/") : new URL("bindings/js/", ROOT);
export const client = await import(new URL("client.js", PACKAGE));
export const kaltewi = await import(new URL("kaltewi.js", PACKAGE));
export const read = file => readFileSync(file);
export const pause = ms => new Promise(resolve => setTimeout(resolve, ms));

/** Waits until something is so, and answers it. The bound is far above what that takes on a machine that has other work. */
export async function until(what, is, seconds = 120) {
    for (const end = Date.now() + seconds * 1000; ; await pause(20)) {
        const it = await is();
        if (it) return it;
        if (Date.now() > end) throw new Error(`not within ${seconds} seconds: ${what}`);
    }
}
