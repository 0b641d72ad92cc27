// A headless Chromium, driven by its own protocol over a WebSocket.
import { spawn } from "node:child_process";
import { mkdtempSync, rmSync, writeFileSync } from "node:fs";
import { tmpdir } from "node:os";
import { until } from "./common.mjs";

const KEYS = { Tab: 9, Enter: 13, Escape: 27 };
const FLAGS = ["--headless=new", "--no-sandbox", "--disable-gpu", "--disable-dev-shm-usage", "--no-first-run", "--remote-debugging-port=0"];

export class Browser {
    next = 1;
    waits = new Map();
    said = []; // what pages said to their consoles
    faults = []; // and what of that were errors
    static async open(program) {
        const it = new Browser();
        it.room = mkdtempSync(tmpdir() + "/kaltewi-page-");
        it.ran = spawn(program, [...FLAGS, `--user-data-dir=${it.room}`, "about:blank"], { stdio: ["ignore", "ignore", "pipe"] });
        const address = await new Promise((resolve, reject) => {
            let said = "";
            it.ran.stderr.on("data", text => {
                said += text;
                const found = /DevTools listening on (ws:\S+)/.exec(said);
                if (found) resolve(found[1]);
            });
            it.ran.on("error", reject);
            it.ran.on("exit", () => reject(new Error("the browser ended: " + said.slice(-500))));
        });
        it.socket = new WebSocket(address);
        await new Promise((resolve, reject) => Object.assign(it.socket, { onopen: resolve, onerror: reject }));
        it.socket.onmessage = ({ data }) => it.hear(JSON.parse(data));
        return it;
    }
    hear({ id, result, error, method, params }) {
        if (id) {
            const { resolve, reject } = this.waits.get(id);
            this.waits.delete(id);
            return error ? reject(new Error(error.message)) : resolve(result);
        }
        if (method === "Runtime.consoleAPICalled") {
            const text = params.args.map(it => it.value ?? it.description ?? "").join(" ");
            (params.type === "error" ? this.faults : this.said).push(text);
        }
        // What the browser itself says, but for a connection that does not come about: the emulate is killed in these tests.
        if (method === "Log.entryAdded" && params.entry.level === "error" && !/^WebSocket connection to /.test(params.entry.text))
            this.faults.push(`${params.entry.text} ${params.entry.url ?? ""}`);
        if (method === "Runtime.exceptionThrown") this.faults.push(params.exceptionDetails.exception?.description ?? params.exceptionDetails.text);
    }
    send(method, params = {}, sessionId = undefined) {
        const id = this.next++;
        this.socket.send(JSON.stringify({ id, method, params, sessionId }));
        return new Promise((resolve, reject) => this.waits.set(id, { resolve, reject }));
    }
    async page(url) {
        const { targetId } = await this.send("Target.createTarget", { url: "about:blank" });
        const { sessionId } = await this.send("Target.attachToTarget", { targetId, flatten: true });
        const page = new Page(this, sessionId, targetId);
        for (const it of ["Page", "Runtime", "Log"]) await page.send(it + ".enable");
        await page.send("Emulation.setFocusEmulationEnabled", { enabled: true });
        await page.send("Page.navigate", { url });
        await page.until("document.readyState === 'complete' && location.href !== 'about:blank'");
        return page;
    }
    async close() {
        await Promise.race([this.send("Browser.close"), new Promise(resolve => setTimeout(resolve, 5000))]).catch(() => {});
        if (this.ran.exitCode === null) await new Promise(resolve => (this.ran.on("exit", resolve), setTimeout(() => this.ran.kill("SIGKILL"), 5000)));
        this.socket.close();
        rmSync(this.room, { recursive: true, force: true });
    }
}

class Page {
    constructor(browser, session, target) { Object.assign(this, { browser, session, target }); }
    send(method, params) { return this.browser.send(method, params, this.session); }
    async run(expression) {
        const { result, exceptionDetails } = await this.send("Runtime.evaluate", { expression, awaitPromise: true, returnByValue: true });
        if (exceptionDetails) throw new Error(exceptionDetails.exception?.description ?? exceptionDetails.text);
        return result.value;
    }
    until(expression, seconds) { return until(expression, () => this.run(expression).catch(() => false), seconds); }
    async reload() {
        await this.run("window.isBefore = true");
        await this.send("Page.reload");
        await this.until("!window.isBefore && document.readyState === 'complete'");
    }
    // As one who types: keys, not events that a script makes.
    async type(text) {
        await this.send("Page.bringToFront");
        for (const key of text)
            if (key === "\n") await this.press("Enter");
            else await this.send("Input.insertText", { text: key });
    }
    async press(key) {
        await this.send("Page.bringToFront");
        const of = { key, code: key, windowsVirtualKeyCode: KEYS[key] };
        for (const type of ["keyDown", "keyUp"]) await this.send("Input.dispatchKeyEvent", { ...of, type, text: type === "keyDown" && key === "Enter" ? "\r" : undefined });
    }
    // As a window of that size, dark or light.
    async look(width, height, isDark) {
        await this.send("Page.bringToFront");
        await this.send("Emulation.setDeviceMetricsOverride", { width, height, deviceScaleFactor: 1, mobile: false });
        await this.send("Emulation.setEmulatedMedia", { features: [{ name: "prefers-color-scheme", value: isDark ? "dark" : "light" }] });
        await this.until(`innerWidth === ${width} && matchMedia("(prefers-color-scheme: dark)").matches === ${isDark}`);
    }
    async shot(file) {
        const { data } = await this.send("Page.captureScreenshot", { format: "png" });
        writeFileSync(file, Buffer.from(data, "base64"));
    }
    close() { return this.browser.send("Target.closeTarget", { targetId: this.target }); }
}
