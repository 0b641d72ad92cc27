// A client by Debian's node-ws, which tests/interop/live.py starts with a port. It sends each line that it reads, prints
// each text that comes, and last the code of the close.
"use strict";
const readline = require("readline");
const { WebSocket } = require("ws");

const socket = new WebSocket(`ws://127.0.0.1:${process.argv[2]}/`);
socket.on("open", () => {
    readline.createInterface({ input: process.stdin }).on("line", (line) => socket.send(line));
});
socket.on("message", (data) => console.log(data.toString()));
socket.on("close", (code) => {
    console.log(`closed ${code}`);
    process.stdin.destroy();
});
