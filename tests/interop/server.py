#!/usr/bin/python3
"""A server by Debian's python3-websockets, which tests/interop/servers.py starts.

It reads one line, a JSON array of steps, prints 'port N', and takes the steps with the one client that comes.
Its last line is 'well', or what it saw and had to see. tests/interop/server.js does the same by another library.

    ["hear", TEXT]          the next text that comes is this
    ["send", TEXT, SIZE]    sends a text, with spaces before its last character, so many bytes in all
    ["parts", [TEXT, ..]]   sends one text in fragments
    ["pinged", [TEXT, ..]]  the same, and a ping behind each fragment, which has to come back
    ["chunks", TEXT, SIZE, PART]  the padded text, in fragments of so many bytes
    ["binary", TEXT]        sends a binary message
    ["ping", TEXT]          sends a ping, which has to come back
    ["pong", TEXT]          sends a pong that nobody asked for
    ["close", CODE, WHY]    closes; the client answers with this code
    ["midst", TEXT, CODE]   the same, behind the first fragment of a text
    ["closed", CODE]        the client closes with this code; 1005 stands for none
    ["gone"]                the client goes, and no text comes before
    ["vanish"]              goes without a close
"""
import asyncio
import json
import socket
import sys

import websockets
from common import SECONDS, Wrong, must, padded, parts


class Gone(Exception):
    """The server leaves in the midst of a message."""


async def pinged(peer, pieces):
    for number, piece in enumerate(pieces):
        yield piece
        await (await peer.ping(b"%d" % number))


async def left(peer, text, code):
    yield text
    await peer.close(code)
    raise Gone


async def gone(peer):
    try:
        raise Wrong(f"{await peer.recv()!r} comes, and the client has to go")
    except websockets.ConnectionClosed:
        pass


async def take(peer, kind, *words):
    """Takes a step with the client."""
    if kind == "hear":
        must("a text", await peer.recv(), words[0])
    elif kind == "send":
        await peer.send(padded(*words))
    elif kind == "parts":
        await peer.send(words[0])
    elif kind == "pinged":
        await peer.send(pinged(peer, words[0]))
    elif kind == "chunks":
        await peer.send(parts(padded(*words[:2]), words[2]))
    elif kind == "binary":
        await peer.send(words[0].encode())
    elif kind == "ping":
        await (await peer.ping(words[0]))
    elif kind == "pong":
        await peer.pong(words[0])
    elif kind == "close":
        await peer.close(*words)
        must("the code that answers a close", peer.close_code, words[0])
    elif kind == "midst":
        try:
            await peer.send(left(peer, *words))
        except Gone:
            must("the code that answers a close", peer.close_code, words[1])
    elif kind == "closed":
        await gone(peer)
        must("the code of the client's close", peer.close_code, words[0])
    elif kind == "gone":
        await gone(peer)
    elif kind == "vanish":
        peer.transport.abort()
    else:
        raise Wrong(f"a step {kind}")


async def serve(steps):
    """Takes the steps with the first client, and answers what it saw."""
    said = asyncio.get_running_loop().create_future()

    async def meet(peer):
        at = "the client"
        try:
            for step in steps:
                at = str(step)[:200]
                await take(peer, *step)
            said.set_result("well")
        except Wrong as why:
            said.set_result(str(why))
        except websockets.ConnectionClosed as why:
            # a client that goes over a long text ends the step that sends it
            said.set_result("well" if steps[-1] == ["gone"] and step == steps[-2] else f"{at}: {why!r}")

    listener = socket.create_server(("127.0.0.1", 0))
    options = {"max_size": None, "ping_interval": None, "close_timeout": SECONDS, "compression": None}
    async with websockets.serve(meet, sock=listener, **options):
        print(f"port {listener.getsockname()[1]}", flush=True)
        return await asyncio.wait_for(said, SECONDS)


if __name__ == "__main__":
    print(asyncio.run(serve(json.loads(sys.stdin.readline()))), flush=True)
