"""Clients by another WebSocket library, Debian's python3-websockets, speak to `serve`."""
import asyncio
import json
import socket
import subprocess
import time

import websockets
from common import (
    MIB, MOST, SECONDS, Wrong, data, hello, listen, merge, must, no, ok, padded, parts, push, put, revoke, shown, texts_of,
)

HEAD = 14  # how many bytes a client's long frame has before its text
CASES = []


class Gone(Exception):
    """A client left in the midst of a message."""


class Case:
    """A case with its name, the words of `serve` behind its port, and what its clients do."""

    def __init__(self, name, words, clients):
        self.name, self.words, self.clients = f"serve: {name}", words, clients

    def why_wrong(self, program):
        """Runs the case, and answers what is wrong, if anything is."""
        served = Served(program, self.words)
        try:
            asyncio.run(asyncio.wait_for(self.clients(served), SECONDS))
            served.has_to_end()
            return ""
        except Wrong as why:
            return str(why)
        except (asyncio.TimeoutError, subprocess.TimeoutExpired):
            return f"{served.awaited} doesn't come within {SECONDS} seconds"
        except (OSError, websockets.WebSocketException) as why:
            return f"{served.awaited} doesn't come: {why!r}"
        finally:
            served.stop()


def case(name, *words):
    return lambda clients: CASES.append(Case(name, words, clients)) or clients


# ---- the program, and a client


class Served:
    """The program, that serves at a port."""

    def __init__(self, program, words):
        with socket.socket() as it:
            it.bind(("127.0.0.1", 0))
            self.port = it.getsockname()[1]
        command = [program, "serve", str(self.port), *words]
        ends = {"stdin": subprocess.DEVNULL, "stdout": subprocess.PIPE, "stderr": subprocess.PIPE}
        self.process = subprocess.Popen(command, **ends)
        self.awaited = "nothing"

    async def connected(self):
        """A socket to the port, once the program listens there."""
        until = time.monotonic() + 30
        while True:
            try:
                return socket.create_connection(("127.0.0.1", self.port), timeout=30)
            except ConnectionRefusedError:
                status = self.process.poll()
                if status is not None:
                    raise Wrong(f"the program ended before its client came, with status {status}")
                if time.monotonic() > until:
                    raise
                await asyncio.sleep(0.01)

    def has_to_end(self):
        """It ends by itself behind its last client, with status 0, and has printed nothing."""
        self.awaited = "the program's end"
        out, err = self.process.communicate(timeout=SECONDS)
        must("what it ends with, and prints", (self.process.returncode, out, err), (0, b"", b""))

    def stop(self):
        self.process.kill()
        self.process.communicate()


class Speaker:
    """A client's connection by the library. Where it still stands behind its block, it is closed there."""

    def __init__(self, served):
        self.served, self.socket = served, None

    async def __aenter__(self):
        stream = await self.served.connected()
        # the library has smaller bounds of its own, and would ping by itself
        options = {"max_size": None, "open_timeout": SECONDS, "close_timeout": SECONDS, "ping_interval": None}
        self.served.awaited = "what answers a handshake"
        self.socket = await websockets.connect(f"ws://127.0.0.1:{self.served.port}/", sock=stream, **options)
        return self

    async def __aexit__(self, kind, *_):
        if kind is None and self.socket.close_code is None:
            await self.nothing_more()
            must("the code of the close that answers a close", await self.close(1000), 1000)
        elif kind is not None:
            self.vanish()

    async def ask(self, message, *answers):
        """Sends a message, whole or by its parts, and reads what has to be sent for it."""
        await self.socket.send(message)
        await self.hear(*answers)

    async def hear(self, *texts):
        for text in texts:
            self.served.awaited = shown(text)
            must("a text", await self.socket.recv(), text)

    async def ping(self, payload):
        """The pong comes that has the ping's bytes."""
        self.served.awaited = f"the pong of {payload}"
        await (await self.socket.ping(payload))

    async def nothing_more(self):
        """What is sent for all that was written comes before the pong, so that no text may wait behind it."""
        await self.ping(b"is that all?")
        try:
            text = await asyncio.wait_for(self.socket.recv(), 0.05)
        except asyncio.TimeoutError:
            return
        raise Wrong(f"{shown(text)} is sent, and nothing has to be")

    async def close(self, code, reason=""):
        """Closes, and answers the code of the close that answers this; 1006 stands for none."""
        self.served.awaited = "what answers a close"
        await self.socket.close(code, reason)
        return self.socket.close_code

    def vanish(self):
        """Goes without a close."""
        self.socket.transport.abort()

    async def is_ended_by(self, message):
        """The connection ends over a message, and nothing is sent for it."""
        self.served.awaited = "the connection's end"
        try:
            await self.socket.send(message)
            text = await self.socket.recv()
        except websockets.ConnectionClosed:
            return
        raise Wrong(f"{shown(text)} is sent, and the connection has to end")


# ---- what the messages do


@case("a listen is sent the tree at its path", "--tree", '{"c":[10,null,"x"],"a":{"b":1,"a":true}}')
async def listens(served):
    async with Speaker(served) as it:
        await it.ask(listen("/a", 1), data("/a", 1, '{"a":true,"b":1}'))
        await it.ask(listen("c//", 2), data("/c", 2, '{"0":10,"2":"x"}'))
        await it.ask(listen("/a/b/d", 3), data("/a/b/d", 3, "null"))
        await it.ask('{"k":"unlisten","tag":9}')
        spaced = ' {"more": [1.5], "tag": 9007199254740991,\n "path": "", "k": "listen"} '
        whole = '{"a":{"a":true,"b":1},"c":{"0":10,"2":"x"}}'
        await it.ask(spaced, data("/", 9007199254740991, whole))


@case("a write is pushed to its writer's listen, and then answered ok")
async def writes(served):
    async with Speaker(served) as it:
        await it.ask(listen("/a", 1), data("/a", 1, "null"))
        await it.ask(put(1, "/a/x", 5), data("/a/x", 1, 5), ok(1))
        await it.ask(put(2, "/a/x", 5), ok(2))
        await it.ask(put(3, "/b", 1), ok(3))
        escaped, plain = r'{"z":"\u00e9\n\"","y":-3}', r'{"y":-3,"z":"é\n\""}'
        await it.ask(put(4, "/a", escaped), data("/a", 1, plain), ok(4))
        await it.ask(put(5, "/a/z", "{}"), data("/a/z", 1, "null"), ok(5))
        await it.ask(put(6, "/", '{"a":[false]}'), data("/a", 1, '{"0":false}'), ok(6))
        await it.ask('{"k":"unlisten","tag":1}')
        await it.ask(put(7, "/a", 7), ok(7))


@case("two clients, one after the other: the second finds what the first wrote", "--count", "2")
async def two(served):
    async with Speaker(served) as first:
        await first.ask(listen("/a", 1), data("/a", 1, "null"))
        await first.ask(put(1, "/a", '"left"'), data("/a", 1, '"left"'), ok(1))
    async with Speaker(served) as second:
        await second.ask(put(1, "/b", 1), ok(1))
        await second.ask(listen("/", 1), data("/", 1, '{"a":"left","b":1}'))


@case("a merge is pushed as one data, or as one data-merge", "--tree", '{"a":{"x":1,"y":2}}')
async def merges(served):
    async with Speaker(served) as it:
        await it.ask(listen("/a", 1), data("/a", 1, '{"x":1,"y":2}'))
        await it.ask(merge(1, '{"/a/x":null,"/b/y":2}'), data("/a/x", 1, "null"), ok(1))
        pushed = '{"entries":{"/a/y":2,"/a/z/w":true},"k":"data-merge","tag":1}'
        await it.ask(merge(2, '{"a/z/w":true,"/b":null,"/a/y":2}'), pushed, ok(2))
        await it.ask(merge(3, '{"/":{"a":{"v":0}}}'), data("/a", 1, '{"v":0}'), ok(3))
        await it.ask(merge(4, '{"/a/v":1,"/a/v/u":2}'), no(4, "bad"))
        await it.ask(merge(5, '{"/a/v":1,"a/v/":1}'), no(5, "bad"))
        await it.ask(listen("/", 2), data("/", 2, '{"a":{"v":0}}'))


@case("a client that says version 2 is sent what a write brings to two listens as one push")
async def versions(served):
    async with Speaker(served) as it:
        await it.ask(hello(2))
        await it.nothing_more()
        await it.ask(listen("/a", 1), data("/a", 1, "null"))
        await it.ask(listen("/b", 2), data("/b", 2, "null"))
        await it.ask(merge(1, '{"/a/x":1,"/b/y":2}'), push((1, '{"/a/x":1}'), (2, '{"/b/y":2}')), ok(1))
        await it.ask(put(2, "/a/x", 3), data("/a/x", 1, 3), ok(2))
        await it.ask(hello(1))
        await it.ask(merge(3, '{"/a/x":4,"/b/y":5}'), data("/a/x", 1, 4), data("/b/y", 2, 5), ok(3))


SCORES = '{"s":{"ann":{"n":9},"bob":{"n":7},"cid":{"n":5}}}'


@case("a listen with a query is sent what it selects", "--tree", SCORES)
async def queries(served):
    async with Speaker(served) as it:
        best = listen("/s", 1, '"q":{"limit":["last",2],"order":"/n"},')
        await it.ask(best, data("/s", 1, '{"ann":{"n":9},"bob":{"n":7}}'))
        await it.ask(put(1, "/s/cid/n", 8), data("/s", 1, '{"ann":{"n":9},"cid":{"n":8}}'), ok(1))
        await it.ask(put(2, "/s/bob/n", 1), ok(2))
        await it.ask(listen("/s", 2, '"q":{"lower":[null,"before","b"],"order":"key"},'),
                     data("/s", 2, '{"bob":{"n":1},"cid":{"n":8}}'))
        await it.ask(listen("/s", 3, '"q":{"lower":[1,"min"],"order":"/n","upper":[8,"min"]},'),
                     data("/s", 3, '{"bob":{"n":1}}'))
        await it.ask(put(3, "/s/bob/n", 20), data("/s", 1, '{"ann":{"n":9},"bob":{"n":20}}'),
                     data("/s", 2, '{"bob":{"n":20},"cid":{"n":8}}'), data("/s", 3, "null"), ok(3))
        # a query without start, end and limit has no q
        await it.ask(listen("/s", 4, '"q":{"order":"key"},'))


SECRET = '{"a":1,"s":{"x":2}}'


@case("a denied path is answered no, and its listen is revoked", "--deny", "/s", "--tree", SECRET)
async def denied(served):
    async with Speaker(served) as it:
        for number, path in enumerate(("/s", "/s/x", "/s/x/y", "/"), 1):
            await it.ask(put(number, path, 5), no(number, "denied"))
            await it.ask(put(10 + number, path, 5, "od-put"), no(10 + number, "denied"))
            await it.ask(f'{{"id":{20 + number},"k":"od-cancel","path":"{path}"}}', no(20 + number, "denied"))
            await it.ask(listen(path, number), revoke(number))
        await it.ask(merge(5, '{"/a":2,"/s/y":1}'), no(5, "denied"))
        await it.ask(merge(6, '{"/s":1,"/s/y":1}'), no(6, "bad"))
        await it.ask(put(7, "/sa", 5), ok(7))
        await it.ask(listen("/a", 7), data("/a", 7, 1))
        # a denied listen leaves the one that has its tag
        await it.ask(listen("/s", 7), revoke(7))
        await it.ask(put(8, "/a", 3), data("/a", 7, 3), ok(8))


@case("a write that would stand too deep is answered no")
async def deep(served):
    path = "/k" * 32
    async with Speaker(served) as it:
        await it.ask(put(1, path, '{"k":1}'), no(1, "bad"))
        await it.ask(put(2, path, '{"k":1}', "od-put"), no(2, "bad"))
        await it.ask(put(3, path, 1), ok(3))
        await it.ask(listen(path, 1), data(path, 1, 1))


UNREADABLE = [
    "",
    "put",
    "[1]",
    '{"id":1,"k":"put","path":"/a","value":5',
    '{"id":1,"k":"put","path":"/a","value":5}}',
    '{"id":1,"path":"/a","value":5}',
    put(1, "/a", 5, "set"),
    ok(1),
    data("/a", 1, 5),
    put(0, "/a", 5),
    put("1.0", "/a", 5),
    put('"1"', "/a", 5),
    put(9007199254740992, "/a", 5),
    '{"k":"put","path":"/a","value":5}',
    '{"id":1,"k":"put","value":5}',
    '{"id":1,"k":"put","path":["a"],"value":5}',
    '{"id":1,"k":"put","path":"/a"}',
    put(1, "/a.b", 5),
    put(1, "/k" * 33, 5),
    put(1, "/" + "k" * 769, 5),
    merge(1, "{}"),
    merge(1, '[["/a",5]]'),
    merge(1, '{"/a":5,"/$":5}'),
    put(1, "/a", 1.5),
    put(1, "/a", "1e2"),
    put(1, "/a", 9007199254740992),
    put(1, "/a", '{"b":{"":5}}'),
    put(1, "/a", '{"k":' * 33 + "5" + "}" * 33),
    put(1, "/a", '"' + "t" * 65537 + '"'),
    put(1, "/a", "[" + "0," * 65535 + "0]"),
    merge(1, '{"/a":5,"/b":1.5}'),
]


@case(f"{len(UNREADABLE)} texts that are no message are passed over")
async def unreadable(served):
    async with Speaker(served) as it:
        await it.ask(listen("/", 1), data("/", 1, "null"))
        for text in UNREADABLE:
            await it.ask(text)
            await it.nothing_more()
        await it.ask(put(1, "/a", 5), data("/a", 1, 5), ok(1))


@case("what is asked for the end is done when its client goes, closed or not", "--count", "3")
async def endings(served):
    async with Speaker(served) as first:
        await first.ask(listen("/", 1), data("/", 1, "null"))
        await first.ask(put(1, "/p", "true", "od-put"), ok(1))
        await first.ask(merge(2, '{"/q/r":1,"/q/s":2}', "od-merge"), ok(2))
        await first.ask('{"id":3,"k":"od-cancel","path":"/q/s"}', ok(3))
    async with Speaker(served) as second:
        await second.ask(put(1, "/p", "null", "od-put"), ok(1))
        await second.ask(listen("/", 1), data("/", 1, '{"p":true,"q":{"r":1}}'))
        second.vanish()
        await second.socket.wait_closed()
    async with Speaker(served) as third:
        await third.ask(listen("/", 1), data("/", 1, '{"q":{"r":1}}'))


# ---- what the protocol allows


@case("a message in fragments is one message, however it is cut")
async def fragments(served):
    async with Speaker(served) as it:
        await it.ask(parts(listen("/a", 1), 7), data("/a", 1, "null"))
        await it.ask(parts(put(1, "/a", '"é"'), 1), data("/a", 1, '"é"'), ok(1))
        await it.ask(["", "", *parts(put(2, "/a", 2), 5), ""], data("/a", 1, 2), ok(2))
        # nothing is read into two texts that are cut like one
        await it.ask('{"id":3,"k":"put",')
        await it.ask('"path":"/a","value":3}')


@case("pings come back, between messages and in the midst of one")
async def pings(served):
    async with Speaker(served) as it:

        async def with_pings(pieces):
            for piece in pieces:
                yield piece
                await it.ping(piece.encode())

        await it.ping(b"")
        await it.ask(listen("/a", 1), data("/a", 1, "null"))
        await it.ping(bytes(range(125)))
        await it.ask(with_pings(parts(put(1, "/a", 5), 9)), data("/a", 1, 5), ok(1))
        await it.socket.pong(b"nobody asked")
        for number in range(200):
            await it.ping(b"%d" % number)
        await it.ask(put(2, "/a", 6), data("/a", 1, 6), ok(2))


@case("a binary message is passed over, whatever is in it")
async def binary(served):
    async with Speaker(served) as it:
        await it.ask(listen("/a", 1), data("/a", 1, "null"))
        for message in (put(1, "/a", 5).encode(), b"", b"\xff\xfe\x00", parts(put(1, "/a", 5).encode(), 9)):
            await it.ask(message)
            await it.nothing_more()
        await it.ask(put(2, "/a", 6), data("/a", 1, 6), ok(2))


@case("a close is answered by a close, with its code, and the next client is served", "--count", "3")
async def closes(served):
    async with Speaker(served) as it:
        await it.ask(put(1, "/a", 5), ok(1))
        must("the code that answers 1001", await it.close(1001, "going"), 1001)
    async with Speaker(served) as it:
        must("the code that answers 4000", await it.close(4000), 4000)
    async with Speaker(served) as it:
        await it.ask(listen("/a", 1), data("/a", 1, 5))


@case("a close in the midst of a message is answered, and the message not taken", "--count", "2")
async def closes_in_the_midst(served):
    async with Speaker(served) as it:

        async def never_whole():
            yield put(1, "/a", 5)[:-1]
            await it.close(1000)
            raise Gone

        await it.ask(listen("/a", 1), data("/a", 1, "null"))
        try:
            await it.socket.send(never_whole())
        except Gone:
            pass
        must("the code that answers 1000", it.socket.close_code, 1000)
    async with Speaker(served) as it:
        await it.ask(listen("/a", 1), data("/a", 1, "null"))


@case("one who goes without a close, in the midst of a message, is followed by the next", "--count", "2")
async def vanishes(served):
    async with Speaker(served) as it:

        async def never_whole():
            yield put(2, "/b", 5)[:-1]
            await it.ping(b"is it read?")
            it.vanish()
            await it.socket.wait_closed()
            raise Gone

        await it.ask(put(1, "/a", 5), ok(1))
        try:
            await it.socket.send(never_whole())
        except Gone:
            pass
    async with Speaker(served) as it:
        await it.ask(listen("/", 1), data("/", 1, '{"a":5}'))


@case("a client is served once the one before has gone", "--count", "2")
async def waits(served):
    async with Speaker(served) as first:
        await first.ask(listen("/a", 1), data("/a", 1, "null"))
        coming = asyncio.ensure_future(Speaker(served).__aenter__())
        done, _ = await asyncio.wait([coming], timeout=0.3)
        must("whether the second is served beside the first", bool(done), False)
        await first.ask(put(1, "/a", 5), data("/a", 1, 5), ok(1))
    second = await coming
    await second.ask(listen("/a", 1), data("/a", 1, 5))
    await second.__aexit__(None)


@case("behind the last client nobody listens at the port", "--count", "2")
async def ends(served):
    for number in (1, 2):
        async with Speaker(served) as it:
            await it.ask(put(number, "/a", 5), ok(number))
    served.has_to_end()
    try:
        socket.create_connection(("127.0.0.1", served.port), timeout=30).close()
    except ConnectionRefusedError:
        return
    raise Wrong("somebody still listens at the port")


# ---- long texts


@case("a text of 1 MiB is read, and so is what it brings", "--count", "2")
async def one_mib(served):
    value = texts_of(MIB - len(put(1, "/a", "")))
    must("the length of the text", len(put(1, "/a", value)), MIB)
    async with Speaker(served) as it:
        await it.ask(listen("/a", 1), data("/a", 1, "null"))
        await it.ask(put(1, "/a", value), data("/a", 1, value), ok(1))
        await it.ask(parts(put(2, "/b", value), 1000), ok(2))
    async with Speaker(served) as it:
        both = json.dumps({name: json.loads(value) for name in "ab"}, separators=(",", ":"))
        await it.ask(listen("/", 1), data("/", 1, both))


@case("a text of 70 MiB is read")
async def seventy_mib(served):
    async with Speaker(served) as it:
        await it.ask(listen("/a", 1), data("/a", 1, "null"))
        await it.ask(padded(put(1, "/a", 5), 70 * MIB), data("/a", 1, 5), ok(1))
        await it.ask(put(2, "/a", 6), data("/a", 1, 6), ok(2))


@case("a text of 70 MiB in fragments is read too")
async def seventy_mib_in_fragments(served):
    async with Speaker(served) as it:
        await it.ask(listen("/a", 1), data("/a", 1, "null"))
        await it.ask(parts(padded(put(1, "/a", 5), 70 * MIB), MIB), data("/a", 1, 5), ok(1))
        await it.ask(put(2, "/a", 6), data("/a", 1, 6), ok(2))


@case("a text of 134,217,728 bytes with its frame is read")
async def most(served):
    async with Speaker(served) as it:
        await it.ask(listen("/a", 1), data("/a", 1, "null"))
        await it.ask(padded(put(1, "/a", 5), MOST - HEAD), data("/a", 1, 5), ok(1))


async def is_too_long(served, message):
    """The connection ends over the message. The next client finds what was written before, and not more."""
    async with Speaker(served) as it:
        await it.ask(put(1, "/a", 5), ok(1))
        await it.is_ended_by(message)
    async with Speaker(served) as it:
        await it.ask(listen("/a", 1), data("/a", 1, 5))


@case("one byte more ends the connection, and the next client is served", "--count", "2")
async def one_byte_more(served):
    await is_too_long(served, padded(put(2, "/a", 6), MOST - HEAD + 1))


@case("a text of 130 MiB ends the connection, and the next client is served", "--count", "2")
async def too_long(served):
    await is_too_long(served, padded(put(2, "/a", 6), 130 * MIB))


@case("a text of 130 MiB in fragments does so too", "--count", "2")
async def too_long_in_fragments(served):
    await is_too_long(served, parts(padded(put(2, "/a", 6), 130 * MIB), MIB))
