"""What ./check asks of `emulate` about who is connected and what each listens to: who is told, when, how it is written, and what of a slow one."""
import contextlib
import fcntl
import http.client
import json
import os
import signal
import socket
import struct
import termios
import time
import types

from cutting import must
from emulating import LISTEN, Emulator, answered, asked, data, drop, head, ok, put, say, wrong_in
from frames import PING, PONG, SECONDS, TEXT, Client, compact
from leaving import resets

MOST = 1_048_576  # bytes of a text that says who is connected
PAGE = "http://localhost:3000"


def asker(port, origin=None):
    """A client that asks who is connected, as one of that page or of none."""
    return Client(port, target=b"/?clients", fields=f"Origin: {origin}\r\n".encode() if origin else b"")


def frame_of(stream):
    """The next frame: its first byte, and what is in it."""
    first, length = struct.unpack("!BB", stream.read(2))
    length = struct.unpack("!H", stream.read(2))[0] if length == 126 else length
    length = struct.unpack("!Q", stream.read(8))[0] if length == 127 else length
    return first, stream.read(length)


def said(client):
    """The next text, as it was sent. A ping before it, as one is sent that was silent for long, is answered."""
    while (it := frame_of(client.stream)) == (PING, b""):
        client.frame(PONG, b"")
    must("what it is", it[0], TEXT)
    return it[1].decode()


def one(number, client, *listens, **more):
    """What is told of a client."""
    host, port = client.socket.getsockname()[:2]
    return {"from": f"{host}:{port}", "listens": list(listens), "n": number, **more}


def all_of(*clients):
    return compact({"clients": list(clients), "k": "clients"})


def listens_long(client, tag):
    """It listens by that tag to a query of 60,000 bytes: of 18 such the text is too long, and of 12 it is not."""
    must("a long listen", asked(client, {**LISTEN, "q": {"lower": ["y" * 60_000, "min"], "order": "/x"}, "tag": tag}), data("/a", None, tag))


def is_there(stream):
    """One that reads nothing for long says that it is there: else it is sent a ping, and ended."""
    stream.sendall(head(PONG, 0))


def told(what, client, *clients):
    must(what, said(client), all_of(*clients))


def is_silent(client):
    """A ping is answered, and nothing comes before that."""
    client.frame(PING, b"hi")
    must("what comes before a pong", client.stream.read(4), b"\x8a\x02hi")


def who_asks_is_told(program, _room):
    """Each change of who is connected and of what one listens to is told at once, by numbers and by tags, and nothing else is."""
    with Emulator(program, "--deny", "/s") as it:
        first = asker(it.port, PAGE)
        me = one(1, first, asks=True, origin=PAGE)
        told("the first text", first, me)
        other = Client(it.port)
        told("another comes", first, me, one(2, other))
        must("a listen", other.ask({**LISTEN, "tag": 7}, 1), [data("/a", None, 7)])
        listen = {**LISTEN, "tag": 7}
        told("that listen", first, me, one(2, other, listen))
        query = {"k": "listen", "path": "/b/\"c\\", "q": {"limit": ["last", 2], "lower": [5, "min"], "order": "/x"}, "tag": 2}
        must("a query", other.ask(query, 1), [data("/b/\"c\\", None, 2)])
        told("that query, which has the less tag", first, me, one(2, other, query, listen))
        must("what shows nothing there", other.ask(put(1, "/a/x", 1), 2), [data("/a/x", 1, 7), ok(1)])
        for message in ({"k": "hello", "version": 2}, "no message", put(2, "/s", 1), {**LISTEN, "path": "/s", "tag": 9}):
            say(other, message)
        must("what is refused", [other.text()[1]["k"] for _ in range(2)], ["no", "revoke"])
        must("what is read by plain HTTP", fetched(it.port, "/a/x.json"), (200, b"1"))
        other.ask({"k": "unlisten", "tag": 7}, 0)
        told("an end of a listen, behind all that", first, me, one(2, other, query))
        must("another query of its tag", other.ask({**LISTEN, "tag": 2}, 1), [data("/a", {"x": 1}, 2)])
        told("that in its place", first, me, one(2, other, {**LISTEN, "tag": 2}))
        is_silent(other)
        resets(other)
        told("the other goes", first, me)
        third = Client(it.port, fields=b"oRIGIN: https://[::1]:80\r\n")
        told("its number is another's", first, me, one(2, third, origin="https://[::1]:80"))
        second = asker(it.port)
        both = (me, one(2, third, origin="https://[::1]:80"), one(3, second, asks=True))
        told("another asks", first, *both)
        told("and is told the same", second, *both)
        must("a close", first.close(), b"\x88\x00")
        told("the first goes", second, *both[1:])
        must("how it ends", it.end(), (0, b""))


@contextlib.contextmanager
def halted(it):
    """Meanwhile an emulator stands still, as one that has no processor: what comes is there at once when it goes on."""
    os.kill(it.ran.pid, signal.SIGSTOP)
    os.waitid(os.P_PID, it.ran.pid, os.WSTOPPED)
    try:
        yield
    finally:
        os.kill(it.ran.pid, signal.SIGCONT)


def arrives(client):
    """Waits until what a client has sent stands at the other end, whether that reads it or not."""
    until = time.monotonic() + SECONDS
    while any(fcntl.ioctl(client.socket, termios.TIOCOUTQ, bytes(4))):
        must("whether what is sent arrives", time.monotonic() < until, True)
        time.sleep(0.001)


def comer(port):
    """A client that has connected, and has said nothing yet."""
    it = socket.create_connection(("127.0.0.1", port), timeout=SECONDS)
    return types.SimpleNamespace(socket=it, stream=it.makefile("rb"))


def shakes(client, target):
    """Sends the whole handshake of one that has connected, and waits until it is there."""
    fields = "Host: x\r\nUpgrade: websocket\r\nConnection: Upgrade\r\nSec-WebSocket-Version: 13\r\nSec-WebSocket-Key: dGhlIHNhbXBsZSBub25jZQ==\r\n\r\n"
    client.socket.sendall(f"GET {target} HTTP/1.1\r\n{fields}".encode())
    arrives(client)


def has_shaken(client):
    """Reads what answers a handshake."""
    must("a handshake", client.stream.readline()[:12], b"HTTP/1.1 101")
    while client.stream.readline() not in (b"\r\n", b""):
        pass


def who_asks_stands_in_what_it_is_told(program, _room):
    """One that asks is told first what is so once it has come, also where it and others come at once; and no message of others holds that up."""
    with Emulator(program) as it:
        first = asker(it.port)
        me = one(1, first, asks=True)
        told("the first text", first, me)
        second, other = comer(it.port), Client(it.port)  # the other's handshake is done, so both were let in
        told("another comes", first, me, one(2, other))
        with halted(it):
            shakes(second, "/?clients")
            fourth = comer(it.port)
            shakes(fourth, "/")
        has_shaken(second)
        now = [me, one(2, other), one(3, second, asks=True), one(4, fourth)]
        told("what the second is told first", second, *now)
        told("two come", first, *now)
        listens = [{**LISTEN, "tag": tag} for tag in range(1, 201)]  # more than are taken in one turn
        with halted(it):
            other.send_all([compact(it) for it in listens])
            arrives(other)
            last = comer(it.port)
            shakes(last, "/?clients")
        has_shaken(last)
        shown = json.loads(said(last))["clients"]
        must("those that the last is told of first", [it["n"] for it in shown], [1, 2, 3, 4, 5])
        must("whether it is told before all messages of another are taken", len(shown[1]["listens"]) < len(listens), True)
        while shown[1]["listens"] != listens:
            shown = json.loads(said(last))["clients"]
        must("how it ends", it.end(), (0, b""))


def fetched(port, target, **fields):
    it = http.client.HTTPConnection("127.0.0.1", port, timeout=SECONDS)
    it.request("GET", target, headers=fields)
    answer = it.getresponse()
    text = answer.read()
    it.close()
    return answer.status, text


def foreign_pages_are_not_told(program, _room):
    """A page of another machine is told nothing; and neither is who asks otherwise than by a handshake of that address."""
    with Emulator(program) as it:
        with socket.create_connection(("127.0.0.1", it.port), timeout=SECONDS) as stream:
            must("a foreign page", answered(stream, "http://evil.example", target="/?clients"), b"HTTP/1.1 403")
        must("plain HTTP", fetched(it.port, "/?clients")[0], 404)
        others = [Client(it.port, target=target) for target in (b"/", b"/?client", b"/?clients=1", b"/a?clients", b"/?a&clients")]
        for other in others:
            is_silent(other)
        must("how it ends", it.end(), (0, b""))


def who_asks_later_is_told_all(program, _room):
    """While nobody asks, nothing is told; who asks then is told what is so."""
    with Emulator(program) as it:
        other = Client(it.port)
        must("a listen", other.ask(LISTEN, 1), [data("/a", None)])
        for number in (2, 2):
            now = asker(it.port)
            told("what is so", now, one(1, other, LISTEN), one(number, now, asks=True))
            resets(now)
            it.tells("connection 2 ends")
            is_silent(other)
            it.saying.lines.clear()
        must("a listen", other.ask({**LISTEN, "path": "/b", "tag": 2}, 1), [data("/b", None, 2)])
        now = asker(it.port)
        told("what is so then", now, one(1, other, LISTEN, {**LISTEN, "path": "/b", "tag": 2}), one(2, now, asks=True))
        must("how it ends", it.end(), (0, b""))


def long_texts_name_nobody(program, _room):
    """Where the text would be too long it names nobody, and goes on once it is shorter; who asks then is told so too."""
    with Emulator(program) as it:
        first, other = asker(it.port), Client(it.port)
        me = one(1, first, asks=True)
        for tag in range(1, 19):
            listens_long(other, tag)
            is_there(first.socket)
        nobody = compact({"clients": None, "k": "clients"})
        until = time.monotonic() + SECONDS
        while (last := said(first)) != nobody and time.monotonic() < until:
            must("whether it is short enough", len(last) <= MOST, True)
        must("what is told of too much", last, nobody)
        second = asker(it.port)
        must("what another is told", said(second), nobody)
        drop(second)
        resets(other)
        until = time.monotonic() + SECONDS
        while (last := said(first)) != all_of(me) and time.monotonic() < until:
            pass
        must("what is told once it is gone", last, all_of(me))
        must("how it ends", it.end(), (0, b""))


def slow_ones_are_told_the_newest(program, _room):
    """One that reads nothing is told little of many changes, and the newest once it reads; meanwhile the others are served."""
    with Emulator(program) as it:
        other = Client(it.port)
        for tag in range(1, 13):
            listens_long(other, tag)
        slow = socket.socket()  # from now on a text is so long that the system takes few of them that nobody reads
        slow.setsockopt(socket.SOL_SOCKET, socket.SO_RCVBUF, 4096)
        slow.settimeout(SECONDS)
        slow.connect(("127.0.0.1", it.port))
        must("its handshake", answered(slow, target="/?clients"), b"HTTP/1.1 101")
        worst = 0
        for tag in range(13, 53):
            began = time.monotonic()
            must("a listen", other.ask({**LISTEN, "tag": tag}, 1), [data("/a", None, tag)])
            worst = max(worst, time.monotonic() - began)
            is_there(slow)
        must("whether none of them waited for the slow one", worst < 10, True)
        read = slow.makefile("rb")
        while read.readline() != b"\r\n":
            pass
        count, last = 0, ""
        while '"tag":52}' not in last:
            count, last = count + 1, frame_of(read)[1].decode()
        must("whether it was told few", count < 20, True)
        read.close()
        slow.close()
        must("how it ends", it.end(), (0, b""))


SESSIONS = [
    who_asks_is_told,
    who_asks_stands_in_what_it_is_told,
    foreign_pages_are_not_told,
    who_asks_later_is_told_all,
    long_texts_name_nobody,
    slow_ones_are_told_the_newest,
]


def wrong_of(programs, room):
    """What is wrong with these builds of the program, and how many sessions there were."""
    wrong = [wrong_in(session, program, room) for program in programs for session in SESSIONS]
    return [it for it in wrong if it], len(SESSIONS) * len(programs)
