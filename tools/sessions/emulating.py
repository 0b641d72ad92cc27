"""What ./check asks of `emulate`: many clients at once, what each is sent, who is ended and why, and the tree's file."""
import calendar
import json
import os
import re
import resource
import signal
import socket
import struct
import subprocess
import sys
import tempfile
import threading
import time

from cutting import Saying, Wrong, begun, ended, must
from frames import BINARY, CLOSE, CLOSED, FIRST_PART, PART, PING, PONG, SECONDS, TEXT, Client, compact, free_port
from leaving import closes, half_closes, resets
from lines import ROW, ROW_OUT
from serving import BROKEN, hello, merge, push, told_apart
from session import stop

LISTEN = {"k": "listen", "path": "/a", "tag": 1}
MOST = 16_777_216  # the bytes that may wait for a connection, and those of a message


HELD = os.path.join(os.path.dirname(os.path.dirname(os.path.realpath(__file__))), "held.py")


class Emulator:
    """A program that emulates, once it says that it listens. Its standard input is open until `end`, which ends it. One that is told by a signal to
    stop has no input, and is begun as ./kaltewi begins it."""

    def __init__(self, program, *words, files=None, by_signal=False, at="127.0.0.1", env=None):
        self.port = free_port()

        def begin():
            signal.signal(signal.SIGINT, signal.SIG_DFL)  # which whoever runs this may ignore
            if files:
                resource.setrlimit(resource.RLIMIT_NOFILE, (files, files))

        pipes = {"stdin": subprocess.DEVNULL if by_signal else subprocess.PIPE, "stdout": subprocess.PIPE, "stderr": subprocess.PIPE}
        pipes["env"] = {**os.environ, **(env or {})}
        how = [sys.executable, "-B", HELD, program] if by_signal else [program]
        end = [] if by_signal else ["--until-eof"]
        self.ran = subprocess.Popen([*how, "emulate", str(self.port), *end, *words], preexec_fn=begin, **pipes)
        self.saying, self.ran.stderr = Saying(self.ran.stderr, self.port, at), None
        self.saying.start()
        self.listens = self.saying.is_known.wait(SECONDS) and self.saying.listens

    def __enter__(self):
        if not self.listens:
            stop(self.ran)
            raise Wrong(f"emulate doesn't listen: {self.saying.lines}")
        return self

    def __exit__(self, *_):
        stop(self.ran)

    def ended(self):
        """How it ends by itself: its status and what it prints."""
        out = self.ran.stdout.read()
        status = self.ran.wait(SECONDS)
        self.saying.join(SECONDS)
        return status, out

    def end(self):
        """Ends its standard input, and answers how it ends."""
        self.ran.stdin.close()
        self.ran.stdin = None
        return self.ended()

    def told(self):
        return [it.decode(errors="replace").removeprefix("kaltewi: ").rstrip("\n") for it in self.saying.lines]

    def tells(self, *parts, seconds=SECONDS):
        """Waits until it tells a line that has all of these in it."""
        until = time.monotonic() + seconds
        while time.monotonic() < until:
            if any(all(part in line for part in parts) for line in self.told()):
                return
            time.sleep(0.01)
        raise Wrong(f"no line has {parts}: {self.told()[-8:]}")


def data(path, value, tag=1):
    return (TEXT, {"k": "data", "path": path, "tag": tag, "value": value})


def ok(number):
    return (TEXT, {"id": number, "k": "ok"})


def no(number, why):
    return (TEXT, {"id": number, "k": "no", "why": why})


def put(number, path, value):
    return {"id": number, "k": "put", "path": path, "value": value}


def say(client, message):
    """Sends a message of any length, masked by zeros."""
    text = (message if isinstance(message, str) else compact(message)).encode()
    client.socket.sendall(head(TEXT, len(text)) + text)


def head(first, length):
    """The head of a frame that is masked by zeros."""
    if length < 126:
        return bytes([first, 0x80 | length]) + bytes(4)
    if length < 65536:
        return struct.pack("!BBH", first, 0x80 | 126, length) + bytes(4)
    return struct.pack("!BBQ", first, 0x80 | 127, length) + bytes(4)


def drop(client):
    client.stream.close()
    client.socket.close()


def shown(port, path="/"):
    """What a new client is shown at a path."""
    client = Client(port)
    say(client, {"k": "listen", "path": path, "tag": 1})
    found = client.text()[1]["value"]
    drop(client)
    return found


def ticks(pid):
    """How much of the processor's time a program has taken, in hundredths of a second or so."""
    with open(f"/proc/{pid}/stat", encoding="utf-8") as it:
        return sum(map(int, it.read().rsplit(")", 1)[1].split()[11:13]))


# ---- each session


def clients_see_each_other(program, _room):
    """What one writes is sent to all that listen there, and what one asked for at its end is done when it goes."""
    with Emulator(program, "--tree", '{"a":{"x":1}}') as it:
        one, two = Client(it.port), Client(it.port)
        must("the first listen", one.ask(LISTEN, 1), [data("/a", {"x": 1})])
        must("the second listen", two.ask(LISTEN, 1), [data("/a", {"x": 1})])
        must("a write, to who wrote", two.ask(put(1, "/a/y", 2), 2), [data("/a/y", 2), ok(1)])
        must("a write, to the other", one.text(), data("/a/y", 2))
        must("what is asked for the end", two.ask({"id": 2, "k": "od-put", "path": "/a/y", "value": "gone"}, 1), [ok(2)])
        resets(two)
        must("what the other's end does", one.text(), data("/a/y", "gone"))
        must("a close", one.close(), CLOSED)
        it.tells("connection 1 ends: the client closed it")
        must("how it ends", it.end(), (0, b""))
        for part in ("connection 1 begins, from 127.0.0.1:", '{"k":"listen","path":"/a","tag":1}', '"path":"/a/y"', "connection 2 ends: "):
            it.tells(part, seconds=1)


def strays_are_told(program, _room):
    """What is no message is passed over and told with its code, and a refusal is told, and nothing else that is sent."""
    with Emulator(program, "--deny", "/s", "--deny", "/t") as it:
        client = Client(it.port)
        client.frame(TEXT, b"x")
        client.frame(BINARY, b"x")
        client.frame(PING, b"hi")
        must("a ping", client.stream.read(4), b"\x8a\x02hi")
        must("a denied write", client.ask(put(1234, "/s/x", 1), 1), [(TEXT, {"id": 1234, "k": "no", "why": "denied"})])
        must("a denied listen", client.ask({**LISTEN, "path": "/t"}, 1), [(TEXT, {"k": "revoke", "tag": 1, "why": "denied"})])
        long = put(2, "/a", "y" * 65_537)
        say(client, long)
        must("a text that is too long", [client.text()], [no(2, "bad value: a text must have at most 65536 bytes")])
        must("a write behind one that can't be taken", client.ask(put(3, "/a", 1), 1), [ok(3)])
        client.frame(CLOSE, b"\x0f\xa0bye")
        must("a close with a code", client.stream.read(), b"\x88\x05\x0f\xa0bye")
        it.tells("connection 1 ends: the client closed it with 4000")
        must("how it ends", it.end(), (0, b""))
        shown = 'passed over: 4 BadTree: {"id":2,"k":"put","path":"/a","value":"yyy'
        for part in ("passed over: 1 NotJson: x", "a binary message is passed over", shown, '"k":"no"', '"k":"revoke"'):
            it.tells("connection 1", part, seconds=1)
        must("how many messages to it are told", sum("is sent" in line for line in it.told()), 3)


# what can't be taken, and what is said of it, or nothing
KEY = "a key must have at least one byte, and no control character and none of . $ # [ ] /"
WHOLE = "a number must be whole, from -9007199254740991 to 9007199254740991"
ANSWERED = [
    (put(1, "/a/y", 1.5), f"bad value: {WHOLE}"),
    (put(2, "/a/y", {"x": {"z": 9_007_199_254_740_992}}), f"bad value: {WHOLE}"),
    ({"id": 3, "k": "od-put", "path": "/a", "value": {"b": {"c.d": 1}}}, f"bad value: {KEY}"),
    (put(4, "/a", {"k" * 769: 1}), "bad value: a key must have at most 768 bytes"),
    (put(5, "/a#", 1.5), f"bad path: {KEY}"),
    (put(6, "/a" * 33, 1), "bad path: a path must have at most 32 keys, and no value may stand deeper"),
    (put(7, 7, 1), "bad path: it must be a text"),
    ({"id": 8, "k": "put", "path": "/a"}, "bad value: there must be one"),
    ({"id": 9, "k": "merge", "entries": {"/a": 1.5, "/b$": 1}}, f"bad entries: {KEY}"),
    ({"id": 10, "k": "od-merge", "entries": {"/a": 1, "/b": [0.5]}}, f"bad entries: {WHOLE}"),
    ({"id": 11, "k": "merge", "entries": []}, "bad entries: it must be an object with a member"),
    ({"id": 12, "k": "od-cancel", "path": "/a]"}, f"bad path: {KEY}"),
    (put(13, "/a", list(range(65_536))), "bad value: a value must have at most 65536 values in it"),
]
UNANSWERED = [
    {"id": 1, "k": "putt", "path": "/a", "value": 1.5},
    {"id": 0, "k": "put", "path": "/a", "value": 1.5},
    {"id": 1.5, "k": "put", "path": "/a", "value": 1.5},
    {"k": "put", "path": "/a", "value": 1.5},
    {"k": "listen", "path": 1, "tag": 1},
    {"k": "hello", "version": 0},
    '{"id":1,"k":"put","path":"/a","value":1.5',
]


def bad_requests_are_answered(program, _room):
    """A request that can't be taken is answered with what is wrong and where, in order; what is none is passed over, and nothing changes."""
    with Emulator(program, "--tree", '{"a":1}') as it:
        client, other = Client(it.port), Client(it.port)
        must("a listen", other.ask(LISTEN, 1), [data("/a", 1)])
        for text, why in ANSWERED:
            say(client, text)
            must(f"the answer to {compact(text)[:80]}", client.text(), no(text["id"], why))
        for text in UNANSWERED:
            say(client, text)
        for text, _ in ANSWERED[:4]:
            say(client, text)
        must("answers behind what is passed over", [client.text() for _ in range(4)], [no(text["id"], why) for text, why in ANSWERED[:4]])
        must("a write behind them", client.ask(put(14, "/a", 2), 1), [ok(14)])
        must("what another is sent of all that", other.text(), data("/a", 2))
        must("how it ends", it.end(), (0, b""))


def versions_are_kept_apart(program, _room):
    """What a write brings to two listens is one push for a client of version 2, and comes apart for one of version 1, also at an end."""
    with Emulator(program) as it:
        two, one, other = (Client(it.port) for _ in range(3))
        must("what answers a version", two.ask(hello(2), 0), [])
        for client in (two, one):
            must("a listen", client.ask(LISTEN, 1), [data("/a", None)])
            must("another listen", client.ask({**LISTEN, "path": "/b", "tag": 2}, 1), [data("/b", None, 2)])
        must("a write on both", other.ask(merge(1, 1, 2), 1), [ok(1)])
        must("what version 2 is sent", two.text(), push((1, {"/a/x": 1}), (2, {"/b": 2})))
        must("what version 1 is sent", [one.text(), one.text()], told_apart(1, 2))
        must("what is asked for the end", other.ask({**merge(2, 3, 4), "k": "od-merge"}, 1), [ok(2)])
        resets(other)
        must("what version 2 is sent of the end", two.text(), push((1, {"/a/x": 3}), (2, {"/b": 4})))
        must("what version 1 is sent of the end", [one.text(), one.text()], told_apart(3, 4))
        must("how it ends", it.end(), (0, b""))


def broken_ones_are_told_why(program, _room):
    """A client that breaks the protocol is told so by the code of a close, and the others go on."""
    with Emulator(program) as it:
        other = Client(it.port)
        for what, (frame, code) in BROKEN.items():
            client = Client(it.port)
            client.socket.sendall(frame)
            must(what, client.stream.read(), bytes([CLOSE, 2]) + code.to_bytes(2, "big"))
            drop(client)
            it.tells(f"it is closed with {code}")
            must("another's write then", other.ask(put(1, "/a", 1), 1), [ok(1)])
        client = Client(it.port)
        client.socket.sendall(head(TEXT, MOST + 1))
        must("a message that is too long", client.stream.read(), b"\x88\x02\x03\xf1")
        must("how it ends", it.end(), (0, b""))
        must("what the others are sent at its end", other.stream.read(), b"\x88\x02\x03\xe9")


def answered(stream, *origins, target="/"):
    """How the answer to a handshake begins that asks for that target and names these origins."""
    lines = [f"GET {target} HTTP/1.1", "Host: x", "Upgrade: websocket", "Connection: Upgrade", "Sec-WebSocket-Version: 13"]
    lines += ["Sec-WebSocket-Key: dGhlIHNhbXBsZSBub25jZQ==", *(f"Origin: {origin}" for origin in origins), "", ""]
    stream.sendall("\r\n".join(lines).encode())
    return stream.recv(12)


def origins_are_asked_for(program, _room):
    """A page of another machine may connect only where it is allowed."""
    may = ["http://localhost", "http://localhost:3000", "http://127.0.0.1", "https://127.0.0.1:8443", "http://[::1]:80", "https://app.example"]
    may_not = ["http://evil.example", "http://localhost.evil.example", "http://127.0.0.10", "http://localhost:", "http://localhost:80x"]
    may_not += ["file://localhost", "ftp://localhost", "", "https://app.example:1"]
    with Emulator(program, "--origin", "https://app.example", "--origin", "null") as it:
        wanted = [([it], 101) for it in [*may, "null"]] + [([it], 403) for it in may_not]
        # two of them make no head of a request
        for origins, status in [*wanted, ([], 101), (["http://localhost", "https://app.example"], 400)]:
            with socket.create_connection(("127.0.0.1", it.port), timeout=SECONDS) as stream:
                must(f"a page of {origins}", answered(stream, *origins), b"HTTP/1.1 %d" % status)
        it.tells("is no WebSocket: a page of http://evil.example may not connect")
        must("how it ends", it.end(), (0, b""))
    with Emulator(program) as it, socket.create_connection(("127.0.0.1", it.port), timeout=SECONDS) as stream:
        must("a page of no place", answered(stream, "null"), b"HTTP/1.1 403")


OTHER_PROTOCOL = "a Firebase SDK speaks another protocol than this server, which speaks that of docs/FORMATS.md"


def has_ipv6():
    """Whether this machine has the address ::1."""
    try:
        with socket.socket(socket.AF_INET6) as it:
            it.bind(("::1", 0))
        return True
    except OSError:
        return False


def it_listens_at_other_addresses(program, _room):
    """At another address it serves too, also of IPv6, and says what that means; who may connect is as ever."""
    for host, warns in ((("::1", False),) if has_ipv6() else ()) + (("0.0.0.0", True), ("127.0.0.2", False)):
        with Emulator(program, "--host", host, at=f"[{host}]" if ":" in host else host) as it:
            with socket.create_connection(("127.0.0.1" if warns else host, it.port), timeout=SECONDS) as stream:
                must(f"a page of this machine at {host}", answered(stream, "http://localhost:3000"), b"HTTP/1.1 101")
            with socket.create_connection(("127.0.0.1" if warns else host, it.port), timeout=SECONDS) as stream:
                must(f"a page of another machine at {host}", answered(stream, "http://evil.example"), b"HTTP/1.1 403")
            must("how it ends", it.end(), (0, b""))
        must(f"whether it warns at {host}", any("there is no login, and no TLS" in line for line in it.told()), warns)


def sdks_are_refused(program, _room):
    """The handshake of a Firebase SDK is refused at once, with one line that says why; another at the same path is not."""
    sdks = ["/.ws?v=5&ns=demo-default-rtdb", "/.ws?ls=ab&p=1:2:web:3&v=5", "/.ws?ns=demo"]
    others = ["/.ws", "/.ws?v=55", "/?v=5&ns=demo"]
    with Emulator(program) as it:
        for target, status in [*((target, 400) for target in sdks), *((target, 101) for target in others)]:
            with socket.create_connection(("127.0.0.1", it.port), timeout=SECONDS) as stream:
                must(f"a handshake at {target}", answered(stream, target=target), b"HTTP/1.1 %d" % status)
                if status == 400:
                    rest = b"".join(iter(lambda: stream.recv(4096), b""))
                    must(f"the last line of its answer, and its end, at {target}", rest.split(b"\r\n\r\n")[-1].decode(), OTHER_PROTOCOL)
        it.tells(f"is no WebSocket: {OTHER_PROTOCOL}")
        must("how it ends", it.end(), (0, b""))
    must("how many lines say so", sum(OTHER_PROTOCOL in line for line in it.told()), len(sdks))


def writers_that_go_are_heard(program, _room):
    """All that a client wrote before it went is taken, however it goes."""
    with Emulator(program) as it:
        for goes in (closes, resets, half_closes):
            client = Client(it.port)
            client.send_all([compact(put(n + 1, f"/{goes.__name__}/k{n}", n)) for n in range(200)])
            goes(client)
            it.tells("connection 1 ends: ")
            it.saying.lines.clear()
            must(f"what one leaves that {goes.__name__}", len(shown(it.port, f"/{goes.__name__}")), 200)
            it.tells("connection 1 ends: ")
            it.saying.lines.clear()
        must("how it ends", it.end(), (0, b""))


def slow_ones_are_ended(program, _room):
    """A client that doesn't read is ended, and holds nobody up."""
    with Emulator(program) as it:
        slow, fast = Client(it.port), Client(it.port)
        slow.socket.setsockopt(socket.SOL_SOCKET, socket.SO_RCVBUF, 4096)
        slow.ask(LISTEN, 1)
        worst, filler = 0, "y" * 60_000
        for number in range(1, 1_001):
            begun = time.monotonic()
            must("an answer beside a slow one", asked(fast, put(number, "/a/x", f"{number}{filler}")), ok(number))
            worst = max(worst, time.monotonic() - begun)
            if any("connection 1 ends: it is too slow" in line for line in it.told()):
                break
        it.tells("connection 1 ends: it is too slow", seconds=5)
        if worst > 2:
            raise Wrong(f"a slow client held another up for {worst:.1f} s")
        must("how it ends", it.end(), (0, b""))


def slowest_are_ended(program, _room, count=11):
    """While more waits for all clients than may, those for which the most waits are ended, and one that reads gets all."""
    with Emulator(program) as it:
        slow, large = [Client(it.port) for _ in range(count)], {f"k{n}": "y" * 60_000 for n in range(50)}
        for one in slow:
            one.socket.setsockopt(socket.SOL_SOCKET, socket.SO_RCVBUF, 4096)
            one.ask(LISTEN, 1)
        fast, writer, gone = Client(it.port), Client(it.port), []
        fast.ask(LISTEN, 1)
        for number in range(1, 41):
            value = {**large, "number": number}
            must("an answer beside slow ones", asked(writer, put(number, "/a/x", value)), ok(number))
            must("what one that reads is sent", fast.text() == data("/a/x", value), True)
            gone = [int(it) for it in re.findall(r"connection (\d+) ends: it is the slowest", "\n".join(it.told()))]
            if gone:
                break
        must("whether some that don't read are ended, and no other", 0 < len(gone) < count and max(gone) <= count, True)
        must("a write then", asked(writer, put(41, "/a/x", 1)), ok(41))
        must("what one that reads is sent then", fast.text(), data("/a/x", 1))
        must("how it ends", it.end(), (0, b""))


def asked(client, message):
    """Sends a message, and answers the next text."""
    say(client, message)
    return client.text()


def too_many_listens_are_refused(program, _room, most=131_072):
    """A client with one listen more than it may have is told so by a close with 1008 and a reason, and others go on."""
    with Emulator(program) as it:
        greedy, other = Client(it.port), Client(it.port)
        asks = [compact({"k": "listen", "path": "/a", "tag": n + 1}) for n in range(most + 1)]
        asking = threading.Thread(target=greedy.send_all, args=(asks,))
        asking.start()
        told = greedy.stream.read()
        asking.join(SECONDS)
        must("how it is told", told[-28:], b"\x88\x1a\x03\xf0more than 131072 listens")
        must("how many listens are answered before", told.count(b'"k":"data"'), most)
        it.tells("connection 1 ends: it has more than 131072 listens; it is closed with 1008")
        must("another's write then", asked(other, put(1, "/a", 1)), ok(1))
        must("how it ends", it.end(), (0, b""))


def trees_too_long_are_refused(program, _room):
    """A write that makes the tree's text longer than one that is sent is refused, and changes nothing. What a client asked for its end may make it so:
    then a listen that shows it all is revoked, and one that shows a part is not."""
    why = "a tree of more than 67108864 bytes"
    part, gone = {f"k{n}": "y" * 65_000 for n in range(249)}, (TEXT, {"k": "revoke", "tag": 1, "why": why})
    with Emulator(program) as it:
        one, other = Client(it.port), Client(it.port)
        for number in range(1, 5):
            must("a write of 16 MB", asked(one, put(number, f"/p{number}", part)), ok(number))
        must("one too many", asked(one, put(5, "/p5", part)), no(5, why))
        must("one in the place of another", asked(one, put(6, "/p1", {**part, "k0": "z"})), ok(6))
        must("a short one", asked(one, put(7, "/p5", 1)), ok(7))
        must("a listen to come", asked(one, {"k": "listen", "path": "/p5/k0", "tag": 2}), data("/p5/k0", None, 2))
        must("one for the end", asked(other, {**put(1, "/p5", part), "k": "od-put"}), ok(1))
        resets(other)
        must("what the end writes", one.text(), data("/p5/k0", part["k0"], 2))
        must("a listen to all", asked(one, {**LISTEN, "path": "/"}), gone)
        must("a listen to a part", asked(one, {**LISTEN, "path": "/p1/k0"}), data("/p1/k0", "z"))
        must("a short one then", asked(one, put(8, "/p6", 1)), no(8, why))
        must("what the end of a part takes out", asked(one, put(9, "/p5", None)), data("/p5/k0", None, 2))
        must("the end of a part", one.text(), ok(9))
        must("a short one at last", asked(one, put(10, "/p6", 1)), ok(10))
        must("how it ends", it.end(), (0, b""))


def ends_take_turns(program, _room, count=30_000):
    """What a client asked for its end is done in turns and in order: others are served between, and one that reads it all is not too slow."""
    with Emulator(program) as it:
        goes, hears, other = Client(it.port), Client(it.port), Client(it.port)
        must("a listen", hears.ask(LISTEN, 1), [data("/a", None)])
        asking = threading.Thread(target=goes.send_all, args=([compact({**put(n + 1, f"/a/k{n}", n), "k": "od-put"}) for n in range(count)],))
        asking.start()
        for number in range(1, count + 1):
            must("what is asked for the end", goes.text(), ok(number))
        asking.join(SECONDS)
        heard = []

        def hear():
            heard.extend(hears.text() for _ in range(count))

        hearing, worst, asks = threading.Thread(target=hear, daemon=True), 0, 0
        hearing.start()
        resets(goes)
        while hearing.is_alive() and asks < 10_000:
            begun, asks = time.monotonic(), asks + 1
            must("an answer beside an end", asked(other, put(asks, "/b", asks)), ok(asks))
            worst = max(worst, time.monotonic() - begun)
        hearing.join(SECONDS)
        must("what a listener is sent of the end", heard == [data(f"/a/k{n}", n) for n in range(count)], True)
        if worst > 0.5:
            raise Wrong(f"an end held another up for {worst:.1f} s")
        must("how it ends", it.end(), (0, b""))


def floods_hold_nobody_up(program, _room):
    """A client that sends empty fragments without end holds nobody up."""
    with Emulator(program) as it:
        flood, other = Client(it.port), Client(it.port)
        ends, empty = threading.Event(), head(PART, 0) * 20_000

        def pour():
            try:
                flood.socket.sendall(head(FIRST_PART, 0))
                while not ends.is_set():
                    flood.socket.sendall(empty)
            except OSError:
                pass

        pouring = threading.Thread(target=pour, daemon=True)
        pouring.start()
        worst = 0
        for number in range(1, 101):
            begun = time.monotonic()
            must("an answer beside a flood", asked(other, put(number, "/b", number)), ok(number))
            worst = max(worst, time.monotonic() - begun)
        ends.set()
        flood.socket.shutdown(socket.SHUT_RDWR)
        pouring.join(SECONDS)
        if worst > 2:
            raise Wrong(f"a flood held another up for {worst:.1f} s")
        must("how it ends", it.end(), (0, b""))


def silent_ones_are_ended(program, _room):
    """One that shakes no hands is ended after 10 seconds; one that says nothing is sent a ping after 30, and ended 30 later; one that
    answers the ping stays. The first is none of the connections that have gone. Between all this the program sleeps."""
    with Emulator(program, "--count", "2") as it:
        begun = time.monotonic()
        hanging = socket.create_connection(("127.0.0.1", it.port), timeout=90)
        hanging.sendall(b"GET / HTTP/1.1\r\n")
        silent, alive = Client(it.port), Client(it.port)
        silent.socket.settimeout(90)
        alive.socket.settimeout(90)
        must("what comes of a hanging handshake", hanging.recv(1), b"")
        if not 9 < time.monotonic() - begun < 20:
            raise Wrong(f"a hanging handshake was ended after {time.monotonic() - begun:.1f} s")
        it.tells("is no WebSocket: no handshake in 10000 ms")
        must("what a silent one is sent", silent.stream.read(2), bytes([PING, 0]))
        if not 29 < time.monotonic() - begun < 45:
            raise Wrong(f"a silent client was sent a ping after {time.monotonic() - begun:.1f} s")
        must("what another is sent", alive.stream.read(2), bytes([PING, 0]))
        alive.frame(PONG, b"")
        must("what comes of one that answers no ping", silent.stream.read(), b"")
        if not 55 < time.monotonic() - begun < 75:
            raise Wrong(f"a silent client was ended after {time.monotonic() - begun:.1f} s")
        it.tells("ends: nothing is heard of it")
        say(alive, put(1, "/a", 1))
        while alive.stream.peek(1)[:1] == bytes([PING]):  # the next one is due by then
            alive.stream.read(2)
        must("a write of one that answered", alive.text(), ok(1))
        if ticks(it.ran.pid) > 100:
            raise Wrong(f"an emulator of silent clients has taken {ticks(it.ran.pid)} ticks in a minute")
        must("a close", alive.close()[-len(CLOSED) :], CLOSED)
        must("how it ends with the second that has gone", it.ended(), (0, b""))


def descriptors_come_back(program, _room):
    """Where no descriptor is left, those that wait are let in once others go."""
    with Emulator(program, files=24) as it:
        clients = [socket.create_connection(("127.0.0.1", it.port), timeout=SECONDS) for _ in range(40)]
        it.tells("no connection can be accepted for now")
        for client in clients:
            client.close()
        must("a write then", asked(Client(it.port), put(1, "/a", 1)), ok(1))
        must("how it ends", it.end(), (0, b""))


def file_is_kept(program, room):
    """The tree is written at the end, and read again, also where it is large or the process is killed."""
    file = f"{room}/tree.json"
    with Emulator(program, "--file", file, "--tree", '{"first":1}') as it:
        client = Client(it.port)
        must("a write", asked(client, put(1, "/a", 5)), ok(1))
        must("what is asked for the end", asked(client, {"id": 2, "k": "od-put", "path": "/end", "value": True}), ok(2))
        must("a write then", asked(client, put(3, "/a", 6)), ok(3))
        must("how it ends", it.end(), (0, b""))
    must("what the file has", tree_in(file), {"first": 1, "a": 6, "end": True})
    with Emulator(program, "--file", file, "--tree", '{"other":1}') as it:
        must("what is read again", shown(it.port), {"first": 1, "a": 6, "end": True})
        client = Client(it.port)
        many = {f"k{n}": n for n in range(40_000)}
        must("a large write", asked(client, put(1, "/b", many)), ok(1))
        must("another", asked(client, put(2, "/c", many)), ok(2))
        it.ran.send_signal(signal.SIGKILL)
        it.ran.wait(SECONDS)
    with Emulator(program, "--file", file) as it:
        must("what is there after a kill", len(shown(it.port, "/c")), 40_000)
        must("how it ends", it.end(), (0, b""))
    must("what the file has then", tree_in(file), {"first": 1, "a": 6, "end": True, "b": many, "c": many})
    with open(file, "w", encoding="utf-8") as out:
        out.write('{"a":{"x":1},"b":[2]}')
    with Emulator(program, "--file", file) as it:
        must("what is there of a file that somebody else wrote", shown(it.port), {"a": {"x": 1}, "b": {"0": 2}})
        must("how it ends", it.end(), (0, b""))


def tree_in(file):
    with open(file, encoding="utf-8") as it:
        return json.load(it)


LINE = re.compile(r"kaltewi: \d{4}-\d\d-\d\dT\d\d:\d\d:\d\dZ \[(all|connections|faults)\] (.+)\n")


def lines_have_one_form(program, _room):
    """Each line has the time, its level and what is said, without what a terminal obeys."""
    begun = time.time()
    with Emulator(program, "--host", "0.0.0.0", at="0.0.0.0") as it:
        client = Client(it.port)
        client.frame(TEXT, "a\u202eb\x9bc\u2028".encode())
        must("a write", asked(client, put(1, "/a", 1)), ok(1))
        must("how it ends", it.end(), (0, b""))
    found = [LINE.fullmatch(line.decode()) for line in it.saying.lines]
    must("lines of another form", [line for line, is_one in zip(it.saying.lines, found) if not is_one], [])
    levels = {"whoever reaches": "faults", "connection 1 begins": "connections", "connection 1: ": "all", "connection 1 ends": "connections"}
    for start, level in levels.items():
        must(f"the level of {start!r}", {one[1] for one in found if one[2].startswith(start)}, {level})
    texts = [one[2] for one in found if "NotJson" in one[2]]
    must("a text that turns letters", texts, [r"connection 1: a text is passed over: 1 NotJson: a\u202eb c\u2028"])
    for line in it.saying.lines:
        said = calendar.timegm(time.strptime(line[9:29].decode(), "%Y-%m-%dT%H:%M:%SZ"))
        must("whether the time is right", begun - 2 <= said <= time.time() + 2, True)


def levels_are_chosen(program, _room):
    """--log says which lines there are, whether or not --quiet or --verbose stands beside it."""
    words = {
        ("--log", "all", "--quiet"): {"all", "connections"},
        ("--log", "connections", "--verbose"): {"connections"},
        ("--verbose",): {"all", "connections"},
    }
    for levels, wanted in words.items():
        with Emulator(program, *levels) as it:
            must("a write", asked(Client(it.port), put(1, "/a", 1)), ok(1))
            must("how it ends", it.end(), (0, b""))
        must(f"the levels with {levels}", {LINE.fullmatch(line.decode())[1] for line in it.saying.lines}, wanted)
    for levels, said in ((("faults",), 1), (("none",), 0), (("none", "--verbose"), 0)):
        words = [program, "emulate", str(free_port()), "--host", "0.0.0.0", "--until-eof", "--log", *levels]
        ran = subprocess.run(words, stdin=subprocess.DEVNULL, capture_output=True, timeout=SECONDS)
        must(f"what is said with --log {levels}", (ran.returncode, ran.stderr.count(b"[faults] whoever reaches"), ran.stderr.count(b"\n")), (0, said, said))


def nobody_has_to_read_what_is_said(program, _room, writes=60_000):
    """Where nobody reads standard error all are served as ever; the lines that were left out are counted, and it ends."""
    ours, theirs = os.pipe()
    port = free_port()
    ran = subprocess.Popen([program, "emulate", str(port), "--until-eof"], stdin=subprocess.PIPE, stdout=subprocess.DEVNULL, stderr=theirs)
    os.close(theirs)
    try:
        while True:
            try:
                client = Client(port)
                break
            except OSError:
                time.sleep(0.02)
        worst, filler = 0, "y" * 60
        for first in range(0, writes, 100):
            begun = time.monotonic()
            client.send_all([compact(put(first + n + 1, "/a", filler)) for n in range(100)])
            for n in range(100):
                must("an answer", client.text(), ok(first + n + 1))
            worst = max(worst, time.monotonic() - begun)
        if worst > 2:
            raise Wrong(f"lines that nobody reads held a client up for {worst:.1f} s")
        with open(ours, "rb", closefd=False) as said:
            for line in said:
                if b"lines are left out" in line:
                    break
            else:
                raise Wrong("it says of no line that it is left out")
        ran.stdin.close()
        must("how it ends", ran.wait(SECONDS), 0)
    finally:
        os.close(ours)
        ran.stdin = None
        stop(ran)


def it_ends(program, _room):
    """It ends with so many that have gone, and where its port is taken; the program itself can take no signal; --quiet says nothing."""
    with Emulator(program, "--count", "2") as it:
        clients = [Client(it.port) for _ in range(3)]
        for client in clients[:2]:
            must("a close", client.close(), CLOSED)
        must("how it ends", it.ended(), (0, b""))
        must("what the third is sent", clients[2].stream.read(), b"\x88\x02\x03\xe9")
    with Emulator(program) as it:
        it.ran.send_signal(signal.SIGINT)
        must("how it ends by a signal", it.ended(), (-signal.SIGINT, b""))
    with socket.create_server(("127.0.0.1", 0)) as taken:
        port = str(taken.getsockname()[1])
        words = [program, "emulate", port, "--quiet"]
        ran = subprocess.run(words, stdin=subprocess.DEVNULL, capture_output=True, timeout=SECONDS)
    wanted = f"kaltewi: port {port} can't be bound: Address already in use (os error 98)\n".encode()
    must("a port that is taken", (ran.returncode, ran.stdout, ran.stderr), (1, b"", wanted))


def it_serves_until_told(program, _room):
    """Where its input has ended it goes on, and a signal ends it cleanly; with --until-eof the end of its input does that too."""
    for number in (signal.SIGTERM, signal.SIGINT):
        with Emulator(program, by_signal=True) as it:
            time.sleep(0.2)
            client, other = Client(it.port), Client(it.port)
            must("a listen", other.ask(LISTEN, 1), [data("/a", None)])
            must("a write once the input has ended", asked(client, put(1, "/a", 1)), ok(1))
            must("what the other is sent", other.text(), data("/a", 1))
            it.ran.send_signal(number)
            must("what one is sent then", client.stream.read(), b"\x88\x02\x03\xe9")
            must(f"how it ends at the signal {number}", it.ended(), (0, b""))
    words = [program, "emulate", str(free_port()), "--until-eof"]
    ran = subprocess.run(words, stdin=subprocess.DEVNULL, capture_output=True, timeout=SECONDS)
    must("one that is to end with its input, which has ended", (ran.returncode, ran.stdout), (0, b""))


def all_see_the_same(program, _room, count=3, writes=1_000):
    """Clients that listen and write at once all end with the same tree, which is the emulator's."""
    with Emulator(program) as it:
        trees = [None] * count
        ready = threading.Barrier(count)

        def talk(number):
            client, tree, heard = Client(it.port), {}, 0
            say(client, LISTEN)
            tree = client.text()[1]["value"] or {}
            ready.wait(SECONDS)
            writing = threading.Thread(target=client.send_all, args=([compact(put(n + 1, f"/a/c{number}-{n % 100}", n)) for n in range(writes)],))
            writing.start()
            while heard < writes * count + writes:
                message = client.text()[1]
                heard += 1
                if message["k"] == "data":
                    tree[message["path"][3:]] = message["value"]
            writing.join()
            trees[number] = tree
            client.close()

        talking = [threading.Thread(target=talk, args=(number,)) for number in range(count)]
        for one in talking:
            one.start()
        for one in talking:
            one.join(SECONDS)
        tree = shown(it.port, "/a")
        for found in trees:
            must("what a client has seen", found == tree, True)
        must("how many it has", len(tree), 100 * count)
        must("how it ends", it.end(), (0, b""))


def connects_see_each_other(program, _room):
    """One `connect` is sent what another writes, while both are there."""
    with Emulator(program) as it:
        words = [program, "connect", str(it.port)]
        must("the row", ended(begun(words, ROW, {})), (0, ROW_OUT.encode(), b""))
        hears = begun(words, '["listen",1,"/b",[]]\n["read",2]\n', {})
        it.tells('{"k":"listen","path":"/b"')
        writes = begun(words, '["set",1,"/b/x",5]\n["read",1]\n', {})
        must("the one that writes", ended(writes), (0, b"done 1\ndone\nR1 ok\n", b""))
        heard = b'done 1\ndone\nL1 value null\ndone\nL1 added "x" 5 after none\nL1 value {"x":5}\n'
        must("the one that hears", ended(hears), (0, heard, b""))
        must("how it ends", it.end(), (0, b""))


def thousand_clients(program, _room, count=1_000):
    """A write reaches each of a thousand clients, of which the other half is gone."""
    hard = resource.getrlimit(resource.RLIMIT_NOFILE)[1]
    resource.setrlimit(resource.RLIMIT_NOFILE, (min(hard, 8_192) if hard > 0 else 8_192, hard))
    with Emulator(program) as it:
        clients = [Client(it.port) for _ in range(count)]
        for client in clients:
            say(client, LISTEN)
        for client in clients:
            must("a listen", client.text(), data("/a", None))
        for client in clients[count // 2 :]:
            resets(client)
        say(clients[0], put(1, "/a/x", 1))
        for client in clients[: count // 2]:
            must("what each is sent", client.text(), data("/a/x", 1))
        must("how it ends", it.end(), (0, b""))
        for client in clients[: count // 2]:
            drop(client)


SESSIONS = [
    clients_see_each_other,
    strays_are_told,
    bad_requests_are_answered,
    versions_are_kept_apart,
    broken_ones_are_told_why,
    origins_are_asked_for,
    it_listens_at_other_addresses,
    sdks_are_refused,
    writers_that_go_are_heard,
    slow_ones_are_ended,
    slowest_are_ended,
    too_many_listens_are_refused,
    trees_too_long_are_refused,
    ends_take_turns,
    floods_hold_nobody_up,
    descriptors_come_back,
    file_is_kept,
    lines_have_one_form,
    levels_are_chosen,
    nobody_has_to_read_what_is_said,
    it_ends,
    it_serves_until_told,
    all_see_the_same,
    connects_see_each_other,
    thousand_clients,
]


def wrong_in(session, program, room):
    """What is wrong in a session with this build, in a room of its own."""
    try:
        with tempfile.TemporaryDirectory(dir=room) as own:
            session(program, own)
        return ""
    except (Wrong, OSError, ValueError, TypeError, KeyError, struct.error, subprocess.TimeoutExpired, threading.BrokenBarrierError) as why:
        return f"{session.__name__}: {why!r} ({os.path.basename(program)})"


def wrong_of(programs, room):
    """What is wrong with these builds of the program, and how many sessions there were. The silent ones take a minute, beside the others."""
    wrong = []
    beside = [threading.Thread(target=lambda it=it: wrong.append(wrong_in(silent_ones_are_ended, it, room))) for it in programs]
    for one in beside:
        one.start()
    wrong += [wrong_in(session, program, room) for program in programs for session in SESSIONS]
    for one in beside:
        one.join()
    return [it for it in wrong if it], (1 + len(SESSIONS)) * len(programs)
