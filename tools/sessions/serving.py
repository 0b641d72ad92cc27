"""What ./check asks of `serve`: clients connect to it, what they are sent, and how it ends."""
import socket
import struct
import subprocess
import time
from concurrent.futures import ThreadPoolExecutor

from cutting import ended, served
from frames import BINARY, CLOSE, CLOSED, LAST_PART, PING, SECONDS, TEXT, Client
from runs import differs
from session import stop

ENDS = {"stdin": subprocess.DEVNULL, "stdout": subprocess.PIPE, "stderr": subprocess.PIPE}
LISTEN, PUT = {"k": "listen", "path": "/a", "tag": 1}, {"id": 1, "k": "put", "path": "/a", "value": 5}


def data(value):
    return (TEXT, {"k": "data", "path": "/a", "tag": 1, "value": value})


def two_clients(port):
    """The second finds what the first wrote."""
    first = Client(port)
    yield "a listen", first.ask(LISTEN, 1), [data(None)]
    yield "a write", first.ask(PUT, 2), [data(5), (TEXT, {"id": 1, "k": "ok"})]
    yield "a close", first.close(), CLOSED
    second = Client(port)
    yield "the second client's listen", second.ask(LISTEN, 1), [data(5)]
    yield "the second close", second.close(), CLOSED


def denied_client(port):
    """A listen and a write below a denied path are refused, and the first tree is there."""
    client = Client(port)
    yield "the first tree", client.ask(LISTEN, 1), [data({"b": 1})]
    revoke, no = {"k": "revoke", "tag": 2, "why": "denied"}, {"id": 1, "k": "no", "why": "denied"}
    yield "a denied listen", client.ask({"k": "listen", "path": "/s/x", "tag": 2}, 1), [(TEXT, revoke)]
    yield "a denied write", client.ask({**PUT, "path": "/s"}, 1), [(TEXT, no)]
    client.socket.close()


def no_handshake(port):
    """One who speaks no WebSocket is no client."""
    with socket.create_connection(("127.0.0.1", port), timeout=SECONDS) as it:
        it.sendall(b"GET / HTTP/1.1\r\nHost: 127.0.0.1\r\n\r\n")
        yield "one who speaks no WebSocket", it.recv(1), b""
    socket.create_connection(("127.0.0.1", port), timeout=SECONDS).close()
    yield from two_clients(port)


def silent_one(port):
    """One who connects and says nothing is left after 10 seconds, or some more on a busy machine, and the next one is served."""
    begun = time.monotonic()
    with socket.create_connection(("127.0.0.1", port), timeout=SECONDS) as it:
        yield "one who says nothing", it.recv(1), b""
        yield "the time that it has", 9.5 <= time.monotonic() - begun <= 25, True
    yield from two_clients(port)


HEAD = b"GET / HTTP/1.1\r\nHost: 127.0.0.1\r\nUpgrade: websocket\r\nConnection: Upgrade\r\nSec-WebSocket-Version: 13\r\n"
KEY = b"Sec-WebSocket-Key: dGhlIHNhbXBsZSBub25jZQ==\r\n"
# pages of other machines, and a page that hides its origin; two origins at once; and pages of this machine
OTHERS = [[b"http://evil.example"], [b"null"], [b"http://localhost.evil.example"], [b"http://localhost", b"http://localhost"]]
OWN = [[b"http://localhost:3000"], [b"https://127.0.0.1"]]


def answer_to(port, origins):
    """The status that a handshake of a page is answered with."""
    with socket.create_connection(("127.0.0.1", port), timeout=SECONDS) as it:
        it.sendall(HEAD + KEY + b"".join(b"Origin: " + origin + b"\r\n" for origin in origins) + b"\r\n")
        return it.makefile("rb").readline().split(b" ")[1]


def other_pages(port):
    """A page of another machine may not connect, and is no client; a page of this machine is one."""
    for origins in OTHERS:
        yield f"a page of {origins}", answer_to(port, origins), b"403"
    for origins in OWN:
        yield f"a page of {origins}", answer_to(port, origins), b"101"


def strays(port):
    """What is no message of a client is passed over, and a close is answered with its code."""
    client = Client(port)
    client.frame(TEXT, b"x")
    client.frame(TEXT, b'{"k":"nope"}')
    client.frame(BINARY, b"x")
    yield "a listen behind strays", client.ask(LISTEN, 1), [data(None)]
    client.frame(CLOSE, b"\x0f\xa0bye")
    yield "a close with a code", client.stream.read(), b"\x88\x05\x0f\xa0bye"
    client.socket.close()


def hello(version):
    return {"k": "hello", "version": version}


def push(*parts):
    """A push of parts, each a tag and its entries."""
    return (TEXT, {"k": "push", "parts": [{"entries": entries, "tag": tag} for tag, entries in parts]})


def merge(number, first, second):
    """A write of two values at the paths of two listens."""
    return {"entries": {"/a/x": first, "/b": second}, "id": number, "k": "merge"}


def ok(number):
    return (TEXT, {"id": number, "k": "ok"})


def told_apart(first, second):
    """What two listens are sent, each by itself."""
    return [(TEXT, {"k": "data", "path": path, "tag": tag, "value": it}) for path, tag, it in (("/a/x", 1, first), ("/b", 2, second))]


def versions(port):
    """What a write brings to two listens comes as one push to a client that says version 2, and apart where it says 1 last, or none."""
    client = Client(port)
    yield "the version, and a listen", (client.ask(hello(2), 0), client.ask(LISTEN, 1)), ([], [data(None)])
    yield "another listen", client.ask({**LISTEN, "path": "/b", "tag": 2}, 1), [(TEXT, {"k": "data", "path": "/b", "tag": 2, "value": None})]
    yield "a write on both", client.ask(merge(1, 1, 2), 2), [push((1, {"/a/x": 1}), (2, {"/b": 2})), ok(1)]
    yield "a write on one", client.ask({**PUT, "id": 2}, 2), [data(5), ok(2)]
    client.ask(hello(1), 0)
    yield "a write once version 1 is said", client.ask(merge(3, 3, 4), 3), [*told_apart(3, 4), ok(3)]
    client.ask(hello(9_007_199_254_740_991), 0)
    yield "a write once a later version is said", client.ask(merge(4, 5, 6), 2), [push((1, {"/a/x": 5}), (2, {"/b": 6})), ok(4)]
    yield "a close", client.close(), CLOSED
    client = Client(port)
    yield "a listen that is all", client.ask({**LISTEN, "path": "/b", "tag": 2}, 1), [(TEXT, {"k": "data", "path": "/b", "tag": 2, "value": 6})]
    yield "the other listen", client.ask(LISTEN, 1), [data({"x": 5})]
    yield "a write where no version is said", client.ask(merge(1, 7, 8), 3), [*told_apart(7, 8), ok(1)]
    yield "the second close", client.close(), CLOSED


# Frames that break the protocol, and the code of the close that they are answered by (RFC 6455, section 7.4.1).
NO_MASK, MASK = b"", bytes(4)
CROWD = b"[" + b"0," * 262_144 + b"0]"  # a comma or bracket more than a text may have
BROKEN = {
    "a frame that is not masked": (bytes([TEXT, 1]) + NO_MASK + b"x", 1002),
    "a reserved bit": (bytes([0xC1, 0x80]) + MASK, 1002),
    "an unknown kind of frame": (bytes([0x83, 0x80]) + MASK, 1002),
    "a long ping": (bytes([PING, 0x80 | 126, 0, 126]) + MASK + bytes(126), 1002),
    "a part of no message": (bytes([LAST_PART, 0x80]) + MASK, 1002),
    "a text that is no UTF-8": (bytes([TEXT, 0x81]) + MASK + b"\xff", 1007),
    "a frame of more bytes than are read": (bytes([TEXT, 0x80 | 127]) + (1 << 28).to_bytes(8, "big") + MASK, 1009),
    "a text of too many commas": (bytes([TEXT, 0x80 | 127]) + len(CROWD).to_bytes(8, "big") + MASK + CROWD, 1009),
}


def breaks(port):
    """A client that breaks the protocol is told so by the code of a close."""
    for what, (frame, code) in BROKEN.items():
        client = Client(port)
        client.socket.sendall(frame)
        yield what, client.stream.read(), bytes([CLOSE, 2]) + code.to_bytes(2, "big")
        client.socket.close()


# What `serve` tells with --verbose, for each of these.
BEGINS, CLOSED_IT = "connection 1 begins", "connection 1 ends: the client closed it"
TOLD = {
    two_clients: [BEGINS, CLOSED_IT, BEGINS, CLOSED_IT],
    denied_client: [BEGINS, "connection 1 ends: .."],
    no_handshake: ["a stream is no WebSocket: ..", "a stream is no WebSocket: ..", BEGINS, CLOSED_IT, BEGINS, CLOSED_IT],
    silent_one: ["a stream is no WebSocket: IO error: timed out", BEGINS, CLOSED_IT, BEGINS, CLOSED_IT],
    strays: [
        BEGINS,
        "connection 1: a text is passed over: 1 NotJson",
        "connection 1: a text is passed over: 2 UnknownKind",
        "connection 1: a binary message is passed over: 1 NotJson",
        "connection 1 ends: the client closed it with 4000",
    ],
    other_pages: ["a stream is no WebSocket: HTTP error: 403 Forbidden"] * len(OTHERS) + [BEGINS, "connection 1 ends: .."] * len(OWN),
    versions: [BEGINS, CLOSED_IT, BEGINS, CLOSED_IT],
    breaks: [line for _, code in BROKEN.values() for line in (BEGINS, f"connection 1 ends: ..; it is closed with {code}")],
}


def is_told(line, wanted):
    """Whether that is the line; of one that gives a cause only what stands before and behind it is compared, and that there is one."""
    line = line.decode().removeprefix("kaltewi: ").removesuffix("\n")
    before, cause, behind = wanted.partition("..")
    return line.startswith(before) and line.endswith(behind) and len(line) > len(before + behind) if cause else line == wanted


def session(program, count, words, clients):
    """Serves clients, and answers what is wrong; the program ends by itself behind the last one."""
    name = f"serve {count} {words}"
    ran, port = served(program, count, {}, words)
    try:
        for what, got, wanted in clients(port):
            if got != wanted:
                return f"{name}: {what} is answered {str(got)[:160]}, not {str(wanted)[:160]}"
        wrong = differs(name, ended(ran), (0, b"", b""))
        due = TOLD[clients]
        is_well = len(ran.told) == len(due) and all(map(is_told, ran.told, due))
        return wrong or ("" if is_well else f"{name}: it tells {ran.told}, not {due}")
    except (OSError, ValueError, TypeError, struct.error, subprocess.TimeoutExpired) as why:
        return f"{name}: {why!r}"
    finally:
        stop(ran)


def taken_port(program):
    with socket.create_server(("127.0.0.1", 0)) as it:
        port = it.getsockname()[1]
        ran = subprocess.run([program, "serve", str(port)], timeout=SECONDS, **ENDS)
    wanted = f"kaltewi: port {port} can't be bound: Address already in use (os error 98)\n".encode()
    return differs("serve, a taken port", (ran.returncode, ran.stdout, ran.stderr), (1, b"", wanted))


def wrong_of(programs):
    """What is wrong with these builds of the program, and how many connections were made."""
    pool = ThreadPoolExecutor(len(programs))
    silent = [pool.submit(session, program, 2, [], silent_one) for program in programs]
    wrong = []
    for program in programs:
        wrong.append(session(program, 2, [], two_clients))
        wrong.append(session(program, 1, ["--tree", '{"a":{"b":1}}', "--deny", "/s"], denied_client))
        wrong.append(session(program, 2, [], no_handshake))
        wrong.append(session(program, len(OWN), [], other_pages))
        wrong.append(session(program, 1, [], strays))
        wrong.append(session(program, 2, [], versions))
        wrong.append(session(program, len(BROKEN), [], breaks))
        wrong.append(taken_port(program))
    wrong += [it.result() for it in silent]
    return [it for it in wrong if it], (13 + len(OTHERS) + len(OWN) + len(BROKEN)) * len(programs)
