"""Sessions of `connect` that show what the protocol allows, and how a connection ends or isn't made."""
import socket
import threading

from frames import CLOSE, FIRST_PART, LAST_PART, PART, PING, PONG, TEXT, accept_of, compact, frame, text
from session import HELLO, SESSIONS, Session, data, hears, leaves, listen, ok, put, session

NOT_CONNECTED = "refused core 10 NotConnected\n"


# ---- what the protocol allows, and what it doesn't


FIVE = '["listen",1,"/a",[]]\n["read",2]\n'
FIVE_OUT = 'done 1\ndone\nL1 value "é"\ndone\nL1 value 5\n'


@session(FIVE, FIVE_OUT)
def parts(server):
    """A message in fragments, with pings in its midst."""
    message = compact({"k": "data", "path": "/a", "tag": 1, "value": "é"}).encode()
    middle = message.index("é".encode()) + 1
    server.welcome()
    yield hears(server, listen("/a", 1))
    server.send(frame(PING, b""), frame(FIRST_PART, message[:7]), frame(PING, b"one"), frame(PART, b""))
    server.send(frame(PART, message[7:middle]), frame(PONG, b"nobody asked"), frame(PING, bytes(range(125))))
    server.send(frame(LAST_PART, message[middle:]), frame(PING, b"between"))
    yield hears(server, (PONG, b""), (PONG, b"one"), (PONG, bytes(range(125))), (PONG, b"between"))
    server.send(frame(FIRST_PART, b""), frame(LAST_PART, '{"k":"data","path":"/a","tag":1,"value":5}'))
    yield from leaves(server)


@session('["listen",1,"/a",[]]\n["read",1]\n', "done 1\ndone\nL1 value 5\n")
def behind_the_head(server):
    """What comes in one write with the handshake's answer isn't lost, and what isn't read changes nothing."""
    server.welcome(data("/a", 1, 5) + data("/a", 1, 6))
    yield hears(server, listen("/a", 1))
    yield from leaves(server)


SUPPLIED = '["listen",1,"/a",[]]\n["listen",2,"/a",[["limitToFirst",1]]]\n["read",2]\n["cover"]\n'
SUPPLIED_OUT = 'done 1\ndone 2\ndone\nL1 cancelled "denied"\nstale\n'
SUPPLIED_OUT += 'T2 /a {"limit":["first",1],"order":"key"} by L2\n'


@session(SUPPLIED, SUPPLIED_OUT)
def sends_behind_the_line(server):
    """What a message makes the client send is sent behind the line."""
    server.welcome()
    yield hears(server, listen("/a", 1))
    server.send(text({"k": "revoke", "tag": 1, "why": "denied"}), frame(PING, b"is that all?"))
    yield hears(server, (PONG, b"is that all?"))
    server.send(ok(7))
    yield hears(server, listen("/a", 2, q={"limit": ["first", 1], "order": "key"}))
    yield from leaves(server)


MANY_LINES = '["read",2]\n["read",2]\n["read",1]\n'


def drain(server, heard):
    """Hears frames until the client has gone, which the last thing heard then says."""
    try:
        heard.extend(iter(server.hear, None))
    except ConnectionResetError:
        pass
    except OSError:
        return  # nothing comes any more, and it has not gone
    heard.append(None)


@session(MANY_LINES, "stale\nstale\nstale\ndisconnected\n" + NOT_CONNECTED)
def many_pings(server):
    """The hundred thousandth ping or pong of a line ends the connection."""
    ping, pong, heard = frame(PING, b""), frame(PONG, b""), []
    server.welcome()
    reader = threading.Thread(target=drain, args=(server, heard))
    reader.start()
    try:
        server.send(30_000 * ping, 30_000 * pong, ok(1), 20_000 * ping, 19_999 * pong, ok(1))
        server.send(60_000 * pong, ok(1), 40_000 * ping, ok(1))
        server.socket.shutdown(socket.SHUT_WR)
    except OSError:
        pass  # the client has gone
    reader.join()
    pongs = heard.count((PONG, b""))
    yield "what comes but pongs", [it for it in heard if it != (PONG, b"")], [HELLO, None]
    yield "whether all pings before the last ones came back", pongs >= 50_000, True


AFTER_END = """["listen",1,"/a",[]]
["read",3]
["read",2]
["set",1,"/a",2]
["read",1]
["cover"]
["close",1]
["listen",2,"/b",[]]
["cover"]
"""
ENDED_OUT = f"""done 1
done
L1 value 1
disconnected
{NOT_CONNECTED}done 1
L1 value 2
{NOT_CONNECTED}T1 /a by L1
done
done 2
T2 /b by L2
"""


RESET = "WebSocket protocol error: Connection reset without closing handshake"


def told(server, lines, out, status, *tells):
    """Adds a session, and it once more with --verbose, where it tells this beside what it prints."""
    SESSIONS.append(Session(server, lines, out, status))
    err = "".join(f"kaltewi: {it}\n" for it in tells).encode()
    SESSIONS.append(Session(server, lines, out, status, err=err, words=["--verbose"]))


def ends(name, why, *frames, answer=None):
    """A server that sends a value, and then what ends the connection; a close is answered."""

    def serves(server):
        server.welcome()
        yield hears(server, listen("/a", 1))
        server.send(data("/a", 1, 1), *frames)
        if answer is not None:
            yield hears(server, (CLOSE, answer))
        server.socket.shutdown(socket.SHUT_WR)
        last = server.hear()
        if answer is None and last and last[0] == CLOSE:
            last = server.hear()  # a client may say why it goes
        yield "what comes behind the end of the connection", last, None

    serves.__doc__ = f"A connection that ends: {name}"
    told(serves, AFTER_END, ENDED_OUT, 0, f"the {why}")


UNREAD, HALF = data("/a", 1, 3), frame(FIRST_PART, '{"k":"da')
CLOSED_IT, FAILED = "server closed the connection", "connection failed: "
BROKEN = f"{FAILED}WebSocket protocol error: "
ends("a close", f'{CLOSED_IT} with code 1000: "bye"', frame(CLOSE, b"\x03\xe8bye"), answer=b"\x03\xe8bye")
ends("a close without a code", f"{CLOSED_IT}, without a code", frame(CLOSE, b""), answer=b"")
ends("a close in the midst of a message", f'{CLOSED_IT} with code 4000: ""', HALF, frame(CLOSE, b"\x0f\xa0"), answer=b"\x0f\xa0")
ends("a close with 1014", f'{CLOSED_IT} with code 1002 or an unknown one: ""', frame(CLOSE, b"\x03\xf6"), answer=b"\x03\xeaProtocol violation")
ends("no close", f"{FAILED}{RESET}")
ends("no close, in the midst of a message", f"{FAILED}{RESET}", HALF)
ends("no close, in the midst of a frame", f"{FAILED}{RESET}", UNREAD[:9])
ends("a masked frame", f"{BROKEN}Received a masked frame from server", bytes([TEXT, 0x80 | 2]) + b"\0\0\0\0[]", UNREAD)
ends("a reserved bit", f"{BROKEN}Reserved bits are non-zero", frame(0xC1, "[]"), UNREAD)
ends("an unknown kind of frame", f"{BROKEN}Encountered invalid opcode: 3", frame(0x83, "[]"), UNREAD)
ends("an unknown kind of control frame", f"{BROKEN}Encountered invalid opcode: 11", frame(0x8B, "[]"), UNREAD)
ends("a text that is not UTF-8", f"{FAILED}UTF-8 encoding error", frame(TEXT, b'{"k":"\xff"}'), UNREAD)
ends("a long ping", f"{BROKEN}Control frame too big (payload must be 125 bytes or less)", frame(PING, 126 * b"x"), UNREAD)
ends("a ping in fragments", f"{BROKEN}Fragmented control frame", frame(0x09, b"x"), UNREAD)
ends("a part of no message", f"{BROKEN}Continue frame but nothing to continue", frame(LAST_PART, "[]"), UNREAD)
ends("a message in the midst of another", f"{BROKEN}While waiting for more fragments received: TEXT", HALF, UNREAD)


@session(AFTER_END, ENDED_OUT)
def reset(server):
    """A connection that is reset."""
    server.welcome()
    yield hears(server, listen("/a", 1))
    server.send(data("/a", 1, 1), frame(PING, b"is it read?"))
    yield hears(server, (PONG, b"is it read?"))
    server.vanish()


@session('["listen",1,"/a",[]]\n["set",1,"/a",1]\n', "done 1\ndone 1\nL1 value 1\n", is_held=True)
def gone_before_the_close(server):
    """A fault while closing prints nothing."""
    server.welcome()
    yield hears(server, listen("/a", 1), put(1, "/a", 1))
    server.vanish()
    server.let_go()


# ---- handshakes that don't come about


NO_SOCKET = '["listen",1,"/a",[]]\n["read",2]\n["set",1,"/a",2]\n["read",1]\n["cover"]\nno line\n'
NO_SOCKET_OUT = f"""disconnected
done 1
{NOT_CONNECTED}done 1
L1 value 2
{NOT_CONNECTED}T1 /a by L1
bad line 6
"""


def refuses(name, why, answer):
    """A server that answers the request in this way, and then sends a message and goes."""

    def serves(server):
        server.meet()
        said = answer(server)
        server.send(said, *([data("/a", 1, 1)] if said else []))
        server.socket.shutdown(socket.SHUT_WR)
        yield "what is sent behind the request", server.hear(), None

    serves.__doc__ = f"A handshake that fails: {name}"
    told(serves, NO_SOCKET, NO_SOCKET_OUT, 1, f"the handshake failed: {why}", "line 6 is no JSON")


BAD, NO_FIELD = "Handshake error: ", "A header to send is duplicated or incorrect"
NO_KEY = f'{BAD}Key mismatch in "Sec-WebSocket-Accept" header'
NO_UPGRADE, NO_CONNECTION = f'{BAD}No "Upgrade: websocket" header', f'{BAD}No "Connection: upgrade" header'
NO_PROTOCOL = f"{BAD}SubProtocol error: Server sent a subprotocol but none was requested"
refuses("400", "HTTP error: 400 Bad Request", lambda it: b"HTTP/1.1 400 Bad Request\r\nContent-Length: 0\r\n\r\n")
refuses("200", "HTTP error: 200 OK", lambda it: it.answer().replace(b"101 Switching Protocols", b"200 OK"))
refuses("no answer", "Handshake not finished", lambda it: b"")
refuses("half a head", f"{BAD}{NO_FIELD}", lambda it: it.answer()[:-2])
refuses("no HTTP", f"{BAD}{NO_FIELD}", lambda it: b"hello\r\n\r\n")
refuses("another key's answer", NO_KEY, lambda it: it.answer(**{"Sec-WebSocket-Accept": accept_of(b"")}))
refuses("no Sec-WebSocket-Accept", NO_KEY, lambda it: it.answer(**{"Sec-WebSocket-Accept": None}))
refuses("no Upgrade", NO_UPGRADE, lambda it: it.answer(Upgrade=None))
refuses("another Upgrade", NO_UPGRADE, lambda it: it.answer(Upgrade=b"h2c"))
refuses("no Connection", NO_CONNECTION, lambda it: it.answer(Connection=None))
refuses("a protocol that nobody asked for", NO_PROTOCOL, lambda it: it.answer(**{"Sec-WebSocket-Protocol": b"chat"}))
