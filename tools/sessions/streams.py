"""What ./check asks of `serve` to the byte: all that one client is sent, and what the peer then has, also where
a read or a write fails behind each byte of the connection."""
import errno
import os
import socket
import struct
import subprocess

from connecting import stop
from cutting import CUT, Wrong, ended, let_end, library_of, must, served
from frames import BINARY, CLOSE, CLOSED, FIRST_PART, LAST_PART, PART, PING, SECONDS, TEXT, Client

# The head of a client's request; the key and what answers it are those of RFC 6455, section 1.3.
HEAD = (
    b"GET / HTTP/1.1\r\nHost: a\r\nUpgrade: websocket\r\nConnection: Upgrade\r\n"
    b"Sec-WebSocket-Key: dGhlIHNhbXBsZSBub25jZQ==\r\nSec-WebSocket-Version: 13\r\n\r\n"
)
ACCEPT = b"sec-websocket-accept: s3pPLMBiTxaQ9kYGzzhZRbK+xOo=\r\n"
OK, END = b'\x81\x11{"id":%d,"k":"ok"}', b"\r\n\r\n"


def masked(first, data):
    """A client's frame of fewer than 126 bytes, masked by zeros."""
    return bytes([first, 0x80 | len(data), 0, 0, 0, 0]) + data


def frames(messages):
    return b"".join(masked(first, data) for first, data in messages)


# A listen and two requests, with a ping before them; what is sent for it behind the head, up to what answers the
# listen, and for the two; and how many bytes it takes to write, to be told of it, and to ask for the end.
SESSION = [
    (PING, b"hi"),
    (TEXT, b'{"k":"listen","path":"/a","tag":1}'),
    (TEXT, b'{"id":1,"k":"put","path":"/a","value":5}'),
    (TEXT, b'{"id":2,"k":"od-put","path":"/b","value":6}'),
]
SHOWN = b'\x8a\x02hi\x81\x2d{"k":"data","path":"/a","tag":1,"value":null}'
WRITTEN = b'\x81\x2a{"k":"data","path":"/a","tag":1,"value":5}' + OK % 1
KEPT = OK % 2
ASKED = len(HEAD) + len(frames(SESSION))
WROTE = ASKED - len(frames(SESSION[3:]))

# A text that is no message, a message that is no text, a text in two parts with a ping between them, and a text
# behind a close; and what is sent for it.
STRAY = [
    (TEXT, b"x"),
    (BINARY, b'{"id":1,"k":"put","path":"/a","value":4}'),
    (FIRST_PART, b'{"id":2,"k":"put",'),
    (PING, b""),
    (LAST_PART, b'"path":"/a","value":5}'),
    (CLOSE, b""),
    (TEXT, b'{"id":3,"k":"put","path":"/a","value":7}'),
]
ANSWERED = b"\x8a\x00" + OK % 2 + CLOSED

MIB = 1 << 20
# The close that a client is sent where a message is too large.
TOO_LARGE = b"\x88\x02\x03\xf1"
# A text of 70 MiB and 40 bytes, and one in two parts with 129 MiB of empty ones between them.
LARGE = struct.pack("!BBQ4x", TEXT, 0xFF, 70 * MIB + 40) + b'{"id":1,"k":"put","path":"/a","value":5' + b" " * (70 * MIB) + b"}"
SPLIT = masked(FIRST_PART, b'{"id":2,"k":"put","path":"/b","value":6}') + masked(PART, b"") * (129 * MIB // 6) + masked(LAST_PART, b"")


def sent_for(port, head, behind):
    """What a client is sent that writes a head, and more once its answer has come. Then it writes no more."""
    out = b""
    with socket.create_connection(("127.0.0.1", port), timeout=SECONDS) as it:
        try:
            it.sendall(head)
            while behind and END not in out and (some := it.recv(65536)):
                out += some
            it.sendall(behind)
            it.shutdown(socket.SHUT_WR)
        except OSError as why:
            if why.errno not in (errno.EPIPE, errno.ECONNRESET, errno.ENOTCONN):  # it has ended
                raise
        try:
            while some := it.recv(65536):
                out += some
        except ConnectionResetError:
            pass  # it ended before all was read
    return out


def tree_of(port):
    """What a second client finds."""
    client = Client(port)
    [(_, shown)] = client.ask({"k": "listen", "path": "/", "tag": 9}, 1)
    must("what the second client's close is sent", client.close(), CLOSED)
    return shown["value"]


def met(program, head, behind=b"", words=(), cut=None):
    """What a client is sent behind the head, what the peer then has, and whether a call failed."""
    server, port = served(program, 2, cut or {}, words)
    try:
        if not port:
            raise Wrong("serve doesn't listen")
        out, tree = sent_for(port, head, behind), tree_of(port)
        let_end(server, port, 2)
        status, said, err = ended(server)
        must("what serve ends with, and prints", (status, said, err if err != CUT else b""), (0, b"", b""))
        return out, tree, err == CUT
    finally:
        stop(server)


def behind_head(out):
    head, end, behind = out.partition(END)
    if not head.startswith(b"HTTP/1.1 101 ") or ACCEPT not in head + end[:2]:
        raise Wrong(f"the head is answered {out[:160]}")
    return behind


def whole(program):
    """A ping is answered, a listen is shown what stands there, and a write is shown and answered."""
    out, tree, _ = met(program, HEAD, frames(SESSION))
    must("what a session is sent", behind_head(out), SHOWN + WRITTEN + KEPT)
    must("what a session leaves", tree, {"a": 5, "b": 6})
    return out


def stray(program):
    """What is no text or no message is passed over; a close is answered, and nothing is taken behind it."""
    out, tree, _ = met(program, HEAD, frames(STRAY))
    must("what stray messages are sent", behind_head(out), ANSWERED)
    must("what stray messages leave", tree, {"a": 5})


def refused(program):
    """Where the head is no request for a WebSocket, or more comes with it, nothing is sent, and the peer is as it was."""
    for what, head in ("no request", b"GET / HTTP/1.1\r\nHost: a\r\n\r\n"), ("an early session", HEAD + frames(SESSION)):
        must(f"what {what} is sent, and leaves", met(program, head, words=["--tree", "1"]), (b"", 1, False))


def large(program):
    """A text of 70 MiB is read, which is more than the library's own bound for a frame. The bytes are counted for each
    message, so that two such texts are read, and one of too many parts is not, however few of its bytes are its own."""
    out, tree, _ = met(program, HEAD, LARGE + LARGE + SPLIT)
    must("what large texts are sent, and leave", (behind_head(out), tree), (2 * (OK % 1) + TOO_LARGE, {"a": 5}))


def left(count, wrote, asked):
    """What a session leaves where so many bytes come through, and it takes so many to write and to ask for the end."""
    return {"a": 5, "b": 6} if count >= asked else {"a": 5} if count >= wrote else None


def cut_reads(program, library):
    """A read fails behind each of the bytes: all that was read whole is taken, and the connection ended."""
    for count in range(ASKED + 1):
        cut = {"LD_PRELOAD": library, "CUT_READ_BEHIND": str(count)}
        _, tree, is_cut = met(program, HEAD, frames(SESSION), cut=cut)
        must(f"what a session of {count} bytes leaves", (tree, is_cut), (left(count, WROTE, ASKED), True))
    return ASKED + 1


def cut_writes(program, library, sent):
    """A write fails behind each of the bytes: those before are sent, and all that came is taken, unless the head
    was not answered whole."""
    answered = len(sent) - len(behind_head(sent))
    for count in range(len(sent) + 1):
        cut = {"LD_PRELOAD": library, "CUT_WRITE_BEHIND": str(count)}
        out, tree, is_cut = met(program, HEAD, frames(SESSION), cut=cut)
        wanted = (sent[:count], {"a": 5, "b": 6} if count >= answered else None, count < len(sent))
        must(f"what a session is sent of {count} bytes, and leaves", (out, tree, is_cut), wanted)
    return len(sent) + 1


def wrong_of(programs, room):
    """What is wrong with these builds of the program, and how many connections were made."""
    library, why = library_of(room)
    if why:
        return [f"tools/sessions/cut.c can't be compiled: {why[:300]}"], 0
    wrong, count = [], 0
    for program in programs:
        try:
            sent = whole(program)
            stray(program)
            refused(program)
            large(program)
            count += 5 + cut_reads(program, library) + cut_writes(program, library, sent)
        except (Wrong, OSError, ValueError, struct.error, subprocess.TimeoutExpired) as why:
            wrong.append(f"{why!r} ({os.path.basename(program)})")
    return wrong, count
