"""What ./check asks of `serve` of a client that sends 1,000,000 messages: the last of these is taken, and none behind it."""
import os
import struct
import subprocess

from cutting import Wrong, ended, must, served
from frames import BINARY, PING, PONG, TEXT, Client
from handing import shown
from session import stop

MOST = 1_000_000  # the messages of a connection
PINGS = 1_000
LATE = bytes([TEXT, 0x80 | 40, 0, 0, 0, 0]) + b'{"id":9,"k":"put","path":"/a","value":9}'
IN_TIME = bytes([TEXT, 0x80 | 40, 0, 0, 0, 0]) + b'{"id":1,"k":"put","path":"/a","value":1}'
TOO_MANY = b"\x88\x02\x03\xf0"  # a close with the code 1008
ANSWER = b'\x81\x11{"id":1,"k":"ok"}'


def frames():
    """Messages of each kind, of which the last one in time and one behind it write."""
    kinds = [bytes([it, 0x80, 0, 0, 0, 0]) for it in (PONG, BINARY, TEXT)]  # texts that are no message
    each, rest = divmod(MOST - PINGS - 1, len(kinds))
    return bytes([PING, 0x80, 0, 0, 0, 0]) * PINGS + b"".join(kinds) * each + kinds[0] * rest + IN_TIME + LATE


def million(program):
    """A client that sends a message too much is told so, and the next one finds what it wrote in time."""
    server, port = served(program, 2, {})
    try:
        if not port:
            raise Wrong("serve doesn't listen")
        client = Client(port)
        client.socket.sendall(frames())
        sent, pongs = client.stream.read(), bytes([PONG, 0]) * PINGS
        must("whether the pings are answered", sent[: len(pongs)], pongs)
        must("what the last messages are sent", sent[len(pongs) :], ANSWER + TOO_MANY)
        client.stream.close()
        client.socket.close()
        must("what they leave", shown(port, "/a"), 1)
        must("how serve ends", ended(server)[:2], (0, b""))
    finally:
        stop(server)


def wrong_of(programs):
    """What is wrong with these builds of the program, and how many connections there were."""
    wrong = []
    for program in programs:
        try:
            million(program)
        except (Wrong, OSError, ValueError, struct.error, subprocess.TimeoutExpired) as why:
            wrong.append(f"{why!r} ({os.path.basename(program)})")
    return wrong, 2 * len(programs)
