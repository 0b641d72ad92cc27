"""What ./check asks of `serve` where a client writes and goes at once, without reading what it is sent: all that it
wrote is in the peer's tree."""
import os
import socket
import struct
import subprocess

from cutting import Wrong, ended, library_of, must, served
from frames import CLOSE, Client, compact
from handing import SLOW, path_of, shown, tree_of
from session import stop

PUTS = 200  # the writes of each client
MASKED_CLOSE = bytes([CLOSE, 0x80, 0, 0, 0, 0])


def closes(client):
    """A close, and nothing is read behind it."""
    client.socket.sendall(MASKED_CLOSE)
    client.stream.close()
    client.socket.close()


def resets(client):
    """The connection is reset."""
    client.socket.setsockopt(socket.SOL_SOCKET, socket.SO_LINGER, struct.pack("ii", 1, 0))
    client.stream.close()
    client.socket.close()


def half_closes(client):
    """Nothing more is written, and what comes is read to the end."""
    client.socket.shutdown(socket.SHUT_WR)
    client.stream.read()
    client.stream.close()
    client.socket.close()


def writes_and_goes(program, goes, environment):
    """A client that writes and goes at once, and what the next one finds."""
    server, port = served(program, 2, environment)
    try:
        if not port:
            raise Wrong("serve doesn't listen")
        client = Client(port)
        client.send_all([compact({"id": it + 1, "k": "put", "path": path_of(it), "value": it}) for it in range(PUTS)])
        goes(client)
        must(f"what is there where a client {goes.__name__}", shown(port), tree_of(range(PUTS)))
        must("how serve ends", ended(server)[:2], (0, b""))
    finally:
        stop(server)


def wrong_of(programs, room):
    """What is wrong with these builds of the program, and how many clients went."""
    library, why = library_of(room)
    if why:
        return [f"tools/sessions/cut.c can't be compiled: {why[:300]}"], 0
    slow = {"LD_PRELOAD": library, "SLOW_MICROSECONDS": SLOW}
    wrong, count = [], 0
    for program in programs:
        for goes in (closes, resets, half_closes):
            for environment in ({}, slow):
                count += 1
                try:
                    writes_and_goes(program, goes, environment)
                except (Wrong, OSError, ValueError, struct.error, subprocess.TimeoutExpired) as why:
                    wrong.append(f"{goes.__name__}: {why!r} ({os.path.basename(program)})")
    return wrong, count
