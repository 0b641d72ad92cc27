"""What ./check asks of `connect` and `serve` together: what a client says is done is in the peer's tree once it has
gone, and neither side waits for the other to read."""
import os
import struct
import subprocess

from cutting import Wrong, ended, library_of, must, served
from frames import CLOSED, SECONDS, Client
from session import stop

WRITES = 1_000  # the writes of a client that reads nothing
MUCH, LONG = 300, "x" * 50_000  # writes of much, each of two such texts
SLOW = "300"  # how many microseconds each call of a slow side waits


def path_of(number):
    """A path for each number, below which no object has many children."""
    return "/".join(["/w", *f"{number:04}"])


def tree_of(numbers):
    """What stands at /w once these numbers were written, each at its path."""
    tree = {}
    for number in numbers:
        *keys, last = f"{number:04}"
        below = tree
        for key in keys:
            below = below.setdefault(key, {})
        below[last] = number
    return tree


def shown(port, path="/w"):
    """What a client finds at a path."""
    client = Client(port)
    [(_, told)] = client.ask({"k": "listen", "path": path, "tag": 1}, 1)
    must("what a close is sent", client.close(), CLOSED)
    return told["value"]


def connected(program, port, lines, environment):
    """Runs `connect` over these lines."""
    given = {**os.environ, **environment}
    ran = subprocess.run([program, "connect", str(port)], input=lines.encode(), capture_output=True, timeout=SECONDS, env=given)
    must("how connect ends, and what it says", (ran.returncode, ran.stderr), (0, b""))
    return ran.stdout.decode()


def writes(programs, slow):
    """Two clients that write and read nothing, with one side slow: all that is done is there."""
    server, port = served(programs["serve"], 3, slow.get("serve", {}))
    try:
        for first in (0, WRITES):
            numbers = range(first, first + WRITES)
            lines = "".join(f'["set",1,"{path_of(it)}",{it}]\n' for it in numbers)
            printed = "".join(f"done {it - first + 1}\n" for it in numbers)
            must("what connect prints", connected(programs["connect"], port, lines, slow.get("connect", {})), printed)
        must("what is there", shown(port), tree_of(range(2 * WRITES)))
        must("how serve ends", ended(server)[:2], (0, b""))
    finally:
        stop(server)


def much(programs):
    """A client that is told what it writes, writes more than both ways hold, and reads it all at the end."""
    server, port = served(programs["serve"], 2, {})
    lines = '["listen",1,"/a",[]]\n' + "".join(f'["set",1,"/a",["{LONG}","{LONG}",{it}]]\n' for it in range(MUCH))
    try:
        out = connected(programs["connect"], port, lines + f'["read",{1 + 2 * MUCH}]\n', {})
        must("what is accepted", [it for it in out.splitlines() if it.startswith("R")], [f"R{it + 1} ok" for it in range(MUCH)])
        must("how many messages are read", out.splitlines().count("done"), 1 + 2 * MUCH)
        must("what is there", shown(port, "/a/2"), MUCH - 1)
        must("how serve ends", ended(server)[:2], (0, b""))
    finally:
        stop(server)


def wrong_of(programs, room):
    """What is wrong with these builds of the program, and how many sessions there were."""
    library, why = library_of(room)
    if why:
        return [f"tools/sessions/cut.c can't be compiled: {why[:300]}"], 0
    slow = {"LD_PRELOAD": library, "SLOW_MICROSECONDS": SLOW}
    wrong, count = [], 0
    for program in programs:
        both = {"serve": program, "connect": program}
        runs = [lambda side=side: writes(both, {side: slow}) for side in both]
        for run in [*runs, lambda: much(both)]:
            count += 1
            try:
                run()
            except (Wrong, OSError, ValueError, struct.error, subprocess.TimeoutExpired) as why:
                wrong.append(f"{why!r} ({os.path.basename(program)})")
    return wrong, count
