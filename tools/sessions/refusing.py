"""What ./check asks of `serve` and `connect` together where memory lacks: one allocation after another is
refused, on either side. Where it is one for a field of the handshake's head, tungstenite says that the head is
bad, so that there is no handshake. Where it is one for the tree of paths that stands beside the pending writes,
that tree is given up, and all goes on as with memory. Else the program says that memory was lacking, behind what
it printed."""
import os
import subprocess

from cutting import ENDS, HANDSHAKE, LINES, WHOLE, Wrong, begun, ended, let_end, must, served
from frames import Client
from session import stop

REFUSED = b"refused\n"  # what tests/calls/refuse.c says where it refuses
LACKING = (b"kaltewi: out of memory\n", b"error: out of memory\n")  # the second is what clap says
QUIET = 0, b"", b""
LOST = "the line that says that it listens"  # in place of how `serve` ended, which goes on
# how many refused allocations are shown by nothing at most: those of `serve` for lines that it tells of connections, and those of `connect`
# for the tree beside its writes
UNSAID = {"serve": 10, "connect": 9}
NONE, TOLD, UNTOLD = range(3)  # what came of the refusal of an allocation; NONE where there is none
# what `connect` prints where its server goes: of all that it prints where a call of `serve` fails
CUT_OFF = {out for (side, _), ends in ENDS.items() if side == "serve" for out, _ in ends}


def meet(programs, given):
    """Lets `connect` meet `serve`, each with its environment, and answers how both ended; of `connect`
    nothing where the other ended before it listened."""
    server = client = None
    try:
        server, port = served(programs["serve"], 1, given.get("serve", {}))
        if port:
            client = begun([programs["connect"], "connect", str(port)], LINES, given.get("connect", {}))
        if not port and not server.saying.is_known.is_set():
            return None, LOST
        of_client = ended(client) if client else None
        if of_client and not of_client[1]:
            visit(port)  # it may not have come
        elif port:
            let_end(server, port, 1)
        return of_client, ended(server)
    finally:
        for ran in (server, client):
            if ran:
                stop(ran)


def visit(port):
    """Comes and goes, as a client that `serve` may still wait for."""
    try:
        Client(port).close()
    except OSError:
        pass  # it waits for nobody any more


def must_lack(side, err):
    """A side says in one line that memory was lacking."""
    if err.replace(REFUSED, b"", 1) not in LACKING:
        raise Wrong(f"what {side} says where memory lacks is {err}")


def is_refused_to_connect(client, server):
    """Sees how both sides end, and answers whether an allocation was refused to `connect`, and that was said."""
    if REFUSED not in client[2]:
        return NONE
    if client == (0, WHOLE.encode(), REFUSED):
        must("what serve ends with, and prints", server, QUIET)
        return UNTOLD
    if client == (0, HANDSHAKE.encode(), REFUSED):
        return TOLD
    must_lack("connect", client[2])
    must("connect's status", client[0], 1)
    if not WHOLE.encode().startswith(client[1]) or client[1][-1:] not in (b"", b"\n"):
        raise Wrong(f"what connect prints is {client[1]}")
    must("what serve ends with, and prints", server, QUIET)
    return TOLD


def is_refused_to_serve(client, server):
    """Sees how both sides end, and answers whether an allocation was refused to `serve`, and that was said."""
    if server == LOST:
        return UNTOLD
    if REFUSED not in server[2]:
        return NONE
    if (client, server) == ((0, HANDSHAKE.encode(), b""), (0, b"", REFUSED)):
        return TOLD
    if (client, server) == ((0, WHOLE.encode(), b""), (0, b"", REFUSED)):
        return UNTOLD  # it was one for a line that is told of a connection, which is lost
    must_lack("serve", server[2])
    must("serve's status, and what it prints", server[:2], (1, b""))
    if client:
        must("connect's status, and what it says", client[::2], (0, b""))
        if client[1].decode() not in CUT_OFF:
            raise Wrong(f"what connect prints is {client[1]}")
    return TOLD


SIDES = {"serve": is_refused_to_serve, "connect": is_refused_to_connect}


def refused_at(programs, library, side, number):
    """Refuses an allocation, and answers whether there was none, it was told, or nothing shows it."""
    client, server = meet(programs, {side: {"LD_PRELOAD": library, "REFUSED_ALLOCATION": str(number)}})
    try:
        came = SIDES[side](client, server)
        if came == NONE:
            must("how both end", (client, server), ((0, WHOLE.encode(), b""), QUIET))
        return came
    except Wrong as why:
        raise Wrong(f"{side}, allocation {number} refused: {why}") from why


def count_of(programs, library, side):
    """How many allocations a side makes."""
    count, step = 0, 1
    while refused_at(programs, library, side, count + step):
        count, step = count + step, 2 * step
    last = count + step
    while last - count > 1:
        middle = (count + last) // 2
        count, last = (middle, last) if refused_at(programs, library, side, middle) else (count, middle)
    return count


def in_turn(programs, library, side):
    """Refuses one allocation of a side after another, and answers how many, and what is wrong."""
    try:
        count = count_of(programs, library, side)
        untold = sum(refused_at(programs, library, side, number) == UNTOLD for number in range(1, count + 1))
        if untold > UNSAID[side]:
            raise Wrong(f"{untold} refused allocations of {side} are shown by nothing, {UNSAID[side]} at most are to be")
        return count, "" if count else f"{side} takes no memory"
    except (Wrong, OSError, subprocess.TimeoutExpired) as why:
        return 1, f"{why} ({os.path.basename(programs[side])})"


def wrong_of(programs, library):
    """What is wrong with these builds of the program, each with itself, and how many were refused: one run after
    another, since a run's client may take the port of another's server."""
    ends = [in_turn(dict.fromkeys(SIDES, one), library, side) for one in programs for side in SIDES]
    return [why for _, why in ends if why], sum(count for count, _ in ends)
