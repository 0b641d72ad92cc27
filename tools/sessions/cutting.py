"""What ./check asks of `serve` and `connect` together: two processes over loopback, and each read and each
write of their connection failing in turn, on either side."""
import os
import struct
import subprocess
import threading
import time

from connecting import ROW, ROW_OUT, stop
from frames import CLOSED, SECONDS, TEXT, Client, free_port
from runs import differs

HERE = os.path.dirname(os.path.realpath(__file__))
CUT = b"cut\n"  # what tools/sessions/cut.c says where it cuts

# The lines whose connection is cut: those of the row, behind what is asked for the connection's end.
LINES = '["onDisconnect",1,"set","/p",true]\n["read",1]\n' + ROW
ASKED, ANSWERED, LISTENS, FIRST = "done 1\n", "done\nR1 ok\n", "done 1\n", "done\nL1 value null\n"
WRITES, PUSHED, ACCEPTED = 'done 2\nL1 added "x" 5 after none\nL1 value {"x":5}\n', "done\n", "done\nR2 ok\n"
GONE, LATER = "disconnected\n", "refused core 10 NotConnected\n"
# what a write prints where nothing is known of the path
BLIND = "done 2\n"

# What is printed where the connection is cut there.
HANDSHAKE = GONE + ASKED + LATER + LISTENS + LATER + BLIND + LATER
SENDING_ASKED = ASKED + GONE + LATER + LISTENS + LATER + BLIND + LATER
AWAITING_ANSWER = ASKED + GONE + LISTENS + LATER + BLIND + LATER
SENDING_LISTEN = ASKED + ANSWERED + LISTENS + GONE + LATER + BLIND + LATER
AWAITING_FIRST = ASKED + ANSWERED + LISTENS + GONE + BLIND + LATER
SENDING_WRITE = ASKED + ANSWERED + LISTENS + FIRST + WRITES + GONE + LATER
AWAITING_PUSH = ASKED + ANSWERED + LISTENS + FIRST + WRITES + GONE
AWAITING_LAST = ASKED + ANSWERED + LISTENS + FIRST + WRITES + PUSHED + GONE
WHOLE = ASKED + ANSWERED + LISTENS + FIRST + WRITES + PUSHED + ACCEPTED

# What the peer keeps: nothing, what was asked for the end, and that beside what was written.
NONE, ASKED_ALONE, BOTH = None, {"p": True}, {"a": {"x": 5}, "p": True}

# What is printed and kept, for each side and each kind of call, where one call after another fails. Some of
# these stand for several calls, which follow each other.
ENDS = {
    ("connect", "CUT_READ"): [
        (HANDSHAKE, NONE),
        (AWAITING_ANSWER, ASKED_ALONE),
        (AWAITING_FIRST, ASKED_ALONE),
        (AWAITING_PUSH, BOTH),
        (AWAITING_LAST, BOTH),
        (WHOLE, BOTH),
    ],
    ("connect", "CUT_WRITE"): [
        (HANDSHAKE, NONE),
        (SENDING_ASKED, NONE),
        (SENDING_LISTEN, ASKED_ALONE),
        (SENDING_WRITE, ASKED_ALONE),
        (WHOLE, BOTH),
    ],
    ("serve", "CUT_READ"): [
        (HANDSHAKE, NONE),
        (SENDING_ASKED, NONE),
        (AWAITING_ANSWER, NONE),
        (AWAITING_FIRST, ASKED_ALONE),
        (AWAITING_PUSH, ASKED_ALONE),
        (WHOLE, BOTH),
    ],
    ("serve", "CUT_WRITE"): [
        (HANDSHAKE, NONE),
        (AWAITING_ANSWER, ASKED_ALONE),
        (AWAITING_FIRST, ASKED_ALONE),
        (AWAITING_PUSH, BOTH),
        (AWAITING_LAST, BOTH),
        (WHOLE, BOTH),
    ],
}
# What may not come: one read of the client may bring both what is pushed and what is answered, and a server that is cut
# where it reads the client's version may be gone only behind what is asked.
SOMETIMES = {("connect", "CUT_READ"): [(AWAITING_LAST, BOTH)], ("serve", "CUT_READ"): [(SENDING_ASKED, NONE)]}


class Wrong(Exception):
    """What was seen, and had to be otherwise."""


def begun(words, lines, environment):
    """A program, with its lines in a pipe."""
    pipe = {"stdin": subprocess.PIPE, "stdout": subprocess.PIPE, "stderr": subprocess.PIPE}
    ran = subprocess.Popen(words, env={**os.environ, **environment}, **pipe)
    try:
        ran.stdin.write(lines.encode())
        ran.stdin.close()
    except BrokenPipeError:
        pass  # the program ended first
    ran.stdin = None
    return ran


class Saying(threading.Thread):
    """Reads what a program says on standard error to its end, so that it never waits for this, and hears that it listens at a port."""

    def __init__(self, stream, port, at="127.0.0.1"):
        super().__init__(daemon=True)
        self.stream, self.first = stream, f"listening on {at}:{port}\n".encode()
        self.lines, self.listens, self.is_known = [], False, threading.Event()

    def run(self):
        with self.stream:
            for line in self.stream:
                if line.startswith(b"kaltewi: ") and line.endswith(self.first):
                    self.listens = True
                    self.is_known.set()
                else:
                    self.lines.append(line)
        self.is_known.set()


PATIENCE = 5  # for how many seconds a line may be in coming on a busy host before it counts as lost


def served(program, count, environment, words=()):
    """A program that serves so many clients at a port, once it says that it listens there; no port where it has ended. What it tells of its
    connections is its `told`, once it has ended."""
    port, ends = free_port(), {"stdin": subprocess.DEVNULL, "stdout": subprocess.PIPE, "stderr": subprocess.PIPE}
    words = [program, "serve", str(port), "--count", str(count), "--verbose", *words]
    ran = subprocess.Popen(words, env={**os.environ, **environment}, **ends)
    ran.saying, ran.stderr = Saying(ran.stderr, port), None
    ran.saying.start()
    for _ in range(0, SECONDS, PATIENCE):
        if ran.saying.is_known.wait(PATIENCE) or b"refused\n" in ran.saying.lines:
            break  # where memory was refused for that line, it is lost
    return ran, port if ran.saying.listens else None


TELLS = b"kaltewi: connection ", b"kaltewi: a stream "  # what the lines begin with that `serve` tells of those that come


def ended(ran):
    """How a program ended: its status, what it printed, and what it said, but for what one that `served` began told of its connections."""
    out, err = ran.communicate(timeout=SECONDS)
    if not hasattr(ran, "saying"):
        return ran.returncode, out, err
    ran.saying.join(SECONDS)
    ran.told = [it for it in ran.saying.lines if it.startswith(TELLS)]
    return ran.returncode, out, b"".join(it for it in ran.saying.lines if not it.startswith(TELLS))


STRANGER = b"kaltewi: a stream is no WebSocket: "


def let_end(ran, port, came):
    """Once so many streams came to `serve`, comes as a client for each of them with whom no handshake came about, so that it ends."""
    until = time.monotonic() + SECONDS
    while ran.poll() is None and time.monotonic() < until:
        strangers = [it for it in ran.saying.lines if it.startswith(STRANGER)]
        if len(strangers) + sum(it.endswith(b" begins\n") for it in ran.saying.lines) >= came:
            break
        time.sleep(0.001)
    for _ in strangers if ran.poll() is None else ():
        Client(port).close()


def meet(programs, lines, clients, side="", cut=()):
    """Lets `connect` meet `serve`, and then further clients; answers how both ended, and what was found."""
    server = client = None
    try:
        given = {side: dict(cut)}
        server, port = served(programs["serve"], 1 + len(clients), given.get("serve", {}))
        if not port:
            raise Wrong("serve doesn't listen")
        client = begun([programs["connect"], "connect", str(port)], lines, given.get("connect", {}))
        of_client = ended(client)
        found = [it(port) for it in clients]
        let_end(server, port, 1 + len(clients))
        return of_client, ended(server), found
    finally:
        for ran in (server, client):
            if ran:
                stop(ran)


# ---- the row


def row(programs):
    """The row as two processes, what is printed and nothing else."""
    name = "serve_and_connect"
    try:
        client, server, _ = meet(programs, ROW, [])
        wrong = differs(name, client, (0, ROW_OUT.encode(), b""))
        return wrong or differs(f"{name}, serve", server, (0, b"", b""))
    except (Wrong, OSError, subprocess.TimeoutExpired) as why:
        return f"{name}: {why!r}"


# ---- calls that fail in turn


SHOWN, BEFORE = 160, 40  # how many characters of a long text are shown, and how many of them before the first that differs


def apart(got, wanted):
    """Two values as texts, of long ones what stands where they begin to differ."""
    both, at = (str(got), str(wanted)), 0
    if max(map(len, both)) > SHOWN:
        at = max(0, len(os.path.commonprefix(both)) - BEFORE)
    return [(".." if at else "") + it[at : at + SHOWN] + (".." if it[at + SHOWN :] else "") for it in both]


def must(what, got, wanted):
    if got != wanted:
        raise Wrong("{} is {}, not {}".format(what, *apart(got, wanted)))


def second(port):
    """The second client finds a tree, which it answers, and no listen but its own: a write is told once."""
    client = Client(port)
    [(_, shown)] = client.ask({"k": "listen", "path": "/", "tag": 9}, 1)
    tree = shown.pop("value")
    must("what the second client's listen is sent", shown, {"k": "data", "path": "/", "tag": 9})
    for number, (path, value) in enumerate((("/a/x", 7), ("/p", False)), 1):
        told = client.ask({"id": number, "k": "put", "path": path, "value": value}, 2)
        push, ok = {"k": "data", "path": path, "tag": 9, "value": value}, {"id": number, "k": "ok"}
        must("what the second client's write is sent", told, [(TEXT, push), (TEXT, ok)])
    must("what the second client's close is sent", client.close(), CLOSED)
    return tree


def third(port):
    """The third client finds what the second left: what the first asked for its end wasn't done once more."""
    client = Client(port)
    [(_, shown)] = client.ask({"k": "listen", "path": "/", "tag": 1}, 1)
    must("what the third client's listen is sent", shown["value"], {"a": {"x": 7}, "p": False})
    must("what the third client's close is sent", client.close(), CLOSED)


def cut_at(programs, library, side, kind, number):
    """Cuts a call; answers what was printed and what the peer kept, and whether there was such a call."""
    cut = {"LD_PRELOAD": library, kind: str(number)}
    client, server, (tree, _) = meet(programs, LINES, [second, third], side, cut)
    is_cut = (client if side == "connect" else server)[2] == CUT
    said = {side: CUT if is_cut else b""}
    must("what connect ends with, and says", (client[0], client[2]), (0, said.get("connect", b"")))
    must("what serve ends with, prints and says", server, (0, b"", said.get("serve", b"")))
    return (client[1].decode(), tree), is_cut


def in_turn(programs, library, side, kind):
    """Cuts one call after another, until there is none, and answers how many. What they leave has to come in
    the order of ENDS, and all of it."""
    due, seen, count = ENDS[side, kind], [], 0
    while True:
        end, is_cut = cut_at(programs, library, side, kind, count + 1)
        seen += [end] if end not in seen[-1:] else []
        if end not in due or not is_cut and end != due[-1]:
            raise Wrong(f"with call {count + 1} cut, what is printed and kept is {end}")
        if not is_cut:
            sometimes = SOMETIMES.get((side, kind), [])
            must("what is left in turn", *([it for it in ends if it not in sometimes] for ends in (seen, due)))
            return count
        count += 1


def library_of(room):
    """Builds the library that cuts, and answers where it is, and what went wrong."""
    library = f"{room}/cut.so"
    words = ["cc", "-shared", "-fPIC", "-O1", "-o", library, f"{HERE}/cut.c"]
    made = subprocess.run(words, capture_output=True, text=True)
    return library, made.stdout + made.stderr if made.returncode else ""


def wrong_of(programs, room):
    """What is wrong with these builds of the program, each as either side, and how many calls were cut."""
    library, why = library_of(room)
    if why:
        return [f"tools/sessions/cut.c can't be compiled: {why[:300]}"], 0
    wrong = [row({"serve": server, "connect": client}) for server in programs for client in programs]
    wrong, count = [it for it in wrong if it], 0
    for one, other in zip(programs, reversed(programs)):
        for side, kind in ENDS:
            both = {"serve": other, "connect": other, side: one}
            try:
                count += in_turn(both, library, side, kind)
            except (Wrong, OSError, ValueError, struct.error, subprocess.TimeoutExpired) as why:
                wrong.append(f"{side}, {kind}: {why} ({os.path.basename(one)})")
    return wrong, count
