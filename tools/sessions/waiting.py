"""What ./check asks of `connect` before a server that says nothing: how long it waits, what it prints, and how it ends. All at once, since each takes its time."""
import os
import subprocess
import time
from concurrent.futures import ThreadPoolExecutor

from frames import CLOSED, PING, PONG, Server, frame
from runs import differs
from session import GOODBYE, HELLO, data, listen, stop

LINES = b'["listen",1,"/a",[]]\n["read",1]\n'
LISTENS = [HELLO, listen("/a", 1)]
ASKED = (PING, b"")
ENDS = {"stdin": subprocess.PIPE, "stdout": subprocess.PIPE, "stderr": subprocess.PIPE}
# how much later than it should a run may end, on a busy machine
LATE = 15


def says_nothing(server):
    """A server that says nothing to the request is given up after 10 seconds, and the lines go on."""
    server.meet()
    yield "what comes behind the request", server.hear(), None


def falls_silent(server):
    """A server that is silent is asked whether it is there after 30 seconds, and given up after 60."""
    server.welcome()
    yield "what it is asked", server.hear_all(3), [*LISTENS, ASKED]
    yield "what comes behind that", server.hear(), None


def answers_pings(server):
    """A server that answers that is waited for further: a pong is no silence."""
    server.welcome()
    yield "what it is asked", server.hear_all(3), [*LISTENS, ASKED]
    server.send(frame(PONG, b""))
    yield "what it is asked behind its answer", server.hear(), ASKED
    server.send(frame(PONG, b""), data("/a", 1, 5))
    yield "the client's close", server.hear(), GOODBYE
    server.send(CLOSED)


def stays(server):
    """A server that doesn't answer the client's close is left after a second."""
    server.welcome()
    yield "what it hears", server.hear_all(2), LISTENS
    server.send(data("/a", 1, 5))
    yield "the client's close", server.hear(), GOODBYE
    yield "what comes behind that", server.hear(), None


SHOWN = "done 1\ndone\nL1 value 5\n"
# a server, what is printed and what is told beside it, and the seconds that the run takes
SILENT = [
    (says_nothing, "disconnected\ndone 1\nrefused core 10 NotConnected\n", "the handshake was not done within 10000 ms", 10),
    (falls_silent, "done 1\ndisconnected\n", "the server was silent for 60000 ms", 60),
    (answers_pings, SHOWN, "the server closed the connection, without a code", 60),
    (stays, SHOWN + "disconnected\n", "the server did not close the connection, and said nothing for 1000 ms", 1),
]


def wrong_in(program, serves, out, told, seconds):
    """What is wrong with a run of the program before that server, if anything is."""
    name, server, begun = f"connect, {serves.__doc__.strip('.')}", Server(), time.monotonic()
    ran = subprocess.Popen([program, "connect", str(server.port), "--verbose"], **ENDS)
    try:
        ran.stdin.write(LINES)
        ran.stdin.close()
        for what, got, wanted in serves(server):
            if got != wanted:
                return f"{name}: {what} is {str(got)[:240]}, not {wanted}"
        status, took = ran.wait(seconds + LATE), time.monotonic() - begun
        if not seconds - 0.5 <= took <= seconds + LATE:
            return f"{name}: it takes {took:.1f} s"
        said = status, ran.stdout.read(), ran.stderr.read()
        return differs(name, said, (0, out.encode(), f"kaltewi: {told}\n".encode()))
    except (OSError, ValueError, subprocess.TimeoutExpired) as why:
        return f"{name}: {why!r}"
    finally:
        stop(ran)
        server.close()


def wrong_of(programs):
    """What is wrong with these builds of the program, and how many runs there were."""
    runs = [(program, *it) for program in programs for it in SILENT]
    with ThreadPoolExecutor(len(runs)) as pool:
        said = list(pool.map(lambda it: (it[0], wrong_in(*it)), runs))
    return [f"{why} ({os.path.basename(program)})" for program, why in said if why], len(runs)
