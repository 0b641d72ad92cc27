"""A script of lines that `connect` reads, and the server that it meets."""
import socket
import struct
import subprocess
import threading

from frames import CLOSE, CLOSED, SECONDS, TEXT, Server, compact, text
from runs import differs

GOODBYE = (CLOSE, b"")  # what the client closes with at the end of its input
SESSIONS = []


class Session:
    """A script of lines, what it prints, how it ends, and the server that it meets, which says step by step
    what it hears and has to hear. Where the lines are held, the server says by let_go when their end comes;
    where they are broken, the read behind them fails."""

    def __init__(self, server, lines, out, status=0, err=b"", stdout=None, is_held=False, is_broken=False, words=()):
        self.name, self.server = f"connect, {server.__doc__.strip('.')}", server
        self.lines, self.out = lines.encode(errors="surrogateescape"), out.encode()
        self.status, self.err, self.stdout = status, err, stdout
        self.is_held, self.is_broken, self.words = is_held, is_broken, words

    def begun(self, program, port):
        """The program, with its lines."""
        words, ends = [program, "connect", str(port), *self.words], {"stdout": subprocess.PIPE, "stderr": subprocess.PIPE}
        if self.stdout:
            with open(self.stdout, "wb") as out:
                return subprocess.Popen(words, **ends | {"stdin": subprocess.PIPE, "stdout": out})
        if self.is_broken:
            with broken(self.lines) as lines:
                return subprocess.Popen(words, stdin=lines, **ends)
        return subprocess.Popen(words, stdin=subprocess.PIPE, **ends)

    def feed(self, stdin, held):
        """Writes the lines, and ends them, where they are held once they are let go."""
        try:
            stdin.write(self.lines)
            stdin.flush()
            if self.is_held:
                held.wait(SECONDS)
            stdin.close()
        except OSError:
            pass  # the program ended first

    def wrong(self, program):
        """Runs the program against the server, and answers what is wrong, if anything is."""
        server, held = Server(), threading.Event()
        ran = self.begun(program, server.port)
        stdin, ran.stdin, server.let_go = ran.stdin, None, held.set
        feeder = threading.Thread(target=self.feed, args=(stdin, held))
        if stdin:
            feeder.start()
        try:
            for what, got, wanted in self.server(server):
                if got != wanted:
                    return f"{self.name}: {what} is {str(got)[:240]}, not {str(wanted)[:240]}"
            out, err = ran.communicate(timeout=SECONDS)
            return differs(self.name, (ran.returncode, out or b"", err), (self.status, self.out, self.err))
        except (OSError, ValueError, struct.error, subprocess.TimeoutExpired) as why:
            return f"{self.name}: {why!r}"
        finally:
            stop(ran)
            server.close()
            held.set()
            if stdin:
                feeder.join()


def broken(lines):
    """An input with these lines, behind which a read fails: a socket whose other end left bytes unread."""
    ours, theirs = socket.socketpair()
    theirs.send(b"unread")
    ours.sendall(lines)
    ours.close()
    return theirs


def stop(ran):
    """Ends a run, if it has not ended."""
    ran.kill()
    for stream in (ran.stdin, ran.stdout, ran.stderr):
        if stream:
            stream.close()
    ran.wait()


def session(lines, out, status=0, **given):
    """A session with the server that the function is."""
    return lambda server: SESSIONS.append(Session(server, lines, out, status, **given)) or server


# ---- what is sent and heard


def sent(message):
    """A frame of the client, as the server hears it."""
    return TEXT, compact(message).encode()


HELLO = sent({"k": "hello", "version": 2})


def listen(path, tag, **query):
    return sent({"k": "listen", "path": path, "tag": tag, **query})


def unlisten(tag):
    return sent({"k": "unlisten", "tag": tag})


def put(number, path, value, kind="put"):
    return sent({"id": number, "k": kind, "path": path, "value": value})


def data(path, tag, value):
    return text({"k": "data", "path": path, "tag": tag, "value": value})


def push(*parts):
    """A push of parts, each a tag and its entries."""
    return text({"k": "push", "parts": [{"entries": entries, "tag": tag} for tag, entries in parts]})


def ok(number):
    return text({"id": number, "k": "ok"})


def no(number, why):
    return text({"id": number, "k": "no", "why": why})


def hears(server, *frames):
    """What the client sends; before anything else of a connection, its version."""
    wanted = list(frames) if server.is_greeted else [HELLO, *frames]
    server.is_greeted = True
    return "what the client sends", server.hear_all(len(wanted)), wanted


def leaves(server):
    """The client closes, waits for the answer, and nothing comes behind."""
    yield hears(server, GOODBYE)
    yield "whether the client waits for the answer", is_there(server), True
    server.send(CLOSED)
    yield "what comes behind the client's close", server.hear(), None


def is_there(server):
    """Whether the client has not gone: nothing comes of it for a moment."""
    server.socket.settimeout(0.02)
    try:
        return bool(server.socket.recv(1, socket.MSG_PEEK))
    except TimeoutError:
        return True
    finally:
        server.socket.settimeout(SECONDS)


def goes(server, *sent):
    """What comes of one who ends by a fault: perhaps what it sent before, its close, and no more."""
    heard = []
    while (it := server.hear()) not in (None, GOODBYE):
        heard.append(it)
    wanted = list(sent) if server.is_greeted else [HELLO, *sent]
    yield "what comes of one who ends by a fault", heard, wanted[: len(heard)]
    server.send(CLOSED)
    yield "what comes behind its close", server.hear(), None
