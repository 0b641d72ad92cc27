"""What ./check asks of `watch`: that clients see each other live and end with the same view, how a run ends, what it prints, that it sleeps, and
bad words."""
import json
import os
import re
import socket
import struct
import subprocess
import threading
import time

from connecting import READ_FAULT, WRITE_FAULT
from cutting import Wrong, must
from emulating import Emulator, asked, ok, put, shown, ticks
from frames import BINARY, CLOSE, PING, SECONDS, Client, Server, frame, free_port, text
from session import HELLO, broken, listen, stop
from session import data as pushed
from session import ok as accepted
from session import put as wrote

ROOT = os.path.dirname(os.path.dirname(os.path.dirname(os.path.realpath(__file__))))
ENDS = {"stdout": subprocess.PIPE, "stderr": subprocess.PIPE}

# two terminals: what is typed in each, and what it prints
LISTENS, LISTENED = '["listen",1,"/a",[]]\n', "done 1\nL1 value null\n"
WRITES, WRITTEN = '["set",1,"/a/x",5]\n', 'done 1\nL1 added "x" 5 after none\nL1 value {"x":5}\nR1 ok\n'
HEARD = 'L1 added "x" 5 after none\nL1 value {"x":5}\n'


class Watch:
    """A program that watches. Its input is open until `end`."""

    def __init__(self, program, port, *words, lines="", **given):
        self.ran = subprocess.Popen([program, "watch", str(port), *words], **{"stdin": subprocess.PIPE, **ENDS, **given})
        if lines:
            self.type(lines)

    def __enter__(self):
        return self

    def __exit__(self, *_):
        stop(self.ran)

    def type(self, lines):
        try:
            self.ran.stdin.write(lines.encode())
            self.ran.stdin.flush()
        except BrokenPipeError:
            pass  # it has ended, and how is asked

    def prints(self, what, out):
        """What is printed now, and no more is waited for."""
        ends = threading.Timer(SECONDS, self.ran.kill)
        ends.start()
        try:
            must(what, self.ran.stdout.read(len(out.encode())).decode(), out)
        finally:
            ends.cancel()

    def line_of(self, stream):
        """The next line of one of its streams."""
        ends = threading.Timer(SECONDS, self.ran.kill)
        ends.start()
        try:
            return stream.readline().decode()
        finally:
            ends.cancel()

    def reads(self):
        """The next line that is printed."""
        return self.line_of(self.ran.stdout)

    def tells(self):
        """The next line on its standard error."""
        return self.line_of(self.ran.stderr)

    def end(self):
        """Ends its input."""
        try:
            self.ran.stdin.close()
        except BrokenPipeError:
            pass  # it has ended, and how is asked
        self.ran.stdin = None

    def ended(self):
        """How it ends by itself."""
        out, err = self.ran.communicate(timeout=SECONDS)
        return self.ran.returncode, (out or b"").decode(), (err or b"").decode()


# ---- each session


def two_see_each_other(program):
    """What is typed in one shows in the other at once, and each ends where the emulator does."""
    with Emulator(program) as it, Watch(program, it.port) as one, Watch(program, it.port) as two:
        for here in (one, two):
            here.type(LISTENS)
            here.prints("a listen", LISTENED)
        two.type(WRITES)
        two.prints("a write, where it is typed", WRITTEN)
        one.prints("a write, in the other", HEARD)
        one.type('["remove",1,"/a/x"]\n')
        one.prints("a removal, where it is typed", 'done 1\nL1 removed "x" 5\nL1 value null\nR1 ok\n')
        two.prints("a removal, in the other", 'L1 removed "x" 5\nL1 value null\n')
        one.end()
        must("a write of a third", asked(Client(it.port), put(1, "/a/y", "é")), ok(1))
        for here in (one, two):
            here.prints("a write of a third", 'L1 added "y" "é" after none\nL1 value {"y":"é"}\n')
        must("how the emulator ends", it.end(), (0, b""))
        must("how one ends whose input has ended", one.ended(), (0, "disconnected\n", ""))
        two.prints("the end of the connection", "disconnected\n")
        two.type('["set",1,"/a/y",6]\n')
        two.prints("a line then", 'done 2\nL1 changed "y" 6 after none\nL1 value {"y":6}\n')
        two.end()
        must("how the other ends", two.ended(), (0, "", ""))


QUERIES = ['["listen",1,"/a",[]]', '["listen",2,"/a",[["orderByValue"],["limitToLast",3]]]', '["listen",3,"/a",[["orderByKey"],["startAt","k5"]]]']


def views_of(tree):
    """What the three queries show of a tree: the rows of each, in order."""
    by_key = sorted(tree.items())
    return [by_key, sorted(by_key, key=lambda it: (it[1], it[0]))[-3:], [it for it in by_key if it[0] >= "k5"]]


def replayed(printed, listener):
    """The rows, in order, that the changes lead to which were printed for a listener, and the value that was printed last."""
    rows, value = [], None
    for line in re.findall(rf"(?m)^L{listener} (.*)$", printed):
        kind, _, rest = line.partition(" ")
        if kind == "value":
            value = json.loads(rest)
            continue
        key = re.match(r'"(\w+)"', rest)[1]
        rows = [row for row in rows if row[0] != key]
        if kind != "removed":
            found = re.match(r'"\w+" (.*) after (?:none|"(\w+)")$', rest)
            before = [row[0] for row in rows].index(found[2]) + 1 if found[2] else 0
            rows.insert(before, (key, json.loads(found[1])))
    return rows, value


class Hearing(threading.Thread):
    """Takes in what a run prints, and lets go who waits for a line that begins so."""

    def __init__(self, watch):
        super().__init__()
        self.stdout, self.lines, self.at, self.news = watch.ran.stdout, [], 0, threading.Condition()

    def run(self):
        for line in self.stdout:
            with self.news:
                self.lines.append(line.decode())
                self.news.notify_all()

    def has(self, start):
        """Whether a line that was not looked at yet begins so."""
        while self.at < len(self.lines):
            self.at += 1
            if self.lines[self.at - 1].startswith(start):
                return True
        return False

    def awaits(self, start):
        with self.news:
            if not self.news.wait_for(lambda: self.has(start), SECONDS):
                raise Wrong(f"no line begins with {start}: {self.lines[-4:]}")


def all_end_with_one_view(program, count=3, writes=1_000):
    """Each of three that write and listen at once ends with the same views, which are the queries over the emulator's tree."""
    with Emulator(program) as it:
        watches = [Watch(program, it.port) for _ in range(count)]
        hearing = [Hearing(one) for one in watches]
        typing = []
        for number, one in enumerate(watches):
            lines = QUERIES + [f'["set",1,"/a/k{n % 10}",{n * count + number}]' for n in range(writes)]
            typing.append(threading.Thread(target=one.type, args=("".join(f"{line}\n" for line in lines),)))
        try:
            for one in hearing + typing:
                one.start()
            for one in hearing:
                one.awaits(f"R{writes} ok")
            must("a write behind all others", asked(Client(it.port), put(1, "/a/last", writes * count)), ok(1))
            for one in hearing:
                one.awaits('L3 added "last"')
            tree = shown(it.port, "/a")
            must("how the emulator ends", it.end(), (0, b""))
            for one in watches:
                one.end()
            for number, one in enumerate(hearing):
                one.join(SECONDS)
                judge_views(f"client {number + 1}", "".join(one.lines), tree, writes)
                must("how each ends", watches[number].ran.wait(SECONDS), 0)
        finally:
            for one in watches:
                stop(one.ran)


def judge_views(who, printed, tree, writes):
    """What one printed that ends with this tree."""
    must(f"how many writes of {who} are accepted", len(re.findall(r"(?m)^R\d+ ok$", printed)), writes)
    must(f"the last line of {who}", printed.splitlines()[-1:], ["disconnected"])
    for listener, view in enumerate(views_of(tree), 1):
        rows, value = replayed(printed, listener)
        must(f"what listener {listener} of {who} shows at the end", value, dict(view))
        must(f"what the changes of listener {listener} of {who} lead to", rows, view)


def it_ends_when_it_is_quiet(program):
    """With --idle a run ends by itself once its input has ended and nothing was printed for so long; it closes its connection."""
    with Emulator(program) as it, Watch(program, it.port, "--idle", "300", lines=WRITES) as one:
        one.end()
        must("how it ends", one.ended(), (0, "done 1\nR1 ok\n", ""))
        it.tells("connection 1 ends: the client closed it")
        must("what it left", shown(it.port), {"a": {"x": 5}})
        must("how the emulator ends", it.end(), (0, b""))


def an_idle_one_sleeps(program):
    """While nothing comes, no thread of a run takes any of the processor's time, with a connection and without."""
    with Emulator(program) as it, Watch(program, it.port, lines=LISTENS) as one:
        one.prints("a listen", LISTENED)
        for what in ("beside a connection", "behind it"):
            began = ticks(one.ran.pid)
            time.sleep(1)
            if ticks(one.ran.pid) - began > 5:
                raise Wrong(f"an idle run takes {ticks(one.ran.pid) - began} ticks in a second {what}")
            if what == "beside a connection":
                must("how the emulator ends", it.end(), (0, b""))
                one.prints("the end of the connection", "disconnected\n")
        one.end()
        must("how it ends", one.ended(), (0, "", ""))


ODD_LINES = '["read",1]\n\nhello\n["connected"]\n["set",9,"/a",1]\n["set",1,"/a",1.5]\n["cover"]\n["close",2]\n["set",2,"/a",1]\n'
ODD_OUT = "bad line 1\nbad line 3\nbad line 4\nrefused client 2 WrongSeat\nrefused tree 4 NotWhole\nT none\ndone\nrefused client 2 WrongSeat\n"
CONNECTED = """kaltewi: connected: type a line such as ["listen",1,"/a",[]]; 'kaltewi watch --help' has all forms; Ctrl-D ends the lines, and Ctrl-C the run\n"""
ENDED = "kaltewi: the lines have ended: it goes on until the connection ends or, with --idle, nothing was printed for so long; Ctrl-C ends it at once\n"
AGAIN = "kaltewi: the lines go on, and it connects again: in a second, and then less and less often, at least each 30 seconds\n"
NO_WORD = "begins with none of the words listen, unlisten, set, update, remove, onDisconnect, close, cover, view and push\n"
NOT_WHOLE = "is refused: a number must be whole, from -9007199254740991 to 9007199254740991\n"
ODD_TOLD = f"{CONNECTED}kaltewi: line 1 {NO_WORD}kaltewi: line 3 is no JSON\nkaltewi: line 4 {NO_WORD}kaltewi: line 6 {NOT_WHOLE}{ENDED}"


def lines_are_told(program):
    """Lines that are bad or refused print so, `read` among them, and are told where that is asked for."""
    for words, told in (([], ""), (["--verbose"], ODD_TOLD)):
        with Emulator(program) as it, Watch(program, it.port, "--idle", "100", *words, lines=ODD_LINES) as one:
            one.end()
            must("how bad lines end", one.ended(), (1, ODD_OUT, told))


def a_server_is_heard(program):
    """What a server sends is taken as it comes: what can't be read or taken is told, pings are answered, and its close ends the run."""
    server = Server()
    with Watch(program, server.port, "-v", lines=LISTENS) as one:
        try:
            server.welcome()
            must("what is told of the connection", one.tells(), CONNECTED)
            must("what the client sends", server.hear_all(2), [HELLO, listen("/a", 1)])
            server.send(text("{}"), frame(BINARY, "x"), accepted(7), pushed("/a", 1, {"x": 1}), frame(PING, "hi"))
            must("what answers a ping", server.hear()[1], b"hi")
            one.prints("a listen", "done 1\n")
            one.prints("what can't be read or taken", HEARD_BADLY)
            one.type('["set",1,"/a/x",2]\n')
            must("a write", server.hear(), wrote(1, "/a/x", 2))
            one.prints("a write", 'done 1\nL1 changed "x" 2 after none\nL1 value {"x":2}\n')
            one.end()
            must("what is told of the end of the lines", one.tells(), ENDED)
            server.send(frame(CLOSE, b"\x03\xe9bye"))
            must("what answers a close", server.hear(), (CLOSE, b"\x03\xe9bye"))
            why = "kaltewi: the server closed the connection with code 1001: \"bye\"\n"
            must("how it ends", one.ended(), (0, "disconnected\n", why))
        finally:
            server.close()


HEARD_BADLY = 'refused wire 2 UnknownKind\nrefused wire 1 NotJson\nL1 added "x" 1 after none\nL1 value {"x":1}\n'


def no_connection(program):
    """A server that speaks no WebSocket is no connection, and lines go on; where nobody listens it ends at once, and says so."""
    server = Server()
    with Watch(program, server.port, lines=LISTENS) as one:
        try:
            server.meet()
            server.socket.sendall(b"HTTP/1.1 404 Not Found\r\nContent-Length: 0\r\n\r\n")
            one.prints("no handshake, and a line then", "disconnected\ndone 1\n")
            one.end()
            must("how it ends", one.ended(), (0, "", ""))
        finally:
            server.close()
    port = free_port()
    with Watch(program, port) as one:
        said = f"kaltewi: 127.0.0.1:{port}: no connection can be made: Connection refused (os error 111)\n"
        must("how it ends where nobody listens", one.ended(), (1, "", said))


def a_stream_fails_first(program):
    """A stream that is closed or reset before the handshake is done is no connection, and lines go on."""
    for what in ("closed", "reset"):
        server = Server()
        with Watch(program, server.port, "--once", lines=LISTENS) as one:
            try:
                stream = server.listener.accept()[0]
                if what == "reset":
                    stream.setsockopt(socket.SOL_SOCKET, socket.SO_LINGER, struct.pack("ii", 1, 0))
                stream.close()
                one.prints(f"a {what} stream, and a line then", "disconnected\ndone 1\n")
                one.end()
                must(f"how it ends behind a {what} stream", one.ended(), (0, "", ""))
            finally:
                server.close()


def it_connects_again(program):
    """Behind the end of its connection it connects again, and sends its listens and the requests without an answer; with --once it does not."""
    server = Server()
    with Watch(program, server.port, "-v", lines=LISTENS) as one:
        try:
            server.welcome()
            must("what is told of the connection", one.tells(), CONNECTED)
            must("what the client sends", server.hear_all(2), [HELLO, listen("/a", 1)])
            server.send(pushed("/a", 1, {"y": 1}))
            one.prints("a listen", 'done 1\nL1 added "y" 1 after none\nL1 value {"y":1}\n')
            server.send(frame(CLOSE, b"\x03\xe9bye"))
            one.prints("the end of the connection", "disconnected\n")
            must("what is told of the end", one.tells(), "kaltewi: the server closed the connection with code 1001: \"bye\"\n")
            must("what is told behind it", one.tells(), AGAIN)
            server.socket.close()
            one.type(WRITES)
            one.prints("a line without a connection", 'done 1\nL1 added "x" 5 after none\nL1 value {"x":5,"y":1}\n')
            began = time.monotonic()
            server.welcome()
            if time.monotonic() - began < 0.5:
                raise Wrong("it connects again at once")
            must("what is told of the next connection", one.tells(), "kaltewi: connected again\n")
            must("what is sent again", server.hear_all(3), [HELLO, listen("/a", 1), wrote(1, "/a/x", 5)])
            server.send(pushed("/a", 1, {"x": 5, "y": 1}), accepted(1))
            one.prints("the answer of the next connection", "R1 ok\n")
            one.end()
            must("what is told of the end of the lines", one.tells(), ENDED)
            server.send(frame(CLOSE, b"\x03\xe8"))
            must("how it ends", one.ended(), (0, "disconnected\n", 'kaltewi: the server closed the connection with code 1000: ""\n'))
        finally:
            server.close()


def once_it_connects(program):
    """With --once there is no second connection."""
    server = Server()
    with Watch(program, server.port, "--once", lines=LISTENS) as one:
        try:
            server.welcome()
            must("what the client sends", server.hear_all(2), [HELLO, listen("/a", 1)])
            server.send(frame(CLOSE, b"\x03\xe8"))
            one.prints("the end of the connection", "done 1\ndisconnected\n")
            server.listener.settimeout(2)
            try:
                server.listener.accept()
                raise Wrong("it connects again with --once")
            except TimeoutError:
                pass
            one.end()
            must("how it ends", one.ended(), (0, "", ""))
        finally:
            server.close()


LONG = "é" * 40
ADDED, VALUE = f'L1 added "x" "{LONG}" after none\n', f'L1 value {{"x":"{LONG}"}}\n'
CUT = f'L1 value {{"x":"{"é" * 6} .. (88 bytes)\n'


def values_are_shaped(program):
    """Whole values are printed, left out, or cut between two characters; what a listener shows is printed whole."""
    for words, first, value in (([], "L1 value null\n", VALUE), (["--changes"], "", ""), (["--width", "60"], "L1 value null\n", CUT)):
        with Emulator(program) as it, Watch(program, it.port, *words, lines=LISTENS) as one:
            one.prints(f"a listen {words}", "done 1\n" + first)
            one.type(f'["set",1,"/a/x","{LONG}"]\n')
            one.prints(f"a write {words}", f"done 1\n{ADDED}{value}R1 ok\n")
            one.type('["view",1]\n["view",2]\n')
            one.prints(f"a view {words}", f'row "x" "{LONG}"\nrefused core 2 UnknownListener\n')


# what a terminal obeys in a text, as it is and by its numbers
OBEYED, NUMBERED = "\x7f\x9b31m\u202e\u2066", r"\u007f\u009b31m\u202e\u2066"


def texts_are_escaped(program):
    """What a terminal obeys is printed as it is or, with --escape, by its number, also where a value is cut."""
    for words, text, value in (
        ([], OBEYED, f'L1 value {{"x":"{OBEYED}{LONG}"}}\n'),
        (["--escape"], NUMBERED, f'L1 value {{"x":"{NUMBERED}{LONG}"}}\n'),
        (["--escape", "--width", "62"], NUMBERED, f'L1 value {{"x":"{NUMBERED}é .. (100 bytes)\n'),
        (["--changes", "--escape"], NUMBERED, ""),
    ):
        with Emulator(program) as it, Watch(program, it.port, *words, lines=LISTENS) as one:
            one.prints(f"a listen {words}", "done 1\n" + ("" if "--changes" in words else "L1 value null\n"))
            one.type(f'["set",1,"/a/x","{NUMBERED}{LONG}"]\n')
            one.prints(f"a write {words}", f'done 1\nL1 added "x" "{text}{LONG}" after none\n{value}R1 ok\n')


def it_pushes(program):
    """A value is written below a path by a push id, which is printed; ids rise. A word that is refused is told in words."""
    with Emulator(program) as it, Watch(program, it.port, "-v", lines="") as one:
        must("what is told of the connection", one.tells(), CONNECTED)
        keys = []
        for value in (1, 2):
            one.type(f'["push",1,"/a",{value}]\n')
            line = one.reads()
            keys.append(line.removeprefix("id ").rstrip("\n"))
            must("a push id", (line[:3], len(keys[-1])), ("id ", 20))
            one.prints("a push", f"done {value}\nR{value} ok\n")
        must("the order of the ids", keys, sorted(set(keys)))
        one.type('["listen",1,"/a",[]]\n')
        added = f'L1 added "{keys[0]}" 1 after none\nL1 added "{keys[1]}" 2 after "{keys[0]}"\n'
        one.prints("what was pushed", f'done 1\n{added}L1 value {{"{keys[0]}":1,"{keys[1]}":2}}\n')
        one.type('["push",1,"/a.b",1]\n["push",9,"/a",1]\n')
        one.prints("a path that is none", "refused tree 1 BadKey\n")
        must("what is told of it", one.tells().partition(" is refused: ")[0], "kaltewi: line 4")
        must("a seat that is none", (one.reads()[:3], one.reads()), ("id ", "refused client 2 WrongSeat\n"))


def failing_streams(program):
    """An input that can't be read ends a run behind what its lines print, and an output that can't be written ends it."""
    with Emulator(program) as it, broken(LISTENS.encode()) as lines, Watch(program, it.port, stdin=lines) as one:
        status, out, err = one.ended()
        must("a broken input", (status, out[:7], err), (1, "done 1\n", READ_FAULT.decode()))
        with open("/dev/full", "wb") as full, Watch(program, it.port, lines=LISTENS, stdout=full) as two:
            must("a full output", two.ended(), (1, "", WRITE_FAULT.decode()))


# ---- where memory lacks

REFUSED = b"refused\n"  # what tests/calls/refuse.c says where it refuses
NO_THREAD = b"kaltewi: the system refuses a thread, or what waiting needs: operation would block\n"  # it has no memory for one
LACKING = (b"kaltewi: out of memory\n", b"error: out of memory\n", NO_THREAD)  # the second is what clap says
LOOKS, LOOKED = '["cover"]\n' + LISTENS, "T none\ndone 1\n"
PUSHED_OUT = 'L1 added "x" 5 after none\nL1 value {"x":5}\n'
WHOLE = (LOOKED + PUSHED_OUT + "disconnected\n").encode()
NO_HANDSHAKE = ("disconnected\n" + LOOKED).encode()  # tungstenite says of a head that is read without memory that it is bad


def serve_listen(server):
    """Serves a client that listens, as far as it comes."""
    try:
        server.welcome()
        if server.hear_all(2)[1]:  # its version, and its listen
            server.send(pushed("/a", 1, {"x": 5}), frame(CLOSE, b"\x03\xe8"))
            server.hear()
    except (OSError, ValueError, TypeError, struct.error):
        pass  # the client has ended


def refused_at(program, library, number):
    """Refuses an allocation, and answers whether there was one."""
    server = Server()
    serving = threading.Thread(target=serve_listen, args=(server,))
    serving.start()
    given = {"env": {**os.environ, "LD_PRELOAD": library, "REFUSED_ALLOCATION": str(number)}}
    with Watch(program, server.port, lines=LOOKS, **given) as one:
        one.end()
        out, err = one.ran.communicate(timeout=SECONDS)
        status = one.ran.returncode
    server.listener.shutdown(socket.SHUT_RDWR)  # so that nobody is waited for who didn't come
    serving.join(SECONDS)
    server.close()
    if REFUSED not in err:
        must("how it ends with memory", (status, out, err), (0, WHOLE, b""))
    elif (status, out, err) not in ((0, WHOLE, REFUSED), (0, NO_HANDSHAKE, REFUSED)):
        is_told = status == 1 and WHOLE.startswith(out) and err.replace(REFUSED, b"", 1) in LACKING
        must(f"allocation {number} refused: {(status, out, err)}", is_told, True)
    return REFUSED in err


def refused_of(programs, library):
    """What is wrong with builds of the program of which one allocation after another is refused, and how many were. A thread of its own reads
    the lines, so that which one has a number differs from run to run."""
    wrong, count = [], 0
    for program in programs:
        try:
            number = 1
            while refused_at(program, library, number):
                number += 1
            count += number - 1
        except (Wrong, OSError, subprocess.TimeoutExpired) as why:
            wrong.append(f"{why} ({os.path.basename(program)})")
    return wrong, count


SESSIONS = [
    two_see_each_other,
    all_end_with_one_view,
    it_ends_when_it_is_quiet,
    an_idle_one_sleeps,
    lines_are_told,
    a_server_is_heard,
    a_stream_fails_first,
    it_connects_again,
    once_it_connects,
    values_are_shaped,
    texts_are_escaped,
    it_pushes,
    no_connection,
    failing_streams,
]

# bad words, and what is said of them first; behind it stand clap's tips
WORDS = {
    (): "error: the following required arguments were not provided:\n  <PORT>\n",
    ("0",): "error: invalid value '0' for '<PORT>': 0 is not in 1..=65535\n",
    ("8080", "--idle"): "error: a value is required for '--idle <MS>' but none was supplied\n",
    ("8080", "--idle", "0"): "error: invalid value '0' for '--idle <MS>': 0 is not in 1..=65535\n",
    ("8080", "--idle", "65536"): "error: invalid value '65536' for '--idle <MS>': 65536 is not in 1..=65535\n",
    ("8080", "8081"): "error: unexpected argument '8081' found\n",
    ("8080", "--escape", "--escape"): "error: the argument '--escape' cannot be used multiple times\n",
    ("8080", "--width", "0"): "error: invalid value '0' for '--width <N>': 0 is not in 1..=65535\n",
}


def bad_words(program, words, wanted):
    ran = subprocess.run([program, "watch", *words], input=LISTENS.encode(), timeout=SECONDS, **ENDS)
    must(f"watch {' '.join(words)}", (ran.returncode, ran.stdout, ran.stderr[: len(wanted)].decode()), (2, b"", wanted))


def not_shown():
    """What is wrong with the page that has to show the two terminals, if anything is. README.md has a picture of a recorded session (tools/recording)."""
    with open(f"{ROOT}/docs/FORMATS.md", encoding="utf-8") as it:
        whole = it.read()
    if any(part not in whole for part in (LISTENS, LISTENED, WRITES, WRITTEN, HEARD)):
        yield "docs/FORMATS.md doesn't show two terminals that watch"


def wrong_of(programs):
    """What is wrong with these builds of the program, and how many runs there were."""
    runs = [(it.__name__, it) for it in SESSIONS]
    runs += [(f"watch {' '.join(words)}", lambda program, words=words, wanted=wanted: bad_words(program, words, wanted)) for words, wanted in WORDS.items()]
    wrong = list(not_shown())
    for program in programs:
        for name, run in runs:
            try:
                run(program)
            except (Wrong, OSError, ValueError, TypeError, KeyError, struct.error, subprocess.TimeoutExpired) as why:
                wrong.append(f"{name}: {why!r} ({os.path.basename(program)})")
    return wrong, len(runs) * len(programs)
