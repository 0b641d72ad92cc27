"""Servers by two other WebSocket libraries, Debian's python3-websockets and node-ws, meet `connect`."""
import json
import os
import shutil
import subprocess

from common import HELLO, MIB, MOST, SECONDS, Wrong, data, listen, must, no, ok, parts, push, put, revoke, texts_of

HERE = os.path.dirname(os.path.realpath(__file__))
HEAD = 10  # how many bytes a server's long frame has before its text
NODE_PATH = "/usr/share/nodejs:/usr/lib/nodejs"  # where Debian's packages of Node are
SERVERS = {
    "python3-websockets": ["/usr/bin/python3", "-B", f"{HERE}/server.py"],
    "node-ws": [shutil.which("node") or "nodejs", f"{HERE}/server.js"],
}
CASES = []


class Case:
    """A case with its name, the library of its server, the lines of `connect` and what it prints, and the
    steps of the server behind the client's first message, which tests/interop/server.py explains."""

    def __init__(self, name, library, lines, out, steps):
        self.name, self.library, self.steps = f"connect, {library}: {name}", library, [hear(HELLO), *steps]
        self.lines, self.out = "".join(f"{it}\n" for it in lines), "".join(f"{it}\n" for it in out)

    def why_wrong(self, program):
        """Runs the case, and answers what is wrong, if anything is."""
        server = client = None
        try:
            server = begun(SERVERS[self.library], f"{json.dumps(self.steps)}\n")
            port = server.stdout.readline().split()[-1]
            client = begun([program, "connect", port], self.lines)
            out, err = client.communicate(timeout=SECONDS)
            said, broken = server.communicate(timeout=SECONDS)
            must("what the server saw", (said, broken), ("well\n", ""))
            must("what connect prints", out, self.out)
            must("what it ends with, and says", (client.returncode, err), (0, ""))
            return ""
        except Wrong as why:
            return str(why)
        except subprocess.TimeoutExpired as why:
            return f"{why.cmd[-1]} doesn't end within {SECONDS} seconds"
        except (OSError, IndexError) as why:
            return repr(why)
        finally:
            for it in (server, client):
                if it:
                    it.kill()
                    it.communicate()


def begun(words, lines):
    """A program, with these lines to read."""
    ends = {"stdin": subprocess.PIPE, "stdout": subprocess.PIPE, "stderr": subprocess.PIPE}
    ran = subprocess.Popen(words, text=True, env={**os.environ, "NODE_PATH": NODE_PATH}, **ends)
    ran.stdin.write(lines)
    ran.stdin.close()
    ran.stdin = None
    return ran


def case(name, lines, out, *steps):
    """A case with a server by each library."""
    CASES.extend(Case(name, it, lines, out, steps) for it in SERVERS)


def send(text, size=0):
    return ["send", text, size]


def hear(text):
    return ["hear", text]


def read(count):
    return f'["read",{count}]'


def line(*words):
    return json.dumps(words, separators=(",", ":"), ensure_ascii=False)


CLOSED = ["closed", 1005]  # the client's close, at the end of its lines
NOT_CONNECTED = "refused core 10 NotConnected"
LISTEN, HEAR = '["listen",1,"/a",[]]', hear(listen("/a", 1))
ONE, TWO = data("/a", 1, 1), data("/a", 1, 2)
IS_ONE, IS_TWO = ["done", "L1 value 1"], ["done", "L1 value 2"]


# ---- what the messages do


case(
    "a listen, and all that a server sends for it",
    [LISTEN, read(4), '["set",1,"/a/x",5]', '["set",1,"/a/y",6]', read(3), '["cover"]'],
    ["done 1", "done", "L1 value null", "done", 'L1 added "x" 1 after none', 'L1 value {"x":1}', "done",
     'L1 added "z" "é\\n" after "x"', 'L1 changed "x" 2 after none', 'L1 value {"x":2,"z":"é\\n"}', "stale",
     "done 1", 'L1 changed "x" 5 after none', 'L1 value {"x":5,"z":"é\\n"}',
     "done 2", 'L1 added "y" 6 after "x"', 'L1 value {"x":5,"y":6,"z":"é\\n"}',
     "done", "R1 ok", 'L1 changed "x" 2 after none', 'L1 value {"x":2,"y":6,"z":"é\\n"}',
     "done", 'R2 refused "denied"', 'L1 removed "y" 6', 'L1 value {"x":2,"z":"é\\n"}',
     "done", 'L1 cancelled "denied"', "T none"],
    HEAR,
    send(data("/a", 1, "null")),
    send(data("/a/x", 1, 1)),
    send('{"k":"data-merge","tag":1,"entries":{"/a/z":"\\u00e9\\n","a/x":2}}'),
    send(ok(9)),
    hear(put(1, "/a/x", 5)),
    hear(put(2, "/a/y", 6)),
    send(ok(1)),
    send(no(2, "denied")),
    send(revoke(1)),
    CLOSED,
)

case(
    "a push on two listens is one step",
    [LISTEN, '["listen",2,"/b",[]]', read(3)],
    ["done 1", "done 2", *IS_ONE, "done", "L2 value null", "done", "L1 value 2", 'L2 added "y" 3 after none', 'L2 value {"y":3}'],
    HEAR,
    hear(listen("/b", 2)),
    send(ONE),
    send(data("/b", 2, "null")),
    send(push((1, '{"/a":2}'), (2, '{"/b/y":3}'))),
    CLOSED,
)

case(
    "messages that can't be read, and one that can't be",
    [LISTEN, read(6)],
    ["done 1", "refused wire 1 NotJson", "refused wire 2 UnknownKind", "refused wire 3 BadField",
     "refused wire 4 BadTree", "refused core 8 BadPush", *IS_ONE],
    HEAR,
    send('{"k":"data"'),
    send(put(1, "/a", 5)),
    send(ok(0)),
    send(data("/a", 1, "1.5")),
    send(data("/b", 1, 1)),
    send(ONE),
    CLOSED,
)

case(
    "five hundred messages in a line",
    [LISTEN, read(500), '["set",1,"/b",1]'],
    ["done 1", *(text for it in range(500) for text in ("done", f"L1 value {it}")), "done 1"],
    HEAR,
    *(send(data("/a", 1, it)) for it in range(500)),
    hear(put(1, "/b", 1)),
    CLOSED,
)


# ---- what the protocol allows


case(
    "a message in fragments",
    [LISTEN, read(3)],
    ["done 1", *IS_ONE, *IS_TWO, "done", 'L1 value "é"'],
    HEAR,
    ["parts", parts(ONE, 7)],
    ["parts", ["", "", *parts(TWO, 1), ""]],
    ["parts", parts(data("/a", 1, '"é"'), 1)],
    CLOSED,
)

case(
    "pings, between messages and in the midst of one",
    [LISTEN, read(2)],
    ["done 1", *IS_ONE, *IS_TWO],
    HEAR,
    ["ping", ""],
    ["pong", "nobody asked"],
    ["pinged", parts(ONE, 9)],
    *(["ping", str(number)] for number in range(200)),
    send(TWO),
    CLOSED,
)

case(
    "a binary message",
    [LISTEN, read(4)],
    ["done 1", "refused wire 1 NotJson", "refused wire 1 NotJson", "refused wire 1 NotJson", *IS_ONE],
    HEAR,
    ["binary", TWO],
    ["binary", ""],
    ["binary", ok(1)],
    send(ONE),
    CLOSED,
)

AFTER = [read(1), '["set",1,"/a",7]', read(1000)]
IS_AFTER = ["disconnected", NOT_CONNECTED, "done 1", "L1 value 7", NOT_CONNECTED]
for code, why in ((1000, ""), (1001, "going away"), (4000, "é" * 61)):
    case(
        f"a close with the code {code}",
        [LISTEN, read(2), *AFTER],
        ["done 1", *IS_ONE, *IS_AFTER],
        HEAR,
        send(ONE),
        ["close", code, why],
    )

case(
    "a close in the midst of a message",
    [LISTEN, read(2), *AFTER],
    ["done 1", *IS_ONE, *IS_AFTER],
    HEAR,
    send(ONE),
    ["midst", TWO[:-1], 1000],
)

case(
    "a server that goes without a close",
    [LISTEN, read(2), '["set",1,"/b",1]', read(1), *AFTER],
    ["done 1", *IS_ONE, *IS_TWO, "done 1", "disconnected", NOT_CONNECTED, "done 2", *IS_AFTER[3:]],
    HEAR,
    send(ONE),
    send(TWO),
    hear(put(1, "/b", 1)),
    ["vanish"],
)


# ---- long texts


VALUE = texts_of(MIB - len(put(1, "/a", "")))
ADDED = [f"L1 added {part} after {before}" for part, before in (
    (f'"{number:02}" {json.dumps(text)}', f'"{number - 1:02}"' if number else "none")
    for number, text in enumerate(json.loads(VALUE).values()))]
case(
    "a text of 1 MiB either way",
    [f'["set",1,"/b",{VALUE}]', LISTEN, read(2)],
    # so much waits for its answer: the client sends nothing behind it before
    ["done 1", "done 1", "done", "R1 ok", "done", *ADDED, f"L1 value {VALUE}"],
    hear(put(1, "/b", VALUE)),
    send(ok(1)),
    HEAR,
    ["parts", parts(data("/a", 1, VALUE), 1000)],
    CLOSED,
)

LONG = {
    "a text of 70 MiB": send(ONE, 70 * MIB),
    "a text of 70 MiB in fragments": ["chunks", ONE, 70 * MIB, MIB],
    f"a text of {MOST:,} bytes with its frame": send(ONE, MOST - HEAD),
}
for name, step in LONG.items():
    case(name, [LISTEN, read(2)], ["done 1", *IS_ONE, *IS_TWO], HEAR, step, send(TWO), CLOSED)

TOO_LONG = {
    "one byte more ends the connection": send(ONE, MOST - HEAD + 1),
    "a text of 130 MiB ends the connection": send(ONE, 130 * MIB),
    "a text of 130 MiB in fragments does so too": ["chunks", ONE, 130 * MIB, MIB],
}
for name, step in TOO_LONG.items():
    case(name, [LISTEN, read(2), *AFTER], ["done 1", *IS_AFTER], HEAR, step, ["gone"])
