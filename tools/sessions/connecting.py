"""What ./check asks of `connect`: the sessions of lines.py and endings.py, and those of here; bad words."""
import os
import subprocess
import threading

import endings
from frames import CLOSED, SECONDS, Server, free_port
from lines import ROW, ROW_OUT, ROW_STEPS
from runs import differs
from session import SESSIONS, data, goes, hears, leaves, listen, ok, put, session, stop

assert endings  # it adds its sessions where it is read
ROOT = os.path.dirname(os.path.dirname(os.path.dirname(os.path.realpath(__file__))))
ENDS = {"stdout": subprocess.PIPE, "stderr": subprocess.PIPE}

# ---- faults, and words


READ_FAULT = b"kaltewi: the input can't be read: Connection reset by peer (os error 104)\n"
TOO_LONG = b"kaltewi: the input has more than 67108864 bytes\n"
WRITE_FAULT = b"kaltewi: the output can't be written: No space left on device (os error 28)\n"


@session(ROW, ROW_OUT, 1, err=READ_FAULT, is_broken=True)
def broken_input(server):
    """An input that can't be read ends the run behind what its lines print."""
    server.welcome()
    yield hears(server, listen("/a", 1))
    server.send(data("/a", 1, None))
    yield hears(server, put(1, "/a/x", 5))
    server.send(data("/a/x", 1, 5), ok(1))
    yield from goes(server)


@session("x" * 67_108_865, "", 1, err=TOO_LONG)
def long_input(server):
    """An input of one byte more than 67,108,864 is a fault."""
    server.welcome()
    yield from goes(server)


@session(ROW, "", 1, err=WRITE_FAULT, stdout="/dev/full")
def full_output(server):
    """An output that can't be written ends the run."""
    server.welcome()
    yield from goes(server, listen("/a", 1))


# what a terminal obeys in a text, as it is and by its numbers
OBEYED, NUMBERED = "\x7f\x9b31m\u202e\u2066", r"\u007f\u009b31m\u202e\u2066"


def shown(server):
    """What a terminal obeys is printed as it is or, with --escape, by its number."""
    server.welcome()
    yield hears(server, listen("/a", 1))
    server.send(data("/a", 1, OBEYED))
    yield from leaves(server)


ROW_OF_TEXT = '["listen",1,"/a",[]]\n["read",1]\n'
session(ROW_OF_TEXT, f'done 1\ndone\nL1 value "{OBEYED}"\n')(shown)
session(ROW_OF_TEXT, f'done 1\ndone\nL1 value "{NUMBERED}"\n', words=("--escape",))(shown)


def prompt(program):
    """What a line prints is there before the next one is read."""
    name, server = "connect, line by line", Server()
    ran = subprocess.Popen([program, "connect", str(server.port)], stdin=subprocess.PIPE, **ENDS)
    end = threading.Timer(SECONDS, ran.kill)
    end.start()
    try:
        server.welcome()
        for line, frames, out in ROW_STEPS:
            ran.stdin.write(line.encode())
            ran.stdin.flush()
            server.send(*frames)
            printed = ran.stdout.read(len(out)).decode()
            if printed != out:
                return f"{name}: {line.strip()} prints {printed!r}, not {out!r}"
        ran.stdin.close()
        server.send(CLOSED)  # which the client waits for
        return differs(name, (ran.wait(SECONDS), ran.stdout.read(), ran.stderr.read()), (0, b"", b""))
    except (OSError, subprocess.TimeoutExpired) as why:
        return f"{name}: {why!r}"
    finally:
        end.cancel()
        stop(ran)
        server.close()


def nobody_listens(program):
    """One line says which port was tried, and why it failed. No line is made."""
    port = free_port()
    ran = subprocess.run([program, "connect", str(port)], input=ROW.encode(), timeout=SECONDS, **ENDS)
    said = f"no connection to port {port} of 127.0.0.1 can be made: Connection refused (os error 111)"
    wanted = f"kaltewi: {said}\n".encode()
    return differs("connect, nobody listens", (ran.returncode, ran.stdout, ran.stderr), (1, b"", wanted))


# one that begins with a byte order mark, one of no word, one of no form, two that are no JSON, one whose word is refused, two of another form
BAD_LINES = '\ufeff["connected"]\n["connect"]\n\nhello\n\udcff\n["cover"]\n["set",1,"/a.b",1]\n["listen",1,"/a"]\n{"k":1}\n'
BAD_OUT = "done\nbad line 2\nbad line 4\nbad line 5\nT none\nrefused tree 1 BadKey\nbad line 8\nbad line 9\n"
WORDS_OF_LINES = (
    "connected, disconnected, listen, unlisten, set, update, remove, onDisconnect, close, data, merge, parts, ok, no, revoke, server, view, cover, out and push"
)
BAD_TOLD = f"""kaltewi: line 1 begins with a byte order mark, which is passed over
kaltewi: line 2 begins with none of the words {WORDS_OF_LINES}
kaltewi: line 4 is no JSON
kaltewi: line 5 is no JSON
kaltewi: line 7 is refused: a key must have at least one byte, and no control character and none of . $ # [ ] /
kaltewi: line 8 is no listen: ["listen",SEAT,PATH,[CALL,..]]
kaltewi: line 9 is no array that begins with a word
"""


def bad_lines(program):
    """A script tells what is wrong with each bad line, where it is asked to."""
    given = {"input": BAD_LINES.encode(errors="surrogateescape"), "capture_output": True, "timeout": SECONDS}
    for words, err in ((["-v"], BAD_TOLD), (["--verbose"], BAD_TOLD), ([], "")):
        ran = subprocess.run([program, "script", *words], **given)
        wrong = differs(f"script {words}", (ran.returncode, ran.stdout, ran.stderr), (1, BAD_OUT.encode(), err.encode()))
        if wrong:
            return wrong
    return ""


def not_shown():
    """The files that have to show the row, and don't."""
    shown = {"tests/scripts/two_terminals.lines": [ROW], "docs/FORMATS.md": [ROW_OUT]}
    for file, texts in shown.items():
        with open(f"{ROOT}/{file}", encoding="utf-8") as it:
            whole = it.read()
        if any(text not in whole for text in texts):
            yield f"{file} doesn't show the row of serve and connect"


# bad words, and what is said of them first; behind it stand clap's tips
WORDS = {
    (): "error: the following required arguments were not provided:\n  <PORT>\n",
    ("0",): "error: invalid value '0' for '<PORT>': 0 is not in 1..=65535\n",
    ("65536",): "error: invalid value '65536' for '<PORT>': 65536 is not in 1..=65535\n",
    ("-1",): "error: unexpected argument '-1' found\n",
    ("http",): "error: invalid value 'http' for '<PORT>': invalid digit found in string\n",
    ("",): "error: invalid value '' for '<PORT>': cannot parse integer from empty string\n",
    ("8080", "8081"): "error: unexpected argument '8081' found\n",
    ("8080", "--count", "2"): "error: unexpected argument '--count' found\n",
    ("8080", "--escape=1"): "error: unexpected value '1' for '--escape' found; no more were expected\n",
    ("--tree", "1", "8080"): "error: unexpected argument '--tree' found\n",
}


def bad_words(program, words, wanted):
    ran = subprocess.run([program, "connect", *words], input=ROW.encode(), timeout=SECONDS, **ENDS)
    said = ran.returncode, ran.stdout, ran.stderr[: len(wanted)]
    return differs(f"connect {' '.join(words)}", said, (2, b"", wanted.encode()))


def wrong_of(programs):
    """What is wrong with these builds of the program, the first few things, and how many runs there were."""
    runs = [it.wrong for it in SESSIONS] + [prompt, nobody_listens, bad_lines]
    runs += [lambda program, it=it: bad_words(program, *it) for it in WORDS.items()]
    wrong, count = list(not_shown()), 0
    for program in programs:
        for run in runs:
            why, count = run(program), count + 1
            wrong += [f"{why} ({os.path.basename(program)})"] if why else []
            if len(wrong) == 5:
                return wrong, count
    return wrong, count
