"""What ./check asks of the file that `emulate` keeps its tree in, and of the journal beside it: kills, links, rights, other programs."""
import json
import os
import random
import signal
import stat
import struct
import subprocess
import tempfile
import threading
import time

from cutting import Wrong, must
from emulating import LISTEN, Emulator, asked, drop, ok, put, say, shown, tree_in
from frames import PING, PONG, SECONDS, Client, free_port

KILLS = 20


def write_file(file, text, mode=None):
    with open(file, "w", encoding="utf-8") as out:
        out.write(text)
    if mode is not None:
        os.chmod(file, mode)


def kept(file):
    """What tells whether a file was written: which one it is, when, its rights and what it holds."""
    it = os.stat(file)
    with open(file, encoding="utf-8") as text:
        return it.st_ino, it.st_mtime_ns, stat.S_IMODE(it.st_mode), text.read()


def kill(emulator):
    emulator.ran.send_signal(signal.SIGKILL)
    emulator.ran.wait(SECONDS)


def refused(program, file, *parts, word="--file"):
    """An emulator that doesn't begin says why in one line."""
    words = [program, "emulate", str(free_port()), word, file]
    ran = subprocess.run(words, stdin=subprocess.DEVNULL, capture_output=True, timeout=SECONDS)
    lines = ran.stderr.decode(errors="replace").splitlines()
    must("how it ends", (ran.returncode, ran.stdout, len(lines)), (1, b"", 1))
    for part in parts:
        must(f"whether {part!r} is said", part in lines[0], True)


class Writer(threading.Thread):
    """Puts one number after another below a path, some at once, and notes the last that was answered."""

    def __init__(self, port, path, first):
        super().__init__()
        self.client, self.path, self.first, self.answered = Client(port), path, first, first - 1

    def run(self):
        try:
            must("what is asked for the end", asked(self.client, {"id": 1, "k": "od-put", "path": f"{self.path}/end", "value": self.first}), ok(1))
            self.answered = self.first
            asks = self.first + 1
            while True:
                for number in range(asks, asks + 8):
                    say(self.client, put(number, f"{self.path}/k{number % 97}", number))
                for number in range(asks, asks + 8):
                    must("an answer", self.client.text(), ok(number))
                    self.answered = number
                asks += 8
        except (Wrong, OSError, ValueError, TypeError, struct.error):
            drop(self.client)


def is_there(tree, path, first, last):
    """Whether each write up to the last is there, or a later one of its key, and what was asked for the end."""
    here = tree.get(path) or {}
    if last >= first and here.get("end") != first:
        return False
    return all(here.get(f"k{n % 97}", 0) >= n for n in range(max(first + 1, last - 96), last + 1))


def kills_lose_nothing(program, room):
    """Of 20 kills at chance moments none loses a write that was answered, nor what was asked for the end of a connection."""
    file, chance, writers = f"{room}/tree.json", random.Random(), []
    for turn in range(KILLS + 1):
        with Emulator(program, "--file", file) as it:
            tree = shown(it.port) or {}
            for writer in writers:
                must(f"what is there after {turn} kills", is_there(tree, writer.path[1:], writer.first, writer.answered), True)
            if turn == KILLS:
                must("how it ends", it.end(), (0, b""))
                break
            first = 1 + max((one.answered for one in writers), default=0) + 8
            writers = [Writer(it.port, f"/w{n}", first) for n in range(3)]
            for writer in writers:
                writer.start()
            time.sleep(chance.uniform(0.01, 0.4))
            kill(it)
            for writer in writers:
                writer.join(SECONDS)
    must("whether a journal is left", os.path.exists(f"{file}.log"), False)


def what_nobody_wrote_stays(program, room):
    """Where nobody wrote nothing is written, however many listen, ask for pongs and go."""
    file = f"{room}/tree.json"
    write_file(file, ' {"a":\n{"x":1}} ')
    before = kept(file)
    with Emulator(program, "--file", file) as it:
        client = Client(it.port)
        say(client, LISTEN)
        client.text()
        client.frame(PING, b"there")
        must("a pong", client.stream.read(7), bytes([PONG, 5]) + b"there")
        drop(client)
        time.sleep(0.2)
        must("the journal while it runs", os.path.getsize(f"{file}.log"), 0)
        must("how it ends", it.end(), (0, b""))
    must("the file", kept(file), before)
    must("what else is there", os.listdir(room), ["tree.json"])


def rights_and_links_stay(program, room):
    """A file that is written keeps its rights and its owner, and a link that leads to it stays a link."""
    os.mkdir(f"{room}/there")
    file, link = f"{room}/there/tree.json", f"{room}/link.json"
    write_file(file, '{"a":1}', 0o600)
    os.symlink("there/tree.json", link)
    if os.geteuid() == 0:
        os.chown(file, 1234, 4321)
    before = os.stat(file)
    with Emulator(program, "--file", link) as it:
        must("a write", asked(Client(it.port), put(1, "/b", 2)), ok(1))
        must("who may read the journal", stat.S_IMODE(os.stat(f"{file}.log").st_mode), 0o600)
        must("how it ends", it.end(), (0, b""))
    after = os.stat(file)
    must("the tree", tree_in(file), {"a": 1, "b": 2})
    must("rights and owner", (after.st_mode, after.st_uid, after.st_gid), (before.st_mode, before.st_uid, before.st_gid))
    must("the link", os.readlink(link), "there/tree.json")
    must("what is there", (sorted(os.listdir(room)), os.listdir(f"{room}/there")), (["link.json", "there"], ["tree.json"]))


def second_is_refused(program, room):
    """A second emulator on the same file is refused, also by another name; once the first has gone it isn't."""
    file, link = f"{room}/tree.json", f"{room}/link.json"
    write_file(file, "{}")
    os.symlink(file, link)
    with Emulator(program, "--file", file) as it:
        must("a write", asked(Client(it.port), put(1, "/a", 1)), ok(1))
        refused(program, file, "another emulator")
        refused(program, link, "another emulator")
        kill(it)
    with Emulator(program, "--file", link) as it:
        must("what is there", shown(it.port), {"a": 1})
        must("how it ends", it.end(), (0, b""))


def other_programs_are_let_be(program, room):
    """A file that another program changed meanwhile stays as that left it, and the tree goes to FILE.new, through no link."""
    file, victim = f"{room}/tree.json", f"{room}/victim"
    write_file(file, '{"a":1}')
    write_file(victim, "mine")
    os.symlink(victim, f"{file}.new")
    with Emulator(program, "--file", file) as it:
        must("a write", asked(Client(it.port), put(1, "/b", 2)), ok(1))
        write_file(file, '{"by":"hand"}')
        must("how it ends", it.end()[0], 0)
        must("what it says", sum("another program" in line for line in it.told()), 1)
    must("what is there", (tree_in(file), tree_in(f"{file}.new"), os.path.islink(f"{file}.new")), ({"by": "hand"}, {"a": 1, "b": 2}, False))
    must("what the link led to", open(victim, encoding="utf-8").read(), "mine")
    os.remove(f"{file}.new")
    os.mkfifo(f"{file}.new")
    with Emulator(program, "--file", file) as it:
        client = Client(it.port)
        must("a write", asked(client, put(1, "/c", 3)), ok(1))
        write_file(file, '{"by":"foot"}')
        must("a write then", asked(client, put(2, "/d", 4)), ok(2))
        it.tells("another program")
        must("a write then", asked(client, put(3, "/d", 5)), ok(3))
        must("how it ends", it.end()[0], 0)
        must("what it says", sum("another program" in line for line in it.told()), 1)
    must("what is there", (tree_in(file), tree_in(f"{file}.new")), ({"by": "foot"}, {"by": "hand", "c": 3, "d": 5}))


def torn_lines_are_passed_over(program, room):
    """A last line of the journal that was torn is passed over and said, and cut off before more is written."""
    file = f"{room}/tree.json"
    with Emulator(program, "--file", file) as it:
        must("a write", asked(Client(it.port), put(1, "/a", 1)), ok(1))
        kill(it)
    with open(f"{file}.log", "a", encoding="utf-8") as out:
        out.write('1 {"id":2,"k":"put","path":"/b","va')
    with Emulator(program, "--file", file) as it:
        must("what is there", shown(it.port), {"a": 1})
        it.tells("torn")
        must("a write", asked(Client(it.port), put(1, "/c", 3)), ok(1))
        kill(it)
    with Emulator(program, "--file", file) as it:
        must("what is there", shown(it.port), {"a": 1, "c": 3})
        must("how it ends", it.end(), (0, b""))
    write_file(f"{file}.log", "1 nothing\n")
    refused(program, file, "line", "journal")
    must("what is there", (tree_in(file), open(f"{file}.log", encoding="utf-8").read()), ({"a": 1, "c": 3}, "1 nothing\n"))


# texts that have no tree, and what is said of each
NO_TREES = [
    ("", "it is empty"),
    (" \n\n", "it is empty"),
    ("\ufeff{}", "it begins with a byte order mark"),
    ('{"a":1', "line 1, column 6: it ends here, within a value"),
    ('{"a":1,\n "b":\n', "line 3, column 1: it ends here, within a value"),
    ('{"a":1,\n\t"b":x}', "line 2, column 6: this is no JSON"),
    ('{"a":1,\n "users": {\n  "ann": {"age": 3,\n    "height" : 1.5}}}', "line 4, column 16, /users/ann/height: a number must be whole"),
    ('{"a":{"b":[1,{"c":"x"},[true,9007199254740992]]}}', "line 1, column 30, /a/b/2/1: a number must be whole"),
    ('{"a":1,\r\n"b":{"c.d":2}}', "line 2, column 6, /b: a key must have at least one byte"),
    ('{"a":{"b":1,"":2}}', "line 1, column 13, /a: a key must have at least one byte"),
    ('{"a":[],"b":"%s"}' % ("x" * 65_537), "line 1, column 13, /b: a text must have at most 65536 bytes"),
    ('{"a":' * 33 + "1" + "}" * 33, f"line 1, column 166, {'/a' * 33}: a path must have at most 32 keys"),
]


def what_has_no_tree_is_said(program, room):
    """A file that has no tree is refused and left as it is, and why and where is said; a seed too."""
    file = f"{room}/tree.json"
    for text, why in NO_TREES:
        write_file(file, text)
        before = kept(file)
        refused(program, file, f"tree.json has no tree: {why}")
        refused(program, file, f"tree.json has no tree: {why}", word="--seed")
        must("the file", kept(file), before)


def seeds_are_never_written(program, room):
    """A tree comes from its seed, which stays as it is; it goes to the file, where there is one, which then comes first."""
    seed, file = f"{room}/seed.json", f"{room}/tree.json"
    write_file(seed, '{"a":\n1}')
    before = kept(seed)
    with Emulator(program, "--seed", seed) as it:
        must("what is there", shown(it.port), {"a": 1})
        must("a write", asked(Client(it.port), put(1, "/b", 2)), ok(1))
        must("how it ends", it.end(), (0, b""))
    for turn in range(2):
        with Emulator(program, "--seed", seed, "--file", file) as it:
            must("what is there", shown(it.port), {"a": 1} | ({"c": 3} if turn else {}))
            must("a write", asked(Client(it.port), put(1, "/c", 3)), ok(1))
            must("how it ends", it.end(), (0, b""))
    must("the seed", kept(seed), before)
    must("what is there", (sorted(os.listdir(room)), tree_in(file)), (["seed.json", "tree.json"], {"a": 1, "c": 3}))
    refused(program, f"{room}/none.json", "none.json can't be read", word="--seed")


def what_cannot_be_written_is_said(program, room):
    """A folder that isn't there, a journal that is a link or a fifo, and a file that is a folder are said at the start."""
    victim = f"{room}/victim"
    write_file(victim, "mine")
    refused(program, f"{room}/nowhere/tree.json", "nowhere")
    file = f"{room}/tree.json"
    write_file(file, '{"a":1}')
    os.symlink(victim, f"{file}.log")
    refused(program, file, "tree.json.log")
    os.remove(f"{file}.log")
    os.mkfifo(f"{file}.log")
    refused(program, file, "tree.json.log")
    os.mkdir(f"{room}/folder")
    refused(program, f"{room}/folder", "folder")
    must("what is left of that", sorted(os.listdir(room)), ["folder", "tree.json", "tree.json.log", "victim"])
    must("what the link led to", open(victim, encoding="utf-8").read(), "mine")


def texts_come_back_as_they_came(program, room):
    """A request that is laid out over lines is one line of the journal, and done again after a kill."""
    file, path = f"{room}/tree.json", "/a"
    with Emulator(program, "--file", file) as it:
        client = Client(it.port)
        say(client, json.dumps(put(1, path, {"x": "one\ntwo\x1b", "y": 2}), indent=2))
        must("a write", client.text(), ok(1))
        kill(it)
    must("the lines of the journal", open(f"{file}.log", "rb").read().count(b"\n"), 1)
    with Emulator(program, "--file", file) as it:
        must("what is there", shown(it.port), {"a": {"x": "one\ntwo\x1b", "y": 2}})
        must("how it ends", it.end(), (0, b""))


def what_is_synced_is_there(program, room):
    """With --sync too each write that was answered is there after a kill, and the file is made anew meanwhile."""
    file, text = f"{room}/tree.json", "x" * 60_000
    with Emulator(program, "--file", file, "--sync") as it:
        client = Client(it.port)
        for number in range(1, 21):
            must("a write", asked(client, put(number, f"/k{number}", text)), ok(number))
        until = time.monotonic() + 20
        while not os.path.exists(file):
            must("whether the file is made", time.monotonic() < until, True)
            time.sleep(0.02)
        must("a write then", asked(client, put(50, "/last", 5)), ok(50))
        kill(it)
    with Emulator(program, "--file", file, "--sync") as it:
        must("what is there", shown(it.port) == {f"k{number}": text for number in range(1, 21)} | {"last": 5}, True)
        must("how it ends", it.end(), (0, b""))


def leavings_go(program, room):
    """What a killed emulator left beside the file goes at the next start, and nothing else does."""
    file, chance = f"{room}/tree.json", "0123456789abcdef"
    write_file(file, '{"a":1}')
    stays = {"tree.json", f"tree.json.kaltewi-{chance}0", "tree.json.kaltewi-", f"tree.json.old.kaltewi-{chance}", f"other.json.kaltewi-{chance}"}
    goes = {f"tree.json.kaltewi-{chance}", f"tree.json.log.kaltewi-{chance}"}
    for name in (stays | goes) - {"tree.json"}:
        write_file(f"{room}/{name}", "left")
    with Emulator(program, "--file", file) as it:
        must("what is there", set(os.listdir(room)), stays | {"tree.json.log"})
        refused(program, file, "another emulator")
        must("how it ends", it.end(), (0, b""))
    must("what is there then", set(os.listdir(room)), stays)


def file_is_made_anew(program, room):
    """The file is made anew while it runs, the journal begins anew with what is asked for the end, and nothing of it is lost."""
    file, text = f"{room}/tree.json", "x" * 60_000
    with Emulator(program, "--file", file) as it:
        client = Client(it.port)
        must("what is asked for the end", asked(client, {"id": 1, "k": "od-put", "path": "/end", "value": True}), ok(1))
        for number in range(2, 42):
            must("a write", asked(client, put(number, f"/k{number}", text)), ok(number))
        until = time.monotonic() + 20
        while not (os.path.exists(file) and len(tree_in(file) or {}) == 40 and os.path.getsize(f"{file}.log") < 100):
            must("whether the file is made anew", time.monotonic() < until, True)
            time.sleep(0.02)
        must("the journal then", open(f"{file}.log", encoding="utf-8").read().count("od-put"), 1)
        must("a write then", asked(client, put(50, "/last", 5)), ok(50))
        kill(it)
    wanted = {f"k{number}": text for number in range(2, 42)} | {"last": 5, "end": True}
    with Emulator(program, "--file", file) as it:
        must("what is there", shown(it.port) == wanted, True)
        must("how it ends", it.end(), (0, b""))
    must("the file", tree_in(file) == wanted, True)
    must("what else is there", os.listdir(room), ["tree.json"])


SESSIONS = [
    kills_lose_nothing,
    what_nobody_wrote_stays,
    rights_and_links_stay,
    second_is_refused,
    other_programs_are_let_be,
    torn_lines_are_passed_over,
    what_has_no_tree_is_said,
    seeds_are_never_written,
    what_cannot_be_written_is_said,
    texts_come_back_as_they_came,
    what_is_synced_is_there,
    leavings_go,
    file_is_made_anew,
]


def wrong_in(session, program, room):
    """What is wrong in a session with this build, in a room of its own."""
    try:
        with tempfile.TemporaryDirectory(dir=room) as own:
            session(program, own)
        return ""
    except (Wrong, OSError, ValueError, TypeError, KeyError, struct.error, subprocess.TimeoutExpired) as why:
        return f"{session.__name__}: {why!r} ({os.path.basename(program)})"


def wrong_of(programs, room):
    """What is wrong with these builds of the program, and how many sessions there were."""
    wrong = [wrong_in(session, program, room) for program in programs for session in SESSIONS]
    return [it for it in wrong if it], len(SESSIONS) * len(programs)
