"""Clients by two other WebSocket libraries, Debian's python3-websockets and node-ws, and two `watch` beside them on one `emulate`; the chats of
bindings/c, by libwebsockets, and of bindings/python."""
import json
import os
import shutil
import socket
import subprocess
import tempfile
import threading
import time

from common import SECONDS, Wrong, data, listen, must, ok, put

HERE = os.path.dirname(os.path.realpath(__file__))
BINDINGS = os.path.realpath(f"{HERE}/../../bindings")
NODE_PATH = "/usr/share/nodejs:/usr/lib/nodejs"  # where Debian's packages of Node are
CLIENTS = {
    "python3-websockets": ["/usr/bin/python3", "-B", f"{HERE}/client.py"],
    "node-ws": [shutil.which("node") or "nodejs", f"{HERE}/client.js"],
}
WRITES = 500  # of each at once


class Spoken:
    """A program that takes lines and prints lines."""

    def __init__(self, *words):
        given = {"text": True, "env": {**os.environ, "NODE_PATH": NODE_PATH}}
        self.ran = subprocess.Popen(words, stdin=subprocess.PIPE, stdout=subprocess.PIPE, stderr=subprocess.PIPE, **given)

    def say(self, *lines):
        self.ran.stdin.write("".join(f"{it}\n" for it in lines))
        self.ran.stdin.flush()

    def next(self):
        return self.ran.stdout.readline().rstrip("\n")

    def hear(self, what, *lines):
        for line in lines:
            must(what, self.next(), line)

    def end(self):
        self.ran.stdin.close()
        self.ran.stdin = None

    def stop(self):
        self.ran.kill()
        self.ran.communicate()


class Live:
    """A case with its name, and what is done with an emulator, clients of each library, and two that watch."""

    def __init__(self, name, does):
        self.name, self.does = f"emulate: {name}", does

    def why_wrong(self, program):
        """Runs the case, and answers what is wrong, if anything is."""
        with socket.socket() as it:
            it.bind(("127.0.0.1", 0))
            port = str(it.getsockname()[1])
        all_ = [Spoken(program, "emulate", port, "--until-eof", "--quiet")]
        all_[0].port = port
        end = threading.Timer(SECONDS, lambda: [it.stop() for it in all_])
        end.start()
        try:
            await_port(int(port))
            all_ += [Spoken(*words, port) for words in CLIENTS.values()]
            all_ += [Spoken(program, "watch", port) for _ in range(2)]
            self.does(all_[0], dict(zip(CLIENTS, all_[1:3])), all_[3:])
            return ""
        except Wrong as why:
            return str(why)
        except (OSError, ValueError, KeyError, subprocess.TimeoutExpired) as why:
            return repr(why)
        finally:
            end.cancel()
            for it in all_:
                it.stop()


def await_port(port):
    until = time.monotonic() + 30
    while time.monotonic() < until:
        try:
            socket.create_connection(("127.0.0.1", port)).close()
            return
        except ConnectionRefusedError:
            time.sleep(0.01)
    raise Wrong("emulate doesn't listen")


def all_listen(clients, watches):
    for name, client in clients.items():
        client.say(listen("/a", 1))
        client.hear(f"what {name} hears of its listen", data("/a", 1, "null"))
    for watch in watches:
        watch.say('["listen",1,"/a",[]]')
        watch.hear("what a watch prints of its listen", "done 1", "L1 value null")


def they_see_each_other(emulator, clients, watches):
    """What one writes, the others hear."""
    all_listen(clients, watches)
    for number, (name, client) in enumerate(clients.items(), 1):
        client.say(put(1, "/a/x", number))
        for other, it in clients.items():
            it.hear(f"what {other} hears of a write of {name}", data("/a/x", 1, number))
        client.hear(f"what {name} hears of its write", ok(1))
        for watch in watches:
            watch.hear(f"what a watch prints of it", f'L1 {"added" if number == 1 else "changed"} "x" {number} after none', f'L1 value {{"x":{number}}}')
    watches[0].say('["set",1,"/a/y",3]')
    watches[0].hear("what a watch prints of its write", "done 1", 'L1 added "y" 3 after "x"', 'L1 value {"x":2,"y":3}', "R1 ok")
    watches[1].hear("what the other prints", 'L1 added "y" 3 after "x"', 'L1 value {"x":2,"y":3}')
    for name, client in clients.items():
        client.hear(f"what {name} hears of a watch", data("/a/y", 1, 3))
    they_end(emulator, clients, watches)


def they_end(emulator, clients, watches):
    emulator.end()
    for name, client in clients.items():
        client.hear(f"what {name} hears of the end", "closed 1001")
    for watch in watches:
        watch.hear("what a watch prints of the end", "disconnected")
        watch.end()
        must("how a watch ends", watch.ran.wait(SECONDS), 0)
    must("how emulate ends", emulator.ran.wait(SECONDS), 0)


def all_end_with_one_tree(emulator, clients, watches):
    """Many writes of each at once: all end with one tree."""
    all_listen(clients, watches)
    trees, last, accepted = {}, len(clients) + len(watches), threading.Semaphore(0)

    def take(name, client):
        tree = {}
        while "last" not in tree:
            message = json.loads(client.next())
            if message["k"] == "data":
                tree[message["path"].removeprefix("/a/")] = message["value"]
            elif message["id"] == WRITES:
                accepted.release()
        trees[name] = tree

    def look(name, watch):
        tree = {}
        while "last" not in tree:
            line = watch.next()
            if line == f"R{WRITES} ok":
                accepted.release()
            kind, _, value = line.partition(" value ")
            tree = json.loads(value) if kind == "L1" else tree
        trees[name] = tree

    taking = [threading.Thread(target=take, args=it) for it in clients.items()]
    taking += [threading.Thread(target=look, args=(f"watch {n}", it)) for n, it in enumerate(watches)]
    for it in taking:
        it.start()
    for client, place in zip(clients.values(), range(last)):
        client.say(*(put(n + 1, f"/a/k{n % 10}", n * last + place) for n in range(WRITES)))
    for watch, place in zip(watches, range(len(clients), last)):
        watch.say(*(f'["set",1,"/a/k{n % 10}",{n * last + place}]' for n in range(WRITES)))
    for _ in range(last):
        must("whether all writes are accepted", accepted.acquire(timeout=SECONDS), True)
    next(iter(clients.values())).say(put(WRITES + 1, "/a/last", 1))
    for it in taking:
        it.join(SECONDS)
    for name, tree in trees.items():
        must(f"what {name} has", tree, next(iter(trees.values())))
    must("how many have it", len(trees), last)


def compiled_chat(room):
    """The chat of bindings/c, over the library of this checkout or over that which KALTEWI_ARCHIVES names."""
    archives = os.environ.get("KALTEWI_ARCHIVES", f"{BINDINGS}/../crates/rt_ffi/out/libkaltewi.a").split(":")
    words = ["cc", f"-I{BINDINGS}/../include", f"{BINDINGS}/c/chat.c", *archives, "-lwebsockets", "-o", f"{room}/chat"]
    must("how cc ends", subprocess.run(words, stdin=subprocess.DEVNULL).returncode, 0)
    return f"{room}/chat"


def chats_meet(emulator, _clients, _watches):
    """Chats one after another: each hears its own lines, and all that were said before."""
    with tempfile.TemporaryDirectory() as room:
        c, python = [compiled_chat(room)], ["/usr/bin/python3", "-B", f"{BINDINGS}/python/chat.py"]
        for said, words in enumerate((c, python, c)):
            ran = subprocess.run([*words, emulator.ran.args[2]], stdin=subprocess.DEVNULL, capture_output=True, text=True, timeout=SECONDS)
            must(f"how {words[-1]} ends", (ran.returncode, ran.stderr), (0, ""))
            for name in ("ann", "bob"):
                heard = ran.stdout.count(f"{name} hears: ann: hi\n"), ran.stdout.count(f"{name} hears: bob: hello\n")
                must(f"whether {name} hears all in {words[-1]}: {heard}", min(heard) >= said and sum(heard) > 2 * said, True)


CHATS = Live("chats in C and in Python hear each other", chats_meet)


FETCH = "const [,url,body]=process.argv;fetch(url,{method:'PUT',body}).then(it=>it.text()).then(it=>process.stdout.write(it))"
URLLIB = "import sys,urllib.request as it;print(end=it.urlopen(it.Request(sys.argv[1],sys.argv[2].encode(),method='PUT')).read().decode())"
ASKERS = {
    "curl": ["curl", "-s", "-X", "PUT", "{url}", "-d", "{body}"],
    "curl, told to go on": ["curl", "-s", "-X", "PUT", "{url}", "-d", "{body}", "-H", "Expect: 100-continue"],
    "curl, in chunks": ["curl", "-s", "-X", "PUT", "{url}", "-d", "{body}", "-H", "Transfer-Encoding: chunked"],
    "Node's fetch": [CLIENTS["node-ws"][0], "-e", FETCH, "{url}", "{body}"],
    "Python's urllib": [CLIENTS["python3-websockets"][0], "-c", URLLIB, "{url}", "{body}"],
}


def they_hear_of_http(emulator, clients, watches):
    """What others write by plain HTTP, all hear; what a client writes, curl reads."""
    all_listen(clients, watches)
    at = f"http://localhost:{emulator.port}/a"
    for number, (name, words) in enumerate(ASKERS.items(), 1):
        given = [it.format(url=f"{at}/x.json", body=number) if "{" in it[:6] else it for it in words]
        ran = subprocess.run(given, stdin=subprocess.DEVNULL, capture_output=True, text=True, timeout=SECONDS)
        must(f"what {name} is answered", (ran.returncode, ran.stdout), (0, str(number)))
        for client, it in clients.items():
            it.hear(f"what {client} hears of {name}", data("/a/x", 1, number))
        for watch in watches:
            watch.hear(f"what a watch prints of {name}", f'L1 {"added" if number == 1 else "changed"} "x" {number} after none', f'L1 value {{"x":{number}}}')
    first = next(iter(clients.values()))
    first.say(put(1, "/a/x", "[1]"))
    first.hear("what a client hears of its write", data("/a/x", 1, '{"0":1}'), ok(1))
    read = subprocess.run(["curl", "-s", f"{at}.json?print=pretty"], stdin=subprocess.DEVNULL, capture_output=True, text=True, timeout=SECONDS)
    must("what curl reads then", (read.returncode, json.loads(read.stdout)), (0, {"x": {"0": 1}}))


CASES = [
    Live("curl, fetch and urllib beside two libraries and two that watch", they_hear_of_http),
    Live("two libraries and two that watch see each other", they_see_each_other),
    Live("many writes by two libraries and two that watch", all_end_with_one_tree),
    CHATS,
]
