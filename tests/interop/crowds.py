"""Crowds at one `emulate`: many connections at once and one after another, pings and empty fragments without end, and seven clients in lock step with
a tree of their own."""
import json
import os
import random
import socket
import subprocess
import sys
import threading
import time

from common import HELLO, SECONDS, Wrong, must

sys.path.append(os.path.realpath(f"{os.path.dirname(os.path.realpath(__file__))}/../../tools/sessions"))
from frames import PING, PONG, TEXT, Client, free_port  # noqa: E402

CONNECTIONS, SHORT = 5_000, 23_000  # at once, and one after another
PINGS, FRAGMENTS = 500_000, 1_000_000
STEPS = 15_000
KEYS = "abc"
HEAD = (
    b"GET / HTTP/1.1\r\nHost: localhost\r\nUpgrade: websocket\r\nConnection: Upgrade\r\n"
    b"Sec-WebSocket-Version: 13\r\nSec-WebSocket-Key: dGhlIHNhbXBsZSBub25jZQ==\r\n\r\n"
)
MEMORY = 16 * 1024 * 1024  # bytes by which it may grow


class Crowd:
    """A case with its name, and what is done with an emulator."""

    def __init__(self, name, does):
        self.name, self.does = f"emulate: {name}", does

    def why_wrong(self, program):
        """Runs the case, and answers what is wrong, if anything is."""
        port = free_port()
        ran = subprocess.Popen([program, "emulate", str(port), "--quiet"], stdin=subprocess.DEVNULL, stdout=subprocess.DEVNULL)
        end = threading.Timer(SECONDS, ran.kill)
        end.start()
        try:
            await_port(port)
            self.does(ran.pid, port)
            return ""
        except Wrong as why:
            return str(why)
        except (OSError, ValueError, KeyError) as why:
            return repr(why)
        finally:
            end.cancel()
            ran.kill()
            ran.wait()


def await_port(port):
    until = time.monotonic() + 30
    while time.monotonic() < until:
        try:
            Client(port).close()
            return
        except ConnectionRefusedError:
            time.sleep(0.01)
    raise Wrong("emulate doesn't listen")


def descriptors(pid):
    return len(os.listdir(f"/proc/{pid}/fd"))


def memory(pid):
    """The bytes that a process holds in memory."""
    with open(f"/proc/{pid}/statm") as of:
        return int(of.read().split()[1]) * os.sysconf("SC_PAGE_SIZE")


def await_descriptors(pid, count):
    until = time.monotonic() + 10
    while descriptors(pid) != count and time.monotonic() < until:
        time.sleep(0.05)
    must("how many descriptors it has then", descriptors(pid), count)


def stays_small(pid, before):
    if memory(pid) > before + MEMORY:
        raise Wrong(f"its memory grows from {before} to {memory(pid)} bytes")


def many_at_once(pid, port):
    """So many connections come in a few seconds, each is answered, and none leaves a descriptor behind."""
    before, begun = descriptors(pid), time.monotonic()
    streams = []
    for _ in range(CONNECTIONS):
        streams.append(socket.create_connection(("127.0.0.1", port), timeout=SECONDS))
        streams[-1].sendall(HEAD)
    for it in streams:
        must("how a connection is answered", it.recv(4096)[:12], b"HTTP/1.1 101")
    taken = time.monotonic() - begun
    for it in streams:
        it.close()
    await_descriptors(pid, before)
    if taken > 5:
        raise Wrong(f"it takes {taken:.1f} seconds")


def one_after_another(pid, port):
    """So many come and go, and leave no memory and no descriptor behind."""
    for _ in range(1_000):
        Client(port).close()
    before = memory(pid), descriptors(pid)
    for _ in range(SHORT):
        Client(port).close()
    stays_small(pid, before[0])
    await_descriptors(pid, before[1])


def pings_without_end(pid, port):
    """So many pings are answered, one for one."""
    it, before, block = Client(port), memory(pid), 1_000
    for _ in range(PINGS // block):
        it.frames(block, PING, b"")
        must("what answers pings", it.stream.read(2 * block), block * bytes([PONG, 0]))
    stays_small(pid, before)


def fragments_without_end(pid, port):
    """A text of so many empty fragments takes no memory, and others are served meanwhile."""
    it, other, before, block = Client(port), Client(port), memory(pid), 10_000
    it.frames(1, 0x01, b"")
    for _ in range(FRAGMENTS // block):
        it.frames(block, 0x00, b"")
        other.frame(PING, b"")
        must("what answers another's ping", other.stream.read(2), bytes([PONG, 0]))
    it.frame(PING, b"")
    must("what answers a ping among fragments", it.stream.read(2), bytes([PONG, 0]))
    stays_small(pid, before)


# ---- seven clients in lock step


def pruned(tree):
    """A tree without what is null, as it is kept."""
    if not isinstance(tree, dict):
        return tree
    kept = {key: it for key, it in ((key, pruned(it)) for key, it in tree.items()) if it is not None}
    return kept or None


def put_in(tree, keys, value):
    """The tree with a value at these keys. Null below a leaf leaves the leaf."""
    value = pruned(value)
    if not keys:
        return value
    if value is None and not isinstance(tree, dict):
        return tree
    below = dict(tree) if isinstance(tree, dict) else {}
    below[keys[0]] = put_in(below.get(keys[0]), keys[1:], value)
    return pruned(below)


def part_of(tree, keys):
    for key in keys:
        tree = tree.get(key) if isinstance(tree, dict) else None
    return tree


def keys_of(path):
    return [it for it in path.split("/") if it]


def some_path(chance):
    return "/" + "/".join(chance.choice(KEYS) for _ in range(chance.randint(0, 4)))


def some_tree(chance, most=3):
    kind = chance.randint(0, 5)
    if kind == 0:
        return None
    if kind < 4 or most == 0:
        return chance.choice([True, chance.randint(-9, 9), chance.choice(KEYS)])
    return {key: some_tree(chance, most - 1) for key in chance.sample(KEYS, chance.randint(0, 3))}


class Mirror(Client):
    """A client that keeps what it is sent, by the paths that it listens to."""

    def __init__(self, port):
        super().__init__(port)
        self.send_all([HELLO])
        self.trees, self.paths, self.ends = {}, {}, []
        self.tag = self.id = self.answers = 0

    def say(self, message):
        text = json.dumps(message).encode()
        length = bytes([0x80 | len(text)]) if len(text) < 126 else bytes([0xFE]) + len(text).to_bytes(2, "big")
        self.socket.sendall(bytes([TEXT]) + length + bytes(4) + text)

    def catch_up(self):
        """Takes all that was sent until a ping came."""
        while True:
            first, length = self.stream.read(2)
            length = int.from_bytes(self.stream.read(2 if length == 126 else 8), "big") if length > 125 else length
            text = self.stream.read(length)
            if first == PONG:
                return
            self.take(json.loads(text))

    def put(self, tag, path, value):
        keys, base = keys_of(path), keys_of(self.paths[tag])
        must("the path of what is sent", keys[: len(base)], base)
        self.trees[tag] = put_in(self.trees[tag], keys[len(base) :], value)

    def take(self, message):
        kind = message["k"]
        if kind == "ok":
            self.answers += 1
        elif kind == "data":
            self.put(message["tag"], message["path"], message["value"])
        elif kind == "data-merge":
            for path, value in message["entries"].items():
                self.put(message["tag"], path, value)
        elif kind == "push":
            for part in message["parts"]:
                for path, value in part["entries"].items():
                    self.put(part["tag"], path, value)
        else:
            raise Wrong(f"it is sent {message}")

    def step(self, chance, tree):
        """Does one thing by chance, and answers the tree behind it."""
        kind, path = chance.randint(0, 9), some_path(chance)
        if kind < 2 and len(self.paths) < 6:
            self.tag += 1
            self.paths[self.tag], self.trees[self.tag] = path, None
            self.say({"k": "listen", "path": path, "tag": self.tag})
        elif kind == 2 and self.paths:
            tag = chance.choice(list(self.paths))
            self.say({"k": "unlisten", "tag": tag})
            del self.paths[tag], self.trees[tag]
        elif kind == 3:
            self.id, value = self.id + 1, some_tree(chance)
            self.ends.append((keys_of(path), value))
            self.say({"id": self.id, "k": "od-put", "path": path, "value": value})
        elif kind < 6:
            self.id += 1
            keys = chance.sample(KEYS, 2)
            entries = {f"{path.rstrip('/')}/{key}": some_tree(chance, 1) for key in keys}
            self.say({"entries": entries, "id": self.id, "k": "merge"})
            for key, value in entries.items():
                tree = put_in(tree, keys_of(key), value)
        else:
            self.id, value = self.id + 1, some_tree(chance)
            self.say({"id": self.id, "k": "put", "path": path, "value": value})
            tree = put_in(tree, keys_of(path), value)
        return tree


def lock_step(_pid, port):
    """After each step of one of seven clients each mirror is what a tree kept apart has there; a client that goes does what it asked for."""
    chance, tree = random.Random(7), None
    clients = [Mirror(port) for _ in range(7)]
    for number in range(STEPS):
        at = chance.randrange(7)
        if chance.randrange(200):
            tree = clients[at].step(chance, tree)
        else:
            for keys, value in clients[at].ends:
                tree = put_in(tree, keys, value)
            clients[at].close()
            clients[at] = Mirror(port)
        clients[at].frame(PING, b"")
        clients[at].catch_up()
        others = [it for it in clients if it is not clients[at]]
        for it in others:
            it.frame(PING, b"")
        for it in others:
            it.catch_up()
        for it in clients:
            must(f"how many answers came behind step {number}", it.answers, it.id)
            for tag, path in it.paths.items():
                must(f"what is shown at {path} behind step {number}", it.trees[tag], part_of(tree, keys_of(path)))


CASES = [
    Crowd(f"{CONNECTIONS:,} connections at once", many_at_once),
    Crowd(f"{SHORT:,} connections one after another", one_after_another),
    Crowd(f"{PINGS:,} pings", pings_without_end),
    Crowd(f"{FRAGMENTS:,} empty fragments", fragments_without_end),
    Crowd(f"seven clients in lock step for {STEPS:,} steps", lock_step),
]
