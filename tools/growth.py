"""What the worst scripts cost. The console runs each at two sizes under valgrind, which counts its instructions, so the load of a host doesn't matter.
The count may grow by at most 1.6 times what the size does: a step that looks at all that is held, or at each pair, makes it grow by the square.
Some do grow so, as docs/COSTS.md says: of these the bound is 1.6 times the square.

Usage: python3 tools/growth.py PROGRAM [NAME ..]     counts the scripts, or these alone, by a program that is built; writes rows of docs/COSTS.md
"""
import json
import math
import os
import random
import re
import shutil
import subprocess
import sys
import tempfile
from concurrent.futures import ThreadPoolExecutor

HERE = os.path.dirname(os.path.realpath(__file__))
sys.path[:0] = [f"{HERE}/sessions", HERE]
from bodies import read
from cutting import Wrong, ended, must, served
from emulating import Emulator, ok, say
from frames import Client
from parts import Clock, part, some_of
from rows import CONSOLE, builds_of

VALGRIND = "valgrind --tool=cachegrind --cache-sim=no --cachegrind-out-file=/dev/null"
BOUND = 1.6


def keys(count):
    return [f"k{number:06}" for number in range(count)]


def by_chance(count):
    """The numbers from 1 on, in an order by chance, which is the same each time."""
    numbers = list(range(1, count + 1))
    random.Random(count).shuffle(numbers)
    return numbers


# ---- scripts, each of a size


def listening(paths, tree):
    """A connection, and a listener of each path that is told the tree."""
    yield ["connected"]
    yield from (["listen", 1, path, []] for path in paths)
    yield from (["data", tag, path, tree] for tag, path in enumerate(paths, 1))


def limited(tree):
    """A connection, and a listener of the first child of a path, that is told the tree."""
    yield from (["connected"], ["listen", 1, "/list", [["limitToFirst", 1]]], ["data", 1, "/list", tree])


def entries(size):
    """An update of so many children below one listener, which the server pushes and accepts."""
    tree = {f"/list/{key}": 1 for key in keys(size)}
    yield from listening(["/list"], {"first": 0})
    yield from (["update", 1, tree], ["merge", 1, tree], ["ok", 1])


def scattered(size):
    """An update each of whose entries meets another listener."""
    yield from listening([f"/{key}" for key in keys(size)], {"a": 0})
    yield from (["update", 1, {f"/{key}/a": 1 for key in keys(size)}], ["ok", 1])


def removals(size):
    """A push of so many children, and a push that removes them."""
    yield from listening(["/list"], {"first": 0})
    yield from (["merge", 1, {f"/list/{key}": it for key in keys(size)}] for it in (1, None))


def parts(size):
    """A push of as many parts as there are listens."""
    yield from listening([f"/{key}" for key in keys(size)], {"a": 0})
    yield ["parts", [[tag, {f"/{key}/a": 1}] for tag, key in enumerate(keys(size), 1)]]


def settled(size):
    """So many writes, settled in an order by chance. The listener shows none of them, since its text would grow with each."""
    yield from limited({"0": 0})
    yield from (["set", 1, f"/list/{key}", 1] for key in keys(size))
    yield from (["ok", number] for number in by_chance(size))


def overwritten(size):
    """So many writes at one path, of which the newest is settled first."""
    yield from listening(["/list"], {"first": 0})
    yield from (["set", 1, "/list/x", number] for number in range(size))
    yield from (["ok", number] for number in range(size, 0, -1))


def asked(size):
    """So many requests for the end of the connection, settled in an order by chance."""
    yield ["connected"]
    yield from (["onDisconnect", 1, "set", f"/{key}", 1] for key in keys(size))
    yield from (["ok", number] for number in by_chance(size))


def window(size):
    """All children below a limit are removed, one by one: each time another one is shown."""
    yield from limited({key: 1 for key in keys(size)})
    yield from (["data", 1, f"/list/{key}", None] for key in keys(size))


def ends(size):
    """Listeners of a path each come, and end in an order by chance."""
    yield from listening([f"/{key}" for key in keys(size)], 0)
    yield from (["unlisten", 1, number] for number in by_chance(size))


def equals(size):
    """Listeners of one path come, and end in an order by chance."""
    yield ["connected"]
    yield from (["listen", 1, "/list", []] for _ in range(size))
    yield ["data", 1, "/list", 0]
    yield from (["unlisten", 1, number] for number in by_chance(size))


def stops(size):
    """Listeners come, and for each of them one above it, whose listen takes the place of its own."""
    yield ["connected"]
    yield from (["listen", 1, f"/{key}/a", []] for key in keys(size))
    yield from (["listen", 1, f"/{key}", []] for key in keys(size))


def above(size):
    """A listener above all others comes and goes."""
    yield from listening([f"/list/{key}" for key in keys(size)], 0)
    yield from (["listen", 1, "/list", []], ["data", size + 1, "/list", {"first": 0}], ["unlisten", 1, size + 1])


def between(low, high):
    """The query of a range of keys."""
    return [["orderByKey"], ["startAt", low], ["endAt", high]]


def ranges(size):
    """Ranges of one path come, are pushed to, and end in an order by chance; none takes in another."""
    yield ["connected"]
    bounds = [(f"k{2 * number:06}", f"k{2 * number + 1:06}") for number in range(size)]
    yield from (["listen", 1, "/list", between(low, high)] for low, high in bounds)
    yield from (["data", tag, "/list", {low: 0}] for tag, (low, _) in enumerate(bounds, 1))
    yield from (["data", tag, f"/list/{low}", 1] for tag, (low, _) in enumerate(bounds, 1))
    yield from (["unlisten", 1, number] for number in by_chance(size))


def nested(size):
    """Ranges of one path, each of which takes in all earlier ranges, come and end, the widest first."""
    yield ["connected"]
    bounds = [(f"k{size - number:06}", f"k{size + number:06}") for number in range(size)]
    yield from (["listen", 1, "/list", between(low, high)] for low, high in bounds)
    yield from (["unlisten", 1, number] for number in range(size, 0, -1))


def around(size):
    """Ranges of one path come inside a wide one, which is pushed to, ends and comes once more; they end in an order by chance, and it ends last."""
    wide = ["listen", 1, "/list", between("k", "l")]
    yield from (["connected"], wide)
    yield from (["listen", 1, "/list", between(f"{key}a", f"{key}b")] for key in keys(size))
    yield from (["data", 1, "/list", {"k": 0}], ["unlisten", 1, 1], wide, ["data", size + 2, "/list", {"k": 1}])
    yield from (["unlisten", 1, number + 1] for number in by_chance(size))
    yield ["unlisten", 1, size + 2]


def closed(size):
    """Ranges of a seat lie around as many of another seat, get their windows of a plain listen that ends, and end at once."""
    yield from listening(["/list"], {"l": 0})
    yield from (["listen", 2, "/list", between(f"k{key}", f"m{key}")] for key in keys(size))
    yield from (["listen", 3, "/list", between(f"l{key}a", f"l{key}b")] for key in keys(size))
    yield from (["unlisten", 1, 1], ["close", 2])


def below(size):
    """So many writes below one child of a listener, settled in an order by chance."""
    yield from limited({"0": 0, "a": {"x": 0}})
    yield from (["set", 1, f"/list/a/{key}", 1] for key in keys(size))
    yield from (["ok", number] for number in by_chance(size))


def compared(size):
    """So many children below one child of a listener, each of which is told once more, the last one first."""
    yield from limited({"0": 0, "a": {key: 1 for key in keys(size)}})
    yield from (["data", 1, f"/list/a/{key}", 2] for key in keys(size)[::-1])


def revoked(size):
    """Listens of a path each, which the server ends in an order by chance."""
    yield from listening([f"/{key}" for key in keys(size)], 0)
    yield from (["revoke", number, "no"] for number in by_chance(size))


def toggled(size):
    """A listener above many comes and goes as often; one between serves them meanwhile."""
    yield from (["connected"], ["listen", 1, "/list", []], *(["listen", 1, f"/list/{key}", []] for key in keys(size)))
    yield from (line for number in range(size) for line in (["listen", 1, "/", []], ["unlisten", 1, size + 2 + number]))


# ---- sessions with `serve`, each of a size: what is said, and how many texts come for it


def put(number, path):
    return {"k": "od-put", "id": number, "path": path, "value": 1}


def actions(size):
    """So many things to be done at the end of a connection, of which one after another is dropped, in an order by chance."""
    asked = [put(number, f"/{key}") for number, key in enumerate(keys(size), 1)]
    asked += [{"k": "od-cancel", "id": size + place, "path": f"/{keys(size)[number - 1]}"} for place, number in enumerate(by_chance(size), 1)]
    return asked, 2 * size


def runs(size):
    """So many things to be done at the end of a connection."""
    return [put(number, f"/{key}") for number, key in enumerate(keys(size), 1)], size


def heard(size):
    """As many listens as an update has entries, each of which meets another one."""
    listens = [{"k": "listen", "path": f"/{key}", "tag": tag} for tag, key in enumerate(keys(size), 1)]
    return [*listens, {"k": "merge", "id": 1, "entries": {f"/{key}": 1 for key in keys(size)}}], 2 * size + 1


# ---- sessions with `emulate`, each of a size: what one client says, and how many texts come for it to each of others, which listen


CLIENTS, LISTENS = 4, 4


def told(size):
    """An update of so many entries, which `emulate` sends to four clients, each of four listens."""
    return [{"k": "merge", "id": 1, "entries": {f"/{number % LISTENS + 1}/{key}": 1 for number, key in enumerate(keys(size))}}], LISTENS


# The scripts and sessions whose instructions grow as their size does, and those that grow by its square, as docs/COSTS.md says.
KINDS = {
    it.__name__: (it, power, sizes)
    for power, sizes, kinds in [
        (1, (200, 1600), (entries, scattered, removals, parts, settled, overwritten, asked, window, above, runs, actions, told)),
        (1, (100, 800), (stops, heard, around, closed)),
        (2, (250, 2000), (ends, equals)),
        (2, (100, 800), (revoked, compared)),
        (2, (50, 400), (toggled, below)),
        (2, (12, 96), (ranges, nested)),
    ]
    for it in kinds
}


# ---- counting


def under_valgrind(program, room, name):
    """A command that runs a program under valgrind, and the file in which that says how many instructions there were."""
    command, log = f"{room}/{name}", f"{room}/{name}.log"
    text = f'#!/bin/sh\nexec {VALGRIND} --log-file="{log}" "{program}" "$@"\n'
    # Another process writes it: what this one had open another thread's child would hold, and then the file can't be run.
    subprocess.run(["sh", "-c", 'printf %s "$1" > "$2" && chmod 755 "$2"', "sh", text, command], check=True)
    return command, log


def run_script(command, lines):
    """Runs a script, each of whose lines has to be done."""
    text = "".join(f"{json.dumps(line)}\n" for line in lines)
    ran = subprocess.run([command, "script"], input=text, capture_output=True, text=True, check=False)
    done = sum(line.startswith("done") for line in ran.stdout.splitlines())
    if ran.returncode or done != text.count("\n"):
        raise Wrong(f"{done} of {text.count(chr(10))} lines are done, and the status is {ran.returncode}")


def run_session(command, messages, texts):
    """Runs a session of `serve` with one client, to whom so many texts come."""
    ran, port = served(command, 1, {})
    if not port:
        raise Wrong(f"serve doesn't listen: {ended(ran)}")
    client = Client(port)
    with ThreadPoolExecutor(1) as pool:
        heard_all = pool.submit(lambda: [client.text() for _ in range(texts)])
        for message in messages:
            say(client, message)
        heard_all.result()
    client.close()
    if ended(ran)[0]:
        raise Wrong(f"serve ended with {ran.returncode}")


def run_emulator(command, messages, texts):
    """Runs a session of `emulate`: one client says these, and so many texts come for it to each of the others."""
    with Emulator(command) as it:
        others = [Client(it.port) for _ in range(CLIENTS)]
        for other in others:
            for tag in range(1, LISTENS + 1):
                say(other, {"k": "listen", "path": f"/{tag}", "tag": tag})
            must("what is at the listens", [other.text()[1]["value"] for _ in range(LISTENS)], [None] * LISTENS)
        writer = Client(it.port)
        for message in messages:
            say(writer, message)
        must("what settles it", writer.text(), ok(1))
        must("what the others are told", [len([other.text() for _ in range(texts)]) for other in others], [texts] * CLIENTS)
        must("how it ends", it.end(), (0, b""))


SESSIONS = {actions: run_session, runs: run_session, heard: run_session, told: run_emulator}


def counted(program, room, name, size):
    """How many instructions a script or a session of that size makes."""
    command, log = under_valgrind(program, room, f"{name}-{size}")
    makes, _, _ = KINDS[name]
    if makes in SESSIONS:
        SESSIONS[makes](command, *makes(size))
    else:
        run_script(command, makes(size))
    return instructions_in(read(log))


def instructions_in(text):
    """The instructions that valgrind says."""
    return int(re.search(r"I\s+refs:\s+([\d,]+)", text)[1].replace(",", ""))


def counts_of(program, room, name):
    """How many instructions there are at both sizes."""
    return {size: counted(program, room, name, size) for size in KINDS[name][2]}


# ---- judging


def wrong_growth(name, counts, power):
    """What is wrong with the counts by size, which may grow by that power of the size."""
    (small, low), (large, high) = sorted(counts.items())
    ratio, bound = high / low, BOUND * (large / small) ** power
    return f"{name}: from {small} to {large} the instructions grow {ratio:.1f} times, more than {bound:.1f}" if ratio > bound else ""


def wrong_of(program, room, name):
    """What is wrong with a script or a session, if anything is."""
    try:
        return wrong_growth(name, counts_of(program, room, name), KINDS[name][1])
    except (Wrong, OSError, subprocess.TimeoutExpired) as why:
        return f"{name}: {why}"


def growth_part(copy):
    """The growth of each, by the console as one compiler built it, where valgrind is there."""
    if not shutil.which("valgrind"):
        print("       growth: no command 'valgrind' is on the PATH, so no instructions are counted")
        return
    clock, program = Clock(), builds_of(copy, CONSOLE)[0]
    with tempfile.TemporaryDirectory(prefix="kaltewi-growth-") as room, ThreadPoolExecutor(os.cpu_count()) as pool:
        wrong = [it for it in pool.map(lambda name: wrong_of(program, room, name), KINDS) if it]
    part(f"growth: the instructions of {len(KINDS)} scripts and sessions at two sizes", some_of(wrong, KINDS), clock)


def row_of(name, counts):
    """The row of docs/COSTS.md: what is done, by which power it may grow, its larger size, the instructions there, and the power that is measured."""
    (small, low), (large, high) = sorted(counts.items())
    makes, power, _ = KINDS[name]
    measured = math.log(high / low) / math.log(large / small)
    return f"| `{name}` | {makes.__doc__.partition('.')[0]} | {power} | {large:,} | {high / 1e6:,.0f} | {measured:.2f} |"


def main():
    if len(sys.argv) < 2 or not set(sys.argv[2:]) <= set(KINDS):
        print(__doc__.strip())
        sys.exit(2)
    with tempfile.TemporaryDirectory(prefix="kaltewi-growth-") as room:
        for name in sys.argv[2:] or KINDS:
            print(row_of(name, counts_of(sys.argv[1], room, name)), flush=True)


if __name__ == "__main__":
    main()
