"""Bodies that give up, as no contract can always forbid: none can say that memory was really refused. Planted one after another, each makes the
rows fail that it names. So does a fault in handing over, which the prover would refuse: threads over one client see it (tools/stress.py).

tools/plants/CRATE/NAME.edit has a line 'fails: ROW ..', each row a script below tests/, or CRATE/TEST, or 'threads', and what
is changed as a wrong body has it. A planted copy is built and run without proofs (rt try); the console that judges what its threads are told
is the proved one. First each of these rows is run with nothing planted, and passes."""
import concurrent.futures
import os
import re
import subprocess
import tempfile

from bodies import Edit, read, write
from parts import ROOT, Clock, part, some_of
from proving import copied
from rows import Row, builds_of
from stress import Stress

PLANTS = f"{ROOT}/tools/plants"
SECONDS = 300  # how long a run may take, once it is built
THREADS, A_RUN = "threads", ("1", "1", "60")  # the row that is a run of threads over one client, and its words
ENDED = re.compile(r"(?m)^run=ended status=(\d+) ")


class Plant(Edit):
    """A body to be planted, and the rows that then fail."""

    def __init__(self, crate, file):
        super().__init__(crate, file)
        said = re.search(r"(?m)^fails: (.*)$", read(file))
        self.rows = said[1].split() if said else []


def plants_in(folder):
    files = [f"{at}/{name}" for at, _, names in sorted(os.walk(folder)) for name in sorted(names)]
    return [Plant(os.path.basename(os.path.dirname(it)), it) for it in files]


def why_not(plant):
    """Why a plant can't be tried, if it can't."""
    return plant.applied({}, f"{ROOT}/crates/{plant.crate}")[1] or ("" if plant.rows else "it names no row")


def ended_of(said, test):
    """How a test ended by what is said of a run of tests."""
    found = re.search(rf"(?m)^test (?:\w+::)*{test} \.\.\. (\w+)", said)
    return found[1] if found else None


def tried(copy, crate, *words, script=b""):
    """A run of a crate of the copy without its proofs."""
    flags = ["rt", "try", "--seconds", str(SECONDS), *words]
    return subprocess.run(flags, cwd=f"{copy}/crates/{crate}", input=script, capture_output=True)


def are_told(copy, console):
    """Whether the seats of threads over one client are told in the copy what the console prints; nothing where it can't be run."""
    ran, stress = tried(copy, "rt_calls", "--", *A_RUN), Stress(console)
    ended = ENDED.search(ran.stderr.decode(errors="replace"))
    stress.judge(ran.stdout.decode(errors="replace"))
    return ended[1] == "0" and not stress.wrong if ended else None


def is_well(copy, name, console):
    """Whether a row passes in the copy; nothing where it can't be run."""
    if name == THREADS:
        return are_told(copy, console)
    crate, _, test = name.partition("/")
    if crate != "tests":
        ran = tried(copy, crate, "--test")
        ended = ended_of((ran.stdout + ran.stderr).decode(errors="replace"), test)
        return ended == "ok" if ended else None
    row = Row(name)
    ran = tried(copy, "rt_calls" if name.startswith("tests/calls/") else "rt_console", "--", *(it.decode() for it in row.words), script=row.script)
    ended = ENDED.search(ran.stderr.decode(errors="replace"))
    return (int(ended[1]), ran.stdout) == (row.status, row.out) if ended else None


def wrong_of(plant, name, console):
    """What is wrong with a row in a copy with this plant, or with nothing planted: with a plant it has to fail. The console is a proved one."""
    what = f"{plant.name} planted" if plant else "nothing planted"
    with tempfile.TemporaryDirectory(prefix="kaltewi-plant-") as room:
        copy = copied(f"{room}/repository")
        if plant:
            for path, text in plant.applied({}, f"{copy}/crates/{plant.crate}")[0].items():
                write(f"{copy}/crates/{plant.crate}/{path}", text)
        has_passed = is_well(copy, name, console)
    if has_passed is None:
        return f"{name} can't be run with {what}"
    return f"{name} {'passes' if has_passed else 'fails'} with {what}" if has_passed == bool(plant) else ""


def plants_part(proved):
    """Plants each body; the copy is one in which the crates are proved and built."""
    clock, plants, console = Clock(), plants_in(PLANTS), builds_of(proved, "rt_console")[0]
    wrong = [f"{it.name}: {why}" for it in plants for why in [why_not(it)] if why]
    planted = [(it, name) for it in plants for name in it.rows]
    runs = [] if wrong else [*((None, name) for name in dict.fromkeys(name for _, name in planted)), *planted]
    with concurrent.futures.ThreadPoolExecutor(os.cpu_count()) as pool:
        wrong += [why for why in pool.map(lambda it: wrong_of(*it, console), runs) if why]
    part(f"{len(plants)} planted bodies make {len(planted)} rows fail", some_of(wrong, plants), clock)
