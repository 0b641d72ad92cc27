"""Allocations refused: each row once more with one of its allocations refused, each time it is said. Of a long row some hundred are, each in a
run of its own; or all of them, each in a copy of one run that is made where it comes to the allocation."""
import concurrent.futures
import os
import struct
import subprocess
import tempfile

from bodies import run
from parts import ROOT, Clock, part, some_of
from rows import PROGRAMS, builds_of, rows

NO_MEMORY = b"kaltewi: out of memory\n"
# what the console says of it: itself, by clap, and of a line that is to be printed
SAID = NO_MEMORY, b"error: out of memory\n", b"kaltewi: the output can't be written: out of memory\n"
LACKING, REFUSED = b"NoMemory\n", b"refused\n"
MOST, SOME = 2000, 100  # of more than so many allocations of a row only some are refused, but where all are to be
AT_ONCE = 200  # how many are refused in one task
NEVER = 1 << 62  # the number of no allocation
END = struct.Struct("5q")  # what tests/calls/refuse_each.c writes of the end of a copy
SAME, WHOLE = -1, -2
ROOM, STOPPED = 1 << 20, 99  # the room in which rt_calls keeps what it prints, and the status of a copy that was stopped where that says NoMemory


def library_of(room, name):
    """Builds a library of tests/calls/ that is loaded before a program's own, and answers where it is, and what went wrong."""
    library = f"{room}/{name}.so"
    made = run(["cc", "-shared", "-fPIC", "-O1", "-o", library, f"{ROOT}/tests/calls/{name}.c"], ROOT)
    return library, f"tests/calls/{name}.c can't be compiled: {made.stdout[:300]}" if made.returncode else ""


def refuser(room):
    """Builds the library that answers one call of malloc or realloc that there is no memory."""
    return library_of(room, "refuse")


# ---- what a run says whose allocation was refused


def told_by_console(row, ended):
    """Whether a run of the console says that memory was lacking, behind a beginning of what it prints with memory. What is wrong with its words
    is told by clap, in clap's own words, and where it lacks memory for a tip, without it."""
    status, out, err = ended
    if row.status == 2 and status == 2:
        return not out and err.startswith(row.err.partition(b"\n")[0])
    return status == 1 and (row.out or b"").startswith(out) and err in SAID


def told_by_calls(row, ended):
    """Whether a run of calls says once that memory was lacking, and else just what it says with memory; or nothing at all, before the first call.
    A copy of a long run is stopped where it says so."""
    status, out, _ = ended
    if status == STOPPED:
        return out.endswith(LACKING) and row.out.startswith(out.removesuffix(LACKING))
    if status:
        return status == 1 and not out
    parts = out.split(LACKING)
    return any(LACKING.join(parts[:count]) + LACKING.join(parts[count:]) == row.out for count in range(1, len(parts)))


# ---- one in a run


def with_refusal(row, program, library, number):
    """Runs a row with that allocation of the program refused, and answers how it ended and whether there was such an allocation. Its input is a
    file, since how much a pipe gives at once is chance."""
    given = {**os.environ, "LD_PRELOAD": library, "REFUSED_ALLOCATION": str(number)}
    with row.opened() as script:
        ran = subprocess.run([program, *row.words], stdin=script, capture_output=True, timeout=60, env=given)
    err, _, own = ran.stderr.partition(REFUSED)
    return (ran.returncode, ran.stdout, err + own), REFUSED in ran.stderr


def count_of(row, program, library):
    """How many allocations a row's run makes."""
    count, step = 0, 1
    while with_refusal(row, program, library, count + step)[1]:
        count, step = count + step, 2 * step
    last = count + step
    while last - count > 1:
        middle = (count + last) // 2
        count, last = (middle, last) if with_refusal(row, program, library, middle)[1] else (count, middle)
    return count


def numbers_of(count):
    """Which of so many allocations are refused, each in a run: each, or of many every so manieth."""
    return range(1, count + 1, 1 if count <= MOST else count // SOME)


def in_turn(row, program, library, numbers):
    return ((it, with_refusal(row, program, library, it)[0]) for it in numbers)


# ---- each in a copy of one run


def ends_in(data, out):
    """How copies ended by what tests/calls/refuse_each.c wrote, each with its number, and last how many allocations there were. `out` is what
    the program itself prints."""
    at, ended = 0, None
    while at < len(data):
        number, before, status, printed, said = END.unpack_from(data, at)
        at += END.size
        if before == WHOLE:
            ended = None
        elif before != SAME:
            ended = status, out[:before] + data[at : at + printed], data[at + printed : at + printed + said]
        at += printed + said
        yield number, ended


def in_copies(row, program, library, first, last, room=0):
    """Runs a row with each of these allocations refused to a copy of it. Where the program keeps what it prints in such a room, copies are
    stopped where that says that memory was lacking."""
    with tempfile.TemporaryFile() as out, tempfile.TemporaryFile() as ends, row.opened() as script:
        given = {"LD_PRELOAD": library, "REFUSED_FIRST": str(first), "REFUSED_LAST": str(last), "REFUSED_ENDS": str(ends.fileno()), "REFUSED_ROOM": str(room)}
        streams = {"stdin": script, "stdout": out, "stderr": subprocess.PIPE, "pass_fds": [ends.fileno()]}
        ran = subprocess.run([program, *row.words], timeout=7200, env={**os.environ, **given}, **streams)
        out.seek(0)
        ends.seek(0)
        printed, found = out.read(), list(ends_in(ends.read(), out=row.out or b""))
    if (ran.returncode, printed, ran.stderr) != (row.status, row.out or b"", row.err) or not found or found[-1][1]:
        raise ValueError(f"{row.name} does not end as it has to where copies are refused memory ({os.path.basename(program)})")
    return found


# ---- of all rows


def judged(row, program, is_told, ends):
    """How many refused allocations were tried, how many no answer shows, and what is wrong."""
    count, unsaid, known = 0, 0, {}
    for number, ended in ends:
        count += 1
        if row.unsaid and ended[:2] == (row.status, row.out):
            unsaid += 1
            continue
        if ended not in known:
            known = {ended: is_told(row, ended)}
        if not known[ended]:
            told = f"status {ended[0]}, {ended[1][-160:]!r}, {ended[2][-160:]!r}"
            return count, unsaid, f"{row.name}, allocation {number} refused ({os.path.basename(program)}): {told}"
    return count, unsaid, ""


def is_as_many(unsaid, wanted, is_part):
    """Whether so many refusals are unsaid as a row names: where a part of its allocations are refused, perhaps fewer."""
    return unsaid == wanted or is_part and unsaid < wanted


class Sweep:
    """The refusals of a row's allocations by a program, in tasks of a pool."""

    def __init__(self, pool, row, program, library, is_told, is_whole):
        self.row, self.program = row, program
        count = in_copies(row, program, library, NEVER, NEVER)[-1][0] if is_whole else count_of(row, program, library)
        numbers = range(1, count + 1) if is_whole else numbers_of(count)
        room = ROOM if row.name.startswith("tests/calls/") and count > MOST else 0
        pieces = [numbers[first : first + AT_ONCE] for first in range(0, len(numbers), AT_ONCE)]

        def ends_of(piece):
            return in_copies(row, program, library, piece[0], piece[-1], room)[:-1] if is_whole else in_turn(row, program, library, piece)

        self.due, self.is_part = len(numbers), len(numbers) < count
        self.runs = [pool.submit(lambda piece=piece: judged(row, program, is_told, ends_of(piece))) for piece in pieces]

    def ended(self):
        """How many were refused, and what is wrong."""
        ends = [it.result() for it in self.runs]
        count, unsaid, wrong = sum(it[0] for it in ends), sum(it[1] for it in ends), next((it[2] for it in ends if it[2]), "")
        if not self.due:
            wrong = f"{self.row.name} takes no memory"
        elif not wrong and (count != self.due or not is_as_many(unsaid, self.row.unsaid, self.is_part)):
            wrong = f"{self.row.name}: of {count} refused allocations, {self.due} in all, no answer shows {unsaid}, not {self.row.unsaid}"
        return count, f"{wrong} ({os.path.basename(self.program)})" if wrong else ""


def refusals_part(copy, programs=PROGRAMS, is_whole=False):
    """Refuses the allocations of each row of these programs, of many some, or where it is whole all of them."""
    with tempfile.TemporaryDirectory(prefix="kaltewi-refuse-") as room, concurrent.futures.ThreadPoolExecutor(os.cpu_count()) as pool:
        library, why = library_of(room, "refuse_each" if is_whole else "refuse")
        if why:
            part("allocations refused in turn", why)
            return
        for name in programs:
            is_told = told_by_console if name == "rt_console" else told_by_calls
            clock, runs = Clock(), [(row, program) for row in rows(*PROGRAMS[name]) for program in builds_of(copy, name)]
            with concurrent.futures.ThreadPoolExecutor(os.cpu_count()) as counting:
                sweeps = list(counting.map(lambda it: Sweep(pool, *it, library, is_told, is_whole), runs))
            ends = [it.ended() for it in sweeps]
            which = "allocations refused, each of them" if is_whole else "allocations refused in turn"
            part(f"{name}: {sum(count for count, _ in ends)} {which}", some_of([why for _, why in ends if why], ends), clock)
