#!/usr/bin/env python3
"""Makes the console without its proofs, and keeps it.

Usage: tools/keeping.py CRATE ROOM STAMP KEPT

rt try compiles a program, runs it, and takes it away. Here it does so in the folder ROOT/crates/CRATE, for a run that only prints help, below the
folder KEPT.making; and while the program is there it is linked to another name. It is kept as KEPT/program, with STAMP as KEPT/stamp. rt starts it by
the toolchain's own loader: so that and the libraries beside it are copied to KEPT/lib. What is kept is tried once before it takes its place.

Exit status: 0 it is kept, by this run or by another that made it meanwhile; 1 it can't be compiled, and what rt said is printed;
3 the toolchain makes or starts it in another way than is known here, so that it can't be kept.
"""
import contextlib
import fcntl
import os
import shutil
import signal
import subprocess
import sys
import time

sys.dont_write_bytecode = True
from telling import end_if_asked, is_mute, minutes, note_end, say, why_none

LOOK, TELL = 0.01, 30  # seconds
KEPT, NOT_MADE, NOT_KEPT = 0, 1, 3
# How what is kept is started: ./kaltewi has the same.
STARTED = {"ASAN_OPTIONS": "allocator_may_return_null=1:symbolize=0"}
LOADER = "ld-linux-x86-64.so.2"


def words_of(process):
    """The words of a process, none where it has ended."""
    with contextlib.suppress(OSError):
        with open(f"/proc/{process}/cmdline", "rb") as it:
            return it.read().decode(errors="replace").split("\0")
    return []


def end_hint(rt):
    """Ends the check that rt try makes beside it, which looks for what a later check would refuse, and takes as long as the program does."""
    with contextlib.suppress(OSError):
        with open(f"/proc/{rt.pid}/task/{rt.pid}/children", encoding="utf-8") as it:
            below = it.read().split()
        for it in below:
            words = words_of(it)
            if os.path.basename(words[0] if words else "") == "rattle" and "no function" in words:
                os.kill(int(it), signal.SIGTERM)


def programs_in(folder):
    """The programs that stand below a folder."""
    for at, _, names in os.walk(folder):
        for name in names:
            with contextlib.suppress(OSError):
                with open(f"{at}/{name}", "rb") as it:
                    if os.access(f"{at}/{name}", os.X_OK) and it.read(4) == b"\x7fELF":
                        yield f"{at}/{name}"


def is_linked(folder, to):
    """Links a program that stands below a folder to another name, if one does, and answers whether it has."""
    for it in programs_in(folder):
        with contextlib.suppress(OSError):
            os.link(it, to)
            return True
    return False


def copy_loader(to):
    """Copies the toolchain's loader, and the libraries beside it, to a folder, and answers whether they are there."""
    page = subprocess.run(["rt", "doc"], capture_output=True, text=True).stdout.strip()
    folder = f"{os.path.dirname(page)}/toolchain/lib"
    if not os.path.isfile(f"{folder}/{LOADER}"):
        return False
    os.mkdir(to)
    for name in os.listdir(folder):
        if ".so" in name and os.path.isfile(f"{folder}/{name}"):
            shutil.copy(f"{folder}/{name}", f"{to}/{name}")
    os.rename(f"{to}/{LOADER}", f"{to}/loader")
    return True


def starts(folder):
    """Whether what is kept in a folder starts, as ./kaltewi starts it."""
    start = [f"{folder}/lib/loader", "--inhibit-cache", "--library-path", f"{folder}/lib"] if os.path.isdir(f"{folder}/lib") else []
    words = [*start, f"{folder}/program", "script"]
    return not subprocess.run(words, stdin=subprocess.DEVNULL, capture_output=True, env={**os.environ, **STARTED}).returncode


def is_kept(stamp, new, kept):
    """Puts what was linked in a folder in the place of what is kept, if it starts: by the toolchain's loader, or else by the system's."""
    if not (copy_loader(f"{new}/lib") and starts(new)):
        shutil.rmtree(f"{new}/lib", ignore_errors=True)
        if not starts(new):
            return False
    shutil.copy2(stamp, f"{new}/stamp")
    shutil.rmtree(kept, ignore_errors=True)
    os.rename(new, kept)
    return True


@contextlib.contextmanager
def trying(folder, room, below):
    """rt try of the program in that folder, which prints help; its files come below a folder of their own. It ends with this."""
    words = ["rt", "try", "--steps", "1", "--seconds", "600", "--", "--help"]
    with open(f"{room}/said", "wb") as said:
        environment = {**os.environ, "TMPDIR": below}
        rt = subprocess.Popen(words, cwd=folder, stdin=subprocess.DEVNULL, stdout=subprocess.DEVNULL, stderr=said, env=environment)
        try:
            yield rt
        finally:
            rt.terminate()
            rt.wait()


def is_made(folder, room, below, to):
    """Has rt make the program, links it, and answers whether that was done."""
    began = told = time.monotonic()
    is_there = False
    with trying(folder, room, below) as rt:
        while rt.poll() is None:
            end_if_asked()
            end_hint(rt)
            is_there = is_there or is_linked(below, to)
            if time.monotonic() - told >= TELL:
                told = time.monotonic()
                say(f"it is being compiled, for {minutes(began)} now")
            time.sleep(LOOK)
    return is_there


def make(folder, room, stamp, kept):
    """Makes the program and keeps it, and answers the exit status."""
    began, new, below = time.monotonic(), f"{kept}.new", f"{kept}.making"
    for it in (new, below):
        shutil.rmtree(it, ignore_errors=True)
        os.makedirs(it)
    try:
        is_there = is_made(folder, room, below, f"{new}/program")
        if is_there and is_kept(stamp, new, kept):
            say(f"the unproved program is made, after {minutes(began)}: each command starts at once from now on, where it is kept")
            return KEPT
    finally:
        for it in (new, below):
            shutil.rmtree(it, ignore_errors=True)
    with open(f"{room}/said", encoding="utf-8", errors="replace") as it:
        said = it.read()
    if is_there or "run=ended " in said:
        return NOT_KEPT
    sys.stderr.write(said)
    if is_mute(said):
        say(why_none(said))
    return NOT_MADE


def runner(crate, room):
    """A script that starts a program of this checkout without its proofs, as the only build of it; and what went wrong, if anything did."""
    root = os.path.realpath(f"{os.path.dirname(os.path.realpath(__file__))}/..")
    place, stamp, script, passing = (f"{room}/{crate}{it}" for it in (".kept", ".stamp", "", ".passing"))
    os.makedirs(passing)
    with open(stamp, "w", encoding="utf-8") as it:
        it.write(f"{crate}\n")
    if make(f"{root}/crates/{crate}", passing, stamp, place) != KEPT:
        return [], f"{crate} can't be made without its proofs"
    start = f"{place}/lib/loader --inhibit-cache --library-path {place}/lib " if os.path.isdir(f"{place}/lib") else ""
    given = " ".join(f"{name}={value}" for name, value in STARTED.items())
    with open(script, "w", encoding="utf-8") as it:
        it.write(f'#!/bin/sh\n{given} exec {start}{place}/program "$@"\n')
    os.chmod(script, 0o755)
    return [script], ""


def is_locked(lock):
    """Whether the lock is got."""
    try:
        fcntl.flock(lock, fcntl.LOCK_EX | fcntl.LOCK_NB)
    except BlockingIOError:
        return False
    return True


def alone(stamp, kept):
    """Waits until no other makes the same, and answers whether one has kept it since that stamp was made; others wait as long as the lock is open."""
    lock, has_waited = open(f"{kept}.lock", "w", encoding="utf-8"), False
    while not is_locked(lock):
        if not has_waited:
            say("another command makes it already, and is waited for")
        has_waited = True
        end_if_asked()
        time.sleep(10 * LOOK)
    with contextlib.suppress(OSError):
        return lock, os.stat(f"{kept}/stamp").st_ctime_ns >= os.stat(stamp).st_mtime_ns
    return lock, False


def main():
    if len(sys.argv) != 5:
        sys.exit(__doc__.strip())
    crate, room, stamp, kept = sys.argv[1:]
    root = os.path.realpath(f"{os.path.dirname(os.path.realpath(__file__))}/..")
    note_end()
    lock, is_made = alone(stamp, kept)
    with lock:
        if is_made:
            sys.exit(KEPT)
        try:
            sys.exit(make(f"{root}/crates/{crate}", os.path.realpath(room), stamp, kept))
        except OSError as why:
            say(f"it can't be kept: {why}")
            sys.exit(NOT_KEPT)


if __name__ == "__main__":
    main()
