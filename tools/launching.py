"""Runs of ./kaltewi: of the proved program, of one that is kept without its proofs, and, where none is there, with a stand-in for the
toolchain's command, which runs and says what rt try does, and rt ci of a build. That these make and prove the program is not tried here, since
it takes minutes. What it says of the commands without a program is compared with what the proved program says."""
import fcntl
import os
import pty
import re
import select
import shutil
import signal
import struct
import subprocess
import tempfile
import termios
import time

import library
from bodies import read, write
from parts import Clock, part
from rows import Row

STAND_IN = r"""#!/bin/bash
echo "$1" >> "$0.calls"
case $1 in
version) echo "a stand-in for the toolchain"; exit ;;
ci)
    [ -z "${STAND_IN_FAILS-}" ] || [ -n "${STAND_IN_FAILS_AT-}" ] || { echo "== rt_tree"; echo "a goal"; echo "rt: rt_tree NOT PROVED"; exit 1; }
    mkdir -p crates/rt_console/out
    printf '#!/bin/bash\necho built\n' > crates/rt_console/out/rt_console
    chmod +x crates/rt_console/out/rt_console
    echo "rt: rt_map is kept: an earlier run has it"
    echo "rt: rt_tree proved"
    exit
    ;;
doc) [ -z "${STAND_IN_LIES-}" ] || { echo "$STAND_IN_LIES/page"; exit; }; exec "$STAND_IN_FOR" doc ;;
lib)
    [ -z "${STAND_IN_FAILS-}" ] || { echo "a goal of the library"; exit 1; }
    mkdir -p out
    cp "${0%/*}/librt_ffi.a" out
    exit
    ;;
try) ;;
*) exit 9 ;;
esac
[ -z "${STAND_IN_FAILS-}" ] || { [ "$STAND_IN_FAILS" = silently ] || echo "error: no program" >&2; echo "run=none proved=no" >&2; exit 2; }
if [ -n "${STAND_IN_IS_OTHER-}" ]; then # one that runs no program below TMPDIR
    echo "${@: -1}"
    cat
    echo "a fault" >&2
    printf '%s\n' "checked: ended status=1" "races: not looked for" "run=ended status=1 runners=1 races=unchecked proved=no" >&2
    exit 1
fi
until [ -z "${STAND_IN_WAITS_FOR-}" ] || [ -e "$STAND_IN_WAITS_FOR" ]; do sleep 0.1; done
mkdir "$TMPDIR/rt-try"
cp "${0%/*}/program" "$TMPDIR/rt-try"
"$TMPDIR/rt-try/program" --help < /dev/null > /dev/null 2> /dev/null
sleep 1 # the gate may be busy
rm -rf "$TMPDIR/rt-try"
echo "run=ended status=0 runners=1 races=unchecked proved=no" >&2
"""
# Prints its last word, or all where ALL_WORDS is set, and its input, and says a fault, for which its status is 1 where it has an input.
PROGRAM = r"""
#include <stdio.h>
#include <stdlib.h>
int main(int count, char **words) {
    int byte, status = 0;
    for (int number = getenv("ALL_WORDS") ? 1 : count - 1; number < count; number++) puts(words[number]);
    fflush(stdout);
    for (; (byte = getchar()) != EOF; status = 1) putchar(byte);
    fputs("a fault\n", stderr);
    return status;
}
"""
COMMANDS = ("script", "serve", "emulate", "connect", "watch")
UNPROVED, MADE = "this one is UNPROVED", "the unproved program is made"


def lines_in_order(crates, last):
    """The lines of a crates.txt for that crate and for those that it stands on, lowest first, as ./kaltewi has them in a stamp."""
    lines = [line for line in (it.partition("#")[0] for it in crates.splitlines()) if line.strip(" ")]
    wanted = {last}
    for line in reversed(lines):
        head, _, below = line.partition(":")
        wanted |= set(below.split()) if head.split()[0] in wanted else set()
    return [line for line in lines if line.partition(":")[0].split()[0] in wanted]


def hear():
    """In a run's process: it hears each signal. The gate passes over SIGINT itself where a shell began it behind `&`, and over SIGHUP behind nohup."""
    for it in (signal.SIGINT, signal.SIGTERM, signal.SIGHUP):
        signal.signal(it, signal.SIG_DFL)


class Runs:
    """Runs of the launcher in a copy of the repository, and what is wrong with them."""

    def __init__(self, copy, room):
        self.copy, self.room, self.count, self.wrong = copy, room, 0, []
        self.out = f"{copy}/crates/rt_console/out"
        os.mkdir(f"{room}/bin")
        write(f"{room}/bin/rt", STAND_IN)
        os.chmod(f"{room}/bin/rt", 0o755)
        write(f"{room}/program.c", PROGRAM)
        subprocess.run(["cc", f"{room}/program.c", "-o", f"{room}/bin/program"], check=True)
        self.stand_in = {"PATH": f"{room}/bin:{os.environ['PATH']}", "TMPDIR": room, "STAND_IN_FOR": shutil.which("rt")}
        self.fails, self.other = {**self.stand_in, "STAND_IN_FAILS": "1"}, {**self.stand_in, "STAND_IN_IS_OTHER": "1"}

    def judge(self, name, ran, wanted, lines):
        """Notes what is wrong with a run, of which the status, the output, and of standard error each line by its text, are to be so."""
        self.count += 1
        said = ran[2].decode(errors="replace").splitlines()
        is_said = len(said) == len(lines) and all(text in line for text, line in zip(lines, said))
        if ran[:2] != wanted or not is_said:
            self.wrong.append(f"{name}: status {ran[0]}, {ran[1][:80]}, {said[:6]}")

    def says(self, name, words, given, status, out, *lines, environment=()):
        """A run with these words and this input has this status and output, and of standard error as many lines, each with its text."""
        stdin = {"stdin": given} if isinstance(given, int) else {"input": given}
        try:
            ran = subprocess.run([f"{self.copy}/kaltewi", *words], capture_output=True, timeout=60, env={**os.environ, **dict(environment)}, **stdin)
        except subprocess.TimeoutExpired:
            self.count += 1
            self.wrong.append(f"{name}: it does not end")
            return
        self.judge(name, (ran.returncode, ran.stdout, ran.stderr), (status, out), lines)

    def begun(self, *words, environment=(), **given):
        """A run of the launcher over the stand-in that goes on."""
        streams = {"stdin": subprocess.DEVNULL, "stdout": subprocess.PIPE, "stderr": subprocess.PIPE, **given}
        return subprocess.Popen([f"{self.copy}/kaltewi", *words], env={**os.environ, **self.stand_in, **dict(environment)}, preexec_fn=hear, **streams)

    def holds(self, name, is_so):
        self.count += 1
        if not is_so:
            self.wrong.append(name)

    def calls(self):
        """What the stand-in was called for since this was asked last."""
        file = f"{self.room}/bin/rt.calls"
        found = read(file).split() if os.path.exists(file) else []
        write(file, "")
        return [it for it in found if it not in ("version", "doc")]

    def wait_for_call(self):
        """Waits until a run has called the stand-in for more than its name."""
        while not self.calls():
            time.sleep(0.05)


def wrong_of(copy, script, out):
    """What is wrong, and how many runs there were: of a copy in which the program is built, over a script and what it prints."""
    with tempfile.TemporaryDirectory(prefix="kaltewi-launch-") as room:
        runs = Runs(copy, room)
        help_runs(runs)
        runs.says("the program is there", ["script"], script, 0, out)
        runs.says("a build of what is built", ["build"], b"", 0, b"", "the proved program is there")
        runs.says("the proved program's version", ["--version"], b"", 0, version_of(runs, KIT_OF_COPY, "program: proved\n"))
        os.remove(f"{runs.out}/kaltewi.built")
        without_runs(runs, script)
        kept_runs(runs, script)
        page_runs(runs)
        terminal_runs(runs)
        held_runs(runs, script)
        newer_runs(runs)
        new_runs(runs)
        together_run(runs)
        other_runs(runs, script)
        build_runs(runs)
        library_runs(runs)
        module_runs(runs)
        no_place_runs(runs, script)
        return runs.wrong, runs.count


KIT_OF_COPY = "a toolchain"


NO_LIBRARY = "library: none is made of the sources as they are; './kaltewi lib' makes it\n"


def version_of(runs, kit, program, library=NO_LIBRARY):
    """What --version prints: the version is the first that CHANGELOG.md has."""
    version = re.search(r"(?m)^## (\d+\.\d+\.\d+)\b", read(f"{runs.copy}/CHANGELOG.md"))
    return f"kaltewi {version and version[1]}\ntoolchain: {kit}\n{program}{library}".encode()


def help_runs(runs):
    """A call for help prints what stands in the launcher's own text, and of a command what the proved program prints, also without one."""
    text = read(f"{runs.copy}/kaltewi").partition("<<'END'\n")[2].partition("\nEND\n")[0]
    for word in ("--help", "-h", "help"):
        runs.says(f"its {word}", [word], b"", 0, f"{text}\n".encode())
    os.rename(f"{runs.out}/kaltewi.built", f"{runs.room}/stamp")
    for command in COMMANDS:
        told = subprocess.run([f"{runs.out}/rt_console", command, "--help"], stdin=subprocess.DEVNULL, capture_output=True, timeout=60)
        for words in ([command, "--help"], [command, "-h"]):
            runs.says(f"{' '.join(words)}, without a program", words, b"", told.returncode, told.stdout, environment=runs.fails)
    runs.holds("help calls the toolchain", not runs.calls())
    os.rename(f"{runs.room}/stamp", f"{runs.out}/kaltewi.built")


def without_runs(runs, script):
    """Where no program is there and none can be made, one line says why."""
    none = "program: none is built of the sources as they are; './kaltewi build' makes the proved one, and any command an unproved one\n"
    runs.says("a version without a program", ["--version"], b"", 0, version_of(runs, "a stand-in for the toolchain", none), environment=runs.stand_in)
    runs.says("another word", ["try"], script, 2, b"", "there is no command 'try'", environment=runs.stand_in)
    for words in (["lib", "x"], ["lib", "--web", "x"], ["lib", "--web", "--web"]):
        runs.says(" ".join(words), words, script, 2, b"", "no other words than --web and --unproved", environment=runs.stand_in)
    for environment, line in (({"PATH": ""}, "is not on the PATH"), ({**runs.stand_in, "TMPDIR": "/nowhere"}, "TMPDIR=/nowhere")):
        runs.says(line, ["script"], script, 1, b"", line, environment=environment)
    lines = (UNPROVED, "error: no program", "run=none", "did not come about")
    runs.says("no program can be made", ["connect", "8080"], script, 1, b"", *lines, environment=runs.fails)
    lines = (UNPROVED, "run=none proved=no", "rt itself ended before it had compiled anything", "did not come about")
    runs.says("rt try is ended", ["connect", "8080"], script, 1, b"", *lines, environment={**runs.fails, "STAND_IN_FAILS": "silently"})


def kept_runs(runs, script):
    """The first run makes the program and says so once; from then on it starts at once, and is given what is typed and its input as it comes."""
    runs.calls()
    runs.says("the first run", ["script"], script, 1, b"script\n" + script, UNPROVED, MADE, "a fault", environment=runs.stand_in)
    runs.holds("the first run does not make the program once", runs.calls() == ["try"])
    runs.says("the second run", ["watch", "8080"], script, 1, b"8080\n" + script, "a fault", environment=runs.fails)
    runs.says("its version", ["--version"], b"", 0, version_of(runs, "a stand-in for the toolchain", "program: unproved, until './kaltewi build' has proved it\n"))
    words = ["emulate", "8080", "--until-eof"]
    runs.says("a run that ends with its input", words, b"", 0, b"--until-eof\n", "a fault", environment=runs.fails)
    ours, theirs = pty.openpty()
    typed = runs.begun("script", stdin=theirs)
    os.write(ours, b"typed\n\4")
    runs.judge("typed lines", (typed.wait(60), *typed.communicate()), (1, b"script\ntyped\n"), ["a fault"])
    os.close(ours)
    os.close(theirs)


def page_runs(runs):
    """`emulate` is given the folder of the page of the tree behind its name, where no other is given; no other command is."""
    page, own = f"{runs.copy}/bindings/js", "--until-eof"
    cases = (
        (["emulate", "8080", own], ["emulate", "--page", page, "8080", own]),
        (["emulate", "8080", own, "--page", "x"], ["emulate", "8080", own, "--page", "x"]),
        (["emulate", "--page=x", "8080", own], ["emulate", "--page=x", "8080", own]),
        (["emulate", own, "8080", "--file"], ["emulate", "--page", page, own, "8080", "--file"]),
        (["serve", "8080"], ["serve", "8080"]),
    )
    for words, given in cases:
        out = "".join(f"{it}\n" for it in given).encode()
        runs.says(f"the words of {' '.join(words)}", words, b"", 0, out, "a fault", environment={**runs.fails, "ALL_WORDS": "1"})


RLWRAP = """#!/bin/bash
echo "rlwrap $1 $2"
shift 2
exec "$@"
"""


def terminal_runs(runs):
    """At a terminal a program that takes lines is asked to say more, and to escape what steers a terminal. If the terminal has a width, `watch` is
    asked to keep to it, and rlwrap reads the lines."""
    write(f"{runs.room}/bin/rlwrap", RLWRAP)
    os.chmod(f"{runs.room}/bin/rlwrap", 0o755)
    cases = (
        ("script", 80, "--escape"),
        ("script --escape", 80, "--verbose"),
        ("connect -v 8080", 80, "--escape"),
        ("connect --escape -v 8080", 80, "8080"),
        ("watch 8080", 80, "80"),
        ("watch 8080 --width 9", 80, "--escape"),
        ("watch 8080 --changes", 80, "--escape"),
        ("watch 8080", 0, "--escape"),
    )
    for words, width, last in cases:
        ours, theirs = pty.openpty()
        fcntl.ioctl(theirs, termios.TIOCSWINSZ, struct.pack("4H", 24, width, 0, 0))
        settings = termios.tcgetattr(theirs)
        settings[1] &= ~termios.ONLCR
        settings[3] &= ~termios.ECHO
        termios.tcsetattr(theirs, termios.TCSANOW, settings)
        one = runs.begun(*words.split(), stdin=theirs, stdout=theirs, stderr=theirs)
        os.write(ours, b"\4")
        status = one.wait(60)
        wrapped = "rlwrap -H /dev/null\n" if width else ""
        said = b""
        while select.select([ours], [], [], 0.2)[0]:
            said += os.read(ours, 65536)
        runs.judge(f"{words}, at a terminal of width {width}", (status, said, b""), (0, f"{wrapped}{last}\na fault\n".encode()), [])
        os.close(theirs)
        os.close(ours)
    os.remove(f"{runs.room}/bin/rlwrap")


def held_runs(runs, script):
    """What serves many ends cleanly at a signal, and goes on where its input has ended; with --until-eof the end of its input ends it too."""
    for words, number in ((["emulate", "--until-eof", "8080"], signal.SIGTERM), (["emulate", "8080"], signal.SIGINT)):
        ours, theirs = os.pipe()
        is_held = "--until-eof" in words
        one = runs.begun(*words, stdin=ours if is_held else subprocess.DEVNULL)
        os.close(ours)
        first = one.stdout.readline()
        time.sleep(0.3)
        runs.holds(f"{' '.join(words)} ends by itself", one.poll() is None)
        one.send_signal(number)
        out, err = one.communicate(timeout=60)
        last = b"8080\n" if is_held else b"--until-eof\n"  # which it is given as its last word
        runs.judge(f"{' '.join(words)} at a signal", (one.returncode, first + out, err), (0, last), ["a fault"])
        os.close(theirs)
    runs.says("its input", ["emulate", "8080", "--until-eof"], script, 0, b"--until-eof\n", "a fault", environment=runs.fails)


def newer_runs(runs):
    """What is kept is made anew where a source of the console is newer, and not where one of another crate is."""
    other, own = f"{runs.copy}/crates/kaltewi/src/lib.rt", f"{runs.copy}/crates/rt_tree/src/lib.rt"
    os.utime(other)
    runs.says("another crate is newer", ["script"], b"", 0, b"script\n", "a fault", environment=runs.fails)
    write(f"{runs.copy}/crates.txt", read(f"{runs.copy}/crates.txt") + "notes: kaltewi anyhow\n")
    runs.says("another crate is new", ["script"], b"", 0, b"script\n", "a fault", environment=runs.fails)
    os.utime(own)
    runs.says("a source is newer", ["script"], b"", 0, b"script\n", UNPROVED, MADE, "a fault", environment=runs.stand_in)


def new_runs(runs):
    """A crate of a program is made by its name, once: the text of examples/start, and a line of crates.txt. A name that is none, or is taken, is refused."""
    lines = read(f"{runs.copy}/crates.txt")
    for name in ("", "Notes", "9a", "a-b", "a b", "a\nb", "../a"):
        runs.says(f"a crate named {name!r}", ["new", name], b"", 2, b"", *["" for _ in name.split("\n")[1:]], "is no name of a crate", environment=runs.fails)
    for words in (["new"], ["new", "a", "b"]):
        runs.says(" ".join(words), words, b"", 2, b"", "takes the name of a crate, and no other word", environment=runs.fails)
    os.mkdir(f"{runs.copy}/crates/begun")
    taken = ("rt_tree", "crates.txt has a line"), ("notes", "crates.txt has a line"), ("begun", "the folder crates/begun is there"), ("json", "the toolchain has a library")
    for name, why in taken:
        runs.says(f"a crate named {name}", ["new", name], b"", 1, b"", why, environment=runs.stand_in)
    os.rmdir(f"{runs.copy}/crates/begun")
    runs.holds("a crate that is refused has a line", read(f"{runs.copy}/crates.txt") == lines)
    runs.says("a new crate", ["new", "first_2"], b"", 0, b"", "crates/first_2/src/main.rt is made", environment=runs.stand_in)
    made, start = f"{runs.copy}/crates/first_2", f"{runs.copy}/examples/start"
    found = sorted(os.path.relpath(f"{at}/{it}", made) for at, _, names in os.walk(made) for it in names)
    runs.holds(f"a new crate has {found}", found == ["src/main.rt", "status"] and read(f"{made}/src/main.rt") == read(f"{start}/main.rt.txt"))
    line = re.search(r"(?m)^example_start\b(.*)$", read(f"{runs.copy}/examples/lines.txt"))
    runs.holds("a new crate has another line", read(f"{runs.copy}/crates.txt") == f"{lines}first_2{line and line[1]}\n")
    runs.says("a crate that is new no more", ["new", "first_2"], b"", 1, b"", "crates.txt has a line", environment=runs.stand_in)
    runs.says("a new crate costs the program nothing", ["script"], b"", 0, b"script\n", "a fault", environment=runs.fails)
    shutil.rmtree(made)
    write(f"{runs.copy}/crates.txt", lines)


def together_run(runs):
    """Two that begin at once make it once; one that is ended while it makes it leaves nothing behind."""
    shutil.rmtree(f"{runs.out}/unproved")
    runs.calls()
    wait = {"STAND_IN_WAITS_FOR": f"{runs.room}/go"}
    one = runs.begun("script", environment=wait)
    runs.wait_for_call()
    other = runs.begun("script")
    said = other.stderr.readline() + other.stderr.readline()
    write(f"{runs.room}/go", "")
    ended = (other.wait(60), other.stdout.read(), said + other.stderr.read())
    runs.judge("a second one at the same time", ended, (0, b"script\n"), [UNPROVED, "another command makes it", "a fault"])
    runs.judge("a first one at the same time", (one.wait(60), *one.communicate()), (0, b"script\n"), [UNPROVED, MADE, "a fault"])
    runs.holds("two at the same time make it twice", not runs.calls())
    os.remove(f"{runs.room}/go")
    shutil.rmtree(f"{runs.out}/unproved")
    ended = runs.begun("script", environment=wait)
    runs.wait_for_call()
    ended.send_signal(signal.SIGTERM)
    runs.judge("one that is ended", (ended.wait(60), *ended.communicate()), (143, b""), [UNPROVED])
    left = [it for it in os.listdir(runs.room) if it.startswith("tmp.")]
    runs.holds(f"one that is ended leaves {left}", not left and not os.path.exists(f"{runs.out}/unproved"))


def other_runs(runs, script):
    """Where the toolchain runs the program in a way that is not known here, it is run by rt try: its lines are read first, and can't be typed."""
    lines, how = (UNPROVED, "the program can't be kept"), {"environment": runs.other}
    runs.says("a program that can't be kept", ["script"], script, 1, b"script\n" + script, *lines, "a fault", **how)
    runs.says("it, without lines", ["serve", "8080"], script, 1, b"8080\n", *lines, "a fault", **how)
    runs.says("it, which goes on", ["emulate", "8080"], script, 1, b"8080\n", *lines, "is not shown while it runs", "a fault", **how)
    runs.says("it, which can't end with its input", ["emulate", "8080", "--until-eof"], script, 1, b"", *lines, "can't be asked for", **how)
    ours, theirs = pty.openpty()
    runs.says("it, typed lines", ["script"], theirs, 1, b"", *lines, "can't be typed", **how)
    os.close(ours)
    os.close(theirs)


def build_runs(runs):
    """A build leaves the program, which is then used; one that fails says all that was said of what is not proved, and leaves none."""
    ranges = re.search(r"(?m)^\| `\./kaltewi build`[^|]*\|[^|]*\| ([^|]+?) \| ([^|]+?) \|$", read(f"{runs.copy}/README.md"))
    first = f"which takes {ranges[1]} on four cores, {ranges[2]} on two" if ranges else "README.md has no row of ./kaltewi build"
    lines = (first, "== rt_tree", "a goal", "NOT PROVED", "the console was not built")
    runs.says("a build that fails", ["build"], b"", 1, b"", *lines, environment=runs.fails)
    runs.says("a program to be replaced", ["script"], b"", 0, b"script\n", UNPROVED, MADE, "a fault", environment=runs.stand_in)
    lines = (first, "rt_map was proved before: 1 of ", "rt_tree is proved: 2 of ", "built in 0 minutes")
    runs.says("a build", ["build"], b"", 0, b"", *lines, environment=runs.stand_in)
    runs.says("what was built", ["script"], b"", 0, b"built\n")
    runs.holds("what was kept without proofs is there still", not os.path.exists(f"{runs.out}/unproved"))


def library_runs(runs):
    """The library is left in two forms over what rt lib makes, of which the header's calls alone are seen, and is made anew where a source is newer."""
    out, room = f"{runs.copy}/crates/rt_ffi/out", runs.room
    shutil.rmtree(out, ignore_errors=True)
    write(f"{room}/calls.c", "".join(f"int {it}(void) {{ return 0; }}\n" for it in [*library.exported(), "other"]))
    for words in (["cc", "-fPIC", "-c", f"{room}/calls.c", "-o", f"{room}/calls.o"], ["ar", "rcs", f"{room}/bin/librt_ffi.a", f"{room}/calls.o"]):
        subprocess.run(words, check=True)
    first = "the library is made over what is proved"
    lines = ("rt_map was proved before", "rt_tree is proved", "a goal of the library", "rt lib made no archive", "the library was not made")
    runs.says("a library that is not proved", ["lib"], b"", 1, b"", first, *lines, environment={**runs.fails, "STAND_IN_FAILS_AT": "lib"})
    runs.says("a library", ["lib"], b"", 0, b"", first, *lines[:2], "libkaltewi.a and libkaltewi.so, which are proved", environment=runs.stand_in)
    said = subprocess.run(["nm", "-D", "--defined-only", f"{out}/libkaltewi.so"], capture_output=True, text=True, check=True).stdout
    seen = {it for it in re.findall(r" T (\w+)", said)}
    runs.holds(f"the library shows {sorted(seen ^ set(library.exported()))[:3]}", seen == set(library.exported()))
    runs.holds("there is no libkaltewi.a", os.path.isfile(f"{out}/libkaltewi.a"))
    runs.says("a library that is there", ["lib"], b"", 0, b"", "the library is there, proved, and no source is newer", environment=runs.fails)
    told = version_of(runs, "a stand-in for the toolchain", "program: proved\n", "library: proved\n")
    runs.says("the version of both", ["--version"], b"", 0, told)
    os.utime(f"{runs.copy}/crates/rt_ffi/src/lib.rt")
    runs.says("its version, once a source is newer", ["--version"], b"", 0, version_of(runs, "a stand-in for the toolchain", "program: proved\n"))


def module_runs(runs):
    """Where wasm-opt is not there, and where the toolchain lies in another way or compiles nothing, one line says why no module is made."""
    few, other = f"{runs.room}/few", f"{runs.room}/other"
    for folder in (few, f"{other}/toolchain/bin", f"{other}/bin"):
        os.makedirs(folder)
    for it in ("readlink", "dirname"):
        os.symlink(shutil.which(it), f"{few}/{it}")
    for it in ("rt", "librt_ffi.a"):
        shutil.copy(f"{runs.room}/bin/{it}", f"{other}/bin/{it}")
    write(f"{other}/bin/rtlib.py", "")
    lies, last = {"STAND_IN_LIES": other}, "the module was not made"
    runs.says("a module without wasm-opt", ["lib", "--web"], b"", 1, b"", "'wasm-opt' is not on the PATH: it is in Debian's package binaryen", environment={"PATH": few})
    write(f"{runs.room}/bin/wasm-opt", "#!/bin/bash\nexit 9\n")
    os.chmod(f"{runs.room}/bin/wasm-opt", 0o755)
    first = ("the module is made over what is proved", "rt_map was proved before", "rt_tree is proved")
    runs.says("a module of a strange toolchain", ["lib", "--web"], b"", 1, b"", *first, "has no toolchain/bin/clang", last, environment={**runs.stand_in, **lies})
    for it in ("clang", "ld.lld"):
        shutil.copy(f"{runs.room}/bin/wasm-opt", f"{other}/toolchain/bin/{it}")
    lines = (*first, "a goal of the library", "rt lib made no archive", last)
    runs.says("a module that is not proved", ["lib", "--web"], b"", 1, b"", *lines, environment={**runs.fails, **lies, "STAND_IN_FAILS_AT": "lib"})
    runs.says("a module of nothing", ["lib", "--web"], b"", 1, b"", *first, "the toolchain compiled nothing where it was looked for", last, environment={**runs.stand_in, **lies})


def no_place_runs(runs, script):
    """Where nothing can be left in the checkout, a program is made for each run."""
    shutil.rmtree(runs.out)
    write(runs.out, "no folder")
    runs.says("no place for the program", ["build"], b"", 1, b"", "crates/rt_console/out can't be written")
    lines = (UNPROVED, "it can't be kept", MADE, "a fault")
    runs.says("no place, unproved", ["script"], script, 1, b"script\n" + script, *lines, environment=runs.stand_in)


def kit():
    """The toolchain's name."""
    return subprocess.run(["rt", "version"], capture_output=True, text=True, check=True).stdout


def keep_program(copy, to, since, by=None):
    """Leaves the console that was proved from the sources of that moment where ./kaltewi finds it, with the name of the toolchain."""
    out = f"{to}/crates/rt_console/out"
    os.makedirs(out, exist_ok=True)
    if copy != to:
        shutil.copy(f"{copy}/crates/rt_console/out/rt_console", f"{out}/rt_console.new")
        os.replace(f"{out}/rt_console.new", f"{out}/rt_console")
        shutil.rmtree(f"{out}/unproved", ignore_errors=True)
    lines = lines_in_order(read(f"{copy}/crates.txt"), "rt_console")
    write(f"{out}/kaltewi.built", "".join([by or kit(), *(f"{it}\n" for it in lines)]))
    os.utime(f"{out}/kaltewi.built", (since, since))


def launcher_part(copy):
    """The launcher starts the program that was proved, else one that it makes without proofs, and says in one line why it can't where it can't."""
    clock, first = Clock(), Row("tests/scripts/root_listen")
    keep_program(copy, copy, time.time(), f"{KIT_OF_COPY}\n")
    wrong, count = wrong_of(copy, first.script, first.out)
    part(f"launcher: {count} runs", "; ".join(wrong[:5]), clock)
