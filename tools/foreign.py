"""Kaltewi for other languages: the static library, and what C, Python and Rust make of it.

The library is built over what rt ci proved. A C program with include/kaltewi.h, compiled with warnings as errors and with the sanitizers of
addresses and of undefined behaviour, runs each script row, and prints what the console prints. Another runs each script of tests/scripts/ once for
each growth that it asks for, with that growth refused, and a third makes each call of a client so. The tests of the bindings run where their
languages are there, and the chats of bindings/c, which wants libwebsockets, and of bindings/rust over the console's emulate; where one is not, the part
says so. The module for bindings/js is made from what the same run of rt lib compiles (tools/web_parts.py)."""
import os
import shutil
import subprocess
import sys

sys.path.insert(0, f"{os.path.dirname(os.path.realpath(__file__))}/sessions")
import library
import spoken
import web_parts
from bodies import over_proved
from cutting import Wrong
from emulating import Emulator
from frames import SECONDS, free_port
from parts import ROOT, Clock, crates, part, some_of
from rows import builds_of, rows
from runs import differs

CRATE = "rt_ffi"
WARNINGS = ["-std=gnu11", "-O1", "-g", "-Wall", "-Wextra", "-Werror", "-fsanitize=address,undefined", "-fno-sanitize-recover=all"]
# Leaves nothing of what a C program was given unfreed, and says so.
SANITIZED = {"ASAN_OPTIONS": "detect_leaks=1:exitcode=9", "UBSAN_OPTIONS": "halt_on_error=1:exitcode=9"}


def kit():
    """The folder of the toolchain."""
    page = subprocess.run(["rt", "doc"], capture_output=True, text=True, check=True).stdout.strip()
    return os.path.dirname(page)


def archives(room):
    """The library, and the few calls of the C library that it makes."""
    return [f"{room}/{CRATE}/crates/{CRATE}/out/lib{CRATE}.a", f"{kit()}/c/liblibc_c.a"]


def said(words, **more):
    """What a command says where it fails, or nothing."""
    ran = subprocess.run(words, capture_output=True, text=True, **more)
    return f"{os.path.basename(words[0])}: status {ran.returncode}: {(ran.stdout + ran.stderr)[-300:]}" if ran.returncode else ""


def why_not_built(copy, room):
    """What keeps the library from being built, if anything does. It is proved once more, as rt ci keeps no archive, over what that proved."""
    folder, flags = over_proved(ROOT, CRATE, crates(), copy, room, "staticlib")
    return said([web_parts.keeping(room), "lib", *flags], cwd=folder) or ("" if os.path.isfile(archives(room)[0]) else "rt lib made no archive")


def compiled(name, libraries, room):
    """What is wrong with the C program of that name, which is compiled over these archives, if anything is."""
    return said(["gcc", *WARNINGS, f"-I{ROOT}/include", f"{ROOT}/bindings/c/{name}.c", *libraries, "-o", f"{room}/{name}"])


def wrong_row(row, program):
    """What is wrong with a script row that the C program runs, if anything is."""
    ran = subprocess.run([program], input=row.script, capture_output=True, timeout=120, env={**os.environ, **SANITIZED})
    return differs(f"{row.name} in C", (ran.returncode, ran.stdout, ran.stderr), (row.status, row.out, b""))


def c_part(copy, room):
    clock = Clock()
    scripts = [it for it in rows("tests/scripts", "tests/rows") if it.script is not None and not os.path.exists(f"{ROOT}/{it.name}.args")]
    wrong = [it for it in [why_not_built(copy, room) or compiled("lines", archives(room), room)] if it]
    if not wrong:
        wrong = [text for it in scripts for text in [wrong_row(it, f"{room}/lines")] if text]
    part(f"C: {len(scripts)} script rows through the static library", some_of(wrong, scripts), clock)
    return not wrong


def lost_growth(row, program):
    """What is wrong with the runs of a script in which one growth after another is refused, if anything is."""
    ran = subprocess.run([program], input=row.script, capture_output=True, timeout=300, env={**os.environ, **SANITIZED})
    return "" if not ran.returncode else f"{row.name}: status {ran.returncode}: {ran.stderr.decode(errors='replace')[:200]}"


def growths_part(room):
    clock, scripts = Clock(), [it for it in rows("tests/scripts") if it.script is not None]
    wrong = [it for it in [compiled("refused", archives(room)[:1], room)] if it]
    if not wrong:
        wrong = [text for it in scripts for text in [lost_growth(it, f"{room}/refused")] if text]
    part(f"C: {len(scripts)} scripts with each growth of a heap of their own refused", some_of(wrong, scripts), clock)


def client_part(room):
    """The calls of a client, with each growth refused; what they print is bindings/c/client.out."""
    clock = Clock()
    why = compiled("client", archives(room)[:1], room)
    if not why:
        ran = subprocess.run([f"{room}/client"], stdin=subprocess.DEVNULL, capture_output=True, timeout=300, env={**os.environ, **SANITIZED})
        with open(f"{ROOT}/bindings/c/client.out", "rb") as it:
            why = differs("client in C", (ran.returncode, ran.stdout, ran.stderr), (0, it.read(), b""))
    part("C: the calls of a client, with each growth refused", why, clock)


def websockets():
    """The words that compile and link a C program over libwebsockets, where pkg-config finds it."""
    if not shutil.which("pkg-config"):
        return []
    ran = subprocess.run(["pkg-config", "--cflags", "--libs", "libwebsockets"], capture_output=True, text=True)
    return [] if ran.returncode else ran.stdout.split()


def unserved(chat):
    """What is wrong with a chat at a port where nobody listens, if anything is: it has to say so by one line."""
    ran = subprocess.run([chat, str(free_port())], stdin=subprocess.DEVNULL, capture_output=True, timeout=SECONDS, env={**os.environ, **SANITIZED})
    return differs("a chat that nobody serves", (ran.returncode, ran.stdout, ran.stderr), (1, b"", b"ann: no connection can be made\n"))


def c_chat_part(copy, room):
    """The chat of bindings/c, where libwebsockets is there."""
    words = websockets()
    if not words:
        print("       C: pkg-config finds no libwebsockets, so the chat of bindings/c is not tried")
        return
    why = compiled("chat", [*archives(room), *words], room) or unserved(f"{room}/chat")
    if why:
        part("C: the chat of bindings/c", why)
    else:
        chat_part("C", copy, f"{room}/chat")


def shared(room):
    """Makes the shared library of the archive, whose names alone are seen."""
    with open(f"{room}/names", "w", encoding="utf-8") as it:
        it.write("kaltewi { global: kw_*; local: *; };\n")
    library, own = archives(room)
    words = ["gcc", "-shared", f"-Wl,--version-script={room}/names", "-Wl,--whole-archive", library, "-Wl,--no-whole-archive", own]
    return said([*words, "-o", f"{room}/libkaltewi.so"])


def python_part(room):
    clock = Clock()
    why = shared(room)
    if not why:
        environment = {**os.environ, "KALTEWI_LIBRARY": f"{room}/libkaltewi.so", "PYTHONDONTWRITEBYTECODE": "1"}
        why = said(["python3", "test_kaltewi.py"], cwd=f"{ROOT}/bindings/python", env=environment)
    part("Python: the tests of bindings/python", why, clock)


def rust_part(copy, room):
    if not shutil.which("cargo"):
        print("       Rust: no command 'cargo' is on the PATH, so bindings/rust is not tried")
        return
    clock, crate = Clock(), f"{room}/rust"
    shutil.copytree(f"{ROOT}/bindings/rust", crate, ignore=shutil.ignore_patterns("target"))
    environment = {**os.environ, "KALTEWI_ARCHIVES": ":".join(archives(room)), "CARGO_TARGET_DIR": f"{room}/target"}
    why = said(["cargo", "test", "--quiet", "--offline"], cwd=crate, env=environment)
    part("Rust: the tests and examples of bindings/rust", why, clock)
    if not why:
        chat_part("Rust", copy, f"{room}/target/debug/examples/chat")


def wrong_chat(program, chat):
    """What is wrong with a chat of two clients at once whom that program serves, if anything is: each has to hear what either says."""
    try:
        with Emulator(program, "--count", "2") as it:
            ran = subprocess.run([chat, str(it.port)], capture_output=True, text=True, timeout=SECONDS, env={**os.environ, **SANITIZED})
            lines = ran.stdout.splitlines()
            heard = {(line[:3], said) for line in lines for said in ("ann: hi", "bob: hello") if " hears: " in line and said in line}
            if ran.returncode or len(heard) != 4:
                return f"the chat ended with {ran.returncode}, and {len(heard)} lines of 4 were heard: {ran.stderr[-200:]}"
            return "" if it.ended() == (0, b"") else "emulate did not end well"
    except subprocess.TimeoutExpired:
        return "the chat did not end"
    except Wrong as why:
        return str(why)


def consoles(copy):
    """The builds of the console, if there are any."""
    return builds_of(copy, "rt_console") if os.path.isdir(f"{copy}/crates/rt_console/out") else []


def chat_part(language, copy, chat):
    """The chat of that language's bindings beside the console, where that is built."""
    programs = consoles(copy)
    if not programs:
        print(f"       {language}: the console is not built, so the chat of its bindings is not tried")
        return
    clock = Clock()
    wrong = [text for it in programs for text in [wrong_chat(it, chat)] if text]
    part(f"{language}: a chat of two clients over emulate, {len(programs)} runs", some_of(wrong, programs), clock)


def guide_part(copy, room):
    """What docs/GUIDE.md shows of the languages, over the library as ./kaltewi lib leaves it; its program in C is compiled without a warning."""
    with open(f"{room}/stamp", "w", encoding="utf-8") as it:
        it.write("made by the gate\n")
    try:
        library.leave(archives(room), "proved", room, f"{copy}/crates/{CRATE}/out", f"{room}/stamp")
        why = compiled("first", archives(room), room)
    except library.Stop as stopped:
        why = str(stopped)
    if why:
        part("docs/GUIDE.md's pieces for C, Rust and Python", why)
        return
    spoken.spoken_part(ROOT, copy, room)


def foreign_parts(copy, room):
    """The parts of this module, over a copy in which the crates are proved and built."""
    if not shutil.which("gcc"):
        part("C", "its command 'gcc' is not on the PATH")
        return
    if c_part(copy, room):
        growths_part(room)
        client_part(room)
        c_chat_part(copy, room)
        python_part(room)
        rust_part(copy, room)
        guide_part(copy, room)
        web_parts.web_parts(room, consoles(copy), f"{copy}/crates/example_rooms/out/example_rooms")


def main():
    """Tries the bindings over what rt check keeps in this checkout, and proves nothing but rt_ffi."""
    import tempfile

    with tempfile.TemporaryDirectory(prefix="kaltewi-foreign-") as room:
        foreign_parts(ROOT, room)


if __name__ == "__main__":
    main()
