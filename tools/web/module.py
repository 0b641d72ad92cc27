#!/usr/bin/env python3
"""Makes the client as a module of WebAssembly: kaltewi.wasm, with kaltewi.sums beside it, which says of what it was made.

Usage: tools/web/module.py proved|unproved ROOM STAMP    as ./kaltewi lib --web calls it: both come to crates/rt_ffi/out
       tools/web/module.py over FOLDER OUT               the same, over the libraries that are proved and built in FOLDER/crates/NAME/out/rlib: both come to OUT
       tools/web/module.py --renew [FOLDER]              takes both from FOLDER, or from crates/rt_ffi/out, into the package bindings/js

The toolchain's own library for WebAssembly has no memory of `Global` yet. So the module is made from the LLVM text of the crate rt_ffi as the static
library has it, for x86-64. There words and pointers have 64 bits, and each place in a struct is a number of bytes: so it is the same for WebAssembly of
64 bits, but for what retarget.py replaces. The toolchain's clang compiles it, its ld.lld links it with heap.c and words.c, and Debian's wasm-opt
(binaryen) makes places of 32 bits of those of 64, which each browser reads.

Where the toolchain looks otherwise than is known here, it stops with one line. The module has no imports; its exports are the calls of
include/kaltewi.h, `memory`, `kw_room` and `kw_free`.
"""
import os
import re
import shutil
import subprocess
import sys
import time

HERE = os.path.dirname(os.path.realpath(__file__))
sys.path.insert(0, os.path.dirname(HERE))
sys.dont_write_bytecode = True
import library
from bodies import over_proved, read, write
from library import CRATE, Stop, begun, kit, waited_for
from parts import ROOT, crates
from retarget import Unknown, retargeted
from sums import renew, sums_now, write_sums
from telling import minutes, note_end, say

NAME = "kaltewi.wasm"
# Keeps what it is given to compile, the largest of which is the library's module.
CLANG = r"""#!/bin/bash
for word in "$@"; do
    [ "$word" != -fsanitize=address ] || sanitizes=1
    [ "$word" != module.bc ] || cp module.bc "ROOM/captured/$(date +%s%N).bc"
done
[ -z "${sanitizes-}" ] || { echo "compiled" > "ROOM/compiled"; exit 1; }
exec "KIT/toolchain/bin/clang" "$@"
"""
FLAGS = ["--no-default-config", "--target=wasm64-unknown-unknown", "-mbulk-memory", "-mnontrapping-fptoint", "-msign-ext", "-mmutable-globals"]
FEATURES = ["memory64", "bulk-memory", "sign-ext", "nontrapping-float-to-int", "mutable-globals"]
OWN = ["kw_room", "kw_free"]  # heap.c's
TRIES = ["kw_refuse", "kw_asked", "kw_held"]  # heap.c's with TRY
STACK = 1_048_576  # bytes


def ran(what, words, **given):
    """Runs a tool, and answers what it printed."""
    it = subprocess.run(words, capture_output=True, text=True, errors="replace", **given)
    if it.returncode:
        raise Stop(f"{what}: {' '.join((it.stderr or it.stdout).split())[-400:]}")
    return it.stdout


def needs():
    """Stops where a tool is not there."""
    for name in ("clang", "ld.lld"):
        if not os.access(f"{kit()}/toolchain/bin/{name}", os.X_OK):
            raise Stop(f"the toolchain has no toolchain/bin/{name}: it lies in another way than is known here")
    if not shutil.which("wasm-opt"):
        raise Stop("the command 'wasm-opt' is not on the PATH: it is in Debian's package binaryen")


# ---- the toolchain's text


def captured(room):
    """The text of the largest module that the toolchain compiled in that room."""
    found = sorted((f"{room}/captured/{it}" for it in os.listdir(f"{room}/captured")), key=os.path.getsize)
    if not found:
        raise Stop("the toolchain compiled nothing where it was looked for: it lies in another way than is known here")
    words = [f"{kit()}/toolchain/bin/clang", "--no-default-config", "-S", "-emit-llvm", "-Xclang", "-disable-llvm-passes", "-x", "ir", found[-1], "-o", f"{room}/library.ll"]
    ran("clang", words)
    return f"{room}/library.ll"


def keeping_kit(room):
    """The toolchain's command over a folder of links to it, whose compiler keeps what it compiles in ROOM/captured."""
    os.makedirs(f"{room}/captured")
    return f"{library.kit_beside(room, CLANG)}/bin/rt"


def proved(room, over):
    """The text of the crate, which is proved here over what is proved and built in that folder."""
    folder, flags = over_proved(ROOT, CRATE, crates(), over, room, "staticlib")
    said = waited_for(begun([keeping_kit(room), "lib", *flags], folder, room), f"{CRATE} is being proved and compiled", room)
    if not os.path.isfile(f"{folder}/out/lib{CRATE}.a"):
        sys.stderr.write(said)
        raise Stop("rt lib made no archive: see above")
    return captured(room)


def unproved(room):
    """The text of the crate, compiled without proof, as a program that makes each of its calls."""
    folder = f"{room}/copy/crates/{CRATE}"
    library.as_program(folder)
    write(f"{room}/copy/crates.txt", re.sub(rf"(?m)^{CRATE} staticlib:", f"{CRATE}:", read(f"{room}/copy/crates.txt")))
    rt = begun([keeping_kit(room), "try", "--steps", "1"], folder, room, env={**os.environ, "TMPDIR": room})
    said = waited_for(rt, "the module is being compiled without its proofs", room)
    if not os.path.isfile(f"{room}/compiled"):
        sys.stderr.write(said)
        raise Stop("it was not compiled: see above" if "error" in said else "the toolchain compiled nothing where it was looked for: it lies in another way than is known here")
    return captured(room)


# ---- from the text to the module


def compiled(text, room, kind="proved"):
    """The object file of the text, which is `proved` or `unproved`, for WebAssembly of 64 bits."""
    with open(text, encoding="utf-8") as it, open(f"{room}/web.ll", "w", encoding="utf-8") as out:
        try:
            out.writelines(retargeted(it, kind == "unproved"))
        except Unknown as why:
            raise Stop(f"the toolchain's text has {why}, for which nothing is known here") from None
    more = ["-O2", "-fno-vectorize", "-fno-slp-vectorize", "-Wno-override-module"]
    ran("clang", [f"{kit()}/toolchain/bin/clang", *FLAGS, *more, "-c", "-x", "ir", f"{room}/web.ll", "-o", f"{room}/web.o"])
    return f"{room}/web.o"


def linked(object_file, room, to, is_try=False):
    """Links the object file with the heap and the words into a module at that place. One to try counts growths, and refuses one that is named."""
    files = []
    for name in ("heap", "words"):
        files.append(f"{room}/{name}{'.try' if is_try else ''}.o")
        words = [*FLAGS, "-std=gnu11", "-O2", *(["-DTRY"] if is_try else []), "-ffreestanding", "-nostdlib", "-Wall", "-Wextra", "-Werror", "-c", f"{HERE}/{name}.c"]
        ran("clang", [f"{kit()}/toolchain/bin/clang", *words, "-o", files[-1]])
    calls = [*library.exported(), *OWN, *(TRIES if is_try else [])]
    words = ["-flavor", "wasm", "-mwasm64", "--no-entry", "--stack-first", "-z", f"stack-size={STACK}", "--gc-sections", "--strip-all", "--fatal-warnings"]
    ran("ld.lld", [f"{kit()}/toolchain/bin/ld.lld", *words, *(f"--export={it}" for it in calls), object_file, *files, "-o", f"{to}.64"])
    features = [f"--enable-{it}" for it in FEATURES]
    ran("wasm-opt", ["wasm-opt", *features, "--memory64-lowering", "-O2", f"{to}.64", "-o", to])
    os.remove(f"{to}.64")
    judge(to, {"memory", *calls})


def number(data, at):
    """An unsigned LEB128 number, and the place behind it."""
    found = shift = 0
    while True:
        found |= (data[at] & 127) << shift
        shift, at = shift + 7, at + 1
        if data[at - 1] < 128:
            return found, at


def sections(data):
    """The sections of a module, each with its number and its content."""
    at = 8
    while at < len(data):
        kind = data[at]
        size, at = number(data, at + 1)
        yield kind, data[at : at + size]
        at += size


def exports(content):
    """The names in an export section."""
    count, at = number(content, 0)
    for _ in range(count):
        size, at = number(content, at)
        yield content[at : at + size].decode()
        _, at = number(content, at + size + 1)


def judge(file, wanted):
    """Stops where the module has an import, or other exports than these, or a memory of 64 bits."""
    with open(file, "rb") as it:
        found = dict(sections(it.read()))
    names = set(exports(found.get(7, b"\0")))
    if found.get(2, b"\0")[0] or names != wanted:
        raise Stop(f"the module has imports, or not these exports: {', '.join(sorted(names ^ wanted)) or 'none'}")
    if found.get(5, b"\1\4")[1] & 4:
        raise Stop("wasm-opt has left places of 64 bits")


def make(text, kind, room, out, of):
    """Makes the module of a text, and leaves it in that folder with its sums and those of the sources."""
    linked(compiled(text, room, kind), room, f"{room}/{NAME}")
    write_sums(f"{room}/kaltewi.sums", f"{room}/{NAME}", kind, of)
    os.makedirs(out, exist_ok=True)
    for it in (NAME, "kaltewi.sums"):
        shutil.copy(f"{room}/{it}", f"{out}/{it}.new")
        os.replace(f"{out}/{it}.new", f"{out}/{it}")


def for_launcher(kind, room, stamp):
    began, out, of = time.monotonic(), f"{ROOT}/crates/{CRATE}/out", sums_now()
    needs()
    make(proved(room, f"{room}/copy") if kind == "proved" else unproved(room), kind, room, out, of)
    for old in ("proved", "unproved"):
        if os.path.exists(f"{out}/{NAME}.{old}"):
            os.remove(f"{out}/{NAME}.{old}")
    shutil.copy2(stamp, f"{out}/{NAME}.{kind}")
    how = "proved" if kind == "proved" else "UNPROVED"
    say(f"crates/{CRATE}/out has {NAME}, which is {how}, after {minutes(began)}; tools/web/module.py --renew puts it into bindings/js")


def over(folder, out):
    import tempfile

    needs()
    of = sums_now()
    with tempfile.TemporaryDirectory(prefix="kaltewi-web-") as room:
        make(proved(room, os.path.realpath(folder)), "proved", room, os.path.realpath(out), of)


def main():
    words = sys.argv[1:]
    note_end()
    try:
        if len(words) == 3 and words[0] in ("proved", "unproved"):
            for_launcher(words[0], os.path.realpath(words[1]), words[2])
        elif len(words) == 3 and words[0] == "over":
            over(*words[1:])
        elif words[:1] == ["--renew"] and len(words) <= 2:
            say(renew(words[1] if words[1:] else f"{ROOT}/crates/{CRATE}/out"))
        else:
            sys.exit(__doc__.strip())
    except (Stop, OSError, subprocess.CalledProcessError) as why:
        say(why)
        sys.exit(1)


if __name__ == "__main__":
    main()
