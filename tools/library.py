#!/usr/bin/env python3
"""Makes the library for other languages: libkaltewi.a, and libkaltewi.so for Python.

Usage: tools/library.py proved|unproved ROOM STAMP

Both are left in crates/rt_ffi/out, with STAMP beside them as libkaltewi.proved or libkaltewi.unproved. ROOM is the folder for passing files.

proved    rt ci has proved and built in ROOM/copy what the crate rt_ffi stands on. rt lib proves rt_ffi over that, and compiles it.
unproved  ROOM/copy has rt_ffi and what it stands on. The toolchain compiles what is not proved for rt try alone, which takes a program, and gives
          no archive. So rt_ffi gets a main that makes each of its calls, and rt try compiles it by a compiler which leaves the object file in
          ROOM, without the sanitizer, and stops there. In that file the calls have names of the toolchain's own, and get those that C knows.

The library holds the few calls of the C library that it makes (c/liblibc_c.a of the toolchain). Its exported names are those of include/kaltewi.h.
"""
import os
import re
import shutil
import subprocess
import sys
import time

sys.dont_write_bytecode = True
from bodies import over_proved, read, write
from keeping import end_hint
from parts import ROOT, crates
from telling import end_if_asked, minutes, note_end, say, why_none

CRATE, NAME, TELL = "rt_ffi", "libkaltewi", 30
HEADER = f"{ROOT}/include/kaltewi.h"
EXPORTED = re.compile(r'#\[unsafe\(no_mangle\)\]\npub extern "C" fn (\w+)\(([^)]*)\)')
# What main hands to a call, by the type that its parameter has; main's own variables begin with a name of the parameter.
GIVEN = {
    "Global": "alloc",
    "&mut Handle": "&mut handle",
    "u64": "1",
    "u32": "1",
    "&[u8]": "&[]",
    "&[usize]": "&[]",
    "&[u8; 12]": "&[0u8; 12]",
    "&mut [u8]": "&mut [0u8; 1]",
    "&mut usize": "&mut len",
    "&mut u64": "&mut number",
    "&mut u32": "&mut code",
}
CLANG = r"""#!/bin/bash
for word in "$@"; do
    case $word in
    -fsanitize=address) sanitizes=1 ;;
    -fPIE) words+=(-fPIC) ;;
    module.o) words+=("ROOM/library.o") ;;
    *) words+=("$word") ;;
    esac
done
[ -n "${sanitizes-}" ] || exec "KIT/toolchain/bin/clang" "$@"
"KIT/toolchain/bin/clang" "${words[@]}" && echo "compiled" > "ROOM/compiled"
exit 1
"""


class Stop(Exception):
    """Why no library can be made."""


def kit():
    """The folder of the toolchain."""
    page = subprocess.run(["rt", "doc"], capture_output=True, text=True, check=True).stdout.strip()
    return os.path.dirname(page)


def tool(name, *words):
    """Runs one of LLVM's tools, which are all in the toolchain's clang."""
    ran = subprocess.run([name, *words], executable=f"{kit()}/toolchain/bin/clang", capture_output=True, text=True)
    if ran.returncode:
        raise Stop(f"{name}: {ran.stderr.strip()[-400:]}")
    return ran.stdout


def waited_for(rt, what, room):
    """Waits until a command of the toolchain has ended, and says each half minute that it goes on."""
    began = told = time.monotonic()
    try:
        while rt.poll() is None:
            end_if_asked()
            end_hint(rt)
            if time.monotonic() - told >= TELL:
                told = time.monotonic()
                say(f"{what}, for {minutes(began)} now")
            time.sleep(0.2)
    finally:
        rt.terminate()
        rt.wait()
    return read(f"{room}/said")


def begun(words, folder, room, **given):
    """A command of the toolchain, which goes on; what it says comes to ROOM/said."""
    with open(f"{room}/said", "wb") as said:
        return subprocess.Popen(words, cwd=folder, stdin=subprocess.DEVNULL, stdout=said, stderr=said, **given)


def proved(room):
    """The archive of the crate, which is proved here over what rt ci has proved and built."""
    folder, flags = over_proved(ROOT, CRATE, crates(), f"{room}/copy", room, "staticlib")
    said = waited_for(begun(["rt", "lib", *flags], folder, room), f"{CRATE} is being proved and compiled", room)
    archive = f"{folder}/out/lib{CRATE}.a"
    if not os.path.isfile(archive):
        sys.stderr.write(said)
        raise Stop("rt lib made no archive")
    return [archive, f"{kit()}/c/liblibc_c.a"]


# ---- without proofs


def calls_in(folder):
    """The functions that a crate exports, each with the types of its parameters."""
    texts = [read(f"{folder}/src/{it}") for it in sorted(os.listdir(f"{folder}/src"))]
    found = [it for text in texts for it in EXPORTED.findall(text)]
    return {name: [it.partition(":")[2].strip() for it in re.split(r",(?![^\[]*\])", words) if it.strip()] for name, words in found}


def main_of(calls):
    """A main that makes each call."""
    lines = [f"    let _ = {name}({', '.join(GIVEN[it] for it in types)});" for name, types in calls.items()]
    head = ["fn main(rt: HostRuntime) {", "    let alloc = rt.alloc();", "    let mut handle = Handle::closed(alloc);"]
    return "\n".join([*head, "    let (mut len, mut number, mut code) = (0usize, 0u64, 0u32);", *lines, "}", ""])


def as_program(folder):
    """Makes the static library in that folder a program which makes each of its calls, and answers these."""
    calls = calls_in(folder)
    unknown = {it for types in calls.values() for it in types} - set(GIVEN)
    if unknown or not calls:
        raise Stop(f"its calls take what no main is known to give: {', '.join(sorted(unknown)) or 'there is none'}")
    write(f"{folder}/src/main.rt", read(f"{folder}/src/lib.rt") + "\n" + main_of(calls))
    os.remove(f"{folder}/src/lib.rt")
    return list(calls)


def kit_beside(room, compiler=CLANG):
    """A folder with all of the toolchain by links, but for its compiler: this one, which keeps what it compiles."""
    own, other = kit(), f"{room}/kit"
    for folder, names in (("", os.listdir(own)), ("bin", os.listdir(f"{own}/bin")), ("toolchain", os.listdir(f"{own}/toolchain")), ("toolchain/bin", os.listdir(f"{own}/toolchain/bin"))):
        os.makedirs(f"{other}/{folder}")
        for name in names:
            if f"{folder}/{name}".strip("/") not in ("bin", "toolchain", "toolchain/bin", "toolchain/bin/clang", "bin/rt", "bin/rtlib.py"):
                os.symlink(f"{own}/{folder}/{name}", f"{other}/{folder}/{name}")
    for name in ("rt", "rtlib.py"):
        shutil.copy(f"{own}/bin/{name}", f"{other}/bin/{name}")
    write(f"{other}/toolchain/bin/clang", compiler.replace("ROOM", room).replace("KIT", own))
    os.chmod(f"{other}/toolchain/bin/clang", 0o755)
    return other


def named(room, calls):
    """Gives the calls in the object file the names that C knows; its main is seen by none."""
    symbols = [line.split()[-1] for line in tool("llvm-nm", f"{room}/library.o").splitlines()]
    words = ["--localize-symbol=main", "--localize-symbol=__asan_default_options"]
    for call in calls:
        found = [it for it in symbols if it.endswith(f"::{call}") or it == call]
        if len(found) != 1:
            raise Stop(f"the object file has {call} {len(found)} times")
        words += [f"--globalize-symbol={found[0]}", f"--redefine-sym={found[0]}={call}"]
    tool("llvm-objcopy", *words, f"{room}/library.o", f"{room}/named.o")


def unproved(room):
    """The object file of the crate, compiled without proof, and the archives of the calls that it makes."""
    folder = f"{room}/copy/crates/{CRATE}"
    calls = as_program(folder)
    write(f"{room}/copy/crates.txt", re.sub(rf"(?m)^{CRATE} staticlib:", f"{CRATE}:", read(f"{room}/copy/crates.txt")))
    rt = begun([f"{kit_beside(room)}/bin/rt", "try", "--steps", "1"], folder, room, env={**os.environ, "TMPDIR": room})
    said = waited_for(rt, "the library is being compiled without its proofs", room)
    if not os.path.isfile(f"{room}/compiled"):
        sys.stderr.write(said)
        raise Stop(why_none(said))
    named(room, calls)
    return [f"{room}/named.o", f"{kit()}/c/liblibc_c.a", f"{kit()}/c/libos_c.a"]


# ---- the two libraries


def archive(files, to):
    """One archive of object files and of what is in other archives."""
    lines = [f"{'addlib' if it.endswith('.a') else 'addmod'} {it}" for it in files]
    ran = subprocess.run([f"{kit()}/toolchain/bin/llvm-ar", "-M"], input="\n".join([f"create {to}", *lines, "save", "end", ""]), capture_output=True, text=True)
    if ran.returncode:
        raise Stop(f"llvm-ar: {ran.stderr.strip()[-400:]}")


def exported():
    """The calls that the header declares."""
    return sorted(set(re.findall(r"\b(kw_\w+)\(", read(HEADER))))


def shared(library, room, to):
    """The shared library, of which the header's calls alone are seen."""
    write(f"{room}/names", f"kaltewi {{ global: {' '.join(f'{it};' for it in exported())} local: *; }};\n")
    needs = [f"-Wl,--undefined={it}" for it in exported()]
    words = ["cc", "-shared", f"-Wl,--version-script={room}/names", "-Wl,--gc-sections", "-Wl,-z,defs", *needs, library, "-o", to]
    ran = subprocess.run(words, capture_output=True, text=True)
    if ran.returncode:
        raise Stop(f"cc: {ran.stderr.strip()[-400:]}")


def leave(files, kind, room, out, stamp):
    """Leaves both libraries, made of these files, in that folder, with the stamp that says how they were made."""
    archive(files, f"{room}/{NAME}.a")
    shared(f"{room}/{NAME}.a", room, f"{room}/{NAME}.so")
    os.makedirs(out, exist_ok=True)
    for old in ("proved", "unproved"):
        if os.path.exists(f"{out}/{NAME}.{old}"):
            os.remove(f"{out}/{NAME}.{old}")
    for it in (f"{NAME}.a", f"{NAME}.so"):
        shutil.copy(f"{room}/{it}", f"{out}/{it}.new")
        os.replace(f"{out}/{it}.new", f"{out}/{it}")
    shutil.copy2(stamp, f"{out}/{NAME}.{kind}")


def make(kind, room, stamp):
    began = time.monotonic()
    leave(proved(room) if kind == "proved" else unproved(room), kind, room, f"{ROOT}/crates/{CRATE}/out", stamp)
    how = "proved" if kind == "proved" else "UNPROVED"
    say(f"crates/{CRATE}/out has {NAME}.a and {NAME}.so, which are {how}, after {minutes(began)}")


def main():
    if len(sys.argv) != 4 or sys.argv[1] not in ("proved", "unproved"):
        sys.exit(__doc__.strip())
    note_end()
    try:
        make(sys.argv[1], os.path.realpath(sys.argv[2]), sys.argv[3])
    except (Stop, OSError, subprocess.CalledProcessError) as why:
        say(why)
        sys.exit(1)


if __name__ == "__main__":
    main()
