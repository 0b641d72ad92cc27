#!/usr/bin/env python3
"""Kaltewi in JavaScript: the module of WebAssembly that is made of the sources as they stand, and the one of the package bindings/js, both by Node and
in a browser.

Usage: tools/web_parts.py EMULATE [MODULE [TRY]]   tries bindings/js beside that program, with its own module and with that one. TRY is a module that was
                                                   linked to be tried, whose growths are refused.

Each module runs every script row, each call of client.js and of kaltewi.js, and a chat of two clients over emulate. Growths of its memory are refused:
one after another in a module that is linked for that, and by a bound of the memory in each. The package's sums fit its version and its module
(tools/web/sums.py); where they are those of the sources and tools as they stand, its module is the one that is made, to the byte.

The types are checked where tsc is there, and what npm packs where npm is; tabs of a browser are tried where one is there. Where node, wasm-opt or a
browser is not there, a line says so."""
import os
import re
import shutil
import subprocess
import sys

HERE = os.path.dirname(os.path.realpath(__file__))
sys.path[:0] = [f"{HERE}/web", f"{HERE}/sessions", HERE]
sys.dont_write_bytecode = True
import json

import module
import sums
from bodies import read, write
from cutting import Wrong
from emulating import Emulator
from library import Stop
from parts import ROOT, Clock, part, some_of

OLDEST = (20, 16)
TESTS = ("rows", "client", "calls", "names", "bounded")
SECONDS = 900  # the longest that a set of tests takes
NODE_OPTIONS = "--experimental-websocket --no-warnings"
BROWSERS = ("chromium", "chromium-browser", "google-chrome")
OWN, FRESH = "of the package", "of the sources"
COMPILED = {"noEmit": True, "strict": True, "target": "es2022", "lib": ["es2022", "dom"], "module": "node16", "moduleResolution": "node16", "types": []}


def passed_over(what, why):
    print(f"       JavaScript: {what}: {why}", flush=True)


def why_no_node():
    """Why Node can't run the tests, if so."""
    if not shutil.which("node"):
        return "no command 'node' is on the PATH, so the tests of bindings/js are not run"
    said = subprocess.run(["node", "--version"], capture_output=True, text=True).stdout.strip()
    number = tuple(map(int, re.findall(r"\d+", said)[:2]))
    return "" if number >= OLDEST else f"node is {said}, and the tests want {'.'.join(map(str, OLDEST))} or later, so they are not run"


def package_with(made, room):
    """The package in a folder of that room, with a module that was made in the place of its own."""
    folder = f"{room}/js-{'made' if made else 'own'}"
    shutil.copytree(sums.PACKAGE, folder)
    if made:
        shutil.copy(made, f"{folder}/kaltewi.wasm")
    return folder


def tests_of(names, package, **more):
    """How many tests of tests/web/ passed, and what is wrong with the others."""
    environment = {**os.environ, "KALTEWI_JS": package, "NODE_OPTIONS": NODE_OPTIONS, **more}
    words = ["node", "--test", "--test-reporter=tap", *(f"{ROOT}/tests/web/{it}.mjs" for it in names)]
    ran = subprocess.run(words, stdin=subprocess.DEVNULL, capture_output=True, text=True, errors="replace", timeout=SECONDS, env=environment)
    passed = sum(map(int, re.findall(r"(?m)^# pass (\d+)", ran.stdout)))
    wrong = [f"{name.strip()}" for name in re.findall(r"(?m)^\s*not ok \d+ - (.*)$", ran.stdout)]
    if ran.returncode and not wrong:
        wrong = [f"status {ran.returncode}: {(ran.stdout + ran.stderr)[-300:]}"]
    return passed, wrong


def tests_part(of, package):
    clock = Clock()
    passed, wrong = tests_of(TESTS, package)
    part(f"JavaScript: {passed} tests by the module {of}: rows, calls, a bounded memory", some_of(wrong, passed), clock)


def refused_part(tried, package):
    clock = Clock()
    passed, wrong = tests_of(["refuse"], package, KALTEWI_TRY=tried)
    part(f"JavaScript: {passed} scripts with each growth of the module's memory refused", some_of(wrong, passed), clock)


def chat_part(of, package, programs):
    """Two clients over each of these programs' emulate."""
    clock, wrong = Clock(), []
    for it in programs:
        try:
            with Emulator(it, "--deny", "/secret") as emulate:
                passed, faults = tests_of(["chat"], package, KALTEWI_PORT=str(emulate.port))
                wrong += faults or ([] if passed else ["none was run"])
        except (Wrong, subprocess.TimeoutExpired) as why:
            wrong.append(str(why))
    part(f"JavaScript: a chat of two clients over emulate by the module {of}, {len(programs)} runs", some_of(wrong, programs), clock)


def browser():
    """The browser on the PATH, if there is one."""
    return next(filter(None, map(shutil.which, BROWSERS)), None)


def python_of_chat(library):
    """The Python in which bindings/python/chat.py can run over that library, or nothing."""
    own = "/usr/bin/python3" if os.access("/usr/bin/python3", os.X_OK) else sys.executable
    has_sockets = not subprocess.run([own, "-c", "import websockets"], capture_output=True).returncode
    return own if os.path.isfile(library) and has_sockets else ""


def browser_part(of, package, program, rooms, library):
    """Tabs of a browser beside that program's emulate, with bindings/python/chat.py over that library and with example_rooms, where they are there."""
    clock = Clock()
    chat = {"PYTHON": python_of_chat(library), "KALTEWI_LIBRARY": library, "ROOMS": rooms if os.path.isfile(rooms) else "", "SHOTS": ""}
    given = {"KALTEWI_JS": package, "NODE_OPTIONS": NODE_OPTIONS, "EMULATE": program, "BROWSER": browser(), **chat}
    words = ["node", f"{ROOT}/tests/web/tabs.mjs"]
    ran = subprocess.run(words, stdin=subprocess.DEVNULL, capture_output=True, text=True, errors="replace", env={**os.environ, **given})
    passed = len(re.findall(r"(?m)^ok      ", ran.stdout))
    wrong = [] if not ran.returncode and ran.stdout.endswith(f"\n{passed} passed, 0 failed\n") else [f"status {ran.returncode}: {(ran.stdout + ran.stderr)[-400:]}"]
    part(f"JavaScript: {passed} cases in a browser by the module {of}", some_of(wrong, passed), clock)


def types_part(package, room):
    """tests/web/types.ts over the types of the package, by tsc, where that is there."""
    if not shutil.which("tsc"):
        passed_over("types", "no command 'tsc' is on the PATH, so the types of bindings/js are not checked")
        return
    clock, folder = Clock(), f"{room}/types"
    os.makedirs(f"{folder}/node_modules")
    os.symlink(package, f"{folder}/node_modules/kaltewi")
    shutil.copy(f"{ROOT}/tests/web/types.ts", f"{folder}/types.mts")
    write(f"{folder}/tsconfig.json", json.dumps({"compilerOptions": COMPILED, "files": ["types.mts"]}))
    ran = subprocess.run(["tsc", "--project", folder], stdin=subprocess.DEVNULL, capture_output=True, text=True)
    part("JavaScript: the types of bindings/js, by tsc", "" if not ran.returncode else (ran.stdout + ran.stderr)[:400], clock)


def wrong_pack(package):
    """What npm would not pack of what package.json names, if anything."""
    ran = subprocess.run(["npm", "pack", "--dry-run", "--json", "--offline"], cwd=package, stdin=subprocess.DEVNULL, capture_output=True, text=True)
    if ran.returncode:
        return f"npm pack: {ran.stderr.strip()[-200:]}"
    packed = {it["path"] for it in json.loads(ran.stdout)[0]["files"]}
    wanted = json.loads(read(f"{package}/package.json"))["files"]
    lost = [it for it in wanted if not any(f"{path}/".startswith(f"{it}/") for path in packed)]
    return f"npm packs no {', '.join(lost)}" if lost else ""


def pack_part(package):
    if not shutil.which("npm"):
        passed_over("npm", "no command 'npm' is on the PATH, so it is not tried what it packs")
        return
    clock = Clock()
    part("JavaScript: npm packs what bindings/js names", wrong_pack(package), clock)


def sums_part(made=None):
    """The package's sums fit its version and its module; and where nothing has changed since, the module that is made is the same."""
    clock, wrong = Clock(), list(sums.faults())
    heads, listed = sums.read_sums(f"{sums.PACKAGE}/{sums.SUMS}")
    changed = sums.changed(listed)
    if made and not changed and sums.tools() == (heads.get("toolchain"), heads.get("lowered by")) and sums.sum_of(made) != listed.get(sums.MODULE):
        wrong.append("of the same sources and tools another module is made")
    since = f", of whose sources {len(changed)} have changed since" if changed else ", of the sources as they stand"
    part(f"JavaScript: the package's module is that of version {heads.get('version')}{since}", some_of(wrong, [heads]), clock)


def keeping(room):
    """The command that stands for `rt` where `rt lib` is to leave its module too, in ROOM/web; it is `rt` where none is to be made."""
    if why_no_node() or not shutil.which("wasm-opt"):
        return "rt"
    os.makedirs(f"{room}/web")
    try:
        module.needs()
        return module.keeping_kit(f"{room}/web")
    except (Stop, OSError) as why:
        write(f"{room}/web/why", str(why))
        return "rt"


def made_of(room):
    """The module, and one to try, of what `rt lib` has left in ROOM/web; nothing where it left none."""
    here = f"{room}/web"
    if not os.path.isdir(here):
        return None, None
    clock = Clock()
    made, tried, why = f"{here}/{module.NAME}", f"{here}/try.wasm", ""
    try:
        if os.path.exists(f"{here}/why"):
            raise Stop(read(f"{here}/why"))
        compiled = module.compiled(module.captured(here), here)
        module.linked(compiled, here, made)
        module.linked(compiled, here, tried, is_try=True)
    except Stop as it:
        why = str(it)
    part("JavaScript: the module of WebAssembly of the sources as they stand", why, clock)
    return (None, None) if why else (made, tried)


def package_parts(room, programs, made=None, tried=None, rooms=""):
    """The package by Node and in a browser: with its own module, and with one that was made, if one was; beside each of these programs' emulate, and in the
    browser beside the first one's and that of the program of examples/rooms."""
    why = why_no_node()
    sums_part(made)
    if why:
        passed_over("tests", why)
        return
    folders = {OWN: package_with(None, room), **({FRESH: package_with(made, room)} if made else {})}
    if not programs:
        passed_over("chat", "the console is not built, so neither the chat of two clients nor a browser is tried")
    elif not browser():
        passed_over("pages", "no chromium is on the PATH, so no browser is tried (tests/web/run installs it)")
    for of, folder in folders.items():
        tests_part(of, folder)
        if programs:
            chat_part(of, folder, programs)
        if programs and browser():
            browser_part(of, folder, programs[0], rooms, f"{room}/libkaltewi.so")
    if tried:
        refused_part(tried, folders[FRESH])
    types_part(folders[OWN], room)
    pack_part(folders[OWN])


def web_parts(room, programs, rooms):
    """The parts of this module behind an `rt lib` of rt_ffi by the command keeping(room), beside the builds of the console and the program of
    examples/rooms. For a chat of bindings/python ROOM/libkaltewi.so is there."""
    if not why_no_node() and not shutil.which("wasm-opt"):
        passed_over("the module", "no command 'wasm-opt' is on the PATH (it is in Debian's package binaryen), so none is made of the sources as they stand")
    package_parts(room, programs, *made_of(room), rooms=rooms)


def main():
    import tempfile

    words = sys.argv[1:]
    if not 1 <= len(words) <= 3 or words[0].startswith("-"):
        sys.exit(__doc__.strip())
    with tempfile.TemporaryDirectory(prefix="kaltewi-web-") as room:
        package_parts(room, [os.path.realpath(words[0])], *map(os.path.realpath, words[1:]))


if __name__ == "__main__":
    main()
