"""Of what the module of WebAssembly was made: bindings/js/kaltewi.sums has the version, how it was made, the tools, and the sums of the module and of each source.

Its lines are those of sha256sum, so that `sha256sum --check bindings/js/kaltewi.sums` at the root of a checkout says which sources are still the same."""
import hashlib
import json
import os
import re
import shutil
import subprocess

from bodies import read, write
from parts import ROOT, crates, with_below

PACKAGE = f"{ROOT}/bindings/js"
MODULE, SUMS = "bindings/js/kaltewi.wasm", "kaltewi.sums"
HEADS = ("version", "made", "toolchain", "lowered by")


def sum_of(file):
    with open(file, "rb") as it:
        return hashlib.sha256(it.read()).hexdigest()


def sources(root=ROOT):
    """The files that the module is made of, by their places in the repository."""
    folders = [f"crates/{it}/src" for it in with_below(["rt_ffi"], crates())] + ["tools/web"]
    found = [f"{at}/{name}" for folder in folders for at, _, names in os.walk(f"{root}/{folder}") for name in names]
    return sorted(os.path.relpath(it, root) for it in found if it.endswith((".rt", ".c", ".py")))


def version():
    """The version of the checkout."""
    return re.search(r"(?m)^version=(\S+)", read(f"{ROOT}/kaltewi"))[1]


def said_by(*words):
    return subprocess.run(words, capture_output=True, text=True, check=True).stdout.strip()


def tools():
    """The toolchain, and what lowers its module."""
    return said_by("rt", "version"), said_by("wasm-opt", "--version")


def sums_now():
    """The sums of the sources as they stand, by their places."""
    return {it: sum_of(f"{ROOT}/{it}") for it in sources()}


def write_sums(to, module, kind, of):
    """Writes of what a module was made, `proved` or `unproved`: of the sources with these sums, which are those from before it was made."""
    heads = zip(HEADS, (version(), kind, *tools()))
    lines = [f"# {name}: {it}" for name, it in heads]
    lines += [f"{sum_of(module)}  {MODULE}"] + [f"{it}  {path}" for path, it in of.items()]
    write(to, "\n".join([*lines, ""]))


def read_sums(file):
    """The heads and the sums of such a file."""
    text = read(file)
    heads = dict(re.findall(r"(?m)^# ([\w ]+): (.*)$", text))
    return heads, {path: it for it, path in re.findall(r"(?m)^([0-9a-f]{64})  (\S+)$", text)}


def changed(sums):
    """The sources that are not those of the sums."""
    here = sums_now()
    there = {path: it for path, it in sums.items() if path != MODULE}
    return sorted(path for path in {*here, *there} if here.get(path) != there.get(path))


def faults(package=PACKAGE):
    """What of a package's version, its module and their sums doesn't fit."""
    heads, sums = read_sums(f"{package}/{SUMS}")
    named = json.loads(read(f"{package}/package.json"))["version"]
    if named != version():
        yield f"package.json says version {named}, and ./kaltewi {version()}"
    if heads.get("version") != named:
        yield f"the module is of version {heads.get('version')}, and package.json says {named}: tools/web/module.py --renew takes a new one"
    if sums.get(MODULE) != sum_of(f"{package}/kaltewi.wasm"):
        yield "kaltewi.wasm has another sum than kaltewi.sums says"
    if heads.get("made") != "proved":
        yield f"the module was made {heads.get('made')}"


def renew(folder):
    """Takes a module and its sums into the package, and answers what was done."""
    heads, sums = read_sums(f"{folder}/{SUMS}")
    if sums.get(MODULE) != sum_of(f"{folder}/kaltewi.wasm"):
        raise OSError(f"{folder}/kaltewi.wasm is not the module of its sums")
    for it in ("kaltewi.wasm", SUMS):
        shutil.copy(f"{folder}/{it}", f"{PACKAGE}/{it}")
    return f"bindings/js has the {heads['made']} module of version {heads['version']}"
