"""What wrong bodies came to, kept on this machine by the sum of all that a verdict stands on, as rt ci keeps its proofs.

A sum is of the kit, of the scripts that judge, of HANDLES, of the lines of crates.txt and of src/, specs/ and proofs/ of the crate and of every crate below it, and
of the edit. Only REFUSED and OPEN are kept. Whoever can write to the folder can make a verdict, as with what rt ci keeps."""
import functools
import hashlib
import os
import subprocess
import tempfile

from bodies import OPEN, REFUSED, Verdict, read
from parts import ROOT, crates

AT = os.path.join(os.environ.get("XDG_CACHE_HOME") or os.path.expanduser("~/.cache"), "kaltewi", "bodies")
OF_KIT = ("KIT-ID", "WHAT", "bin/rt", "bin/rtlib.py")
JUDGES = ("tools/bodies.py", "tools/judging.py", "HANDLES")


def of_file(path):
    with open(path, "rb") as it:
        return it.read()


@functools.lru_cache(maxsize=None)
def kit_sum():
    kit = os.path.dirname(subprocess.run(["rt", "doc"], capture_output=True, text=True, check=True).stdout.strip())
    compiler = os.stat(f"{kit}/bin/rattle")
    return hashlib.sha256(repr(([of_file(f"{kit}/{it}") for it in OF_KIT], compiler.st_size, compiler.st_mtime_ns)).encode()).hexdigest()


@functools.lru_cache(maxsize=None)
def crate_sum(root, crate):
    found = hashlib.sha256()
    for part in ("src", "specs", "proofs"):
        for at, folders, names in os.walk(f"{root}/crates/{crate}/{part}"):
            folders.sort()
            for name in sorted(names):
                found.update(repr((os.path.relpath(f"{at}/{name}", root), of_file(f"{at}/{name}"))).encode())
    return found.hexdigest()


def below(crate, table):
    """The crates of the repository that one stands on, lowest first, with itself."""
    found = []
    for it in table[crate]:
        found += [one for one in below(it, table) if one not in found] if it in table else []
    return [*found, crate]


def name_of(root, edit, table):
    """The name under which an edit's verdict is kept."""
    all_below = below(edit.crate, table)
    parts = kit_sum(), [of_file(f"{root}/{it}") for it in JUDGES], [(it, table[it], crate_sum(root, it)) for it in all_below], read(edit.file)
    return hashlib.sha256(repr(parts).encode()).hexdigest()


def kept(edit):
    """The verdict that an edit had on this machine over the same texts, or nothing."""
    try:
        kind = read(f"{AT}/{name_of(ROOT, edit, crates())}")
    except (OSError, subprocess.CalledProcessError):
        return None
    return Verdict(kind, {}) if kind in (REFUSED, OPEN) else None


def keep(edit, verdict):
    """Keeps a verdict, where there is room for it."""
    if verdict not in (REFUSED, OPEN):
        return
    try:
        os.makedirs(AT, 0o700, exist_ok=True)
        with tempfile.NamedTemporaryFile("w", dir=AT, delete=False, encoding="utf-8") as it:
            it.write(str(verdict))
        os.replace(it.name, f"{AT}/{name_of(ROOT, edit, crates())}")
    except (OSError, subprocess.CalledProcessError):
        return
