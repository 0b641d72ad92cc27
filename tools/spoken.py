"""What docs/GUIDE.md shows of C, Rust and Python: its programs are files of bindings/, word for word, and its lines for a shell are run as they
stand there, in order, in a copy of the repository that has the library: each prints what stands below it.

texts.guide_part passes over the kinds of these blocks, KINDS."""
import os
import re
import shutil
import subprocess

from bodies import read
from parts import Clock, part, some_of

KINDS = ("sh", "out", "c", "rs", "python")
PROGRAMS = {"c": "bindings/c/first.c", "rs": "bindings/rust/examples/first.rs", "python": "bindings/python/first.py"}
# Made before, since it takes minutes.
MADE = "./kaltewi lib\n"
# What a block's first word that is not there keeps from being tried.
NEEDS = {"cargo": "cargo", "pip": "pip"}


def blocks_of(guide):
    """The blocks of the section on languages, each with its kind."""
    section = guide.partition("\n## From C, Rust or Python\n")[2].partition("\n## ")[0]
    return re.findall(r"(?ms)^```(\w+)\n(.*?)^```$", section)


def wrong_programs(blocks, root):
    """What is wrong with the programs that are shown, if anything is."""
    for kind, file in PROGRAMS.items():
        shown = [text for it, text in blocks if it == kind]
        if shown != [read(f"{root}/{file}")]:
            yield f"{file} is not shown as it is"


def runs_in(blocks):
    """The blocks for a shell, each with what it prints: what stands below it, or above it where nothing does; nothing where another follows at once."""
    printed = ""
    for (kind, text), (after, below) in zip(blocks, [*blocks[1:], ("", "")]):
        if kind == "sh" and text != MADE:
            printed = below if after == "out" else printed
            yield text, printed


def wrong_run(lines, printed, copy, site):
    """What is wrong with lines of a shell in the copy, if anything is. What pip installs comes to the folder `site`."""
    given = {"PIP_TARGET": site, "PYTHONPATH": site, "PIP_NO_INDEX": "1", "PIP_DISABLE_PIP_VERSION_CHECK": "1", "PYTHONDONTWRITEBYTECODE": "1"}
    ran = subprocess.run(["bash", "-e", "-c", lines], cwd=copy, stdin=subprocess.DEVNULL, capture_output=True, text=True, timeout=600, env={**os.environ, **given})
    if (ran.returncode, ran.stdout) != (0, printed):
        return f"{lines.splitlines()[0]}: status {ran.returncode}: {(ran.stdout + ran.stderr)[-300:]}"
    return ""


def spoken_part(root, copy, room):
    """Runs what the guide shows, in a copy in which crates/rt_ffi/out has the library."""
    clock, blocks = Clock(), blocks_of(read(f"{root}/docs/GUIDE.md"))
    wrong, tried = list(wrong_programs(blocks, root)), []
    for lines, printed in runs_in(blocks):
        tool = NEEDS.get(lines.split()[0])
        if tool and not shutil.which(tool):
            print(f"       no command '{tool}' is on the PATH, so the guide's lines for it are not tried")
            continue
        tried.append(lines)
        wrong += [text for text in [wrong_run(lines, printed, copy, f"{room}/site")] if text]
    part(f"docs/GUIDE.md's {len(tried)} pieces for C, Rust and Python, run as they stand there", some_of(wrong, tried), clock)
