"""Programs that stand as texts, since rt ci wants each .rt file in a crate of crates.txt: those of examples/, benchmarks/ and tests/two_ways/.

In a program's folder a file NAME.rt.txt is src/NAME.rt of its crate, A.B.antt.txt are the answers of A::B, and each other file, as stdout, stands
beside src/. The examples have their lines of crates.txt in examples/lines.txt; the crate of examples/chat is example_chat."""
import os
import shutil

from bodies import read, write
from parts import ROOT, crates_in

LINES = "examples/lines.txt"
IN_GATE = ("example_chat", "example_rooms")  # those that ./check proves; ./check --all and ./check examples prove all


def examples():
    """The examples by the names of their crates, each with the libraries that it stands on."""
    return crates_in(read(f"{ROOT}/{LINES}"))


def folder_of(name):
    """The folder of an example, by the name of its crate."""
    return f"{ROOT}/examples/{name.removeprefix('example_')}"


def texts_of(name):
    """The sources of an example."""
    folder = folder_of(name)
    return [read(f"{folder}/{it}") for it in sorted(os.listdir(folder)) if it.endswith(".rt.txt")]


def line_of(name):
    """The line of crates.txt of an example."""
    return next(line for line in read(f"{ROOT}/{LINES}").splitlines() if line.split(":")[0].split()[:1] == [name])


def place_of(file):
    """Where a file of a program's folder stands in its crate."""
    if file.endswith(".rt.txt"):
        return f"src/{file.removesuffix('.txt')}"
    if file.endswith(".antt.txt"):
        return f"proofs/{file.removesuffix('.antt.txt').replace('.', '/')}/Answers.antt"
    return file


def copy_program(folder, to):
    """Makes a crate of a program's folder."""
    for file in os.listdir(folder):
        place = f"{to}/{place_of(file)}"
        os.makedirs(os.path.dirname(place), exist_ok=True)
        shutil.copy(f"{folder}/{file}", place)


def add_examples(copy, names):
    """Makes crates of these examples in a copy of the repository."""
    for name in names:
        copy_program(folder_of(name), f"{copy}/crates/{name}")
    write(f"{copy}/crates.txt", read(f"{copy}/crates.txt") + "".join(f"{line_of(it)}\n" for it in names))
