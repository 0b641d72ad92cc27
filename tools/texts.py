"""Parts of the gate that read texts, and prove nothing: the tests of tools/, the pages, the examples of README.md, of
docs/GUIDE.md and of kaltewi's page, the layout."""
import os
import re
import sys
import tempfile

import comments
import examples
import layers
import names
import pages
import spoken
import way
import workspaces
from bodies import read, run
from parts import ROOT, Clock, crates, part, some_of
from proving import copied

PROGRAMS_SHOWN = ("example_chat",)  # README.md shows a text of each
APPLICATIONS = ("example_start", "example_notes", "example_todo", "example_rooms", "example_board", "example_game", "example_scores")
ERRORS = {
    "TreeError": "rt_tree/src/error.rt",
    "QueryError": "rt_query/src/error.rt",
    "CoreError": "rt_world/src/error.rt",
    "ClientError": "rt_client/src/error.rt",
    "MailError": "rt_mail/src/error.rt",
    "PushError": "rt_push/src/error.rt",
    "WireError": "rt_wire/src/error.rt",
    "LinkFault": "rt_link/src/error.rt",
    "Lost": "rt_socket/src/wire.rt",
}  # docs/GUIDE.md shows each refusal of these, with its text
PATIENCE = "rt_socket/src/patience.rt"  # the numbers that some texts name
PROGRAMS_OF_GUIDE = ("example_guide", "example_threads", "example_link")  # docs/GUIDE.md shows texts of these, and of the applications


def tools_part():
    """The tests of what the gate's own scripts read."""
    clock, ran = Clock(), run([sys.executable, "-B", "-m", "unittest", "discover", "-s", "tools/tests", "-p", "of_*.py"], ROOT)
    count = re.search(r"(?m)^Ran (\d+) tests? in", ran.stdout)
    has_run = count and count[1] != "0"
    part(f"{count[1] if count else 0} tests of tools/", "" if has_run and not ran.returncode else ran.stdout[-300:].strip() or "there is none", clock)


def theorem_part():
    clock, ran = Clock(), run([f"{ROOT}/theorem", "--check"], ROOT)
    part("docs/THEOREM.md is current", "; ".join(ran.stdout.splitlines()[:5]) if ran.returncode else "", clock)


def pages_part():
    clock, (wrong, count) = Clock(), pages.wrong_of(ROOT)
    part(f"{count} pages keep to their rules", "; ".join(wrong[:5]), clock)


def layers_part():
    """The picture of the layers is that of crates.txt."""
    wrong, count = layers.wrong_of(ROOT)
    part(f"the picture of {count} layers is current", some_of(wrong, count))


def way_part():
    """The picture of the way of a step names functions that are there."""
    wrong, count = way.wrong_of(ROOT)
    part(f"the picture of the way of a step, by {count} functions, is current", some_of(wrong, range(count)))


def names_part():
    """The public names that the specification asks for."""
    wrong = [f"{it} is missing" for it in names.missing(ROOT)]
    part("the public names that are asked for are there", some_of(wrong, names.asked(read(f"{ROOT}/{names.LIST}"))))


def wrong_of_readme(readme, lines, sources):
    """What is wrong with the examples of a README: each text of a program is so in one of these sources, by name, of each such program there is a text,
    and its line of crates.txt."""
    blocks = re.findall(r"(?ms)^```(\w*)\n(.*?)^```$", readme)
    shown, shown_lines = [text for kind, text in blocks if kind == "rust"], [text for kind, text in blocks if not kind and text in lines]
    wrong = [f"{text.splitlines()[0]} is not so in a program" for text in shown if not any(text in source for source in sources.values())]
    wrong += [f"{it} is not shown" for it, source in sources.items() if not any(text in source for text in shown)]
    return wrong + [f"{it} lacks its line of crates.txt" for it in sources if not any(re.match(rf"{it}\b", text) for text in shown_lines)]


def readme_part():
    sources = {it: read(f"{workspaces.folder_of(it)}/main.rt.txt") for it in PROGRAMS_SHOWN}
    wrong = wrong_of_readme(read(f"{ROOT}/README.md"), read(f"{ROOT}/{workspaces.LINES}"), sources)
    part("README.md's examples are as they are proved", "; ".join(wrong))


def wrong_of_guide(guide, sources, printed):
    """What is wrong with the examples of a guide: each text of a program is so in one of these sources, and each other one in one of what is printed."""
    blocks = re.findall(r"(?ms)^```(\w*)\n(.*?)^```$", guide)
    places = {"rust": (sources, "in a program"), "text": (printed, "in what is printed")}
    wrong = [f"a block of kind '{kind}' is compared with nothing" for kind, _ in blocks if kind not in (*places, *spoken.KINDS)]
    for kind, (texts, where) in places.items():
        shown = [text for it, text in blocks if it == kind]
        wrong += [f"{text.splitlines()[0]} is not so {where}" for text in shown if not any(text in it for it in texts)] if shown else [f"nothing is shown {where}"]
    return wrong


def refusals_of(error, text, numbers):
    """The refusals of an error by their names, each with its text: a number in the place of its name, and '..' in that of values."""
    found = re.findall(r'#\[error\("((?:[^"\\]|\\.)*)"[^\]]*\)\]\n    (\w+)', text)
    said = ((name, re.sub(r"\{([^}]*)\}", lambda it: numbers.get(it[1], ".."), words)) for words, name in found)
    return {f"{error}::{name}": words.replace("....", "..") for name, words in said}


def wrong_of_refusals(guide, refusals):
    """What is wrong with the refusals that a guide shows: each of these stands in one row, with its text."""
    rows = re.findall(r"(?m)^\| `(\w+::\w+)` \| (.*?) \|", guide)
    shown = dict(rows)
    wrong = [f"{it} is not shown" for it in refusals if it not in shown]
    wrong += [f"{it} is shown twice" for it in shown if [name for name, _ in rows].count(it) > 1]
    return wrong + [f"{it} says '{refusals.get(it, '')}'" for it, text in shown.items() if refusals.get(it) != text]


def refusals_part():
    """The refusals that docs/GUIDE.md shows."""
    numbers = {name: number.replace("_", "") for name, number in re.findall(r"const (\w+): \w+ = ([\d_]+);", read(f"{ROOT}/crates/{PATIENCE}"))}
    refusals = {key: it for error, file in ERRORS.items() for key, it in refusals_of(error, read(f"{ROOT}/crates/{file}"), numbers).items()}
    wrong = wrong_of_refusals(read(f"{ROOT}/docs/GUIDE.md"), refusals)
    part(f"docs/GUIDE.md shows {len(refusals)} refusals with their texts", some_of(wrong, refusals))


def wrong_of_sdk(page, names):
    """The names of the SDK, in lines of kinds of names, that a page has in no piece of code; and all of them."""
    said = "\n".join(re.findall(r"`[^`\n]*`", page))
    asked = [it for line in names.splitlines() if not line.startswith("#") for it in line.partition(": ")[2].split()]
    return [f"{it} is missing" for it in asked if not re.search(rf"\b{it}\b", said)], asked


def sdk_part():
    """docs/FIREBASE.md has each name of the Firebase SDK's module."""
    wrong, asked = wrong_of_sdk(read(f"{ROOT}/docs/FIREBASE.md"), read(f"{ROOT}/tools/firebase.txt"))
    part(f"docs/FIREBASE.md has {len(asked)} names of the SDK", some_of(wrong, asked))


def guide_part():
    """What docs/GUIDE.md shows of programs, of what they print, also in the talks of tests/talks/, and of crates.txt."""
    shown = [text for it in (*PROGRAMS_OF_GUIDE, *APPLICATIONS) for text in workspaces.texts_of(it)]
    printed = [read(f"{ROOT}/{workspaces.LINES}"), *(read(f"{workspaces.folder_of(it)}/stdout") for it in PROGRAMS_OF_GUIDE)]
    printed += [read(f"{ROOT}/tests/talks/{it}") for it in os.listdir(f"{ROOT}/tests/talks")]
    part("docs/GUIDE.md's examples are as they are proved", "; ".join(wrong_of_guide(read(f"{ROOT}/docs/GUIDE.md"), shown, printed)))


def examples_part():
    """The examples of kaltewi's page, and those that pages of libraries begin with."""
    wrong, count = examples.wrong_of(ROOT)
    part(f"{count} examples of the pages of kaltewi and of the libraries are as they are proved", some_of(wrong, count))


def comments_part():
    """Calls that are there for the prover say so."""
    wrong, count = comments.wrong_of(ROOT)
    part(f"{count} calls for the prover say so", some_of(wrong, count))


def layout_part():
    """Each file of a crate is as rt fmt lays it out, which rt ci asks only when the crate's turn comes."""
    with tempfile.TemporaryDirectory(prefix="kaltewi-layout-") as room:
        copy = copied(f"{room}/repository", workspaces.examples())
        told = [(it, run(["rt", "fmt"], f"{copy}/crates/{it}")) for it in [*crates(), *workspaces.examples()]]
    wrong = [f"{it}: {line}" for it, ran in told for line in ran.stdout.splitlines() if ran.returncode or "formatted" in line]
    part(f"{len(told)} crates are as rt fmt lays them out", some_of(wrong, told))
