"""The page of the theorem, written of what it has."""
import itertools
import os
import re
import subprocess
import sys

from bodies import read
from theorem.entries import contract, in_order, reached, shown_at
from theorem.sources import Sources, Unplaced

PAGE = "docs/THEOREM.md"
OF_VALUES = {"old", "new", "now", "items"}


def headline(sources):
    """The headline in the user's words, as docs/PROOFS.md has it."""
    proofs = read(f"{sources.root}/docs/PROOFS.md")
    found = re.search(r"(?s)The headline of the whole project is:\s+\*(.*?)\*", proofs)
    if not found:
        raise Unplaced("docs/PROOFS.md has no words 'The headline of the whole project is: *..*'")
    said = " ".join(found[1].split())
    return said[0].upper() + said[1:]


def about(sources, file):
    """The first paragraph of the comment at a file's head."""
    lines = [re.sub(r"^-- ?", "", line) for line in sources.module_at(file).head.splitlines()]
    ends = (i for i, line in enumerate(lines) if not line or line.startswith(" "))
    return " ".join(lines[: next(ends, None)])


def fenced(text):
    return f"```text\n{text.rstrip()}\n```\n"


TOP = """# The theorem

*For readers who check the headline: its contract, and each definition that it rests on.* A definition stands behind the definitions that it names. `./theorem` \
writes this page from the sources, and the gate fails if the page is not current.

{headline}

## The contract

The gate proves this contract of the code (`{file}`):

{contract}
`old` is a value before the call, `new` the value after it, and `items` the list of a `Vec`. `OnErr` speaks of a result that is an `Err`; `IfErr` and `IfOk` \
speak of the value in the result. A core is seen as `Some w`, where w is its world, and as `None` once it has lacked memory. From then on it answers Failed, and \
never has a world again. So `answered` tells of each run, and `headline` of the runs in which memory is not lacking.

## How to read the definitions

`specs/` has definitions, in the language antt. A function from A to B has the type `A → B`, and the first clause that fits decides. `(x : A) → B` says B of each \
x, and `(x : A) × B` of some x. `×` is and, `⊎` is or, `⊥` is false and `Unit` is true. A record of facts holds if each field holds. A definition whose type is a \
fact (`T ..`, an equation) is a proof, and only its signature stands here.

Some definitions are given by laws, in place of their code: parts of trees by their leaves, and tests of equality by the pairs that they tell (`Tells`). So is the \
order of queries, by which windows are listed: it is total and ties only equal queries, and nothing here rests on more of it.

`src/` has types and constants of Rust, without their attributes. A definition sees an enum as its variants, a struct as its fields, a number as one of `ℕ` or \
`ℤ`, and a `Vec` as a record of its list. A type with an `impl Model` is seen as the `Value` there; its private fields are left out.

A word without a definition above its use is the toolchain's. The list at the end has each such word with its file, below KIT, the folder that `rt doc` names. If \
several things on the page have one name, the line under a file's heading tells which is meant.
"""


def page(sources):
    first = contract(sources)
    entries, words = reached(sources, first)
    order = in_order(sources, entries)
    said, file = headline(sources), sources.short(first.key[1])
    text = TOP.format(headline=said, file=file, contract=fenced(first.text))
    text += definitions(sources, entries, order) + toolchain(sources, words)
    text += size(sources, first, entries, order, words)
    are_placed(sources, first, entries, order, text)
    return text


def definitions(sources, entries, order):
    """The definitions under their crates and files, and the types of Rust under theirs."""
    text, crate = "", None
    notes = namesakes(sources, entries)
    for (at, _), keys in itertools.groupby(order, key=lambda it: shown_at(sources, it)):
        keys = list(keys)
        now = sources.crates[at]
        text += f"\n## {now}\n" if now != crate else "\n"
        crate = now
        files = list(dict.fromkeys(key[1] for key in keys))
        said = "".join(notes.get(file, "") for file in files)
        text += f"### {heading(sources, now, files)}\n{said}```text\n"
        text += together([entries[key].text for key in keys]) + "```\n"
    return text


def together(texts):
    """The texts below one another: an empty line stands before a comment, and before it alone."""
    first, *rest = texts
    return first + "".join(f"\n{it}" if it.startswith(("--", "//")) else it for it in rest)


def heading(sources, crate, files):
    """The files, and of one of definitions what it is about."""
    names = ", ".join(os.path.relpath(it, sources.folder(crate)) for it in files)
    said = about(sources, files[0]) if files[0].endswith(".antt") else ""
    return f"{names}: {said.removesuffix('.')}" if said else names


def namesakes(sources, entries):
    """For each file a sentence that says what is meant where several things have one name, or
    where the name of a module stands before it."""
    meant, here = {}, {}
    for key, it in entries.items():
        for word, found in it.written.items():
            meant.setdefault(word.rpartition(".")[2], set()).add(found)
            here.setdefault(key[1], {})[word] = found
    notes = {}
    for file, words in here.items():
        said = [
            f"`{word}` is that of `{sources.short(at).removeprefix('crates/')}`"
            for word, (_, at, _) in sorted(words.items())
            if at != file and ("." in word or len(meant[word]) > 1)
        ]
        notes[file] = f"Here {', '.join(said)}.\n" if said else ""
    return notes


TOOLCHAIN = """
## Words of the toolchain

Each with the file that says what it means. The language's \
own words (`Type`, `Unit`, `tt`, `⊥`, `×`, `→`, `λ`, `record`, `let`) are in \
`KIT/rattle/antt/docs/primer.md`, and what a clause and a Rust type say is in \
`KIT/rattle/CONTRACTS.md` and `KIT/rattle/TERMS.md`.

"""


def toolchain(sources, words):
    """A line for each file of the toolchain, with the words that the page has of it."""
    by_file = {}
    for file, name in words:
        where = "Rust and its std" if file == "Rust" else f"`{sources.short(file)}`"
        by_file.setdefault(where, []).append(name)
    shown = {where: "`, `".join(sorted(names)) for where, names in sorted(by_file.items())}
    return TOOLCHAIN + "".join(f"- {where}: `{names}`\n" for where, names in shown.items())


def size(sources, first, entries, order, words):
    """How much a reader has to believe, crate by crate, and for each clause alone."""
    text = "\n## Size\n\nLines of definitions and signatures, of these the comments, and lines of Rust with its "
    text += "comments; empty lines are not counted.\n\n"
    text += HEAD.format("Crate")
    crates = list(dict.fromkeys(sources.crate(key) for key in order))
    for crate in crates:
        text += row(f"`{crate}`", [entries[key] for key in order if sources.crate(key) == crate])
    text += row("in all", entries.values())
    text += "\nOf these, what a clause and the types of the call rest on:\n\n"
    text += HEAD.format("Clause")
    for clause, used in first.clauses.items():
        text += row(f"`{clause}`", below(entries, first.types + used))
    text += f"\nBeside these stand {len(words)} words of the toolchain, of "
    return text + f"{len({file for file, _ in words})} files.\n"


HEAD = """| {} | Definitions | Proofs, by signature | Their lines | Of these comments | Rust types and constants | Their lines |
|---|---|---|---|---|---|---|
"""


def row(name, found):
    sorts = [it.sort if it.sort in ("proof", "rust") else "definition" for it in found]
    definitions, proofs, rust = (sorts.count(it) for it in ("definition", "proof", "rust"))
    proofs += sum(it.laws for it in found)
    lines = [line for it in found if it.sort != "rust" for line in it.text.splitlines()]
    comments = sum(line.lstrip().startswith("--") for line in lines)
    of_rust = sum(it.text.count("\n") for it in found if it.sort == "rust")
    return f"| {name} | {definitions} | {proofs} | {len(lines)} | {comments} | {rust} | {of_rust} |\n"


def below(entries, used):
    """What these rest on."""
    found, waiting = {}, list(used)
    while waiting:
        key = waiting.pop()
        if key in entries and key not in found:
            found[key] = entries[key]
            waiting += entries[key].used
    return found.values()


def are_placed(sources, first, entries, order, text):
    """Fails where a name that the page uses does not stand on it before, or a field is of nothing
    on it."""
    wrong, seen, at = [], set(), 0
    for key in order:
        shown = f"\n{entries[key].text}"
        at = text.find(shown, at)
        if at < 0:
            raise Unplaced(f"{sources.short(key[1])}, {key[2]}: it is not in its place on the page")
        at += len(shown) - 1
        missing = [it for it in entries[key].used if it[0] != "kit" and it not in seen]
        wrong += [f"{sources.short(it[1])}, {it[2]}: not before {key[2]}" for it in missing]
        seen.add(key)
    missing = [it for it in first.used if it[0] != "kit" and it not in seen]
    wrong += [f"{sources.short(it[1])}, {it[2]}: not on the page" for it in missing]
    has = set().union(OF_VALUES, *(it.has for it in entries.values()))
    for it in [first, *entries.values()]:
        where = f"{sources.short(it.key[1])}, {it.key[2]}"
        unknown = sorted(field for field in it.fields - has if not field.isdigit())
        wrong += [f"{where}: no type on the page has a field {field}" for field in unknown]
    if wrong:
        raise Unplaced("\n".join(wrong))


def kit_folder():
    """The folder of the toolchain's libraries."""
    try:
        given = {"stdin": subprocess.DEVNULL, "capture_output": True, "text": True}
        said = subprocess.run(["rt", "doc"], **given)
        return os.path.dirname(said.stdout.split()[0]) + "/rattle"
    except (OSError, IndexError):
        raise Unplaced("the toolchain's command 'rt' is not on the PATH") from None


def differs(old, new):
    """What is wrong with a page that is not current."""
    old, new = old.splitlines(), new.splitlines()
    at = next((i for i, (a, b) in enumerate(zip(old, new)) if a != b), min(len(old), len(new)))
    return f"{PAGE} is not current from line {at + 1} on: run ./theorem"


def main(root, usage):
    """Writes, prints or compares the page of a repository, as the words of the command line say; the status to end with."""
    words = sys.argv[1:]
    if "--root" in words:
        root = os.path.realpath(words.pop(words.index("--root") + 1))
        words.remove("--root")
    if len(words) > 1 or not set(words) <= {"--check", "--print"}:
        print(usage.strip())
        return 0 if words[:1] in (["--help"], ["-h"]) else 2
    try:
        text = page(Sources(root, kit_folder()))
    except Unplaced as why:
        print(why, file=sys.stderr)
        return 1
    file = f"{root}/{PAGE}"
    if words == ["--print"]:
        print(text, end="")
    elif words == ["--check"]:
        old = read(file) if os.path.isfile(file) else ""
        if old != text:
            print(differs(old, text), file=sys.stderr)
            return 1
    else:
        with open(file, "w", encoding="utf-8") as it:
            it.write(text)
        print(text[text.index("## Size") :], end="")
    return 0
