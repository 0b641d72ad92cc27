#!/usr/bin/env python3
"""The examples of kaltewi's page: each stands word for word in one of the programs of examples/calls and examples/link, which are proved and run.
So does what the page of each library begins with, crates/NAME/README.md, in one of these programs, in examples/crates, in examples/chat or in the
console; the page of rt_ffi begins with lines of C.

Usage: tools/examples.py            says what is wrong with them, and fails where anything is
       tools/examples.py --write    writes each item of each example as the program has it; an item's first words, as 'fn path', do for a new one

  page      crates/kaltewi/src: its root hands on names of its modules alone, and a module those of the crates below, one `pub use` after another
  examples  above each `pub use` stands one, in a block of ```rust, and names each name that is handed on
  quotes    each item of it, a function, a type or an impl, is word for word one of the module of the same name, in the first program that has
            such a module, without its comment
  calls     each public call with a `///` of a type that is handed on is made in an example, but for `copy`, which all types have alike
  crates    behind the heading of a library's page stands a block of ```rust: items of a program, one of which names what the crate makes public;
            of rt_ffi a block of ```c, as it stands in a program of bindings/c
"""
import os
import re
import sys

import names
from pages import crates, read, sources

ROOT = os.path.realpath(f"{os.path.dirname(os.path.realpath(__file__))}/..")
PAGE, PROGRAMS = "crates/kaltewi/src", ("examples/calls", "examples/link")
QUOTED = (*PROGRAMS, "examples/crates", "examples/chat", "crates/rt_console/src")
UNQUOTED = {"rt_tests", "rt_ffi"}  # rt_tests has no call, and those of rt_ffi are made from C
IN_C = {"rt_ffi": "bindings/c/first.c"}
FIRST = re.compile(r"\A# \w+\n\n```rust\n(.*?)^```$", re.M | re.S)
FIRST_IN_C = re.compile(r"\A# \w+\n\n```c\n(.*?)^```$", re.M | re.S)
BLOCK = re.compile(r"(?m)^/// ```rust\n((?:^///.*\n)*?)^/// ```\n")
HANDED_ON = re.compile(r"(?m)((?:^///.*\n)*)^pub use (?:(\w+)::)(?:\{([^}]*)\}|(\w+));")
HEAD = re.compile(r"(?:pub(?:\(crate\))? )?((?:fn|struct|enum|const|trait) \w+|impl.*? for \w+)")


def end_of(lines, at):
    """The last line of the item that begins on this one."""
    head, line = HEAD.match(lines[at]), lines[at]
    if head.end() == len(line) or line.endswith((";", "}")):
        return at
    is_const = head[1].startswith("const ")
    return next((it for it in range(at + 1, len(lines)) if lines[it] == "}" or is_const and lines[it].endswith(";")), at)


def items(text):
    """The items of a text by their first words, as 'fn path' or 'impl Sink for Heard', each as it stands, with its attributes and without its
    comment. Of one there may be these words alone."""
    found, lines = {}, text.splitlines()
    for at, line in enumerate(lines):
        head, first = HEAD.match(line), at
        while head and first and lines[first - 1].startswith("#["):
            first -= 1
        if head:
            found[head[1]] = "\n".join(lines[first : end_of(lines, at) + 1])
    return found


def blocks(doc):
    """The texts of the examples of a doc comment."""
    return [re.sub(r"(?m)^/// ?", "", it) for it in BLOCK.findall(doc)]


def handed_on(text):
    """What a module hands on: the doc comment, the crate or module that it comes from, and the names."""
    return [(doc, first, re.findall(r"\w+", many or one)) for doc, first, many, one in HANDED_ON.findall(text)]


def modules(root):
    """The modules of the page by their names, each with its text; the root is `lib`."""
    return {os.path.basename(it).removesuffix(".rt"): read(it) for it in sources(root, PAGE.split("/")[1])}


def program(root, module):
    """The items of a module of that name, of the first program that has one; none where none has."""
    files = (f"{root}/{it}/{module}.rt.txt" for it in PROGRAMS)
    return next((items(read(it)) for it in files if os.path.isfile(it)), {})


def wrong_quotes(module, text, made):
    """The items of a module's examples that the program has not so, and the examples that have anything else."""
    for block in blocks(text):
        its = items(block)
        if "\n\n".join(its.values()) != block.strip("\n"):
            yield f"{module}: not items alone: {block.partition(chr(10))[0]}"
        yield from (f"{module}: {key} is not so in the program" for key, item in its.items() if made.get(key) != item)


def wrong_names(module, text):
    """The names that a module hands on with no example that names them."""
    for doc, _, of in handed_on(text):
        said = "\n".join(blocks(doc))
        yield from (f"{module}: {it} has no example" for it in of if not re.search(rf"\b{it}\b", said))


def calls_of(texts, type_):
    """The public calls with a `///` of a type, from the texts of its crate."""
    for text in texts:
        for it in re.finditer(rf"(?m)^impl(?:<[^{{\n]*>)? {type_}\b(?:<[^{{\n]*>)? \{{", text):
            body = text[it.start() :].partition("\n}")[0]
            for docs, name in re.findall(r"(?m)((?:^    (?:///|#\[).*\n)*)^    pub (?:const )?fn (\w+)", body):
                if "///" in docs:
                    yield name


def home_of(root, crate, name):
    """The crate whose sources have what a crate hands on."""
    given = names.Crate(f"{root}/crates/{crate}").handed_on().get(name)
    return home_of(root, given, name) if given else crate


def wrong_calls(root, page):
    """The calls of the types that are handed on that no example makes."""
    said = "\n".join(it for text in page.values() for it in blocks(text))
    for module, text in page.items():
        for _, crate, of in handed_on(text) if module != "lib" else []:
            for name in of:
                texts = [read(it) for it in sources(root, home_of(root, crate, name))]
                for call in sorted(set(calls_of(texts, name)) - {"copy"}):
                    is_made = re.search(rf"(?:\.|\b{name}::){call}\(", said)
                    if not is_made:
                        yield f"{module}: {name}::{call} has no example"


def wrong_root(page):
    """What the root hands on that comes from no module of the page, and what it doesn't that a module has."""
    given = {(first, it) for _, first, of in handed_on(page["lib"]) for it in of}
    has = {(module, it) for module, text in page.items() if module != "lib" for _, _, of in handed_on(text) for it in of}
    yield from (f"lib: {first}::{it} comes from no module of the page" for first, it in sorted(given - has))
    yield from (f"lib: {it} of {module} is not handed on" for module, it in sorted(has - given))


def libraries(root):
    """The libraries whose pages begin with an example."""
    return [it for it in crates(root) if os.path.isfile(f"{root}/crates/{it}/src/lib.rt") and it not in UNQUOTED]


def quotable(root):
    """The items of all programs that pages of crates quote, by their first words, each as it stands in one of them."""
    files, found = [f"{root}/{at}/{it}" for at in QUOTED if os.path.isdir(f"{root}/{at}") for it in sorted(os.listdir(f"{root}/{at}"))], {}
    for it in files:
        for key, item in items(read(it)).items() if it.endswith((".rt", ".rt.txt")) else []:
            found.setdefault(key, set()).add(item)
    return found


def quoted_anew(page, made):
    """A library's page with each item of its first block as the only program has it that has one of that name."""
    block = FIRST.match(page)
    if not block:
        return page
    its = [next(iter(made[key])) if len(made.get(key, ())) == 1 else item for key, item in items(block[1]).items()]
    return page[: block.start(1)] + "\n\n".join(its) + "\n" + page[block.end(1) :]


def wrong_crates(root):
    """The libraries whose pages don't begin with items of a program, or with such as don't name what is theirs."""
    made = quotable(root)
    for it in libraries(root):
        page = f"{root}/crates/{it}/README.md"
        block = FIRST.match(read(page)) if os.path.isfile(page) else None
        its = items(block[1]) if block else {}
        if not its or "\n\n".join(its.values()) != block[1].strip("\n"):
            yield f"{it}: its page begins with no items of a program"
        elif not all(item in made.get(key, ()) for key, item in its.items()):
            yield f"{it}: what its page begins with is not so in a program"
        elif not any(names.Crate(f"{root}/crates/{it}").has(word) for word in set(re.findall(r"\w+", block[1]))):
            yield f"{it}: what its page begins with names nothing of it"


def wrong_in_c(root):
    """The libraries for C whose pages don't begin with lines of their program."""
    for it, file in IN_C.items():
        block = FIRST_IN_C.match(read(f"{root}/crates/{it}/README.md"))
        if not block or block[1] not in read(f"{root}/{file}"):
            yield f"{it}: its page doesn't begin with lines of {file}"


def wrong_of(root):
    """What is wrong, and how many examples there are."""
    page = modules(root)
    wrong = [*wrong_root(page), *wrong_calls(root, page)]
    for module, text in page.items():
        if module != "lib":
            wrong += [*wrong_quotes(module, text, program(root, module)), *wrong_names(module, text)]
    wrong += [*wrong_crates(root), *wrong_in_c(root)]
    return wrong, sum(len(blocks(it)) for it in page.values()) + len(libraries(root)) + len(IN_C)


def written(text, made):
    """A module's text with each item of its examples as the program has it. An item that the program lacks stays."""

    def block(it):
        lines = "\n\n".join(made.get(key, item) for key, item in items(re.sub(r"(?m)^/// ?", "", it[1])).items()).splitlines()
        return "/// ```rust\n" + "".join(f"/// {line}".rstrip() + "\n" for line in lines) + "/// ```\n"

    return BLOCK.sub(block, text)


def main():
    if sys.argv[1:] == ["--write"]:
        for module, text in modules(ROOT).items():
            with open(f"{ROOT}/{PAGE}/{module}.rt", "w", encoding="utf-8") as it:
                it.write(text if module == "lib" else written(text, program(ROOT, module)))
        made = quotable(ROOT)
        for crate in libraries(ROOT):
            page = read(f"{ROOT}/crates/{crate}/README.md")
            with open(f"{ROOT}/crates/{crate}/README.md", "w", encoding="utf-8") as it:
                it.write(quoted_anew(page, made))
    elif sys.argv[1:]:
        print(__doc__.strip())
        sys.exit(2)
    else:
        wrong, count = wrong_of(ROOT)
        print("\n".join([*wrong, f"{count} examples, {len(wrong)} places"]))
        sys.exit(1 if wrong else 0)


if __name__ == "__main__":
    main()
