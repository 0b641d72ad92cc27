#!/usr/bin/env python3
"""What the pages keep to: README.md, CONTRIBUTING.md, CHANGELOG.md, those of docs/ and of crates/.

Usage: tools/pages.py            says which lines don't keep to the rules, and fails where there is one
       tools/pages.py --arrows   writes the arrows of docs/ARCHITECTURE.md as crates.txt and the sources have them

  sentences   have less than 40 words; in a table also each part of a cell between semicolons has, and not the whole.
              What stands in italics is a quotation, and in a code block no sentence
  paragraphs  and items of a list have less than 6 lines of 110 characters
  dates       stand in docs/BENCHMARKS.md and docs/GATE.md alone, which have figures, and once in each
  cells       of the tables of docs/BENCHMARKS.md are all filled, each from the run that its script made
  language    a sentence has one `that` or `what`, no participle stands before its verb and its subject ("noted is which"), and a noun stands
              where "those", "these", "ones" or "one that" would stand for it
  heads       a page begins with words in italics that say for whom it is, as `*For users: ..*`
  PROOFS.md   has at most 240 lines, none over 400 characters, and no word of how long anything took; a promise of its table is a sentence of at most
              25 words, and what stands there as a contract of a crate stands in the crate's src/. "What is neither" names each public function
              without a clause
  COSTS.md    has a row with the name of each public function of the core, the client and the peer, and of nothing else, in the section of its crate;
              and a row for each kind of step
  MODEL.md    has one definition a line, and so no item or cell of two sentences or with a semicolon; names each file of definitions in the
              section of its crate, but for `Errors`
  arrows      docs/ARCHITECTURE.md has for each crate what crates.txt has, but for the two crates of errors: behind a solid arrow what its
              code names, behind a dotted one what its contracts alone name; and a row that says what the crate holds
  definitions a row of a table of docs/ARCHITECTURE.md that ends with a file of crates/, as `rt_low/specs/Low.antt`, begins with words that this has;
              each file or folder of a crate that docs/GLOSSARY.md names behind it, as `rt_low`, `specs/Low.antt`, is there

docs/THEOREM.md, which ./theorem writes, has the words of the sources: it is asked for its head and for dates alone.
"""
import math
import os
import re
import sys

ROOT = os.path.realpath(f"{os.path.dirname(os.path.realpath(__file__))}/..")
WORDS, LINES, COLUMNS = 40, 6, 110
WRITTEN = "docs/THEOREM.md"
ARCHITECTURE, MODEL, BENCHMARKS, GLOSSARY = "docs/ARCHITECTURE.md", "docs/MODEL.md", "docs/BENCHMARKS.md", "docs/GLOSSARY.md"
WITH_FIGURES = (BENCHMARKS, "docs/GATE.md")
PROOFS, PROOFS_LINES, PROOFS_COLUMNS, PROMISE_WORDS = "docs/PROOFS.md", 240, 400, 25
COSTS, COSTED = "docs/COSTS.md", ("rt_sync", "rt_client", "rt_peer")
STEPS = "crates/rt_world/src/step.rt"
TOLD = re.compile(r"(?i)(?<![\w'-])(?:that|what)(?![\w'-])")
TURNED = re.compile(r"(?i)(?:^|[,;:] )(?:and |or )?(?:noted|taken out|told|sent|kept|shown|handed over|passed over) (?:is|are|was|were) (?:which|what|who|whether|the|just|all)\b")
BEHIND = "that|which|who|whose|of|is|are|was|were|has|have|in|at|with|to|from|by|for|above|below|behind|before|beside|and|or|alone|too"
PRONOUN = re.compile(rf"(?i)(?<![\w'-])(?:(?:those|these)(?= (?:{BEHIND})\b|[.,;:)]|$)|ones(?![\w'-])|one(?= (?:that|which|who|whose)\b))")
OF_ERRORS = {"thiserror", "anyhow"}
MONTHS = "January February March April May June July August September October November December".split()
DATE = re.compile(rf"\b\d{{1,2}}\.? (?:{'|'.join(MONTHS)})\b|\b(?:{'|'.join(MONTHS)}) \d{{1,2}}\b(?! ?to)|\b20\d\d-\d\d-\d\d\b")
DURATION = re.compile(r"\b(?:minutes?|hours?|seconds|\d+ second|tonight|yesterday|today|evening|dawn)\b")


def read(file):
    with open(file, encoding="utf-8") as it:
        return it.read()


def pages(root):
    """The pages, those of the crates last."""
    found = ["README.md", "CONTRIBUTING.md", "CHANGELOG.md", *(f"docs/{it}" for it in sorted(os.listdir(f"{root}/docs")) if it.endswith(".md"))]
    return found + [f"crates/{it}/README.md" for it in crates(root) if os.path.isfile(f"{root}/crates/{it}/README.md")]


# ---- texts of a page


def texts(page):
    """The texts of a page: each with its first line, its kind (paragraph, item, cell or heading), and its words in one line."""
    found, is_code = [], False
    for number, line in enumerate(page.splitlines(), 1):
        if line.lstrip().startswith("```"):
            is_code = not is_code
            found.append((number, "code", ""))
        elif is_code:
            continue
        elif line.startswith("|"):
            found += [(number, "cell", it.strip()) for it in re.split(r"(?<!\\)\|", line.strip().strip("|")) if not re.fullmatch(r"[\s:-]*", it)]
        elif line.startswith("#"):
            found.append((number, "heading", line.lstrip("# ")))
        elif re.match(r"\s*(?:[-*]|\d+\.) ", line):
            found.append((number, "item", re.sub(r"^\s*(?:[-*]|\d+\.) ", "", line)))
        elif not line.strip():
            found.append((number, "gap", ""))
        elif found and found[-1][1] in ("paragraph", "item"):
            found[-1] = (*found[-1][:2], f"{found[-1][2]} {line.strip()}")
        else:
            found.append((number, "paragraph", line.strip()))
    return [it for it in found if it[1] not in ("gap", "code")]


def sentences(text, kind):
    """The sentences of a text, each as its words."""
    text = re.sub(r"(?<!\*)\*(?!\*)[^*]+\*(?!\*)", "quoted", re.sub(r"`[^`]*`", "code", text))
    ends = r"(?<=[.!?])\)?[*\"]*\s+|;\s+" if kind == "cell" else r"(?<=[.!?])[)*\"]*\s+"
    for it in re.split(ends, text):
        words = [word for word in it.split() if re.search(r"\w", word)]
        if words:
            yield words


def wrong_texts(name, page):
    for number, kind, text in texts(page):
        for words in sentences(text, kind):
            if len(words) >= WORDS:
                yield f"{name}:{number}: a sentence of {len(words)} words: {' '.join(words[:6])} .."
        lines = math.ceil(len(text) / COLUMNS)
        if kind in ("paragraph", "item") and lines >= LINES:
            yield f"{name}:{number}: a paragraph of {lines} lines: {text[:40]} .."


def wrong_language(name, page):
    """The sentences that tell two things by `that` or `what`, whose subject stands behind its participle and its verb, or that lack a noun."""
    for number, kind, text in texts(page):
        for words in sentences(text, kind):
            said = " ".join(words)
            if len(TOLD.findall(said)) > 1 or TURNED.search(said) or PRONOUN.search(said):
                yield f"{name}:{number}: a sentence to be said anew: {said[:60]} .."


def wrong_head(name, page):
    """The pages whose first words, behind the heading and the text that a crate's page begins with, don't say for whom they are."""
    said = [text for _, kind, text in texts(page) if kind != "heading"]
    if not said or not said[0].startswith("*For "):
        yield f"{name}:1: its first words don't say for whom it is"


def wrong_dates(name, page):
    found = [(number, it[0]) for number, line in enumerate(page.splitlines(), 1) for it in DATE.finditer(line)]
    for number, date in found[1:] if name in WITH_FIGURES else found:
        yield f"{name}:{number}: a date: {date}"


def wrong_cells(name, page):
    """The rows of tables that have an empty cell."""
    for number, line in enumerate(page.splitlines(), 1):
        cells = re.split(r"(?<!\\)\|", line.strip().removeprefix("|").removesuffix("|")) if line.startswith("|") else []
        if any(not it.strip() for it in cells):
            yield f"{name}:{number}: an empty cell: {line[:40]} .."


def wrong_proofs(name, page):
    lines = page.splitlines()
    if len(lines) > PROOFS_LINES:
        yield f"{name}: {len(lines)} lines, more than {PROOFS_LINES}"
    for number, line in enumerate(lines, 1):
        if len(line) > PROOFS_COLUMNS:
            yield f"{name}:{number}: {len(line)} characters, more than {PROOFS_COLUMNS}"
        for it in DURATION.finditer(line):
            yield f"{name}:{number}: how long something takes: {it[0]}"


def wrong_promises(page):
    """The promises of the table of contracts that are no sentence of so many words."""
    for number, line in enumerate(page.splitlines(), 1):
        cells = [it.strip() for it in re.split(r"(?<!\\)\|", line.strip().strip("|"))] if line.startswith("|") else []
        words = sum(bool(re.search(r"\w", it)) for it in cells[1].split()) if len(cells) == 3 else 0
        if words > PROMISE_WORDS:
            yield f"{PROOFS}:{number}: a promise of {words} words: {cells[1][:40]} .."


FUNCTION = re.compile(r"(?m)^( *)pub (?:const )?(?:unsafe )?fn (\w+)")
IMPL = re.compile(r"(?m)^impl(?:<[^{\n]*?>)? (?:[\w:<>, ]+ for )?(\w+)")


def head_of(lines, indent):
    """The head of a function that begins on the first of these lines, down to the brace that opens its body."""
    found = []
    for line in lines:
        found.append(line)
        if line == f"{indent}{{" or (len(found) == 1 and line.endswith("{")) or line.endswith(("{}", ";")):
            break
    return "\n".join(found)


def public_functions(text):
    """The public functions of a source, each as Type::name, or by its name alone, with its head."""
    text = re.sub(r"(?m)//.*$", "", text)
    for it in FUNCTION.finditer(text):
        type_ = [one[1] for one in IMPL.finditer(text[: it.start()])] if it[1] else []
        yield f"{type_[-1]}::{it[2]}" if type_ else it[2], head_of(text[it.start() :].splitlines(), it[1])


def without_clause(text):
    """The public functions of a source that promise nothing."""
    yield from (name for name, head in public_functions(text) if "ensures" not in head)


def wrong_neither(root, page):
    """The public functions without a clause that "What is neither" doesn't name, by their types and their names."""
    part = page.partition("\n## What is neither\n")[2].partition("\n## ")[0]
    named = set(re.findall(r"\w+", " ".join(re.findall(r"`([^`]*)`", part))))
    for crate in crates(root):
        for file in sources(root, crate):
            lost = [it for it in without_clause(read(file)) if not set(it.split("::")) <= named]
            yield from (f"{PROOFS}: {crate} has {it} without a clause, and 'What is neither' doesn't name it" for it in lost)


def named_contracts(page):
    """The names in the last column of the table of contracts, each with its crate and its line."""
    crate = None
    for number, line in enumerate(page.splitlines(), 1):
        cells = [it.strip() for it in line.strip().strip("|").split("|")] if line.startswith("|") else []
        if len(cells) == 3:
            crate = cells[0].strip("`") or crate
            for it in re.findall(r"`([^`]+)`", cells[2]) if crate and crate.startswith("rt_") else []:
                yield number, crate, [word for word in re.findall(r"\w+", it.removesuffix(".rt")) if not word.isdigit()]


def wrong_names(root, page):
    texts = {crate: "".join(map(read, sources(root, crate))) for crate in crates(root)}
    for number, crate, words in named_contracts(page):
        lost = [it for it in words if not re.search(rf"\b{it}\b", texts.get(crate, ""))]
        if lost:
            yield f"{PROOFS}:{number}: {crate} has no {' '.join(lost)}"


def first_cells(section, head):
    """The names in the first column of the tables with that head: one behind another of a type is of this type too."""
    rows = re.findall(rf"(?m)^\| {head} \|.*\n((?:\|.*\n)*)", section)
    for cell in (row.split("|")[1] for table in rows for row in table.splitlines()):
        type_ = ""
        for it in re.findall(r"`([^`]+)`", cell):
            type_, name = it.split("::") if "::" in it else (type_, it)
            yield f"{type_}::{name}" if type_ else name


def wrong_costs(root, page):
    """The public functions of the core, the client and the peer, and the kinds of steps, whose cost the page doesn't say, or says of none that is there."""
    sections = {crate: "".join(it for it in page.split("\n## ") if f"`{crate}`" in it.partition("\n")[0]) for crate in COSTED}
    due = {crate: [name for file in sources(root, crate) for name, _ in public_functions(read(file))] for crate in COSTED}
    steps = re.findall(r"(?m)^    (\w+)(?: \{|,)", read(f"{root}/{STEPS}").partition("pub enum Step {")[2].partition("\n}")[0])
    said = [(crate, [*first_cells(sections[crate], "Call")], due[crate]) for crate in COSTED]
    for crate, has, wanted in [*said, ("Step", [*first_cells(page, "Step")], steps)]:
        yield from (f"{COSTS}: no row of {crate} has {it}" for it in wanted if it not in has)
        yield from (f"{COSTS}: {crate} has no {it}" for it in has if it not in wanted)


def wrong_lines(name, page):
    """The items and cells that have more than one sentence or a semicolon."""
    for number, kind, text in texts(page):
        if kind in ("item", "cell") and (len(list(sentences(text, kind))) > 1 or re.search(r";\s", re.sub(r"`[^`]*`", "code", text))):
            yield f"{name}:{number}: more than one definition: {text[:40]} .."


def wrong_model(root):
    """The files of definitions that docs/MODEL.md doesn't name in a section whose heading has their folder."""
    sections = re.split(r"(?m)^## ", read(f"{root}/{MODEL}"))
    for crate in crates(root):
        folder = f"crates/{crate}/specs"
        if os.path.isdir(f"{root}/{folder}"):
            said = "".join(it for it in sections if f"`{folder}`" in it.partition("\n")[0])
            names = sorted(it.removesuffix(".antt") for it in os.listdir(f"{root}/{folder}") if it.endswith(".antt"))
            lost = [it for it in names if it[0].isupper() and it not in ("Lib", "Errors") and f"`{it}`" not in said]
            if lost:
                yield f"{MODEL}: {folder} has {', '.join(lost)} besides"


# ---- arrows


def sources(root, crate):
    files = [f"{at}/{name}" for at, _, names in os.walk(f"{root}/crates/{crate}/src") for name in names]
    return sorted(it for it in files if it.endswith(".rt"))


def crates(root):
    lines = [line.partition("#")[0].partition(":") for line in read(f"{root}/crates.txt").splitlines()]
    return {name.split()[0]: [it for it in below.split() if it not in OF_ERRORS] for name, _, below in lines if name.strip()}


def is_called(root, crate, library):
    """Whether the code of a crate names a library, or its contracts alone do. A library of the toolchain counts as called."""
    if not os.path.isdir(f"{root}/crates/{library}"):
        return True
    texts = (re.sub(r"(?ms)^\s*ghost use .*?;$|//.*?$", "", read(it)) for it in sources(root, crate))
    return any(re.search(rf"\b{library}::", it) for it in texts)


def arrows(root):
    """For each crate what it stands on, in the order of crates.txt."""
    lines, all_crates = [], crates(root)
    for crate, below in all_crates.items():
        called = [it for it in below if is_called(root, crate, it)]
        said = [it for it in below if it not in called]
        parts = [f"--> {', '.join(called)}" if called else "", f"..> {', '.join(said)}" if said else ""]
        lines.append(f"{crate:<{max(map(len, all_crates))}} {' '.join(it for it in parts if it)}".rstrip() if below else crate)
    return "\n".join(lines) + "\n"


ARROWS = re.compile(r"(?ms)^```text\n(.*?)^```$")


def with_arrows(root):
    """The page of the architecture with its arrows as they are due."""
    page = read(f"{root}/{ARCHITECTURE}")
    block = ARROWS.search(page)
    return page[: block.start(1)] + arrows(root) + page[block.end(1) :]


def wrong_arrows(root):
    block = ARROWS.search(read(f"{root}/{ARCHITECTURE}"))
    has, due = (block[1] if block else "").splitlines(), arrows(root).splitlines()
    for line in sorted(set(due) - set(has)):
        yield f"{ARCHITECTURE}: there is no line {line}"
    for line in sorted(set(has) - set(due)):
        yield f"{ARCHITECTURE}: not as crates.txt and the sources have it: {line}"


def wrong_rows(root):
    """The crates of which docs/ARCHITECTURE.md doesn't say what they hold."""
    page = read(f"{root}/{ARCHITECTURE}")
    yield from (f"{ARCHITECTURE}: no row says what {it} holds" for it in crates(root) if f"\n| `{it}` |" not in page)


def wrong_definitions(root, page):
    """The words of a table that aren't in the file of crates/ that their row ends with."""
    for words, file in re.findall(r"(?m)^\| ((?:`\w+`(?:, )?)+) \|.*\| `(\w+/[\w/.]+)` \|$", page):
        text = read(f"{root}/crates/{file}") if os.path.isfile(f"{root}/crates/{file}") else ""
        lost = [it for it in re.findall(r"\w+", words) if not re.search(rf"\b{it}\b", text)]
        if lost:
            yield f"{ARCHITECTURE}: crates/{file} has no {' '.join(lost)}"


def wrong_glossary(root, page):
    """The files of crates that a glossary names and that aren't there."""
    for crate, file in re.findall(r"`(\w+)`, `((?:specs|src)/[\w/.]*)`", page):
        if not os.path.exists(f"{root}/crates/{crate}/{file}"):
            yield f"{GLOSSARY}: there is no crates/{crate}/{file}"


def wrong_of(root):
    """What is wrong, and how many pages there are."""
    wrong, names = [*wrong_arrows(root), *wrong_rows(root), *wrong_model(root), *wrong_definitions(root, read(f"{root}/{ARCHITECTURE}"))], pages(root)
    for name in names:
        page = read(f"{root}/{name}")
        wrong += [] if name == WRITTEN else [*wrong_texts(name, page), *wrong_language(name, page)]
        wrong += [*wrong_dates(name, page), *wrong_head(name, page)]
        wrong += [*wrong_proofs(name, page), *wrong_names(root, page), *wrong_promises(page), *wrong_neither(root, page)] if name == PROOFS else []
        wrong += wrong_costs(root, page) if name == COSTS else []
        wrong += wrong_lines(name, page) if name == MODEL else []
        wrong += wrong_cells(name, page) if name == BENCHMARKS else []
        wrong += wrong_glossary(root, page) if name == GLOSSARY else []
    return wrong, len(names)


def main():
    if sys.argv[1:] == ["--arrows"]:
        page = with_arrows(ROOT)
        with open(f"{ROOT}/{ARCHITECTURE}", "w", encoding="utf-8") as it:
            it.write(page)
    elif sys.argv[1:]:
        print(__doc__.strip())
        sys.exit(2)
    else:
        wrong, count = wrong_of(ROOT)
        print("\n".join([*wrong, f"{count} pages, {len(wrong)} places"]))
        sys.exit(1 if wrong else 0)


if __name__ == "__main__":
    main()
