"""Wrong bodies: which there are, what they change, and whether the prover refuses them for what they do.

A wrong body counts as refused only at a goal of the function that it changes, or of one that calls it. An answer in a proof file that
no longer fits is no refusal: the run that judges takes such answers away, in its copy, and checks again. What comes of it:

  REFUSED   a goal is not proved that had no answer, or values are found at which it is false
  OPEN      it is refused, but only at goals whose answers were taken away, or that may have come in place of goals with answers: that the
            tactics don't prove them alone says less. Its goals are kept with it, so that they can be read
  ANSWER    with the answers taken away that no longer fit, all goals are proved: the contract admits the body
  PROVED    all goals are proved with all answers
  UNTOLD    it could not be judged: it does not compile, changes no function, is not proved for what a callee owes, or its check was cut off
"""
import os
import re
import shutil
import subprocess

REFUSED, OPEN, ANSWER, PROVED, UNTOLD = "REFUSED", "OPEN", "ANSWER", "PROVED", "UNTOLD"
ROUNDS = 8  # an answer that is taken away may have been cited by another


class Verdict(str):
    """A verdict with the goals that it rests on, each with what it must prove, as the check words it."""

    def __new__(cls, kind, goals):
        made = super().__new__(cls, kind)
        made.goals = goals
        return made


def read(file):
    with open(file, encoding="utf-8") as it:
        return it.read()


def write(file, text):
    with open(file, "w", encoding="utf-8") as it:
        it.write(text)


def run(words, folder, **given):
    """Runs a command in a folder with nothing on its standard input, and answers what it was, with both streams in one text."""
    given = {"stdin": subprocess.DEVNULL, "stdout": subprocess.PIPE, "stderr": subprocess.STDOUT, **given}
    return subprocess.run(words, cwd=folder, text=True, errors="replace", **given)


# ---- functions of a file

IMPL = r"impl(?:<(?P<given>.*?)>)? (?:(?:\w+::)*(?P<trait>\w+)(?:<(?:\w+::)*(?P<of>\w+).*>)? for )?(?P<lent>&(?:'\w+ )?)?(?:\w+::)*(?P<type>\w+)(?:<(?P<args>[^{\n]*)>)?"
HEAD = re.compile(rf'(?m)^(?:{IMPL}|(?P<indent> *)(?:pub(?:\(\w+\))? )?(?:const )?(?:extern "C" )?fn (?P<name>\w+))')
CYCLE = re.compile(r"#\[cycle\((\w+)\)\]\n(?: *#\[.*\]\n)*\Z")


def types_in(given, args):
    """The names in the arguments of a type, in order; none where they are what the impl is given, and so stand for any type."""
    names = re.findall(r"(?<!')\b[A-Za-z]\w*", args)
    free = re.findall(r"(?:^|,)\s*'?(?:const )?(\w+)", given)
    return [] if set(names) <= set(free) else names


def functions_in(path, text):
    """The functions of a file of Rust in order, each as a check's lines name it, or the end of that name, with where its head stands."""
    inside, owner = path[len("src/") : -len(".rt")].removesuffix("/mod").split("/"), ""
    modules = [] if inside in (["lib"], ["main"]) else inside
    for it in HEAD.finditer(text):
        if it["name"] is None:
            # an impl's function stands below its type, wherever the type is, and a trait's, but Drop's, below both names joined, and that of the trait's own type;
            # where a reference to the type has the trait, Ref stands before them
            lent, trait = "Ref" if it["lent"] else "", it["trait"] if it["trait"] != "Drop" else ""
            owner = f"{lent}{it['type']}{trait or ''}{it['of'] or ''}"
            if not it["trait"]:
                owner = "+".join([owner, *types_in(it["given"] or "", it["args"] or "")])
        elif it["indent"]:
            yield f"{owner}::{it['name']}", it.start()
        else:
            yield "::".join([*modules, it["name"]]), it.start()


def cycles_in(texts):
    """The functions of these files, by path, that stand in a cycle of calls with a name, each with that name."""
    named = ((name, CYCLE.search(text, 0, head)) for path, text in texts.items() for name, head in functions_in(path, text))
    return {name: it[1] for name, it in named if it}


def function_at(path, text, at):
    """The function whose head stands last before a place of a file."""
    return next((name for name, head in reversed(list(functions_in(path, text))) if head < at), None)


def callers_of(function, texts):
    """The functions of these files, by path, that call one of that name."""
    called, found = re.compile(rf"\b{function.rpartition('::')[2]}(?:::<[^>]*>)?\("), []
    for path, text in texts.items():
        heads = list(functions_in(path, text))
        for (name, begin), (_, end) in zip(heads, [*heads[1:], ("", len(text))]):
            body = text[begin:end].partition("(")[2]
            found += [name] if name != function and called.search(body) else []
    return found


# ---- edits


class Edit:
    """A wrong body: crates/NAME/must-fail/*.edit, with lines 'file: PATH' and then pairs of 'old: TEXT' and 'new: TEXT'."""

    def __init__(self, crate, file):
        self.name, self.crate, self.file, self.pairs = f"{crate}/{os.path.basename(file)[:-5]}", crate, file, []
        path = old = self.central = None
        for line in read(file).splitlines():
            word, _, text = line.partition(":")
            text = text.removeprefix(" ")
            if word == "central":
                self.central = text.strip()
            elif word == "file":
                path = text.strip()
            elif word == "old":
                old = text
            elif word == "new":
                self.pairs.append((path, old, text))

    def applied(self, texts, folder):
        """The texts of the files, by their path, with this edit made in them; or why it can't be made."""
        texts = dict(texts)
        for path, old, new in self.pairs:
            if not path or not old or not path.startswith("src/"):
                return None, "it has no 'file: src/..' and 'old:' before a 'new:'"
            if path not in texts:
                try:
                    texts[path] = read(f"{folder}/{path}")
                except OSError:
                    return None, f"there is no {path}"
            count = texts[path].count(old)
            if count != 1:
                return None, f"its old text stands {count} times in {path}"
            texts[path] = texts[path].replace(old, new)
        return (texts, "") if self.pairs else (None, "it has no 'old:' and 'new:'")

    def functions(self, folder):
        """The functions that the edit changes, each as a check's lines name it, or the end of that name."""
        texts, found = {path: read(f"{folder}/{path}") for path, _, _ in self.pairs}, set()
        for path, old, new in self.pairs:
            # where it stands once those before it are made: before that it may stand elsewhere too
            found.add(function_at(path, texts[path], texts[path].find(old) + len(old)))
            texts[path] = texts[path].replace(old, new)
        return sorted(found - {None})


def edits_of(root, crate):
    folder = f"{root}/crates/{crate}/must-fail"
    names = sorted(os.listdir(folder)) if os.path.isdir(folder) else []
    return [Edit(crate, f"{folder}/{name}") for name in names if name.endswith(".edit")]


def groups_of(edits, folder):
    """The edits in groups of which no two change one function, and each can be made beside those before it; and those that have to be tried alone."""
    groups, alone = [], []
    for edit in edits:
        functions = edit.functions(folder)
        if len(functions) != 1:
            alone.append(edit)
            continue
        for group, texts in [*groups, ({}, {})]:
            made = None if functions[0] in group else edit.applied(texts, folder)[0]
            if made:
                break
        if not group:
            groups.append((group, texts))
        group[functions[0]] = edit
        texts.update(made or {})
    return sorted((group for group, _ in groups), key=len), alone


# ---- what a check says


class Said:
    """What a check of some functions says: which answers no longer fit, and which goals are not proved."""

    FAULT = re.compile(r"(?:\./)?(?:src|specs|proofs)/\S+:\d+:\d+: error")
    STALE = re.compile(r"(?:\./)?(proofs/\S+\.antt):(\d+):\d+: error")
    LOST = re.compile(r"(?:\./)?(proofs/\S+\.antt):\d+:\d+: error: .*: module `\S+\.Goals` has no `\S+` that can be named")
    GOAL = re.compile(r"note: (src/\S+\.rt):(\d+):\d+: .* \(`(\S+?)`\)(.*)")
    WANTED = re.compile(r"note: `(\S+)` of (?:\./)?(proofs/\S+\.antt) must prove: (.*)")

    def __init__(self, text):
        self.lines = text.splitlines()
        self.has_judged = any(it.startswith("only=") for it in self.lines)
        # one that ends without that and has found no fault of a source was cut off: nothing is known of whether its texts compile
        self.is_cut_off = not self.has_judged and not any(map(self.FAULT.match, self.lines))

    def stale(self):
        """The places in proof files that no longer fit, by file."""
        found = {}
        for it in filter(None, map(self.STALE.match, self.lines)):
            found.setdefault(it[1], set()).add(int(it[2]))
        return found

    def lost(self):
        """The proof files that have answers to goals which are there no more."""
        return {it[1] for it in map(self.LOST.match, self.lines) if it}

    def wanted(self, function, cycle=None):
        """What must be proved at each goal of a function that is printed."""
        found = filter(None, map(self.WANTED.match, self.lines))
        return {it[1]: it[3] for it in found if is_of(it[2], function, cycle)}

    def goals(self, crate, function, texts):
        """The goals of a function that are not proved, each with whether values are found at which it is false. `texts` are those of the files, by path."""
        found = {it: False for it in self.listed(crate, function)}
        for it in filter(None, map(self.GOAL.match, self.lines)):
            path, goal = it[1], it[3]
            lines = texts.get(path, "").splitlines(keepends=True)
            if int(it[2]) <= len(lines) and function_at(path, texts[path], len("".join(lines[: int(it[2])]))) == function:
                found[goal] = found.get(goal, False) or "allow values" in it[4]
        return found

    def own_line(self, crate, function):
        """What the check says of the function as a whole: proved, not proved, no proof, and why."""
        owner, _, name = function.rpartition("::")
        pattern = rf"fn {crate}::(?:\S*::)?{owner}::{name}: (.*)" if owner else rf"fn {crate}::{name}: (.*)"
        return next((it[1] for it in (re.match(pattern, line) for line in self.lines) if it), "")

    def listed(self, crate, function):
        """The goals that the function's own line lists."""
        return re.findall(r"`(\S+?)`", self.own_line(crate, function).partition("`search` did not prove")[2].partition(";")[0])


# ---- answers that are taken away


def pieces_of(text):
    """The definitions of a proof file: each with its name, its first line and the last of those behind it. An import has no name."""
    found = []
    for number, line in enumerate(text.splitlines(), 1):
        if not line.strip() or line.startswith("--"):
            continue
        head = re.match(r"(?:(?:abbrev|unfoldable|opaque|pub|ghost|record|data) )*(\S*)", line)[1]
        goes_on = line[0] in " )}]" or line.startswith("unfolding ")
        name = found[-1][0] if goes_on and found else "" if head in ("use", "mod", "open") else head
        if found and (goes_on or name and name == found[-1][0]):
            found[-1] = (name, found[-1][1], number)
        else:
            found.append((name, number, number))
    return found


def without(text, places):
    """A proof file's text without the definitions that stand at these lines, and the names of these."""
    gone = [it for it in pieces_of(text) if any(it[1] <= place <= it[2] for place in places)]
    left = [line for number, line in enumerate(text.splitlines(keepends=True), 1) if not any(it[1] <= number <= it[2] for it in gone)]
    return "".join(left), [name for name, _, _ in gone]


def is_of(file, function, cycle=None):
    """Whether a proof file is that of a function, or of its cycle of calls, which has that name or else the function's own."""
    own, parts = os.path.dirname(file).split("/"), function.split("::")
    return own[-len(parts) :] == parts or own[-1] == f"+{cycle or parts[-1]}"


class Taken:
    """What was taken away of proof files: by file the names of definitions; and which files had answers to goals that are there no more."""

    def __init__(self, folder, cycles=()):
        self.folder, self.names, self.kept, self.lost, self.cycles = folder, {}, {}, set(), dict(cycles)

    def is_of(self, file, function):
        return is_of(file, function, self.cycles.get(function))

    def take(self, stale):
        """Takes away what stands at these places, and answers whether anything did."""
        count = 0
        for file, places in stale.items():
            text = read(f"{self.folder}/{file}")
            left, names = without(text, places)
            self.kept.setdefault(file, text)
            self.names.setdefault(file, set()).update(names)
            write(f"{self.folder}/{file}", left)
            count += len(names)
        return count > 0

    def put_back(self):
        for file, text in self.kept.items():
            write(f"{self.folder}/{file}", text)

    def invariants(self, function):
        """Whether an invariant of the function was taken away: the goals behind it then say nothing."""
        return any(self.is_of(file, function) and os.path.basename(file) != "Answers.antt" for file in self.names)

    def had(self, function, goal):
        """Whether the goal, or one that it is a part of, had an answer that was taken away; or may have come in place of one that had."""
        names = set().union(*(names for file, names in self.names.items() if self.is_of(file, function)))
        return any(self.is_of(it, function) for it in self.lost) or any(goal == it or it and goal.startswith(f"{it}-") for it in names)


def verdict_of(function, goals, is_proved, taken, is_last):
    """What a check says of a function, by its goals that are not proved; nothing where answers are to be taken away yet."""
    if not taken.invariants(function) and any(has_values or not taken.had(function, goal) for goal, has_values in goals.items()):
        return REFUSED
    if not is_last:
        return None
    if goals:
        return ANSWER if taken.invariants(function) else OPEN
    return UNTOLD if not is_proved else ANSWER if taken.names else PROVED


# ---- trying them


def checked(functions, folder, flags):
    """What a check of these functions says; where it was cut off, a second one."""
    for _ in range(2):
        said = Said(run(["rt", "check", *flags, *(word for it in functions for word in ("--only", it))], folder).stdout)
        if not said.is_cut_off:
            break
    return said


def judged(crate, functions, folder, flags):
    """Checks functions of a crate as it stands in the folder, and what they call, and answers the verdict of each; nothing where it doesn't compile."""
    left, found, texts = list(functions), {}, sources_of(folder)
    taken = Taken(folder, cycles_in(texts))
    try:
        for turn in range(ROUNDS):
            said = checked(left, folder, flags)
            if not said.has_judged:
                return dict.fromkeys(functions, UNTOLD) if turn or said.is_cut_off else None
            taken.lost |= said.lost()
            is_last = not taken.take(said.stale()) or turn == ROUNDS - 1
            for it in left:
                is_proved, goals = said.own_line(crate, it).startswith("proved"), said.goals(crate, it, texts)
                kind, wanted = verdict_of(it, goals, is_proved, taken, is_last), said.wanted(it, taken.cycles.get(it))
                found[it] = kind and Verdict(kind, {goal: wanted.get(goal, "") for goal in goals})
            left = [it for it in left if not found[it]]
            if not left:
                break
        return found
    finally:
        taken.put_back()


def sources_of(folder):
    files = [f"{at}/{name}" for at, _, names in os.walk(f"{folder}/src") for name in names if name.endswith(".rt")]
    return {os.path.relpath(it, folder): read(it) for it in sorted(files)}


class Applied:
    """A crate's folder with edits made in it, as long as this lasts."""

    def __init__(self, edits, folder):
        self.folder, texts = folder, {}
        for edit in dict.fromkeys(edits):
            texts = edit.applied(texts, folder)[0] or texts
        self.texts = texts

    def __enter__(self):
        self.kept = {path: read(f"{self.folder}/{path}") for path in self.texts}
        for path, text in self.texts.items():
            write(f"{self.folder}/{path}", text)

    def __exit__(self, *_):
        for path, text in self.kept.items():
            write(f"{self.folder}/{path}", text)


def tried_together(crate, group, folder, flags):
    """The verdicts of a group's edits, each by its function."""
    with Applied(group.values(), folder):
        found = judged(crate, group, folder, flags)
    if found is not None:
        return {edit: found[function] for function, edit in group.items()}
    # one that does not compile keeps the others from being judged
    pairs, half = list(group.items()), len(group) // 2
    if not half:
        return dict.fromkeys(group.values(), UNTOLD)
    return {edit: it for some in (pairs[:half], pairs[half:]) for edit, it in tried_together(crate, dict(some), folder, flags).items()}


def tried_alone(edit, folder, flags):
    """An edit's verdict by the functions that it changes, and where these are proved, by those that call them."""
    functions, texts = edit.functions(folder), sources_of(folder)
    callers = [caller for it in functions for caller in callers_of(it, texts) if caller not in functions]
    best = UNTOLD
    for some in (functions, list(dict.fromkeys(callers))):
        with Applied([edit], folder):
            found = (judged(edit.crate, some, folder, flags) if some else {}) or {}
        best = min([*found.values(), best], key=[REFUSED, OPEN, ANSWER, PROVED, UNTOLD].index)
        if best in (REFUSED, OPEN, UNTOLD):
            break
    return best


def verdicts(crate, edits, folder, flags):
    """The verdict of each of a crate's edits: they are tried in groups first, and those that are not refused so alone."""
    groups, alone = groups_of(edits, folder)
    found = {}
    for group in groups:
        found.update(tried_together(crate, group, folder, flags))
    for edit in [*alone, *(it for it, verdict in found.items() if verdict not in (REFUSED, OPEN))]:
        found[edit] = tried_alone(edit, folder, flags)
    return found


def over_proved(root, crate, below, copy, room, kind=""):
    """Copies a crate alone, of that kind in crates.txt, and answers where it is, and the flags by which rt takes the libraries that rt ci proved and built
    in the other copy: those of its own crates.txt rt would prove once more. `below` has for each crate what it stands on."""
    folder, flags = f"{room}/{crate}", ["--jobs", "1"]
    shutil.copytree(f"{root}/crates/{crate}", f"{folder}/crates/{crate}", ignore=shutil.ignore_patterns("out"))
    shutil.copy(f"{root}/HANDLES", folder)
    write(f"{folder}/crates.txt", f"{crate} {kind}: {' '.join(it for it in below[crate] if it not in below)}\n")
    for it in below:
        built = f"{copy}/crates/{it}/out/rlib"
        flags += ["-L", f"dependency={built}"] if os.path.isdir(built) else []
        flags += ["--extern", f"{it}={built}/{it}.rlib"] if it in below[crate] else []
    return f"{folder}/crates/{crate}", flags
