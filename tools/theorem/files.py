"""Files of definitions and of Rust: what stands in them, and what they import."""
import re

from bodies import read

# words of terms, patterns and clauses (KIT/rattle/antt/docs/primer.md)
LANGUAGE = set("Type Unit tt ⊥ absurd × → λ = : . _ | ↦ record let in elim as where".split())
STATEMENTS = {"T", "IsTrue", "IsFalse"}
MODIFIERS = r"(?:(?:abbrev|unfoldable|opaque|pub) )*"
OPEN, CLOSE = "({[", ")}]"
COLUMNS = 100  # of a type of Rust, where what stands in several lines fits into one
NEXT = r"(?m)^(?=[^\s)}\]])"  # where a part of a definition begins: a closing bracket at the left edge begins none


def words_of(text):
    """The words of a term. Brackets, commas and semicolons stand alone, and so does the dot that
    ends the names behind a λ."""
    for word in re.findall(r"\[\]|[(){}\[\],;]|[^\s(){}\[\],;]+", without_comments(text)):
        if len(word) > 1 and word.endswith("."):
            yield word[:-1]
            word = "."
        yield word


def without_comments(text):
    return re.sub(r"(?m)(^|(?<=\s))--( .*)?$", "", text)


def is_name(word):
    return word not in LANGUAGE and word not in OPEN + CLOSE + ",;" and not word.isdigit()


# ---- files of definitions


class Definition:
    """A definition as it stands in its file. Those that need one another stand in one."""

    def __init__(self, name, comment, text, around="", inner=()):
        self.name, self.comment, self.text, self.around = name, comment, text, around
        self.inner = list(inner)
        self.signature, *self.clauses = [it for it in re.split(NEXT, text) if it]
        self.kind = (re.match(MODIFIERS + r"(record|data) ", text) or ["", "function"])[1]
        # the fields of a record, the constructors of a data type
        found = re.findall(r"(?m)^  (?:pub )?([^\s:]+(?: [^\s:]+)*) :", text)
        self.parts = " ".join(found).split() if self.kind != "function" else []

    def is_proof(self):
        """Whether its type ends in a statement."""
        if self.kind != "function" or not self.clauses or self.inner:
            return False
        depth, end = 0, []
        for word in words_of(self.signature.partition(" : ")[2]):
            depth += (word in OPEN) - (word in CLOSE)
            end = [] if word == "→" and not depth else end + [(word, depth)]
        return bool(end) and (end[0][0] in STATEMENTS or ("≡", 0) in end)

    def printed(self):
        text = self.signature if self.is_proof() else self.text
        if self.around:
            text = self.around + re.sub(r"(?m)^(?=.)", "  ", text)
        return "".join(f"{line}\n" for line in self.comment) + text.rstrip() + "\n"


class Scope:
    """What a text imports: names, modules, and what it passes on to those that import it."""

    LINE = re.compile(
        r"(?m)^\s*(?:unfoldable |ghost )*(pub )?use ([^\s;{]+?)"
        r"(?:\.\{([^}]*)\})?(?: as ([^\s;]+))?;?$"
    )

    def __init__(self, text):
        self.names, self.modules, self.passed, self.definitions, self.owners = {}, {}, {}, {}, {}
        for public, module, names, alias in self.LINE.findall(text):
            if not names:
                to = self.passed if public else self.modules
                to[alias or module.rpartition(".")[2]] = module
            for name in filter(None, (it.strip() for it in names.split(","))):
                old, _, new = name.partition(" as ")
                self.names[new or old] = (module, old)
                if public:
                    self.passed[new or old] = (module, old)

    def operators(self):
        """The names of operators by the words that they are written with."""
        names = [*self.names, *self.definitions, *self.owners]
        return {piece: name for name in names if "◌" in name for piece in name.split("◌") if piece}


class Module(Scope):
    """A file of definitions."""

    def __init__(self, file):
        text = read(file)
        super().__init__(text)
        self.file, self.head = file, re.match(r"(?:--.*\n)*", text)[0]
        self.definitions = self.scanned(text[len(self.head) :].splitlines())
        for it in self.definitions.values():
            self.owners.update({part: it.name for part in it.parts if it.kind == "data"})

    def scanned(self, lines, around=""):
        """The definitions in these lines. Each begins at the left edge, where a closing bracket goes
        on with the one above it. Put together they are the file, but for its imports, empty lines
        and comments (tools/tests/of_theorem.py)."""
        found, comment, name = {}, [], ""
        for i, line in enumerate(lines):
            if line.startswith("--"):
                # a heading counts as the comment where there is no other
                comment = [it for it in comment if it[:5] != "-- --"] + [line]
                name = ""
            elif not line.strip():
                comment = []
            elif line.startswith((" ", *CLOSE, "unfolding ")):
                if name:
                    found[name][1].append(line)
            elif re.match(r"(pub |unfoldable )*(use|mod|open) ", line):
                comment, name = [], ""
            elif re.match(r"(module .* where|((abbrev|pub) )*mutual)$", line):
                inside = self.block(lines[i + 1 :])
                found.update(self.joined(line, comment, inside, around))
                comment, name = [], ""
            else:
                first = re.match(MODIFIERS + r"(?:record |data )?([^\s]+)", line)[1]
                if not name or (first != name and not self.is_clause(name, line)):
                    name = first
                    found[name] = (comment, [], around)
                found[name][1].append(line)
                comment = []
        made = lambda name, it: Definition(name, it[0], "\n".join(it[1]) + "\n", it[2])
        return {n: made(n, it) if isinstance(it, tuple) else it for n, it in found.items()}

    @staticmethod
    def is_clause(name, line):
        """Whether a line goes on with an operator of that name."""
        pieces = [it for it in name.split("◌") if it]
        return "◌" in name and line[0] != "-" and all(it in line.split() for it in pieces)

    @staticmethod
    def block(lines):
        """The indented lines that follow, without their indent."""
        end = next((i for i, it in enumerate(lines) if it.strip() and it[0] != " "), len(lines))
        return [line[2:] for line in lines[:end]]

    def joined(self, line, comment, inside, around):
        """The definitions of a block: those that are mutual as one."""
        if line.startswith("module"):
            return self.scanned(inside, around + line + "\n")
        inner = self.scanned(inside)
        text = line + "\n" + "".join(f"  {it}".rstrip() + "\n" for it in inside)
        whole = Definition(next(iter(inner)), comment, text.rstrip() + "\n", around, inner.values())
        return {name: whole for name in inner}


# ---- files of Rust


class RustFile(Scope):
    """A file of Rust: its types and constants, the models of its types, and its imports."""

    def __init__(self, file):
        text = read(file)
        super().__init__("\n".join(re.findall(r"(?m)^ghost use .*$", text)))
        self.file, self.text = file, text
        self.uses = dict(self.used(re.findall(r"(?ms)^(?:pub )?use (.*?);$", text)))
        self.items = {}
        head = r"((?:pub(?:\([a-z]+\))? )?(enum|struct|const|type) (\w+))"
        for it in re.finditer(r"(?m)^((?:///.*\n)*)(?:#\[.*\]\n)*" + head, text):
            self.items[it[4]] = (it[1], it[3], text[it.start(2) : self.end(text, it.end())])

    @staticmethod
    def end(text, at):
        """Where an item ends: at its closing bracket, or at a semicolon outside brackets."""
        depth = 0
        for at in range(at, len(text)):
            depth += (text[at] in OPEN) - (text[at] in CLOSE)
            if not depth and (text[at] == ";" or text[at] == "}"):
                break
        return at + 1

    @classmethod
    def used(cls, lines, before=()):
        """The names that lines of use import, each with its path."""
        for line in lines:
            path, brace, rest = re.sub(r"\s+", " ", line).strip().partition("{")
            parts = (*before, *[it for it in path.strip().split("::") if it])
            if brace:
                for it in re.split(r",(?![^{]*\})", rest.rpartition("}")[0]):
                    yield from cls.used([it] if it.strip() else [], parts)
            elif parts:
                last, _, alias = parts[-1].partition(" as ")
                parts = parts[:-1] if last == "self" else (*parts[:-1], last)
                yield alias or parts[-1], parts

    def model(self, name):
        """The value that a type is seen as, and what that imports, if it is not seen as it is."""
        found = re.search(rf"(?ms)^impl(?:<.*?>)? Model for {name}\b.*?^\}}", self.text)
        value = found and re.search(r"(?ms)^    ghost Value = \{ (.*?) \};", found[0])
        return (value[1], Scope(found[0])) if value else None


def without_docs(text):
    return re.sub(r"(?m)^\s*(//.*|#\[.*\])\n", "", text)


def variants(text):
    """The variants of an enum, each with the text of its fields."""
    body = without_docs(text).partition("{")[2].rpartition("}")[0]
    return re.findall(r"(\w+)\s*(\([^)]*\)|\{[^}]*\})?\s*(?:,|$)", body)


def compact(text):
    """A type without its attributes: what stands in braces in one line, and a comment of one line
    behind what it is of, where they fit."""
    text = re.sub(r"(?m)^\s*#\[.*\]\n", "", text)
    text = re.sub(r"(?m)^( *)(.*\{)\n((?: +[^/{}\n]+\n)+) *\}", in_one_line, text)
    return re.sub(r"(?m)^ *///(.*)\n(?! *///)(.*[^{\n])$", beside, text)


def in_one_line(found):
    indent, head, parts = found.groups()
    line = f"{indent}{head} {' '.join(parts.split()).removesuffix(',')} }}"
    return line if len(line) <= COLUMNS else found[0]


def beside(found):
    above = found.string[: found.start()].rstrip("\n").rpartition("\n")[2]
    line = f"{found[2]}  //{found[1]}"
    return found[0] if above.lstrip()[:3] == "///" or len(line) > COLUMNS else line
