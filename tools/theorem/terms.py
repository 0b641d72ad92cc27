"""The names that a term uses, and what they mean."""
from theorem.files import CLOSE, OPEN, is_name, variants
from theorem.sources import Unplaced

CONSTRUCTORS = {"true", "false", "zero", "suc", "pos", "negsuc", "[]", "tt"}


class Term:
    """Reads the words of a term, and keeps the names that it uses but does not bind, and the fields
    that it names. `place` answers what a name means, or None."""

    def __init__(self, place, bound=()):
        self.place, self.frames, self.used, self.fields = place, [], [], set()
        self.written = {}  # what each name means, by how it is written
        self.enter("", set(bound))

    def enter(self, bracket, bound=()):
        self.frames.append({"bracket": bracket, "bound": set(bound), "λ": False, "record": False})

    def is_bound(self, name):
        return any(name in it["bound"] for it in self.frames)

    def read(self, words):
        words, at = list(words), 0
        while at < len(words):
            at = self.step(words, at)
        return self

    def step(self, words, at):
        """Reads the word there, and answers where the next one is."""
        word, top = words[at], self.frames[-1]
        if word in OPEN:
            return self.opened(words, at)
        if word in CLOSE:
            self.frames.pop()
        elif word in (",", ";", "|"):
            if len(self.frames) > 1:
                top["bound"] = set()
            return self.field(words, self.alternative(words, at + 1) if word == "|" else at + 1)
        elif word == "λ":
            top["λ"] = True
        elif top["λ"]:
            top["λ"] = word != "."
            top["bound"] |= {word} - {".", "_"}
        elif word == "let":
            top["bound"].add(words[at + 1])
            return at + 2
        elif word == "record":
            top["record"] = True
        elif is_name(word):
            self.name(word)
        return at + 1

    def opened(self, words, at):
        """A bracket: of a record's fields, of names with their type, or of a term."""
        word, top = words[at], self.frames[-1]
        is_record = word == "{" and top["record"]
        top["record"] = top["record"] and not is_record
        end = at + 1
        while end < len(words) and is_name(words[end]):
            end += 1
        names = set(words[at + 1 : end])
        if word != "[" and names and end < len(words) and words[end] == ":":
            top["bound"] |= names
            self.enter(word)
            return end + 1
        if top["λ"] and word == "{":
            top["bound"] |= names
        self.enter("record" if is_record else word)
        return self.alternative(words, at + 1) if word == "[" else self.field(words, at + 1)

    def field(self, words, at):
        """A field that is given a value, or an argument that is given by its name."""
        if self.frames[-1]["bracket"] in ("record", "{") and words[at + 1 : at + 2] == ["="]:
            if self.frames[-1]["bracket"] == "record":
                self.fields.add(words[at])
            return at + 2
        return at

    def alternative(self, words, at):
        """The pattern of a case of an elim."""
        rest = words[at:]
        if "↦" not in rest or words[at] == "|":
            return at
        end = at + rest.index("↦")
        self.pattern(words[at:end])
        return end

    def pattern(self, words):
        """Binds what a pattern binds: each name in it that is no constructor."""
        for i, word in enumerate(words):
            if not is_name(word) or words[i + 1 : i + 2] == ["="]:
                continue
            last = word.rpartition(".")[2]
            is_known = not self.is_bound(word) and self.place(word) is not None
            is_constructor = last in CONSTRUCTORS or not last[0].islower()
            if is_known and (is_constructor or "." in word or self.place(word)[3]):
                self.name(word)
            else:
                self.frames[-1]["bound"].add(word)

    def name(self, word):
        head, *rest = word.split(".") if word.strip(".") else [word]
        if head == "" or self.is_bound(head):
            self.fields |= set(rest)
            return
        found = self.place(word)
        if not found:
            raise Unplaced(f"{word}: nothing of that name is in scope")
        self.used.append(found[:3])
        self.fields |= set(found[4])
        if not found[3]:
            self.written[word.removesuffix(".".join(["", *found[4]]))] = found[:3]


def placer(sources, scope, here):
    """What a word means in a scope: (sort, file, name, is a constructor, fields behind it)."""
    operators = scope.operators()

    def place(word):
        head, *rest = word.split(".") if word.strip(".") else [word]
        name = operators.get(head, head)
        if name in scope.definitions or name in scope.owners:
            owner = name if name in scope.definitions else scope.owners[name]
            found = ("definition", here, scope.definitions[owner].name)
        elif name in scope.names:
            found = sources.find(*scope.names[name])
        elif name in scope.modules and rest:
            found = sources.find(scope.modules[name], rest[0])
            name, rest = rest[0], rest[1:]
        else:
            return None
        if found[0] == "kit" and found[2] != name:  # the toolchain has it under another name
            found = (*found[:2], f"{name} ({found[2]} there)")
        parts = constructors(sources, found)
        if rest and name == found[2] and parts:
            if rest[0] not in parts:
                raise Unplaced(f"{word}: {found[2]} has no {rest[0]}")
            name, rest = rest[0], rest[1:]
        return (*found, name in parts, rest)

    return place


def constructors(sources, found):
    """The constructors of a data type, the variants of an enum."""
    sort, file, name = found
    if sort == "definition":
        it = sources.module_at(file).definitions[name]
        return it.parts if it.kind == "data" else []
    if sort == "rust" and sources.rust_at(file).items[name][1] == "enum":
        return [variant for variant, _ in variants(sources.rust_at(file).items[name][2])]
    return []
