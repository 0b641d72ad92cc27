"""What the page has: all that the contract rests on, each behind what it names."""
import os
import re

from theorem.files import CLOSE, MODIFIERS, OPEN, Definition, compact, variants, without_comments, without_docs, words_of
from theorem.sources import RUST, Unplaced
from theorem.terms import Term, placer

CONTRACT = ("rt_sync", "runs.rt", "run")
# definitions that laws say all of, with the file that proves these, and their names
BY_LAWS = {
    ("rt_tree", "sub"): ("specs/laws/PathTree.antt", ("same_tree", "leaf_at-sub")),
    ("rt_tree", "put"): ("specs/laws/PathTree.antt", ("leaf_at-put",)),
    ("rt_tree", "with_children"): ("specs/laws/PathTree.antt", ("leaf_at-with_children",)),
    ("rt_tree", "tree_eq"): ("specs/laws/TreeEq.antt", ("tree_eq_tells",)),
    ("rt_query", "query_eq"): ("specs/laws/QueryEq.antt", ("query_eq_tells",)),
    ("rt_query", "shown_eq"): ("specs/laws/QueryEq.antt", ("shown_eq_tells",)),
    ("rt_query", "query_cmp"): ("specs/laws/QueryOrder.antt", ("queries_total", "exact_queries")),
}


class Entry:
    """One thing of the page: its text, what it names, and the fields that it has and uses."""

    def __init__(self, key, text, used, fields=(), has=(), sort=""):
        self.key, self.text, self.used = key, text, [it for it in used if it != key]
        self.fields, self.has, self.sort = set(fields), set(has), sort or key[0]
        self.written, self.laws = {}, 0


def laws_of(sources, crate, name):
    """The laws that say all that there is to know of a definition, and the file that has them."""
    inside, names = BY_LAWS[crate, name]
    file = f"{sources.folder(crate)}/{inside}"
    found = sources.module_at(file).definitions
    lost = [law for law in names if law not in found or not is_statement(found[law])]
    if lost or not any(name in words_of(found[law].signature) for law in names):
        raise Unplaced(f"{name}: {sources.short(file)} has no laws of it, {', '.join(names)}")
    return [found[law] for law in names], file


def is_statement(it):
    """Whether a definition is a proof; a fact may have a name, with a capital."""
    named = re.search(r" : [A-Z]\w+(?: \w+)+$", it.signature.rstrip())
    return bool(it.clauses) and (it.is_proof() or named is not None)


def definition(sources, key):
    by = by_laws if (sources.crate(key), key[2]) in BY_LAWS else by_text
    return by(sources, key)


def by_laws(sources, key):
    """A definition by its signature and those of its laws."""
    _, file, name = key
    module = sources.module_at(file)
    laws, at = laws_of(sources, sources.crate(key), name)
    alone = Definition(name, module.definitions[name].comment, module.definitions[name].signature)
    terms = list(terms_of(alone, placer(sources, module, file)))
    for law in laws:
        said = Definition(law.name, [line for line in law.comment if line[:5] != "-- --"], law.signature)
        terms += terms_of(said, placer(sources, sources.module_at(at), at))
        alone.text += said.printed()
    made = Entry(key, alone.printed(), [found for term in terms for found in term.used])
    made.written = {word: found for term in terms for word, found in term.written.items() if found != key}
    made.laws = len(laws)
    return made


def by_text(sources, key):
    _, file, name = key
    module = sources.module_at(file)
    it = module.definitions[name]
    place = placer(sources, module, file)
    terms = [term for one in it.inner or [it] for term in terms_of(one, place)]
    used = [found for term in terms for found in term.used]
    fields = set().union(*(term.fields for term in terms))
    if re.search(r"/(laws|proofs)/", file) and not it.is_proof():
        raise Unplaced(f"{name}: it stands in {sources.short(file)}, not among definitions")
    sort = "proof" if it.is_proof() else it.kind
    made = Entry(key, it.printed(), used, fields, it.parts if it.kind == "record" else (), sort)
    made.written = {word: found for term in terms for word, found in term.written.items()}
    return made


def terms_of(it, place):
    """The terms of a definition: its signature or its parts, and its clauses."""
    around = re.findall(r"[({]([^:(){}]*) :", it.around)
    bound = {name for names in around for name in names.split()}
    head = re.sub(r"^" + MODIFIERS + r"(record |data )?\S+", "", it.signature)
    if it.kind != "function":
        yield from parts_of(it, head, place)
        return
    levels = re.match(r"\s*\{([^}:]*)\}", head)
    bound |= set(levels[1].split()) if levels else set()
    yield Term(place, bound).read(words_of(head))
    clauses = [] if it.is_proof() else it.clauses
    for words in (list(words_of(clause)) for clause in clauses if clause[:10] != "unfolding "):
        end, depth = 0, 0
        while depth or words[end] != "=":
            depth += (words[end] in OPEN) - (words[end] in CLOSE)
            end += 1
        term = Term(place, bound)
        pieces = {it.name, *it.name.split("◌")}
        term.pattern([word for word in words[:end] if word not in pieces])
        yield term.read(words[end + 1 :])


def parts_of(it, head, place):
    """The terms of a record or a data type: its parameters, and its parts in order."""
    lines = re.split(r"(?m)^  (?=\S)", without_comments(head))
    first = Term(place).read(words_of(lines[0]))
    yield first
    for line in lines[1:]:
        names, _, rest = line.removeprefix("pub ").partition(" :")
        term = Term(place, first.frames[0]["bound"])
        yield term.read(words_of(rest))
        first.frames[0]["bound"] |= set(names.split()) if it.kind == "record" else set()


def rust(sources, key):
    _, file, name = key
    it = sources.rust_at(file)
    doc, kind, text = it.items[name]
    model = it.model(name)
    if model:
        value, scope = model
        scope.names = {**it.names, **scope.names}
        scope.modules = {**it.modules, **scope.modules}
        term = Term(placer(sources, scope, file)).read(words_of(value))
        seen = f"impl Model for {name} {{ ghost Value = {{ {value} }}; }}\n"
        return Entry(key, f"{doc}{seen}", term.used, term.fields)
    used = [sources.find_rust(file, found) for found in rust_names(text, kind)]
    has = re.findall(r"(?m)^\s*(?:pub(?:\([a-z]+\))? )?(\w+):", without_docs(text))
    return Entry(key, f"{doc}{compact(text)}\n", used, (), has if kind == "struct" else ())


def rust_names(text, kind):
    """The types that a type is made of, or that a constant has."""
    text = without_docs(text)
    if kind == "enum":
        text = " ".join(fields for _, fields in variants(text))
    elif kind == "const":
        text = text.partition(":")[2]
    else:
        text = text.partition("{" if "{" in text else "(" if "(" in text else "=")[2]
    own = r"\b(?:[A-Z]\w*|" + "|".join(sorted(RUST)) + r")\b"
    return re.findall(own, text)


def contract(sources):
    """The contract: its text, and what it names."""
    crate, name, function = CONTRACT
    file = f"{sources.folder(crate)}/src/{name}"
    it = sources.rust_at(file)
    found = re.search(rf"(?ms)^((?:///[^\n]*\n)*)(pub fn {function}\((.*?)\) -> .*?)^\{{", it.text)
    if not found:
        raise Unplaced(f"{function}: {sources.short(file)} has no such function")
    doc, text, parameters = found.groups()
    bound = {*re.findall(r"(\w+):", parameters), "result"}
    head, *clauses = re.split(r"(?m)^    (?=requires|ensures)", text)
    made = Entry(("contract", file, function), doc + text, [])
    made.types = [sources.find_rust(file, it) for it in re.findall(r"\b[A-Z]\w*", head)]
    made.clauses = {}
    for clause in clauses:
        name, _, inside = clause.partition("{")
        term = Term(placer(sources, it, file), bound).read(words_of(inside.rpartition("}")[0]))
        made.clauses[name.strip()] = term.used
        made.fields |= term.fields
    made.used = made.types + [it for used in made.clauses.values() for it in used]
    return made


def reached(sources, first):
    """All that an entry rests on, by key, and the words of the toolchain."""
    entries, words, waiting, wrong = {}, set(), [*first.used], []
    while waiting:
        key = waiting.pop()
        if key[0] == "kit":
            words.add(key[1:])
        elif key not in entries:
            try:
                entries[key] = (definition if key[0] == "definition" else rust)(sources, key)
                waiting += entries[key].used
            except Unplaced as why:
                entries[key] = Entry(key, "", [])
                wrong.append(f"{sources.short(key[1])}, {key[2]}: {why}")
    if wrong:
        raise Unplaced("\n".join(sorted(wrong)))
    return entries, words


# ---- the order


def in_order(sources, entries):
    """The entries, each behind those that it names, those of a place together where that can be."""
    left, done, order = {}, set(), []
    for key in sorted(entries, key=lambda it: place_of(sources, it)):
        left.setdefault(shown_at(sources, key), []).append(key)
    while left:
        now = {it: ready(entries, keys, done) for it, keys in left.items()}
        # of the lowest crate one that is whole, else types, so that no file of definitions is parted
        rank = lambda it: (it[0], len(now[it]) < len(left[it]), not it[1].endswith("/src"), it[1])
        best = min((it for it in left if now[it]), key=rank, default=None)
        if best is None:
            stuck(sources, entries, left)
        order += now[best]
        done |= set(now[best])
        left[best] = [it for it in left[best] if it not in done]
        left = {it: keys for it, keys in left.items() if keys}
    return order


def place_of(sources, key):
    """Where a thing stands: its crate's place, its file, and its place in that."""
    sort, file, name = key
    it = sources.rust_at(file).items if sort == "rust" else sources.module_at(file).definitions
    return sources.crates.index(sources.crate(key)), file, list(it).index(name)


def shown_at(sources, key):
    """Where a thing stands on the page: its crate's place, and its file or, for Rust, src."""
    crate = sources.crate(key)
    at = f"{sources.folder(crate)}/src" if key[0] == "rust" else key[1]
    return sources.crates.index(crate), at


def ready(entries, keys, done):
    """Those of the keys that name only what stands already, each behind those that it names."""
    taken, found = [], True
    while found:
        left = (key for key in keys if key not in taken)
        stands = lambda it: it[0] == "kit" or it in done or it in taken
        found = next((key for key in left if all(map(stands, entries[key].used))), None)
        taken += [found] if found else []
    return taken


def stuck(sources, entries, left):
    """Fails with what no order can place."""
    keys = [key for keys in left.values() for key in keys]
    named = {it for key in keys for it in entries[key].used if it[0] != "kit"}
    lost = sorted(f"{sources.short(it[1])}, {it[2]}: left out" for it in named - set(entries))
    names = sorted(f"{sources.short(it[1])}, {it[2]}: it names one that names it" for it in keys)
    raise Unplaced("\n".join(lost or names))
