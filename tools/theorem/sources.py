"""Where names stand, in the repository or in the toolchain."""
import os
import re

from bodies import read
from theorem.files import Module, RustFile

# words of Rust that types are made of, and what a clause says of a value (KIT/rattle/CONTRACTS.md)
NUMBERS = set("u8 u16 u32 u64 usize i8 i16 i32 i64 isize".split())
RUST = NUMBERS | {"bool", "char", "str"}
RUST_PRELUDE = {"Option", "Result", "Vec", "String", "Box"}
STD = ["core", "std_alloc", "std_collections", "std_io"]  # what std passes on


class Unplaced(Exception):
    """A name that the page can't place."""


class Sources:
    """Where names stand: in the repository or in the toolchain."""

    def __init__(self, root, kit):
        self.root, self.kit, self.modules, self.rust = root, kit, {}, {}
        self.crates = re.findall(r"(?m)^(\w+).*:", read(f"{root}/crates.txt"))

    def folder(self, name):
        return f"{self.root}/crates/{name}" if name in self.crates else f"{self.kit}/{name}"

    def path(self, module):
        """The file of a module of definitions, following what each folder's own file passes on."""
        first, *rest = module.split(".")
        if first == "Rattle" and len(rest) > 2 and rest[1] == "specs":
            folder, rest = f"{self.folder(rest[0])}/specs", rest[2:]
        elif first in ("lib", "mathlib"):
            at = {"lib": "logic/Lib", "mathlib": "antt/port/mathlib/src"}
            folder = f"{self.kit}/{at[first]}"
        else:
            return None
        for count in range(len(rest)):
            above = "/".join([folder, *rest[:count]]) + ".antt" if count else f"{folder}/Lib.antt"
            if os.path.isfile("/".join([folder, *rest]) + ".antt") or not os.path.isfile(above):
                break
            to = self.module_at(above).passed.get(rest[count])
            if isinstance(to, str):
                return self.path(".".join([to, *rest[count + 1 :]]))
        file = "/".join([folder, *rest]) + ".antt"
        return file if os.path.isfile(file) else None

    def crate(self, key):
        return os.path.relpath(key[1], f"{self.root}/crates").split("/")[0]

    def module_at(self, file):
        if file not in self.modules:
            self.modules[file] = Module(file)
        return self.modules[file]

    def rust_at(self, file):
        if file not in self.rust:
            self.rust[file] = RustFile(file)
        return self.rust[file]

    def find(self, module, name):
        """What a name of a module means: (sort, file, name)."""
        if module.startswith("Prim."):
            return "kit", f"{self.kit}/antt/docs/primer.md", name
        if ".specs.declared" in module:
            return self.declared(module, name)
        file = self.path(module)
        if not file:
            raise Unplaced(f"{name}: there is no module {module}")
        it = self.module_at(file)
        sort = "kit" if file.startswith(self.kit) else "definition"
        if name in it.definitions or name in it.owners:
            owner = name if name in it.definitions else it.owners[name]
            return sort, file, name if sort == "kit" else it.definitions[owner].name
        if isinstance(it.passed.get(name), tuple):
            return self.find(*it.passed[name])
        raise Unplaced(f"{name}: {self.short(file)} neither defines it nor passes it on")

    def declared(self, module, name):
        """A Rust type, one of its variants, or a constant."""
        crate, _, rest = module[len("Rattle.") :].partition(".specs.declared")
        parts = [it for it in rest.split(".") if it]
        item = next((it for it in reversed(parts) if it[0].isupper() and it[:3] != "The"), name)
        folders = [it for it in parts if it[0].islower()]
        crates = [crate, *(STD if crate == "std" else [])]
        bases = ["/".join([f"{self.folder(it)}/src", *(folders or ["lib"])]) for it in crates]
        files = [it + end for it in bases for end in (".rt", "/mod.rt")]
        file = next((it for it in files if os.path.isfile(it)), None)
        if not file or item not in self.rust_at(file).items:
            raise Unplaced(f"{name}: {crate} declares no {item} in {'/'.join(folders)}")
        if not re.search(rf"\b{re.escape(name)}\b", self.rust_at(file).items[item][2]):
            raise Unplaced(f"{name}: {item} of {self.short(file)} has none")
        return ("kit", file, name) if file.startswith(self.kit) else ("rust", file, item)

    def find_rust(self, file, name):
        """What a name of a Rust file means: a type here, or a word of the toolchain."""
        if name in RUST:
            return "kit", "Rust", name
        it = self.rust_at(file)
        if name in it.items:
            return "rust", file, name
        path = it.uses.get(name, ("std", name) if name in RUST_PRELUDE else ())
        if not path:
            raise Unplaced(f"{name}: {self.short(file)} neither declares nor imports it")
        is_own = path[0] in ("crate", "super", "self")
        crate = self.crate(("rust", file)) if is_own else path[0]
        if crate in self.crates:
            return self.in_crate(crate, path[-1], path[1:-1])
        if not os.path.isdir(self.folder(crate)):
            raise Unplaced(f"{name}: there is no crate {crate}")
        return "kit", "Rust", "::".join(path[:1] + path[-1:] if path[-1] in RUST_PRELUDE else path)

    def in_crate(self, crate, name, inside=()):
        """The type of that name in a crate; of several files that which the path names."""
        files = self.rust_files(crate)
        found = [it for it in files if name in self.rust_at(it).items]
        if len(found) > 1:
            exact = "/".join([f"{self.folder(crate)}/src", *inside])
            passed = self.rust_at(f"{self.folder(crate)}/src/lib.rt").uses.get(name, ())
            other = "/".join([f"{self.folder(crate)}/src", *passed[:-1]])
            found = [it for it in found if it in (f"{exact}.rt", f"{other}.rt")]
        if len(found) == 1:
            return "rust", found[0], name
        library = f"{self.folder(crate)}/src/lib.rt"
        if not found and name in self.rust_at(library).uses:
            return self.find_rust(library, name)
        raise Unplaced(f"{name}: {crate} has {len(found)} of that name")

    def rust_files(self, crate):
        for at, _, names in sorted(os.walk(f"{self.folder(crate)}/src")):
            yield from (f"{at}/{it}" for it in sorted(names) if it.endswith(".rt"))

    def short(self, file):
        """A file's path, in the repository or below KIT/rattle."""
        if file.startswith(self.kit):
            return "KIT/rattle/" + os.path.relpath(file, self.kit)
        return os.path.relpath(file, self.root) if file.startswith(self.root) else file
