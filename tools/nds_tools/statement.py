"""What the run theorem's statement stands on, by definition: specs, declared types, traits, and the views of models."""
import re
from collections import namedtuple
from pathlib import Path

HEAD = re.compile(r"(?:(?:abbrev|unfoldable) )*pub (?:(?:abbrev|unfoldable) )*(?!mod |use )(?:record |data )?([^\s:({]+)")
PRIVATE = re.compile(r"(?:(?:abbrev|unfoldable) )*(?:record |data )?([^\s:({]+) (?:: |\(|\{)")
CONSTRUCTOR = re.compile(r"  ([^\s:({-][^\s:({]*) : ")
USE = re.compile(r"^(?:pub |ghost )*use Rattle\.(\w+)\.(specs\.[\w.]+?)(?:\.\{([^}]*)\}| as (\w+))?;?$")
RUST_USE = re.compile(r"^use (\w+)::(?:\{([^}]*)\}|[\w:]*?(\w+));")
ITEM = re.compile(r"(?:pub(?:\([a-z]+\))? )?(struct|enum|trait|impl)\b(.*)")
MODEL = re.compile(r"(?:<[^{]*?> )?Model for (\w+)")

# A definition, a declared type, a trait, or the view of a model: where it stands, how many lines it has, and what it names.
Item = namedtuple("Item", "kind file line name lines uses")


def counted(lines):
    """How many lines say something: blank ones, comments, imports and attributes don't."""
    plain = (line.strip() for line in lines)
    return sum(1 for line in plain if line and not line.startswith(("--", "//", "use ", "ghost use ", "#[", "#!")))


def without_comment(line):
    return re.sub(r"(^|\s)(--|//).*", "", line)


def imports(lines):
    """Each name that a file imports, with the crate, the module and its name there; a module under a short name has no name there."""
    names = {}
    for line in lines:
        found = USE.match(line.strip())
        if not found:
            continue
        crate, module, listed, alias = found.groups()
        for part in (listed or "").split(","):
            words = part.split()
            if words:
                names[words[-1]] = (crate, module, words[0])
        if alias:
            names[alias] = (crate, module, None)
    return names


def blocks(lines):
    """The definitions of a file of specs: name, first line, lines, and the constructors that it makes."""
    found, start, name = [], None, None
    for number, line in enumerate(lines):
        head = HEAD.match(line) or (PRIVATE.match(line) if line.startswith(("abbrev ", "unfoldable ", "record ", "data ")) else None)
        if not head and re.match(r"[a-zA-Z_]\S* : ", line):
            head = re.match(r"(\S+)", line)
        if head or line.startswith(("use ", "pub use ", "pub mod ", "infix")):
            if name:
                found.append((name, start, lines[start:number]))
            name, start = (head.group(1), number) if head else (None, None)
    if name:
        found.append((name, start, lines[start:]))
    return found


def words_in(lines):
    """The names in lines, but for imports and comments; also the operators that a file can import."""
    plain = [without_comment(line) for line in lines if not USE.match(line.strip())]
    return {word for line in plain for word in re.findall(r"[\w'₀-₉]+|◌?>>=◌?", line)}


class Sources:
    """All specs and sources of a repository, read once each."""

    def __init__(self, top):
        self.top = Path(top)
        self.specs, self.sources, self.types = {}, {}, {}

    def spec_file(self, crate, module):
        return self.top / "crates" / crate / "specs" / (module.removeprefix("specs.").replace(".", "/") + ".antt")

    def spec(self, path):
        """A file of specs: its imports, and its items by each name that they make."""
        if path not in self.specs:
            lines = path.read_text(encoding="utf8").splitlines()
            names, by_name = imports(lines), {}
            for name, start, block in blocks(lines):
                item = Item("definition", path, start + 1, name, counted(block), frozenset(words_in(block) - {name}))
                by_name[name] = item
                if re.search(r"\bdata\b", block[0]):
                    for made in filter(None, map(CONSTRUCTOR.match, block[1:])):
                        by_name.setdefault(made.group(1), item)
            self.specs[path] = (names, by_name)
        return self.specs[path]

    def crate_items(self, crate):
        """The types, traits and views that a crate's sources declare, by name, with the file's imports."""
        if crate not in self.sources:
            items = {}
            for path in sorted((self.top / "crates" / crate / "src").rglob("*.rt")):
                lines = path.read_text(encoding="utf8").splitlines()
                names = imports(lines)
                for kind, name, start, block in declared(lines):
                    own = dict(names, **imports(block))
                    item = Item(kind, path, start + 1, name, counted(block), frozenset(words_in(block) - {name}))
                    items.setdefault(name, []).append((item, own))
            self.sources[crate] = items
        return self.sources[crate]


def declared(lines):
    """The structs, enums and traits of a source, and the models' views, each up to the brace that ends it; tests are left out."""
    found, number = [], 0
    while number < len(lines):
        line = lines[number]
        if line.startswith("#[cfg(test)]"):
            break
        item = ITEM.match(line)
        if item:
            end = number
            if not line.rstrip().endswith((";", "}")):
                while end + 1 < len(lines) and lines[end] not in ("}", "};", ");"):
                    end += 1
            block = lines[number:end + 1]
            kind, rest = item.groups()
            model = MODEL.match(rest.strip()) if kind == "impl" else None
            if model:
                found.append(("view", model.group(1), number, without_invariant(block)))
            elif kind in ("struct", "enum", "trait"):
                name = re.match(r"\W*(\w+)", rest).group(1)
                found.append(("trait" if kind == "trait" else "type", name, number, block))
            number = end
        number += 1
    return found


def crates_of_names(path):
    """The crate of each name that a source brings in from another one."""
    found = {}
    for line in path.read_text(encoding="utf8").splitlines():
        use = RUST_USE.match(line)
        if use and use.group(1) not in ("crate", "std", "super", "self"):
            for name in (use.group(2) or use.group(3)).split(","):
                found[name.strip()] = use.group(1)
    return found


def contract_of(lines, function):
    """A function's signature and clauses, up to its body."""
    start = next(number for number, line in enumerate(lines) if re.match(rf"pub fn {function}\b", line))
    end = next(number for number in range(start, len(lines)) if lines[number] == "{")
    return lines[start:end]


def without_invariant(block):
    """A model's view: what the code keeps beside it, and the way back, are no part of a statement."""
    kept, left_out = [], False
    for line in block:
        if re.match(r"    ghost (invariant|inverse)\b", line):
            left_out = True
        elif re.match(r"    (ghost|//)|}", line):
            left_out = False
        if not left_out:
            kept.append(line)
    return kept


class Statement:
    """What is reached by definition from given items."""

    def __init__(self, sources):
        self.sources, self.items, self.left, self.seen_views = sources, {}, [], set()

    def add(self, item, names, by_name, crate):
        key = (item.kind, item.file, item.line)
        if key not in self.items:
            self.items[key] = item
            self.left.append((item, names, by_name, crate))

    def add_spec(self, crate, module, name):
        if module.startswith("specs.declared."):
            self.add_declared(crate, module, name)
            return
        path = self.sources.spec_file(crate, module)
        if not path.is_file() and "." in module.removeprefix("specs."):
            module, name = module.rsplit(".", 1)  # a data type's constructors stand in a module of its name
            path = self.sources.spec_file(crate, module)
        if not path.is_file():
            return
        names, by_name = self.sources.spec(path)
        if name in by_name:
            self.add(by_name[name], names, by_name, crate)
        elif name in names:
            self.add_spec(*names[name])  # it is handed on from there

    def add_declared(self, crate, module, name):
        """A type that the sources declare: its constructors stand in modules of its name."""
        parts = [part for part in module.removeprefix("specs.declared.").split(".") if part not in ("TheVariants", "TheConstants")]
        for wanted in {name, *parts[-1:]}:
            self.add_source(crate, wanted, ("type", "trait"))

    def add_source(self, crate, name, kinds):
        for item, names in self.sources.crate_items(crate).get(name, []):
            if item.kind in kinds:
                self.add(item, names, {}, crate)

    def add_view(self, crate, name):
        """A struct as callers see it: its view, and those of what it is made of."""
        if (crate, name) in self.seen_views:
            return
        self.seen_views.add((crate, name))
        items = self.sources.crate_items(crate)
        self.add_source(crate, name, ("view",))
        for item, _ in items.get(name, []):
            if item.kind == "type":
                brought = crates_of_names(item.file)
                for word in item.uses:
                    self.add_view(brought.get(word, crate), word)

    def add_contract(self, path, function):
        """The contract of a public function: its clauses, and the traits and structs of its signature."""
        lines = path.read_text(encoding="utf8").splitlines()
        crate = path.relative_to(self.sources.top).parts[1]
        head = contract_of(lines, function)
        names, brought = imports(lines), crates_of_names(path)
        self.add(Item("contract", path, 0, function, counted(head), frozenset(words_in(head))), names, {}, crate)
        for word in words_in(head):
            if word in brought:
                self.add_source(brought[word], word, ("trait", "type"))
                self.add_view(brought[word], word)

    def follow(self):
        while self.left:
            item, names, by_name, crate = self.left.pop()
            for word in item.uses:
                if word in names:
                    there, module, name = names[word]
                    if name is None:
                        for inner in item.uses:
                            self.add_spec(there, module, inner)
                        self.add_spec(there, module, module.split(".")[-1])
                    else:
                        self.add_spec(there, module, name)
                elif word in by_name:
                    self.add(by_name[word], names, by_name, crate)
                elif item.kind in ("type", "view", "trait") and word in self.sources.crate_items(crate):
                    self.add_source(crate, word, ("type",))
        return self.items
