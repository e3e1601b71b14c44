"""Reads the definitions of crates/*/specs and the contracts of crates/*/src, and finds which definitions a contract reaches.

Names are compared as texts, so a definition that has the name of a variable counts too: what is found is at most too much.
"""

import dataclasses
import pathlib
import re

WORD = re.compile(r"[^\s(){}\[\],;:]+")
USE = re.compile(r"^ *(?:pub |ghost )*use Rattle\.(\w+)\.specs\.([^{;\n]+?)(?:\.\{([^}]*)\})?(?: as (\w+))?;? *(?:--.*)?$", re.M)
HEAD = re.compile(r"^(?!pub mod |pub use )(?:(?:pub|abbrev|unfoldable|data|record) )+([^\s:(){}]+)|^([^\s:(){}]+) :")
FUNCTION = re.compile(r'^( *)(pub )?(?:pub\(\w+\) )?(?:const |unsafe |extern "C" )*fn (\w+)')


@dataclasses.dataclass(eq=False)
class Definition:
    """A definition with the comment above it."""
    crate: str
    module: str
    name: str
    lines: list

    def key(self):
        """Its crate, the name of its module without a folder, and its name."""
        return self.crate, self.module.split(".")[-1], self.name


@dataclasses.dataclass(eq=False)
class Module:
    """A file of specs/: its definitions by their names, and those that its constructors belong to."""
    crate: str
    name: str
    path: pathlib.Path
    text: str
    imports: dict
    definitions: dict = dataclasses.field(default_factory=dict)
    constructors: dict = dataclasses.field(default_factory=dict)

    def own(self, name):
        """Its definition with this name, or with this constructor."""
        return self.definitions.get(name) or self.constructors.get(name)

    def subject(self):
        """The module's name without its folder."""
        return self.name.split(".")[-1]

    def folder(self):
        """Where it stands: nothing for specs/ itself."""
        return self.name.rpartition(".")[0]


def imports_of(text):
    """Each name that a text imports from specs of a crate of the repository, with all paths that it may stand for."""
    found = {}
    for crate, path, names, alias in USE.findall(text):
        path = path.split(".")
        if alias:
            found.setdefault(alias, set()).add((crate, *path))
        for name in filter(None, map(str.strip, names.split(","))):
            original, _, renamed = name.partition(" as ")
            found.setdefault(renamed or original, set()).add((crate, *path, original))
    return found


def read_module(crate, path, specs):
    """Reads a file of definitions."""
    text = path.read_text()
    module = Module(crate, ".".join(path.relative_to(specs).with_suffix("").parts), path, text, imports_of(text))
    current, is_data, comment = None, False, []
    for line in text.split("\n"):
        head = HEAD.match(line)
        if line.startswith("--"):
            comment.append(line)
        elif not line or re.match(r"(pub )?use ", line):
            comment = []
        elif head:
            current = Definition(crate, module.name, head[1] or head[2], [*comment, line])
            module.definitions[current.name] = current
            is_data, comment = "data" in line.split(":")[0].split(), []
        elif current:
            current.lines.append(line)
            constructor = re.match(r" +(\S+) :", line)
            if constructor and is_data:
                module.constructors[constructor[1]] = current
    return module


class Tree:
    """All definitions and all contracts of a repository."""

    def __init__(self, root):
        self.modules = {}  # by their crate and name
        for specs in sorted(root.glob("crates/*/specs")):
            for path in sorted(specs.rglob("*.antt")):
                module = read_module(specs.parent.name, path, specs)
                if module.definitions:
                    self.modules[module.crate, module.name] = module
        self.contracts = {}  # by their function's path
        self.sources = {}  # the file of each contract, by the same
        self.public = []
        for source in sorted(root.glob("crates/*/src")):
            if any(crate == source.parent.name for crate, _ in self.modules):
                self.read_contracts(source)

    def read_contracts(self, source):
        """Reads the contracts of a crate's functions, and those of its public traits."""
        crate, is_exported = source.parent.name, exports_of(source)
        for path in sorted(source.rglob("*.rt")):
            lines = path.read_text().split("\n")
            module = path.relative_to(source).with_suffix("").parts[0]
            imports = imports_of("\n".join(lines))
            for number, owner, is_trait in items_of(lines):
                function = FUNCTION.match(lines[number])
                if not function:
                    if is_exported(module, owner):
                        self.public.append((imports, "\n".join(lines[number:lines.index("}", number)])))
                    continue
                contract = imports, contract_at(lines, number)
                names = [f"{crate}::{owner or module}::{function[3]}"]
                if not owner and module != "laws":
                    names.append(f"{crate}::{function[3]}")
                self.contracts.update((name, contract) for name in names)
                self.sources.update((name, path) for name in names)
                is_called = is_exported(module, owner or function[3]) and (function[2] or is_trait)
                if is_called or 'extern "C"' in lines[number]:
                    self.public.append(contract)

    def find(self, crate, *path):
        """The definition at a path, if it is one: a definition's name, or a constructor's, after its module's."""
        for size in range(1, len(path)):
            module = self.modules.get((crate, ".".join(path[:size])))
            if module:
                name = path[size]
                exported = [self.find(*target, *path[size + 1:]) for target in module.imports.get(name, ())]
                return module.own(name) or next(filter(None, exported), None)
        return None

    def named_in(self, text, imports, module=None):
        """The definitions that a text names."""
        found = set()
        for word in WORD.findall(re.sub(r"(?m)(?:^|(?<= ))(?:--|//).*", "", text)):
            first, *rest = word.split(".")
            if module:
                found.add(module.own(first))
            for path in imports.get(first, ()):
                found |= {self.find(*path), self.find(*path, *rest)}
        return found - {None}

    def code_at(self, path):
        """The outermost module and the name of the type or constant of code that a path of an import means, with its crate, if it is one."""
        crate, first, *rest = path
        if first == "declared":
            if "TheVariants" in rest:
                return crate, rest[0], rest[rest.index("TheVariants") - 1]
            return crate, rest[0], rest[-1]
        for size in range(1, len(path)):
            module = self.modules.get((crate, ".".join(path[1:1 + size])))
            if module and len(path) == size + 2:
                return next(filter(None, map(self.code_at, module.imports.get(path[-1], ()))), None)
        return None

    def code_named_in(self, definition):
        """The types and constants of code that a definition names, each with its crate and outermost module."""
        module, found = self.modules[definition.crate, definition.module], set()
        for word in WORD.findall(re.sub(r"(?m)(?:^|(?<= ))--.*", "", "\n".join(definition.lines))):
            first, *rest = word.split(".")
            for path in module.imports.get(first, ()):
                found |= {self.code_at(path), self.code_at((*path, *rest))}
        return found - {None}

    def reached_from(self, contracts, handed_on):
        """All definitions that contracts reach, but for those that are only handed on and what these alone reach."""
        reached, left = set(), set()
        for imports, text in contracts:
            left |= self.named_in(text, imports)
        while left:
            definition = left.pop()
            if definition.key() not in handed_on:
                reached.add(definition)
                module = self.modules[definition.crate, definition.module]
                left |= self.named_in("\n".join(definition.lines), module.imports, module) - reached
        return reached


def exports_of(source):
    """Returns whether other crates may name an item, by its outermost module and its name: a `pub mod` of the library has it, or a
    `pub use`. No crate is above a program: there all `pub` functions count, since the pages name them."""
    library = source / "lib.rt"
    root = library.read_text() if library.exists() else ""
    modules = set(re.findall(r"(?m)^pub mod (\w+);", root))
    names = set(re.findall(r"\w+", " ".join(re.findall(r"(?ms)^pub use ([^;]+);", root)))) | set(re.findall(r"(?m)^pub (?:const|enum|struct|trait) (\w+)", root))
    return lambda module, name: not library.exists() or module in modules or name in names


def items_of(lines):
    """Yields the line of each function of a source, and of each public trait, with the type or trait around it and whether that is a
    trait, or an impl of one."""
    owner, is_trait = "", False
    for number, line in enumerate(lines):
        if re.match(r"(pub )?(impl|trait)\b", line):
            header = plain(" ".join(lines[number:number + 12]).split("{")[0])
            owner, is_trait = header.split(":")[0].split()[-1], " for " in header or "trait " in header
        elif line == "}":
            owner, is_trait = "", False
        if FUNCTION.match(line) or line.startswith("pub trait"):
            yield number, owner, is_trait


def plain(header):
    """The header of an impl or a trait without its type arguments."""
    while "<" in header and header != (header := re.sub(r"<[^<>]*>", "", header)):
        pass
    return header.replace("->", "")


def clauses_of(text):
    """The names of a contract's clauses."""
    return set(re.findall(r"(?m)^ *(?:requires|ensures) (\w+) \{", text))


def contract_at(lines, number):
    """A function's header and clauses: up to the line with the brace that opens its body, or the semicolon of a declaration."""
    indent = FUNCTION.match(lines[number])[1]
    text = []
    for line in lines[number:]:
        if line in (indent + "{", indent + "{}"):
            break
        text.append(line)
        ends_header = line.endswith("{") and not re.match(r" *(requires|ensures)", line) and (len(text) == 1 or line.startswith(indent + ")"))
        if ends_header or line.endswith(";") and "\n".join(text).count("{") == "\n".join(text).count("}"):
            break
    return "\n".join(text)
