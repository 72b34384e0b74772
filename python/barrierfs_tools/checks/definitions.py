"""The definitions of the crates: where each stands, and what it rests on."""

import pathlib
import re
from collections.abc import Iterable, Iterator

from barrierfs_tools import paths
from barrierfs_tools.failed import Failed

Place = tuple[str, str]  # a crate, and a file of its definitions
Name = tuple[str | None, str]  # a path, or none for the file itself, and a name that may be in it
# What the promises of the program are stated in: of a report, of what is printed, and of a medium.
ROOTS = [
    ("session_core", "Headline", "HeadlineOn"),
    ("session_core", "Headline", "Headline"),
    ("barrierfs_top", "Promise", "TellsReplay"),
    ("barrierfs_top", "Promise", "TellsThreads"),
    ("barrierfs_top", "KeptPuts", "TellsStore"),
    ("order_model", "OrderClosed", "IsOrderClosed"),
    ("exact_order", "Left", "IsPlain"),
    ("exact_order", "Left", "IsLeft"),
]
WORD = re.compile(r"[^\s(){}\[\];,]+")
HEAD = re.compile(r"^(?:pub )?(abbrev |unfoldable |record |data )?(?:pub )?([^\s(){}:]+)(?=[\s({:]|$)")
PLAIN = re.compile(r"^(?:pub )?([^\s(){}:]+)(?: \{[^}]*\})* :(?: |$)")
USE = re.compile(r"^(?:unfoldable )?(pub )?use ([\w.]+?)(?:\.\{(.*)\})?(?: as (\w+))?$")
LOCAL = re.compile(r"^[a-z]\w*$")


class Definition:
    """A definition: its file, name, line and kind, the headers of the modules around it, and its text."""

    def __init__(self, module: Place, name: str, line: int, kind: str, header: str) -> None:
        self.module, self.name, self.line, self.kind, self.header = module, name, line, kind, header
        self.text: list[str] = []

    def key(self) -> str:
        """The name with its crate and file."""
        return "/".join([*self.module, self.name])


class Module:
    """A file of definitions: what it defines, and what its `use` lines bring in."""

    def __init__(self, module: Place, path: pathlib.Path) -> None:
        self.module, self.path = module, path
        self.defined: dict[str, Definition] = {}
        self.made_by: dict[str, Definition] = {}
        self.brought: dict[str, tuple[str, str]] = {}
        self.others: dict[str, str] = {}
        self.passed: set[str] = set()
        self.read(path.read_text().split("\n"))

    def read(self, lines: list[str]) -> None:
        """Reads the definitions and the `use` lines."""
        now: Definition | None = None
        headers: list[str] = []
        for number, line in enumerate(lines, 1):
            bare = line.split(" -- ")[0].rstrip() if not line.lstrip().startswith("--") else ""
            if not bare:
                continue
            depth = len(bare) - len(bare.lstrip())
            if bare[depth] not in "}])" and depth < 2 * len(headers):
                del headers[depth // 2 :]
            used = USE.match(bare)
            begun = self.begins(bare.lstrip(), now) if depth == 2 * len(headers) else None
            if used:
                self.bring(*used.groups())
                now = None
            elif bare.startswith(("pub mod ", "mod ")):
                now = None
            elif bare.lstrip().startswith("module "):
                headers.append(bare.strip())
                now = None
            elif begun:
                kind, name = begun
                now = self.defined[name] = Definition(self.module, name, number, kind, " ".join(headers))
                now.text.append(bare)
            elif now:
                self.goes_on(now, bare)

    def goes_on(self, now: Definition, bare: str) -> None:
        """Takes a line of a definition."""
        case = re.match(r"^\s+(?:pub )?(\S+) :", bare)
        if now.kind == "data" and case:
            self.made_by[case[1]] = now
        now.text.append(bare)

    @staticmethod
    def begins(bare: str, now: Definition | None) -> tuple[str, str] | None:
        """The kind and name of the definition that begins in this line, if one does."""
        head = HEAD.match(bare)
        if bare.startswith("unfolding") or not head:
            return None
        if head[1] or bare.startswith("pub "):
            return (head[1] or "").strip(), head[2]
        plain = PLAIN.match(bare)
        return ("", plain[1]) if plain and not (now and plain[1] == now.name) else None

    def bring(self, public: str | None, path: str, names: str | None, alias: str | None) -> None:
        """Takes a `use` line."""
        if names is None:
            self.others[alias or path.split(".")[-1]] = path
            return
        for name in filter(None, (part.strip() for part in names.split(","))):
            old, _, new = name.partition(" as ")
            self.brought[new or old] = (path, old)
            if public:
                self.passed.add(new or old)


class Sources:
    """The files of definitions, and what was reached in them."""

    def __init__(self) -> None:
        self.modules: dict[Place, Module] = {}
        self.outside: set[tuple[str, str, str]] = set()
        self.types: dict[tuple[str, pathlib.Path, str], int] = {}
        self.reached: dict[str, Definition] = {}
        self.laws: dict[str, Definition] = {}

    def module(self, path: str) -> Module | None:
        """The file of a path such as Rattle.order_model.specs.OrderClosed, if it is one of this repository."""
        words = path.split(".")
        if len(words) < 4 or words[2] != "specs":
            return None
        file = paths.root().joinpath("crates", words[1], *words[2:]).with_suffix(".antt")
        if not file.exists():
            # The cases of a type stand in a place of the type's name: Rattle.byte_fields.specs.Fields.Order.
            return self.module(".".join(words[:-1])) if len(words) > 4 else None
        key = (words[1], "/".join(words[3:]))
        if key not in self.modules:
            self.modules[key] = Module(key, file)
        return self.modules[key]

    def find(self, path: str, name: str) -> Definition | None:
        """The definition that this name of this path means, or a type of the code, or None for what is the kit's."""
        words = path.split(".")
        if len(words) > 3 and words[3] == "declared":
            self.declared(words, name)
            return None
        module = self.module(path)
        if not module:
            self.outside.add((words[1], words[2], name))
            return None
        if name in module.defined:
            return module.defined[name]
        if name in module.made_by:
            return module.made_by[name]
        if name in module.brought:
            return self.find(*module.brought[name])
        raise Failed(f"{path} has no {name}")

    def declared(self, words: list[str], name: str) -> None:
        """A type or constant of the code: the crate's source file that declares it."""
        crate, rest = words[1], words[4:]
        if not (paths.root() / "crates" / crate).exists():
            self.outside.add((crate, "types", name))
            return
        # Rattle.CRATE.specs.declared.FILE.Type{.TheVariants, .TheInside} or .TheConstants
        types = [word for word in rest if word[0].isupper() and not word.startswith("The")]
        places = [word for word in rest if word.islower()]
        wanted, stem = types[0] if types else name, places[-1] if places else rest[0]
        pattern = re.compile(r"^(?:pub )?(?:struct|enum|const|trait) %s\b" % re.escape(wanted))
        for file in sorted((paths.root() / "crates" / crate / "src").rglob("*.rt")):
            for number, line in enumerate(file.read_text().split("\n"), 1):
                if pattern.match(line) and (file.stem == stem or not stem.islower()):
                    self.types[crate, file, wanted] = number
                    return
        raise Failed(f"no type or constant {wanted} in crates/{crate}/src")

    def names_in(self, definition: Definition) -> Iterator[Name]:
        """The names of a definition that are not bound in it, each with the path that it may be in."""
        module = self.modules[definition.module]
        for clause, bound in clauses(definition, module):
            words = WORD.findall(clause)
            for at, word in enumerate(words):
                follows = words[at + 1] if at + 1 < len(words) else ""
                first, _, rest = word.partition(".")
                if word.startswith("."):
                    continue
                name = rest.split(".")[0]
                if name and first in module.others and first not in bound:
                    yield module.others[first], name
                elif follows in ("=", ":") and LOCAL.match(word):
                    continue
                elif first in bound:
                    continue
                elif first in module.defined or first in module.made_by:
                    yield None, first
                elif first in module.brought:
                    yield module.brought[first]
                elif "◌%s◌" % first in module.defined:
                    yield None, "◌%s◌" % first
                elif "◌%s◌" % first in module.brought:
                    yield module.brought["◌%s◌" % first]

    def follow(self, definition: Definition) -> None:
        """All definitions that this one rests on, itself among them, are in `reached` then."""
        waiting = [definition]
        while waiting:
            now = waiting.pop()
            if now.key() in self.reached:
                continue
            self.reached[now.key()] = now
            module = self.modules[now.module]
            for path, name in self.names_in(now):
                own = module.defined.get(name) or module.made_by.get(name)
                found = own if path is None else self.find(path, name)
                if found and found.kind:
                    waiting.append(found)
                elif found:
                    self.laws[found.key()] = found


def clauses(definition: Definition, module: Module) -> Iterator[tuple[str, set[str]]]:
    """The texts of a definition, each with the names that are bound in it: its signature and each of its equations."""
    parts: list[list[str]] = [[]]
    name = definition.name
    for line in definition.text:
        if re.match(r"^\s*%s(?=[\s]|$)" % re.escape(name), line) and parts[0]:
            parts.append([])
        parts[-1].append(line)
    for at, part in enumerate(parts):
        text = " ".join(part)
        bound = set(binders(definition.header)) | set(binders(text))
        if definition.kind in ("record", "data"):
            bound |= {m for line in part for m in re.findall(r"^\s+(?:pub )?(\S+) :", line)}
        if at and " = " in text:
            bound |= {
                w
                for w in WORD.findall(text.split(" = ", maxsplit=1)[0])
                if LOCAL.match(w) and w not in module.made_by and not is_case(module, w)
            }
        for pattern in re.findall(r"[\[|]([^\[|↦]*)↦", text):
            bound |= {
                w
                for w in WORD.findall(pattern)
                if LOCAL.match(w) and w not in module.made_by and not is_case(module, w)
            }
        yield (definition.header + " " + text), bound - {name}


def is_case(module: Module, word: str) -> bool:
    """Whether a word in a pattern is a case that another file brings in, as `suc` is."""
    return word in module.brought and word in ("zero", "suc", "true", "false")


def binders(text: str) -> Iterator[str]:
    """The names that λ, let and typed binders bind."""
    for group in re.findall(r"[({]((?:[^\s(){}:]+ )+):(?= )", text):
        yield from group.split()
    for group in re.findall(r"λ ((?:[^\s(){}.]+ ?)+)\.", text):
        yield from group.split()
    for name in re.findall(r"\blet (\S+) [:=]", text):
        yield name


def crate_order() -> list[str]:
    """The crates, the lowest first."""
    lines = (paths.root() / "crates.txt").read_text().splitlines()
    return [line.split(":")[0].split()[0] for line in lines if ":" in line and not line.startswith("#")]


def lines_of(definitions: Iterable[Definition]) -> int:
    """How many lines definitions have."""
    return sum(len(d.text) for d in definitions)


def count(definitions: Iterable[Definition]) -> str:
    """How many definitions and lines these are, in words."""
    listed = list(definitions)
    return f"{len(listed):,} definitions in {lines_of(listed):,} lines"


def root_of(sources: Sources, crate: str, file: str, name: str) -> Definition:
    """The definition of a crate's file that has this name."""
    found = sources.find(f"Rattle.{crate}.specs.{file}", name)
    assert found is not None
    return found


def walked() -> Sources:
    """All definitions that the roots rest on."""
    sources = Sources()
    for root in ROOTS:
        sources.follow(root_of(sources, *root))
    return sources


def place(definition: Definition) -> str:
    """The file of a definition."""
    crate, file = definition.module
    return f"crates/{crate}/specs/{file}.antt"


def rests(root: tuple[str, str, str]) -> str:
    """How much a definition rests on, in words."""
    sources = Sources()
    sources.follow(root_of(sources, *root))
    return count(sources.reached.values())
