"""The definitions that a promise hangs on, by the sources: each word that the promise cites, the
words that those cite, and so on down to the kit's."""
from __future__ import annotations

import os
import re
from typing import Dict, Iterator, List, NamedTuple, Set, Tuple

# The headline's promise, and the bytes that it exports.
ROOTS = (
    ("store_desk.specs.Headline", "Recovers"),
    ("desk_exports.specs.Exports", "exported"),
)
# A line by which a file takes words of another, and one by which it takes all of them.
WORDS = re.compile(r"use Rattle\.([\w.]+)\.\{(.*)\}")
WHOLE = re.compile(r"use Rattle\.([\w.]+?)(?: as (\w+))?$")
# The first line of an item, with the word that it defines.
ITEM = re.compile(r"(?:abbrev |unfoldable )?(?:pub )?(?:record |data )?([^\s:]+)")
NAME = re.compile(r"[^\s(){}\[\],;λ→×⊎≡≢∥₁]+")


class File(NamedTuple):
    """A file of specs/: the words that it takes, the modules that it names, its own words, each
    with its lines that aren't comments."""

    taken: Dict[str, Tuple[str, str]]
    modules: Dict[str, str]
    words: Dict[str, List[str]]


def starts(lines: List[str]) -> Iterator[Tuple[int, str]]:
    """The first line of each item, with its number; within a `module _` it is indented by two."""
    margin = ""
    for at, line in enumerate(lines):
        if re.match(r"(?!--)\S", line):
            margin = "  " if line.startswith("module _") else ""
        if re.match(rf"{margin}[^\s-]", line):
            yield at, line.removeprefix(margin)


def read(path: str) -> File:
    with open(path, encoding="utf-8") as file:
        lines = file.read().split("\n")
    found = File({}, {}, {})
    items = [*starts(lines), (len(lines), "")]
    for (at, line), (end, _) in zip(items, items[1:]):
        words, whole = WORDS.match(line), WHOLE.match(line)
        if words:
            for word in words[2].split(","):
                name, _, other = word.strip().partition(" as ")
                found.taken[other.strip() or name] = words[1], name
        elif whole:
            found.modules[whole[2] or whole[1].split(".")[-1]] = whole[1]
        elif not line.startswith(("pub mod", "module")):
            name = ITEM.match(line)
            body = [row for row in lines[at:end] if row.strip() and "--" != row.strip()[:2]]
            found.words.setdefault(name[1] if name else "", []).extend(body)
    return found


class Closure:
    """The words below some roots: those of crates/*/specs, the types of the code, the kit's."""

    def __init__(self, root: str) -> None:
        self.root = root
        self.files: Dict[str, File] = {}
        self.own: Dict[str, Set[str]] = {}
        self.types: Dict[str, Set[str]] = {}
        self.kit: Dict[str, Set[str]] = {}

    def add(self, module: str, word: str) -> None:
        crate, _, rest = module.partition(".specs.")
        path = f"crates/{crate}/specs/{rest.replace('.', '/')}.antt"
        if not os.path.isdir(f"{self.root}/crates/{crate}"):
            self.kit.setdefault(module, set()).add(word)
        elif rest.startswith("declared."):
            self.types.setdefault(crate, set()).add(rest.split(".")[2])
        elif word not in self.own.setdefault(path, set()):
            self.own[path].add(word)
            if path not in self.files:
                self.files[path] = read(f"{self.root}/{path}")
            self.follow(path, word)

    def follow(self, path: str, word: str) -> None:
        file = self.files[path]
        module = path[len("crates/") : -len(".antt")].replace("/", ".")
        for name in {name for row in file.words.get(word, ()) for name in NAME.findall(row)}:
            first, _, rest = name.partition(".")
            if first in file.modules and rest:
                self.add(file.modules[first], rest.split(".")[0])
            elif first in file.taken:
                self.add(*file.taken[first])
            elif first in file.words and first != word:
                self.add(module, first)

    def lines_of(self, path: str) -> int:
        return sum(len(self.files[path].words.get(word, ())) for word in self.own[path])


def in_layers(root: str) -> List[str]:
    """The crates as crates.txt lists them, lowest first."""
    with open(f"{root}/crates.txt", encoding="utf-8") as file:
        return re.findall(r"(?m)^(\w+)[^:\n]*:", file.read())


def closure_of(root: str) -> Tuple[Closure, List[str]]:
    """What lies below the roots, and the files of specs/ with it, the lowest crate's first."""
    closure, order = Closure(root), in_layers(root)
    for module, word in ROOTS:
        closure.add(module, word)
    # (a variant that a `data` has isn't an item of its own)
    paths = [path for path in closure.own if closure.lines_of(path)]
    return closure, sorted(paths, key=lambda path: (order.index(path.split("/")[1]), path))


def believed(root: str) -> Iterator[str]:
    """Each file with its lines and its words; then the types of the code, and the kit's words."""
    closure, paths = closure_of(root)
    for path in paths:
        words = sorted(closure.own[path] & set(closure.files[path].words))
        yield f"{closure.lines_of(path):5} {path}: {', '.join(words)}"
    total = sum(map(closure.lines_of, paths))
    yield f"{total:5} lines without comments, of {len(paths)} files"
    for crate in sorted(closure.types, key=in_layers(root).index):
        yield f"types of crates/{crate}/src: {', '.join(sorted(closure.types[crate]))}"
    for module in sorted(closure.kit):
        yield f"the kit's {module}: {', '.join(sorted(closure.kit[module]))}"


def by_crate(root: str) -> List[Tuple[str, str, int]]:
    """Each crate with its files, each with its lines, and their sum; last the sum of all."""
    closure, paths = closure_of(root)
    rows: Dict[str, List[Tuple[str, int]]] = {}
    for path in paths:
        name = path.split("/specs/")[1][: -len(".antt")]
        rows.setdefault(path.split("/")[1], []).append((name, closure.lines_of(path)))
    found = [
        (crate, ", ".join(f"{name} {lines}" for name, lines in files), sum(n for _, n in files))
        for crate, files in rows.items()
    ]
    return [*found, ("all", f"{len(paths)} files", sum(lines for _, _, lines in found))]
