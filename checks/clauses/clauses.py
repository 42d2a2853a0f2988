"""The public calls of a crate of Rattle and their clauses, read from its sources."""
from __future__ import annotations

import re
from pathlib import Path
from typing import Dict, Iterator, List, NamedTuple, Set, Tuple

QUOTED = r'r(#+)".*?"\1|"(?:[^"\\]|\\.)*"|\'(?:[^\'\\\n]|\\.[^\'\n]*)\'(?![a-z_A-Z])'


class Token(str):
    """A token with its place in the source: the offset of its first character."""

    at = 0


Tokens = List[Token]


class Clause(NamedTuple):
    """An `ensures` or a `requires`: its kind, its name or none, and what it says."""

    kind: str
    name: str
    tokens: Tokens


class Function(NamedTuple):
    """A function: the type that has it or none, its name, whether others may call it, its clauses,
    and its body with the braces, or none."""

    owner: str
    name: Token
    public: bool
    clauses: List[Clause]
    body: Tokens


def crates(root: str | Path = ".") -> List[str]:
    """The crates that have a library."""
    return sorted(path.parts[-3] for path in Path(root, "crates").glob("*/src/lib.rt"))


def text_of(path: str | Path) -> str:
    return Path(path).read_text(encoding="utf-8")


# ---- tokens


def plain(text: str) -> str:
    """The text, as long as it is, without comments, and with spaces alone in its quotes."""

    def blank(found: re.Match[str]) -> str:
        length = len(found[0])
        return " " * length if found[0].startswith("//") else '"' + " " * (length - 2) + '"'

    return re.sub(r"//[^\n]*|" + QUOTED, blank, text, flags=re.S)


def tokens_of(text: str) -> Tokens:
    tokens = []
    for found in re.finditer(r"[A-Za-z_][A-Za-z_0-9]*|::|->|\S", text):
        token = Token(found[0])
        token.at = found.start()
        tokens.append(token)
    return tokens


def end_of(tokens: Tokens, at: int) -> int:
    """The index after the bracket that matches the one at `at`."""
    depth = 0
    while True:
        depth += (tokens[at] in "{[(") - (tokens[at] in "}])")
        at += 1
        if depth == 0:
            return at


# ---- functions


def owner_of(head: Tokens) -> str:
    """The name of the type that an `impl` is for: the last name outside angle brackets, after `for`
    if it has one."""
    depth, name = 0, ""
    for token in head:
        depth += (token == "<") - (token == ">")
        if depth == 0 and token == "where":
            break
        if depth == 0 and re.match("[A-Za-z]", token) and token != "for":
            name = token
    return name


def clauses_at(tokens: Tokens, at: int) -> Tuple[List[Clause], Tokens, int]:
    """The clauses of a function from behind its name on, its body, and the index after that."""
    clauses = []
    while True:
        token = tokens[at]
        if token in ("ensures", "requires"):
            begun = at + 1 + (tokens[at + 1] != "{")
            name = tokens[at + 1] if begun > at + 1 else ""
            at = end_of(tokens, begun)
            clauses.append(Clause(token, name, tokens[begun + 1 : at - 1]))
        elif token in ("decreases", "variant"):
            at = end_of(tokens, tokens.index(Token("{"), at))
        elif token in "([":
            at = end_of(tokens, at)
        elif token == "{":
            end = end_of(tokens, at)
            return clauses, tokens[at:end], end
        elif token == ";":
            return clauses, [], at + 1
        else:
            at += 1


def head_at(tokens: Tokens, at: int) -> Tuple[Tokens, int]:
    """What stands before the body of an `impl`, a `trait` or a `mod`, and the index of its end."""
    head: Tokens = []
    while tokens[at] not in "{;":
        after = end_of(tokens, at) if tokens[at] in "([" else at + 1
        head += tokens[at:after]
        at = after
    return head, at


def functions(tokens: Tokens, at: int, end: int, owner: str, of_trait: bool) -> Iterator[Function]:
    """Each function between the two indices."""
    public = False
    while at < end:
        token = tokens[at]
        if token == "pub" and tokens[at + 1] == "(":
            at = end_of(tokens, at + 1)
        elif token == "pub":
            public, at = True, at + 1
        elif token == "#":
            at = end_of(tokens, at + 1 + (tokens[at + 1] == "!"))
        elif token == "fn":
            name = tokens[at + 1]
            clauses, block, at = clauses_at(tokens, at + 2)
            yield Function(owner, name, public or of_trait, clauses, block)
            public = False
        elif token in ("impl", "trait", "mod"):
            head, body = head_at(tokens, at + 1)
            at = end_of(tokens, body) if tokens[body] == "{" else body + 1
            if token == "trait" and public:
                yield from functions(tokens, body + 1, at - 1, head[0], True)
            if token == "impl":
                yield from functions(tokens, body + 1, at - 1, owner_of(head), "for" in head)
            public = False
        elif token == "{":
            at, public = end_of(tokens, at), False
        else:
            public = public and token != ";"
            at += 1


def functions_of(crate: str, root: str | Path = ".") -> Iterator[Function]:
    """Each function of a crate, public or not."""
    for path in sorted(Path(root, "crates", crate, "src").rglob("*.rt")):
        tokens = tokens_of(plain(text_of(path)))
        yield from functions(tokens, 0, len(tokens), "", False)


# ---- calls


def public_names(crate: str, root: str | Path = ".") -> Set[str]:
    """The names of what a crate's root offers."""
    names: Set[str] = set()
    library = plain(text_of(f"{root}/crates/{crate}/src/lib.rt"))
    for path in re.findall(r"pub use ([^;]*);", library):
        inner = re.search(r"\{(.*)\}", path, re.S)
        offered = (inner[1] if inner else path).split(",")
        names |= {name.strip().split("::")[-1].split(" as ")[-1].strip() for name in offered}
    return names


def calls_in(path: str | Path, names: Set[str]) -> Iterator[Tuple[str, Token, List[Clause]]]:
    """Each public call of a file whose own name or whose type's is offered: the call, the token of
    its name, its clauses."""
    tokens = tokens_of(plain(text_of(path)))
    for owner, name, public, clauses, _ in functions(tokens, 0, len(tokens), "", False):
        if public and (owner or name) in names:
            yield f"{owner}::{name}" if owner else str(name), name, clauses


def calls_of(crate: str, root: str | Path = ".") -> Dict[str, List[Clause]]:
    """The public calls of a crate, each with its clauses."""
    names = public_names(crate, root)
    calls: Dict[str, List[Clause]] = {}
    for path in sorted(Path(root, "crates", crate, "src").rglob("*.rt")):
        for call, _, clauses in calls_in(path, names):
            calls.setdefault(call, []).extend(clauses)
    return calls


# ---- records that are clauses

# The parameters, and the fields with their tokens.
Record = Tuple[List[str], List[Tuple[str, List[str]]]]


def records(root: str | Path = ".") -> Dict[str, Record]:
    """Each record of the specs; refusals are named as in sources."""
    found: Dict[str, Record] = {}
    for path in sorted(Path(root, "crates").glob("*/specs/**/*.antt")):
        text = re.sub(r"--[^\n]*", "", text_of(path))
        kinds = re.findall(r"\.(\w+)\.TheVariants as (\w+)", text)
        aliases = {short: kind for kind, short in kinds}
        form = r"^pub record (\w+)(.*) where\n((?:(?:  .*)?\n)*)"
        for name, head, body in re.findall(form, text, re.M):
            given = re.findall(r"\(([^():]*) :", re.sub(r"\{[^}]*\}", "", head))
            parameters = [one for names in given for one in names.split()]
            parts = re.split(r"^  pub (\w+) :", body, flags=re.M)[1:]
            fields = [
                (field, [aliases.get(one, one) for one in tokens_of(of)])
                for field, of in zip(parts[::2], parts[1::2])
            ]
            found[name] = parameters, fields
    return found


def arguments(tokens: Tokens) -> List[Tokens]:
    """The arguments behind a record's name."""
    found, at = [], 1
    while at < len(tokens):
        after = end_of(tokens, at) if tokens[at] in "({[" else at + 1
        while after + 1 < len(tokens) and tokens[after] == ".":
            after += 2
        found.append(tokens[at:after])
        at = after
    return found


def facts(tokens: Tokens, known: Dict[str, Record]) -> Iterator[Tuple[str, List[str]]]:
    """If a clause is a record, its fields with the clause's words in place of the parameters: their
    names and tokens."""
    if tokens[1:2] == ["."]:
        tokens = tokens[2:]
    if not tokens or tokens[0] not in known:
        return
    parameters, fields = known[tokens[0]]
    words = arguments(tokens)
    if len(words) == len(parameters):
        put = dict(zip(parameters, words))
        for name, of in fields:
            said: List[str] = []
            for before, token in zip(("", *of), of):
                said.extend(put[token] if token in put and before != "." else (token,))
            yield name, said
