#!/usr/bin/env -S python3 -B
"""Prints the reference that no page repeats, from the sources: docs/print.py WHAT [CRATE ..].

definitions  each file of specs/ with its subject, and the words that it defines with their comments
clauses      each public call with its comment, what it requires and what it ensures
believed     the definitions that the headline and the exports hang on: each file's lines and words,
             the lowest crate's first; then the types of the code, and the kit's words
sql          each SQL text over a desk's tables, with its constant and the clause of the table's law
tests        what each file of checks/ shows, each crate's tests, and its wrong bodies, the
             gate's first

CRATE: of these crates alone. It reads sources and proves nothing.
"""
from __future__ import annotations

import ast
import glob
import os
import re
import sys
from typing import Dict, Iterator, List, Sequence, Tuple

ROOT = os.path.dirname(os.path.dirname(os.path.realpath(__file__)))
sys.path.insert(0, ROOT)
from checks.clauses.clauses import Clause, calls_in, calls_of, crates, public_names  # noqa: E402
from docs.believed import believed  # noqa: E402


def read(path: str) -> str:
    with open(path, encoding="utf-8") as file:
        return file.read()


def comment_above(lines: Sequence[str], at: int, mark: str) -> str:
    """The comment that ends above a line, attributes skipped, as one line."""
    found: List[str] = []
    while at > 0 and lines[at - 1].lstrip().startswith((mark, "#[")):
        at -= 1
        if lines[at].lstrip().startswith(mark):
            found.insert(0, lines[at].lstrip()[len(mark) :].strip())
    return " ".join(found).split("  ")[0]


# ---- definitions


def subject_of(lines: Sequence[str]) -> str:
    """The head of a file of specs/."""
    end = next((at for at, line in enumerate(lines) if not line.startswith("--")), len(lines))
    return comment_above(lines, end, "--")


def items_of(lines: Sequence[str]) -> Iterator[Tuple[int, str]]:
    """The first line of each item of a file, with its number: those of a `module _` are indented by
    two."""
    margin = ""
    for at, line in enumerate(lines):
        if re.match(r"(?!--)\S", line):
            margin = "  " if line.startswith("module _") else ""
        if re.match(rf"{margin}\S", line):
            yield at, line.removeprefix(margin)


# A public word that an item of specs/ defines.
WORD = re.compile(r"(?:abbrev |unfoldable )?pub (?:record |data )?(?!mod\b)([^\s:]+)")


def definitions_of(path: str) -> Tuple[str, List[Tuple[str, str]]]:
    """The subject of a file, and each public word that it defines with its comment."""
    lines = read(path).split("\n")
    words = [
        (word.group(1), comment_above(lines, at, "--"))
        for at, line in items_of(lines)
        for word in [WORD.match(line)]
        if word
    ]
    return subject_of(lines), words


def specs_of(crate: str) -> Iterator[str]:
    for path in sorted(glob.glob(f"{ROOT}/crates/{crate}/specs/**/*.antt", recursive=True)):
        if re.search(r"^(?!pub mod\b)\S", read(path), re.M):
            yield path


def print_definitions(chosen: Sequence[str]) -> None:
    for crate in chosen:
        for path in specs_of(crate):
            subject, words = definitions_of(path)
            print(f"{os.path.relpath(path, ROOT)}: {subject}")
            for word, comment in words:
                print(f"    {word}  {comment}")
            print()


# ---- clauses


def statement_of(text: str, clause: Clause) -> str:
    """A clause as its source has it, on one line."""
    kind, name, tokens = clause
    stated = text[tokens[0].at : tokens[-1].at + len(tokens[-1])] if tokens else ""
    return " ".join([kind, *([name] if name else []), "{", *stated.split(), "}"])


def documented(crate: str) -> Iterator[Tuple[str, str, List[str]]]:
    """Each public call of a crate that has clauses: its name, its comment (a trait's call has that
    of its trait), its clauses."""
    names = public_names(crate, ROOT)
    found = []
    comments: Dict[str, str] = {}
    for path in sorted(glob.glob(f"{ROOT}/crates/{crate}/src/**/*.rt", recursive=True)):
        text = read(path)
        lines = text.split("\n")
        for call, name, clauses in calls_in(path, names):
            above = comment_above(lines, text.count("\n", 0, name.at), "///")
            comments[name] = above or comments.get(name, "")
            if clauses:
                stated = [statement_of(text, clause) for clause in clauses]
                found.append((call, name, above, stated))
    for call, name, above, texts_of in found:
        yield call, above or comments[name], texts_of


def print_clauses(chosen: Sequence[str]) -> None:
    for crate in chosen:
        for call, comment, clauses in documented(crate):
            print(f"{crate}::{call}  {comment}")
            for clause in clauses:
                print(f"    {clause}")
            print()


# ---- SQL

SCHEMA = f"{ROOT}/crates/store_schema/src"


def texts() -> Dict[str, Tuple[str, str]]:
    """Each constant that is an SQL text: the text and the constant's comment."""
    found = {}
    for path in sorted(glob.glob(f"{SCHEMA}/*.rt")):
        source = read(path)
        lines = source.split("\n")
        for text in re.finditer(r'pub const ([A-Z_]+): &str =\s*"([A-Z]+ [^"]*)";', source):
            at = source.count("\n", 0, text.start())
            found[text.group(1)] = text.group(2), comment_above(lines, at, "///")
    return found


def laws() -> Iterator[Tuple[str, str, List[Tuple[str, List[str]]]]]:
    """The law of each table: the table, the law's comment, and the constants that each clause is
    about."""
    path = f"{SCHEMA}/laws.rt"
    lines = read(path).split("\n")
    for call, name, clauses in calls_in(path, public_names("store_schema", ROOT)):
        if call.endswith("_statements"):
            above = comment_above(lines, read(path).count("\n", 0, name.at), "///")
            about = [
                (clause, [str(token) for token in tokens if re.fullmatch("[A-Z_]{4,}", token)])
                for _, clause, tokens in clauses
            ]
            yield call[: -len("_statements")], above, about


def sql() -> Iterator[List[str]]:
    """The lines of each table: its law's comment, the text that makes it, each other text below its
    constant."""
    made = dict(re.findall(r'"CREATE TABLE ([a-z_]+) ([^"]*)"', read(f"{SCHEMA}/creating.rt")))
    known = texts()
    for table, comment, clauses in laws():
        law = f"-- {table}: {comment} Law: {table}_statements."
        lines = [law, f"CREATE TABLE {table} {made.pop(table)}"]
        for clause, constants in clauses:
            for constant in constants:
                text, about = known.get(constant, ("", ""))
                named = f", clause {clause}" if clause else ""
                lines += [f"-- {constant}{named}: {about}", text]
        yield lines
    for table in made:
        yield [f"-- {table}: no law", ""]


def print_sql() -> None:
    for lines in sql():
        print("\n".join(lines), end="\n\n")


# ---- tests


def head_of(path: str) -> str:
    """What the head of a script or of a module says."""
    if path.endswith(".py"):
        return (ast.get_docstring(ast.parse(read(path))) or "").replace("\n", "\n    ")
    lines = read(path).split("\n")[1:]
    end = next(at for at, line in enumerate(lines) if not line.startswith("#"))
    return "\n    ".join(line[2:] for line in lines[:end])


def wrong_bodies_of(crate: str) -> List[str]:
    rooms = (f"crates/{crate}/must-fail", f"checks/wrong_bodies/{crate}")
    return [
        os.path.basename(path)[: -len(".edit")]
        for room in rooms
        for path in sorted(glob.glob(f"{ROOT}/{room}/*.edit"))
    ]


def print_tests(chosen: Sequence[str]) -> None:
    if chosen == crates(ROOT):
        tests = glob.glob(f"{ROOT}/checks/**/test_*.py", recursive=True)
        for path in sorted([*glob.glob(f"{ROOT}/checks/*.sh"), *tests]):
            print(f"{os.path.relpath(path, ROOT)}\n    {head_of(path)}\n")
    for crate in chosen:
        paths = sorted(glob.glob(f"{ROOT}/crates/{crate}/src/**/*.rt", recursive=True))
        sources = "".join(map(read, paths))
        tests = re.findall(r"#\[test\]\n(?:\s*#\[.*\n)*\s*(?:pub )?fn (\w+)", sources)
        print("\n    ".join([f"crates/{crate}", *tests, *wrong_bodies_of(crate)]), end="\n\n")


def lacking() -> List[str]:
    """What a page of these would lack: comments, texts and laws. For checks/documents."""
    found = []
    for crate in crates(ROOT):
        for path in specs_of(crate):
            subject, words = definitions_of(path)
            where = os.path.relpath(path, ROOT)
            found += [f"{where}: no comment says what it is about"] * (not subject)
            found += [f"{where}: {word} has no comment" for word, comment in words if not comment]
        found += [
            f"crates/{crate}: {call} has no comment"
            for call, comment, _ in documented(crate)
            if not comment
        ]
        clauses = sum(len(all_of) for _, _, all_of in documented(crate))
        if clauses != sum(map(len, calls_of(crate, ROOT).values())):
            found.append(f"crates/{crate}: not every clause is printed")
    printed = "\n".join(line for lines in sql() for line in lines)
    for name, (_, comment) in texts().items():
        found += [f"store_schema: {name} has no comment"] * (not comment)
        found += [f"store_schema: no law is about {name}"] * (f"\n-- {name}" not in printed)
    lawless = [line[3:] for line in printed.split("\n") if line.endswith(": no law")]
    return found + [f"store_schema: {table}" for table in lawless]


def main(words: Sequence[str]) -> None:
    unknown = [crate for crate in words[1:] if crate not in crates(ROOT)]
    kinds = ("definitions", "believed", "clauses", "sql", "tests")
    if not words or unknown or words[0] not in kinds:
        sys.exit(__doc__ if not unknown else f"docs/print.py: no crate {unknown[0]}")
    chosen = words[1:] or crates(ROOT)
    if words[0] == "definitions":
        print_definitions(chosen)
    elif words[0] == "believed":
        print("\n".join(believed(ROOT)))
    elif words[0] == "clauses":
        print_clauses(chosen)
    elif words[0] == "tests":
        print_tests(chosen)
    else:
        print_sql()


if __name__ == "__main__":
    try:
        main(sys.argv[1:])
    except BrokenPipeError:
        sys.stderr.close()
