#!/usr/bin/env -S python3 -B
"""checks/clauses/changed.py REVISION [OLD=NEW ..]: the public clauses of that revision beside those
of this checkout. It counts those that stand word for word, alone or as a field of a record that is
a clause, and prints those that have other words or have gone, and each `requires` that is new. A
call is found again by its name, in any crate; an OLD word of the revision, or call, is read as NEW.
A reader compares what is printed. Proves nothing; it needs git."""
from __future__ import annotations

import subprocess
import sys
import tempfile
from collections import defaultdict
from pathlib import Path
from typing import Dict, Iterator, List, Mapping, NamedTuple, Tuple

ROOT = Path(__file__).resolve().parents[2]
sys.path.insert(0, str(ROOT))
from checks.clauses.clauses import calls_of, crates, facts, records, tokens_of  # noqa: E402


class Stated(NamedTuple):
    """A clause of a public call outside crates of tests."""

    crate: str
    call: str
    kind: str
    name: str
    text: str

    @property
    def at(self) -> Tuple[str, str, str]:
        """Where one with the same subject is looked for: the call's own name, in any crate."""
        return self.call.split("::")[-1], self.kind, self.name

    def __str__(self) -> str:
        return f"{self.crate}::{self.call}"


def stated(root: Path, names: Mapping[str, str]) -> Iterator[Stated]:
    for crate in crates(root):
        if "test" not in crate:
            for call, clauses in calls_of(crate, root).items():
                for kind, name, tokens in clauses:
                    text = " ".join(names.get(one, one) for one in tokens)
                    called, named = names.get(call, call), names.get(name, name)
                    yield Stated(crate, called, kind, named, text)


def with_fields(clauses: List[Stated]) -> Dict[Tuple[str, str, str], List[Stated]]:
    """The clauses by where they are looked for, and those that are a record by its fields, too."""
    found, known = defaultdict(list), records(ROOT)
    for one in clauses:
        found[one.at].append(one)
        for field, tokens in facts(tokens_of(one.text), known):
            told = one._replace(name=field, text=" ".join(tokens))
            found[told.at].append(told)
    return found


def compare(old: List[Stated], new: List[Stated]) -> None:
    now = with_fields(new)
    kept, changed, gone = 0, [], []
    for one in old:
        alike = now.get(one.at, [])
        if any(other.text == one.text for other in alike):
            kept += 1
        elif one.kind == "ensures" and alike:
            near = [other for other in alike if other.call == one.call] or alike
            changed.append(f"  {one} {one.name}\n    - {one.text}\n    + {near[0]}: {near[0].text}")
        elif one.kind == "ensures":
            gone.append(f"  {one} {one.name}\n    - {one.text}")
    before = {(one.at[0], one.text) for one in old if one.kind == "requires"}
    added = [
        f"  {one}\n    + {one.text}" for one in new
        if one.kind == "requires" and (one.at[0], one.text) not in before
    ]
    print(f"{kept} clauses stand word for word")
    for lines, what in (
        (changed, "have other words"), (gone, "have no clause of their name at a call of theirs"),
        (added, "requires are new"),
    ):
        print(f"{len(lines)} {what}:", *lines, sep="\n")


def main(words: List[str]) -> None:
    if not words or any("=" not in word for word in words[1:]):
        sys.exit("usage: checks/clauses/changed.py REVISION [OLD=NEW ..]")
    renamed = dict(word.split("=", 1) for word in words[1:])
    with tempfile.TemporaryDirectory() as room:
        archive = ["git", "-C", str(ROOT), "archive", words[0], "crates"]
        packed = subprocess.run(archive, stdout=subprocess.PIPE, check=False)
        if packed.returncode:
            sys.exit(f"checks/clauses/changed.py: git has no revision {words[0]}")
        subprocess.run(["tar", "-x", "-C", room], input=packed.stdout, check=True)
        compare([*stated(Path(room), renamed)], [*stated(ROOT, {})])


if __name__ == "__main__":
    main(sys.argv[1:])
