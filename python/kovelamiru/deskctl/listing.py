"""Lists of requests and of proposals: which of them are taken, in which order, and how many."""
from __future__ import annotations

import itertools
from dataclasses import dataclass
from typing import Any, Callable, Iterable, Iterator, Optional, Sequence

from ..answers import me_of
from ..words import desk_json, printable
from .arguments import Word, number_word, word
from .run import Run

Row = Sequence[object]
Values = Iterator[dict[str, Any]]


@dataclass(frozen=True)
class List:
    """A list of the desk: its path, the name under which it says whose each is, what a search
    takes, in words too, the states, and the orders beside that of the numbers, which is their
    age."""

    path: str
    whose: str
    matches: Callable[[dict[str, Any], str], bool]
    searched: str
    states: Sequence[str]
    orders: Sequence[str] = ()


def list_words(of: List, mine: str) -> tuple[Word, ...]:
    """The words of a command that lists."""
    orders = ("number", "newest", *of.orders)
    return (word("--state", metavar="S", choices=tuple(of.states),
                 help="those of this state: " + ", ".join(of.states)),
            word("--mine", action="store_true", help=mine),
            word("--search", metavar="TEXT", help=of.searched),
            word("--sort", metavar="BY", choices=orders, default="number",
                 help="the order: " + ", ".join(orders) + "; without, by number, oldest first"),
            word("--limit", metavar="COUNT", type=number_word, help="so many at most"),
            word("--from", dest="first", metavar="N", type=number_word, default=1,
                 help="from this number on"))


def own_name(run: Run) -> str:
    """The caller's name, or the one that is given."""
    return run.settings.name or me_of(run.desk).name


def taken(run: Run, of: List) -> Values:
    """Those that the words name. No part is asked for behind the last one that is shown."""
    words = run.words
    name = own_name(run) if words.mine else None
    without = own_name(run) if getattr(words, "not_mine", False) else None
    found: Values = (value for value in run.desk.listed(of.path, words.first)
                     if words.state in (None, value.get("state"))
                     and name in (None, value.get(of.whose))
                     and (without is None or value.get(of.whose) != without)
                     and (not words.search or of.matches(value, words.search)))
    if words.sort == "newest":
        found = reversed(list(found))
    elif words.sort != "number":
        found = iter(sorted(found, key=lambda value: str(value.get(words.sort)).casefold()))
    return itertools.islice(found, words.limit)


def none_words(run: Run, of: List) -> str:
    """That there is none of those that were asked for."""
    words = run.words
    named = " ".join(filter(None, [words.state, of.path[1:], "of yours" if words.mine else ""]))
    like = f" with {printable(words.search)!r}" if words.search else ""
    return f"No {named}{like}" + (f" from {words.first} on." if words.first > 1 else ".")


def print_all(run: Run, values: Iterable[dict[str, Any]]) -> None:
    """As the desk's own JSON, one after another."""
    begin = "["
    for value in values:
        run.terminal.say(begin + desk_json(value), end="")
        begin = ","
    run.terminal.say("]" if begin == "," else "[]")


def show(run: Run, of: List, heads: Sequence[str], stretch: int,
         row: Callable[[dict[str, Any]], Row], spare: Optional[int] = None,
         grouped: Callable[[list[Row]], list[Row]] = list) -> None:
    """A table of those that the words name, on a terminal in groups, or their JSON."""
    if run.words.json:
        print_all(run, taken(run, of))
        return
    rows = [row(value) for value in taken(run, of)]
    run.terminal.table(heads, grouped(rows) if run.terminal.wide else rows, stretch,
                       none_words(run, of), spare, paged=True)
    if run.terminal.wide and len(rows) == run.words.limit and run.words.sort == "number":
        run.terminal.note(f"--from {int(str(rows[-1][0])) + 1} goes on behind these.")
