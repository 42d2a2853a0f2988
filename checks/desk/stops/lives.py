"""Lives of a desk, each stopped later than the one before."""
from __future__ import annotations

from checks.desk.stops.cases import Case, keys
from checks.desk.stops.left import Stop, at
from checks.desk.stops.places import DESK, STOPPED, Broken, Files, Ran, place


def lived(case: Case, way: str, life: int) -> Files:
    """A life that is stopped later than the one before; the tenth isn't. The next one goes on with
    one of the files that the stop may leave."""
    whole = case.whole()
    number = life * len(whole.calls) // 9
    ends = case.outlives(whole, Stop(way, min(number, len(whole.calls) + 1)))
    return ends[life % len(ends)]


def has_keys(files: Files, wanted: list[str], what: str) -> None:
    found = keys(place().gives(files, ("minutes", DESK)))
    if found != wanted:
        raise Broken(f"{what}: the minutes have the keys {found}, not {wanted}")


class Served(Case):
    """Two calls to a server: the response to the first is lost, and the second is stopped, or what
    follows it."""

    def run(self, stop: Stop | None = None) -> Ran:
        return place().serve(self.files, [one.given for one in self.calls], STOPPED, *at(stop))

    def least(self, ran: Ran) -> int:
        """The first was accepted before its response was lost."""
        return 1 + int(ran.answers[1] == self.calls[1].due)

    def meets_all(self, way: str, life: int) -> Files:
        """The second call meets each stop. The next life goes on with what a stop left within it,
        later in each life."""
        whole = self.run()
        if whole.status or whole.answers != [b"", self.calls[1].due]:
            raise Broken(f"{self.name}: a server answers {whole.answers},"
                f" status {whole.status}, {whole.err!r}")
        stops = [Stop(way, number) for number in range(whole.marks[0] + 1, len(whole.calls) + 2)]
        ends = [self.outlives(whole, one) for one in stops]
        chosen = ends[life * (len(ends) - 1) // 10]
        return chosen[life % len(chosen)]
