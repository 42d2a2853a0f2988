#!/usr/bin/env -S python3 -B
"""checks/replay.py PROGRAM FOLDER: the levels of shim's SbatLevel_Variable.txt, in turn, at a desk
with Debian's own images, out of its packages in folders of FOLDER, a suite each (`apt-get download`
of shim-unsigned, shim-signed, shim-helpers-ARCH-signed, grub-efi-ARCH-bin or -unsigned,
grub-efi-ARCH-signed, fwupd-unsigned, fwupd-ARCH-signed, and a kernel with its -unsigned one). Each
unsigned one is submitted, approved and listed, and its signed twin returned. A table has for each
suite and architecture the images that the packages hold, the twins (without a signature and with
it), those of them whose digests are equal by the desk and by python/kovelamiru/pe.py, and whose
signature names that digest, and what was refused, by its number. At each level the verdict on each
image, the impact before the Confirm, and whom the text of `deskctl level --for-shim` bars are held
against a plain computation; that text has upstream's names (page/wire/cases/levels.json)."""
from __future__ import annotations

import json
import subprocess
import sys
import tarfile
import tempfile
from collections import Counter
from pathlib import Path
from typing import Any, Iterable, Iterator, Mapping, NamedTuple

ROOT = Path(__file__).resolve().parents[1]
sys.path[:0] = [str(ROOT), str(ROOT / "python")]
from checks.support.deskctl import Office, compiled  # noqa: E402
from checks.support.messages import Field, got, posted  # noqa: E402
from checks.support.program import Program  # noqa: E402
from checks.support.says import expect, fail  # noqa: E402
from checks.support.server import Server  # noqa: E402
from checks.support.steps import named, vote  # noqa: E402
from checks.support.wire import wire  # noqa: E402
from kovelamiru.pe import authenticode as of_file, hashed_ranges, number_at, texts_in  # noqa: E402

Level = Mapping[str, int]
MACHINES = {0x8664: "amd64", 0xAA64: "arm64", 0x14C: "i386"}


class Twins(NamedTuple):
    """An image without a signature, and the same one with it."""

    title: str
    unsigned: bytes
    signed: bytes

    def place(self) -> str:
        """Its suite and its machine."""
        return self.title.rpartition(" ")[0]


class Found(NamedTuple):
    """What the packages hold: how many images of a suite and a machine, and the twins."""

    counts: Counter[str]
    twins: list[Twins]


def images_in(package: Path) -> Iterator[tuple[str, bytes]]:
    """The EFI images of a package, by their names without the ending of a signed one. A kernel's
    package has one, before its thousands of modules."""
    words = ["dpkg-deb", "--fsys-tarfile", str(package)]
    with subprocess.Popen(words, stdout=subprocess.PIPE) as unpacks:
        packed = tarfile.open(fileobj=unpacks.stdout, mode="r|")
        for one in packed:
            path = Path(one.name)
            is_kernel = path.match("vmlinuz-*")
            if not one.isfile() or not (is_kernel or path.suffix in (".efi", ".signed")):
                continue
            file = packed.extractfile(one)
            data = file.read() if file else b""
            if data.startswith(b"MZ"):
                yield path.name.removesuffix(".signed"), data
            if is_kernel:
                break
        unpacks.kill()


def twins_in(folder: Path) -> Found:
    """What the packages in the folder's folders hold, each folder a suite."""
    plain: dict[str, bytes] = {}
    signed: dict[str, bytes] = {}
    counts: Counter[str] = Counter()
    for package in sorted(folder.glob("*/*.deb")):
        for name, data in images_in(package):
            machine = number_at(data, number_at(data, 0x3C) + 4, "<H")
            place = f"{package.parent.name} {MACHINES.get(machine, hex(machine))}"
            counts[place] += 1
            (signed if hashed_ranges(data)[1] else plain)[f"{place} {name}"] = data
    if not counts:
        fail(f"no package with an image in {folder}")
    both = [Twins(title, plain[title], data) for title, data in signed.items() if title in plain]
    return Found(counts, both)


class Image(NamedTuple):
    """An image of a request."""

    title: str
    data: bytes
    components: list[tuple[str, int]]
    # Its signed twin.
    signed: bytes

    def is_barred(self, level: Level) -> bool:
        """The plain computation, as shim's SBAT.md has it."""
        return any(to < level.get(name, 0) for name, to in self.components)


def image_of(twins: Twins) -> Image:
    """An image of Debian's, with the components of its section."""
    text = texts_in(twins.unsigned, [b".sbat"]).get(".sbat", b"").decode("ascii", "replace")
    rows = [line.split(",") for line in text.splitlines() if line]
    return Image(twins.title, twins.unsigned, [(row[0], int(row[1])) for row in rows], twins.signed)


class Replay:
    """The desk that serves, its images by their requests' numbers, and its level."""

    def __init__(self, office: Office) -> None:
        self.office = office
        self.images: dict[int, Image] = {}
        self.refused: dict[str, str] = {}
        self.level: dict[str, int] = {}
        self.calls = 0

    def post(self, name: str, path: str, body: bytes, *fields: Field) -> Any:
        self.calls += 1
        answer = self.office.server.ask(posted(name, f"k{self.calls}", path, body, *fields))
        return json.loads(answer.partition(b"\r\n\r\n")[2])

    def reads(self, path: str) -> Any:
        return json.loads(self.office.server.ask(got("olga", path)).partition(b"\r\n\r\n")[2])

    def takes(self, image: Image, name: str, path: str, data: bytes, *fields: Field) -> Any:
        """The reply, whose refusal is noted."""
        reply = self.post(name, path, data, *fields)
        if "refused" in reply:
            what = path.rpartition("/")[2]
            self.refused[image.title] = f"{what} {reply['refused']} {reply['name']}"
        return reply

    def fills(self, images: Iterable[Image]) -> None:
        """Each image is submitted, approved and listed, and its twin returned."""
        for image in images:
            reply = self.takes(image, "ann", "/requests", image.data, ("Desk-Title", image.title))
            number = reply.get("request")
            if number is None:
                continue
            self.images[number] = image
            for name in ("rita", "raul"):
                self.post(name, f"/requests/{number}/review", vote("yes"))
            self.post("olga", "/db/digests", named(of_file(image.data)[1]))
            self.takes(image, "sid", f"/requests/{number}/return", image.signed)

    def facts(self, data: bytes) -> Any:
        return self.post("sid", "/facts", data)

    def plain(self, level: Level) -> set[int]:
        return {number for number, image in self.images.items() if image.is_barred(level)}

    def raises(self, stamp: int, names: Level) -> bool:
        """One officer imports a level, another one confirms it; false where the desk refuses its
        stamp."""
        text = f"sbat,1,{stamp}\n" + "".join(f"{name},{to}\n" for name, to in names.items())
        reply = self.post("olga", "/imports/level", text.encode())
        if "proposal" not in reply:
            expect(reply.get("name"), "StampNotLater", f"the import of {stamp}: {reply}")
            return False
        higher = {name: max(to, self.level.get(name, 0)) for name, to in names.items()}
        before, self.level = self.plain(self.level), {**self.level, **higher}
        path = f"/proposals/{reply['proposal']}"
        told = {one["request"] for one in self.reads(f"{path}/impact")["bars"]}
        expect(told, self.plain(self.level) - before, f"the impact of {stamp}")
        expect(self.post("otto", f"{path}/confirm", b"").get("reply"), "confirmed", f"{stamp}")
        return True

    def judges(self) -> set[int]:
        """The requests whose images the desk bars; all others it allows."""
        found = set()
        for number, image in self.images.items():
            verdict = self.post("sid", "/verdict", image.signed)["verdict"]
            if verdict not in ("allowed", "sbat"):
                fail(f"{image.title}: {verdict}")
            if verdict == "sbat":
                found.add(number)
        return found

    def for_shim(self, stamp: int, wanted: Level) -> None:
        text = self.office["olga"].does("level --for-shim")
        first, *rows = (line.split(",") for line in text.splitlines())
        level = {name: int(to) for name, to in rows}
        what = f"the level for shim of {stamp}"
        expect((first, level), (["sbat", "1", str(stamp)], wanted), what)
        expect(self.plain(level), self.plain(self.level), f"what it bars, {what}")


def newly(replay: Replay, barred: set[int]) -> str:
    """Whom a level bars, by name: the image, and of which suites and machines."""
    found: dict[str, list[str]] = {}
    for number in sorted(barred):
        place, _, name = replay.images[number].title.rpartition(" ")
        found.setdefault(name, []).append(place)
    return "; ".join(f"{name} ({', '.join(places)})" for name, places in found.items())


def replayed(replay: Replay) -> int:
    """How many levels the desk took."""
    count, before = 0, set[int]()
    for row in wire("cases/levels")["upstream"][1:]:
        stamp, names, shim = row["stamp"], row["names"], row["shim"]
        if not replay.raises(stamp, names):
            expect(shim, None, f"the level of {stamp}, which the desk refuses")
            print(f"{stamp}  refused: StampNotLater")
            continue
        barred = replay.judges()
        expect(barred, replay.plain(replay.level), f"what the desk bars at {stamp}")
        replay.for_shim(stamp, shim)
        alone = len(replay.plain(names))
        print(f"{stamp}  {len(barred)} of {len(replay.images)} barred, by upstream's alone {alone}")
        if barred - before:
            print(f"    {newly(replay, barred - before)}")
        before = barred
        count += 1
    return count


def same(replay: Replay, twins: Twins) -> tuple[bool, bool]:
    """Whether the digests of twins are equal, by the desk and by the package in Python, and whether
    the signature's bytes have it."""
    plain, signed = replay.facts(twins.unsigned), replay.facts(twins.signed)
    if "refused" in plain or "refused" in signed:
        return False, False
    found = {plain["signing"], signed["digest"], of_file(twins.unsigned)[1],
             of_file(twins.signed)[0]}
    end = hashed_ranges(twins.signed)[0][-1][1]
    return len(found) == 1, bytes.fromhex(signed["digest"]) in twins.signed[end:]


def table(replay: Replay, found: Found) -> None:
    head = ("images", "twins", "equal", "in the signature", "refused")
    print(f"{'':18}{head[0]:>8}{head[1]:>8}{head[2]:>8}{head[3]:>18}  {head[4]}")
    for place, count in found.counts.items():
        own = [one for one in found.twins if one.place() == place]
        rows = [same(replay, one) for one in own]
        equal, has = (sum(row[at] for row in rows) for at in (0, 1))
        refused = [f"{one.title.rpartition(' ')[2]}: {replay.refused[one.title]}" for one in own
                   if one.title in replay.refused]
        print(f"{place:18}{count:8}{len(own):8}{equal:8}{has:18}"
              f"  {'; '.join(refused) or 'none'}")


def main(program: str, folder: str) -> None:
    with tempfile.TemporaryDirectory() as name:
        room = Path(name)
        found = twins_in(Path(folder))
        desk = Program(Path(program).resolve(), room)
        with Server(desk, desk.founded("desk.db")) as server:
            replay = Replay(Office(desk, server, compiled(room)))
            replay.fills(map(image_of, found.twins))
            table(replay, found)
            count = replayed(replay)
    print(f"{count} levels: the desk bars what their computation bars")


if __name__ == "__main__":
    try:
        main(*sys.argv[1:])
    except AssertionError as fault:
        sys.exit(f"checks/replay.py: {fault}")
