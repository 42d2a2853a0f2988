"""Whether an image at hand is the image of a request, and what differs; and what is said of it."""
from __future__ import annotations

from typing import Any, Iterable, Optional, Sequence

from .answers import Request, titled
from .facts import Facts, gap_words
from .pkcs7 import Signature, algorithm_doubts, signature_words
from .standing import Entry
from .words import HEX, counted, printable

ODD = (
    "Its length is no multiple of 8, so it has two digests: of an unsigned image firmware looks at"
    " `digest`, and shim at `signing`, which a signature holds too. List or revoke both.")


def rows_of(facts: Facts) -> list[tuple[str, object]]:
    """What the desk says of an image, a name and its value a row."""
    rows: list[tuple[str, object]] = [("length", f"{facts.length:,} bytes"), ("file", facts.file),
                                      ("digest", facts.digest), ("signing", facts.signing)]
    if facts.gap:
        rows.append(("gap", gap_words(facts.gap)))
    rows += [("carried", tbs) for tbs in facts.carried]
    return rows + [("component", f"{name} {generation}") for name, generation in facts.components]


def subjects(signatures: Iterable[Signature]) -> dict[str, str]:
    """Whose the carried certificates are, by the SHA-256 of their TBSCertificates."""
    return {carried.tbs: carried.subject for one in signatures for carried in one.certificates}


def named_rows(facts: Facts, whose: dict[str, str]) -> list[tuple[str, object]]:
    return [
        (name, f"{value}  {whose[str(value)]}" if name == "carried" and value in whose else value)
        for name, value in rows_of(facts)]


def signature_rows(facts: Facts, signatures: Sequence[Signature]) -> list[tuple[str, object]]:
    return [("signature", f"{number}: {signature_words(one, facts.digest, facts.signing)}")
            for number, one in enumerate(signatures, 1)]


def facts_doubts(facts: Facts, signatures: Sequence[Signature]) -> list[str]:
    return ([ODD] if facts.digest != facts.signing else []) + algorithm_doubts(signatures)


def today_lines(where: object, entries: Sequence[Entry]) -> list[str]:
    """What the desk's lists and its level say of an image, an entry a line."""
    if not entries:
        return [f"Today neither dbx nor db nor the level of {where} speaks of it."]
    return [f"Today at {where}:"] + [f"  {name:<11} {printable(text)}" for name, text in entries]


def likeness(one: Request, here: Facts) -> tuple[bool, str]:
    """Whether a file is the image of a request, and in which way."""
    if here.file == one.file:
        return True, "The same file: it is the one that was submitted."
    if here.file == one.returned:
        return True, "The same file: it is the signed one that was returned."
    for its, name, wanted, other in ((here.digest, "digest", one.digest,
                                      "digest"), (here.digest, "digest", one.signing, "signing"),
                                     (here.signing, "signing", one.digest, "digest")):
        if its == wanted:
            return True, (
                f"The same image with another signature table: its `{name}` is the request's"
                f" `{other}`.")
    if here.signing == one.signing:
        return True, "The same image but for zero bytes at its end, which padding adds."
    return False, "Another image."


def difference(name: str, there: object, here: object) -> list[str]:
    """What differs in a line; digests have one each."""
    if there == here:
        return []
    if HEX.match(str(there)):
        return ["\n".join((f"  {name:<11} in the request, then in the file:",
                           f"{'':14}{there}", f"{'':14}{here}"))]
    return [f"  {name:<11} {there} in the request, {here} in the file"]


def generations(components: Sequence[Sequence[Any]]) -> dict[str, str]:
    """The generations of each component, which may come twice, in words."""
    found: dict[str, list[int]] = {}
    for name, generation in components:
        found.setdefault(str(name), []).append(generation)
    return {name: " and ".join(map(str, sorted(them))) for name, them in found.items()}


def component_lines(one: Request, here: Facts) -> list[str]:
    there, now = generations(one.components), generations(here.components)
    lines = []
    for name in dict.fromkeys([*there, *now]):
        lines += difference(
            "component",
            f"{printable(name)} {there[name]}" if name in there else f"no {printable(name)}",
            f"{printable(name)} {now[name]}" if name in now else f"no {printable(name)}")
    return lines


def certificate_lines(one: Request, here: Facts, whose: dict[str, str]) -> list[str]:
    lines = [f"{tbs} in the request alone" for tbs in one.carried if tbs not in here.carried]
    for tbs in here.carried:
        if tbs not in one.carried:
            subject = f"  {printable(whose[tbs])}" if tbs in whose else ""
            lines.append(f"{tbs} in the file alone{subject}")
    return [f"  {'carried':<11} {line}" for line in lines]


def beside_lines(one: Request, last: Optional[Request]) -> list[str]:
    """A request's image beside that of the request of the same name that was signed last."""
    def before(then: object) -> str:
        return f", before {then}" if last else ""

    now, then = generations(one.components), generations(last.components if last else [])
    lines = [f"before      {titled(last) if last else 'none of its name is signed among the last'}",
             f"length      {one.length:,} bytes{before(f'{last.length:,}' if last else '')}"]
    for name in dict.fromkeys([*then, *now]):
        generation = f"{now.get(name, 'none')}{before(then.get(name, 'none'))}"
        lines.append(f"component   {printable(name)} {generation}")
    if last and one.digest == last.digest:
        lines.append("digest      the same image as before")
    if last and sorted(one.carried) != sorted(last.carried):
        lines.append(f"carried     {counted(len(one.carried), 'certificate')}, before"
                     f" {len(last.carried)}, not the same")
    return [f"  {line}" for line in lines]


def differences(one: Request, here: Facts, whose: dict[str, str]) -> list[str]:
    """What differs between the file that was submitted and this one."""
    lines = difference("length", f"{one.length:,} bytes", f"{here.length:,} bytes")
    lines += difference("digest", one.digest, here.digest)
    lines += difference("signing", one.signing, here.signing)
    lines += difference("gap", f"{one.gap} bytes", f"{here.gap} bytes")
    return lines + component_lines(one, here) + certificate_lines(one, here, whose)
