"""Entries that revoke nothing or too much, generations and stamps that are slips of the hand, and
what is no certificate: deskctl asks, and sends nothing without an answer."""
from __future__ import annotations


from checks.support.cases import files
from checks.support.client_day import TBS
from checks.support.deskctl import NO_TERMINAL, Office
from checks.support.images import digest


def test_an_unlisting_says_what_it_costs_and_wants_the_name_typed(office: Office) -> None:
    """A script means it."""
    for line in ("ann submit signed.efi --title 'grub 2.12'", "rita review 1 yes",
                 "raul review 1 yes", "olga list-certificate certificate.der --yes",
                 "sid return 1 signed.efi --yes", f"olga list-digest {digest('77')}"):
        name, words = line.split(" ", 1)
        office[name].does(words)
    told = ("since this entry alone allows them: 1. They are those of request 1 (grub 2.12).",
            "no other officer confirms it", "To unlist it, type Boot signer 2026:")
    for typed, status in (("", 2), ("yes", 2), ("Boot signer 2026", 0)):
        ended, said = office["olga"].asked(f"unlist certificate {TBS}", typed)
        assert ended == status and all(text in said for text in told), said
        assert (f"certificate {TBS} unlisted" in said) == (status == 0), said
    ended, said = office["olga"].asked(f"unlist digest {digest('77')}", "yes")
    assert ended == 2 and "type 77777777:" in said, said
    assert "No signed file of a request is allowed by this entry alone." in said, said
    office["olga"].does(f"unlist digest {digest('77')}", "unlisted")


def test_a_certificate_is_shown_before_it_is_listed(office: Office) -> None:
    """One officer alone lists it."""
    names = ["subject     O=A distribution, CN=Boot signer 2026",
             "issuer      C=DE, O=A distribution, CN=Boot CA", "key         EC, P-256",
             "CA          no", TBS]
    line = "list-certificate certificate.der"
    office.refuses("olga", line, *names, NO_TERMINAL, "--yes")
    for case in files("certificates"):
        if case.get("ca"):
            office.file("ca.der", case["bytes"])
            office.refuses("olga", "list-certificate ca.der", "CA          yes",
                           "! It says that it is a CA's", case["subject"])
    asked = f"At {office.url} each image that carries it is then allowed. List it?"
    for typed, status in (("", 2), ("no", 2), ("yes", 0)):
        ended, said = office["olga"].asked(line, typed)
        assert ended == status and all(text in said for text in [*names, asked]), said
        assert (f"certificate {TBS} listed" in said) == (status == 0), said
