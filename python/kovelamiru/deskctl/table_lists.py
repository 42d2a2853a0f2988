"""The commands of lists, revocations and proposals, with their help."""
from __future__ import annotations

from ..described import LIMITS
from .arguments import (Command, component_word, count_word, generation_word, hash_word,
                        number_word, stamp_word, word)
from .importing import import_file
from .listing import list_words
from .lists import list_certificate, list_digest, raise_level, revoke, unlist
from .proposals import ALL, confirm, drop, proposal, proposals
from .reasons import explain

PROPOSAL = word("number", metavar="N", type=number_word, help="the proposal's number")
EXPECT = word("--expect", metavar="HEX", type=hash_word,
              help="go on only if it is what `deskctl proposal N` showed with this tag")
NOT_MINE = word("--not-mine", action="store_true", help="those that others made")
BARS = word("--bars", metavar="COUNT", type=count_word,
            help="go on only if it bars exactly so many known images")
WHY = word("--why", metavar="TEXT",
           help=f"the reason, for the minutes: at most {LIMITS['reason']} characters of ASCII")
ALLOWING = "Listing (db), by one officer"
REVOKING = "Revoking (dbx and the level), proposed by one officer and confirmed by another"
LISTS: tuple[Command, ...] = (
    Command("list-certificate", ALLOWING, "FILE [--image IMAGE]", "list a signer's certificate",
            list_certificate,
            (word("file", metavar="FILE", help="one certificate, in PEM or DER"),
             word("--image", metavar="IMAGE",
                  help="an image that its key signed: does it carry this certificate?")),
            "officers",
            ("Shows its subject, its issuer, its key and whether it is a CA's, and asks. The desk"
             " then allows each image that carries this certificate. Says where firmware would"
             " refuse it or the desk would surprise: a key that isn't RSA, a CA's, a certificate"
             " that is revoked, or whose issuer is, as far as the desk's lists and minutes have the"
             " issuer's. A file of two, of a request, of a key or of a CRL isn't taken."),
            "deskctl list-certificate signer.pem --image shimx64.signed.efi"),
    Command("list-digest", ALLOWING, "HEX|IMAGE", "list one image", list_digest,
            (word("image", metavar="HEX|IMAGE",
                  help="an image's digest, or its file; not the SHA-256 of the file"),),
            "officers",
            ("Asks first where the digest is, as far as the desk knows, the SHA-256 of a whole file"
             " or a certificate: that would allow nothing."), "deskctl list-digest memtest.efi"),
    Command(
        "unlist", ALLOWING, "digest|certificate HEX|FILE", "take an entry off the list", unlist,
        (word("kind", choices=("digest", "certificate"), metavar="digest|certificate",
              help="which kind of entry"),
         word("hex", metavar="HEX|FILE",
              help="an image's digest or file; a certificate's file or TBSCertificate hash")),
        "officers",
        ("It revokes nothing: an image that was allowed by this entry alone is then not listed. On"
         " a terminal it says of which requests the signed files are, by the minutes, and wants the"
         " entry's name typed."),
        "deskctl unlist certificate old-signer.pem"),
    Command(
        "revoke", REVOKING, "IMAGE.. [--digest HEX] [--certificate FILE|HEX] [--why TEXT]",
        "propose to revoke images and certificates", revoke,
        (word("images", metavar="IMAGE", nargs="*",
              help="images: of each its digest, and the one that a signature holds"),
         word("--digest", metavar="HEX", action="append", default=[],
              help="an image's digest; not the SHA-256 of the file"),
         word("--certificate", metavar="FILE|HEX", action="append", default=[],
              help="a certificate's file, or its TBSCertificate's SHA-256; no fingerprint"),
         WHY),
        "officers",
        ("All that is named is one proposal (10,000 entries a proposal). Asks first where a"
         " SHA-256 is that of a whole file, of a whole certificate, or of the other kind, as far"
         " as the desk knows: such an entry bars nothing, for good."),
        "deskctl revoke grubx64.efi grubx64-installer.efi"),
    Command(
        "raise", REVOKING, "NAME GENERATION --stamp N [--why TEXT]",
        "propose a higher generation of the level",
        raise_level,
        (word("component", metavar="NAME", type=component_word, help="an SBAT component, as grub"),
         word("generation", metavar="GENERATION", type=generation_word,
              help="the least that is allowed"),
         word("--stamp", metavar="N", type=stamp_word, required=True,
              help="the level's new stamp: ten digits, YYYYMMDDNN"), WHY), "officers",
        ("Asks first where the generation is above 65,535 or ten or more above the present one,"
         " or the stamp doesn't begin with a date within a year of today."),
        "deskctl raise grub 5 --stamp 2026112701"),
    Command("import", REVOKING, "FILE [--stamp N] [--why TEXT] [--dry-run]",
            "propose a file of revocations",
            import_file,
            (word("file", metavar="FILE", help="the file"),
             word("--stamp", metavar="N", type=stamp_word,
                  help="for a CSV that raises generations: the new stamp, YYYYMMDDNN"),
             word("--arch", metavar="A",
                  help="only images of this architecture, where a list names it: x64, arm64, .."),
             WHY,
             word("--dry-run", action="store_true", help="say what is in it, and send nothing")),
            "officers",
            ("The kinds, found by their bytes: signature lists; the same as an authenticated update"
             " (DBXUpdate.bin) or as efivarfs has them; the desk's CSV; a level's text, also in a"
             " variable (SbatLevel) or an image of revocations (.sbata, else .sbatl); Microsoft's"
             " dbx_info_msft, JSON or CSV; debian-dbx.hashes. The signature of an update isn't"
             " verified. Says first what is in it. More than 10,000 entries are several proposals."
             " Versions of Windows' boot programs and hashes of whole files are left out. Asks"
             " first where it looks like a list of what is allowed: by its name (db, MokListRT),"
             " its owner or what it has."),
            "deskctl import DBXUpdate.bin --dry-run"),
    Command("proposals", REVOKING, "[--state S] [--not-mine] [--search TEXT]", "list the proposals",
            proposals, (*list_words(ALL, "those that you made"), NOT_MINE), "officers",
            ("On a terminal it says what an open one names, a digest with its image, and how old it"
             " is. Without one a proposal is a line of fields parted by tabs: number, state,"
             " digests, certificates, components, officer."), "deskctl proposals --state open"),
    Command(
        "proposal", REVOKING, "N", "show all that a proposal names, and what it bars", proposal,
        (PROPOSAL,), "officers",
        ("Each digest and certificate with what is known of it, and the known images that a"
         " Confirm would bar. What follows `expect` is the proposal's tag, for --expect of `deskctl"
         " confirm`: a name for all that it puts into force."),
        "deskctl proposal 1"),
    Command(
        "confirm", REVOKING, "N [--expect HEX] [--bars COUNT]",
        "put another officer's proposal into force", confirm, (PROPOSAL, EXPECT, BARS), "officers",
        ("Names the desk, shows all that the proposal names and which known images it would bar,"
         " and goes on once you have typed how many these are, if it is still what was shown."
         " Nothing takes a Confirm back."), "deskctl confirm 1"),
    Command("drop", REVOKING, "N", "close a proposal without effect", drop, (PROPOSAL,),
            "officers", "On a terminal it asks first.", "deskctl drop 1"),
    Command("explain", REVOKING, "N TEXT", "say why a proposal is made, or shouldn't be", explain,
            (PROPOSAL, word("text", metavar="TEXT",
                            help=f"1 to {LIMITS['reason']} characters of ASCII")), "officers",
            ("The minutes keep it, for good; it changes nothing else, and a proposal of any state"
             " takes as many as officers give. `deskctl proposal N`, the question of a Confirm and"
             " `deskctl why` show them. --why gives the first one; on a terminal it is asked for."),
            "deskctl explain 1 'CVE-2023-40547, see https://example.org/15.8'"))
