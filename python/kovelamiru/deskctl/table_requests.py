"""The commands of requests and images, with their help."""
from __future__ import annotations

from ..described import LIMITS, WORDS
from .arguments import Command, number_word, seconds_word, word
from .facts import compare, facts
from .listing import list_words
from .requests import ALL, request, requests, wait, withdraw
from .returns import give_back
from .reviews import review
from .submits import submit
from .verdicts import verdict

STATES = tuple(WORDS["requests"])
NUMBER = word("number", metavar="N", type=number_word, help="the request's number")
REQUESTS: tuple[Command, ...] = (
    Command("submit", "Requests", "FILE.. --title T", "ask for signatures of EFI images", submit,
            (word("files", metavar="FILE", nargs="+", help="the images, a request each"),
             word("--title", metavar="T", required=True,
                  help=f"1 to {LIMITS['title']} characters of ASCII")),
            "submitters and reviewers",
            ("Prints the request's number and the file's SHA-256. The desk keeps the image's facts"
             " and not the image: reviewers and the signer get the file from you, and compare that"
             " SHA-256. Of several files each title has a slash behind it, the file's architecture,"
             " and what distinguishes its name: linux 6.12.118-1 / arm64 cloud. What is alike up to"
             " a last slash between spaces is shown as one upload. On a terminal it asks before a"
             " file that you submitted before."),
            "deskctl submit shimx64.efi --title 'shim 16.1-1 amd64'"),
    Command(
        "requests", "Requests", "[--state S] [--mine] [--search TEXT]",
        "list the requests that you may see", requests,
        list_words(ALL, "those that you submitted; --name says who you are"), "",
        ("Submitters see their own, all others see all. On a terminal what is longer than that goes"
         " through $PAGER. Without one a request is a line of fields parted by tabs, nothing cut:"
         " number, state, submitter, votes, file, title."),
        "deskctl requests --state approved"),
    Command("request", "Requests", "N", "show a request: its digests, votes and state", request,
            (NUMBER,), "",
            ("`file` is the SHA-256 of the submitted file; `digest` is what a revocation names, and"
             " `signing` what a signature holds."), "deskctl request 1"),
    Command("wait", "Requests", "N [--state S] [--timeout S]", "wait until a request is approved",
            wait, (NUMBER,
                   word("--state", metavar="S", choices=STATES, default="approved",
                        help="wait for this state instead: " + ", ".join(STATES)),
                   word("--timeout", metavar="S", type=seconds_word, default=0.0,
                        help="give up after S seconds, with status 3; 0, or without: never")), "",
            ("Ends with status 1 if the request can't get that state any more, and prints the notes"
             " of those who voted no. A request that is signed was approved before."),
            "deskctl wait 1 --timeout 3600"),
    Command("review", "Requests", "N.. yes|no [--note T]", "vote on requests of somebody else",
            review,
            (word("numbers", metavar="N", nargs="+", type=number_word, help="their numbers"),
             word("vote", choices=tuple(WORDS["votes"]), metavar="yes|no",
                  help="two of yes approve it, one no rejects it for good"),
             word("--note", metavar="T", default="",
                  help=f"at most {LIMITS['note']} characters of ASCII")),
            "reviewers",
            ("A yes on an image that is barred today needs --yes, or yes typed on a terminal. There"
             " it asks before a no and before the yes that approves, too. Several are shown, and"
             " asked about at once. Their votes go out in turn, none behind one that is refused: it"
             " says which ones are in, and how to go on."),
            "deskctl review 1 yes --note 'built from the tag, SBAT unchanged'"),
    Command("withdraw", "Requests", "N", "take back a request of your own", withdraw, (NUMBER,),
            "submitters and reviewers", "On a terminal it asks first.", "deskctl withdraw 1"),
    Command("return", "Requests", "N FILE | FOLDER", "hand in signed files of approved requests",
            give_back,
            (word("number", metavar="N", nargs="?", type=number_word, help="the request's number"),
             word("file", metavar="FILE|FOLDER",
                  help="the signed image; or, without a number, of any requests")), "signers",
            ("The desk checks no signature: verify it before (EXAMPLES of deskctl(1) has how)."
             " Where a listed certificate is carried and no signature says that it is by a listed"
             " one, yes has to be typed, or --yes given. A request is signed by this. Without a"
             " number each file goes to the approved request whose image it is, and it asks once."),
            "deskctl return 1 shimx64.signed.efi"),
    Command("verdict", "Requests", "FILE..", "ask whether the desk allows images", verdict,
            (word("files", metavar="FILE", nargs="+", help="images"),), "",
            ("Ends with status 4 if one isn't allowed, otherwise with the worst; a file that can't"
             " be judged has a line, too. `allowed` means that its digest, or a certificate that it"
             " carries, is listed, and that nothing bars it. No signature is checked: an image may"
             " carry a listed certificate that didn't sign it. osslsigncode verifies."),
            "deskctl verdict shimx64.efi grubx64.efi"),
    Command(
        "compare", "Requests", "N FILE", "say whether a file is the image of a request", compare,
        (NUMBER, word("file", metavar="FILE", help="the image at hand")), "",
        ("The same file, the same image with another signature table, or another image, and what"
         " differs; then each entry of dbx, of the level and of db that speaks of it today. Ends"
         " with status 4 if it is another image."), "deskctl compare 1 shimx64.signed.efi"),
    Command("facts", "Requests", "FILE..", "show an image's digests, certificates and signatures",
            facts, (word("files", metavar="FILE", nargs="+", help="images"),), "",
            ("By the desk if it is named, else by the program desk. Which digest each signature is"
             " over, and by whom it says that it is, is deskctl's own reading of the certificate"
             " table: it isn't proved, and no signature is checked. The desk revokes by SHA-256;"
             " firmware holds a signature over another digest against digests of that kind alone."),
            "deskctl facts shimx64.efi grubx64.efi"))
