#!/usr/bin/env python3
"""man.py PROGRAM DATE FOLDER: writes the manual pages into the folder: desk.1, desk-operate.7,
desk-http.7, and one for each of the other tools.

Each text has one source: a program's help for it and its subcommands, docs/FORMATS.md for formats and
routes, docs/REFUSALS.md for refusals, packaging/README.md for the service and what stands around
it, docs/AUDIT.md for audits, docs/INTEROPERATION.md for other tools. This script sets them in
man(7), tables in tbl(1).
"""

import os
import re
import subprocess
import sys

sys.dont_write_bytecode = True

from roff import example, filled, page, roff, terms  # noqa: E402

ROOT = os.path.dirname(os.path.dirname(os.path.realpath(__file__)))
STATUSES = [
    ("0", "Done."),
    ("1", "The input was refused: by the verdict, or with a line on standard error."),
    ("2", "An argument is missing or wrong."),
    ("3", "A device failed: a file, a stream, memory or the database."),
]
# Sections of docs/FORMATS.md.
INPUT_AND_OUTPUT = [
    "Lines of `pack`",
    "Lines of `ranges`",
    "Lines of `facts`",
    "Lines of `list`",
    "Lines of `impact`",
    "Lists of `dbx` and `db`",
    "Lists of `shim`",
    "Lines of `audit`",
    "Input of `person` and `enrol`",
    "Signature lists (UEFI 2.10, section 32.4.1)",
    "SBAT text (shim's SBAT.md)",
]
DESK = """\
desk keeps the Secure Boot decisions of a distribution in one file: requests for a signature, their
reviews, what is listed (db) and what is revoked (dbx, SBAT level). It takes calls over HTTP and on
the command line, reads EFI images, says whether they are allowed, and exports db, dbx and the
level. One officer proposes a revocation, another one confirms it, which may add nothing; a listing
takes one officer. An acknowledged command is never lost, as long as nobody else writes the file and
the disk keeps what it synced.

The desk neither makes nor checks signatures. `allowed` and `signed` mean that the digest of an
image, or a certificate that it carries, is listed, and not that a signature was verified: use
osslsigncode(1) for that. It keeps no image, only what `desk facts` prints of one. It records no
timestamps."""
HTTP = """\
`desk serve` reads one HTTP/1.1 request from each connection and writes one response; `desk answer`
reads one from standard input. `Desk-Token` says who calls: it has the token whose SHA-256
`desk enrol` was given. `Desk-Key` names a command: sent again under the same key, the same command
gets the same answer and takes effect once."""
ENVIRONMENT = """\
`GLIBC_TUNABLES=glibc.malloc.hugetlb=1` makes the C library ask for large pages, so that `serve`
takes its memory sooner. The service sets it."""
FILES = {
    "/var/lib/kovelamiru-desk/desk.db": (
        "The desk of the service, with its log `desk.db-wal` beside it."
    ),
    "/usr/share/doc/kovelamiru-desk/examples/": (
        "Examples: a proxy with TLS, a site for client certificates, rules of nftables."
    ),
    "/usr/share/doc/kovelamiru-desk/runbooks/": "What to do on a bad day, a page each.",
    "/var/lib/kovelamiru-publish/published": "What desk-publish published last.",
    "/var/lib/kovelamiru-standby/minutes.txt": "The minutes that desk-standby has fetched.",
}
TOOLS = {
    "desk-publish": "publishes what a Secure Boot desk decided",
    "desk-standby": "keeps a copy of a Secure Boot desk",
    "kovelamiru-mirror": "mirrors what a Secure Boot desk publishes",
}
OTHERS = ", ".join(f"{name}(1)" for name in (*TOOLS, "desk-demo"))
OPERATE = """\
How the package's desk is begun, kept, copied, published, checked and put beside other tools. desk(1)
has the subcommands."""
DEMO = """\
With PROGRAM it is a desk of that program; with FOLDER it is made there, and the folder stays. Not for
work: whoever can read the folder has the tokens."""
EXAMPLES = """\
One officer proposes to raise a generation of the level, and another one confirms it:

    curl -H @olga.header -H 'Desk-Key: k2' \\
        -d '{"component":"grub","generation":3,"stamp":2024010100}' \\
        http://127.0.0.1:880/level
    curl -H @otto.header http://127.0.0.1:880/proposals/1
    curl -H @otto.header -H 'Desk-Key: k1' -d '' \\
        http://127.0.0.1:880/proposals/1/confirm

olga.header has the line `Desk-Token: TOKEN`, and mode 0600: a token on a command line is seen by
every user of the machine.
"""


# What roff takes for something else, and the names of these marks; the backslash comes first.
def section(file, title):
    """The part of a page of the repository below this title, without the names of crates in
    parentheses."""
    with open(f"{ROOT}/{file}", encoding="utf-8") as page:
        parts = page.read().split(f"\n## {title}\n", 1)
    if len(parts) < 2:
        sys.exit(f"packaging/man.py: {file} has no section {title}")
    part = parts[1].split("\n## ", 1)[0]
    return re.sub(r" \([^()]*\bdesk_\w+[^()]*\)", "", part)


def document(name):
    """A page of docs/ below its title, a subsection for each of its parts; `both digests` stays in
    one line, as people search for it."""
    with open(f"{ROOT}/docs/{name}.md", encoding="utf-8") as page:
        text = page.read().replace("both digests", "both\u00a0digests")
    first, *parts = text.split("\n", 1)[1].split("\n## ")
    found = roff(first)
    for part in parts:
        title, text = part.split("\n", 1)
        found += [f'.SS "{title}"'] + roff(text)
    return found


def refusals():
    """The rows of docs/REFUSALS.md."""
    with open(f"{ROOT}/docs/REFUSALS.md", encoding="utf-8") as page:
        return "".join(line for line in page if line.startswith("|"))


class Help:
    """The program's help, and that of each subcommand."""

    def __init__(self, program):
        self.program = program
        self.version = self.said("--version").split()[1]
        # A row of an option begins with a hyphen.
        names = re.findall(r"(?m)^  ([a-z]+)  ", self.said("help"))
        self.subcommands = [name for name in names if name != "help"]

    def said(self, *words):
        done = subprocess.run(
            [self.program, *words], check=True, stdout=subprocess.PIPE, text=True
        )
        return done.stdout

    def of(self, subcommand):
        """What it does, its arguments and what they are, the paragraphs below, an example, and the
        exit statuses and what they mean."""
        text = self.said("help", subcommand)
        arguments = text.split("\nArguments:\n", 1)[1].split("\n\n", 1)[0]
        below = text.split("Print version\n\n", 1)[1].rstrip("\n")
        more, typed, statuses = re.fullmatch(
            r"(.*)\n\nExample:\n  (.*)\n\nExit status:\n(.*)", below, re.S
        ).groups()
        said = re.findall(r"(?m)^  (\d)  (.*(?:\n     .*)*)", statuses)
        return (
            text.split("\n", 1)[0],
            [row.strip().split(maxsplit=1) for row in arguments.split("\n")],
            more,
            typed,
            [(status, " ".join(text.split())) for status, text in said],
        )


def called(subcommand, words):
    """A subcommand with the names of its arguments."""
    names = ["\\fI" + name.strip("<>") + "\\fR" for name, _ in words]
    return " ".join([f"\\fBdesk {subcommand}\\fR"] + names)


def of_readme(*titles):
    """Sections of packaging/README.md, each under its title."""
    return [(title.upper(), roff(section("packaging/README.md", title))) for title in titles]


def subcommands_of(said):
    """How each subcommand is called, and what its help says of it."""
    synopsis, found = [], []
    for subcommand in said.subcommands:
        does, words, more, typed, statuses = said.of(subcommand)
        synopsis += [".br"] * bool(synopsis) + [called(subcommand, words)]
        found += [f'.SS "{called(subcommand, words)}"'] + filled(does + ".")
        found += terms([(name.strip("<>"), about) for name, about in words], "I")
        found += roff(more) + [".PP", "Example:"] + example([typed])
        found += [".PP", "Exit status:"] + terms(statuses)
    return synopsis, found


def desk_page(said, date):
    synopsis, subcommands = subcommands_of(said)
    formats = []
    for title in INPUT_AND_OUTPUT:
        formats += [f'.SS "{title.replace("`", "")}"'] + roff(section("docs/FORMATS.md", title))
    diagnostics = roff(section("docs/FORMATS.md", "Lines on standard error"))
    parts = [
        ("SYNOPSIS", synopsis),
        ("DESCRIPTION", roff(DESK)),
        ("SUBCOMMANDS", subcommands),
        ("INPUT AND OUTPUT", formats),
        ("EXIT STATUS", terms(STATUSES)),
        ("DIAGNOSTICS", diagnostics + roff("desk-http(7) lists all refusals.")),
        ("ENVIRONMENT", roff(ENVIRONMENT)),
        ("SEE ALSO", [f"desk-operate(7), desk-http(7), {OTHERS}"]),
    ]
    about = "Secure Boot signing and revocation desk"
    return page("desk", 1, date, said.version, about, parts)


def operate_page(date, version):
    """The operator's chapters."""
    parts = [
        ("DESCRIPTION", roff(OPERATE)),
        *of_readme("The service", "Who may connect", "Backup", "A standby", "A cluster"),
        *of_readme("What makes a desk grow", "A proxy in front", "People with certificates"),
        *of_readme("Publishing"),
        ("AUDITS", document("AUDIT")),
        *of_readme("A demo", "Runbooks"),
        ("OTHER TOOLS", document("INTEROPERATION")),
        ("FILES", terms(FILES.items(), "I")),
        ("SEE ALSO", [f"desk(1), desk-http(7), {OTHERS}, systemctl(1), runuser(1), nginx(8)"]),
    ]
    return page("desk-operate", 7, date, version, "keeping a Secure Boot desk", parts)


def http_page(said, date):
    never = "The number and the name of a refusal never change.\n\n"
    return page(
        "desk-http",
        7,
        date,
        said.version,
        "requests to a Secure Boot desk, and its responses",
        [
            ("DESCRIPTION", roff(HTTP)),
            ("REQUESTS", roff(section("docs/FORMATS.md", "Requests of HTTP"))),
            ("RESPONSES", roff(section("docs/FORMATS.md", "Responses of HTTP"))),
            ("REFUSALS", roff(never + refusals())),
            ("LIMITS AND FORMS", roff(section("docs/FORMATS.md", "Limits and forms"))),
            ("EXAMPLES", roff(EXAMPLES)),
            ("SEE ALSO", ["desk(1), curl(1)"]),
        ],
    )


ROW = re.compile(r"(?m)^  (\S.*?)  +(\S.*)$")


def helped(text):
    """A help's own text: paragraphs, and rows behind two spaces, which are terms or are typed."""
    found = []
    for part in text.strip("\n").split("\n\n"):
        if not part.startswith("  "):
            found += [".PP"] + filled(" ".join(part.split()))
        elif ROW.match(part):
            rows = ROW.findall(re.sub(r"\n {6,}(?=\S)", "  ", part))
            found += terms((name, " ".join(about.split())) for name, about in rows)
        else:
            found += example([row[2:] for row in part.split("\n")])
    return found


def tool_page(name, date, version):
    """Of a tool in Python: its help, in which each option is one line."""
    words = [f"{ROOT}/packaging/{name}", "--help"]
    text = subprocess.run(words, check=True, stdout=subprocess.PIPE, text=True,
                          env={**os.environ, "COLUMNS": "1000"}).stdout
    usage, about, options, more = re.fullmatch(
        r"usage: (.*?)\n\n(.*?)\npositional arguments:\n(.*?\n\n.*?\n)(\n.*|)", text, re.S).groups()
    rows = ROW.findall(re.sub(r"\n {10,}(?=\S)", "   ", options))
    return page(name, 1, date, version, TOOLS[name], [
        ("SYNOPSIS", filled(usage)), ("DESCRIPTION", helped(about)), ("OPTIONS", terms(rows)),
        *([("NOTES", helped(more))] if more.strip() else []), ("SEE ALSO", ["desk(1), ssh-keygen(1)"])])


def demo_page(date, version):
    parts = [("SYNOPSIS", ["\\fBdesk\\-demo\\fR [\\fIPROGRAM\\fR [\\fIFOLDER\\fR]]"]),
             ("DESCRIPTION", roff(section("packaging/README.md", "A demo")) + roff(DEMO)),
             ("SEE ALSO", ["desk(1)"])]
    return page("desk-demo", 1, date, version, "a Secure Boot desk to look at in a browser", parts)


def main():
    program, date, folder = sys.argv[1:]
    said = Help(program)
    pages = {"desk.1": desk_page(said, date), "desk-http.7": http_page(said, date),
             "desk-operate.7": operate_page(date, said.version),
             "desk-demo.1": demo_page(date, said.version)}
    pages.update({f"{name}.1": tool_page(name, date, said.version) for name in TOOLS})
    for name, text in pages.items():
        with open(f"{folder}/{name}", "w", encoding="utf-8") as out:
            out.write(text)


main()
