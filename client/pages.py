#!/usr/bin/env python3
"""pages.py FOLDER: writes deskctl.1 and the completions deskctl.bash, _deskctl and deskctl.fish.

Commands, options and exit statuses come from deskctl itself, so that help and page can't differ;
the completions ask it. This file has the page's other sections, set in man(7). The date is that of
SOURCE_DATE_EPOCH, or today.
"""
from __future__ import annotations

import os
import sys
import time
from typing import Any, Sequence

sys.dont_write_bytecode = True
ROOT = os.path.dirname(os.path.dirname(os.path.realpath(__file__)))
sys.path[:0] = [os.path.join(ROOT, "python"), os.path.join(ROOT, "packaging")]

from kovelamiru import VERSION  # noqa: E402
from kovelamiru.deskctl.arguments import OPTIONS, STATUSES  # noqa: E402
from kovelamiru.deskctl.cli import shown_option  # noqa: E402
from kovelamiru.deskctl.commands import COMMANDS  # noqa: E402
from roff import example, filled, literal, page, roff, terms  # noqa: E402

ABOUT = """\
deskctl asks a Kovelamiru desk over HTTP, which the program desk serves: for signatures of boot
images, for votes, for revocations that one officer proposes and another confirms. It isn't
proved, and it decides nothing; the desk does. It checks no signature.

Results go to standard output, all else to standard error. On a terminal a list is a table that
fits it; of one that is longer than the terminal `$PAGER`, or less, shows a screen at a time.
Otherwise a list is a line a row, fields parted by tabs, nothing cut. `--json` prints the desk's own
JSON, as desk-http(7) has it."""
SETTINGS = """\
An option comes before the environment, and that before the file `~/.config/deskctl.conf`:

    [desk]
    url = https://desk.example.org
    token-file = desk.token
    name = olga

    [staging]
    url = https://desk.staging.example.org
    token-file = staging.token

Its other names are `ca`, `cert`, `key` and `program`; paths are relative to the file. `--desk
staging`, or DESKCTL_DESK, takes that section alone: nothing of `[desk]`, nor of DESK_URL and its
like. With https
the desk's certificate has to be one that the system trusts, or one of `--ca`. Without TLS deskctl
asks only a desk on this machine, unless `--insecure-http` is given.

A token is the first line of a file that nobody else can read; deskctl refuses it otherwise. It is
never an argument, never printed, and in no environment. In the folder that systemd names by
CREDENTIALS_DIRECTORY the group's bits don't count, since they are those of its access list.
Behind a proxy that knows people by client certificates, `--cert` takes the token's place."""
ONCE = """\
Each command goes out under a key that deskctl makes of the time and of random bits, as
`20261127T184000Z-7f3a9c5e01b2d846`; the minutes have it. The key and what it is for are written
into a journal before the request goes out, and taken off when its answer has been printed. Where
no answer comes (the connection fails, the proxy says 408, 429 or any 5xx but 501, the desk has
no memory) deskctl asks again with the same key, with growing pauses, for a minute; what is no
command for three seconds, where nobody listens. If it gives up or is ended,
the next run of the same command (the same desk, caller, words and files) takes that key, and says
so. So a command takes effect once, whatever was lost. A refusal ends that, unless an answer was
lost before and the refusal says nothing of it, as one of the proxy's, or a certificate that isn't
trusted. `--new-key` forgets the key, and the run is another command. `deskctl pending` lists the
journal. Two runs of the same command at once follow one another.

A run ends as soon as the journal has let go of its key. One that is killed between these two
steps, and is run again though its answer was printed, acts again.

An import of several parts has a key a part; the same command goes on where it was stopped. A
proposal's reason has an entry of its own: once the proposal is answered, the same command, or
`deskctl explain`, sends the reason alone."""
QUESTIONS = """\
Nothing takes a revocation back, and an entry that names nothing stays in dbx for good. So deskctl
asks before it sends

- a digest or a certificate that is the SHA-256 of the whole file of a request, the fingerprint of
a listed certificate, or an entry of the other kind at the desk;
- a generation above 65,535, or ten or more above the present one;
- a stamp that doesn't begin with a date of the last or the next year;
- an import in which nothing is new.

`list-certificate` always asks, since one officer lists alone: it shows the certificate's subject,
its issuer, its key and whether it is a CA's. It says where firmware would refuse it or the desk
would surprise:

- a key that isn't RSA: firmware refuses the whole db with it;
- a CA's: the desk compares what an image carries, and most images carry their signer's certificate
alone. `--image` names a signed one, and deskctl says whether that carries the certificate;
- one that is revoked at the desk, or with whose issuer's name a certificate is revoked, as far as
db, the image and the minutes have that one's body.

A file of two certificates, of a request, a key or a CRL isn't taken, here and wherever a
certificate is named by its file.

A vote on a request of one's own, and a Confirm of one's own proposal, are told before the
question: the desk refuses both.

`confirm` names the desk, shows all that the proposal names and which known images it would bar,
and asks how many these are. When the answer comes it looks again, and sends nothing if one of
them changed. `--expect HEX` names the proposal that was looked at, by what `deskctl proposal`
shows as `expect`: the SHA-256 of the first line that it prints with `--json`. `--bars COUNT` is
the count that is expected. If both are given, and nothing is doubtful, it asks nothing; if one
isn't so, it ends with status 2.

Several requests that are reviewed at once, or the files of a folder that are returned, are one
question. Each call has its own key and precondition. A file that the desk refuses is told, and the
others go on, with status 1. Votes go out in turn, none behind one that is refused, since what was
looked at isn't what is there: deskctl says which ones are in, and with which numbers to go on.
Where no answer comes the others aren't sent: the same command goes on.

Without a terminal deskctl sends nothing where it would ask, unless `--yes` is given."""
IMPORTS = """\
The kind of a file is found by its bytes. Signature lists may stand behind
EFI_VARIABLE_AUTHENTICATION_2, as sign-efi-sig-list and sbvarsign write it (its lengths and GUIDs
are tested, its time is shown, which may be zeros, its signature isn't verified), behind the four
bytes of attributes that efivarfs puts before a variable, or behind both. The desk's CSV and a
level's text go as they are. Of Microsoft's dbx_info_msft, JSON or CSV, the Authenticode hashes
are taken, of all architectures or of `--arch`. Texts are read as UTF-8, and nothing stands before
the header of CSV.

Left out, and counted: hashes of whole files, certificates without their TBSCertificate, and
versions of Windows' boot programs, which have the form of a digest in a list but are none. The
desk doesn't keep the owner of an entry, nor a certificate's time of revocation: it is revoked
whenever it signed. `--dry-run` says all of this and sends nothing; it needs a desk only to count
what is new."""
IMAGES = """\
`facts`, `compare`, `revoke` and `list-digest` take what an image is from the desk (POST /facts), or
from the program desk: where `--program` names one, and where no desk is named.
`compare` says of a file that it is the one of a request, or the same image with another signature
table (`digest` or `signing` is equal), or another image, and what differs. `facts` and `compare`
say what dbx, the level and db say of it today.

Over which digest a signature is, and by whom it says that it is, deskctl reads in the image's
certificate table itself: that isn't proved, and no signature is checked. Firmware holds a
signature against digests of its own algorithm, so a revocation, which is by SHA-256, misses one
over SHA-384, SHA-512 or SHA-1. Where an image's length is no multiple of 8, firmware looks at
`digest` of an unsigned one, shim at `signing`."""
FILES = (("~/.config/deskctl.conf",
          "The settings. `XDG_CONFIG_HOME` moves it, `DESKCTL_CONF` names another file."),
         ("~/.local/state/deskctl-watch/",
          "What `watch` told, a file for each caller. `XDG_STATE_HOME` moves it."),
         ("~/.local/state/deskctl-seen/",
          "How many calls a caller saw last. `XDG_STATE_HOME` moves it."),
         ("~/.local/state/deskctl/",
          ("The journal, a file for each command without an answer, of mode 0600. `XDG_STATE_HOME`"
           " moves it.")))
ENVIRONMENT = (
    ("DESK_URL, DESK_TOKEN_FILE, DESK_CA, DESK_CERT, DESK_CERT_KEY, DESK_NAME, DESK_PROGRAM",
     "As the options of these names, where no desk is named by its section."),
    ("DESKCTL_DESK", "As `--desk`."), ("DESK_TOKEN", "Not read."),
    ("PAGER", "Shows a long list of requests or proposals on a terminal; `cat`, or empty: none."))
EXAMPLES = """\
A build system asks for a signature, and waits a day for it:

    number=$(deskctl submit shimx64.efi --title "shim $VERSION" \\
        | sed -n 's/^request \\([0-9]*\\) .*/\\1/p')
    deskctl wait "$number" --timeout 86400

A signing machine signs a copy that nobody else can change, and verifies what it signed before it
hands it in. issuer.pem is the CA that issued signer.pem:

    cd ~/signing && cp /srv/images/shimx64.efi . && sha256sum shimx64.efi
    sbsign --key KEY --cert signer.pem --output signed.efi shimx64.efi
    leaf=$(openssl x509 -in signer.pem -outform DER | sha256sum | cut -d' ' -f1)
    osslsigncode verify -CAfile issuer.pem -require-leaf-hash "sha256:$leaf" \\
        -in signed.efi && deskctl return 7 signed.efi

An officer proposes to revoke what was built from a broken source, and another one looks at it and
confirms it:

    deskctl revoke old/*.efi
    deskctl raise grub 5 --stamp 2026112701
    deskctl proposal 3; deskctl confirm 3
"""

# ---- the manual page


def worded(words: Sequence[Any]) -> list[tuple[str, str]]:
    return [(shown_option(names, more) if names[0].startswith("-") else more["metavar"],
             more["help"] + ".") for names, more in words]


def commands_part() -> list[str]:
    found: list[str] = []
    for one in COMMANDS:
        whose = f" It is for {one.who}." if one.who else ""
        found += [f'.SS "\\fBdeskctl {literal(one.name)}\\fR {literal(one.usage)}"']
        found += filled(f"{sentence(one.does)}{whose}") + terms(worded(one.words))
        found += ([".PP"] + filled(one.more) if one.more else []) + example([one.example])
    return found


def sentence(text: str) -> str:
    return text[0].upper() + text[1:] + "."


def deskctl_page() -> str:
    seconds = int(os.environ.get("SOURCE_DATE_EPOCH", time.time()))
    parts = (
        ("SYNOPSIS", ["\\fBdeskctl\\fR [\\fICOMMAND\\fR [\\fIWORD\\fR..]] [\\fIOPTION\\fR..]"]),
        ("DESCRIPTION", roff(ABOUT)),
        ("COMMANDS", commands_part()),
        ("OPTIONS", terms(worded(OPTIONS))),
        ("SETTINGS", roff(SETTINGS)),
        ("A COMMAND ACTS ONCE", roff(ONCE)),
        ("QUESTIONS", roff(QUESTIONS)),
        ("IMPORTS", roff(IMPORTS)),
        ("IMAGES AT HAND", roff(IMAGES)),
        ("EXIT STATUS", terms((str(status), sentence(text)) for status, text in STATUSES)),
        ("FILES", terms(FILES)),
        ("ENVIRONMENT", terms(ENVIRONMENT)),
        ("EXAMPLES", roff(EXAMPLES)),
        ("SEE ALSO", ["desk(1), desk-http(7), osslsigncode(1), sbsign(1)"]))
    return page("deskctl", 1, time.strftime("%Y-%m-%d", time.gmtime(seconds)), VERSION,
                "signing requests and revocations at a Secure Boot desk", parts)


# ---- completions


BASH = """\
# Completions of deskctl(1) for bash.
_deskctl() {
    local word=${COMP_WORDS[COMP_CWORD]}
    mapfile -t COMPREPLY < <("${COMP_WORDS[0]}" complete "${COMP_WORDS[@]:1:COMP_CWORD}" \\
        2> /dev/null | cut -f1)
    if [ "${COMPREPLY[0]-}" = FILES ]; then
        compopt -o filenames 2> /dev/null
        mapfile -t COMPREPLY < <(compgen -f -- "$word")
    fi
}
complete -F _deskctl deskctl
"""
ZSH = """\
#compdef deskctl
# Completions of deskctl(1) for zsh.
local -a found
found=("${(@f)$($words[1] complete "${(@)words[2,CURRENT]}" 2> /dev/null)}")
if [[ $found[1] == FILES ]]; then _files; return; fi
found=("${(@)found//:/\\\\:}")
found=("${(@)found/$'\\t'/:}")
_describe deskctl found
"""
FISH = """\
# Completions of deskctl(1) for fish.
function __deskctl
    set -l found (deskctl complete (commandline -opc)[2..-1] (commandline -ct) 2> /dev/null)
    if test "$found[1]" = FILES
        __fish_complete_path (commandline -ct)
    else
        printf '%s\\n' $found
    end
end
complete -c deskctl -f -a '(__deskctl)'
"""


def main() -> None:
    for name, text in (("deskctl.1", deskctl_page()), ("deskctl.bash", BASH), ("_deskctl", ZSH),
                       ("deskctl.fish", FISH)):
        with open(os.path.join(sys.argv[1], name), "w", encoding="utf-8") as out:
            out.write(text)


main()
