"""The commands that read, and those of one's own, with their help."""
from __future__ import annotations

from .arches import dbx
from .arguments import Command, seconds_word, word
from .inbox import inbox
from .levels import level
from .reading import get, me, minutes, pending, people, report, token
from .watching import watch
from .why import why

READING: tuple[Command, ...] = (
    Command("get", "Reading", "dbx|db|level [-o FILE]", "fetch the lists or the level, whole", get,
            (word("what", choices=("dbx", "db", "level"), metavar="dbx|db|level", help="which"),
             word("-o", "--output", metavar="FILE", help="the file, replaced only by a whole one")),
            "", "", "deskctl get dbx -o dbx.esl"),
    Command("level", "Reading", "[--for-shim]", "print the level", level,
            (word("--for-shim", action="store_true",
                  help="without the names that a later raise of their parent covers"),),
            "officers",
            ("With --for-shim, unproved: grub.debian is left out once grub was raised later, where"
             " each image of a request that it bars is barred by what stays. Standard error says"
             " which."), "deskctl level --for-shim > level.csv"),
    Command("dbx", "Reading", "--for-arch TEXT -o FOLDER [--from FILE]",
            "make a dbx for each architecture", dbx,
            (word("--for-arch", metavar="TEXT", required=True,
                  help="which digest is of which: debian-dbx.hashes, Microsoft's list"),
             word("-o", "--output", metavar="FOLDER", required=True,
                  help="gets dbx-ARCH.esl of each"),
             word("--from", dest="source", metavar="FILE",
                  help="a dbx.esl or shim-dbx.esl at hand, in place of the desk's dbx")), "",
            ("A digest that TEXT doesn't name, and each certificate, is in every part. Together the"
             " parts name what dbx names, or nothing is written. The desk knows no architecture, so"
             " TEXT alone decides, and none of this is proved."),
            "deskctl dbx --for-arch debian-dbx.hashes --from shim-dbx.esl -o parts"),
    Command("minutes", "Reading", "[--into FILE]", "fetch the minutes",
            minutes, (word("--into", metavar="FILE", help="append to this copy what it lacks"),),
            "officers",
            ("With --into the desk's minutes have to go on where the copy ends; status 1 otherwise,"
             " as after a restore of an older desk."), "deskctl minutes --into minutes.txt"),
    Command("why", "Reading", "HEX|FILE|COMPONENT [--minutes FILE]",
            "tell who listed, proposed and confirmed it, and when", why,
            (word("what", metavar="HEX|FILE|COMPONENT",
                  help="a SHA-256, the file of an image or of a certificate, a component"),
             word("--component", action="store_true", help="it is a component, and no file's name"),
             word("--minutes", metavar="FILE", help="look into this copy of the minutes")),
            "officers",
            ("What stands now; each call that listed, unlisted, proposed, confirmed or dropped it,"
             " with the time that its key begins with, by the clock of whoever made the key (of an"
             " image all that bars or allows it); and the requests whose images it touches. A"
             " SHA-256 of a whole file is taken for that of the image in it."),
            "deskctl why shimx64.efi"),
    Command("people", "Reading", "", "list who is who", people, (), "officers", "",
            "deskctl people"),
    Command("me", "Reading", "", "print your name and your role", me, (), "", "", "deskctl me"),
    Command("report", "Reading", "", "print the desk's counts", report, (), "officers", "",
            "deskctl report"),
    Command("token", "Your own", "[-o FILE]", "make a token for yourself", token,
            (word("-o", "--output", metavar="FILE",
                  help="a new file, of mode 0600, instead of standard output"),), "",
            ("256 random bits go into the file, which nobody else may read. What it prints is the"
             " token's SHA-256: give that to whoever adds you by `desk enrol`, who never learns the"
             " token."), "deskctl token > ~/.config/desk.token"),
    Command("inbox", "Your own", "", "show what waits for you, as deskctl without words does",
            inbox, (), "",
            ("Requests to review or to sign, proposals to confirm, and your own under way: requests"
             " with their votes, `barred` where dbx or the level bars the image today, and for"
             " officers a proposal's age by the clock of its proposer. Without a terminal a line of"
             " fields parted by tabs: waits or yours, request or proposal, number, title or what it"
             " names, whose, votes or state, then barred or -; of a proposal whose and its age."),
            "deskctl inbox"),
    Command(
        "watch", "Your own", "[--into FILE] [--exec COMMAND] [--once]", "tell what waits for you",
        watch,
        (word("--into", metavar="FILE", help="append each event to this file"),
         word("--exec", dest="handler", metavar="COMMAND",
              help="run this for each event, which is its standard input; no shell reads it"),
         word("--once", action="store_true", help="look once, as from a timer"),
         word("--every", metavar="S", type=seconds_word,
              help="look each S seconds; by itself each minute, or less often if it is slow")), "",
        ("For reviewers open requests, for officers open proposals, for signers approved"
         " requests, each told once; of your own requests each change. An event is a line, or"
         " JSON with --json. What was told is remembered; where COMMAND fails, it is told again."),
        "deskctl watch --once --exec 'mail -s desk rita@example.org'"),
    Command("pending", "Your own", "", "list commands that have no answer yet", pending, (), "",
            "Needs no desk.", "deskctl pending"))
