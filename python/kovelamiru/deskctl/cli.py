"""The command line: help, arguments, and how a run ends."""
from __future__ import annotations

import argparse
import difflib
import os
import re
import sys
import traceback
from typing import Any, NoReturn, Optional, Sequence

from .. import VERSION
from ..faults import DONE, LOST, Refused, Stop, explained, reason, wrong
from ..journal import Journal
from ..terminal import TOKEN, Terminal
from ..words import printable
from .arguments import DEFAULTS, OPTIONS, STATUSES, Command
from .commands import COMMANDS
from .completing import complete
from .run import Run
from .settings import SETTINGS, Names, settings_of

ABOUT = """\
Signing requests and revocations at a Kovelamiru desk, from a terminal and from build systems.
deskctl decides nothing and checks no signature: the desk decides."""
ONCE = """\
A command takes effect once: its key is kept on this machine until its answer came. If none comes,
run the same command again. What looks like a slip of the hand is asked about before anything is
sent."""


def general_help() -> str:
    lines = [
        ABOUT, "", "Usage: deskctl COMMAND [WORD..] [OPTION..]",
        "       deskctl                   shows what waits for you",
        "       deskctl COMMAND --help    has the words of a command, and an example"]
    for group in dict.fromkeys(one.group for one in COMMANDS):
        lines += ["", group + ":"]
        lines += [f"  {one.name:<17} {one.does}" for one in COMMANDS if one.group == group]
    lines += ["", "Options, before or after the command:"]
    lines += [f"  {shown_option(names, more):<20} {more['help']}" for names, more in OPTIONS]
    lines += [
        f"  {'-h, --help':<20} show this, or the help of a command",
        f"  {'--version':<20} print the version"]
    lines += [
        "", f"Settings can also stand in {config_hint()}, below [desk], or [NAME] for --desk NAME:",
        "  " + ", ".join(SETTINGS)]
    lines += ["", ONCE, "", "Exit status:"]
    lines += [f"  {status}  {text}" for status, text in STATUSES]
    lines += [
        "", "First steps:",
        "  deskctl token > desk.token         # prints its SHA-256: that is for whoever adds you",
        "  export DESK_URL=https://desk.example.org DESK_TOKEN_FILE=desk.token",
        "  deskctl submit shimx64.efi --title 'shim 16.1-1 amd64'"]
    return "\n".join(lines) + "\n"


def config_hint() -> str:
    return "~/.config/deskctl.conf"


def shown_option(names: Sequence[str], more: dict[str, Any]) -> str:
    return ", ".join(names) + (f" {more['metavar']}" if "metavar" in more else "")


def command_help(one: Command) -> str:
    """The help of a command: its words, what else there is to know, an example."""
    lines = [
        f"deskctl {one.name}: {one.does}" + (f" ({one.who})" if one.who else ""), "",
        f"Usage: deskctl {one.name} {one.usage}".rstrip()]
    if one.words:
        lines += ["", "Words:"]
        for names, more in one.words:
            shown = shown_option(names, more) if names[0].startswith("-") else more["metavar"]
            lines.append(f"  {shown:<24} {more['help']}")
    lines += [""] + wrapped(one.more) + [""] * bool(one.more)
    return ("\n".join(lines + [
        "Example:", f"  {one.example}", "",
        "deskctl --help has the options of all commands, and the exit statuses."]) + "\n")


def wrapped(text: str) -> list[str]:
    lines: list[str] = []
    for one in text.split():
        if lines and len(lines[-1]) + 1 + len(one) <= 96:
            lines[-1] += " " + one
        else:
            lines.append(one)
    return lines


class Parser(argparse.ArgumentParser):
    """argparse with our help, and faults in one line."""

    command: Optional[Command] = None

    def format_help(self) -> str:
        return command_help(self.command) if self.command else general_help()

    def error(self, message: str) -> NoReturn:
        unknown = re.match(r"argument COMMAND: invalid choice: '([^']*)'", message)
        if unknown:
            near = difflib.get_close_matches(unknown[1], [one.name for one in COMMANDS], 1)
            wrong(
                f"there is no command {printable(unknown[1])}" + (f"; {near[0]}?" if near else ""),
                "deskctl --help")
        message = message.replace("the following arguments are required", "missing")
        wrong(re.sub(r"^argument ([^ ]+): ", r"\1: ", message), f"{self.prog} --help")


def parser_of(arguments: Sequence[str]) -> Parser:
    """The parser of the commands that the arguments name, or of all if they name none."""
    options = Parser(add_help=False, argument_default=argparse.SUPPRESS)
    for names, more in OPTIONS:
        words: dict[str, Any] = {**more, "default": argparse.SUPPRESS}
        options.add_argument(*names, **words)
    main_parser = Parser(prog="deskctl", parents=[options], allow_abbrev=False,
                         argument_default=argparse.SUPPRESS)
    main_parser.add_argument("--version", action="version", version=f"deskctl {VERSION}")
    commands = main_parser.add_subparsers(dest="command", metavar="COMMAND", parser_class=Parser,
                                          required=True)
    for one in [one for one in COMMANDS if one.name in arguments] or COMMANDS:
        parser = commands.add_parser(one.name, parents=[options], allow_abbrev=False)
        parser.command = one
        for names, more in one.words:
            parser.add_argument(*names, **more)
    return main_parser


def words_of(arguments: Sequence[str]) -> tuple[Names, Command]:
    arguments = arguments or ["inbox"]
    if list(arguments) == ["help"]:
        arguments = ["--help"]
    elif arguments[0] == "help":
        arguments = [arguments[1], "--help"]
    if any(one == "--token" or one.startswith("--token=") for one in arguments):
        wrong("a token is never an argument: everybody on this machine can read it there",
              "Make another one, and name its file: --token-file FILE")
    words, rest = parser_of(arguments).parse_known_args(arguments, Names(**DEFAULTS))
    if rest:
        odd = next((one for one in rest if one.startswith("-")), "")
        wrong(f"{words.command} has no option {printable(odd)}" if odd else
              f"{words.command} takes fewer words: {printable(' '.join(rest))} is too much",
              f"deskctl {words.command} --help")
    return words, next(one for one in COMMANDS if one.name == words.command)


def told(terminal: Terminal, stop: Stop, command: Optional[Command]) -> None:
    """What happened, and what to do, on standard error. A token that was given as a word isn't
    printed."""
    if isinstance(stop, Refused):
        explained(stop, {})
        if stop.number == 21 and command and command.who:
            stop.more.insert(0, f"`deskctl {command.name}` is for {command.who}.")
    terminal.stop(str(stop), stop.more)


def ran(arguments: Sequence[str], terminal: Terminal) -> int:
    command: Optional[Command] = None
    try:
        if arguments[:1] == ["complete"]:
            terminal.say(complete(arguments[1:]), end="")
            return DONE
        words, command = words_of(arguments)
        terminal.quiet, terminal.yes = words.quiet, words.yes
        run = Run(words, settings_of(words), terminal, Journal())
        status = command.run(run)
        terminal.flush()
        return DONE if status is None else status
    except Stop as stop:
        told(terminal, stop, command)
        return stop.status
    except KeyboardInterrupt:
        terminal.warn(
            "\ndeskctl: interrupted. If a command was sent, run it again: it has the same key, so"
            " it takes effect once.")
        return 130


def main() -> int:
    out, err = (stream or open(os.devnull, "w", encoding="utf-8")
                for stream in (sys.stdout, sys.stderr))
    for stream in (out, err):
        stream.reconfigure(errors="backslashreplace")  # type: ignore[attr-defined]
    terminal = Terminal(out, err)
    try:
        return ran(sys.argv[1:], terminal)
    except BrokenPipeError:
        # Whoever read the output has ended; what was to be written goes nowhere.
        os.dup2(os.open(os.devnull, os.O_WRONLY), 1)
        return 141
    except OSError as error:
        terminal.warn(f"deskctl: {reason(error)}")
        os.dup2(os.open(os.devnull, os.O_WRONLY), 1)
        return LOST
    except Exception:
        # Python's own status would be 1, which says that the desk refused.
        terminal.warn(TOKEN.sub("(a token)", traceback.format_exc()))
        terminal.warn(
            "deskctl: a fault of its own. If a command was sent, run it again: it takes effect"
            " once.")
        return LOST
