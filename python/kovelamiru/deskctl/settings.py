"""Settings: where the desk is, who calls, and whom TLS trusts."""
from __future__ import annotations

import argparse
import configparser
import hashlib
import ipaddress
import os
import ssl
from dataclasses import dataclass, replace
from typing import NoReturn, Optional

from ..desk import Desk
from ..faults import Unreadable, reason, wrong
from ..files import BODY_LIMIT, Exposed, folder_of, is_token, private_line, read_file
from ..http import Where, address
from ..terminal import Terminal
from ..words import printable

Names = argparse.Namespace


@dataclass(frozen=True)
class Settings:
    url: Optional[str]
    token_file: Optional[str]
    ca: Optional[str]
    cert: Optional[str]
    key: Optional[str]
    name: Optional[str]
    program: Optional[str]
    insecure_http: bool
    retries: int


# The section of the desk that needs no name.
DESK = "desk"
SETTINGS = ("url", "token-file", "ca", "cert", "key", "name", "program")


def config_path() -> str:
    return os.environ.get("DESKCTL_CONF") or os.path.join(folder_of("XDG_CONFIG_HOME", ".config"),
                                                          "deskctl.conf")


def read_sections(path: str) -> configparser.ConfigParser:
    """The configuration, which may not be there."""
    parser = configparser.ConfigParser(interpolation=None)
    try:
        with open(path, encoding="utf-8") as lines:
            parser.read_file(lines)
    except FileNotFoundError:
        pass
    except (OSError, UnicodeDecodeError, configparser.Error) as error:
        wrong(f"{path}: {' '.join(reason(error).split())}",
              "It has a section [desk] of lines NAME = VALUE, and one for each further desk.")
    return parser


def read_config(desk: str) -> dict[str, str]:
    """The section of a desk in the configuration, which has to be there if it isn't [desk]; paths
    are relative to the file."""
    path = config_path()
    parser = read_sections(path)
    if desk != DESK and not parser.has_section(desk):
        names = ", ".join(map(printable, parser.sections())) or "none"
        wrong(f"{path}: there is no desk {printable(desk)}",
              f"A desk is a section, [{printable(desk)}]. There: {names}.")
    found = dict(parser[desk]) if parser.has_section(desk) else {}
    for name in found:
        if name == "token":
            wrong(f"{path}: a token stands in a file of its own",
                  "Give the file's path: token-file = PATH")
        if name not in SETTINGS:
            wrong(f"{path}: there is no setting {name}", "The settings: " + ", ".join(SETTINGS))
    for name in ("token-file", "ca", "cert", "key"):
        if name in found:
            found[name] = os.path.join(os.path.dirname(path), os.path.expanduser(found[name]))
    return found


def settings_of(words: Names) -> Settings:
    """Options come before the environment, and that before the configuration. Where a desk is
    named, the environment's DESK_URL and its like, which may be another's, don't count."""
    desk, url = getattr(words, "desk", None), getattr(words, "url", None)
    if desk and url:
        wrong("--desk and --url both name a desk", "Give one of them.")
    desk = desk or (None if url else os.environ.get("DESKCTL_DESK"))
    config = read_config(desk or DESK)

    def one(name: str, variable: str) -> Optional[str]:
        given = getattr(words, name.replace("-", "_"), None)
        return given or (None if desk else os.environ.get(variable)) or config.get(name) or None

    return Settings(url=one("url", "DESK_URL"), token_file=one("token-file", "DESK_TOKEN_FILE"),
                    ca=one("ca", "DESK_CA"), cert=one("cert", "DESK_CERT"),
                    key=one("key", "DESK_CERT_KEY"), name=one("name", "DESK_NAME"),
                    program=one("program", "DESK_PROGRAM"), insecure_http=words.insecure_http,
                    retries=words.retries)


def is_loopback(host: str) -> bool:
    try:
        return ipaddress.ip_address(host).is_loopback
    except ValueError:
        return False


def where_of(settings: Settings) -> Where:
    """The desk's address by its URL. The desk itself listens at 127.0.0.1 alone, so that is what
    `localhost` means without TLS."""
    if not settings.url:
        wrong("no desk is named",
              f"Give --url URL, or DESK_URL, or `url = URL` in {config_path()} below [desk]; or"
              " --desk NAME of a section there.",
              "deskctl --help has the first steps.")
    try:
        where = address(settings.url)
    except Unreadable as fault:
        wrong(str(fault), *filter(None, [fault.step]))
    if where.tls:
        return where
    host = "127.0.0.1" if where.host == "localhost" else where.host
    if not is_loopback(host) and not settings.insecure_http:
        wrong(f"http to {host} would send the token where anybody can read it",
              "Use https://, or --insecure-http if the way is safe.")
    return replace(where, host=host)


def read_token(path: str) -> str:
    """The first line of a token file."""
    try:
        line = private_line(path)
    except OSError as error:
        wrong(f"the token file {path}: {reason(error)}",
              "`deskctl token > FILE` makes one; `desk enrol` takes the SHA-256 that it prints.")
    except Exposed as fault:
        if str(fault) == "is no file":
            wrong(f"the token file {path} is no file")
        wrong(f"others can read the token file {path}",
              f"Its token may be known by now. Then make another; if not: chmod 600 {path}")
    if not is_token(line):
        wrong(
            f"the first line of {path} is no token",
            "A token is 16 to 128 printable characters without a space; `deskctl token` makes one.")
    return line.decode()


def tls_of(settings: Settings) -> ssl.SSLContext:
    """TLS 1.2 or later, with the system's certificates or those of --ca."""
    try:
        context = ssl.create_default_context(cafile=settings.ca)
    except (OSError, ssl.SSLError) as error:
        wrong(f"--ca {settings.ca}: {reason(error)}", "It takes a file of certificates in PEM.")
    context.minimum_version = ssl.TLSVersion.TLSv1_2
    if settings.cert:
        try:
            context.load_cert_chain(settings.cert, settings.key, password=no_password)
        except (OSError, ssl.SSLError) as error:
            wrong(f"the client certificate {settings.cert}: {reason(error)}",
                  "--cert takes PEM, and --key its key if that is apart.")
    return context


def no_password() -> NoReturn:
    wrong("the key of the client certificate has a password",
          "deskctl asks for none: keep the key in a file of mode 0600 without one.")


NOBODY = ("Give --token-file FILE, or DESK_TOKEN_FILE, or --cert for a client certificate.",
          "DESK_TOKEN isn't read: an environment is no place for a token.")


def desk_of(settings: Settings, terminal: Terminal) -> Desk:
    """The desk that is named, and who calls it. The mark of who calls says nothing of a token that
    is random."""
    where = where_of(settings)
    context = tls_of(settings) if where.tls else None
    token = read_token(settings.token_file) if settings.token_file else ""
    if not token and not (settings.cert and where.tls):
        wrong("no token is given", *NOBODY[:2 if "DESK_TOKEN" in os.environ else 1])
    secret = (token.encode() if token else read_file(settings.cert or "", BODY_LIMIT,
                                                     "a client certificate has"))
    mark = hashlib.sha256(b"deskctl\0" + str(where).encode() + b"\0" + secret).hexdigest()[:16]
    whose = (f"The token is that of {settings.token_file}."
             if token else "The client certificate is nobody's here.")
    desk = Desk(where, context, token, terminal, mark, whose)
    desk.retries = settings.retries
    return desk
