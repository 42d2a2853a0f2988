"""The desk as deskctl asks it: tries until an answer comes, and what an answer means."""
from __future__ import annotations

import http.client
import io
import json
import random
import re
import ssl
import time
from typing import Any, Collection, Iterator, Optional

from .faults import LOOK, REFUSED, Lost, NoAnswer, Stop, no_desks
from .http import JSON, PIECE, TEXT, UNTAKEN, Answer, Call, Site, Where, not_a_desk
from .refusals import next_steps
from .terminal import Progress, Terminal
from .words import printable

# Seconds between tries, and how many tries follow the first: a minute of them.
FIRST_PAUSE, LONGEST_PAUSE, RETRIES = 0.25, 30.0, 8
# For so many seconds it is asked again what is no command, where nobody listens.
NOBODY = 3.0
# The greatest number that a path takes.
LAST = 9_999_999
# A part of a list has so many objects at most, and so has a search by a digest.
PART = 1000
# So many texts at most are looked for in a list's bytes.
FEW = 16
# Longer bodies are sent once the token is known to be somebody's.
PREFLIGHT = 1 << 20


class Desk(Site):
    """The desk at an address, as one caller: `caller` is a mark of who that is, for the journal,
    and `whose` says it where the desk doesn't know them."""

    retries = RETRIES
    known_caller = False

    def __init__(self, where: Where, context: Optional[ssl.SSLContext], token: str,
                 terminal: Terminal, caller: str, whose: str):
        super().__init__(where, context, token, "deskctl")
        self.terminal, self.caller, self.whose = terminal, caller, whose

    def ask(self, call: Call) -> Answer:
        """The answer to a call. Where none came it is asked again, by the same words and the same
        key, unless the asking ends before, or nobody listens to what is no command."""
        if len(call.body) > PREFLIGHT and not self.known_caller:
            self.preflight()
        pause, sent, text = FIRST_PAUSE, False, ""
        end = time.monotonic() + NOBODY
        for left in range(self.retries, -1, -1):
            nobody = False
            try:
                with Progress(self.terminal, len(call.body), str(self.where)) as progress:
                    answer = self.once(call, progress.at)
                if not answer.open_ended():
                    return self.judged(answer)
                text, sent = answer.trouble(), sent or answer.status not in UNTAKEN
            except NoAnswer as lost:
                text, sent = str(lost), sent or lost.sent
                nobody = lost.nobody and not call.is_command()
            except Stop as stop:
                stop.tried = sent
                raise
            now, wait = time.monotonic(), pause * random.uniform(0.8, 1.2)
            if not left or now + wait >= self.until or nobody and now >= end:
                break
            wait = min(wait, end - now) if nobody else wait
            self.terminal.note(f"deskctl: {printable(text)}; again in {wait:.1f} s")
            time.sleep(wait)
            pause = min(pause * 2, LONGEST_PAUSE)
        raise Lost(text, sent,
                   *([] if sent else ["Is the desk running there, and is the URL right?"]))

    def preflight(self) -> None:
        """Whether the token is somebody's, before a long body goes out."""
        try:
            self.get("/level").of_type(TEXT)
        except Stop as stop:
            # None of these tries was the command's.
            stop.tried = False
            if isinstance(stop, Lost):
                stop.sent = False
            raise

    def judged(self, answer: Answer) -> Answer:
        """An answer that is the desk's and no refusal."""
        refused = answer.refusal()
        if refused is None and answer.status == 200:
            self.known_caller = True
            return answer
        if refused is None:
            raise proxy_refusal(answer)
        if refused.number in (41, 42, 43):
            raise Lost(str(refused), True, *next_steps(refused.number))
        if refused.number == 20:
            refused.more = [self.whose]
        raise refused

    def get(self, path: str) -> Answer:
        return self.ask(Call("GET", path))

    def listed(self, path: str, first: int = 1,
               texts: Optional[Collection[str]] = None) -> Iterator[dict[str, Any]]:
        """The objects of a list of numbered things, in parts, from this number on. With `texts` at
        least those that have one of them; it ends once there is none left to look for."""
        more = True
        while more and first <= LAST and (texts is None or texts):
            more = False
            answer = self.get(f"{path}/from/{first}")
            last = last_without(answer, texts) if texts else 0
            if last >= first:
                first, more = last + 1, True
                continue
            for value in ascending(objects(answer), first):
                first, more = value["number"] + 1, True
                yield value

    def requests_with(self, digest: str) -> Optional[list[dict[str, Any]]]:
        """The first PART requests that have a digest; nothing where the caller's token was typed as
        one."""
        if self.is_token(digest):
            return None
        return list(ascending(objects(self.get(f"/requests/with/{digest}"))))


def objects(answer: Answer) -> Iterator[dict[str, Any]]:
    """The objects of an array, one after another: a list of any length takes little memory."""
    answer.of_type(JSON).body.seek(0)
    decoder, text = json.JSONDecoder(), io.TextIOWrapper(answer.body, encoding="utf-8")
    rest, at = text.read(PIECE), 1
    if rest[:1] != "[":
        raise not_a_desk(answer)
    while rest[at:at + 1] != "]":
        try:
            found, end = decoder.raw_decode(rest, at)
        except RecursionError:
            raise not_a_desk(answer) from None
        except ValueError:
            found, end = None, len(rest)
        if end < len(rest):
            if not isinstance(found, dict):
                raise not_a_desk(answer)
            yield found
            at = end + 1 if rest[end] == "," else end
            continue
        more = text.read(PIECE)
        if not more:
            raise not_a_desk(answer)
        rest, at = rest[at:] + more, 0


def ascending(values: Iterator[dict[str, Any]], first: int = 1) -> Iterator[dict[str, Any]]:
    """The objects of a list whose numbers ascend from this one on."""
    for value in values:
        if not isinstance(value.get("number"), int) or value["number"] < first:
            raise no_desks("its list isn't in order")
        first = value["number"] + 1
        yield value


def last_without(answer: Answer, texts: Collection[str]) -> int:
    """The last number in a part of a list that has none of these texts, which needn't be parsed; 0
    of any other."""
    if len(texts) > FEW:
        return 0
    data = answer.of_type(JSON).data()
    # (no text of JSON has this: its quotes would be escaped)
    last = re.match(rb'"number":([0-9]{1,7})\b', data[max(data.rfind(b'"number":'), 0):][:20])
    if last is None or any(json.dumps(text).encode() in data for text in texts):
        return 0
    return int(last[1])


def proxy_refusal(answer: Answer) -> Stop:
    """An answer without the desk's JSON: that of a proxy, or of something else."""
    steps = {
        400: ("The proxy asks for a client certificate, or has another one than it knows: --cert,"
              " --key."),
        401: "The proxy doesn't know you.",
        403: "The proxy doesn't let you in.",
        404: LOOK,
        413: "The file is longer than the proxy lets through."}
    if answer.status < 400:
        return not_a_desk(answer)
    text = (f"refused by the proxy: {answer.status} {http.client.responses.get(answer.status, '')}".
            rstrip())
    return Stop(REFUSED, text, steps.get(answer.status, "Ask who keeps the proxy."))
