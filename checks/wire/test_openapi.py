"""page/wire/openapi.json beside page/wire/refusals.json, the model and the requests of days.

Of the days of checks/support and of what is refused beside them (refusals.py), each JSON body that
is accepted and each response is of the schema that it has in the document. The responses are
compared with the program's elsewhere, byte by byte; here no program is needed.
"""
from __future__ import annotations

import json
import re
from typing import Any, Callable, Dict, List, Optional, Set, Tuple

import pytest

from checks.model import wishes
from checks.support.days import DAYS
from checks.support.refusals import REFUSED
from checks.support.steps import Step
from checks.support.wire import COMMANDS, REFUSALS, filled, wire

Operation = Tuple[str, str]

DOCUMENT = wire("openapi")
EVERY_DAY = {**DAYS, "what is refused": [Step(*one) for one in REFUSED.values()]}
# No request has it: memory is refused, or the store fails.
OF_THE_MACHINE = "503"


def followed(value: Any) -> Any:
    """What a reference stands for."""
    while "$ref" in value:
        found = DOCUMENT
        for part in value["$ref"].removeprefix("#/").split("/"):
            found = found[part]
        value = found
    return value


def operations() -> Dict[Operation, Any]:
    return {
        (path, method): operation
        for path, methods in DOCUMENT["paths"].items()
        for method, operation in methods.items()
    }


# ---- JSON Schema 2020-12, of which the document uses these words; `description` says nothing of a
# value. Each gives what is wrong with a value, with its place.

TYPES = {
    "array": list,
    "boolean": bool,
    "integer": int,
    "null": type(None),
    "object": dict,
    "string": str,
}


def is_of_type(value: Any, name: str) -> bool:
    return isinstance(value, TYPES[name]) and (not isinstance(value, bool) or name == "boolean")


# A word of one value: whether the value is as wanted.
HOLDS: Dict[str, Callable[[Any, Any], Any]] = {
    "description": lambda value, text: True,
    "type": is_of_type,
    "enum": lambda value, wanted: value in wanted,
    "const": lambda value, wanted: value == wanted,
    "pattern": lambda value, wanted: re.search(wanted, value) is not None,
    "minimum": lambda value, least: value >= least,
    "maximum": lambda value, most: value <= most,
    "minItems": lambda value, least: len(value) >= least,
    "maxItems": lambda value, most: len(value) <= most,
    "required": lambda value, keys: all(key in value for key in keys),
}


def inside(word: str, wanted: Any, value: Any, schema: Any, at: str) -> List[str]:
    """What is wrong below a word that has schemas of parts."""
    if word == "additionalProperties":
        return [f"{at}: {key} isn't told of" for key in value if key not in schema["properties"]]
    if word == "properties":
        parts = [(value[key], its, f"{at}.{key}") for key, its in wanted.items() if key in value]
    elif word == "items":
        parts = [(item, wanted, f"{at}[{number}]") for number, item in enumerate(value)]
    elif word == "prefixItems":
        parts = [(item, its, f"{at}[{no}]") for no, (item, its) in enumerate(zip(value, wanted))]
    elif word == "allOf":
        parts = [(value, its, at) for its in wanted]
    elif word == "oneOf":
        fit = sum(not faults(value, its, at) for its in wanted)
        return [f"{at}: {value!r} is of {fit} of {len(wanted)} forms"] if fit != 1 else []
    else:
        return [f"{at}: {word} is a word that this check doesn't know"]
    return [fault for part in parts for fault in faults(*part)]


def faults(value: Any, schema: Any, at: str) -> List[str]:
    """Why the value isn't of the schema, each with its place."""
    schema = followed(schema)
    if "type" in schema and not is_of_type(value, schema["type"]):
        return [f"{at}: {value!r} is no {schema['type']}"]
    found = []
    for word, wanted in schema.items():
        if word not in HOLDS:
            found += inside(word, wanted, value, schema, at)
        elif not HOLDS[word](value, wanted):
            found.append(f"{at}: {value!r} isn't as {word} {wanted!r} has it")
    return found


# ---- what the documents say


def refusals_told() -> List[Any]:
    """Each response that is a refusal: its operation and status, with what it says."""
    return [
        pytest.param(status, followed(its), id=f"{method} {path} {status}")
        for (path, method), operation in operations().items()
        for status, its in operation["responses"].items()
        if status != "200"
    ]


def numbers_of(response: Any) -> List[int]:
    """The numbers of the refusals that a response may be."""
    schema = response["content"]["application/json"]["schema"]
    numbers: List[int] = schema["allOf"][1]["properties"]["refused"]["enum"]
    return numbers


@pytest.mark.parametrize("status, response", refusals_told())
def test_a_refusal_stands_at_its_status_with_its_number(status: str, response: Any) -> None:
    numbers = numbers_of(response)
    assert {str(REFUSALS[number][1]) for number in numbers} == {status}
    assert response["description"].split(", ") == [REFUSALS[number][0] for number in numbers]


def test_each_refusal_of_a_request_stands_at_an_operation() -> None:
    told = {
        number
        for response in refusals_told()
        for number in numbers_of(response.values[1])
    }
    # (a method that a path lacks is no operation)
    due = {no for no, (name, status) in REFUSALS.items() if status and name != "BadMethod"}
    lacking = [REFUSALS[number] for number in sorted(due - told)]
    assert lacking == [], "no response of page/wire/openapi.json is it"


def kind_of(operation: str) -> str:
    """The word of a command's text, by the name of its operation."""
    word = re.sub("[A-Z]", lambda one: f"-{one[0].lower()}", operation)
    return re.sub("^(raise|import)-.*", r"\1", word)


def test_the_rules_and_if_match_refuse_a_command_as_in_the_model() -> None:
    told: Set[Tuple[str, str]] = set()
    for path in COMMANDS:
        operation = DOCUMENT["paths"][path]["post"]
        for status in {"404", "409", "412"} & {*operation["responses"]}:
            names = followed(operation["responses"][status])["description"].split(", ")
            told.update((kind_of(operation["operationId"]), name) for name in names)
    told = {(kind, name) for kind, name in told if name not in ("KeyReused", "Full")}
    due = {(kind, name) for kind, names in wishes.REFUSED.items() for name in names}
    due = {(kind, name) for kind, name in due if name not in ("BadField", "BadBody")}
    assert sorted(due - told) == [], "page/wire/openapi.json lacks it at the command's routes"
    assert sorted(told - due) == [], "REFUSED of checks/model/wishes.py lacks it"


# ---- the days


def parted(message: bytes) -> Tuple[str, Dict[str, str], bytes]:
    """The first line, the fields by their names, and the body."""
    head, _, body = message.partition(b"\r\n\r\n")
    first, *rest = head.decode().split("\r\n")
    return first, dict(line.split(": ", 1) for line in rest), body


def operation_at(path: str, method: str) -> Optional[Operation]:
    for told, its in operations():
        if its == method.lower() and re.fullmatch(filled(told, "[^/]+", "[^/]+"), path):
            return told, its
    return None


def content_fits(content: Any, kind: str, body: bytes) -> None:
    """The body is of the kind that is told of, and of its schema."""
    assert kind in content
    if kind == "application/json":
        assert faults(json.loads(body), content[kind]["schema"], "body") == []


def step_fits(given: bytes, due: bytes) -> Tuple[Optional[Operation], str]:
    """The operation of a request, and the status of its response; the request, if it is taken, and
    the response are as told."""
    first, fields, body = parted(given)
    method, path, _ = first.split(" ")
    answer, answered, shown = parted(due)
    status = answer.split(" ")[1]
    at = operation_at(path, method)
    if at is None:
        assert status in ("404", "405"), f"{method} {path} isn't told of"
        return None, status
    operation = operations()[at]
    response = followed(operation["responses"][status])
    content_fits(response["content"], answered["Content-Type"], shown)
    if status == "200":
        for parameter in map(followed, operation.get("parameters", [])):
            if parameter["in"] == "header" and parameter["required"]:
                assert parameter["name"] in fields
        asked = operation.get("requestBody", {"content": {}})["content"]
        if "application/json" in asked:
            content_fits(asked, "application/json", body)
    return at, status


@pytest.mark.parametrize("day", EVERY_DAY)
def test_each_request_and_response_of_a_day_is_as_told(day: str) -> None:
    # (an input without a byte has no response)
    steps = [step for step in EVERY_DAY[day] if step.due]
    assert steps
    for number, step in enumerate(steps, 1):
        try:
            step_fits(step.given, step.due)
        except (AssertionError, KeyError) as fault:
            pytest.fail(f"request {number}: {fault!r}\n{step.given!r}\n{step.due!r}")


def seen() -> Set[Tuple[Optional[Operation], str]]:
    steps = [step for steps in EVERY_DAY.values() for step in steps if step.due]
    return {step_fits(step.given, step.due) for step in steps}


def test_each_operation_is_accepted_on_a_day() -> None:
    accepted = {at for at, status in seen() if status == "200"}
    lacking = [one for one in operations() if one not in accepted]
    assert lacking == [], "no day of checks/support has it"


def test_each_status_but_that_of_an_outage_is_seen_on_a_day() -> None:
    told = {status for operation in operations().values() for status in operation["responses"]}
    assert told - {status for _, status in seen()} == {OF_THE_MACHINE}
