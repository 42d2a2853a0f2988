#!/usr/bin/env python3
"""What this repository asks of the Rattle kit. What counts as proved is what rt says.

kit.py differs: both kits, where this machine's isn't one that the gate has passed with.
kit.py ci: `rt ci`, with as many checks side by side as there are processors and memory.
kit.py lib WORD..: `rt lib WORD..`, but that it proves the library from nothing, and builds its
  statements alone, as `rt ci` does: crates above load them sooner than its proofs (docs/GATE.md has
  what that saves). It does so inside of rt's module rtlib. Status 86: this rt has another form.
"""

from __future__ import annotations

import importlib.machinery
import importlib.util
import os
import re
import shutil
import subprocess
import sys
from typing import Any

ROOT = os.path.dirname(os.path.dirname(os.path.realpath(__file__)))
OTHER_FORM = 86


def version() -> str:
    """This machine's kit."""
    if not shutil.which("rt"):
        return "none"
    ran = subprocess.run(["rt", "version"], stdout=subprocess.PIPE, text=True, check=False)
    return ran.stdout.strip() or "unknown"


def differs() -> str:
    """Both kits, where this machine's isn't one that README's last line names."""
    with open(f"{ROOT}/README.md", encoding="utf-8") as text:
        last = text.read().rstrip().rpartition("\n")[2]
    passed = re.findall("`([^`]+)`", last) if last.startswith("The gate has passed with ") else []
    if version() in passed:
        return ""
    return f"this machine's kit is {version()}; the gate has passed with {', '.join(passed)}\n"


def free_memory() -> int:
    """In bytes."""
    with open("/proc/meminfo", encoding="ascii") as text:
        found = re.search(r"MemAvailable:\s+(\d+)", text.read())
    return 1024 * int(found[1]) if found else 0


def lanes() -> int:
    """How many checks may run side by side, with 5 GB each. By itself rt counts 5 to 9 GB for a
    check, which takes 1 to 7, and would leave processors idle."""
    return max(1, min(free_memory() // 5_120_000_000, len(os.sched_getaffinity(0))))


def loaded() -> Any:
    """The command rt, a file of Python, as a module whose libraries are built of statements."""
    loader = importlib.machinery.SourceFileLoader("rt_command", os.path.realpath(sys.argv[0]))
    sys.dont_write_bytecode = True
    spec = importlib.util.spec_from_loader("rt_command", loader)
    rt: Any = importlib.util.module_from_spec(spec) if spec else None
    loader.exec_module(rt)
    lib = rt.rtlib

    def build(crate: Any, flags: list[str], anew: bool) -> int:
        at = os.path.dirname(crate.rlib)
        # (statements fit only the libraries over which they were proved)
        over = "\n".join(lib.sum_of(f"{library.rlib}/format") for library in crate.below())
        if crate.is_built() and lib.text_of(f"{at}/over") in (None, over):
            return 0
        shutil.rmtree(at, ignore_errors=True)
        os.makedirs(at)
        words = [*crate.words(flags, keeps=False), "--statements", "-o", crate.rlib]
        status = int(crate.call(lib.RATTLE, "build", *words))
        for name, text in (("over", over), ("stamp", crate.stamp())) if status == 0 else ():
            with open(f"{at}/{name}", "w", encoding="utf-8") as file:
                file.write(text)
        return status

    lib.Crate.build_rlib = build
    return rt


def main(words: list[str]) -> int:
    if words == ["differs"]:
        sys.stdout.write(differs())
        return 0
    if words == ["ci"]:
        os.environ["RT_JOBS"] = str(lanes())
        os.execvp("rt", ["rt", "ci"])
    if words[:1] == ["lib"]:
        sys.argv[0] = shutil.which("rt") or "rt"
        try:
            return int(loaded().main(words))
        except (AttributeError, ImportError, NameError, SyntaxError, TypeError) as fault:
            print(f"kit: {type(fault).__name__}: {fault}")
            return OTHER_FORM
    print("usage: kit.py differs | ci | lib WORD..", file=sys.stderr)
    return 2


if __name__ == "__main__":
    sys.exit(main(sys.argv[1:]))
