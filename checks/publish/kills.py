"""kills.py STOP FOLDER PROGRAM WORD..: runs the Python program, and kills it before its STOPth
step: a file below FOLDER that it opens, makes, renames, links or removes, or a program that it
starts."""
from __future__ import annotations

import os
import runpy
import signal
import sys

STOP, FOLDER = int(sys.argv[1]), sys.argv[2]
STEPS = {
    "open", "os.mkdir", "os.rename", "os.symlink", "os.chmod", "os.remove", "os.rmdir",
    "subprocess.Popen",
}
taken: list[str] = []


def look(event: str, words: tuple[object, ...]) -> None:
    below = any(isinstance(one, str) and one.startswith(FOLDER) for one in words)
    if event == "subprocess.Popen" or event in STEPS and below:
        taken.append(event)
        if len(taken) == STOP:
            os.kill(os.getpid(), signal.SIGKILL)


sys.addaudithook(look)
sys.argv = sys.argv[3:]
runpy.run_path(sys.argv[0], run_name="__main__")
