"""packaging/demo.sh: the desk to look at, and pictures of its views, light, dark and narrow, in
checks/out/page/. Those that docs/ has are there, smaller."""
from __future__ import annotations

import signal
import subprocess
from pathlib import Path

import pytest

from checks.page.conftest import PICTURES, shots
from checks.support.browser import Browser
from checks.support.says import expect
from checks.support.tools import ROOT, end_with_parent

# Who looks at what, and the pictures' names.
SHOWN = (
    ("rita", "requests", "queue"), ("rita", "requests/6", "request"),
    ("otto", "proposals/4", "proposal"), ("olga", "lists", "lists"),
)


def interruptible() -> None:
    """(A suite that runs in the background ignores SIGINT, and would hand that on.)"""
    signal.signal(signal.SIGINT, signal.SIG_DFL)
    end_with_parent()


@pytest.mark.long(60)
@pytest.mark.needs("curl", "nginx", "python3")
def test_the_demo_has_what_its_lines_say_until_it_is_interrupted(
    browser: Browser, program_path: Path, room: Path
) -> None:
    words = [ROOT / "packaging" / "demo.sh", program_path, room / "demo"]
    with subprocess.Popen(
        words, stdout=subprocess.PIPE, text=True, preexec_fn=interruptible
    ) as demo:
        try:
            assert demo.stdout
            lines = [demo.stdout.readline() for _ in range(9)]
            assert "/ has a demo desk." in lines[0] and str(room / "demo") in lines[8], lines
            browser.base = lines[0].split("/ ")[0]
            pictures(browser, {line.split()[0]: line.split()[2] for line in lines[1:8]})
            demo.send_signal(signal.SIGINT)
            expect(demo.wait(60), 0, "the status of packaging/demo.sh")
        finally:
            demo.terminate()


def pictures(browser: Browser, tokens: dict[str, str]) -> None:
    browser.open()
    shots(browser, "sign-in")
    for name, view, file in SHOWN:
        browser.sign_in(tokens[name])
        browser.go(view)
        if file in ("queue", "request"):
            browser.width(1100)
            browser.shot(PICTURES / f"page-{file}.png", 1100, 1000, 0.9)
        shots(browser, file)
