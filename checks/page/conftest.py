"""The page's ground: a desk behind nginx for the browser, and what it showed where a test
failed."""
from __future__ import annotations

import re
from typing import Any, Generator, Iterator

import pytest

from checks.conftest import NewDesk
from checks.page.site import Site
from checks.support.browser import Browser
from checks.support.program import Program
from checks.support.tools import ROOT

# What stays of a test that failed, and the pictures that the tests take.
PICTURES = ROOT / "checks" / "out" / "page"


@pytest.hookimpl(hookwrapper=True)  # type: ignore[misc]
def pytest_runtest_makereport(item: pytest.Function) -> Generator[None, Any, None]:
    """A failure shows what the page showed."""
    report = (yield).get_result()
    browser = item.funcargs.get("browser")
    if not report.failed or not isinstance(browser, Browser):
        return
    PICTURES.mkdir(parents=True, exist_ok=True)
    path = PICTURES / f"failed-{re.sub('[^a-z0-9_]+', '-', item.name)}.png"
    try:
        browser.driver.save_screenshot(str(path))
        said = f"at {browser.driver.current_url}, in {path}:\n{browser.text()}"
    except Exception as fault:
        said = f"nothing: {fault}"
    report.sections.append(("what the page showed", said))


@pytest.fixture
def site(desk: Program, new_desk: NewDesk, browser: Browser) -> Iterator[Site]:
    """A desk of PEOPLE behind nginx, where the browser is."""
    with Site(desk, new_desk()) as made:
        browser.base = made.base
        yield made


def shots(browser: Browser, name: str) -> None:
    """Pictures of the view: light, dark and narrow."""
    PICTURES.mkdir(parents=True, exist_ok=True)
    for scheme, width in (("light", 1100), ("dark", 1100), ("light", 360)):
        browser.width(width, scheme)
        browser.shot(PICTURES / f"{name}-{scheme}-{width}.png", width)
    browser.width(1300)
