"""A page of which a part doesn't come signs nobody in, says so, and puts no token into an
address."""
from __future__ import annotations

import functools
import http.server
import shutil
import threading
from pathlib import Path
from typing import Iterator

import pytest
from selenium.webdriver.common.keys import Keys

from checks.support.browser import Browser
from checks.support.messages import token
from checks.support.tools import ROOT

ASKED: list[str] = []


class Files(http.server.SimpleHTTPRequestHandler):
    def log_message(self, format: str, *args: object) -> None:
        ASKED.append(self.path)


@pytest.fixture
def halved(tmp_path: Path) -> Iterator[str]:
    """The address of a page without one module, served by a site that forbids no form."""
    shutil.copytree(ROOT / "page", tmp_path / "page")
    (tmp_path / "page/views/dom.js").unlink()
    files = functools.partial(Files, directory=str(tmp_path))
    with http.server.ThreadingHTTPServer(("127.0.0.1", 0), files) as server:
        threading.Thread(target=server.serve_forever, daemon=True).start()
        yield f"http://127.0.0.1:{server.server_address[1]}/page/"
        server.shutdown()


def test_it_says_so_and_lets_no_token_into_an_address(browser: Browser, halved: str) -> None:
    browser.driver.get(halved)
    assert "If it stays so, a part of it didn’t come: reload it." in browser.text()
    assert not browser.one("#enter").is_enabled()
    browser.one("#token").send_keys(token("olga"), Keys.ENTER)
    browser.script("document.getElementById('enter').click()")
    assert browser.driver.current_url == halved
    assert not [path for path in ASKED if "?" in path]
