"""A browser, driven as a person would: by what is written on the page."""
from __future__ import annotations

import base64
import shutil
from pathlib import Path
from typing import Any, Callable

from selenium import webdriver
from selenium.common.exceptions import (
    ElementClickInterceptedException, ElementNotInteractableException,
    StaleElementReferenceException,
)
from selenium.webdriver.chrome.service import Service
from selenium.webdriver.common.action_chains import ActionChains
from selenium.webdriver.common.keys import Keys
from selenium.webdriver.remote.webelement import WebElement

from checks.support.says import fail
from checks.support.waits import until

WORDS = (
    "--headless=new", "--no-sandbox", "--disable-gpu", "--disable-dev-shm-usage",
    "--hide-scrollbars", "--window-size=1300,1000", "--no-first-run", "--disable-extensions",
    "--disable-component-update", "--disable-background-networking", "--disable-sync",
    "--mute-audio",
)
PASSING = (
    StaleElementReferenceException, ElementClickInterceptedException,
    ElementNotInteractableException,
)

# What is shown: by a selector; the last of a tag with a text; the field of a label.
SHOWN = """
return [...document.querySelectorAll(arguments[0])].filter((one) => one.checkVisibility());
"""
NAMED = """
return [...document.querySelectorAll(arguments[0])]
    .filter((one) => one.checkVisibility() && one.innerText.trim() === arguments[1]).pop();
"""
LABELLED = """
const label = [...document.querySelectorAll('label')]
    .find((one) => one.checkVisibility() && one.innerText.trim() === arguments[0]);
return label && document.getElementById(label.htmlFor);
"""
# A file that comes by drag and drop, as the system would bring it.
DROP = """
const [place, name, text] = arguments;
const files = new DataTransfer();
files.items.add(new File([Uint8Array.from(atob(text), (one) => one.charCodeAt(0))], name));
for (const kind of ['dragover', 'drop']) {
    place.dispatchEvent(
        new DragEvent(kind, {dataTransfer: files, bubbles: true, cancelable: true}));
}
"""
SUMS = "return [...document.querySelectorAll('.file-told')].map(one => one.innerText).join(' ')"
MODULE = """
const done = arguments[0];
import('%s').then((module) => %s).then(done, (fault) => done(String(fault)));
"""


class Nobody:
    """In place of what isn't there yet."""

    def click(self) -> None:
        raise ElementNotInteractableException


class Browser:
    """`base` is the address of the page's site, which a test sets."""

    def __init__(self, downloads: Path) -> None:
        self.base = ""
        options = webdriver.ChromeOptions()
        for word in WORDS:
            options.add_argument(word)  # type: ignore[no-untyped-call]
        options.set_capability("goog:loggingPrefs", {"browser": "ALL"})
        service = Service(shutil.which("chromedriver") or "chromedriver")
        self.driver = webdriver.Chrome(options=options, service=service)
        self.driver.set_page_load_timeout(120)
        self.driver.set_script_timeout(120)
        self.downloads = downloads
        downloads.mkdir()
        self.devtools("Browser.setDownloadBehavior", behavior="allow", downloadPath=str(downloads))
        permissions = ["clipboardReadWrite", "clipboardSanitizedWrite"]
        self.devtools("Browser.grantPermissions", permissions=permissions)

    def quit(self) -> None:
        self.driver.quit()

    def begin_anew(self) -> None:
        """As one that was never here. (What a site stores is by its port, and each test has its
        own.)"""
        handles = self.driver.window_handles
        for handle in handles[1:]:
            self.driver.switch_to.window(handle)
            self.driver.close()
        self.driver.switch_to.window(handles[0])
        self.devtools("Network.enable")
        self.devtools("Network.clearBrowserCookies")
        self.driver.get("about:blank")
        self.blocks()
        self.uploads_at(-1)
        self.width(1300)
        self.base = ""
        for file in self.downloads.iterdir():
            file.unlink()
        self.complaints()

    def devtools(self, command: str, **words: object) -> dict[str, Any]:
        found: dict[str, Any] = self.driver.execute_cdp_cmd(command, words)
        return found

    def script(self, text: str, *words: object) -> Any:
        return self.driver.execute_script(text, *words)  # type: ignore[no-untyped-call]

    def all(self, selector: str) -> list[WebElement]:
        """Those that are shown."""
        found: list[WebElement] = self.script(SHOWN, selector)
        return found

    def one(self, selector: str, seconds: float = 30) -> WebElement:
        return until(seconds, selector, lambda: self.all(selector), self.text)[0]

    def text(self) -> str:
        return str(self.script("return document.body.innerText"))

    def sees(self, *texts: str, seconds: float = 40) -> None:
        """The page comes to say all of this."""
        for text in texts:
            until(seconds, f"“{text}”", lambda: text in self.text(), self.text)

    def asks(self, *texts: str) -> None:
        """A question is open, and says all of this."""
        said = self.one("dialog").text
        lacking = [text for text in texts if text not in said]
        if lacking:
            fail(f"the question lacks {lacking}: {said}")

    def asks_no_more(self) -> None:
        until(10, "the question is gone", lambda: not self.all("dialog"), self.text)

    def has(self, what: str, script: str, seconds: float = 30) -> Any:
        """A script comes to give something; what it gave."""

        def given() -> Any:
            return self.script(script)

        return until(seconds, what, given, self.text)

    def texts(self, selector: str) -> list[str]:
        return [one.text for one in self.all(selector)]

    def blocks(self, *urls: str) -> None:
        """From now on requests for these, and no others, fail."""
        self.devtools("Network.setBlockedURLs", urls=urls)

    def uploads_at(self, bytes_a_second: int) -> None:
        """-1: as fast as it goes."""
        self.devtools(
            "Network.emulateNetworkConditions", offline=False, latency=0, downloadThroughput=-1,
            uploadThroughput=bytes_a_second,
        )

    def tries_at_once(self, milliseconds: int = 50) -> None:
        """Until a reload the page waits for so long before each further try."""
        self.module("desk/api.js", f"module.PAUSES.fill({milliseconds})")

    def width(self, pixels: int, scheme: str = "light") -> None:
        media = [{"name": "prefers-color-scheme", "value": scheme}]
        self.devtools("Emulation.setEmulatedMedia", features=media)
        self.devtools(
            "Emulation.setDeviceMetricsOverride", width=pixels, height=900, deviceScaleFactor=1,
            mobile=pixels < 500,
        )

    def open(self, path: str = "/") -> None:
        self.driver.get(self.base + path)
        self.one("#token")

    def sign_in(self, token: str) -> None:
        """Signs in, by the button and not a reload if somebody is signed in."""
        here = self.driver.current_url.startswith(self.base + "/")
        if here and self.all("#leave"):
            self.press("Sign out")
        else:
            self.open()
        self.fill("Your token", token)
        self.press("Sign in")
        self.one(".view h1")

    def go(self, view: str) -> None:
        """Follows the page's own address of a view."""
        self.script("location.hash = arguments[0]", f"#/{view}")
        self.one(".view h1")
        until(20, "the view is read", lambda: "Reading from the desk" not in self.text())

    def press(self, *texts: str, tag: str = "button") -> None:
        """Presses the last that is shown with this text; then the next."""
        for text in texts:
            what = f"{tag} “{text}”"
            self.does(what, lambda: (self.script(NAMED, tag, text) or Nobody()).click())

    def click(self, selector: str) -> None:
        self.does(selector, lambda: (self.script(SHOWN, selector) or [Nobody()])[0].click())

    def does(self, what: str, act: Callable[[], object]) -> None:
        """Does it once it can be done: what is written may be made anew meanwhile."""

        def done() -> bool:
            try:
                act()
            except PASSING:
                return False
            return True

        until(30, what, done, self.text)

    def field(self, label: str) -> WebElement:
        """The shown field with this label, once it is there."""

        def labelled() -> Any:
            return self.script(LABELLED, label)

        found: WebElement = until(30, f"the field “{label}”", labelled, self.text)
        return found

    def fill(self, label: str, text: str) -> None:
        def filled() -> None:
            one = self.field(label)
            one.send_keys(Keys.CONTROL, "a")
            one.send_keys(text or Keys.DELETE)

        self.does(f"“{text}” in the field “{label}”", filled)

    def choose(self, label: str, path: Path) -> None:
        """Chooses a file, and waits until its SHA-256 is there."""
        what = f"{path} in the field “{label}”"
        self.does(what, lambda: self.field(label).send_keys(str(path)))
        self.has_sum(path)

    def drop(self, label: str, path: Path) -> None:
        """Drops a file into the frame around the field with this label, and waits for its
        SHA-256."""
        place = self.script("return arguments[0].closest('.drop')", self.field(label))
        self.script(DROP, place, path.name, base64.b64encode(path.read_bytes()).decode())
        self.has_sum(path)

    def has_sum(self, path: Path) -> None:
        until(30, f"the SHA-256 of {path}", lambda: "SHA-256" in self.script(SUMS))

    def types(self, *keys: str) -> None:
        """To whatever has the focus; an element's own keys would be refused by a field for
        files."""
        chain = ActionChains(self.driver)  # type: ignore[no-untyped-call]
        chain.send_keys(*keys).perform()  # type: ignore[no-untyped-call]

    def module(self, name: str, text: str) -> Any:
        """What an expression over a module of the page, `module`, gives there."""
        return self.driver.execute_async_script(MODULE % (f"/page/{name}", text))

    def shot(self, path: Path, width: int, most: int = 6000, scale: float = 1) -> None:
        """A picture of the page from its top to its foot, at most so high."""
        foot = self.script(
            "return document.querySelector('footer').getBoundingClientRect().bottom + scrollY"
        )
        clip = {"x": 0, "y": 0, "width": width, "height": min(foot, most), "scale": scale}
        shown = self.devtools("Page.captureScreenshot", captureBeyondViewport=True, clip=clip)
        path.write_bytes(base64.b64decode(shown["data"]))

    def complaints(self) -> list[str]:
        """What the browser complained of since the last look, refusals of the desk aside."""
        entries = self.driver.get_log("browser")  # type: ignore[no-untyped-call]
        lines = [str(entry["message"]) for entry in entries]
        return [line for line in lines if "Failed to load resource" not in line]
