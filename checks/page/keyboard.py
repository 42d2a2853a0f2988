"""A page that is used by keys alone."""
from __future__ import annotations

from selenium.webdriver.common.keys import Keys

from checks.support.browser import Browser
from checks.support.says import fail

FOCUSED = """
const one = document.activeElement, style = getComputedStyle(one);
return {
    text: (one.textContent.trim() || one.labels?.[0]?.textContent || '').trim(), tag: one.tagName,
    outline: `${style.outlineStyle} ${style.outlineWidth}`,
};
"""


class Keyboard:
    """Nothing but keys; each stop has to be seen."""

    def __init__(self, browser: Browser) -> None:
        self.browser = browser

    def focused(self) -> dict[str, str]:
        found: dict[str, str] = self.browser.script(FOCUSED)
        return found

    def tab_to(self, text: str, most: int = 60) -> None:
        for _ in range(most):
            self.browser.types(Keys.TAB)
            at = self.focused()
            if at["tag"] not in ("BODY", "MAIN") and at["outline"] != "solid 3px":
                fail(f"the focus isn't seen at {at}")
            if at["text"].startswith(text):
                return
        fail(f"no way by keyboard to “{text}”")
