"""What is shown, by the page's own list of checks, since no package has axe-core: names of
controls, contrast, structure and sizes."""
from __future__ import annotations

from checks.support.browser import Browser
from checks.support.says import fail

ROLES = {
    "button", "link", "textbox", "searchbox", "combobox", "checkbox", "progressbar", "dialog",
    "navigation", "table",
}
# How wide the window is, and the scheme of its colours. (640 is 1280 at 200 %.)
WINDOWS = ((1280, "light"), (640, "dark"), (360, "light"))

# Each element with a text of its own whose contrast against its ground is below 4.5 (3 for a large
# text), and each edge of a field below 3.
CONTRAST = r"""
const channel = (of) => (of /= 255) <= 0.04045 ? of / 12.92 : ((of + 0.055) / 1.055) ** 2.4;
const parsed = (text) => text.match(/[\d.]+/g).map(Number);
const light = ([r, g, b]) => 0.2126 * channel(r) + 0.7152 * channel(g) + 0.0722 * channel(b);
const ratio = (one, other) => {
    const [a, b] = [light(one), light(other)].sort((x, y) => y - x);
    return (a + 0.05) / (b + 0.05);
};
const ground = (one) => {
    for (; one; one = one.parentElement) {
        const colour = parsed(getComputedStyle(one).backgroundColor);
        if (colour.length < 4 || colour[3] > 0) return colour;
    }
    return [255, 255, 255];
};
const low = []; let pairs = 0;
for (const one of document.querySelectorAll('body, body *')) {
    if (!one.checkVisibility() || one.closest('dialog:not([open])')) continue;
    const style = getComputedStyle(one), about = `${one.tagName} ${one.className}`;
    const own = [...one.childNodes].some((node) => node.nodeType === 3 && node.data.trim() !== '')
        || 'value' in one && one.value !== '';
    if (own && !one.disabled) {
        pairs += 1;
        const size = parseFloat(style.fontSize);
        const large = size >= 24 || size >= 18.66 && Number(style.fontWeight) >= 700;
        const found = ratio(parsed(style.color), ground(one));
        const text = one.textContent.slice(0, 30);
        if (found < (large ? 3 : 4.5)) low.push(`${about} “${text}” ${found.toFixed(2)}`);
    }
    if (one.matches('input, textarea, button:not(:disabled), .button')) {
        pairs += 1;
        const outer = ground(one.parentElement);
        const edge = ratio(parsed(style.borderTopColor), outer);
        const found = Math.max(edge, ratio(ground(one), outer));
        if (found < 3) low.push(`edge of ${about} ${found.toFixed(2)}`);
    }
}
return [pairs, low];
"""

# What is wrong with the structure: ids that come twice, references to nothing, no heading, rows of
# tables without a header, targets that are too small, a page that is too wide, texts cut off.
STRUCTURE = r"""
const wrong = [];
const all = (selector) => [...document.querySelectorAll(selector)].filter(
    (one) => one.checkVisibility());
const ids = [...document.querySelectorAll('[id]')].map((one) => one.id);
for (const id of ids) {
    if (ids.indexOf(id) !== ids.lastIndexOf(id)) wrong.push(`the id ${id} comes twice`);
}
for (const name of ['aria-describedby', 'aria-labelledby', 'for']) {
    for (const one of document.querySelectorAll(`[${name}]`)) {
        for (const id of one.getAttribute(name).split(' ')) {
            if (!document.getElementById(id)) wrong.push(`nothing has the id ${id}`);
        }
    }
}
const heads = all('h1').length;
if (heads !== 1) wrong.push(`${heads} headings h1`);
const root = document.documentElement;
if (root.lang !== 'en' || !document.title) wrong.push('no language or no title');
for (const one of all('button, input, textarea, summary, nav a, .button')) {
    const {width, height} = one.getBoundingClientRect();
    const size = `${Math.round(width)} by ${Math.round(height)}`;
    const small = !one.classList.contains('skip') && (height < 24 || width < 24);
    if (small) wrong.push(`a target of ${size}: ${one.textContent}`);
}
for (const row of all('tbody tr')) {
    const heads = row.querySelectorAll('[role="rowheader"]').length;
    if (heads !== 1) wrong.push(`${heads} headers of the row ${row.textContent.slice(0, 40)}`);
}
if (root.scrollWidth > root.clientWidth) wrong.push('wider than the window');
for (const one of all('main *')) {
    const cut = !one.classList.contains('unseen') && one.scrollWidth > one.clientWidth + 1
        && getComputedStyle(one).overflowX === 'hidden';
    if (cut) wrong.push(`cut off: ${one.textContent.slice(0, 40)}`);
}
return wrong;
"""


def unnamed(browser: Browser) -> list[str]:
    """The controls that a screen reader would announce without a name."""
    found = []
    for node in browser.devtools("Accessibility.getFullAXTree")["nodes"]:
        role = node.get("role", {}).get("value")
        name = str(node.get("name", {}).get("value", "")).strip()
        if role in ROLES and not node.get("ignored") and not name:
            found.append(f"no name for a {role}")
    return found


def looked(browser: Browser, what: str) -> None:
    """What is shown now, at three widths, in both schemes."""
    for width, scheme in WINDOWS:
        browser.width(width, scheme)
        pairs, low = browser.script(CONTRAST)
        wrong = [*browser.script(STRUCTURE), *unnamed(browser), *low]
        if wrong or pairs < 5:
            fail(f"{what}, {width} wide, {scheme}, {pairs} pairs of colours: {wrong[:8]}")
    browser.width(1300)
