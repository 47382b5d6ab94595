#!/usr/bin/env python3
"""Takes the pictures of docs/AUDIT.md, of an audit's page, or measures one.

    audit_pictures.py PAGE FOLDER    writes the pictures into the folder
    audit_pictures.py --measure      prints how long the page of 13,000 texts takes to open and to filter

The picture of the page's beginning has notes. It needs what tests/test_audit_page.py needs.
"""
import os
import pathlib
import sys
import time
from typing import Any

ROOT = pathlib.Path(__file__).resolve().parent.parent
sys.dont_write_bytecode = True
sys.path.insert(0, str(ROOT / "tests"))
import conftest  # noqa: F401, since it sets where the package is
from test_audit_page import browser, many_texts, opened, page_of_many

# Notes of the page: the part beside which each is written, the first that a selector finds with these words.
NOTES = [
    ("#unfold", "", "Filter: hides what lacks these words"),
    (".to-do li", "as registered", "Likely mistakes first, each with a link"),
    (".summary tr", "texts", "Damaged texts are refused, not repaired"),
    (".summary tr", "CRSs", "How many CRSs there really are"),
    (".summary tr", "near misses", "CRSs that look alike and aren't the same"),
    ("#registry h3", "", "A CRS that isn't as its code says"),
    ("#registry .parts tr", "flattening", "Marked: what differs"),
]
# Writes a note at the right edge, with a line of dots from where the part's words end.
NOTE = """
const [selector, words, note] = arguments;
const part = [...document.querySelectorAll(selector)].find(it => it.textContent.includes(words));
const range = document.createRange();
range.selectNodeContents(part.querySelector('td:last-child') ?? part);
const box = [...range.getClientRects()].filter(it => it.width).reduce((a, b) => a.right > b.right ? a : b);
document.body.style.position = 'relative';
const body = document.body.getBoundingClientRect();
const middle = box.top + box.height / 2 - body.top;
const put = style => {
    const made = document.createElement('div');
    Object.assign(made.style, {position: 'absolute', zIndex: '2', ...style});
    return document.body.appendChild(made);
};
const made = put({top: `${middle - 12}px`, right: '22px', padding: '2px 8px', borderRadius: '4px', background: '#0550ae',
    color: '#fff', font: '13px/20px sans-serif'});
made.textContent = note;
const room = made.getBoundingClientRect().left - box.right - 12;
put({top: `${middle - 1}px`, left: `${box.right + 8 - body.left}px`, width: `${room}px`, borderTop: '2px dotted #0550ae'});
return room;
"""


def note_parts(driver: Any) -> None:
    for selector, words, note in NOTES:
        room = driver.execute_script(NOTE, selector, words, note)
        assert room > 0, f"no room for {note!r}"


def take_pictures(page: pathlib.Path, to: pathlib.Path) -> None:
    """The page's beginning, its map, and a part on a phone."""
    with browser(size="1000,1500") as driver:
        opened(driver, page)
        note_parts(driver)
        driver.save_screenshot(str(to / "audit.png"))
        opened(driver, page)
        driver.execute_script("document.getElementById('filter').hidden = true")
        shown = driver.find_element("css selector", ".map")
        driver.execute_script("arguments[0].scrollIntoView()", shown)
        time.sleep(1)
        shown.screenshot(str(to / "audit_map.png"))
    with browser() as driver:
        metrics = {"width": 390, "height": 1000, "deviceScaleFactor": 1, "mobile": True}
        driver.execute_cdp_cmd("Emulation.setDeviceMetricsOverride", metrics)
        opened(driver, page)
        driver.execute_script("document.getElementById('registry').scrollIntoView()")
        time.sleep(1)
        driver.save_screenshot(str(to / "audit_phone.png"))


def main() -> None:
    if sys.argv[1:] == ["--measure"]:
        print(*many_texts(), page_of_many().stat().st_size, os.getloadavg(), sep="\n")
    elif len(sys.argv) == 3:
        take_pictures(pathlib.Path(sys.argv[1]).resolve(), pathlib.Path(sys.argv[2]))
    else:
        sys.exit(__doc__)


if __name__ == "__main__":
    main()
