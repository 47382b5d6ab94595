"""What a reader does in the page of `python -m crsdesk audit --html`, in a browser: Chromium, without a window, as Debian's
chromium, chromium-driver and python3-selenium have it. tools/audit_pictures.py takes pictures of it and measures it."""
from __future__ import annotations

import base64
import contextlib
import functools
import pathlib
import re
import shutil
import time
from typing import Any, Callable, Iterator, List, NamedTuple

import audit_archive
import big_catalogue
import pytest
from test_audit import audit, folder

pytestmark = pytest.mark.needs("chromium", "chromedriver", "python3:selenium")
DRIVER = "chromedriver"
BROWSER = "chromium"
SECONDS = 300
MARKUP = '<b onclick="alert(1)">&amp;</b><script>alert(2)</script>'


@contextlib.contextmanager
def browser(*words: str, has_scripts: bool = True, size: str = "1200,1000") -> Iterator[Any]:
    """A browser, which is closed at the end."""
    from selenium import webdriver
    from selenium.webdriver.chrome.options import Options
    from selenium.webdriver.chrome.service import Service

    options = Options()
    options.binary_location = shutil.which(BROWSER)
    for word in ("--headless=new", "--no-sandbox", "--disable-gpu", "--disable-dev-shm-usage", f"--window-size={size}"):
        options.add_argument(word)
    for word in words:
        options.add_argument(word)
    options.set_capability("goog:loggingPrefs", {"browser": "ALL"})
    driver = webdriver.Chrome(options=options, service=Service(shutil.which(DRIVER)))
    if not has_scripts:
        driver.execute_cdp_cmd("Emulation.setScriptExecutionDisabled", {"value": True})
    try:
        yield driver
    finally:
        driver.quit()


def audited(name: str, *words: object) -> pathlib.Path:
    """The page of an audit."""
    page = folder() / name
    status, _, error = audit("--lines", "--html", page, *words)
    assert status == 1, error[-2000:]
    return page


@functools.lru_cache(maxsize=None)
def page_of_archive() -> pathlib.Path:
    archive = folder() / "archive_of_page"
    archive.mkdir()
    audit_archive.make(archive)
    return audited("archive.html", archive)


def opened(driver: Any, page: pathlib.Path) -> None:
    driver.get(page.as_uri())


def all_of(driver: Any, selector: str) -> List[Any]:
    return list(driver.find_elements("css selector", selector))


def shown(driver: Any, selector: str) -> List[Any]:
    return [it for it in all_of(driver, selector) if it.is_displayed()]


def wait(is_so: Callable[[], object]) -> None:
    """Waits until something holds, on a machine that may be busy."""
    end = time.monotonic() + SECONDS
    while not is_so():
        assert time.monotonic() < end, f"not in {SECONDS} seconds"
        time.sleep(0.05)


def click(element: Any) -> None:
    """Clicks it once it is drawn in its place: on a busy machine another may still be there."""
    from selenium.common.exceptions import ElementClickInterceptedException

    def is_clicked() -> bool:
        try:
            element.click()
            return True
        except ElementClickInterceptedException:
            return False

    wait(is_clicked)


def test_loads_without_an_error() -> None:
    with browser() as driver:
        opened(driver, page_of_archive())
        assert driver.get_log("browser") == []
        assert driver.title == "Audit of coordinate reference systems"
        assert len(all_of(driver, "#groups details")) > 50 and len(all_of(driver, ".chart rect.bar")) == 15
        asked = driver.execute_script("return performance.getEntriesByType('resource').length")
        assert asked == 0, "the page asks for more than itself"


def test_filter_hides_and_shows() -> None:
    with browser() as driver:
        opened(driver, page_of_archive())
        words = driver.find_element("id", "words")
        whole = len(shown(driver, "#groups details"))
        words.send_keys("survey: zone survey:1040")
        wait(lambda: len(shown(driver, "#groups details")) == 1)
        found = [it.text for it in shown(driver, "#groups details")]
        assert len(found) == 1 and "Survey zone 40" in found[0], found
        told = driver.find_element("id", "shown").text
        assert told.endswith(" shown") and told.startswith("1 of "), told
        driver.execute_script("arguments[0].value = ''; arguments[0].dispatchEvent(new Event('input'))", words)
        wait(lambda: len(shown(driver, "#groups details")) == whole and driver.find_element("id", "shown").text == "")
        words.send_keys("nothing has this")
        wait(lambda: shown(driver, ".item") == [])
        assert driver.get_log("browser") == []


def test_filter_shows_matches_in_folded_sections() -> None:
    """A section with a match is opened, and folded again with the filter."""
    with browser() as driver:
        opened(driver, page_of_archive())
        words, fit = driver.find_element("id", "words"), all_of(driver, "#refused .item p")[0]
        name = fit.get_attribute("textContent").partition(", line")[0]

        def unfolded() -> List[Any]:
            return [it for it in all_of(driver, "#refused details") if it.get_property("open")]

        assert unfolded() == []
        words.send_keys(name.rpartition("/")[2])
        wait(lambda: any(name in it.text for it in unfolded()))
        driver.execute_script("arguments[0].value = ''; arguments[0].dispatchEvent(new Event('input'))", words)
        wait(lambda: unfolded() == [])


def test_filter_brings_a_match_into_the_window() -> None:
    """One far down, in a group that is folded: it is unfolded, marked and in sight; then all is as before."""
    with browser() as driver:
        opened(driver, page_of_archive())
        words = driver.find_element("id", "words")
        last = all_of(driver, "#groups details.item li")[-1].get_attribute("textContent")
        words.send_keys(last.rpartition("/")[2])

        def is_in_sight() -> bool:
            script = (
                "const places = [...(CSS.highlights.get('hit') || [])].map((it) => it.getBoundingClientRect());"
                "const below = document.getElementById('filter').getBoundingClientRect().bottom;"
                "const first = places.find((it) => it.height > 0);"
                "return !!first && first.top >= below && first.bottom <= innerHeight"
            )
            return bool(driver.execute_script(script))

        wait(is_in_sight)
        assert any(last in it.text for it in shown(driver, "#groups details[open] li"))
        assert shown(driver, "#first, #summary, #areas") == []
        driver.execute_script("arguments[0].value = ''; arguments[0].dispatchEvent(new Event('input'))", words)
        wait(lambda: all_of(driver, "#groups details[open]") == [] and shown(driver, "#summary") != [])
        assert driver.execute_script("return CSS.highlights.get('hit').size") == 0


def test_each_refusal_is_told_once() -> None:
    """By its cause, with a bar, beside a count that follows the filter."""
    with browser() as driver:
        opened(driver, page_of_archive())
        causes = [it.text for it in shown(driver, "#refused .cause summary b")]
        bars = [float(it.get_attribute("width")) for it in all_of(driver, "#refused .cause rect.bar")]
        assert (
            len(causes) == len(set(causes)) == len(bars) > 4 and bars == sorted(bars, reverse=True) and bars[0] == 100
        )
        assert all(it.lower() not in driver.find_element("id", "summary").text.lower() for it in causes if it != "code")
        counts = [it.text for it in shown(driver, "#refused .cause .count")]
        assert sum(int(it.split()[0]) for it in counts) == len(all_of(driver, "#refused .item"))
        driver.find_element("id", "words").send_keys("wkt1")
        wait(lambda: shown(driver, "#refused .cause .count")[0].text != counts[0])
        for label in shown(driver, "#refused .cause .count"):
            fit, all_of_them = re.fullmatch(r"(\d+) of (\d+)", label.text).groups()  # type: ignore[union-attr]
            group = label.find_element("xpath", "ancestor::details")
            items = group.find_elements("css selector", ".item")
            is_shown = "return arguments[0].filter((it) => !it.closest('[hidden]')).length"
            assert (int(fit), int(all_of_them)) == (driver.execute_script(is_shown, items), len(items))


def test_tables_say_what_they_have() -> None:
    """Each has a caption, and the head of each column of values names its CRS."""
    with browser() as driver:
        opened(driver, page_of_archive())
        captions = "return [...document.querySelectorAll('table')].filter((it) => !it.caption?.textContent).length"
        assert driver.execute_script(captions) == 0 and len(all_of(driver, "table")) > 10
        for table in all_of(driver, "#near-misses table"):
            heads = [it.get_attribute("textContent") for it in table.find_elements("css selector", ".which th")]
            assert len(heads) % 3 == 0 and heads[::3] == ["part"] * (len(heads) // 3)
            assert all(re.match(r"\d+\. ", it) for it in heads[1::3] + heads[2::3]), heads
        figures = all_of(driver, "figure")
        assert figures and all(it.find_elements("css selector", "figcaption") for it in figures)


def test_links_land_below_the_filter() -> None:
    with browser() as driver:
        opened(driver, page_of_archive())
        for target in ("#groups", "#d30", "#refused"):
            driver.execute_script("location.hash = arguments[0]", target)
            edges = (
                "const [filter, it] = ['#filter', arguments[0]].map((name) => document.querySelector(name)"
                ".getBoundingClientRect()); return [filter.top, filter.bottom, it.top, innerHeight]"
            )

            def lies_below() -> bool:
                top, bottom, it, height = driver.execute_script(edges, target)
                return bool(top <= 0.5 and bottom <= it + 0.5 < height)

            wait(lies_below)


def test_sections_fold_by_keyboard_too() -> None:
    from selenium.webdriver.common.keys import Keys

    with browser() as driver:
        opened(driver, page_of_archive())
        (first,) = all_of(driver, "#d1")
        summary, text = first.find_element("css selector", "summary"), first.find_element("css selector", "pre")
        assert not text.is_displayed()
        click(summary)
        wait(lambda: text.is_displayed() and text.text.startswith("PROJCRS["))
        summary.send_keys(Keys.ENTER)
        wait(lambda: not text.is_displayed())
        # The page is gone through by the tabulator: the links, the filter, what folds.
        opened(driver, page_of_archive())
        focused = []
        links = len(all_of(driver, "nav a"))
        for _ in range(links + 4):
            driver.switch_to.active_element.send_keys(Keys.TAB)
            focused.append(driver.switch_to.active_element.tag_name)
        assert links > 5 and focused[: links + 3] == links * ["a"] + ["input", "button", "a"], focused
        # A link to a group opens it.
        driver.execute_script("location.hash = '#d2'")
        wait(lambda: driver.find_element("css selector", "#d2 pre").is_displayed())


def test_is_readable_without_scripts() -> None:
    with browser(has_scripts=False) as driver:
        opened(driver, page_of_archive())
        assert not driver.find_element("id", "filter").is_displayed()
        assert len(shown(driver, "#groups details")) > 50 and shown(driver, "#near-misses table")
        (first,) = all_of(driver, "#d1")
        assert not first.find_element("css selector", "pre").is_displayed()
        click(first.find_element("css selector", "summary"))
        wait(lambda: first.find_element("css selector", "pre").is_displayed())


def test_markup_stays_text() -> None:
    with browser() as driver:
        opened(driver, page_of_archive())
        names = [it.get_attribute("textContent") for it in all_of(driver, "#groups summary b")]
        assert MARKUP in names, names[-3:]
        assert len(all_of(driver, "script")) == 1 and all_of(driver, "b[onclick], img") == []
        # Even a script that got into the page wouldn't run.
        driver.execute_script("document.body.insertAdjacentHTML('beforeend', '<img src=x onerror=\"window.ran = 1\">')")
        time.sleep(0.3)
        assert driver.execute_script("return window.ran") is None


def test_is_a_summary_on_paper() -> None:
    """What is folded stays so where the page is printed, and is printed where it was unfolded."""
    with browser() as driver:
        opened(driver, page_of_archive())
        driver.execute_cdp_cmd("Emulation.setEmulatedMedia", {"media": "print"})
        wait(lambda: not driver.find_element("css selector", "nav").is_displayed())
        assert shown(driver, "#groups details") == [] and shown(driver, "#first li") and shown(driver, ".summary")
        pages = printed_pages(driver)
        driver.execute_script("document.getElementById('unfold').click()")
        text = driver.find_element("css selector", "#d1 pre")
        wait(lambda: text.is_displayed() and text.size["height"] > 10)
        assert pages <= 10 and printed_pages(driver) > 2 * pages, pages
        driver.execute_script("document.getElementById('unfold').click()")
        wait(lambda: shown(driver, "#groups details") == [])


def printed_pages(driver: Any) -> int:
    content = base64.b64decode(
        driver.execute_cdp_cmd("Page.printToPDF", {"paperWidth": 8.27, "paperHeight": 11.69})["data"]
    )
    return len(re.findall(rb"/Type\s*/Page[^s]", content))


def test_sections_count_what_fits() -> None:
    with browser() as driver:
        opened(driver, page_of_archive())
        words = driver.find_element("id", "words")

        def count_of(section: str) -> str:
            return str(driver.find_element("css selector", f"#{section} .count").text)

        assert count_of("groups") == ""
        words.send_keys("survey:1040")
        wait(lambda: count_of("groups").startswith("1 of "))
        assert re.fullmatch(r"0 of \d+", count_of("near-misses")), count_of("near-misses")


def test_what_differs_is_marked() -> None:
    with browser() as driver:
        opened(driver, page_of_archive())
        marked = [it.text for it in all_of(driver, "#near-misses mark")]
        # What differs in 298.257222101 and 298.25, and in 500000 and 0.
        assert "7222101" in marked and any(it.startswith("50000") for it in marked), marked
        rows = [it.text for it in all_of(driver, "#near-misses tbody th[scope=row]")]
        assert "conversion/parameters/False easting numbers" in rows, rows


def test_fits_a_phone() -> None:
    """Nothing but a text of its own width is wider than the window."""
    with browser() as driver:
        # A window of the browser has a least width.
        metrics = {"width": 390, "height": 800, "deviceScaleFactor": 1, "mobile": True}
        driver.execute_cdp_cmd("Emulation.setDeviceMetricsOverride", metrics)
        opened(driver, page_of_archive())
        assert driver.execute_script("return [innerWidth, document.documentElement.scrollWidth]") == [390, 390]
        widths = driver.execute_script(
            "return [...document.querySelectorAll('.parts caption')].map(it => it.offsetWidth)"
        )
        assert widths and all(it > 300 for it in widths), widths
        (cell,) = all_of(driver, ".parts tbody td")[:1]
        assert cell.size["width"] > 300


def test_is_dark_where_that_is_asked() -> None:
    with browser() as driver:
        opened(driver, page_of_archive())
        colors = []
        for scheme in ("light", "dark"):
            features = {"features": [{"name": "prefers-color-scheme", "value": scheme}]}
            driver.execute_cdp_cmd("Emulation.setEmulatedMedia", features)
            colors.append(driver.execute_script("return getComputedStyle(document.body).backgroundColor"))
        assert colors == ["rgb(255, 255, 255)", "rgb(20, 23, 27)"], colors


# Thirteen thousand texts.


@functools.lru_cache(maxsize=None)
def page_of_many() -> pathlib.Path:
    """The page of 13,000 texts, each of a CRS with its own name, but those that are refused."""
    path = folder() / "thirteen.txt"
    parts = list(big_catalogue.texts())
    with open(path, "wb") as file:
        for number in range(13_000):
            front, rest = parts[number % len(parts)]
            file.write(b'%s %d"%s\n' % (front, number, rest[:-1] if number % 20 == 0 else rest))
    return audited("many.html", path)


class Taken(NamedTuple):
    """The seconds that something takes, those of a core that the page's thread has, and what the page then says is
    shown."""

    seconds: float
    of_a_core: float
    shown: str


def many_texts() -> List[Taken]:
    """What the page takes to open, and each of some words to filter it, until it is drawn."""
    page = page_of_many()
    taken = []
    with browser() as driver:
        driver.set_script_timeout(SECONDS)
        driver.get("about:blank")
        driver.execute_cdp_cmd("Performance.enable", {"timeDomain": "threadTicks"})

        def measure(script: str, *words: str) -> None:
            began, before = time.monotonic(), thread_time(driver)
            if not words:
                opened(driver, page)
                before = 0
            driver.execute_async_script(
                f"const [word, done] = [arguments[0], arguments[arguments.length - 1]]; {script};"
                "requestAnimationFrame(() => setTimeout(done, 0))",
                *words,
            )
            seconds, of_a_core = time.monotonic() - began, thread_time(driver) - before
            shown = driver.find_element("id", "shown").get_attribute("textContent")
            taken.append(Taken(round(seconds, 3), round(of_a_core, 3), shown))

        measure("0")
        for word in ("12999", "e", "zzz", ""):
            field = "document.getElementById('words')"
            measure(f"{field}.value = word; {field}.dispatchEvent(new Event('input'))", word)
        assert driver.get_log("browser") == []
    return taken


def thread_time(driver: Any) -> float:
    """The seconds of a core that the page's thread has had since the page was opened."""
    metrics = driver.execute_cdp_cmd("Performance.getMetrics", {})["metrics"]
    return float({it["name"]: it["value"] for it in metrics}["TaskDuration"])


def test_many_texts_are_filtered() -> None:
    taken = many_texts()
    told = [it.shown for it in taken]
    assert page_of_many().stat().st_size < 10_000_000 and taken[0].of_a_core < 1, taken[0]
    # The text of this number, and that of this line; what everything has, and nothing.
    counts = ["2 of 13013 shown", "13013 of 13013 shown", "0 of 13013 shown"]
    assert told == ["", *counts, ""], told
