"""What is in plain English: pages, each with at most so many words by hand, manual pages and comments of the sources. They
have no habit that pages.py lists."""
import re

import pages
import pytest

# The most words of each page that holds them.
MOST = {
    "README": 1250,
    "CONTRIBUTING": 750,
    "CHANGELOG": 700,
    "ARCHITECTURE": 600,
    "AUDIT": 1300,
    "BENCHMARKS": 350,
    "CALLING": 600,
    "CANONICAL": 700,
    "CATALOGUES": 1250,
    "CHANGING": 1300,
    "CLUSTER": 400,
    "COMPARISON": 1000,
    "CONVERTING": 650,
    "DECISIONS": 2300,
    "DEFINITIONS": 0,
    "EXPORTS": 800,
    "FAQ": 900,
    "GATE": 900,
    "GLOSSARY": 450,
    "GRAMMAR": 1250,
    "INSTALL": 750,
    "PYTHON": 1250,
    "REFUSALS": 1450,
    "RULES": 1400,
    "SAMENESS": 1250,
    "SPEED": 450,
    "SQL": 1400,
    "THEOREMS": 900,
    "TUTORIAL": 650,
}
PATHS = {path.stem: path for path in pages.PAGES}
# These, the page of the wheel, and the manual pages.
OTHERS = ("python/README.md", "man/crsdesk.1", "man/crsdesk.3")
PROSE = {name: PATHS[name] for name in MOST} | {it: pages.ROOT / it for it in OTHERS}
# Sources whose comments are read as English: by crate, the Python package, the examples, and the header.
CRATES = sorted((pages.ROOT / "crates").iterdir())
SOURCES = {it.name: sorted(it.glob("src/**/*.rt")) for it in CRATES} | {
    "python": sorted((pages.ROOT / "python" / "src").rglob("*.py")),
    "examples": sorted((pages.ROOT / "examples").glob("*.py")),
    "crsdesk.h": [pages.ROOT / "crates" / "crs_c" / "crsdesk.h"],
}
# Places that their crate's next change mends.
LEFT = {("sets.rt", "the noun")}
# The most words of all pages.
MOST_WORDS = 28_000
# How often "where" may stand in all of them: as "if" it is a habit, which no pattern tells from a place.
MOST_WHERE = 40


@pytest.mark.parametrize("name", MOST)
def test_words(name: str) -> None:
    assert pages.words_of(PATHS[name]) <= MOST[name]


def test_all_words() -> None:
    assert sum(pages.counts().values()) <= MOST_WORDS


def test_every_page() -> None:
    """A page holds its number of words, or a tool writes it."""
    assert set(MOST) == {name for name in PATHS if f"{name}.md" not in pages.GENERATED} | {"DEFINITIONS"}


@pytest.mark.parametrize("habit", pages.HABITS)
@pytest.mark.parametrize("name", PROSE)
def test_habit(name: str, habit: str) -> None:
    assert not pages.found_in(pages.prose_of(PROSE[name]), habit), f"better: {pages.HABITS[habit][1]}"


@pytest.mark.parametrize("name", SOURCES)
def test_comments(name: str) -> None:
    texts = {path: pages.comments_of(path) for path in SOURCES[name]}
    assert "".join(texts.values())
    places = [
        (path.name, habit, it) for path in texts for habit in pages.HABITS for it in pages.found_in(texts[path], habit)
    ]
    assert not [it for it in places if it[:2] not in LEFT], "pages.py has what is better"


def test_where() -> None:
    assert sum(len(re.findall(r"\bwhere\b", pages.prose_of(PROSE[name]), re.I)) for name in PROSE) <= MOST_WHERE


@pytest.mark.parametrize("habit", pages.HABITS)
def test_pattern(habit: str) -> None:
    """A pattern finds what it is for."""
    assert re.search(pages.HABITS[habit][0], pages.EXAMPLES[habit], re.I)
