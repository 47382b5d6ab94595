"""docs/DEFINITIONS.md and the claims of docs/THEOREMS.md are what tools/make_theorems.py writes of the sources."""
import fnmatch
import re

import believed
import make_theorems
import pytest
from support import ROOT

PAGES = make_theorems.pages()
ROWS = re.findall(r"(?m)^\| `([^`]+)` \| (.*) \| .* \|$", PAGES["docs/THEOREMS.md"])


@pytest.mark.parametrize("path", PAGES)
def test_page(path: str) -> None:
    assert (ROOT / path).read_text(encoding="utf-8") == PAGES[path], "run tools/make_theorems.py"


@pytest.mark.parametrize("claim", believed.claims(), ids="-".join)
def test_claim(claim: believed.Claim) -> None:
    """Each claim has a row, with a sentence."""
    name = "::".join(filter(None, claim[1:]))
    found = [sentence for it, sentence in ROWS if fnmatch.fnmatch(it, name)]
    assert found and all(found)
