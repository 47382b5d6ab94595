"""A crate uses the contracts of the crates below it, and none of their lemmas; its files are in the toolchain's layout."""
import re

import pytest
from build import toolchain
from support import ROOT, succeed

CRATES = sorted(it.parent.name for it in (ROOT / "crates").glob("*/proofs"))
CITED = re.compile(r"^(?:pub )?use Rattle\.(\w+)\.proofs\.([\w.\-]+?)(?:\.\{| as |$)", re.MULTILINE)
# What the prover makes: that a function meets its contract, and that a type keeps its laws. Proofs of calls of C cite them.
MADE = ("Met", "TheLaws")


@pytest.mark.parametrize("crate", CRATES)
def test_contracts_alone(crate: str) -> None:
    for path in (ROOT / "crates" / crate / "proofs").rglob("*.antt"):
        for owner, module in CITED.findall(path.read_text(encoding="utf-8")):
            another = owner != crate and owner in CRATES and module.rpartition(".")[2] not in MADE
            assert not another, f"{path.relative_to(ROOT)} cites a lemma of {owner}: {module}"


@pytest.mark.needs("rt")
@pytest.mark.parametrize("crate", sorted(it.parent.name for it in (ROOT / "crates").glob("*/src")))
def test_layout(crate: str) -> None:
    """rt ci asks for it crate by crate, each before its proof; here a few seconds tell of all."""
    parts = [ROOT / "crates" / crate / it for it in ("src", "specs", "proofs")]
    files = [it for part in parts for suffix in ("rt", "antt") for it in sorted(part.rglob(f"*.{suffix}"))]
    succeed([toolchain() / "bin" / "rattle", "fmt", "--check", *files])
