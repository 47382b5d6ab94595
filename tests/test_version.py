"""The version is that of the library, wherever it is repeated; before its release in the forms of PEP 440 and Debian."""
import build
import pytest
from support import ROOT

VERSION = build.version()
REPEATS = {
    "crates/crs_c/specs/Names.antt": f'version = codes "{VERSION}"\n',
    "crates/crs_desk/src/line.rt": f'\nconst VERSION: &str = "{VERSION}";\n',
    "packaging/debian/changelog": f"crsdesk ({VERSION.replace('-', '~')}-",
    "python/pyproject.toml": f'\nversion = "{VERSION.replace("-dev", ".dev0")}"\n',
    "man/crsdesk.1": f'"crsdesk {VERSION}"',
    "man/crsdesk.3": f'"crsdesk {VERSION}"',
}


@pytest.mark.parametrize("path", REPEATS)
def test_version(path: str) -> None:
    assert (ROOT / path).read_text(encoding="utf-8").count(REPEATS[path]) == 1
