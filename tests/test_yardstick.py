"""The yardstick of the benchmarks, tools/reference.c, writes what crsdesk writes. Each build of it, with every warning an
error, must write the canonical texts that `crsdesk canon --lines` writes of examples/catalogue.txt, and refuse what that
refuses. Of these texts in other white space and delimiters, of their canonical texts, and of the files of examples/, as far
as crsdesk accepts them, it must write the canonical texts too."""
from __future__ import annotations

import pathlib
import subprocess
from typing import Dict, List

import pytest
from big_catalogue import respelled
from support import EXAMPLES, ROOT, succeed

WARNINGS = ["-Wall", "-Wextra", "-Wconversion", "-Werror"]
BUILDS = {
    "for this processor": ["-O3", "-march=native"],
    "for every processor": ["-O2"],
    "byte by byte": ["-O1", "-U__SSE2__", "-U__AVX2__"],
    "under sanitizers": ["-g", "-O1", "-fsanitize=address,undefined", "-fno-sanitize-recover=all"],
}
REFUSED = b"refused"

pytestmark = [pytest.mark.needs("cc"), pytest.mark.xdist_group("yardstick")]


def written(words: List[object], texts: List[bytes]) -> List[bytes]:
    """What a command writes of the texts, a line each."""
    done = subprocess.run(
        [str(it) for it in words], input=b"\n".join(texts) + b"\n", stdout=subprocess.PIPE, check=False
    )
    return done.stdout.split(b"\n")[:-1]


def canonical(program: pathlib.Path, texts: List[bytes]) -> List[bytes]:
    return [line if b"[" in line else REFUSED for line in written([program, "canon", "--lines"], texts)]


@pytest.fixture(scope="module")
def wanted(program: pathlib.Path) -> Dict[bytes, bytes]:
    """What is written of each text."""
    lines = [line for line in (EXAMPLES / "catalogue.txt").read_bytes().splitlines() if line]
    more = [it for line in lines for it in (respelled(line, 3), respelled(line, 9)) if it]
    more += [it for it in canonical(program, lines) if it != REFUSED]
    files = sorted([*EXAMPLES.glob("*.wkt"), *(EXAMPLES / "exports").glob("*.wkt")])
    more += [path.read_bytes().replace(b"\n", b" ") for path in files]
    accepted = {text: it for text, it in zip(more, canonical(program, more)) if it != REFUSED}
    return {**accepted, **dict(zip(lines, canonical(program, lines)))}


@pytest.mark.parametrize("build", BUILDS)
def test_canonical_texts(build: str, wanted: Dict[bytes, bytes], tmp_path: pathlib.Path) -> None:
    made = tmp_path / "reference"
    succeed(["cc", *BUILDS[build], *WARNINGS, "-o", made, ROOT / "tools" / "reference.c"])
    found = written([made, "0", "canon"], list(wanted))
    assert len(found) == len(wanted)
    for (text, line), it in zip(wanted.items(), found):
        assert it == line, text
