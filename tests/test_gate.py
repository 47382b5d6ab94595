"""./prove and .ci/run, in a copy of a few crates with a toolchain of its own (copies.py)."""
from __future__ import annotations

import subprocess

import pytest
from copies import Copy

pytestmark = pytest.mark.needs("cc", "ar")
PREFIX = "out/prefix/lib/libcrsdesk"


def prove(copy: Copy, *words: str) -> tuple[int, list[str]]:
    """The status of ./prove, and its lines."""
    done = subprocess.run(
        [copy.root / "prove", *words], env=copy.environment, stdout=-1, stderr=subprocess.STDOUT, text=True, check=False
    )
    return done.returncode, done.stdout.splitlines()


def test_all_is_proved_and_the_library_built_of_it(copy: Copy) -> None:
    status, lines = prove(copy)
    assert (status, lines[-1]) == (0, "5 passed, 0 failed"), lines
    assert {*copy.asked()} - {"crsdesk"} == {"crs_c"} and (copy.root / f"{PREFIX}.so").exists()
    assert copy.run("canon")[1] == "a text\ncanon\n"


def test_what_failed_is_counted(copy: Copy) -> None:
    copy.environment["COUNTS"] = "2 passed, 3 failed"
    status, lines = prove(copy)
    assert (status, lines[-1]) == (1, "2 passed, 3 failed")
    copy.environment["COUNTS"] = "rt: killed"
    status, lines = prove(copy)
    assert (status, lines[-1]) == (1, "0 passed, 1 failed")


def test_a_library_that_is_not_proved_is_counted(copy: Copy) -> None:
    copy.source("crs_c").write_text("WRONG")
    status, lines = prove(copy)
    assert (status, lines[-1]) == (1, "5 passed, 1 failed") and not (copy.root / f"{PREFIX}.so").exists()


def test_it_proves_over_the_gate_where_other_runs_left_theirs(copy: Copy) -> None:
    """And gives them back."""
    copy.build("program")
    (copy.root / "crates/low/out/rlib/low.rlib").mkdir()
    stamp = copy.root / "crates/side/out/rlib/statements/stamp"
    before = stamp.read_text()
    copy.source("low").write_text("more")
    copy.asked()
    status, lines = prove(copy)
    assert (status, lines[-1]) == (0, "5 passed, 0 failed"), lines
    assert {*copy.asked()} - {"crsdesk"} == {"crs_c"} and stamp.read_text() == before
    status, lines = prove(copy)
    assert (status, lines[-1]) == (0, "5 passed, 0 failed"), lines


def released(copy: Copy) -> dict[str, bytes]:
    """Proves, and makes a release of what that built."""
    prove(copy)
    libraries = {it: (copy.root / f"{PREFIX}.{it}").read_bytes() for it in ("a", "so")}
    copy.release(copy.program.read_bytes(), libraries)
    return libraries


def test_the_release_is_compared_with_what_was_built(copy: Copy) -> None:
    libraries = released(copy)
    status, lines = prove(copy)
    assert (status, lines[-1]) == (0, "8 passed, 0 failed"), lines
    for name in ("a", "so"):
        damaged = bytearray(libraries[name])
        damaged[-1] ^= 1
        copy.release(copy.program.read_bytes(), {**libraries, name: bytes(damaged)})
        status, lines = prove(copy)
        wanted = f"lib/libcrsdesk.{name} isn't what was built of these sources"
        assert (status, lines[-1]) == (1, "7 passed, 1 failed") and lines[-3].endswith(wanted), lines
    copy.release(copy.program.read_bytes() + b" ", libraries)
    assert prove(copy)[1][-1] == "7 passed, 1 failed"


def test_a_release_whose_archive_is_damaged(copy: Copy) -> None:
    libraries = released(copy)
    archive = copy.release(copy.program.read_bytes(), libraries)
    archive.write_bytes(archive.read_bytes()[:-1])
    assert prove(copy)[1][-1] == "5 passed, 1 failed"


def test_a_release_of_other_sources_is_not_compared(copy: Copy) -> None:
    released(copy)
    copy.source("side").write_text("more")
    status, lines = prove(copy)
    assert (status, lines[-1]) == (0, "7 passed, 0 failed")
    assert "bin/crsdesk for x86_64 isn't compared: release/SOURCES tells another program" in lines


@pytest.mark.parametrize(
    "told, by, counts",
    [("kit rattle", "kit newer-rattle", "5 passed"), ("compiler ", "compiler of another system, ", "6 passed")],
)
def test_a_release_that_was_made_with_others_is_not_compared(told: str, by: str, counts: str, copy: Copy) -> None:
    """Of another kit nothing, of another C compiler no library."""
    released(copy)
    sources = copy.root / "release/SOURCES"
    text = sources.read_text()
    assert told in text
    sources.write_text(text.replace(told, by))
    assert prove(copy)[1][-1] == f"{counts}, 0 failed"


def test_wrong_bodies_are_tried_where_they_are_asked_for(copy: Copy) -> None:
    tried = copy.root / "wrong-bodies"
    tried.write_text("#!/bin/sh\necho 3 passed, 1 failed\n")
    tried.chmod(0o755)
    assert prove(copy)[1][-1] == "5 passed, 0 failed"
    assert prove(copy, "--wrong-bodies")[1][-1] == "8 passed, 1 failed"


def test_wrong_words_are_refused(copy: Copy) -> None:
    assert prove(copy, "--all") == (2, ["usage: ./prove [--wrong-bodies]"])
    assert copy.asked() == []


@pytest.mark.parametrize(
    "proofs, tests, wanted", [("0 failed", "0 failed", 0), ("1 failed", "0 failed", 1), ("?", "2 failed", 3)]
)
def test_ci_adds_both_counts(proofs: str, tests: str, wanted: int, copy: Copy) -> None:
    """And says to the tests alone that the gate has run."""
    for name, text in {"prove": f"10 passed, {proofs}", "test": f"20 passed, {tests}"}.items():
        (copy.root / name).write_text(f'#!/bin/sh\necho "gate ${{CRSDESK_GATE-}}"\necho {text}\n')
    done = subprocess.run([copy.root / ".ci/run"], cwd="/", env=copy.environment, stdout=-1, text=True, check=False)
    passed = 20 if proofs == "?" else 30
    lines = done.stdout.splitlines()
    assert (done.returncode, lines[-1]) == (int(wanted > 0), f"{passed} passed, {wanted} failed")
    assert [it for it in lines if it.startswith("gate")] == ["gate ", "gate 1"]


def test_no_tests_are_run_over_nothing(copy: Copy) -> None:
    copy.source("low").write_text("WRONG")
    done = subprocess.run([copy.root / "test"], env=copy.environment, stdout=-1, text=True, check=False)
    assert (done.returncode, done.stdout) == (1, "0 passed, 1 failed\n")
