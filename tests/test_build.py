"""tools/build.py and ./crsdesk, in a copy of a few crates with a toolchain of its own (copies.py)."""
from __future__ import annotations

import fcntl
import os
import re
import signal
import subprocess
import time

import pytest
from copies import HEADER, ROWS, Copy

pytestmark = pytest.mark.needs("cc", "ar")


def test_first_call_proves_what_the_program_needs_and_says_how_far_it_is(copy: Copy) -> None:
    said = copy.build("program")
    asked = copy.log.read_text()
    assert sorted(copy.asked()) == ["crsdesk", "low", "mid", "side"] and asked.startswith("low ")
    lines = said.splitlines()
    assert lines[0] == "crsdesk: proving and building the program: 4 crates, which takes minutes"
    assert re.fullmatch(r"crsdesk: 1 of 4, low proved; \d+:\d\d so far", lines[1])
    assert lines[4].startswith("crsdesk: 4 of 4, crsdesk built; ") and len(lines) == 5


def test_crates_are_proved_over_statements_and_one_beside_another_has_one_job(copy: Copy) -> None:
    copy.build("program")
    lines = {line.split()[0]: line.split()[1:] for line in copy.log.read_text().splitlines()}
    low = f"low={copy.root}/crates/low/out/rlib/statements/low.rlib"
    assert lines["low"][1:] == ["statements"]
    assert lines["mid"][1:] == lines["side"][1:] == ["statements", low]
    assert lines["crsdesk"][1:] == [low.replace("low", it) for it in ("mid", "side")]
    if len(os.sched_getaffinity(0)) > 1:
        assert lines["mid"][0] != "jobs=1" and lines["side"][0] == "jobs=1"


def test_a_later_call_of_the_program_proves_nothing_and_passes_all_through(copy: Copy) -> None:
    copy.build("program")
    copy.asked()
    done = subprocess.run(
        [copy.root / "crsdesk", "check", "-"], input="a text\n", env=copy.environment, capture_output=True, text=True
    )
    assert (done.stdout, done.stderr, done.returncode) == ("a text\ncheck -\n", "", 3)
    assert copy.asked() == []
    copy.environment["PATH"] = "/usr/bin:/bin"
    assert copy.build("program") == ""


def test_what_changed_and_what_is_above_it_is_proved_again(copy: Copy) -> None:
    copy.build("program")
    copy.asked()
    copy.source("low").touch()
    assert copy.build("program") == "" and copy.asked() == []
    # A copy that keeps the times.
    before = copy.source("mid").stat()
    copy.source("mid").write_text("more")
    os.utime(copy.source("mid"), ns=(before.st_atime_ns, before.st_mtime_ns))
    assert "2 crates" in copy.build("program") and copy.asked() == ["mid", "crsdesk"]
    copy.source("other").write_text("more")
    assert copy.build("program") == "" and copy.asked() == []
    (copy.root / "crates/side/specs/New.antt").write_text("")
    copy.build("program")
    assert copy.asked() == ["side", "crsdesk"]
    (copy.root / "crates.txt").write_text(ROWS.replace("side: low itoa", "side: low"))
    copy.build("program")
    assert copy.asked() == ["side", "crsdesk"]


def test_what_was_changed_back_is_not_proved_again(copy: Copy) -> None:
    copy.build("program")
    copy.source("low").write_text("WRONG")
    copy.build("program", status=2)
    copy.source("low").write_text("")
    copy.asked()
    assert copy.build("program") == "" and copy.asked() == []


def test_a_crate_that_is_not_proved_ends_the_build_and_the_next_call_goes_on(copy: Copy) -> None:
    copy.source("mid").write_text("WRONG")
    log = copy.root / "crates/mid/out/rlib/statements/log"
    wanted = f"crsdesk: mid was not proved, and nothing was built. What the prover says is in {log}"
    assert copy.build("program", status=2).splitlines()[-1] == wanted
    assert log.read_text() == "not proved\n" and not copy.program.exists()
    copy.asked()
    copy.source("mid").write_text("")
    copy.build("program")
    assert "low" not in copy.asked() and copy.program.exists()


def test_a_source_that_changes_while_it_is_proved_counts_for_nothing(copy: Copy) -> None:
    copy.source("mid").write_text("CHANGES")
    said = copy.build("program", status=2).splitlines()[-1]
    assert said == "crsdesk: a source of mid or below changed while it was proved: begin again"
    copy.build("program")


def test_a_check_that_was_killed_begins_again_with_one_job(copy: Copy) -> None:
    if len(os.sched_getaffinity(0)) == 1:
        pytest.skip("one processor")
    copy.source("low").write_text("HUNGRY")
    copy.build("program")
    assert copy.asked()[:2] == ["low", "low"]


def test_an_interrupt_ends_the_checks_and_what_is_proved_stays(copy: Copy) -> None:
    copy.source("crsdesk").write_text("SLOW")
    words = [str(copy.root / "tools/build.py"), "program"]
    with subprocess.Popen(words, env=copy.environment, stderr=subprocess.PIPE, text=True) as running:
        while not (copy.log.exists() and "crsdesk" in copy.log.read_text()):
            time.sleep(0.05)
        running.send_signal(signal.SIGTERM)
        _, said = running.communicate()
    assert running.returncode == 130
    assert said.splitlines()[-1] == "crsdesk: interrupted; the next call goes on from what is proved"
    copy.source("crsdesk").write_text("")
    copy.asked()
    copy.build("program")
    assert copy.asked() == ["crsdesk"]


def test_another_run_of_the_toolchain_is_waited_for(copy: Copy) -> None:
    other = os.open(copy.root / "crates/mid", os.O_RDONLY)
    fcntl.flock(other, fcntl.LOCK_EX)
    words = [str(copy.root / "tools/build.py"), "program"]
    with subprocess.Popen(words, env=copy.environment, stderr=subprocess.PIPE, text=True) as running:
        assert running.stderr
        said = running.stderr.readline()
        assert said == "crsdesk: waiting for another run of the toolchain in these crates\n" and copy.asked() == []
        os.close(other)
        running.communicate()
    assert running.returncode == 0 and len(copy.asked()) == 4


def test_another_toolchain_is_refused_unless_it_is_asked_for(copy: Copy) -> None:
    (copy.root / "README.md").write_text("Proved with `rattle-kit-0 logic def`.\n")
    assert copy.build("program", status=2) == (
        "crsdesk: the toolchain is rattle-kit-1 logic abc, and the proofs were made with rattle-kit-0 logic def: "
        "install that one, or set CRSDESK_ANY_TOOLCHAIN=1 to have this one try\n"
    )
    copy.environment["CRSDESK_ANY_TOOLCHAIN"] = "1"
    copy.build("program")
    assert len(copy.asked()) == 4


def test_statements_of_another_toolchain_count_for_nothing(copy: Copy) -> None:
    copy.build("program")
    (copy.root.parent / "kit/WHAT").write_text("a newer kit")
    copy.asked()
    assert copy.build("program") == "" and copy.asked() == []
    copy.source("crsdesk").write_text("more")
    copy.build("program")
    assert len(copy.asked()) == 4


def test_the_library_has_both_libraries_of_the_header(copy: Copy) -> None:
    prefix = copy.root / "out/prefix"
    copy.build("library")
    assert copy.asked() == ["low", "mid", "crs_c"]
    names = {"crsdesk.h", "crsdesk.pc", "libcrsdesk.a", "libcrsdesk.so", "libcrsdesk.so.0"}
    assert {it.name for it in prefix.rglob("*") if it.is_file()} == names
    assert "Version: 0.1.0\n" in (prefix / "lib/pkgconfig/crsdesk.pc").read_text()
    shown = subprocess.run(["nm", "-D", "--defined-only", prefix / "lib/libcrsdesk.so"], capture_output=True, text=True)
    assert [it.split()[2] for it in shown.stdout.splitlines()] == ["CRSDESK_0.1", "crsdesk_version@@CRSDESK_0.1"]
    before = (prefix / "lib/libcrsdesk.so").stat().st_ctime_ns
    assert copy.build("library") == "" and (prefix / "lib/libcrsdesk.so").stat().st_ctime_ns == before
    (copy.root / "crates/crs_c/layout.c").touch()
    assert copy.build("library") == "" and copy.asked() == []
    assert (prefix / "lib/libcrsdesk.so").stat().st_ctime_ns > before


def test_a_header_that_is_not_the_library_s_is_told(copy: Copy) -> None:
    header = copy.root / "crates/crs_c/crsdesk.h"
    header.write_text(HEADER.replace("int place;", "long place;"))
    wanted = "crsdesk: the library was not made, since crsdesk.h isn't its header: struct crsdesk_part"
    assert copy.build("library", status=2).splitlines()[-1] == wanted
    header.write_text(HEADER + "int crsdesk_more(void);\n")
    wanted = "crsdesk: symbols.map and crsdesk.h don't have the same calls: ['crsdesk_more']"
    assert copy.build("library", status=2).splitlines()[-1] == wanted


def test_the_library_is_proved_by_one_job_over_what_the_gate_left(copy: Copy) -> None:
    assert copy.build("library", "--over-gate", status=2).startswith("crsdesk: the gate left nothing of low: run rt ci")
    for name in ("low", "mid"):
        (copy.root / "crates" / name / f"out/rlib/{name}.rlib").mkdir(parents=True)
    assert "1 crate," in copy.build("library", "--over-gate")
    log = copy.log.read_text()
    assert log.startswith("crs_c jobs=1 ") and f"mid={copy.root}/crates/mid/out/rlib/mid.rlib" in log
    assert copy.asked() == ["crs_c"]
    copy.source("low").write_text("more")
    assert "left nothing of low" in copy.build("library", "--over-gate", status=2)


@pytest.mark.needs("aarch64-linux-gnu-gcc", "qemu-aarch64-static")
def test_the_library_for_aarch64_is_made_beside_the_other(copy: Copy) -> None:
    copy.build("library")
    copy.asked()
    copy.build("library", "--aarch64")
    assert copy.asked() == ["crs_c"] and (copy.root / "crates/crs_c/out/libcrs_c.a").exists()
    shared = copy.root / "out/aarch64/lib/libcrsdesk.so"
    machine = subprocess.run(["readelf", "-h", shared], capture_output=True, text=True).stdout
    assert re.search(r"Machine: +AArch64\n", machine)
    assert copy.build("library", "--aarch64") == copy.build("library") == "" and copy.asked() == []
    (copy.root / "crates/crs_c/heap.c").write_text("/* A line. */")
    before = shared.stat().st_ctime_ns
    assert copy.build("library", "--aarch64") == "" and copy.asked() == [] and shared.stat().st_ctime_ns > before
    header = copy.root / "crates/crs_c/crsdesk.h"
    header.write_text(HEADER.replace("int place;", "long place;"))
    wanted = "crsdesk: the library was not made, since crsdesk.h isn't its header: struct crsdesk_part"
    assert copy.build("library", "--aarch64", status=2).splitlines()[-1] == wanted


@pytest.mark.needs("aarch64-linux-gnu-gcc", "qemu-aarch64-static")
def test_the_program_for_aarch64_is_made_beside_the_other(copy: Copy) -> None:
    copy.build("program")
    copy.asked()
    copy.build("program", "--aarch64")
    made = copy.root / "out/aarch64/bin/crsdesk"
    subprocess.run(["qemu-aarch64-static", "-L", "/usr/aarch64-linux-gnu", made], check=True)
    assert copy.asked() == ["crsdesk"] and copy.build("program", "--aarch64") == copy.build("program") == ""
    (copy.root / "crates/crsdesk/system.c").write_text("not C")
    log = copy.root / "crates/crsdesk/out/rlib/aarch64-unknown-linux-gnu/log"
    wanted = f"crsdesk: the program was not linked. What the linker says is in {log}"
    assert copy.build("program", "--aarch64", status=2).splitlines()[-1] == wanted


def test_a_program_that_the_gate_built_is_run(copy: Copy) -> None:
    copy.program.parent.mkdir(parents=True)
    copy.program.write_text("#!/bin/sh\necho of the gate\n")
    copy.program.chmod(0o755)
    done = subprocess.run([copy.root / "crsdesk"], env=copy.environment, capture_output=True, text=True)
    assert (done.stdout, done.stderr) == ("of the gate\n", "") and copy.asked() == []


def test_wrong_words_are_refused(copy: Copy) -> None:
    assert "usage: build.py" in copy.build(status=2) and copy.asked() == []
