"""The commands of `python -m crsdesk` over files."""
from __future__ import annotations

import pathlib
import subprocess
import sys
from typing import Tuple

import pytest
from rows import closed_pipe
from support import CANONICAL_HEIGHT, EXAMPLES, HEIGHT, need, package, run
from test_python import ASKED, level_of

import crsdesk


class Files:
    """A folder with files, in which commands run."""

    def __init__(self, folder: pathlib.Path) -> None:
        self.folder = folder
        self.write("height.wkt", HEIGHT)
        self.write("again.wkt", CANONICAL_HEIGHT)
        self.write("other name.wkt", HEIGHT.replace('"H"', '"é"').replace("up", "down"))
        self.write("old.prj", 'GEOGCS["WGS 84"]')
        self.write("blank.wkt", "\n")
        self.write("noted.wkt", HEIGHT[:-1] + ',REMARK["r"]]')
        self.write("lined.wkt", HEIGHT[:-1] + ',REMARK["a\n\x1b[31mb\\"]]')
        self.write("lines.txt", f'{HEIGHT}\r\n\nVERTCRS["H"\n{CANONICAL_HEIGHT}')

    def write(self, name: str, text: str) -> None:
        (self.folder / name).write_bytes(text.encode())

    def run(self, *words: str, source: bytes = b"", **more: str) -> Tuple[int, str, str]:
        return package(*words, cwd=self.folder, source=source, **more)


@pytest.fixture(name="files")
def made_files(tmp_path: pathlib.Path) -> Files:
    return Files(tmp_path)


def test_check(files: Files) -> None:
    assert files.run("check", "height.wkt") == (0, "accepted vertical\n", "")
    assert files.run("check", "-", source=HEIGHT.encode()) == (0, "accepted vertical\n", "")
    status, output, error = files.run("check", "height.wkt", "old.prj")
    assert (status, output) == (1, "height.wkt: accepted vertical\nold.prj: refused 11 UnknownKeyword at 0\n")
    assert error.startswith("old.prj: refused 11 UnknownKeyword at 0, line 1, column 1\n") and "WKT1" in error
    assert "@FILE 2>&1 | sed 1d" in error


def test_canon(files: Files) -> None:
    assert files.run("canon", "height.wkt") == (0, CANONICAL_HEIGHT + "\n", "")
    status, output, error = files.run("canon", "old.prj", "noted.wkt", "--level", "definition")
    assert (status, output) == (1, "\n" + CANONICAL_HEIGHT + "\n") and "WKT1" in error
    status, output, error = files.run("canon", "height.wkt", "missing", "again.wkt")
    assert (status, output) == (2, f"{CANONICAL_HEIGHT}\n\n{CANONICAL_HEIGHT}\n")
    assert error == "crsdesk: missing: No such file or directory\n"
    assert files.run("canon", "other name.wkt", LC_ALL="C", PYTHONUTF8="0")[0] == 0


def test_same(files: Files) -> None:
    assert files.run("same", "height.wkt", "again.wkt") == (0, "same\n", "")
    assert files.run("same", "--all", "height.wkt", "again.wkt") == (0, "same\n", "")
    assert files.run("same", "height.wkt", "other name.wkt") == (1, "different name\n", "")
    parts = 'name: "H" | "é" (U+0048 | U+00E9)\nsystem/axis1/direction: up | down\n'
    assert files.run("same", "height.wkt", "other name.wkt", "--all") == (1, parts, "")
    assert files.run("same", "height.wkt", "noted.wkt", "--all") == (1, 'remark: none | "r"\n', "")
    assert files.run("same", "height.wkt", "noted.wkt", "--level", "definition") == (0, "same\n", "")
    for which, words in (("second", ("height.wkt", "old.prj")), ("first", ("old.prj", "height.wkt"))):
        status, output, error = files.run("same", *words)
        assert (status, output) == (1, f"{which} refused 11 UnknownKeyword at 0\n"), (status, output)
        assert error.startswith("old.prj: refused 11 UnknownKeyword at 0, line 1, column 1\n") and "WKT1" in error
    status, output, error = files.run("same", "noted.wkt", "lined.wkt", "--all")
    assert (status, output, error) == (1, 'remark: "r" | "a\\n\\x1B[31mb\\\\"\n', "")


def test_group(files: Files) -> None:
    status, output, error = files.run("group", "height.wkt", "again.wkt", "other name.wkt", "blank.wkt", "old.prj")
    groups = "group 1: height.wkt again.wkt\ngroup 2: 'other name.wkt'\nblank.wkt: blank\n"
    assert (status, output) == (1, f"{groups}old.prj: refused 11 UnknownKeyword at 0\n")
    assert error.startswith("old.prj: refused 11 UnknownKeyword at 0, line 1, column 1\n") and "WKT1" in error
    for words in (["group"], ["group", "--files"]):
        assert files.run(*words, "height.wkt", "noted.wkt")[1] == "group 1: height.wkt\ngroup 2: noted.wkt\n"
    wanted = (0, "group 1: height.wkt noted.wkt\n", "")
    assert files.run("group", "height.wkt", "noted.wkt", "--level=definition") == wanted
    assert files.run("group", "height.wkt", "missing", "again.wkt")[:2] == (2, "group 1: height.wkt again.wkt\n")


def test_rules(files: Files) -> None:
    """Texts are compared and written by their forms; what is accepted is the same."""
    files.write("r.rules", 'UNCOUNTED[crsName]\nSAME[VDATUM["D"],VDATUM["E"]]\n')
    files.write("twin.wkt", HEIGHT.replace('"H"', '"G"').replace('"D"', '"E"'))
    form = CANONICAL_HEIGHT.replace('"H"', '""')
    names = ["height.wkt", "twin.wkt"]
    for rules, answer in (((), (1, "different name\n", "")), (("--rules", "r.rules"), (0, "same\n", ""))):
        assert files.run("same", *rules, *names) == answer
    assert files.run("same", "--all", "--rules=r.rules", *names) == (0, "same\n", "")
    for shipped in ("any-order", "any-order.rules"):
        assert files.run("same", "--rules", "r.rules", "--rules", shipped, *names) == (0, "same\n", "")
    assert files.run("same", "--rules=r.rules", "height.wkt", "other name.wkt")[:2] == (
        1,
        "different system/axis1/direction\n",
    )
    assert files.run("canon", "--rules", "r.rules", *names) == (0, f"{form}\n{form}\n", "")
    assert files.run("group", "--rules", "r.rules", *names) == (0, "group 1: height.wkt twin.wkt\n", "")
    assert files.run("group", "--rules", "r.rules", "--lines", "lines.txt")[1].startswith("group 1: 1 4\n")
    status, output, error = files.run("check", "--rules", "r.rules", "old.prj", *names)
    assert (status, output.count("accepted vertical"), "refused 11" in output) == (1, 2, True)
    files.write("bad.rules", "UNCOUNTED[colour]\n")
    for command in ("check", "canon", "group", "same"):
        told = "crsdesk: bad.rules, line 1: refused 42 at 10: no node or word that may stand here\n"
        assert files.run(command, "--rules", "r.rules", "--rules", "bad.rules", *names) == (2, "", told)
        told = "crsdesk: none.rules: No such file or directory\n"
        assert files.run(command, "--rules", "none.rules", *names) == (2, "", told)


def test_lines(files: Files) -> None:
    """check, canon and group of a file with a text a line."""
    refusal = 'lines.txt:3: refused 7 UnexpectedEnd at 11, column 12\n  VERTCRS["H"\n             ^\n'
    status, output, error = files.run("canon", "--lines", "lines.txt")
    assert (status, output) == (1, f"{CANONICAL_HEIGHT}\n\n\n{CANONICAL_HEIGHT}\n")
    assert error.startswith(refusal) and "VERTCRS[ at 0 is still open\n" in error, error
    status, output, error = files.run("check", "--lines", "lines.txt")
    assert (status, output) == (1, "accepted vertical\nblank\nrefused 7 UnexpectedEnd at 11\naccepted vertical\n")
    assert error.startswith(refusal)
    status, output, error = files.run("group", "--lines", "lines.txt")
    assert (status, output) == (1, "group 1: 1 4\nline 3: refused 7 UnexpectedEnd at 11\n")
    assert error.startswith(refusal)
    status, output, error = files.run("check", "--lines", "height.wkt", "blank.wkt")
    assert (status, output) == (0, "height.wkt:1: accepted vertical\nblank.wkt:1: blank\n")
    words = ["group", "--lines", "lines.txt", "other name.wkt", "noted.wkt", "--level=definition"]
    assert files.run(*words)[1] == (
        "group 1: lines.txt:1 lines.txt:4 noted.wkt:1\ngroup 2: 'other name.wkt:1'\n"
        "lines.txt:3: refused 7 UnexpectedEnd at 11\n"
    )
    for command in ("check", "group", "canon"):
        missing = files.run(command, "--lines", "missing", "blank.wkt")
        assert missing[::2] == (2, "crsdesk: missing: No such file or directory\n")
        assert files.run(command, "--lines", ".")[::2] == (2, "crsdesk: .: Is a directory\n")
    assert files.run("canon", "--lines", "missing", "height.wkt")[:2] == (2, CANONICAL_HEIGHT + "\n")
    old = files.run("canon", "--lines", "-", source=b'\n\nGEOGCS["A"]\n')[2]
    assert old.startswith("-:3: refused 11") and '"$(sed -n 3p FILE)"' in old
    for case in ASKED:
        level, asked = level_of(case)
        if asked == [b"group"]:
            status, output, _ = files.run("group", f"--level={level}", "--lines", "-", source=case.input)
            assert (status, output.encode()) == (case.status, case.output), case.name


def test_names(files: Files) -> None:
    """Names of files with control characters, and others that shells take apart."""
    files.write("a\nb'\x1b\\.wkt", HEIGHT)
    files.write("c\n.prj", 'GEOGCS["A"]')
    names = ["a\nb'\x1b\\.wkt", "c\n.prj"]
    status, output, error = files.run("check", *names)
    first, second = r"$'a\nb\'\x1B\\.wkt'", r"$'c\n.prj'"
    assert output == f"{first}: accepted vertical\n{second}: refused 11 UnknownKeyword at 0\n", output
    assert error.startswith(f"{second}: refused 11")
    assert files.run("group", *names)[1] == f"group 1: {first}\n{second}: refused 11 UnknownKeyword at 0\n"
    assert files.run("check", "d\n.wkt")[2] == "crsdesk: $'d\\n.wkt': No such file or directory\n"
    need("bash")
    words = ["bash", "-c", f"printf %s {first}"]
    assert run(words).stdout == names[0]


PEAK = """
import re, sys
from crsdesk.__main__ import main
status = main(sys.argv[1:])
with open("/proc/self/status") as file:
    print(re.search(r"VmHWM:\\s*(\\d+)", file.read())[1], status, file=sys.stderr)
"""


def test_lines_are_read_in_bounded_memory(files: Files) -> None:
    """A hundred times the lines, accepted, blank and refused, take no more memory."""
    line = HEIGHT[:-1] + ',REMARK["' + "r" * 2000 + '"]]\n\nGEOGCS["' + "x" * 2000 + '"]\n'
    peaks = []
    for times in (200, 20_000):
        with open(files.folder / "many.txt", "wb") as file:
            for _ in range(times):
                file.write(line.encode())
        for words in (["canon"], ["check"], ["group", "--level=definition"]):
            command = [sys.executable, "-c", PEAK, *words, "--lines", "many.txt"]
            done = run(command, cwd=files.folder)
            peak, status = done.stderr.split("\n")[-2].split()
            peaks.append(int(peak))
            assert status == "1" and done.stderr.count("This is WKT1") == times, words
    # A group has the numbers of its lines, and each refused line its refusal's.
    assert peaks[3] < peaks[0] + 8000 and peaks[4] < peaks[1] + 8000 and peaks[5] < peaks[2] + 20_000, peaks


def test_lines_come_as_they_are_read() -> None:
    """A line is answered before the next is there."""
    command = [sys.executable, "-u", "-m", "crsdesk", "canon", "--lines", "-"]
    with subprocess.Popen(command, stdin=subprocess.PIPE, stdout=subprocess.PIPE) as run:
        assert run.stdin and run.stdout
        for name in ("A", "B"):
            run.stdin.write(HEIGHT.replace('"H"', f'"{name}"').encode() + b"\n")
            run.stdin.flush()
            assert run.stdout.readline().startswith(f'VERTCRS["{name}"'.encode())
        run.stdin.close()


@pytest.mark.needs("python3:pyproj")
def test_fill(files: Files) -> None:
    """Rows of COPY: keys as they are, values with their escapes taken off and put on again."""
    exports = EXAMPLES / "exports"
    bound, plain = ((exports / name).read_bytes().strip() for name in ("dhdn_towgs84.prj", "wgs84_esri.prj"))
    named = HEIGHT.replace('"H"', '"a\tb\\\\n"').encode()
    texts = {
        b"1": plain,
        b"2": bound,
        b"a\\\\b": named.replace(b"\\", b"\\\\").replace(b"\t", b"\\t"),
        b"3": b"\\N",
        b"4": b" ",
        b"5": plain.replace(b"298.257", b"298,257"),
        b"6": b"x",
    }
    status, output, error = files.run("fill", source=b"".join(b"\t".join(it) + b"\n" for it in texts.items()))
    rows = [line.split("\t") for line in output.splitlines()]
    assert status == 1 and [row[0] for row in rows] == ["1", "2", "a\\\\b"], (output, error)
    assert rows[0][1].startswith('GEOGCRS["WGS 84"') and rows[0][2] == "\\N"
    crs = crsdesk.Crs.from_user(bound)
    assert rows[1][1:] == [crs.text.decode(), crs.transformation]
    assert rows[2][1:] == [texts[b"a\\\\b"].decode(), "\\N"]
    told = error.splitlines()
    assert len(told) == 2 and told[0].startswith(
        "5: refused 11 UnknownKeyword at 0; PROJ doesn't read it either: "
    ), told
    assert told[1] == "6: refused 7 UnexpectedEnd at 1"
    assert files.run("fill", source=b"1\tx\ty\n") == (2, "", "crsdesk: row 1: not two columns, a key and a text\n")


def test_faults(files: Files) -> None:
    status, output, error = files.run("check", "none.wkt", "height.wkt")
    assert (status, output) == (2, "height.wkt: accepted vertical\n")
    assert error == "crsdesk: none.wkt: No such file or directory\n"
    assert files.run("check", ".")[2] == "crsdesk: .: Is a directory\n"
    assert files.run("same", "none.wkt", "height.wkt")[0] == 2
    for words in ("", "frob", "same a", "check", "check --level full a", "canon --level=x a"):
        status, output, error = files.run(*words.split())
        assert (status, output) == (2, "") and error.startswith("usage: python -m crsdesk"), words
    assert files.run("--version") == (0, f"crsdesk {crsdesk.__version__}\n", "")
    with open("/dev/full", "wb") as full:
        done = run([sys.executable, "-m", "crsdesk", "check", "height.wkt"], cwd=files.folder, stdout=full)
    assert (done.returncode, done.stderr) == (2, "crsdesk: write failed: No space left on device\n")


# What a shell does with the streams of a command, the command's words, its status and what it tells then.
STREAMS = [
    (">&-", "check height.wkt", 2, "crsdesk: write failed: Bad file descriptor\n"),
    (">&-", "check none.wkt", 2, "crsdesk: none.wkt: No such file or directory\n"),
    (">&-", "--version", 2, "crsdesk: write failed: Bad file descriptor\n"),
    (">/dev/full", "--help", 2, "crsdesk: write failed: No space left on device\n"),
    (">/dev/full", "group height.wkt", 2, "crsdesk: write failed: No space left on device\n"),
    ("<&-", "check -", 2, "crsdesk: -: Bad file descriptor\n"),
    ("<&-", "check height.wkt", 0, ""),
    ("2>&-", "check height.wkt", 0, ""),
    ("2>&-", "check none.wkt height.wkt", 2, ""),
    ("2>&-", "check old.prj", 2, ""),
    ("2>&-", "frob", 2, ""),
    ("2>/dev/full", "check none.wkt height.wkt", 2, ""),
    ("2>/dev/full", "frob", 2, ""),
    ("<&- >&- 2>&-", "check - height.wkt", 2, ""),
]
UNREAD = ["check height.wkt", "canon --lines many.txt", "group height.wkt", "same height.wkt height.wkt", "--help"]


def test_streams(files: Files) -> None:
    """Streams that are closed or take nothing end in status 2, with one line where there is a place for it; an output that
    nobody reads any more, as one of ``| head -1``, in none."""
    files.write("many.txt", f"{HEIGHT}\n" * 3_000)
    for streams, words, status, error in STREAMS:
        shell = ["sh", "-c", f'exec "$@" {streams}', "sh", sys.executable, "-m", "crsdesk", *words.split()]
        done = run(shell, cwd=files.folder)
        assert (done.returncode, done.stderr) == (status, error), (streams, words, done)
    for words in UNREAD:
        with closed_pipe() as pipe:
            done = run([sys.executable, "-m", "crsdesk", *words.split()], cwd=files.folder, stdout=pipe)
        assert (done.returncode, done.stderr) == (2, ""), (words, done)
