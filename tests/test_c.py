"""The library for C, as Python and as a C program takes it.

c_rows.py asks the shared object the rows of the .rows files, of one thread and of four, whole and cut off, and c_growths.py
refuses it each growth of memory in turn. The programs of c/ are compiled against its header, and linked with the static
library and with the shared object: calls.c, which makes each call, under the address and undefined-behaviour sanitizers;
and threads.c, which hands a catalogue from thread to thread under the thread sanitizer of the first compiler that has one.
The header must do for C99 and for C++ with every warning an error, the shared object must need the C library alone, both
must show the header's calls and nothing else, pkg-config must find them, and both must answer the version that the program
crsdesk prints. The comparison that tools/build.py makes must find headers whose structs differ from the library's.
"""
from __future__ import annotations

import ctypes
import faulthandler
import os
import pathlib
import re
import sys
import threading
from concurrent.futures import ThreadPoolExecutor
from typing import Callable, Iterator, List, Tuple

import build
import c_rows
import pytest
import rows
from c_library import PAGE, Block
from support import HERE, ROOT, need, run, succeed

MADE = build.FOLDER / "out" / "libcrs_c.a"
ROWS = c_rows.all_rows()
WARNINGS = ["-Wall", "-Wextra", "-Wpedantic", "-Werror"]
SANITIZERS = ["-g", "-O1", "-fsanitize=address,undefined", "-fno-sanitize-recover=all"]
THREAD_SANITIZER = ["-std=gnu11", "-g", "-O1", "-fsanitize=thread"]
# Edits of the header, and the struct that the comparison must name.
OTHER_LAYOUTS = [
    ("catalogue {\n    uint64_t hidden[32];", "catalogue {\n    uint64_t hidden[8];", "crsdesk_catalogue"),
    ("catalogue {\n    uint64_t hidden[32];", "catalogue {\n    unsigned char hidden[256];", "crsdesk_catalogue"),
    ("rules {\n    uint64_t hidden[64];", "rules {\n    uint64_t hidden[8];", "crsdesk_rules"),
    ("rules {\n    uint64_t hidden[64];", "rules {\n    unsigned char hidden[512];", "crsdesk_rules"),
    ("    size_t place;\n    uint32_t number;\n", "    uint32_t number;\n    size_t place;\n", "crsdesk_refusal"),
    ("    size_t place;\n    uint32_t number;\n", "    uint32_t place, number;\n", "crsdesk_refusal"),
    ("    size_t group;  ", "    uint64_t first; size_t group;  ", "crsdesk_standing"),
    ("    uint64_t number; /* 0 with", "    uint32_t was; uint32_t number; /* 0 with", "crsdesk_line"),
    ("    char bytes[240];", "    char bytes[232];", "crsdesk_piece"),
    ("    size_t length;   /*", "    uint32_t length, more;   /*", "crsdesk_piece"),
    ("    size_t line;     /*", "    uint32_t line, more;     /*", "crsdesk_rules_standing"),
    ("    uint32_t number; /* why", "    uint32_t more, number; /* why", "crsdesk_rules_standing"),
    ("    size_t length;                  /*", "    uint64_t first; size_t length;  /*", "crsdesk_form"),
    ("    size_t column; /*", "    uint32_t column, more; /*", "crsdesk_explained"),
    ("    size_t node;   /*", "    uint64_t first; size_t node;   /*", "crsdesk_explained"),
    ("    size_t begin;       /*", "    uint64_t first; size_t begin;       /*", "crsdesk_entry"),
    ("    size_t written_end; /*", "    uint32_t written_end, more; /*", "crsdesk_entry"),
]
BARE = "#include <crsdesk.h>\nint main(void) { size_t n; char out[16]; return crsdesk_version(out, 16, &n) == CRSDESK_OK ? 0 : 1; }\n"
VERSION = """#include <crsdesk.h>
#include <stdio.h>
int main(void)
{
    char out[16];
    size_t n;
    if (crsdesk_version(out, sizeof out, &n) != CRSDESK_OK)
        return 1;
    return printf("%.*s\\n", (int)n, out) < 0;
}
"""

both = pytest.mark.parametrize("kind", ["static", "shared"])


def linked(
    source: pathlib.Path, kind: str, flags: List[str], prefix: pathlib.Path, folder: pathlib.Path, compiler: str = "cc"
) -> pathlib.Path:
    """The program of a C file with one of the two libraries."""
    need("cc")
    made = folder / f"{source.stem}_{kind}"
    lib = prefix / "lib"
    libraries: List[object] = (
        [lib / "libcrsdesk.a"] if kind == "static" else [f"-L{lib}", f"-Wl,-rpath,{lib}", "-lcrsdesk"]
    )
    words = [compiler, "-std=gnu99", *WARNINGS, *flags, f"-I{prefix}/include", "-o", made, source]
    succeed([*words, *libraries, "-lpthread"])
    return made


def assert_all_passed(told: str) -> None:
    assert re.search(r"^\d+ passed, 0 failed\n\Z", told, re.MULTILINE), told[-1500:]


@pytest.fixture(scope="session")
def asker(library: pathlib.Path) -> c_rows.Asker:
    return c_rows.Asker()


@pytest.mark.parametrize("case", ROWS, ids=str)
def test_row(case: rows.Case, asker: c_rows.Asker) -> None:
    c_rows.hold(case, asker)


def is_fatal(touch: Callable[[], object]) -> bool:
    """Whether a touch ends a process."""
    child = os.fork()
    if child == 0:
        faulthandler.disable()
        touch()
        os._exit(0)
    return os.WIFSIGNALED(os.waitpid(child, 0)[1])


@pytest.mark.parametrize("begins", [False, True])
def test_blocks(begins: bool) -> None:
    """Blocks are what is said of them."""
    length = 5 if begins else PAGE + 5
    block, text, none = Block(length, begins), Block(5, begins, b"12345"), Block(0, begins)
    assert is_fatal(lambda: ctypes.string_at(block.at - 1 if begins else block.at + length, 1))
    assert is_fatal(lambda: ctypes.memset(none.at, 0, 1)) and is_fatal(lambda: ctypes.memset(none.at - 1, 0, 1))
    assert is_fatal(lambda: ctypes.memset(text.at, 0, 1)) and text.read() == b"12345"
    assert not any(is_fatal(lambda: ctypes.memset(it, 0, 1)) for it in (block.at, block.at + length - 1))


@pytest.fixture
def small_stacks() -> Iterator[None]:
    """Threads have the stack that the header asks for."""
    before = threading.stack_size(256 * 1024)
    yield
    threading.stack_size(before)


def test_rows_by_threads(library: pathlib.Path, small_stacks: None) -> None:
    """Four threads ask at once, each in an order of its own, whose texts are also cut off at other places than the others'."""

    def turn(number: int) -> None:
        asker, start = c_rows.Asker(begins=number % 2 == 1), number * len(ROWS) // 4
        for case in ROWS[start:] + ROWS[:start]:
            c_rows.hold(case, asker)
            if len(case.input) < 20_000:
                c_rows.hold_fronts(case.input, asker, range(number, 20, 4), 20)

    with ThreadPoolExecutor(4) as threads:
        for it in [threads.submit(turn, number) for number in range(4)]:
            it.result()


@pytest.mark.parametrize("level, room", [(0, 41_000), (1, 2_000_000)])
def test_rows_together(level: int, room: int, asker: c_rows.Asker) -> None:
    c_rows.hold_together(asker, level, room)


def test_names_of_refusals(asker: c_rows.Asker) -> None:
    names = [asker.name(number) for number in (*range(100), 2**32 - 1)]
    assert len(set(names)) == len(c_rows.NUMBERS) + 1


def test_growths(library: pathlib.Path, refusing: pathlib.Path) -> None:
    words = [sys.executable, HERE / "c_growths.py", refusing]
    assert_all_passed(succeed(words, env={**os.environ, "LD_PRELOAD": str(refusing)}))


@both
def test_calls(kind: str, prefix: pathlib.Path, tmp_path: pathlib.Path) -> None:
    assert_all_passed(succeed([linked(HERE / "c" / "calls.c", kind, SANITIZERS, prefix, tmp_path)]))


@pytest.fixture(scope="session")
def by_threads(tmp_path_factory: pytest.TempPathFactory) -> Tuple[str, List[str]]:
    """The first compiler whose thread sanitizer works here, and what runs a program at the addresses that it asks for:
    some that a kernel chooses are where the sanitizer keeps its own."""
    need("cc")
    folder = tmp_path_factory.mktemp("threads")
    (folder / "idle.c").write_text("int main(void) { return 0; }\n", encoding="utf-8")
    fixed = ["setarch", "--addr-no-randomize"]
    fixed = fixed if run(["sh", "-c", "setarch --addr-no-randomize true"]).returncode == 0 else []
    for compiler in ("cc", "gcc", "clang"):
        words = " ".join([compiler, *THREAD_SANITIZER, "-o", "idle", "idle.c", "&&", *fixed, "./idle"])
        if run(["sh", "-c", words], cwd=folder).returncode == 0:
            return compiler, fixed
    pytest.skip("no compiler here has a thread sanitizer that works")


@both
def test_threads(kind: str, by_threads: Tuple[str, List[str]], prefix: pathlib.Path, tmp_path: pathlib.Path) -> None:
    compiler, fixed = by_threads
    made = linked(HERE / "c" / "threads.c", kind, THREAD_SANITIZER, prefix, tmp_path, compiler)
    for order in ("lock", "atomic", "join"):
        assert_all_passed(succeed([*fixed, made, order]))
    done = run([*fixed, made, "unordered"])
    assert done.returncode and "ThreadSanitizer" in done.stderr, "turns that nothing orders aren't told"


@pytest.fixture(scope="session")
def whole(tmp_path_factory: pytest.TempPathFactory) -> pathlib.Path:
    """One object of the toolchain's two libraries."""
    if not MADE.exists():
        pytest.skip(f"there is no {MADE.relative_to(ROOT)}")
    return build.joined(MADE, build.heap(MADE, build.TARGET), tmp_path_factory.mktemp("whole"))


@pytest.mark.parametrize("old, new, struct", [("", "", ""), *OTHER_LAYOUTS])
def test_layout(
    old: str, new: str, struct: str, whole: pathlib.Path, prefix: pathlib.Path, tmp_path: pathlib.Path
) -> None:
    header = (prefix / "include" / "crsdesk.h").read_text(encoding="utf-8")
    assert not old or header.count(old) == 1
    (tmp_path / "crsdesk.h").write_text(header.replace(old, new) if old else header, encoding="utf-8")
    told = build.differences(tmp_path, whole, tmp_path)
    assert any(f"struct {struct} " in it for it in told) if struct else not told


@both
def test_version(kind: str, program: pathlib.Path, prefix: pathlib.Path, tmp_path: pathlib.Path) -> None:
    file = tmp_path / "version.c"
    file.write_text(VERSION, encoding="utf-8")
    assert f"crsdesk {succeed([linked(file, kind, [], prefix, tmp_path)])}" == succeed([program, "--version"])


@pytest.mark.needs("cc", "c++")
@pytest.mark.parametrize(
    "compiler, ending, flags",
    [
        ("cc", "c", ["-std=c99", "-Wconversion", "-Wstrict-prototypes"]),
        ("c++", "cc", ["-std=c++11", "-Wold-style-cast"]),
    ],
)
def test_header(compiler: str, ending: str, flags: List[str], prefix: pathlib.Path, tmp_path: pathlib.Path) -> None:
    file = tmp_path / f"bare.{ending}"
    file.write_text(BARE if ending == "c" else BARE.replace("(void)", "()"), encoding="utf-8")
    words = [compiler, *WARNINGS, *flags, f"-I{prefix}/include", "-o", tmp_path / "bare"]
    succeed([*words, file, prefix / "lib" / "libcrsdesk.a"])
    succeed([tmp_path / "bare"])


@pytest.mark.needs("nm")
def test_names(prefix: pathlib.Path) -> None:
    """The libraries show the calls of the header, and nothing else; the shared object with the versions of symbols.map."""
    lines = succeed(["nm", "-g", "--defined-only", prefix / "lib" / "libcrsdesk.a"]).splitlines()
    assert {line.split()[-1] for line in lines if len(line.split()) == 3} == set(build.calls())
    came = build.versions()
    assert build.shown(prefix / "lib" / "libcrsdesk.so") == {f"{it}@@{came.get(it)}" for it in build.calls()}


@pytest.mark.needs("readelf")
def test_needs(prefix: pathlib.Path) -> None:
    told = succeed(["readelf", "-d", prefix / "lib" / "libcrsdesk.so"])
    assert re.findall(r"\(NEEDED\).*\[(.*)\]", told) == ["libc.so.6"]


@pytest.mark.needs("cc", "pkg-config")
def test_pkg_config(prefix: pathlib.Path, tmp_path: pathlib.Path) -> None:
    environment = {**os.environ, "PKG_CONFIG_PATH": str(prefix / "lib" / "pkgconfig")}
    words = succeed(["pkg-config", "--cflags", "--libs", "crsdesk"], env=environment).split()
    (tmp_path / "found.c").write_text(BARE, encoding="utf-8")
    succeed(["cc", tmp_path / "found.c", "-o", tmp_path / "found", *words])
    succeed([tmp_path / "found"], env={**os.environ, "LD_LIBRARY_PATH": str(prefix / "lib")})
    assert succeed(["pkg-config", "--modversion", "crsdesk"], env=environment).strip() == build.version()
