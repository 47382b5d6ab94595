"""./install into fresh places, as a user would: each part is used from there, and taken away."""
from __future__ import annotations

import fnmatch
import os
import pathlib
import re
import shutil
import subprocess
import sys
import tempfile
from typing import Iterable, List, NamedTuple, Set, Tuple

import build
import pytest
import support
from documents import leads, links_of
from rows import closed_pipe
from support import EXAMPLES, NOBODY, ROOT, need, outside

pytestmark = pytest.mark.xdist_group("install")
SYSTEM = "/usr/bin/python3"
FILES = {
    "bin/crsdesk",
    "include/crsdesk.h",
    "lib/libcrsdesk.a",
    "lib/libcrsdesk.so",
    "lib/libcrsdesk.so.0",
    "lib/pkgconfig/crsdesk.pc",
    "lib/crsdesk_sqlite.so",
    "share/crsdesk/installed",
    "share/crsdesk/rules/any-order.rules",
    "share/crsdesk/rules/omitted-units.rules",
    "share/crsdesk/rules/producers.rules",
    "share/bash-completion/completions/crsdesk",
    "share/fish/vendor_completions.d/crsdesk.fish",
    "share/zsh/site-functions/_crsdesk",
    "share/man/man1/crsdesk.1",
}
FOLDER_OF_DOCUMENTS = "share/doc/crsdesk"
COMMANDS = ("canon", "check", "digest", "explain", "group", "rules", "same")
# What has its files below the list's own folder and the prefix, which a user has.
OWN = "share/crsdesk/own.txt"
# Prints what the words before the last are completed to.
ASK_COMPLETION = (
    'compopt() { :; }; source "$1"; shift; COMP_WORDS=(crsdesk "$@"); COMP_CWORD=$#; _crsdesk; echo "${COMPREPLY[*]}"'
)
# Says how bash completes what the function leaves open.
ASK_DEFAULT = 'source "$1"; complete -p crsdesk'
# Prints what fish completes a line to, a word a line.
ASK_FISH = "source $argv[1]; complete -C $argv[2]"


class Installed(NamedTuple):
    """A prefix, and what ./install wrote of it."""

    prefix: pathlib.Path
    stdout: str
    stderr: str


def run(words: Iterable[object], **more: str) -> "subprocess.CompletedProcess[str]":
    """Runs a command outside the repository, with more of an environment."""
    return support.run(words, cwd="/", env=outside(**more))


def documents() -> Set[str]:
    """The pages and examples, by the paths that they have below the prefix."""
    found = [
        *(ROOT / f"{name}.md" for name in ("README", "CHANGELOG", "CONTRIBUTING")),
        *(it for folder in (ROOT / "docs", EXAMPLES) for it in folder.glob("**/*") if not it.is_dir()),
    ]
    return {f"{FOLDER_OF_DOCUMENTS}/{it.relative_to(ROOT)}" for it in found}


def files_below(folder: pathlib.Path) -> Set[str]:
    """The files below a folder; the wheel, whose name has the version and the system, by its kind."""
    found = {str(path.relative_to(folder)) for path in folder.rglob("*") if not path.is_dir() or path.is_symlink()}
    return {"the wheel" if path.endswith(".whl") else path for path in found}


def wanted_files(error: str) -> Set[str]:
    """What an installation has; the extension is left out where what it takes isn't there, which it has reported."""
    lacks = "/crsdesk_sqlite.so, since" in error
    pages = {f"share/man/man3/{it.name}" for it in (ROOT / "man").glob("*.3")}
    wheel = set() if "skipped: the wheel" in error else {"the wheel"}
    return FILES - ({"lib/crsdesk_sqlite.so"} if lacks else set()) | wheel | pages | documents()


@pytest.fixture(scope="module")
def installed(tmp_path_factory: pytest.TempPathFactory, program: pathlib.Path, library: pathlib.Path) -> Installed:
    prefix = tmp_path_factory.mktemp("install") / "prefix"
    done = run([ROOT / "install", prefix])
    assert done.returncode == 0, done.stderr[-2000:]
    return Installed(prefix, done.stdout, done.stderr)


@pytest.fixture
def prefix(installed: Installed) -> pathlib.Path:
    return installed.prefix


def test_files(installed: Installed) -> None:
    prefix, wanted = installed.prefix, wanted_files(installed.stderr)
    assert files_below(prefix) == wanted
    printed = {line[len(str(prefix)) + 1 :] for line in installed.stdout.split("\n")[:-1]}
    assert {"the wheel" if it.endswith(".whl") else it for it in printed} == wanted
    listed = (prefix / "share/crsdesk/installed").read_text(encoding="utf-8").split("\n")[:-1]
    assert os.readlink(prefix / "lib/libcrsdesk.so") == "libcrsdesk.so.0"
    files = {"the wheel" if it.endswith(".whl") else it for it in listed if not it.endswith("/")}
    assert files == wanted, "the list's files"
    folders = {f"{it.relative_to(prefix)}/" for it in [prefix, *prefix.rglob("*")] if it.is_dir()}
    assert {it for it in listed if it.endswith("/")} == folders, "the list's folders"


@pytest.mark.parametrize("page", sorted(it for it in documents() if it.endswith(".md")))
def test_document(page: str, prefix: pathlib.Path) -> None:
    """The links of a page lead to what is installed, and the page is the repository's but for those links."""
    assert [it for it in links_of(prefix / page) if not leads(prefix / page, it)] == []
    files = prefix / page, ROOT / os.path.relpath(page, FOLDER_OF_DOCUMENTS)
    installed, source = (re.sub(r" ?\([^()]*\)|[][]", "", it.read_text(encoding="utf-8")) for it in files)
    assert installed == source


def test_links(prefix: pathlib.Path) -> None:
    readme = (prefix / FOLDER_OF_DOCUMENTS / "README.md").read_text(encoding="utf-8")
    assert "[crsdesk.h](../../../include/crsdesk.h)" in readme, "the header's link"
    assert "`MainTheorem` (`crates/crs_canon/specs/MainTheorem.antt`)," in readme, "a source's path"


@pytest.mark.needs("nm", "strip")
@pytest.mark.parametrize("path", ["bin/crsdesk", "lib/crsdesk_sqlite.so", "lib/libcrsdesk.so"])
def test_it_is_stripped(path: str, prefix: pathlib.Path) -> None:
    if path == "lib/crsdesk_sqlite.so" and not (prefix / path).exists():
        pytest.skip("sqlite3ext.h isn't there")
    assert run(["nm", prefix / path]).stdout == ""


@pytest.mark.needs("nm", "readelf")
def test_names(prefix: pathlib.Path) -> None:
    """The shared object shows its calls with the versions that they came with, of which none is later than the library's."""
    shared, came = prefix / "lib/libcrsdesk.so", build.versions()
    assert sorted(came) == sorted(build.calls()), "the calls of symbols.map"
    assert build.shown(shared) == {f"{name}@@{node}" for name, node in came.items()}
    told = run(["readelf", "-d", "-V", shared]).stdout
    assert re.findall(r"soname: \[(.*)\]", told) == [f"libcrsdesk.so.{build.INTERFACE}"], "its own name"
    assert re.findall(r"Name: (CRSDESK\S*)", told) == sorted(set(came.values())), "its versions"
    version = [int(it) for it in build.version().partition("-")[0].split(".")]
    late = [it for it in came.values() if [int(part) for part in it[len("CRSDESK_") :].split(".")] > version[:2]]
    assert late == [], "versions after the library's"


def test_recipe_for_debian(prefix: pathlib.Path) -> None:
    """Each installed file is in one of Debian's packages, or is left out by name; the symbols of libcrsdesk0 have the
    versions of symbols.map, each since the version of the library that it names."""
    folder = ROOT / "packaging/debian"
    packages = re.findall(r"^Package: (\S+)$", (folder / "control").read_text(encoding="utf-8"), re.M)
    files = {it.stem: it for it in folder.glob("*.install")}
    assert sorted(files) == sorted(packages), "the lists of Debian's packages"
    lines = [it.read_text(encoding="utf-8").splitlines() for it in (*files.values(), folder / "not-installed")]
    patterns = [line.split()[0] for some in lines for line in some]
    installed = {str(it.relative_to(prefix)) for it in prefix.rglob("*") if not it.is_dir() or it.is_symlink()}
    below = [re.sub("^usr/lib/", "usr/lib/x86_64-linux-gnu/", f"usr/{it}") for it in sorted(installed)]
    found = {path: [it for it in patterns if fnmatch.fnmatch(f"{path}/", f"{it}/*")] for path in below}
    assert {path: its for path, its in found.items() if len(its) != 1} == {}, "files in no package, or in two"
    # pip puts the module and its command there; the extension and the wheel may be left out.
    others = {"usr/bin/crsdesk-py", "usr/lib/python3", "usr/lib/*/crsdesk_sqlite.so", "usr/share/crsdesk/*.whl"}
    used = {its[0] for its in found.values()}
    assert {*patterns} - others - used == set(), "what the lists name and isn't installed"
    text = (folder / "libcrsdesk0.symbols").read_text(encoding="utf-8")
    nodes = {it: it[len("CRSDESK_") :] + ".0" for it in build.versions().values()}
    assert dict(re.findall(r"\(symver\)(\S+) (\S+)$", text, re.M)) == nodes, "the versions of Debian's symbols"


def test_program(prefix: pathlib.Path) -> None:
    height = (EXAMPLES / "height.wkt").read_text(encoding="utf-8")
    done = run([prefix / "bin" / "crsdesk", "same", height, height])
    assert (done.returncode, done.stdout) == (0, "same\n"), "bin/crsdesk"


@pytest.mark.needs("groff")
def test_manual(prefix: pathlib.Path) -> None:
    page = prefix / "share/man/man1/crsdesk.1"
    numbers = re.findall(r"^\| (\d+) \| (\w+) \|", (ROOT / "docs/REFUSALS.md").read_text(encoding="utf-8"), re.M)
    listed = re.findall(r"^\.B (\d+) (\w+)$", page.read_text(encoding="utf-8"), re.M)
    assert (listed, len(listed)) == (numbers, 20), "its refusals"
    for found in (page, *sorted((prefix / "share/man/man3").iterdir())):
        done = run(["groff", "-man", "-ww", "-z", "-I", prefix / "share/man", found])
        assert (done.returncode, done.stderr) == (0, ""), f"the manual's page {found.name}"
    version = run([prefix / "bin" / "crsdesk", "--version"]).stdout.strip()
    assert f'"{version}"' in page.read_text(encoding="utf-8"), "its version"


def helped(prefix: pathlib.Path, *words: str) -> Set[str]:
    """The commands and options that the program's help has."""
    lines = run([prefix / "bin/crsdesk", *words]).stdout.split("\n")
    found = [re.match(r"  +(?:(\w+)  |(-\w), (--[\w-]+)|(--[\w-]+))", line) for line in lines]
    return {it for match in found if match for it in match.groups() if it}


@pytest.mark.needs("bash")
def test_completion(prefix: pathlib.Path) -> None:
    """What bash offers, held against the program's own help."""
    script = prefix / "share/bash-completion/completions/crsdesk"

    def offered(*words: str) -> Set[str]:
        done = run(["bash", "-c", ASK_COMPLETION, "bash", script, *words])
        assert (done.returncode, done.stderr) == (0, ""), f"completion of {words}"
        return set(done.stdout.split())

    assert offered("") == helped(prefix, "--help"), "the commands"
    assert offered("help", "") == {*COMMANDS, "help"}, "help's words"
    for command in COMMANDS:
        assert offered(command, "-") == helped(prefix, "help", command), f"the options of {command}"
    assert offered("ca") == {"canon"}, "ca"
    for command in COMMANDS:
        assert offered(command, "READ") == set(), f"files of {command} are left to the shell"
        assert offered(command, "") == set(), f"and are there without a letter, for {command}"
    done = run(["bash", "-c", ASK_DEFAULT, "bash", script])
    assert done.stdout == "complete -o bashdefault -o default -F _crsdesk crsdesk\n", "the shell's own"
    for words in (["--level", ""], ["--level", "="], ["--level", "=", ""]):
        assert offered("group", *words) == {"full", "definition"}, "levels"
    assert offered("group", "--level", "=", "d") == {"definition"}, "a level"
    assert offered("group", "--rules", "f") == set(), "a rules file is left to the shell"


@pytest.mark.needs("zsh")
def test_completion_in_zsh(prefix: pathlib.Path) -> None:
    done = run(["zsh", "-n", prefix / "share/zsh/site-functions/_crsdesk"])
    assert (done.returncode, done.stderr) == (0, "")


@pytest.mark.needs("fish")
def test_completion_in_fish(prefix: pathlib.Path) -> None:
    script = prefix / "share/fish/vendor_completions.d/crsdesk.fish"

    def offered(line: str) -> Set[str]:
        done = run(["fish", "--no-config", "-c", ASK_FISH, script, line])
        assert done.stderr == "", f"fish completes {line!r}"
        return {it.split("\t")[0] for it in done.stdout.split("\n") if it}

    assert {*COMMANDS, "help"} <= offered("crsdesk "), "the commands"
    assert {"full", "definition"} <= offered("crsdesk same --level "), "levels"
    for command in COMMANDS:
        wanted = {it for it in helped(prefix, "help", command) if it[1] == "-"}
        assert offered(f"crsdesk {command} --") == wanted, f"the options of {command}"


@pytest.mark.needs("pkg-config")
def test_pkg_config(prefix: pathlib.Path) -> None:
    done = run(["pkg-config", "--modversion", "crsdesk"], PKG_CONFIG_PATH=f"{prefix}/lib/pkgconfig")
    assert f"crsdesk {done.stdout}" == run([prefix / "bin" / "crsdesk", "--version"]).stdout


@pytest.mark.needs("cc")
@pytest.mark.parametrize("name", ["libcrsdesk.a", "libcrsdesk.so"])
def test_library(name: str, prefix: pathlib.Path, tmp_path: pathlib.Path) -> None:
    """The example in C against each library."""
    source = prefix / FOLDER_OF_DOCUMENTS / "examples/compare.c"
    flags = ["-std=c99", "-Wall", "-Wextra", "-Werror", "-pedantic"]
    words = [f"-I{prefix}/include", f"{prefix}/lib/libcrsdesk.a"]
    if name == "libcrsdesk.so":
        need("pkg-config")
        done = run(["pkg-config", "--cflags", "--libs", "crsdesk"], PKG_CONFIG_PATH=f"{prefix}/lib/pkgconfig")
        words = done.stdout.split()
    program = tmp_path / name
    done = run(["cc", *flags, "-o", program, source, *words])
    assert (done.returncode, done.stderr) == (0, "")
    wgs84, equal, prj = (EXAMPLES / it for it in ("wgs84.wkt", "wgs84_2015.wkt", "exports/wgs84_esri.prj"))
    refused = f"{prj}: refused 11 UnknownKeyword at 0\n"
    cases: List[Tuple[List[object], Tuple[int, str]]] = [
        ([wgs84, equal], (0, "same\n")),
        ([wgs84, EXAMPLES / "other_flattening.wkt"], (1, "different datum/ellipsoid/flattening\n")),
        ([wgs84, prj], (1, refused)),
        ([prj, wgs84], (1, refused)),
        ([wgs84, tmp_path / "missing"], (2, "")),
        ([], (2, "")),
    ]
    for files, wanted in cases:
        done = run([program, *files], LD_LIBRARY_PATH=f"{prefix}/lib")
        assert (done.returncode, done.stdout) == wanted, f"the example in C with {name}"


@pytest.mark.needs("python3:pip", "python3:ensurepip")
def test_python(prefix: pathlib.Path, tmp_path: pathlib.Path) -> None:
    wheel = next((prefix / "share/crsdesk").glob("crsdesk-*.whl"), None)
    if wheel is None:
        pytest.skip("setuptools and wheel aren't there")
    fresh = tmp_path / "fresh"
    assert run([sys.executable, "-m", "venv", fresh]).returncode == 0, "a fresh environment"
    done = run([fresh / "bin/pip", "install", "-q", "--no-index", "--disable-pip-version-check", wheel])
    assert (done.returncode, done.stderr) == (0, ""), "pip install"
    done = run([fresh / "bin/python", "-m", "crsdesk", "check", EXAMPLES / "wgs84.wkt"])
    assert (done.stdout, done.stderr) == ("accepted geographic\n", ""), "python -m crsdesk"


@pytest.mark.needs("sqlite3")
def test_sqlite(prefix: pathlib.Path) -> None:
    extension = prefix / "lib/crsdesk_sqlite.so"
    if not extension.exists():
        pytest.skip("sqlite3ext.h isn't there")
    asked = f"SELECT crs_kind(readfile('{EXAMPLES / 'wgs84.wkt'}'))"
    done = run(["sqlite3", ":memory:", f".load {extension.with_suffix('')}", asked])
    assert (done.stdout, done.stderr) == ("geographic\n", ""), "lib/crsdesk_sqlite.so"


def test_uninstall(tmp_path: pathlib.Path) -> None:
    """Again over what is there, with a file of an older version and one of the user's; then all but that goes."""
    prefix = tmp_path / "prefix"
    assert run([ROOT / "install", prefix]).returncode == 0
    (prefix / "lib/libolder.so").write_text("", encoding="utf-8")
    (prefix / OWN).write_text("", encoding="utf-8")
    with (prefix / "share/crsdesk/installed").open("a", encoding="utf-8") as file:
        file.write("lib/libolder.so\n")
    done = run([ROOT / "install", prefix])
    wanted = wanted_files(done.stderr) | {OWN}
    assert (done.returncode, files_below(prefix)) == (0, wanted), "./install again"
    done = run([ROOT / "install", "--uninstall", prefix])
    assert (done.returncode, done.stderr) == (0, ""), "--uninstall"
    left = {str(path.relative_to(prefix)) for path in prefix.rglob("*")}
    assert left == {"share", "share/crsdesk", OWN}, "what is left"
    done = run([ROOT / "install", prefix, "--uninstall"])
    wanted_error = f"crsdesk: nothing is installed below {prefix}: there is no share/crsdesk/installed\n"
    assert (done.returncode, done.stderr) == (2, wanted_error), "--uninstall again"


def test_destdir(tmp_path: pathlib.Path) -> None:
    """Below DESTDIR, where a folder is there already: empty ones that weren't made stay."""
    stage = tmp_path / "a stage"
    (stage / "usr/local/share/man").mkdir(parents=True)
    done = run([ROOT / "install"], DESTDIR=str(stage))
    assert (done.returncode, files_below(stage / "usr/local")) == (0, wanted_files(done.stderr)), "DESTDIR"
    told = (stage / "usr/local/lib/pkgconfig/crsdesk.pc").read_text(encoding="utf-8")
    assert not (str(stage) in told), "crsdesk.pc doesn't name the stage"
    done = run([ROOT / "install", "--uninstall"], DESTDIR=str(stage))
    left = {str(path.relative_to(stage)) for path in stage.rglob("*")}
    wanted = {"usr", "usr/local", "usr/local/share", "usr/local/share/man"}
    assert (done.returncode, left) == (0, wanted), "DESTDIR --uninstall"


def test_libdir(tmp_path: pathlib.Path) -> None:
    """The libraries in another folder, of two steps; then in the usual one; then all goes, the prefix too."""
    prefix, libdir = tmp_path / "a prefix", "lib/x86_64-linux-gnu"
    done = run([ROOT / "install", prefix, f"--libdir={libdir}"])
    wanted = {it.replace("lib/", f"{libdir}/", 1) if it.startswith("lib/") else it for it in wanted_files(done.stderr)}
    assert (done.returncode, files_below(prefix)) == (0, wanted), "--libdir"
    if shutil.which("pkg-config"):
        flags = "--variable=libdir", "--variable=includedir"
        found = [run(["pkg-config", it, "crsdesk"], PKG_CONFIG_PATH=f"{prefix}/{libdir}/pkgconfig") for it in flags]
        places = [os.path.realpath(it.stdout.strip().replace("\\ ", " ")) for it in found]
        assert places == [os.path.realpath(prefix / it) for it in (libdir, "include")], "its crsdesk.pc"
    done = run([ROOT / "install", prefix, "--libdir", prefix / "lib"])
    assert (done.returncode, files_below(prefix)) == (0, wanted_files(done.stderr)), "the usual one again"
    done = run([ROOT / "install", prefix, "--uninstall"])
    assert (done.returncode, prefix.exists()) == (0, False), "--uninstall of both"
    done = run([ROOT / "install", prefix, "--libdir", "../lib"])
    wanted_error = f"crsdesk: --libdir ../lib doesn't lie below {prefix}\n"
    assert (done.returncode, done.stderr, prefix.exists()) == (2, wanted_error, False), "--libdir elsewhere"


def test_postgresql(tmp_path: pathlib.Path) -> None:
    """The extension for PostgreSQL below DESTDIR, where pg_config says; then it goes, and what isn't its own stays."""
    stage = tmp_path / "a stage for PostgreSQL"
    done = run([ROOT / "install", "--postgresql"], DESTDIR=str(stage))
    if done.returncode == 2 and "aren't there" in done.stderr or "there is no pg_config" in done.stderr:
        pytest.skip("PostgreSQL's server or pg_config isn't there")
    folders = [run(["pg_config", f"--{it}"]).stdout.strip().lstrip("/") for it in ("pkglibdir", "sharedir")]
    scripts = sorted(it.name for it in (ROOT / "sql" / "postgresql").glob("crsdesk--*.sql"))
    names = [f"extension/{it}" for it in ("crsdesk.control", "crsdesk.installed", *scripts)]
    wanted = {f"{folders[0]}/crsdesk.so", *(f"{folders[1]}/{it}" for it in names)}
    assert (done.returncode, files_below(stage)) == (0, wanted), "--postgresql"
    printed = {line[len(str(stage)) + 1 :] for line in done.stdout.split("\n")[:-1]}
    assert printed == wanted, "what --postgresql prints"
    own = stage / folders[1] / "extension" / "own.control"
    own.write_text("", encoding="utf-8")
    done = run([ROOT / "install", "--uninstall", "--postgresql"], DESTDIR=str(stage))
    left = {str(own.relative_to(stage))}
    assert (done.returncode, files_below(stage)) == (0, left), "--postgresql --uninstall"
    own.unlink()
    done = run([ROOT / "install", "--postgresql"], DESTDIR=str(stage))
    done = run([ROOT / "install", "--uninstall", "--postgresql"], DESTDIR=str(stage))
    assert (done.returncode, stage.exists()) == (0, True), "--postgresql --uninstall of all"
    done = run([ROOT / "install", "--postgresql"], DESTDIR=str(stage), PG_CONFIG="/missing/pg_config")
    wanted_error = "crsdesk: there is no /missing/pg_config (Debian: apt-get install postgresql-server-dev-15)\n"
    assert (done.returncode, done.stderr) == (2, wanted_error), "no pg_config"


def test_closed_pipe(tmp_path: pathlib.Path) -> None:
    """Where what reads the answer has ended, help ends quietly, and an installation goes on to its end."""
    prefix = tmp_path / "unread"
    for words in (["--help"], [str(prefix)], [str(prefix), "--uninstall"]):
        with closed_pipe() as closed:
            done = support.run([ROOT / "install", *words], stdout=closed)
        told = done.stderr
        assert done.returncode == 0 and "Broken" not in told and "Error" not in told, f"./install {words[-1]} unread"
        if words == [str(prefix)]:
            assert files_below(prefix) == wanted_files(told), "what it installed"
    assert not prefix.exists(), "what it took away"


def test_without_leave() -> None:
    """Where a user may not write to the prefix, that is told at once, with what to do."""
    # Another user may not reach a Python of this user's.
    python = SYSTEM if os.access(SYSTEM, os.X_OK) else sys.executable
    # For root each folder may be written to, so the case is that of another user.
    with tempfile.TemporaryDirectory() as name:
        folder, closed = pathlib.Path(name), pathlib.Path(name, "closed")
        closed.mkdir(mode=0o555)
        folder.chmod(0o755)
        words = [python, str(ROOT / "install"), str(closed / "prefix")]
        try:
            done = support.run(words, cwd="/", **NOBODY)
        except PermissionError:
            pytest.skip("another user may not run this Python")
    if "Permission denied" in done.stderr:
        pytest.skip("another user may not read the repository")
    is_told = f"nothing was installed: {closed} isn't yours to write to; give another folder" in done.stderr
    assert (done.returncode, done.stdout, is_told) == (2, "", True)


def test_faults(tmp_path: pathlib.Path) -> None:
    usage = "crsdesk: usage: ./install [PREFIX] [--libdir DIR | --uninstall], or ./install --postgresql [--uninstall]\n"
    wrong_lines = (
        "--frob,a b,--uninstall --uninstall,--libdir,--libdir=,--libdir a --libdir=b,--postgresql --postgresql,"
    )
    wrong_lines += "--postgresql a,--postgresql --libdir lib,--uninstall --libdir lib"
    for words in [[""], *(line.split() for line in wrong_lines.split(","))]:
        done = run([ROOT / "install", *words])
        assert (done.returncode, done.stdout, done.stderr) == (2, "", usage), f"./install {words}"
    done = run([ROOT / "install", "--help"])
    assert (done.returncode, "--uninstall" in done.stdout, done.stderr) == (0, True, ""), "--help"
    file = tmp_path / "a file"
    file.write_text("", encoding="utf-8")
    done = run([ROOT / "install", file])
    is_told = done.stderr.endswith("Not a directory\n") and "Traceback" not in done.stderr
    assert (done.returncode, is_told) == (2, True), "a file for a prefix"
    wrong = tmp_path / "wrong"
    (wrong / "share/crsdesk").mkdir(parents=True)
    (wrong / "share/crsdesk/installed").write_text("../a file\n", encoding="utf-8")
    done = run([ROOT / "install", wrong, "--uninstall"])
    assert (done.returncode, file.exists()) == (2, True), "a list of other paths"
