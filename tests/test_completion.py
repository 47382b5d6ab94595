"""Completion as a user meets it: commands typed into an interactive shell in a terminal, with TAB.

Each shell has a home of its own, where the completion lies as ./install "$HOME/.local" puts it, or reads the file of
the clone by `source`. A key has the shell tell its line and empty it, so that nothing waits for a time to pass.
"""
from __future__ import annotations

import fcntl
import os
import pathlib
import re
import select
import shutil
import struct
import subprocess
import termios
import time
from typing import Callable, Dict, Iterator, List

import documents
import pytest
from support import EXAMPLES, HEIGHT, ROOT, need, run, terminal

pytestmark = pytest.mark.xdist_group("completion")
SECONDS = 120
TELL = "\x0f"
# What a shell writes to move the cursor or to erase, and its colours and modes.
MOVES, OTHERS = re.compile(r"\x1b\[[0-9;]*[A-HJ-Ldf]"), re.compile(
    r"\x1b\[[0-9;?<>=]*[hlmnqtu]|\x1b[()][0-9A-B]|\x1b[=>]"
)
INSTALLED = {
    "crsdesk.bash": "bash-completion/completions/crsdesk",
    "crsdesk.zsh": "zsh/site-functions/_crsdesk",
    "crsdesk.fish": "fish/vendor_completions.d/crsdesk.fish",
}
BASH_COMPLETION = pathlib.Path("/usr/share/bash-completion/bash_completion")
# What a shell reads first, by its name: the file, and how it tells its line by a key.
SETTINGS = {
    "bash": (
        ".bashrc",
        r"""
PS1='ready> '
bind -x '"\C-o": printf "%s\n" "$READLINE_LINE" >"$TOLD"; READLINE_LINE='
""",
    ),
    "zsh": (
        ".zshrc",
        r"""
PS1='ready> '
tell() { print -r -- "$BUFFER" >"$TOLD"; BUFFER= }
zle -N tell
bindkey '^O' tell
""",
    ),
    "fish": (
        ".config/fish/config.fish",
        r"""
function fish_prompt; echo -n 'ready> '; end
set -g fish_autosuggestion_enabled 0
bind \co 'commandline >$TOLD; commandline -r ""'
""",
    ),
}
COMPINIT = "autoload -Uz compinit; compinit -u"
# What a user adds for the completion to be found, after the shell's name.
STARTS = {
    "bash": f"source {ROOT}/completions/crsdesk.bash",
    "bash with bash-completion": f"source {BASH_COMPLETION}",
    "zsh": f'fpath+=("$HOME/.local/share/zsh/site-functions"); {COMPINIT}',
    "zsh by source": f"{COMPINIT}; source {ROOT}/completions/crsdesk.zsh",
    "fish": "",
    "fish by source": f"source {ROOT}/completions/crsdesk.fish",
}
SHELLS = ["bash", "zsh", "fish"]
COMMANDS = ["canon", "check", "digest", "explain", "group", "rules", "same"]
# How the README's commands that begin with ./crsdesk are typed.
README = {
    "./crs\tsa\t--f\t--le\td\tex\tpoland.\tex\tpoland_g\t": (
        "same --files --level definition examples/poland.wkt examples/poland_gdal_2015.wkt"
    ),
    "./crs\te\t--fil\tex\tpoland.\tex\tpoland_g\t": "explain --files examples/poland.wkt examples/poland_gdal_2015.wkt",
    "./crs\tsa\t--f\t--le\td\tex\tpoland.\tex\tpoland_2\t": (
        "same --files --level definition examples/poland.wkt examples/poland_2171.wkt"
    ),
    "./crs\tex\t--fil\t--le\td\tex\tpoland.\tex\tpoland_2\t": (
        "explain --files --level definition examples/poland.wkt examples/poland_2171.wkt"
    ),
    "./crs\tch\tex\twgs84.\tex\tpoland.\t": "check examples/wgs84.wkt examples/poland.wkt",
    "./crs\tca\tex\the\t": "canon examples/height.wkt",
    "./crs\tg\tex\tcatalogue.\t | head -2": "group examples/catalogue.txt | head -2",
    "./crs\tsa\t--f\t--le\td\t--r\tr\tp\tex\texp\tutm31_projinfo_2019.\tex\texp\tutm31_s\t": (
        "same --files --level definition --rules rules/producers.rules "
        "examples/exports/utm31_projinfo_2019.wkt examples/exports/utm31_shapefile.wkt"
    ),
}
# Other words, after crsdesk: what is typed, and what the line is then.
TYPED = {
    "--vers\t": "--version ",
    "--verb\tch\t--li\t": "--verbose check --lines ",
    "-v h\te\t": "-v help explain ",
    "group --v\t": "group --verbose ",
    "h\te\t": "help explain ",
    "check --l\t": "check --lines ",
    "group --j\t--rep\t--n\t": "group --json --repeated --names ",
    "group --level=d\t": "group --level definition ",
    "canon --level f\t": "canon --level full ",
    "canon --rules=ru\tpr\t": "canon --rules rules/producers.rules ",
    "explain --fir\tdat\t": "explain --first datum ",
    "ru\t--us\tmy\t": "rules --used my\\ height.wkt ",
    "explain --first axes,da\t": "explain --first axes,datum ",
    "explain --first=axis,datum,el\t": "explain --first axis,datum,ellipsoid ",
    # Names of files.
    "check my\t": "check my\\ height.wkt ",
    "check 'my\t": "check 'my height.wkt' ",
    "check two\ta\t": "check two\\ words/a\\ height.wkt ",
    "check it\t": "check it\\'s.wkt ",
    "check cost\t": "check cost\\$5.wkt ",
    "check gr\t": "check größe.wkt ",
    "check ./-\t": "check ./-dash.wkt ",
    "check -- -\t": "check -- -dash.wkt ",
    "same --files my\tcos\t": "same --files my\\ height.wkt cost\\$5.wkt ",
    "explain --first datum --files my\t": "explain --first datum --files my\\ height.wkt ",
    "check <my\t": "check <my\\ height.wkt ",
    # No file may stand there.
    "check -da\t": "check -da",
    "same --level ex\t": "same --level ex",
    "explain --first ex\t": "explain --first ex",
}
NAMES = ["my height.wkt", "two words/a height.wkt", "it's.wkt", "cost$5.wkt", "größe.wkt", "-dash.wkt"]


class Shell:
    """An interactive shell in a terminal."""

    def __init__(self, start: str, home: pathlib.Path, folder: pathlib.Path) -> None:
        name = start.split()[0]
        for source, path in INSTALLED.items():
            place = home / ".local/share" / path
            place.parent.mkdir(parents=True)
            shutil.copy(ROOT / "completions" / source, place)
        file, settings = SETTINGS[name]
        (home / file).parent.mkdir(parents=True, exist_ok=True)
        (home / file).write_text(f"{settings}\n{STARTS[start]}\n", encoding="utf-8")
        # Where this is there fish makes no completions of the manual's pages.
        (home / ".local/share/fish/generated_completions").mkdir()
        os.mkfifo(home / "told")
        self.told = os.open(home / "told", os.O_RDWR)
        self.terminal, own = terminal()
        fcntl.ioctl(own, termios.TIOCSWINSZ, struct.pack("4H", 60, 250, 0, 0))
        environment = {"HOME": str(home), "TOLD": str(home / "told"), "TERM": "xterm", "LANG": "C.UTF-8"}
        self.process = subprocess.Popen(
            [name, "-i"],
            stdin=own,
            stdout=own,
            stderr=own,
            cwd=folder,
            env={**environment, "PATH": f"{folder}:{os.environ['PATH']}"},
            start_new_session=True,
            preexec_fn=lambda: fcntl.ioctl(0, termios.TIOCSCTTY, 0),
        )
        os.close(own)
        self.shown = ""
        self.until(lambda: "ready> " in self.shown)

    def until(self, is_there: Callable[[], bool]) -> bytes:
        """Reads what the shell shows until something is there, and gives what it has told meanwhile."""
        told, end = b"", time.monotonic() + SECONDS
        while not is_there() and not told.endswith(b"\n"):
            assert time.monotonic() < end, self.shown
            ready = select.select([self.terminal, self.told], [], [], 1)[0]
            if self.terminal in ready:
                shown = os.read(self.terminal, 65536).decode("utf-8", "replace")
                self.shown += MOVES.sub("\n", OTHERS.sub("", shown))
            if self.told in ready:
                told += os.read(self.told, 65536)
        return told

    def type(self, keys: str) -> None:
        """Types, once the shell reads keys one by one."""
        end = time.monotonic() + SECONDS
        while termios.tcgetattr(self.terminal)[3] & termios.ICANON:
            assert time.monotonic() < end, self.shown
            time.sleep(0.001)
        self.shown = ""
        os.write(self.terminal, keys.encode())

    def line(self) -> str:
        """The line as it is now, which is emptied; in one form for all shells, since zsh ends options with = and words
        of --first with commas, and takes its space back where one is typed."""
        self.type(TELL)
        line = self.until(lambda: False).decode("utf-8")[:-1]
        for found, put in ((r"(--[a-z]+)=", r"\1 "), (r"(--first .*),$", r"\1 "), (" +", " ")):
            line = re.sub(found, put, line)
        return line

    def shows(self, keys: str, words: List[str]) -> None:
        """Types, and waits until all words are shown."""
        self.type(keys)
        self.until(lambda: all(re.search(rf"(?<![\w-]){it}(?![\w-])", self.shown) for it in words))
        self.line()

    def end(self) -> None:
        self.process.kill()
        self.process.wait()
        os.close(self.terminal)
        os.close(self.told)


Shells = Callable[[str], Shell]


@pytest.fixture(scope="module")
def folder(tmp_path_factory: pytest.TempPathFactory, program: pathlib.Path) -> pathlib.Path:
    """What a clone has that is named here, and files whose names a shell must quote."""
    folder = tmp_path_factory.mktemp("clone")
    (folder / "crsdesk").symlink_to(program)
    for it in (EXAMPLES, ROOT / "rules"):
        shutil.copytree(it, folder / it.name)
    for name in NAMES:
        (folder / name).parent.mkdir(exist_ok=True)
        (folder / name).write_text(HEIGHT, encoding="utf-8")
    return folder


@pytest.fixture(scope="module")
def shells(tmp_path_factory: pytest.TempPathFactory, folder: pathlib.Path) -> Iterator[Shells]:
    """Gives the shell of a start, if it is there; each is started once."""
    started: Dict[str, Shell] = {}

    def shell(start: str) -> Shell:
        need(start.split()[0])
        if not pathlib.Path("/dev/ptmx").exists():
            pytest.skip("there are no terminals")
        if str(BASH_COMPLETION) in STARTS[start] and not BASH_COMPLETION.exists():
            pytest.skip("bash-completion isn't there")
        if start not in started:
            started[start] = Shell(start, tmp_path_factory.mktemp("home"), folder)
        return started[start]

    yield shell
    for it in started.values():
        it.end()


def told(shell: Shell, keys: str) -> str:
    """What a line is once it is typed."""
    shell.type(keys)
    return shell.line()


@pytest.mark.parametrize("start", STARTS)
def test_readme(start: str, shells: Shells, folder: pathlib.Path) -> None:
    """The README's commands by typing and TAB alone; as they are then, the shell runs them to the README's answers."""
    shell = shells(start)
    shown = [it for block in documents.blocks_of(ROOT / "README.md") for it in documents.commands_of(block)]
    answers = {it.words: it.wanted for it in shown if it.words.startswith("./crsdesk ")}
    assert sorted(answers) == sorted(f"./crsdesk {it}" for it in README.values()), "the README's commands"
    # Where bash-completion reads a completion first, bash does nothing for a command that is typed by its path.
    assert told(shell, "crsdesk sa\t") == "crsdesk same "
    for keys, wanted in README.items():
        line = told(shell, keys)
        assert line.rstrip(" ") == f"./crsdesk {wanted}", keys
        if start in SHELLS:
            assert run([start, "-c", line], cwd=folder).stdout == answers[line.rstrip(" ")], line


@pytest.mark.parametrize("start", SHELLS)
def test_typed(start: str, shells: Shells) -> None:
    shell = shells(start)
    lines = {keys: told(shell, f"crsdesk {keys}") for keys in TYPED}
    assert lines == {keys: f"crsdesk {line}" for keys, line in TYPED.items()}


@pytest.mark.parametrize("start", SHELLS)
def test_shown(start: str, shells: Shells, program: pathlib.Path) -> None:
    """What TAB shows, in bash the second one: commands, the options of the program's help, words of --first, files."""
    shell = shells(start)
    tab = "\t\t" if start == "bash" else "\t"
    shell.shows(f"crsdesk {tab}", [*COMMANDS, "help"])
    for command in COMMANDS:
        options = re.findall(r"^ +(?:-\w, )?(--[\w-]+)", run([program, "help", command]).stdout, re.M)
        shell.shows(f"crsdesk {command} -{tab}", options)
        shell.shows(f"crsdesk {command} {tab}", ["-dash.wkt", "examples", "rules"])
    shell.shows(f"crsdesk same --level {tab}", ["full", "definition"])
    fault = run([program, "explain", "-v", "--first", "x", HEIGHT, HEIGHT]).stderr
    words = fault.partition("takes words of paths: ")[2].strip().split(", ")
    assert len(words) > 30, fault
    shell.shows(f"crsdesk explain --first {tab}", words)
    shell.shows(f"crsdesk explain --first axes,{tab}", words)
