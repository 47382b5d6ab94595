"""The cases of .rows files, and what a program answers to them.

A file holds cases, with an empty line between two. A case is a line 'case NAME', whose name is unique in its file,
a line '# REASON' or more, and then, each in its own line and as far as needed:

    word TEXT        a word of the command line, without the program's name
    words TEXT ..    some of them, each up to the next space
    commands TEXT .. each makes a case of its own, of which it is the first word, and whose name ends in it
    exchanged        makes a case more, in which the last two words are exchanged, and in the output first and second, or
                     the values of a difference; its name ends in '-exchanged'
    input TEXT       a part of standard input; no line end is added
    times N TEXT     the same, N times over
    pieces N TEXT    the same in parts of N bytes each, the last of which may have fewer
    input-file PATH  the same of a file of the repository
    input-by-lines   a read gives one line of standard input, as a pipe does that is written slowly
    input-in-turn    each line of standard input is written when a line of output has come for the one before
    input-unreadable standard input is a folder, from which a read fails
    file NAME TEXT   a part of a file in the working folder, which is one of its own then; no line end is added
    file-times NAME N TEXT  the same, N times over
    output TEXT      a line of standard output, with its LF; none: nothing is written
    output-times N TEXT  the same, N times over
    output-any       standard output isn't compared
    output-full      standard output is a device on which a write fails
    output-closed    standard output is a pipe that nobody reads
    status N         the exit status
    error TEXT       a line of standard error, with its LF; none: with status 2 it isn't compared, else nothing is written
    error-none       nothing is written on standard error

In place of words and a status a case may have one call of a crate, for a program that makes it (test_growths.py):

    call WORDS       the call, whose inputs are the parts and whose answer is the output
    no-growth        it takes no memory; without this line it must take some

Cases of one form are rows of a table. It begins with a line 'table COLUMN | COLUMN | ..' and with the lines that all its
rows have. A row is a line 'case NAME | FIELD | FIELD | ..': a case with these lines and, for each field, with the line of
its column and the field; a column '#' is the reason. Lines of its own may be below a row. A reason above a row is that of
the rows below it too, up to an empty line.

A line 'let NAME TEXT' gives a text a name in the rest of its file: there \\{NAME} stands for it in each TEXT; \\{} is empty.

TEXT is UTF-8 and everything after the one space, with these escapes: \\n LF, \\r CR, \\t tab, \\\\ a backslash, and
\\xHH the byte HH; so is the NAME of a file, but that it has no space. In a field | between two spaces is \\x7c. The input
is the parts in their order. The program runs at the root of the repository.
"""
from __future__ import annotations

import contextlib
import dataclasses
import os
import pathlib
import re
import socket
import subprocess
import tempfile
import threading
from typing import Any, BinaryIO, Dict, Iterator, List, Optional, Set, Tuple

HERE = pathlib.Path(__file__).resolve().parent
ROOT = HERE.parent
SECONDS = 600
SECONDS_IN_TURN = 60
ESCAPE = re.compile(rb"\\(?:x([0-9a-f]{2})|\{([^}]*)\}|(.))")
PLAIN = {b"n": b"\n", b"r": b"\r", b"t": b"\t", b"\\": b"\\"}
# A line that tells a difference: a mark, or none, its path, in which the name of a member may have any characters, both
# values, and the code points behind them.
MARK = rb"(?:the same by the rules: )?"
VALUES = rb"(.*) \| (?!U\+\w+\)$)(.*?)(?: \((U\+\w+) \| (U\+\w+)\))?$"
TOLD = re.compile(rb"^(" + MARK + rb'[^:\[\n]*(?:\["(?:[^"\n]|"")*"\][^:\n]*)?): ' + VALUES, re.MULTILINE)
FLAGS = set(b"exchanged input-by-lines input-in-turn input-unreadable output-any output-full output-closed".split())
FLAGS |= {b"error-none", b"no-growth"}
OTHER_SIDE = {b"first": b"second", b"second": b"first"}


@dataclasses.dataclass
class Case:
    """A case, its place, which is its file's name and its line, and the texts that have names there."""

    place: str
    name: str
    texts: Dict[bytes, bytes] = dataclasses.field(repr=False)
    has_reason: bool = False
    commands: List[bytes] = dataclasses.field(default_factory=list)
    words: List[bytes] = dataclasses.field(default_factory=list)
    call: bytes = b""
    parts: List[bytes] = dataclasses.field(default_factory=list)
    files: Dict[bytes, bytes] = dataclasses.field(default_factory=dict)
    flags: Set[bytes] = dataclasses.field(default_factory=set)
    output: Optional[bytes] = b""
    status: Optional[int] = None
    error: Optional[bytes] = None

    def __str__(self) -> str:
        return f"{self.place}-{self.name}"

    @property
    def input(self) -> bytes:
        return b"".join(self.parts)

    @property
    def asks(self) -> bool:
        """Whether it asks a command for an answer, and not for a fault or for help."""
        is_answer = self.error is None and self.output is not None and b"input-unreadable" not in self.flags
        return is_answer and self.status != 2 and bool(self.words)

    @property
    def level(self) -> Tuple[str, List[bytes]]:
        """The level that its words name, or nothing, and its other words."""
        for index, word in enumerate(self.words):
            if word == b"--":
                break
            if word == b"--level":
                return self.words[index + 1].decode(), self.words[:index] + self.words[index + 2 :]
            if word.startswith(b"--level="):
                return word[8:].decode(), self.words[:index] + self.words[index + 1 :]
        return "", [word for word in self.words if word != b"--"]

    def text(self, text: bytes) -> bytes:
        return text_of(text, self.texts)

    def times(self, rest: bytes) -> bytes:
        count, text = rest.split(b" ", 1)
        return self.text(text) * int(count)

    def add(self, line: bytes) -> None:
        """Adds what a line says."""
        key, _, rest = line.partition(b" ")
        if key == b"word":
            self.words.append(self.text(rest))
        elif key == b"words":
            self.words += map(self.text, rest.split(b" "))
        elif key == b"commands":
            self.commands = rest.split(b" ")
        elif key == b"call":
            self.call, self.status = rest, 0
        elif key == b"input":
            self.parts.append(self.text(rest))
        elif key == b"times":
            self.parts.append(self.times(rest))
        elif key == b"pieces":
            size, _, text = rest.partition(b" ")
            self.parts += re.findall(b".{1,%d}" % int(size), self.text(text), flags=re.DOTALL)
        elif key == b"input-file":
            self.parts.append((ROOT / os.fsdecode(rest)).read_bytes())
        elif key in (b"file", b"file-times"):
            name, _, text = rest.partition(b" ")
            name = self.text(name)
            self.files[name] = self.files.get(name, b"") + (self.text(text) if key == b"file" else self.times(text))
        elif key == b"output":
            self.output = (self.output or b"") + self.text(rest) + b"\n"
        elif key == b"output-times":
            count, _, text = rest.partition(b" ")
            self.output = (self.output or b"") + (self.text(text) + b"\n") * int(count)
        elif key == b"error":
            self.error = (self.error or b"") + self.text(rest) + b"\n"
        elif key == b"status":
            self.status = int(rest)
        elif key == b"#":
            self.has_reason = True
        elif key in FLAGS:
            self.flags.add(key)
            if key.startswith(b"output-"):
                self.output = None
            elif key == b"error-none":
                self.error = b""
        else:
            raise ValueError(f"no such key: {key.decode()}")

    def all(self) -> Iterator[Case]:
        """The case by each of its commands, and with its texts exchanged."""
        for command in self.commands:
            name = f"{self.name}-{command.decode()}"
            yield from dataclasses.replace(self, name=name, commands=[], words=[command, *self.words]).all()
        if not self.commands:
            yield self
            if b"exchanged" in self.flags:
                words = [*self.words[:-2], self.words[-1], self.words[-2]]
                output = exchanged(self.output or b"")
                yield dataclasses.replace(self, name=f"{self.name}-exchanged", words=words, output=output)


class Table:
    """A table's columns, and the lines of its head."""

    def __init__(self, columns: bytes) -> None:
        self.columns, self.head = columns.split(b" | "), list[bytes]()

    def lines_of(self, fields: List[bytes]) -> List[bytes]:
        if len(fields) > len(self.columns):
            raise ValueError("more fields than columns")
        return [*self.head, *(column + b" " + field for column, field in zip(self.columns, fields))]


def text_of(text: bytes, names: Dict[bytes, bytes]) -> bytes:
    """What a TEXT is, with the texts that have names."""

    def unescaped(match: re.Match[bytes]) -> bytes:
        code, name, plain = match.groups()
        return bytes([int(code, 16)]) if code else PLAIN[plain] if plain else names[name]

    return ESCAPE.sub(unescaped, text)


def exchanged(output: bytes) -> bytes:
    """What is said of two texts, as it is said of the second and the first."""
    output = re.sub(rb"\A(first|second)(?= refused )", lambda match: OTHER_SIDE[match[1]], output)
    return TOLD.sub(lambda it: b"%s: %s | %s" % it.group(1, 3, 2) + points(it[5], it[4]), output)


def points(first: Optional[bytes], second: Optional[bytes]) -> bytes:
    return b" (%s | %s)" % (first, second) if first and second else b""


def code_points(first: str, second: str) -> str:
    """What stands behind two values that may print alike."""
    pair = next((it for it in zip(first, second) if it[0] != it[1]), None)
    if not pair or max(pair) < "\x80" or '"' in pair:
        return ""
    return points(*(b"U+%04X" % ord(it) for it in pair)).decode()


def read_cases(path: pathlib.Path) -> Iterator[Case]:
    """The cases of a file as they stand there; a ValueError with the line where one doesn't."""
    case: Optional[Case] = None
    table: Optional[Table] = None
    names = {b"": b""}
    has_reason = False
    for number, line in enumerate(path.read_bytes().split(b"\n"), 1):
        place = f"{path.name}:{number}"
        key, _, rest = line.partition(b" ")
        has_reason = line != b"" and (has_reason or key == b"#")
        try:
            if key in (b"case", b"table") and case:
                yield case
                case = None
            if key == b"let":
                name, _, text = rest.partition(b" ")
                names[name] = text_of(text, names)
            elif key == b"table":
                table = Table(rest)
            elif key == b"case":
                name, *fields = rest.split(b" | ")
                case = Case(place, name.decode(), names, has_reason)
                for it in table.lines_of(fields) if table and fields else ():
                    case.add(it)
            elif case and line:
                case.add(line)
            elif table and line and key != b"#":
                table.head.append(line)
            elif line and key != b"#":
                raise ValueError("a line before the first case")
        except (ValueError, KeyError) as error:
            raise ValueError(f"{place}: {error}") from error
    if case:
        yield case


def cases_of(path: pathlib.Path) -> List[Case]:
    """All cases of a file."""
    cases = [it for case in read_cases(path) for it in case.all()]
    names = [case.name for case in cases]
    for case in cases:
        if case.status is None or not case.has_reason:
            raise ValueError(f"{case.place}: {case.name} has no status or no reason")
        if names.count(case.name) > 1 or not case.name:
            raise ValueError(f"{case.place}: the name {case.name!r} is repeated or empty")
    return cases


def all_cases() -> List[Case]:
    """The cases of the files of this folder."""
    return [case for path in sorted(HERE.glob("*.rows")) for case in cases_of(path)]


# How a program is run.


@contextlib.contextmanager
def sent_by_lines(lines: List[bytes]) -> Iterator[int]:
    """What gives a line a read: a socket of this kind keeps what is sent apart."""
    ours, theirs = socket.socketpair(socket.AF_UNIX, socket.SOCK_SEQPACKET)

    def send() -> None:
        with ours, contextlib.suppress(BrokenPipeError):
            for line in lines:
                ours.send(line)

    sender = threading.Thread(target=send)
    sender.start()
    try:
        with theirs:
            yield theirs.fileno()
    finally:
        sender.join()


def closed_pipe() -> BinaryIO:
    """The end for writing of a pipe that nobody reads."""
    reading, writing = os.pipe()
    os.close(reading)
    return os.fdopen(writing, "wb")


def run_in_turn(folder: pathlib.Path, command: List[bytes], lines: List[bytes]) -> "subprocess.CompletedProcess[bytes]":
    """Runs a command that is given a line, and asked for its answer before the next."""
    pipes: Dict[str, Any] = {"stdin": subprocess.PIPE, "stdout": subprocess.PIPE, "stderr": subprocess.PIPE}
    with subprocess.Popen(command, cwd=folder, **pipes) as program:
        assert program.stdin and program.stdout
        timer = threading.Timer(SECONDS_IN_TURN, program.kill)
        timer.start()
        try:
            answers = []
            for line in lines:
                program.stdin.write(line)
                program.stdin.flush()
                answers.append(program.stdout.readline())
            rest, errors = program.communicate()
            return subprocess.CompletedProcess(command, program.returncode, b"".join(answers) + rest, errors)
        finally:
            timer.cancel()


def run(program: pathlib.Path, case: Case, **more: str) -> "subprocess.CompletedProcess[bytes]":
    """Runs a program as a case says, with more of an environment."""
    command, lines = [os.fsencode(program), *case.words], case.input.splitlines(keepends=True)
    settings: Dict[str, Any] = {"input": case.input, "stdout": subprocess.PIPE, "cwd": ROOT}
    settings["env"] = {**os.environ, **more}
    with contextlib.ExitStack() as stack:
        if case.files:
            settings["cwd"] = folder = pathlib.Path(stack.enter_context(tempfile.TemporaryDirectory()))
            for name, text in case.files.items():
                (folder / os.fsdecode(name)).write_bytes(text)
        if b"input-by-lines" in case.flags:
            settings |= {"input": None, "stdin": stack.enter_context(sent_by_lines(lines))}
        elif b"input-unreadable" in case.flags:
            settings |= {"input": None, "stdin": os.open(HERE, os.O_RDONLY)}
            stack.callback(os.close, settings["stdin"])
        if b"output-full" in case.flags:
            settings["stdout"] = stack.enter_context(open("/dev/full", "wb"))
        elif b"output-closed" in case.flags:
            settings["stdout"] = stack.enter_context(closed_pipe())
        if b"input-in-turn" in case.flags:
            done = run_in_turn(settings["cwd"], command, lines)
        else:
            done = subprocess.run(command, stderr=subprocess.PIPE, timeout=SECONDS, check=False, **settings)
    return done
