#!/usr/bin/env python3
"""Proves and builds the program crsdesk, or the library for C.

    build.py program [--over-gate] [--aarch64]
    build.py library [--over-gate] [--aarch64] [FOLDER]

Each crate that is needed is proved from its sources, over the statements of the crates below it: these were proved
before, and rt run would load their proofs too, and prove one crate after the other. What is proved stays in
out/rlib/statements of each crate, with a sum of all that it rests on. A call after an interrupt or a change goes on from
there, and where nothing changed it does nothing. Other runs of the toolchain in these crates wait, and so does this one.

The program is crates/crsdesk/out/crsdesk. FOLDER, which is out/prefix, or out/aarch64, where none is given, has for the
library

    include/crsdesk.h           the header
    lib/libcrsdesk.a            the static library, with the C functions of the toolchain's heap in it
    lib/libcrsdesk.so.0         the shared object, which needs the C library alone; libcrsdesk.so is the same file
    lib/pkgconfig/crsdesk.pc    what pkg-config answers, relative to its own folder

Both libraries show the calls of the header, and no other name, and the shared object each with the version that it came
with (crates/crs_c/symbols.map). Before they are made, a C program compares the sizes and the fields of the header's
structs with the library's own (crates/crs_c/layout.c). It takes a C compiler, cc, and ar, ld, objcopy, nm and strip.
With --aarch64, for Linux on that machine, it takes aarch64-linux-gnu-gcc and its like, and qemu-aarch64 or
qemu-aarch64-static (Debian: gcc-aarch64-linux-gnu and qemu-user-static); the heap is that of crates/crs_c/heap.c, and the
program, with crates/crsdesk/system.c, is out/aarch64/bin/crsdesk.
With --over-gate the crates below are taken as rt ci has proved them and left them, so the gate proves them once, and
the library's own check has one job, as each of the gate.

The status is 0 where what was asked for is there, of the sources as they are; else 2, with a line on standard error.
"""
from __future__ import annotations

import argparse
import contextlib
import fcntl
import functools
import hashlib
import os
import pathlib
import re
import shutil
import signal
import subprocess
import sys
import tempfile
import time
from typing import Callable, Iterable, Iterator, Sequence

ROOT = pathlib.Path(__file__).resolve().parent.parent
PROGRAM, LIBRARY = "crsdesk", "crs_c"
FOLDER = ROOT / "crates" / LIBRARY
HEADER, LAYOUT, SYMBOLS = FOLDER / "crsdesk.h", FOLDER / "layout.c", FOLDER / "symbols.map"
# What the toolchain has for x86-64 alone.
HEAP, SYSTEM = FOLDER / "heap.c", ROOT / "crates" / PROGRAM / "system.c"
PREFIX, PREFIX_OF_AARCH64 = ROOT / "out" / "prefix", ROOT / "out" / "aarch64"
PARTS = ("src", "specs", "proofs")
# The number of the interface: it rises where a program that was linked with the library before can't be run with it.
INTERFACE = 0
# The jobs of one check, and the memory that each may take.
MOST_JOBS = 4
JOB_BYTES = 1_500_000_000
TARGET, AARCH64 = "x86_64-unknown-linux-gnu", "aarch64-unknown-linux-gnu"
BESIDE = 5
ANY_TOOLCHAIN = "CRSDESK_ANY_TOOLCHAIN"
# Before any source was read: what is made is of the sources as they were then.
BEGAN = time.time()
PC = """prefix=${{pcfiledir}}/../..
libdir=${{prefix}}/lib
includedir=${{prefix}}/include

Name: crsdesk
Description: well-known text of coordinate reference systems, compared and made canonical, proved
Version: {version}
Libs: -L${{libdir}} -lcrsdesk
Cflags: -I${{includedir}}
"""


class Stop(Exception):
    """Why nothing was built, in a line for the user."""


def say(text: str, end: str = "\n") -> None:
    """A line on standard error; on a terminal in place of the one that is rewritten."""
    front = "\r\033[K" if sys.stderr.isatty() else ""
    print(f"{front}crsdesk: {text}", end=end, file=sys.stderr, flush=True)


def run(*words: object) -> str:
    """What a command prints."""
    try:
        done = subprocess.run([str(it) for it in words], stdout=subprocess.PIPE, stderr=subprocess.STDOUT, check=False)
    except FileNotFoundError as error:
        raise Stop(f"nothing was built: no command {error.filename}") from error
    if done.returncode:
        raise Stop(f"nothing was built: {words[0]} says {done.stdout.decode(errors='replace')}")
    return done.stdout.decode()


@functools.lru_cache(maxsize=None)
def toolchain() -> pathlib.Path:
    """The toolchain's folder, where its logic is that of the one that the README names."""
    if not shutil.which("rt"):
        raise Stop('the Rattle toolchain isn\'t here: no command rt. README, "Three commands", says what is needed')
    wanted = re.search(r"rattle-kit-\S+ logic ([0-9a-f]+)", (ROOT / "README.md").read_text(encoding="utf-8"))
    found, page = (run("rt", it).strip() for it in ("version", "doc"))
    if not (wanted and found.endswith(f" logic {wanted[1]}") or os.environ.get(ANY_TOOLCHAIN)):
        raise Stop(
            f"the toolchain is {found or 'unknown'}, and the proofs were made with {wanted and wanted[0]}: "
            f"install that one, or set {ANY_TOOLCHAIN}=1 to have this one try"
        )
    return pathlib.Path(page).parent


def is_newer(made: pathlib.Path, sources: Iterable[str]) -> bool:
    """Whether a file is there, and is newer than each change of some others, also by a copy that keeps their times."""
    return made.exists() and made.stat().st_mtime > max(os.stat(it).st_ctime for it in sources)


class Crate:
    """A crate that the program or the library needs."""

    target = TARGET

    def __init__(self, name: str, libraries: list[str], below: list[Crate]) -> None:
        self.name = name
        self.folder = ROOT / "crates" / name
        self.is_program = (self.folder / "src" / "main.rt").exists()
        self.libraries = libraries
        # The repository's crates below this one, each after those that it uses.
        self.below = below
        out = self.folder / "out"
        self.kept = out / "rlib" / "statements"
        self.made = out / name if self.is_program else self.kept / f"{name}.rlib"
        if name == LIBRARY:
            self.made = out / f"lib{name}.a"
        self.log = self.kept / "log"
        self.jobs = 0

    def aim(self, target: str) -> None:
        """Has the library made for another machine."""
        self.target, self.kept = target, self.kept.with_name(target)
        self.made, self.log = self.folder / "out" / f"lib{self.name}-{target}.a", self.kept / "log"
        if self.is_program:
            self.made = PREFIX_OF_AARCH64 / "bin" / self.name

    def own(self) -> Iterator[str]:
        """The crate's files and folders: a folder changes with the names in it."""
        for part in PARTS:
            for at, folders, names in os.walk(self.folder / part):
                folders.sort()
                yield from [at, *(f"{at}/{name}" for name in sorted(names))]

    def sources(self) -> Iterator[str]:
        """All that the crate's verdict rests on but the toolchain, those of the crates below too."""
        yield str(ROOT / "crates.txt")
        for crate in [*self.below, self]:
            yield from crate.own()
        if self.target != TARGET:
            yield from map(str, (HEAP, SYSTEM))

    @functools.cached_property
    def sum(self) -> str:
        """A sum of all that the crate's verdict rests on but the toolchain."""
        total = hashlib.sha256(repr((self.name, self.libraries, [it.sum for it in self.below])).encode())
        for path in self.own():
            if os.path.isfile(path):
                own = path[len(f"{self.folder}/") :]
                total.update(repr((own, pathlib.Path(path).read_bytes())).encode())
        return total.hexdigest()

    def stamp(self) -> str:
        return f"{self.sum} {hashlib.sha256((toolchain() / 'WHAT').read_bytes()).hexdigest()}"

    def is_current(self, by_this_toolchain: bool = False) -> bool:
        """Whether what was made of the crate is of the sources as they are: it is newer, or was made with their sum. The
        toolchain is known by the sum alone."""
        if not by_this_toolchain and is_newer(self.made, self.sources()):
            return True
        with contextlib.suppress(OSError):
            stamp = (self.kept / "stamp").read_text(encoding="utf-8")
            if self.made.exists() and stamp.startswith(self.stamp() if by_this_toolchain else self.sum):
                os.utime(self.made, (BEGAN, BEGAN))
                return True
        return False

    def words_to_check(self, jobs: int) -> list[str]:
        """The words of a check over the statements of the crates below."""
        kit, names = toolchain(), {it.name for it in self.below}
        words = ["--crate-name", self.name, "src/main.rt" if self.is_program else "src/lib.rt"]
        for name in ["std", *(it for it in self.libraries if it not in names)]:
            words += ["--extern", f"{name}={kit}/rlibs/{name}.rlib"]
        words += ["-L", f"dependency={kit}/rlibs"]
        for crate in self.below:
            words += ["--extern", f"{crate.name}={crate.made}"] * (crate.name in self.libraries)
            words += ["-L", f"dependency={crate.kept}"]
        words += ["--antt-project", f"{kit}/rattle/logic/antt-project.json"]
        return [*words, "--logic-built", f"{kit}/logic_built", "--jobs", str(jobs)]

    def start(self, jobs: int) -> None:
        self.kept.mkdir(parents=True, exist_ok=True)
        (self.kept / "stamp").unlink(missing_ok=True)
        # Minutes may have passed since it was read.
        vars(self).pop("sum", None)
        self.jobs, self.stamp_now = jobs, self.stamp()
        words = ["-o", f"{self.kept}/main.o" if self.is_program else str(self.made)]
        if self.is_program or self.name == LIBRARY:
            words += ["--toolchain", f"{toolchain()}/toolchain", "--backend", "llvm"]
            words += ["--crate-type", "staticlib"] * (self.name == LIBRARY)
            words += ["--target", self.target] * (self.target != TARGET)
        else:
            words += ["--statements"]
        with self.log.open("wb") as log:
            self.process = subprocess.Popen(
                [toolchain() / "bin" / "rattle", "build", *self.words_to_check(jobs), *words],
                cwd=self.folder,
                stdin=subprocess.DEVNULL,
                stdout=log,
                stderr=subprocess.STDOUT,
                start_new_session=True,
            )
        # A crate beside the chain takes what the chain leaves idle.
        os.setpriority(os.PRIO_PROCESS, self.process.pid, 0 if jobs > 1 else BESIDE)

    def kill(self) -> None:
        """Ends the check with its copies."""
        with contextlib.suppress(ProcessLookupError):
            os.killpg(self.process.pid, signal.SIGKILL)
        self.process.wait()

    def finish(self) -> bool:
        """Takes what an ended check left. A check that was killed, most likely for memory, begins again with one job."""
        if self.process.returncode == -signal.SIGKILL and self.jobs > 1:
            self.start(1)
            return False
        if self.process.returncode:
            raise Stop(f"{self.name} was not proved, and nothing was built. What the prover says is in {self.log}")
        if needed([self.name])[-1].stamp() != self.stamp_now:
            raise Stop(f"a source of {self.name} or below changed while it was proved: begin again")
        if self.is_program:
            self.link()
        os.utime(self.made, (BEGAN, BEGAN))
        (self.kept / "stamp").write_text(self.stamp_now, encoding="utf-8")
        return True

    def link(self) -> None:
        kit, made = toolchain(), f"{self.kept}/{self.name}"
        words = [kit / "bin" / "rattle-link", "--target", TARGET, "--toolchain", f"{kit}/toolchain", "-o", made]
        words += [f"{self.kept}/main.o", f"{kit}/c/libos_c.a", f"{kit}/c/liblibc_c.a"]
        if self.target != TARGET:
            words = [tool("cc", self.target), "-O2", "-o", made, f"{self.kept}/main.o", SYSTEM, HEAP]
        with self.log.open("ab") as log:
            done = subprocess.run([*map(str, words)], stdout=log, stderr=log, check=False)
        if done.returncode:
            raise Stop(f"the program was not linked. What the linker says is in {self.log}")
        self.made.parent.mkdir(parents=True, exist_ok=True)
        os.replace(made, self.made)


def listed() -> dict[str, list[str]]:
    """Each crate of crates.txt with the libraries that it uses."""
    rows = [line.partition("#")[0].partition(":") for line in (ROOT / "crates.txt").read_text().splitlines()]
    return {name.split()[0]: libraries.split() for name, _, libraries in rows if name.strip()}


def needed(names: Iterable[str]) -> list[Crate]:
    """These crates and those that they need, each after those that it uses."""
    rows, found = listed(), dict[str, Crate]()

    def visit(name: str) -> None:
        if name not in found:
            below: list[Crate] = []
            for library in (it for it in rows[name] if it in rows):
                visit(library)
                below += [it for it in [*found[library].below, found[library]] if it not in below]
            found[name] = Crate(name, rows[name], below)

    for name in names:
        visit(name)
    return list(found.values())


def jobs_of_this_machine() -> int:
    memory = os.sysconf("SC_PHYS_PAGES") * os.sysconf("SC_PAGE_SIZE")
    return max(min(len(os.sched_getaffinity(0)), MOST_JOBS, memory // JOB_BYTES), 1)


@contextlib.contextmanager
def alone(crates: Iterable[Crate]) -> Iterator[None]:
    """Keeps every other run of the toolchain out of these crates, as its own runs do."""
    held = [os.open(it.folder, os.O_RDONLY) for it in sorted(crates, key=lambda it: str(it.folder))]
    try:
        for file in held:
            try:
                fcntl.flock(file, fcntl.LOCK_EX | fcntl.LOCK_NB)
            except BlockingIOError:
                say("waiting for another run of the toolchain in these crates")
                fcntl.flock(file, fcntl.LOCK_EX)
        yield
    finally:
        for file in held:
            os.close(file)


def prove(crates: list[Crate], what: str, of_gate: Sequence[Crate] = ()) -> None:
    """Proves those of the crates that aren't current, for what they are called, and says how far it is. Those of the gate
    are taken as rt ci proved them last, from nothing, unless the statements of all are kept."""
    toolchain()
    with alone(crates):
        if not all(it.is_current(by_this_toolchain=True) for it in of_gate):
            for crate in of_gate:
                crate.kept = crate.folder / "out" / "rlib"
                crate.made = crate.kept / f"{crate.name}.rlib"
                if not crate.is_current():
                    raise Stop(f"the gate left nothing of {crate.name}: run rt ci, or leave --over-gate away")
        left = [it for it in crates if it not in of_gate and not it.is_current(by_this_toolchain=True)]
        if left:
            say(f"proving and building {what}: {len(left)} crate{'s' * (len(left) > 1)}, which takes minutes")
            prove_all(left, 1 if of_gate else jobs_of_this_machine())


def prove_all(crates: list[Crate], jobs: int) -> None:
    """Proves crates, two at a time: that with most above it with all jobs, another beside it with one."""
    began, done = time.monotonic(), 0
    left, running = [*crates], list[Crate]()

    def tell(text: str, is_last: bool) -> None:
        seconds = int(time.monotonic() - began)
        text = f"{done} of {len(crates)}, {text}; {seconds // 60}:{seconds % 60:02} so far"
        say(text, end="\n" if is_last or not sys.stderr.isatty() else "")

    try:
        while left or running:
            ready = [it for it in left if not {*it.below} & {*left, *running}]
            for crate in sorted(ready, key=lambda it: -sum(it in other.below for other in crates))[: 2 - len(running)]:
                left.remove(crate)
                crate.start(1 if any(it.jobs > 1 for it in running) else jobs)
                running.append(crate)
            time.sleep(0.2)
            for crate in [it for it in running if it.process.poll() is not None and it.finish()]:
                running.remove(crate)
                done += 1
                tell(f"{crate.name} {'built' if crate.is_program else 'proved'}", not left and not running)
            if running and sys.stderr.isatty():
                tell(f"now {' and '.join(it.name for it in running)}", False)
    finally:
        for crate in running:
            crate.kill()


def calls() -> list[str]:
    """The names of the calls, as the header declares them."""
    return re.findall(r"^(?!static)\w[\w *]*\b(crsdesk_\w+)\(", HEADER.read_text(encoding="utf-8"), re.MULTILINE)


def versions() -> dict[str, str]:
    """The version of the interface that each call came with, as symbols.map names both."""
    nodes = re.findall(r"^(CRSDESK_[0-9.]+) \{(.*?)^\}", SYMBOLS.read_text(encoding="utf-8"), re.MULTILINE | re.DOTALL)
    return {name: node for node, body in nodes for name in re.findall(r"\b(crsdesk_\w+);", body)}


def tool(name: str, target: str) -> str:
    """The C compiler, or one of its tools, that makes things for a machine."""
    if target == TARGET:
        return name
    return f"aarch64-linux-gnu-{'gcc' if name == 'cc' else name}"


def shown(shared: pathlib.Path, target: str = TARGET) -> set[str]:
    """The calls that a shared object shows, with their versions."""
    words = [tool("nm", target), "-D", "--defined-only", "--with-symbol-versions", shared]
    return {line.split()[2] for line in run(*words).splitlines() if line.split()[1] != "A"}


def version() -> str:
    found = re.search(r'give\(b"([0-9.]+(?:-dev)?)"', (FOLDER / "src" / "names.rt").read_text(encoding="utf-8"))
    return found[1] if found else ""


def emulator(target: str) -> list[str]:
    """What runs a program for a machine here."""
    found = [it for it in ("qemu-aarch64-static", "qemu-aarch64") if shutil.which(it)]
    if target != TARGET and not found:
        raise Stop("nothing was built: no command qemu-aarch64-static, which runs what is made for aarch64")
    return found[:1] * (target != TARGET)


def differences(include: pathlib.Path, whole: pathlib.Path, scratch: pathlib.Path, target: str = TARGET) -> list[str]:
    """In which structs the header of this folder differs from the library, a line each."""
    program = scratch / "layout"
    own = ["-static"] * (target != TARGET)
    run(tool("cc", target), "-std=c11", *own, f"-I{include}", "-o", program, LAYOUT, whole)
    words = [*emulator(target), str(program)]
    done = subprocess.run(words, stdout=subprocess.PIPE, stderr=subprocess.STDOUT, check=False)
    lines = done.stdout.decode(errors="replace").splitlines()
    return lines if done.returncode == 0 or lines else [f"{LAYOUT.name} ended with status {done.returncode}"]


def joined(made: pathlib.Path, heap: pathlib.Path, scratch: pathlib.Path, target: str = TARGET) -> pathlib.Path:
    """One object of the library and its heap, which still shows all names."""
    whole = scratch / "crsdesk.o"
    run(tool("ld", target), "-r", "-o", whole, "--whole-archive", made, "--no-whole-archive", heap)
    return whole


def heap(scratch: pathlib.Path, target: str) -> pathlib.Path:
    """The C functions of the heap: the toolchain's where it has them."""
    if target == TARGET:
        return toolchain() / "c" / "liblibc_c.a"
    run(tool("cc", target), "-std=c11", "-O2", "-fPIC", "-c", "-o", scratch / "heap.o", HEAP)
    return scratch / "heap.o"


def link(library: Crate, lib: pathlib.Path, scratch: pathlib.Path) -> None:
    """Both libraries, of the prover's and the heap."""
    target, names, came = library.target, calls(), versions()
    if set(names) != set(came):
        raise Stop(f"{SYMBOLS.name} and {HEADER.name} don't have the same calls: {sorted(set(names) ^ set(came))}")
    whole, script = joined(library.made, heap(scratch, target), scratch, target), scratch / "names"
    if found := differences(FOLDER, whole, scratch, target):
        raise Stop(f"the library was not made, since {HEADER.name} isn't its header: {'; '.join(found)}")
    script.write_text("".join(f"{it}\n" for it in names), encoding="utf-8")
    run(tool("objcopy", target), f"--keep-global-symbols={script}", whole)
    static, plain, shared = (lib / f"libcrsdesk.{it}" for it in ("a", "so", f"so.{INTERFACE}"))
    for file in (static, plain, shared):
        file.unlink(missing_ok=True)
    run(tool("ar", target), "rcsD", static, whole)
    linker = [f"-Wl,-soname,{shared.name}", f"-Wl,--version-script={SYMBOLS}", "-Wl,-z,defs", "-Wl,-z,relro,-z,now"]
    run(tool("cc", target), "-shared", "-o", shared, *linker, "-Wl,--gc-sections", whole)
    run(tool("strip", target), "--strip-unneeded", shared)
    wanted = {f"{name}@@{node}" for name, node in came.items()}
    if shown(shared, target) != wanted:
        raise Stop(
            f"the shared object doesn't have the names of {SYMBOLS.name}: {sorted(shown(shared, target) ^ wanted)}"
        )
    os.utime(shared, (BEGAN, BEGAN))
    # Not a symbolic link: the toolchain allows none in the repository.
    os.link(shared, plain)


def build_program(is_over_gate: bool = False, target: str = TARGET) -> None:
    *below, program = needed([PROGRAM])
    if target != TARGET:
        program.aim(target)
        # Its sum hasn't the C that is linked with it.
        if not is_newer(program.made, program.sources()):
            program.made.unlink(missing_ok=True)
    if not program.is_current():
        prove([*below, program], "the program", below if is_over_gate else ())


def sources_of_library(target: str = TARGET) -> Iterator[str]:
    """The files and folders that the library is made of."""
    library = needed([LIBRARY])[-1]
    library.target = target
    yield from [*library.sources(), *map(str, (HEADER, LAYOUT, SYMBOLS))]


def sums() -> dict[str, str]:
    """Sums of all that the program and the library are made of but the toolchain, on x86-64 and on aarch64."""
    # Each crate's files are read once for both.
    found = {it.name: it.sum for it in needed([PROGRAM, LIBRARY])}
    program, library = found[PROGRAM], found[LIBRARY]
    calls_of = [HEADER, LAYOUT, SYMBOLS]
    made_of: dict[str, tuple[str, list[pathlib.Path]]] = {
        "program": (program, []),
        "program-aarch64": (program, [HEAP, SYSTEM]),
        "library": (library, calls_of),
        "library-aarch64": (library, [*calls_of, HEAP]),
    }
    texts = {key: repr((sum, [it.read_bytes() for it in files])) for key, (sum, files) in made_of.items()}
    return {key: hashlib.sha256(text.encode()).hexdigest() for key, text in texts.items()}


def build_library(folder: pathlib.Path = PREFIX, is_over_gate: bool = False, target: str = TARGET) -> None:
    if is_newer(folder / "lib" / "libcrsdesk.so", sources_of_library(target)):
        return
    *below, library = needed([LIBRARY])
    if target != TARGET:
        library.aim(target)
    prove([*below, library], "the library", below if is_over_gate else ())
    for place in ("include", "lib/pkgconfig"):
        (folder / place).mkdir(parents=True, exist_ok=True)
    shutil.copyfile(HEADER, folder / "include" / HEADER.name)
    (folder / "lib" / "pkgconfig" / "crsdesk.pc").write_text(PC.format(version=version()), encoding="utf-8")
    with tempfile.TemporaryDirectory() as scratch:
        link(library, folder / "lib", pathlib.Path(scratch))


def ended(what: str, call: Callable[[], None]) -> int:
    """The status of a call that may build, whose faults are told in a line."""
    for number in (signal.SIGTERM, signal.SIGHUP):
        signal.signal(number, signal.default_int_handler)
    try:
        call()
    except Stop as why:
        say(str(why))
        return 2
    except KeyboardInterrupt:
        say("interrupted; the next call goes on from what is proved")
        return 130
    except OSError as error:
        say(f"the {what} was not built: {error}")
        return 2
    return 0


def main() -> int:
    parser = argparse.ArgumentParser(description=__doc__, formatter_class=argparse.RawDescriptionHelpFormatter)
    parser.add_argument("what", choices=("program", "library"))
    parser.add_argument("folder", nargs="?", type=pathlib.Path, metavar="FOLDER")
    parser.add_argument("--aarch64", action="store_true", help="makes it for that machine")
    parser.add_argument("--over-gate", action="store_true", help="takes the crates below as rt ci has left them")
    given = parser.parse_args()
    target = AARCH64 if given.aarch64 else TARGET
    if given.what == "program":
        return ended(given.what, lambda: build_program(given.over_gate, target))
    folder = given.folder or (PREFIX_OF_AARCH64 if given.aarch64 else PREFIX)
    return ended(given.what, lambda: build_library(folder.resolve(), given.over_gate, target))


if __name__ == "__main__":
    sys.exit(main())
