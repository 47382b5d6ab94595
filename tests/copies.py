"""A copy of the repository of a few crates, over a toolchain that proves what has no word WRONG, and writes down what it was
asked for."""
from __future__ import annotations

import hashlib
import io
import os
import pathlib
import re
import shutil
import subprocess
import sys
import tarfile
from typing import Any

from support import GATE, ROOT, succeed

# As rt, ci puts back what was in out/rlib before.
RT = """#!/bin/sh
case "$1" in
version) echo "$KIT_NAME logic abc" ;;
ci)
    for it in crates/*; do
        mkdir -p "$it/out"
        [ ! -d "$it/out/rlib" ] || mv "$it/out/rlib" "$it/before"
        mkdir -p "$it/out/rlib/${{it#crates/}}.rlib"
        [ ! -d "$it/before" ] || {{ rm -r "$it/out/rlib" && mv "$it/before" "$it/out/rlib"; }}
    done
    printf '{program}' >crates/crsdesk/out/crsdesk
    chmod +x crates/crsdesk/out/crsdesk
    echo "${{COUNTS-5 passed, 0 failed}}"
    ;;
*) echo "{kit}/START-HERE.md" ;;
esac
"""
PROGRAM = "#!/bin/sh\\ncat; echo $*; exit 3\\n"
# Takes a source's word for what happens: HUNGRY is killed where it has more than one job, SLOW waits to be ended.
RATTLE = """#!/usr/bin/env python3
import os, pathlib, signal, subprocess, sys, time
words = sys.argv
name, jobs, made = (words[words.index(it) + 1] for it in ("--crate-name", "--jobs", "-o"))
text = pathlib.Path(next(it for it in words if it.endswith(".rt"))).read_text()
with open("{log}", "a") as log:
    print(name, "jobs=" + jobs, "statements" * ("--statements" in words), *(it for it in words if "=" in it and ".rlib" in it and "{kit}" not in it), file=log)
if "SLOW" in text:
    time.sleep(60)
if "CHANGES" in text:
    pathlib.Path("specs/New.antt").write_text("")
if "HUNGRY" in text and jobs != "1":
    os.kill(os.getpid(), signal.SIGKILL)
if "WRONG" in text:
    print("not proved")
    sys.exit(1)
compiler = "aarch64-linux-gnu-gcc" if "aarch64-unknown-linux-gnu" in words else "cc"
if "staticlib" in words:
    os.chdir("{scratch}")
    subprocess.run([compiler, "-fPIC", "-c", "calls.c"], check=True)
    subprocess.run(["ar", "rcs", made, "calls.o"], check=True)
elif compiler != "cc":
    subprocess.run([compiler, "-c", "-o", made, "-x", "c", "-"], input=b"int main(void) {{ return 0; }}", check=True)
elif "--statements" in words:
    pathlib.Path(made).mkdir(exist_ok=True)
else:
    pathlib.Path(made).write_text("{program}")
"""
LINK = """#!/bin/sh
while [ "$1" != -o ]; do shift; done
cp "$3" "$2" && chmod +x "$2"
"""
HEADER = "typedef struct crsdesk_part { int place; } crsdesk_part;\nint crsdesk_version(crsdesk_part *part);\n"
LAYOUT = """#include <crsdesk.h>
#include <stdio.h>
int layout_part(void);
int main(void) { return layout_part() == sizeof(crsdesk_part) ? 0 : puts("struct crsdesk_part") * 0 + 1; }
"""
CALLS = "int crsdesk_version(void *part) { return part != 0; }\nint layout_part(void) { return sizeof(int); }\n"
ROWS = "low:\nmid: low\nside: low itoa\ncrs_c staticlib: mid\nother: low\ncrsdesk: mid side\n"

OWN = [f"tools/{it}" for it in ("build.py", "checks_at_once.py", "chosen.py", "counts.sh", "release.py")]
OWN += [".ci/run", "crsdesk", "prove", "test"]
RELEASED = b"#!/bin/sh\ncat; echo released $*; exit 3\n"
LIBRARIES = {"a": b"a static library", "so": b"a library"}


class Copy:
    """A repository of a few crates with the build of this one, and a toolchain of its own."""

    def __init__(self, folder: pathlib.Path) -> None:
        self.root, kit = folder / "repository", folder / "kit"
        self.log = folder / "log"
        self.environment = {**os.environ, "PATH": f"{kit}/bin:{os.environ['PATH']}", "KIT_NAME": "rattle-kit-1"}
        self.environment.pop(GATE, None)
        names = {"kit": kit, "log": self.log, "scratch": folder, "program": PROGRAM}
        self.program = self.root / "crates/crsdesk/out/crsdesk"
        for path, text in {
            self.root / "README.md": "Proved with `rattle-kit-1 logic abc`.\n",
            self.root / "crates.txt": ROWS,
            self.root / "crates/crs_c/crsdesk.h": HEADER,
            self.root / "crates/crs_c/layout.c": LAYOUT,
            self.root / "crates/crs_c/heap.c": "",
            self.root / "crates/crsdesk/system.c": "",
            self.root / "crates/crs_c/symbols.map": "CRSDESK_0.1 {\n    global: crsdesk_version;\n    local: *;\n};\n",
            self.root / "crates/crs_c/src/names.rt": 'give(b"0.1.0")',
            folder / "calls.c": CALLS,
            folder / "empty.c": "",
            kit / "WHAT": "a kit",
            kit / "bin/rt": RT.format(**names),
            kit / "bin/rattle": RATTLE.format(**names),
            kit / "bin/rattle-link": LINK,
        }.items():
            path.parent.mkdir(parents=True, exist_ok=True)
            path.write_text(text)
        for file in (kit / "bin").iterdir():
            file.chmod(0o755)
        for line in ROWS.splitlines():
            name = line.partition(":")[0].split()[0]
            for part in ("src", "specs"):
                (self.root / "crates" / name / part).mkdir(parents=True, exist_ok=True)
            self.source(name).write_text("")
        for own in OWN:
            (self.root / own).parent.mkdir(exist_ok=True)
            shutil.copy(ROOT / own, self.root / own)
        (kit / "c").mkdir()
        if shutil.which("cc"):
            subprocess.run(["cc", "-c", folder / "empty.c", "-o", folder / "empty.o"], check=True)
            subprocess.run(["ar", "rcs", kit / "c/liblibc_c.a", folder / "empty.o"], check=True)

    def source(self, name: str) -> pathlib.Path:
        return self.root / "crates" / name / "src" / ("main.rt" if name == "crsdesk" else "lib.rt")

    def build(self, *words: str, status: int = 0) -> str:
        """What the build says, once what is asked for is there."""
        done = subprocess.run(
            [self.root / "tools/build.py", *words], env=self.environment, capture_output=True, text=True
        )
        assert (done.returncode, done.stdout) == (status, ""), done.stderr
        return done.stderr

    def release(
        self, program: bytes = RELEASED, libraries: dict[str, bytes] = LIBRARIES, machine: str = os.uname().machine
    ) -> pathlib.Path:
        """The archive of a release of the sources as they are, with these files, as if it were made here."""
        folder, name = self.root / "release", f"crsdesk-0.1.0-linux-{machine}"
        folder.mkdir(exist_ok=True)
        archive = folder / f"{name}.tar.xz"
        files = {"bin/crsdesk": program, **{f"lib/libcrsdesk.{it}": data for it, data in libraries.items()}}
        with tarfile.open(archive, "w:xz") as inside:
            for path, data in files.items():
                info = tarfile.TarInfo(f"{name}/{path}")
                info.size, info.mode = len(data), 0o755
                inside.addfile(info, io.BytesIO(data))
        (folder / "SHA256SUMS").write_text(f"{hashlib.sha256(archive.read_bytes()).hexdigest()}  {archive.name}\n")
        told = "release.made_with()" if shutil.which("cc") else "build.sums()"
        code = f"import build, release; print(*(' '.join(it) for it in {told}.items()), sep=chr(10))"
        sources = succeed([sys.executable, "-c", code], cwd=self.root / "tools", env=self.environment)
        (folder / "SOURCES").write_text(re.sub("(?m)^compiler-aarch64.*\n", "", sources))
        return archive

    def run(self, *words: str, **more: Any) -> tuple[int, str, str]:
        """The status of ./crsdesk, and what it writes to output and error."""
        settings: dict[str, Any] = {"env": self.environment, "input": "a text\n", "timeout": 60, **more}
        done = subprocess.run([self.root / "crsdesk", *words], capture_output=True, text=True, check=False, **settings)
        return done.returncode, done.stdout, done.stderr

    def asked(self) -> list[str]:
        """What the prover was asked for since the last call, without the paths."""
        text = self.log.read_text() if self.log.exists() else ""
        self.log.write_text("")
        return [line.split()[0] for line in text.splitlines()]
