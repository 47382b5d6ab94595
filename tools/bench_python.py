#!/usr/bin/env python3
"""Times the calls of the Python package, beside the same calls from C.

    bench_python.py [PREFIX [ROUNDS]]

PREFIX has the header and the libraries, as tools/build.py makes them (out/prefix where none is given).
The texts are the lines of examples/catalogue.txt that spell a CRS. Each call is timed over all of them, ROUNDS times
(200), by turns with the others and with the same calls from C, and the least counts. A line is printed for each call:
its nanoseconds of the processor a text, and those beyond the same call from C. It judges nothing.
"""
import os
import pathlib
import subprocess
import sys
import tempfile
import time
from typing import Callable, Dict, List

ROOT = pathlib.Path(__file__).resolve().parent.parent


class FromC:
    """The calls from C over some texts."""

    def __init__(self, prefix: pathlib.Path, folder: str, texts: List[bytes]) -> None:
        self.program = f"{folder}/bench"
        words = ["cc", "-O2", f"-I{prefix}/include", "-o", self.program, str(ROOT / "tools" / "bench.c")]
        subprocess.run([*words, f"{prefix}/lib/libcrsdesk.a"], check=True)
        self.source = b"".join(text + b"\n" for text in texts)
        self.least: Dict[str, float] = {}

    def run(self, rounds: int) -> None:
        """Nanoseconds a text of each call: the least of all runs."""
        words = [self.program, str(rounds)]
        told = subprocess.run(words, input=self.source, stdout=subprocess.PIPE, check=True).stdout.decode()
        for name, took in (line.split() for line in told.splitlines()):
            self.least[name] = min(self.least.get(name, float("inf")), float(took))


def main(words: List[str]) -> int:
    if len(words) > 2 or words and words[0].startswith("-"):
        sys.exit(__doc__)
    prefix = pathlib.Path(words[0]).resolve() if words else ROOT / "out" / "prefix"
    rounds = int(words[1]) if len(words) > 1 else 200
    os.environ["CRSDESK_LIBRARY"] = str(prefix / "lib" / "libcrsdesk.so")
    sys.dont_write_bytecode = True
    sys.path.insert(0, str(ROOT / "python" / "src"))
    import crsdesk

    texts, strings = [], []
    for line in (ROOT / "examples" / "catalogue.txt").read_bytes().split(b"\n"):
        try:
            texts.append(line if crsdesk.check(line) else b"")
            strings.append(line.decode())
        except crsdesk.Refused:
            pass
    crs = [crsdesk.Crs(text) for text in texts]
    calls: Dict[str, Callable[[], object]] = {
        "check": lambda: [crsdesk.check(text) for text in texts],
        "canon": lambda: [crsdesk.canon(text) for text in texts],
        "check of a str": lambda: [crsdesk.check(text) for text in strings],
        "same": lambda: [crsdesk.same(text, text) for text in texts],
        "difference": lambda: [crsdesk.difference(text, text) for text in texts],
        "Crs": lambda: [crsdesk.Crs(text) for text in texts],
        "name and identifiers": lambda: [(one.name, one.identifiers) for one in crs],
        "Crs ==": lambda: [one == other for one, other in zip(crs, crs[1:] + crs[:1])],
    }
    least = {name: float("inf") for name in calls}
    with tempfile.TemporaryDirectory() as folder:
        base = FromC(prefix, folder, texts)
        for turn in range(rounds):
            if turn % 10 == 0:
                base.run(10)
            for name, call in calls.items():
                began = time.process_time_ns()
                call()
                least[name] = min(least[name], (time.process_time_ns() - began) / len(texts))
    print(f"{len(texts)} texts, {sum(map(len, texts)) // len(texts)} bytes on average")
    for name, took in least.items():
        same_call = base.least.get(name.split()[0])
        print(
            f"{name}: {took:.0f} ns" + (f", from C {same_call:.0f}, beyond {took - same_call:.0f}" if same_call else "")
        )
    return 0


if __name__ == "__main__":
    sys.exit(main(sys.argv[1:]))
