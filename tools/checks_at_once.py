#!/usr/bin/env python3
"""Prints how many checks of the prover may run at once on this machine, with one job each: one more than there are
processors to use, where each check has four gigabytes of free memory, and at least one.

Before and after each proof rt sums the files of the crate and of all below it, which takes no more than one processor for all
checks: the one more is for these.

./prove hands the number to rt as RT_JOBS. rt by itself gives a check up to four jobs, which together take 30 % more processor
time than one, and has a crate as large as crs_value run alone.
"""
from __future__ import annotations

import os
import pathlib
import re
from typing import Iterator, Optional

CHECK_BYTES = 4_000_000_000
GROUP = pathlib.Path("/sys/fs/cgroup")


def number_in(file: pathlib.Path, pattern: str = r"(\d+)") -> Optional[int]:
    """The number that the pattern finds in a file; None where the file isn't there, or says that there is no limit."""
    try:
        found = re.match(pattern, file.read_text(encoding="ascii"), re.S)
    except OSError:
        return None
    return int(found[1]) if found else None


def processors() -> int:
    """Those that this process may run on, or fewer by the quota of its control group."""
    quota = number_in(GROUP / "cpu.max") or number_in(GROUP / "cpu/cpu.cfs_quota_us")
    period = number_in(GROUP / "cpu.max", r"\d+ (\d+)") or number_in(GROUP / "cpu/cpu.cfs_period_us")
    count = len(os.sched_getaffinity(0))
    return min(count, quota // period) if quota and period else count


def free_bytes() -> int:
    """The free memory of the machine, or less by the limit of the control group."""

    def bounds() -> Iterator[Optional[int]]:
        kilobytes = number_in(pathlib.Path("/proc/meminfo"), r".*MemAvailable: *(\d+)")
        yield kilobytes and 1024 * kilobytes
        yield number_in(GROUP / "memory.max")
        yield number_in(GROUP / "memory/memory.limit_in_bytes")

    return min((it for it in bounds() if it), default=0)


def checks_at_once() -> int:
    return max(min(processors() + 1, free_bytes() // CHECK_BYTES), 1)


if __name__ == "__main__":
    print(checks_at_once())
