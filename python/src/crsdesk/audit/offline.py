"""GDAL without a network and without a memory, and a process without a network.

A data set may name an address as its CRS, and GDAL would ask there. So a process that reads files leaves the network,
where the system lets it; and GDAL has a proxy that can't be there, and no drivers but those that are asked for.
"""

from __future__ import annotations

import contextlib
import ctypes
import functools
import os
import sys
import threading
from typing import Any, Callable, List, TypeVar

from .drivers import ALL_DRIVERS

Answer = TypeVar("Answer")
# Flags of Linux: what a process no longer shares with others.
NEW_USER = 0x10000000
NEW_NETWORK = 0x40000000
# No server has the port 0, and no version of curl knows the scheme.
NO_PROXY = "none://127.0.0.1:0"
OPTIONS = {
    "GDAL_HTTP_PROXY": NO_PROXY,
    "GDAL_HTTPS_PROXY": NO_PROXY,
    "GDAL_HTTP_MAX_RETRY": "0",
    "CPL_VSIL_CURL_ALLOWED_FILENAME": "none",
}
# What has curl pass a proxy by.
PASSES = ("no_proxy", "NO_PROXY")


def leave_network() -> bool:
    """Gives this process a network of its own, which leads nowhere; answers whether the system lets it. Its user and
    group stay as they are."""
    if not sys.platform.startswith("linux"):
        return False
    unshare = ctypes.CDLL(None, use_errno=True).unshare
    user, group = os.geteuid(), os.getegid()
    if unshare(NEW_NETWORK) == 0:
        return True
    if unshare(NEW_USER | NEW_NETWORK) != 0:
        return False
    for name, words in (("setgroups", "deny"), ("uid_map", f"{user} {user} 1"), ("gid_map", f"{group} {group} 1")):
        with contextlib.suppress(OSError), open(f"/proc/self/{name}", "w", encoding="ascii") as file:
            file.write(words)
    return True


@functools.lru_cache(maxsize=None)
def gdal_of() -> Any:
    """The module osgeo.gdal, quiet and without a network; None if it isn't installed."""
    os.environ["PROJ_NETWORK"] = "OFF"
    for name in PASSES:
        os.environ.pop(name, None)
    try:
        from osgeo import gdal
    except ImportError:
        return None
    gdal.UseExceptions()
    gdal.SetErrorHandler("CPLQuietErrorHandler")
    for name, value in OPTIONS.items():
        gdal.SetConfigOption(name, value)
    for driver in [gdal.GetDriver(index) for index in range(gdal.GetDriverCount())]:
        if driver.ShortName not in ALL_DRIVERS:
            driver.Deregister()
    return gdal


def in_own_thread(function: Callable[[], Answer]) -> Answer:
    """What a function answers, or raises, in a thread of its own. GDAL has a context of PROJ for each thread, and PROJ
    answers by what it has in its context: by the data sets that were read there before."""
    answers: List[Answer] = []
    errors: List[BaseException] = []

    def run() -> None:
        try:
            answers.append(function())
        except BaseException as error:
            errors.append(error)

    thread = threading.Thread(target=run)
    thread.start()
    thread.join()
    if errors:
        raise errors[0]
    return answers[0]
