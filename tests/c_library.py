"""The shared object by ctypes, with the structs and the calls that its header declares, and texts and buffers for its
calls between two pages that can't be touched: a touch outside ends the process, which says where it was.
"""
from __future__ import annotations

import ctypes
import mmap
import re
from typing import Any, Dict, List, Optional, Tuple

from support import LIBRARY, ROOT

HEADER = ROOT / "crates" / "crs_c" / "crsdesk.h"
OK, REFUSED, SECOND_REFUSED, NO_MEMORY, NO_LEVEL, NO_ROOM, NO_NUMBER = range(7)
KINDS = {1: "geodetic", 2: "geographic", 3: "projected", 4: "vertical", 5: "compound"}
# What is at the caller's places before a call.
UNTOLD, FILLER = 0x5A5A5A5A, b"\xa5"
PAGE = mmap.PAGESIZE
LIBC = ctypes.CDLL(None)
LIBC.mmap.restype = ctypes.c_void_p
LIBC.mmap.argtypes = [ctypes.c_void_p, ctypes.c_size_t, ctypes.c_int, ctypes.c_int, ctypes.c_int, ctypes.c_long]
LIBC.mprotect.argtypes = [ctypes.c_void_p, ctypes.c_size_t, ctypes.c_int]
LIBC.munmap.argtypes = [ctypes.c_void_p, ctypes.c_size_t]
# The types of the header by name, its structs among them.
TYPES: Dict[str, Any] = {
    "void": None,
    "char": ctypes.c_ubyte,
    "size_t": ctypes.c_size_t,
    "uint32_t": ctypes.c_uint32,
    "uint64_t": ctypes.c_uint64,
}
# What each call answers, and the types and the names of its arguments.
CALLS: Dict[str, Tuple[Any, List[Any], List[str]]] = {}


def declare() -> None:
    """Reads the structs and the calls from the header."""
    text = re.sub(r"/\*.*?\*/", "", HEADER.read_text(encoding="utf-8"), flags=re.DOTALL)
    for name, body in re.findall(r"^struct (\w+) \{(.*?)^\};", text, re.MULTILINE | re.DOTALL):
        found = re.findall(r"(\w+) (\w+)(?:\[(\d+)\])?;", body)
        fields = [(it, TYPES[kind] * int(count) if count else TYPES[kind]) for kind, it, count in found]
        TYPES[name] = type(name, (ctypes.Structure,), {"_fields_": fields})
    for answer, name, given in re.findall(r"^(?:struct )?(\w+) crsdesk_(\w+)\(([^)]*)\);", text, re.MULTILINE):
        pairs = [it.split()[-2:] for it in given.split(",")]
        types = [ctypes.c_void_p if "*" in it else TYPES[kind] for kind, it in pairs]
        CALLS[name] = TYPES[answer], types, [it.lstrip("*") for _, it in pairs]


def load() -> Any:
    """The shared object, whose calls take and answer what the header says."""
    library = ctypes.CDLL(str(LIBRARY))
    for name, (answer, types, _) in CALLS.items():
        call = getattr(library, f"crsdesk_{name}")
        call.restype, call.argtypes = answer, types
    return library


class Block:
    """Bytes that end at a page that can't be touched, or begin behind one. A text can only be read."""

    def __init__(self, length: int, begins: bool = False, text: Optional[bytes] = None) -> None:
        self.length, middle = length, -(-length // PAGE) * PAGE
        self.whole = middle + 2 * PAGE
        self.first = LIBC.mmap(None, self.whole, mmap.PROT_READ | mmap.PROT_WRITE, mmap.MAP_PRIVATE | 0x20, -1, 0)
        self.at = self.first + PAGE + (0 if begins else middle - length)
        ctypes.memmove(self.at, FILLER * length if text is None else text, length)
        LIBC.mprotect(self.first, PAGE, 0)
        LIBC.mprotect(self.first + PAGE + middle, PAGE, 0)
        if text is not None and middle:
            LIBC.mprotect(self.first + PAGE, middle, mmap.PROT_READ)

    def __del__(self) -> None:
        LIBC.munmap(self.first, self.whole)

    def read(self) -> bytes:
        return ctypes.string_at(self.at, self.length)


declare()
