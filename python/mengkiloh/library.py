"""The proved library: where it is looked for, and its calls."""

from __future__ import annotations

import ctypes
import ctypes.util
import os
from collections.abc import Iterator
from ctypes import POINTER, c_char_p, c_double, c_int16, c_size_t, c_uint8, c_uint32
from functools import cache
from pathlib import Path

NAME = "libmengkiloh.so"
MAJOR = 5

WHAT_TO_RUN = """libmengkiloh is not found. Any of these makes it found:
  ./build at the root of the repository, which makes it in target/mengkiloh;
  MENGKILOH_LIB, the file libmengkiloh.so or its folder;
  ./build --install PREFIX, with PREFIX/lib among the folders of the loader (LD_LIBRARY_PATH, ldconfig);
  ./build, then pip install ./python, which takes the library along."""

WORDS = POINTER(c_uint32)
LENT = [WORDS, c_size_t]
NUMBER = POINTER(c_uint32)
FLOAT = POINTER(c_double)
METRES = [*LENT, POINTER(c_int16), c_size_t]
PLACED = [*METRES, c_uint32]

CALLS: dict[str, list] = {
    "mk_format_edition": [*LENT, c_uint32, c_uint32, c_uint32],
    "mk_build_edition": [*LENT, c_uint32, c_uint32, c_uint32, *LENT, NUMBER],
    "mk_edition": [*LENT, NUMBER],
    "mk_capacities": [*LENT, NUMBER, NUMBER],
    "mk_free": [*LENT, NUMBER, NUMBER],
    "mk_live": [*LENT, *LENT, NUMBER],
    "mk_insert_licensed": [*LENT, c_uint32, c_uint32, c_uint32, *LENT],
    "mk_remove": [*LENT, c_uint32],
    "mk_edits": [*LENT, *LENT, WORDS, POINTER(c_size_t)],
    "mk_plan_check": [*LENT, *LENT, *LENT, *LENT, POINTER(c_size_t)],
    "mk_plan": [*LENT, *LENT, *LENT, POINTER(c_size_t)],
    "mk_type": [*LENT, c_uint32, NUMBER],
    "mk_licence": [*LENT, c_uint32, NUMBER],
    "mk_marks": [*LENT, c_uint32, NUMBER, NUMBER],
    "mk_sibling": [*LENT, c_uint32, c_uint32, NUMBER, NUMBER],
    "mk_cycle": [*LENT, c_uint32, c_uint32, *LENT, *LENT, NUMBER],
    "mk_border": [*LENT, c_uint32, c_uint32, NUMBER],
    "mk_star": [*LENT, c_uint32, c_uint32, *LENT, NUMBER],
    "mk_anchors": [*LENT, c_uint32, c_uint32, *LENT, NUMBER],
    "mk_first_anchor": [*LENT, c_uint32, c_uint32, NUMBER, NUMBER],
    "mk_neighbours": [*LENT, c_uint32, *LENT, NUMBER],
    "mk_lookup": [*LENT, *LENT, NUMBER, NUMBER],
    "mk_cells": [*LENT, c_uint32, *LENT, NUMBER],
    "mk_count": [*LENT, c_uint32, NUMBER],
    "mk_points": [*PLACED, FLOAT, c_size_t, NUMBER],
    "mk_centre": [*PLACED, FLOAT, FLOAT, FLOAT],
    "mk_measure": [*PLACED, NUMBER, FLOAT],
    "mk_off_read": [*METRES, c_char_p, c_size_t, POINTER(c_size_t)],
    "mk_off_write": [*METRES, POINTER(c_uint8), c_size_t, POINTER(c_size_t)],
    "mk_whole": LENT,
    "mk_journal_begin": [*LENT, *LENT, *LENT],
    "mk_journal_insert": [*LENT, *LENT, c_uint32, c_uint32, c_uint32, c_uint32, *LENT],
    "mk_journal_remove": [*LENT, *LENT, c_uint32, c_uint32],
    "mk_journal_on": [*LENT, *LENT, c_uint32, *LENT],
    "mk_licences": [*LENT, *LENT, c_uint32, c_uint32, *LENT, *LENT, NUMBER],
    "mk_journal_fold": [*LENT, *LENT, c_uint32],
    "mk_journal_whole": [*LENT, *LENT],
}
"""The calls that the module makes, and what each takes; all answer a byte. `format` and `build` are those of an edition, `insert` is that with a licence."""


class LibraryMissing(OSError):
    """The library is not found, or is another than the module was written for."""


def places() -> Iterator[str]:
    """Where the library is looked for, in this order."""
    named = os.environ.get("MENGKILOH_LIB")
    if named:
        path = Path(named).resolve()
        yield str(path / NAME if path.is_dir() else path)
        return
    package = Path(__file__).resolve().parent
    for folder in (package, package.parent.parent / "target" / "mengkiloh"):
        if (folder / NAME).exists():
            yield str(folder / NAME)
    found = ctypes.util.find_library("mengkiloh")
    if found:
        yield found


@cache
def load() -> ctypes.CDLL:
    """The library, looked for once."""
    for place in places():
        try:
            library = ctypes.CDLL(place)
        except OSError as fault:
            raise LibraryMissing(f"{place} is not loaded: {fault}") from fault
        return declared(library, place)
    raise LibraryMissing(WHAT_TO_RUN)


def declared(library: ctypes.CDLL, place: str) -> ctypes.CDLL:
    """The library with what its calls take and give."""
    try:
        for name, taken in CALLS.items():
            call = getattr(library, name)
            call.argtypes, call.restype = taken, c_uint8
        library.mk_version.argtypes, library.mk_version.restype = [], c_uint32
    except AttributeError as fault:
        raise LibraryMissing(f"{place} is older than this module: {fault}") from fault
    if library.mk_version() >> 16 != MAJOR:
        raise LibraryMissing(f"{place} has version {library.mk_version():06x}, and this module is for {MAJOR}")
    return library


def version() -> tuple[int, int, int]:
    """The library's version: major, minor, patch."""
    number = load().mk_version()
    return number >> 16, number >> 8 & 255, number & 255
