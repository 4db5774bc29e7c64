"""Finds the library council and the program council.

Environment variables name others: COUNCIL_LIBRARY a library, COUNCIL_PROGRAM a program. An
empty one means that none is used.
"""
from __future__ import annotations

import functools
import os
import shutil
from pathlib import Path
from typing import Optional

from .library import Library
from .platforms import find_file


class NotFound(RuntimeError):
    """Neither the library council nor the program was found."""


def find_home() -> str:
    """Returns the folder of this package; if it is in a zipapp, the folder of that."""
    return next(str(it) for it in Path(__file__).resolve().parents if it.is_dir())


def find_clone(launcher: str) -> Optional[str]:
    """Returns the top of the clone if this is its launcher, which may prove for minutes first."""
    path = os.path.realpath(launcher)
    top = os.path.dirname(path)
    with open(path, "rb") as it:
        return top if it.read(2) == b"#!" and os.path.isfile(f"{top}/tools/built.sh") else None


HOME = find_home()
# the top of the clone that has this package, or None
CLONE = next((it for it in [os.path.realpath(f"{HOME}/../../..")] if os.path.isfile(f"{it}/tools/built.sh")), None)
BUILT = "crates/council/out/council"


def find_program(named: Optional[str] = None) -> str:
    """Returns the program council: the one that is named, the one of this package, archive or
    clone, or the one on the PATH.

    A launcher of a clone is never run, because it may prove for minutes: the program that it has
    built is.
    """
    named = named or os.environ.get("COUNCIL_PROGRAM")
    if named == "":
        raise NotFound("COUNCIL_PROGRAM is empty")
    if named is None:
        archive = [f"{HOME}/../council"] if os.path.isfile(f"{HOME}/../PROVED") else []
        for path in [f"{HOME}/council", *archive, *([f"{CLONE}/{BUILT}"] if CLONE else [])]:
            if shutil.which(path) and not find_clone(path):
                return os.path.realpath(path)
    found = shutil.which(named or "council")
    clone = find_clone(found) if found else None if named else CLONE
    built = shutil.which(f"{clone}/{BUILT}") if clone else found
    if built:
        return built
    if clone:
        raise NotFound(f"the program of {clone} was never built: run {clone}/council once, which takes 6 to 15 minutes")
    raise NotFound(f"{named}: no program of that name was found" if named else "the program council was not found on the PATH")


def find_library() -> Optional[Library]:
    """Returns the library of this package or archive, or None."""
    return load_library(HOME, os.environ.get("COUNCIL_LIBRARY"))


@functools.lru_cache(maxsize=None)
def load_library(home: str, named: Optional[str]) -> Optional[Library]:
    """Loads the library that is named, or the one of a folder, once."""
    if named is not None:
        return Library(os.path.realpath(named)) if named else None
    path = find_file(home)
    try:
        return Library(path) if path else None
    except OSError:
        # it is for another system: the program answers
        return None
