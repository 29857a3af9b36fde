"""The files of this repository, for the other tools."""
from __future__ import annotations

import os

TOP = os.path.dirname(os.path.dirname(os.path.dirname(os.path.realpath(__file__))))


def read(*path: str) -> str:
    """A file, by its path from the top of the repository."""
    with open(os.path.join(TOP, *path), encoding="utf-8") as file:
        return file.read()


def write(text: str, *path: str) -> None:
    """Writes a file, and makes its folder."""
    place = os.path.join(TOP, *path)
    os.makedirs(os.path.dirname(place), exist_ok=True)
    with open(place, "w", encoding="utf-8") as file:
        file.write(text)


def files_below(*path: str, ending: str = "") -> list[str]:
    """The files below a folder that have this ending, but for what was built."""
    found = []
    for at, folders, files in os.walk(os.path.join(TOP, *path)):
        folders[:] = sorted(it for it in folders if it != "out")
        found += [os.path.join(at, it) for it in sorted(files) if it.endswith(ending)]
    return found
