"""The type of a field, as text: its name, its parts, and the brackets in it."""
from __future__ import annotations

import re
from typing import Optional

from shared.brackets import close_of, split

# Types that are named without a `use`, and the words of types that have a meaning of their own.
PRELUDE = set("String Vec Option Box".split())
PLAIN = set("u8 u16 u32 u64 usize i8 i16 i32 i64 isize u128 i128 bool char str Self".split())


class Refused(Exception):
    """Why a declaration can't be derived, and the line of the file that says it, where that is known."""

    def __init__(self, why: str, line: Optional[int] = None) -> None:
        super().__init__(why)
        self.line = line


def closing(text: str, at: int) -> int:
    """The place after the bracket that closes the one at this place."""
    end = close_of(text, at)
    if end is None:
        raise Refused("a bracket isn't closed: close it")
    return end


def identifiers(kind: str) -> list[str]:
    return re.findall(r"[A-Za-z_]\w*", kind)


def parted(kind: str) -> tuple[str, list[str]]:
    """The type's name and its parameters."""
    found = re.fullmatch(r"(\w+)<(.*)>", kind)
    return (found[1], split(found[2])) if found else (kind, [])
