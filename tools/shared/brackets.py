"""The brackets in a text of the language: where they open and close, and what is between the commas outside of them."""
from __future__ import annotations

from typing import Optional


def depth_at(text: str, at: int) -> int:
    """1 where a bracket opens at this place, -1 where one closes, else 0. The arrow of a function's type is no bracket."""
    return (text[at] in "<([{") - (text[at] in ")]}" or text[at] == ">" and text[at - 1 : at] not in ("-", "="))


def split(text: str) -> list[str]:
    """The parts of a list, at the commas outside of brackets."""
    parts, depth, start = [], 0, 0
    for at in range(len(text)):
        depth += depth_at(text, at)
        if text[at] == "," and not depth:
            parts.append(text[start:at].strip())
            start = at + 1
    last = text[start:].strip()
    return [*parts, last] if last or not parts else parts


def close_of(text: str, at: int) -> Optional[int]:
    """The place after the bracket that closes the one at this place, if one does."""
    depth = 0
    for place in range(at, len(text)):
        depth += depth_at(text, place)
        if not depth:
            return place + 1
    return None
