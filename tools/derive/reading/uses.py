"""What the `use` lines of a file bring in, and its constants, for derive.py."""
from __future__ import annotations

import ast
import dataclasses
import operator
import re
from collections.abc import Iterator
from typing import Callable, Optional

from shared.brackets import split

from .field_types import BROUGHT

USE = re.compile(r"^(?:pub(?:\([^)]*\))? )?use ([^;]+);", re.M)
CONST = re.compile(r"^(?:pub(?:\([^)]*\))? )?const (\w+)\s*:\s*([^=;]*(?:;[^=;]*)?)=\s*", re.M)
# The types and constants that a file declares.
DECLARED = re.compile(r"^(?:pub(?:\([^)]*\))? )?(?:struct|enum|type|const) (\w+)", re.M)
# The crates of std, and those of the library that its types are named by.
STD = ("std", "core", "alloc")
LIBRARIES = ("rmp_serde", "rmp_types", "rmp_decode", "rmp_encode", "rmp_wire")
OPERATORS = {
    ast.Add: operator.add,
    ast.Sub: operator.sub,
    ast.Mult: operator.mul,
    ast.Div: operator.floordiv,
    ast.Mod: operator.mod,
    ast.LShift: operator.lshift,
}
# What is on the right of some, where what is on the left isn't below zero: from the first to below the second.
LIMITS = {ast.Div: (1, 2**128), ast.Mod: (1, 2**128), ast.LShift: (0, 128)}
# A number with its type behind the digits.
TYPED = re.compile(r"\b(0[box][0-9a-fA-F_]+?|\d[\d_]*?)_?([iu](?:8|16|32|64|128|size))\b")


@dataclasses.dataclass(frozen=True)
class Use:
    """What a `use` brings in: the path of its module, and its name there, which is * for all that are there."""

    path: tuple[str, ...]
    name: str

    def is_known(self) -> bool:
        """Whether it is a type of std or of the library that is written and read."""
        return bool(self.path) and self.path[0] in (*STD, *LIBRARIES) and self.name in BROUGHT


def expanded(path: str) -> Iterator[str]:
    """The paths of a `use`, one for each name in braces."""
    head, brace, rest = path.partition("{")
    if not brace:
        yield path.strip()
        return
    for part in split(rest[: rest.rindex("}")]):
        yield from expanded(head + part)


def uses_of(text: str) -> Iterator[tuple[str, Use]]:
    """What a file brings in, by the names that it has there."""
    for path in USE.findall(text):
        for one in expanded(re.sub(r"\s+", " ", path)):
            whole, _, renamed = one.partition(" as ")
            words = [word.strip() for word in whole.split("::")]
            if words[-1] == "self":
                words.pop()
            yield renamed.strip() or words[-1], Use(tuple(words[:-1]), words[-1])


@dataclasses.dataclass(frozen=True)
class Constant:
    """A constant of a file: its type, and what it is there."""

    kind: str
    value: str


def constants_of(text: str) -> dict[str, Constant]:
    """The constants that a file declares."""
    found = {}
    for it in CONST.finditer(text):
        depth, end = 0, it.end()
        while end < len(text) and (depth or text[end] != ";"):
            depth += (text[end] in "([{") - (text[end] in ")]}")
            end += 1
        found[it[1]] = Constant(re.sub(r"\s+", " ", it[2]).strip(), text[it.end() : end].strip())
    return found


def number_of(text: str, value_of: Callable[[str], Optional[int]]) -> Optional[int]:
    """The number that an expression of numbers and constants is, if it is one."""
    try:
        tree = ast.parse(TYPED.sub(r"\1", text.strip()), mode="eval")
    except SyntaxError:
        return None

    def value(node: ast.expr) -> Optional[int]:
        if isinstance(node, ast.Constant) and type(node.value) is int:
            return node.value
        if isinstance(node, ast.Name):
            return value_of(node.id)
        if isinstance(node, ast.UnaryOp) and isinstance(node.op, ast.USub):
            of = value(node.operand)
            return None if of is None else -of
        if not isinstance(node, ast.BinOp) or type(node.op) not in OPERATORS:
            return None
        left, right = value(node.left), value(node.right)
        # (of numbers below zero Rust rounds otherwise than Python)
        least, most = LIMITS.get(type(node.op), (None, None))
        if left is None or right is None or least is not None and (left < 0 or not least <= right < most):
            return None
        return OPERATORS[type(node.op)](left, right)

    return value(tree.body)
