"""Texts with places for words, which a module has in a file of its own: TEXTS of x.py are in x.txt.

A text is below a line `== NAME`, and each `${word}` in it is a place. The line break before the next such line isn't of the text.
"""
from __future__ import annotations

import re
from string import Template
from typing import Any, Optional


class Texts:
    """The texts of a module, by their names."""

    def __init__(self, module: str) -> None:
        with open(re.sub(r"\.py$", ".txt", module), encoding="utf-8") as file:
            parts = re.split(r"^== (\w+)\n", file.read(), flags=re.M)
        self.texts = {name: Template(text.removesuffix("\n")) for name, text in zip(parts[1::2], parts[2::2])}

    def fill(self, text: str, of: Optional[Any] = None, /, **words: object) -> str:
        """A text with these words in its places. `${name}` and `${low}` are those of a type, if one is given."""
        own = {"name": of.name, "low": of.low} if of else {}
        return self.texts[text].substitute(own | words)
