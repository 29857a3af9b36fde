"""The names that fields and variants are written by, and the notes `// derive: ..` that say them.

A note has what an attribute of serde would have: `// derive: rename = "id"`, `// derive: rename_all = "camelCase"`. `default` has a value
where serde's names a function: `// derive: default`, `// derive: default = 8080`.
"""
from __future__ import annotations

import re
from typing import Optional

from .instead import instead
from ..table.kinds import Refused

RULES = "lowercase UPPERCASE PascalCase camelCase snake_case SCREAMING_SNAKE_CASE kebab-case SCREAMING-KEBAB-CASE".split()
ITEM = re.compile(r"\s*(\w+)\s*(?:=\s*(.*\S))?\s*", re.S)
# Values of words: texts, characters, numbers, names, and what is made of these.
VALUE = re.compile(r""""(?:[^"\\]|\\.)*"|'[^']+'|[-\w.:+]+|[\w:]*[(\[{].*[)\]}]""", re.S)
# What a list of words is made of: texts and characters, in which nothing else has a meaning, and single signs.
PIECE = re.compile(r""""(?:[^"\\]|\\.)*"|'[^']+'|.""", re.S)
# The words, and what each is for.
WORDS = {
    "rename": "a field with a name, or a variant",
    "rename_all": "a struct or a variant with names, or an enum",
    "rename_all_fields": "an enum",
    "default": "a field with a name",
    "skip": "a field of a struct with names",
    "round_trip": "a type",
}
# Those that have no value.
FLAGS = ("skip", "round_trip")


class Notes:
    """What the notes above a type, a variant or a field say."""

    def __init__(self) -> None:
        self.rename: Optional[str] = None
        self.rename_all: Optional[str] = None
        self.rename_all_fields: Optional[str] = None
        # What is after the word, or nothing.
        self.default: Optional[str] = None
        # Whether the field is neither written nor read.
        self.skip: Optional[bool] = None
        # Whether the law is derived though a half is written by hand.
        self.round_trip: Optional[bool] = None

    def read(self, text: str) -> None:
        """Takes what one note says."""
        for word, value in items(text):
            if word not in WORDS:
                no_word = f"`{word}` is no word of a `derive:` line: there are {', '.join(WORDS)}"
                raise Refused(f"`{word}` is not derived: {SERDE[word]}" if word in SERDE else no_word)
            if getattr(self, word) is not None:
                raise Refused(f"`{word}` is there twice: take one out")
            if word == "default":
                self.default = value or ""
                continue
            if word in FLAGS:
                if value:
                    raise Refused(f"`{word}` has no value: write it alone")
                setattr(self, word, True)
                continue
            if not value or not value.startswith('"'):
                raise Refused(f'`{word}` wants a text, as `{word} = "{RULES[3] if word != "rename" else "id"}"`')
            setattr(self, word, checked(word, value[1:-1]))

    def only(self, *words: str) -> None:
        """Refuses what has no meaning here."""
        for word in WORDS:
            if getattr(self, word) is not None and word not in words:
                raise Refused(f"`{word}` has no meaning here: it is for {WORDS[word]}")


# What is written in place of the other words of serde, and of those that have no entry.
SERDE, UNUSED = instead("words of serde"), "take it out"


def checked(word: str, value: str) -> str:
    """The value of a word, if it is one."""
    if word != "rename":
        if value not in RULES:
            raise Refused(f'"{value}" is no rule: there are {", ".join(RULES)}')
    elif not value or not re.fullmatch(r'[ !#-\[\]-~]+', value):
        raise Refused("a name is written in printable ASCII, without quotes and backslashes")
    return value


def listed(text: str) -> list[str]:
    """The parts of a list, at the commas outside of brackets and texts."""
    parts, depth = [""], 0
    for piece in PIECE.findall(text):
        depth += (piece in "([{") - (piece in ")]}")
        if piece == "," and not depth:
            parts.append("")
        else:
            parts[-1] += piece
    return parts if parts[-1].strip() else parts[:-1]


def items(text: str) -> list[tuple[str, Optional[str]]]:
    """The words of a note or of an attribute, each with its value."""
    found = []
    for part in listed(text):
        item = ITEM.fullmatch(part)
        # a default is read by its field's type
        if not item or item[2] and item[1] != "default" and not VALUE.fullmatch(item[2]):
            raise Refused(f'`{part.strip()}` isn\'t read: write a word, or a word and its value, as `rename = "id"`')
        found.append((item[1], item[2]))
    return found


def in_place_of(attribute: str, what: str) -> str:
    """What is written in place of an attribute."""
    inner = re.fullmatch(r"#\s*\[\s*serde\s*\((.*)\)\s*\]", attribute, re.S)
    if not inner:
        return f"an attribute of {what} isn't read: take out {attribute}"
    try:
        words = items(inner[1])
    except Refused:
        return f'{attribute} isn\'t read: one name is written and read, as // derive: rename = "id"'
    bad = next((word for word, _ in words if word not in WORDS), None)
    if bad:
        return f"`{bad}` of {attribute} is not derived: {SERDE.get(bad, UNUSED)}"
    default = dict(words).get("default", "")
    if what == "a type" and default is None:
        return f"in place of {attribute} write // derive: default above each field that a map may be without"
    if default:
        return f"in place of {attribute} write // derive: default = VALUE, with the value that {default[1:-1]} returns, or a constant"
    return f"in place of {attribute} write // derive: {inner[1].strip()}"


def field(rule: Optional[str], name: str) -> str:
    """A field's name by this rule."""
    if rule in (None, "lowercase", "snake_case"):
        return name
    if rule in ("UPPERCASE", "SCREAMING_SNAKE_CASE"):
        return name.upper()
    if rule in ("kebab-case", "SCREAMING-KEBAB-CASE"):
        return (name if rule == "kebab-case" else name.upper()).replace("_", "-")
    pascal = "".join(word[:1].upper() + word[1:] for word in name.split("_"))
    return pascal if rule == "PascalCase" else pascal[:1].lower() + pascal[1:]


def variant(rule: Optional[str], name: str) -> str:
    """A variant's name by this rule."""
    if rule in (None, "PascalCase"):
        return name
    if rule in ("lowercase", "UPPERCASE"):
        return name.lower() if rule == "lowercase" else name.upper()
    if rule == "camelCase":
        return name[:1].lower() + name[1:]
    snake = re.sub(r"(?<!^)(?=[A-Z])", "_", name).lower()
    return field({"snake_case": None}.get(rule, rule), snake)
