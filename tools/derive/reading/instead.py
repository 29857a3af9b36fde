"""What is written in place of types and words that aren't derived: the tables of instead.txt."""
from __future__ import annotations

from ..words import read_tables

TABLES = read_tables(__file__)


def instead(table: str) -> dict[str, str]:
    """What is written in place of each word of a table."""
    return {word: text for words, text in TABLES[table].items() for word in words.split()}
