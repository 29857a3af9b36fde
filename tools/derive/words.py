"""Where the words of what is written come from: the tables of words.txt."""
from __future__ import annotations

import re
from string import Template


def read_tables(module: str) -> dict[str, dict[str, str]]:
    """The tables that a module has in a file beside it, by their names: what is before the colon of each line, with what is behind it."""
    found: dict[str, dict[str, str]] = {}
    table: dict[str, str] = {}
    with open(re.sub(r"\.py$", ".txt", module), encoding="utf-8") as file:
        for line in filter(None, (line.partition("#")[0].strip() for line in file)):
            module, colon, words = line.partition(": ")
            if colon:
                table[module] = f"{table.get(module, '')} {words}".strip()
            else:
                table = found.setdefault(line.strip("[]"), {})
    return found


TABLES = read_tables(__file__)


def joined(*tables: dict[str, str]) -> dict[str, str]:
    """One table of these."""
    return {module: " ".join(table[module] for table in tables if module in table) for module in {key: None for table in tables for key in table}}


def filled(table: dict[str, str], **words: str) -> dict[str, str]:
    """The table with these words in the places that it has for them."""
    return {Template(module).substitute(words): Template(names).substitute(words) for module, names in table.items()}
