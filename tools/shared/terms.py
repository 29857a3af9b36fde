"""What the tools that write code and proofs share: lists, tuples and calls in the terms of the prover and of the language."""
from __future__ import annotations

import dataclasses
import re
from collections.abc import Iterable, Sequence

from shared.imports import has_word

# The type parameters of the elements of tuples that are read: `C` is that of the settings, and `R` that of the source. They are twelve, as the
# prover says of longer tuples that they are nested pairs.
KINDS = "ABDEFGHIJKLM"
# How many elements a tuple has at most that is written, and how many values one call writes.
MOST = 8


def list_of(terms: list[str]) -> str:
    """The list of these terms."""
    return " ∷ (".join(terms) + " ∷ []" + ")" * (len(terms) - 1) if terms else "[]"


def bracketed(terms: list[str]) -> str:
    """The same as one argument."""
    return f"({list_of(terms)})" if terms else "[]"


def in_a_row(terms: Iterable[str]) -> str:
    """The list of these terms without inner brackets."""
    return "".join(f"{term} ∷ " for term in terms) + "[]"


def tuple_of(parts: list[str]) -> str:
    """A tuple's type, value or pattern."""
    return f"({parts[0]},)" if len(parts) == 1 else f"({', '.join(parts)})"


def chained(heads: list[str], end: str) -> str:
    """The terms, each with the next as its last argument."""
    term = end
    for head in reversed(heads):
        term = f"{head} {term}" if term == end else f"{head} ({term})"
    return term


def linked(head: str, terms: list[str], end: str) -> str:
    """Each term after the head, with the next as its last argument."""
    return f"({chained([f'{head} {term}' for term in terms], end)})" if terms else end


def around(count: int, step: str, last: str) -> str:
    """A lemma for each of so many parts, around one for their end."""
    return f"({step} " * count + last + ")" * count


def any_of(flags: list[str]) -> str:
    """Whether one of them is so."""
    return flags[0] if len(flags) == 1 else f"({flags[0]} || {any_of(flags[1:])})"


def lent(flags: list[str], proof: str) -> list[str]:
    """For each of these flags of what borrows a proof that the source lends, where it borrows."""
    if len(flags) == 1:
        return [proof]
    parts = f"{flags[0]} {any_of(flags[1:])} R.lends {proof}"
    return [f"(first_lent {parts})", *lent(flags[1:], f"(second_lent {parts})")]


def known(fits: str, count: int) -> list[str]:
    """What is known of each of so many values, in a product."""
    return [f"{fits}.{at}" for at in range(count)] if count > 1 else [fits] * count


def all_of(terms: list[str]) -> str:
    """A fact of each, as nested pairs."""
    return "".join(f"({term}, " for term in terms) + "tt" + ")" * len(terms)


def both_of(parts: Sequence[Iterable[str]], over: str, step: str, last: str, some: str = "", values: Sequence[str] = ()) -> str:
    """What two facts of the same parts say of each: over the parts, by a lemma for one with others after it, and one for the last.

    Each part is its reading, its sameness, its value and the other. `some` is what the lemmas take between, and `values` come first.
    """
    if not parts:
        return listed_in(values) or "tt"
    term = f"({last} {' '.join(parts[-1])}{some})"
    for part in reversed(parts[:-1]):
        term = f"({step} {' '.join(part)}{some} _ _ _ {term})"
    if len(parts) < 3 and not values:
        return f"{over} {term}"
    places = ["x" + ".1" * at + ".0" for at in range(len(parts) - 1)] + ["x" + ".1" * (len(parts) - 1)]
    return f"{over} (λ ks i j. let x = {term[1:-1]} ks i j in {listed_in([*values, *places])})"


def listed_in(terms: Sequence[str]) -> str:
    """The terms as a tuple; one alone is itself."""
    return f"({', '.join(terms)})" if len(terms) > 1 else "".join(terms)


def bounded(kinds: Iterable[str], bound: str) -> str:
    """Type parameters with a bound."""
    return ", ".join(f"{kind}: {bound}" for kind in kinds)


def underscored(name: str) -> str:
    """A type's name as that of a module."""
    return re.sub(r"(?<=[a-z0-9])(?=[A-Z])", "_", name).lower()


def variants_as(name: str) -> str:
    """What the variants of an enum of this name are called by in terms."""
    return f"the_{underscored(name)}"


def numbered(word: str, at: int) -> str:
    """The name of a call in goals, where so many calls of the same name are before it."""
    return word if at == 0 else f"{word}-{at + 1}"


def texts(names: Iterable[str]) -> str:
    """A slice of these texts."""
    return "&[" + ", ".join(f'"{name}"' for name in names) + "]"


@dataclasses.dataclass(frozen=True)
class Answers:
    """The answers of a function's goals: what they may name, by the modules of each name, and a term for each goal."""

    table: dict[str, str]
    terms: dict[str, str]

    def text(self, goals: str) -> str:
        """The text of the file, where the goals are in this module. A term that begins with a line's end begins on its own line."""
        proofs = "".join(
            f"\npub {goal} : goal.{goal}\n{goal} g c ={'' if term.startswith(chr(10)) else ' '}{term}\n" for goal, term in self.terms.items()
        )
        named = {module: [name for name in names.split() if has_word(proofs, name)] for module, names in self.table.items()}
        uses = "".join(f"use Rattle.{module}.{{{', '.join(names)}}}\n" for module, names in named.items() if names)
        return f"{uses}use {goals}.Goals as goal\n{proofs}"
