"""The proofs of the functions that read the several values of a variant, one after another: recursive_holders.py has their code."""
from __future__ import annotations

from collections.abc import Iterable

from .holders import holder
from .enums import row_reads
from .leaves import Part
from .forms import Again
from .levels import Level, after_held, inside
from shared.terms import numbered
from shared.texts import Texts

TEXTS = Texts(__file__)

# What an element's call is named in goals.
CALL = "next_element_with"


def typed(level: Level, part: Part) -> str:
    """What a value is read from, as a function of a message and the value."""
    return f"(λ k (a : {part.term}). {part.reads.format(reads=f'Is{level.name}', k='k', a='a')})"


def before(at: int) -> str:
    """The list before its element at a place is read."""
    return "c.in-Ok.seq" if at == 0 else f"c.{numbered(CALL, at - 1)}.new.self"


def trees(at: int) -> str:
    """The trees of the elements before a place."""
    term = "no_items"
    for place in reversed(range(at)):
        term = f"(item k{place}.tree {term})"
    return term


def arm(at: int, of: str) -> str:
    """The arm of an element's call, by what it answered, as goals and facts name it. The first `Err` is that of the list's head."""
    if of == "Err":
        return f"in-Err-{numbered(CALL, at)}"
    return f"in-{of}" if at == 0 else f"in-{of}-{numbered(CALL, at - 1)}"


def kept_signs(held: Iterable[Part]) -> str:
    """That numbers with signs are the same after a tuple held them."""
    return "".join(after_held(part, f"c.{arm(at, 'Ok-Some')}.value") for at, part in enumerate(held))


class Row:
    """A function that reads the values of a variant, and the terms of its answers."""

    def __init__(self, level: Level, part: Again) -> None:
        self.level, self.part, self.fn = level, part, holder(level, part)
        self.typed = [typed(level, held) for held in part.held]
        reads = [f"(λ j. {held.reads.format(reads=f'Is{level.name}', k='j', a=value)})" for held, value in zip(part.held, inside(part, "v"))]
        self.reads = f"(λ (v : {part.term}) ms. {row_reads(reads)} ms)"

    def runs(self, count: int) -> str:
        """That so many elements were read."""
        text = "    let o = c.in-Ok.ensures.opened in\n    let r0 = run_start g.R.Source c.in-Ok.seq o.opened in\n"
        for at in range(count):
            old, new, here = before(at), before(at + 1), f"c.{arm(at, 'Ok-Some')}"
            value = f"{here}.value"
            text += TEXTS.fill("run", at=at, here=here, old=old, value=value, typed=self.typed[at], new=new, next=at + 1, trees=trees(at))
        return text

    def answer(self, goal: str, count: int, last: str, term: str, of: str = "", held: str = "") -> str:
        """An answer on what a call left, which is found before anything else is known: it's what the list borrowed, after the call that
        answered with this arm."""
        name, arms = f"{self.fn}-{goal}", ["in-Ok", *[arm(at, "Ok-Some") for at in range(count)], *([arm(count, of)] if of else [])]
        same = " ∙ ".join(f"c.{it}.ensures.same_reference" for it in reversed(arms))
        return TEXTS.fill("answer", name=name, held=held, last=last, same=same, runs=self.runs(count), term=term)

    def known(self, at: int) -> str:
        """The part of what holds of all values that is said of one."""
        return "h" + ".1" * at + ".0"

    def read_of(self, at: int) -> str:
        value = inside(self.part, "v")[at]
        return f"(λ m ks v h. ({value}, {self.known(at)}))"

    def requires(self, at: int) -> str:
        """That a part has less room than the list."""
        name = f"{self.fn}-{numbered(f'{CALL}-requires', at)}"
        return TEXTS.fill("requires", name=name, runs=self.runs(at), before=before(at), at=at)

    def refused(self, at: int) -> str:
        """An element was refused."""
        old, new = before(at), before(at + 1)
        return self.answer(f"returns-{arm(at, 'Err')}", at, f"{new}.de.now", TEXTS.fill(
            "refused", arm=arm(at, 'Err'), old=old, at=at, typed=self.typed[at], new=new, reads=self.reads, trees=trees(at),
            read_of=self.read_of(at),
        ), "Err")

    def missing(self, at: int) -> str:
        """The list has no more elements."""
        old, new, here = before(at), before(at + 1), f"c.{arm(at, 'Ok-None')}"
        return self.answer(f"returns-{arm(at, 'Ok-None')}", at, f"{new}.de.now", TEXTS.fill(
            "missing", here=here, old=old, new=new, at=at, reads=self.reads, trees=trees(at), typed=self.typed[at], read_of=self.read_of(at),
            ones='.1' * at,
        ), "Ok-None")

    def ends(self) -> str:
        """The list is over, or has more elements."""
        count = len(self.part.held)
        last, held = before(count), "".join(f"(k{at}.value, " for at in range(count)) + "tt" + ")" * count
        done = self.answer("returns-in-Ok-end", count, "c.end.new.self.0", f"""let e = c.in-Ok-end.ensures.ok r{count}.still in
    seq_done g.R.Source {self.reads} _ c.in-Ok.seq {last} {trees(count)} o r{count} _ _ {held} e.0 e.1""", held=kept_signs(self.part.held))
        counts = "no_more_count"
        for _ in range(count):
            counts = f"(and_then_count _ _ _ {counts})"
        values = ", ".join(f"c.{arm(at, 'Ok-Some')}.value" for at in range(count))
        return done + self.answer("returns-in-Err-end", count, "c.end.new.self.0", f"""let e = c.in-Err-end.ensures.err r{count}.still in
    seq_over g.R.Source {self.reads} _ c.in-Ok.seq {last} {trees(count)} o r{count} _ _ e.0 e.1 {count} (λ v. {counts[1:-1]}) ({values}) {held}""")

    def text(self) -> str:
        unopened = f"{self.fn}-returns-in-Err"
        lines = TEXTS.fill("unopened", unopened=unopened, reads=self.reads)
        for at, held in enumerate(self.part.held):
            lines += self.requires(at) * (not held.is_leaf) + self.refused(at) + self.missing(at)
        return lines + self.ends()


def row_answers(level: Level, part: Again) -> str:
    """How several values are read."""
    return Row(level, part).text()
