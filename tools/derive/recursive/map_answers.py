"""The proofs of the code that derive.py writes for how a recursive type is read again in a map."""
from __future__ import annotations

from .holders import holder
from .forms import Again
from .levels import Level, map_order
from shared.texts import Texts

TEXTS = Texts(__file__)

MAP, LOOP = "c.in_ok-pairs.pairs", "c.loop-entries.pairs"
KEYED, VALUED = "c.next_key_with.new.self", "c.next_value_with.new.self"
OPENED = "c.in_ok-pairs.ensures.opened"


def reading(part: Again) -> str:
    """What keys are read from."""
    return f"(λ j (q : {part.keys.term}). {part.keys.reads.format(k='j', a='q')})"


def map_measures(level: Level, part: Again) -> tuple[str, str]:
    """What holds in the loop, and what falls."""
    order = map_order(part)
    return f"Gathers g.R.Source {order.order} {reading(part)} Is{level.name} l.initial.pairs l.pairs l.entries.entries", "l.pairs.left"


class Map:
    """The reading of a map, as its answers name it."""

    def __init__(self, level: Level, part: Again) -> None:
        self.fn, self.keys, self.values = holder(level, part), reading(part), f"Is{level.name}"
        self.order = map_order(part)
        pairs = f"(ns : List ({part.keys.term} × {level.name})) × ReadsPairs {self.keys} {self.values} ps ns × Collects {self.order.order} ns v.entries"
        self.of = f"(λ (v : {part.term}) ps. {pairs})"
        self.start = f"g.R.Source {self.of} _ {MAP}"

    def key(self) -> str:
        """That a key was read."""
        return TEXTS.fill("key", keys=self.keys)

    def value(self) -> str:
        """That its value was read, too."""
        return self.key() + f"""    let u = c.in_ok-value.ensures in
    let v = value_got g.R.Source {self.values} {KEYED} {VALUED} (λ p q r h. h) c.in_ok-value.value (u.part k.still.sound) u.still in
"""

    def over(self) -> str:
        """That no pair is left."""
        return TEXTS.fill("over", keys=self.keys)

    def refused(self, of: str, now: str, calls: list[str], lets: str, law: str) -> str:
        """An error that was returned early. What a call left is found before anything else is known: it's what the map borrowed."""
        facts = " ∙ ".join(f"sym {it}.same_reference" for it in [OPENED.removesuffix(".opened"), "c.loop-entries.invariant.read.run", *calls])
        return TEXTS.fill("refused", of=of, now=now, facts=facts, lets=lets, law=law)

    def half(self) -> str:
        return f"map_key g.R.Source {self.keys} {MAP} {LOOP} {KEYED} (flat r.read.trees) c.in-Some.key r.read.run r.read.at_key k e.same_reference"

    def refusals(self) -> dict[str, str]:
        """What is refused of a pair, or not kept."""
        key = TEXTS.fill("key_refused", keys=self.keys)
        value = f"    {self.key()}    let f = value_refused g.R.Source {self.values} {KEYED} {VALUED} (λ p q r h. h) _ (c.in_err-value.ensures.part k.still.sound) in\n"
        entry = f"""    {self.value()}    let s = entries_step g.R.Source {self.keys} {self.values} {MAP} {LOOP} {KEYED} {VALUED} r.pairs c.in-Some.key
    c.in_ok-value.value r.read k e.same_reference v u.same_reference in
"""
        laws = {
            "key": f"""map_take {self.start} {LOOP} {OPENED} _ (flat r.read.trees) r.read.run {self.keys} {KEYED} _ (to_come_some {LOOP} some) f refl
    (λ m ks v ps i h. key_next _ _ r.read.trees ps m ks h.0 i h.1)""",
            "value": f"""map_take {self.start} {KEYED} {OPENED} _ (push (flat r.read.trees) k.part.tree) ({self.half()}) {self.values} {VALUED} _
    (owing {KEYED} k.owes) f refl (λ m ks v ps i h. value_next _ _ r.read.trees ps k.part.tree m ks h.0 i h.1)""",
            "insert": f"map_unkept {self.start} {VALUED} {OPENED} _ (flat s.trees) s.run refl",
        }
        keyed, valued = "c.in_ok-key.ensures", "c.in_ok-value.ensures"
        return {
            "returns-in_err-key": self.refused("in_err-key", KEYED, ["c.in_err-key.ensures"], key, laws["key"]),
            "returns-in_err-value": self.refused("in_err-value", VALUED, [keyed, "c.in_err-value.ensures"], value, laws["value"]),
            "returns-in_err-insert": self.refused("in_err-insert", VALUED, [keyed, valued], entry, laws["insert"]),
        }

    def terms(self) -> dict[str, str]:
        more = f"""gathers_step g.R.Source {self.order.total} {self.keys} {self.values} {MAP} {LOOP} {KEYED} {VALUED} _ _ c.in-Some.key
    c.in_ok-value.value r k e.same_reference v u.same_reference c.in_ok-insert.ensures.entries c.insert.ensures.ordered
    c.in_ok-insert.ensures.updates.0"""
        return {
            "returns-in_err-pairs": TEXTS.fill("map_unopened", of=self.of),
            "loop-entries-init": f"""let o = {OPENED} in
    gathers_start g.R.Source {self.order.total} {self.keys} {self.values} _ _ o.at_key o.opened c.new-entries.ensures.empty""",
            **self.refusals(),
            "loop-entries-preserved": f"{self.value()}    {more}",
            "end-requires": f"{self.over()}    λ _. ap (λ a. a.owes) n ∙ r.read.at_key",
            "returns": TEXTS.fill("map_done", over=self.over(), start=self.start),
            "returns-in_err-end": f"""{self.over()}    let d = (c.in_err-end.ensures.err (subst IsMapOpen (sym n) r.read.run.still)).0 in
    absurd (omega (arith, z, d, ap (λ a. a.left) n))""",
        }


def map_answers(level: Level, part: Again) -> str:
    """How a map of the type is read."""
    of = Map(level, part)
    return "".join(f"\npub {of.fn}-{goal} : goal.{of.fn}-{goal}\n{of.fn}-{goal} g t c =\n    {term}\n" for goal, term in of.terms().items())
