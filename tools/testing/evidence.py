"""What each edit that the prover must refuse rests on, as its file and the proof files say: it shows something of a contract only where a
body of the right meaning would have been accepted. An edit rests on

- the search, where it alone decides a goal that refuses the edit: no proof file answers that one;
- a twin, a body of the right meaning that differs at the same place, and that the same proof files prove;
- a test, which fails with the edit's body;
- nothing yet, where each of its goals has an answer by hand, which might fit no other body either.
"""
import collections
import os
import re

from promises import ROW
from shared.crates import CRATES
from shared.files import read
from testing.edit import Edit, edits_of

KINDS = ("on the search", "on a twin", "on a test", "on nothing yet")
SEARCH, TWIN, TEST, NOTHING = KINDS
PROOF_FILES = ("Answers", "Invariants", "Proof")
ANSWER = re.compile(r"^(?:pub )?(\S+) : goal\.\1$", re.M)


def answered(crate, function):
    """The goals of a function that its proof files answer."""
    folder = os.path.join(CRATES, crate, "proofs", *function.split("::"))
    files = [os.path.join(folder, f"{name}.antt") for name in PROOF_FILES]
    return {goal for file in files if os.path.isfile(file) for goal in ANSWER.findall(read(file))}


def is_by_search(edit: Edit) -> bool:
    """Whether the search alone decides a goal that refuses an edit."""
    return any(goals - answered(edit.crate, function) for function, goals in edit.refusals.items())


def rests(edit: Edit) -> str:
    """What an edit rests on."""
    if is_by_search(edit):
        return SEARCH
    if edit.twin.pairs:
        return TWIN
    return TEST if edit.tests else NOTHING


def in_words(counts):
    return ", ".join(f"{counts[kind]} {kind}" for kind in KINDS)


def counted(crates):
    """Says what the edits of each crate rest on, and answers the counts of all, and what is wrong: an edit that doesn't say where it is refused,
    and one that docs/PROVED.md names and that rests on nothing."""
    named = {edit for *_, edit in ROW.findall(read("docs", "PROVED.md"))}
    total, wrong = collections.Counter(), []
    for crate in crates:
        kinds = {edit: rests(edit) for edit in edits_of(crate)}
        wrong += [f"{crate}: {edit.name} doesn't say where it is refused" for edit in kinds if not (edit.is_of_gate or edit.says_where())]
        bare = [edit.name for edit, kind in kinds.items() if kind == NOTHING]
        wrong += [f"{crate}: {name} rests on nothing yet, and docs/PROVED.md names it" for name in bare if name in named]
        counts = collections.Counter(kinds.values())
        if kinds:
            print(f"{crate}: {in_words(counts)}")
        total += counts
    return total, wrong
