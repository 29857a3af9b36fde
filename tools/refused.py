#!/usr/bin/env python3
"""Tries the edits of tests/edits, many in one check: `tools/refused.py [--gate LOG] [--jobs N] [--write] [CRATE..]`.

    tools/refused.py --count [CRATE..]      says only what the edits rest on
    tools/refused.py --tests EDIT..         runs the tests with the body of each of these edits, and says which fail

A copy of a crate is made, with as many of its edits as leave each other's lines and functions alone, and the functions that they name are
proved there, with those that these call, from nothing. An edit is refused where the prover leaves the goals of its lines `refused:` open,
each in the function that is named before them. A function waits for the proofs of those that it calls: what wasn't seen for that is tried in
the next check, without the edits that were. A function that no edit names and that is open by itself is told, and counts as a failure.

Where an edit has a twin, a body of the right meaning, that is made in a copy without the edits, and has to be accepted: then the proof files
don't refuse the edit for being written otherwise. At the end comes what the edits of each crate rest on (tools/evidence.py). An edit that
doesn't say where it is refused is a failure, and so is one that docs/PROVED.md names and that rests on nothing yet.

Crates are tried side by side, at most N. The libraries below a crate are taken as the gate built them. With --gate LOG, the gate is
running, LOG has what it said so far, each line after a number, and a crate's edits are tried as soon as its libraries are proved. With
--write any goal counts that is open in a function that an edit names, and those that are go into its lines `refused:`. The last line is 'N
passed, M failed'.
"""
import argparse
import collections
import concurrent.futures
import os
import re
import subprocess
import sys
import tempfile
import threading
import time

sys.dont_write_bytecode = True
from archive import CRATES, copied, every_crate, kit_folder, not_new, words
from shared.crates import below
from shared.files import read, write
from testing.edit import edits_of
from testing.evidence import counted, in_words
from testing.failing import say_failing

# An error at a goal of a function's proof file, and the goals that are open where there is no file or it doesn't have them.
AT_GOAL = re.compile(r"\./proofs/(\S+)/(?:Answers|Invariants|Proof)\.antt:\d+:\d+: error: `([^`]+)`(.*)")
OPEN = re.compile(r"fn \w+?::(\S+): .*?`search` did not prove ((?:`[^`]+`(?:, )?)+)")
# What is said of a proof file that names what an edit took away, which says nothing of the contract.
GONE = re.compile(r"has no field|is not in scope|has no `|was not admitted")
# How many edits are tried in one check: the more, the more memory it takes, which is 3 to 4 GB of the largest crate by so many.
MOST = 45
# How much memory has to be free before a check begins beside the gate, in kB: what it takes itself, and what the gate's proofs still grow by.
ROOM = 8_000_000
BEGINS = threading.Lock()
FAULT = re.compile(r"\S+:\d+:\d+: error\[[\w-]+\]|rattle: .*")


def made_in(edit, texts, folder):
    """The files that an edit changes, as they are then, or None where a text that it replaces isn't there once."""
    made = {}
    for path, old, new in edit.pairs:
        text = made.get(path) or texts.get(path) or read(folder, path)
        if text.count(old) != 1:
            return None
        made[path] = text.replace(old, new)
    return made


def is_refused(edit, opened, is_written):
    """Whether an edit names goals, and all of them are among those that are open, or any is where they are written."""
    return bool(edit.refusals) and all(opened[it] and (is_written or goals <= opened[it]) for it, goals in edit.refusals.items())


def tried_here(crate):
    """The edits of a crate that the gate doesn't try."""
    return [edit for edit in edits_of(crate) if not edit.is_of_gate]


def twins_of(crate):
    """The twins of a crate's edits, those that the gate tries among them."""
    return [edit.twin for edit in edits_of(crate) if edit.twin.pairs]


def write_goals(edit, opened):
    """Has an edit say at which goals it is refused."""
    lines = [line for line in read(edit.path).splitlines() if not line.startswith("refused: ")]
    write("\n".join([*lines, *(f"refused: {it} {' '.join(sorted(opened[it]))}" for it in edit.refusals), ""]), edit.path)


def open_goals(said):
    """The goals that a check left open, by their functions. A goal that only waits for a function that is called isn't among them."""
    opened = collections.defaultdict(set)
    for line in said.split("\n"):
        if (at := AT_GOAL.match(line)) and not GONE.search(at[3]):
            opened[at[1].replace("/", "::")].add(at[2])
        elif at := OPEN.match(line):
            opened[at[1]].update(re.findall(r"`([^`]+)`", at[2]))
    return opened


def apply(edits, folder):
    """Makes edits in a crate, of those that leave alone what others changed or change the same, and answers these."""
    texts, functions, made = {}, set(), []
    for edit in edits:
        if any(edit.pairs == it.pairs for it in made):
            made.append(edit)
            continue
        is_differ = len(made) < MOST and not functions & set(edit.refusals)
        changed = made_in(edit, texts, folder) if is_differ else None
        if changed is not None:
            texts.update(changed)
            functions.update(edit.refusals)
            made.append(edit)
    for path, text in texts.items():
        write(text, folder, path)
    return made


def check(crate, edits, kept):
    """Tries some of the edits in one check, and answers these, the goals that are open, and what is wrong with the check itself."""
    kit = kit_folder()
    with tempfile.TemporaryDirectory() as folder:
        place = copied(crate, folder)
        made = apply(edits, place)
        root = next(it for it in ("src/lib.rt", "src/main.rt") if os.path.isfile(os.path.join(place, it)))
        command = [f"{kit}/bin/rattle", "check", *words(crate, every_crate(), kit, root), "--incremental", kept]
        # (functions that call one another have one proof, PATH::+CYCLE, and are asked for by their path)
        for path in sorted({it.partition("::+")[0] for edit in made for it in edit.refusals}):
            command += ["--only", path]
        ran = subprocess.run(command, cwd=place, stdout=subprocess.PIPE, stderr=subprocess.STDOUT, text=True, errors="replace")
    faults = [line[:300] for line in ran.stdout.split("\n") if FAULT.match(line)]
    if not faults and not re.search(r"^only=\d+ proved=\d+\n?\Z", ran.stdout, re.M):
        faults = [f"the check ended with status {ran.returncode}: {ran.stdout[-300:]}"]
    return made, open_goals(ran.stdout), faults


def at_goals(functions, opened):
    return "; ".join(f"{function} at {', '.join(sorted(opened[function]))}" for function in functions if opened[function])


def try_edits(crate, kept, is_written):
    """Tries each edit of a crate, and answers what is said of it, by its name, and what else was wrong."""
    left, said, wrong = tried_here(crate), {}, []
    while left:
        made, opened, faults = check(crate, left, kept)
        named = {function for edit in made for function in edit.refusals}
        strays = sorted(set(opened) - named)
        wrong += [*faults, *(f"{it} is open by itself, at {', '.join(sorted(opened[it]))}, and no edit names it" for it in strays)]
        seen = [] if faults else [edit for edit in made if is_refused(edit, opened, is_written)]
        for edit in seen:
            said[edit.name] = "refused: " + at_goals(edit.refusals, opened)
            if is_written:
                write_goals(edit, opened)
        if not seen:
            wrong += [f"{edit.name} IS NOT REFUSED at what it names: {dict(edit.refusals)}" for edit in left]
            break
        left = [edit for edit in left if edit not in seen]
    return said, wrong


def try_twins(crate, kept):
    """Tries the twin of each edit of a crate that has one, and answers the names of those that are accepted, and what was wrong."""
    left, accepted, wrong = twins_of(crate), [], []
    while left:
        made, opened, faults = check(crate, left, kept)
        refused = [it for it in made if any(opened[function] for function in it.refusals)]
        wrong += [*faults, *(f"the twin of {it.name} IS REFUSED, {at_goals(it.refusals, opened)}" for it in refused)]
        if not faults and not any(opened.values()):
            accepted += [it.name for it in made]
            refused = made
        if not refused:
            wrong += [f"{function} is open by a twin's change, and no edit names it" for function in opened if opened[function]]
            break
        left = [it for it in left if it not in refused]
    return accepted, wrong


def has_ended(log):
    with open(log, encoding="utf-8", errors="replace") as file:
        return re.search(r"^\d+ the gate ended$", file.read(), re.M) is not None


def wait_for(libraries, log):
    """Waits until the gate has proved these libraries, and says whether it did."""
    while True:
        with open(log, encoding="utf-8", errors="replace") as file:
            said = file.read()
        if set(libraries) <= set(re.findall(r"^\d+ rt: (\w+) (?:proved$|is kept:)", said, re.M)):
            return True
        if has_ended(log):
            return False
        time.sleep(1)


def wait_for_room(log):
    """Waits beside the gate until there is memory for one more check. The next waits for a minute more, when this one shows what it takes."""
    with BEGINS:
        while not has_ended(log):
            with open("/proc/meminfo", encoding="utf-8") as file:
                if int(re.search(r"^MemAvailable: +(\d+)", file.read(), re.M)[1]) >= ROOM:
                    time.sleep(60)
                    return
            time.sleep(5)


def tried(crate, log, is_written):
    """Tries a crate's edits after the proofs of its libraries, says what came of each, and answers how many passed and failed."""
    began, crates = time.monotonic(), every_crate()
    if log and not wait_for(below(crates[crate][1], crates), log):
        print(f"{crate}: its libraries aren't proved", flush=True)
        return 0, len(tried_here(crate))
    if log:
        wait_for_room(log)
    waited = time.monotonic() - began
    with tempfile.TemporaryDirectory() as kept:
        said, wrong = try_edits(crate, kept, is_written)
        accepted, of_twins = try_twins(crate, kept)
    wrong += of_twins
    lines = [f"edit {crate}/{name}: {what}" for name, what in sorted(said.items())] + [f"{crate}: {it}" for it in wrong]
    counts = f"{len(said)} edits are refused, {len(accepted)} twins are accepted, {len(wrong)} failures"
    lines.append(f"{crate}: {counts}, {time.monotonic() - began - waited:.0f} s")
    print("\n".join(lines), flush=True)
    return len(said) + len(accepted), len(wrong)


def say_counts(crates):
    """Says what the edits of these crates rest on, and answers how many failures there are."""
    total, wrong = counted(crates)
    print("\n".join([*wrong, f"edits: {in_words(total)}"]), flush=True)
    return len(wrong)


def main():
    parser = argparse.ArgumentParser(description="Tries the edits that the prover must refuse.")
    parser.add_argument("--gate", metavar="LOG")
    parser.add_argument("--jobs", metavar="N", type=int, default=4)
    parser.add_argument("--write", action="store_true")
    parser.add_argument("--count", action="store_true")
    parser.add_argument("--tests", action="store_true")
    parser.add_argument("crates", nargs="*")
    given = parser.parse_args()
    crates = every_crate()
    if given.tests:
        return say_failing(given.crates, given.jobs)
    asked = given.crates or sorted(os.listdir(CRATES))
    if given.count:
        return 1 if say_counts(asked) else 0
    tries = [it for it in asked if [*tried_here(it), *twins_of(it)]]
    names = sorted(tries, key=lambda it: len(below([it], crates)))
    if not given.gate:
        for library in dict.fromkeys(it for name in names for it in not_new(name, crates)):
            subprocess.run(["rt", "lib"], cwd=os.path.join(CRATES, library), check=True)
    with concurrent.futures.ThreadPoolExecutor(given.jobs) as pool:
        counts = list(pool.map(lambda it: tried(it, given.gate, given.write), names))
    failed = sum(count for _, count in counts) + say_counts(asked)
    print(f"{sum(count for count, _ in counts)} passed, {failed} failed")
    return 1 if failed else 0


if __name__ == "__main__":
    sys.exit(main())
