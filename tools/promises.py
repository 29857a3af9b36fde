#!/usr/bin/env python3
"""Looks whether the documents promise what is there.

- A row of the table in docs/PROVED.md has a promise, a public function, a clause of its contract (none where it has one without a name), a
  test, which is a function of a crate or of tests/programs, or a file of tests/run or tests/lines, and an edit of tests/edits or must-fail/,
  or none.
- A row of README's table has a promise, and functions with clauses of theirs.
- Where a law or a read has a premise, the promise of either table names it, and so does README's first promise.
- docs/FORMAT.md has each law of rmp_serde::laws once, and no other.
- No page and no doc comment shows a loop over `next` of a reader: it isn't proved without a measure.
- docs/PROVED.md names each file that has `unsafe` code.

The status is 0 where nothing is said.
"""
import os
import re
import sys

sys.dont_write_bytecode = True
from shared.files import TOP, files_below, read

# What a promise has to name, by the function and the clause that carry it.
PREMISES = {
    ("written_is_read", "read"): "`RoundTrip`",
    ("written_is_read", "same"): "`RoundTrip`",
    ("ends_are_inside", "begins"): "`EndsInside`",
    ("read", "ok"): "tells its bytes",
    ("write", "writes"): "tells its bytes",
}
ROW = re.compile(r"^\| (.*?) \| `(\w+)` \| (?:`(\w+)`)? ?\| `(\w+)` \| (?:`(\w+)`|none) \|$", re.M)


def has_clause(sources, function, clause):
    """Whether a function of that name has a contract with this clause."""
    # The text from the function's name up to the next function has its contract, and no other.
    contracts = [it for text in sources for it in re.findall(rf"fn {function}\b.*?(?=\bfn \w|\Z)", text, re.S)]
    wanted = rf"ensures\*? {clause} \{{" if clause else r"ensures \{"
    return any(re.search(wanted, it) for it in contracts)


def look_at_table(sources, page):
    """What is wrong in the table of docs/PROVED.md."""
    written = sources + [read(it) for it in files_below("tests", "programs", ending=".rs")]
    tests = {name for text in written for name in re.findall(r"#\[test\]\s+fn (\w+)", text)}
    tests |= {os.path.basename(it).partition(".")[0] for part in ("run", "lines") for it in files_below("tests", part)}
    edits = {os.path.basename(it)[:-5] for part in ("crates", "tests") for it in files_below(part, ending=".edit")}
    rows = ROW.findall(page)
    if len(rows) != len(re.findall(r"^\|", page, re.M)) - 2:
        yield "a row of the table has another form"
    for promise, function, clause, test, edit in rows:
        if not has_clause(sources, function, clause):
            yield f"{promise}: {function} has no clause {clause or 'without a name'}"
        if test not in tests:
            yield f"{promise}: there is no test {test}"
        if edit and edit not in edits:
            yield f"{promise}: there is no edit {edit}"


def look_at_readme(sources, page):
    """What is wrong in the table of README.md, and in its first promise."""
    table = page.partition("## What is proved\n")[2].partition("\n## ")[0]
    for promise, cell in re.findall(r"^\| (.*?) \| (`.*) \|$", table, re.M):
        for named, clauses in re.findall(r"`([\w:]+)`: ((?:`\w+`(?:, )?)+)", cell):
            function = named.rpartition("::")[2]
            for clause in re.findall(r"\w+", clauses):
                if not has_clause(sources, function, clause):
                    yield f"README.md: {promise}: {function} has no clause {clause}"
                if (premise := PREMISES.get((function, clause), "")) not in promise:
                    yield f"README.md: {promise}: {function} promises `{clause}` only where it says {premise}"
    for sentence in re.search(r"((?:^> .*\n)+)", page, re.M)[1].replace("\n> ", " ").split(". ")[:2]:
        if "tells its bytes" not in sentence:
            yield f"README.md: the first promise doesn't name its premise: {sentence}"


def look_at_premises(page):
    """The promises of docs/PROVED.md that don't name a premise. A row that goes on from one above has what that says."""
    said = ""
    for promise, function, clause, _, _ in ROW.findall(page):
        said = said + promise if promise.startswith("...") else promise
        if (premise := PREMISES.get((function, clause), "")) not in said:
            yield f"{promise}: {function} promises `{clause}` only where it says {premise}"


def look_at_laws():
    """The laws that docs/FORMAT.md lacks, or has though they aren't there."""
    text = read("crates", "rmp_serde", "src", "laws.rt")
    laws = re.findall(r"^pub fn (\w+)", text, re.M)
    for used in re.findall(r"^pub use [\w:]+::laws::(\w+|\{.*?\});", text, re.M | re.S):
        laws += re.findall(r"\w+", used)
    listed = re.findall(r"^\| `(\w+)` \|", read("docs", "FORMAT.md").partition("\n## Laws\n")[2], re.M)
    yield from (f"docs/FORMAT.md: {it} is there not once" for it in sorted(set(laws)) if listed.count(it) != 1)
    yield from (f"docs/FORMAT.md: {it} is no law" for it in sorted(set(listed) - set(laws)))


def look_at_loops():
    """The pages and doc comments that show a loop over `next` of a reader."""
    shown = {it: read(it) for it in ["README.md", *files_below("docs", ending=".md")]}
    shown |= {it: "\n".join(re.findall(r"^ *//[/!].*", read(it), re.M)) for it in files_below("crates", ending=".rt")}
    for path, text in shown.items():
        if re.search(r"while let .*\bde\.next\b", text):
            yield f"{os.path.relpath(path, TOP)}: a loop over `next` isn't proved without a measure: take `messages`"


def look_at_unsafe(page):
    """The sources with `unsafe` code that docs/PROVED.md doesn't name."""
    for path in files_below("crates", ending=".rt"):
        name = os.path.relpath(path, TOP)
        if re.search(r"\bunsafe \{", read(path)) and f"`{name}`" not in page:
            yield f"docs/PROVED.md: {name} has `unsafe` code"


def main():
    sources = [read(it) for it in files_below("crates", ending=".rt")]
    page, readme = read("docs", "PROVED.md"), read("README.md")
    faults = [*look_at_table(sources, page), *look_at_readme(sources, readme), *look_at_premises(page)]
    faults += [*look_at_laws(), *look_at_loops(), *look_at_unsafe(page)]
    print("\n".join(faults) or f"{len(ROW.findall(page))} promises, each with its clause, its test and its edit")
    return bool(faults)


if __name__ == "__main__":
    sys.exit(main())
