#!/usr/bin/env python3
"""Compares the counts in the documents and in tests/count with what is there: `tools/counts.py [--write]`.

The sentences below hold a count for each `{}`. tests/count says of each part of ./test how many tests it has at least, so that a part that
loses some fails. With --write the sentences get their counts, and the numbers of tests/count are raised. None is lowered: where tests go for
good, the number is changed by hand. The status is 0 where nothing is said.
"""
import os
import re
import statistics
import sys

sys.dont_write_bytecode = True
from shared.crates import CRATES, listed
from shared.files import TOP, files_below, read, write
from testing import read_samples

WRITTEN_TYPES = "Writes of many types"
READ_TYPES = "Reads of many types"
MANY_TYPES = "Many types in one program"


def count_tests():
    """How many tests each part of ./test has."""
    must_fail = [it for crate in os.listdir(CRATES) for it in files_below("crates", crate, "must-fail", ending=".edit")]
    calls = files_below("tests", "programs", "calls", ending=".rs")
    return {
        "gate": len(listed(os.path.join(TOP, "crates.txt"))) + len(must_fail),
        "edits": len(files_below("tests", "edits", ending=".edit")),
        "lines": len(files_below("tests", "lines", ending=".in")),
        "run": len(os.listdir(os.path.join(TOP, "tests", "run"))),
        "calls": sum(read(it).count("#[test]") for it in calls),
    }


def count_unsafe():
    """How many blocks of the crates are `unsafe`."""
    sources = [it for crate in os.listdir(CRATES) for it in files_below("crates", crate, "src", ending=".rt")]
    return sum(len(re.findall(r"\bunsafe \{", read(it))) for it in sources)


def ratios(heading, which=0):
    """The ratios of a table of bench/README.md, in its first column of that name, or a later one."""
    part = read("bench/README.md").partition(f"## {heading}\n")[2].partition("\n## ")[0]
    head, _, *rows = (line.strip("|").split("|") for line in part.split("\n") if line.startswith("|"))
    at = [it for it, name in enumerate(head) if name == "ratio"][which]
    return [float(row[at]) for row in rows]


def small(found):
    """How many of these ratios are at most 1.00, of how many, and their median."""
    return sum(it <= 1 for it in found), len(found), f"{statistics.median(found):.2f}"


def sentences():
    """The documents that have counts, the sentences, and the counts."""
    tests = count_tests()
    must_fail = tests["gate"] - len(listed(os.path.join(TOP, "crates.txt")))
    written, inputs = [*read_samples.lines("typed_write.txt")], [*read_samples.lines("typed_read.txt")]
    types = [len({row[0].partition("@")[0] for row in rows}) for rows in (written, inputs)]
    writes, reads = small(ratios(WRITTEN_TYPES)), small(ratios(READ_TYPES))
    read_many, written_many = small(ratios(MANY_TYPES)), small(ratios(MANY_TYPES, 1))
    return [
        ("README.md", "{} wrong bodies that must be refused", [tests["edits"] + must_fail]),
        ("README.md", "{} of {} writes take no more (median {}), nor do {} of {} reads (median {})", [*writes, *reads]),
        ("README.md", "Among many types {} of {} writes take no more", written_many[:2]),
        ("bench/README.md", "{} of these {} loads take no more than the original; the median is {}", writes),
        ("bench/README.md", "{} of these {} loads take at most what the original takes; the median is {}", reads),
        ("bench/README.md", "{} reads are above, for the reasons given there", [reads[1] - reads[0]]),
        ("bench/README.md", "Medians of 0.6 written and 0.7 read: {} and {}.", [writes[2], reads[2]]),
        ("bench/README.md", "{} of {} reads take at most what the original takes, and the median is {}", read_many),
        ("bench/README.md", "{} of {} writes do, and the median is {}", written_many),
        ("docs/PROVED.md", "What {} types are written as, {} rows in {} settings", [types[0], len(written), len({row[2] for row in written})]),
        ("docs/PROVED.md", "What {} inputs are read as, of {} types", [len(inputs), types[1]]),
        ("README.md", "`unsafe` is written {} times", [count_unsafe()]),
        ("docs/PROVED.md", "`unsafe` is written {} times", [count_unsafe()]),
    ]


def shown(count):
    return f"{count:,}" if isinstance(count, int) else count


def update(text, sentence, counts):
    """The text with these counts in the sentence, wherever its lines are broken, or None where the text doesn't have it once."""
    parts = [re.sub(r"(?:\\ )+", r"\\s+", re.escape(it)) for it in sentence.split("{}")]
    found = [*re.finditer(r"([\d,.]*\d)".join(parts), text)]
    if len(found) != 1:
        return None
    for at, count in reversed([*enumerate(counts, 1)]):
        text = text[: found[0].start(at)] + shown(count) + text[found[0].end(at) :]
    return text


def look_at_documents(is_written):
    """What is wrong in the documents."""
    for path, sentence, counts in sentences():
        text = read(path)
        updated = update(text, sentence, counts)
        if updated is None:
            yield f"{path} has this not once: {sentence}"
        elif updated != text and is_written:
            write(updated, path)
        elif updated != text:
            yield f"{path}: the counts are {', '.join(map(shown, counts))}, of: {sentence}"


def look_at_speed():
    """The rows of README's table of instructions that aren't in bench/README.md."""
    measured = read("bench/README.md")
    for row in re.findall(r"^\| .*? \| ([\d.]+) \| ([\d.]+) \| ([\d.]+) \|$", read("README.md"), re.M):
        if f"|{'|'.join(row)}|" not in measured:
            yield f"README.md: no table of bench/README.md has {' | '.join(row)}"


def look_at_tests(is_written):
    """What is wrong in tests/count."""
    lines = read("tests", "count").split("\n")
    least = {line.split()[0]: int(line.split()[1]) for line in lines if line and not line.startswith("#")}
    for part, count in count_tests().items():
        if count < least.get(part, 0):
            yield f"{part}: there are {count} tests, and tests/count says {least[part]}"
        elif count > least.get(part, 0) and is_written:
            lines = [f"{part} {count}" if line.split(" ")[0] == part else line for line in lines]
        elif count > least.get(part, 0):
            yield f"{part}: there are {count} tests, more than tests/count says: tools/counts.py --write raises it"
    if is_written:
        write("\n".join(lines), "tests", "count")


def main():
    is_written = sys.argv[1:] == ["--write"]
    if sys.argv[1:] and not is_written:
        sys.exit("usage: tools/counts.py [--write]")
    said = [*look_at_documents(is_written), *look_at_tests(is_written), *look_at_speed()]
    print("\n".join(said) or "the counts are those of what is there")
    return bool(said)


if __name__ == "__main__":
    sys.exit(main())
