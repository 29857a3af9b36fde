"""The values and the bytes of tests/samples, and the types there, for typed_samples.py and tests/run/hostile.

A line of typed_write.txt has a type, a value, a setting, the bytes that the Rust crate writes, and '=' or the bytes that the rules
give, all as Rust prints them. A line of typed_read.txt has a type, which '@' and how deep values nest at most may follow,
bytes in hex, what the Rust crate answers from a slice and from a reader, what the rules give for the port from a slice and from a
reader, and how the two compare.
"""
import itertools
import re

from shared.files import read as read_file

# Two types more are read, whose elements are so large that no memory has room for as many as a head can claim.
LARGE = ["Vec<[u64;400]>", "VecDeque<[u64;400]>"]
# As these every message is read, which takes as long as so many types do.
OFTEN = {"Value": 20, "Ignored": 10}


def lines(name):
    for line in read_file("tests", "samples", name).split("\n"):
        if line and not line.startswith("#"):
            yield line.split(" | ")


def written():
    """Type, value, and the settings with the bytes that the rules give, for values in the order of the sample."""
    found = []
    for kind, value, setting, wrote, rules in lines("typed_write.txt"):
        if not found or found[-1][:2] != (kind, value):
            found.append((kind, value, []))
        found[-1][2].append((setting, wrote if rules == "=" else rules))
    return found


def read():
    """Type, bytes in hex, and what the rules give from a slice and from a reader."""
    for kind, digits, _, _, from_slice, from_reader, _ in lines("typed_read.txt"):
        yield kind, digits, from_slice, from_reader


def plain(kind):
    """The name of a type as those that are read have it."""
    return kind.replace("; ", ";").replace(", ", ",")


def reading(kind):
    """The type as which a written value is read, or None where it is a reference's, or of a type that is only written."""
    kind = plain(kind).replace("BTreeMap<Two,", "BTreeMap<TwoKey,")
    kind = {"f32": "F32Bits", "f64": "F64Bits", "&Bytes": "Bytes"}.get(kind, kind)
    return None if re.search(r"&(?!str\b)|UnkSeq|UnkMap|KnownSeq", kind) else kind


def kinds():
    """The types that are read."""
    found = {kind.partition("@")[0] for kind, *_ in read()} | {reading(kind) for kind, *_ in written()}
    return sorted(found - {None} | set(LARGE))


def part_of(parts):
    """For each type, read or only written, which of so many parts it is in: types that are much alike are in one, and share what is compiled."""
    found = sorted({reading(kind) or plain(kind) for kind, *_ in written()} | set(kinds()))
    sums = [*itertools.accumulate(OFTEN.get(kind, 1) for kind in found)]
    return {kind: (it - 1) * parts // sums[-1] for kind, it in zip(found, sums)}


def written_of(part, parts):
    """What is written, in a part of the types."""
    of = part_of(parts)
    return [it for it in written() if of[reading(it[0]) or plain(it[0])] == part]
