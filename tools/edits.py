#!/usr/bin/env python3
"""Looks at the edits that the prover must refuse: tests/edits/CRATE/FUNCTION__WHAT.edit, which tools/refused.py tries, and
crates/CRATE/must-fail/FUNCTION__WHAT.edit, which the gate tries.

Says which edit or twin can't be applied, since a text that it replaces isn't exactly once in its file, which edit has no such name, which
doesn't say where it is refused, which names a test that isn't there, and which public function of the libraries has none. The status is 0
where nothing is said.

An edit counts for the functions of its name, or, with the name of a type in front, as Type_function__what, for that type's.
A function needs none that has no body, as a law, that answers a field or makes a struct of one, or whose body is that of
another by ALIKE.
"""
import os
import re
import sys

sys.dont_write_bytecode = True
from shared.crates import CRATES
from shared.files import files_below, read
from testing.edit import edits_of

LIBRARIES = "rmp_wire rmp_encode rmp_decode rmp_scan rmp_ends rmp_path rmp_round_trip rmp_types rmp_serde canon_lines rmp_c".split()
# Functions whose body is another's: that of each.
ALIKE = {name: other for other, names in re.findall(r"^(\w+): (.*)$", read("tools", "edits_alike.txt"), re.M) for name in names.split()}
FUNCTION = re.compile(r"^impl\b[^{;]*|^(?:pub )?trait [^{;]*|^\}|^ *(pub )?(?:const )?(?:extern \"C\" )?fn (\w+)", re.M)
# Nothing, a field or a reference to one, or a struct of what is given, with nothing read or written.
PLAIN = re.compile(
    r"|(&(mut )?)?self(\.\w+)+(\.(as_slice|get_ref|get_mut|into_inner)\(\))?|\w+ \{ \w+(: self)? \}"
    r"|(AheadSource|BufSource|ReadReader) \{\s*\w+(: \w+::new\(\w+\))?,(\s*\w+: \w+::new\(\w+\),)?\s*\}?"
)


def body_of(text, at):
    """What is between the braces of the function that begins there. The clauses before it are lines of their own."""
    found = re.compile(r"(?:^ *|[^\n{]* )\{\n(.*?)^ *\}$|\{\}$", re.M | re.S).search(text, at)
    return (found[1] or "").strip()


def type_of(head):
    """The name of the type that an implementation is for."""
    head = re.sub(r"\s+", " ", head)
    while (shorter := re.sub(r"<[^<>]*>", "", head)) != head:
        head = shorter
    words = re.findall(r"\w+", re.sub(r" where .*", "", head.split(" for ")[-1]))
    return words[-1] if words else ""


def public_functions(crate):
    """Each public function outside of tests: its type, its name and its body."""
    for path in files_below("crates", crate, "src", ending=".rt"):
        if "tests" in os.path.relpath(path, CRATES):
            continue
        text = re.sub(r"^ *//.*$", "", read(path), flags=re.M)
        owner = ""
        for found in FUNCTION.finditer(text):
            if found[2] is None:
                owner = "" if found[0] == "}" else type_of(found[0])
            elif found[1]:
                yield owner, found[2], body_of(text, found.start())


def without_edit(crate, names):
    for owner, name, body in public_functions(crate):
        likes = {name, f"{owner}_{name}"} | {ALIKE[x] for x in (name, f"{owner}_{name}") if x in ALIKE}
        if not likes & names and not PLAIN.fullmatch(body):
            yield f"{owner}::{name}" if owner else name


def written_tests():
    """The names of the tests of tests/programs/calls."""
    return {name for path in files_below("tests", "programs", "calls", ending=".rs") for name in re.findall(r"#\[test\]\s+fn (\w+)", read(path))}


def main():
    said, written = [], written_tests()
    for crate in sorted(os.listdir(CRATES)):
        names = set()
        for edit in edits_of(crate):
            names.add(edit.name.partition("__")[0])
            wrong = [] if re.fullmatch(r"\w+?__\w+", edit.name) else [": its name isn't FUNCTION__WHAT"]
            wrong += [f": {why}" for why in edit.misapplied()] + [f", its twin: {why}" for why in edit.twin.misapplied()]
            wrong += [": its twin is itself"] * (edit.pairs == edit.twin.pairs)
            wrong += [f": there is no test {it}" for it in edit.tests if it not in written]
            wrong += [] if edit.says_where() or edit.is_of_gate else [": no line says where it is refused"]
            said += [f"{crate}/{edit.name}{why}" for why in wrong]
        if crate in LIBRARIES:
            said += [f"{crate}: {name} has no edit" for name in without_edit(crate, names)]
    print("\n".join(said) or "each edit can be applied, and each public function has one")
    sys.exit(1 if said else 0)


if __name__ == "__main__":
    main()
