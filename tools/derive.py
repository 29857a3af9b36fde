#!/usr/bin/env python3
"""Writes `Serialize`, `Deserialize`, `RoundTrip` and `EndsInside` for the structs and enums of a file, and the proofs.

    tools/derive.py CRATE FILE..            writes them; CRATE is the crate's folder, and FILE a path below its src/
    tools/derive.py --check CRATE FILE..    ends with 1, and names the types that changed since they were derived; without a file, of all
    tools/derive.py --prove CRATE           the same of all files, and where no type changed, `rt check` in the crate

The file has a line `mod derived;`, and its types have `#[derive(Drop)]`. For src/pets.rt the implementations go to src/pets/derived.rt,
and the proofs below proofs/pets/derived/. In crates.txt the crate names rmp_serde. What can't be derived is refused, and of a type that
doesn't get a trait it is told, with the reason. A trait that the file itself implements for a type isn't derived for it.

A comment line above a field, a variant or a type says what an attribute of serde would say:

    // derive: rename = "id"                    above a field or a variant: the name that is written
    // derive: rename_all = "camelCase"         above a struct, an enum, or a variant with fields: the rule for the names in it
    // derive: rename_all_fields = "camelCase"  above an enum: the rule for the fields of its variants
    // derive: default                          above a field with a name: a map may be without it, and it is empty, 0 or false then
    // derive: default = 8080                   the same: it is this number, text, constant of the file or other value then
    // derive: skip                             above a field of a struct with names: it isn't written or read, and has its default then
    // derive: round_trip                       above a type, of which a trait is written by hand: `RoundTrip` is derived all the same
"""
import signal
import sys

sys.dont_write_bytecode = True
from derive.command import main

if __name__ == "__main__":
    signal.signal(signal.SIGPIPE, signal.SIG_DFL)
    main(__doc__)
