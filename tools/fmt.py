#!/usr/bin/env python3
"""Lays out the sources of crates that the gate passes over as `rt fmt` does those of its own.

    tools/fmt.py [CRATE..]      each CRATE is a folder of tests/programs or of bench/libraries, or these are all of them
"""
import filecmp
import glob
import os
import shutil
import subprocess
import sys
import tempfile

sys.dont_write_bytecode = True
from shared.files import TOP
from lay_out import copy_sources


def main():
    every = [it for part in ("tests/programs", "bench/libraries") for it in sorted(glob.glob(os.path.join(TOP, part, "*", "")))]
    for crate in sys.argv[1:] or every:
        with tempfile.TemporaryDirectory() as folder:
            copies = copy_sources(crate, folder)
            subprocess.run(["rt", "fmt"], cwd=folder, check=True)
            for file, copy in copies.items():
                if not filecmp.cmp(file, copy, shallow=False):
                    shutil.copyfile(copy, file)


if __name__ == "__main__":
    main()
