"""What the words of tools/derive.py ask for."""
from __future__ import annotations

import os
import subprocess
import sys
from typing import Callable, NoReturn

from .reading.modules import Module, derived_files, stale
from .recursive.derived import name_files
from .table.kinds import Refused
from .written import made


def derive(crate: str, path: str) -> None:
    """Writes the implementations and the proofs of the types of a file."""
    module = Module(crate, path)
    wanted = module.wanted()
    made(module, wanted).write(crate, os.path.join("proofs", f"{module.at}derived"))
    name_files(module, wanted)


def check(crate: str, path: str) -> None:
    """Refuses a file of which a type was changed since its implementations were written."""
    module = Module(crate, path)
    changed = stale(module, module.wanted())
    if changed:
        raise Refused(f"{changed}: run tools/derive.py {crate} {path}")


def succeeds(job: Callable[[str, str], None], crate: str, path: str) -> bool:
    """Does this for a file, and says why where it can't."""
    try:
        job(crate, path)
    except Refused as why:
        print(f"derive: {path}{f':{why.line}' if why.line else ''}: {why}", file=sys.stderr)
        return False
    return True


def prove(crate: str) -> NoReturn:
    """Proves a crate by `rt check`, where no type changed since it was derived, and ends as that does."""
    paths = derived_files(crate)
    if not all([succeeds(check, crate, path) for path in paths]):
        sys.exit(1)
    sys.exit(subprocess.run(["rt", "check"], cwd=crate, check=False).returncode)


def main(page: str) -> None:
    """Does what the command's words say, of which this page tells."""
    words = sys.argv[1:]
    if "--help" in words or "-h" in words:
        print(page)
        return
    if words[:1] == ["--prove"] and len(words) == 2:
        prove(words[1])
    job = check if words[:1] == ["--check"] else derive
    words = words[job is check :]
    paths = words[1:] or (derived_files(words[0]) if job is check and words else [])
    if not paths or any(word.startswith("-") for word in words):
        sys.exit(page)
    if job is check:
        sys.exit(0 if all([succeeds(check, words[0], path) for path in paths]) else 1)
    sys.exit(0 if all(succeeds(derive, words[0], path) for path in paths) else 1)
