#!/usr/bin/env python3
"""Copies the library into a repository of yours, or brings what it copied there up to date, and says what changed.

    tools/add.py REPOSITORY

To REPOSITORY/crates go rmp_serde and the crates below it, without their edits and what was built, and to REPOSITORY/tools
goes derive.py with what it imports. CHANGELOG.md goes to crates/rmp_serde; where a newer one takes its place, its new entries are printed.
crates.txt gets the lines of these crates, and .gitignore the line `out/`. The file rmp_serde.lock has the commit and the checksum of each file
that was copied. No file is replaced that isn't in it, or that was changed since.
"""
from __future__ import annotations

import ast
import glob
import hashlib
import os
import re
import shutil
import subprocess
import sys
from typing import Iterator, NoReturn

sys.dont_write_bytecode = True
from shared.crates import below, listed, sources
from shared.files import TOP

TOOLS = os.path.join(TOP, "tools")
LOCK = "rmp_serde.lock"
CHANGES = "crates/rmp_serde/CHANGELOG.md"
HEAD = "# tools/add.py of rmp_serde for Rattle copied these files, and brings them up to date: their checksums, and the commit.\n"


def stop(why: str) -> NoReturn:
    print(f"add.py: {why}", file=sys.stderr)
    sys.exit(2)


def count(number: int, what: str) -> str:
    return f"{number} {what}{'s' * (number != 1)}"


def imported(file: str) -> Iterator[str]:
    """The files of tools/ that a file there may import: the modules, and the heads of their packages."""
    with open(os.path.join(TOOLS, file), encoding="utf-8") as it:
        nodes = list(ast.walk(ast.parse(it.read())))
    names = [alias.name.split(".") for node in nodes if isinstance(node, ast.Import) for alias in node.names]
    for node in nodes:
        if isinstance(node, ast.ImportFrom):
            # (each dot is a folder above the file)
            path = file.split("/")[: -node.level] if node.level else []
            path += node.module.split(".") if node.module else []
            names += [path, *([*path, alias.name] for alias in node.names)]
    for name in names:
        yield from ("/".join([*name[:end], "__init__.py"]) for end in range(1, len(name) + 1))
        yield "/".join(name) + ".py"


def modules(name: str) -> list[str]:
    """A script of tools/ and the modules there that it imports, each once, with the tables in their packages."""
    found, left = [], [f"{name}.py"]
    while left:
        file = left.pop()
        if file not in found and os.path.isfile(os.path.join(TOOLS, file)):
            found.append(file)
            left += imported(file)
    tables = [file for folder in dict.fromkeys(map(os.path.dirname, found)) if folder for file in glob.glob(f"{folder}/*.txt", root_dir=TOOLS)]
    return [os.path.join(TOOLS, file) for file in [*found, *sorted(tables)]]


def checksum(file: str) -> str:
    """The checksum of a file, or "" where there is none."""
    if not os.path.lexists(file):
        return ""
    with open(file, "rb") as it:
        return hashlib.sha256(it.read()).hexdigest()


def files_of(libraries: list[str]) -> dict[str, str]:
    """What is copied: each file's path there, and the file here."""
    files = [*(file for name in libraries for file in sources(name)), *modules("derive")]
    found = {os.path.relpath(file, TOP): file for file in files}
    found["crates/rmp_serde/LICENSE"] = os.path.join(TOP, "LICENSE")
    found[CHANGES] = os.path.join(TOP, "CHANGELOG.md")
    return found


def entries(file: str) -> dict[str, str]:
    """The entries of a list of changes, the newest first: each version, and its text with the heading."""
    if not os.path.isfile(file):
        return {}
    with open(file, encoding="utf-8") as it:
        parts = re.split(r"^(?=## )", it.read(), flags=re.M)[1:]
    return {part.split("\n", 1)[0].removeprefix("## "): part.strip() for part in parts}


def commit() -> str:
    """The commit that the files are from."""
    def git(*words: str) -> str:
        return subprocess.run(["git", "-C", TOP, *words], capture_output=True, text=True, check=True).stdout.strip()

    try:
        if os.path.exists(os.path.join(TOP, ".git")):
            return git("rev-parse", "HEAD") + " with changes" * bool(git("status", "--porcelain", "crates", "crates.txt", "tools"))
    except (OSError, subprocess.CalledProcessError):
        pass
    return "unknown"


class Copies:
    """What was copied into a repository."""

    def __init__(self, repository: str) -> None:
        self.repository = repository
        self.commit, self.sums = "", {}
        if os.path.isfile(self.place(LOCK)):
            with open(self.place(LOCK), encoding="utf-8") as it:
                lines = [line.rstrip("\n").split("  ", 1) for line in it if not line.startswith("#")]
            if not lines or any(len(line) != 2 for line in lines):
                stop(f"{self.place(LOCK)} isn't as it was written")
            self.commit = lines[0][1]
            self.sums = {path: found for found, path in lines[1:]}

    def place(self, path: str) -> str:
        return os.path.join(self.repository, path)

    def others(self, wanted: dict[str, str]) -> list[str]:
        """Files of these names that weren't copied, or that were changed since."""
        found = {path: checksum(self.place(path)) for path in {**self.sums, **wanted}}
        return sorted(path for path in found if found[path] not in ("", self.sums.get(path), wanted.get(path)))

    def remove(self, path: str) -> None:
        """Removes a file, and the folders that it leaves empty."""
        if os.path.lexists(self.place(path)):
            os.remove(self.place(path))
        folder = os.path.dirname(path)
        while os.path.isdir(self.place(folder)) and not os.listdir(self.place(folder)):
            os.rmdir(self.place(folder))
            folder = os.path.dirname(folder)

    def update(self, files: dict[str, str], wanted: dict[str, str]) -> list[str]:
        """Makes the copies what the files are, and says of each what was done."""
        said = []
        for path in sorted({**self.sums, **files}):
            found = checksum(self.place(path))
            if path not in files:
                self.remove(path)
                said.append(f"removed {path}")
            elif found != wanted[path]:
                os.makedirs(os.path.dirname(self.place(path)), exist_ok=True)
                shutil.copy(files[path], self.place(path))
                said.append(f"{'changed' if found else 'added'} {path}")
        return said

    def set_lines(self, path: str, lines: dict[str, str]) -> list[str]:
        """Gives a list these lines, each in place of the one that has its form, and says of each that is new."""
        text, said = "", []
        if os.path.isfile(self.place(path)):
            with open(self.place(path), encoding="utf-8") as it:
                text = it.read()
        for form, line in lines.items():
            found = re.search(form, text, re.M)
            if not found:
                text += "\n" * (text[-1:] not in ("", "\n")) + f"{line}\n"
            elif found[0] != line:
                text = text[: found.start()] + line + text[found.end() :]
            else:
                continue
            said.append(f"{'changed' if found else 'added'} in {path}: {line}")
        with open(self.place(path), "w", encoding="utf-8") as it:
            it.write(text)
        return said

    def write_lock(self, at: str, wanted: dict[str, str]) -> None:
        with open(self.place(LOCK), "w", encoding="utf-8") as it:
            it.write(HEAD + f"commit  {at}\n" + "".join(f"{wanted[path]}  {path}\n" for path in sorted(wanted)))


def add(repository: str) -> None:
    if not os.path.isdir(repository):
        stop(f"there is no folder {repository}: `git init {repository}` makes one")
    if os.path.samefile(repository, TOP):
        stop(f"{repository} is this repository itself")
    if os.path.isfile(os.path.join(repository, "crates.txt")) and not os.path.isdir(os.path.join(repository, "crates")):
        stop(f"{repository} has no folder crates for the crates of crates.txt: move them there first")
    every = listed(os.path.join(TOP, "crates.txt"))
    libraries = below(["rmp_serde"], every)
    files = files_of(libraries)
    wanted = {path: checksum(file) for path, file in files.items()}
    copies = Copies(repository)
    if others := copies.others(wanted):
        more = f" (and {count(len(others) - 1, 'other file')})" if others[1:] else ""
        stop(f"{copies.place(others[0])}{more} wasn't copied by this tool, or was changed since: move it away first")
    before, after = entries(copies.place(CHANGES)), entries(files[CHANGES])
    said = copies.update(files, wanted)
    said += copies.set_lines("crates.txt", {rf"^{name}\b[^:#\n]*:.*$": f"{every[name][0]}: {' '.join(every[name][1])}" for name in libraries})
    said += copies.set_lines(".gitignore", {"^/?out/?$": "out/"})
    at = commit()
    copies.write_lock(at, wanted)
    if not copies.commit:
        version = next(iter(after))
        print(f"added {', '.join(libraries)} {version} and tools/derive.py to {repository}: {count(len(wanted), 'file')} of commit {at}")
        print("".join(f"{line}\n" for line in said if line.startswith("changed")), end="")
        print("A crate that depends on them has a line in crates.txt: NAME: rmp_serde")
    elif said:
        print("\n".join(said))
        print(f"{count(len(said), 'change')}: from commit {copies.commit} to {at}")
        print("".join(f"\n{text}\n" for version, text in after.items() if version not in before), end="")
    else:
        print(f"up to date: commit {at}")


def main() -> int:
    if sys.argv[1:] in (["-h"], ["--help"]):
        print(__doc__.strip())
        return 0
    if len(sys.argv) != 2:
        print("usage: tools/add.py REPOSITORY", file=sys.stderr)
        return 2
    try:
        add(sys.argv[1])
    except OSError as error:
        stop(f"{error.filename}: {error.strerror}")
    return 0


if __name__ == "__main__":
    sys.exit(main())
