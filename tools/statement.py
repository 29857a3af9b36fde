#!/usr/bin/env python3
"""Writes docs/STATEMENT.md: all that has to be believed of what README's table promises.

    tools/statement.py            says how many lines of definitions the promises rest on
    tools/statement.py --write    writes docs/STATEMENT.md, and the number into README.md
    tools/statement.py --check    ends with status 1 where one of them is old

The page has each row of README's table with the clauses that it names, as they are in the code, and then every definition of specs/ that
these rest on, each once and after what it rests on. Of a trait these are the ghost members that are named. A line that is a `use`, a header
or blank doesn't count.

A state is a word whose definition isn't needed: the clauses that the page has say when it is true, and take it as a premise. Each has a line in
tools/statement_words.txt.
"""
from __future__ import annotations

import argparse
import os
import re
import sys
from dataclasses import dataclass, field
from typing import Iterator

sys.dont_write_bytecode = True
from shared.crates import listed
from shared.files import TOP, files_below, read, write

PAGE = os.path.join(TOP, "docs", "STATEMENT.md")
README = os.path.join(TOP, "README.md")
NAME = r"[A-Za-z_][A-Za-z_0-9]*'?"
USE = re.compile(r"^\s*(?:ghost |pub )*use (Rattle|native|Prim|lib)\.([A-Za-z0-9_.+]+?)\.\{([^}]*)\}", re.M)
IN_README = re.compile(r"rest on \d+ lines of definitions")


def uses(text: str) -> dict[str, tuple[str, str]]:
    """What each name that a file brings in is called, and in which module."""
    found = {}
    for it in USE.finditer(text):
        for name in filter(None, (part.strip() for part in it[3].split(","))):
            there, _, here = name.partition(" as ")
            found[here or there] = (it[2] if it[1] == "Rattle" else f"{it[1]}.{it[2]}", there)
    return found


def words_in(text: str) -> set[str]:
    """The names and operators of a text, without its comments."""
    code = re.sub(r"(--|//).*", "", text)
    return set(re.findall(NAME, code)) | {f"◌{it}◌" for it in re.findall(r"[^\sA-Za-z0-9_(){}\[\];,.'\"]+", code)}


def indent(line: str) -> int:
    return len(line) - len(line.lstrip())


@dataclass
class Definition:
    """A definition of specs/, or the ghost members of a trait."""

    module: str
    names: list[str]
    lines: list[str]
    headers: tuple[str, ...] = ()
    words: set[str] = field(default_factory=set)


class Module:
    """A file of specs/: its definitions, in order, and what it uses."""

    def __init__(self, name: str, text: str) -> None:
        self.name, self.uses = name, uses(text)
        self.head = re.match(r"((?:--.*\n)*)", text)[1]
        self.definitions: list[Definition] = []
        body = re.sub(r"^(pub )?use [^{\n]*(\{[^}]*\})?.*\n", "", text[len(self.head):], flags=re.M)
        self.divide(body.split("\n"))

    def divide(self, lines: list[str]) -> None:
        headers: list[str] = []
        waiting: list[str] = []
        for block in paragraphs(lines):
            while headers and indent(headers[-1].split("\n")[-1]) >= indent(block[0]):
                headers.pop()
            code = [it for it in block if not it.lstrip().startswith("--")]
            if not code:
                waiting = [re.sub(r"-- ----\s*", "-- ", it) for it in block if re.search(r"\w", it)]
                continue
            if re.match(r"\s*(pub )?module .*where$", code[0]):
                headers.append("\n".join([*waiting, *block[: block.index(code[0]) + 1]]))
                waiting = []
                block = block[block.index(code[0]) + 1:]
                if not block:
                    continue
            self.add(waiting + block, tuple(headers))
            waiting = []

    def add(self, lines: list[str], headers: tuple[str, ...]) -> None:
        code = [it for it in lines if not it.lstrip().startswith("--")]
        head = re.compile(rf"\s*(?:(?:pub|abbrev|unfoldable|data|record|opaque)\s+)*({NAME}|◌[^\s]+◌)(?=\s*[:(]|\s+[:({{])")
        # A record's fields are known by the record's name.
        is_record = any(re.match(r"\s*(pub )?record ", it) for it in code)
        names = list(dict.fromkeys(it[1] for line in code[: 1 if is_record else None] if (it := head.match(line))))
        self.definitions.append(Definition(self.name, names, lines, headers, words_in("\n".join([*headers, *lines]))))


def paragraphs(lines: list[str]) -> list[list[str]]:
    """Runs of lines that aren't blank; a mutual block is one."""
    found: list[list[str]] = []
    is_open = -1
    for block in filter(None, (it.strip("\n").split("\n") for it in re.split(r"\n\s*\n", "\n".join(lines)) if it.strip())):
        if is_open >= 0 and indent(block[0]) > is_open:
            found[-1] += ["", *block]
            continue
        found.append(block)
        heads = [it for it in block if re.match(r"\s*(abbrev |unfoldable )*mutual$", it)]
        is_open = indent(heads[0]) if heads else -1
    return found


@dataclass
class Trait:
    """A trait of the code: its ghost members, and the traits above it."""

    members: list[Definition]
    above: list[str]


class Sources:
    """The libraries' specs/, and what their code declares."""

    def __init__(self) -> None:
        self.states = states()
        self.crates = [it for it in listed(os.path.join(TOP, "crates.txt")) if it.startswith("rmp_")]
        self.modules: dict[str, Module] = {}
        self.code: dict[str, str] = {}
        for crate in self.crates:
            for file in files_below("crates", crate, "specs", ending=".antt"):
                path = os.path.relpath(file, os.path.join(TOP, "crates", crate, "specs"))[: -len(".antt")]
                name = f"{crate}.specs.{path.replace(os.sep, '.')}"
                self.modules[name] = Module(name, read(file))
            for file in files_below("crates", crate, "src", ending=".rt"):
                self.code[os.path.relpath(file, TOP)] = read(file)
        self.traits = {name: it for file, text in self.code.items() for name, it in traits(file, text)}
        self.where = {(m.name, name): it for m in self.modules.values() for it in m.definitions for name in it.names}

    def find(self, module: str, word: str, words: set[str], brought: dict[str, tuple[str, str]]) -> list[Definition]:
        """The definitions of a word, one of these, in a module that brought in these names."""
        there, name = (module, word) if (module, word) in self.where else brought.get(word, ("", ""))
        declared = re.search(r"specs\.declared\.(?:.*\.)?(\w+)$", there)
        if declared and name == "Ghosts":
            return self.members(declared[1], words)
        it = self.where.get((there, name))
        return [it] if it and name not in self.states else []

    def members(self, trait: str, words: set[str]) -> list[Definition]:
        """The ghost members of a trait, and of those above it, that are named by one of these words."""
        it = self.traits.get(trait)
        return [*(x for x in it.members if x.names[0] in words), *(y for x in it.above for y in self.members(x, words))] if it else []

    def below(self, starts: list[Definition]) -> list[Definition]:
        """These definitions and all that they rest on, each after what it rests on."""
        found: list[Definition] = []
        seen: set[int] = set()

        def visit(it: Definition) -> None:
            if id(it) in seen:
                return
            seen.add(id(it))
            for next_one in self.rests_on(it):
                visit(next_one)
            found.append(it)

        for it in starts:
            visit(it)
        return found

    def rests_on(self, it: Definition) -> list[Definition]:
        brought = self.modules[it.module].uses if it.module in self.modules else uses(self.code[it.module])
        return [x for word in sorted(it.words) for x in self.find(it.module, word, it.words, brought) if x is not it]


def traits(file: str, text: str) -> Iterator[tuple[str, Trait]]:
    """The traits of a file, by name, with their ghost members and the comments above these."""
    for it in re.finditer(r"^pub trait (\w+)([^{]*)\{\n(.*?)^\}", text, re.M | re.S):
        members = []
        for member in re.finditer(r"((?:^    //[^/\n][^\n]*\n)*)^    (ghost (?!use)(\w+).*?;)\n", it[3], re.M | re.S):
            lines = [x.replace("//", "--", 1) for x in member[1].splitlines()] + ["    " + x for x in member[2].split("\n")]
            members.append(Definition(file, [member[3]], lines, (f"-- of the trait `{it[1]}`",), words_in("\n".join(lines))))
        yield it[1], Trait(members, re.findall(r"\b([A-Z]\w+)", it[2]))


def states() -> dict[str, str]:
    """The states, and what each says."""
    rows = re.findall(r"^state (\w+): (.+)$", read("tools", "statement_words.txt"), re.M)
    return dict(rows)


@dataclass
class Clause:
    """A clause of a public function, as it is in the code."""

    file: str
    function: str
    signature: str
    text: str


def function_in(sources: Sources, name: str) -> tuple[str, str]:
    """The file and the contract of a public function. Before its name may be its module, its crate's short name or its type."""
    owner, _, last = name.rpartition("::")
    for file, text in sources.code.items():
        for it in re.finditer(rf"^( *)pub (?:const )?fn {last}\b.*?^\1\{{", text, re.M | re.S):
            homes = {os.path.splitext(os.path.basename(file))[0], *re.findall(r"[a-z]+", file)}
            impl = re.findall(r"^impl[^\n{]*?\b(\w+)(?:<[^{\n]*)? \{", text[: it.start()], re.M) if it[1] else [""]
            if (impl[-1:] == [owner]) if it[1] else (not owner or owner in homes):
                return file, it[0]
    raise SystemExit(f"statement: README names {name}, which isn't a public function")


def clause_in(contract: str, name: str) -> str:
    """The clause of this name, with the comment above it."""
    start = re.search(rf"((?:^ *//.*\n)*)^( *)ensures\*? {name} (?=\{{)", contract, re.M)
    if not start:
        raise SystemExit(f"statement: there is no clause {name} in {contract.split('(')[0].strip()}")
    depth, at = 1, start.end() + 1
    while depth:
        depth += {"{": 1, "}": -1}.get(contract[at], 0)
        at += 1
    return contract[start.start(): at]


def flush(text: str) -> str:
    """The text, moved to the left margin."""
    lines = text.split("\n")
    by = min(indent(it) for it in lines if it.strip())
    return "\n".join(it[by:] for it in lines)


class Statement:
    """The promises of README's table, and what they rest on."""

    def __init__(self, sources: Sources) -> None:
        self.sources = sources
        self.promises: list[tuple[str, list[Clause]]] = []
        starts: list[Definition] = []
        for promise, where in re.findall(r"^\| (.+?) \| (`.+?) \|$", read("README.md"), re.M):
            clauses = []
            for name, named in re.findall(r"`([\w:]+)`: ((?:`\w+`(?:, )?)+)", where):
                file, contract = function_in(sources, name)
                signature = re.split(r"\n *(?://|where|ensures|requires|\{)", contract, maxsplit=1)[0]
                text = "\n".join(clause_in(contract, it) for it in re.findall(r"`(\w+)`", named))
                clauses.append(Clause(file, name, signature, text))
                brought = uses(sources.code[file])
                words = words_in(text)
                starts += [it for word in sorted(words) for it in sources.find(file, word, words, brought)]
                starts += [it for word in re.findall(r"\w+", contract) for it in sources.members(word, words)]
            self.promises.append((promise, clauses))
        self.definitions = sources.below(starts)

    def lines(self) -> int:
        return sum(1 for it in self.definitions for line in it.lines if line.strip())

    def modules(self) -> list[list[Definition]]:
        """The definitions by module, each module after those that it rests on, and in each as they are in its file."""
        homes: dict[str, list[Definition]] = {}
        for it in self.definitions:
            homes.setdefault(it.module, []).append(it)
        for name, found in homes.items():
            if name in self.sources.modules:
                found.sort(key=self.sources.modules[name].definitions.index)
        ordered: list[str] = []

        def visit(name: str, above: tuple[str, ...]) -> None:
            if name in ordered or name in above:
                return
            for below in sorted({x.module for it in homes[name] for x in self.sources.rests_on(it)} & set(homes)):
                visit(below, (*above, name))
            ordered.append(name)

        for name in homes:
            visit(name, ())
        return [homes[it] for it in ordered]

    def words(self) -> tuple[set[str], dict[str, str]]:
        """What of std the clauses and definitions use, and the types of the code with the files that they are in."""
        std: set[str] = set()
        types: dict[str, str] = {}
        places = [(it.module, it.words) for it in self.definitions]
        places += [(it.file, words_in(it.text)) for _, clauses in self.promises for it in clauses]
        for module, words in places:
            brought = self.sources.modules[module].uses if module in self.sources.modules else uses(self.sources.code[module])
            for word in words & set(brought):
                there, name = brought[word]
                declared = re.match(r"(rmp_\w+)\.specs\.declared\.(.+?)\.(\w+)(\.TheVariants)?$", there)
                if declared and name != "Ghosts":
                    types[declared[3]] = f"crates/{declared[1]}/src/{declared[2].replace('.', '/')}.rt"
                elif there.startswith("std."):
                    std.add(name)
        return std, types


def explained(std: set[str]) -> list[str]:
    """The lines of the words that are used."""
    found, rows = set(), []
    for line in filter(lambda it: it.strip() and not it.startswith(("#", "state ")), read("tools", "statement_words.txt").split("\n")):
        words, _, meaning = line.partition(": ")
        used = [it for it in words.split() if it in std or it in ("Type", "¬", "◌×◌")]
        found |= set(words.split())
        if used:
            rows.append(f"| {' '.join(f'`{it.strip(chr(0x25cc))}`' for it in words.split())} | {meaning} |")
    lacking = sorted(std - found)
    if lacking:
        raise SystemExit(f"statement: tools/statement_words.txt has no line for {', '.join(lacking)}")
    return rows


def page(statement: Statement) -> str:
    std, types = statement.words()
    out = [
        "# What has to be believed",
        "",
        "(`tools/statement.py --write` writes this page from the sources.)",
        "",
        f"README's table has {len(statement.promises)} promises. Each is a clause of a public function, and the check proves the function against it. So who",
        "believes the table's words has to read these clauses, and the definitions that they rest on. That is all of this page:",
        f"{statement.lines()} lines in {len(statement.definitions)} definitions. Nothing else of `specs/` and nothing of `proofs/` has to be believed.",
        "",
        "## Words of std",
        "",
        "A clause is a statement about a call: `x.old` and `x.new` are what a `&mut` refers to before and after it, and `result` is what it",
        "returns. `(x : A) → B` says B for every x, and `A → B` that B follows from A. A `record` is true where each of its fields is, so a",
        "field that isn't a statement says that there is such a value.",
        "",
        "| Word | Meaning |",
        "|---|---|",
        *explained(std),
        "",
        "## The promises",
    ]
    for number, (promise, clauses) in enumerate(statement.promises, 1):
        out += ["", f"### {number}. {promise}"]
        for it in clauses:
            out += ["", f"`{it.file}`:", "", "```", flush(it.signature), *("    " + x for x in flush(it.text).split("\n")), "```"]
    out += ["", "## States", ""]
    out += ["Of these no definition is needed. One clause above says when each becomes true, and another what follows from it.", ""]
    out += [f"- `{word}`: {says}" for word, says in statement.sources.states.items()]
    out += ["", "## The definitions"]
    for found in statement.modules():
        out += section(statement.sources, found)
    out += ["", "## Types of the code", "", "The definitions name these types, which are declared in the code:", ""]
    out += [f"- `{name}`: `{file}`" for name, file in sorted(types.items())]
    return "\n".join(out) + "\n"


def section(sources: Sources, found: list[Definition]) -> list[str]:
    """A module's definitions, below its name and its first comment."""
    name = found[0].module
    is_code = name not in sources.modules
    file = name if is_code else f"crates/{name.replace('.', '/')}.antt"
    head = [] if is_code else [it.lstrip("- ") for it in sources.modules[name].head.rstrip().split("\n")]
    out = ["", f"### `{file}`", "", *head, *([""] if head else []), "```"]
    headers: tuple[str, ...] = ()
    for number, it in enumerate(found):
        out += [""] * (number > 0)
        out += [x for x in it.headers if x not in headers]
        headers = it.headers
        out += it.lines
    return [*out, "```"]


def main() -> int:
    arguments = argparse.ArgumentParser(description=__doc__, formatter_class=argparse.RawDescriptionHelpFormatter)
    arguments.add_argument("--write", action="store_true")
    arguments.add_argument("--check", action="store_true")
    given = arguments.parse_args()
    statement = Statement(Sources())
    sentence = f"rest on {statement.lines()} lines of definitions"
    old = []
    for file, text in ((PAGE, page(statement)), (README, IN_README.sub(sentence, read("README.md")))):
        if given.write:
            write(text, file)
        elif not os.path.exists(file) or read(file) != text:
            old.append(os.path.relpath(file, TOP))
    print(f"the {len(statement.promises)} promises {sentence}, in {len(statement.definitions)} definitions")
    if given.check and old:
        print(f"statement: old: {', '.join(old)}: run tools/statement.py --write", file=sys.stderr)
        return 1
    return 0


if __name__ == "__main__":
    sys.exit(main())
