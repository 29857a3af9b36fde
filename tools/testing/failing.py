"""Which tests of tests/programs/calls fail with the body of an edit, in a run that proves nothing.

Where the edit names its tests, only their files are compiled, with the libraries that these use: a tenth of the whole.
"""
import concurrent.futures
import os
import re
import subprocess
import tempfile

from lay_out import lay_out
from shared.crates import CRATES
from shared.files import TOP, read, write
from testing.edit import Edit, edits_of

CALLS = os.path.join(TOP, "tests", "programs", "calls")

MODULE = re.compile(r"^(?:#\[cfg\(test\)\]\n)?(?:pub )?mod (\w+);\n", re.M)
FAILED = re.compile(r"^test (?:\w+::)*(\w+) \.\.\. FAILED", re.M)
PASSED = re.compile(r"^test \S+ \.\.\. ok$", re.M)


def make(edit: Edit, folder: str) -> None:
    """Makes an edit in a crate's sources. What it changes of a proof isn't part of a run."""
    for path, old, new in edit.pairs:
        if path.startswith("src/"):
            whole = os.path.join(folder, path)
            write(read(whole).replace(old, new), whole)


def texts_below(folder):
    """The sources of a crate, by their modules' paths, where the root's is empty."""
    found = {}
    for at, _, files in os.walk(folder):
        for name in files:
            path = os.path.join(at, name)
            parts = os.path.relpath(path, folder)[: -len(".rt")].split(os.sep)
            found[() if parts == ["lib"] else tuple(parts)] = (path, read(path))
    return found


def uses(module, text):
    """The modules that a module names by 'super::' and 'crate::', and itself with those above it."""
    named = {module[:-1] + (name,) for name in re.findall(r"\bsuper::(\w+)", text)}
    named |= {(name,) for name in re.findall(r"\bcrate::(\w+)", text)}
    return named | {module[:i] for i in range(len(module) + 1)}


def cut_down(folder, names):
    """Leaves of the tests' crate, in a repository that was laid out, only the files of these tests, and the libraries that they use."""
    crate = os.path.join(folder, "crates", os.path.basename(CALLS))
    texts = texts_below(os.path.join(crate, "src"))
    left = {module for module, (_, text) in texts.items() if any(re.search(rf"\bfn {name}\b", text) for name in names)}
    kept = set()
    while left:
        module = left.pop()
        kept.add(module)
        left |= {it for it in uses(module, texts[module][1]) if it in texts and it not in kept}
    for module, (path, text) in texts.items():
        if module in kept:
            write(MODULE.sub(lambda found: found[0] if module + (found[1],) in kept else "", text), path)
        else:
            os.remove(path)
    spoken = " ".join(texts[module][1] for module in kept)
    lines = read(os.path.join(folder, "crates.txt")).split("\n")
    last = max(i for i, line in enumerate(lines) if line.startswith("calls:"))
    wanted = [it for it in lines[last].partition(":")[2].split() if re.search(rf"\b{it}\b", spoken)]
    write("\n".join([*lines[:last], f"calls: {' '.join(wanted)}", ""]), folder, "crates.txt")


def failing(edit: Edit) -> tuple[list[str], list[str]]:
    """The tests that fail with an edit's body, and what is wrong with the run."""
    if wrong := [*edit.misapplied()]:
        return [], wrong
    with tempfile.TemporaryDirectory() as folder:
        lay_out(folder, CALLS)
        if edit.tests:
            cut_down(folder, edit.tests)
        make(edit, os.path.join(folder, "crates", edit.crate))
        command = ["rt", "try", "--test", "--seconds", "240"]
        place = os.path.join(folder, "crates", os.path.basename(CALLS))
        ran = subprocess.run(command, cwd=place, stdout=subprocess.PIPE, stderr=subprocess.STDOUT, stdin=subprocess.DEVNULL, text=True, errors="replace")
    fail = FAILED.findall(ran.stdout)
    return fail, [] if fail or PASSED.search(ran.stdout) else [f"no test was run: {ran.stdout[-300:]}"]


def say_failing(names, jobs):
    """Runs the tests with the body of each of these edits, and says which fail. The status is 1 where one that an edit names doesn't."""
    edits = [edit for crate in sorted(os.listdir(CRATES)) for edit in edits_of(crate)]
    wanted = [edit for edit in edits if (edit.name in names if names else edit.tests)]
    is_wrong = not wanted
    with concurrent.futures.ThreadPoolExecutor(jobs) as pool:
        for edit, (fail, wrong) in zip(wanted, pool.map(failing, wanted)):
            wrong += [f"{it} DOESN'T FAIL with it" for it in sorted(set(edit.tests) - set(fail))]
            print(f"{edit.crate}/{edit.name}: {'; '.join([*wrong, 'these fail: ' + ' '.join(fail)])}", flush=True)
            is_wrong |= bool(wrong)
    return 1 if is_wrong else 0
