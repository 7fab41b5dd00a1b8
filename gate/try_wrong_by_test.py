"""Tries the wrong bodies that the prover lets through and a test has to catch: edits crates/NAME/wrong-by-test/*.edit of a
test crate.

usage: gate/try_wrong_by_test [--look] [CRATE|CRATE/EDIT ..]

An edit names the test (`test: MODULE::NAME`), and then files with the lines that go and those that come, as an edit of
wrong-bodies/ does (`file:`, `old:`, `new:`), each line to go standing once in its file. The edits are tried in a
temporary copy of the repository by `rt try --test`, which compiles and proves nothing: that test has to fail. With
--look it only looks whether each edit applies, and its test is there.
"""
import os
import pathlib
import re
import shutil
import subprocess
import sys
import tempfile

from gate.tried import TOP
from tools import repository

FOLDER = "wrong-by-test"
SECONDS = 300
TOLD = re.compile(r"^test (\S+) \.\.\. (\w+)", re.M)

# A file of the repository, the line to go, and the one to come.
Change = tuple[pathlib.Path, str, str]


def read_edit(path: pathlib.Path) -> tuple[str, list[Change]]:
    """The test that an edit names, and its changes: a file of the repository with a line to go and one to come."""
    test: str | None = None
    file: pathlib.Path | None = None
    old: str | None = None
    changes: list[Change] = []
    for line in path.read_text(encoding="utf-8").splitlines():
        key, _, text = line.partition(": ")
        if key == "test":
            test = text
        elif key == "file":
            file = pathlib.Path(os.path.normpath(path.parent.parent / text))
        elif key == "old":
            old = text
        elif key == "new":
            assert file and old is not None, f"{path}: a line comes for none of a file"
            changes.append((file, old, text))
    assert test is not None, f"{path} names no test"
    return test, changes


def look_at(name: str, path: pathlib.Path) -> str | None:
    """Says what is wrong, where an edit does not apply, or its test is not there."""
    test, changes = read_edit(path)
    texts: dict[pathlib.Path, str] = {}
    for file, old, new in changes:
        text = texts.get(file) or file.read_text(encoding="utf-8")
        if text.count(old + "\n") != 1:
            return f"{file.name} has not once the line `{old.strip()}`"
        texts[file] = text.replace(old + "\n", new + "\n")
    module, _, function = test.partition("::")
    source = TOP / "crates" / name / "src" / f"{module}.rt"
    if not source.is_file() or f"fn {function}(" not in source.read_text(encoding="utf-8"):
        return f"there is no test {test}"
    return None


def try_edit(name: str, path: pathlib.Path, folder: str) -> str | None:
    """Says what is wrong, where the test does not fail under an edit."""
    test, changes = read_edit(path)
    top = pathlib.Path(folder)
    lines = repository.crates()
    for crate in [*repository.below(lines, name), name]:
        shutil.copytree(TOP / "crates" / crate, top / "crates" / crate, ignore=shutil.ignore_patterns("out", "wrong-bodies"))
    for file in ("crates.txt", "HANDLES"):
        shutil.copy(TOP / file, top)
    (top / "crates.txt").write_text("".join(f"{lines[it]}\n" for it in [*repository.below(lines, name), name]))
    for source, old, new in changes:
        at = top / source.relative_to(TOP)
        text = at.read_text(encoding="utf-8")
        if text.count(old + "\n") != 1:
            return f"{source.name} has not once the line `{old.strip()}`"
        at.write_text(text.replace(old + "\n", new + "\n"), encoding="utf-8")
    words = ["rt", "try", "--test", "--seconds", str(SECONDS)]
    ran = subprocess.run(words, cwd=top / "crates" / name, capture_output=True, text=True)
    told = dict(TOLD.findall(ran.stdout + ran.stderr))
    if test not in told:
        return "the test was not run:\n" + (ran.stdout + ran.stderr)[-2000:]
    return "its test passes" if told[test] == "ok" else None


def main() -> int:
    os.chdir(TOP)
    lines = repository.crates()
    looks = sys.argv[1:2] == ["--look"]
    names = sys.argv[1 + looks :] or [it for it in lines if (TOP / "crates" / it / FOLDER).is_dir()]
    passed = failed = 0
    for it in names:
        name, _, edit = it.partition("/")
        for path in repository.files(TOP / "crates" / name / FOLDER):
            if edit not in ("", path.stem):
                continue
            with tempfile.TemporaryDirectory() as folder:
                said = look_at(name, path) if looks else try_edit(name, path, folder)
            print(f"{name}/{path.stem}: {said or ('applies' if looks else 'caught by its test')}", flush=True)
            passed, failed = passed + (not said), failed + bool(said)
    print(f"try_wrong_by_test: {passed} passed, {failed} failed")
    return 1 if failed or not passed else 0
