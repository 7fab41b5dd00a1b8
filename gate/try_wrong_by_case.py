"""Tries the wrong bodies that the prover lets through and a case has to catch: edits crates/NAME/wrong-by-case/*.edit.

usage: gate/try_wrong_by_case [CRATE|CRATE/EDIT ..]

An edit names a case (`case: FILE: TITLE`), all lines in which the wrong answer differs from the right one (`gone: LINE`,
which is expected, and `told: LINE`, which stands there then; each `gone:` in their order, and so each `told:`), and then
files with the lines that go and those that come, as an edit of wrong-by-test/ does (`file:`, `old:`, `new:`), each line
to go standing once in its file.

An edit that names a case of cases/serve tells no lines: what a client hears then ends the case, or is the whole of it.
That case has to fail by gate/run_sessions where the edit is on, and to pass where none is. These edits stand in one
program, each of them off (gate/switched.py); one that cannot be put off has a program of its own.

Other edits, of different lines, each with a case of its own, stand in one program: it is built in a temporary copy of
the repository as tools/make_ready builds it, but not optimized, in minutes, and proves nothing. Each case has to fail
there, and to differ in just the lines that its edit tells, so that no other edit can be why.
"""
import dataclasses
import difflib
import os
import pathlib
import re
import subprocess
import sys
import tempfile
from collections.abc import Callable, Iterable, Mapping
from typing import Any

from gate import cases, switched
from gate.tried import TOP
from tools import make_ready, ready, repository

FOLDER = "wrong-by-case"
SECONDS = 60


@dataclasses.dataclass
class Edit:
    """An edit: its name, its case, the lines that are to go from the answer and to come, and the changed lines by file."""

    name: str
    file: str = ""
    title: str = ""
    gone: list[str] = dataclasses.field(default_factory=list)
    told: list[str] = dataclasses.field(default_factory=list)
    changes: list[tuple[pathlib.Path, str, str]] = dataclasses.field(default_factory=list)

    def is_served(self) -> bool:
        """Whether its case is one of a server."""
        return self.file.startswith("cases/serve/")

    def marks(self) -> set[tuple[str | pathlib.Path, str]]:
        """What no other edit of the same program may have."""
        return {(self.file, self.title), *((file, old) for file, old, _ in self.changes)}


def read_edit(path: pathlib.Path) -> Edit:
    """The edit of this file. What stands behind a word and a space is the line, with the spaces that it begins with."""
    edit = Edit(f"{path.parent.parent.name}/{path.stem}")
    file: pathlib.Path | None = None
    old: str | None = None
    for line in path.read_text(encoding="utf-8").splitlines():
        key, _, text = line.partition(": ")
        if key == "case":
            edit.file, _, edit.title = text.partition(": ")
        elif key in ("gone", "told"):
            getattr(edit, key).append(text)
        elif key == "file":
            file = pathlib.Path(os.path.normpath(path.parent.parent / text)).relative_to(TOP)
        elif key == "old":
            old = text
        elif key == "new":
            assert file and old is not None, f"{path}: a line comes for none of a file"
            edit.changes.append((file, old, text))
    return edit


def fault_of(edit: Edit) -> str:
    """Why an edit cannot be tried, or nothing."""
    if not edit.changes or bool(edit.gone or edit.told) == edit.is_served():
        return "it changes no line, or tells no line of the answer, or one of a session"
    for file, old, _ in edit.changes:
        if (TOP / file).read_text(encoding="utf-8").count(old + "\n") != 1:
            return f"{file.name} has not once the line `{old.strip()}`"
    return "" if case_of(edit) else f"no case `{edit.title}` in {edit.file}"


def case_of(edit: Edit) -> Any:
    """The case that an edit names, or None."""
    path = TOP / edit.file
    if edit.is_served():
        return path.is_file() and f"=== {edit.title}\n" in path.read_text(encoding="utf-8")
    return next((it for it in cases.cases_of(path) if it.title == edit.title), None) if path.is_file() else None


def rounds_of(edits: Iterable[Edit]) -> list[list[Edit]]:
    """The edits that tell lines, in rounds: those of a round can be on in one program."""
    rounds: list[list[Edit]] = []
    for edit in edits:
        fits = [it for it in rounds if not any(edit.marks() & other.marks() for other in it)]
        if fits:
            fits[0].append(edit)
        else:
            rounds.append([edit])
    return rounds


def can_be_off(edit: Edit) -> bool:
    """Whether an edit can stand in a program and be off."""
    try:
        for file, old, new in edit.changes:
            switched.with_edits((TOP / file).read_text(encoding="utf-8"), [(1, old, new)])
    except switched.Unfit:
        return False
    return True


def on(edits: Iterable[Edit]) -> dict[pathlib.Path, str]:
    """What changes the sources so that these edits are on: the text of each of their files, as it then is."""
    texts: dict[pathlib.Path, str] = {}
    for file, old, new in (it for edit in edits for it in edit.changes):
        text = texts.get(file) or (TOP / file).read_text(encoding="utf-8")
        texts[file] = text.replace(old + "\n", new + "\n")
    return texts


def off(edits: Iterable[Edit]) -> dict[pathlib.Path, str]:
    """The same so that each of these edits is there and off; the first one has the number 1."""
    found: dict[pathlib.Path, list[tuple[int, str, str]]] = {}
    for number, edit in enumerate(edits, 1):
        for file, old, new in edit.changes:
            found.setdefault(file, []).append((number, old, new))
    return {file: switched.with_edits((TOP / file).read_text(encoding="utf-8"), changes) for file, changes in found.items()}


def built(texts: Mapping[pathlib.Path, str], folder: str) -> tuple[pathlib.Path | None, str]:
    """The program with these texts in place of files, and why there is none."""
    top = pathlib.Path(folder) / "repo"
    ready.copy_sources(top)
    for file, text in texts.items():
        (top / file).write_text(text, encoding="utf-8")
    try:
        return make_ready.built(pathlib.Path(folder), ready.PROGRAM, "-O0"), ""
    except ready.Stop as stop:
        return None, str(stop)


def answer(case: cases.Case, program: pathlib.Path) -> bytes:
    """What the program answers to a case: its output and its errors, where an input is named by its name."""
    with tempfile.TemporaryDirectory(prefix="cases-") as folder:
        placed = cases.Placed(case, program, folder)
        given = placed.file.read_bytes() if placed.file else placed.input
        ran = subprocess.run(placed.words, input=given, capture_output=True, cwd=TOP, timeout=SECONDS)
        return ran.stdout + ran.stderr.replace(os.fsencode(folder) + b"/", b"")


def differences(wanted: bytes, found: bytes) -> tuple[list[str], list[str]]:
    """The lines that only the first text has, and those that only the second one has, in their order."""
    a, b = wanted.decode(errors="replace").splitlines(), found.decode(errors="replace").splitlines()
    gone: list[str] = []
    told: list[str] = []
    for what, first, last, at, end in difflib.SequenceMatcher(None, a, b, autojunk=False).get_opcodes():
        if what != "equal":
            gone, told = gone + a[first:last], told + b[at:end]
    return gone, told


def passes(edit: Edit, program: pathlib.Path) -> tuple[bool, str]:
    """Whether the case of a server that an edit names passes, and what was said of it."""
    words: list[str | pathlib.Path] = [TOP / "gate" / "run_sessions", "--program", program, edit.title]
    ran = subprocess.run(words, stdin=subprocess.DEVNULL, capture_output=True, text=True)
    return not re.search(r": 0 passed, [1-9]\d* failed$", ran.stdout.strip()), ran.stdout[-500:]


def said_of(edit: Edit, program: pathlib.Path) -> str:
    """What is wrong with what the program answers to the case of an edit, or nothing."""
    if edit.is_served():
        is_passed, said = passes(edit, program)
        return f"its case passes:\n{said}" if is_passed else ""
    case = case_of(edit)
    try:
        gone, told = differences((case.output or b"") + case.error, answer(case, program))
    except (subprocess.TimeoutExpired, cases.BadCase, KeyError, OSError) as error:
        return str(error)
    if not gone and not told:
        return "its case passes"
    if (gone, told) == (edit.gone, edit.told):
        return ""
    return "its case fails otherwise:\n" + "\n".join([*(f"    gone: {it}" for it in gone), *(f"    told: {it}" for it in told)])


def try_switched(edits: Iterable[Edit], tell: Callable[[Edit, str], object]) -> None:
    """Tries edits that stand in one program, each of them off, and tells of each what is wrong."""
    with tempfile.TemporaryDirectory(prefix="wrong-by-case-") as folder:
        program, why = built(off(edits), folder)
        right = {}
        for number, edit in enumerate(edits, 1):
            if not program:
                tell(edit, f"no program with it was built:\n{why[-2000:]}")
                continue
            if edit.title not in right:
                right[edit.title], _ = passes(edit, program)
            with_it = pathlib.Path(folder) / f"pathserve-{number}"
            switched.put_on(program, number, with_it)
            tell(edit, said_of(edit, with_it) if right[edit.title] else "its case fails where it is off")
            with_it.unlink()


def main() -> int:
    os.chdir(TOP)
    lines = repository.crates()
    names = sys.argv[1:] or [it for it in lines if (TOP / "crates" / it / FOLDER).is_dir()]
    edits = []
    for word in names:
        name, _, stem = word.partition("/")
        paths = repository.files(TOP / "crates" / name / FOLDER)
        edits += [read_edit(path) for path in paths if stem in ("", path.stem)]
    said = {}

    def tell(edit: Edit, fault: str) -> None:
        """Says what is wrong with an edit, as soon as it is known."""
        said[edit.name] = fault
        print(f"{edit.name}: {fault or 'caught by its case'}", flush=True)

    fit = []
    for edit in edits:
        if fault := fault_of(edit):
            tell(edit, fault)
        else:
            fit.append(edit)
    served = [it for it in fit if it.is_served()]
    together = [it for it in served if can_be_off(it)]
    if together:
        try_switched(together, tell)
    for edits_of_round in [*rounds_of([it for it in fit if not it.is_served()]), *([it] for it in served if it not in together)]:
        with tempfile.TemporaryDirectory(prefix="wrong-by-case-") as folder:
            program, why = built(on(edits_of_round), folder)
            for edit in edits_of_round:
                tell(edit, said_of(edit, program) if program else f"no program with it was built:\n{why[-2000:]}")
    failed = sum(bool(it) for it in said.values())
    print(f"try_wrong_by_case: {len(said) - failed} passed, {failed} failed")
    return 1 if failed or not said else 0
