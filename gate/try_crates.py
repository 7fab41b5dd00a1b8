"""Looks whether crates.txt and the folders of crates/ agree, whether each crate names what it is said to stand on,
whether each type and each definition has a name of its own, whether each clause is short, and whether each edit can be made.

usage: gate/try_crates

Each crate has a line, and a folder with its root file; each word behind the colon of a line stands as a word in a file of
that crate's src/, specs/ or proofs/. A name of a struct, an enum, a trait or a type in src/ stands once in the
repository; so does one of a definition of specs/, but for those of gate/same_names.txt, which has in how many files each of
them stands: no more may come, and where fewer are left it has to say so. What a clause of a function says has at most eight arguments: more of them are the parts of a state, which
has a name. Each line that an edit of wrong-bodies/, wrong-by-test/ or wrong-by-case/ takes away stands once in its file.
Then small repositories are looked at in which this is not so.
"""
import collections
import pathlib
import re
import sys
import tempfile
from collections.abc import Iterable, Iterator, Mapping

from gate import parsed
from gate.tried import TOP, whole
from tools import repository

WORD = re.compile(r"\w+")
ROOTS = ("src/lib.rt", "src/main.rt")
TYPE = re.compile(r"^(?:pub(?:\([\w ]+\))? )?(?:struct|enum|trait|type|union) (\w+)", re.M)
CLAUSE = re.compile(r"\b(?:ensures|requires)\b[*]?[^{;\n]*\{")
# The signs of clauses that stand between two applications, and brackets.
SIGN = re.compile(r"(?:λ[^.]*\. )|[()\[\]{};]|[^\s()\[\]{};]+")
BETWEEN = frozenset("≡ ≢ × ⊎ ↔ → ∷ ++ + - * / ^ == && || < ≤ > ≥ = : , ; if then else in ∸ λ".split())
MOST = 8
SAME_NAMES = "gate/same_names.txt"
EDITS = ("wrong-bodies", "wrong-by-test", "wrong-by-case")


def words_in(folder: pathlib.Path) -> set[str]:
    """The words of all that a proof of the crate in this folder reads."""
    files = [it for part in repository.PARTS for it in repository.files(folder / part)]
    return {word for it in files for word in WORD.findall(it.read_text(encoding="utf-8"))}


def faults_of(name: str, line: str, folder: pathlib.Path) -> list[str]:
    """What is wrong with the line of a crate whose folder is this one."""
    if not any((folder / it).is_file() for it in ROOTS):
        return [f"crates.txt has {name}, and there is no crates/{name} with {' or '.join(ROOTS)}"]
    found = words_in(folder)
    uses = line.partition(":")[2].replace(",", " ").split()
    return [f"crates.txt has {name} stand on {it}, which {name} never names" for it in uses if it not in found]


def types_in(top: pathlib.Path, lines: Iterable[str]) -> collections.defaultdict[str, collections.Counter[str]]:
    """The names of the types of the crates, each with the crates that declare it, one as often as it does."""
    found: collections.defaultdict[str, collections.Counter[str]] = collections.defaultdict(collections.Counter)
    for crate in lines:
        for file in (it for it in repository.files(top / "crates" / crate / "src") if it.suffix == ".rt"):
            for name in TYPE.findall(file.read_text(encoding="utf-8")):
                found[name][crate] += 1
    return found


def faults_of_type(name: str, found: collections.Counter[str]) -> list[str]:
    """What is wrong with a type's name, by the crates that declare it."""
    if sum(found.values()) < 2:
        return []
    return [f"{name} names several types, in {', '.join(sorted(found.elements()))}: give each a name of its own"]


def definitions_in(top: pathlib.Path, lines: Iterable[str]) -> dict[str, list[str]]:
    """The names of the definitions of the crates, each with the files in which it is defined."""
    found: dict[str, list[str]] = {}
    for crate in lines:
        for specs in parsed.specs_of(top / "crates" / crate):
            for name in parsed.unique(name for it in specs.definitions for name in it.names):
                found.setdefault(name, []).append(f"{crate}/{specs.path}")
    return found


def same_names(top: pathlib.Path) -> dict[str, int]:
    """The names of definitions that may stand in several files, each with in how many."""
    file = top / SAME_NAMES
    rows = file.read_text(encoding="utf-8").splitlines() if file.is_file() else []
    return {name: int(count) for name, count in (it.split() for it in rows if it and not it.startswith("#"))}


def faults_of_definition(name: str, files: list[str], most: int) -> list[str]:
    """What is wrong with a definition's name, by the files in which it is defined, and in how many it may be."""
    if len(files) > most:
        return [f"{name} is defined in {len(files)} files, and may be in {most} ({SAME_NAMES} has no more): {', '.join(files)}: "
                "give what is the same one place, and what is not another name"]
    if len(files) < most and most > 1:
        left = f"write {len(files)}" if len(files) > 1 else "take its line out"
        return [f"{SAME_NAMES} has {name} in {most} files, and it is in {len(files)}: {left}"]
    return []


def clauses_in(source: str) -> Iterator[tuple[int, str]]:
    """The clauses of functions in a source, each with the line at which it begins."""
    for found in CLAUSE.finditer(source):
        depth, end = 1, found.end()
        while depth and end < len(source):
            depth += {"{": 1, "}": -1}.get(source[end], 0)
            end += 1
        yield source.count("\n", 0, found.start()) + 1, source[found.end() : end - 1]


def widths_of(clause: str) -> list[tuple[str, int]]:
    """What is applied in a clause, each with the number of its arguments. What stands in brackets is one of them."""
    stack: list[list[str]] = [[]]
    found: list[tuple[str, int]] = []
    for sign in [*SIGN.findall(clause), ")"]:
        if sign in BETWEEN or sign in tuple(")]};") or sign.startswith("λ"):
            found += [(stack[-1][0], len(stack[-1]) - 1)] if stack[-1] else []
            stack[-1] = []
        if sign in tuple(")]}") and len(stack) > 1:
            stack.pop()
            stack[-1].append("()")
        elif sign in tuple("([{"):
            stack.append([])
        elif not (sign in BETWEEN or sign in tuple(")]};") or sign.startswith("λ")):
            stack[-1].append(sign)
    return found


def faults_of_clauses(top: pathlib.Path, crate: str) -> Iterator[str]:
    """Which clauses of the functions of a crate have something of too many arguments."""
    for file in (it for it in repository.files(top / "crates" / crate / "src") if it.suffix == ".rt"):
        for line, clause in clauses_in(file.read_text(encoding="utf-8")):
            for name, width in widths_of(clause):
                if width > MOST:
                    place = file.relative_to(top / "crates")
                    yield f"{place}:{line}: {name} has {width} arguments, and may have {MOST}: give a state a name"


def faults_of_edits(top: pathlib.Path, crate: str) -> Iterator[str]:
    """Which edits of a crate cannot be made. Each pair of lines applies to what the earlier ones of its edit made."""
    for path in (it for folder in EDITS for it in repository.files(top / "crates" / crate / folder) if it.suffix == ".edit"):
        texts: dict[pathlib.Path, str] = {}
        file, old, name = pathlib.Path(), "", path.relative_to(top / "crates")
        for line in path.read_text(encoding="utf-8").splitlines():
            key, _, text = line.partition(": ")
            if key == "file":
                file = top / "crates" / crate / text.strip()
                if not file.is_file():
                    yield f"{name}: there is no file {text.strip()}"
                    break
                texts.setdefault(file, file.read_text(encoding="utf-8"))
            elif key == "old":
                old = text
                if texts[file].count(old) != 1:
                    yield f"{name}: stands {texts[file].count(old)} times: {old.strip()}"
                    break
            elif key == "new":
                texts[file] = texts[file].replace(old, text)


def faults_in(top: pathlib.Path) -> dict[str, list[str]]:
    """What is wrong with the crates of the repository at this folder and its types, by their names."""
    lines = repository.crates(top)
    said = {name: faults_of(name, line, top / "crates" / name) for name, line in lines.items()}
    for name in lines:
        said[f"the clauses of {name}"] = list(faults_of_clauses(top, name))
        said[f"the edits of {name}"] = list(faults_of_edits(top, name))
    for it in sorted((top / "crates").iterdir()):
        # What was built of a crate may outlive it.
        if it.is_dir() and it.name not in lines and any(at.name != "out" for at in it.iterdir()):
            said[it.name] = [f"crates.txt has no line for crates/{it.name}"]
    found = types_in(top, lines)
    for name in sorted(found):
        said[f"the type {name}"] = faults_of_type(name, found[name])
    defined, may = definitions_in(top, lines), same_names(top)
    for name in sorted({*defined, *may}):
        said[f"the definition {name}"] = faults_of_definition(name, defined.get(name, []), may.get(name, 1))
    return said


# What is spoilt in a small repository, its crates.txt, and what has to be said.
FILES = {"low/src/lib.rt": "pub fn one() {}", "top/src/main.rt": "use low::one;", "top/proofs/Lib.antt": "import std"}
TYPES = {
    "low/src/lib.rt": "pub fn one() {}\npub struct Row {\n}\n// struct Path\n",
    "low/src/more.rt": "pub(crate) enum Row<'a> {}\n    type Item = Row;\n",
    "top/src/main.rt": "use low::one;\ntrait Row {}\npub struct Path(u8);\nfn rows() {}\n",
}
CLAUSES = {
    "low/src/lib.rt": """pub fn one(rows: &[u8])
    requires few { Are (length rows.now) 1 2 3 4 5 6 7 }
    ensures { IfOk result (λ r. Are r 1 2 3 4 5 6 (7 ∷ []) 8) × (
        Are 1 2 3 4 5 (record { a = 6; b = 7; }) 8 9 ≡ none) }
{
    two(1, 2, 3, 4, 5, 6, 7, 8, 9)
}
""",
}
DEFINED = {
    "low/specs/One.antt": "-- a number\nabbrev pub IsOne : ℕ → Type 0\nIsOne n = n ≡ 1\n",
    "top/specs/Two.antt": "use Rattle.low.specs.One.{IsOne}\n\npub record IsOne (n : ℕ) : Type 0 where\n  pub IsTwo : n ≡ 2\n\nIsTwo : ℕ\n",
}
SEVERAL = "IsOne is defined in 2 files, and may be in 1 (gate/same_names.txt has no more): low/specs/One.antt, top/specs/Two.antt: "
EDIT = "clause: ensures of one\nfile: src/lib.rt\nold: {old}\nnew: pub fn two() {{}}\n"
SPOILT: tuple[tuple[str, Mapping[str, str], str, list[str]], ...] = (
    ("nothing", FILES, "low:\ntop: low std\n", []),
    ("a crate that is not named", FILES, "low:\ntop: low std regex\n", ["crates.txt has top stand on regex, which top never names"]),
    ("a part of a word", {**FILES, "top/src/main.rt": "use lower::one;"}, "low:\ntop: low\n",
     ["crates.txt has top stand on low, which top never names"]),
    ("a file that no proof reads", {**FILES, "top/wrong-bodies/it.edit": "file: src/main.rt\nold: one\nnew: regex"}, "low:\ntop: low regex\n",
     ["crates.txt has top stand on regex, which top never names"]),
    ("a folder that is missing", FILES, "low:\ntop: low\ntop_vectors: low\n",
     ["crates.txt has top_vectors, and there is no crates/top_vectors with src/lib.rt or src/main.rt"]),
    ("a line that is missing", FILES, "top: low std\n", ["crates.txt has no line for crates/low"]),
    ("what was built of a crate that is gone", {**FILES, "gone/out/log": ""}, "low:\ntop: low\n", []),
    ("a clause that is long", {**FILES, **CLAUSES}, "low:\ntop: low\n",
     ["low/src/lib.rt:3: Are has 9 arguments, and may have 8: give a state a name"]),
    ("an edit", {**FILES, "low/wrong-bodies/it.edit": EDIT.format(old="pub fn one() {}")}, "low:\ntop: low\n", []),
    ("an edit of a line that is gone", {**FILES, "low/wrong-bodies/it.edit": EDIT.format(old="pub fn none() {}")}, "low:\ntop: low\n",
     ["low/wrong-bodies/it.edit: stands 0 times: pub fn none() {}"]),
    ("an edit of a file that is gone", {**FILES, "top/wrong-by-case/it.edit": "file: src/gone.rt\nold: a\nnew: b\n"}, "low:\ntop: low\n",
     ["top/wrong-by-case/it.edit: there is no file src/gone.rt"]),
    ("types of one name", {**FILES, **TYPES}, "low:\ntop: low\n",
     ["Row names several types, in low, low, top: give each a name of its own"]),
    ("definitions of one name", {**FILES, **DEFINED}, "low:\ntop: low\n",
     [f"{SEVERAL}give what is the same one place, and what is not another name"]),
    ("definitions of one name that are listed", {**FILES, **DEFINED, SAME_NAMES: "# names\n\nIsOne 2\n"}, "low:\ntop: low\n", []),
    ("fewer definitions than are listed", {**FILES, **DEFINED, SAME_NAMES: "IsGone 2\nIsOne 3\n"}, "low:\ntop: low\n",
     ["gate/same_names.txt has IsGone in 2 files, and it is in 0: take its line out",
      "gate/same_names.txt has IsOne in 3 files, and it is in 2: write 2"]),
)


def spoilt_faults(files: Mapping[str, str], lines: str) -> list[str]:
    """What is said of a small repository."""
    with tempfile.TemporaryDirectory(prefix="crates-") as folder:
        top = pathlib.Path(folder)
        placed = {it if it.startswith("gate/") else f"crates/{it}": text for it, text in files.items()}
        for name, text in {**placed, "crates.txt": lines}.items():
            (top / name).parent.mkdir(parents=True, exist_ok=True)
            (top / name).write_text(text, encoding="utf-8")
        return [line for said in faults_in(top).values() for line in said]


def main() -> int:
    if sys.argv[1:]:
        print(__doc__, file=sys.stderr)
        return 2
    said = faults_in(TOP)
    for what, files, lines, wanted in SPOILT:
        found = spoilt_faults(files, lines)
        said[what] = [] if found == wanted else [f"of a small repository with {what} is said {found}, and not {wanted}"]
    for line in (line for lines in said.values() for line in lines):
        print(line)
    failed = sum(bool(it) for it in said.values())
    print(f"try_crates: {len(said) - failed} passed, {failed} failed")
    return 1 if failed else 0


load_tests = whole(main)
