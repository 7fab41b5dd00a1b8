"""Compares what two states of the repository promise: all clauses of functions and traits, all ghost members of traits,
types and impls, and all definitions of specs/. For who moves code: what moved is the same, and what became weaker is told.

usage: gate/clauses_kept [--names FILE] OLD [NEW]

OLD and NEW are commits, or folders with crates/ in them; without NEW it is this checkout as it stands. Crates, modules and
files do not count, nor does how a file spells its imports: a name means what it was imported as. So where two definitions
have one name, it is told if a clause names the other one. FILE has what is called otherwise in NEW, a line `OLD NEW` each,
of any words: definitions, types, functions, fields.

It prints what stands in OLD alone (-), in NEW alone (+), and both where a thing of one name is not as it was; and at the
end what may only be called otherwise, as FILE would have it. A definition that stood in two files and stands in one is
kept; of clauses it counts how many there are. Not compared: signatures, types, bodies, proofs, and what the kit defines.
The last line counts; the exit status is 0 where nothing differs, 1 where something does, 2 where OLD or NEW is not there.
"""
import argparse
import collections
import dataclasses
import difflib
import io
import pathlib
import re
import subprocess
import sys
import tarfile
import tempfile
from collections.abc import Iterator, Mapping, Sequence

from gate import parsed
from gate.clauses import Clause, spelled
from gate.parsed import Definition, Specs, Stated
from gate.tried import TOP

NAMED = re.compile(r"(?:(?<![\w'.])([^\W\d][\w']*)\.)?(?<![\w'])([^\W\d][\w']*)")
# So alike are two texts of one name at least that are told as one that changed.
ALIKE = 0.3
# So often at most it looks whether definitions of one name mean the same.
ROUNDS = 8


@dataclasses.dataclass(frozen=True)
class Said:
    """A clause or a definition: what it is called, as it is compared, as it is told, and where it stands."""

    title: str
    meant: str
    text: str
    place: str


class Tree:
    """What a state of the repository says, before names that several definitions have are told apart."""

    def __init__(self, top: pathlib.Path) -> None:
        folders = [it for it in sorted((top / "crates").iterdir()) if it.is_dir()]
        self.sources = [source for it in folders for source in parsed.sources_of(it)]
        self.specs = [specs for it in folders for specs in parsed.specs_of(it)]
        self.named: dict[str, list[Definition]] = collections.defaultdict(list)
        self.at: dict[str, Definition] = {}
        for specs in self.specs:
            for it in specs.definitions:
                for name in it.names:
                    self.named[name].append(it)
                    self.at[f"{path_of(specs)}.{name}"] = it
        kinds = ("struct", "enum", "union")
        self.types = {it.name for source in self.sources for it in source.held if it.kind in kinds}
        # Which of the definitions of one name each is, by its place.
        self.which: dict[tuple[str, int], str] = {}

    def meant(self, text: str, imports: Mapping[str, str], own: "Specs | None") -> str:
        """A text in which each name that is imported, or of the file, stands as what it is."""
        there = {name: f"{path_of(own)}.{name}" for it in own.definitions for name in it.names} if own else {}

        def put(found: re.Match[str]) -> str:
            before, word = found[1], found[2]
            if before is None:
                path = imports.get(word) or there.get(word)
                return self.known_as(path, word) if path else word
            if before in imports:
                return self.known_as(f"{imports[before]}.{word}", word)
            return f"{self.known_as(there[before], before) if before in there else before}.{word}"

        return NAMED.sub(put, parsed.plain(text))

    def known_as(self, path: str, word: str) -> str:
        """A name, without the crate and the modules where it stands."""
        parts = path.split(".")
        if parts[:1] != ["Rattle"] or len(parts) < 3:
            return word
        if "declared" in parts:
            start = next((at for at, it in enumerate(parts) if it in self.types), len(parts) - 1)
            return ".".join(it for it in parts[start:] if it not in ("TheVariants", "TheInside"))
        for size in (len(parts), len(parts) - 1):
            if it := self.at.get(".".join(parts[:size])):
                name = parts[size - 1]
                return ".".join([self.which.get((name, id(it)), name), *parts[size:]])
        # (of the kit)
        return path if parts[1] == "std" else parts[-1]

    def said(self) -> Iterator[Said]:
        """All that it says."""
        for source in self.sources:
            where = f"crates/{source.crate}/{source.path}"
            for it in (it for it in source.functions if not it.is_test):
                rows = [(stated, "") for stated in it.stated] + [(stated, " (of a closure)") for stated in it.inner]
                for stated, more in rows:
                    title = spelled(Clause(stated.kind, stated.label, it.holder, it.name, "")) + more
                    yield self.one(title, stated, source.ghosts, f"{where}:{it.line}")
            for held in (it for it in source.held if not it.is_test):
                for stated in held.members:
                    by = f" by {held.trait}" if held.kind == "impl" and held.trait else ""
                    yield self.one(f"ghost {stated.kind} of {held.name}{by}", stated, source.ghosts, f"{where}:{held.line}")
        for specs in self.specs:
            for one in specs.definitions:
                meant = self.meant(one.text, specs.imports, specs)
                place = f"crates/{specs.crate}/{specs.path}:{one.line}"
                yield Said(f"definition {', '.join(one.names)}", meant, parsed.plain(one.text), place)

    def one(self, title: str, stated: Stated, imports: Mapping[str, str], place: str) -> Said:
        return Said(title, self.meant(stated.text, imports, None), stated.text, place)


def path_of(specs: Specs) -> str:
    return f"Rattle.{specs.crate}.{specs.path.removesuffix('.antt').replace('/', '.')}"


def tell_apart(old: Tree, new: Tree) -> None:
    """Gives each of several definitions of one name a number: the same to what is the same in both, or took its place. What
    has the same words is the same where all names in these mean the same, so it looks again until nothing changes."""
    files = {id(it): (tree, specs) for tree in (old, new) for specs in tree.specs for it in specs.definitions}
    texts = {id(it): parsed.plain(it.text) for tree in (old, new) for all_of in tree.named.values() for it in all_of}
    several = [name for name in {*old.named, *new.named} if max(len(old.named.get(name, [])), len(new.named.get(name, []))) > 1]
    for _ in range(ROUNDS):
        before = dict(old.which), dict(new.which)
        for name in several:
            number(name, old, new, texts)
        if before == (old.which, new.which):
            return
        for name in several:
            for it in (*old.named.get(name, []), *new.named.get(name, [])):
                tree, specs = files[id(it)]
                texts[id(it)] = tree.meant(it.text, specs.imports, specs)


def number(name: str, old: Tree, new: Tree, texts: Mapping[int, str]) -> None:
    """Numbers the definitions of one name, by these texts of them."""
    before, then = old.named.get(name, []), new.named.get(name, [])
    numbers: dict[str, int] = {}
    for it in before:
        numbers.setdefault(texts[id(it)], len(numbers) + 1)
    left = [it for it in before if texts[id(it)] not in {texts[id(one)] for one in then}]
    for it in then:
        if texts[id(it)] not in numbers:
            # What was changed where it stands, in its file or its crate, or is the only one that is left, is what it was.
            file = pathlib.PurePath(it.path).name
            same = next((one for one in left if (one.crate, one.path) == (it.crate, it.path)), None)
            same = same or next((one for one in left if one.crate == it.crate or pathlib.PurePath(one.path).name == file), None)
            same = same or (left[0] if len(left) == 1 else None)
            numbers[texts[id(it)]] = numbers[texts[id(same)]] if same else max(numbers.values(), default=0) + 1
            left = [one for one in left if one is not same]
    for tree, all_of in ((old, before), (new, then)):
        tree.which.update({(name, id(it)): f"{name}#{numbers[texts[id(it)]]}" for it in all_of})


def is_definition(title: str) -> bool:
    return title.startswith("definition ")


def differences(old: Tree, new: Tree) -> tuple[list[Said], list[Said]]:
    """What one says and the other does not. Of definitions it does not count how often."""
    tell_apart(old, new)
    sides = [list(old.said()), list(new.said())]
    counts = [collections.Counter((it.title, it.meant) for it in side) for side in sides]
    found: list[list[Said]] = [[], []]
    for at, side in enumerate(sides):
        more = counts[at] - counts[1 - at]
        for it in reversed(side):
            key = it.title, it.meant
            if more[key] and not (is_definition(it.title) and counts[1 - at][key]):
                more[key] -= 1
                found[at].append(it)
        found[at].reverse()
    return found[0], found[1]


def pairs_of(old: Sequence[Said], new: Sequence[Said]) -> tuple[list[tuple[Said, Said]], list[Said], list[Said]]:
    """What has one title in both, each with what is most like it; and what is left of each."""
    left: dict[str, list[Said]] = collections.defaultdict(list)
    for it in new:
        left[it.title].append(it)
    pairs: list[tuple[Said, Said]] = []
    alone: list[Said] = []
    for it in old:
        ranked = sorted(left[it.title], key=lambda one: -difflib.SequenceMatcher(None, it.text, one.text, False).ratio())
        if ranked and difflib.SequenceMatcher(None, it.text, ranked[0].text, False).ratio() >= ALIKE:
            left[it.title].remove(ranked[0])
            pairs.append((it, ranked[0]))
        else:
            alone.append(it)
    return pairs, alone, [it for it in new if it in left[it.title]]


def other_names(old: Sequence[Said], new: Sequence[Said]) -> list[str]:
    """What may only be called otherwise: definitions that differ in their names alone, each once, as a file of names has it."""
    def shape(it: Said) -> str:
        name = it.title.removeprefix("definition ")
        return re.sub(rf"(?<![\w']){re.escape(name)}(?:#\d+)?(?![\w'])", "?", it.meant)

    by_shape: dict[str, list[Said]] = collections.defaultdict(list)
    for it in new:
        if is_definition(it.title) and "," not in it.title:
            by_shape[shape(it)].append(it)
    rows: list[str] = []
    for it in old:
        if is_definition(it.title) and "," not in it.title and len(found := by_shape.get(shape(it), [])) == 1:
            names = [one.title.removeprefix("definition ") for one in (it, found[0])]
            rows += [" ".join(names)] if names[0] != names[1] else []
    return parsed.unique(rows)


# The two states.


def take(where: str, folder: pathlib.Path) -> "pathlib.Path | None":
    """The folder with crates/ of a commit, which is put into this folder, or of a folder; None where there is none."""
    if (pathlib.Path(where) / "crates").is_dir():
        return pathlib.Path(where)
    ran = subprocess.run(["git", "archive", "--format=tar", where, "crates"], cwd=TOP, stdin=subprocess.DEVNULL, capture_output=True)
    if ran.returncode:
        print(f"clauses_kept: {where} is no commit with crates, and no folder with them", file=sys.stderr)
        return None
    with tarfile.open(fileobj=io.BytesIO(ran.stdout)) as all_files:
        for it in all_files:
            path = folder / it.name
            if it.isfile() and path.suffix in (".rt", ".antt") and (file := all_files.extractfile(it)):
                path.parent.mkdir(parents=True, exist_ok=True)
                path.write_bytes(file.read())
    return folder


def call_otherwise(top: pathlib.Path, folder: pathlib.Path, names: Mapping[str, str]) -> pathlib.Path:
    """A copy of the sources in which each of these words is another one."""
    word = re.compile(r"[^\W\d][\w']*")
    for part in ("src", "specs"):
        for file in (top / "crates").glob(f"*/{part}/**/*"):
            if file.suffix in (".rt", ".antt"):
                path = folder / file.relative_to(top)
                path.parent.mkdir(parents=True, exist_ok=True)
                text = file.read_text(encoding="utf-8")
                path.write_text(word.sub(lambda it: names.get(it[0], it[0]), text), encoding="utf-8")
    return folder


def tell(old: Tree, new: Tree) -> bool:
    """Tells what differs, and whether anything does."""
    before, then = differences(old, new)
    changed, gone, came = pairs_of(before, then)
    for one, other in changed:
        print(f"{one.title}\n- {one.place}: {one.text}\n+ {other.place}: {other.text}")
        if one.text == other.text:
            print("  (the same words, and a name in them means another thing)")
    for sign, all_of in (("-", gone), ("+", came)):
        for it in all_of:
            print(f"{it.title}\n{sign} {it.place}: {it.text}")
    if rows := other_names(gone, came):
        print("these may only be called otherwise (--names FILE):")
        for row in rows:
            print(f"  {row}")
    counts = [f"{sum(len(it.stated) + len(it.inner) for source in tree.sources for it in source.functions if not it.is_test)} clauses "
              f"and {sum(len(it.definitions) for it in tree.specs)} definitions" for tree in (old, new)]
    print(f"clauses_kept: {counts[0]}, then {counts[1]}; {len(changed)} changed, {len(gone)} only before, {len(came)} only then")
    return bool(changed or gone or came)


def main() -> int:
    words = argparse.ArgumentParser(prog="clauses_kept", usage="gate/clauses_kept [--names FILE] OLD [NEW]")
    words.add_argument("--names")
    words.add_argument("old")
    words.add_argument("new", nargs="?", default=str(TOP))
    given = words.parse_args()
    with tempfile.TemporaryDirectory(prefix="clauses-kept-") as room:
        folders = [pathlib.Path(room) / it for it in ("old", "new", "named")]
        tops = [take(where, folder) for where, folder in zip((given.old, given.new), folders)]
        old, new = tops
        if not old or not new:
            return 2
        if given.names:
            lines = (it.split() for it in pathlib.Path(given.names).read_text(encoding="utf-8").splitlines())
            old = call_otherwise(old, folders[2], {it[0]: it[1] for it in lines if len(it) == 2})
        return 1 if tell(Tree(old), Tree(new)) else 0
