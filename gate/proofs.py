"""Makes docs/PROOFS.md and docs/PROOFS-SERVE.md: a row for each law, and for each clause that a promise names.

usage: gate/proofs            writes both pages
       gate/proofs --check    writes nothing; status 1 where a page is not what would be written, or a promise names what is not there

The words of promises are written by hand, in docs/PROMISES.md and docs/PROMISES-SERVE.md. They name a clause as
`CRATE::FUNCTION`: `LABEL`, a law, which is a public function without a body, as `CRATE::LAW`, and a definition as
`CRATE::Name`; several at once as `CRATE::{A, B}`. What a row says is read from the sources: of a law and of a definition the
comment above it, of a clause its text. A law that no promise names has a row of docs/PROOFS.md too. No row has the number of
a line.
"""
import argparse
import functools
import pathlib
import re
import sys
from collections.abc import Iterable, Iterator
from typing import NamedTuple

from gate import clauses
from gate.tried import TOP, given_words
from tools import repository

# The pages of words, and what is made of each; a law that neither names stands in the first.
PAGES = (("PROMISES.md", "PROOFS.md"), ("PROMISES-SERVE.md", "PROOFS-SERVE.md"))
# So many letters a cell has at most, with a sign for what is left out.
MOST = 300
# A bar within a cell.
BAR = r"\|"
HEAD = re.compile(r"\s*(pub(?:\([a-z]+\))? )?(?:unsafe |const )*fn (\w+)")
OWNER = re.compile(r"(?:impl|trait|pub trait)\b(.*)")
DEFINITION = re.compile(r"\s*(?:abbrev |unfoldable |mutual )*pub (?:record |data )?([A-Za-z_]\w*)\b")
# What a promise names: a crate, one name of it or several, and the labels behind it.
NAMED = re.compile(r"`([a-z]+_\w+|pathserve)::(?:\{([^}`]*)\}|((?:\w+::)*\w+))`((?:: `\w+`(?:, `\w+`)*)?)")


class Row(NamedTuple):
    """A law, a clause of a function, or a definition: its crate, what it is called, its text, and its file in the crate."""

    crate: str
    name: str
    label: str
    text: str
    file: str


class Function(NamedTuple):
    """A function of a source: its type or trait, its name, its clauses by their labels, the comment above, and its file."""

    owner: str
    name: str
    is_public: bool
    is_law: bool
    ensures: list[tuple[str, str]]
    comment: str
    file: str


def comment_above(lines: list[str], at: int, sign: str) -> str:
    """The comment that ends right above a line, but for attributes between them."""
    found: list[str] = []
    while at > 0 and (lines[at - 1].lstrip().startswith((sign, "#[")) or lines[at - 1].strip() in ("abbrev mutual", "mutual")):
        at -= 1
        if lines[at].lstrip().startswith(sign):
            found.insert(0, lines[at].strip().removeprefix(sign).strip())
    return " ".join(found)


def clause_from(source: str, start: int) -> str:
    """The text between the brace that ends before `start` and the one that closes it, in one line."""
    depth, end = 1, start
    while depth and end < len(source):
        depth += {"{": 1, "}": -1}.get(source[end], 0)
        end += 1
    return " ".join(source[start : end - 1].split())


def functions_in(source: str, file: str) -> Iterator[Function]:
    """The functions of a source that have a clause."""
    lines, owner = source.split("\n"), ""
    starts = [0]
    for line in lines:
        starts.append(starts[-1] + len(line) + 1)
    for at, line in enumerate(lines):
        if found := OWNER.match(line):
            owner = re.sub(r"<[^<>]*>", "", re.sub(r"<[^<>]*>", "", found[1]))
            owner = owner.partition(" for ")[2] or owner
            owner = owner.split("{")[0].split(":")[0].strip()
        elif line == "}":
            owner = ""
        head = HEAD.match(line)
        if not head:
            continue
        ensures, end = [], at
        while end < len(lines) and lines[end].strip() not in ("{", "{}") and not (end > at and HEAD.match(lines[end])):
            if clause := clauses.ENSURES.match(lines[end]):
                ensures.append((clause[1], clause_from(source, starts[end] + clause.end())))
            end += 1
        if ensures:
            is_law = end < len(lines) and lines[end].strip() == "{}"
            is_public = head[1] == "pub "
            yield Function(owner, head[2], is_public, is_law and is_public, ensures, comment_above(lines, at, "///"), file)


def functions_of(crate: pathlib.Path) -> list[Function]:
    """All functions of a crate that have a clause, in the order of their files."""
    found: list[Function] = []
    for path in repository.files(crate / "src"):
        if path.suffix == ".rt":
            found += functions_in(path.read_text(encoding="utf-8"), str(path.relative_to(crate)))
    return found


@functools.cache
def definitions_of(crate: pathlib.Path) -> dict[str, tuple[str, str]]:
    """The definitions of a crate: what the comment above says, and the file."""
    found: dict[str, tuple[str, str]] = {}
    for path in repository.files(crate / "specs"):
        lines = path.read_text(encoding="utf-8").split("\n")
        for at, line in enumerate(lines):
            named = DEFINITION.match(line)
            if named and not line.startswith("  ") or named and at and lines[at - 1].strip().startswith("abbrev mutual"):
                found.setdefault(named[1], (comment_above(lines, at, "--"), str(path.relative_to(crate))))
    return found


def cut(text: str) -> str:
    """What there is room for of a text."""
    return text if len(text) <= MOST else text[: MOST - 3].rpartition(" ")[0] + " .."


def short(text: str) -> str:
    """A text for a cell: its first sentences, as many as there is room for; or what there is room for of the first."""
    said = ""
    for sentence in re.findall(r".+?[.:;](?= |$)|.+$", text):
        if len(said) + len(sentence) > MOST:
            break
        said += sentence
    return said.strip() or cut(text)


class Sources:
    """What the crates of the repository have to name: read when it is asked for first."""

    def __init__(self, top: pathlib.Path = TOP) -> None:
        self.top = top
        self.order = list(repository.crates(top))
        self.functions: dict[str, list[Function]] = {}
        self.definitions: dict[str, dict[str, tuple[str, str]]] = {}

    def read(self, crate: str) -> None:
        if crate not in self.functions:
            self.functions[crate] = functions_of(self.top / "crates" / crate)
            self.definitions[crate] = definitions_of(self.top / "crates" / crate)

    def laws(self) -> list[Row]:
        """A row for each law of each crate."""
        found: list[Row] = []
        for crate in self.order:
            self.read(crate)
            found += [law_row(crate, it) for it in self.functions[crate] if it.is_law]
        return found

    def rows(self, crate: str, name: str, labels: list[str]) -> list[Row]:
        """The rows of a name, with these labels behind it; none where there is no such thing."""
        self.read(crate)
        defined = self.definitions[crate].get(name)
        if defined and not labels:
            return [Row(crate, name, "", short(defined[0]), defined[1])]
        owner, _, own = name.rpartition("::")
        found = [it for it in self.functions[crate] if it.name == own and owner.rpartition("::")[2] in ("", it.owner)]
        found = [it for it in found if it.is_public] or found
        if laws := [it for it in found if it.is_law and not labels]:
            return [law_row(crate, it) for it in laws]
        rows = []
        for it in found:
            called = f"{it.owner}::{own}" if it.owner else own
            wanted = [(label, text) for label, text in it.ensures if label in labels or not labels]
            rows += [Row(crate, called, label, f"`{cut(text)}`", it.file) for label, text in wanted]
        return rows if set(labels) <= {it.label for it in rows} else []


def law_row(crate: str, law: Function) -> Row:
    return Row(crate, law.name, "", short(law.comment) or f"`{cut(law.ensures[0][1])}`", law.file)


def names_in(text: str) -> Iterator[tuple[int, str, str, list[str]]]:
    """What a page of promises names: the line, the crate, the name and the labels behind it."""
    for number, line in enumerate(text.split("\n"), 1):
        for crate, several, one, behind in NAMED.findall(line):
            labels = re.findall(r"\w+", behind)
            for name in [it.strip() for it in several.split(",")] if several else [one]:
                yield number, crate, name, labels


def page_of(title: str, words: str, order: list[str], rows: Iterable[Row]) -> str:
    """A page of rows, by their crates."""
    said = f"# {title}\n\n"
    said += f"Made by `gate/proofs` of the sources and of what docs/{words} names: that page has the words, here is where each\n"
    said += "stands. A law is a function without a body, whose contract it is; a clause is named by its function and label.\n"
    said += "Files are in `crates/NAME/`.\n"
    kept = list(dict.fromkeys(rows))
    for crate in order:
        own = sorted((it for it in kept if it.crate == crate), key=lambda it: (it.file, kept.index(it)))
        if own:
            said += f"\n## `{crate}`\n\n| Law, clause or definition | Says | File |\n|---|---|---|\n"
        for it in own:
            said += f"| `{it.name}`{f': `{it.label}`' if it.label else ''} | {it.text.replace('|', BAR)} | {it.file} |\n"
    return said


def pages(sources: Sources) -> tuple[dict[str, str], list[str]]:
    """The pages by their names, and what is wrong with those of the words."""
    wrong: list[str] = []
    named: dict[str, list[Row]] = {}
    for words, _ in PAGES:
        named[words] = []
        for number, crate, name, labels in names_in((sources.top / "docs" / words).read_text(encoding="utf-8")):
            rows = sources.rows(crate, name, labels) if crate in sources.order else []
            named[words] += rows
            if not rows:
                wrong.append(f"docs/{words}:{number}: there is no {crate}::{name}{': ' if labels else ''}{', '.join(labels)}")
    first, second = (named[words] for words, _ in PAGES)
    apart = [it for it in second if it not in first]
    rows_of = (first + [it for it in sources.laws() if it not in apart], apart)
    titles = ("The laws, and the clauses that promises name", "The laws and clauses of `serve`")
    made = {page: page_of(title, words, sources.order, rows) for (words, page), title, rows in zip(PAGES, titles, rows_of)}
    return made, wrong


def faults(sources: Sources) -> list[str]:
    """What is not as it would be written."""
    made, wrong = pages(sources)
    for name, text in made.items():
        path = sources.top / "docs" / name
        if not path.exists() or path.read_text(encoding="utf-8") != text:
            wrong.append(f"docs/{name}: not as the sources have it: gate/proofs makes it anew")
    return wrong


def main() -> int:
    words = argparse.ArgumentParser(usage=__doc__, add_help=False)
    words.add_argument("--check", action="store_true")
    said = words.parse_args(given_words())
    sources = Sources()
    if said.check:
        wrong = faults(sources)
    else:
        made, wrong = pages(sources)
        for name, text in made.items():
            (sources.top / "docs" / name).write_text(text, encoding="utf-8")
    for line in wrong:
        print(line, file=sys.stderr)
    print(f"proofs: {len(wrong)} wrong")
    return 1 if wrong else 0
