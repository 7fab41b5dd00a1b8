"""What stands in the sources of crates: functions with their clauses, the ghost members of traits, types and their impls,
and the definitions of specs/. It reads the texts alone, by their brackets and names, and knows nothing of what they mean."""
import dataclasses
import pathlib
import re
from collections.abc import Iterable, Iterator
from typing import TypeVar

from tools import repository

T = TypeVar("T")
PIECE = repository.PIECE
CLAUSES = ("ensures", "requires", "invariant", "decreases")
# What may stand before `fn`, `struct` and the like at the head of an item.
KINDS = ("fn", "struct", "enum", "union", "trait", "impl", "mod", "use", "const", "static", "type", "ghost", "extern")
# Where a definition begins, the line by which its name is declared, and the names of several that stand together.
BEGINS = re.compile(r"(?:abbrev|pub|record|data|unfoldable|opaque|mutual|given|let)\b|[^\s:({=|]+ : ")
DECLARES = re.compile(r"(?:(?:pub|abbrev|record|data|mutual|unfoldable|opaque|given|let) )*([^\s:({=]+)")
TOGETHER = re.compile(r"^  (?:(?:pub |record |data |abbrev )+([^\s:({=]+)|([^\s:({=]+) :)", re.M)


def plain(text: str) -> str:
    """A text in which no two spaces stand together."""
    return " ".join(text.split())


@dataclasses.dataclass(frozen=True)
class Stated:
    """What a contract, a trait, a type or an impl states: `ensures` and the like, or the name of a ghost member with no
    label; its label, if it has one; and its text."""

    kind: str
    label: str
    text: str


@dataclasses.dataclass
class Function:
    """A function: where it stands, the type or trait of whose it is, the trait by whose impl, and what it says."""

    crate: str
    path: str
    module: tuple[str, ...]
    holder: str
    trait: str
    name: str
    is_public: bool
    is_test: bool
    line: int
    head: str
    stated: list[Stated]
    # None where it has none, as in a trait.
    body: "str | None"
    # What the impl or trait around it says of types, and what closures in its body state.
    around: str = ""
    inner: list[Stated] = dataclasses.field(default_factory=list)

    def title(self) -> str:
        whose = f"{self.holder}::" if self.holder else ""
        by = f" ({self.trait})" if self.trait and self.trait != self.holder else ""
        return f"{'::'.join((self.crate, *self.module))}::{whose}{self.name}{by}"

    def ensures(self) -> list[Stated]:
        return [it for it in self.stated if it.kind == "ensures"]

    def size(self) -> int:
        """How many lines its body has, without those that are blank."""
        return sum(bool(it.strip()) for it in (self.body or "").split("\n"))


@dataclasses.dataclass
class Held:
    """A type or a trait, or an impl of a trait for a type, with its ghost members and fields; and its text."""

    kind: str
    crate: str
    path: str
    name: str
    trait: str
    line: int
    is_test: bool
    members: list[Stated]
    text: str


@dataclasses.dataclass
class Source:
    """A source: its functions, what else it declares, its imports by the names that it gives them, and those of its other
    names (`type A = B;`)."""

    crate: str
    path: str
    module: tuple[str, ...]
    functions: list[Function]
    held: list[Held]
    imports: dict[str, str]
    ghosts: dict[str, str]
    others: dict[str, str]
    has_tests: list[str]


def imports_in(text: str, joint: str) -> Iterator[tuple[str, str]]:
    """What the path of an import, without its `use`, gives names to: each name, and its whole path."""
    text = plain(text)
    found = re.fullmatch(r"(.*?)\{(.*)\}", text, re.S)
    items = apart(found[2]) if found else [text]
    before = found[1] if found else ""
    for it in items:
        if "{" in it:
            yield from imports_in(before + it, joint)
            continue
        path, _, other = it.partition(" as ")
        path = (before + path).replace(" ", "")
        if path.endswith(f"{joint}self"):
            path = path[: -len(joint) - 4]
        yield (other.strip() or path.rpartition(joint)[2]), path


def apart(text: str) -> list[str]:
    """The parts of a text between the commas that stand outside of brackets."""
    found, depth = [""], 0
    for it in text:
        depth += (it in "([{") - (it in ")]}")
        if it == "," and not depth:
            found.append("")
        else:
            found[-1] += it
    return [it.strip() for it in found if it.strip()]


def without_generics(head: str) -> str:
    """The head of an impl without the parameters at its front."""
    head = head.strip()
    if not head.startswith("<"):
        return head
    depth = 0
    for at, sign in enumerate(head):
        depth += (sign == "<") - (sign == ">" and head[at - 1] not in "-=")
        if not depth:
            return head[at + 1 :].strip()
    return head


def head_of(type_text: str) -> str:
    """The name of a type, without its path and its arguments; empty where it has none, as a slice."""
    text = re.sub(r"&\s*(?:'\w+\s*)?(?:mut\b)?|\bdyn\b", "", type_text).strip()
    found = re.match(r"(?:\w+\s*::\s*)*(\w+)", text)
    return found[1] if found else ""


class Reader:
    """Reads one source."""

    def __init__(self, crate: str, path: str, text: str) -> None:
        self.crate, self.path, self.text = crate, path, text
        inside = pathlib.PurePath(path).with_suffix("").parts[1:]
        module = tuple(inside[:-1] if inside[-1] in ("lib", "main", "mod") else inside)
        self.source = Source(crate, path, module, [], [], {}, {}, {}, [])
        # The pieces, without comments, and the line of each.
        self.pieces: list[str] = []
        self.lines: list[int] = []
        line = 1
        for it in PIECE.findall(text):
            if not it.startswith("//"):
                self.pieces.append(it)
                self.lines.append(line)
            line += it.count("\n")

    def read(self) -> Source:
        self.items(0, len(self.pieces), ("", "", ""), self.source.module, False)
        return self.source

    def behind(self, at: int) -> int:
        """The place behind the bracket that closes the one at this place."""
        depth = 0
        for place in range(at, len(self.pieces)):
            depth += (self.pieces[place] in ("{", "(", "[")) - (self.pieces[place] in ("}", ")", "]"))
            if not depth:
                return place + 1
        raise ValueError(f"{self.crate}/{self.path}:{self.lines[at]}: a bracket is not closed")

    def joined(self, start: int, end: int) -> str:
        return "".join(self.pieces[start:end])

    def items(self, at: int, end: int, around: tuple[str, str, str], module: tuple[str, ...], is_test: bool) -> None:
        """The items from one place to another one: around them is an impl or a trait, with the name of the type or the
        trait, the trait, and the head."""
        start, spoken = at, ""
        while at < end:
            piece = self.pieces[at]
            if piece == "#" and self.pieces[at + 1] == "[" and not spoken:
                at = self.behind(at + 1)
            elif piece.isspace() or piece == "pub" or piece in ("unsafe", "async", "default"):
                at += 1
            elif piece == "(" and not spoken:
                # (what stands behind `pub`)
                at = self.behind(at)
            elif piece in KINDS and not spoken:
                is_const = piece == "const" and re.match(r"\s+(?:unsafe\s+)?fn\b", self.joined(at + 1, min(end, at + 5)))
                spoken = "" if is_const else piece
                if is_const:
                    at += 1
                    continue
                at = self.item(spoken, start, at, end, around, module, is_test)
                start, spoken = at, ""
            else:
                at += 1

    def item(self, kind: str, start: int, at: int, end: int, around: tuple[str, str, str], module: tuple[str, ...], is_test: bool) -> int:
        """Reads the item whose word is at this place, and returns the place behind it."""
        before = self.joined(start, at)
        is_test = is_test or bool(re.search(r"#\[\s*(?:test\b|cfg\(\s*test\s*\))", before))
        is_public = bool(re.search(r"\bpub\b(?!\s*\()", before))
        if kind == "fn":
            return self.function(at, end, around, module, is_public, is_test)
        if kind == "ghost":
            return self.ghost(at, end)
        stop = self.stop(at, end, "{;" if kind in ("impl", "trait", "mod", "struct", "enum", "union", "extern") else ";")
        head = self.joined(at + 1, stop)
        if kind == "use":
            self.source.imports.update((name, path) for name, path in imports_in(head, "::"))
        elif kind == "type":
            if (found := re.match(r"\s*(\w+)[^=]*=(.*)", head, re.S)) and not around[0]:
                self.source.others[found[1]] = plain(found[2])
        if self.pieces[stop : stop + 1] != ["{"]:
            if kind in ("struct", "enum", "union"):
                self.hold(kind, at, stop, "", is_test, head)
            elif kind == "mod" and is_test:
                self.source.has_tests.append(plain(head))
            return stop + 1
        last = self.behind(stop)
        if kind in ("impl", "trait"):
            name, trait = self.named(kind, head)
            self.hold(kind, at, last, trait, is_test, name)
            self.items(stop + 1, last - 1, (name, trait, plain(head)), module, is_test)
        elif kind in ("struct", "enum", "union"):
            self.hold(kind, at, last, "", is_test, head)
        elif kind == "mod":
            self.items(stop + 1, last - 1, ("", "", ""), (*module, plain(head)), is_test)
        return last

    def stop(self, at: int, end: int, marks: str) -> int:
        """The first place from this one on with one of these marks, outside of brackets."""
        while at < end and self.pieces[at] not in tuple(marks):
            at = self.behind(at) if self.pieces[at] in ("(", "[", "{") else at + 1
        return at

    def named(self, kind: str, head: str) -> tuple[str, str]:
        """The type and the trait of an impl or a trait with this head."""
        head = re.split(r"\bwhere\b", without_generics(head) if kind == "impl" else head)[0]
        if kind == "trait":
            name = head_of(head)
            return name, name
        parts = re.split(r"\bfor\b(?!\s*<)", head)
        return head_of(parts[-1]), head_of(parts[0]) if len(parts) > 1 else ""

    def hold(self, kind: str, at: int, end: int, trait: str, is_test: bool, head: str) -> None:
        text = self.joined(at, end)
        found = re.match(r"\s*(\w+)", head)
        name = found[1] if found else ""
        members: list[Stated] = []
        place = at
        while place < end:
            if self.pieces[place] == "ghost" and (member := self.member(place, end)):
                members.append(member[0])
                place = member[1]
            elif self.pieces[place] == "fn":
                # Of a function nothing is a member.
                place = self.stop(place, end, "{;")
            else:
                place += 1
        self.source.held.append(Held(kind, self.crate, self.path, name, trait, self.lines[at], is_test, members, text))

    def member(self, at: int, end: int) -> "tuple[Stated, int] | None":
        """The ghost member at this place, and the place behind it."""
        text = self.joined(at, min(end, at + 8))
        found = re.match(r"ghost\s+(\w+)\s*([:=])\s*\{", text)
        if not found or found[1] == "use":
            return None
        opening = next(it for it in range(at, end) if self.pieces[it] == "{")
        last = self.behind(opening)
        return Stated(found[1], "", plain(self.joined(opening + 1, last - 1))), last

    def ghost(self, at: int, end: int) -> int:
        """What stands behind `ghost` in a source, an impl or a trait: an import, or a member."""
        stop = self.stop(at, end, ";")
        text = plain(self.joined(at + 1, stop))
        if text.startswith("use "):
            self.source.ghosts.update(imports_in(text[4:], "."))
        return stop + 1

    def function(self, at: int, end: int, around: tuple[str, str, str], module: tuple[str, ...], is_public: bool, is_test: bool) -> int:
        line, start = self.lines[at], at
        stated: list[Stated] = []
        head_end = -1
        while at < end and self.pieces[at] not in ("{", ";"):
            if self.pieces[at] in CLAUSES:
                head_end = at if head_end < 0 else head_end
                clause, at = self.clause(at, end)
                stated.append(clause)
            else:
                at = self.behind(at) if self.pieces[at] in ("(", "[") else at + 1
        head = plain(self.joined(start + 1, at if head_end < 0 else head_end))
        found = re.match(r"\w+", head)
        assert found, f"{self.crate}/{self.path}:{line}: a function without a name"
        body: str | None = None
        inner: list[Stated] = []
        if at < end and self.pieces[at] == "{":
            last = self.behind(at)
            body = self.joined(at + 1, last - 1)
            inner = [self.clause(it, last)[0] for it in range(at, last) if self.pieces[it] in CLAUSES]
            at = last
        else:
            at += 1
        holder, trait, whose = around
        self.source.functions.append(
            Function(self.crate, self.path, module, holder, trait, found[0], is_public, is_test, line, head, stated, body, whose, inner)
        )
        return at

    def clause(self, at: int, end: int) -> tuple[Stated, int]:
        """The clause whose word is at this place, and the place behind it."""
        opening = next(it for it in range(at, end) if self.pieces[it] == "{")
        last = self.behind(opening)
        label = plain(self.joined(at + 1, opening)).lstrip("* ")
        return Stated(self.pieces[at], label, plain(self.joined(opening + 1, last - 1))), last


def sources_of(folder: pathlib.Path) -> list[Source]:
    """The sources of the crate in this folder. What a module has that is there for tests alone counts as a test."""
    found = [
        Reader(folder.name, str(it.relative_to(folder)), it.read_text(encoding="utf-8")).read()
        for it in repository.files(folder / "src")
        if it.suffix == ".rt"
    ]
    tests = {(*source.module, name) for source in found for name in source.has_tests}
    for source in found:
        if any(source.module[:size] in tests for size in range(1, len(source.module) + 1)):
            for it in source.functions:
                it.is_test = True
            for kept in source.held:
                kept.is_test = True
    return found


# Definitions.


@dataclasses.dataclass
class Definition:
    """A definition of specs/: where it stands, the names that it declares (several that stand together have several), and
    its text without comments."""

    crate: str
    path: str
    line: int
    names: tuple[str, ...]
    text: str

    def lines(self) -> int:
        return sum(bool(it.strip()) for it in self.text.split("\n"))


@dataclasses.dataclass
class Specs:
    """A file of definitions, and what it imports by the names that it gives it."""

    crate: str
    path: str
    imports: dict[str, str]
    definitions: list[Definition]


def uncommented(text: str) -> str:
    """A text of definitions in which each comment is left blank."""
    return re.sub(r"(?m)(^|\s)--(?=\s|$).*$", r"\1", text)


def specs_in(crate: str, path: str, text: str) -> Specs:
    """What stands in a file of definitions."""
    imports: dict[str, str] = {}
    blocks: list[tuple[int, list[str]]] = []
    lines, at = uncommented(text).split("\n"), 0
    while at < len(lines):
        line = lines[at]
        if line.startswith(("use ", "pub use ")):
            whole, at = line, at + 1
            while whole.count("{") > whole.count("}") and at < len(lines):
                whole, at = f"{whole} {lines[at]}", at + 1
            imports.update(imports_in(whole.partition("use ")[2], "."))
            continue
        if BEGINS.match(line) and not re.match(r"(?:pub )?mod \w+$", line):
            blocks.append((at + 1, [line]))
        elif blocks and line.strip() and not re.match(r"(?:pub )?mod \w+$", line):
            blocks[-1][1].append(line)
        at += 1
    found = []
    for number, block in blocks:
        # Several that stand together have a word alone before them, or behind a `mutual`.
        declared = DECLARES.match(block[0])
        own = "\n".join(block)
        names = [one or other for one, other in TOGETHER.findall(own)] if re.search(r"\bmutual\b", block[0]) else [declared[1]] if declared else []
        found.append(Definition(crate, path, number, tuple(dict.fromkeys(names)), own.rstrip()))
    return Specs(crate, path, imports, found)


def specs_of(folder: pathlib.Path) -> list[Specs]:
    """The files of definitions of the crate in this folder."""
    files = (it for it in repository.files(folder / "specs") if it.suffix == ".antt" and it.name != "Lib.antt")
    return [specs_in(folder.name, str(it.relative_to(folder)), it.read_text(encoding="utf-8")) for it in files]


def premises(definition: str) -> tuple[list[str], str]:
    """Of what a law says the premises, and what follows from them: the parts between the arrows that stand outside of all
    brackets, without the names of what it is said of."""
    parts, depth = [""], 0
    for it in definition:
        depth += (it in "([{") - (it in ")]}")
        if it == "→" and not depth:
            parts.append("")
        else:
            parts[-1] += it
    told = [plain(it) for it in parts]
    return [it for it in told[:-1] if not is_named(it)], told[-1]


def is_named(part: str) -> bool:
    """Whether a part before an arrow only names what is spoken of: `(n : ℕ) {o : ObjectForm}`."""
    rest = part
    while rest.startswith(("(", "{")):
        depth = 0
        for at, it in enumerate(rest):
            depth += (it in "([{") - (it in ")]}")
            if not depth:
                break
        if not re.match(r"[({][^:(){}]+ : ", rest):
            return False
        rest = rest[at + 1 :].strip()
    return not rest


def unique(all_of: Iterable[T]) -> list[T]:
    return list(dict.fromkeys(all_of))
