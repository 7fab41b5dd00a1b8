"""Reads files of cases: cases/README.md has the notation."""
import dataclasses
import pathlib
import re
from collections.abc import Callable, Iterable, Iterator, Sequence
from typing import Any, TypeVar

from gate.tried import TOP

# Cases of a server, which `gate/run_sessions` runs.
SERVED = TOP / "cases" / "serve"
C = TypeVar("C", bound="Case")
# A section of a case: the line at which it stands, and its lines.
Section = tuple[int, list[str]]
ESCAPES = {"n": b"\n", "r": b"\r", "t": b"\t", "\\": b"\\", "^": b"^", "|": b"|", "#": b"#", "*": b"*"}
PIECE = re.compile(r"(\d+)(\+?)\*")
# A count that stands where none counts: not at the beginning of a piece, and its sign not escaped.
MISPLACED = re.compile(r"\d+\+?\*")
# Signs that stand for themselves, wherever they are.
PLAIN = re.compile(r"[^\\^#]+")
BLOCK = re.compile(r"(\w+) block (\d+) of (\S+)")
REPORT = re.compile(rb"(?:.*\n)*\d+ objects, (\d+) refused\n\Z")
FAULT = re.compile(rb"(?:lex|path|decl) \d+ [A-Za-z]+(?: at \d+)?\n\Z")


class BadCase(Exception):
    """A file of cases that is not in the notation."""


@dataclasses.dataclass
class Text:
    """The bytes of a text, and the place of its last mark."""

    bytes: bytes
    mark: "int | None"


@dataclasses.dataclass
class Case:
    """One run of the program: where the case stands, the words, the inputs and what is expected."""

    file: str
    line: int
    title: str
    words: list[str]
    inputs: dict[str, bytes]
    output: "bytes | None"
    error: bytes
    status: "int | None"
    kind: str = "output"
    piece: int = 0
    growths: bool = False

    def name(self) -> str:
        return f"{self.file}:{self.line}: {self.title}"

    def fault(self, status: int, output: bytes, error: bytes) -> "str | None":
        """What is wrong with an answer: the name of what differs, or none."""
        if not is_like(self.error, error):
            return "error"
        if self.kind == "reads":
            told = REPORT.match(output)
            return None if told and status == (1 if int(told[1]) else 0) else "output"
        if self.kind == "faults":
            return None if FAULT.match(output) and status == 1 else "output"
        if not is_like(self.output or b"", output):
            return "output"
        return None if status == self.status else "status"


def is_like(wanted: bytes, found: bytes) -> bool:
    """Whether a text is the wanted one, in which a line `...` stands for any lines."""
    if b"..." not in wanted:
        return wanted == found
    parts = []
    for line in wanted.splitlines(keepends=True):
        parts.append(rb"(?:[^\n]*\n)*" if line.rstrip(b"\n") == b"..." else re.escape(line))
    return re.fullmatch(b"".join(parts), found) is not None


def unescaped(piece: str, at: int) -> tuple[bytes, int]:
    """The byte of the escape that begins at a place, and the place behind it."""
    sign = piece[at + 1 : at + 2]
    if sign == "x" and re.fullmatch(r"[0-9A-Fa-f]{2}", piece[at + 2 : at + 4]):
        return bytes([int(piece[at + 2 : at + 4], 16)]), at + 4
    if sign in ESCAPES and sign:
        return ESCAPES[sign], at + 2
    raise BadCase(f"no such escape: {piece[at:at + 4]!r}")


def pieces_of(line: str) -> list[str]:
    """The pieces of a line, parted by each `|` that is not escaped."""
    pieces, piece, at = [], "", 0
    while at < len(line):
        if line[at] == "\\":
            piece += line[at : at + 2]
            at += 2
        elif line[at] == "|":
            pieces.append(piece)
            piece, at = "", at + 1
        else:
            piece += line[at]
            at += 1
    return [*pieces, piece]


def read_text(raw: Iterable[str], place: "str | None" = None, more: int = 0) -> Text:
    """The text of lines in the notation. With a place, `^` stands for it; else it is a mark."""
    out, mark = bytearray(), None
    for line in raw:
        has_end = not ends_open(line)
        for piece in pieces_of(line if has_end else line[:-1]):
            found = PIECE.match(piece)
            times = int(found[1]) + (more if found[2] else 0) if found else 1
            body = piece[found.end() :] if found else piece
            if count := MISPLACED.search(body):
                said = f"{count[0]!r} counts at the beginning of a piece only: write |{count[0]} or {count[0][:-1]}\\*"
                raise BadCase(f"{line!r}: {said}")
            if PLAIN.fullmatch(body):
                out += body.encode() * times
                continue
            for number in range(times):
                mark = add_piece(out, body, number if found else None, place, mark)
        if has_end:
            out += b"\n"
    return Text(bytes(out), mark)


def ends_open(line: str) -> bool:
    """Whether a line ends with a `\\` that leaves its line feed out."""
    return (len(line) - len(line.rstrip("\\"))) % 2 == 1


def add_piece(out: bytearray, body: str, number: "int | None", place: "str | None", mark: "int | None") -> "int | None":
    at = 0
    while at < len(body):
        if plain := PLAIN.match(body, at):
            out += plain[0].encode()
            at = plain.end()
            continue
        sign = body[at]
        if sign == "\\":
            byte, at = unescaped(body, at)
            out += byte
            continue
        if sign == "^":
            if place is None:
                mark = len(out)
            else:
                out += place.encode()
        elif sign == "#" and number is not None:
            out += b"%02d" % (number % 100)
        else:
            out += sign.encode()
        at += 1
    return mark


@dataclasses.dataclass
class Block:
    """A case as it stands in a file: its title, its line, and its sections with their lines."""

    title: str
    line: int
    sections: dict[str, Section]


def blocks(path: pathlib.Path) -> tuple[dict[str, str], list[Block]]:
    """The header of a file and its cases as they stand there."""
    header: dict[str, str] = {}
    found: list[Block] = []
    section: "list[str] | None" = None
    for number, line in enumerate(path.read_bytes().decode("utf-8").split("\n"), 1):
        line = line[:-1] if line.endswith("\r") else line
        if line.startswith("=== "):
            found.append(Block(line[4:].strip(), number, {}))
            section = None
        elif line.startswith("--- ") and found:
            section = []
            name = line[4:].strip()
            if name in found[-1].sections:
                raise BadCase(f"line {number}: a second section {name!r}")
            found[-1].sections[name] = (number, section)
        elif section is not None:
            section.append(line)
        elif not found and line and not line.startswith("#"):
            name, is_there, value = line.partition(":")
            if not is_there or name not in ("command", "marks"):
                raise BadCase(f"line {number}: neither a command, nor marks, nor a note")
            header[name] = value.strip()
    titles = [it.title for it in found]
    for title in titles:
        if titles.count(title) > 1:
            raise BadCase(f"two cases have the title {title!r}")
    if "command" not in header:
        raise BadCase("no command")
    return header, found


def lines_of(section: Section) -> list[str]:
    """The lines of a section: what is empty at its end only parts it from what follows."""
    lines = list(section[1])
    while lines and not lines[-1]:
        lines.pop()
    return lines


def fenced(word: str, page: str) -> list[bytes]:
    """The blocks of a page that are fenced by this word."""
    return re.findall(rb"(?m)^```%s\n((?:(?!```).*\n)*)```$" % word.encode(), (TOP / page).read_bytes())


def stored(source: str) -> bytes:
    """The text that a source names: a file, or a block of a page."""
    block = BLOCK.fullmatch(source)
    if not block:
        return (TOP / source).read_bytes()
    found = fenced(block[1], block[3])
    if not 1 <= int(block[2]) <= len(found):
        raise BadCase(f"no {source}")
    return found[int(block[2]) - 1]


def named_by(each: str) -> list[str]:
    """The sources that stand behind the word `each`: the blocks of a page, or the files of a pattern."""
    word, _, page = each.partition(" block of ")
    if page:
        return [f"{word} block {number} of {page}" for number, _ in enumerate(fenced(word, page), 1)]
    return sorted(str(it.relative_to(TOP)) for it in TOP.glob(each.removeprefix("of ")))


def with_each(block: Block) -> list[Block]:
    """The block, or where an input is `each` of several, a block for each of them."""
    for name, section in block.sections.items():
        head, _, each = name.partition(": each ")
        if not each:
            continue
        sources = named_by(each)
        if not sources:
            raise BadCase(f"line {section[0]}: `each {each}` names nothing")
        rest = {it: text for it, text in block.sections.items() if it != name}
        return [Block(f"{block.title}, {it}", block.line, {f"{head}: {it}": section, **rest}) for it in sources]
    return [block]


def escaped(lines: Iterable[str]) -> list[str]:
    """The lines of the notation whose text these lines are."""
    return [re.sub(r"[\\^|*]", r"\\\g<0>", it) for it in lines]


class Reader:
    """Makes the cases of one block."""

    # The sections that may stand in a case beside its inputs, and those of which one has to be there.
    NAMES: tuple[str, ...] = ("rows", "output", "error", "reads", "faults", "output, one more", "fronts", "growths")
    KINDS: tuple[str, ...] = ("output", "reads", "faults")

    def __init__(self, file: str, header: dict[str, str], block: Block) -> None:
        self.file, self.block = file, block
        self.in_lines = header.get("marks") == "in lines"
        self.sections: dict[str, list[str]] = {}
        self.files: dict[str, str] = {}
        self.words = header["command"].split()
        for name, section in block.sections.items():
            head, _, rest = name.partition(" ")
            if head == "command":
                self.words = rest.split()
            elif head in ("status", "status,") and rest:
                name = head if head != "status," else "status, one more"
                self.sections[name] = [rest.removeprefix("one more ")]
            elif head == "pieces" and rest:
                self.sections[head] = rest.split()
            elif head.endswith(":") and head[:-1].isupper():
                self.files[head[:-1]] = rest
            elif head in ("output:", "error:"):
                self.sections[head[:-1]] = escaped(stored(rest).decode().splitlines())
            elif name == "error, as it stands":
                self.sections["error"] = escaped(lines_of(section))
            elif name in self.NAMES or name.isupper():
                self.sections[name] = lines_of(section)
            else:
                raise BadCase(f"line {section[0]}: no such section: {name!r}")
        kinds = [it for it in self.KINDS if it in self.sections]
        if len(kinds) != 1:
            raise BadCase(f"line {block.line}: one of {', '.join(self.KINDS)} has to be there")
        self.kind = kinds[0]

    def rows(self) -> Iterator[tuple[int, dict[str, str]]]:
        """The line of each row, and the words that it puts in."""
        if "rows" not in self.sections:
            yield self.block.line, {}
            return
        at = self.block.sections["rows"][0]
        for number, row in enumerate(self.sections["rows"], at + 1):
            if row and not row.startswith("#"):
                row, *answers = row.split(" => ")
                puts = {"<row>": f"|{row}|"}
                puts.update({f"<answer{'' if place == 1 else f' {place}'}>": answer for place, answer in enumerate(answers, 1)})
                self.refuse_unused(number, puts)
                yield number, puts

    def refuse_unused(self, number: int, puts: dict[str, str]) -> None:
        """Refuses a row of which a part is put nowhere: it would say less than it seems to."""
        lines = [line for name, section in self.sections.items() if name != "rows" for line in section]
        for word in puts:
            if not any(word in it for it in [*lines, *self.words]):
                raise BadCase(f"line {number}: nothing takes the {word} of this row")

    def lines(self, name: str, puts: dict[str, str]) -> list[str]:
        """The lines of a section, with the words of a row put in."""
        lines = self.sections.get(name, [])
        for word, text in puts.items():
            lines = [it.replace(word, text) for it in lines]
        for line in lines:
            if re.search(r"<row>|<answer( [2-9])?>", line):
                raise BadCase(f"line {self.block.line}: a row has nothing for {line!r}")
        return lines

    def command(self, puts: dict[str, str]) -> list[str]:
        """The words of the command, with the words of a row put in."""
        words = " ".join(self.words)
        for name, text in puts.items():
            words = words.replace(name, text.strip("|"))
        return words.split()

    def inputs(self, puts: dict[str, str], more: int) -> tuple[dict[str, bytes], "int | None"]:
        """The inputs, and the place of the mark in them as it is told."""
        found: dict[str, bytes] = {}
        place: "int | None" = None
        for name in {*self.files} | {it for it in self.sections if it.isupper()}:
            if name in self.files:
                text = Text(stored(self.files[name]), None)
            else:
                text = read_text(self.lines(name, puts), None, more)
            found[name] = text.bytes
            if text.mark is not None:
                front = text.bytes[: text.mark]
                place = len(front) - (front.rfind(b"\n") + 1 if self.in_lines else 0)
        return found, place

    def has_more(self, puts: dict[str, str]) -> bool:
        lines = [line for name in self.sections if name.isupper() for line in self.lines(name, puts)]
        return any((found := PIECE.match(it)) and found[2] for line in lines for it in pieces_of(line))

    def case(self, line: int, puts: dict[str, str], more: int) -> Case:
        tail = ", one more" if more else ""
        kind = "output" if more else self.kind
        if more and "output, one more" not in self.sections:
            raise BadCase(f"line {line}: nothing says what one more answers")
        inputs, place = self.inputs(puts, more)
        told = "" if place is None else str(place)
        output = read_text(self.lines("output" + tail, puts), told).bytes if kind == "output" else None
        if place is None and any("^" in it.replace("\\^", "") for it in self.lines("output" + tail, puts)):
            raise BadCase(f"line {line}: no mark in the input")
        words = self.sections.get("status" + tail, ["0"])
        for name, text in puts.items():
            words = [it.replace(name, text) for it in words]
        error = read_text(self.lines("error", puts), told).bytes
        title = self.block.title + ("" if line == self.block.line else f", row {line}") + tail
        made = Case(self.file, line, title, self.command(puts), inputs, output, error, int(words[0]), kind)
        made.growths = "growths" in self.sections and not more
        return made

    def cases(self) -> "Iterator[Any]":
        for line, puts in self.rows():
            first = self.case(line, puts, 0)
            if "fronts" in self.sections:
                yield from fronts(first)
                continue
            yield first
            if self.has_more(puts):
                yield self.case(line, puts, 1)
            for piece in self.sections.get("pieces", []):
                title = f"{first.title}, in pieces of {piece}"
                yield dataclasses.replace(first, title=title, piece=int(piece), growths=False)


def fronts(case: Case) -> "Iterator[Any]":
    """A case for each front of its input."""
    [(name, whole)] = case.inputs.items()
    for cut in range(1, len(whole)):
        yield dataclasses.replace(case, title=f"{case.title}, front of {cut}", inputs={name: whole[:cut]})


def cases_of(path: pathlib.Path, reader: Any = Reader) -> "Iterator[Any]":
    """The cases of a file, as this reader makes them of a block."""
    file = str(path.relative_to(TOP))
    header, found = blocks(path)
    for block in found:
        for one in with_each(block):
            yield from reader(file, header, one).cases()


def files(chosen: Sequence[pathlib.Path], served: bool = False) -> list[pathlib.Path]:
    """The files of cases at or below these paths, or all: those of a server, or the others."""
    found = []
    for path in chosen or [TOP / "cases"]:
        found += sorted(path.rglob("*.cases")) if path.is_dir() else [path]
    return [it for it in found if it.is_relative_to(SERVED) == served]


def chosen_cases(words: Iterable[str], read: Callable[[pathlib.Path], Iterable[C]], served: bool = False) -> tuple[list[C], list[str]]:
    """The cases that the words name, each file read so, and the files that are not in the notation."""
    paths = [pathlib.Path(it).resolve() for it in words if pathlib.Path(it).exists()]
    titles = [it for it in words if not pathlib.Path(it).exists()]
    found: list[C] = []
    bad: list[str] = []
    for path in files(paths, served):
        try:
            found += read(path)
        except (BadCase, KeyError, OSError, UnicodeDecodeError, ValueError) as error:
            bad.append(f"{path.relative_to(TOP)}: {error}")
    return [it for it in found if not titles or any(title in it.title for title in titles)], bad


class Placed:
    """A case as a command: its words, its standard input (a text, or a file), and where its standard output goes. What is
    written for it lies in a folder."""

    def __init__(self, case: Case, program: pathlib.Path, folder: "str | pathlib.Path") -> None:
        words, self.input = [str(program)], b""
        self.file: "pathlib.Path | None" = None
        self.output: "str | None" = None
        rest = iter(case.words)
        for word in rest:
            if word == "<":
                name = next(rest)
                self.input = case.inputs.get(name, b"")
                self.file = None if name in case.inputs else TOP / name
            elif word == ">":
                self.output = next(rest)
            elif word in case.inputs:
                path = pathlib.Path(folder) / word
                path.write_bytes(case.inputs[word])
                words.append(str(path))
            else:
                words.append(word)
        self.words = words
