"""Reads the cases of a server: cases/README.md has the notation."""
import dataclasses
import pathlib
import re
from collections.abc import Iterator

from gate.cases import BadCase, Block, Case, Reader, cases_of, lines_of, read_text

# What a step says, by its form: who, and what.
FORMS = {
    "sends": re.compile(r"(\w+)>(?: (?P<text>.*))?"),
    "presses": re.compile(r"(\w+)>>(?: (?P<text>.*))?"),
    "hears": re.compile(r"(\w+)<(?: (?P<text>.*))?"),
    "hears among": re.compile(r"(\w+)&(?: (?P<text>.*))?"),
    "runs": re.compile(r"(\w+) runs (?P<text>.*)"),
    "opens": re.compile(r"(\w+) opens"),
    "is refused": re.compile(r"(\w+) is refused"),
    "hangs up": re.compile(r"(\w+) hangs up"),
    "sends no more": re.compile(r"(\w+) sends no more"),
    "resets": re.compile(r"(\w+) resets"),
    "ends": re.compile(r"(\w+) ends"),
    "fails": re.compile(r"(\w+) fails"),
    "hears nothing": re.compile(r"(\w+) hears nothing"),
    "server starts": re.compile(r"(server) starts(?: (?P<text>.*))?"),
    "server ends": re.compile(r"(server) ends"),
    "server is killed": re.compile(r"(server) is killed"),
    "server is told to stop": re.compile(r"(server) is told to stop"),
    "port is taken": re.compile(r"(port) is taken"),
    "folder is removed": re.compile(r"(folder) is removed"),
    "file holds": re.compile(r"(file) (?P<text>\S+ holds [0-9a-f|*]*)"),
}
# Steps whose texts are in the notation: what is not is refused before the case runs.
READ = ("sends", "presses", "hears", "hears among")
# Steps of one connection that follow one another are one step.
JOINED = ("sends", "hears among")
TIMES = re.compile(r"(\d+) times:")
# The names and contents of the files of a folder, as a case says them.
Contents = list[tuple[str, "str | bytes | None"]]
# The most that a value file may be numbered, and one more.
END_OF_NUMBERS = 1 << 63


@dataclasses.dataclass
class Step:
    """One step of a case: its line in the file, what is done, by whom, and with which texts."""

    line: int
    form: str
    who: str
    texts: list[str]


@dataclasses.dataclass
class Story(Case):
    """A case of a server: what happens, and the folder before and after."""

    steps: list[Step] = dataclasses.field(default_factory=list)
    before: "Contents" = dataclasses.field(default_factory=list)
    after: "Contents | None" = None
    traces: dict[str, bytes] = dataclasses.field(default_factory=dict)


def form_of(line: str) -> "tuple[str, str, str] | None":
    """The form of a step, who does it, and its text."""
    for form in (*(it for it in FORMS if " " in it), *FORMS):
        if found := FORMS[form].fullmatch(line):
            return form, found[1], found.groupdict().get("text") or ""
    return None


def repeated(lines: list[tuple[int, str]]) -> Iterator[tuple[int, str]]:
    """Numbered lines, those behind `N times:` so often, with the turn in the place of `<n>`."""
    at = 0
    while at < len(lines):
        number, line = lines[at]
        at += 1
        if not (times := TIMES.fullmatch(line)):
            yield number, line
            continue
        inner = []
        while at < len(lines) and lines[at][1].startswith("  "):
            inner.append((lines[at][0], lines[at][1][2:]))
            at += 1
        for turn in range(1, int(times[1]) + 1):
            yield from ((place, it.replace("<n>", str(turn))) for place, it in inner)


def steps_of(lines: list[tuple[int, str]]) -> list[Step]:
    """The steps that numbered lines say."""
    found: list[Step] = []
    for number, line in repeated(lines):
        if not line or line.startswith("#"):
            continue
        step = form_of(line)
        if not step:
            raise BadCase(f"line {number}: no such step: {line!r}")
        form, who, text = step
        if form in READ:
            read_text([text], "")
        if form == "file holds":
            content(text.rpartition(" ")[2])
        last = found[-1] if found else None
        if last and form in JOINED and (last.form, last.who) == (form, who):
            last.texts.append(text)
        else:
            found.append(Step(number, form, who, [text]))
    return found


def content(words: str) -> "bytes | None":
    """What a file of a folder holds, as its line says it: bytes in hexadecimal, a text in apostrophes, or anything."""
    if not words:
        return None
    if words.startswith("'") and words.endswith("'") and len(words) > 1:
        return words[1:-1].encode("ascii")
    return bytes.fromhex(read_text([words + "\\"]).bytes.decode("ascii"))


class StoryReader(Reader):
    """Makes the cases of one block of a file of a server's cases."""

    NAMES = ("rows", "output", "error", "steps", "folder", "folder at the end")
    KINDS = ("output",)

    def __init__(self, file: str, header: dict[str, str], block: Block) -> None:
        traces = {name: section for name, section in block.sections.items() if name.endswith(".trace")}
        self.traces = {name: lines_of(section) for name, section in traces.items()}
        rest = {name: section for name, section in block.sections.items() if name not in traces}
        super().__init__(file, header, dataclasses.replace(block, sections=rest))

    def steps(self, puts: dict[str, str]) -> list[Step]:
        """The steps, with the words of a row put in."""
        start = self.block.sections["steps"][0] + 1 if "steps" in self.sections else 0
        return steps_of(list(enumerate(self.lines("steps", puts), start)))

    def folder(self, name: str, puts: dict[str, str]) -> "Contents | None":
        """The names and contents of the files that a section says, or none where there is no such section."""
        if name not in self.sections:
            return None
        lines = (it.partition(" ") for it in self.lines(name, puts) if it)
        return [(file, rest if file == "*.val" else content(rest)) for file, _, rest in lines]

    def story(self, line: int, puts: dict[str, str]) -> Story:
        puts = {word: text.strip("|") for word, text in puts.items()}
        inputs, _ = self.inputs(puts, 0)
        output, error = (read_text(self.lines(name, puts), "").bytes for name in ("output", "error"))
        title = self.block.title + ("" if line == self.block.line else f", row {line}")
        [status] = self.lines("status", puts) or ["0"]
        made = Story(self.file, line, title, self.command(puts), inputs, output, error, int(status))
        made.steps, made.traces = self.steps(puts), {name: read_text(text, "").bytes for name, text in self.traces.items()}
        made.before, made.after = self.folder("folder", puts) or [], self.folder("folder at the end", puts)
        return made

    def cases(self) -> Iterator[Story]:
        for line, puts in self.rows():
            first = self.story(line, puts)
            yield first
            for piece in self.sections.get("pieces", []):
                yield dataclasses.replace(first, title=f"{first.title}, in pieces of {piece}", piece=int(piece))


def stories_of(path: pathlib.Path) -> Iterator[Story]:
    """The cases of a file."""
    return cases_of(path, StoryReader)


def value_number(name: str) -> "int | None":
    """The number of a value file by its name, or none."""
    found = re.fullmatch(r"(0|[1-9][0-9]*)\.val", name)
    return int(found[1]) if found and int(found[1]) < END_OF_NUMBERS else None


def names_in(place: pathlib.Path, wanted: Contents) -> set[str]:
    """The names of what is in a folder, and of all files below a folder in it of which one is wanted."""
    opened = {name.partition("/")[0] for name, _ in wanted if "/" in name.rstrip("/")}
    names = set()
    for it in place.iterdir() if place.exists() else ():
        if it.name in opened:
            names |= {str(inner.relative_to(place)) for inner in it.rglob("*") if inner.is_file()}
        else:
            names.add(it.name)
    return names


def folder_faults(wanted: Contents, place: pathlib.Path) -> list[str]:
    """What a folder has that is not wanted, and lacks that is."""
    names = names_in(place, wanted)
    values = sorted(number for it in names if (number := value_number(it)) is not None)
    names -= {f"{it}.val" for it in values}
    faults = []
    for name, held in wanted:
        if name == "*.val":
            count, _, least = str(held).partition(" above ")
            if (count and len(values) != int(count)) or (least and values and values[0] <= int(least)):
                faults.append(f"the value files {values}, not {held!r}")
        elif name.rstrip("/") not in names:
            faults.append(f"no {name}")
        else:
            names.remove(name.rstrip("/"))
            if isinstance(held, bytes) and (place / name).read_bytes() != held:
                faults.append(f"{name} holds {(place / name).read_bytes().hex()}, not {held.hex()}")
    if "*.val" not in dict(wanted) and values:
        faults.append(f"the value files {values}")
    return faults + [f"a file {it}" for it in sorted(names)]
