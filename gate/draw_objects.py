"""Runs `pathserve check` on drawn objects, and compares each whole report with that of a slow analyser.

usage: gate/draw_objects [--program FILE] [SEED ..]
       gate/draw_objects --source SEED    prints the source of this seed and its report, and runs nothing

The slow analyser follows the definitions, pair by pair, part by part and node by node, over what was noted while the text
was drawn: it reads no text, and shares nothing with the program. The sources follow from their seeds, so each run draws
the same ones. Over all seeds each kind of answer has to come up often.
"""
import collections
import pathlib
import subprocess
import tempfile
from collections.abc import Sequence
from typing import NamedTuple

from gate import seeds
from gate.seeds import Drawer
from gate.tried import program, whole

SEEDS = range(1, 626)
# So many objects stand in a source, and so often has each kind of answer to come up over all seeds.
OBJECTS = 4
OFTEN = 200
SECONDS = 60
OPERATIONS = "abcdef"
PARTS = "uvw"
# The most levels of a path.
LEVELS = 6

# The kinds of answers.
KINDS = (
    "accepted",
    "accepted with a conflict",
    "separated by another node than the first",
    "refused",
    "refused for others than the first operation alone",
)


class Node(NamedTuple):
    """A node of a path: how deep it stands, which operations are named in it, and its form: `one` is a bound of 1.

    The nodes of a path stand in a row, each before those in it: its content is those behind it that stand deeper, up to
    the first that does not."""

    depth: int
    names: set[str]
    form: str


class Touched(NamedTuple):
    """What a text touches: the parts that it names, and those of them that it changes."""

    names: set[str]
    changes: set[str]


class Drawn(NamedTuple):
    """An object that was drawn."""

    name: str
    text: str
    parts: str
    operations: dict[str, Touched]
    paths: list[list[Node]]

FORMS = {"one": ("1:(", ")"), "more": ("2:(", ")"), "burst": ("[", "]")}


def node_text(draw: Drawer, nodes: list[Node], names: list[str], depth: int, place: str) -> str:
    """Draws a node over these names, and those in it. It stands alone, in a list, or in a sequence."""
    kind = draw.below(10) if LEVELS - depth > 2 else 9
    if kind > 4:
        return row_text(draw, nodes, names, depth, place)
    form = ("one", "one", "one", "more", "burst")[kind]
    nodes.append(Node(depth, set(names), form))
    front, back = FORMS[form]
    return front + node_text(draw, nodes, names, depth + 1, "alone") + back


def row_text(draw: Drawer, nodes: list[Node], names: list[str], depth: int, place: str) -> str:
    """Draws a name, a list or a sequence, with parentheses where it needs them or where they are drawn."""
    nodes.append(Node(depth, set(names), "row"))
    is_list = draw.one_in(2)
    needed = len(names) > 1 and (place == "sequence" or place == "list" and is_list)
    if len(names) == 1:
        text = names[0]
    else:
        place, rest = "list" if is_list else "sequence", list(names)
        members: list[str] = []
        while rest:
            member = draw.some_of(rest)
            if LEVELS - depth < 3 or member == names:
                member = rest[:1]
            members.append(node_text(draw, nodes, member, depth + 1, place))
            rest = [it for it in rest if it not in member]
        text = (", " if is_list else "; ").join(members)
    return f"({text})" if needed or draw.one_in(6) else text


def path_of(draw: Drawer, names: list[str]) -> tuple[str, list[Node]]:
    """The text of a path, and its nodes."""
    nodes: list[Node] = []
    named = names if draw.one_in(2) else draw.some_of(names)
    return f"path {node_text(draw, nodes, named, 0, 'alone')} end; ", nodes


class Body:
    """The text of an operation, whose parts are noted while it is drawn."""

    def __init__(self, draw: Drawer, name: str, parts: str) -> None:
        self.draw, self.name, self.parts = draw, name, parts
        self.replies, self.may_change = draw.one_in(2), draw.one_in(2)
        self.names: set[str] = set()
        self.changes: set[str] = set()
        front = f"entry function {name} : integer" if self.replies else f"entry procedure {name}"
        statements = "; ".join(self.statement() for _ in range(1 + draw.below(3)))
        self.text = f"{front}; begin {statements} end; "

    def part(self) -> str:
        part = self.parts[self.draw.below(len(self.parts))]
        self.names.add(part)
        return part

    def term(self) -> str:
        kind = self.draw.below(4)
        if kind < 2:
            return "7"
        return f"count({self.part()})" if kind == 2 else f"{self.part()}[0]"

    def expression(self) -> str:
        kind = self.draw.below(4)
        if kind < 2:
            return self.term()
        return f"{self.part()}[{self.term()}]" if kind == 2 else f"1 + ({self.term()} - {self.term()})"

    def condition(self) -> str:
        front = "not " if self.draw.one_in(3) else ""
        return f"{front}{self.expression()} {'<' if self.draw.one_in(2) else '='} {self.expression()}"

    def step(self) -> str:
        if self.may_change and self.draw.one_in(2):
            part = self.part()
            self.changes.add(part)
            return f"{part}[{self.expression()}] := {self.expression()}"
        if self.replies and self.draw.one_in(2):
            return f"{self.name} := {self.expression()}"
        return "refuse('no')"

    def statement(self) -> str:
        kind = self.draw.below(4)
        if kind == 0:
            return self.step()
        if kind == 1:
            return f"if {self.condition()} then {self.step()}"
        if kind == 2:
            return f"if {self.condition()} then {self.step()} else {self.step()}"
        return f"begin {self.step()}; if {self.condition()} then begin ; {self.step()} end; end"


def object_of(draw: Drawer, name: str) -> Drawn:
    names = OPERATIONS[: 1 + draw.below(len(OPERATIONS))]
    parts = PARTS[: 1 + draw.below(len(PARTS))]
    paths = [path_of(draw, list(names)) for _ in range(1 + draw.below(3))]
    bodies = [Body(draw, it, parts) for it in names]
    declared = "".join(f"{it} : array [2] of integer; " for it in parts)
    text = f"object {name}; {''.join(it for it, _ in paths)}var {declared}{''.join(it.text for it in bodies)}end;\n"
    operations = {it.name: Touched(it.names, it.changes) for it in bodies}
    return Drawn(name, text, parts, operations, [nodes for _, nodes in paths])


def separates(nodes: Sequence[Node], at: int, both: set[str]) -> bool:
    """Whether a node separates these operations: it is a bound of 1 that names them, and no burst in it names them."""
    bound = nodes[at]
    inner: list[Node] = []
    for it in nodes[at + 1 :]:
        if it.depth <= bound.depth:
            break
        inner.append(it)
    return bound.form == "one" and both <= bound.names and not any(it.form == "burst" and both <= it.names for it in inner)


def contested(drawn: Drawn, a: str, b: str) -> str | None:
    """The first part that one of two operations changes and the other one names."""
    one, other = drawn.operations[a], drawn.operations[b]
    return next((it for it in drawn.parts if it in one.changes & other.names or it in other.changes & one.names), None)


def report_of(drawn: Drawn, tally: "collections.Counter[str]") -> list[str]:
    """The lines of an object."""
    lines, names = [f"object {drawn.name} accepted"], list(drawn.operations)
    for at, a in enumerate(names):
        for b in names[at:]:
            part = contested(drawn, a, b)
            if part is None:
                continue
            places = ((path, node) for path, nodes in enumerate(drawn.paths, 1) for node in range(len(nodes)) if separates(nodes, node, {a, b}))
            found = next(places, None)
            if found is None:
                tally["refused"] += 1
                tally["refused for others than the first operation alone"] += (a, b) != (names[0], names[0])
                return [f"object {drawn.name} refused 1 Unseparated {a} {b} {part}"]
            tally["separated by another node than the first"] += found != (1, 0)
            lines.append(f"pair {a} {b} path {found[0]} node {found[1]}")
    tally["accepted"] += 1
    tally["accepted with a conflict"] += len(lines) > 1
    return lines


def source_of(seed: int) -> tuple[str, str, "collections.Counter[str]"]:
    """The source of a seed, its report, and how often each kind of answer came up in it."""
    draw = Drawer(seed)
    tally: collections.Counter[str] = collections.Counter()
    objects = [object_of(draw, f"o{it}") for it in range(OBJECTS)]
    lines = [line for it in objects for line in report_of(it, tally)]
    report = [*lines, f"{OBJECTS} objects, {tally['refused']} refused"]
    return "".join(it.text for it in objects), "".join(it + "\n" for it in report), tally


def tried(seed: int) -> seeds.Tallied:
    """What is said of a source that fails, or none, and its tally."""
    text, report, tally = source_of(seed)
    with tempfile.TemporaryDirectory(prefix="draw-") as folder:
        source = pathlib.Path(folder) / "source"
        source.write_text(text, encoding="ascii")
        try:
            ran = subprocess.run([program(), "check", "--no-explain", source], stdin=subprocess.DEVNULL, capture_output=True, timeout=SECONDS)
        except subprocess.TimeoutExpired:
            return f"seed {seed}: not ended after {SECONDS} seconds", tally
    answer, status = ran.stdout.decode("ascii", "backslashreplace"), 1 if tally["refused"] else 0
    if (answer, ran.returncode, ran.stderr) == (report, status, b""):
        return None, tally
    return f"seed {seed}: of\n{text}expected status {status} and\n{report}ended with {ran.returncode} and\n{answer}{ran.stderr!r}", tally


def shown_source(seed: int) -> str:
    text, report, _ = source_of(seed)
    return f"{text}\n{report}"


def main() -> int:
    return seeds.run("draw_objects", seeds.asked(__doc__, "--source", shown_source), tried, SEEDS, KINDS, OFTEN)


load_tests = whole(main)
