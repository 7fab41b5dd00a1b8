"""Runs `pathserve paths` on drawn paths and drawn starts and finishes, and compares each answer with that of the definitions.

usage: gate/draw_paths [--program FILE] [SEED ..]
       gate/draw_paths --lines SEED    prints the lines of this seed and what they have to answer, and runs nothing

slow_world.py says what a path allows: it counts starts and ends over the whole trace anew for each question, and shares
nothing with the program. The lines follow from their seeds, so each run draws the same ones. Over all seeds each form of a
path and each kind of answer has to come up often.
"""
import collections
import subprocess
from collections.abc import Sequence as Sequence_

from gate import seeds
from gate.seeds import Drawer, Tallied
from gate.slow_world import Any, Bound, Burst, Name, Node, Sequence
from gate.tried import program, whole

SEEDS = range(1, 501)
SECONDS = 60
OPERATIONS = "abcde"
# So many lines ask for a start or a finish, and a path has so many levels at most.
LINES = 60
LEVELS = 6
# How often each kind has to come up over all seeds.
OFTEN = 300
KINDS = ("list", "sequence", "bound", "burst", "burst in a burst", "started", "blocked", "finished", "not running")


class Paths:
    """The paths of a seed, as texts and as what they say."""

    def __init__(self, draw: Drawer) -> None:
        self.draw = draw
        self.tally: collections.Counter[str] = collections.Counter()
        self.texts: list[str] = []
        self.nodes: list[Node] = []
        for _ in range(1 + draw.below(3)):
            text, node = self.node(self.some_of(OPERATIONS), 0, "alone", False)
            self.texts.append(f"path {text} end")
            self.nodes.append(node)

    def some_of(self, names: Sequence_[str]) -> list[str]:
        """Some of these, one at least."""
        return [it for it in names if self.draw.one_in(2)] or [self.draw.of(names)]

    def node(self, names: Sequence_[str], depth: int, place: str, in_burst: bool) -> tuple[str, Node]:
        """A node over these names. It stands alone, in a list or in a sequence."""
        form = self.draw.of(("bound", "burst", "row", "row")) if LEVELS - depth > 2 else "row"
        if form == "row":
            return self.row(names, depth, place, in_burst)
        self.tally[form] += 1
        self.tally["burst in a burst"] += form == "burst" and in_burst
        text, inner = self.node(names, depth + 1, "alone", in_burst or form == "burst")
        if form == "burst":
            return f"[{text}]", Burst(inner)
        most = 1 + self.draw.below(3)
        return f"{most}:({text})", Bound(most, inner)

    def row(self, names: Sequence_[str], depth: int, place: str, in_burst: bool) -> tuple[str, Node]:
        """A name, a list or a sequence, with parentheses where it needs them."""
        if len(names) == 1:
            return names[0], Name(names[0])
        form = self.draw.of(("list", "sequence"))
        self.tally[form] += 1
        rest = list(names)
        members: list[tuple[str, Node]] = []
        while rest:
            member = self.some_of(rest)
            if LEVELS - depth < 3 or len(member) == len(names):
                member = rest[:1]
            members.append(self.node(member, depth + 1, form, in_burst))
            rest = [it for it in rest if it not in member]
        text = (", " if form == "list" else "; ").join(it for it, _ in members)
        is_needed = place == "sequence" or place == form == "list"
        kind: type[Any] | type[Sequence] = Any if form == "list" else Sequence
        made = kind(*(it for _, it in members))
        return f"({text})" if is_needed else text, made


def drawn(seed: int) -> tuple[str, str, "collections.Counter[str]"]:
    """The lines of a seed, their answers, and how often each kind came up."""
    draw = Drawer(seed)
    paths = Paths(draw)
    lines = [f"ops {' '.join(OPERATIONS)}", *paths.texts]
    answers = [f"ops {len(OPERATIONS)}", *paths.texts]
    trace: list[tuple[str, str]] = []
    running: collections.Counter[str] = collections.Counter()
    for _ in range(LINES):
        op = draw.of(OPERATIONS)
        if draw.below(5) < 3:
            lines.append(f"start {op}")
            after = [*trace, ("start", op)]
            kind = "started" if all(it.holds(after) for it in paths.nodes) else "blocked"
            running[op] += kind == "started"
        else:
            lines.append(f"finish {op}")
            after = [*trace, ("end", op)]
            kind = "finished" if running[op] else "not running"
            running[op] -= kind == "finished"
        trace = after if kind in ("started", "finished") else trace
        paths.tally[kind] += 1
        answers.append(f"{kind} {op}")
    return "".join(f"{it}\n" for it in lines), "".join(f"{it}\n" for it in answers), paths.tally


def tried(seed: int) -> Tallied:
    """What is said of the lines of a seed where they fail, or none, and its tally."""
    lines, answers, tally = drawn(seed)
    try:
        ran = subprocess.run([program(), "paths"], input=lines.encode(), capture_output=True, timeout=SECONDS)
    except subprocess.TimeoutExpired:
        return f"seed {seed}: not ended after {SECONDS} seconds", tally
    found = ran.stdout.decode("ascii", "backslashreplace")
    if (found, ran.returncode, ran.stderr) == (answers, 0, b""):
        return None, tally
    return f"seed {seed}: of\n{lines}expected\n{answers}ended with {ran.returncode} and\n{found}{ran.stderr!r}", tally


def shown_lines(seed: int) -> str:
    lines, answers, _ = drawn(seed)
    return f"{lines}\n{answers}"


def main() -> int:
    return seeds.run("draw_paths", seeds.asked(__doc__, "--lines", shown_lines), tried, SEEDS, KINDS, OFTEN)


load_tests = whole(main)
