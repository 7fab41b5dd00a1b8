"""Draws the paths of an object as pictures, nodes in nodes: a bound and a burst are boxes around what they hold, the
members of a sequence stand behind each other, those of a list above each other.

Nodes have the numbers that `check` and `why` say (docs/LANGUAGE.md): from 0, each before those in it. Bounds, bursts and `;`
have what they count, where a status tells it. Where calls wait at a node it stands out, and says how many; then it is
known what it counts: a bound all that it has, a `;` nothing.
"""
import html
from collections.abc import Mapping, Sequence as Sequence_
from typing import NamedTuple

from gate.slow_world import Bound, Burst, Name, Node, Sequence
from tools.held import text_of
from tools.inside import Place

# In pixels: a letter of a name and of a note, the height of a name, what a box has around what it holds, and above it,
# between members of a list, and of a sequence.
LETTER, SMALL, HIGH, PAD, HEAD, GAP, STEP = 8.0, 6.4, 44.0, 10.0, 18.0, 10.0, 76.0
STYLE = """
svg{max-width:100%;height:auto;font:13px system-ui,sans-serif}svg text{fill:currentColor}
svg .note{font-size:10.5px;opacity:.75}svg .hot{font-weight:600;opacity:1}
svg rect{fill:none;stroke:#8888;stroke-width:1.3}svg rect.name{fill:#56b4e92e;stroke:#56b4e9}
svg .burst{stroke-dasharray:5 3}svg path{fill:none;stroke:#8888;stroke-width:1.3}
svg rect.hot{fill:#e69f0033;stroke:#e69f00;stroke-width:2}svg path.hot{stroke:#e69f00;stroke-width:2.5}
svg rect.busy{fill:#2aa57a40;stroke:#2aa57a}
"""


class Box(NamedTuple):
    """A part of a picture: its size, where the line goes through it, and its elements."""

    wide: float
    high: float
    middle: float
    drawn: str


def put(box: Box, x: float, y: float) -> str:
    return f'<g transform="translate({x:g} {y:g})">{box.drawn}</g>'


def classed(kind: str) -> str:
    return f' class="{kind}"' if kind else ""


def words(x: float, y: float, text: str, kind: str = "", anchor: str = "") -> str:
    more = f' text-anchor="{anchor}"' if anchor else ""
    return f'<text x="{x:g}" y="{y:g}"{classed(kind)}{more}>{html.escape(text)}</text>'


def line(*points: float, kind: str = "") -> str:
    pairs = " L".join(f"{x:g} {y:g}" for x, y in zip(points[::2], points[1::2]))
    return f'<path d="M{pairs}"{classed(kind)}/>'


def waiting(count: int) -> str:
    return f"{count} waits" if count == 1 else f"{count} wait"


class Picture:
    """Draws one path. `waits` says how many calls wait at each place, `calls` of each operation how many of its calls run,
    and wait, and `counted` what each place has counted, where that is known."""

    def __init__(self, path: int, waits: Mapping[Place, int], calls: Mapping[str, tuple[int, int]], counted: Mapping[Place, int]) -> None:
        self.path, self.waits, self.calls, self.counted, self.node = path, waits, calls, counted, -1

    def count(self, number: int, turn: int = 0) -> int | None:
        return self.counted.get(Place(self.path, number, turn))

    def drawn(self, node: Node) -> Box:
        self.node += 1
        number = self.node
        if isinstance(node, Name):
            return self.name(node, number)
        if isinstance(node, Bound):
            count = self.waits.get(Place(self.path, number, 0), 0)
            now = self.count(number)
            says = f"{node.most} of {node.most}, {waiting(count)}" if count else f"at most {node.most}" if now is None else f"{now} of {node.most}"
            return self.box(node.inner, f"node {number}: {says}", "hot" if count else "")
        if isinstance(node, Burst):
            now = self.count(number)
            return self.box(node.inner, f"node {number}: together, as one{'' if now is None else f', {now} open'}", "burst")
        members = [self.drawn(it) for it in node.members]
        return self.sequence(members, number) if isinstance(node, Sequence) else self.list(members, number)

    def name(self, node: Name, number: int) -> Box:
        runs, waits = self.calls.get(node.op, (0, 0))
        told = [f"node {number}", *([f"{runs} run{'s' if runs == 1 else ''}"] if runs else []), *([waiting(waits)] if waits else [])]
        note = ", ".join(told)
        wide = max(len(node.op) * LETTER, len(note) * SMALL) + 2 * PAD
        kind = "name hot" if waits else "name busy" if runs else "name"
        drawn = f'<rect class="{kind}" width="{wide:g}" height="{HIGH:g}" rx="12"/>' + words(wide / 2, 19, node.op, "", "middle")
        return Box(wide, HIGH, HIGH / 2, drawn + words(wide / 2, 35, note, "note hot" if waits else "note", "middle"))

    def box(self, node: Node, note: str, kind: str) -> Box:
        inner = self.drawn(node)
        wide, high = max(inner.wide, len(note) * SMALL) + 2 * PAD, inner.high + HEAD + PAD
        middle, start = HEAD + inner.middle, (wide - inner.wide - 2 * PAD) / 2
        drawn = f'<rect{classed(kind)} width="{wide:g}" height="{high:g}" rx="4"/>' + words(PAD, 13, note, f"note {kind}" if kind == "hot" else "note")
        drawn += line(0, middle, start + PAD, middle) + line(start + PAD + inner.wide, middle, wide, middle) + put(inner, start + PAD, HEAD)
        return Box(wide, high, middle, drawn)

    def sequence(self, members: Sequence_[Box], number: int) -> Box:
        above, below = max(it.middle for it in members), max(it.high - it.middle for it in members)
        middle, at = above + HEAD, 0.0
        drawn = words(0, 11, f"node {number}", "note")
        for turn, it in enumerate(members):
            if turn:
                count = self.waits.get(Place(self.path, number, turn), 0)
                kind, half = "hot" if count else "", at + STEP / 2
                drawn += line(at, middle, at + STEP, middle, kind=kind) + line(at + STEP - 7, middle - 4, at + STEP, middle, at + STEP - 7, middle + 4, kind=kind)
                drawn += words(half, middle - 6, ";", kind, "middle")
                now = self.count(number, turn)
                says = f"0, {waiting(count)}" if count else "" if now is None else str(now)
                drawn += words(half, middle + 15, says, "note hot" if count else "note", "middle") if says else ""
                at += STEP
            drawn += put(it, at, middle - it.middle)
            at += it.wide
        return Box(max(at, 50.0), middle + below, middle, drawn)

    def list(self, members: Sequence_[Box], number: int) -> Box:
        inner = max(it.wide for it in members)
        wide, high = inner + 4 * PAD, sum(it.high + GAP for it in members) - GAP + HEAD
        middle, at = HEAD + (high - HEAD) / 2, HEAD
        drawn = words(0, 11, f"node {number}", "note")
        for it in members:
            start = (wide - it.wide) / 2
            drawn += line(0, middle, PAD, middle, PAD, at + it.middle, start, at + it.middle)
            drawn += line(start + it.wide, at + it.middle, wide - PAD, at + it.middle, wide - PAD, middle, wide, middle)
            drawn += put(it, start, at)
            at += it.high + GAP
        return Box(max(wide, 50.0), high, middle, drawn)


def picture(path: int, node: Node, waits: Mapping[Place, int], calls: Mapping[str, tuple[int, int]], counted: Mapping[Place, int]) -> str:
    """A path as SVG."""
    box = Picture(path, waits, calls, counted).drawn(node)
    wide, high = box.wide + 2 * STEP / 3, box.high + 4
    ends = line(0, box.middle + 2, STEP / 3, box.middle + 2) + line(wide - STEP / 3, box.middle + 2, wide, box.middle + 2)
    title = f"<title>path {html.escape(text_of(node))} end</title>"
    return (f'<svg xmlns="http://www.w3.org/2000/svg" role="img" width="{wide:g}" height="{high:g}" viewBox="0 0 {wide:g} {high:g}">{title}'
            f"{ends}{put(box, STEP / 3, 2)}</svg>")
