"""Runs `tools/timeline` on traces, and reads from the pictures what they show: rows, bars, tooltips, letters, links,
the index.

usage: gate/try_timeline

Small traces have every bar and tooltip written down here; damaged ones what is told, and what is still drawn. Drawn
traces of many pages, up to 65,536 calls of 1,024 sessions, are compared with what was drawn: each call begins and
ends in one place of all pages, has a bar on each page between, and no bar hides another. Where a bar stands is read
off the axis of its page. What an audit says comes from a program that says what is written down here.
"""
import contextlib
import io
import pathlib
import random
import re
import subprocess
import sys
import tempfile
import xml.etree.ElementTree as tree
from collections.abc import Callable, Iterable, Iterator, Mapping, Sequence
from typing import Any

from gate import sums
from gate.drawn_scripts import Script
from gate.tried import Trial, run, there, whole
from tools import timeline

TOOL = pathlib.Path(__file__).resolve().parent.parent / "tools" / "timeline"
OBJECTS = TOOL.parent.parent / "examples" / "objects"
# Loaded once: to start it anew for each trace would take most of the time.
SVG = "{http://www.w3.org/2000/svg}"
# An event of a page, or `<` or `>`; a bar of a page; what came of a run of the tool: its status, what it said, its pages.
Event = Any
Bar = tuple[str, str, Event, Event, str]
Ran = tuple[int, str, list[pathlib.Path]]
CELL = ["object cell", "part v 0101000100000000"]

# A title, the lines of a trace, the events of a page (or none), and the bars of each page as they are to be: row,
# kind, from and to an event, tooltip. `<` and `>` stand for a bar that comes from the page before, and one that runs
# on.
SMALL: list[tuple[str, list[str], int | None, list[list[Bar]]]] = [
    (
        "calls that overlap, and each kind of end",
        ["object account", "part sum 0101000100000064", "start 1 s1 balance", "start 2 s2 balance", "end 2 done 100", "end 1 done 100",
         "start 3 s1 pay 20", "end 3 done", "start 4 s2 draw 200", "end 4 refused poor", "start 5 s3 pay 4", "end 5 failed device",
         "start 6 s2 balance"],
        None,
        [[("s1", "done", 1, 4, "call 1 of s1: balance\ndone 100\nevents 1 to 4, lines 3 to 6"),
          ("s1", "done", 5, 6, "call 3 of s1: pay 20\ndone\nevents 5 to 6, lines 7 to 8"),
          ("s2", "done", 2, 3, "call 2 of s2: balance\ndone 100\nevents 2 to 3, lines 4 to 5"),
          ("s2", "refused", 7, 8, "call 4 of s2: draw 200\nrefused poor\nevents 7 to 8, lines 9 to 10"),
          ("s2", "running", 11, ">", "call 6 of s2: balance\nstill running at the end of the trace\nevent 11, line 13"),
          ("s3", "failed", 9, 10, "call 5 of s3: pay 4\nfailed device\nevents 9 to 10, lines 11 to 12")]],
    ),
    (
        "texts with signs that XML has for itself, and texts that look like words",
        ["object book", "part t 01060000", "part u 01060000", "start 1 s1024 write '<&>\"' 'it''s ]]>'", "end 1 done 'x <title>'",
         "start 65536 s1 find '1' 1 ''", "end 65536 done '7'"],
        None,
        [[("s1", "done", 3, 4, "call 65536 of s1: find '1' 1 ''\ndone '7'\nevents 3 to 4, lines 6 to 7"),
          ("s1024", "done", 1, 2, "call 1 of s1024: write '<&>\"' 'it''s ]]>'\ndone 'x <title>'\nevents 1 to 2, lines 4 to 5")]],
    ),
    (
        "lines with other spaces, letters, zeros and line ends",
        ["  object   CELL \r", "part v 0101000100000000\r", " start 007 s01  PUT 0009\r", "end 7   failed   memory"],
        None,
        [[("s1", "failed", 1, 2, "call 7 of s1: put 9\nfailed memory\nevents 1 to 2, lines 3 to 4")]],
    ),
    (
        "pages of three events, and a call that runs through one of them",
        [*CELL, "start 1 s2 get", "start 2 s1 put 1", "end 2 done", "start 3 s3 get", "end 3 done 0", "start 4 s3 get", "end 1 refused no",
         "end 4 done 0"],
        3,
        [[("s1", "done", 2, 3, "call 2 of s1: put 1\ndone\nevents 2 to 3, lines 4 to 5"),
          ("s2", "refused", 1, ">", "call 1 of s2: get\nrefused no\nevents 1 to 7, lines 3 to 9")],
         [("s2", "refused", "<", ">", "call 1 of s2: get\nrefused no\nevents 1 to 7, lines 3 to 9"),
          ("s3", "done", 4, 5, "call 3 of s3: get\ndone 0\nevents 4 to 5, lines 6 to 7"),
          ("s3", "done", 6, ">", "call 4 of s3: get\ndone 0\nevents 6 to 8, lines 8 to 10")],
         [("s2", "refused", "<", 7, "call 1 of s2: get\nrefused no\nevents 1 to 7, lines 3 to 9"),
          ("s3", "done", "<", 8, "call 4 of s3: get\ndone 0\nevents 6 to 8, lines 8 to 10")]],
    ),
    (
        "calls of one session that overlap, as no server lets them",
        [*CELL, "start 1 s1 get", "start 2 s1 get", "start 3 s1 put 3", "end 1 done 0", "end 2 done 0"],
        2,
        [[("s1", "done", 1, ">", "call 1 of s1: get\ndone 0\nevents 1 to 4, lines 3 to 6"),
          ("s1", "done", 2, ">", "call 2 of s1: get\ndone 0\nevents 2 to 5, lines 4 to 7")],
         [("s1", "done", "<", 4, "call 1 of s1: get\ndone 0\nevents 1 to 4, lines 3 to 6"),
          ("s1", "done", "<", ">", "call 2 of s1: get\ndone 0\nevents 2 to 5, lines 4 to 7"),
          ("s1", "running", 3, ">", "call 3 of s1: put 3\nstill running at the end of the trace\nevent 3, line 5")],
         [("s1", "done", "<", 5, "call 2 of s1: get\ndone 0\nevents 2 to 5, lines 4 to 7"),
          ("s1", "running", "<", ">", "call 3 of s1: put 3\nstill running at the end of the trace\nevent 3, line 5")]],
    ),
    (
        "calls of one session that run through a whole page are one bar",
        [*CELL, "start 1 s1 get", "start 2 s1 get", "start 3 s2 get"],
        2,
        [[("s1", "running", 1, ">", "call 1 of s1: get\nstill running at the end of the trace\nevent 1, line 3"),
          ("s1", "running", 2, ">", "call 2 of s1: get\nstill running at the end of the trace\nevent 2, line 4")],
         [("s1", "many", "<", ">", "2 calls of s1 run through this page\n1, 2"),
          ("s2", "running", 3, ">", "call 3 of s2: get\nstill running at the end of the trace\nevent 3, line 5")]],
    ),
    ("a trace without a call", CELL, None, [[]]),
    ("an object without a part", ["object o"], None, [[]]),
]
# What a line is after two that are in order (the second one starts call 1 of s1), and what is told of it.
BAD = ["", "#", "object cell", "part v 0101000100000000", "START 2 s2 get", "start 2 s2", "start 2 2 get", "start 0 s2 get", "start 65537 s2 get",
       "start 1 s2 get", "start 2 s0 get", "start 2 s1025 get", "start x s2 get", "start 2 s2 'get'", "start 2 s2 g-t", "start 2 s2 put x",
       "start 2 s2 put 4294967296", "start 2 s2 put 'a", "start 2 s2 put 'a'b", "end", "end 1", "end 1 gone", "end 1 done 3 4", "end 1 done x",
       "end 1 refused", "end 1 refused Poor", "end 1 refused abcdefghijklmnopq", "end 1 failed disk", "end 0 done", "end 65537 done",
       "end 1 done 'a\tb'", "end 1 done '\xe9'", "\tend 1 done"]
NOT_RUNNING = ["end 2 done", "end 65536 refused no"]
# Traces of which nothing is drawn.
UNDRAWN: list[tuple[list[str], int]] = [([], 1), (["object"], 1), (["object 9"], 1), (["part v 00"], 1), (["object a b"], 1), (["object o", "part v 0"], 2),
           (["object o", "part v 0A"], 2), (["object o", "part v"], 2), (["object o", "part 'v' 00"], 2), (["object o", "part v 00", "end 1"], 3)]


LEGEND = {"done": "done", "refused": "refused", "failed": "failed", "running": "still running at the end", "many": "several at once"}
# An epoch of build_slots, of which two slots were taken before. Behind it stand a call that never was, and bytes that
# count for nothing. Then its bars, who waits, and what is held: row, from and to an event, the calls that took it.
KEPT = [
    "object build_slots epoch 4", "source 0123456789abcdef", "past take_slot 2", "base 100", "carried 1 57 s7 take_slot", "carried 2 60 s9 begin_release",
    "client s3 ann 5", "kept s3 4 50 done take_slot", "start 3 s3 give_slot", "end 3 done", "name s65535 bob", "start 1 s7 take_slot", "end 1 done",
    "start 5 s65535 take_slot", "end 5 done", "cancel 4 s4 take_slot", "start 6 s7 give_slot", "end 6 done",
    "cancel 8 s10 take_slot",
]
BEHIND = ["start 7 s1 take_slot", "\0\0junk", "start 8 s1 take_slot", "end 8 done"]
KEPT_BARS: list[tuple] = [
    ("s3 ann", "done", 1, 2, "call 103 of s3 ann: give_slot\ndone\nevents 1 to 2, lines 9 to 10"),
    ("s7", "done", 3, 4, "call 57 of s7: take_slot\ndone\nevents 3 to 4, lines 12 to 13\nwaited before the first event"),
    ("s65535 bob", "done", 5, 6, "call 105 of s65535 bob: take_slot\ndone\nevents 5 to 6, lines 14 to 15"),
    ("s7", "done", 8, 9, "call 106 of s7: give_slot\ndone\nevents 8 to 9, lines 17 to 18"),
]
KEPT_WAITS: list[tuple] = [("s4", 104, 5, 7), ("s7", 57, "<", 3), ("s9", 60, "<", ">"), ("s10", 108, 10, 10)]
KEPT_HOLDS: list[tuple] = [("s3 ann", "<", 1, [0]), ("s65535 bob", 6, ">", [105]), ("s7", 4, 8, [57])]
# The same epoch with a format, where check lines join them, also what was held, and when the clock called: its rounds begin
# with these of its lines, counted from 0.
ROUNDS = (8, 10, 13, 15, 18)
HELD = ["held s3 50 take_slot", "held s65535 61 begin_release 'a b' 7", "tick take_slot 1764576000"]
TICK = "tick begin_release 1764576060"


def with_checks() -> list[str]:
    """Its lines."""
    parts = [KEPT[at:end] for at, end in zip((0, *ROUNDS), (*ROUNDS, None))]
    parts[0] = [parts[0][0].replace(" epoch", " format 2 epoch"), *parts[0][1:], *HELD]
    parts[2] = [TICK, *parts[2]]
    return sums.epoch(*("".join(f"{it}\n" for it in part).encode() for part in parts)).decode().splitlines()


CHECKED = with_checks()
# Lines that cannot be in that one, in the place of one of its lines, by its number; and which line is told.
FRONT = next(at for at, it in enumerate(CHECKED, 1) if it.startswith("front "))
NOT_CHECKED = [(1, "object build_slots epoch 4", FRONT, "bad"), (1, "object build_slots format 3 epoch 4", 1, "has format 3"),
               (1, "object build_slots format 02 epoch 4", 1, "bad"), (FRONT, "base 100", FRONT, "bad"), (FRONT, "stored 9 00000000", FRONT, "bad"),
               (FRONT, "name s5 eve", FRONT, "bad"), (FRONT - 1, "front 9 00000000", FRONT, "bad"), (FRONT + 1, CHECKED[FRONT - 1], FRONT + 1, "bad"),
               (FRONT + 1, HELD[0], FRONT + 1, "bad"), (FRONT - 1, "start 3 s3 give_slot", FRONT - 1, "bad")]
# Lines that cannot be in an epoch, in the place of one of its lines, by its number.
NOT_KEPT = [(2, "part v 0g"), (3, "past take_slot 0"), (3, "past begin"), (4, "base x"), (4, "base 18446744073709551616"), (4, "client s3 ann 5"),
            (5, "source 0123456789abcdef"), (5, "base 100"), (5, "carried 1 57 s7"), (7, "client s65536 ann 5"), (7, "client s3 9 5"), (8, "past take_slot 2"),
            (11, "name s0 bob"), (11, "name s8"), (16, "cancel 0 s4 take_slot"), (16, "cancel 3 s4 take_slot"), (16, "cancel 4 s4"), (16, "carried 9 9 s9 a")]
# What a folder's audit says of an epoch, what the picture says of that, and the event that has a mark.
FOLDER = [("build_slots epochs 4 entries 9 whole", 0, "epochs 4 entries 9 whole", None), ("build_slots epoch 4 line 12 wrong reply", 1, "line 12 wrong reply", 3),
          ("build_slots epoch 3 line 12 wrong reply", 1, "epoch 3 line 12 wrong reply", None), ("build_slots no journal", 1, "no journal", None)]
# Each `;` of a path that says all that paths can say, and of the others none.
SHAPES = ("object o; const n = 2; path n : (a; (b, c); [d]) end; path 3:(e, f) end; (* path (x; y) end; *) { it's } path [(g; h), k] end;"
          " entry procedure a; begin refuse('; path') end; end; object p; path (a; b) end; end;")
TURNS = ["a; (b, c)", "(b, c); [d]", "g; h"]


# What an audit says of the first small trace, whose line 3 is its first event: the status, whether the picture ends
# before that line, and the event that has a mark.
SAID = [("legal 5", 0, None, None), ("line 6 wrong reply", 1, None, 4), ("line 12 wrong reply", 1, None, 10),
        ("line 3 breaks path 2", 1, None, 1), ("line 8 bad", 1, 5, None),
        ("line 14 bad", 1, 11, None), ("line 4 not running", 1, 1, None), ("no object account", 1, None, None), ("line 2 bad", 1, 0, None)]


def classes(it: tree.Element) -> list[str]:
    return (it.get("class") or "").split()


def length_of(it: tree.Element, name: str) -> float:
    """A length that an element says."""
    return float(there(it.get(name), name))


def title_of(it: tree.Element) -> str:
    """What an element tells where the pointer rests."""
    return there(there(it.find(SVG + "title")).text)


def spans(row: tree.Element, kind: str) -> Iterator[tuple[float, float, str]]:
    """Of each rectangle of this kind in a row: from where to where it is, and what it tells."""
    for it in row.iter(SVG + "rect"):
        if classes(it)[:1] == [kind]:
            left, wide = length_of(it, "x"), length_of(it, "width")
            yield left, left + wide, title_of(it)


class Page:
    """What the picture of a page shows."""

    def __init__(self, path: pathlib.Path) -> None:
        root = tree.fromstring(path.read_bytes())
        texts = [(it.get("class") or "", length_of(it, "x"), "".join(it.itertext())) for it in root.iter(SVG + "text")]
        self.ticks = [(x, int(said)) for kind, x, said in texts if kind.split()[:1] == ["tick"]]
        self.summary = [said for kind, _, said in texts if kind in ("title", "summary", "fault")]
        self.links = {"".join(it.itertext()).strip(): it.get("href") for it in root.iter(SVG + "a")}
        self.rows = [it for it in root.iter(SVG + "g") if it.get("class") == "row"]
        self.strips = [it for it in root.iter(SVG + "g") if it.get("class") == "strip"]
        self.tall, self.wide = length_of(root, "height"), length_of(root, "width")
        self.legend = [said for kind, _, said in texts if kind == "key"]
        # Of each operation in the legend its colour, and the letters that stand for one.
        self.colours: dict[str, str] = {}
        self.key: dict[str, str] = {}
        for it in (it for it in root.iter(SVG + "g") if it.get("class") == "operation"):
            *letter, name = ["".join(one.itertext()) for one in it.iter(SVG + "text")]
            self.colours[name] = classes(there(it.find(SVG + "rect")))[1]
            self.key |= dict.fromkeys(letter, name)
        self.marks = [length_of(it, "x1") for it in root.iter(SVG + "line") if it.get("class") == "mark"]
        self.cuts = [it for it in root.iter(SVG + "line") if it.get("class") == "cut"]

    def names(self) -> list[str]:
        return [it.text or "" for row in self.rows for it in row.iter(SVG + "text") if it.get("class") == "name end"]

    def unlabelled(self) -> list[str]:
        """Bars whose label is none of their call, or does not fit, or that have none and had room for a letter; or whose
        colour is not that of their operation; letters that nobody has."""
        found: list[str] = []
        used: set[str] = set()
        for row in self.rows:
            pieces = [it for it in row if classes(it)[:1] != ["inside"]]
            for bar, after in zip(pieces, [*pieces[1:], None]):
                kind = classes(bar)
                if kind[:1] != ["bar"] or kind[1] == "many":
                    continue
                words = title_of(bar).split("\n")[0].split(": ", 1)[1]
                operation = words.split(" ")[0]
                # What failed is red, and its colour stands inside of it, where there is room.
                if kind[2:] != ([] if kind[1] == "failed" else [self.colours[operation]]):
                    found.append(f"{words} has the colour {kind[2:]}")
                left, wide = length_of(bar, "x"), length_of(bar, "width")
                label = after if after is not None and (after.get("class") or "").startswith("label") else None
                if label is None:
                    found += [f"{words} has no letter"] if wide >= 8 and len(self.key) < 62 else []
                    continue
                said, at = there(label.text), length_of(label, "x")
                is_word = said in (words, operation) and (len(said) > 1 or said not in self.key)
                if not is_word:
                    used.add(said)
                if not is_word and self.key.get(said) != operation:
                    found.append(f"{words} is called {said}, which is {self.key.get(said)}")
                if at < left or at + 6.65 * len(said) > left + wide:
                    found.append(f"{said} stands beside {words}")
        return found + [f"{it} is no bar's" for it in self.key if it not in used]

    def slot(self) -> float:
        """How wide an event is. Where one alone has a number, the next one would stand 72 pixels behind it."""
        if len(self.ticks) < 2:
            return 72
        (left, first), (right, last) = self.ticks[0], self.ticks[-1]
        return (right - left) / (last - first)

    def place(self, x: float) -> float:
        """The event that stands here by the axis."""
        left, first = self.ticks[0]
        return first + (x - left) / self.slot()

    def bars(self, first: int, last: int) -> list[Bar]:
        """What the rows show: row, kind, from and to an event, tooltip. A bar reaches two pixels over its events, or
        nearly half of the way to the next one."""
        reach = min(2, self.slot() / 2 - 0.25)
        found: list[Bar] = []
        for row, name in zip(self.rows, self.names()):
            for bar in row.iter(SVG + "rect"):
                kind = classes(bar)
                if kind[0] == "bar":
                    left, wide = length_of(bar, "x"), length_of(bar, "width")
                    start, end = (self.event(it, first, last) for it in (left + reach, left + wide - reach))
                    found.append((name, kind[1], start, end, title_of(bar)))
        return found

    def waits(self, first: int, last: int) -> list[tuple[str, int, Event, Event]]:
        """Who waits: row, number of the call, from and to an event."""
        return [(name, int(title.split()[1]), self.event(left, first, last), self.event(right, first, last))
                for row, name in zip(self.rows, self.names()) for left, right, title in spans(row, "wait")]

    def holds(self, first: int, last: int) -> list[tuple[str, Event, Event, list[int]]]:
        """What is held: row, from and to an event, and the calls that took it (0: one before the trace)."""
        return [(name, self.event(left, first, last), self.event(right, first, last),
                 [int(it.split()[3].rstrip(",")) if "by call" in it.split(",")[0] else 0 for it in title.split("\n")[1:]])
                for row, name in zip(self.rows, self.names()) for left, right, title in spans(row, "hold")]

    def event(self, x: float, first: int, last: int) -> Event:
        place = self.place(x)
        if place < first - 0.2 or place > last + 0.2:
            return "<" if place < first else ">"
        if abs(place - round(place)) > 0.05:
            raise ValueError(f"{x} stands between events")
        return round(place)

    def hidden(self) -> list[str | None]:
        """Bars that overlap another one, or stand outside their row or the picture."""
        before = 0.0
        found: list[str | None] = []
        for row in self.rows:
            lanes: dict[float, list[tuple[float, float]]] = {}
            for bar in row.iter(SVG + "rect"):
                if classes(bar)[:1] == ["bar"]:
                    left, wide, top = (length_of(bar, it) for it in ("x", "width", "y"))
                    lanes.setdefault(top, []).append((left, left + wide))
            tops = sorted(lanes)
            found += [row.get("id") for it in tops if it < before or it + 16 > self.tall]
            found += [row.get("id") for one, two in zip(tops, tops[1:]) if two - one < 16]
            for bars in (sorted(it) for it in lanes.values()):
                found += [row.get("id") for one, two in zip(bars, bars[1:]) if one[1] > two[0]]
                found += [row.get("id") for one, two in bars if one < 60 or two > self.wide]
            before = tops[-1] + 16 if tops else before
        return found


class Index:
    """What an index shows: of each page its link, its events, what its bars tell, and how wide they are."""

    def __init__(self, path: pathlib.Path) -> None:
        root = tree.fromstring(path.read_bytes())
        links = [it for it in root.iter(SVG + "a")]
        self.links = [("".join(it.itertext()).strip(), it.get("href")) for it in links]
        self.events = [it.text for it in root.iter(SVG + "text") if it.get("class") == "soft"]
        self.here = [length_of(it, "y") for it in root.iter(SVG + "text") if it.text == "here"]
        place = {(round(length_of(there(it.find(SVG + "text")), "x")), round(length_of(there(it.find(SVG + "text")), "y"))): at for at, it in enumerate(links)}
        self.bars: list[list[tuple[str, float, str]]] = [[] for _ in links]
        for bar in root.iter(SVG + "rect"):
            if (bar.get("class") or "").startswith("bar "):
                x, y = length_of(bar, "x"), length_of(bar, "y") + 10
                [at] = [at for (left, top), at in place.items() if top == round(y) and left <= x < left + 500]
                self.bars[at].append((classes(bar)[1], length_of(bar, "width"), title_of(bar)))


def index_faults(path: pathlib.Path, drawn: Sequence[pathlib.Path], ends: Iterable[tuple[str, int]], most: int, events: int) -> str | None:
    """What is wrong with an index, if anything: `ends` are kinds and events of the ends."""
    index, counts = Index(path), [dict.fromkeys(("done", "refused", "failed"), 0) for _ in drawn]
    for kind, event in ends:
        counts[(event - 1) // most][kind] += 1
    if index.links != [(f"page {it}", file.name.replace(" ", "%20")) for it, file in enumerate(drawn, 1)]:
        return f"the index has the links {index.links}"
    spans = [(it * most + 1, min(it * most + most, events)) for it in range(len(drawn))]
    if index.events != [f"events {first} to {last}" for first, last in spans]:
        return f"the index has {index.events}"
    widest = max(sum(it.values()) for it in counts) or 1
    for bars, wanted in zip(index.bars, counts):
        if [kind for kind, _, _ in bars] != [it for it in wanted if wanted[it]]:
            return f"the index has the bars {bars}, of {wanted}"
        for kind, wide, title in bars:
            if abs(wide - 240 * wanted[kind] / widest) > 0.01 or f"{wanted[kind]} {kind}" not in title:
                return f"the index has a bar of {wide} and {title!r} for {wanted[kind]} {kind}"
    return None


def ran(folder: pathlib.Path, lines: Sequence[str], *words: str) -> Ran:
    """Runs the tool on a trace in an empty folder: its status, what it said on standard error, its pages, or the one
    picture; where there are pages, the picture with no number is the index, which is left in the folder."""
    for it in folder.iterdir():
        it.unlink()
    (folder / "a b.trace").write_bytes("\n".join(lines).encode("latin-1"))
    told, sys.argv = io.StringIO(), [str(TOOL), str(folder / "a b.trace"), *words]
    with contextlib.redirect_stdout(io.StringIO()), contextlib.redirect_stderr(told):
        status = timeline.main()
    drawn = [it for it in folder.iterdir() if it.suffix == ".svg"]
    if len(drawn) > 1:
        drawn.remove(folder / "a b.svg")
    drawn.sort(key=lambda it: int(there(re.search(r"(\d*)\.svg", it.name))[1] or 0))
    return status, told.getvalue(), drawn


def small(folder: pathlib.Path, lines: Sequence[str], most: int | None, wanted: Sequence[Sequence[Bar]]) -> str | None:
    """What is wrong with the picture of a small trace, if anything."""
    status, error, drawn = ran(folder, lines, *([] if most is None else ["--events", str(most)]))
    if status or error or len(drawn) != len(wanted):
        return f"status {status}, {error!r}, {len(drawn)} pages"
    events = sum(it.split()[0] in ("start", "end") for it in lines)
    most = most or 400
    for place, (path, bars) in enumerate(zip(drawn, wanted)):
        page = Page(path)
        found = page.bars(place * most + 1, min(place * most + most, events)) if events else []
        if sorted(map(str, found)) != sorted(map(str, bars)):
            return f"page {place + 1} shows {found}"
        if page.hidden():
            return f"page {place + 1} hides bars of {page.hidden()}"
        # Who does nothing on a page has no row there, and what is not there is not in the legend.
        if page.names() != [f"s{it}" for it in sorted({int(bar[0][1:]) for bar in bars})]:
            return f"page {place + 1} has the rows {page.names()}"
        kinds = {bar[1] for bar in bars}
        if [it for it in page.legend if it in LEGEND.values()] != ([] if kinds <= {"done"} else [said for it, said in LEGEND.items() if it in kinds]):
            return f"page {place + 1} has the legend {page.legend}"
        places = {"first": 0, "previous": place - 1} if place else {}
        places |= {"next": place + 1, "last": len(drawn) - 1} if place + 1 < len(drawn) else {}
        links = {name: drawn[it].name.replace(" ", "%20") for name, it in places.items()}
        if page.links != ({"index": "a%20b.svg"} if len(drawn) > 1 else {}) | links:
            return f"page {place + 1} has links {page.links}"
        if page.unlabelled():
            return f"page {place + 1}: {page.unlabelled()}"
    if len(drawn) > 1:
        ends = {(int(title.split()[1]), kind, end) for page in wanted for _, kind, _, end, title in page if end not in ("<", ">")}
        return index_faults(folder / "a b.svg", drawn, [(kind, end) for _, kind, end in ends], most, events)
    return None


def window(folder: pathlib.Path, lines: Sequence[str], first: int, most: int, bars: Sequence[Bar]) -> object:
    """What is wrong with the one picture that begins with an event, if anything."""
    status, error, drawn = ran(folder, lines, "--from", str(first), "--events", str(most))
    if status or error or [it.name for it in drawn] != [f"a b-from-{first}.svg"]:
        return f"status {status}, {error!r}, {drawn}"
    page, events = Page(drawn[0]), sum(it.split()[0] in ("start", "end") for it in lines)
    last = min(first + most - 1, events)
    found = page.bars(first, last)
    if sorted(map(str, found)) != sorted(map(str, bars)):
        return f"it shows {found}, not {bars}"
    return page.unlabelled() or page.hidden() or (None if any(it.startswith(f"events {first} to {last} of {events}") for it in page.summary) else f"it says {page.summary}")


def cut_bars(first: int, last: int, calls: Mapping[int, Sequence[Any]]) -> dict[int, tuple[str, str, Event, Event]]:
    """The bars of calls, as number, row, kind, start and end, that one picture of these events shows."""
    shown = {it: call for it, call in calls.items() if call[2] <= last and (call[3] == ">" or call[3] >= first)}
    return {it: (row, kind, "<" if start < first else start, ">" if end == ">" or end > last else end)
            for it, (row, kind, start, end) in shown.items()}


def windows(folder: pathlib.Path, trace: "Drawn") -> str | None:
    """What is wrong with pictures of a long trace that begin somewhere, if anything."""
    for first in (1, 2, 777, trace.events - 401, trace.events - 1, trace.events):
        status, error, drawn = ran(folder, trace.lines, "--from", str(first))
        if status or error or len(drawn) != 1:
            return f"status {status}, {error!r}, {len(drawn)} pictures"
        last = min(first + 399, trace.events)
        page = Page(drawn[0])
        found = {int(title.split()[1]): (row, kind, start, end) for row, kind, start, end, title in page.bars(first, last)}
        if found != cut_bars(first, last, trace.calls):
            return f"from {first} it shows {found}"
        if page.unlabelled() or page.hidden():
            return f"from {first}: {page.unlabelled()} {page.hidden()}"
    return None


def lettered(folder: pathlib.Path) -> str | None:
    """What is wrong with the letters of operations whose names begin alike, if anything: each has its own."""
    names = ["put", "pay", "p", "pp", "up", "_".join("put"), "P", *(f"put{it}" for it in range(60)), *(f"q{it}" for it in range(30))]
    lines = list(CELL)
    for number, name in enumerate(names, 1):
        lines += [f"start {number} s1 {name}", f"end {number} done"]
    # So wide that a bar has room for one letter.
    status, error, drawn = ran(folder, lines, "--from", "1", "--events", "150")
    if status or error:
        return f"status {status}, {error!r}"
    page = Page(drawn[0])
    if page.unlabelled():
        return f"{page.unlabelled()}"
    if len(page.key) < 40 or page.key.get("p") != "put" or page.key.get("a") != "pay" or page.key.get("u") != "up":
        return f"the key is {page.key}"
    return None


def said(folder: pathlib.Path, word: str, status: int, last: int | None, marked: int | None) -> str | None:
    """What is wrong with the picture of a trace of which an audit says this, if anything."""
    lines = SMALL[0][1]

    def drawn_with(more: Sequence[str]) -> Ran:
        # The folder is emptied before each run, so the program that audits stands beside it.
        with tempfile.TemporaryDirectory() as place:
            fake = pathlib.Path(place) / "fake"
            fake.write_text(f"#!/bin/sh\necho '{word}'\nexit {1 if status else 0}\n")
            fake.chmod(0o755)
            objects = pathlib.Path(place) / "it.pp"
            objects.write_text("object other; end;")
            return ran(folder, lines, "--audit", str(objects), "--program", str(fake), *more)

    found, error, drawn = drawn_with([])
    if (found, error) != (status, f"{word}\n") or len(drawn) != (0 if last == 0 else 1):
        return f"status {found}, {error!r}, {len(drawn)} pictures"
    if last == 0:
        return None
    page, events = Page(drawn[0]), 11
    told = f"{word}: what stands before it is drawn" if last is not None else word
    if told not in page.summary:
        return f"the picture says {page.summary}"
    if [page.event(it, 1, events) for it in page.marks] != ([] if marked is None else [marked]):
        return f"the marks are {page.marks}"
    if len(page.cuts) != (0 if last is None else 1):
        return f"{len(page.cuts)} ends are marked"
    ends = [it for bar in page.bars(1, last or events) for it in bar[2:4] if it not in ("<", ">")]
    if max(ends) != (last or events):
        return f"the last event is {max(ends)}"
    if marked is not None:
        drawn_with(["--events", "4"])
        index = Index(folder / "a b.svg")
        if len(index.here) != 1 or (index.here[0] - 149) / 18 != (marked - 1) // 4:
            return f"the index has its mark at {index.here}"
    return None


def damaged(folder: pathlib.Path, line: str, why: str) -> str | None:
    """What is wrong with the picture of a trace whose fourth line is damaged, if anything."""
    status, error, drawn = ran(folder, [*CELL, "start 1 s1 get", line, "end 1 done 3"])
    if (status, error, len(drawn)) != (1, f"line 4 {why}\n", 1):
        return f"status {status}, {error!r}, {len(drawn)} pages"
    page = Page(drawn[0])
    if not any(it.startswith(f"line 4 {why}: ") for it in page.summary):
        return f"the picture says {page.summary}"
    bars = [("s1", "running", 1, ">", "call 1 of s1: get\nstill running at the end of the trace\nevent 1, line 3")]
    return None if page.bars(1, 1) == bars else f"the picture shows {page.bars(1, 1)}"


def undrawn(folder: pathlib.Path, lines: Sequence[str], line: int) -> str | None:
    status, error, drawn = ran(folder, lines)
    told = (status, error, len(drawn))
    return None if told == (1, f"line {line} bad\n", 0) else f"{told}"


class Drawn:
    """A drawn trace: its lines, and of each call its row, its kind, its start and its end."""

    def __init__(self, seed: int, calls: int, sessions: int, at_once: int) -> None:
        draw = random.Random(seed)
        self.lines, self.events, idle = [*CELL], 0, list(range(1, sessions + 1))
        self.calls: dict[int, list[Any]] = {}
        busy: list[tuple[int, int]] = []
        # All numbers stand in their order: then nobody waits, and there is less to draw.
        numbers: Sequence[int] = range(1, 65537) if calls == 65536 else draw.sample(range(1, 65537), calls)
        while len(self.calls) < calls or len(busy) > 3:
            self.events += 1
            if len(self.calls) < calls and idle and len(busy) < at_once and (not busy or draw.random() < 0.55):
                session = idle.pop(draw.randrange(len(idle)))
                number = numbers[len(self.calls)]
                self.lines.append(f"start {number} s{session} get")
                self.calls[number] = [f"s{session}", "running", self.events, ">"]
                busy.append((number, session))
            else:
                number, session = busy.pop(draw.randrange(len(busy)))
                ending = draw.choice(("done 7", "refused no", "failed device"))
                self.lines.append(f"end {number} {ending}")
                self.calls[number][1], self.calls[number][3] = ending.split()[0], self.events
                idle.append(session)


def long(folder: pathlib.Path, trace: "Drawn | Worlds") -> str | None:
    """What is wrong with the pages of a drawn trace, if anything."""
    status, error, drawn = ran(folder, trace.lines)
    if status or error or len(drawn) != max(-(-trace.events // 400), 1):
        return f"status {status}, {error!r}, {len(drawn)} pages"
    if len(drawn) > 1:
        ends = [(kind, end) for _, kind, _, end in trace.calls.values() if end != ">"]
        if why := index_faults(folder / "a b.svg", drawn, ends, 400, trace.events):
            return why
    pieces: dict[int, list[tuple[int, str, str, Event, Event]]] = {it: [] for it in trace.calls}
    for place, path in enumerate(drawn):
        page, first, last = Page(path), place * 400 + 1, min(place * 400 + 400, trace.events)
        if page.hidden() or page.unlabelled():
            return f"{path.name} hides bars of {page.hidden()}, {page.unlabelled()}"
        for row, kind, start, end, title in page.bars(first, last):
            pieces[int(title.split()[1])].append((place, row, kind, start, end))
    for number, (row, kind, start, end) in trace.calls.items():
        last = trace.events // 400 if end == ">" else (end - 1) // 400
        runs = [it for it in range((start - 1) // 400, last + 1) if it < len(drawn)]
        wanted = [(it, row, kind, start if it == runs[0] else "<", end if it == runs[-1] else ">") for it in runs]
        if pieces[number] != wanted:
            return f"call {number} has {pieces[number]}, not {wanted}"
    return None


def slow_waits(calls: Mapping[int, Sequence[Any]]) -> Iterator[tuple[str, int, Event, Event]]:
    """Who waits in the trace of these calls, from its rules: number and events. A call waits where one with a later
    number has started, and the one before it of its session has ended."""
    for number, (row, _, start, _) in calls.items():
        since = min((it[2] for later, it in calls.items() if later > number), default=start)
        free = max((it[3] for it in calls.values() if it[0] == row and it[2] < start), default=0)
        if max(since, free) < start:
            yield row, number, max(since, free), start


def waiting(folder: pathlib.Path, trace: Drawn) -> str | None:
    """What is wrong with the grey lines of a drawn trace, if anything."""
    status, error, drawn = ran(folder, trace.lines, "--events", "100000")
    if status or error or len(drawn) != 1:
        return f"status {status}, {error!r}, {len(drawn)} pages"
    found, wanted = sorted(Page(drawn[0]).waits(1, trace.events)), sorted(slow_waits(trace.calls))
    return None if found == wanted and wanted else f"it shows {found}, not {wanted}"


class Slots:
    """A drawn trace of build_slots, and what is held in it: each with its session, the events, and its call."""

    def __init__(self, seed: int) -> None:
        draw = random.Random(seed)
        held: list[tuple[int, int, int]] = []
        self.lines, self.events = ["object build_slots"], 0
        self.holds: list[tuple[int, int, Event, int]] = []
        for number in range(1, 200):
            session = draw.randrange(1, 7)
            is_taken = len(held) < 3 and (not held or draw.random() < 0.5)
            self.lines += [f"start {number} s{session} {'take' if is_taken else 'give'}_slot", f"end {number} {'done' if draw.random() < 0.9 else 'refused no'}"]
            if is_taken:
                held.append((session, 2 * number, number))
            else:
                own = [it for it in held if it[0] == session]
                one = own[-1] if own else held[0]
                held.remove(one)
                self.holds.append((one[0], one[1], 2 * number - 1, one[2]))
        self.events = 398
        self.holds += [(session, start, ">", number) for session, start, number in held]


def holding(folder: pathlib.Path, trace: Slots) -> str | None:
    """What is wrong with what is held in a drawn trace, if anything: at each event, by whom it was taken."""
    status, error, drawn = ran(folder, trace.lines, "--objects", str(OBJECTS / "build_slots.pp"))
    if status or error or len(drawn) != 1:
        return f"status {status}, {error!r}, {len(drawn)} pages"
    page = Page(drawn[0])
    found: list[set[tuple[str, int]]] = [set() for _ in range(trace.events)]
    for row, first, end, calls in page.holds(1, trace.events):
        for event in range(first, trace.events if end == ">" else end):
            found[event] |= {(row, it) for it in calls}
    wanted = [{(f"s{session}", call) for session, first, end, call in trace.holds if first <= it < (trace.events if end == ">" else end)}
              for it in range(trace.events)]
    if found != wanted:
        return f"it shows {found}, not {wanted}"
    most = max(map(len, wanted))
    said = ["".join(there(it.find(SVG + "text")).itertext()) for it in page.strips]
    if said != [f"take_slot; give_slot holds {most} at most"]:
        return f"the strips say {said}"
    return None if levels(page, most) == [len(it) for it in wanted] else f"the strip shows {levels(page, most)}"


def levels(page: Page, most: int) -> list[int]:
    """How many the one strip shows behind each event."""
    words = re.findall("([MVH])([0-9.]+)(?: ([0-9.]+))?", there(there(page.strips[0].find(SVG + "path")).get("d")))
    base, last = float(words[0][2]), words[-2][1]
    level = 0
    found: list[int] = []
    for kind, it, _ in words[1:]:
        if kind == "V":
            level = round((base - float(it)) / 22 * most)
        else:
            until = 398 if it == last else round(page.place(float(it)))
            found += [level] * (until - len(found))
    return found


def kept(folder: pathlib.Path, lines: Sequence[str]) -> object:
    """What is wrong with the picture of an epoch of these lines, if anything."""
    status, error, drawn = ran(folder, [*lines, *BEHIND], "--objects", str(OBJECTS / "build_slots.pp"))
    if status or error or len(drawn) != 1:
        return f"status {status}, {error!r}, {len(drawn)} pages"
    page = Page(drawn[0])

    def new(found: re.Match[str]) -> str:
        return moved(lines, found)

    bars = [(*it, re.sub(r"lines (\d+) to (\d+)", new, title)) for *it, title in KEPT_BARS]
    shown: tuple[tuple[Sequence[Any], Sequence[Any]], ...] = (page.bars(1, 10), bars), (page.waits(1, 10), KEPT_WAITS), (page.holds(1, 10), KEPT_HOLDS)
    for found, wanted in shown:
        if sorted(map(str, found)) != sorted(map(str, wanted)):
            return f"it shows {found}"
    if page.legend != ["done", "waits", "held between two calls", "cancelled", "give_slot", "take_slot", "begin_release"]:
        return f"the legend is {page.legend}"
    if page.names() != ["s3 ann", "s4", "s7", "s9", "s10", "s65535 bob"]:
        return f"the rows are {page.names()}"
    if page.summary != ["object build_slots, epoch 4", "7 calls: 4 done, 0 refused, 0 failed, 2 cancelled, 1 waiting; at most 2 waited at once"]:
        return f"it says {page.summary}"
    return page.unlabelled() or page.hidden() or None


def moved(lines: Sequence[str], found: re.Match[str]) -> str:
    """The same lines of KEPT, by the numbers that they have among these."""
    first, last = (lines.index(KEPT[int(it) - 1]) + 1 for it in found.groups())
    return f"lines {first} to {last}"


def not_checked(folder: pathlib.Path, number: int, line: str, at: int, told: str) -> str | None:
    status, error, _ = ran(folder, [*CHECKED[: number - 1], line, *CHECKED[number:], *BEHIND])
    return None if (status, error) == (1, f"line {at} {told}\n") else f"status {status}, {error!r}"


def cut_front(folder: pathlib.Path, count: int) -> str | None:
    """A front that has these lines and no more."""
    status, error, drawn = ran(folder, [*CHECKED[:count], "\0"])
    return None if (status, error, drawn) == (1, f"line {count + 1} bad\n", []) else f"status {status}, {error!r}"


def not_kept(folder: pathlib.Path, number: int, line: str) -> str | None:
    lines = [*KEPT[: number - 1], line, *KEPT[number:], *BEHIND]
    status, error, _ = ran(folder, lines)
    return None if (status, error) == (1, f"line {number} bad\n") else f"status {status}, {error!r}"


def folder_says(folder: pathlib.Path, word: str, status: int, told: str, marked: int | None) -> str | None:
    """What is wrong with the picture of an epoch of whose folder an audit says this, if anything."""
    with tempfile.TemporaryDirectory() as place:
        fake = pathlib.Path(place) / "fake"
        fake.write_text(f"#!/bin/sh\n[ -d \"$3\" ] && echo 'other whole' && echo '{word}'\nexit {status}\n")
        fake.chmod(0o755)
        found, error, drawn = ran(folder, [*KEPT, *BEHIND], "--audit", str(OBJECTS / "build_slots.pp"), "--program", str(fake))
    if (found, error, len(drawn)) != (status, f"{told}\n", 1):
        return f"status {found}, {error!r}, {len(drawn)} pictures"
    page = Page(drawn[0])
    if [page.event(it, 1, 10) for it in page.marks] != ([] if marked is None else [marked]) or told not in page.summary:
        return f"the marks are {page.marks}, it says {page.summary}"
    return None


def shapes(folder: pathlib.Path) -> str | None:
    """What is wrong with what is read of paths, if anything."""
    (folder / "it.pp").write_text(SHAPES)
    lines, number = ["object o"], 0
    for op in "abcdefghk":
        number += 1
        lines += [f"start {number} s1 {op}", f"end {number} done"]
    turns = timeline.turns_of(timeline.paths_of(SHAPES, "o"), timeline.Trace("\n".join(lines).encode()).events, [])
    # (a is used up by b; of b and c one is left, since d was one activation of a burst)
    if [it.text for it in turns] != TURNS or [it.counts[-1] for it in turns] != [-1, 1, 0]:
        return f"it reads {[(it.text, it.counts) for it in turns]}"
    return None


class Worlds:
    """The trace that a drawn script leaves in a slow world, in the same form."""

    def __init__(self, seed: int) -> None:
        script = Script(seed)
        script.draw_lines()
        self.lines, self.events = list(script.world.trace_lines()), 0
        self.calls: dict[int, list[Any]] = {}
        for words in (it.split(" ") for it in self.lines):
            self.events += words[0] in ("start", "end")
            if words[0] == "start":
                self.calls[int(words[1])] = [words[2], "running", self.events, ">"]
            elif words[0] == "end":
                self.calls[int(words[1])][1:] = [words[2], self.calls[int(words[1])][2], self.events]


def statuses(folder: pathlib.Path) -> str | None:
    """What is wrong with the statuses of calls that cannot be done, if anything."""
    (folder / "it.trace").write_text("object o\n")
    (folder / "two.trace").write_text("object o\nstart 1 s1 a\nend 1 done\n")
    (folder / "bad.pp").write_text("object o; path 2:(a;) end; end;")
    (folder / "fake").write_text("#!/bin/sh\necho read fault >&2\nexit 3\n")
    (folder / "fake").chmod(0o755)
    calls: list[tuple[list[str | pathlib.Path], int]]
    calls = [([], 2), (["a", "b"], 2), ([folder / "it.trace", "--events", "0"], 2), ([folder / "none"], 3),
             ([folder / "it.trace", "-o", folder / "none" / "it.svg"], 3), ([folder / "it.trace", "--from", "1"], 2),
             ([folder / "two.trace", "--from", "0"], 2), ([folder / "two.trace", "--from", "3"], 2),
             ([folder / "two.trace", "--audit", "it.pp", "--program", folder / "none"], 3),
             ([folder / "two.trace", "--audit", "it.pp", "--program", "/bin/false"], 3),
             ([folder / "two.trace", "--audit", folder / "none", "--program", folder / "fake"], 3),
             ([folder / "two.trace", "--objects", folder / "none"], 3), ([folder / "two.trace", "--objects", folder / "two.trace"], 3),
             ([folder / "two.trace", "--objects", folder / "bad.pp"], 3)]
    for words, status in calls:
        found = subprocess.run([TOOL, *words], capture_output=True, text=True, timeout=60)
        if found.returncode != status or not found.stderr or "Traceback" in found.stderr:
            return f"{words}: status {found.returncode}, {found.stderr[-300:]!r}"
    return None


def stored(folder: pathlib.Path, trace: pathlib.Path) -> str | None:
    """What is wrong with the picture that is stored beside a trace, if anything: it is what the tool draws."""
    objects = str(OBJECTS / f"{trace.stem}.pp")
    status, error, drawn = ran(folder, trace.read_text(encoding="ascii").split("\n"), "--objects", objects)
    if status or error or [it.read_bytes() for it in drawn] != [trace.with_suffix(".svg").read_bytes()]:
        return f"status {status}, {error!r}, another picture"
    return None


def tries(folder: pathlib.Path) -> Iterator[tuple[str, Callable[[], object]]]:
    """What is tried: a title, and what is wrong with it."""
    for title, lines, most, wanted in SMALL:
        yield title, lambda: small(folder, lines, most, wanted)
    for why, bad in (("bad", BAD), ("not running", NOT_RUNNING)):
        for line in bad:
            yield f"{why}: {line!r}", lambda: damaged(folder, line, why)
    for text, number in UNDRAWN:
        yield f"nothing drawn: {text}", lambda: undrawn(folder, text, number)
    for seed in range(1, 21):
        yield f"drawn script {seed}", lambda: long(folder, Worlds(seed))
    for seed, calls, sessions, at_once in [(1, 399, 2, 2), (2, 1500, 64, 40), (3, 1500, 65, 65), (4, 3000, 1024, 256), (5, 65536, 1024, 24)]:
        yield f"{calls} calls of {sessions} sessions", lambda: long(folder, Drawn(seed, calls, sessions, at_once))
    three = SMALL[3][1]
    yield "one picture from event 2", lambda: window(folder, three, 2, 3, [
        ("s1", "done", 2, 3, "call 2 of s1: put 1\ndone\nevents 2 to 3, lines 4 to 5"),
        ("s2", "refused", "<", ">", "call 1 of s2: get\nrefused no\nevents 1 to 7, lines 3 to 9"),
        ("s3", "done", 4, ">", "call 3 of s3: get\ndone 0\nevents 4 to 5, lines 6 to 7")])
    yield "one picture from the last event", lambda: window(folder, three, 8, 3, [
        ("s3", "done", "<", 8, "call 4 of s3: get\ndone 0\nevents 6 to 8, lines 8 to 10")])
    yield "pictures from somewhere", lambda: windows(folder, Drawn(6, 1500, 40, 20))
    yield "letters", lambda: lettered(folder)
    for word, status, last, marked in SAID:
        yield f"an audit says {word}", lambda: said(folder, word, status, last, marked)
    for seed in range(1, 6):
        yield f"who waits, {seed}", lambda: waiting(folder, Drawn(seed, 150, 12, 6))
        yield f"what is held, {seed}", lambda: holding(folder, Slots(seed))
    yield "an epoch", lambda: kept(folder, KEPT)
    yield "an epoch with check lines", lambda: kept(folder, CHECKED)
    for number, line, at, told in NOT_CHECKED:
        yield f"line {number} of an epoch with check lines is {line!r}", lambda: not_checked(folder, number, line, at, told)
    for count in range(1, FRONT):
        yield f"a front of {count} lines", lambda: cut_front(folder, count)
    for number, line in NOT_KEPT:
        yield f"line {number} of an epoch is {line!r}", lambda: not_kept(folder, number, line)
    for word, status, told, event in FOLDER:
        yield f"an audit of a folder says {word}", lambda: folder_says(folder, word, status, told, event)
    yield "paths", lambda: shapes(folder)
    for trace in sorted((TOOL.parent.parent / "examples" / "traces").glob("*.trace")):
        yield f"the picture of {trace.name}", lambda: stored(folder, trace)
    yield "statuses", lambda: statuses(folder)


def trials(folder: pathlib.Path) -> Iterator[Trial]:
    return (Trial(title, attempt) for title, attempt in tries(folder))


def main() -> int:
    if sys.argv[1:]:
        print(__doc__, file=sys.stderr)
        return 2
    with tempfile.TemporaryDirectory() as folder:
        return run("try_timeline", trials(pathlib.Path(folder)))


load_tests = whole(main)
