"""Draws the trace of an object as SVG: a row a session, a bar a call from its start to its end, in the colour of its
operation; how it ended; where it waited; and what was held between two calls.

usage: tools/timeline TRACE [-o FILE] [--events N] [--from EVENT] [--objects OBJECTS] [--audit OBJECTS [--program PATH]]

TRACE is a trace as a server or a script leaves it, or an epoch of a kept object (NAME.journal, NAME.000001.trace), which
also tells the names of clients and who waited when it began. FILE is TRACE with the ending .svg where it is not given. A
picture holds N events (starts, ends and cancels), 400 where it is not given; a longer trace is drawn in pages FILE-1.svg,
FILE-2.svg and so on, with links between them, and FILE is an index of the pages: how the calls of each ended. A call that
runs on from one page to the next has a bar on each. With --from one picture is drawn, FILE-from-EVENT.svg where no FILE
is given: it begins with this event, from 1. A page has the rows of the sessions that do something on it. Open a picture
in a browser: a bar tells its call where the pointer rests. A bar that is too short for a word has the letter of its
operation, which the legend tells; one that is too short for a letter has none.

The place in the picture is the place in the trace: a trace has no times. Bars above each other ran at once. A grey line
in front of a bar says that its call waited: a call with a later number had started. It may have waited for longer.

With --objects the paths of the object are read in this file. Then each `;` has a strip above the rows: so many ends of
its left side no start of its right side has used up yet; what that is, a slot that is taken or a job that waits, the
object says. In the rows what a session took has a pale bar until it is given back: by a call of this session the newest,
by one of another session the oldest of all (a path does not tell which).

Neither the paths nor the replies are judged, unless --audit says of which file of objects the trace is (it does as
--objects, too): then picture and standard error have what `pathserve audit` says, of an epoch what it says of the folder,
and the picture has a mark at the event of the line that it names.

Where a line is damaged, what stands before it is drawn, the picture and standard error say which line it is, as
`pathserve audit` does (`line N bad`, `line N not running`), and the status is 1. Before the first start or end
nothing is drawn then. Exit statuses: 0 all was drawn; 1 a damaged line, or a trace that is not legal; 2 usage; 3 a
read or write fault.
"""
import argparse
import collections
import dataclasses
import pathlib
import subprocess
import sys
import urllib.parse
import xml.sax.saxutils
from collections.abc import Iterable, Iterator, Mapping, Sequence
from typing import TypeVar

from tools.held import Hold, Turn, Unread, paths_of, turns_of
from tools.traced import Call, Trace, epoch_of

EVENTS = 400
# Lengths in pixels: the plot, an event at most, a page at least; what stands right of the rows and below them, and left
# of them at least; how far a bar reaches over the first or the last event of a page from or to which it runs on, and
# over its own at most, so that it is seen.
PLOT, WIDEST, NARROWEST, RIGHT, BOTTOM, LEFT, OVER, REACH = 1200, 72, 760, 8, 16, 64, 20, 2
# A lane of a row, what stands between rows, a letter of a label, two numbers of the axis at least, and a strip.
LANE, GAP, LETTER, TICK, STRIP = 20, 6, 6.65, 56, 46
# Of the index: the top of its rows, the rows of a column, the height of one, the width of a column and of the widest
# bar, and where bars begin in it.
TOP, DEEP, LINE, COLUMN, LONG, BEGIN = 116, 60, 18, 500, 240, 210
# So many letters of a name stand in front of a row.
NAMED = 24
# How a call ended, and what the legend says of it.
KINDS = {"done": "done", "refused": "refused", "failed": "failed", "running": "still running at the end",
         "many": "several at once"}
WAITS, HOLDS = "waits", "held between two calls"
# The colours of operations, in the order in which they first start; behind the last one the first one comes again. Most
# are Okabe's and Ito's, which people who see few colours can tell apart. Red is for what failed, grey for who waits.
COLOURS = ("#56b4e9", "#e69f00", "#2aa57a", "#cc79a7", "#8c83e0", "#c9b81f", "#a87b51", "#4a7fc8")
STYLE = (
    """
text{font:12px system-ui,sans-serif;fill:#1b1f24}
.page,.inside{fill:#fff} .band{fill:#8090a8;fill-opacity:.1} .rule{stroke:#d8dde3} .soft{fill:#57606a}
.title{font-size:17px;font-weight:600} .end{text-anchor:end} .middle{text-anchor:middle}
.fault{fill:#a8320a;font-weight:600} .cut{stroke:#a8320a;stroke-dasharray:3 3} .mark{stroke:#a8320a;stroke-width:2}
a text{fill:#0059a3;text-decoration:underline} .label{font:11px ui-monospace,monospace;pointer-events:none;fill:#111}
.bar,.key,.plain{fill:#8c959f;stroke:#6e7781;stroke-width:0} text.key{fill:#1b1f24} .bar:hover{stroke:#111;stroke-width:2}
"""
    + " ".join(f".o{at}{{fill:{it};stroke:{it}}}" for at, it in enumerate(COLOURS))
    + """
.failed{fill:#d1242f} .running{fill-opacity:.3;stroke-width:1.5;stroke-dasharray:4 2} .inside{pointer-events:none}
.wait{fill:#8c959f;fill-opacity:.75} .hold{fill-opacity:.4;stroke:none} .held{fill-opacity:.5;stroke-width:1}
@media (prefers-color-scheme:dark){
text,text.key{fill:#e6e9ed} .page,.inside{fill:#14171b} .rule{stroke:#333a43} .soft{fill:#a3adb8}
.fault{fill:#ff9a76} .cut,.mark{stroke:#ff9a76} a text{fill:#7cc0ff}
.hollow{fill:#e6e9ed} .bar:hover{stroke:#fff}
}
"""
)

T = TypeVar("T")
# From and to an event of a page; there is none where it comes from the page before, or goes on.
Span = tuple[int | None, int | None]


@dataclasses.dataclass(slots=True)
class Bar:
    """What is drawn of one call on a page, or of several of a session that all run through it: where it waits and where
    it runs, each from and to an event. There is no event where it comes from the page before, or goes on; and no pair
    where it does not wait, or run, on this page."""

    session: int
    kind: str
    wait: Span | None
    run: Span | None
    label: list[str]
    title: str
    operation: str = ""

    @property
    def first(self) -> int | None:
        found = self.wait or self.run
        assert found
        return found[0]

    @property
    def end(self) -> int | None:
        found = self.run or self.wait
        assert found
        return found[1]


@dataclasses.dataclass(slots=True)
class Held:
    """What a session holds for one `;` between two events of a page."""

    turn: int
    first: int | None
    end: int | None
    holds: list[Hold]


class Page:
    """A page: its first and last event, the calls that run or wait on it, and what is held there for each `;`."""

    def __init__(self, trace: Trace, first: int, last: int, calls: Iterable[Call], holds: Iterable[tuple[int, Hold]]) -> None:
        self.trace, self.first, self.last = trace, first, last
        self.bars: list[Bar] = []
        through: dict[int, list[Call]] = {}
        for call in calls:
            if call.first < first and (call.end is None or call.end > last):
                through.setdefault(call.session, []).append(call)
            else:
                self.bars.append(self.bar(call))
        self.bars += [self.bar(it[0]) if len(it) == 1 else self.joined(it) for it in through.values()]
        self.held: dict[int, list[Held]] = {}
        of_session: dict[tuple[int, int], list[Hold]] = {}
        for turn, hold in holds:
            if hold.session is not None:
                of_session.setdefault((hold.session, turn), []).append(hold)
        for (session, turn), some in of_session.items():
            self.held.setdefault(session, []).extend(self.pieces(turn, some))

    def cut(self, first: int | None, end: int | None) -> Span | None:
        """From and to an event, where that is on this page, and none where neither is and nothing is between them."""
        if first is None or first > self.last or end is not None and end < self.first:
            return None
        return first if first >= self.first else None, end if end is not None and end <= self.last else None

    def bar(self, call: Call) -> Bar:
        lines = self.trace.line
        until = call.end if call.start is None else call.start
        wait = None if call.waits is None else self.cut(call.waits, until)
        run = None if call.start is None else self.cut(call.start, call.end)
        title = f"call {call.number} of {self.trace.of(call.session)}: {call.words}\n{call.reply}"
        if call.start is not None and call.end is not None:
            title += f"\nevents {call.start} to {call.end}, lines {lines(call.start)} to {lines(call.end)}"
        elif until is not None:
            title += f"\nevent {until}, line {lines(until)}"
        if call.waits is not None:
            title += f"\nwaited from event {call.waits} on, or longer" if call.waits else "\nwaited before the first event"
        return Bar(call.session, call.kind, wait, run, [call.words, call.operation], title, call.operation)

    def joined(self, calls: Sequence[Call]) -> Bar:
        """One bar for calls of a session that run through the whole page: no server lets a session have several."""
        some = ", ".join(str(it.number) for it in calls[:20]) + (", .." if len(calls) > 20 else "")
        title = f"{len(calls)} calls of {self.trace.of(calls[0].session)} run through this page\n{some}"
        return Bar(calls[0].session, "many", None, (None, None), [f"{len(calls)} calls"], title)

    def pieces(self, turn: int, holds: Sequence[Hold]) -> Iterator[Held]:
        """What a session holds for a `;`, cut where it takes or gives."""
        changes = sorted({at for it in holds for at in (it.taken, it.given) if at is not None and self.first <= at <= self.last})
        for first, end in zip([None, *changes], [*changes, None]):
            here = (first or self.first - 1), (end or self.last + 1)
            some = [it for it in holds if it.taken <= here[0] and (it.given is None or it.given >= here[1])]
            if some:
                yield Held(turn, first, end, some)

    def rows(self) -> dict[int, list[Bar]]:
        """The bars of each session that does or holds something here, in the order of their starts."""
        rows: dict[int, list[Bar]] = {it: [] for it in sorted({it.session for it in self.bars} | set(self.held))}
        for bar in sorted(self.bars, key=lambda it: it.first or 0):
            rows[bar.session].append(bar)
        return rows


def holds_of(trace: Trace) -> list[tuple[int, Hold]]:
    return [(turn, hold) for turn, it in enumerate(trace.turns) for hold in it.holds]


def page_from(trace: Trace, first: int, most: int) -> Page:
    """One page that begins with this event."""
    last = min(first + most - 1, len(trace.events))
    calls = [it for it in trace.calls if it.first <= last and (it.end is None or it.end >= first)]
    holds = [it for it in holds_of(trace) if it[1].taken <= last and (it[1].given is None or it[1].given >= first)]
    return Page(trace, first, last, calls, holds)


def spread(count: int, most: int, spans: Iterable[tuple[T, int, int | None]]) -> list[list[T]]:
    """What is on each of so many pages: each thing of these with its first and last event."""
    found: list[list[T]] = [[] for _ in range(count)]
    for thing, first, end in spans:
        for page in range((max(first, 1) - 1) // most, count if end is None else (end - 1) // most + 1):
            found[page].append(thing)
    return found


def pages(trace: Trace, most: int) -> list[Page]:
    """The pages of a trace, each with so many events at most; there is one at least."""
    count = max(-(-len(trace.events) // most), 1)
    calls = spread(count, most, ((it, it.first, it.end) for it in trace.calls))
    holds = spread(count, most, ((it, it[1].taken, it[1].given) for it in holds_of(trace)))
    lasts = [min(it * most + most, len(trace.events)) for it in range(count)]
    return [Page(trace, at * most + 1, lasts[at], calls[at], holds[at]) for at in range(count)]


def escaped(text: str) -> str:
    return xml.sax.saxutils.escape(text, {'"': "&quot;"})


def lanes(bars: Iterable[Bar]) -> tuple[list[tuple[Bar, int]], int]:
    """Each bar of a row with its lane: the first one that is free, so that bars never hide each other."""
    ends: list[int | None] = []
    found: list[tuple[Bar, int]] = []
    for bar in bars:
        lane = next((at for at, end in enumerate(ends) if end is not None and end < (bar.first or 0)), len(ends))
        ends[lane : lane + 1] = [bar.end]
        found.append((bar, lane))
    return found, max(len(ends), 1)


def is_well(verdict: str) -> bool:
    """Whether an audit finds nothing wrong."""
    return verdict.startswith("legal ") or verdict.endswith(" whole")


class Drawing:
    """What is drawn piece by piece: shapes and texts."""

    def __init__(self) -> None:
        self.parts: list[str] = []

    def shape(self, name: str, title: str | None = None, **lengths: str | float) -> None:
        """An element with these attributes; `_class` stands for one whose name Python has itself."""
        values = {key: it if isinstance(it, str) else format(it, ".6g") for key, it in lengths.items()}
        said = " ".join(f'{key.strip("_")}="{it}"' for key, it in values.items())
        inner = None if title is None else f"<title>{escaped(title)}</title>"
        self.parts.append(f"<{name} {said}/>" if inner is None else f"<{name} {said}>{inner}</{name}>")

    def text(self, x: float, y: float, said: str, kind: str = "") -> None:
        of_kind = f' class="{kind}"' if kind else ""
        self.parts.append(f'<text x="{x:.6g}" y="{y:.6g}"{of_kind}>{escaped(said)}</text>')

    def link(self, x: float, y: float, said: str, target: str) -> None:
        self.parts.append(f'<a href="{escaped(urllib.parse.quote(target))}">')
        self.text(x, y, said)
        self.parts.append("</a>")

    def summary(self, trace: Trace) -> None:
        """What is told of the whole trace."""
        more = [it for it in ("cancelled", "waiting") if trace.count[it]]
        ends = ", ".join(f"{trace.count[it]} {it}" for it in ("done", "refused", "failed", *more))
        # (an epoch has a call's end at once behind its start)
        runs = "" if trace.epoch else f", {trace.count['running']} still running; at most {trace.most} ran at once"
        waited = trace.most_waiting()
        runs += f"; at most {waited} waited at once" if waited else ""
        epoch = f", epoch {trace.epoch}" if trace.epoch else ""
        self.text(LEFT, 28, f"object {trace.name}{epoch}", "title")
        calls = "1 call" if len(trace.calls) == 1 else f"{len(trace.calls)} calls"
        self.text(LEFT, 47, f"{calls}: {ends}{runs}", "summary")

    def framed(self, kind: str, title: str | None, box: tuple[float, float, float, float], colour: str = "", of: str = "bar") -> None:
        """A bar of this kind, in a box: what was refused is hollow, what failed has a red edge."""
        x, y, width, height = box
        edge = {"refused": 2, "failed": 3}.get(kind, 0)
        self.shape("rect", title, _class=f"{of} {kind}{'' if kind == 'failed' else colour}", x=x, y=y, width=width, height=height, rx=2)
        if edge and width > 2 * edge:
            inside = f"inside{'' if kind == 'refused' else colour or ' plain'}"
            self.shape("rect", _class=inside, x=x + edge, y=y + edge, width=width - 2 * edge, height=height - 2 * edge)

    def legend(self, y: float, kinds: Iterable[str]) -> float:
        """What each kind of bar says."""
        at: float = LEFT
        for kind in kinds:
            self.framed(kind, None, (at, y, 22, 12), of="key")
            self.text(at + 28, y + 10, KINDS[kind], "key")
            at += 28 + 7 * len(KINDS[kind]) + 22
        return at

    def fault(self, trace: Trace, y: float) -> None:
        if trace.fault:
            self.text(LEFT, y, f"{trace.fault}: what stands before it is drawn", "fault")
        elif trace.verdict:
            self.text(LEFT, y, trace.verdict, "summary" if is_well(trace.verdict) else "fault")

    def whole(self, name: str, width: float, height: float) -> str:
        """The text of a picture, of the parts drawn so far."""
        size = f'width="{width:.6g}" height="{height:.6g}" viewBox="0 0 {width:.6g} {height:.6g}"'
        title = f"<title>{escaped(f'timeline of {name}')}</title>"
        head = [f'<svg xmlns="http://www.w3.org/2000/svg" {size}>', title, f"<style>{STYLE}</style>"]
        return "\n".join([*head, *self.parts, "</svg>", ""])


class Index(Drawing):
    """The index of the pages of a trace: a row each, with how the calls ended that ended there."""

    def __init__(self, trace: Trace, found: Sequence[Page], files: Sequence[pathlib.Path]) -> None:
        super().__init__()
        self.trace, self.found, self.files = trace, found, files
        self.ends: list[collections.Counter[str]] = [collections.Counter() for _ in found]
        most = found[0].last
        for call in trace.calls:
            if call.end is not None:
                self.ends[(call.end - 1) // most][call.kind] += 1
        self.top = TOP + (20 if trace.fault or trace.verdict else 0)

    def drawn(self) -> str:
        columns = -(-len(self.found) // DEEP)
        rows = min(len(self.found), DEEP)
        width, height = max(LEFT + columns * COLUMN, NARROWEST), self.top + rows * LINE + BOTTOM
        self.shape("rect", _class="page", width=width, height=height)
        self.summary(self.trace)
        counts = f"{len(self.found)} pages, {len(self.trace.events)} events"
        self.text(LEFT, 65, f"{counts}; a bar shows the calls that ended on its page", "summary")
        self.legend(76, ("done", "refused", "failed"))
        self.fault(self.trace, 106)
        widest = max((it.total() for it in self.ends), default=0) or 1
        for place, (page, file, ends) in enumerate(zip(self.found, self.files, self.ends)):
            at = LEFT + place // DEEP * COLUMN, self.top + place % DEEP * LINE
            self.row(at, page, file, ends, (place + 1, LONG / widest))
        return self.whole(self.trace.name, width, height)

    def row(self, corner: tuple[float, float], page: Page, file: pathlib.Path, ends: collections.Counter[str], place: tuple[int, float]) -> None:
        """The row of a page whose upper left corner is here; its place is its number, and the pixels of a call."""
        (left, top), (number, scale) = corner, place
        trace = self.trace
        self.link(left, top + 13, f"page {number}", file.name)
        self.text(left + 66, top + 13, f"events {page.first} to {page.last}", "soft")
        title = f"page {number}, lines {trace.line(page.first)} to {trace.line(page.last)}\n"
        title += ", ".join(f"{ends[it]} {it}" for it in ("done", "refused", "failed"))
        at = left + BEGIN
        for kind in ("done", "refused", "failed"):
            if ends[kind]:
                wide = ends[kind] * scale
                self.framed(kind, title, (at, top + 3, wide, LINE - 6))
                at += wide
        if trace.marked is not None and page.first <= trace.marked <= page.last:
            self.text(at + 6, top + 13, "here", "fault")


class Picture(Drawing):
    """The picture of a page: what is told of its place, where its links lead, and whether all pages are as wide as a
    full one."""

    def __init__(self, page: Page, told: str | None, links: Mapping[str, str], most: int, is_one_of_many: bool) -> None:
        super().__init__()
        self.page, self.trace, self.told, self.links = page, page.trace, told, links
        self.placed = page.rows()
        count = page.last - page.first + 1 if page.last else 0
        self.scale = min(WIDEST, PLOT / max(most if is_one_of_many else count, 1))
        self.reach = min(REACH, self.scale / 2 - 0.25)
        # All pages begin and end at the same place, also one that is not full.
        longest = max((len(self.name(it)) for it in self.trace.sessions), default=0)
        self.left = max(LEFT, longest * LETTER + 20)
        events = most if is_one_of_many else max(count, 1)
        self.width = max(self.left + self.scale * events + 2 * OVER + RIGHT, NARROWEST)

    def name(self, session: int) -> str:
        said = self.trace.of(session)
        return said if len(said) <= NAMED else f"{said[: NAMED - 2]}.."

    def colour(self, operation: str) -> str:
        return f" o{self.trace.operations.index(operation) % len(COLOURS)}" if operation else ""

    def x(self, event: float) -> float:
        """Where an event stands: in the middle of its slot."""
        return self.left + OVER + (event - self.page.first + 0.5) * self.scale

    def end(self) -> float:
        """Where the bars end that run on."""
        return self.x(self.page.last + 0.5) + OVER

    def span(self, pair: Span) -> tuple[float, float]:
        """From where to where it is between two events."""
        return self.left if pair[0] is None else self.x(pair[0]), self.end() if pair[1] is None else self.x(pair[1])

    def run(self, bar: Bar) -> tuple[float, float]:
        """From where to where a bar reaches."""
        assert bar.run
        left, right = self.span(bar.run)
        return left - (0 if bar.run[0] is None else self.reach), right + (0 if bar.run[1] is None else self.reach)

    def label(self, bar: Bar) -> tuple[str | None, bool]:
        """What stands on a bar, and whether that is the letter of its operation, since there is no room for a word."""
        if bar.run is None:
            return None, False
        left, right = self.run(bar)
        word = next((it for it in bar.label if len(it) * LETTER + 8 <= right - left), None)
        letter = self.trace.letters.get(bar.operation)
        return (word, False) if word or letter is None or right - left < LETTER + 1 else (letter, True)

    def drawn(self) -> str:
        """The text of the picture."""
        top = self.head() + 30
        head, self.parts = self.parts, []
        bottom = self.rows(self.strips(top))
        rows, self.parts = self.parts, []
        self.axis(top, bottom)
        axis, self.parts = self.parts, []
        self.shape("rect", _class="page", width=self.width, height=bottom + BOTTOM)
        self.parts += head + axis + rows
        return self.whole(self.trace.name, self.width, bottom + BOTTOM)

    def head(self) -> float:
        """What stands above the axis, and where that ends."""
        self.summary(self.trace)
        y = 47
        told, count = self.told, len(self.placed)
        if told and count < len(self.trace.sessions):
            told += f"; {count} of {len(self.trace.sessions)} sessions do something here"
        if told:
            y += 18
            self.text(LEFT, y, told, "summary")
            at = LEFT + 6.4 * len(told) + 24
            for name, target in self.links.items():
                self.link(at, y, name, target)
                at += 7 * len(name) + 16
        if self.trace.fault or self.trace.verdict:
            y += 18
            self.fault(self.trace, y)
        return self.operations(self.kinds(y + 14))

    def kinds(self, y: float) -> float:
        """The legend of how calls ended, as far as the picture has such calls, and of what is no call. Where all were
        done, and nothing else is there, there is none."""
        here = {it.kind for it in self.page.bars if it.run}
        if here <= {"done"} and not self.page.held and not any(it.wait for it in self.page.bars):
            return y - 8
        at = self.legend(y, [it for it in KINDS if it in here])
        for name, is_here, high in ((WAITS, any(it.wait for it in self.page.bars), 4), (HOLDS, self.page.held, 8)):
            if is_here:
                self.shape("rect", _class="key wait" if name == WAITS else "key hold", x=at, y=y + 6 - high / 2, width=22, height=high)
                self.text(at + 28, y + 10, name, "key")
                at += 28 + 7 * len(name) + 22
        if any(it.kind == "cancelled" for it in self.page.bars):
            self.text(at + 8, y + 10, "x", "label hollow")
            self.text(at + 28, y + 10, "cancelled", "key")
        return y + 12

    def operations(self, y: float) -> float:
        """The legend of operations: the colour of each, and its letter where that stands on a bar."""
        letters = {it.operation for it in self.page.bars if self.label(it)[1]}
        here = {it.operation for it in self.page.bars} | {it.taker.operation for some in self.page.held.values() for one in some for it in one.holds if it.taker}
        at, y = LEFT, y + 8
        for it in self.trace.operations:
            if it not in here:
                continue
            wide = 28 + 7 * len(it) + 22
            if at + wide > self.width and at > LEFT:
                at, y = LEFT, y + 18
            self.parts.append('<g class="operation">')
            self.shape("rect", _class=f"key{self.colour(it)}", x=at, y=y, width=22, height=14, rx=2)
            if it in letters:
                self.text(at + 11 - LETTER / 2, y + 11, self.trace.letters[it], "label")
            self.text(at + 28, y + 11, it, "key")
            self.parts.append("</g>")
            at += wide
        return y + 14

    def axis(self, top: float, bottom: float) -> None:
        """The numbers of events, with rules through the rows: 1, 2 or 5 and zeros apart."""
        self.text(self.left - 8, top - 10, "event", "soft end")
        steps = (digit * 10**power for power in range(7) for digit in (1, 2, 5))
        step = next(it for it in steps if it * self.scale >= TICK)
        for event in range(self.page.first, self.page.last + 1):
            if event % step == 0 or event == 1:
                self.text(self.x(event), top - 10, str(event), "tick soft middle")
                self.shape("line", _class="rule", x1=self.x(event), y1=top - 6, x2=self.x(event), y2=bottom)
        if self.trace.fault and self.page.last == len(self.trace.events):
            self.shape("line", _class="cut", x1=self.end(), y1=top - 6, x2=self.end(), y2=bottom)
        marked = self.trace.marked
        if marked is not None and self.page.first <= marked <= self.page.last:
            self.shape("line", _class="mark", x1=self.x(marked), y1=top - 6, x2=self.x(marked), y2=bottom)

    def strips(self, top: float) -> float:
        """A strip for each `;`: how many it holds behind each event."""
        for turn in self.trace.turns:
            here = turn.counts[self.page.first - 1 : self.page.last + 1]
            if not any(here):
                continue
            most, base = max(turn.counts), top + STRIP - 6
            level = [base - 22 * it / most for it in here]
            path = f"M{self.left:.6g} {base:.6g}V{level[0]:.6g}"
            for event, (before, after) in enumerate(zip(level, level[1:]), self.page.first):
                if before != after:
                    path += f"H{self.x(event):.6g}V{after:.6g}"
            taker = next((it.taker for it in turn.holds if it.taker), None)
            self.parts.append('<g class="strip">')
            self.text(self.left, top + 12, f"{turn.text} holds {max(here)} at most", "held_by")
            self.text(self.left - 8, base - 12, str(most), "soft end")
            self.shape("path", turn.text, _class=f"held{self.colour(taker.operation if taker else '')}", d=f"{path}H{self.end():.6g}V{base:.6g}Z")
            self.parts.append("</g>")
            top += STRIP
        return top

    def rows(self, top: float) -> float:
        for place, (session, bars) in enumerate(self.placed.items()):
            placed, count = lanes(bars)
            turns = list(dict.fromkeys(it.turn for it in self.page.held.get(session, ())))
            height = (count + max(len(turns) - 1, 0)) * LANE + GAP
            self.parts.append(f'<g class="row" id="s{session}">')
            if place % 2 == 0:
                self.shape("rect", _class="band", y=top, width=self.width, height=height)
            self.text(self.left - 8, top + LANE / 2 + GAP / 2 + 4, self.name(session), "name end")
            taken = [self.run(it) for it, lane in placed if it.run and lane == 0]
            for held in self.page.held.get(session, ()):
                at = turns.index(held.turn)
                self.hold(held, top + GAP / 2 + (at + count - 1 if at else 0) * LANE, [] if at else taken)
            for bar, lane in placed:
                self.bar(bar, top + GAP / 2 + lane * LANE)
            self.parts.append("</g>")
            top += height
        return top

    def hold(self, held: Held, top: float, taken: Iterable[tuple[float, float]]) -> None:
        """What a session holds, behind its calls, which have taken these spans."""
        left, right = self.span((held.first, held.end))
        if right <= left:
            return
        taker = next((it.taker for it in held.holds if it.taker), None)
        count = len(held.holds)
        said = [f"held: {self.trace.turns[held.turn].text}"]
        for it in held.holds[:20]:
            since = f"by call {it.taker.number}, event {it.taken}" if it.taker else "before the first event"
            said.append(f"taken {since}" + (f", given back by call {it.giver.number}, event {it.given}" if it.giver else ""))
        self.shape("rect", "\n".join(said), _class=f"hold{self.colour(taker.operation if taker else '')}", x=left, y=top + 5, width=right - left, height=LANE - 10)
        many = f"x{count}"
        at, wide = (left + right - len(many) * LETTER) / 2, len(many) * LETTER
        if count > 1 and right - left > wide + 8 and not any(at - 2 < end and start < at + wide + 2 for start, end in taken):
            self.text(at, top + LANE / 2 + 4, many, "label hollow")

    def bar(self, bar: Bar, top: float) -> None:
        if bar.wait:
            left, right = self.span(bar.wait)
            self.shape("rect", bar.title, _class="wait", x=left, y=top + LANE / 2 - 2, width=max(right - left, 1), height=4)
        if bar.kind == "cancelled" and bar.wait and bar.wait[1] is not None:
            self.text(right - 3, top + LANE / 2 + 4, "x", "label hollow")
        if bar.run:
            left, right = self.run(bar)
            self.framed(bar.kind, bar.title, (left, top + 2, right - left, LANE - 4), self.colour(bar.operation))
            label, is_letter = self.label(bar)
            if label:
                at = (left + right - LETTER) / 2 if is_letter else left + 5
                self.text(at, top + LANE / 2 + 4, label, "label hollow" if bar.kind in ("running", "refused") else "label")


def links_of(files: Sequence[pathlib.Path], place: int, index: pathlib.Path) -> dict[str, str]:
    """The pages that a page leads to, by what the links say."""
    found = {"index": index.name}
    if place > 0:
        found |= {"first": files[0].name, "previous": files[place - 1].name}
    if place + 1 < len(files):
        found |= {"next": files[place + 1].name, "last": files[-1].name}
    return found


def draw(trace: Trace, file: pathlib.Path, most: int) -> None:
    """Writes the picture of a trace, or its index and its pages, and says which files it wrote."""
    drawn = pages(trace, most)
    if len(drawn) == 1:
        file.write_text(Picture(drawn[0], None, {}, most, False).drawn(), encoding="ascii")
        print(f"{file}: {len(trace.calls)} calls, {len(trace.events)} events")
        return
    files = [file.with_name(f"{file.stem}-{it}{file.suffix}") for it in range(1, len(drawn) + 1)]
    for place, (page, path) in enumerate(zip(drawn, files)):
        told = f"page {place + 1} of {len(files)}, events {page.first} to {page.last} of {len(trace.events)}"
        path.write_text(Picture(page, told, links_of(files, place, file), most, True).drawn(), encoding="ascii")
    file.write_text(Index(trace, drawn, files).drawn(), encoding="ascii")
    print(f"{file}, {files[0]} to {files[-1]}: {len(trace.calls)} calls, {len(trace.events)} events")


def draw_from(trace: Trace, file: pathlib.Path, most: int, first: int) -> None:
    """Writes one picture that begins with an event."""
    page = page_from(trace, first, most)
    told = f"events {page.first} to {page.last} of {len(trace.events)}"
    file.write_text(Picture(page, told, {}, most, False).drawn(), encoding="ascii")
    print(f"{file}: {told}")


def audited(program: pathlib.Path, objects: pathlib.Path, trace: pathlib.Path, epoch: tuple[str, int] | None) -> str:
    """What `pathserve audit` says of a trace; of an epoch what it says of its object in the folder."""
    place = trace.parent if epoch else trace
    ran = subprocess.run([program, "audit", objects, place], stdout=subprocess.PIPE, text=True, check=False)
    if ran.returncode > 1 or not ran.stdout.strip():
        raise OSError(0, f"the audit ended with status {ran.returncode}", str(objects))
    said = ran.stdout.strip()
    if epoch:
        name, number = epoch
        said = next((it.removeprefix(f"{name} ") for it in said.splitlines() if it.startswith(f"{name} ")), said)
        said = said.removeprefix(f"epoch {number} ") if said.startswith(f"epoch {number} line ") else said
    return said


def turns_in(source: str, trace: Trace, is_asked: bool) -> list[Turn]:
    """What each `;` of the object holds. An audit tells what is wrong with its objects itself."""
    try:
        return turns_of(paths_of(source, trace.name), trace.events, trace.past)
    except Unread:
        if is_asked:
            raise
        return []


def main() -> int:
    about, usage, rest = __doc__.split("\n\n", 2)
    parser = argparse.ArgumentParser(
        usage=usage.removeprefix("usage: "), description=f"{about}\n\n{rest}",
        formatter_class=argparse.RawDescriptionHelpFormatter,
    )
    parser.add_argument("trace", type=pathlib.Path, metavar="TRACE", help="a trace, as a server or a script leaves it")
    parser.add_argument("-o", type=pathlib.Path, metavar="FILE", dest="file", help="where to draw it")
    parser.add_argument("--events", type=int, default=EVENTS, metavar="N", help=f"the events of a page, else {EVENTS}")
    parser.add_argument("--from", type=int, metavar="EVENT", dest="first", help="one picture, from this event on")
    parser.add_argument("--objects", type=pathlib.Path, metavar="OBJECTS", help="show what the `;` of its paths hold")
    parser.add_argument("--audit", type=pathlib.Path, metavar="OBJECTS", help="say what `pathserve audit` says")
    program = pathlib.Path(__file__).resolve().parent.parent / "pathserve"
    parser.add_argument("--program", type=pathlib.Path, default=program, metavar="PATH", help="the program that audits")
    args = parser.parse_args()
    if args.events < 1:
        parser.error("a page has at least one event")
    try:
        text = args.trace.read_bytes()
        said = audited(args.program, args.audit, args.trace, epoch_of(text)) if args.audit else None
        trace = Trace(text, said)
        objects = args.objects or args.audit
        if objects and trace.events:
            trace.turns = turns_in(objects.read_text(encoding="ascii"), trace, bool(args.objects))
        if args.first is not None and not 1 <= args.first <= len(trace.events):
            parser.error(f"there is no event {args.first}: the trace has {len(trace.events)}")
        told = trace.fault or trace.verdict
        if told:
            print(told, file=sys.stderr)
        file = args.file or args.trace.with_suffix(".svg")
        if args.first is not None:
            draw_from(trace, args.file or file.with_name(f"{file.stem}-from-{args.first}.svg"), args.events, args.first)
        elif trace.events or not trace.fault:
            draw(trace, file, args.events)
    except OSError as error:
        print(f"{error.filename or 'the picture'}: {error.strerror}", file=sys.stderr)
        return 3
    except (Unread, UnicodeDecodeError) as error:
        print(f"{objects}: {error}", file=sys.stderr)
        return 3
    return 1 if told and not is_well(told) else 0
