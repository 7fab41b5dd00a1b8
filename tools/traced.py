"""What the lines of a trace tell, or those of an epoch of a kept object."""
import bisect
import collections
import dataclasses
import re
from collections.abc import Iterable
from typing import Any

from gate.slow_audit import (
    IDENTIFIER, NUMBERS, SESSIONS, Bad, NotRunning, Word, bare, datum, ending_of, integer, lines_of, lowered, named_object, words_of,
)
from gate.slow_world import written

PART = re.compile(r"[A-Za-z][A-Za-z0-9_]{0,63}", re.ASCII)
BYTES = re.compile(r"(?:[0-9a-f]{2})+", re.ASCII)
# The first line of an epoch, with a number of its format or, as in those of earlier programs, without; the lines of its
# front, in their order; and the lines that check others, which an epoch without a format has not.
EPOCH = re.compile(rb"object ([a-z][a-z0-9_]{0,63})(?: format ([1-9][0-9]*))? epoch ([1-9][0-9]*)")
FORMAT = 2
FRONT = ("source", "part", "past", "base", "carried", "client", "kept", "held", "tick", "front")
CHECKS = ("front", "stored")
LETTERS = "abcdefghijklmnopqrstuvwxyzABCDEFGHIJKLMNOPQRSTUVWXYZ0123456789"
# Sessions of a kept object, and what it has said of a past at most: no call that was kept is one of more.
KEPT_SESSIONS, PASTS = range(1, 65536), range(1, 65537)


def letters_of(operations: Iterable[str]) -> dict[str, str]:
    """A letter for each operation, as long as there are some: one of its name, where that is free."""
    free = dict.fromkeys(LETTERS)
    found: dict[str, str] = {}
    for it in dict.fromkeys(operations):
        wanted = [*it.replace("_", ""), *it.replace("_", "").upper(), *free]
        letter = next((one for one in wanted if one in free), None)
        if letter is None:
            break
        del free[letter]
        found[it] = letter
    return found


def epoch_of(text: bytes) -> tuple[str, int] | None:
    """The name and the number of the epoch that a text is, or none."""
    found = EPOCH.fullmatch(text.partition(b"\n")[0])
    return (found[1].decode(), int(found[3])) if found else None


def format_of(text: bytes) -> int | None:
    """The number of the format that the first line of an epoch has, or none."""
    found = EPOCH.fullmatch(text.partition(b"\n")[0])
    return int(found[2]) if found and found[2] else None


def is_check(line: bytes) -> bool:
    """Whether a line of an epoch with a format checks others, and says nothing itself."""
    return line.startswith((b"front ", b"stored "))


@dataclasses.dataclass(slots=True, eq=False)
class Call:
    """A call: its start and its end are places among the events, from 1. One that still runs or waits has no end, one
    that never started no start. `waits` is the first event at which it is known to have waited, 0 before the first."""

    number: int
    session: int
    words: str
    start: int | None
    end: int | None = None
    kind: str = "running"
    reply: str = "still running at the end of the trace"
    waits: int | None = None

    @property
    def operation(self) -> str:
        return self.words.partition(" ")[0]

    @property
    def first(self) -> int:
        """The event from which on it is drawn."""
        found = self.start if self.waits is None else self.waits
        assert found is not None
        return found


class Trace:
    """What the lines of a trace tell: its calls in the order of their starts, and of each event whose it is. What an
    audit said of it may end it before one of its lines, or mark an event."""

    def __init__(self, text: bytes, said: str | None = None) -> None:
        self.name = ""
        self.epoch: int | None = None
        self.format: int | None = None
        self.fault: str | None = None
        self.verdict: str | None = None
        self.calls: list[Call] = []
        self.events: list[Call] = []
        self.running: dict[int, Call] = {}
        self.begun: set[int] = set()
        self.most = 0
        # The line of each event; of an epoch its clients by their sessions, its calls that wait, and what its paths
        # had counted.
        self.lines: list[int] = []
        self.names: dict[int, str] = {}
        self.waiting: dict[int, Call] = {}
        self.past: list[tuple[str, str]] = []
        self.base, self.stage = 0, 0
        # What each `;` of its paths holds, where these are known: turns of tools/held.py.
        self.turns: list[Any] = []
        lines = lines_of(text)
        if epoch_of(text):
            lines = lines_of(text.partition(b"\0")[0].rpartition(b"\n")[0])
        found = re.fullmatch(r"line ([0-9]+) (bad|not running|.*)", said or "")
        if found and found[2] in ("bad", "not running"):
            self.read(lines[: int(found[1]) - 1])
            self.fault = said
        else:
            self.read(lines)
            self.verdict = said
        self.end_epoch()
        told = int(found[1]) if found and self.fault is None else None
        self.marked = self.lines.index(told) + 1 if told is not None and told in self.lines else None
        self.wait()
        self.sessions = sorted({it.session for it in self.calls})
        self.count = collections.Counter(it.kind for it in self.calls)
        self.letters = letters_of([it.operation for it in self.calls])
        self.operations = list(dict.fromkeys(it.operation for it in self.calls))

    def read(self, lines: list[bytes]) -> None:
        for number, line in enumerate(lines, 1):
            try:
                self.hear(line)
            except Bad:
                self.fault = f"line {number} bad"
                return
            except NotRunning:
                self.fault = f"line {number} not running"
                return
            if (self.format or FORMAT) != FORMAT:
                self.fault = f"line {number} has format {self.format}"
                return
            if len(self.lines) < len(self.events):
                self.lines.append(number)
        if not lines or self.epoch and self.stage < FRONT.index("front" if self.format else "base"):
            self.fault = f"line {len(lines) + 1} bad"

    def hear(self, line: bytes) -> None:
        words = words_of(line)
        verb = bare(words[0]) if words else ""
        if not self.name:
            self.hear_object(line)
        elif self.epoch and verb in (*FRONT, *CHECKS, "name", "cancel"):
            self.hear_kept(verb, words)
        elif verb == "part" and not self.events:
            self.hear_part(words)
        elif verb == "start":
            self.hear_start(words)
        elif verb == "end":
            self.hear_end(words)
        else:
            raise Bad

    def hear_object(self, line: bytes) -> None:
        found = EPOCH.fullmatch(line)
        if found:
            self.name, self.epoch, self.format = found[1].decode(), int(found[3]), format_of(line)
        else:
            self.name = named_object(line)

    def hear_part(self, words: list[Word]) -> None:
        if len(words) != 3 or not PART.fullmatch(bare(words[1])) or not BYTES.fullmatch(bare(words[2])):
            raise Bad

    def hear_kept(self, verb: str, words: list[Word]) -> None:
        """A line of an epoch that a trace has not: of its front, in order, or behind it."""
        if verb in CHECKS and not self.format:
            raise Bad
        is_behind = verb not in FRONT or verb == "tick" and self.stage > FRONT.index(verb)
        self.step(len(FRONT) if is_behind else FRONT.index(verb))
        if verb == "part":
            self.hear_part(words)
        elif verb == "base":
            self.base = integer_of(words, 1)
        elif verb == "past":
            self.hear_past(words)
        elif verb == "carried":
            number, told = integer_of(words, 1), integer_of(words, 2)
            session, said = self.asked(words[3:])
            self.waiting[number] = Call(told, session, said, None, None, "waiting", "still waiting at the end", 0)
        elif verb == "client":
            self.named(words, 4)
        elif verb == "name":
            self.named(words, 3)
        elif verb == "cancel":
            self.hear_cancel(words)

    def step(self, stage: int) -> None:
        """The lines of a front have an order, there is one `base`, and it stands before what happened; and so does one
        `front`, where there is a format."""
        for it in (FRONT.index("base"), *([FRONT.index("front")] if self.format else [])):
            if stage < self.stage or stage == self.stage == it or stage > it > self.stage:
                raise Bad
        self.stage = stage

    def hear_past(self, words: list[Word]) -> None:
        if len(words) != 3:
            raise Bad
        first, second = bare(words[1]), bare(words[2])
        if first in ("begin", "end"):
            self.past.append(("start" if first == "begin" else "end", second))
        elif integer_of(words, 2) in PASTS:
            self.past += [("start", first), ("end", first)] * integer_of(words, 2)
        else:
            raise Bad

    def named(self, words: list[Word], count: int) -> None:
        """`client sK NAME B` or `name sK NAME`."""
        if len(words) != count or not PART.fullmatch(bare(words[2])):
            raise Bad
        self.names[self.session_of(words[1])] = bare(words[2])

    def session_of(self, word: Word) -> int:
        if not bare(word).startswith("s"):
            raise Bad
        found = integer(word[1:])
        if found not in (KEPT_SESSIONS if self.epoch else SESSIONS):
            raise Bad
        return found

    def asked(self, words: list[Word]) -> tuple[int, str]:
        """The session that asked for a call, and the words of it."""
        if len(words) < 2:
            raise Bad
        session, op = self.session_of(words[0]), lowered(bare(words[1]))
        if not IDENTIFIER.fullmatch(op):
            raise Bad
        return session, " ".join([op, *(written(datum(it)) for it in words[2:])])

    def hear_cancel(self, words: list[Word]) -> None:
        number = integer_of(words, 1)
        session, said = self.asked(words[2:])
        if number not in NUMBERS or number in self.begun:
            raise Bad
        call = self.waiting.pop(number, None) or self.call_of(number, session, said)
        self.begun.add(number)
        self.events.append(call)
        call.end, call.kind, call.reply = len(self.events), "cancelled", "cancelled"
        self.calls.append(call)

    def call_of(self, number: int, session: int, said: str) -> Call:
        return Call(self.base + number, session, said, None)

    def hear_start(self, words: list[Word]) -> None:
        if len(words) < 4:
            raise Bad
        number = integer(words[1])
        session, said = self.asked(words[2:])
        if number not in NUMBERS or number in self.begun:
            raise Bad
        if self.epoch:
            self.step(len(FRONT))
        call = self.waiting.pop(number, None) or self.call_of(number, session, said)
        self.begun.add(number)
        self.running[number] = call
        self.calls.append(call)
        self.events.append(call)
        call.start, call.kind, call.reply = len(self.events), "running", "still running at the end of the trace"
        self.most = max(self.most, len(self.running))

    def hear_end(self, words: list[Word]) -> None:
        if len(words) < 3:
            raise Bad
        number, (kind, value) = integer(words[1]), ending_of(words[2:])
        if number not in NUMBERS:
            raise Bad
        if number not in self.running:
            raise NotRunning
        call = self.running.pop(number)
        self.events.append(call)
        # The word of a refusal and the cause of a failure stand bare, a text that was replied in apostrophes.
        told = "" if value is None else written(value) if kind == "done" else value
        call.end, call.kind, call.reply = len(self.events), kind, f"{kind} {told}".rstrip(" ")

    def end_epoch(self) -> None:
        """A call that started in the last line of an epoch never was; those that were carried, and of which no line
        tells more, are there. One whose session called again had been cancelled."""
        last = self.events[-1] if self.events else None
        if self.epoch and last and last.start == len(self.events) and not self.fault:
            self.events.pop()
            self.lines.pop()
            self.calls.pop()
        again: dict[int, int | None] = {}
        for call in self.calls:
            again.setdefault(call.session, call.start or call.end)
        for call in self.waiting.values():
            if call.session in again:
                call.end, call.kind, call.reply = again[call.session], "cancelled", "cancelled"
            self.calls.append(call)

    def wait(self) -> None:
        """Says of each call since when it is known to have waited: calls have their numbers in the order in which they
        were accepted, so one waits where a later number has started. A session has one call at a time."""
        highest: list[int] = []
        before: dict[int, int] = {}
        for call in self.events:
            highest.append(max(call.number, highest[-1] if highest else 0))
        for call in sorted(self.calls, key=lambda it: it.start or it.end or len(self.events) + 1):
            until = call.start or call.end
            since = bisect.bisect_right(highest, call.number) + 1
            if call.waits is None and until is not None and since < until:
                call.waits = max(since, before.get(call.session, 0))
                if call.waits >= until:
                    call.waits = None
            if call.start is None and call.waits is None:
                call.waits = until
            before[call.session] = max(before.get(call.session, 0), call.end or len(self.events) + 1)

    def most_waiting(self) -> int:
        """So many calls are known to have waited at once, at most."""
        change: collections.Counter[int] = collections.Counter()
        for call in self.calls:
            if call.waits is not None:
                change[call.waits] += 1
                change[call.start or call.end or len(self.events) + 1] -= 1
        most = now = 0
        for at in sorted(change):
            now += change[at]
            most = max(most, now)
        return most

    def line(self, event: int) -> int:
        """The number of the line of an event."""
        return self.lines[event - 1]

    def of(self, session: int) -> str:
        """A session, with the name of its client where that is known."""
        name = self.names.get(session)
        return f"s{session} {name}" if name else f"s{session}"


def integer_of(words: list[Word], place: int) -> int:
    """A number of an epoch, which may have 64 bits."""
    word = bare(words[place]) if place < len(words) else ""
    if not word.isdecimal() or not word.isascii() or int(word) >= 2**64:
        raise Bad
    return int(word)
