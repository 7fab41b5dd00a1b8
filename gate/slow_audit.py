"""A slow audit of the text of a trace, from the meaning of its lines, of paths and of bodies alone: what happened is read
line by line, each path is asked over the whole of it, and the ends are folded over whole values."""
import bisect
import re
from collections.abc import Iterable, Iterator
from typing import Any, Union

from gate.slow_world import FORMATS, LONGEST, MOST, WRITTEN, Array, Datum, Disagreement, Ending, Kind, Node, Object, Queue
from gate.slow_world import Trace as Events

FIRST_LINE = 65536
NUMBERS, SESSIONS = range(1, 65537), range(1, 1025)
WORD = re.compile(rb" *(?:'((?:[\x20-\x26\x28-\x7e]|'')*)'(?= |\Z)|([^ '][^ ]*)) *", re.DOTALL)
IDENTIFIER = re.compile(r"[a-z][a-z0-9_]{0,63}", re.ASCII)
# A word that stands bare, or a text.
Word = Union[bytes, str]
FAILURES = ("device", "memory", "damaged")


class Bad(Exception):
    """A line that is outside the format, or has no place where it stands."""


class NotRunning(Exception):
    """A line that ends a call which does not run."""


# What a line says.


def lines_of(text: bytes) -> list[bytes]:
    """The lines of a text: each ends with a line feed, before which a carriage return goes, the last one also without."""
    ended, last = text.split(b"\n")[:-1], text.split(b"\n")[-1]
    return [it[:-1] if it.endswith(b"\r") else it for it in ended] + ([last] if last else [])


def words_of(line: bytes) -> list[Word]:
    """The words of a line: bytes that stand bare, and texts as strings."""
    words: list[Word] = []
    at = 0
    while line[at:].strip(b" "):
        found = WORD.match(line, at)
        if not found:
            raise Bad
        if found[2] is not None:
            words.append(found[2])
        else:
            words.append(found[1].decode("ascii").replace("''", "'"))
            if len(words[-1]) > LONGEST[WRITTEN]:
                raise Bad
        at = found.end()
    return words


def bare(word: Word) -> str:
    """A word that stands bare, as text."""
    if not isinstance(word, bytes):
        raise Bad
    return word.decode("latin-1")


def integer(word: Word) -> int:
    text = bare(word)
    if not re.fullmatch("[0-9]+", text) or int(text) > MOST:
        raise Bad
    return int(text)


def datum(word: Word) -> Datum:
    return word if isinstance(word, str) else integer(word)


def lowered(name: str) -> str:
    """A name in any case: only letters of ASCII have one."""
    return "".join(it.lower() if "A" <= it <= "Z" else it for it in name)


def named_object(line: bytes) -> str:
    """The name in a line `object NAME`."""
    words = words_of(line)
    if len(words) != 2 or words[0] != b"object":
        raise Bad
    name = lowered(bare(words[1]))
    if not IDENTIFIER.fullmatch(name):
        raise Bad
    return name


def ending_of(words: list[Word]) -> Ending:
    """How a call ended."""
    if words == [b"done"]:
        return ("done", None)
    if len(words) != 2:
        raise Bad
    verb, word = words
    if verb == b"done":
        return ("done", datum(word))
    if verb == b"refused" and re.fullmatch("[a-z]{1,16}", bare(word)):
        return ("refused", bare(word))
    if verb == b"failed" and bare(word) in FAILURES:
        return ("failed", bare(word))
    raise Bad


def value_of(kind: Kind, spelled: str) -> Any:
    """The value of a kind whose bytes are these in hexadecimal, in the format that their first byte names."""
    if not re.fullmatch("(?:[0-9a-f]{2})*", spelled):
        raise Bad
    whole = bytes.fromhex(spelled)
    rest = whole[4:]
    if len(whole) < 4 or whole[0] not in FORMATS:
        raise Bad
    format = whole[0]

    def take(count: int) -> bytes:
        nonlocal rest
        if len(rest) < count:
            raise Bad
        taken, rest = rest[:count], rest[count:]
        return taken

    def text() -> str:
        taken = take(int.from_bytes(take(format), "big"))
        if len(taken) > LONGEST[format] or any(not 32 <= it <= 126 for it in taken):
            raise Bad
        return taken.decode("ascii")

    def element() -> Datum:
        return text() if kind.form % 2 == 0 else int.from_bytes(take(4), "big")

    count = int.from_bytes(whole[2:4], "big")
    if count > 1024 or isinstance(kind, Array) and count != len(kind.opening):
        raise Bad
    is_row = isinstance(kind, (Array, Queue))
    value: Any = [element() for _ in range(count)] if is_row else dict([(text(), element()) for _ in range(count)])
    # A value has one spelling in a format.
    if kind.bytes_of(value, format) != whole:
        raise Bad
    return value


# What the lines tell, one behind the other.


class Told:
    """What the lines so far told of an object: its opening contents, and the starts and ends with the numbers of their
    lines."""

    def __init__(self, made: Object) -> None:
        self.made, self.is_named = made, False
        self.opening: dict[str, Any] = {}
        self.begun: set[int] = set()
        self.running: dict[int, tuple[str, list[Datum]]] = {}
        self.events: list[tuple[int, tuple[str, str]]] = []
        self.ends: list[tuple[int, str, list[Datum], Ending]] = []

    def is_opened(self) -> bool:
        return self.is_named and len(self.opening) == len(self.made.parts)

    def hear(self, number: int, line: bytes) -> None:
        words = words_of(line)
        verb = bare(words[0]) if words else ""
        if verb == "object":
            self.hear_object(line)
        elif verb == "part" and self.is_named and not self.is_opened():
            self.hear_part(words)
        elif verb == "start" and self.is_opened():
            self.hear_start(number, words)
        elif verb == "end" and self.is_opened():
            self.hear_end(number, words)
        else:
            raise Bad

    def hear_object(self, line: bytes) -> None:
        if self.is_named or named_object(line) != self.made.name:
            raise Bad
        self.is_named = True

    def hear_part(self, words: list[Word]) -> None:
        name, kind = list(self.made.parts.items())[len(self.opening)]
        if len(words) != 3 or bare(words[1]) != name:
            raise Bad
        self.opening[name] = value_of(kind, bare(words[2]))

    def hear_start(self, number: int, words: list[Word]) -> None:
        if len(words) < 4 or not bare(words[2]).startswith("s"):
            raise Bad
        call, session, op = integer(words[1]), integer(words[2][1:]), lowered(bare(words[3]))
        arguments = [datum(it) for it in words[4:]]
        if call not in NUMBERS or call in self.begun or session not in SESSIONS:
            raise Bad
        if op not in self.made.operations or not self.made.operations[op].takes(arguments):
            raise Bad
        self.begun.add(call)
        self.running[call] = op, arguments
        self.events.append((number, ("start", op)))

    def hear_end(self, number: int, words: list[Word]) -> None:
        if len(words) < 3:
            raise Bad
        call, ending = integer(words[1]), ending_of(words[2:])
        if call not in NUMBERS:
            raise Bad
        if call not in self.running:
            raise NotRunning
        op, arguments = self.running.pop(call)
        self.events.append((number, ("end", op)))
        self.ends.append((number, op, arguments, ending))


# The faults of what the lines told.


def breach(path: Node, events: Events) -> "int | None":
    """How many of the events there are in the least front that breaks a path, or none."""
    fronts = range(len(events) + 1)
    if path.holds(events):
        return None
    return bisect.bisect_left(fronts, True, key=lambda count: not path.holds(events[:count]))


def breaches(told: Told) -> Iterator[tuple[int, int, str]]:
    """The starts that a path refuses, of each path the first."""
    events = [it[1] for it in told.events]
    for place, path in enumerate(told.made.paths, 1):
        count = breach(path, events)
        if count is None:
            continue
        number, event = told.events[count - 1]
        if event[0] != "start":
            raise Disagreement(f"the end in line {number} breaks path {place}")
        yield number, place, f"line {number} breaks path {place}"


def wrong_replies(told: Told) -> Iterator[tuple[int, int, str]]:
    """The first end that is not the sequential object's, if there is one."""
    contents = told.opening
    for number, op, arguments, ending in told.ends:
        if ending[0] == "failed":
            continue
        found, contents = told.made.applied(op, arguments, contents)
        if found != ending:
            yield number, 0, f"line {number} wrong reply"
            return


def verdict(made: Object, text: bytes) -> str:
    """What an audit says of the text of a trace of an object."""
    told, lines = Told(made), lines_of(text)
    faults: list[tuple[int, int, str]] = []
    for number, line in enumerate(lines, 1):
        try:
            told.hear(number, line)
        except Bad:
            faults.append((number, 0, f"line {number} bad"))
            break
        except NotRunning:
            faults.append((number, 0, f"line {number} not running"))
            break
    if not faults and not told.is_opened():
        faults.append((len(lines) + 1, 0, f"line {len(lines) + 1} bad"))
    if told.is_opened():
        faults += [*breaches(told), *wrong_replies(told)]
    return min(faults)[2] if faults else f"legal {len(told.ends)}"


def answer(objects: Iterable[Object], text: bytes) -> tuple[str, int]:
    """What `pathserve audit` prints of a trace and a file of these objects, each of which is accepted, and its status."""
    try:
        first = next(iter(lines_of(text)), b"")
        if b"\n" not in text[:FIRST_LINE] and len(text) > FIRST_LINE:
            raise Bad
        name = named_object(first)
    except Bad:
        return "line 1 bad", 1
    made = next((it for it in objects if it.name == name), None)
    if made is None:
        return f"no object {name}", 1
    said = verdict(made, text)
    return said, 0 if said.startswith("legal ") else 1
