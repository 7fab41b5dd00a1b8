"""Asks a kept server, as a client of each of its objects, who is there, who waits and for what, and what is held.

`who` and `why` change nothing (docs/KEEPING.md, "Who is there, and why a call waits"). One thread asks, over a
connection for each object, and only while somebody looks. Who looks waits for an answer for a moment at most, and sees
else what came last: so a server that is gone, deaf or slow holds up nobody.
"""
import contextlib
import dataclasses
import os
import re
import socket
import threading
import time
from collections.abc import Iterable, Sequence
from typing import NamedTuple

# So many seconds a server has for all that it is asked in one turn, and who looks waits for it.
ANSWERS, WAITS = 2.0, 0.4
# An answer is shown again for so long; where nobody looks for so long the connections are closed.
FRESH, IDLE = 0.5, 60.0
# Bytes of a line, lines of an answer, and sessions of an object that are asked for, at most; so many an answer has.
LONGEST, MANY, SESSIONS, OF_ANSWER = 4096, 20_000, 1024, 256
COUNT = r"([0-9]{1,20})"
SESSION = re.compile(rf"session (\S+) for {COUNT} calls {COUNT}(?: name (\S+))?(?: .*)?")
PLACE = rf"path {COUNT} node {COUNT} (?:full|turn {COUNT})"
WAIT = re.compile(rf"waits {COUNT} (\S+) (\S+) for {COUNT} {PLACE}(?: .*)?")
HELD = re.compile(rf"holds {COUNT} (\S+) (\S+)(?: for {COUNT}( at least)?)?(?: name (\S+))?(?: away {COUNT} of {COUNT})?(?: .*)?")
NEED = re.compile(rf"{PLACE} needs (.+)")


class Unclear(Exception):
    """An answer that is none of `pathserve keep`."""


class Place(NamedTuple):
    """Where a call waits: a node of a path, and of a sequence which of its `;`, from 1; 0 where a bound is used up."""

    path: int
    node: int
    turn: int

    def __str__(self) -> str:
        return f"path {self.path} node {self.node} {f'turn {self.turn}' if self.turn else 'full'}"


def place_of(path: str, node: str, turn: str | None) -> Place:
    return Place(int(path), int(node), int(turn or 0))


@dataclasses.dataclass(frozen=True, slots=True)
class Session:
    number: str
    seconds: int
    calls: int
    name: str


@dataclasses.dataclass(frozen=True, slots=True)
class Wait:
    """A call that waits at a node. One that waits at several is told of once for each."""

    call: int
    session: str
    operation: str
    seconds: int
    place: Place


@dataclasses.dataclass(frozen=True, slots=True)
class Held:
    """A call that is held: for how long, where that is told, and whether it may be longer; the name of its client, where it
    has one; and for how long that is gone, and may be, where it is."""

    call: int
    session: str
    operation: str
    seconds: int | None = None
    at_least: bool = False
    name: str = ""
    away: tuple[int, int] | None = None


def held_of(it: "re.Match[str]") -> Held:
    away = (int(it[7]), int(it[8])) if it[7] else None
    return Held(int(it[1]), it[2], it[3], int(it[4]) if it[4] else None, bool(it[5]), it[6] or "", away)


@dataclasses.dataclass(slots=True)
class Inside:
    """What one object has inside, or why that is not known: the word of a refusal. `needs` has of each node where a call
    waits the operations of which one has to end first; there are `more` sessions than were asked for."""

    sessions: list[Session] = dataclasses.field(default_factory=list)
    waits: list[Wait] = dataclasses.field(default_factory=list)
    holds: list[Held] = dataclasses.field(default_factory=list)
    needs: dict[Place, list[str]] = dataclasses.field(default_factory=dict)
    more: bool = False
    refused: str = ""

    def names(self) -> dict[str, str]:
        """The sessions that are there, each with the name of its client, where it has one."""
        return {it.number: it.name for it in self.sessions}


@dataclasses.dataclass(frozen=True, slots=True)
class Seen:
    """What a server answered, when (by the clock that only goes on), or what is wrong with it."""

    time: float
    objects: dict[str, Inside]
    fault: str = ""


class Client:
    """A connection to an object. Each answer has to be there by a time of the clock that only goes on."""

    def __init__(self, place: str, name: str, end: float) -> None:
        self.rest, self.refused = b"", ""
        is_path = "/" in place
        self.socket = socket.socket(socket.AF_UNIX if is_path else socket.AF_INET)
        try:
            self.socket.settimeout(max(end - time.monotonic(), 0.001))
            self.socket.connect(place if is_path else ("127.0.0.1", int(place)))
            answer = self.asked(f"open {name}", end)
        except BaseException:
            self.socket.close()
            raise
        if answer.startswith("no "):
            self.refused = answer
        elif answer.split(" ")[:1] != ["opened"]:
            self.socket.close()
            raise Unclear(f"open {name}: {answer}")

    def line(self, end: float) -> str:
        while b"\n" not in self.rest and len(self.rest) <= LONGEST:
            left = end - time.monotonic()
            if left <= 0:
                raise TimeoutError
            self.socket.settimeout(left)
            piece = self.socket.recv(65536)
            if not piece:
                raise ConnectionResetError
            self.rest += piece
        line, _, self.rest = self.rest.partition(b"\n")
        if len(line) > LONGEST:
            raise Unclear(f"a line of over {LONGEST} bytes")
        return line.decode("latin-1").removesuffix("\r")

    def asked(self, line: str, end: float) -> str:
        """The first line of an answer."""
        self.socket.sendall(f"{line}\n".encode("ascii", "replace"))
        return self.line(end)

    def lines(self, line: str, end: float) -> list[str]:
        """The lines behind the first one, which says how many there are; none, where it says no number."""
        first = self.asked(line, end)
        found = re.fullmatch(rf"(?:who|why {COUNT} Waiting) {COUNT}", first)
        count = int(found[2]) if found else 0
        if first.split(" ")[0] != line.split(" ")[0] or count > MANY:
            raise Unclear(f"{line}: {first}")
        return [self.line(end) for _ in range(count)]

    def who(self, end: float) -> Inside:
        found, first = Inside(), 1
        while True:
            lines = self.lines(f"who {first}" if first > 1 else "who", end)
            sessions = [Session(it[1], int(it[2]), int(it[3]), it[4] or "") for line in lines if (it := SESSION.fullmatch(line))]
            found.sessions += sessions
            found.waits += [Wait(int(it[1]), it[2], it[3], int(it[4]), place_of(it[5], it[6], it[7])) for line in lines if (it := WAIT.fullmatch(line))]
            found.holds += [held_of(it) for line in lines if (it := HELD.fullmatch(line))]
            last = sessions[-1].number[1:] if sessions else ""
            if len(sessions) < OF_ANSWER or not last.isdecimal() or int(last) < first:
                return found
            if len(found.sessions) >= SESSIONS:
                found.more = True
                return found
            first = int(last) + 1

    def inside(self, end: float) -> Inside:
        """What the object has inside. What a node needs is asked for one call of those that wait there."""
        if self.refused:
            return Inside(refused=self.refused)
        found = self.who(end)
        for call in {it.place: it.call for it in reversed(found.waits)}.values():
            if all(it.place in found.needs for it in found.waits if it.call == call):
                continue
            for line in self.lines(f"why {call}", end):
                if it := NEED.fullmatch(line):
                    found.needs[place_of(it[1], it[2], it[3])] = it[4].split(" ")
        return found

    def close(self) -> None:
        with contextlib.suppress(OSError):
            self.socket.close()


def reason(error: OSError, place: str) -> str:
    """What is wrong with a server."""
    if isinstance(error, TimeoutError):
        return f"the server at {place} does not answer: it stands still, or has as many clients as it takes"
    if isinstance(error, (ConnectionResetError, BrokenPipeError)):
        return f"the server at {place} ended the connection"
    return f"no server answers at {place}: {os.strerror(error.errno) if error.errno else error}"


class Visits(threading.Thread):
    """Asks the server at a place about objects by their names, each time that somebody looks and nothing fresh is there."""

    def __init__(self, place: str) -> None:
        super().__init__(daemon=True)
        self.place = place
        self.clients: dict[str, Client] = {}
        self.changed = threading.Condition()
        self.wanted: Sequence[str] | None = None
        self.seen: Seen | None = None
        self.start()

    def look(self, names: Iterable[str]) -> Seen | None:
        """What was seen last, or none where nothing came yet."""
        with self.changed:
            was = self.seen
            if was is None or time.monotonic() - was.time > FRESH:
                self.wanted = tuple(names)
                self.changed.notify_all()
                self.changed.wait_for(lambda: self.seen is not was, WAITS)
            return self.seen

    def run(self) -> None:
        while True:
            with self.changed:
                if not self.changed.wait_for(lambda: self.wanted is not None, IDLE):
                    self.leave()
                    self.changed.wait_for(lambda: self.wanted is not None)
                names = self.wanted or ()
            found = self.visit(names)
            with self.changed:
                self.wanted, self.seen = None, found
                self.changed.notify_all()

    def visit(self, names: Sequence[str]) -> Seen:
        end = time.monotonic() + ANSWERS
        try:
            found = {it: self.inside(it, end) for it in names}
            return Seen(time.monotonic(), found)
        except OSError as error:
            fault = reason(error, self.place)
        except Unclear as error:
            fault = f"the server at {self.place} is none of `pathserve keep`, or another one: {str(error)[:200]}"
        self.leave()
        return Seen(time.monotonic(), {}, fault)

    def inside(self, name: str, end: float) -> Inside:
        """Asks about one object, over a new connection where the one before has ended meanwhile."""
        old = self.clients.get(name)
        if old and not old.refused:
            with contextlib.suppress(ConnectionResetError, BrokenPipeError):
                return old.inside(end)
        if old:
            old.close()
        self.clients[name] = Client(self.place, name, end)
        return self.clients[name].inside(end)

    def leave(self) -> None:
        for it in self.clients.values():
            it.close()
        self.clients.clear()
