"""Has `pathserve serve` and `pathserve keep` serve drawn objects to 64 connections that are cut, slow, silent or
polite, and looks at what is left; then clients that have a name, are cut, and come back.

usage: gate/cut_connections [--program FILE] [SEED ..]
       gate/cut_connections --names [WORDS OF A TITLE ..]    the trials of clients that have a name alone (gate/returning.py)

Of each connection the number and the last line of each call that it was told are kept. After all connections have
ended, `serve` has to end by itself with status 0, and `keep` when it is told to; `pathserve audit` has to call each
trace legal; each call that was told stands in the trace with that reply; no value file is left, and one of an earlier
run was moved away. A second server on the folder begins with the values of the first; files with other names stay.
"""
import contextlib
import functools
import random
import select
import sys
import time
from collections.abc import Sequence

from gate import returning
from gate.crowd import Crew
from gate.drawn_objects import call_of
from gate.either import BOTH, Either, objects_of
from gate.served import resets
from gate.slow_world import Object
from gate.tried import Trial, check, given_words, holds, loads, run

SEEDS = (1, 2)
CONNECTIONS = 64
# How long a connection may last, and how long a server may take to end after the last one, in seconds.
LASTS, ENDS = 4, 60
# Files that are there before: one of a run of `serve` that was killed, and others that are nobody's.
KILLED, OTHERS = 41, ("notes.val", "007.val", "9223372036854775808.val", "7.value", "cell.v.part.old")
KINDS = ("polite", "cut", "reset", "slow", "silent", "ahead", "deaf", "canceller", "loud", "hasty")


class Connection:
    """One client: what it sends follows from its number."""

    def __init__(self, seed: int, number: int, server: Either, objects: Sequence[Object]) -> None:
        self.random, self.server, self.objects = random.Random(seed * 1000 + number), server, objects
        self.kind, self.made, self.end = KINDS[number % len(KINDS)], objects[0], time.monotonic() + LASTS

    def run(self) -> None:
        with contextlib.suppress(OSError, EOFError), self.server.client(seconds=LASTS) as self.it:
            getattr(self, self.kind)()

    def left(self) -> float:
        left = self.end - time.monotonic()
        if left <= 0:
            raise TimeoutError
        return left

    def say(self, *lines: str) -> None:
        self.it.socket.settimeout(self.left())
        self.it.say(*lines)

    def line(self) -> str:
        """The next line."""
        while not self.it.lines:
            self.it.socket.settimeout(self.left())
            if not self.it.read():
                raise EOFError
        return self.it.hear()

    def lines(self) -> None:
        """All lines, to the end."""
        while True:
            self.line()

    def open(self) -> None:
        self.made = self.random.choice(self.objects)
        self.say(f"open {self.made.name}")
        self.line()

    def call(self) -> str:
        return f"call {call_of(self.random, self.made)}"

    def calls(self) -> None:
        """Calls one after the other, each to its last line."""
        for _ in range(self.random.randrange(40)):
            self.say(self.call())
            if self.line().startswith("accepted"):
                self.line()

    def polite(self) -> None:
        self.open()
        self.calls()
        self.say("quit")
        self.lines()

    def cut(self) -> None:
        self.open()
        self.calls()
        self.say(self.call())

    def reset(self) -> None:
        """It ends with a reset in place of an end."""
        self.open()
        self.calls()
        resets(self.it.socket)
        self.say(self.call())

    def slow(self) -> None:
        """One byte at a time."""
        self.open()
        for byte in (self.call() + "\n" + self.call() + "\nqui").encode():
            self.it.send(bytes([byte]))
            time.sleep(0.002)
        self.lines()

    def silent(self) -> None:
        if self.random.randrange(2):
            self.open()
        select.select([self.it.socket], [], [], self.left())

    def ahead(self) -> None:
        """Many calls at once, and then all that comes."""
        self.open()
        self.say(*(self.call() for _ in range(100)))
        self.lines()

    def deaf(self) -> None:
        """It reads nothing."""
        self.open()
        for _ in range(20):
            self.say(*(self.call() for _ in range(50)))
        time.sleep(self.random.random())

    def canceller(self) -> None:
        """It cancels calls of others."""
        self.open()
        for _ in range(30):
            self.say(self.call(), f"cancel {self.random.randrange(300)}")
            self.line()
        self.lines()

    def hasty(self) -> None:
        """It says `quit` behind calls that may wait, and is gone; every other one by a reset."""
        self.open()
        self.say(*(self.call() for _ in range(10)), "quit")
        if self.random.randrange(2):
            self.line()
        if self.random.randrange(2):
            resets(self.it.socket)

    def loud(self) -> None:
        """Lines that mean nothing, and at last one that is too long."""
        self.say("call get", "cancel 1", "dance", "open nothing", "it's", "call", "\x01")
        self.open()
        self.say("call nothing", "call get 1 2 3", "open cell", "x" * 4096)
        self.calls()
        self.say("y" * 5000)
        self.lines()


def goes_on(server: Either) -> None:
    """A second start on the folder changes no part, and there are some."""
    def parts() -> dict[str, bytes]:
        return {it.name: it.read_bytes() for it in server.folder.glob("*.part")}

    before = parts()
    server.words = tuple("1" if it == CONNECTIONS else it for it in server.words)
    server.start()
    if not server.is_kept:
        server.says()
    check(server.ended(ENDS).status, 0, "the status of a second start")
    holds(before, "no part was saved")
    check(parts() == before, True, "whether a second start leaves the parts")


def serves_64(kind: str, seed: int) -> None:
    """64 connections, of ten kinds."""
    objects = objects_of(kind, seed)
    server = Either(kind, "".join(it.text for it in objects), CONNECTIONS)
    left = [f"{KILLED}.val"] * (not server.is_kept)
    for name in (*left, *OTHERS):
        (server.folder / name).write_text("left", encoding="ascii")
    with server:
        crew = Crew()
        for number in range(CONNECTIONS):
            connection = Connection(seed, number, server, objects)
            crew.run(connection.run, name=connection.kind)
        crew.join(ENDS)
        moved = "".join(f"moved to left/1: {it}\n" for it in left)
        check(list(server.end(ENDS, moved, OTHERS)), [it.name for it in objects], "the objects of which the server tells at its end")
        goes_on(server)
        check([it for it in OTHERS if not (server.folder / it).exists()], [], "the files that are gone")
        told = sum(len(it.ends) for it in server.all_told)
        print(f"{kind}, seed {seed}: {told} calls were told")
        holds(told, "no connection was told of a call")


def main() -> int:
    words = given_words()
    if words[:1] == ["--names"]:
        return run("cut_connections", returning.trials(), words[1:], has_times=True)
    if not all(it.isdigit() for it in words):
        print(__doc__, file=sys.stderr)
        return 2
    return run("cut_connections", [*drawn([int(it) for it in words] or SEEDS), *([] if words else returning.trials())], has_times=True)


def drawn(seeds: "list[int] | tuple[int, ...]") -> list[Trial]:
    return [Trial(f"64 connections, seed {it}, {kind}", functools.partial(serves_64, kind, it)) for it in seeds for kind in BOTH]


load_tests = loads(lambda: [*drawn(SEEDS), *returning.trials()])
