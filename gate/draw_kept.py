"""Draws conversations with `pathserve keep`, and looks whether each line is answered as a slow server would
(gate/slow_kept.py).

usage: gate/draw_kept [--program FILE] [--cases N] [--from SEED] [--jobs N] [--tell N]

In each conversation up to six clients speak at once, with and without names, over drawn objects
(gate/drawn_objects.py): calls with and without keys, cancels, lines that say nothing or are too long, lines that are
sent ahead, in pieces or without their end; they hang up, send no more, come back, and the server is killed or ended and
started again; one in three journals of one that was killed becomes one of a program before, without check lines. What
each is told is compared line by line, in an order that is no matter of chance: each step is done when the one before it
is. At the end of every few conversations the journals are compared with what the slow server holds: values, clients,
their keys and last calls; and `pathserve audit FILE DIR` has to find the folder whole.

N conversations are drawn from the seeds SEED (1) on, 200 where no number is given, N at a time side by side (the
processors). Of one that fails the last steps are told, 12 of them or as many as `--tell` says.
"""
import concurrent.futures
import os
import pathlib
import shutil
import socket
import sys
import tempfile
from collections.abc import Iterable, Sequence
from typing import Any

from gate import sums
from gate.drawn_objects import OBJECTS
from gate.kept import ROOMS, Server, options
from gate.seeds import Drawer
from gate.slow_kept import LONGEST, UNTOLD, Call, Hall, Number, OneOf, Slow, Speaker
from gate.slow_world import Datum, Object, written
from gate.tried import Wrong, check, given_words, holds, program, there, whole

# So many conversations are held over one folder, so many clients speak at most, and so long a line may be awaited, in
# seconds.
TOGETHER, SPEAKERS, LATE = 5, 6, 60
PIECE = 4096
NAMES = ("ann", "bob", "Eve", "d_4")
BAD_LINES = ("dance", "", " ", "open", "open 7", "open cell as end", "open cell as", "call", "call 7", "call #",
             "call # get", "call #1", "call put x", "call put 'x", "call put 'x'y", "cancel", "cancel x", "cancel 1 2",
             "quit now", "Quit", "CALL get", "\x7f", "call\tget", "quit\x01", "call #-1 get", "call #1 #1 get",
             "cancel #1", "call put 4294967296", "cancel -1", f"call {'x' * 65}", f"open {'x' * 65}",
             f"call put '{'x' * 1001}'")


class Voice:
    """A connection to the server, and the speaker that it is to the slow one."""

    def __init__(self, server: Server, name: str = "observer") -> None:
        self.it, self.speaker, self.name = server.connect(LATE), Speaker(), name
        self.rest, self.heard, self.is_over, self.is_shut = b"", 0, False, False

    def read(self) -> None:
        try:
            piece = self.it.recv(1 << 16)
        except ConnectionResetError:
            piece = b""
        except TimeoutError as error:
            raise Wrong("nothing comes") from error
        self.rest += piece
        self.is_over = not piece

    def line(self) -> str:
        while b"\n" not in self.rest and not self.is_over:
            self.read()
        line, _, self.rest = self.rest.partition(b"\n")
        return line.decode("ascii")

    def catch_up(self) -> None:
        """All that the slow server told it came, and, where it has left, the end; and nothing else."""
        while self.heard < len(self.speaker.told):
            words = self.speaker.told[self.heard]
            line = self.line()
            learn(words, line)
            check(line, text_of(words), f"line {self.heard + 1} of {self.name}")
            self.heard += 1
        if self.speaker.has_left and not self.is_over:
            check(self.line(), "", "what comes behind all lines")
            holds(self.is_over, "the connection does not end")

    def is_silent(self) -> None:
        """Nothing came that the slow server did not tell."""
        if not self.is_over and not self.is_shut:
            self.it.settimeout(0)
            try:
                self.rest += self.it.recv(1 << 16)
            except BlockingIOError:
                pass
            finally:
                self.it.settimeout(LATE)
        check(self.rest, b"", "what comes that nobody expects")


def learn(words: Sequence[object], line: str) -> None:
    """Learns the numbers of a life from the first one that is told, and which of several words came."""
    for at, word in enumerate(words):
        if isinstance(word, OneOf) and line.split(" ")[at : at + 1] and line.split(" ")[at] in word.words:
            word.word = line.split(" ")[at]
        if isinstance(word, Number) and word.value() is None:
            told = line.split(" ")[at : at + 1]
            holds(told and told[0].isdigit(), f"{line!r} came, and a number was expected")
            base = int(told[0]) - word.place
            least = word.life.after
            why = f"a call is told {told[0]}, and before the start {least} was told"
            holds(least <= base <= least + UNTOLD * word.life.starts, why)
            word.life.base = base


def text_of(words: Iterable[object]) -> str:
    return " ".join(str(it.value()) if isinstance(it, Number) else str(it) for it in words)


class World:
    """A server over a folder, and the slow one."""

    def __init__(self, room: pathlib.Path, seed: int) -> None:
        # (which journals grow old changes nothing of what is said)
        self.draw, self.ages = Drawer(seed), Drawer(seed)
        count = 1 + self.draw.below(3)
        self.objects = [OBJECTS[it] for it in sorted({self.draw.below(len(OBJECTS)) for _ in range(count)})]
        sync = self.draw.of(("always", "always", "1", "60000"))
        source = "".join(it.text for it in self.objects)
        self.server = Server(room, source, "--sync", sync, at_path=True)
        self.slow, self.said, self.come = Slow(self.objects), 0, 0
        # (a schedule, of gate/draw_schedules, has voices and steps of its own)
        self.voices: list[Any] = []
        self.steps: list[Any] = []
        self.start()

    def start(self) -> None:
        self.server.start()
        self.observer = Voice(self.server)

    # Steps.

    def await_round(self) -> None:
        """Waits until the server has heard all that was said."""
        for _ in range(2 + self.said // PIECE):
            self.observer.it.sendall(b"\n")
            check(self.observer.line(), "no BadLine", "the answer to an empty line")
        self.said = 0

    def settle(self) -> None:
        self.await_round()
        for it in self.voices:
            if not it.is_shut:
                it.catch_up()
                it.is_silent()
        for it in [it for it in self.voices if it.speaker.has_left]:
            it.it.close()
            self.voices.remove(it)

    def cased(self, name: str) -> str:
        return self.draw.of((name, name, name.upper(), name.capitalize()))

    def number(self, number: int) -> str:
        return self.draw.of(("", "", "", "0", "000")) + str(number)

    def spaced(self, words: Sequence[str]) -> str:
        if not self.draw.one_in(8):
            return " ".join(words)
        line = "".join(" " * self.draw.below(3) + " " + word for word in words) + " " * self.draw.below(2)
        return line[self.draw.below(2) :]

    def hall(self) -> Hall:
        return self.slow.halls[self.draw.of(self.objects).name]

    def opening(self) -> str:
        name = self.draw.of([it.name for it in self.objects] * 8 + ["nothing", "as"])
        words = ["open", self.cased(name)]
        return self.spaced(words + ["as", self.cased(self.draw.of(NAMES))] if self.draw.below(3) else words)

    def operation(self, made: Object) -> str:
        return self.draw.weighted({name: it.weight for name, it in made.operations.items()})

    def call(self, made: Object) -> list[str]:
        """The words of a call that mostly may be made."""
        op = self.operation(made)
        arguments = [self.draw.of(it) for it in made.operations[op].draws]
        if self.draw.one_in(20):
            arguments = self.draw.of(([*arguments, 7], arguments[:-1], ["x", *arguments[1:]], [*arguments, ""]))
        if self.draw.one_in(25):
            op = self.draw.of(("nothing", "v", "end", "x1"))
        return self.spoken(op, arguments)

    def spoken(self, op: str, arguments: Iterable[Datum]) -> list[str]:
        return [self.cased(op), *(self.number(it) if isinstance(it, int) else written(it) for it in arguments)]

    def keyed(self, speaker: Speaker) -> str:
        """A call under a key: mostly the next one, or one that is known."""
        made, guest = there(speaker.hall).made, speaker.guest
        after = 1 + (guest.used if guest else speaker.calls) + len(speaker.held) + (speaker.waits is not None)
        kind = self.draw.weighted({"next": 10, "again": 8, "old": 2, "past": 1, "reused": 2})
        key, call = after, self.call(made)
        if kind in ("again", "reused") and guest and guest.kept:
            key, known, _ = self.draw.of(guest.kept)
            call = self.spoken(known.op, known.arguments) if kind == "again" else call
        elif kind == "old":
            key = self.draw.of((0, max(0, after - 17), max(0, after - 16), after - 1))
        elif kind == "past":
            key = after + 1 + self.draw.below(9)
        return self.spaced(["call", f"#{self.number(key)}", *call])

    def cancelled(self, speaker: Speaker) -> int:
        hall = there(speaker.hall)
        hall.note_greatest()
        known = [number for it in hall.waiting if (number := it.number.value())]
        if known and self.draw.below(3):
            return self.draw.of(known)
        # (what has not been told is not known to be told of another call)
        past = [0] if hall.life.base is None else [0, hall.greatest + 1, hall.greatest + 100_000]
        return self.draw.of([*past, 1 + self.draw.below(hall.greatest)] if hall.greatest else past)

    def line(self, speaker: Speaker) -> str:
        """A line of a client."""
        if speaker.hall is None:
            kind = self.draw.weighted({"open": 30, "bad": 2, "early": 1, "quit": 1})
        else:
            kind = self.draw.weighted({"call": 30, "keyed": 24, "cancel": 7, "bad": 3, "open": 1, "quit": 1})
        if kind == "open":
            return self.opening()
        if kind == "bad":
            return self.draw.of(BAD_LINES)
        if kind == "early":
            return self.draw.of(("call get", "cancel 1", "call #1 get", "call nothing 'x' 7"))
        if kind == "quit":
            return self.spaced(["quit"])
        if kind == "call":
            return self.spaced(["call", *self.call(there(speaker.hall).made)])
        if kind == "keyed":
            return self.keyed(speaker)
        return self.spaced(["cancel", self.number(self.cancelled(speaker))])

    def say(self, voice: Any, *lines: str, is_whole: bool = True) -> None:
        """Says lines at once, or in pieces."""
        ends = ["\r\n" if self.draw.one_in(12) else "\n" for _ in lines]
        if not is_whole:
            ends[-1] = ""
        text = "".join(line + end for line, end in zip(lines, ends)).encode("ascii")
        size = self.draw.of((1, 3, 7)) if len(text) < 60 and self.draw.one_in(6) else len(text)
        for line, end in zip(lines, ends):
            self.slow.say(voice.speaker, line + end.rstrip("\n"), bool(end))
        self.said += len(text)
        shown = f"{text!r}" if len(text) < 300 else f"{text[:100]!r} .. {len(text)} bytes"
        self.steps.append(f"{voice.name} says {shown}")
        try:
            for at in range(0, len(text), max(size, 1)):
                voice.it.sendall(text[at : at + size])
        except OSError as error:
            # (behind its end the server takes nothing)
            holds(voice.speaker.has_left, f"the connection broke: {error}")

    def talk(self, voice: Any) -> None:
        count = 1 if self.draw.below(4) else 1 + self.draw.below(6)
        for _ in range(count):
            lines = [self.line(voice.speaker)]
            while count > 1 and self.draw.below(3):
                lines.append(self.line(voice.speaker))
            self.say(voice, *lines)
            if voice.speaker.has_left:
                break

    def part(self, voice: Any) -> None:
        """A client leaves in another way than by `quit`."""
        how = self.draw.weighted({"hangs up": 4, "sends no more": 3, "is cut off": 3, "too long": 1})
        if how == "too long":
            self.say(voice, self.draw.of(("x", "call get ", "'")) * (LONGEST // self.draw.of((1, 2)) + 1))
            if not voice.speaker.has_left:
                return
        elif how == "hangs up":
            self.steps.append(f"{voice.name} hangs up")
            voice.is_shut = True
            voice.it.close()
            self.slow.leave(voice.speaker)
        else:
            if how == "is cut off":
                line = self.line(voice.speaker)
                self.say(voice, line[: self.draw.below(len(line) + 1)], is_whole=False)
            self.steps.append(f"{voice.name} sends no more")
            voice.it.shutdown(socket.SHUT_WR)
            self.slow.leave(voice.speaker)

    def converse(self) -> None:
        """One conversation."""
        for _ in range(10 + self.draw.below(60)):
            what = self.draw.weighted({"comes": 8, "talks": 60, "parts": 4})
            if what == "comes" and len(self.voices) < SPEAKERS or not self.voices:
                self.come += 1
                self.voices.append(Voice(self.server, f"v{self.come}"))
                self.talk(self.voices[-1])
            elif what == "parts":
                self.part(self.draw.of(self.voices))
            else:
                self.talk(self.draw.of(self.voices))
            self.settle()
            if self.draw.one_in(60):
                self.restart(self.draw.one_in(2))

    # Ends.

    def restart(self, is_killed: bool) -> None:
        self.steps.append("the server is killed" if is_killed else "the server ends")
        if is_killed:
            self.server.kill()
            self.slow.die([it.speaker for it in self.voices])
            for made in self.objects:
                if self.ages.one_in(3):
                    self.grow_old(self.server.folder / f"{made.name}.journal")
        else:
            self.end()
        for it in self.voices:
            if not it.is_shut:
                it.catch_up()
            it.it.close()
        self.voices = []
        self.observer.it.close()
        self.slow.start()
        self.start()

    def grow_old(self, journal: pathlib.Path) -> None:
        """A journal becomes one of a program before, which had no check lines."""
        self.steps.append(f"{journal.name} is an old one")
        journal.write_bytes(sums.as_before(journal.read_bytes()))

    def end(self) -> None:
        """The server ends in order."""
        for it in self.voices:
            self.slow.end(it.speaker)
        counts = "".join(f"{it.made.name} entries {it.ended}\n" for it in self.slow.halls.values())
        check(self.server.end(), (counts, 0), "what the server said at its end")
        check(self.server.error(), "", "standard error")

    def compare(self) -> None:
        """What the journals hold is what the slow server does."""
        self.server.is_whole(*(it.name for it in self.objects))
        self.restart(False)
        for hall in self.slow.halls.values():
            self.compare_one(hall)
        self.server.kill()

    def compare_one(self, hall: Hall) -> None:
        text = (self.server.folder / f"{hall.made.name}.journal").read_bytes()
        lines = [it.decode().split(" ", 2) for it in sums.are_right(text)]
        values = {it[1]: it[2] for it in lines if it[0] == "part"}
        saved = {name: kind.bytes_of(hall.contents[name]).hex() for name, kind in hall.made.parts.items()}
        check(values, saved, f"the values of {hall.made.name}")
        clients = {it[1]: it[2].split(" ")[0] for it in lines if it[0] == "client"}
        used = {clients[it[1]]: int(it[2].split(" ")[1]) for it in lines if it[0] == "client"}
        keys = {name: guest.used for name, guest in hall.guests.items()}
        check(used, keys, f"the keys of the clients of {hall.made.name}")
        kept = sorted((clients[it[1]], *it[2].split(" ", 2)) for it in lines if it[0] == "kept")
        known = [(name, *row) for name, guest in hall.guests.items() for row in guest.kept]
        wanted = sorted((name, str(key), *kept_words(call, ending)) for name, key, call, ending in known)
        check(kept, wanted, f"the last calls of the clients of {hall.made.name}")

    def close(self) -> None:
        for it in [*self.voices, self.observer]:
            it.it.close()
        if self.server.runs():
            self.server.kill()


def kept_words(call: Call, ending: Iterable[str]) -> tuple[str, str]:
    return str(call.number.value()), " ".join([*ending, call.op, *map(written, call.arguments)])


def tried(seed: int, count: int, tells: int) -> str | None:
    """Holds so many conversations over one folder; and what is wrong, if anything."""
    room = pathlib.Path(tempfile.mkdtemp(prefix="kept-", dir=ROOMS))
    try:
        world = World(room, seed)
        try:
            for at in range(count):
                world.converse()
            world.compare()
        except (Wrong, OSError, AssertionError, IndexError, KeyError, ValueError) as wrong:
            told = [(voice.name, text_of(it)[:100]) for voice in world.voices for it in voice.speaker.told[-12:]]
            lines = "\n  ".join([*world.steps[-tells:], *(f"{name} is to hear {line}" for name, line in told)])
            names = [it.name for it in world.objects]
            return f"{type(wrong).__name__} {wrong}, in conversation {at + 1} over {names}:\n  {lines}"
        finally:
            world.close()
        return None
    finally:
        shutil.rmtree(room)


def main() -> int:
    given, words = options(given_words(), cases=200, jobs=len(os.sched_getaffinity(0)), tell=12, **{"from": 1})
    if words:
        print(__doc__, file=sys.stderr)
        return 2
    program()
    passed = failed = 0
    with concurrent.futures.ProcessPoolExecutor(given["jobs"]) as pool:
        seeds = range(given["from"], given["from"] + given["cases"], TOGETHER)
        for seed, said in zip(seeds, pool.map(tried, seeds, [TOGETHER] * len(seeds), [given["tell"]] * len(seeds))):
            passed, failed = (passed, failed + 1) if said else (passed + TOGETHER, failed)
            if said:
                print(f"seed {seed}: {said}", flush=True)
    print(f"draw_kept: {passed} passed, {failed} failed")
    return 0 if passed and not failed else 1


load_tests = whole(main)
