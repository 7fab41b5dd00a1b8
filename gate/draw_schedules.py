"""Draws schedules of all that is outside of the loop of `pathserve keep`, and judges what is seen of it by a slow server.

usage: gate/draw_schedules                    judges what `rt ci` has the program schedule_trial print on its own schedules
       gate/draw_schedules --draw N SEED      builds schedule_trial without its proof, which takes minutes, and draws N
                                              schedules from SEED on
       gate/draw_schedules --program FILE ..  the same with the program in FILE
       gate/draw_schedules --print N SEED     prints the schedules that are drawn for the objects of the gate

A schedule is data (crates/schedule_trial/src/steps.rt): connections that come, also while there is no place; bytes of them
in whatever pieces; ends and breaks; writes that take some bytes, or fail; ticks; accepts, appends and syncs that are
refused; the end of the server. The program serves drawn objects over it, and prints all that was seen, in order. The same
schedule has to give the same bytes again.

Each line is done by a slow server (gate/slow_kept.py) in the order in which it was heard. At each moment what a connection
was written has to be a front of what the slow server tells it; and where answers wait for the disk, nothing of an answer is
written before all lines of journals are stored that were added up to there: so a crash at any moment loses nothing that was
answered. Behind a sync that failed nothing is written. What journals were handed has to be the slow server's history, with
its values and keys. Where the server ended in order, all is heard and all is written that can be, and all is stored.
"""
import collections
import concurrent.futures
import os
import pathlib
import subprocess
import sys
import tempfile
from collections.abc import Iterable, Mapping, Sequence as Sequence_
from typing import NamedTuple

from gate import sums
from gate.cases import TOP
from gate.crash_journal import Epoch, Wrong
from gate.draw_kept import World, text_of
from gate.drawn_objects import OBJECTS
from gate.seeds import Drawer
from gate.slow_kept import LONGEST, Call, Hall, Slow, Speaker
from gate.slow_world import Object, Sequence
from gate.tried import new_folder, whole
from tools import make_ready, ready

TRIAL = TOP / "crates" / "schedule_trial"
# The objects of the schedules of the gate; so many schedules are played by one run of the program, which takes so many
# seconds at most; of what a connection is owed more would hang on chance.
GATE, TOGETHER, SECONDS, MOST_OWED = ("cell", "buffer", "book"), 8, 300, 60_000
REFUSALS = ("unadded", "unstored", "unstored")
# Behind so many calls a new epoch begins: an object has a past of nearly as many in one of so many schedules.
NEW_EPOCH, ONE_IN = 60_000, 8
# A step of a schedule: its word, its two numbers and the bytes behind them; and what was printed of one: its word, its
# number and the bytes behind them.
Step = tuple[str, int, int, bytes]
Seen = tuple[str, int, bytes]


# What is drawn.


def counts(node: object) -> bool:
    """Whether a path has a `;`: so it counts what was done before."""
    below = getattr(node, "members", [node.inner] if hasattr(node, "inner") else [])
    return isinstance(node, Sequence) or any(map(counts, below))


class Voice:
    """A connection, as the one who draws sees it."""

    def __init__(self, place: int) -> None:
        self.place, self.speaker, self.says, self.takes, self.is_over = place, Speaker(), 0, 0, False


class Schedule(World):
    """A schedule, as long as it grows. What is said is drawn by a slow server that hears it at once."""

    def __init__(self, objects: list[Object], seed: int) -> None:
        self.draw, self.objects, self.slow = Drawer(seed), objects, Slow(objects)
        self.steps: list[bytes] = []
        self.voices: list[Voice] = []
        self.second = 0
        self.places, self.waits = self.draw.of((1, 2, 3, 8, 64, 64)), 0 if self.draw.one_in(5) else 1
        if seed % ONE_IN == 0 and not any(map(counts, objects[0].paths)):
            # (its first object has a new epoch, mostly, or one that cannot begin)
            self.add("past", 0, NEW_EPOCH - self.draw.below(3))
            self.add(self.draw.of(("wait", "wait", "full", "unbegun")), 0)
            voice = self.comes()
            self.say(voice, f"open {objects[0].name}", *(self.spaced(["call", *self.call(objects[0])]) for _ in range(4)))
        for _ in range(10 + self.draw.below(60)):
            self.step()
        self.end()

    def add(self, word: str, place: int = 0, number: int = 0, behind: bytes = b"") -> None:
        self.steps.append(f"{word} {place} {number}\n".encode() + behind)

    def step(self) -> None:
        what = self.draw.weighted({"come": 10, "talk": 50, "part": 4, "wait": 30, "take": 8, "tick": 3, "short": 2, "due": 3,
                                   "cut": 1, "refuse": 1})
        here = [it for it in self.voices if not it.is_over]
        if what == "come" or not here:
            voice = self.comes()
            if self.draw.below(5):
                self.talk(voice)
        elif what == "talk":
            self.talk(self.draw.of(here))
        elif what == "part":
            self.part(self.draw.of(here))
        elif what == "take":
            voice = self.draw.of(here)
            voice.takes += 1
            self.add("take", voice.place, self.draw.of((0, 0, 1, 2, 5, 11, 40, 500)))
        elif what == "cut":
            if self.draw.one_in(3):
                self.add("cut", self.draw.of(here).place)
        elif what == "tick":
            self.second += self.draw.below(3)
            self.add("tick", 0, self.second)
        elif what == "refuse":
            if self.draw.one_in(4):
                self.add(self.draw.of(REFUSALS), self.draw.below(len(self.objects)))
        else:
            self.add(what)

    def comes(self) -> Voice:
        voice = Voice(len(self.voices))
        self.voices.append(voice)
        self.add("come")
        return voice

    def say(self, voice: Voice, *lines: str, is_whole: bool = True) -> None:
        """Says lines in pieces, between which the loop may wait."""
        ends = ["\r\n" if self.draw.one_in(12) else "\n" for _ in lines]
        if not is_whole:
            ends[-1] = ""
        text = "".join(line + end for line, end in zip(lines, ends)).encode("ascii")
        for line, end in zip(lines, ends):
            self.slow.say(voice.speaker, line + end.rstrip("\n"), bool(end))
        while text:
            size = len(text) if self.draw.below(3) else 1 + self.draw.below(len(text))
            voice.says += 1
            self.add("say", voice.place, size, text[:size] + b"\n")
            text = text[size:]
            if self.draw.one_in(4):
                self.add("wait")

    def part(self, voice: Voice) -> None:
        how = self.draw.weighted({"end": 4, "break": 3, "cut off": 3, "too long": 1})
        voice.is_over = True
        if how == "too long":
            self.say(voice, self.draw.of(("x", "call get ", "'")) * LONGEST)
            return
        if how == "cut off":
            line = self.line(voice.speaker)
            self.say(voice, line[: self.draw.below(len(line) + 1)], is_whole=False)
        self.add("break" if how == "break" else "end", voice.place)
        self.slow.leave(voice.speaker)

    def end(self) -> None:
        """All is heard, the server ends, mostly, and all is taken."""
        if self.draw.below(4):
            for _ in range(10 + 2 * sum(it.says for it in self.voices)):
                self.add("wait")
        self.add("stop")
        for _ in range(3 + max([it.takes for it in self.voices], default=0)):
            for it in self.voices:
                self.add("take", it.place, 1 << 30)
            self.add("wait")

    def text(self) -> bytes:
        return b"".join(self.steps) + f"run {self.places} {self.waits}\n".encode()


# What is judged.


class Found(Hall):
    """A kept object that counts the lines of its journal, and knows in which order calls ended."""

    def __init__(self, made: Object) -> None:
        super().__init__(made)
        self.lines = 0
        self.order: list[int] = []

    def do(self, call: Call) -> None:
        super().do(call)
        self.lines += 2
        self.order.append(call.number.place)

    def cancel(self, call: Call) -> None:
        super().cancel(call)
        self.lines += 1 if call.guest else 0


class Heard(Slow):
    """A slow server that hears a schedule as the loop did."""

    halls: Mapping[str, Found]

    def __init__(self, objects: list[Object]) -> None:
        super().__init__(objects)
        self.halls = {it.name: Found(it) for it in objects}

    def open(self, speaker: Speaker, name: str, client: str | None) -> None:
        names = {it: len(hall.guests) for it, hall in self.halls.items()}
        super().open(speaker, name, client)
        for it, hall in self.halls.items():
            hall.lines += len(hall.guests) - names[it]


class Wire:
    """A connection, as it was seen: what was said of it, and of each line that it is told how many lines of each journal
    were added before."""

    def __init__(self) -> None:
        self.speaker, self.said, self.rest, self.is_deaf, self.written = Speaker(), b"", b"", False, b""
        self.told = b""
        self.needs: list[tuple[int, list[int]]] = []


class Journal:
    """What was handed to a journal since its last front, how many lines were handed to it in all and stored, check lines
    apart, and the epochs before."""

    def __init__(self, front: bytes) -> None:
        self.front, self.text, self.handed, self.stored, self.is_new = front, b"", 0, 0, True


class Judge:
    """All that was seen of a schedule, beside the slow server."""

    def __init__(self, objects: list[Object], schedule: bytes, seen: list[Seen]) -> None:
        self.objects, self.slow = objects, Heard(objects)
        self.wires: dict[int, Wire] = {}
        self.order: list[int] = []
        self.steps, (self.places, self.waits) = steps_of(schedule)
        self.journals = [Journal(text) for word, _, text in seen if word == "front"]
        self.seen = [it for it in seen if it[0] != "front"]

    def judge(self) -> None:
        for at, (word, number, text) in enumerate(self.seen[:-1]):
            try:
                getattr(self, f"hear_{word}")(number, text)
                self.turn_ends()
            except Wrong as wrong:
                raise Wrong(f"{wrong}, at {at}: {word} {number} {text[:60]!r}") from None
        word, number, _ = self.seen[-1]
        if word == "fault":
            self.judge_fault(number)
        elif word != "ended" or not any(it[0] == "ends" for it in self.seen):
            raise Wrong(f"it ended as {word}")
        else:
            self.judge_end()
        for made, journal in zip(self.objects, self.journals):
            self.judge_journal(self.slow.halls[made.name], journal, word == "ended")

    # Turns.

    def hear_joins(self, who: int, _: object) -> None:
        if len([it for it in self.wires.values() if not it.speaker.has_left]) >= self.places or who in self.wires:
            raise Wrong("a connection is taken for which there is no place")
        self.wires[who] = Wire()
        self.order.append(who)

    def hear_came(self, who: int, text: bytes) -> None:
        wire = self.wires[who]
        if wire.is_deaf or wire.speaker.has_left:
            raise Wrong("a connection is read that is over")
        wire.said += text
        wire.rest += text
        while b"\n" in wire.rest and not wire.is_deaf and not wire.speaker.has_left:
            line, _, wire.rest = wire.rest.partition(b"\n")
            self.say(wire, line, True)
            self.turn_ends()
        if not wire.is_deaf and not wire.speaker.has_left and len(wire.rest) > LONGEST:
            self.say(wire, wire.rest, False)

    def say(self, wire: Wire, line: bytes, is_whole: bool) -> None:
        if len(line) > LONGEST:
            # (it leaves once all are heard)
            wire.is_deaf = True
            wire.speaker.tell("no", "LineTooLong")
        else:
            self.slow.say(wire.speaker, line.decode("ascii"), is_whole)

    def hear_end(self, who: int, _: object) -> None:
        wire = self.wires[who]
        if wire.rest:
            self.say(wire, wire.rest, False)
        wire.is_deaf = True

    def hear_broke(self, who: int, _: object) -> None:
        self.wires[who].is_deaf = True

    def hear_leaves(self, who: int, _: object) -> None:
        self.slow.leave(self.wires[who].speaker)
        self.slow.go_on()

    def hear_ends(self, _: object, __: object) -> None:
        for who in sorted(self.wires, key=lambda it: it % self.places):
            self.slow.end(self.wires[who].speaker)
        self.slow.go_on()

    def hear_ticks(self, *_: object) -> None:
        pass

    def turn_ends(self) -> None:
        """Of each line that was told in this turn it is known what has to be kept before it is written."""
        needs = [self.slow.halls[it.name].lines for it in self.objects]
        for wire in self.wires.values():
            for words in wire.speaker.told[len(wire.needs) :]:
                wire.needs.append((len(wire.told), needs))
                wire.told += text_of(words).encode("ascii") + b"\n"
            if len(wire.told) - len(wire.written) > MOST_OWED:
                raise OverflowError

    # What is written and kept.

    def hear_wrote(self, who: int, text: bytes) -> None:
        wire = self.wires[who]
        wire.written += text
        if not wire.told.startswith(wire.written):
            raise Wrong(f"{who} was written {wire.written[-200:]!r}, and is told {wire.told[-200:]!r}")
        kept = [it.stored if self.waits else it.handed for it in self.journals]
        for start, needs in wire.needs:
            if start < len(wire.written) and any(it > has for it, has in zip(needs, kept)):
                raise Wrong(f"{who} was written what needs {needs} lines, and {kept} are kept")

    def hear_added(self, at: int, text: bytes) -> None:
        journal = self.journals[at]
        journal.text += text
        journal.handed += sums.counted(text)

    def hear_stored(self, at: int, _: object) -> None:
        self.journals[at].stored = self.journals[at].handed

    def hear_changed(self, at: int, text: bytes) -> None:
        """A new front says what the slow server holds."""
        journal, hall = self.journals[at], self.slow.halls[self.objects[at].name]
        front = Epoch(hall.made, text.split(b"\n")[:-1])
        said = front.contents, used_in(front), list(front.carried.values())
        holds = hall.contents, used_by(hall), [it.number.value() for it in hall.waiting]
        if said != holds:
            raise Wrong(f"the new front says {said}, and {holds} is held")
        journal.front, journal.text, journal.stored, journal.is_new = text, b"", journal.handed, False

    # Ends.

    def judge_fault(self, at: int) -> None:
        """A journal failed: where answers wait for it, that it was handed lines, or began anew, was the last that happened."""
        word, number, _ = self.seen[-2]
        if self.waits and (word not in ("added", "changed") or number != at):
            raise Wrong(f"journal {at} failed, and the last that happened is {word} {number}")
        if not any(step[0] in ("unadded", "unstored", "unbegun") and step[1] == at for step in self.steps):
            raise Wrong(f"journal {at} failed, and no step says so")

    def judge_end(self) -> None:
        """In order all was heard, all written, but for those that are over, and all stored."""
        for made, journal in zip(self.objects, self.journals):
            if journal.stored != journal.handed:
                raise Wrong(f"of {made.name} {journal.handed} lines were handed on, and {journal.stored} are stored at the end")
        for place, who in enumerate(self.order):
            wire = self.wires[who]
            says = b"".join(step[3] for step in self.steps if step[:2] == ("say", place))
            if not says.startswith(wire.said):
                raise Wrong(f"{who} was heard to say what it did not")
            is_cut = any(step[:2] == ("cut", place) for step in self.steps)
            if not is_cut and wire.written != wire.told:
                raise Wrong(f"{who} was not written {wire.told[len(wire.written):][:200]!r}")
            is_over = is_cut or wire.is_deaf or ("bye",) in wire.speaker.told
            if self.is_settled() and not is_over and wire.said != says:
                raise Wrong(f"{who} was not heard to say {says[len(wire.said):][:200]!r}")

    def is_settled(self) -> bool:
        """Whether the end comes once all can be heard."""
        words = [it[0] for it in self.steps]
        before = words[: words.index("stop")]
        tail = len(before) - len("".join("w" if it == "wait" else "x" for it in before).rstrip("w"))
        return tail >= 10 and words.count("come") <= self.places

    def judge_journal(self, hall: Found, journal: Journal, is_whole: bool) -> None:
        """What a journal was handed is the history of its object."""
        text = (journal.front + journal.text).decode("ascii").encode()
        stood = Epoch(hall.made, text.split(b"\n")[:-1])
        ops = [op for kind, op in hall.trace if kind == "end"]
        found = [op for kind, op in stood.events if kind == "end"]
        if journal.is_new and found != ops[: len(found)] or found != ops[len(ops) - len(found) :] and is_whole:
            raise Wrong(f"journal of {hall.made.name} tells of {found}, and {ops} were done")
        if is_whole:
            if journal.handed != hall.lines or stood.contents != hall.contents:
                raise Wrong(f"{hall.made.name} has other values in its journal, or lines: {journal.handed} of {hall.lines}")
            if used_in(stood) != used_by(hall):
                raise Wrong(f"{hall.made.name} has other clients in its journal: {used_in(stood)}")


def used_in(epoch: Epoch) -> dict[str, int]:
    """How many keys each client has used, by what an epoch tells."""
    return {it.name: it.keys for it in epoch.clients.values()}


def used_by(hall: Hall) -> dict[str, int]:
    return {name: guest.used for name, guest in hall.guests.items()}


def steps_of(text: bytes) -> tuple[list[Step], tuple[int, bool]]:
    """The steps of a schedule, with the bytes behind each, and of its last line the places and whether answers wait."""
    steps: list[Step] = []
    while text:
        line, _, text = text.partition(b"\n")
        word, place, number = line.decode().split(" ")
        if word == "run":
            return steps, (int(place), number == "1")
        size = int(number) if word == "say" else 0
        steps.append((word, int(place), int(number), text[:size]))
        text = text[size + 1 :] if word == "say" else text
    raise Wrong("a schedule without its end")


def schedules_of(text: bytes) -> list[bytes]:
    """The texts of schedules, one behind the other."""
    found = []
    while text:
        rest = text
        while rest:
            line, _, rest = rest.partition(b"\n")
            word, _, number = line.decode().split(" ")
            rest = rest[int(number) + 1 :] if word == "say" else rest
            if word == "run":
                break
        found.append(text[: len(text) - len(rest)])
        text = rest
    return found


def seen_of(text: bytes) -> list[list[Seen]]:
    """Of each schedule all that was printed."""
    found: list[list[Seen]] = []
    blocks: list[Seen] = []
    while text:
        line, _, text = text.partition(b"\n")
        word, number, size = line.decode().split(" ")
        blocks.append((word, int(number), text[: int(size)]))
        text = text[int(size) + 1 :] if int(size) else text
        if word in ("ended", "memory", "fault"):
            found.append(blocks)
            blocks = []
    return found


class Count(NamedTuple):
    """How many schedules were right and how many were not, what was wrong, and how often each word was printed."""

    passed: int
    failed: int
    faults: list[str]
    words: "collections.Counter[str]"


def judged(name: str, objects: list[Object], schedules: Sequence_[bytes], printed: bytes) -> Count:
    """How many schedules were right, and what is wrong with the others."""
    seen, passed = seen_of(printed), 0
    faults: list[str] = []
    words: collections.Counter[str] = collections.Counter()
    if len(seen) != len(schedules):
        return Count(0, 1, [f"{name}: {len(seen)} of {len(schedules)} schedules were played"], words)
    for at, (schedule, found) in enumerate(zip(schedules, seen)):
        try:
            Judge(objects, schedule, found).judge()
            passed += 1
            words.update(it[0] for it in found)
        except OverflowError:
            words["too much is owed"] += 1
        except (Wrong, KeyError, IndexError, ValueError, AssertionError) as wrong:
            faults.append(f"{name}, schedule {at + 1}: {type(wrong).__name__} {wrong}")
    return Count(passed, len(faults), faults, words)


def drawn_objects(seed: int) -> list[Object]:
    draw = Drawer(seed)
    places = sorted({draw.below(len(OBJECTS)) for _ in range(1 + draw.below(3))})
    return [OBJECTS[it] for it in places]


def tried(program: pathlib.Path, seed: int, count: int) -> Count:
    """Plays so many schedules over the objects of a seed, twice."""
    objects = drawn_objects(seed)
    schedules = [Schedule(objects, seed + at).text() for at in range(count)]
    with tempfile.TemporaryDirectory() as folder:
        source = pathlib.Path(folder) / "objects.pp"
        source.write_text("".join(it.text for it in objects), encoding="ascii")
        try:
            runs = [played(program, source, b"".join(schedules)) for _ in range(2)]
        except subprocess.TimeoutExpired:
            return Count(0, 1, [f"seed {seed}: it took more than {SECONDS} s"], collections.Counter())
    names = " ".join(it.name for it in objects)
    found = judged(f"seed {seed} over {names}", objects, schedules, runs[0].stdout)
    if runs[0].returncode or runs[1].stdout != runs[0].stdout:
        why = f"seed {seed}: status {runs[0].returncode}, or other bytes at the second time"
        return found._replace(failed=found.failed + 1, faults=[*found.faults, why])
    return found


def played(program: pathlib.Path, source: pathlib.Path, text: bytes) -> "subprocess.CompletedProcess[bytes]":
    return subprocess.run([program, source], input=text, stdout=subprocess.PIPE, timeout=SECONDS)


def gate_objects() -> list[Object]:
    return [next(it for it in OBJECTS if it.name == name) for name in GATE]


def gate_schedules(count: int, seed: int) -> bytes:
    return b"".join(Schedule(gate_objects(), seed + at).text() for at in range(count))


def draw_all(program: pathlib.Path, count: int, seed: int) -> int:
    seeds = range(seed, seed + count, TOGETHER)
    with concurrent.futures.ProcessPoolExecutor(len(os.sched_getaffinity(0))) as pool:
        sizes = [min(TOGETHER, seed + count - it) for it in seeds]
        return told(pool.map(tried, [program] * len(seeds), seeds, sizes))


def built_and_drawn(count: int, seed: int) -> int:
    with new_folder() as folder:
        ready.copy_sources(folder / "repo", TRIAL.name)
        return draw_all(make_ready.built(folder, TRIAL.name), count, seed)


def told(counts: Iterable[Count]) -> int:
    passed = failed = 0
    words: collections.Counter[str] = collections.Counter()
    for it in counts:
        passed, failed = passed + it.passed, failed + it.failed
        words += it.words
        for fault in it.faults:
            print(fault, flush=True)
    print(*(f"{word} {count}" for word, count in sorted(words.items())))
    print(f"draw_schedules: {passed} passed, {failed} failed")
    return 0 if passed and not failed else 1


def main() -> int:
    words = sys.argv[1:]
    if not words:
        schedules, printed = (TRIAL / "stdin").read_bytes(), (TRIAL / "stdout").read_bytes()
        return told([judged("the gate", gate_objects(), schedules_of(schedules), printed)])
    if len(words) == 3 and words[0] == "--print":
        sys.stdout.buffer.write(gate_schedules(int(words[1]), int(words[2])))
        return 0
    if len(words) == 3 and words[0] == "--draw":
        return built_and_drawn(int(words[1]), int(words[2]))
    if len(words) == 4 and words[0] == "--program":
        return draw_all(pathlib.Path(words[1]).resolve(), int(words[2]), int(words[3]))
    print(__doc__, file=sys.stderr)
    return 2


load_tests = whole(main)
