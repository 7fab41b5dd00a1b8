"""Judges what is recovered of the journal of a kept object behind crashes, by a slow world.

usage: gate/crash_journal                       judges what `rt ci` has the program crash_trial print on its own scenario
       gate/crash_journal --draw CRASHES SEED ..  builds crash_trial without its proof, which takes a minute, draws a scenario
                                                from each seed, and has it draw so many crashes in each

crash_trial plays a scenario on a kept object over a device that keeps each call. It tries a crash at each byte of each
write, and draws more: of what no sync had stored any bytes are there or not. One in three new epochs cannot begin, as at a
full disk, and the old one goes on. Behind each crash it recovers, and looks that
lines are there that were written, none left out, and all that was stored. It prints the lines of each epoch, and once for
each place at which a recovery ended the front with which the object goes on.

Here each such front is compared with what follows from the lines alone, by the meaning of bodies and paths (slow_world.py):
the values of the parts; the clients, how many keys each has used, and their last 16 calls with the numbers that were told and
their replies; the number that calls are told from; that a past which is told allows what the whole history allows. And the
whole history, over all epochs, satisfies every path, and each reply is the sequential object's. All follows from the seeds.
"""
import pathlib
import subprocess
import sys
import tempfile
from collections.abc import Iterable, Sequence

from gate import sums
from gate.cases import TOP
from gate.drawn_objects import OBJECTS
from gate.seeds import Drawer
from gate.slow_audit import Word, bare, datum, ending_of, value_of, words_of
from gate.slow_world import Contents, Object, written
from gate.tried import Wrong, new_folder, whole
from tools import make_ready, ready

TRIAL = TOP / "crates" / "crash_trial"
SECONDS = 600
# So many numbers may have been told of calls of which no line tells.
UNTOLD = 65536
KEPT = 16
PLACES, NAMED = range(1, 7), range(1, 4)
# What may follow a history is tried so often, by so many calls.
FUTURES, CALLS = 4, 6
# A call that is kept: its key, its number as it was told, the words of its answer, and its own.
Kept = tuple[int, int, tuple[Word, ...], tuple[Word, ...]]


def whole_number(word: Word) -> int:
    return int(bare(word))


class Client:
    def __init__(self, session: int, name: str, keys: int) -> None:
        self.session, self.name, self.keys = session, name, keys
        self.kept: list[Kept] = []

    def remember(self, told: int, answer: tuple[Word, ...], call: tuple[Word, ...]) -> None:
        self.keys += 1
        self.kept = [*self.kept, (self.keys, told, answer, call)][-KEPT:]


class Epoch:
    """What a front says, and what the lines behind it make of that. Each check line that stands there is right."""

    def __init__(self, made: Object, lines: Iterable[bytes]) -> None:
        self.made, self.number, self.base, self.greatest = made, 0, 0, 0
        self.contents: Contents = {}
        self.past: list[tuple[str, str]] = []
        self.clients: dict[int, Client] = {}
        self.carried: dict[int, int] = {}
        self.events: list[tuple[str, str]] = []
        self.running: tuple[int, int, list[Word]] | None = None
        for line in sums.without(lines):
            self.hear(words_of(line))

    def hear(self, words: list[Word]) -> None:
        verb, *rest = words
        getattr(self, f"hear_{bare(verb)}")(rest)

    def hear_object(self, words: list[Word]) -> None:
        if bare(words[0]) != self.made.name or words[-2] != b"epoch":
            raise Wrong("the front of another object")
        self.number = whole_number(words[-1])

    def hear_source(self, _: object) -> None:
        pass

    def hear_part(self, words: list[Word]) -> None:
        name = bare(words[0])
        self.contents[name] = value_of(self.made.parts[name], bare(words[1]))

    def hear_past(self, words: list[Word]) -> None:
        if words[0] in (b"begin", b"end"):
            self.past.append(("start" if words[0] == b"begin" else "end", bare(words[1])))
        else:
            op = bare(words[0])
            self.past += [("start", op), ("end", op)] * whole_number(words[1])

    def hear_base(self, words: list[Word]) -> None:
        self.base = whole_number(words[0])

    def hear_carried(self, words: list[Word]) -> None:
        self.carried[whole_number(words[0])] = whole_number(words[1])
        if whole_number(words[0]) != len(self.carried):
            raise Wrong("a carried call that has not the number of its place")

    def hear_client(self, words: list[Word]) -> None:
        session = int(bare(words[0])[1:])
        self.clients[session] = Client(session, bare(words[1]), whole_number(words[2]))

    def hear_kept(self, words: list[Word]) -> None:
        client = self.clients[int(bare(words[0])[1:])]
        count = 1 if words[3] in (b"cancelled",) or words[3:4] == [b"done"] and self.is_call(words[4:]) else 2
        client.kept.append((whole_number(words[1]), whole_number(words[2]), tuple(words[3 : 3 + count]), tuple(words[3 + count :])))

    def is_call(self, words: list[Word]) -> bool:
        """Whether an operation and arguments that fit it stand here."""
        if not words or isinstance(words[0], str) or bare(words[0]) not in self.made.operations:
            return False
        return self.made.operations[bare(words[0])].takes([datum(it) for it in words[1:]])

    def told(self, number: int) -> int:
        return self.carried.get(number, self.base + number)

    def hear_name(self, words: list[Word]) -> None:
        session, name = int(bare(words[0])[1:]), bare(words[1])
        self.clients = {it.session: it for it in self.clients.values() if it.name != name}
        self.clients[session] = Client(session, name, 0)

    def hear_start(self, words: list[Word]) -> None:
        if self.running is not None:
            raise Wrong("a call starts where another one runs")
        self.running = whole_number(words[0]), int(bare(words[1])[1:]), words[2:]
        self.events.append(("start", bare(words[2])))

    def hear_end(self, words: list[Word]) -> None:
        assert self.running is not None
        number, session, call = self.running
        self.running = None
        if number != whole_number(words[0]):
            raise Wrong("a call ends that does not run")
        op, arguments = bare(call[0]), [datum(it) for it in call[1:]]
        self.events.append(("end", op))
        found, self.contents = self.made.applied(op, arguments, self.contents)
        if found != ending_of(words[1:]):
            raise Wrong(f"call {number} has another reply")
        self.count(number, session, tuple(words[1:]), tuple(call))

    def hear_cancel(self, words: list[Word]) -> None:
        self.count(whole_number(words[0]), int(bare(words[1])[1:]), (b"cancelled",), tuple(words[2:]))

    def count(self, number: int, session: int, answer: tuple[Word, ...], call: tuple[Word, ...]) -> None:
        self.greatest = max(self.greatest, number)
        if session in self.clients:
            self.clients[session].remember(self.told(number), answer, call)

    def names(self) -> dict[str, tuple[int, int, tuple[Kept, ...]]]:
        return {it.name: (it.session, it.keys, tuple(it.kept)) for it in self.clients.values()}


def followers(draw: Drawer, made: Object, running: Sequence[object] = ()) -> list[str]:
    """Calls that might follow, one after the other."""
    return [draw.of(tuple(made.operations)) for _ in range(CALLS)]


def admitted(made: Object, history: list[tuple[str, str]], calls: Iterable[str]) -> list[bool]:
    """Which of these calls the paths admit behind a history, one after the other."""
    history = list(history)
    found: list[bool] = []
    for op in calls:
        found.append(made.admits([*history, ("start", op)]))
        if found[-1]:
            history += [("start", op), ("end", op)]
    return found


class Printed:
    """What crash_trial printed: the lines of each epoch, and of each state the epoch, the length and the front."""

    def __init__(self, text: bytes) -> None:
        self.epochs: list[list[bytes]] = []
        self.states: list[tuple[int, int, list[bytes]]] = []
        self.faults: list[str] = []
        self.crashes, self.refused = 0, 0
        into: list[bytes] | None = None
        for line in text.split(b"\n")[:-1]:
            words = line.split(b" ")
            if words[0] == b"epoch":
                into = []
                self.epochs.append(into)
            elif words[0] == b"state":
                into = []
                self.states.append((int(words[1]), int(words[2]), into))
            elif words[0] == b"refused":
                self.refused = int(words[1])
            elif words[0] == b"crashes":
                self.crashes = int(words[1])
                if int(words[3]):
                    self.faults.append(line.decode())
            elif words[0] in (b"wrong", b"wrong,", b"line", b"no"):
                self.faults.append(line.decode())
            else:
                assert into is not None
                into.append(line)


Judged = tuple[list[str], Printed]


def judge_state(made: Object, printed: Printed, epoch: int, length: int, front: list[bytes], draw: Drawer) -> None:
    lines = printed.epochs[epoch - 1]
    text = b"".join(it + b"\n" for it in lines)[:length]
    if not text.endswith(b"\n"):
        raise Wrong("it ends in a line")
    stood, after = Epoch(made, text.split(b"\n")[:-1]), Epoch(made, front)
    if stood.running is not None:
        raise Wrong("it ends where a call runs")
    if after.contents != stood.contents:
        raise Wrong("other values")
    if after.number != stood.number + 1 or after.base != stood.base + stood.greatest + UNTOLD:
        raise Wrong("another epoch, or numbers that are told from elsewhere")
    if after.names() != stood.names():
        raise Wrong(f"other clients: {after.names()} for {stood.names()}")
    if after.carried or after.events:
        raise Wrong("something waits or happened")
    before = [it for lines in printed.epochs[: epoch - 1] for it in Epoch(made, lines).events] + stood.events
    for _ in range(FUTURES):
        calls = followers(draw, made)
        if admitted(made, before, calls) != admitted(made, after.past, calls):
            raise Wrong(f"behind the past another future: {calls}")


def judge(made: Object, text: bytes, draw: Drawer) -> Judged:
    """The faults of what was printed, and how many states there were."""
    printed = Printed(text)
    faults = printed.faults
    try:
        history = [it for lines in printed.epochs for it in Epoch(made, lines).events]
        if not made.admits(history):
            faults.append("the history breaks a path")
    except Wrong as wrong:
        faults.append(str(wrong))
    for epoch, length, front in printed.states:
        try:
            judge_state(made, printed, epoch, length, front, draw)
        except Wrong as wrong:
            faults.append(f"epoch {epoch}, {length} bytes: {wrong}")
    if not printed.crashes or not printed.states:
        faults.append("no crash was tried")
    return faults, printed


def scenario(seed: int) -> tuple[Object, str]:
    """The object and the lines of the scenario of a seed."""
    draw = Drawer(seed)
    made = OBJECTS[seed % len(OBJECTS)]
    lines = [f"object {made.name}", *(f"name s{it} c{it}" for it in NAMED if draw.below(4))]
    for _ in range(30 + draw.below(60)):
        kind, place = draw.below(20), draw.of(PLACES)
        if kind == 0:
            lines.append("epoch")
        elif kind < 5:
            lines.append("sync")
        elif kind == 5:
            lines.append(f"cancel s{place}")
        elif kind == 6:
            lines.append(f"leave s{place}")
            if place in NAMED:
                lines.append(f"name s{place} c{place}")
        else:
            op = draw.weighted({it: made.operations[it].weight for it in made.operations})
            words = [written(draw.of(it)) for it in made.operations[op].draws]
            lines.append(" ".join([f"call s{place} {op}", *words]))
    return made, "".join(it + "\n" for it in lines)


def tried(file: pathlib.Path, crashes: int, seed: int) -> Judged:
    made, lines = scenario(seed)
    with tempfile.TemporaryDirectory() as folder:
        source = pathlib.Path(folder) / "object.pp"
        source.write_text(made.text, encoding="ascii")
        words: list[str | pathlib.Path] = [file, source, str(crashes), str(seed)]
        run = subprocess.run(words, input=lines.encode(), stdout=subprocess.PIPE, timeout=SECONDS)
    faults, printed = judge(made, run.stdout, Drawer(seed))
    if run.returncode and not faults:
        faults.append(f"it ended with status {run.returncode}")
    return faults, printed


def kept() -> Judged:
    """What the gate has crash_trial print, judged."""
    name = (TRIAL / "stdin").read_text(encoding="ascii").split("\n")[0].split(" ")[1]
    made = next(it for it in OBJECTS if it.name == name)
    faults, printed = judge(made, (TRIAL / "stdout").read_bytes(), Drawer(1))
    if not printed.refused:
        faults.append("no new epoch was refused")
    return faults, printed


def main() -> int:
    words = sys.argv[1:]
    if not words:
        return told([("the scenario of the gate", kept())])
    if words[0] != "--draw" or len(words) < 3:
        sys.exit(__doc__)
    with new_folder() as folder:
        ready.copy_sources(folder / "repo", TRIAL.name)
        file = make_ready.built(folder, TRIAL.name)
        return told((f"seed {it}", tried(file, int(words[1]), int(it))) for it in words[2:])


def told(runs: Iterable[tuple[str, Judged]]) -> int:
    passed = failed = crashes = 0
    for name, (faults, printed) in runs:
        crashes += printed.crashes
        failed += bool(faults)
        passed += 0 if faults else len(printed.states)
        for fault in faults[:10]:
            print(f"{name}: {fault}", flush=True)
    print(f"{crashes} crashes were tried")
    print(f"crash_journal: {passed} passed, {failed} failed")
    return 0 if passed and not failed else 1


load_tests = whole(main)
