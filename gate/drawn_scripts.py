"""The scripts that are drawn from seeds, each with what it has to answer. A script follows from its seed, so each run draws
the same ones."""
from collections.abc import Iterable, Sequence

from gate.drawn_objects import HOLDING, OBJECTS
from gate.seeds import Drawer
from gate.slow_holds import HeldWorld
from gate.slow_world import MOST, Datum, Ending, Object, World, finish_line, shown_lines, written
from gate.tried import there

# Lines that say nothing.
BAD_LINES: tuple[str, ...] = ("begin", "show 1", "step 1", "call s1", "call 1 x", "steps x", "finish", "cancel s1", "drop 1", "Show", "object two")
SESSIONS = (0, 1, 2, 3, 4, 5, 6, 1024, 1025, 2000)
UNKNOWN = ("pop", "v", "cell", "end", "get_", "path", "x1")
REMARKS = ("#", "# it's a remark", "#call s1 get", "  # show", "# 'open")
BLANKS = ("", " ", "     ")
# Lines that say nothing, and look like those of sessions that come back.
BAD_RETURNS: tuple[str, ...] = ("resume", "resume 1", "resume s1 2", "Resume s1", "resume s1 #1", "call s1 #", "call s1 # get", "call s1 #x get",
               "call s1 #1", "call s1 #1 7", "call s1 #4294967296 get", "call s1 # 1 get", "call #1 s1 get", "call s1 get #1",
               "call s1 ##1 get", "call s1 #-1 get", "call s1 1 get", "call s1 '#1' get")


# Lines that say nothing, and look like those of calls that are done at once.
BAD_DOS: tuple[str, ...] = ("do", "do s1", "do 1 get", "do s1 1", "do s1 'get'", "do s1 get x", "do s1 #1 get", "Do s1 get", "do get s1", "done s1 get",
           "do s1 get 4294967296", "do s1 g-t", "do s get")
# Lines that say nothing, and look like those that ask.
BAD_QUESTIONS: tuple[str, ...] = ("why", "why s1", "why 1 2", "why x", "why '1'", "why -1", "why 4294967296", "who 1", "who s1", "Who", "Why 1", "list 1",
                 "whys 1")


class Script:
    """A drawn script, as long as it grows: its lines, and what they have to answer."""

    # The objects, one of which it is on, and what works out its answers.
    objects: tuple[Object, ...] = OBJECTS
    world_of: type[World | HeldWorld] = World
    # Lines that say nothing, of which one ends a script of so many.
    bad_lines, bad_in = BAD_LINES, 12

    def __init__(self, seed: int) -> None:
        self.seed, self.draw = seed, Drawer(seed)
        self.made = self.objects[seed % len(self.objects)]
        self.world = self.world_of(self.made)
        self.lines: list[str] = []
        self.answers: list[str] = []
        self.status = 0
        # How each `do` was answered: what its last line, or that before those of the calls that it started, begins with.
        self.dones: list[str] = []
        # How lines end, or none where each ends as it likes; and whether the last one lacks its end.
        self.ends = self.draw.of((b"\n", b"\n", b"\r\n", None))
        self.is_open = self.draw.one_in(4)

    def cased(self, name: str) -> str:
        return self.draw.of((name, name, name.upper(), name.capitalize(), name.swapcase()))

    def number(self, number: int | str) -> str:
        return self.draw.of(("", "", "", "", "", "0", "000")) + str(number)

    def spaced(self, words: Sequence[str]) -> str:
        """The words as a line, with more spaces now and then."""
        if not self.draw.one_in(6):
            return " ".join(words)
        blanks = [" " * self.draw.below(3), *(" " * (1 + self.draw.below(3)) for _ in words[1:]), " " * self.draw.below(3)]
        return "".join(blank + word for blank, word in zip(blanks, words)) + blanks[-1]

    def add(self, words: Sequence[str], answer: Iterable[str]) -> None:
        self.lines.append(self.spaced(words))
        self.answers += answer

    def text(self) -> bytes:
        """The bytes of the script."""
        either = Drawer(self.seed)
        ends = [self.ends or either.of((b"\n", b"\r\n")) for _ in self.lines]
        if self.is_open:
            ends[-1] = b""
        return b"".join(line.encode("ascii") + end for line, end in zip(self.lines, ends))

    def open(self) -> None:
        self.add(["object", self.cased(self.made.name)], [])

    def session(self) -> int:
        """Mostly one that is free."""
        busy = {it.session for it in self.world.calls if it.state in ("waiting", "running")} | self.world.gone
        free = [it for it in SESSIONS if 1 <= it <= 1024 and it not in busy]
        if free and not self.draw.one_in(6):
            return self.draw.of(free)
        return self.draw.of(SESSIONS)

    def operation(self, names: Iterable[str]) -> str:
        return self.draw.weighted({name: self.made.operations[name].weight for name in names})

    def arguments(self, op: str) -> list[Datum]:
        return [self.draw.of(it) for it in self.made.operations[op].draws]

    def wrong(self, arguments: Sequence[Datum]) -> Sequence[Datum]:
        """Arguments that may not fit."""
        how = self.draw.below(3)
        if how == 0 or not arguments:
            others: tuple[Datum, ...] = (0, 7, "", "x")
            return [*arguments, self.draw.of(others)]
        if how == 1:
            return arguments[:-1]
        at = self.draw.below(len(arguments))
        return [*arguments[:at], "7" if isinstance(arguments[at], int) else 7, *arguments[at + 1 :]]

    def texts(self, arguments: Iterable[Datum]) -> list[str]:
        return [self.number(it) if isinstance(it, int) else written(it) for it in arguments]

    def wished(self) -> tuple[int, str, Sequence[Datum]]:
        """A session, and what it would call: now and then with arguments that do not fit, or what there is not."""
        op, session = self.operation(self.made.operations), self.session()
        arguments: Sequence[Datum] = self.arguments(op)
        if self.draw.one_in(12):
            arguments = self.wrong(arguments)
        if self.draw.one_in(12):
            op = self.draw.of(UNKNOWN)
        return session, op, arguments

    def add_call(self, session: int, op: str, arguments: Sequence[Datum]) -> None:
        texts = self.texts(arguments)
        answer = self.world.call(session, op, arguments)
        self.add(["call", "s" + self.number(session), op, *texts], answer)

    def draw_call(self) -> None:
        op = self.operation(self.made.operations)
        arguments: Sequence[Datum] = self.arguments(op)
        if self.draw.one_in(20):
            arguments = self.wrong(arguments)
        if self.draw.one_in(20):
            op = self.draw.of(UNKNOWN)
        self.add_call(self.session(), self.cased(op), arguments)

    def any_number(self) -> int:
        count = len(self.world.calls)
        return self.draw.of((0, 1, count, count + 1, 65537, MOST, 1 + self.draw.below(count + 1)))

    def running_number(self) -> int:
        found = self.world.numbered("running")
        return self.draw.of(found) if found and not self.draw.one_in(4) else self.any_number()

    def step_number(self) -> int:
        """Mostly that of a call whose run has steps left."""
        found = [it for it in self.world.numbered("running") if there(self.world.running(it)).needs]
        return self.draw.of(found) if found and not self.draw.one_in(12) else self.running_number()

    def finish_number(self) -> int:
        """Mostly that of a call whose run has ended."""
        found = [it for it in self.world.numbered("running") if not there(self.world.running(it)).needs]
        return self.draw.of(found) if found and not self.draw.one_in(12) else self.running_number()

    def cancel_number(self) -> int:
        found = self.world.numbered("waiting")
        return self.draw.of(found) if found and not self.draw.one_in(3) else self.any_number()

    def draw_line(self) -> None:
        runs = self.world.numbered("running")
        weights = {"call": 24, "step": 24, "fail": 3, "steps": 14, "finish": 20, "cancel": 4}
        if not runs:
            weights = {"call": 40, "step": 1, "fail": 1, "steps": 1, "finish": 1, "cancel": 8}
        weights |= {"drop": 2, "show": 4, "trace": 2, "remark": 2, "blank": 2}
        kind = self.draw.weighted(weights)
        if kind == "call":
            self.draw_call()
        elif kind in ("step", "fail"):
            number = self.step_number()
            word = "ok" if kind == "step" else "fail"
            self.add(["step", self.number(number), word], self.world.step(number, kind == "step"))
        elif kind == "steps":
            number = self.step_number()
            self.add(["steps", self.number(number)], self.world.steps(number))
        elif kind == "finish":
            number = self.finish_number()
            self.add(["finish", self.number(number)], self.world.finish(number))
        elif kind == "cancel":
            number = self.cancel_number()
            self.add(["cancel", self.number(number)], self.world.cancel(number))
        elif kind == "drop":
            gone = sorted(self.world.gone)
            session = self.draw.of(gone if gone and self.draw.one_in(3) else SESSIONS)
            self.add(["drop", "s" + self.number(session)], self.world.drop(session))
        elif kind == "show":
            self.add(["show"], self.world.show())
        elif kind == "trace":
            self.add(["trace"], self.world.trace_lines())
        elif kind == "remark":
            self.lines.append(self.draw.of(REMARKS))
        else:
            self.lines.append(self.draw.of(BLANKS))

    def draw_lines(self) -> None:
        self.open()
        count = self.draw.of((self.draw.below(12), self.draw.below(60), 40 + self.draw.below(160)))
        bad = self.draw.below(count + 1) if self.draw.one_in(self.bad_in) else None
        for at in range(count):
            if at == bad:
                self.lines.append(self.draw.of(self.bad_lines))
                self.answers.append(f"bad line {len(self.lines)}")
                self.status = 1
                self.lines += ["show", "trace"]
                return
            self.draw_line()
        # A script often ends with a look at what is left.
        if self.draw.one_in(2):
            self.add(["show"], self.world.show())
            self.add(["trace"], self.world.trace_lines())

    def wanted(self) -> str:
        return "".join(it + "\n" for it in self.answers)

    def judged(self, answer: str) -> str:
        """The part of an answer that is compared."""
        return answer


class InTurn(Script):
    """A drawn script in which each call is stepped to its end and finished before the next one. Its lines on finishes and
    contents follow from the sequential object alone."""

    def draw_lines(self) -> None:
        self.open()
        contents, number = self.made.opening(), 0
        trace: list[tuple[str, str]] = []
        for _ in range(1 + self.draw.below(45)):
            able = [it for it in self.made.operations if self.made.admits([*trace, ("start", it)])]
            if not able:
                break
            op, number = self.operation(able), number + 1
            arguments = self.arguments(op)
            ending, contents = self.made.applied(op, arguments, contents)
            self.add_turn(number, op, arguments, ending)
            trace += [("start", op), ("end", op)]
            if self.draw.one_in(4):
                self.add(["show"], shown_lines(self.made, contents))
        self.add(["show"], shown_lines(self.made, contents))

    def add_turn(self, number: int, op: str, arguments: Sequence[Datum], ending: Ending) -> None:
        """A call from its beginning to its end."""
        texts = self.texts(arguments)
        self.add(["call", f"s{1 + self.draw.below(6)}", self.cased(op), *texts], [])
        self.add_end(number, ending)

    def add_end(self, number: int, ending: Ending) -> None:
        self.add(["steps", str(number)], [])
        self.add(["finish", str(number)], [finish_line(number, ending)])

    def judged(self, answer: str) -> str:
        told = ("done ", "refused ", "failed ", "repeat ", *(f"{name} = " for name in self.made.parts))
        kept = [it for it in answer.splitlines(keepends=True) if it.startswith(told)]
        return "".join(kept)


class Returning(Script):
    """A drawn script in which sessions come back, and calls have keys."""

    bad_lines, bad_in = BAD_RETURNS, 4

    def draw_line(self) -> None:
        kind = self.draw.weighted({"other": 24, "new": 12, "again": 11, "wrong": 3, "fail": 3, "drop": 4, "resume": 4})
        if kind == "other":
            super().draw_line()
        elif kind == "new":
            self.draw_new()
        elif kind == "again":
            self.draw_again()
        elif kind == "wrong":
            self.draw_wrong_key()
        elif kind == "fail":
            number = self.step_number()
            self.add(["step", self.number(number), "fail"], self.world.step(number, False))
        elif kind == "drop":
            session = self.draw.of([it.session for it in self.world.calls] or SESSIONS)
            self.add(["drop", "s" + self.number(session)], self.world.drop(session))
        else:
            gone = sorted(self.world.gone)
            session = self.draw.of(gone if gone and not self.draw.one_in(4) else SESSIONS)
            self.add(["resume", "s" + self.number(session)], self.world.resume(session))

    def add_keyed(self, session: int, key: int, op: str, arguments: Sequence[Datum]) -> None:
        answer = self.world.keyed_call(session, key, op, arguments)
        words = ["call", "s" + self.number(session), "#" + self.number(key), self.cased(op)]
        self.add([*words, *self.texts(arguments)], answer)

    def key_of(self, session: int, number: int) -> int:
        """The place of a call among the calls of its session; that of the next one where no call has this number yet."""
        return sum(it.session == session for it in self.world.calls[: number - 1]) + 1

    def next_key(self, session: int) -> int:
        return self.key_of(session, len(self.world.calls) + 1)

    def draw_new(self) -> None:
        """A call under the next key of its session."""
        session, op, arguments = self.wished()
        self.add_keyed(session, self.next_key(session), op, arguments)

    def draw_again(self) -> None:
        """An accepted call once more, mostly as it was: one of those that stand alike."""
        if not self.world.calls:
            self.draw_new()
            return
        alike: dict[str, list[int]] = {}
        for number, it in enumerate(self.world.calls, 1):
            alike.setdefault(it.ending[0] if it.ending else it.state, []).append(number)
        number = self.draw.of(alike[self.draw.of(sorted(alike))])
        call = self.world.calls[number - 1]
        op, arguments = call.op, call.arguments
        if self.draw.one_in(6):
            op, arguments = self.draw.of(((op, self.wrong(arguments)), (self.draw.of(UNKNOWN), arguments),
                                          (self.operation(self.made.operations), arguments)))
        self.add_keyed(call.session, self.key_of(call.session, number), op, arguments)

    def draw_wrong_key(self) -> None:
        """A key that no call of the session has, and that is not the next one."""
        op, session = self.operation(self.made.operations), self.session()
        after = self.next_key(session) + 1
        key = self.draw.of((0, after, after, after + self.draw.below(9), 65536, 65537, MOST))
        self.add_keyed(session, key, op, self.arguments(op))


class InTurnAgain(InTurn):
    """A script in turn in which calls have keys, sessions come back, and calls that were done are asked for again: each
    answer to that is their finish line, which follows from the sequential object alone."""

    def __init__(self, seed: int) -> None:
        super().__init__(seed)
        self.done: dict[int, list[tuple[int, str, Sequence[Datum], Ending]]] = {}

    def add_turn(self, number: int, op: str, arguments: Sequence[Datum], ending: Ending) -> None:
        session = 1 + self.draw.below(6)
        done = self.done.setdefault(session, [])
        if self.draw.one_in(3):
            self.add(["drop", f"s{session}"], [])
            self.add(["resume", f"s{session}"], [])
        key = [f"#{len(done) + 1}"] if self.draw.one_in(2) else []
        self.add(["call", f"s{session}", *key, self.cased(op), *self.texts(arguments)], [])
        self.add_end(number, ending)
        done.append((number, op, arguments, ending))
        for _ in range(self.draw.below(3)):
            session = self.draw.of(sorted(self.done))
            at = self.draw.below(len(self.done[session]))
            number, op, arguments, ending = self.done[session][at]
            words = ["call", f"s{session}", f"#{at + 1}", self.cased(op), *self.texts(arguments)]
            self.add(words, ["repeat " + finish_line(number, ending)])


class Doing(Returning):
    """A drawn script in which many calls are done at once."""

    bad_lines = BAD_DOS

    def draw_line(self) -> None:
        if not self.draw.one_in(3):
            super().draw_line()
            return
        self.add_done(*self.wished())

    def add_done(self, session: int, op: str, arguments: Sequence[Datum]) -> None:
        texts = self.texts(arguments)
        answer = self.world.do(session, op, arguments)
        told = [it for it in answer if not it.startswith("started ")]
        self.dones.append(f"do: {told[-1]}")
        self.add(["do", "s" + self.number(session), self.cased(op), *texts], answer)


class DoingInTurn(InTurn):
    """A script in turn in which a call is done in one line, or in three."""

    def add_turn(self, number: int, op: str, arguments: Sequence[Datum], ending: Ending) -> None:
        if self.draw.one_in(3):
            super().add_turn(number, op, arguments, ending)
            return
        session = f"s{1 + self.draw.below(6)}"
        self.add(["do", session, self.cased(op), *self.texts(arguments)], [finish_line(number, ending)])


class Asking(Doing):
    """A drawn script that asks now and then why calls wait, and which do."""

    bad_lines = BAD_QUESTIONS

    def why_number(self) -> int:
        """Mostly that of a call that waits."""
        found = self.world.numbered("waiting")
        return self.draw.of(found) if found and not self.draw.one_in(3) else self.any_number()

    def draw_line(self) -> None:
        if not self.draw.one_in(4):
            super().draw_line()
        elif self.draw.one_in(3):
            self.add(["who"], self.world.who())
        else:
            number = self.why_number()
            answer = self.world.why(number)
            self.dones.append(f"why: {answer[0].split()[2]}")
            self.add(["why", self.number(number)], answer)


class Holding(Asking):
    """A drawn script on an object with holds, which asks now and then who holds what."""

    objects, world_of = HOLDING, HeldWorld
    world: HeldWorld

    def draw_line(self) -> None:
        held = self.world.held()
        if not held or not self.draw.one_in(4):
            super().draw_line()
            return
        # What ends something that is held, mostly by who holds it; or a session that holds something leaves.
        one = self.draw.of(held)
        if self.draw.one_in(3):
            self.add(["drop", "s" + self.number(one.session)], self.world.drop(one.session))
            return
        session = self.session() if self.draw.one_in(3) else one.session
        op = self.draw.of(one.hold.until)
        self.add_done(session, op, one.values if self.made.operations[op].draws else [])


FIRST_RETURN = 331
FIRST_DO = 501
FIRST_ASK = 641
FIRST_HOLD = 801


def script_of(seed: int) -> Script:
    """The script of a seed: one of seven is in turn. From a seed on sessions come back, and calls have keys; from a later
    one on many calls are done at once; then it is asked why calls wait; and the last ones are on objects with holds."""
    kinds = (Script, InTurn) if seed < FIRST_RETURN else (Returning, InTurnAgain) if seed < FIRST_DO else (Doing, DoingInTurn)
    if seed >= FIRST_ASK:
        kinds = (Holding if seed >= FIRST_HOLD else Asking, DoingInTurn)
    script = kinds[seed % 7 == 3](seed)
    script.draw_lines()
    return script


def source_of(seed: int) -> str:
    """The text of the objects among which that of the script of a seed is."""
    return "".join(it.text for it in (OBJECTS if seed < FIRST_HOLD else OBJECTS + HOLDING))
