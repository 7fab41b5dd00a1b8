"""A slow world of one object with holds: what each line of a script has to answer. What is held is worked out anew for each
question, from how calls ended, over the whole trace."""
from collections.abc import Sequence
from typing import Any

from gate.slow_world import Datum, Ending, Object, World


class Hold:
    """`hold OP until UNDO, ..;`, with `by any` or without."""

    def __init__(self, op: str, until: Sequence[str], by_any: bool = False) -> None:
        self.op, self.until, self.by_any = op, until, by_any


class Held:
    """A call that is held, with its arguments and behind them its reply."""

    def __init__(self, number: int, session: int, hold: Hold, values: list[Datum]) -> None:
        self.number, self.session, self.hold, self.values = number, session, hold, values


def fitting(held: list[Held], hold: "Hold | None", arguments: Sequence[Datum]) -> list[Held]:
    """Of what is held by this hold what a call with these arguments may end: all of it, where it has none."""
    return [it for it in held if it.hold is hold and list(arguments) in ([], it.values)]


class HeldWorld:
    """An object with holds, its calls, what is held, and the sessions that have left, in that order. A session that has left
    calls nothing itself; what gives back what it holds is called in its name."""

    def __init__(self, made: Object) -> None:
        self.made, self.world = made, World(made)
        self.away: list[int] = []

    def __getattr__(self, name: str) -> Any:
        return getattr(self.world, name)

    @property
    def gone(self) -> set[int]:
        return set(self.away)

    def hold_by(self, op: str) -> "Hold | None":
        """The hold that a call of an operation ends, or none."""
        return next((it for it in self.made.holds if op in it.until), None)

    def held(self) -> list[Held]:
        """What is held now, the oldest first."""
        held: list[Held] = []
        for event in self.world.trace:
            if event[0] == "end":
                self.take_past(held, event[1], event[2])
        return held

    def take_past(self, held: list[Held], number: int, ending: Ending) -> None:
        """What is held past the end of a call: what one leaves that was not done is what was held."""
        if ending[0] != "done":
            return
        call = self.world.calls[number - 1]
        fits = fitting(held, self.hold_by(call.op), call.arguments)
        if fits:
            own = [it for it in fits if it.session == call.session]
            held.remove(own[-1] if own else fits[0])
        for hold in self.made.holds:
            if hold.op == call.op:
                held.append(Held(number, call.session, hold, [*call.arguments, *([] if ending[1] is None else [ending[1]])]))

    def refused(self, session: int, op: str, arguments: Sequence[Datum], is_new: bool = True) -> "list[str] | None":
        """The line by which a call is refused before the desk is asked, or none."""
        if session in self.away:
            return ["no Gone"]
        operation, hold = self.made.operations.get(op.lower()), self.hold_by(op.lower())
        if not is_new or self.world.is_gone(session) or operation is None or not operation.takes(arguments) or hold is None or hold.by_any:
            return None
        own = [it for it in fitting(self.held(), hold, arguments) if it.session == session]
        return None if own else ["no NotHeld"]

    def gives_back(self, lines: list[str]) -> list[str]:
        """The lines, and those of what is called now for the sessions that have left: of each for the newest that it holds."""
        for session in self.away:
            own = [it for it in self.held() if it.session == session]
            if own:
                undo = own[-1].hold.until[0]
                told = self.world.call(session, undo, own[-1].values if self.made.operations[undo].draws else [])
                lines = lines + (told if told[0].startswith("call ") else [])
        return lines

    def call(self, session: int, op: str, arguments: Sequence[Datum]) -> list[str]:
        return self.gives_back(self.refused(session, op, arguments) or self.world.call(session, op, arguments))

    def do(self, session: int, op: str, arguments: Sequence[Datum]) -> list[str]:
        return self.gives_back(self.refused(session, op, arguments) or self.world.do(session, op, arguments))

    def keyed_call(self, session: int, key: int, op: str, arguments: Sequence[Datum]) -> list[str]:
        is_new = key == len(self.world.keys(session)) + 1
        return self.gives_back(self.refused(session, op, arguments, is_new) or self.world.keyed_call(session, key, op, arguments))

    def step(self, number: int, works: bool) -> list[str]:
        return self.gives_back(self.world.step(number, works))

    def steps(self, number: int) -> list[str]:
        return self.gives_back(self.world.steps(number))

    def finish(self, number: int) -> list[str]:
        return self.gives_back(self.world.finish(number))

    def cancel(self, number: int) -> list[str]:
        return self.gives_back(self.world.cancel(number))

    def drop(self, session: int) -> list[str]:
        lines = [f"drop s{session}"] if session in self.away else self.world.drop(session)
        if session not in self.away and lines != ["no NoSession"]:
            self.world.resume(session)
            self.away.append(session)
        return self.gives_back(lines)

    def resume(self, session: int) -> list[str]:
        lines = self.world.resume(session)
        self.away = [it for it in self.away if it != session]
        return self.gives_back(lines)

    def who(self) -> list[str]:
        """The calls that wait, and behind them what is held."""
        lines = self.world.who()[1:] + [f"holds {it.number} s{it.session} {it.hold.op}" for it in self.held()]
        return [f"who {len(lines)}", *lines]
