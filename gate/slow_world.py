"""A slow world of one object: what each line of a script has to answer, from the meaning of paths, bodies, steps and
finishes alone. It counts starts and ends over the whole trace, and works on whole values."""
import copy
import typing
from collections.abc import Iterable, Iterator, Sequence as Sequence_

MOST = 4294967295
# How long the pages of a part may be, and how many of them it may have.
SIZES = [1024 << it for it in range(9)]
PAGES = 8
# The formats of the bytes of a value, and how many bytes a text has in each: what is written is in the second one.
FORMATS = (1, 2)
WRITTEN = 2
LONGEST = {1: 255, 2: 1000}
# An integer or a text; how a call ended, by a word and what is said with it; what an object holds, by the names of its
# parts; and events.
Datum = typing.Union[int, str]
Ending = tuple[str, typing.Optional[Datum]]
Contents = dict[str, typing.Any]
Trace = Sequence_[tuple[str, str]]
T = typing.TypeVar("T")


# What a path says, by counts of starts and ends over a whole trace. An event is ("start", OP) or ("end", OP).


class Name:
    """An operation in a path."""

    def __init__(self, op: str) -> None:
        self.op = op

    def started(self, trace: Trace) -> list[int]:
        return running_sum(trace, lambda event: event == ("start", self.op))

    def ended(self, trace: Trace) -> list[int]:
        return running_sum(trace, lambda event: event == ("end", self.op))

    def holds(self, _: object) -> bool:
        return True


class Any:
    """`a, b`: each member as it likes."""

    def __init__(self, *members: "Node | str") -> None:
        self.members = [node_of(it) for it in members]

    def started(self, trace: Trace) -> list[int]:
        return [sum(each) for each in zip(*(it.started(trace) for it in self.members))]

    def ended(self, trace: Trace) -> list[int]:
        return [sum(each) for each in zip(*(it.ended(trace) for it in self.members))]

    def holds(self, trace: Trace) -> bool:
        return all(it.holds(trace) for it in self.members)


class Sequence:
    """`a; b`: no member starts more often than the one before it has ended."""

    def __init__(self, *members: "Node | str") -> None:
        self.members = [node_of(it) for it in members]

    def started(self, trace: Trace) -> list[int]:
        return self.members[0].started(trace)

    def ended(self, trace: Trace) -> list[int]:
        return self.members[-1].ended(trace)

    def holds(self, trace: Trace) -> bool:
        for before, after in zip(self.members, self.members[1:]):
            if any(b > e for b, e in zip(after.started(trace), before.ended(trace))):
                return False
        return all(it.holds(trace) for it in self.members)


class Bound:
    """`n:(e)`: at most n activations are open."""

    def __init__(self, most: int, inner: "Node | str") -> None:
        self.most, self.inner = most, node_of(inner)

    def started(self, trace: Trace) -> list[int]:
        return self.inner.started(trace)

    def ended(self, trace: Trace) -> list[int]:
        return self.inner.ended(trace)

    def holds(self, trace: Trace) -> bool:
        opened = zip(self.inner.started(trace), self.inner.ended(trace))
        return all(b - e <= self.most for b, e in opened) and self.inner.holds(trace)


class Burst:
    """`[e]`: one activation, from where one of e starts while none is open to where none is open again."""

    def __init__(self, inner: "Node | str") -> None:
        self.inner = node_of(inner)

    def turns(self, trace: Trace, is_turn: typing.Callable[[tuple[int, int]], bool]) -> list[int]:
        opened = [b - e for b, e in zip(self.inner.started(trace), self.inner.ended(trace))]
        return [0, *running_sum(zip(opened, opened[1:]), is_turn)[1:]]

    def started(self, trace: Trace) -> list[int]:
        return self.turns(trace, lambda it: it[0] == 0 < it[1])

    def ended(self, trace: Trace) -> list[int]:
        return self.turns(trace, lambda it: it[0] > 0 == it[1])

    def holds(self, trace: Trace) -> bool:
        return self.inner.holds(trace)


Node = typing.Union[Name, Any, Sequence, Bound, Burst]


def node_of(written: "Node | str") -> "Node":
    return Name(written) if isinstance(written, str) else written


def inner_of(node: "Node") -> "Sequence_[Node]":
    """The nodes that stand in a node."""
    if isinstance(node, Name):
        return []
    return node.members if isinstance(node, (Any, Sequence)) else [node.inner]


def enders(node: "Node") -> list[str]:
    """The operations whose end may end an activation of a node."""
    if isinstance(node, Name):
        return [node.op]
    return [op for it in (node.members[-1:] if isinstance(node, Sequence) else inner_of(node)) for op in enders(it)]


def broken(node: "Node", trace: Trace) -> Iterator[tuple[str, list[str]]]:
    """What the last event of a trace breaks at a node itself, each with the operations of which one has to end first."""
    if isinstance(node, Bound) and node.started(trace)[-1] - node.ended(trace)[-1] > node.most:
        yield "full", enders(node.inner)
    if isinstance(node, Sequence):
        for turn, (before, after) in enumerate(zip(node.members, node.members[1:]), 1):
            if after.started(trace)[-1] > before.ended(trace)[-1]:
                yield f"turn {turn}", enders(before)


def nodes_of(node: "Node") -> "Sequence_[Node]":
    """The nodes of a path, each before those in it."""
    return [node, *(it for inner in inner_of(node) for it in nodes_of(inner))]


def running_sum(events: Iterable[T], counts: typing.Callable[[T], object]) -> list[int]:
    """How many of the events count, for each front of them."""
    sums = [0]
    for event in events:
        sums.append(sums[-1] + bool(counts(event)))
    return sums


# What bodies do to contents, and the values of parts.


class Refusal(Exception):
    """A body was refused, with this word."""


def whole(number: int) -> int:
    if not 0 <= number <= MOST:
        raise Refusal("range")
    return number


def element(array: list[T], at: int) -> T:
    if at >= len(array):
        raise Refusal("index")
    return array[at]


def set_element(array: list[T], at: int, value: T) -> None:
    element(array, at)
    array[at] = value


def first(queue: list[T]) -> T:
    if not queue:
        raise Refusal("empty")
    return queue[0]


def append(queue: list[T], value: T) -> None:
    if len(queue) >= 1024:
        raise Refusal("full")
    queue.append(value)


def lookup(table: dict[str, T], key: str) -> T:
    if key not in table:
        raise Refusal("missing")
    return table[key]


class Row:
    """What an array and a queue share: their elements, one after another, written between two marks."""

    form: int
    opens: str
    closes: str

    def bytes_of(self, value: list[Datum], format: int = WRITTEN) -> bytes:
        return head(format, self.form, value) + b"".join(bytes_of_datum(format, it) for it in value)

    def shown(self, value: list[Datum]) -> str:
        return self.opens + " ".join(map(written, value)) + self.closes


class Array(Row):
    opens, closes = "[", "]"

    def __init__(self, length: int, elements: str) -> None:
        self.opening: list[Datum] = [0 if elements == "integer" else ""] * length
        self.form, self.elements = (1 if elements == "integer" else 2), elements


class Queue(Row):
    opens, closes = "<", ">"

    def __init__(self, elements: str) -> None:
        self.opening: list[Datum] = []
        self.form = 3 if elements == "integer" else 4


class Table:
    def __init__(self, elements: str) -> None:
        self.opening: dict[str, Datum] = {}
        self.form = 5 if elements == "integer" else 6

    def bytes_of(self, value: dict[str, Datum], format: int = WRITTEN) -> bytes:
        elements = (bytes_of_datum(format, it) for key in sorted(value) for it in (key, value[key]))
        return head(format, self.form, value) + b"".join(elements)

    def shown(self, value: dict[str, Datum]) -> str:
        return "{" + ", ".join(f"{written(k)}: {written(value[k])}" for k in sorted(value)) + "}"


def head(format: int, form: int, value: typing.Sized) -> bytes:
    return bytes([format, form]) + len(value).to_bytes(2, "big")


def bytes_of_datum(format: int, datum: Datum) -> bytes:
    """The bytes of an integer or a text. The length of a text is one byte in the first format, and two in the second."""
    if isinstance(datum, int):
        return datum.to_bytes(4, "big")
    if len(datum) > LONGEST[format]:
        raise Disagreement(f"a text of {len(datum)} bytes in format {format}")
    return len(datum).to_bytes(format, "big") + datum.encode("ascii")


def written(datum: Datum) -> str:
    return str(datum) if isinstance(datum, int) else "'" + datum.replace("'", "''") + "'"


class Watched(list[int]):
    """An array that notes each place at which an element is taken or put."""

    def __init__(self, elements: list[int]) -> None:
        super().__init__(elements)
        self.places: list[int] = []

    def __getitem__(self, at: typing.Any) -> typing.Any:
        self.places.append(at)
        return super().__getitem__(at)

    def __setitem__(self, at: typing.Any, value: typing.Any) -> None:
        self.places.append(at)
        super().__setitem__(at, value)


class Operation:
    """An operation: what its arguments are drawn from, the parts that its text names, what its body does to contents, and
    how often it is drawn beside others."""

    def __init__(self, draws: Sequence_[Sequence_[Datum]], names: Sequence_[str], does: typing.Callable[..., typing.Any], weight: int = 1) -> None:
        self.draws, self.names, self.does, self.weight = draws, names, does, weight

    def takes(self, arguments: Sequence_[Datum]) -> bool:
        kinds = [type(it[0]) for it in self.draws]
        return kinds == [type(it) for it in arguments]


class Object:
    def __init__(self, name: str, text: str, paths: "Sequence_[Node]", parts: "dict[str, Kind]", operations: "dict[str, tuple[typing.Any, ...]]", holds: Sequence_[typing.Any] = ()) -> None:
        self.name, self.text, self.paths, self.parts, self.holds = name, text, paths, parts, holds
        self.operations = {key: Operation(*it) for key, it in operations.items()}

    def opening(self) -> Contents:
        return {name: copy.deepcopy(kind.opening) for name, kind in self.parts.items()}

    def applied(self, op: str, arguments: Sequence_[Datum], contents: Contents) -> tuple[Ending, Contents]:
        """How the body of an operation ends on contents, and the contents then."""
        after = copy.deepcopy(contents)
        try:
            reply = self.operations[op].does(after, *arguments)
        except Refusal as refusal:
            return ("refused", str(refusal)), contents
        return ("done", reply), after

    def places(self, op: str, arguments: Sequence_[Datum], contents: Contents) -> dict[str, list[int]]:
        """Of each array of integers the places of the elements that the body of an operation comes to on contents."""
        watched = {name: Watched(contents[name]) for name, kind in self.parts.items() if is_watched(kind)}
        try:
            self.operations[op].does({**copy.deepcopy(contents), **watched}, *arguments)
        except Refusal:
            pass
        return {name: it.places for name, it in watched.items()}

    def admits(self, trace: Trace) -> bool:
        return all(it.holds(trace) for it in self.paths)


# Runs, calls and what they lead to.


class Disagreement(Exception):
    """The world and the sequential object differ: a fault of this tool, or of what it is made by."""


def pages_of(spelling: bytes) -> list[bytes]:
    """The pages of the bytes of a part: of the least size of which so few hold them."""
    size = next(it for it in SIZES if PAGES * it >= len(spelling))
    return [spelling[at : at + size] for at in range(0, len(spelling), size)]


def is_watched(kind: "Kind") -> bool:
    """Whether of a part of this kind a page is read where a body comes to it: of an array of integers."""
    return isinstance(kind, Array) and kind.elements == "integer"


def reads_of(pages: list[bytes], places: "list[int] | None") -> int:
    """How many of the pages of a part are read: of an array of integers the first one, and each one in which an element is
    taken or put at one of these places; else all of them."""
    if places is None:
        return len(pages)
    # Four bytes stand before the elements, and each has four.
    return len({0} | {(4 + 4 * at) // len(pages[0]) for at in places})


def written_pages(before: list[bytes], after: list[bytes]) -> list[bytes]:
    """The pages that are not what stood at their place before, or have no such place."""
    return [page for at, page in enumerate(after) if before[at : at + 1] != [page]]


Kind = typing.Union[Array, Queue, Table]


class Run:
    """A running body: how it ends on the values published at its start, and the steps that it has to make."""

    def __init__(self, made: Object, op: str, arguments: Sequence_[Datum], pins: Contents) -> None:
        self.ending, after = made.applied(op, arguments, pins)
        self.changed = {name: after[name] for name in made.parts if after[name] != pins[name]}
        read = {name: pages_of(kind.bytes_of(pins[name])) for name, kind in made.parts.items()}
        places = made.places(op, arguments, pins)
        self.needs: list[str] = []
        for name in made.parts:
            if name in made.operations[op].names:
                self.needs += ["read"] * reads_of(read[name], places.get(name))
        for name, value in self.changed.items():
            for _ in written_pages(read[name], pages_of(made.parts[name].bytes_of(value))):
                self.needs += ["create", "append", "seal"]

    def step(self, works: bool) -> str:
        """What the step asked of its device."""
        need = self.needs.pop(0)
        if not works:
            self.needs, self.changed, self.ending = [], {}, ("failed", "device")
        return need


class Call:
    """An accepted call: it waits, runs, has ended with `ending`, or was cancelled."""

    def __init__(self, session: int, op: str, arguments: Sequence_[Datum]) -> None:
        self.session, self.op, self.arguments = session, op, arguments
        self.state = "waiting"
        self.run: "Run | None" = None
        self.ending: "Ending | None" = None


class World:
    """An object, its calls from number 1, its trace, and what is published. An event answers the lines that it is to give."""

    def __init__(self, made: Object) -> None:
        self.made = made
        self.calls: list[Call] = []
        self.trace: list[tuple[typing.Any, ...]] = []
        self.gone: set[int] = set()
        self.published = made.opening()
        # The sequential object.
        self.folded = made.opening()

    def numbered(self, *states: str) -> list[int]:
        return [number for number, it in enumerate(self.calls, 1) if it.state in states]

    def call_of(self, number: int) -> "Call | None":
        return self.calls[number - 1] if 1 <= number <= len(self.calls) else None

    def events(self) -> Trace:
        return [(it[0], self.calls[it[1] - 1].op) for it in self.trace]

    def may_start(self, op: str) -> bool:
        return self.made.admits([*self.events(), ("start", op)])

    def admitted(self) -> list[str]:
        """The lines of the calls that start now: as long as one may, that of the least number."""
        lines, asks = [], True
        while asks:
            asks, refused = False, set()
            for number in self.numbered("waiting"):
                call = self.calls[number - 1]
                if call.op not in refused and self.may_start(call.op):
                    call.state = "running"
                    call.run = Run(self.made, call.op, call.arguments, copy.deepcopy(self.published))
                    self.trace.append(("start", number))
                    lines.append(f"started {number}")
                    asks = True
                    break
                refused.add(call.op)
        return lines

    def is_gone(self, session: int) -> bool:
        return not 1 <= session <= 1024 or session in self.gone

    def call(self, session: int, op: str, arguments: Sequence_[Datum]) -> list[str]:
        operation = self.made.operations.get(op.lower())
        if self.is_gone(session):
            return ["no Gone"]
        if operation is None:
            return ["no UnknownOp"]
        if not operation.takes(arguments):
            return ["no BadArgs"]
        if any(it.session == session and it.state in ("waiting", "running") for it in self.calls):
            return ["no SessionBusy"]
        self.calls.append(Call(session, op.lower(), arguments))
        return [f"call {len(self.calls)}", *self.admitted()]

    def do(self, session: int, op: str, arguments: Sequence_[Datum]) -> list[str]:
        """A call and, where it starts at once, its steps to the end and its finish: the answers to the three lines."""
        answer = self.call(session, op, arguments)
        number = len(self.calls)
        if answer[0] != f"call {number}" or self.running(number) is None:
            return answer
        return [*answer, *self.steps(number), *self.finish(number)]

    def keys(self, session: int) -> list[int]:
        """The numbers of the session's accepted calls, cancelled ones too: the key of a call is its place among them, from 1."""
        return [number for number, it in enumerate(self.calls, 1) if it.session == session]

    def keyed_call(self, session: int, key: int, op: str, arguments: Sequence_[Datum]) -> list[str]:
        """A call by its key: the next key is that of a new call, an earlier one asks again for the call that has it."""
        numbers = self.keys(session)
        if self.is_gone(session):
            return ["no Gone"]
        if not 1 <= key <= len(numbers) + 1:
            return ["no BadKey"]
        if key == len(numbers) + 1:
            return self.call(session, op, arguments)
        call = self.calls[numbers[key - 1] - 1]
        if (call.op, call.arguments) != (op.lower(), arguments):
            return ["no KeyReused"]
        return [f"repeat {self.state_line(numbers[key - 1])}"]

    def state_line(self, number: int) -> str:
        """How a call stands: its finish line, where it has ended."""
        call = self.calls[number - 1]
        return finish_line(number, call.ending) if call.ending else f"{call.state} {number}"

    def resume(self, session: int) -> list[str]:
        """A session that left is there again. Nothing starts, since nothing of what waits is its own."""
        if not 1 <= session <= 1024:
            return ["no NoSession"]
        self.gone.discard(session)
        return [f"resume s{session}"]

    def running(self, number: int) -> "Run | None":
        call = self.call_of(number)
        return call.run if call and call.state == "running" else None

    def step(self, number: int, works: bool) -> list[str]:
        run = self.running(number)
        if run is None:
            return ["no NotRunning"]
        if not run.needs:
            return ["no NoStep"]
        return [f"step {number} {run.step(works)} {'ok' if works else 'failed'}"]

    def steps(self, number: int) -> list[str]:
        run = self.running(number)
        if run is None:
            return ["no NotRunning"]
        count = 0
        while run.needs:
            run.step(True)
            count += 1
        return [f"steps {number} {count}"]

    def finish(self, number: int) -> list[str]:
        run = self.running(number)
        if run is None:
            return ["no NotRunning"]
        if run.needs:
            return ["no NotDone"]
        call = self.calls[number - 1]
        call.state, call.ending = "ended", run.ending
        self.trace.append(("end", number, run.ending))
        self.published.update(run.changed)
        self.fold(call, run.ending)
        if not self.made.admits(self.events()):
            raise Disagreement(f"the end of call {number} breaks a path")
        return [finish_line(number, run.ending), *self.admitted()]

    def fold(self, call: Call, ending: Ending) -> None:
        """Takes the sequential object past an end."""
        if ending[0] != "failed":
            folded, self.folded = self.made.applied(call.op, call.arguments, self.folded)
            if folded != ending:
                raise Disagreement(f"{call.op} ended with {ending}, and in the order of the finishes with {folded}")
        self.compare()

    def compare(self) -> None:
        if self.folded != self.published:
            raise Disagreement("what is published is not what the finishes lead to")

    def cancel(self, number: int) -> list[str]:
        call = self.call_of(number)
        if call is None:
            return [f"cancel {number} Unknown"]
        if call.state != "waiting":
            return [f"cancel {number} {'Running' if call.state == 'running' else 'Ended'}"]
        call.state = "cancelled"
        return [f"cancel {number} Cancelled", *self.admitted()]

    def refusals(self, op: str) -> list[tuple[str, list[str]]]:
        """The nodes that refuse a start of an operation now: path, node, what is lacking, and whose end is needed."""
        trace = [*self.events(), ("start", op)]
        return [
            (f"path {number} node {at} {lack}", needs)
            for number, path in enumerate(self.made.paths, 1)
            for at, node in enumerate(nodes_of(path))
            for lack, needs in broken(node, trace)
        ]

    def why(self, number: int) -> list[str]:
        """What keeps a call waiting, and which calls run there; or that it does not wait."""
        call = self.call_of(number)
        if call is None:
            return [f"why {number} Unknown"]
        if call.state != "waiting":
            return [f"why {number} {'Running' if call.state == 'running' else 'Ended'}"]
        found = self.refusals(call.op)
        needs = {op for _, ops in found for op in ops}
        lines = [" ".join([place, "needs", *ops]) for place, ops in found]
        for other in self.numbered("running"):
            it = self.calls[other - 1]
            if it.op in needs:
                lines.append(f"runs {other} s{it.session} {it.op}")
        return [f"why {number} Waiting {len(lines)}", *lines]

    def who(self) -> list[str]:
        """The calls that wait, each with the nodes that refuse it."""
        lines = []
        for number in self.numbered("waiting"):
            it = self.calls[number - 1]
            lines += [f"waits {number} s{it.session} {it.op} {place}" for place, _ in self.refusals(it.op)]
        return [f"who {len(lines)}", *lines]

    def drop(self, session: int) -> list[str]:
        if not 1 <= session <= 1024:
            return ["no NoSession"]
        self.gone.add(session)
        for call in self.calls:
            if call.session == session and call.state == "waiting":
                call.state = "cancelled"
        return [f"drop s{session}", *self.admitted()]

    def show(self) -> list[str]:
        self.compare()
        return shown_lines(self.made, self.published)

    def trace_lines(self) -> list[str]:
        contents = self.made.opening()
        return [f"object {self.made.name}", *(self.part_line(name, contents) for name in contents), *self.event_lines()]

    def part_line(self, name: str, contents: Contents, format: int = WRITTEN) -> str:
        """The line that tells what a part holds at the beginning."""
        return f"part {name} {self.made.parts[name].bytes_of(contents[name], format).hex()}"

    def event_lines(self, events: "Iterable[tuple[typing.Any, ...]] | None" = None) -> list[str]:
        """The lines of these events, or of all."""
        lines = []
        for event in self.trace if events is None else events:
            number = event[1]
            if event[0] == "start":
                call = self.calls[number - 1]
                lines.append(" ".join([f"start {number} s{call.session} {call.op}", *map(written, call.arguments)]))
            else:
                lines.append(f"end {number} " + ending_text(event[2], ""))
        return lines


def ending_text(ending: Ending, number: str) -> str:
    """An ending, with a number and a space, or with nothing, behind its first word."""
    word, more = ending
    between = f" {number}" if number else ""
    if word == "done":
        return f"done{between}" if more is None else f"done{between} {written(more)}"
    return f"{word}{between} {more}"


def finish_line(number: int, ending: Ending) -> str:
    return ending_text(ending, str(number))


def shown_lines(made: Object, contents: Contents) -> list[str]:
    return [f"{name} = {kind.shown(contents[name])}" for name, kind in made.parts.items()]
