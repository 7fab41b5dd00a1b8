"""What each `;` of the paths of an object holds, by the starts and ends of its calls: between `take_slot` and `give_slot`
of `take_slot; give_slot` a slot is held."""
import collections
import dataclasses
import re
from collections.abc import Callable, Collection, Iterable, Iterator, Sequence as Sequence_

from gate.slow_world import Any, Bound, Burst, Name, Node, Sequence
from tools import traced

TOKEN = re.compile(r"(\{[^}]*\}|\(\*.*?\*\)|\s+)|('(?:[^'\n]|'')*'|[a-z][a-z0-9_]*|[0-9]+|.)", re.DOTALL)

Nodes = list[Node]


class Unread(Exception):
    """A file that is none of objects, as far as paths go."""


class Reader:
    """Reads constants and paths of one object, from its tokens."""

    def __init__(self, tokens: list[str]) -> None:
        self.tokens = tokens[::-1]
        self.constants: dict[str, int] = {}

    def next(self, *wanted: str) -> str | None:
        """Takes the next token, where it is one of these (any where none is given)."""
        if self.tokens and (not wanted or self.tokens[-1] in wanted):
            return self.tokens.pop()
        return None

    def must(self, *wanted: str) -> str:
        found = self.next(*wanted)
        if found is None:
            raise Unread(f"{self.tokens[-1] if self.tokens else 'the end'} stands where {' or '.join(wanted)} is due")
        return found

    def paths(self) -> Nodes:
        """The paths of the object."""
        found: Nodes = []
        self.next()
        self.must(";")
        if self.next("const"):
            while self.tokens and self.tokens[-1] not in ("path", "var", "entry", "end"):
                name = self.next()
                assert name is not None
                self.must("=")
                self.constants[name] = self.number(self.next() or "")
                self.must(";")
        while self.next("path"):
            found.append(self.list())
            self.must("end")
            self.must(";")
        return found

    def number(self, word: str) -> int:
        if not word.isdecimal():
            raise Unread(f"{word} stands where a number is due")
        return int(word)

    def several(self, kind: Callable[..., Node], sign: str, member: Callable[[], Node]) -> Node:
        found = [member()]
        while self.next(sign):
            found.append(member())
        return found[0] if len(found) == 1 else kind(*found)

    def list(self) -> Node:
        return self.several(Any, ",", self.sequence)

    def sequence(self) -> Node:
        return self.several(Sequence, ";", self.item)

    def item(self) -> Node:
        found: Node
        if self.next("("):
            found = self.list()
            self.must(")")
        elif self.next("["):
            found = Burst(self.list())
            self.must("]")
        else:
            word = self.next() or ""
            if self.next(":"):
                self.must("(")
                most = self.constants[word] if word in self.constants else self.number(word)
                found = Bound(most, self.list())
                self.must(")")
            elif re.fullmatch(r"[a-z][a-z0-9_]*", word):
                found = Name(word)
            else:
                raise Unread(f"{word or 'the end'} stands where a name is due")
        return found


def objects_of(source: str) -> dict[str, list[str]]:
    """The tokens of each object of a source, from its name on."""
    tokens = [it for _, it in TOKEN.findall(source.lower()) if it]
    starts = [at for at, it in enumerate(tokens) if it == "object"]
    found: dict[str, list[str]] = {}
    for start, end in zip(starts, [*starts[1:], len(tokens)]):
        found.setdefault("".join(tokens[start + 1 : start + 2]), tokens[start + 1 : end])
    return found


def paths_of(source: str, name: str) -> Nodes:
    """The paths of the object of this name in a source."""
    found = objects_of(source).get(name)
    if not found:
        raise Unread(f"there is no object {name}")
    return Reader(found).paths()


def takers_of(source: str, name: str) -> dict[str, list[str]]:
    """Of each operation that ends a hold of the object the operations by which that is taken."""
    found: dict[str, list[str]] = collections.defaultdict(list)
    tokens = objects_of(source).get(name, [])
    for at, it in enumerate(tokens):
        # (two names stand behind each other in a hold alone)
        if it == "hold" and tokens[at + 2 : at + 3] == ["until"]:
            place = at + 3
            while place < len(tokens) and tokens[place - 1] in ("until", ","):
                found[tokens[place]].append(tokens[at + 1])
                place += 2
    return dict(found)


def text_of(node: Node, is_alone: bool = True) -> str:
    """The text of a node, in parentheses where it stands in another one and needs them."""
    if isinstance(node, Name):
        return node.op
    if isinstance(node, Bound):
        return f"{node.most}:({text_of(node.inner)})"
    if isinstance(node, Burst):
        return f"[{text_of(node.inner)}]"
    said = (", " if isinstance(node, Any) else "; ").join(text_of(it, False) for it in node.members)
    return said if is_alone else f"({said})"


def nodes_of(node: Node) -> Iterator[Node]:
    yield node
    for it in getattr(node, "members", None) or ([node.inner] if hasattr(node, "inner") else []):
        yield from nodes_of(it)


@dataclasses.dataclass(slots=True, eq=False)
class Hold:
    """What is held from the end of one call to the start of another: the two calls, and the events. Where it was held
    before the trace there is no first call, and at the end of it no second one."""

    taker: traced.Call | None
    taken: int
    giver: traced.Call | None = None
    given: int | None = None

    @property
    def session(self) -> int | None:
        """In whose row it is drawn: it is of the session that took it; of one that was held before nobody tells, and so
        it is of the one that gave it back."""
        return self.taker.session if self.taker else self.giver.session if self.giver else None


@dataclasses.dataclass(slots=True)
class Turn:
    """A `;`: its text, how many it holds behind each event (and before the first), and what it holds."""

    text: str
    counts: list[int]
    holds: list[Hold]


def events_of(calls: Sequence_[traced.Call]) -> Iterator[tuple[str, str]]:
    """The starts and ends that a path counts; a call that was cancelled is none of them."""
    for place, call in enumerate(calls, 1):
        yield "cancel" if call.start is None else "start" if call.start == place else "end", call.operation


class Holding:
    """What is held at a moment."""

    def __init__(self, count: int) -> None:
        self.holds = [Hold(None, 0) for _ in range(count)]
        self.oldest = collections.deque(self.holds)
        self.own: collections.defaultdict[int, list[Hold]] = collections.defaultdict(list)

    def take(self, call: traced.Call, place: int) -> None:
        one = Hold(call, place)
        self.holds.append(one)
        self.oldest.append(one)
        self.own[call.session].append(one)

    def give(self, call: traced.Call, place: int) -> None:
        """A call uses up the newest of its own session, else the oldest of all: a path does not tell which."""
        own = self.own[call.session]
        ways: tuple[tuple[Collection[Hold], Callable[[], Hold]], ...] = ((own, own.pop), (self.oldest, self.oldest.popleft))
        for found, pop in ways:
            while found:
                one = pop()
                if one.given is None:
                    one.giver, one.given = call, place
                    return


def turn_of(text: str, sides: tuple[Node, Node], calls: Sequence_[traced.Call], past: Sequence_[tuple[str, str]]) -> Turn:
    """What a `;` between these two sides holds."""
    events = [*past, *events_of(calls)]
    ended, started = sides[0].ended(events), sides[1].started(events)
    counts = [one - two for one, two in zip(ended, started)][len(past) :]
    holding = Holding(counts[0])
    for place, call in enumerate(calls, 1):
        at = len(past) + place
        if started[at] > started[at - 1]:
            holding.give(call, place)
        if ended[at] > ended[at - 1]:
            holding.take(call, place)
    return Turn(text, counts, holding.holds)


def turns_of(paths: Iterable[Node], calls: Sequence_[traced.Call], past: Sequence_[tuple[str, str]]) -> list[Turn]:
    """What each `;` of these paths holds, where it ever holds something; `calls` has of each event its call, and `past`
    what the paths had counted before."""
    sides: dict[str, tuple[Node, Node]] = {}
    for node in (it for path in paths for it in nodes_of(path) if isinstance(it, Sequence)):
        for left, right in zip(node.members, node.members[1:]):
            sides.setdefault(f"{text_of(left, False)}; {text_of(right, False)}", (left, right))
    found = [turn_of(text, it, calls, past) for text, it in sides.items()]
    return [it for it in found if it.holds]
