"""A server of a source by `pathserve serve` or by `pathserve keep`: what both have to do alike is tried of both."""
import functools
import pathlib
import random
import tempfile
import time
from collections.abc import Callable, Collection, Iterable, Sequence
from typing import TypeVar

from gate.drawn_objects import OBJECTS
from gate.kept import ROOMS
from gate.served import Server, Told, traced_wrongly
from gate.slow_world import Object
from gate.talk import Talk
from gate.tried import SECONDS, Trial, check, holds, title_of, until

# The servers of which both is tried, and the one that keeps at the path of a socket beside them.
BOTH = ("serve", "keep")
ALL = (*BOTH, "keep at a socket")
FEW = 3
Self = TypeVar("Self", bound="Either")


class Either(Server):
    """A server of a source in a folder of its own. `serve` is for so many connections, and ends when they have
    ended, or, where it `stops`, when it is told to; `keep` is always told to."""

    def __init__(self, kind: str, source: str, sessions: int, *more: object, stops: bool = False) -> None:
        self.is_kept, self.files = kind != "serve", 0
        self.stops = stops or self.is_kept
        self.room = tempfile.TemporaryDirectory(prefix="either-", dir=ROOMS)
        top = pathlib.Path(self.room.name)
        words = [*([] if self.is_kept else ["--sessions", sessions]), *(["--stop-with-input"] if self.stops else []), *more]
        place = top / "socket" if kind.endswith("socket") else None
        super().__init__(kind.split(" ")[0], top / "objects.pp", top / "place", *words, place=place)
        self.file.write_text(source, encoding="ascii")
        self.folder.mkdir(0o700)
        self.all_told: list[Told] = []

    def start(self: Self) -> Self:
        super().start()
        if self.is_kept:
            self.says()
            self.files = self.descriptors()
        return self

    def __exit__(self, *_: object) -> None:
        self.kill()
        self.room.cleanup()

    def lasting(self) -> int:
        """How many files it has open, without one that is open for a moment."""
        found = []
        for _ in range(20):
            found.append(self.descriptors())
            time.sleep(0.01)
        return min(found)

    def client(self, *opening: str, seconds: float = SECONDS, buffer: int = 0) -> Talk:
        """A connection of which what it is told has to stand in the traces."""
        self.all_told.append(Told())
        return Talk(self, *opening, seconds=seconds, told=self.all_told[-1], buffer=buffer)

    def end(self, seconds: float = SECONDS, error: str = "", others: Collection[str] = ()) -> dict[str, int]:
        """Waits for its end, which has to be in order, with this on standard error, and with whole traces, in which
        each call is as its client was told; of one that is told to end none of its connections may be left, and no
        value file, but for others. It answers how many entries each object has."""
        if self.is_kept and self.child.stdin:
            until(lambda: self.descriptors() <= self.files, "a connection is left")
        out, *end = self.ended(seconds)
        check(end, [0, error], "the end")
        wrong = [fault for told in self.all_told for fault in told.wrong]
        counts = {name: int(count) for name, _, count in (it.partition(" entries ") for it in out.splitlines())}
        for name, count in counts.items():
            wrong += traced_wrongly(self.file, self.folder, name, self.all_told, count)
        wrong += [f"{it.name} is left" for it in self.folder.glob("*.val") if it.name not in others]
        holds(not wrong, "; ".join(wrong))
        return counts


def objects_of(kind: str, seed: int) -> Sequence[Object]:
    """The drawn objects that are tried of a server: of one that keeps a few, since a start makes files of 16 MB for
    each."""
    return OBJECTS if kind == "serve" else random.Random(seed).sample(OBJECTS, FEW)


def trials(works: Iterable[Callable[..., object]], kinds: Sequence[str] = BOTH, **more: object) -> list[Trial]:
    """Trials of these functions, of each over each of these servers."""
    return [Trial(f"{title_of(it)}, {kind}", functools.partial(it, kind, **more)) for it in works for kind in kinds]
