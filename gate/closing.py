"""Closes an object of clients/python from another thread, at each moment of a call.

A moment is a line of the library that the thread of the call is about to run. A trace holds it there, the object is
closed by another thread, and then it goes on: so each order of the two is tried, and none is left to luck. Moments at
which a thread waits in the system (a connection that is not made, a server that takes nothing) have a server that holds
at that step, and the object is closed when the system says that the thread waits.

Whatever the moment, the call raises Lost with the word `closed`, or replies where the server had heard it. After that
the server hears nothing but the end of each connection.
"""
import contextlib
import pathlib
import socket
import sys
import threading
import time
from collections.abc import Callable, Container, Iterator, Mapping, Sequence
from types import FrameType
from typing import Any, Union

from clients.python import pathclient
from clients.python.pathclient import Cancelled, Lost, Object
from gate.fakes import CLOSES, HOLDS, Fake, Mark
from gate.tried import Wrong

# How long anything may take, in seconds, and how long a closing that does not end is waited for while a call is held.
SECONDS, HELD = 30, 0.2
# The numbers that Linux gives to calls that wait for the other side (poll, connect, sendto, recvfrom, epoll_wait), and
# to those that wait for a time, or for a thread of the program (clock_nanosleep, futex).
WAITS, SLEEPS = {"7", "42", "44", "45", "232"}, {"230", "202"}


def awaited(what: str, holds: Callable[[], object]) -> None:
    """Waits until this holds."""
    end = time.monotonic() + SECONDS
    while not holds():
        if time.monotonic() > end:
            raise AssertionError(f"it never came to {what}")
        time.sleep(0.001)


Answers = Union[Mapping[str, Union[bytes, Mark]], Mark]


class Answering(Fake):
    """A fake that answers a line by what its connection has for how the line begins, and else by nothing. Where that
    is CLOSES, it closes the connection; where a connection has `then`, it reads nothing behind its first line until
    `goes_on` is set. The last of `connections` stands for all after it; where that is HOLDS, no more are taken."""

    def __init__(self, *connections: Answers) -> None:
        self.connections, self.ends, self.goes_on = connections, 0, threading.Event()
        self.kept: list[socket.socket] = []
        super().__init__(most=len(connections) - 1 if connections[-1] is HOLDS else 1000)
        self.socket.setsockopt(socket.SOL_SOCKET, socket.SO_RCVBUF, 4096)

    @property
    def taken(self) -> int:
        return len(self.open)

    def served(self, it: socket.socket, number: int) -> None:
        super().served(it, number)
        self.ends += 1

    def serve(self, it: socket.socket, number: int) -> None:
        answers = self.connections[min(number, len(self.connections) - 1)]
        if isinstance(answers, Mark):
            raise Wrong("a connection was taken where none is to be")
        with it.makefile("rb") as lines:
            for line in lines:
                self.heard.append(line.decode("ascii"))
                sent = next((it for begin, it in answers.items() if self.heard[-1].startswith(begin)), b"")
                if isinstance(sent, Mark):
                    break
                it.sendall(sent)
                if "then" in answers:
                    self.goes_on.wait()

    def has_heard(self, word: str) -> bool:
        return any(it.split()[0] == word for it in list(self.heard))

    def caught_up(self, place: str) -> list[str]:
        """What it has heard in all, once it has heard all and the connections have ended."""
        self.goes_on.set()
        if self.connections[-1] is not HOLDS:
            # It takes one connection after the other, so this one after all that were made.
            mark = f"mark {self.taken}\n"
            with socket.create_connection(("127.0.0.1", self.port)) as it:
                it.sendall(mark.encode())
            awaited("a connection", lambda: mark in list(self.heard))
        awaited(f"the end of the connections, closed at {place}", lambda: self.ends == self.taken)
        return [it for it in self.heard if not it.startswith("mark ")]

    def stop(self) -> None:
        self.goes_on.set()
        self.close()


class Call:
    """A call of `get` in a thread of its own. Where `held` is given, its lines are counted, and at the one of number
    `moment` it is held, and `held` called."""

    def __init__(self, cell: Object, *arguments: Any, moment: int = 0, held: Callable[[], object] | None = None, **options: Any) -> None:
        self.cell, self.arguments, self.options = cell, arguments, options
        self.moment, self.held, self.lines, self.place = moment, held, 0, ""
        self.came: object = None
        self.begun = time.monotonic()
        self.thread = threading.Thread(target=self.run, daemon=True)
        self.thread.start()

    def run(self) -> None:
        if self.held is not None:
            sys.settrace(self.watch)
        try:
            self.came = self.cell.call("get", *self.arguments, **self.options)
        except Exception as error:  # what it raises is what is looked at
            self.came = error
        finally:
            sys.settrace(None)

    def watch(self, frame: FrameType, event: str, _: object) -> Callable[..., Any] | None:
        if frame.f_code.co_filename != pathclient.__file__:
            return None
        if event == "line":
            self.lines += 1
            if self.lines == self.moment:
                assert self.held is not None
                self.held()
                self.place = f"{frame.f_code.co_name}, line {frame.f_lineno}"
        return self.watch

    def has_ended(self) -> bool:
        return not self.thread.is_alive()

    def waits(self, kinds: Container[str] = WAITS) -> bool:
        """Whether the thread waits in the system."""
        try:
            said = pathlib.Path(f"/proc/self/task/{self.thread.native_id}/syscall").read_text(encoding="ascii")
        except OSError:
            # A system that does not say: it does after a while.
            return time.monotonic() > self.begun + 5 * HELD
        return said.split()[0] in kinds

    def is_lost(self, place: str, *others: object) -> None:
        """Complains where the call does not end by Lost, with its word and the call, or in one of these other ways."""
        awaited(f"the end of a call closed at {place}", self.has_ended)
        came = self.came
        if isinstance(came, Lost) and type(came) is Lost and came.word == "closed" and str(came).startswith("closed: get"):
            return
        if type(came) not in others and came not in others:
            raise AssertionError(f"closed at {place}: {type(came).__name__}({came})")


def left(server: Answering, cell: Object, place: str) -> None:
    """Complains where an object that was closed still calls, or holds a connection."""
    heard = server.caught_up(place)
    Call(cell).is_lost(f"{place}: the call after it")
    more = server.caught_up(place)[len(heard) :]
    if more:
        raise AssertionError(f"closed at {place}: the server heard {more} after it")


# What makes the object of a server, and the calls of it that are under way.
Begun = Callable[..., tuple[Object, list[Call]]]


class Scene:
    """A call, the server that it meets, and what it may be told in place of Lost where the server has heard it.

    `begun` gives the object, and the calls that are under way, each of which is Lost too. Where the call waits for
    ever, it does behind the server's line number `last`; where it goes on for ever, `most` of its lines are tried."""

    def __init__(self, begun: Begun, *connections: Answers, others: Sequence[object] = (), last: int | None = None,
                 most: int | None = None, **options: Any) -> None:
        self.begun, self.connections, self.others, self.options = begun, connections, others, options
        self.last, self.most = last, most

    @contextlib.contextmanager
    def played(self) -> Iterator[tuple[Answering, Object, list[Call]]]:
        """A server, an object of it, and the calls that are under way."""
        server = Answering(*self.connections)
        try:
            cell, before = self.begun(server)
            server.heard.clear()
            yield server, cell, before
            cell.close()
        finally:
            server.stop()

    def lines(self) -> int:
        """How many lines the call has."""
        with self.played() as (server, cell, _):
            call = Call(cell, held=cell.close, **self.options)
            seen: list[int] = []

            def stays() -> bool:
                """Whether nothing has come of it for a while."""
                seen.append(call.lines)
                stood = len(seen) > 200 and len(set(seen[-200:])) == 1
                return stood and len(server.heard) == self.last and call.waits()

            awaited("the end of a call", lambda: call.has_ended() or self.last and stays())
            return call.lines

    def closed_at(self, moment: int) -> None:
        """Closes the object at this line of the call."""
        with self.played() as (server, cell, before):
            closer = threading.Thread(target=cell.close, daemon=True)
            others: list[object] = []

            def close() -> None:
                closer.start()
                # (one that waits for the call that is held is not waited for)
                closer.join(HELD)
                if server.has_heard("call") or before:
                    others.extend(self.others)

            call = Call(cell, moment=moment, held=close, **self.options)
            awaited(f"line {moment} of the call", lambda: call.place)
            call.is_lost(call.place, *others)
            awaited(f"the end of closing at {call.place}", lambda: not closer.is_alive())
            for it in before:
                it.is_lost(f"{call.place}: the call before it")
            left(server, cell, call.place)

    def faults(self) -> Iterator[str]:
        """What is wrong, by line."""
        count = self.most or self.lines()
        for moment in range(1, count + 1):
            try:
                self.closed_at(moment)
            except AssertionError as error:
                yield f"line {moment} of {count}: {error}"

    def __call__(self, _: object) -> None:
        for fault in self.faults():
            raise AssertionError(fault)


class Wait:
    """A call that waits in the system at a server that holds at that step, behind its line number `last`."""

    def __init__(self, begun: Begun, *connections: Answers, last: int, kinds: Container[str] = WAITS,
                 arguments: Sequence[Any] = (), **options: Any) -> None:
        self.begun, self.connections, self.last, self.kinds = begun, connections, last, kinds
        self.arguments, self.options = arguments, options

    def __call__(self, _: object) -> None:
        server = Answering(*self.connections)
        try:
            cell, before = self.begun(server)
            server.heard.clear()
            call = Call(cell, *self.arguments, **self.options)
            awaited("the wait", lambda: len(server.heard) >= self.last and call.waits(self.kinds))
            closer = threading.Thread(target=cell.close, daemon=True)
            closer.start()
            awaited("the end of closing", lambda: not closer.is_alive())
            for it in (call, *before):
                it.is_lost("a wait")
            left(server, cell, "a wait")
        finally:
            server.stop()


def opened(server: Answering, **options: Any) -> tuple[Object, list[Call]]:
    """An object that is open."""
    return Object(server.port, "cell", **options), []


def lost(server: Answering, **options: Any) -> tuple[Object, list[Call]]:
    """An object whose connection broke."""
    cell = Object(server.port, "cell", **options)
    with contextlib.suppress(Lost):
        cell.call("put", 1)
    return cell, []


def unreachable(server: Answering) -> tuple[Object, list[Call]]:
    """An object whose connection broke, and whose server makes no new one: its queue is full."""
    cell = Object(server.port, "cell", wait=99)
    with contextlib.suppress(Lost):
        cell.call("put", 1)
    server.socket.listen(0)
    for _ in range(3):
        it = socket.socket()
        it.setblocking(False)
        it.connect_ex(("127.0.0.1", server.port))
        server.kept.append(it)
    return cell, []


def behind(server: Answering) -> tuple[Object, list[Call]]:
    """An object of which a call has the turn."""
    cell = Object(server.port, "cell")
    call = Call(cell)
    awaited("the answer to a call", lambda: server.has_heard("call") and call.waits())
    return cell, [call]


OPEN: "dict[str, bytes | Mark]" = {"open": b"opened cell\n", "quit": b"bye\n"}
WAITING: "dict[str, bytes | Mark]" = {**OPEN, "call get": b"accepted 1\n"}
BREAKS: "dict[str, bytes | Mark]" = {**OPEN, "call": CLOSES}
NAMED: "dict[str, bytes | Mark]" = {"open": b"opened cell next 5\n", "quit": b"bye\n"}
NAMED_BREAKS: "dict[str, bytes | Mark]" = {**NAMED, "call": CLOSES}
TRIES = [
    ("closed at each line of a call", Scene(opened, WAITING, last=1)),
    ("closed at each line of a call that is replied",
     Scene(opened, {**OPEN, "call get": b"accepted 1\ndone 1 5\n"}, others=(5,))),
    ("closed at each line of a call that connects", Scene(lost, BREAKS, WAITING, last=2)),
    ("closed at each line of a call that comes back",
     Scene(lambda it: opened(it, client="ann"), NAMED_BREAKS, {**NAMED, "call #5 get": b"accepted 9\n"}, last=3)),
    ("closed at each line of a call that is cancelled", Scene(opened, WAITING, last=2, within=0.05)),
    ("closed at each line of a call behind another one", Scene(behind, WAITING, others=(Cancelled,), within=1)),
    ("closed at each line of a call whose name is in use",
     Scene(lambda it: opened(it, client="ann"), NAMED_BREAKS, {"open": b"no InUse\n"}, most=80)),
    ("closed at each line of a call that no server answers", Scene(lost, BREAKS, {"open": CLOSES}, most=80)),
    ("closed while a connection is made", Wait(unreachable, BREAKS, HOLDS, last=0)),
    ("closed while `open` is not answered", Wait(lost, BREAKS, {}, last=1)),
    ("closed while a call is sent", Wait(opened, {**OPEN, "then": HOLDS}, last=0, arguments=("x" * 1000,) * 6000)),
    ("closed while a call is not answered", Wait(opened, OPEN, last=1)),
    ("closed while a call waits", Wait(opened, WAITING, last=1)),
    ("closed while a cancel is not answered", Wait(opened, WAITING, last=2, within=0.05)),
    ("closed between two tries", Wait(lost, BREAKS, {"open": CLOSES}, last=1, kinds=SLEEPS)),
    ("closed behind another call", Wait(behind, WAITING, last=0, kinds=SLEEPS)),
]
