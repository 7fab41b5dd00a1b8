"""Calls operations of an object that `pathserve keep` or `pathserve serve` serves.

    from pathclient import Object, Refused
    with Object(7000, "phone_book") as book:
        book.enter("ada", "12 34")
        try:
            print(book.number_of("bob"))
        except Refused["missing"]:
            print("nobody is called bob")

An operation is called as a method. Integers and texts go in and come out as int and str; a procedure returns None. An
Object is one session: its calls are done one after the other, also where several threads share it. Threads whose
calls are to overlap take an Object each, or a Pool.

An Object belongs to the process that made it: behind a fork each process makes its own one (as in the initializer of
`multiprocessing.Pool`), since two that read from one connection would read each other's replies. In another process
than its own a call raises RuntimeError, and nothing is sent; `close` gives back what that process has of it.

A call waits until the paths of the object let it start, which may be never. `book.call("number_of", "ada", within=5)`
has it cancelled where it still waits after 5 seconds, and ends 2 seconds later at the latest, whatever the server does:
a server that says nothing is Lost. `call` is also for operations whose names a method here has.

    entered, number = book.ahead(("enter", "bob", "5"), ("number_of", "bob"))

sends calls without waiting for the ones before them, and gives what came of each: a reply, or the exception itself.

    with slots.holding("take_slot", "give_slot"):
        build()

calls the first operation, and at the end of the block the second one, however the block ends, and also where the
connection broke. With a name (below) neither is left out or done twice, as long as the server comes back in a minute.

`book.close()` is the end of an Object. In another thread it ends a call that has not ended, whatever that waits for:
the call is Lost, with the word `closed`. So is each call after it.

What can come in place of a reply is told by the exceptions below, which are all a CallError. Where a connection was
lost, the next call makes a new one.

    Object("/run/book.sock", "phone_book")

is one of a server at the path of a socket, and Object("books:7000", "phone_book") of one at a port of another host. And

    Object(7000, "phone_book", client="ann")

is the session of this name. No other program may use the name at the same time. Each of its calls has a key, so where
the connection breaks the Object comes back, and asks again under the key: a call that was done is answered, and not
done a second time. Without a name a new connection is a new session, and no call is sent a second time: the server
cannot tell a call that was sent again from a second one. A program that may be killed itself writes `book.key` and the
call to a file before it calls; when it is started again, `book.call(.., key=K)` asks for that call.
"""
from __future__ import annotations

import collections
import contextlib
import errno
import os
import queue
import random
import re
import selectors
import socket
import threading
import time
from collections.abc import Callable, Iterator
from types import TracebackType
from typing import TypeVar, Union

Value = Union[int, str]
Reply = Union[int, str, None]
# A call as it is given, by its operation or with its arguments, and one that may hang on an earlier reply.
Call = Union[str, tuple[Value, ...]]
Ending = Union[Call, Callable[[Reply], Call]]
# The kind of the object that a `with` gives: that of a class of pathclient.stubs, for one.
Its = TypeVar("Its", bound="Object")

NAME, TEXT = re.compile(r"[A-Za-z][A-Za-z0-9_]{0,63}"), re.compile(r"[ -~]{0,1000}")
# A line that a server writes has at most some 2,100 bytes.
LONGEST = 4096
# How many calls are sent before the first of them is answered: a server knows the last 16 calls of a name.
AHEAD = 16
# How often calls are asked again whose connection breaks each time.
TRIES = 10
# For how many seconds it is tried to end what is held, also where the server says one of these words.
PATIENCE, FOR_NOW = 60.0, {"Full", "Gone", "HistoryFull", "InUse", "Memory"}
# How long a server may take to answer `cancel` and `quit`, and how long passes between two looks, in seconds.
ANSWERS, PAUSE = 2.0, 0.1
# What passes between two tries to reach a server is at random, and from so long to so long, in seconds.
SOON, LATE = 0.05, 1.0
# A connection that stands still is asked for a sign after 10 seconds, and then each 5; behind 3 without one it has ended.
ALIVE = (("TCP_KEEPIDLE", 10), ("TCP_KEEPINTVL", 5), ("TCP_KEEPCNT", 3))
CLOSED = "closed"


class CallError(Exception):
    """There is no reply. The call has changed nothing, unless this is Lost. `word` says why, and `text` what the server says
    of it for people, where it does; the text of the exception says of which call, too."""

    def __init__(self, word: str = "", call: str = "", text: str = "") -> None:
        super().__init__(": ".join(it for it in (word, call, text) if it))
        self.word, self.asked, self.text = word, call, text

    def __reduce__(self) -> tuple[object, ...]:
        return type(self), (self.word, self.asked, self.text)


class _ByWord(type):
    """The kinds of Refused by their words."""

    kinds: dict[str, type[Refused]] = {}

    def __getitem__(cls, word: str) -> type[Refused]:
        if word not in cls.kinds:
            cls.kinds[word] = _ByWord(f"Refused[{word!r}]", (Refused,), {"__module__": __name__})  # type: ignore[assignment]
        return cls.kinds[word]


class Refused(CallError, metaclass=_ByWord):
    """The body said no; `word` is its word, as in `refuse('known')`, or `index`, `empty`, `full`, `missing` or
    `range`. `except Refused["known"]` is for this word alone."""

    def __reduce__(self) -> tuple[object, ...]:
        return refused, (self.word, self.asked)


class Failed(CallError):
    """A fault stopped the call; `word` is `device`, `memory` or `damaged`."""


class Cancelled(CallError):
    """The call waited, and was cancelled: by somebody, by `within`, by the end of the server, or, in a session with a
    name, when its connection broke."""


class Rejected(CallError):
    """The server did not take the call, or did not open the object; `word` says why: `UnknownOp`, `BadArgs`,
    `NoObject`, `InUse` (another connection has the name of the client) .."""


class NoServer(CallError):
    """No server answered here, or it took no further client, so nothing was called. The word tells what the system said. Where
    that is that this user may not connect, it is raised at once."""


class Lost(CallError):
    """The connection broke before the call's last line came, or the object was closed (`closed`). Nobody knows whether
    the call was done, but for the trace. A session with a name says so only where it cannot ask again: it was closed,
    no server answers, or one that may have been started anew and know nothing of it."""


class Expired(Lost):
    """The session of this name is not as this client left it: the server has given it up, was started anew and knows
    no names, or somebody has called by the name. That may be the server itself, which gave back what the name held,
    since the client was away for too long. Whether the call was done is not known, but where it was not sent: it was
    not. The next call goes on with the session as it is now."""


def refused(word: str, call: str = "") -> Refused:
    """What is raised where the body of a call said this word."""
    return Refused[word](word, call)


ENDS: dict[str, Callable[[str, str], CallError]] = {"refused": refused, "failed": Failed, "cancelled": Cancelled}


def refusal(answer: str) -> tuple[str, str]:
    """The word of `no WORD`, or of `no WORD TEXT`, and the text for people."""
    word, _, text = answer.removeprefix("no ").partition(" ")
    return word, text


def is_in_use(answer: str) -> bool:
    """Whether another connection has the name of the client."""
    return answer.startswith("no ") and refusal(answer)[0] == "InUse"


def place_of(port: int | str, host: str) -> str | tuple[str, int]:
    """Where a server is: the path of a socket, or a host and a port, which may be written as `7000` and `host:7000`."""
    if isinstance(port, int):
        return host, port
    found = re.fullmatch(r"(?:([^/]*):)?([0-9]+)", port)
    return ((found[1] or host).strip("[]"), int(found[2])) if found else port


def unreached(place: str | tuple[str, int], error: Exception | None) -> str:
    """Why nothing was called: what kept a client from a server, or none, where that said nothing."""
    at = place if isinstance(place, str) else f"{place[0]}:{place[1]}"
    if error is None:
        return f"the server at {at} says nothing: it may have as many clients as it takes"
    why = getattr(error, "strerror", None) or str(error)
    return f"no server answers at {at}" + (f": {why}" if why else "")


def pause(tries: int) -> float:
    """How long to wait behind so many tries to reach a server: at random, and at most twice as long as behind one less. So
    clients that have lost a server together do not come back together."""
    return random.uniform(SOON, min(SOON * 2 ** min(tries, 9), LATE))


def keep_alive(it: socket.socket) -> None:
    """Has the system end this connection where its other side is gone without a word, as behind a cable that was cut."""
    it.setsockopt(socket.SOL_SOCKET, socket.SO_KEEPALIVE, 1)
    for name, value in ALIVE:
        if hasattr(socket, name):
            it.setsockopt(socket.IPPROTO_TCP, getattr(socket, name), value)


class Owned:
    """What belongs to a process. Behind a fork there are two that would read from one connection."""

    _process, _what = 0, "an Object"

    def _is_mine(self) -> bool:
        """Whether this process is the first one that asks."""
        own = os.getpid()
        self._process = self._process or own
        return self._process == own

    def _look_whose(self) -> None:
        if not self._is_mine():
            raise RuntimeError(f"{self._what} belongs to the process that made it")


def written(value: Value) -> str:
    """An argument as the server reads it."""
    if isinstance(value, int) and not isinstance(value, bool) and 0 <= value < 1 << 32:
        return str(value)
    if isinstance(value, str) and TEXT.fullmatch(value):
        return "'" + value.replace("'", "''") + "'"
    wanted = "an integer from 0 to 4294967295, or a text of at most 1000 characters from ' ' to '~'"
    raise ValueError(f"{value!r} is not {wanted}")


def read(text: str) -> Value:
    """A value that the server wrote."""
    if text.startswith("'"):
        return text[1:-1].replace("''", "'")
    if not text.isdecimal():
        raise Lost(f"the server wrote {text!r}")
    return int(text)


def named(name: str) -> str:
    """A name, as long as it is one."""
    if not NAME.fullmatch(name):
        raise ValueError(f"{name!r} is no name: a letter, and then at most 63 letters, digits and `_`")
    return name


def as_integer(reply: Reply) -> int:
    """A reply that has to be an integer, for the classes that pathclient.stubs writes."""
    if isinstance(reply, int):
        return reply
    raise TypeError(f"the server replied {reply!r}, and no integer: it serves another object of this name")


def as_text(reply: Reply) -> str:
    """A reply that has to be a text, for the classes that pathclient.stubs writes."""
    if isinstance(reply, str):
        return reply
    raise TypeError(f"the server replied {reply!r}, and no text: it serves another object of this name")


class Asked:
    """A call that was asked for, and what came of it: its reply, or what is raised in place of it. Where it has `key`,
    it is asked again under this one."""

    def __init__(self, operation: str, arguments: tuple[Value, ...] = (), key: int | None = None) -> None:
        self.text = " ".join([named(operation), *map(written, arguments)])
        # The key that it was given, and the one under which it was sent last.
        self.key, self.sent_key = key, 0
        self.has_ended = False
        self.came: Reply | CallError = None
        # The number that it has where it was accepted over this connection.
        self.number = ""
        # Whether the server may have read it; has it, as `next` says; reads it under a key that is too high; and is to
        # cancel it.
        self.was_sent = self.is_known = self.is_stale = self.is_cancelled = False

    def end(self, came: Reply | CallError) -> None:
        self.came, self.has_ended = came, True

    def reply(self) -> Reply:
        """The reply, or what is raised in place of it."""
        if isinstance(self.came, CallError):
            raise self.came
        return self.came

    def is_in_doubt(self) -> bool:
        """Whether nobody knows what became of it, but who asks again under the key with which it was sent."""
        return isinstance(self.came, Lost) and not isinstance(self.came, Expired) and self.sent_key > 0

    def asks_again(self, is_new: bool) -> bool:
        """Whether it was not done and may be another time, or is in doubt. Where it is not `is_new` only the call of its key counts."""
        is_undone = isinstance(self.came, NoServer) or is_new and isinstance(self.came, Cancelled)
        return self.is_in_doubt() or is_undone or isinstance(self.came, Rejected) and self.came.word in FOR_NOW

    def key_again(self) -> int | None:
        """The key under which it is then asked for: none where that is a new call."""
        if self.is_in_doubt():
            return self.sent_key
        return None if isinstance(self.came, Cancelled) and self.was_sent else self.key


def words_of(call: Call) -> tuple[str, tuple[Value, ...]]:
    """The operation and the arguments of a call."""
    operation, *arguments = (call,) if isinstance(call, str) else call
    return str(operation), tuple(arguments)


def end_of(second: Ending, reply: Reply) -> Call:
    """The call that ends what is held, where this was the reply at its beginning."""
    return second(reply) if callable(second) else second


class Session:
    """The calls of a session, and what a server's lines say of them. It sends nothing, and waits for nothing: who has the
    connection does that, here and in pathclient.aio.

    Calls are answered in their order. In a session with a name the key of a call is that of the first one without a last
    line, and one more for each call between them. A call that is answered by `no` takes no key: those that were sent
    behind it are stale, since their keys are one too high. They are answered by `no` too, and sent anew."""

    def __init__(self, name: str, client: str | None) -> None:
        self.opens = f"open {named(name)}" + (f" as {named(client)}" if client is not None else "")
        self.has_name = client is not None
        # The calls without a last line; those of them that are to be answered over this connection; the key of the
        # first one; what is to be sent besides.
        self.asked: collections.deque[Asked] = collections.deque()
        self.sent: collections.deque[Asked] = collections.deque()
        self.key = 0
        self.cancels: list[str] = []
        # How many calls were given up that the server may have done: so far the next key may be past this one. None where
        # it may be any, as before the first `open`.
        self.given_up: int | None = None

    def opened(self, answer: str) -> None:
        """Takes the answer to `open`. Raises Rejected where the object was not opened, Expired or NoServer where the calls
        that were sent cannot be asked for again, and Expired where none was sent and the name has made some."""
        if not answer.startswith("opened "):
            word, text = refusal(answer)
            raise Rejected(word, self.opens, text)
        if not self.has_name:
            return
        key = read(answer.rpartition(" next ")[2])
        count = self.unanswered()
        given_up, self.given_up = self.given_up, None
        if not isinstance(key, int) or count and not self.key <= key <= self.key + count:
            raise Expired("the session is not as it was left")
        if not count and given_up is not None and key > self.key + given_up:
            raise Expired("the name has called meanwhile: what it held was given back, or somebody else has it")
        if count and key == self.key == 1:
            raise NoServer("the server may have been started anew, and have no keys")
        if count:
            for place, it in enumerate(it for it in self.asked if it.key is None):
                it.is_known = place < key - self.key
        else:
            self.key = key
        self.given_up = 0

    def unanswered(self) -> int:
        """How many calls were sent that have no last line, but for those that were asked for by their keys."""
        return sum(it.was_sent and it.key is None for it in self.asked)

    def to_send(self) -> bytes:
        """The lines that are to be sent now."""
        lines, self.cancels = self.cancels, []
        if not (self.sent and self.sent[0].is_stale):
            key = self.key
            for place, it in enumerate(list(self.asked)[:AHEAD]):
                if it.key == key:
                    # (it has not come, so it is a new call)
                    it.key = None
                if place >= len(self.sent):
                    it.sent_key = (it.key or key) if self.has_name else 0
                    own = f"#{it.sent_key} " if self.has_name else ""
                    lines.append(f"call {own}{it.text}")
                    it.was_sent = True
                    self.sent.append(it)
                key += it.key is None
        return "".join(f"{it}\n" for it in lines).encode("ascii")

    def hear(self, line: str) -> Asked | None:
        """Takes a line, and returns the call that it ends, if any. Raises Lost where the server is not to be asked on
        over this connection, and Expired where it is not to be asked again."""
        kind, number, rest = [*line.split(" ", 2), "", ""][:3]
        if kind == "cancel":
            return None
        if not self.sent:
            raise Lost(f"the server wrote {line!r}")
        it = self.sent[0]
        if kind == "no" and not it.number:
            return self.refuse(it, number, rest)
        if kind == "accepted" and not it.number and not it.is_stale:
            it.number = number
            if it.is_cancelled:
                self.cancels.append(f"cancel {number}")
            return None
        if kind == "repeat" and self.has_name and not it.number:
            kind, _, rest = [*line.removeprefix("repeat ").split(" ", 2), "", ""][:3]
        elif not it.number or number != it.number:
            raise Lost(f"the server wrote {line!r}")
        if kind not in ("done", *ENDS):
            raise Lost(f"the server wrote {line!r}")
        came = ENDS[kind](rest, it.text) if kind in ENDS else read(rest) if rest else None
        self.sent.popleft()
        self.asked.popleft()
        self.key += it.key is None
        it.end(came)
        return it

    def refuse(self, it: Asked, word: str, text: str) -> Asked | None:
        """Takes `no`, this word and a text for people, in answer to a call."""
        if it.key is None and not it.is_stale:
            if word == "KeyReused":
                raise Expired("somebody else has called by the name")
            if it.is_known:
                raise Lost(f"the server has the call, and wrote no {word}")
        self.sent.popleft()
        if it.is_stale:
            it.is_stale = it.was_sent = False
            if not it.is_cancelled:
                return None
            self.asked.remove(it)
            it.end(Cancelled("", it.text))
            return it
        self.asked.popleft()
        for behind in self.sent:
            behind.is_stale = self.has_name and it.key is None
        it.end(Rejected(word, it.text, text))
        if word == "LineTooLong":
            raise Lost("the server has ended the session")
        return it

    def cancel(self, it: Asked) -> None:
        """Has a call cancelled that has no last line: at once where it was not sent, else when it has a number."""
        if it.has_ended or it.is_cancelled:
            return
        it.is_cancelled = True
        if it.number:
            self.cancels.append(f"cancel {it.number}")
        elif not it.was_sent:
            self.asked.remove(it)
            it.end(Cancelled("", it.text))

    def broke(self) -> None:
        """The connection has broken. With a name, what was sent is asked again over the next one."""
        for it in self.sent:
            it.was_sent = it.was_sent and not it.is_stale
            it.number, it.is_stale, it.is_known = "", False, False
        self.sent.clear()
        self.cancels.clear()

    def end(self, error: CallError) -> list[Asked]:
        """Ends each call without a last line by this: one that was sent is Lost, and any other one was not called."""
        ended = list(self.asked)
        if isinstance(error, Expired):
            self.given_up = None
        elif self.given_up is not None:
            self.given_up += self.unanswered()
        for it in ended:
            is_lost = it.was_sent or error.word == CLOSED or isinstance(error, Expired)
            kind: type[CallError] = type(error) if isinstance(error, Lost) == is_lost else Lost if is_lost else NoServer
            it.end(kind(error.word, it.text, error.text))
        self.asked.clear()
        self.broke()
        return ended


class Object(Owned):
    """A session of an object."""

    def __init__(self, port: int | str, name: str, host: str = "127.0.0.1", wait: float = 10.0, client: str | None = None) -> None:
        """Opens the object `name` of the server at this port, at `host:port`, or at the path of a socket, which is tried for
        `wait` seconds before NoServer is raised. With `client` it is the session of this name, and its calls have keys."""
        self._look_whose()
        self._place = place_of(port, host)
        self._wait, self._session = wait, Session(name, client)
        # The call that runs has the turn, and no other thread changes the socket.
        self._socket: socket.socket | None = None
        self._rest, self._turn = b"", threading.Lock()
        # What `close` does is done in one moment, of which that call sees all or nothing: this is held for it.
        self._closed, self._moment = threading.Event(), threading.RLock()
        with self._turn:
            self._connect()

    # A connection, and its lines.

    def _connect(self, latest: float | None = None) -> None:
        """Opens the object on a new connection, by this time where it is given."""
        end, tries = time.monotonic() + self._wait, 0
        end = end if latest is None else min(end, latest)
        while True:
            why: Exception | None = None
            try:
                # A server that has taken all its connections leaves this one unanswered.
                last = max(end, time.monotonic() + 1)
                self._take(self._connected(last))
                answer = self._opened(end, last)
                if answer is not None:
                    break
            except (OSError, Lost) as error:
                why = error
            self._drop()
            self._go_on()
            # (what was sent is asked for as long as it may be, also where nobody may connect for a moment)
            is_barred = isinstance(why, PermissionError) and not self._session.unanswered()
            if is_barred or time.monotonic() >= end:
                raise NoServer(unreached(self._place, why))
            tries += 1
            self._closed.wait(min(pause(tries), max(end - time.monotonic(), 0)))
        try:
            self._session.opened(answer)
        except CallError:
            self._drop()
            raise

    def _connected(self, last: float) -> socket.socket:
        """A new connection, made by this time."""
        if isinstance(self._place, str):
            return self._reached(socket.AF_UNIX, self._place, last)
        why = OSError("there is no address")
        for family, _, _, _, place in socket.getaddrinfo(*self._place, type=socket.SOCK_STREAM):
            try:
                return self._reached(family, place, last)
            except OSError as error:
                why = error
        raise why

    def _reached(self, family: int, place: object, last: float) -> socket.socket:
        """A new connection to this address. Until it is made, `close` is looked for."""
        found = socket.socket(family, socket.SOCK_STREAM)
        try:
            if family != socket.AF_UNIX:
                found.setsockopt(socket.IPPROTO_TCP, socket.TCP_NODELAY, 1)
                keep_alive(found)
            found.setblocking(False)
            state = found.connect_ex(place)  # type: ignore[arg-type]
            with selectors.DefaultSelector() as waits:
                waits.register(found, selectors.EVENT_WRITE)
                while state == errno.EINPROGRESS:
                    self._go_on()
                    if time.monotonic() >= last:
                        raise TimeoutError
                    if waits.select(PAUSE):
                        state = found.getsockopt(socket.SOL_SOCKET, socket.SO_ERROR)
            if state:
                raise OSError(state, os.strerror(state))
            return found
        except BaseException:
            found.close()
            raise

    def _go_on(self) -> None:
        """Goes on, but where the object was closed."""
        if self._closed.is_set():
            raise Lost(CLOSED)

    def _take(self, found: socket.socket) -> None:
        """Takes a connection, which `close` ends from now on."""
        with self._moment:
            self._socket, self._rest = found, b""
            self._go_on()

    def _opened(self, end: float, last: float) -> str | None:
        """The answer to `open`, or None where none came by the last time. While a session of this name has not ended,
        it is said again over the same connection, until `end`; what was answered last is the answer then."""
        said: str | None = None
        while True:
            self._send(f"{self._session.opens}\n".encode("ascii"), last)
            answer = self._line(last)
            if answer is None or not is_in_use(answer):
                return said if answer is None else answer
            said = answer
            if time.monotonic() + PAUSE / 5 >= end:
                return said
            self._closed.wait(PAUSE / 5)

    def _drop(self) -> None:
        with self._moment:
            if self._socket is not None:
                self._socket.close()
                self._socket = None

    def _look(self) -> None:
        """Drops a connection that has ended meanwhile, where no call is under way: what is called next is not lost by it."""
        self._look_whose()
        if not self._turn.acquire(blocking=False):
            return
        try:
            self._drop_ended()
        finally:
            with self._moment:
                if self._closed.is_set():
                    self._drop()
                self._turn.release()

    def _drop_ended(self) -> None:
        """Drops a connection that has ended."""
        try:
            if self._socket is not None:
                self._socket.settimeout(0)
                if not self._socket.recv(1, socket.MSG_PEEK):
                    self._drop()
        except BlockingIOError:
            pass
        except OSError:
            self._drop()

    def _there(self) -> socket.socket:
        """The connection."""
        found = self._socket
        if found is None:
            raise Lost("the server is gone")
        return found

    def _send(self, lines: bytes, end: float | None = None) -> None:
        """Sends lines, which have to be taken by this time."""
        found = self._there()
        try:
            found.settimeout(None if end is None else max(end - time.monotonic(), 0.001))
            found.sendall(lines)
        except TimeoutError as error:
            raise Lost("the server takes nothing") from error
        except OSError as error:
            raise Lost("the server is gone") from error

    def _line(self, end: float | None = None) -> str | None:
        """The next line, or None where it has not come by this time. A line that was cut is none."""
        while b"\n" not in self._rest:
            left = None if end is None else end - time.monotonic()
            if left is not None and left <= 0:
                return None
            found = self._there()
            try:
                found.settimeout(left)
                piece = found.recv(LONGEST)
            except TimeoutError:
                return None
            except OSError as error:
                raise Lost("the server is gone") from error
            if not piece or len(self._rest) > LONGEST:
                raise Lost("the server is gone")
            self._rest += piece
        line, _, self._rest = self._rest.partition(b"\n")
        return line.decode("ascii", "replace")

    # Calls.

    @property
    def key(self) -> int:
        """The key of the next call, in a session with a name. (A call that is under way may have it yet.)"""
        return self._session.key

    def call(self, operation: str, *arguments: Value, within: float | None = None, key: int | None = None) -> Reply:
        """Calls an operation, and waits until the call has ended: for its reply, or for what is raised in place of
        it. With `key` the session has a name, and asks again for its call of this key."""
        if key is not None and not self._session.has_name:
            raise ValueError("only a session with a name asks again")
        asked = Asked(operation, arguments, key)
        self._run([asked], within)
        return asked.reply()

    def ahead(self, *calls: tuple[Value, ...], within: float | None = None) -> list[Reply | CallError]:
        """Calls operations, each given with its arguments, without waiting for what comes of those before; and returns
        what came of each: its reply, or what `call` would raise."""
        asked = [Asked(str(operation), tuple(arguments)) for operation, *arguments in calls]
        self._run(asked, within)
        return [it.came for it in asked]

    def look(self, *words: Value, within: float = ANSWERS) -> list[str]:
        """What `pathserve keep` tells of the inside, line by line: `look("why", 5)` says why the call 5 waits, `look("who")` who is
        there and what waits, `look("list")` what can be called. Of a call that does not wait it is one line that says so. Nothing
        changes by it. It may take `within` seconds, its turn behind calls of other threads included; so look through another
        Object where a call of this one waits."""
        self._look_whose()
        line, end = " ".join(str(it) for it in words), time.monotonic() + within
        if not self._turn.acquire(timeout=max(within, 0)):
            raise Lost("a call is under way", line)
        try:
            self._drop_ended()
            self._go_on()
            if self._socket is None:
                self._connect(end)
            self._send(f"{line}\n".encode("ascii"), end)
            return self._told(line, end)
        except Rejected:
            raise
        except BaseException:
            self._drop()
            raise
        finally:
            with self._moment:
                if self._closed.is_set():
                    self._drop()
                self._turn.release()

    def _told(self, asked: str, end: float) -> list[str]:
        """The lines of an answer, whose first one says how many there are."""
        head = self._heard(end)
        kind, number, rest = [*head.split(" ", 2), "", ""][:3]
        if kind == "no":
            raise Rejected(number, asked, rest)
        count = rest.removeprefix("Waiting ") if kind == "why" else number
        return [self._heard(end) for _ in range(int(count))] if count.isdecimal() else [head]

    def _heard(self, end: float) -> str:
        """The next line, which has to come by this time."""
        line = self._line(end)
        if line is None:
            raise Lost("the server says nothing")
        return line

    @contextlib.contextmanager
    def holding(self, first: Call, second: Ending, within: float | None = None, patience: float = PATIENCE) -> Iterator[Reply]:
        """Calls `first`, gives its reply to a block, and when that ends, whatever way, calls `second`. Each is an operation, or a tuple
        of it and its arguments; `second` may also be a function that makes it of the reply: `lambda seat: ("leave", seat)`.

        `within` is as for `call`, of `first`. Where this is not done there is no block, and it is raised why. Where that is not known
        it is asked again in a session with a name, and ended where it was done. `second` is tried for `patience` seconds, as long as
        it is not done, or is in doubt in a session with a name; then, or where it is refused, it is raised what came of it."""
        asked = Asked(*words_of(first))
        try:
            self._run([asked], within)
            reply = asked.reply()
        except BaseException:
            self._settle(asked, first, second, patience)
            raise
        try:
            yield reply
        finally:
            self._insist(end_of(second, reply), patience)

    def _settle(self, asked: Asked, first: Call, second: Ending, patience: float) -> None:
        """Ends what is held where the call that begins it was broken off, and yet was done."""
        reply = asked.came
        if asked.is_in_doubt():
            with contextlib.suppress(CallError):
                reply = self._insist(first, patience, asked.sent_key)
        if asked.has_ended and not isinstance(reply, CallError):
            self._insist(end_of(second, reply), patience)

    def _insist(self, call: Call, patience: float, key: int | None = None) -> Reply:
        """Calls until this is done, or will not be, for so many seconds. Where a key is given it is only asked for the call of it."""
        end, is_new, asked, tries = time.monotonic() + patience, key is None, None, 0
        while asked is None or time.monotonic() < end and asked.asks_again(is_new):
            if asked is not None:
                key, tries = asked.key_again(), tries + 1
                self._closed.wait(pause(tries))
            asked = Asked(*words_of(call), key)
            self._look()
            left = max(end - time.monotonic(), 0)
            self._run([asked], left if is_new else min(left, ANSWERS))
        return asked.reply()

    def _run(self, asked: list[Asked], within: float | None) -> None:
        """Has these calls end, when it has the turn."""
        self._look_whose()
        end = None if within is None else time.monotonic() + within
        has_turn = self._turn.acquire(timeout=-1 if within is None else min(max(within, 0), threading.TIMEOUT_MAX))
        if not has_turn:
            # Calls of other threads were before it all the time.
            for it in asked:
                it.end(Lost(CLOSED, it.text) if self._closed.is_set() else Cancelled("", it.text))
            return
        try:
            self._session.asked.extend(asked)
            self._finish(end)
        except BaseException:
            # The connection is in the middle of a call, as where Ctrl-C was pressed.
            self._drop()
            raise
        finally:
            self._session.end(Lost(CLOSED if self._closed.is_set() else "interrupted"))
            with self._moment:
                if self._closed.is_set():
                    self._drop()
                self._turn.release()

    def _finish(self, end: float | None) -> None:
        """Goes on until each call that was asked for has ended. At this time those that wait are cancelled."""
        session, tries, is_over = self._session, 0, False
        last_end = None if end is None else end + ANSWERS
        # (so that it is seen first whether the session is as it was left, and nothing is lost that nobody could hear)
        self._drop_ended()
        while session.asked:
            try:
                self._go_on()
                if self._socket is None:
                    self._connect(end)
                lines = session.to_send()
                if lines:
                    self._send(lines, last_end)
                line = self._line(last_end if is_over else end)
                if line is not None:
                    tries = 0 if session.hear(line) else tries
                elif is_over:
                    raise Lost("the server says nothing")
                else:
                    is_over = True
                    for it in list(session.asked):
                        session.cancel(it)
            except CallError as error:
                self._drop()
                tries += 1
                session.broke()
                is_late = end is not None and time.monotonic() >= end
                asks_again = session.has_name and type(error) is Lost and tries < TRIES
                if not asks_again or is_late or self._closed.is_set():
                    session.end(Lost(CLOSED) if self._closed.is_set() else error)
                elif tries > 1:
                    self._closed.wait(pause(tries) if end is None else min(pause(tries), end - time.monotonic()))

    def __getattr__(self, operation: str) -> Callable[..., Reply]:
        if not NAME.fullmatch(operation):
            raise AttributeError(operation)
        return lambda *arguments, **options: self.call(operation, *arguments, **options)

    def close(self) -> None:
        """Leaves the object, for good. A call of another thread that has not ended is Lost; this does not wait for it.
        Where the server is gone, that is no fault. In another process than its own it only gives back the connection."""
        if not self._is_mine():
            if self._socket is not None:
                self._socket.close()
            return
        with self._moment:
            self._closed.set()
            has_turn = self._turn.acquire(blocking=False)
            if not has_turn and self._socket is not None:
                with contextlib.suppress(OSError):
                    self._socket.shutdown(socket.SHUT_RDWR)
        if has_turn:
            try:
                if self._socket is not None:
                    end = time.monotonic() + ANSWERS
                    with contextlib.suppress(Lost):
                        self._send(b"quit\n", end)
                        while self._line(end) not in ("bye", None):
                            pass
            finally:
                self._drop()
                self._turn.release()

    def __enter__(self: Its) -> Its:
        return self

    def __exit__(self, kind: type[BaseException] | None, error: BaseException | None, where: TracebackType | None) -> None:
        self.close()


class Pool(Owned):
    """At most `size` sessions of an object, for threads whose calls are to overlap. Each call is of a session that no
    other thread has; where all are taken it waits for one. With `client` the sessions are `client_1`, `client_2` and so
    on. The sessions are opened as they are needed; all belong to the process that opened the first one."""

    _what = "a Pool"

    def __init__(
        self, port: int | str, name: str, size: int = 8, host: str = "127.0.0.1", wait: float = 10.0, client: str | None = None
    ) -> None:
        self._made: Callable[[int], Object] = lambda number: Object(
            port, name, host, wait, None if client is None else f"{client}_{number}"
        )
        self._closed, self._objects = False, dict[int, Object]()
        # (the last one that was given back is taken first, so that few are opened)
        self._free: queue.LifoQueue[int] = queue.LifoQueue()
        for number in range(size, 0, -1):
            self._free.put(number)

    @contextlib.contextmanager
    def session(self, within: float | None = None) -> Iterator[Object]:
        """A session for a block, which no other thread has; Cancelled where none is free in so many seconds."""
        self._look_whose()
        try:
            number = self._free.get(timeout=within)
        except queue.Empty:
            raise Cancelled("no session is free") from None
        try:
            if self._closed:
                raise Lost(CLOSED)
            if number not in self._objects:
                self._objects[number] = self._made(number)
                if self._closed:
                    raise Lost(CLOSED)
            yield self._objects[number]
        finally:
            if self._closed and number in self._objects:
                self._objects[number].close()
            self._free.put(number)

    def call(self, operation: str, *arguments: Value, within: float | None = None) -> Reply:
        """Calls an operation, as `Object.call` does; the time is the whole time, that for a free session included."""
        end = None if within is None else time.monotonic() + within
        with self.session(within) as it:
            return it.call(operation, *arguments, within=None if end is None else max(end - time.monotonic(), 0))

    def __getattr__(self, operation: str) -> Callable[..., Reply]:
        if not NAME.fullmatch(operation):
            raise AttributeError(operation)
        return lambda *arguments, **options: self.call(operation, *arguments, **options)

    @contextlib.contextmanager
    def holding(self, first: Call, second: Ending, within: float | None = None, patience: float = PATIENCE) -> Iterator[Reply]:
        """As `Object.holding`, by a session that nobody else has until the end; the time is the whole time for `first`."""
        end = None if within is None else time.monotonic() + within
        with self.session(within) as it:
            left = None if end is None else max(end - time.monotonic(), 0)
            with it.holding(first, second, left, patience) as reply:
                yield reply

    def close(self) -> None:
        """Closes all sessions, for good: as `Object.close` does, also those whose calls have not ended."""
        self._closed = True
        for it in list(self._objects.values()):
            it.close()

    def __enter__(self) -> Pool:
        return self

    def __exit__(self, kind: type[BaseException] | None, error: BaseException | None, where: TracebackType | None) -> None:
        self.close()
