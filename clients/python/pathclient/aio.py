"""Calls operations of an object with asyncio.

    from pathclient.aio import connect
    async with connect("/run/jobs.sock", "job_queue", client="worker7") as jobs:
        job = await jobs.claim()
        await jobs.call("finish", job, within=5)
        waiting, claimed = await asyncio.gather(jobs.waiting(), jobs.claimed())

An object is one session: its calls are done one after the other, in the order in which they were made. They are sent
ahead, so many calls cost one round trip. Calls that are to overlap take an object each.

    async with slots.holding("take_slot", "give_slot"):
        await build()

It belongs to the process that opened it: in another one, as behind a fork, a call raises RuntimeError, and sends nothing.

`within`, and the end of the task that awaits a call, have it cancelled on the server. Its last line is waited for, 2
seconds at most: so it is known whether it was done. A call that was done although its time was over returns. What is
raised, and what a name is for, is as in pathclient.
"""
from __future__ import annotations

import asyncio
import contextlib
import select
from collections.abc import AsyncIterator, Callable, Coroutine
from types import TracebackType
from typing import TypeVar

from . import (
    ANSWERS, CLOSED, LONGEST, NAME, PATIENCE, PAUSE, TRIES, Asked, Call, CallError, Cancelled, Ending, Expired, Failed, Lost, NoServer,
    Owned, Refused, Rejected, Reply, Session, Value, as_integer, as_text, end_of, is_in_use, keep_alive, pause, place_of, unreached,
    words_of,
)

__all__ = [
    "CallError", "Cancelled", "Expired", "Failed", "Lost", "NoServer", "Object", "Refused", "Rejected", "Reply", "Value", "as_integer",
    "as_text", "connect",
]

Its = TypeVar("Its", bound="Object")
# What the system says of a connection that has ended, where it can say so beside what was not read yet.
ENDS: int = getattr(select, "POLLRDHUP", 0)


class Awaited(Asked):
    """A call that a task waits for."""

    def __init__(self, operation: str, arguments: tuple[Value, ...], key: int | None = None) -> None:
        super().__init__(operation, arguments, key)
        self.ended = asyncio.Event()

    def end(self, came: Reply | CallError) -> None:
        if not self.has_ended:
            super().end(came)
            self.ended.set()


class Object(Owned):
    """A session of an object."""

    def __init__(self, port: int | str, name: str, host: str = "127.0.0.1", wait: float = 10.0, client: str | None = None) -> None:
        """The object `name` of the server at this port, at `host:port`, or at the path of a socket. It is opened by
        `async with`, or by `open`; a server is tried for `wait` seconds before NoServer is raised."""
        self._place, self._wait = place_of(port, host), wait
        self._session, self._is_opened, self._is_closed = Session(name, client), False, False
        self._reader: asyncio.StreamReader | None = None
        self._writer: asyncio.StreamWriter | None = None
        # What was answered to `open` while another connection has the name.
        self._in_use: str | None = None
        # What reads from the connection, and comes back where it breaks.
        self._keeper: asyncio.Task[None] | None = None

    # A connection, and its lines.

    async def open(self) -> None:
        """Opens the object on a new connection."""
        self._look_whose()
        clock = asyncio.get_running_loop().time
        end, tries = clock() + self._wait, 0
        while True:
            why: Exception | None = None
            try:
                # A server that has taken all its connections leaves this one unanswered.
                answer = await asyncio.wait_for(self._opened(end), max(end, clock() + 1) - clock())
                break
            except asyncio.TimeoutError:
                if self._in_use is not None:
                    answer = self._in_use
                    break
            except (OSError, Lost) as error:
                why = error
            except BaseException:
                self._drop()
                raise
            self._drop()
            # (what was sent is asked for as long as it may be, also where nobody may connect for a moment)
            is_barred = isinstance(why, PermissionError) and not self._session.unanswered()
            if is_barred or clock() >= end:
                raise NoServer(unreached(self._place, why))
            tries += 1
            await asyncio.sleep(min(pause(tries), max(end - clock(), 0)))
        try:
            self._session.opened(answer)
            self._is_opened = True
        except CallError:
            self._drop()
            raise

    async def _opened(self, end: float) -> str:
        """The answer to `open`. While a session of this name has not ended, it is said again, until `end`."""
        self._in_use = None
        if isinstance(self._place, str):
            self._reader, self._writer = await asyncio.open_unix_connection(self._place, limit=LONGEST)
        else:
            self._reader, self._writer = await asyncio.open_connection(*self._place, limit=LONGEST)
            keep_alive(self._writer.get_extra_info("socket"))
        while True:
            self._writer.write(f"{self._session.opens}\n".encode("ascii"))
            answer = await self._line()
            if not is_in_use(answer) or asyncio.get_running_loop().time() + PAUSE / 5 >= end:
                return answer
            self._in_use = answer
            await asyncio.sleep(PAUSE / 5)

    def _has_ended(self) -> bool:
        """Whether the connection has ended, also where the loop has not seen it yet."""
        if self._reader is None or self._writer is None:
            return False
        is_seen = self._reader.at_eof() or self._writer.transport.is_closing()
        if is_seen or not ENDS:
            return is_seen
        looks = select.poll()
        looks.register(self._writer.get_extra_info("socket").fileno(), ENDS)
        return bool(looks.poll(0))

    def _look(self) -> None:
        """Drops a connection that has ended, where no call is under way: what is called next is not lost by it."""
        if self._is_opened and not self._session.asked and self._has_ended():
            self._drop()
            if self._keeper is not None:
                self._keeper.cancel()
                self._keeper = None

    def _drop(self) -> None:
        self._is_opened = False
        if self._writer is not None:
            self._writer.transport.abort()
            self._writer = None

    async def _line(self) -> str:
        """The next line. One that was cut is none."""
        if self._reader is None:
            raise Lost("the server is gone")
        try:
            line = await self._reader.readuntil(b"\n")
        except (OSError, asyncio.IncompleteReadError, asyncio.LimitOverrunError) as error:
            raise Lost("the server is gone") from error
        return line[:-1].decode("ascii", "replace")

    def _push(self) -> None:
        """Sends what is to be sent, where somebody may hear it."""
        if self._writer is not None and self._is_opened and not self._writer.transport.is_closing():
            lines = self._session.to_send()
            if lines:
                self._writer.write(lines)

    async def _keep(self) -> None:
        """Has the calls end that were asked for, over new connections where it has to be so."""
        session, tries = self._session, 0
        while True:
            try:
                if not self._is_opened:
                    await self.open()
                while True:
                    self._push()
                    tries = 0 if session.hear(await self._line()) else tries
            except CallError as error:
                self._drop()
                tries += 1
                session.broke()
                if not (session.asked and session.has_name and type(error) is Lost and tries < TRIES):
                    session.end(error)
                    return
                if tries > 1:
                    await asyncio.sleep(pause(tries))

    # Calls.

    @property
    def key(self) -> int:
        """The key of the next call, in a session with a name, where no call is under way."""
        return self._session.key

    async def call(self, operation: str, *arguments: Value, within: float | None = None, key: int | None = None) -> Reply:
        """Calls an operation, and waits until the call has ended: for its reply, or for what is raised in place of
        it. With `key` the session has a name, and asks again for its call of this key."""
        if key is not None and not self._session.has_name:
            raise ValueError("only a session with a name asks again")
        return await self._ended(Awaited(operation, arguments, key), within)

    async def _ended(self, asked: Awaited, within: float | None) -> Reply:
        """Waits until a call has ended."""
        self._look_whose()
        if self._is_closed:
            asked.end(Lost(CLOSED, asked.text))
            return asked.reply()
        # (so that it is seen first whether the session is as it was left, and nothing is lost that nobody could hear)
        self._look()
        self._session.asked.append(asked)
        self._push()
        if self._keeper is None or self._keeper.done():
            self._keeper = asyncio.create_task(self._keep())
        try:
            await asyncio.wait_for(asked.ended.wait(), within)
        except (asyncio.TimeoutError, asyncio.CancelledError) as error:
            self._session.cancel(asked)
            self._push()
            with contextlib.suppress(asyncio.TimeoutError):
                await asyncio.wait_for(asked.ended.wait(), ANSWERS)
            if not asked.has_ended:
                # (of a session with a name it is asked for again, so that the keys of those behind it are known)
                asked.end(Lost("the server says nothing", asked.text) if asked.was_sent else NoServer("not sent", asked.text))
                self._drop()
            if isinstance(error, asyncio.CancelledError):
                raise
        return asked.reply()

    @contextlib.asynccontextmanager
    async def holding(self, first: Call, second: Ending, within: float | None = None, patience: float = PATIENCE) -> AsyncIterator[Reply]:
        """Calls `first`, gives its reply to a block, and when that ends, whatever way, calls `second`: as `Object.holding` of pathclient
        does. A task that is cancelled meanwhile ends behind that."""
        asked = Awaited(*words_of(first))
        try:
            reply = await self._ended(asked, within)
        except BaseException:
            await _through(self._settle(asked, first, second, patience))
            raise
        try:
            yield reply
        finally:
            await _through(self._insist(end_of(second, reply), patience))

    async def _settle(self, asked: Awaited, first: Call, second: Ending, patience: float) -> None:
        """Ends what is held where the call that begins it was broken off, and yet was done."""
        reply = asked.came
        if asked.is_in_doubt():
            with contextlib.suppress(CallError):
                reply = await self._insist(first, patience, asked.sent_key)
        if asked.has_ended and not isinstance(reply, CallError):
            await self._insist(end_of(second, reply), patience)

    async def _insist(self, call: Call, patience: float, key: int | None = None) -> Reply:
        """Calls until this is done, or will not be, for so many seconds. Where a key is given it is only asked for the call of it."""
        clock = asyncio.get_running_loop().time
        end, is_new, asked, tries = clock() + patience, key is None, None, 0
        while asked is None or clock() < end and asked.asks_again(is_new):
            if asked is not None:
                key, tries = asked.key_again(), tries + 1
                await asyncio.sleep(pause(tries))
            asked = Awaited(*words_of(call), key)
            left = max(end - clock(), 0)
            with contextlib.suppress(CallError):
                await self._ended(asked, left if is_new else min(left, ANSWERS))
        return asked.reply()

    def __getattr__(self, operation: str) -> Callable[..., Coroutine[object, object, Reply]]:
        if not NAME.fullmatch(operation):
            raise AttributeError(operation)
        return lambda *arguments, **options: self.call(operation, *arguments, **options)

    async def close(self) -> None:
        """Leaves the object, for good. A call of another task that has not ended is Lost. In another process than its own it
        leaves nothing: its loop is there, and what that waits for."""
        if not self._is_mine():
            return
        self._is_closed = True
        is_idle = not self._session.asked
        if self._keeper is not None:
            self._keeper.cancel()
            await asyncio.wait({self._keeper})
        self._session.end(Lost(CLOSED))
        if self._writer is not None and is_idle:
            with contextlib.suppress(Lost, OSError, asyncio.TimeoutError):
                self._writer.write(b"quit\n")
                await asyncio.wait_for(self._bye(), ANSWERS)
        self._drop()

    async def _bye(self) -> None:
        while await self._line() != "bye":
            pass

    async def __aenter__(self: Its) -> Its:
        await self.open()
        return self

    async def __aexit__(self, kind: type[BaseException] | None, error: BaseException | None, where: TracebackType | None) -> None:
        await self.close()


async def _through(work: Coroutine[object, object, None] | Coroutine[object, object, Reply]) -> None:
    """Waits until this has ended. A task that is cancelled meanwhile is so behind it."""
    task, late = asyncio.ensure_future(work), None
    while not task.done():
        try:
            await asyncio.wait({task})
        except asyncio.CancelledError as error:
            late = error
    task.result()
    if late is not None:
        raise late


def connect(port: int | str, name: str, host: str = "127.0.0.1", wait: float = 10.0, client: str | None = None) -> Object:
    """An object of the server at this port, at `host:port`, or at the path of a socket, for `async with`."""
    return Object(port, name, host, wait, client)
