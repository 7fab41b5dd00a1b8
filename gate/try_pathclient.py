"""Calls objects by the library for Python (`clients/python`), and by the clients of `examples/clients`: of a server, and
of one that breaks off. What each client has to do alike is tried by gate/try_client.

usage: gate/try_pathclient [--program FILE]

Each reply, and each thing that comes in its place, is written down here, from docs/SERVING.md. What no server does
when it is asked (a device that fails, a line that is cut) is said by a listener that answers as it is told. The last
step of the guide in docs/LANGUAGE.md is done as it stands there. The client in C is left out where there is no `cc`, and
what mypy says of the library and of what `pathclient.stubs` writes where there is no mypy.
"""
import asyncio
import contextlib
import io
import os
import pathlib
import pickle
import re
import signal
import socket
import subprocess
import sys
import tarfile
import threading
import time
from collections.abc import Callable, Iterable, Sequence
from typing import Any

from clients.python.pathclient import (
    CallError, Cancelled, Expired, Failed, Lost, NoServer, Object, Pool, Refused, Rejected, Reply, aio, as_integer, pause, place_of, stubs,
)
from gate import closing, kept
from gate.cutter import Cutter
from gate.fakes import METER, NEVER, OPENED, FakeServer, Rows, opened
from gate.served import Server, free_port
from gate.tried import TOP, Trial, given_words, in_folder, lacks, loads, program, run

OBJECTS = TOP / "examples" / "objects"
# How long anything may take, in seconds.
SECONDS = 20

Attempt = Callable[[pathlib.Path], None]


def check(found: object, wanted: object) -> None:
    if found != wanted or type(found) is not type(wanted):
        raise AssertionError(f"{found!r}, not {wanted!r}")


def raised(kind: type[BaseException], word: str | None, function: Callable[..., object], *arguments: Any, **options: Any) -> None:
    """Whether calling this raises exactly this kind, with this word."""
    try:
        found = function(*arguments, **options)
    except (CallError, ValueError) as error:
        # (a Refused is of the kind of its word)
        found = Refused if isinstance(error, Refused) else type(error)
        if found is not kind or (word is not None and getattr(error, "word", None) != word):
            raise AssertionError(f"{type(error).__name__}({error}), not {kind.__name__}({word})") from error
        return
    raise AssertionError(f"replied {found!r}, where {kind.__name__}({word}) was to come")


def server_of(objects: pathlib.Path, sessions: int, folder: pathlib.Path, port: int | None = None) -> Server:
    """A server of an example, or of a source, for so many connections."""
    return Server("serve", objects, folder, "--sessions", sessions, place=port)


def ends(server: Server, said: str) -> None:
    """A server ends, as it has to now, and says this."""
    check(server.ended(SECONDS).said, said)


def answering(*connections: Rows, port: int = 0) -> FakeServer:
    """A fake that takes these connections one after the other."""
    return FakeServer(*connections, port=port, in_turn=True)


def begin_answering(servers: list[FakeServer], answers: Rows, port: int) -> None:
    """Adds a fake that takes one connection."""
    servers.append(answering(answers, port=port))


IN_USE = opened(0, b"no InUse\n")


def calls(folder: pathlib.Path) -> None:
    with server_of(OBJECTS / "phone_book.pp", 1, folder) as server:
        with Object(server.port, "phone_book") as book:
            check(book.enter("ada", "12 34"), None)
            check(book.number_of("ada"), "12 34")
            check(book.size(), 1)
            raised(Refused, "known", book.enter, "ada", "5")
            raised(Refused, "missing", book.number_of, "bob")
            check(book.enter("it's", "''"), None)
            check(book.number_of("it's"), "''")
            check(book.enter("", ""), None)
            check(book.number_of(""), "")
            check(book.enter("~" * 1000, "'" * 1000), None)
            check(book.number_of("~" * 1000), "'" * 1000)
            check(book.NUMBER_OF("ada"), "12 34")
            check(book.call("remove", "ada"), None)
            check(book.size(), 3)
        ends(server, "phone_book entries 14\n")


def integers(folder: pathlib.Path) -> None:
    with server_of(OBJECTS / "cell.pp", 1, folder) as server:
        with Object(server.port, "CELL") as cell:
            check(cell.put(4294967295), None)
            check(cell.get(), 4294967295)
            raised(Refused, "range", cell.bump, 1)
            check(cell.put(0), None)
            check(cell.get(), 0)


def not_taken(folder: pathlib.Path) -> None:
    """What the server does not take, and what is no argument: the session goes on."""
    with server_of(OBJECTS / "cell.pp", 2, folder) as server:
        with Object(server.port, "cell") as cell:
            raised(Rejected, "UnknownOp", cell.pop)
            raised(Rejected, "BadArgs", cell.put)
            raised(Rejected, "BadArgs", cell.put, "7")
            raised(Rejected, "BadArgs", cell.put, 1, 2)
            for it in (-1, 1 << 32, True, None, 1.5, "a" * 1001, "a\nquit", "\xe9", b"a", [1]):
                raised(ValueError, None, cell.put, it)
            for it in ("", "put 7\nquit", "9", "pu t", "a" * 65):
                raised(ValueError, None, cell.call, it)
            check(cell.get(), 0)
        raised(Rejected, "NoObject", Object, server.port, "buffer")
        ends(server, "cell entries 1\n")


def waits(folder: pathlib.Path) -> None:
    """A call that waits for another session, and one that is cancelled where it waits too long."""
    with server_of(OBJECTS / "bounded_buffer.pp", 2, folder) as server:
        with Object(server.port, "bounded_buffer") as consumer, Object(server.port, "bounded_buffer") as producer:
            began = time.monotonic()
            raised(Cancelled, "", consumer.get, within=0.3)
            if not 0.3 <= time.monotonic() - began < 5:
                raise AssertionError("it was not cancelled in time")
            got: list[Any] = []
            thread = threading.Thread(target=lambda: got.append(consumer.get()))
            thread.start()
            time.sleep(0.2)
            check(got, [])
            producer.put("bread")
            thread.join(SECONDS)
            check(got, ["bread"])
            producer.put("milk")
            check(consumer.get(within=10), "milk")
        ends(server, "bounded_buffer entries 4\n")


def shared(folder: pathlib.Path) -> None:
    """Threads that share a session: each has its own replies."""
    with server_of(OBJECTS / "phone_book.pp", 1, folder) as server:
        with Object(server.port, "phone_book") as book:
            wrong = []

            def work(number: int) -> None:
                for turn in range(40):
                    book.enter(f"{number} {turn}", f"{turn} of {number}")
                    if book.number_of(f"{number} {turn}") != f"{turn} of {number}":
                        wrong.append((number, turn))

            threads = [threading.Thread(target=work, args=(it,)) for it in range(8)]
            for it in threads:
                it.start()
            for it in threads:
                it.join(SECONDS)
            check(wrong, [])
            check(book.size(), 320)


def killed(folder: pathlib.Path) -> None:
    """A server that is killed while a call waits, and another one that takes its place."""
    with server_of(OBJECTS / "bounded_buffer.pp", 1, folder) as server:
        buffer = Object(server.port, "bounded_buffer", wait=0.5)
        threading.Timer(0.3, server.child.kill).start()
        raised(Lost, None, buffer.get)
    raised(NoServer, None, buffer.get)
    with server_of(OBJECTS / "bounded_buffer.pp", 1, folder, server.port) as server:
        check(buffer.waiting(), 0)
        buffer.close()
        ends(server, "bounded_buffer entries 1\n")


def no_server(folder: pathlib.Path) -> None:
    raised(NoServer, None, Object, free_port(), "cell", wait=0)
    with server_of(OBJECTS / "cell.pp", 1, folder) as server:
        with Object(server.port, "cell") as cell:
            # It has taken all its connections, and leaves this one without an answer.
            raised(NoServer, None, Object, server.port, "cell", wait=0.3)
            check(cell.get(), 0)


def said(answers: Rows, kind: type[BaseException] | None, word: Any, **options: Any) -> Attempt:
    """What a call gives, where these are the answers behind `opened cell`."""

    def attempt(_: object) -> None:
        listener = answering([OPENED, *answers])
        cell = Object(listener.port, "cell", wait=0.3)
        if kind is None:
            check(cell.get(**options), word)
        else:
            raised(kind, word, cell.get, **options)

    return attempt


def after_lost(_: object) -> None:
    """A lost call is not sent again; the next call makes a new connection."""
    again = [OPENED, ("call put 2", b"accepted 1\ndone 1\n"), ("quit", b"bye\n")]
    listener = answering([OPENED, ("call put 1", b"accepted 9\n")], again)
    with Object(listener.port, "cell") as cell:
        raised(Lost, None, cell.put, 1)
        check(cell.put(2), None)
    listener.thread.join(SECONDS)
    check(listener.heard, ["open cell\n", "call put 1\n", "open cell\n", "call put 2\n", "quit\n"])


def by_name(folder: pathlib.Path) -> None:
    """A session with a name goes on where the one before it ended; nobody else has its keys."""
    with server_of(OBJECTS / "cell.pp", 4, folder) as server:
        for turn in (1, 2, 3):
            with Object(server.port, "cell", client="ann" if turn < 3 else "ANN") as cell:
                check(cell.bump(5), None)
                check(cell.get(), 5 * turn)
                raised(Rejected, "UnknownOp", cell.pop)
                raised(Refused, "range", cell.bump, 4294967295)
                check(cell.get(), 5 * turn)
        with Object(server.port, "cell", client="bob") as cell:
            check(cell.get(), 15)
        ends(server, "cell entries 13\n")


def one_name_twice(folder: pathlib.Path) -> None:
    """A name is in use until its session has ended. Who says it meanwhile is told so, however long it tries."""

    async def by_task(wait: float) -> None:
        async with aio.connect(server.port, "cell", client="ann", wait=wait):
            pass

    with server_of(OBJECTS / "cell.pp", 7, folder) as server:
        cell = Object(server.port, "cell", client="ann")
        for wait in (0.2, 1.2):
            raised(Rejected, "InUse", Object, server.port, "cell", client="ann", wait=wait)
            raised(Rejected, "InUse", lambda wait: asyncio.run(by_task(wait)), wait)
        check(cell.get(), 0)
        threading.Timer(0.3, cell.close).start()
        with Object(server.port, "cell", client="ann") as again:
            check(again.get(), 0)
        # (one more, so that all connections have been)
        socket.create_connection(("127.0.0.1", server.port)).close()
        ends(server, "cell entries 2\n")


def names_that_are_none(folder: pathlib.Path) -> None:
    with server_of(OBJECTS / "cell.pp", 2, folder) as server:
        for it in ("", "9", "a b", "a" * 65, "ann\nquit"):
            raised(ValueError, None, Object, server.port, "cell", client=it)
        raised(Rejected, "BadLine", Object, server.port, "cell", client="end")
        with Object(server.port, "cell", client="a" * 64) as cell:
            check(cell.get(), 0)


def cut_at_each_byte(way: str, size: int, resets: bool) -> Attempt:
    """A client with a name whose connection breaks at each byte of a call, or of its answer: each call is done once, and replied."""

    def attempt(folder: pathlib.Path) -> None:
        (folder / "meter.pp").write_text(METER)
        with server_of(folder / "meter.pp", size + 3, folder) as server:
            cutter = Cutter(server.port)
            with Object(cutter.port, "meter", client="ann") as meter:
                check(meter.add(5), 5)
                for turn, place in enumerate(range(size + 1), 2):
                    cutter.cut(way, place, resets)
                    check(meter.add(5), 5 * turn)
                    cutter.way = None
            last = Object(server.port, "meter", client="ann")
            last.close()
            for _ in range(size + 3 - cutter.connections - 1):
                socket.create_connection(("127.0.0.1", server.port)).close()
            ends(server, f"meter entries {size + 2}\n")

    return attempt


def comes_back(kind: type[BaseException] | None, word: Any, *connections: Rows, key: int = 5, heard: int | None = None, **options: Any) -> Attempt:
    """What a call of a client with a name gives, where the connection breaks behind the call of this key, and these are the answers on
    the connections that it makes then."""

    def attempt(_: object) -> None:
        listener = answering([opened(key), (f"call #{key} get", b"")], *connections)
        cell = Object(listener.port, "cell", client="ann", wait=0.3)
        if kind is None:
            check(cell.get(**options), word)
        else:
            raised(kind, word, cell.get, **options)
        if heard is not None:
            check(len(listener.heard), heard)

    return attempt


def after_the_return(_: object) -> None:
    """The next call has the next key, also where a call was lost."""
    listener = answering([opened(5), ("call #5 put 1", b"accepted 9\n")], [opened(6), ("call #5 put 1", b"repeat done 9\n"),
                        ("call #6 put 2", b"no BadArgs\n"), ("call #6 put 3", b"accepted 10\n")],
                        [opened(1)], [opened(2), ("call #2 put 4", b"accepted 3\ndone 3\n")])
    cell = Object(listener.port, "cell", client="ann")
    check(cell.put(1), None)
    raised(Rejected, "BadArgs", cell.put, 2)
    raised(Expired, None, cell.put, 3)
    check(cell.put(4), None)


def unopened(_: object) -> None:
    listener = answering(*[[("open cell", b"")]] * 9)
    raised(NoServer, None, Object, listener.port, "cell", wait=0.3)


def full(_: object) -> None:
    """A server that takes no further client is told apart from one that is not there."""
    listener = answering([("open cell", b""), NEVER])
    try:
        Object(listener.port, "cell", wait=0.2)
    except NoServer as error:
        check("as many clients as it takes" in str(error), True)


def in_time(answers: Rows, kind: type[BaseException] | None, word: Any) -> Attempt:
    """A call with `within` ends in time, whatever the server does not say."""

    def attempt(folder: pathlib.Path) -> None:
        begun = time.monotonic()
        said([*answers, NEVER], kind, word, within=0.2)(folder)
        if not 0.2 <= time.monotonic() - begun < 5:
            raise AssertionError(f"it took {time.monotonic() - begun:.1f} s")

    return attempt


def in_time_where(server: Any, begun: Callable[..., Any], kind: type[BaseException], word: Any, *arguments: Any) -> Attempt:
    """A call with `within` ends in time, where the server holds before it has heard the call."""

    def attempt(_: object) -> None:
        answering = closing.Answering(*server)
        try:
            cell, _ = begun(answering)
            begins = time.monotonic()
            raised(kind, word, cell.call, "get", *arguments, within=0.2)
            if time.monotonic() - begins > SECONDS:
                raise AssertionError(f"it took {time.monotonic() - begins:.1f} s")
        finally:
            answering.stop()

    return attempt


def behind_another(_: object) -> None:
    """A call with `within` that only waits for the call of another thread is given up, and was not sent."""
    listener = answering([OPENED, ("call get", b"accepted 1\n"), NEVER])
    cell = Object(listener.port, "cell")
    first = closing.Call(cell)
    closing.awaited("the first call", lambda: len(listener.heard) == 2)
    raised(Cancelled, "", cell.put, 1, within=0.2)
    cell.close()
    first.is_lost("a call")
    listener.thread.join(SECONDS)
    check(listener.heard, ["open cell\n", "call get\n", ""])


def told_of_which(folder: pathlib.Path) -> None:
    """What is raised says of which call."""
    with server_of(OBJECTS / "cell.pp", 1, folder) as server, Object(server.port, "cell") as cell:
        for error, operation, arguments in (("BadArgs: put 'it''s' 2", "put", ("it's", 2)), ("UnknownOp: pop", "pop", ())):
            try:
                getattr(cell, operation)(*arguments)
            except Rejected as found:
                check(str(found), error)
                continue
            raise AssertionError(f"nothing was raised, not {error}")


def interrupted(_: object) -> None:
    """A reply that is none leaves no line for the next call."""
    again = [OPENED, ("call put 2", b"accepted 1\ndone 1\n")]
    listener = answering([OPENED, ("call get", b"accepted 1\ndone 1 x\n")], again)
    cell = Object(listener.port, "cell")
    raised(Lost, None, cell.get)
    check(cell.put(2), None)


def told_in_words(_: object) -> None:
    """A text for people behind the word of a refusal: the word decides, and the message has both, also in another process."""
    text = "x" * 1000
    rows = [("call put 'x'", b"no BadArgs put(item : integer)\n"), ("call get", f"no Full {text}\n".encode()), ("call get", b"no Gone\n")]
    listener = answering([OPENED, *rows], [("open cell", b"no NoObject there are buffer, queue\n")], [OPENED, ("why x", b"no BadLine it has no number\n")])
    cell, port = Object(listener.port, "cell"), listener.port
    looks: list[tuple[Callable[..., object], tuple[Any, ...], str, str, str]] = [
        (cell.call, ("put", "x"), "BadArgs", "put(item : integer)", "BadArgs: put 'x': put(item : integer)"),
        (cell.call, ("get",), "Full", text, f"Full: get: {text}"), (cell.call, ("get",), "Gone", "", "Gone: get"),
        (Object, (port, "cell"), "NoObject", "there are buffer, queue", "NoObject: open cell: there are buffer, queue"),
        (lambda: Object(port, "cell").look("why", "x"), (), "BadLine", "it has no number", "BadLine: why x: it has no number"),
    ]
    for work, words, word, text, message in looks:
        try:
            work(*words)
        except Rejected as error:
            again = pickle.loads(pickle.dumps(error))
            check((error.word, error.text, str(error)), (word, text, message))
            check((again.word, again.text, str(again)), (word, text, message))
            continue
        raise AssertionError(f"nothing was raised, not {message}")


def placed_by_text(_: object) -> None:
    """A place may be written as a port, as a host and a port, or as a path; what no server answers at is told."""
    given: tuple[tuple[tuple[int | str, str], object], ...] = (
        ((7000, "h"), ("h", 7000)), (("7000", "h"), ("h", 7000)), (("a.b:7", "h"), ("a.b", 7)), (("[::1]:7", "h"), ("::1", 7)),
        (("/a:7/b", "h"), "/a:7/b"), (("a.sock", "h"), "a.sock"), (("./7000", "h"), "./7000"),
    )
    for words, place in given:
        check((words, place_of(*words)), (words, place))
    for end in ("at 127.0.0.1:{}: Connection refused", "at localhost:{}: Connection refused"):
        port = free_port()
        try:
            Object(f"{end.split()[1].split(':')[0]}:{port}", "cell", wait=0)
        except NoServer as error:
            check(str(error), f"no server answers {end.format(port)}")


def pauses(_: object) -> None:
    """What passes between two tries is at random, and at most twice as long as what passed before."""
    for tries, most in ((1, 0.1), (2, 0.2), (4, 0.8), (5, 1.0), (99, 1.0)):
        found = [pause(tries) for _ in range(500)]
        check((tries, 0.05 <= min(found) < 0.05 + most / 5, most * 0.8 < max(found) <= most), (tries, True, True))


SAME = """object same;
  path 9:(it) end;
  entry function it(x : integer) : integer; begin it := x end;
end;
"""
# A program whose processes share what it made before it forked: 4 that are forked, 400 calls of each kind, and its own beside them.
FORKS = """import asyncio, collections, multiprocessing, os, sys
from pathclient import Object, Pool, aio
port, name = int(sys.argv[1]), sys.argv[2] or None
wanted = "RuntimeError: an Object belongs to the process that made it"
def told(work, number):
    try:
        got = work(number)
    except Exception as error:
        return f"{type(error).__name__}: {error}"
    return "right" if got == number else f"wrong: {got} for {number}"
shared, pool, task = Object(port, "same", client=name), Pool(port, "same", 2), aio.connect(port, "same")
def by_object(number): return told(shared.it, number)
def by_look(number): return told(lambda _: shared.look("list"), number)
def by_ahead(number): return told(lambda it: shared.ahead(("it", it))[0], number)
def by_pool(number): return told(pool.it, number)
def by_task(number): return told(lambda it: asyncio.run(task.it(it)), number)
def by_own(number): return told(own.it, number)
def begin():
    global own
    own = Object(port, "same", client=name and f"{name}_{os.getpid()}")
def counted(work, count, initializer=None):
    with multiprocessing.get_context("fork").Pool(4, initializer) as processes:
        waits = processes.map_async(work, range(count), 1)
        # (the process that made it goes on meanwhile)
        beside = [by_object(1000 + it) for it in range(50)]
        return collections.Counter(waits.get(60)), set(beside) == {"right"}
async def tasks():
    await task.open()
    assert await task.it(7) == 7
    found = counted(by_task, 400)
    assert await task.it(8) == 8
    await task.close()
    return found
assert by_pool(1) == "right"
for work in (by_object, by_look, by_ahead):
    assert counted(work, 400) == ({wanted: 400}, True), work
assert counted(by_pool, 400) == ({wanted.replace("an Object", "a Pool"): 400}, True)
assert counted(by_own, 400, begin) == ({"right": 400}, True)
assert asyncio.run(tasks()) == ({wanted: 400}, True)
with shared:
    child = os.fork()
    if child == 0:
        # (it gives back its part of it, and says nothing)
        shared.close()
        pool.close()
        os._exit(by_object(1) != wanted)
    assert os.waitpid(child, 0)[1] == 0
    assert by_object(2) == by_pool(2) == "right"
    child = os.fork()
    if child == 0:
        try:
            with shared.holding("it", "it"):
                pass
        except RuntimeError:
            os._exit(0)
        os._exit(1)
    assert os.waitpid(child, 0)[1] == 0
    assert by_object(3) == "right"
"""


def forks(folder: pathlib.Path) -> None:
    """Behind a fork what another process made raises RuntimeError, and sends nothing; its own Object is right in each."""
    (folder / "same.pp").write_text(SAME)
    env = {**os.environ, "PYTHONPATH": str(TOP / "clients" / "python")}
    for name in ("", "ann"):
        (folder / f"data{name}").mkdir()
        with server_of(folder / "same.pp", 7, folder / f"data{name}") as server:
            ran = subprocess.run([sys.executable, "-c", FORKS, str(server.port), name], capture_output=True, text=True, timeout=60, check=False, env=env)
            check((ran.returncode, ran.stderr), (0, ""))
            # (5 of the pool, 7 times 50 beside, 400 of those that are right, 2 of a task and 3 at the end)
            ends(server, f"same entries {1 + 6 * 50 + 400 + 2 + 1 + 2}\n")


def ended_before(_: object) -> None:
    """What is called over a connection that ended since, also at once, is sent over a new one: it is not lost."""

    async def work(port: int, client: str | None) -> None:
        async with aio.connect(port, "cell", client=client) as cell:
            for seconds in (None, 0.2):
                # (its loop has not looked, and it has)
                time.sleep(0.2)
                if seconds:
                    await asyncio.sleep(seconds)
                check(await cell.get(), 7)

    for client, opens, calls in ((None, OPENED, ("get", "get")), ("ann", opened(1), ("#1 get", "#2 get"))):
        rows = [[opens], [opens, (f"call {calls[0]}", b"accepted 1\ndone 1 7\n")],
                [opened(2) if client else OPENED, (f"call {calls[1]}", b"accepted 2\ndone 2 7\n"), ("quit", b"bye\n")]]
        asyncio.run(work(answering(*rows).port, client))
        with Object(answering(*rows).port, "cell", client=client) as cell:
            for _ in range(2):
                time.sleep(0.2)
                check(cell.get(), 7)


def packages(folder: pathlib.Path) -> None:
    """The library for Python is installed with nothing from outside, and is whole; so is the one for Node. Each has the version of the
    program, and so has the jar (gate/try_client makes that)."""
    version = subprocess.run([program(), "--version"], capture_output=True, text=True, check=True).stdout.split()[-1]
    clients = TOP / "clients"
    env = {**os.environ, "PIP_NO_INDEX": "1", "PIP_DISABLE_PIP_VERSION_CHECK": "1", "npm_config_cache": str(folder / "npm"), "npm_config_offline": "true"}

    def said(*words: str | pathlib.Path, cwd: pathlib.Path = folder) -> str:
        ran = subprocess.run(words, capture_output=True, text=True, timeout=10 * SECONDS, check=False, cwd=cwd, env=env)
        check((words[:4], ran.returncode, ran.stderr), (words[:4], 0, ""))
        return ran.stdout

    check(f"Implementation-Version: {version}\n" in (clients / "java" / "MANIFEST.MF").read_text(), True)
    asks = "import pathclient, pathclient.aio, pathclient.stubs, importlib.metadata as it; print(pathclient.__file__, it.version('pathclient'))"
    if subprocess.run([sys.executable, "-m", "pip", "--version"], capture_output=True, check=False).returncode:
        print("not run: pip")
    else:
        before = sorted(it for it in (clients / "python").rglob("*") if "__pycache__" not in it.parts)
        own = folder / "venv" / "bin" / "python"
        said(sys.executable, "-m", "venv", "--without-pip", "venv")
        said(sys.executable, "-m", "pip", "--python", own, "install", "--quiet", "--no-index", clients / "python")
        where, found = said(own, "-c", asks).split()
        check((pathlib.Path(where).is_relative_to(folder), found), (True, version))
        check((pathlib.Path(where).parent / "py.typed").exists(), True)
        check(sorted(it for it in (clients / "python").rglob("*") if "__pycache__" not in it.parts), before)
    if not lacks("npm"):
        file = said("npm", "pack", "--silent", "--pack-destination", folder, cwd=clients / "node").strip()
        check(file, f"pathclient-{version}.tgz")
        (folder / "node_modules").mkdir()
        with tarfile.open(folder / file) as held:
            held.extractall(folder)
        (folder / "package").rename(folder / "node_modules" / "pathclient")
        check(said("node", "--input-type=module", "-e", "import { connect } from 'pathclient'; console.log(typeof connect)"), "function\n")


def by_word(_: object) -> None:
    """A refusal is caught by its word, and as any other; it can be handed to another process."""
    listener = answering([OPENED, ("call get", b"accepted 1\nrefused 1 empty\n"), ("call get", b"accepted 2\nrefused 2 full\n")])
    cell, told = Object(listener.port, "cell"), []
    for _ in range(2):
        try:
            cell.get()
        except Refused["empty"] as error:
            told.append(f"empty: {error}")
            again = pickle.loads(pickle.dumps(error))
            check((type(again), again.word, str(again)), (Refused["empty"], "empty", str(error)))
        except Refused as error:
            told.append(str(error))
    check(told, ["empty: empty: get", "full: get"])


def sent_ahead(folder: pathlib.Path) -> None:
    """Calls that are sent ahead: what came of each stands in its place."""
    with server_of(OBJECTS / "cell.pp", 2, folder) as server:
        for client in (None, "ann"):
            with Object(server.port, "cell", client=client) as cell:
                came = cell.ahead(("put", 4), ("pop",), ("bump", 4294967295), ("get",), *[("bump", 1)] * 40, ("get",))
                check([type(it) is Refused["range"] or it if not isinstance(it, Rejected) else it.word for it in came],
                      [None, "UnknownOp", True, 4, *[None] * 40, 44])
        ends(server, "cell entries 88\n")


def late_ahead(folder: pathlib.Path) -> None:
    """Calls that are sent ahead, and wait too long: each is cancelled."""
    with server_of(OBJECTS / "bounded_buffer.pp", 1, folder) as server, Object(server.port, "bounded_buffer", client="ann") as buffer:
        came = buffer.ahead(("put", "a"), ("get",), ("get",), ("put", "b"), within=0.5)
        check([type(it) if isinstance(it, CallError) else it for it in came][:3], [None, "a", Cancelled])
        check(buffer.waiting(), 1 if came[3] is None else 0)


def again_by_key(folder: pathlib.Path) -> None:
    """A program that was killed asks for its call by the key that it has written down."""
    with server_of(OBJECTS / "cell.pp", 3, folder) as server:
        with Object(server.port, "cell", client="ann") as cell:
            check(cell.key, 1)
            check(cell.put(7), None)
            key = cell.key
            check(cell.get(), 7)
        with Object(server.port, "cell", client="ann") as cell:
            check((key, cell.key), (2, 3))
            check(cell.call("get", key=key), 7)
            raised(Rejected, "KeyReused", cell.call, "put", 8, key=key)
            raised(Rejected, "BadKey", cell.call, "put", 8, key=9)
            check(cell.call("bump", 1, key=cell.key), None)
            check((cell.key, cell.get()), (4, 8))
        with Object(server.port, "cell") as cell:
            raised(ValueError, None, cell.call, "get", key=1)


LOT = """object lot;
  path 9:(enter; (leave, leave_one)) end;
  path 1:(enter, leave, leave_one, [held, most]) end;
  var n : array [3] of integer;
  entry function enter : integer;
  begin n[0] := n[0] + 1; n[2] := n[2] + 1; if n[0] > n[1] then n[1] := n[0]; enter := n[2] end;
  entry procedure leave; begin n[0] := n[0] - 1 end;
  entry function held : integer; begin held := n[0] end;
  entry function most : integer; begin most := n[1] end;
  entry procedure leave_one(place : integer); begin if place <> n[2] then refuse('other'); n[0] := n[0] - 1 end;
end;
"""


class Kept(kept.Server):
    """A server of a lot, or of a source, at one port, that is killed and started again."""

    def __init__(self, folder: pathlib.Path, source: str = LOT, *words: str) -> None:
        super().__init__(folder, source, *words, port=free_port())

    def kill_for(self, seconds: float) -> None:
        """Kills it, and starts it again after so many seconds."""
        self.kill()
        threading.Timer(seconds, self.start).start()

    def counts(self) -> tuple[Reply, Reply]:
        """How many are held, and were at most."""
        with Object(self.port, "lot", wait=SECONDS) as it:
            return it.held(), it.most()


NAMES = (None, "ann")


SLOTS = """object lot;
  path 2:(enter; leave) end;
  path 1:(enter, leave, [held]) end;
  var n : array [1] of integer;
  entry procedure enter; begin n[0] := n[0] + 1 end;
  entry procedure leave; begin n[0] := n[0] - 1 end;
  entry function held : integer; begin held := n[0] end;
  hold enter until leave;
end;
"""


def late(folder: pathlib.Path) -> None:
    """A name that was away for too long: what it held was given back under its keys. Its next call says so, whatever it calls, and the
    one behind it goes on."""
    with Kept(folder, SLOTS, "--away", "0") as server, Object(server.port, "lot", client="eve", wait=SECONDS) as other:
        # (its next call would have the key of what gave back the first one, and be a repeat of it)
        for count, call, came in ((1, "leave", "NotHeld"), (1, "held", 0), (2, "enter", None)):
            with Object(server.port, "lot", client="ann", wait=SECONDS) as lot:
                for _ in range(count):
                    lot.enter()
                server.revive()
                while other.held():
                    time.sleep(0.01)
                raised(Expired, None, lot.call, call)
                if came == "NotHeld":
                    raised(Rejected, "NotHeld", lot.call, call)
                else:
                    check(lot.call(call), came)
            closing.awaited("what it held at its end", lambda: not other.held())
        with Object(server.port, "lot", client="ann", wait=SECONDS) as lot:
            raised(Expired, None, broken_off, server, other, lot)
            check(lot.held(), 0)
        asyncio.run(late_tasks(server, other))


def broken_off(server: Kept, other: Object, lot: Object) -> None:
    """A block in which the server is killed, and gives back what the block holds."""
    with lot.holding("enter", "leave"):
        server.revive()
        while other.held():
            time.sleep(0.01)


async def late_tasks(server: Kept, other: Object) -> None:
    async with aio.connect(server.port, "lot", client="bob", wait=SECONDS) as lot:
        await lot.enter()
        server.revive()
        while other.held():
            await asyncio.sleep(0.01)
        for call in ("held", "leave"):
            try:
                check((call, await lot.call(call)), ("held", 0))
            except Expired:
                check(call, "held")
            except Rejected as error:
                check((call, error.word), ("leave", "NotHeld"))


def not_as_it_was(kind: str) -> Attempt:
    """A client that has a connection which ended, and comes back by its name: where that has made calls meanwhile it says so, once;
    but for calls that were given up themselves."""
    first = [opened(5), ("call #5 get", b"accepted 9\ndone 9 1\n")]

    def attempt(_: object) -> None:
        for key, back in ((6, [opened(6)]), (7, [opened(7), NEVER]), (30, [opened(20), NEVER]), (1, [opened(1)])):
            calls = (f"call #{key} get", b"accepted 10\ndone 10 2\n")
            if NEVER in back:
                check(got_by(kind, answering(first, back, [opened(key), calls]).port, [None] * 3), [1, Expired, 2])
            else:
                check(got_by(kind, answering(first, [*back, calls]).port, [None] * 2), [1, 2])
        # (one call was lost before: a key more is its own. Tasks ask for it by themselves)
        lost = [*first, ("call #6 get", b"")]
        for key, wanted in ((6, [1, Lost, 2]), (7, [1, Lost, 2]), (8, [1, Lost, Expired, 2])) if kind == "threads" else ():
            calls = (f"call #{key} get", b"accepted 10\ndone 10 2\n")
            ends = [[opened(key), calls]] if key < 8 else [[opened(key), NEVER], [opened(key), calls]]
            check(got_by(kind, answering(lost, *ends).port, [None, 0, None, None][: len(wanted)]), wanted)

    return attempt


def got_by(kind: str, port: int, withins: Iterable[float | None]) -> list[Reply | type[CallError]]:
    """What calls with these times come to, by threads or by tasks, each a while behind the one before; what is raised by its kind."""
    if kind == "threads":
        came: list[Reply | type[CallError]] = []
        cell = Object(port, "cell", client="ann")
        for within in withins:
            try:
                came.append(cell.call("get", within=within))
            except CallError as error:
                came.append(type(error))
            time.sleep(0.2)
        return came

    async def work() -> list[Reply | type[CallError]]:
        came: list[Reply | type[CallError]] = []
        cell = aio.connect(port, "cell", client="ann")
        await cell.open()
        for within in withins:
            try:
                came.append(await cell.call("get", within=within))
            except CallError as error:
                came.append(type(error))
            await asyncio.sleep(0.2)
        return came

    return asyncio.run(work())


class Boom(Exception):
    pass


def interrupt(*_: object) -> None:
    raise Boom


def holds(folder: pathlib.Path) -> None:
    """A block holds what it has begun, and gives it back, however it ends, over a server that is killed and gone for a while."""
    with Kept(folder) as server:
        for name in NAMES:
            with Object(server.port, "lot", client=name) as lot, Object(server.port, "lot") as other:
                with lot.holding("enter", "leave") as place:
                    check((type(place), other.held()), (int, 1))
                check(other.held(), 0)
                with lot.holding(("enter",), lambda place: ("leave_one", as_integer(place))):
                    check(other.held(), 1)
                check(other.held(), 0)
                try:
                    with lot.holding("enter", "leave"):
                        raise Boom
                except Boom:
                    check(other.held(), 0)
                with lot.holding("enter", "leave"):
                    server.kill_for(0.5)
                check(server.counts(), (0, 1))
        with Object(server.port, "lot", wait=0.2) as lot:
            # Longer than a connection is tried for.
            with lot.holding("enter", "leave", patience=SECONDS):
                server.kill_for(2)
            check(server.counts(), (0, 1))
        with Pool(server.port, "lot", 2) as lots:
            with lots.holding("enter", "leave"), lots.holding("enter", "leave"):
                check(server.counts(), (2, 2))
            check(server.counts(), (0, 2))


def holds_nothing(folder: pathlib.Path) -> None:
    """Where the first call is not done the second one is not called; where the second one cannot be done it is said why."""
    with Kept(folder) as server, Object(server.port, "lot") as lot, Object(server.port, "lot", client="ann", wait=0.1) as late:
        raised(Rejected, "UnknownOp", held, lot, "come", "leave")
        raised(Rejected, "UnknownOp", held, lot, "enter", "go")
        raised(Refused, "other", held, lot, "enter", ("leave_one", 99))
        # (the paths have counted the refused call)
        check((lot.held(), lot.leave(), lot.held()), (2, None, 1))
        for _ in range(9):
            lot.enter()
        for one in (lot, late):
            raised(Cancelled, "", held, one, "enter", "leave", within=0.2)
        check(lot.held(), 10)
        for _ in range(9):
            lot.leave()
        begun = time.monotonic()
        with contextlib.suppress(NoServer), late.holding("enter", "leave", patience=1):
            server.kill()
        if not 0.9 <= time.monotonic() - begun < 5:
            raise AssertionError(f"it took {time.monotonic() - begun:.1f} s")
        raised(NoServer, None, held, late, "enter", "leave")
        server.start()
        check(server.counts()[0], 2)


def held(it: Any, *words: Any, **options: Any) -> Any:
    """Holds something for a moment."""
    with it.holding(*words, **options) as reply:
        return reply


def holds_over_cuts(way: str, size: int, resets: bool) -> Attempt:
    """A holder with a name whose connection breaks at each byte of a call or of its answer, at the beginning or at the end: it holds once."""

    def attempt(folder: pathlib.Path) -> None:
        with Kept(folder) as server, Object(server.port, "lot") as other:
            cutter = Cutter(server.port)
            with Object(cutter.port, "lot", client="ann") as lot:
                # (so that a server which says `next 1` is another one)
                check(lot.held(), 0)
                for place in range(size + 1):
                    cutter.cut(way, place, resets)
                    with lot.holding("enter", "leave"):
                        check(other.held(), 1)
                        cutter.cut(way, place, resets)
                    check(other.held(), 0)
                    cutter.way = None
            check((other.most(), other.enter()), (1, size + 2))

    return attempt


def held_by(kind: str, port: int, *words: Any, client: str | None = "ann", wait: float = 10.0, **options: Any) -> Any:
    """Holds something of a cell for a moment, by threads or by tasks."""
    if kind == "threads":
        return held(Object(port, "cell", client=client, wait=wait), *words, **options)

    async def work() -> Any:
        cell = aio.connect(port, "cell", client=client, wait=wait)
        await cell.open()
        try:
            async with cell.holding(*words, **options) as reply:
                return reply
        finally:
            await cell.close()

    return asyncio.run(work())


def heard_by(listener: FakeServer) -> list[str]:
    """What a client said, but for the end."""
    return [it for it in listener.heard if it not in ("", "quit\n")]


DOUBT = [opened(5), ("call #5 take", b"accepted 9\n"), ("cancel 9", b"")]
TAKEN, GIVEN = ("call #5 take", b"accepted 9\ndone 9\n"), b"accepted 10\ndone 10\n"


def holds_in_doubt(kind: str) -> Attempt:
    """Where the first call is lost it is asked again by its key, and ended where it was done: a session without a name cannot ask."""

    # (tasks come back by themselves where a connection ends, so theirs stays; and they ask again for what is nobody's any more)
    silent, times = ([*DOUBT, NEVER], 2) if kind == "tasks" else (DOUBT, 1)

    def attempt(_: object) -> None:
        listener = answering(silent, [opened(6), *[("call #5 take", b"repeat done 9\n")] * times, ("call #6 give", GIVEN)])
        raised(Lost, None, held_by, kind, listener.port, "take", "give", within=0.1)
        check(heard_by(listener)[-1], "call #6 give\n")
        for answer in (b"repeat cancelled 9\n", b"repeat refused 9 range\n"):
            listener = answering(silent, [opened(6), *[("call #5 take", answer)] * times, NEVER])
            raised(Lost, None, held_by, kind, listener.port, "take", "give", within=0.1)
            check(heard_by(listener)[-1], "call #5 take\n")
        # (another one has had the name since: nothing is asked again)
        listener, begun = answering([opened(5), ("call #5 take", b"")], [opened(9), NEVER]), time.monotonic()
        raised(Expired, None, held_by, kind, listener.port, "take", "give")
        check((len(heard_by(listener)), time.monotonic() - begun < 5), (3, True))
        listener = answering([OPENED, ("call take", b"accepted 9\n")], [OPENED, NEVER])
        raised(Lost, None, held_by, kind, listener.port, "take", "give", client=None)
        check(len(heard_by(listener)), 2)

    return attempt


def interrupted_holding(_: object) -> None:
    """An interrupt, as of Ctrl-C, while the first call waits."""
    listener = answering([*DOUBT[:2], NEVER], [opened(6), ("call #5 take", b"repeat done 9\n"), ("call #6 give", GIVEN)])
    cell, before = Object(listener.port, "cell", client="ann"), signal.signal(signal.SIGALRM, interrupt)
    signal.setitimer(signal.ITIMER_REAL, 0.2)
    try:
        found = held(cell, "take", "give")
        raise AssertionError(f"it replied {found!r}")
    except Boom:
        check(heard_by(listener)[-1], "call #6 give\n")
    finally:
        signal.signal(signal.SIGALRM, before)


def cancelled_holding(_: object) -> None:
    """A task that is cancelled while its first call waits, which is then done all the same: it is ended."""

    async def work(port: int, client: str | None) -> None:
        cell = aio.connect(port, "cell", client=client)
        await cell.open()

        async def hold() -> None:
            async with cell.holding("take", "give"):
                raise AssertionError("there is a block")

        task = asyncio.create_task(hold())
        await asyncio.sleep(0.2)
        task.cancel()
        await asyncio.wait({task})
        check(task.cancelled(), True)
        await cell.close()

    for client, opens, keys in ((None, OPENED, ("", "")), ("ann", opened(5), ("#5 ", "#6 "))):
        listener = answering([opens, (f"call {keys[0]}take", b"accepted 9\n"), ("cancel 9", b"done 9\ncancel 9 Ended\n"),
                             (f"call {keys[1]}give", GIVEN), ("quit", b"bye\n")])
        asyncio.run(work(listener.port, client))
        check(heard_by(listener)[-1], f"call {keys[1]}give\n")


def late_cancel(folder: pathlib.Path) -> None:
    """A task that is cancelled while it gives back: it ends when that is done, and is cancelled then."""

    async def work(server: Kept) -> None:
        async with aio.connect(server.port, "lot") as lot:

            async def hold() -> None:
                async with lot.holding("enter", "leave"):
                    server.child.send_signal(signal.SIGSTOP)

            task = asyncio.create_task(hold())
            await asyncio.sleep(0.3)
            task.cancel()
            await asyncio.sleep(2.4)
            is_done = task.done()
            server.child.send_signal(signal.SIGCONT)
            await asyncio.wait({task})
            check((is_done, task.cancelled(), await lot.held()), (False, True, 0))

    with Kept(folder) as server:
        asyncio.run(work(server))


def ends_in_doubt(kind: str) -> Attempt:
    """The second call is asked again under its key, and called anew where it was not done."""

    def attempt(_: object) -> None:
        for answer, key in ((b"no Memory\n", 6), (b"accepted 10\ncancelled 10\n", 7), (b"no Gone\n", 6)):
            again = (f"call #{key} give", b"accepted 11\ndone 11\n")
            listener = answering([opened(5), TAKEN, ("call #6 give", answer), again, ("quit", b"bye\n")])
            check(held_by(kind, listener.port, "take", "give"), None)
            check(heard_by(listener)[2:], ["call #6 give\n", f"{again[0]}\n"])
        # A server that has it, and stops before it says so: asked anew it would be done twice.
        listener = answering([opened(5), TAKEN, ("call #6 give", b"")], [opened(7), ("call #6 give", b"no Gone\n")],
                            [opened(7), ("call #6 give", b"repeat done 10\n"), ("quit", b"bye\n")])
        check(held_by(kind, listener.port, "take", "give"), None)
        check(len(heard_by(listener)), 7)

    return attempt


def ends_later(kind: str) -> Attempt:
    """A second call that is in doubt, of a server that is gone for longer than one is tried for, is asked for under its key; and where
    its end was that it was cancelled, as a new one."""

    def attempt(_: object) -> None:
        for answers in ([(b"repeat done 10\n", 6)], [(b"repeat cancelled 10\n", 6), (b"accepted 11\ndone 11\n", 7)]):
            first = answering([opened(5), TAKEN, ("call #6 give", b"accepted 10\n")])
            calls, later = [(f"call #{key} give", answer) for answer, key in answers], list[FakeServer]()
            threading.Timer(1.5, begin_answering, (later, [opened(7), *calls], first.port)).start()
            check(held_by(kind, first.port, "take", "give", wait=0.1, patience=SECONDS), None)
            check(heard_by(later[0]), ["open cell as ann\n", *(f"{line}\n" for line, _ in calls)])

    return attempt


def again_after_lost(_: object) -> None:
    """A call that was lost is asked for again by its key in the same Object: a server that has it does it once."""
    listener = answering([opened(5), ("call #5 put 1", b"")],
                        [opened(6), ("call #5 put 1", b"repeat done 9\n"), ("call #6 get", b"accepted 10\ndone 10 1\n")])
    cell = Object(listener.port, "cell", client="ann", wait=0)
    raised(Lost, None, cell.call, "put", 1, within=0)
    check((cell.key, cell.call("put", 1, key=5), cell.get()), (5, None, 1))


def holds_in_tasks(folder: pathlib.Path) -> None:
    """A task that is cancelled within its block, before it, or behind it gives back what it holds."""

    async def work(server: Kept) -> None:
        for name in NAMES:
            async with aio.connect(server.port, "lot", client=name) as lot, aio.connect(server.port, "lot") as other:

                async def hold(ends: asyncio.Event | None = None) -> None:
                    async with lot.holding("enter", "leave"):
                        check(await other.held(), 1)
                        if ends is not None:
                            ends.set()
                            await asyncio.sleep(SECONDS)

                await hold()
                check(await other.held(), 0)
                ends = asyncio.Event()
                task = asyncio.create_task(hold(ends))
                await ends.wait()
                task.cancel()
                await asyncio.sleep(0)
                # (once more, while it gives back)
                task.cancel()
                await asyncio.wait({task})
                check((task.cancelled(), await other.held()), (True, 0))
                for _ in range(9):
                    await other.enter()
                for seconds in (0, 0.2):
                    # It waits, and is cancelled; and it is let in just when it is cancelled.
                    task = asyncio.create_task(held_in_task(lot))
                    await asyncio.sleep(0.2)
                    leaves = asyncio.create_task(other.leave())
                    await asyncio.sleep(seconds)
                    task.cancel()
                    await asyncio.wait({task, leaves})
                    check(await other.held(), 8)
                    await other.enter()
                for _ in range(9):
                    await other.leave()
                async with lot.holding("enter", "leave"):
                    server.kill_for(0.5)
                    await asyncio.sleep(0.2)
                check(server.counts()[0], 0)

    async def held_in_task(lot: aio.Object) -> None:
        async with lot.holding("enter", "leave"):
            pass

    with Kept(folder) as server:
        asyncio.run(work(server))


def pool(folder: pathlib.Path) -> None:
    """Calls of threads overlap over a pool; what waits for a session in vain is cancelled; a closed pool ends calls."""
    with server_of(OBJECTS / "bounded_buffer.pp", 8, folder) as server, Pool(server.port, "bounded_buffer", 3) as buffers:
        got: list[Any] = []
        threads = [threading.Thread(target=lambda: got.append(buffers.get())) for _ in range(2)]
        for it in threads:
            it.start()
        time.sleep(0.3)
        buffers.put("bread")
        buffers.put("milk")
        for it in threads:
            it.join(SECONDS)
        check(sorted(got), ["bread", "milk"])
        with buffers.session(), buffers.session(), buffers.session():
            raised(Cancelled, None, buffers.waiting, within=0.2)
        check(buffers.waiting(within=SECONDS), 0)
        lost = []

        def waits() -> None:
            try:
                buffers.get()
            except Lost as error:
                lost.append(error.word)

        thread = threading.Thread(target=waits)
        thread.start()
        time.sleep(0.3)
        buffers.close()
        thread.join(SECONDS)
        check(lost, ["closed"])
        raised(Lost, "closed", buffers.waiting)


def tasks(folder: pathlib.Path) -> None:
    """Calls of tasks: in order, beside each other over two objects, and cancelled with their tasks."""

    async def work(port: int) -> None:
        async with aio.connect(port, "bounded_buffer") as first, aio.connect(port, "bounded_buffer", client="ann") as second:
            got = asyncio.create_task(first.get())
            await asyncio.sleep(0.2)
            await second.put("bread")
            check(await got, "bread")
            came = await asyncio.gather(*[second.put(str(it)) for it in range(8)], first.get(), second.waiting())
            check(came[-2], "0")
            waits = asyncio.create_task(first.call("put", "late", within=0.3))
            check(await waits, None)
            for _ in range(8):
                await first.get()
            waits = asyncio.create_task(first.get())
            await asyncio.sleep(0.2)
            waits.cancel()
            await asyncio.wait({waits})
            check(waits.cancelled(), True)
            await second.put("milk")
            check((await second.waiting(), await first.get()), (1, "milk"))
            waits = asyncio.create_task(first.get())
            await asyncio.sleep(0.2)
        try:
            await waits
        except Lost as error:
            check(error.word, "closed")
        else:
            raise AssertionError("a call replied that was closed")

    with server_of(OBJECTS / "bounded_buffer.pp", 2, folder) as server:
        asyncio.run(work(server.port))


def placed(code: str) -> str:
    """The code of a user, to whom the library is installed, with the library as this tool has it."""
    return code.replace("from pathclient", "from clients.python.pathclient")


def written_stubs(folder: pathlib.Path) -> None:
    """The classes that are written for each example can be called."""
    for source in OBJECTS.glob("*.pp"):
        for is_aio in (False, True):
            compile(stubs.stubs(source.read_text(encoding="ascii"), is_aio, source.name), source.name, "exec")
    made: dict[str, Any] = {}
    exec(placed(stubs.stubs((OBJECTS / "phone_book.pp").read_text(encoding="ascii"), False, "phone_book.pp")), made)
    with server_of(OBJECTS / "phone_book.pp", 1, folder) as server, made["PhoneBook"](server.port, client="ann") as book:
        check(book.enter("ada", "5", within=9), None)
        check((book.number_of(name="ada"), book.size()), ("5", 1))
    for name, wanted in (("build_slots", ["take_slot", "begin_release"]), ("print_spooler", ["fetch"]), ("bounded_buffer", []),
                         ("buffer", []), ("job_queue", []), ("lease", [])):
        text = stubs.stubs((OBJECTS / f"{name}.pp").read_text(encoding="ascii"), False, name)
        check(re.findall(r"def holding_(\w+)", text), wanted)
        exec(placed(text), made)
    (folder / "more").mkdir()
    with Kept(folder / "more", (OBJECTS / "print_spooler.pp").read_text()) as server, made["PrintSpooler"](server.port) as printer:
        printer.submit("a page")
        with printer.holding_fetch() as job:
            check((job, printer.printing()), ("a page", 1))
        check(printer.printing(), 0)
    for path, count in (("a; b", 1), ("3:(a; b), c", 1), ("a; b; b", 0), ("b; a; b", 0), ("c, a; b", 0), ("(a, b); b", 2), ("a; c", 0),
                         ("2:(1:(a); 1:(b))", 0), ("a; d", 0), ("[a; b]", 1)):
        text = f"object o; path {path} end; entry procedure a; begin end; entry procedure b; begin end; "
        text += "entry function c : text; begin end; entry procedure d(x : integer); begin end; end;"
        check((path, stubs.stubs(text, False, "o").count("def holding_")), (path, count))
    for rules, wanted in (("hold a until b;", ["a"]), ("hold a until d, b by any;", ["a"]), ("HOLD A UNTIL B; every 5 call e;", ["a"]), ("hold a until d;", []),
                          ("hold a until b, e;", []), ("hold e until b;", ["e"]), ("every 5 call a;", ["a"])):
        text = "object o; path a; b end; entry procedure a; begin end; entry procedure b; begin end; entry procedure e; begin end; "
        text += f"entry procedure d(x : integer); begin end; {rules} end;"
        check((rules, re.findall(r"def holding_(\w+)", stubs.stubs(text, False, "o"))), (rules, wanted))


def judged(folder: pathlib.Path) -> None:
    """What mypy says of the library, of what stubs writes, and of a program that calls by it."""
    for is_aio in (False, True):
        names = ("job_queue", "leader", "ledger", "phone_book", "print_spooler")
        text = "".join((OBJECTS / f"{it}.pp").read_text(encoding="ascii") for it in names)
        (folder / f"made{is_aio}.py").write_text(stubs.stubs(text, is_aio, "objects"))
    (folder / "program.py").write_text("""from madeFalse import PhoneBook, PrintSpooler
from pathclient import Refused
with PrintSpooler(7000) as printer, printer.holding_fetch(within=1) as job:
    page: str = job + "x"
with PhoneBook(7000) as book:
    try:
        text: str = book.number_of("ada") + "x"
    except Refused["missing"]:
        number: int = book.size()
""")
    library = TOP / "clients" / "python"
    words: list[str | pathlib.Path] = ["mypy", "--strict", "--no-error-summary", "--cache-dir", folder / "cache", library / "pathclient", *folder.glob("*.py")]
    env = {**os.environ, "MYPYPATH": f"{library}:{folder}"}
    ran = subprocess.run(words, capture_output=True, text=True, timeout=30 * SECONDS, check=False, cwd=folder, env=env)
    check((ran.returncode, ran.stdout), (0, ""))


def client_of(folder: pathlib.Path, name: str) -> list[str | pathlib.Path]:
    """The words that run a client."""
    source = TOP / "examples" / "clients" / name
    if source.suffix == ".py":
        return [sys.executable, source]
    subprocess.run(["cc", "-Wall", "-Wextra", "-Werror", "-o", folder / "client", source], check=True, timeout=SECONDS)
    return [folder / "client"]


def gone(name: str, answers: Rows, output: str, error: str) -> Attempt:
    """A client whose server is gone: what was answered is told, and what was not is told apart."""

    def attempt(folder: pathlib.Path) -> None:
        listener = answering(answers)
        words = [*client_of(folder, name), str(listener.port), "cell", "put 7", "get"]
        ran = subprocess.run(words, capture_output=True, text=True, timeout=SECONDS, check=False)
        check((ran.returncode, ran.stdout, ran.stderr), (3, output, error))

    return attempt


def resuming(answers: Sequence[Rows], status: int, output: str, error: str = "", calls: Sequence[str] = ("put 7", "get")) -> Attempt:
    """What the client that resumes prints, where these are the answers on the connections that it makes."""

    def attempt(folder: pathlib.Path) -> None:
        listener = answering(*answers)
        words = [*client_of(folder, "resuming.py"), str(listener.port), "cell", "ann", *calls]
        ran = subprocess.run(words, capture_output=True, text=True, timeout=SECONDS, check=False)
        check((ran.returncode, ran.stdout, ran.stderr), (status, output, error))

    return attempt


def cut_resuming(folder: pathlib.Path) -> None:
    """The client that resumes, over a connection that breaks at each byte of its calls and of their answers."""
    (folder / "meter.pp").write_text(METER)
    with server_of(folder / "meter.pp", 64, folder) as server:
        cutter = Cutter(server.port)
        # One call first, so that its keys are above 1.
        with Object(server.port, "meter", client="ann") as meter:
            check(meter.add(5), 5)
        front, size = len("open meter as ann\n"), len("call #2 add 5\n")
        total = 5
        for way, places in (("up", range(front, front + size + 1)), ("down", range(len("opened meter next 2\n"), 45, 3))):
            for place in places:
                cutter.cut(way, place, place % 2 == 0)
                words = [*client_of(folder, "resuming.py"), str(cutter.port), "meter", "ann", "add 5"]
                ran = subprocess.run(words, capture_output=True, text=True, timeout=SECONDS, check=False)
                cutter.way = None
                total += 5
                check((ran.returncode, ran.stderr, ran.stdout.rpartition(" ")[2]), (0, "", f"{total}\n"))
        with Object(server.port, "meter", client="ann") as meter:
            check(meter.add(0), total)


def none_there(name: str) -> Attempt:
    def attempt(folder: pathlib.Path) -> None:
        words = [*client_of(folder, name), str(free_port()), "cell", "get"]
        ran = subprocess.run(words, capture_output=True, text=True, timeout=SECONDS, check=False)
        check((ran.returncode, ran.stdout, ran.stderr.startswith("client: there is no server: ")), (3, "", True))

    return attempt


def guide(folder: pathlib.Path) -> None:
    """The last step of the guide: its object, its server, its calls."""
    text = (TOP / "docs" / "LANGUAGE.md").read_text(encoding="utf-8")
    blocks = re.findall(r"^```(\w*)\n(.*?)^```$", text, re.S | re.M)
    [place] = [at for at, (kind, it) in enumerate(blocks) if kind == "python"]
    source = [it for kind, it in blocks[:place] if kind == "objects"][-1]
    code, wanted = blocks[place][1], blocks[place + 1][1]
    (folder / "counter.pp").write_text(source)
    with server_of(folder / "counter.pp", 1, folder) as server:
        check(code.count("7000"), 1)
        told = io.StringIO()
        with contextlib.redirect_stdout(told):
            exec(placed(code.replace("7000", str(server.port))), {})
        check(told.getvalue(), wanted)


GONE = "client: the server is gone\n"
UNKNOWN = "client: it is not known whether this was done: "
TRIES: list[tuple[str, Any]] = [
    ("texts, and a procedure that replies nothing", calls),
    ("integers", integers),
    ("calls that are not taken", not_taken),
    ("calls that wait", waits),
    ("threads that share a session", shared),
    ("a server that is killed", killed),
    ("no server", no_server),
    ("a server that opens nothing", unopened),
    ("after a lost call", after_lost),
    ("a reply that is none", interrupted),
    ("a client with a name", by_name),
    ("a name that is in use", one_name_twice),
    ("names of clients that are none", names_that_are_none),
    ("a word, and a text for people behind it", told_in_words),
    ("places that are written as texts", placed_by_text),
    ("pauses between tries", pauses),
    ("processes that are forked", forks),
    ("a connection that ended before a call", ended_before),
    ("packages", packages),
    *[(f"a connection that breaks at each byte {way}, {'by a reset' if resets else 'closed'}", cut_at_each_byte(way, size, resets))
      for way, size in (("up", len("call #99 add 5\n")), ("down", len("accepted 99\ndone 99 495\n"))) for resets in (False, True)],
    ("the keys of a client that comes back", after_the_return),
    *[(f"asked again: {text}", comes_back(kind, word, [opened(6), ("call #5 get", f"repeat {text}\n".encode())]))
      for text, kind, word in (("done 9 34", None, 34), ("done 9 ''", None, ""), ("done 9 'it''s'", None, "it's"), ("done 9", None, None),
                               ("refused 9 range", Refused, "range"), ("failed 9 device", Failed, "device"), ("cancelled 9", Cancelled, ""),
                               ("running 9", Lost, None))],
    ("a call that had not come", comes_back(None, 34, [opened(5), ("call #5 get", b"accepted 9\ndone 9 34\n")])),
    ("a connection that breaks twice", comes_back(None, 34, [opened(5), ("call #5 get", b"accepted 9\n")],
                                                  [opened(6), ("call #5 get", b"repeat done 9 34\n")])),
    ("a connection that breaks before `opened`", comes_back(None, 34, [opened(5, b"opened cell ne")], [opened(5, b"no InU")],
                                                            [opened(6), ("call #5 get", b"repeat done 9 34\n")])),
    ("a connection that breaks each time", comes_back(Lost, None, *[[opened(6), ("call #5 get", b"repeat done")]] * 9, heard=20)),
    ("a name that is in use for a while", comes_back(None, 34, [IN_USE, IN_USE, opened(6), ("call #5 get", b"repeat done 9 34\n")])),
    ("a name that stays in use", comes_back(Lost, None, [IN_USE] * 99)),
    ("a server that was started anew", comes_back(Expired, None, [opened(1)], heard=3)),
    ("a server that was started anew, at the first call", comes_back(Lost, None, [opened(1)], key=1, heard=3)),
    ("a server that has the first call", comes_back(None, 34, [opened(2), ("call #1 get", b"repeat done 9 34\n")], key=1)),
    ("a key that is too far", comes_back(Expired, None, [opened(7)], heard=3)),
    ("no server to come back to", comes_back(Lost, None)),
    ("a server that has the call, and stops", comes_back(Lost, None, [opened(6), ("call #5 get", b"no Gone\n")])),
    ("a server that has not the call, and stops", comes_back(Rejected, "Gone", [opened(5), ("call #5 get", b"no Gone\n")])),
    ("a call that waits, and is cancelled when asked again",
     comes_back(Cancelled, "", [opened(5), ("call #5 get", b"accepted 9\n"), ("cancel 9", b"cancelled 9\ncancel 9 Cancelled\n")],
                within=0.1)),
    ("a refusal by its word", by_word),
    ("calls that are sent ahead", sent_ahead),
    ("calls that are sent ahead, and wait", late_ahead),
    ("a call that is asked for again by its key", again_by_key),
    ("a lost call is asked for again by its key", again_after_lost),
    ("a name that comes back too late", late),
    *[(f"a session that is not as it was, by {kind}", not_as_it_was(kind)) for kind in ("threads", "tasks")],
    ("what is held for a block", holds),
    ("what is not held", holds_nothing),
    *[(f"{title}, by {kind}", work(kind)) for kind in ("threads", "tasks")
      for title, work in (("what may be held", holds_in_doubt), ("what may be given back", ends_in_doubt),
                          ("what is given back later", ends_later))],
    ("an interrupt while it begins to hold", interrupted_holding),
    ("a task that is cancelled while it begins to hold", cancelled_holding),
    ("a task that is cancelled while it gives back what it held", late_cancel),
    ("what is held over cut connections, of calls", holds_over_cuts("up", 15, False)),
    ("what is held over cut connections, of answers", holds_over_cuts("down", 27, True)),
    ("what tasks hold", holds_in_tasks),
    ("a pool of sessions", pool),
    ("tasks", tasks),
    ("classes that are written for objects", written_stubs),
    *([] if lacks("mypy") else [("mypy", judged)]),
    ("the last step of the guide", guide),
    *[(f"failed {it}", said([("call get", f"accepted 1\nfailed 1 {it}\n".encode())], Failed, it))
      for it in ("device", "memory", "damaged")],
    ("cancelled by somebody", said([("call get", b"accepted 1\ncancelled 1\n")], Cancelled, "")),
    ("history full", said([("call get", b"no HistoryFull\n")], Rejected, "HistoryFull")),
    ("a line that is too long", said([("call get", b"no LineTooLong\n")], Rejected, "LineTooLong")),
    ("silence after the call", said([("call get", b"")], Lost, None)),
    ("silence after `accepted`", said([("call get", b"accepted 1\n")], Lost, None)),
    ("an `accepted` that was cut", said([("call get", b"accepted 1")], Lost, None)),
    ("a reply that was cut", said([("call get", b"accepted 12\ndone 12 34")], Lost, None)),
    ("the reply of another call", said([("call get", b"accepted 12\ndone 1 34\n")], Lost, None)),
    ("a reply in pieces", said([("call get", b"accepted 12\ndone 12 34\n")], None, 34)),
    ("an empty text", said([("call get", b"accepted 1\ndone 1 ''\n")], None, "")),
    ("a cancel that comes before the last line",
     said([("call get", b"accepted 1\n"), ("cancel 1", b"cancel 1 Cancelled\ncancelled 1\n")], Cancelled, "",
          within=0.1)),
    ("a cancel that comes after the last line",
     said([("call get", b"accepted 1\n"), ("cancel 1", b"cancelled 1\ncancel 1 Cancelled\n")], Cancelled, "",
          within=0.1)),
    ("a cancel that came too late",
     said([("call get", b"accepted 1\n"), ("cancel 1", b"cancel 1 Running\ndone 1 5\n")], None, 5, within=0.1)),
    ("a cancel of a call that had ended",
     said([("call get", b"accepted 1\n"), ("cancel 1", b"done 1 5\ncancel 1 Ended\n")], None, 5, within=0.1)),
    ("a server that does not answer the cancel", in_time([("call get", b"accepted 1\n"), ("cancel 1", b"")], Lost, None)),
    ("a server that does not tell the end of a call", in_time([("call get", b"accepted 1\n"), ("cancel 1", b"cancel 1 Running\n")],
                                                              Lost, None)),
    ("a server that says nothing of a call", in_time([("call get", b"")], Lost, None)),
    ("a server that is full", full),
    ("a server that takes no call",
     in_time_where([{**closing.OPEN, "then": closing.HOLDS}], lambda it: closing.opened(it, wait=99), Lost, None, *["x" * 1000] * 6000)),
    ("a server to which no connection is made",
     in_time_where([closing.BREAKS, closing.HOLDS], closing.unreachable, NoServer, None)),
    *closing.TRIES,
    ("behind the call of another thread", behind_another),
    ("what is raised says of which call", told_of_which),
    ("a server that is gone before the cancel is answered",
     said([("call get", b"accepted 1\n"), ("cancel 1", b"cancel 1 Cancelled\n")], Lost, None, within=0.1)),
]
for client in ("client.py", *(() if lacks("cc") else ("client.c",))):
    TRIES += [
        (f"{client}: no server", none_there(client)),
        (f"{client}: gone before `opened`", gone(client, [("open cell", b"opened cell")], "", GONE)),
        (f"{client}: gone after the call",
         gone(client, [OPENED, ("call put 7", b"")], "", GONE + UNKNOWN + "put 7\n")),
        (f"{client}: gone while a call waits",
         gone(client, [OPENED, ("call put 7", b"accepted 1\n")], "", GONE + UNKNOWN + "put 7\n")),
        (f"{client}: gone in the middle of a reply",
         gone(client, [OPENED, ("call put 7", b"accepted 1\ndone 1\n"), ("call get", b"accepted 2\ndone 2 7")],
              "put 7: done 1\n", GONE + UNKNOWN + "get\n")),
    ]


LOST = "client: it is not known whether this was done: "
PUT = (opened(5), ("call #5 put 7", b"accepted 9\ndone 9\n"))
TRIES += [
    ("resuming.py: no server", none_there("resuming.py")),
    ("resuming.py: all is answered", resuming([[*PUT, ("call #6 get", b"accepted 10\ndone 10 7\n"), ("quit", b"bye\n")]], 0,
                                              "put 7: done 9\nget: done 10 7\n")),
    ("resuming.py: a refused call takes no key",
     resuming([[opened(5), ("call #5 put 7", b"no Memory\n"), ("call #5 get", b"accepted 9\ndone 9 7\n")]], 0,
              "put 7: no Memory\nget: done 9 7\n")),
    ("resuming.py: gone in the middle of a reply", resuming([[*PUT, ("call #6 get", b"accepted 10\ndone 10 7")],
     [opened(7), ("call #6 get", b"repeat done 10 7\n")]], 0, "put 7: done 9\nget: repeat done 10 7\n")),
    ("resuming.py: gone before the call", resuming([[*PUT, ("call #6 get", b"")], [IN_USE, opened(6),
     ("call #6 get", b"accepted 10\ndone 10 7\n")]], 0, "put 7: done 9\nget: done 10 7\n")),
    ("resuming.py: gone twice", resuming([[opened(5), ("call #5 put 7", b"")], [opened(6), ("call #5 put 7", b"repeat do")],
     [opened(6), ("call #5 put 7", b"repeat done 9\n")]], 0, "put 7: repeat done 9\n", calls=("put 7",))),
    ("resuming.py: started anew", resuming([[*PUT, ("call #6 get", b"")], [opened(1)]], 3, "put 7: done 9\n", LOST + "get\n")),
    ("resuming.py: started anew, at the first call", resuming([[opened(1), ("call #1 put 7", b"")], [opened(1)]], 3, "", LOST + "put 7\n")),
    ("resuming.py: it has the call, and stops", resuming([[*PUT, ("call #6 get", b"")], [opened(7), ("call #6 get", b"no Gone\n")]], 3,
                                                         "put 7: done 9\n", LOST + "get\n")),
    ("resuming.py: connections that break at each byte", cut_resuming),
]


def trials() -> list[Trial]:
    return [Trial(title, in_folder("pathclient", attempt)) for title, attempt in TRIES]


def main() -> int:
    if given_words():
        print(__doc__, file=sys.stderr)
        return 2
    return run("try_pathclient", trials())


load_tests = loads(trials)
