"""Tries a client, in any language, against a server that answers as it is told.

usage: gate/try_client CMD [WORD ..]        the client that this command drives
       gate/try_client [--program FILE]     each client of the repository (gate/drivers); and all of them at once over
                                            `pathserve keep`, which is killed by `kill -9` meanwhile

CMD is one file that can be run (a script that begins with `#!`, say, and runs the rest), and drives a client by lines. It
first writes `can` and what the client can beside calls: `values` (it reads replies as values of its language), `within`
(a call has a time), `name` (it has a name, and keys), `ahead` (it sends calls without waiting for those before them),
`tells` (it tells why in words), `host` (it reaches other hosts), `pauses` (it tries a server again behind pauses of 50 ms
to 1 s, at random), `alive` (it sets SO_KEEPALIVE). What needs anything else is left out, and said. Then it reads a line,
does it, and writes what came of it, at once; up to the end of its input:

  open PLACE OBJECT MS CLIENT   opens OBJECT at this port, HOST:PORT or path, which is tried for MS milliseconds, by the
                                name CLIENT, or without one where that is `-`: `opened`, or how it failed
  call MS OP ARG ..             calls; where MS is not 0, the call is cancelled that still waits after MS milliseconds:
                                how it ended
  ahead K                       the next K lines are `call 0 ..`: once the last one is read all are sent ahead; K lines,
                                how each ended
  told                          what the message was of the last one that failed, in one line
  close                         quits: `closed`, and behind it what is left that should not be (timers, threads)

ARG is an integer or a text, as a server reads them. How a call ended is one of

  done, done VALUE       its reply, which the driver writes from a value of its language as a server would
  refused WORD, failed WORD, cancelled
  no WORD                the server did not take the call, or did not open the object; what is for people is left out
  no server              nobody answers, or the server opens nothing, so nothing was called
  lost                   it is not known whether the call was done
  expired                the session of this name is not as the client left it (docs/CLIENTS.md)

A call of a client whose connection was lost makes a new one.
"""
import collections
import concurrent.futures
import contextlib
import itertools
import os
import pathlib
import queue
import random
import shutil
import signal
import socket
import subprocess
import sys
import threading
import time
from collections.abc import Callable, Iterable, Sequence
from typing import Any, TypeVar

from gate import crowd, kept
from gate.fakes import HOLDS, METER, OPENED, RESETS, Fake, FakeMeter, FakeServer, Rows, opened
from gate.tried import TOP, Wrong, check, given_words, holds, is_one_of, lacks, new_folder, there, until, whole

DRIVERS = TOP / "gate" / "drivers"
# How long anything may take, and how much longer than its time a call, in seconds.
SECONDS, LATER = 20, 5
# How many tries of a client are made at once.
LANES = 3

T = TypeVar("T")


class Client:
    """A client, as its driver answers for it."""

    def __init__(self, words: Sequence[str]) -> None:
        self.lines: queue.Queue[str | None] = queue.Queue()
        self.ran = subprocess.Popen(words, stdin=subprocess.PIPE, stdout=subprocess.PIPE, text=True, bufsize=1, start_new_session=True)
        threading.Thread(target=self.read, daemon=True).start()
        kind, *self.can = self.hear().split(" ")
        check(kind, "can")

    def read(self) -> None:
        for line in there(self.ran.stdout):
            self.lines.put(line.rstrip("\n"))
        self.lines.put(None)

    def hear(self, seconds: float = SECONDS) -> str:
        try:
            line = self.lines.get(timeout=seconds)
        except queue.Empty:
            raise Wrong(f"the client says nothing for {seconds} s") from None
        if line is None:
            raise Wrong("the driver has ended")
        return line

    def say(self, line: str, seconds: float = SECONDS) -> str:
        there(self.ran.stdin).write(f"{line}\n")
        return self.hear(seconds)

    def open(self, server: Fake, name: str = "-", wait: int = 9000, wanted: str = "opened") -> None:
        self.open_at(server.port, wanted, server.name, name, wait)

    def open_at(self, place: object, wanted: str, called: str = "cell", name: str = "-", wait: int = 9000) -> None:
        begun = time.monotonic()
        check(self.say(f"open {place} {called} {wait} {name}"), wanted)
        took = time.monotonic() - begun
        if took > wait / 1000 + LATER:
            raise Wrong(f"to open for {wait} ms took {took:.1f} s")

    def told(self, *wanted: str) -> None:
        """The last message has these words, in any case."""
        if "tells" in self.can:
            said = self.say("told")
            if any(it.lower() not in said.lower() for it in wanted):
                raise Wrong(f"it told {said!r}, without {' or '.join(map(repr, wanted))}")

    def call(self, text: str, *wanted: str, within: int = 0) -> None:
        begun = time.monotonic()
        is_one_of(self.say(f"call {within} {text}"), *wanted)
        took = time.monotonic() - begun
        if within and took > within / 1000 + LATER:
            raise Wrong(f"a call of {within} ms took {took:.1f} s")

    def ahead(self, *texts: str, seconds: float = SECONDS) -> list[str]:
        for line in [f"ahead {len(texts)}", *(f"call 0 {it}" for it in texts)]:
            there(self.ran.stdin).write(f"{line}\n")
        return [self.hear(seconds) for _ in texts]

    def close(self) -> None:
        check(self.say("close"), "closed")

    def end(self) -> None:
        with contextlib.suppress(OSError):
            there(self.ran.stdin).close()
        with contextlib.suppress(subprocess.TimeoutExpired):
            self.ran.wait(2)
        with contextlib.suppress(ProcessLookupError):
            os.killpg(self.ran.pid, signal.SIGKILL)
        self.ran.wait()
        there(self.ran.stdout).close()


QUIT = ("quit", b"bye\n")
GET = "call get"


# Tries: each has a title, what the client has to be able to, and what is done.
Work = Callable[[Client], object]
Try = tuple[str, tuple[str, ...], Work]
TRIES: list[Try] = []


def attempt(title: str, *needs: str) -> Callable[[Work], Work]:
    def kept(function: Work) -> Work:
        TRIES.append((title, needs, function))
        return function

    return kept


def answered(title: str, rows: Rows, wanted: str, needs: tuple[str, ...] = (), within: int = 0, **options: Any) -> None:
    """A call of `get`, which is answered so."""

    def tried(client: Client) -> None:
        with FakeServer([OPENED, *rows], **options) as server:
            client.open(server)
            client.call("get", wanted, within=within)

    TRIES.append((title, needs, tried))


for reply in ("7", "0", "4294967295", "''", "'it''s'", "''''''", "' a  b '", "'%s'" % "".join(map(chr, range(32, 127))).replace("'", "''")):
    answered(f"a reply {reply[:12]}", [(GET, f"accepted 1\ndone 1 {reply}\n".encode())], f"done {reply}")
answered("a reply of 1,000 characters", [(GET, b"accepted 1\ndone 1 '" + b"x" * 1000 + b"'\n")], f"done '{'x' * 1000}'")
answered("a procedure", [(GET, b"accepted 1\ndone 1\n")], "done")
answered("a number of 64 bits", [(GET, b"accepted 18446744073709551615\ndone 18446744073709551615 5\n")], "done 5")
for last in ("refused N known", "failed N device", "failed N memory", "failed N damaged", "cancelled N"):
    answered(last, [(GET, f"accepted 3\n{last}\n".replace("N", "3").encode())], last.replace(" N", ""))
WORDS = ("UnknownOp", "BadArgs", "Full", "HistoryFull", "Memory", "Gone", "LineTooLong")
for word in WORDS:
    answered(f"no {word}", [(GET, f"no {word}\n".encode())], f"no {word}")
answered("an answer in pieces", [(GET, b"accepted 12\ndone 12 'a b'\n")], "done 'a b'", pause=0.002)
answered("the reply of another call", [(GET, b"accepted 12\ndone 1 5\n")], "lost")
answered("a reply that is none", [(GET, b"accepted 1\ndone 1 x7\n")], "lost", needs=("values",))
answered("a line that is none", [(GET, b"hello\n"), HOLDS], "lost")
answered("a line without an end", [(GET, b"a" * 10000), HOLDS], "lost", needs=("within",), within=300)
for end in ((), (RESETS,)):
    for sent in (b"accepted 12\ndone 12 34", b"no Full"):
        for at in range(len(sent) + 1):
            answered(f"{sent[:at]!r}, and the connection {'is reset' if end else 'ends'}", [(GET, sent[:at]), *end], "lost")
for kind, rows in (("a cancel that is answered first", [("cancel 1", b"cancel 1 Cancelled\ncancelled 1\n")]),
                   ("a cancel that is answered behind the last line", [("cancel 1", b"cancelled 1\ncancel 1 Cancelled\n")])):
    answered(kind, [(GET, b"accepted 1\n"), *rows], "cancelled", needs=("within",), within=100)
for kind, sent in (("a cancel that came too late", b"cancel 1 Running\ndone 1 5\n"), ("a cancel that crosses `done`", b"done 1 5\ncancel 1 Ended\n")):
    answered(kind, [(GET, b"accepted 1\n"), ("cancel 1", sent)], "done 5", needs=("within",), within=100)
answered("silence behind a call", [(GET, b""), HOLDS], "lost", needs=("within",), within=100)
answered("silence behind a cancel", [(GET, b"accepted 1\n"), ("cancel 1", b""), HOLDS], "lost", needs=("within",), within=100)
answered("silence behind the answer to a cancel", [(GET, b"accepted 1\n"), ("cancel 1", b"cancel 1 Running\n"), HOLDS], "lost",
         needs=("within",), within=100)
answered("the end behind a cancel", [(GET, b"accepted 1\n"), ("cancel 1", b"cancel 1 Cancelled\n")], "lost", needs=("within",), within=100)
answered("a call that ends in its time", [(GET, b"accepted 1\ndone 1 5\n")], "done 5", needs=("within",), within=3000)


@attempt("calls of one session, and its end")
def _(client: Client) -> None:
    rows = [("call put 'it''s' 7", b"accepted 1\ndone 1\n"), ("call pop", b"no UnknownOp\n"), (GET, b"accepted 2\ndone 2 ''\n")]
    with FakeServer([OPENED, *rows, QUIT]) as server:
        client.open(server)
        client.call("put 'it''s' 7", "done")
        client.call("pop", "no UnknownOp")
        client.call("get", "done ''")
        client.close()
        check(server.heard[-1], "quit\n")


# What stands behind a word, for people, in at most 1,000 bytes: the word decides.
TEXTS = ("there are get, put", "lines", "put(item : text)", "done 1 5", "no Full", "it''s  'x y' InUse", ".." * 500)


@attempt("a word, and a text for people behind it")
def _(client: Client) -> None:
    rows = [(GET, f"no {word} {text}\n".encode()) for word in WORDS[:-1] for text in TEXTS]
    with FakeServer([OPENED, *rows, (GET, b"accepted 1\ndone 1 5\n"), (GET, b"no LineTooLong a line\n")]) as server:
        client.open(server)
        for word in WORDS[:-1]:
            for text in TEXTS:
                client.call("get", f"no {word}")
                client.told(word, text, "get")
        client.call("get", "done 5")
        client.call("get", "no LineTooLong")


@attempt("an object that is not there")
def _(client: Client) -> None:
    for text in ("", " there are buffer, queue", " InUse"):
        with FakeServer([("open cell", f"no NoObject{text}\n".encode())]) as server:
            client.open(server, wanted="no NoObject")
            client.told("NoObject", text.strip(), "open cell")


@attempt("another host", "host")
def _(client: Client) -> None:
    for host in ("127.0.0.1", "localhost"):
        with FakeServer([OPENED, (GET, b"accepted 1\ndone 1 5\n")]) as server:
            client.open_at(f"{host}:{server.port}", "opened")
            client.call("get", "done 5")


@attempt("a connection that is looked at while it stands still", "alive")
def _(client: Client) -> None:
    with FakeServer([OPENED, (GET, b"accepted 1\ndone 1 5\n"), HOLDS]) as server:
        client.open(server)
        client.call("get", "done 5")
        until(lambda: 0 < next_look(server) <= 10, "it is not looked at after 10 s", LATER)


def next_look(server: Fake) -> float:
    """The seconds until the system asks for a sign of the other side of the first connection to this server; 0 where it does not."""
    own = server.open[0].getpeername()[1]
    for table in ("tcp", "tcp6"):
        for line in pathlib.Path("/proc/net", table).read_text(encoding="ascii").splitlines():
            _, local, remote, _, _, timer, *_ = line.split()
            if local.endswith(f":{own:04X}") and remote.endswith(f":{server.port:04X}"):
                kind, when = timer.split(":")
                return int(when, 16) / os.sysconf("SC_CLK_TCK") if kind == "02" else 0
    return 0


class Closing(Fake):
    """Closes each connection at once, and knows when it came."""

    def __init__(self) -> None:
        self.came: list[float] = []
        super().__init__()

    def serve(self, it: socket.socket, number: int) -> None:
        self.came.append(time.monotonic())


@attempt("pauses between tries", "pauses")
def _(client: Client) -> None:
    with Closing() as server:
        client.open(server, wait=2000, wanted="no server")
        # (the last try is at the end of its time; a machine that has much else to do makes each longer)
        gaps = [later - sooner for sooner, later in itertools.pairwise(server.came)][:-1]
        if len(gaps) > 25 or max(gaps) > 1 + LATER or max(gaps) - min(gaps) < 0.1:
            raise Wrong(f"the pauses are {gaps}")


@attempt("no server")
def _(client: Client) -> None:
    with FakeServer() as server:
        pass
    client.open(server, wanted="no server", wait=100)


@attempt("a server that opens nothing")
def _(client: Client) -> None:
    with FakeServer(*[[("open cell", b"opened cell"[:at])] for at in range(100)]) as server:
        client.open(server, wanted="no server", wait=150)


@attempt("a server that is full", "within")
def _(client: Client) -> None:
    full: Rows = [("open cell", b""), HOLDS]
    with FakeServer(*[full] * 9) as server:
        begun = time.monotonic()
        client.open(server, wanted="no server", wait=150)
        if time.monotonic() - begun > LATER:
            raise Wrong(f"it took {time.monotonic() - begun:.1f} s")


@attempt("`opened` in pieces")
def _(client: Client) -> None:
    with FakeServer([OPENED, (GET, b"accepted 1\ndone 1 5\n")], pause=0.002) as server:
        client.open(server)
        client.call("get", "done 5")


@attempt("the next call after a lost one")
def _(client: Client) -> None:
    with FakeServer([OPENED, (GET, b"accepted 9\n")], [OPENED, (GET, b"accepted 1\ndone 1 5\n"), QUIT]) as server:
        client.open(server)
        client.call("get", "lost")
        client.call("get", "done 5")
        client.close()
        check(len(server.heard), 5)


@attempt("a call without a name is not sent again")
def _(client: Client) -> None:
    for cut in [("up", at) for at in (0, 3, 10, 11)] + [("down", at) for at in range(0, 21, 3)]:
        with FakeMeter() as server:
            client.open(server)
            client.call("add 5", "done 5")
            server.cut = cut
            client.call("add 5", "lost")
            if server.calls > 2:
                raise Wrong(f"it was done {server.calls - 1} times")
            client.call("add 5", f"done {server.sum + 5}")


@attempt("an answer to a cancel that comes late", "within")
def _(client: Client) -> None:
    rows = [(GET, b"accepted 1\n"), ("cancel 1", b"cancelled 1\n"), (GET, b"cancel 1 Cancelled\naccepted 2\ndone 2 5\n")]
    with FakeServer([OPENED, *rows]) as server:
        client.open(server)
        client.call("get", "cancelled", within=100)
        client.call("get", "done 5")


@attempt("an `accepted` that comes when the time is over", "within")
def _(client: Client) -> None:
    class Late(FakeServer):
        def serve(self, it: socket.socket, number: int) -> None:
            lines = it.makefile("rb")
            rows = ((b"open cell\n", 0, b"opened cell\n"), (b"call get\n", 0.6, b"accepted 1\n"), (b"cancel 1\n", 0, b"cancelled 1\n"))
            for wanted, wait, sent in rows:
                line = lines.readline()
                if line != wanted:
                    self.faults.append(f"{line!r}, not {wanted!r}")
                time.sleep(wait)
                it.sendall(sent)

    with Late() as server:
        client.open(server)
        client.call("get", "cancelled", within=200)


# With a name.


@attempt("keys", "name")
def _(client: Client) -> None:
    rows = [("call #5 get", b"accepted 9\ndone 9 1\n"), ("call #6 pop", b"no UnknownOp\n"),
            ("call #6 get", b"accepted 10\nrefused 10 empty\n"), ("call #7 get", b"accepted 11\ncancelled 11\n"), ("call #8 get", b"accepted 12\ndone 12 2\n")]
    with FakeServer([opened(5), *rows, QUIT]) as server:
        client.open(server, "ann")
        for wanted in ("done 1", "no UnknownOp", "refused empty", "cancelled", "done 2"):
            client.call("pop" if "Unknown" in wanted else "get", wanted)
        client.close()


def comes_back(title: str, wanted: str, *connections: Rows, key: int = 5, sent: bytes = b"", wait: int = 9000) -> None:
    """A call of a client with a name, whose connection breaks behind the call of this key."""

    @attempt(f"asked again: {title}", "name")
    def _(client: Client) -> None:
        with FakeServer([opened(key), (f"call #{key} get", sent)], *connections) as server:
            client.open(server, "ann", wait)
            client.call("get", wanted)


for said, wanted in (("done 9 34", "done 34"), ("done 9 'it''s'", "done 'it''s'"), ("done 9", "done"), ("refused 9 range", "refused range"),
                     ("failed 9 device", "failed device"), ("cancelled 9", "cancelled")):
    comes_back(said, wanted, [opened(6), ("call #5 get", f"repeat {said}\n".encode())])
comes_back("a call that had not come", "done 34", [opened(5), ("call #5 get", b"accepted 9\ndone 9 34\n")])
comes_back("a connection that breaks twice", "done 34", [opened(5), ("call #5 get", b"accepted 9\n")],
           [opened(6), ("call #5 get", b"repeat done 9 34\n")])
comes_back("a connection that breaks before `opened`", "done 34", [opened(5, b"opened cell ne")], [opened(5, b"no InU")],
           [opened(6), ("call #5 get", b"repeat done 9 34\n")])
comes_back("behind `accepted`", "done 34", [opened(6), ("call #5 get", b"repeat done 9 34\n")], sent=b"accepted 9\ndone 9 3")
comes_back("a server that was started anew", "expired", [opened(1), HOLDS])
comes_back("a server that may have been started anew, at the first call", "lost", [opened(1), HOLDS], key=1)
comes_back("a server that has the first call", "done 34", [opened(2), ("call #1 get", b"repeat done 9 34\n")], key=1)
comes_back("a key that is too far", "expired", [opened(7), HOLDS])
comes_back("a key that somebody else has used", "expired", [opened(6), ("call #5 get", b"no KeyReused\n")])
comes_back("a key that somebody else has used, as is told in words", "expired", [opened(6), ("call #5 get", b"no KeyReused get 7\n")])
comes_back("a server that is gone", "lost", wait=500)
comes_back("a server that has not the call, and stops", "no Gone", [opened(5), ("call #5 get", b"no Gone\n")])
comes_back("a server that has the call, and stops", "lost", [opened(6), ("call #5 get", b"no Gone\n")], wait=500)


@attempt("a connection that ended between two calls", "name")
def _(client: Client) -> None:
    first, rows = [opened(5), ("call #5 get", b"accepted 9\ndone 9 1\n")], [opened(6), ("call #6 get", b"accepted 10\ndone 10 2\n"), QUIT]
    with FakeServer(first, rows) as server:
        client.open(server, "ann")
        client.call("get", "done 1")
        time.sleep(0.3)
        client.call("get", "done 2")
        client.close()


@attempt("a connection that ended between two calls, of a name that has called meanwhile", "name")
def _(client: Client) -> None:
    first, rows = [opened(5), ("call #5 get", b"accepted 9\ndone 9 1\n")], [opened(8), ("call #8 get", b"accepted 13\ndone 13 2\n"), QUIT]
    with FakeServer(first, [opened(8), HOLDS], rows) as server:
        client.open(server, "ann")
        client.call("get", "done 1")
        time.sleep(0.3)
        client.call("get", "expired")
        client.call("get", "done 2")
        client.close()


@attempt("a name that is in use for a while", "name")
def _(client: Client) -> None:
    with FakeMeter(first=3, in_use=4) as server:
        client.open(server, "ann")
        client.call("add 5", "done 5")
        server.in_use, server.cut = 3, ("down", 12)
        client.call("add 5", "done 10")


@attempt("a name that stays in use", "name", "within")
def _(client: Client) -> None:
    for wait in (0, 150, 1200):
        with FakeMeter(in_use=9999) as server:
            client.open(server, "ann", wait=wait, wanted="no InUse")
            client.told("InUse", "open meter as ann")


@attempt("a name that is in use for a while, as is told in words", "name")
def _(client: Client) -> None:
    use = ("open cell as ann", b"no InUse another connection has it\n")
    with FakeServer([use, use, use, opened(5), ("call #5 get", b"accepted 9\ndone 9 1\n")]) as server:
        client.open(server, "ann")
        client.call("get", "done 1")


@attempt("a name that is in use, and nothing is said any more", "name", "within")
def _(client: Client) -> None:
    with FakeServer([("open cell as ann", b"no InUse\n"), ("open cell as ann", b""), HOLDS]) as server:
        client.open(server, "ann", wait=150, wanted="no InUse")


@attempt("the first call of a name over a connection that ended behind `open`", "name")
def _(client: Client) -> None:
    rows = [opened(1), ("call #1 get", b"accepted 1\ndone 1 5\n")]
    for end in ((), (RESETS,)):
        with FakeServer([opened(1), *end], rows) as server:
            client.open(server, "ann")
            time.sleep(0.3)
            client.call("get", "done 5")


@attempt("a name that is in use when it comes back", "name")
def _(client: Client) -> None:
    with FakeMeter() as server:
        client.open(server, "ann", wait=500)
        client.call("add 5", "done 5")
        server.in_use, server.cut = 9999, ("down", 12)
        client.call("add 5", "lost")


@attempt("a connection that breaks each time", "name")
def _(client: Client) -> None:
    with FakeMeter(first=5) as server:
        client.open(server, "ann")
        server.cuts_all = True
        client.call("add 5", "lost")
        check(server.sum, 0)


def cut_at_each_byte(way: str, size: int, resets: bool) -> None:
    @attempt(f"a connection that breaks at each byte {way}, {'by a reset' if resets else 'closed'}", "name")
    def _(client: Client) -> None:
        with FakeMeter(first=10) as server:
            server.resets = resets
            client.open(server, "ann")
            for place in range(size):
                server.cut = (way, place)
                client.call("add 5", f"done {5 * (place + 1)}")
                server.cut = None
            check(server.calls, size)


for resets in (False, True):
    cut_at_each_byte("up", len("call #99 add 5\n") + 1, resets)
    cut_at_each_byte("down", len("accepted 99\ndone 99 495\n") + 1, resets)


# Sent ahead.


@attempt("calls that are sent ahead", "ahead")
def _(client: Client) -> None:
    with FakeMeter(together=8) as server:
        client.open(server)
        check(client.ahead(*["add 5"] * 8), [f"done {5 * it}" for it in range(1, 9)])


@attempt("many calls that are sent ahead", "ahead")
def _(client: Client) -> None:
    with FakeMeter() as server:
        client.open(server)
        check(client.ahead(*["add 1"] * 300), [f"done {it}" for it in range(1, 301)])


@attempt("a call sent ahead that is not taken", "ahead")
def _(client: Client) -> None:
    with FakeMeter() as server:
        client.open(server)
        check(client.ahead("add 5", "pop", "add 5"), ["done 5", "no UnknownOp", "done 10"])


class Telling(FakeMeter):
    """A meter that says why in words, too."""

    def called(self, line: str, words: list[str], named: bool) -> bytes:
        answer = super().called(line, words, named)
        return answer.replace(b"\n", b" there is add\n") if answer.startswith(b"no ") else answer


def not_all_taken(client: Client, server: FakeMeter) -> None:
    """Of calls that are sent ahead under keys some are not taken."""
    with server:
        client.open(server, "ann")
        server.together = 1
        for _ in range(3):
            had = server.sum
            found = client.ahead("add 5", "pop", "add 5", "add 5", "pop", "pop", "add 5")
            wanted = ["done {}", "no UnknownOp", "done {}", "done {}", "no UnknownOp", "no UnknownOp", "done {}"]
            numbers = iter(range(had + 5, had + 25, 5))
            check(found, [it.format(next(numbers)) if "{}" in it else it for it in wanted])


TRIES += [
    ("calls sent ahead under keys, of which some are not taken", ("ahead", "name"), lambda client: not_all_taken(client, FakeMeter(together=7))),
    ("calls sent ahead under keys, of which some are not taken, as is told in words", ("ahead", "name"),
     lambda client: not_all_taken(client, Telling(together=7))),
]


@attempt("calls sent ahead without a name, whose connection breaks", "ahead")
def _(client: Client) -> None:
    with FakeMeter() as server:
        client.open(server)
        server.cut = ("down", len("accepted 1\ndone 1 5\naccepted 2\ndone 2 "))
        found = client.ahead("add 5", "add 5", "add 5")
        check(found[0], "done 5")
        check(found[1:], ["lost", "lost"])


@attempt("calls sent ahead under keys, over a connection that breaks", "ahead", "name")
def _(client: Client) -> None:
    with FakeMeter(first=10) as server:
        client.open(server, "ann")
        for turn in range(40):
            server.resets, server.cut = turn % 4 > 1, (("up", "down")[turn % 2], turn * 5)
            check(client.ahead(*["add 5"] * 10), [f"done {5 * (10 * turn + it)}" for it in range(1, 11)])
            server.cut = None
        check(server.calls, 400)


# The clients of the repository.


def barred(words: Sequence[str]) -> None:
    """A socket that this user may not open: it is said at once, and in the words of the system."""
    # (root may open each, but where it gives that up)
    drops = ["setpriv", "--bounding-set=-dac_override,-dac_read_search"] if os.getuid() == 0 else []
    with new_folder("barred-") as room, socket.socket(socket.AF_UNIX) as it:
        it.bind(str(room / "socket"))
        it.listen()
        (room / "socket").chmod(0)
        client = Client([*drops, *words])
        try:
            begun = time.monotonic()
            client.open_at(room / "socket", "no server", wait=9000)
            if time.monotonic() - begun > LATER:
                raise Wrong(f"it took {time.monotonic() - begun:.1f} s")
            client.told("permission denied", str(room / "socket"))
        finally:
            client.end()


class Crew:
    """Clients of one kind, each of which does one try at a time."""

    def __init__(self, name: str, words: Iterable[object], *builds: Sequence[str | pathlib.Path]) -> None:
        self.name, self.words, self.builds = name, list(map(str, words)), builds
        self.idle: queue.LifoQueue[Client] = queue.LifoQueue()
        self.made: list[Client] = []

    def one(self, work: Callable[[Client], T]) -> T:
        """Has a client do this. One that did wrong is put away."""
        try:
            client = self.idle.get_nowait()
        except queue.Empty:
            client = Client(self.words)
            self.made.append(client)
        try:
            came = work(client)
            self.idle.put(client)
            return came
        except Exception:
            client.end()
            raise

    def end(self) -> None:
        for it in self.made:
            it.end()

    def tries(self) -> list[tuple[str, str | None]]:
        """What came of each try: a title, and what is wrong."""
        for build in self.builds:
            ran = subprocess.run(build, capture_output=True, text=True, timeout=10 * SECONDS, check=False)
            if ran.returncode or ran.stderr:
                return [(f"{self.name}: it is built", ran.stdout + ran.stderr)]
        can = self.one(lambda client: client.can)
        mine = [it for it in TRIES if set(it[1]) <= set(can)]
        lacking = sorted({word for _, needs, _ in TRIES for word in needs} - set(can))
        if lacking:
            print(f"{self.name}: {len(TRIES) - len(mine)} tries left out, for want of {' '.join(lacking)}")

        def tried(it: Try) -> tuple[str, str | None]:
            try:
                self.one(it[2])
                return it[0], None
            except Exception as error:  # whatever a client does wrong is told, and the others are tried
                return it[0], f"{type(error).__name__}: {str(error)[:600]}"

        if os.getuid() != 0 or not lacks("setpriv"):
            mine.append(("a socket that one may not open", ("within",), lambda client: barred(self.words)))
        with concurrent.futures.ThreadPoolExecutor(LANES) as lanes:
            # (those that wait for a time first)
            found = list(lanes.map(tried, sorted(mine, key=lambda it: "within" not in it[1])))
        return [(f"{self.name}: {title}", fault) for title, fault in found]


def clients(room: pathlib.Path) -> list[Crew]:
    """The clients of the repository, as the tools are there to run them."""
    build: list[str | pathlib.Path]
    jar: list[str | pathlib.Path]
    drive = ["env", f"PYTHONPATH={TOP / 'clients' / 'python'}", sys.executable, DRIVERS / "drive.py"]
    found = [Crew("Python", drive), Crew("asyncio", [*drive, "aio"])]
    if not lacks("node"):
        found.append(Crew("Node", ["node", DRIVERS / "drive.mjs"]))
    if not lacks("javac"):
        # (a machine that starts at once, and takes little of the others)
        fast = ["-XX:TieredStopAtLevel=1", "-XX:+UseSerialGC"]
        words = [*(f"-J{it}" for it in fast), "-Xlint:all", "-Werror"]
        jar = [TOP / "clients" / "java" / "make_jar", room, *words]
        build = ["javac", *words, "-cp", room / "pathclient.jar", "-d", room, DRIVERS / "Drive.java"]
        # (what takes longest comes first)
        found.insert(0, Crew("Java", ["java", *fast, "-cp", f"{room}:{room / 'pathclient.jar'}", "Drive"], jar, build))
    if not lacks("cc"):
        build = ["cc", "-Wall", "-Wextra", "-Werror", "-o", room / "client", TOP / "examples" / "clients" / "client.c"]
        found.append(Crew("C", [sys.executable, DRIVERS / "drive_c.py", room / "client"], build))
    return found


# How often the server is killed while clients add 1, and how often each does at least. A start may take long on a machine
# that has much else to do.
KILLS, ADDS, PATIENCE = 4, 30, 60


class Live(crowd.Crew):
    """Clients that add one to a meter, and how often each was answered, and was not."""

    def __init__(self, place: str) -> None:
        super().__init__()
        self.place = place
        self.sure: collections.Counter[str] = collections.Counter()
        self.unsure: collections.Counter[str] = collections.Counter()
        self.had: set[str] = set()

    def adds(self, crew: Crew, client: Client) -> None:
        named = "name" in client.can
        while client.say(f"open {self.place} meter {500 * PATIENCE} {crew.name.lower() if named else '-'}") == "no server":
            time.sleep(0.01)
        # (the first call of a session is one that may be done twice)
        while not client.say("call 0 total", PATIENCE).startswith("done "):
            time.sleep(0.01)
        turn = 0
        while turn < ADDS or not self.stops:
            ahead = ["add 1"] * 5 if turn % 3 == 0 and "ahead" in client.can else []
            for it in client.ahead(*ahead, seconds=PATIENCE) if ahead else [client.say("call 0 add 1", PATIENCE)]:
                self.note(crew.name, it, named)
            turn += 1
        client.close()

    def note(self, name: str, it: str, named: bool) -> None:
        if it.startswith("done ") and it not in self.had:
            self.had.add(it)
            self.sure[name] += 1
        elif it == "lost" and not named:
            self.unsure[name] += 1
        elif it == "no server" and not named:
            time.sleep(0.01)
        else:
            raise Wrong(f"{name}: {it!r}")


def live(crews: Sequence[Crew], room: pathlib.Path) -> None:
    """All clients at once over `pathserve keep` at a socket, which is killed meanwhile: nothing that was answered is lost,
    and under a name no call is done twice."""
    server = kept.Server(room, METER, at_path=True).start()
    all_clients = Live(server.place)
    for crew in crews:
        all_clients.run(lambda crew: crew.one(lambda client: all_clients.adds(crew, client)), crew, name=crew.name)
    try:
        all_clients.kill(server, KILLS, random.Random(), 0.3, 0.7)
        all_clients.stops = True
        all_clients.join(3 * PATIENCE)
        total = int(server.replies("meter", "total")[0].split(" ")[1])
        sure, unsure = all_clients.sure, all_clients.unsure
        holds(sure.total() <= total <= sure.total() + unsure.total(), f"{sure.total()} were answered, {unsure.total()} lost, and {total} done")
        server.ends("meter")
        counts = ", ".join(f"{name} {count}" for name, count in sorted(sure.items()))
        print(f"over {KILLS} kills: {counts} calls, {unsure.total()} of C lost")
    finally:
        with contextlib.suppress(OSError):
            server.kill()


def main() -> int:
    words = sys.argv[1:]
    is_own = bool(words) and words[0] != "--program"
    if words[:1] == ["--help"]:
        print(__doc__)
        return 0
    if not is_own:
        if given_words():
            print(__doc__, file=sys.stderr)
            return 2
    with new_folder("client-") as room:
        if is_own and not shutil.which(words[0]):
            print(f"not run: {words[0]} (CMD is one file that can be run)")
            return 2
        crews = [Crew(pathlib.Path(words[0]).name, words)] if is_own else clients(room)
        try:
            with concurrent.futures.ThreadPoolExecutor(len(crews)) as pool:
                found = [it for crew in pool.map(Crew.tries, crews) for it in crew]
            if not is_own:
                try:
                    live(crews, room)
                    found.append(("live", None))
                except Exception as error:
                    found.append((live.__doc__ or "", f"{type(error).__name__}: {error}"))
        finally:
            for it in crews:
                it.end()
    wrong = [it for it in found if it[1]]
    for title, fault in wrong:
        print(f"{title}: {fault}")
    print(f"try_client: {len(found) - len(wrong)} passed, {len(wrong)} failed")
    return 1 if wrong or not found else 0


load_tests = whole(main)
