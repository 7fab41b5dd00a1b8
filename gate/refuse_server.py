"""Refuses each growth of memory of the built server in turn, while clients do calls.

usage: gate/refuse_server [--program FILE] [--jobs N] [FROM [TO]]

In each run one growth (malloc, realloc) is refused: the first, the second and so on, or those from FROM up to TO. There are three plays: one
client that waits for each of its answers, two of which one waits for the other, and a client with a name that comes back and asks again for
each of its calls. Each run has to end by itself with status 0, 1 or
4, with `out of memory` on standard error where it is 4, and with no other text there. Where a trace was written it is legal, and has each
call whose end was told, with that reply. Where clients could come the trace is there, and the saved value is the one to which it leads,
also where memory was refused; with status 0 no value file is left. A session that ends before its client has status 4. What the one client was told has to be a front of what it is told where nothing is refused, but for `no Memory` and
`failed N memory`, which change nothing. N runs go side by side (the processors).

 Where there is no `cc` nothing is run.
"""
import argparse
import concurrent.futures
import os
import pathlib
import re
import socket
import tempfile
import time
from collections.abc import Sequence
from typing import Any, Union

from gate.clients import Connection, Wrong
from gate.served import Server, ended_calls, traced_wrongly
from gate.tried import TOP, given_words, lacks, preload, program, whole

LINES = ("cancel 1", "open cell", "call put 7", "call get", "dance", "call bump 5", "cancel 1", "call get", "call put 1 2", "quit")
CALLS = [it.removeprefix("call ") for it in LINES if it.startswith("call ")]
# How long a run may last, how long an answer is waited for that may not come, in seconds, and a number of a growth that none has.
LASTS, SHORT, NONE = 10, 0.1, 1 << 20
MOST_FAILED = 5
# What clients do, and what they are to be told.
Play = Union["type[One]", "type[Two]"]


class Ran:
    """A run of a play that has ended: its status, what it wrote, what its clients were told, and whether a growth was refused."""

    def __init__(self, library: pathlib.Path, folder: str, play: Play, number: int) -> None:
        self.name, self.is_whole = play.name, number == NONE
        self.folder = pathlib.Path(folder)
        self.lines: list[str] = []
        self.clients: list[Connection] = []
        self.objects = self.folder / "objects.pp"
        self.objects.write_text(play.source, encoding="ascii")
        self.end = time.monotonic() + LASTS
        (self.folder / "place").mkdir()
        note = self.folder / "note"
        env = {"LD_PRELOAD": str(library), "REFUSE_NOTE": str(note), "REFUSE_GROWTH": str(number)}
        server = Server("serve", self.objects, self.folder / "place", "--sessions", play.clients, env=env)
        server.begin()
        try:
            self.port, self.output = server.port, server.line()
            if self.output:
                self.clients = [it for _ in range(play.clients) if (it := self.connection())]
                play.talk(self, *self.clients)
            output, self.status, self.error = server.ended(max(self.end - time.monotonic(), 1))
            self.output += output
        finally:
            server.kill()
            for it in self.clients:
                it.close()
        self.was_refused = note.exists()

    def connection(self) -> Connection | None:
        """A connection, or none where the server is gone."""
        try:
            client = Connection(self.port, LASTS)
        except ConnectionError:
            return None
        client.end = self.end
        return client

    def faults(self, play: Play) -> list[str]:
        """What is wrong with it."""
        said = []
        if self.status not in (0, 1, 4) or self.error != ("out of memory\n" if self.status == 4 else ""):
            said.append(f"status {self.status}, {self.output!r}, {self.error[-300:]!r}")
        said += [wrong for it in self.clients for wrong in it.told.wrong]
        place = self.folder / "place"
        trace = place / f"{self.name}.trace"
        if trace.exists():
            text = trace.read_text(encoding="ascii")
            said += traced_wrongly(self.objects, place, self.name, [it.told for it in self.clients], len(ended_calls(text)))
            said += saved_wrongly(place / f"{self.name}.v.part", text, play)
            said += [f"{it.name} is left" for it in place.glob("*.val") if self.status == 0]
        elif self.output or self.status == 0:
            said.append("clients could come, and there is no trace")
        if self.output and play.is_cut_off(self.lines) and self.status != 4:
            said.append(f"a session ended before its client, and status {self.status}")
        return said + play.answered_wrongly(self.lines)


def say(client: Connection, *lines: str) -> bool:
    """Sends lines. It answers whether the connection stood."""
    try:
        client.send("".join(f"{it}\n" for it in lines).encode(), 0)
        return True
    except OSError:
        return False


def hear(client: Connection) -> str | None:
    """The next line that is not `accepted N`, or none where no more comes."""
    try:
        while (line := client.line()) and line.startswith(b"accepted "):
            pass
        return line.decode("ascii").rstrip("\n") if line else None
    except OSError:
        return None


def hear_on(client: Connection, seconds: float) -> None:
    """Hears so long, or until no more comes."""
    last, client.end = client.end, min(client.end, time.monotonic() + seconds)
    try:
        while hear(client):
            pass
    except Wrong:
        pass
    client.end = last


def hear_until(client: Connection, ends: dict[int, str]) -> None:
    """Hears until the client was told these ends of its calls, or no more comes."""
    while client.told.ends != ends and hear(client):
        pass


def send_no_more(client: Connection) -> None:
    try:
        client.it.shutdown(socket.SHUT_WR)
    except OSError:
        pass


class One:
    """One client, which waits for each of its answers. The part has two pages, and a call that changes it writes both."""

    name, clients = "cell", 1
    source = """object cell;
  path 1:([get], put, bump) end;
  var v : array [300] of integer;
  entry function get : integer; begin get := v[299] end;
  entry procedure put(x : integer); begin v[0] := x; v[299] := x end;
  entry procedure bump(x : integer); begin v[0] := v[0] + x; v[299] := v[299] + x end;
end;
"""
    # What each client is told where nothing is refused.
    ends = [{1: "done", 2: "done 7", 3: "done", 4: "done 12"}]

    @staticmethod
    def talk(run: Ran, client: Connection | None = None) -> None:
        for line in LINES if client else ():
            assert client is not None
            if not say(client, line) or not (answer := hear(client)):
                return
            run.lines.append(answer)

    @staticmethod
    def bytes(value: int) -> str:
        """What is saved of it, in hexadecimal digits."""
        return f"0201012c{value:08x}{298 * '00000000'}{value:08x}"

    @staticmethod
    def value(value: int, call: str) -> int:
        """The value of the cell after a call that was done."""
        name, _, number = call.partition(" ")
        return {"put": int(number or 0), "bump": value + int(number or 0), "get": value}[name]

    @staticmethod
    def is_cut_off(lines: list[str]) -> bool:
        """Whether the client was not told all."""
        return lines[-1:] != ["bye"]

    @classmethod
    def answered_wrongly(cls, lines: list[str]) -> list[str]:
        ends = [it for it in lines if it.startswith(("done ", "failed ", "refused ", "no Memory", "no BadArgs"))]
        wanted: list[str] = []
        value = 0
        for end, call in zip(ends, CALLS):
            if end == "no Memory" or re.fullmatch(r"failed \d+ memory", end):
                wanted.append(end)
            elif call == "put 1 2":
                wanted.append("no BadArgs")
            else:
                value = cls.value(value, call)
                wanted.append(f"done {end.split()[1]}" + (f" {value}" if call == "get" else ""))
        return [] if ends == wanted else [f"the client was told {ends}, and {wanted} were expected"]


class Two:
    """Two clients, of which one waits for the other. Where no thread is there for it, a client is heard only when the other one has
    ended, so neither is waited for."""

    name, clients = "two", 2
    source = (TOP / "examples" / "objects" / "two.pp").read_text(encoding="ascii")
    ends = [{1: "done", 3: "done"}, {2: "done"}]

    @classmethod
    def talk(cls, run: Ran, waits: Connection | None = None, other: Connection | None = None) -> None:
        said: tuple[tuple[Any, ...], ...] = (waits, "open two", "call b", "cancel 9", "call a"), (other, "open two", "call a", "quit")
        for client, *lines in said:
            if client and say(client, *lines):
                hear_on(client, SHORT)
        # A client that sends no more takes back a call that waits.
        if run.is_whole:
            for client, ends in zip((waits, other), cls.ends):
                hear_until(client, ends)
        for client in filter(None, (waits, other)):
            send_no_more(client)
        for client in filter(None, (waits, other)):
            while hear(client):
                pass

    @staticmethod
    def bytes(value: int) -> str:
        return f"02010001{value:08x}"

    @staticmethod
    def value(value: int, _: object) -> int:
        """Both operations add one."""
        return value + 1

    @staticmethod
    def is_cut_off(_: object) -> bool:
        return False

    @staticmethod
    def answered_wrongly(_: object) -> list[str]:
        return []


class Again(One):
    """A client with a name, which calls under keys; it comes back when its connection has ended, and asks again for each call."""

    clients = 2
    ends = 2 * [{1: "done", 2: "done", 3: "done 12"}]
    calls = ("put 7", "bump 5", "get")

    @classmethod
    def talk(cls, run: Ran, *clients: Any) -> None:
        known: dict[int, str] = {}
        for client in clients:
            run.lines += cls.visited(client, known)
            send_no_more(client)
            while hear(client):
                pass

    @classmethod
    def visited(cls, client: Connection, known: dict[int, str]) -> list[str]:
        """What is wrong with what a visit is told, and at last its `bye`. `known` has the last lines by keys."""
        opened = hear(client) if say(client, "open cell as ann") else None
        if not opened:
            return []
        if opened not in [f"opened cell next {len(known) + it}" for it in (1, 2)]:
            return [f"it was told {opened!r}, where {known} was known"]
        key = int(opened.rpartition(" ")[2])
        said: list[str] = []
        for at, call in enumerate(cls.calls, 1):
            answer = hear(client) if say(client, f"call #{at} {call}") else None
            if answer == "no Memory":
                # It has taken no key.
                answer = hear(client) if say(client, f"call #{at} {call}") else None
            if not answer:
                return said
            last = answer.removeprefix("repeat ")
            if (last != answer) != (at < key) or known.setdefault(at, last) != last:
                said.append(f"call #{at} was answered {answer!r}, where {key} was the next key and {known} known")
        for line, wanted in (("call #2 get", "no KeyReused"), ("call #9 get", "no BadKey"), ("call #0 put 7", "no BadKey"), ("quit", "bye")):
            answer = hear(client) if say(client, line) else None
            if answer != wanted:
                return [*said, f"{line!r} was answered {answer!r}"] if answer else said
        return [*said, "bye"]

    @staticmethod
    def is_cut_off(lines: list[str]) -> bool:
        return lines.count("bye") != 2

    @classmethod
    def answered_wrongly(cls, lines: list[str]) -> list[str]:
        return [it for it in lines if it != "bye"]


def saved_wrongly(part: pathlib.Path, trace: str, play: Play) -> list[str]:
    """What is wrong with the saved value: it is the one to which the trace leads."""
    if not part.exists():
        return [f"no {part.name}"]
    value, calls = 0, dict(re.findall(r"(?m)^start (\d+) s\d+ (.*)$", trace))
    for number in re.findall(r"(?m)^end (\d+) done", trace):
        value = play.value(value, calls[number])
    saved = part.read_bytes().hex()
    return [] if saved == play.bytes(value) else [f"{saved} was saved, and the trace leads to {value}"]


def tried(library: pathlib.Path, play: Play, number: int) -> tuple[list[str], bool]:
    """What is wrong with a run, and whether a growth was refused in it."""
    with tempfile.TemporaryDirectory(prefix="refuse-") as folder:
        try:
            it = Ran(library, folder, play, number)
        except Wrong as error:
            return [f"it hangs: {error}"], True
        said = it.faults(play)
        if number == NONE and [client.told.ends for client in it.clients] != play.ends:
            said.append(f"the clients were told {[client.told.ends for client in it.clients]}")
        return said, it.was_refused


def each_growth(pool: concurrent.futures.Executor, ahead: int, library: pathlib.Path, play: Play, given: Sequence[int]) -> tuple[int, int]:
    """Refuses each growth of a play in turn, or those that are given, and counts the runs that passed and failed."""
    number = given[0] if given else 1
    end = given[-1] if given else NONE
    passed, failed = 0, 0
    for found, _ in [tried(library, play, NONE)]:
        passed, failed = (0, 1) if found else (1, 0)
        print("".join(f"{play.__name__}, nothing refused: {it}\n" for it in found), end="")
    more = True
    while more and number <= end and failed < MOST_FAILED:
        numbers = range(number, min(number + ahead, end + 1))
        for at, (found, was_refused) in zip(numbers, list(pool.map(lambda it: tried(library, play, it), numbers))):
            passed, failed = (passed, failed + 1) if found else (passed + 1, failed)
            print("".join(f"{play.__name__}, growth {at}: {it}\n" for it in found), end="")
            more = was_refused
        number += ahead
    print(f"{play.__name__}: {passed} runs passed, {failed} failed", flush=True)
    return passed, failed


def main() -> int:
    words = argparse.ArgumentParser(prog="refuse_server", usage="gate/refuse_server [--program FILE] [--jobs N] [FROM [TO]]")
    words.add_argument("--jobs", type=int, default=len(os.sched_getaffinity(0)))
    words.add_argument("numbers", nargs="*", type=int)
    given = words.parse_args(given_words())
    if lacks("cc"):
        return 0
    # Once, before the threads ask.
    program()
    with tempfile.TemporaryDirectory() as folder, concurrent.futures.ThreadPoolExecutor(given.jobs) as pool:
        library = preload("refuse.c", folder)
        plays: tuple[Play, ...] = (One, Two, Again)
        counts = [each_growth(pool, 8 * given.jobs, library, play, given.numbers) for play in plays]
    passed, failed = (sum(it[at] for it in counts) for at in (0, 1))
    print(f"refuse_server: {passed} passed, {failed} failed")
    return 1 if failed or not passed else 0


load_tests = whole(main)
