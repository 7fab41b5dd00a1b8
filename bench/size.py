"""Measures what a call takes by how many entries its part has, and how long they are.

usage: bench/size [--program FILE] [--only WORD] [--ways WORD,..] [--bytes N,..] [--sizes N,..] [--calls N] [--rounds N] [--instructions]

Of a queue of texts, a table of integers, a table of texts and an array of texts, with 1, 10, 100 and 1,000 entries of 10 and of
200 bytes (the keys of a table of integers are as long; other keys have 8): microseconds of a processor a call for each form of
body, in `run`, `serve`, `keep` and `audit`, and beside it those of Redis for the like call, of which it keeps nothing on a
disk. A part is filled, and then N calls (1,000; in an audit 20 times as many) are made. Of `run` and `audit` the process is
taken, less that of a script or a trace without the N calls; of a server its threads, from the first of the N calls to the
answer to the last one, sent in lots. Each answer is looked at. All of a way is measured in rounds, three where it is not given, so
that the runs of one figure lie apart, and the least counts. The last column is the figure of the most entries over that of the
fewest, and behind it stands the same of the steps of a call, as `run` tells them.

--ways has those of run, serve, keep, audit and redis that are wanted. With --instructions it is `run` alone, and what is
counted is instructions of the program, by valgrind's callgrind: on a busy machine that tells more. The program is the one that
./pathserve runs, or FILE; Redis is measured where `redis-server` is installed. The folders are made where TMPDIR says. It is no
part of the gate.
"""
import argparse
import os
import pathlib
import re
import shutil
import socket
import subprocess
import tempfile
from collections.abc import Callable, Iterable, Iterator, Sequence
from typing import TypeVar

from bench.peer import Redis
from gate.served import Server
from gate.tried import there
from tools.ready import given_words, program

OBJECTS = """object line;
  path 1:(put, drop, pass, lose, oldest, size) end;
  var items : queue of text;
  entry procedure put(x : text); begin append(items, x) end;
  entry procedure drop; begin take(items) end;
  entry procedure pass(x : text); begin append(items, x); take(items) end;
  entry procedure lose(x : text); begin append(items, x); take(items); refuse('lost') end;
  entry function oldest : text; begin oldest := first(items) end;
  entry function size : integer; begin size := count(items) end;
end;
object tally;
  path 1:(look, known, put, cut, lose, size) end;
  var items : table of integer;
  entry function look(k : text) : integer; begin look := lookup(items, k) end;
  entry function known(k : text) : integer; begin if has(items, k) then known := 1 else known := 0 end;
  entry procedure put(k : text; x : integer); begin store(items, k, x) end;
  entry procedure cut(k : text); begin erase(items, k) end;
  entry procedure lose(k : text; x : integer); begin store(items, k, x); refuse('lost') end;
  entry function size : integer; begin size := count(items) end;
end;
object book;
  path 1:(look, known, put, cut, lose, size) end;
  var items : table of text;
  entry function look(k : text) : text; begin look := lookup(items, k) end;
  entry function known(k : text) : integer; begin if has(items, k) then known := 1 else known := 0 end;
  entry procedure put(k, x : text); begin store(items, k, x) end;
  entry procedure cut(k : text); begin erase(items, k) end;
  entry procedure lose(k, x : text); begin store(items, k, x); refuse('lost') end;
  entry function size : integer; begin size := count(items) end;
end;
object shelf;
  path 1:(put, lose, look) end;
  var items : array [SIZE] of text;
  entry procedure put(i : integer; x : text); begin items[i] := x end;
  entry procedure lose(i : integer; x : text); begin items[i] := x; refuse('lost') end;
  entry function look(i : integer) : text; begin look := items[i] end;
end;
"""
SIZES = (1, 10, 100, 1_000)
BYTES = (10, 200)
WAYS = ("run", "serve", "keep", "audit", "redis")
ROUNDS = 3
LOT = 16
# A call and its answer, a request of Redis and its answer, and what calls take and what is taken without them.
Call = tuple[str, str]
Request = tuple[bytes, bytes]
Taken = tuple[float, ...]
# Of each form of body what calls take, and the steps of the last ones.
Found = dict[str, tuple[Taken | None, list[int] | None]]
Self = TypeVar("Self", bound="Lots")
ENDED = re.compile(rb"(?:done|refused) \d+ ?(.*)")


def text(number: int, length: int) -> str:
    return f"{number:0{length}}"


class Row:
    """A form of body on an object: its title, call N (from 0) with its answer, the calls that fill the part, and the like request of
    Redis with its answer, and those that fill it, where there is one."""

    def __init__(self, name: str, title: str, call: Callable[[int], Call], fill: list[str],
                 request: Callable[[int], Request] | None = None, filling: list[Request] | None = None) -> None:
        self.name, self.title, self.call, self.fill, self.request, self.filling = name, title, call, fill, request, filling


def asked(*words: object) -> bytes:
    """A request of Redis."""
    texts = [str(it) for it in words]
    return f"*{len(texts)}\r\n".encode() + b"".join(f"${len(it)}\r\n{it}\r\n".encode() for it in texts)


def told(value: int | str) -> bytes:
    """What Redis answers: a number or a text."""
    return f":{value}\r\n".encode() if isinstance(value, int) else f"${len(value)}\r\n{value}\r\n".encode()


def queue_rows(size: int, length: int) -> Iterator[Row]:
    new, old = lambda n: text(size + n, length), lambda n: text(n, length)
    fill = [f"put '{old(it)}'" for it in range(size)]
    filling = [(asked("RPUSH", "line", old(it)), told(it + 1)) for it in range(size)]

    def turns(n: int) -> tuple[bytes, bytes]:
        if n % 2 == 0:
            return asked("RPUSH", "line", new(n)), told(size + 1)
        place = n // 2
        return asked("LPOP", "line"), told(text(place if place < size else size + 2 * (place - size), length))

    for title, call, request in (
        ("append, take, in turn", lambda n: (f"put '{new(n)}'", "") if n % 2 == 0 else ("drop", ""), turns),
        ("append and take in one body", lambda n: (f"pass '{new(n)}'", ""), None),
        ("the same, refused", lambda n: (f"lose '{new(n)}'", "lost"), None),
        ("first", lambda n: ("oldest", f"'{old(0)}'"), lambda n: (asked("LINDEX", "line", 0), told(old(0)))),
        ("count", lambda n: ("size", f"{size}"), lambda n: (asked("LLEN", "line"), told(size))),
    ):
        yield Row("line", title, call, fill, request, filling)


def table_rows(name: str, size: int, length: int) -> Iterator[Row]:
    wide = length if name == "tally" else 8

    def key(n: int) -> str:
        return text(n % size, wide)

    def value(n: int) -> str:
        return str(n + 1) if name == "tally" else text(n, length)

    def word(n: int) -> str:
        return value(n) if name == "tally" else f"'{value(n)}'"

    new = text(size // 2, wide) + "x"
    fill = [f"put '{key(it)}' {word(it)}" for it in range(size)]
    filling = [(asked("HSET", name, key(it), value(it)), told(1)) for it in range(size)]

    def turns(n: int) -> tuple[bytes, bytes]:
        return (asked("HSET", name, new, value(n)), told(1)) if n % 2 == 0 else (asked("HDEL", name, new), told(1))

    for title, call, request in (
        ("lookup", lambda n: (f"look '{key(n)}'", word(n % size)), lambda n: (asked("HGET", name, key(n)), told(value(n % size)))),
        ("has", lambda n: (f"known '{key(n)}'", "1"), lambda n: (asked("HEXISTS", name, key(n)), told(1))),
        ("has, no such key", lambda n: (f"known '{new}'", "0"), lambda n: (asked("HEXISTS", name, new), told(0))),
        ("count", lambda n: ("size", f"{size}"), lambda n: (asked("HLEN", name), told(size))),
        ("store, the key there", lambda n: (f"put '{key(n)}' {word(size + n)}", ""), lambda n: (asked("HSET", name, key(n), value(size + n)), told(0))),
        ("store a new key, erase it, in turn", lambda n: (f"put '{new}' {word(n)}", "") if n % 2 == 0 else (f"cut '{new}'", ""), turns),
        ("store, refused", lambda n: (f"lose '{key(n)}' {word(size + n)}", "lost"), None),
    ):
        yield Row(name, title, call, fill, request, filling)


def array_rows(size: int, length: int) -> Iterator[Row]:
    old, new = lambda n: text(n % size, length), lambda n: text(size + n, length)
    fill = [f"put {it} '{old(it)}'" for it in range(size)]
    filling = [(asked("RPUSH", "shelf", old(it)), told(it + 1)) for it in range(size)]
    for title, call, request in (
        ("v[i]", lambda n: (f"look {n % size}", f"'{old(n)}'"), lambda n: (asked("LINDEX", "shelf", n % size), told(old(n)))),
        ("v[i] := x", lambda n: (f"put {n % size} '{new(n)}'", ""), lambda n: (asked("LSET", "shelf", n % size, new(n)), b"+OK\r\n")),
        ("v[i] := x, refused", lambda n: (f"lose {n % size} '{new(n)}'", "lost"), None),
    ):
        yield Row("shelf", title, call, fill, request, filling)


def rows(size: int, length: int) -> list[Row]:
    return [*queue_rows(size, length), *table_rows("tally", size, length), *table_rows("book", size, length), *array_rows(size, length)]


class Running:
    """The program on scripts."""

    def __init__(self, folder: pathlib.Path, options: argparse.Namespace) -> None:
        self.folder, self.options = folder, options
        self.steps: dict[str, list[int]] = {}
        self.filling: dict[str, float] = {}

    def used(self, row: Row, count: int) -> float:
        """What a script of so many calls on a part that was filled takes: seconds of a processor, or instructions."""
        script, counts, answers, notes = (self.folder / it for it in ("script", "counts", "answers", "notes"))
        calls = row.fill + [row.call(it)[0] for it in range(count)]
        with open(script, "w", encoding="ascii") as out:
            out.write(f"object {row.name}\n")
            for number, call in enumerate(calls, 1):
                out.write(f"call s1 {call}\nsteps {number}\nfinish {number}\n")
        tool = ["valgrind", "--tool=callgrind", f"--callgrind-out-file={counts}"] if self.options.instructions else []
        with open(answers, "wb") as out, open(notes, "wb") as err:
            ran = subprocess.Popen([*tool, program(), "run", self.folder / "objects", script], stdout=out, stderr=err)
            _, _, usage = os.wait4(ran.pid, 0)
        said = answers.read_bytes().split(b"\n")
        ends = [end[1].decode() for it in said if (end := ENDED.fullmatch(it))]
        if ends[len(row.fill) :] != [row.call(it)[1] for it in range(count)]:
            raise SystemExit(f"another answer: {said[-3:]!r}")
        if count:
            self.steps[row.title] = [int(it.split()[2]) for it in said if it.startswith(b"steps ")][-2:]
        return int(there(re.search(rb"Collected : (\d+)", notes.read_bytes()))[1]) if tool else usage.ru_utime + usage.ru_stime

    def measure(self, row: Row, calls: int) -> Taken:
        # (a part is filled alike for all forms of body on its object)
        if row.name not in self.filling:
            self.filling[row.name] = self.used(row, 0)
        unit = 1 if self.options.instructions else 1e6
        return self.used(row, calls) / calls * unit, self.filling[row.name] / calls * unit


def spelled(words: Iterable[str]) -> bytes:
    """The bytes of texts in a value, each behind its length."""
    return b"".join(len(it).to_bytes(2, "big") + it.encode() for it in words)


def opening(name: str, size: int, length: int) -> bytes:
    """The bytes of a part that is filled: its kind, how many entries it has, and these."""

    def old(n: int) -> str:
        return text(n, length)

    kind, entry = {
        "line": (4, lambda n: spelled([old(n)])),
        "tally": (5, lambda n: spelled([old(n)]) + (n + 1).to_bytes(4, "big")),
        "book": (6, lambda n: spelled([text(n, 8), old(n)])),
        "shelf": (2, lambda n: spelled([old(n)])),
    }[name]
    return bytes([2, kind]) + size.to_bytes(2, "big") + b"".join(map(entry, range(size)))


class Auditing:
    """The program on traces."""

    def __init__(self, folder: pathlib.Path, size: int, length: int) -> None:
        self.folder, self.size, self.length = folder, size, length

    def used(self, row: Row, count: int) -> float:
        """The processor time of an audit of so many calls."""
        trace, end = self.folder / "trace", "refused" if row.title.endswith("refused") else "done"
        with open(trace, "w", encoding="ascii") as out:
            out.write(f"object {row.name}\npart items {opening(row.name, self.size, self.length).hex()}\n")
            for number in range(count):
                call, answer = row.call(number)
                out.write(f"start {number + 1} s1 {call}\nend {number + 1} {f'{end} {answer}'.strip()}\n")
        process = subprocess.Popen([program(), "audit", self.folder / "objects", trace], stdout=subprocess.PIPE)
        said = there(process.stdout).read()
        _, _, usage = os.wait4(process.pid, 0)
        if said != f"legal {count}\n".encode():
            raise SystemExit(f"another answer: {said!r}")
        return usage.ru_utime + usage.ru_stime

    def measure(self, row: Row, calls: int) -> Taken:
        # (a call of an audit takes little beside the start of a process)
        calls *= 20
        return tuple(self.used(row, it) / calls * 1e6 for it in (calls, 0))


class Lots:
    """A connection to a server, which sends requests in lots."""

    def __init__(self, port: int) -> None:
        self.wire, self.held = socket.create_connection(("127.0.0.1", port)), b""

    def __enter__(self: Self) -> Self:
        return self

    def __exit__(self, *_: object) -> None:
        self.wire.close()

    def line(self) -> bytes:
        while b"\n" not in self.held:
            more = self.wire.recv(1 << 16)
            if not more:
                raise SystemExit("the server has left")
            self.held += more
        line, _, self.held = self.held.partition(b"\n")
        return line

    def call(self, calls: Sequence[str]) -> list[str]:
        """Makes calls, and answers how each ended."""
        found: list[str] = []
        for at in range(0, len(calls), LOT):
            lot = calls[at : at + LOT]
            self.wire.sendall(b"".join(f"call {it}\n".encode() for it in lot))
            while len(found) < at + len(lot):
                if end := ENDED.fullmatch(self.line()):
                    found.append(end[1].decode())
        return found

    def ask(self, pairs: Sequence[Request]) -> None:
        """Sends requests of Redis, each of which has this answer."""
        for at in range(0, len(pairs), LOT):
            lot = pairs[at : at + LOT]
            self.wire.sendall(b"".join(it for it, _ in lot))
            wanted, said = b"".join(it for _, it in lot), b""
            while len(said) < len(wanted):
                said += self.wire.recv(1 << 16)
            if said != wanted:
                raise SystemExit(f"another answer: {said!r}")


class Serving:
    """The program as a server of one session, by the way `serve` or `keep`."""

    def __init__(self, folder: pathlib.Path, way: str) -> None:
        self.folder, self.way = folder, way

    def measure(self, row: Row, calls: int) -> Taken:
        with tempfile.TemporaryDirectory(dir=self.folder) as place:
            more = ["--sync", "1000"] if self.way == "keep" else ["--sessions", "1"]
            notes = self.folder / "notes"
            with Server(self.way, self.folder / "objects", pathlib.Path(place), *more, errors=notes) as server, Lots(server.port) as it:
                it.wire.sendall(f"open {row.name}\n".encode())
                it.line()
                it.call(row.fill)
                used = server.microseconds()
                if it.call([row.call(n)[0] for n in range(calls)]) != [row.call(n)[1] for n in range(calls)]:
                    raise SystemExit(f"another answer to {row.title}")
                return (server.microseconds() - used) / calls, 0


class Beside:
    """Redis, which keeps nothing."""

    def __init__(self, folder: pathlib.Path) -> None:
        self.folder = folder

    def measure(self, row: Row, calls: int) -> Taken | None:
        if not row.request:
            return None
        with Redis(self.folder, "--appendonly", "no") as server, Lots(server.port) as it:
            it.ask(there(row.filling))
            used = server.microseconds()
            it.ask([row.request(n) for n in range(calls)])
            return (server.microseconds() - used) / calls, 0


def once(way: str, size: int, length: int, options: argparse.Namespace) -> Found:
    """Of each form of body what its calls take by this way, and what of that is taken without them, a call; and the steps of its
    last calls where it is `run`."""
    with tempfile.TemporaryDirectory(prefix="size-") as made:
        folder = pathlib.Path(made)
        (folder / "objects").write_text(OBJECTS.replace("SIZE", str(size)), encoding="ascii")
        by: Running | Auditing | Beside | Serving
        if way == "run":
            by = Running(folder, options)
        elif way == "audit":
            by = Auditing(folder, size, length)
        else:
            by = Beside(folder) if way == "redis" else Serving(folder, way)
        found: Found = {}
        for row in rows(size, length):
            if options.only in f"{row.name}: {row.title}":
                found[f"{row.name}: {row.title}"] = by.measure(row, options.calls), getattr(by, "steps", {}).get(row.title)
        return found


def measured(way: str, length: int, options: argparse.Namespace) -> list[dict[str, tuple[float, list[int] | None]]]:
    """Of each size, and of each form of body, its figure by this way, the least of all rounds, and its steps."""
    rounds = 1 if options.instructions else options.rounds
    found = [[once(way, it, length, options) for it in options.sizes] for _ in range(rounds)]
    least: list[dict[str, tuple[float, list[int] | None]]] = []
    for of_size in zip(*found):
        least.append({})
        for title, (figures, steps) in of_size[0].items():
            if figures is not None:
                best = [min(it[title][0][at] for it in of_size) for at in (0, 1)]
                least[-1][title] = best[0] - best[1], steps
    return least


def shown(figure: float) -> str:
    return f"{figure:,.1f}" if figure < 1_000 else f"{figure:,.0f}"


def numbers(words: str) -> tuple[int, ...]:
    """Numbers with commas between them."""
    return tuple(int(it) for it in words.split(","))


def main() -> None:
    words = given_words()
    parser = argparse.ArgumentParser(usage=__doc__.split("\n\n")[1].removeprefix("usage: "))
    parser.add_argument("--only", default="")
    parser.add_argument("--ways", default=",".join(WAYS))
    parser.add_argument("--bytes", type=numbers, default=BYTES)
    parser.add_argument("--sizes", type=numbers, default=SIZES)
    parser.add_argument("--calls", type=int, default=1_000)
    parser.add_argument("--rounds", type=int, default=ROUNDS)
    parser.add_argument("--instructions", action="store_true")
    options = parser.parse_args(words)
    ways = ["run"] if options.instructions else [it for it in options.ways.split(",") if it != "redis" or shutil.which("redis-server")]
    for length in options.bytes:
        for way in ways:
            print(f"{way}, entries of {length} bytes, {'instructions' if options.instructions else 'microseconds'} a call")
            found = measured(way, length, options)
            print("| Body | " + " | ".join(f"{it:,}" for it in options.sizes) + " | Ratio |\n" + "|---" * (2 + len(options.sizes)) + "|")
            for title in found[0]:
                row = [it[title][0] for it in found]
                steps = [sum(there(it[title][1])) for it in found] if way == "run" else []
                ratio = (f"{row[-1] / row[0]:.2f}" if row[0] > 0 else "") + (f" (steps {steps[-1] / steps[0]:.2f})" if steps else "")
                print(f"| {title} | " + " | ".join(shown(it) for it in row) + f" | {ratio} |", flush=True)
