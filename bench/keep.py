"""Measures a kept server beside Redis with the same promise.

usage: bench/keep [--program FILE] [--rounds N] [--seconds S] [--only WORD] [--calm]

Of each row both serve in turn, in so many rounds (5) of so many seconds (1), over the same client (`bench/lines.c`): a kept
`cell`, `put`, beside SET with `appendonly`, and a kept buffer, half `put` and half `get`, beside RPUSH and LPOP. It prints the
medians of calls a second, of the time in which half of the calls and 99 of 100 are answered, in microseconds, and of
the processor time of the server a call; and how much more calls the kept one answers, by the medians, with the least and the
most of a round. Then `get` beside `serve`; `get` beside 9,000 calls that wait at its object, and LLEN beside 9,000 BLPOPs,
each with and without those; how much memory an idle connection takes; how many calls 10,000 connections at once make; and how
many that come one after the other. Only rows are measured whose title has WORD. All of it runs at a raised priority where it may (`/proc/self/autogroup`), but not with --calm. The program is the one that ./pathserve
runs, or FILE. The folders are made where TMPDIR says, which is the disk that is measured; it needs `cc` and
`redis-server`. The load runs on the same machine. It is no part of the gate.
"""
import argparse
import contextlib
import os
import pathlib
import resource
import socket
import statistics
import subprocess
import tempfile
import time
from collections.abc import Callable, Iterator, Sequence

from bench import keys
from bench.peer import Redis
from gate.served import Server
from gate.tried import there
from tools.ready import program

BUFFER = """object buffer;
  path 1000:(put; get) end;
  path 1:(put, get) end;
  var items : queue of integer;
  entry procedure put(x : integer); begin append(items, x) end;
  entry function get : integer; begin get := first(items); take(items) end;
end;
"""
GATE = """object gate;
  path 1:(open; pass) end;
  path 1:(open, pass, [get]) end;
  var v : array [1] of integer;
  entry procedure open; begin v[0] := 1 end;
  entry procedure pass; begin v[0] := 0 end;
  entry function get : integer; begin get := v[0] end;
end;
"""
# Calls a second, the microseconds in which half and 99 of 100 are answered, and those of the server for a call.
Figures = tuple[float, int, int, float]
MANY, WAITING = 10_000, 9_000
PUT = ("open cell", "call put #", "SET v #")
GET = ("open cell", "call get", "GET v")
BOTH = ("open buffer", "call put #|call get", "RPUSH q #|LPOP q")
# Of each row its title, its promise, connections, calls ahead, and what is called.
ROWS = (
    *((f"put, always, {count}", "always", count, 1, PUT) for count in (16, 64, 1_000)),
    *((f"put, --sync 1000, {count}", "1000", count, 1, PUT) for count in (16, 64, 1_000)),
    ("put, always, 16, 16 ahead", "always", 16, 16, PUT),
    ("put, --sync 1000, 16, 16 ahead", "1000", 16, 16, PUT),
    ("buffer, always, 16", "always", 16, 1, BOTH),
    ("buffer, --sync 1000, 16", "1000", 16, 1, BOTH),
    (f"put, --sync 1000, {MANY:,} at once", "1000", MANY, 1, PUT),
    (f"put, always, {MANY:,} at once", "always", MANY, 1, PUT),
)


@contextlib.contextmanager
def folder() -> Iterator[pathlib.Path]:
    with tempfile.TemporaryDirectory(prefix="bench-keep-") as name:
        yield pathlib.Path(name)


@contextlib.contextmanager
def kept(binary: object, sync: str, most: int, way: str = "keep") -> Iterator[Server]:
    """A server of the objects that are measured."""
    with folder() as where:
        (where / "place").mkdir()
        (where / "objects").write_text(keys.CELL + BUFFER + GATE, encoding="ascii")
        more = ["--sync", sync, "--at-once", most] if way == "keep" else ["--sessions", most]
        with Server(way, where / "objects", where / "place", *more, by=[binary], errors=where / "said") as it:
            yield it


@contextlib.contextmanager
def redis(sync: str) -> Iterator[Redis]:
    with folder() as where:
        words = ["--appendonly", "yes", "--appendfsync", "always" if sync == "always" else "everysec"]
        with Redis(where, *words, "--maxclients", MANY + 1_000) as it:
            yield it


def load(options: argparse.Namespace, server: Server | Redis, connections: int, seconds: float, ahead: int, lines: int,
         request: str, first: str | None = None) -> Figures:
    """What a load on a server takes."""
    used = server.microseconds()
    words = [options.lines, server.port, connections, seconds, ahead, lines, request, *([first] if first else [])]
    ran = subprocess.run([str(it) for it in words], stdout=subprocess.PIPE, text=True)
    said = ran.stdout.split()
    if ran.returncode or not said or said[1] == "0":
        raise SystemExit("a call was not answered")
    return int(said[1]) / float(said[3]), int(said[5]), int(said[7]), (server.microseconds() - used) / int(said[1])


def figures(name: str, found: Sequence[Figures]) -> str:
    rate, half, late, used = (statistics.median(it[at] for it in found) for at in range(4))
    return f"{name} {rate:,.0f} calls/s, half in {half:,.0f}, 99 % in {late:,.0f}, processor {used:.2f}"


def say(title: str, names: tuple[str, str], found: Sequence[Sequence[Figures]]) -> None:
    """Prints a row: of each server its medians, and how much more calls the first one answers."""
    first, second = ([pair[at] for pair in found] for at in (0, 1))
    ratios = sorted(one[0] / two[0] for one, two in found)
    ratio = statistics.median(it[0] for it in first) / statistics.median(it[0] for it in second)
    figure = "; ".join(map(figures, names, (first, second)))
    print(f"{title}: {ratio:.2f} ({ratios[0]:.2f} to {ratios[-1]:.2f}); {figure}", flush=True)


def rounds(options: argparse.Namespace, title: str, names: tuple[str, str], one: Callable[[], Figures], two: Callable[[], Figures]) -> None:
    """Measures two servers in turn."""
    if options.only not in title:
        return
    found = []
    for turn in range(options.rounds):
        # (each is the first one as often as the other)
        pair = [(0, one), (1, two)][:: 1 if turn % 2 else -1]
        found.append([it for _, it in sorted((at, measure()) for at, measure in pair)])
    say(title, names, found)


def compare(options: argparse.Namespace, title: str, sync: str, connections: int, ahead: int, calls: tuple[str, str, str]) -> None:
    first, own, other = calls

    def one() -> Figures:
        with kept(options.program, sync, connections) as it:
            return load(options, it, connections, options.seconds, ahead, 2, own, first)

    def two() -> Figures:
        with redis(sync) as it:
            return load(options, it, connections, options.seconds, ahead, 0, other)

    rounds(options, title, ("kept", "Redis"), one, two)


def beside_serve(options: argparse.Namespace) -> None:
    first, own, _ = GET

    def measure(sync: str, way: str) -> Figures:
        with kept(options.program, sync, 16, way) as it:
            return load(options, it, 16, options.seconds, 1, 2, own, first)

    names = ("kept", "serve")
    rounds(options, "get, --sync 1000, 16", names, lambda: measure("1000", "keep"), lambda: measure("", "serve"))


@contextlib.contextmanager
def held(port: int, count: int, request: bytes, answer: bytes) -> Iterator[None]:
    """So many connections that each have sent a request, and were answered this: they wait meanwhile."""
    with contextlib.ExitStack() as stack:
        for _ in range(count):
            it = stack.enter_context(socket.create_connection(("127.0.0.1", port)))
            it.sendall(request)
            said = b""
            while answer not in said:
                said += it.recv(4096)
        yield


def beside_waiting(options: argparse.Namespace) -> None:
    def one(count: int) -> Figures:
        with kept(options.program, "1000", MANY) as it, held(it.port, count, b"open gate\ncall pass\n", b"accepted"):
            return load(options, it, 1, options.seconds, 50, 2, "call get", "open gate")

    def two(count: int) -> Figures:
        # (a request before it is answered, and the one that waits is not)
        with redis("1000") as it, held(it.port, count, b"PING\r\nBLPOP none 0\r\n", b"PONG"):
            return load(options, it, 1, options.seconds, 50, 0, "LLEN q")

    title, names = f"get, 50 ahead, {WAITING:,} wait", ("kept", "Redis")
    rounds(options, title, names, lambda: one(WAITING), lambda: two(WAITING))
    rounds(options, f"{title}, beside none", (f"{WAITING:,}", "none"), lambda: one(WAITING), lambda: one(0))
    rounds(options, f"LLEN, 50 ahead, {WAITING:,} wait, beside none", (f"{WAITING:,}", "none"), lambda: two(WAITING), lambda: two(0))


def in_a_row(options: argparse.Namespace) -> None:
    for sync in ("1000", "always"):

        def one() -> Figures:
            with kept(options.program, sync, 1_000) as it:
                return load(options, it, MANY, 1, 0, 2, PUT[1], PUT[0])

        def two() -> Figures:
            with redis(sync) as it:
                return load(options, it, MANY, 1, 0, 0, PUT[2])

        title = f"put, {'always' if sync == 'always' else '--sync 1000'}, {MANY:,} one after the other"
        rounds(options, title, ("kept", "Redis"), one, two)


def idle(options: argparse.Namespace) -> None:
    """The memory of a server over its idle connections, each with an object that is open, and one call made."""
    title = f"idle, {MANY:,}"
    if options.only not in title:
        return
    with kept(options.program, "1000", MANY) as it:
        words = [options.lines, it.port, MANY, 0, 0, 2, PUT[1], PUT[0]]
        with subprocess.Popen([str(word) for word in words], stdin=subprocess.PIPE, stdout=subprocess.PIPE, text=True) as ran:
            there(ran.stdout).readline()
            each = it.memory() / MANY
            used = it.microseconds()
            time.sleep(5)
            used = (it.microseconds() - used) / 5
            there(ran.stdin).close()
        print(f"{title}: {each:.2f} KiB each, with all that the server has; processor {used / 1e4:.2f} % while idle", flush=True)


def raise_priority() -> None:
    """All that is started from now on comes before other work of the machine, where this may be."""
    with contextlib.suppress(OSError):
        os.setsid()
    try:
        pathlib.Path("/proc/self/autogroup").write_text("-15")
    except OSError:
        print("at the priority of other work", flush=True)


def main() -> None:
    asks = argparse.ArgumentParser(description=__doc__, formatter_class=argparse.RawDescriptionHelpFormatter)
    asks.add_argument("--program", type=pathlib.Path, metavar="FILE")
    asks.add_argument("--rounds", type=int, default=5, metavar="N")
    asks.add_argument("--seconds", type=float, default=1, metavar="S")
    asks.add_argument("--only", default="", metavar="WORD")
    asks.add_argument("--calm", action="store_true")
    options = asks.parse_args()
    options.program = (options.program or pathlib.Path(program())).absolute()
    resource.setrlimit(resource.RLIMIT_NOFILE, (resource.getrlimit(resource.RLIMIT_NOFILE)[1],) * 2)
    if not options.calm:
        raise_priority()
    with folder() as where:
        options.lines = where / "lines"
        subprocess.run(["cc", "-O2", "-o", options.lines, pathlib.Path(__file__).parent / "lines.c"], check=True)
        for row in ROWS:
            compare(options, *row)
        beside_serve(options)
        beside_waiting(options)
        in_a_row(options)
        idle(options)
    print(f"load {os.getloadavg()[0]:.1f}", flush=True)
