"""Measures what keys and names cost a server: calls under keys beside plain ones, calls that are asked for again, and memory.

usage: bench/keys [--program FILE] [--before FILE] [--runs N] [--calls N]

Per load: calls a second in N runs (7 where it is not given) of up to N calls (16,000), plain and under keys in turn, so that both meet
what else the machine does; the medians, and how much longer a call takes under a key: the ratio of the medians, and the median of
the ratios of two runs that followed each other. The same of the processor time that a call takes of the server, on which other work
of the machine tells less. Then the memory that is resident after 48,000 calls of 16 connections; with --before
also that of an earlier program, which knows no keys. And how long `open NAME as CLIENT` takes where so many names are there as a
server has connections. The program is the one that
./pathserve runs, or FILE. The folders are made where TMPDIR says; it needs `cc`. The load runs on the same machine. It is no part of the
gate.
"""
import argparse
import contextlib
import pathlib
import socket
import statistics
import subprocess
import tempfile
import time
from collections.abc import Callable, Iterator, Sequence

from gate.served import Server
from gate.tried import there
from tools.ready import given_words, program

CELL = """object cell;
  path 1:([get], put) end;
  var v : array [1] of integer;
  entry function get : integer; begin get := v[0] end;
  entry procedure put(x : integer); begin v[0] := x end;
end;
"""
# Of each load its title, how many connections it has, and its call.
LOADS = (("get, 1 connection", 1, "get"), ("put, 1 connection", 1, "put #"), ("get, 16 connections", 16, "get"),
         ("put, 16 connections", 16, "put #"))
# The calls of a connection at most.
MOST = 3_000


class Served(Server):
    """A server of the cell, and a load on it."""

    def load(self, load: pathlib.Path, group: str) -> tuple[float, float, float]:
        """Calls a second of a load, the processor time of the server for each, in microseconds, and the MiB that are
        resident when its last call is done."""
        used = self.microseconds()
        with subprocess.Popen([load, str(self.port), group], stdin=subprocess.PIPE, stdout=subprocess.PIPE, text=True) as it:
            words = there(it.stdout).readline().split()
            if not words:
                raise SystemExit("a call was not done")
            used, resident = self.microseconds() - used, self.memory() / 1024
            there(it.stdin).close()
        return int(words[1]) / float(words[3]), used / int(words[1]), resident


@contextlib.contextmanager
def served(program: object, sessions: int) -> Iterator[Served]:
    """A server of the cell for so many connections, which ends with the block, as does its folder."""
    with tempfile.TemporaryDirectory(prefix="keys-") as folder:
        objects, place = pathlib.Path(folder) / "objects", pathlib.Path(folder) / "place"
        place.mkdir()
        objects.write_text(CELL, encoding="ascii")
        with Served("serve", objects, place, "--sessions", sessions, by=[program]) as it:
            yield it


class Pairs:
    """Two figures of each of some runs that followed each other."""

    def __init__(self, found: Sequence[Sequence[float]]) -> None:
        self.found = found

    def said(self, over: Callable[[float, float], float]) -> str:
        """The medians, and how much more the second one is: `over` says what of two figures is their ratio."""
        first, second = (statistics.median(it[at] for it in self.found) for at in (0, 1))
        ratios = sorted(over(*it) for it in self.found)
        return (f"{first:,.1f} plain, {second:,.1f} under keys: {over(first, second):.3f} times, by pairs {statistics.median(ratios):.3f} "
                f"({ratios[0]:.3f} to {ratios[-1]:.3f})")


def measured(program: object, load: pathlib.Path, connections: int, kinds: str, calls: int, name: str = "cell") -> tuple[float, float]:
    """Calls a second, and microseconds of the server's processor time for each."""
    with served(program, connections) as it:
        return it.load(load, f"{name}:{connections}:{min(calls // connections, MOST)}:{kinds}")[:2]


def compare(options: argparse.Namespace, load: pathlib.Path) -> None:
    for title, connections, call in LOADS:
        calls = min(options.calls, MOST * connections)
        runs, again = [], []
        for turn in range(options.runs):
            kinds = [(call, "cell"), (f"!{call}", "!cell")]
            # (each is the first one as often as the other)
            found = [measured(options.program, load, connections, *it[:1], calls, it[1]) for it in (kinds if turn % 2 else kinds[::-1])]
            runs.append(found if turn % 2 else found[::-1])
            if call == "get":
                again.append(measured(options.program, load, connections, f"!!{call}", calls, "!cell"))
        print(f"{title}, calls a second: {Pairs([[it[0] for it in run] for run in runs]).said(lambda a, b: a / b)}", flush=True)
        print(f"{title}, processor time: {Pairs([[it[1] for it in run] for run in runs]).said(lambda a, b: b / a)}", flush=True)
        if again:
            rate, used = (statistics.median(it[at] for it in again) for at in (0, 1))
            print(f"{title}, asked for again: {rate:,.1f} a second, processor time {used:.1f}", flush=True)


def memory(options: argparse.Namespace, load: pathlib.Path) -> None:
    """The memory of 48,000 calls of 16 connections."""
    kinds = [("plain", options.program, "cell", ""), ("under keys", options.program, "!cell", "!")]
    kinds += [("before", options.before, "cell", "")] if options.before else []
    for call in ("get", "put #"):
        for title, binary, name, mark in kinds:
            found = []
            for _ in range(3):
                with served(binary, 16) as it:
                    found.append(it.load(load, f"{name}:16:{MOST}:{mark}{call}")[2])
            print(f"memory of 48,000 calls of {call.split()[0]}, {title}: {statistics.median(found):.2f} MiB "
                  f"({min(found):.2f} to {max(found):.2f})", flush=True)


def opening(options: argparse.Namespace) -> None:
    """How long the last of 64 connections waits for the answer to its `open`, with 62 names there."""
    found = []
    for _ in range(options.runs):
        with served(options.program, 64) as it:
            all_of = []
            for number in range(63):
                all_of.append(socket.create_connection(("127.0.0.1", it.port)))
                all_of[-1].sendall(f"open cell as n{number}\n".encode())
                all_of[-1].recv(100)
            last = socket.create_connection(("127.0.0.1", it.port))
            time.sleep(0.05)
            began = time.perf_counter()
            last.sendall(b"open cell as last\n")
            last.recv(100)
            found.append(1e6 * (time.perf_counter() - began))
            for each in [*all_of, last]:
                each.close()
    print(f"`open cell as last` beside 63 names: {statistics.median(found):.0f} microseconds ({min(found):.0f} to {max(found):.0f})")


def main() -> None:
    asks = argparse.ArgumentParser(description=__doc__, formatter_class=argparse.RawDescriptionHelpFormatter)
    asks.add_argument("--before", metavar="FILE")
    asks.add_argument("--runs", type=int, default=7, metavar="N")
    asks.add_argument("--calls", type=int, default=16_000, metavar="N")
    options = asks.parse_args(given_words())
    options.program = program()
    with tempfile.TemporaryDirectory() as folder:
        load = pathlib.Path(folder) / "load"
        subprocess.run(["cc", "-O2", "-pthread", "-o", load, pathlib.Path(__file__).parent / "load.c"], check=True)
        compare(options, load)
        memory(options, load)
        opening(options)
