"""Measures `pathserve serve` on loads of several kinds, beside what a small model makes of the paths.

usage: bench/serve_model [--program FILE] [--calls N] [--runs N] [--rows]

Calls that the paths let overlap share the processors: 1 / machine a second, where `machine` is what a call takes of all processors,
server and load together; but a connection makes one call at a time, so no more than connections / latency. Calls that exclude each other
take turns: 1 / held a second and object, where `held` is the time from one such start to the next. The model takes its numbers from the
cases marked `*`: `machine` of a get and `held` of a put, each over 16 connections, and what each operation takes over one
connection, its latency. Of an operation X

  machine = machine of get + (latency of X - latency of get) / processors
  held    = held by put    + (latency of X - latency of put)

A row a case: calls a second as measured (the median of the runs, and the least and the most) and by the model, and the ratio. The
program is the one that ./pathserve runs, or FILE; N calls a case, 16,000 where it is not given, but 3,000 a connection
at most; 9 runs. The folders are made where TMPDIR says. It needs `cc`. The load runs on the same machine, so the figures are of
both. --rows prints the rows as bench/README.md has them. It is no part of the gate.
"""
import argparse
import os
import pathlib
import statistics
import subprocess
import tempfile
from collections.abc import Callable, Container, Mapping, Sequence

from gate.served import Server
from gate.tried import there
from tools.ready import TOP, given_words, program

CELL = """object {name};
  path {path} end;
  var v : array [1] of integer;
  entry function get : integer; begin get := v[0] end;
  entry procedure put(x : integer); begin v[0] := x end;
end;
"""
SHARED = "1:([get], put)"
BUFFER = (TOP / "examples" / "objects" / "bounded_buffer.pp").read_text(encoding="ascii")
# What a run told: calls, seconds, the processor seconds of the server and of the load.
Ran = tuple[int, float, float, float]
# The calls of a connection at most.
MOST = 3_000
PROCESSORS = os.cpu_count() or 1
GETS, MIXED = "get", ",".join(["get"] * 9 + ["put #"])


class Case:
    """A title, a source of objects, the groups of the load, and what the model says: a function of the numbers."""

    def __init__(self, title: str, source: str, groups: Sequence[tuple[str, int, str]], rate: Callable[["Numbers"], float]) -> None:
        self.title, self.source, self.groups, self.rate = title, source, groups, rate

    def words(self, calls: int) -> list[str]:
        """The groups as the load takes them: the calls are spread over all connections."""
        connections = sum(it[1] for it in self.groups)
        return [f"{name}:{count}:{min(calls // connections, MOST)}:{kinds}" for name, count, kinds in self.groups]


def counted(connections: int) -> str:
    return f"{connections} connection{'s' * (connections > 1)}"


def gets(connections: int) -> Case:
    return Case(f"get of `{SHARED}`, {counted(connections)}", CELL.format(name="cell", path=SHARED), [("cell", connections, GETS)],
                lambda it: min(connections / it.latency["get"], 1 / it.machine("get")))


def puts(objects: int, connections: int) -> Case:
    """Puts of so many objects, over so many connections in all."""
    names = [f"cell{it}" for it in range(objects)]
    source = "".join(CELL.format(name=it, path=SHARED) for it in names)

    def rate(numbers: "Numbers") -> float:
        alone = connections / numbers.latency["put"]
        return alone if connections == 1 else min(alone, objects / numbers.held("put"), 1 / numbers.machine("put"))

    return Case(f"put{f' of {objects} objects' * (objects > 1)}, {counted(connections)}", source, [(it, connections // objects, "put #") for it in names], rate)


# What the numbers of the model are taken from: an operation over one connection, and 16 connections that overlap or take turns.
ALONE = {"get": gets(1), "put": puts(1, 1), "buffer": Case("bounded buffer, 1 connection, put and get in turn", BUFFER,
         [("bounded_buffer", 1, "put 'bread',get")], lambda it: 1 / it.latency["buffer"])}
OVERLAP, TURNS = gets(16), puts(1, 16)
CASES = [
    *ALONE.values(),
    OVERLAP,
    TURNS,
    gets(2),
    gets(4),
    gets(64),
    puts(1, 64),
    puts(2, 16),
    puts(4, 16),
    puts(8, 16),
    Case("one put in ten gets, 16 connections", CELL.format(name="cell", path=SHARED), [("cell", 16, MIXED)],
         lambda it: 10 / (9 * it.machine("get") + it.held("put"))),
    Case("get of `1:(get, put)`, 16 connections", CELL.format(name="cell", path="1:(get, put)"), [("cell", 16, GETS)],
         lambda it: 1 / it.held("get")),
    Case("bounded buffer, 8 connections put and 8 get", BUFFER, [("bounded_buffer", 8, "put 'bread'"), ("bounded_buffer", 8, GETS)],
         lambda it: 1 / it.held("buffer")),
]


class Numbers:
    """The numbers of the model, in seconds, from the cases that are measured for them."""

    def __init__(self, found: Mapping[Case, "Measured"]) -> None:
        self.latency: dict[str, float] = {name: 1 / found[it].rate for name, it in ALONE.items()}
        self.overlap, self.turn = 1 / found[OVERLAP].rate, 1 / found[TURNS].rate

    def machine(self, name: str) -> float:
        return self.overlap + (self.latency[name] - self.latency["get"]) / PROCESSORS

    def held(self, name: str) -> float:
        return self.turn + self.latency[name] - self.latency["put"]


class Measured:
    """Calls a second, and the processor seconds of a call, of the server and of the load."""

    def __init__(self, runs: Sequence[Ran]) -> None:
        self.rates = sorted(calls / seconds for calls, seconds, _, _ in runs)
        self.rate = statistics.median(self.rates)
        self.server, self.load = (statistics.median(it[at] / it[0] for it in runs) for at in (2, 3))


def loaded(load: pathlib.Path, server: Server, words: Sequence[str]) -> Ran:
    """Loads a server: calls, seconds, the processor seconds of the server and of the load."""
    used = server.processor()
    with subprocess.Popen([load, server.place, *words], stdin=subprocess.PIPE, stdout=subprocess.PIPE, text=True) as it:
        told = there(it.stdout).readline().split()
        used = server.processor() - used
        there(it.stdin).close()
        if it.wait():
            raise SystemExit("the load failed")
    return int(told[1]), float(told[3]), used, float(told[5])


def ran(program: object, load: pathlib.Path, case: Case, calls: int) -> Ran:
    """One run of a case."""
    connections = sum(it[1] for it in case.groups)
    with tempfile.TemporaryDirectory() as folder:
        source = pathlib.Path(folder) / "source.pp"
        source.write_text(case.source, encoding="ascii")
        with Server("serve", source, pathlib.Path(folder), "--sessions", connections, by=[program]) as server:
            found = loaded(load, server, case.words(calls))
            status = server.ended(300).status
    if status:
        raise SystemExit(f"{case.title}: the server ended with status {status}")
    return found


def print_table(found: Mapping[Case, Measured], numbers: Numbers, taken: Container[Case]) -> None:
    print(f"{'case':51} {'calls a second':>14} {'least':>8} {'most':>8} {'model':>8} {'ratio':>6}  processor us of server, load")
    for case, it in found.items():
        said = case.rate(numbers)
        print(f"{case.title:51} {it.rate:14.0f} {it.rates[0]:8.0f} {it.rates[-1]:8.0f} {said:8.0f} {it.rate / said:6.2f}  "
              f"{it.server * 1e6:.1f}, {it.load * 1e6:.1f}{' *' if case in taken else ''}")


def print_rows(found: Mapping[Case, Measured], numbers: Numbers, taken: Container[Case]) -> None:
    for case, it in found.items():
        said = case.rate(numbers)
        model = "taken from it | " if case in taken else f"{said:,.0f} | {it.rate / said:.2f} "
        print(f"| {case.title} | {it.rate:,.0f} | {it.rates[0]:,.0f} to {it.rates[-1]:,.0f} | {model}|")


def main() -> None:
    parser = argparse.ArgumentParser(description=__doc__, formatter_class=argparse.RawDescriptionHelpFormatter)
    parser.add_argument("--calls", type=int, default=16_000)
    parser.add_argument("--runs", type=int, default=9)
    parser.add_argument("--rows", action="store_true")
    args = parser.parse_args(given_words())
    with tempfile.TemporaryDirectory() as folder:
        load = pathlib.Path(folder) / "load"
        subprocess.run(["cc", "-O2", "-pthread", "-o", load, TOP / "bench" / "load.c"], check=True)
        # The runs go round the cases, so that what else the machine does falls on all.
        runs: dict[Case, list[Ran]] = {it: [] for it in CASES}
        for _ in range(args.runs):
            for case in CASES:
                runs[case].append(ran(program(), load, case, args.calls))
    found = {case: Measured(some) for case, some in runs.items()}
    numbers, taken = Numbers(found), {*ALONE.values(), OVERLAP, TURNS}
    (print_rows if args.rows else print_table)(found, numbers, taken)
    alone = ", ".join(f"{name} {it * 1e6:.1f}" for name, it in numbers.latency.items())
    print(f"us: latency {alone}; machine of a get {numbers.overlap * 1e6:.1f}, held by a put {numbers.turn * 1e6:.1f}; "
          f"processors {PROCESSORS}, load of the machine {os.getloadavg()[0]:.1f}")
