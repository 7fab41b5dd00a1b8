"""Measures what a call takes of a server of one program beside one of another.

usage: bench/beside BEFORE AFTER [--calls N] [--runs N]

BEFORE and AFTER are files of programs that were built the same way. Of `get` and `put`, over one connection and over
16, each serves so many calls (20,000) in turn, in so many runs (5), so that both meet what else the machine does. It
prints the medians of the processor time of the server a call, in microseconds, and of calls a second; how much more
AFTER takes, by these, by the median of the pairs of runs that followed each other (with the least and the most of a
pair), and by the best run of each, on which other work of the machine tells least. The folders are made where TMPDIR
says; it needs `cc`. The load runs on the same machine. It is no part of the gate.
"""
import argparse
import pathlib
import statistics
import subprocess
import tempfile
from collections.abc import Callable, Iterable

from bench import keys


def said(found: list[list[float]], more: Callable[[float, float], float], best: Callable[[Iterable[float]], float]) -> str:
    """What two programs took, and how much more the second one did: `more` says what of two figures is their ratio, and
    `best` which of many is the best one."""
    before, after = (statistics.median(it[at] for it in found) for at in (0, 1))
    ratios = sorted(more(*it) for it in found)
    by_pairs = f"by pairs {statistics.median(ratios):.3f} ({ratios[0]:.3f} to {ratios[-1]:.3f})"
    of_best = [best(it[at] for it in found) for at in (0, 1)]
    by_best = f"at best {of_best[0]:,.2f} and {of_best[1]:,.2f}: {more(*of_best):.3f}"
    return f"{before:,.2f} before, {after:,.2f} after: {more(before, after):.3f} times; {by_pairs}; {by_best}"


def compare(options: argparse.Namespace, load: pathlib.Path) -> None:
    for title, connections, call in keys.LOADS:
        found = []
        for turn in range(options.runs):
            # (each is the first one as often as the other)
            pair = (options.before, options.after)[:: 1 if turn % 2 else -1]
            group = f"cell:{connections}:{options.calls // connections}:{call}"
            each = [measured(it, load, connections, group) for it in pair]
            found.append(each[:: 1 if turn % 2 else -1])
        rates, used = ([[it[at] for it in run] for run in found] for at in (0, 1))
        print(f"{title}, processor time: {said(used, lambda a, b: b / a, min)}", flush=True)
        print(f"{title}, calls a second: {said(rates, lambda a, b: a / b, max)}", flush=True)


def measured(program: pathlib.Path, load: pathlib.Path, connections: int, group: str) -> tuple[float, float]:
    """Calls a second, and microseconds of the server's processor time for each."""
    with keys.served(program, connections) as it:
        return it.load(load, group)[:2]


def main() -> None:
    asks = argparse.ArgumentParser(description=__doc__, formatter_class=argparse.RawDescriptionHelpFormatter)
    asks.add_argument("before", type=pathlib.Path)
    asks.add_argument("after", type=pathlib.Path)
    asks.add_argument("--runs", type=int, default=5, metavar="N")
    asks.add_argument("--calls", type=int, default=20_000, metavar="N")
    options = asks.parse_args()
    with tempfile.TemporaryDirectory() as folder:
        load = pathlib.Path(folder) / "load"
        subprocess.run(["cc", "-O2", "-pthread", "-o", load, pathlib.Path(__file__).parent / "load.c"], check=True)
        compare(options, load)
