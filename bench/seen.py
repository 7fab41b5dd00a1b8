"""Measures what it costs a kept server to be looked at: `why N`, `who` and `list` beside calls that wait, and a status each second.

usage: bench/seen [--program FILE] [--runs N] [--asked N] [--waiting N] [--seconds N]

So many clients (256) wait for a call of a buffer that is empty. One more asks `why` of each in turn, then `who`, then `list`, so
many times (2,000) in each of so many runs (5): microseconds of a processor of the server for one question and its answer, with
reading and writing, and the least and the most of a run. Then nobody asks for so many seconds (20), of a server without
`--status` and of one with `--status 1`, in turn: how much of a processor is more. And calls of one connection, one after the
other, without and with `--status 1`, in turn: the processor time of a call. The program is the one that ./pathserve runs, or
FILE. The folders are made where TMPDIR says. It is no part of the gate.
"""
import argparse
import contextlib
import pathlib
import statistics
import tempfile
import time
from collections.abc import Iterator

from gate.kept import Server
from gate.talk import Talk
from gate.tried import check, given_words, holds

SOURCE = """object buffer;
  path 4:(put; get) end;
  path 1:([seen], put, get) end;
  var items : queue of text;
  entry procedure put(item : text); begin append(items, item) end;
  entry function get : text; begin get := first(items); take(items) end;
  entry function seen : integer; begin seen := count(items) end;
end;
"""
# So many calls are made one after the other, and so many of them are sent at once.
CALLS, LOT = 20_000, 50


@contextlib.contextmanager
def served(*words: str) -> Iterator[Server]:
    """A server that runs, over a folder that ends with it."""
    with tempfile.TemporaryDirectory(prefix="seen-") as folder:
        it = Server(pathlib.Path(folder), SOURCE, "--sync", "1000", "--at-once", "2000", *words)
        it.start()
        try:
            yield it
        finally:
            it.kill()


@contextlib.contextmanager
def waiting(server: Server, count: int) -> Iterator[list[str]]:
    """So many clients that wait, as the numbers of their calls."""
    with contextlib.ExitStack() as stack:
        numbers = []
        for number in range(count):
            it = stack.enter_context(Talk(server, f"open buffer as c{number}", "opened buffer next 1"))
            it.say("call get")
            word, told = it.hear().split()
            check(word, "accepted")
            numbers.append(told)
        yield numbers


def ask(talk: Talk, question: str) -> list[str]:
    """Asks to see something, and gives the lines of the answer."""
    talk.say(question)
    first = talk.hear()
    count = int(first.split()[-1])
    return [first, *(talk.hear() for _ in range(count))]


def questions(options: argparse.Namespace) -> None:
    """What one question costs, by its word."""
    with served() as server, waiting(server, options.waiting) as numbers, Talk(server, "open buffer", "opened buffer") as one:
        check(ask(one, f"why {numbers[0]}")[0], f"why {numbers[0]} Waiting 1", "an answer")
        holds(sum(it.startswith("waits ") for it in ask(one, "who")) == options.waiting, "not all that wait are told")
        kinds = {"why": lambda n: f"why {numbers[n % len(numbers)]}", "who": lambda n: "who", "list": lambda n: "list"}
        for word, asked in kinds.items():
            found = []
            for _ in range(options.runs):
                used = server.microseconds()
                for n in range(options.asked):
                    ask(one, asked(n))
                found.append((server.microseconds() - used) / options.asked)
            size = sum(len(it) + 1 for it in ask(one, asked(0)))
            print(f"{word}, {options.waiting} wait, {size:,} bytes: {statistics.median(found):.1f} microseconds ({min(found):.1f} to {max(found):.1f})", flush=True)


def idle(options: argparse.Namespace) -> None:
    """What a status costs a second, of a server in which many wait and nobody asks."""
    found: tuple[list[float], list[float]] = ([], [])
    for turn in range(options.runs):
        for at in (0, 1) if turn % 2 else (1, 0):
            with served(*("--status", "1") * at) as server, waiting(server, options.waiting):
                time.sleep(1)
                used, begun = server.microseconds(), time.monotonic()
                time.sleep(options.seconds)
                found[at].append((server.microseconds() - used) / (time.monotonic() - begun))
    said = ", ".join(f"{statistics.median(it):,.0f} ({min(it):,.0f} to {max(it):,.0f})" for it in found)
    more = statistics.median(found[1]) - statistics.median(found[0])
    print(f"idle, {options.waiting} wait, microseconds a second without and with --status 1: {said}; {more / 10_000:.3f} of 100 parts of a processor more", flush=True)


def calls(options: argparse.Namespace) -> None:
    """What a call costs without and with a status."""
    found: tuple[list[tuple[float, float]], list[tuple[float, float]]] = ([], [])
    for turn in range(2 * options.runs):
        for at in (0, 1) if turn % 2 else (1, 0):
            with served(*("--status", "1") * at) as server, waiting(server, options.waiting), Talk(server, "open buffer", "opened buffer") as one:
                used, begun = server.microseconds(), time.monotonic()
                for _ in range(CALLS // LOT):
                    one.calls(*["seen"] * LOT)
                found[at].append(((server.microseconds() - used) / CALLS, time.monotonic() - begun))
    said = ", ".join(f"{statistics.median(used for used, _ in it):.2f} (at best {min(it)[0]:.2f})" for it in found)
    ratios = sorted(b[0] / a[0] for a, b in zip(*found))
    spent = statistics.median(seconds for _, seconds in found[1])
    print(f"calls, microseconds of a processor without and with --status 1: {said}; by pairs {statistics.median(ratios):.3f} times ({ratios[0]:.3f} to {ratios[-1]:.3f}); "
          f"{CALLS:,} calls in {spent:.1f} s", flush=True)


def main() -> None:
    asks = argparse.ArgumentParser(description=__doc__, formatter_class=argparse.RawDescriptionHelpFormatter)
    for name, count in (("runs", 5), ("asked", 2_000), ("waiting", 256), ("seconds", 20)):
        asks.add_argument(f"--{name}", type=int, default=count, metavar="N")
    options = asks.parse_args(given_words())
    questions(options)
    idle(options)
    calls(options)
