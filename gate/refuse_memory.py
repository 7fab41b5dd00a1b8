"""Refuses each growth of memory in turn, in the built program.

usage: gate/refuse_memory [--program FILE] [--jobs N] [WORDS OF A TITLE ..]

 It runs on each case of cases/ with `--- growths` with its first
growth (malloc, realloc) refused, then with its second, and so on until a run makes no such growth. It must then either
answer as if nothing had been refused, or end with status 4, `out of memory` on standard error and a prefix of its
answers. A script may also tell `failed N memory` of a call in whose steps memory was refused: its answers are then those
of the whole run up to the steps of that call. What `--explain` tells may lack; and what `try` told of lines as they came
may stand before `out of memory`. A crash, a hang or another answer is a failure.
N runs go side by side (the processors). Where there is no `cc` nothing is run. With words, only the cases whose names
have one of them.
"""
import argparse
import collections
import concurrent.futures
import itertools
import os
import pathlib
import re
import subprocess
import tempfile
from collections.abc import Callable, Iterator
from typing import NamedTuple

from gate import cases
from gate.tried import TOP, given_words, lacks, preload, program, whole

SECONDS = 60
MOST_GROWTHS = 100_000
MOST_FAILED = 5
Ran = subprocess.CompletedProcess[bytes]
# A run, or none where it hangs, and whether a growth was refused.
Refused = tuple[Ran | None, bool]


class Tried(NamedTuple):
    """A command whose growths are refused in turn, and whether an answer is right."""

    name: str
    words: list[str]
    stdin: bytes
    is_right: Callable[[Ran, bool], bool]


def refused(library: pathlib.Path, note: pathlib.Path, number: int, tried: Tried) -> Refused:
    """Runs a command with one growth refused: the finished process, or None where it hangs, and whether it was refused."""
    more = {"LD_PRELOAD": str(library), "REFUSE_NOTE": str(note), "REFUSE_GROWTH": str(number)}
    ran: Ran | None
    try:
        ran = subprocess.run(tried.words, input=tried.stdin, capture_output=True, env={**os.environ, **more}, timeout=SECONDS)
    except subprocess.TimeoutExpired:
        ran = None
    was_refused = note.exists()
    note.unlink(missing_ok=True)
    return ran, was_refused


def each_growth(pool: concurrent.futures.Executor, ahead: int, library: pathlib.Path, folder: pathlib.Path, tried: Tried) -> tuple[int, int]:
    """Refuses each growth of a command in turn, some runs ahead of the one that is looked at, and counts
    the runs that passed and failed."""
    numbers, passed, failed = iter(range(1, MOST_GROWTHS)), 0, 0
    waiting: collections.deque[tuple[int, concurrent.futures.Future[Refused]]] = collections.deque()
    while failed < MOST_FAILED:
        for number in itertools.islice(numbers, ahead - len(waiting)):
            waiting.append((number, pool.submit(refused, library, folder / f"note{number}", number, tried)))
        if not waiting:
            break
        number, run = waiting.popleft()
        ran, was_refused = run.result()
        if ran is not None and tried.is_right(ran, was_refused):
            passed += 1
        else:
            failed += 1
            how = "hangs" if ran is None else f"status {ran.returncode}, {ran.stdout[-200:]!r}, {ran.stderr[-200:]!r}"
            print(f"{tried.name}, growth {number}: {how}")
        if not was_refused:
            break
    for _, run in waiting:
        run.cancel()
    concurrent.futures.wait([run for _, run in waiting])
    print(f"{tried.name}: {passed} runs passed, {failed} failed", flush=True)
    return passed, failed


def has_failed_call(whole: bytes, found: bytes) -> bool:
    """Whether a run is the whole one up to a line `failed N memory`, but for the answers to lines `step N` and `steps N`."""
    was, now = whole.splitlines(), found.splitlines()
    at = next((at for at, (first, second) in enumerate(zip(was, now)) if first != second), len(now))
    call = re.fullmatch(rb"(?:step (\d+) \w+ failed|steps (\d+) \d+|failed (\d+) memory)", b"".join(now[at : at + 1]))
    if not call:
        return False
    number = next(filter(None, call.groups()))
    if b"failed %s memory" % number not in now[at:]:
        return False
    end = now.index(b"failed %s memory" % number, at)
    stepped = re.compile(rb"step %s \w+ \w+|steps %s \d+|no NoStep" % (number, number))
    pairs = itertools.zip_longest(was[at:end], now[at:end], fillvalue=b"")
    return all(first == second or (stepped.fullmatch(first) and stepped.fullmatch(second)) for first, second in pairs)


def runs(folder: pathlib.Path) -> Iterator[tuple[str, list[str], bytes]]:
    """The runs of the program: a name, the command, and what stands on its standard input. What is written
    for them lies in the folder."""
    for number, case in enumerate(it for path in cases.files([]) for it in cases.cases_of(path) if it.growths):
        room = folder / f"case{number}"
        room.mkdir()
        placed = cases.Placed(case, program(), room)
        yield case.name(), placed.words, placed.input


def program_runs(folder: pathlib.Path) -> Iterator[Tried]:
    """The runs of the program, each with what tells whether it ran right: as when all the memory that it wants is there."""
    for name, words, stdin in runs(folder):
        whole = subprocess.run(words, input=stdin, capture_output=True, timeout=SECONDS)

        def is_right(ran: Ran, was_refused: bool, whole: Ran = whole, explains: bool = "--no-explain" not in words) -> bool:
            same = (ran.returncode, ran.stdout, ran.stderr) == (whole.returncode, whole.stdout, whole.stderr)
            before = ran.stderr.removesuffix(b"out of memory\n")
            is_front = not before or (explains and whole.stderr.startswith(before))
            gave_up = ran.returncode == 4 and before != ran.stderr and is_front and whole.stdout.startswith(ran.stdout)
            told = ran.returncode == whole.returncode and ran.stderr == whole.stderr and has_failed_call(whole.stdout, ran.stdout)
            unexplained = explains and (ran.returncode, ran.stdout, ran.stderr) == (whole.returncode, whole.stdout, b"")
            return same or (was_refused and (gave_up or told or unexplained))

        yield Tried(name, words, stdin, is_right)


def main() -> int:
    words = argparse.ArgumentParser(prog="refuse_memory", usage=__doc__.split("\n\n")[1].removeprefix("usage: "))
    words.add_argument("--jobs", type=int, default=len(os.sched_getaffinity(0)))
    words.add_argument("names", nargs="*")
    given = words.parse_args(given_words())
    if lacks("cc"):
        return 0
    os.chdir(TOP)
    counts = []
    with tempfile.TemporaryDirectory() as name, concurrent.futures.ThreadPoolExecutor(given.jobs) as pool:
        folder = pathlib.Path(name)
        library = preload("refuse.c", folder)
        wanted = (it for it in program_runs(folder) if not given.names or any(name in it.name for name in given.names))
        for tried in wanted:
            counts.append(each_growth(pool, 2 * given.jobs, library, folder, tried))
    passed, failed = sum(it[0] for it in counts), sum(it[1] for it in counts)
    print(f"refuse_memory: {passed} passed, {failed} failed")
    return 1 if failed or not passed else 0


load_tests = whole(main)
