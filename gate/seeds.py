"""What the parts share that draw from seeds: numbers that follow from a seed, the seeds that a command line names, and
what comes of all of them."""
import collections
import concurrent.futures
import os
import sys
from collections.abc import Callable, Iterable, Mapping, Sequence
from typing import Optional, TypeVar

from gate.tried import given_words, program

Choice = TypeVar("Choice")
Seed = TypeVar("Seed")
Came = TypeVar("Came")
# What is said of a seed that fails, or none, and how often each kind came in it.
Tallied = tuple[Optional[str], "collections.Counter[str]"]


class Drawer:
    """Numbers that follow from a seed alone."""

    def __init__(self, seed: int) -> None:
        self.state = seed
        for _ in range(4):
            self.below(2)

    def below(self, limit: int) -> int:
        self.state = (self.state * 6364136223846793005 + 1442695040888963407) % (1 << 64)
        return (self.state >> 33) % limit

    def one_in(self, count: int) -> bool:
        return self.below(count) == 0

    def of(self, choices: Sequence[Choice]) -> Choice:
        return choices[self.below(len(choices))]

    def some_of(self, choices: Sequence[Choice]) -> list[Choice]:
        """Some of these, one at least."""
        return [it for it in choices if self.one_in(2)] or list(choices[:1])

    def weighted(self, weights: Mapping[Choice, int]) -> Choice:
        at = self.below(sum(weights.values()))
        for choice, weight in weights.items():
            at -= weight
            if at < 0:
                return choice
        raise AssertionError


def asked(usage: str, flag: str = "", show: Optional[Callable[[int], str]] = None) -> list[int]:
    """The seeds that the command line names. Where it is FLAG SEED, what that seed draws is printed, and this tool
    ends."""
    words = given_words()
    if show and len(words) == 2 and words[0] == flag and words[1].isdigit():
        print(show(int(words[1])), end="")
        sys.exit(0)
    if not all(it.isdigit() for it in words):
        print(usage, file=sys.stderr)
        sys.exit(2)
    return [int(it) for it in words]


def each(work: Callable[[Seed], Came], seeds: Iterable[Seed], at_once: int = 4) -> list[Came]:
    """What comes of each of these, by as many processes as there are processors, each of which is given so many at
    once."""
    # Once, before the processes begin.
    program()
    with concurrent.futures.ProcessPoolExecutor(len(os.sched_getaffinity(0))) as pool:
        return list(pool.map(work, seeds, chunksize=at_once))


def tell(failed: Sequence[str]) -> None:
    """Prints all that is said of the first of those that failed, and of the others a line."""
    for it in failed[:1]:
        print(it)
    for it in failed[1:]:
        print(it.partition("\n")[0])


def run(tool: str, named: Sequence[int], work: Callable[[int], Tallied], seeds: Sequence[int], kinds: Iterable[str],
        often: int) -> int:
    """Tries the seeds that were named, or else all of them, over which each kind has to come so often. It says what came
    of them, and returns the exit status."""
    said = each(work, named or seeds)
    failed = [it for it, _ in said if it]
    tell(failed)
    passed = len(said) - len(failed)
    tally: "collections.Counter[str]" = sum((it for _, it in said), collections.Counter())
    for kind in () if named else kinds:
        if tally[kind] < often:
            print(f"{tool}: {kind}: {tally[kind]} times alone")
            failed.append(kind)
    print(f"{tool}: {passed} passed, {len(failed)} failed")
    return 1 if failed or not passed else 0
