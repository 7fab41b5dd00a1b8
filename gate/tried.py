"""What the parts of the gate have in common: the program that they try, tools of the system that may be lacking, and
trials, which are run, told of and counted in one way, and by `python3 -m unittest` too."""
import pathlib
import shutil
import subprocess
import sys
import time
import unittest
import unittest.mock
import warnings
from collections.abc import Callable, Iterable, Sequence
from types import TracebackType
from typing import Any, Optional, TypeVar, Union

from tools.ready import TOP, given_words, new_folder, program

__all__ = ["TOP", "Trial", "Wrong", "check", "given_words", "holds", "in_folder", "is_one_of", "lacks", "loads",
           "new_folder", "preload", "program", "run", "there", "title_of", "until", "whole"]
# How long anything may take that a trial waits for, in seconds.
SECONDS = 120
T = TypeVar("T")
Failure = Union[tuple[type[BaseException], BaseException, TracebackType], tuple[None, None, None]]
Loads = Callable[[unittest.TestLoader, unittest.TestSuite, Optional[str]], unittest.TestSuite]


class Wrong(Exception):
    """What a trial did not find as it has to be."""


def check(found: object, wanted: object, what: str = "it") -> None:
    if found != wanted:
        raise Wrong(f"{what} is {found!r}, not {wanted!r}")


def holds(it: object, what: str) -> None:
    if not it:
        raise Wrong(what)


def is_one_of(found: object, *wanted: object) -> None:
    holds(found in wanted, f"{found!r}, not {' or '.join(map(repr, wanted))}")


def there(it: Optional[T], what: str = "what is looked for") -> T:
    """It, which has to be there: what a search found, say, or a pipe of a process."""
    if it is None:
        raise Wrong(f"{what} is not there")
    return it


def until(found: Callable[[], object], what: str, seconds: float = SECONDS) -> None:
    """Waits until something is so."""
    end = time.monotonic() + seconds
    while not found():
        if time.monotonic() > end:
            raise Wrong(what)
        time.sleep(0.005)


def lacks(tool: str) -> bool:
    """Whether a tool of the system is not there. It is said, since what wants it is not run."""
    if shutil.which(tool):
        return False
    print(f"not run: {tool}")
    return True


def preload(source: Union[str, pathlib.Path], folder: Union[str, pathlib.Path]) -> pathlib.Path:
    """A library that is loaded before a program: this source in C, a file beside this one, say, built in a folder."""
    file = TOP / "gate" / source
    built = pathlib.Path(folder) / f"lib{file.stem}.so"
    subprocess.run(["cc", "-O2", "-shared", "-fPIC", "-o", built, file, "-ldl"], check=True)
    return built


class Trial(unittest.TestCase):
    """One trial: what it raises, or the text that it gives back, is what is wrong."""

    def __init__(self, title: str, work: Callable[[], object]) -> None:
        super().__init__("tries")
        self.title, self.work = title, work

    def tries(self) -> None:
        with warnings.catch_warnings():
            # A fake leaves its sockets to the collector, and a warning of one would stand in what the tool says that is tried.
            warnings.simplefilter("ignore", ResourceWarning)
            wrong = self.work()
        if isinstance(wrong, str) and wrong:
            raise Wrong(wrong)

    def id(self) -> str:
        return self.title

    __str__ = shortDescription = id


def title_of(work: Callable[..., object]) -> str:
    return work.__name__.replace("_", " ")


def in_folder(tool: str, work: Callable[..., object], make: Callable[[pathlib.Path], Any] = pathlib.Path, room: Optional[str] = None,
              **more: object) -> Callable[[], object]:
    """Work that is given a new folder, or what is made in it."""

    def trial() -> object:
        with new_folder(f"{tool}-", room) as folder:
            return work(make(folder), **more)

    return trial


class Told(unittest.TestResult):
    """Tells what came of each trial, as soon as it has ended: what failed, or each and how long it took."""

    def __init__(self, has_times: bool) -> None:
        super().__init__()
        self.has_times, self.passed, self.failed, self.begun = has_times, 0, 0, 0.0

    def startTest(self, test: unittest.TestCase) -> None:
        super().startTest(test)
        self.begun = time.monotonic()

    def tell(self, test: unittest.TestCase, wrong: str) -> None:
        if self.has_times:
            print(f"{test}: {time.monotonic() - self.begun:.1f} s{wrong and ': FAILED: '}{wrong}", flush=True)
        elif wrong:
            print(f"{test}: {wrong}", flush=True)

    def addSuccess(self, test: unittest.TestCase) -> None:
        self.passed += 1
        self.tell(test, "")

    def addError(self, test: unittest.TestCase, err: Failure) -> None:
        self.failed += 1
        kind, error, _ = err
        self.tell(test, f"{'' if kind is Wrong or kind is None else kind.__name__ + ': '}{str(error)[:1500]}")

    addFailure = addError


def run(tool: str, trials: Iterable[Trial], words: Sequence[str] = (), has_times: bool = False) -> int:
    """Runs the trials whose titles have these words, says what came of them, and returns the exit status."""
    told = Told(has_times)
    # (one after the other as they are made: what one does may hang on what its maker holds then)
    for it in trials:
        if all(word in it.title for word in words):
            it.run(told)
    print(f"{tool}: {told.passed} passed, {told.failed} failed")
    return 0 if told.passed and not told.failed else 1


def loads(trials: Callable[[], Iterable[Trial]]) -> Loads:
    """`load_tests` of a part: what `python3 -m unittest` runs of it are these trials."""
    return lambda loader, tests, pattern: unittest.TestSuite(trials())


def whole(main: Callable[[], int]) -> Loads:
    """`load_tests` of a part that counts by itself: it is one trial, which passes where its exit status is 0."""

    def work() -> None:
        with unittest.mock.patch.object(sys, "argv", [main.__module__]):
            check(main(), 0, "the exit status")

    return loads(lambda: [Trial(main.__module__, work)])
