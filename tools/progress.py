"""How far `rt ci` is, by what it says, and how long it may still take, by what earlier runs took."""
import contextlib
import re
from collections.abc import Iterable, Mapping

from tools import ready, repository

# The seconds that each crate took when it was last proved, from when all below it were: a line each.
TIMES = ready.OUT / "prove.times"
# What `rt ci` says of a crate, or of the tests of one, once it is proved, now or in an earlier run, or is not.
PROVED = re.compile(r"rt: (\w+)(: its tests are)? (proved|is kept: .*|NOT PROVED.*)")
# What stands behind the name of a crate for its tests.
TESTS = "+tests"


def read_times() -> dict[str, int]:
    words = [it.split() for it in (ready.text_of(TIMES) or "").splitlines()]
    return {it[0]: int(it[1]) for it in words if len(it) == 2 and it[1].isdigit()}


def minutes(seconds: float) -> str:
    return f"{seconds / 60:.0f} min"


class Progress:
    """How far a run is. A crate's tests are counted as a crate that stands on what the crate stands on."""

    def __init__(self, lines: Mapping[str, str], now: float, tested: Iterable[str] = (), kept: Iterable[str] = ()) -> None:
        """`lines` are those of crates.txt by their crates, lowest first; `now` is the clock in seconds, as below; of the
        crates in `tested` the tests are proved too, and those in `kept` were proved by earlier runs."""
        self.below = {it: repository.below(lines, it) for it in lines}
        self.below.update({it + TESTS: self.below[it] for it in tested})
        self.begun, self.times, self.ended = now, read_times(), dict.fromkeys(kept, now)

    def stood(self, crate: str) -> float | None:
        """When all below a crate stood; None where they do not."""
        if any(it not in self.ended for it in self.below[crate]):
            return None
        return max([self.begun, *(self.ended[it] for it in self.below[crate])])

    def left(self, now: float) -> float | None:
        """How many seconds the run may still take, by the last one: those of the longest chain of crates. None where
        those of one crate are not known."""
        ends: dict[str, float] = {}
        for crate in self.below:
            if crate in self.ended:
                continue
            if crate not in self.times:
                return None
            since = self.stood(crate)
            if since is None:
                since = max(ends[it] for it in self.below[crate] if it in ends)
            ends[crate] = max(now, since + self.times[crate])
        return max([now, *ends.values()]) - now

    def line(self, what: str, now: float) -> str:
        left = self.left(now)
        rest = "" if left is None or len(self.ended) == len(self.below) else f", some {left / 60:.0f} to go"
        return f"crate {len(self.ended)} of {len(self.below)}: {what}, {minutes(now - self.begun)} so far{rest}"

    def heard(self, line: str, now: float) -> str | None:
        """What to say after this line of `rt ci`; None where it tells of no crate that is proved."""
        told = PROVED.fullmatch(line)
        if not told:
            return None
        name = told[1] + (TESTS if told[2] else "")
        if name not in self.below or told[3].startswith("NOT"):
            return None
        if told[3] == "proved":
            self.times[name] = round(now - (self.stood(name) or self.begun))
        self.ended[name] = now
        return self.line(name, now)

    def silent(self, now: float) -> str:
        """What to say where no crate was proved for a while."""
        under_way = [it for it in self.below if it not in self.ended and self.stood(it) is not None]
        return self.line(f"next {' or '.join(under_way[:3])}" if under_way else "all proved, building", now)

    def is_at(self, last: str) -> bool:
        """Whether only this crate is left."""
        return all(it in self.ended for it in self.below if it != last)

    def keep(self) -> None:
        """Keeps the times for the next run, but those of crates that are gone."""
        known = {*self.below, *repository.crates()}
        lines = [f"{it} {seconds}\n" for it, seconds in self.times.items() if it.removesuffix(TESTS) in known]
        # The next run only can't say how long it may take.
        with contextlib.suppress(OSError):
            TIMES.parent.mkdir(exist_ok=True)
            ready.write(TIMES, "".join(lines))
