"""Proves all that the program pathserve stands on, and builds it: from then on ./pathserve runs the proved program.

usage: tools/prove

`rt ci` proves a copy of the crates, those of tests aside, so sources may be edited meanwhile: then it proves them once
more. It is called twice where the machine has the memory and the kit keeps what it proves: first for all crates but the
few that take most memory, as many at once as there are processors, then for these. What passes the kit keeps on this
machine: a run after one that was ended goes on from there. Standard error has a
line for each crate that is proved, and one where a minute passes without any. out/prove.times holds the seconds that
each took, for the next run to say how long it may take. The exit status is 0, or 70 where not all is proved or built,
and then one line says why; no half of a result stays.
"""
import os
import pathlib
import re
import selectors
import subprocess
import time
from collections.abc import Sequence

from tools import progress, ready, repository

# Seconds after which a line is due.
SILENCE = 60


def heard_out(
    words: Sequence[str | pathlib.Path], folder: pathlib.Path, run: progress.Progress, lanes: int = 0
) -> tuple[int, str]:
    """Runs `rt ci` in this folder, so many checks at once (0: as many as it reckons memory for), tells how far it is, and
    returns its exit status and all that it said."""
    env = {**os.environ, "RT_JOBS": str(lanes)} if lanes else None
    said: list[str] = []
    rest = b""
    with subprocess.Popen(
        words, cwd=folder, env=env, stdin=subprocess.DEVNULL, stdout=subprocess.PIPE, stderr=subprocess.STDOUT
    ) as ran, selectors.DefaultSelector() as waits:
        assert ran.stdout
        waits.register(ran.stdout, selectors.EVENT_READ)
        try:
            due = time.monotonic() + SILENCE
            while True:
                if not waits.select(max(0, due - time.monotonic())):
                    ready.say(run.silent(time.monotonic()))
                    due = time.monotonic() + SILENCE
                    continue
                piece = os.read(ran.stdout.fileno(), 1 << 16)
                *lines, rest = (rest + piece).split(b"\n")
                for line in (it.decode(errors="replace") for it in (lines if piece else [rest])):
                    said.append(line)
                    told = run.heard(line, time.monotonic())
                    if told:
                        ready.say(told)
                        due = time.monotonic() + SILENCE
                if not piece:
                    break
        except BaseException:
            # What it started ends with it, and what it leaves lies in this folder and where the next `rt` removes it.
            ran.kill()
            raise
    return ran.returncode, "\n".join(said)


def reason(status: int, said: str) -> str:
    """What failed: the first crate that is not proved, and why."""
    crate = re.search(r"^rt: (\w+)(?:: its tests are)? NOT PROVED", said, re.M)
    if not crate or "the disk is full" in ready.reason(status, said):
        return ready.reason(status, said)
    block = said[: crate.start()].rpartition(f"== {crate[1]}")[2]
    return f"{crate[1]}: {ready.reason(status, block)}"


def proved(kit: pathlib.Path, top: pathlib.Path, run: progress.Progress) -> tuple[int, str]:
    """Has the kit in this folder prove the sources below `top`, and returns how that ended, and what was said."""
    words: list[str | pathlib.Path] = [kit / "bin" / "rt", "ci"]
    lanes = ready.lanes(kit)
    if not lanes:
        ready.say("in one go: the kit keeps nothing, or there is little memory")
        return heard_out(words, top, run)
    names = ready.ahead(repository.crates(top))
    status, said = heard_out([*words, *names], top, run, lanes)
    return heard_out(words, top, run) if status == 0 else (status, said)


def prove() -> None:
    """Proves and builds the sources as they are now."""
    kit = ready.kit()
    ready.needed(kit, "toolchain/bin/clang", "bin/rattle-link")
    with ready.room(ready.PROVED) as folder:
        top = folder / "repo"
        ready.copy_sources(top)
        of_sources = ready.digest(top, kit)
        # So that it is the top of a repository, in which `rt ci` keeps what it sets aside.
        (top / ".git").mkdir()
        run = progress.Progress(repository.crates(top), time.monotonic())
        left = run.left(time.monotonic())
        last = "" if left is None else f", {progress.minutes(left)} by the last run where none of it is kept"
        ready.say(f"proving {len(run.below)} crates{last}")
        try:
            status, said = proved(kit, top, run)
        finally:
            run.keep()
        program = top / "crates" / ready.PROGRAM / "out" / ready.PROGRAM
        if status or not program.exists():
            raise ready.Stop(f"not proved: {reason(status, said)}{ready.keep_log(ready.PROVED, said)}")
        ready.put(ready.PROVED, program, of_sources)
        ready.say(f"proved and built, {progress.minutes(time.monotonic() - run.begun)}")


def work() -> None:
    with ready.turn(ready.PROVED):
        if ready.choose() == ready.PROVED:
            ready.say("these sources are proved")
            return
        prove()
        while ready.choose() != ready.PROVED:
            ready.say("a source was edited meanwhile: proving it again")
            prove()


def main() -> int:
    return ready.ran(work, __doc__)
