"""Gives a clone the libraries that this machine has proved, so that a check of a crate does not prove again what is below it.

usage: gate/seed [--from DIR ..]             the libraries that `rt ci` has kept, and those of the clones DIR that were built
                                             from the same; it says which crates have one now, and which lack one
       gate/seed --look                      takes nothing, and says which crates `rt ci` has yet to prove, and of which the tests
       gate/seed --build CRATE               the library of a crate that was checked here
       gate/seed --check CRATE [FLAG ..]     `rattle check FLAG ..` (--only F, --allow-holes) of a crate, over the sources of those below it that lack a
                                             library, as `rt try` takes them: what stands on a crate that is not proved yet
                                             can be proved beside it
       gate/seed --ahead [--lanes N]         proves the libraries that are lacking, N at a time (the processors, where it is not
                                             given), until all are there, or it is stopped

It writes to crates/*/out alone, --ahead to out/ahead too, and --look nothing. A library is taken only where its stamp says that it was made
from these very files.

With --ahead the crates go lowest first, and of several that could the one with the longest chain of others above it. What
is changed or merged meanwhile is proved again, and what was refused once its files change; a crate that out/ahead/hold names
is not begun. out/ahead/log has a line for each that begins and ends, out/ahead/CRATE.log what was said of it. In a clone
whose libraries --ahead makes neither `gate/seed` nor a check may run: they clear what is not ready.
"""
import argparse
import glob
import hashlib
import json
import os
import pathlib
import shutil
import subprocess
import sys
import tempfile
import time
from collections.abc import Iterable, Mapping, Sequence
from types import ModuleType
from typing import Any, NoReturn

from gate.tried import TOP
from tools import kit, repository


def loaded() -> ModuleType:
    """The module of the command `rt`."""
    sys.argv = ["rt"]
    return kit.rt() or sys.exit("seed: there is no rt here")


def crates(rt: ModuleType) -> dict[str, Any]:
    """The crates of this repository by their names, the lowest first."""
    os.chdir(TOP)
    rt.Crate.allowed = rt.rtlib.Crate.allowed = rt.handles_of(str(TOP))
    return {crate.name: crate for crate in rt.rtlib.crates_below(str(TOP))}


def taken(crate: Any, clones: Iterable[str]) -> bool:
    """Takes the library from another clone, where it was made from the same, and returns whether it could."""
    to, stamp = pathlib.Path(crate.folder) / "out/rlib", crate.stamp()
    for clone in clones:
        for at in glob.glob(f"{clone}/crates/{crate.name}/out/rlib"):
            mark = pathlib.Path(at) / "stamp"
            if pathlib.Path(at).resolve() != to.resolve() and mark.exists() and mark.read_text() == stamp:
                shutil.rmtree(to, ignore_errors=True)
                shutil.copytree(at, to, symlinks=True)
                return True
    return False


def seed(rt: ModuleType, clones: Sequence[str]) -> None:
    """Gives each crate its library, where one stands somewhere and each crate below has one."""
    repository.remember_stamps(rt)
    all_crates = crates(rt)
    # A kit that keeps nothing of what `rt ci` proves has no such class.
    kept = rt.Kept(list(all_crates.values())) if hasattr(rt, "Kept") else None
    have: list[str] = []
    lack: list[str] = []
    for crate in all_crates.values():
        if any(below.name in lack for below in crate.below()):
            lack.append(crate.name)
            continue
        is_there = crate.is_built()
        if not is_there:
            # What is stale there would have the kit take what it kept for damaged, and drop it.
            shutil.rmtree(pathlib.Path(crate.folder) / "out/rlib", ignore_errors=True)
        if not is_there and kept and kept.give(crate, False, kept.key(crate)):
            is_there = True
            if not crate.is_program:
                (pathlib.Path(crate.folder) / "out/rlib/stamp").write_text(crate.stamp())
        if not is_there:
            is_there = taken(crate, clones)
        if is_there and kept:
            kept.is_built(crate)
        (have if is_there else lack).append(crate.name)
    print("have:", *have)
    print("lack:", *lack)


def made(kept: Any, crate: Any, tests: bool) -> list[tuple[Any, ...]] | None:
    """The files, with their sums, that `rt ci` made when it proved this crate, or its tests, over the same libraries; or None."""
    key = kept.key(crate)
    try:
        told = json.loads((pathlib.Path(kept.place(crate, tests, key)) / "made.json").read_text(encoding="utf-8"))
        return [tuple(it) for it in told["files"]] if told["key"] == key else None
    except (OSError, ValueError, KeyError, TypeError):
        return None


def look(rt: ModuleType) -> None:
    """Says what `rt ci` has yet to prove, by what it has kept."""
    all_crates = crates(rt)
    # A kit that keeps nothing of what `rt ci` proves has no such class.
    kept = rt.Kept(list(all_crates.values())) if hasattr(rt, "Kept") else None
    lack, tests = [], []
    for name, crate in all_crates.items():
        stands = kept is not None and all(below.name not in lack for below in crate.below())
        if crate.has_tests() and not (stands and made(kept, crate, True)):
            tests.append(name)
        files = made(kept, crate, False) if stands else None
        if not files:
            lack.append(name)
        else:
            # (as `Kept.is_built` makes it of the library itself)
            kept.rlibs[name] = hashlib.sha256(repr([] if crate.is_program else files).encode()).hexdigest()
    print("to prove:", *lack)
    print("tests to prove:", *tests)


def check(rt: ModuleType, name: str, flags: Sequence[str]) -> NoReturn:
    """Becomes a check of a crate, over sources where libraries are lacking."""
    repository.remember_stamps(rt)
    all_crates = crates(rt)
    crate = all_crates[name]
    built = {it.name for it in crate.below() if it.is_built() and all(low.is_built() for low in it.below())}
    os.chdir(crate.folder)
    given, words = iter(crate.words(["--jobs", "1"], as_source=True)), []
    for word in given:
        if word != "--lib":
            words.append(word)
            continue
        source = next(given)
        below = source.split(":")[0]
        words += ["--extern", f"{below}={all_crates[below].rlib}"] if below in built else ["--lib", source]
    print("libraries:", *sorted(built), flush=True)
    kept = f"{tempfile.gettempdir()}/seed-{name}"
    os.makedirs(kept, exist_ok=True)
    os.execv(rt.rtlib.RATTLE, [rt.rtlib.RATTLE, "check", *words, "--incremental", kept, *flags])


def chains(all_crates: Mapping[str, Any]) -> dict[str, int]:
    """How many lines stand in each crate and in the longest chain of others above it."""
    longest = {name: crate.count(rb"\n") for name, crate in all_crates.items()}
    own = dict(longest)
    # (a crate comes after those that it stands on)
    for name in reversed(list(all_crates)):
        for below in all_crates[name].below():
            longest[below.name] = max(longest[below.name], own[below.name] + longest[name])
    return longest


def ahead(rt: ModuleType, lanes: int) -> None:
    """Proves the libraries that are lacking, and what changes meanwhile."""
    to = TOP / "out/ahead"
    to.mkdir(parents=True, exist_ok=True)
    running: dict[str, tuple[subprocess.Popen[bytes], str]] = {}
    refused: dict[str, str | None] = {}

    def say(*words: object) -> None:
        with open(to / "log", "a", encoding="utf-8") as log:
            print(time.strftime("%H:%M:%S"), *words, file=log)

    while True:
        repository.remember_stamps(rt)
        all_crates = crates(rt)
        for name, (build, stamp) in list(running.items()):
            if build.poll() is not None:
                del running[name]
                say("built" if build.returncode == 0 else "REFUSED", name)
                refused[name] = stamp if build.returncode else None
        held = (to / "hold").read_text(encoding="utf-8").split() if (to / "hold").exists() else []
        built, ready = set(), []
        for name, crate in all_crates.items():
            if crate.is_program or name.endswith("_vectors") or any(it.name not in built for it in crate.below()):
                continue
            if name not in running and crate.is_built():
                built.add(name)
            elif name not in running and name not in held and refused.get(name) != crate.stamp():
                ready.append(name)
        longest = chains(all_crates)
        for name in sorted(ready, key=lambda it: -longest[it])[: lanes - len(running)]:
            say("begins", name)
            with open(to / f"{name}.log", "w", encoding="utf-8") as log:
                words: list[str | pathlib.Path] = [TOP / "gate" / "seed", "--build", name]
                build = subprocess.Popen(words, stdin=subprocess.DEVNULL, stdout=log, stderr=subprocess.STDOUT)
            running[name] = build, all_crates[name].stamp()
        if not running and not ready:
            return
        # To look at all files takes a second: that is done where one has ended, and each minute.
        for _ in range(12):
            time.sleep(5)
            if any(build.poll() is not None for build, _ in running.values()):
                break


def main() -> int:
    parser = argparse.ArgumentParser(usage=__doc__.split("\n\n")[1].removeprefix("usage: "))
    parser.add_argument("--from", dest="clones", nargs="+", default=[])
    parser.add_argument("--look", action="store_true")
    parser.add_argument("--build")
    parser.add_argument("--check")
    parser.add_argument("--ahead", action="store_true")
    parser.add_argument("--lanes", type=int, default=os.cpu_count())
    given, rest = parser.parse_known_args()
    if rest and not given.check:
        parser.error(f"unknown: {' '.join(rest)}")
    clones = [os.path.abspath(it) for it in given.clones]
    rt = loaded()
    if given.look:
        look(rt)
        return 0
    if given.build:
        # So it has the stamp of the files with which it began.
        repository.remember_stamps(rt)
        sys.exit(crates(rt)[given.build].build_rlib(["--jobs", "2"], anew=False))
    if given.check:
        check(rt, given.check, rest)
    if given.ahead:
        ahead(rt, given.lanes)
    else:
        seed(rt, clones)
    return 0
