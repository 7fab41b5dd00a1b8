"""Runs `pathserve run` on drawn scripts, and compares each whole answer with that of a slow world.

usage: gate/draw_scripts [--program FILE] [SEED ..]
       gate/draw_scripts --script SEED    prints the script of this seed and what it has to answer, and runs nothing
       gate/draw_scripts --objects        prints the objects that the scripts run on, and runs nothing

slow_world.py and slow_holds.py work out the answers, and share nothing with the program. The scripts follow from their seeds, so
each run draws the same ones. Those of the later seeds have keys, sessions that come back, then calls that are done in one line,
lines that ask why calls wait, and at last objects with holds: how often each answer to these comes in all scripts is said, and
one that comes too seldom is a failure where no seeds are given.
"""
import collections
import difflib
import pathlib
import subprocess
import tempfile

from gate import seeds
from gate.drawn_scripts import FIRST_HOLD, Script, script_of, source_of
from gate.slow_world import Disagreement
from gate.tried import given_words, program, whole

SEEDS = range(1, 1001)
SECONDS = 60
WIDTH = 160
# The answers that sessions that come back get, what calls that are done in one line end with, and what questions are
# answered, and how often each has to come.
ANSWERS = ("resume", "no NoSession", "no BadKey", "no KeyReused", "repeat waiting", "repeat running", "repeat cancelled", "repeat done",
           "repeat refused", "repeat failed", "do: done", "do: refused", "do: call", "do: no UnknownOp", "do: no BadArgs",
           "do: no SessionBusy", "do: no Gone", "do: no NotHeld", "why: Waiting", "why: Running", "why: Ended", "why: Unknown", "path", "runs",
           "waits", "no NotHeld", "holds")
TIMES = 20


def shown(line: str) -> str:
    return line if len(line) <= WIDTH else f"{line[:WIDTH]}.. ({len(line)} characters)"


def difference(wanted: str, found: str) -> list[str]:
    a, b = ([shown(it) for it in text.splitlines()] for text in (wanted, found))
    lines = list(difflib.unified_diff(a, b, "expected", "answered", lineterm="", n=3))[2:]
    return [f"    {it}" for it in lines[:20] or ["the same but for line ends or the ends of long lines"]]


def title(script: Script) -> str:
    return f"seed {script.seed}, object {script.made.name}"


def counted(seed: int) -> tuple[str | None, dict[str, int]]:
    """What is said of the script of a seed where it fails, or none; and how often each of the answers has to come in it."""
    try:
        script = script_of(seed)
    except Disagreement as error:
        return f"seed {seed}: the slow world disagrees with itself: {error}", {}
    told = [*script.answers, *script.dones]
    return tried(script), {it: sum(f"{line} ".startswith(f"{it} ") for line in told) for it in ANSWERS}


def tried(script: Script) -> str | None:
    """What is said of a script that fails, or none."""
    with tempfile.TemporaryDirectory(prefix="draw-") as folder:
        objects, lines = pathlib.Path(folder) / "objects", pathlib.Path(folder) / "script"
        objects.write_text(source_of(script.seed), encoding="ascii")
        text = script.text()
        lines.write_bytes(text)
        try:
            ran = subprocess.run([program(), "run", objects, lines], stdin=subprocess.DEVNULL, capture_output=True, timeout=SECONDS)
        except subprocess.TimeoutExpired:
            return f"{title(script)}: not ended after {SECONDS} seconds"
    said = []
    answer = script.judged(ran.stdout.decode("ascii", "backslashreplace"))
    if answer != script.wanted():
        said += [f"{title(script)}: output (- expected, + answered)", *difference(script.wanted(), answer)]
    if ran.returncode != script.status:
        said.append(f"{title(script)}: expected status {script.status}, ended with {ran.returncode}")
    if ran.stderr:
        said.append(f"{title(script)}: standard error: {shown(repr(ran.stderr))}")
    if not said:
        return None
    script_lines = [f"    {shown(it)}" for it in text.decode("ascii").splitlines()]
    return "\n".join([*said, "  the script:", *script_lines])


def shown_script(seed: int) -> str:
    script = script_of(seed)
    text = script.text().decode("ascii")
    return f"{text}\n==== {title(script)}: status {script.status}, and\n{script.wanted()}"


def main() -> int:
    if given_words() == ["--objects"]:
        print(source_of(FIRST_HOLD), end="")
        return 0
    named = seeds.asked(__doc__, "--script", shown_script)
    found = seeds.each(counted, named or SEEDS)
    counts: collections.Counter[str] = sum((collections.Counter(it) for _, it in found), collections.Counter())
    print(", ".join(f"{it} {counts[it]}" for it in ANSWERS))
    failed = [it for it, _ in found if it]
    seeds.tell(failed)
    passed = len(found) - len(failed)
    if not named and (seldom := [it for it in ANSWERS if counts[it] < TIMES]):
        failed.append(f"these come less than {TIMES} times: " + ", ".join(seldom))
        print(failed[-1])
    print(f"draw_scripts: {passed} passed, {len(failed)} failed")
    return 0 if found and not failed else 1


load_tests = whole(main)
