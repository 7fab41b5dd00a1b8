"""Runs the program on all that the repository has to try it with: cases, sessions, drawn scripts, documents and more.

usage: tools/test [--program FILE]    in minutes: on a program that is built without its proof, where none stands, or on
                                      FILE. It proves nothing, and compares what the program does with what it has to do
       tools/test --proved            the merge gate: `rt ci` proves each crate and runs its tests; the wrong bodies of
                                      crates that changed are tried and recorded; then all of it on the proved program
       tools/test --proved --some     behind these two wrong bodies of each crate, which the sources draw, are tried too
       tools/test --proved --all      before a release: all wrong bodies of each crate are tried and recorded

Each part runs, also where one before it failed; as many run at once as there are processors (two at least), and what
each said comes whole, in a fixed order. Where a proof has only the program left, which takes a processor or two for
many minutes, the parts that need none begin beside it, below its priority. Every 20 seconds a line says how far it is.
Before it proves, it says which crates, and how long that took last. At the end stands what each part took, in minutes
on the clock and of the processors, and what it passed and failed; of each part that failed the lines that it printed
last come once more. A part whose tool of the system is not there is not run, and fails nothing. The last line is `N
passed, M failed`, over all parts; the exit status is 0 only where M is 0.
"""
import collections
import contextlib
import ctypes
import os
import pathlib
import re
import resource
import signal
import subprocess
import sys
import tempfile
import time
from collections.abc import Iterable, Sequence

from tools import progress, ready, repository
from tools.repository import TOP

# A part: its command at the top of the repository, and whether it takes the program that is tried, its last line counts
# what passed and failed (else it is one thing, which passes with status 0), there may be nothing for it to do, and its
# lines are shown as they come; and what it is given more where the crates are proved.
Part = collections.namedtuple("Part", "words takes_program counts may_rest is_shown more", defaults=(False, True, False, False, ()))
BUILD = Part(("tools/make_ready",), counts=False)
PROVE = Part(("rt", "ci"), is_shown=True)
TRY = Part(("gate/try_wrong_bodies",), may_rest=True, is_shown=True)
CHECK = Part(("gate/try_wrong_bodies", "--check"))
# What is tried of wrong bodies, by the word behind --proved.
WRONG_BODIES = {
    "": (TRY, CHECK),
    "--some": (TRY, CHECK, Part(("gate/try_wrong_bodies", "--draw", "2"), is_shown=True)),
    "--all": (Part(("gate/try_wrong_bodies", "--all"), is_shown=True), CHECK),
}
# These need no program, nor anything that a proof makes. First the one that builds a program of its own behind a proof,
# and so takes longest.
FREE = (
    Part(("gate/public_calls",), more=("--count",)),
    *(Part((it,)) for it in ("gate/crash_journal", "gate/draw_schedules", "gate/try_asked", "gate/try_assumptions", "gate/try_cases", "gate/try_clauses_kept", "gate/try_crates", "gate/try_editors", "gate/try_timeline", "gate/try_types", "gate/try_wrapper")),
)
# In the order in which they are begun: first those that take long, or wait much.
PARTS = tuple(
    Part((f"gate/{it}",), takes_program=True)
    for it in (
        "try_keep",
        "refuse_memory",
        "try_documents",
        "refuse_server",
        "try_deaf",
        "run_sessions",
        "try_pathclient",
        "try_client",
        "cut_connections",
        "refuse_kept",
        "try_starts",
        "try_crash",
        "spoil",
        "try_holds",
        "try_kept",
        "draw_kept",
        "try_tasks",
        "try_full_disk",
        "try_faults",
        "try_folders",
        "try_epochs",
        "try_release",
        "try_socket",
        "try_standby",
        "try_status",
        "try_page",
        "draw_scripts",
        "draw_audits",
        "draw_sessions",
        "run_cases",
        "draw_explanations",
        "draw_objects",
        "draw_paths",
        "draw_stuck",
        "try_terminal",
    )
)
COUNT = re.compile(rb"(?:\S+: )?(\d+) passed, (\d+) failed")
LACKS = re.compile(rb"not run: (\S+)")
Result = collections.namedtuple("Result", "name wall processor passed failed said lacks", defaults=(None,))
# So many lines of a part that failed are printed once more at the end.
LINES_SAID = 30
# Seconds after which a line says how far it is, and between two looks at the parts.
SILENCE, LOOKS = 20, 0.05
# So far below a proof are the parts beside it.
NICE = 10


def say(text: object) -> None:
    print(f"tools/test: {text}", flush=True)


def clock(seconds: float) -> str:
    return f"{int(seconds) // 60}:{int(seconds) % 60:02}"


def counted(part: Part, status: int, last: bytes) -> tuple[int, int, str | None]:
    """How many things a part passed and failed, by its last line and its status, and what is wrong with it, if anything."""
    if not part.counts:
        return (1, 0, None) if status == 0 else (0, 1, f"ended with status {status}")
    count = COUNT.fullmatch(last)
    if not count:
        return 0, 1, f"ended with status {status} and no count"
    passed, failed = int(count[1]), int(count[2])
    if status and not failed:
        return passed, 1, f"ended with status {status}"
    if passed == failed == 0 and not part.may_rest:
        return 0, 1, "passed nothing"
    return passed, failed, None


def begin_group(nice: int) -> None:
    """Makes this process the first of a group, so far below what began it in priority."""
    os.setpgrp()
    os.nice(nice)


class Run:
    """A run of a part. What it says goes to a file, so that none waits for another one to be shown."""

    def __init__(self, part: Part) -> None:
        self.part, self.name = part, " ".join(part.words)
        self.process: subprocess.Popen[bytes] | None = None
        self.result: Result | None = None
        self.output, self.shown, self.rest = tempfile.TemporaryFile(), 0, b""

    def begin(self, words: Sequence[str], nice: int) -> None:
        """Begins it, so far below this tool in priority."""
        self.begun = time.monotonic()
        # A tool in Python would else keep what it prints to itself until it ends.
        env = {**os.environ, "PYTHONUNBUFFERED": "1"}
        if self.part is PROVE and ready.roomy_lanes():
            # (`rt ci` reckons two to three times the memory that a proof takes)
            env.setdefault("RT_JOBS", str(ready.roomy_lanes()))
        null, same = subprocess.DEVNULL, subprocess.STDOUT
        try:
            # (what a terminal sends comes to this tool alone, which hands it on)
            self.process = subprocess.Popen(
                words, cwd=TOP, env=env, preexec_fn=lambda: begin_group(nice), stdin=null, stdout=self.output, stderr=same
            )
        except OSError as error:
            self.result = Result(self.name, 0, 0, 0, 1, [f"did not run: {error.strerror}".encode()])

    def is_under_way(self) -> bool:
        return self.process is not None and self.result is None

    def look(self) -> None:
        """Looks whether it has ended."""
        assert self.process
        number, status, used = os.wait4(self.process.pid, os.WNOHANG)
        if number:
            self.process.returncode = os.waitstatus_to_exitcode(status)
            self.result = self.judged(time.monotonic() - self.begun, used.ru_utime + used.ru_stime)

    def judged(self, wall: float, processor: float) -> Result:
        """What came of it, by how it ended."""
        lines = [it.strip() for it in self.text(0).splitlines() if it.strip()]
        last = lines[-1] if lines else b""
        assert self.process
        if self.process.returncode == 0 and (lacks := LACKS.fullmatch(last)):
            return Result(self.name, wall, processor, 0, 0, [], lacks[1].decode())
        passed, failed, why = counted(self.part, self.process.returncode, last)
        said = [*lines, why.encode()] if why else lines
        return Result(self.name, wall, processor, passed, failed, said[-LINES_SAID:])

    def text(self, start: int) -> bytes:
        """What it has said, from a place on."""
        file = self.output.fileno()
        return os.pread(file, os.fstat(file).st_size - start, start)

    def show(self) -> list[str]:
        """Shows what it has said since this was called last, and returns the lines of it that are whole."""
        text = self.text(self.shown)
        self.shown += len(text)
        sys.stdout.buffer.write(text)
        sys.stdout.flush()
        *lines, self.rest = (self.rest + text).split(b"\n")
        return [it.decode(errors="replace") for it in lines]

    def tell(self) -> None:
        """Tells what came of it, behind all that it said."""
        if not self.part.is_shown:
            print(f"\n==== {self.name}", flush=True)
        self.show()
        assert self.result
        if self.result.failed and self.result.said:
            print(f"==== {self.name}: {self.result.said[-1].decode(errors='replace')}", flush=True)


class Gate:
    """What has ended of the parts, and what runs."""

    def __init__(self) -> None:
        self.begun, self.lanes = time.monotonic(), max(2, len(os.sched_getaffinity(0)))
        self.due = self.begun + SILENCE
        self.results: list[Result] = []
        self.runs: list[Run] = []
        # The program that is tried, whether its crates are proved, and how far a proof of them is.
        self.program: pathlib.Path | None = None
        self.proves = False
        self.proof: progress.Progress | None = None
        # How many signals came that end this tool, and how many were handed on.
        self.signals, self.handed_on = 0, 0
        for it in (signal.SIGINT, signal.SIGTERM, signal.SIGHUP):
            signal.signal(it, self.on_signal)

    def on_signal(self, *_: object) -> None:
        self.signals += 1

    def words(self, part: Part) -> list[str]:
        """The command of a part."""
        program = ("--program", str(self.program)) if part.takes_program else ()
        return [*part.words, *program, *(part.more if self.proves else ())]

    def under_way(self) -> list[Run]:
        return [it for it in self.runs if it.is_under_way()]

    def is_proving(self) -> bool:
        return any(it.part is PROVE for it in self.under_way())

    def can_begin(self, run: Run) -> bool:
        if run.process or run.result or self.signals or len(self.under_way()) >= self.lanes:
            return False
        if self.is_proving() and not (self.proof and self.proof.is_at(ready.PROGRAM)):
            return False
        return bool(self.program or not run.part.takes_program)

    def run(self, *parts: Part) -> None:
        """Runs these parts, as many at once as there are processors, and tells of them in their order."""
        self.runs = [Run(it) for it in parts]
        untold = list(self.runs)
        # Without a program what takes it is not run, once nothing is under way that builds one.
        while any(it.is_under_way() or self.can_begin(it) for it in self.runs):
            for it in filter(self.can_begin, self.runs):
                if it.part.is_shown:
                    print(f"\n==== {it.name}", flush=True)
                it.begin(self.words(it.part), NICE if self.is_proving() else 0)
            time.sleep(LOOKS)
            self.hand_on()
            for it in self.under_way():
                self.look_at(it)
            while untold and untold[0].result:
                self.tell(untold.pop(0))
            if time.monotonic() > self.due:
                self.tell_how_far()
        for it in untold:
            if it.result:
                self.tell(it)

    def look_at(self, run: Run) -> None:
        run.look()
        for line in run.show() if run.part.is_shown else ():
            if self.proof:
                self.proof.heard(line, time.monotonic())
        if run.part is BUILD and run.result and not run.result.failed:
            self.program = pathlib.Path(run.result.said[-1].decode())

    def tell(self, run: Run) -> None:
        run.tell()
        assert run.result
        self.results.append(run.result)

    def tell_how_far(self) -> None:
        now = time.monotonic()
        self.due = now + SILENCE
        if self.proof and [it.part for it in self.under_way()] == [PROVE]:
            how = self.proof.silent(now)
        else:
            ended, running = sum(it.result is not None for it in self.runs), self.under_way()
            how = f"{ended} of {len(self.runs)} parts, now " + ", ".join(f"{it.name} ({clock(now - it.begun)})" for it in running)
        say(f"{clock(now - self.begun)}: {how}")

    def hand_on(self) -> None:
        """Hands on that this tool was interrupted. It waits until what runs has ended, which puts back what it has set aside."""
        if self.signals == self.handed_on:
            return
        self.handed_on = self.signals
        say(f"interrupted, waiting for {', '.join(it.name for it in self.under_way()) or 'nothing'} to end")
        for it in self.under_way():
            # (its own way to send one waits for those that have ended)
            assert it.process
            os.kill(it.process.pid, signal.SIGINT)


def to_prove() -> list[list[str]] | None:
    """The crates that `rt ci` has yet to prove, and those whose tests, as `gate/seed --look` tells them."""
    ran = subprocess.run([TOP / "gate" / "seed", "--look"], stdin=subprocess.DEVNULL, capture_output=True, text=True)
    told = dict(it.split(":", 1) for it in ran.stdout.splitlines() if ":" in it)
    return [told[it].split() for it in ("to prove", "tests to prove")] if ran.returncode == 0 else None


def plan() -> progress.Progress:
    """Says what `rt ci` will prove, and how long that took last, and returns what tells how far it is."""
    lines, found = repository.crates(), to_prove()
    if not found:
        say("it proves all that the kit has not kept")
        return progress.Progress(lines, time.monotonic())
    crates, tests = found
    proof = progress.Progress(lines, time.monotonic(), tests, [it for it in lines if it not in crates])
    left = proof.left(time.monotonic())
    last = "how long that takes is not known of each" if left is None else f"some {progress.minutes(left)}, by the last time"
    say(f"it proves {len(crates)} crates of {len(lines)}: {' '.join(crates) or 'none'}")
    say(f"and the tests of {len(tests)}: {' '.join(tests) or 'none'}; {last if crates or tests else 'the kit has kept all'}")
    return proof


def prove(gate: Gate) -> None:
    """Proves all crates, and runs what needs no program. Where all are proved ./pathserve runs the proved program."""
    gate.proof, gate.proves = plan(), True
    of_sources = ready.digest(TOP, ready.kit())
    gate.run(PROVE, *FREE)
    gate.proof.keep()
    if not gate.results:
        return
    made = TOP / "crates" / ready.PROGRAM / "out" / ready.PROGRAM
    if made.exists():
        gate.program = made
    if not gate.results[0].failed and ready.digest(TOP, ready.kit()) == of_sources:
        ready.put(ready.PROVED, made, of_sources)
        gate.program = ready.OUT / ready.PROVED / ready.PROGRAM


def keep_orphans() -> None:
    """Has processes that outlive what started them handed to this one, so that their time is counted too."""
    adopts = 36  # PR_SET_CHILD_SUBREAPER
    ctypes.CDLL(None).prctl(adopts, 1, 0, 0, 0)


def processor_seconds() -> float:
    """What all processes took that this one has started and that have ended, and those that were handed to it."""
    end = time.monotonic() + 1
    with contextlib.suppress(ChildProcessError):
        while time.monotonic() < end:
            if os.waitpid(-1, os.WNOHANG)[0] == 0:
                time.sleep(LOOKS)
    used = resource.getrusage(resource.RUSAGE_CHILDREN)
    return used.ru_utime + used.ru_stime


def print_table(gate: Gate, lacking: Iterable[Part]) -> None:
    """What each part took, those that did not run included."""
    rows = [("part", "minutes", "processor minutes", "passed", "failed")]
    for it in gate.results:
        counts = ("-", f"not run: {it.lacks}") if it.lacks else (str(it.passed), str(it.failed))
        rows.append((it.name, f"{it.wall / 60:.2f}", f"{it.processor / 60:.2f}", *counts))
    rows += [(" ".join(it.words), "-", "-", "-", "not run") for it in lacking]
    passed, failed = (str(sum(it[at] for it in gate.results)) for at in (3, 4))
    rows.append(("all", f"{(time.monotonic() - gate.begun) / 60:.2f}", f"{processor_seconds() / 60:.2f}", passed, failed))
    widths = [max(map(len, column)) for column in zip(*rows)]
    print()
    for name, *numbers in rows:
        print(name.ljust(widths[0]), *(it.rjust(width) for it, width in zip(numbers, widths[1:])), sep="  ")


def print_failures(results: Iterable[Result]) -> None:
    """The last lines of the parts that failed: of a long output only the end may be kept."""
    for it in results:
        if it.failed:
            print(f"\n==== {it.name} said last:")
            for line in it.said:
                print(line.decode(errors="replace")[:1000])


def run_all(gate: Gate, wrong_bodies: Iterable[Part]) -> None:
    """Runs all parts, and those of wrong bodies, each by itself, where there are some: then it proves all crates."""
    if wrong_bodies:
        prove(gate)
        for it in wrong_bodies:
            gate.run(it)
        gate.run(*PARTS)
    elif gate.program:
        gate.run(*FREE, *PARTS)
    else:
        gate.run(BUILD, *FREE, *PARTS)


def end(gate: Gate, wanted: Iterable[Part]) -> int:
    """Says what came of all parts, and returns the exit status."""
    names = [it.name for it in gate.results]
    lacking = [it for it in wanted if " ".join(it.words) not in names]
    print_table(gate, lacking)
    print_failures(gate.results)
    failed = sum(it.failed for it in gate.results) + len(lacking)
    print(f"{sum(it.passed for it in gate.results)} passed, {failed} failed", flush=True)
    return 1 if failed else 0


def main() -> int:
    is_gate = sys.argv[1:2] == ["--proved"]
    word = " ".join(sys.argv[2:]) if is_gate else ""
    if word not in WRONG_BODIES or not is_gate and ready.given_words():
        print(__doc__, file=sys.stderr)
        return 2
    wrong_bodies = WRONG_BODIES[word] if is_gate else ()
    keep_orphans()
    gate = Gate()
    if not is_gate:
        say("nothing is proved by this: it tries the program that ./pathserve runs, which is built without its proof")
        say("where none stands. The gate, which proves all, is tools/test --proved")
        gate.program = ready.program() if sys.argv[1:] else None
    try:
        run_all(gate, wrong_bodies)
    except ready.Stop as why:
        say(why)
    return end(gate, [*([PROVE, *wrong_bodies] if is_gate else []), *FREE, *PARTS])
