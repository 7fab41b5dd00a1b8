"""Runs `pathserve audit` on drawn traces, whole and with a line spoiled, and compares what it says with a slow audit.

usage: gate/draw_audits [--program FILE] [SEED ..]
       gate/draw_audits --trace SEED    prints the trace of this seed and what is said of it and of each change, and runs nothing

The traces are those that drawn scripts leave (drawn_scripts.py) in a slow world: each is legal. It is audited as it is, and
with other spaces, letters, zeros and line ends; then for every line without this line, with it twice, with it behind the next one,
with a byte of it changed, and with a digit of it changed. Some of the part lines are in the first format, as a program of before
wrote them. Where no sequence has a say it is also audited from an event on before which nothing runs: its part lines then tell
what the parts hold there, in each format in turn, with a byte or a digit of them changed now and then.
slow_audit.py works out what is to be said, and shares nothing with the program. All follows
from the seeds, so each run draws the same.

Without seeds also the scripts of cases/run are run, with a line `trace` at their end: each trace that the program gives is legal.
"""
import dataclasses
import pathlib
import subprocess
import tempfile
from collections.abc import Iterable, Iterator, Sequence as Sequence_
from typing import Any

from gate import seeds
from gate.cases import TOP, Case, Placed, cases_of, files
from gate.drawn_objects import OBJECTS
from gate.drawn_scripts import Script
from gate.seeds import Drawer
from gate.slow_audit import answer
from gate.slow_world import FORMATS, LONGEST, WRITTEN, Sequence
from gate.tried import program, whole

SEEDS = range(1, 61)
SECONDS = 60
WIDTH = 160
# What a byte is changed to, and a digit.
BYTES = b"\n\r\t\0 '#07azAZ~\x7f\x80\xff"
DIGITS = b"01234567899a"
# So often a trace is audited from a later event on.
LATER = 3


def ended_in(events: Iterable[tuple[Any, ...]]) -> int:
    return sum(it[0] == "end" for it in events)


def has_sequence(node: object) -> bool:
    """Whether a sequence stands in a path: it counts what was before, too."""
    inner = [*getattr(node, "members", ()), *([node.inner] if hasattr(node, "inner") else ())]
    return isinstance(node, Sequence) or any(map(has_sequence, inner))


class Trace:
    """The trace that the drawn script of a seed leaves: its lines, and how many calls have ended."""

    def __init__(self, seed: int) -> None:
        self.seed, self.draw = seed, Drawer(seed)
        self.script = Script(seed)
        self.script.draw_lines()
        world, contents = self.script.world, self.script.made.opening()
        parts = [world.part_line(name, contents, self.draw.of(FORMATS)) for name in contents]
        self.lines = [it.encode("ascii") for it in (f"object {world.made.name}", *parts, *world.event_lines())]
        self.ends = ended_in(world.trace)

    def respelled(self) -> bytes:
        """The text with other spaces, letters, zeros and line ends: it says the same."""
        lines = []
        for line in self.lines:
            # What stands in a text stays as it is.
            outside, *texts = line.decode("ascii").split(" '", 1)
            words = outside.split(" ")
            if words[0] == "object":
                words[1] = self.script.cased(words[1])
            elif words[0] in ("start", "end"):
                words[1] = self.script.number(words[1])
            if words[0] == "start":
                words[2] = "s" + self.script.number(words[2][1:])
                words[3:] = [self.script.cased(words[3]), *map(self.script.number, words[4:])]
            texts = [" '" + it for it in texts]
            lines.append("".join([self.script.spaced(words), *texts, *[" "] * self.draw.below(2)]).encode("ascii"))
        ends = [self.draw.of((b"\n", b"\n", b"\r\n")) for _ in lines]
        ends[-1] = self.draw.of((b"", b"\n", b"\r\n"))
        return b"".join(line + end for line, end in zip(lines, ends))

    def changed(self, line: bytes, places: Sequence_[int], choices: Iterable[int]) -> bytes:
        """The line with a byte at one of these places changed to one of these: mostly at one of the last places of many."""
        last = 24 if self.draw.below(3) else len(places)
        at = self.draw.of(places[-last:])
        byte = self.draw.of([it for it in choices if it != line[at]])
        return line[:at] + bytes([byte]) + line[at + 1 :] + b"\n"

    def later(self) -> Iterator[tuple[str, list[bytes], int]]:
        """The trace from an event on before which nothing runs, and how many calls end in it. A path that counts only what is open
        says the same of it."""
        world, made = self.script.world, self.script.made
        if any(has_sequence(it) for it in made.paths):
            return
        running, contents = 0, made.opening()
        quiet = [(0, contents)]
        for at, event in enumerate(world.trace, 1):
            running += 1 if event[0] == "start" else -1
            if event[0] == "end" and event[2][0] != "failed":
                call = world.calls[event[1] - 1]
                contents = made.applied(call.op, call.arguments, contents)[1]
            if not running:
                quiet.append((at, contents))
        for _ in range(LATER):
            at, contents = self.draw.of(quiet)
            events = world.trace[at:]
            for format in FORMATS:
                parts = [world.part_line(name, contents, self.fitting(format, held)) for name, held in contents.items()]
                lines = [f"object {made.name}", *parts, *world.event_lines(events)]
                yield f"from event {at + 1} on, in format {format}", [it.encode("ascii") for it in lines], ended_in(events)

    @staticmethod
    def fitting(format: int, held: Any) -> int:
        """A format in which a value can be written: this one, unless a text is too long for it."""
        texts = [it for it in (*held, *(held.values() if isinstance(held, dict) else ())) if isinstance(it, str)]
        return format if all(len(it) <= LONGEST[format] for it in texts) else WRITTEN

    def texts(self) -> Iterator[tuple[str, bytes, int | None]]:
        """The trace and its changes: what was done, the bytes, and how many calls end in it where it has to be legal."""
        whole = [it + b"\n" for it in self.lines]
        yield "as it is", b"".join(whole), self.ends
        yield "spelled otherwise", self.respelled(), self.ends
        for what, lines, ends in self.later():
            yield what, b"".join(it + b"\n" for it in lines), ends
            for at, line in enumerate(lines):
                if line.startswith(b"part "):
                    before, after = (b"".join(it + b"\n" for it in some) for some in (lines[:at], lines[at + 1 :]))
                    digits = range(line.rindex(b" ") + 1, len(line))
                    yield f"{what}, with a byte of line {at + 1} changed", before + self.changed(line, digits, BYTES) + after, None
                    # Mostly in the front of a value, which tells what it is.
                    front = digits[: self.draw.of((8, 8, 12, 24, len(digits)))]
                    yield f"{what}, with a digit of line {at + 1} changed", before + self.changed(line, front, DIGITS) + after, None
        for what, text in self.changes(whole):
            yield what, text, None

    def changes(self, whole: list[bytes]) -> Iterator[tuple[str, bytes]]:
        """The trace with one of its lines changed."""
        for at, line in enumerate(whole):
            before, after = b"".join(whole[:at]), b"".join(whole[at + 1 :])
            yield f"without line {at + 1}", before + after
            yield f"with line {at + 1} twice", before + line + line + after
            if at + 1 < len(whole):
                yield f"with lines {at + 1} and {at + 2} swapped", before + whole[at + 1] + line + b"".join(whole[at + 2 :])
            yield f"with a byte of line {at + 1} changed", before + self.changed(self.lines[at], range(len(line) - 1), BYTES) + after
            digits = [place for place, byte in enumerate(line) if byte in DIGITS[:10]]
            if digits:
                yield f"with a digit of line {at + 1} changed", before + self.changed(self.lines[at], digits, DIGITS) + after


def title(trace: Trace) -> str:
    return f"seed {trace.seed}, object {trace.script.made.name}"


def shown(line: bytes) -> str:
    text = line.decode("ascii", "backslashreplace")
    return text if len(text) <= WIDTH else f"{text[:WIDTH]}.. ({len(text)} characters)"


def fault(place: tuple[pathlib.Path, pathlib.Path], text: bytes, wanted: str, status: int) -> str | None:
    """What is wrong with what the program says of a trace, or none."""
    objects, file = place
    file.write_bytes(text)
    try:
        ran = subprocess.run([program(), "audit", objects, file], stdin=subprocess.DEVNULL, capture_output=True, timeout=SECONDS)
    except subprocess.TimeoutExpired:
        return f"not ended after {SECONDS} seconds"
    found = ran.stdout.decode("ascii", "backslashreplace")
    if (found, ran.stderr, ran.returncode) == (wanted + "\n", b"", status):
        return None
    return f"expected {wanted!r} and status {status}, answered {found!r} and {ran.stderr!r} with status {ran.returncode}"


def tried(seed: int) -> tuple[int, list[tuple[str, bytes]]]:
    """How many audits of a seed passed, and what is said of those that failed."""
    trace, passed, said = Trace(seed), 0, []
    with tempfile.TemporaryDirectory(prefix="draw-") as folder:
        place = pathlib.Path(folder) / "objects", pathlib.Path(folder) / "trace"
        place[0].write_text("".join(it.text for it in OBJECTS), encoding="ascii")
        for what, text, ends in trace.texts():
            wanted, status = answer(OBJECTS, text)
            if ends is not None and wanted != f"legal {ends}":
                said.append((f"{title(trace)}, {what}: the slow audit disagrees with the slow world: {wanted}", text))
                continue
            wrong = fault(place, text, wanted, status)
            if wrong:
                said.append((f"{title(trace)}, {what}: {wrong}", text))
            else:
                passed += 1
    return passed, said


def scripts() -> Iterator[Case]:
    """The cases of `run` whose script is read to its end."""
    for case in (it for path in files([TOP / "cases" / "run"]) for it in cases_of(path)):
        is_plain = case.words[:1] + case.words[2:] == ["run", "SCRIPT"] and case.kind == "output" and case.status == 0
        # A first line without an end may have no byte more.
        if is_plain and b"\n" in case.inputs["SCRIPT"]:
            yield case


def left(case: Case) -> str | None:
    """What is said of the trace that the script of a case leaves, or none where it is legal."""
    traced = dataclasses.replace(case, inputs={**case.inputs, "SCRIPT": case.inputs["SCRIPT"] + b"\ntrace\n"})
    with tempfile.TemporaryDirectory(prefix="draw-") as folder:
        placed, file = Placed(traced, program(), folder), pathlib.Path(folder) / "trace"
        ran = subprocess.run(placed.words, stdin=subprocess.DEVNULL, capture_output=True, cwd=TOP, timeout=SECONDS)
        text = (b"\n" + ran.stdout).rpartition(b"\nobject ")[2]
        text = b"object " + text
        wanted = f"legal {sum(it.startswith(b'end ') for it in text.splitlines())}"
        place = TOP / placed.words[2], file
        wrong = fault(place, text, wanted, 0)
    return f"the trace of {case.name()}: {wrong}" if wrong else None


def shown_trace(seed: int) -> str:
    trace = Trace(seed)
    lines = [f"{number:4} {shown(line)}" for number, line in enumerate(trace.lines, 1)]
    lines += [f"\n==== {title(trace)}", *(f"{what}: {answer(OBJECTS, text)[0]}" for what, text, _ in trace.texts())]
    return "".join(f"{it}\n" for it in lines)


def main() -> int:
    named = seeds.asked(__doc__, "--trace", shown_trace)
    found = seeds.each(tried, named or SEEDS, 1)
    traces = [] if named else seeds.each(left, scripts(), 8)
    unlawful = [it for it in traces if it]
    failed = [it for _, said in found for it in said]
    for line in unlawful:
        print(line)
    for line, _ in failed:
        print(line)
    if failed:
        print("  the first of these traces:", *[f"    {shown(it)}" for it in failed[0][1].splitlines()], sep="\n")
    passed, count = sum(it[0] for it in found) + len(traces) - len(unlawful), len(failed) + len(unlawful)
    print(f"draw_audits: {passed} passed, {count} failed")
    return 0 if passed and not count else 1


load_tests = whole(main)
