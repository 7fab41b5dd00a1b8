"""Runs `pathserve check` with and without `--explain` on drawn objects, and on the same with a fault put in.

usage: gate/draw_explanations [--program FILE] [SEED ..]

Standard output and the status have to be the same with and without. Standard error has to begin at the line and the
column of the byte of the fault, as Python counts them; where nothing is refused it has at most notes on clients that are
gone within a sequence, and on what can be refused before a `;`, and without `--explain` nothing points to them. Each path that is proposed is written into the source where it is said to belong, and the object has to be accepted then. The sources are
those of gate/draw_objects, and follow from their seeds.

 The last line is `draw_explanations: N passed, M failed`: sources. The exit
status is 0 where M is 0 and N is not.
"""
import pathlib
import random
import re
import subprocess
import tempfile

from gate import seeds
from gate.draw_objects import source_of
from gate.tried import program, whole

SEEDS = range(1, 626)
SECONDS = 60
# So many sources with a fault are made of each drawn one.
FAULTY = 4
PIECES = (b" ; ", b" end ", b" if ", b" 5 ", b" zz ", b"(", b"'", b"\t", b"\xc3\xa9")
FAULT = re.compile(rb"(?:lex|path|decl) \d+ \w+ at (\d+)\n")
PROPOSAL = re.compile(rb"(?m)^SOURCE:(\d+):(\d+): with this path, put here, object `(\w+)` is accepted\n.*\n.*\n      \+ +(path .*)$")
# What is said in place of a path.
HINT = b"--explain tells more\n"
NO_ROOM = b"no further path has room"
# What is said of a client that is gone within a sequence, and of what can be refused there.
NOTES = re.compile(rb"` never calls `|: a refused call counts\n")


def drawn_source(seed: int) -> bytes:
    """The source that gate/draw_objects draws from this seed."""
    return source_of(seed)[0].encode("ascii")


def with_fault(draw: random.Random, source: bytes) -> bytes:
    """The source cut, or with a byte, a stretch or a piece changed: mostly one with a fault."""
    at = draw.randrange(len(source))
    kind = draw.randrange(4)
    if kind == 0:
        return source[:at]
    if kind == 1:
        return source[:at] + bytes([draw.randrange(256)]) + source[at + 1 :]
    if kind == 2:
        return source[:at] + source[at + draw.randrange(1, 9) :]
    return source[:at] + draw.choice(PIECES) + source[at:]


def checked(folder: pathlib.Path, source: bytes, *flags: str) -> tuple[int, bytes, bytes]:
    """The status of a check of a source, and what it wrote, where the file is named SOURCE."""
    (folder / "SOURCE").write_bytes(source)
    words: list[str | pathlib.Path] = [program(), "check", *flags, "SOURCE"]
    ran = subprocess.run(words, cwd=folder, stdin=subprocess.DEVNULL, capture_output=True, timeout=SECONDS)
    return ran.returncode, ran.stdout, ran.stderr


def place(source: bytes, at: int) -> bytes:
    """How a note at a byte begins."""
    front = source[:at]
    return b"SOURCE:%d:%d: " % (front.count(b"\n") + 1, at - (front.rfind(b"\n") + 1) + 1)


def with_path(source: bytes, line: int, column: int, path: bytes) -> bytes:
    """The source with a path at this line and column."""
    lines = source.split(b"\n")
    at = sum(len(it) + 1 for it in lines[: line - 1]) + column - 1
    return source[:at] + b" " + path + source[at:]


def fault_of(folder: pathlib.Path, source: bytes) -> str | None:
    """What is wrong with the explanation of a source, or none."""
    status, output, error = checked(folder, source, "--no-explain")
    explained, hinted = checked(folder, source, "--explain"), checked(folder, source)
    if error or explained[:2] != (status, output) or hinted[:2] != (status, output):
        return "the answer differs"
    if not explained[2].isascii():
        return "not ASCII"
    if status == 0:
        # Of what is accepted it is told alone what a client leaves that is gone within a sequence, and what can be refused
        # there, and nobody is pointed to it.
        notes = [it for it in explained[2].splitlines() if it.startswith(b"SOURCE:")]
        if hinted[2] or len(notes) != len(NOTES.findall(explained[2])) or (notes and b";" not in source):
            return "another note at what is accepted"
        return None
    if hinted[2] != (HINT if explained[2] else b""):
        return "no hint, or one at nothing"
    if not explained[2]:
        return "no explanation"
    told = FAULT.fullmatch(output)
    if told and not explained[2].startswith(place(source, int(told[1]))):
        return "another place"
    proposals = PROPOSAL.findall(explained[2])
    if len(proposals) + explained[2].count(NO_ROOM) != output.count(b" refused 1 "):
        return "not a path for each object that is refused"
    for line, column, name, path in proposals:
        answer = checked(folder, with_path(source, int(line), int(column), path))[1]
        if b"object %s accepted\n" % name not in answer:
            return f"a path with which {name.decode()} is not accepted"
    return None


def tried(seed: int) -> tuple[int, list[str]]:
    """How many sources of a seed passed, and what is said of those that failed."""
    draw, drawn = random.Random(seed), drawn_source(seed)
    sources = [drawn] + [with_fault(draw, drawn) for _ in range(FAULTY)]
    said = []
    with tempfile.TemporaryDirectory(prefix="explain-") as folder:
        for number, source in enumerate(sources):
            try:
                fault = fault_of(pathlib.Path(folder), source)
            except subprocess.TimeoutExpired:
                fault = f"not ended after {SECONDS} seconds"
            if fault:
                said.append(f"seed {seed}, source {number}: {fault}: {source!r}")
    return len(sources) - len(said), said


def main() -> int:
    found = seeds.each(tried, seeds.asked(__doc__) or SEEDS)
    failed = [line for _, said in found for line in said]
    for line in failed[:8]:
        print(line)
    passed = sum(it for it, _ in found)
    print(f"draw_explanations: {passed} passed, {len(failed)} failed")
    return 0 if passed and not failed else 1


load_tests = whole(main)
