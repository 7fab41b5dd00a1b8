"""Runs the built program on the cases of cases/, and compares what it answers. cases/README.md has the notation.

usage: gate/run_cases [--program FILE] [FOLDER|FILE|WORDS OF A TITLE ..]
       gate/run_cases --input TITLE    prints the inputs of the cases of this title, and runs nothing
"""
import concurrent.futures
import contextlib
import fcntl
import os
import struct
import subprocess
import sys
import tempfile
import termios
import time
from typing import IO, BinaryIO

from gate.cases import TOP, BadCase, Case, Placed, cases_of, chosen_cases
from gate.difference import difference, shown
from gate.tried import given_words, program, there, whole

SECONDS = 60
# The status of a run, and what it wrote to standard output and standard error.
Ran = tuple[int, bytes, bytes]


def waiting(stream: IO[bytes]) -> int:
    """How many bytes stand in a pipe that were not read."""
    room = bytearray(4)
    fcntl.ioctl(stream.fileno(), termios.FIONREAD, room)
    return struct.unpack("i", room)[0]


def feed(process: "subprocess.Popen[bytes]", text: bytes, piece: int) -> None:
    """Writes a text to a process, so many bytes at a time, each piece once the one before it was read."""
    stdin = there(process.stdin)
    end = time.monotonic() + SECONDS
    try:
        for at in range(0, len(text), piece):
            stdin.write(text[at : at + piece])
            stdin.flush()
            while waiting(stdin) and process.poll() is None and time.monotonic() < end:
                time.sleep(0)
    except BrokenPipeError:
        pass


def answer(case: Case, folder: str) -> Ran:
    """The status of a case's run, and what it wrote to standard output and standard error, where an input is named by its name."""
    status, output, error = ran_in(case, folder)
    return status, output, error.replace(os.fsencode(folder) + b"/", b"")


def ran_in(case: Case, folder: str) -> Ran:
    """The status of a case's run, and what it wrote to standard output and standard error."""
    placed, pipe = Placed(case, program(), folder), subprocess.PIPE
    with contextlib.ExitStack() as stack:
        out: int | BinaryIO = stack.enter_context(open(placed.output, "wb")) if placed.output else pipe
        if case.piece:
            process = subprocess.Popen(placed.words, stdin=pipe, stdout=out, stderr=pipe, cwd=TOP)
            feed(process, placed.input, case.piece)
            output, error = process.communicate(timeout=SECONDS)
            return process.returncode, output or b"", error
        if placed.file:
            source = os.open(placed.file, os.O_RDONLY)
            stack.callback(os.close, source)
            ran = subprocess.run(placed.words, stdin=source, stdout=out, stderr=pipe, cwd=TOP, timeout=SECONDS)
        else:
            ran = subprocess.run(placed.words, input=placed.input, stdout=out, stderr=pipe, cwd=TOP, timeout=SECONDS)
    return ran.returncode, ran.stdout or b"", ran.stderr


def report(case: Case, fault: str, ran: Ran) -> str:
    """What is said of a case that failed."""
    status, output, error = ran
    lines = [f"{case.name()}: {fault} (- expected, + answered)" if fault != "status" else f"{case.name()}: status"]
    if fault == "status":
        lines.append(f"    expected {case.status}, ended with {status}")
    elif fault == "error":
        lines += difference(case.error, error)
    elif case.kind != "output":
        lines += [f"    expected a source that {case.kind}, ended with {status}", *[f"    {shown(it)}" for it in output.splitlines()[-3:]]]
    else:
        lines += difference(there(case.output), output)
    return "\n".join(lines)


def tried(case: Case) -> str | None:
    """What is said of a case that fails, or none."""
    with tempfile.TemporaryDirectory(prefix="cases-") as folder:
        try:
            ran = answer(case, folder)
        except subprocess.TimeoutExpired:
            return f"{case.name()}: not ended after {SECONDS} seconds"
        except (BadCase, KeyError, OSError) as error:
            return f"{case.name()}: {error}"
    fault = case.fault(*ran)
    return report(case, fault, ran) if fault else None


def main() -> int:
    words = given_words()
    if words[:1] == ["--input"]:
        for case in chosen_cases(words[1:], cases_of)[0]:
            for text in case.inputs.values():
                sys.stdout.buffer.write(text)
        return 0
    # Once, before the threads ask.
    program()
    found, bad = chosen_cases(words, cases_of)
    for line in bad:
        print(line)
    with concurrent.futures.ThreadPoolExecutor(len(os.sched_getaffinity(0))) as pool:
        said = list(pool.map(tried, found))
    for fault in said:
        if fault:
            print(fault)
    failed = sum(1 for it in said if it) + len(bad)
    passed = len(said) - (failed - len(bad))
    print(f"run_cases: {passed} passed, {failed} failed")
    return 0 if passed and not failed else 1


load_tests = whole(main)
