"""Measures `pathserve run` on a script of 65,536 calls of `cell` (call, steps, finish), sent over a pipe.

usage: bench/script [--program FILE] [RUNS]

Per run: microseconds a call after 1, 30,000 and 60,000 calls of history, in bulk (1,000 calls are sent, and all their answers
read) and in turn (each line is sent once the answer to the one before it was read); seconds for all 65,536 calls in one
piece of input; and the most memory that was resident. Then a call more, which has to be refused as HistoryFull. The program
is the one that ./pathserve runs, or FILE. It is no part of the gate.
"""
import os
import subprocess
import threading
import time
from collections.abc import Iterable, Iterator

from gate.tried import there
from tools.ready import TOP, given_words, program

OBJECTS = TOP / "examples" / "objects" / "cell.pp"
CALLS = 65_536
AT_ONCE = 1_000
HISTORIES = (1, 30_000, 60_000)


def lines_of(number: int) -> Iterator[tuple[str, str]]:
    """The three lines of a call, and the answer to each."""
    yield f"call s1 put {number}\n", f"call {number}\nstarted {number}\n"
    yield f"steps {number}\n", f"steps {number} 4\n"
    yield f"finish {number}\n", f"done {number}\n"


def text_of(numbers: Iterable[int]) -> tuple[bytes, bytes]:
    """The lines of calls, and their answers."""
    both = [line for number in numbers for line in lines_of(number)]
    return "".join(it for it, _ in both).encode(), "".join(it for _, it in both).encode()


class Script:
    """The program on a script that is sent bit by bit."""

    def __init__(self) -> None:
        words = [str(program()), "run", str(OBJECTS), "/dev/stdin"]
        self.process = subprocess.Popen(words, stdin=subprocess.PIPE, stdout=subprocess.PIPE, bufsize=0)
        self.stdin, self.stdout = there(self.process.stdin), there(self.process.stdout)
        self.stdin.write(b"object cell\n")
        self.next = 1

    def ask(self, text: bytes, answer: bytes) -> None:
        """Sends a text and reads its answer, which has to be this one."""
        sender = threading.Thread(target=self.stdin.write, args=(text,)) if len(text) > 4096 else None
        sender.start() if sender else self.stdin.write(text)
        found = bytearray()
        while len(found) < len(answer):
            piece = os.read(self.stdout.fileno(), 1 << 16)
            if not piece:
                break
            found += piece
        if sender:
            sender.join()
        if found != answer:
            raise SystemExit(f"another answer: {bytes(found[:200])!r}")

    def call(self, count: int) -> float:
        """Makes so many calls in bulk, and gives the seconds that they took."""
        text, answer = text_of(range(self.next, self.next + count))
        began = time.perf_counter()
        self.ask(text, answer)
        self.next += count
        return time.perf_counter() - began

    def call_in_turn(self, count: int) -> float:
        """Makes so many calls, each line once the one before it was answered, and gives the seconds that they took."""
        asked = [(a.encode(), b.encode()) for n in range(self.next, self.next + count) for a, b in lines_of(n)]
        began = time.perf_counter()
        for line, answer in asked:
            self.ask(line, answer)
        self.next += count
        return time.perf_counter() - began

    def reach(self, number: int) -> None:
        """Makes calls until so many were made."""
        while self.next <= number:
            self.call(min(AT_ONCE, number + 1 - self.next))

    def end(self) -> float:
        """Ends the script, and gives the most memory that was resident, in MB."""
        self.stdin.close()
        _, status, used = os.wait4(self.process.pid, 0)
        self.process.returncode = os.waitstatus_to_exitcode(status)
        if self.process.returncode:
            raise SystemExit(f"status {self.process.returncode}")
        return used.ru_maxrss / 1024


def measure() -> list[float]:
    """The figures of one run."""
    script, figures = Script(), []
    for history in HISTORIES:
        script.reach(history)
        figures.append(script.call(AT_ONCE) / AT_ONCE * 1e6)
        figures.append(script.call_in_turn(AT_ONCE) / AT_ONCE * 1e6)
    script.reach(CALLS)
    script.ask(b"call s1 put 1\n", b"no HistoryFull\n")
    resident = script.end()
    whole = Script()
    seconds = whole.call(CALLS)
    whole.end()
    return [*figures, seconds, resident]


def main() -> None:
    words = given_words()
    runs = int(words[0]) if words else 3
    heads = [f"{way} at {history}" for history in HISTORIES for way in ("bulk", "turn")]
    print("microseconds a call:", ", ".join(heads), "| seconds for all | MB")
    for _ in range(runs):
        *times, seconds, resident = measure()
        print(" ".join(f"{it:.1f}" for it in times), "|", f"{seconds:.2f}", "|", f"{resident:.1f}", flush=True)
