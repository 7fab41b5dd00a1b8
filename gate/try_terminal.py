"""Runs the program where standard error is a terminal: what is refused is explained there without being asked.

usage: gate/try_terminal [--program FILE]

Standard error is the one end of a terminal, and what comes out at its other end is compared with what `--explain`
writes into a pipe. Standard output and the exit status have to be the same at a terminal and at a pipe, with and
without the flags. `try` has a prompt before each line where standard input is a terminal.
"""
import os
import pathlib
import pty
import subprocess
import sys
import tempfile
import threading
from collections.abc import Sequence

from gate.tried import TOP, given_words, program, whole

SECONDS = 60
HINT = b"--explain tells more\n"
FILES = {
    "fine.pp": (TOP / "examples/objects/cell.pp").read_bytes(),
    "refused.pp": (TOP / "examples/objects/solo.pp").read_bytes(),
    "faulty.pp": b"object a; var v : array [0] of integer; end;\n",
    "fine.script": b"object cell\ncall s1 get\n",
    "calls.script": b"object cell\ncall s1 gets\ncall s1 put\n",
    "bad.script": b"object cell\ncal s1 get\n",
    "refused.script": b"object solo\n",
    "fine.trace": b"object cell\npart v 0101000100000000\n",
    "bad.trace": b"object cell\npart v\n",
    "refused.trace": b"object solo\n",
}
# The words of a command, whether there is something to explain, and whether that is of a source.
COMMANDS = (
    ("check fine.pp", False, False),
    ("check refused.pp", True, True),
    ("check faulty.pp", True, True),
    ("run fine.pp fine.script", False, False),
    ("run fine.pp calls.script", True, False),
    ("run fine.pp bad.script", True, False),
    ("run refused.pp refused.script", True, True),
    ("run faulty.pp refused.script", True, True),
    ("audit fine.pp fine.trace", False, False),
    ("audit fine.pp bad.trace", True, False),
    ("audit refused.pp refused.trace", True, True),
    ("audit faulty.pp refused.trace", True, True),
    ("try refused.pp", True, True),
    ("try faulty.pp", True, True),
    ("serve refused.pp . 7", True, True),
    ("serve faulty.pp . 7", True, True),
)

# The words of a command line; and its status, what it wrote, and what standard error got.
Words = Sequence[str | pathlib.Path]
Outcome = tuple[int, bytes, bytes]

# What is typed at a prompt, with a Ctrl-D, and what it is answered.
TYPED = b"do s1 put 7\nput 8\nwhy 2\nshow\n\x04"
PROMPTED = b"call 1\nstarted 1\nsteps 1 4\ndone 1\nbad line 2\nwhy 2 Unknown\nv = [7]\n"


def at_pipe(folder: pathlib.Path, words: Words) -> Outcome:
    """The status of a command, what it wrote, and what standard error got."""
    return at_pipe_of(folder, words, b"")


def at_pipe_of(folder: pathlib.Path, words: Words, text: bytes) -> Outcome:
    """The same where standard input has a text."""
    ran = subprocess.run(words, cwd=folder, input=text, capture_output=True, timeout=SECONDS)
    return ran.returncode, ran.stdout, ran.stderr


def at_terminal(folder: pathlib.Path, words: Words) -> Outcome:
    """The same where standard error is a terminal."""
    outer, inner = pty.openpty()
    said: list[bytes] = []

    def hear() -> None:
        # (the end of a terminal that nobody holds is an error)
        try:
            while piece := os.read(outer, 1 << 16):
                said.append(piece)
        except OSError:
            pass

    with subprocess.Popen(words, cwd=folder, stdin=subprocess.DEVNULL, stdout=subprocess.PIPE, stderr=inner) as ran:
        os.close(inner)
        hearing = threading.Thread(target=hear)
        hearing.start()
        output, _ = ran.communicate(timeout=SECONDS)
        hearing.join(SECONDS)
    os.close(outer)
    return ran.returncode, output, b"".join(said).replace(b"\r\n", b"\n")


def fault_of(folder: pathlib.Path, command: str, is_told: bool, is_of_source: bool) -> str | None:
    """What is wrong with a command, or none."""
    name, *files = command.split()
    port: list[str] = []
    if name == "serve":
        # A port that anybody may take; a source that is refused is told all the same.
        *files, _ = files
        port = ["61001"]
    words: Words = [program(), name, *files, *port]
    whole = at_pipe(folder, [*words, "--explain"])
    if bool(whole[2]) != is_told:
        return f"{whole[2]!r} is told with --explain"
    hint = HINT if is_of_source else b""
    wanted = {
        "a pipe": (at_pipe(folder, words), hint),
        "a pipe, with --no-explain": (at_pipe(folder, [*words, "--no-explain"]), b""),
        "a terminal": (at_terminal(folder, words), whole[2]),
        "a terminal, with --no-explain": (at_terminal(folder, [*words, "--no-explain"]), b""),
        "a terminal, with both": (at_terminal(folder, [*words, "--explain", "--no-explain"]), b""),
    }
    for where, (found, error) in wanted.items():
        if found != (*whole[:2], error):
            return f"at {where}: expected {(*whole[:2], error)!r}, found {found!r}"
    return None


def at_prompt(folder: pathlib.Path, words: Words) -> Outcome:
    """What `try` wrote to standard output and standard error where four lines and an end are typed at a terminal."""
    outer, inner = pty.openpty()
    os.write(outer, TYPED)
    ran = subprocess.run(words, cwd=folder, stdin=inner, capture_output=True, timeout=SECONDS)
    os.close(inner)
    os.close(outer)
    return ran.returncode, ran.stdout, ran.stderr


def prompt_fault(folder: pathlib.Path) -> str | None:
    """What is wrong with a prompt, or none: it stands before each line, and what is said of one before the next one."""
    words: Words = [program(), "try", "fine.pp"]
    why = at_pipe_of(folder, words, TYPED.rstrip(b"\x04"))[2]
    wanted = (0, PROMPTED, b"cell> cell> " + why + b"cell> cell> cell> \n")
    found = at_prompt(folder, words)
    if not why or found != wanted:
        return f"at a terminal: expected {wanted!r}, found {found!r}"
    silent = at_prompt(folder, [*words, "--no-explain"])
    wanted = (0, PROMPTED, b"cell> cell> cell> cell> cell> \n")
    return None if silent == wanted else f"at a terminal, with --no-explain: expected {wanted!r}, found {silent!r}"


def main() -> int:
    if given_words():
        print(__doc__, file=sys.stderr)
        return 2
    failed = 0
    with tempfile.TemporaryDirectory(prefix="terminal-") as place:
        folder = pathlib.Path(place)
        for name, text in FILES.items():
            (folder / name).write_bytes(text)
        for command, is_told, is_of_source in COMMANDS:
            fault = fault_of(folder, command, is_told, is_of_source)
            if fault:
                failed += 1
                print(f"{command}: {fault}")
        fault = prompt_fault(folder)
        if fault:
            failed += 1
            print(f"try: {fault}")
    print(f"try_terminal: {len(COMMANDS) + 1 - failed} passed, {failed} failed")
    return 1 if failed else 0


load_tests = whole(main)
