#!/usr/bin/env python3
"""Drives the client in C, a program for a terminal: gate/try_client says how. Its word is that program."""
import subprocess
import sys


def refusal(line: str) -> str:
    """`no WORD`, without the text for people behind it."""
    return " ".join(line.split()[:2])


class Terminal:
    """A run of the client, which takes its calls from standard input."""

    def __init__(self, place: str, name: str) -> None:
        pipe = subprocess.PIPE
        self.ran = subprocess.Popen([sys.argv[1], place, name, "-"], stdin=pipe, stdout=pipe, stderr=pipe, text=True, bufsize=1)

    def ended(self) -> str:
        """What it said before it ended."""
        said = self.ran.communicate()[1]
        if self.ran.returncode == 1:
            return refusal(said)
        return "lost" if "it is not known" in said else "no server"

    def call(self, text: str) -> str:
        assert self.ran.stdin and self.ran.stdout
        try:
            self.ran.stdin.write(f"{text}\n")
        except OSError:
            return self.ended()
        line = self.ran.stdout.readline()
        if not line:
            return self.ended()
        words = line.rstrip("\n").removeprefix(f"{text}: ").split(" ", 2)
        return " ".join(words[:2]) if words[0] == "no" else " ".join([words[0], *words[2:]])

    def close(self) -> None:
        self.ran.communicate()


def main() -> None:
    print("can alive", flush=True)
    it: Terminal | None = None
    place: list[str] | None = None
    for line in map(str.rstrip, sys.stdin):
        word, *words = line.split(" ")
        if word == "open":
            if it:
                it.close()
            place = words[:2]
            it = Terminal(*place)
            # (it says that it has opened the object)
            assert it.ran.stderr
            said = it.ran.stderr.readline()
            print("opened" if said == "opened\n" else refusal(said) if said.startswith("no ") else "no server", flush=True)
            if said != "opened\n":
                it.close()
                it = None
        elif word == "call":
            if it is None:
                assert place is not None
                it = Terminal(*place)
            came = it.call(line.split(" ", 2)[2])
            if came in ("lost", "no server", "no LineTooLong"):
                it.close()
                it = None
            print(came, flush=True)
        elif word == "close":
            if it:
                it.close()
            it = None
            print("closed", flush=True)


if __name__ == "__main__":
    main()
