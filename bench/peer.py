"""Redis beside the program, as the measurements run it: a server that is started, looked at and killed as one of the
program is (gate/served.py)."""
import pathlib
from typing import TypeVar

from gate.served import Process, free_port

Self = TypeVar("Self", bound="Redis")


class Redis(Process):
    """A server of Redis over a folder, with these words more. It says what it has to say on standard output."""

    def __init__(self, folder: pathlib.Path, *words: object) -> None:
        self.port, self.folder, self.words = free_port(), folder, words

    def __enter__(self: Self) -> Self:
        command = ["redis-server", "--port", self.port, "--bind", "127.0.0.1", "--dir", self.folder, "--save", "", *self.words]
        self.begin_by(command, cwd=self.folder)
        while "eady to accept connections" not in (line := self.line()):
            if not line:
                raise SystemExit("redis-server does not serve")
        return self

    def __exit__(self, *_: object) -> None:
        self.kill()
