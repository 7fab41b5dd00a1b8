"""Clients of a server that do the steps of a case: connections, and programs that make connections of their own."""
import os
import pathlib
import select
import shlex
import socket
import subprocess
import time
from collections.abc import Iterable

from gate.cases import TOP, read_text
from gate.served import Told, resets
from gate.sessions import Step
from gate.tried import Wrong, there

# How long a client that must hear nothing listens, and how long one that sends what is taken waits for the server to take
# more, in seconds.
QUIET, PRESSES = 0.3, 1
# The most bytes that are read at a time for a line, or that are kept of what a server writes.
MOST_BYTES = 1 << 20


class Client:
    """What is heard of a client, line by line, up to a time."""

    def __init__(self) -> None:
        self.rest, self.is_over, self.skips, self.end = b"", False, False, 0.0

    def fileno(self) -> int:
        raise NotImplementedError

    def read(self) -> bytes:
        """What has come; nothing at the end."""
        raise NotImplementedError

    def act(self, step: Step, piece: int) -> None:
        """Does a step that is none of hearing."""
        raise NotImplementedError

    def close(self) -> None:
        raise NotImplementedError

    def await_more(self, seconds: float) -> bool:
        """Whether something comes within so many seconds. It is kept; at the end of all that comes `is_over` is set."""
        if self.is_over or not select.select([self.fileno()], [], [], max(seconds, 0))[0]:
            return self.is_over
        try:
            piece = self.read()
        except ConnectionResetError:
            piece = b""
        self.rest += piece
        self.is_over = not piece
        return True

    def line(self) -> "bytes | None":
        """The next line, or none where no more comes."""
        while b"\n" not in self.rest and not self.is_over:
            if not self.await_more(self.end - time.monotonic()):
                raise Wrong("nothing comes")
            if len(self.rest) > MOST_BYTES or time.monotonic() > self.end:
                raise Wrong("what comes has no end")
        line, mark, self.rest = self.rest.partition(b"\n")
        if not mark and not line:
            return None
        self.note(line + mark)
        return line + mark

    def note(self, line: bytes) -> None:
        """Keeps what a line tells."""

    def hear(self, text: str) -> None:
        """The next line is this one; `...` is any lines up to the next one that is said."""
        if text == "...":
            self.skips = True
            return
        wanted = read_text([text], "").bytes
        found = self.line()
        while self.skips and found not in (wanted, None):
            found = self.line()
        self.skips = False
        if found != wanted:
            raise Wrong(f"{wanted!r} was expected, and {found!r} came")

    def hear_among(self, texts: Iterable[str]) -> None:
        """The next lines are these, in some order."""
        wanted = sorted(read_text([it], "").bytes for it in texts)
        found = [self.line() for _ in wanted]
        if sorted(it for it in found if it is not None) != wanted:
            raise Wrong(f"{wanted!r} were expected in some order, and {found!r} came")

    def hear_nothing(self) -> None:
        if self.rest or self.await_more(QUIET):
            raise Wrong(f"nothing was expected, and {self.rest!r} came" + (", and the end" if self.is_over else ""))

    def hear_end(self) -> None:
        found = self.line()
        while self.skips and found is not None:
            found = self.line()
        if found is not None:
            raise Wrong(f"the end was expected, and {found!r} came")

    def do(self, step: Step, piece: int) -> None:
        """Does a step: `piece` is how many bytes are sent at once, or 0."""
        if step.form == "hears":
            self.hear(step.texts[0])
        elif step.form == "hears among":
            self.hear_among(step.texts)
        elif step.form == "hears nothing":
            self.hear_nothing()
        elif step.form == "ends":
            self.hear_end()
        else:
            self.act(step, piece)


def unread(port: int, own: int) -> int:
    """How many bytes that a connection sent to a port of this machine stand there and were not read."""
    ends = f":{port:04X}", f":{own:04X}"
    with open("/proc/net/tcp", encoding="ascii") as table:
        for line in table:
            _, local, remote, _, queues, *_ = line.split()
            if local.endswith(ends[0]) and remote.endswith(ends[1]):
                return int(queues.partition(":")[2], 16)
    return 0


class Connection(Client):
    """A connection to a server on this machine."""

    def __init__(self, port: int, seconds: float) -> None:
        super().__init__()
        self.port, self.told = port, Told()
        self.it = socket.create_connection(("127.0.0.1", port), seconds)
        self.it.setsockopt(socket.IPPROTO_TCP, socket.TCP_NODELAY, 1)
        self.own = self.it.getsockname()[1]

    def fileno(self) -> int:
        return self.it.fileno()

    def read(self) -> bytes:
        return self.it.recv(1 << 16)

    def note(self, line: bytes) -> None:
        self.told.hear(line.decode("ascii", "replace").rstrip("\n"))

    def send(self, text: bytes, piece: int) -> None:
        """Sends a text, so many bytes at once, each piece once the one before it was read."""
        self.it.settimeout(max(self.end - time.monotonic(), 0.01))
        for at in range(0, len(text), piece or len(text)):
            self.it.sendall(text[at : at + (piece or len(text))])
            while piece and unread(self.port, self.own) and time.monotonic() < self.end:
                time.sleep(0.0002)

    def press(self, text: bytes) -> None:
        """Sends a text as far as it is taken."""
        self.it.settimeout(PRESSES)
        try:
            self.it.sendall(text)
        except TimeoutError:
            pass

    def close(self) -> None:
        self.it.close()

    def act(self, step: Step, piece: int) -> None:
        text = read_text(step.texts).bytes
        if step.form == "sends":
            self.send(text, piece)
        elif step.form == "presses":
            self.press(text)
        elif step.form == "sends no more":
            self.it.shutdown(socket.SHUT_WR)
        elif step.form in ("hangs up", "resets"):
            if step.form == "resets":
                resets(self.it)
            self.close()


class Program(Client):
    """A client that is a program: what it prints is heard. A C source is compiled for it."""

    def __init__(self, text: str, port: int, room: pathlib.Path) -> None:
        super().__init__()
        name, *words = shlex.split(text)
        if name.endswith(".c"):
            built = str(room / os.path.basename(name).removesuffix(".c"))
            subprocess.run(["cc", "-Wall", "-Wextra", "-Werror", "-o", built, TOP / name], check=True)
            name = built
        else:
            name = str(TOP / name)
        words = [str(port) if it == "PORT" else it for it in words]
        self.ran = subprocess.Popen([name, *words], stdout=subprocess.PIPE, stderr=subprocess.STDOUT, stdin=subprocess.DEVNULL)

    def fileno(self) -> int:
        return there(self.ran.stdout).fileno()

    def read(self) -> bytes:
        return os.read(self.fileno(), 1 << 16)

    def hear_end(self) -> None:
        super().hear_end()
        if self.ran.wait(max(self.end - time.monotonic(), 0.01)):
            raise Wrong(f"the client ended with status {self.ran.returncode}")

    def act(self, step: Step, piece: int) -> None:
        """The one step that is a program's own: it ends with another status than 0."""
        if step.form != "fails":
            raise Wrong(f"a program can't do this: {step.form}")
        super().hear_end()
        if not self.ran.wait(max(self.end - time.monotonic(), 0.01)):
            raise Wrong("the client ended with status 0")

    def close(self) -> None:
        self.ran.kill()
        self.ran.wait()
        there(self.ran.stdout).close()
