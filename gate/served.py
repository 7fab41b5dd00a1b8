"""What the tools share that serve objects: a port, a server at it, and what a trace says beside what clients were
told."""
import contextlib
import os
import pathlib
import random
import re
import signal
import socket
import struct
import subprocess
import threading
from collections.abc import Iterable, Mapping, Sequence
from typing import Any, BinaryIO, NamedTuple, TypeVar

from gate.tried import SECONDS, Wrong, program, there

LAST_LINE = re.compile(r"(done|refused|failed|cancelled) (\d+)(?: (.*))?")
OPENED = re.compile(r"opened (\w+)(?: next (\d+))?")
# Ports that the system gives to no connection of its own accord, in an order of this process.
PORTS = iter(random.sample(range(10_000, 32_000), 22_000))
TURN = threading.Lock()
Self = TypeVar("Self", bound="Server")


def used_ports() -> set[int]:
    """The ports that a socket of this machine has. No connection is made to see that: a server of another run that
    serves one session would take it for that session."""
    tables = [pathlib.Path("/proc/net/tcp"), pathlib.Path("/proc/net/tcp6")]
    rows = [row for it in tables if it.exists() for row in it.read_text(encoding="ascii").splitlines()[1:]]
    return {int(row.split()[1].rpartition(":")[2], 16) for row in rows}


def free_port() -> int:
    """A port that no socket has, another one each time. It is not bound to see that: a child between its fork and its
    exec would have it bound on."""
    with TURN:
        used = used_ports()
        for port in PORTS:
            if port not in used:
                return port
    raise OSError("no port is free")


def resets(it: socket.socket) -> None:
    """Has a connection be reset where it is closed next."""
    it.setsockopt(socket.SOL_SOCKET, socket.SO_LINGER, struct.pack("ii", 1, 0))


def heed_signals() -> None:
    """Heeds SIGINT and SIGHUP, and so do the processes that are started from now on: a job in the background, or below
    nohup, is begun with one of them ignored."""
    signal.signal(signal.SIGINT, signal.default_int_handler)
    signal.signal(signal.SIGHUP, signal.SIG_DFL)


def has_ended(process: int) -> bool:
    """Whether a process has ended. One that its new parent has not waited for (as under the gate) still has its
    folder."""
    try:
        stat = pathlib.Path(f"/proc/{process}/stat").read_text(encoding="ascii", errors="replace")
    except (FileNotFoundError, ProcessLookupError):
        return True
    return stat.rpartition(")")[2].split()[0] in "ZX"


class Ended(NamedTuple):
    """What a server said on standard output behind its first line, its status, and what it said on standard error."""

    said: str
    status: int
    error: str


class Process:
    """A process that serves: it is started, looked at, ended and killed."""

    begun: "subprocess.Popen[str] | None" = None
    # The file of its standard error, where that is no pipe.
    errors: "pathlib.Path | None" = None

    @property
    def child(self) -> "subprocess.Popen[str]":
        return there(self.begun, "the process of a server")

    def begin_by(self, words: Sequence[object], **more: Any) -> None:
        """Starts it by this command: standard input and output are pipes, and so is standard error where it is no
        file."""
        pipe = subprocess.PIPE
        with contextlib.ExitStack() as stack:
            errors: int | BinaryIO = stack.enter_context(self.errors.open("wb")) if self.errors else pipe
            given: dict[str, Any] = {"stdin": pipe, "stdout": pipe, "stderr": errors, **more}
            self.begun = subprocess.Popen([str(it) for it in words], text=True, **given)

    def line(self) -> str:
        """The next line that it says."""
        return there(self.child.stdout, "the pipe of its output").readline()

    def runs(self) -> bool:
        return self.child.poll() is None

    def error(self) -> str:
        """What it has said so far in the file of its standard error."""
        return there(self.errors, "the file of its errors").read_text(errors="replace")

    def ended(self, seconds: float = SECONDS) -> Ended:
        """Ends its input, and waits for its end."""
        try:
            said, error = self.child.communicate(timeout=seconds)
        except subprocess.TimeoutExpired:
            self.kill()
            raise Wrong("the server does not end") from None
        return Ended(said, self.child.returncode, self.error() if self.errors else error)

    def stop(self) -> None:
        """Ends its input, and does not wait."""
        if self.child.stdin:
            self.child.stdin.close()
            self.child.stdin = None

    def kill(self) -> None:
        self.child.kill()
        self.child.wait()
        self.close()

    def close(self) -> None:
        for it in (self.child.stdin, self.child.stdout, self.child.stderr):
            with contextlib.suppress(OSError):
                if it:
                    it.close()

    def awaited(self, seconds: float = SECONDS) -> int | None:
        """The status with which it ends by itself, or none where it goes on for so many seconds."""
        with contextlib.suppress(subprocess.TimeoutExpired):
            return self.child.wait(seconds)
        return None

    def memory(self, word: str = "VmRSS") -> int:
        """So many KiB of memory it has, or had at most (`VmHWM`)."""
        status = pathlib.Path(f"/proc/{self.child.pid}/status").read_text()
        return int(next(it for it in status.splitlines() if it.startswith(word)).split()[1])

    def processor(self) -> float:
        """The seconds of a processor that it took."""
        words = pathlib.Path(f"/proc/{self.child.pid}/stat").read_text().rpartition(")")[2].split()
        return (int(words[11]) + int(words[12])) / os.sysconf("SC_CLK_TCK")

    def microseconds(self) -> float:
        """The processor time of the threads that it has, in microseconds, as the scheduler counts it."""
        tasks = pathlib.Path(f"/proc/{self.child.pid}/task").glob("*/schedstat")
        return sum(int(it.read_text(encoding="ascii").split()[0]) for it in tasks) / 1000

    def descriptors(self) -> int:
        return len(os.listdir(f"/proc/{self.child.pid}/fd"))


class Server(Process):
    """`pathserve serve` or `pathserve keep` of the objects of a file over a folder. It is at the port, or the path of a
    socket, `place`, or at another port each time that it is started.

    `env` is more in its environment, `files` how many it may have open, `user` who runs it, and `by` the command
    that is called in the place of the program. Standard error goes to the file `errors`, or to a pipe. A server that
    `survives` is not killed by a write past a limit on the size of its files: that fails, as one on a full disk
    does."""

    def __init__(self, command: str, file: pathlib.Path, folder: pathlib.Path, *words: object, place: object = None,
                 env: Mapping[str, str] | None = None, files: int | None = None, user: int | None = None,
                 by: Sequence[object] = (), errors: pathlib.Path | None = None, survives: bool = False) -> None:
        self.command, self.file, self.folder, self.words = command, file, folder, words
        self.has_place, self.place = place is not None, str(place)
        self.env, self.user, self.errors, self.survives = dict(env or {}), user, errors, survives
        limit = ["bash", "-c", f'ulimit -n {files} && exec "$@"', "bash"] if files else []
        self.by = [*limit, *(by or [program()])]

    @property
    def port(self) -> int:
        return int(self.place)

    @property
    def at_path(self) -> bool:
        return self.has_place and not self.place.isdigit()

    def __enter__(self: Self) -> Self:
        self.start()
        return self

    def __exit__(self, *_: object) -> None:
        self.kill()

    def begin(self) -> None:
        """Starts it, and does not wait for what it says."""
        if not self.has_place:
            self.place = str(free_port())
        self.begin_by([*self.by, self.command, self.file, self.folder, self.place, *self.words],
                      env={**os.environ, **self.env}, restore_signals=not self.survives,
                      user=self.user, group=self.user, extra_groups=None if self.user is None else [])

    def start(self: Self) -> Self:
        """Starts it, and waits until it listens."""
        self.begin()
        line = self.line()
        if line != f"listening {self.place}\n":
            said, status, error = self.ended()
            raise Wrong(f"the server said {line + said + error!r}, status {status}")
        return self

    def revive(self) -> None:
        """Kills it, and starts it again."""
        self.kill()
        self.start()

    def refused(self, seconds: float = SECONDS) -> Ended:
        """Starts it, once more where it runs, which comes to nothing."""
        begun, place = self.begun, self.place
        self.begin()
        try:
            return self.ended(seconds)
        finally:
            self.begun, self.place = begun, place

    def connect(self, seconds: float = SECONDS, buffer: int = 0) -> socket.socket:
        """A connection; the system holds so many bytes for it, about, where that is said."""
        made = socket.socket(socket.AF_UNIX if self.at_path else socket.AF_INET)
        if buffer:
            made.setsockopt(socket.SOL_SOCKET, socket.SO_RCVBUF, buffer)
        made.settimeout(seconds)
        try:
            made.connect(self.place if self.at_path else ("127.0.0.1", self.port))
        except OSError:
            made.close()
            raise
        if not self.at_path:
            made.setsockopt(socket.IPPROTO_TCP, socket.TCP_NODELAY, 1)
        return made

    def says(self, *lines: str) -> list[str]:
        """What a client hears that says these lines and then quits."""
        with self.connect() as it:
            it.sendall("".join(f"{line}\n" for line in (*lines, "quit")).encode())
            return it.makefile("rb").read().decode().split("\n")[:-1]


class Told:
    """What one connection was told: the object that it opened and its next key there, and how each of its calls
    ended. A call has to end before the next one is accepted, or anything else is answered but a cancel; and a repeat
    has to say what was said before."""

    def __init__(self) -> None:
        self.object: str | None = None
        self.key: int | None = None
        self.ends: dict[int, str] = {}
        self.wrong: list[str] = []
        self.call: int | None = None

    def hear(self, line: str) -> None:
        """Keeps what a line tells."""
        if found := LAST_LINE.fullmatch(line):
            number = int(found[2])
            if number != self.call:
                self.wrong.append(f"call {number} ended, where {self.call or 'none'} was accepted")
            self.ends[number] = found[1] + (f" {found[3]}" if found[3] is not None else "")
            self.call = None
        elif line != "no LineTooLong" and not line.startswith("cancel "):
            if self.call:
                self.wrong.append(f"{line!r} was told before call {self.call} ended")
            if found := OPENED.fullmatch(line):
                self.object, self.key = found[1], int(found[2]) if found[2] else None
            if line.startswith("accepted "):
                self.call = int(line.removeprefix("accepted "))
            if found := LAST_LINE.fullmatch(line.removeprefix("repeat ")):
                said = found[1] + (f" {found[3]}" if found[3] is not None else "")
                if self.ends.setdefault(int(found[2]), said) != said:
                    self.wrong.append(f"{line!r} was told of what was told as {self.ends[int(found[2])]!r}")


def ended_calls(trace: str) -> dict[int, str]:
    """What a trace says of how each call ended, or several epochs, one behind the other, each of which counts from
    its base."""
    found, base = {}, 0
    for line in trace.splitlines():
        words = line.split(" ", 2)
        if words[0] == "base":
            base = int(words[1])
        elif words[0] == "end":
            found[base + int(words[1])] = words[2]
    return found


def run(command: str, *words: object, seconds: float = SECONDS, **more: Any) -> Ended:
    """What the program says for these words, and ends with, where nothing is said to it."""
    given: dict[str, Any] = {"stdin": subprocess.DEVNULL, "stdout": subprocess.PIPE, "stderr": subprocess.PIPE, **more}
    ran = subprocess.run([str(it) for it in (program(), command, *words)], text=True, check=False, timeout=seconds, **given)
    return Ended(ran.stdout, ran.returncode, ran.stderr)


def is_whole(objects: pathlib.Path, folder: pathlib.Path, *names: str) -> None:
    """Raises where a folder of kept objects is not legal, or has others than these, where they are given."""
    said, status, _ = run("audit", objects, folder)
    found = [it.split(" ")[0] for it in said.splitlines() if it.endswith(" whole")]
    if status or len(found) != len(said.splitlines()) or names and tuple(found) != names:
        raise Wrong(f"audit says {said!r}, status {status}")


def traced_wrongly(objects: pathlib.Path, folder: pathlib.Path, name: str, all_told: Iterable[Told],
                   entries: int) -> list[str]:
    """What the trace of an object in a folder has wrong, or its epochs, where it is kept: they have to be legal,
    with so many entries, and to end each call as it was told."""
    trace, epochs = folder / f"{name}.trace", sorted(folder.glob(f"{name}.*.trace"))
    if not epochs and not trace.exists():
        return [f"{name}: no trace"]
    ends = ended_calls("".join(it.read_text(encoding="ascii") for it in epochs or [trace]))
    said = run("audit", objects, folder if epochs else trace).said
    legal = rf"(?m)^{name} epochs \d+ entries {entries} whole$" if epochs else f"^legal {entries}\n$"
    is_legal = re.search(legal, said) and len(ends) == entries
    wrong = [] if is_legal else [f"{name}: {entries} entries, {len(ends)} ends in the trace, audit says {said!r}"]
    for number, told in ((number, end) for it in all_told if it.object == name for number, end in it.ends.items()):
        if told == "cancelled" and number in ends:
            wrong.append(f"{name}: call {number} was told cancelled, and ended")
        elif told != "cancelled" and ends.get(number) != told:
            wrong.append(f"{name}: call {number} was told {told!r}, and ended {ends.get(number)!r}")
    return wrong
