"""Servers that are none: each listens at a port, and answers a client as it is told, what no server of the program does
when it is asked. A server of the program is one of gate/served.py."""
import contextlib
import socket
import threading
import time
from collections.abc import Iterable, Sequence
from types import TracebackType
from typing import NamedTuple, TypeVar, Union

from gate.served import resets
from gate.tried import Wrong

Self = TypeVar("Self", bound="Fake")

OPENED = ("open cell", b"opened cell\n")
# Of each reply follows how often the calls before it were done.
METER = """object meter;
  path 1:(add, [total]) end;
  var v : array [1] of integer;
  entry function add(x : integer) : integer; begin v[0] := v[0] + x; add := v[0] end;
  entry function total : integer; begin total := v[0] end;
end;
"""


def opened(key: int, answer: bytes = b"") -> tuple[str, bytes]:
    """The answer to a client with a name, or another one."""
    return "open cell as ann", answer or f"opened cell next {key}\n".encode()


class Fake:
    """Takes so many connections, each in a thread, or one after the other (`in_turn`), until it is closed. What it does on
    each is `serve` of what it is. Behind the last one of those that it takes in turn nobody is there any more."""

    name = "cell"

    def __init__(self, port: int = 0, most: int = 1000, in_turn: bool = False) -> None:
        self.faults: list[str] = []
        self.heard: list[str] = []
        self.open: list[socket.socket] = []
        self.most, self.in_turn = most, in_turn
        self.socket = socket.create_server(("127.0.0.1", port))
        self.port: int = self.socket.getsockname()[1]
        self.thread = threading.Thread(target=self.run, daemon=True)
        self.thread.start()

    def run(self) -> None:
        with contextlib.suppress(OSError):
            for number in range(self.most):
                it = self.socket.accept()[0]
                it.setsockopt(socket.IPPROTO_TCP, socket.TCP_NODELAY, 1)
                self.open.append(it)
                if self.in_turn:
                    self.served(it, number)
                else:
                    threading.Thread(target=self.served, args=(it, number), daemon=True).start()
        if self.in_turn:
            self.socket.close()

    def serve(self, it: socket.socket, number: int) -> None:
        raise NotImplementedError

    def served(self, it: socket.socket, number: int) -> None:
        with it, contextlib.suppress(OSError):
            self.serve(it, number)

    def close(self) -> None:
        # (this wakes the thread that waits in it)
        with contextlib.suppress(OSError):
            self.socket.shutdown(socket.SHUT_RDWR)
        self.socket.close()

    def __enter__(self: Self) -> Self:
        return self

    def __exit__(self, kind: "type[BaseException] | None", error: "BaseException | None", trace: "TracebackType | None") -> None:
        self.close()
        for it in list(self.open):
            with contextlib.suppress(OSError):
                it.shutdown(socket.SHUT_RDWR)
        if kind is None and self.faults:
            raise Wrong(f"the server heard {self.faults[0]}")


class Mark(NamedTuple):
    """What a fake does in the place of an answer."""

    does: str


# It answers nothing more, up to the client's end; it resets the connection, or closes it.
HOLDS, RESETS, CLOSES = Mark("holds"), Mark("resets"), Mark("closes")
Row = Union[tuple[str, bytes], Mark]
Rows = Sequence[Row]
# A connection on which nothing more is said, and which stays.
NEVER = ("never", b"")


class FakeServer(Fake):
    """Of each connection it has a list: a line that has to come, and what is sent behind it, at once or byte by byte.
    After that, or where another line comes, the connection is closed, reset, or held, as the list's last word says; one
    that is left is let go."""

    def __init__(self, *connections: Rows, pause: float = 0, port: int = 0, in_turn: bool = False) -> None:
        self.connections, self.pause = connections, pause
        super().__init__(port, len(connections) if in_turn else 1000, in_turn)

    def serve(self, it: socket.socket, number: int) -> None:
        rows: Rows = self.connections[number] if number < len(self.connections) else []
        with it.makefile("rb") as lines:
            self.answer(it, number, rows, lines)

    def answer(self, it: socket.socket, number: int, rows: Rows, lines: Iterable[bytes]) -> None:
        coming = iter(lines)
        for row in rows:
            if isinstance(row, Mark):
                if row is HOLDS:
                    for _ in coming:
                        pass
                else:
                    resets(it)
                return
            wanted, sent = row
            line = next(coming, b"").decode("ascii", "replace")
            self.heard.append(line)
            if line != wanted + "\n":
                self.faults.append(f"{line!r}, not {wanted!r}, on connection {number + 1}")
                return
            for at in range(len(sent)) if self.pause else ():
                it.sendall(sent[at : at + 1])
                time.sleep(self.pause)
            if not self.pause:
                it.sendall(sent)


class FakeMeter(Fake):
    """An object with `add`, which replies the sum, as a server serves it: each session with a name has its keys, and a
    connection is cut behind so many bytes that come (`up`) or go (`down`)."""

    name = "meter"

    def __init__(self, first: int = 1, in_use: int = 0, together: int = 1) -> None:
        self.sum, self.calls, self.next, self.in_use, self.together = 0, 0, first, in_use, together
        self.said: dict[int, tuple[list[str], str]] = {}
        self.cut: "tuple[str, int] | None" = None
        self.resets, self.cuts_all, self.lock, self.offset = False, False, threading.Lock(), first - 1
        super().__init__()

    def answer(self, line: str, named: bool) -> tuple[bytes, bool]:
        """The lines that answer this one, and whether there is a session with a name."""
        words = line.split(" ")
        if words[:2] == ["open", self.name]:
            if words[2:3] != ["as"]:
                return b"opened meter\n", False
            self.in_use -= 1
            return (b"no InUse\n" if self.in_use >= 0 else f"opened meter next {self.next}\n".encode()), True
        if words[0] == "quit":
            return b"bye\n", named
        if words[0] == "cancel":
            return f"cancel {words[1]} Ended\n".encode(), named
        if words[0] != "call":
            self.faults.append(repr(line))
            return b"no BadLine\n", named
        return self.called(line, words, named), named

    def called(self, line: str, words: list[str], named: bool) -> bytes:
        """The lines that answer a call."""
        key = None
        if words[1].startswith("#"):
            key, words = int(words[1][1:]), [words[0], *words[2:]]
        elif named:
            self.faults.append(f"{line!r}, without a key")
        if key is not None and key != self.next:
            if key not in self.said:
                return b"no BadKey\n"
            text, last = self.said[key]
            return f"repeat {last}\n".encode() if text == words else b"no KeyReused\n"
        if words[1] != "add":
            return b"no UnknownOp\n"
        self.calls += 1
        self.sum += int(words[2])
        last = f"done {self.calls + self.offset} {self.sum}"
        if key is not None:
            self.said[key], self.next = (words, last), key + 1
        return f"accepted {self.calls + self.offset}\n{last}\n".encode()

    def taken(self, piece: bytes) -> tuple[bytes, bool]:
        """What of a piece comes before the connection breaks, and whether it breaks."""
        if not self.cut or self.cut[0] != "up":
            return piece, False
        is_cut, taken = len(piece) >= self.cut[1], piece[: self.cut[1]]
        self.cut = None if is_cut else ("up", self.cut[1] - len(taken))
        return taken, is_cut

    def given(self, out: bytes) -> tuple[bytes, bool]:
        """What of an answer goes before the connection breaks, and whether it breaks."""
        if not self.cut or self.cut[0] != "down" or not out:
            return out, False
        is_cut, given = len(out) >= self.cut[1], out[: self.cut[1]]
        self.cut = None if is_cut else ("down", self.cut[1] - len(given))
        return given, is_cut

    def serve(self, it: socket.socket, number: int) -> None:
        rest, named = b"", False
        lines: list[bytes] = []
        while piece := it.recv(4096):
            with self.lock:
                if self.cuts_all and b"open" not in piece:
                    return
                piece, is_cut = self.taken(piece)
                *new, rest = (rest + piece).split(b"\n")
                lines += new
                # (so many calls have to be sent before one of them is answered)
                waits = sum(line.startswith(b"call") for line in lines) < self.together and lines[-1:] and lines[-1].startswith(b"call")
                if waits and not is_cut:
                    continue
                out = b""
                for line in lines:
                    answer, named = self.answer(line.decode("ascii", "replace"), named)
                    out += answer
                lines = []
                # (what was answered does not come, where the connection broke behind a whole line)
                out, is_cut = (b"", True) if is_cut else self.given(out)
            if out:
                it.sendall(out)
            if is_cut:
                if self.resets:
                    resets(it)
                return
            if out.endswith(b"bye\n"):
                return
