"""A connection on which a client says lines and hears lines, of a server of either kind."""
import collections
import contextlib
import socket
import threading
import time
from typing import TypeVar

from gate.served import Server, Told, resets
from gate.tried import SECONDS, Wrong, check, holds

# How a connection breaks: its input and output are closed, or by a reset, or its input alone, and what comes is read to
# the end.
CUTS = ("hangs up", "resets", "sends no more")
Self = TypeVar("Self", bound="Talk")


class Talk:
    """A connection on which a client says lines and hears lines. It may open something at once, and hear these lines
    then. Where `told` is given it keeps what each line tells; `buffer` is how many bytes the system holds for it,
    about."""

    def __init__(self, server: Server, *opening: str, seconds: float = SECONDS, told: Told | None = None, buffer: int = 0) -> None:
        self.socket, self.told, self.rest = server.connect(seconds, buffer), told, b""
        self.lines: collections.deque[bytes] = collections.deque()
        if opening:
            self.say(opening[0])
            self.hears(*opening[1:])

    def __enter__(self: Self) -> Self:
        return self

    def __exit__(self, *_: object) -> None:
        self.close()

    # What it says.

    def send(self, text: bytes) -> None:
        self.socket.sendall(text)

    def say(self, *lines: str) -> None:
        self.send("".join(f"{line}\n" for line in lines).encode("ascii"))

    def shout(self, line: str, count: int) -> threading.Thread:
        """Has a line said so often, as long as the connection stands, by a thread of its own."""

        def work() -> None:
            with contextlib.suppress(OSError):
                for at in range(0, count, 100):
                    self.say(*[line] * min(100, count - at))

        thread = threading.Thread(target=work, daemon=True)
        thread.start()
        return thread

    # What it hears.

    def read(self, most: int = 1 << 16) -> bool:
        """Takes what has come, once something has: whether that is not the end."""
        piece = self.socket.recv(most)
        *lines, self.rest = (self.rest + piece).split(b"\n")
        self.lines.extend(lines)
        return bool(piece)

    def await_line(self) -> bool:
        """Waits for a line that is whole. None comes where the connection ends, or is reset."""
        with contextlib.suppress(ConnectionResetError):
            while not self.lines and self.read():
                pass
        return bool(self.lines)

    def hear(self) -> str:
        """The next line; at the end what has come of one, or nothing."""
        is_whole = self.await_line()
        text = self.lines.popleft() if is_whole else self.rest
        if not is_whole:
            self.rest = b""
        elif self.told:
            self.told.hear(text.decode("ascii"))
        return text.decode("ascii")

    def line(self) -> str:
        """The next line; EOFError where none comes that is whole."""
        try:
            if self.await_line():
                return self.hear()
        except TimeoutError:
            raise Wrong("nothing comes") from None
        except OSError:
            pass
        raise EOFError

    def hears(self, *lines: str) -> None:
        for line in lines:
            check(self.hear(), line, "a line")

    def take(self, count: int) -> None:
        """Takes so many bytes of what comes, and no more. What they tell is kept."""
        for _ in range(count):
            if not self.read(1):
                raise Wrong(f"{self.rest!r}, and then the end")
            if self.lines:
                self.hear()

    # Both.

    def ask(self, line: str) -> str:
        """The first line that answers one."""
        self.say(line)
        return self.line()

    def open(self, name: str, client: str, seconds: float = SECONDS) -> int:
        """Opens an object by a name, and answers its next key. The name is in use until the session before was seen
        to end."""
        end = time.monotonic() + seconds
        while (line := self.ask(f"open {name} as {client}")) == "no InUse" and time.monotonic() < end:
            time.sleep(0.001)
        front = f"opened {name} next "
        holds(line.startswith(front), f"{client} is told {line!r}")
        return int(line.removeprefix(front))

    def call(self, key: int, text: str) -> tuple[bool, str]:
        """Calls under a key: whether the call is a new one, and its last line."""
        line = self.ask(f"call #{key} {text}")
        if line.startswith("accepted "):
            return True, self.line()
        holds(line.startswith("repeat "), f"call #{key} {text} is answered {line!r}")
        return False, line.removeprefix("repeat ")

    def again(self, key: int, text: str, last: str) -> None:
        """Asks again for a call, which has to be answered by its last line."""
        check(self.ask(f"call #{key} {text}"), f"repeat {last}", f"the answer to call #{key} {text}")

    def calls(self, *lines: str) -> list[str]:
        """The last lines of these calls, each without its number."""
        self.say(*(f"call {it}" for it in lines))
        found = []
        for _ in lines:
            line = self.hear()
            while line.startswith("accepted "):
                line = self.hear()
            found.append(" ".join([line.split(" ")[0], *line.split(" ", 2)[2:]]))
        return found

    # How it ends.

    def cut(self, how: str) -> None:
        """Breaks the connection, in one of the ways of CUTS."""
        if how == "sends no more":
            self.socket.shutdown(socket.SHUT_WR)
            with contextlib.suppress(EOFError):
                while True:
                    self.line()
        if how == "resets":
            resets(self.socket)
        self.close()

    def quit(self) -> None:
        self.say("quit")
        check(self.line(), "bye", "the answer to quit")
        self.close()

    def close(self) -> None:
        self.socket.close()
