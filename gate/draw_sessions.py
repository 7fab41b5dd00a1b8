"""Draws sessions of clients that stay to the end, and looks whether each of their lines was answered once, and in order.

usage: gate/draw_sessions [--program FILE] [SEED ..]

The clients of a server send calls, cancels and lines that are refused, in pieces and with rests, while others let their calls wait, start or
end; for each object one client cancels what waits, until all have said `quit` and were answered `bye`. Each line but `cancel`
has to be answered in the order of the lines: a call by `accepted N` and the last line of N, or by a refusal; and each cancel in the
order of the cancels. A call under a key that a call of the session has already is answered by the last line of that call. Half of the
clients have a name: these come back when all have ended, and ask again for each of their calls. The server has to end by itself with
status 0, with legal traces in which each call stands as it was told. How often each kind of line was answered is said.
"""
import collections
import random
import socket
import sys
import threading
import time
from collections.abc import Iterator, Mapping, Sequence

from gate.drawn_objects import OBJECTS, call_of
from gate.served import Server, Told, traced_wrongly
from gate.tried import Wrong, given_words, new_folder, there, whole

SEEDS = (1, 2, 3)
CLIENTS, LINES = 32, 40
# How long all may last, how long a canceller may rest, and how long a client may rest between two pieces, in seconds: some less,
# some about as long and some longer than a session waits for a start before it goes to sleep.
LASTS, CANCELS, RESTS = 120, (0.003, 0.01, 0.03), (0, 0, 0, 0.0005, 0.002, 0.009, 0.012, 0.03)
# In some so many pieces a client says its lines at most. A long text byte by byte takes 18 seconds, and on a machine on
# which a short rest is not short more than all may last.
PIECES = 200
REFUSED = {"dance": "no BadLine", "": "no BadLine", "open cell": "no Opened", "call nothing": "no UnknownOp", "\x7f": "no BadLine",
           "open cell as ann": "no Opened", "open cell as end": "no BadLine", "call #0 nothing": "no BadKey", "call # get": "no BadLine",
           "call #4294967295 nothing": "no BadKey", "call #4294967296 nothing": "no BadLine"}
# What a line is to be answered besides, by its kind.
KEYED = {"past": "no BadKey", "reused": "no KeyReused", "unknown": "no UnknownOp"}


class Client(threading.Thread):
    """A connection, and all lines that came."""

    def __init__(self, port: int, end: float) -> None:
        super().__init__(daemon=True)
        self.it, self.end = socket.create_connection(("127.0.0.1", port), LASTS), end
        self.it.setsockopt(socket.IPPROTO_TCP, socket.TCP_NODELAY, 1)
        self.told, self.is_over = Told(), False
        self.heard: list[str] = []

    def run(self) -> None:
        self.it.settimeout(max(self.end - time.monotonic(), 0.01))
        try:
            with self.it.makefile("r", encoding="ascii", newline="\n") as lines:
                for line in lines:
                    self.heard.append(line.rstrip("\n"))
                    self.told.hear(self.heard[-1])
            self.is_over = True
        except OSError:
            pass


class Line:
    """A line of a client: its kind, and for a call that is asked for again its key."""

    def __init__(self, text: str, kind: str, key: int | None = None) -> None:
        self.text, self.kind, self.key = text, kind, key


class Speaker(Client):
    """A client that says drawn lines."""

    def __init__(self, seed: int, number: int, port: int, end: float) -> None:
        super().__init__(port, end)
        self.random = random.Random(seed * 1000 + number)
        self.made, self.client = self.random.choice(OBJECTS), f"c{number}" if number % 2 else None
        # The calls that are accepted, by their keys from 1, and the last line that came of each.
        self.calls: list[str] = []
        self.lasts: list[str] = []
        self.lines = [Line(self.opening(), "open"), *(self.drawn() for _ in range(self.random.randrange(LINES))), Line("quit", "quit")]

    def opening(self) -> str:
        if not self.client:
            return f"open {self.made.name}"
        return f"open {self.made.name} as {self.random.choice((self.client, self.client.upper()))}"

    def drawn(self) -> Line:
        kind = self.random.randrange(10)
        if kind == 0:
            text = self.random.choice(list(REFUSED))
            return Line(text, "refused")
        if kind < 3:
            return Line(f"cancel {self.random.randrange(1, 200)}", "cancel")
        if kind < 6:
            return self.keyed()
        self.calls.append(self.call())
        return Line(f"call {self.calls[-1]}", "call")

    def call(self) -> str:
        return call_of(self.random, self.made)

    def keyed(self) -> Line:
        """A call under a key: the next one, one that a call has already, or one that is wrong."""
        kind, after = self.random.choice(("call", "again", "again", "past", "reused", "unknown")), len(self.calls) + 1
        key = self.random.randrange(1, after) if kind in ("again", "reused") and self.calls else after
        if kind == "past":
            return Line(f"call #{self.random.choice((0, after + 1, after + 100))} {self.call()}", kind)
        if kind == "unknown":
            return Line(f"call #{after} nothing", kind)
        if key == after:
            self.calls.append(self.call())
            return Line(f"call #{key} {self.calls[-1]}", "call")
        said = self.calls[key - 1]
        text = self.random.choice(("nothing", f"{said} 7", f"{said} ''")) if kind == "reused" else said
        return Line(f"call #{key} {text}", kind, key)

    def speak(self) -> None:
        """Says all lines, in pieces of drawn lengths, and rests between them."""
        text = "".join(f"{line.text}\n" for line in self.lines).encode("ascii")
        longest = max(self.random.choice((6, 30, 300, 3000)), 2 * len(text) // PIECES)
        at = 0
        try:
            while at < len(text):
                size = self.random.randrange(1, longest)
                self.it.sendall(text[at : at + size])
                at += size
                time.sleep(self.random.choice(RESTS))
        except OSError:
            pass

    def faults(self) -> list[str]:
        """What is wrong with what it heard."""
        if not self.is_over:
            return [f"{len(self.lines)} lines, and after {LASTS} seconds no end: {self.heard[-3:]}"]
        cancels = [it for it in self.heard if it.startswith("cancel ")]
        wanted = [it.text for it in self.lines if it.kind == "cancel"]
        said = [] if [it.rpartition(" ")[0] for it in cancels] == wanted else [f"{wanted} were answered {cancels}"]
        return self.told.wrong + said + self.disorder([it for it in self.heard if not it.startswith("cancel ")])

    def disorder(self, heard: list[str]) -> list[str]:
        """What is wrong with the answers to the lines that are no cancels."""
        rest = iter(heard)
        for line in self.lines:
            if line.kind != "cancel":
                found = next(rest, "")
                if not self.is_right(line, found, rest):
                    return [f"{line.text!r} was answered {found!r}, among {heard[-6:]}"]
        return []

    def is_right(self, line: Line, found: str, rest: Iterator[str]) -> bool:
        """Whether a line is answered by this one, and by what comes behind it."""
        if line.kind == "open":
            return found == f"opened {self.made.name}" + (f" next {len(self.lasts) + 1}" if self.client else "")
        if line.kind == "quit":
            return found == "bye" and next(rest, None) is None
        if line.kind == "again":
            return found == f"repeat {self.lasts[there(line.key) - 1]}"
        if line.kind != "call":
            return found == KEYED.get(line.kind, REFUSED.get(line.text))
        number = found.removeprefix("accepted ")
        self.lasts.append(next(rest, "") if number.isdigit() else "")
        return self.lasts[-1].split(" ")[1:2] == [number] and self.lasts[-1].split(" ")[0] in ("done", "refused", "cancelled")


class Returned(Speaker):
    """A client that comes back by the name of one that has ended, and asks again for each of its calls, and for one more."""

    def __init__(self, first: Speaker, port: int, end: float) -> None:
        Client.__init__(self, port, end)
        self.random, self.made, self.client, self.lasts = first.random, first.made, first.client, list(first.lasts)
        again = [Line(f"call #{key} {it}", "again", key) for key, it in enumerate(first.calls, 1)]
        self.lines = [Line(self.opening(), "open"), *again, Line(f"call #{len(again) + 1} nothing", "unknown"), Line("quit", "quit")]

    def speak(self) -> None:
        """Opens the object, which may take a while: the name is out until all of the first session has ended."""
        try:
            is_open = False
            while not is_open and time.monotonic() < self.end:
                said = len(self.heard)
                self.it.sendall(f"{self.lines[0].text}\n".encode("ascii"))
                while len(self.heard) == said and time.monotonic() < self.end:
                    time.sleep(0.001)
                is_open = self.heard[said:] != ["no InUse"]
            self.it.sendall("".join(f"{it.text}\n" for it in self.lines[1:]).encode("ascii"))
        except OSError:
            pass

    def disorder(self, heard: list[str]) -> list[str]:
        return super().disorder([it for it in heard if it != "no InUse"])


def cancel_all(client: Client, name: str, speakers: Sequence[Speaker]) -> None:
    """Cancels the calls that wait or run in an object, until all speakers are done."""
    try:
        client.it.sendall(f"open {name}\n".encode())
        while any(it.is_alive() for it in speakers) and time.monotonic() < client.end:
            time.sleep(random.choice(CANCELS))
            numbers = [it.told.call for it in speakers if it.made.name == name]
            client.it.sendall("".join(f"cancel {it}\n" for it in numbers if it).encode())
        client.it.sendall(b"quit\n")
    except OSError:
        pass


def begin(clients: Sequence[Client], works: Sequence[threading.Thread]) -> None:
    """Starts clients, and what they say."""
    for it in [*clients, *works]:
        it.start()


def await_end(clients: Sequence[Client], works: Sequence[threading.Thread], end: float) -> None:
    for it in [*clients, *works]:
        it.join(max(end - time.monotonic(), 0) + 1)
    for it in clients:
        it.it.close()


def talk(seed: int, port: int) -> tuple[list[Speaker], list[str]]:
    """Has all clients of a server talk to their ends, and then those that have a name once more."""
    end = time.monotonic() + LASTS
    speakers = [Speaker(seed, number, port, end) for number in range(CLIENTS)]
    cancellers = [Client(port, end) for _ in OBJECTS]
    works = [threading.Thread(target=it.speak, daemon=True) for it in speakers]
    for made, it in zip(OBJECTS, cancellers):
        works.append(threading.Thread(target=cancel_all, args=(it, made.name, speakers), daemon=True))
    begin([*speakers, *cancellers], works)
    await_end([*speakers, *cancellers], works, end)
    # (what is wrong with what a client heard also says how each of its calls ended)
    said = [f"{it.made.name}: {fault}" for it in speakers for fault in it.faults()]
    returned = [Returned(it, port, end) for it in speakers if it.client]
    works = [threading.Thread(target=it.speak, daemon=True) for it in returned]
    begin(returned, works)
    await_end(returned, works, end)
    said += [f"{it.made.name}, {it.client} again: {fault}" for it in returned for fault in it.faults()]
    return [*speakers, *returned], said


def tried(seed: int) -> tuple[list[str], int, Mapping[str, int]]:
    """What is wrong with what the clients of one server heard, how many lines they heard, and how many of each kind they said."""
    with new_folder("draw-") as folder:
        objects, place = folder / "objects", folder / "place"
        place.mkdir()
        objects.write_text("".join(it.text for it in OBJECTS), encoding="ascii")
        sessions = CLIENTS + CLIENTS // 2 + len(OBJECTS)
        try:
            with Server("serve", objects, place, "--sessions", sessions) as server:
                speakers, said = talk(seed, server.port)
                out, status, error = server.ended(LASTS)
        except (OSError, Wrong) as fault:
            return [str(fault)], 0, {}
        if status or error:
            said.append(f"status {status}, standard error {error!r}")
        for name, _, count in (it.partition(" entries ") for it in out.splitlines()):
            said += traced_wrongly(objects, place, name, [it.told for it in speakers], int(count)) if count.isdigit() else [f"{name!r}"]
        kinds = collections.Counter(line.kind for it in speakers for line in it.lines)
        return said, sum(len(it.heard) for it in speakers), kinds


def main() -> int:
    words = given_words()
    if not all(it.isdigit() for it in words):
        print(__doc__, file=sys.stderr)
        return 2
    seeds = [int(it) for it in words] or SEEDS
    failed = 0
    for seed in seeds:
        said, heard, kinds = tried(seed)
        lines = ", ".join(f"{kind} {count}" for kind, count in sorted(kinds.items()))
        print("\n".join(f"seed {seed}: {it}" for it in said) if said else f"seed {seed}: {heard} lines were heard; of lines {lines}")
        failed += bool(said) or not heard
    print(f"draw_sessions: {len(seeds) - failed} passed, {failed} failed")
    return 1 if failed else 0


load_tests = whole(main)
