"""Clients of a server that ends under them, and is started again. A crowd has names, calls kept objects, all in one
thread, comes back, and asks again; then what all were answered is judged. A crew is of any clients, each in a thread.
Nothing here knows how the server works: what is looked at is what docs/KEEPING.md promises.
"""
import collections
import errno
import random
import re
import selectors
import socket
import threading
import time
from collections.abc import Callable, Iterable
from typing import Any, NamedTuple

from gate import served
from gate.kept import Mounted, Server
from gate.talk import Talk
from gate.tried import Wrong, check, holds, there

ACCOUNTS, FUNDS = 8, 100
NAMES = ("counter", "ledger", "buffer", "echo")
SOURCE = """object counter;
  path 1:(pick, add, [read]) end;
  var v : array [1] of integer;
  entry procedure add(x : integer); begin v[0] := v[0] + x end;
  entry function pick : integer; begin v[0] := v[0] + 1; pick := v[0] end;
  entry function read : integer; begin read := v[0] end;
end;
object ledger;
  path 1:(fill, move, [at]) end;
  var t : array [8] of integer;
  entry procedure fill(i, x : integer); begin t[i] := x end;
  entry function move(i, j : integer; note : text) : integer;
  begin t[i] := t[i] - 1; t[j] := t[j] + 1; move := t[i] end;
  entry function at(i : integer) : integer; begin at := t[i] end;
end;
object buffer;
  path 5:(put; get) end;
  path 1:(put, get, [size]) end;
  var b : queue of text;
  entry procedure put(x : text); begin append(b, x) end;
  entry function get : text; begin get := first(b); take(b) end;
  entry function size : integer; begin size := count(b) end;
end;
object echo;
  path 9:(say) end;
  var v : array [1] of integer;
  entry function say(x : text) : text; begin say := x end;
end;
"""
# So many calls a client has sent at most that have no last line: of each name the last 16 calls are known.
AHEAD = (1, 1, 2, 5, 16)
LONG = "n" * 1000
# A server lives for so long under a crowd, in seconds; a start that is killed, for so long.
LIVES, STARTS = (0.01, 0.3), (0.0, 0.06)


def source_of(*names: str) -> str:
    """The declarations of these objects of SOURCE."""
    return "".join(it[0] for it in re.finditer(r"(?ms)^object (\w+);.*?^end;\n", SOURCE) if it[1] in names)


class Done(NamedTuple):
    """A call that has ended: when it was said and its end heard, and in which life of the server."""

    key: int
    call: str
    ending: str
    number: int
    said: float
    heard: float
    life: int


class Client:
    """A client with a name. Its calls have keys; it says some ahead, and asks again for those that have no last line
    where its connection breaks."""

    # The object that it calls.
    object: str

    def __init__(self, name: str, draw: random.Random, numbers: "Numbers", may_lose: "float | None", kills: list[float]) -> None:
        self.name, self.draw, self.ahead = name, draw, draw.choice(AHEAD)
        # The calls that have no last line yet, the first of which has this key; how many of them were said on this
        # connection; and when each key was first said.
        self.key, self.said = 1, 0
        self.calls: list[str] = []
        self.since: dict[int, float] = {}
        self.done: list[Done] = []
        self.number: "int | None" = None
        self.it: "socket.socket | None" = None
        self.cancelled, self.rest, self.owes, self.is_open = 0, b"", b"", False
        # The numbers that all were told. The server may lose what was answered so late, in seconds, before it was
        # killed; and it makes so many calls at most, where that is said.
        self.numbers, self.may_lose, self.kills, self.lacked = numbers, may_lose, kills, 0
        self.most: "int | None" = None
        # Whether its server ends in order: then it takes no more calls.
        self.may_be_gone = False

    def next_call(self) -> str:
        raise NotImplementedError

    def fill(self) -> None:
        """Thinks of more calls, and says them."""
        while len(self.calls) < self.ahead and (self.most is None or self.key + len(self.calls) <= self.most):
            self.calls.append(self.next_call())
        self.say_all()

    def say_all(self) -> None:
        now, keys = time.monotonic(), range(self.key + self.said, self.key + len(self.calls))
        lines = [f"call #{key} {self.calls[key - self.key]}\n" for key in keys]
        for key in keys:
            self.since.setdefault(key, now)
        self.said = len(self.calls)
        self.owes += "".join(lines).encode()

    def connected(self, it: socket.socket) -> None:
        self.it, self.rest, self.said, self.number = it, b"", 0, None
        self.is_open, self.owes = False, f"open {self.object} as {self.name}\n".encode()

    def broken(self) -> None:
        if self.it:
            self.it.close()
        self.it, self.is_open = None, False

    def hear(self, line: str, goes_on: bool) -> None:
        """A line came."""
        words = line.split(" ")
        if not self.is_open:
            self.opened(words, goes_on)
        elif words[0] == "accepted":
            holds(self.said and self.number is None, f"{self.name}: {line!r} came, and it waits for another line")
            self.number = int(words[1])
            self.numbers.note(self.object, self.number)
        elif words == ["no", "Memory"] and self.ahead == 1:
            # It takes no key, and is asked for again.
            self.lacked, self.said = self.lacked + 1, 0
            self.say_all()
        elif self.may_be_gone and words == ["no", "Gone"]:
            pass
        else:
            again = words[0] == "repeat"
            words = words[again:]
            is_last = words[0] in ("done", "refused", "failed", "cancelled") and self.said
            holds(is_last, f"{self.name}: {self.calls[:1]} is answered {line!r}")
            holds(again or self.number == int(words[1]), f"{self.name}: {line!r} came, and {self.number} was accepted")
            self.number = None
            self.ended(words)
            if goes_on and not self.said < len(self.calls):
                self.fill()

    def opened(self, words: list[str], goes_on: bool) -> None:
        if words in (["no", "InUse"], ["no", "Memory"]):
            self.owes += f"open {self.object} as {self.name}\n".encode()
            return
        holds(words[:3] == ["opened", self.object, "next"], f"{self.name}: it is told {words}")
        key = int(words[3])
        self.forget(key)
        why = f"{self.name}: the next key is {key}; {self.key} has no answer, {len(self.calls)} were said"
        holds(self.key <= key <= self.key + len(self.calls), why)
        self.is_open = True
        if goes_on:
            self.fill()
        else:
            self.say_all()

    def forget(self, key: int) -> None:
        """Calls may be lost that were answered late, where a server may lose them."""
        if self.may_lose is None or key >= self.key:
            return
        # So long before the end of the life in which each was answered.
        before = [self.kills[it.life] - it.heard for it in self.done if it.key >= key]
        late = [f"{1000 * it:.0f} ms" for it in before if it > self.may_lose]
        holds(not late, f"{self.name}: calls are lost that were answered {late} before the server was killed")
        self.done = [it for it in self.done if it.key < key]
        self.key, self.calls, self.since = key, [], {}

    def ended(self, words: list[str]) -> None:
        call, said = self.calls.pop(0), self.since.pop(self.key)
        self.said -= 1
        if words[0] == "cancelled":
            self.cancelled += 1
        else:
            ending = " ".join([words[0], *words[2:]])
            self.done.append(Done(self.key, call, ending, int(words[1]), said, time.monotonic(), len(self.kills)))
        self.key += 1


class Numbers:
    """The numbers that were told of calls of each object: none is told twice of two calls."""

    def __init__(self) -> None:
        self.told: dict[str, set[int]] = collections.defaultdict(set)

    def note(self, name: str, number: int) -> None:
        holds(number not in self.told[name], f"{name}: the number {number} was told twice")
        self.told[name].add(number)


class Counting(Client):
    object = "counter"

    def next_call(self) -> str:
        return "pick"


class Moving(Client):
    object = "ledger"

    def next_call(self) -> str:
        # (of an account that has nothing left nothing can be moved; long notes make epochs short)
        note = LONG if self.draw.random() < 0.2 else f"{self.name}.{self.draw.randrange(1000)}"
        return f"move {self.draw.randrange(ACCOUNTS)} {self.draw.randrange(ACCOUNTS)} '{note}'"


class Filling(Client):
    object, turn = "buffer", 0

    def next_call(self) -> str:
        self.turn += 1
        return f"put '{self.name}.{self.turn:09}'"


class Taking(Client):
    object = "buffer"

    def next_call(self) -> str:
        return "get"


KINDS = (Counting, Moving, Filling, Taking, Moving, Taking, Filling)


class Crowd:
    """All clients, and the moments at which something comes."""

    def __init__(self, server: Server, count: int, draw: random.Random, may_lose: "float | None" = None) -> None:
        self.server, self.draw, self.goes_on = server, draw, True
        self.kills: list[float] = []
        self.selector, numbers = selectors.DefaultSelector(), Numbers()
        self.clients: list[Client] = [KINDS[at % len(KINDS)](f"c{at}", draw, numbers, may_lose, self.kills) for at in range(count)]

    def connect(self, client: Client) -> None:
        """A connection that is not waited for."""
        made = socket.socket(socket.AF_UNIX if self.server.at_path else socket.AF_INET)
        made.setblocking(False)
        where: Any = self.server.place if self.server.at_path else ("127.0.0.1", int(self.server.place))
        state = made.connect_ex(where)
        if state not in (0, errno.EINPROGRESS):
            made.close()
            return
        client.connected(made)
        self.selector.register(made, selectors.EVENT_READ | selectors.EVENT_WRITE, client)

    def drop(self, client: Client) -> None:
        self.selector.unregister(there(client.it))
        client.broken()

    def run(self, seconds: float, hangs_up: float = 0.0) -> None:
        """Has all talk for so long. Clients hang up now and then, so many times a second in all."""
        end = time.monotonic() + seconds
        while (now := time.monotonic()) < end:
            for it in self.clients:
                if it.it is None:
                    self.connect(it)
            self.turn(max(0.0, min(end - now, 0.01)))
            if hangs_up and self.draw.random() < hangs_up * (time.monotonic() - now):
                it = self.draw.choice(self.clients)
                if it.it is not None:
                    self.drop(it)

    def turn(self, seconds: float) -> None:
        for key, mask in self.selector.select(seconds):
            client: Client = key.data
            try:
                if mask & selectors.EVENT_READ:
                    self.read(client)
                if client.owes:
                    client.owes = client.owes[there(client.it).send(client.owes) :]
                wanted = selectors.EVENT_READ | (selectors.EVENT_WRITE if client.owes else 0)
                if key.events != wanted:
                    self.selector.modify(there(client.it), wanted, client)
            except (BlockingIOError, InterruptedError):
                pass
            except (OSError, EOFError):
                self.drop(client)

    def read(self, client: Client) -> None:
        piece = there(client.it).recv(1 << 16)
        if not piece:
            raise EOFError
        client.rest += piece
        *lines, client.rest = client.rest.split(b"\n")
        for line in lines:
            client.hear(line.decode("ascii"), self.goes_on)

    def gone(self) -> None:
        """The server has ended now. What stands in a connection is read: it was answered."""
        now = time.monotonic()
        for it in self.clients:
            while it.it is not None:
                try:
                    self.read(it)
                except BlockingIOError:
                    break
                except (OSError, EOFError):
                    self.drop(it)
        self.kills.append(now)

    def is_done(self) -> bool:
        return all(it.most is not None and it.key > it.most for it in self.clients)

    def live(self, ways: "Iterable[Way]", seconds: float = 0.2) -> None:
        """Has all talk while the server ends in each of these ways, one after the other; then each learns what
        became of its calls."""
        try:
            for way in ways:
                self.run(self.draw.uniform(*LIVES), hangs_up=20)
                way(self)
            self.run(seconds)
            self.settle()
        finally:
            self.close()
        holds(all(it.done for it in self.clients), "a client was never answered")

    def settle(self, seconds: float = 30) -> None:
        """Has each client learn what became of its calls, and makes no more; calls that wait are cancelled."""
        self.goes_on = False
        end = time.monotonic() + seconds
        while time.monotonic() < end:
            self.run(0.1)
            open_ones = [it for it in self.clients if it.calls]
            if not open_ones:
                break
            if all(isinstance(it, (Taking, Filling)) for it in open_ones):
                # Who waits hangs up, comes back, and is told that the call was cancelled.
                for it in open_ones:
                    it.ahead = 1
                    if it.it is not None and it.is_open and it.number is not None:
                        self.drop(it)
        holds(not [it.name for it in self.clients if it.calls], "clients learn nothing of their last calls")
        for it in self.clients:
            if it.it is not None:
                self.drop(it)

    def close(self) -> None:
        for it in self.clients:
            if it.it is not None:
                self.drop(it)
        self.selector.close()


# How a life of a server ends under its crowd, and the next one begins.


Way = Callable[[Crowd], None]


def killed(lose: "Callable[[], object] | None" = None) -> Way:
    """By `kill -9`; one time in five the start behind it is killed, too. `lose` takes what no sync has stored."""

    def way(crowd: Crowd) -> None:
        crowd.server.kill()
        crowd.gone()
        if lose:
            lose()
        if crowd.draw.random() < 0.2:
            crowd.server.begin()
            time.sleep(crowd.draw.uniform(*STARTS))
            crowd.server.kill()
            if lose:
                lose()
        crowd.server.start()

    return way


def ended(file: "str | None" = None) -> Way:
    """In order; the next start has this FILE, where one is given."""

    def way(crowd: Crowd) -> None:
        for it in crowd.clients:
            it.may_be_gone = True
        check(crowd.server.end()[1], 0, "the status of an end in order")
        crowd.gone()
        for it in crowd.clients:
            it.may_be_gone = False
        if file:
            crowd.server.file.write_text(file, encoding="ascii")
        crowd.server.start()

    return way


def filled(disk: Mounted) -> Way:
    """By `kill -9`, on a disk without a free byte: the start behind it uses what stands ready, or, where nothing does
    yet, is refused until there is room. The crowd goes on with what is left of the disk."""

    def way(crowd: Crowd) -> None:
        disk.fill(0)
        crowd.server.kill()
        crowd.gone()
        try:
            crowd.server.start()
        except Wrong:
            disk.empty()
            crowd.server.start()

    return way


class Crew:
    """Clients of a server, each in a thread of its own, and what went wrong with them. They look themselves whether
    they are to stop."""

    def __init__(self) -> None:
        self.stops = False
        self.threads: list[threading.Thread] = []
        self.faults: list[str] = []

    def run(self, work: Callable[..., object], *words: Any, name: str = "") -> None:
        """Has a client work."""

        def body() -> None:
            try:
                work(*words)
            except Exception as fault:  # whatever it is, it is told, and the others go on
                self.faults.append(f"{name or f'{work.__name__}{words}'}: {type(fault).__name__} {fault}")

        self.threads.append(threading.Thread(target=body, daemon=True))
        self.threads[-1].start()

    def going_on(self) -> int:
        """How many of them have not ended."""
        return sum(it.is_alive() for it in self.threads)

    def kill(self, server: Server, times: int, draw: random.Random, least: float, most: float) -> None:
        """Kills their server so often, each time behind a rest of so many seconds, and starts it again."""
        for _ in range(times):
            time.sleep(draw.uniform(least, most))
            server.revive()

    def join(self, seconds: float = 60) -> None:
        """Waits until all have ended. It raises where one did wrong, or goes on."""
        end = time.monotonic() + seconds
        for it in self.threads:
            it.join(max(0.0, end - time.monotonic()))
        holds(not self.faults, f"{len(self.faults)} faults: {self.faults[:3]}")
        holds(not self.going_on(), "clients do not end")
        self.threads = []


# What the answers come to.


def in_order_of_numbers(clients: list[Client], name: str) -> list[Done]:
    done = sorted((it for client in clients if client.object == name for it in client.done), key=lambda it: it.number)
    failed = {it.ending for it in done if it.ending.startswith("failed")}
    holds(failed <= {"failed memory", "failed device"}, f"calls ended as {failed}")
    numbers = [it.number for it in done]
    holds(len(set(numbers)) == len(numbers), f"{name}: two calls were told one number")
    return done


def number_of(done: Done) -> int:
    return int(done.ending.removeprefix("done "))


def follows_the_clock(name: str, done: list[Done], place_of: Callable[[Done], Any]) -> None:
    """A call that was said when another one had been answered comes behind it."""
    latest: Any = None
    heard = sorted(done, key=lambda it: it.heard)
    at = 0
    for it in sorted(done, key=lambda it: it.said):
        while at < len(heard) and heard[at].heard < it.said:
            latest = max(latest, place_of(heard[at])) if latest is not None else place_of(heard[at])
            at += 1
        why = f"{name}: {it} was said behind the answer to another call, and stands before it"
        holds(latest is None or latest < place_of(it), why)


def tickets_are_right(server: Server, clients: list[Client]) -> int:
    """Each number was taken once, and none is missing."""
    done = in_order_of_numbers(clients, "counter")
    done = [it for it in done if it.ending.startswith("done")]
    taken = [number_of(it) for it in done]
    check(taken, list(range(1, len(taken) + 1)), "what was taken of the counter, in the order of the numbers of calls,")
    check(server.replies("counter", "read"), [f"done {len(taken)}"], "the counter")
    follows_the_clock("counter", done, number_of)
    return len(taken)


def ledger_is_right(server: Server, clients: list[Client]) -> int:
    """Each transfer was done once, in the order of the numbers of calls."""
    accounts, done = [FUNDS] * ACCOUNTS, in_order_of_numbers(clients, "ledger")
    for it in [it for it in done if not it.ending.startswith("failed")]:
        giver, taker = map(int, it.call.split(" ")[1:3])
        if accounts[giver]:
            accounts[giver] -= 1
            accounts[taker] += 1
            check(it.ending, f"done {accounts[giver]}", f"what {it.call[:40]} (number {it.number}) is answered")
        else:
            check(it.ending, "refused range", f"what {it.call[:40]} (number {it.number}) is answered")
    found = server.replies("ledger", *(f"at {it}" for it in range(ACCOUNTS)))
    check(found, [f"done {it}" for it in accounts], "the accounts")
    return len(done)


def buffer_is_right(server: Server, clients: list[Client]) -> int:
    """What was put is got once, or is there; and what one client put is got in its order."""
    fillers = [it for it in clients if isinstance(it, Filling)]
    puts = [it.call.split("'")[1] for client in fillers for it in client.done if it.ending == "done"]
    gets = [it for client in clients if isinstance(client, Taking) for it in client.done]
    gets = [it for it in gets if it.ending.startswith("done ")]
    got = [it.ending.split("'")[1] for it in gets]
    size = int(server.replies("buffer", "size")[0].removeprefix("done "))
    left = [it.split("'")[1] for it in server.replies("buffer", *["get"] * size)]
    twice = [item for item, count in collections.Counter(got + left).items() if count > 1]
    holds(not twice, f"{twice[:5]} were got twice")
    check(sorted(got + left), sorted(puts), "what was got and is left")
    by_client: dict[str, list[tuple[Done, str]]] = collections.defaultdict(list)
    for it, item in zip(gets, got):
        by_client[item.split(".")[0]].append((it, item))
    for name, pairs in by_client.items():
        places = {it: item for it, item in pairs}
        follows_the_clock(f"buffer, {name}", [it for it, _ in pairs], places.__getitem__)
    for client in clients:
        if isinstance(client, Filling):
            found = [it.split(".")[1] for it in left if it.startswith(f"{client.name}.")]
            check(found, sorted(found), f"the order of what {client.name} put")
    return len(puts) + len(gets)


def are_right(server: Server, crowd: Crowd) -> int:
    """Judges all answers, and what the objects hold then. It answers how many calls were answered."""
    clients = crowd.clients
    for it in clients:
        with Talk(server) as again:
            check(again.open(it.object, it.name), it.key, f"the next key of {it.name}")
        keys = [done.key for done in it.done]
        check(keys, sorted(keys), f"the order of the calls of {it.name}")
        numbers = [done.number for done in it.done]
        check(numbers, sorted(numbers), f"the numbers of the calls of {it.name}")
    return tickets_are_right(server, clients) + ledger_is_right(server, clients) + buffer_is_right(server, clients)


def polite(server: served.Server, calls: int = 20) -> float:
    """A client that behaves is served by a server of SOURCE: the seconds that this takes."""
    begun = time.monotonic()
    with Talk(server, "open counter", "opened counter") as it:
        check(it.calls(*["pick"] * calls)[0].split(" ")[0], "done")
        it.say("quit")
        it.hears("bye", "")
    return time.monotonic() - begun


def fill_ledger(server: Server) -> None:
    found = server.replies("ledger", *(f"fill {it} {FUNDS}" for it in range(ACCOUNTS)))
    check(found, ["done"] * ACCOUNTS, "the filled ledger")


