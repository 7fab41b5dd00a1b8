"""Clients of a server that have a name, are cut, come back by it and ask again under their keys: what
gate/cut_connections tries with them, over `serve` and `keep`."""
import contextlib
import functools
import random
import select
import threading
import time
from collections.abc import Callable, Sequence

from gate.crowd import Crew
from gate.drawn_objects import call_of
from gate.either import ALL, BOTH, Either, objects_of
from gate.fakes import METER
from gate.slow_world import Object
from gate.talk import CUTS, Talk
from gate.tried import TOP, Trial, Wrong, check, holds, is_one_of, there

# How long an answer, and the end of a server, may take, in seconds.
SECONDS = 20
# Of a name so many calls are known to `keep`.
KNOWN = 16
BUFFER = (TOP / "examples" / "objects" / "bounded_buffer.pp").read_text(encoding="ascii")


def client_of(server: Either) -> Talk:
    return server.client(seconds=SECONDS)


def ask_again(server: Either, key: int, place: str, may_be_new: bool) -> None:
    """Comes back after a cut, and asks under the key of that call: it is done once, and each answer is the same.
    (Calls add 5, so the reply says how many were done.)"""
    it, last = client_of(server), f"done {key} {5 * key}"
    found = it.open("meter", "ann")
    try:
        is_one_of(found, *([key, key + 1] if may_be_new else [key + 1]))
        check(it.call(key, "add 5"), (found == key, last))
        it.again(key, "add 5", last)
        check(it.ask(f"call #{key} add 6"), "no KeyReused")
        check(it.ask(f"call #{key + 2} add 5"), "no BadKey")
        it.quit()
    except Wrong as error:
        raise Wrong(f"cut at {place} of call {key}, next key {found}: {error}") from None


def cut_line(kind: str, how: str) -> None:
    """A client that is cut at each byte of the line of its call. A line that did not come whole is not done."""
    size = len("call #99 add 5\n")
    with Either(kind, METER, 2 * (size + 1)) as server:
        for key, place in enumerate(range(size, -1, -1), 1):
            it, line = client_of(server), f"call #{key} add 5\n".encode()
            check(it.open("meter", "ann"), key)
            it.send(line[:place])
            it.cut(how)
            ask_again(server, key, f"{place} bytes of the line", True)
            if place < len(line):
                check(there(it.told).ends, {})
        check(server.end(), {"meter": size + 1})


def cut_open(kind: str, how: str) -> None:
    """A client that is cut at each byte of the line with which it opens: that may open by a shorter name, and takes
    no key."""
    line = b"open meter as ann\n"
    with Either(kind, METER, len(line) + 2) as server:
        it = client_of(server)
        it.open("meter", "ann")
        check(it.call(1, "add 5"), (True, "done 1 5"))
        it.quit()
        for place in range(len(line)):
            it = client_of(server)
            it.send(line[:place])
            it.cut(how)
        it = client_of(server)
        check(it.open("meter", "ann"), 2)
        it.again(1, "add 5", "done 1 5")
        it.quit()
        check(server.end(), {"meter": 1})


def cut_answer(kind: str, how: str) -> None:
    """A client that is cut once it has read so many bytes of the answer to its call, for each number of them."""
    size = len("accepted 9\ndone 9 45\n") + 4
    with Either(kind, METER, 2 * (size + 1)) as server:
        for key, place in enumerate(range(size + 1), 1):
            it, answer = client_of(server), f"accepted {key}\ndone {key} {5 * key}\n"
            check(it.open("meter", "ann"), key)
            it.say(f"call #{key} add 5")
            it.take(min(place, len(answer)))
            it.cut(how)
            ask_again(server, key, f"{place} bytes of the answer", place == 0)
        check(server.end(), {"meter": size + 1})


def cut_waiting(kind: str, how: str) -> None:
    """A client whose call waits when it is cut, after each number of bytes of `accepted N`: the call is cancelled,
    and stays so."""
    with Either(kind, BUFFER, 2 * 12 + 3) as server:
        key, number, puts = 1, 0, 0
        producer = client_of(server)
        producer.open("bounded_buffer", "bob")
        for place in range(12):
            it = client_of(server)
            check(it.open("bounded_buffer", "ann"), key)
            it.say(f"call #{key} get")
            it.take(min(place, len(f"accepted {number + 1}\n")))
            it.cut(how)
            it = client_of(server)
            found = it.open("bounded_buffer", "ann")
            is_one_of(found, key + 1, *([key] if place == 0 else []))
            if found == key + 1:
                number += 1
                it.again(key, "get", f"cancelled {number}")
                it.again(key, "get", f"cancelled {number}")
                key += 1
            # Under the next key it waits once more, until there is something.
            it.say(f"call #{key} get")
            number += 1
            check(it.line(), f"accepted {number}")
            check(select.select([it.socket], [], [], 0.02)[0], [])
            puts += 1
            number += 1
            check(producer.call(puts, f"put 'item {puts}'"), (True, f"done {number}"))
            check(it.line(), f"done {number - 1} 'item {puts}'")
            it.again(key, "get", f"done {number - 1} 'item {puts}'")
            key += 1
            it.quit()
        producer.quit()
        last = client_of(server)
        check(last.open("bounded_buffer", "ann"), key)
        last.quit()
        last = client_of(server)
        check(last.open("bounded_buffer", "bob"), puts + 1)
        last.quit()
        check(server.end(), {"bounded_buffer": 2 * puts})


def two_at_once(kind: str) -> None:
    """Two connections with one name: the second one is refused until the first one has ended. A name is one of an
    object."""
    with Either(kind, METER + METER.replace("meter", "other"), 5) as server:
        a, b, c, d = (client_of(server) for _ in range(4))
        check(a.ask("open meter as ann"), "opened meter next 1")
        check(b.ask("open meter as ann"), "no InUse")
        check(b.ask("open meter as ANN"), "no InUse")
        check(a.call(1, "add 5"), (True, "done 1 5"))
        check(b.ask("open METER as Ann"), "no InUse")
        check(b.ask("call #1 add 5"), "no NotOpen")
        # The same name for another object, another name, and none.
        check(b.ask("open other as ann"), "opened other next 1")
        check(c.ask("open meter as anna"), "opened meter next 1")
        check(d.ask("open meter as ann"), "no InUse")
        check(d.ask("open meter"), "opened meter")
        check(d.call(1, "add 5"), (True, "done 2 10"))
        # (of a session without a name `keep` knows no call)
        if server.is_kept:
            check(d.ask("call #1 ADD 5"), "no BadKey")
        else:
            d.again(1, "ADD 5", "done 2 10")
        a.quit()
        e = client_of(server)
        check(e.open("meter", "aNN"), 2)
        e.again(1, "add 5", "done 1 5")
        for it in (b, c, d, e):
            it.quit()
        check(server.end(), {"meter": 2, "other": 0})


def names_at_once(kind: str) -> None:
    """As many names as half of the connections of a server, at once: each is cut, comes back, and gets its own
    replies."""
    with Either(kind, METER, 64) as server:
        names = [f"n{it}" for it in range(32)]
        clients = {it: client_of(server) for it in names}
        lasts = {}
        for turn in (1, 2):
            for name, it in clients.items():
                if turn == 1:
                    check(it.open("meter", name), 1)
                is_new, lasts[name, turn] = it.call(turn, "add 5")
                check(is_new, True)
        check(len(set(lasts.values())), 64)
        for at, it in enumerate(clients.values()):
            it.cut(CUTS[at % 3])
        for name in reversed(names):
            it = client_of(server)
            check(it.open("meter", name.upper()), 3)
            for turn in (2, 1, 2):
                it.again(turn, "add 5", lasts[name, turn])
            it.quit()
        check(server.end(), {"meter": 64})


def stopped(kind: str) -> None:
    """A server that is stopped while seats are parked, one name is out, and the call of another one waits: all adds
    up. (That call is asked for again where the server is kept, so nothing is told of it.)"""
    with Either(kind, BUFFER, 9, stops=True) as server:
        for name in ("ann", "bob", "cid"):
            it = client_of(server)
            it.open("bounded_buffer", name)
            it.call(1, "put 'x'")
            it.call(2, "get")
            it.quit()
        idle, waiting, plain = (client_of(server) for _ in range(3))
        check(idle.open("bounded_buffer", "ann"), 3)
        check(waiting.open("bounded_buffer", "dot"), 1)
        check(waiting.ask("call #1 get"), "accepted 7")
        check(plain.ask("open bounded_buffer"), "opened bounded_buffer")
        server.stop()
        waiting.hears("" if server.is_kept else "cancelled 7")
        check(server.end(), {"bounded_buffer": 6})
        for it in (idle, waiting, plain):
            it.close()


def together(work: Callable[[int], object], count: int) -> None:
    """Has so many clients work at the same time, each by its number."""
    crew = Crew()
    for it in range(count):
        crew.run(work, it)
    crew.join(3 * SECONDS)


def one_name_for_all(kind: str) -> None:
    """Clients that share a name, and come for it at the same time: one has it at a time, and each call has a key of
    its own."""
    count, turns = 16, 4
    keys = []
    with Either(kind, METER, count * turns) as server:

        def work(number: int) -> None:
            for turn in range(turns):
                it = client_of(server)
                key = it.open("meter", "ann")
                check(it.call(key, "add 5"), (True, f"done {key} {5 * key}"))
                keys.append(key)
                if (number + turn) % 2:
                    it.quit()
                else:
                    it.cut(CUTS[number % 3])

        together(work, count)
        check(sorted(keys), list(range(1, count * turns + 1)))
        check(server.end(), {"meter": count * turns})


def stopped_meanwhile(kind: str) -> None:
    """A server that is stopped while clients by name call, are cut and come back."""
    count, turns = 8, 8
    with Either(kind, METER, count * turns, stops=True) as server:

        def work(number: int) -> None:
            done = 0
            for turn in range(turns):
                try:
                    it = client_of(server)
                    line = it.ask(f"open meter as n{number}")
                    while line == "no InUse":
                        time.sleep(0.001)
                        line = it.ask(f"open meter as n{number}")
                    check(line.startswith("opened meter next "), True)
                    key = int(line.split()[3])
                    check(key > done, True)
                    line = it.ask(f"call #{key} add 5")
                    if line.startswith("accepted "):
                        check(it.line().startswith("done "), True)
                        done = key
                    else:
                        check(line, "no Gone")
                    it.cut(CUTS[turn % 3])
                except (EOFError, OSError):
                    return
                time.sleep(0.02)

        stop = threading.Timer(0.2, server.stop)
        stop.start()
        together(work, count)
        stop.join()
        server.end()


class Wanderer:
    """A client that is cut at a place that is drawn, three times, and asks again for all that it called."""

    def __init__(self, seed: int, number: int, server: Either, objects: Sequence[Object]) -> None:
        self.random, self.server, self.client = random.Random(seed * 1000 + number), server, f"w{number}"
        self.made = self.random.choice(objects)
        self.calls: list[str] = []
        self.lasts: dict[int, str] = {}

    def wander(self) -> None:
        for turn in range(3):
            it = client_of(self.server)
            self.ask_for_all(it, it.open(self.made.name, self.client))
            if turn == 2:
                it.quit()
                return
            self.talk(it)
            it.cut(self.random.choice(CUTS))

    def ask_for_all(self, it: Talk, key: int) -> None:
        """Asks for each call once more that is known, but for those that were not taken; a call that was told has to
        be there."""
        check(key > max(self.lasts, default=0) and key <= len(self.calls) + 1, True)
        del self.calls[key - 1 :]
        known = list(enumerate(self.calls, 1))
        for number, text in known[-KNOWN:] if self.server.is_kept else known:
            is_new, last = it.call(number, text)
            check((is_new, last), (False, self.lasts.setdefault(number, last)))

    def talk(self, it: Talk) -> None:
        """Sends calls ahead as far as a byte that is drawn, and reads as many lines as is drawn. None waits for
        long, since another client cancels what waits."""
        first, count = len(self.calls) + 1, self.random.randrange(1, 12)
        self.calls += [call_of(self.random, self.made) for _ in range(count)]
        text = "".join(f"call #{key} {self.calls[key - 1]}\n" for key in range(first, first + count)).encode()
        it.send(text[: self.random.randrange(len(text) + 1)])
        key, lines = first, self.random.randrange(2 * count)
        while lines and (it.lines or select.select([it.socket], [], [], 0.3)[0]):
            line = it.line()
            if not line.startswith("accepted "):
                self.lasts[key] = line
                key += 1
            lines -= 1


def cancel_all(server: Either, name: str, crew: Crew) -> None:
    """Cancels each call of an object in turn, as long as clients go on."""
    it, number = client_of(server), 0
    with contextlib.suppress(Wrong, EOFError, OSError):
        check(it.ask(f"open {name}"), f"opened {name}")
        while crew.going_on():
            for each in range(number, number + 8):
                it.ask(f"cancel {each}")
            number = number + 8 if number < 200 else 0
            time.sleep(0.002)
        it.quit()


def drawn(kind: str, seed: int) -> None:
    """Clients by name that are cut at drawn places while others cancel what waits."""
    objects = objects_of(kind, seed)
    count = (64 - len(objects)) // 3
    with Either(kind, "".join(it.text for it in objects), 3 * count + len(objects)) as server:
        crew, others = Crew(), Crew()
        wanderers = [Wanderer(seed, number, server, objects) for number in range(count)]
        for one in wanderers:
            crew.run(one.wander, name=f"{one.made.name}, {one.client}")
        for made in objects:
            others.run(cancel_all, server, made.name, crew)
        crew.join(3 * SECONDS)
        others.join(3 * SECONDS)
        server.end()
        holds(sum(len(it.lasts) for it in wanderers), "no call was told of")


CUT: dict[str, Callable[..., object]] = {
    "at each byte of a call": cut_line,
    "at each byte of an open": cut_open,
    "at each byte of an answer": cut_answer,
    "while a call waits": cut_waiting,
}
OTHERS: dict[str, Callable[..., object]] = {
    "two connections with one name": two_at_once,
    "32 names at once, which come back": names_at_once,
    "16 clients that share a name": one_name_for_all,
    "a server that is stopped while seats are parked": stopped,
    "a server that is stopped while clients come back": stopped_meanwhile,
    "clients by name that are cut at drawn places, seed 1": functools.partial(drawn, seed=1),
    "clients by name that are cut at drawn places, seed 2": functools.partial(drawn, seed=2),
}


def trials() -> list[Trial]:
    cut = ((f"cut {where}, which {how}, {kind}", work, (kind, how)) for where, work in CUT.items() for how in CUTS for kind in ALL)
    others = ((f"{title}, {kind}", work, (kind,)) for title, work in OTHERS.items() for kind in BOTH)
    return [Trial(title, functools.partial(work, *words)) for title, work, words in (*cut, *others)]
