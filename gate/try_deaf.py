"""Has clients of `pathserve serve` and of `pathserve keep` read nothing, say a byte at a time, a line without an end,
or many lines ahead, and looks whether they harm themselves alone.

usage: gate/try_deaf [--program FILE] [--big 1] [WORDS OF A TITLE ..]

Whoever behaves has to be answered all the while, each within a time, and memory has to stay within what docs/LIMITS.md
says. A client that reads nothing fills the buffers of its connection with answers, and has a call that waits: `serve`
has to let it go in the end, `keep` to read no more of it; one that has a name can come back. Of a client that is cut
off within a line nothing but whole lines may be done. Each server has to end in order, with traces that are legal.

With `--big 1` there are more clients, and more lines.
"""
import contextlib
import re
import threading
import time
from typing import Any

from gate import either
from gate.crowd import LONG, Crew, polite, source_of
from gate.either import ALL, Either
from gate.kept import options, raised
from gate.talk import Talk
from gate.tried import Trial, check, given_words, holds, loads, run, until

SOURCE = f"""object hold;
  path a; b end;
  path 1:(a, b) end;
  var v : array [1] of integer;
  entry procedure a; begin v[0] := v[0] + 1 end;
  entry procedure b; begin v[0] := v[0] + 1 end;
  entry function name : text; begin name := '{LONG}' end;
end;
object cell;
  path 1:([get], put) end;
  var v : array [1] of integer;
  entry function get : integer; begin get := v[0] end;
  entry procedure put(x : integer); begin v[0] := x end;
end;
"""
# How long an answer may take, a client that reads nothing may stay, and a server may take to end after its last client,
# in seconds.
ANSWERS, STAYS, ENDS = 8, 30, 20
# How often the deaf client calls, what it sends then, and how long it rests so that its last call waits.
ROUNDS, LINES, RESTS = 60, b"call name\n" * 400 + b"call b\n", 0.1
# How many clients take turns, how many calls are sent ahead, and within which time the first answer to them has to
# come, in seconds. The manual says some 30 milliseconds; here other programs run too.
BUSY, AHEAD, SOON = 8, 300, 1.0
# How often a client by name asks again at once, and what the server may hold meanwhile, in KiB.
AGAIN, HOLDS = 400, 32 * 1024
# What a client may be owed, and what is held of it, in KiB; and so long five calls of one that behaves take at most, in
# seconds.
OWED, HELD, SLOW = 64, 64, 30


def answers(it: Talk, line: str) -> None:
    """A call is answered in time, to its end."""
    it.say(line)
    begun = time.monotonic()
    holds(it.hear().startswith("accepted ") and it.hear().startswith("done "), f"{line} is not answered")
    holds(time.monotonic() - begun < ANSWERS, f"{line} is answered after {time.monotonic() - begun:.1f} s")


# Clients that read nothing.


def one_reads_nothing(kind: str, big: bool) -> None:
    """It holds up nobody of its object, and none of another one; `serve` lets it go."""
    with Either(kind, SOURCE, 3) as server:
        deaf = server.client("open hold", "opened hold", seconds=0.5, buffer=4096)
        other, third = server.client("open hold", "opened hold"), server.client("open cell", "opened cell")
        is_full = is_gone = False
        for _ in range(ROUNDS):
            try:
                if not is_full:
                    deaf.socket.send(LINES)
            except TimeoutError:
                is_full = True
            except OSError:
                is_gone = True
                break
            time.sleep(RESTS)
            answers(other, "call a")
            answers(third, "call put 1")
        end = time.monotonic() + STAYS
        while not server.is_kept and not is_gone and time.monotonic() < end:
            try:
                deaf.socket.send(b"call name\n")
                time.sleep(0.5)
            except TimeoutError:
                pass
            except OSError:
                is_gone = True
        holds(is_gone != server.is_kept, f"whether it is let go within {STAYS} seconds: {is_gone}")
        holds(server.memory() < HOLDS, f"the server has {server.memory()} KiB")
        deaf.close()
        for it in (other, third):
            it.quit()
        server.end(ENDS)


def one_that_has_a_name_reads_nothing(kind: str, big: bool) -> None:
    """It asks again for what it was told, and what it has not read is not kept. It can come back when it was let go."""
    with Either(kind, SOURCE, 4) as server:
        deaf = server.client("open hold as ann", "opened hold next 1", buffer=4096)
        other, third = server.client("open cell", "opened cell"), server.client("open cell", "opened cell")
        last = deaf.call(1, "name")[1]
        deaf.socket.settimeout(0.5)
        with contextlib.suppress(OSError):
            while True:
                deaf.socket.send(b"call #1 name\n" * AGAIN)
                answers(other, "call put 1")
        holds(server.memory() < HOLDS, f"the server has {server.memory()} KiB")
        other.quit()
        if server.is_kept:
            deaf.close()
        back = server.client()
        check(back.open("hold", "ann", STAYS), 2, "the next key")
        back.again(1, "name", last)
        deaf.close()
        for it in (third, back):
            it.quit()
        server.end(ENDS)


def none_grows(server: Either, count: int, who: str, text: bytes, opening: bytes) -> int:
    """Clients of which no more is read take little memory each, and others are served meanwhile. It gives how much
    memory the server had before them, once they have gone."""
    polite(server)
    before = server.memory()
    # (of each what it says next)
    made: list[list[Any]] = []
    for _ in range(count):
        made.append([server.connect(), opening + text])
        made[-1][0].setblocking(False)
    end, last = time.monotonic() + 60, time.monotonic()
    while time.monotonic() < end and time.monotonic() - last < 2:
        for row in made:
            with contextlib.suppress(BlockingIOError):
                sent = row[0].send(row[1])
                row[1], last = row[1][sent:] or text, time.monotonic()
        time.sleep(0.001)
    each = (server.memory("VmHWM") - before) / count
    print(f"{count} {who}: {each:.0f} KiB each at most")
    holds(each < OWED + HELD + 24, f"of {count} {who} each takes {each:.0f} KiB")
    holds(polite(server) < SLOW, "others wait")
    for it, _ in made:
        it.close()
    until(lambda: server.descriptors() < 30, "connections are left")
    return before


def kept_for(count: int, *words: object) -> Either:
    """A server of `keep` at a socket for so many clients, and some more."""
    raised(count + 300)
    return Either("keep at a socket", source_of("counter", "buffer"), 0, "--sync", "1000", "--at-once", count + 10, *words)


def many_read_nothing(kind: str, big: bool) -> None:
    """They are owed ever more and send on: no more is read of them, memory is bounded, and others are served."""
    # (each has 11 bytes told for 2 that it says, 280 KB until no more is read of it)
    count = 200 if big else 60
    with kept_for(count) as server:
        before = none_grows(server, count, "that never read", b"d\n" * 8192, b"")
        holds((server.memory() - before) / count < 24, f"{(server.memory() - before) / count:.0f} KiB of each are left")
        polite(server)
        server.end()


# Clients that say much ahead.


def the_lines_of_many_are_held(kind: str, big: bool) -> None:
    """They send on behind a call that waits: no more is read of them, and memory is bounded."""
    count = 1_000 if big else 300
    with kept_for(count) as server:
        none_grows(server, count, "whose lines are held", f"call put '{LONG}'\n".encode() * 64, b"open buffer\ncall get\n")
        server.end()


def lines_are_held_for_ever(kind: str, big: bool) -> None:
    """Of a client that always has lines held, however many calls it makes, no more is kept than what is held."""
    calls = 100_000 if big else 12_000
    with kept_for(2) as server:
        taker, giver = (Talk(server, "open buffer", "opened buffer") for _ in range(2))
        taker.shout("call " + " " * 900 + "get", calls)
        threading.Thread(target=lambda: [taker.hear() for _ in range(2 * calls)], daemon=True).start()
        time.sleep(0.3)
        before, most = server.memory(), 0
        for turn in range(calls // 5):
            # (five at a time: the one that takes is always ahead)
            giver.calls(*["put 'x'"] * 5)
            if turn % 200 == 0:
                most = max(most, server.memory() - before)
        print(f"{calls} calls whose lines were held: {most} KiB")
        holds(most < 1_024, f"{most} KiB more for one client whose lines are held")


def who_hangs_up_ahead_of_its_calls(kind: str, big: bool) -> None:
    """Whoever has sent more than is held, and hangs up, is seen to have gone: its call is cancelled, and no other
    one is done."""
    # (at a port nobody knows of an end behind bytes for which the system has no room: some 200,000)
    for size in (1_000, 60_000, *((200_000, 1_000_000) if kind.endswith("socket") else (110_000,))):
        with Either(kind, source_of("buffer"), 2) as server:
            it = server.client("open buffer", "opened buffer")
            check(it.ask("call get"), "accepted 1")
            files = server.lasting()
            it.socket.settimeout(0.3)
            with contextlib.suppress(TimeoutError):
                it.send(b"call put 'zzzz'\n" * (size // 16))
            it.close()
            until(lambda: server.descriptors() < files, f"{size} bytes ahead: its connection is left", 5)
            with server.client("open buffer", "opened buffer") as other:
                check(other.calls("put 'x'", "size"), ["done", "done 1"], f"{size} bytes ahead: what is in the buffer")
            server.end()


def answers_to_what_is_said_ahead_come_soon(kind: str, big: bool) -> None:
    """The first answer to many calls that are sent ahead, while others take turns with them."""
    with Either(kind, SOURCE, BUSY + 1) as server:
        crew = Crew()

        def busy() -> None:
            with server.client("open cell", "opened cell") as it:
                while not crew.stops:
                    answers(it, "call put 5")
                it.quit()

        for _ in range(BUSY):
            crew.run(busy)
        it = server.client("open cell", "opened cell")
        times = []
        for _ in range(10):
            begin = time.monotonic()
            it.say(*["call put 6"] * AHEAD)
            holds(it.hear(), "no answer comes")
            times.append(time.monotonic() - begin)
            for _ in range(2 * AHEAD - 1):
                holds(it.hear(), "no answer comes")
        crew.stops = True
        it.quit()
        crew.join(ENDS)
        holds(sorted(times)[len(times) // 2] < SOON, f"answers come after {[round(it, 3) for it in sorted(times)]} seconds")
        server.end(ENDS)


def loud_clients_starve_nobody(kind: str, big: bool) -> None:
    """Clients that send on and on, and read, take no more than their turn."""
    count = 8
    with Either(kind, source_of("counter", "echo"), count + 4, *([] if kind == "serve" else ["--sync", "20"])) as server:
        loud = [server.connect() for _ in range(count)]
        said, heard = [b"open echo\n" + b"call say 'x'\n" * 500] * count, 0
        begun, begins = time.monotonic(), False
        took: list[float] = []
        polite_one = threading.Thread(target=lambda: took.extend(polite(server, 5) for _ in range(4)), daemon=True)
        while (not begins or polite_one.is_alive()) and time.monotonic() - begun < 4 * SLOW:
            # (the polite one comes when the loud ones are heard)
            if not begins and heard > 100_000:
                begins = True
                polite_one.start()
            for at, it in enumerate(loud):
                it.setblocking(False)
                with contextlib.suppress(BlockingIOError):
                    said[at] = said[at][it.send(said[at]) :] or b"call say 'x'\n" * 500
                with contextlib.suppress(BlockingIOError):
                    heard += len(it.recv(1 << 16))
        holds(len(took) == 4, f"{len(took)} of 4 were served, {heard} bytes were heard")
        print(f"beside loud clients five calls, one after the other, take {1000 * max(took):.0f} ms at most")
        holds(max(took) < SLOW, f"five calls took {max(took):.1f} s")
        for it in loud:
            it.close()
        server.end()


# Lines that come slowly, in part, or never whole.


def one_says_a_byte_at_a_time(kind: str, big: bool) -> None:
    """A slow client is served, and no other one waits for it."""
    text = b"open counter\ncall pick\nquit\n"
    with Either(kind, source_of("counter"), len(text) + 1) as server:
        slow = server.client()
        for byte in text:
            slow.send(bytes([byte]))
            holds(polite(server, 1) < SLOW, "another client waits")
            time.sleep(1 if big else 0.005)
        slow.hears("opened counter")
        holds(slow.hear().startswith("accepted ") and slow.hear().startswith("done "), "its call is not done")
        slow.hears("bye", "")
        slow.close()
        server.end()


def a_line_without_an_end(kind: str, big: bool) -> None:
    """Nothing of it is kept: it is answered once, and the connection ends."""
    openings = (b"", b"open counter\n", b"open buffer\ncall get\n")
    with Either(kind, source_of("counter", "buffer"), 2 * len(openings) + 2) as server:
        polite(server)
        before = server.memory()
        for opening in openings:
            it = server.connect()
            with contextlib.suppress(OSError):
                it.sendall(opening)
                for _ in range(160):
                    it.sendall(b"y" * 65_536)
            heard = b""
            with contextlib.suppress(OSError):
                while piece := it.recv(65_536):
                    heard += piece
            it.close()
            holds(b"no LineTooLong\n" in heard and heard.count(b"LineTooLong") == 1, f"{heard!r} was heard")
            if b"get" in opening:
                holds(b"cancelled " in heard, f"{heard!r} was heard")
            polite(server)
        holds(server.memory() - before < 1_024, f"{server.memory() - before} KiB are left")
        polite(server)
        server.end()


def a_client_is_cut_off_within_its_call(kind: str, big: bool) -> None:
    """At each byte of it: nothing but whole lines is done."""
    text = b"call put 1\ncall put 777777"
    with Either(kind, SOURCE, len(text) + 2) as server:
        for length in range(len(text) + 1):
            with server.client("open cell", "opened cell") as it:
                it.send(text[:length])
        it = server.client("open cell", "opened cell")
        found = ["done 0"]
        for _ in range(100):
            found = it.calls("get")
            if found != ["done 0"]:
                break
            time.sleep(0.05)
        check(found, ["done 1"], "what is done of calls that were cut off")
        it.quit()
        server.end(ENDS)
        traces = "".join(it.read_text(encoding="ascii") for it in server.folder.glob("cell*.trace"))
        check(set(re.findall(r"(?m)^start \d+ s\d+ put (.*)$", traces)), {"1"}, "what is put")


ANYWHERE = (a_client_is_cut_off_within_its_call, answers_to_what_is_said_ahead_come_soon, one_that_has_a_name_reads_nothing)
AT_PORTS = (one_reads_nothing, one_says_a_byte_at_a_time, a_line_without_an_end, loud_clients_starve_nobody)
KEPT = (many_read_nothing, the_lines_of_many_are_held, lines_are_held_for_ever)


def trials(big: int = 0) -> list[Trial]:
    found = either.trials(ANYWHERE, ALL, big=big) + either.trials(AT_PORTS, big=big)
    found += either.trials([who_hangs_up_ahead_of_its_calls], ALL[1:], big=big)
    return [*found, *either.trials(KEPT, ["keep at a socket"], big=big)]


def main() -> int:
    given, words = options(given_words(), big=0)
    return run("try_deaf", trials(given["big"]), words, has_times=True)


load_tests = loads(trials)
