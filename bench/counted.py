"""Counts the instructions that a server takes for a call, by valgrind's callgrind.

usage: bench/counted [--program FILE] [--before FILE] [--calls N] [--only WORD]

Of `keep` (`--sync 1000`) and of `serve`: `get` and `put` of `cell`, plain and by a name under keys, on one connection,
50 calls at a time. A server that has done 1,000 calls is taken off one that has done N more (2,000). With --before also
those of an earlier program, and how many times as many there are now. Only rows are counted whose title has WORD. The
program is the one that ./pathserve runs, or FILE. The folders are made where TMPDIR says; it needs `valgrind`. It is no
part of the gate.
"""
import argparse
import pathlib
import re
import signal
import tempfile
from collections.abc import Iterator

from bench import keys
from gate.served import Server
from gate.tried import there
from tools.ready import given_words, program

# So many calls are made before those that are counted, and so many are sent at once.
FIRST, LOT = 1_000, 50
# Of each way how it is begun.
WAYS = {"keep": ["--sync", "1000"], "serve": ["--sessions", "1"]}


def lots(call: str, named: bool, count: int) -> Iterator[bytes]:
    """Lines with so many calls, in lots."""
    for first in range(1, count + 1, LOT):
        marks = [(f"#{it} " if named else "", str(it)) for it in range(first, first + LOT)]
        yield "".join(f"call {key}{call.replace('#', number)}\n" for key, number in marks).encode()


def talk(server: Server, call: str, named: bool, count: int) -> None:
    """Makes so many calls, each of which has to be done."""
    with server.connect() as wire, wire.makefile("rb") as said:
        wire.sendall(b"open cell as c1\n" if named else b"open cell\n")
        said.readline()
        for lot in lots(call, named, count):
            wire.sendall(lot)
            done = 0
            while done < LOT:
                line = said.readline()
                if not line or line.startswith((b"refused", b"no ")):
                    raise SystemExit(f"a call was not done: {line!r}")
                done += line.startswith(b"done ")


def counted(binary: object, way: str, call: str, named: bool, count: int) -> int:
    """The instructions of a server from its start to its end."""
    with tempfile.TemporaryDirectory(prefix="counted-") as made:
        folder = pathlib.Path(made)
        (folder / "objects").write_text(keys.CELL, encoding="ascii")
        (folder / "place").mkdir()
        by = ["valgrind", "--tool=callgrind", f"--callgrind-out-file={folder / 'counts'}", binary]
        with Server(way, folder / "objects", folder / "place", *WAYS[way], by=by, errors=folder / "notes") as server:
            talk(server, call, named, count)
            server.child.send_signal(signal.SIGTERM)
            server.awaited(60)
        return int(there(re.search(rb"Collected : (\d+)", (folder / "notes").read_bytes()))[1])


def main() -> None:
    words = given_words()
    parser = argparse.ArgumentParser(usage=__doc__.split("\n\n")[1].removeprefix("usage: "))
    parser.add_argument("--before")
    parser.add_argument("--calls", type=int, default=2_000)
    parser.add_argument("--only", default="")
    options = parser.parse_args(words)
    binaries = [*([options.before] if options.before else []), program()]
    for way in WAYS:
        for call in ("get", "put #"):
            for named in (False, True):
                title = f"{way}: {call.split()[0]}{', by a name under keys' if named else ''}"
                if options.only not in title:
                    continue
                firsts = [counted(it, way, call, named, FIRST) for it in binaries]
                lasts = [counted(it, way, call, named, FIRST + options.calls) for it in binaries]
                found = [(last - first) / options.calls for first, last in zip(firsts, lasts)]
                ratio = f", {found[1] / found[0]:.3f} times" if options.before else ""
                print(f"{title}: {' and '.join(f'{it:,.0f}' for it in found)}{ratio}", flush=True)
