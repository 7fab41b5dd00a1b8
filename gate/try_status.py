"""Tries what a kept server says of itself: its status, its log, and `tools/status`.

usage: gate/try_status [--program FILE] [WORDS OF A TITLE ..]

The reader of tools/status is one of the format of Prometheus: what is spoilt in a file is refused, and where
`promtool` is there, what that refuses of drawn texts is refused, too. The table, the page for a browser and the
statuses are written down here; a file is also asked for over HTTP, while it is there, old, spoilt, and gone. Then
clients of a server do calls that are counted here: its status has the same numbers, also where a new epoch begins, and
where it cannot be written the server goes on. Its log has a line for each of its events, as text and as JSON. The page
that asks a server tells of its clients, escapes what is said to it, and waits for no server that is gone, deaf, slow or
another one (gate/try_page has it in a browser); its pictures have the nodes that `check` counts. What
examples/grafana.json and docs/OPERATIONS.md ask Prometheus for is in a status.
"""
import ast
import contextlib
import datetime
import html
import io
import json
import pathlib
import random
import re
import shutil
import socket
import subprocess
import sys
import tempfile
import threading
import time
import types
import urllib.error
import urllib.request
from collections.abc import Callable, Iterable, Iterator, Mapping
from typing import Any

from gate import served, shown, sums
from gate.fakes import Fake, FakeServer
from gate.kept import Mounted, Server
from gate.served import free_port, resets
from gate.shown import TOOL, FakeKept, Here, Page, Shown
from gate.slow_world import Bound, Name, nodes_of
from gate.talk import Talk
from gate.tried import TOP, Trial, Wrong, check, given_words, holds, lacks, run, there, until, whole
from tools import held, release, status

# A file of a server with two objects, of which one has a call that waits, and what it is about.
HEADS = {
    "pathserve_up": ("gauge", "1 while the server is there, 0 behind its end."),
    "pathserve_status_seconds": ("gauge", "Unix time of this text."),
    "pathserve_start_seconds": ("gauge", "Unix time of the start."),
    "pathserve_every_seconds": ("gauge", "So often this text is written."),
    "pathserve_connections": ("gauge", "Connections now."),
    "pathserve_connections_total": ("counter", "Connections since the start."),
    "pathserve_connections_limit": ("gauge", "Connections at once, at most."),
    "pathserve_memory_bytes": ("gauge", "Memory of the server."),
    "pathserve_epoch": ("gauge", "The number of the epoch."),
    "pathserve_journal_bytes": ("gauge", "Bytes of lines in the journal."),
    "pathserve_syncs_total": ("counter", "How often the journal was stored since the start."),
    "pathserve_sync_seconds": ("gauge", "Unix time when it was last stored."),
    "pathserve_epochs_failed_total": ("counter", "How often no epoch could begin since the start."),
    "pathserve_sync_duration_seconds": ("histogram", "How long it took to store a journal."),
    "pathserve_sessions": ("gauge", "Sessions of clients that are there."),
    "pathserve_numbers": ("gauge", "Numbers of calls that are taken of this epoch."),
    "pathserve_numbers_limit": ("gauge", "Numbers of calls of an epoch, at most."),
    "pathserve_cancelled_total": ("counter", "Calls that were cancelled since the start."),
    "pathserve_holds": ("gauge", "Calls that are held now."),
    "pathserve_calls_total": ("counter", "Calls that ended since the start, by how."),
    "pathserve_running": ("gauge", "Calls that run now."),
    "pathserve_waiting": ("gauge", "Calls that wait now."),
    "pathserve_wait_seconds": ("gauge", "For how long the call waits that waits longest."),
    "pathserve_node": ("gauge", "What a node of a path has counted: what is open of a bound or a burst, or the ends that a semicolon has left."),
}
SERVER = {
    "pathserve_up": 1, "pathserve_status_seconds": 1795871045, "pathserve_start_seconds": 1795863845, "pathserve_every_seconds": 2, "pathserve_connections": 17,
    "pathserve_connections_total": 18201, "pathserve_connections_limit": 1000, "pathserve_memory_bytes": 12345678,
}
OF_OBJECT = status.OF_OBJECT
OBJECTS = {
    "job_queue": (2, 12001, 65536, 1234567, 4021, 1795871045, 17, 7, 3, 2),
    "cell": (1, 0, 65536, 412, 0, 0, 1, 0, 0, 0),
}
# How the calls ended, how many run, how many wait, and for how long one does.
CALLS = {
    ("job_queue", "submit"): (6000, 1, 0, 0, 0, 0), ("job_queue", "claim"): (5990, 0, 2, 0, 3, 95), ("cell", "get"): (0, 0, 0, 0, 0, 0),
}
# Up to these seconds so many syncs took, and so many in all, with their sum.
BOUNDS = ("0.0001", "0.0005", "0.001", "0.005", "0.01", "0.05", "0.1", "0.5", "1", "5", "10", "+Inf")
SYNCS, SUM = (0, 3, 40, 3000, 3900, 4020, 4021, 4021, 4021, 4021, 4021, 4021), "12.000345678"
# What the nodes of paths count: of a path, a node, and of a `;` its number.
NODES = {("job_queue", 2, 0, 0): 3, ("job_queue", 2, 1, 1): 12, ("cell", 1, 0, 0): 1}
OF_NOW = ("running", "waiting", "wait_seconds")
# The server of which all of it is.
LABEL = 'server="kept"'
ENDS = ("done", "refused", "failed")
TABLE = """since 2026-11-28 11:04:05 UTC (2 h), told 1 s ago
17 connections of 1,000, 18,201 in all; 12.3 MB of memory

object     operation   done  refused  failed  a second  runs  waits
job_queue  submit     6,000        1       0               0      0
job_queue  claim      5,990        0       2               0      3
cell       get            0        0       0               0      0

job_queue: epoch 2, 12,001 of 65,536 calls, journal 1.2 MB, 4,021 syncs, the last 1 s ago; 17 sessions, 7 cancelled, 3 held; a claim waits for 95 s; 2 times no epoch could begin
cell: epoch 1, 0 of 65,536 calls, journal 412 B, 0 syncs; 1 sessions, 0 cancelled
"""
GONE = "THE SERVER IS GONE, OR STANDS STILL"
# Faults that a reader of the format refuses: what stands in a line, and what stands there instead.
SPOILT = [
    ("# TYPE pathserve_epoch gauge\n", ""), ("# TYPE pathserve_epoch gauge", "# TYPE pathserve_epoch number"), ("pathserve_epoch{", "pathserve-epoch{"),
    (',object="cell"} 1\n', ',object="cell} 1\n'), (',object="cell"} 1\n', ',object="cell"} one\n'), (',object="cell"} 1\n', ',object="cell"}\n'),
    (',object="cell"} 1\n', ',object="cell"} 1.2.3\n'), (',object="cell"} 1\n', ',object="cell"} 1e999\n'), (',object="cell"} 1\n', ',object="ce\\ll"} 1\n'),
    (',object="cell"} 1\n', ',object="cell",object="cell"} 1\n'), (f'pathserve_epoch{{{LABEL},object="cell"}} 1\n', f'pathserve_epoch{{{LABEL},object="job_queue"}} 1\n'),
    (f"pathserve_connections{{{LABEL}}} 17\n", f"pathserve_connections{{{LABEL}}} 17\n# TYPE pathserve_connections gauge\n"), ("pathserve_waiting{", "pathserve_running{"),
    (f'pathserve_wait_seconds{{{LABEL},object="cell",operation="get"}} 0\n', f'pathserve_wait_seconds{{{LABEL},object="cell",operation="get"}} 0'),
    ("# TYPE pathserve_epoch gauge", "# TYPE pathserve_epoch histogram"), (',le="5"', ',ge="5"'), ("_seconds_sum{", "_seconds_mean{"), (f" {SUM}", " 12,0"),
    ("# HELP pathserve_epoch The number of the epoch.", "# HELP pathserve_epoch"),
]
# So many texts are drawn for promtool.
DRAWN = 40


def text_of(time: int = SERVER["pathserve_status_seconds"], calls: Mapping[tuple[str, str], tuple[int, ...]] = CALLS, **more: object) -> str:
    """The text of a file."""
    found = []
    for name, (kind, about) in HEADS.items():
        found += [f"# HELP {name} {about}", f"# TYPE {name} {kind}"]
        short = name.removeprefix("pathserve_")
        if name in SERVER:
            found.append(f"{name}{{{LABEL}}} {time if short == 'status_seconds' else more.get(short, SERVER[name])}")
        elif short == "node":
            turns = {it: f',turn="{it}"' if it else "" for it in range(9)}
            found += [f'{name}{{{LABEL},object="{it}",path="{path}",node="{node}"{turns[turn]}}} {count}' for (it, path, node, turn), count in NODES.items()]
        elif kind == "histogram":
            found += [f'{name}_bucket{{{LABEL},le="{bound}"}} {count}' for bound, count in zip(BOUNDS, SYNCS)]
            found += [f"{name}_sum{{{LABEL}}} {SUM}", f"{name}_count{{{LABEL}}} {SYNCS[-1]}"]
        elif short in OF_OBJECT:
            found += [f'{name}{{{LABEL},object="{it}"}} {values[OF_OBJECT.index(short)]}' for it, values in OBJECTS.items()]
        elif short == "calls_total":
            found += [f'{name}{{{LABEL},object="{it}",operation="{op}",end="{end}"}} {values[at]}' for (it, op), values in calls.items() for at, end in enumerate(ENDS)]
        else:
            found += [f'{name}{{{LABEL},object="{it}",operation="{op}"}} {values[3 + OF_NOW.index(short)]}' for (it, op), values in calls.items()]
    return "\n".join(found) + "\n"


def fault_of(text: str) -> str | None:
    """What is wrong with a text in the format of Prometheus, if anything."""
    try:
        status.samples_of(text)
    except status.Unread as why:
        return str(why)
    return None


def promtool(text: str) -> bool:
    """Whether promtool takes a text."""
    ran = subprocess.run(["promtool", "check", "metrics"], input=text, capture_output=True, text=True, timeout=60)
    # (a hint, as of a name that is not to its taste, is status 3)
    return ran.returncode in (0, 3)


def is_read(text: str, wanted: bool) -> str | None:
    why = fault_of(text)
    if (why is None) != wanted:
        return f"the format is said to have {why}"
    if why is None and shutil.which("promtool") and not promtool(text):
        return "promtool refuses it"
    return None


def drawn(draw: random.Random) -> str:
    """A text of which a line, or a letter, is lacking, is there twice, or is another one: of a value as often as elsewhere."""
    lines = text_of().splitlines(keepends=True)
    at, kind = draw.choice([at for at, it in enumerate(lines) if "HELP" not in it or not draw.randrange(5)]), draw.randrange(6)
    line = lines[at]
    place = draw.choice((draw.randrange(len(line)), len(line) - 2))
    letter = draw.choice('x0 "{},=#\\\n-.')
    lines[at : at + 1] = (
        [], [line, line], [line, draw.choice(lines)], [line[:place] + line[place + 1 :]], [line[:place] + letter + line[place:]],
        [line[:place] + letter + line[place + 1 :]],
    )[kind]
    return "".join(lines)


def what_promtool_refuses() -> str | None:
    """What promtool refuses of drawn texts is refused; that more is, is no fault."""
    draw, refused = random.Random(DRAWN), 0
    for _ in range(DRAWN):
        text = drawn(draw)
        if not promtool(text):
            refused += 1
            if fault_of(text) is None:
                there_is = [it for it in text.splitlines() if it not in text_of().splitlines()]
                return f"promtool refuses what has {there_is or 'the same lines'}, and it is read"
    return None if refused > DRAWN / 4 else f"it refused {refused} of {DRAWN} alone"


def spoilt(old: str, new: str) -> str | None:
    text = text_of()
    if text.count(old) < 1:
        return f"there is no {old!r}"
    return is_read(text.replace(old, new, 1), False)


def table(folder: pathlib.Path) -> str | None:
    """What is wrong with the table of a file, if anything."""
    (folder / "status.prom").write_text(text_of())
    found = status.read(folder)
    told = "\n".join(status.table(found, None, found.time + 1.4)) + "\n"
    if told != TABLE:
        return f"it says {told}"
    nodes = {(it, *place): count for it in OBJECTS for place, count in found.counted(it).items()}
    if nodes != NODES:
        return f"nodes count {nodes}"
    late = "\n".join(status.table(found, None, found.time + 7))
    return None if GONE in late and GONE not in told else "it does not say that the server is gone"


def rates(folder: pathlib.Path) -> str | None:
    """What is wrong with calls a second, if anything: the calls that ended since the file before, by their seconds."""
    reading = status.Reading(folder)
    (folder / "status.prom").write_text(text_of())
    if reading.look()[1] is not None:
        return "there is a file before the first one"
    later = CALLS | {("job_queue", "submit"): (6040, 11, 0, 0, 0, 0), ("cell", "get"): (0, 0, 1, 0, 0, 0)}
    (folder / "status.prom").write_text(text_of(SERVER["pathserve_status_seconds"] + 4, later))
    for _ in range(2):
        found = [row[-3] for row in status.rows(*reading.look())]
        if found != ["12.5", "0.0", "0.2"]:
            return f"the rates are {found}"
    # A server that was started anew has fewer calls.
    (folder / "status.prom").write_text(text_of(SERVER["pathserve_status_seconds"] + 6))
    found = [row[-3] for row in status.rows(*reading.look())]
    return None if found == ["0.0", "0.0", "0.0"] else f"the rates of a new server are {found}"


def ran(folder: pathlib.Path, *words: str) -> tuple[object, str, str]:
    told, error, before, sys.argv = io.StringIO(), io.StringIO(), sys.argv, [str(TOOL), str(folder), *words]
    with contextlib.redirect_stdout(told), contextlib.redirect_stderr(error):
        try:
            found: object = status.main()
        except SystemExit as it:
            found = it.code
        finally:
            sys.argv = before
    return found, told.getvalue(), error.getvalue()


def statuses(folder: pathlib.Path) -> str | None:
    """What is wrong with how it ends, if anything."""
    place, now = folder / "status.prom", int(time.time())
    place.unlink(missing_ok=True)
    wanted = [(None, 3), ("", 3), ("pathserve_epoch 1\n", 3), (text_of() + "x\n", 3), ("\xe9", 3), (text_of(now - 3600), 1), (text_of(now, every_seconds=600), 0),
              (text_of(now, every_seconds=600, up=0), 1), (text_of(now, every_seconds=600).replace(" 17\n", " 17.5\n"), 0),
              *((text_of(now, every_seconds=600).replace(old, new, 1), 3) for old, new in SPOILT)]
    for text, code in wanted:
        if text is not None:
            place.write_text(text, encoding="latin-1")
        found, told, error = ran(folder)
        if found != code or bool(error) != (code == 3) or bool(told) != (code < 3):
            return f"{text if text is None else text[:40]!r}: status {found}, {told!r}, {error!r}"
    usages = ["--watch 0", "--http 65536", "--http x", "--at 7000", "--http 0 --at 7000", f"--http 0 --file {place}", f"--at 7000 --file {place}",
              f"--http 0 --at 0 --file {place}", f"--http 0 --at 65536 --file {place}", f"--http 0 --at cell --file {place}"]
    for words in usages:
        if ran(folder, *words.split())[0] != 2:
            return f"{words} is no usage"
    for file, why in (("lacking", "cannot be read"), ("", "cannot be read"), ("spoilt.pp", "is no file of objects")):
        (folder / "spoilt.pp").write_text("object a; path 1:(b end; end;")
        found, told, error = ran(folder, "--http", "0", "--at", "7000", "--file", str(folder / file))
        if found != 3 or told or f"{folder / file} {why}" not in error:
            return f"{file!r}: status {found}, {told!r}, {error!r}"
    return None


def asked(port: int, path: str, headers: Mapping[str, str] = types.MappingProxyType({})) -> tuple[int, str, str]:
    try:
        with urllib.request.urlopen(urllib.request.Request(f"http://127.0.0.1:{port}{path}", headers=dict(headers)), timeout=60) as it:
            return it.status, it.headers["Content-Type"], it.read().decode()
    except urllib.error.HTTPError as error:
        return error.code, "", ""


def over_http(folder: pathlib.Path) -> str | None:
    """What is wrong with what a scraper and a browser get, if anything."""
    place = folder / "status.prom"
    place.unlink(missing_ok=True)
    child = subprocess.Popen([TOOL, folder, "--http", "0"], stdout=subprocess.PIPE, text=True)
    try:
        port = int(there(child.stdout).readline().removeprefix("listening "))
        if [asked(port, it)[0] for it in ("/", "/metrics", "/healthz", "/x", "/now")] != [503, 503, 503, 404, 404]:
            return "without a file it does not answer 503"
        text = text_of(int(time.time()), every_seconds=600)
        place.write_text(text)
        if asked(port, "/metrics") != (200, "text/plain; version=0.0.4; charset=utf-8", text):
            return f"the metrics are {asked(port, '/metrics')}"
        code, kind, told = asked(port, "/")
        cells = [[html.unescape(it) for it in re.findall("<td[^>]*>(.*?)</td>", row)] for row in re.findall("<tr[^>]*>(.*?)</tr>", told)[1:]]
        wanted = [it.split() for it in TABLE.split("\n")[4:7]]
        found = [[it for it in row if it] for row in cells]
        # An object has its name in its first row alone.
        wanted[1] = wanted[1][1:]
        if (code, kind, found) != (200, "text/html; charset=utf-8", wanted) or GONE in told:
            return f"the page is {code} {kind} {found}"
        if "<td class=some>3</td>" not in told or "<td class=bad>2</td>" not in told or told.count("class=bad") != 1:
            return "who waits and what failed does not stand out"
        place.write_text(text_of())
        if GONE not in asked(port, "/")[2]:
            return "the page does not say that the server is gone"
        place.write_text("x\n")
        return None if asked(port, "/metrics")[0] == 503 else "a spoilt file is handed on"
    finally:
        child.kill()
        child.wait()
        there(child.stdout).close()


def healthy(folder: pathlib.Path) -> None:
    """/healthz is 200 while a file is young enough, and does not say that the server has ended."""
    (folder / "status.prom").unlink(missing_ok=True)
    with Page(folder) as page:
        now = int(time.time())
        wanted = [
            (text_of(now), 200), (text_of(now - 3), 200), (text_of(now - 3600), 503), (text_of(now - 3600, every_seconds=2000), 200),
            (text_of(now, up=0), 503), (text_of(now, up=0).replace(LABEL, 'server="of \\"another\\""'), 503), ("x\n", 503),
        ]
        for text, code in wanted:
            (folder / "status.prom").write_text(text)
            found = asked(page.port, "/healthz")
            check(found[0], code, f"/healthz of {text[-40:]!r}")
            holds(code == 503 or found[1:] == ("text/plain; charset=utf-8", found[2]) and found[2].startswith("told "), f"it says {found}")


def watched(folder: pathlib.Path) -> str | None:
    """What is wrong with --watch, if anything: the second table has rates."""
    place = folder / "status.prom"
    told: list[str] = []
    place.write_text(text_of())
    child = subprocess.Popen([TOOL, folder, "--watch", "0.05"], stdout=subprocess.PIPE, text=True)
    ended = threading.Timer(60, child.kill)
    ended.start()
    try:
        for line in there(child.stdout):
            told.append(line)
            if line.startswith("job_queue  submit") and len(told) < 12:
                new = folder / "status.prom.new"
                new.write_text(text_of(SERVER["pathserve_status_seconds"] + 2))
                new.rename(place)
            if line.split()[:2] == ["job_queue", "submit"] and len(line.split()) == 8:
                return None
        return f"no table has rates: {told[-12:]}"
    finally:
        ended.cancel()
        child.kill()
        child.wait()
        there(child.stdout).close()


# A server, and what its clients do.
SOURCE = """object cell;
  path 1:(set, need, [get]) end;
  var v : array [1] of integer;
  entry procedure set(x : integer); begin v[0] := x end;
  entry function get : integer; begin get := v[0] end;
  entry procedure need(x : integer); begin if v[0] < x then refuse('less') else v[0] := v[0] - x end;
end;
""" + shown.BUFFER
MOMENT = re.compile(r"\d{4}-\d\d-\d\dT\d\d:\d\d:\d\d\.\d{3}Z")


def found_in(server: Server) -> status.Status | None:
    """The status that a server writes now, or none where there is none yet."""
    with contextlib.suppress(FileNotFoundError):
        text = (server.folder / "status.prom").read_text(encoding="ascii")
        why = is_read(text, True)
        if why:
            raise Wrong(why)
        return status.Status(text)
    return None


def shows(server: Server, wanted: Mapping[str, float], at_least: bool = False, **labels: str) -> status.Status:
    """Waits until a status has these numbers, or at least as high ones, and gives it."""
    found: list[status.Status | None] = []

    def is_so() -> object:
        found[:] = [found_in(server)]
        numbers = [(found[0].of(name, **labels), number) for name, number in wanted.items()] if found[0] else [(-1, 0)]
        return all(it >= number if at_least else it == number for it, number in numbers)

    try:
        until(is_so, "", seconds=15)
    except Wrong:
        raise Wrong(f"{ {it: found[0] and found[0].of(it, **labels) for it in wanted} }, not {wanted}") from None
    return there(found[0])


def ends_of(it: status.Status, name: str, op: str) -> tuple[int, ...]:
    return tuple(it.of("calls_total", object=name, operation=op, end=end) for end in ENDS)


def lines_of(server: Server, name: str) -> str:
    """The lines of a journal as they are counted: without its check lines, each of which is right, and without its format."""
    text = (server.folder / f"{name}.journal").read_bytes()
    sums.are_right(text)
    return sums.as_before(text).partition(b"\0")[0].decode()


def numbers_are_those_of_the_clients(folder: pathlib.Path) -> None:
    """Calls by how they ended, who waits and for how long, who was cancelled; sums are the lengths of the histories."""
    server = Server(folder, SOURCE, "--status", "1", "--at-once", "50")
    begun = time.time()
    server.start()
    with Talk(server, "open cell as ann", "opened cell next 1") as ann, Talk(server, "open buffer", "opened buffer") as bob:
        ann.calls("set 7", "get", "get", "need 5", "need 5", "need 1")
        bob.calls("put 'a'", "get")
        waiting = [Talk(server, "open buffer", "opened buffer") for _ in range(3)]
        for it in waiting:
            it.say("call get")
            holds(it.hear().startswith("accepted "), "a call is not taken")
        waiting[0].say("cancel 3")
        seen = shows(server, {"waiting": 2, "running": 0}, object="buffer", operation="get")
        # (`path 2:(put; get) end` and `path 1:(put, get) end`; `path 1:(set, need, [get]) end`)
        check(seen.counted("buffer"), {(1, 0, 0): 0, (1, 1, 1): 0, (2, 0, 0): 0}, "what the nodes of buffer count")
        check(seen.counted("cell"), {(1, 0, 0): 0, (1, 4, 0): 0}, "what the nodes of cell count")
        found = ends_of(seen, "cell", "set") + ends_of(seen, "cell", "get") + ends_of(seen, "cell", "need")
        check(found, (1, 0, 0, 2, 0, 0, 2, 1, 0), "the calls of cell")
        check(ends_of(seen, "buffer", "put") + ends_of(seen, "buffer", "get"), (1, 0, 0, 1, 0, 0), "the calls of buffer")
        names = ["sessions", "epoch", "numbers", "cancelled_total"]
        check([seen.of(n, object="buffer") for n in names], [4, 1, 5, 1], "the numbers of buffer")
        check([seen.of(n, object="cell") for n in names], [1, 1, 6, 0], "the numbers of cell")
        check([seen.of("wait_seconds", object="cell", operation=op) for op in ("set", "get", "need")], [0, 0, 0], "the waits of cell")
        lines = [it for it in seen.text.splitlines() if it and not it.startswith("#")]
        holds(all(f'{{server="{server.folder}"' in it for it in lines), "a number is of no server")
        names = ["connections", "connections_total", "connections_limit", "every_seconds"]
        check([seen.of(n) for n in names], [5, 5, 50, 1], "connections")
        holds(begun - 1 <= seen.of("start_seconds") <= seen.time <= time.time(), "the times are wrong")
        memory = seen.of("memory_bytes") / 1024
        holds(0.5 < memory / server.memory() < 2, "the memory is wrong")
        for name in ("cell", "buffer"):
            journal = lines_of(server, name)
            check(seen.of("journal_bytes", object=name), len(journal), f"the bytes of {name}")
            keys = [it for it in seen.labels("calls_total", "object", "operation") if it[0] == name]
            check(sum(sum(ends_of(seen, *it)) for it in keys), journal.count("\nend "), f"the sum of {name}")
            is_synced = begun - 2 <= seen.of("sync_seconds", object=name) <= seen.time
            holds(1 <= seen.of("syncs_total", object=name) <= 8 and is_synced, f"the syncs of {name}")
        syncs_took(seen)
        seen = shows(server, {"wait_seconds": 2}, at_least=True, object="buffer", operation="get")
        check(seen.of("wait_seconds", object="buffer", operation="put"), 0, "the wait of another operation")
        waiting[1].close()
        shows(server, {"waiting": 1}, object="buffer", operation="get")
        bob.calls("put 'b'")
        seen = shows(server, {"waiting": 0}, object="buffer", operation="get")
        names = ["sessions", "cancelled_total"]
        check([seen.of(n, object="buffer") for n in names], [3, 2], "behind the waiting ones")
        check(seen.of("wait_seconds", object="buffer", operation="get"), 0, "the wait behind the waiting ones")
        check(ends_of(seen, "buffer", "get"), (2, 0, 0), "the gets")
        over(server)
        for one in waiting:
            one.close()
    shows(server, {"connections": 0, "connections_total": 5})
    said, code = server.end()
    check((said, code), ("cell entries 6\nbuffer entries 4\n", 0), "the end")
    has_ended(server)
    # Another start counts from nothing; the end in order began an epoch too.
    server.start()
    seen = shows(server, {"epoch": 3}, object="cell")
    check([seen.of("connections_total"), *ends_of(seen, "cell", "get")], [0, 0, 0, 0], "the counts of another start")
    server.end()


def syncs_took(seen: status.Status) -> None:
    """Each sync is counted at each bound that it did not take longer than, in order, and their sum is above nothing."""
    counts = [seen.of("sync_duration_seconds_bucket", le=it) for it in BOUNDS]
    most = seen.of("sync_duration_seconds_count")
    check((most, counts[-1]), (sum(seen.of("syncs_total", object=it) for it, in seen.labels("syncs_total", "object")),) * 2, "how many syncs took so long")
    holds(counts == sorted(counts) and counts[-2] >= most - 1, f"the counts are {counts}")
    took = seen.number("sync_duration_seconds_sum")
    holds(0 < took < 60 and re.search(r"_sum\{[^}]*\} \d+\.\d{9}\n", seen.text), f"they took {took} s")


def has_ended(server: Server) -> None:
    """The file stays, with the numbers that it had, and says that the server has ended."""
    check([it.name for it in server.folder.glob("status.prom*")], ["status.prom"], "what is left of the status")
    it = there(found_in(server))
    check((it.of("up"), it.is_down(), it.of("connections_limit")), (0, True, 50), "what it says behind the end")
    ran = subprocess.run([TOOL, server.folder], capture_output=True, text=True, timeout=60, check=False)
    holds(ran.returncode == 1 and GONE in ran.stdout, f"the table behind the end is {ran.stdout + ran.stderr!r}")


def over(server: Server) -> None:
    """Raises where tools/status does not show a server that goes on."""
    child = subprocess.Popen([TOOL, server.folder, "--http", "0"], stdout=subprocess.PIPE, text=True)
    try:
        port = int(there(child.stdout).readline().removeprefix("listening "))
        code, _, text = asked(port, "/metrics")
        check((code, fault_of(text)), (200, None), "what a scraper gets")
        code, _, page = asked(port, "/")
        holds(code == 200 and "buffer" in page and GONE not in page, "the page shows no server that goes on")
    finally:
        child.kill()
        child.wait()
        there(child.stdout).close()
    ran = subprocess.run([TOOL, server.folder], capture_output=True, text=True, timeout=60, check=False)
    holds(ran.returncode == 0 and "buffer: epoch 1" in ran.stdout, f"the table is {ran.stdout + ran.stderr!r}")


def is_made(folder: pathlib.Path) -> bool:
    """Whether a folder could be made where nothing stood."""
    try:
        folder.mkdir()
    except FileExistsError:
        return False
    return True


def a_status_that_cannot_be_written(folder: pathlib.Path) -> None:
    """The server goes on, says so once, and writes the next one that it can."""
    plain, logged = "{}: this file cannot be written: it is a folder\n", 'WARN no-status path="{}" cause="it is a folder"\n'
    for words, said in ((), plain), (("--log", "text"), logged):
        server = Server(folder, SOURCE, "--status", "1", *words)
        place, path = server.folder / "status.prom.new", server.folder / "status.prom"
        place.mkdir()
        server.start()
        until(lambda: said.format(path) in server.error(), "it is not said")
        check(server.replies("cell", "set 3", "get"), ["done", "done 3"])
        time.sleep(1.5)
        check(server.error().count("status.prom"), 1, "how often it is said")
        place.rmdir()
        size = len(shows(server, {"connections_total": 1, "up": 1}).text)
        # From now on there is a file to be written over, in the bytes that it has (the next one may just stand in this place).
        until(lambda: is_made(place), "there is no place for a folder")
        check(server.replies("cell", "get"), ["done 3"])
        text = shows(server, {"connections_total": 2}).text
        check((len(text), size % 4096), (size, 0), "how long it is")
        server.kill()
        server.start()
        check(server.replies("cell", "get", "get"), ["done 3"] * 2)
        shows(server, {"connections_total": 1, "up": 1})
        holds("status.prom" not in server.error(), "it is said that it cannot be written")
        check(server.end()[1], 0, "the status")
        check(there(found_in(server)).is_down(), True, "what it says behind the end")
        place.rmdir()
        path.unlink()


def what_a_label_has_to_escape(folder: pathlib.Path) -> None:
    """The folder is told as it was given, whatever letters it has."""
    room = folder / 'a "b"\\c{d,e}'
    room.mkdir()
    server = Server(room, SOURCE, "--status", "1")
    server.start()
    text = shows(server, {"up": 1, "connections": 0}).text
    value = str(server.folder).replace("\\", "\\\\").replace('"', '\\"')
    lines = [it for it in text.splitlines() if not it.startswith("#")]
    check([it for it in lines if f'{{server="{value}"' not in it], [], "the lines without the label")
    found = {key for _, labels in status.samples_of(text) for key in labels if key[0] == "server"}
    check(found, {("server", str(server.folder))}, "the label")
    check(server.end()[1], 0, "the status")


def a_status_on_a_full_disk(folder: pathlib.Path) -> None:
    """It goes on in the bytes that it has, and the server says nothing of it."""
    with Mounted(folder / "kept", "64m") as disk:
        if not disk.is_there:
            print("not run: mount")
            return
        server = Server(folder, SOURCE, "--status", "1")
        server.start()
        shows(server, {"connections_total": 0, "up": 1})
        disk.fill(0)
        check(server.replies("cell", "set 3", "get"), ["done", "done 3"])
        seen = shows(server, {"connections_total": 1})
        check(ends_of(seen, "cell", "get"), (1, 0, 0), "the gets")
        holds("status.prom" not in server.error(), "it is said that it cannot be written")
        server.kill()
        holds(not (server.folder / "status.prom.new").exists(), "status.prom.new is left")


def events(server: Server) -> list[Any]:
    """The events of a log of JSON, in order: each with what it tells, without its time."""
    found = []
    for line in server.error().splitlines():
        if line.startswith("{"):
            told = json.loads(line)
            holds(list(told)[:3] == ["time", "level", "event"] and MOMENT.fullmatch(told["time"]), f"{line} is no line of a log")
            age = datetime.datetime.now(datetime.timezone.utc) - datetime.datetime.fromisoformat(told.pop("time").replace("Z", "+00:00"))
            holds(-1 < age.total_seconds() < 600, f"{line} is of another time")
            found.append(tuple(told.values()))
    return found


def a_log_of_json(folder: pathlib.Path) -> None:
    """A start, a client that breaks, an end; then a recovery."""
    server = Server(folder, SOURCE, "--log", "json").start()
    starts = [("info", "begun", "cell"), ("info", "begun", "buffer"), ("info", "start", 2, str(server.folder), server.place)]
    until(lambda: len(events(server)) == 3, "no start is told")
    check(events(server), starts, "the log of a start")
    check(server.replies("cell", "set 3", "get"), ["done", "done 3"])
    with Talk(server, "open cell", "opened cell") as it:
        resets(it.socket)
    until(lambda: len(events(server)) == 4, "no client is told to be let go")
    check(events(server)[3][:2] + events(server)[3][3:], ("info", "let-go", "broke"), "the log of a client that broke")
    server.end()
    check([it[:3] for it in events(server)[4:]], [("info", "epoch", "cell"), ("info", "epoch", "buffer"), ("info", "end", 0)], "the log of an end")
    size, lines = events(server)[4][3], 4
    server.start()
    until(lambda: len(events(server)) == 3, "no second start is told")
    check(events(server)[0], ("info", "recovered", "cell", size, lines), "the log of a recovery")
    server.end()


def a_log_of_text(folder: pathlib.Path) -> None:
    """The same lines for people; without --log there are none. Without --status nothing is done to its file."""
    server = Server(folder, SOURCE, "--log", "text").start()
    server.end()
    lines = [MOMENT.sub("T", it) for it in server.error().splitlines()]
    check(lines[:3], ['T INFO begun object="cell"', 'T INFO begun object="buffer"', f'T INFO start objects=2 folder="{server.folder}" place="{server.place}"'], "the log")
    check([it.split(" bytes=")[0] for it in lines[3:-1]], ['T INFO epoch object="cell"', 'T INFO epoch object="buffer"'], "the new epochs")
    holds(re.fullmatch(r"T INFO end status=0 seconds=\d", lines[-1]), f"the end is {lines[3:]}")
    server = Server(folder, SOURCE)
    (server.folder / "status.prom").write_text("of another\n")
    server.start()
    server.end()
    check(server.error(), "", "standard error without a log")
    check((server.folder / "status.prom").read_text(), "of another\n", "a file that is no status of the server")


def a_new_epoch(folder: pathlib.Path) -> None:
    """Where none can begin a line says so, and the counts go on over the one that does."""
    server = Server(folder, SOURCE, "--status", "1", "--log", "json")
    wall = server.folder / "cell.journal.new"
    server.start()
    wall.mkdir()
    with Talk(server, "open cell", "opened cell") as it:
        for count, told in (60_500, ("warn", "no-epoch", "cell")), (1_500, ("info", "epoch", "cell")):
            for _ in range(count // 500):
                check(set(it.calls(*["get"] * 500)), {"done 0"})
            until(lambda: told in [one[:3] for one in events(server)], f"{told} is not told")
            if wall.exists():
                shows(server, {"epochs_failed_total": 1}, at_least=True, object="cell")
                check(there(found_in(server)).of("epochs_failed_total", object="buffer"), 0, "the epochs of buffer that failed")
                wall.rmdir()
        found = shows(server, {"epoch": 2, "journal_bytes": len(lines_of(server, "cell"))}, object="cell")
        check(ends_of(found, "cell", "get"), (62_000, 0, 0), "the counts over epochs")
        check(found.of("cancelled_total", object="cell"), 0, "who was cancelled")
    check(server.end(), ("cell entries 62000\nbuffer entries 0\n", 0), "the end")


HOLDS = """object slots;
  path 3:(grab; free) end;
  entry procedure grab; begin end;
  entry procedure free; begin end;
  hold grab until free;
end;
object bare;
  path 1:(call) end;
  entry procedure call; begin end;
end;
"""


def what_is_held_is_told(folder: pathlib.Path) -> None:
    """Of each object how many calls are held, also of those of a name that is gone; 0 of one without holds."""
    server = Server(folder, HOLDS, "--status", "1").start()
    it = shows(server, {"holds": 0, "epoch": 1}, object="slots")
    check(it.labels("holds", "object"), [("slots",), ("bare",)], "the objects of which it is told")
    with Talk(server, "open slots as ann", "opened slots next 1") as ann, Talk(server, "open slots", "opened slots") as bob:
        check(ann.calls("grab", "grab") + bob.calls("grab"), ["done"] * 3, "three calls")
        it = shows(server, {"holds": 3}, object="slots")
        check(it.of("holds", object="bare"), 0, "what is held of an object without holds")
        check(bob.calls("free"), ["done"])
        shows(server, {"holds": 2}, object="slots")
    server.revive()
    it = shows(server, {"holds": 2, "sessions": 0, "epoch": 2}, object="slots")
    # (`path 3:(grab; free) end`: two are open, and no start has used the ends of their grabs)
    check((it.counted("slots"), it.counted("bare")), ({(1, 0, 0): 2, (1, 1, 1): 2}, {(1, 0, 0): 0}), "what the nodes count")
    table = list(status.table(it, None, it.time))
    check([one.endswith("; 0 sessions, 0 cancelled, 2 held") for one in table if one.startswith("slots: ")], [True], "the line of the table")
    with Talk(server, "open slots as ann", "opened slots next 3") as ann:
        check(ann.calls("free", "free"), ["done"] * 2)
        shows(server, {"holds": 0}, object="slots")
    check(server.end()[1], 0, "the status")


def inside_of(page: Page | Here, **wanted: Iterable[str]) -> Shown:
    """What the page shows, once it has all of this, also in what is fetched to renew it."""
    found: list[Shown] = []

    def is_there(path: str) -> bool:
        found[:] = [Shown(page.get(path))]
        with contextlib.suppress(Wrong):
            found[0].has(**wanted)
            return True
        return False

    for path in ("/", "/now"):
        with contextlib.suppress(Wrong):
            until(lambda: is_there(path), "", seconds=20)
        found[0].has(**wanted)
    return found[0]


def file_is_changed(server: Server, page: Page, rows: list[str]) -> None:
    """A file that was changed is read again, and what is no object of it, or of the server, is told."""
    server.file.write_text(shown.SLOTS.replace("seen", "noted"))
    inside_of(page, texts=["FILE has no object of this name.", "path 1:([grab], [free, noted]) end"], rows=rows)
    server.file.write_text(shown.SOURCE + "object other; end;")
    inside_of(page, texts=["The server does not open it: no NoObject there are slots, buffer", "It has no path."], rows=rows)
    server.file.unlink()
    inside_of(page, texts=[f"{server.file} cannot be read: No such file or directory"], rows=rows)
    server.file.write_text(shown.SOURCE)
    inside_of(page, rows=rows)


def who_is_inside(folder: pathlib.Path) -> None:
    """The page tells of each client of a server, at a port and at the path of a socket; of one that is gone, too."""
    for at_path in (False, True):
        room = folder / ("path" if at_path else "port")
        room.mkdir()
        server = Server(room, shown.SOURCE, "--status", "1", at_path=at_path).start()
        with Page(server.folder, "--at", server.place, "--file", server.file) as page, shown.clients(server) as told:
            it = inside_of(page, rows=told, pictured=shown.PICTURED, texts=shown.LINES)
            holds(len(it.pictures) == 4 and "gone" not in it.classes, f"{len(it.pictures)} pictures, and {it.classes}")
            check(set(asked(page.port, path)[0] for path in ("/metrics", "/healthz")), {200}, "what a scraper gets")
            if at_path:
                file_is_changed(server, page, told)
            # One that was started anew is asked over new connections; one that is gone is told of.
            server.kill()
            inside_of(page, texts=[f"no server answers at {server.place}: Connection refused"])
        if at_path:
            server.start()
            with Page(server.folder, "--at", server.place, "--file", server.file) as page:
                it = inside_of(page, texts=["Nobody waits.", "Who is there: 0 sessions"])
                holds([one for one in it.lines() if " (gone)" in one], "who is gone holds nothing")
                server.revive()
                inside_of(page, texts=[f"the server at {server.place} was asked N s ago"])
            check(server.end()[1], 0, "the status")


class Deaf(Fake):
    """Takes connections, and says nothing, or one letter in a while."""

    def __init__(self, letter: bytes) -> None:
        self.letter = letter
        super().__init__()

    def serve(self, it: socket.socket, number: int) -> None:
        while True:
            time.sleep(0.1)
            it.sendall(self.letter)


def no_server_holds_up_the_page(folder: pathlib.Path) -> None:
    """One that is gone, deaf or slow, or that is another one."""
    (folder / "status.prom").write_text(text_of(int(time.time()), every_seconds=600))
    closed, another = free_port(), "the server at {} is none of `pathserve keep`, or another one: "
    deaf = "the server at {} does not answer: it stands still, or has as many clients as it takes"
    long, many = ["x" * 5000], ["session s1 for 1 calls 1"] * 20_001
    tries: list[tuple[Fake | None, str]] = [
        (None, "no server answers at {}: Connection refused"), (Deaf(b""), deaf), (Deaf(b"x"), deaf), (FakeServer([], [], []), "the server at {} ended the connection"),
        (FakeKept([], opened="hello"), another + "open job_queue: hello job_queue"), (FakeKept(long), another + "a line of over 4096 bytes"),
        (FakeKept(many), another + "who: who 20001"), (Deaf(b"no BadLine\n" * 9), "The server does not open it: no BadLine"),
    ]
    for fake, text in tries:
        place = fake.port if fake else closed
        with fake or contextlib.nullcontext(), Here(folder, place, SOURCE) as page:
            begun = time.monotonic()
            told = Shown(page.get())
            took = time.monotonic() - begun
            told.has(rows=["job_queue | submit | 6,000 | 1 | 0 |  | 0 | 0"], texts=["path 2:(put; get) end", "17 connections of 1,000, 18,201 in all; 12.3 MB of memory"])
            # (what is not said yet was not waited for, however busy the machine is)
            holds(took < 1.5 or f"the server at {place} has not answered yet" in told.texts, f"{text}: the page took {took:.1f} s")
            inside_of(page, texts=[text.format(place)])


def what_is_said_is_escaped(folder: pathlib.Path) -> None:
    """Names and words of a server, and texts of a file, are no elements of the page."""
    (folder / "status.prom").write_text(text_of(int(time.time()), every_seconds=600).replace('"job_queue"', '"<b>job</b>"'))
    with FakeKept(shown.HOSTILE, why=shown.NEEDS) as fake, Here(folder, fake.port, SOURCE) as page:
        it = inside_of(page, rows=shown.HOSTILE_ROWS, texts=["<b>job</b>"])
        holds(not it.tags & {"b", "i", "img", "u", "a"}, f"it has the elements {it.tags}")
        holds("open <b>job</b>" in fake.heard and "why 12" in fake.heard and "why 13" in fake.heard, f"it asked {fake.heard}")
        hosts = ("localhost", "127.0.0.1:80", "other.example", "127.0.0.1.other.example:80", "")
        check([asked(page.port, "/now", {"Host": it})[0] for it in hosts], [200, 200, 403, 403, 403], "who may read the page")
        policy = urllib.request.urlopen(f"http://127.0.0.1:{page.port}", timeout=60).headers["Content-Security-Policy"]
        holds("default-src 'none'" in policy and "unsafe-inline'; connect" in policy, f"the policy is {policy}")
    with FakeKept([], opened="no <i>Full</i>") as fake, Here(folder, fake.port, SOURCE) as page:
        it = inside_of(page, texts=["The server does not open it: no <i>Full</i> cell"])
        holds("i" not in it.tags, "a word is an element")


def many_sessions(folder: pathlib.Path) -> None:
    """More than an answer has are asked for behind the last one, up to 1,024; those for whom a call waits are counted."""
    (folder / "status.prom").write_text(text_of(int(time.time()), every_seconds=600))
    answers = [[f"session s{it} for 1 calls 1" for it in range(first, first + 256)] for first in (1, 257, 513, 769)]
    waits = [f"holds {it} s{it} grab" for it in range(1, 21)] + ["waits 99 s30 grab for 7 path 1 node 0 full"]
    row = f"N | grab | s30 | N s | path 1 node 0 full | free | {', '.join(f's{it}' for it in range(1, 13))}, and 8 more"
    for more, count, asked_for in (([["session s257 for 1 calls 1"]], "257", ["257"]), (answers[1:], "the first 1,024", ["257", "513", "769"])):
        with FakeKept([*answers[0], *waits], *more, why={99: ["path 1 node 0 full needs free"]}, only="slots") as fake:
            with Here(folder, fake.port, HOLDS) as page:
                inside_of(page, rows=[row, "s256 |  | N s | 1"], texts=[f"Who is there: {count} sessions", "The server does not open it: no bare"])
            wanted = ["who", *(f"who {it}" for it in asked_for), "why 99"]
            check([it for it in fake.heard if it.startswith("w")][: len(wanted)], wanted, "what it asked")


def what_it_imports_is_released(folder: pathlib.Path) -> None:
    """A release has each module that tools/status is made of."""
    found, todo = set(), ["tools/status.py"]
    while todo:
        file = todo.pop()
        if file in found or not (TOP / file).is_file():
            continue
        found.add(file)
        for it in ast.walk(ast.parse((TOP / file).read_text(encoding="utf-8"))):
            if isinstance(it, ast.ImportFrom) and it.module:
                place = it.module.replace(".", "/")
                todo += [f"{place}.py", *(f"{place}/{one.name}.py" for one in it.names)]
    holds({"tools/inside.py", "gate/slow_world.py"} <= found, f"it is made of {found}")
    check(sorted(it for it in found if it not in release.GIVEN), [], "what is lacking in tools/release.GIVEN")


EXAMPLES = sorted((TOP / "examples" / "objects").glob("*.pp"))
# (of the examples the bounds that keep apart are mostly the first node)
NESTED = """object nested;
  path 5:([one], (2:(second); 1:(put, [get]), last)) end;
  var v : array [1] of integer;
  entry procedure one; begin end;
  entry procedure second; begin end;
  entry procedure last; begin end;
  entry procedure put(x : integer); begin v[0] := x end;
  entry function get : integer; begin get := v[0] end;
end;
"""


def nodes_are_those_of_check(folder: pathlib.Path) -> None:
    """Each picture of an example has each node of its path once; the node that `check` says to separate two operations is a
    bound of one, and they are below it."""
    pairs, deep = 0, 0
    (folder / "nested.pp").write_text(NESTED)
    for file in (*EXAMPLES, folder / "nested.pp"):
        source = file.read_text(encoding="ascii")
        objects = {it: status.of_page.Declared(held.paths_of(source, it), {}) for it in held.objects_of(source)}
        for declared in objects.values():
            told = Shown(status.of_page.pictures(declared, None, {}, {}))
            for one, node in zip(told.pictures, declared.paths, strict=True):
                numbers = [int(it[1]) for text in one if (it := re.match(r"node (\d+)", text))]
                check(sorted(numbers), list(range(len(nodes_of(node)))), f"the nodes of {held.text_of(node)}")
                check([it for it in one if re.fullmatch(r"[a-z]\w*", it)], [it.op for it in nodes_of(node) if isinstance(it, Name)], "its names")
        name = ""
        for line in served.run("check", file).said.splitlines():
            words = line.split()
            if words[0] == "object":
                name = words[1]
            elif words[0] == "pair":
                bound = nodes_of(objects[name].paths[int(words[4]) - 1])[int(words[6])]
                below = {it.op for it in nodes_of(bound) if isinstance(it, Name)}
                holds(isinstance(bound, Bound) and bound.most == 1 and {words[1], words[2]} <= below, f"{file.name}: {line} is of {held.text_of(bound)}")
                pairs, deep = pairs + 1, deep + (words[6] != "0")
    holds(pairs > 50 and deep > 1, f"{pairs} pairs, and {deep} at another node than the first")


# What Prometheus is asked for.
DASHBOARD = TOP / "examples" / "grafana.json"
WORDS_OF_PROMQL = frozenset("by without on ignoring group_left group_right and or unless offset bool".split())
# (a collector gives each number these labels)
OF_COLLECTOR = frozenset(("instance", "job"))
# (each number of a status has this one)
OF_STATUS = frozenset(("server",))


def asked_of_prometheus() -> dict[str, list[str]]:
    """The expressions of the dashboard and of the alarms of docs/OPERATIONS.md."""
    board = json.loads(DASHBOARD.read_text(encoding="utf-8"))
    found = [it["expr"] for panel in board["panels"] for it in panel["targets"]]
    found += [it["query"]["query"] for it in board["templating"]["list"] if it["type"] == "query"]
    alarms = re.findall(r"(?m)^\| `([^`]*pathserve_[^`]*)` \|", (TOP / "docs" / "OPERATIONS.md").read_text(encoding="utf-8"))
    return {"the dashboard": found, "docs/OPERATIONS.md": alarms}


def named_in(query: str) -> tuple[set[str], set[str]]:
    """The metrics and the labels that an expression names."""
    labels = set(re.findall(r'(\w+)\s*(?:=~|!~|!=|=)\s*"', query))
    for one in re.findall(r"\b(?:by|on|without|ignoring)\s*\(([^)]*)\)", query):
        labels |= set(re.findall(r"\w+", one))
    if values := re.fullmatch(r"label_values\((\w+), (\w+)\)", query):
        return {values[1]}, {values[2]}
    bare = re.sub(r"\{[^}]*\}|\[[^]]*\]|\b(?:by|on|without|ignoring)\s*\([^)]*\)", " ", query)
    return {it for it in re.findall(r"[a-zA-Z_:][\w:]*(?!\s*\(|[\w:])", bare) if it not in WORDS_OF_PROMQL}, labels


def faults_of_query(query: str, known: status.Status) -> str | None:
    """What an expression asks for that a status has not."""
    metrics, labels = named_in(query)
    has = {name: {key for it, of in known.numbers if it == name for key, _ in of} for name in metrics}
    lacking = [it for it in metrics if it not in {name for name, _ in known.numbers}]
    if lacking or not metrics:
        return f"{query}: a status has no {', '.join(lacking) or 'name of it'}"
    wrong = labels - set().union(*has.values()) - OF_COLLECTOR - OF_STATUS
    return f"{query}: {', '.join(wrong)} is no label there" if wrong else None


def what_is_asked_of_prometheus(folder: pathlib.Path) -> None:
    """Each name in the dashboard and in the alarms is one of a status, with its labels; promtool, where it is there, reads
    each expression."""
    server = Server(folder, SOURCE, "--status", "1").start()
    known = shows(server, {"epoch": 1}, object="cell")
    server.kill()
    for where, queries in asked_of_prometheus().items():
        holds(len(queries) > 4, f"{where} has {queries}")
        for query in queries:
            why = faults_of_query(query, known)
            holds(not why, f"{where}: {why}")
    for query in ("pathserve_nothing", "sum(rate(pathserve_calls[5m]))", 'pathserve_holds{name="a"}', "sum by (word) (pathserve_holds)", "1 + 2"):
        holds(faults_of_query(query, known), f"{query} is taken")
    if shutil.which("promtool"):
        rules = [{"record": "a:b", "expr": it.replace("$__rate_interval", "1m")} for found in asked_of_prometheus().values() for it in found if "label_values" not in it]
        (folder / "rules.json").write_text(json.dumps({"groups": [{"name": "a", "rules": [it | {"record": f"a:b{at}"} for at, it in enumerate(rules)]}]}))
        told = subprocess.run(["promtool", "check", "rules", folder / "rules.json"], capture_output=True, text=True, timeout=60, check=False)
        holds(told.returncode == 0 and f"{len(rules)} rules found" in told.stdout, told.stdout + told.stderr)


INSIDE = (who_is_inside, no_server_holds_up_the_page, what_is_said_is_escaped, many_sessions, nodes_are_those_of_check, what_is_asked_of_prometheus,
          what_it_imports_is_released)
SERVED = (numbers_are_those_of_the_clients, what_is_held_is_told, a_status_that_cannot_be_written, what_a_label_has_to_escape,
          a_status_on_a_full_disk, a_log_of_json, a_log_of_text, a_new_epoch)


def over_a_server(trial: Callable[[pathlib.Path], object], folder: pathlib.Path) -> str | None:
    """What is wrong with what a server does, if anything."""
    folder.mkdir()
    try:
        trial(folder)
    except Wrong as wrong:
        return str(wrong)
    return None


def tries(folder: pathlib.Path) -> Iterator[tuple[str, Callable[[], object]]]:
    yield "a file", lambda: is_read(text_of(), True)
    for old, new in SPOILT:
        yield f"{new!r} for {old!r}", lambda: spoilt(old, new)
    if not lacks("promtool"):
        yield "what promtool refuses", what_promtool_refuses
    for attempt in (table, rates, statuses, over_http, healthy, watched):
        yield attempt.__name__, lambda: attempt(folder)
    for trial in (*SERVED, *INSIDE):
        yield trial.__name__.replace("_", " "), lambda: over_a_server(trial, folder / trial.__name__)


def trials(folder: pathlib.Path) -> Iterator[Trial]:
    return (Trial(title, attempt) for title, attempt in tries(folder))


def main() -> int:
    with tempfile.TemporaryDirectory() as folder:
        return run("try_status", trials(pathlib.Path(folder)), given_words(), has_times=True)


load_tests = whole(main)
