"""The page of `tools/status --at PLACE --file FILE`: of each object its paths as pictures, who waits, at which node and
for whom, what is held, and who is there. Each text that a server or a file says is escaped."""
import base64
import collections
import dataclasses
import hashlib
import html
import pathlib
from collections.abc import Iterable, Mapping, Sequence

from tools import diagram, held
from tools.inside import Held, Inside, Place, Wait

STYLE = """:root{color-scheme:light dark}body{font:15px system-ui,sans-serif;margin:2em auto;max-width:64em;padding:0 1em}
h1{font-size:1.3em}table{border-collapse:collapse;margin:1.2em 0;width:100%}
th,td{text-align:right;padding:.25em .7em;font-variant-numeric:tabular-nums}
th{font-weight:600;border-bottom:2px solid #8888;white-space:nowrap}td{border-bottom:1px solid #8883}
th:nth-child(-n+2),td:nth-child(-n+2){text-align:left}tr.first td:first-child{font-weight:600}
td.some{background:#e69f0033;font-weight:600}td.bad{background:#d1242f33;font-weight:600}
.gone{background:#d1242f;color:#fff;padding:.6em 1em;border-radius:.3em;font-weight:600}
"""
MORE_STYLE = """section{border-top:2px solid #8888;margin-top:2em}h2{font-size:1.15em;margin:.8em 0 .3em}h3{font-size:1em;margin:1.2em 0 .2em}
table.told{margin:.3em 0}table.told th,table.told td{text-align:left}.path{margin:.6em 0;overflow-x:auto}
code{font:13px ui-monospace,monospace}.soft{opacity:.75}summary{cursor:pointer;margin:1.2em 0 .2em;font-weight:600}
"""
# It fetches what is there now as often as that says, puts it in the place of what was there, and leaves folded what was.
SCRIPT = """
const now = document.getElementById("now"), lost = document.getElementById("lost");
async function renew() {
  try {
    const it = await fetch("now", {cache: "no-store", signal: AbortSignal.timeout(10000)});
    if (!it.ok) throw it.status;
    const text = await it.text(), shut = [...now.querySelectorAll("details:not([open])")].map(it => it.id);
    now.innerHTML = text;
    for (const it of now.querySelectorAll("details")) it.open = !shut.includes(it.id);
    say("");
  } catch {
    say("This page is not renewed any more: tools/status does not answer.");
  }
  again();
}
function say(text) { lost.textContent = text; lost.hidden = !text; }
function again() { setTimeout(renew, 1000 * now.firstElementChild.dataset.every); }
again();
"""
# Nothing runs on the page but this script, and nothing is fetched from elsewhere.
POLICY = "; ".join((
    "default-src 'none'", "style-src 'unsafe-inline'", "connect-src 'self'", "base-uri 'none'", "form-action 'none'", "frame-ancestors 'none'",
    f"script-src 'sha256-{base64.b64encode(hashlib.sha256(SCRIPT.encode()).digest()).decode()}'",
))
# So many names of those for whom a call waits are told.
NAMES = 12


def whole(now: str) -> str:
    """The page, with what is there now."""
    return (f"<!doctype html><html lang=en><meta charset=utf-8><meta name=viewport content=\"width=device-width\"><title>pathserve</title><style>\n"
            f"{STYLE}{MORE_STYLE}{diagram.STYLE}</style><h1>pathserve</h1><p id=lost class=gone hidden></p><div id=now>{now}</div>"
            f"<script>{SCRIPT}</script></html>\n")


def told(text: str, kind: str = "") -> str:
    return f"<p{kind and f' class={kind}'}>{html.escape(text)}</p>"


def table(heads: Sequence[str], rows: Iterable[Sequence[object]]) -> str:
    """A table of texts, or nothing where it has no row."""
    lines = "".join(f"<tr>{''.join(f'<td>{html.escape(str(it))}</td>' for it in row)}</tr>" for row in rows)
    return f"<table class=told><tr>{''.join(f'<th>{it}</th>' for it in heads)}</tr>{lines}</table>" if lines else ""


@dataclasses.dataclass(frozen=True, slots=True)
class Declared:
    """An object as a file declares it: its paths, and of each operation that ends what is held the operations by which it
    is taken."""

    paths: held.Nodes
    takers: Mapping[str, Sequence[str]]


class File:
    """A file of objects, which is read again where it was changed."""

    def __init__(self, path: pathlib.Path) -> None:
        self.path, self.read_of, self.fault = path, (0, 0), ""
        self.objects: dict[str, Declared] = {}

    def look(self) -> Mapping[str, Declared]:
        """The objects that it has; where it cannot be read `fault` says why."""
        try:
            stat = self.path.stat()
            if self.read_of != (stat.st_mtime_ns, stat.st_size):
                source = self.path.read_text(encoding="latin-1")
                self.objects = {it: Declared(held.paths_of(source, it), held.takers_of(source, it)) for it in held.objects_of(source)}
                self.read_of = stat.st_mtime_ns, stat.st_size
            self.fault = ""
        except OSError as error:
            self.fault = f"{self.path} cannot be read: {error.strerror}"
        except (held.Unread, RecursionError) as error:
            self.fault = f"{self.path} is no file of objects: {error}"
        return self.objects


def called(session: str, inside: Inside) -> str:
    """A session as the page calls it, by the name of its client too."""
    names = inside.names()
    if session in names:
        return f"{session} {names[session]}".rstrip()
    name = next((it.name for it in inside.holds if it.session == session and it.name), "")
    return f"{session} {name}".rstrip() + ("" if inside.more else " (gone)")


def whom(wait: Wait, inside: Inside, takers: Mapping[str, Sequence[str]]) -> str:
    """For whom a call waits: for those who hold what has to be ended, or for whoever calls one of the operations."""
    needs = inside.needs.get(wait.place, ())
    wanted = {it for op in needs for it in takers.get(op, ())}
    found = list(dict.fromkeys(called(it.session, inside) for it in inside.holds if it.operation in wanted))
    more = [f"and {len(found) - NAMES} more"] if len(found) > NAMES else []
    return ", ".join([*found[:NAMES], *more]) if found else "whoever calls it" if needs else ""


def waits(inside: Inside, takers: Mapping[str, Sequence[str]]) -> str:
    rows = [
        (it.call, it.operation, called(it.session, inside), f"{it.seconds} s", it.place, " or ".join(inside.needs.get(it.place, ())), whom(it, inside, takers))
        for it in inside.waits
    ]
    heads = ("call", "operation", "session", "for", "waits at", "for an end of", "by")
    return table(heads, rows) or told("Nobody waits.", "soft")


def how_long(it: Held) -> str:
    """For how long a call is held, where that is told."""
    return "" if it.seconds is None else f"{it.seconds} s{' at least' if it.at_least else ''}"


def holds(inside: Inside) -> str:
    rows = [(it.call, it.operation, called(it.session, inside), how_long(it), "{} of {} s".format(*it.away) if it.away else "") for it in inside.holds]
    return table(("call", "operation", "held by", "for", "gone for"), rows) or told("Nothing is held.", "soft")


def sessions(name: str, inside: Inside) -> str:
    count = f"{'the first ' if inside.more else ''}{len(inside.sessions):,} session{'s' if len(inside.sessions) != 1 else ''}"
    rows = [(it.number, it.name, f"{it.seconds} s", it.calls) for it in inside.sessions]
    return (f'<details open id="in-{html.escape(name)}"><summary>Who is there: {count}</summary>'
            f'{table(("session", "client", "for", "calls"), rows)}</details>')


def pictures(declared: Declared, inside: Inside | None, calls: Mapping[str, tuple[int, int]], counted: Mapping[Place, int]) -> str:
    """The paths of an object, with what is known of their nodes."""
    counts: collections.Counter[Place] = collections.Counter(it.place for it in inside.waits) if inside else collections.Counter()
    found = [
        f"<div class=path><code>path {html.escape(held.text_of(it))} end</code><br>{diagram.picture(number, it, counts, calls, counted)}</div>"
        for number, it in enumerate(declared.paths, 1)
    ]
    return "".join(found) or told("It has no path.", "soft")


def section(name: str, lines: Sequence[str], declared: Declared | None, inside: Inside | None, calls: Mapping[str, tuple[int, int]],
            counted: Mapping[Place, int]) -> str:
    """What is told of an object: lines, its pictures, where FILE has it, and what it has inside, where the server tells
    that. `calls` has of each operation how many of its calls run, and wait, and `counted` what nodes of paths count."""
    found = [f"<section><h2>{html.escape(name)}</h2>", *(told(it) for it in lines)]
    found.append(pictures(declared, inside, calls, counted) if declared else told("FILE has no object of this name.", "gone"))
    if inside and inside.refused:
        found.append(told(f"The server does not open it: {inside.refused}", "gone"))
    elif inside:
        takers = declared.takers if declared else {}
        found += ["<h3>Who waits</h3>", waits(inside, takers), "<h3>What is held</h3>", holds(inside), sessions(name, inside)]
    return "".join(found) + "</section>"
