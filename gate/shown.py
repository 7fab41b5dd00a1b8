"""What a page of `tools/status --at PLACE --file FILE` shows, read back; the tool that serves it, clients of which it has to
tell, and a server that is none and says of `who` and `why` what it is told to."""
import contextlib
import html.parser
import pathlib
import re
import socket
import subprocess
import threading
import urllib.request
from collections.abc import Iterable, Iterator, Mapping, Sequence

from gate.fakes import Fake
from gate.kept import Server
from gate.talk import Talk
from gate.tried import TOP, Wrong, check, holds, there, until
from tools import status

TOOL = TOP / "tools" / "status"
BUFFER = """object buffer;
  path 2:(put; get) end;
  path 1:(put, get) end;
  var items : queue of text;
  entry procedure put(item : text); begin append(items, item) end;
  entry function get : text; begin get := first(items); take(items) end;
end;
"""
SLOTS = """object slots;
  path 3:(grab; free) end;
  path 1:([grab], [free, seen]) end;
  entry procedure grab; begin end;
  entry procedure free; begin end;
  entry function seen : integer; begin seen := 1 end;
  hold grab until free;
end;
"""
SOURCE = SLOTS + BUFFER
# What the page has to show of the clients of `clients`: rows of its tables, texts of its pictures, and lines. A number of
# seconds or of a call is N; sessions without a name, and that of one who is gone, are told where they are known.
ROWS = (
    "s1 | ann | N s | 1", "{bob} |  | N s | 1", "{carol} | carol | N s | 1", "s1 |  | N s | 1", "N | grab | s1 ann | N s |", "N | grab | {bob} | N s |", "N | grab | {dora} dora (gone) | N s | N of N s",
    "N | grab | {carol} carol | N s | path 1 node 0 full | free | {held}",
    "N | get | s1 | N s | path 1 node 1 turn 1 | put | whoever calls it",
)
PICTURED = ("node 0: 3 of 3, 1 waits", "node 0: 0 of 1", "node 2, 1 waits", "node 0: 0 of 2", "0, 1 waits", "3", "node 2: together, as one, 0 open", "grab", "get")
LINES = ("slots", "buffer", "path 3:(grab; free) end", "path 1:([grab], [free, seen]) end", "path 2:(put; get) end", "Who waits", "What is held",
         "Who is there: 3 sessions", "Who is there: 1 session")
# What a hostile server says, and how it is shown.
IMAGE = "<img/src=x/onerror=document.title='taken'>"
HOSTILE = (
    f"session s1 for 7 calls 4 name {IMAGE}", "session <u>s2</u> for 1 calls 0", "session s3 for 1 calls 0 name \"'&amp;<a>", f"waits 12 s1 {IMAGE} for 5 path 1 node 0 full",
    "waits 13 s1 </table><b>get</b> for 5 path 1 node 0 turn 7", "holds 7 <i>s7</i> </div></section>", "<b>what is no line</b>",
)
NEEDS = {12: ["path 1 node 0 full needs <b>put</b> <i>get</i>"], 13: ["<b>"]}
HOSTILE_ROWS = (
    f"s1 | {IMAGE} | N s | 4", "<u>s2</u> |  | N s | 0", "s3 | \"'&amp;<a> | N s | 0", f"12 | {IMAGE} | s1 {IMAGE} | N s | path 1 node 0 full | <b>put</b> or <i>get</i> | whoever calls it",
    f"13 | </table><b>get</b> | s1 {IMAGE} | N s | path 1 node 0 turn 7 |  |", "7 | </div></section> | <i>s7</i> (gone) |  |",
)


class Shown(html.parser.HTMLParser):
    """What a page shows: its texts, the rows of its tables, the texts of each of its pictures; and its elements."""

    def __init__(self, text: str) -> None:
        super().__init__()
        self.texts: list[str] = []
        self.rows: list[list[str]] = []
        self.pictures: list[list[str]] = []
        self.tags: set[str] = set()
        self.classes: set[str] = set()
        self.open: list[str] = []
        self.text = ""
        self.feed(text)
        self.close()

    def handle_starttag(self, tag: str, attrs: "list[tuple[str, str | None]]") -> None:
        self.tags.add(tag)
        self.classes.update((dict(attrs).get("class") or "").split())
        self.open.append(tag)
        self.ended()
        if tag == "tr":
            self.rows.append([])
        elif tag == "svg":
            self.pictures.append([])

    def handle_endtag(self, tag: str) -> None:
        text = self.ended()
        if tag in ("td", "th"):
            self.rows[-1].append(text)
        elif tag == "text":
            self.pictures[-1].append(text)
        while self.open and self.open.pop() != tag:
            pass

    def handle_data(self, data: str) -> None:
        if self.open[-1:] not in (["script"], ["style"]):
            self.text += data

    def ended(self) -> str:
        found, self.text = self.text.strip(), ""
        if found:
            self.texts.append(re.sub(r"was asked \d+ s ago", "was asked N s ago", found))
        return found

    def lines(self) -> list[str]:
        """The rows as lines, with N for each number of a call and of seconds."""
        return [re.sub(r"^\d+(?= \| [a-z])|\b\d+(?= s\b| of \d+ s\b)", "N", " | ".join(it)).strip() for it in self.rows]

    def has(self, rows: Iterable[str] = (), pictured: Iterable[str] = (), texts: Iterable[str] = ()) -> None:
        """Raises where one of these is not shown."""
        kinds = (("row", rows, self.lines()), ("picture", pictured, [it for one in self.pictures for it in one]), ("text", texts, self.texts))
        for kind, wanted, found in kinds:
            for it in wanted:
                holds(it in found, f"no {kind} is {it!r}, but {found}")


@contextlib.contextmanager
def clients(server: Server) -> Iterator[list[str]]:
    """Clients of SOURCE, and the rows that tell of them: three hold a slot, of which one is gone that has a name; a fourth
    waits for one, and somebody for what is put into the buffer."""
    with contextlib.ExitStack() as stack:
        ann, bob, dora = (stack.enter_context(Talk(server, *it)) for it in (
            ("open slots as ann", "opened slots next 1"), ("open slots", "opened slots"), ("open slots as dora", "opened slots next 1")))
        for it in (ann, bob, dora):
            check(it.calls("grab"), ["done"], "a grab")
        carol, eve = stack.enter_context(Talk(server, "open slots as carol", "opened slots next 1")), stack.enter_context(Talk(server, "open buffer", "opened buffer"))
        for one, call in ((carol, "call grab"), (eve, "call get")):
            one.say(call)
            holds(one.hear().startswith("accepted "), f"{call} does not wait")
        dora.close()
        until(lambda: sum(it.startswith("session ") for it in who(ann)) == 3, "a client that is gone is there")
        lines = [it.split() for it in who(ann)]
        there_are = {it[1]: " ".join(it[1::6]) for it in lines if it[0] == "session"}
        holders = [it[2] for it in lines if it[0] == "holds"]
        check(len(holders), 3, "what is held")
        names = {"bob": next(it for it in holders[1:] if it in there_are), "dora": next(it for it in holders if it not in there_are),
                 "carol": next(it[1] for it in lines if it[-1] == "carol"), "held": ", ".join(there_are.get(it, f"{it} dora (gone)") for it in holders)}
        yield [it.format(**names) for it in ROWS]


def who(talk: Talk) -> list[str]:
    talk.say("who")
    return [talk.hear() for _ in range(int(talk.hear().rpartition(" ")[2]))]


def got(port: int, path: str) -> str:
    """What is served there to a browser."""
    with urllib.request.urlopen(f"http://127.0.0.1:{port}{path}", timeout=60) as it:
        found: bytes = it.read()
    return found.decode()


class Page:
    """`tools/status DIR --http 0`, with these words behind it."""

    def __init__(self, folder: pathlib.Path, *words: object) -> None:
        self.child = subprocess.Popen([str(it) for it in (TOOL, folder, "--http", 0, *words)], stdout=subprocess.PIPE, text=True)
        line = there(self.child.stdout).readline()
        if not line:
            self.__exit__()
            raise Wrong("tools/status serves no page")
        self.port = int(line.removeprefix("listening "))

    def get(self, path: str = "/") -> str:
        return got(self.port, path)

    def __enter__(self) -> "Page":
        return self

    def __exit__(self, *_: object) -> None:
        self.child.kill()
        self.child.wait()
        there(self.child.stdout).close()


class Here(status.Server):
    """The same page, served by this process, of the objects of a source; without what starts one it is quicker."""

    def __init__(self, folder: pathlib.Path, place: object, source: str) -> None:
        file = folder / "objects.pp"
        file.write_text(source)
        super().__init__(folder, 0, status.Within(str(place), file))
        threading.Thread(target=self.serve_forever, args=(0.05,), daemon=True).start()

    def __exit__(self, *_: object) -> None:
        self.shutdown()
        self.server_close()

    @property
    def port(self) -> int:
        return int(self.server_address[1])

    def get(self, path: str = "/") -> str:
        return got(self.port, path)


class FakeKept(Fake):
    """Answers `who` and `why` as it is told: `who` has the lines of each, one after the other, and then those of the
    first one again, and `why` those of each call. It opens each object, or `only` this one."""

    def __init__(self, *who: Sequence[str], why: "Mapping[int, Sequence[str]] | None" = None, opened: str = "opened", only: str = "") -> None:
        self.who, self.why, self.opened, self.only, self.asked = list(who), dict(why or {}), opened, only, 0
        super().__init__()

    def serve(self, it: socket.socket, number: int) -> None:
        with it.makefile("rb") as lines:
            for line in lines:
                words = line.decode("ascii", "replace").split()
                self.heard.append(" ".join(words))
                if words[0] == "open":
                    it.sendall(f"{self.opened if self.only in ('', words[1]) else 'no'} {words[1]}\n".encode())
                elif words[0] == "who":
                    found = self.who[self.asked % len(self.who)]
                    self.asked += 1
                    it.sendall("".join(f"{one}\n" for one in (f"who {len(found)}", *found)).encode())
                else:
                    found = self.why.get(int(words[1]), ())
                    first = f"why {words[1]} Waiting {len(found)}" if found else f"why {words[1]} Ended"
                    it.sendall("".join(f"{one}\n" for one in (first, *found)).encode())
