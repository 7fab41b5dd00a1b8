"""Looks at the page of `tools/status --at PLACE --file FILE` in a browser, by the elements that it has made of it.

usage: gate/try_page [--program FILE] [WORDS OF A TITLE ..]

Each text that the page has to show of a server and its clients is there. What changes comes without the page being
loaded again: who waits, calls a second, a server that is gone; also that tools/status does not answer any more, and
that it does again. What a hostile server says is a text, and nothing of it runs. The browser is Debian's `chromium`,
without a window; where it is not there nothing is tried. What needs no browser is tried by gate/try_status.

The last line is `try_page: N passed, M failed`, or `not run: chromium`; the exit status is 0 where M is 0 and N is not.
"""
import contextlib
import os
import pathlib
import signal
import subprocess
import time
from collections.abc import Callable, Iterator

from gate import shown
from gate.kept import Server
from gate.shown import FakeKept, Page, Shown
from gate.tried import Trial, Wrong, check, given_words, holds, in_folder, lacks, run, title_of, until, whole
from gate.try_status import CALLS, SOURCE, text_of
from tools import status

BROWSER = "chromium"
FLAGS = ("--headless", "--no-sandbox", "--disable-gpu", "--disable-dev-shm-usage", "--disable-extensions", "--no-first-run", "--mute-audio")
# How long a browser may take, in seconds; and how much time passes for the page meanwhile, in milliseconds.
SECONDS, PASSES = 60, 6000
LOST = "This page is not renewed any more: tools/status does not answer."


def dom(address: str, room: pathlib.Path, passes: int = PASSES) -> Shown:
    """What a browser shows of a page when so much time has passed for it. Time passes at once, where nothing is fetched."""
    words = [BROWSER, *FLAGS, f"--user-data-dir={room / 'browser'}", f"--virtual-time-budget={passes}", "--dump-dom", address]
    child = subprocess.Popen(words, stdout=subprocess.PIPE, stderr=subprocess.DEVNULL, text=True, start_new_session=True)
    try:
        told = child.communicate(timeout=SECONDS)[0]
    except subprocess.TimeoutExpired:
        raise Wrong("the browser does not end") from None
    finally:
        # With all that it has started.
        with contextlib.suppress(ProcessLookupError):
            os.killpg(child.pid, signal.SIGKILL)
        child.wait()
    return Shown(told)


class Handler(status.Handler):
    """Notes what is asked for, and has something happen before it is answered."""

    server: "Here"

    def do_GET(self) -> None:
        self.server.asked.append(self.path)
        if self.path == "/now":
            self.server.before(self.server.asked.count("/now"))
        if not self.server.is_silent:
            super().do_GET()


class Here(shown.Here):
    """The page, served by this process: `before` is done before what renews it is answered, by how often it was asked for."""

    def __init__(self, folder: pathlib.Path, place: object, before: Callable[[int], object]) -> None:
        self.asked: list[str] = []
        self.is_silent, self.before = False, before
        super().__init__(folder, place, SOURCE)
        self.RequestHandlerClass = Handler

    @property
    def address(self) -> str:
        return f"http://127.0.0.1:{self.port}/"


def write(folder: pathlib.Path, later: int, done: int = 6000) -> None:
    """Writes a status, so many seconds behind one of now, of a server whose clients did so many submits."""
    calls = {it if it[0] != "job_queue" else ("cell", it[1]): counts for it, counts in CALLS.items()} | {("cell", "set"): (done, 0, 0, 0, 0, 0)}
    (folder / "status.prom.new").write_text(text_of(int(time.time()) + later, calls, every_seconds=1))
    (folder / "status.prom.new").rename(folder / "status.prom")


def a_server_and_its_clients(folder: pathlib.Path) -> None:
    """Each text that the page has to show of them is there, and a picture for each path."""
    server = Server(folder, shown.SOURCE, "--status", "1", at_path=True).start()
    try:
        with Page(server.folder, "--at", server.place, "--file", server.file) as page, shown.clients(server) as rows:
            until(lambda: '"get"} 1' in (server.folder / "status.prom").read_text(), "a status that tells who waits", 10)
            it = dom(f"http://127.0.0.1:{page.port}/", folder)
            it.has(rows=rows, pictured=shown.PICTURED, texts=(*shown.LINES, f"the server at {server.place} was asked N s ago"))
            check((len(it.pictures), "gone" in it.classes and LOST in it.texts), (4, False), "the pictures, and what is lost")
    finally:
        server.kill()


def it_is_renewed_and_not_loaded_again(folder: pathlib.Path) -> None:
    """Calls a second, and who waits, come to a page that was loaded once, also behind a moment without an answer."""
    write(folder, 0)
    waits = [f"waits 7 s1 need for {it} path 1 node 0 full" for it in range(100)]

    def goes_on(count: int) -> None:
        here.is_silent = count == 2
        write(folder, 2 * count, 6000 + 25 * count)

    with FakeKept(*([one] for one in waits), only="cell") as fake, Here(folder, fake.port, goes_on) as here:
        it = dom(here.address, folder)
        check([one for one in here.asked if one not in ("/now", "/favicon.ico")], ["/"], "what was loaded")
        count = here.asked.count("/now")
        # (a server is not asked again while its last answer is fresh)
        holds(4 <= count <= 7 and 1 <= fake.asked <= count + 1, f"it was renewed {count} times in 6 seconds, and the server asked {fake.asked} times")
        it.has(rows=[f"| set | {6000 + 25 * count:,} | 0 | 0 | 12.5 | 0 | 0"], texts=["12.5 calls a second"])
        it.has(rows=["N | need | s1 (gone) | N s | path 1 node 0 full |  |"], pictured=["node 0: 1 of 1, 1 waits"])
        holds(f"{fake.asked - 1} s" in it.texts, f"who waits is not that of the last answer, {fake.asked - 1} s")
        holds(LOST not in it.texts, "it says that it is not renewed")


def a_server_that_goes(folder: pathlib.Path) -> None:
    """The page tells that nobody answers any more, and goes on."""
    write(folder, 0)
    with FakeKept(["session s1 for 1 calls 1 name ann"], only="cell") as fake:

        def goes(count: int) -> None:
            # (the answer before is not fresh any more)
            if count == 2:
                fake.__exit__(None, None, None)
                time.sleep(0.6)

        with Here(folder, fake.port, goes) as here:
            it = dom(here.address, folder, 9000)
            holds(here.asked.count("/now") > 3 and here.asked.count("/") == 1, f"it asked for {here.asked}")
            it.has(texts=[f"no server answers at {fake.port}: Connection refused", "path 2:(put; get) end"])
            holds("ann" not in it.texts, "it shows a client of a server that is gone")


def a_page_that_is_not_renewed(folder: pathlib.Path) -> None:
    """Where tools/status does not answer any more the page says so, and keeps what it had."""
    write(folder, 0)

    def stops(count: int) -> None:
        here.is_silent = count >= 2

    with FakeKept([], only="cell") as fake, Here(folder, fake.port, stops) as here:
        it = dom(here.address, folder)
        holds(here.asked.count("/now") >= 4, f"it asked for {here.asked}")
        it.has(texts=[LOST, "path 2:(put; get) end"])


def nothing_of_it_runs(folder: pathlib.Path) -> None:
    """What a hostile server says stands there as it is."""
    write(folder, 0)
    with FakeKept(shown.HOSTILE, why=shown.NEEDS, only="cell") as fake, Here(folder, fake.port, lambda count: None) as here:
        it = dom(here.address, folder, 2500)
        holds("/now" in here.asked, "it is not renewed")
        it.has(rows=shown.HOSTILE_ROWS, texts=["pathserve"])
        holds(not it.tags & {"b", "i", "img", "u", "a"} and it.texts[0] == "pathserve", f"it has the elements {it.tags}, and the title {it.texts[0]}")


TRIES = (a_server_and_its_clients, it_is_renewed_and_not_loaded_again, a_server_that_goes, a_page_that_is_not_renewed, nothing_of_it_runs)


def trials() -> Iterator[Trial]:
    return (Trial(title_of(it), in_folder("try_page", it)) for it in TRIES)


def main() -> int:
    if lacks(BROWSER):
        return 0
    return run("try_page", trials(), given_words(), has_times=True)


load_tests = whole(main)
