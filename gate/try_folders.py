"""Looks what a server leaves in its folder where it is not alone there, cannot list it, cannot save, cannot take a connection, can make no
thread, or is killed.

usage: gate/try_folders [--program FILE]

Nothing that was saved may be lost, and nothing that was not saved be removed: in each case the value that the clients were told last is
in the saved part or in a value file that standard error names, also after a second start, which moves such files away. The disk is
full for the n-th write of the end, for each n: by a limit on the size of files, which is set when all calls are done, and, where this machine
lets one be mounted, on a small tmpfs. The program is run by another user where root calls this, for whom a folder can be read-only.
"""
import contextlib
import os
import pathlib
import re
import resource
import socket
import sys
import time
from collections.abc import Iterable, Iterator, Mapping
from typing import TypeVar

from gate import served
from gate.kept import Mounted
from gate.tried import Trial, given_words, holds, loads, new_folder, preload, run

SOURCE = """object one;
  path 1:(put, get) end;
  var v : array [300] of integer;
      w : queue of text;
      u : array [1] of text;
  entry procedure put(x : integer; t : text); begin v[1] := x; v[299] := x; append(w, t); u[0] := t end;
  entry function get : integer; begin get := v[1] end;
end;
object two;
  path 1:(put) end;
  var v : array [1] of integer;
  entry procedure put(x : integer); begin v[0] := x end;
end;
"""
WAITS = """object buffer;
  path 8:(put; get) end;
  path 1:(put, get) end;
  var items : queue of integer;
  entry procedure put(x : integer); begin append(items, x) end;
  entry function get : integer; begin get := first(items); take(items) end;
end;
"""
LASTS, QUIET = 20, 0.3
NOBODY = 65534
TEXT = "y" * 200
# What the parts hold when `settle` is done, in the order in which they are saved, and the files that are written at the end.
# The first of them has two pages, of which both were written, and lies in two value files.
VALUES = {
    "one.v": bytes.fromhex("0201012c" + "00000000" + "00000007" + 297 * "00000000" + "00000007"),
    "one.w": bytes.fromhex("0204000100c8") + TEXT.encode(),
    "one.u": bytes.fromhex("0202000100c8") + TEXT.encode(),
    "two.v": bytes.fromhex("0201000100000009"),
}
# These values as an earlier program saved them, in the first format.
BEFORE = {
    "one.v": bytes.fromhex("0101012c" + "00000000" + "00000007" + 297 * "00000000" + "00000007"),
    "one.w": bytes.fromhex("01040001c8") + TEXT.encode(),
    "one.u": bytes.fromhex("01020001c8") + TEXT.encode(),
    "two.v": bytes.fromhex("0101000100000009"),
}
ENTRIES = {"one": 1, "two": 1}
UNSAVED = re.compile(r"(\S+) not saved:((?: \d+\.val)+)\n")
MOVED = re.compile(r"moved to left/(\d+):((?: \d+\.val)+)\n")


Self = TypeVar("Self", bound="Server")


class Server(served.Server):
    """A server over a folder, which stops with its input, and what it says first, if anything."""

    def __init__(self, folder: pathlib.Path, *more: str, other: bool = True, files: int | None = None, env: Mapping[str, str] | None = None) -> None:
        user = NOBODY if other and os.geteuid() == 0 else None
        source, words = folder.parent / "objects.pp", ["--sessions", "8", "--stop-with-input", *more]
        super().__init__("serve", source, folder, *words, env=env, files=files, user=user, survives=True)

    def start(self: Self) -> Self:
        self.begin()
        self.first = self.line()
        return self

    def ask(self, *lines: str) -> str:
        """Says lines on a connection of its own, and gives what comes."""
        return "".join(f"{it}\n" for it in self.says(*lines))

    def settle(self) -> None:
        """Has each object do a call."""
        heard = self.ask("open one", f"call put 7 '{TEXT}'") + self.ask("open two", "call put 9")
        holds(heard.count("done 1\n") == 2, f"the clients heard {heard!r}")
        self.await_rest()

    def await_rest(self) -> None:
        """Waits until the sessions that have ended have removed what nobody reads any more."""
        end = time.monotonic() + LASTS
        last, since = None, time.monotonic()
        while time.monotonic() < end and time.monotonic() - since < QUIET:
            if (now := sorted(contents(self.folder).items())) != last:
                last, since = now, time.monotonic()
            time.sleep(QUIET / 10)

    def limit(self, size: int) -> None:
        resource.prlimit(self.child.pid, resource.RLIMIT_FSIZE, (size, size))


@contextlib.contextmanager
def place() -> Iterator[pathlib.Path]:
    """A folder for a server, in one with its source, which the other user may enter."""
    with new_folder("folders-") as room:
        room.chmod(0o755)
        (room / "objects.pp").write_text(SOURCE, encoding="ascii")
        (room / "folder").mkdir()
        give(room / "folder")
        yield room / "folder"


def give(it: pathlib.Path) -> None:
    """Gives a file or a folder to the user who runs the program."""
    if os.geteuid() == 0:
        os.chown(it, NOBODY, NOBODY)


def contents(folder: pathlib.Path) -> dict[str, bytes]:
    """What a folder has: names and bytes."""
    found = {}
    for it in folder.rglob("*"):
        # Some are removed meanwhile.
        with contextlib.suppress(FileNotFoundError):
            if it.is_file():
                found[str(it.relative_to(folder))] = it.read_bytes()
    return found


def value_files(folder: pathlib.Path) -> set[str]:
    return {name for name in contents(folder) if re.fullmatch(r"\d+\.val", name)}


def is_saved(folder: pathlib.Path, part: str, values: Mapping[str, bytes] | None = None) -> bool:
    path = folder / f"{part}.part"
    return path.exists() and path.read_bytes() == (values or VALUES)[part]


def look_for_values(folder: pathlib.Path, error: str, values: Mapping[str, bytes] | None = None) -> dict[str, list[str]]:
    """Each value is saved, or in the files that standard error names for it; each of these files is there. Gives those parts that are not
    saved, with their files."""
    unsaved = {part: files.split() for part, files in UNSAVED.findall(error)}
    values = values or VALUES
    for part in VALUES:
        if part in unsaved:
            pages = [(folder / it).read_bytes() for it in unsaved[part]]
            held = b"".join(pages)
            holds(held == values[part], f"{unsaved[part]} hold {held!r} of {part}")
            holds([len(it) for it in pages[:-1]] == [1024] * (len(held) // 1024), f"{unsaved[part]} are no pages of {part}")
            holds(not is_saved(folder, part, values), f"{part} is saved, and is said not to be")
        else:
            holds(is_saved(folder, part, values), f"{part} is neither saved nor named by {error!r}")
    return unsaved


def look_at_ends(folder: pathlib.Path, said: str, error: str, unsaved: Iterable[str], before: Mapping[str, bytes]) -> None:
    """`NAME entries K` stands where all of an object was kept, and nowhere else; a trace is whole, or the one that was there."""
    for name, count in ENTRIES.items():
        untraced = f"{name}.trace not written\n" in error
        kept = not untraced and not any(part.startswith(f"{name}.") for part in unsaved)
        holds((f"{name} entries {count}\n" in said) == kept, f"{said!r} beside {error!r}")
        trace = folder / f"{name}.trace"
        if untraced:
            holds((trace.read_bytes() if trace.exists() else None) == before.get(f"{name}.trace"), f"the old {name}.trace was changed")
        else:
            legal = served.run("audit", folder.parent / "objects.pp", trace).said
            holds(legal == f"legal {count}\n", f"{name}.trace is {legal!r}")


def repair(folder: pathlib.Path, unsaved: Mapping[str, list[str]]) -> None:
    """What docs/SERVING.md says of parts that were not saved: a start moves the value files away, a stop, and then the files of a part, one behind
    the other, are the part."""
    with Server(folder) as server:
        holds(server.first.startswith("listening "), "the second start failed")
        _, status, error = server.ended(LASTS)
    holds(status == 0, f"the second run ended with {status}")
    moved = MOVED.search(error)
    holds(moved, f"the second start said {error!r}")
    assert moved
    for part, files in unsaved.items():
        holds(set(files) <= set(moved[2].split()), f"{files} were not moved: {error!r}")
        held = b"".join((folder / "left" / moved[1] / it).read_bytes() for it in files)
        holds(held == VALUES[part], f"left/{moved[1]} has not the value of {part}")
        (folder / f"{part}.part").write_bytes(held)
        give(folder / f"{part}.part")
    with Server(folder) as server:
        holds(server.ask("open one", "call get").count("done 1 7\n") == 1, "the third run has not the value")
        _, status, error = server.ended(LASTS)
    holds((status, error) == (0, ""), f"the third run ended with {status}, {error!r}")
    holds(not value_files(folder), "value files were left though all was saved")
    for part in VALUES:
        holds(is_saved(folder, part), f"{part} is lost after the third run")


def end_badly(folder: pathlib.Path, server: Server, before: Mapping[str, bytes]) -> dict[str, list[str]]:
    """Stops a server that cannot save all, and looks at what it left."""
    said, status, error = server.ended(LASTS)
    holds(status == 3 and error.endswith("write fault\n"), f"status {status}, {error!r}")
    unsaved = look_for_values(folder, error)
    look_at_ends(folder, said, error, unsaved, before)
    return unsaved


def try_two_servers() -> None:
    with place() as folder, Server(folder) as first:
        first.settle()
        before = contents(folder)
        told = f"{folder}: another server has this folder\n"
        for more in (), ("--explain",):
            with Server(folder, *more) as second:
                holds(second.first == "", "a second server serves")
                said, status, error = second.ended(LASTS)
            holds((status, said, error) == (3, "", f"{told}read fault\n"), f"the second one ended with {status}, {said!r}, {error!r}")
        holds(contents(folder) == before, "the second server changed the folder")
        holds("done 2 7\n" in first.ask("open one", "call get"), "the first server does not go on")
        said, status, error = first.ended(LASTS)
        holds((status, said, error) == (0, "one entries 2\ntwo entries 1\n", ""), f"the first one ended with {status}, {said!r}, {error!r}")
    # A folder is free as soon as its server has ended, however that was.
    with place() as folder:
        for is_killed in (False, True, False):
            with Server(folder) as server:
                holds(server.first.startswith("listening "), "the folder of a server that has ended is not free")
                if is_killed:
                    server.kill()
                else:
                    server.ended(LASTS)


def try_limits() -> None:
    """The end of a server that may write no file longer than so much, for lengths at which one write more fails each time."""
    for size in sorted({0, *(len(it) - 1 for it in VALUES.values()), max(map(len, VALUES.values()))}):
        with place() as folder:
            # The limit of another user's program is not ours to change.
            with Server(folder, other=False) as server:
                server.settle()
                server.limit(size)
                unsaved = end_badly(folder, server, {})
            holds(not [it for it in contents(folder) if it.endswith(".new")], "what could not be written is left")
            if unsaved:
                repair(folder, unsaved)


def try_old_trace() -> None:
    """The trace of the last run stays where the new one cannot be written."""
    with place() as folder:
        with Server(folder) as server:
            server.ask("open two", "call put 1")
            holds(server.ended(LASTS).status == 0, "the first run failed")
        before = contents(folder)
        with Server(folder, other=False) as server:
            server.ask("open two", "call put 2")
            server.await_rest()
            server.limit(20)
            said, status, error = server.ended(LASTS)
        holds((status, said) == (3, ""), f"{status}, {said!r}, {error!r}")
        holds("two.trace not written\n" in error and "two.v not saved" not in error, f"{error!r}")
        holds((folder / "two.trace").read_bytes() == before["two.trace"], "the old trace was changed")
        holds((folder / "two.v.part").read_bytes() == bytes.fromhex("0201000100000002"), "the part was not saved")


def try_full_disk() -> None:
    """One write more is possible each time, until all are."""
    failed = 0
    for pages in range(len(VALUES) + len(ENTRIES) + 1):
        with place() as folder, Mounted(folder, "256k", NOBODY) as disk:
            if not disk.is_there:
                return
            with Server(folder) as server:
                server.settle()
                disk.fill(4096 * pages)
                said, status, error = server.ended(LASTS)
            unsaved = look_for_values(folder, error)
            look_at_ends(folder, said, error, unsaved, {})
            if status == 0:
                holds(not error and not value_files(folder), f"status 0, {error!r}")
                break
            holds(status == 3 and error.endswith("write fault\n"), f"status {status}, {error!r}")
            failed += 1
            disk.empty()
            if unsaved:
                repair(folder, unsaved)
    holds(failed >= len(VALUES), f"the disk was full for {failed} writes alone")


def try_read_only() -> None:
    with place() as folder:
        with Server(folder) as server:
            server.settle()
            folder.chmod(0o555)
            unsaved = end_badly(folder, server, {})
        holds(set(unsaved) == set(VALUES), f"{set(unsaved)} were not saved")
        before = contents(folder)
        with Server(folder, "--explain") as server:
            said, status, error = server.ended(LASTS)
            last = error.splitlines(keepends=True)[-2:]
            wanted = [f"{folder}: in this folder a part cannot be read, or no file can be made\n", "read fault\n"]
            holds((server.first, status, said, last) == ("", 3, "", wanted), f"a start in a read-only folder: {status}, {said!r}, {error!r}")
        holds(contents(folder) == before, "a start in a read-only folder changed it")
        folder.chmod(0o755)
        repair(folder, unsaved)
    # Read-only for a while only.
    with place() as folder, Server(folder) as server:
        server.settle()
        folder.chmod(0o555)
        heard = server.ask("open two", "call put 5")
        holds("failed 2 device\n" in heard, f"the client heard {heard!r}")
        folder.chmod(0o755)
        holds(server.ended(LASTS).status == 0, "the end failed")
        look_for_values(folder, "")


def try_kill() -> None:
    with place() as folder:
        with Server(folder) as server:
            server.settle()
            holds(server.ended(LASTS).status == 0, "the first run failed")
        saved = contents(folder)
        holds(not value_files(folder), "value files were left though all was saved")
        for turn in 1, 2:
            with Server(folder) as server:
                server.ask("open two", f"call put {turn + 20}")
                server.await_rest()
                before = {it: (folder / it).read_bytes() for it in value_files(folder)}
                server.kill()
            holds(before and bytes.fromhex(f"02010001{turn + 20:08x}") in before.values(), "the value is in no file")
            with Server(folder) as server:
                _, status, error = server.ended(LASTS)
            moved = MOVED.fullmatch(error)
            holds(status == 0 and moved and moved[1] == str(turn), f"the next start ended with {status}, {error!r}")
            for name, held in before.items():
                holds((folder / "left" / str(turn) / name).read_bytes() == held, f"{name} is lost")
            for part in VALUES:
                holds(is_saved(folder, part), f"{part} is lost")
        holds({it for it in contents(folder) if not it.startswith("left/")} == set(saved), "other files are there")


def try_before() -> None:
    """The folder of a program of before: a save that cannot write all leaves parts of either format, and the next start takes up both."""
    for size in 0, len(VALUES["two.v"]), len(VALUES["one.w"]), len(VALUES["one.v"]):
        with place() as folder:
            for part, held in BEFORE.items():
                (folder / f"{part}.part").write_bytes(held)
                give(folder / f"{part}.part")
            with Server(folder, other=False) as server:
                holds("done 1 7\n" in server.ask("open one", "call get"), "the value of before is not taken up")
                server.await_rest()
                server.limit(size)
                error = server.ended(LASTS).error
            unsaved = look_for_values(folder, error)
            wanted = {part for part, held in VALUES.items() if len(held) > size}
            holds(set(unsaved) == wanted, f"{sorted(unsaved)} were not saved, and {sorted(wanted)} are longer than {size}")
            for part in unsaved:
                holds((folder / f"{part}.part").read_bytes() == BEFORE[part], f"the saved {part} was changed")
            with Server(folder) as server:
                holds("done 1 7\n" in server.ask("open one", "call get"), "the second run has not the value")
                holds(server.ended(LASTS).status == 0, "the second run failed")
            for part in VALUES:
                holds(is_saved(folder, part), f"{part} is lost after the second run")


def ask_or_not(server: Server, *lines: str) -> str:
    """What a client hears that may be refused."""
    try:
        return server.ask(*lines)
    except ConnectionError:
        return ""


def try_few_files() -> None:
    """Where too many files are open no connection can be taken: who is there goes on, and all is saved."""
    with place() as folder, Server(folder, other=False) as server:
        server.settle()
        with socket.create_connection(("127.0.0.1", server.port), LASTS) as first:
            first.sendall(b"open two\n")
            holds(first.recv(64) == b"opened two\n", "the first client is not served")
            _, most = resource.prlimit(server.child.pid, resource.RLIMIT_NOFILE)
            resource.prlimit(server.child.pid, resource.RLIMIT_NOFILE, (3, most))
            # A thread that waits for a connection has a file for it, but none for its second side.
            holds(ask_or_not(server, "open one") == "", "a client is served for which there is no file")
            resource.prlimit(server.child.pid, resource.RLIMIT_NOFILE, (most, most))
            first.sendall(b"call put 9\nquit\n")
            heard = b""
            while piece := first.recv(64):
                heard += piece
            holds(heard == b"accepted 2\ndone 2\nbye\n", f"the first client heard {heard!r}")
        holds(server.ask("open one", "call get").endswith("done 2 7\nbye\n"), "a later client is not served")
        said, status, error = server.ended(LASTS)
        holds((status, said, error) == (3, "one entries 2\ntwo entries 2\n", "read fault\n"), f"{status}, {said!r}, {error!r}")
        look_for_values(folder, error)


def try_fewer_files() -> None:
    """A server with so few files that it cannot start, cannot save, or takes no connection, until it has enough of them."""
    ends, values = set(), dict(VALUES)
    with place() as folder:
        with Server(folder, other=False) as server:
            server.settle()
            holds(server.ended(LASTS).status == 0, "the first run failed")
        for files in range(4, 25):
            with Server(folder, other=False, files=files) as server:
                heard = ask_or_not(server, "open two", f"call put {files}") if server.first else ""
                said, status, error = server.ended(LASTS)
            if "done 1\n" in heard:
                values["two.v"] = bytes.fromhex(f"02010001{files:08x}")
            holds(status in (0, 3) and error.endswith("read fault\n" if status else ""), f"{files} files: {status}, {error!r}")
            look_for_values(folder, error, values)
            for name, count in re.findall(r"(\w+) entries (\d+)\n", said):
                legal = served.run("audit", folder.parent / "objects.pp", folder / f"{name}.trace").said
                holds(legal == f"legal {count}\n", f"{files} files: {name}.trace is {legal!r}")
            ends.add((bool(server.first), heard[-10:], status))
        holds(not value_files(folder), "value files were left though all was saved")
    wanted = {(False, "", 3), (True, "", 3), (True, "one 1\nbye\n", 0)}
    holds(wanted <= ends, f"with few files came {ends}")


def lacking(folder: pathlib.Path, **more: object) -> dict[str, str]:
    """The environment of a server that is run with gate/lack.c."""
    return {"LD_PRELOAD": str(preload("lack.c", folder.parent)), **{name: str(it) for name, it in more.items()}}


def try_unlisted() -> None:
    """A folder whose listing fails, at its first read or when all that is there was read, is not taken for one in which nothing is left."""
    for fails in 1, 2:
        with place() as folder:
            with Server(folder) as server:
                server.settle()
                server.kill()
            before = contents(folder)
            holds(value_files(folder), "a server that was killed left no value file")
            with Server(folder, env=lacking(folder, LISTING=fails)) as server:
                holds(server.first == "", f"a server whose listing fails at read {fails} serves")
                said, status, error = server.ended(LASTS)
            holds((status, said) == (3, "") and error.endswith("read fault\n"), f"{status}, {said!r}, {error!r}")
            holds(contents(folder) == before, f"a listing that fails at read {fails} changed the folder")


def try_no_thread() -> None:
    """Where no thread can be made for a session whose call waits, it hears that the server is to stop all the same."""
    with place() as folder:
        (folder.parent / "objects.pp").write_text(WAITS, encoding="ascii")
        none = folder.parent / "none"
        with Server(folder, env=lacking(folder, NO_THREAD=none)) as server:
            none.touch()
            with socket.create_connection(("127.0.0.1", server.port), LASTS) as it:
                it.sendall(b"open buffer\ncall get\n")
                # Nothing is sent while a call waits, since there is no thread for that.
                it.settimeout(QUIET)
                with contextlib.suppress(TimeoutError):
                    holds(it.recv(64) is None, "a thread was made all the same")
                it.settimeout(LASTS)
                said, status, error = server.ended(LASTS)
                heard = b""
                while piece := it.recv(64):
                    heard += piece
        holds(heard == b"opened buffer\naccepted 1\ncancelled 1\n", f"the client heard {heard!r}")
        holds((status, said, error) == (0, "buffer entries 0\n", ""), f"{status}, {said!r}, {error!r}")


TRIES = (
    *(try_two_servers, try_limits, try_old_trace, try_full_disk, try_read_only, try_kill, try_before, try_few_files, try_fewer_files),
    *(try_unlisted, try_no_thread),
)


def trials() -> list[Trial]:
    return [Trial(it.__name__, it) for it in TRIES]


def main() -> int:
    if given_words():
        print(__doc__, file=sys.stderr)
        return 2
    return run("try_folders", trials())


load_tests = loads(trials)
