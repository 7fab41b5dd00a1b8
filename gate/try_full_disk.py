"""Serves objects by `pathserve keep` where no new epoch can be written: the old one goes on as long as it has numbers and
room, then calls are `no HistoryFull`, and nothing ends; and where the next file stands ready, which is used on a full disk.
And looks at the files of epochs that have ended.

usage: gate/try_full_disk [--program FILE] [WORDS OF A TITLE ..]

That the disk is full is played: a folder stands where the new journal would be written, or the system lets no file grow to
the length of one (RLIMIT_FSIZE); or it is a small tmpfs, and where none can be mounted that is said. What is to be heard is
written down here, from docs/KEEPING.md and docs/FORMATS.md.
"""
import contextlib
import pathlib
import resource
import time
from collections.abc import Iterator, Sequence

from gate.kept import Mounted, Server
from gate.talk import Talk
from gate.tried import Trial, Wrong, check, given_words, holds, loads, new_folder, run, until

SECONDS = 300
ROOM = 8_388_608
# A file that stands ready has so many bytes more than the journal, where there is room for them.
SPARE = 1_048_576
# So many seconds behind more room a new epoch may begin, on a machine that is busy too.
SOON = 30
KEPT = "{1}: no new epoch could be written, the old one goes on: {0}/{1}.journal.new: this file cannot be {2}"
STUCK, LONGER, NO_ROOM = "made: it is a folder", "written: no file may be so large", "written: the disk is full"
FULL = "no HistoryFull"
# As a text has it.
APOSTROPHE = "''"
# `come` waits for a `go` each.
SOURCE = """object cell;
  path 1:([get], put, bump) end;
  var v : array [1] of integer;
  entry function get : integer; begin get := v[0] end;
  entry procedure put(x : integer); begin v[0] := x end;
  entry procedure bump(x : integer); begin v[0] := v[0] + x end;
end;
object note;
  path 1:(put, [get]) end;
  path 60000:(go; come) end;
  var v : array [1] of text;
  entry procedure put(x : text); begin v[0] := x end;
  entry function get : text; begin get := v[0] end;
  entry procedure go; begin end;
  entry procedure come; begin end;
end;
"""


def audited(server: Server) -> list[str]:
    """The lines of an audit of its folder."""
    return server.audit()[0].splitlines()


def told(server: Server) -> list[str]:
    """What it said on standard error since it was started."""
    return server.error().splitlines()


def end(server: Server) -> None:
    check(server.end()[1], 0, "the status")


def ended(server: Server, name: str) -> dict[int, pathlib.Path]:
    """The files of the ended epochs of an object, by their numbers."""
    return {int(it.name.split(".")[1]): it for it in server.folder.glob(f"{name}.*.trace")}


class Client(Talk):
    """A connection that has opened an object, by a name where one is given, and what it was told then."""

    def __init__(self, server: Server, name: str, client: str | None = None) -> None:
        super().__init__(server)
        self.opened = self.ask(f"open {name}" + (f" as {client}" if client else ""))

    def word(self, line: str) -> str:
        """The last line of a call, without its number, or why it is refused."""
        said = self.ask(f"call {line}")
        return self.hear().split(" ")[0] if said.startswith("accepted") else said

    def counts(self, lines: Sequence[str]) -> dict[str, int]:
        """So often each last line came, and the first that was refused, of calls that are sent ahead."""
        counts: dict[str, int] = {}
        for at in range(0, len(lines), 200):
            some = lines[at : at + 200]
            self.say(*(f"call {it}" for it in some))
            for _ in some:
                said = self.hear()
                word = self.hear().split(" ")[0] if said.startswith("accepted") else said
                counts[word] = counts.get(word, 0) + 1
        return counts


@contextlib.contextmanager
def served(*names: str) -> Iterator[Server]:
    """A server that was started. Folders stand in the way of the files that would be made ready for these objects."""
    with new_folder("full-disk-") as folder:
        server = Server(folder, SOURCE, survives=True)
        for it in names:
            (server.folder / f"{it}.next.new").mkdir()
        with server:
            yield server


@contextlib.contextmanager
def mounted(size: str = "64m") -> Iterator[tuple[Server, Mounted]]:
    """A server that was not started, in a small file system; or none, where there is no such, which is said."""
    with new_folder("full-disk-") as folder, Mounted(folder / "kept", size) as disk:
        if not disk.is_there:
            print("not run: mount")
            return
        yield Server(folder, SOURCE), disk


def plain(server: Server, name: str) -> int:
    """How many bytes the lines of a journal have, without those by which it checks itself."""
    return sum(len(it) for it in server.lines(name).splitlines(keepends=True) if not it.startswith((b"front ", b"stored ")))


def is_ready(server: Server, name: str) -> bool:
    """Whether its next file stands ready, long enough for a journal like the one that goes on, all of it bytes 0."""
    ready = server.folder / f"{name}.next"
    if not ready.exists():
        return False
    text = ready.read_bytes()
    stands = (server.folder / f"{name}.journal").stat().st_size
    holds(len(text) >= stands, f"{ready.name} has {len(text)} bytes, the journal {stands}")
    holds(not text.strip(b"\0"), f"{ready.name} has other bytes than 0")
    return True


def await_ready(server: Server) -> None:
    for it in "cell", "note":
        until(lambda: is_ready(server, it), f"{it}.next does not come", SOON)


def long_calls(count: int) -> list[str]:
    """Calls of `note`, of 2 KB of lines each."""
    return [f"put '{APOSTROPHE * 990}{chr(97 + at % 26)}'" for at in range(count)]


def numbers_are_spent() -> None:
    """Where no new epoch can be written, calls go on up to the 65,536th, and then are refused; once one can, it begins."""
    with served("cell") as server:
        stuck = server.folder / "cell.journal.new"
        stuck.mkdir()
        client, other = Client(server, "cell"), Client(server, "note")
        check(client.counts(["bump 1"] * 65_536), {"done": 65_536})
        check(client.word("bump 1"), FULL)
        check(other.word("put 'a'"), "done", "the other object")
        check(told(server), [KEPT.format(server.folder, "cell", STUCK)], "standard error")
        check(audited(server), ["cell epochs 1 entries 65536 whole", "note epochs 1 entries 1 whole"], "the audit")
        # (the server tries again each second: then a file of an ended epoch is there for a moment)
        until(lambda: not ended(server, "cell"), "a file of an ended epoch is left", SOON)
        stuck.rmdir()
        counts = client.counts(["bump 1"] * 2_400)
        check(sorted(counts), ["done", FULL], "what was heard")
        if not counts[FULL] <= 1_200:
            raise Wrong(f"{counts[FULL]} calls were refused")
        check(len(told(server)), 1, "the lines of standard error")
        server.revive()
        check(Client(server, "cell").ask("call get").split(" ")[0], "accepted")
        check(sorted(ended(server, "cell")), [1, 2], "the files of ended epochs")
        done = 65_536 + counts["done"]
        check(audited(server)[0], f"cell epochs 3 entries {done + 1} whole", "the audit")


def room_is_spent() -> None:
    """Where the disk is full, calls go on as long as there is room for their lines and for those of all that wait."""
    with served("note") as server:
        front = plain(server, "note")
        limit = (server.folder / "note.journal").stat().st_size - 1
        resource.prlimit(server.child.pid, resource.RLIMIT_FSIZE, (limit, limit))
        known, waiting = Client(server, "note", "ann"), Client(server, "note", "bob")
        check((known.opened, waiting.opened), ("opened note next 1", "opened note next 1"))
        waiting.say("call #1 come")
        check(waiting.hear(), "accepted 1")
        texts = [f"put '{(chr(97 + at % 26) + APOSTROPHE) * 260}'" for at in range(12_000)]
        counts = known.counts(texts)
        check(sorted(counts), ["done", FULL], "what was heard")
        more = known.counts(["put ''"] * 100)
        check(sorted(more), ["done", FULL], "what was heard")
        names = [Client(server, "note", f"eve{at}").opened for at in range(30)]
        check(names, sorted(names, reverse=True), "what new names hear")
        check(set(names), {"opened note next 1", FULL}, "what new names hear")
        check(known.word("put ''"), FULL)
        left = ROOM + front - plain(server, "note")
        if not 0 <= left <= 220:
            raise Wrong(f"{left} bytes were left")
        check((server.folder / "note.journal.new").exists(), False, "whether a part of a new journal is there")
        check(told(server), [KEPT.format(server.folder, "note", LONGER)], "standard error")
        # Those that wait have their room.
        waiting.close()
        again = Client(server, "note", "bob")
        while again.opened == "no InUse":
            again = Client(server, "note", "bob")
        check(again.opened, "opened note next 2")
        check(again.ask("call #1 come"), "repeat cancelled 1")
        server.revive()
        check(audited(server)[1], f"note epochs 2 entries {counts['done'] + more['done']} whole", "the audit")
        check(Client(server, "note", "bob").ask("call #1 come"), "repeat cancelled 1")
        check(Client(server, "note", "eve").opened, "opened note next 1", "what a new name hears")


def room_of_those_that_wait() -> None:
    """A call that waits keeps its room: what is let go on behind a full journal has its lines there."""
    with served("note") as server:
        stuck = server.folder / "note.journal.new"
        stuck.mkdir()
        gets = [Client(server, "note") for _ in range(40)]
        for at, it in enumerate(gets):
            check(it.ask("call come"), f"accepted {at + 1}")
        busy = Client(server, "note")
        counts = busy.counts([f"put '{chr(97 + at % 26) * 1_000}'" for at in range(9_000)])
        check(sorted(counts), ["done", FULL], "what was heard")
        for it in gets:
            check(busy.word("go"), "done")
            check(it.hear().split(" ")[0], "done", "the last line of one that waited")
        stuck.rmdir()
        end(server)
        check(audited(server)[1], f"note epochs 2 entries {counts['done'] + 80} whole", "the audit")


def ended_epochs_are_kept() -> None:
    """Each epoch that has ended has a file of its own, without bytes 0; where they have too many bytes, the oldest go."""
    with served() as server:
        client = Client(server, "cell")
        check(client.counts(["bump 1"] * 130_000), {"done": 130_000})
        server.revive()
        files = ended(server, "cell")
        check(sorted(files), [1, 2, 3], "the files of ended epochs")
        for it in files.values():
            text = it.read_bytes()
            if b"\0" in text or not text.endswith(b"\n"):
                raise Wrong(f"{it.name} has more than lines")
        check(sorted(ended(server, "note")), [1], "the files of the other object")
        check(audited(server), ["cell epochs 4 entries 130000 whole", "note epochs 2 entries 0 whole"], "the audit")
        # An end in order ends an epoch more.
        end(server)
        check(audited(server), ["cell epochs 5 entries 130000 whole", "note epochs 3 entries 0 whole"], "the audit behind an end")
        left = 130_000 - files[1].read_bytes().count(b"\nend ")
        files[1].unlink()
        check(audited(server)[0], f"cell epochs 4 entries {left} whole", "the audit without the oldest")
        # A folder that has the name of the epoch that ends stays, and no epoch before it is counted.
        (server.folder / "note.000003.trace").mkdir()
        server.start()
        check(Client(server, "cell").word("get"), "done")
        end(server)
        (server.folder / "note.000003.trace").rmdir()
        check(audited(server), [f"cell epochs 6 entries {left + 1} whole", "note epochs 2 entries 0 whole"], "the audit")
        if not any(it.endswith("an epoch that ends cannot be kept") for it in told(server)):
            raise Wrong("standard error was not told")


def a_crash_within_a_change_harms_nothing() -> None:
    """A second name of the journal, and a new journal that was not finished, are left by a crash: a start takes them away."""
    with served() as server:
        client = Client(server, "cell")
        check(client.counts(["bump 1"] * 10), {"done": 10})
        server.kill()
        (server.folder / "cell.000001.trace").hardlink_to(server.folder / "cell.journal")
        (server.folder / "cell.journal.new").write_bytes(b"object cell epoch 2\n")
        server.start()
        check(Client(server, "cell").ask("call get"), "accepted 65547")
        check(audited(server)[0], "cell epochs 2 entries 11 whole", "the audit")
        check((server.folder / "cell.journal.new").exists(), False, "whether a part of a new journal is there")
        check(ended(server, "cell")[1].stat().st_nlink, 1, "how many names the ended epoch has")


def what_stands_ready_is_used() -> None:
    """On a disk without a free byte a server that was killed starts again, by what stood ready, and so does a new epoch."""
    with mounted() as found:
        server, disk = found
        server.start()
        ann = Client(server, "note", "ann")
        check((ann.opened, ann.ask("call #1 put 'a'"), ann.hear()), ("opened note next 1", "accepted 1", "done 1"))
        check(Client(server, "cell").word("put 7"), "done")
        await_ready(server)
        size = (server.folder / "note.next").stat().st_size
        check(size, (server.folder / "note.journal").stat().st_size + SPARE, "the bytes of note.next")
        for _ in range(2):
            disk.fill(0)
            check(disk.left(), 0, "the free bytes")
            server.revive()
            ann = Client(server, "note", "ann")
            check((ann.opened, ann.ask("call #1 put 'a'")), ("opened note next 2", "repeat done 1"))
            check(Client(server, "cell").ask("call get").split(" ")[0], "accepted")
            # What a start gives back is enough for the next one.
            await_ready(server)
        disk.fill(0)
        before = server.epoch("note")
        check(ann.counts(long_calls(3_500)), {"done": 3_500})
        check(server.epoch("note"), before + 1, "the epoch")
        check(told(server), [], "standard error")
        server.kill()
        check(audited(server), ["cell epochs 3 entries 3 whole", f"note epochs {before + 1} entries 3501 whole"], "the audit")


def an_end_in_order_leaves_what_stands_ready() -> None:
    """On a full disk a server that is ended in order goes on in its epoch, and starts by what stood ready."""
    with mounted() as found:
        server, disk = found
        server.start()
        check(Client(server, "note").counts(long_calls(1_500)), {"done": 1_500})
        await_ready(server)
        # For the parts there is room.
        disk.fill(1 << 16)
        end(server)
        check(told(server), [KEPT.format(server.folder, it, NO_ROOM) for it in ("cell", "note")], "standard error")
        check([server.epoch(it) for it in ("cell", "note")], [1, 1], "the epochs")
        holds(is_ready(server, "cell") and is_ready(server, "note"), "what stood ready is gone")
        server.start()
        check(audited(server), ["cell epochs 2 entries 0 whole", "note epochs 2 entries 1500 whole"], "the audit")


def room_is_enough() -> None:
    """A full disk where nothing stands ready: behind more room an epoch begins within seconds, and nobody has to call."""
    with mounted() as found:
        server, disk = found
        server.start()
        await_ready(server)
        disk.fill(0)
        client = Client(server, "note")
        counts = client.counts(long_calls(9_000))
        check(sorted(counts), ["done", FULL], "what was heard")
        check(told(server), [KEPT.format(server.folder, "note", NO_ROOM)], "standard error")
        before = server.epoch("note")
        check(before, 2, "the epoch")
        # It is tried again each second, which is said once.
        time.sleep(2.5)
        check((told(server), server.epoch("note")), ([KEPT.format(server.folder, "note", NO_ROOM)], before), "what is told, and the epoch")
        disk.empty()
        until(lambda: server.epoch("note") == before + 1, "no epoch begins", SOON)
        check(client.counts(long_calls(100)), {"done": 100})
        await_ready(server)
        end(server)
        check(audited(server)[1], f"note epochs 3 entries {counts['done'] + 100} whole", "the audit")


def what_was_left_is_looked_at() -> None:
    """A next file of before is used where it has bytes 0 alone, and made again where it has others, or is a link or a folder;
    one that was not whole is removed. Nothing is written through a link."""
    with new_folder("full-disk-") as folder:
        server = Server(folder, SOURCE)
        outside = folder / "outside"
        outside.write_text("as it was", encoding="ascii")
        for name in "cell.journal.new", "cell.next", "cell.next.new", "note.journal.new", "note.next", "note.next.new":
            (server.folder / name).symlink_to(outside)
        server.start()
        check(Client(server, "cell").word("put 7"), "done")
        await_ready(server)
        check(outside.read_text(encoding="ascii"), "as it was", "what the links name")
        server.kill()
        # A front that a loss of power left in it, behind some bytes 0.
        with (server.folder / "cell.next").open("r+b") as file:
            file.seek(5_000_000)
            file.write(b"end 9 done\n")
        (server.folder / "note.next").unlink()
        (server.folder / "note.next").mkdir()
        (server.folder / "cell.next.new").write_bytes(bytes(1_000))
        server.start()
        check(Client(server, "cell").ask("call get").split(" ")[0], "accepted")
        until(lambda: is_ready(server, "cell"), "cell.next does not come", SOON)
        check((server.folder / "cell.next.new").exists(), False, "whether cell.next.new is there")
        (server.folder / "note.next").rmdir()
        await_ready(server)
        end(server)
        check(audited(server), ["cell epochs 3 entries 2 whole", "note epochs 3 entries 0 whole"], "the audit")


def a_foreign_trace_is_kept() -> None:
    """A file that has the name of the epoch that ends, and tells something else, stays as it is; standard error says so."""
    with served() as server:
        other = server.folder / "note.000001.trace"
        other.write_text("object note epoch 1\nof another history\n", encoding="ascii")
        before = other.read_bytes()
        check(Client(server, "note").counts(long_calls(3_500)), {"done": 3_500})
        check(server.epoch("note"), 2, "the epoch")
        check(other.read_bytes(), before, "the file of another history")
        check([it.rpartition(": ")[2] for it in told(server)], ["an epoch that ends cannot be kept"], "standard error")


def a_journal_of_another_time_is_refused() -> None:
    """Where the file of the epoch that the journal is in, or of a later one, tells something else than it does, or is cut to
    just its lines, a start is refused, and nothing is changed; what a crash leaves is taken: a second name, and the same lines
    with bytes 0 behind."""
    with served() as server:
        check(Client(server, "note").word("put 'a'"), "done")
        server.kill()
        old = (server.folder / "note.journal").read_bytes()
        server.start()
        check(Client(server, "note").word("put 'b'"), "done")
        server.revive()
        server.kill()
        # The journal of epoch 1 beside the traces of epochs 1 and 2; the first has its lines.
        (server.folder / "note.journal").write_bytes(old)
        first, second = (server.folder / f"note.{at:06}.trace" for at in (1, 2))
        check(first.read_bytes(), old.rstrip(b"\0"), "the trace of epoch 1")
        is_of_another_time(server, first)
        first.unlink()
        is_of_another_time(server, second)
        second.unlink()
        first.write_bytes(old.rstrip(b"\0") + b"name s9 eve\n")
        is_of_another_time(server, first)
        first.write_bytes(old.rstrip(b"\0"))
        is_of_another_time(server, first)
        first.write_bytes(old.rstrip(b"\0") + b"\0")
        server.start()
        check(audited(server)[1], "note epochs 2 entries 1 whole", "the audit")
        server.kill()
        first.unlink()
        (server.folder / "note.journal").write_bytes(old)
        first.hardlink_to(server.folder / "note.journal")
        server.start()
        check(audited(server)[1], "note epochs 2 entries 1 whole", "the audit of a second name")


def is_of_another_time(server: Server, trace: pathlib.Path) -> None:
    """A start is refused since this file tells of a later time than the journal, and changes nothing."""
    check(server.refused_in_vain()[:2], (f"{trace.name} tells another history\n", 1), "what it says, and its status")


def a_start_that_fails_half_way() -> None:
    """Where the journal of the second object cannot be made, a first start leaves none of the first one: the same command
    works, also with `--past`."""
    with new_folder("full-disk-") as folder:
        server = Server(folder, SOURCE, "--past", "cell:bump:1", "--past", "note:put:1")
        stuck = server.folder / "note.journal.new"
        stuck.mkdir()
        check(server.refused()[1], 3, "the status")
        left = sorted(it.name for it in server.folder.iterdir())
        check(left, ["lock", "note.journal.new"], "what is left in the folder")
        stuck.rmdir()
        server.start()
        end(server)
        check(audited(server), ["cell epochs 2 entries 0 whole", "note epochs 2 entries 0 whole"], "the audit")


TRIALS = (
    numbers_are_spent,
    room_is_spent,
    room_of_those_that_wait,
    ended_epochs_are_kept,
    a_crash_within_a_change_harms_nothing,
    what_stands_ready_is_used,
    an_end_in_order_leaves_what_stands_ready,
    room_is_enough,
    what_was_left_is_looked_at,
    a_foreign_trace_is_kept,
    a_journal_of_another_time_is_refused,
    a_start_that_fails_half_way,
)


def trials() -> list[Trial]:
    return [Trial(it.__doc__ or "", it) for it in TRIALS]


def main() -> int:
    return run("try_full_disk", trials(), [" ".join(given_words())])


load_tests = loads(trials)
