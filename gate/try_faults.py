"""Has `pathserve keep`, and `audit` of its folder, meet files that cannot be read, made, written or stored, and looks at
what standard error gets: which file, and why, before `read fault` or `write fault`; and what is left of a start that was
refused.

usage: gate/try_faults [--program FILE] [WORDS OF A TITLE ..]

Something else stands where a file belongs (a folder, a pipe, a link), rights are lacking (as nobody, where root runs
this), standard output takes nothing, and calls of the system fail while it runs (gate/fail.c; where there is no `cc`
that is not run). The lines are written down here, from docs/FORMATS.md.
"""
import errno
import os
import pathlib
import re
from collections.abc import Callable

from gate import kept, served
from gate.kept import Server, contents
from gate.talk import Talk
from gate.tried import Wrong, check, holds, lacks, preload

NOBODY = 65534
# No start may wait for ever: this is a long time on a machine that is busy.
SOON = 30
SOURCE = """object cell;
  path 1:(put, [get]) end;
  var v : array [1] of integer;
  entry procedure put(x : integer); begin v[0] := x end;
  entry function get : integer; begin get := v[0] end;
end;
object note;
  path 1:(say) end;
  entry function say(x : text) : text; begin say := x end;
end;
"""
READ, WRITE = "read fault", "write fault"
# What was only made in part for the next epoch counts for nothing: a start removes it.
IN_PART = ".next.new"


def is_refused(server: Server, line: str, fault: str, what: str, *ahead: str) -> None:
    """A start ends with status 3, this line and this fault, and leaves the folder as it was. DIR is the folder, and `ahead`
    what is told before."""
    said, status, error = server.refused_in_vain(SOON, IN_PART)
    check((said, status), ("", 3), f"{what}: what it said, and its status")
    lines = [it.replace("DIR", str(server.folder)) for it in (*ahead, line)]
    check(error.splitlines(), [*lines, fault], f"{what}: standard error")


def kept_before(folder: pathlib.Path) -> Server:
    """A server of a folder in which something is kept, which does not run."""
    server = Server(folder, SOURCE).start()
    check(server.replies("cell", "put 7"), ["done"])
    server.kill()
    return server


def audited(server: Server) -> tuple[str, int, list[str]]:
    said, status, error = served.run("audit", server.file, server.folder, seconds=SOON)
    return said, status, error.splitlines()


# What stands in the place of a file.


# What makes something else in the place of a file, and what is told of it.
OTHERS: tuple[tuple[Callable[[pathlib.Path], None], str], ...] = ((pathlib.Path.mkdir, "it is a folder"), (os.mkfifo, "it is no file"))


def something_else_is_in_the_place_of_a_journal(folder: pathlib.Path) -> None:
    """A folder, or a pipe, for which nothing waits, is no journal, to `keep` and to `audit`."""
    server = kept_before(folder)
    journal = server.folder / "cell.journal"
    text = journal.read_bytes()
    for make, cause in OTHERS:
        journal.unlink()
        make(journal)
        line = f"DIR/cell.journal: this file cannot be read: {cause}"
        is_refused(server, line, READ, cause)
        check(audited(server), ("", 3, [line.replace("DIR", str(server.folder)), READ]), f"{cause}: an audit")
        if journal.is_dir():
            journal.rmdir()
            journal.touch()
    journal.unlink()
    journal.write_bytes(text)
    server.start()
    check(server.replies("cell", "get"), ["done 7"])
    server.end()


def a_pipe_is_in_the_place_of_an_ended_epoch(folder: pathlib.Path) -> None:
    """An audit does not wait for it."""
    server = kept_before(folder)
    server.start()
    server.end()
    trace = server.folder / "cell.000001.trace"
    trace.unlink()
    os.mkfifo(trace)
    line = f"{trace}: this file cannot be read: it is no file"
    check(audited(server), ("", 3, [line, READ]), "an audit")


def something_else_is_in_the_place_of_a_part(folder: pathlib.Path) -> None:
    """An object that begins with its parts says which of them cannot be read."""
    server = Server(folder, SOURCE)
    part = server.folder / "cell.v.part"
    for make, cause in OTHERS:
        make(part)
        is_refused(server, f"DIR/cell.v.part: this file cannot be read: {cause}", READ, cause)
        if part.is_dir():
            part.rmdir()
    part.unlink()
    server.start()
    server.end()


def something_else_is_in_the_place_of_a_new_journal(folder: pathlib.Path) -> None:
    """A folder there, at a first start and at a later one, is told; nothing is left of an object that had begun."""
    for name in ("cell", "note"):
        room = folder / name
        room.mkdir()
        server = Server(room, SOURCE)
        for turn in ("a first start", "a later one"):
            stuck = server.folder / f"{name}.journal.new"
            stuck.mkdir()
            said, status, error = server.refused(SOON)
            check((said, status), ("", 3), f"{turn}: what it said, and its status")
            is_first = turn == "a first start"
            line = f"{stuck}: this file cannot be {'read' if is_first else 'made'}: it is a folder"
            check(error.splitlines()[-2:], [line, READ if is_first else WRITE], f"{turn}: standard error")
            if is_first:
                check(list(contents(server.folder, IN_PART)), [stuck.name], "what is left of a first start")
            stuck.rmdir()
            server.start()
            server.end()
        server.is_whole("cell", "note")


def links_are_not_followed(folder: pathlib.Path) -> None:
    """What is made in the folder is a file of its own: where a link has its name, what it leads to stays."""
    server = Server(folder, SOURCE, "--status", "1")
    away = folder / "away"
    for turn in range(2):
        away.write_text("mine", encoding="ascii")
        for name in ("cell.journal.new", "note.journal.new", "status.prom.new", "status.prom"):
            (server.folder / name).unlink(missing_ok=True)
            (server.folder / name).symlink_to(away)
        server.start()
        check(server.replies("cell", f"put {turn}"), ["done"])
        (server.kill if turn else server.end)()
        check(away.read_text(encoding="ascii"), "mine", "what the links lead to")
        holds(not (server.folder / "cell.journal").is_symlink(), "the journal is a link")


def something_else_is_in_the_place_of_the_lock(folder: pathlib.Path) -> None:
    """A folder, or a pipe, for which nothing waits, is no file to be locked."""
    server = kept_before(folder)
    lock = server.folder / "lock"
    for make, cause in OTHERS:
        lock.unlink()
        make(lock)
        is_refused(server, f"DIR/lock: this file cannot be opened: {cause}", WRITE, cause)
        if lock.is_dir():
            lock.rmdir()
            lock.touch()


# Rights.


def as_nobody(server: Server, *paths: pathlib.Path) -> None:
    """The server is one of nobody, who has these files, where root runs this."""
    if os.geteuid() == 0:
        server.user = NOBODY
        server.room.chmod(0o755)
        for it in (server.folder, *paths):
            os.chown(it, NOBODY, NOBODY)


def rights_are_lacking(folder: pathlib.Path) -> None:
    """A journal that cannot be read, or only read, and a folder in which nothing can be made."""
    server = kept_before(folder)
    journal = server.folder / "cell.journal"
    as_nobody(server, *server.folder.iterdir())
    journal.chmod(0)
    denied = "there is no permission"
    is_refused(server, f"DIR/cell.journal: this file cannot be read: {denied}", READ, "mode 0000")
    journal.chmod(0o444)
    is_refused(server, f"DIR/cell.journal: this file cannot be opened: {denied}", WRITE, "mode 0444")
    journal.chmod(0o644)
    if os.geteuid() == 0:
        os.chown(journal, 0, 0)
        is_refused(server, f"DIR/cell.journal: this file cannot be opened: {denied}", WRITE, "a journal of root")
        os.chown(journal, NOBODY, NOBODY)
    empty = folder / "empty"
    empty.mkdir()
    other = Server(empty, SOURCE)
    as_nobody(other)
    other.folder.chmod(0o555)
    is_refused(other, f"DIR/lock: this file cannot be made: {denied}", WRITE, "a folder of mode 0555")
    lock = other.folder / "lock"
    other.folder.chmod(0o700)
    lock.touch()
    lock.chmod(0o400)
    if os.geteuid() == 0:
        os.chown(lock, NOBODY, NOBODY)
    is_refused(other, f"DIR/lock: this file cannot be opened: {denied}", WRITE, "a lock that cannot be written")
    lock.chmod(0o600)
    other.folder.chmod(0o500)
    texts = [f"DIR/{it}.source.new: this file cannot be written: {denied}" for it in ("cell", "note")]
    is_refused(other, f"DIR/cell.journal.new: this file cannot be made: {denied}", WRITE, "a folder of mode 0500", *texts)
    other.folder.chmod(0o700)
    server.start()
    check(server.replies("cell", "get"), ["done 7"])
    server.end()


# Standard output.


def standard_output_takes_nothing(folder: pathlib.Path) -> None:
    """What could not be said is told: of a start, and of a refused one."""
    server = Server(folder, SOURCE)
    for source, named in ((SOURCE, "a start"), (SOURCE.replace("put,", "put;"), "a refused object"), ("object", "no object"),
                          (SOURCE.replace("  entry", "  hold none until get;\n  entry", 1), "a bad hold")):
        server.file.write_text(source, encoding="ascii")
        with open("/dev/full", "wb") as full:
            words = (server.file, server.folder, server.room / "place", "--no-explain")
            _, status, error = served.run("keep", *words, seconds=SOON, stdout=full)
        check(status, 3, f"{named}: its status")
        found = error.splitlines()[-2:]
        holds(re.fullmatch("standard output cannot be written(: the disk is full)?", found[0]), f"{named}: standard error is {found}")
        check(found[1], WRITE, f"{named}: the last line")


# Calls that fail.


class Failing(Server):
    """A server of which the calls of one kind fail from one number on, and that has a log."""

    def fails(self, library: pathlib.Path, call: str, number: int, error: int, rest: bool = True) -> None:
        self.env = {"LD_PRELOAD": str(library), "LOSE_FROM": str(self.folder), "FAIL_CALL": call,
                    "FAIL_NUMBER": str(number), "FAIL_ERRNO": str(error), **({"FAIL_REST": "1"} if rest else {})}


# What fails while it runs, the words of the log, what the line says of it, and the causes of errors.
RUNNING = (("write", "write", "this file cannot be written"), ("seek", "write", "this file cannot be written"),
           ("sync", "sync", "this file cannot be stored"))
CAUSES = {errno.ENOSPC: "the disk is full", errno.EIO: "the disk failed", errno.EDQUOT: "the quota is used up",
          errno.EROFS: "the disk takes no changes", errno.EFBIG: "no file may be so large", errno.EPERM: "there is no permission"}


def first_behind_a_start(server: Failing, library: pathlib.Path, call: str) -> int:
    """The first call of a kind that is not one of a start."""
    low, high = 0, 64
    while high - low > 1:
        number = (low + high) // 2
        server.fails(library, call, number, errno.EIO)
        server.begin()
        begun = server.line()
        server.kill()
        low, high = (low, number) if begun else (number, high)
    holds(high < 64, f"no start makes fewer than 64 calls of {call}")
    return high


def calls_until_it_ends(server: Server) -> int:
    """How many calls are answered until there is no answer more."""
    with Talk(server, "open cell", "opened cell") as it:
        for number in range(1, 1_000):
            it.say(f"call put {number}")
            line = it.hear()
            line = it.hear() if line.startswith("accepted ") else line
            if not line.startswith("done "):
                return number - 1
    raise Wrong("it does not end")


def a_journal_fails_while_it_runs(folder: pathlib.Path) -> None:
    """Standard error gets the file and the cause, the log the cause too; what was answered is there."""
    if lacks("cc"):
        return
    library = preload("fail.c", folder)
    for call, work, said in RUNNING:
        server = Failing(folder, SOURCE[: SOURCE.index("object note")], "--log", "text", kept=call)
        first = first_behind_a_start(server, library, call)
        for error, cause in list(CAUSES.items())[: None if call == "sync" else 1]:
            server.fails(library, call, first + 2, error)
            server.start()
            answered = calls_until_it_ends(server)
            check(server.awaited(), 3, "the status")
            server.close()
            lines = server.error().splitlines()
            told = f"{server.folder}/cell.journal: {said}: {cause}"
            check([it for it in lines if it in (told, WRITE)], [told, WRITE], f"standard error {lines}")
            logged = f'ERROR journal-failed object="cell" work="{work}" cause="{cause}"'
            holds(any(it.endswith(logged) for it in lines), f"the log has no {logged!r}: {lines}")
            server.env = {}
            server.start()
            found = server.replies("cell", "get")[0]
            holds(not answered or found in (f"done {answered}", f"done {answered + 1}"), f"{answered} were answered, and there is {found!r}")
            server.kill()


def waiting_fails(folder: pathlib.Path) -> None:
    """A start to which the system gives nothing by which connections are waited for says so, and leaves nothing."""
    if lacks("cc"):
        return
    server = Failing(folder, SOURCE)
    library = preload("fail.c", folder)
    for call, error, cause in (("poll", errno.EMFILE, ": there are too many open files"), ("watch", errno.ENOSPC, ": a limit of its user is reached")):
        server.fails(library, call, 1, error)
        is_refused(server, f"connections cannot be waited for{cause}", READ, call)


TRIALS: tuple[Callable[[pathlib.Path], None], ...] = (
    something_else_is_in_the_place_of_a_journal,
    a_pipe_is_in_the_place_of_an_ended_epoch,
    something_else_is_in_the_place_of_a_part,
    something_else_is_in_the_place_of_a_new_journal,
    links_are_not_followed,
    something_else_is_in_the_place_of_the_lock,
    rights_are_lacking,
    standard_output_takes_nothing,
    a_journal_fails_while_it_runs,
    waiting_fails,
)


main, load_tests = kept.part("try_faults", TRIALS)
