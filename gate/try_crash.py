"""Kills `pathserve keep` by `kill -9` at drawn moments, under clients with names, or takes its power, and looks what is
there afterwards; and tries what a start does with a folder.

usage: gate/try_crash [--program FILE] [--kills N] [--seed N] [WORDS OF A TITLE ..]

64 clients call three objects: a counter that tells each number once, a ledger of transfers, and a buffer whose paths
count what was put and got. Each call has a key; a client says up to 16 calls ahead, hangs up now and then, and where
its connection breaks it comes back by its name and asks again for what has no answer. Some kills come within a start.
After N kills (10 where no number is given) no answered call is lost, none was done twice, each has the reply that it
has in the order of the numbers of calls, no number was told twice, what is got comes in the order in which it was put,
and `pathserve audit FILE DIR` finds the folder whole.

Half as often a loss of power is worked out (gate/fail.c, gate/losing.py): what no sync has stored may be gone, also in
part. With `--sync always` nothing is lost then; with `--sync 100` no more than what was answered in the last 100 ms,
and what is there has no gap.
"""
import pathlib
import random
import re
import shutil
import socket
import time
from collections.abc import Callable, Sequence
from typing import Any

from gate import crowd, kept, losing, served, sums
from gate.crowd import NAMES, SOURCE, Crowd, Way, ended, filled, killed, source_of
from gate.kept import Mounted, contents
from gate.served import free_port, resets
from gate.talk import Talk
from gate.tried import Wrong, check, holds, preload

CLIENTS = 64
# FILE with an operation more.
SEEN = "  entry function seen : integer; begin seen := v[0] end;\n"
MORE = SOURCE.replace("[read]", "[read, seen]").replace("end;\nobject ledger", f"{SEEN}end;\nobject ledger")
# What may be lost with `--sync 100`, and how much later an answer may be noted on a busy machine, in seconds.
LOSSES, LATE = 0.1, 0.15


class Server(kept.Server):
    def __init__(self, folder: pathlib.Path, *words: str, source: str = SOURCE, **more: Any) -> None:
        super().__init__(folder, source, *words, **more)


def is_whole(server: Server) -> None:
    server.is_whole(*NAMES)


def is_whole_but_for_the_counter(server: Server) -> None:
    """What an old FILE did with an object cannot be audited by another one."""
    found = server.audit()[0].splitlines()
    holds(re.fullmatch(r"counter epoch \d+ was changed", found[0]), f"the audit of the counter is {found[0]!r}")
    check([it.split(" ")[0] for it in found[1:] if it.endswith(" whole")], list(NAMES[1:]), "what is whole")


def judged(server: Server, ways: Sequence[Way], draw: random.Random, what: str, may_lose: float | None = None,
           looks: Callable[[Server], None] = is_whole) -> None:
    """Has a server end under a crowd in each of these ways, one after the other, and judges what all were answered,
    and its folder, before an end in order and behind it."""
    server.start()
    crowd.fill_ledger(server)
    clients = Crowd(server, CLIENTS, draw, may_lose)
    clients.live(ways)
    calls = crowd.are_right(server, clients)
    looks(server)
    check(server.end()[1], 0, "the status")
    looks(server)
    print(f"{len(ways)} {what}, {calls} calls")


def answered_calls_are_kept(folder: pathlib.Path, kills: int, seed: int) -> None:
    """No answered call is lost, and none is done twice."""
    judged(Server(folder), [killed()] * kills, random.Random(seed), "kills")


def answered_calls_are_kept_where_syncs_are_late(folder: pathlib.Path, kills: int, seed: int) -> None:
    """The same with `--sync 100`: what is killed is the server, and not the machine."""
    judged(Server(folder, "--sync", "100", at_path=True), [killed()] * kills, random.Random(seed + 1), "kills")


def answered_calls_are_kept_over_ends_in_order_and_other_files(folder: pathlib.Path, kills: int, seed: int) -> None:
    """Also where some starts have another FILE, in which an object has one operation more."""
    draw, ways = random.Random(seed + 3), [killed(), ended(), ended(MORE), killed(), ended(SOURCE)]
    ways = [ways[it % len(ways)] for it in range(max(kills, 3))]
    judged(Server(folder, "--sync", "100", at_path=True), ways, draw, "kills, ends and other FILEs", looks=is_whole_but_for_the_counter)


def answered_calls_are_kept_on_a_full_disk(folder: pathlib.Path, kills: int, seed: int) -> None:
    """A small one, which is filled again and again, and in the end has room for the parts."""
    with Mounted(folder / "kept", "96m") as disk:
        if not disk.is_there:
            print("not run: mount")
            return

        def emptied(crowd: Crowd) -> None:
            disk.empty()

        judged(Server(folder, at_path=True), [*[filled(disk)] * kills, emptied], random.Random(seed + 4), "kills on a full disk")


def powered_down(folder: pathlib.Path, kills: int, seed: int, *words: str, may_lose: float | None = None) -> None:
    library, log = preload("fail.c", folder), folder / "log"
    env = {"LD_PRELOAD": str(library), "LOSE_FROM": str(folder / "kept"), "LOSE_LOG": str(log)}
    server, draw = Server(folder, *words, env=env, at_path=True), random.Random(seed + 2)
    disk = [losing.Disk(server.folder)]

    def lose() -> None:
        disk[0].lose(log, draw)
        disk[0] = losing.Disk(server.folder)

    judged(server, [killed(lose)] * kills, draw, "losses of power", may_lose)


def answered_calls_outlive_a_loss_of_power(folder: pathlib.Path, kills: int, seed: int) -> None:
    """What was answered was stored: nothing is lost where what no sync has stored is."""
    if shutil.which("cc"):
        powered_down(folder, (kills + 1) // 2, seed)


def a_loss_of_power_takes_what_was_answered_last(folder: pathlib.Path, kills: int, seed: int) -> None:
    """With `--sync 100` no more is lost than what was answered in the last 100 ms."""
    if shutil.which("cc"):
        powered_down(folder, (kills + 1) // 2, seed, "--sync", "100", may_lose=LOSSES + LATE)


def what_was_answered_is_there_at_once(folder: pathlib.Path, **_: object) -> None:
    """After an answer the next one to start has what was put, its number, its key and its paths' counts."""
    server = Server(folder).start()
    check(server.says("open buffer as ann", "call put 'a'", "call put 'b'")[:5],
          ["opened buffer next 1", "accepted 1", "done 1", "accepted 2", "done 2"])
    server.revive()
    found = server.says("open buffer as ann", "call #2 put 'b'", "call #2 put 'c'", "call get")
    check(found[:3], ["opened buffer next 3", "repeat done 2", "no KeyReused"])
    check(found[4].split(" ")[2], "'a'")
    server.end()


def a_second_server_is_refused(folder: pathlib.Path, **_: object) -> None:
    """While a folder is kept nobody else keeps or serves it; afterwards `serve` refuses it, and nothing is changed."""
    server = Server(folder).start()
    server.says("open counter", "call add 7")
    check(server.refused()[1], 3, "the status of a second server")
    check(server.end(), ("counter entries 1\nledger entries 0\nbuffer entries 0\necho entries 0\n", 0))
    before = contents(server.folder)
    found = served.run("serve", server.file, server.folder, free_port())[:2]
    check(found, (f"{server.folder} is kept: use pathserve keep\n", 1))
    check(contents(server.folder) == before, True, "that the folder is as it was")


def a_journal_that_was_changed_is_refused(folder: pathlib.Path, **_: object) -> None:
    """A journal in which a byte is spoilt is refused, with its line, and nothing is changed; also where its check
    lines are right, and where it has none."""
    server = Server(folder).start()
    server.says("open counter", "call add 7")
    server.kill()
    journal = server.folder / "counter.journal"
    text = journal.read_bytes()
    spoilt = text.replace(b"end 1 done", b"end 1 dune")
    for it in (spoilt, sums.summed(spoilt), sums.as_before(spoilt)):
        journal.write_bytes(it)
        said, status = server.refused()[:2]
        if status != 1 or not re.fullmatch(r"counter\.journal line [0-9]+ bad\n", said):
            raise Wrong(f"status {status}: {said!r}")
        check(journal.read_bytes() == it, True, "that the journal is as it was")
    journal.write_bytes(text)
    server.start()
    check(server.says("open counter", "call read")[-2].split(" ")[2], "7")
    server.end()


def a_folder_of_a_program_before_goes_on(folder: pathlib.Path, **_: object) -> None:
    """Journals without a format, and without check lines, are taken: values, numbers, keys, replies. The next epoch has
    both."""
    server = Server(folder)
    for turn in range(3):
        server.start()
        found = server.says("open buffer as ann", *(f"call #{key} put '{key}'" for key in range(1, turn + 2)))
        check(found[0], f"opened buffer next {turn + 1}")
        check([it.split(" ")[0] for it in found[1:-1]], ["repeat"] * turn + ["accepted", "done"], f"what ann hears in turn {turn}")
        found = server.says("open counter", "call add 1", "call read")
        check(found[-2].split(" ")[2], str(turn + 1), "what is read")
        server.kill()
        server.is_whole(*NAMES)
        for name in NAMES:
            journal = server.folder / f"{name}.journal"
            sums.are_right(journal.read_bytes())
            journal.write_bytes(sums.as_before(journal.read_bytes()))
        server.is_whole(*NAMES)
    server.start()
    found = server.says("open buffer", *["call get"] * 3)
    check([it.split(" ")[2] for it in found if it.startswith("done ")], ["'1'", "'2'", "'3'"], "what is got")
    server.ends(*NAMES)


def another_object_does_not_go_on(folder: pathlib.Path, **_: object) -> None:
    """Behind a crash an object that was changed is refused; behind an ordered end it goes on."""
    server = Server(folder).start()
    server.says("open counter", "call add 7")
    server.kill()
    changed = SOURCE.replace("v[0] := v[0] + x", "v[0] := x")
    server.file.write_text(changed, encoding="ascii")
    check(server.refused()[:2], ("object counter was changed: start the old FILE once\n", 1))
    server.file.write_text(SOURCE, encoding="ascii")
    server.start()
    server.kill()
    server.file.write_text(changed, encoding="ascii")
    server.start()
    check(server.says("open counter", "call read")[-2].split(" ")[2], "7")
    server.end()


def parts_of_before_are_taken(folder: pathlib.Path, **_: object) -> None:
    """A folder of `serve` gives the values of its parts; but where a path has a `;` nobody knows what it counted."""
    server = Server(folder, source=source_of("counter", "ledger"))
    (server.folder / "counter.v.part").write_bytes(bytes([2, 1, 0, 1, 0, 0, 0, 9]))
    server.start()
    check(server.says("open counter", "call read")[-2], "done 1 9")
    server.end()
    other = folder / "other"
    other.mkdir()
    server = Server(other)
    (server.folder / "buffer.b.part").write_bytes(bytes([2, 4, 0, 0]))
    check(server.refused()[:2], ("object buffer past is not known\n", 1))


def calls_wait_and_are_cancelled(folder: pathlib.Path, **_: object) -> None:
    """A call waits until its paths admit it, over starts of epochs and cancels; lines behind it are held, but for
    `cancel`."""
    server = Server(folder).start()
    ann, bob = Talk(server), Talk(server)
    ann.say("open buffer as ann", "call get", "call size")
    ann.hears("opened buffer next 1", "accepted 1")
    bob.say("open buffer", "call put 'x'")
    bob.hears("opened buffer", "accepted 2", "done 2")
    ann.hears("done 1 'x'", "accepted 3", "done 3 0")
    ann.say("call #3 get", "cancel 2", "cancel 4", "call #3 get", "cancel 9")
    ann.hears("accepted 4", "cancel 2 Ended", "cancel 4 Cancelled", "cancelled 4", "repeat cancelled 4")
    ann.hears("cancel 9 Unknown")
    bob.say("call get")
    bob.hears("accepted 5")
    bob.close()
    ann.say("call get", "call put 'z'")
    ann.hears("accepted 6")
    ann.close()
    time.sleep(0.2)
    # A call that was sent behind one that waits is not done.
    found = server.says("open buffer as ann", "call #4 get", "call size")[:2]
    check(found, ["opened buffer next 5", "repeat cancelled 6"])
    server.revive()
    check(server.says("open buffer as ann", "call #4 get")[:2], ["opened buffer next 6", "repeat cancelled 6"])
    server.end()


def many_lines_are_held(folder: pathlib.Path, **_: object) -> None:
    """Of who sends on behind a waiting call 64 KiB are held, and no more is read; all of it is done once the call has
    ended."""
    server = Server(folder).start()
    ann, bob, calls = Talk(server), Talk(server), 20_000
    ann.say("open buffer", "call get")
    ann.hears("opened buffer", "accepted 1")
    saying = ann.shout("call size", calls)
    time.sleep(0.5)
    bob.say("open buffer", "call put 'x'")
    bob.hears("opened buffer", "accepted 2", "done 2")
    ann.hears("done 1 'x'")
    for number in range(3, calls + 3):
        ann.hears(f"accepted {number}", f"done {number} 0")
    saying.join()
    ann.close()
    bob.close()
    server.end()


def an_epoch_follows_another(folder: pathlib.Path, **_: object) -> None:
    """After 60,000 calls the journal begins anew, and nothing else changes; who does not read is not read."""
    server = Server(folder, "--sync", "50").start()
    calls = 61_000
    eve = Talk(server)
    eve.say("open counter as eve")
    eve.hears("opened counter next 1")
    saying = eve.shout("call add 1", calls)
    time.sleep(1)
    for number in range(1, calls + 1):
        eve.hears(f"accepted {number}", f"done {number}")
    saying.join()
    eve.close()
    time.sleep(0.3)
    server.kill()
    check(server.epoch("counter"), 2, "the epoch of the journal")
    server.start()
    found = server.says("open counter as eve", f"call #{calls} add 1", "call read")[:2]
    check(found, [f"opened counter next {calls + 1}", f"repeat done {calls}"])
    check(server.says("open counter", "call read")[-2].split(" ")[2], str(calls))
    server.end()
    check(server.audit()[1], 0, "the audit")


def a_call_waits_over_an_epoch(folder: pathlib.Path, **_: object) -> None:
    """Calls that wait when a journal begins anew keep their numbers: they are cancelled by them, done, and known behind
    a start."""
    source = """object mixed;
  path 1:(put; get) end;
  path 1:(put, get, [say]) end;
  var b : queue of text;
  entry procedure put(x : text); begin append(b, x) end;
  entry function get : text; begin get := first(b); take(b) end;
  entry function say(x : text) : text; begin say := x end;
end;
"""
    server = Server(folder, source=source, at_path=True).start()
    ann = Talk(server, "open mixed as ann", "opened mixed next 1")
    bob, cid = Talk(server, "open mixed", "opened mixed"), Talk(server, "open mixed as cid", "opened mixed next 1")
    for at, it in enumerate((ann, bob, cid), 1):
        it.say("call get", "call say 'held'")
        it.hears(f"accepted {at}")

    with Talk(server, "open mixed", "opened mixed") as it:
        for turn in range(2):
            begun = server.epoch("mixed")
            while server.epoch("mixed") == begun:
                check(it.calls(*[f"say '{crowd.LONG}'"] * 100), [f"done '{crowd.LONG}'"] * 100)
        for line, what in (("cancel 0", "Unknown"), ("cancel 2", "Cancelled"), ("cancel 3", "Cancelled")):
            it.say(line)
            it.hears(f"{line} {what}")
        it.say("cancel 2")
        it.hears("cancel 2 Ended")
    bob.hears("cancelled 2")
    cid.hears("cancelled 3")
    holds(bob.hear().startswith("accepted ") and bob.hear().endswith(" 'held'"), "what was held is not done")
    check(server.replies("mixed", "put 'x'"), ["done"])
    ann.hears("done 1 'x'")
    holds(ann.hear().startswith("accepted ") and ann.hear().endswith(" 'held'"), "what was held is not done")
    server.revive()
    check(server.says("open mixed as ann", "call #1 get")[:2], ["opened mixed next 3", "repeat done 1 'x'"])
    check(server.says("open mixed as cid", "call #1 get")[:2], ["opened mixed next 3", "repeat cancelled 3"])
    server.end()
    server.is_whole("mixed")


def who_does_not_read_is_not_read(folder: pathlib.Path, **_: object) -> None:
    """Of a client that takes no answers no more is read: others are served, memory is bounded, and its answers are
    whole."""
    server = Server(folder, "--sync", "1000").start()
    calls, text = 12_000, "x" * 1000
    deaf, gone = Talk(server), Talk(server)
    for talk in (deaf, gone):
        talk.say("open echo")
        talk.hears("opened echo")
    saying = [it.shout(f"call say '{text}'", calls) for it in (deaf, gone)]
    time.sleep(1)
    check(server.says("open counter", "call add 1")[-2], "done 1")
    memory = server.memory("VmHWM")
    holds(memory <= 100_000, f"the server has {memory} KiB")
    # One of them breaks off.
    resets(gone.socket)
    gone.socket.shutdown(socket.SHUT_RDWR)
    gone.close()
    found = 0
    while found < calls:
        line = deaf.hear()
        if line.startswith("done "):
            found += 1
            check(line.split(" ")[2], f"'{text}'")
    deaf.close()
    for it in saying:
        it.join()
    server.end()


TRIALS = (
    who_does_not_read_is_not_read,
    many_lines_are_held,
    calls_wait_and_are_cancelled,
    a_call_waits_over_an_epoch,
    an_epoch_follows_another,
    what_was_answered_is_there_at_once,
    a_second_server_is_refused,
    a_journal_that_was_changed_is_refused,
    a_folder_of_a_program_before_goes_on,
    another_object_does_not_go_on,
    parts_of_before_are_taken,
    answered_calls_are_kept,
    answered_calls_are_kept_where_syncs_are_late,
    answered_calls_are_kept_over_ends_in_order_and_other_files,
    answered_calls_are_kept_on_a_full_disk,
    answered_calls_outlive_a_loss_of_power,
    a_loss_of_power_takes_what_was_answered_last,
)


main, load_tests = kept.part("try_crash", TRIALS, kills=10, seed=1)
