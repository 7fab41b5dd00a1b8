"""Five tasks of a new user over `pathserve keep`, whose server is killed by `kill -9` meanwhile: a semaphore and a
limiter, an inventory with reservations, a queue of jobs with leases, a leader with a fencing token, and a ledger. And
what users are advised: a worker that hangs loses its job, and each hold that `check --explain` proposes for an example.

usage: gate/try_tasks [--program FILE] [--kills N] [--seed N] [WORDS OF A TITLE ..]

The objects are those of gate/tasks, the clients use clients/python, with names. The server is killed N
times (4 where no number is given) at drawn moments. Then no more than five are inside the semaphore at a time, nothing
of the inventory is lost, each job is done, there is one leader for a token, and each answered transfer is in the
ledger. Of an example with advice clients die in the middle, with and without it, and what is gone is looked at.
"""
import collections
import concurrent.futures
import contextlib
import pathlib
import random
import re
import signal
import subprocess
import sys
import threading
import time
from typing import Any

from clients.python.pathclient import Cancelled, Lost, NoServer, Object, Refused
from gate import kept, served
from gate.crowd import Crew
from gate.kept import Server
from gate.talk import Talk
from gate.tried import TOP, Wrong, check, holds, there, until


class Task(Crew):
    """A server on the objects of a task, with its clients."""

    def __init__(self, folder: pathlib.Path, name: str, seed: int) -> None:
        super().__init__()
        self.server = Server(folder, (TOP / "gate" / "tasks" / f"{name}.pp").read_text(), at_path=True)
        self.random = random.Random(seed)
        self.server.start()

    def object(self, name: str, client: str) -> "Patient":
        return Patient(self, name, client)

    def killed(self, times: int) -> None:
        self.kill(self.server, times, self.random, 0.05, 0.4)


class Patient:
    """A client with a name, which comes back however often its server dies. The library does not ask again for a first
    call, since it cannot tell `keep` from `serve`, nor behind the time that a call may take: that is done here. A call
    that was cancelled since the connection broke is made anew."""

    def __init__(self, task: Task, name: str, client: str) -> None:
        self.task, self.name, self.client = task, name, client
        self.it: Object | None = None

    def connected(self) -> Object:
        while self.it is None:
            with contextlib.suppress(NoServer, Lost):
                self.it = Object(self.task.server.place, self.name, client=self.client, wait=20)
        return self.it

    def __call__(self, operation: str, *arguments: Any, within: float | None = None) -> Any:
        while True:
            it = self.connected()
            key = it.key
            try:
                return it.call(operation, *arguments, within=within)
            except NoServer:
                # (a start that is slower than the call may be: nothing was called)
                pass
            except Cancelled:
                if within is not None:
                    raise
            except Lost:
                # (its time was over, or it was the first call)
                it.close()
                self.it = None
                if (it := self.connected()).key == key + 1:
                    with contextlib.suppress(Cancelled):
                        return it.call(operation, *arguments, key=key)

    def close(self) -> None:
        if self.it:
            self.it.close()


# Tasks.


def a_semaphore_of_five(folder: pathlib.Path, kills: int, seed: int) -> None:
    """Twelve workers go in and out; never more than five are inside, and at the end all slots are free."""
    task, most, lock = Task(folder, "limits", seed), [0], threading.Lock()
    inside: set[str] = set()

    def work(name: str) -> None:
        sem = task.object("sem", name)
        sem("held")
        for _ in range(12):
            sem("enter", name, int(time.time()))
            with lock:
                inside.add(name)
                most[0] = max(most[0], len(inside))
            time.sleep(0.002)
            with lock:
                inside.remove(name)
            sem("drop", name)
            sem("leave")
        sem.close()

    for at in range(12):
        task.run(work, f"w{at}")
    task.killed(kills)
    task.join()
    check(most[0], 5, "the most that were inside")
    sem = task.object("sem", "late")
    check(sem("held"), 0, "those that are held")
    for at in range(5):
        sem("enter", f"x{at}", 0)
    try:
        sem("enter", "sixth", 0, within=0.2)
        raise Wrong("a sixth one came in")
    except Cancelled:
        pass
    sem.close()
    task.server.ends("sem", "bucket", "window")


def a_limiter(folder: pathlib.Path, kills: int, seed: int) -> None:
    """As many things are done as tokens were given, whatever dies meanwhile."""
    task, given, used = Task(folder, "limits", seed), [0], [0, 0, 0]

    def tick() -> None:
        bucket = task.object("bucket", "ticker")
        while given[0] < 120:
            bucket("refill")
            given[0] += 1
            time.sleep(0.001)
        bucket.close()

    def grab(at: int) -> None:
        bucket = task.object("bucket", f"g{at}")
        for _ in range(40):
            bucket("grab")
            used[at] += 1
        bucket.close()

    task.run(tick)
    for at in range(3):
        task.run(grab, at)
    task.killed(kills)
    task.join()
    check((given[0], used), (120, [40, 40, 40]), "tokens")
    bucket = task.object("bucket", "late")
    try:
        bucket("grab", within=0.2)
        raise Wrong("a token is left")
    except Cancelled:
        pass
    bucket.close()
    task.server.ends("sem", "bucket", "window")


def an_inventory(folder: pathlib.Path, kills: int, seed: int) -> None:
    """What was restocked is there, is reserved, or was sold; a reservation ends once."""
    task, lock = Task(folder, "inventory", seed), threading.Lock()
    sold: list[int] = []
    ended: list[Any] = []
    total, now = 400, [1]
    first = task.object("inventory", "owner")
    first("open_reservations")
    first("restock", "lamp", total)
    first("tick", 1)

    def shop(name: str, draw: random.Random) -> None:
        it = task.object("inventory", name)
        it("open_reservations")
        for turn in range(25):
            number, amount = f"{name}.{turn}", 1 + draw.randrange(3)
            with contextlib.suppress(Refused):
                it("reserve", number, "lamp", amount)
                how = draw.randrange(3)
                if how == 0:
                    it("confirm", number)
                    with lock:
                        sold.append(amount)
                elif how == 1:
                    it("release", number)
                # else it ends by itself
        it.close()

    def sweep() -> None:
        it = task.object("inventory", "sweeper")
        it("open_reservations")
        while not task.stops or it("open_reservations"):
            now[0] += 1
            it("tick", now[0])
            with contextlib.suppress(Refused):
                while True:
                    if gone := it("expire"):
                        ended.append(gone)
            time.sleep(0.005)
        it.close()

    task.run(sweep)
    shops = [random.Random(f"{seed}.{at}") for at in range(4)]
    for at, draw in enumerate(shops):
        task.run(shop, f"s{at}", draw)
    task.killed(kills)
    until(lambda: task.going_on() == 1, f"the shops do not end: {task.faults[:3]}")
    task.stops = True
    task.join()
    holds(len(set(ended)) == len(ended), "a reservation ended twice")
    found = first("available", "lamp") + sum(sold), first("open_reservations")
    check(found, (total, 0), "what is there and was sold")
    first.close()
    task.server.ends("inventory")


def a_queue_of_jobs(folder: pathlib.Path, kills: int, seed: int) -> None:
    """Each job is done, by one worker but where its lease ran out; urgent ones come first."""
    task, lock = Task(folder, "work", seed), threading.Lock()
    done: collections.Counter[str] = collections.Counter()
    jobs, now = [f"j{at}" for at in range(60)], [10]
    first = task.object("work", "owner")
    first("waiting")
    first("tick", now[0])

    def submit(mine: list[str]) -> None:
        it = task.object("work", f"submit{mine[0]}")
        it("waiting")
        for job in mine:
            it("submit_urgent" if job.endswith("3") else "submit", job)
        it.close()

    def work(name: str, draw: random.Random) -> None:
        it = task.object("work", name)
        it("waiting")
        while not task.stops:
            try:
                job = it("claim", within=0.3)
            except (Cancelled, Refused):
                continue
            if draw.random() < 0.15:
                continue  # it dies with the job in its hands
            with contextlib.suppress(Refused):
                it("finish", job)
                with lock:
                    done[job] += 1
        it.close()

    def tick() -> None:
        it = task.object("work", "ticker")
        it("waiting")
        while not task.stops:
            now[0] += 1
            it("tick", now[0])
            while (what := it("due")) and not task.stops:
                it("skip" if what == 1 else "redeliver")
            time.sleep(0.03)
        it.close()

    for at in range(3):
        task.run(submit, jobs[at::3])
    for at in range(4):
        task.run(work, f"w{at}", random.Random(f"{seed}.{at}"))
    task.run(tick)
    task.killed(kills)
    end = time.monotonic() + 30
    while len(done) < len(jobs) and time.monotonic() < end:
        time.sleep(0.02)
    task.stops = True
    task.join()
    check(sorted(done.elements()), sorted(jobs), "the jobs that were done")
    check((first("waiting"), first("leased")), (0, 0), "the jobs that are left")
    first.close()
    task.server.ends("work")


def a_leader(folder: pathlib.Path, kills: int, seed: int) -> None:
    """For a token there is one leader, and a lease outlives the server."""
    task, now, lock = Task(folder, "lease", seed), [100], threading.Lock()
    terms: list[tuple[Any, str]] = []

    def candidate(name: str, draw: random.Random) -> None:
        it, token = task.object("lease", name), None
        it("token")
        while not task.stops:
            with lock:
                now[0] += 1
                moment = now[0]
            try:
                found = it("acquire", name, moment, 12)
                if found != token:
                    with lock:
                        terms.append((found, name))
                token = found
            except Refused as why:
                holds(why.word == "taken", why.word)
                token = None
            # (some rest so long that their lease ends)
            time.sleep(0.1 if draw.random() < 0.1 else 0.003)
        it.close()

    ann = task.object("lease", "boss")
    ann("token")
    check(ann("acquire", "boss", 100, 20), 1)
    for at in range(4):
        task.run(candidate, f"c{at}", random.Random(f"{seed}.{at}"))
    task.killed(kills)
    until(lambda: len(terms) > 3 or task.faults, "the leader stays the same", 20)
    task.stops = True
    task.join()
    tokens = [it for it, _ in terms]
    holds(len(set(tokens)) == len(tokens), f"two leaders have one token: {sorted(terms)[:6]}")
    holds(len(tokens) > 1 and min(tokens) == 2, f"tokens {sorted(tokens)[:6]}")
    # A lease that has not ended holds behind a crash.
    check(ann("acquire", "boss", 1_000_000, 60), ann("token"))
    task.server.revive()
    bob = task.object("lease", "bob")
    bob("token")
    try:
        bob("acquire", "bob", 1_000_010, 60)
        raise Wrong("there are two leaders")
    except Refused as why:
        check(why.word, "taken")
    ann.close()
    bob.close()
    task.server.ends("lease")


def a_ledger(folder: pathlib.Path, kills: int, seed: int) -> None:
    """Each transfer that was answered is in the ledger, once."""
    task = Task(folder, "bank", seed)
    answered: collections.Counter[str] = collections.Counter()
    first = task.object("bank", "owner")
    first("done_ids")
    first("enter", "a", 1_000_000)
    first("enter", "b", 0)

    def transfer(name: str) -> None:
        it = task.object("bank", name)
        it("done_ids")
        turn = 0
        while not task.stops:
            turn += 1
            it("transfer", f"{name}.{turn}", "a", "b", 1)
            answered[name] += 1
        it.close()

    for at in range(6):
        task.run(transfer, f"t{at}")
    task.killed(kills)
    time.sleep(0.2)
    task.stops = True
    task.join()
    total = sum(answered.values())
    check((first("balance", "b"), first("balance", "a")), (total, 1_000_000 - total), "what was transferred")
    holds(total > 0, "nothing was transferred")
    first.close()
    task.server.ends("bank")


# What users are advised.

EXAMPLES = TOP / "examples" / "objects"
# A note on a pair of operations, with the line of the source and what is proposed, if anything.
PAIR = re.compile(r"(?m)^SOURCE:(\d+):(\d+): who is gone between `(\w+)` and `(\w+)` never calls .*\n(.*)\n.*\n(?: +=(?:.*)`(hold [^`]*;)`)?")
# A worker that claims a job, and hangs; what it says on its input it does behind that.
HANGS = """import sys
from pathclient import Object, Refused
with Object(sys.argv[1], "timed_jobs") as jobs:
    print(job := jobs.claim(), flush=True)
    sys.stdin.readline()
    try:
        jobs.finish(job)
    except Refused as it:
        print("refused", it.word, flush=True)
    sys.stdin.readline()
"""


def age(shop: Object) -> int:
    """For how long the late job has been claimed, in seconds."""
    found = shop.seconds("late")
    assert isinstance(found, int)
    return found


def a_worker_that_hangs(folder: pathlib.Path, kills: int, seed: int) -> None:
    """Its job is taken from it, and another one claims it; what it does later finishes nothing twice."""
    server = Server(folder, (EXAMPLES / "timed_jobs.pp").read_text(encoding="ascii"), at_path=True).start()
    words = [sys.executable, "-c", HANGS, server.place]
    hangs = subprocess.Popen(words, stdin=subprocess.PIPE, stdout=subprocess.PIPE, text=True,
                             env={"PYTHONPATH": str(TOP / "clients" / "python")})
    says, hears = there(hangs.stdin), there(hangs.stdout)
    try:
        with Object(server.place, "timed_jobs") as shop, Object(server.place, "timed_jobs") as other:
            shop.submit("late")
            check(hears.readline(), "late\n", "what is claimed")
            hangs.send_signal(signal.SIGSTOP)
            shop.submit("next")
            check(other.claim(), "next", "what another one claims")
            other.finish("next")
            until(lambda: age(shop) >= 2, "no time passes", 20)
            try:
                other.call("claim", within=0.2)
                raise Wrong("a job is there that nobody gave back")
            except Cancelled:
                pass
            shop.give_back("late")
            check(other.claim(), "late", "what another one claims that was late")
            check(age(shop) < 2, True, "that its time began anew")
            other.finish("late")
            hangs.send_signal(signal.SIGCONT)
            says.write("\n")
            says.flush()
            check(hears.readline(), "refused missing\n", "what is finished late")
            # (a worker that dies has nothing any more: no job comes back for it)
            hangs.kill()
            hangs.wait()
            shop.submit("last")
            check((other.claim(), shop.waiting()), ("last", 0), "what is left")
            other.finish("last")
    finally:
        hangs.kill()
        hangs.communicate()
    server.ends("timed_jobs")


def called(source: str, name: str) -> str:
    """A call of an operation of a source, with an argument of each kind."""
    params = there(re.search(rf"(?i)entry (?:procedure|function) {name}\b *(?:\(([^)]*)\))?", source))[1] or ""
    groups = [it.split(":") for it in params.split(";") if it]
    return " ".join([name, *("'x'" if kind.strip() == "text" else "7" for names, kind in groups for _ in names.split(","))])


def die_between(folder: pathlib.Path, source: str, title: str, chain: list[str], hold: str) -> None:
    """A client makes the calls of a chain but the last one, and dies. With the hold of the last two that one is called for
    it, once, and another client goes all the way; without it that one is left to somebody."""
    room = folder / f"{title}{'+' if hold else ''}"
    room.mkdir()
    server = Server(room, source).start()
    name, last = there(re.search(r"object (\w+)", source))[1], chain[-1]
    calls = [called(source, it) for it in chain]

    def ends() -> list[str]:
        """What the calls of the last operation have ended with: a reply that nobody hears is lost."""
        journal = (server.folder / f"{name}.journal").read_text(encoding="ascii", errors="replace")
        found = re.findall(rf"(?m)^start (\d+) s\d+ {last}\b", journal)
        return [there(re.search(rf"(?m)^end {it} (.*)$", journal))[1] for it in found]

    with Talk(server, f"open {name}", f"opened {name}") as dies:
        check(dies.calls(*calls[:-1]), ["done"] * len(calls[:-1]), f"{title}: the chain")
    until(lambda: not server.says(f"open {name}", "who")[2:-1], f"{title}: it does not die, or holds still", 10)
    check(ends(), ["done"] if hold else [], f"{title}: what {last} replied that was called for it")
    with Talk(server, f"open {name}", f"opened {name}") as other:
        found = other.calls(*(calls if hold else calls[-1:]))
        check([it.split(" ")[0] for it in found], ["done"] * len(found), f"{title}: the calls of another one")
    server.ends(name)


def what_is_advised_on_holds(folder: pathlib.Path, kills: int, seed: int) -> None:
    """Each hold that is proposed for an example is put there, and gives back for a client that dies; where none is, the one
    that died is not called for, and another client calls it."""
    found: collections.Counter[bool] = collections.Counter()
    deaths: list[tuple[str, str, list[str], str]] = []
    for file in sorted(EXAMPLES.glob("*.pp")):
        source = file.read_text(encoding="ascii")
        (folder / "SOURCE").write_text(source, encoding="ascii")
        for number, column, first, last, _, hold in PAIR.findall(served.run("check", "--explain", "SOURCE", cwd=folder).error):
            line = source.splitlines()[int(number) - 1]
            before = re.split(r"[(\[,]", line[: int(column) - 1])[-1]
            chain = [*re.findall(r"\w+", before), first, last]
            title = f"{file.stem}.{first}"
            deaths.append((source, title, chain, ""))
            if hold:
                check(hold, f"hold {first} until {last};", "the hold")
                deaths.append((re.sub(r"\nend;\n$", f"\n  {hold}\nend;\n", source), title, chain, hold))
            found[bool(hold)] += 1
    check((found[True] > 6, found[False] > 6), (True, True), f"that there are enough of both in {dict(found)}")
    with concurrent.futures.ThreadPoolExecutor(6) as pool:
        for it in [pool.submit(die_between, folder, *words) for words in deaths]:
            it.result()


TRIALS = (a_semaphore_of_five, a_limiter, an_inventory, a_queue_of_jobs, a_leader, a_ledger, a_worker_that_hangs,
          what_is_advised_on_holds)


main, load_tests = kept.part("try_tasks", TRIALS, kills=4, seed=1)
