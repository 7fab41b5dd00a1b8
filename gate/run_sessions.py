"""Runs the built server on the cases of cases/serve, and compares what it answers. cases/README.md has the notation.

usage: gate/run_sessions [--program FILE] [FOLDER|FILE|WORDS OF A TITLE ..]

After each case in which a server ends with status 0, `pathserve audit` has to call the trace of each of its objects legal, with as
many entries as the server says, and each call whose end a connection was told has to stand in it so.

 A case in which nothing comes for a while, or that lasts too long, fails; where many
have failed the others are not run, and cases whose client is in C where there is no `cc`.
"""
import concurrent.futures
import contextlib
import os
import pathlib
import shutil
import socket
import subprocess
import tempfile
import threading
import time
from typing import Any

from gate.cases import chosen_cases, is_like
from gate.clients import MOST_BYTES, Client, Connection, Program, Wrong
from gate.difference import difference
from gate.served import Process, Told, free_port, traced_wrongly
from gate.sessions import Step, Story, content, folder_faults, stories_of
from gate.tried import given_words, lacks, program, there, whole

# How long a case may last, and how long a step may wait, in seconds.
LASTS, WAITS = 240, 20
# How many cases run at once: most of them wait. After so many that failed the others are not run, and have failed too.
AT_ONCE, MOST_FAILED = 8, 24
# What a case may send elsewhere, and how that file is opened.
REDIRECTIONS = {"<": ("stdin", "rb"), ">": ("stdout", "wb")}


class Played(Process):
    """A server that is started by the words of a case: what it writes is kept."""

    def __init__(self, words: list[str], folder: pathlib.Path) -> None:
        given, files = [], {}
        rest = iter(words)
        for word in rest:
            if word in REDIRECTIONS:
                files[word] = next(rest)
            else:
                given.append(word)
        self.output, self.said_error, self.is_killed, self.said = b"", b"", False, threading.Event()
        self.told: list[Told] = []
        with contextlib.ExitStack() as stack:
            more: dict[str, Any] = {REDIRECTIONS[it][0]: stack.enter_context(open(file, REDIRECTIONS[it][1])) for it, file in files.items()}
            if "<" not in files and "--stop-with-input" not in words:
                more["stdin"] = subprocess.DEVNULL
            self.begin_by([program(), *given], cwd=folder, **more)
        self.readers = [threading.Thread(target=it) for it in (self.keep_output, self.keep_error)]
        for it in self.readers:
            it.start()

    def keep_output(self) -> None:
        while self.child.stdout and (piece := os.read(self.child.stdout.fileno(), 1 << 16)):
            self.output += piece if len(self.output) < MOST_BYTES else b""
            if b"\n" in self.output:
                self.said.set()
        self.said.set()

    def keep_error(self) -> None:
        self.said_error = b"".join(iter(lambda: os.read(there(self.child.stderr).fileno(), 1 << 16), b""))

    def await_end(self, seconds: float) -> None:
        if self.awaited(seconds) is None:
            raise Wrong(f"the server has not ended after {seconds:.0f} seconds")
        for it in self.readers:
            it.join()

    def kill(self) -> None:
        self.is_killed = True
        self.child.kill()
        self.await_end(WAITS)
        self.close()


class Stage:
    """A case while it runs: its folder, its port, its connections and its servers."""

    def __init__(self, case: Story, folder: "str | pathlib.Path") -> None:
        self.case, self.room, self.port = case, pathlib.Path(folder), free_port()
        self.end = time.monotonic() + LASTS
        self.place = self.room / "folder"
        self.servers: list[Played] = []
        self.connections: dict[str, Client] = {}
        self.taken: list[socket.socket] = []
        self.place.mkdir()
        for name, held in case.before:
            if name.endswith("/"):
                (self.place / name).mkdir()
            else:
                (self.place / name).write_bytes(held if isinstance(held, bytes) else b"")
        for name, text in case.inputs.items():
            (self.room / name).write_bytes(text)

    def words(self, more: str) -> list[str]:
        """The words of a server's command, with what stands for OBJECTS, FOLDER and PORT put in."""
        puts = {"PORT": str(self.port), "FOLDER": str(self.place), **{it: str(self.room / it) for it in self.case.inputs}}
        found = []
        for word in [*self.case.words, *more.split()]:
            front, slash, rest = word.partition("/")
            found.append(puts[front] + slash + rest if front in puts else word)
        return found

    def left(self) -> float:
        left = self.end - time.monotonic()
        if left <= 0:
            raise Wrong(f"the case lasts more than {LASTS} seconds")
        return min(left, WAITS)

    def start(self, more: str = "") -> None:
        server = Played(self.words(more), self.room)
        self.servers.append(server)
        if not server.said.wait(self.left()):
            raise Wrong("the server says nothing")

    def connection(self, who: str) -> Client:
        """The connection of this name, which is made where it is not there."""
        if who not in self.connections:
            self.connections[who] = made = Connection(self.port, self.left())
            self.servers[-1].told.append(made.told)
        return self.connections[who]

    def expect_refusal(self) -> None:
        """Nobody takes a connection, or it is closed at once without a line."""
        try:
            with socket.create_connection(("127.0.0.1", self.port), self.left()) as it:
                heard = it.recv(1)
        except ConnectionError:
            return
        raise Wrong(f"a connection was taken, and {heard!r} heard")

    def end_server(self) -> None:
        self.servers[-1].await_end(self.left())
        if self.servers[-1].child.returncode != 0:
            raise Wrong(f"the server ended with status {self.servers[-1].child.returncode}")

    def do_server(self, step: Step) -> bool:
        """Does a step that is none of a client, or answers False."""
        if step.form == "server starts":
            self.start(step.texts[0])
        elif step.form == "server ends":
            self.end_server()
        elif step.form == "server is killed":
            self.servers[-1].kill()
        elif step.form == "server is told to stop":
            self.servers[-1].stop()
        elif step.form == "is refused":
            self.expect_refusal()
        elif step.form == "port is taken":
            self.taken.append(socket.create_server(("127.0.0.1", self.port)))
        elif step.form == "folder is removed":
            # In one step, since the server may just make a file there; so it may once more while the rest goes.
            away = self.place.rename(self.place.with_name("removed"))
            while away.exists():
                shutil.rmtree(away, ignore_errors=True)
        elif step.form == "file holds":
            name, _, held = step.texts[0].split(" ")
            with open(self.place / name, "r+b") as it:
                it.write(content(held) or b"")
                it.truncate()
        else:
            return False
        return True

    def do(self, step: Step) -> None:
        """Does one step."""
        if self.do_server(step):
            return
        if step.form == "runs":
            self.connections[step.who] = Program(step.texts[0], self.port, self.room)
            return
        it = self.connection(step.who)
        it.end = time.monotonic() + self.left()
        it.do(step, self.case.piece)

    def play(self) -> None:
        """Does all steps, and waits for the server's end. The server is started first, where no step comes before that."""
        if not self.case.steps or self.case.steps[0].form not in ("server starts", "port is taken"):
            self.start()
        for step in self.case.steps:
            try:
                self.do(step)
            except (Wrong, OSError) as error:
                raise Wrong(f"line {step.line}: {error}") from None
        self.servers[-1].await_end(self.left())

    def fault(self) -> list[str]:
        """What is wrong with what is left, as lines, or none."""
        case, last = self.case, self.servers[-1]
        output = b"".join(it.output for it in self.servers)
        wanted = (case.output or b"").replace(b"PORT", str(self.port).encode())
        wanted_error = case.error.replace(b"port PORT", b"port %d" % self.port)
        # An input is named by its name.
        error = last.said_error.replace(os.fsencode(self.room) + b"/", b"")
        if not is_like(wanted_error, error):
            return ["standard error:", *difference(wanted_error, error)]
        if not is_like(wanted, output):
            return ["standard output:", *difference(wanted, output)]
        if last.child.returncode != case.status:
            return [f"ended with status {last.child.returncode}, not {case.status}"]
        faults = [] if case.after is None else folder_faults(case.after, self.place)
        for name, text in case.traces.items():
            if (self.place / name).read_bytes() != text:
                faults += [f"{name}:", *difference(text, (self.place / name).read_bytes())]
        return faults + self.trace_faults()

    def trace_faults(self) -> list[str]:
        """What is wrong with the traces of the last server."""
        last = self.servers[-1]
        if last.is_killed or last.child.returncode:
            return []
        faults = [wrong for it in last.told for wrong in it.wrong]
        for line in last.output.decode().splitlines():
            name, _, count = line.partition(" entries ")
            if count:
                faults += traced_wrongly(self.room / "OBJECTS", self.place, name, last.told, int(count))
        return faults

    def close(self) -> None:
        for one in self.connections.values():
            one.close()
        for taken in self.taken:
            taken.close()
        for it in self.servers:
            it.kill()


def tried(case: Story, failed: list[str]) -> "str | None":
    """What is said of a case that fails, or none. `failed` has the names of those that did."""
    if len(failed) >= MOST_FAILED:
        return f"{case.name()}: not run"
    said = what_fails(case)
    if said:
        failed.append(case.name())
    return said


def what_fails(case: Story) -> "str | None":
    """Runs a case. It answers what is said of it where it fails, or none."""
    with tempfile.TemporaryDirectory(prefix="serve-") as folder:
        stage = Stage(case, folder)
        try:
            stage.play()
            faults = stage.fault()
        except (Wrong, OSError, subprocess.SubprocessError) as error:
            faults = [str(error)]
        finally:
            stage.close()
    if not faults:
        return None
    said = [f"    the server said {it.output[-200:]!r} {it.said_error[-200:]!r}" for it in stage.servers]
    return "\n".join([f"{case.name()}: {faults[0]}", *faults[1:], *said])


def is_in_c(case: Story) -> bool:
    """Whether a client of a case is a program in C."""
    return any(it.form == "runs" and it.texts[0].split()[0].endswith(".c") for it in case.steps)


def main() -> int:
    words = given_words()
    # Once, before the threads ask.
    program()
    found, bad = chosen_cases(words, stories_of, served=True)
    if any(map(is_in_c, found)) and lacks("cc"):
        found = [it for it in found if not is_in_c(it)]
    print("\n".join(bad), end="\n" if bad else "")
    with concurrent.futures.ThreadPoolExecutor(AT_ONCE) as pool:
        names: list[str] = []
        said = list(pool.map(lambda it: tried(it, names), found))
    for line in filter(None, said):
        print(line)
    failed = sum(1 for it in said if it)
    print(f"run_sessions: {len(said) - failed} passed, {failed + len(bad)} failed")
    return 0 if said and not failed and not bad else 1


load_tests = whole(main)
