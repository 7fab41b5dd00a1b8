"""Serves at a socket that has a path: by `pathserve serve`, by `pathserve keep`, to each of the clients of examples/clients.

usage: gate/try_socket [--program FILE]

It looks who may connect (as another user, where it is run as root), what becomes of a file that a killed server left,
of two servers at one path and of something else that is there, that the socket is removed at the end, where it is still
the one that was made, and that who comes too late is let go.
"""
import contextlib
import os
import pathlib
import pwd
import socket
import stat
import subprocess
import sys

from clients.python.pathclient import NoServer, Object
from gate.served import Server
from gate.tried import TOP, Trial, Wrong, check, given_words, in_folder, loads, run

CELL = TOP / "examples" / "objects" / "cell.pp"
SECONDS = 20


def server(top: pathlib.Path, path: str = "it.sock", sessions: int = 4, folder: str = "data") -> Server:
    """A server of a cell at a path, for so many connections, over a folder of its own."""
    (top / folder).mkdir(exist_ok=True)
    return Server("serve", CELL, top / folder, "--sessions", sessions, "--stop-with-input", place=top / path)


def mode(top: pathlib.Path) -> str:
    return oct(stat.S_IMODE((top / "it.sock").stat().st_mode))


def ends(it: Server, said: str | None = None) -> None:
    """It ends with status 0, and says this alone, where it is known."""
    found = it.ended(SECONDS)
    check(found, (found.said, 0, found.error) if said is None else (said, 0, ""), "the end")


def is_refused(it: Server, why: str) -> None:
    """It does not start, since nobody can listen there."""
    check(it.refused(SECONDS), ("", 3, f"{it.place}: nobody can listen at this path{why}\nread fault\n"), "a start")


def names(top: pathlib.Path) -> list[str]:
    return sorted(it.name for it in top.iterdir() if it.name not in ("data", "other"))


def serves(top: pathlib.Path) -> None:
    """It is there for its owner and its group alone, serves as a port does, and is gone at the end."""
    with server(top) as it:
        check(mode(top), "0o660", "the mode")
        check(names(top), ["it.sock", "it.sock.lock"], "what is there")
        check(it.says("open cell as ann", "call #1 put 7", "call #2 get"),
              ["opened cell next 1", "accepted 1", "done 1", "accepted 2", "done 2 7", "bye"], "what was heard")
        ends(it, "cell entries 2\n")
        check(names(top), ["it.sock.lock"], "what is there")


def last_connection(top: pathlib.Path) -> None:
    """It ends when so many connections have ended, and who comes behind them is let go at once."""
    with server(top, sessions=2) as it, contextlib.ExitStack() as stack:
        ones = [stack.enter_context(socket.socket(socket.AF_UNIX)) for _ in range(5)]
        heard = []
        for one in ones:
            one.settimeout(SECONDS)
            try:
                one.connect(it.place)
                one.sendall(b"open cell\n")
                heard.append(one.recv(100))
            except OSError:
                heard.append(b"")
        check(heard, [b"opened cell\n"] * 2 + [b""] * 3, "what was heard")
        for one in ones:
            one.close()
        ends(it, "cell entries 0\n")


def stops(top: pathlib.Path) -> None:
    """A stop lets a client go that is there, and one that has connected and was not taken."""
    with server(top, sessions=1) as it, socket.socket(socket.AF_UNIX) as one, socket.socket(socket.AF_UNIX) as late:
        one.settimeout(SECONDS)
        one.connect(it.place)
        one.sendall(b"open cell\n")
        check(one.recv(100), b"opened cell\n", "what was heard")
        late.settimeout(SECONDS)
        with contextlib.suppress(OSError):
            late.connect(it.place)
            check(late.recv(100), b"", "what the late one heard")
        ends(it, "cell entries 0\n")
        check(one.recv(100), b"", "what was heard")


def stale(top: pathlib.Path) -> None:
    """What a killed server left is replaced."""
    with server(top) as it:
        it.kill()
    check(names(top), ["it.sock", "it.sock.lock"], "what is there")
    with server(top) as it:
        check(it.says("open cell"), ["opened cell", "bye"], "what was heard")
        ends(it)


def two(top: pathlib.Path) -> None:
    """A path that is served is not taken from its server."""
    with server(top) as it:
        is_refused(server(top, folder="other"), ": it is taken")
        check(it.says("open cell"), ["opened cell", "bye"], "what was heard")
        ends(it)


def something_else(top: pathlib.Path) -> None:
    """What is there and is no socket stays, and so does the folder."""
    (top / "it.sock").write_text("mine")
    is_refused(server(top), ": it is no socket")
    check((top / "it.sock").read_text(), "mine", "the file")
    for path, why in (("none/it.sock", ": it is not there"), ("x" * 120, "")):
        is_refused(server(top, path), why)
    check(names(top), ["it.sock", "it.sock.lock", "x" * 120 + ".lock"], "what is there")


def replaced(top: pathlib.Path) -> None:
    """A socket that somebody put in place of the one that was made is not removed."""
    with server(top) as it, socket.socket(socket.AF_UNIX) as other:
        (top / "it.sock").unlink()
        other.bind(it.place)
        ends(it)
        check(names(top), ["it.sock", "it.sock.lock"], "what is there")


def another_user(top: pathlib.Path) -> None:
    """Nobody else may connect, but the group of the socket."""
    if os.getuid() != 0:
        print("not run: root")
        return
    top.chmod(0o755)
    nobody = pwd.getpwnam("nobody")
    code = "import socket,sys\ntry:\n socket.socket(socket.AF_UNIX).connect(sys.argv[1]); print('connected')\nexcept OSError as it: print(it.strerror)"

    def tried() -> str:
        words = ["/usr/bin/env", "python3", "-c", code, it.place]
        ran = subprocess.run(words, user=nobody.pw_uid, group=nobody.pw_gid, extra_groups=[], capture_output=True, text=True,
                             env={"PATH": "/usr/bin:/bin"}, check=False, timeout=SECONDS)
        return (ran.stdout or ran.stderr).strip()

    with server(top) as it:
        check(tried(), "Permission denied", "what another user hears")
        os.chown(it.place, -1, nobody.pw_gid)
        check(tried(), "connected", "what one of its group hears")
        ends(it)


def clients(top: pathlib.Path) -> None:
    """Each client of examples/clients takes a path."""
    built = top / "client"
    source = TOP / "examples" / "clients"
    subprocess.run(["cc", "-Wall", "-Wextra", "-Werror", "-o", built, source / "client.c"], check=True, timeout=SECONDS)
    with server(top) as it:
        with Object(it.place, "cell") as cell:
            cell.put(3)
        commands: list[list[str | pathlib.Path]] = [[built], [sys.executable, source / "client.py"]]
        for words in commands:
            ran = subprocess.run([*words, it.place, "cell", "bump 1", "get"], capture_output=True, text=True, check=False, timeout=SECONDS)
            check((ran.returncode, ran.stderr), (0, ""), "what the client ended with")
        ran = subprocess.run([sys.executable, source / "resuming.py", it.place, "cell", "ann", "get"], capture_output=True, text=True,
                             check=False, timeout=SECONDS)
        check((ran.returncode, ran.stdout), (0, "get: done 6 5\n"), "what the client said")
        ends(it)
    try:
        Object(it.place, "cell", wait=0.1)
    except NoServer:
        return
    raise Wrong("there is a server")


def keeper(top: pathlib.Path) -> None:
    """`pathserve keep` listens at a path too, and removes it."""
    folder, path = top / "data", top / "it.sock"
    folder.mkdir(0o700)
    with Server("keep", CELL, folder, "--stop-with-input", place=path) as it:
        check(mode(top), "0o660", "the mode")
        with Object(it.place, "cell") as cell:
            for turn in range(7):
                cell.bump(1)
            check(cell.get(), 7, "the value")
        is_refused(Server("keep", CELL, top, "--stop-with-input", place=path), ": it is taken")
        check(it.ended(SECONDS).status, 0, "the status")
        check(path.exists(), False, "whether it is there")


TRIES = [serves, last_connection, stops, stale, two, something_else, replaced, another_user, clients, keeper]


def trials() -> list[Trial]:
    return [Trial(f"{it.__name__}: {it.__doc__}", in_folder("socket", it)) for it in TRIES]


def main() -> int:
    if given_words():
        print(__doc__, file=sys.stderr)
        return 2
    return run("try_socket", trials())


load_tests = loads(trials)
