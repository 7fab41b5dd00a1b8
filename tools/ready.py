"""Which program ./pathserve runs, what it was built from, and what the tools that build it or try it have in common.

Two programs may stand in out/: out/proved/pathserve, which tools/prove proved and built, and out/unproved/pathserve,
which tools/make_ready built without the proof. Beside each stands pathserve.sources, with the digest of the sources
that it was built from and its own. It is written last, so a program that is not whole, or is another one, is never run.
The proved one comes first. out/proved.look and out/unproved.look hold what `tools/look` printed when that program was
chosen: where it prints the same, ./pathserve runs that program and reads no source.
"""
import contextlib
import errno
import fcntl
import functools
import hashlib
import os
import pathlib
import shutil
import signal
import subprocess
import sys
import tempfile
from collections.abc import Callable, Iterator, Mapping

from tools import repository
from tools.repository import TOP

OUT = TOP / "out"
# Where folders of builds are made.
ROOMS = pathlib.Path(os.environ.get("TMPDIR") or "/tmp")
PROVED, UNPROVED = "proved", "unproved"
PROGRAM = "pathserve"
# The word of a tool's command line before the file of the program that it is to try.
FLAG = "--program"
# The file that the environment names, for a command line that has no room for it, as that of `python3 -m unittest`.
# What is started from here does not see it: that may be about another program.
NAMED = os.environ.pop("PATHSERVE_PROGRAM", None)
# The exit status where there is no program to run: none of the program's own.
NO_PROGRAM = 70
# Crates whose checks link a program, or take most memory: `rt ci` proves them by the memory that it reckons for each.
DEAR = ("command_tool", "keep_tool", PROGRAM)
# Of all others so many are proved at once where a machine has so many bytes: it reckons two to three times what they take.
LANES, ROOMY = 4, 20 << 30
FULL = "No space left on device"


class Stop(Exception):
    """Why there is no program, in one line."""


def say(text: object) -> None:
    print(f"pathserve: {text}", file=sys.stderr, flush=True)


def kit() -> pathlib.Path:
    """The folder of the Rattle kit."""
    found = shutil.which("rt")
    if not found:
        raise Stop("the Rattle kit with its command rt is not installed")
    return pathlib.Path(os.path.realpath(found)).parent.parent


def needed(folder: pathlib.Path, *names: str) -> None:
    """Stops where the kit in this folder lacks one of these files."""
    for name in names:
        if not (folder / name).exists():
            raise Stop(f"the Rattle kit in {folder} lacks {name}")


def stands_on(lines: Mapping[str, str], program: str = PROGRAM) -> list[str]:
    """The crates of a program, each after those that it stands on."""
    if program not in lines:
        raise Stop(f"crates.txt has no line for {program}")
    return [*repository.below(lines, program), program]


def of_kit(lines: Mapping[str, str], folder: pathlib.Path, program: str = PROGRAM) -> dict[str, list[str]]:
    """The crates of the kit in this folder that a program stands on, each with those that it uses."""
    waiting, found = ["std", "core"], {}
    for crate in stands_on(lines, program):
        waiting += [it for it in lines[crate].partition(":")[2].replace(",", " ").split() if it not in lines]
    # (grows while it is read)
    for name in waiting:
        if name not in found:
            needed(folder, f"rlibs/{name}.rlib/format")
            told = (folder / f"rlibs/{name}.rlib/format").read_text(encoding="utf-8").splitlines()
            found[name] = [it.removeprefix("dep ") for it in told if it.startswith("dep ")]
            waiting += found[name]
    return found


def digest(top: pathlib.Path, of_kit: pathlib.Path) -> str:
    """The sha256 of all that a proof of the program reads: the kit's name, HANDLES, and of each crate of the program
    its line in crates.txt and its files."""
    summed = hashlib.sha256()

    def add(part: bytes) -> None:
        summed.update(b"%d:" % len(part) + part)

    add((of_kit / "KIT-ID").read_bytes())
    add((top / "HANDLES").read_bytes())
    lines = repository.crates(top)
    for crate in stands_on(lines):
        add(lines[crate].encode())
        for file in (it for part in repository.PARTS for it in repository.files(top / "crates" / crate / part)):
            add(os.fsencode(file.relative_to(top)))
            add(file.read_bytes())
    return summed.hexdigest()


def copy_sources(to: pathlib.Path, program: str = PROGRAM) -> None:
    """Copies what a program is built from: the lines and the folders of its crates, but no wrong bodies, and not what was
    built of them."""
    to.mkdir(parents=True)
    lines = repository.crates()
    for crate in stands_on(lines, program):
        for file in repository.files(TOP / "crates" / crate):
            part = file.relative_to(TOP / "crates" / crate).parts[0]
            if part != "out" and part != "must-fail" and not part.startswith("wrong-"):
                copy = to / file.relative_to(TOP)
                copy.parent.mkdir(parents=True, exist_ok=True)
                shutil.copyfile(file, copy)
    (to / "crates.txt").write_text("".join(f"{lines[it]}\n" for it in stands_on(lines, program)), encoding="utf-8")
    shutil.copyfile(TOP / "HANDLES", to / "HANDLES")


def roomy_lanes() -> int:
    """How many crates a machine has the memory to prove at once; 0: as many as `rt ci` reckons memory for."""
    memory = os.sysconf("SC_PAGE_SIZE") * os.sysconf("SC_PHYS_PAGES")
    return 0 if memory < ROOMY else min(LANES, len(os.sched_getaffinity(0)))


def lanes(folder: pathlib.Path) -> int:
    """How many crates are proved at once ahead of the dear ones; 0 where a machine has too little memory for it, the kit in
    this folder keeps nothing of what it proves, so that a second run would prove all once more, or it takes no names of
    crates, as at a gate (CI)."""
    keeps = "class Kept" in (text_of(folder / "bin" / "rt") or "")
    return roomy_lanes() if keeps and os.environ.get("CI") != "true" else 0


def ahead(lines: Mapping[str, str]) -> list[str]:
    """The crates that are proved ahead of the dear ones: all that stand on none of them."""
    return [it for it in lines if not {it, *repository.below(lines, it)}.intersection(DEAR)]


def sha256(file: pathlib.Path) -> str:
    return hashlib.sha256(file.read_bytes()).hexdigest()


def text_of(file: pathlib.Path) -> str | None:
    try:
        return file.read_text(encoding="utf-8")
    except (OSError, ValueError):
        return None


def write(file: pathlib.Path, text: str) -> None:
    """Writes a file so that it stands whole, or is as it was."""
    new = file.with_name(f"{file.name}.{os.getpid()}.new")
    try:
        with open(new, "w", encoding="utf-8") as it:
            it.write(text)
            it.flush()
            os.fsync(it.fileno())
        os.replace(new, file)
    finally:
        new.unlink(missing_ok=True)


def stands(kind: str, of_sources: str) -> bool:
    """Whether a whole program of this kind stands that was built from the sources of this digest."""
    program = OUT / kind / PROGRAM
    told = text_of(OUT / kind / f"{PROGRAM}.sources")
    return told is not None and os.access(program, os.X_OK) and told == f"{of_sources}\n{sha256(program)}\n"


def place(program: pathlib.Path, folder: pathlib.Path) -> str:
    """Copies a program into a folder, where it stands whole or is as it was, and returns its digest."""
    folder.mkdir(parents=True, exist_ok=True)
    new = folder / f"{PROGRAM}.new"
    try:
        shutil.copyfile(program, new)
        os.chmod(new, 0o755)
        with open(new, "rb") as it:
            os.fsync(it.fileno())
        summed = sha256(new)
        os.replace(new, folder / PROGRAM)
    finally:
        new.unlink(missing_ok=True)
    return summed


def put(kind: str, program: pathlib.Path, of_sources: str) -> None:
    """Has this program stand as the one of its kind, built from the sources of this digest."""
    summed = place(program, OUT / kind)
    # Until this is written, what stands there of the one before names another program.
    write(OUT / kind / f"{PROGRAM}.sources", f"{of_sources}\n{summed}\n")


def look() -> str:
    return subprocess.run([TOP / "tools" / "look"], stdout=subprocess.PIPE, text=True).stdout


def choose() -> str | None:
    """The kind of the program to run: the proved one, or else the other, where that was built from the sources as they
    are; else None."""
    before, of_sources = look(), digest(TOP, kit())
    for kind in (PROVED, UNPROVED):
        if stands(kind, of_sources):
            # A start without it only takes longer.
            with contextlib.suppress(OSError):
                if before and look() == before:
                    write(OUT / f"{kind}.look", before)
            return kind
    return None


def given_words() -> list[str]:
    """The words of this tool's command line but `--program FILE`, which `program` heeds."""
    words = sys.argv[1:]
    if FLAG in words[:-1]:
        at = words.index(FLAG)
        del words[at : at + 2]
    return words


@functools.cache
def program() -> pathlib.Path:
    """The program that this tool tries: FILE where its command line has `--program FILE`, or else the one that its
    environment names, or else the one that ./pathserve runs, which is built first where none stands. Where there is
    none this tool ends."""
    words = sys.argv[1:]
    if given := words[words.index(FLAG) + 1] if FLAG in words[:-1] else NAMED:
        file = pathlib.Path(given).absolute()
    else:
        made = subprocess.run([TOP / "tools" / "make_ready"], stdin=subprocess.DEVNULL, stdout=subprocess.PIPE, text=True)
        if made.returncode:
            sys.exit(NO_PROGRAM)
        file = pathlib.Path(made.stdout.rstrip("\n"))
    if not os.access(file, os.X_OK):
        say(f"there is no program {file}")
        sys.exit(NO_PROGRAM)
    return file


@contextlib.contextmanager
def new_folder(prefix: str = "pathserve-", room: pathlib.Path | str | None = None) -> Iterator[pathlib.Path]:
    """A new folder, which is gone at the end."""
    with tempfile.TemporaryDirectory(prefix=prefix, dir=room) as folder:
        yield pathlib.Path(folder)


@contextlib.contextmanager
def turn(kind: str) -> Iterator[None]:
    """Waits while another call builds a program of this kind."""
    OUT.mkdir(exist_ok=True)
    with open(OUT / f"{kind}.lock", "w") as lock:
        try:
            fcntl.flock(lock, fcntl.LOCK_EX | fcntl.LOCK_NB)
        except BlockingIOError:
            say(f"waiting for another call that {'proves' if kind == PROVED else 'builds'} it")
            fcntl.flock(lock, fcntl.LOCK_EX)
        yield


def is_left(folder: pathlib.Path) -> bool:
    """Whether no build uses this folder: each locks a file in its own."""
    try:
        with open(folder / "lock", "rb") as lock:
            fcntl.flock(lock, fcntl.LOCK_EX | fcntl.LOCK_NB)
        return True
    except OSError:
        return False


@contextlib.contextmanager
def room(kind: str) -> Iterator[pathlib.Path]:
    """A new folder for a build, outside the repository, where no check of it looks. What killed builds left goes."""
    mark = f"pathserve-{kind}-"
    for left in filter(is_left, ROOMS.glob(f"{mark}*")):
        shutil.rmtree(left, ignore_errors=True)
    folder = pathlib.Path(tempfile.mkdtemp(prefix=mark, dir=ROOMS))
    try:
        with open(folder / "lock", "wb") as lock:
            fcntl.flock(lock, fcntl.LOCK_EX)
            yield folder
    finally:
        shutil.rmtree(folder, ignore_errors=True)


def reason(status: int, said: str) -> str:
    """Why a command failed: by its status and what it said, of which that is the first error, or else the last line."""
    if FULL in said or "the disk is full" in said:
        return "the disk is full"
    if status == -signal.SIGKILL:
        return "it was killed, most likely for memory"
    lines = [it.strip() for it in said.splitlines() if it.strip()]
    found = [it for it in lines if "error[" in it or "error:" in it or "not proved" in it]
    return (found or lines[-1:] or [f"it ended with status {status}"])[0][:300]


def keep_log(kind: str, said: str) -> str:
    """Keeps all that the commands of a build said, and returns where; none where it can't be written."""
    file = OUT / f"{kind}.log"
    with contextlib.suppress(OSError):
        write(file, said)
        return f"; all that was said stands in {file}"
    return ""


def end(number: int, _: object) -> None:
    raise SystemExit(128 + number)


def ran(work: Callable[[], object], about: str = "") -> int:
    """Does the work of a tool, and returns its exit status: where there is no program, one line says why. One that takes no
    words says what it is about where it is given some."""
    if about and sys.argv[1:]:
        print(about, file=sys.stderr)
        return 2
    for it in (signal.SIGTERM, signal.SIGHUP):
        signal.signal(it, end)
    try:
        work()
        return 0
    except KeyboardInterrupt:
        return 128 + signal.SIGINT
    except Stop as why:
        say(why)
    except OSError as error:
        full = f"the disk is full: a build needs room in {ROOMS} and in {OUT}"
        say(full if error.errno == errno.ENOSPC else error)
    return NO_PROGRAM
