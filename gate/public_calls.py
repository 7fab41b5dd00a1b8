"""Shows where each public function of the library crates is run: in a case, or by a test.

usage: gate/public_calls                  looks whether gate/public_calls.txt fits the sources
       gate/public_calls --count [--list] counts: it builds a program that notes which of its functions run, and runs all
                                          cases on it, some files at once, and gate/try_holds

gate/public_calls.txt lists each public function that no case runs, with what runs it in its place: a crate with tests
that call it (`CRATE by NAME`: that call NAME, which does), a part of the gate, or `proof` where nothing runs it, since it
is there for its contract alone. Every other public function has to run in a case. And it lists each fault and refusal
that a public function tells, but want of memory (gate/refuse_memory), with a file and a text in it that shows it.
A crate that is `open` has neither tests nor a program above it: it is told, and its functions are not looked at. Where the
program stands on it that fails.

- Without --count it is looked at whether each function that is listed is there; whether the crate that is told of it has
  a call of that name; and whether each fault and refusal of the sources is listed, and its text is in its file. That a
  function that is not listed runs in a case is not looked at.
- With --count the program is built without the proof and without optimization, from the sources as they are, in
  minutes. A function that is listed and runs in a case fails, and so does one that is not listed and runs in none. One
  of which a part of the gate is told may run in a case too, where it hangs on how fast the machine is. With --list it
  prints of each function the first file of cases that runs it.

It shows that a function was entered, not which of its answers it gave. A function without a body (a law) is not run.
"""
import argparse
import bisect
import concurrent.futures
import os
import pathlib
import re
import struct
import subprocess
import tempfile
from collections.abc import Container, Iterable, Iterator, Mapping, Sequence

from gate.tried import TOP, there, whole
from tools import make_ready, ready, repository

TABLE = TOP / "gate" / "public_calls.txt"
# What is looked at by its name, and what is wrong with it, or none.
Looked = tuple[str, str | None]
PROGRAM = "pathserve"
TESTS = "_vectors"
# Parts of the gate that count as cases: what they try no case can say.
PARTS = ("try_holds",)
# So many of them run at once: beside other parts of the gate, where it is that which runs them.
LANES = max(2, len(os.sched_getaffinity(0)) // 2)
# What tells of the enum of a fault or a refusal.
TOLD = re.compile(r"Fault|Refusal|Refused|Failure|NotTaken|Cancelled|Stranger")
MODULE = re.compile(r"pub mod (\w+);")
FUNCTION = re.compile(r"(    )?pub (?:const )?fn (\w+)")
ENUM = re.compile(r"^pub enum (\w+)[^{\n]*\{\n(.*?)^\}", re.M | re.S)
VARIANT = re.compile(r"^    ([A-Z]\w*)", re.M)


def libraries() -> list[str]:
    """The crates that are no tests and no program."""
    # (a program has no call that another crate makes)
    return [it for it in repository.crates() if not it.endswith(TESTS) and (TOP / "crates" / it / "src" / "lib.rt").exists()]


def sources(crate: str) -> Iterator[tuple[list[str], str]]:
    """The public modules of a crate: the names that lead to each, and its text."""
    waiting: list[tuple[list[str], pathlib.Path, pathlib.Path]] = [([], TOP / "crates" / crate / "src" / "lib.rt", TOP / "crates" / crate / "src")]
    while waiting:
        names, file, folder = waiting.pop(0)
        text = file.read_text(encoding="utf-8")
        yield names, text
        for name in MODULE.findall(text):
            inner = folder / f"{name}.rt"
            waiting.append(([*names, name], inner if inner.exists() else folder / name / "mod.rt", folder / name))


def type_of(line: str) -> str | None:
    """The type to whose own functions an `impl` line leads, or None."""
    head, depth = line.removeprefix("impl").strip(), 0
    if head.startswith("<"):
        for at, sign in enumerate(head):
            depth += (sign == "<") - (sign == ">" and head[at - 1] not in "-=")
            if not depth:
                head = head[at + 1 :].strip()
                break
    return None if re.search(r"\bfor\b", head) else there(re.match(r"\w+", head))[0]


def functions_of(crate: str) -> Iterator[str]:
    """The public functions of a crate that have a body, each by its path; with the type in place of its module, since
    functions of a type may stand in other modules."""
    for names, text in sources(crate):
        here, lines = None, text.splitlines()
        for at, line in enumerate(lines):
            if line.startswith("impl"):
                here = type_of(line)
            elif line.startswith("}"):
                here = None
            told = FUNCTION.match(line)
            if not told or (told[1] and not here):
                continue
            indent = told[1] or ""
            last = next(it for it in lines[at:] if it.startswith(f"{indent}}}") or it.rstrip().endswith(("}", ";")) and it.startswith(f"{indent}{{"))
            if last.strip() == "{}":
                continue
            yield f"{crate}::{here}::{told[2]}" if told[1] else "::".join([crate, *names, told[2]])


def refusals_of(crate: str) -> Iterator[str]:
    """The faults and refusals of a crate, each as `crate Enum::Variant`."""
    for _, text in sources(crate):
        for name, body in ENUM.findall(text):
            if TOLD.search(name):
                yield from (f"{crate} {name}::{it}" for it in VARIANT.findall(body) if it != "Memory")


def read_table() -> tuple[dict[str, str], dict[str, tuple[str, str]]]:
    """The functions that no case runs, each with what calls it, and the faults, each with a file and a text."""
    calls, shown = {}, {}
    for line in TABLE.read_text(encoding="utf-8").splitlines():
        if line and not line.startswith("#"):
            name, _, where = line.partition(": ")
            file, is_shown, text = where.partition(": ")
            if is_shown:
                shown[name] = (file, text)
            else:
                calls[name] = where
    return calls, shown


def test_text(crate: str) -> str:
    """The sources of a test crate."""
    return "\n".join(it.read_text(encoding="utf-8") for it in repository.files(TOP / "crates" / crate / "src"))


def looks(functions: Container[str], refusals: Sequence[str], calls: Mapping[str, str], shown: Mapping[str, tuple[str, str]]) -> Iterator[Looked]:
    """What is wrong with the table, for each of its lines and for each fault that it lacks; None where it is right."""
    for name, told in calls.items():
        where, _, by = told.partition(" by ")
        word = by or name.rpartition("::")[2]
        if name not in functions:
            yield name, "is listed, and there is no such public function"
        elif where == "proof" or where.startswith("gate/") and (TOP / where).is_file():
            yield name, None
        elif not (TOP / "crates" / where / "src").is_dir():
            yield name, f"is said to be run by {where}, which is not there"
        else:
            has = re.search(rf"\b{word}\(", test_text(where))
            yield name, None if has else f"is said to be run by {where}, which has no `{word}(`"
    for name in refusals:
        if name not in shown:
            yield name, "is not listed"
    for name, (file, text) in shown.items():
        if name not in refusals:
            yield name, "is listed, and there is no such fault"
        elif not (TOP / file).is_file() or text not in (TOP / file).read_text(encoding="utf-8"):
            yield name, f"is said to be shown in {file}, which has no `{text}`"
        else:
            yield name, None


def counting(folder: pathlib.Path) -> pathlib.Path:
    """Builds the program that notes which of its functions run."""
    kit = ready.kit()
    ready.copy_sources(folder / "repo")
    built = make_ready.Build(kit, folder)
    taken = built.module()
    ready.say("compiling a program that counts")
    counted = ["-fsanitize-coverage=func,trace-pc-guard", f"-fsanitize-coverage-allowlist={taken / 'counted'}"]
    (taken / "counted").write_text("src:*\n" + "".join(f"fun:{it}::*\n" for it in libraries()), encoding="utf-8")
    words = [it for it in (taken / "words").read_text(encoding="utf-8").splitlines() if it != "-fsanitize=address"]
    subprocess.run([kit / "toolchain" / "bin" / "clang", *words, *counted], cwd=taken, check=True)
    subprocess.run(["cc", "-O2", "-fPIE", "-c", "-o", taken / "count.o", TOP / "gate" / "count.c"], check=True)
    links: list[str | pathlib.Path] = [kit / "bin" / "rattle-link", "--target", "x86_64-unknown-linux-gnu", "--toolchain", kit / "toolchain"]
    links += ["-o", PROGRAM, "module.o", "count.o", kit / "c" / "libos_c.a", kit / "c" / "liblibc_c.a"]
    subprocess.run(links, cwd=taken, check=True, stdout=subprocess.DEVNULL)
    return taken / PROGRAM


def plain(symbol: str) -> str:
    """The path of a function, without what it was made for."""
    return re.sub(r"::<.*", "", symbol)


def path_of(symbol: str) -> str:
    """The path of a function as the table has it: `crate::Type::function`, or with all its modules."""
    parts = plain(symbol).split("::")
    return f"{parts[0]}::{parts[-2]}::{parts[-1]}" if len(parts) > 2 and parts[-2][:1].isupper() else "::".join(parts)


def symbols(program: pathlib.Path) -> tuple[list[int], list[str], int]:
    """The addresses of the functions of a program, in order, their paths, and the address from which callers count."""
    said = subprocess.run(["nm", program], capture_output=True, text=True, check=True).stdout
    rows = sorted((int(it[:16], 16), it[19:]) for it in said.splitlines() if it[17:18] in tuple("tT"))
    base = next(at for at, name in rows if name == "__sanitizer_cov_trace_pc_guard_init")
    return [at for at, _ in rows], [path_of(name) for _, name in rows], base


def counted(program: pathlib.Path, folder: pathlib.Path) -> dict[str, str]:
    """The functions that run in the cases, each with the first file of cases in which it does."""
    starts, paths, base = symbols(program)
    found: dict[str, str] = {}
    runs: list[tuple[str, list[str | pathlib.Path]]] = [(f"gate/{it}", [TOP / "gate" / it, "--program", program]) for it in PARTS]
    for file in sorted((TOP / "cases").rglob("*.cases")):
        name = str(file.relative_to(TOP))
        tool = "run_sessions" if file.parent.name == "serve" else "run_cases"
        runs.append((name, [TOP / "gate" / tool, "--program", program, name]))

    def run(at: int) -> bytes:
        notes = folder / f"notes-{at}"
        env = {**os.environ, "COUNTED": str(notes)}
        subprocess.run(runs[at][1], env=env, stdout=subprocess.DEVNULL, stderr=subprocess.DEVNULL)
        return notes.read_bytes() if notes.exists() else b""

    with concurrent.futures.ThreadPoolExecutor(LANES) as lanes:
        for (name, _), noted in zip(runs, lanes.map(run, range(len(runs)))):
            for (caller,) in struct.iter_unpack("<q", noted[: len(noted) // 8 * 8]):
                if caller:
                    found.setdefault(paths[bisect.bisect_right(starts, caller + base) - 1], name)
    return found


def counts(functions: Iterable[str], calls: Mapping[str, str], is_listed: bool) -> Iterator[Looked]:
    """What is wrong with each function, by what ran in the cases; None where it is right."""
    with tempfile.TemporaryDirectory(prefix="public-calls-") as name:
        folder = pathlib.Path(name)
        found = counted(counting(folder), folder)
    for it in functions:
        if is_listed:
            print(f"{it}: {found.get(it) or calls.get(it) or 'nothing'}")
        if it in found and it in calls and not calls[it].startswith("gate/"):
            yield it, f"is listed, and {found[it]} runs it"
        elif it not in found and it not in calls:
            yield it, "runs in no case, and is not listed"
        else:
            yield it, None


def opens(calls: Mapping[str, str]) -> dict[str, str | None]:
    """The crates that are open; what is wrong with each, or None."""
    below = set(repository.below(repository.crates(), PROGRAM))
    return {it: "is open, and the program stands on it" if it in below else None for it, told in calls.items() if told == "open"}


def main() -> int:
    words = argparse.ArgumentParser(prog="public_calls", usage="gate/public_calls [--count [--list]]")
    words.add_argument("--count", action="store_true")
    words.add_argument("--list", action="store_true")
    given = words.parse_args()
    calls, shown = read_table()
    left = opens(calls)
    calls = {name: told for name, told in calls.items() if name not in left}
    looked = [it for it in libraries() if it not in left]
    functions = list(dict.fromkeys(it for crate in looked for it in functions_of(crate)))
    refusals = [it for crate in looked for it in refusals_of(crate)]
    for name in left:
        told = len(set(functions_of(name))), len(set(refusals_of(name)))
        print(f"{name} is open: {told[0]} functions and {told[1]} refusals that nothing runs")
    said = [*left.items(), *looks(functions, refusals, calls, shown)]
    if given.count:
        said += counts(functions, calls, given.list)
    else:
        said += [(it, None) for it in functions if it not in calls]
    for name, why in said:
        if why:
            print(f"{name} {why}")
    failed = sum(bool(why) for _, why in said)
    print(f"public_calls: {len(said) - failed} passed, {failed} failed")
    return 1 if failed or not said else 0


load_tests = whole(main)
