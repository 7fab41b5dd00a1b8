"""Tries the wrong bodies: edits of the code, crates/NAME/wrong-bodies/*.edit, which the prover must refuse.

usage: gate/try_wrong_bodies [--all] [--name] [--jobs N] [CRATE ..]
           tries the edits of each crate (or of those named) in which something changed since they were tried;
           --all: of each; --name: writes into an edit that names no clause the one that refused it
       gate/try_wrong_bodies --draw N [--jobs N] [CRATE ..]
           tries N edits of each crate, drawn by the digest of the sources, and records nothing
       gate/try_wrong_bodies --check [CRATE ..]
           tries nothing, and fails where something changed, or an edit names no clause

An edit is written as for `rt must-fail`, and judged by it: refused by the prover is right. One that cannot be applied,
does not compile or reaches no prover fails, and so does one that is refused only because a name is gone that a proof
file cites: that says nothing of a contract. A crate has at most 10 edits.

An edit names the clause that refuses it, by a line `clause: ..` of one of these forms:
    ensures [LABEL] of FUNCTION [by loop LOOP]    what the function ensures; here by the invariant of a loop of its proof
    requires [LABEL] of CALLEE                    what a function asks for that the edited one calls
    invariant of TYPE                             the invariant of the values of a type
    measure|overflow|bounds|division of FUNCTION  that it ends; that a number fits its type, or an index its list; that
                                                  a divisor is not 0
FUNCTION, CALLEE and TYPE are a name, or `TYPE::NAME` for a method; where a definition is edited, FUNCTION may be the
lemma that no longer holds. An edit fails where it names no clause, and where the prover names another one, or no goal.
It names each goal that it did not prove, and the function that has it: `returns-..-clause-LABEL`,
`CALLEE-requires-..-clause-LABEL`, `LOOP-preserved` and so on. What it does not tell is not compared: which of several
labels where a goal is all that a function ensures at once (then the label has to be one of the function's), for which of
them a loop's invariant is there (the same), and the type of an invariant, since the goal has the variable's name (then
the edited file has to name the type).

The edits are tried in a temporary copy of the repository, over the work that earlier checks left in crates/*/out and
over the libraries that `rt ci` keeps on this machine, or has just made in this tree; what these lack is proved there
first. Up to N crates go side by side (the processors, at most 4). Of a crate whose library is proved only the functions
that are edited are checked, in rounds. In a round stand edits of several functions, one of each: a call is known by its
contract alone, so that what is refused of a function is its own; one that calls what a round refused is tried in a later
round. An edit of anything but bodies of functions is tried by itself, on the function whose clause it names; and what is
not refused so is tried on the whole crate.

Where all edits of a crate were refused, each by its clause, its line in wrong-bodies.tried says so: its name, the digest
of all on which that hangs (the logic of the kit, the crate's files and edits, and what these name of the crates below
it: `digest` in tools/repository.py), and how many edits they were. Nothing is tried again while that digest fits. Of a
crate below a proof reads the types, the signatures, the clauses and the definitions, and no body: a call is known by
its contract alone.
The last line is `try_wrong_bodies: N passed, M failed`: edits, or crates under --check. The exit status is 0 where M
is 0.
"""
import argparse
import collections
import contextlib
import os
import pathlib
import random
import re
import shutil
import signal
import subprocess
import sys
import tempfile
import threading
import time
import traceback
from collections.abc import Callable, Collection, Iterable, Mapping, Sequence
from typing import Any

from gate import clauses
from gate.tried import TOP
from tools import ready, repository
from tools.kit import rt as rt_of_kit

TRIED = TOP / "wrong-bodies.tried"
EDITS = "wrong-bodies"
MOST_EDITS = 10
# What rt says of an edit that it counts as refused, and of one among these that shows nothing.
REFUSED = "refused, as it must be"
NAME_GONE = "only because a proof file names what the edit took away"
PRINTING = threading.Lock()
# What the last check said in each thread.
LAST = threading.local()


def say(text: str) -> None:
    with PRINTING:
        print(text, flush=True)


def kit_logic() -> str:
    """The logic of the kit, in which proofs are checked, as `rt version` names it: releases of a kit share one."""
    said = subprocess.run(["rt", "version"], check=True, capture_output=True, text=True).stdout
    _, word, logic = said.partition(" logic ")
    if not word:
        sys.exit(f"try_wrong_bodies: rt version names no logic: {said.strip()}")
    return f"logic {logic.strip()}"


def edits(top: pathlib.Path, name: str) -> list[pathlib.Path]:
    """The files of a crate's folder of wrong bodies, but those that are only to be read."""
    return [it for it in repository.files(top / "crates" / name / EDITS) if it.suffix != ".md"]


def digest(top: pathlib.Path, lines: Mapping[str, str], name: str, kit: str) -> str:
    return repository.digest(top, lines, name, kit, EDITS)


def recorded() -> dict[str, list[str]]:
    """The lines of wrong-bodies.tried by crate, each as its words."""
    rows = TRIED.read_text(encoding="utf-8").splitlines() if TRIED.exists() else []
    return {row.split()[0]: row.split() for row in rows if row.strip()}


def record(lines: Mapping[str, str], changes: Mapping[str, list[str] | None]) -> None:
    """Writes what was tried, and leaves out crates that are gone: a change is a line's words, or None to take it out."""
    rows: dict[str, list[str] | None] = {**recorded(), **changes}
    kept = [" ".join(words) for name, words in sorted(rows.items()) if words and name in lines and edits(TOP, name)]
    if not kept and not TRIED.exists():
        return
    part = TRIED.with_name(TRIED.name + f".{os.getpid()}")
    part.write_text("".join(f"{it}\n" for it in kept), encoding="utf-8")
    os.replace(part, TRIED)


def fits(row: list[str] | None, lines: Mapping[str, str], name: str, kit: str) -> bool:
    return row is not None and row[1:] == [digest(TOP, lines, name, kit), str(len(edits(TOP, name))), "edits"]


def told_of_edits(top: pathlib.Path, name: str) -> list[str]:
    """What is wrong with the edits of a crate before any is tried."""
    found = edits(top, name)
    wrong = [f"{name}: {len(found)} wrong bodies, and at most {MOST_EDITS} are of use"] * (len(found) > MOST_EDITS)
    text = "names no clause: a line `clause: ..` names the one that refuses it"
    return wrong + [f"{name}/{it.stem}: {text}" for it in found if clause_of(it) is None]


def clause_of(file: str | pathlib.Path) -> clauses.Clause | None:
    return clauses.named_by(pathlib.Path(file).read_text(encoding="utf-8", errors="replace"))


def check(lines: Mapping[str, str], named: Collection[str], kit: str) -> tuple[int, int]:
    """Compares the digests, looks whether each edit names a clause, and tries nothing."""
    rows, passed, failed = recorded(), 0, 0
    for name in sorted({*lines, *rows} if not named else named):
        wrong = told_of_edits(TOP, name) if name in lines else []
        if wrong:
            failed += 1
            say("\n".join(wrong))
            continue
        if name not in lines or not edits(TOP, name):
            if name in rows:
                failed += 1
                say(f"{name}: stands in {TRIED.name}, and {'has no wrong bodies' if name in lines else 'is no crate'}")
        elif fits(rows.get(name), lines, name, kit):
            passed += 1
        else:
            failed += 1
            say(f"{name}: {'changed since its wrong bodies were tried' if name in rows else 'its wrong bodies were never tried'}")
    if failed:
        say("run gate/try_wrong_bodies, and commit wrong-bodies.tried")
    return passed, failed


def load_rt() -> Any:
    """The kit's command as a module: its own functions judge the edits."""
    made = rt_of_kit()
    if not made:
        sys.exit("try_wrong_bodies: there is no rt here")
    for name in ("checked", "edits_of", "in_lanes", "must_fail", "need", "processors"):
        if not hasattr(made, name):
            sys.exit(f"try_wrong_bodies: the rt of this kit has no {name}(): see how its must-fail tries an edit now")
    checked = made.checked

    def remembered(*given: Any) -> Any:
        ran = checked(*given)
        LAST.said = ran.stdout.split("\n")
        return ran

    # What a try of an edit says is more than its judge hands out.
    setattr(made, "checked", remembered)
    return made


def copy_sources(lines: Mapping[str, str], needed: Sequence[str], to: pathlib.Path) -> None:
    """Copies the files of these crates that git knows or would take, the wrong bodies as must-fail edits."""
    words = ["git", "-C", str(TOP), "ls-files", "-z", "--cached", "--others", "--exclude-standard"]
    listed = subprocess.run(words, check=True, capture_output=True).stdout.split(b"\0")
    for path in map(pathlib.PurePath, map(os.fsdecode, filter(None, listed))):
        at = path.parts
        is_wanted = at == ("HANDLES",) or len(at) > 3 and at[0] == "crates" and at[1] in needed and at[2] in (*repository.PARTS, EDITS)
        if is_wanted and (TOP / path).is_file():
            (to / path).parent.mkdir(parents=True, exist_ok=True)
            shutil.copyfile(TOP / path, to / path)
    (to / "crates.txt").write_text("".join(f"{lines[it]}\n" for it in needed), encoding="utf-8")


def copy_work(name: str, part: str, to: pathlib.Path) -> None:
    """Copies what earlier checks left of a crate, where they left it."""
    made = TOP / "crates" / name / "out" / part
    if made.is_dir():
        (to / "crates" / name / "out").mkdir(exist_ok=True)
        subprocess.run(["cp", "-r", "--reflink=auto", str(made), str(to / "crates" / name / "out")], check=True)


def drawn(names: Iterable[str], count: int) -> dict[str, list[str]]:
    """The names of so many edits of each crate. Other sources, also of another crate, have others drawn."""
    of_sources = ready.digest(TOP, ready.kit())
    found = {name: [it.name for it in edits(TOP, name)] for name in names}
    return {name: random.Random(of_sources + name).sample(it, min(count, len(it))) for name, it in found.items()}


def prepare(rt: Any, lines: Mapping[str, str], chosen: Mapping[str, Collection[str]], to: pathlib.Path) -> dict[str, Any]:
    """Makes the copy, with these edits, and returns its crates by name, lowest first."""
    names = list(chosen)
    needed = [it for it in lines if any(it in [name, *repository.below(lines, name)] for name in names)]
    copy_sources(lines, needed, to)
    for name in names:
        # The digest is taken of the edits under their own name.
        made = shutil.copytree(to / "crates" / name / EDITS, to / "crates" / name / "must-fail")
        for it in [it for it in edits(to, name) if it.name not in chosen[name]]:
            (made / it.name).unlink()
    crates = {it.name: it for it in rt.rtlib.crates_below(str(to))}
    # While another rt works in these crates, what it keeps is not whole.
    held = rt.rtlib.lock([it for it in rt.rtlib.crates_below(str(TOP)) if it.name in crates])
    for name, crate in crates.items():
        copy_work(name, "rlib", to)
        if name in names or not crate.is_built():
            copy_work(name, "incremental", to)
    for descriptor in held:
        os.close(descriptor)
    take_kept(rt, to, crates)
    take_unstamped(crates)
    return crates


def take_kept(rt: Any, top: pathlib.Path, crates: Mapping[str, Any]) -> None:
    """Gives the copy the libraries that `rt ci` proved of the same sources on this machine, as far as these go from the lowest."""
    if not all(hasattr(rt, it) for it in ("Crate", "Kept", "handles_of")):
        return
    # What is kept hangs on it.
    before, rt.Crate.allowed = rt.Crate.allowed, rt.handles_of(str(top))
    kept = rt.Kept(list(crates.values()))
    for crate in (it for it in crates.values() if not it.is_program):
        if not crate.is_built():
            # What is stale there would have the kit take what it kept for damaged, and drop it.
            shutil.rmtree(pathlib.Path(crate.folder, "out", "rlib"), ignore_errors=True)
            if not kept.give(crate, False, kept.key(crate)):
                continue
            pathlib.Path(crate.folder, "out", "rlib", "stamp").write_text(crate.stamp(), encoding="utf-8")
        kept.is_built(crate)
    rt.Crate.allowed = before


def is_newer(library: pathlib.Path, crate: pathlib.Path) -> bool:
    """Whether a library was made after each file of its crate."""
    files = [it for part in repository.PARTS for it in repository.files(crate / part)]
    return library.is_dir() and all(it.stat().st_mtime < library.stat().st_mtime for it in files)


def take_unstamped(crates: Mapping[str, Any]) -> None:
    """Takes the libraries that `rt ci` has made in this tree for built, with a kit that keeps none of them: it stamps none.
    They fit each other alone, so only where it made all, and each after its files."""
    made = {it: TOP / "crates" / it / "out" / "rlib" for it, crate in crates.items() if not crate.is_program}
    if any((it / "stamp").exists() for it in made.values()):
        return
    taken: set[str] = set()
    for name, crate in crates.items():
        library = made.get(name)
        if library and is_newer(library / f"{name}.rlib", TOP / "crates" / name) and all(it.name in taken for it in crate.below()):
            pathlib.Path(crate.folder, "out", "rlib", "stamp").write_text(crate.stamp(), encoding="utf-8")
            taken.add(name)


def build(crate: Any) -> bool:
    """Builds a library that crates above it want, where it is not built, and returns whether that went well."""
    if crate.is_built():
        return True
    started = time.time()
    os.makedirs(f"{crate.folder}/out", exist_ok=True)
    with open(f"{crate.folder}/out/log", "w+", errors="replace") as crate.out:
        status = crate.build_rlib(["--jobs", "1"], anew=False)
        crate.out.seek(0)
        said = crate.out.read()
    say(f"{crate.name}: {'proved' if not status else 'NOT PROVED'} in the copy ({time.time() - started:.0f} s)")
    if status:
        say("".join(said.splitlines(True)[-12:]).rstrip("\n"))
    return not status


def is_refused(rt: Any, found: Any) -> bool:
    """Whether an edit was refused by the prover, and not only by one of its limits. (Older kits tell it by a truth value.)"""
    return found[0] in (True, getattr(rt, "REFUSED", True))


def tell(rt: Any, crate: Any, edit: str, found: Any) -> bool:
    """Says what came of an edit, and returns whether the prover refused it by the clause that it names."""
    was_refused, said = is_refused(rt, found), found[1].partition(": ")[2]
    if was_refused and NAME_GONE in said:
        was_refused, said = False, "REFUSED FOR A NAME ALONE" + said[len(REFUSED) :]
    if was_refused:
        return is_by_its_clause(rt, crate, edit, edit_of_functions(rt, crate, edit), LAST.said, "")
    say(f"{crate.name}/{os.path.basename(edit)[: -len('.edit')]}: {said}")
    return False


def texts_in(crate: Any) -> dict[pathlib.Path, str]:
    """The sources of a crate."""
    return {it: it.read_text(encoding="utf-8") for it in repository.files(pathlib.Path(crate.folder, "src"))}


def is_by_its_clause(rt: Any, crate: Any, file: str, edit: "Edit | None", said: list[str], how: str) -> bool:
    """Says of an edit that was refused by which clause, and returns whether that is the one that it names. Of the lines
    of its check those of its functions count, where these are known."""
    texts, _ = rt.read_edit(file, crate.folder)
    sources = {str(it.relative_to(crate.folder)): text for it, text in texts_in(crate).items()}
    if edit:
        said = [line for it in edit.functions for line in lines_of(said, it)]
    found = clauses.goals([it for it in said if not NAMES.match(it)], sources)
    holder = holder_of(sources[edit.source].split("\n"), edit.functions[0]) if edit else ""
    edited = "\n".join(sources.get(it, "") for it in texts)
    below = (text for one in crate.below() for text in texts_in(one).values())
    likely = sorted(found, key=lambda it: (it.kind == "loop", it.kind != "ensures"))
    offers = list(dict.fromkeys(clauses.spelled(clauses.offered(it, holder, edited)) for it in likely))
    label, named = f"{crate.name}/{os.path.basename(file)[: -len('.edit')]}", clause_of(file)
    told = ", ".join(f"`{it.goal}`" for it in found) or " ".join([it for it in said if ": error" in it][:1])[:200] or "nothing that it names"
    if not named and offers and NAMING:
        # Into the edit itself, and into the copies of it that are tried, and of which the digest is made.
        folders = pathlib.Path(file).parent, pathlib.Path(crate.folder, EDITS), TOP / "crates" / crate.name / EDITS
        for it in (folder / os.path.basename(file) for folder in folders):
            it.write_text(f"clause: {offers[0]}\n{it.read_text(encoding='utf-8')}", encoding="utf-8")
        named = clause_of(file)
        say(f"{label}: names now {offers[0]}" + (f", and was refused by {', '.join(offers[1:])} too" if offers[1:] else ""))
    if not named:
        say(f"{label}: refused{how}, AND NAMES NO CLAUSE: {', '.join(offers) or 'none'}; the prover says {told}")
        return False
    if not found:
        say(f"{label}: refused{how}, BUT THE PROVER NAMES NO GOAL to compare with: {told}")
        return False
    # The contract of a trait's method stands in the trait: its text comes ahead of those that have another one of that name.
    others, traits = [*sources.values(), *below], set(IMPLEMENTED.findall(edited))
    contracts = [edited, *sorted(others, key=lambda text: traits.isdisjoint(TRAIT.findall(text)))]
    if any(clauses.is_named(named, it, edited, contracts) for it in found):
        say(f"{label}: refused{how}, by {clauses.spelled(named)}")
        return True
    say(f"{label}: REFUSED BY ANOTHER CLAUSE than {clauses.spelled(named)}: {', '.join(offers) or 'none'}; the prover says {told}")
    return False


# The line of a clause; the head of a function, and what may hold one.
CLAUSES = re.compile(r"ensures|requires")
HEAD = re.compile(r"\s*(?:pub(?:\([a-z]+\))? )?(?:unsafe )?fn (\w+)")
HOLDER = re.compile(r"(impl|pub trait|trait|mod)\b")
TRAIT = re.compile(r"^(?:pub )?trait (\w+)", re.M)
IMPLEMENTED = re.compile(r"^impl(?:<.*>)? (\w+)(?:<.*>)? for ", re.M)
IMPL = re.compile(r"impl(?:<[^>]*>)? (\w+)(?:<[^>]*>)?(?:\s+where .*)? \{")
CYCLE = re.compile(r"#\[cycle\((\w+)\)\]")
# Why a proof file is refused that names what an edit took away.
NAMES = re.compile(r"(note: )?(\./)?proofs/.*(has no field|is not in scope|has no `|was not admitted)")
# Whether edits without a clause get one.
NAMING = False
# A function: what is proved by itself (the function, or the cycle of calls that it is in), the path by which a check is asked for it, the
# folder of its proof files, its file, the line of its head and its last, from 1, and where its attributes begin above it.
Function = collections.namedtuple("Function", "whole path proofs source head last first")
# An edit that changes the bodies of some functions and nothing else but imports: its file, the functions, and the changed lines by file and place.
Edit = collections.namedtuple("Edit", "file functions source lines")


def function_at(lines: Sequence[str], at: int) -> tuple[int, int] | None:
    """The first and last line of the function in whose body a line stands, counted from 0, or None."""
    first = next((it for it in range(at, -1, -1) if HEAD.match(lines[it])), None)
    if first is None:
        return None
    indent = lines[first][: len(lines[first]) - len(lines[first].lstrip())]
    last = next((it for it in range(first, len(lines)) if lines[it].rstrip() == indent + "}"), None)
    heads = (it for it in range(first, len(lines)) if lines[it].rstrip() == indent + "{" or lines[it].endswith(" {") and not CLAUSES.search(lines[it]))
    opens = next(heads, None)
    return (first, last) if last is not None and opens is not None and opens < at < last else None


def function_of(source: str, lines: Sequence[str], first: int, last: int) -> Function | None:
    """The function at these lines, or None where its path is not known."""
    above = next((at for at in range(first, 0, -1) if not lines[at - 1].strip() or lines[at - 1].rstrip().endswith(("{", "}", ";"))), 0)
    module = source[len("src/") : -len(".rt")].removesuffix("/mod")
    module = "" if module in ("lib", "main") else module
    head = HEAD.match(lines[first])
    assert head, lines[first]
    name, is_held = head[1], lines[first][0] == " "
    holder = next((it for it in reversed(lines[:first]) if HOLDER.match(it)), "") if is_held else ""
    cycle = next((found[1] for it in lines[max(first - 3, 0) : first] if (found := CYCLE.search(it))), None)
    held = IMPL.match(holder)
    if holder and not held:
        # A method of a trait, whose path is longer: its module is asked for.
        if not module or not holder.startswith("impl"):
            return None
        return Function(f"{module}/{holder}{name}", module.replace("/", "::"), rf"proofs/{module}/\w+/{name}/", source, first + 1, last + 1, above + 1)
    way = "/".join(it for it in (module, held[1] if held else "", name) if it)
    if held and not any(re.match(rf"\s*(?:pub(?:\([a-z]+\))? )?(?:struct|enum) {held[1]}\b", it) for it in lines):
        # A method stands under the path of its type, which is declared elsewhere: the end of its path is enough.
        return Function(way, f"{held[1]}::{name}", rf"proofs/(\S+/)?{held[1]}/\+?{name}/", source, first + 1, last + 1, above + 1)
    # A function that calls itself alone has a + before its name.
    proofs = rf"proofs/(\S+/)?\+{cycle}/|proofs/{way}/" if cycle else rf"proofs/{way}/|proofs/(\S+/)?\+{name}/"
    return Function(f"+{cycle}" if cycle else way, way.replace("/", "::"), proofs, source, first + 1, last + 1, above + 1)


def edit_of_functions(rt: Any, crate: Any, file: str) -> Edit | None:
    """The edit of this file, or None where it changes more than bodies of functions and imports of a source file."""
    texts, why = rt.read_edit(file, crate.folder)
    if why or len(texts) != 1:
        return None
    [(source, text)] = texts.items()
    before, after = (it.split("\n") for it in (pathlib.Path(crate.folder, source).read_text(encoding="utf-8"), text))
    if len(before) != len(after) or not source.startswith("src/"):
        return None
    changed = {at: after[at] for at in range(len(before)) if before[at] != after[at]}
    imports = {at for at in changed if before[at].startswith("use ") and after[at].startswith("use ")}
    # Another thing under the name of an import changes the functions that call it.
    others = [name for at in imports for name in re.findall(r"\bas (\w+)", after[at]) if name not in re.findall(r"\bas (\w+)", before[at])]
    called = [at for at, line in enumerate(before) if any(re.search(rf"\b{name}\(", line) for name in others)]
    spans = {function_at(before, at) for at in {*changed, *called} - imports}
    if not spans or None in spans:
        return None
    functions = [function_of(source, before, *it) for it in sorted(it for it in spans if it)]
    return None if None in functions else Edit(file, functions, source, changed)


def functions_checked(rt: Any, crate: Any, texts: Mapping[str, str], paths: Iterable[str], kept: str) -> Any:
    """Checks the functions of these paths alone, in a copy of the crate with these texts."""
    return rt.checked(crate, texts, ["--jobs", "1", *(word for it in sorted({*paths}) for word in ("--only", it))], kept)


def holder_of(lines: Sequence[str], function: Function) -> str:
    """The type whose method a function is, or an empty text."""
    if lines[function.head - 1][:1] != " ":
        return ""
    holder = next((it for it in reversed(lines[: function.head - 1]) if HOLDER.match(it)), "")
    held = IMPL.match(holder) or re.match(r"impl\b.*\bfor (\w+)", holder)
    return held[1] if held else ""


def lines_of(said: Iterable[str], function: Function) -> list[str]:
    """The lines of a check that are of a function: of its lines, or of the files of its proof."""
    told = []
    for it in said:
        at = re.match(r"(?:note: )?(?:\./)?(\S+?):(\d+):\d+:", it)
        if at and (re.match(function.proofs, at[1]) or at[1] == function.source and function.first <= int(at[2]) <= function.last):
            told.append(it)
    return told


def is_refused_itself(said: Iterable[str], function: Function) -> bool:
    """Whether a check has refused a function for what it does: not for a function that it calls, and not for a name alone."""
    told = lines_of(said, function)
    return any(": error" in it and not NAMES.match(it) or it.startswith("note: src/") and "is not proved" in it for it in told)


def refused_in_rounds(rt: Any, crate: Any, edits: list[Edit], kept: str) -> dict[str, bool]:
    """Tries edits of functions' bodies, in a round one of each function. Returns the files of those that the prover
    refused, with whether that was by the clause that they name. A function is not looked at where one that it calls is
    refused: so those that are left are tried in rounds again, and at last each by itself."""
    refused: dict[str, bool] = {}
    left, most = edits, len(edits)
    while left:
        rounds: list[list[Edit]] = []
        for edit in left:
            whole = {it.whole for it in edit.functions}
            free = (it for it in rounds if len(it) < most and whole.isdisjoint(one.whole for other in it for one in other.functions))
            at = next(free, None)
            if at is None:
                at = []
                rounds.append(at)
            at.append(edit)
        for at in rounds:
            texts: dict[str, list[str]] = {}
            for edit in at:
                text = pathlib.Path(crate.folder, edit.source).read_text(encoding="utf-8")
                lines = texts.setdefault(edit.source, text.split("\n"))
                for place, line in edit.lines.items():
                    lines[place] = line
            refused |= refused_of(rt, crate, at, {source: "\n".join(it) for source, it in texts.items()}, kept)
        rest = [it for it in left if it.file not in refused]
        if len(rest) == len(left):
            if max(map(len, rounds)) == 1:
                break
            most = 1
        left = rest
    return refused


def refused_of(rt: Any, crate: Any, edits: list[Edit], texts: Mapping[str, str], kept: str) -> dict[str, bool]:
    """Checks the functions of these edits alone, with these texts. Returns the files of the edits that the prover refused,
    with whether that was by the clause that they name."""
    ran = functions_checked(rt, crate, texts, [one.path for it in edits for one in it.functions], kept)
    said = ran.stdout.split("\n")
    if ran.returncode != 1 or rt.rtlib.STALE.search(ran.stdout) or any(re.search(r"\berror\[[\w-]+\]", it) or rt.unread(it, texts) for it in said):
        return {}
    how = f" in a round of {len(edits)}" if len(edits) > 1 else ""
    return {it.file: is_by_its_clause(rt, crate, it.file, it, said, how) for it in edits if any(is_refused_itself(said, one) for one in it.functions)}


def edit_of_clause(rt: Any, crate: Any, file: str) -> Edit | None:
    """The edit of this file as one of the function whose clause it names, where one of the crate's functions alone has that name."""
    clause = clause_of(file)
    found: list[Function | None] = []
    if not clause or clause.kind != "ensures":
        return None
    for path in repository.files(pathlib.Path(crate.folder, "src")):
        lines, source = path.read_text(encoding="utf-8").split("\n"), str(path.relative_to(crate.folder))
        for at, line in enumerate(lines):
            head = HEAD.match(line)
            if head and head[1] == clause.name:
                indent = line[: len(line) - len(line.lstrip())]
                last = next((it for it in range(at, len(lines)) if lines[it].rstrip() == indent + "}"), at)
                found.append(function_of(source, lines, at, last))
                if found[-1] and clause.holder and holder_of(lines, found[-1]) != clause.holder:
                    found.pop()
    return Edit(file, found, found[0].source, {}) if len(found) == 1 and found[0] else None


def try_edits(rt: Any, crate: Any) -> tuple[int, int]:
    """Tries the edits of a crate, over work of a check of what is edited, or of the crate itself, and counts them."""
    started, flags = time.time(), ["--jobs", "1"]
    kept = f"{crate.folder}/out/incremental"
    os.makedirs(kept, exist_ok=True)
    good, bad = rt.edits_of(crate)
    for file in bad:
        say(f"{crate.name}/{os.path.basename(file)}: BAD EDIT: its name is of letters, digits, _, - and . and ends in .edit")
    refused: dict[str, bool] = {}
    if crate.is_built():
        refused = refused_in_rounds(rt, crate, [it for it in (edit_of_functions(rt, crate, file) for file in good) if it], kept)
        for file in (it for it in good if it not in refused):
            edit, (texts, _) = edit_of_clause(rt, crate, file), rt.read_edit(file, crate.folder)
            if edit and texts:
                refused |= refused_of(rt, crate, [edit], texts, kept)
    left, passed = [it for it in good if it not in refused], sum(refused.values())
    if left:
        first = None if crate.is_built() else rt.checked(crate, {}, flags, kept)
        if first and first.returncode:
            say(f"{crate.name}: NOT PROVED as it stands, so its edits were not tried; what was said last:")
            say("\n".join(first.stdout.splitlines()[-12:]))
            return 0, len(good) + len(bad)
        for file in left:
            found = rt.must_fail(crate, file, flags, kept)
            passed += tell(rt, crate, file, found if is_refused(rt, found) else rt.must_fail(crate, file, flags))
        if rt.checked(crate, {}, flags, kept).returncode:
            # What an edit left behind may then be why a later one was refused.
            say(f"{crate.name}: is no longer proved over the work of its edits: each of them again, from nothing")
            passed = sum(tell(rt, crate, it, rt.must_fail(crate, it, flags)) for it in good)
    say(f"{crate.name}: {passed} of {len(good) + len(bad)} wrong bodies refused ({time.time() - started:.0f} s)")
    return passed, len(good) + len(bad) - passed


def try_crates(
    lines: Mapping[str, str], chosen: Mapping[str, Collection[str]], kit: str, jobs: int, folder: pathlib.Path, records: bool
) -> tuple[int, int]:
    """Tries these edits of crates in a copy, and counts them. It records those crates of which all were refused, or nothing."""
    # Where rt puts what it makes for a check.
    tempfile.tempdir = str(folder / "rooms")
    os.mkdir(tempfile.tempdir)
    rt = load_rt()
    repository.remember_stamps(rt)
    # Its first call sets a signal's handler, which only the main thread may.
    rt.rtlib.guarded()
    top = folder / "copy"
    crates = prepare(rt, lines, chosen, top)
    # With RT_JOBS it looks no more at how much memory is free.
    if jobs != rt.processors():
        os.environ["RT_JOBS"] = str(jobs)

    def tried(name: str, given: Any) -> tuple[int, int]:
        if not all(given[it.name, "lib"] for it in crates[name].below()):
            say(f"{name}: a library below is not proved, so its edits were not tried")
            counts = 0, len(chosen[name])
        else:
            counts = try_edits(rt, crates[name])
        wrong = told_of_edits(top, name)
        if wrong:
            say("\n".join(wrong))
        if records:
            is_well = counts == (len(chosen[name]), 0) and not wrong
            row = [name, digest(top, lines, name, kit), str(counts[0]), "edits"]
            with PRINTING:
                record(lines, {name: row if is_well else None})
        return counts

    tasks: dict[tuple[str, str], Any] = {}
    for name, crate in crates.items():
        waits = [(it.name, "lib") for it in crate.below()]
        weight, memory = crate.count(rb"\n"), rt.need(crate)
        if any(crate in it.below() for it in crates.values()):
            tasks[name, "lib"] = (waits, weight, memory, lambda given, _, it=crate: all(given[w.name, "lib"] for w in it.below()) and build(it))
            waits = [*waits, (name, "lib")]
        if name in chosen:
            tasks[name, "edits"] = (waits, weight, memory, lambda given, _, it=name: tried(it, given))
    counts = [it for (_, what), it in rt.in_lanes(tasks).items() if what == "edits"]
    return sum(it[0] for it in counts), sum(it[1] for it in counts)


def end(passed: int, failed: int) -> int:
    say(f"try_wrong_bodies: {passed} passed, {failed} failed")
    return 1 if failed else 0


def in_own_folder(work: Callable[[pathlib.Path], int]) -> int:
    """Does the work in a process of its own, with a temporary folder that is gone afterwards, however that ends."""

    def stop(number: int, _: object) -> None:
        sys.exit(128 + number)

    for it in (signal.SIGINT, signal.SIGTERM, signal.SIGHUP):
        signal.signal(it, stop)
    folder = pathlib.Path(tempfile.mkdtemp(prefix="try-wrong-bodies-"))
    worker = os.fork()
    if not worker:
        for it in (signal.SIGINT, signal.SIGTERM, signal.SIGHUP):
            signal.signal(it, signal.SIG_DFL)
        status = 2
        try:
            status = work(folder)
        except SystemExit as ended:
            if isinstance(ended.code, str):
                print(ended.code, file=sys.stderr)
        except BaseException:
            traceback.print_exc()
        finally:
            sys.stdout.flush()
            os._exit(status)
    try:
        status = os.waitpid(worker, 0)[1]
        worker = 0
        return os.WEXITSTATUS(status) if os.WIFEXITED(status) else 2
    finally:
        if worker:
            with contextlib.suppress(ProcessLookupError):
                os.kill(worker, signal.SIGKILL)
            os.waitpid(worker, 0)
        # The checks that it had started end with it, and may write until then.
        for _ in range(50):
            shutil.rmtree(folder, ignore_errors=True)
            if not folder.exists():
                break
            time.sleep(0.1)


def main() -> int:
    usage = __doc__.partition("\n\n")[2].partition("\n\n")[0]
    words = argparse.ArgumentParser(prog="try_wrong_bodies", usage=usage.replace("usage: ", ""))
    words.add_argument("--all", action="store_true")
    words.add_argument("--name", action="store_true")
    words.add_argument("--check", action="store_true")
    words.add_argument("--draw", type=int, default=0)
    words.add_argument("--jobs", type=int, default=min(len(os.sched_getaffinity(0)), 4))
    words.add_argument("crates", nargs="*")
    given = words.parse_args()
    lines, kit = repository.crates(), kit_logic()
    for name in given.crates:
        if name not in lines or not edits(TOP, name):
            words.error(f"{name} is no crate of crates.txt that has wrong bodies")
    if given.jobs < 1 or given.draw < 0 or given.check and (given.all or given.name or given.draw) or given.draw and (given.all or given.name):
        words.error("--jobs and --draw take a number above 0, and --check and --draw go with none of the other words")
    global NAMING
    NAMING = given.name
    if given.check:
        return end(*check(lines, given.crates, kit))
    rows = recorded()
    had = [it for it in given.crates or lines if edits(TOP, it)]
    names = [it for it in had if given.all or given.draw or told_of_edits(TOP, it) or not fits(rows.get(it), lines, it, kit)]
    if not given.draw and not given.crates and {*rows} - {it for it in lines if edits(TOP, it)}:
        record(lines, {})
    if not names:
        say("nothing to try: nothing has changed since the wrong bodies were tried")
        return end(0, 0)
    chosen = drawn(names, given.draw or sys.maxsize)
    say(f"trying {sum(map(len, chosen.values()))} wrong bodies of {len(names)} crates: {' '.join(names)}")
    return in_own_folder(lambda folder: end(*try_crates(lines, chosen, kit, given.jobs, folder, not given.draw)))
