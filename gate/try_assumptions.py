"""Looks whether gate/assumptions.txt and docs/PROMISES.md say what gate/assumptions finds in the sources, and whether it finds
what is so of small repositories.

usage: gate/try_assumptions

What comes to the list is believed from then on, so it is told line by line; `gate/assumptions --write` makes both anew. Each
function that is left out, as a way of another subcommand, has to be there. Then a small repository is changed in one place
at a time, and what is told of it has to change by just these lines.
"""
import pathlib
import sys
import tempfile
from collections.abc import Sequence

from gate.assumptions import HEADING, LEFT_OUT, NAMES, PAGE, Told, block_of, write
from gate.tried import TOP, whole

# What stands in a small repository, what is changed of it, and what has then to be told more or less.
SMALL = {
    "crates.txt": "low:\npathserve: low\nhistory_law: low\n",
    "crates/low/src/lib.rt": """pub trait Tells {
    ghost seen: { Self → Option ℕ };

    fn tell(&self) -> u8
        ensures { result < 9 };

    fn look(&self) -> u8;
}

pub struct Wire {
    size: u8,
}

impl Tells for Wire {
    ghost seen = { λ _. None };

    fn tell(&self) -> u8 {
        self.size
    }

    fn look(&self) -> u8 {
        quiet("}", self.size)
    }
}

// quiet() stands in a comment
pub fn quiet(_text: &str, n: u8) -> u8 {
    n
}

pub fn unused() -> u8 {
    0
}
""",
    "crates/pathserve/src/main.rt": """use low::{Tells, Wire};

fn main(rt: HostRuntime) -> u8 {
    work(Wire { size: 1 })
}

fn work(wire: Wire) -> u8
    ensures { result < 18 }
{
    let it = wire;
    it.tell() + it.look()
}
""",
    "crates/history_law/src/lib.rt": """ghost use Rattle.history_law.specs.Laws.{Stays};

pub fn stays()
    ensures { Stays }
{}
""",
    "crates/history_law/specs/Laws.antt": """-- a law
abbrev pub Stays : Type 0
Stays = (n m : ℕ) → IsEven n → ((k : ℕ) → k < n → IsOdd k) → n ≡ m
""",
}
LOW, MAIN, LAW = "crates/low/src/lib.rt", "crates/pathserve/src/main.rt", "crates/history_law/specs/Laws.antt"
TOLD = [
    "no contract, private: low::Wire::look (Tells)",
    "no contract, public: low::quiet",
    "no contract, private: pathserve::main",
    "no ghost: low: Wire::seen = None, by Tells: nothing is told",
    "premises: ::stays: IsEven; IsOdd",
]
QUIET, LOOKS, GHOST, PREMISES = TOLD[1], TOLD[0], TOLD[3], TOLD[4]
SPOILT: tuple[tuple[str, str, str, str, list[str], list[str]], ...] = (
    ("nothing", LOW, "", "", [], []),
    ("a contract that comes", LOW, "n: u8) -> u8 {", "n: u8) -> u8\n    ensures { result < 2 }\n{", [QUIET], []),
    ("a contract that goes", MAIN, "    ensures { result < 18 }\n", "", [], ["no contract, private: pathserve::work"]),
    ("a contract of a trait that goes", LOW, "tell(&self) -> u8\n        ensures { result < 9 };", "tell(&self) -> u8;", [],
     ["no contract, private: low::Wire::tell (Tells)"]),
    ("a function that is called now", MAIN, "it.look()", "it.look() + low::unused()", [], ["no contract, public: low::unused"]),
    ("a method that is called no more", MAIN, " + it.look()", "", [LOOKS, QUIET], []),
    ("a ghost that tells", LOW, "λ _. None", "λ wire. Some wire.size", [GHOST], []),
    ("a ghost that holds of nothing", LOW, "λ _. None", "λ wire. ⊥", [GHOST],
     ["no ghost: low: Wire::seen = ⊥, by Tells: holds of nothing"]),
    ("a type that nobody uses", LOW, "pub fn unused", "struct More {}\nimpl Tells for More { ghost seen = { λ m. None }; }\npub fn unused", [], []),
    ("a test", LOW, "pub fn quiet", "#[cfg(test)]\nmod it { fn test() -> u8 { 0 } }\npub fn quiet", [], []),
    ("a premise that goes", LAW, "IsEven n → ", "", [PREMISES], ["premises: ::stays: IsOdd"]),
)


def put(top: pathlib.Path, name: str, old: str, new: str) -> None:
    """Puts the small repository into a folder, with one text that is another one."""
    for path, text in SMALL.items():
        (top / path).parent.mkdir(parents=True, exist_ok=True)
        (top / path).write_text(text.replace(old, new) if path == name and old else text, encoding="utf-8")


def try_small(what: str, name: str, old: str, new: str, less: Sequence[str], more: Sequence[str]) -> str:
    """What is wrong with what is told of a small repository that is changed so."""
    if old and old not in SMALL[name]:
        return f"a small repository has no {old!r}"
    with tempfile.TemporaryDirectory(prefix="assumptions-") as folder:
        put(pathlib.Path(folder), name, old, new)
        found = set(Told(pathlib.Path(folder)).names())
    wanted = {*TOLD, *more} - set(less)
    return "" if found == wanted else f"of a small repository with {what} is told {sorted(found ^ wanted)} wrongly"


def try_files() -> str:
    """What is wrong with what is told of files that say more or less than is so."""
    with tempfile.TemporaryDirectory(prefix="assumptions-") as folder:
        top = pathlib.Path(folder)
        put(top, LOW, "", "")
        for it in (NAMES, PAGE):
            (top / it).parent.mkdir(parents=True, exist_ok=True)
        (top / PAGE).write_text(f"# A page\n\n{HEADING}\n\n```text\n```\n", encoding="utf-8")
        told = Told(top)
        has_place = write(told)
        said = [lines for what, lines in faults_in(told).items() if what in COMPARED]
        for it, text in ((NAMES, QUIET), (PAGE, "  Wire: seen = None\n")):
            file = top / it
            file.write_text(file.read_text(encoding="utf-8").replace(text, text.upper()), encoding="utf-8")
        said += [lines for what, lines in faults_in(told).items() if what in COMPARED]
    wanted = [[], [], [f"{NAMES} does not have: {QUIET}", f"{NAMES} has, and it is not so: {QUIET.upper()}"],
              [f"{PAGE} does not have:   Wire: seen = None", f"{PAGE} has, and it is not so:   WIRE: SEEN = NONE"]]
    return "" if has_place and said == wanted else f"of files that were changed is told {said}"


# What is compared with the files.
COMPARED = ("the names", "the page")


def faults_in(told: Told) -> dict[str, list[str]]:
    """What is wrong with what the two files say, by what was looked at."""
    files = {it: (told.top / it).read_text(encoding="utf-8") if (told.top / it).is_file() else "" for it in (NAMES, PAGE)}
    names = [it for it in files[NAMES].splitlines() if it and not it.startswith("#")]
    wanted = told.names()
    said = {"the names": [f"{NAMES} does not have: {it}" for it in wanted if it not in set(names)]}
    said["the names"] += [f"{NAMES} has, and it is not so: {it}" for it in names if it not in set(wanted)]
    block = block_of(files[PAGE])
    short = "".join(f"{it}\n" for it in told.short())
    have, want = (block[1] if block else "").splitlines(), short.splitlines()
    said["the page"] = [f"{PAGE} does not have: {it}" for it in want if it not in have]
    said["the page"] += [f"{PAGE} has, and it is not so: {it}" for it in have if it not in want]
    if not said["the page"] and have != want:
        said["the page"] = [f"{PAGE} has its lines in another order"]
    for it in LEFT_OUT:
        said[f"the way {it}"] = [] if it in told.reach.left else [f"{it} is left out, and nothing calls it: LEFT_OUT is of functions that are there"]
    return said


def main() -> int:
    if sys.argv[1:]:
        print(__doc__, file=sys.stderr)
        return 2
    said = faults_in(Told(TOP))
    for what, name, old, new, less, more in SPOILT:
        said[what] = [it] if (it := try_small(what, name, old, new, less, more)) else []
    said["the files"] = [it] if (it := try_files()) else []
    wrong = [line for lines in said.values() for line in lines]
    for line in wrong:
        print(line)
    if said["the names"] or said["the page"]:
        print("gate/assumptions --write makes both anew: what comes with it is believed from then on")
    failed = sum(bool(it) for it in said.values())
    print(f"try_assumptions: {len(said) - failed} passed, {failed} failed")
    return 1 if failed else 0


load_tests = whole(main)
