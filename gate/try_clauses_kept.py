"""Tries gate/clauses_kept over a small repository that is changed in one way at a time: what became another promise is told,
and what only moved is not.

usage: gate/try_clauses_kept
"""
import functools
import pathlib
import sys
import tempfile
from collections.abc import Mapping

from gate import clauses_kept
from gate.tried import Trial, check, loads, run

LIB, ONE, TWO, THREE = "crates/low/src/lib.rt", "crates/low/specs/One.antt", "crates/low/specs/Two.antt", "crates/low/specs/Three.antt"
Files = Mapping[str, str]
SMALL: Files = {
    LIB: """ghost use Rattle.low.specs.One.{IsOne as One};
ghost use Rattle.low.specs.Three.{IsFew};

/// One of them.
pub fn one(n: u8) -> u8
    requires { IsFew n }
    ensures one { One result × (result ≡ 1) }
{
    inner(n, move || -> u8
        ensures { result ≡ 1 }
    { 1 })
}

impl Tells for Wire {
    ghost seen = { λ w. Some w.size };
}

#[cfg(test)]
mod tests {
    fn two() -> u8
        ensures { result ≡ 2 }
    {
        2
    }
}
""",
    ONE: "-- one\nabbrev pub IsOne : ℕ → Type 0\nIsOne n = n ≡ 1\n",
    TWO: "abbrev pub IsOne : ℕ → Type 0\nIsOne n = n ≤ 1\n",
    THREE: "use Rattle.low.specs.One.{IsOne}\n\nabbrev pub IsFew : ℕ → Type 0\nIsFew n =\n    IsOne n\n\nabbrev pub IsNone : ℕ → Type 0\nIsNone n = n ≡ 0\n",
}


def put(name: str, old: str, new: str) -> Files:
    """The small repository, in which one text is another one."""
    assert old in SMALL[name], old
    return {**SMALL, name: SMALL[name].replace(old, new)}


def moved() -> Files:
    """All of it in other crates and files, whose imports are spelled otherwise."""
    lib = SMALL[LIB].replace("low.specs.One.{IsOne as One}", "top.specs.Moved.{IsOne}").replace("One result", "IsOne  result")
    lib = lib.replace("low.specs.Three.{IsFew}", "top.specs.More as more").replace("IsFew n", "more.IsFew n")
    more = SMALL[THREE].replace("low.specs.One", "top.specs.Moved").replace("=\n    IsOne", "= IsOne")
    return {"crates/top/src/in/it.rt": lib, "crates/top/specs/Moved.antt": SMALL[ONE], "crates/top/specs/More.antt": more, TWO: SMALL[TWO]}


AGAIN = {**SMALL, "crates/top/specs/One.antt": SMALL[ONE]}
# What is compared: what it is, before and then; and what has to be told.
CHANGES: tuple[tuple[str, Files, Files, list[str]], ...] = (
    ("nothing", SMALL, SMALL, []),
    ("what has moved", SMALL, moved(), []),
    ("what has moved back", moved(), SMALL, []),
    ("a clause", SMALL, put(LIB, "(result ≡ 1)", "(result ≤ 1)"), ["- ensures one of one", "+ ensures one of one"]),
    ("a clause that is gone", SMALL, put(LIB, "    ensures one { One result × (result ≡ 1) }\n", ""), ["- ensures one of one"]),
    ("a premise that came", SMALL, put(LIB, "    ensures one", "    requires more { n ≡ 1 }\n    ensures one"), ["+ requires more of one"]),
    ("a clause of a closure", SMALL, put(LIB, "ensures { result ≡ 1 }", "ensures { result ≤ 1 }"),
     ["- ensures of one (of a closure)", "+ ensures of one (of a closure)"]),
    ("a ghost member", SMALL, put(LIB, "λ w. Some w.size", "λ w. None"), ["- ghost seen of Wire by Tells", "+ ghost seen of Wire by Tells"]),
    ("a body", SMALL, put(LIB, "{ 1 }", "{ 2 }"), []),
    ("a comment", SMALL, put(ONE, "-- one", "-- another"), []),
    ("a test", SMALL, put(LIB, "result ≡ 2", "result ≡ 3"), []),
    ("a definition", SMALL, put(ONE, "n ≡ 1", "n ≡ 1 ⊎ n ≡ 0"), ["- definition IsOne", "+ definition IsOne"]),
    ("a definition that is gone", SMALL, put(THREE, "\nabbrev pub IsNone : ℕ → Type 0\nIsNone n = n ≡ 0\n", ""), ["- definition IsNone"]),
    ("the other definition of a name in a clause", SMALL, put(LIB, "specs.One.", "specs.Two."), ["- ensures one of one", "+ ensures one of one"]),
    ("the other definition of a name in a definition", SMALL, put(THREE, "specs.One.", "specs.Two."), ["- definition IsFew", "+ definition IsFew"]),
    ("a definition that stood twice", AGAIN, SMALL, []),
)


def trees(before: Files, then: Files, folder: pathlib.Path) -> tuple[clauses_kept.Tree, clauses_kept.Tree]:
    for name, files in (("before", before), ("then", then)):
        for path, text in files.items():
            (folder / name / path).parent.mkdir(parents=True, exist_ok=True)
            (folder / name / path).write_text(text, encoding="utf-8")
    return clauses_kept.Tree(folder / "before"), clauses_kept.Tree(folder / "then")


def tried(before: Files, then: Files, wanted: list[str]) -> None:
    with tempfile.TemporaryDirectory(prefix="clauses-kept-") as folder:
        gone, came = clauses_kept.differences(*trees(before, then, pathlib.Path(folder)))
    check([*(f"- {it.title}" for it in gone), *(f"+ {it.title}" for it in came)], wanted, "what is told")


def called_otherwise() -> None:
    """What is only called otherwise is told as such, and is the same where that is known."""
    then = {name: text.replace("IsNone", "IsNothing") for name, text in SMALL.items()}
    with tempfile.TemporaryDirectory(prefix="clauses-kept-") as name:
        folder = pathlib.Path(name)
        old, new = trees(SMALL, then, folder)
        check(clauses_kept.other_names(*clauses_kept.differences(old, new)), ["IsNone IsNothing"], "what may be called otherwise")
        named = clauses_kept.call_otherwise(folder / "before", folder / "named", {"IsNone": "IsNothing"})
        check(clauses_kept.differences(clauses_kept.Tree(named), new), ([], []), "what is told with the names")


def trials() -> list[Trial]:
    changes = [Trial(what, functools.partial(tried, before, then, wanted)) for what, before, then, wanted in CHANGES]
    return [*changes, Trial("what is called otherwise", called_otherwise)]


def main() -> int:
    if sys.argv[1:]:
        print(__doc__, file=sys.stderr)
        return 2
    return run("try_clauses_kept", trials())


load_tests = loads(trials)
