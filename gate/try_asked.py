"""Looks whether the wrong bodies of a crate are asked for again where something changed on which they hang, and not else.

usage: gate/try_asked

First a small repository of five crates is changed in one place at a time: its digests say whose wrong bodies hang on that
place, and each change names the crates that must be asked again, and may name those that must not. Then the same is done
to crates of this repository. Last each of its crates that has wrong bodies is looked at: each function that a source of it
imports from a crate below, each `Type::name` of an imported type, and each definition that it imports have to be among
what its digest is made of; what stands where is found here by other means than there. And no source may have a form that
the reader of sources does not know. Nothing is proved.
"""
import collections
import pathlib
import re
import shutil
import sys
import tempfile
from collections.abc import Iterable, Iterator, Mapping

from gate.tried import TOP, whole
from tools import repository

EDITS = "wrong-bodies"
FOLDERS = (*repository.PARTS, EDITS)
LOGIC = "logic 1"
# Of how many crates below one a clause is changed.
MOST_CHANGES = 3

LINES = """low:
mid: low
own: low mid
above: own
side: low
"""
FILES = {
    "low/src/lib.rt": """//! What stands lowest.
pub mod count;
pub mod deep;
mod drawn;
mod inner;
mod made;
pub mod shape;
pub mod trade;
mod wide;
pub use inner::{kept as held, plain};
pub use wide::*;
""",
    "low/src/count.rt": """ghost use Rattle.low.specs.Counts.{IsCount, IsSum};
/// How many there are.
pub fn many(xs: &[u8]) -> usize
    ensures { IsCount xs.now result }
{
    let quote = b'\\'';
    gathered(xs, quote)
}

fn gathered(xs: &[u8], quote: u8) -> usize
    ensures told { 0 ≤ result }
{
    xs.len()
}

/// Used by crates that are between.
pub fn sum(xs: &[u8]) -> usize
    ensures { IsSum xs.now result }
{
    0
}

pub fn spare(x: u8) -> u8
    ensures { result ≡ x }
{
    x
}

pub const MOST: usize = 16;

pub const fn room() -> usize {
    MOST + 1
}
""",
    "low/src/deep.rt": "pub mod well;\n",
    "low/src/deep/well.rt": "pub fn drawn(x: u8) -> u8\n    ensures deep { result ≡ x }\n{\n    x\n}\n",
    "low/src/inner.rt": """pub fn kept(x: u8) -> u8
    ensures kept { result ≡ x }
{
    x
}

pub fn plain(x: u8) -> u8
    ensures plain { result ≡ x }
{
    x
}
""",
    "low/src/wide.rt": "pub fn starred(x: u8) -> u8\n    ensures starred { result ≡ x }\n{\n    x\n}\n",
    "low/src/shape.rt": """use crate::made::Kept;

/// A shape.
pub struct Shape {
    side: u8,
    pub corners: u8,
}

pub struct Boxed {
    pub inside: Kept,
    pub(crate) hidden: u8,
}

impl Shape {
    pub fn grow(&mut self, by: u8)
        ensures grown { self.now.side ≡ by }
    {
        self.side = by;
    }

    pub fn least(&self) -> u8
        ensures least { result ≡ self.now.side }
    {
        self.side
    }

    pub fn unasked(&self) -> u8
        ensures unasked { result ≡ 1 }
    {
        1
    }

    pub fn long_name_that_is_laid_out_in_lines(
        &self,
    ) -> u8
        ensures lines { result ≡ 2 }
    {
        2
    }

    pub fn whole(self: Holder<Shape>, by: u8) -> u8
        ensures whole { result ≡ by }
    {
        by
    }
}
""",
    "low/src/drawn.rt": """use crate::shape::Shape;

impl Shape {
    pub fn made(side: u8) -> Shape
        ensures made { result.side ≡ side }
    {
        Shape { side, corners: 4 }
    }

    pub fn turned(&self, by: u8) -> u8
        ensures turned { result ≡ by }
    {
        by
    }
}
""",
    "low/src/made.rt": """pub struct Kept {
    value: u8,
}

impl Kept {
    pub fn opened(&self) -> u8
        ensures opened { result ≡ 0 }
    {
        0
    }
}

pub(crate) struct Never {
    value: u8,
}

impl Never {
    pub fn opened_never(&self) -> u8
        ensures never { result ≡ 0 }
    {
        0
    }
}
""",
    "low/src/trade.rt": """pub trait Trade {
    fn price(&self) -> u8
        ensures price { 0 ≤ result };
}
""",
    "low/specs/Lib.antt": "pub mod Counts\npub mod Sums\n",
    "low/specs/Counts.antt": """-- How many.
use Rattle.std.specs.Prelude.{ℕ, List}
use Rattle.low.specs.Sums.{total}

infixl 10 ◌<+>◌
abbrev pub ◌<+>◌ : ℕ → ℕ → ℕ
a <+> b = total a b

abbrev pub IsCount : List ℕ → ℕ → Type 0
IsCount xs n = n ≡ total xs

abbrev pub IsSum : List ℕ → ℕ → Type 0
IsSum xs n = n ≡ 7

abbrev pub unnamed : ℕ → ℕ
unnamed n = 1
""",
    "low/specs/Sums.antt": "abbrev pub total : List ℕ → ℕ\n\ntotal xs = 3\n\nabbrev pub alone : ℕ\nalone = 4\n",
    "low/proofs/Lib.antt": "mod Lemmas\n",
    "low/proofs/Lemmas.antt": "pub lemma : ℕ\nlemma = 1\n",
    "mid/src/lib.rt": """pub mod step;
pub mod tally;
mod trades;
pub use low::count::spare as handed;
pub use low::shape::Shape;
""",
    "mid/src/step.rt": """use low::count::sum;
use low::shape::Boxed;
ghost use Rattle.mid.specs.Steps.{IsStep};

/// A step of the walk.
pub struct Step {
    pub at: u8,
    ghost few: { at ≤ 9 },
}

impl Model for Step {
    ghost Value = { ℕ };
    ghost view = { λ s. s.at };
}

impl Drop for Step {
    fn drop(&mut self)
        ensures dropped { true ≡ true }
    {
    }
}

pub fn step(x: u8) -> Step
    ensures { IsStep x result.at }
{
    let _ = sum(&[x]);
    Step { at: x }
}

pub fn boxed(x: u8) -> Boxed
    ensures boxed { true ≡ true }
{
    unreachable!()
}
""",
    "mid/src/tally.rt": """macro_rules! tally {
    ($x:expr) => {
        $x.counted(1)
    };
}
pub(crate) use tally;

pub struct Tally {
    pub all: u8,
}

impl Tally {
    pub fn counted(&self, by: u8) -> u8
        ensures counted { result ≡ by }
    {
        by
    }
}
""",
    "mid/src/trades.rt": """use low::trade::Trade;

impl Trade for u64 {
    fn price(&self) -> u8
        ensures exact { result ≡ 5 }
    {
        5
    }
}

impl<X: Other> Trade for Wrapped<X> {
    fn price(&self) -> u8
        ensures wrapped { result ≡ 6 }
    {
        6
    }
}
""",
    "mid/specs/Lib.antt": "pub mod Steps\n",
    "mid/specs/Steps.antt": """use Rattle.low.specs.Sums.{total}

abbrev pub IsStep : ℕ → ℕ → Type 0
IsStep x y = x ≡ total y

pub record Walk : Type 0 where
  pub far : ℕ
""",
    "own/src/lib.rt": """use low::count::{many, room};
use low::deep;
use low::trade::Trade;
use low::{held, plain, starred};
use mid::step::{boxed, step};
use mid::tally::{Tally, tally};
use mid::{Shape, handed};
ghost use Rattle.own.specs.Own.{IsOwn};

pub struct Out {
    pub of: u8,
}

pub fn all(x: u8, shape: &mut Shape, other: &Tally) -> u8
    requires { x < 200 }
    ensures { IsOwn x result }
{
    let made = Shape::made(x);
    shape.grow(made.least());
    let lines = made.long_name_that_is_laid_out_in_lines() + made.turned(x);
    let kept = boxed(x).inside.opened() + made.whole(x) + tally!(other);
    let price = 7u64.price();
    let known = deep::well::drawn(x) + held(x) + plain(x) + starred(x) + handed(x);
    let _ = (step(x).at, many(&[x]), room(), lines, kept, price, known);
    x
}
""",
    "own/specs/Own.antt": """use Rattle.mid.specs.Steps.{Walk}

abbrev pub IsOwn : ℕ → ℕ → Type 0
IsOwn x y = (w : Walk) × x ≡ y
""",
    "own/proofs/all/Answers.antt": "pub returns : goal.returns\nreturns c = omega arith\n",
    "own/wrong-bodies/it.edit": "clause: ensures of all\nfile: src/lib.rt\nold:     x\nnew:     x + 1\n",
    "above/src/lib.rt": "use own::all;\n\npub fn more(x: u8) -> u8\n    ensures { result ≡ x }\n{\n    x\n}\n",
    "above/src/again.rt": "use own::{Out, all};\n",
    "above/wrong-bodies/it.edit": "clause: ensures of more\nfile: src/lib.rt\nold:     x\nnew:     all(x)\n",
    "mid/wrong-bodies/it.edit": "clause: ensures of step\nfile: src/step.rt\nold:     Step { at: x }\nnew:     Step { at: 0 }\n",
    "side/src/lib.rt": "use low::count::spare;\n\npub fn same(x: u8) -> u8 {\n    spare(x)\n}\n",
    "side/wrong-bodies/it.edit": "clause: ensures of same\nfile: src/lib.rt\nold:     spare(x)\nnew:     0\n",
}

# What is changed: what it is, the file, the old text and the new one, the crates that must be asked, and those that must not.
Change = tuple[str, str, str, str, str, str]
CHANGES: tuple[Change, ...] = (
    ("a body of the crate itself", "own/src/lib.rt", "x\n}", "x + 0\n}", "own", "above mid side"),
    ("a clause of the crate itself", "own/src/lib.rt", "x < 200", "x < 201", "own above", "mid side"),
    ("a file of edits", "own/wrong-bodies/it.edit", "x + 1", "x + 2", "own", "above mid side"),
    ("a file of edits below", "mid/wrong-bodies/it.edit", "at: 0", "at: 1", "mid", "own above side"),
    ("an answer of the crate itself", "own/proofs/all/Answers.antt", "omega", "search", "own", "above mid side"),
    ("a definition of the crate itself", "own/specs/Own.antt", "x ≡ y", "x ≡ x", "own above", "mid side"),
    ("a clause of a called function, directly below", "mid/src/step.rt", "IsStep x result.at", "IsStep x x", "mid own", "side"),
    ("a clause of a called function, two below", "low/src/count.rt", "IsCount xs.now result", "IsCount [] result", "own", "mid side"),
    ("a clause of a function that one between calls", "low/src/count.rt", "IsSum xs.now result", "IsSum [] result", "mid", "own side"),
    ("a definition of a clause, directly below", "mid/specs/Steps.antt", "x ≡ total y", "x ≡ total x", "mid own", "side"),
    ("a definition of a clause, two below", "low/specs/Counts.antt", "n ≡ total xs", "n ≡ n", "own", "side"),
    ("a definition that a definition uses", "low/specs/Sums.antt", "total xs = 3", "total xs = 4", "mid own", "side"),
    ("a definition that an own one uses", "mid/specs/Steps.antt", "pub far : ℕ", "pub far : Bool", "mid own", "side"),
    ("an import of a definition", "low/specs/Counts.antt", "low.specs.Sums.{total}", "low.specs.Other.{total}", "own", "side"),
    ("how an operator binds", "low/specs/Counts.antt", "infixl 10", "infixl 20", "own", "side"),
    ("a field of a type", "mid/src/step.rt", "pub at: u8", "pub at: u16", "mid own", "side"),
    ("a field of a type two below", "low/src/shape.rt", "side: u8,", "side: u16,", "own", "side"),
    ("an invariant of a type", "mid/src/step.rt", "at ≤ 9", "at ≤ 10", "mid own", "side"),
    ("what a type means", "mid/src/step.rt", "λ s. s.at", "λ s. 0", "mid own", "side"),
    ("a method of an impl of a trait", "mid/src/step.rt", "true ≡ true }\n    {\n    }", "true ≡ false }\n    {\n    }", "mid own", "side"),
    ("a method behind a point, with an argument", "low/src/shape.rt", "self.now.side ≡ by", "self.now.side ≡ 0", "own", "side"),
    ("a method behind a point, without one", "low/src/shape.rt", "result ≡ self.now.side", "result ≡ 0", "own", "side"),
    ("a method that is laid out in lines", "low/src/shape.rt", "ensures lines { result ≡ 2 }", "ensures lines { result ≡ 3 }", "own", "side"),
    ("a method whose self has a type", "low/src/shape.rt", "ensures whole { result ≡ by }", "ensures whole { true ≡ true }", "own", "side"),
    ("a method of a public type in a private module", "low/src/drawn.rt", "ensures turned { result ≡ by }", "ensures turned { result ≡ 0 }", "own", "side"),
    ("a function of a type", "low/src/drawn.rt", "result.side ≡ side", "result.side ≡ 0", "own", "side"),
    ("a method of what a public field holds", "low/src/made.rt", "opened { result ≡ 0 }", "opened { result ≡ 1 }", "own", "side"),
    ("a method that a macro calls", "mid/src/tally.rt", "counted { result ≡ by }", "counted { result ≡ 0 }", "mid own", "side"),
    ("a macro", "mid/src/tally.rt", "$x.counted(1)", "$x.counted(2)", "mid own", "side"),
    ("a clause of a trait", "low/src/trade.rt", "0 ≤ result", "1 ≤ result", "mid own", "side"),
    ("an impl for a type of the kit", "mid/src/trades.rt", "exact { result ≡ 5 }", "exact { result ≡ 4 }", "mid own", "side"),
    ("an impl for all types", "mid/src/trades.rt", "wrapped { result ≡ 6 }", "wrapped { result ≡ 4 }", "mid own", "side"),
    ("a function that the root hands on", "low/src/inner.rt", "plain { result ≡ x }", "plain { result ≡ 0 }", "own", "side"),
    ("a function that is handed on by another name", "low/src/inner.rt", "kept { result ≡ x }", "kept { result ≡ 0 }", "own", "side"),
    ("a function that another crate hands on", "low/src/count.rt", "    ensures { result ≡ x }", "    ensures { true ≡ true }", "own side", ""),
    ("a function that is handed on by a star", "low/src/wide.rt", "starred { result ≡ x }", "starred { result ≡ 0 }", "own", "side"),
    ("what a root hands on", "low/src/lib.rt", "kept as held", "plain as held", "own", ""),
    ("a function of a module in a module", "low/src/deep/well.rt", "result ≡ x", "result ≡ 0", "own", "side"),
    ("a constant function", "low/src/count.rt", "MOST + 1", "MOST + 2", "own", ""),
    ("a constant", "low/src/count.rt", "usize = 16", "usize = 17", "own", ""),
    ("what its line in crates.txt says beside its names", "crates.txt", "own: low mid", "own may_wait=1: low mid", "own above", "low mid side"),
    ("a body below", "low/src/count.rt", "    0\n}", "    1\n}", "", "own mid above side"),
    ("a body below that has a quote", "low/src/count.rt", "gathered(xs, quote)", "gathered(xs, quote) + 0", "", "own mid above side"),
    ("a clause of a private function", "low/src/count.rt", "told { 0 ≤ result }", "told { 1 ≤ result }", "", "own mid above side"),
    ("a comment low down", "low/src/count.rt", "/// How many there are.", "/// How many there are now. {", "", "own mid above side"),
    ("a comment of definitions", "low/specs/Counts.antt", "-- How many.", "-- How many are there?", "", "own mid above side"),
    ("a new function that nobody calls", "low/src/count.rt", "pub const MOST", "pub fn fresh(x: u8) -> u8\n    ensures { result ≡ x }\n{\n    x\n}\n\npub const MOST", "", "own mid above side"),
    ("a new method that nobody calls", "low/src/shape.rt", "    pub fn unasked", "    pub fn fresh(&self) -> u8 {\n        0\n    }\n\n    pub fn unasked", "", "own mid above side"),
    ("a method that nobody calls", "low/src/shape.rt", "unasked { result ≡ 1 }", "unasked { result ≡ 2 }", "", "own mid above side"),
    ("a method of a type that nobody outside has", "low/src/made.rt", "never { result ≡ 0 }", "never { result ≡ 1 }", "", "own mid above side"),
    ("a definition that nobody names", "low/specs/Counts.antt", "unnamed n = 1", "unnamed n = 2", "", "own mid above side"),
    ("another definition of a file", "low/specs/Sums.antt", "alone = 4", "alone = 5", "", "own mid above side"),
    ("a lemma below", "low/proofs/Lemmas.antt", "lemma = 1", "lemma = 2", "", "own mid above side"),
    ("a new module", "low/src/lib.rt", "pub mod shape;", "pub mod shape;\npub mod shapes;", "", "own mid above side"),
    ("a crate beside it", "side/src/lib.rt", "spare(x)\n", "spare(x) + 0\n", "side", "own mid above"),
)


def digests(top: pathlib.Path, names: Iterable[str]) -> dict[str, str]:
    """The digests of these crates of the repository at this folder, as it is now."""
    lines = repository.crates(top)
    return {it: repository.digest(top, lines, it, LOGIC, EDITS) for it in names}


def written(top: pathlib.Path, files: Mapping[str, str], lines: str) -> None:
    """Makes a repository of these files at this folder."""
    for name, text in {**{f"crates/{it}": text for it, text in files.items()}, "crates.txt": lines}.items():
        (top / name).parent.mkdir(parents=True, exist_ok=True)
        (top / name).write_text(text, encoding="utf-8")


def faults_of_change(top: pathlib.Path, before: Mapping[str, str], change: Change) -> list[str]:
    """What is wrong after one change of the repository at this folder, which is taken back."""
    what, name, old, new, asked, silent = change
    path = top / (name if name == "crates.txt" else f"crates/{name}")
    text = path.read_text(encoding="utf-8")
    if text.count(old) != 1:
        return [f"{what}: `{old}` stands {text.count(old)} times in {name}"]
    path.write_text(text.replace(old, new), encoding="utf-8")
    folder = next((it for it in path.parents if it.parent == top / "crates"), None)
    # (only the crate that is changed is read again)
    kept = repository.READ.pop(folder, None) if folder else None
    after = digests(top, before)
    path.write_text(text, encoding="utf-8")
    if folder and kept is None:
        repository.READ.pop(folder, None)
    elif folder and kept is not None:
        repository.READ[folder] = kept
    found = {it for it in before if before[it] != after[it]}
    wrong = [f"{what} ({name}): {it} is not asked again" for it in asked.split() if it not in found]
    return wrong + [f"{what} ({name}): {it} is asked again" for it in silent.split() if it in found]


def small_faults(top: pathlib.Path) -> dict[str, list[str]]:
    """What is said of each change of the small repository."""
    written(top, FILES, LINES)
    before = digests(top, repository.crates(top))
    said = {f"small: {it[0]}": faults_of_change(top, before, it) for it in CHANGES}
    other = {it: repository.digest(top, repository.crates(top), it, "logic 2", EDITS) for it in before}
    said["small: the logic of the kit"] = [f"{it} is not asked again where the logic changes" for it in before if before[it] == other[it]]
    return said


# Forms of sources that the reader of sources does not know, by what they are.
UNKNOWN = {
    "a path of `super`": r"\bsuper\b",
    "a module within a file": r"^\s*(?:pub(?:\(\w+\))? )?mod \w+ \{",
    "a comment between signs": r"/\*",
    "a text without escapes": r"\br#*\"",
    "braces in the braces of an import": r"^\s*(?:pub )?use [^;]*\{[^;{}]*\{",
    "a crate by another name": r"\bextern crate\b|^\s*(?:pub )?use \w+ as ",
}
# An import of a source from a crate, as its path, and a name or several; of definitions the same.
SOURCE_IMPORT = re.compile(r"^\s*(?:pub )?use (\w+)((?:::\w+)*)::(?:(\w+)|\{([^{}]*)\})(?: as \w+)?;", re.M)
SPEC_IMPORT = re.compile(r"\buse Rattle\.(\w+)\.specs\.(?!declared\b)([\w.]+?)\.\{([^{}]*)\}")


def source(path: pathlib.Path) -> str:
    """The text of a source, without its comments and texts, as lines."""
    return re.sub(r"//[^\n]*|(?<!')\"(?:\\.|[^\"\\])*\"", "", path.read_text(encoding="utf-8"))


class Tree:
    """What this repository says, read line by line."""

    def __init__(self) -> None:
        self.lines = repository.crates()
        self.sources = {name: {it: source(it) for it in repository.files(TOP / "crates" / name / "src")} for name in self.lines}
        # Where each public function of a crate is, and each that is in an impl of a type, with that type.
        self.functions: collections.defaultdict[tuple[str, str], list[pathlib.Path]] = collections.defaultdict(list)
        self.methods: collections.defaultdict[tuple[str, str | None, str], list[pathlib.Path]] = collections.defaultdict(list)
        for name, sources in self.sources.items():
            for path, text in sources.items():
                holder: str | None = None
                for line in text.split("\n"):
                    if head := re.match(r"(?:unsafe )?impl(?:<.*>)? (?:(?!.*\bfor\b)|.*\bfor )&?(?:mut )?([A-Z]\w*)", line):
                        holder = head[1]
                    elif line.startswith("}"):
                        holder = None
                    elif found := re.match(r"( *)pub (?:const )?(?:unsafe )?fn (\w+)", line):
                        where = self.methods[name, holder, found[2]] if found[1] else self.functions[name, found[2]]
                        where.append(path)

    def own(self, name: str) -> str:
        """The crate's own sources as one text."""
        return "\n".join(self.sources[name].values())

    def faults(self, name: str) -> list[str]:
        """What of the crates below is called or named by a crate, and is not among what its digest is made of."""
        found, _ = repository.parts_named(TOP, self.lines, name, FOLDERS)
        texts: collections.defaultdict[pathlib.Path, str] = collections.defaultdict(str)
        for it in found:
            texts[TOP / "crates" / it.crate / it.path] += it.text + "\n"
        own, below = self.own(name), repository.below(self.lines, name)
        wrong: list[str] = []
        for crate, _, one, several in SOURCE_IMPORT.findall(own):
            for item in (one or several).split(",") if crate in below else ():
                item = item.split(" as ")[0].strip()
                for path in self.functions[crate, item]:
                    if len(self.functions[crate, item]) == 1 and not re.search(rf"\bfn {item}\b", texts[path]):
                        wrong.append(f"{name}: not asked again for {item} of {path.relative_to(TOP)}")
                for called in set(re.findall(rf"\b{item}(?:::<[^<>]*>)?::(\w+)\(", own)) if item[:1].isupper() else ():
                    for path in (it for other in [crate, *below] for it in self.methods[other, item, called] if other == crate or not self.has_type(crate, item)):
                        if not re.search(rf"\bfn {called}\b", texts[path]):
                            wrong.append(f"{name}: not asked again for {item}::{called} of {path.relative_to(TOP)}")
        definitions = own + "\n".join(it.read_text(encoding="utf-8") for it in repository.files(TOP / "crates" / name / "specs"))
        for crate, module, items in set(SPEC_IMPORT.findall(definitions)):
            path = TOP / "crates" / crate / "specs" / f"{module.replace('.', '/')}.antt"
            if crate == name or not path.is_file():
                continue
            for item in items.split(","):
                word = re.escape(item.split(" as ")[0].strip())
                for line in re.findall(rf"^(?:(?:pub|abbrev|record|data|unfoldable|opaque) )*{word} .*$", path.read_text(encoding="utf-8"), re.M):
                    if line not in texts[path]:
                        wrong.append(f"{name}: not asked again for `{line}` of {path.relative_to(TOP)}")
        return sorted(set(wrong))

    def has_type(self, crate: str, item: str) -> bool:
        return any(re.search(rf"^\s*pub (?:struct|enum|trait) {item}\b", it, re.M) for it in self.sources[crate].values())

    def changes(self, name: str) -> Iterator[Change]:
        """Changes of this repository, as those of the small one, that have to do with this crate and those below it: a clause
        of a function of each of some crates whose functions it imports, and what asks nobody."""
        below = repository.below(self.lines, name)
        met: dict[str, tuple[str, pathlib.Path, str]] = {}
        for crate, _, one, several in SOURCE_IMPORT.findall(self.own(name)):
            for item in (it.strip() for it in (one or several).split(",")) if crate in below and crate not in met else ():
                for path in self.functions[crate, item]:
                    text = path.read_text(encoding="utf-8")
                    # With its attributes, so that what is put before it does not get them.
                    clause = re.search(rf"^(?:#\[.*\n)*pub fn {item}\b[^{{}}]*?\n    ensures (?:\w+ )?\{{ ", text, re.M)
                    if clause and text.count(clause[0]) == 1:
                        met.setdefault(crate, (item, path, clause[0]))
        for crate, (item, path, asked) in list(met.items())[:MOST_CHANGES]:
            file = str(path.relative_to(TOP / "crates"))
            yield f"{name}: a clause of {crate}::{item}", file, asked, f"{asked}(1 ≡ 1) × ", name, ""
            yield f"{name}: a comment of {crate}::{item}", file, asked, f"// It says more. {{\n{asked}", "", name
            yield f"{name}: a new function beside {crate}::{item}", file, asked, f"pub fn brand_new_one() {{}}\n\n{asked}", "", name
        edit = repository.files(TOP / "crates" / name / EDITS)[0]
        first = edit.read_text(encoding="utf-8").partition("\n")[0]
        yield f"{name}: one of its edits", str(edit.relative_to(TOP / "crates")), f"{first}\n", f"{first} \n", name, ""
        root = TOP / "crates" / name / "src/lib.rt"
        yield f"{name}: its root", str(root.relative_to(TOP / "crates")), "#![tactic(auto)]\n", "#![tactic(auto)]\n\n", name, ""

    def faults_of_changes(self, top: pathlib.Path) -> dict[str, list[str]]:
        """What is said of these changes, each made in a copy at this folder. Only the crate that is changed is copied."""
        named = [it for it in self.lines if (TOP / "crates" / it / EDITS).is_dir() and (TOP / "crates" / it / "src/lib.rt").is_file()]
        ranked = sorted(named, key=lambda it: (len(repository.below(self.lines, it)), it))
        said: dict[str, list[str]] = {}
        (top / "crates").mkdir(parents=True)
        shutil.copyfile(TOP / "crates.txt", top / "crates.txt")
        for it in self.lines:
            (top / "crates" / it).symlink_to(TOP / "crates" / it)
        for name in (ranked[-1], ranked[len(ranked) // 2]):
            before = digests(top, [name])
            for change in self.changes(name):
                at = top / "crates" / change[1].partition("/")[0]
                at.unlink()
                for folder in (it for it in FOLDERS if (TOP / "crates" / at.name / it).is_dir()):
                    shutil.copytree(TOP / "crates" / at.name / folder, at / folder)
                said[change[0]] = faults_of_change(top, before, change)
                shutil.rmtree(at)
                at.symlink_to(TOP / "crates" / at.name)
        return said


def tree_faults(top: pathlib.Path) -> dict[str, list[str]]:
    """What is said of this repository, and of changes of a copy of it at this folder."""
    tree = Tree()
    said = {f"what {it} names": tree.faults(it) for it in tree.lines if (TOP / "crates" / it / EDITS).is_dir()}
    for what, form in UNKNOWN.items():
        places = [path for sources in tree.sources.values() for path, text in sources.items() if re.search(form, text, re.M)]
        said[f"no {what}"] = [f"{it.relative_to(TOP)} has {what}, which tools/repository.py cannot read" for it in places]
    return said | tree.faults_of_changes(top)


def main() -> int:
    if sys.argv[1:]:
        print(__doc__, file=sys.stderr)
        return 2
    said: dict[str, list[str]] = {}
    with tempfile.TemporaryDirectory(prefix="asked-") as folder:
        said |= small_faults(pathlib.Path(folder, "small"))
        said |= tree_faults(pathlib.Path(folder, "copy"))
    for line in (line for lines in said.values() for line in lines):
        print(line)
    failed = sum(bool(it) for it in said.values())
    print(f"try_asked: {len(said) - failed} passed, {failed} failed")
    return 1 if failed else 0


load_tests = whole(main)
