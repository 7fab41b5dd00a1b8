"""Says what is believed of the program that runs, as far as its sources tell: what `pathserve keep` reaches that has no
contract, where what is proved says nothing at the types that it uses, which premises of laws nobody supplies, and how
long the statement is that a reader has to take as it is.

usage: gate/assumptions           prints it
       gate/assumptions --names   prints each name, as gate/assumptions.txt has them
       gate/assumptions --write   writes these, and what it prints into docs/PROMISES.md; gate/try_assumptions compares

- **Functions.** Those of crates/*/src that `main` of pathserve reaches, but for the ways of the other subcommands
  (`LEFT_OUT`). A function without `ensures` has no contract of its own; what a trait of ours says counts as one, and
  what a trait of the kit says is not read, so those are told apart. A clause may say little: that is not weighed.
- **Ghosts.** Each member of an impl that is `None`, ⊥, Unit, 0 or `[]`, at a type that these functions may use: then the
  clauses that speak of it say nothing, or what nothing is behind. Of the kit's own types nothing is read.
- **Premises.** What stands before the last arrow of each law of `history_law`, and the `requires` of its functions, by
  the word at its head; and which `ensures` of the functions above have that word. That a clause names a word does not
  mean that it supplies the premise; where none does, nobody does. A premise that is in a definition is not unfolded.
- **The statement.** The definitions of specs/ that the crash laws and the contract of `serve_to_end` lead to, by the
  names in them and their imports, and the types of sources among these; comments and blank lines are not counted. And
  what docs/PROMISES.md has as taken for granted.

Calls are found by names, with the type of what stands before the point where the source says it (`self`, its fields,
the parameters); else all methods of that name of all types that may be used are taken, so that too much is reached
rather than too little. How often is told at the end.
"""
import argparse
import collections
import dataclasses
import pathlib
import re
from collections.abc import Iterable, Iterator, Mapping, Sequence

from gate import parsed
from gate.parsed import Definition, Function, Held, Source, Specs, Stated
from gate.tried import TOP
from tools import repository

NAMES = "gate/assumptions.txt"
PAGE = "docs/PROMISES.md"
HEADING = "## What is believed, counted"
PROGRAM, ROOT, LAWS = "pathserve", "main", "history_law"
# Functions of the program's own crate, or that it calls, by which it goes other ways than that of `keep`.
LEFT_OUT = ("pathserve::run", "command_tool::start::prepare_server", "command_tool::serve::serve_objects",
            "command_tool::start::stop_with_input")
# What those ways alone have: a type that is named where they begin, and what it holds.
TYPES_LEFT_OUT = ("ServerStart",)
# The contract, and the laws, of which the statement is.
CONTRACT, CRASH = "serve_to_end", "crash_"
# What a ghost member says where it says nothing, or one thing whatever is so.
EMPTY = {"None": "nothing is told", "⊥": "holds of nothing", "Unit {0}": "holds of anything", "Unit": "holds of anything",
         "0": "always 0", "[]": "always []"}
NAMED = re.compile(r"(?:(?<!\w)([^\W\d]\w*)\s*::\s*)?(?<![\w'])([^\W\d]\w*)")
CALL = re.compile(
    r"(?P<before>(?:(?<![.\w])[^\W\d]\w*\s*\.(?!\.)\s*(?:[^\W\d]\w*\s*\.(?!\.)\s*)*)?)(?P<point>(?<!\.)\.(?!\.)\s*)?"
    r"(?P<path>(?:[^\W\d]\w*\s*(?:::\s*<[^<>()]*(?:<[^<>()]*>[^<>()]*)*>\s*)?::\s*)*)(?P<name>[^\W\d]\w*)"
    r"(?P<call>\s*(?:::\s*<[^()]*?>\s*)?\()?"
)
WORDS_OF_RUST = frozenset(
    "as async await break const continue crate dyn else enum extern false fn for if impl in let loop match mod move mut"
    " pub ref return self Self static struct super trait true type unsafe use where while ghost".split()
)


class Program:
    """The sources of the crates that the program stands on, and what may be called by a name in them."""

    def __init__(self, top: pathlib.Path) -> None:
        self.lines = repository.crates(top)
        self.crates = [*repository.below(self.lines, PROGRAM), PROGRAM]
        self.below = {it: {*repository.below(self.lines, it), it} for it in self.crates}
        self.sources = [it for name in self.crates for it in parsed.sources_of(top / "crates" / name)]
        self.source_of = {(it.crate, it.path): it for it in self.sources}
        self.functions = [it for source in self.sources for it in source.functions if not it.is_test]
        held = [it for source in self.sources for it in source.held if not it.is_test]
        self.types = {it.name: it for it in held if it.kind in ("struct", "enum", "union")}
        self.traits = {it.name: it for it in held if it.kind == "trait"}
        self.impls = [it for it in held if it.kind == "impl"]
        self.others = {name: text for source in self.sources for name, text in source.others.items()}
        self.place_of_other = {name: (it.crate, it.path) for it in self.sources for name in it.others}
        self.free: dict[str, list[Function]] = collections.defaultdict(list)
        self.methods: dict[str, list[Function]] = collections.defaultdict(list)
        self.of_type: dict[tuple[str, str], list[Function]] = collections.defaultdict(list)
        for it in self.functions:
            if it.holder:
                self.methods[it.name].append(it)
                self.of_type[it.holder, it.name].append(it)
            else:
                self.free[it.name].append(it)
        self.of_kit: dict[str, list[Function]] = collections.defaultdict(list)
        for it in self.functions:
            if self.is_of_kit(it):
                self.of_kit[it.holder].append(it)
        # The types that a source may name, by the names that it has for them.
        self.known = {(it.crate, it.path): known_types(it) for it in self.sources}
        # The fields of structs, each with its type.
        self.fields = {name: fields_of(it.text) for name, it in self.types.items() if it.kind == "struct"}

    def is_of_kit(self, it: Function) -> bool:
        """Whether a function is of an impl for a trait that is none of ours."""
        return bool(it.trait) and it.trait not in self.traits

    def contract(self, it: Function) -> list[Stated]:
        """What a function ensures, by itself or by its trait of ours."""
        found = it.ensures()
        if it.trait and it.trait != it.holder:
            found = [*found, *(one for other in self.of_type.get((it.trait, it.name), ()) for one in other.ensures())]
        return found


def known_types(source: Source) -> dict[str, str]:
    """The types that a source declares or imports, or another name for one, by the names that it has for them."""
    own = [*(it.name for it in source.held if it.kind in ("struct", "enum", "union")), *source.others]
    return {**{name: path.rpartition("::")[2] for name, path in source.imports.items()}, **{it: it for it in own}}


def payloads(text: str) -> str:
    """What the variants of an enum hold."""
    inside = re.search(r"\{(.*)\}\s*$", text, re.S)
    rows = parsed.apart(re.sub(r"#\[[^]]*\]", "", inside[1])) if inside else []
    return " ".join(re.sub(r"^\w+", "", it) for it in rows)


def fields_of(text: str) -> dict[str, str]:
    """The fields of a struct with this text, each with its type."""
    found = re.search(r"\{(.*)\}\s*$", text, re.S)
    rows = parsed.apart(re.sub(r"#\[[^]]*\]", "", found[1])) if found else []
    pairs = (re.fullmatch(r"(?:pub(?:\([^)]*\))?\s+)?(\w+)\s*:\s*(.*)", it, re.S) for it in rows)
    return {it[1]: it[2] for it in pairs if it}


def parameters_of(head: str) -> dict[str, str]:
    """The parameters of a function with this head, each with its type."""
    rest = parsed.without_generics(re.sub(r"^\w+", "", head))
    depth = 0
    for at, it in enumerate(rest):
        depth += (it == "(") - (it == ")")
        if not depth:
            break
    else:
        return {}
    pairs = (re.fullmatch(r"(?:mut\s+)?(\w+)\s*:\s*(.*)", it, re.S) for it in parsed.apart(rest[1:at]))
    return {it[1]: it[2] for it in pairs if it}


def bounds_of(text: str) -> dict[str, set[str]]:
    """The traits of which the type parameters are said to be that a head names: `W: Outside + Drop`."""
    found: dict[str, set[str]] = collections.defaultdict(set)
    for name, traits in re.findall(r"\b([A-Z]\w*)\s*:\s*((?:[^,<>{}()=]|<[^<>]*>)+)", text):
        found[name] |= {parsed.head_of(it) for it in traits.split("+")}
    return found


class Reach:
    """What the program reaches from a function on."""

    def __init__(self, program: Program, roots: Iterable[Function], left_out: Sequence[str]) -> None:
        self.program, self.left_out = program, left_out
        self.reached: dict[int, Function] = {}
        self.live: set[str] = set()
        # Methods that are called on what nobody says the type of, by name and by who calls: and how many were taken so.
        self.pending: dict[str, set[str]] = collections.defaultdict(set)
        self.several: set[tuple[int, str]] = set()
        self.left: set[str] = set()
        self.waiting: list[Function] = []
        for it in roots:
            self.reach(it)
        while self.waiting:
            while self.waiting:
                self.look(self.waiting.pop())
            self.settle()

    def reach(self, it: Function) -> None:
        if it.title() in self.left_out:
            self.left.add(it.title())
        elif id(it) not in self.reached:
            self.reached[id(it)] = it
            self.waiting.append(it)

    def use(self, place: tuple[str, str], text: str) -> None:
        """A text of this source names types: they, and what they hold, may be used."""
        known = self.program.known[place]
        for before, word in NAMED.findall(text):
            # (behind a type stands a variant, or what is its own)
            name = word if before[:1].islower() and before not in ("self", "std") else "" if before else known.get(word, "")
            if name in self.live or name in TYPES_LEFT_OUT:
                continue
            if name in self.program.others:
                self.live.add(name)
                self.use(self.program.place_of_other[name], self.program.others[name])
            elif name in self.program.types:
                self.live.add(name)
                it = self.program.types[name]
                self.use((it.crate, it.path), payloads(it.text) if it.kind == "enum" else it.text)

    def settle(self) -> None:
        """Reaches what is called of the types that may be used."""
        for name, crates in self.pending.items():
            for it in self.program.methods.get(name, ()):
                if self.may_be(it, crates):
                    self.reach(it)
        for name in list(self.live):
            for it in self.program.of_kit.get(name, ()):
                self.reach(it)

    def may_be(self, it: Function, crates: Iterable[str]) -> bool:
        """Whether a method may be the one that these crates call by its name."""
        if it.holder in self.program.traits:
            return it.body is not None and any(it.crate in self.program.below[by] for by in crates)
        if it.trait:
            there = self.program.traits.get(it.trait)
            known = there is None or any(there.crate in self.program.below[by] for by in crates)
            return known and (it.holder in self.live or it.holder not in self.program.types)
        return it.holder in self.live and any(it.crate in self.program.below[by] for by in crates)

    def look(self, by: Function) -> None:
        """Reaches what a function calls."""
        text = by.body or ""
        self.use((by.crate, by.path), f"{by.head} {by.around} {by.holder} {text}")
        source = self.program.source_of[by.crate, by.path]
        parameters = parameters_of(by.head)
        bound = {*parameters, *re.findall(r"\b(?:let|for|mut|ref)\s+(\w+)\b", text), *re.findall(r"\|\s*&?(\w+)", text)}
        for found in CALL.finditer(strings_out(text)):
            name, path = found["name"], [it for it in re.sub(r"<.*?>+", "", found["path"]).replace(" ", "").split("::") if it]
            if name in WORDS_OF_RUST:
                continue
            before = found["before"].strip()
            if path:
                self.by_path(by, source, path, name)
            elif before or found["point"]:
                if found["call"]:
                    self.by_point(by, parameters, before, name)
            elif found["call"] or name not in bound:
                self.by_name(by, source, name)

    def by_name(self, by: Function, source: Source, name: str) -> None:
        """A function is named by its name alone."""
        own = [it for it in self.program.free.get(name, ()) if (it.crate, it.path, it.module) == (by.crate, by.path, by.module)]
        if own or name not in source.imports:
            for it in own:
                self.reach(it)
            return
        *path, real = source.imports[name].split("::")
        self.by_module(by, path, real)

    def by_module(self, by: Function, path: Sequence[str], name: str) -> None:
        """A function is named behind a path of modules: those that are there, or all of that name where it is handed on."""
        there = [it for it in self.program.free.get(name, ()) if it.crate in self.program.below[by.crate]]
        crate = by.crate if path[:1] in (["crate"], ["self"], ["super"]) else path[0] if path else by.crate
        modules = tuple(it for it in path[1:] if it not in ("self", "super"))
        exact = [it for it in there if it.crate == crate and it.module == modules]
        inside = [it for it in there if it.crate == crate and it.module[-1:] == (modules[-1:] or it.module[-1:])]
        known = crate in self.program.below
        taken = exact or inside or [it for it in there if it.crate == crate] or (there if known else [])
        if len(taken) > 1:
            self.several.add((id(by), name))
        for it in taken:
            self.reach(it)

    def by_path(self, by: Function, source: Source, path: Sequence[str], name: str) -> None:
        """A function is named behind a path: of a type, a trait, a parameter, or a module."""
        last = path[-1]
        if last == "Self":
            last = by.holder
        elif len(path) == 1 and last in source.imports:
            full = source.imports[last].split("::")
            path, last = full, full[-1]
        last = parsed.head_of(self.program.others.get(last, last))
        if last in self.program.types or last in self.program.traits:
            self.of_one(by, last, name)
        elif (traits := bounds_of(f"{by.head} {by.around}").get(last)):
            for it in traits:
                self.of_one(by, it, name)
        elif last[:1].islower() and last not in ("std",):
            self.by_module(by, path if len(path) > 1 or path[0] in self.program.below else ["crate", *path], name)

    def of_one(self, by: Function, name: str, method: str) -> bool:
        """A method of a type or a trait of ours is called. False: it has none of this name."""
        found = self.program.of_type.get((name, method), [])
        if name in self.program.traits and found:
            self.pending[method].add(by.crate)
            return True
        for it in found:
            self.reach(it)
        if not found and any(it.trait in self.program.traits for it in self.program.impls if it.name == name):
            defaults = [it for it in self.program.methods.get(method, ()) if it.holder in self.program.traits and it.body is not None]
            for it in defaults:
                self.reach(it)
            return bool(defaults)
        return bool(found)

    def by_point(self, by: Function, parameters: dict[str, str], before: str, name: str) -> None:
        """A method is called on something: of its type, where that is said; else of all types that may be used."""
        if name not in self.program.methods:
            return
        told = self.type_before(by, parameters, before)
        if told is not None:
            traits = bounds_of(f"{by.head} {by.around}").get(told, {told})
            if all(self.of_one(by, it, name) for it in traits if it in self.program.types or it in self.program.traits):
                return
        self.pending[name].add(by.crate)
        if len({it.holder for it in self.program.methods[name] if it.holder in self.live}) > 1:
            self.several.add((id(by), name))

    def type_before(self, by: Function, parameters: dict[str, str], before: str) -> "str | None":
        """The type of what stands before a point, where it is `self`, a parameter, or a field of these; or None."""
        steps = [it.strip() for it in before.rstrip(". ").split(".")]
        if not all(re.fullmatch(r"\w+", it) for it in steps):
            return None
        text = by.holder if steps[0] == "self" else parameters.get(steps[0])
        for step in steps[1:]:
            text = self.program.fields.get(parsed.head_of(self.program.others.get(text or "", text or "")), {}).get(step)
        if not text:
            return None
        return parsed.head_of(self.program.others.get(parsed.head_of(text), text))


def strings_out(text: str) -> str:
    """A body in which each string and character is empty."""
    return "".join('""' if it[0] in "\"'" and len(it) > 1 else it for it in parsed.PIECE.findall(text))


# A file of definitions, by its crate and its modules; and a text that leads to definitions, with the imports by which it
# does, and the file of definitions that it is of, if it is of one.
Place = tuple[str, tuple[str, ...]]
Lead = tuple[str, dict[str, str], "Place | None"]


class Statement:
    """The definitions, and the types of sources, to which what is stated leads."""

    def __init__(self, top: pathlib.Path, crates: Sequence[str], sources: Iterable[Source]) -> None:
        self.specs = {(it.crate, pathlib.PurePath(it.path).with_suffix("").parts[1:]): it
                      for name in crates for it in parsed.specs_of(top / "crates" / name)}
        self.definitions = {(*place, name): it for place, specs in self.specs.items() for it in specs.definitions for name in it.names}
        self.sources = {(it.crate, it.path): it for it in sources}
        kinds = ("struct", "enum", "union")
        self.types = {it.name: it for source in self.sources.values() for it in source.held if it.kind in kinds and not it.is_test}
        self.models = {it.name: it for source in self.sources.values() for it in source.held if it.kind == "impl" and it.trait == "Model"}
        self.known = {place: known_types(it) for place, it in self.sources.items()}
        # What was found, each once.
        self.found: dict[int, Definition] = {}
        self.found_types: dict[str, Held] = {}

    def lead(self, text: str, imports: dict[str, str], own: "Place | None" = None) -> None:
        """Follows each name of a text, by what these imports give it, or by the file that it stands in."""
        waiting: list[Lead] = [(text, imports, own)]
        while waiting:
            text, imports, own = waiting.pop()
            for path in paths_in(text, imports, self.specs[own] if own else None):
                if (it := self.definition(path)) and id(it) not in self.found:
                    self.found[id(it)] = it
                    place = (it.crate, pathlib.PurePath(it.path).with_suffix("").parts[1:])
                    waiting.append((it.text, self.specs[place].imports, place))
                elif name := self.type_at(path):
                    waiting += self.of_type(name)

    def definition(self, path: str) -> "Definition | None":
        """The definition at a path, or the one whose field or constructor is there."""
        _, crate, _, *rest = (path.split(".") + ["", "", ""])[: max(3, path.count(".") + 1)]
        rest = [it for it in rest if it]
        for size in (len(rest), len(rest) - 1):
            if size > 0 and (it := self.definitions.get((crate, tuple(rest[: size - 1]), rest[size - 1]))):
                return it
        return None

    def type_at(self, path: str) -> str:
        parts = path.split(".")
        return next((it for it in parts if it in self.types), "") if "declared" in parts else ""

    def of_type(self, name: str) -> list[Lead]:
        """What a type of a source leads to: the types that it holds, and what it is a model of."""
        waiting, more = [name], list[Lead]()
        while waiting:
            it = self.types[waiting.pop()]
            if it.name in self.found_types:
                continue
            self.found_types[it.name] = it
            known = self.known[it.crate, it.path]
            waiting += [real for _, word in NAMED.findall(it.text) if (real := known.get(word, "")) in self.types]
            for held in (it, self.models.get(it.name)):
                if held:
                    more += [(one.text, self.sources[held.crate, held.path].ghosts, None) for one in held.members]
        return more


def paths_in(text: str, imports: dict[str, str], own: "Specs | None") -> Iterator[str]:
    """The paths of what the words of a text name."""
    there = {name: f"Rattle.{own.crate}.{own.path[:-5].replace('/', '.')}.{name}" for it in own.definitions for name in it.names} if own else {}
    for before, word in re.findall(r"(?:([^\W\d][\w']*)\.)?([^\W\d][\w']*)", text):
        if before:
            if before in imports:
                yield f"{imports[before]}.{word}"
            elif before in there:
                yield there[before]
        elif path := imports.get(word) or there.get(word):
            yield path
    for name, path in [*imports.items(), *there.items()]:
        if "◌" in name and name.strip("◌") in text:
            yield path


@dataclasses.dataclass(frozen=True)
class Premise:
    """A premise as it is told in short, and what a clause would name that says so: the definition at a path, or a field of
    a type of sources."""

    short: str
    path: str = ""
    type: str = ""
    field: str = ""


class Laws:
    """The laws, each by its name with what it takes as so."""

    def __init__(self, sources: Iterable[Source], statement: Statement) -> None:
        self.statement = statement
        self.required: list[Function] = []
        self.premises: dict[str, list[Premise]] = {}
        # The laws whose statement is a record or a type, of which the premises are not told.
        self.untold: list[str] = []
        for source in sources:
            for it in (it for it in source.functions if it.ensures() and not it.is_test):
                self.required += [it] if any(one.kind == "requires" for one in it.stated) else []
                for stated in it.ensures():
                    self.take(f"{'::'.join(it.module)}::{it.name}", stated, source)

    def take(self, name: str, stated: Stated, source: Source) -> None:
        text, imports = stated.text, source.ghosts
        own: Specs | None = None
        label = f"{name}: {stated.label}" if stated.label else name
        if re.fullmatch(r"[\w']+", text):
            found = self.statement.definition(imports.get(text, ""))
            told = re.search(rf"(?m)^{text}\b[^=\n]*=((?:.|\n)*)", found.text) if found else None
            if not found or not told:
                self.untold.append(label)
                return
            own = self.statement.specs[found.crate, pathlib.PurePath(found.path).with_suffix("").parts[1:]]
            text, imports = told[1], own.imports
        types = {one: it.strip() for names, it in re.findall(r"[({]([^(){}:]+) : ([^(){}]+)[)}]", text) for one in names.split()}
        found_premises = parsed.premises(text)[0]
        self.premises[label] = parsed.unique(premise_of(part, types, imports, own) for it in found_premises for part in factors(it))


def premise_of(text: str, types: Mapping[str, str], imports: dict[str, str], own: "Specs | None") -> Premise:
    """A premise, by the word at its head: of what follows, where it has premises itself."""
    while text.startswith("(") and text.endswith(")") and closes_last(text):
        text = text[1:-1].strip()
    inner, last = parsed.premises(text)
    if inner or last != parsed.plain(text):
        return premise_of(last, types, imports, own)
    words = [it for it in re.findall(r"[^\W\d][\w'.]*", last) if it not in ("λ", "true", "false")]
    if not words:
        return Premise(last)
    path = next(paths_in(words[0], imports, own), "")
    if not (sign := re.search(r" (≡|≢|≤|<) (.*)", last)):
        return Premise(words[0], path)
    whose, _, field = words[0].rpartition(".")
    behind = sign[2] if sign[2] in ("true", "false", "[]", "None", "1", "0") else ".."
    kind = types.get(whose, "")
    return Premise(f"{kind or whose or field}{'.' + field if whose else ''} {sign[1]} {behind}", path, kind, field)


def closes_last(text: str) -> bool:
    depth = 0
    for at, it in enumerate(text):
        depth += (it in "([{") - (it in ")]}")
        if not depth:
            return at == len(text) - 1
    return False


def factors(premise: str) -> list[str]:
    """The parts of a premise that are all to be so."""
    parts, depth = [""], 0
    for it in premise:
        depth += (it in "([{") - (it in ")]}")
        if it == "×" and not depth:
            parts.append("")
        else:
            parts[-1] += it
    return [it.strip() for it in parts]


class Told:
    """All that is told, in lines: each name, and the short form."""

    def __init__(self, top: pathlib.Path) -> None:
        self.top = top
        self.program = Program(top)
        roots = [it for it in self.program.functions if it.crate == PROGRAM and it.name == ROOT and not it.holder]
        self.reach = Reach(self.program, roots, LEFT_OUT)
        self.functions = sorted((it for it in self.reach.reached.values() if it.body is not None), key=lambda it: it.title())
        self.without = [it for it in self.functions if not self.program.is_of_kit(it) and not self.program.contract(it)]
        self.of_kit = [it for it in self.functions if self.program.is_of_kit(it)]
        self.ghosts = sorted(set(self.empty_ghosts()))
        self.sources = self.program.sources
        lines = self.program.lines
        laws: list[Source] = []
        crates = self.program.crates
        if LAWS in lines:
            more = [it for it in [*repository.below(lines, LAWS), LAWS] if it not in crates]
            crates = [*crates, *more]
            above = [it for name in more for it in parsed.sources_of(top / "crates" / name)]
            self.sources = [*self.sources, *above]
            laws = [it for it in self.sources if it.crate == LAWS]
        self.statement = Statement(top, crates, self.sources)
        self.laws = Laws(laws, self.statement)
        self.crash = [it for it in self.laws.premises if f"::{CRASH}" in it]
        self.lead(laws)
        self.callers = [it for it in self.program.functions if LAWS in self.program.below[it.crate]]

    def empty_ghosts(self) -> Iterator[str]:
        for it in self.program.impls:
            for member in it.members:
                said = member.text.partition(". ")[2] if member.text.startswith("λ") else member.text
                if it.name in self.reach.live and said in EMPTY:
                    yield f"{it.crate}: {it.name}::{member.kind} = {said}, by {it.trait}: {EMPTY[said]}"

    def lead(self, laws: Iterable[Source]) -> None:
        """Follows the contract and the crash laws to their definitions."""
        for source in (it for it in self.sources if it.crate == PROGRAM):
            for function in (it for it in source.functions if it.name == CONTRACT):
                for stated in function.stated:
                    self.statement.lead(stated.text, source.ghosts)
        for source in laws:
            for function in (it for it in source.functions if it.name.startswith(CRASH)):
                for stated in function.ensures():
                    self.statement.lead(stated.text, source.ghosts)

    def named_by(self, premise: Premise) -> list[str]:
        """The functions of the program whose `ensures` name what a premise is of."""
        meant = self.statement.definition(premise.path) if premise.path else None
        found = []
        for it in self.functions:
            texts = " ".join(one.text for one in it.ensures())
            if premise.type:
                is_of = re.search(rf"\b{premise.type}\b", it.head) or it.holder == premise.type
                names = bool(is_of and re.search(rf"\.{premise.field}\b", texts))
            else:
                ghosts = self.program.source_of[it.crate, it.path].ghosts
                names = meant is not None and any(self.statement.definition(path) is meant for path in paths_in(texts, ghosts, None))
            if names:
                found.append(f"{it.holder}::{it.name}" if it.holder else it.name)
        return parsed.unique(found)

    def taken(self) -> list[str]:
        """What docs/PROMISES.md has as taken for granted."""
        page = self.top / PAGE
        text = page.read_text(encoding="utf-8") if page.is_file() else ""
        section = re.search(r"(?ms)^## What is taken for granted$(.*?)(?=^## |\Z)", text)
        rows = re.findall(r"(?m)^\| ([^|]*?) \|", section[1]) if section else []
        return [it for it in rows[1:] if not re.fullmatch(r"-+", it)]

    def names(self) -> list[str]:
        """The lines of gate/assumptions.txt."""
        rows = [f"no contract, {'public' if it.is_public else 'private'}: {it.title()}" for it in self.without]
        rows += [f"by a trait of the kit: {it.title()}" for it in self.of_kit]
        rows += [f"no ghost: {it}" for it in self.ghosts]
        for name, found in sorted(self.laws.premises.items()):
            rows += [f"premises: {name}: {'; '.join(parsed.unique(it.short for it in found))}"] if found else []
        rows += [f"premises not told: {it}" for it in sorted(self.laws.untold)]
        rows += [f"requires: {it.title()}" for it in sorted(self.laws.required, key=lambda it: it.title())]
        return parsed.unique(rows)

    def premises(self) -> Iterator[str]:
        """Of each premise of the crash laws how many have it, and which clauses of the program say it in its word."""
        count = collections.Counter(it for name in self.crash for it in self.laws.premises[name])
        several = collections.Counter(it.short for it in count)
        for it in sorted(count, key=lambda it: (-count[it], it.short, it.path)):
            by = self.named_by(it)
            told = f"{', '.join(by[:2])}{f' and {len(by) - 2} more' if len(by) > 2 else ''}" if by else "no clause"
            name = ".".join(it.path.split(".")[-2:]) if several[it.short] > 1 and it.path else it.short
            yield f"  {name:<28}{count[it]:>3}  {told}"

    def short(self) -> list[str]:
        """The short form, as docs/PROMISES.md has it."""
        size, all_size = (some(sum(it.size() for it in found)) for found in (self.without, self.functions))
        public = sum(it.is_public for it in self.without)
        with_one = len(self.functions) - len(self.without) - len(self.of_kit)
        rows = [f"functions of ours that `keep` may reach: {len(self.functions)}, some {all_size} lines of bodies",
                f"  with a contract, their own or that of a trait of ours: {with_one}",
                f"  of an impl for a trait of the kit, whose contract is not read: {len(self.of_kit)}",
                f"  without a contract: {len(self.without)}, some {size} lines; {public} are public, {len(self.without) - public} private"]
        crates = collections.Counter(it.crate for it in self.without)
        rows += wrapped("by crate", [f"{it} {crates[it]}" for it in sorted(crates, key=lambda it: (-crates[it], it))])
        rows += ["ghost members that are empty, or the same whatever is so, at a type that it may use"]
        by_type: dict[str, list[str]] = collections.defaultdict(list)
        for ghost in self.ghosts:
            name, said = ghost.partition(": ")[2].split(", by ")[0].split("::", 1)
            by_type[name].append(said)
        rows += [f"  {name}: {', '.join(all_of)}" for name, all_of in by_type.items()]
        with_any = sum(bool(it) for it in self.laws.premises.values())
        called = "the program stands on them" if self.callers else "no crate of the program stands on them"
        required = ", ".join(it.name for it in self.laws.required)
        rows += [f"clauses of {LAWS}: {len(self.laws.premises) + len(self.laws.untold)}, of which {with_any} have premises; {called}",
                 f"  functions there with `requires`: {len(self.laws.required)}{required and f' ({required})'}",
                 f"premises of the {len(self.crash)} crash laws, how many have each, and which `ensures` of these functions has its word",
                 *self.premises()]
        found, types = self.statement.found.values(), self.statement.found_types.values()
        lines = sum(it.lines() for it in found)
        of_types = sum(sum(bool(row.strip()) for row in it.text.split("\n")) for it in types)
        rows += [f"the statement, of the crash laws and of `{CONTRACT}`: {len(found)} definitions of {lines} lines, over",
                 f"  {len(types)} types of sources of {of_types} lines"]
        rows += wrapped(f"taken for granted: {len(self.taken())}", [plain_row(it) for it in self.taken()], ";")
        return rows

    def doubts(self) -> list[str]:
        """How sure it is, in lines: what changes with each call of a source, and is not compared."""
        return [f"in {len(self.reach.several)} places a name leads to several functions, and all were taken",
                f"left out, as ways of other subcommands: {', '.join(sorted(self.reach.left)) or 'nothing'}"]


def plain_row(text: str) -> str:
    return re.sub(r" \(.*", "", text)


def some(number: int) -> int:
    return round(number, -2)


def wrapped(title: str, words: Sequence[str], mark: str = ",") -> list[str]:
    """A title and words, in lines of at most 116 letters."""
    rows, row = [], f"  {title}:"
    for at, word in enumerate(words):
        more = f" {word}{mark if at + 1 < len(words) else ''}"
        if len(row) + len(more) > 116:
            rows.append(row)
            row = "   "
        row += more
    return [*rows, row]


# The files.


def block_of(text: str) -> "re.Match[str] | None":
    """The block of the page that has the short form."""
    return re.search(rf"(?ms)^{re.escape(HEADING)}$.*?^```text\n(.*?)^```$", text)


TITLE = """# What `pathserve keep` believes, name by name: gate/assumptions says what each line means, and makes this file (--write).
# A line that comes says that something more is believed.

"""


def write(told: Told) -> bool:
    """Writes the names and the short form. False: the page has no place for it."""
    (told.top / NAMES).write_text(TITLE + "".join(f"{it}\n" for it in told.names()), encoding="utf-8")
    page = told.top / PAGE
    text = page.read_text(encoding="utf-8")
    block = block_of(text)
    if not block:
        print(f"{PAGE} has no block of text under `{HEADING}`")
        return False
    page.write_text(text[: block.start(1)] + "".join(f"{it}\n" for it in told.short()) + text[block.end(1) :], encoding="utf-8")
    return True


def main() -> int:
    words = argparse.ArgumentParser(prog="assumptions", usage="gate/assumptions [--names | --write]")
    asked = words.add_mutually_exclusive_group()
    for it in ("--names", "--write"):
        asked.add_argument(it, action="store_true")
    given = words.parse_args()
    told = Told(TOP)
    if given.write:
        return 0 if write(told) else 1
    for line in told.names() if given.names else [*told.short(), *told.doubts()]:
        print(line)
    return 0
