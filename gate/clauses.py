"""The clauses that refuse wrong bodies: which one an edit names, and which the prover names where it refuses it."""
import collections
import re
from collections.abc import Iterable, Mapping, Sequence

# A clause: what sort it is, its label, the type and the name of whose clause it is, and the loop by whose invariant it
# refuses; each empty where there is none.
Clause = collections.namedtuple("Clause", "kind label holder name loop")
LINE = re.compile(
    r"(ensures|requires|invariant|measure|overflow|bounds|division)(?: (\w+))?"
    r" of (?:(\w+)::)?(\w+)(?: by loop (\w+))?"
)
# A goal that the prover left open: the functions of which one has it, and what its name says: the sort of clause, the
# label, and the names among which the callee is, or the loop; and the whole name.
Goal = collections.namedtuple("Goal", "functions kind label names goal")
# What stands in the name of a goal for each sort. The first that is there counts.
SORTS = (
    ("requires", r"(?:^|-)requires(?:-|$)"),
    ("invariant", r"(?:^|-)invariant_of-"),
    ("ensures", r"(?:^|-)returns(?:-|$)"),
    ("loop", r"-(?:init|preserved)(?:-|$)"),
    ("measure", r"-smaller(?:-|$)|(?:^|-)decreases-"),
    ("overflow", r"(?:^|-)overflow_\w+-"),
    ("division", r"(?:^|-)nonzero_\w+-"),
    ("bounds", r"(?:^|-)(?:slice_|offset_)?bounds-"),
)
HEAD = re.compile(r"\s*(?:pub(?:\([a-z]+\))? )?(?:unsafe |const )*fn (\w+)")
ENSURES = re.compile(r"\s*ensures\*? ?(\w*) ?\{")
# What a check says of a place in a file, and the goal of which it says it.
SAID = re.compile(r"(?:note: )?(?:\./)?(\S+?):(\d+):\d+: (.*)")
OPEN = re.compile(r"it is not proved that .*?\(`([^`]+)`\)|error: `([^`]+)`: ")


def spelled(clause: Clause) -> str:
    """A clause as an edit names it."""
    return "".join(
        (
            clause.kind,
            f" {clause.label}" if clause.label else "",
            f" of {clause.holder}::{clause.name}" if clause.holder else f" of {clause.name}",
            f" by loop {clause.loop}" if clause.loop else "",
        )
    )


def named_by(edit: str) -> "Clause | None":
    """The clause that the text of an edit names, or None where it names none, or another thing, or several."""
    lines = [it[len("clause:") :].strip() for it in edit.splitlines() if it.startswith("clause:")]
    found = LINE.fullmatch(lines[0]) if len(lines) == 1 else None
    if not found:
        return None
    clause = Clause(*(it or "" for it in found.groups()))
    if clause.kind not in ("ensures", "requires") and clause.label or clause.loop and clause.kind != "ensures":
        return None
    return clause


def labels(source: str, name: str) -> list[str]:
    """The labels of what the functions of this name ensure in a source, empty for a clause without one."""
    found, at, lines = [], 0, source.split("\n")
    while at < len(lines):
        head = HEAD.match(lines[at])
        at += 1
        if not head or head[1] != name:
            continue
        while at < len(lines) and not HEAD.match(lines[at]) and lines[at].strip() not in ("{", "}"):
            clause = ENSURES.match(lines[at])
            found += [clause[1]] if clause else []
            at += 1
    return found


def function_before(source: str, line: int) -> str:
    """The name of the function in which a line of a source stands, counted from 1, or above whose head it has an attribute."""
    lines = source.split("\n")
    if lines[line - 1 :] and lines[line - 1].lstrip().startswith("#["):
        line = next((at + 1 for at in range(line, len(lines)) if HEAD.match(lines[at])), line)
    heads = [found[1] for it in lines[:line] if (found := HEAD.match(it))]
    return heads[-1] if heads else ""


def goals(said: Iterable[str], sources: Mapping[str, str]) -> list[Goal]:
    """The goals that these lines of a check leave open. The sources are texts by their paths in the crate."""
    found = []
    for line in said:
        place, goal = SAID.match(line), OPEN.search(line)
        if not place or not goal:
            continue
        name = goal[1] or goal[2]
        path, parts = place[1], name.split("-")
        if path in sources:
            functions = {function_before(sources[path], int(place[2]))}
        else:
            folder = path.split("/")[-2]
            # Goals of a cycle of several functions begin with the name of one.
            functions = {folder.lstrip("+"), *(parts[:1] if folder.startswith("+") and parts[0] != "returns" else ())}
        kind = next((kind for kind, sort in SORTS if re.search(sort, name)), "")
        if re.fullmatch(r"proofs/\w+\.antt", path):
            # A lemma that is of no function: what a law ensures has the law's name.
            functions, kind = {name}, "ensures"
        label = name.rpartition("-clause-")[2] if "-clause-" in name else ""
        names = parts[: parts.index("requires")] if kind == "requires" else parts if kind == "loop" else ()
        found.append(Goal(frozenset(functions), kind, label, tuple(names), name))
    return found


def is_named(clause: Clause, found: Goal, source: str, contracts: Sequence[str]) -> bool:
    """Whether a goal is the one of this clause, as far as its name tells it. The source is the text of the edited files,
    and the contracts are the sources among which those of the function are."""
    if clause.holder and not re.search(rf"\b{clause.holder}\b", source):
        return False
    if clause.kind == "requires":
        return found.kind == "requires" and clause.name in found.names and found.label in ("", clause.label)
    if clause.kind == "invariant":
        return found.kind == "invariant" and re.search(rf"\b{clause.name}\b", source) is not None
    if clause.name not in found.functions or found.kind != ("loop" if clause.loop else clause.kind):
        return False
    if clause.kind != "ensures" or not clause.loop and found.label:
        return clause.kind != "ensures" or found.label == clause.label
    written = next((it for it in (labels(text, clause.name) for text in contracts) if it), None)
    is_there = clause.label in written if written is not None else not clause.label
    return is_there and (not clause.loop or clause.loop in found.names)


def offered(found: Goal, holder: str, source: str) -> Clause:
    """How an edit may name the clause of a goal, as far as its name tells it."""
    function = min(found.functions, key=len)
    if found.kind == "ensures":
        written = labels(source, function)
        return Clause("ensures", found.label or (written[0] if written else ""), holder, function, "")
    if found.kind == "loop":
        written = labels(source, function)
        loop = re.split(r"-(?:init|preserved)(?:-|$)", found.goal)[0].split("-")[-1]
        return Clause("ensures", written[0] if written else "", holder, function, loop)
    if found.kind == "requires":
        return Clause("requires", found.label, "", found.names[0] if found.names else function, "")
    if found.kind == "invariant":
        return Clause("invariant", "", "", holder or "TYPE", "")
    return Clause(found.kind or "ensures", "", holder, function, "")
