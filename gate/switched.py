"""Sources in which many edits stand at once, each of them off: one is put on in the program that is built of them, by eight
of its bytes. So a program is built once, and not once for each edit.

A function with edited lines stands there as it is, and once more for each edit, with its lines; under its own name it
asks which edit is on, and calls one of these. The program must be built without being optimized, so that the number
that it asks for stands in its file as it is.
"""
import itertools
import pathlib
import re
from collections.abc import Iterable

from gate.tried import there

# What no edit is: this number stands in the file of a program in which none is on.
NONE = 0x9E37_79B9_7F4A_7C15
ASKS = f"\nfn edit_that_is_on() -> u64 {{\n    {NONE}\n}}\n"
OWNER = re.compile(r"(?P<of>impl(?:<.*?>)?) (?:(?P<trait>.+) for )?(?P<type>.+) \{$")
HEAD = re.compile(r"(?P<space>(?:    )?)(?P<seen>(?:pub(?:\([a-z]+\))? )?)fn (?P<name>\w+)")
SELF = re.compile(r"(&(?:'\w+ )?(?:mut )?|mut )?self$")
OPEN, CLOSED = "(<[{", ")>]}"


class Unfit(Exception):
    """Why an edit cannot be put on and off."""


def balanced(text: str, at: int) -> int:
    """The place behind the bracket that closes the one at a place of a text."""
    depth = 0
    for place in range(at, len(text)):
        sign = text[place]
        depth += (sign in OPEN) - (sign in CLOSED and text[place - 1 : place + 1] != "->")
        if not depth:
            return place + 1
    raise Unfit("a bracket is not closed")


def parted(text: str) -> list[str]:
    """The parts of a text between its outermost commas."""
    parts, begun, at = [], 0, 0
    while at < len(text):
        if text[at] in OPEN:
            at = balanced(text, at)
            continue
        if text[at] == ",":
            parts.append(text[begun:at])
            begun = at + 1
        at += 1
    return [it.strip() for it in [*parts, text[begun:]] if it.strip()]


class Function:
    """The function of a text in whose body a line stands: its lines from `first` to `last`, and what is said of it."""

    def __init__(self, lines: list[str], at: int) -> None:
        first = next((it for it in range(at, -1, -1) if HEAD.match(lines[it])), None)
        if first is None:
            raise Unfit("the line is in no function")
        self.first = first
        head = there(HEAD.match(lines[first]))
        self.space, self.seen, self.name = head["space"], head["seen"], head["name"]
        self.last = next(it for it in range(self.first, len(lines)) if lines[it] == self.space + "}")
        if self.last < at:
            raise Unfit("the line is in no function")
        self.owner: re.Match[str] | None = None
        self.own_block = 0
        if self.space:
            begun = next(it for it in range(self.first, -1, -1) if re.match(r"(impl|(pub )?trait|(pub )?mod)\b", lines[it]))
            until = next(it for it in range(begun, len(lines)) if lines[it].endswith("{"))
            self.owner = OWNER.match(" ".join(it.strip() for it in lines[begun : until + 1]))
            self.own_block = next(it for it in range(begun, len(lines)) if lines[it] == "}")
            if not self.owner:
                raise Unfit("the line is in a function of a trait")
        text = "\n".join(lines[self.first : self.last])[head.end() :]
        generic = text[: balanced(text, 0)] if text.startswith("<") else ""
        behind = balanced(text, len(generic))
        rest = text[behind:].splitlines()
        tail = rest[0].removesuffix("{").rstrip()
        if rest[1:] and rest[1].strip() == "where":
            bounds = itertools.takewhile(lambda it: not re.match(r" *(\{|requires|ensures|ghost|decreases)", it), rest[1:])
            tail = " ".join([tail, *(it.strip() for it in bounds)])
        given = [it.removeprefix("mut ") for it in parted(text[len(generic) + 1 : behind - 1])]
        self.head = f"{self.space}{self.seen}fn {self.name}{generic}({', '.join(given)}){tail} {{"
        self.is_of_self = bool(given) and bool(SELF.match(given[0]))
        self.words = [it.partition(":")[0] for it in given[self.is_of_self :]]
        if not all(re.fullmatch(r"\w+", it) for it in self.words):
            raise Unfit("its parameters are not read")

    def named(self, lines: list[str], name: str) -> list[str]:
        """Its lines under another name."""
        first = lines[self.first].replace(f"fn {self.name}", f"fn {name}", 1)
        return [first, *lines[self.first + 1 : self.last + 1]]

    def call(self, name: str) -> str:
        before = "self." if self.is_of_self else "Self::" if self.space else ""
        return f"{before}{name}({', '.join(self.words)})"


def with_edits(text: str, edits: Iterable[tuple[int, str, str]]) -> str:
    """The text of a file in which edits stand that are off: (number, old line, new line) each."""
    lines = text.splitlines()
    places: dict[int, tuple[Function, dict[int, list[tuple[str, str]]]]] = {}
    for number, old, new in edits:
        function = Function(lines, lines.index(old))
        places.setdefault(function.first, (function, {}))[1].setdefault(number, []).append((old, new))
    for first in sorted(places, reverse=True):
        function, changes = places[first]
        plain = f"{function.name}_as_it_is"
        made, asked = function.named(lines, plain), []
        for number, pairs in changes.items():
            name = f"{function.name}_edited_{number}"
            copy = function.named(lines, name)
            for old, new in pairs:
                copy[copy.index(old)] = new
            made += ["", *copy]
            asked += [f"if edit_that_is_on() == {number} {{", f"    {function.call(name)}", "} else "]
        body = "\n".join(asked).replace("} else \nif", "} else if")
        body += f"{{\n    {function.call(plain)}\n}}"
        asking = [function.head, *(f"{function.space}    {it}" for it in body.splitlines()), function.space + "}"]
        if function.owner and function.owner["trait"]:
            block = f"{function.owner['of']} {function.owner['type']} {{"
            lines[function.own_block + 1 : function.own_block + 1] = ["", block, *made, "}"]
            lines[function.first : function.last + 1] = asking
        else:
            lines[function.first : function.last + 1] = [*made, "", *asking]
    return "\n".join(lines) + "\n" + ASKS


def put_on(program: pathlib.Path, number: int, to: pathlib.Path) -> None:
    """Writes a program in which an edit is on: the file of one that was built, the number of the edit, the new file."""
    none = NONE.to_bytes(8, "little")
    found = program.read_bytes()
    if none not in found:
        raise Unfit("the program does not ask which edit is on")
    to.write_bytes(found.replace(none, number.to_bytes(8, "little")))
    to.chmod(0o755)
