"""Writes a class for each object of a FILE, with a typed method for each of its operations.

usage: python -m pathclient.stubs [--aio] FILE.pp >objects.py

The FILE has to be accepted by `pathserve check`: what this reads of it are its paths, and the heads of objects and
operations. A name that Python or the library has taken gets a `_` behind it. With --aio the methods are those of
pathclient.aio. Where an object says `hold first until second;`, and `second` is a procedure without parameters, there is
a method for a `with` too: `holding_first`, which calls `second` when its block ends. Of several behind `until` it is the
only one without parameters. For an object without holds a path counts that has `first; second`, or `(first, ..);
second`.
"""
from __future__ import annotations

import keyword
import pathlib
import re
import sys

KINDS = {"integer": "int", "text": "str"}
# What the methods use themselves, and what an Object has.
TAKEN = {"self", "within", "call", "ahead", "close", "open", "key", "holding"}
SKIPPED = re.compile(r"'(?:[^']|'')*'|\{[^}]*\}|\(\*.*?\*\)", re.DOTALL)
HEAD = re.compile(
    r"\bobject\s+(?P<object>\w+)|\bpath\b(?P<path>.*?)\bend\s*;|\bhold\s+(?P<held>\w+)\s+until\s+(?P<until>\w+(?:\s*,\s*\w+)*)|"
    r"\bentry\s+(?:procedure|function)\s+(?P<name>\w+)\s*(?:\((?P<params>[^)]*)\))?\s*(?::\s*(?P<kind>\w+))?\s*;",
    re.DOTALL,
)
# Two members of a path between brackets: what comes first, one operation or several, and the one that comes second.
PAIR = re.compile(r"(?<=[(\[])\s*(?:(\w+)|\(\s*(\w+(?:\s*,\s*\w+)*)\s*\))\s*;\s*(\w+)\s*(?=[)\]])")


def safe(name: str) -> str:
    return name + "_" if keyword.iskeyword(name) or name in TAKEN else name


def class_of(name: str) -> str:
    return safe("".join(it.capitalize() for it in name.split("_")))


def parameters(text: str) -> list[tuple[str, str]]:
    """The parameters of an operation, each with its kind."""
    found = []
    for group in text.split(";") if text.strip() else ():
        names, _, kind = group.partition(":")
        found += [(safe(it.strip()), KINDS[kind.strip()]) for it in names.split(",")]
    return found


def method(head: re.Match[str], is_aio: bool) -> list[str]:
    """The lines of a method."""
    given = parameters(head["params"] or "")
    kind = KINDS[head["kind"]] if head["kind"] else "None"
    words = ", ".join(["self", *(f"{name}: {it}" for name, it in given), "*", "within: float | None = None"])
    call = ", ".join([f'"{head["name"]}"', *(name for name, _ in given), "within=within"])
    call = f"await self.call({call})" if is_aio else f"self.call({call})"
    body = {"int": f"return as_integer({call})", "str": f"return as_text({call})", "None": call}[kind]
    return ["", f"    {'async ' if is_aio else ''}def {safe(head['name'])}({words}) -> {kind}:", f"        {body}"]


def holding(first: re.Match[str], second: str, is_aio: bool) -> list[str]:
    """The lines of a method for what is held from the one operation to the other."""
    given = parameters(first["params"] or "")
    kind = KINDS[first["kind"]] if first["kind"] else "None"
    words = ", ".join(["self", *(f"{name}: {it}" for name, it in given), "*", "within: float | None = None"])
    call = "(" + "".join(f"{it}, " for it in [f'"{first["name"]}"', *(name for name, _ in given)]).rstrip() + ")"
    gives = {"int": "yield as_integer(it)", "str": "yield as_text(it)", "None": "yield"}[kind]
    manager, iterator = ("asynccontextmanager", "AsyncIterator") if is_aio else ("contextmanager", "Iterator")
    return [
        "", f"    @contextlib.{manager}", f"    {'async ' if is_aio else ''}def holding_{first['name']}({words}) -> {iterator}[{kind}]:",
        f"        {'async ' if is_aio else ''}with self.holding({call}, \"{second}\", within){'' if kind == 'None' else ' as it'}:",
        f"            {gives}",
    ]


def held(heads: list[re.Match[str]]) -> list[tuple[re.Match[str], str]]:
    """Of the operations of an object, and of its holds or else its paths, the pairs of which the second one ends what the first one
    began, in the order of the operations. A first one with several second ones is in none."""
    entries = {it["name"]: it for it in heads if it["name"]}
    ends = {it for it, head in entries.items() if not head["kind"] and not parameters(head["params"] or "")}
    found = {it["held"]: set(re.findall(r"\w+", it["until"])) & ends for it in heads if it["held"]}
    for path in (f"({it['path']})" for it in heads if it["path"] and not any(it["held"] for it in heads)):
        for one, several, second in PAIR.findall(path):
            for first in re.findall(r"\w+", one or several):
                found.setdefault(first, set()).add(second)
    pairs = [(it, second) for name, it in entries.items() for second in found.get(name, ()) if len(found[name]) == 1]
    return [(it, second) for it, second in pairs if second in ends and f"holding_{it['name']}" not in entries]


def stubs(text: str, is_aio: bool, source: str) -> str:
    """The module for the objects of a source."""
    # (names ignore case; texts and comments may hold anything)
    text = SKIPPED.sub(lambda it: "''" if it[0][0] == "'" else " ", text).lower()
    module, iterator = ("pathclient.aio", "AsyncIterator") if is_aio else ("pathclient", "Iterator")
    objects: list[list[re.Match[str]]] = []
    for head in HEAD.finditer(text):
        if head["object"]:
            objects.append([])
        objects[-1].append(head)
    lines = [f'"""The objects of {source}, written by `python -m pathclient.stubs`."""', "from __future__ import annotations", ""]
    if any(map(held, objects)):
        lines += ["import contextlib", f"from collections.abc import {iterator}", ""]
    lines += [f"from {module} import Object, as_integer, as_text", "", '__all__ = ["as_integer", "as_text"]']
    for heads in objects:
        name = heads[0]["object"]
        wants = 'port: int | str, host: str = "127.0.0.1", wait: float = 10.0, client: str | None = None'
        lines += ["", "", f"class {class_of(name)}(Object):", f"    def __init__(self, {wants}) -> None:"]
        lines += [f'        super().__init__(port, "{name}", host, wait, client)']
        for head in (it for it in heads if it["name"]):
            lines += method(head, is_aio)
        for first, second in held(heads):
            lines += holding(first, second, is_aio)
    return "\n".join(lines) + "\n"


def main(words: list[str]) -> int:
    is_aio = words[:1] == ["--aio"]
    files = words[is_aio:]
    if len(files) != 1 or files[0].startswith("-"):
        print(__doc__, file=sys.stderr)
        return 2
    try:
        text = pathlib.Path(files[0]).read_text(encoding="ascii")
    except (OSError, ValueError) as error:
        print(f"stubs: {files[0]}: {error}", file=sys.stderr)
        return 3
    sys.stdout.write(stubs(text, is_aio, pathlib.Path(files[0]).name))
    return 0


if __name__ == "__main__":
    sys.exit(main(sys.argv[1:]))
