"""Looks whether the files of `editors` tell the tokens of objects apart as the reader of objects does.

usage: gate/try_editors

Each object of examples/objects and gate/tasks, and some lines that are hard to read, are taken apart by the rules of
docs/LANGUAGE.md, and each byte of a token has to be what the TextMate grammar, read by its rules, and Vim's syntax
file, read by Vim, say that it is. What needs Vim is left out where there is none.
"""
import json
import re
import subprocess
import sys

from gate.tried import TOP, lacks, new_folder, there, whole

SECONDS = 60
WORD = re.compile(r"[A-Za-z][A-Za-z0-9_]*")
HARD = """{ it's 5 } object A1b; (* } *) const n=5;m = 0042; path 5n,nn:(put;get) end (*) path end *) x
'it''s' '' '{' '(*' 'a''''b' pathend END Path path_ 5end 5 end integers TEXT text_ 7text9
a[0]:=b-1+c<>d<=e>=f<g>h=i;{ two
lines 'of' 7 }entry function Get:integer;begin get:=v[0]end;(* ** *)end;
"""
# The kinds of tokens, as the two files name them.
KINDS = {
    "comment": ("comment.block", "pathComment"),
    "text": ("string.quoted", "pathText"),
    "number": ("constant.numeric", "pathNumber"),
    "kind": ("storage.type", "pathKind"),
    "reserved": ("keyword.control", "pathKeyword"),
    "name": ("variable.other", "pathName"),
    "sign": ("keyword.operator", "pathSign"),
    "blank": ("", ""),
}


def reserved() -> set[str]:
    """The reserved words, as docs/LANGUAGE.md lists them."""
    text = (TOP / "docs" / "LANGUAGE.md").read_text(encoding="utf-8")
    return set(there(re.search(r"Reserved words are no names: `([a-z\s]+)`", text))[1].split())


def kinds(text: str, words: set[str]) -> list[str]:
    """The kind of each character, one character at a time, by the rules of the language."""
    found: list[str] = []
    at = 0
    while at < len(text):
        end, it = at + 1, text[at]
        if it == "{" or text.startswith("(*", at):
            mark = "}" if it == "{" else "*)"
            end, kind = text.index(mark, at + (1 if it == "{" else 2)) + len(mark), "comment"
        elif it == "'":
            while text[end] != "'" or text[end + 1 : end + 2] == "'":
                end += 2 if text[end] == "'" else 1
            end, kind = end + 1, "text"
        elif it.isdigit():
            while text[end : end + 1].isdigit():
                end += 1
            kind = "number"
        elif name := WORD.match(text, at):
            end, word = name.end(), name[0].lower()
            kind = "name" if word not in words else "kind" if word in ("integer", "text") else "reserved"
        else:
            kind = "blank" if it.isspace() else "sign"
        found += [kind] * (end - at)
        at = end
    return found


def by_textmate(text: str) -> list[str]:
    """The scope of each character, by the rules of TextMate: the first match from here on, of those the one listed first."""
    rules = json.loads((TOP / "editors" / "pathobject.tmLanguage.json").read_text(encoding="ascii"))["patterns"]
    found: list[str] = []
    open_rule: "dict[str, str] | None" = None
    for line in text.splitlines(keepends=True):
        at = 0
        while at < len(line):
            if open_rule:
                end = re.compile(open_rule["end"]).search(line, at)
                stop = end.end() if end else len(line)
                found += [open_rule["name"]] * (stop - at)
                at, open_rule = stop, None if end else open_rule
                continue
            found_by = [re.compile(it.get("match") or it["begin"]).search(line, at) for it in rules]
            hits = [(hit.start(), number, hit) for number, hit in enumerate(found_by) if hit]
            if not hits:
                found += [""] * (len(line) - at)
                break
            start, number, hit = min(hits, key=lambda it: it[:2])
            found += [""] * (start - at) + [rules[number]["name"]] * (hit.end() - start)
            at, open_rule = hit.end(), rules[number] if "begin" in rules[number] else None
    return found


SCRIPT = """set nocompatible
execute 'set runtimepath^=' . $EDITORS
syntax on
set filetype=pathobject
syntax sync fromstart
let out = []
for l in range(1, line('$'))
  call add(out, join(map(range(1, len(getline(l))), 'synIDattr(synID(' . l . ', v:val, 1), "name")'), ' '))
endfor
call writefile(out, $OUT)
qall!
"""


def by_vim(text: str) -> list[str]:
    """The group of each character, as Vim says it."""
    with new_folder("editors-") as room:
        (room / "script.vim").write_text(SCRIPT)
        (room / "it.txt").write_text(text)
        env = {"EDITORS": str(TOP / "editors" / "vim"), "OUT": str(room / "out"), "HOME": str(room), "TERM": "dumb", "PATH": "/usr/bin:/bin"}
        words = ["vim", "-u", "NONE", "-i", "NONE", "-n", "-es", "-S", str(room / "script.vim"), str(room / "it.txt")]
        ran = subprocess.run(words, env=env, stdin=subprocess.DEVNULL, capture_output=True, timeout=SECONDS, check=False)
        if not (room / "out").exists():
            raise AssertionError(f"vim ended with status {ran.returncode}: {(ran.stdout + ran.stderr).decode(errors='replace')[:300]}")
        lines = (room / "out").read_text().split("\n")
        return [it for line, row in zip(text.split("\n")[:-1], lines) for it in [*(row.split(" ") if line else []), ""]]


def main() -> int:
    if sys.argv[1:]:
        print(__doc__, file=sys.stderr)
        return 2
    words, passed, failed = reserved(), 0, 0
    ways = [("TextMate", 0, by_textmate)] + ([] if lacks("vim") else [("Vim", 1, by_vim)])
    files = [it for part in ("examples/objects", "gate/tasks") for it in sorted((TOP / part).glob("*.pp"))]
    texts = {it.name: it.read_text(encoding="ascii") for it in files}
    for name, text in {**texts, "hard lines": HARD}.items():
        wanted = kinds(text, words)
        for way, place, function in ways:
            try:
                said = function(text)
                if len(said) != len(text):
                    raise AssertionError(f"{len(said)} of {len(text)} characters are told")
                # (a blank within a comment or a text is of it; any other one is nothing)
                due = [KINDS[kind][place] for kind in wanted]
                wrong = [at for at, it in enumerate(due) if text[at] != "\n" and not (said[at].startswith(it) if it else not said[at])]
                if wrong:
                    at = wrong[0]
                    raise AssertionError(f"{text[at : at + 20]!r} at byte {at} is {wanted[at]}, and is shown as {said[at] or 'nothing'}")
                passed += 1
            except (AssertionError, ValueError, subprocess.SubprocessError) as error:
                failed += 1
                print(f"{name}, {way}: {error}")
    print(f"try_editors: {passed} passed, {failed} failed")
    return 1 if failed or not passed else 0


load_tests = whole(main)
