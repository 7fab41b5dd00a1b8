"""Looks at the Python of gate/, tools/, bench/ and clients/python as it stands: whether it compiles without a warning, its
types by mypy, and what ruff's default rules find; and that no file changes where Python looks for modules.

usage: gate/try_types [WORD ..]

gate/mypy.ini says how strictly each module is looked at, and leaves out none. Each file that has no fault passes; of
the others the faults are said that have one of the words in them. Where ruff is not there, pyflakes and pycodestyle
look by the same rules (F; E4, E7 and E9). What is not there is not run, and fails nothing.
"""
import os
import pathlib
import re
import shutil
import subprocess
import warnings

from gate.tried import TOP, given_words, lacks, whole

PARTS = ("gate", "tools", "bench", "clients/python/pathclient")
SECONDS = 600
PLACES = ".".join(("sys", "path"))
# What looks by the rules of ruff where that is not there.
LINTS = (("pyflakes3",), ("pycodestyle", "--select=E4,E7,E9"))
FAULT = re.compile(r"([\w./]+\.py):\d+")


def files() -> list[str]:
    return sorted(str(it.relative_to(TOP)) for part in PARTS for it in (TOP / part).rglob("*.py"))


def said(*words: str) -> list[str]:
    """The faults that a tool tells, a line each, by the file that each line begins with."""
    ran = subprocess.run(words, cwd=TOP, stdin=subprocess.DEVNULL, capture_output=True, text=True, timeout=SECONDS)
    lines = [it for it in ran.stdout.splitlines() if FAULT.match(it)]
    if ran.returncode and not lines:
        return [f"{words[0]} ended with status {ran.returncode}: {(ran.stderr or ran.stdout)[-500:]}"]
    return lines


def compiled() -> list[str]:
    """The faults and warnings of Python's own compiler, and each place that names what is to stay as it is."""
    found = []
    for name in files():
        text = (TOP / name).read_text(encoding="utf-8")
        found += [f"{name}:{at}: {PLACES} is named" for at, it in enumerate(text.splitlines(), 1) if PLACES in it]
        try:
            with warnings.catch_warnings():
                warnings.simplefilter("error")
                compile(text, name, "exec")
        except (SyntaxError, Warning) as error:
            found.append(f"{name}:{getattr(error, 'lineno', None) or 1}: {error}")
    return found


def main() -> int:
    words, found = given_words(), compiled()
    if not lacks("mypy"):
        cache = pathlib.Path(os.environ.get("XDG_CACHE_HOME", pathlib.Path.home() / ".cache")) / "pathserve-mypy"
        found += said("mypy", "--config-file", "gate/mypy.ini", "--cache-dir", str(cache), "--no-error-summary", "--hide-error-context")
    if shutil.which("ruff"):
        found += said("ruff", "check", "--no-cache", "--output-format", "concise", *PARTS)
    elif lints := [it for it in LINTS if shutil.which(it[0])]:
        found += [line for words_of in lints for line in said(*words_of, *files())]
    else:
        lacks("ruff")
    found = [it for it in found if ": note:" not in it]
    for line in (it for it in found if all(word in it for word in words)):
        print(line)
    wrong = {it[1] for line in found if (it := FAULT.match(line))}
    failed = len(wrong) + sum(not FAULT.match(it) for it in found)
    print(f"try_types: {len(set(files()) - wrong)} passed, {failed} failed")
    return 1 if failed else 0


load_tests = whole(main)
