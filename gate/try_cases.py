"""Reads small files of cases: those that say what they mean, and those that the reader has to refuse.

usage: gate/try_cases
"""
import pathlib
import tempfile

from gate import cases, sessions
from gate.tried import whole

# A line, and the text that it is.
TEXTS = [
    ("3*ab", "ababab\n"),
    ("open |3*b", "open bbb\n"),
    ("3*x#|-|2*y", "x00x01x02-yy\n"),
    (r"65\*b", "65*b\n"),
    (r"2*3\*|z", "3*3*z\n"),
    ("(* no count *) 5 * 6", "(* no count *) 5 * 6\n"),
]
# A case of `paths`, or of a server, that is refused, and a word of what is said.
HEAD = "command: paths < TEXT\n\n=== one\n"
SERVED = "command: serve OBJECTS FOLDER PORT\n\n=== one\n--- OBJECTS\nobject a; end;\n"
REFUSED = [
    (cases.Reader, HEAD + "--- TEXT\nops 65*b\n--- output\nops 1\n", "beginning of a piece"),
    (cases.Reader, HEAD + "--- TEXT\nops |b65*c\n--- output\nops 1\n", "beginning of a piece"),
    (cases.Reader, HEAD + "--- TEXT\nops 65+*b\n--- output\nops 1\n", "beginning of a piece"),
    (cases.Reader, HEAD + "--- rows\nops 65*b => ops 1\n--- TEXT\n<row>\n--- output\n<answer>\n", "beginning of a piece"),
    (cases.Reader, HEAD + "--- TEXT\nops a\n--- output\nops 1*\n", "beginning of a piece"),
    (cases.Reader, HEAD + "--- rows\nops a => ops 1\n--- TEXT\n<row>\n--- output\nops 1\n", "nothing takes the <answer>"),
    (cases.Reader, HEAD + "--- rows\nops a\n--- TEXT\n<row>\n--- output\n<answer>\n", "has nothing for"),
    (cases.Reader, HEAD + "--- TEXT\nops \\q\n--- output\nops 1\n", "no such escape"),
    (sessions.StoryReader, SERVED + "--- steps\na> open 65*b\n--- output\n", "beginning of a piece"),
    (sessions.StoryReader, SERVED + "--- steps\na< no 65*b\n--- output\n", "beginning of a piece"),
    (sessions.StoryReader, SERVED + "--- rows\nopen 65*b\n--- steps\na> <row>\n--- output\n", "beginning of a piece"),
]


def refusal(reader: type[cases.Reader], text: str) -> str:
    """What the reader says of a file that it refuses, or nothing."""
    with tempfile.TemporaryDirectory(prefix="cases-", dir=cases.TOP) as folder:
        path = pathlib.Path(folder) / "one.cases"
        path.write_text(text, encoding="utf-8")
        try:
            list(cases.cases_of(path, reader))
        except cases.BadCase as error:
            return str(error)
    return ""


def main() -> int:
    failed = []
    for line, wanted in TEXTS:
        if (found := cases.read_text([line], "").bytes) != wanted.encode():
            failed.append(f"{line!r} is {found!r}, not {wanted!r}")
        if cases.read_text(cases.escaped([wanted.rstrip("\n")]), "").bytes != wanted.encode():
            failed.append(f"{wanted!r} does not come back as it stands")
    for reader, text, word in REFUSED:
        if word not in (said := refusal(reader, text)):
            failed.append(f"{text!r}: {said or 'is read'}, without {word!r}")
    for line in failed:
        print(line)
    passed = 2 * len(TEXTS) + len(REFUSED) - len(failed)
    print(f"try_cases: {passed} passed, {len(failed)} failed")
    return 0 if passed and not failed else 1


load_tests = whole(main)
