"""Makes the manual page docs/pathserve.1 of what the built program says for `--help`.

usage: gate/man_page [--program FILE]            writes docs/pathserve.1
       gate/man_page --check [--program FILE]    writes nothing; status 1 where the page is not what would be written

 Its help has all the texts but two: the files of a
folder, which docs/FORMATS.md has, and the version, which stands in the help of the program as `pathserve N.N.N`.
`man -l docs/pathserve.1` shows the page.
"""
import argparse
import re
import subprocess
import sys
from collections.abc import Iterable, Iterator

from gate.tried import TOP, given_words, program

PAGE = TOP / "docs" / "pathserve.1"
VERSION = re.compile(r"\bpathserve (\d+\.\d+\.\d+)\b")
FOLDER = "## The folder of a server"


def help_of(program: str, *words: str) -> str:
    """What the program says for `--help` of a subcommand, or of itself."""
    ran = subprocess.run([program, *words, "--help"], capture_output=True, text=True, timeout=60, check=False)
    if ran.returncode or ran.stderr:
        sys.exit(f"man_page: a request for help ended with {ran.returncode}: {ran.stderr}")
    return ran.stdout.rstrip("\n")


def sections(text: str) -> dict[str, list[str]]:
    """The parts of a help text: what the command does, its usage, the lines below each heading, and what follows."""
    found: dict[str, list[str]] = {"about": [], "rest": []}
    name = "about"
    for line in text.split("\n"):
        heading = re.fullmatch(r"(Commands|Arguments|Options):", line)
        if heading:
            name = heading[1]
            found[name] = []
        elif line.startswith("Usage: "):
            # The program is named by its file.
            found["usage"] = ["pathserve " + line.removeprefix("Usage: ").partition(" ")[2]]
            name = "usage"
        elif not line.strip() and name in ("about", "usage", "Commands", "Arguments", "Options"):
            name = "rest" if name != "about" else name
        else:
            found[name].append(line)
    while found["rest"] and not found["rest"][0].strip():
        found["rest"].pop(0)
    return found


def escaped(text: str) -> str:
    """A text in the notation of manual pages, with `words` in bold."""
    text = text.replace("\\", r"\e").replace("-", r"\-")
    text = re.sub(r"`([^`]*)`", r"\\fB\1\\fR", text)
    return re.sub(r"(?m)^([.'])", r"\\&\1", text)


def entries(lines: Iterable[str]) -> Iterator[tuple[str, str]]:
    """The words and the text of each line of a list: `  <FILE>  The file ..`."""
    for line in lines:
        word, _, text = line.strip().partition("  ")
        yield word.strip(), text.strip()


def put_list(page: list[str], lines: Iterable[str]) -> None:
    for word, text in entries(lines):
        page += [".TP", rf"\fB{escaped(word)}\fR", escaped(text)]


def put_text(page: list[str], lines: Iterable[str]) -> None:
    """Paragraphs, and lines that are indented as they stand."""
    text = "\n".join(lines)
    for block in re.split(r"\n\s*\n", text):
        rows = block.split("\n")
        at = 0
        while at < len(rows):
            end = at + 1
            while end < len(rows) and rows[end].startswith("  ") == rows[at].startswith("  "):
                end += 1
            if rows[at].startswith("  "):
                page += [".PP", ".EX", *[escaped(it) for it in rows[at:end]], ".EE"]
            elif rows[at].strip():
                page += [".PP", *[escaped(it) for it in rows[at:end]]]
            at = end


def files_of_a_folder() -> Iterator[list[str]]:
    """The names and the contents of the table of a server's folder in docs/FORMATS.md."""
    text = (TOP / "docs" / "FORMATS.md").read_text(encoding="utf-8")
    section = text[text.index(FOLDER) :].split("\n## ")[0]
    for line in section.split("\n"):
        cells = [it.strip() for it in line.strip("|").split("|")]
        if line.startswith("| `") and len(cells) == 2:
            yield cells


def page_of(program: str) -> str:
    """The text of the page."""
    whole = sections(help_of(program))
    names = [word for word, _ in entries(whole["Commands"]) if word != "help"]
    helps = {name: sections(help_of(program, name)) for name in names}
    version = VERSION.search("\n".join(whole["rest"]))
    about = " ".join(whole["about"]).strip()
    page = [
        '.\\" Made by gate/man_page of the help of the program.',
        f'.TH PATHSERVE 1 "" "pathserve{" " + version[1] if version else ""}" "User Commands"',
        ".SH NAME",
        rf"pathserve \- {escaped(about[0].lower() + about[1:])}",
        ".SH SYNOPSIS",
    ]
    for name in names:
        usage = helps[name]["usage"][0]
        page += [rf"\fB{escaped(usage)}\fR", ".br"]
    page.append(".SH DESCRIPTION")
    rest = "\n".join(whole["rest"])
    put_text(page, re.split(r"\n\s*\n(?=Exit status)", rest)[0].split("\n"))
    page.append(".SH COMMANDS")
    for name in names:
        one = helps[name]
        does = " ".join(one["about"]).strip()
        page += [f".SS {escaped(one['usage'][0])}", escaped(does if does.endswith("?") else does + ".")]
        put_list(page, one.get("Arguments", []))
        put_list(page, [it for it in one.get("Options", []) if "--help" not in it and "--version" not in it])
        put_text(page, one["rest"])
    page.append(".SH EXIT STATUS")
    statuses = re.search(r"(?ms)^Exit status: (.*?)(?=\n\s*\n|\Z)", rest)
    put_text(page, [statuses[1]] if statuses else [])
    page.append(".SH FILES")
    for name, text in files_of_a_folder():
        page += [".TP", escaped("`DIR/" + name.strip("`") + "`"), escaped(text)]
    pages = "LANGUAGE.md, SCRIPTS.md, SERVING.md, OPERATIONS.md, AUDIT.md, FORMATS.md, LIMITS.md, SECURITY.md, GLOSSARY.md"
    page += [".SH SEE ALSO", f"README.md of the sources, and in its folder docs: {pages}."]
    return "\n".join(page) + "\n"


def main() -> int:
    words = argparse.ArgumentParser(usage=__doc__, add_help=False)
    words.add_argument("--check", action="store_true")
    said = words.parse_args(given_words())
    made = page_of(str(program()))
    if said.check:
        if PAGE.exists() and PAGE.read_text(encoding="utf-8") == made:
            return 0
        print("man_page: docs/pathserve.1 is not of this program's help: gate/man_page makes it anew")
        return 1
    PAGE.write_text(made, encoding="utf-8")
    return 0
