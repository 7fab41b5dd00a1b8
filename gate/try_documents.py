"""Runs the commands and blocks of the documents, and looks whether what they name is there.

usage: gate/try_documents [--program FILE] [PAGE ..]

The pages are README.md, CONTRIBUTING.md, CHANGELOG.md, docs/*.md and those of cases/, bench/ and gate/, or those that are
named; the program is the one that ./pathserve runs, or FILE. Each block says by the word behind its fence what is
done with it:

  objects, script, answers, paths, trace, verdict, explained   a case of cases/ has to read it from where it stands
  case          a file of cases: it is run
  sh            commands, which are run one after the other in a copy of the repository's top. Each has to end with status 0
                (the last one with 1 after `sh status 1`, or where an explanation follows). A server is left running; one
                that stays (`keep`) until the end of the page, or until `kill -9 %1`. What proves, tries all, or changes
                what checks have left is only looked at
  sh not-run    commands that take too long, or want what is not here: that their programs and flags are there is looked at
  output        what the last command of the block before wrote; `...` stands for any lines
  terminal      what one client of the page's server says (after `>`) and hears; at the end it says `quit`. What it hears
                then has to be in the page between backticks, and so do the lines of the server and a single line of
                `./pathserve`
  python        a program, run as the commands are, with examples/clients at hand
  grammar       each sign that is used has its rule
  entries       declarations: the reader of objects takes them
  edit          a wrong body that could be tried
  picture       it names the layers of docs/ARCHITECTURE.md
  text          for the eye

Beside that: each path, each item of a crate, and each flag that a page names is there; each limit of docs/LIMITS.md names a
case or a test that is there; the crates of docs/ARCHITECTURE.md are those of crates.txt, and stand on lower layers alone;
gate/README.md tells of each part of tools/test; no cell of a table is longer than the documents allow, and no page of those that
would only grow; docs/PROOFS.md is as `gate/proofs` makes it; README.md has at most 100 lines, names the command of .ci/run, and has no block that
proves; docs/pathserve.1 is of the program's help, and CHANGELOG.md begins with its version.
The last line is `N passed, M failed`; the exit status is 0 where M is 0 and N is not.
"""
import argparse
import os
import pathlib
import re
import shutil
import signal
import socket
import subprocess
import tempfile
import time
from collections.abc import Container, Sequence
from typing import Any, TextIO

from gate import cases, man_page, proofs, run_cases, run_sessions, sessions
from gate.served import free_port
from gate.tried import TOP, given_words, program, whole
from tools import repository, test

SECONDS = 60
FENCE = re.compile(r"^( *)```(.*)$")
READ_BY_CASES = ("objects", "script", "answers", "paths", "trace", "verdict", "explained")
# Ports of the documents; a free one takes the place of each.
PORT = re.compile(r"(?<![\w.,])7[0-9]{3}(?!\w|,\d)")
# Commands that are only looked at, as the gate is: these prove, are what this tool is a part of, or change what checks have
# left.
LOOKED_AT = ("tools/prove", "tools/test", "gate/seed")
SERVES = re.compile(r"\./pathserve (?:serve|keep)\b")
# Ends the last server of the page in the middle of what it does.
KILLS = "kill -9 %1"
# What a document may name that is not in the repository: what is made, and what stands elsewhere.
MADE = re.compile(r"crates/[A-Z*]|crates/\*|/out\b|docs/[A-Z]*\.md\.|OBJECT|\.svg$")
# The most letters of a cell of a table, and of pages with another bound; one above this may only shrink.
MOST_LETTERS = 400
LETTERS: dict[str, int | None] = {
    "docs/ARCHITECTURE.md": 300, "docs/MEASURED.md": None, "docs/FORMATS.md": 429, "docs/KEEPING.md": 539, "docs/SECURITY.md": 407,
    "docs/SERVING.md": 449}
# The most lines of pages to which each change adds something.
LINES = {"README.md": 100, "docs/DECISIONS.md": 300, "docs/PROVING.md": 300}
LAYERS = ("Text", "Objects", "Running", "Sharing", "Replay", "The program", "Test crates")

# A block of a page: its line, its word and its text; and one that a case reads: its word, its number or none for each of them, the page.
Block = tuple[int, str, str]
Named = tuple[str, int | None, str]


class Page:
    """A document: its name, its text, and its blocks as (line, indent, word, text)."""

    def __init__(self, path: pathlib.Path) -> None:
        self.name = str(path.relative_to(TOP))
        self.text = path.read_text(encoding="utf-8")
        self.blocks: list[Block] = []
        self.prose: list[tuple[int, str]] = []
        opened: tuple[int, str, str, list[str]] | None = None
        for number, line in enumerate(self.text.split("\n"), 1):
            found = FENCE.match(line)
            if not found:
                if opened is None:
                    self.prose.append((number, line))
                else:
                    opened[3].append(line.removeprefix(opened[1]))
            elif opened is None:
                opened = (number, found[1], found[2].strip(), [])
            else:
                self.blocks.append((opened[0], opened[2], "".join(it + "\n" for it in opened[3])))
                opened = None
        if opened:
            self.blocks.append((opened[0], "a block that is not closed", ""))

    def says(self, line: str) -> bool:
        """Whether a line stands in the page between backticks, or in a block."""
        return f"`{line}`" in " ".join(self.text.split()) or any(line in text.split("\n") for _, _, text in self.blocks)


def gate_command() -> str:
    """The command that .ci/run calls, at the top of the repository."""
    found = re.search(r"\.\./(tools/\w+)\"?((?: --\S+)*)$", (TOP / ".ci" / "run").read_text(encoding="utf-8"), re.M)
    assert found
    return found[1] + found[2]


class Count:
    """What passed, and what is said of what failed."""

    def __init__(self) -> None:
        self.passed, self.failed = 0, 0

    def is_so(self, holds: object, where: str, what: object) -> bool:
        if holds:
            self.passed += 1
        else:
            self.failed += 1
            print(f"{where}: {what}")
        return bool(holds)


# The blocks that cases read.


def blocks_of_cases() -> set[Named]:
    """The blocks of pages that a case reads, each as (word, number or None for each of them, page)."""
    found: set[Named] = set()
    for path in cases.files([]) + cases.files([], served=True):
        for line in path.read_text(encoding="utf-8").split("\n"):
            named = re.match(r"--- [\w:]+ (?:each )?(.*)", line)
            if named and (one := re.fullmatch(r"(\w+) block (\d+) of (\S+)", named[1])):
                found.add((one[1], int(one[2]), one[3]))
            elif named and (each := re.fullmatch(r"(\w+) block of (\S+)", named[1])):
                found.add((each[1], None, each[2]))
    return found


def try_named_by_cases(count: Count, page: Page, named: Container[Named]) -> None:
    numbers: dict[str, int] = {}
    for line, word, _ in page.blocks:
        if word in READ_BY_CASES:
            numbers[word] = numbers.get(word, 0) + 1
            is_read = (word, numbers[word], page.name) in named or (word, None, page.name) in named
            count.is_so(is_read, f"{page.name}:{line}", f"no case reads `{word} block {numbers[word]} of {page.name}`")


# Commands and terminals.


class Client:
    """One connection to a server of a page."""

    def __init__(self, port: int) -> None:
        self.socket = socket.create_connection(("127.0.0.1", port), timeout=SECONDS)
        self.lines = self.socket.makefile("rb")

    def say(self, line: str) -> None:
        self.socket.sendall(line.encode() + b"\n")

    def hear(self) -> str:
        return self.lines.readline().decode("ascii", "replace").rstrip("\n")


class Shell:
    """Runs the commands of a page in a folder that looks like the repository's top."""

    def __init__(self, count: Count, page: Page, folder: str) -> None:
        self.count, self.page, self.folder = count, page, pathlib.Path(folder)
        self.top, self.tmp, self.bin = (self.folder / it for it in ("top", "tmp", "bin"))
        for it in (self.top, self.tmp, self.bin):
            it.mkdir()
        for it in TOP.iterdir():
            if it.name not in ("pathserve", ".git"):
                (self.top / it.name).symlink_to(it)
        (self.top / "pathserve").symlink_to(program())
        self.ports: dict[str, str] = {}
        self.given: list[tuple[str, str]] = []
        self.servers: list[tuple[str, subprocess.Popen[str], TextIO, bool]] = []
        self.clients: list[tuple[str, Client]] = []
        self.begun = 0
        self.output, self.words = "", ""
        self.give_files()

    def give_files(self) -> None:
        """Files that the documents speak of and do not have, and what stands in for a program that is not installed."""
        page = Page(TOP / "README.md")
        first = next(text for _, word, text in page.blocks if word == "objects")
        (self.tmp / "object.pp").write_text(first, encoding="ascii")
        (self.top / "my.script").write_text("object cell\ncall s1 put 7\nsteps 1\nfinish 1\ntrace\n", encoding="ascii")
        if not shutil.which("nc"):
            client = "import socket,sys\nc=socket.create_connection((sys.argv[1],int(sys.argv[2])))\n"
            client += "c.sendall(sys.stdin.buffer.read())\nwhile piece:=c.recv(4096): sys.stdout.buffer.write(piece)\n"
            (self.bin / "nc").write_text(f"#!/usr/bin/env python3\n{client}", encoding="ascii")
            (self.bin / "nc").chmod(0o755)

    def give_object(self, page: Page, text: str) -> None:
        """Writes the objects of a block to the file of which the page says `write this object to`; the last block counts."""
        if found := re.search(r"[Ww]rite this object to `/tmp/([\w.]+)`", " ".join(page.text.split())):
            (self.tmp / found[1]).write_text(text, encoding="ascii")

    def port(self, text: str) -> str:
        if text not in self.ports:
            self.ports[text] = str(free_port())
            self.given.append((text, self.ports[text]))
        return self.ports[text]

    def put(self, text: str) -> str:
        """A text of the page with folders and ports of this run."""
        text = re.sub(r"(?<![\w.])/tmp\b", str(self.tmp), text).replace("/path/to/the/file", str(self.tmp / "object.pp"))
        # These tools would build a program of their own.
        text = re.sub(r"^(gate/run_\w+)\b", rf"\1 --program {program()}", text)
        return PORT.sub(lambda it: self.port(it[0]), text)

    def back(self, text: str) -> str:
        """What was written in this run, as the page has it."""
        for name, port in self.given:
            text = re.sub(rf"\b{port}\b", name, text)
        return text.replace(str(self.tmp), "/tmp")

    def start(self, words: str, **more: Any) -> "subprocess.Popen[str]":
        env = {**os.environ, "PATH": f"{os.environ['PATH']}:{self.bin}", "PYTHONDONTWRITEBYTECODE": "1"}
        return subprocess.Popen(["bash", "-c", words], cwd=self.top, env=env, text=True, start_new_session=True, **more)

    def serve(self, where: str, words: str) -> None:
        """Starts a server, and waits until it listens."""
        words = words.rstrip("&").strip()
        port = PORT.search(words)
        assert port, words
        # Another one than the server before had.
        self.ports.pop(port[0], None)
        self.begun += 1
        log = open(self.folder / f"server-{self.begun}", "w+", encoding="utf-8")
        started = self.start("exec " + self.put(words), stdin=subprocess.PIPE, stdout=log, stderr=subprocess.STDOUT)
        self.servers.append((where, started, log, words.startswith("./pathserve keep")))
        end = time.monotonic() + SECONDS
        while time.monotonic() < end and started.poll() is None:
            if "listening" in pathlib.Path(log.name).read_text(encoding="utf-8"):
                self.count.passed += 1
                self.last_port = int(self.port(port[0]))
                return
            time.sleep(0.02)
        self.count.is_so(False, where, f"it does not listen: {words}: {pathlib.Path(log.name).read_text(encoding='utf-8')}")

    def run(self, where: str, words: str, status: int, stdin: str | None = None) -> None:
        """Runs a command to its end."""
        given = subprocess.PIPE if stdin is not None else subprocess.DEVNULL
        ran = self.start(self.put(words), stdin=given, stdout=subprocess.PIPE, stderr=subprocess.PIPE)
        try:
            out, error = ran.communicate(stdin, timeout=SECONDS)
        except subprocess.TimeoutExpired:
            # With all that it has started.
            os.killpg(ran.pid, signal.SIGKILL)
            ran.communicate()
            self.count.is_so(False, where, f"not ended after {SECONDS} seconds: {words}")
            return
        self.output, self.words = self.back(out), words
        said = f"ended with status {ran.returncode}, not {status}: {words}\n{error}"
        self.count.is_so(ran.returncode == status, where, said)
        lines = self.output.splitlines()
        if len(lines) == 1 and words.startswith("./pathserve"):
            self.count.is_so(self.page.says(lines[0]), where, f"{words} writes {lines[0]!r}, which the page does not say")

    def kill(self, where: str) -> None:
        """Kills the server that was started last."""
        was = self.servers[-1][1] if self.servers else None
        if self.count.is_so(was and was.poll() is None, where, "no server to kill") and was:
            os.killpg(was.pid, signal.SIGKILL)
            was.wait()

    def commands(self, where: str, text: str, status: int, stdin: str | None) -> None:
        """Runs the commands of a block; only the last one may have another status than 0."""
        lines = [it for it in text.replace("\\\n", " ").split("\n") if it.strip() and not it.startswith("#")]
        for number, words in enumerate(lines, 1):
            if words in (gate_command(), *LOOKED_AT):
                try_not_run(self.count, where, words)
            elif words == KILLS:
                self.kill(where)
            elif SERVES.match(words):
                self.serve(where, words)
            else:
                last = number == len(lines)
                self.run(where, words, status if last else 0, stdin if words.endswith("/dev/stdin") else None)

    def terminal(self, where: str, text: str) -> None:
        """Says and hears the lines of a block, over a connection of its own."""
        client = Client(self.last_port)
        has_quit = False
        for line in text.splitlines():
            if line.startswith("> "):
                client.say(line[2:])
                has_quit = line == "> quit"
            else:
                heard = client.hear()
                if not self.count.is_so(heard == line, where, f"it heard {heard!r}, not {line!r}"):
                    return
        if not has_quit:
            self.clients.append((where, client))
        elif (line := client.hear()) != "":
            # (a name is free when the server has closed the connection)
            self.count.is_so(False, where, f"it heard {line!r} after the end")

    def end_clients(self) -> None:
        """Each client that is there says `quit`; what it hears then stands in the page. Then its server ends, but for one
        that stays."""
        for where, client in self.clients:
            client.say("quit")
            while (line := client.hear()) not in ("", "bye"):
                self.count.is_so(self.page.says(line), where, f"it heard {line!r}, which the page does not say")
            self.count.is_so(line == "bye", where, "it heard no bye")
        had, self.clients = bool(self.clients), []
        stay = [it for it in self.servers if it[3]]
        self.servers = [it for it in self.servers if not it[3]]
        for where, server, _, _ in self.servers if had else []:
            try:
                status = server.wait(timeout=SECONDS)
                self.count.is_so(status == 0, where, f"the server ended with status {status}")
            except subprocess.TimeoutExpired:
                self.count.is_so(False, where, "the server did not end")
        self.end_servers(had)
        self.servers = stay

    def end_servers(self, says: bool) -> None:
        for where, server, log, _ in self.servers:
            assert server.stdin
            server.stdin.close()
            if server.poll() is None:
                server.terminate()
                try:
                    server.wait(timeout=SECONDS)
                except subprocess.TimeoutExpired:
                    self.count.is_so(False, where, "the server did not end")
                    # With all that it has started.
                    os.killpg(server.pid, signal.SIGKILL)
                    server.wait()
            log.seek(0)
            for line in self.back(log.read()).splitlines() if says else []:
                self.count.is_so(self.page.says(line), where, f"the server writes {line!r}, which the page does not say")
            log.close()
        self.servers = []


def stands(wanted: str, found: str) -> bool:
    return cases.is_like(wanted.encode(), found.encode())


def try_commands(count: Count, page: Page) -> None:
    """Runs the commands and the terminals of a page."""
    if not any(word.split(" ")[0] in ("sh", "terminal", "python", "output") for _, word, _ in page.blocks):
        return
    with tempfile.TemporaryDirectory(prefix="documents-") as folder:
        shell = Shell(count, page, folder)
        try:
            for at, (line, word, text) in enumerate(page.blocks):
                try_block(shell, f"{page.name}:{line}", word, text, page.blocks[at + 1 :])
            shell.end_clients()
        finally:
            shell.end_servers(False)


def try_block(shell: Shell, where: str, word: str, text: str, later: Sequence[Block]) -> None:
    """Does what a block asks for; `later` are those after it."""
    if word == "objects":
        shell.give_object(shell.page, text)
    elif word in ("sh", "sh status 1", "python"):
        if shell.clients:
            shell.end_clients()
        following = later[0][1] if later else ""
        status = 1 if word == "sh status 1" or following == "explained" else 0
        script = next((it for _, kind, it in later if kind == "script"), None)
        if word == "python":
            shell.run(where, f"PYTHONPATH=examples/clients python3 - <<'END'\n{text}END", 0)
        else:
            shell.commands(where, text, status, script)
        if text.rstrip().endswith("/dev/stdin"):
            answers = next((it for _, kind, it in later if kind == "answers"), "")
            shell.count.is_so(stands(answers, shell.output), where, "the first answers of the page are others")
    elif word == "output":
        shell.count.is_so(stands(text, shell.output), where, f"{shell.words} writes\n{shell.output}")
    elif word == "terminal":
        try:
            shell.terminal(where, text)
        except (OSError, AttributeError) as error:
            shell.count.is_so(False, where, f"no server: {error}")
    elif word == "sh not-run":
        try_not_run(shell.count, where, text)


def try_not_run(count: Count, where: str, text: str) -> None:
    """Looks whether the programs of commands that are not run, and their flags, are there."""
    for line in text.splitlines():
        words = line.rstrip("&").split("#")[0].replace("[", "").replace("]", "").split()
        if not words or words[0] in ("cd", "export"):
            if words[:1] == ["cd"]:
                count.is_so((TOP / words[1]).exists(), where, f"no folder {words[1]}")
            continue
        while "=" in words[0]:
            words.pop(0)
        path = TOP / words[0]
        if "/" not in words[0]:
            # A program of the system or of the kit: whether it is installed is not the document's business.
            count.passed += 1
        elif count.is_so(path.exists() and os.access(path, os.X_OK), where, f"no program {words[0]}") and words[0].startswith(("tools/", "gate/")):
            # (a command in Python only hands its words on to the module of its name)
            module = path.with_name(f"{path.name}.py")
            source = (module if module.exists() else path).read_text(encoding="utf-8")
            for flag in (it for it in words if it.startswith("--")):
                count.is_so(flag in source, where, f"{words[0]} knows no {flag}")


# Other blocks.


def try_case(count: Count, where: str, text: str) -> None:
    """Runs a block that is a file of cases."""
    with tempfile.TemporaryDirectory(prefix="documents-") as folder:
        path = pathlib.Path(folder) / "block.cases"
        path.write_text(text, encoding="utf-8")
        try:
            header, found = cases.blocks(path)
            is_served = header["command"].startswith("serve")
            reader = sessions.StoryReader if is_served else cases.Reader
            made = [it for block in found for one in cases.with_each(block) for it in reader(where, header, one).cases()]
        except (cases.BadCase, KeyError, ValueError) as error:
            count.is_so(False, where, str(error))
            return
        for case in made:
            said = run_sessions.tried(case, []) if is_served else run_cases.tried(case)
            count.is_so(not said, where, said)


def try_grammars(count: Count, pages: Sequence[Page]) -> None:
    """Looks whether each sign that a grammar uses has its rule in one of these pages."""
    text = "\n".join(it for page in pages for _, word, it in page.blocks if word == "grammar")
    rules = set(re.findall(r"(?m)^(\w+) +=", text))
    plain = re.sub(r'"[^"]*"', " ", text)
    for sign in sorted(set(re.findall(r"[a-z]+", plain)) - rules - {"name", "number", "string", "nothing"}):
        count.is_so(False, "grammar", f"no rule for {sign}")
    count.passed += len(rules)


def try_entries(count: Count, where: str, text: str) -> None:
    """Looks whether the reader of objects takes these declarations."""
    body = text.replace("..", "").replace("NAME", "x")
    for entry in body.splitlines():
        with tempfile.NamedTemporaryFile("w", suffix=".pp", encoding="ascii") as file:
            file.write(f"object o; {entry} end;\n")
            file.flush()
            ran = subprocess.run([program(), "check", file.name], capture_output=True, text=True, timeout=SECONDS, check=False)
        count.is_so(ran.returncode == 0, where, f"{entry}: {ran.stdout.strip()}")


def try_edit(count: Count, where: str, text: str) -> None:
    """Looks whether a wrong body could be tried: its text stands once in that file of some crate."""
    words = dict(line.partition(": ")[::2] for line in text.splitlines())
    found = [it for it in (TOP / "crates").glob(f"*/{words.get('file', 'none')}") if it.read_text().count(words.get("old", "")) == 1]
    count.is_so(found and words.get("new"), where, "no crate has this text in that file")


# What pages name.


def try_names(count: Count, page: Page) -> None:
    """Looks whether each path that a page names is there."""
    for line, text in page.prose:
        for name in re.findall(r"(?<![\w/.-])((?:docs|tools|gate|cases|examples|bench|crates|\.ci)/[\w./*-]*[\w*])", text):
            if not MADE.search(name):
                there = list(TOP.glob(name)) if "*" in name else (TOP / name).exists() or bare_name(name)
                count.is_so(there, f"{page.name}:{line}", f"there is no {name}")


def try_spans(count: Count, page: Page, help_text: str) -> None:
    """Looks whether the tools, the subcommands and the flags of commands between backticks are there."""
    for line, text in page.prose:
        where = f"{page.name}:{line}"
        for span in re.findall(r"`([^`]+)`", text):
            if re.match(r"(?:\w+=\S+ )?(?:tools|gate|bench|examples)/\S+ ", span):
                try_not_run(count, where, span)
            elif found := re.match(r"(?:\./)?pathserve ([a-z]+)((?: \S+)*)$", span):
                count.is_so(f"pathserve {found[1]}" in help_text, where, f"no subcommand {found[1]}")
                for flag in re.findall(r"--[a-z-]+", found[2]):
                    count.is_so(flag in help_text, where, f"no flag {flag}")


def bare_name(name: str) -> bool:
    """Whether a path without its ending, as `cases/serve/lines`, is that of one file."""
    return bool(list(TOP.glob(name + ".*")))


def try_items(count: Count, page: Page) -> None:
    """Looks whether each file of a crate, and each item or definition of one, that a page names is there."""
    for line, text in page.prose:
        where = f"{page.name}:{line}"
        for crate, file, more in re.findall(r"\b([a-z_]+)/((?:specs|proofs|src)/[\w/]+\.(?:antt|rt))((?:, [A-Z]\w*\.antt)*)", text):
            place = pathlib.PurePath(file).parent
            for name in [file, *(str(place / it) for it in re.findall(r"\w+\.antt", more))]:
                count.is_so((TOP / "crates" / crate / name).exists(), where, f"there is no {crate}/{name}")
        for crate, several, one in re.findall(r"`([a-z_]+)::(?:\w+::)*(?:\{([^}]*)\}|(\w+))`", text):
            folder = TOP / "crates" / crate / "src"
            if folder.exists():
                source = "\n".join(it.read_text(encoding="utf-8") for it in folder.rglob("*.rt"))
                defined = proofs.definitions_of(folder.parent)
                for name in (it.strip().rpartition("::")[2] for it in (several or one).split(",")):
                    there = name in defined or re.search(rf"\b(fn|struct|enum|trait|type|const|mod) {name}\b", source)
                    count.is_so(there, where, f"there is no {name} in {crate}")


def try_sizes(count: Count, page: Page) -> None:
    """Looks whether each cell of a page's tables can be read at a glance, and whether the page has too many lines."""
    most = LETTERS.get(page.name, MOST_LETTERS)
    for line, text in page.prose:
        if most and text.startswith("|"):
            longest = max(len(cell.strip()) for cell in re.split(r"(?<!\\)\|", text))
            count.is_so(longest <= most, f"{page.name}:{line}", f"a cell of {longest} letters; {most} are the most")
    lines = page.text.count("\n")
    count.is_so(lines <= LINES.get(page.name, lines), page.name, f"{lines} lines; {LINES.get(page.name)} are the most")


def try_proofs(count: Count) -> None:
    """Looks whether docs/PROMISES.md and its like name what is there, and what is made of them is as it would be made now."""
    for wrong in proofs.faults(proofs.Sources()):
        count.is_so(False, wrong.partition(": ")[0], wrong.partition(": ")[2])
    count.passed += 1


def try_limits(count: Count) -> None:
    """Looks whether each case and test that docs/LIMITS.md names is there."""
    for number, line in enumerate((TOP / "docs" / "LIMITS.md").read_text(encoding="utf-8").split("\n"), 1):
        for cell in line.split("|"):
            for name, title in re.findall(r"`([a-z_]+(?:/[a-z_]+)?)`: ([^;|]+)", cell):
                where, title = f"docs/LIMITS.md:{number}", title.strip()
                if "/" in name:
                    file = TOP / "cases" / f"{name}.cases"
                    there = file.exists() and f"=== {title}" in file.read_text(encoding="utf-8").split("\n")
                    count.is_so(there, where, f"no case {title!r} in cases/{name}.cases")
                else:
                    sources = (TOP / "crates" / name / "src").glob("*.rt")
                    there = any(f"fn {title}(" in it.read_text(encoding="utf-8") for it in sources)
                    count.is_so(there, where, f"no test {title} in {name}")


def try_wrong_bodies(count: Count) -> None:
    """Looks whether each wrong body that docs/PROMISES.md names is there."""
    text = (TOP / "docs" / "PROMISES.md").read_text(encoding="utf-8")
    section = re.search(r"(?ms)^## Wrong bodies$(.*?)(?=^`rt plant`|\Z)", text)
    edits = {it.stem for folder in ("wrong-bodies", "wrong-by-test", "wrong-by-case") for it in (TOP / "crates").glob(f"*/{folder}/*.edit")}
    tests = "\n".join(it.read_text(encoding="utf-8") for it in (TOP / "crates").glob("*_vectors/src/*.rt"))
    for name in sorted(set(re.findall(r"`([a-z0-9]+(?:_[a-z0-9]+)+)`", section[1] if section else ""))):
        count.is_so(name in edits or f"fn {name}(" in tests, "docs/PROMISES.md", f"there is no wrong body {name}")


def try_crates(count: Count) -> None:
    """Compares the crates of docs/ARCHITECTURE.md with crates.txt: each has a row, and stands on its layer and those below."""
    text = (TOP / "docs" / "ARCHITECTURE.md").read_text(encoding="utf-8")
    layer = {}
    picture = re.search(r"(?ms)^```picture\n(.*?)^```", text)
    for name in LAYERS[:-1]:
        count.is_so(picture and name.lower() in picture[1], "docs/ARCHITECTURE.md", f"the picture has no {name.lower()}")
    for place, name in enumerate(LAYERS):
        section = re.search(rf"(?ms)^## {name}$(.*?)(?=^## |\Z)", text)
        if not count.is_so(section, "docs/ARCHITECTURE.md", f"no layer {name}") or not section:
            continue
        for crate in re.findall(r"(?m)^\| `(\w+)` \|", section[1]):
            count.is_so(crate not in layer, "docs/ARCHITECTURE.md", f"{crate} has two rows")
            layer[crate] = place
    lines = repository.crates()
    count.is_so(not set(lines) - set(layer), "docs/ARCHITECTURE.md", f"no row for {', '.join(sorted(set(lines) - set(layer)))}")
    count.is_so(not set(layer) - set(lines), "crates.txt", f"no line for {', '.join(sorted(set(layer) - set(lines)))}")
    sharing, replay, tests = (LAYERS.index(it) for it in ("Sharing", "Replay", "Test crates"))
    for crate in lines:
        for other in lines[crate].partition(":")[2].replace(",", " ").split():
            if crate in layer and other in layer:
                above, below = layer[crate], layer[other]
                holds = below <= above and (above, below) != (replay, sharing) and (below != tests or above == tests)
                count.is_so(holds, "docs/ARCHITECTURE.md", f"{crate} ({LAYERS[above]}) stands on {other} ({LAYERS[below]})")


def try_parts(count: Count) -> None:
    """Looks whether gate/README.md tells of each part of tools/test."""
    text = (TOP / "gate" / "README.md").read_text(encoding="utf-8")
    for part in (*test.FREE, *test.PARTS, test.TRY):
        count.is_so(f"`{part.words[0]}`" in text, "gate/README.md", f"nothing of {part.words[0]}")


def try_whole(count: Count) -> None:
    """What holds of README.md, CHANGELOG.md and the manual page as a whole."""
    readme = (TOP / "README.md").read_text(encoding="utf-8")
    command = gate_command()
    count.is_so(f"`{command}`" in readme, "README.md", f"it does not name `{command}`, which .ci/run calls")
    pasted = [it for _, word, it in Page(TOP / "README.md").blocks if word == "sh" and set(it.splitlines()) & {command, "tools/prove"}]
    count.is_so(not pasted, "README.md", "a block to be pasted proves, which takes an hour")
    count.is_so(man_page.PAGE.exists() and man_page.PAGE.read_text(encoding="utf-8") == man_page.page_of(str(program())),
                "docs/pathserve.1", "not of the program's help: gate/man_page makes it anew")
    told = man_page.VERSION.search(man_page.help_of(str(program())))
    first = re.search(r"(?m)^## (\d+\.\d+\.\d+)$", (TOP / "CHANGELOG.md").read_text(encoding="utf-8"))
    count.is_so(told and first and told[1] == first[1], "CHANGELOG.md",
                f"begins with {first and first[1]}, and the help of the program says {told and told[1]}")


def pages_of(words: Sequence[str]) -> list[Page]:
    names = ["README.md", "CONTRIBUTING.md", "CHANGELOG.md", "cases/README.md", "bench/README.md", "gate/README.md"]
    found = [TOP / it for it in names if (TOP / it).exists()] + sorted((TOP / "docs").glob("*.md"))
    return [Page(it) for it in ([pathlib.Path(it).resolve() for it in words] or found)]


def main() -> int:
    words = argparse.ArgumentParser(usage=__doc__, add_help=False)
    words.add_argument("pages", nargs="*")
    said = words.parse_args(given_words())
    count, pages, named = Count(), pages_of(said.pages), blocks_of_cases()
    names = ("paths", "check", "run", "audit", "serve", "keep")
    help_text = "\n".join(man_page.help_of(str(program()), *words) for words in [(), *((it,) for it in names)])
    for page in pages:
        try_named_by_cases(count, page, named)
        try_names(count, page)
        try_spans(count, page, help_text)
        try_items(count, page)
        try_sizes(count, page)
        for line, word, text in page.blocks:
            where = f"{page.name}:{line}"
            if word == "case":
                try_case(count, where, text)
            elif word == "entries":
                try_entries(count, where, text)
            elif word == "edit":
                try_edit(count, where, text)
            elif word not in (*READ_BY_CASES, "sh", "sh status 1", "sh not-run", "output", "terminal", "python", "grammar", "picture", "text"):
                count.is_so(False, where, f"no such kind of block: {word!r}")
        try_commands(count, page)
    if not said.pages:
        try_grammars(count, pages)
        try_limits(count)
        try_proofs(count)
        try_wrong_bodies(count)
        try_crates(count)
        try_parts(count)
        try_whole(count)
    print(f"{count.passed} passed, {count.failed} failed")
    return 0 if count.passed and not count.failed else 1


load_tests = whole(main)
