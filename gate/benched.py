"""What the measurements share that build a program over the crates, beside them."""
import pathlib
import shutil
import subprocess

from gate.tried import TOP

SECONDS = 300


def copy_crates(top: pathlib.Path, uses: str) -> None:
    """Copies all crates to a folder, where a crate `bench` stands on these."""
    shutil.copytree(TOP / "crates", top / "crates", ignore=shutil.ignore_patterns("out", "wrong-bodies"))
    (top / "crates.txt").write_text((TOP / "crates.txt").read_text() + f"bench: {uses}\n")
    shutil.copy(TOP / "HANDLES", top)


def write(top: pathlib.Path, text: str) -> None:
    """Has the crate `bench` be this program."""
    source = top / "crates" / "bench" / "src"
    source.mkdir(parents=True, exist_ok=True)
    (source / "main.rt").write_text(text)


def run(top: pathlib.Path, text: str) -> int:
    """Runs a program over the crates, prints what it says, and gives its status."""
    write(top, text)
    words = ["rt", "try", "--seconds", str(SECONDS)]
    ran = subprocess.run(words, cwd=top / "crates" / "bench", capture_output=True, text=True)
    told = ran.stdout if not ran.returncode else ran.stdout + ran.stderr
    print(told, end="", flush=True)
    return ran.returncode
