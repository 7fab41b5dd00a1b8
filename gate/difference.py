"""In which lines two texts differ."""
import difflib

WIDTH = 160


def shown(line: bytes) -> str:
    """A line as it is shown: bytes that cannot be printed as escapes, and only its front where it is long."""
    text = line.decode("utf-8", "backslashreplace").rstrip("\n")
    return text if len(text) <= WIDTH else f"{text[:WIDTH]}.. ({len(text)} characters)"


def difference(wanted: bytes, found: bytes) -> list[str]:
    """The lines in which two texts differ."""
    a = [shown(it) for it in wanted.splitlines()]
    b = [shown(it) for it in found.splitlines()]
    lines = list(difflib.unified_diff(a, b, "expected", "answered", lineterm="", n=1))[2:]
    if not lines:
        lines = ["  the same but for line feeds or the ends of long lines"]
    return [f"    {it}" for it in lines[:12]] + (["    .."] if len(lines) > 12 else [])
