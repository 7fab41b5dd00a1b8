"""The check lines of an epoch of a kept object, as docs/FORMATS.md has them: they are made here, and looked at.

`front N C` ends a front: N bytes stand before it. `stored B C` ends a round: B bytes of the file were synced when it was
written. C is the CRC-32C of the front, or of the lines behind the check line before, in 8 digits of hexadecimal. An epoch
whose first line has no format has none.
"""
import re
from collections.abc import Iterable, Iterator

from gate.tried import Wrong, check
from tools.traced import format_of, is_check

POLYNOMIAL, ONES = 0x82F63B78, 0xFFFFFFFF
LINE = re.compile(rb"(front|stored) (0|[1-9][0-9]*) ([0-9a-f]{8})")


def row_of(byte: int) -> int:
    for _ in range(8):
        byte = byte >> 1 ^ (POLYNOMIAL if byte & 1 else 0)
    return byte


TABLE = [row_of(it) for it in range(256)]


def crc32c(text: bytes, before: int = 0) -> int:
    """The CRC-32C of a text, or of one that goes on behind what has that of `before`."""
    state = before ^ ONES
    for it in text:
        state = state >> 8 ^ TABLE[(state ^ it) & 255]
    return state ^ ONES


def front_line(front: bytes) -> bytes:
    """The last line of this front."""
    return b"front %d %08x\n" % (len(front), crc32c(front))


def stored_line(synced: int, lines: bytes) -> bytes:
    """The last line of a round of these lines."""
    return b"stored %d %08x\n" % (synced, crc32c(lines))


def epoch(front: bytes, *rounds: bytes) -> bytes:
    """An epoch with its check lines, of which each round was synced before the next one."""
    text = front + front_line(front)
    for it in rounds:
        text += it + stored_line(len(text), it)
    return text


def summed(text: bytes) -> bytes:
    """The text of an epoch with its check lines as they have to be: those that it has, each in its place."""
    made, begun = b"", 0
    for line in text.splitlines(keepends=True):
        if is_check(line) and format_of(text):
            # (what a `stored` line says of syncs stays)
            found, lines = re.match(rb"stored ([0-9]+) ", line), made[begun:]
            line = stored_line(int(found[1]), lines) if found else front_line(made)
            begun = len(made) + len(line)
        made += line
    return made


def as_before(text: bytes) -> bytes:
    """An epoch, with the bytes 0 behind it, as programs wrote it that knew no format."""
    lines, form = text[: text.partition(b"\0")[0].rfind(b"\n") + 1], format_of(text)
    if not form:
        return text
    kept = b"".join(it for it in lines.splitlines(keepends=True) if not is_check(it))
    kept = kept.replace(b" format %d " % form, b" ", 1)
    return kept + text[len(lines) :] + bytes(len(lines) - len(kept))


class Sums:
    """Hears the lines of an epoch, one behind the other, and looks at each check line."""

    def __init__(self) -> None:
        self.size = self.sum = self.synced = 0
        self.has_format = self.has_front = False

    def hear(self, line: bytes) -> bool:
        """Whether a line, without its LF, is a check line. One that is wrong is told."""
        if not self.size:
            self.has_format = bool(format_of(line))
        found = LINE.fullmatch(line) if self.has_format else None
        if self.has_format and is_check(line):
            if not found:
                raise Wrong(f"{line!r} is no check line")
            self.look(found[1] == b"front", int(found[2]), int(found[3], 16))
        else:
            self.sum = crc32c(line + b"\n", self.sum)
        self.size += len(line) + 1
        return bool(found)

    def look(self, is_front: bool, number: int, said: int) -> None:
        check(is_front, not self.has_front, "whether it is the end of the front")
        if is_front:
            check(number, self.size, "the bytes of the front")
        elif not self.synced <= number <= self.size:
            raise Wrong(f"{number} bytes were synced, of {self.size}, and {self.synced} before")
        check(said, self.sum, "the CRC-32C")
        self.has_front, self.synced, self.sum = True, self.size if is_front else number, 0


def without(lines: Iterable[bytes]) -> Iterator[bytes]:
    """The lines of an epoch that are no check lines, each of which is right."""
    sums = Sums()
    return (it for it in lines if not sums.hear(it))


def are_right(text: bytes) -> list[bytes]:
    """The lines of the text of a journal without its check lines. It raises where one is not right, where a front does not
    end with one, and where a format has other ones than it has to."""
    sums = Sums()
    found = [it for it in text.partition(b"\0")[0].split(b"\n")[:-1] if not sums.hear(it)]
    check(sums.has_front, sums.has_format, "whether a check line ends the front")
    return found


def counted(text: bytes) -> int:
    """How many lines of a piece of an epoch are no check lines."""
    return sum(not is_check(it) for it in text.split(b"\n")[:-1])


# What the definition of this CRC says of itself.
check(crc32c(b"123456789"), 0xE3069283, "the CRC-32C of nine digits")
