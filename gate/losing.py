"""What a loss of power may leave of a folder, by the changes that gate/fail.c notes.

What a sync has stored is there. Of what was written since to a file any writes may be there or not, and of one a part;
of the names that were made or changed since the folder went to the disk the first ones may be there.
"""
import os
import pathlib
import random
import struct
from collections.abc import Iterable, Iterator, Sequence

HEAD = struct.Struct("=5Q")
SECTOR = 512
# A change of a file: its letter, the place, and the bytes.
Change = tuple[str, int, bytes]


def records(log: pathlib.Path) -> Iterator[tuple[str, int, int, bytes]]:
    """The changes that a log tells: letter, file, place, bytes. The last one may have been cut off."""
    text, at = (log.read_bytes() if log.exists() else b""), 0
    while at + HEAD.size <= len(text):
        letter, file, place, length, _ = HEAD.unpack_from(text, at)
        at += HEAD.size
        if at + length > len(text):
            return
        yield chr(letter), file, place, text[at : at + length]
        at += length


class File:
    def __init__(self, stored: bytes = b"") -> None:
        self.stored = bytearray(stored)
        self.loose: list[Change] = []

    def changed(self, changes: Iterable[Change]) -> bytearray:
        text = bytearray(self.stored)
        for letter, at, piece in changes:
            if letter == "T":
                text = text[:at] + bytes(max(0, at - len(text)))
            else:
                text += bytes(max(0, at + len(piece) - len(text)))
                text[at : at + len(piece)] = piece
        return text

    def sync(self) -> None:
        self.stored, self.loose = self.changed(self.loose), []


class Disk:
    """A folder, and what of it is stored for certain."""

    def __init__(self, folder: pathlib.Path) -> None:
        self.folder = folder
        self.files = {it.stat().st_ino: File(it.read_bytes()) for it in folder.iterdir() if it.is_file()}
        self.names = {it.name: it.stat().st_ino for it in folder.iterdir() if it.is_file()}
        self.loose: list[tuple[str, int, str]] = []

    def hear(self, log: pathlib.Path) -> None:
        for letter, file, at, piece in records(log):
            if letter in "WT":
                self.files.setdefault(file, File()).loose.append((letter, at, piece))
            elif letter == "S":
                self.files.setdefault(file, File()).sync()
            elif letter == "D":
                self.name_all(self.names, self.loose)
                self.loose = []
            else:
                self.loose.append((letter, file, piece.decode()))

    @staticmethod
    def name_all(names: dict[str, int], changes: Iterable[tuple[str, int, str]]) -> None:
        for letter, file, text in changes:
            if letter == "O":
                names[text] = file
            elif letter == "U":
                names.pop(text, None)
            else:
                old, new = text.split("/")
                if letter == "L" and old in names:
                    names.setdefault(new, names[old])
                elif old in names and names.get(new) != names[old]:
                    names[new] = names.pop(old)

    def left(self, draw: random.Random) -> tuple[dict[str, int], dict[int, bytes]]:
        """What a loss of power leaves: the numbers of files by their names, and the bytes of each file."""
        how = draw.choice(("none", "none", "all", "some", "some", "front"))
        names = dict(self.names)
        texts: dict[int, bytes] = {}
        self.name_all(names, self.loose[: draw.randrange(len(self.loose) + 1)])
        for number in names.values():
            file = self.files.get(number, File())
            texts[number] = bytes(file.changed(list(chosen(file.loose, how, draw))))
        return names, texts

    def lose(self, log: pathlib.Path, draw: random.Random) -> None:
        """Has the folder hold what a loss of power leaves of it, behind the changes that were noted."""
        self.hear(log)
        names, texts = self.left(draw)
        for it in list(self.folder.iterdir()):
            if it.is_file():
                it.unlink()
        made: dict[int, pathlib.Path] = {}
        for name, number in names.items():
            if number in made:
                os.link(made[number], self.folder / name)
            else:
                made[number] = self.folder / name
                made[number].write_bytes(texts[number])
        log.unlink(missing_ok=True)


def chosen(changes: Sequence[Change], how: str, draw: random.Random) -> Iterator[Change]:
    """Some of the changes that no sync has stored."""
    if how == "none":
        return
    end = draw.randrange(len(changes) + 1) if how == "front" else len(changes)
    for at, (letter, place, piece) in enumerate(changes):
        if how == "front" and at == end and letter == "W":
            yield letter, place, piece[: draw.randrange(len(piece) + 1)]
        if at >= end or how == "some" and draw.random() < 0.5:
            continue
        if how == "some" and letter == "W" and draw.random() < 0.3:
            # some sectors of it
            for start in range(0, len(piece), SECTOR):
                if draw.random() < 0.5:
                    yield letter, place + start, piece[start : start + SECTOR]
        else:
            yield letter, place, piece
