#!/usr/bin/env python3
"""Drives the client for Python, by threads or, with the word `aio`, by asyncio: gate/try_client says how. PYTHONPATH has to
name the folder of that client."""
import asyncio
import re
import sys
import threading
from collections.abc import Sequence
from typing import Any

from pathclient import Cancelled, Expired, Failed, Lost, NoServer, Object, Refused, Rejected, aio, read, written

# The message of the last one that failed.
MESSAGES = [""]
WORDS = {Refused: "refused", Failed: "failed", Cancelled: "cancelled", Rejected: "no", NoServer: "no server", Expired: "expired",
         Lost: "lost"}


def told(came: Any) -> str:
    """What came of a call, as a line."""
    if isinstance(came, Exception):
        kind = next((it for it in WORDS if isinstance(came, it)), None)
        if kind is None:
            raise came
        MESSAGES[0] = str(came)
        return f"{WORDS[kind]} {came.word}" if isinstance(came, (Refused, Failed, Rejected)) else WORDS[kind]
    return "done" if came is None else f"done {written(came)}"


def called(line: str) -> tuple[float | None, tuple[Any, ...]]:
    """The words of a `call`: its time, its operation and its arguments."""
    _, time, operation, rest = (line + " ").split(" ", 3)
    arguments = [read(it) for it in re.findall(r"'(?:[^']|'')*'|\d+", rest)]
    return int(time) / 1000 or None, (operation, *arguments)


def opened(words: Sequence[str]) -> tuple[str | int, str, dict[str, Any]]:
    """The place, the name, and the rest of an `open`."""
    place, name, wait, client = words
    options = {"wait": int(wait) / 1000, "client": None if client == "-" else client}
    return int(place) if place.isdecimal() else place, name, options


def say(line: str) -> None:
    print(line, flush=True)


def by_threads() -> None:
    it: Any = None
    for line in map(str.rstrip, sys.stdin):
        word, *words = line.split(" ")
        try:
            if word == "open":
                if it is not None:
                    it.close()
                    it = None
                place, name, options = opened(words)
                it = Object(place, name, **options)
                say("opened")
            elif word == "call":
                within, call = called(line)
                say(told(it.call(*call, within=within)))
            elif word == "ahead":
                for came in it.ahead(*[called(sys.stdin.readline().rstrip())[1] for _ in range(int(words[0]))]):
                    say(told(came))
            elif word == "told":
                say(MESSAGES[0])
            elif word == "close":
                it.close()
                it = None
                left = threading.active_count() - 1
                say(f"closed, and it left {left} threads" if left else "closed")
        except Exception as error:  # what it raises is what is asked for
            say(told(error))


async def by_tasks() -> None:
    it: Any = None
    loop = asyncio.get_running_loop()
    while line := (await loop.run_in_executor(None, sys.stdin.readline)).rstrip():
        word, *words = line.split(" ")
        try:
            if word == "open":
                if it is not None:
                    await it.close()
                place, name, options = opened(words)
                it = aio.connect(place, name, **options)
                await it.open()
                say("opened")
            elif word == "call":
                within, call = called(line)
                say(told(await it.call(*call, within=within)))
            elif word == "ahead":
                lines = [await loop.run_in_executor(None, sys.stdin.readline) for _ in range(int(words[0]))]
                calls = [it.call(*called(more.rstrip())[1]) for more in lines]
                for came in await asyncio.gather(*calls, return_exceptions=True):
                    say(told(came))
            elif word == "told":
                say(MESSAGES[0])
            elif word == "close":
                await it.close()
                left = len(asyncio.all_tasks()) - 1
                say(f"closed, and it left {left} tasks" if left else "closed")
        except Exception as error:  # what it raises is what is asked for
            say(told(error))
    if it is not None:
        await it.close()


if __name__ == "__main__":
    say("can values within name ahead tells host pauses alive")
    if sys.argv[1:] == ["aio"]:
        asyncio.run(by_tasks())
    else:
        by_threads()
