#!/usr/bin/env python3
"""Calls operations of an object as a client that has a name, and prints how each call ended. Where the connection
breaks, it comes back and asks again: a call that was done is not done a second time.

usage: resuming.py PLACE OBJECT NAME CALL ..    (a CALL is an operation with its arguments, as in "put 7")

PLACE is a port of this machine, or the path of a socket, with a slash in it. Exit statuses: 0 each call was answered; 1
the object was not opened; 2 usage; 3 there is no server, or it is not known whether the last call was done. A program
that calls is better off with `client=` of pathclient.py, in this folder.
"""
import random
import socket
import sys
import time

# For how many seconds a server is tried before it counts as gone.
SECONDS = 5


class Gone(Exception):
    """The connection broke."""


def keep_alive(connection):
    """Has the system end a connection whose other side is gone without a word: asked after 10 s, each 5, 3 times."""
    connection.setsockopt(socket.SOL_SOCKET, socket.SO_KEEPALIVE, 1)
    for option, value in ((socket.TCP_KEEPIDLE, 10), (socket.TCP_KEEPINTVL, 5), (socket.TCP_KEEPCNT, 3)):
        connection.setsockopt(socket.IPPROTO_TCP, option, value)


class Connection:
    """A connection, line by line."""

    def __init__(self, place):
        if "/" in place:
            self.it = socket.socket(socket.AF_UNIX)
            self.it.connect(place)
        else:
            self.it = socket.create_connection(("127.0.0.1", int(place)))
            keep_alive(self.it)
        self.lines = self.it.makefile("r", encoding="ascii", newline="\n")

    def line(self):
        """The next line. One that was cut is none."""
        line = self.lines.readline()
        if not line.endswith("\n"):
            raise Gone("it is gone")
        return line.rstrip("\n")

    def ask(self, line):
        """Sends a line and gives the first answer."""
        self.it.sendall(f"{line}\n".encode())
        return self.line()

    def close(self):
        self.lines.close()
        self.it.close()


def opened(place, line):
    """A connection on which the object is open, and the key of the next call; or what was answered in place of it."""
    end, pause = time.monotonic() + SECONDS, 0.1
    while True:
        try:
            it = Connection(place)
            # Until the server has seen that the connection before this one is broken, the name is in use.
            while (answer := it.ask(line)).split(" ")[:2] == ["no", "InUse"] and time.monotonic() < end:
                time.sleep(0.02)
        except (Gone, OSError) as error:
            # (who may not connect may not later either)
            if isinstance(error, PermissionError) or time.monotonic() >= end:
                raise Gone(getattr(error, "strerror", None) or error) from None
            # (not all clients that have lost a server come back together)
            time.sleep(min(random.uniform(0.05, pause), max(end - time.monotonic(), 0)))
            pause = min(2 * pause, 1)
            continue
        words = answer.split(" ")
        return (it, int(words[3])) if words[0] == "opened" else (None, answer)


def last_line(it, key, call):
    """The last line of a call under this key: `repeat` and that line, where it was called before."""
    answer = it.ask(f"call #{key} {call}")
    return it.line() if answer.startswith("accepted ") else answer


def unknown(call):
    print(f"client: it is not known whether this was done: {call}", file=sys.stderr)
    return 3


def main(words):
    if len(words) < 3 or "/" not in words[0] and (not words[0].isdecimal() or int(words[0]) > 65535):
        print(__doc__, file=sys.stderr)
        return 2
    place, line, calls = words[0], f"open {words[1]} as {words[2]}", words[3:]
    try:
        it, key = opened(place, line)
    except Gone as error:
        print(f"client: there is no server: {error}", file=sys.stderr)
        return 3
    if it is None:
        print(key, file=sys.stderr)
        return 1
    for call in calls:
        # Key and call are all that there is to keep until the last line is here. (A client that may be killed itself
        # keeps them in a file, and asks again when it is started.)
        found = key
        while True:
            try:
                answer = last_line(it, key, call)
                break
            except (Gone, OSError):
                it.close()
            try:
                it, found = opened(place, line)
            except Gone:
                it = None
            # The server has either this call or all before it. (Before the first one there are none, so of that one a
            # server that was started anew would say the same.)
            if it is None or not (found == key + 1 or found == key > 1):
                return unknown(call)
        if found > key and answer.startswith("no "):
            return unknown(call)
        print(f"{call}: {answer}", flush=True)
        # A call that was refused by `no ..` has taken no key.
        key += not answer.startswith("no ")
    try:
        it.ask("quit")
    except (Gone, OSError):
        pass
    return 0


if __name__ == "__main__":
    sys.exit(main(sys.argv[1:]))
