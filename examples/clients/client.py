#!/usr/bin/env python3
"""Calls operations of an object that `pathserve serve` serves, and prints how each call ended.

usage: client.py PLACE OBJECT CALL ..    (a CALL is an operation with its arguments, as in "put 7")

PLACE is a port of this machine, or the path of a socket, with a slash in it. Exit statuses: 0 each call was answered; 1
the object was not opened; 2 usage; 3 there is no server, or it was gone before the last answer. A program that calls is
better off with pathclient.py, in this folder.
"""
import socket
import sys


class Gone(Exception):
    """The server closed the connection."""


def line_of(lines):
    """The next line. One that was cut is none."""
    line = lines.readline()
    if not line.endswith("\n"):
        raise Gone
    return line.rstrip("\n")


def ask(lines, line):
    """Sends a line and gives the first answer."""
    print(line, file=lines, flush=True)
    return line_of(lines)


def keep_alive(connection):
    """Has the system end a connection whose other side is gone without a word: asked after 10 s, each 5, 3 times."""
    connection.setsockopt(socket.SOL_SOCKET, socket.SO_KEEPALIVE, 1)
    for option, value in ((socket.TCP_KEEPIDLE, 10), (socket.TCP_KEEPINTVL, 5), (socket.TCP_KEEPCNT, 3)):
        connection.setsockopt(socket.IPPROTO_TCP, option, value)


def connected(place):
    """A connection to a port, or to the path of a socket."""
    if "/" not in place:
        connection = socket.create_connection(("127.0.0.1", int(place)))
        keep_alive(connection)
        return connection
    connection = socket.socket(socket.AF_UNIX)
    connection.connect(place)
    return connection


def main(words):
    if len(words) < 2 or "/" not in words[0] and (not words[0].isdecimal() or int(words[0]) > 65535):
        print(__doc__, file=sys.stderr)
        return 2
    place, name, *calls = words
    try:
        connection = connected(place)
    except OSError as error:
        print(f"client: there is no server: {error.strerror}", file=sys.stderr)
        return 3
    sent = None
    try:
        lines = connection.makefile("rw", encoding="utf-8", newline="\n")
        opened = ask(lines, f"open {name}")
        if not opened.startswith("opened "):
            print(opened, file=sys.stderr)
            return 1
        for sent in calls:
            answer = ask(lines, f"call {sent}")
            if answer.startswith("accepted "):
                # The call waits until the paths admit it; this is its last line.
                answer = line_of(lines)
            print(f"{sent}: {answer}", flush=True)
        sent = None
        ask(lines, "quit")
    except (Gone, OSError):
        print("client: the server is gone", file=sys.stderr)
        if sent is not None:
            print(f"client: it is not known whether this was done: {sent}", file=sys.stderr)
        return 3
    return 0


if __name__ == "__main__":
    sys.exit(main(sys.argv[1:]))
