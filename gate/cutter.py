"""A connection that breaks where it is told to, for tools that try clients."""
import select
import socket
import threading

from gate.served import resets


class Cutter(threading.Thread):
    """Stands before a server, and hands on what comes. Once it is told to, it breaks the connection behind so many bytes more that
    come from the client (`up`) or from the server (`down`)."""

    def __init__(self, port: int) -> None:
        super().__init__(daemon=True)
        self.server, self.socket, self.count, self.resets = port, socket.create_server(("127.0.0.1", 0)), 0, False
        self.way: "str | None" = None
        self.port, self.connections = self.socket.getsockname()[1], 0
        self.start()

    def cut(self, way: str, count: int, resets: bool) -> None:
        self.count, self.resets, self.way = count, resets, way

    def run(self) -> None:
        while True:
            up = self.socket.accept()[0]
            self.connections += 1
            with up, socket.create_connection(("127.0.0.1", self.server)) as down:
                self.hand_on({up: ("up", down), down: ("down", up)})

    def hand_on(self, ways: dict[socket.socket, tuple[str, socket.socket]]) -> None:
        """Hands on until one side ends, or it is to break off."""
        while True:
            for it in select.select(list(ways), [], [], 0.001)[0]:
                way, to = ways[it]
                try:
                    piece = it.recv(1 << 16)
                    to.sendall(piece[: self.count] if way == self.way else piece)
                except OSError:
                    return
                if not piece:
                    return
                if way == self.way:
                    self.count -= len(piece)
            if self.way and self.count <= 0:
                self.way = None
                for it in ways if self.resets else ():
                    resets(it)
                return
