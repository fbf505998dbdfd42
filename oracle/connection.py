"""A client's connection to a server."""
from __future__ import annotations

import socket
import time
from typing import Any

from oracle.messages import read_server
from oracle.wire import Frames

Answer = tuple[str, Any]
# How many seconds a client waits for an answer before it calls the server wrong. An answer comes within milliseconds,
# and on a busy machine with a slow disk within some seconds.
PATIENCE = 180.0


class Closed(Exception):
    """The server ended the connection."""


class Connection:
    """A connection to a server, by a socket of a port, or by one end of a pair whose other end a program has."""

    def __init__(self, link: socket.socket, timeout: float = PATIENCE) -> None:
        """`timeout` is in seconds."""
        self.link = link
        self.link.settimeout(timeout)
        self.timeout = timeout
        self.frames = Frames()
        self.got: list[Answer] = []

    def send(self, *frames: bytes) -> None:
        """Sends frames at once."""
        try:
            self.link.sendall(b"".join(frames))
        except (BrokenPipeError, ConnectionError) as fault:
            raise Closed(str(fault)) from fault

    def pull(self, wait: float) -> bool:
        """Reads what has come, or waits so many seconds for it. False if nothing came."""
        self.link.settimeout(wait if wait > 0 else 0)
        try:
            piece = self.link.recv(65536)
        except (BlockingIOError, TimeoutError):
            return False
        except ConnectionError as fault:
            raise Closed(str(fault)) from fault
        finally:
            self.link.settimeout(self.timeout)
        if not piece:
            raise Closed("the server closed the connection")
        self.got += [read_server(message) for message in self.frames.feed(piece)]
        return True

    def waiting(self) -> list[Answer]:
        """The messages that came by now. Those before an end of the connection are given first."""
        try:
            while self.pull(0):
                pass
        except Closed:
            if not self.got:
                raise
        taken, self.got = self.got, []
        return taken

    def read(self) -> Answer:
        """The next message. TimeoutError if none comes in time."""
        end = time.monotonic() + self.timeout
        while not self.got:
            left = end - time.monotonic()
            if left <= 0:
                raise TimeoutError(f"no answer of the server in {self.timeout:.0f} s")
            self.pull(left)
        return self.got.pop(0)

    def rest(self) -> list[Answer]:
        """All that comes until the server ends the connection."""
        taken = []
        try:
            while True:
                taken.append(self.read())
        except Closed:
            return taken

    def close(self) -> None:
        """Closes the socket."""
        self.link.close()


def connect(port: int, timeout: float = PATIENCE) -> Connection:
    """A connection to a port of 127.0.0.1.

    One that the system has let connect, and of which the server's side knows nothing, is reset after some seconds.
    """
    link = socket.create_connection(("127.0.0.1", port), timeout=timeout)
    link.setsockopt(socket.IPPROTO_TCP, socket.TCP_NODELAY, 1)
    link.setsockopt(socket.SOL_SOCKET, socket.SO_KEEPALIVE, 1)
    link.setsockopt(socket.IPPROTO_TCP, socket.TCP_KEEPIDLE, 2)
    return Connection(link, timeout)
