"""A port between a client and a server, which keeps what went each way, and what a store must have of it."""
from __future__ import annotations

import contextlib
import socket
import threading
import time

import at_root
from oracle.connection import PATIENCE, Answer
from oracle.messages import read_client, read_server
from oracle.records import STREAMS
from oracle.wire import Frames


class Pair:
    """One connection: the bytes of the client and of the server."""

    def __init__(self) -> None:
        """Nothing has come."""
        self.sent, self.answered = bytearray(), bytearray()
        self.open, self.lock = 2, threading.Lock()

    def messages(self) -> tuple[list[Answer], list[Answer]]:
        """What the client sent, and what it was answered."""
        sent = [read_client(message) for message in Frames().feed(bytes(self.sent))]
        heard = [read_server(message) for message in Frames().feed(bytes(self.answered))]
        return sent, heard


class Tap:
    """Hands each connection on to the port of a server. `cut` closes a connection after so many bytes of its client."""

    def __init__(self, port: int) -> None:
        """Listens on a port of its own."""
        self.server, self.pairs = port, []
        self.cut = None
        self.listener = socket.create_server(("127.0.0.1", 0), backlog=64)
        self.port = self.listener.getsockname()[1]
        threading.Thread(target=self.run, daemon=True).start()

    def run(self) -> None:
        """Hands on connections until the port is closed."""
        while True:
            try:
                near, _ = self.listener.accept()
            except OSError:
                return
            try:
                far = socket.create_connection(("127.0.0.1", self.server))
            except OSError:
                near.close()
                continue
            pair = Pair()
            self.pairs.append(pair)
            for source, target, kept in ((near, far, pair.sent), (far, near, pair.answered)):
                threading.Thread(target=self.carry, args=(pair, source, target, kept), daemon=True).start()

    def carry(self, pair: Pair, source: socket.socket, target: socket.socket, kept: bytearray) -> None:
        """Hands on one direction of a connection, and keeps its bytes."""
        try:
            while piece := source.recv(65536):
                if self.cut is not None and kept is pair.sent and len(kept) + len(piece) > self.cut:
                    self.cut_off(pair, piece, source, target)
                    break
                kept += piece
                hand_on(piece, target, kept is pair.sent)
        except OSError:
            pass
        try:
            target.shutdown(socket.SHUT_WR)
        except OSError:
            pass
        with pair.lock:
            pair.open -= 1
            is_over = pair.open == 0
        if is_over:
            source.close()
            target.close()

    def cut_off(self, pair: Pair, piece: bytes, source: socket.socket, target: socket.socket) -> None:
        """Hands on what is left before the cut, waits for a commit point of it, and ends both sides."""
        piece = piece[:self.cut - len(pair.sent)]
        pair.sent += piece
        target.sendall(piece)
        end = time.monotonic() + PATIENCE
        while not Sent(pair).points and time.monotonic() < end:
            time.sleep(0.02)
        for link in (source, target):
            # one whose other end was reset is shut already
            with contextlib.suppress(OSError):
                link.shutdown(socket.SHUT_RDWR)

    def settled(self, count: int, seconds: float = PATIENCE) -> list[Pair]:
        """The pairs that came since the last call, once so many are there and all have ended."""
        end = time.monotonic() + seconds
        while len(self.pairs) < count or any(pair.open for pair in self.pairs):
            if time.monotonic() > end:
                still_open = sum(pair.open > 0 for pair in self.pairs)
                came = f"{len(self.pairs)} of {count} connections came, and {still_open} of them have not ended"
                raise TimeoutError(f"{came} after {seconds:.0f} s")
            time.sleep(0.01)
        pairs, self.pairs = self.pairs, []
        return pairs

    def close(self) -> None:
        """Closes the port."""
        self.listener.close()


def hand_on(piece: bytes, target: socket.socket, is_sent: bool) -> None:
    """Answers are kept also where the client is gone by then."""
    try:
        target.sendall(piece)
    except OSError:
        if is_sent:
            raise


class Sent:
    """What a client sent on one connection, sorted: what a store and an event log must have of it."""

    def __init__(self, pair: Pair) -> None:
        """What went over a connection."""
        sent, heard = pair.messages()
        self.records, self.further, self.events = [], [], []
        self.accept = self.exit = self.restart = None
        for name, what in sent:
            if name == "accept" and self.accept is None and self.restart is None:
                self.accept = what
            elif name == "accept":
                self.further.append(what)
            elif name in ("restart", "exit"):
                setattr(self, name, what)
            elif name in STREAMS + ("winsize", "suspend"):
                self.records.append(what)
            if name in ("accept", "reject", "alert", "exit"):
                self.events.append((name, what))
        self.log_ids = [what for name, what in heard if name == "log_id"]
        self.points = [what for name, what in heard if name == "commit_point"]
        self.errors = [what for name, what in heard if name in ("error", "abort")]
        self.hello = heard[0][1] if heard and heard[0][0] == "hello" else None

    def digits(self) -> str | None:
        """The log of the connection, if it has one."""
        if self.restart:
            return self.restart[0]
        return self.log_ids[0] if self.log_ids else None
