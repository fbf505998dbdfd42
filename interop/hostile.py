"""Servers that a relay or a sender meets: honest ones, and ones that lie, dawdle, die or say nonsense; and their table.

What a server does on a connection is a list of steps, which end with the connection.
"""
from __future__ import annotations

import dataclasses
import os
import signal
import socket
import struct
import threading
import time
from collections.abc import Callable, Sequence
from typing import Any

import at_root
from oracle import messages, wire
from oracle.connection import PATIENCE
from oracle.records import SECOND, Record, cut_at, elapsed

IDENTIFIER = "0000A7"
# after this number of seconds without progress a program gives up
SECONDS = 30
# what a server has unread at most, so that a client that sends much has to wait for it
ROOM = 65_536


class Gone(Exception):
    """The client ended the connection."""


@dataclasses.dataclass(frozen=True)
class Sent:
    """A log that is sent: its records, and the time of its exit."""

    name: str
    records: tuple[Record, ...]

    def whole(self) -> int:
        """Its whole time in nanoseconds."""
        return elapsed(self.records)


class Client:
    """The connection of a client, as a server has it."""

    def __init__(self, link: socket.socket, log: Sent) -> None:
        """Nothing was read or said."""
        link.settimeout(PATIENCE)
        link.setsockopt(socket.IPPROTO_TCP, socket.TCP_NODELAY, 1)
        self.link, self.log = link, log
        # set when the run is over that this server was for, and when the steps on this connection are
        self.over, self.met = threading.Event(), threading.Event()
        # the messages that were read, and those that were said
        self.read: list[tuple[str, Any]] = []
        self.said: list[bytes] = []
        self.written = wire.Frames()
        # what was said after that again and again
        self.flood: bytes | None = None

    def bytes(self, count: int) -> bytes:
        """The next bytes of the client, and no more of them."""
        found = b""
        while len(found) < count:
            piece = self.link.recv(count - len(found))
            if not piece:
                raise Gone
            found += piece
        return found

    def next(self) -> tuple[str, Any]:
        """The next message of the client. What comes after it stays unread."""
        length = int.from_bytes(self.bytes(4), "big")
        self.read.append(messages.read_client(self.bytes(length)))
        return self.read[-1]

    def say(self, *said: bytes) -> None:
        """Says messages, in one write."""
        self.write(b"".join(map(wire.frame, said)))

    def write(self, raw: bytes) -> None:
        """Writes bytes, which needn't be messages."""
        self.said += self.written.feed(raw)
        self.link.sendall(raw)

    def unread(self) -> list[str]:
        """The names of the whole messages that came and weren't read, which stay unread."""
        frames = wire.Frames()
        try:
            piece = self.link.recv(1 << 20, socket.MSG_PEEK | socket.MSG_DONTWAIT)
        except BlockingIOError:
            piece = b""
        return [messages.read_client(message)[0] for message in frames.feed(piece)]

    def reset(self) -> None:
        """Ends the connection as a network does that drops it."""
        self.link.setsockopt(socket.SOL_SOCKET, socket.SO_LINGER, struct.pack("ii", 1, 0))
        self.link.close()

    def end(self) -> None:
        """Ends the connection in order: the client reads all that was said, and then its end."""
        self.link.shutdown(socket.SHUT_WR)
        self.read_on()

    def read_on(self) -> None:
        """Reads until the client ends the connection."""
        try:
            while True:
                self.next()
        except (Gone, OSError):
            pass


Step = Callable[[Client], None]
Message = bytes | Callable[[Sent], bytes]

# ---- what a server says


HELLO = messages.server_hello("hostile")
ID = messages.log_id(IDENTIFIER)


def whole(log: Sent) -> bytes:
    """The commit point of the whole time."""
    return messages.commit_point(log.whole())


def point(seconds: float) -> bytes:
    """A commit point of some seconds."""
    return messages.commit_point(round(seconds * SECOND))


# ---- what a server does


def says(*said: Message) -> Step:
    """It says these messages at once."""
    return lambda client: client.say(*[it if isinstance(it, bytes) else it(client.log) for it in said])


def writes(raw: bytes) -> Step:
    """It writes these bytes."""
    return lambda client: client.write(raw)


def takes(name: str, count: int = 1) -> Step:
    """It reads until it has read this number of messages of this name."""
    def step(client: Client) -> None:
        """Reads."""
        while sum(it[0] == name for it in client.read) < count:
            client.next()
    return step


def leaves(name: str) -> Step:
    """It waits until a message of this name came, which it doesn't read."""
    def step(client: Client) -> None:
        """Looks."""
        end = time.monotonic() + PATIENCE
        while name not in client.unread() and time.monotonic() < end:
            time.sleep(0.005)
    return step


def repeats(seconds: float, *pieces: bytes) -> Step:
    """It writes each of these pieces after a pause of some seconds, again and again, and reads nothing more."""
    def step(client: Client) -> None:
        """Writes until the client is gone."""
        while True:
            for piece in pieces:
                time.sleep(seconds)
                client.write(piece)
    return step


def floods(message: bytes) -> Step:
    """It says a message again and again, without a pause."""
    def step(client: Client) -> None:
        """Writes until the client is gone."""
        client.flood = message
        while True:
            client.link.sendall(wire.frame(message) * 1000)
    return step


def waits(client: Client) -> None:
    """It reads on and says nothing, until the client ends the connection."""
    client.read_on()


def sleeps(client: Client) -> None:
    """It neither reads nor says anything, until the run is over."""
    client.over.wait(PATIENCE)


def ends_it(client: Client) -> None:
    """It ends the connection in order."""
    client.end()


def dies(client: Client) -> None:
    """It dies: the system ends the connection, by a reset if something is unread."""
    client.link.close()


def resets(client: Client) -> None:
    """The connection is reset."""
    client.reset()


# ---- servers


class Server:
    """A server on a port of its own. It meets each connection by the next list of steps, and later ones by the last."""

    def __init__(self, log: Sent, *meets: Sequence[Step]) -> None:
        """It listens."""
        self.log, self.meets = log, list(meets)
        self.clients: list[Client] = []
        self.listener = socket.socket()
        self.listener.setsockopt(socket.SOL_SOCKET, socket.SO_RCVBUF, ROOM)
        self.listener.bind(("127.0.0.1", 0))
        self.listener.listen(64)
        self.port = self.listener.getsockname()[1]
        threading.Thread(target=self.run, daemon=True).start()

    def run(self) -> None:
        """Takes connections until the port is closed."""
        while True:
            try:
                link, _ = self.listener.accept()
            except OSError:
                return
            steps = self.meets[min(len(self.clients), len(self.meets) - 1)]
            self.clients.append(Client(link, self.log))
            threading.Thread(target=meet, args=(self.clients[-1], steps), daemon=True).start()

    def now_meets(self, *meets: Sequence[Step]) -> None:
        """From now on it meets connections so."""
        self.clients, self.meets = [], list(meets)

    def settle(self) -> None:
        """Waits until all steps are done on the connections of clients that have gone."""
        for client in list(self.clients):
            client.met.wait(PATIENCE)

    def close(self) -> None:
        """Closes the port and its connections."""
        self.listener.close()
        for client in self.clients:
            client.over.set()
            try:
                client.link.shutdown(socket.SHUT_RDWR)
            except OSError:
                pass


def meet(client: Client, steps: Sequence[Step]) -> None:
    """Does the steps on a connection, and closes it."""
    try:
        for step in steps:
            step(client)
    except (Gone, OSError, wire.Malformed):
        pass
    finally:
        client.link.close()
        client.met.set()


@dataclasses.dataclass
class Held:
    """A log that a server has."""

    accept: dict[str, Any]
    records: list[Record]
    exit: dict[str, Any] | None = None


class Honest:
    """A server that stores what it takes, commits each record that it took, and ends a connection after the exit.

    It may kill a process when something happens.
    """

    def __init__(self) -> None:
        """It has no logs."""
        self.logs: dict[str, Held] = {}
        # the process that is killed, before or after which event, and how many events there were
        self.victim: int | None = None
        self.at: int | None = None
        self.count = 0
        # set once it is known which process is killed
        self.armed = threading.Event()

    def step(self, client: Client) -> None:
        """Serves a connection."""
        self.happens()
        client.say(HELLO)
        held: Held | None = None
        while True:
            name, what = client.next()
            self.happens()
            if name == "accept":
                digits = f"{len(self.logs) + 1:06}"
                held = self.logs[digits] = Held(what, [])
                client.say(messages.log_id(digits))
            elif name == "restart":
                held = self.go_on(client, *what)
            elif name == "exit":
                held.exit = what
                client.say(messages.commit_point(elapsed(held.records)))
                self.happens()
                client.end()
                return
            elif name != "hello":
                held.records.append(what)
                client.say(messages.commit_point(elapsed(held.records)))
            self.happens()

    def go_on(self, client: Client, digits: str, at: int) -> Held:
        """Takes a restart, or refuses it."""
        held = self.logs.get(digits)
        kept = held and not held.exit and cut_at(held.records, at)
        if not held or held.exit or (kept is None and at):
            client.say(messages.error("log complete" if held and held.exit else "no such log"))
            client.end()
            raise Gone
        held.records = list(kept or [])
        return held

    def happens(self) -> None:
        """Something happened: the process is killed if it is this event."""
        self.count += 1
        if self.at is not None:
            self.armed.wait(PATIENCE)
        if self.victim is not None and self.count == self.at:
            os.kill(self.victim, signal.SIGKILL)
            # what it had put is read, and nothing more comes of it
            self.victim = None

    def has(self, log: Sent) -> bool:
        """Whether it has this log whole, with its exit."""
        return any(it.exit is not None and tuple(it.records) == log.records for it in self.logs.values())


# ---- the logs that are sent

FEW = Sent("few", ((SECOND * 3 // 2, "ttyout", b"one"), (SECOND // 2, "ttyin", b"two"),
    (SECOND * 3 // 2, "winsize", 30, 100)))
# no record of it has a delay
STILL = Sent("still", ((0, "ttyout", b"one"), (0, "ttyout", b"two"), (0, "ttyout", b"three")))
# it has no records
BARE = Sent("bare", ())
# after 16 small records come 16 without a delay, which no buffer holds together: so a client has to wait for the server
# before the exit, and the whole time may be committed before that
LAST = 16
LARGE = Sent("large", (*((SECOND // 10, "ttyout", b"%d" % n) for n in range(16)),
    *((0, "ttyout", bytes([65 + n]) * 320_000) for n in range(LAST))))
# its whole time is committed long before its last record
MANY = Sent("many", ((SECOND, "ttyout", b"first"), *((0, "ttyout", b"%04d" % n) for n in range(3000))))
# each record has a delay, so its whole time is committed after the last one was stored
STEADY = Sent("steady", tuple((SECOND // 1000, "ttyout", b"%04d" % n) for n in range(3000)))
LOGS = {log.name: log for log in (FEW, STILL, BARE, LARGE, MANY, STEADY)}

# ---- what the programs say: the relay, and the sender

Words = tuple[str, str]
UNREACHED: Words = ("the connection could not be made", "the server was not reached")
CUT: Words = ("the connection was cut", "the connection failed")
ENDED: Words = ("ended the connection", "ended the connection")
SILENT: Words = ("30 s", "30 seconds")
MALFORMED: Words = ("malformed message", "none of sudo's protocol")
STRANGE: Words = ("commit point above what was sent", "committed more than was sent")
CHATTER: Words = ("1048576 messages", "a million messages")


def large(length: int) -> Words:
    """It is said that the server announced a message of this length."""
    return f"a message of {length} bytes", f"a message of {length} bytes"


def long_id(length: int) -> Words:
    """It is said that the server sent an identifier of this length."""
    return f"an identifier of {length} bytes", f"an identifier of {length} bytes"


def text(shown: str) -> Words:
    """What the server says is shown so."""
    return f'says "{shown}', f'says "{shown}'


# ---- the table


@dataclasses.dataclass(frozen=True)
class Row:
    """A hostile server."""

    name: str
    # what it does, in words and in steps
    does: str
    steps: tuple[Step, ...]
    # whether the log counts as brought there: the relay marks it, and the sender ends with 0
    brings: bool
    # if it doesn't: one of these is said
    said: tuple[Words, ...] = ()
    log: Sent = FEW
    # a run takes at least this number of seconds
    least: float = 0


TAKEN = (takes("accept"), says(HELLO, ID), takes("exit"))
BEGUN = (takes("accept"), says(HELLO, ID))
ESCAPES = b"\x1b]0;owned\x07\x1b[2J\xc2\x9b\r\n000001\ncommit 3.000000000"
HTTP = b"HTTP/1.1 400 Bad Request\r\n\r\n"

ROWS = (
    # at the connection
    Row("ends", "It ends the connection at once, in order", (ends_it,), False, (ENDED, CUT)),
    Row("resets", "It resets the connection at once", (resets,), False, (UNREACHED, CUT, ENDED)),
    Row("http", "It is a web server", (writes(HTTP), ends_it), False, (large(0x48545450),)),
    Row("large", "It announces a message above the limit", (writes(b"\0\x20\0\x01"), ends_it), False,
        (large(2_097_153),)),
    Row("garbage", "Its message is no message", (writes(wire.frame(b"\xff")), ends_it), False, (MALFORMED,)),
    Row("empty", "Its message has no content", (writes(wire.frame(b"")), ends_it), False, (MALFORMED,)),
    Row("half", "It ends in the midst of a message", (writes(b"\0\0\0\x40\x0a"), ends_it), False, (ENDED, CUT)),
    # at the opening
    Row("error", "It refuses the log with a text", (takes("accept"), says(HELLO, messages.error("no space")), ends_it),
        False, (text("no space"),)),
    Row("abort", "It aborts the log",
        (takes("accept"), says(HELLO, messages.server("abort", "killed by root")), ends_it), False,
        (text("killed by root"),)),
    Row("text-escapes", "The text of its error has escapes for a terminal", (says(messages.error(ESCAPES)), ends_it),
        False, (text("\\u{1b}]0;owned"),)),
    Row("text-bytes", "The text of its error isn't UTF-8", (says(messages.error(b"in \xe4 bytes")), ends_it), False,
        (text("in \ufffd bytes"),)),
    Row("text-long", "The text of its error has a million bytes", (says(messages.error("x" * 1_000_000)), ends_it),
        False, (text("x" * 400),)),
    Row("id-none", "It ends without an identifier", (takes("accept"), says(HELLO), ends_it), False, (ENDED,)),
    Row("id-ends", "It closes its side of the connection after its identifier, and reads on", (*BEGUN, ends_it), False,
        (ENDED,)),
    Row("id-long", "Its identifier has 4,097 bytes",
        (takes("accept"), says(HELLO, messages.log_id("x" * 4097)), ends_it), False, (long_id(4097),)),
    Row("id-escapes", "Its identifier has escapes for a terminal, and a line like that of a commit point",
        (takes("accept"), says(HELLO, messages.server("log_id", ESCAPES)), takes("exit"), says(whole), ends_it), True),
    Row("id-bytes", "Its identifier isn't UTF-8",
        (takes("accept"), says(HELLO, messages.server("log_id", b"\xe4\xc2\x9b")), takes("exit"), says(whole), ends_it),
        True),
    Row("id-twice", "It sends a second identifier after the records",
        (*BEGUN, takes("exit"), says(messages.log_id("0000A8"), whole), ends_it), True),
    # at the records
    Row("point-first", "It commits before its identifier", (takes("accept"), says(HELLO, point(1.5)), ends_it), False,
        (STRANGE,)),
    Row("point-above", "It commits more than was sent", (*BEGUN, takes("winsize"), says(point(4)), ends_it), False,
        (STRANGE,)),
    Row("point-no-time", "Its commit point is no time",
        (*BEGUN, takes("winsize"), says(messages.server("commit_point", wire.number(1, -1))), ends_it), False,
        (STRANGE,)),
    Row("point-between", "It commits a time at which no record ends", (*TAKEN, says(point(1.7)), ends_it), False,
        (ENDED,)),
    Row("point-ends", "It commits the first record, closes its side of the connection, and reads on",
        (*BEGUN, takes("ttyout"), says(point(1.5)), ends_it), False, (ENDED,)),
    Row("points-back", "Its commit points go back after that of the whole time",
        (*TAKEN, says(whole, point(1.5)), ends_it), True),
    Row("error-late", "It takes all, and then sends an error", (*TAKEN, says(messages.error("disk full")), ends_it),
        False, (text("disk full"),)),
    # at the end
    Row("whole", "It takes all, commits the whole time, and ends", (*TAKEN, says(whole), ends_it), True),
    Row("whole-bare", "The same with a log without records", (*TAKEN, says(whole), ends_it), True, log=BARE),
    Row("whole-dies", "It takes all, commits the whole time, and dies", (*TAKEN, says(whole), dies), True),
    Row("whole-never", "It takes all, and never commits the whole time", (*TAKEN, says(point(1.5)), ends_it), False,
        (ENDED,)),
    Row("whole-resets", "It takes all, commits the whole time, and the connection is reset",
        (*TAKEN, says(whole), resets), False, (CUT,)),
    Row("whole-unread", "It commits the whole time, and dies with the exit unread",
        (*BEGUN, takes("winsize"), leaves("exit"), says(whole), dies), False, (CUT,)),
    Row("whole-early", "It commits the whole time before the exit was put, and resets the connection",
        (*BEGUN, takes("ttyout", LAST + 1), says(whole), takes("ttyout", 2 * LAST), resets), False, (CUT,), LARGE),
    Row("whole-early-ends", "It commits the whole time before the exit was put, takes all, and ends",
        (*BEGUN, takes("ttyout", LAST + 1), says(whole), takes("exit"), ends_it), False, (ENDED,), LARGE),
    Row("whole-guessed", "It commits the whole time together with its identifier, takes all, and ends",
        (takes("accept"), says(HELLO, ID, whole), takes("exit"), ends_it), False, (ENDED, STRANGE)),
    Row("zero-guessed", "The same with a log whose whole time is 0",
        (takes("accept"), says(HELLO, ID, whole), takes("exit"), ends_it), False, (ENDED,), STILL),
    Row("zero-bare", "The same with a log without records",
        (takes("accept"), says(HELLO, ID, whole), takes("exit"), ends_it), False, (ENDED,), BARE),
    Row("whole-error", "It takes all, commits the whole time, and sends an error",
        (*TAKEN, says(whole, messages.error("disk full")), ends_it), False, (text("disk full"),)),
    Row("whole-garbage", "It takes all, commits the whole time, and sends what is no message",
        (*TAKEN, says(whole), writes(wire.frame(b"\xff")), ends_it), False, (MALFORMED,)),
    Row("whole-half", "It takes all, commits the whole time, and ends in the midst of a message",
        (*TAKEN, says(whole), writes(b"\0\0\0\x40\x0a"), ends_it), False, (ENDED,)),
    Row("whole-hellos", "It takes all, commits the whole time, sends a hello again, and ends",
        (*TAKEN, says(whole, HELLO, HELLO), ends_it), True),
    # by the 30 seconds
    Row("silent", "It takes the connection, and does nothing", (sleeps,), False, (SILENT,), least=SECONDS),
    Row("silent-id", "It takes the opening, and sends no identifier", (takes("accept"), says(HELLO), waits), False,
        (SILENT,), least=SECONDS),
    Row("silent-records", "It takes all, and commits nothing", (*TAKEN, waits), False, (SILENT,), least=SECONDS),
    Row("silent-end", "It takes all, commits the whole time, and doesn't end the connection",
        (*TAKEN, says(whole), waits), True, least=SECONDS),
    Row("unread", "It reads nothing after its identifier", (*BEGUN, sleeps), False, (SILENT,), LARGE, least=SECONDS),
    Row("dribble", "A byte of an unfinished message each 20 seconds", (takes("accept"), writes(b"\0\0\x40\0"),
        repeats(20, b"\x0a")), False, (SILENT,), least=SECONDS),
    Row("zeros", "A commit point of 0 each 20 seconds", (*BEGUN, repeats(20, wire.frame(point(0)))), False, (SILENT,),
        least=SECONDS),
    Row("hellos", "A hello each 20 seconds", (takes("accept"), repeats(20, wire.frame(HELLO))), False, (SILENT,),
        least=SECONDS),
    Row("end-hellos", "It takes all, commits the whole time, and sends a hello each 20 seconds",
        (*TAKEN, says(whole), repeats(20, wire.frame(HELLO))), False, (SILENT,), least=SECONDS),
    Row("hello-flood", "Hellos without a pause", (takes("accept"), floods(HELLO)), False, (SILENT, CHATTER), least=1),
    Row("zero-flood", "Commit points of 0 without a pause", (*BEGUN, floods(point(0))), False, (SILENT, CHATTER),
        least=1),
    Row("point-flood", "The same commit point without a pause", (*BEGUN, takes("ttyout"), floods(point(1.5))), False,
        (SILENT, CHATTER), least=1),
)
