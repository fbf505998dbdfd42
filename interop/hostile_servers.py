#!/usr/bin/env python3
"""Tries `relay` and `sudo_sendlog` against hostile servers.

usage: hostile_servers.py --server SERVER --sendlog SENDLOG [--only WORD] [--long]
       hostile_servers.py --list [--long]
       hostile_servers.py --be NAME [--sends LOG]

SERVER is sudo_logsrvd of this repository, SENDLOG its sudo_sendlog. The table in hostile.py says of each server what it
does, whether a log may count as brought there, and what the programs say of it. Each row is tried with both programs.
The same port is then an honest server, and the relay has to bring the log there. After the table come parts of another
kind: both programs are killed at each of their steps, the other server is killed at its last answers, the host is
changed in the midst of a log, the network loses a connection on one side alone, the disk is full, and others.

With --long the servers are tried too at which a run ends by its 30 seconds, all at once. The other server is killed at
each of its answers, and the relay at each of its system calls if strace is there. --list prints the table. With --be a
hostile server listens until it is interrupted, for a client of your choice. It ends with 1 if something differs.
"""
from __future__ import annotations

import argparse
import concurrent.futures
import contextlib
import dataclasses
import os
import re
import resource
import shutil
import signal
import socket
import subprocess
import sys
import tempfile
import threading
import time
import traceback
from collections.abc import Callable, Iterator, Sequence
from typing import Any

import at_root
import servers
from hostile import (
    BARE, BEGUN, FEW, HELLO, IDENTIFIER, LOGS, ROWS, STEADY, STILL, UNREACHED, Client, Held, Honest, Row, Sent, Server,
    ends_it, point, says, takes,
)
from oracle import lines, messages, store, wire
from oracle.connection import PATIENCE, Closed, Connection, connect
from oracle.records import SECOND, decimal
from oracle.waits import until
from parts import Skipped, Unasked
from trial import Differs, same

FORM = servers.OURS + """[relay]
relay_host = {host}:{upstream}
store_first = true
"""
INFO: dict[str, Any] = {
    "command": "/usr/bin/id", "runargv": ["id", "-u"], "runuser": "root", "runuid": 0, "submituser": "ann",
    "submithost": "web1", "submitcwd": "/home/ann", "ttyname": "/dev/pts/0", "lines": 24, "columns": 80,
}
SUBMIT = 1_790_000_000 * SECOND
BROUGHT, BAD_SETTINGS, PENDING, REFUSED = 0, 3, 8, 8
HOST = "127.0.0.1"
# how many seconds a run takes at most, on a busy machine
MOST = 100
STRACE = ("strace", "-f", "-qq", "-o")
# this number of servers is tried at a time
WORKERS = 4
# the system calls at which the relay is killed
CALLS = ("openat", "mkdirat", "flock", "pread64", "pwrite64", "read", "write", "fsync", "fdatasync", "ftruncate",
    "connect", "sendto", "recvfrom", "shutdown", "close")

# ---- the programs


class Place:
    """A store with logs, below a folder that nobody may list, and the settings of a relay."""

    def __init__(self, on: Programs, *logs: Sent) -> None:
        """The logs are stored, each complete."""
        self.on = on
        self.above = tempfile.mkdtemp(prefix="hostile")
        self.closed = os.path.join(self.above, "closed")
        self.folder = os.path.join(self.closed, "place")
        self.store = os.path.join(self.folder, "store")
        self.logs = [self.add(number, log) for number, log in enumerate(logs, 1)]
        store.write_numbers(self.store, len(logs))
        os.chmod(self.closed, 0o311)

    def add(self, number: int, log: Sent) -> str:
        """Stores a log, and gives its identifier."""
        store.write_log(self.store, number, lines.head(SUBMIT, INFO), log.records, lines.exit_line(log.whole(), 0))
        return store.digits_of(number)

    def __enter__(self) -> Place:
        """The place is there."""
        return self

    def __exit__(self, *_: object) -> None:
        """Removes it."""
        os.chmod(self.closed, 0o700)
        shutil.rmtree(self.above, ignore_errors=True)

    def words(self, port: int, host: str = HOST, command: str = "relay") -> list[str]:
        """The words that relay to a port of a host, or another command with these settings."""
        conf = os.path.join(self.folder, "conf")
        with open(conf, "w", encoding="utf-8") as file:
            file.write(FORM.format(port=1, folder=self.folder, host=host, upstream=port))
        return [self.on.server, command, "-f", conf]

    def relay(self, port: int, host: str = HOST, before: Callable[[], object] | None = None) -> Run:
        """Runs the relay. Its process does something before."""
        return Run(self.words(port, host), before)

    def send(self, port: int, *words: str, number: str = "000001") -> Run:
        """Runs the sender."""
        return Run([self.on.sendlog, "-d", self.store, "-h", HOST, "-p", str(port), *words, number])

    def begins(self) -> Server:
        """A server that takes all of the first log but its exit, and commits its first record: that is kept of it."""
        server = Server(FEW, (*BEGUN, takes("ttyout"), says(point(1.5)), takes("exit"), ends_it))
        same("status of the first run", self.relay(server.port).status, PENDING)
        same("whether something is kept", self.kept() in (None, "complete"), False)
        return server

    def files(self) -> list[str]:
        """The files below the folder of the store."""
        return sorted(os.path.join(at, name) for at, _, names in os.walk(self.folder) for name in names)

    def kept(self, digits: str = "000001") -> str | None:
        """The kind of the last entry of a log's relaying, None if there is none."""
        folder = store.folder_of(self.store, digits)
        places = [os.path.join(folder, name) for name in ("relay.slots", "relay.commit")]
        found = store.entry(*places, store.LOG_BODY)
        return None if found is None else store.body_of(found).kind

    def is_marked(self, digits: str = "000001") -> bool:
        """Whether a log is marked as relayed."""
        return self.kept(digits) == "complete"

    def relays_whole(self, server: Server, log: Sent, tries: int = 3) -> None:
        """The server is an honest one from now on: the relay brings the log there, unless it is marked already."""
        honest, marked = Honest(), self.is_marked()
        server.now_meets([honest.step])
        for _ in range(tries):
            run = self.relay(server.port)
            if run.status == BROUGHT:
                break
        same(f"status at an honest server, {run.said}", run.status, BROUGHT)
        same("marked at an honest server", self.is_marked(), True)
        same("connections of a log that was marked, or the log at an honest server",
            len(server.clients) == 0 if marked else honest.has(log), True)


class Run:
    """A program that ran to its end."""

    def __init__(self, words: Sequence[str], before: Callable[[], object] | None = None) -> None:
        """Runs it. Its process does something before."""
        began = time.monotonic()
        done = subprocess.run(words, capture_output=True, stdin=subprocess.DEVNULL, timeout=2 * PATIENCE, check=False,
            preexec_fn=before)
        self.seconds = time.monotonic() - began
        self.name = os.path.basename(words[0])
        self.status, self.out = done.returncode, done.stdout
        self.said = done.stderr.decode(errors="replace")
        is_shown(f"{self.name}'s standard error", done.stderr)
        is_shown(f"{self.name}'s standard output", done.stdout)
        same(f"more than 8,000 bytes on {self.name}'s standard error", len(done.stderr) > 8000, False)


def is_shown(what: str, shown: bytes) -> None:
    """A terminal may be shown this: UTF-8 without controls but line feeds."""
    bad = [character for character in shown.decode(errors="surrogateescape")
        if ord(character) in (*range(10), *range(11, 32), *range(127, 160)) or 0xDC80 <= ord(character) <= 0xDCFF]
    same(f"controls in {what}", bad[:9], [])


@dataclasses.dataclass(frozen=True)
class Programs:
    """The programs that are tried."""

    server: str
    sendlog: str
    # whether what takes a minute is tried too
    long: bool


# ---- a row


def relay_is_tried(on: Programs, row: Row) -> None:
    """The relay at a row's server, and then at an honest one."""
    with Place(on, row.log) as place:
        server = Server(row.log, row.steps)
        try:
            run = place.relay(server.port)
            same("marked", place.is_marked(), run.status == BROUGHT)
            ends_as(row, run, 0, f"{place.logs[0]}: ")
            place.relays_whole(server, row.log)
        finally:
            server.close()


def sender_is_tried(on: Programs, row: Row) -> None:
    """The sender at a row's server."""
    with Place(on, row.log) as place:
        server = Server(row.log, row.steps)
        try:
            run = place.send(server.port)
            ends_as(row, run, 1, "sudo_sendlog: ")
            said = b"".join(line_of(message) for client in server.clients for message in client.said)
            flood = b"".join(line_of(client.flood) for client in server.clients if client.flood)
            said += flood * (len(run.out) // max(len(flood), 1))
            same("lines of the sender", run.out, said if run.status == BROUGHT else said[: len(run.out)])
            same("an unfinished line of the sender", run.out[-1:] in (b"", b"\n"), True)
        finally:
            server.close()


def ends_as(row: Row, run: Run, which: int, begins: str) -> None:
    """A run ended as the row says: by its status, by what it says, and in time."""
    same(f"status of {run.name}, {run.said}", run.status, BROUGHT if row.brings else PENDING)
    words = [words[which] for words in row.said]
    told = [line for line in run.said.splitlines() if begins in line]
    if not row.brings and not any(word in line for word in words for line in told):
        raise Differs(f"{run.name} says none of {words}: {run.said}")
    if not row.least - 1 <= run.seconds <= MOST:
        raise Differs(f"{run.name} took {run.seconds:.1f} s, not {row.least:.0f} to {MOST} s")


def line_of(message: bytes) -> bytes:
    """The line that the sender prints of a server's message, if that is one."""
    try:
        ((number, value),) = wire.fields(message)
    except (ValueError, wire.Malformed):
        return b""
    if not isinstance(value, bytes):
        return b""
    if messages.SERVER[number] == "log_id":
        return f"id {shown_id(value)}\n".encode()
    if messages.SERVER[number] == "commit_point":
        at = messages.nanoseconds(value)
        return f"commit {decimal(at)}\n".encode() if at >= 0 else b""
    return b""


def shown_id(identifier: bytes) -> str:
    """An identifier as the sender shows it: controls by their numbers."""
    return re.sub("[\x00-\x1f\x7f-\x9f]", lambda found: f"\\x{ord(found[0]):02x}", identifier.decode(errors="replace"))


# ---- parts of another kind


def part_nobody_listens(on: Programs) -> None:
    """Nobody listens: the relay tries one log, and says the cause once, with the number of logs."""
    port = servers.free_port()
    with Place(on, FEW, STILL, BARE) as place:
        run = place.relay(port)
        same("status", run.status, PENDING)
        same("lines with the cause", sum(UNREACHED[0] in line for line in run.said.splitlines()), 1)
        same("the last line", run.said.splitlines()[-1], "sudo_logsrvd: 3 logs pending")
        same("status of the sender", place.send(port).status, REFUSED)


def part_other_logs(on: Programs) -> None:
    """A server that refuses the first log gets the others."""
    honest = Honest()
    with Place(on, FEW, STILL, BARE) as place:
        server = Server(FEW, (takes("accept"), says(messages.error("not this one")), ends_it), [honest.step])
        run = place.relay(server.port)
        same(f"status, {run.said}", run.status, PENDING)
        same("marked", [place.is_marked(digits) for digits in place.logs], [False, True, True])
        same("brought", [honest.has(log) for log in (FEW, STILL, BARE)], [False, True, True])
        server.close()


def part_another_host(on: Programs) -> None:
    """The settings name another host in the midst of a log: it begins anew there, and the log of that name is left."""
    other = Held({}, [(SECOND * 3 // 2, "ttyout", b"of another session")])
    honest = Honest()
    honest.logs["000001"] = other
    with Place(on, FEW) as place:
        first = Server(FEW, (takes("accept"), says(HELLO, messages.log_id("000001")), takes("ttyout"), says(point(1.5)),
            takes("exit"), ends_it))
        same("status at the first host", place.relay(first.port).status, PENDING)
        same("whether something is kept", place.kept() in (None, "complete"), False)
        second = Server(FEW, [honest.step])
        run = place.relay(second.port)
        same(f"status at the second host, {run.said}", run.status, BROUGHT)
        same("the log of another session", (len(other.records), other.exit), (1, None))
        same("the log at the second host", honest.has(FEW), True)
        first.now_meets([honest.step])
        same("status at the first host, of a log that is marked", place.relay(first.port).status, BROUGHT)
        same("connections of a log that is marked", len(first.clients), 0)
        for server in (first, second):
            server.close()


def part_another_spelling(on: Programs) -> None:
    """The settings spell the same host otherwise in the midst of a log: it begins anew, and its first part is left."""
    honest = Honest()
    with Place(on, FEW) as place:
        server = place.begins()
        honest.logs[IDENTIFIER] = Held({}, list(FEW.records[:1]))
        server.now_meets([honest.step])
        run = place.relay(server.port, "localhost")
        same(f"status, {run.said}", run.status, BROUGHT)
        same("logs", (len(honest.logs), honest.has(FEW), len(honest.logs[IDENTIFIER].records)), (2, True, 1))
        server.close()


def part_goes_on(on: Programs) -> None:
    """What is kept is of this host: the next run goes on after the last commit point. A run to a host that doesn't
    answer changes nothing of that.
    """
    honest = Honest()
    with Place(on, FEW) as place:
        server = place.begins()
        same("status at a host that doesn't answer", place.relay(servers.free_port()).status, PENDING)
        honest.logs[IDENTIFIER] = Held({}, list(FEW.records[:1]))
        server.now_meets([honest.step])
        run = place.relay(server.port)
        same(f"status of the last run, {run.said}", run.status, BROUGHT)
        same("logs", (list(honest.logs), honest.has(FEW)), ([IDENTIFIER], True))
        same("what was read", [name for name, _ in server.clients[0].read],
            ["hello", "restart", "ttyin", "winsize", "exit"])
        server.close()


def part_its_own_address(on: Programs) -> None:
    """A relay to the address of its own server is refused before anything is made."""
    with Place(on, FEW) as place:
        place.words(1)
        before = place.files()
        for command in ("relay", "check", "serve"):
            run = Run(place.words(1, command=command))
            same(f"status of {command}, {run.said}", run.status, BAD_SETTINGS)
            same(f"{command} says why", "relay_host is the listen_address" in run.said, True)
        same("files", place.files(), before)


def part_full_disk(on: Programs) -> None:
    """If no file can grow, nobody is connected to: nothing is sent of a log that can't be kept."""
    with Place(on, FEW) as place:
        server = Server(FEW, [Honest().step])
        run = place.relay(server.port, before=no_file_grows)
        same(f"status, {run.said}", run.status, PENDING)
        same("connections", len(server.clients), 0)
        place.relays_whole(server, FEW)
        server.close()


def no_file_grows() -> None:
    """From now on a write that makes a file longer fails."""
    signal.signal(signal.SIGXFSZ, signal.SIG_IGN)
    resource.setrlimit(resource.RLIMIT_FSIZE, (0, 0))


def part_removed_meanwhile(on: Programs) -> None:
    """A log is removed while it is sent: its folder isn't made again, and the logs after it are sent."""
    with Place(on, FEW, STILL) as place:
        folder = store.folder_of(place.store, place.logs[0])
        honest = Honest()
        gone = os.path.join(place.folder, "gone")
        server = Server(FEW, (*BEGUN, takes("ttyout"), lambda _: os.rename(folder, gone), says(point(1.5)), ends_it),
            [honest.step])
        run = place.relay(server.port)
        same(f"status, {run.said}", run.status, PENDING)
        same(f"a line of it, {run.said}", (f"{place.logs[0]}: " in run.said, "is damaged" in run.said), (True, False))
        same("whether its folder is there", os.path.exists(folder), False)
        same("the log after it", (place.is_marked(place.logs[1]), honest.has(STILL)), (True, True))
        run = place.relay(server.port)
        same(f"status of the next run, {run.said}", run.status, BROUGHT)
        server.close()


def part_relay_killed(on: Programs) -> None:
    """The relay is killed at each message, before and after it is answered: later runs bring the log."""
    at = 0
    while relay_killed_at(on, at := at + 1):
        pass
    same("kills", at > 2 * len(FEW.records) + 6, True)


def relay_killed_at(on: Programs, at: int) -> bool:
    """The relay is killed at an event of an honest server. False if there was no such event."""
    honest = Honest()
    with Place(on, FEW) as place:
        server = Server(FEW, [honest.step])
        was_killed, _ = killed(honest, server, at, place.words(server.port))
        if place.is_marked() and not honest.has(FEW):
            raise Differs(f"killed at event {at} it marked a log that the server lacks")
        for _ in range(3):
            run = place.relay(server.port)
            if run.status == BROUGHT:
                break
        same(f"after a kill at event {at}: status, mark, log, {run.said}",
            (run.status, place.is_marked(), honest.has(FEW)), (BROUGHT, True, True))
        server.close()
    return was_killed


def killed(honest: Honest, server: Server, at: int, words: Sequence[str]) -> tuple[bool, bytes]:
    """Runs a program that is killed at an event of an honest server, if there is one. Gives whether it was, and what it
    printed.
    """
    honest.count, honest.at = 0, at
    with subprocess.Popen(words, stdin=subprocess.DEVNULL, stdout=subprocess.PIPE, stderr=subprocess.DEVNULL) as run:
        honest.victim = run.pid
        honest.armed.set()
        printed = run.communicate(timeout=PATIENCE)[0]
    # what was put before the kill is read to its end
    server.settle()
    was_killed = honest.victim is None
    honest.victim = honest.at = None
    return was_killed, printed


def part_sender_killed(on: Programs) -> None:
    """The sender is killed at each message, and goes on by the last lines that it printed."""
    at = 0
    while sender_killed_at(on, at := at + 1):
        pass
    same("kills", at > 2 * len(FEW.records) + 6, True)


def sender_killed_at(on: Programs, at: int) -> bool:
    """The sender is killed at an event of an honest server. False if there was no such event."""
    honest = Honest()
    with Place(on, FEW) as place:
        server = Server(FEW, [honest.step])
        words = [on.sendlog, "-d", place.store, "-h", "127.0.0.1", "-p", str(server.port), "000001"]
        was_killed, printed = killed(honest, server, at, words)
        if was_killed and not honest.has(FEW):
            run = place.send(server.port, *goes_on_by(printed))
            same(f"status after a kill at event {at}, {run.said}", run.status, BROUGHT)
        same(f"the log after a kill at event {at}", honest.has(FEW), True)
        server.close()
    return was_killed


@contextlib.contextmanager
def a_server(on: Programs) -> Iterator[servers.Serve]:
    """This repository's server, with a store of its own."""
    place = servers.Place()
    far = servers.Serve(on.server, place)
    try:
        yield far.start()
    finally:
        if far.process and far.process.poll() is None:
            far.kill()
        shutil.rmtree(place.folder, ignore_errors=True)


def part_lost_by_the_network(on: Programs) -> None:
    """The network loses a connection on this side alone, and the other has it half open: later runs bring the log."""
    with a_server(on) as far, Place(on, FEW) as place:
        held = Lost(far.port)
        server = Server(FEW, [held.step])
        same("status of the lost run", place.relay(server.port).status, PENDING)
        server.now_meets([lambda client: carry(client, far.port)])
        runs = [place.relay(server.port) for _ in range(3)]
        same(f"statuses, {[run.said for run in runs]}", [run.status for run in runs], [PENDING, BROUGHT, BROUGHT])
        same("logs", sorted(held_by(far.place)), [(1, False), (3, True)])
        server.close()
        held.close()


def part_sender_lost_by_the_network(on: Programs) -> None:
    """The same of the sender: it goes on by the last lines that it printed, once the other server has seen the end."""
    with a_server(on) as far, Place(on, FEW) as place:
        held = Lost(far.port)
        server = Server(FEW, [held.step])
        run = place.send(server.port)
        same(f"status of the lost run, {run.said}", run.status, REFUSED)
        server.now_meets([lambda client: carry(client, far.port)])
        words = goes_on_by(run.out)
        run = place.send(server.port, *words)
        same(f"in use, {run.said}", (run.status, "log in use" in run.said), (REFUSED, True))
        held.close()
        until("the sender goes on", lambda: place.send(server.port, *words).status == BROUGHT)
        same("logs", held_by(far.place), [(3, True)])
        server.close()


def goes_on_by(printed: bytes) -> list[str]:
    """The words by which the sender goes on after the last lines that it printed; none if no commit point came."""
    shown = [line.split(" ", 1) for line in printed.decode().splitlines()]
    ids, points = ([what for word, what in shown if word == name] for name in ("id", "commit"))
    return ["-i", ids[-1], "-r", points[-1]] if points else []


class Lost:
    """The way to a server of a connection that is lost on the client's side alone, after a commit point came."""

    def __init__(self, port: int) -> None:
        """It leads to this port."""
        self.port = port
        self.link: Connection | None = None

    def step(self, client: Client) -> None:
        """Hands on the opening and a record, and the answers, and then loses the client."""
        takes("accept")(client)
        self.link = connect(self.port)
        self.link.send(*map(wire.frame, (messages.hello("lost"), messages.accept(SUBMIT, INFO), record_of(FEW))))
        answers = [self.link.read() for _ in range(3)]
        client.say(HELLO, messages.log_id(answers[1][1]))
        takes("exit")(client)
        client.say(messages.commit_point(answers[2][1]))
        client.end()

    def close(self) -> None:
        """Ends the connection to the server."""
        if self.link:
            self.link.close()


def record_of(log: Sent) -> bytes:
    """The message of a log's first record."""
    return messages.record(log.records[0])


def held_by(place: servers.Place) -> list[tuple[int, bool]]:
    """Of each log of this repository's server: how many records it has, and whether it is complete."""
    found = [store.read_log(place.store, digits) for digits in store.folders(place.store)]
    return [(len(log.records), log.is_complete()) for log in found if log]


def carry(client: Client, port: int) -> None:
    """Hands on what a client and a server send, until the server ends the connection."""
    link = connect(port)
    threading.Thread(target=hand_on, args=(client.link, link.link), daemon=True).start()
    try:
        hand_on(link.link, client.link)
        client.read_on()
    finally:
        link.close()


def hand_on(source: socket.socket, target: socket.socket) -> None:
    """Hands on what one side sends, and then its end."""
    try:
        while piece := source.recv(1 << 16):
            target.sendall(piece)
        target.shutdown(socket.SHUT_WR)
    except OSError:
        # a reset of one side ends the other
        with contextlib.suppress(OSError):
            target.shutdown(socket.SHUT_RDWR)


def part_server_killed_when_it_is_kept(on: Programs) -> None:
    """The other server is killed when the relay has heard of it: it has the records of a log that is marked.

    It may lack the exit: it may have sent the last commit point, read the exit, and not stored that.
    """
    for tenths in range(4 if not on.long else 30):
        server_is_killed(on, tenths / 10_000)


WHOLE_STEADY = (len(STEADY.records), True)


def server_is_killed(on: Programs, pause: float) -> None:
    """The other server is killed a short time after the identifier was kept, and started again."""
    with a_server(on) as far, Place(on, STEADY) as place:
        with subprocess.Popen(place.words(far.port), stdin=subprocess.DEVNULL, stderr=subprocess.DEVNULL) as run:
            until("the relay keeps what it hears", lambda: place.kept() or run.poll() is not None)
            time.sleep(pause)
            far.kill()
            run.wait(PATIENCE)
        if place.is_marked():
            same("records of a log that is marked, at a server that was killed",
                len(STEADY.records) in [count for count, _ in held_by(far.place)], True)
            return
        far.start()
        runs = (place.relay(far.port) for _ in range(4))
        same("brought after the server was killed", any(run.status == BROUGHT for run in runs), True)
        same("the log at the server", WHOLE_STEADY in held_by(far.place), True)


class Killing:
    """The way to this repository's server, which is killed at one of its answers, before or after that is handed on.

    The client's connection is then reset, as a system does whose program dies with something unread.
    """

    def __init__(self, far: servers.Serve, at: int, before: bool) -> None:
        """It is killed at this answer, counted from 1."""
        self.far, self.at, self.before, self.count = far, at, before, 0

    def step(self, client: Client) -> None:
        """Hands on what a client and the server send, until the server is killed or ends the connection."""
        link = connect(self.far.port)
        threading.Thread(target=hand_on, args=(client.link, link.link), daemon=True).start()
        try:
            self.answer(client, link)
        finally:
            link.close()

    def answer(self, client: Client, link: Connection) -> None:
        """Hands on the answers."""
        frames = wire.Frames()
        while piece := link.link.recv(1 << 16):
            for message in frames.feed(piece):
                self.count += 1
                if self.count != self.at or not self.before:
                    client.say(message)
                if self.count == self.at:
                    self.far.kill()
                    # whoever reads from it in another thread ends first
                    client.link.shutdown(socket.SHUT_RD)
                    client.reset()
                    return
        client.end()


def part_server_killed_at_its_last_answers(on: Programs) -> None:
    """The other server is killed at an answer: a log that is marked, or sent by its status, is whole there."""
    last = answers_of(on)
    for at in range(1 if on.long else last, last + 1):
        for before in (True, False):
            relay_at_killed(on, at, before)
            sender_at_killed(on, at, before)


def answers_of(on: Programs) -> int:
    """The number of answers of this repository's server to a relay."""
    with a_server(on) as far, Place(on, FEW) as place:
        killing = Killing(far, 0, False)
        server = Server(FEW, [killing.step])
        run = place.relay(server.port)
        same(f"status, {run.said}", run.status, BROUGHT)
        server.close()
        return killing.count


WHOLE_FEW = (len(FEW.records), True)


def relay_at_killed(on: Programs, at: int, before: bool) -> None:
    """The other server is killed at an answer to the relay, and started again."""
    with a_server(on) as far, Place(on, FEW) as place:
        server = Server(FEW, [Killing(far, at, before).step])
        place.relay(server.port)
        if place.is_marked():
            same(f"a log that is marked, at a server killed at answer {at}", WHOLE_FEW in held_by(far.place), True)
        start_again(far)
        server.now_meets([lambda client: carry(client, far.port)])
        runs = [place.relay(server.port) for _ in range(3)]
        same(f"killed at answer {at}: status, mark, log, {[run.said for run in runs]}",
            (runs[-1].status, place.is_marked(), WHOLE_FEW in held_by(far.place)), (BROUGHT, True, True))
        server.close()


def sender_at_killed(on: Programs, at: int, before: bool) -> None:
    """The other server is killed at an answer to the sender, and started again."""
    with a_server(on) as far, Place(on, FEW) as place:
        server = Server(FEW, [Killing(far, at, before).step])
        run = place.send(server.port)
        whole = WHOLE_FEW in held_by(far.place)
        if run.status == BROUGHT:
            same(f"a log that was sent, at a server killed at answer {at}", whole, True)
        start_again(far)
        server.now_meets([lambda client: carry(client, far.port)])
        if not whole:
            run = place.send(server.port, *goes_on_by(run.out))
            same(f"killed at answer {at}: status, {run.said}", run.status, BROUGHT)
        same(f"killed at answer {at}: the log", WHOLE_FEW in held_by(far.place), True)
        server.close()


def start_again(far: servers.Serve) -> None:
    """Starts a server, if it was killed."""
    if far.process and far.process.poll() is not None:
        far.start()


def part_relay_killed_at_each_call(on: Programs) -> None:
    """The relay is killed at each of its system calls for files and connections."""
    if not on.long:
        raise Unasked
    if not servers.tool("strace"):
        raise Skipped("without strace")
    with Place(on, FEW) as place:
        server, notes = Server(FEW, [Honest().step]), os.path.join(place.folder, "calls")
        Run([*STRACE, notes, *place.words(server.port)])
        with open(notes, encoding="utf-8", errors="replace") as file:
            names = re.findall(r"^[0-9]+ +([a-z0-9_]+)\(", file.read(), re.MULTILINE)
        server.close()
    calls = [(name, at) for name in CALLS for at in range(1, names.count(name) + 1)]
    same("calls", len(calls) > 20, True)
    with concurrent.futures.ThreadPoolExecutor(WORKERS) as pool:
        list(pool.map(lambda call: relay_killed_at_call(on, *call), calls))


def relay_killed_at_call(on: Programs, name: str, at: int) -> None:
    """The relay is killed at a system call."""
    honest = Honest()
    with Place(on, FEW) as place:
        server = Server(FEW, [honest.step])
        kill = [*STRACE, "/dev/null", "-e", f"trace={name}", "-e", f"inject={name}:signal=KILL:when={at}"]
        subprocess.run([*kill, *place.words(server.port)], stdin=subprocess.DEVNULL, stderr=subprocess.DEVNULL,
            timeout=PATIENCE, check=False)
        if place.is_marked() and not honest.has(FEW):
            raise Differs(f"killed at call {at} of {name} it marked a log that the server lacks")
        runs = [place.relay(server.port) for _ in range(3)]
        same(f"after a kill at call {at} of {name}: status, mark, log, {[run.said for run in runs]}",
            (runs[-1].status, place.is_marked(), honest.has(FEW)), (BROUGHT, True, True))
        server.close()


Part = Callable[[Programs], None]
PARTS: list[tuple[str, Part]] = [(name[5:], part) for name, part in list(globals().items()) if name.startswith("part_")]

# ---- the program


def rows_of(words: argparse.Namespace) -> list[Row]:
    """The rows that are asked for."""
    return [row for row in ROWS if words.only in row.name and (words.long or not row.least)]


def show(rows: Sequence[Row]) -> None:
    """Prints the table."""
    for row in rows:
        brings = "brought" if row.brings else "not brought"
        ends = f", after {row.least:.0f} s" if row.least else ""
        said = "".join(f"\n    {relay} | {sender}" for relay, sender in row.said)
        print(f"{row.name}: {row.does}.\n  {brings}{ends}{said}")


def be(name: str, log: str) -> int:
    """Is a hostile server until it is interrupted."""
    row = next((row for row in ROWS if row.name == name), None)
    if row is None or log not in ("", *LOGS):
        print(f"hostile_servers.py: {name} is none of --list, or {log} none of {', '.join(LOGS)}", file=sys.stderr)
        return 2
    server = Server(LOGS[log] if log else row.log, row.steps)
    print(f"127.0.0.1:{server.port}: {row.does}", flush=True)
    try:
        while True:
            time.sleep(3600)
    except KeyboardInterrupt:
        server.close()
    return 0


def tried(name: str, it: Callable[[], None]) -> str | None:
    """Tries one thing, and gives what differs."""
    try:
        it()
        return None
    except (Skipped, Unasked) as why:
        return f"{name}: skipped, {why}" if isinstance(why, Skipped) else None
    except (Differs, store.Damaged, TimeoutError, subprocess.TimeoutExpired, servers.Failed, Closed) as fault:
        return f"{name}: {str(fault) or type(fault).__name__}"
    except Exception:  # pylint: disable=broad-except
        return f"{name}: {traceback.format_exc()}"


def try_all(on: Programs, rows: Sequence[Row], parts: Sequence[tuple[str, Part]]) -> list[str]:
    """Tries the rows side by side, and the parts. Gives what is to be said of them."""
    things: list[tuple[str, Callable[[], None]]] = []
    for row in rows:
        things += [(f"{row.name}, relay", lambda row=row: relay_is_tried(on, row)),
            (f"{row.name}, sender", lambda row=row: sender_is_tried(on, row))]
    things += [(name, lambda part=part: part(on)) for name, part in parts]
    slow = 2 * sum(row.least > 0 for row in rows)
    with concurrent.futures.ThreadPoolExecutor(WORKERS + slow) as pool:
        return [said for said in pool.map(lambda thing: tried(*thing), reversed(things)) if said]


def main() -> int:
    """Tries what is asked for."""
    words = argparse.ArgumentParser(description=__doc__, formatter_class=argparse.RawDescriptionHelpFormatter)
    words.add_argument("--server")
    words.add_argument("--sendlog")
    words.add_argument("--only", default="")
    words.add_argument("--long", action="store_true")
    words.add_argument("--list", action="store_true")
    words.add_argument("--be", default="")
    words.add_argument("--sends", default="")
    given = words.parse_args()
    if given.be:
        return be(given.be, given.sends)
    rows = rows_of(given)
    if given.list:
        show(rows)
        return 0
    if not given.server or not given.sendlog:
        words.error("--server and --sendlog are needed")
    on = Programs(os.path.realpath(given.server), os.path.realpath(given.sendlog), given.long)
    parts = [(name, part) for name, part in PARTS if given.only in name]
    said = try_all(on, rows, parts)
    for line in said:
        print(line)
    differ = sum(": skipped, " not in line for line in said)
    print(f"hostile_servers.py: {len(rows)} servers and {len(parts)} parts tried, {differ} differ")
    return 1 if differ else 0


if __name__ == "__main__":
    sys.exit(main())
