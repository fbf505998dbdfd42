#!/usr/bin/env python3
"""A small log server by docs/ alone, with which the scripts of this folder are tried: `once` and `serve` on one thread.

usage: model.py once|serve -f CONF [--stop-after N] [--fault NAME]

It syncs nothing, so it promises nothing over a power cut. A fault makes it wrong in a way that the drill must find:
    early   commit points are sent a turn before their records are written
    reuse   numbers are drawn without being written
    uncut   a restart drops no record
    longer  a restart keeps all records at its point, and not the first alone
    silent  event lines are written a turn late
"""
from __future__ import annotations

import argparse
import fcntl
import os
import selectors
import socket
import sys
import time
from collections.abc import Callable, Sequence
from typing import Any

import at_root
import client
import store
from oracle import lines, messages, wire
from oracle.lines import stamp
from oracle.records import SECOND, SIGNAL, STREAMS, Record, cut_at, elapsed, ends, stream_of, timing_of
from oracle.store import COMPLETE, CUT, FLUSHED, MADE, log_body, numbers_body
from oracle.wire import LARGEST, frame

KEYS = ("command", "runuser", "submituser", "submithost")


class Refused(Exception):
    """The error that a client gets."""


class Journal:
    """A journal of two slots, opened or made."""

    def __init__(self, path: str, size: int) -> None:
        """The journal at a path, whose bodies have a size in bytes."""
        os.makedirs(os.path.dirname(path), exist_ok=True)
        self.file = os.open(path, os.O_RDWR | os.O_CREAT, 0o600)
        self.size = size
        text = store.contents(path)
        self.body = store.slots_entry(text, size)
        self.slot = 0 if self.body is None or text[1] != 1 else 1
        if self.body is None:
            os.pwrite(self.file, b"\0", 0)

    def append(self, body: bytes) -> None:
        """An entry."""
        if self.body is None:
            os.pwrite(self.file, b"\0" + body, 1)
            os.pwrite(self.file, b"\1", 0)
        else:
            self.slot = 1 - self.slot
            os.pwrite(self.file, body, 2 + self.slot * self.size)
            os.pwrite(self.file, bytes([self.slot]), 1)
        self.body = body


class OpenLog:
    """A log that a connection writes."""

    def __init__(self, folder: str, kind: int, records: Sequence[Record], head: bytes, cuts: int) -> None:
        """The log in a folder, with an entry of this kind."""
        self.journal = Journal(os.path.join(folder, "slots"), store.LOG_BODY)
        self.files = [os.open(os.path.join(folder, part), os.O_RDWR | os.O_CREAT, 0o600) for part in store.PARTS]
        self.head, self.records, self.cuts, self.staged = head, records, cuts, False
        self.flush(kind, None)

    def flush(self, kind: int, ended: bytes | None) -> int:
        """Writes all, and an entry. Gives the elapsed time in nanoseconds."""
        texts = [self.head, ended or b"", timing_of(self.records)]
        texts += [stream_of(self.records, name) for name in STREAMS]
        # written whole each time, but for what stands there already
        for file, text in zip(self.files, texts):
            length = os.fstat(file).st_size
            if os.pread(file, length, 0)[:len(text)] != text and os.pwrite(file, text, 0) < len(text):
                raise OSError("a part alone was written")
        point = elapsed(self.records)
        self.journal.append(log_body(kind, len(self.records), point, [len(text) for text in texts], self.cuts))
        self.staged = False
        return point


def is_time(name: str, at: wire.Value | None) -> bool:
    """Whether the time of a message is there and valid. An exit needs none, and a hello has none."""
    if name == "hello" or (name == "exit" and at is None):
        return True
    if at is None:
        return False
    found = client.fields(at)
    seconds, nanoseconds = client.signed(client.one(found, 1, 0)), client.signed(client.one(found, 2, 0), 32)
    return seconds >= 0 and 0 <= nanoseconds < SECOND and seconds * SECOND + nanoseconds < 2**63


def is_record(name: str, content: Any) -> bool:
    """Whether a window's size and a signal are such."""
    if name == "winsize":
        return content[2] >= 0 and content[3] >= 0
    return name != "suspend" or SIGNAL.fullmatch(content[2].encode()) is not None


class Settings:
    """The settings of a file, as far as the model has them."""

    def __init__(self, path: str) -> None:
        """The settings of a file."""
        content = {}
        with open(path, encoding="utf-8") as file:
            for line in file:
                key, sign, value = line.split("#")[0].partition("=")
                if sign:
                    content[key.strip()] = value.strip()
        self.port = int(content.get("listen_address", "*:30343").rpartition(":")[2])
        self.folder, self.events = content["iolog_dir"], content["path"]
        self.exits = content.get("log_exit") == "true"


class Server:
    """The store and the sessions. Event lines are JSON."""

    def __init__(self, settings: Settings, fault: str | None) -> None:
        """The store of these settings."""
        self.settings, self.fault = settings, fault
        self.numbers = Journal(os.path.join(settings.folder, "seq2"), store.NUMBERS_BODY)
        self.last = int.from_bytes((self.numbers.body or bytes(4))[:4], "big")
        self.draw(0)
        self.lines = Journal(settings.events + ".slots", store.LOG_BODY)
        self.event_file = os.open(settings.events, os.O_RDWR | os.O_CREAT, 0o600)
        body = self.lines.body and store.body_of(self.lines.body)
        self.length, self.count = (body.lengths[0], body.count) if body else (0, 0)
        self.new, self.owned, self.late = [], {}, []
        self.flush_events()

    def draw(self, step: int) -> str:
        """The digits of the next number, or with no step of the last one."""
        self.last += step
        if self.fault != "reuse" or self.last % 8 == 0:
            self.numbers.append(numbers_body(self.last))
        return store.digits_of(self.last)

    def flush_events(self) -> None:
        """The new event lines are committed."""
        text = b"".join(self.new)
        os.pwrite(self.event_file, text, self.length)
        self.length, self.count = self.length + len(text), self.count + len(self.new)
        self.lines.append(log_body(FLUSHED, self.count, 0, [self.length]))
        self.new = []

    def event(self, session: Session, name: str, members: dict[str, Any]) -> None:
        """A new event line."""
        content = {**members, "peer": session.peer, "server_time": stamp(time.time_ns())}
        named = {"iolog": session.digits} if session.digits and name in ("accept", "exit") else {}
        self.new.append(lines.line_of({name: {**content, **named}}))

    def tail(self) -> None:
        """What is done at the end of a turn: the event lines, then the logs with staged records."""
        if self.fault == "silent":
            self.late, self.new = self.new, self.late
        self.flush_events()
        for digits in sorted(self.owned):
            session, log = self.owned[digits]
            if not log.staged:
                continue
            if self.fault == "early":
                session.say("commit_point", client.timespec(elapsed(log.records)))
                if len(log.records) % 5:
                    continue
            try:
                point = log.flush(FLUSHED, None)
            except OSError:
                log.staged = False
                session.say("error", "device fault")
                session.release()
                continue
            if self.fault != "early":
                session.say("commit_point", client.timespec(point))


class Session:
    """A connection's state, and what it is to be answered."""

    def __init__(self, server: Server, peer: str) -> None:
        """A new connection, which gets a hello."""
        self.server, self.peer = server, peer
        self.state, self.digits, self.log = "fresh", None, None
        self.frames, self.out, self.over = client.Frames(), [], False
        self.out.append(frame(messages.server_hello("lsv 1")))

    def say(self, name: str, content: str | bytes) -> None:
        """A message is to be sent."""
        self.out.append(frame(messages.server(name, content)))

    def release(self) -> None:
        """The log is released, and the connection is over."""
        if self.log:
            if self.log.staged:
                self.log.flush(FLUSHED, None)
            self.server.owned.pop(self.digits, None)
            for file in self.log.files + [self.log.journal.file]:
                os.close(file)
            self.log = None
        self.over = True

    def feed(self, piece: bytes) -> None:
        """Bytes came."""
        for message in self.frames.feed(piece):
            self.take(lambda: self.turn(*self.read(message)))
        if self.frames.length() > LARGEST:
            self.take(self.too_large)

    def too_large(self) -> None:
        """The next message is larger than any may be."""
        raise Refused("message too large")

    def take(self, work: Callable[[], None]) -> None:
        """Works, and ends the connection by an error if it is refused."""
        if self.over:
            return
        try:
            work()
        except Refused as error:
            self.say("error", str(error))
            self.release()

    def read(self, message: bytes) -> tuple[str, Any, str | None]:
        """A message, and what is wrong with its time, its size or its signal."""
        try:
            (number, body), = client.fields(message)
            name, found = client.CLIENT[number], client.fields(body)
            again = {"accept": 2, "reject": 3, "alert": 3}.get(name)
            single = [number for number, _ in found if number != again]
            if len(set(single)) < len(single):
                raise client.Malformed("a field comes twice")
            content = client.read_client(message)[1]
        except (client.Malformed, ValueError, KeyError, TypeError) as fault:
            raise Refused("malformed message") from fault
        at = client.one(found, 2 if name == "restart" else 1, None)
        bad = "bad time" if not is_time(name, at) else "bad size or signal" if not is_record(name, content) else None
        return name, content, bad

    def turn(self, name: str, content: Any, bad: str | None) -> None:
        """Does what a message asks for."""
        wanted = {"hello": ["fresh"], "restart": ["fresh", "greeted"], "exit": ["running", "logging"]}
        usual = ["logging"] if name in STREAMS + ("winsize", "suspend") else ["fresh", "greeted", "alerted", "running",
            "logging"]
        if self.state not in wanted.get(name, usual):
            raise Refused("unexpected message")
        if bad:
            raise Refused(bad)
        if name in ("accept", "reject", "alert", "hello", "restart", "exit"):
            getattr(self, "on_" + name)(content)
        else:
            self.log.records.append(content)
            self.log.staged = True

    def on_hello(self, _: str) -> None:
        """A hello."""
        self.state = "greeted"

    def on_alert(self, content: dict[str, Any]) -> None:
        """An alert."""
        self.server.event(self, "alert",
            {"alert_time": stamp(content["time"]), "info": content["info"], "reason": content["reason"]})
        self.state = self.state if self.state in ("running", "logging") else "alerted"

    def on_reject(self, content: dict[str, Any]) -> None:
        """A reject."""
        self.server.event(self, "reject",
            {"info": content["info"], "reason": content["reason"], "submit_time": stamp(content["time"])})
        if self.state not in ("running", "logging"):
            self.release()

    def on_accept(self, content: dict[str, Any]) -> None:
        """An accept, which begins a session if there is none."""
        if self.state not in ("running", "logging"):
            if any(not isinstance(content["info"].get(key), str) for key in KEYS):
                raise Refused("missing key")
            self.state = "running"
            if content["expect_iobufs"]:
                self.open(content)
        self.server.event(self, "accept", {"info": content["info"], "submit_time": stamp(content["time"])})

    def open(self, content: dict[str, Any]) -> None:
        """A log is begun."""
        self.digits, self.state = self.server.draw(1), "logging"
        folder = store.folder_of(self.server.settings.folder, self.digits)
        os.makedirs(folder, exist_ok=True)
        self.log = OpenLog(folder, MADE, [], lines.head(content["time"], content["info"]), 0)
        self.server.owned[self.digits] = (self, self.log)
        self.say("log_id", self.digits)

    def on_restart(self, content: tuple[str, int]) -> None:
        """A restart."""
        digits, point = content
        if digits in self.server.owned:
            raise Refused("log in use")
        found = store.read_log(self.server.settings.folder, digits)
        if found is None:
            raise Refused("no such log")
        if found.is_complete():
            raise Refused("log complete")
        kept = self.kept(found.records, point)
        folder = store.folder_of(self.server.settings.folder, digits)
        head = store.contents(os.path.join(folder, "log.json"))[:found.body.lengths[0]]
        self.digits, self.state = digits, "logging"
        self.log = OpenLog(folder, CUT, kept, head, found.body.extra + (len(kept) < len(found.records)))
        self.server.owned[digits] = (self, self.log)

    def kept(self, records: list[Record], point: int) -> list[Record]:
        """The records that a restart at a point keeps, unless the server has a fault."""
        kept = cut_at(records, point)
        if kept is None:
            raise Refused("no such resume point")
        if self.server.fault == "longer":
            return records[: len(records) - ends(records)[::-1].index(point)]
        return records if self.server.fault == "uncut" else list(kept)

    def on_exit(self, content: dict[str, Any]) -> None:
        """The session is over."""
        ended = lines.exit_of(content)
        if self.log:
            point = self.log.flush(COMPLETE, lines.line_of(ended))
        if self.server.settings.exits:
            self.server.event(self, "exit", ended)
        if self.log:
            self.say("commit_point", client.timespec(point))
        self.release()


def once(server: Server, _: int) -> int:
    """Gives the exit status: 0, or 6 where the answers couldn't be put."""
    session, link = Session(server, "0.1"), socket.socket(fileno=os.dup(0))
    status = 0
    while True:
        try:
            link.sendall(b"".join(session.out))
            session.out = []
            piece = b"" if session.over else link.recv(65536)
        except ConnectionError:
            piece, status = b"", 6
        session.feed(piece)
        if not piece:
            session.release()
            server.tail()
            return status
        server.tail()


def report(text: str) -> None:
    """A line on standard error."""
    try:
        os.write(2, f"model: {text}\n".encode())
    except OSError:
        pass


def serve(server: Server, stop_after: int) -> None:
    """Serves connections until so many came and went."""
    listener = socket.create_server(("127.0.0.1", server.settings.port), backlog=128)
    poll, count = selectors.DefaultSelector(), 0
    poll.register(listener, selectors.EVENT_READ, None)
    report(f"listening on 127.0.0.1:{server.settings.port}, {server.settings.folder}, last number {server.last}")
    while count < stop_after or len(poll.get_map()) > 1:
        busy = []
        for key, _ in poll.select(0.01):
            if key.data is None:
                count += 1
                link, _ = listener.accept()
                poll.register(link, selectors.EVENT_READ, Session(server, f"0.{count}"))
                busy.append((link, poll.get_key(link).data))
                continue
            try:
                piece = key.fileobj.recv(65536)
            except ConnectionError:
                piece = b""
            key.data.feed(piece)
            if not piece:
                key.data.release()
            busy.append((key.fileobj, key.data))
        server.tail()
        busy += [(key.fileobj, key.data) for key in list(poll.get_map().values()) if key.data and key.data.out]
        for link, session in busy:
            answer(poll, link, session)


def answer(poll: selectors.BaseSelector, link: socket.socket, session: Session) -> None:
    """Puts what a session is answered, and closes it where it is over."""
    try:
        if session.out and link.fileno() >= 0:
            link.sendall(b"".join(session.out))
    except ConnectionError:
        session.release()
    session.out = []
    if session.over and link.fileno() >= 0:
        poll.unregister(link)
        link.close()


def locked(folder: str) -> bool:
    """Whether this is the only server on the store. The lock goes with the process."""
    os.makedirs(folder, exist_ok=True)
    try:
        fcntl.flock(os.open(os.path.join(folder, "lock"), os.O_RDWR | os.O_CREAT, 0o600), fcntl.LOCK_EX | fcntl.LOCK_NB)
        return True
    except OSError:
        return False


def main() -> None:
    """Runs a command."""
    while os.open("/dev/null", os.O_RDWR) < 3:
        pass
    os.umask(0o077)
    words = argparse.ArgumentParser(description=__doc__, formatter_class=argparse.RawDescriptionHelpFormatter)
    words.add_argument("command", choices=("once", "serve"))
    words.add_argument("-f", dest="conf", required=True)
    words.add_argument("--stop-after", type=int, default=2**63)
    words.add_argument("--fault")
    args = words.parse_args()
    settings = Settings(args.conf)
    if not locked(settings.folder):
        report("another server uses this store")
        sys.exit(4)
    server = Server(settings, args.fault)
    sys.exit((once if args.command == "once" else serve)(server, args.stop_after))


if __name__ == "__main__":
    main()
