#!/usr/bin/env python3
"""Tries `sudo_sendlog`: ours and sudo's own, each to this server and to sudo's own, of one session.

usage: sendlog.py --server SERVER PROGRAM

SERVER is sudo_logsrvd of this repository, and PROGRAM its sudo_sendlog. The peers are those of Debian's package sudo;
what needs them is skipped without them. The session is stored in both layouts: ours for PROGRAM, and for the peer as
contrib/sudo-layout writes it. What each server stored is compared with the records that were sent. Between PROGRAM and
a server a port cuts the connection off after some bytes; the session then goes on with `-i` and `-r`, and is complete
at the server. A session is sent to a slow server while its client resumes it, so that records are dropped: what was
sent is from before, and the sender says so. It ends with 1 if something differs.
"""
from __future__ import annotations

import argparse
import contextlib
import os
import shutil
import socket
import subprocess
import sys
import tempfile
import threading
import time
from collections.abc import Callable, Sequence
from typing import Any

import at_root
import follow
import servers
from oracle import lines, messages, store, wire
from oracle.connection import PATIENCE
from oracle.records import SECOND, Record, elapsed, ends
from oracle.sudo import read_session
from oracle.waits import until

INFO: dict[str, Any] = {
    "columns": 80, "command": "/usr/bin/id", "lines": 24, "runargv": ["id", "-u"], "rungid": 0, "rungroup": "root",
    "runuid": 0,
    "runuser": "root", "submitcwd": "/home/ann", "submithost": "web1", "submituser": "ann", "ttyname": "/dev/pts/0",
}
SUBMIT = 1_700_000_000 * SECOND
# no record without a delay, since sudo's own client loses its place among such
RECORDS: list[Record] = [(1_000_000 * (1 + n % 7), "ttyout", b"%08d\r\n" % n) for n in range(2_000)]
RECORDS[500] = (2_000_000, "winsize", 30, 100)
IDENTIFIER = "000001"
HERE = os.path.dirname(os.path.dirname(os.path.abspath(__file__)))


class Differs(Exception):
    """Something isn't as it should be."""


def same(what: str, found: object, wanted: object) -> None:
    """Both are equal."""
    if found != wanted:
        raise Differs(f"{what}: {str(found)[:300]!r} in place of {str(wanted)[:300]!r}")


def waited(what: str, find: Callable[[], object], wanted: object) -> None:
    """Both are equal, at once or soon."""
    end = time.monotonic() + PATIENCE
    while find() != wanted and time.monotonic() < end:
        time.sleep(0.05)
    same(what, find(), wanted)


class Cut:
    """A port that hands bytes on to a server, and ends both ways after some bytes of the client.

    It ends them once the server has said an identifier and a commit point, for which it waits this long after that.
    """

    def __init__(self, port: int, after: int, seconds: float) -> None:
        """One connection is served."""
        self.seconds, self.said = seconds, set[str]()
        self.listener = socket.create_server(("127.0.0.1", 0))
        self.port = self.listener.getsockname()[1]
        self.server, self.after = port, after
        self.thread = threading.Thread(target=self.serve, daemon=True)
        self.thread.start()

    def serve(self) -> None:
        """Hands on what comes."""
        client, _ = self.listener.accept()
        server = socket.create_connection(("127.0.0.1", self.server))
        back = threading.Thread(target=self.hand_back, args=(server, client), daemon=True)
        back.start()
        left = self.after
        while left > 0 and (piece := client.recv(min(left, 4096))):
            server.sendall(piece)
            left -= len(piece)
        for name, seconds in (("log_id", PATIENCE), ("commit_point", self.seconds)):
            end = time.monotonic() + seconds
            while name not in self.said and back.is_alive() and time.monotonic() < end:
                time.sleep(0.01)
        for link in (client, server):
            with contextlib.suppress(OSError):
                link.shutdown(socket.SHUT_RDWR)
            link.close()

    def hand_back(self, server: socket.socket, client: socket.socket) -> None:
        """Hands on what the server sends."""
        frames = wire.Frames()
        try:
            while piece := server.recv(4096):
                client.sendall(piece)
                for message in frames.feed(piece):
                    self.said.add(messages.read_server(message)[0])
        except OSError:
            pass


class Try:
    """A session in both layouts, and the programs."""

    def __init__(self, server: str, program: str) -> None:
        """Writes the session."""
        self.server, self.program = server, program
        self.folder = tempfile.mkdtemp(prefix="sendlog")
        self.store = os.path.join(self.folder, "store")
        store.write_log(self.store, 1, lines.head(SUBMIT, INFO), RECORDS, lines.exit_line(elapsed(RECORDS), 0))
        store.write_numbers(self.store, 1)
        self.layout = os.path.join(self.folder, "layout")
        layout = os.path.join(HERE, "contrib", "sudo-layout")
        done = subprocess.run([layout, "-d", self.store, "-o", self.layout, IDENTIFIER], check=False)
        same("status of sudo-layout", done.returncode, 0)

    def ours(self, port: int, *words: str, status: int = 0) -> list[str]:
        """Runs our sender, and gives the lines that it prints.

        It is run again while the server hasn't seen the end of the connection before, which still has the log.
        """
        end = time.monotonic() + PATIENCE
        program = [self.program, "-d", self.store, "-h", "127.0.0.1", "-p", str(port), *words, IDENTIFIER]
        while True:
            done = subprocess.run(program, capture_output=True, text=True, timeout=PATIENCE, check=False)
            if "log in use" not in done.stderr or time.monotonic() > end:
                break
            time.sleep(0.05)
        if done.returncode != status:
            raise Differs(f"our sudo_sendlog {words}: status {done.returncode}: {done.stdout}{done.stderr}")
        return done.stdout.splitlines()

    def theirs(self, port: int, *words: str) -> None:
        """Runs sudo's own sender."""
        peer = servers.tool("sudo_sendlog")
        folder = os.path.join(self.layout, "00", "00", "01")
        done = subprocess.run([str(peer), "-h", "127.0.0.1", "-p", str(port), *words, folder], capture_output=True,
            text=True, timeout=PATIENCE, check=False)
        same(f"status of sudo's sudo_sendlog, {done.stderr}", done.returncode, 0)

    def at_ours(self, part: Callable[[servers.Serve, servers.Place], None]) -> None:
        """A part with our server."""
        place = servers.Place()
        server = servers.Serve(self.server, place).start()
        try:
            part(server, place)
        finally:
            server.kill()
            shutil.rmtree(place.folder)

    def at_theirs(self, part: Callable[[servers.Serve, servers.Place], None]) -> None:
        """A part with sudo's own server."""
        place = servers.Place(servers.SUDO)
        server = servers.Sudo(str(servers.tool("sudo_logsrvd")), place).start()
        try:
            part(server, place)
        finally:
            server.kill()
            shutil.rmtree(place.folder)


def log_of_ours(place: servers.Place, digits: str = "000001") -> tuple[list[Record], bool]:
    """The records that our server stored, and whether the session is complete."""
    log = store.read_log(place.store, digits)
    if log is None:
        raise Differs(f"our server has no log {digits}")
    return list(log.records), log.exit is not None


def log_of_theirs(place: servers.Place, digits: str = "000001") -> tuple[list[Record], bool]:
    """The records that sudo's own server stored, and whether the session is complete."""
    session = read_session(store.folder_of(place.store, digits))
    if session is None:
        raise Differs(f"sudo's server has no log {digits}")
    return session[1], session[2]


WHOLE = (RECORDS, True)


def check_lines(printed: Sequence[str]) -> str:
    """The lines of a whole session; gives the identifier."""
    same("the first line", printed[0][:3], "id ")
    last = elapsed(RECORDS)
    same("the last line", printed[-1], f"commit {last // SECOND}.{last % SECOND:09}")
    return printed[0][3:]


def sends_whole(on: Try) -> None:
    """A whole session to our server, by both senders: the logs are the same."""
    def part(server: servers.Serve, place: servers.Place) -> None:
        """With one server."""
        same("identifier at our server", check_lines(on.ours(server.port)), "000001")
        same("our sender at our server", log_of_ours(place), WHOLE)
        if servers.tool("sudo_sendlog"):
            on.theirs(server.port)
            # sudo's own doesn't wait until the exit is taken
            waited("sudo's sender at our server", lambda: log_of_ours(place, "000002"), WHOLE)
    on.at_ours(part)


def sends_part(on: Try) -> None:
    """The first records to our server, and the rest after them."""
    points = ends(RECORDS)
    def part(server: servers.Serve, place: servers.Place) -> None:
        """With one server."""
        point = f"{points[999] // SECOND}.{points[999] % SECOND:09}"
        same("last line", on.ours(server.port, "-s", point)[-1], f"commit {point}")
        same("a part at our server", log_of_ours(place), (RECORDS[:1000], False))
        on.ours(server.port, "-i", "000001", "-r", point)
        same("the rest at our server", log_of_ours(place), WHOLE)
        on.ours(server.port, "-i", "000001", "-r", point, status=8)
        on.ours(server.port, "-i", "000001", "-r", "0.0000001", status=4)
    on.at_ours(part)


def sends_events(on: Try) -> None:
    """An accept and a reject alone."""
    def part(server: servers.Serve, place: servers.Place) -> None:
        """With one server."""
        same("lines of an accept", on.ours(server.port, "-A"), [])
        same("lines of a reject", on.ours(server.port, "-R", "not on a sunday"), [])
        # the server writes an event after it took it
        for name, words in (("the accept", b'"accept"'), ("the reject", b"not on a sunday")):
            waited(name, lambda words=words: any(words in line for line in store.lines(place.events) or []), True)
    on.at_ours(part)


def goes_on(on: Try, at: Callable[[Callable[[servers.Serve, servers.Place], None]], None],
    read: Callable[[servers.Place], tuple[list[Record], bool]], seconds: float = PATIENCE) -> None:
    """A connection that is cut off after a commit point, for which it waits this long, and the session that goes on."""
    def part(server: servers.Serve, place: servers.Place) -> None:
        """With one server."""
        printed = on.ours(Cut(server.port, 20_000, seconds).port, status=8)
        same("the first line of a cut session", printed[:1] and printed[0][:3], "id ")
        points = [line[7:] for line in printed if line.startswith("commit ")]
        if not points:
            # sudo's own server sends none in its first seconds
            same("whether it waited for a commit point", seconds < PATIENCE, True)
            return
        # the server has to see the end of the first connection
        time.sleep(1)
        on.ours(server.port, "-i", printed[0][3:], "-r", points[-1])
        same("a session that went on", read(place), WHOLE)
    at(part)


def to_theirs(on: Try) -> None:
    """A whole session to sudo's own server, by both senders."""
    def part(server: servers.Serve, place: servers.Place) -> None:
        """With one server."""
        check_lines(on.ours(server.port))
        same("our sender at sudo's server", log_of_theirs(place), WHOLE)
        on.theirs(server.port)
        waited("sudo's sender at sudo's server", lambda: log_of_theirs(place, "000002"), WHOLE)
    on.at_theirs(part)


def part_to_theirs(on: Try) -> None:
    """The first records to sudo's own server, and the rest after them."""
    points = ends(RECORDS)
    def part(server: servers.Serve, place: servers.Place) -> None:
        """With one server."""
        point = f"{points[999] // SECOND}.{points[999] % SECOND:09}"
        printed = on.ours(server.port, "-s", point)
        same("last line", printed[-1], f"commit {point}")
        same("a part at sudo's server", log_of_theirs(place), (RECORDS[:1000], False))
        on.ours(server.port, "-i", printed[0][3:], "-r", point)
        same("the rest at sudo's server", log_of_theirs(place), WHOLE)
        on.ours(server.port, "-i", printed[0][3:], "-r", point, status=8)
    on.at_theirs(part)


class Slow:
    """A server that takes one session, and reads nothing between the identifier and `go_on`."""

    def __init__(self) -> None:
        """It listens."""
        self.listener = socket.socket()
        self.listener.setsockopt(socket.SOL_SOCKET, socket.SO_RCVBUF, 65536)
        self.listener.bind(("127.0.0.1", 0))
        self.listener.listen()
        self.port = self.listener.getsockname()[1]
        self.go_on, self.full, self.records = threading.Event(), threading.Event(), b""
        self.thread = threading.Thread(target=self.serve, daemon=True)
        self.thread.start()

    def serve(self) -> None:
        """Takes the session."""
        link, _ = self.listener.accept()
        link.sendall(wire.frame(messages.server_hello("slow")) + wire.frame(messages.log_id("slow")))
        # records came, which are more than the opening
        while len(link.recv(32768, socket.MSG_PEEK)) < 32768:
            time.sleep(0.01)
        self.full.set()
        self.go_on.wait(PATIENCE)
        frames = wire.Frames()
        while piece := link.recv(1 << 20):
            for message in frames.feed(piece):
                name, content = messages.read_client(message)
                if name == "ttyout":
                    self.records += content[-1]
        link.close()


def resumes(session: follow.Session, kept: int, data: bytes) -> bool:
    """Resumes a session with a record. False if the server hasn't seen yet that its writer is gone."""
    session.resume(kept)
    try:
        session.record(data)
    except follow.Differs as fault:
        session.link.close()
        if "log in use" in str(fault):
            return False
        raise
    return True


def cut_meanwhile(on: Try) -> None:
    """A client resumes the session while it is sent: none of what it adds is sent.

    That is tried again if it took so long that the sender gave up its server.
    """
    for _ in range(5):
        said = cut_once(on)
        if "30 seconds" not in said:
            return
    raise Differs(f"a session that is cut while it is sent: {said}")


def cut_once(on: Try) -> str:
    """Tries it, and gives what the sender says."""
    place, slow = servers.Place(), Slow()
    server = servers.Serve(on.server, place).start()
    session = follow.Session(server)
    for letter in b"ABCDEFGH":
        session.record(bytes([letter]) * 1_000_000)
    before = b"".join(session.sent)
    with subprocess.Popen([on.program, "-d", place.store, "-h", "127.0.0.1", "-p", str(slow.port), session.digits],
            stdout=subprocess.DEVNULL, stderr=subprocess.PIPE, text=True) as sender:
        slow.full.wait(PATIENCE)
        session.link.close()
        until("the session goes on", lambda: resumes(session, 2, b"z" * 1_000_000))
        for letter in b"yx":
            session.record(bytes([letter]) * 1_000_000)
        slow.go_on.set()
        said = sender.communicate(timeout=PATIENCE)[1]
    slow.thread.join(PATIENCE)
    server.stop()
    if "30 seconds" not in said:
        same(f"a session that is cut while it is sent: {said}",
            (sender.returncode, "was cut by a restart" in said), (4, True))
        same("what came of it is from before", (before.startswith(slow.records), bool(slow.records)), (True, True))
    shutil.rmtree(place.folder)
    return said


def main() -> int:
    """Tries each part."""
    words = argparse.ArgumentParser(description=__doc__, formatter_class=argparse.RawDescriptionHelpFormatter)
    words.add_argument("--server", required=True)
    words.add_argument("program")
    given = words.parse_args()
    on = Try(os.path.abspath(given.server), os.path.abspath(given.program))
    parts: list[tuple[str, Callable[[], None]]] = [
        ("a whole session", lambda: sends_whole(on)),
        ("parts of a session", lambda: sends_part(on)),
        ("an accept and a reject", lambda: sends_events(on)),
        ("a cut connection", lambda: goes_on(on, on.at_ours, log_of_ours)),
        ("a session that is resumed while it is sent", lambda: cut_meanwhile(on)),
    ]
    if servers.tool("sudo_logsrvd") and servers.tool("sudo_sendlog"):
        parts.append(("sudo's own server", lambda: to_theirs(on)))
        parts.append(("parts of a session to sudo's own server", lambda: part_to_theirs(on)))
        parts.append(("a cut connection to sudo's own server", lambda: goes_on(on, on.at_theirs, log_of_theirs,
            1.5)))
    else:
        print("sendlog: sudo's own server is skipped, without Debian's package sudo")
    bad = 0
    for name, part in parts:
        try:
            part()
        except (Differs, store.Damaged, servers.Failed, subprocess.TimeoutExpired) as fault:
            print(f"sendlog: {name}: {fault}")
            bad = 1
    shutil.rmtree(on.folder)
    if not bad:
        print(f"sendlog: {len(parts)} parts, ok")
    return bad


if __name__ == "__main__":
    sys.exit(main())
