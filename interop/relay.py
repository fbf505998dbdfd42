#!/usr/bin/env python3
"""Tries `relay`: what the other server then has is compared, record by record, with what was stored.

usage: relay.py --server PROGRAM [--replay SUDOREPLAY] [--only WORD] [--seed N] [--cuts N]

Sessions are stored by PROGRAM's `serve`. Then its `relay` sends them to another server: to one of PROGRAM, or to
sudo's own. Between both stands a port that may cut a connection. It ends with 1 where something differs.
"""
from __future__ import annotations

import argparse
import contextlib
import os
import random
import shutil
import signal
import socket
import subprocess
import sys
import threading
import time
import traceback
from collections.abc import Callable, Sequence
from typing import Any, Self

import at_root
import client
import peer
import servers
import store
from oracle import messages
from oracle.connection import PATIENCE
from oracle.records import SECOND, Record, elapsed
from oracle.store import write_numbers
from oracle.waits import until
from trial import Differs, same

FORM = servers.OURS + """[relay]
relay_host = 127.0.0.1:{{upstream}}
store_first = true
"""
INFO = {"command": "/usr/bin/id", "runargv": ["id", "-u"], "runuser": "root", "runuid": 0, "submituser": "ann",
    "submithost": "web1", "submitcwd": "/home/ann", "ttyname": "/dev/pts/0", "lines": 24, "columns": 80}
NO_UPSTREAM, STORE, PENDING = 1, 4, 8
# This number of runs beside a server may be cut off on a machine that is never idle.
MOST_CUT = 2
CUT_OFF = ("the other server ended the connection", "the connection was cut", "the connection could not be made")


class Cutter:
    """A port before a server, which cuts each connection as its fields say.

    `sent` and `answered` are the bytes that are let through in each direction, None for all of them.
    """

    def __init__(self, port: int) -> None:
        """All is let through."""
        self.server, self.count = port, 0
        self.sent: int | None = None
        self.answered: int | None = None
        self.bytes_sent = 0
        self.listener = socket.create_server(("127.0.0.1", 0), backlog=64)
        self.port = self.listener.getsockname()[1]
        threading.Thread(target=self.run, daemon=True).start()

    def run(self) -> None:
        """Takes connections until the port is closed."""
        while True:
            try:
                near, _ = self.listener.accept()
            except OSError:
                return
            self.count += 1
            try:
                far = socket.create_connection(("127.0.0.1", self.server))
            except OSError:
                near.close()
                continue
            for source, target, most, forth in ((near, far, self.sent, True), (far, near, self.answered, False)):
                threading.Thread(target=self.carry, args=(source, target, most, forth), daemon=True).start()

    def carry(self, source: socket.socket, target: socket.socket, most: int | None, forth: bool) -> None:
        """Hands on one direction, and cuts both when it let its bytes through."""
        done = 0
        try:
            while piece := source.recv(65536):
                if most is not None and done + len(piece) > most:
                    target.sendall(piece[: most - done])
                    time.sleep(0.05)
                    for link in (source, target):
                        link.shutdown(socket.SHUT_RDWR)
                    return
                done += len(piece)
                if forth:
                    self.bytes_sent += len(piece)
                target.sendall(piece)
            target.shutdown(socket.SHUT_WR)
        except OSError:
            # a reset of one side ends the other
            with contextlib.suppress(OSError):
                target.shutdown(socket.SHUT_RDWR)

    def close(self) -> None:
        """Closes the port."""
        self.listener.close()


class Bad:
    """A port that answers each connection with the same bytes, and then waits."""

    def __init__(self, answer: bytes) -> None:
        """Listens."""
        self.answer, self.links = answer, []
        self.listener = socket.create_server(("127.0.0.1", 0), backlog=64)
        self.port = self.listener.getsockname()[1]
        threading.Thread(target=self.run, daemon=True).start()

    def run(self) -> None:
        """Answers until the port is closed."""
        while True:
            try:
                link, _ = self.listener.accept()
                self.links.append(link)
                if self.answer:
                    link.sendall(self.answer)
            except OSError:
                return

    def close(self) -> None:
        """Closes the port and its connections."""
        for link in [self.listener, *self.links]:
            link.close()


class Both:
    """A server whose logs are relayed, and the server that they are relayed to."""

    def __init__(self, on: Trial, kind: str = "ours") -> None:
        """Both are started. `kind` is `ours` or `sudo`."""
        self.on = on
        self.far_place = servers.Place(servers.SUDO if kind == "sudo" else servers.OURS)
        self.kind = kind
        if kind == "sudo":
            self.far = servers.Sudo(servers.tool("sudo_logsrvd") or "", self.far_place)
        else:
            self.far = servers.Serve(on.program, self.far_place)
        self.far.start()
        self.cutter = Cutter(self.far_place.port)
        self.place = servers.Place(FORM)
        self.aim(self.cutter.port)
        self.near = servers.Serve(on.program, self.place).start()

    def __enter__(self) -> Self:
        """Both servers run."""
        return self

    def __exit__(self, kind: object, *_: object) -> None:
        """Ends both servers, and removes their folders."""
        if kind:
            print(f"the servers, where what follows was found: {self.near.seen()}; the other: {self.far.seen()}")
        self.cutter.close()
        for server in (self.near, self.far):
            if server.process and server.process.poll() is None:
                server.process.kill()
                server.process.wait()
        for place in (self.place, self.far_place):
            shutil.rmtree(place.folder, ignore_errors=True)

    def aim(self, port: int) -> None:
        """Relays go to this port from now on."""
        with open(self.place.conf, "w", encoding="utf-8") as file:
            file.write(FORM.format(port=self.place.port, folder=self.place.folder).format(upstream=port))

    def session(self, records: Sequence[Record], exit_: bytes, submit: int = 1_700_000_000 * SECOND) -> str:
        """Stores a session, and gives its identifier."""
        link = self.near.connect()
        link.send(client.hello(), client.accept(submit, INFO), *map(client.record, records), exit_)
        digits, points = None, []
        for name, what in link.rest():
            digits = what if name == "log_id" else digits
            points += [what] if name == "commit_point" else []
        if digits is None or points[-1:] != [elapsed(records)]:
            raise Differs(f"a session wasn't stored: {digits}, {points}")
        return digits

    def relay(self, seconds: float = PATIENCE) -> tuple[int, str]:
        """Runs `relay`, and gives its status and what it says."""
        done = subprocess.run([self.on.program, "relay", "-f", self.place.conf], capture_output=True, timeout=seconds,
            check=False)
        return done.returncode, done.stderr.decode(errors="replace")

    def relays_all(self, tries: int = 1) -> None:
        """Relays until all is relayed, in at most this number of runs."""
        for _ in range(tries):
            status, said = self.relay()
            if status == 0:
                return
        raise Differs(f"status {status} after {tries} runs: {said[-600:]}")

    def mine(self) -> list[store.Log]:
        """The complete logs that were stored."""
        logs = [store.read_log(self.place.store, digits) for digits in store.folders(self.place.store)]
        return [log for log in logs if log and log.is_complete()]

    def far_sessions(self) -> list[tuple[list[Record], bool, dict[str, Any]]]:
        """What the other server has: records, whether the session is whole, and its information."""
        found = []
        for digits in store.folders(self.far_place.store):
            if self.kind == "sudo":
                session = peer.read_session(store.folder_of(self.far_place.store, digits))
                if session:
                    found.append((session[1], session[2], session[0]))
            else:
                log = store.read_log(self.far_place.store, digits)
                if log:
                    found.append((log.records, log.is_complete(), {"log": log}))
        return found

    def compare(self, copies: int | None = 1) -> None:
        """Each log is at the other server, whole, and this number of times; None for at least once."""
        far = self.far_sessions()
        for log in self.mine():
            whole = [session for session in far if session[1] and session[0] == log.records]
            if not whole or (copies is not None and len(whole) != copies):
                raise Differs(f"log {log.digits} stands {len(whole)} times at the other server, "
                    f"which has {len(far)} logs")
            if self.kind == "ours":
                theirs = whole[0][2]["log"]
                same("information", theirs.info, log.info)
                same("submit time", theirs.submit, log.submit)
                same("exit", theirs.exit, log.exit)
        self.is_marked()

    def is_marked(self) -> None:
        """The relaying of each complete log has an entry of kind 3, and a further run connects to nobody."""
        for log in self.mine():
            folder = store.folder_of(self.place.store, log.digits)
            slots, commit = os.path.join(folder, "relay.slots"), os.path.join(folder, "relay.commit")
            found = store.entry(slots, commit, store.LOG_BODY)
            if found is None or store.body_of(found).kind != "complete":
                raise Differs(f"log {log.digits} isn't marked: {found and store.body_of(found)}")
        before = self.cutter.count
        same("a further run", self.relay(), (0, ""))
        same("connections of a further run", self.cutter.count, before)


class Trial:
    """The program that is tried, and the numbers that are drawn."""

    def __init__(self, program: str, replay: str | None, seed: int, cuts: int) -> None:
        """`cuts` connections are cut at random."""
        self.program, self.replay, self.cuts = program, replay, cuts
        self.random = random.Random(seed)

    def some_records(self, count: int, size: int = 40) -> list[Record]:
        """Records of all kinds, with delays of zero among them."""
        records: list[Record] = []
        for _ in range(count):
            delay = self.random.choice([0, 0, 1, 1000, SECOND // 7, SECOND, 3 * SECOND])
            event = self.random.choice(["ttyout", "ttyout", "ttyin", "stdout", "stderr", "stdin", "winsize", "suspend"])
            if event == "winsize":
                records.append((delay, event, self.random.randrange(1, 200), self.random.randrange(1, 200)))
            elif event == "suspend":
                records.append((delay, event, self.random.choice(["TSTP", "CONT"])))
            else:
                records.append((delay, event, self.random.randbytes(self.random.randrange(0, size))))
        return records


Part = Callable[[Trial], None]


def needs_sudo(part: Part) -> Part:
    """Marks a part that wants sudo's own server."""
    setattr(part, "needs_sudo", True)
    return part


# ---- to a server of ours


def part_whole(on: Trial) -> None:
    """Sessions of all kinds arrive as they were stored."""
    with Both(on) as both:
        both.session([], client.exited(SECOND))
        both.session([(SECOND, "ttyout", b"x")], client.exited(2 * SECOND, 3))
        both.session([(0, "ttyout", b"x"), (0, "ttyout", b""), (0, "suspend", "TSTP")],
            client.exited(0, 0, True, "KILL", "gone"))
        both.session([(SECOND, "stdout", on.random.randbytes(2_000_000)), (1, "stderr", b"\xff\x00")],
            client.exited(SECOND))
        for count in (10, 100, 3000):
            both.session(on.some_records(count), client.exited(SECOND))
        link = both.near.connect()
        link.send(client.hello(), client.accept(SECOND, INFO), client.record((SECOND, "ttyout", b"going on")))
        time.sleep(0.3)
        both.relays_all()
        both.compare()
        same("logs at the other server", len(both.far_sessions()), 7)


def part_nothing(on: Trial) -> None:
    """A store without logs is relayed, and nobody is connected to."""
    with Both(on) as both:
        same("status", both.relay(), (0, ""))
        same("connections", both.cutter.count, 0)


def part_cut_and_resumed(on: Trial) -> None:
    """Connections that are cut at random bytes, in both directions, are gone on with."""
    with Both(on) as both:
        lengths = []
        for _ in range(3):
            records = on.some_records(400)
            both.session(records, client.exited(SECOND))
            lengths.append(len(b"".join(map(client.record, records))))
        for _ in range(on.cuts):
            both.cutter.sent, both.cutter.answered = on.random.choice(
                [(on.random.randrange(1, max(lengths)), None), (None, on.random.randrange(1, 120))])
            status, said = both.relay()
            if status not in (0, PENDING):
                raise Differs(f"status {status}: {said}")
        both.cutter.sent = both.cutter.answered = None
        both.relays_all(3)
        both.compare(copies=None)


def part_upstream_killed(on: Trial) -> None:
    """The other server is killed while it is sent to, and started again."""
    with Both(on) as both:
        both.session(on.some_records(20_000, 200), client.exited(SECOND))
        for _ in range(4):
            run = subprocess.Popen([on.program, "relay", "-f", both.place.conf], stderr=subprocess.PIPE)
            time.sleep(on.random.uniform(0.02, 0.3))
            both.far.kill()
            run.wait(PATIENCE)
            both.far.start()
            if run.returncode not in (0, PENDING):
                raise Differs(f"status {run.returncode}: {run.stderr.read()}")
        both.relays_all(3)
        both.compare(copies=None)


def part_relay_killed(on: Trial) -> None:
    """The relay is killed while it sends, and run again."""
    with Both(on) as both:
        both.session(on.some_records(20_000, 200), client.exited(SECOND))
        for _ in range(6):
            run = subprocess.Popen([on.program, "relay", "-f", both.place.conf], stderr=subprocess.DEVNULL)
            time.sleep(on.random.uniform(0.01, 0.3))
            run.send_signal(signal.SIGKILL)
            run.wait(PATIENCE)
        both.relays_all(3)
        both.compare(copies=None)


def part_restart_refused(on: Trial) -> None:
    """A restart that is refused drops what is kept, and the next run sends the log anew."""
    with Both(on) as both:
        both.session(on.some_records(400), client.exited(SECOND))
        both.cutter.sent = 4000
        status, said = both.relay()
        same("status of the cut run", status, PENDING)
        both.cutter.sent = None
        both.far.kill()
        for digits in store.folders(both.far_place.store):
            shutil.rmtree(store.folder_of(both.far_place.store, digits))
        both.far.start()
        status, said = both.relay()
        if status == PENDING:
            if "no such log" not in said and "connection" not in said:
                raise Differs(f"the refusal isn't said: {said}")
            both.relays_all(3)
        both.compare()


def part_complete_already(on: Trial) -> None:
    """The other server has the log complete, and its last commit point was lost."""
    with Both(on) as both:
        both.session([(SECOND, "ttyout", b"abc"), (SECOND, "ttyout", b"def")], client.exited(SECOND))
        # the hello, the log_id and a point of the records are let through, and not that of the exit
        both.cutter.answered = 27
        for _ in range(2):
            both.relay()
        both.cutter.answered = None
        both.relays_all(4)
        both.compare(copies=None)


def is_cut_off(said: str) -> bool:
    """Whether a run says of each log that is left that its connection was cut off."""
    lines = [line for line in said.splitlines() if ": 0" in line and "it has no runargv" not in line]
    return bool(lines) and all(any(cause in line for cause in CUT_OFF) for line in lines)


def part_beside_a_server(on: Trial) -> None:
    """The relay runs again and again beside a server that stores sessions."""
    with Both(on) as both:
        stop = threading.Event()
        faults: list[str] = []

        def relays() -> None:
            """Runs the timer's command."""
            while not stop.is_set():
                status, said = both.relay()
                if status != 0:
                    faults.append(f"status {status}: {said}")
                time.sleep(0.01)

        runner = threading.Thread(target=relays)
        runner.start()
        for count in range(60):
            both.session(on.some_records(count), client.exited(SECOND))
        stop.set()
        runner.join()
        cut = [fault for fault in faults if is_cut_off(fault)]
        same("failed runs", [fault for fault in faults if fault not in cut], [])
        if cut:
            print(f"relay.py: beside a server {len(cut)} runs were cut off, and later ones went on: {cut}")
        if len(cut) > MOST_CUT:
            raise Differs(f"{len(cut)} runs were cut off")
        both.relays_all()
        both.compare()


def part_two_relays(on: Trial) -> None:
    """A second relay of a store is refused while one runs; a server isn't."""
    with Both(on) as both:
        both.session([(SECOND, "ttyout", b"x")], client.exited(SECOND))
        silent = Bad(b"")
        both.aim(silent.port)
        first = subprocess.Popen([on.program, "relay", "-f", both.place.conf], stderr=subprocess.PIPE)
        until("the first relay is connected", lambda: silent.links)
        status, said = both.relay()
        same("status of the second", status, STORE)
        if "another relay uses this store" not in said:
            raise Differs(f"the second says {said}")
        both.near.kill()
        both.near.start()
        silent.close()
        first.wait(PATIENCE)
        same("status of the first", first.returncode, PENDING)


def part_statuses(on: Trial) -> None:
    """What is said of settings without an upstream, of one that is down, and of one that is none."""
    with Both(on) as both:
        digits = both.session([(SECOND, "ttyout", b"x")], client.exited(SECOND))
        with open(both.place.conf, encoding="utf-8") as file:
            conf = file.read()
        for old, new in (("store_first = true", "store_first = false"), ("relay_host", "#relay_host")):
            with open(both.place.conf, "w", encoding="utf-8") as file:
                file.write(conf.replace(old, new))
            status, said = both.relay()
            same("status", status, NO_UPSTREAM)
            same("last line", said.splitlines()[-1], "sudo_logsrvd: no upstream")
        same("connections", both.cutter.count, 0)
        both.aim(servers.free_port())
        said_of(both, digits, "the connection could not be made")
        hello = client.frame(messages.server_hello("bad"))
        identifier = client.frame(messages.log_id("0000A7"))
        strange = client.frame(messages.commit_point(5 * SECOND))
        for answer, word in (
            (hello + identifier + strange, "commit point above what was sent (5.000000000 s)"),
            (hello + client.frame(messages.log_id("x" * 5000)), "an identifier of 5000 bytes"),
            (b"\x00\x20\x00\x01", "a message of 2097153 bytes"),
            (b"\x00\x00\x00\x01\xff", "malformed message"),
            (hello + client.frame(messages.error("go\x1b away")), "says \"go"),
        ):
            bad = Bad(answer)
            both.aim(bad.port)
            said_of(both, digits, word)
            bad.close()
        both.aim(both.cutter.port)
        both.relays_all(3)
        both.compare()


def said_of(both: Both, digits: str, word: str) -> None:
    """A run says this of the log, and that it is pending."""
    status, said = both.relay()
    same(f"status at {word}", status, PENDING)
    lines = said.splitlines()
    if not any(digits in line and word in line for line in lines):
        raise Differs(f"{word} isn't said: {said}")
    same("last line", lines[-1], "sudo_logsrvd: 1 logs pending")
    if any(byte < 32 for byte in "".join(lines).encode()):
        raise Differs(f"control bytes are printed: {said!r}")


def part_no_store(on: Trial) -> None:
    """A folder that is no store is refused, and nothing is made in it."""
    with Both(on) as both:
        both.near.kill()
        shutil.rmtree(both.place.store)
        status, said = both.relay()
        same("status", status, STORE)
        if "no such folder" not in said or os.path.exists(both.place.store):
            raise Differs(f"{said}")
        os.mkdir(both.place.store)
        status, said = both.relay()
        same("status", status, STORE)
        same("files", os.listdir(both.place.store), [])


def part_lock_of_another(on: Trial) -> None:
    """A relay.lock that can't be opened is named, and nothing is connected to."""
    with Both(on) as both:
        both.session([(SECOND, "ttyout", b"x")], client.exited(SECOND))
        lock = os.path.join(both.place.store, "relay.lock")
        os.mkdir(lock)
        status, said = both.relay()
        same("status", status, STORE)
        if "relay.lock: " not in said or "let that user own relay.lock" not in said:
            raise Differs(said)
        same("connections", both.cutter.count, 0)
        os.rmdir(lock)
        both.relays_all(1)


def part_absent(on: Trial) -> None:
    """Numbers without a folder cost nothing: of removed logs, or up to a last number that is far too high."""
    with Both(on) as both:
        records = [(SECOND, "ttyout", b"x")]
        first, second = [both.session(records, client.exited(SECOND)) for _ in range(2)]
        both.near.kill()
        shutil.rmtree(store.folder_of(both.place.store, first))
        high, last = 36**5 + 7, 36**6 - 1
        copy = store.folder_of(both.place.store, store.digits_of(high))
        shutil.copytree(store.folder_of(both.place.store, second), copy)
        write_numbers(both.place.store, last)
        began = time.monotonic()
        status, said = both.relay()
        took = time.monotonic() - began
        same("status", (status, "pending" in said), (0, False))
        same("logs at the other server", len(both.far_sessions()), 2)
        if took > 60:
            raise Differs(f"a run over {last} numbers took {took:.1f} s")


def part_damaged(on: Trial) -> None:
    """A damaged log and a damaged relaying are said, and the other logs are relayed."""
    with Both(on) as both:
        first, second, third = [both.session([(SECOND, "ttyout", b"x" * n)], client.exited(SECOND)) for n in (1, 2, 3)]
        os.truncate(os.path.join(store.folder_of(both.place.store, first), "ttyout"), 0)
        both.cutter.answered = 40
        both.relay()
        both.cutter.answered = None
        folder = store.folder_of(both.place.store, second)
        if os.path.exists(os.path.join(folder, "relay")):
            os.truncate(os.path.join(folder, "relay"), 0)
        status, said = both.relay()
        same("status", status, PENDING)
        for word in (f"{first}: ttyout is damaged", f"{second}: what is kept of its relaying is damaged"):
            if word not in said:
                raise Differs(said)
        for name in ("relay", "relay.slots", "relay.commit"):
            if os.path.exists(os.path.join(folder, name)):
                os.remove(os.path.join(folder, name))
        # the other server may have the third, though its answer was cut: a run hears that, the next one sends it anew
        for _ in range(2):
            status, said = both.relay()
        if second in said or third in said:
            raise Differs(f"the second and the third aren't relayed: {said}")
        same("last line", said.splitlines()[-1], "sudo_logsrvd: 1 logs pending")


def part_journal_gone(on: Trial) -> None:
    """A log whose journal is gone or has no entry is named, and the other logs are relayed with status 0."""
    with Both(on) as both:
        first, second, third = [both.session([(SECOND, "ttyout", b"x" * n)], client.exited(SECOND)) for n in (1, 2, 3)]
        os.remove(os.path.join(store.folder_of(both.place.store, first), "slots"))
        os.truncate(os.path.join(store.folder_of(both.place.store, second), "slots"), 0)
        status, said = both.relay()
        same("status", status, 0)
        for word in (f"{first}: its journal, slots, is gone", f"{second}: its journal, slots, has no entry"):
            if word not in said:
                raise Differs(said)
        if third in said:
            raise Differs(f"the third isn't relayed: {said}")
        same("connections", both.cutter.count, 1)


# ---- to sudo's own server


@needs_sudo
def part_sudo_whole(on: Trial) -> None:
    """Sessions arrive at sudo's own server as they were stored."""
    with Both(on, "sudo") as both:
        both.session([], client.exited(SECOND))
        both.session([(SECOND, "ttyout", b"x"), (0, "ttyout", b"y")], client.exited(2 * SECOND, 3))
        both.session(on.some_records(3000), client.exited(SECOND))
        both.relays_all()
        both.compare()
        replays_alike(on, both)


@needs_sudo
def part_sudo_cut_and_killed(on: Trial) -> None:
    """Connections to sudo's own server are cut, and it is killed and started again."""
    with Both(on, "sudo") as both:
        both.session(on.some_records(2000), client.exited(SECOND))
        for _ in range(3):
            both.cutter.sent = on.random.randrange(200, 30_000)
            both.relay()
        both.cutter.sent = None
        both.far.kill()
        both.far.start()
        both.relays_all(4)
        both.compare(copies=None)


@needs_sudo
def part_sudo_complete_already(on: Trial) -> None:
    """sudo's own server has the log complete: the refused restart drops what is kept, and the log is sent anew."""
    with Both(on, "sudo") as both:
        both.session([(SECOND, "ttyout", b"abc")], client.exited(SECOND))
        both.cutter.answered = 60
        for _ in range(2):
            both.relay()
        both.cutter.answered = None
        both.relays_all(6)
        both.compare(copies=None)


def replays_alike(on: Trial, both: Both) -> None:
    """sudo's sudoreplay shows of its server's logs what ours shows of ours. A log without records is none to it."""
    theirs, ours = servers.tool("sudoreplay"), on.replay
    if not theirs or not ours:
        return
    shown = [subprocess.run([ours, "-d", both.place.store, "-s", "1000", "-m", "0", log.digits], capture_output=True,
        check=True).stdout for log in both.mine()]
    far = [subprocess.run([theirs, "-n", "-d", both.far_place.store, "-s", "1000", "-m", "0", digits],
        capture_output=True, stdin=subprocess.DEVNULL, check=False).stdout
        for digits in store.folders(both.far_place.store)]
    for one in shown:
        if not any(one in other for other in far):
            raise Differs("sudo's sudoreplay shows other bytes than ours")


PARTS: list[tuple[str, Part]] = [(name[5:], part) for name, part in list(globals().items()) if name.startswith("part_")]


def main() -> int:
    """Tries all parts."""
    words = argparse.ArgumentParser(description=__doc__, formatter_class=argparse.RawDescriptionHelpFormatter)
    words.add_argument("--server", required=True)
    words.add_argument("--replay")
    words.add_argument("--only", default="")
    words.add_argument("--seed", type=int, default=random.randrange(10**6))
    words.add_argument("--cuts", type=int, default=25)
    args = words.parse_args()
    count, differ, skipped = 0, 0, 0
    for name, part in PARTS:
        if args.only not in name:
            continue
        if getattr(part, "needs_sudo", False) and not servers.tool("sudo_logsrvd"):
            skipped += 1
            continue
        count += 1
        try:
            replay = args.replay and os.path.realpath(args.replay)
            part(Trial(os.path.realpath(args.server), replay, args.seed, args.cuts))
        except (Differs, store.Damaged, TimeoutError, subprocess.TimeoutExpired, servers.Failed) as fault:
            differ += 1
            print(f"{name}: {str(fault) or type(fault).__name__}", flush=True)
        except Exception:  # pylint: disable=broad-except
            differ += 1
            print(f"{name}: {traceback.format_exc()}", flush=True)
    more = f"; {skipped} skipped, without sudo's own server (Debian's package sudo)" if skipped else ""
    print(f"relay.py: {count} tried, {differ} differ, seed {args.seed}{more}")
    return 1 if differ else 0


if __name__ == "__main__":
    sys.exit(main())
