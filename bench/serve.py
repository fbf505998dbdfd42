#!/usr/bin/env python3
"""Measures `sudo_logsrvd serve` beside sudo's own server, interleaved in one run, on /dev/shm and on disk.

usage: serve.py PROGRAM [--peer PEER] [--disk FOLDER] [--share S] [--only WORD]

PEER is by default the sudo_logsrvd of Debian's package sudo, which never syncs; where it isn't installed, and no
WORD is given, nothing is measured. Each figure is the least of some runs, and behind it stands that of the peer and
the ratio of both. Processor time is that of the server alone, without its start. S makes the loads smaller (0.01),
to try the script. WORD is one of loads, memory, commits and load, or peer, which measures the peer alone.
"""
from __future__ import annotations

import argparse
import os
import selectors
import shutil
import socket
import subprocess
import sys
import tempfile
import threading
import time
from collections.abc import Callable, Iterable, Sequence

import at_root
from interop import client, servers
from oracle.records import SECOND

INFO = {"command": "/bin/ls", "runargv": ["ls", "-l"], "runuser": "root", "submituser": "ann", "submithost": "web1",
    "submitcwd": "/", "ttyname": "/dev/pts/1", "lines": 24, "columns": 80}
RUNS = 3
SYNCS = 4


def conversation(count: int, size: int) -> bytes:
    """The client's bytes of a whole session with so many records of so many bytes."""
    record = client.record((1000, "ttyout", b"x" * size))
    return client.hello() + client.accept(1_700_000_000 * SECOND, INFO) + record * count + client.exited(count * 1000)


class Crowd:
    """Connections that are served at the same time; each sends its bytes and reads until the server ends it."""

    def __init__(self, port: int, texts: Iterable[bytes], most: int) -> None:
        """At most so many connections at the same time, each with one of the texts."""
        self.port, self.texts, self.most = port, iter(texts), most
        self.poll, self.open, self.over = selectors.DefaultSelector(), 0, 0
        self.bytes = 0

    def more(self) -> None:
        """Opens connections up to the greatest number."""
        while self.open < self.most:
            text = next(self.texts, None)
            if text is None:
                return
            link = socket.create_connection(("127.0.0.1", self.port))
            link.setblocking(False)
            self.poll.register(link, selectors.EVENT_READ | selectors.EVENT_WRITE, [memoryview(text), b""])
            self.open += 1

    def run(self) -> int:
        """Serves all texts. Gives how many sessions are over."""
        self.more()
        while self.open:
            for key, events in self.poll.select(30):
                if events & selectors.EVENT_WRITE:
                    self.write(key)
                if events & selectors.EVENT_READ:
                    self.read(key)
        return self.over

    def write(self, key: selectors.SelectorKey) -> None:
        """Sends more of a text."""
        sent = key.fileobj.send(key.data[0])
        key.data[0] = key.data[0][sent:]
        if not key.data[0]:
            self.poll.modify(key.fileobj, selectors.EVENT_READ, key.data)

    def read(self, key: selectors.SelectorKey) -> None:
        """Reads answers, and ends what is over."""
        piece = key.fileobj.recv(65536)
        self.bytes += len(piece)
        if piece:
            key.data[1] = (key.data[1] + piece)[-200:]
            return
        self.poll.unregister(key.fileobj)
        key.fileobj.close()
        self.open -= 1
        self.over += 1
        # the last message is the commit point of the exit
        if b"\x12" not in key.data[1][-14:]:
            sys.exit(f"bench: a session has ended with {key.data[1]!r}")
        self.more()


class Side:
    """One of the two servers."""

    def __init__(self, program: str, kind: type[servers.Serve]) -> None:
        """A program, and how it is run."""
        self.program, self.kind = program, kind
        self.idle = None

    def place(self, parent: str) -> servers.Place:
        """The folder of a server, with its settings."""
        return servers.Place(servers.SUDO if self.kind is servers.Sudo else servers.OURS, parent)

    def served(self, parent: str, texts: Sequence[bytes], most: int) -> tuple[float, float]:
        """Processor and wall seconds of a server that serves these sessions, and no more."""
        place = self.place(parent)
        server = self.kind(self.program, place).start()
        begin = time.monotonic()
        Crowd(place.port, texts, most).run()
        wall = time.monotonic() - begin
        used = server.stop()
        # a mass delete on a disk makes the next files slow
        if parent == "/dev/shm":
            shutil.rmtree(place.folder)
        return used, wall

    def start_time(self) -> float:
        """Processor seconds of a start and an end."""
        if self.idle is None:
            self.idle = min(self.served("/dev/shm", [], 1)[0] for _ in range(RUNS))
        return self.idle


def interleaved(sides: Sequence[Side], measure: Callable[[Side], tuple[float, ...]]) -> list[tuple[float, ...]]:
    """The least results of some runs of each side, one after the other."""
    results = [[] for _ in sides]
    for _ in range(RUNS):
        for kept, side in zip(results, sides):
            kept.append(measure(side))
    return [tuple(map(min, zip(*kept))) for kept in results]


def show(name: str, unit: str, figures: Sequence[float]) -> None:
    """Prints the figure of each side, and the ratio of the first to the second."""
    text = " to ".join(f"{it:.3g}" for it in figures)
    ratio = f", ratio {figures[0] / figures[1]:.2f}" if len(figures) == 2 and figures[1] else ""
    print(f"{name}: {text}{' ' * bool(unit)}{unit}{ratio}", flush=True)


def measure_loads(sides: Sequence[Side], places: Sequence[tuple[str, str]], share: float) -> None:
    """Records and logs, in memory and on disk."""
    loads = [
        ("a record of 10 bytes, 8 connections", 8, 8, int(25_000 * share), 10, "records"),
        ("a record of 1,000 bytes, 8 connections", 8, 8, int(2_500 * share), 1_000, "records"),
        ("a log of 3 records, 64 connections", int(2_000 * share) + 64, 64, 3, 10, "logs"),
    ]
    for place, where in places:
        for name, sessions, most, count, size, what in loads:
            text = conversation(count, size)
            number = sessions * (count if what == "records" else 1)
            results = interleaved(sides, lambda side: side.served(place, [text] * sessions, most))
            show(f"{name}, {where}, processor time", "us",
                [max(0, used - side.start_time()) / number * 1e6 for (used, _), side in zip(results, sides)])
            show(f"{name}, {where}, {what} a second", "", [number / wall for _, wall in results])


def memory(process: subprocess.Popen[bytes], key: str) -> int:
    """A line of a process' status, in bytes."""
    with open(f"/proc/{process.pid}/status", encoding="ascii") as file:
        return next(int(line.split()[1]) * 1024 for line in file if line.startswith(key))


def measure_memory(sides: Sequence[Side], share: float) -> None:
    """Peak with 64 open sessions, and what is added from the first logs to the last."""
    peaks, grown = [], []
    for side in sides:
        place = side.place("/dev/shm")
        server = side.kind(side.program, place).start()
        links = [client.connect(place.port) for _ in range(64)]
        for link in links:
            link.send(client.hello(), client.accept(5 * SECOND, INFO),
                *[client.record((1000, "ttyout", b"0123456789"))] * 100)
        for link in links:
            while link.read()[0] != "log_id":
                pass
        time.sleep(1)
        peaks.append(memory(server.process, "VmHWM") / 2**20)
        for link in links:
            link.close()
        logs = int(10_000 * share)
        Crowd(place.port, [conversation(3, 10)] * (logs // 10), 64).run()
        first = memory(server.process, "VmRSS")
        Crowd(place.port, [conversation(3, 10)] * logs, 64).run()
        grown.append((memory(server.process, "VmRSS") - first) / 2**20)
        server.stop()
        shutil.rmtree(place.folder)
    show("peak of memory with 64 open sessions", "MiB", peaks)
    show(f"memory added over {logs} logs", "MiB", grown)


def measure_hostile(side: Side) -> None:
    """Peak while 128 clients send accepts of 2 MiB with some 350,000 empty entries at once."""
    place = side.place("/dev/shm")
    server = side.kind(side.program, place).start()
    links = [client.connect(place.port) for _ in range(128)]
    frame = client.hostile()
    threads = [threading.Thread(target=link.send, args=(frame,)) for link in links]
    for thread in threads:
        thread.start()
    for link in links:
        while link.read()[0] != "error":
            pass
    for thread in threads:
        thread.join()
    show("peak of memory with 128 clients that send accepts of 350,000 empty entries", "MiB",
        [memory(server.process, "VmHWM") / 2**20])
    for link in links:
        link.close()
    server.stop()
    shutil.rmtree(place.folder)


def syncs_alone(folder: str, times: int, logs: int) -> float:
    """How often a second two data files and twice the journal can be written and synced, of so many logs in turn."""
    files = []
    for log in range(logs):
        place = tempfile.mkdtemp(dir=folder)
        files.append([os.open(os.path.join(place, name), os.O_RDWR | os.O_CREAT, 0o600) for name in ("timing", "ttyout",
            "slots")])
        for file in files[-1]:
            os.pwrite(file, b"x" * 200, 0)
            os.fsync(file)
    begin = time.monotonic()
    for number in range(times):
        timing, ttyout, slots = files[number % logs]
        turn = number // logs
        os.pwrite(timing, b"4 0.000001000 10\n", 200 + 17 * turn)
        os.pwrite(ttyout, b"0123456789", 200 + 10 * turn)
        os.fdatasync(timing)
        os.fdatasync(ttyout)
        os.pwrite(slots, b"x" * 89, 2 + 89 * (turn % 2))
        os.fdatasync(slots)
        os.pwrite(slots, bytes([turn % 2]), 1)
        os.fdatasync(slots)
    took = time.monotonic() - begin
    for file in (file for those in files for file in those):
        os.close(file)
    return times / took


def commits(side: Side, folder: str, connections: int, seconds: float) -> float:
    """Commit points a second, where each connection sends a record once it has the commit point of the one before."""
    place = side.place(folder)
    server = side.kind(side.program, place).start()
    record = client.record((1000, "ttyout", b"0123456789"))
    links = [client.connect(place.port) for _ in range(connections)]
    poll, count = selectors.DefaultSelector(), 0
    for link in links:
        link.send(client.hello(), client.accept(5 * SECOND, INFO))
        poll.register(link.link, selectors.EVENT_READ, link)
    # the making of the logs isn't measured
    for link in links:
        while link.read()[0] != "log_id":
            pass
    for link in links:
        link.send(record)
    begin = time.monotonic()
    while time.monotonic() < begin + seconds:
        for key, _ in poll.select(1):
            points = sum(name == "commit_point" for name, _ in key.data.waiting())
            count += points
            if points:
                key.data.send(record)
    took = time.monotonic() - begin
    for link in links:
        link.close()
    server.stop()
    return count / took


def measure_commits(ours: Side, folder: str, share: float) -> None:
    """Beside their writes and syncs alone, since the peer's commit points come by a timer and synced by nobody."""
    for connections in (1, 64):
        alone, made = [], []
        for _ in range(RUNS):
            alone.append(syncs_alone(folder, int(2_000 * share) + 10, connections))
            made.append(commits(ours, folder, connections, 2 * share + 0.5))
        what = f"{connections} {'connection' if connections == 1 else 'connections'}"
        rate = f"{max(made) / max(alone):.2f} of the rate of their {SYNCS} writes and syncs alone"
        print(f"commit points a second on disk, {what}: {max(made):.0f}, {rate}, {max(alone):.0f} a second", flush=True)


def load_time(program: str, count: int) -> float | None:
    """Processor seconds a log of `load`."""
    place = servers.Place(parent="/dev/shm")
    with open(place.errors, "wb") as errors:
        child = subprocess.Popen([program, "load", "-f", place.conf, str(count)], stdout=subprocess.DEVNULL,
            stderr=errors)
    _, status, usage = os.wait4(child.pid, 0)
    child.returncode = status
    if status != 0:
        print(f"load: status {os.waitstatus_to_exitcode(status)}: {place.said()[-200:]}")
        return None
    shutil.rmtree(place.folder)
    return (usage.ru_utime + usage.ru_stime) / count


def measure_linear(program: str) -> None:
    """The load's time a log, of few and of many."""
    times = {}
    for _ in range(RUNS):
        for count in (1_000, 10_000):
            used = load_time(program, count)
            if used is None:
                return
            times[count] = min(used, times.get(count, used))
    ratio = times[10_000] / times[1_000]
    print(f"load 10000: {times[10_000] * 1e6:.1f} us a log, {ratio:.3f} times that of load 1000 (at most 1.05)")


def main() -> None:
    """All measures that are asked for."""
    words = argparse.ArgumentParser(description=__doc__, formatter_class=argparse.RawDescriptionHelpFormatter)
    words.add_argument("program")
    words.add_argument("--peer", default=servers.tool("sudo_logsrvd"))
    words.add_argument("--disk", default=".")
    words.add_argument("--share", type=float, default=1.0)
    words.add_argument("--only", default="")
    args = words.parse_args()
    if not args.peer and not args.only:
        print("bench: serve skipped: sudo's own sudo_logsrvd (Debian's package sudo) isn't there to stand beside it")
        return
    ours = Side(os.path.realpath(args.program), servers.Serve)
    peer = Side(args.peer, servers.Sudo) if args.peer else None
    folder = tempfile.mkdtemp(prefix="bench", dir=args.disk)
    sides = [side for side in (None if args.only == "peer" else ours, peer) if side]
    if not peer:
        print("bench: sudo's own sudo_logsrvd isn't there, so nothing stands beside these figures")
    if args.only in ("", "peer", "loads"):
        measure_loads(sides, [("/dev/shm", "/dev/shm"), (os.path.abspath(folder), "disk")], args.share)
    if args.only in ("", "peer", "memory"):
        measure_memory(sides, args.share)
    if args.only in ("", "memory"):
        measure_hostile(ours)
    if args.only in ("", "commits"):
        measure_commits(ours, os.path.abspath(folder), args.share)
    if args.only in ("", "load"):
        measure_linear(ours.program)
    shutil.rmtree(folder)


if __name__ == "__main__":
    main()
