#!/usr/bin/env python3
"""Measures how long a new client waits while other clients keep the server busy, and fails if one isn't served.

usage: fair.py --server PROGRAM [--lanes N] [--long] [--sudo] [--syncs] [--disk FOLDER] [--only WORD]

The crowds: nobody; 1, 4 and 16 clients that send records without a pause, of 10 and of 1,000 bytes; clients that connect and
leave without a pause; 127 clients that say nothing. Beside each, new clients come one after another. Each waits for the
server's hello, sends an accept and waits for its log identifier, and then sends single records and waits for the commit point of
each. The store is on a disk (--disk, by default the folder of temporary files) and on /dev/shm. The table shows, in milliseconds,
the middle and the greatest of these times, the records that the crowd had committed in each second, the share of the crowd's
slowest client of what each would have if all were served alike, and the server's processor time for a record in microseconds.

--long takes more crowds and more time; --sudo measures sudo's own server beside it, whose records are counted as they are sent,
since it commits every ten seconds alone; --syncs runs the server under strace, and shows of each time what is left without the
syncs within it; --only takes the crowds whose name has this word. It ends with 1 if a wait was longer than a minute.
"""
import argparse
import bisect
import multiprocessing
import os
import selectors
import shlex
import shutil
import socket
import statistics
import struct
import sys
import tempfile
import time

import client
import servers

SECOND = 10**9
# the longest wait of a new client, in seconds: longer than a busy machine with a slow disk takes, since it says whether one
# is served at all, and the table says how soon
MOST = 60.0
# the delay of each record of a crowd, in nanoseconds: a commit point tells how many were committed
DELAY = 1000
INFO = {"command": "/bin/sh", "runuser": "root", "submituser": "crowd", "submithost": "here", "runargv": ["sh"], "ttyname": "/dev/pts/1"}
SHM = "/dev/shm"


def accepted():
    return client.hello() + client.accept(time.time_ns(), INFO)


# ---- crowds

class Sender:
    """A client that sends records without a pause, and reads what the server says."""

    def __init__(self, port, size):
        self.link = socket.create_connection(("127.0.0.1", port), timeout=MOST)
        self.link.setblocking(False)
        record = client.record((DELAY, "ttyout", b"x" * size))
        self.block = record * max(1, 256 * 1024 // len(record))
        self.length = len(record)
        self.rest = memoryview(accepted())
        self.frames = client.Frames()
        self.sent = 0
        self.committed = 0

    def send(self):
        try:
            while True:
                if not self.rest:
                    self.rest = memoryview(self.block)
                count = self.link.send(self.rest)
                self.sent += count
                self.rest = self.rest[count:]
        except BlockingIOError:
            pass

    def hear(self):
        try:
            piece = self.link.recv(65536)
        except BlockingIOError:
            return True
        points = [point for name, point in map(client.read_server, self.frames.feed(piece)) if name == "commit_point"]
        self.committed = points[-1] // DELAY if points else self.committed
        return bool(piece)


def send_all(port, size, committed, sent, first, count):
    """A process of a crowd: some of its senders, until it is ended."""
    selector = selectors.DefaultSelector()
    for place in range(first, first + count):
        sender = Sender(port, size)
        selector.register(sender.link, selectors.EVENT_READ | selectors.EVENT_WRITE, (place, sender))
    while True:
        for key, events in selector.select(1):
            place, sender = key.data
            if events & selectors.EVENT_READ and not sender.hear():
                selector.unregister(sender.link)
                continue
            if events & selectors.EVENT_WRITE:
                sender.send()
            committed[place], sent[place] = sender.committed, sender.sent // sender.length


def come_and_go(port):
    """A process of a crowd: connects and leaves, until it is ended."""
    while True:
        with socket.socket() as link:
            link.setsockopt(socket.SOL_SOCKET, socket.SO_LINGER, struct.pack("ii", 1, 0))
            try:
                link.connect(("127.0.0.1", port))
            except OSError:
                time.sleep(0.001)


class Crowd:
    """Clients that keep a server busy."""

    def __init__(self, senders=0, size=0, comers=0, idle=0):
        self.senders, self.size, self.comers, self.idle = senders, size, comers, idle
        self.processes, self.links = [], []
        self.committed = multiprocessing.Array("Q", max(1, senders), lock=False)
        self.sent = multiprocessing.Array("Q", max(1, senders), lock=False)

    def name(self):
        if self.senders:
            return f"{self.senders} x {self.size} bytes"
        return f"{self.comers} come and go" if self.comers else f"{self.idle} idle" if self.idle else "nobody"

    def start(self, port):
        parts = min(2, self.senders)
        for part in range(parts):
            first, end = self.senders * part // parts, self.senders * (part + 1) // parts
            self.run(send_all, port, self.size, self.committed, self.sent, first, end - first)
        for _ in range(self.comers):
            self.run(come_and_go, port)
        self.links = [client.connect(port) for _ in range(self.idle)]
        for link in self.links:
            link.read()

    def run(self, what, *words):
        process = multiprocessing.Process(target=what, args=words, daemon=True)
        process.start()
        self.processes.append(process)

    def counts(self, commits):
        return list(self.committed if commits else self.sent)

    def end(self):
        for process in self.processes:
            process.kill()
            process.join()
        for link in self.links:
            link.close()


# ---- new clients

def waited(link, wanted):
    """Reads until a message of this kind comes, for MOST seconds at most."""
    end = time.monotonic() + MOST
    while link.read()[0] != wanted:
        if time.monotonic() > end:
            raise TimeoutError


def greeted(port):
    """A new client's connection, whose hello came. While a crowd has all places it is refused, or reset, and tries again."""
    end = time.monotonic() + MOST
    while True:
        try:
            link = client.connect(port, MOST)
            waited(link, "hello")
            return link
        except (ConnectionRefusedError, ConnectionResetError, client.Closed):
            if time.monotonic() > end:
                raise TimeoutError from None
        time.sleep(0.001)


class Times:
    """How long new clients waited, in milliseconds. A wait that was given up counts as endless."""

    KINDS = ("hello", "identifier", "commit point")

    def __init__(self):
        self.of = {kind: [] for kind in self.KINDS}
        # when each ended, by the clock of the day
        self.ends = {kind: [] for kind in self.KINDS}

    def of_one(self, port, records, commits):
        """A new client: a hello, an accept, records one by one, and an exit."""
        kind, began = "hello", time.monotonic()
        try:
            link = greeted(port)
            kind = self.note(kind, began, "identifier")
            link.send(accepted())
            waited(link, "log_id")
            kind = self.note(kind, began, "commit point")
            for number in range(records if commits else 0):
                began = time.monotonic()
                link.send(client.record((SECOND, "ttyout", b"%d" % number)))
                waited(link, "commit_point")
                self.note(kind, began, kind)
            link.send(client.exited(SECOND))
            if commits:
                # the place among the 128 links is free again once the server has ended this one
                link.rest()
            link.close()
        except (TimeoutError, client.Closed, OSError):
            self.of[kind].append(float("inf"))

    def note(self, kind, began, then):
        self.of[kind].append((time.monotonic() - began) * 1000)
        self.ends[kind].append(time.time())
        return then

    def without(self, syncs):
        """The same times, without the syncs within them."""
        times = Times()
        for kind in self.KINDS:
            for wait, end in zip(self.of[kind], self.ends[kind]):
                times.of[kind].append(wait - 1000 * syncs.within(end - wait / 1000, end))
        return times

    def worst(self):
        return max((it for times in self.of.values() for it in times), default=0)

    def shown(self):
        return [f"{statistics.median(self.of[kind]):.1f} {max(self.of[kind]):.1f}" if self.of[kind] else "-" for kind in self.KINDS]


# ---- syncs

class Syncs:
    """When the server waited for a sync, by strace."""

    WORDS = ["strace", "-D", "-f", "--seccomp-bpf", "-qq", "-ttt", "-T", "-e", "trace=fsync,fdatasync", "-o"]

    def __init__(self, folder, program):
        self.path = os.path.join(folder, "syncs")
        self.program = os.path.join(folder, "program")
        with open(self.program, "w", encoding="utf-8") as file:
            file.write(f'#!/bin/sh\nexec {shlex.join([*self.WORDS, self.path, program])} "$@"\n')
        os.chmod(self.program, 0o755)
        self.starts, self.spans = [], []

    def read(self):
        with open(self.path, encoding="utf-8") as file:
            for line in file:
                parts = line.split()
                if parts[-1][0] == "<" and "sync(" in line:
                    start = float(parts[1])
                    self.starts.append(start)
                    self.spans.append((start, start + float(parts[-1][1:-1])))
        return self

    def within(self, start, end):
        """How many seconds of a time were of syncs."""
        first = max(0, bisect.bisect_left(self.starts, start) - 1)
        total = 0.0
        for begins, ends in self.spans[first:bisect.bisect_right(self.starts, end)]:
            total += max(0.0, min(ends, end) - max(begins, start))
        return total


# ---- a measure

def processor_seconds(pid):
    with open(f"/proc/{pid}/stat", encoding="utf-8") as file:
        parts = file.read().rpartition(")")[2].split()
    return (int(parts[11]) + int(parts[12])) / os.sysconf("SC_CLK_TCK")


class Measure:
    """A crowd at a server over a store of its own, and new clients beside it."""

    def __init__(self, kind, program, parent, traces=False, further=()):
        self.kind, self.program, self.parent, self.traces, self.further = kind, program, parent, traces, further
        self.commits = kind is servers.Serve
        self.without = None

    def take(self, crowd, seconds, news, records):
        place = servers.Place(servers.OURS if self.commits else servers.SUDO, parent=self.parent)
        syncs = Syncs(place.folder, self.program) if self.traces else None
        server = self.kind(syncs.program if syncs else self.program, place, self.further).start()
        times = Times()
        try:
            crowd.start(server.port)
            time.sleep(0.5)
            rate = self.rate(crowd, server.process.pid, seconds) if crowd.senders else ["-"] * 3
            for _ in range(news):
                times.of_one(server.port, records, self.commits)
                if times.worst() > MOST * 1000:
                    break
            if server.has_ended():
                raise servers.Failed(f"the server has ended: {place.said()[-500:]}")
        finally:
            crowd.end()
            if not server.has_ended():
                server.stop()
            if syncs:
                time.sleep(0.2)
                self.without = times.without(syncs.read())
            shutil.rmtree(place.folder, ignore_errors=True)
        return times, rate

    def rate(self, crowd, pid, seconds):
        """Records each second, the share of the slowest, and processor time for a record, while no new client comes."""
        before, began, used = crowd.counts(self.commits), time.monotonic(), processor_seconds(pid)
        time.sleep(seconds)
        counts = [b - a for a, b in zip(before, crowd.counts(self.commits))]
        took, used, total = time.monotonic() - began, processor_seconds(pid) - used, sum(counts)
        return [f"{total / took:,.0f}", f"{min(counts) * len(counts) / total:.2f}", f"{used * 1e6 / total:.2f}"] if total else ["0", "-", "-"]


def crowds(is_long):
    if is_long:
        senders = [Crowd(senders=count, size=size) for size in (10, 1000) for count in (1, 4, 16)]
        return [Crowd(), *senders, Crowd(comers=1), Crowd(comers=4), Crowd(idle=127)]
    return [Crowd(), Crowd(senders=1, size=1000), Crowd(senders=4, size=10), Crowd(senders=16, size=1000), Crowd(comers=1), Crowd(idle=127)]


def row(*parts):
    print("{:<9} {:<6} {:<16} {:>15} {:>15} {:>15} {:>12} {:>6} {:>9}".format(*parts), flush=True)


def main():
    words = argparse.ArgumentParser(description=__doc__, formatter_class=argparse.RawDescriptionHelpFormatter)
    words.add_argument("--server", required=True)
    words.add_argument("--lanes", type=int, default=1)
    words.add_argument("--long", action="store_true")
    words.add_argument("--sudo", action="store_true")
    words.add_argument("--syncs", action="store_true")
    words.add_argument("--disk", default=tempfile.gettempdir())
    words.add_argument("--only", default="")
    args = words.parse_args()
    kinds = [("ours", servers.Serve, os.path.realpath(args.server))]
    if args.sudo and servers.tool("sudo_logsrvd"):
        kinds.append(("sudo's", servers.Sudo, servers.tool("sudo_logsrvd")))
    seconds, news, records = (3, 20, 10) if args.long else (0.5, 5, 3)
    row("server", "store", "crowd", *(f"{kind}, ms" for kind in Times.KINDS), "records/s", "least", "us/record")
    slow = 0
    for store, parent in [("disk", args.disk)] + ([("shm", SHM)] if os.access(SHM, os.W_OK) else []):
        for name, kind, program in kinds:
            for crowd in crowds(args.long):
                if args.only not in crowd.name():
                    continue
                measure = Measure(kind, program, parent, args.syncs and name == "ours", ["--lanes", str(args.lanes)] if name == "ours" else ())
                times, rate = measure.take(crowd, seconds, news, records)
                row(name, store, crowd.name(), *times.shown(), *rate)
                if measure.without:
                    row("", "", "without syncs", *measure.without.shown(), "", "", "")
                slow += name == "ours" and times.worst() > MOST * 1000
    print(f"fair.py: {slow} crowds kept a new client waiting for more than {MOST:.0f} seconds")
    return 1 if slow else 0


if __name__ == "__main__":
    sys.exit(main())
