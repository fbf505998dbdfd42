#!/usr/bin/env python3
"""Counts how many turns a client waits while other clients send records without a pause, and fails if it waits for
too many.

usage: turns.py --server PROGRAM [--senders N] [--lanes N] [--records N] [--tries N] [--most N] [--delay MS]

Each run has some senders, and one client: it sends an accept and single records, and waits for each answer. Every sync
of the server takes longer by --delay milliseconds (strace), so that neither the disk nor other programs decide how
long a turn takes. A sender of the client's lane gets one commit point at most in each turn: a turn is counted where
one gets its next. So what is shown is the least number of turns that passed between a message and its answer.
By default 1, 4 and 16 senders are tried at 1 and at 4 lanes.

A machine that keeps the client or the senders from their processor makes a wait look longer than it was, the more so
the shorter a turn is. So a run with a wait of more than --most turns is repeated with syncs that take twice as long,
up to LONGEST milliseconds more. It ends with 1 if each of --tries runs has one.
"""
from __future__ import annotations

import argparse
import multiprocessing
import os
import queue
import selectors
import shlex
import shutil
import statistics
import sys
import time

import client
import fair
import servers
from oracle.connection import PATIENCE
from oracle.waits import until

SECOND = 10**9
LONGEST = 128


class Counter:
    """Turns between two moments, by the commit points that the senders of a lane got."""

    def __init__(self, points: list[tuple[float, int]]) -> None:
        """`points` are moments and senders' places, in the order of the moments."""
        self.points = sorted(points)

    def within(self, start: float, end: float) -> int:
        """At least this many turns ended between two moments, the last one included."""
        turns, seen = 1, set()
        for moment, place in self.points:
            if start < moment < end:
                if place in seen:
                    turns, seen = turns + 1, set()
                seen.add(place)
        return turns


class Shared:
    """What the processes of senders share with the client."""

    def __init__(self, senders: int) -> None:
        """None has a commit point yet, and none is to end."""
        self.busy = multiprocessing.Array("b", senders, lock=False)
        self.over = multiprocessing.Event()
        self.results: multiprocessing.Queue = multiprocessing.Queue()


def send_all(port: int, first: int, count: int, shared: Shared) -> None:
    """A process of some senders: gives of each its place, its log's number and when it got commit points."""
    selector = selectors.DefaultSelector()
    senders = [fair.Sender(port, 10) for _ in range(count)]
    moments: list[list[float]] = [[] for _ in senders]
    names: list[str] = [""] * count
    for place, sender in enumerate(senders):
        selector.register(sender.link, selectors.EVENT_READ | selectors.EVENT_WRITE, (place, sender))
    while not shared.over.is_set():
        for key, events in selector.select(0.1):
            place, sender = key.data
            if events & selectors.EVENT_READ:
                try:
                    piece = sender.link.recv(65536)
                except BlockingIOError:
                    continue
                now = time.monotonic()
                if not piece:
                    selector.unregister(sender.link)
                    continue
                for name, value in map(client.read_server, sender.frames.feed(piece)):
                    if name == "commit_point":
                        shared.busy[first + place] = 1
                        moments[place].append(now)
                    elif name == "log_id":
                        names[place] = value
            if events & selectors.EVENT_WRITE:
                sender.send()
    shared.results.put([(first + place, names[place], moments[place]) for place in range(count)])


def lane_of(name: str, lanes: int) -> int:
    """The lane of a log."""
    digits = "0123456789ABCDEFGHIJKLMNOPQRSTUVWXYZ"
    number = 0
    for digit in name:
        number = number * 36 + digits.index(digit)
    return (number - 1) % lanes


class Slowed:
    """A program whose syncs take longer."""

    def __init__(self, program: str, folder: str, delay: int) -> None:
        """Writes a script that runs it under strace."""
        self.path = os.path.join(folder, "program")
        words = ["strace", "-D", "-f", "--seccomp-bpf", "-qq", "-o", "/dev/null", "-e", "trace=fsync,fdatasync",
            "-e", f"inject=fsync,fdatasync:delay_exit={delay * 1000}"]
        with open(self.path, "w", encoding="utf-8") as file:
            file.write(f'#!/bin/sh\nexec {shlex.join([*words, program])} "$@"\n')
        os.chmod(self.path, 0o755)


def measure(args: argparse.Namespace, senders: int, lanes: int, delay: int) -> tuple[list[int], list[float]]:
    """How many turns each message of the client waited, and how many milliseconds."""
    parent = fair.SHM if os.access(fair.SHM, os.W_OK) else None
    place = servers.Place(servers.OURS, parent=parent)
    program = os.path.realpath(args.server)
    slowed = Slowed(program, place.folder, delay).path if shutil.which("strace") else program
    server = servers.Serve(slowed, place, ["--lanes", str(lanes)]).start()
    shared, spans, processes = Shared(senders), [], []
    try:
        parts = min(2, senders)
        for part in range(parts):
            first, last = senders * part // parts, senders * (part + 1) // parts
            given = (server.port, first, last - first, shared)
            process = multiprocessing.Process(target=send_all, args=given, daemon=True)
            process.start()
            processes.append(process)
        until("each sender has a commit point", lambda: all(shared.busy))
        link = client.connect(server.port)
        began = time.monotonic()
        link.send(fair.accepted())
        name = ""
        while not name:
            kind, value = link.read()
            name = value if kind == "log_id" else ""
        spans.append((began, time.monotonic()))
        for number in range(args.records):
            began = time.monotonic()
            link.send(client.record((SECOND, "ttyout", b"%d" % number)))
            while link.read()[0] != "commit_point":
                pass
            spans.append((began, time.monotonic()))
        points = []
        shared.over.set()
        for _ in processes:
            for at, log, moments in shared.results.get(timeout=PATIENCE):
                if log and lane_of(log, lanes) == lane_of(name, lanes):
                    points += [(moment, at) for moment in moments]
        link.close()
        for process in processes:
            process.join()
        counter = Counter(points)
        return [counter.within(*span) for span in spans], [1000 * (b - a) for a, b in spans]
    except (TimeoutError, queue.Empty) as fault:
        raise servers.Failed(f"{fault or 'no figures of a sender'}; {server.seen()}") from fault
    finally:
        for process in processes:
            process.kill()
        if not server.has_ended():
            server.stop()
        shutil.rmtree(place.folder, ignore_errors=True)


def main() -> int:
    """Tries each number of senders and of lanes."""
    words = argparse.ArgumentParser(description=__doc__, formatter_class=argparse.RawDescriptionHelpFormatter)
    words.add_argument("--server", required=True)
    words.add_argument("--senders", type=int, action="append")
    words.add_argument("--lanes", type=int, action="append")
    words.add_argument("--records", type=int, default=10)
    words.add_argument("--tries", type=int, default=10)
    words.add_argument("--most", type=int, default=8)
    words.add_argument("--delay", type=int, default=2)
    args = words.parse_args()
    slow = 0
    for lanes in args.lanes or [1, 4]:
        for senders in args.senders or [1, 4, 16]:
            for count in range(args.tries):
                delay = max(args.delay, min(args.delay << count, LONGEST))
                turns, times = measure(args, senders, lanes, delay)
                what = f"turns.py: {lanes} lanes, {senders} senders"
                middle = f"{statistics.median(turns):.0f} turns, {statistics.median(times):.0f} ms"
                most = f"{max(turns)} turns, {max(times):.0f} ms"
                print(f"{what}: an accept and {len(turns) - 1} records waited for {middle}; at most {most}", flush=True)
                if max(turns) <= args.most:
                    break
            else:
                print(f"{what}: each of {args.tries} runs has a wait of more than {args.most} turns")
                slow += 1
    return 1 if slow else 0


if __name__ == "__main__":
    sys.exit(main())
