#!/usr/bin/env python3
"""Measures `sudo_logsrvd serve` with several lanes beside one lane, and beside another program, interleaved in one run.

usage: lanes.py PROGRAM [--before BEFORE] [--disk FOLDER] [--share S] [--only WORD]

BEFORE is a program without threads: the one of the commit before. Each figure is the least of some runs, and for commit
points the greatest. S makes the loads smaller. WORD is one of records, commits, latency and idle.
"""
from __future__ import annotations

import argparse
import os
import shutil
import tempfile
import time
from collections.abc import Sequence

import at_root
import serve
from interop import client, servers
from oracle.records import SECOND

LANES = (1, 2, 4)
IDLE_SECONDS = 20


class Lanes(serve.Side):
    """A server with this number of lanes."""

    def __init__(self, program: str, lanes: int, name: str) -> None:
        """A program, and its words."""
        super().__init__(program, lambda program, place: servers.Serve(program, place, words))
        words = ["--lanes", str(lanes)] if lanes > 1 else []
        self.name = name

    def place(self, parent: str) -> servers.Place:
        """The folder of a server, with its settings."""
        return servers.Place(servers.OURS, parent)


def measure_records(sides: Sequence[Lanes], share: float) -> None:
    """Processor time of a record of 10 bytes, and how many a second."""
    for connections in (8, 64):
        count = int(200_000 * share) // connections
        text = serve.conversation(count, 10)
        number = connections * count
        results = serve.interleaved(sides, lambda side: side.served("/dev/shm", [text] * connections, connections))
        for (used, wall), side in zip(results, sides):
            spent = max(0, used - side.start_time()) / number * 1e6
            print(f"a record of 10 bytes, {connections} connections, {side.name}: {spent:.3f} us of a processor, "
                f"{number / wall:.0f} a second", flush=True)


def measure_commits(sides: Sequence[Lanes], folder: str, share: float) -> None:
    """Durable commit points a second of 64 connections."""
    made: dict[str, float] = {}
    for _ in range(serve.RUNS):
        for side in sides:
            rate = serve.commits(side, folder, 64, 2 * share + 0.5)
            made[side.name] = max(rate, made.get(side.name, 0))
    for name, rate in made.items():
        print(f"commit points a second on disk, 64 connections, {name}: {rate:.0f}", flush=True)


def measure_latency(sides: Sequence[Lanes], folder: str, share: float) -> None:
    """How long a commit point takes with one connection, above its writes and syncs alone."""
    alone, made = 0.0, dict[str, float]()
    for _ in range(serve.RUNS):
        alone = max(alone, serve.syncs_alone(folder, int(2_000 * share) + 10, 1))
        for side in sides:
            rate = serve.commits(side, folder, 1, 2 * share + 0.5)
            made[side.name] = max(rate, made.get(side.name, 0))
    for name, rate in made.items():
        above = (1 / rate - 1 / alone) * 1e6
        print(f"a commit point, one connection, {name}: {1e6 / rate:.0f} us, {above:.0f} us above its writes and syncs",
            flush=True)


def measure_idle(sides: Sequence[Lanes]) -> None:
    """Processor time of a server with one silent client."""
    for side in sides:
        place = side.place("/dev/shm")
        server = side.kind(side.program, place).start()
        link = client.connect(place.port)
        link.send(client.hello(), client.accept(5 * SECOND, serve.INFO))
        time.sleep(1)
        before = spent(server.process.pid)
        time.sleep(IDLE_SECONDS)
        share = (spent(server.process.pid) - before) / IDLE_SECONDS
        print(f"an idle server, {side.name}: {share * 100:.2f} % of a processor", flush=True)
        link.close()
        server.stop()
        shutil.rmtree(place.folder)


def spent(pid: int) -> float:
    """The processor seconds of a process."""
    with open(f"/proc/{pid}/stat", encoding="ascii") as file:
        fields = file.read().rsplit(")", 1)[1].split()
    return (int(fields[11]) + int(fields[12])) / os.sysconf("SC_CLK_TCK")


def main() -> None:
    """All measures that are asked for."""
    words = argparse.ArgumentParser(description=__doc__, formatter_class=argparse.RawDescriptionHelpFormatter)
    words.add_argument("program")
    words.add_argument("--before")
    words.add_argument("--disk", default=".")
    words.add_argument("--share", type=float, default=1.0)
    words.add_argument("--only", default="")
    args = words.parse_args()
    program = os.path.realpath(args.program)
    sides = [Lanes(program, lanes, f"{lanes} lanes" if lanes > 1 else "1 lane") for lanes in LANES]
    if args.before:
        sides.insert(0, Lanes(os.path.realpath(args.before), 1, "before"))
    folder = tempfile.mkdtemp(prefix="bench", dir=args.disk)
    if args.only in ("", "records"):
        measure_records(sides, args.share)
    if args.only in ("", "commits"):
        measure_commits(sides, os.path.abspath(folder), args.share)
    if args.only in ("", "latency"):
        measure_latency(sides, os.path.abspath(folder), args.share)
    if args.only in ("", "idle"):
        measure_idle(sides)
    shutil.rmtree(folder)


if __name__ == "__main__":
    main()
