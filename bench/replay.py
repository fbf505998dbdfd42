#!/usr/bin/env python3
"""Measures `sudoreplay` over generated stores on /dev/shm.

usage: replay.py PROGRAM [PEER]

It prints the processor time a log of a listing of 10,000 logs, and a record of a session of 1,000,000 records of ten
bytes that is played without waits, the peak of memory of each, and the ratio of the times to those of a tenth of
each load, which shows that the cost is linear. PEER is sudo's own sudoreplay, by default that of Debian's package
sudo, over its own store: its listings and ours run in turns, the least time of each counts, and the ratio of ours to
its stands behind them.
"""
from __future__ import annotations

import argparse
import os
import shutil
import subprocess
import sys
import tempfile
from collections.abc import Callable, Sequence

import at_root
from bench import watched
from interop import servers
from oracle import lines, store
from oracle.records import SECOND
from oracle.sudo import write_session

SUBMIT = 1_700_000_000 * SECOND
LOGS = 10_000
RECORDS = 1_000_000
RUNS = 9
INFO = {
    "columns": 80, "command": "/usr/bin/id", "lines": 24, "runargv": ["id", "-u"], "rungid": 0, "rungroup": "root",
    "runuid": 0,
    "runuser": "root", "submitcwd": "/home/ann", "submithost": "web1", "submituser": "ann", "ttyname": "/dev/pts/0",
}


def run(program: str, words: Sequence[str]) -> tuple[float, int]:
    """The processor seconds and the peak memory in bytes of one run, whose output is dropped."""
    child = subprocess.Popen([program, *words], stdin=subprocess.DEVNULL, stdout=subprocess.DEVNULL)
    peak, status, usage = watched(child.pid)
    if status != 0:
        sys.exit(f"{program} {words}: status {status}")
    return usage.ru_utime + usage.ru_stime, peak


def best(runners: Sequence[tuple[str, Sequence[str]]]) -> tuple[list[float], list[int]]:
    """The least processor time of some runs of each program with its words, in turns, and the peaks of memory."""
    runs = [[run(program, words) for program, words in runners] for _ in range(RUNS)]
    return [min(seconds for seconds, _ in kept) for kept in zip(*runs)], [max(peak for _,
        peak in kept) for kept in zip(*runs)]


def many_logs(folder: str, count: int, peer: bool) -> None:
    """A store of so many small sessions."""
    head, ended = lines.head(SUBMIT, INFO), lines.exit_line(SECOND, 0)
    records = [(1, "ttyout", b"0\r\n")]
    for number in range(1, count + 1):
        if peer:
            write_session(store.folder_of(folder, store.digits_of(number)), SUBMIT, INFO, records)
        else:
            store.write_log(folder, number, head, records, ended)
    store.write_numbers(folder, count)


def many_records(folder: str, count: int) -> None:
    """A store of one session of so many records."""
    records = [(1_000_000, "ttyout", b"0123456789")] * count
    store.write_log(folder, 1, lines.head(SUBMIT, INFO), records, lines.exit_line(SECOND, 0))
    store.write_numbers(folder, 1)


def measure(name: str, program: str, fill: Callable[[str, int], None], count: int, words: Sequence[str]) -> None:
    """Prints the cost of each of so many."""
    times = []
    for size in (count // 10, count):
        folder = tempfile.mkdtemp(dir="/dev/shm")
        fill(folder, size)
        (seconds,), (peak,) = best([(program, ["-d", folder, *words])])
        times.append(seconds)
        shutil.rmtree(folder)
    each, ratio = times[1] / count * 1e6, times[1] / times[0]
    print(f"{name}: {each:.2f} µs, {ratio:.1f} times that of a tenth, {peak / 2**20:.1f} MB", flush=True)


def beside(name: str, program: str, peer: str, words: Sequence[str]) -> None:
    """Prints the cost of each log beside that of the peer."""
    stored = [(it, tempfile.mkdtemp(dir="/dev/shm")) for it in (program, peer)]
    for it, folder in stored:
        many_logs(folder, LOGS, it is peer)
    (ours, its), _ = best([(it, ["-d", folder, *words]) for it, folder in stored])
    for _, folder in stored:
        shutil.rmtree(folder)
    both = f"{ours / LOGS * 1e6:.2f} µs to {its / LOGS * 1e6:.2f} µs"
    print(f"{name}, in turns with sudo's own: {both}, ratio {ours / its:.2f}", flush=True)


def main() -> None:
    """All measures."""
    words = argparse.ArgumentParser(description=__doc__, formatter_class=argparse.RawDescriptionHelpFormatter)
    words.add_argument("program", type=os.path.realpath)
    words.add_argument("peer", nargs="?", default=servers.tool("sudoreplay"))
    args = words.parse_args()
    program, peer = args.program, args.peer
    measure("a log of a listing", program, lambda folder, n: many_logs(folder, n, False), LOGS, ["-l"])
    measure("a log of a search by command", program, lambda folder, n: many_logs(folder, n, False), LOGS,
        ["-l", "command", "^/bin"])
    measure("a record that is played", program, many_records, RECORDS, ["-m", "0", "000001"])
    if peer:
        beside("a log of a listing", program, peer, ["-l"])
        beside("a log of a search by command", program, peer, ["-l", "command", "^/bin"])


if __name__ == "__main__":
    main()
