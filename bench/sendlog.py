#!/usr/bin/env python3
"""Measures `sudo_sendlog` over a generated store on /dev/shm, to this server.

usage: sendlog.py SERVER PROGRAM [PEER] [--before BEFORE]

SERVER is sudo_logsrvd of this repository, and PROGRAM its sudo_sendlog. It prints the processor time a record of a
session of 100,000 records of ten bytes, and the peak of memory, beside those of a tenth of the records; then those of
20,000 records of 1,000 bytes. PEER is sudo's own sudo_sendlog, by default that of Debian's package sudo: it sends the
same session from its own layout, and the runs take turns. BEFORE is another build of sudo_sendlog, whose runs take
turns with the others. The least time of each counts; after it stand the ratios of PROGRAM's to theirs.
"""
from __future__ import annotations

import argparse
import os
import shutil
import subprocess
import sys
import tempfile
from collections.abc import Sequence

import at_root
from bench import watched
from interop import servers
from oracle import lines, store
from oracle.records import SECOND
from oracle.sudo import write_session

SUBMIT = 1_700_000_000 * SECOND
RECORDS = 100_000
RUNS = 5
INFO = {
    "columns": 80, "command": "/usr/bin/id", "lines": 24, "runargv": ["id", "-u"], "rungid": 0, "rungroup": "root",
    "runuid": 0,
    "runuser": "root", "submitcwd": "/home/ann", "submithost": "web1", "submituser": "ann", "ttyname": "/dev/pts/0",
}


def run(words: Sequence[str]) -> tuple[float, int]:
    """The processor seconds and the peak memory in bytes of one run, whose output is dropped."""
    child = subprocess.Popen(words, stdin=subprocess.DEVNULL, stdout=subprocess.DEVNULL)
    peak, status, usage = watched(child.pid)
    if status != 0:
        sys.exit(f"{' '.join(words)}: status {status}")
    return usage.ru_utime + usage.ru_stime, peak


def best(runners: Sequence[Sequence[str]]) -> tuple[list[float], list[int]]:
    """The least processor time of some runs of each, in turns, and the peaks of memory."""
    runs = [[run(words) for words in runners] for _ in range(RUNS)]
    kept = list(zip(*runs))
    return [min(seconds for seconds, _ in of) for of in kept], [max(peak for _, peak in of) for of in kept]


def measure(server: str, programs: Sequence[str], peer: str | None, count: int, size: int = 10) -> float:
    """Prints the cost of a record of this number of them, and of these bytes. Gives the time of the first program."""
    folder = tempfile.mkdtemp(dir="/dev/shm")
    records = [(1_000_000, "ttyout", b"0123456789" * (size // 10))] * count
    place = servers.Place(parent="/dev/shm")
    served = servers.Serve(server, place).start()
    try:
        store.write_log(f"{folder}/ours", 1, lines.head(SUBMIT, INFO), records, lines.exit_line(SECOND, 0))
        store.write_numbers(f"{folder}/ours", 1)
        at = ["-h", "127.0.0.1", "-p", str(served.port)]
        runners = [[program, "-d", f"{folder}/ours", *at, "000001"] for program in programs]
        names = ["before"] * (len(programs) - 1)
        if peer:
            runners.append([peer, *at, write_session(f"{folder}/theirs", SUBMIT, INFO, records)])
            names.append("sudo's own")
        times, peaks = best(runners)
        print(f"{count} records of {size} bytes: {times[0] / count * 1e6:.2f} us a record, peak {peaks[0] >> 10} KiB"
            + "".join(f"; {name} {time / count * 1e6:.2f} us, {times[0] / time:.2f} times"
            for name, time in zip(names, times[1:])), flush=True)
        return times[0]
    finally:
        served.kill()
        shutil.rmtree(folder)
        shutil.rmtree(place.folder)


def main() -> None:
    """Measures a tenth, all, and long records."""
    words = argparse.ArgumentParser(description=__doc__, formatter_class=argparse.RawDescriptionHelpFormatter)
    words.add_argument("server", type=os.path.abspath)
    words.add_argument("program", type=os.path.abspath)
    words.add_argument("peer", nargs="?", default=servers.tool("sudo_sendlog"))
    words.add_argument("--before", type=os.path.abspath)
    args = words.parse_args()
    programs = [program for program in (args.program, args.before) if program]
    small = measure(args.server, programs, args.peer, RECORDS // 10)
    large = measure(args.server, programs, args.peer, RECORDS)
    print(f"ten times the records: {large / small:.1f} times the time")
    measure(args.server, programs, args.peer, RECORDS // 5, 1000)


if __name__ == "__main__":
    main()
