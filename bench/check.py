#!/usr/bin/env python3
"""Measures `sudo_logcheck` over generated stores on /dev/shm.

usage: check.py PROGRAM

It prints the processor time of a log of a store of 10,000 small logs, and of a record of a session of 1,000,000 records
of ten bytes. It prints that of a session of 100 MB in records of 1,000 bytes beside `cat` of its files, and that of its
digest beside `sha256sum`. The peak of memory of each stands beside it. Each time is the least of nine runs.
"""
from __future__ import annotations

import argparse
import glob
import os
import shutil
import tempfile
from collections.abc import Iterator, Sequence
from contextlib import contextmanager

import at_root
from oracle import lines, store
from oracle.records import SECOND
from replay import INFO, LOGS, RECORDS, SUBMIT, best, many_records

SMALL = [(1, "ttyout", b"0\r\n")] * 3
LARGE = 100_000


@contextmanager
def stored() -> Iterator[str]:
    """A folder that is removed again."""
    folder = tempfile.mkdtemp(dir="/dev/shm")
    try:
        yield folder
    finally:
        shutil.rmtree(folder)


def many_logs(folder: str, count: int) -> None:
    """A store of so many logs of three records."""
    head, ended = lines.head(SUBMIT, INFO), lines.exit_line(SECOND, 0)
    for number in range(1, count + 1):
        store.write_log(folder, number, head, SMALL, ended)
    store.write_numbers(folder, count)


def large_records(folder: str) -> None:
    """A store of one session of 100 MB."""
    store.write_log(folder, 1, lines.head(SUBMIT, INFO), [(1_000_000, "ttyout", b"0123456789" * 100)] * LARGE,
        lines.exit_line(SECOND, 0))
    store.write_numbers(folder, 1)


def shown(what: str, each: str, peak: int) -> None:
    """Prints a measure."""
    print(f"{what}: {each}, {peak / 2**20:.1f} MB", flush=True)


def beside(what: str, ours: Sequence[str], other: Sequence[str], seconds_before: float = 0.0) -> float:
    """Prints our time beside that of another program; without what we take for something else."""
    (one, two), (peak, _) = best([(ours[0], ours[1:]), (other[0], other[1:])])
    shown(what, f"{one * 1e3:.0f} ms to {two * 1e3:.0f} ms, ratio {(one - seconds_before) / two:.2f}", peak)
    return one


def main() -> None:
    """All measures."""
    words = argparse.ArgumentParser(description=__doc__, formatter_class=argparse.RawDescriptionHelpFormatter)
    words.add_argument("program", type=os.path.realpath)
    program = words.parse_args().program
    with stored() as folder:
        many_logs(folder, LOGS)
        (seconds,), (peak,) = best([(program, ["-q", "-d", folder])])
        shown("a log of three records", f"{seconds / LOGS * 1e6:.2f} µs", peak)
    with stored() as folder:
        many_records(folder, RECORDS)
        (seconds,), (peak,) = best([(program, ["-q", "-d", folder])])
        shown("a record of ten bytes", f"{seconds / RECORDS * 1e6:.2f} µs", peak)
    with stored() as folder:
        large_records(folder)
        files = sorted(glob.glob(os.path.join(store.folder_of(folder, "000001"), "*")))
        ours = [program, "-q", "-d", folder]
        plain = beside("100 MB in records of 1,000 bytes, beside cat", ours, ["/bin/cat", *files])
        beside("its digest alone, beside sha256sum", [*ours, "--digest"], ["/usr/bin/sha256sum", *files], plain)


if __name__ == "__main__":
    main()
