"""The records of a session, and the lines of timing that tell them apart.

A record is a tuple of a delay in nanoseconds, an event (a stream's name, `winsize`, `suspend`), and what the event has:
the bytes of a stream, rows and columns, or a signal's name.
"""
from __future__ import annotations

import itertools
import re
from collections.abc import Iterable, Mapping, Sequence
from typing import Any

SECOND = 10**9
STREAMS = ("stdin", "stdout", "stderr", "ttyin", "ttyout")
EVENTS = {**{name: at for at, name in enumerate(STREAMS)}, "winsize": 5, "suspend": 7}
LARGEST_DATA = 2_097_152  # bytes of one record
LONGEST_LINE = 95
Record = tuple[Any, ...]

LINE = re.compile(rb"([0-57]) (0|[1-9][0-9]*)\.([0-9]{9}) (.+)", re.DOTALL)
COUNT = re.compile(rb"(0|[1-9][0-9]*)")
WINDOW = re.compile(rb"(0|[1-9][0-9]*) (0|[1-9][0-9]*)")
SIGNAL = re.compile(rb"[\x21-\x7e]{1,32}")


class Damaged(Exception):
    """A part of a store isn't as its journal or the form of its text says."""


def decimal(nanoseconds: int) -> str:
    """Seconds with nine decimal places."""
    return f"{nanoseconds // SECOND}.{nanoseconds % SECOND:09}"


def line_of(record: Record) -> bytes:
    """A record's line of timing."""
    delay, event, *rest = record
    tail = str(len(rest[0])) if event in STREAMS else " ".join(map(str, rest))
    return f"{EVENTS[event]} {decimal(delay)} {tail}\n".encode()


def timing_of(records: Iterable[Record]) -> bytes:
    """The text of timing."""
    return b"".join(map(line_of, records))


def stream_of(records: Iterable[Record], stream: str) -> bytes:
    """The bytes of one stream."""
    return b"".join(record[2] for record in records if record[1] == stream)


def elapsed(records: Iterable[Record]) -> int:
    """The nanoseconds from the start to the end of the last record."""
    return sum(record[0] for record in records)


def ends(records: Iterable[Record]) -> list[int]:
    """At how many nanoseconds each record ends."""
    return list(itertools.accumulate(record[0] for record in records))


def cut_at(records: Sequence[Record], point: int) -> Sequence[Record] | None:
    """The records through the first that ends at a point, or None if none ends there."""
    at = 0
    for count, record in enumerate(records, 1):
        at += record[0]
        if at == point:
            return records[:count]
    return None


def read_line(line: bytes) -> Record | None:
    """The record of a line without its line feed, with the count of its bytes in place of the bytes."""
    found = LINE.fullmatch(line)
    if not found or len(line) > LONGEST_LINE:
        return None
    event, seconds, fraction, rest = found.groups()
    delay = int(seconds) * SECOND + int(fraction)
    if delay >= 2**63:
        return None
    if event in b"01234" and COUNT.fullmatch(rest) and int(rest) <= LARGEST_DATA:
        return delay, STREAMS[int(event)], int(rest)
    window = WINDOW.fullmatch(rest)
    if event == b"5" and window and all(int(it) < 2**31 for it in window.groups()):
        return delay, "winsize", int(window[1]), int(window[2])
    if event == b"7" and SIGNAL.fullmatch(rest):
        return delay, "suspend", rest.decode("ascii")
    return None


def records_of(timing: bytes, streams: Mapping[str, bytes], place: str) -> list[Record]:
    """The records of a text of timing and the texts of the five streams."""
    if timing and not timing.endswith(b"\n"):
        raise Damaged(f"{place}: the last line has no end")
    taken = dict.fromkeys(STREAMS, 0)
    records: list[Record] = []
    spent = 0
    for line in timing.split(b"\n")[:-1]:
        record = read_line(line)
        if record is None:
            raise Damaged(f"{place}: {line!r} is no line")
        spent += record[0]
        if spent >= 2**63:
            raise Damaged(f"{place}: the elapsed time is too long")
        records.append(with_bytes(record, streams, taken, place))
    return records


def with_bytes(record: Record, streams: Mapping[str, bytes], taken: dict[str, int], place: str) -> Record:
    """The record of a line with its bytes, which follow those that were taken of its stream."""
    delay, event, *rest = record
    if event not in streams:
        return record
    start, end = taken[event], taken[event] + rest[0]
    if end > len(streams[event]):
        raise Damaged(f"{place}: {event} has fewer bytes than its lines say")
    taken[event] = end
    return delay, event, streams[event][start:end]
