"""A store byte by byte, as docs/FORMATS.md has it: read and written.

usage: python3 -m oracle.store DIR [LINES ...]

It reads each log of the folder DIR and each event log LINES, and prints a line for each. It ends with 1 if a part of
the store is damaged, or if a count or an elapsed time of a journal isn't that of its lines.
"""
from __future__ import annotations

import argparse
import dataclasses
import os
import re
import sys
from collections.abc import Iterable, Mapping, Sequence
from typing import Any

from oracle import lines as json_lines
from oracle.journals import (
    KINDS, LOG_BODY, NUMBERS_BODY, PARTS, Body, body_of, contents, digits_of, entry, folder_of, last_entry, number_of,
    numbers, old_entry, slots_entry,
)
from oracle.records import STREAMS, Damaged, Record, elapsed, records_of, stream_of, timing_of

__all__ = [
    "COMPLETE", "CUT", "FLUSHED", "KINDS", "LOG_BODY", "MADE", "NUMBERS_BODY", "PARTS", "Body", "Damaged", "Log",
    "body_of", "body_text", "committed", "contents", "digits_of", "entry", "files_of", "folder_of", "folders",
    "last_entry", "lines", "log_body", "main", "number_of", "numbers", "numbers_body", "old_entry", "old_journal",
    "read_log", "slots_entry", "slots_text", "write_files", "write_log", "write_numbers",
]

MADE, FLUSHED, CUT, COMPLETE = range(4)


@dataclasses.dataclass
class Log:
    """A log as it is read. `submit` has seconds and nanoseconds."""

    digits: str
    body: Body
    info: dict[str, Any]
    submit: tuple[int, int]
    records: list[Record]
    exit: dict[str, Any] | None

    def is_complete(self) -> bool:
        """Whether its exit is committed."""
        return self.body.kind == "complete"


# ---- journals


def integers(numbers: Iterable[int], size: int) -> bytes:
    """Numbers of so many bytes each, the highest byte first."""
    return b"".join(number.to_bytes(size, "big") for number in numbers)


def slots_text(body: bytes, other: bytes = b"") -> bytes:
    """A journal whose first slot is selected, and the body of the other one."""
    return b"\x01\x00" + body + other


def old_journal(bodies: Iterable[bytes]) -> bytes:
    """A journal of an older store: each entry is a gate that is 1 and a body, and the gate after the last one is 0."""
    return b"".join(b"\x01" + body for body in bodies) + b"\x00"


def log_body(kind: int, count: int, spent: int, lengths: Sequence[int], extra: int = 0) -> bytes:
    """The body of a log, an event log or a relaying."""
    return bytes([kind]) + integers([count, spent, *lengths, *[0] * (len(PARTS) - len(lengths)), extra], 8)


def body_text(kind: int, records: Sequence[Record], files: Mapping[str, bytes], extra: int = 0) -> bytes:
    """The body of a log with these records and data files."""
    return log_body(kind, len(records), elapsed(records), [len(files[part]) for part in PARTS], extra)


def numbers_body(last: int, lane: int = 0, lanes: int = 1) -> bytes:
    """The body of a number file."""
    return integers((last, lane, lanes), 4)


# ---- written


def files_of(head: bytes, records: Sequence[Record], exit_text: bytes | None) -> dict[str, bytes]:
    """The data files of a log."""
    files = {"log.json": head, "exit.json": exit_text or b"", "timing": timing_of(records)}
    files.update({stream: stream_of(records, stream) for stream in STREAMS})
    return files


def write_files(folder: str, files: Mapping[str, bytes]) -> None:
    """Writes files into a folder."""
    os.makedirs(folder, exist_ok=True)
    for name, text in files.items():
        with open(os.path.join(folder, name), "wb") as file:
            file.write(text)


def write_log(
    store: str, number: int, head: bytes, records: Sequence[Record], exit_text: bytes | None, before: bytes = b""
) -> str:
    """Writes a log, complete if it has an exit, and gives its folder. `before` is the body of the other slot."""
    folder = folder_of(store, digits_of(number))
    files = files_of(head, records, exit_text)
    body = body_text(COMPLETE if exit_text else FLUSHED, records, files)
    write_files(folder, {**files, "slots": slots_text(body, before)})
    return folder


def write_numbers(store: str, last: int, lane: int = 0, lanes: int = 1) -> None:
    """Writes the number file of a lane."""
    name = "seq2" if lane == 0 else f"seq2.{lane}"
    write_files(store, {name: slots_text(numbers_body(last, lane, lanes))})


# ---- read


def committed(path: str, length: int) -> bytes:
    """The committed bytes of a data file. The file must exist, also if none are."""
    if not os.path.exists(path):
        raise Damaged(f"{path} isn't there")
    text = contents(path)
    if len(text) < length:
        raise Damaged(f"{path} has {len(text)} bytes of {length}")
    return text[:length]


def read_log(store: str, digits: str) -> Log | None:
    """The log of these digits, or None if there is none."""
    folder = folder_of(store, digits)
    found = entry(os.path.join(folder, "slots"), os.path.join(folder, "commit"), LOG_BODY)
    if found is None:
        return None
    body = body_of(found)
    texts = {part: committed(os.path.join(folder, part), length) for part, length in zip(PARTS, body.lengths)}
    head = json_lines.value_of(texts["log.json"], os.path.join(folder, "log.json"))
    if set(head) != {"info", "submit_time"}:
        raise Damaged(f"{folder}/log.json has other members")
    records = read_records(folder, body, texts)
    submit = head["submit_time"]["seconds"], head["submit_time"]["nanoseconds"]
    return Log(digits, body, head["info"], submit, records, read_exit(folder, body, texts["exit.json"]))


def read_records(folder: str, body: Body, texts: Mapping[str, bytes]) -> list[Record]:
    """The records of a log, which must be all that its journal says."""
    records = records_of(texts["timing"], {name: texts[name] for name in STREAMS}, os.path.join(folder, "timing"))
    if body.count != len(records) or body.elapsed != elapsed(records):
        raise Damaged(f"{folder}: the journal says {body.count} records and {body.elapsed} ns, the lines say otherwise")
    left = [name for name in STREAMS if len(texts[name]) != len(stream_of(records, name))]
    if left:
        raise Damaged(f"{folder}: {', '.join(left)} have committed bytes of no record")
    return records


def read_exit(folder: str, body: Body, text: bytes) -> dict[str, Any] | None:
    """The exit of a log, which a complete one alone has."""
    ended = json_lines.value_of(text, os.path.join(folder, "exit.json")) if text else None
    if (body.kind == "complete") != (ended is not None):
        raise Damaged(f"{folder}: the kind is {body.kind}, and exit.json has {len(text)} bytes")
    return ended


def folders(store: str) -> list[str]:
    """The digits of each folder of a log, in order."""
    found = []
    for first in os.listdir(store) if os.path.isdir(store) else []:
        for second in os.listdir(os.path.join(store, first)) if re.fullmatch("[0-9A-Z]{2}", first) else []:
            for third in os.listdir(os.path.join(store, first, second)):
                found.append(first + second + third)
    return sorted(found)


def lines(path: str) -> list[bytes] | None:
    """The committed event lines, without their line feeds; None if there is no event log."""
    found = entry(path + ".slots", path + ".commit", LOG_BODY)
    if found is None:
        return None
    body = body_of(found)
    text = committed(path, body.lengths[0])
    if text and not text.endswith(b"\n"):
        raise Damaged(f"{path}: the last line has no end")
    all_lines = text.split(b"\n")[:-1]
    if len(all_lines) != body.count:
        raise Damaged(f"{path}: the journal says {body.count} lines, and the file has {len(all_lines)}")
    return all_lines


# ---- printed


def shown_log(store: str, digits: str) -> str:
    """A log in words."""
    log = read_log(store, digits)
    if log is None:
        return "no entry"
    return f"{log.body.kind}, {len(log.records)} records, {log.body.elapsed} ns, {log.body.extra} cuts"


def main() -> int:
    """Prints a line for each log and for the event log."""
    words = argparse.ArgumentParser(description=__doc__, formatter_class=argparse.RawDescriptionHelpFormatter)
    words.add_argument("store", metavar="DIR")
    words.add_argument("events", metavar="LINES", nargs="*")
    args = words.parse_args()
    store, damaged = args.store, 0
    for digits in folders(store):
        try:
            print(f"{digits}: {shown_log(store, digits)}")
        except Damaged as fault:
            damaged += 1
            print(f"{digits}: {fault}")
    print(f"numbers: {numbers(store)}")
    for path in args.events:
        try:
            print(f"{path}: {len(lines(path) or [])} lines")
        except Damaged as fault:
            damaged += 1
            print(fault)
    return 1 if damaged else 0


if __name__ == "__main__":
    sys.exit(main())
