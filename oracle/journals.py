"""The names of a store's files, and what the journals say: their entries, and the bodies of these.

docs/FORMATS.md has the form. Nothing of a store is written here.
"""
from __future__ import annotations

import dataclasses
import os

from oracle.records import STREAMS, Damaged

DIGITS = "0123456789ABCDEFGHIJKLMNOPQRSTUVWXYZ"
PARTS = ("log.json", "exit.json", "timing") + STREAMS
KINDS = ("made", "flushed", "cut", "complete")
LOG_BODY = 89
NUMBERS_BODY = 12


@dataclasses.dataclass
class Body:
    """What the last entry of a journal says of a log, an event log or a relaying."""

    kind: str
    count: int
    elapsed: int
    lengths: tuple[int, ...]
    extra: int


# ---- names


def digits_of(number: int) -> str:
    """The six digits of a log's number in base 36."""
    return "".join(DIGITS[number // 36**place % 36] for place in range(5, -1, -1))


def number_of(digits: str) -> int:
    """The number of six digits."""
    return int(digits, 36)


def folder_of(store: str, digits: str) -> str:
    """The folder of a log."""
    return os.path.join(store, digits[0:2], digits[2:4], digits[4:6])


# ---- journals


def slots_entry(text: bytes, size: int) -> bytes | None:
    """The selected slot of a journal of two slots, or None if it has no entry."""
    if len(text) < 2 or text[0] != 1:
        return None
    at = 2 + size if text[1] == 1 else 2
    return text[at : at + size] if len(text) >= at + size else None


def old_entry(text: bytes, size: int) -> bytes | None:
    """The last entry of a journal of an older store, or None."""
    last, at = None, 0
    while at + size + 2 <= len(text) and text[at] == 1:
        last = text[at + 1 : at + 1 + size]
        at += size + 1
    return last


def last_entry(slots: bytes, old: bytes, size: int) -> bytes | None:
    """The last entry of an owner with the texts of these two journals, or None."""
    found = slots_entry(slots, size)
    return old_entry(old, size) if found is None else found


def entry(slots: str, old: str, size: int) -> bytes | None:
    """The last entry of an owner with these two journal files, or None."""
    return last_entry(contents(slots), contents(old), size)


def read_integers(text: bytes, size: int) -> tuple[int, ...]:
    """The numbers of so many bytes each that a text has."""
    return tuple(int.from_bytes(text[at : at + size], "big") for at in range(0, len(text), size))


def body_of(text: bytes) -> Body:
    """What a body of a log, an event log or a relaying says."""
    count, spent, *lengths, extra = read_integers(text[1:LOG_BODY], 8)
    if text[0] >= len(KINDS):
        raise Damaged(f"a journal's entry has the kind {text[0]}")
    return Body(KINDS[text[0]], count, spent, tuple(lengths), extra)


def contents(path: str) -> bytes:
    """The bytes of a file, none if it is absent."""
    try:
        with open(path, "rb") as file:
            return file.read()
    except FileNotFoundError:
        return b""


def numbers(store: str, lane: int = 0) -> tuple[int, ...] | None:
    """The last drawn number, the lane and the number of lanes of a number file; None if there is none."""
    suffix = f".{lane}" if lane else ""
    found = entry(os.path.join(store, "seq2" + suffix), os.path.join(store, "seq" + suffix), NUMBERS_BODY)
    return None if found is None else read_integers(found, 4)
