"""What a client of ours sends, in frames, and its connection: an implementation of its own, in oracle/.

An information is a dict of texts, numbers, lists of texts and lists of numbers. A record is a tuple of a delay in
nanoseconds, an event (a stream's name, `winsize`, `suspend`), and what the event has.
"""
from __future__ import annotations

from collections.abc import Mapping
from typing import Any

import at_root
from oracle import messages
from oracle.connection import Closed, Connection, connect
from oracle.messages import CLIENT, CLIENT_NUMBER as NUMBER, entry, nanoseconds, read_client, read_server, timespec
from oracle.records import SECOND, STREAMS, Record
from oracle.wire import Frames, Malformed, field, fields, frame, one, scalar, signed, text, varint

__all__ = [
    "CLIENT", "NUMBER", "SECOND", "STREAMS", "Closed", "Connection", "Frames", "Malformed", "Record", "accept",
    "connect", "entry", "exited", "field", "fields", "frame", "hello", "hostile", "nanoseconds", "one", "read_client",
    "read_server", "record", "refusal", "restart", "scalar", "signed", "text", "timespec", "varint",
]


def hello(name: str = "interop") -> bytes:
    """A hello."""
    return frame(messages.hello(name))


def accept(submit: int, info: Mapping[str, Any], expect_iobufs: bool = True) -> bytes:
    """An accept of a command that was submitted at a time in nanoseconds."""
    return frame(messages.accept(submit, info, expect_iobufs))


def hostile() -> bytes:
    """An accept of about 2 MiB of entries with an empty key and an empty text: to read it takes many times as much."""
    entry_of_nothing = field(2, b"\x0a\x00\x1a\x00")
    return frame(messages.client("accept", field(1, timespec(SECOND)), entry_of_nothing * 349_000, scalar(3, True)))


def refusal(name: str, at: int, reason: str, info: Mapping[str, Any]) -> bytes:
    """A reject or an alert."""
    return frame(messages.refusal(name, at, reason, info))


def restart(log_id: str, point: int) -> bytes:
    """A restart of a log at a point in nanoseconds."""
    return frame(messages.restart(log_id, point))


def record(it: Record) -> bytes:
    """A record."""
    return frame(messages.record(it))


def exited(run: int, value: int = 0, dumped: bool = False, signal: str = "", error: str = "") -> bytes:
    """An exit after a run of some nanoseconds."""
    return frame(messages.exited(run, value, dumped, signal, error))
