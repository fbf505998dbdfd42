#!/usr/bin/env python3
"""Writes the scripts of lsvt_faults_keeper, its `stdin`.

usage: scripts.py FILE

The messages are spelled by the tables of sudo_logsrv.proto(5).
"""
from __future__ import annotations

import sys
from collections.abc import Iterator

from oracle import messages
from oracle.messages import exited, restart, timespec
from oracle.records import SECOND
from oracle.rows import write_lines
from oracle.wire import field

SUBMIT = 1_700_000_000 * SECOND


def accept(user: str, command: str) -> bytes:
    """An accept of a command of a user."""
    info = {"command": command, "runuser": "root", "submituser": user, "submithost": "web1"}
    return messages.accept(SUBMIT, info)


def reject(user: str, reason: str) -> bytes:
    """A reject of a user."""
    return messages.refusal("reject", SUBMIT, reason, {"submituser": user})


def typed(delay: int, data: bytes) -> bytes:
    """Terminal input."""
    return messages.client("ttyin", field(1, timespec(delay)), field(2, data))


def shown(delay: int, data: bytes) -> bytes:
    """Terminal output, whose field of bytes stands there also if it is empty."""
    return messages.client("ttyout", field(1, timespec(delay)), field(2, data))


def window(delay: int, rows: int, cols: int) -> bytes:
    """A window's size."""
    return messages.record((delay, "winsize", rows, cols))


HELLO = messages.hello("Sudo 1.9.15")
GONE, STOP = "gone", "stop"
Turns = list[str | list[tuple[int, str | bytes]]]

# A script is its turns, and stops of the program; a turn is its jobs, each with its connection's number.
SCRIPTS: dict[str, Turns] = {
    "a command that is recorded, stopped twice": [
        [(1, HELLO), (1, accept("ann", "/usr/bin/id"))],
        [(1, shown(SECOND // 2, b"# ")), (1, shown(SECOND, b"id -u")), (1, shown(0, b"\r\n0\r\n"))],
        [(1, window(2 * SECOND, 30, 100)), (1, exited(3_600_000_000))],
        [(1, GONE)],
    ],
    "two commands at once, one of them gone on with": [
        [(1, accept("ann", "/bin/a")), (2, accept("bob", "/bin/b"))],
        [(1, shown(SECOND, b"one")), (2, shown(2 * SECOND, b"two")), (1, typed(SECOND, b"x"))],
        [(2, shown(SECOND, b"more")), (1, shown(0, b""))],
        [(1, GONE), (3, restart("000001", 2 * SECOND))],
        [(2, exited(3 * SECOND, 1)), (3, shown(SECOND, b"last"))],
    ],
    "a log that is cut and gone on with": [
        [(1, accept("ann", "/bin/a")), (1, shown(SECOND, b"one"))],
        [(1, shown(SECOND, b"two")), (1, shown(SECOND, b"three")), (1, shown(SECOND, b"four"))],
        [(1, GONE)],
        [(2, restart("000001", 2 * SECOND))],
        [(2, shown(SECOND, b"third"))],
        [(2, shown(SECOND, b"fourth")), (2, exited(4 * SECOND))],
    ],
    "commands that are rejected, and others that aren't": [
        [(1, reject("bob", "no")), (2, accept("ann", "/bin/a"))],
        [(3, reject("eve", "not you")), (2, shown(SECOND, b"out"))],
        [(2, exited(SECOND)), (4, accept("ann", "/bin/b"))],
    ],
    "three runs": [
        [(1, accept("ann", "/bin/a")), (1, shown(SECOND, b"one")), (1, shown(SECOND, b"two"))],
        [(2, accept("bob", "/bin/b")), (1, shown(SECOND, b"lost")), (2, shown(SECOND, b"bob"))],
        STOP,
        [(3, restart("000001", SECOND))],
        [(3, shown(SECOND, b"again")), (4, accept("eve", "/bin/c"))],
        [(3, exited(2 * SECOND))],
        STOP,
        [(5, restart("000002", SECOND)), (6, reject("eve", "no"))],
        [(5, exited(SECOND))],
    ],
}


def lines() -> Iterator[str]:
    """The lines of all scripts."""
    yield "again 0.99 " + accept("eve", "/bin/again").hex()
    for name, turns in SCRIPTS.items():
        yield "script " + name
        for turn in turns:
            if isinstance(turn, str):
                yield turn
                continue
            for conn, job in turn:
                yield f"0.{conn} {job if isinstance(job, str) else job.hex()}"
            yield "turn"


if __name__ == "__main__":
    write_lines(sys.argv[1], lines())
