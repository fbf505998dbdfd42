#!/usr/bin/env python3
"""Writes the scripts of lsvt_rows_forward (`stdin`) and what must be printed of them (`stdout`).

usage: rows.py FOLDER

It is a program of its own: it spells the messages by the tables of sudo_logsrv.proto(5). What a relay puts on its
connections, and what it keeps, it works out by the rules that stand beside them here. It knows nothing of what the
crates answer.
"""
from __future__ import annotations

import sys
from collections.abc import Sequence

from oracle import messages
from oracle.records import SECOND, Record, elapsed, ends
from oracle.rows import Rows
from oracle.wire import frame

SUBMIT = 1_700_000_000 * SECOND
HOST = "loghost:30343"
CONF = ("[iolog]", "iolog_dir = store", "[logfile]", "path = store/events", "[relay]", "relay_host = loghost",
    "store_first = true")
INFO: messages.Info = {
    "command": "/usr/bin/id", "runargv": ["id", "-u"], "runuser": "root", "runuid": 0, "rungid": 0, "rungroup": "root",
    "submituser": "ann", "submithost": "web1", "submitcwd": "/home/ann", "ttyname": "/dev/pts/0", "lines": 24,
    "columns": 80,
}
RECORDS: list[Record] = [(SECOND // 2, "ttyout", b"# "), (SECOND, "ttyout", b"id -u"), (0, "ttyout", b"\r\n0\r\n"),
    (2 * SECOND, "winsize", 30, 100)]
RUN_TIME = 3 * SECOND + 600_000_000
LONGEST_ID = 4096

ROWS = Rows()
Answer = tuple[str, object]

HELLO: Answer = ("hello", "upstream")
IDENTIFIER: Answer = ("log_id", "0000A7")


def point(nanoseconds: int) -> Answer:
    """A commit point."""
    return ("commit_point", nanoseconds)


def bytes_of(answer: Answer) -> bytes:
    """The frame of what a server says; bytes are as they are."""
    kind, what = answer
    if kind == "raw":
        return bytes(what)
    return frame({"hello": messages.server_hello, "log_id": messages.log_id, "commit_point": messages.commit_point,
        "error": messages.error}[kind](what))


class Log:
    """A log of the store, and what is kept of its relaying."""

    def __init__(self, number: int, records: Sequence[Record], complete: bool) -> None:
        """Nothing is kept."""
        self.number, self.records, self.complete = number, list(records), complete
        self.id: str | None = None
        self.point: int | None = None
        self.done = False

    def opening(self) -> bytes:
        """What is put at once: a hello, and a restart at the kept point, or an accept with its entries by key."""
        first = messages.accept(SUBMIT, dict(sorted(INFO.items())))
        if self.begins() is not None:
            first = messages.restart(self.id, self.point)
        return frame(messages.hello("lsv 1")) + frame(first)

    def begins(self) -> int | None:
        """How many records there are up to the first that ends at the kept point, or None if all are sent."""
        if self.id is None or self.point is None:
            return None
        at = ends(self.records)
        return at.index(self.point) + 1 if self.point in at else None

    def rest(self) -> bytes:
        """The records after that one, and the exit."""
        left = self.records[self.begins() or 0 :]
        return b"".join(frame(messages.record(record)) for record in left) + frame(messages.exited(RUN_TIME))

    def relay(self, answers: Sequence[Answer], end: str) -> tuple[list[str], bytes, int, bool, str]:
        """The answers' words, what is put, how much is read, whether the end was read, and what becomes of the log.

        Each answer comes once all that may be said before it is put, in a read of its own.
        """
        put, known, asked = self.opening(), self.begins() is not None, self.begins() is not None
        if known:
            put += self.rest()
        words, read, whole, what = [], 0, False, ""
        for answer in answers:
            kind, said = answer
            words.append(f"{len(put)}@{bytes_of(answer).hex()}")
            if what:
                continue
            read += len(bytes_of(answer))
            if kind == "log_id" and len(said) > LONGEST_ID:
                what = f"identifier of {len(said)} bytes"
            elif kind == "log_id" and not known:
                self.id, self.point, known = said, None, True
                put += self.rest()
            elif kind == "commit_point" and said > (elapsed(self.records) if known else 0):
                what = f"strange {said}"
            elif kind == "commit_point" and known:
                self.point, asked, whole = said or self.point, False, said == elapsed(self.records)
            elif kind == "error":
                if asked:
                    self.id = self.point = None
                what = f"said {len(said)} bytes"
            elif kind == "raw":
                what = "malformed" if said != b"\0\x20\0\1" else "message of 2097153 bytes"
        if what:
            return words, put, read, False, what
        self.done = whole
        how = "relayed" if whole else "ended" if end == "end" else "not yet"
        return words, put, read, end == "end", how


class Store:
    """A store, and the runs over it."""

    def __init__(self, title: str, *conf: str) -> None:
        """A new store with these settings."""
        ROWS.title(title)
        ROWS.case("store")
        for line in conf or CONF:
            ROWS.case(f"conf {line}")
        self.logs: list[Log] = []

    def session(self, records: Sequence[Record] = RECORDS, complete: bool = True) -> Log:
        """`once` stores a session."""
        sent = [frame(messages.hello("Sudo 1.9.15")), frame(messages.accept(SUBMIT, INFO))]
        sent += [frame(messages.record(record)) for record in records]
        if complete:
            sent.append(frame(messages.exited(RUN_TIME)))
        ROWS.case(f"session {b''.join(sent).hex()}")
        ROWS.case("run once -f conf", "status 0 ")
        self.logs.append(Log(len(self.logs) + 1, records, complete))
        return self.logs[-1]

    def relay(self, *connections: tuple[str, Sequence[Answer]] | None) -> None:
        """`relay` runs. Each connection has how its input ends and what is answered; the last may be None, refused."""
        given, reports, shown, left, reached = [], [], [], 0, True
        rest = list(connections)
        for log in self.logs:
            what = "passed"
            if log.done:
                what = "marked"
            elif log.complete and not reached:
                what = "untried"
            elif log.complete:
                connection = rest.pop(0)
                if connection is None:
                    shown.append(f"connection {HOST} refused")
                    what, reached = "unreached", False
                else:
                    words, put, read, ended, what = log.relay(connection[1], connection[0])
                    count = sum(len(bytes_of(answer)) for answer in connection[1])
                    given.append(f"answer {connection[0]} {count} {'+'.join(words)}".rstrip())
                    shown.append(f"connection {HOST} read {read}{', ended' if ended else ''}, put {put.hex()}")
            left += log.complete and not log.done
            reports.append(f"log {log.number} {what}")
        status = f"status 8 {left} logs pending" if left else "status 0 "
        for line in given:
            ROWS.case(line)
        ROWS.case("run relay -f conf", *shown, *reports, status)


def main() -> None:
    """Writes the rows."""
    store = Store("a log is gone on with at its last commit point, and marked by that of its whole time")
    store.session()
    store.relay(("end", [HELLO, IDENTIFIER, point(SECOND + SECOND // 2)]))
    store.relay(("silent", [HELLO, point(3 * SECOND + SECOND // 2)]))
    store.relay()

    store = Store("a commit point above what was sent: the identifier stays, and no point is kept")
    store.session()
    store.relay(("end", [HELLO, IDENTIFIER, point(5 * SECOND)]))
    store.relay(("silent", [HELLO, ("log_id", "0000B1"), point(3 * SECOND + SECOND // 2)]))

    unnamed = CONF[:4] + ("[relay]", "store_first = on")
    for number, conf in enumerate((CONF[:-1], CONF[:-1] + ("store_first = off",), unnamed)):
        store = Store(f"no upstream, {number}", *conf)
        store.session()
        ROWS.case("run relay -f conf", "status 1 no upstream")

    store = Store("nothing to relay")
    store.relay()
    store.session(complete=False)
    store.relay()

    store = Store("a line of the settings is refused", "[relay]", "store_first = maybe")
    ROWS.case("run relay -f conf", "status 3 settings line 2")
    ROWS.case("run relay -f conf on", "status 2 usage")

    store = Store("some logs are relayed, and others are not")
    for records in (RECORDS, RECORDS[:1], RECORDS[:2], []):
        store.session(records)
    store.relay(("silent", [HELLO, IDENTIFIER]), ("silent", [HELLO, ("log_id", "0000A8"), point(SECOND // 2)]),
        ("end", []), ("silent", [HELLO, ("log_id", "0000A9"), point(0)]))
    store.relay(("end", [HELLO, IDENTIFIER, point(SECOND // 2), point(3 * SECOND + SECOND // 2)]), None)
    store.relay(("silent", [HELLO, ("log_id", "0000AA"), point(SECOND // 2), point(SECOND + SECOND // 2)]))
    store.relay()

    store = Store("after a connection that can't be made no further one is tried")
    for records in (RECORDS, RECORDS[:1], RECORDS[:2]):
        store.session(records)
    store.session(complete=False)
    store.relay(("end", [HELLO, IDENTIFIER, point(3 * SECOND + SECOND // 2)]), None)
    store.relay(None)
    store.relay(
        ("end", [HELLO, ("log_id", "0000A8"), point(SECOND // 2)]),
        ("silent", [HELLO, ("log_id", "0000A9"), point(SECOND + SECOND // 2)]),
    )
    store.relay()

    store = Store("an error after a restart drops what is kept, and another error does not")
    store.session()
    store.relay(("end", [HELLO, ("error", "busy")]))
    store.relay(("end", [HELLO, IDENTIFIER, point(SECOND // 2)]))
    store.relay(("end", [HELLO, point(SECOND + SECOND // 2), ("error", "device fault")]))
    store.relay(("end", [HELLO, ("error", "no such log")]))
    store.relay(("silent", [HELLO, ("log_id", "0000B2"), point(3 * SECOND + SECOND // 2)]))

    store = Store("what no log server says")
    store.session()
    for answer in (("log_id", "x" * 4097), ("raw", b"\0\x20\0\1"), ("raw", b"\0\0\0\1\xff")):
        store.relay(("silent", [HELLO, answer]))
    store.relay(("silent", [HELLO, ("log_id", "x" * 4096), point(3 * SECOND + SECOND // 2)]))

    ROWS.write(sys.argv[1])


if __name__ == "__main__":
    main()
