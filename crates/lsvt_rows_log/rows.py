#!/usr/bin/env python3
"""Writes the cases of lsvt_rows_log (`stdin`) and what must be printed of them (`stdout`).

usage: rows.py FOLDER

It is a program of its own: it writes the files of a log by oracle/store.py, and works out slots, cuts and windows by
the sentences of docs/FORMATS.md. It knows nothing of what the crates answer. The lengths and bytes that stand in it
as literals were worked out apart from it.
"""
from __future__ import annotations

import sys
from collections.abc import Iterable, Sequence
from typing import Any

import faults
from oracle import lines, store
from oracle.records import SECOND, STREAMS, Record, cut_at, elapsed, line_of
from oracle.rows import Rows
from oracle.store import COMPLETE, CUT, FLUSHED, MADE, PARTS, body_text, files_of

FILES = PARTS + ("slots", "commit")
WINDOW = 65536
SUBMIT = 1_700_000_000 * SECOND
Entry = tuple[str, str, str]
Files = dict[str, bytes]
ROWS = Rows()
case, title = ROWS.case, ROWS.title


class Log:
    """A log that is made, filled, cut and finished, with the journal's two slots."""

    def __init__(self, number: int, submit: int, info: dict[str, Any], entries: Iterable[Entry]) -> None:
        """The log is made, by a case for each entry."""
        self.number, self.head = number, lines.head(submit, info)
        self.records: list[Record] = []
        self.staged: list[Record] = []
        self.exit: bytes | None = None
        self.cuts, self.slots, self.selected = 0, [b"", b""], 1
        for key, kind, value in entries:
            case(f"entry {key} {kind} {value}")
        case(f"create {number} {submit}")
        self.enter(MADE)

    def files(self) -> Files:
        """The data files."""
        return files_of(self.head, self.records, self.exit)

    def enter(self, kind: int) -> None:
        """The slot that isn't selected gets the entry, and is selected."""
        self.selected = 1 - self.selected
        self.slots[self.selected] = body_text(kind, self.records, self.files(), self.cuts)

    def append(self, *records: Record) -> None:
        """Records are staged."""
        for delay, event, *rest in records:
            words = rest[0].hex() if event in STREAMS else f"{rest[0]} {rest[1]}"
            case(f"append {delay} {event} {words}")
        self.staged += records

    def commit(self, kind: int) -> str:
        """What is staged is committed. Gives what is printed."""
        self.records, self.staged = self.records + self.staged, []
        self.enter(kind)
        return f"to {elapsed(self.records)}"

    def flush(self) -> None:
        """What is staged is committed."""
        case("flush", self.commit(FLUSHED))

    def finish(self, run: int, value: int) -> None:
        """What is staged is committed with the exit."""
        self.exit = lines.exit_line(run, value)
        case(f"finish {run} {value}", self.commit(COMPLETE))

    def cut(self, point: int) -> None:
        """The records through the first that ends at the point stay; the bytes of the others are committed no more."""
        kept = list(cut_at(self.records, point) or [])
        self.cuts += len(kept) < len(self.records)
        self.records = kept
        case(f"cut {self.number} {point}", f"to {point}")
        self.enter(CUT)

    def journal(self) -> bytes:
        """The text of slots."""
        return bytes([1, self.selected]) + b"".join(self.slots)

    def show(self, **lengths: int) -> None:
        """The nine files, byte for byte."""
        files = dict(self.files(), slots=self.journal())
        for name, length in lengths.items():
            assert len(files[name.replace("_json", ".json")]) == length, (name, length)
        case(f"show {self.number}", *shown(files))

    def view(self) -> None:
        """What is read of the log."""
        ended = "exit 0" if self.exit else "no exit"
        case(
            f"view {self.number}",
            f"{len(self.records)} records to {elapsed(self.records)}, {self.cuts} cuts, {ended}",
        )

    def open(self) -> None:
        """The log is opened."""
        case(f"open {self.number}", f"to {elapsed(self.records)}")


def shown(files: Files) -> list[str]:
    """The files as they are printed."""
    return [f"{name} {files[name].hex()}" for name in FILES if name in files]


def given(files: Files) -> None:
    """A store that has these files of log 1."""
    case("store")
    for name in FILES:
        if name in files:
            case(f"file 1 {name} {files[name].hex()}".rstrip())


def bodies_of(head: bytes, turns: Iterable[tuple[int, Sequence[Record], bytes | None]]) -> list[bytes]:
    """The bodies of a journal's entries: each has a kind, records and perhaps an exit."""
    return [body_text(kind, records, files_of(head, records, ended)) for kind, records, ended in turns]


INFO: dict[str, Any] = {
    "columns": 80, "command": "/usr/bin/id", "lines": 24, "runargv": ["id", "-u"], "rungid": 0, "rungroup": "root",
    "runuid": 0,
    "runuser": "root", "submitcwd": "/home/ann", "submithost": "web1", "submituser": "ann", "ttyname": "/dev/pts/0",
}
# As sudo sends them: in another order than that of the file.
ORDER = ("command", "runargv", "runuser", "runuid", "rungid", "rungroup", "submituser", "submithost", "submitcwd",
    "ttyname", "lines", "columns")


def entry(key: str) -> Entry:
    """An entry of INFO: its key, its kind, and its value in words."""
    value = INFO[key]
    if isinstance(value, int):
        return key, "number", str(value)
    if isinstance(value, list):
        return key, "texts", " ".join(text.encode().hex() for text in value)
    return key, "text", value.encode().hex()


def session() -> Log:
    """A log in an empty store."""
    case("store")
    return Log(1, SUBMIT, INFO, [entry(key) for key in ORDER])


FIRST: list[Record] = [(500000000, "ttyout", b"# "), (1000000000, "ttyout", b"id -u"), (0, "ttyout", b"\r\n0\r\n")]
LAST: list[Record] = [(2000000000, "winsize", 30, 100)]

title("the files of a whole session")
log = session()
log.append(*FIRST)
log.flush()
log.append(*LAST)
log.finish(3600000000, 0)
log.show(log_json=277, exit_json=86, timing=69, ttyout=12, slots=180)
BEGIN = "01000300000000000000040000" + "0000d09dc300000000000000011500000000000000560000000000000045"
assert log.journal()[:2] == b"\x01\x00" and log.journal().hex().startswith(BEGIN)
log.view()

title("the files of a session without a record")
log = session()
log.finish(0, 0)
log.show(timing=0, ttyout=0, slots=180)
assert log.journal()[1] == 1 and log.journal()[2] == 0 and log.journal()[91] == 3
log.view()

title("the files of a session that was cut behind its first record")
log = session()
log.append((10**9, "ttyout", b"a"), (0, "ttyout", b"b"), (0, "ttyin", b"c"))
log.flush()
log.open()
log.cut(10**9)
assert log.slots[0][0] == 2 and log.slots[0][-8:] == (1).to_bytes(8, "big")
log.append((0, "ttyout", b"d"), (0, "ttyin", b"e"))
log.flush()
log.finish(10**9, 0)
log.show()
log.view()


# ---- the files of an older store, which a server with a journal of gates wrote

OLD_NUMBERS = bytes.fromhex("010000000000000000000000010100000001000000000000000100")
TAKEN_OVER = bytes.fromhex("0100000000010000000000000001")


def old_store() -> tuple[Files, list[bytes]]:
    """The files of the whole session, with the journal of gates of its three turns."""
    head, ended = lines.head(SUBMIT, INFO), lines.exit_line(3_600_000_000, 0)
    bodies = bodies_of(head, ((MADE, [], None), (FLUSHED, FIRST, None), (COMPLETE, FIRST + LAST, ended)))
    files = dict(files_of(head, FIRST + LAST, ended), commit=store.old_journal(bodies))
    assert len(files["commit"]) == 271
    given(files)
    case(f"file lane.0 commit {OLD_NUMBERS.hex()}")
    return files, bodies


title("a log of an older store is read, and no file changes")
files, bodies = old_store()
case("view 1", "4 records to 3500000000, 0 cuts, exit 0")
case("show 1", *shown(files))

title("it is taken over where it is opened: its last entry stands in the first slot, and the older journal stays")
case("open 1", "to 3500000000")
taken = dict(files, slots=store.slots_text(bodies[2]))
assert len(taken["slots"]) == 91 and taken["slots"][:3] == b"\x01\x00\x03"
case("show 1", *shown(taken))
case("view 1", "4 records to 3500000000, 0 cuts, exit 0")
case("finish 0 0", "the log is complete")

title("its numbers are taken over too, and go on")
case("show lane.0", f"commit {OLD_NUMBERS.hex()}")
case("numbers 0 1")
case("show lane.0", f"slots {TAKEN_OVER.hex()}", f"commit {OLD_NUMBERS.hex()}")
case("draw", "number 2")
drawn = TAKEN_OVER[:1] + b"\x01" + TAKEN_OVER[2:] + store.numbers_body(2)
assert len(drawn) == 26
case("show lane.0", f"slots {drawn.hex()}", f"commit {OLD_NUMBERS.hex()}")

title("an older log that goes on is cut, with its first count of cuts")
head = lines.head(SUBMIT, INFO)
bodies = bodies_of(head, ((MADE, [], None), (FLUSHED, FIRST, None)))
files = dict(files_of(head, FIRST, None), commit=store.old_journal(bodies))
given(files)
case("open 1", "to 1500000000")
case("cut 1 500000000", "to 500000000")
slots = b"\x01\x01" + bodies[1] + body_text(CUT, FIRST[:1], files_of(head, FIRST[:1], None), 1)
case("show 1", *shown(dict(files, slots=slots)))
case("view 1", "1 records to 500000000, 1 cuts, no exit")


# ---- how much is read at once

def longest(timing: int, streams: int = 0) -> str:
    """What is printed of the longest reads, in bytes."""
    return f"longest reads: timing {min(timing, WINDOW)}, streams {streams}, other files within 65536 true"


title("a log of much timing is opened and cut in windows, without a byte of its streams")
LINES, DATA = 100000, b"0123456789"
case("store")
case("create 1 0", )
case(f"many {LINES} 1000 ttyout {DATA.hex()}")
case("flush", f"to {LINES * 1000}")
line = line_of((1000, "ttyout", DATA))
case("longest")
ROWS.wanted.append(longest(0))
case("open 1", f"to {LINES * 1000}")
case("longest", longest(LINES * len(line)))
case(f"cut 1 {LINES // 2 * 1000}", f"to {LINES // 2 * 1000}")
case("longest", longest(LINES * len(line)))
case("view 1", f"{LINES // 2} records to {LINES // 2 * 1000}, 1 cuts, no exit")
case("longest", longest(LINES // 2 * len(line), len(DATA)))

title("a log of little timing is read whole")
log = session()
log.append(*FIRST)
log.flush()
case("longest", longest(0))
log.open()
case("longest", longest(48))


# ---- a log that is followed while it is written

def found(*records: Record) -> None:
    """Looks that find these records."""
    for delay, event, *rest in records:
        words = rest[0].hex() if event in STREAMS else f"{rest[0]} {rest[1]}"
        case("look", f"record {delay} {event} {words}".rstrip())


def looks(*answers: str) -> None:
    """Looks that find no record."""
    for answer in answers:
        case("look", answer)


RESUMED: list[Record] = [(SECOND, "ttyout", b"one"), (0, "ttyout", b"two"), (0, "ttyin", b"three")]

title("a log is followed while it grows: each record is found once, when it is committed, and then the end")
log = session()
case("follow 1")
looks("nothing", "nothing")
log.append(FIRST[0])
looks("nothing")
log.flush()
found(FIRST[0])
looks("nothing", "nothing")
log.append(*FIRST[1:])
log.flush()
found(*FIRST[1:])
looks("nothing")
log.append(*LAST)
log.finish(3600000000, 0)
found(*LAST)
looks("end", "end")

title("a log is cut between looks, and grows again")
log = session()
log.append(*RESUMED)
log.flush()
case("follow 1")
found(*RESUMED)
looks("nothing")
log.cut(SECOND)
looks("resumed: 0 cuts, now 1")
log.append(*RESUMED[1:])
log.flush()
looks("resumed: 0 cuts, now 1")
case("follow 1")
found(*RESUMED)
looks("nothing")
log.cut(SECOND)
log.cut(SECOND)
looks("resumed: 1 cuts, now 2")

title("a cut that drops no record goes unnoticed")
log = session()
log.append(*FIRST[:2])
log.flush()
case("follow 1")
found(FIRST[0])
log.cut(elapsed(FIRST[:2]))
log.append(FIRST[2])
log.flush()
found(*FIRST[1:])
log.finish(3600000000, 0)
looks("end")

title("a log that is absent isn't followed")
case("store")
case("follow 1", "there is no such log")


# ---- scripts with each device call failing, and a crash behind each

title("what a fault or a crash leaves of a log is what stood before the step, or what stands after it")
for script, printed in faults.scripts():
    ROWS.cases.extend(script)
    ROWS.wanted.extend(printed)

if __name__ == "__main__":
    ROWS.write(sys.argv[1])
