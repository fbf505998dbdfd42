#!/usr/bin/env python3
"""Writes the cases of lsvt_rows_send (`stdin`) and what must be printed of them (`stdout`).

usage: rows.py FOLDER

It is a program of its own: it writes stores by oracle/store.py and messages by oracle/messages.py, and works out what
is put and printed by the sentences of sudo_sendlog(8) and docs/FORMATS.md. It knows nothing of what the crates answer.
"""
from __future__ import annotations

import sys
from collections.abc import Sequence
from typing import Any

from oracle import lines, messages, store
from oracle.records import SECOND, Record, elapsed
from oracle.rows import Rows
from oracle.wire import frame, scalar

ROWS = Rows()
case, title = ROWS.case, ROWS.title

INFO: dict[str, Any] = {
    "columns": 80, "command": "/usr/bin/id", "lines": 24, "runargv": ["id", "-u"], "rungid": 0, "rungroup": "root",
    "runuid": 0,
    "runuser": "root", "submitcwd": "/home/ann", "submithost": "web1", "submituser": "ann", "ttyname": "/dev/pts/0",
}
SUBMIT = 1700000000 * SECOND
HEAD = lines.head(SUBMIT, INFO)
RECORDS: list[Record] = [(500000000, "ttyout", b"# "), (1000000000, "ttyout", b"id -u"), (0, "ttyout", b"\r\n0\r\n"),
    (2000000000, "winsize", 30, 100)]
EXIT = lines.exit_line(3_600_000_000, 0)

# ---- stores


def file(number: int, name: str, text: bytes) -> None:
    """A file of a log."""
    case(f"file {number} {name} {text.hex()}".rstrip())


def log(records: Sequence[Record], ended: bytes | None, old: bool = False, **changed: bytes | None) -> None:
    """A store of one log, complete if it has an exit; a file that is changed to None is left out."""
    case("store")
    files: dict[str, bytes | None] = {**store.files_of(HEAD, records, ended)}
    kept = {name: text for name, text in files.items() if text is not None}
    body = store.body_text(store.COMPLETE if ended else store.FLUSHED, records, kept)
    files["commit" if old else "slots"] = store.old_journal([body]) if old else store.slots_text(body)
    files.update({name.replace("_json", ".json"): text for name, text in changed.items()})
    for name, text in files.items():
        if text is not None:
            file(1, name, text)


# ---- what a client puts


def seconds(nanoseconds: int) -> str:
    """Seconds with nine digits after the point."""
    return f"{nanoseconds // SECOND}.{nanoseconds % SECOND:09}"


def frames(*sent: bytes) -> bytes:
    """The frames of messages."""
    return b"".join(map(frame, sent))


HELLO = messages.hello("lsv 1")
ACCEPT = messages.accept(SUBMIT, INFO)
EXITED = messages.exited(3_600_000_000, 0)


def anew(records: Sequence[Record], exited: bool = True) -> bytes:
    """A log that is sent anew."""
    return frames(HELLO, ACCEPT, *map(messages.record, records), *([EXITED] if exited else []))


def resumed(log_id: str, point: int, records: Sequence[Record], exited: bool = True) -> bytes:
    """A log that goes on with these records."""
    return frames(HELLO, messages.restart(log_id, point), *map(messages.record, records), *([EXITED] if exited else []))


# ---- what a server sends

GREETING = messages.server_hello("lsv 1")


Held = tuple[bytes, bytes]


def server(cut: str, *sent: bytes | Held, after: int = 10**9) -> None:
    """What the server sends, and whether its input then ends or it falls silent.

    What is sent at once comes in one read. A pair is a message that comes in a read of its own, once this was put.
    """
    at_once = [it for it in sent if isinstance(it, bytes)]
    held = [f"{len(put)}:{frame(message).hex()}" for message, put in (it for it in sent if not isinstance(it, bytes))]
    case(" ".join([f"answer {cut} {after}", f"0:{frames(GREETING, *at_once).hex()}", *held]))


def at(put: bytes, *sent: bytes) -> list[Held]:
    """Messages that come once this was put."""
    return [(message, put) for message in sent]


ID = messages.log_id("0000A7")


def commit(nanoseconds: int) -> bytes:
    """A commit point."""
    return messages.commit_point(nanoseconds)


def printed(*shown: str | bytes) -> str:
    """What is printed: a line each."""
    return f"printed {b''.join((it.encode() if isinstance(it, str) else it) + bytes([10]) for it in shown).hex()}"


def id_line(log_id: str = "0000A7") -> str:
    """The line of an identifier."""
    return f"id {log_id}"


def commit_line(nanoseconds: int) -> str:
    """The line of a commit point."""
    return f"commit {seconds(nanoseconds)}"


def ran(put: bytes, status: str, *shown: str | bytes, host: str = "localhost:30343") -> list[str]:
    """What is printed of a run that connects."""
    return [f"host {host}", f"put {put.hex()}", printed(*shown), f"status {status}"]


def none(status: str) -> list[str]:
    """What is printed of a run that connects to nobody."""
    return [printed(), f"status {status}"]


ALL = elapsed(RECORDS)
WHOLE, PARTLY, OPENING = anew(RECORDS), anew(RECORDS[:3], False), anew([], False)

title("a whole log")
log(RECORDS, EXIT)
for cut in ("silent", "end"):
    server(cut, ID, *at(WHOLE, commit(ALL)))
    case("run 000001", *ran(WHOLE, "0 Sent", id_line(), commit_line(ALL)))
case("run -d /srv/io -h web2 -p 343 000001", *ran(WHOLE, "0 Sent", id_line(), commit_line(ALL), host="web2:343"))
server("end", ID, *at(WHOLE, commit(1_500_000_000), commit(ALL), commit(ALL)))
case("run 000001",
    *ran(WHOLE, "0 Sent", id_line(), commit_line(1_500_000_000), commit_line(ALL), commit_line(ALL)))

title("a commit point that is read before the exit was put, of a log of 16 records")
SIXTEEN: list[Record] = [(100_000_000, "ttyout", b"%d" % n) for n in range(16)]
log(SIXTEEN, EXIT)
BEFORE, POINT = anew(SIXTEEN, False), elapsed(SIXTEEN)
server("end", ID, *at(BEFORE, commit(POINT)))
case("run 000001", *ran(anew(SIXTEEN), "8 Ended", id_line(), commit_line(POINT)))
server("silent", ID, *at(BEFORE, commit(POINT)))
case("run 000001", *ran(anew(SIXTEEN), "8 NotYet", id_line(), commit_line(POINT)))
server("end", ID, *at(BEFORE, commit(POINT)), *at(anew(SIXTEEN), commit(POINT)))
case("run 000001", *ran(anew(SIXTEEN), "0 Sent", id_line(), commit_line(POINT), commit_line(POINT)))
log(SIXTEEN, None)
server("silent", ID, *at(BEFORE, commit(POINT)))
case("run 000001", *ran(BEFORE, "0 Sent", id_line(), commit_line(POINT)))

title("after the last commit point")
log(RECORDS, EXIT)
# what comes then is no progress: the 30 s of silence have begun before it
for later, shown in (
    (GREETING, []),
    (ID, [id_line()]),
    (commit(500_000_000), [commit_line(500_000_000)]),
    (commit(ALL), [commit_line(ALL)]),
):
    for cut, status in (("end", "0 Sent"), ("silent", "8 NotYet")):
        server(cut, ID, *at(WHOLE, commit(ALL), later))
        case("run 000001", *ran(WHOLE, status, id_line(), commit_line(ALL), *shown))
for last, status in (
    (commit(ALL + 1), f"8 Strange {ALL + 1}"),
    (messages.error("no room"), f"8 Said {b'no room'.hex()}"),
    (bytes.fromhex("22ff"), "8 Malformed"),
):
    server("end", ID, *at(WHOLE, commit(ALL), last))
    case("run 000001", *ran(WHOLE, status, id_line(), commit_line(ALL)))
server("end", ID, *at(WHOLE, commit(ALL), messages.error("no room")), after=len(frames(GREETING, ID, commit(ALL))) + 3)
case("run 000001", *ran(WHOLE, "8 Ended", id_line(), commit_line(ALL)))

title("a log that goes on")
REST = resumed("0000A7", 1_500_000_000, RECORDS[2:])
server("silent", *at(REST, commit(ALL)))
case("run -i 0000A7 -r 1.5 000001", *ran(REST, "0 Sent", commit_line(ALL)))
OTHER = resumed("/../00/00/01", 500_000_000, RECORDS[1:])
server("silent", *at(OTHER, commit(ALL)))
case("run -r 0.5 000001 -i /../00/00/01", *ran(OTHER, "0 Sent", commit_line(ALL)))
case("run -i 0000A7 -r 1.2 000001", *none("4 Log NoPoint 1200000000"))
case("run -i 0000A7 -r 0 000001", *none("4 Log NoPoint 0"))

title("up to an elapsed time")
server("silent", ID, *at(PARTLY, commit(1_500_000_000)))
case("run -s 1.5 000001", *ran(PARTLY, "0 Sent", id_line(), commit_line(1_500_000_000)))
case("run -s 3.499999999 000001", *ran(PARTLY, "0 Sent", id_line(), commit_line(1_500_000_000)))
MIDDLE = resumed("0000A7", 500_000_000, RECORDS[1:3], False)
server("silent", *at(MIDDLE, commit(1_500_000_000)))
case("run -i 0000A7 -r 0.5 -s 1.5 000001", *ran(MIDDLE, "0 Sent", commit_line(1_500_000_000)))
server("silent", ID)
case("run -s 0.4 000001", *ran(OPENING, "0 Sent", id_line()))
server("silent", ID, *at(PARTLY, commit(500_000_000)))
case("run -s 1.5 000001", *ran(PARTLY, "8 NotYet", id_line(), commit_line(500_000_000)))
case("run -i 0000A7 -r 1.5 -s 1 000001", *ran(resumed("0000A7", 1_500_000_000, [], False), "0 Sent"))
server("silent", ID, *at(anew(RECORDS, False), commit(ALL)))
case("run -s 4 000001", *ran(anew(RECORDS, False), "0 Sent", id_line(), commit_line(ALL)))

title("without records")
case("run -A 000001", *ran(frames(HELLO, messages.accept(SUBMIT, INFO, False)), "0 Sent"))
case("run -R no 000001", *ran(frames(HELLO, messages.refusal("reject", SUBMIT, "no", INFO)), "0 Sent"))

title("an answer that isn't the last commit point")
NO_TIME = messages.server("commit_point", scalar(1, 1) + scalar(2, 10**9))
for sent, status, *shown in (
    ([], "8 NotYet"),
    ([commit(1_500_000_000)], "8 NotYet", commit_line(1_500_000_000)),
    ([commit(5 * SECOND)], "8 Strange 5000000000"),
    ([NO_TIME], f"8 Strange {2**63 - 1}"),
    ([messages.error("no room")], f"8 Said {b'no room'.hex()}"),
    ([messages.server("abort", "stopped")], f"8 Said {b'stopped'.hex()}"),
    ([bytes.fromhex("22ff")], "8 Malformed"),
):
    server("silent", ID, *at(WHOLE, *sent))
    case("run 000001", *ran(WHOLE, status, id_line(), *shown))
for sent, status, *shown in (
    ([messages.log_id("x" * 4097)], "8 LongId 4097"),
    ([ID, messages.error("no room")], f"8 Said {b'no room'.hex()}", id_line()),
    ([ID, commit(ALL)], f"8 Strange {ALL}", id_line()),
    ([commit(1)], "8 Strange 1"),
    ([commit(0)], "8 NotYet", commit_line(0)),
):
    server("silent", *sent)
    case("run 000001", *ran(OPENING, status, *shown))
server("end", ID)
case("run 000001", *ran(WHOLE, "8 Ended", id_line()))
server("end", after=0)
case("run 000001", *ran(OPENING, "8 Ended"))
server("silent", after=0)
case("run 000001", *ran(OPENING, "8 NotYet"))
case(f"answer silent 1000000 0:{(frames(GREETING) + bytes.fromhex('00200001')).hex()}")
case("run 000001", *ran(OPENING, "8 TooLarge 2097153"))

title("an identifier that a terminal could obey")
for raw, shown_so in (
    (b"a\xffb", "a\ufffdb"),
    (b"\x1b[2J\r\n000001\ncommit 3.500000000", "\\x1b[2J\\x0d\\x0a000001\\x0acommit 3.500000000"),
    (b"\x00\x7f\xc2\x80\xc2\x9f\xc2\xa0\xc2", "\\x00\\x7f\\x80\\x9f\u00a0\ufffd"),
    ("b\u00e4r\\x1b".encode(), "b\u00e4r\\x1b"),
):
    server("silent", messages.server("log_id", raw), *at(WHOLE, commit(ALL)))
    case("run 000001", *ran(WHOLE, "0 Sent", f"id {shown_so}", commit_line(ALL)))

title("a write that fails")
server("silent", ID, *at(b"", commit(ALL)))
case("fail link 4 000001", *ran(OPENING, "8 Failed", id_line(), commit_line(ALL)))
case("fail link 5 000001", *ran(anew(RECORDS, False), "8 Failed", id_line(), commit_line(ALL)))
server("silent", ID, *at(b"", messages.error("no room")))
case("fail link 4 000001", *ran(OPENING, f"8 Said {b'no room'.hex()}", id_line()))
server("silent", ID, *at(b"", commit(ALL + 1)))
case("fail link 5 000001", *ran(anew(RECORDS, False), "8 Failed", id_line()))

title("a connection that can't be made")
case("fail link 1 000001", *ran(b"", "8 Unreached"))

title("a read that fails after the last commit point")
server("silent", ID, *at(WHOLE, commit(ALL)))
case("fail link 7 000001", *ran(WHOLE, "8 Failed", id_line(), commit_line(ALL)))

title("other logs")
case("run 000002", *none("4 Log Absent"))
case("run 00000a", *none("4 Log Absent"))
case("run 0001", *none("4 Log Absent"))
log(RECORDS, EXIT, old=True)
case("run 000001", *ran(WHOLE, "0 Sent", id_line(), commit_line(ALL)))
log(RECORDS, None)
server("silent", ID, *at(anew(RECORDS, False), commit(ALL)))
case("run 000001", *ran(anew(RECORDS, False), "0 Sent", id_line(), commit_line(ALL)))
log([], None)
server("silent", ID)
case("run 000001", *ran(OPENING, "0 Sent", id_line()))
log([], EXIT)
server("silent", ID, *at(anew([]), commit(0)))
case("run 000001", *ran(anew([]), "0 Sent", id_line(), commit_line(0)))
server("silent", ID, commit(0))
case("run 000001", *ran(anew([]), "8 NotYet", id_line(), commit_line(0)))
log(RECORDS, EXIT, timing=None)
case("run 000001", *none("4 Log Damaged(Timing)"))
case("run -A 000001", *none("4 Log Damaged(Timing)"))
log(RECORDS, EXIT, exit_json=b"?" * len(EXIT))
server("silent", ID, *at(anew(RECORDS, False), commit(ALL)))
case("run 000001", *ran(anew(RECORDS, False), "4 Log Damaged(Exit)", id_line()))
case("run -s 9 000001", *ran(anew(RECORDS, False), "0 Sent", id_line(), commit_line(ALL)))
log(RECORDS, EXIT, timing=b"4 0.500000000 2\n4 1.000000000 5\nx 0.000000000 5\n5 2.000000000 30 100\n")
case("run 000001", *ran(anew(RECORDS[:2], False), "4 Log Damaged(Timing)", id_line()))
server("silent", ID, *at(anew(RECORDS[:1], False), commit(ALL)))
case("run -s 1 000001", *ran(anew(RECORDS[:1], False), f"8 Strange {ALL}", id_line()))

title("words that are no command")
log(RECORDS, EXIT)
for words in ("", "000001 000001", "--help", "-h", "-V", "~", "-A -s 1 000001", "-A -R no 000001",
    "-A -i x -r 1 000001", "-A -r 1 000001", "-R no -s 1 000001", "-i x 000001", "-r 1 000001", "-i x -r y 000001",
    "-s 1.0000000001 000001", "-p 0 000001", "-p 01 000001", "-p 65536 000001", "-p x 000001", "-s 1 -s 2 000001", "-R",
    "-x 000001", "-r 9223372036.854775808 -i x 000001"):
    case(f"run {words}".rstrip(), *none("2 Usage"))

title("each call fails in turn")
for words, put in (("000001", WHOLE), ("-i 0000A7 -r 1.5 000001", REST), ("-s 1.5 000001", PARTLY),
    ("-A 000001", WHOLE)):
    server("silent", ID, *at(put, commit(1_500_000_000), commit(1_500_000_000 if put is PARTLY else ALL)))
    case(f"each disk {words}", "disk 4 then 0, true")
    case(f"each link {words}", "link 8 then 0, true")
server("silent", ID, *at(WHOLE, commit(1_500_000_000), commit(ALL)))
case("each sink 000001", "sink 6 then 0, true")

ROWS.write(sys.argv[1])
