#!/usr/bin/env python3
"""Writes the worked sessions at the end of lsvt_conversations' `stdin` and `stdout`, from conversation 25 on.

usage: rows.py FOLDER

It is a program of its own: it spells the messages by the tables of sudo_logsrv.proto(5), and what must be answered and
stored by docs/FORMATS.md and the rules beside each session, and knows nothing of what the crates answer.
"""
from __future__ import annotations

import sys
from collections.abc import Callable, Iterator, Sequence
from typing import Any

from oracle import lines, messages
from oracle.messages import Info, restart
from oracle.records import SECOND, STREAMS, Record, elapsed, stream_of, timing_of
from oracle.wire import frame

SUBMIT = 1_700_000_000 * SECOND
SUBMIT_DATE = "2023-11-14T22:13:20Z"
ID_LINE = (
    f"{SUBMIT_DATE} : ann : HOST=web1 ; TTY=pts/0 ; PWD=/home/ann ; USER=root ; TSID=000001"
    " ; COMMAND=/usr/bin/id -u"
)
START_DATE = "1970-01-01T00:00:00Z"  # the moment of each turn is 0
OUT, IN = "ttyout", "ttyin"
Job = tuple[int, str | bytes]

# ---- messages of the protocol


def hello() -> bytes:
    """A client's hello."""
    return messages.hello("Sudo 1.9.15")


def accept(info: Info) -> bytes:
    """An accept that announces records."""
    return messages.accept(SUBMIT, info)


def reject(reason: str, info: Info) -> bytes:
    """A reject."""
    return messages.refusal("reject", SUBMIT, reason, info)


def ended(run: int = 0) -> bytes:
    """An exit with the value 0."""
    return messages.exited(run)


def ttyin(delay: int, data: bytes) -> bytes:
    """Terminal input."""
    return messages.record((delay, IN, data))


def ttyout(delay: int, data: bytes) -> bytes:
    """Terminal output."""
    return messages.record((delay, OUT, data))


def window(delay: int, rows: int, cols: int) -> bytes:
    """A window's size."""
    return messages.record((delay, "winsize", rows, cols))


# ---- answers


def log_id(number: int) -> bytes:
    """The identifier of a log."""
    return frame(messages.log_id(f"{number:06}"))


def point(nanoseconds: int) -> bytes:
    """A commit point."""
    return frame(messages.commit_point(nanoseconds))


def error(why: str) -> bytes:
    """An error."""
    return frame(messages.error(why))


# ---- sessions


class Session:
    """A conversation: the lines of its jobs, and what must be printed of it."""

    def __init__(self, number: int, heading: str = "lanes 1 prompts off") -> None:
        """The conversation of a number."""
        self.heading = f"conversation {number} lane 0 {heading}"
        self.jobs: list[str] = []
        self.wanted: list[str] = []

    def turn(self, jobs: Sequence[Job], answers: Sequence[Job]) -> None:
        """Jobs and answers, each with its connection's number: bytes, "gone", "shut" or "shut last"."""
        for conn, job in jobs:
            self.jobs.append(f"0.{conn} {job.hex() if isinstance(job, bytes) else job}")
        self.jobs.append("turn")
        for conn, answer in answers:
            self.wanted.append(f"> 0.{conn} {answer.hex() if isinstance(answer, bytes) else answer}")

    def stop(self) -> None:
        """The program stops, and begins again."""
        self.jobs.append("stop")

    def log(
        self, number: int, records: Sequence[Record], end: str = "open", cuts: int = 0,
        head: bytes | None = None, exit_text: bytes | None = None,
    ) -> None:
        """What is stored of a log."""
        self.wanted.append(f"log {number:06} {len(records)} {elapsed(records)} {cuts} {end}")
        texts: list[tuple[str, bytes | None]] = [("timing", timing_of(records))]
        texts += [(name, stream_of(records, name)) for name in STREAMS]
        texts += [("head", head), ("ending", exit_text)]
        self.wanted += [f"  {name} {body.hex()}" for name, body in texts if body]

    def lines(self, *lines: str) -> None:
        """The event lines."""
        self.wanted += [f"line {line}" for line in lines]


def shown(value: Any) -> Any:
    """A value as log.json shows it."""
    if isinstance(value, list):
        return [shown(one) for one in value]
    return lines.shown(value) if isinstance(value, bytes) else value


def head(info: Info) -> bytes:
    """log.json."""
    return lines.head(SUBMIT, {key: shown(value) for key, value in info.items()})


# The four texts that an accept needs that opens a session, and all that sudo sends of `id -u`.
FOUR: Info = {"command": "/bin/a", "runuser": "root", "submituser": "ann", "submithost": "web1"}
ID: Info = {
    "command": "/usr/bin/id", "runargv": ["id", "-u"], "runuser": "root", "runuid": 0, "rungid": 0, "rungroup": "root",
    "submituser": "ann", "submithost": "web1", "submitcwd": "/home/ann", "ttyname": "/dev/pts/0", "lines": 24,
    "columns": 80,
}


def whole_session(n: int) -> Session:
    """A command from its hello to its exit, with all that is stored of it and its event lines."""
    s = Session(n, "lanes 1 prompts off whole")
    s.turn([(1, hello()), (1, accept(ID))], [(1, log_id(1))])
    records = [(SECOND // 2, OUT, b"# "), (SECOND, OUT, b"id -u"), (0, OUT, b"\r\n0\r\n")]
    s.turn([(1, ttyout(r[0], r[2])) for r in records], [(1, point(1_500_000_000))])
    run = 3_600_000_000
    s.turn([(1, window(2 * SECOND, 30, 100)), (1, ended(run))], [(1, point(3_500_000_000)), (1, "shut")])
    assert len(head(ID)) == 277 and len(lines.exit_line(run, 0)) == 86
    s.log(1, records + [(2 * SECOND, "winsize", 30, 100)], "exit", head=head(ID), exit_text=lines.exit_line(run, 0))
    s.lines(
        ID_LINE,
        START_DATE + " : 0.1 : TSID=000001 ; EXIT=0",
    )
    return s


def no_hello(n: int) -> Session:
    """An accept with no hello before it, and its exit with no record: the exit's commit point is at 0."""
    s = Session(n)
    s.turn([(1, accept(ID))], [(1, log_id(1))])
    s.turn([(1, bytes.fromhex("1a020a00"))], [(1, bytes.fromhex("000000021200")), (1, "shut")])
    s.log(1, [], "exit")
    return s


def bad_times(n: int) -> Session:
    """A delay of -1 nanoseconds is refused; one whose varint is 2^32 is 0, since the field has 32 bits."""
    s = Session(n)
    s.turn([(1, accept(FOUR)), (2, accept(FOUR))], [(1, log_id(1)), (2, log_id(2))])
    negative = bytes.fromhex("3a100a0b10ffffffffffffffffff01120178")
    wraps = bytes.fromhex("3a0b0a061080808080101201" + "78")
    s.turn([(1, negative), (2, wraps)], [(1, error("bad time")), (1, "shut"), (2, point(0))])
    s.log(1, [])
    s.log(2, [(0, OUT, b"x")])
    return s


def no_text(n: int) -> Session:
    """Bytes that are no UTF-8 are shown as the replacement character."""
    s = Session(n, "lanes 1 prompts off whole")
    entries = {**FOUR, "runargv": [b"\xff"]}
    s.turn([(1, accept(entries))], [(1, log_id(1))])
    assert b"\xef\xbf\xbd" in head(entries)
    s.log(1, [], head=head(entries))
    s.lines(SUBMIT_DATE + " : ann : HOST=web1 ; USER=root ; TSID=000001 ; COMMAND=/bin/a")
    return s


def three_records(s: Session, conn: int = 1) -> None:
    """A log of three records that all end at 1 s."""
    s.turn([(conn, accept(FOUR)), (conn, ttyout(SECOND, b"x")), (conn, ttyout(0, b"y")), (conn, ttyout(0, b"z"))],
           [(conn, log_id(1)), (conn, point(SECOND))])


def cut_at_the_first(n: int) -> Session:
    """Of three records that end at 1 s a restart there keeps the first alone, and the two others come again."""
    s = Session(n)
    three_records(s)
    s.turn([(1, "gone")], [(1, "shut last")])
    s.turn([(2, bytes.fromhex("220c0a0630303030303112020801"))], [])
    s.turn([(2, ttyout(0, b"Y")), (2, ttyout(0, b"Z"))], [(2, point(SECOND))])
    s.log(1, [(SECOND, OUT, b"x"), (0, OUT, b"Y"), (0, OUT, b"Z")], cuts=1)
    return s


def restart_at_zero(n: int) -> Session:
    """No record ends at 0 but one whose delays are 0."""
    s = Session(n)
    three_records(s)
    s.turn([(2, accept(FOUR)), (2, ttyout(0, b"a")), (2, ttyout(SECOND, b"b"))], [(2, log_id(2)), (2, point(SECOND))])
    s.turn([(1, "gone"), (2, "gone")], [(1, "shut last"), (2, "shut last")])
    s.turn([(3, restart("000001", 0))], [(3, error("no such resume point")), (3, "shut")])
    s.turn([(4, restart("000002", 0))], [])
    s.turn([(4, ended())], [(4, point(0)), (4, "shut")])
    s.log(1, [(SECOND, OUT, b"x"), (0, OUT, b"y"), (0, OUT, b"z")])
    s.log(2, [(0, OUT, b"a")], "exit", cuts=1)
    return s


def one_writer(n: int) -> Session:
    """In one turn: a restart of a log that another writes, its writer's end, and a restart by a third."""
    s = Session(n)
    three_records(s)
    again = restart("000001", SECOND)
    s.turn([(2, again), (1, "gone"), (3, again)], [(2, error("log in use")), (2, "shut"), (1, "shut last")])
    s.turn([(3, ttyout(0, b"Y"))], [(3, point(SECOND))])
    s.log(1, [(SECOND, OUT, b"x"), (0, OUT, b"Y")], cuts=1)
    return s


def no_restart(n: int) -> Session:
    """A complete log, one that isn't there, and an identifier that is none."""
    s = Session(n)
    s.turn([(1, accept(FOUR)), (1, ended())], [(1, log_id(1)), (1, point(0)), (1, "shut")])
    s.turn([(2, restart("000001", 0))], [(2, error("log complete")), (2, "shut")])
    s.turn([(3, restart("00000Z", 0))], [(3, error("no such log")), (3, "shut")])
    s.turn([(4, restart("00000a", 0))], [(4, error("no such log")), (4, "shut")])
    s.log(1, [], "exit")
    return s


def cut_to_two(n: int) -> Session:
    """A restart cuts four records to two, and another run finds the two."""
    s = Session(n)
    four = [(SECOND, OUT, b"1"), (SECOND, OUT, b"2"), (SECOND, OUT, b"3"), (SECOND, OUT, b"4")]
    s.turn([(1, accept(FOUR))] + [(1, ttyout(r[0], r[2])) for r in four], [(1, log_id(1)), (1, point(4 * SECOND))])
    s.turn([(1, "gone"), (2, restart("000001", 2 * SECOND))], [(1, "shut last")])
    s.stop()
    s.turn([(3, restart("000001", 4 * SECOND))], [(3, error("no such resume point")), (3, "shut")])
    s.turn([(4, restart("000001", 2 * SECOND)), (4, ended())], [(4, point(2 * SECOND)), (4, "shut")])
    s.log(1, four[:2], "exit", cuts=1)
    return s


def accept_alone(n: int) -> Session:
    """A connection that ends behind its accept leaves a log without records."""
    s = Session(n, "lanes 1 prompts off whole")
    s.turn([(1, hello()), (1, accept(ID))], [(1, log_id(1))])
    s.turn([(1, "gone")], [(1, "shut last")])
    s.log(1, [], head=head(ID))
    s.lines(ID_LINE)
    return s


def nothing_behind_a_shut(n: int) -> Session:
    """Jobs of a connection that was shut do nothing, in its turn and later."""
    s = Session(n)
    s.turn([(1, accept(FOUR)), (1, ttyout(SECOND, b"x")), (1, ended()), (1, ttyout(SECOND, b"y")), (1, accept(FOUR)),
        (1, restart("000001", SECOND))],
           [(1, log_id(1)), (1, point(SECOND)), (1, "shut")])
    s.turn([(1, accept(FOUR))], [])
    s.log(1, [(SECOND, OUT, b"x")], "exit")
    return s


def rejected(n: int) -> Session:
    """A reject has its line, and ends the session."""
    s = Session(n, "lanes 1 prompts off whole")
    s.turn([(1, reject("no", {"submituser": "ann"}))], [(1, "shut")])
    s.lines(SUBMIT_DATE + " : ann : no")
    return s


def asks_for_a_password(delay: int, cut_short: bool) -> Iterator[tuple[Record, Job]]:
    """Records of a prompt and of what is typed after it, each with the job that brings it."""
    jobs = [(OUT, b"[sudo] password for ann: "), (IN, b"pw")]
    rest = [(IN, b"1\rls"), (OUT, b"\r\n"), (IN, b"id")]
    for stream, data in jobs if cut_short else jobs + rest:
        yield (delay, stream, data), (1, messages.record((delay, stream, data)))


def masked(n: int) -> Session:
    """What is typed behind a prompt is stored as stars, up to the end of its line."""
    s = Session(n, "lanes 1 prompts on")
    both = list(asks_for_a_password(0, False))
    s.turn([(1, accept(FOUR))] + [job for _, job in both], [(1, log_id(1)), (1, point(0))])
    stars = {1: b"**", 2: b"*\rls"}
    s.log(1, [(r[0], r[1], stars.get(i, r[2])) for i, (r, _) in enumerate(both)])
    return s


def masked_again(n: int) -> Session:
    """A log that is gone on with behind a prompt is masked as if it had never been left."""
    s = Session(n, "lanes 1 prompts on")
    both = list(asks_for_a_password(SECOND, True))
    s.turn([(1, accept(FOUR))] + [job for _, job in both], [(1, log_id(1)), (1, point(2 * SECOND))])
    s.stop()
    s.turn([(2, restart("000001", 2 * SECOND))], [])
    s.turn([(2, ttyin(SECOND, b"1\r"))], [(2, point(3 * SECOND))])
    s.log(1, [both[0][0], (SECOND, IN, b"**"), (SECOND, IN, b"*\r")])
    return s


ROWS: list[Callable[[int], Session]] = [
    whole_session, no_hello, bad_times, no_text, cut_at_the_first, restart_at_zero, one_writer, no_restart, cut_to_two,
    accept_alone, nothing_behind_a_shut, rejected, masked, masked_again,
]


def main(folder: str) -> None:
    """Writes the ends of both files, after what stands in them before conversation 25."""
    sessions = [row(25 + i) for i, row in enumerate(ROWS)]
    for name, part_of in [("stdin", "jobs"), ("stdout", "wanted")]:
        with open(f"{folder}/{name}", encoding="utf-8") as file:
            before = file.read().split("conversation 25 ")[0]
        with open(f"{folder}/{name}", "w", encoding="utf-8") as file:
            file.write(before)
            for session in sessions:
                file.write("\n".join([session.heading] + getattr(session, part_of)) + "\n")


if __name__ == "__main__":
    main(sys.argv[1])
