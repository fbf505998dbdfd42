#!/usr/bin/env python3
"""Writes the cases of lsvt_rows_relayed (`stdin`) and what must be printed of them (`stdout`).

usage: rows.py FOLDER

It is a program of its own, which knows nothing of what the crates answer.
"""
from __future__ import annotations

import sys
from collections.abc import Iterable, Sequence

from oracle.messages import accept, commit_point, error, exited, hello, log_id, record, restart, server_hello
from oracle.records import SECOND, Record
from oracle.rows import Rows
from oracle.wire import frame

ROWS = Rows()
case, title = ROWS.case, ROWS.title

ID = "0000A7"
POINT = 3 * SECOND // 2
RECORDS: Sequence[Record] = (
    (SECOND // 2, "ttyout", b"one"), (SECOND, "ttyout", b"two"), (0, "ttyout", b"\r\n0\r\n"),
    (2 * SECOND, "winsize", 30, 100),
)
# in the order of their keys, as they stand in the stored log
INFO = dict(sorted({"command": "/bin/ls", "runuser": "root", "submituser": "alice", "submithost": "h"}.items()))
EXIT = exited(18 * SECOND // 5)
OPENING = (hello("lsv 1"), accept(SECOND, INFO))
KEPT = f"id {ID.encode().hex()}"
KEPT_TO = f"{KEPT} to {POINT}"
ALL = 7 * SECOND // 2
KEPT_TO_ALL = f"{KEPT} to {ALL}"


def sent(messages: Iterable[bytes]) -> str:
    """Messages in their frames, in digits."""
    return b"".join(map(frame, messages)).hex()


def records(after: int) -> list[bytes]:
    """The messages of the records after some."""
    return [record(it) for it in RECORDS[after:]]


WHOLE = sent([*OPENING, *records(0), EXIT])
REST = sent([hello("lsv 1"), restart(ID, POINT), *records(2), EXIT])
EXIT_ALONE = sent([hello("lsv 1"), restart(ID, ALL), EXIT])
HALF = sent(OPENING)
NONE = "no connection"


Held = tuple[str, Sequence[bytes]]


def run(*answers: Sequence[bytes] | Held, cut: str = "end", fails: str = "-", host: str = "") -> str:
    """A run's word: the upstream sends these at once, or once it has these digits; then its side ends or is silent, and
    these calls of the link fail."""
    words, count = [], 0
    for it in answers:
        after, messages = it if isinstance(it, tuple) else ("", it)
        digits = sent(messages)
        count += len(digits) // 2
        words.append(f"{len(after) // 2}@{digits}" if after else digits)
    return f"{host}{cut}:{count}/{fails}/{'+'.join(words)}"


def relay(runs: Sequence[str], *ends: tuple[str, str, str]) -> None:
    """Runs of a relay; and of each its end, what was written and what is kept."""
    case(f"relay {' '.join(runs)}", *(line for end, wrote, keeps in ends for line in (
        end, f"  wrote {wrote}", f"  keeps {keeps}")))


HI, NAME = server_hello("s"), log_id(ID)
FIRST = run([HI, NAME], (WHOLE, [commit_point(POINT)]))
SECOND_RUN = run([HI], (REST, [commit_point(ALL)]))
NOTHING_MORE = run([HI])
OTHER = "other.test:1!"


def conversations() -> None:
    """Runs without faults."""
    title("a log is sent whole, and from its commit point on; then nobody is connected to")
    relay([FIRST, SECOND_RUN, NOTHING_MORE],
          ("ended", WHOLE, KEPT_TO), ("done", REST, "relayed"), ("done", NONE, "relayed"))
    title("the other server may end the connection itself, or be silent")
    relay([run([HI, NAME], (WHOLE, [commit_point(ALL)]), cut="silent"), NOTHING_MORE],
          ("done", WHOLE, "relayed"), ("done", NONE, "relayed"))
    title("a connection that fails after the last commit point marks nothing: the next run asks for it again")
    # the calls are the connect, then writes and reads; the seventh reads what comes after the commit point
    relay([run([HI, NAME], (WHOLE, [commit_point(ALL)]), fails="7"), run([HI], (EXIT_ALONE, [commit_point(ALL)]))],
          ("failed", WHOLE, KEPT_TO_ALL), ("done", EXIT_ALONE, "relayed"))
    title("a commit point above what was sent is refused, and isn't kept")
    relay([run([HI, NAME], (WHOLE, [commit_point(5 * SECOND)]))], (f"strange {5 * SECOND}", WHOLE, KEPT))
    title("a commit point of 0 isn't kept")
    relay([run([HI, NAME], (WHOLE, [commit_point(0)]))], ("ended", WHOLE, KEPT))
    title("nothing follows the opening before an identifier comes")
    relay([run([HI], cut="silent")], ("not yet", HALF, "nothing"))
    title("a log of which the upstream has all before the end isn't marked without the last commit point")
    relay([run([HI, NAME], cut="silent")], ("not yet", WHOLE, KEPT))
    title("at a commit point at which no record ends the log isn't gone on with")
    relay([run([HI, NAME], (WHOLE, [commit_point(SECOND)])), run([HI], cut="silent")],
          ("ended", WHOLE, f"{KEPT} to {SECOND}"), ("not yet", HALF, f"{KEPT} to {SECOND}"))
    title("an error after a restart drops what is kept, and the next run sends the log anew")
    relay([FIRST, run([HI, error("gone")]), run([HI, commit_point(ALL)])],
          ("ended", WHOLE, KEPT_TO), (f"said {b'gone'.hex()}", REST, "nothing"),
          (f"strange {ALL}", HALF, "nothing"))
    title("an error after a commit point drops nothing, nor one on a connection that began the log")
    relay([FIRST, run([HI, commit_point(POINT), error("busy")])],
          ("ended", WHOLE, KEPT_TO), (f"said {b'busy'.hex()}", REST, KEPT_TO))
    relay([run([HI, NAME, error("full")])], (f"said {b'full'.hex()}", HALF, KEPT))
    title("what is kept of one host is nothing of another, and is lost once that one's is kept")
    relay([FIRST, run([HI], cut="silent", host=OTHER), run([HI], cut="silent"),
           run([HI, NAME], cut="silent", host=OTHER), run([HI], cut="silent")],
          ("ended", WHOLE, KEPT_TO), ("not yet", HALF, "nothing"), ("not yet", REST, KEPT_TO),
          ("not yet", WHOLE, KEPT), ("not yet", HALF, "nothing"))
    title("a log that is relayed is relayed for each host")
    relay([FIRST, SECOND_RUN, run([HI], host=OTHER)],
          ("ended", WHOLE, KEPT_TO), ("done", REST, "relayed"), ("done", NONE, "relayed"))
    title("an identifier of more than 4,096 bytes is refused")
    relay([run([HI, log_id("7" * 4097)])], ("long id 4097", HALF, "nothing"))


def after_runs(found: Iterable[Iterable[str]]) -> list[str]:
    """What is kept after each of some runs, in order."""
    return sorted(f"  run {place}: {state}" for place, states in enumerate(found, 1) for state in states)


def main() -> None:
    """All cases."""
    conversations()
    title("each device call, and each call of the link")
    # A call that fails, or is the last, leaves what was kept before or after. Nothing is marked before the last commit
    # point is kept. After a fault that comes before the identifier, or before its point, the second run sends the log
    # anew, and hears a commit point above what was sent.
    early = ["nothing", KEPT, KEPT_TO]
    late = [*early, KEPT_TO_ALL, "relayed"]
    # Both runs have their fault at the same call. So where the first run has its point, the second has the last one.
    broken = (early, ["nothing", KEPT, KEPT_TO_ALL, "relayed"])
    case(f"faults {FIRST} {SECOND_RUN}", *(line for what, found in (
        ("the runs leave", ([KEPT_TO], ["relayed"])), ("a crash leaves", (early, late)),
        ("a device fault leaves", (early, late)), ("a fault of the link leaves", broken)) for line in (
            what, *after_runs(found))))
    ROWS.write(sys.argv[1])


if __name__ == "__main__":
    main()
