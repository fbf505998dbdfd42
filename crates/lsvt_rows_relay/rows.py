#!/usr/bin/env python3
"""Writes the cases of lsvt_rows_relay (`stdin`) and what must be printed of them (`stdout`).

usage: rows.py FOLDER

It is a program of its own, which knows nothing of what the crates answer.
"""
from __future__ import annotations

import sys

from oracle.messages import commit_point, error, hello, log_id, server_hello
from oracle.rows import Rows
from oracle.wire import frame

ROWS = Rows()
case, title = ROWS.case, ROWS.title

SAID = frame(hello("n"))
HELLO, ID, POINT = frame(server_hello("s")), frame(log_id("0000A7")), frame(commit_point(1_500_000_000))


def talk(says: str, content: str, cut: str, fail: str, answer: str, end: str, wrote: bytes, read: int,
         looks: list[str], heard_line: str) -> None:
    """A conversation: its end, what was written and read, its reads, and what was heard in how many steps."""
    case(f"talk {says} {content} {cut} {fail} {answer}", end, f"wrote {wrote.hex()} and read {read} bytes", *looks,
         heard_line)


def heard(count: int, late: int, steps: int) -> str:
    """How many messages were heard, and how many of them late, and how often the speaker was asked for more."""
    return f"{count} messages were heard, {late} late, in {steps} steps"


def waited(put: int, came: int, renewed: int) -> str:
    """A read that may wait: what had been written before it, what it gave, and how often the connection was renewed."""
    return f"waited after {put}: {came}, renewed {renewed}"


def looked(put: int, came: int, renewed: int) -> str:
    """A read that may not wait."""
    return f"looked after {put}: {came}, renewed {renewed}"


def held(*answers: tuple[int, bytes]) -> str:
    """Answers, each with how many bytes must have been written before it is given."""
    return "+".join(f"{hold}@{answer.hex()}" for hold, answer in answers)


def ends() -> None:
    """How conversations end that nothing stops."""
    every = HELLO + ID + POINT
    title("all is said, then all that came is heard")
    talk("2.1", "3", f"silent:{len(every)}", "-", every.hex(), "over", SAID * 3, 37, [waited(27, 37, 2)],
         heard(3, 0, 3))
    title("what a message is answered is written before the next one comes")
    talk("1.0.2.0.1", "3", f"end:{len(every)}", "-", held((0, HELLO), (9, ID), (27, POINT)), "over", SAID * 4, 37,
         [waited(9, 11, 1), waited(27, 12, 1), waited(36, 14, 2)], heard(3, 0, 6))
    title("the last answer is given once all was written")
    talk("16.1", "1", "silent:99", "-", held((153, POINT)), "over", SAID * 17, 14,
         [looked(144, 0, 1), waited(153, 14, 1)], heard(1, 0, 3))
    title("it reads on to the end, or until nothing comes in all of the time")
    talk("1", "3:end", f"end:{len(every)}", "-", every.hex(), "over", SAID, 37, [waited(9, 37, 1), waited(9, 0, 1)],
         heard(3, 0, 3))
    talk("1", "3:end", f"silent:{len(every)}", "-", every.hex(), "over", SAID, 37, [waited(9, 37, 1), waited(9, 0, 1)],
         heard(3, 0, 3))
    title("a message that is no progress leaves the rest of the time, and that is no silence")
    more = HELLO + ID + HELLO
    talk("1", "2:end", f"silent:{len(more)}", "-", held((0, HELLO + ID), (0, HELLO)), "not yet", SAID, len(more),
         [waited(9, 23, 1), waited(9, 11, 1), waited(9, 0, 0)], heard(3, 0, 4))
    title("an end in the midst of a message is no end of what came")
    talk("1", "1:end", f"end:{len(HELLO) + 3}", "-", every.hex(), "ended", SAID, len(HELLO) + 3,
         [waited(9, len(HELLO) + 3, 1), waited(9, 0, 0)], heard(1, 0, 3))
    title("nothing more comes, or the input ends")
    talk("1", "-", f"silent:{len(HELLO)}", "-", every.hex(), "not yet", SAID, 11, [waited(9, 11, 1), waited(9, 0, 0)],
         heard(1, 0, 3))
    talk("1", "-", f"end:{len(HELLO)}", "-", every.hex(), "ended", SAID, 11, [waited(9, 11, 1), waited(9, 0, 0)],
         heard(1, 0, 3))
    title("part of a message is none")
    talk("1", "-", f"silent:{len(HELLO) + 3}", "-", every.hex(), "not yet", SAID, 14,
         [waited(9, 14, 1), waited(9, 0, 0)], heard(1, 0, 3))
    title("it is looked at least after sixteen messages")
    talk("8.8.1", "-", "silent:0", "-", "-", "not yet", SAID * 17, 0, [looked(144, 0, 2), waited(153, 0, 1)],
         heard(0, 0, 4))
    talk("20.20", "-", "silent:0", "-", "-", "not yet", SAID * 32, 0,
         [looked(144, 0, 1), looked(288, 0, 1), waited(288, 0, 0)], heard(0, 0, 3))


def stops() -> None:
    """How conversations end that something stops."""
    every = HELLO + ID + POINT
    refusal = HELLO + frame(error("no")) + POINT
    title("an error is the last message")
    talk("1.0.0.5", "-", f"end:{len(refusal)}", "-", refusal.hex(), f"said {b'no'.hex()}", SAID, len(refusal),
         [waited(9, len(refusal), 1)], heard(2, 0, 2))
    title("a message that can't be read")
    talk("1", "-", "end:99", "-", (HELLO + frame(b"\xff")).hex(), "malformed", SAID, 16, [waited(9, 16, 1)],
         heard(1, 0, 2))
    talk("1", "-", "end:99", "-", "00200001", "too large 2097153", SAID, 4, [waited(9, 4, 1)], heard(0, 0, 2))
    title("an identifier that the speaker judges too long isn't taken")
    long_id = HELLO + frame(log_id("123456789"))
    talk("1", "-", "end:99", "-", long_id.hex(), "long id 9", SAID, len(long_id), [waited(9, len(long_id), 1)],
         heard(1, 0, 2))
    title("a message that is longer than a frame may be, and what came meanwhile")
    size = len(hello("n" * 2_097_152))
    talk("1.99", "-", "end:99", "-", "-", f"too long {size}", SAID, 0, [looked(9, 0, 1)], heard(0, 0, 2))
    talk("1.99", "-", "end:99", "-", refusal.hex(), f"said {b'no'.hex()}", SAID, len(refusal),
         [looked(9, len(refusal), 1)], heard(0, 2, 2))
    title("the connection can't be made, a write fails, a read fails")
    talk("1", "-", "end:99", "1", every.hex(), "unreached", b"", 0, [], heard(0, 0, 0))
    talk("1.1", "-", "end:99", "3", HELLO.hex(), "failed", SAID, 11,
         [looked(9, 11, 1), looked(9, 0, 0)], heard(0, 1, 2))
    talk("1", "-", "end:99", "3", every.hex(), "failed", SAID, 0, [], heard(0, 0, 2))
    title("after a failed write the server's reason is heard")
    talk("1.1", "-", "end:99", "3", refusal.hex(), f"said {b'no'.hex()}", SAID, len(refusal),
         [looked(9, len(refusal), 1)], heard(0, 2, 2))
    title("a write that takes a part, or nothing: what came meanwhile is heard")
    room("12", "1.1", "-", "end:99", "-", HELLO.hex(), "not yet", (SAID * 2)[:12], 11,
         [looked(12, 11, 1), looked(12, 0, 0)], heard(0, 1, 2))
    room("9", "1.1", "-", "end:99", "-", refusal.hex(), f"said {b'no'.hex()}", SAID, len(refusal),
         [looked(9, len(refusal), 1)], heard(0, 2, 2))


def room(most: str, says: str, content: str, cut: str, fail: str, answer: str, end: str, wrote: bytes, read: int,
         looks: list[str], heard_line: str) -> None:
    """The same over a connection that takes this many bytes in all."""
    case(f"room {most} {says} {content} {cut} {fail} {answer}", end,
         f"wrote {wrote.hex()} and read {read} bytes", *looks, heard_line)


def main() -> None:
    """All cases."""
    ends()
    stops()
    title("the link of the system, over loopback")
    case("tcp", "not yet", "wrote 5", f"the other end read {b'hello'.hex()}", f"bytes {b'welcome'.hex()}", "end",
        "failed", "refused")
    ROWS.write(sys.argv[1])


if __name__ == "__main__":
    main()
