#!/usr/bin/env python3
"""Writes the cases of lsvt_rows_connection (`stdin`) and what must be printed of them (`stdout`).

usage: rows.py FOLDER

It is a program of its own: it spells the messages by the tables of sudo_logsrv.proto(5), and works out what a port in
memory reports and what a worker makes of it by the pages of lsv_port and lsv_worker. It knows nothing of what the
crates answer.
"""
from __future__ import annotations

import hashlib
import sys
from collections.abc import Iterable, Sequence

from oracle.rows import Rows
from oracle.wire import LARGEST, field, frame, number

ROWS = Rows()
case, title = ROWS.case, ROWS.title

MOST_SHOWN = 512
FULL = "longest turn 256"  # more jobs wait in no inbox
LONG = 65_536  # the bytes of the answer to the text `long`; with so many unsent a link is not read
HELLO = frame(field(1, field(1, "lsv 1") + number(4, 1)))
EXIT = frame(field(3, field(1, b"")))
SPOILT = (LARGEST + 1).to_bytes(4, "big")
PART = b"\0\0\0"


def shown(text: bytes) -> str:
    """Bytes as they are printed."""
    return text.hex() if len(text) <= MOST_SHOWN else f"{len(text)} bytes {hashlib.md5(text).hexdigest()}"


def output(text: str) -> bytes:
    """The frame of a message that shows a text without a delay."""
    return frame(field(7, field(1, b"") + field(2, text)))


def sent(words: str) -> bytes:
    """What these words stand for."""
    known = {"exit": EXIT, "spoilt": SPOILT, "part": PART}
    return b"".join(known.get(word) or output(word) for word in words.split())


def answered(words: str) -> bytes:
    """The hello, and the answers to these texts."""
    texts = ("x" * LONG if word == "long" else word for word in words.split())
    return HELLO + b"".join(frame(field(4, text)) for text in texts)


def give(link: int, words: str) -> None:
    """What these words stand for arrives on a link."""
    case(f"give {link} {sent(words).hex()}")


def link_line(link: int, read: bytes, written: bytes, is_open: bool = False) -> str:
    """What is printed of a link."""
    return f"link {link} read {shown(read)}, written {shown(written)}{', open' if is_open else ''}"


def served(end: str, jobs: str, links: Iterable[tuple[bytes, bytes]]) -> None:
    """A script is served: how it ends, its jobs or their longest turn, and what each link from 1 on brought and got."""
    lines = [link_line(at, read, written) for at, (read, written) in enumerate(links, 1)]
    case("serve", f"{end}, misused false", jobs, *lines)


# ---- a port by hand


def port_rows() -> None:
    """What turns report, and what reads and writes of links do."""
    title("bytes come in pieces, and end")
    for line in ("open 1", f"give 1 {b'ab'.hex()}", f"give 1 {b'cde'.hex()}", "last 1", f"give 1 {b'f'.hex()}"):
        case(line)
    case("listen")
    case("port turn", "Opened(1)")
    case("port read 1 8", f"NotYet {'00' * 8}")
    case("port turn", "Readable(1)")
    case("port read 1 2", f"Bytes(2) {b'ab'.hex()}")
    case("port turn", "Readable(1)")
    case("port read 1 8", f"Bytes(3) {b'cde'.hex()}{'00' * 5}")
    case("port read 1 8", f"NotYet {'00' * 8}")
    case("port turn", "Readable(1)")
    case("port read 1 8", f"End {'00' * 8}")
    for report in ("Woken", "Stop", "Stop"):
        case("port turn", report)
    case("port links", link_line(1, b"abcde", b"", True))
    title("a link takes what it has room for")
    for line in ("open 7", "room 7 2", "room 7 1"):
        case(line)
    case("listen")
    case("port turn", "Opened(7)")
    case(f"port write 7 {b'all'.hex()}", "Bytes(3)")
    case("port turn", "Writable(7)")
    case(f"port write 7 {b'four'.hex()}", "Bytes(2)")
    case(f"port write 7 {b'ur'.hex()}", "NotYet")
    case("port turn", "Writable(7)")
    case(f"port write 7 {b'ur'.hex()}", "Bytes(1)")
    case(f"port write 7 {b'r'.hex()}", "NotYet")
    case("port turn", "Stop")
    case("port links", link_line(7, b"", b"allfou", True))
    title("faults come when the script says so")
    for line in ("break-turn", "open 1", f"give 1 {b'x'.hex()}", "break 1", "break 1", "break-turn", "stop"):
        case(line)
    case("listen")
    for report in ("the port failed", "Opened(1)", "Readable(1)", "Woken"):
        case("port turn", report)
    case("port read 1 4", f"Failed {'00' * 4}")
    case("port read 1 4", f"Bytes(1) {b'x'.hex()}{'00' * 3}")
    case("port turn", "Woken")
    case(f"port write 1 {b'y'.hex()}", "Failed")
    case(f"port write 1 {b'y'.hex()}", "Bytes(1)")
    case("port turn", "the port failed")
    case("port turn", "Stop")
    case("port links", link_line(1, b"x", b"y", True))
    title("nothing is reported of a link that is not open")
    for line in (f"give 1 {b'a'.hex()}", "open 1", "open 1", "open 1000001", "open 1000000", f"give 1 {b'b'.hex()}",
                 "last 1", "room 1 5", "stop", "wake"):
        case(line)
    case("listen")
    for report in ("Woken", "Opened(1)", "Woken", "Woken", "Opened(1000000)"):
        case("port turn", report)
    case("port close 1")
    for report in ("Woken", "Woken", "Woken", "Stop", "Woken"):
        case("port turn", report)
    case("port links", link_line(1, b"", b""), link_line(1_000_000, b"", b"", True))


# ---- a worker in the loop


def script(*steps: tuple[object, ...]) -> None:
    """The steps of a script: words, a link and words that it sends, or a word with numbers."""
    for word, *rest in steps:
        if word == "sends":
            link, words = rest
            assert isinstance(link, int) and isinstance(words, str)
            give(link, words)
        else:
            case(" ".join(map(str, (word, *rest))))


def worker_rows() -> None:
    """Which jobs come of a port in which order, and what its links get."""
    title("answers come on the link that asked, after one hello")
    script(("open", 1), ("open", 2), ("sends", 2, "a b"), ("sends", 1, "c"), ("sends", 2, "d exit"), ("sends", 1, "e"),
           ("last", 1), ("stop",))
    served("Stopped", "jobs 2.a 2.b 1.c 2.d 2.exit 2.gone 1.e 1.gone",
           [(sent("c e"), answered("c e")), (sent("a b d exit"), answered("a b d"))])
    title("a connection ends when its input ends")
    script(("open", 1), ("sends", 1, "a part"), ("wake",), ("open", 2), ("sends", 2, "b"), ("last", 2), ("wake",),
           ("last", 1), ("open", 3), ("sends", 3, "c"), ("stop",))
    served("Stopped", "jobs 1.a 2.b 2.gone 1.gone 3.c 3.gone",
           [(sent("a part"), answered("a")), (sent("b"), answered("b")), (sent("c"), answered("c"))])
    title("no job is dropped or overtaken at a full inbox")
    numbers = " ".join(map(str, range(3_000)))
    script(("open", 1), ("open", 2), ("many", 1, 3_000), ("sends", 2, "a b"), ("last", 1), ("sends", 2, "c"),
           ("stop",))
    served("Stopped", FULL, [(sent(numbers), answered(numbers)), (sent("a b c"), answered("a b c"))])
    case("brought 1", shown(f"{numbers} gone ".encode()))
    case("brought 2", shown(b"a b c gone "))
    title("a link that sends without a pause holds up no other")
    numbers = " ".join(map(str, range(9_000)))
    script(("open", 1), ("open", 2), ("many", 1, 9_000), ("many", 2, 9_000), ("open", 3), ("sends", 3, "a"),
           ("last", 1), ("last", 2), ("stop",))
    served("Stopped", FULL, [(sent(numbers), answered(numbers))] * 2 + [(sent("a"), answered("a"))])
    # The links that wait take turns, while the lane has some 70 turns of the first two. The port says after nine of
    # them what came next.
    case("first 2 12", "true")
    case("first 3 40", "true")
    title("a link with 65,536 unsent bytes is held and not read")
    laden: Sequence[tuple[object, ...]] = (
        ("open", 1), ("room", 1, 0), ("sends", 1, "long"), ("sends", 1, "a"), ("open", 2), ("sends", 2, "b exit"),
        ("sends", 1, "c"), ("wake",))
    script(*laden, ("break-turn",))
    other = (sent("b exit"), answered("b"))
    served("Failed", "jobs 1.long 2.b 2.exit 2.gone 1.gone", [(sent("long"), HELLO), other])
    case("held", "[];" * 4 + "[1];" * 5)
    title("a link that takes bytes again is read on")
    script(*laden, ("room", 1, 100_000), ("wake",), ("stop",))
    served("Stopped", "jobs 1.long 2.b 2.exit 2.gone 1.a 1.c 1.gone", [(sent("long a c"), answered("long a c")), other])
    title("after Stop each link is read out and closed")
    script(*laden, ("stop",))
    served("Stopped", "jobs 1.long 2.b 2.exit 2.gone 1.a 1.c 1.gone", [(sent("long a c"), HELLO), other])
    script(("open", 1), ("open", 2), ("open", 3), ("sends", 2, "a part"), ("sends", 3, "spoilt"), ("stop",))
    served("Stopped", "jobs 2.a 3.bad 3.gone 1.gone 2.gone",
           [(b"", HELLO), (sent("a part"), answered("a")), (sent("spoilt"), HELLO)])
    title("a failed turn ends all")
    script(("open", 1), ("open", 2), ("sends", 2, "a part"), ("break-turn",), ("sends", 2, "b"))
    served("Failed", "jobs 2.a 1.gone 2.gone", [(b"", HELLO), (sent("a part"), answered("a"))])
    title("a link that fails ends alone")
    script(("open", 1), ("open", 2), ("sends", 1, "a part"), ("break", 1), ("sends", 1, "b"), ("sends", 2, "c"),
           ("break", 2), ("room", 2, 9), ("sends", 2, "d"), ("stop",))
    served("Stopped", "jobs 1.a 1.gone 2.c 2.gone", [(sent("a part"), answered("a")), (sent("c"), answered("c"))])


port_rows()
worker_rows()

if __name__ == "__main__":
    ROWS.write(sys.argv[1])
