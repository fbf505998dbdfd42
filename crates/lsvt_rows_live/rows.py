#!/usr/bin/env python3
"""Writes the cases of lsvt_rows_live (`stdin`) and what must be printed of them (`stdout`).

usage: rows.py FOLDER

It is a program of its own: it spells the messages by the tables of sudo_logsrv.proto(5), and works out what a live
relay passes on by the page of lsv_live. It knows nothing of what the crates answer.
"""
from __future__ import annotations

import hashlib
import sys

from oracle.rows import Rows
from oracle.wire import LARGEST, field, frame, number, scalar

ROWS = Rows()
case, title = ROWS.case, ROWS.title

MOST_SHOWN = 512
CLIENT, SERVER = 1, 2  # the two links
ZEROS = 10_000  # bytes of the data of a large record
HALF = bytes.fromhex("0000000812061080cab5ee01")  # a commit point of 0.5 s
HELLO = frame(field(1, field(1, "lsv 1") + number(4, 1)))  # this server's hello
OTHER = frame(field(1, field(1, "Sudo Audit Server 1.9.13p3") + number(4, 1)))  # the other server's
ID = frame(field(3, "0000A7"))
SUDO = bytes.fromhex("000000086a060a047375646f")
ACCEPT = bytes.fromhex("000000060a040a001801")
RECORD = bytes.fromhex("0000000e3a0c0a061080cab5ee0112026869")  # 0.5 s, "hi"
EXIT = bytes.fromhex("000000041a020a00")
REJECT = frame(field(2, b""))
STRANGE = "a commit point of the other server can't be"
SPOILT = (LARGEST + 1).to_bytes(4, "big")


def shown(text: bytes) -> str:
    """Bytes as they are printed."""
    return text.hex() if len(text) <= MOST_SHOWN else f"{len(text)} bytes {hashlib.md5(text).hexdigest()}"


def time(nanos: int) -> bytes:
    """A time as a message."""
    return scalar(1, nanos // 10**9) + scalar(2, nanos % 10**9)


def point(nanos: int) -> bytes:
    """The frame of a commit point."""
    return frame(field(2, time(nanos)))


def error(text: str) -> bytes:
    """The frame of an error."""
    return frame(field(4, text))


def record(nanos: int, text: str) -> bytes:
    """The frame of a record of a terminal's output."""
    return frame(field(7, field(1, time(nanos)) + field(2, text)))


def give(link: int, *parts: bytes) -> None:
    """Bytes arrive on a link."""
    case(f"give {link} {b''.join(parts).hex()}")


def give_many(link: int, many: bytes, times: int) -> None:
    """Bytes arrive on a link that are this many times the same, and end in zeros."""
    head = many[: len(many) // times - ZEROS]
    case(f"give {link} {head.hex()}*{ZEROS}*{times}")


def each(link: int, *parts: bytes) -> None:
    """Bytes arrive on a link, one at a time."""
    case(f"each {link} {b''.join(parts).hex()}")


def begin(text: str) -> None:
    """A script of two links begins."""
    title(text)
    case(f"open {CLIENT}")
    case(f"open {SERVER}")


def link_line(link: int, read: bytes, written: bytes) -> str:
    """What is printed of a link: at the end none is open."""
    return f"link {link} read {shown(read)}, written {shown(written)}"


def pair(came: bytes, up: bytes, said: bytes, down: bytes) -> None:
    """The script is played: what the client sent, what went up of it, what the server said, and what went down."""
    case("pair", link_line(CLIENT, came, down), link_line(SERVER, said, up))


def whole_sessions() -> None:
    """Sessions that are passed on whole."""
    session = SUDO + ACCEPT + RECORD
    begin("a session is passed on, with the other server's commit point")
    give(CLIENT, SUDO, ACCEPT)
    give(SERVER, OTHER, ID)
    give(CLIENT, RECORD)
    give(SERVER, HALF)
    case("stop")
    pair(session, session, OTHER + ID + HALF, HELLO + ID + HALF)

    begin("bytes come one at a time, both ways")
    each(CLIENT, SUDO, ACCEPT)
    each(SERVER, OTHER, ID)
    each(CLIENT, RECORD)
    each(SERVER, HALF)
    case("stop")
    pair(session, session, OTHER + ID + HALF, HELLO + ID + HALF)

    begin("after the exit the other server may end")
    give(CLIENT, session, EXIT)
    give(SERVER, OTHER, ID, HALF)
    case(f"last {SERVER}")
    case("stop")
    pair(session + EXIT, session + EXIT, OTHER + ID + HALF, HELLO + ID + HALF)

    begin("after a reject it may end, too")
    give(CLIENT, SUDO, REJECT)
    give(SERVER, OTHER)
    case(f"last {SERVER}")
    case("stop")
    pair(SUDO + REJECT, SUDO + REJECT, OTHER, HELLO)

    begin("a frame is passed on as it came, in whatever spelling")
    delay = field(1, number(2, 0) + number(1, 0))
    odd = frame(field(7, field(99, "x") + field(2, "hi") + delay)) + frame(field(13, field(1, "")))
    give(CLIENT, odd)
    case("stop")
    pair(odd, odd, b"", b"")

    begin("a client that has sent its last byte is passed on whole")
    give(CLIENT, session, EXIT)
    case(f"last {CLIENT}")
    give(SERVER, OTHER)
    case("stop")
    pair(session + EXIT, session + EXIT, b"", b"")

    begin("part of a frame waits for the rest")
    give(CLIENT, SUDO, ACCEPT[:7])
    give(SERVER, OTHER[:9])
    case("stop")
    pair(SUDO + ACCEPT[:7], SUDO, OTHER[:9], b"")


def hellos() -> None:
    """The client is greeted once the other server greets."""
    begin("a silent server: the client gets no hello")
    give(CLIENT, SUDO, ACCEPT)
    case("wake")
    case("stop")
    pair(SUDO + ACCEPT, SUDO + ACCEPT, b"", b"")

    begin("the first hello is answered by this server's, a later one by nothing")
    give(SERVER, OTHER, OTHER, ID)
    case("stop")
    pair(b"", b"", OTHER + OTHER + ID, HELLO + ID)

    begin("an error in the place of the hello is passed on alone")
    give(CLIENT, SUDO)
    give(SERVER, error("go away"))
    case("stop")
    pair(SUDO, SUDO, error("go away"), error("go away"))


def lost_servers() -> None:
    """The other server can't be reached, ends or fails."""
    title("a server that can't be reached: the client gets an error alone")
    case(f"open {CLIENT}")
    give(CLIENT, SUDO)
    case("stop")
    case("lost", link_line(CLIENT, b"", error("relay lost")))

    begin("a server that ends before it greets")
    give(CLIENT, SUDO)
    case(f"last {SERVER}")
    case("stop")
    pair(SUDO, SUDO, b"", error("relay lost"))

    begin("a server that ends in a session")
    give(CLIENT, SUDO, ACCEPT)
    give(SERVER, OTHER, ID)
    case(f"last {SERVER}")
    give(CLIENT, RECORD)
    case("stop")
    pair(SUDO + ACCEPT, SUDO + ACCEPT, OTHER + ID, HELLO + ID + error("relay lost"))

    begin("a link to the server that fails")
    give(CLIENT, SUDO)
    case(f"break {SERVER}")
    give(CLIENT, ACCEPT)
    case("stop")
    pair(SUDO + ACCEPT, SUDO, b"", error("relay lost"))

    begin("a client's link that fails: the other server's is closed")
    give(CLIENT, SUDO)
    case(f"break {CLIENT}")
    give(SERVER, OTHER)
    give(CLIENT, ACCEPT)
    case("stop")
    pair(SUDO, SUDO, OTHER, b"")


def refused_clients() -> None:
    """What a client sends is refused."""
    faults = [
        ("a length above the limit", SPOILT, "message too large"),
        ("bytes that are no message", frame(b"\xff"), "malformed message"),
        ("a message without a member", frame(b""), "malformed message"),
        ("a record without a delay", frame(field(7, field(2, "hi"))), "bad time"),
        ("a delay that is no valid time", frame(field(7, field(1, number(2, 10**9)))), "bad time"),
        ("a restart without a point", frame(field(4, field(1, "0000A7"))), "bad time"),
    ]
    for text, bad, told in faults:
        begin(f"{text} is refused, and what comes after it is dropped")
        give(CLIENT, SUDO)
        give(SERVER, OTHER)
        give(CLIENT, bad, ACCEPT)
        case("stop")
        pair(SUDO + bad + ACCEPT, SUDO, OTHER, HELLO + error(told))

    begin("a length above the limit after the hello")
    give(SERVER, OTHER)
    each(CLIENT, SPOILT)
    case("stop")
    pair(SPOILT, b"", OTHER, HELLO + error("message too large"))

    begin("what came beside a refused message is dropped, if it wasn't put yet")
    give(CLIENT, SUDO, SPOILT)
    case("stop")
    pair(SUDO + SPOILT, b"", b"", error("message too large"))

    begin("an elapsed time that would reach 2^63")
    long = record(2**63 - 1, "a")
    give(CLIENT, long, record(0, "b"))
    give(CLIENT, record(1, "c"))
    case("stop")
    pair(long + record(0, "b") + record(1, "c"), long + record(0, "b"), b"", error("log full"))


def refused_servers() -> None:
    """What the other server says is refused, or is an error of its own."""
    session = SUDO + ACCEPT + RECORD
    refused = [
        ("a commit point above what the client sent", point(1_500_000_000)),
        ("a commit point that is no valid time", frame(field(2, number(1, 2**64 - 1)))),
        ("a message without a member", frame(b"")),
        ("another protocol", b"HTTP/1.1 400 Bad Request\r\n\r\n"),
        ("a length above the limit", SPOILT),
    ]
    for text, bad in refused:
        begin(f"{text} of the server is refused")
        give(CLIENT, session)
        give(SERVER, OTHER, ID, bad, HALF)
        case("stop")
        pair(session, session, OTHER + ID + bad + HALF, HELLO + ID + error("bad upstream"))

    for text, last in [("an error", error("disk full")), ("an abort, as an error,", frame(field(5, "disk full")))]:
        begin(f"{text} of the server is passed on, and no more")
        give(CLIENT, session)
        give(SERVER, OTHER, ID, last, HALF)
        case("stop")
        pair(session, session, OTHER + ID + last + HALF, HELLO + ID + error("disk full"))

    begin("a restart counts from its point")
    restart = frame(field(4, field(1, "0000A7") + field(2, time(7 * 10**9))))
    give(CLIENT, SUDO, restart, RECORD)
    give(SERVER, OTHER, point(7 * 10**9), point(7_500_000_000), point(7_500_000_001))
    case("stop")
    points = point(7 * 10**9) + point(7_500_000_000)
    session, above = SUDO + restart + RECORD, point(7_500_000_001)
    pair(session, session, OTHER + points + above, HELLO + points + error("bad upstream"))


def slow_links() -> None:
    """A link that takes little holds its partner, and no more than that."""
    many = record(0, "\0" * ZEROS) * 40
    begin("a server that takes 100 bytes: the client is held")
    case(f"room {SERVER} 100")
    give_many(CLIENT, many, 40)
    give(SERVER, OTHER)
    case("stop")
    pair(many[: held(many)], many[:100], OTHER, HELLO)

    said = frame(field(3, "\0" * ZEROS)) * 40
    begin("a client that takes 100 bytes: the server is held, and the client is still passed on")
    case(f"room {CLIENT} 100")
    give_many(SERVER, said, 40)
    give(CLIENT, SUDO)
    case("stop")
    pair(SUDO, SUDO, said[: held(said)], said[:100])

    begin("a server that takes more later gets all")
    case(f"room {SERVER} 100")
    give_many(CLIENT, many, 40)
    for _ in range(5):
        case(f"room {SERVER} 100000")
    case("stop")
    pair(many, many, b"", b"")


def held(sent: bytes) -> int:
    """How many of these bytes are read of a link whose partner takes 100 bytes.

    They are read in pieces of 65,536, until that many bytes of whole frames are unsent.
    """
    read = 0
    while read < len(sent):
        read = min(read + 65_536, len(sent))
        at = 0
        while at + 4 <= read and at + 4 + int.from_bytes(sent[at : at + 4], "big") <= read:
            at += 4 + int.from_bytes(sent[at : at + 4], "big")
        if at - min(at, 100) >= 65_536:
            break
    return read


def one_by_one() -> None:
    """Messages without a port."""
    title("messages one by one")
    case("begin")
    case(f"client {SUDO[4:].hex()}", SUDO.hex())
    case(f"server {OTHER[4:].hex()}", HELLO.hex())
    case(f"server {OTHER[4:].hex()}", "nothing")
    case(f"server {point(1)[4:].hex()}", f"Strange(Point {{ nanos: 1 }}): {STRANGE}")
    case(f"client {record(1, 'a')[4:].hex()}", record(1, "a").hex())
    case(f"server {point(1)[4:].hex()}", point(1).hex())
    no_time = frame(field(2, number(2, 10**9)))[4:]
    case(f"server {no_time.hex()}", f"Strange(Point {{ nanos: {2**63 - 1} }}): {STRANGE}")
    case(f"client {record(2**63 - 1, 'a')[4:].hex()}", "TooLong(Point { nanos: 1 }): the elapsed time is too long")
    case("client ", "Malformed(Untyped): malformed message: the message is of no known type")
    case(f"client {field(7, b'').hex()}", "BadTime: bad time")
    case(f"server {field(5, 'no').hex()}", f"last {error('no').hex()}")
    longest = field(3, bytes(LARGEST - 4))
    case(f"server {longest[:4].hex()}*{LARGEST - 4}", shown(frame(longest)))
    size = LARGEST + 5
    head = field(3, bytes(LARGEST))[:5]
    case(f"server {head.hex()}*{LARGEST}", f"Long({size}): a message of {size} bytes is longer than a frame holds")


def main() -> int:
    """Writes the files."""
    if len(sys.argv) != 2:
        print((__doc__ or "").strip(), file=sys.stderr)
        return 2
    whole_sessions()
    hellos()
    lost_servers()
    refused_clients()
    refused_servers()
    slow_links()
    one_by_one()
    ROWS.write(sys.argv[1])
    return 0


if __name__ == "__main__":
    sys.exit(main())
