"""What is tried with our own client: each error, the limits, information of all kinds, restarts, many connections at
once.
"""
from __future__ import annotations

import random
import time
from collections.abc import Sequence

import at_root
import client
import store
from oracle.connection import PATIENCE, Connection
from oracle.messages import Info
from oracle.records import Record, cut_at, elapsed
from trial import SECOND, Differs, Trial, only, same

INFO = {"command": "/bin/ls", "runuser": "root", "submituser": "ann", "submithost": "web1"}
LARGEST = 2_097_152
ACCEPT = client.accept(SECOND, INFO)
OUTPUT = client.record((5, "ttyout", b"abc"))


def message(name: str, *parts: bytes) -> bytes:
    """A message of parts that needn't fit."""
    return client.frame(client.field(client.NUMBER[name], b"".join(parts)))


def time_of(seconds: int, nanoseconds: int) -> bytes:
    """A first field of a time, which may be none."""
    return client.field(1, client.scalar(1, seconds) + client.scalar(2, nanoseconds))


def keys(number: int = 2) -> bytes:
    """The fields of the information."""
    return b"".join(client.field(number, client.entry(*it)) for it in INFO.items())


# what is sent, and the error that it must be answered by
ERRORS = [
    ("unexpected message", [OUTPUT]),
    ("unexpected message", [client.hello(), client.hello()]),
    ("unexpected message", [client.hello(), client.exited(5)]),
    ("unexpected message", [ACCEPT, client.hello()]),
    ("unexpected message", [ACCEPT, client.restart("000001", 5)]),
    ("unexpected message", [client.accept(SECOND, INFO, False), OUTPUT]),
    ("unexpected message", [client.refusal("alert", 5, "a", INFO), client.hello()]),
    ("malformed message", [client.frame(b"")]),
    ("malformed message", [client.frame(b"\x6a\x06\x0a\x01a\x0a\x01b")]),
    ("malformed message", [client.frame(b"\x6a\x06\x0a\x04su")]),
    ("malformed message", [client.frame(b"\x6b")]),
    ("malformed message", [client.hello(), client.frame(b"\xff" * 20)]),
    ("message too large", [(LARGEST + 1).to_bytes(4, "big")]),
    ("message too large", [ACCEPT, (2**32 - 1).to_bytes(4, "big")]),
    ("bad time", [message("accept", time_of(5, 10**9), keys())]),
    ("bad time", [message("accept", keys())]),
    ("bad time", [ACCEPT, message("ttyout", time_of(0, -1), client.field(2, b"x"))]),
    ("bad time", [ACCEPT, message("ttyout", client.field(2, b"x"))]),
    ("bad time", [ACCEPT, message("exit", time_of(-1, 0))]),
    ("bad size or signal", [ACCEPT, message("winsize", time_of(1, 0), client.scalar(2, -1), client.scalar(3, 1))]),
    ("bad size or signal", [ACCEPT, client.record((5, "suspend", "x" * 33))]),
    ("bad size or signal", [ACCEPT, client.record((5, "suspend", "a b"))]),
    ("bad size or signal", [ACCEPT, client.record((5, "suspend", ""))]),
    ("missing key", [client.accept(SECOND, {key: value for key, value in INFO.items() if key != "submithost"})]),
    ("missing key", [client.accept(SECOND, {**INFO, "runuser": 5})]),
    ("no such log", [client.restart("00000a", 5)]),
    ("no such log", [client.restart("0ZZZZZ", 5)]),
    ("no such log", [client.hello(), client.restart("", 5)]),
    ("bad time", [message("restart", client.field(1, "0ZZZZZ"))]),
]


@only("serve", "once")
def part_errors(trial: Trial) -> None:
    """Each error comes as the last message, and the connection ends."""
    for text, sent in ERRORS:
        link = trial.direct()
        link.send(*sent)
        try:
            heard = link.rest()
        except TimeoutError as fault:
            raise Differs(f"no answer to {b''.join(sent)[-60:]!r}, for {text}") from fault
        finally:
            link.close()
        same(f"answer to {b''.join(sent)[-60:]!r}", heard[-1:], [("error", text)])


def whole(link: Connection, submit: int, info: Info, records: Sequence[Record], value: int = 0) -> str:
    """A whole session: its log."""
    link.send(client.hello(), client.accept(submit, info), *map(client.record, records),
        client.exited(SECOND + 1, value))
    heard = link.rest()
    link.close()
    same("answers", [name for name, _ in heard[:2]], ["hello", "log_id"])
    same("last answer", heard[-1], ("commit_point", elapsed(records)))
    return heard[1][1]


def compared(trial: Trial, count: int = 1) -> None:
    """The last connections are compared with the store."""
    trial.store.compare(trial.sent(count))


@only("serve", "once")
def part_values(trial: Trial) -> None:
    """Information of all kinds, and an exit of all kinds."""
    info = {
        **INFO, "numbers": [1, -1, 2**63 - 1, -(2**63)], "negative": -5, "empty": [],
        "text": 'a "quoted" \\ text\n\t\x01\x7f', "ä": "öß€𝄞", "none": "",
        "argv": ["", "a", "ä"], "bytes": b"\xff\xfea", "zero": 0,
    }
    link = trial.connect()
    link.send(client.hello(), client.accept(2**31 * SECOND + 999_999_999, info),
        client.exited(3 * SECOND, -1, True, "SEGV", 'an "error"'))
    link.rest()
    link.close()
    compared(trial)


@only("serve", "once")
def part_limits(trial: Trial) -> None:
    """A message of the greatest size, records without bytes, and one long delay."""
    record = (5, "ttyout", b"")
    spent = len(client.record(record)) - 4
    records = [(2**62, "stdin", b""), record]
    for size in range(LARGEST - spent - 20, LARGEST):
        if len(client.record((5, "ttyout", bytes(size)))) - 4 == LARGEST:
            records.append((5, "ttyout", b"y" * size))
    same("records of the greatest size", len(records), 3)
    whole(trial.connect(), SECOND, INFO, records)
    compared(trial)


@only("serve", "once")
def part_many_values(trial: Trial) -> None:
    """One list of 2,000,000 numbers, and 300,000 entries: the server stores the session, and its stack is enough."""
    numbers = client.field(2, client.field(1, "list") + client.field(5, client.field(1, bytes(2_000_000))))
    entries = client.field(2, client.field(1, "") + client.field(3, "")) * 300_000
    for values in (numbers, entries):
        link = trial.direct(5 * PATIENCE)
        link.send(client.hello(), message("accept", time_of(1, 0), keys(), values, client.scalar(3, True)), OUTPUT,
            client.exited(SECOND))
        heard = link.rest()
        link.close()
        same("answers", [name for name, _ in heard[:2]], ["hello", "log_id"])
        same("last answer", heard[-1], ("commit_point", 5))


@only("serve", "once")
def part_byte_by_byte(trial: Trial) -> None:
    """A session whose bytes come one by one."""
    link = trial.connect()
    for byte in client.hello() + ACCEPT + OUTPUT * 3 + client.exited(5):
        link.send(bytes([byte]))
    link.rest()
    link.close()
    compared(trial)


@only("serve", "once")
def part_no_records(trial: Trial) -> None:
    """An accept without records, and one whose log stays empty."""
    for expects in (False, True):
        link = trial.connect()
        link.send(client.hello(), client.accept(SECOND, INFO, expects), client.exited(5))
        link.rest()
        link.close()
        compared(trial)


@only("serve", "once")
def part_events_of_a_session(trial: Trial) -> None:
    """Accepts, alerts and rejects within a session are event lines, and the session goes on."""
    link = trial.connect()
    further = [client.accept(2 * SECOND, {**INFO, "command": "/bin/sub"}, False),
        client.refusal("reject", 3 * SECOND, "no", INFO), client.refusal("alert", 4 * SECOND, "beware", INFO)]
    link.send(client.hello(), ACCEPT, OUTPUT, *further, OUTPUT, client.exited(5))
    link.rest()
    link.close()
    (sent,) = trial.sent(1)
    same("events", [name for name, _ in sent.events], ["accept", "accept", "reject", "alert", "exit"])
    trial.store.compare([sent])


@only("serve", "once")
def part_refusals(trial: Trial) -> None:
    """A reject, and an alert before one, without a session."""
    for alerts in ([], [client.refusal("alert", 4 * SECOND, "beware", INFO)]):
        link = trial.connect()
        link.send(client.hello(), *alerts, client.refusal("reject", 3 * SECOND, "", {}))
        link.rest()
        link.close()
        compared(trial)


@only("serve", "once")
def part_resumed_otherwise(trial: Trial) -> None:
    """A client that resumes and sends other records than before, three times; the journal counts the cuts."""
    rng = random.Random(5)
    link = trial.connect()
    first = [output(rng, at, "ttyout") for at in range(50)]
    link.send(client.hello(), ACCEPT, *map(client.record, first))
    heard = [link.read(), link.read()]
    end = elapsed(first)
    while heard[-1] != ("commit_point", end):
        heard.append(link.read())
    link.close()
    trial.sent(1)
    digits, records = heard[1][1], first
    for count in (1, 2, 3):
        records = other_end(trial, digits, records, rng)
        log = store.read_log(trial.place.store, digits)
        same("records", log.records, records)
        same("cuts", log.body.extra, count)
    same("complete", log.is_complete(), False)


def output(rng: random.Random, at: int, stream: str) -> Record:
    """A record; two of three have no delay."""
    return 0 if at % 3 else rng.randrange(1, 10**6), stream, rng.randbytes(30)


def other_end(trial: Trial, digits: str, records: Sequence[Record], rng: random.Random) -> list[Record]:
    """Drops some third of a log, and sends others.

    Of the records that end at the point the first alone stays. Gives its records.
    """
    keep = len(records) * 2 // 3
    while records[keep - 1][0] == 0:
        keep -= 1
    point = elapsed(records[:keep])
    new = [output(rng, at, "ttyin") for at in range(9)]
    link = trial.connect()
    link.send(client.restart(digits, point), *map(client.record, new))
    end = point + elapsed(new)
    while link.read() != ("commit_point", end):
        pass
    link.close()
    (sent,) = trial.sent(1)
    same("errors", sent.errors, [])
    return records[:keep] + new


@only("serve", "once")
def part_restarts_refused(trial: Trial) -> None:
    """Restarts of a log that is complete, that another writes, or that has no such point."""
    digits = whole(trial.connect(), SECOND, INFO, [(5, "ttyout", b"abc")])
    compared(trial)
    link = trial.direct()
    link.send(client.hello(), client.accept(SECOND, INFO), client.record((5, "ttyout", b"abc")))
    heard = [link.read(), link.read(), link.read()]
    if trial.kind == "serve":
        refused(trial, heard[1][1], 5, "log in use")
    link.close()
    refused(trial, heard[1][1], 4, "no such resume point")
    refused(trial, digits, 5, "log complete")


def refused(trial: Trial, digits: str, point: int, text: str) -> None:
    """A restart is refused; while the server hasn't yet seen that the writer is gone, another error may come."""
    end = time.monotonic() + PATIENCE
    while True:
        link = trial.direct()
        link.send(client.restart(digits, point))
        heard = link.rest()
        link.close()
        if heard[-1:] == [("error", text)]:
            return
        if heard[-1:] != [("error", "log in use")] or time.monotonic() > end:
            break
        time.sleep(0.005)
    raise Differs(f"a restart of {digits} at {point} was answered by {heard[-1:]}, not by {text}")


@only("serve")
def part_many_at_once(trial: Trial) -> None:
    """64 sessions at the same time, a record of each in turn."""
    rng = random.Random(6)
    links = [trial.connect() for _ in range(64)]
    for number, link in enumerate(links):
        link.send(client.hello(), client.accept(number * SECOND, {**INFO, "number": number}))
    for _ in range(30):
        for link in links:
            link.send(client.record((rng.randrange(10**6), rng.choice(client.STREAMS),
                rng.randbytes(rng.randrange(300)))))
            link.waiting()
    for number, link in enumerate(links):
        link.send(client.exited(SECOND, number))
    for link in links:
        link.rest()
        link.close()
    compared(trial, 64)


@only("serve")
def part_a_client_that_reads_nothing(trial: Trial) -> None:
    """It is held up, and nobody else."""
    lazy = trial.direct()
    lazy.link.settimeout(0.2)
    lazy.send(client.hello(), ACCEPT)
    try:
        for _ in range(2_000):
            lazy.link.sendall(OUTPUT * 100)
    except TimeoutError:
        pass
    digits = whole(trial.connect(), SECOND, INFO, [(5, "ttyout", b"abc")])
    (sent,) = trial.sent(1)
    same("log", sent.log_ids, [digits])
    trial.store.log(sent, None)
    lazy.close()


@only("serve")
def part_gone_in_the_middle(trial: Trial) -> None:
    """Clients that vanish with answers unread, in the middle of a frame: the others go on."""
    for cut in (0, 3, 7, 40, 200, 1_000):
        link = trial.direct()
        link.send((client.hello() + ACCEPT + OUTPUT * 200)[:cut] if cut else b"\0")
        link.link.setsockopt(1, 13, b"\1\0\0\0\0\0\0\0")
        link.close()
    digits = whole(trial.connect(), SECOND, INFO, [(5, "ttyout", b"abc")])
    sent = trial.sent(1)
    same("log", sent[0].digits(), digits)
    trial.store.log(sent[0], None)
    same("kept", cut_at(sent[0].records, 5), sent[0].records)
