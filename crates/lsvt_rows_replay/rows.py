#!/usr/bin/env python3
"""Writes the cases of lsvt_rows_replay (`stdin`) and what must be printed of them (`stdout`).

usage: rows.py FOLDER

It is a program of its own: it writes stores by oracle/store.py, and works out what is waited, put and listed by the
sentences of sudoreplay(8) and docs/FORMATS.md. It knows nothing of what the crates answer.
"""
from __future__ import annotations

import hashlib
import sys
from collections.abc import Sequence

from oracle import lines, store
from oracle.records import SECOND, Record
from oracle.rows import Rows

TEXTS = {0: "", 2: "usage", 4: "log damaged", 5: "read fault", 6: "write fault", 7: "log resumed",
    8: "no such log", 10: "log quiet"}
REMOVED = "log removed"
ROWS = Rows()
case, title = ROWS.case, ROWS.title


def status(number: int, text: str | None = None) -> str:
    """The last line of a run."""
    return f"status {number} {TEXTS[number] if text is None else text}"


# ---- stores


def body_of(records: Sequence[Record], head: bytes, ended: bytes | None, extra: int = 0) -> bytes:
    """The body of a log's journal, complete if it has an exit."""
    files = store.files_of(head, records, ended)
    return store.body_text(store.COMPLETE if ended else store.FLUSHED, records, files, extra)


def files_of_log(
    number: int, head: bytes, records: Sequence[Record], ended: bytes | None, **changed: bytes | None
) -> None:
    """A log's files; a file that is changed to None is left out."""
    files: dict[str, bytes | None] = {**store.files_of(head, records, ended)}
    files["slots"] = store.slots_text(body_of(records, head, ended))
    files.update({name.replace("_json", ".json"): text for name, text in changed.items()})
    for name, text in files.items():
        if text is not None:
            case(f"file {number} {name} {text.hex()}".rstrip())


def numbers(last: int, lane: int = 0, lanes: int = 1) -> None:
    """The number file of a lane."""
    case(f"file lane.{lane} slots {store.slots_text(store.numbers_body(last, lane, lanes)).hex()}")


INFO = {
    "columns": 80, "command": "/usr/bin/id", "lines": 24, "runargv": ["id", "-u"], "rungid": 0, "rungroup": "root",
    "runuid": 0,
    "runuser": "root", "submitcwd": "/home/ann", "submithost": "web1", "submituser": "ann", "ttyname": "/dev/pts/0",
}
HEAD = lines.head(1700000000 * SECOND, INFO)
RECORDS: list[Record] = [(500000000, "ttyout", b"# "), (1000000000, "ttyout", b"id -u"), (0, "ttyout", b"\r\n0\r\n"),
    (2000000000, "winsize", 30, 100)]
EXIT = lines.exit_line(3_600_000_000, 0)


def line(number: int) -> bytes:
    """The line of a log in a listing."""
    tail = "HOST=web1 ; TTY=pts/0 ; PWD=/home/ann ; USER=root ; "
    return f"2023-11-14T22:13:20Z : ann : {tail}TSID={store.digits_of(number)} ; COMMAND=/usr/bin/id -u\n".encode()


def put(text: bytes) -> str:
    """What is put on the screen."""
    return f"put {text.hex()}"


def whole_session() -> None:
    """A store of one session."""
    case("store")
    numbers(1)
    files_of_log(1, HEAD, RECORDS, EXIT)


# ---- what is played

SHOWN = ("stdout", "stderr", "ttyout")


def played(
    records: Sequence[Record], speed: tuple[int, int] = (1, 1), longest: int | None = None, suspended: bool = False
) -> list[str]:
    """The waits and puts of records, the speed as a fraction."""
    items = []
    for delay, event, *rest in records:
        skipped = event == "suspend" and rest[0] == "CONT" and not suspended
        wait = 0 if skipped else delay * speed[1] // speed[0]
        if longest is not None:
            wait = min(wait, longest)
        items.append(f"wait {min(wait, 2**63 - 1)}")
        if event in SHOWN and rest[0]:
            items.append(put(rest[0]))
    return items


title("a session is played")
whole_session()
case("run -s 2 -m 0.4 000001", *played(RECORDS, speed=(2, 1), longest=400000000), status(0))
case("run 000001", *played(RECORDS), status(0))
case("run -f ttyin 000001", "wait 500000000", "wait 1000000000", "wait 0", "wait 2000000000", status(0))
case("run -n -s 0.000000001 000001", *played(RECORDS, speed=(1, 10**9)), status(0))
case("run 000002", status(8))
case("run 00000a", status(8))
case("run 000000", status(8))

title("a session that is complete is followed as it is played")
case("run -F -m 0.4 000001", *played(RECORDS, longest=400000000), status(0))
case("run 000001 -F -s 2", *played(RECORDS, speed=(2, 1)), status(0))
case("run -F -f ttyin 000001", "wait 500000000", "wait 1000000000", "wait 0", "wait 2000000000", status(0))
case("run -F 000002", status(8))
case("run -F 00000a", status(8))

title("words that are no command")
for words in ("", "000001 000001", "-F", "-F -F 000001", "-F -l", "-l -F user ann", "-F 000001 000001", "--help",
    "-s 0 000001", "-s 1.0000000001 000001", "-m x 000001", "-f ttyout,x 000001", "-f  000001", "~", "-l user ~"):
    case(f"run {words}".rstrip(), status(2))

title("what of words is out of its form")
for words, unfit in [
    ("000001", "none"), ("-l", "none"), ("-l user", "none"), ("", "NoIdentifier"), ("-n", "NoIdentifier"),
    ("000001 x", "Identifiers x"), ("a b c", "Identifiers b"),
    ("-s 0 000001", "Speed 0"), ("-s 0.0 -l", "Speed 0.0"), ("-s 1.0000000001 000001", "Speed 1.0000000001"),
    ("-m .5 000001", "Longest .5"), ("-m 9223372036.854775808 a", "Longest 9223372036.854775808"),
    ("-m 9223372036.854775807 a", "none"), ("-f ttyou 000001", "Streams ttyou"),
    ("-f stdin,,stdout -l", "Streams stdin,,stdout"), ("-s x -m y -f z", "Streams z"), ("-s x -m y", "Longest y"),
    ("-s x", "Speed x"), ("-m 0 -s 1", "NoIdentifier"), ("--help", "usage"), ("-s", "usage"),
    ("-F 000001", "none"), ("-F", "NoIdentifier"), ("-F a b", "Identifiers b"), ("-F -l", "FollowedListing"),
    ("-lF user", "FollowedListing"), ("-F -s 0 -l", "Speed 0"), ("-F -F a", "usage"),
    ("-s 1 -s 2 a", "usage"),
]:
    case(f"unfit {words}".rstrip(), unfit)

title("a time of suspension")
SUSPENDED: list[Record] = [(10**9, "ttyout", b"a"), (5 * 10**8, "suspend", "TSTP"), (60 * 10**9, "suspend", "CONT"),
    (10**9, "ttyout", b"b")]
case("store")
files_of_log(1, HEAD, SUSPENDED, EXIT)
case("run 000001", *played(SUSPENDED), status(0))
case("run -S 000001", *played(SUSPENDED, suspended=True), status(0))
case("run -F 000001", *played(SUSPENDED), status(0))
case("run -F -S 000001", *played(SUSPENDED, suspended=True), status(0))

title("a log that is being written, with bytes behind what is committed")
case("store")
open_files = store.files_of(HEAD, RECORDS[:2], None)
files_of_log(1, HEAD, RECORDS[:2], None, timing=open_files["timing"] + b"4 0.0", ttyout=open_files["ttyout"] + b"xyz")
case("run 000001", *played(RECORDS[:2]), status(0))

# ---- what is followed

QUIET, PAUSE = 36_000, 100_000_000


def followed(records: Sequence[Record], status_line: str = status(10)) -> tuple[str, str]:
    """What is printed as a sum of a log that isn't complete: its records, and then a pause after each look."""
    items = played(records)
    waits = sum(int(item.split()[1]) for item in items if item.startswith("wait"))
    puts = b"".join(bytes.fromhex(item.split()[1]) for item in items if item.startswith("put"))
    digest = hashlib.md5(puts).hexdigest()
    return f"items {len(items) + QUIET} waits {waits + QUIET * PAUSE} digest {digest}", status_line


title("a log that isn't complete is followed for an hour")
case("sum -F 000001", *followed(RECORDS[:2]))
case("store")
files_of_log(1, HEAD, [], None)
case("sum -F -l", f"items 0 waits 0 digest {hashlib.md5(b'').hexdigest()}", status(2))
case("fails 1")
case("run -F 000001", status(6))
case("fails 3")
case("run -F 000001", f"wait {PAUSE}", f"wait {PAUSE}", status(6))

# ---- what is followed while others write


def body_with(records: Sequence[Record], ended: bytes | None, extra: int = 0) -> bytes:
    """The slots of log 1 with these records."""
    return store.slots_text(body_of(records, HEAD, ended, extra))


def act(
    look: int, records: Sequence[Record], ended: bytes | None = None, extra: int = 0, shown: bool = True
) -> None:
    """After the look of this number was shown, or only read, others leave log 1 with these records."""
    number = 2 * look if shown else 2 * look - 1
    files = store.files_of(HEAD, records, ended)
    files["slots"] = body_with(records, ended, extra)
    for name, text in files.items():
        if text and name != "log.json":
            case(f"act {number} 1 {name} {text.hex()}")


def open_session(records: Sequence[Record]) -> None:
    """A store of one session that isn't complete, with empty streams."""
    case("store")
    numbers(1)
    files_of_log(1, HEAD, records, None)


def at_once(record: Record) -> list[str]:
    """What is put of a record that a look found after one that found nothing."""
    return ["wait 0", *played([record])[1:]]


STILL = f"wait {PAUSE}"
title("a log grows while it is followed, and ends")
open_session(RECORDS[:1])
act(3, RECORDS[:3])
act(6, RECORDS, EXIT)
case("outside -F 000001", *played(RECORDS[:1]), STILL, STILL, *at_once(RECORDS[1]), *played(RECORDS[2:3]), STILL,
    *at_once(RECORDS[3]), status(0))
case("outside -F -s 2 000001", *played(RECORDS[:1], speed=(2, 1)), STILL, STILL, *at_once(RECORDS[1]),
    *played(RECORDS[2:3], speed=(2, 1)), STILL, *at_once(RECORDS[3]), status(0))
title("a log ends while its follower waits")
open_session(RECORDS)
act(6, RECORDS, EXIT)
case("outside -F 000001", *played(RECORDS), STILL, STILL, status(0))
title("a restart cuts a log while it is followed")
open_session(RECORDS)
act(2, [*RECORDS[:1], RECORDS[3]], None, 1)
case("outside -F 000001", *played(RECORDS[:2]), status(7))
open_session(RECORDS)
act(2, RECORDS[:1], None, 1, shown=False)
case("outside -F 000001", *played(RECORDS[:1]), status(7))
open_session(RECORDS[:2])
act(4, RECORDS[:1], None, 1)
case("outside -F 000001", *played(RECORDS[:2]), STILL, STILL, status(7))
title("a log is removed while it is followed")
open_session(RECORDS)
case("act 4 1 slots 00")
case("outside -F 000001", *played(RECORDS[:2]), status(8, REMOVED))
open_session(RECORDS)
case("act 3 1 slots 00")
case("outside -F 000001", *played(RECORDS[:1]), status(8, REMOVED))
case("outside 000001", *played(RECORDS), status(0))
title("a log is damaged after some records")
for name in ("timing", "ttyout"):
    whole_text = store.files_of(HEAD, RECORDS, EXIT)[name]
    case("store")
    numbers(1)
    # the third line has no letter, or a stream has bytes that no line tells of
    if name == "timing":
        second = whole_text.index(b"\n", whole_text.index(b"\n") + 1) + 1
        files_of_log(1, HEAD, RECORDS, EXIT, timing=whole_text[:second] + b"x" + whole_text[second + 1:])
        shown = played(RECORDS[:2])
    else:
        more: list[Record] = [*RECORDS[:3], (0, "ttyout", b"!"), RECORDS[3]]
        files_of_log(1, HEAD, RECORDS, EXIT, ttyout=store.files_of(HEAD, more, EXIT)[name],
            slots=store.slots_text(store.body_text(store.COMPLETE, RECORDS, {**store.files_of(HEAD, RECORDS, EXIT),
                "ttyout": store.files_of(HEAD, more, EXIT)[name]}, 0)))
        shown = played(RECORDS)
    case("run 000001", *shown, status(4))
    case("run -F 000001", *shown, status(4))
    case("outside -F 000001", *shown, status(4))

title("a restart before each call of the player, and of the follower")
open_session([])
case(f"restart play 8 {2 * SECOND} 5", "before false resumed true after true breaches 0")
case(f"restart play 8 {5 * SECOND} 3", "before false resumed true after true breaches 0")
case(f"restart play 8 {8 * SECOND} 2", "before true resumed false after true breaches 0")
case(f"restart follow 5 {2 * SECOND} 3", "before false resumed true after true breaches 0")
case(f"restart follow 5 {4 * SECOND} 2", "before false resumed true after true breaches 0")

title("numbers without a log are passed over")
case("store")
numbers(2_000_000_002)
files_of_log(1, HEAD, RECORDS, EXIT)
case("copy 2 2")
case("copy 2000000001 2000000002")
case("gap 3 2000000000")
case("outside -l", *[put(line(n)) for n in (1, 2, 2_000_000_001, 2_000_000_002)], status(0))
case("gap 3 2100000000")
case("outside -l", *[put(line(n)) for n in (1, 2)], status(0))

title("damaged parts")
for part in ("log_json", "timing", "ttyout", "exit_json"):
    case("store")
    whole = store.files_of(HEAD, RECORDS, EXIT)[part.replace("_json", ".json")]
    numbers(1)
    files_of_log(1, HEAD, RECORDS, EXIT, **{part: whole[:-1]})
    case("run 000001", status(4))
    case("run -F 000001", status(4))
    case("run -l", status(4))
    case("store")
    numbers(1)
    files_of_log(1, HEAD, RECORDS, EXIT, **{part: None})
    case("run 000001", status(4))
case("store")
numbers(1)
files_of_log(1, b"{}" + b" " * (len(HEAD) - 2), RECORDS, EXIT)
case("run 000001", status(4))
case("run -l", status(4))
case("store")
timing = store.files_of(HEAD, RECORDS, EXIT)["timing"]
numbers(1)
files_of_log(1, HEAD, RECORDS, EXIT, timing=timing.replace(b"4 0.000000000 5", b"4 0.000000000 X"))
case("run 000001", *played(RECORDS[:2]), status(4))
case("run -F 000001", *played(RECORDS[:2]), status(4))
case("run -l", put(line(1)), status(0))

title("an absent file of which nothing is committed")
for part in ("stdin", "stdout", "stderr", "ttyin"):
    case("store")
    numbers(1)
    files_of_log(1, HEAD, RECORDS, EXIT, **{part: None})
    case("run 000001", status(4))
    case("run -l", status(4))
for part in ("exit_json", "ttyout", "timing"):
    case("store")
    numbers(1)
    files_of_log(1, HEAD, [], None, **{part: None})
    case("run 000001", status(4))
    case("run -l", status(4))

title("a journal that was cut off")
case("store")
body = body_of(RECORDS, HEAD, EXIT)
files_of_log(1, HEAD, RECORDS, EXIT, slots=store.slots_text(body[:88]))
case("run 000001", status(8))
case("run -F 000001", status(8))

# ---- what is listed

title("searches")
whole_session()
case("run -l", put(line(1)), status(0))
FOUND = [
    "user ann command id", "user ann and command id", "host web1", "runas root", "group root", "cwd /home/ann",
    "tty pts/0", "tty /dev/pts/0", "command ^/usr/bin/id\\s-u$",
    "fromdate 2023-11-14T22:13:20Z", "todate 2023-11-14T22:13:20Z", "u ann", "co id", "( user ann )", "! user bob",
    "! ! user ann",
    "user ann or user bob and user bob", "user bob and user bob or user ann", "( user bob or user ann ) and user ann",
    "user and or user ann",
]
NOT_FOUND = [
    "! user ann", "user bob", "fromdate 2023-11-14T22:13:21Z", "todate 2023-11-14T22:13:19Z", "command ^id",
    "user ann user bob", "( user ann or user bob ) and user bob",
    "! ( user ann or user bob )", "cwd /home", "tty 0",
]
# words, the place of the first that isn't taken, and why it isn't
BAD = [
    ("c id", 0, "NoName"), ("t pts/0", 0, "NoName"), ("user", 1, "NeedsArgument(User)"),
    ("fromdate 2023-02-30T00:00:00Z", 1, "NoDate"), ("fromdate 2023-11-14", 1, "NoDate"),
    ("and user ann", 0, "NeedsSearch"), ("user ann or", 3, "NeedsSearch"), ("( user ann", 3, "NotClosed"),
    ("user ann )", 2, "NotOpen"), ("( )", 1, "NeedsSearch"),
    ("!", 1, "NeedsSearch"), ("command (", 1, "NoPattern"), ("users ann", 0, "NoName"),
    ("user ann and and user ann", 3, "NeedsSearch"), ("todate ( user ann", 1, "NoDate"),
    ("user ann bob", 2, "NoName"), ("( user ann ) )", 4, "NotOpen"),
    ("! ( ! user ann ) user", 7, "NeedsArgument(User)"), ("tty", 1, "NeedsArgument(Tty)"),
    ("user or or cwd", 4, "NeedsArgument(Cwd)"), ("( ( user ann )", 5, "NotClosed"), ("or", 0, "NeedsSearch"),
    ("user ann or )", 3, "NeedsSearch"), ("co", 1, "NeedsArgument(Command)"),
]
for words in FOUND:
    case(f"run -l {words}", put(line(1)), status(0))
for words in NOT_FOUND:
    case(f"run -l {words}", status(0))
for words, place, why in BAD:
    case(f"run -l {words}", status(3, f"bad expression at word {place}"))
    case(f"bad {words}", f"word {place} {why}")

title("expressions 100 and 101 deep")
case("run -l " + "! " * 100 + "user ann", put(line(1)), status(0))
case("run -l " + "( " * 100 + "user ann" + " )" * 100, put(line(1)), status(0))
case("run -l " + "! " * 101 + "user ann", status(3, "bad expression at word 100"))
case("run -l " + "( ! " * 50 + "( user ann", status(3, "bad expression at word 100"))
case("bad " + "! " * 101 + "user ann", "word 100 TooDeep")
case("bad " + "( ! " * 50 + "( user ann", "word 100 TooDeep")
case("bad user ann and " + "( " * 101 + "user ann", "word 103 TooDeep")

title("no store, and numbers of which no log is there")
case("store")
case("run -l", status(0))
numbers(3)
case("run -l", status(0))

title("two lanes")
case("store")
numbers(1, 0, 2)
numbers(4, 1, 2)
files_of_log(1, HEAD, RECORDS, EXIT)
case("copy 2 2")
case("copy 4 4")
case("run -l", put(line(1)), put(line(2)), put(line(4)), status(0))
case("run 000004", *played(RECORDS), status(0))

title("a number file that is damaged, of lane 0 and of another")
case("store")
numbers(1, 1, 2)
case("file lane.1 commit")
case("run -l", status(0))
case("store")
case("file lane.0 slots " + store.slots_text(store.numbers_body(1, 1, 2)).hex())
files_of_log(1, HEAD, RECORDS, EXIT)
case("run -l", status(4))
case("run 000001", *played(RECORDS), status(0))
case("store")
numbers(1, 0, 2)
case("file lane.1 slots " + store.slots_text(store.numbers_body(3, 1, 2)).hex())
files_of_log(1, HEAD, RECORDS, EXIT)
case("run -l", status(4))

title("an older store")
case("store")
case("file lane.0 commit " + store.old_journal(store.numbers_body(last) for last in (0, 1)).hex())
gates = store.old_journal([body_of(RECORDS, HEAD, EXIT)])
files_of_log(1, HEAD, RECORDS, EXIT, slots=None, commit=gates)
case("run -l", put(line(1)), status(0))
case("run 000001", *played(RECORDS), status(0))
case("run -F 000001", *played(RECORDS), status(0))

title("1,000 logs, of which one is damaged and one absent")
case("store")
numbers(1000)
files_of_log(1, HEAD, RECORDS, EXIT)
case("file 700 timing 34")
case("copy 2 499")
case("copy 501 1000")
logs = [n for n in range(1, 1001) if n not in (500, 700)]


def total(listed: Sequence[int], number: int) -> tuple[str, str]:
    """What is printed of a listing of these logs as a sum."""
    digest = hashlib.md5(b"".join(line(n) for n in listed)).hexdigest()
    return f"items {len(listed)} waits 0 digest {digest}", status(number)


case("sum -l", *total(logs, 4))
case("sum -l command id", *total(logs, 4))
case("sum -l user bob", *total([], 4))

title("each call of the screen fails in turn")
whole_session()
items = played(RECORDS)
for number in range(1, len(items) + 2):
    case(f"fails {number}")
    case("run 000001", *items[: number - 1], status(6 if number <= len(items) else 0))
    case("run -F 000001", *items[: number - 1], status(6 if number <= len(items) else 0))
case("store")
numbers(2)
files_of_log(1, HEAD, RECORDS, EXIT)
case("copy 2 2")
for number in (1, 2, 3):
    case(f"fails {number}")
    case("run -l", *[put(line(n)) for n in range(1, number)], status(6 if number <= 2 else 0))

# ---- what a check of the store says

CHECK_TEXTS = {0: "", 2: "usage", 4: "damage found", 5: "read fault", 6: "write fault"}
STATES = ("complete", "incomplete", "damaged", "unread", "absent")


def check_status(number: int) -> str:
    """The last line of a run of the check."""
    return f"status {number} {CHECK_TEXTS[number]}"


def seconds(nanos: int) -> str:
    """A time in seconds, with nine digits after the point."""
    return f"{nanos // 10**9}.{nanos % 10**9:09}"


def bytes_of(head: bytes, records: Sequence[Record], ended: bytes | None) -> int:
    """The committed bytes of a log."""
    return sum(len(text) for text in store.files_of(head, records, ended).values())


def stored(number: int, records: Sequence[Record], ended: bytes | None, cuts: int = 0, more: str = "") -> str:
    """The line of a sound log."""
    state, until = ("complete    ", ", ") if ended else ("incomplete  ", ", up to ")
    spent = seconds(sum(delay for delay, *_ in records))
    text = f" ; {len(records)} records{until}{spent} s, {bytes_of(HEAD, records, ended)} bytes"
    text += f", cuts {cuts}" if cuts else ""
    text += ", exit 0" if ended else ""
    return f"{state}{store.digits_of(number)}{text}{more} ; {line(number).decode().rstrip()}"


def broken(number: int, part: str, records: Sequence[Record]) -> str:
    """The line of a log that is damaged after these records."""
    spent = seconds(sum(delay for delay, *_ in records))
    text = f" ; {part}, after record {len(records)} at {spent} s ; {line(number).decode().rstrip()}"
    return f"damaged     {store.digits_of(number)}{text}"


def closed(number: int, part: str) -> str:
    """The line of a log that isn't opened."""
    return f"damaged     {store.digits_of(number)} ; {part} is missing, short or unreadable"


def unlisted(number: int, part: str) -> str:
    """The line of a log without an entry, a file of which has bytes."""
    return f"damaged     {store.digits_of(number)} ; no entry in slots, but {part} has bytes"


def absent(number: int) -> str:
    """The line of a number without a log."""
    return f"absent      {store.digits_of(number)}"


# the line of number files of which one is damaged
NUMBERS = "damaged     number files"


def sums(*lines_of: str) -> str:
    """The line of the sums of these lines."""
    counts = [sum(text.startswith(f"{state} ") for text in lines_of) for state in STATES]
    return ", ".join(f"{count} {state}" for count, state in zip(counts, STATES))


def checked(words: str, number: int, *lines_of: str, shown: Sequence[str] | None = None) -> None:
    """A run of the check, of which these are all lines; those that are shown, if not all are."""
    case(f"check {words}".rstrip(), *(lines_of if shown is None else shown), sums(*lines_of), check_status(number))


def unnumbered() -> None:
    """Runs of the check on a store with a damaged number file: logs that are named are checked."""
    one = stored(1, RECORDS, EXIT)
    case("check", NUMBERS, check_status(4))
    case("check -q --json", '{"numbers":"damaged"}', check_status(4))
    case("check 000001", one, NUMBERS, sums(one), check_status(4))
    case("check -q 000001 000002", NUMBERS, sums(one, absent(2)), check_status(4))
    json_sums = ONE_SUM.replace('complete":1', 'complete":0').replace('absent":0', 'absent":1')
    case("check --json 000002", '{"id":"000002","state":"absent"}', '{"numbers":"damaged"}', json_sums, check_status(4))


def digest_of(number: int, files: dict[str, bytes]) -> str:
    """The digest of a log's number and committed bytes."""
    text = store.digits_of(number).encode()
    for part in store.PARTS:
        text += len(files[part]).to_bytes(8, "big") + files[part]
    return hashlib.sha256(text).hexdigest()


title("a store is checked: one log, and words")
whole_session()
WHOLE_FILES = store.files_of(HEAD, RECORDS, EXIT)
checked("", 0, stored(1, RECORDS, EXIT))
checked("-d x -q", 0, stored(1, RECORDS, EXIT), shown=[])
checked("000001 000001", 0, stored(1, RECORDS, EXIT), stored(1, RECORDS, EXIT))
checked("000001 000002", 0, stored(1, RECORDS, EXIT), absent(2))
checked("-q 000002", 0, absent(2), shown=[])
checked("--digest", 0, stored(1, RECORDS, EXIT, more=f", sha256 {digest_of(1, WHOLE_FILES)}"))
for words in ("00000a", "000000", "0000001", "x", "-x", "--help", "-q -q", "--json --json", "-d", "-d x -d y", "~",
    "-l"):
    case(f"check {words}", check_status(2))

title("a store is checked, as JSON")
ONE = (
    f'{{"bytes":{bytes_of(HEAD, RECORDS, EXIT)},"command":"/usr/bin/id","cuts":0,%s"elapsed":3500000000,"exit_value":0,'
    '"id":"000001","records":4,"relayed":false,"state":"complete","submit_time":{"nanoseconds":0,"seconds":1700000000},'
    '"submithost":"web1","submituser":"ann"}'
)
ONE_SUM = '{"sums":{"absent":0,"complete":1,"damaged":0,"incomplete":0,"unread":0}}'
case("check --json", ONE % "", ONE_SUM, check_status(0))
case("check --digest --json", ONE % f'"digest":"{digest_of(1, WHOLE_FILES)}",', ONE_SUM, check_status(0))
case("check --json -q", ONE_SUM, check_status(0))
case("check --json 000002", '{"id":"000002","state":"absent"}', ONE_SUM.replace('complete":1', 'complete":0').replace(
    'absent":0', 'absent":1'), check_status(0))

title("each kind of damage, one log for each")
case("store")
DAMAGED: list[str] = []


def damaged(text: str, head: bytes = HEAD, records: Sequence[Record] = RECORDS, ended: bytes | None = EXIT,
    **changed: bytes | None) -> None:
    """A further log with these files changed, and its line."""
    files_of_log(len(DAMAGED) + 1, head, records, ended, **changed)
    DAMAGED.append(text)


def next_number() -> int:
    """The number of the next log."""
    return len(DAMAGED) + 1


for name in ("log_json", "timing", "ttyout", "exit_json"):
    part, short = name.replace("_json", ".json"), WHOLE_FILES[name.replace("_json", ".json")][:-1]
    damaged(closed(next_number(), part), **{name: short})
    damaged(closed(next_number(), part), **{name: None})
for name in ("stdin", "stdout", "stderr", "ttyin"):
    damaged(closed(next_number(), name), **{name: None})
damaged(closed(next_number(), "log.json"), head=b"{}" + b" " * (len(HEAD) - 2))
TIMING = WHOLE_FILES["timing"]
damaged(broken(next_number(), "timing", RECORDS[:2]), timing=TIMING.replace(b"4 0.000000000 5", b"4 0.000000000 X"))
damaged(broken(next_number(), "timing", []), timing=b"x" + TIMING[1:])
damaged(broken(next_number(), "timing", RECORDS[:3]), timing=TIMING[:-1] + b"x")
FILES = {**WHOLE_FILES, "exit.json": b""}
damaged(broken(next_number(), "exit.json", []), exit_json=b"",
    slots=store.slots_text(store.body_text(store.COMPLETE, RECORDS, FILES)))
damaged(unlisted(next_number(), "exit.json"), slots=store.slots_text(body_of(RECORDS, HEAD, EXIT)[:88]))
damaged(unlisted(next_number(), "exit.json"), slots=None)
damaged(unlisted(next_number(), "ttyout"), slots=b"\0", log_json=b"", exit_json=b"", timing=b"")
damaged(stored(next_number(), RECORDS[:2], None), records=RECORDS[:2], ended=None)
damaged(stored(next_number(), RECORDS[:2], None, cuts=3), records=RECORDS[:2], ended=None,
    slots=store.slots_text(body_of(RECORDS[:2], HEAD, None, extra=3)))
damaged(absent(next_number()), slots=b"\0", exit_json=b"", timing=b"", ttyout=b"")
damaged(stored(next_number(), RECORDS, EXIT))
DAMAGED.append(absent(next_number()))
damaged(stored(next_number(), RECORDS, EXIT), slots=None, commit=store.old_journal([body_of(RECORDS, HEAD, EXIT)]))
numbers(len(DAMAGED))
QUIET_LINES = [text for text in DAMAGED if not text.startswith(("complete", "absent"))]
checked("", 4, *DAMAGED)
checked("-q", 4, *DAMAGED, shown=QUIET_LINES)
checked("000001 00000E", 4, DAMAGED[0], DAMAGED[13])
case(f"faults {len(DAMAGED)}", "many calls")
case(f"faults {len(DAMAGED)} --digest", "many calls")

title("two lanes with uneven numbers: a number that its lane didn't draw is left out")
case("store")
numbers(1, 0, 2)
numbers(6, 1, 2)
files_of_log(1, HEAD, RECORDS, EXIT)
case("copy 2 2")
case("copy 6 6")
checked("", 0, stored(1, RECORDS, EXIT), stored(2, RECORDS, EXIT), absent(4), stored(6, RECORDS, EXIT))
checked("000003", 0, absent(3))
case("faults 6 000001 000002 000006", "many calls")

title("a number file that is damaged, of lane 0 and of another; without one no log is known")
case("store")
case("check", sums(), check_status(0))
case("file lane.0 slots " + store.slots_text(store.numbers_body(1, 1, 2)).hex())
files_of_log(1, HEAD, RECORDS, EXIT)
unnumbered()
case("fails 1")
case("check", check_status(6))
case("store")
numbers(1, 0, 2)
case("file lane.1 slots " + store.slots_text(store.numbers_body(3, 1, 2)).hex())
files_of_log(1, HEAD, RECORDS, EXIT)
unnumbered()

title("3,000 logs are checked, of which one is damaged and one absent")
case("store")
numbers(3000)
files_of_log(1, HEAD, RECORDS, EXIT)
case("file 700 timing 34")
case("copy 2 499")
case("copy 501 3000")
MANY = [stored(n, RECORDS, EXIT) for n in range(1, 3001)]
MANY[499], MANY[699] = absent(500), closed(700, "timing")
TEXT = "".join(f"{text}\n" for text in [*MANY, sums(*MANY)]).encode()
case("checksum", f"bytes {len(TEXT)} digest {hashlib.md5(TEXT).hexdigest()}", check_status(4))
checked("-q", 4, *MANY, shown=[MANY[699]])

title("each write of the sink fails in turn")
case("store")
numbers(2)
files_of_log(1, HEAD, RECORDS, EXIT)
case("copy 2 2")
TWO = [stored(1, RECORDS, EXIT), stored(2, RECORDS, EXIT)]
for number in (1, 2, 3, 4):
    case(f"fails {number}")
    case("check", *[*TWO, sums(*TWO)][: number - 1], check_status(6 if number <= 3 else 0))

title("a server or somebody else changes the store before each call of the check")
# each run says what the store before the change has, or what the one after it has
CUT = RECORDS[:2]


def across(words: str, last: int = 1) -> None:
    """A check beside the change from the store that was kept to this one."""
    case(f"across {last} {words}".rstrip(), "before true after true breaches 0")


def changed(*words: str) -> None:
    """Checks beside the change, by number and of the whole store."""
    for word in words:
        across(word)


def log_one(records: Sequence[Record] | None, ended: bytes | None = None, cuts: int = 0) -> None:
    """A store whose first number is drawn, with this log; or without one."""
    case("store")
    numbers(1)
    if records is not None:
        files_of_log(1, HEAD, records, ended, slots=store.slots_text(body_of(records, HEAD, ended, extra=cuts)))


# a log is made, and has records at once
log_one(None)
case("keep")
log_one(RECORDS)
changed("000001", "-q 000001", "--digest 000001")
# it goes on, and ends
log_one(CUT)
case("keep")
log_one(RECORDS, EXIT)
changed("000001", "--json 000001", "--digest 000001")
# a restart cuts it, and other records follow
log_one(RECORDS)
case("keep")
log_one([*CUT, (0, "ttyout", b"!!!!!!!")], cuts=1)
changed("000001", "--json 000001")
# a complete log is removed, and an incomplete one
log_one(RECORDS, EXIT)
case("keep")
log_one(None)
changed("000001", "--digest 000001", "--json --digest 000001")
log_one(RECORDS)
case("keep")
log_one(None)
changed("000001", "--digest 000001")

title("the event log is checked: its lines, and its journal")
EVENT = line(1)
JSON_EVENT = lines.line_of(lines.event_members("accept", {"info": INFO, "time": 1700000000 * SECOND}, "000001"))


def event_log(text: bytes | None, count: int | None = None, length: int | None = None, lane: int = 0,
    has_entry: bool = True) -> None:
    """The files of the event log of a lane, by what its journal counts."""
    if text is not None:
        case(f"file events.{lane} lines {text.hex()}".rstrip())
    if has_entry:
        lengths = [len(text or b"") if length is None else length, *[0] * 7]
        lines_in = (text or b"").count(b"\n") if count is None else count
        case(f"file events.{lane} slots {store.slots_text(store.log_body(1, lines_in, 0, lengths)).hex()}")


def event_line(state: str, text: str, lane: int = 0) -> str:
    """The line of an event log."""
    return f"{state:12}event log {lane} ; {text}"


def one_log() -> None:
    """A store with one log, and no event log."""
    case("store")
    numbers(1)
    files_of_log(1, HEAD, RECORDS, EXIT)


ONE_LOG = stored(1, RECORDS, EXIT)


def event_case(number: int, said: str, members: str, *words: object, **named: object) -> None:
    """An event log with these files, its line as text and as JSON, and how the check ends."""
    one_log()
    event_log(*words, **named)
    case("check -e x", ONE_LOG, said, sums(ONE_LOG), check_status(number))
    case("check -q -e x", *([] if said.startswith("sound") else [said]), sums(ONE_LOG), check_status(number))
    shown = [] if said.startswith("sound") else [f"{{{members}}}"]
    case("check -q --json -e x 000001", *shown, ONE_SUM, check_status(number))


both = EVENT + JSON_EVENT
event_case(0, event_line("sound", f"2 lines, {len(both)} bytes"), "", both)
event_case(0, event_line("sound", "0 lines, 0 bytes"), "", b"")
event_case(0, event_line("sound", f"1 lines, {len(EVENT)} bytes"), "", both, 1, len(EVENT))
one_log()
event_log(both)
SOUND = f'{{"bytes":{len(both)},"events":0,"lines":2,"state":"sound"}}'
case("check --json -e x", ONE % "", SOUND, ONE_SUM, check_status(0))
event_case(4, event_line("absent", "no file and no journal"), '"events":0,"state":"absent"', None, has_entry=False)
event_case(4, event_line("absent", "no file and no journal"), '"events":0,"state":"absent"', b"", has_entry=False)
event_case(4, event_line("damaged", "no entry in its journal, but it has bytes"),
    '"events":0,"fault":"unlisted","state":"damaged"', both, has_entry=False)
event_case(4, event_line("damaged", "missing, or shorter than its journal says"),
    '"events":0,"fault":"short","state":"damaged"', both, 2, len(both) + 1)
event_case(4, event_line("damaged", "missing, or shorter than its journal says"),
    '"events":0,"fault":"short","state":"damaged"', None, 0, 1)
for bad in (EVENT[1:], EVENT.replace(b" : ", b" ; "), b"\n", b"x\n", JSON_EVENT[:-2] + b"\n", b"{}\n", b"[]\n",
    b'{"accept":1}\n', EVENT[:-1] + b"\x7f\n", EVENT[:-1] + b"\xc3\xbc\n", EVENT[:-1] + b"\r\n",
    JSON_EVENT.replace(b"accept", b"start"), b"20a3" + EVENT[4:], EVENT[:22] + b"\n"):
    event_case(4, event_line("damaged", "1 lines, and the next one is no event"),
        '"events":0,"fault":"line","lines":1,"state":"damaged"', EVENT + bad + JSON_EVENT)
event_case(4, event_line("damaged", "1 lines, and the end of the next one is missing"),
    '"events":0,"fault":"torn","lines":1,"state":"damaged"', both[:-1], 2)
event_case(4, event_line("damaged", "2 lines, but its journal counts 3"),
    '"counted":3,"events":0,"fault":"count","lines":2,"state":"damaged"', both, 3)

title("event logs of two lanes; without a path none is checked")
case("store")
numbers(1, 0, 2)
numbers(2, 1, 2)
files_of_log(1, HEAD, RECORDS, EXIT)
case("copy 2 2")
TWO_LOGS = [stored(1, RECORDS, EXIT), stored(2, RECORDS, EXIT)]
event_log(both * 40)
event_log(both[:-2], 2, lane=1)
checked("", 0, *TWO_LOGS)
case("check -e x", *TWO_LOGS, event_line("sound", f"80 lines, {80 * len(both) // 2} bytes"),
    event_line("damaged", "1 lines, and the end of the next one is missing", 1), sums(*TWO_LOGS), check_status(4))
case("faults 2 -e x", "many calls")
for number in (1, 2, 3, 4, 5, 6):
    case(f"fails {number}")
    case("check -e x", *[*TWO_LOGS, event_line("sound", f"80 lines, {80 * len(both) // 2} bytes"),
        event_line("damaged", "1 lines, and the end of the next one is missing", 1), sums(*TWO_LOGS)][: number - 1],
        check_status(6 if number <= 5 else 4))


if __name__ == "__main__":
    ROWS.write(sys.argv[1])
