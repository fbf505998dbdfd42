#!/usr/bin/env python3
"""Writes the cases of lsvt_rows_protocol (`stdin`) and what must be printed of them (`stdout`).

usage: rows.py FOLDER

It is a program of its own: it reads and writes the messages by the tables of sudo_logsrv.proto(5), and JSON and
timing as docs/FORMATS.md has them, and knows nothing of what the crates answer. Where a row has its answer beside
it, that answer was worked out apart from this program too, and both must agree.
"""
from __future__ import annotations

import hashlib
import json
import random
import re
import sys
from collections.abc import Callable, Iterable, Iterator, Mapping, Sequence
from typing import Any

import events
from oracle import lines, records, wire
from oracle.lines import Members, shown as lossy
from oracle.records import Record
from oracle.rows import Rows
from oracle.store import number_of
from oracle.wire import LARGEST, Frames, field, frame, number as number_field, signed, text as text_field, varint

I64, I32, FLAG, TEXT, TEXTS, INFO = "int64", "int32", "bool", "text", "texts", "info"

# ---- messages: number, name, kind


class Message:
    """A message: its name, and of each field's number the name and the kind."""

    def __init__(self, name: str, fields: Iterable[tuple[int, str, Kind]]) -> None:
        """The fields are triples of a number, a name and a kind."""
        self.name = name
        self.fields = {number: (word, kind) for number, word, kind in fields}


Kind = str | Message
Kinds = Mapping[int, tuple[str, Kind]]
Span = int | tuple[int, int]
Value = tuple[int, Any]
Entries = Sequence[tuple[bytes, Value]]


TIME = Message("TimeSpec", [(1, "sec", I64), (2, "nsec", I32)])
BUFFER = Message("IoBuffer", [(1, "delay", TIME), (2, "bytes", TEXT)])
SIZE = Message("ChangeWindowSize", [(1, "delay", TIME), (2, "rows", I32), (3, "cols", I32)])
SUSPEND = Message("CommandSuspend", [(1, "delay", TIME), (2, "signal", TEXT)])
ACCEPT = Message("AcceptMessage", [(1, "submit_time", TIME), (2, "info_msgs", INFO), (3, "expect_iobufs", FLAG)])
REJECT = Message("RejectMessage", [(1, "submit_time", TIME), (2, "reason", TEXT), (3, "info_msgs", INFO)])
ALERT = Message("AlertMessage", [(1, "alert_time", TIME), (2, "reason", TEXT), (3, "info_msgs", INFO)])
EXIT = Message("ExitMessage",
    [(1, "run_time", TIME), (2, "exit_value", I32), (3, "dumped_core", FLAG), (4, "signal", TEXT), (5, "error", TEXT)])
RESTART = Message("RestartMessage", [(1, "log_id", TEXT), (2, "resume_point", TIME)])
CLIENT_HELLO = Message("ClientHello", [(1, "client_id", TEXT)])
SERVER_HELLO = Message("ServerHello",
    [(1, "server_id", TEXT), (2, "redirect", TEXT), (3, "servers", TEXTS), (4, "subcommands", FLAG)])
OF_CLIENT: Kinds = {
    1: ("Accept", ACCEPT), 2: ("Reject", REJECT), 3: ("Exit", EXIT), 4: ("Restart", RESTART), 5: ("Alert", ALERT),
    6: ("Ttyin", BUFFER), 7: ("Ttyout", BUFFER), 8: ("Stdin", BUFFER), 9: ("Stdout", BUFFER), 10: ("Stderr", BUFFER),
    11: ("Winsize", SIZE), 12: ("Suspend", SUSPEND), 13: ("Hello", CLIENT_HELLO),
}
OF_SERVER: Kinds = {1: ("Hello", SERVER_HELLO), 2: ("CommitPoint", TIME), 3: ("LogId", TEXT), 4: ("Error", TEXT),
    5: ("Abort", TEXT)}
ON_HEAP = {"Accept", "Reject", "Exit", "Alert"}
VALUES = {2: "Num", 3: "Text", 4: "Texts", 5: "Nums"}


class Fault(Exception):
    """Bytes that aren't what they should be, and why."""


def varint_at(b: bytes, key: int, at: int) -> tuple[int, int]:
    """The varint at an offset, of a field whose key is at another."""
    try:
        return wire.read_varint(b, at)
    except wire.CutShort as fault:
        raise Fault(f"the bytes end inside the field at offset {key}") from fault
    except wire.TooLong as fault:
        raise Fault(f"a varint of the field at offset {key} has more than ten bytes") from fault


def fixed_at(b: bytes, key: int, at: int, n: int) -> tuple[int, int]:
    """The number of n bytes at an offset, the lowest first."""
    if len(b) - at < n:
        raise Fault(f"the bytes end inside the field at offset {key}")
    return int.from_bytes(b[at:at + n], "little"), at + n


def field_at(b: bytes, at: int) -> tuple[int, int, Span, int]:
    """The number, the type and the value of a field, and the offset after it."""
    key, after = varint_at(b, at, at)
    number, kind = key >> 3, key & 7
    if not 1 <= number < 2**29:
        raise Fault(f"no key of a field stands at offset {at}")
    if kind == 0:
        return number, 0, *varint_at(b, at, after)
    if kind == 1:
        return number, 1, *fixed_at(b, at, after, 8)
    if kind == 5:
        return number, 5, *fixed_at(b, at, after, 4)
    if kind == 2:
        length, start = varint_at(b, at, after)
        if length > len(b) - start:
            raise Fault(f"the bytes end inside the field at offset {at}")
        return number, 2, (start, start + length), start + length
    raise Fault(f"no key of a field stands at offset {at}")


def fields_of(b: bytes) -> Iterator[tuple[int, int, int, Span]]:
    """The offset, the number, the type and the value of each field."""
    at = 0
    while at < len(b):
        number, kind, value, after = field_at(b, at)
        yield at, number, kind, value
        at = after


def number_in(number: int, kind: int, value: Span) -> int:
    """The value of a field that must be a varint."""
    if kind != 0 or not isinstance(value, int):
        raise Fault(f"field {number} has another type")
    return value


def bytes_in(b: bytes, number: int, kind: int, value: Span) -> bytes:
    """The bytes of a field that must have some."""
    if kind != 2 or isinstance(value, int):
        raise Fault(f"field {number} has another type")
    return b[value[0]:value[1]]


def numbers_read(b: bytes) -> list[int]:
    """The numbers of a list, packed or not."""
    numbers = []
    for key, number, kind, value in fields_of(b):
        if number != 1:
            continue
        if kind == 0:
            numbers.append(signed(number_in(number, kind, value)))
        else:
            numbers += packed_numbers(bytes_in(b, number, kind, value), key)
    return numbers


def packed_numbers(packed: bytes, key: int) -> list[int]:
    """The numbers of a packed field whose key is at an offset."""
    at, numbers = 0, []
    while at < len(packed):
        n, at = varint_at(packed, key, at)
        numbers.append(signed(n))
    return numbers


def texts_read(b: bytes) -> list[bytes]:
    """The texts of a list."""
    return [bytes_in(b, n, k, v) for _, n, k, v in fields_of(b) if n == 1]


def entry_read(b: bytes) -> tuple[bytes, Value | None]:
    """A key and a value, if it has one."""
    key: bytes | None = None
    value: Value | None = None
    for _, number, kind, v in fields_of(b):
        if number == 1:
            if key is not None:
                raise Fault("field 1 comes twice")
            key = bytes_in(b, number, kind, v)
        elif number in VALUES:
            if value is not None:
                raise Fault(f"field {number} comes twice")
            if number == 2:
                value = (2, signed(number_in(number, kind, v), 64))
            else:
                text = bytes_in(b, number, kind, v)
                value = (number, text if number == 3 else texts_read(text) if number == 4 else numbers_read(text))
    return key or b"", value


def message_read(m: Message, b: bytes) -> Members:
    """A message, by the names of its fields."""
    out: Members = {}
    lists: dict[str, list[Any]] = {name: [] for name, what in m.fields.values() if what in (INFO, TEXTS)}
    for _, number, kind, value in fields_of(b):
        if number not in m.fields:
            continue
        name, what = m.fields[number]
        if what == INFO:
            key, content = entry_read(bytes_in(b, number, kind, value))
            lists[name] += [] if content is None else [(key, content)]
        elif what == TEXTS:
            lists[name].append(bytes_in(b, number, kind, value))
        elif name in out:
            raise Fault(f"field {number} comes twice")
        else:
            out[name] = value_read(what, b, number, kind, value)
    for name, what in m.fields.values():
        out.setdefault(name, lists[name] if name in lists else absent(what))
    return out


def value_read(what: Kind, b: bytes, number: int, kind: int, value: Span) -> Any:
    """The value of a field that comes once."""
    if what in (I64, I32):
        return signed(number_in(number, kind, value), 64 if what == I64 else 32)
    if what == FLAG:
        return number_in(number, kind, value) != 0
    text = bytes_in(b, number, kind, value)
    return message_read(what, text) if isinstance(what, Message) else text


def absent(what: Kind) -> Any:
    """The value of a field that doesn't come."""
    return None if isinstance(what, Message) else b"" if what == TEXT else False if what == FLAG else 0


def one_read(kinds: Kinds, b: bytes) -> Value:
    """The member of a oneof that bytes are, and its content."""
    found = None
    for _, number, kind, v in fields_of(b):
        if number not in kinds:
            continue
        if found is not None:
            raise Fault(f"field {number} comes twice")
        text = bytes_in(b, number, kind, v)
        what = kinds[number][1]
        found = number, message_read(what, text) if isinstance(what, Message) else text
    if found is None:
        raise Fault("the message is of no known type")
    return found


def entry_written(key: bytes, value: Value) -> bytes:
    """A key and a value."""
    number, v = value
    out = text_field(1, key)
    if number == 2:
        return out + number_field(2, v)
    if number == 3:
        return out + field(3, v)
    if number == 4:
        return out + field(4, b"".join(field(1, t) for t in v))
    return out + field(5, text_field(1, b"".join(varint(n) for n in v)))


def message_written(m: Message, value: Members) -> bytes:
    """The canonical bytes of a message."""
    return b"".join(value_written(*m.fields[number], number, value) for number in sorted(m.fields))


def value_written(name: str, what: Kind, number: int, value: Members) -> bytes:
    """The bytes of one field."""
    v = value[name]
    if what == INFO:
        return b"".join(field(number, entry_written(*e)) for e in v)
    if what == TEXTS:
        return b"".join(field(number, t) for t in v)
    if isinstance(what, Message):
        return field(number, message_written(what, v)) if v is not None else b""
    return text_field(number, v) if what == TEXT else wire.scalar(number, v)


def one_written(kinds: Kinds, number: int, value: Any) -> bytes:
    """The bytes of a oneof whose member has a number."""
    what = kinds[number][1]
    return field(number, message_written(what, value) if isinstance(what, Message) else value)


# ---- how values are shown


def shown_bytes(b: bytes) -> str:
    """Bytes."""
    return "Bytes { bytes: [" + ", ".join(str(x) for x in b) + "] }"


def shown_list(items: Iterable[str]) -> str:
    """A list of what is shown."""
    return "List { items: [" + ", ".join(items) + "] }"


def shown_time(t: Members) -> str:
    """A time."""
    return f"TimeSpec {{ sec: {t['sec']}, nsec: {t['nsec']} }}"


def shown_info(entries: Entries) -> str:
    """An information."""
    out = []
    for key, (number, v) in entries:
        inner = (str(v) if number == 2 else shown_bytes(v) if number == 3
                 else shown_list(shown_bytes(t) for t in v) if number == 4 else shown_list(str(n) for n in v))
        out.append(f"Entry {{ key: {shown_bytes(key)}, value: {VALUES[number]}({inner}) }}")
    return f"Info {{ entries: {shown_list(out)} }}"


def shown_message(m: Message, value: Members) -> str:
    """A message."""
    if m is TIME:
        return shown_time(value)
    parts = []
    for number in sorted(m.fields):
        name, what = m.fields[number]
        v = value[name]
        if what == INFO:
            s = shown_info(v)
        elif what == TEXTS:
            s = shown_list(shown_bytes(t) for t in v)
        elif isinstance(what, Message):
            s = "None" if v is None else f"Some({shown_message(what, v)})"
        elif what == TEXT:
            s = shown_bytes(v)
        else:
            s = str(v).lower()
        parts.append(f"{name}: {s}")
    return f"{m.name} {{ " + ", ".join(parts) + " }"


def shown_one(kinds: Kinds, number: int, value: Any) -> str:
    """A oneof whose member has a number."""
    name, what = kinds[number]
    s = shown_message(what, value) if isinstance(what, Message) else shown_bytes(value)
    if name in ON_HEAP or what is SERVER_HELLO:
        s = f"Boxed {{ inner: {s} }}"
    return f"{name}({s})"


def digits(b: bytes) -> str:
    """Bytes in hexadecimal digits."""
    return b.hex() or "-"


# ---- what a message asks for

STREAMS = ["Stdin", "Stdout", "Stderr", "Ttyin", "Ttyout"]
SECOND = records.SECOND


def nanos(t: Members | None) -> int | None:
    """The nanoseconds of a valid time."""
    if t is None or t["sec"] < 0 or not 0 <= t["nsec"] < 10**9 or t["sec"] * 10**9 + t["nsec"] >= 2**63:
        return None
    return t["sec"] * 10**9 + t["nsec"]


def is_signal(b: bytes) -> bool:
    """Whether a signal may have this name."""
    return 1 <= len(b) <= 32 and all(0x21 <= x <= 0x7e for x in b)


def log_number(b: bytes) -> int | None:
    """The number of a log's identifier."""
    if not re.fullmatch(rb"[0-9A-Z]{6}", b) or number_of(b.decode()) == 0:
        return None
    return number_of(b.decode())


def shown_exit(run: Members, value: int, dumped: bool, signal: bytes, error: bytes) -> str:
    """An exit."""
    first = f"Exit {{ run: {shown_time(run)}, value: {value}, dumped: {str(dumped).lower()}"
    return f"{first}, signal: {shown_bytes(signal)}, error: {shown_bytes(error)} }}"


def requested(number: int, v: Members) -> str:
    """The shown request of a message, or the text of its refusal."""
    name = OF_CLIENT[number][0]
    if name == "Hello":
        return "Hello"
    if name == "Exit":
        run = v["run_time"] if v["run_time"] is not None else {"sec": 0, "nsec": 0}
        if nanos(run) is None:
            return "bad time"
        return f"Exit({shown_exit(run, v['exit_value'], v['dumped_core'], v['signal'], v['error'])})"
    t = v.get("submit_time", v.get("alert_time", v.get("delay", v.get("resume_point"))))
    if nanos(t) is None:
        return "bad time"
    if name == "Accept":
        return (f"Accept(Accept {{ head: Head {{ submit: {shown_time(t)}, info: {shown_info(v['info_msgs'])} }}, "
                f"expect_iobufs: {str(v['expect_iobufs']).lower()} }})")
    if name in ("Reject", "Alert"):
        reason, info = shown_bytes(v["reason"]), shown_info(v["info_msgs"])
        return f"{name}(Report {{ time: {shown_time(t)}, reason: {reason}, info: {info} }})"
    if name == "Restart":
        log = log_number(v["log_id"])
        if log is None:
            return "no such log"
        return f"Restart(Restart {{ log: LogNo {{ number: {log} }}, point: Point {{ nanos: {nanos(t)} }} }})"
    if name == "Winsize":
        if v["rows"] < 0 or v["cols"] < 0:
            return "bad size or signal"
        return f"Record(Winsize {{ delay: {nanos(t)}, rows: {v['rows']}, cols: {v['cols']} }})"
    if name == "Suspend":
        if not is_signal(v["signal"]):
            return "bad size or signal"
        return f"Record(Suspend {{ delay: {nanos(t)}, signal: {shown_bytes(v['signal'])} }})"
    return f"Record(Io {{ delay: {nanos(t)}, stream: {name}, bytes: {shown_bytes(v['bytes'])} }})"


# ---- JSON


def time_json(t: Members) -> Members:
    """A time."""
    return {"nanoseconds": t["nsec"], "seconds": t["sec"]}


def head_line(submit: Members, entries: Entries) -> bytes:
    """log.json."""
    info = {}
    for key, (number, v) in entries:
        info[lossy(key)] = lossy(v) if number == 3 else [lossy(t) for t in v] if number == 4 else v
    return lines.line_of({"info": info, "submit_time": time_json(submit)})


def exit_line(run: Members, value: int, dumped: bool, signal: bytes, error: bytes) -> bytes:
    """exit.json."""
    return lines.exit_line(run["sec"] * SECOND + run["nsec"], value, dumped, lossy(signal), lossy(error))


def json_read(b: bytes) -> Any:
    """The value of a text."""

    def whole(text: str) -> float | int:
        """-0 is no whole number."""
        return float(text) if text == "-0" else int(text)

    def refuse(text: str) -> None:
        """NaN and its like are refused."""
        raise ValueError(text)

    try:
        return json.loads(b.decode("utf-8"), parse_int=whole, parse_constant=refuse)
    except (ValueError, RecursionError) as fault:
        raise Fault("no JSON") from fault


def amiss(key: str) -> Fault:
    """What is said of a member."""
    return Fault(f"the member `{key}` is missing or has another form")


def is_number(v: Any, bits: int) -> bool:
    """Whether a value is a whole number of so many bits."""
    return type(v) is int and -2**(bits - 1) <= v < 2**(bits - 1)


def time_in(v: Any) -> Members | None:
    """A valid time."""
    if not isinstance(v, dict) or not is_number(v.get("seconds"), 64) or not is_number(v.get("nanoseconds"), 32):
        return None
    t = {"sec": v["seconds"], "nsec": v["nanoseconds"]}
    return t if nanos(t) is not None else None


def entry_value(v: Any) -> Value | None:
    """The value of an entry, with its field's number."""
    if is_number(v, 64):
        return 2, v
    if isinstance(v, str):
        return 3, v.encode()
    if isinstance(v, list):
        if all(isinstance(x, str) for x in v):
            return 4, [x.encode() for x in v]
        if all(is_number(x, 64) for x in v):
            return 5, v
    return None


def head_read(b: bytes) -> str:
    """The shown head of a log.json, and its canonical text."""
    v = json_read(b)
    if not isinstance(v, dict) or not isinstance(v.get("info"), dict):
        raise amiss("info")
    entries = []
    for key in sorted(v["info"]):
        value = entry_value(v["info"][key])
        if value is None:
            raise amiss(key)
        entries.append((key.encode(), value))
    submit = time_in(v.get("submit_time"))
    if submit is None:
        raise amiss("submit_time")
    return f"Head {{ submit: {shown_time(submit)}, info: {shown_info(entries)} }} {digits(head_line(submit, entries))}"


def exit_read(b: bytes) -> str:
    """The shown exit of an exit.json, and its canonical text."""
    v = json_read(b)
    v = v if isinstance(v, dict) else {}
    if type(v.get("dumped_core")) is not bool:
        raise amiss("dumped_core")
    if not isinstance(v.get("error", ""), str):
        raise amiss("error")
    if not is_number(v.get("exit_value"), 32):
        raise amiss("exit_value")
    run = time_in(v.get("run_time"))
    if run is None:
        raise amiss("run_time")
    if not isinstance(v.get("signal", ""), str):
        raise amiss("signal")
    signal, error = v.get("signal", "").encode(), v.get("error", "").encode()
    line = exit_line(run, v["exit_value"], v["dumped_core"], signal, error)
    return f"{shown_exit(run, v['exit_value'], v['dumped_core'], signal, error)} {digits(line)}"


# ---- records: (event, delay, data | (rows, columns) | signal)

Row = tuple[int, int, Any]


def record_of(r: Row) -> Record:
    """A record as lines of timing have it."""
    event, delay, rest = r
    if event == 5:
        return delay, "winsize", *rest
    return (delay, "suspend", rest.decode()) if event == 7 else (delay, STREAMS[event].lower(), rest)


def laid(session: Sequence[Row]) -> list[bytes]:
    """The texts of timing and of the five streams."""
    named = [record_of(r) for r in session]
    return [records.timing_of(named)] + [records.stream_of(named, stream) for stream in records.STREAMS]


def record_word(r: Row) -> str:
    """A record as a word of a case."""
    event, delay, rest = r
    return f"{event}:{delay}:" + ("%d:%d" % rest if event == 5 else digits(rest))


def shown_record(r: Row) -> str:
    """A record."""
    event, delay, rest = r
    if event == 5:
        return f"Winsize {{ delay: {delay}, rows: {rest[0]}, cols: {rest[1]} }}"
    if event == 7:
        return f"Suspend {{ delay: {delay}, signal: {shown_bytes(rest)} }}"
    return f"Io {{ delay: {delay}, stream: {STREAMS[event]}, bytes: {shown_bytes(rest)} }}"


def shown_shape(r: Row) -> str:
    """A line of timing, with the number of a stream's bytes."""
    event, delay, rest = r
    if event == 5:
        return f"Winsize({delay}, {rest[0]}, {rest[1]})"
    return f"Suspend({delay}, {shown_bytes(rest)})" if event == 7 else f"Io({delay}, {STREAMS[event]}, {rest})"


def line_at(timing: bytes, at: int) -> tuple[Row, int] | None:
    """The record of the line at an offset, of a stream the number of its bytes, and the line's length."""
    end = timing.find(b"\n", at)
    record = records.read_line(timing[at:end]) if end >= 0 else None
    if record is None:
        return None
    delay, event, *rest = record
    row = records.EVENTS[event], delay, rest[0] if event in records.STREAMS else tuple(rest)
    return (row if event != "suspend" else (7, delay, rest[0].encode())), end + 1 - at


def read_back(texts: Sequence[bytes]) -> str:
    """The shown records of the texts of timing and of the five streams."""
    at = elapsed = 0
    taken, found = [0] * 5, []
    while at < len(texts[0]):
        line = line_at(texts[0], at)
        if line is None:
            raise Fault(f"no line of timing stands at offset {at}")
        (event, delay, rest), length = line
        elapsed += delay
        if elapsed >= 2**63:
            raise Fault("the elapsed time reaches 2^63 nanoseconds")
        if event < 5:
            data = texts[1 + event][taken[event] : taken[event] + rest]
            if len(data) < rest:
                raise Fault(f"{STREAMS[event]} has fewer bytes than the timing tells")
            taken[event] += rest
            rest = data
        found.append((event, delay, rest))
        at += length
    return shown_list(shown_record(r) for r in found)


def masked(prompts: Sequence[bytes], session: Sequence[Row]) -> list[Row]:
    """What is stored: typed bytes after a prompt are stars, up to the end of their line."""
    output, hot, stored = b"", False, []
    for event, delay, rest in session:
        if event == 4 and rest:
            output = (output + rest).split(b"\n")[-1]
            hot = any(p in output[-256:] for p in prompts)
        elif event == 3:
            if hot:
                end = re.search(rb"[\r\n]", rest)
                n = end.start() if end else len(rest)
                rest, hot = b"*" * n + rest[n:], end is None
        stored.append((event, delay, rest))
    return stored


# ---- the answers


def answer_of(f: Callable[..., str], *args: Any) -> str:
    """An answer, or why there is none."""
    try:
        return f(*args)
    except Fault as fault:
        return str(fault)


def client(b: bytes) -> str:
    """The answer to bytes of a client."""
    number, value = one_read(OF_CLIENT, b)
    return f"{shown_one(OF_CLIENT, number, value)} {digits(one_written(OF_CLIENT, number, value))}"


def server(b: bytes) -> str:
    """The answer to bytes of a server."""
    number, value = one_read(OF_SERVER, b)
    canonical = one_written(OF_SERVER, number, value)
    return f"{shown_one(OF_SERVER, number, value)} {digits(canonical)} {digits(frame(canonical))}"


def json_of(b: bytes) -> str:
    """What is stored of an accept or an exit."""
    number, v = one_read(OF_CLIENT, b)
    if number == 1:
        return digits(head_line(v["submit_time"], v["info_msgs"]))
    run = v["run_time"] if v["run_time"] is not None else {"sec": 0, "nsec": 0}
    return digits(exit_line(run, v["exit_value"], v["dumped_core"], v["signal"], v["error"]))


def shown_fields(b: bytes) -> list[str]:
    """A line for each field."""
    lines: list[str] = []
    at = 0
    while at < len(b):
        try:
            number, kind, value, at = field_at(b, at)
        except Fault as e:
            return lines + [str(e)]
        shown = {0: "Varint(%s)", 1: "Eight(%s)", 5: "Four(%s)", 2: "Range(%s, %s)"}[kind] % value
        lines.append(f"Field {{ number: {number}, value: {shown} }} {at}")
    return lines


def given(pieces: Sequence[bytes]) -> list[str]:
    """What is given after each piece."""
    frames, found = Frames(), []
    for piece in pieces:
        words = ["piece"] + [digits(message) for message in frames.feed(piece)]
        if frames.length() > LARGEST:
            words.append(f"{frames.length()} is too large")
        found.append(" ".join(words))
    return found


def request_of(b: bytes) -> str:
    """The answer to what a client asks for."""
    return requested(*one_read(OF_CLIENT, b))


READERS = {
    "client": client, "server": server, "json": json_of, "head": head_read, "exit": exit_read, "request": request_of,
}


class Cases(Rows):
    """Cases of all kinds. One that has its answer beside it ends the program if both don't agree."""

    def row(self, word: str, b: bytes, wanted: str | None = None) -> None:
        """Bytes that are read."""
        answer = answer_of(READERS[word], b)
        if wanted is not None and answer != wanted and not answer.endswith(" " + wanted):
            sys.exit(f"{word} {digits(b)}:\n{answer}\nand not\n{wanted}")
        self.case(f"{word} {digits(b)}", answer)

    def text(self, word: str, text: str | bytes, wanted: str | None = None) -> None:
        """A text that is read."""
        self.row(word, text.encode() if isinstance(text, str) else text, wanted)

    def fields(self, b: bytes) -> None:
        """The fields of bytes."""
        self.case(f"fields {digits(b)}", *shown_fields(b))

    def frames(self, pieces: Sequence[bytes], wanted: Sequence[str] | None = None) -> None:
        """Bytes that come in pieces."""
        found = given(pieces)
        if wanted is not None and found != wanted:
            sys.exit(f"frames {pieces!r}: {found}")
        self.case("frames " + " ".join(digits(p) for p in pieces), *found)

    def lay(self, session: Sequence[Row], timing: bytes | None = None) -> None:
        """Records that are laid, and read back."""
        texts = laid(session)
        if timing is not None and texts[0] != timing:
            sys.exit(f"lay {session}")
        self.case("lay " + " ".join(record_word(r) for r in session), " ".join(digits(t) for t in texts))
        self.read(texts)

    def read(self, texts: Sequence[bytes], wanted: str | None = None) -> None:
        """The texts of timing and of the five streams."""
        answer = answer_of(read_back, texts)
        if wanted is not None and answer != wanted:
            sys.exit(f"read {texts!r}: {answer}")
        self.case("read " + " ".join(digits(t) for t in texts), answer)

    def mask(self, prompts: Sequence[bytes], session: Sequence[Row], typed: bytes | None = None) -> None:
        """A session whose passwords are masked."""
        stored = masked(prompts, session)
        if typed is not None and laid(stored)[4] != typed:
            sys.exit(f"mask {session}")
        words = ",".join(digits(p) for p in prompts) + " " + " ".join(record_word(r) for r in session)
        self.case("mask " + words, " ".join(digits(t) for t in laid(stored)))

    def resume(self, prompts: Sequence[bytes], session: Sequence[Row], typed: bytes) -> None:
        """What is stored is the same wherever the mask is taken on again."""
        stored = masked(prompts, session)
        if laid(stored)[4] != typed:
            sys.exit(f"resume {session}")
        words = (",".join(digits(p) for p in prompts) or "none") + " " + " ".join(record_word(r) for r in session)
        for place in range(len(session) + 1):
            self.case(f"resume {place} {words}", " ".join(digits(t) for t in laid(stored)))

    def tally(self, size: int, text: bytes, shapes: Sequence[Row], why: str | None = None) -> None:
        """The lines of a text of timing, and what is read of it."""
        shown = [shown_shape(r) for r in shapes] + ([why] if why else [])
        data = [sum(r[2] for r in shapes if r[0] == stream) for stream in (0, 3, 4)]
        whole = [r if r[0] > 4 else (r[0], r[1], bytes(r[2])) for r in shapes]
        front = f"{len(shapes)} lines of {len(laid(whole)[0])} bytes to {sum(r[1] for r in shapes)}"
        self.case(f"tally {size} {text.hex()}", *shown, f"{front}, data " + " ".join(map(str, data)))

    def number(self, text: str, wanted: int | None) -> None:
        """The identifier of a log."""
        found = log_number(text.encode())
        if found != wanted:
            sys.exit(f"number {text}")
        self.case(f"number {text}", "no log number" if found is None else str(found))


# ---- the cases


def h(text: str) -> bytes:
    """Hexadecimal digits, with blanks between them."""
    return bytes.fromhex(text)


# A whole session, as a client sends it: bytes and answers that other programs made.
SESSION = [
    "6A0D0A0B5375646F20312E392E3135",
    "0AE0010A060880E2CFAA0612160A07636F6D6D616E641A0B2F7573722F62696E2F696412130A0772756E6172677622080A0269640A022D75"
    "120F0A0772756E757365721A04726F6F74120A0A0672756E7569641000120A0A0672756E676964100012100A0872756E67726F75701A0472"
    "6F6F7412110A0A7375626D6974757365721A03616E6E12120A0A7375626D6974686F73741A047765623112160A097375626D69746377641A"
    "092F686F6D652F616E6E12150A077474796E616D651A0A2F6465762F7074732F3012090A056C696E65731018120B0A07636F6C756D6E7310"
    "501801",
    "3A0C0A061080CAB5EE0112022320",
    "3A0B0A0208011205696420 2D75",
    "3A090A0012050D0A300D0A",
    "5A080A020802101E1864",
    "1A0A0A08080310808C8D9E02",
    "220C0A0630303030303112020801",
]
HEAD = (
    '{"info":{"columns":80,"command":"/usr/bin/id","lines":24,"runargv":["id","-u"],"rungid":0,"rungroup":"root",'
    '"runuid":0,"runuser":"root","submitcwd":"/home/ann","submithost":"web1","submituser":"ann",'
    '"ttyname":"/dev/pts/0"},'
    '"submit_time":{"nanoseconds":0,"seconds":1700000000}}\n'
)
ENDED = '{"dumped_core":false,"exit_value":0,"run_time":{"nanoseconds":600000000,"seconds":3}}\n'
RECORDS = [(4, 500_000_000, b"# "), (4, 10**9, b"id -u"), (4, 0, b"\r\n0\r\n"), (5, 2 * 10**9, (30, 100))]
TIMING = b"4 0.500000000 2\n4 1.000000000 5\n4 0.000000000 5\n5 2.000000000 30 100\n"
REPLIES = [
    "0A090A056C737620312001", "1A06303030303031", "12080801 1080CAB5EE01", "12080803 1080CAB5EE01", "1200",
    "12061080CAB5EE01",
    "22116D65737361676520746F6F206C61726765", "22116D616C666F726D6564206D657373616765", "22096E6F74206275696C74",
    "2208626164 2074696D65", "220D6E756D62657273207370656E74", "220C6C6F6720636F6D706C657465",
    "220B6E6F2073756368206C6F67",
    "220C62616420757073747265616D", "220A72656C6179206C6F7374", "22146E6F207375636820726573756D6520706F696E74",
    "220A6C6F6720696E20757365",
    "1A06303030304137", "0A130A056C737620311203623A311A01781A002001", "2200", "2A0473746F70",
]

# Each message of a client with something in each field.
FULL = [
    "0A5A0A060880E2CFAA0612120A07636F6D6D616E641A072F62696E2F696412070A037569641000120E0A046172677622060A0269640A00"
    "12170A04676964732A0F0A0D00AC02FFFFFFFFFFFFFFFFFF0112080A046E6F6E652A001801",
    "12260A1608FFFFFFFFFFFFFFFFFF0110FFFFFFFFFFFFFFFFFF0112026E6F1A080A04757365721A00",
    "1A200A08080310808C8D9E0210FEFFFFFFFFFFFFFFFF01180122044B494C4C2A0165",
    "220A0A063030303030311200",
    "2A1512037768791A0E0A016E1080808080808080808001",
    "320F0A0808011080CAB5EE011203FF0061", "3A0F0A0808011080CAB5EE011203FF0061", "420F0A0808011080CAB5EE011203FF0061",
    "4A0F0A0808011080CAB5EE011203FF0061", "520F0A0808011080CAB5EE011203FF0061",
    "5A0F0A00101E1880808080F8FFFFFFFF01", "620A0A02100712 04434F4E54", "6A00",
]

UNKNOWN = "780579010101010101010182 01027A7A8D0101020304"

# Other spellings, and the canonical bytes of the same message.
SPELLINGS = [
    ("BA80008680000A0408818000", "3A040A020801"),
    ("3A091201780A0410020801", "3A090A0408011002120178"),
    ("1A0E0A0408001000100018 0022002A00", "1A020A00"),
    ("3A0B0A061080808080 10120178", "3A050A00120178"),
    ("5A0610FFFFFFFF0F", "5A0B10FFFFFFFFFFFFFFFFFF01"),
    ("1A0B18FFFFFFFFFFFFFFFFFF01", "1A021801"),
    (UNKNOWN + "3A5C" + UNKNOWN + "0A2E" + UNKNOWN + "0801" + UNKNOWN + UNKNOWN + UNKNOWN, "3A040A020801"),
    ("0A1312110A016B2A0C0A02010208030A000A028400", "0A0D120B0A016B2A060A0401020304"),
    ("0A1B12090A077474796E616D6512050A016110011200120510020A0162", "0A0E12050A0161100112050A01621002"),
    ("6A050A01617805", "6A030A0161"),
]

# Bytes that are no message of a client, and why.
FAULTS = [
    ("", "the message is of no known type"), ("7805", "the message is of no known type"),
    ("6A060A01610A0162", "field 1 comes twice"), ("6A030A01616A030A0162", "field 13 comes twice"),
    ("3A005A00", "field 11 comes twice"),
    ("3A040A000A00", "field 1 comes twice"), ("0A06120410001A00", "field 3 comes twice"),
    ("0A0812060A01610A0161", "field 1 comes twice"),
    ("3A060A0410001000", "field 2 comes twice"),
    ("3801", "field 7 has another type"), ("3A020801", "field 1 has another type"),
    ("3A040A020A00", "field 1 has another type"),
    ("3A0B0A09110000000000000000", "field 2 has another type"), ("0A0412021200", "field 2 has another type"),
    ("0A0412022001", "field 4 has another type"), ("0A06120422020801", "field 1 has another type"),
    ("0A0912072A050D00000000", "field 1 has another type"), ("0A021A00", "field 3 has another type"),
    ("3A051201611001", "field 2 comes twice"), ("3A005801", "field 11 comes twice"),
    ("6A060A047375", "the bytes end inside the field at offset 0"),
    ("6A040A047375", "the bytes end inside the field at offset 0"),
    ("3A0A12036162630A03080110", "the bytes end inside the field at offset 2"),
    ("3A061201610A0208", "the bytes end inside the field at offset 3"),
    ("3A000001", "no key of a field stands at offset 2"), ("3A030A000B", "no key of a field stands at offset 2"),
    ("3A100A0E080110FFFFFFFFFFFFFFFFFFFF00", "a varint of the field at offset 2 has more than ten bytes"),
    ("0A0A12082A0608030A020180", "the bytes end inside the field at offset 2"),
    ("0A1512132A114A01780A0C01FFFFFFFFFFFFFFFFFFFF00", "a varint of the field at offset 3 has more than ten bytes"),
    ("3A02080100", "field 1 has another type"), ("3A040A0208013A0000", "field 7 comes twice"),
    ("780100", "no key of a field stands at offset 2"),
    ("0A080A04100110010801", "field 2 comes twice"), ("0A0810010A0410011001", "field 2 has another type"),
    ("0A0712050A016B0801", "field 1 comes twice"), ("0A0612040A016B0A", "the bytes end inside the field at offset 3"),
]


def spec(sec: int, nsec: int = 0) -> Members:
    """A time."""
    return {"sec": sec, "nsec": nsec}


def message(number: int, **fields: Any) -> bytes:
    """A message of a client with these fields."""
    m = OF_CLIENT[number][1]
    assert isinstance(m, Message)
    value = message_read(m, b"")
    value.update(fields)
    return one_written(OF_CLIENT, number, value)


# Messages that ask for something that is refused, or for what lies at the edge of it.
REQUESTS = [
    (message(1, submit_time=spec(1)), None), (message(1, submit_time=spec(-1)), "bad time"), (message(1), "bad time"),
    (message(2, submit_time=spec(1)), None), (message(2), "bad time"), (message(5, alert_time=spec(1)), None),
    (message(5), "bad time"),
    (message(3), None), (message(3, run_time=spec(0, 10**9)), "bad time"),
    (message(3, run_time=spec(0, 10**9 - 1)), None),
    (message(4, log_id=b"00000Z", resume_point=spec(0)), None),
    (message(4, log_id=b"000000", resume_point=spec(0)), "no such log"),
    (message(4, log_id=b"00000z", resume_point=spec(0)), "no such log"),
    (message(4, log_id=b"0000001", resume_point=spec(0)), "no such log"),
    (message(4, log_id=b"nothing"), "bad time"),
    (message(4, log_id=b"ZZZZZZ", resume_point=spec(9223372036, 854775807)), None),
    (message(7, delay=spec(0)), None), (message(7), "bad time"), (message(7, delay=spec(0, -1)), "bad time"),
    (message(7, delay=spec(9223372036, 854775807), bytes=b"x"), None),
    (message(7, delay=spec(9223372036, 854775808)), "bad time"),
    (message(7, delay=spec(9223372037)), "bad time"), (message(7, delay=spec(2**63 - 1)), "bad time"),
    (message(11, delay=spec(0), cols=2**31 - 1), None), (message(11, delay=spec(0), rows=-1), "bad size or signal"),
    (message(11, delay=spec(0), cols=-1), "bad size or signal"), (message(11, delay=spec(0, -1), cols=-1), "bad time"),
    (message(12, delay=spec(0), signal=b"TSTP"), None), (message(12, delay=spec(0)), "bad size or signal"),
    (message(12, delay=spec(0), signal=b"a b"), "bad size or signal"),
    (message(12, delay=spec(0), signal=b"A" * 32), None),
    (message(12, delay=spec(0), signal=b"A" * 33), "bad size or signal"), (message(12, signal=b"a b"), "bad time"),
    (h("0A020801"), "field 1 has another type"),
]

HEADS = [
    ' {"submit_time": {"seconds": 1, "x": [], "nanoseconds": 999999999},'
    ' "info": {"b": "\\u00e9\\/", "a": 1, "b": ["x", ""]}, "more": null}',
    '{"info":{"l":-9223372036854775808,"m":[9223372036854775807,-1],"n":[]},'
    '"submit_time":{"nanoseconds":854775807,"seconds":9223372036}}',
    "", '{"info":{}', b'{"info":"\xff"}', '{"info":{}} {}', "null", "[]", "{}", '{"info":[]}', '{"info":{}}',
    '{"info":{},"submit_time":1}',
    '{"info":{},"submit_time":{"seconds":1}}', '{"info":{},"submit_time":{"nanoseconds":0,"seconds":"1"}}',
    '{"info":{},"submit_time":{"nanoseconds":0,"seconds":1.0}}',
    '{"info":{},"submit_time":{"nanoseconds":0,"seconds":-1}}',
    '{"info":{},"submit_time":{"nanoseconds":1000000000,"seconds":1}}',
    '{"info":{},"submit_time":{"nanoseconds":854775808,"seconds":9223372036}}',
    '{"submit_time":1,"info":{"b":null,"a":1,"c":true}}', '{"info":{"":{}},"submit_time":1}', '{"info":{"a":["x",1]}}',
    '{"info":{"a":[1,"x"]}}',
    '{"info":{"a":[[]]}}', '{"info":{"a":1.5}}', '{"info":{"a":1e2}}', '{"info":{"a":-0}}',
    '{"info":{"a":9223372036854775808}}',
    '{"info":{"a":[18446744073709551616]}}', '{"info":{"a":[-9223372036854775809]}}',
]

EXITS = [
    '{"signal":"","run_time":{"seconds":0,"nanoseconds":1},"more":[1.5],"exit_value":2147483647,'
    '"error":"","dumped_core":true}',
    '{"dumped_core":false,"error":"e","exit_value":-2147483648,"run_time":{"nanoseconds":0,"seconds":0},'
    '"signal":"KILL"}',
    "}", "1", '{"dumped_core":1}', '{"dumped_core":true,"error":null}', '{"dumped_core":true,"signal":1}',
    '{"dumped_core":true,"exit_value":2147483648}',
    '{"dumped_core":true,"exit_value":-2147483649}', '{"dumped_core":true,"exit_value":0.0}',
    '{"dumped_core":true,"exit_value":0,"signal":1}',
    '{"dumped_core":true,"exit_value":0,"run_time":{"nanoseconds":-1,"seconds":1}}',
    '{"dumped_core":true,"exit_value":0,"run_time":{"nanoseconds":0,"seconds":1},"signal":false}',
]

# Lines that are none, each alone.
BAD_LINES = [
    b"4 1.5 3\n", b"4 1.50000000 3\n", b"4 1.5000000000 3\n", b"4 01.500000000 3\n", b"4 .500000000 3\n",
    b"4 1500000000 3\n", b"4 1.500000000 03\n",
    b"4 1.500000000 +3\n", b"4 1.500000000 \n", b"4 1.500000000\n", b"4 1.500000000 3", b"4 1.500000000 3 \n",
    b"4 1.500000000 3\r\n",
    b"4  1.500000000 3\n", b" 4 1.500000000 3\n", b"44 1.500000000 3\n", b"6 1.500000000 3\n", b"\n",
    b"4 1.500000000 2097153\n",
    b"4 9223372036.854775808 3\n", b"4 18446744073.709551617 3\n", b"4 1.500000000 18446744073709551619\n",
    b"5 1.000000000 24\n",
    b"5 1.000000000 24 80 1\n", b"5 1.000000000 2147483648 80\n", b"5 1.000000000 24 2147483648\n", b"7 0.000000000 \n",
    b"7 0.000000000 TS TP\n",
    b"7 0.000000000 TSTP\x7f\n", b"7 0.000000000 123456789012345678901234567890123\n",
]

# Texts of timing over two bytes of terminal output, and what is told of them.
LAYOUTS = [
    (b"4 0.000000000 2\n4 1.5 3\n", "no line of timing stands at offset 16"),
    (b"4 0.000000000 3\n4 1.5 3\n", "Ttyout has fewer bytes than the timing tells"),
    (b"3 0.000000000 1\n", "Ttyin has fewer bytes than the timing tells"),
    (b"4 9223372036.854775807 2\n4 0.000000001 1\n", "the elapsed time reaches 2^63 nanoseconds"),
    (b"4 9223372036.854775807 1\n", None), (b"", None),
    (b"0 9223372036.854775807 2097152\n", "Stdin has fewer bytes than the timing tells"),
    (b"5 9223372036.854775807 2147483647 2147483647\n", None),
    (b"7 9223372036.854775807 !234567890123456789012345678901~\n", None),
]

PROMPTS = [b"assword:", b"assword for"]


def o(b: bytes) -> Row:
    """Terminal output."""
    return 4, SECOND, b


def t(b: bytes) -> Row:
    """Terminal input."""
    return 3, SECOND, b


# Sessions, and what is stored of what is typed in them.
TYPED = [
    ([o(b"[sudo] password for ann: "), t(b"pw"), t(b"1\rls"), o(b"\r\n"), t(b"id")], b"***\rlsid"),
    ([o(b"[sudo] password for ann: "), t(b"pw"), t(b"1\r")], b"***\r"),
    ([o(b"Pass"), o(b""), (1, 0, b"\n"), o(b"word: "), t(b"pw\nls")], b"**\nls"),
    ([o(b"asswordassword for x"), t(b"pw")], b"**"), ([o(b"aassassword:"), t(b"pw")], b"**"),
    ([o(b"Password: \r\n"), t(b"id")], b"id"), ([o(b"Pass\nword: "), t(b"id")], b"id"),
    ([o(b"Password: "), t(b"a\r"), o(b""), t(b"b"), o(b"x"), t(b"c")], b"*\rb*"),
    ([(1, 0, b"Password: "), t(b"id")], b"id"), ([t(b"id")], b"id"),
    ([o(b"assword:"), o(b"x" * 248), t(b"pw")], b"**"), ([o(b"assword:"), o(b"x" * 249), t(b"pw")], b"pw"),
    ([o(b"x" * 600), o(b"assword:"), t(b"pw")], b"**"), ([o(b"assword:"), o(b"x" * 600), t(b"pw")], b"pw"),
]


# The mask is taken on again at each place of these.
RESUMED: list[tuple[list[Row], bytes]] = [
    ([o(b"Pass"), o(b""), (1, 0, b"\n"), o(b"word: "), t(b"pw\nls")], b"**\nls"),
    ([o(b"Password: "), t(b"a\r"), o(b""), t(b"b"), o(b"x"), t(b"c")], b"*\rb*"),
    ([o(b"assword:"), o(b"x" * 248), t(b"pw")], b"**"), ([o(b"assword:" + b"x" * 248), t(b"pw")], b"**"),
    ([o(b"assword:"), o(b"x" * 249), t(b"pw")], b"pw"), ([o(b"assword:" + b"x" * 249), t(b"pw")], b"pw"),
    ([o(b"x" * 600), o(b"assword:"), t(b"pw")], b"**"), ([o(b"x" * 600 + b"assword:"), t(b"pw")], b"**"),
    ([o(b"assword:"), o(b"x" * 600), t(b"pw")], b"pw"), ([o(b"assword:" + b"x" * 600), t(b"pw")], b"pw"),
    ([o(b"x" * 600), o(b"assword:"), o(b"x" * 248), t(b"pw")], b"**"),
    ([o(b"x" * 600 + b"assword:" + b"x" * 248), t(b"pw")], b"**"),
]

NO_LINE = "no line of timing stands there"
LONG_SIGNAL = b"a signal of more than 32 bytes, with spaces in it"

# Texts of timing: their lines, where a stream has the number of its bytes, and the fault behind them.
SIGNAL = b"!234567890123456789012345678901~"
TIMINGS: list[tuple[bytes, list[Row], str | None, list[int]]] = [
    (b"4 0.000000000 2\n7 9.223372036 " + SIGNAL + b"\n5 1.000000000 24 80\n3 0.000000001 2097152\n4 0.000000002 3\n",
     [(4, 0, 2), (7, 9_223_372_036, SIGNAL), (5, 10**9, (24, 80)), (3, 1, 2_097_152), (4, 2, 3)], None,
     [56, 57, 64, 100, 65_536]),
    (b"4 0.000000000 2\n4 1.5 3\n", [(4, 0, 2)], NO_LINE, [56]),
    (b"4 0.000000000 2", [], NO_LINE, [56]),
    (b"4 9223372036.854775807 2\n4 0.000000001 1\n4 1.5 3\n", [(4, 2**63 - 1, 2)],
        "the elapsed time reaches 2^63 nanoseconds", [56]),
    (b"123456789012345678901234567890123456789012345678901234567", [], NO_LINE, [56]),
    # the second line doesn't end in its window, which isn't the last
    (b"4 1.500000000 3\n4 0.000000000 2222222222\n", [(4, 1_500_000_000, 3)], None, [21]),
]


def random_bytes(r: random.Random, most: int) -> bytes:
    """Fewer bytes than a number."""
    return bytes(r.randrange(256) for _ in range(r.randrange(most)))


def random_number(r: random.Random) -> int:
    """A number, often one at an edge."""
    return r.choice([0, 1, -1, 127, 128, 2**31 - 1, -2**31, 2**32, 2**63 - 1, -2**63, r.randrange(2**40)])


def random_value(r: random.Random, m: Message) -> Members:
    """A message of some kind."""
    out: Members = {}
    for name, what in m.fields.values():
        if what == INFO:
            out[name] = [(random_bytes(r, 4), random_entry(r)) for _ in range(r.randrange(3))]
        elif what == TEXTS:
            out[name] = [random_bytes(r, 4) for _ in range(r.randrange(3))]
        elif what == TEXT:
            out[name] = random_bytes(r, 6)
        elif what == FLAG:
            out[name] = r.random() < 0.5
        elif isinstance(what, Message):
            out[name] = random_value(r, what) if r.random() < 0.8 else None
        else:
            out[name] = signed(random_number(r), 64 if what == I64 else 32)
    return out


def random_entry(r: random.Random) -> Value:
    """A value of an entry."""
    number = r.randrange(2, 6)
    if number == 2:
        return 2, signed(random_number(r), 64)
    if number == 3:
        return 3, random_bytes(r, 6)
    if number == 4:
        return 4, [random_bytes(r, 4) for _ in range(r.randrange(3))]
    return 5, [signed(random_number(r), 64) for _ in range(r.randrange(3))]


def random_message(r: random.Random, kinds: Kinds) -> bytes:
    """A message."""
    number = r.choice(list(kinds))
    what = kinds[number][1]
    return one_written(kinds, number, random_value(r, what) if isinstance(what, Message) else random_bytes(r, 6))


def mutated(r: random.Random, whole: bytes) -> bytes:
    """Bytes of which some were changed."""
    b = bytearray(whole)
    for _ in range(r.randrange(1, 3)):
        at = r.randrange(len(b) + 1)
        what = r.random()
        if what < 0.4 and at < len(b):
            b[at] = r.choice([0, 1, 2, 8, 10, 16, 18, 26, 58, 127, 128, 255, r.randrange(256)])
        elif what < 0.6:
            del b[at:at + r.randrange(1, 3)]
        elif what < 0.8:
            b[at:at] = bytes([r.randrange(256)])
        else:
            b += b[:at]
    return bytes(b)


def random_record(r: random.Random) -> Row:
    """A record."""
    event = r.choice([0, 1, 2, 3, 4, 5, 7])
    delay = r.choice([0, 1, 999_999_999, SECOND, r.randrange(2**40)])
    if event == 5:
        return event, delay, (r.choice([0, 24, 2**31 - 1]), r.randrange(1000))
    return event, delay, b"CONT" if event == 7 else random_bytes(r, 9)


def sessions(c: Cases) -> None:
    """A whole session, and what is stored of messages."""
    c.title("a session, each message and its frame in pieces")
    for text in SESSION:
        c.row("client", h(text), digits(h(text)))
        c.row("request", h(text))
    stream = b"".join(frame(h(m)) for m in SESSION)
    c.frames([stream], ["piece " + " ".join(digits(h(m)) for m in SESSION)])
    hello = frame(h("6A060A047375646F"))
    c.frames([hello[i:i + 1] for i in range(12)], ["piece"] * 11 + ["piece 6a060a047375646f"])
    c.frames([h("00000001070000000000000002 08"), h("09")], ["piece 07 -", "piece 0809"])
    c.frames([h("00200001"), hello], ["piece 2097153 is too large"] * 2)
    c.frames([h("00200000"), hello])
    c.row("json", h(SESSION[1]), digits(HEAD.encode()))
    c.row("json", h(SESSION[6]), digits(ENDED.encode()))
    c.row("json", message(1, submit_time=spec(0),
        info_msgs=[(b"runargv", (4, [b"\xff"])), (b"cut", (3, b"\xe2\x82")), (b"in", (3, b"a\x80b"))]))
    c.row("json", message(1, submit_time=spec(0),
        info_msgs=[(b"", (3, b"\x00\x1f\"\\/\x08\x0c\n\r\t\x7f\xe2\x82\xac"))]))
    c.row("json", message(1, submit_time=spec(0), info_msgs=[
        (b"least", (5, [-2**63, -1, 0])), (b"none", (5, [])), (b"most", (2, 2**63 - 1)), (b"no", (4, []))]))
    # Of keys that are shown alike the last counts.
    c.row("json", message(1, submit_time=spec(0), info_msgs=[
        (b"b\xff", (2, 1)), (b"a", (2, 2)), (b"b\xfe", (2, 3)), (b"a", (3, b"last")), (b"b", (2, 4)),
        (b"b\xfe", (2, 5)), (b"b\xff", (2, 6))]))
    c.row("json", h(FULL[2]))
    c.row("json", message(3, run_time=spec(3, 600_000_000), exit_value=-1, dumped_core=True, signal=b"SEGV",
        error=b"\xff"))
    c.lay(RECORDS, TIMING)
    c.lay([(4, 0, b""), (4, 1_500_000_000, b"abc")], b"4 0.000000000 0\n4 1.500000000 3\n")
    c.lay([(5, SECOND, (24, 80)), (7, 0, b"TSTP")], b"5 1.000000000 24 80\n7 0.000000000 TSTP\n")


def replies(c: Cases) -> None:
    """What a server says."""
    c.title("replies")
    for reply in REPLIES:
        c.row("server", h(reply), digits(frame(h(reply))))
    for reply, why in [("", "the message is of no known type"), ("1A002200", "field 4 comes twice"),
        ("1000", "field 2 has another type")]:
        c.row("server", h(reply), why)


def forms(c: Cases) -> None:
    """Messages of clients: in full, spelled otherwise, wrong ones, and what they ask for."""
    c.title("each message in full, other spellings, and what is no message")
    for text in FULL:
        c.row("client", h(text), digits(h(text)))
    for spelling, canonical in SPELLINGS:
        c.row("client", h(spelling), digits(h(canonical)))
    for text, why in FAULTS:
        c.row("client", h(text), why)
    for b in ["08AC02110100000000000002 1A02070825FF000001", "0A047375", "0801 08", "0D010203", "0001", "08010B01",
        "08FFFFFFFFFFFFFFFFFF01",
              "08FFFFFFFFFFFFFFFFFF8100", "08818000", "10 80CAB5EE01 6A047375646F FAFFFFFF0F00", "F8FFFFFF1F00"]:
        c.fields(h(b))

    c.title("requests")
    for asked, why in REQUESTS:
        c.row("request", asked, why)


def texts(c: Cases) -> None:
    """JSON, log numbers, timing and passwords."""
    c.title("JSON")
    for text in HEADS:
        c.text("head", text)
    for text in EXITS:
        c.text("exit", text)

    c.title("log numbers, timing, passwords")
    for text, n in [("000001", 1), ("00000Z", 35), ("000010", 36), ("000100", 1296), ("0000AB", 371),
        ("ZZZZZZ", 2_176_782_335), ("000000", None),
                    ("00000a", None), ("00001", None), ("0000001", None), ("00000/", None), ("00000:", None),
                    ("00000@", None), ("00000[", None)]:
        c.number(text, n)
    for line in BAD_LINES:
        c.read([line] + [b""] * 5, "no line of timing stands at offset 0")
    for timing, why in LAYOUTS:
        c.read([timing, b"", b"", b"", b"", b"ab"], why)
    for session, typed in TYPED:
        c.mask(PROMPTS, session, typed)
    resumed(c)


def resumed(c: Cases) -> None:
    """Masks that are taken on again, texts of timing in windows, and lines."""
    for session, typed in RESUMED:
        c.resume(PROMPTS, session, typed)
    c.resume([], [o(b"Password: "), t(b"id")], b"id")
    for text, shapes, why, sizes in TIMINGS:
        for size in sizes:
            c.tally(size, text, shapes, why)
    longest = digits(b"5 18446744073.709551615 4294967295 4294967295\n")
    c.case("line 5:18446744073709551615:4294967295:4294967295", longest)
    c.case(f"line 7:1000000009:{LONG_SIGNAL.hex()}", digits(b"7 1.000000009 " + LONG_SIGNAL + b"\n"))


def of_events(c: Cases) -> None:
    """Events and their lines."""
    for title, rows in events.cases():
        c.title(title)
        for asked, printed in rows:
            c.case(asked, *map(digits, printed))


def brief(b: bytes) -> str:
    """Bytes as they are printed: of many their count and their digest."""
    return digits(b) if len(b) <= 65_536 else f"{len(b)}:{hashlib.md5(b).hexdigest()}"


def many(before: bytes, byte: int, times: int, after: bytes = b"") -> tuple[str, bytes]:
    """A word for bytes of which one comes many times, and these bytes."""
    word = "+".join([digits(before), f"{byte:02x}*{times}", digits(after)])
    return word, before + bytes([byte]) * times + after


def data(delay: bytes, length: int) -> tuple[str, bytes]:
    """Terminal output with this many bytes of data."""
    buffer = delay + varint(2 << 3 | 2) + varint(length)
    return many(varint(7 << 3 | 2) + varint(len(buffer) + length) + buffer, 7, length)


def at_limits(c: Cases) -> None:
    """Messages, frames, records and replies of the greatest length, and of one byte more."""
    c.title("at the limit of a message")
    too_long = f"a message of {LARGEST + 1} bytes is longer than a frame holds"
    too_large = f"a message of {LARGEST + 1} bytes is longer than {LARGEST}"
    second = field(1, b"\x08\x01")
    env = many(varint(1 << 3 | 2), 0, 0)[1]
    text = varint(3 << 3 | 2) + varint(2_097_000)
    one = field(1, b"env") + text
    info = varint(2 << 3 | 2) + varint(len(one) + 2_097_000) + one
    accept = env + varint(len(second) + len(info) + 2_097_000 + 2) + second + info
    for word, b in (many(accept, 7, 2_097_000, b"\x18\x01"), data(second, 2_097_100), data(b"", LARGEST - 8)):
        c.case(f"again {word}", brief(b))
    assert len(data(b"", LARGEST - 8)[1]) == LARGEST
    c.case(f"again {data(b'', LARGEST - 7)[0]}", too_long)
    for length in (LARGEST - 4, LARGEST - 3):
        word, b = many(varint(4 << 3 | 2) + varint(length), 7, length)
        c.case(f"reply {word}", brief(frame(b)) if len(b) == LARGEST else f"{too_long} -")
    none = field(1, b"")
    for delay, length, answer in ((none, LARGEST, "a request"), (none, LARGEST + 1, "message too large"),
                                  (b"", LARGEST + 1, "bad time")):
        c.case(f"judged {data(delay, length)[0]}", answer)
    word, b = many(b"", 5, LARGEST)
    c.case(f"framed {word[2:-2]}", brief(frame(b)))
    c.case(f"framed 05*{LARGEST + 1}", too_large)
    c.case(f"frames {(LARGEST).to_bytes(4, 'big').hex()}+05*{LARGEST}", f"piece {brief(b)}")
    over = f"piece {LARGEST + 1} is too large"
    c.case("frames 00200001 0000000000000000 0000000000000000", over, over, over)
    hello = frame(field(13, field(1, b"sudo")))
    large = f"{(100_000).to_bytes(4, 'big').hex()}+05*100000"
    printed = [f"piece {brief(bytes([5]) * 100_000)}", f"piece {digits(hello[4:])}"]
    c.case(f"frames {large} {hello.hex()} {large} {hello.hex()}", *printed * 2)
    line = digits(b"4 0.000000001 2097152\n")
    c.case(f"lay-again 4:1:07*{LARGEST}", f"{line} - - - - {brief(bytes([7]) * LARGEST)}")
    word, b = many(b'{"info":{"env":"', ord("x"), LARGEST, b'"},"submit_time":{"nanoseconds":0,"seconds":0}}\n')
    c.case(f"head-again {word}", brief(b))
    c.title("written varints, fields and frames")
    c.case(f"put 0 127 300 {2**64 - 1}", "007fac02ffffffffffffffffff01")
    c.case(f"put 2:500000000 13:x7375646f {2**29 - 1}:x-", "1080cab5ee016a047375646ffaffffff0f00")
    c.case("framed 120808011080cab5ee01", "0000000a120808011080cab5ee01")
    c.title("an accept opens a session with all four keys")
    keys = ("command", "runuser", "submituser", "submithost")
    for missing in (None, *keys):
        asked = {key: "x" for key in keys if key != missing}
        entries = b"".join(field(2, field(1, key) + field(3, value)) for key, value in asked.items())
        line = json.dumps({"info": asked, "submit_time": {"nanoseconds": 0, "seconds": 1}}, sort_keys=True,
                          separators=(",", ":")) + "\n"
        c.case(f"opening {digits(field(1, second + entries))}", "missing key" if missing else digits(line.encode()))
        c.case(f"opening {digits(field(1, entries))}", "bad time")


def of_memory(c: Cases) -> None:
    """Points, log numbers, sources, sinks and texts."""
    c.title("points and log numbers")
    last = 2**63 - 1
    for nanos, more, printed in ((last, 0, f"Some({last})"), (last, 1, "None"), (last, 2**64 - 1, "None"),
                                 (5, 7, "Some(12)")):
        c.case(f"point {nanos} {more}", f"{nanos} {nanos // 10**9} {nanos % 10**9} {printed}")
    c.case(f"point {2**63} 0", "no point")
    for number, text in ((1, b"000001"), (35, b"00000Z"), (36, b"000010"), (1296, b"000100"), (371, b"0000AB"),
                         (2_176_782_335, b"ZZZZZZ")):
        c.case(f"digits {number}", text.hex())
        assert number_of(text.decode()) == number
    for number in (0, 2_176_782_336):
        c.case(f"digits {number}", "no log number")
    c.title("sources, sinks and texts fail at each call in turn, and give the rest")
    pieces = "-,616263,-,6465"
    c.case(f"source 0 {pieces} 2,2,2,2,2", "2 6162", "1 63ff", "2 6465", "0 ffff", "0 ffff", "0 refused")
    for failing in range(1, 5):
        left, printed = [b"abc", b"de"], []
        for call in range(1, 6):
            piece = b"" if call == failing or not left else left.pop(0)
            word = "a read failed" if call == failing else str(len(piece))
            printed.append(f"{word} {piece.ljust(8, bytes([255])).hex()}")
        c.case(f"source {failing} {pieces} 8,8,8,8,8", *printed, "0 refused")
    for failing in range(1, 5):
        kept = [text for at, text in enumerate(("6162", "6364", "6566"), 1) if at != failing]
        c.case(f"sink {failing} 6162,6364,6566", *["a write failed"] * (failing < 4), f"{''.join(kept)}, 0 refused")
    for failing in range(1, 5):
        answers = [digits(b"one"), digits(b"two"), "no text"]
        if failing < 4:
            answers[failing - 1] = "a reading of a text failed"
        known = f"/a={digits(b'one')},/b={digits(b'two')},/a={digits(b'six')}"
        c.case(f"texts {failing} {known} /a,/b,/c", *answers, "0 refused")


def at_random(c: Cases) -> None:
    """Messages, bytes and records that are drawn."""
    c.title("at random")
    r = random.Random(1)
    for _ in range(60):
        b = random_message(r, OF_CLIENT)
        c.row("client", b, digits(b))
        c.row("request", b)
        c.row("client", mutated(r, b))
        c.fields(mutated(r, b))
    for _ in range(20):
        b = random_message(r, OF_SERVER)
        c.row("server", b)
        c.row("server", mutated(r, b))
    for _ in range(30):
        c.lay([random_record(r) for _ in range(r.randrange(1, 6))])


def main() -> None:
    """Writes all cases."""
    cases = Cases()
    for add in (sessions, replies, forms, texts, of_events, at_limits, of_memory, at_random):
        add(cases)
    cases.write(sys.argv[1])


if __name__ == "__main__":
    main()
