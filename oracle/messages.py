"""The messages of sudo_logsrv.proto(5), without their frames: those of a client and of a server, written and read.

An information is a dict of texts, numbers, lists of texts and lists of numbers.
"""
from __future__ import annotations

from collections.abc import Iterable, Mapping
from typing import Any

from oracle import wire
from oracle.lines import shown
from oracle.records import SECOND, STREAMS, Record
from oracle.wire import Value, bytes_in, field, number_in, scalar, signed, text

Info = dict[str, Any]
Fields = list[tuple[int, Value]]

# the members of a ClientMessage and of a ServerMessage, by their field's number
CLIENT = {
    1: "accept", 2: "reject", 3: "exit", 4: "restart", 5: "alert", 6: "ttyin", 7: "ttyout", 8: "stdin", 9: "stdout",
    10: "stderr", 11: "winsize", 12: "suspend", 13: "hello",
}
SERVER = {1: "hello", 2: "commit_point", 3: "log_id", 4: "error", 5: "abort"}
CLIENT_NUMBER = {name: number for number, name in CLIENT.items()}
SERVER_NUMBER = {name: number for number, name in SERVER.items()}

# ---- written


def timespec(nanoseconds: int) -> bytes:
    """A TimeSpec."""
    return scalar(1, nanoseconds // SECOND) + scalar(2, nanoseconds % SECOND)


def entry(key: str, value: Any) -> bytes:
    """An InfoMessage."""
    if isinstance(value, int):
        content = wire.number(2, value)
    elif isinstance(value, (str, bytes)):
        content = field(3, value)
    elif all(isinstance(it, int) for it in value) and value:
        content = field(5, field(1, b"".join(map(wire.varint, value))))
    else:
        content = field(4, b"".join(field(1, it) for it in value))
    return field(1, key) + content


def entries(field_number: int, info: Mapping[str, Any]) -> bytes:
    """The fields of an information."""
    return b"".join(field(field_number, entry(key, value)) for key, value in info.items())


def client(name: str, *parts: bytes) -> bytes:
    """A message of a client, made of parts that needn't fit."""
    return field(CLIENT_NUMBER[name], b"".join(parts))


def server(name: str, content: str | bytes) -> bytes:
    """A message of a server."""
    return field(SERVER_NUMBER[name], content)


def hello(name: str) -> bytes:
    """A client's hello."""
    return client("hello", text(1, name))


def accept(submit: int, info: Mapping[str, Any], expect_iobufs: bool = True) -> bytes:
    """An accept of a command that was submitted at a time in nanoseconds."""
    return client("accept", field(1, timespec(submit)), entries(2, info), scalar(3, expect_iobufs))


def refusal(name: str, at: int, reason: str, info: Mapping[str, Any]) -> bytes:
    """A reject or an alert."""
    return client(name, field(1, timespec(at)), text(2, reason), entries(3, info))


def restart(log_id: str, point: int) -> bytes:
    """A restart of a log at a point in nanoseconds."""
    return client("restart", field(1, log_id), field(2, timespec(point)))


def record(it: Record) -> bytes:
    """The message of a record."""
    delay, event, *rest = it
    if event in STREAMS:
        content = text(2, rest[0])
    elif event == "winsize":
        content = scalar(2, rest[0]) + scalar(3, rest[1])
    else:
        content = field(2, rest[0])
    return client(event, field(1, timespec(delay)), content)


def exited(run: int, value: int = 0, dumped: bool = False, signal: str = "", error: str = "") -> bytes:
    """An exit after a run of some nanoseconds."""
    return client("exit", field(1, timespec(run)), scalar(2, value), scalar(3, dumped), text(4, signal), text(5, error))


def server_hello(server_id: str) -> bytes:
    """The hello of a server that takes subcommands."""
    return server("hello", text(1, server_id) + scalar(4, True))


def log_id(digits: str) -> bytes:
    """The identifier of a log that was begun."""
    return server("log_id", digits)


def commit_point(nanoseconds: int) -> bytes:
    """A commit point."""
    return server("commit_point", timespec(nanoseconds))


def error(why: str) -> bytes:
    """An error."""
    return server("error", why)


# ---- read


def nanoseconds(message: bytes) -> int:
    """The time of a TimeSpec."""
    found = wire.fields(message)
    return signed(number_in(found, 1)) * SECOND + signed(number_in(found, 2), 32)


def text_in(found: Fields, field_number: int) -> str:
    """The text of a field, as JSON shows it."""
    return shown(bytes_in(found, field_number))


def content_of(value: Value) -> bytes:
    """The bytes of a field that must have some."""
    if isinstance(value, int):
        raise wire.Malformed("a field has no bytes")
    return value


def read_info(messages: Iterable[Value]) -> Info:
    """A dict of InfoMessages; one without a value yields nothing."""
    info: Info = {}
    for message in messages:
        found = wire.fields(content_of(message))
        key = text_in(found, 1)
        for number, value in found:
            if number == 2 and isinstance(value, int):
                info[key] = signed(value)
            elif number in (3, 4, 5):
                info[key] = READ_VALUE[number](content_of(value))
    return info


def read_texts(message: bytes) -> list[str]:
    """The texts of a StringList."""
    return [shown(content_of(it)) for _, it in wire.fields(message)]


def read_numbers(message: bytes) -> list[int]:
    """The numbers of a NumberList, packed or not."""
    out = []
    for _, value in wire.fields(message):
        at = 0
        if isinstance(value, int):
            out.append(signed(value))
        while not isinstance(value, int) and at < len(value):
            number, at = wire.read_varint(value, at)
            out.append(signed(number))
    return out


READ_VALUE = {3: shown, 4: read_texts, 5: read_numbers}


def read_event(name: str, found: Fields) -> Info:
    """An accept, a reject or an alert: the time, the information, and the flag or the reason."""
    time = nanoseconds(bytes_in(found, 1))
    if name == "accept":
        info = read_info(value for number, value in found if number == 2)
        return {"time": time, "info": info, "expect_iobufs": bool(number_in(found, 3))}
    info = read_info(value for number, value in found if number == 3)
    return {"time": time, "info": info, "reason": text_in(found, 2)}


def read_exit(found: Fields) -> Info:
    """An exit."""
    return {
        "run_time": nanoseconds(bytes_in(found, 1)), "exit_value": signed(number_in(found, 2), 32),
        "dumped_core": bool(number_in(found, 3)), "signal": text_in(found, 4), "error": text_in(found, 5),
    }


def read_record(name: str, found: Fields) -> Record:
    """A record."""
    delay = nanoseconds(bytes_in(found, 1))
    if name in STREAMS:
        return delay, name, bytes_in(found, 2)
    if name == "winsize":
        return delay, name, signed(number_in(found, 2), 32), signed(number_in(found, 3), 32)
    return delay, name, text_in(found, 2)


def read_client(message: bytes) -> tuple[str, Any]:
    """A ClientMessage: its name, and what it has."""
    ((number, body),) = wire.fields(message)
    name, found = CLIENT[number], wire.fields(content_of(body))
    if name in ("accept", "reject", "alert"):
        return name, read_event(name, found)
    if name == "restart":
        return name, (text_in(found, 1), nanoseconds(bytes_in(found, 2)))
    if name == "exit":
        return name, read_exit(found)
    if name == "hello":
        return name, text_in(found, 1)
    return name, read_record(name, found)


def read_server(message: bytes) -> tuple[str, Any]:
    """A ServerMessage: its name, and what it has."""
    ((number, value),) = wire.fields(message)
    name, body = SERVER[number], content_of(value)
    if name == "hello":
        found = wire.fields(body)
        return name, {"server_id": text_in(found, 1), "subcommands": bool(number_in(found, 4))}
    return name, nanoseconds(body) if name == "commit_point" else shown(body)
