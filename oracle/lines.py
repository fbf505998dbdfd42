"""Heads, exits and event lines as JSON: each object in one line, compact, its keys in order."""
from __future__ import annotations

import json
from collections.abc import Mapping
from typing import Any

from oracle.records import SECOND, Damaged

Members = dict[str, Any]


def line_of(value: Any) -> bytes:
    """A value as the server writes it."""
    return (json.dumps(value, sort_keys=True, separators=(",", ":"), ensure_ascii=False) + "\n").encode()


def value_of(text: bytes, place: str) -> Any:
    """The value of a text, which must be written as the server writes it."""
    try:
        value = json.loads(text.decode())
    except ValueError as fault:
        raise Damaged(f"{place}: {fault}") from fault
    if line_of(value) != text:
        raise Damaged(f"{place} isn't compact JSON with its keys in order and a line feed")
    return value


def shown(text: bytes) -> str:
    """A text as JSON shows it: bytes that are no UTF-8 as the replacement character."""
    return text.decode("utf-8", "replace")


def stamp(nanoseconds: int) -> Members:
    """A time."""
    return {"nanoseconds": nanoseconds % SECOND, "seconds": nanoseconds // SECOND}


def head(submit: int, info: Mapping[str, Any]) -> bytes:
    """log.json of a command that was submitted at a time in nanoseconds."""
    return line_of({"info": info, "submit_time": stamp(submit)})


def exit_members(run: int, value: int, dumped: bool = False, signal: str = "", error: str = "") -> Members:
    """The members of exit.json, and of an exit's event line, after a run of some nanoseconds."""
    members: Members = {"dumped_core": dumped, "exit_value": value, "run_time": stamp(run)}
    members.update({key: text for key, text in (("error", error), ("signal", signal)) if text})
    return members


def exit_line(run: int, value: int, dumped: bool = False, signal: str = "", error: str = "") -> bytes:
    """exit.json."""
    return line_of(exit_members(run, value, dumped, signal, error))


def event_members(name: str, what: Members, digits: str | None) -> Members:
    """An event line, without the connection and the moment, which the server alone knows.

    An accept and an exit name the log.
    """
    if name == "exit":
        members = exit_of(what)
    elif name == "accept":
        members = {"info": what["info"], "submit_time": stamp(what["time"])}
    else:
        key = "alert_time" if name == "alert" else "submit_time"
        members = {"info": what["info"], "reason": what["reason"], key: stamp(what["time"])}
    return {name: {**members, **({"iolog": digits} if digits and name in ("accept", "exit") else {})}}


def exit_of(message: Members) -> Members:
    """The members of the exit that a message says."""
    return exit_members(
        message["run_time"], message["exit_value"], message["dumped_core"], message["signal"], message["error"]
    )
