#!/usr/bin/env python3
"""What sudo_logcheck says of a store, beside what store.py reads there.

usage: checked.py PROGRAM DIR [EVENTS]

PROGRAM is sudo_logcheck, DIR a store that no server uses, EVENTS the path of its event log. Each log is read by both:
its state, its records, their time, its bytes and its cuts must be the same; and of the event log of each lane its lines
and their bytes. It ends with 1 if something differs.
"""
from __future__ import annotations

import argparse
import json
import os
import subprocess
import sys
from collections.abc import Iterator, Mapping
from typing import Any

import store
from oracle.records import elapsed

# Of each state, the statuses with which the check ends at a log that is in it.
STATUSES = {"complete": 0, "incomplete": 0, "absent": 0, "damaged": 4, "unread": 5}


def lines_of(program: str, folder: str, *words: str) -> tuple[list[dict[str, Any]], dict[str, int], int]:
    """The lines of a check, its sums and its status."""
    done = subprocess.run([program, "-d", folder, "--json", *words], capture_output=True, check=False, timeout=600)
    lines = [json.loads(line) for line in done.stdout.splitlines()]
    if not lines or "sums" not in lines[-1]:
        return [], {}, done.returncode
    return lines[:-1], lines[-1]["sums"], done.returncode


def said_of(program: str, folder: str, *words: str) -> tuple[dict[str, dict[str, Any]], dict[str, int], int]:
    """What the check says of each log, its sums and its status."""
    lines, sums, status = lines_of(program, folder, *words)
    return {line["id"]: line for line in lines if "id" in line}, sums, status


def shown(log: store.Log | None) -> dict[str, Any]:
    """What the check is to say of a log that reads."""
    if log is None:
        return {"state": "absent"}
    return {"state": "complete" if log.is_complete() else "incomplete", "records": len(log.records),
        "elapsed": elapsed(log.records), "bytes": sum(log.body.lengths), "cuts": log.body.extra}


def unlike(said: Mapping[str, dict[str, Any]], logs: Mapping[str, store.Log | None]) -> Iterator[str]:
    """Each log of which something else is said than what was read."""
    for digits, log in logs.items():
        wanted, line = shown(log), said.get(digits)
        if line is None:
            yield f"sudo_logcheck says nothing of log {digits}"
        elif any(line.get(key) != value for key, value in wanted.items()):
            yield f"sudo_logcheck says of log {digits} {line} for {wanted}"


def shown_events(path: str) -> dict[str, Any]:
    """What the check is to say of an event log that reads."""
    lines = store.lines(path)
    if lines is None:
        return {"state": "absent"}
    return {"state": "sound", "lines": len(lines), "bytes": sum(len(line) + 1 for line in lines)}


def unlike_events(said: Mapping[int, dict[str, Any]], events: str) -> Iterator[str]:
    """Each event log of which something else is said than what was read, by the path of that of lane 0."""
    for lane, line in said.items():
        wanted = shown_events(f"{events}.{lane}" if lane else events)
        if any(line.get(key) != value for key, value in wanted.items()):
            yield f"sudo_logcheck says of event log {lane} {line} for {wanted}"


def faults_of(
    program: str, folder: str, logs: Mapping[str, store.Log | None], events: str | None = None
) -> Iterator[str]:
    """Runs the check on a store of which these logs were read, and none is damaged.

    It reads the event logs of this path too.
    """
    lines, sums, status = lines_of(program, folder, *(["-e", events] if events else []))
    logs_said = {line["id"]: line for line in lines if "id" in line}
    events_said = {line["events"]: line for line in lines if "events" in line}
    absent = [line for line in events_said.values() if line["state"] == "absent"]
    if status != (4 if absent else 0) or sums.get("damaged") != 0:
        named = [line for line in lines if "numbers" in line or line["state"] in ("damaged", "unread")]
        yield f"sudo_logcheck ends with {status}, and names {named}"
    yield from unlike(logs_said, logs)
    if events:
        numbers = store.numbers(folder)
        same_lanes = range(numbers[2] if numbers else 1)
        if list(events_said) != list(same_lanes):
            yield f"sudo_logcheck says something of the event logs {list(events_said)} for {list(same_lanes)}"
        yield from unlike_events(events_said, events)


def main() -> int:
    """Reads each log of a store by both."""
    parser = argparse.ArgumentParser(description=__doc__, formatter_class=argparse.RawDescriptionHelpFormatter)
    parser.add_argument("program")
    parser.add_argument("folder")
    parser.add_argument("events", nargs="?")
    asked = parser.parse_args()
    program, folder = os.path.realpath(asked.program), asked.folder
    logs = {digits: store.read_log(folder, digits) for digits in store.folders(folder)}
    faults = list(faults_of(program, folder, logs, asked.events))
    for fault in faults:
        print(f"checked.py: {fault}")
    print(f"checked.py: {len(logs)} logs, {len(faults)} differ")
    return 1 if faults else 0


if __name__ == "__main__":
    sys.exit(main())
