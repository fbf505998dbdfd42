#!/usr/bin/env python3
"""Reads event lines as other programs do: the members that FORMATS promises, and the recipes of OPERATIONS.

usage: events.py PROGRAM [COUNT]

PROGRAM is sudo_logsrvd. The recipes of jq and rsyslog are run as they stand in docs/OPERATIONS.md, over four lanes.
They are skipped if jq or rsyslog isn't installed. With COUNT, jq searches that number of lines, and the time is
printed. It ends with 1 if something differs.
"""
from __future__ import annotations

import json
import os
import re
import shutil
import socket
import socketserver
import subprocess
import sys
import tempfile
import threading
import time
from typing import Any

import at_root
import client
import parts
import servers
from guards import Guarded
from oracle import lines, store
from oracle.connection import PATIENCE
from oracle.records import SECOND
from parts import INFO, Skipped
from recipes import block
from trial import same

LANES = 4
SEARCHING, ELSEWHERE = "Searching in events", "Events in another system"


class Jsons(Guarded):
    """A server of four lanes, whose lines are JSON."""

    def __init__(self, program: str) -> None:
        """The settings of this folder's servers ask for JSON and for exits."""
        super().__init__(os.path.realpath(program), further=["--lanes", str(LANES)])

    def names(self) -> list[str]:
        """The event logs of the lanes."""
        return [self.events + (f".{lane}" if lane else "") for lane in range(LANES)]

    def written(self) -> list[bytes]:
        """The lines of all lanes."""
        return [line for name in self.names() for line in store.lines(name) or []]

    def events_of(self, user: str, value: int = 0) -> None:
        """An accept with its exit, a reject and an alert."""
        info = {**INFO, "submituser": user}
        link = self.server.connect()
        link.send(client.hello(), client.accept(SECOND, info), client.record((5, "ttyout", b"shadow\n")),
            client.exited(7, value, signal="KILL" if value else "", dumped=False))
        while link.read()[0] != "commit_point":
            pass
        link.close()
        for name in ("reject", "alert"):
            link = self.server.connect()
            link.send(client.hello(), client.refusal(name, SECOND, f"{name}\tof {user}", info))
            link.link.shutdown(socket.SHUT_WR)
            link.rest()
            link.close()


def until_written(on: Jsons, count: int) -> list[bytes]:
    """The lines, once there are so many."""
    parts.until("event lines", lambda: len(on.written()) >= count)
    return on.written()


def filled(on: Jsons) -> list[bytes]:
    """Lines of two users in all lanes."""
    on.start()
    for at in range(8):
        on.events_of("ann" if at % 3 == 0 else "bob", at % 2)
    return until_written(on, 8 * 4)


def promised() -> dict[str, set[str]]:
    """The members of each event, as FORMATS has them."""
    with open(os.path.join(parts.ROOT, "docs", "FORMATS.md"), encoding="utf-8") as file:
        text = file.read()
    found = {}
    for member, rest in re.findall(r"^\| \w+ \| `(\w+)` \| (.*) \|$", text, flags=re.M):
        found[member] = set(re.findall(r"`(\w+)`", rest))
    exits = re.search(r"^exit.json has (.*?) Other members", text, flags=re.M)[1]
    found["exit"] |= set(re.findall(r"`(\w+)`", exits))
    return found


def part_members(program: str) -> None:
    """The members of each event are those that FORMATS promises, with their types."""
    with Jsons(program) as on:
        seen: dict[str, set[str]] = {}
        for line in filled(on):
            ((name, members),) = json.loads(line).items()
            same("one line", lines.line_of({name: members}), line + b"\n")
            seen.setdefault(name, set()).update(members)
            for key, value in members.items():
                same(f"type of {key}", type(value), {"dumped_core": bool, "exit_value": int, "info": dict,
                    **dict.fromkeys(("submit_time", "server_time", "alert_time", "run_time"), dict)}.get(key, str))
        wanted = promised()
        # a command that could be run has no error
        same("members", {**seen, "exit": seen["exit"] | {"error"}}, wanted)


def shell(text: str, places: dict[str, str]) -> list[str]:
    """What lines of the page print."""
    for name, place in places.items():
        text = re.sub(rf"\b{name}\b", place, text)
    done = subprocess.run(["bash", "-c", text], capture_output=True, text=True, check=False, timeout=PATIENCE,
        env={**os.environ, "PATH": f"{os.path.join(parts.ROOT, 'contrib')}:{os.environ['PATH']}"})
    same(f"errors of {text!r}", done.stderr, "")
    return done.stdout.splitlines()


def part_jq(program: str) -> None:
    """The searches of the page, over four lanes, of which a line is being written."""
    if not shutil.which("jq"):
        raise Skipped("jq isn't installed")
    with Jsons(program) as on:
        found = [json.loads(line) for line in filled(on)]
        with open(on.events, "ab") as file:
            file.write(b'{"accept":{"info":{"submituser":"ann')
        places = {"LINES": on.events, "DIR": on.store}
        accepts = [it["accept"] for it in found if "accept" in it]
        of_ann = [it["iolog"] for it in accepts if it["info"]["submituser"] == "ann"]
        ids, refused, failed, words = re.findall("^grep .*$", page_of(SEARCHING), flags=re.M)
        same("sessions of ann", sorted(shell(ids, places)), sorted(of_ann))
        same("three of eight", len(of_ann), 3)
        wanted = [f"{user}\t/usr/bin/vi\treject\\tof {user}" for user in ["ann"] * 3 + ["bob"] * 5]
        same("refused", sorted(shell(refused, places)), wanted)
        exits = [it["exit"]["iolog"] + "\t1\tKILL" for it in found if it.get("exit", {}).get("exit_value")]
        same("failed", (sorted(shell(failed, places)), len(exits)), (sorted(exits), 4))
        same("what they showed", sorted(line.split()[0] for line in shell(words, places)), sorted(of_ann))


def page_of(heading: str) -> str:
    """The code of a section of OPERATIONS, all of it."""
    with open(os.path.join(parts.ROOT, "docs", "OPERATIONS.md"), encoding="utf-8") as file:
        section = file.read().split(f"\n### {heading}\n")[1].split("\n#")[0]
    return "\n".join(line[4:] for line in section.splitlines() if line.startswith("    "))


class Sink(socketserver.ThreadingTCPServer):
    """What rsyslog sends its lines to."""

    def __init__(self) -> None:
        """Nothing came."""
        super().__init__(("127.0.0.1", 0), Reader)
        self.got: list[bytes] = []
        threading.Thread(target=self.serve_forever, daemon=True).start()


class Reader(socketserver.StreamRequestHandler):
    """Keeps the JSON of each line: what follows the header."""

    def handle(self) -> None:
        """Reads to the end."""
        for line in self.rfile:
            self.server.got.append(line.rstrip(b"\n")[line.index(b"{"):])  # type: ignore[attr-defined]


class Syslog:
    """rsyslog with the page's lines, in a folder of its own."""

    def __init__(self, on: Jsons, port: int) -> None:
        """Its event logs are those of a server."""
        self.folder = tempfile.mkdtemp(prefix="interop")
        text = block(ELSEWHERE, 'module(load="imfile")')
        for name, value in (("LINES", on.events), ("SIEM", "127.0.0.1"), ('"514"', f'"{port}"')):
            text = text.replace(name, value)
        self.conf = os.path.join(self.folder, "conf")
        with open(self.conf, "w", encoding="utf-8") as file:
            file.write(f'global(workDirectory="{self.folder}" maxMessageSize="2m")\n{text}\n')
        self.start()

    def start(self) -> None:
        """Starts it."""
        words = [servers.tool("rsyslogd") or "", "-n", "-f", self.conf, "-i", os.path.join(self.folder, "pid")]
        self.process = subprocess.Popen(words, stdout=subprocess.DEVNULL, stderr=subprocess.DEVNULL)

    def stop(self) -> None:
        """Ends it, and waits until it has kept its places."""
        self.process.terminate()
        self.process.wait(PATIENCE)


def part_rsyslog(program: str) -> None:
    """Each line of each lane comes once, also over restarts of both, and after a crash none is missing."""
    if servers.tool("rsyslogd") is None:
        raise Skipped("rsyslog isn't installed")
    with Jsons(program) as on, Sink() as sink:
        before = filled(on)
        syslog = Syslog(on, sink.server_address[1])
        try:
            parts.until("the lines that were there", lambda: len(sink.got) >= len(before))
            on.events_of("eve")
            more = until_written(on, len(before) + 4)
            parts.until("new lines", lambda: len(sink.got) >= len(more))
            syslog.stop()
            on.events_of("x" * 100_000)
            more = until_written(on, len(more) + 4)
            syslog.start()
            parts.until("lines of meanwhile", lambda: len(sink.got) >= len(more))
            time.sleep(0.3)
            same("each line once", sorted(sink.got), sorted(more))
            crash(on, len(more))
            more = on.written()
            parts.until("lines after a crash", lambda: set(more) <= set(sink.got))
        finally:
            syslog.stop()
            shutil.rmtree(syslog.folder)
            sink.shutdown()


def crash(on: Jsons, count: int) -> None:
    """The server is ended; a part of a turn stays in its log, which the next start moves away; then lines follow."""
    on.stop()
    with open(on.events, "ab") as file:
        file.write(b'{"exit":"of no turn"}\n' * 40)
    time.sleep(1)
    on.server.start()
    on.events_of("zoe")
    until_written(on, count + 4)


def part_many(program: str, count: str | None = None) -> None:
    """Many lines are searched by jq."""
    if count is None:
        raise parts.Unasked
    folder = tempfile.mkdtemp(prefix="interop")
    info: dict[str, Any] = {**INFO, "runenv": [f"NAME{at}=value of a variable" for at in range(20)]}
    with open(os.path.join(folder, "events"), "wb") as file:
        for number in range(int(count)):
            user = "ann" if number % 1000 == 0 else "bob"
            accept = {"info": {**info, "submituser": user}, "iolog": store.digits_of(number), "peer": "0.1"}
            file.write(lines.line_of({"accept": accept}))
    start = time.monotonic()
    found = shell(block(SEARCHING, "grep -ahs").splitlines()[0], {"LINES": os.path.join(folder, "events")})
    size = os.path.getsize(os.path.join(folder, "events")) >> 20
    print(f"events.py: {count} lines, {size} MiB: {len(found)} found in {time.monotonic() - start:.1f} s", flush=True)
    shutil.rmtree(folder)


if __name__ == "__main__":
    sys.exit(parts.run_parts(globals(), __doc__ or "", 1))
