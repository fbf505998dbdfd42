#!/usr/bin/env python3
"""Compares docs/COMING_FROM_SUDO.md with sudo's own manual pages and programs.

usage: coming.py PROGRAM

PROGRAM is sudo_logsrvd. Each key of sudo_logsrvd.conf(5) and each option of sudo's three programs must have a row, and
the server must take or refuse each key as the row says. Old sessions come in, and go back, by the page's lines and by
sudo's own server, player and sender. Without Debian's package sudo it is skipped. It ends with 1 if something differs.
"""
from __future__ import annotations

import gzip
import os
import re
import shutil
import subprocess
import sys
import tempfile
from collections.abc import Iterator

import at_root
import client
import parts
import peer
import servers
from guards import ACCEPT, Guarded
from oracle import store
from oracle.records import SECOND, Record
from parts import Skipped, run, status_is
from trial import same

PAGE = os.path.join(parts.ROOT, "docs", "COMING_FROM_SUDO.md")
MAN = "/usr/share/man"
RECORDS: list[list[Record]] = [
    [(SECOND, "ttyout", b"first"), (5, "winsize", 30, 90), (SECOND // 2, "ttyin", b"typed")],
    [(7, "stdout", b"second\n")],
    [(1, "ttyout", b"third"), (2, "ttyout", b" and cut")],
]


def page() -> str:
    """The page."""
    with open(PAGE, encoding="utf-8") as file:
        return file.read()


def section(heading: str) -> str:
    """A section of the page."""
    return re.split(rf"^##+ {re.escape(heading)}$", page(), flags=re.M)[1].split("\n## ")[0].split("\n### ")[0]


def lines_of(heading: str) -> str:
    """The lines to type of a section."""
    return "\n".join(line[4:] for line in section(heading).splitlines() if line.startswith("    "))


def manual(name: str) -> str:
    """A manual page of sudo's."""
    path = os.path.join(MAN, f"man{name[-1]}", name + ".gz")
    if not os.path.exists(path):
        raise Skipped(f"{path} isn't there")
    with gzip.open(path, "rt", encoding="utf-8") as file:
        return file.read()


def rows() -> Iterator[tuple[str, str, str]]:
    """The section, the key, and what it becomes, of each row of keys."""
    for place, keys, what in re.findall(r"^\| (\w+) \| (`.*?`) \| (.*) \|$", page(), flags=re.M):
        for key in re.findall(r"`(\w+)`", keys):
            yield place, key, what


def part_keys() -> None:
    """Each key of the manual page has a row, in its section."""
    text = manual("sudo_logsrvd.conf.5")
    wanted = []
    for piece in re.split(r"^\.Ss ", text, flags=re.M)[1:]:
        place = piece.split("\n", 1)[0]
        wanted += [(place, key) for key in re.findall(r"^\.It (\w+) = ", piece, flags=re.M)]
    same("keys", sorted((place, key) for place, key, _ in rows()), sorted(wanted))


def part_options() -> None:
    """Each option of a manual page has a row."""
    for name in ("sudo_logsrvd", "sudoreplay", "sudo_sendlog"):
        text = manual(name + ".8")
        wanted = set(re.findall(r"^\.It Fl (\w)\b", text, flags=re.M))
        table = section(f"`{name}`")
        shown = set(re.findall(r"(?<=`-)\w(?=`)", "".join(re.findall(r"^\|.*?\|", table, flags=re.M))))
        same(f"options of {name}", sorted(shown), sorted(wanted))


def part_settings(program: str) -> None:
    """A key that has no meaning here is passed over with a warning, and the others aren't."""
    folder = tempfile.mkdtemp(prefix="interop")
    conf = os.path.join(folder, "conf")
    for place, key, what in rows():
        if key in ("listen_address", "iolog_dir", "path"):
            continue
        value = {"log_format": "sudo", "iolog_file": "%{seq}", "relay_host": "localhost"}.get(key, "true")
        text = f"[{place}]\n{key} = {value}\n[iolog]\niolog_dir = {folder}/s\n[logfile]\npath = {folder}/e\n"
        with open(conf, "w", encoding="utf-8") as file:
            file.write(text)
        ended = run(os.path.realpath(program), "once", "-f", conf)
        is_warned = f"{conf}:2: warning: ".encode() in ended.stderr
        same(f"[{place}] {key}", (ended.returncode, is_warned), (0, what.startswith("passed over")))
    shutil.rmtree(folder)


def part_old_sessions(program: str) -> None:
    """Sessions of sudo's own server come in, and go back to it with the numbers that follow."""
    need = [name for name in ("sudo_logsrvd", "sudo_sendlog", "sudoreplay") if servers.tool(name) is None]
    if need:
        raise Skipped(f"sudo's own {', '.join(need)} isn't there")
    place = servers.Place(servers.SUDO)
    theirs = servers.Sudo(servers.tool("sudo_logsrvd") or "", place).start()
    try:
        for records, is_whole in zip(RECORDS, (True, True, False)):
            stored(theirs, records, is_whole)
        theirs.kill()
        with Guarded(os.path.realpath(program)) as on:
            on.start()
            came_in(on, place.store)
            went_back(on, place)
    finally:
        if theirs.process and theirs.process.poll() is None:
            theirs.kill()
        shutil.rmtree(place.folder)


def stored(server: servers.Serve, records: list[Record], is_whole: bool) -> None:
    """A session is sent to sudo's own server. If it is whole, its last commit point is waited for, else its records."""
    link = server.connect()
    link.send(client.hello(), ACCEPT, *(client.record(it) for it in records))
    if is_whole:
        link.send(client.exited(3 * SECOND, 4))
    name, what = "", None
    while name != ("commit_point" if is_whole else "log_id"):
        name, what = link.read()
    if not is_whole:
        parts.until("records", lambda: (peer.read_session(what) or [None, None])[1] == records)
    link.close()


def logs_of(on: Guarded) -> list[store.Log]:
    """The logs of our server."""
    found = [store.read_log(on.store, digits) for digits in store.folders(on.store)]
    return [log for log in found if log]


def came_in(on: Guarded, old: str) -> None:
    """The page's lines send each session of the old folder."""
    text = lines_of("How old sessions come in")
    for name, value in (("OLD", old), ("30343", str(on.server.port))):
        same(f"{name} on the page", name in text, True)
        text = text.replace(name, value)
    done = status_is("lines", 0, run("bash", "-c", text))
    same("what they say", (done.stdout, done.stderr), (b"", b""))
    # sudo's own sender doesn't wait until the exit is taken
    parts.until("whole sessions", lambda: [log.is_complete() for log in logs_of(on)] == [True] * len(RECORDS))
    logs = logs_of(on)
    same("records", [log.records for log in logs if log], RECORDS)
    same("exits", [(log.exit or {}).get("exit_value") for log in logs if log], [4, 4, 0])
    same("command", {log.info["command"] for log in logs if log}, {"/usr/bin/id"})


def went_back(on: Guarded, place: servers.Place) -> None:
    """The page's lines write sudo's layout, and sudo's own server goes on with the next number."""
    on.stop()
    out = os.path.join(place.folder, "out")
    text = lines_of("How to go back").replace("sudo-layout", os.path.join(parts.ROOT, "contrib", "sudo-layout"))
    text = re.sub(r"\bDIR\b", on.store, re.sub(r"\bOUT\b", out, text))
    status_is("lines", 0, run("bash", "-c", text))
    place.store = out
    with open(place.conf, "w", encoding="utf-8") as file:
        file.write(servers.SUDO.format(port=place.port, folder=place.folder).replace(f"{place.folder}/store", out))
    theirs = servers.Sudo(servers.tool("sudo_logsrvd") or "", place).start()
    try:
        stored(theirs, RECORDS[1], True)
    finally:
        theirs.kill()
    sessions = [peer.read_session(os.path.join(out, "00", "00", f"0{number}")) for number in range(1, 5)]
    same("sessions", [it and it[1] for it in sessions], [*RECORDS, RECORDS[1]])
    listed = subprocess.run([servers.tool("sudoreplay") or "", "-d", out, "-l"], capture_output=True, check=False)
    same("listed", re.findall(rb"TSID=(\w+)", listed.stdout), [b"000001", b"000002", b"000003", b"000004"])


if __name__ == "__main__":
    sys.exit(parts.run_parts(globals(), __doc__ or "", 1))
