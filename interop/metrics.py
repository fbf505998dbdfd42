#!/usr/bin/env python3
"""Tries contrib/sudo-metrics: the figures of a store whose states are known, by each way of checking.

usage: metrics.py [LOGCHECK]

With LOGCHECK, which is sudo_logcheck, its figures must be those of the script's own check. The file is read by
Prometheus' node exporter if that is installed. It ends with 1 if something differs.
"""
from __future__ import annotations

import json
import os
import re
import shutil
import subprocess
import sys
import tempfile
import time
import urllib.request

import at_root
import parts
import servers
from oracle import store
from oracle.connection import PATIENCE
from oracle.records import Record
from parts import SUBMIT, Skipped, run, status_is, write
from trial import same

SCRIPTS = parts.scripts("sudo-metrics")
RECORDS: list[Record] = [(5, "ttyout", b"some text"), (7, "ttyin", b"typed")]
SAMPLE = re.compile(r'sudo_logsrvd_([a-z_]+(?:\{[a-z]+="[a-z0-9_]+"\})?) ([0-9]+)')


def made() -> str:
    """A store: four complete logs of which two are relayed, two that go on, and four of them damaged or lost."""
    folder = tempfile.mkdtemp(prefix="interop")
    for number in range(1, 11):
        write(folder, number, RECORDS, value=None if number in (5, 6) else 0)
    for number in (1, 2):
        # what it needs: the upstream's identifier, and the log's elapsed time plus 1
        body = store.log_body(3, 0, 0, [6], 13)
        for name, text in (("relay", b"00000A"), ("relay.slots", store.slots_text(body))):
            with open(os.path.join(place(folder, number), name), "wb") as file:
                file.write(text)
    # garbled, short, absent, and without a journal
    with open(os.path.join(place(folder, 7), "timing"), "r+b") as file:
        file.write(b"?")
    os.truncate(os.path.join(place(folder, 8), "ttyout"), 3)
    os.remove(os.path.join(place(folder, 9), "stdin"))
    os.remove(os.path.join(place(folder, 10), "slots"))
    # the making of a log that was cut off, and a log that was removed
    os.makedirs(place(folder, 11))
    store.write_numbers(folder, 12)
    return folder


def place(folder: str, number: int) -> str:
    """The folder of a log."""
    return store.folder_of(folder, store.digits_of(number))


def figures(text: str) -> dict[str, int]:
    """The samples of a text, of which each follows its help and type."""
    found: dict[str, int] = {}
    known: set[str] = set()
    for line in text.splitlines():
        if line.startswith("# TYPE "):
            known.add(line.split()[2])
        elif not line.startswith("# HELP "):
            name, value = SAMPLE.fullmatch(line).groups()
            same(f"type of {name}", "sudo_logsrvd_" + name.split("{")[0] in known, True)
            found[name] = int(value)
    return found


def states(found: dict[str, int]) -> tuple[int, ...]:
    """Logs that are complete, incomplete, damaged, unread."""
    return tuple(found[f'logs{{state="{name}"}}'] for name in ("complete", "incomplete", "damaged", "unread"))


def part_figures() -> None:
    """Each figure, by records and by lengths."""
    folder = made()
    for script in SCRIPTS:
        found = figures(status_is("records", 4, run(script, "-d", folder)).stdout.decode())
        same("states", states(found), (4, 2, 4, 0))
        same("by", found['checked{by="records"}'], 1)
    size = sum(os.path.getsize(os.path.join(place(folder, 1), name)) - len(b"\xffbeyond\n") for name in store.PARTS)
    ongoing = size - os.path.getsize(os.path.join(place(folder, 1), "exit.json")) + len(b"\xffbeyond\n")
    same("bytes", found["log_bytes"], 4 * size + 2 * ongoing)
    same("numbers", (found["last_number"], found["newest_session_time_seconds"]), (12, SUBMIT // 10**9 + 7))
    same("others", (found["success"], abs(found["time_seconds"] - time.time()) < 60, found["free_bytes"] > 0,
        found["free_files"] >= 0), (1, True, True, True))
    same("no relay has run", "relay_pending" in found, False)
    open(os.path.join(folder, "relay.lock"), "wb").close()
    found = figures(status_is("lengths", 4, run(SCRIPTS[1], "-q", "-d", folder)).stdout.decode())
    # the garbled one is as long as it should be
    same("states by lengths", states(found), (5, 2, 3, 0))
    same("pending", found["relay_pending"], 3)
    shutil.rmtree(folder)


def part_event_lines() -> None:
    """The lines of each lane's event log."""
    folder = tempfile.mkdtemp(prefix="interop")
    write(folder, 1, RECORDS)
    path = os.path.join(folder, "events")
    for lane, count in ((0, 3), (1, 0), (3, 12)):
        with open(path + (f".{lane}" if lane else "") + ".slots", "wb") as file:
            file.write(store.slots_text(store.log_body(1, count, 0, [0])))
    found = figures(status_is("events", 0, run(SCRIPTS[1], "-d", folder, "-e", path)).stdout.decode())
    same("lines", {name: value for name, value in found.items() if name.startswith("event")},
        {'event_lines{lane="0"}': 3, 'event_lines{lane="1"}': 0, 'event_lines{lane="3"}': 12})
    shutil.rmtree(folder)


def part_file() -> None:
    """A file takes the place of the older one, readable for all; without a store it says so."""
    folder = made()
    out = os.path.join(folder, "x.prom")
    status_is("file", 4, run(SCRIPTS[1], "-d", folder, "-o", out))
    same("mode", os.stat(out).st_mode & 0o777, 0o644)
    with open(out, encoding="ascii") as file:
        same("states", states(figures(file.read())), (4, 2, 4, 0))
    status_is("no store", 5, run(SCRIPTS[1], "-d", folder + "/none", "-o", out))
    with open(out, encoding="ascii") as file:
        found = figures(file.read())
    same("without a store", (sorted(found), found["success"]), (["success", "time_seconds"], 0))
    same("files", [name for name in os.listdir(folder) if "prom" in name], ["x.prom"])
    for words, status in ((["-o", folder + "/none/x.prom"], 6), (["-o", folder + "/x"], 2), (["x"], 2), (["-x"], 2)):
        status_is(words, status, run(SCRIPTS[1], "-d", folder, *words))
    shutil.rmtree(folder)


def beside(program: str) -> str:
    """The script with sudo_logcheck beside it."""
    home = tempfile.mkdtemp(dir=os.path.dirname(SCRIPTS[1]))
    script = os.path.join(home, "front-sudo-metrics")
    shutil.copy(SCRIPTS[1], script)
    shutil.copy(program, os.path.join(home, "front-sudo_logcheck"))
    return script


def part_stub() -> None:
    """The figures of a check beside the script, and one that ends early."""
    folder = made()
    stub = os.path.join(folder, "stub")
    lines = [{"state": state, "bytes": 10, "relayed": at == 0, "id": str(at)} for at, state in
        enumerate(("complete", "complete", "incomplete", "damaged", "absent", "unread"))]
    for whole in (True, False):
        with open(stub, "w", encoding="utf-8") as file:
            file.write("#!/bin/sh\n" + "".join(f"echo '{json.dumps(line)}'\n" for line in lines))
            file.write("""echo '{"sums":{}}'\nexit 4\n""" if whole else "exit 9\n")
        os.chmod(stub, 0o755)
        found = figures(status_is("stub", 4 if whole else 5, run(beside(stub), "-d", folder)).stdout.decode())
        same("success", found["success"], int(whole))
        if whole:
            same("states of the stub", (states(found), found["log_bytes"]), ((2, 1, 1, 1), 50))
            same("by", found['checked{by="sudo_logcheck"}'], 1)
    shutil.rmtree(folder)


def part_logcheck(program: str | None = None) -> None:
    """sudo_logcheck finds the same."""
    if program is None:
        raise Skipped("no LOGCHECK is named")
    folder = made()
    open(os.path.join(folder, "relay.lock"), "wb").close()
    found = [figures(run(script, "-d", folder).stdout.decode()) for script in (SCRIPTS[1], beside(program))]
    same("pending", [it["relay_pending"] for it in found], [2, 2])
    same("by", found[1]['checked{by="sudo_logcheck"}'], 1)
    same("states", states(found[1]), states(found[0]))
    for name in ("last_number", "newest_session_time_seconds"):
        same(name, found[1][name], found[0][name])
    shutil.rmtree(folder)


def part_node_exporter() -> None:
    """Prometheus' node exporter shows the figures."""
    exporter = shutil.which("prometheus-node-exporter")
    if not exporter:
        raise Skipped("prometheus-node-exporter isn't installed")
    folder = made()
    status_is("file", 4, run(SCRIPTS[1], "-d", folder, "-o", os.path.join(folder, "x.prom")))
    port = servers.free_port()
    words = [exporter, "--collector.disable-defaults", "--collector.textfile",
        f"--collector.textfile.directory={folder}", f"--web.listen-address=127.0.0.1:{port}"]
    with subprocess.Popen(words, stdout=subprocess.DEVNULL, stderr=subprocess.DEVNULL) as process:
        try:
            parts.until("the exporter", lambda: answers(port))
            shown = answers(port)
        finally:
            process.kill()
    same("errors", re.search(r"^node_textfile_scrape_error (\d)", shown, re.M)[1], "0")
    same("damaged", re.search(r'sudo_logsrvd_logs\{state="damaged"\} (\d)', shown)[1], "4")
    shutil.rmtree(folder)


def answers(port: int) -> str:
    """What the exporter shows, nothing if it doesn't listen."""
    try:
        with urllib.request.urlopen(f"http://127.0.0.1:{port}/metrics", timeout=PATIENCE) as answer:
            return answer.read().decode()
    except OSError:
        return ""


def part_page_of_the_manual() -> None:
    """The manual page has what the script takes."""
    parts.page_fits("sudo-metrics")


if __name__ == "__main__":
    sys.exit(parts.run_parts(globals(), __doc__ or ""))
