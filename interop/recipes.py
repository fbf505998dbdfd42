#!/usr/bin/env python3
"""Runs the recipes of docs/OPERATIONS.md as they stand there, over a store that the server made.

usage: recipes.py PROGRAM REPLAY [--only WORD]

PROGRAM is sudo_logsrvd, REPLAY sudoreplay. Of each recipe the text is the page's own: in it DIR, OLD and the like are
replaced by folders. With --only, only the parts whose name has WORD. It ends with 1 if something differs.
"""
from __future__ import annotations

import argparse
import os
import re
import shutil
import subprocess
import sys
import traceback

import store
from guards import MARK, Guarded, session
from oracle.connection import PATIENCE
from trial import Differs, same

PAGE = os.path.join(os.path.dirname(os.path.abspath(__file__)), "..", "docs", "OPERATIONS.md")


def block(heading: str, first: str) -> str:
    """The lines of the code below a heading that begin with these words, up to the end of that code."""
    with open(PAGE, encoding="utf-8") as file:
        below = re.split(rf"^##+ {re.escape(heading)}$", file.read(), flags=re.M)[1]
    section = re.split(r"^##+ ", below, flags=re.M)[0]
    indent = re.search(rf"^( {{4,}}){re.escape(first)}", section, flags=re.M)[1]
    lines = section[section.index(indent + first):].splitlines()
    end = next((at for at, line in enumerate(lines) if line and not line.startswith(indent)), len(lines))
    return "\n".join(line[len(indent):] for line in lines[:end]).rstrip()


def run(text: str, places: dict[str, str]) -> str:
    """What a recipe prints, with these folders in the place of its names."""
    for name, place in places.items():
        text = re.sub(rf"\b{name}\b", place, text)
    done = subprocess.run(["bash", "-c", text], capture_output=True, text=True, check=False, timeout=PATIENCE)
    same(f"errors of {text!r}", done.stderr, "")
    return done.stdout


def listed(replay: str, folder: str) -> list[str]:
    """The identifiers of the logs of a store, as a listing has them."""
    done = subprocess.run([replay, "-d", folder, "-l"], capture_output=True, text=True, check=True, timeout=PATIENCE)
    return re.findall(r"TSID=(\w+)", done.stdout)


def part_one_log_put_back(program: str, replay: str) -> None:
    """A log that was removed is put back, and one that is there stays as it is."""
    with Guarded(program) as on:
        on.start().sessions(6)
        on.stop()
        old = os.path.join(on.place.folder, "old")
        shutil.copytree(on.store, old)
        text, places = block("Copying and moving a store", "[ -e DIR/00/00/05 ]"), {"DIR": on.store, "OLD": old}
        folder = store.folder_of(on.store, "000005")
        shutil.rmtree(folder)
        same("the log is gone", listed(replay, on.store).count("000005"), 0)
        run(text, places)
        same("the log is back", listed(replay, on.store).count("000005"), 1)
        words = [replay, "-d", on.store, "-m", "0", "000005"]
        same("what it plays", subprocess.run(words, capture_output=True, check=True, timeout=PATIENCE).stdout, MARK)
        on.server.start()
        same("the next log", on.sessions(), ["000007"])
        on.stop()
        # a newer session has the number
        with open(os.path.join(folder, "ttyout"), "wb") as file:
            file.write(MARK[::-1])
        before = on.contents()
        run(text, places)
        same("the newer log", on.contents() == before, True)


def part_numbers_by_hand(program: str, _: str) -> None:
    """A number file that is lost is made by hand."""
    with Guarded(program) as on:
        on.start().sessions(3)
        on.stop()
        os.remove(on.numbers())
        on.refused("the store holds logs")
        run(block("Making seq2 by hand", "lanes="), {"DIR": on.store})
        on.server.start()
        same("the next log", on.sessions(), ["000004"])


def part_log_without_the_programs(program: str, _: str) -> None:
    """What the terminal showed is printed by the journal's length."""
    with Guarded(program) as on:
        on.start().sessions(1)
        on.stop()
        folder = store.folder_of(on.store, "000001")
        with open(os.path.join(folder, "ttyout"), "ab") as file:
            file.write(b"beyond")
        text = block("Reading a log without the programs", "at=")
        same("what is printed", run(f"cd {folder}\n{text}", {}), MARK.decode())


def lines_of_lanes(events: str, lanes: int) -> list[int]:
    """How many lines the event log of each lane has, by its journal."""
    return [len(store.lines(events + (f".{lane}" if lane else "")) or []) for lane in range(lanes)]


def until_all_lanes(on: Guarded, lanes: int) -> list[str]:
    """Stores sessions until each lane has some. Gives their identifiers, by rising number."""
    logs: list[str] = []
    while 0 in lines_of_lanes(on.events, lanes) and len(logs) < 200:
        logs += on.sessions()
    return sorted(logs)


def part_backup(program: str, replay: str) -> None:
    """A store of two lanes is copied while its server runs, put back later, and started."""
    if not shutil.which("rsync"):
        print("backup: skipped: rsync isn't there", flush=True)
        return
    with Guarded(program, further=["--lanes", "2"]) as on:
        before = until_all_lanes(on.start(), 2)
        lines = lines_of_lanes(on.events, 2)
        folder = on.place.folder
        places = {"DIR": on.store, "LINES": on.events, "BACKUP": folder + "/copy", "OLD": folder + "/old"}
        run(block("Copying and moving a store", "mkdir -p -m 700 BACKUP"), places)
        on.sessions(3)
        on.stop()
        same("logs of the copy", listed(replay, places["BACKUP"] + "/logs"), before)
        same("lines of the copy", lines_of_lanes(os.path.join(places["BACKUP"], os.path.basename(on.events)), 2), lines)
        kept = on.contents()
        run(block("Copying and moving a store", "mkdir -m 700 OLD"), places)
        same("what is left", on.contents(), {})
        run(block("Copying and moving a store", "mkdir -m 700 DIR"), places)
        same("logs that were put back", listed(replay, on.store), before)
        for path, text in on.contents().items():
            if os.path.basename(path) in ("timing", "ttyout", "log.json", "exit.json"):
                same(path, text, kept[path])
        on.server.start()
        same("lines that were put back", lines_of_lanes(on.events, 2), lines)
        later = on.sessions(5)
        newest = {int(log, 36) % 2: log for log in before}
        same("numbers that were drawn twice", [log for log in later if log <= newest[int(log, 36) % 2]], [])
        same("all logs", listed(replay, on.store), sorted(before + later))


def part_logrotate(program: str, _: str) -> None:
    """The sample for logrotate moves the event logs of four lanes, and keeps the journal of one that it leaves."""
    if not shutil.which("logrotate"):
        print("logrotate: skipped: it isn't there", flush=True)
        return
    with Guarded(program, further=["--lanes", "4"]) as on:
        until_all_lanes(on.start(), 4)
        on.stop()
        lines = lines_of_lanes(on.events, 4)
        folder, sample, empty = os.path.dirname(on.events), on.place.folder + "/logrotate", on.events + ".3"
        with open(os.path.join(os.path.dirname(PAGE), "..", "etc", "logrotate"), encoding="utf-8") as file:
            text = file.read().replace("/var/lib/sudo-logsrvd/events", on.events)
        with open(sample, "w", encoding="utf-8") as file:
            file.write(re.sub(r"systemctl .*", ":", text))
        os.chmod(sample, 0o644)
        for path in (empty, empty + ".slots"):
            os.remove(path)
        on.server.start()
        on.stop()
        words = ["logrotate", "-f", "-s", on.place.folder + "/state", sample]
        done = subprocess.run(words, capture_output=True, text=True, check=False, timeout=PATIENCE)
        same("status and errors of logrotate", (done.returncode, done.stderr), (0, ""))
        names = sorted(name for name in os.listdir(folder) if name.startswith(os.path.basename(on.events)))
        front = os.path.basename(on.events)
        same("the files", [re.sub(r"-[0-9]{8}$", "-DATE", name) for name in names],
            [f"{front}-DATE", f"{front}.1-DATE", f"{front}.2-DATE", f"{front}.3", f"{front}.3.slots"])
        moved = [len(store.contents(os.path.join(folder, name)).splitlines()) for name in names[:3]]
        same("lines that were moved", moved, lines[:3])
        on.server.start()
        count = len(on.sessions(4))
        same("lines of the new event logs", sum(lines_of_lanes(on.events, 4)), 2 * count)


def part_event_log_rotated(program: str, _: str) -> None:
    """The event log is moved and its journal removed, while no server runs."""
    with Guarded(program) as on:
        on.start().sessions(1)
        on.stop()
        lines = store.contents(on.events)
        lines_of = block("Rotating the event log", "cd /var").splitlines()
        text = "\n".join(line for line in lines_of if line.startswith("mv"))
        run(f"cd {os.path.dirname(on.events)}\n{text}", {})
        on.server.start()
        session(on.server.connect())
        same("the lines before", store.contents(on.events + "-20261128"), lines)
        same("lines", len(store.lines(on.events)), 2)


def main() -> int:
    """Tries all recipes."""
    words = argparse.ArgumentParser(description=__doc__, formatter_class=argparse.RawDescriptionHelpFormatter)
    words.add_argument("program", type=os.path.realpath)
    words.add_argument("replay", type=os.path.realpath)
    words.add_argument("--only", default="")
    args = words.parse_args()
    count = differ = 0
    for name, part in list(globals().items()):
        if not name.startswith("part_") or args.only not in name:
            continue
        count += 1
        try:
            part(args.program, args.replay)
        except Exception as fault:  # pylint: disable=broad-except
            differ += 1
            print(f"{name[5:]}: {fault if isinstance(fault, Differs) else traceback.format_exc()}", flush=True)
    print(f"recipes.py: {count} tried, {differ} differ")
    return 1 if differ else 0


if __name__ == "__main__":
    sys.exit(main())
