#!/usr/bin/env python3
"""Tries a server of several lanes: its sessions, their event lines and their numbers, and another number of lanes.

usage: lanes.py --server PROGRAM --replay SUDOREPLAY [--only WORD]

Each part has a store of its own. It ends with 1 where something differs.
"""
from __future__ import annotations

import argparse
import concurrent.futures
import json
import os
import re
import resource
import shutil
import subprocess
import sys
import tempfile
import time
import traceback
from collections.abc import Callable

import client
import servers
import store
from guards import ACCEPT, MARK, SECOND, Guarded, session, session_in_turn
from oracle.connection import PATIENCE
from trial import Differs, same

LANES = 4
NOBODY = 65534
# How often the threads of an idle server, together, may go to sleep in a second: 20 times a worker, and a few more.
MOST_SLEEPS = 100


def lane_of(digits: str, lanes: int = LANES) -> int:
    """The lane of a log."""
    return (store.number_of(digits) - 1) % lanes


def several(program: str, lanes: int = LANES) -> Guarded:
    """A place for a store of several lanes."""
    return Guarded(program, further=("--lanes", str(lanes)))


def asks_for(on: Guarded, lanes: int) -> None:
    """From now on the server is started with this number of lanes."""
    on.further[:] = ["--lanes", str(lanes)]


def at_once(on: Guarded, count: int) -> list[str]:
    """This many whole sessions, eight at a time."""
    with concurrent.futures.ThreadPoolExecutor(8) as pool:
        return list(pool.map(lambda _: session_in_turn(on.server), range(count)))


def played(replay: str, on: Guarded, digits: str) -> bytes:
    """What a log shows."""
    words = [replay, "-d", on.store, "-m", "0", digits]
    return subprocess.run(words, capture_output=True, check=True, timeout=PATIENCE).stdout


def listed(replay: str, on: Guarded) -> list[str]:
    """The identifiers that a listing has, in its order."""
    done = subprocess.run([replay, "-d", on.store, "-l"], capture_output=True, text=True, check=True, timeout=PATIENCE)
    same("what is said of the listing", done.stderr, "")
    return re.findall(r"TSID=(\w+)", done.stdout)


def events_of(on: Guarded, lane: int) -> list[tuple[str, str]]:
    """The kind and the log of each event line of a lane."""
    found = store.lines(on.events + (f".{lane}" if lane else "")) or []
    return [(name, members["iolog"]) for line in found for name, members in json.loads(line).items()]


def check_whole(on: Guarded, replay: str, given: list[str]) -> None:
    """Each session is stored, listed and played, and its event lines are in the event log of its lane."""
    same("numbers", len(set(given)), len(given))
    for digits in given:
        log = store.read_log(on.store, digits)
        same(f"log {digits}", (log.is_complete(), log.records), (True, [(5, "ttyout", MARK)]))
    same("the listing", listed(replay, on), sorted(given))
    for lane in range(LANES):
        mine = sorted((digits for digits in given if lane_of(digits) == lane), key=store.number_of)
        numbers = [store.number_of(digits) for digits in mine]
        same(f"numbers of lane {lane}", numbers, [lane + 1 + LANES * place for place in range(len(mine))])
        same(f"the number file of lane {lane}", store.numbers(on.store, lane), (numbers[-1] if numbers else 0,
            lane, LANES))
        events = events_of(on, lane)
        same(f"accepts of lane {lane}", sorted(digits for name, digits in events if name == "accept"), sorted(mine))
        same(f"exits of lane {lane}", sorted(digits for name, digits in events if name == "exit"), sorted(mine))


def part_sessions_at_once(program: str, replay: str) -> None:
    """Sessions of many clients at once are divided among all lanes; the next run goes on with their numbers."""
    with several(program) as on:
        on.start()
        given = at_once(on, 40)
        same("lanes that were used", {lane_of(digits) for digits in given}, set(range(LANES)))
        on.stop()
        check_whole(on, replay, given)
        on.server.start()
        last = max(given, key=store.number_of)
        if f"last log {last}" not in on.place.said().splitlines()[-1]:
            raise Differs(f"the last log is {last}: {on.place.said()!r}")
        given += at_once(on, 16)
        on.stop()
        check_whole(on, replay, given)
        for digits in given[::9]:
            same(f"what {digits} shows", played(replay, on, digits), MARK)


def part_sessions_one_by_one(program: str, replay: str) -> None:
    """One client after another is served too, with every number of lanes."""
    for lanes in range(1, LANES + 1):
        with several(program, lanes) as on:
            on.start()
            given = on.sessions(9)
            on.stop()
            same(f"the listing with {lanes} lanes", listed(replay, on), sorted(given))


def part_resumed_in_its_lane(program: str, _: str) -> None:
    """A log is resumed by a later connection in the lane of the log."""
    with several(program) as on:
        on.start()
        for _ in range(2 * LANES):
            link = on.server.connect()
            link.send(client.hello(), ACCEPT)
            digits = [link.read(), link.read()][1][1]
            link.send(client.record((5, "ttyout", MARK)))
            while link.read()[0] != "commit_point":
                pass
            link.close()
            # the server ends the first connection before the log can be resumed
            end = time.monotonic() + PATIENCE
            while True:
                link = on.server.connect()
                link.send(client.hello(), client.restart(digits, 5), client.record((6, "ttyout", MARK)),
                    client.exited(SECOND))
                heard = link.rest()
                link.close()
                if heard[-1:] != [("error", "log in use")] or time.monotonic() > end:
                    break
                time.sleep(0.02)
            # a turn that ends between the record and the exit has a commit point of its own
            same(f"answers to the restart of {digits}", list(dict.fromkeys(map(str, heard))), [str(heard[0]),
                str(("commit_point", 11))])
            same(f"records of {digits}", store.read_log(on.store, digits).records, [(5, "ttyout", MARK), (6,
                "ttyout", MARK)])
            same(f"exits of {digits}", events_of(on, lane_of(digits)).count(("exit", digits)), 1)


def part_another_number(program: str, _: str) -> None:
    """A store is refused to a server of another number of lanes, with words, and nothing of it changes."""
    for made in (1, 2, LANES):
        with several(program, made) as on:
            on.start()
            given = on.sessions(5)
            on.stop()
            for asked in range(1, LANES + 1):
                if asked == made:
                    continue
                asks_for(on, asked)
                on.refused(f"{on.store}/seq2: the store was made with --lanes {made}, and {asked} is asked for: "
                    f"start the server with --lanes {made}, or let iolog_dir be a new folder and path of "
                    "[logfile] a new file")
            if made > 1:
                before = on.contents()
                words = [program, "once", "-f", on.place.conf]
                done = subprocess.run(words, stdin=subprocess.DEVNULL, capture_output=True, check=False,
                    timeout=PATIENCE)
                same("the status of once", (done.returncode, b"--lanes" in done.stderr), (4, True))
                same("the store after once", on.contents(), before)
            asks_for(on, made)
            on.server.start()
            given += on.sessions(5)
            same("numbers", len(set(given)), 10)


def part_further_event_log_in_use(program: str, _: str) -> None:
    """An event log of a further lane that another program wrote is not touched: to write there is a fault."""
    with several(program) as on:
        foreign = b"lines of another program\n"
        with open(on.events + ".1", "wb") as file:
            file.write(foreign)
        said = on.ended(on.place.conf, 4)
        same(f"what is said names it: {said!r}", f"{on.events}.1" in said, True)
        same("the other program's lines", store.contents(on.events + ".1"), foreign)


def numbers_of_lane(on: Guarded, lane: int) -> str:
    """The number file of a lane."""
    return on.numbers() + (f".{lane}" if lane else "")


def part_number_file_of_one_lane(program: str, replay: str) -> None:
    """The number file of any lane is lost, cut, older, noise or another lane's: the store is refused by the name of
    that file, once. With the file put back it goes on. A listing names it too, and so does the relay."""
    with several(program) as on:
        on.start()
        given = at_once(on, 16)
        on.stop()
        same("lanes that were used", {lane_of(digits) for digits in given}, set(range(LANES)))
        older = {lane: store.contents(numbers_of_lane(on, lane)) for lane in range(LANES)}
        on.server.start()
        given += at_once(on, 16)
        on.stop()
        same("the listing", listed(replay, on), sorted(given))
        for lane in range(LANES):
            path, told = numbers_of_lane(on, lane), "it has no entry, and the store holds logs of its numbers"
            whole = store.contents(path)
            others = store.contents(numbers_of_lane(on, (lane + 1) % LANES))
            ways = [(None, told), (b"", told), (whole[:5], told), (older[lane], "its last number is"),
                (others, "it is damaged"), (whole[:2] + b"\x08\x09\x0a\x0b" * 8, "it is damaged")]
            for data, words in ways if lane in (0, 1) else ways[:1] + ways[3:4]:
                put(path, data)
                said = on.refused(f"{path}: {words}")
                same(f"how often {path} is named in {said!r}", said.count(path + ":"), 1)
                says_of(replay, on, path)
                put(path, whole)
        on.server.start()
        given += at_once(on, 8)
        same("numbers", len(set(given)), 40)


def put(path: str, data: bytes | None) -> None:
    """Gives a file these bytes, or removes it."""
    if data is None:
        os.remove(path)
        return
    with open(path, "wb") as file:
        file.write(data)


def says_of(replay: str, on: Guarded, path: str) -> None:
    """A listing and the relay name a number file, and the relay sends nothing."""
    done = subprocess.run([replay, "-d", on.store, "-l"], capture_output=True, text=True, check=False, timeout=PATIENCE)
    same(f"how often the listing names {path} in {done.stderr!r}", done.stderr.count(path + ":"), 1)
    words = [on.program, "relay", "-f", relay_of(on)]
    done = subprocess.run(words, stdin=subprocess.DEVNULL, capture_output=True, text=True, check=False,
        timeout=PATIENCE)
    found = (done.returncode, done.stderr.count(path + ":"))
    same(f"how the relay ends, and names {path} in {done.stderr!r}", found, (4, 1))


def relay_of(on: Guarded) -> str:
    """Settings by which the store is relayed to nobody."""
    path = os.path.join(on.place.folder, "relay.conf")
    with open(on.place.conf, encoding="utf-8") as file:
        text = file.read()
    with open(path, "w", encoding="utf-8") as file:
        file.write(text + "\n[relay]\nrelay_host = 127.0.0.1:1\nstore_first = true\n")
    return path


def part_event_files_of_one_lane(program: str, _: str) -> None:
    """A file of one lane's event log is lost or cut: the store is refused by that file's name, once, and what the line
    says mends it."""
    for lane in (0, 2):
        for journal, data in ((False, None), (False, b"x" * 9 + b"\n"), (True, None)):
            with several(program) as on:
                on.start()
                given = at_once(on, 16)
                on.stop()
                path = on.events + (f".{lane}" if lane else "")
                lost, other = (path + ".slots", path) if journal else (path, path + ".slots")
                put(lost, data)
                words = "it has lines, and no journal" if journal else "it is absent or shorter than its journal"
                said = on.refused(f"{path}: {words}")
                same(f"lines in {said!r}", said.count(f"{path}"), 2)
                same(f"what follows in {said!r}", said.splitlines()[1:], ["sudo_logsrvd: store"])
                os.remove(other)
                if os.path.exists(lost):
                    os.remove(lost)
                on.server.start()
                given += at_once(on, 8)
                same("numbers", len(set(given)), 24)


def part_refused_server_changes_nothing(program: str, _: str) -> None:
    """The event log of a further lane is another server's, which writes it: the second server ends, and changes
    nothing."""
    with several(program, 1) as on:
        on.place.events += ".1"
        with open(on.place.conf, encoding="utf-8") as file:
            text = file.read()
        with open(on.place.conf, "w", encoding="utf-8") as file:
            file.write(text.replace("/events", "/events.1"))
        on.start().sessions(2)
        with open(on.events, "ab") as file:
            file.write(b"a line that the first server has written and not counted yet\n")
        before, names = on.contents(), sorted(os.listdir(on.place.folder))
        second = on.settings("second", store=on.place.folder + "/other")
        with open(second, encoding="utf-8") as file:
            text = file.read()
        with open(second, "w", encoding="utf-8") as file:
            file.write(text.replace("/events.1", "/events"))
        names = sorted([*names, "second"])
        asks_for(on, 2)
        said = on.ended(second, 4)
        if f"{on.events}: lock: another server uses this event log" not in said:
            raise Differs(said)
        same("files", (on.contents(), sorted(os.listdir(on.place.folder))), (before, names))


def part_last_number_far_above(program: str, replay: str) -> None:
    """A last number far above the newest log is said at the start and before a listing."""
    with several(program) as on:
        on.start()
        given = at_once(on, 8)
        on.stop()
        path = numbers_of_lane(on, 1)
        whole = store.contents(path)
        last = store.numbers(on.store, 1)[0].to_bytes(4, "big")
        far = 4 * 268_000_000 + 2
        put(path, whole.replace(last, far.to_bytes(4, "big")))
        words = f"{path}: warning: its last number is {store.digits_of(far)}, and the newest log is {max(given)}"
        on.server.start()
        if words not in on.place.said():
            raise Differs(on.place.said())
        # no number without a folder is looked for
        done = subprocess.run([replay, "-d", on.store, "-l"], capture_output=True, text=True, check=False,
            timeout=PATIENCE)
        same(f"whether the listing says {done.stderr!r}", words in done.stderr, True)
        same("the listing", re.findall(r"TSID=(\w+)", done.stdout), sorted(given))


def processor_seconds(pid: int) -> float:
    """The processor time of all threads of a process."""
    total = 0
    for task in os.listdir(f"/proc/{pid}/task"):
        with open(f"/proc/{pid}/task/{task}/schedstat", encoding="ascii") as file:
            total += int(file.read().split()[0])
    return total / 1e9


def sleeps(pid: int) -> int:
    """How often the threads of a process went to sleep."""
    total = 0
    for task in os.listdir(f"/proc/{pid}/task"):
        with open(f"/proc/{pid}/task/{task}/status", encoding="ascii") as file:
            total += sum(int(line.split()[1]) for line in file if line.startswith("voluntary_ctxt_switches:"))
    return total


def part_idle(program: str, _: str) -> None:
    """The lanes of an idle server sleep, and each worker wakes 20 times a second. Its processor time is only shown."""
    for lanes in (1, LANES):
        with several(program, lanes) as on:
            on.start()
            on.sessions(4)
            link = on.server.connect()
            link.read()
            time.sleep(1)
            pid = on.server.process.pid
            slept, before, began = sleeps(pid), processor_seconds(pid), time.monotonic()
            time.sleep(5)
            seconds = time.monotonic() - began
            part = (processor_seconds(pid) - before) / seconds
            rate = (sleeps(pid) - slept) / seconds
            threads = len(os.listdir(f"/proc/{pid}/task"))
            link.close()
            costs = f"{100 * part:.3f} % of a processor, {rate:.0f} sleeps a second"
            print(f"lanes.py: idle with {lanes} lanes: {threads} threads, {costs}")
            if rate > MOST_SLEEPS:
                raise Differs(f"with {lanes} lanes the threads of an idle server go to sleep {rate:.0f} times a second")


def as_user(user: int, threads: int) -> Callable[[], None]:
    """Becomes a user, who may have this number of threads."""
    def before() -> None:
        """Is done in the process before it becomes the server."""
        os.setgid(NOBODY)
        os.setgroups([])
        os.setuid(user)
        resource.setrlimit(resource.RLIMIT_NPROC, (threads, threads))
    return before


def unused_user() -> int:
    """A user who has no process, so that nobody else's threads count for its limit."""
    used = set()
    for pid in filter(str.isdigit, os.listdir("/proc")):
        try:
            used.add(os.stat(f"/proc/{pid}").st_uid)
        except OSError:
            pass
    return next(user for user in range(61_000 + os.getpid() % 3_000, 65_000) if user not in used)


def part_threads_are_refused(program: str, replay: str) -> None:
    """Where the system refuses some or all threads, all sessions are served nevertheless."""
    if os.getuid() != 0:
        print("lanes.py: refused threads are skipped: only root may become another user")
        return
    for more in (1, 2, 3, 5):
        folder = tempfile.mkdtemp(prefix="lanes")
        os.chmod(folder, 0o755)
        copy = shutil.copy(program, folder)
        place = servers.Place(parent=folder)
        user = unused_user()
        os.chown(place.folder, user, NOBODY)
        os.chown(place.conf, user, NOBODY)
        server = servers.Serve(copy, place, ["--lanes", str(LANES)])
        server.before = as_user(user, more)
        server.start()
        try:
            threads = len(os.listdir(f"/proc/{server.process.pid}/task"))
            with concurrent.futures.ThreadPoolExecutor(8) as pool:
                given = list(pool.map(lambda _: session(server.connect()), range(16)))
            same("threads", threads <= more, True)
            same(f"sessions with {threads} threads", len(set(given)), 16)
        finally:
            server.kill()
        words = [replay, "-d", place.store, "-l"]
        found = subprocess.run(words, capture_output=True, text=True, check=True, timeout=PATIENCE)
        same(f"the listing with {threads} threads", len(re.findall(r"TSID=(\w+)", found.stdout)), 16)
        shutil.rmtree(folder)


def part_few_descriptors(program: str, _: str) -> None:
    """A limit of open files that is too low for the lanes ends the server; with one that suffices it serves."""
    def limit(count: int) -> Callable[[], None]:
        """Sets the limit of open files."""
        return lambda: resource.setrlimit(resource.RLIMIT_NOFILE, (count, count))

    with several(program) as on:
        said = on.ended(on.place.conf, 7, before=limit(107))
        if "the limit of open files is 107: not one client can be served" not in said:
            raise Differs(said)
        for count in (108, 256, 704):
            on.server.before = limit(count)
            told = len(on.place.said()) if os.path.exists(on.place.errors) else 0
            on.server.start()
            at_once(on, 8)
            on.stop()
            said = on.place.said()[told:]
            same(f"faults with {count}: {said!r}", "Too many" in said, False)


def part_numbers_made_by_hand(program: str, _: str) -> None:
    """The number files of all lanes are made anew as OPERATIONS has it."""
    from recipes import block, run  # pylint: disable=import-outside-toplevel
    with several(program) as on:
        on.start()
        given = at_once(on, 11)
        on.stop()
        for name in os.listdir(on.store):
            if name.startswith("seq2"):
                os.remove(os.path.join(on.store, name))
        on.refused("the store holds logs")
        run(block("Making seq2 by hand", "lanes=").replace("lanes=1", f"lanes={LANES}", 1), {"DIR": on.store})
        on.server.start()
        again = at_once(on, 11)
        same("numbers that were given twice", set(given) & set(again), set())


def part_stops_after(program: str, _: str) -> None:
    """With --stop-after it ends with 0 once all have been served."""
    with several(program) as on:
        on.server.further += ["--stop-after", "12"]
        on.start()
        given = at_once(on, 12)
        same("the status", on.server.process.wait(PATIENCE), 0)
        same("numbers", len(set(given)), 12)
        on.server.process = None


def main() -> int:
    """Tries all parts."""
    words = argparse.ArgumentParser(description=__doc__, formatter_class=argparse.RawDescriptionHelpFormatter)
    words.add_argument("--server", required=True)
    words.add_argument("--replay", required=True)
    words.add_argument("--only", default="")
    args = words.parse_args()
    count = differ = 0
    for name, part in list(globals().items()):
        if not name.startswith("part_") or args.only not in name:
            continue
        count += 1
        try:
            part(os.path.realpath(args.server), os.path.realpath(args.replay))
        except Exception as fault:  # pylint: disable=broad-except
            differ += 1
            known = (Differs, client.Closed, servers.Failed, store.Damaged, TimeoutError, subprocess.SubprocessError)
            why = str(fault) or type(fault).__name__ if isinstance(fault, known) else traceback.format_exc()
            print(f"{name[5:]}: {why}", flush=True)
    print(f"lanes.py: {count} tried, {differ} differ")
    return 1 if differ else 0


if __name__ == "__main__":
    sys.exit(main())
