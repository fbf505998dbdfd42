#!/usr/bin/env python3
"""Kills a server with -9 at random moments, under load, and starts it again on the same store.

usage: drill.py --server PROGRAM [--as serve|once] [--lanes N] [--kills N] [--clients N] [--seed N] [--fault NAME]
                [--power KIND] [--check LOGCHECK] [--most SECONDS]

Clients open logs, send records and exits, read commit points, are cut off with the server or close by themselves, and
resume at their last commit point with records that they make anew. After each kill, before the next start, store.py
reads the store:

- each log has its records through the last commit point that its client read, and further ones only as they were sent;
- an exit whose commit point was read is there, and a complete log has all of its records;
- no number was given twice, none is above the number file of its lane, and those of a later life are above those of
the earlier ones;
- the accept of each log that a client knows has just one event line, an exit with its commit point too.

With --check the program sudo_logcheck reads the store and the event logs too: it must call nothing damaged, and say of
each that was read just what store.py reads.

A restart must be accepted wherever the log isn't complete. `once` has one client, on a pair of sockets, and a
process for each connection. With --power the store stands on a file system of that kind whose power is cut after
each kill (power.py), so that what did not reach the device is gone; root alone may do that, and where the machine
lacks the kind it ends with 3.

After its kills it goes on until each of these was tried: logs, commit points, exits, restarts, and connections that a
kill cuts off. Each further life is longer, so that a slow machine comes to all of them. That takes --most seconds at
most, by default 900; what is then untried is a fault.

--fault is handed to model.py, the wrong server by which the drill is tried. It ends with 1 where something differs;
ended by SIGTERM it says what was found until then.
"""
from __future__ import annotations

import argparse
import json
import os
import random
import shutil
import signal
import sys
import threading
import time
import traceback
from collections.abc import Sequence
from typing import Any

import at_root
import checked
import client
import power
import servers
import store
from oracle import lines
from oracle.connection import PATIENCE, Closed, Connection
from oracle.messages import Info
from oracle.records import SECOND, STREAMS, Record, cut_at, elapsed
INFO = {"command": "/usr/bin/vi", "runargv": ["vi", "/etc/motd"], "runuser": "root", "submituser": "ann",
    "submithost": "web1", "submitcwd": "/"}


class Wrong(Exception):
    """The server broke a promise."""


class Session:
    """A log as its clients know it.

    `kept` are the records that a commit point promised. Behind them stands one of `tails`: what was sent on each
    connection since, of which the server may have any first part. `ended` has the exits that were sent, by the
    number of their tail.
    """

    def __init__(self, digits: str, info: Info) -> None:
        """A log that was just begun."""
        self.digits, self.info = digits, info
        self.kept, self.tails, self.ended = [], [[]], {}
        self.point, self.complete = None, False
        # what was read while no server ran, until a restart is sent: nobody may change it
        self.at_rest = None

    def sent(self, record: Record) -> None:
        """A record was sent on the present connection."""
        self.tails[-1].append(record)

    def sent_exit(self, value: int) -> None:
        """An exit was sent on the present connection."""
        self.ended[len(self.tails) - 1] = value

    def committed(self, point: int) -> None:
        """A commit point came on the present connection: of that tail the first record that ends there is kept."""
        tail = self.tails[-1]
        if point == (self.point or 0) and not (self.point is None and tail):
            return
        base = elapsed(self.kept)
        if point < base:
            raise Wrong(f"log {self.digits}: a commit point of {point} after one of {base}")
        taken = cut_at(tail, point - base) if point > base or self.point is None else []
        if taken is None:
            raise Wrong(f"log {self.digits}: a commit point of {point}, where no record ends")
        exits = self.ended.get(len(self.tails) - 1)
        self.kept, self.tails, self.point = self.kept + taken, [tail[len(taken):]], point
        self.ended = {} if exits is None else {0: exits}

    def accepted(self) -> None:
        """A restart was accepted, so what was sent on the earlier connections behind the point is gone."""
        self.tails, self.ended = [self.tails[-1]], {}

    def finished(self) -> None:
        """The commit point of the exit came: all that was sent is kept."""
        self.kept, self.complete = self.kept + self.tails[-1], True
        self.ended = {0: self.ended[len(self.tails) - 1]}
        self.tails = [[]]

    def resumed(self) -> None:
        """A restart at the last commit point is sent: what is stored may be cut there, or not yet."""
        self.tails.append([])
        self.at_rest = None

    def check(self, log: store.Log | None) -> None:
        """The log as it is read is one that the promises allow."""
        if log is None:
            raise Wrong(f"log {self.digits} isn't there")
        if log.info != self.info:
            raise Wrong(f"log {self.digits} has {log.info} for {self.info}")
        if self.at_rest not in (None, (log.records, log.exit)):
            raise Wrong(f"log {self.digits} has changed, and nobody wrote to it")
        count = len(self.kept)
        if log.records[:count] != self.kept:
            promised = f"{count} were committed through {self.point}"
            raise Wrong(f"log {self.digits} has {len(log.records)} records, and {promised}")
        rest = log.records[count:]
        if not any(rest == tail[:len(rest)] for tail in self.tails):
            after = f"the {len(rest)} records after the commit point {self.point}"
            raise Wrong(f"log {self.digits}: {after} are no first part of what was sent")
        if self.complete and not log.is_complete():
            raise Wrong(f"log {self.digits}: the exit was committed, and the log isn't complete")
        if log.is_complete():
            allowed = [lines.exit_of(exit_of(value)) for at, value in self.ended.items() if rest == self.tails[at]]
            if log.exit not in allowed:
                raise Wrong(f"log {self.digits} is complete with {log.exit}, which wasn't sent behind these records")

    def settle(self, log: store.Log) -> None:
        """What is stored while no server runs is all that there is."""
        self.at_rest = log.records, log.exit
        self.tails = [log.records[len(self.kept):]]
        self.complete = self.complete or log.is_complete()
        self.ended = {0: log.exit["exit_value"]} if log.is_complete() else {}


def exit_of(value: int) -> dict[str, Any]:
    """The exit that a client sends with a value."""
    return {"run_time": value * SECOND, "exit_value": value, "dumped_core": False, "signal": "", "error": ""}


class Drill:
    """What all clients know, and the server."""

    def __init__(self, args: argparse.Namespace) -> None:
        """Nothing was sent yet."""
        self.rng = random.Random(args.seed)
        self.disk = power.Disk(args.power) if args.power else None
        self.place = servers.Place(parent=args.folder, disk=self.disk and self.disk.mounted)
        kind = servers.Once if args.kind == "once" else servers.Serve
        self.lanes = args.lanes
        further = ["--lanes", str(args.lanes)] if args.lanes > 1 else []
        further += ["--fault", args.fault] if args.fault else []
        self.server = kind(os.path.realpath(args.server), self.place, further)
        self.clients = 1 if self.server.is_alone() else args.clients
        self.checker = args.check and os.path.realpath(args.check)
        self.lock, self.greeted, self.sending, self.wrong = threading.Lock(), threading.Event(), threading.Event(), []
        self.sessions, self.open, self.exits = {}, [], {}
        # what the event logs have: the lines of each lane's, the accept and the exit of each log, and how many rejects
        self.lines, self.accepts, self.ended, self.rejects = [[] for _ in range(args.lanes)], {}, {}, 0
        # the last number of each lane before this life
        self.before, self.dead = [0] * args.lanes, False
        self.count = dict.fromkeys(("logs", "records", "commit points", "exits", "resumed", "cut off",
            "complete already", "refusals"), 0)

    def add(self, what: str, number: int = 1) -> None:
        """Counts what has happened."""
        with self.lock:
            self.count[what] += number

    def lane_of(self, digits: str) -> int:
        """The lane of a log."""
        return (store.number_of(digits) - 1) % self.lanes

    def lacks(self) -> list[str]:
        """What hasn't happened yet, without which the drill says nothing."""
        return [what for what in ("logs", "commit points", "exits", "resumed", "cut off") if self.count[what] == 0]

    def connection(self) -> Connection:
        """A connection whose hello came."""
        link = self.server.connect()
        name, content = link.read()
        if name != "hello":
            raise Wrong(f"{name} {content} for a hello")
        self.greeted.set()
        return link

    def new_session(self, link: Connection, rng: random.Random) -> Session:
        """Opens a log."""
        info = {**INFO, "lines": rng.randrange(100), "submitcwd": f"/{rng.random()}"}
        link.send(client.hello(), client.accept(rng.randrange(2**31) * SECOND, info))
        name, digits = link.read()
        if name != "log_id":
            raise Wrong(f"{name} {digits} for a log_id")
        with self.lock:
            if digits in self.sessions:
                raise Wrong(f"the number {digits} was given twice")
            before = self.before[self.lane_of(digits)]
            if store.number_of(digits) <= before:
                raise Wrong(f"the number {digits} was given after {store.digits_of(before)}, in an earlier life")
            session = self.sessions[digits] = Session(digits, info)
        self.add("logs")
        return session

    def old_session(self, link: Connection, session: Session, rng: random.Random) -> Session | bool | None:
        """Resumes a log at its last commit point; None where it is complete already."""
        session.resumed()
        first = record_of(rng)
        session.sent(first)
        link.send(client.hello(), client.restart(session.digits, session.point), client.record(first))
        name, content = link.read()
        if name == "commit_point":
            session.accepted()
            session.committed(content)
            self.add("resumed")
            return session
        session.tails.pop()
        if content == "log in use":
            return False
        if content == "log complete" and session.ended:
            session.complete = True
            self.add("complete already")
            return None
        raise Wrong(f"log {session.digits}: a restart at {session.point} was answered by {name} {content}")

    def take_points(self, link: Connection, session: Session, wait: bool = False) -> None:
        """Takes the commit points that came by now."""
        for name, content in [link.read()] if wait else link.waiting():
            if name != "commit_point":
                raise Wrong(f"log {session.digits}: {name} {content} for a commit point")
            session.committed(content)
            self.add("commit points")

    def serve_session(self, link: Connection, session: Session, rng: random.Random) -> bool:
        """Sends records and perhaps the exit. True where the session is over."""
        for _ in range(rng.choice([1, 5, 20, 60])):
            self.send_records(link, session, [record_of(rng) for _ in range(rng.choice([1, 1, 2, 10, 50]))])
            self.take_points(link, session, rng.random() < 0.5)
            if rng.random() < 0.03:
                # the client goes away by itself, and comes back later
                return False
        self.end_session(link, session, rng)
        return True

    def send_records(self, link: Connection, session: Session, records: Sequence[Record]) -> None:
        """Sends records."""
        for record in records:
            session.sent(record)
        link.send(*map(client.record, records))
        self.sending.set()
        self.add("records", len(records))

    def end_session(self, link: Connection, session: Session, rng: random.Random) -> None:
        """Sends the exit, and waits for its commit point.

        The last record alone ends at the last point, so that one commit point there is that of the record, or of
        both, and a second one that of the exit.
        """
        self.send_records(link, session, [(rng.randrange(1, 10**6), "stdout", b"the last one")])
        end = elapsed(session.kept + session.tails[-1])
        seen = 0
        if rng.random() < 0.5:
            while session.point != end:
                self.take_points(link, session, True)
            seen = 1
        value = rng.randrange(100)
        session.sent_exit(value)
        link.send(client.exited(value * SECOND, value))
        heard = link.rest()
        by_itself = not self.dead
        for name, content in heard:
            if name != "commit_point":
                raise Wrong(f"log {session.digits}: {name} {content} behind the exit")
            session.committed(content)
        if by_itself and heard[-1:] != [("commit_point", end)]:
            raise Wrong(f"log {session.digits}: the exit was answered by {heard}, and the last record ends at {end}")
        if seen + heard.count(("commit_point", end)) < 2 and not by_itself:
            raise Closed("before the commit point of the exit was known")
        session.finished()
        with self.lock:
            self.exits[session.digits] = value
        self.add("exits")

    def refused_session(self, link: Connection, rng: random.Random) -> None:
        """An alert and a reject, after which the client gets nothing but the end."""
        link.send(client.hello(), client.refusal("alert", 5 * SECOND, "beware", INFO),
            client.refusal("reject", 6 * SECOND, "no", INFO))
        if link.rest():
            raise Wrong("a reject was answered")
        if not self.dead:
            self.add("refusals")

    def run_client(self, rng: random.Random) -> None:
        """One client: a connection after the other, until the server is dead."""
        session = None
        while not self.dead and not self.wrong:
            link = None
            try:
                link = self.connection()
                resumed, session = session, None
                session = self.next_session(link, resumed, rng)
            except (Closed, ConnectionError) as fault:
                self.cut_off(link, fault)
            except TimeoutError as fault:
                self.wrong.append(f"no answer: {fault}; {self.server.seen()}")
            except (Wrong, servers.Failed) as fault:
                self.wrong.append(str(fault))
            except Exception:  # pylint: disable=broad-except
                self.wrong.append(traceback.format_exc())
            finally:
                if link:
                    link.close()
        if session:
            self.give_back(session)

    def cut_off(self, link: Connection | None, fault: Exception) -> None:
        """A connection ended: by the kill, or the server is at fault."""
        if self.dead:
            self.add("cut off")
            return
        try:
            said = link.rest() if link else []
        except OSError:
            said = []
        if not self.dead:
            self.wrong.append(f"the server ended a connection: {fault}; it answered {said}; {self.server.seen()}")

    def next_session(self, link: Connection, session: Session | None, rng: random.Random) -> Session | None:
        """One connection. Gives the session that is to be resumed, or None."""
        if session is None:
            with self.lock:
                session = self.open.pop() if self.open else None
        if session is not None:
            return self.resume(link, session, rng)
        if rng.random() < 0.1:
            self.refused_session(link, rng)
            return None
        session = self.new_session(link, rng)
        return self.go_on(link, session, rng)

    def resume(self, link: Connection, session: Session, rng: random.Random) -> Session | None:
        """One connection that goes on with a log. Gives the session that is to be resumed, or None."""
        found = False
        try:
            found = self.old_session(link, session, rng)
        except (Closed, ConnectionError):
            self.give_back(session)
            raise
        if found is False:
            time.sleep(0.005)
            return session
        return self.go_on(link, session, rng) if found else None

    def go_on(self, link: Connection, session: Session, rng: random.Random) -> Session | None:
        """Serves a session, which another client may resume if the server ends the connection."""
        try:
            over = self.serve_session(link, session, rng)
        except (Closed, ConnectionError):
            self.give_back(session)
            raise
        # without a commit point there is nothing to resume at
        return None if over or session.point is None else session

    def give_back(self, session: Session) -> None:
        """Another client may resume the log, if it has a commit point."""
        if session.point is not None:
            with self.lock:
                self.open.append(session)

    def life(self, seconds: float) -> None:
        """The server runs for so long under load, and is killed; at times while it still opens its store."""
        if not self.server.is_alone() and self.rng.random() < 0.1:
            self.server.spawn()
            time.sleep(self.rng.random() * 0.05)
            self.kill()
        try:
            self.server.start()
        except servers.Failed as fault:
            self.wrong.append(str(fault))
            return
        self.dead = False
        self.greeted.clear()
        threads = [threading.Thread(target=self.run_client,
            args=(random.Random(self.rng.random()),)) for _ in range(self.clients)]
        for thread in threads:
            thread.start()
        if self.rng.random() < 0.9:
            self.greeted.wait(PATIENCE)
        time.sleep(seconds)
        if self.rng.random() < 0.5:
            # right behind a send, so that the server is at work
            self.sending.clear()
            self.sending.wait(1)
            time.sleep(self.rng.random() * 0.003)
        self.dead = True
        self.kill()
        for thread in threads:
            thread.join()
        if not self.wrong:
            self.check()

    def kill(self) -> None:
        """Ends the server at once, and with it the power of its disk."""
        self.server.kill()
        if self.disk:
            try:
                self.disk.cut(self.rng)
            except (power.Failed, power.Lacking) as fault:
                self.wrong.append(str(fault))

    def check(self, whole: bool = False) -> None:
        """Reads the store while no server runs: the logs that were written in this life and some others, or all."""
        try:
            at_rest = [session for session in self.sessions.values() if session.at_rest is not None]
            written = [session for session in self.sessions.values() if session.at_rest is None]
            logs = {}
            for session in written + (at_rest if whole else self.rng.sample(at_rest, min(10, len(at_rest)))):
                log = logs[session.digits] = store.read_log(self.place.store, session.digits)
                session.check(log)
                session.settle(log)
            if self.checker:
                self.wrong.extend(checked.faults_of(self.checker, self.place.store, logs, self.place.events))
            self.before = [self.last_of(lane) for lane in range(self.lanes)]
            self.check_events()
        except (Wrong, store.Damaged, OSError) as fault:
            self.wrong.append(str(fault))

    def last_of(self, lane: int) -> int:
        """The last number of a lane, as its number file has it. None that was given is above it."""
        found = store.numbers(self.place.store, lane)
        if found and found[1:] != (lane, self.lanes):
            raise Wrong(f"the number file of lane {lane} is of {found[1:]}")
        last = found[0] if found else 0
        given = [store.number_of(digits) for digits in self.sessions if self.lane_of(digits) == lane]
        if max(given, default=0) > last:
            raise Wrong(f"the number {store.digits_of(max(given))} was given, and the last drawn one is {last}")
        return last

    def check_events(self) -> None:
        """The event logs begin with the lines that they had, and have an accept of each log and a line of each exit."""
        for lane in range(self.lanes):
            self.take_lines(lane)
        for digits, session in self.sessions.items():
            if self.accepts.get(digits) != session.info:
                raise Wrong(f"log {digits} was given, and its accept in the event log is {self.accepts.get(digits)}")
        for digits, value in self.exits.items():
            if self.ended.get(digits) != value:
                shown = self.ended.get(digits)
                raise Wrong(f"log {digits} has ended with {value}, and its exit in the event log is {shown}")
        if self.rejects < self.count["refusals"]:
            raise Wrong(f"{self.rejects} rejects are in the event log of {self.count['refusals']}")

    def take_lines(self, lane: int) -> None:
        """The lines of a lane's event log that are new: each of a log is in that of the log's lane."""
        found = store.lines(self.place.events + (f".{lane}" if lane else "")) or []
        before = self.lines[lane]
        if found[: len(before)] != before:
            raise Wrong(f"lines of the event log of lane {lane} have changed")
        for line in found[len(before) :]:
            ((name, members),) = json.loads(line).items()
            if "iolog" in members and self.lane_of(members["iolog"]) != lane:
                raise Wrong(f"the event log of lane {lane} has a line of the log {members['iolog']}")
            self.take_event(name, members)
        self.lines[lane] = found

    def take_event(self, name: str, members: dict[str, Any]) -> None:
        """An event line that is new."""
        kept = {"accept": self.accepts, "exit": self.ended}.get(name)
        if kept is None:
            self.rejects += name == "reject"
            return
        digits = members["iolog"]
        if digits in kept:
            raise Wrong(f"log {digits} has two lines of its {name} in the event log")
        kept[digits] = members["info"] if name == "accept" else members["exit_value"]


def record_of(rng: random.Random) -> Record:
    """A record; one of ten has no delay."""
    delay = 0 if rng.random() < 0.1 else rng.randrange(1, 10**7)
    kind = rng.random()
    if kind < 0.05:
        return delay, "winsize", rng.randrange(1, 99), rng.randrange(1, 300)
    if kind < 0.08:
        return delay, "suspend", rng.choice(["TSTP", "CONT"])
    return delay, rng.choice(STREAMS), rng.randbytes(rng.choice([0, 1, 10, 10, 100, 3000]))


def main() -> int:
    """Kills the server as often as asked for."""
    words = argparse.ArgumentParser(description=__doc__, formatter_class=argparse.RawDescriptionHelpFormatter)
    words.add_argument("--server", required=True)
    words.add_argument("--as", dest="kind", choices=["serve", "once"], default="serve")
    words.add_argument("--lanes", type=int, default=1)
    words.add_argument("--kills", type=int, default=50)
    words.add_argument("--clients", type=int, default=6)
    words.add_argument("--seed", type=int, default=int(time.time()))
    words.add_argument("--folder", help="where the store is made, by default a temporary folder")
    words.add_argument("--check", help="sudo_logcheck, which reads the store after each kill too")
    words.add_argument("--most", type=float, default=900.0, help="seconds in which all kinds must have been tried")
    words.add_argument("--fault")
    words.add_argument("--power", choices=list(power.KINDS))
    args = words.parse_args()
    lanes = f", {args.lanes} lanes" if args.lanes > 1 else ""
    cuts = f", cuts of the power of {args.power}" if args.power else ""
    print(f"drill.py: {args.kind}{lanes}, seed {args.seed}{cuts}", flush=True)
    try:
        drill, kills, stopped = Drill(args), 0, []
    except power.Lacking as fault:
        print(f"drill.py: {fault}")
        return 3
    signal.signal(signal.SIGTERM, lambda *_: stopped.append(True))
    ends = time.monotonic() + args.most
    while (kills < args.kills or drill.lacks() and time.monotonic() < ends) and not drill.wrong and not stopped:
        longer = min(1.2 ** max(0, kills - args.kills), 100)
        drill.life(longer * drill.rng.choice([0.01, 0.05, 0.15, 0.3]) * (0.5 + drill.rng.random()))
        kills += 1
    if not drill.wrong:
        drill.check(whole=True)
    if drill.lacks() and not drill.wrong and not stopped:
        drill.wrong.append(f"nothing was tried of: {', '.join(drill.lacks())}, in {args.most:.0f} s")
    for fault in drill.wrong:
        print(f"drill.py: {fault}")
    print(f"drill.py: {kills} kills{' until it was ended' * bool(stopped)}, " + ", ".join(f"{number} {what}" for what,
        number in drill.count.items()))
    if drill.wrong:
        where = f"what was said in {drill.place.errors}, " if drill.disk else ""
        print(f"drill.py: {where}the store is left in {os.path.dirname(drill.place.store)}")
        return 1
    if drill.disk:
        drill.disk.end()
    shutil.rmtree(drill.place.folder)
    return 0


if __name__ == "__main__":
    sys.exit(main())
