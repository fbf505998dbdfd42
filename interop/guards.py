#!/usr/bin/env python3
"""Tries that nothing that was stored is written over: whatever happens to the number file, to locks or to the event log, the server
refuses the store with words, and each file of it is byte for byte as before.

usage: guards.py --server PROGRAM [--only WORD]

Each part has a store of its own, in a folder whose parent may be passed through and not opened. Two sessions are stored, the server
is ended, something is done to the store, and the server is started again. It ends with 1 where something differs.
"""
import argparse
import json
import os
import resource
import shutil
import socket
import subprocess
import sys
import tempfile
import threading
import time
import traceback

import client
import servers
import store
from oracle import waits
from oracle.connection import PATIENCE
from parts import Skipped
from trial import SECOND, Differs, same

INFO = {"command": "/usr/bin/id", "runargv": ["id"], "runuser": "root", "submituser": "ann", "submithost": "web1", "submitcwd": "/"}
ACCEPT = client.accept(SECOND, INFO)
MARK = b"precious"
CLIENTS = 128


class Guarded:
    """A place for a store, below a folder that nobody may list, and the server that is run on it."""

    def __init__(self, program, parent=None, further=()):
        """`further` are words that each server gets."""
        self.program, self.further = program, list(further)
        self.above = tempfile.mkdtemp(prefix="guards", dir=parent)
        closed = os.path.join(self.above, "closed")
        os.mkdir(closed)
        self.place = servers.Place(parent=closed)
        os.chmod(closed, 0o311)
        self.server = servers.Serve(program, self.place, self.further)
        self.running = []

    def __enter__(self):
        return self

    def __exit__(self, kind, *_):
        if kind and not issubclass(kind, Skipped):
            print(f"the server, where what follows was found: {self.server.seen()}", flush=True)
        for process in self.running + [self.server.process]:
            if process and process.poll() is None:
                process.kill()
                process.wait()
        os.chmod(os.path.join(self.above, "closed"), 0o700)
        shutil.rmtree(self.above)

    @property
    def store(self):
        return self.place.store

    @property
    def events(self):
        return self.place.events

    def numbers(self):
        return os.path.join(self.store, "seq2")

    def start(self):
        self.server.start()
        return self

    def sessions(self, count=1):
        """So many whole sessions are stored. Gives their identifiers."""
        return [session(self.server.connect()) for _ in range(count)]

    def sessions_in_turn(self, count):
        """The same where there are few places: one may be taken for a while after its client has read the end."""
        return [session_in_turn(self.server) for _ in range(count)]

    def stop(self):
        self.server.kill()

    def contents(self):
        """The bytes of each file of the store and of the event log."""
        paths = [os.path.join(folder, name) for folder, _, names in os.walk(self.store) for name in names]
        paths += [path for path in self.events_files() if os.path.isfile(path)]
        return {path: store.contents(path) for path in paths}

    def events_files(self):
        """The event log and its journal of each lane that there may be."""
        lanes = [self.events] + [f"{self.events}.{lane}" for lane in range(1, 8)]
        return [path + end for path in lanes for end in ("", ".slots")]

    def refused(self, *words, conf=None, status=4):
        """The server ends with this status, says these words, and no file is another than before."""
        before = self.contents()
        said = self.ended(conf or self.place.conf, status)
        for word in words:
            if word not in said:
                raise Differs(f"{word!r} isn't in what was said: {said!r}")
        same("files that differ", sorted(differing(before, self.contents())), [])
        return said

    def ended(self, conf, status, before=None):
        """What a server says that ends by itself, with this status."""
        child = self.spawned(conf, before)
        late = []
        guard = threading.Timer(PATIENCE, lambda: (late.append(True), child.kill()))
        guard.start()
        said = ""
        try:
            for line in child.stderr:
                said += line
                if "listening on" in line:
                    child.kill()
                    raise Differs(f"the server wasn't refused: {said!r}")
        finally:
            guard.cancel()
        if late:
            raise Differs(f"a server that should end runs after {PATIENCE:.0f} s, and has said {said!r}")
        same(f"status, with {said!r}", child.wait(), status)
        return said

    def spawned(self, conf, before=None):
        """A further server."""
        words = [self.program, "serve", "-f", conf, *self.further]
        child = subprocess.Popen(words, stdin=subprocess.DEVNULL, stdout=subprocess.DEVNULL, stderr=subprocess.PIPE, text=True, preexec_fn=before)
        self.running.append(child)
        return child

    def settings(self, name, **changes):
        """A further settings file, with another port, and these places in the place of the store's own."""
        places = {"store": self.store, "events": self.events, **changes}
        text = servers.OURS.format(port=servers.free_port(), folder=self.place.folder)
        text = text.replace(f"{self.place.folder}/store", places["store"]).replace(f"{self.place.folder}/events", places["events"])
        path = os.path.join(self.place.folder, name)
        with open(path, "w", encoding="utf-8") as file:
            file.write(text)
        return path

    def runs(self, conf):
        """Starts a further server. Gives what it said up to its start line, and the process."""
        child = self.spawned(conf)
        said = ""
        for line in child.stderr:
            said += line
            if "listening on" in line:
                return said, child
        raise Differs(f"it ended with {child.wait()}: {said!r}")


def session(link):
    """A whole session: its identifier."""
    link.send(client.hello(), ACCEPT)
    answers = [link.read(), link.read()]
    if [name for name, _ in answers] != ["hello", "log_id"]:
        raise Differs(f"{answers} came for an accept")
    link.send(client.record((5, "ttyout", MARK)), client.exited(SECOND))
    answers += link.rest()
    link.close()
    return answers[1][1]


def session_in_turn(server, seconds=5 * PATIENCE):
    """A whole session, as soon as there is a place for it: while there is none connections are refused."""
    end = time.monotonic() + seconds
    while True:
        try:
            return session(server.connect(seconds))
        except (ConnectionRefusedError, ConnectionResetError, client.Closed):
            if time.monotonic() > end:
                raise
        time.sleep(0.005)


def differing(before, after):
    """The files that are missing or have other bytes, and those that are new."""
    changed = [path for path in before if after.get(path) != before[path]]
    return changed + [path for path in after if path not in before]


def written(path, data):
    with open(path, "wb") as file:
        file.write(data)


def part_number_file_is_lost(program):
    """Emptied, cut, garbled or removed: the store is refused. What was there is put back, and the next number is drawn."""
    with Guarded(program) as on:
        on.start().sessions(2)
        on.stop()
        whole = store.contents(on.numbers())
        harms = {"emptied": b"", "cut": whole[:5], "cut to its gate": whole[:1], "of zeros": bytes(26), "garbled": bytes(range(100, 126)), "longer, and of zeros": bytes(400)}
        for name, data in harms.items():
            written(on.numbers(), data)
            try:
                on.refused(f"{on.numbers()}: it has no entry, and the store holds logs of its numbers: put it back from a copy")
            except Differs as fault:
                raise Differs(f"{name}: {fault}") from None
        os.remove(on.numbers())
        on.refused(f"{on.numbers()}: it has no entry, and the store holds logs of its numbers")
        written(on.numbers(), whole)
        on.start()
        same("the next log", on.sessions(), ["000003"])


def part_number_file_is_older(program):
    """Put back from before a session; also with numbers between that have no log."""
    with Guarded(program) as on:
        on.start().sessions(1)
        on.stop()
        older = store.contents(on.numbers())
        on.server.start()
        on.sessions(3)
        on.stop()
        newer = store.contents(on.numbers())
        for gone in (None, "000002", "000003"):
            if gone:
                shutil.rmtree(store.folder_of(on.store, gone))
            written(on.numbers(), older)
            on.refused(f"{on.numbers()}: its last number is 000001, and the store holds log 000004 of its numbers")
        shutil.rmtree(store.folder_of(on.store, "000004"))
        on.server.start()
        same("the next log", on.sessions(), ["000002"])
        on.stop()
        written(on.numbers(), newer)
        on.server.start()
        same("the next log", on.sessions(), ["000005"])


def part_number_file_made_by_hand(program):
    """As OPERATIONS has it, without a copy."""
    with Guarded(program) as on:
        on.start().sessions(2)
        on.stop()
        os.remove(on.numbers())
        on.refused("the store holds logs")
        line = r"""n=$((36#000002)); printf "\\x01\\x00$(printf '\\x%02x\\x%02x\\x%02x\\x%02x' $((n>>24)) $((n>>16&255)) $((n>>8&255)) $((n&255)))\\0\\0\\0\\0\\0\\0\\0\\x01" > "$0" && chmod 600 "$0" """
        subprocess.run(["bash", "-c", line, on.numbers()], check=True)
        on.server.start()
        same("the next log", on.sessions(), ["000003"])


def part_number_file_of_lanes(program):
    """The file of an older store counts too, and no file of a store with other lanes. A folder that exists isn't written to."""
    with Guarded(program) as on:
        on.start().sessions(2)
        on.stop()
        entry = lambda last, lane, lanes: b"".join(number.to_bytes(4, "big") for number in (last, lane, lanes))
        older = b"\1" + entry(1, 0, 1) + b"\1" + entry(2, 0, 1) + b"\0"
        os.remove(on.numbers())
        written(os.path.join(on.store, "seq"), older[:14])
        on.refused("its last number is 000001, and the store holds log 000002 of its numbers")
        written(os.path.join(on.store, "seq"), older)
        on.server.start()
        same("the next log", on.sessions(), ["000003"])
        on.stop()
        os.remove(os.path.join(on.store, "seq"))
        # that of lane 1 of 2 doesn't cover log 4 of one lane
        shutil.copytree(store.folder_of(on.store, "000003"), store.folder_of(on.store, "000004"))
        written(on.numbers() + ".1", b"\1\0" + entry(4, 1, 2) + bytes(12))
        on.refused("its last number is 000003, and the store holds log 000004 of its numbers")
        shutil.rmtree(store.folder_of(on.store, "000004"))
        on.server.start()
        shutil.copytree(store.folder_of(on.store, "000003"), store.folder_of(on.store, "000004"))
        same("the next log but one", on_next(on), ["000005"])


def on_next(on):
    """A folder that exists isn't written to: the session is answered by a fault, and the next one has its log."""
    before = on.contents()
    link = on.server.connect()
    link.send(client.hello(), ACCEPT)
    answers = [link.read(), link.read()]
    same("the answer", answers[1], ("error", "device fault"))
    link.close()
    changed = [path for path in differing(before, on.contents()) if path != on.numbers()]
    same("files that differ", changed, [])
    said = f"{store.folder_of(on.store, '000004')}: create: this folder of a new log exists, so the number file {on.numbers()} is older than the store: nothing in the folder is changed"
    waits.until(f"{said!r} is said", lambda: said in on.place.said())
    return on.sessions()


def part_folders_that_are_no_logs(program):
    """Empty folders, files and other names in the store are no logs: no good store is refused for them."""
    with Guarded(program) as on:
        on.start().sessions(1)
        on.stop()
        for name in ("ZZ", "ZZ/ZZ", "00/ZZ", "lost+found", "zz", "0", "00/00/zz", "000"):
            os.mkdir(os.path.join(on.store, name))
        for name in ("Z9", "00/Z9", "00/00/Z9", "notes"):
            written(os.path.join(on.store, name), b"text")
        os.mkdir(os.path.join(os.fsencode(on.store), b"\xff\xff"))
        on.server.start()
        same("the next log", on.sessions(), ["000002"])
    with Guarded(program) as on:
        for name in ("", "00", "00/00", "00/01"):
            os.mkdir(os.path.join(on.store, name), 0o700)
        on.start()
        same("the first log", on.sessions(), ["000001"])


def part_half_made_log(program):
    """What a crash leaves of the making of a log: its number was drawn, and its folder has some of the files, or none."""
    with Guarded(program) as on:
        on.start().sessions(2)
        on.stop()
        folder = store.folder_of(on.store, "000002")
        for name in ("slots", "timing", "log.json"):
            os.remove(os.path.join(folder, name))
        on.server.start()
        same("the next log", on.sessions(), ["000003"])
        on.stop()
        shutil.rmtree(store.folder_of(on.store, "000003"))
        os.mkdir(store.folder_of(on.store, "000003"), 0o700)
        on.server.start()
        same("the next log", on.sessions(), ["000004"])


def part_number_file_while_it_runs(program):
    """A folder that somebody put in the place of the next logs while the server runs: none is written to."""
    with Guarded(program) as on:
        on.start().sessions(2)
        for whole, digits in ((True, "000003"), (False, "000004")):
            folder = store.folder_of(on.store, digits)
            shutil.copytree(store.folder_of(on.store, "000001"), folder)
            if not whole:
                os.remove(os.path.join(folder, "slots"))
        for digits in ("000003", "000004"):
            before = on.contents()
            link = on.server.connect()
            link.send(client.hello(), ACCEPT)
            same("the answer", [link.read()[0], link.read()], ["hello", ("error", "device fault")])
            link.close()
            same("files that differ", [path for path in differing(before, on.contents()) if path != on.numbers()], [])
            said = f"sudo_logsrvd: {store.folder_of(on.store, digits)}: create: this folder of a new log exists"
            waits.until(f"{said!r} is said", lambda said=said: said in on.place.said())
        same("the next log", on.sessions(), ["000005"])


def part_one_event_log(program):
    """A second server with another folder and port, and the same event log, is refused; one with another event log in the same folder
    runs."""
    with Guarded(program) as on:
        on.start().sessions(1)
        other = os.path.join(on.place.folder, "other")
        same_events = on.settings("second", store=other)
        on.refused(f"{on.events}: lock: another server uses this event log", conf=same_events)
        linked = os.path.join(on.place.folder, "linked")
        os.symlink(on.events, linked)
        on.refused(f"{on.place.folder}/linked", conf=on.settings("third", store=other, events=linked))
        os.remove(linked)
        # one of the two files is removed under the server
        os.rename(on.events + ".slots", on.events + ".kept")
        on.refused(on.events, conf=same_events)
        os.rename(on.events + ".kept", on.events + ".slots")
        os.rename(on.events, on.events + ".kept")
        on.refused(f"{on.events}: lock: another server uses this event log", conf=same_events)
        os.rename(on.events + ".kept", on.events)
        _, child = on.runs(on.settings("fourth", store=other, events=on.events + "-of-another"))
        child.kill()
        on.sessions(1)
        same("event lines", [line["accept"]["iolog"] for line in map(json.loads, store.lines(on.events)) if "accept" in line], ["000001", "000002"])


def part_rotated_event_log(program):
    """As OPERATIONS has it: while no server runs, the log is moved and its journal removed."""
    with Guarded(program) as on:
        on.start().sessions(1)
        on.stop()
        os.rename(on.events, on.events + "-20261128")
        os.remove(on.events + ".slots")
        on.server.start()
        on.sessions(1)
        same("event lines", len(store.lines(on.events)), 2)


def part_event_log_replaced(program):
    """Another file in the place of the event log while the server runs: it isn't written to, however many files were open between."""
    with Guarded(program) as on:
        on.start().sessions(1)
        os.rename(on.events, on.events + ".moved")
        written(on.events, b"of another\n")
        on.sessions(70)
        same("the other file", store.contents(on.events), b"of another\n")


def part_lock_removed(program):
    """The file `lock` is removed while a server runs: a second one is refused all the same."""
    with Guarded(program) as on:
        on.start().sessions(1)
        second = on.settings("second", events=on.events + "-of-another")
        on.refused(f"{on.store}: lock: another server uses this store", conf=second)
        os.remove(os.path.join(on.store, "lock"))
        on.refused(f"{on.store}: lock: another server uses this store", conf=second)
        same("the next log", on.sessions(1), ["000002"])


def part_event_log_that_was_cut(program):
    """`copytruncate` under a running server, and a line after it: the store is refused, and says what to do. That works."""
    with Guarded(program) as on:
        on.start().sessions(1)
        written(on.events, b"")
        on.sessions(1)
        on.stop()
        same("the first byte", store.contents(on.events)[:1], b"\0")
        on.refused(f"{on.events}: it begins with bytes of 0", "copytruncate", f"move it and {on.events}.slots away together")
        for name in (on.events, on.events + ".slots"):
            os.rename(name, name + "-moved")
        on.server.start()
        same("the next log", on.sessions(1), ["000003"])


def part_event_log_of_a_crash(program):
    """Bytes of 0 that a crash left of a first line that wasn't committed are no reason to refuse."""
    with Guarded(program) as on:
        on.start()
        on.stop()
        written(on.events, bytes(300))
        on.server.start()
        on.sessions(1)
        same("event lines", len(store.lines(on.events)), 2)


def part_event_log_put_back(program):
    """A rotated event log is put back beside the new journal: its lines after the place of the next one are kept in a file."""
    with Guarded(program) as on:
        on.start().sessions(3)
        on.stop()
        old = store.contents(on.events)
        for name in (on.events, on.events + ".slots"):
            os.remove(name)
        on.server.start()
        on.sessions(1)
        on.stop()
        counted = len(store.contents(on.events))
        # a line of another length in front, so that none ends where the journal's last one does
        written(on.events, b"{}\n" + old if old[counted - 1:counted] == b"\n" else old)
        on.refused(f"{on.events}: no line ends at byte {counted}, where its journal {on.events}.slots ends", "the journal is that of another log: nothing is changed")
        # and one that ends there
        fits = b"x" * (counted - 1) + b"\n"
        written(on.events, fits + old)
        said = said_at_start(on)
        if f"{on.events}: warning: {len(old)} bytes after the lines that its journal counts were moved to {on.events}.after-{counted}: " not in said:
            raise Differs(said)
        same("what was kept", store.contents(f"{on.events}.after-{counted}"), old)
        same("the mode of what was kept", os.stat(f"{on.events}.after-{counted}").st_mode & 0o777, 0o600)
        on.sessions(1)
        same("the lines before", store.contents(on.events)[:counted], fits)


def part_older_event_journal(program):
    """An older journal of the event log, also an empty one: what it doesn't count is kept in a file, once."""
    with Guarded(program) as on:
        on.start().sessions(1)
        on.stop()
        older, counted = store.contents(on.events + ".slots"), len(store.contents(on.events))
        on.server.start()
        on.sessions(2)
        on.stop()
        lines = store.contents(on.events)
        for journal, first in ((older, counted), (b"", 0), (b"\0" + older[1:], 0)):
            for name in kept_beside(on.events):
                os.remove(name)
            written(on.events, lines)
            written(on.events + ".slots", journal)
            said_at_start(on, f"were moved to {on.events}.after-{first}: ")
            on.sessions(1)
            on.stop()
            now = store.contents(on.events)
            same("the lines that were counted", now[:first], lines[:first])
            same("what was kept", store.contents(f"{on.events}.after-{first}"), lines[first:])
            same("lines of the last session", now[first:].count(b"\n"), 2)
            said = said_at_start(on)
            on.stop()
            same(f"said at the next start: {said!r}", "warning" in said, False)
            same("files", kept_beside(on.events), [f"{on.events}.after-{first}"])


def part_event_log_of_a_torn_turn(program):
    """Bytes that a crash left after the last line: they are kept, and the server runs."""
    with Guarded(program) as on:
        on.start().sessions(1)
        on.stop()
        lines = store.contents(on.events)
        at = f"{on.events}.after-{len(lines)}"
        turns = [(b'{"accept":{"sub', [at]), (b'{"accept":{"sub', [at]), (b'{"accept":{"submit', [at]), (bytes(9000), [at, at + ".2"]), (b"\n", [at, at + ".2", at + ".3"])]
        before = b""
        for torn, names in turns:
            written(on.events, lines + torn)
            said = said_at_start(on)
            on.stop()
            same(f"warned: {said!r}", f"{len(torn)} bytes after the lines" in said, torn != before)
            same("files", kept_beside(on.events), names)
            same("what was kept", store.contents(names[-1]), torn)
            same("the event log", store.contents(on.events), lines)
            before = torn
        on.server.start()
        on.sessions(1)
        same("event lines", len(store.lines(on.events)), 4)
        on.stop()
        # what can't be kept isn't written over
        lines = store.contents(on.events)
        written(on.events, lines + b"torn")
        os.mkdir(f"{on.events}.after-{len(lines)}")
        on.refused(f"{on.events}: what stands after the lines that its journal counts can't be kept in a file beside it: ")


def part_event_log_and_a_new_folder(program):
    """Another folder of the logs with the event log that is there: it goes on."""
    with Guarded(program) as on:
        on.start().sessions(1)
        on.stop()
        said, child = on.runs(on.settings("further", store=on.store + "-new"))
        child.kill()
        same(f"warned: {said!r}", said.count("\n"), 1)


def said_at_start(on, *words):
    """What the server says when it is started. It must have these words."""
    offset = len(on.place.said())
    on.server.start()
    said = on.place.said()[offset:]
    for word in words:
        if word not in said:
            raise Differs(f"{word!r} isn't in {said!r}")
    return said


def kept_beside(events):
    """The files that keep what stood after the lines of an event log."""
    folder, name = os.path.split(events)
    return sorted(os.path.join(folder, it) for it in os.listdir(folder) if it.startswith(name + ".after-"))


def part_places_in_another_store(program):
    """The folder of the logs below another store, the event log among the files of one."""
    with Guarded(program) as on:
        on.start().sessions(1)
        on.stop()
        for name in ("logs", "00", "00/00/ZZ", "new/logs"):
            on.refused(f"{on.store}/{name}: this folder is in another store, {on.store}: nothing is changed", conf=on.settings("further", store=f"{on.store}/{name}", events=on.events + "-new"))
        other = os.path.join(on.place.folder, "other")
        for name in ("seq2", "seq", "lock", "00/00/02/x", "ZZ", "./00/../seq2"):
            on.refused("path of [logfile] has the name of a file or a folder of another store", conf=on.settings("further", store=other, events=f"{on.store}/{name}"))
        _, child = on.runs(on.settings("fits", store=other, events=on.store + "/events"))
        child.kill()


def part_resumed_log_is_told(program):
    """A restart says which log it resumes, and how many records it drops."""
    with Guarded(program) as on:
        on.start()
        link = on.server.connect()
        link.send(client.hello(), ACCEPT, *[client.record((SECOND, "ttyout", MARK)) for _ in range(4)])
        while link.read() != ("commit_point", 4 * SECOND):
            pass
        link.close()
        for point, of in ((4, 4), (4, 5), (2, 5), (3, 3)):
            told = len(on.place.said())
            resume(on, "000001", point)
            waits.until("a line of the resumed log", lambda told=told: on.place.said()[told:].endswith("\n"))
            said = on.place.said()[told:]
            same("said", said, f"sudo_logsrvd: {store.folder_of(on.store, '000001')}: a client resumes this log at {point}.000000000 s: of its {of} records it drops the last {of - point}\n")


def resume(on, digits, point):
    """Goes on with a log at this second, with a record of a second. The server may not have seen yet that its writer is gone."""
    end = time.monotonic() + PATIENCE
    while True:
        link = on.server.connect()
        link.send(client.hello(), client.restart(digits, point * SECOND), client.record((SECOND, "ttyout", MARK)))
        link.read()
        answer = link.read()
        if answer != ("error", "log in use") or time.monotonic() > end:
            break
        link.close()
        time.sleep(0.005)
    same("the answer", answer, ("commit_point", (point + 1) * SECOND))
    link.close()


def part_places_that_collide(program):
    """The event log among the store's own files, a folder, a link to nothing."""
    with Guarded(program) as on:
        on.start().sessions(1)
        on.stop()
        for name in ("seq2", "seq", "seq2.1", "lock", "relay.lock", "00", "00/00/02/x", "ZZ", "00/00/01/log.json", "./seq2", "00/../seq2"):
            on.refused(f"{on.store}/{name}: path of [logfile] has the name of a file or a folder of the store", conf=on.settings("further", events=f"{on.store}/{name}"))
        link = os.path.join(on.place.folder, "link")
        os.symlink(on.numbers(), link)
        on.refused(f"{link}: path of [logfile] has the name of", conf=on.settings("further", events=link))
        os.remove(link)
        on.refused("path of [logfile] has the name of", conf=on.settings("further", events=on.store))
        on.refused("path of [logfile] has the name of", conf=on.settings("further", store=on.store + "/new/logs", events=on.store + "/new"))
        folder = os.path.join(on.place.folder, "folder")
        os.mkdir(folder)
        on.refused(f"{folder}: it is a folder, and path of [logfile] names a file", conf=on.settings("further", events=folder))
        os.symlink(folder + "/nothing", link)
        on.refused(f"{link}: it is a link to a file that doesn't exist", conf=on.settings("further", events=link))
        _, child = on.runs(on.settings("fits", events=on.store + "/events"))
        child.kill()


def part_paths_that_may_not_be_meant(program):
    """Quotes, escapes and relative paths are warned of, and taken as they stand."""
    with Guarded(program) as on:
        folder = on.place.folder
        cases = {f'"{folder}/store"': "quotes are part of the name", f"{folder}/%{{hostname}}": "escapes such as %{user} aren't replaced", "logs": "let it begin with /"}
        here = os.getcwd()
        os.chdir(folder)
        try:
            for path, words in cases.items():
                said, child = on.runs(on.settings("further", store=path))
                child.kill()
                child.wait()
                if f"sudo_logsrvd: {path}: warning: iolog_dir: " not in said or words not in said:
                    raise Differs(f"{path}: {said!r}")
                said, child = on.runs(on.settings("further", store=folder + "/other", events=path + "-lines" if path != "logs" else "lines"))
                child.kill()
                child.wait()
                if "warning: path of [logfile]: " not in said or words not in said:
                    raise Differs(f"{path}: {said!r}")
        finally:
            os.chdir(here)
        said, _ = on.runs(on.place.conf)
        same("warnings", said.count("warning"), 0)


def limit_of(count):
    return lambda: resource.setrlimit(resource.RLIMIT_NOFILE, (count, count))


def part_few_descriptors(program):
    """Too few for one client end the server; few are told; and one client at least is served, however many logs come."""
    with Guarded(program) as on:
        for count in (10, 20, 47):
            said = on.ended(on.place.conf, 7, before=limit_of(count))
            for word in (f"the limit of open files is {count}: not one client can be served", "1152", "LimitNOFILE=", "port fault"):
                if word not in said:
                    raise Differs(f"{word!r} isn't in {said!r}")
        for count, clients in ((48, 1), (64, 1), (256, 1), (664, 24), (1151, 511), (1152, 512)):
            on.server.before = limit_of(count)
            told = len(on.place.said()) if os.path.exists(on.place.errors) else 0
            on.server.start()
            on.sessions_in_turn(20)
            on.stop()
            said = on.place.said()[told:]
            same(f"faults with {count}: {said!r}", "Too many" in said, False)
            wanted = f"warning: the limit of open files is {count}: at most {clients} of 512 clients are served at once"
            same(f"warned of {count}: {said!r}", wanted in said, clients < 512)


def part_port_in_use(program):
    """The line of a port that is in use says what to do."""
    with Guarded(program) as on:
        with socket.create_server(("127.0.0.1", on.place.port)):
            said = on.ended(on.place.conf, 7)
        if "another program listens there: end it, or change listen_address" not in said:
            raise Differs(said)


def part_advice_fits(program):
    """What is advised of a store that can't be opened fits the error."""
    with Guarded(program) as on:
        file = os.path.join(on.place.folder, "file")
        written(file, b"")
        on.refused("what stands where a folder is needed is none", conf=on.settings("further", store=file))
        on.refused("what stands where a folder is needed is none", conf=on.settings("further", store=file + "/logs"))
        if os.getuid() != 0:
            on.refused("let who runs the server own both", conf=on.settings("further", store="/root/logs"))


def part_start_line(program):
    """It names the event log, and says who may write where the address isn't of the loopback."""
    with Guarded(program) as on:
        said, child = on.runs(on.place.conf)
        same("the start line", said, f"sudo_logsrvd: listening on 127.0.0.1:{on.place.port}, logs in {on.store}, last log 000000, events in {on.events}\n")
        child.kill()
        child.wait()
        for address, is_open in (("*", True), ("0.0.0.0", True), ("localhost", False), ("[::1]", False), ("127.0.0.2", False)):
            with open(on.place.conf, encoding="utf-8") as file:
                text = file.read().replace("127.0.0.1", address)
            conf = os.path.join(on.place.folder, "further")
            written(conf, text.encode())
            try:
                said, child = on.runs(conf)
            except Differs as fault:
                if address == "[::1]" and "address" in str(fault):
                    continue
                raise
            child.kill()
            child.wait()
            same(f"the warning of {address}", said.endswith("; any host that reaches this port may write\n"), is_open)


def main():
    words = argparse.ArgumentParser(description=__doc__, formatter_class=argparse.RawDescriptionHelpFormatter)
    words.add_argument("--server", required=True)
    words.add_argument("--only", default="")
    args = words.parse_args()
    count = differ = 0
    for name, part in list(globals().items()):
        if not name.startswith("part_") or args.only not in name:
            continue
        count += 1
        try:
            part(os.path.realpath(args.server))
        except (Differs, client.Closed, servers.Failed, store.Damaged, TimeoutError, subprocess.SubprocessError) as fault:
            differ += 1
            print(f"{name[5:]}: {str(fault) or type(fault).__name__}", flush=True)
        except Exception:  # pylint: disable=broad-except
            differ += 1
            print(f"{name[5:]}: {traceback.format_exc()}", flush=True)
    print(f"guards.py: {count} tried, {differ} differ")
    return 1 if differ else 0


if __name__ == "__main__":
    sys.exit(main())
