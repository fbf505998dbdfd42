#!/usr/bin/env python3
"""Tries sudo-prune, sudo-logseal and sudo_logcheck on stores that the server made.

usage: prune.py PROGRAM REPLAY [LOGCHECK] [--runs N] [--many N]

PROGRAM is sudo_logsrvd, REPLAY sudoreplay, LOGCHECK sudo_logcheck, which the scripts use if it is named. Logs are
pruned beside the server, which goes on. A seal is made, verified, and verified again after changes. LOGCHECK runs N
times (20) beside sessions that are cut and resumed, and beside sudo-prune, and calls none damaged; with --many it
checks a store of N logs too. It ends with 1 if something differs.
"""
from __future__ import annotations

import argparse
import os
import pty
import re
import shutil
import socket
import subprocess
import sys
import tempfile
import threading
import time
import traceback

import checked
import client
import store
from oracle.connection import PATIENCE
from oracle.store import log_body, numbers_body, slots_text
from guards import ACCEPT, MARK, Guarded
from trial import Differs, same

ROOT = os.path.join(os.path.dirname(os.path.abspath(__file__)), "..")
SCRIPTS = "sudo-prune", "sudo-logseal"

# the logs of a store from which sudo-prune takes all but one while it is checked
LOGS = 300


class Tried:
    """The programs that are tried."""

    def __init__(self, words: argparse.Namespace) -> None:
        """Their paths. The scripts stand in a folder of their own, each in one file."""
        self.program, self.replay = os.path.realpath(words.program), os.path.realpath(words.replay)
        self.check = words.logcheck and os.path.realpath(words.logcheck)
        self.runs, self.many = words.runs, words.many
        self.folder = tempfile.mkdtemp(prefix="prune")
        for name in SCRIPTS:
            alone = [sys.executable, "-m", "oracle.alone", f"contrib/{name}"]
            with open(os.path.join(self.folder, name), "wb") as file:
                file.write(subprocess.run(alone, cwd=ROOT, capture_output=True, check=True).stdout)
            os.chmod(file.name, 0o755)
        if self.check:
            os.symlink(self.check, os.path.join(self.folder, "sudo_logcheck"))

    def run(self, name: str, folder: str, *words: str) -> tuple[int, str, str]:
        """The status of a script on a store, what it prints and what it says."""
        words = os.path.join(self.folder, name), "-d", folder, *words
        done = subprocess.run(words, capture_output=True, text=True, check=False)
        return done.returncode, done.stdout, done.stderr

    def prune(self, folder: str, *words: str) -> tuple[int, list[str], str]:
        """The status of sudo-prune, the identifiers that it prints, and what it says."""
        status, printed, said = self.run("sudo-prune", folder, *words)
        return status, re.findall(r"^(\w{6}) ", printed, flags=re.M), said

    def seal(self, folder: str, *words: str) -> tuple[int, str]:
        """The status of sudo-logseal, and what it prints and says."""
        status, printed, said = self.run("sudo-logseal", folder, *words)
        return status, printed + said

    def listed(self, folder: str) -> list[str]:
        """The identifiers of the logs of a store, as a listing has them."""
        done = subprocess.run([self.replay, "-d", folder, "-l"], capture_output=True, text=True, check=True)
        return re.findall(r"TSID=(\w+)", done.stdout)


def open_log(on: Guarded) -> client.Connection:
    """A session that goes on, whose records are committed."""
    link = on.server.connect()
    link.send(client.hello(), ACCEPT, client.record((5, "ttyout", MARK)))
    while link.read()[0] != "commit_point":
        pass
    return link


def part_pruned_beside_the_server(tried: Tried) -> None:
    """Complete logs go, open ones and the last of each lane stay; the server goes on, and starts again."""
    with Guarded(tried.program, further=["--lanes", "2"]) as on:
        on.start()
        whole = on.sessions(8)
        link = open_log(on)
        last = {(store.number_of(digits) - 1) % 2: digits for digits in sorted(store.folders(on.store))}
        goes = sorted(digits for digits in whole if digits not in last.values())
        gone = os.path.join(on.place.folder, "gone")
        same("shown", tried.prune(on.store, "-n", "--older", "1")[:2], (0, goes))
        same("all are there", len(tried.listed(on.store)), 9)
        same("pruned", tried.prune(on.store, "--older", "1", "-g", gone)[:2], (0, goes))
        same("what is left", sorted(tried.listed(on.store)), sorted(set(store.folders(on.store)) - set(goes)))
        with open(gone, encoding="utf-8") as file:
            same("noted", [line.split()[0] for line in file], goes)
        status, taken, said = tried.prune(on.store, "--below", "1K")
        same("no further one", (status, taken), (5, []))
        if "bytes still" not in said:
            raise Differs(f"it said {said!r}")
        link.send(client.exited(5))
        link.close()
        on.sessions(2)
        on.stop()
        on.server.start()
        on.sessions(1)
        if tried.check:
            same("damaged", checked.said_of(tried.check, on.store)[1]["damaged"], 0)
        link = on.server.connect()
        link.send(client.hello(), client.restart(goes[0], 0))
        answers = [link.read()[0] for _ in range(2)]
        same("a client that resumes a log that is gone", answers[-1], "error")


def part_relayed_first(tried: Tried) -> None:
    """In a store with a relayed log only such are pruned, or they are first."""
    with Guarded(tried.program) as on:
        on.start().sessions(4)
        on.stop()
        log = store.read_log(on.store, "000003")
        mark_relayed(store.folder_of(on.store, "000003"), log.body.elapsed if log else 0)
        same("only relayed", tried.prune(on.store, "-n", "--older", "1")[:2], (0, ["000003"]))
        same("relayed first", tried.prune(on.store, "-n", "--older", "1", "--unrelayed")[:2],
            (0, ["000003", "000001", "000002"]))


def mark_relayed(folder: str, spent: int) -> None:
    """Marks a log of this time as relayed, as FORMATS has it: an entry of kind 3, and a file `relay` of its length."""
    with open(os.path.join(folder, "relay"), "wb"):
        pass
    with open(os.path.join(folder, "relay.slots"), "wb") as file:
        file.write(slots_text(log_body(3, 0, 0, [], spent + 1)))


def changed(path: str) -> None:
    """Changes the first byte of a file."""
    with open(path, "r+b") as file:
        first = file.read(1)
        file.seek(0)
        file.write(bytes([first[0] ^ 1]))


def part_sealed(tried: Tried) -> None:
    """A seal goes on, and shows what was changed, pruned, removed, and written anew."""
    with Guarded(tried.program) as on:
        on.start().sessions(3)
        seal, gone = (os.path.join(on.place.folder, name) for name in ("seal", "gone"))
        status, said = tried.seal(on.store, seal)
        same("sealed", (status, said.split(";")[0]), (0, "3 logs sealed, 3 of them now"))
        value = re.search(r"value (\w+)", said)[1]
        on.sessions(2)
        same("sealed again", tried.seal(on.store, seal)[1].split(";")[0], "5 logs sealed, 2 of them now")
        same("verified", tried.seal(on.store, "--verify", "-v", value, seal)[1].split(";")[0], "5 logs sealed: 5 same")
        oldest = ["000001", "000002", "000003", "000004"]
        same("pruned", tried.prune(on.store, "--older", "1", "-g", gone)[1], oldest)
        same("verified with pruned", tried.seal(on.store, "--verify", "-g", gone, seal)[1].split(";")[0],
            "5 logs sealed: 4 pruned, 1 same")
        same("gone", tried.seal(on.store, "--verify", seal)[1].splitlines()[:4],
            [f"00000{n} is gone" for n in (1, 2, 3, 4)])
        changed(os.path.join(store.folder_of(on.store, "000005"), "ttyout"))
        status, said = tried.seal(on.store, "--verify", "-g", gone, seal)
        same("changed", (status, said.splitlines()[0]), (4, "000005 is changed"))
        by_shell(seal)
        forged(tried, on, seal, value)


def by_shell(seal: str) -> None:
    """The first value, by sha256sum."""
    with open(seal, encoding="utf-8") as file:
        digits, _, digest, value = file.readline().split()
    text = "printf %s%s%s $(printf '' | sha256sum | cut -c-64) $1 $2 | sha256sum | cut -c-64"
    done = subprocess.run(["bash", "-c", text, "sh", digits, digest], capture_output=True, text=True, check=True)
    same("the first value", done.stdout.strip(), value)


def forged(tried: Tried, on: Guarded, seal: str, value: str) -> None:
    """A new seal of what is there has other values; a line that was changed is named."""
    status, said = tried.seal(on.store, seal + ".new")
    same("a new seal", status, 0)
    status, said = tried.seal(on.store, "--verify", "-v", value, seal + ".new")
    same("its values are others", (status, "never had the value" in said), (4, True))
    with open(seal, encoding="utf-8") as file:
        lines = file.readlines()
    with open(seal, "w", encoding="utf-8") as file:
        file.writelines([lines[0], lines[1].replace("000002", "000009"), *lines[2:]])
    status, said = tried.seal(on.store, "--verify", seal)
    same("a changed line", (status, "line 2" in said), (4, True))


def part_signed(tried: Tried) -> None:
    """The last value is signed by ssh-keygen, and the signature is verified."""
    if not shutil.which("ssh-keygen"):
        print("signed: skipped: ssh-keygen isn't there", flush=True)
        return
    with Guarded(tried.program) as on:
        on.start().sessions(1)
        here = on.place.folder
        said = tried.seal(on.store, os.path.join(here, "seal"))[1]
        with open(os.path.join(here, "value"), "w", encoding="utf-8") as file:
            file.write(said)
        make = f"cd {here} && ssh-keygen -q -t ed25519 -N '' -f key && ssh-keygen -q -Y sign -f key -n logseal value"
        make += ' && echo "auditor $(cat key.pub)" >who'
        look = "ssh-keygen -Y verify -f who -I auditor -n logseal -s value.sig <value"
        subprocess.run(["bash", "-c", make], check=True, capture_output=True)
        done = subprocess.run(["bash", "-c", f"cd {here} && {look}"], check=False, capture_output=True, text=True)
        same("verified", (done.returncode, done.stdout[:4]), (0, "Good"))


def part_to_the_journal(tried: Tried) -> None:
    """The line with the last value goes to the journal, here to a socket in its place, and verifies the seal."""
    if not shutil.which("logger"):
        print("to_the_journal: skipped: logger isn't there", flush=True)
        return
    with Guarded(tried.program) as on:
        on.start().sessions(2)
        seal, journal = (os.path.join(on.place.folder, name) for name in ("seal", "journal"))
        with socket.socket(socket.AF_UNIX, socket.SOCK_DGRAM) as heard:
            heard.bind(journal)
            heard.settimeout(PATIENCE)
            text = f"{tried.folder}/sudo-logseal -d {on.store} {seal} | logger -u {journal} -t logseal"
            subprocess.run(["bash", "-c", text], check=True, capture_output=True)
            line = heard.recv(4096).decode()
        found = re.search(r"logseal: 2 logs sealed, 2 of them now; value (\w{64})", line)
        if found is None:
            raise Differs(f"the journal has {line!r}")
        same("verified", tried.seal(on.store, "--verify", "-v", found[1], seal)[0], 0)


def part_progress(tried: Tried) -> None:
    """On a terminal a line says which log is checked, and is taken away before each line of output and at the end."""
    if not tried.check:
        return
    with Guarded(tried.program) as on:
        on.start().sessions(3)
        ours, its = pty.openpty()
        done = subprocess.run([tried.check, "-d", on.store], stdout=subprocess.PIPE, stderr=its, check=False)
        os.close(its)
        shown = shown_on(ours)
        os.close(ours)
        same("the line", shown, "\rchecking log 000001, 1 of 3\x1b[K\r\x1b[K")
        same("the lines of the logs", (done.returncode, done.stdout.count(b"\n")), (0, 4))


def shown_on(terminal: int) -> str:
    """All that a terminal shows that nobody writes to any more."""
    shown = b""
    try:
        while piece := os.read(terminal, 4096):
            shown += piece
    except OSError:
        pass
    return shown.decode()


def restarts(on: Guarded, stop: threading.Event, faults: list[str]) -> None:
    """Sessions that are cut and resumed, until it is to stop."""
    try:
        while not stop.is_set():
            time.sleep(0.05)
            link = open_log(on)
            link.send(*[client.record((10, "ttyout", b"x" * 500)) for _ in range(50)])
            digits = sorted(store.folders(on.store))[-1]
            link.close()
            for _ in range(5):
                again = on.server.connect()
                again.send(client.hello(), client.restart(digits, 5),
                    *[client.record((10, "ttyout", b"y" * 700)) for _ in range(50)])
                again.read()
                again.close()
    except (OSError, client.Closed) as fault:
        if not stop.is_set():
            faults.append(str(fault))


def part_beside_restarts(tried: Tried) -> None:
    """While sessions are cut and resumed, the check calls none damaged."""
    if not tried.check:
        return
    with Guarded(tried.program) as on:
        on.start()
        stop, faults = threading.Event(), []
        worker = threading.Thread(target=restarts, args=(on, stop, faults))
        worker.start()
        for _ in range(tried.runs):
            time.sleep(0.02)
            said, sums, status = checked.said_of(tried.check, on.store)
            bad = [line for line in said.values() if line["state"] in ("damaged", "unread")]
            if bad or status != 0:
                stop.set()
                worker.join()
                raise Differs(f"it ends with {status}: {bad}")
        stop.set()
        worker.join()
        same("faults", faults, [])


def part_beside_prune(tried: Tried) -> None:
    """While sudo-prune takes logs, the check calls none damaged or without its exit, and each has its digest."""
    if not tried.check:
        return
    with Guarded(tried.program) as on:
        on.start().sessions(1)
        on.stop()
        words = os.path.join(tried.folder, "sudo-prune"), "-d", on.store, "--older", "1"
        for _ in range(max(1, tried.runs // 5)):
            copies(on, LOGS)
            with subprocess.Popen(words, stdout=subprocess.DEVNULL, stderr=subprocess.DEVNULL) as taken:
                while taken.poll() is None:
                    looked_at(tried, on, LOGS)
            same("prune", taken.returncode, 0)


def copies(on: Guarded, numbers: int) -> None:
    """A store of this many logs, each a copy of the last one, which sudo-prune leaves."""
    digits = store.folders(on.store)[-1]
    kept = os.path.join(on.place.folder, "kept")
    shutil.rmtree(kept, ignore_errors=True)
    shutil.copytree(store.folder_of(on.store, digits), kept)
    for number in range(1, numbers + 1):
        folder = store.folder_of(on.store, store.digits_of(number))
        if not os.path.isdir(folder):
            shutil.copytree(kept, folder)
    with open(on.numbers(), "wb") as file:
        file.write(slots_text(numbers_body(numbers)))


def looked_at(tried: Tried, on: Guarded, numbers: int) -> None:
    """A check beside sudo-prune: each log is complete or absent."""
    said, sums, status = checked.said_of(tried.check, on.store, "--digest")
    bad = [line for line in said.values() if line["state"] not in ("complete", "absent")
        or line["state"] == "complete" and ("digest" not in line or "exit_value" not in line)]
    if bad or status != 0 or len(said) != numbers:
        raise Differs(f"it ends with {status}, says something of {len(said)} logs, and of these: {bad}")


def part_events(tried: Tried) -> None:
    """The event logs of a server with two lanes are sound beside it; a line that is changed, or cut, is named."""
    if not tried.check:
        return
    with Guarded(tried.program, further=["--lanes", "2"]) as on:
        on.start().sessions(6)
        logs = {digits: store.read_log(on.store, digits) for digits in store.folders(on.store)}
        same("beside the server", list(checked.faults_of(tried.check, on.store, logs, on.events)), [])
        on.stop()
        changed(on.events)
        lines, _, status = checked.lines_of(tried.check, on.store, "-e", on.events)
        faults = [line.get("fault") for line in lines if "events" in line]
        same("a line that is changed", (status, faults), (4, ["line", None]))
        changed(on.events)
        os.truncate(on.events + ".1", os.path.getsize(on.events + ".1") - 1)
        lines, _, status = checked.lines_of(tried.check, on.store, "-q", "-e", on.events)
        same("one that is cut", (status, [(line["events"], line["fault"]) for line in lines]), (4, [(1, "short")]))


def part_numbers(tried: Tried) -> None:
    """A damaged number file is named, and so is one that can't be read; a log that is named is checked."""
    if not tried.check:
        return
    with Guarded(tried.program) as on:
        on.start().sessions(2)
        on.stop()
        with open(on.numbers(), "wb") as file:
            file.write(slots_text(numbers_body(2, 1, 2)))
        same("damaged", said_of_numbers(tried, on.store, "seq2: it is damaged"), (4, ['{"numbers":"damaged"}'], True))
        os.unlink(on.numbers())
        os.mkdir(on.numbers())
        same("unread", said_of_numbers(tried, on.store, "seq2: read"), (5, ['{"numbers":"unread"}'], True))


def said_of_numbers(tried: Tried, folder: str, cause: str) -> tuple[int, list[str], bool]:
    """The status of a check of a store whose number file has a fault, its lines, and whether it says why each time."""
    whole, named = (subprocess.run([tried.check, "-q", "--json", "-d", folder, *ids], capture_output=True, text=True,
        check=False) for ids in ([], ["000001"]))
    lines = named.stdout.splitlines()
    same("its log by ID", (named.returncode, lines[-1][:21]), (whole.returncode, '{"sums":{"absent":0,"'))
    same("the line of the numbers", lines[:-1], whole.stdout.splitlines())
    return whole.returncode, lines[:-1], cause in whole.stderr and cause in named.stderr


def part_many(tried: Tried) -> None:
    """A store of many logs, in memory if there is such a folder, is checked."""
    if not tried.many or not tried.check:
        return
    memory = "/dev/shm" if os.path.isdir("/dev/shm") else None
    with Guarded(tried.program, parent=memory) as on:
        on.start().sessions(1)
        on.stop()
        first = store.folder_of(on.store, "000001")
        for number in range(2, tried.many + 1):
            folder = store.folder_of(on.store, store.digits_of(number))
            os.makedirs(folder)
            for name in os.listdir(first):
                shutil.copyfile(os.path.join(first, name), os.path.join(folder, name))
        with open(on.numbers(), "wb") as file:
            file.write(slots_text(numbers_body(tried.many)))
        began = time.monotonic()
        _, sums, status = checked.said_of(tried.check, on.store)
        print(f"{tried.many} logs in {time.monotonic() - began:.2f} s", flush=True)
        same("all are complete", (status, sums["complete"]), (0, tried.many))


def main() -> int:
    """Tries all parts."""
    words = argparse.ArgumentParser(description=__doc__, formatter_class=argparse.RawDescriptionHelpFormatter)
    words.add_argument("program")
    words.add_argument("replay")
    words.add_argument("logcheck", nargs="?")
    words.add_argument("--runs", type=int, default=20)
    words.add_argument("--many", type=int, default=0)
    tried, count, differ = Tried(words.parse_args()), 0, 0
    for name, part in sorted(globals().items()):
        if name.startswith("part_"):
            count += 1
            try:
                part(tried)
            except (Differs, OSError, LookupError, ValueError, client.Closed, subprocess.SubprocessError) as fault:
                differ += 1
                print(f"{name[5:]}: {fault}" if isinstance(fault, Differs) else f"{name[5:]}: {traceback.format_exc()}")
    shutil.rmtree(tried.folder)
    print(f"prune.py: {count} tried, {differ} differ")
    return 1 if differ else 0


if __name__ == "__main__":
    sys.exit(main())
