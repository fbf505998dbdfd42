#!/usr/bin/env python3
"""Tries the edge of the programs: few descriptors, folders and descriptors of other kinds, addresses, refused links.

usage: edge.py --server PROGRAM --replay REPLAY [--only WORD]

PROGRAM is sudo_logsrvd, REPLAY sudoreplay. What needs root, strace or a namespace is skipped with a word where that
isn't there. It ends with 1 where something differs.
"""
from __future__ import annotations

import argparse
import contextlib
import ctypes
import fcntl
import json
import os
import resource
import shutil
import socket
import struct
import subprocess
import sys
import threading
import time
import traceback
from collections.abc import Callable, Sequence

import client
import servers
import store
from guards import ACCEPT, MARK, Guarded, limit_of, session, session_in_turn
from oracle.connection import PATIENCE
from oracle.waits import Late, until
from parts import Skipped
from trial import SECOND, Differs, same

NOBODY = 65534
NEW_NET, NEW_NS = 0x40000000, 0x00020000
# the state of a socket that listens, in /proc/net/tcp
LISTENS = "0A"
# for how many seconds a client that was refused is read on
LEAVING = 2
STRACE = ["strace", "-D", "-f", "-qq", "-o", "/dev/null"]


def faultless(on: Guarded, told: int = 0) -> None:
    """Nothing was said of a fault."""
    said = on.place.said()[told:]
    same(f"faults: {said[-500:]!r}", any(word in said for word in ("os error", "device fault", "other error")), False)


def part_many_sessions_few_descriptors(program: str, _: str) -> None:
    """500 sessions under a limit of 256 descriptors: none ends by a fault of the device."""
    with Guarded(program) as on:
        on.server.before = limit_of(256)
        on.start()
        same("identifiers", on.sessions_in_turn(400)[-1], "0000B4")
        differ = []
        threads = [threading.Thread(target=lambda: differ.append(tried(on))) for _ in range(100)]
        for thread in threads:
            thread.start()
        for thread in threads:
            thread.join()
        same("sessions that failed", [it for it in differ if it], [])
        faultless(on)
        last = store.numbers(on.store)
        same("the last number", last[0] if isinstance(last, tuple) else last, 500)


def tried(on: Guarded) -> str | None:
    """A whole session; what went wrong."""
    try:
        session_in_turn(on.server)
    except (Differs, client.Closed, TimeoutError, OSError) as fault:
        return str(fault) or type(fault).__name__
    return None


def part_limit_lowered_while_it_runs(program: str, _: str) -> None:
    """Another program lowers the limit to what is open: the files that were not used for longest are closed."""
    with Guarded(program) as on:
        on.start().sessions(30)
        pid = on.server.process.pid
        # a limit is of the numbers of descriptors: one that is closed has to be below it
        limit = max(map(int, os.listdir(f"/proc/{pid}/fd"))) + 2
        told = len(on.place.said())
        resource.prlimit(pid, resource.RLIMIT_NOFILE, (limit, limit))
        on.sessions(30)
        faultless(on, told)


def part_folders_without_a_sync(program: str, _: str) -> None:
    """A store below folders whose file system knows no sync of folders: one is mounted in a folder of /sys."""
    place = "/sys/kernel/debug"
    if os.geteuid() != 0 or not os.path.isdir(place):
        raise Skipped("as root alone, with /sys")
    with Guarded(program) as on:
        on.place.store, on.place.events = place + "/logs", place + "/events"
        with open(on.place.conf, "w", encoding="utf-8") as file:
            text = servers.OURS.format(port=on.place.port, folder=place)
            file.write(text.replace(place + "/store", place + "/logs"))
        on.server.before = lambda: in_namespace(NEW_NS, lambda: mount("tmpfs", place, "tmpfs"))
        on.start()
        same("identifiers", on.sessions(2), ["000001", "000002"])
        faultless(on)


def part_store_without_a_sync_of_folders(program: str, _: str) -> None:
    """The folder of the logs itself knows no sync: the store is refused at the start, and not each session."""
    with Guarded(program) as on:
        on.start().sessions(1)
        on.stop()
        os.mkdir(os.path.join(on.place.folder, "kept"))
        words = [*STRACE, "-P", on.store, "-e", "trace=fsync", "-e", "inject=fsync:error=EINVAL"]
        said = ended_under(words, on, "serve")
        if f"{on.store}: sync: Invalid argument" not in said:
            raise Differs(said)


def ended_under(words: Sequence[str], on: Guarded, command: str) -> str:
    """What a server says that ends by itself, run by other words in front."""
    if not shutil.which(words[0]):
        raise Skipped(f"without {words[0]}")
    words = [*words, on.program, command, "-f", on.place.conf]
    return subprocess.run(words, stdin=subprocess.DEVNULL, capture_output=True, text=True, check=False,
        timeout=PATIENCE).stderr


def part_reads_that_a_signal_interrupts(program: str, replay: str) -> None:
    """A read of a file that a signal interrupted is tried again."""
    if not shutil.which("strace"):
        raise Skipped("without strace")
    with Guarded(program) as on:
        on.start().sessions(2)
        on.stop()
        # the loader reads twice before the program begins
        words = [*STRACE, "-e", "trace=pread64", "-e", "inject=pread64:error=EINTR:when=3+2"]
        child = subprocess.run([*words, replay, "-d", on.store, "-m", "0", "000001"], stdin=subprocess.DEVNULL,
            capture_output=True, check=False, timeout=PATIENCE)
        same("what is played", (child.returncode, child.stdout, child.stderr), (0, MARK, b""))
        with open(on.place.errors, "ab") as errors:
            words = [*words, program, "serve", "-f", on.place.conf]
            on.server.process = subprocess.Popen(words, stdin=subprocess.DEVNULL, stderr=errors)
        await_listening(on)
        same("the next log", on.sessions(1), ["000003"])
        faultless(on)


def await_listening(on: Guarded) -> None:
    """Waits until a server takes connections."""
    until("the server takes connections", lambda: takes_one(on) or on.server.has_ended())
    if on.server.has_ended():
        raise Differs(f"the server has ended: {on.server.seen()}")


def takes_one(on: Guarded) -> bool:
    """Whether a server takes a connection."""
    try:
        on.server.connect().close()
        return True
    except OSError:
        return False


def part_all_addresses(program: str, _: str) -> None:
    """`*` serves both families, whatever the system's default for sockets of IPv6 is."""
    if os.geteuid() != 0:
        raise Skipped("as root alone")
    for only in ("0", "1"):
        with Guarded(program) as on:
            with open(on.place.conf, encoding="utf-8") as file:
                text = file.read().replace("127.0.0.1", "*")
            with open(on.place.conf, "w", encoding="utf-8") as file:
                file.write(text)
            answers = in_child(lambda: both_families(on, only))
            same(f"answers with bindv6only = {only}", answers, "hello log_id hello log_id")


def both_families(on: Guarded, only: str) -> str:
    """Starts a server in a network of its own, and stores a session over each family."""
    in_namespace(NEW_NET, set_loopback_up)
    if not os.path.exists("/proc/sys/net/ipv6/bindv6only"):
        raise Skipped("without IPv6")
    with open("/proc/sys/net/ipv6/bindv6only", "w", encoding="utf-8") as file:
        file.write(only)
    on.start()
    names = []
    try:
        for host in ("127.0.0.1", "::1"):
            link = client.Connection(socket.create_connection((host, on.place.port), PATIENCE))
            link.send(client.hello(), ACCEPT)
            names += [link.read()[0], link.read()[0]]
            link.close()
    finally:
        on.stop()
    return " ".join(names)


def in_child(what: Callable[[], str]) -> str:
    """What a function gives in a process of its own."""
    reader, writer = os.pipe()
    child = os.fork()
    if child == 0:
        try:
            answer = what()
        except Exception as fault:  # pylint: disable=broad-except
            answer = f"{type(fault).__name__}: {fault}"
        os.write(writer, answer.encode())
        os._exit(0)
    os.close(writer)
    with os.fdopen(reader, encoding="utf-8") as file:
        answer = file.read()
    os.waitpid(child, 0)
    return answer


def in_namespace(kind: int, what: Callable[[], None]) -> None:
    """Does something in a namespace of this process's own, in which it then stays."""
    libc = ctypes.CDLL(None, use_errno=True)
    if libc.unshare(kind) != 0:
        raise OSError(ctypes.get_errno(), "unshare")
    what()


def mount(kind: str, place: str, source: str, options: str = "") -> None:
    """Mounts a file system, which no other namespace sees."""
    libc = ctypes.CDLL(None, use_errno=True)
    private = 0x44000
    words = (source.encode(), place.encode(), kind.encode(), 0, options.encode() or None)
    if libc.mount(b"none", b"/", None, private, None) or libc.mount(*words):
        raise OSError(ctypes.get_errno(), "mount")


def set_loopback_up() -> None:
    """Brings up the loopback of a new network."""
    with socket.socket(socket.AF_INET, socket.SOCK_DGRAM) as link:
        fcntl.ioctl(link, 0x8914, struct.pack("16sH14s", b"lo", 1, b""))


def become_nobody() -> None:
    """Is done in a process before it becomes a server."""
    os.setgid(NOBODY)
    os.setgroups([])
    os.setuid(NOBODY)


def part_store_of_another_user(program: str, _: str) -> None:
    """Root runs a server and a relay on nobody's store: the server says it, and the relay changes nothing. What root's
    server made is named when nobody's starts again."""
    if os.geteuid() != 0:
        raise Skipped("as root alone")
    with Guarded(program) as on:
        for path in (on.above, on.place.folder):
            os.chmod(path, 0o711)
        copy = shutil.copy(program, on.above)
        os.chmod(copy, 0o755)
        os.chown(on.place.folder, NOBODY, NOBODY)
        os.chown(on.place.conf, NOBODY, NOBODY)
        on.server.program, on.server.before = copy, become_nobody
        on.start().sessions(1)
        on.stop()
        with open(on.place.conf, "a", encoding="utf-8") as file:
            file.write("[relay]\nrelay_host = 127.0.0.1:1\nstore_first = true\n")
        before = on.contents()
        done = subprocess.run([program, "relay", "-f", on.place.conf], stdin=subprocess.DEVNULL, capture_output=True,
            text=True, check=False, timeout=PATIENCE)
        words = f"{on.store}: user {NOBODY} owns this store, and user 0 runs the relay: nothing is changed"
        same(f"the relay, which says {done.stderr!r}", (done.returncode, words in done.stderr), (4, True))
        same("files", on.contents(), before)
        on.server.before = None
        for before, words in ((None, f"{on.store}: warning: user {NOBODY} owns this store, and user 0 runs this"),
                (become_nobody, f"{store.folder_of(on.store, '000002')}: warning: user 0 owns this folder of logs")):
            told = len(on.place.said())
            on.server.before = before
            on.server.start()
            on.sessions(1)
            on.stop()
            same(f"{words} in {on.place.said()[told:]!r}", words in on.place.said()[told:], True)


def part_full_event_log(program: str, _: str) -> None:
    """The file system of the event log is full in the midst of a line: nothing of the line stays, and whoever follows
    the log sees each line after it."""
    if os.geteuid() != 0:
        raise Skipped("as root alone")
    for lanes in (1, 2):
        with Guarded(program, further=("--lanes", str(lanes))) as on:
            same(f"what {lanes} lanes do", in_child(lambda on=on: full_event_log(on)), "")


def full_event_log(on: Guarded) -> str:
    """Fills the file system of an event log, makes room, and goes on."""
    folder = os.path.join(on.place.folder, "lines")
    os.mkdir(folder)
    in_namespace(NEW_NS, lambda: mount("tmpfs", folder, "tmpfs", "size=64k"))
    with open(on.place.conf, encoding="utf-8") as file:
        text = file.read().replace(on.events, f"{folder}/events")
    with open(on.place.conf, "w", encoding="utf-8") as file:
        file.write(text)
    filler = os.path.join(folder, "filler")
    with open(filler, "wb") as file:
        file.write(bytes(32 * 1024))
    on.start()
    names = [name for name in sorted(os.listdir(folder)) if name.startswith("events") and "slots" not in name]
    logs = [os.path.join(folder, name) for name in names]
    shown = os.path.join(on.place.folder, "shown")
    with open(shown, "wb") as out:
        follower = subprocess.Popen(["tail", "-q", "-n", "+1", "-F", *logs], stdout=out, stderr=subprocess.DEVNULL)
    on.running.append(follower)
    for _ in range(400):
        session(on.server.connect())
        if on.place.said().count("write: No space left on device") >= 4:
            break
    same("whether it was full", on.place.said().count("write: No space left on device") >= 4, True)
    for path in logs:
        check_lines(path)
    # so that tail has seen the end before more follows
    time.sleep(1)
    os.remove(filler)
    given = [session(on.server.connect()) for _ in range(8)]
    for path in logs:
        check_lines(path)
    try:
        until("tail -F shows each line", lambda: not missed(shown, given))
    except Late:
        return f"tail -F doesn't show {missed(shown, given)}"
    finally:
        follower.kill()
        follower.wait()
        on.stop()
    return ""


def part_event_log_after_a_failed_sync(program: str, _: str) -> None:
    """A sync of the event log, or of its journal, fails: what isn't counted is moved to a file beside it before the
    next line is written, and the lines after it stand at the end of the log."""
    if not shutil.which("strace"):
        raise Skipped("without strace")
    for end in ("", ".slots"):
        with Guarded(program) as on:
            on.start().sessions(2)
            on.stop()
            injected = ["-P", on.events + end, "-e", "trace=fdatasync", "-e", "inject=fdatasync:error=EIO:when=4"]
            with open(on.place.errors, "ab") as errors:
                words = [*STRACE, *injected, program, "serve", "-f", on.place.conf]
                on.server.process = subprocess.Popen(words, stdin=subprocess.DEVNULL, stderr=errors)
            await_listening(on)
            given = [session(on.server.connect()) for _ in range(8)]
            if "sync: Input/output error" not in on.place.said():
                raise Differs(f"no sync of {on.events + end} failed: {on.place.said()[-500:]}")
            check_lines(on.events)
            same(f"what is said of {end or 'the lines'}", on.place.said().count("were moved to"), 1)
            with open(on.events, encoding="utf-8") as file:
                same("the last log", given[-1] in file.read().splitlines()[-1], True)
            on.stop()
            said = len(on.place.said())
            on.server.start()
            same("what is said at the next start", on.place.said()[said:].count("\n"), 1)


def missed(shown: str, given: Sequence[str]) -> list[str]:
    """The identifiers of which what was shown has no exit."""
    with open(shown, encoding="utf-8") as file:
        lines = [line for line in file if '"exit"' in line]
    return [digits for digits in given if not any(digits in line for line in lines)]


def check_lines(path: str) -> None:
    """An event log has whole lines alone."""
    with open(path, "rb") as file:
        data = file.read()
    same(f"the end of {path}", data[-1:], b"\n")
    for line in data.splitlines():
        json.loads(line)


def part_descriptors_that_do_not_block(program: str, replay: str) -> None:
    """Standard input and output of `once`, and standard output of sudoreplay, don't block: they are waited for."""
    with Guarded(program) as on:
        ours, theirs = socket.socketpair()
        theirs.setblocking(False)
        with open(on.place.errors, "ab") as errors, theirs:
            child = subprocess.Popen([program, "once", "-f", on.place.conf], stdin=theirs.fileno(),
                stdout=theirs.fileno(), stderr=errors)
        on.running.append(child)
        link = client.Connection(ours)
        same("the answer", link.read()[0], "hello")
        time.sleep(0.3)
        link.send(client.hello(), ACCEPT)
        same("the answer", link.read(), ("log_id", "000001"))
        time.sleep(0.1)
        text = MARK * 100_000
        link.send(client.record((5, "ttyout", text)), client.exited(SECOND))
        link.rest()
        link.close()
        same("status", child.wait(PATIENCE), 0)
        reader, writer = os.pipe()
        os.set_blocking(writer, False)
        child = subprocess.Popen([replay, "-d", on.store, "-m", "0", "000001"], stdin=subprocess.DEVNULL,
            stdout=writer, stderr=subprocess.PIPE)
        os.close(writer)
        time.sleep(0.3)
        with os.fdopen(reader, "rb") as file:
            shown = file.read()
        ended = (len(shown), shown == text, child.wait(PATIENCE), child.stderr.read())
        same("what was played", ended, (len(text), True, 0, b""))
        child.stderr.close()


def part_refused_client_reads_its_error(program: str, _: str) -> None:
    """A client that goes on sending gets its error and then the end, and no reset."""
    with Guarded(program) as on:
        on.start()
        record = client.record((5, "ttyout", bytes(1000)))
        tried = 0
        for _ in range(200):
            end, heard, pause = refused_while_it_sends(on, record)
            # one that the system kept from its processor for as long as a server waits for it says nothing
            if pause < LEAVING / 2:
                same("the end", end, "the end")
                same("the error", b"unexpected message" in heard, True)
                tried += 1
            if tried == 20:
                break
        same("clients that went on sending", tried, 20)
        on.sessions(1)
        # and one that never ends is let go
        link = client.connect(on.place.port)
        link.send(client.hello(), ACCEPT, client.restart("000001", 5))
        same("the error", link.rest()[-1:], [("error", "unexpected message")])
        until("a client that never ends is let go", lambda: not sockets_of(on.server.process.pid, on.place.port))
        link.close()


def refused_while_it_sends(on: Guarded, record: bytes) -> tuple[str, bytes, float]:
    """A client that is refused, and goes on sending: how its connection ends, what it hears, and its longest pause."""
    link = socket.create_connection(("127.0.0.1", on.place.port), timeout=PATIENCE)
    link.sendall(client.hello() + ACCEPT + client.restart("000001", 5) + record * 100)
    heard, pause, now = b"", 0.0, time.monotonic()
    last = now + PATIENCE
    try:
        while now < last:
            time.sleep(0.0005)
            link.sendall(record)
            piece = heard_at_once(link)
            pause, now = max(pause, time.monotonic() - now), time.monotonic()
            if piece == b"":
                return "the end", heard, pause
            heard += piece or b""
        return f"no end after {PATIENCE:.0f} s", heard, pause
    except ConnectionError as fault:
        return str(fault), heard, max(pause, time.monotonic() - now)
    finally:
        link.close()


def sockets_of(pid: int, port: int) -> list[str]:
    """The connections at a port that a process has open."""
    with open("/proc/net/tcp", encoding="ascii") as file:
        rows = [line.split() for line in file.readlines()[1:]]
    at_port = {row[9] for row in rows if row[1].endswith(f":{port:04X}") and row[3] != LISTENS}
    names = []
    for number in os.listdir(f"/proc/{pid}/fd"):
        # one may be closed meanwhile
        with contextlib.suppress(FileNotFoundError):
            names.append(os.readlink(f"/proc/{pid}/fd/{number}"))
    return [name for name in names if name.removeprefix("socket:[").removesuffix("]") in at_port]


def part_held_link_costs_no_turns(program: str, _: str) -> None:
    """A client that sends and never reads isn't read on, and the server rests while nothing can move."""
    if os.geteuid() != 0:
        raise Skipped("as root alone")
    with Guarded(program, parent="/dev/shm") as on:
        same("turns of a second in which nothing moves", in_child(lambda: turns_of_a_held_link(on)), "few")


def turns_of_a_held_link(on: Guarded) -> str:
    """How often the server sleeps while a client reads none of its commit points, in a network with short buffers."""
    in_namespace(NEW_NET, set_loopback_up)
    for name in ("rmem", "wmem"):
        with open(f"/proc/sys/net/ipv4/tcp_{name}", "w", encoding="utf-8") as file:
            file.write("4096 8192 8192")
    on.start()
    link = socket.create_connection(("127.0.0.1", on.place.port), timeout=PATIENCE)
    link.sendall(client.hello() + ACCEPT)
    link.setblocking(False)
    record = client.record((5, "ttyout", MARK))
    ends, left = time.monotonic() + PATIENCE, b""
    while time.monotonic() < ends:
        left = sent_until_held(link, left, record, ends)
        before, began = sleeps_of(on.server.process.pid), time.monotonic()
        time.sleep(2)
        turns = round((sleeps_of(on.server.process.pid) - before) / (time.monotonic() - began))
        try:
            # a link that takes more was not held, and its server was slow
            left = left[link.send(left):]
        except BlockingIOError:
            link.close()
            on.stop()
            return "few" if turns <= 100 else str(turns)
    return f"not held after {PATIENCE:.0f} s; {on.server.seen()}"


def sent_until_held(link: socket.socket, left: bytes, record: bytes, ends: float) -> bytes:
    """Sends records until none is taken for a second. Gives what is left of the last one."""
    refused_since = None
    while time.monotonic() < ends and (refused_since is None or time.monotonic() - refused_since < 1):
        left = left or record
        try:
            left = left[link.send(left):]
            refused_since = None
            time.sleep(0.0001)
        except BlockingIOError:
            refused_since = refused_since or time.monotonic()
            time.sleep(0.01)
    return left


def sleeps_of(pid: int) -> int:
    """How often a process has given up the processor by itself."""
    with open(f"/proc/{pid}/status", encoding="utf-8") as file:
        return next(int(line.split()[1]) for line in file if line.startswith("voluntary_ctxt_switches"))


def heard_at_once(link: socket.socket) -> bytes | None:
    """What has come, None if nothing has."""
    try:
        return link.recv(65536, socket.MSG_DONTWAIT)
    except BlockingIOError:
        return None


def main() -> int:
    """Tries all parts."""
    words = argparse.ArgumentParser(description=__doc__, formatter_class=argparse.RawDescriptionHelpFormatter)
    words.add_argument("--server", required=True)
    words.add_argument("--replay", required=True)
    words.add_argument("--only", default="")
    args = words.parse_args()
    count = differ = 0
    for name, part in list(globals().items()):
        if not name.startswith("part_") or args.only not in name:
            continue
        count += 1
        try:
            part(os.path.realpath(args.server), os.path.realpath(args.replay))
        except Skipped as fault:
            print(f"{name[5:]}: skipped: {fault}", flush=True)
        except (Differs, client.Closed, servers.Failed, store.Damaged, TimeoutError) as fault:
            differ += 1
            print(f"{name[5:]}: {str(fault) or type(fault).__name__}"[:2000], flush=True)
        except Exception:  # pylint: disable=broad-except
            differ += 1
            print(f"{name[5:]}: {traceback.format_exc()}", flush=True)
    print(f"edge.py: {count} tried, {differ} differ")
    return 1 if differ else 0


if __name__ == "__main__":
    sys.exit(main())
