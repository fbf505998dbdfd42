#!/usr/bin/env python3
"""Measures `sudo_logsrvd once` on generated sessions, over a store on /dev/shm, and the messages alone.

usage: bench.py PROGRAM MESSAGES

For each load it prints the processor time a message, the bytes of input a second, and the peak of
memory. A tenth of each load is run too: the ratio of the
processor times shows that the cost is linear. Then come messages of the greatest size that hold as
many parts as fit, with one of half the size beside each. MESSAGES (lsvt_bench) reads and writes one
message a million times, lays a million records and reads them back, masks them, writes the lines of
an event, and flushes a bundle and makes, fills, opens and finishes logs in a store in the folder that
it is run in. The syncs of a log are counted by strace, where it is there.
"""
from __future__ import annotations

import argparse
import os
import resource
import shutil
import statistics
import subprocess
import sys
import tempfile
import time
from collections.abc import Iterable, Iterator

import at_root
from oracle import messages
from oracle.wire import LARGEST, field, frame

LOADS = [(1_000_000, 10, 0.15), (100_000, 1_000, 1.0)]
RUNS = 5
BATCH = 100
# logs of a run, and runs of each way, where their making is measured: medians of 12 runs differ by a tenth
MADE = 40
MAKINGS = 60
CROWDS = [("empty entries", b"\x12\0"), ("entries of the number 0", b"\x12\x02\x10\0")]

# Settings whose store stands where the program runs.
CONF = os.path.join(os.path.dirname(os.path.abspath(__file__)), "../crates/sudo_logsrvd/data/conf")


INFO = {"command": "/bin/ls", "runuser": "root", "submituser": "ann", "submithost": "web1"}


def session(count: int, size: int) -> Iterator[bytes]:
    """The client's bytes of a session with so many records of terminal output of so many bytes."""
    yield frame(messages.hello("sudo"))
    yield frame(messages.accept(0, INFO))
    record = frame(messages.record((1_000_000, "ttyout", b"x" * size)))
    batch = 10_000
    for _ in range(count // batch):
        yield record * batch
    yield record * (count % batch)
    yield frame(messages.exited(0))


def watched(pid: int) -> tuple[int, int, resource.struct_rusage]:
    """The peak memory in bytes, as the system showed it last before the end, the status, and the usage of a process.
    The peak of the usage is also that of the Python process which started it."""
    peak = 0
    while True:
        try:
            with open(f"/proc/{pid}/status") as file:
                peak = max([peak] + [int(line.split()[1]) * 1024 for line in file if line.startswith("VmHWM")])
        except OSError:
            pass
        done, status, usage = os.wait4(pid, os.WNOHANG)
        if done:
            return peak, status, usage
        time.sleep(0.001)


def run(program: str, path: str) -> tuple[float, int]:
    """The processor seconds and the peak memory in bytes of one run."""
    folder = tempfile.mkdtemp(dir="/dev/shm")
    try:
        with open(path, "rb") as source:
            child = subprocess.Popen([program, "once", "-f", CONF], stdin=source, stdout=subprocess.DEVNULL, cwd=folder)
            peak, status, usage = watched(child.pid)
        if status != 0:
            sys.exit(f"bench: the program ended with status {status}")
        return usage.ru_utime + usage.ru_stime, peak
    finally:
        shutil.rmtree(folder)


def measured(program: str, parts: Iterable[bytes], runs: int = RUNS) -> tuple[float, int, int]:
    """The least processor seconds, the greatest peak of memory, and the bytes of the input."""
    with tempfile.NamedTemporaryFile(dir="/dev/shm") as source:
        for part in parts:
            source.write(part)
        source.flush()
        length = source.tell()
        results = [run(program, source.name) for _ in range(runs)]
    return min(r[0] for r in results), max(r[1] for r in results), length


def crowded(part: bytes, size: int) -> Iterator[bytes]:
    """An accept of at most so many bytes, which holds this part as often as it fits."""
    room = size - len(field(1, b"x" * size)) + size
    yield frame(field(1, part * (room // len(part))))


def measure_sessions(program: str) -> None:
    """Sessions of small and of large records."""
    for count, size, most in LOADS:
        small, _, _ = measured(program, session(count // 10, size))
        seconds, memory, length = measured(program, session(count, size))
        each = seconds / count * 1e6
        print(f"{count} messages of {size} bytes: {each:.3f} us a message (at most {most}), "
              f"{length / seconds / 1e6:.0f} MB a second, {memory / 2**20:.1f} MiB at most; "
              f"a tenth of them takes 1/{seconds / small:.1f} of the time")


def measure_crowds(program: str) -> None:
    """Messages of many parts."""
    for what, part in CROWDS:
        half, half_memory, _ = measured(program, crowded(part, LARGEST // 2))
        seconds, memory, length = measured(program, crowded(part, LARGEST))
        print(f"a message of {length} bytes, made of {what}: {seconds * 1e3:.1f} ms, {memory / 2**20:.1f} MiB; "
              f"half of it takes {half * 1e3:.1f} ms, {half_memory / 2**20:.1f} MiB")


def measure_messages(meter: str) -> None:
    """Single messages, lines and masks."""
    measures = [
        ("decode", "reading terminal output of 10 bytes", 0.09),
        ("decode-large", "reading terminal output of 1,000 bytes", 0.15),
        ("encode", "writing terminal output of 10 bytes", 0.15),
        ("points", "putting a commit point into a kept buffer", 0.03),
        ("lines", "putting a line of timing into a kept buffer", 0.03),
        ("mask", "terminal output of 1,000 bytes through a mask of two prompts", 0.5),
        ("mask-other", "1,000 bytes of another stream through it", 0.01),
        ("sudo-line", "the line of an event in sudo's style, of 197 bytes", 1),
        ("json-line", "its line as JSON", None),
    ]
    for word, what, most in measures:
        times = []
        for _ in range(RUNS):
            child = subprocess.Popen([meter, word], stdout=subprocess.DEVNULL)
            _, status, usage = os.wait4(child.pid, 0)
            if status != 0:
                sys.exit(f"bench: {word} ended with status {status}")
            times.append(usage.ru_utime + usage.ru_stime)
        print(f"{what}: {min(times):.3f} us" + (f" (at most {most})" if most else ""))


def measure_records(meter: str) -> None:
    """Records that are laid and read."""
    laying, reading = [], []
    for _ in range(RUNS):
        child = subprocess.run([meter, "records"], stdout=subprocess.DEVNULL, stderr=subprocess.PIPE, text=True)
        if child.returncode != 0:
            sys.exit(f"bench: records ended with status {child.returncode}")
        laid, read = (int(it) for it in child.stderr.split())
        laying.append(laid)
        reading.append(read)
    print(f"1000000 records of 10 bytes: {min(laying) / 1e9:.3f} us a record to lay them (at most 0.2), "
          f"{min(reading) / 1e9:.3f} us a record to read them (at most 0.2)")


def numbers_of(folder: str, *words: str) -> tuple[int, int, int]:
    """The two numbers that a program in this folder says on standard error, and the one that it prints."""
    child = subprocess.run(words, cwd=folder, capture_output=True, text=True)
    if child.returncode != 0:
        sys.exit(f"bench: {' '.join(words[1:])} ended with status {child.returncode}")
    first, second = (int(it) for it in child.stderr.split())
    return first, second, int(child.stdout)


def timed_flushes(meter: str, word: str, times: int, place: str) -> tuple[int, int, int]:
    """The nanoseconds of all flushes, those beside them, and how many flushes there were."""
    folder = tempfile.mkdtemp(dir=place)
    try:
        return numbers_of(folder, meter, word, str(times))
    finally:
        shutil.rmtree(folder)


def measure_flushes(meter: str) -> None:
    """Flushes on disk and in memory."""
    runs = [timed_flushes(meter, "flush", 2_000, ".") for _ in range(RUNS)]
    flushing, writing, count = min(r[0] for r in runs), min(r[1] for r in runs), runs[0][2]
    print(f"flushes of two data files on disk: {count / flushing * 1e9:.0f} a second, "
          f"{writing / flushing:.2f} of the rate of their four writes and syncs alone, "
          f"{count / writing * 1e9:.0f} a second (at least 0.95)")
    flushing, writing, count = min(timed_flushes(meter, "flush", 100_000, "/dev/shm") for _ in range(RUNS))
    print(f"flushes of 100 bytes on /dev/shm: {flushing / count / 1e3:.2f} us each (at most 3), "
          f"and the calls of each alone {writing / count / 1e3:.2f}")


def making(meter: str) -> tuple[str, float]:
    """The microseconds of the log in the middle, of so many that are made in a new folder.

    The folder stays until all are measured: a mass delete on a disk makes the next files slow.
    """
    folder = tempfile.mkdtemp(dir=".")
    child = subprocess.run([meter, "make", str(MADE)], cwd=folder, capture_output=True, text=True)
    if child.returncode != 0:
        shutil.rmtree(folder)
        sys.exit(f"bench: make ended with status {child.returncode}")
    return folder, int(child.stderr) / 1e3


def sync_folder(path: str) -> None:
    """Syncs a folder."""
    opened = os.open(path, os.O_RDONLY)
    os.fsync(opened)
    os.close(opened)


def make_folders(root: str, number: int) -> str:
    """The folder of a log, and those above it, each with a sync of the one that it is in."""
    folder = root
    for name in ("alone", "a", "b", str(number)):
        above, folder = folder, os.path.join(folder, name)
        try:
            os.mkdir(folder)
        except FileExistsError:
            pass
        sync_folder(above)
    return folder


def make_alone(root: str, number: int, kept: list[int]) -> None:
    """The nine files of a log in a folder of their own, with a sync of each thing, as this store's first version did.

    It synced four folders above, each file and the folder after it, and four writes. That is 26 syncs, and 9 more once
    it had more files than the 64 that it kept open, since each that it closed was synced.
    """
    folder = make_folders(root, number)
    for name in ("log.json", "exit.json", "timing", "stdin", "stdout", "stderr", "ttyin", "ttyout", "slots"):
        path = os.path.join(folder, name)
        if os.path.exists(path):
            sys.exit(f"bench: {path} is there")
        kept.append(os.open(path, os.O_CREAT | os.O_EXCL | os.O_RDWR, 0o666))
        os.fsync(kept[-1])
        sync_folder(folder)
        if len(kept) > 64:
            os.fdatasync(kept[0])
            os.close(kept.pop(0))
    for file, at, text in ((-1, 0, b"\0"), (-9, 0, b"x" * 277), (-1, 1, bytes(90)), (-1, 0, b"\1")):
        os.pwrite(kept[file], text, at)
        os.fdatasync(kept[file])


def making_first() -> tuple[str, float]:
    """The same of logs that are made as the first version did.

    The calls are made here: what Python adds to 35 syncs is little.
    """
    folder, took = tempfile.mkdtemp(dir="."), []
    kept: list[int] = []
    for number in range(MADE):
        start = time.perf_counter_ns()
        make_alone(folder, number, kept)
        took.append(time.perf_counter_ns() - start)
    for file in kept:
        os.close(file)
    return folder, sorted(took)[MADE // 2] / 1e3


def measure_making(meter: str) -> None:
    """Each way by itself, in runs that take turns, since no server makes logs both ways.

    Measure on an idle machine: what others write makes a round worth nothing. Between runs the disk gets a rest,
    since it may hold back who syncs some hundred times in a row.
    """
    ways = {"ours": lambda: making(meter), "first": making_first}
    took, folders = {way: [] for way in ways}, []
    os.sync()
    time.sleep(2)
    try:
        for turn in range(MAKINGS):
            for way in ways if turn % 2 else reversed(ways):
                folder, each = ways[way]()
                folders.append(folder)
                took[way].append(each)
                time.sleep(0.4)
    finally:
        for folder in folders:
            shutil.rmtree(folder)
    ours, first = (statistics.median(took[way]) for way in ways)
    print(f"making the nine files of a log and its first entry on disk: {ours:.0f} us, "
          f"{ours / first:.2f} of the time that the first version's calls take, with 35 syncs (at most 0.33)")


def measure_appending(meter: str) -> None:
    """Records that are appended."""
    for word, size, most, times in [("fill", 10, 0.06, 10_000), ("fill-large", 1_000, 0.12, 1_000)]:
        for place, where in [("/dev/shm", "/dev/shm"), (".", "disk")]:
            runs = [timed_flushes(meter, word, times // (1 if where != "disk" else 10), place) for _ in range(RUNS)]
            appending = min(it[0] / it[2] for it in runs) / BATCH / 1e3
            flushing = min(it[1] / it[2] for it in runs) / 1e3
            print(f"a record of {size} bytes, appended to a log on {where}: {appending:.3f} us beside its flush "
                  f"(at most {most}); "
                  f"a flush of {BATCH} of them {flushing:.2f} us" + (" (at most 4)" if (where, size) == ("/dev/shm",
                      10) else ""))


def measure_opening(meter: str) -> None:
    """A log is filled in one process and opened in others, whose peak of memory is their own."""
    seen = []
    for count in [BATCH, 100_000, 1_000_000]:
        folder = tempfile.mkdtemp(dir="/dev/shm")
        try:
            numbers_of(folder, meter, "fill", str(count // BATCH))
            runs = [numbers_of(folder, meter, "open") for _ in range(RUNS)]
        finally:
            shutil.rmtree(folder)
        seen.append((min(it[0] for it in runs), max(it[1] for it in runs), count))
    (_, base, _), (small, _, few), (large, peak, many) = seen
    print(f"opening a log of {many} records: {large / 1e6:.1f} ms, {large / small:.1f} times that of {few}; "
          f"{(peak - base) / 1024:.2f} MiB above a log of {BATCH} (at most 1)")


def syncs_of(meter: str, times: int) -> int:
    """How many syncs reach the device where so many short logs are made in a new store on disk."""
    folder = os.path.abspath(tempfile.mkdtemp(dir="."))
    try:
        trace = os.path.join(folder, "trace")
        words = ["strace", "-f", "-qq", "-e", "trace=fsync,fdatasync", "-e", "signal=none", "-o", trace]
        child = subprocess.run(words + [meter, "short-logs", str(times)], cwd=folder, capture_output=True)
        if child.returncode != 0:
            sys.exit(f"bench: short-logs ended with status {child.returncode}")
        with open(trace) as lines:
            return sum("sync(" in line for line in lines)
    finally:
        shutil.rmtree(folder)


def measure_syncs(meter: str) -> None:
    """The syncs of a log, counted."""
    if shutil.which("strace") is None:
        print("the syncs of a log of three records: strace, which counts them, isn't there")
        return
    first, both = syncs_of(meter, 1), syncs_of(meter, 2)
    print(f"making, filling and finishing a log of three records on disk: {both - first} syncs (at most 14), "
          f"of the first log of a store {first}")


def main() -> None:
    """All measures."""
    words = argparse.ArgumentParser(description=__doc__, formatter_class=argparse.RawDescriptionHelpFormatter)
    words.add_argument("program", type=os.path.abspath)
    words.add_argument("messages", type=os.path.abspath)
    args = words.parse_args()
    program, meter = args.program, args.messages
    measure_sessions(program)
    measure_crowds(program)
    measure_messages(meter)
    measure_records(meter)
    measure_flushes(meter)
    measure_making(meter)
    measure_appending(meter)
    measure_opening(meter)
    measure_syncs(meter)


if __name__ == "__main__":
    main()
