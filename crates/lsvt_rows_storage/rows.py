#!/usr/bin/env python3
"""Writes the cases of lsvt_rows_storage (`stdin`) and what must be printed of them (`stdout`).

usage: rows.py FOLDER

It is a program of its own, which knows nothing of what the crates answer. What a disk and a port answer stands in it
as literals. What a sync that failed leaves, which new files are synced, and which folders lanes sync, are worked out
here by the rules that the functions state.
"""
from __future__ import annotations

import sys
from collections.abc import Iterator, Sequence

from oracle.rows import Rows

PARTS = ["head", "exit", "timing", "stdin", "stdout", "stderr", "ttyin", "ttyout", "slots"]
PATHS = ["/00", "00", "/events.1", "events.1"]
ROWS = Rows()
case, title = ROWS.case, ROWS.title


# The real disk


def disk_file() -> None:
    """A file is made, written and read."""
    title("a file of the store is made, written and read")
    case("disk first root file/a/b file/a/b/events")
    case("disk first length log.1296/ttyout", "absent")
    case("disk first create log.1296/ttyout", "ok")
    case("disk first length log.1296/ttyout", "0 bytes")
    case(f"disk first write log.1296/ttyout 0 {b'abcd'.hex()}", "ok")
    case(f"disk first write log.1296/ttyout 2 {b'xyz'.hex()}", "ok")
    case("disk first sync log.1296/ttyout", "ok")
    case("disk first read log.1296/ttyout 1 8", f"4 of {b'bxyz'.hex()}ffffffff")
    case("stored file/a/b/00/01/00/ttyout", f"bytes {b'abxyz'.hex()}")
    case("disk first create events.1/lines", "ok")
    case("stored file/a/b/events.1", "bytes ")
    title("a file that is there is not made again, and a log has no number 0")
    case("disk first create log.1296/ttyout", "fault")
    case("stored file/a/b/00/01/00/ttyout", f"bytes {b'abxyz'.hex()}")
    case("disk first length log.0/head", "fault")
    case("disk first drop")


def disk_modes() -> None:
    """The modes of the store."""
    title("nobody else may read the store")
    case("disk first root modes modes/events")
    case("disk first create_all log.1 head timing", "ok")
    case("disk first create events.1/lines", "ok")
    for name, mode in [("", 700), ("/lock", 600), ("/00", 700), ("/00/00/01", 700), ("/00/00/01/log.json", 600),
                       ("/00/00/01/timing", 600), ("/events.1", 600)]:
        case(f"mode modes{name}", f"mode {mode}")
    case("disk first drop")


def disk_gate() -> None:
    """Files that are made together, and slots."""
    title("files that are made together are empty, but for the gate of slots")
    case("disk first root gate events")
    case("disk first create_all log.1 stdout slots", "ok")
    case("disk first length log.1/stdout", "0 bytes")
    case("disk first length log.1/slots", "1 bytes")
    case("disk first read log.1/slots 0 1", "1 of 00")
    title("slots that are made alone have no gate")
    case("disk first create log.2/slots", "ok")
    case("disk first length log.2/slots", "0 bytes")
    case("disk first drop")


def disk_gone() -> None:
    """A folder that is gone."""
    title("a folder that is gone is made again")
    case("disk first root gone events")
    # the second folder is made without a look at those above
    for number in [1, 2]:
        case(f"disk first create_all log.{number} head", "ok")
    case("remove gone/00")
    case("disk first create_all log.3 head", "ok")
    case("stored gone/00/00/02/log.json", "absent")
    case("stored gone/00/00/03/log.json", "bytes ")
    case("disk first drop")


def disk_lock() -> None:
    """The lock of a store."""
    title("a store has one server")
    case("disk first root lock events")
    # the number of the log was drawn
    case("disk first create numbers.0/slots", "ok")
    drawn = b"\1\0" + b"".join(n.to_bytes(4, "big") for n in (1296, 0, 1))
    case(f"disk first write numbers.0/slots 0 {drawn.hex()}", "ok")
    case("disk first create log.1296/ttyout", "ok")
    title("a disk that is given its places again lets go of its own lock before")
    case("disk first root lock events")
    case("disk first length log.1296/ttyout", "0 bytes")
    title("a disk without a store fails, and makes nothing")
    case("disk second length log.1296/ttyout", "fault")
    case("disk second root lock events")
    for call in ["length log.1296/ttyout", "create events.1/lines", "create_all events.0 lines slots",
                 "read log.1296/ttyout 0 1", f"write log.1296/ttyout 0 {b'none'.hex()}", "sync log.1296/ttyout"]:
        case(f"disk second {call}", "fault")
    for path in PATHS:
        case(f"stored {path}", "absent")
    title("a lock that was let go is taken")
    case("disk first drop")
    case("disk second root lock events")
    case("disk second length log.1296/ttyout", "0 bytes")
    title("a place where no folder can be has no store")
    case("disk second root /dev/null/store events")
    case("disk second length log.1296/ttyout", "fault")
    case("disk second drop")


def disk_shared() -> None:
    """Disks of one program, and a stranger."""
    title("disks of one program share a store and its locks, and no log of one is made by another")
    case("disk third beside")
    case("disk first root shared shared/events")
    case("disk third length log.1/head", "fault")
    case("disk third root shared shared/events")
    case("disk first create numbers.0/slots", "ok")
    drawn = b"\1\0" + b"".join(n.to_bytes(4, "big") for n in (1296, 0, 1))
    case(f"disk first write numbers.0/slots 0 {drawn.hex()}", "ok")
    case("disk first create_all log.1 head", "ok")
    case("disk third create_all log.2 head", "ok")
    case("disk third create_all log.1 head", "fault")
    case("disk third length log.1/head", "0 bytes")
    case("disk first length log.2/head", "0 bytes")
    case("disk first create events.0/lines", "ok")
    case("disk third create events.1/lines", "ok")
    case("disk third length events.0/lines", "0 bytes")
    title("lanes make logs at once")
    case("disk first create_all log.65 head", "ok")
    case("disk both 40", "38 and 39 logs")
    case("disk first sync log.80/head", "ok")
    case("disk third sync log.79/head", "ok")
    for number in [79, 80]:
        path = "shared/00/00/" + "0123456789ABCDEFGHIJKLMNOPQRSTUVWXYZ"[number // 36] \
            + "0123456789ABCDEFGHIJKLMNOPQRSTUVWXYZ"[number % 36]
        case(f"stored {path}/log.json", "bytes ")
        case(f"stored {path}/slots", "bytes 00")
    title("a disk that names other places has no store, and makes nothing there")
    case("disk third root other other/events")
    case("disk third length log.2/head", "fault")
    case("disk third create log.3/exit", "fault")
    case("stored other", "absent")
    case("disk third root shared shared/events2")
    case("disk third length log.2/head", "fault")
    case("disk third root shared shared/events")
    case("disk third length log.2/head", "0 bytes")
    title("a stranger has no store until the last disk of the program lets go of it")
    case("disk second root shared shared/events")
    case("disk second length log.1/head", "fault")
    case("disk first root shared shared/events")
    case("disk second root shared shared/events")
    case("disk second length log.1/head", "fault")
    case("disk first drop")
    case("disk second root shared shared/events")
    case("disk second length log.1/head", "fault")
    case("disk third length log.1/head", "0 bytes")
    case("disk third drop")
    case("disk second root shared shared/events")
    case("disk second length log.1/head", "0 bytes")
    case("disk second drop")
    title("once no disk of the program uses a store, another one may be opened")
    case("disk third beside")
    case("disk first root shared shared/events")
    case("disk third root shared shared/events")
    case("disk first root /dev/null/store events")
    case("disk third root /dev/null/store events")
    case("disk second root shared shared/events")
    case("disk second length log.1/head", "0 bytes")
    case("disk third root another another/events")
    case("disk third create log.1/head", "ok")
    case("disk first root another another/events")
    case("disk first length log.1/head", "0 bytes")
    for which in ["first", "second", "third"]:
        case(f"disk {which} drop")


def disk_lanes_events() -> None:
    """What stands at the event log of a lane."""
    title("a store is not opened over the lines that another program left at the event log of a lane")
    case("disk second root left lanes.1")
    case("disk second create events.0/lines", "ok")
    case(f"disk second write events.0/lines 0 {b'left'.hex()}0a", "ok")
    case("disk second drop")
    case("disk first lanes 3 several lanes")
    for call in ["length events.1/lines", "create events.1/slots", f"write events.1/lines 0 {b'over'.hex()}",
                 "create_all events.1 lines slots", "sync events.1/lines", "create_all events.0 lines slots"]:
        case(f"disk first {call}", "fault")
    case("stored lanes.1", f"bytes {b'left'.hex()}0a")
    case("stored lanes.1.slots", "absent")
    case("stored several/lock", "absent")
    title("a store without that lane is opened beside them")
    case("disk first lanes 1 several lanes")
    case("disk first create_all events.0 lines slots", "ok")
    case("disk first length events.0/slots", "1 bytes")
    case("disk first drop")


def disk_many() -> None:
    """More files than are kept open."""
    title("a file that was closed, since more than 512 others were open after it, is opened again")
    case("disk first root many events")
    case("disk first create log.1296/ttyout", "ok")
    case(f"disk first write log.1296/ttyout 0 {b'kept'.hex()}", "ok")
    for number in range(1, 600):
        case(f"disk first create log.{number}/head", "ok")
    case("disk first read log.1296/ttyout 0 8", f"4 of {b'kept'.hex()}ffffffff")
    case("disk first sync log.1296/ttyout", "ok")
    case("disk first length log.1296/ttyout", "4 bytes")
    case("disk first drop")


# Which folders lanes sync

LEAVES = ["a/b/0", "a/b/1", "a/b/2"]
BEFORE = {"new": None, "old": "a/x/9", "known": "a/b/9"}


class Folders:
    """Folders whose names lanes bring to the disk, by the places of their steps in a row.

    A lane must know of a sync of the upper folder that succeeded and that began after its own ticket, or of the
    name itself. Else it syncs the upper folder. Once a sync of a folder failed, each lane that needs it fails.
    """

    def __init__(self, fails: str) -> None:
        """The syncs of one folder fail."""
        self.fails, self.now = fails, 0
        self.made: dict[str, int] = {".": 0, "a": 0, "a/x": 0}
        self.tickets: dict[int, int] = {}
        self.synced: dict[str, int] = {}
        self.named: set[str] = set()
        self.failed: set[str] = set()
        self.good: list[tuple[str, int]] = []

    def tick(self) -> int:
        """The place of the next step."""
        self.now += 1
        return self.now

    def make(self, folder: str) -> None:
        """A folder is made where it isn't there: what was known of it is of another one."""
        if folder not in self.made:
            self.made[folder] = self.tick()
            self.named.discard(folder)
            self.synced.pop(folder, None)

    def settle(self, leaf: str, ticket: int) -> str:
        """Which folders are synced, and what came of it."""
        text, parts = "", leaf.split("/")
        for depth in range(len(parts)):
            above = "/".join(parts[:depth]) or "."
            folder = "/".join(parts[:depth + 1])
            if above in self.failed:
                return text + " fault."
            if folder != leaf and folder in self.named:
                continue
            if self.synced.get(above, -1) < ticket:
                text += f" {above}"
                begun = self.tick()
                if above == self.fails:
                    self.failed.add(above)
                    return text + " fault."
                self.synced[above] = begun
                self.good.append((above, begun))
            self.named.add(folder)
        for depth in range(len(parts)):
            above, folder = "/".join(parts[:depth]) or ".", "/".join(parts[:depth + 1])
            assert any(of == above and begun > self.made[folder] for of, begun in self.good), (leaf, folder)
        return text + " ok."


def names(age: str, fails: str, steps: Sequence[str]) -> list[str]:
    """The steps of lanes in a row; what each settling printed."""
    folders = Folders("")
    wanted = []
    before = BEFORE[age]
    if before is not None:
        folders.make("a/b" if age == "known" else "a/x")
        folders.make(before)
        wanted.append(folders.settle(before, folders.tick()).strip())
    folders.fails = fails
    for step in steps:
        word, lane = step.split(".")
        leaf = LEAVES[int(lane)]
        if word == "make":
            folders.make("a/b")
            folders.make(leaf)
        elif word == "take":
            folders.tickets[int(lane)] = folders.tick()
        else:
            wanted.append(f"{lane}:{folders.settle(leaf, folders.tickets[int(lane)])}")
    case(f"names {age} {fails} {' '.join(steps)}", " ".join(["names:", *wanted]))
    return wanted


def orders(lanes: Sequence[Sequence[str]]) -> Iterator[list[str]]:
    """Each order of the steps of lanes in which each lane keeps its own."""
    if not any(lanes):
        yield []
    for i, steps in enumerate(lanes):
        if steps:
            for rest in orders([*lanes[:i], steps[1:], *lanes[i + 1:]]):
                yield [steps[0], *rest]


def all_names() -> None:
    """Each order of the steps of two lanes, and of three whose folders are made in their order."""
    steps = [[f"{word}.{lane}" for word in ["make", "take", "settle"]] for lane in range(3)]
    for age, said in [("new", "of which nothing is known"), ("old", "in one that was synced long ago"),
                      ("known", "whose name is known")]:
        title(f"two lanes make logs in a folder {said}")
        for fails in ["none", "a", "a/b"]:
            for order in orders(steps[:2]):
                names(age, fails, order)
    title("a folder that another lane made is no synced one, though the one above it was synced before")
    assert names("old", "none", ["make.0", "make.1", "take.0", "take.1", "settle.1", "settle.0"])[1] == "1: a a/b ok."
    title("three lanes make logs")
    counts = set()
    for order in orders(steps):
        made = [step for step in order if step.startswith("make")]
        if made == ["make.0", "make.1", "make.2"]:
            wanted = names("known", "none", order)
            counts.add(sum(text.count("a/b") for text in wanted[1:]))
    assert counts == {1, 2, 3}
    title("lanes on threads: a sync that began before the ticket doesn't count, a later one does, and none overlap")
    case("threads cover", "ok, ok, ok by 2 syncs, 0 at once")
    case("threads fail", "fault, fault, fault by 1 syncs, 0 at once")
    case("threads reach", "ok, 0 beside it")


# What is written again after a sync that failed

LENGTH = 6


class File:
    """A file of six bytes of which ranges were written.

    After a sync that failed, the bytes from the first that was written through the last are written again before the
    next one, as far as the file goes, and all of a file that was there before. If these are none, it fails again. A
    sync that failed while nothing was written counts as a write of no byte at 0.
    """

    def __init__(self, is_found: bool) -> None:
        """A file that was there before, or a new one."""
        self.is_found, self.failed, self.fails, self.again = is_found, False, 0, 0
        self.span: tuple[int, int] | None = None
        case("file found" if is_found else "file new")

    def fail(self, count: int) -> None:
        """So many syncs will fail."""
        self.fails = count
        case(f"file fails {count}")

    def write(self, at: int, count: int) -> None:
        """So many bytes are written at an offset."""
        low, high = self.span or (at, at + count)
        self.span = (min(low, at), max(high, at + count))
        case(f"file write {at} {count}")

    def cut(self, length: int) -> None:
        """The file is cut: of what was written the bytes before the new end are left, and at least the last one."""
        if self.span:
            low, high = self.span
            self.span = (min(low, max(min(high, length) - 1, 0)), min(high, length))
        case(f"file cut {length}")

    def sync(self) -> None:
        """A sync."""
        is_done = True
        if self.failed:
            low, high = (0, LENGTH) if self.is_found else self.span or (0, 0)
            count = max(0, min(high, LENGTH) - low)
            self.again += count
            is_done = count > 0
        if is_done and self.fails > 0:
            self.fails, is_done = self.fails - 1, False
        self.failed = not is_done
        if is_done:
            self.span, self.is_found = None, False
        else:
            self.span = self.span or (0, 0)
        case("file sync", f"{'ok' if is_done else 'fault'}, {self.again} bytes again")

    def left(self) -> None:
        """Whether anything is left to be synced."""
        case("file left", ("nothing" if self.span is None else "something") + " is unsynced")


def syncs(is_found: bool, fails: int, writes: Sequence[tuple[int, int]], again: Sequence[int]) -> None:
    """Three syncs in a row whose first ones fail; `again` are the bytes that are written again up to each."""
    file = File(is_found)
    file.fail(fails)
    for at, count in writes:
        file.write(at, count)
    for want in again:
        file.sync()
        assert file.again == want, (fails, writes, file.again)
    file.left()


def files() -> None:
    """Syncs that fail."""
    title("bytes whose sync failed are written again")
    for fails, again in [(0, (0, 0, 0)), (1, (0, 5, 5)), (2, (0, 5, 10)), (3, (0, 5, 10))]:
        syncs(False, fails, [(1, 2), (4, 9)], again)
    title("where nothing was written, a sync that failed stays a fault")
    syncs(False, 1, [], (0, 0, 0))
    title("until a write brings the inode along")
    file = File(False)
    file.fail(1)
    file.sync()
    file.sync()
    file.write(1, 2)
    file.sync()
    assert file.again == 3
    file.left()
    title("a file that was cut has its last byte to bring the new end along")
    for length, want in ((3, 2), (2, 1), (1, 1), (5, 4)):
        file = File(False)
        file.write(1, 4)
        file.cut(length)
        file.fail(1)
        file.sync()
        file.sync()
        assert file.again == want, (length, file.again)
        file.left()
    file = File(False)
    file.cut(3)
    file.sync()
    file.left()
    title("a file that a program before left unsynced is written again")
    for fails, again in [(0, (0, 0, 0)), (1, (0, 6, 6)), (3, (0, 6, 12))]:
        syncs(True, fails, [], again)
        syncs(True, fails, [(1, 2)], again)
    title("a found file that was synced is known")
    file = File(True)
    file.sync()
    file.fail(1)
    file.write(1, 2)
    file.sync()
    file.sync()
    assert file.again == 2
    file.left()


# Which of the files that are made together are synced

INODE = 256
LONGEST = 4096


def block(number: int, in_block: int) -> int:
    """The block of an inode."""
    return (number - 1) // in_block


def order_of(parts: Sequence[str], folder: int, in_block: int) -> list[str]:
    """The first part is made last of the others.

    Slots are made first if all parts have room in the folder's block, and else as the first of the next block.
    """
    order = [part for part in reversed(parts) if part != "slots"]
    if "slots" in parts:
        room = in_block - 1 - (folder - 1) % in_block
        order.insert(0 if len(parts) <= room else min(room, len(order)), "slots")
    return order


def making(
    length: int, folder: int, parts: Sequence[str], numbers: Sequence[int], most: int | None = None
) -> tuple[list[str], list[str]]:
    """Files are made: slots are synced, and the first file of each block that no sync brings.

    At most so many are synced.
    """
    in_block = max(1, min(length, LONGEST) // INODE)
    order = order_of(parts, folder, in_block)
    brought, synced = {block(folder, in_block)}, []
    for part, number in zip(order, numbers):
        if part == "slots" or block(number, in_block) not in brought:
            synced.append(part)
            brought.add(block(number, in_block))
    assert sorted(order) == sorted(parts) and all(block(n, in_block) in brought for n in numbers)
    assert most is None or len(synced) <= most, (length, folder, synced)
    case(f"made {length} {folder} {','.join(parts)} {' '.join(map(str, numbers))}",
         " ".join(["made", *order]) + ", " + " ".join(["synced", *synced]))
    return order, synced


def makings() -> None:
    """Files that are made together."""
    title("files whose inodes follow on the folder's are brought to the disk, by few syncs")
    for length, most in [(4096, 1), (65536, 1), (2048, 2), (1024, 3), (512, 5)]:
        for folder in range(1, 40):
            making(length, folder, PARTS, range(folder + 1, folder + 10), most)
    title("files whose inodes are scattered are brought to the disk")
    _, synced = making(4096, 40, PARTS, [33, 3, 90, 4, 91, 17, 18, 5, 92])
    assert "slots" in synced and len(synced) == 4
    title("a file that is written to is synced once")
    for part, number, want in [("head", 2, 0), ("slots", 2, 1), ("head", 17, 1), ("slots", 17, 1)]:
        _, synced = making(4096, 1, [part], [number])
        assert len(synced) == want
    title("slots are first, or the first of the next block, and the head is last of the others")
    for folder, place in [(1, 0), (6, 0), (7, 0), (8, 8), (9, 7), (15, 1), (16, 0), (17, 0)]:
        order, _ = making(4096, folder, PARTS, range(folder + 1, folder + 10))
        assert order.index("slots") == place and [part for part in order if part != "slots"][-1] == "head"
    title("files without slots are made too, and slots alone")
    for folder in [1, 8, 16]:
        for parts, want in [(["lines"], ["lines"]), (["head", "timing"], ["timing", "head"]), (["slots"], ["slots"])]:
            order, _ = making(4096, folder, parts, range(folder + 1, folder + 1 + len(parts)))
            assert order == want


# Ports over loopback

TEXT = b"the bytes of a message"


def ports_share() -> None:
    """Two ports of one socket."""
    title("ports share a socket, and stop together")
    case("ports 127.0.0.1:0", "one socket")
    case("port first turn", "nothing")
    case("client connect")
    case("port first next", "opened 1")
    case("port first read 1", "not yet")
    title("a link that is held is not told to be readable")
    case(f"client send {TEXT.hex()}")
    case("port first turn 1", "nothing")
    case("port first take 1", f"bytes {TEXT.hex()}")
    case("port first read 1", "not yet")
    case(f"client send {b'more'.hex()}")
    case("port first next", "readable 1")
    case("port first take 1", f"bytes {b'more'.hex()}")
    case(f"port first write 1 {b'answer'.hex()}", "took 6")
    case("client receive", f"bytes {b'answer'.hex()}")
    title("an input that ended is told no more")
    case("client end")
    case("port first take 1", "end")
    case("port first turn", "nothing")
    case("port first close 1")
    case("client receive", "end")
    title("another client goes to the other port, and after two both stop")
    case("client connect")
    case("port second next", "opened 1")
    case("port first turn", "nothing")
    case("port second close 1")
    case("client drop")
    case("port first turn", "stop")
    case("port second turn", "stop")


def port_full() -> None:
    """A link that is full."""
    title("a full link is told writable once, and who listens everywhere does so at loopback")
    case("ports *:0", "one socket")
    case("client connect")
    case("port first next", "opened 1")
    case("port first fill 1")
    case("client drain")
    case("port first next 1", "writable 1")
    case("port first turn 1", "nothing")
    case(f"port first write 1 {TEXT.hex()}", f"took {len(TEXT)}")
    case("client receive", f"bytes {TEXT.hex()}")
    case("client drop")


def port_taken() -> None:
    """An address that is taken."""
    title("an address that is taken is a fault, and so is one that is none")
    case("ports 127.0.0.1:0", "one socket")
    case("port other listen taken", "fault, then fault")
    case("port other listen no port", "fault, then fault")


def port_bell() -> None:
    """A port's bell."""
    title("a port whose bell is rung doesn't wait")
    case("bell before", "40 turns report nothing, and don't wait")
    title("nor if another thread rings it")
    case("bell during", "40 turns report nothing, and don't wait")


def main() -> None:
    """Writes all cases."""
    if len(sys.argv) != 2:
        sys.exit("usage: rows.py FOLDER")
    for part in [disk_file, disk_modes, disk_gate, disk_gone, disk_lock, disk_shared, disk_lanes_events, disk_many,
        all_names, files, makings, ports_share, port_full, port_taken,
        port_bell]:
        part()
    ROWS.write(sys.argv[1])
    print(f"{len(ROWS.cases)} cases, {len(ROWS.wanted)} lines that must be printed")


if __name__ == "__main__":
    main()
