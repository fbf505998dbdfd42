#!/usr/bin/env python3
"""Tries contrib/sudo-grep: which lines it finds, how it is narrowed down, and that it reads nothing else.

usage: grep.py [REPLAY [COUNT]]

With REPLAY, which is sudoreplay, its searches choose the sessions. With COUNT, that number of sessions is searched, of
which a search leaves out all but one in a hundred, and the times are printed. It ends with 1 if something differs.
"""
from __future__ import annotations

import os
import re
import shutil
import subprocess
import sys
import tempfile
import time

import at_root
import parts
from oracle import lines, store
from oracle.records import SECOND, Record, timing_of
from parts import INFO, SUBMIT, Skipped, run, status_is, write
from trial import same

SCRIPTS = parts.scripts("sudo-grep")
# what a terminal got, and the lines that were seen
SEEN: list[tuple[str, list[str]]] = [
    ("one\r\ntwo\r\n", ["one", "two"]),
    ("no end", ["no end"]),
    ("\x1b[1;31mred\x1b[0m \x1b]0;title\x07and \x1b]8;;http://x\x1b\\link\x1b(B", ["red and link"]),
    ("\x1bPq#0;2\x1b\\after\x1b_x\x1b\\ \x9b1mit", ["after it"]),
    ("\x1b\x1b[0mescaped \x1b[?2004hpaste\x1b=", ["escaped paste"]),
    # a word that is mended: back three, and over
    ("$ cat shaodw\b\b\bdow\r\n", ["$ cat shadow"]),
    ("$ lss\b \bx\x1b[K\r\n", ["$ lsx"]),
    ("abcd\x1b[3D\x1b[1P!\r\n", ["a!d"]),
    ("ac\b\x1b[1@b\r\n", ["abc"]),
    ("abcdef\x1b[3GX\x1b[K\r\n", ["abX"]),
    # bash, in which a word is mended by Control-B and Control-D
    ("\x1b[?2004h~# cat shaodw\b\b\b\x1b[1Pdw\b\b\x1b[1Pw\bdow\b\r\n\x1b[?2004l\rx\r\n", ["~# cat shadow", "x"]),
    ("10%\r20%\r\n", ["10%", "20%"]),
    ("a\x1b[5;7Hb\x1b[Ac", ["a", "b", "c"]),
    ("tab\there\x00\x01", ["tab here"]),
    ("pasx\x7fswd\r\x7f\x7fid\r", ["passwd", "id"]),
    ("ä€𝄞 \u202e", ["ä€𝄞 \u202e"]),
    ("x" * 20000, ["x" * 16385, "x" * 3615]),
    # the cursor goes no further than a line may be long
    ("\x1b[99999C" * 50 + "x\r\n", [" " * 16384 + "x"]),
    ("\x1b[9999@" * 50 + "near\r\n", ["near"]),
    ("\x1b]" + "y" * 5000 + "\r\n", ["]" + "y" * 5000]),
]


def search(folder: str, *words: str, status: int = 0, given: bytes = b"") -> str:
    """What the script prints."""
    ended = status_is(words, status, run(SCRIPTS[1], "-d", folder, *words, given=given))
    same("what else is said", bool(ended.stderr), status not in (0, 1))
    return ended.stdout.decode()


def part_lines() -> None:
    """What was seen is found, however it is cut into records."""
    folder = tempfile.mkdtemp(prefix="interop")
    number, wanted = 0, []
    for text, seen in SEEN:
        for size in (1, 2, 5, 10**6) if len(text) < 1000 else (999, 10**6):
            number += 1
            piece = text.encode()
            records: list[Record] = [(1, "ttyout", piece[at:at + size]) for at in range(0, len(piece), size)]
            digits = write(folder, number, records)
            wanted += [(digits, line) for line in seen]
    found = [tuple(line.split(" ", 2)[::2]) for line in search(folder, "-t", "").splitlines()]
    # where a line that is too long is cut depends on the records
    short = [[it for it in lines if len(it[1]) < 4000 and "xx" not in it[1]] for lines in (found, wanted)]
    same("lines", *short)
    same("of both forms", *(run(script, "-d", folder, "-t", "").stdout for script in SCRIPTS))
    shutil.rmtree(folder)


def part_forms() -> None:
    """Case, texts, streams, times, lists of sessions."""
    folder = tempfile.mkdtemp(prefix="interop")
    records: list[Record] = [(SECOND // 4, "ttyout", b"$ "), (SECOND, "ttyin", b"Secret\n"), (5, "ttyout", b"vi a.b"),
        (5 * SECOND, "ttyout", b"\r\nVI axb\r\n"), (1, "stdout", b"to vi or\n"), (0, "stdin", b"piped vi\n")]
    write(folder, 1, records)
    write(folder, 2, [(1, "ttyout", b"nothing\n")], value=None)
    write(folder, 3, [(1, "ttyout", b"vi again")], value=None)
    same("lines", search(folder, "vi a"),
        "000001 2026-09-21T14:13:27Z $ vi a.b\n000003 2026-09-21T14:13:23Z vi again\n")
    same("in any case", search(folder, "-it", "vi a"), "000001 6.250000005 $ vi a.b\n000001 6.250000005 VI axb\n"
        "000003 0.000000001 vi again\n")
    same("a text", search(folder, "-Fti", "vi a.b"), "000001 6.250000005 $ vi a.b\n")
    same("streams", search(folder, "-t", "-s", "ttyin,stdin", "e"), "000001 1.250000000 Secret\n"
        "000001 6.250000006 piped vi\n")
    same("sessions", search(folder, "-l", "vi"), "000001\n000003\n")
    same("named ones", search(folder, "-l", "vi", "000003", "000002"), "000003\n")
    listing = b"2026-09-21T14:13:27Z : ann : HOST=x ; TSID=000003 ; COMMAND=x\n000002\n"
    same("given ones", search(folder, "-l", "vi", "-", given=listing), "000003\n")
    same("who", search(folder, "-tuF", "vi a.b"), "000001 6.250000005 ann@web1 $ vi a.b\n")
    write(folder, 4, [(1, "ttyout", b"four")], {**INFO, "submituser": "a b\x1b[0m\u009b"})
    same("who it says it is", search(folder, "-lu", "four"), "000004 a?b?[0m?@web1\n")
    store.write_log(folder, 5, lines.head(2**62 * SECOND, INFO), [(1, "ttyout", b"five")], None)
    same("a far time", search(folder, "five"), f"000005 {2**62} five\n")
    same("nothing", search(folder, "none of this", status=1), "")
    same("seconds of the time", re.findall("T(.*)Z", search(folder, "nothing")),
        [time.strftime("%H:%M:%S", time.gmtime(SUBMIT // SECOND + 2))])
    shutil.rmtree(folder)


def part_faults() -> None:
    """Damage is said, and the others are searched; other faults have their own statuses."""
    folder = tempfile.mkdtemp(prefix="interop")
    records: list[Record] = [(1, "ttyout", b"one\n"), (1, "ttyout", b"one\n")]
    for number in (1, 2, 3):
        write(folder, number, records)
    place = store.folder_of(folder, "000002")
    with open(os.path.join(place, "timing"), "r+b") as file:
        file.seek(len(timing_of(records[:1])))
        file.write(b"9")
    found = search(folder, "-t", "one", status=4).split()[::3]
    same("beside a damage", found, ["000001", "000001", "000002", "000003", "000003"])
    wrong = ([], ["("], ["x", "000001", "y"],
        ["-s", "tty", "x"], ["-z", "x"], ["-i", "-i", "x"], ["x", "user", "a"])
    for words, status in (*((words, 2) for words in wrong), (["x", "0000ZZ"], 8)):
        status_is(words, status, run(SCRIPTS[1], "-d", folder, *words))
    status_is("no store", 5, run(SCRIPTS[1], "-d", folder + "/none", "x"))
    shell = f"{SCRIPTS[1]} -d {folder} one; echo $? >&2"
    done = subprocess.run(["bash", "-c", f"({shell}) | head -c 1"], capture_output=True, check=False)
    same("a reader that ends", done.stderr.split()[-1] in (b"4", b"6") and b"Traceback" not in done.stderr, True)
    shutil.rmtree(folder)


def garble(folder: str, digits: str) -> None:
    """Makes a log one that is damaged for who reads its records, and whose files have their lengths."""
    with open(os.path.join(store.folder_of(folder, digits), "timing"), "r+b") as file:
        file.write(b"?")


def beside(replay: str) -> str:
    """The script with sudoreplay beside it, by another name in front as a package has it."""
    place = os.path.dirname(SCRIPTS[1])
    script = os.path.join(place, "front-sudo-grep")
    if not os.path.exists(script):
        shutil.copy(SCRIPTS[1], script)
        os.symlink(os.path.realpath(replay), os.path.join(place, "front-sudoreplay"))
    return script


def part_searches(replay: str | None = None) -> None:
    """A search of sudoreplay chooses; of what it leaves out nothing is read."""
    if replay is None:
        raise Skipped("no REPLAY is named")
    folder, script = tempfile.mkdtemp(prefix="interop"), beside(replay)
    for number in range(1, 30):
        user = "bob" if number % 7 == 0 else "ann"
        digits = write(folder, number, [(1, "ttyout", b"found\n")], {**INFO, "submituser": user})
        if user == "ann":
            garble(folder, digits)
    wanted = "".join(f"{store.digits_of(number)}\n" for number in (7, 14, 21, 28))
    ended = run(script, "-d", folder, "-l", "found", "user", "bob", "and", "command", "vi")
    same("what a search finds", (ended.returncode, ended.stdout.decode(), ended.stderr), (0, wanted, b""))
    same("none", run(script, "-d", folder, "found", "user", "eve").returncode, 1)
    same("a wrong search", run(script, "-d", folder, "found", "usr", "eve").returncode, 2)
    os.truncate(os.path.join(store.folder_of(folder, "000001"), "ttyout"), 0)
    same("a damaged listing", run(script, "-d", folder, "found", "user", "bob").returncode, 4)
    shutil.rmtree(folder)


def part_many(replay: str | None = None, count: str | None = None) -> None:
    """Many sessions, of which a search chooses one in a hundred."""
    if replay is None or count is None:
        raise parts.Unasked
    folder, script = tempfile.mkdtemp(prefix="interop"), beside(replay)
    for number in range(1, int(count) + 1):
        user = "bob" if number % 100 == 0 else "ann"
        write(folder, number, [(1, "ttyout", b"$ id\r\nuid=0\r\n")] * 5, {**INFO, "submituser": user})
    for words in (["uid", "user", "bob"], ["uid"]):
        start = time.monotonic()
        ended = run(script, "-d", folder, "-l", *words, seconds=3600)
        print(f"grep.py: {words}: {len(ended.stdout.split())} found in {time.monotonic() - start:.1f} s", flush=True)
    shutil.rmtree(folder)


def part_page_of_the_manual() -> None:
    """The manual page has what the script takes."""
    parts.page_fits("sudo-grep")


if __name__ == "__main__":
    sys.exit(parts.run_parts(globals(), __doc__ or ""))
