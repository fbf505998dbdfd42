#!/usr/bin/env python3
"""Tries contrib/sudo-cast: what it writes is read by a reader of this script, by asciinema, and in a browser.

usage: cast.py [PROGRAM]

The bytes, times, sizes and the input must be those that were stored, for the script as it is in contrib/ and as it is
installed. With PROGRAM, which is sudo_logsrvd, sessions are also cast while the server stores them and their client
cuts them. asciinema, and chromium or firefox, are asked if they are installed. The page is shown with a stub in the
place of the player, which no package of Debian has. It ends with 1 if something differs.
"""
from __future__ import annotations

import base64
import json
import os
import random
import re
import shutil
import subprocess
import sys
import tempfile
import threading
import time
from collections.abc import Sequence
from typing import Any

import at_root
import client
import parts
from guards import ACCEPT, Guarded
from oracle import lines, store
from oracle.connection import PATIENCE
from oracle.records import SECOND, Record, decimal, stream_of, timing_of
from parts import INFO, SUBMIT, Skipped, run, status_is, write
from trial import same

EVENT = re.compile(r'\[([0-9]+\.[0-9]{9}), "([oir])", (".*")\]')
SCRIPTS = parts.scripts("sudo-cast")


class Cast:
    """A cast as this script reads it: its header, and events of nanoseconds, kind and text."""

    def __init__(self, text: bytes) -> None:
        """Each line must be of its form."""
        first, *rest = text.decode().removesuffix("\n").split("\n")
        self.header = json.loads(first)
        self.events: list[tuple[int, str, str]] = []
        for line in rest:
            seconds, kind, shown = EVENT.fullmatch(line).groups()
            self.events.append((int(seconds.replace(".", "")), kind, json.loads(shown)))
        same("the order of times", [it[0] for it in self.events], sorted(it[0] for it in self.events))

    def text(self, kind: str) -> str:
        """All that one kind shows."""
        return "".join(text for _, it, text in self.events if it == kind)


def cast(folder: str, *words: str, status: int = 0) -> Cast:
    """What both forms of the script write, which must be the same."""
    first, second = (status_is(words, status, run(script, "-d", folder, *words)).stdout for script in SCRIPTS)
    same("the installed script", second, first)
    return Cast(first)


def sessions(rng: random.Random) -> list[Record]:
    """A session of a terminal, with text of many lengths of UTF-8, cut anywhere, and with bytes that are none."""
    text = "".join(rng.choice("aä€𝄞\r\n\x1b[0m\"\\\x07\u2028") for _ in range(3000)).encode()
    text = b"".join(text[at:at + 50] + rng.choice([b"", b"", b"\xff", b"\xe2\x82", b"\xed\xa0\x80"])
        for at in range(0, len(text), 50))
    records: list[Record] = []
    while text:
        size = rng.choice([1, 2, 3, 7, 300])
        records.append((rng.choice([0, rng.randrange(10**10)]), rng.choice(["ttyout", "ttyin"]), text[:size]))
        text = text[size:]
        if rng.randrange(20) == 0:
            records.append((5, "winsize", rng.randrange(1, 90), rng.randrange(1, 300)))
        if rng.randrange(40) == 0:
            records.append((10**9, "suspend", "TSTP"))
    return records


def ends_of(records: Sequence[Record]) -> dict[int, int]:
    """How many bytes of ttyout were shown at each moment."""
    shown, at, found = 0, 0, {}
    for delay, event, *rest in records:
        at += delay
        shown += len(rest[0]) if event == "ttyout" else 0
        found[at] = shown
    return found


def part_text() -> None:
    """The whole text, input, sizes and moments, also of a session that goes on."""
    folder = tempfile.mkdtemp(prefix="interop")
    for number in range(1, 5):
        records = sessions(random.Random(number))
        digits = write(folder, number, records, value=None if number % 2 else 0)
        out, typed = (stream_of(records, name).decode("utf-8", "replace") for name in ("ttyout", "ttyin"))
        found = cast(folder, digits)
        same("output", found.text("o"), out)
        same("no input", found.text("i"), "")
        sizes = [f"{it[3]}x{it[2]}" for it in records if it[1] == "winsize"]
        same("sizes", [text for _, kind, text in found.events if kind == "r"], sizes)
        both = cast(folder, "-i", digits)
        same("output and input", (both.text("o"), both.text("i")), (out, typed))
        so_far, shown = 0, {}
        for moment, kind, text in found.events:
            so_far += len(text) if kind == "o" else 0
            shown[moment] = so_far
        for moment, count in shown.items():
            # all that came by then, but for a character that is cut
            by_then = stream_of(records, "ttyout")[:ends_of(records)[moment]].decode("utf-8", "replace")
            same(f"characters by {decimal(moment)}", len(by_then) - count in (0, 1), True)
    shutil.rmtree(folder)


def part_cut_characters() -> None:
    """A character of which each byte comes alone is shown with its last byte; half a one is replaced at the end."""
    folder = tempfile.mkdtemp(prefix="interop")
    records: list[Record] = [(SECOND, "ttyout", bytes([byte])) for byte in "€".encode() + b"\xff" + "€".encode()[:2]]
    digits = write(folder, 1, records)
    wanted = [(3 * SECOND, "o", "€"), (4 * SECOND, "o", "\ufffd"), (6 * SECOND, "o", "\ufffd")]
    same("events", cast(folder, digits).events, wanted)
    shutil.rmtree(folder)


def part_long_times() -> None:
    """Times that no float has are written digit by digit."""
    folder = tempfile.mkdtemp(prefix="interop")
    digits = write(folder, 1, [(2**62 + 1, "ttyout", b"a"), (1, "ttyout", b"b")])
    same("times", [it[0] for it in cast(folder, digits).events], [2**62 + 1, 2**62 + 2])
    shutil.rmtree(folder)


def part_header() -> None:
    """The header names the session, and has no secret of the environment."""
    folder = tempfile.mkdtemp(prefix="interop")
    write(folder, 1, [])
    command = "/usr/bin/vi /etc/motd a b ä"
    wanted = {"version": 2, "width": 90, "height": 33, "timestamp": SUBMIT // SECOND + 1, "command": command,
        "title": f"ann@web1: {command} (000001)", "env": {"TERM": "xterm", "SHELL": "/bin/sh"}}
    same("header", cast(folder, "000001").header, wanted)
    same("with a longest wait", cast(folder, "-m", "2.5", "000001").header, {**wanted, "idle_time_limit": 2.5})
    head = {"info": {"command": "/bin/true", "submituser": "x\ud800", "lines": 0}, "submit_time": lines.stamp(1)}
    store.write_log(folder, 2, json.dumps(head).encode(), [], None)
    bare = cast(folder, "000002").header
    same("of a session without a terminal", (bare["width"], bare["height"], bare["env"]), (80, 24, {}))
    shutil.rmtree(folder)


def part_older_store() -> None:
    """A log of an older store, whose journal has entries one after the other, is read by the last of them."""
    folder = tempfile.mkdtemp(prefix="interop")
    records: list[Record] = [(SECOND, "ttyout", b"one"), (SECOND, "ttyout", b"two")]
    digits = write(folder, 1, records)
    place = store.folder_of(folder, digits)
    files = {name: store.contents(os.path.join(place, name)) for name in store.PARTS}
    whole = store.contents(os.path.join(place, "slots"))[2:2 + store.LOG_BODY]
    head = files["log.json"].removesuffix(b"\xffbeyond\n")
    first = store.body_text(store.FLUSHED, records[:1], store.files_of(head, records[:1], None))
    os.remove(os.path.join(place, "slots"))
    for bodies, shown in (([first, whole], "onetwo"), ([whole, first], "one")):
        with open(os.path.join(place, "commit"), "wb") as file:
            file.write(store.old_journal(bodies))
        same("output", cast(folder, digits).text("o"), shown)
    shutil.rmtree(folder)


def part_pipes() -> None:
    """What no terminal wrote gets its carriage returns; single streams are chosen."""
    folder = tempfile.mkdtemp(prefix="interop")
    records: list[Record] = [(1, "stdout", b"a\nb\r"), (1, "stdout", b"\nc"), (1, "stderr", b"\n\n"),
        (1, "stdin", b"in\n"), (1, "stdout", b"\n")]
    digits = write(folder, 1, records)
    same("output", cast(folder, digits).text("o"), "a\r\nb\r\nc\r\n\r\n\r\n")
    same("stderr alone", cast(folder, "-f", "stderr", digits).text("o"), "\r\n\r\n")
    same("input", cast(folder, "-i", digits).text("i"), "in\r\n")
    shutil.rmtree(folder)


def part_damage() -> None:
    """What precedes a damage is written, with status 4; other faults have their own statuses."""
    folder = tempfile.mkdtemp(prefix="interop")
    records: list[Record] = [(SECOND, "ttyout", b"one"), (SECOND, "ttyout", b"two")]
    place = store.folder_of(folder, write(folder, 1, records))
    with open(os.path.join(place, "timing"), "r+b") as file:
        file.seek(len(timing_of(records[:1])))
        file.write(b"9")
    same("what precedes it", cast(folder, "000001", status=4).text("o"), "one")
    os.truncate(os.path.join(place, "ttyout"), 2)
    for words, status in ((["000001"], 4), (["000002"], 8), (["00/00/01"], 2), ([], 2), (["-f", "tty", "000001"], 2),
        (["-m", "x", "000001"], 2), (["-q", "000001"], 2), (["-d", folder, "000001"], 2), (["000001", "-i"], 2)):
        status_is(words, status, run(SCRIPTS[1], "-d", folder, *words))
    for other in (folder + "/none", place):
        status_is(other, 5, run(SCRIPTS[1], "-d", other, "000001"))
    with open("/dev/full", "wb") as full:
        write(folder, 3, records)
        ended = subprocess.run([SCRIPTS[1], "-d", folder, "000003"], stdout=full, stderr=subprocess.PIPE, check=False)
    same("status at a full device", ended.returncode, 6)
    shutil.rmtree(folder)


def part_asciinema() -> None:
    """asciinema shows the same text."""
    if not shutil.which("asciinema"):
        raise Skipped("asciinema isn't installed")
    folder = tempfile.mkdtemp(prefix="interop")
    records = [(min(delay, 1000), event, *rest) for delay, event, *rest in sessions(random.Random(4))]
    path = os.path.join(folder, "x.cast")
    with open(path, "wb") as file:
        file.write(run(SCRIPTS[1], "-d", folder, "-i", write(folder, 1, records)).stdout)
    # it asks for a terminal
    words = ["script", "-E", "never", "-qec", f"stty raw; /usr/bin/asciinema cat {path}", "/dev/null"]
    shown = status_is("asciinema", 0, run(*words, env={"LC_ALL": "C.UTF-8", "HOME": folder})).stdout.decode()
    same("what asciinema shows", shown, stream_of(records, "ttyout").decode("utf-8", "replace"))
    shutil.rmtree(folder)


STUB = """var AsciinemaPlayer = {create: function (source, place) {
  place.textContent = btoa(unescape(encodeURIComponent(source.data))) + "</script><!-- ".slice(0, 0);
}};"""


def part_page() -> None:
    """A browser gets the cast through the page, whatever text is in it, and asks no other machine."""
    browser = shutil.which("chromium") or shutil.which("chromium-browser")
    folder = tempfile.mkdtemp(prefix="interop")
    info = {**INFO, "runargv": ["vi", "</script><script>document.title='x'</script>", "<!--"]}
    digits = write(folder, 1, [(SECOND, "ttyout", "</script><b>€\u2028".encode())], info)
    with open(os.path.join(folder, "asciinema-player.min.js"), "w", encoding="utf-8") as file:
        file.write(STUB)
    page = status_is("page", 0, run(SCRIPTS[1], "-d", folder, "-p", folder, digits)).stdout
    same("elements of scripts", len(re.findall(rb"<script", page)), 2)
    if not browser:
        raise Skipped("chromium isn't installed")
    path = os.path.join(folder, "page.html")
    with open(path, "wb") as file:
        file.write(page)
    dom = run(browser, "--headless", "--no-sandbox", "--disable-gpu", f"--user-data-dir={folder}/profile", "--dump-dom",
        "file://" + path, seconds=120).stdout.decode()
    shown = base64.b64decode(re.search('<div id="player">(.*?)</div>', dom)[1])
    same("the cast in the browser", shown, run(SCRIPTS[1], "-d", folder, digits).stdout)
    shutil.rmtree(folder)


def part_beside_a_server(program: str | None = None) -> None:
    """A session that is cut and written over while it is cast is shown as it was at one moment."""
    if program is None:
        raise Skipped("no PROGRAM is named")
    with Guarded(os.path.realpath(program)) as on:
        on.start()
        link = on.server.connect()
        link.send(client.hello(), ACCEPT, *rounds(0))
        digits = next(what for name, what in iter(link.read, None) if name == "log_id")
        committed(link, 30 * SECOND)
        link.close()
        over = threading.Event()
        thread = threading.Thread(target=cut_again, args=(on, digits, over))
        thread.start()
        seen: set[str] = set()
        try:
            casts, end = 0, time.monotonic() + PATIENCE
            while casts < 12 or len(seen) < 2 and time.monotonic() < end:
                seen.add(shown_round(run(SCRIPTS[1], "-d", on.store, digits)))
                casts += 1
        finally:
            over.set()
            thread.join()
        same("casts of several rounds", len(seen) > 1, True)


def rounds(count: int) -> list[bytes]:
    """Records of a second each: the first is the same in all rounds, the others have the round in each byte."""
    text = f"{count:06}".encode() * 3000
    return [client.record((SECOND, "ttyout", b"begin " if not at else text)) for at in range(30)]


def committed(link: Any, point: int) -> None:
    """Waits for a commit point."""
    while link.read() != ("commit_point", point):
        pass


def cut_again(on: Guarded, digits: str, over: threading.Event) -> None:
    """The client resumes its log after the first second, and sends other records, again and again."""
    count = 0
    while not over.is_set():
        count += 1
        link = on.server.connect()
        try:
            link.send(client.hello(), client.restart(digits, SECOND), *rounds(count)[1:])
            committed(link, 30 * SECOND)
        except client.Closed:
            # the connection before still has the log
            time.sleep(0.005)
            continue
        finally:
            link.close()


def shown_round(ended: parts.Ended) -> str:
    """The round that a cast shows, of which it may have a first part, and no other round."""
    status_is("a cast beside the server", 0, ended)
    text = Cast(ended.stdout).text("o")
    same("begin", text[:6], "begin ")
    shown = text[6:12]
    same("what follows", text[6:], shown * ((len(text) - 6) // 6))
    return shown


def part_page_of_the_manual() -> None:
    """The manual page has what the script takes."""
    parts.page_fits("sudo-cast")


if __name__ == "__main__":
    sys.exit(parts.run_parts(globals(), __doc__ or ""))
