#!/usr/bin/env python3
"""Tries what the programs say on standard error to who runs them wrongly, or over a store that isn't whole.

usage: said.py PROGRAM REPLAY

PROGRAM is sudo_logsrvd, REPLAY sudoreplay. Each case is words, and the lines and the status that they must give; in lines and
words DIR stands for a store of seven logs, of which 000002 and 000004 are damaged, 000003 has lost its journal, and those of 000006
and 000007 are emptied and garbled. It ends with 1 where something differs.
"""
import argparse
import os
import shutil
import subprocess
import sys
import tempfile

sys.path.insert(0, os.path.join(os.path.dirname(os.path.abspath(__file__)), "..", "bench"))
import stores  # noqa: E402

LOGS = 7
NOBODY = 65534
INFO = {"command": "/usr/bin/id", "submituser": "ann", "runuser": "root"}
HOST = "HOST or HOST:PORT with a port from 1 to 65535, where HOST is a name, an address ([ADDRESS] if it is IPv6) or *"
UPSTREAM = "HOST or HOST:PORT with a port from 1 to 65535, where HOST is a name or an address ([ADDRESS] if it is IPv6)"
TRUTH = "true, yes, on or 1, or false, no, off or 0"
STREAMS = "the streams are names of stdin, stdout, stderr, ttyin and ttyout, with commas between them"
GARBLED = "is absent, shorter than its journal says, or garbled"
GONE = "its journal, slots, is gone"
NO_ENTRY = "its journal, slots, has no entry"
EMPTIED = ": put it back from a copy, unless the server was ended while it made this log"

# sudoreplay: words, the lines in front of that of the status, the status' text, and its number
USAGE = [
    (["-s", "0", "00000D"], ["-s 0: the speed is a number above 0, as 2 or 0.5"]),
    (["-m", ".5", "00000D"], ["-m .5: the longest wait is a number of seconds, as 2 or 0.5"]),
    (["-f", "ttyou", "00000D"], [f"-f ttyou: {STREAMS}"]),
    (["-h"], ["-h: no such option; see sudoreplay(8)"]),
    (["-V"], ["-V: no such option; see sudoreplay(8)"]),
    (["--help"], ["--help: no such option; see sudoreplay(8)"]),
    (["-nR", "000001"], ["-nR: no such option; see sudoreplay(8)"]),
    (["-F", "-l"], ["-F doesn't go with -l: a log is followed, or logs are listed"]),
    (["-nF"], ["an identifier is missing, or -l"]),
    (["-F", "-nF", "000001"], ["-F may stand once"]),
    (["000001", "-s"], ["-s needs a value; see sudoreplay(8)"]),
    (["-m", "-s", "1", "000001"], ["-m needs a value, and -s is none: a value doesn't begin with a hyphen"]),
    (["-s", "-1", "000001"], ["-s needs a value, and -1 is none: a value doesn't begin with a hyphen"]),
    (["-s", "1", "-s2", "000001"], ["-s may stand once"]),
    ([], ["an identifier is missing, or -l"]),
    (["000001", "000002"], ['"000002" is one identifier too many: one log is played at a time']),
]
SEARCHES = [
    (["fromdate", "2026-11-30"], 1, """word 1, "2026-11-30", isn't a date of the form 2026-11-30T00:00:00Z, from 1970 to 2261"""),
    (["user", "ann", "foo"], 2, 'word 2, "foo", is no search word, or is short for more than one'),
    (["c", "id"], 0, 'word 0, "c", is no search word, or is short for more than one'),
    (["user"], 1, '"user" needs a name'),
    (["user", "ann", "or", "comm"], 4, '"command" needs a regular expression'),
    (["command", "["], 1, 'word 1, "[", is not a regular expression'),
    (["user", "ann", ")"], 2, 'word 2, ")", closes no ('),
    (["and", "user", "ann"], 0, 'word 0, "and", stands where a search is due'),
    (["(", "user", "ann"], 3, "a ) is missing after the last word"),
    (["user", "ann", "or"], 3, "a search is missing after the last word"),
    (["!"] * 101, 100, 'word 100, "!", would nest more than 100 of ! and ( in one another'),
]
FOLDERS = [
    ("NOSUCH", "NOSUCH: no such folder; -d names the folder of the logs"),
    ("FILE", "FILE: no folder; -d names the folder of the logs"),
    ("OTHER", "OTHER: no store of this server (it has no seq2); -d names the folder of the logs"),
]
UNLISTED = [
    f"log 000002 (DIR/00/00/02): stdout {GARBLED}; it isn't listed",
    f"log 000003 (DIR/00/00/03): {GONE}, so it isn't listed: put it back from a copy",
    f"log 000004 (DIR/00/00/04): timing {GARBLED}; it isn't listed",
    *(f"log {digits} (DIR/00/00/{digits[4:]}): {NO_ENTRY}, so it isn't listed{EMPTIED}" for digits in ("000006", "000007")),
]
NUMBERS_DAMAGED = "DIR/seq2: it is damaged, so no log is listed: put it back from a copy; an identifier still plays its log"

NUMBERS_EMPTY = "DIR/seq2: it has no entry, so no log is listed: put it back from a copy; an identifier still plays its log"
NUMBERS_OLDER = "DIR/seq2: its last number is 000005, and there is log 000007 of its numbers: logs above 000005 aren't listed: put it back from a newer copy; an identifier still plays its log"

# sudo_logsrvd: words, and the line in front of that of the status
COMMANDS = [
    ([], "a command is missing: serve, check, relay, once or load"),
    (["-h"], "-h: no such command; there are serve, check, relay, once and load; see sudo_logsrvd(8)"),
    (["server"], "server: no such command; there are serve, check, relay, once and load; see sudo_logsrvd(8)"),
    (["once", "-V"], "-V: no such option here; see sudo_logsrvd(8)"),
    (["once", "--lanes", "1"], "--lanes: no such option here; see sudo_logsrvd(8)"),
    (["serve", "-f"], "-f needs a value; see sudo_logsrvd(8)"),
    (["serve", "-f", "a", "-fb"], "-f may stand once"),
    (["serve", "--lanes", "9"], "--lanes 9: the number of lanes is from 1 to 8"),
    (["serve", "--lanes", "-1"], "--lanes needs a value, and -1 is none: a value doesn't begin with a hyphen"),
    (["serve", "--workers", "65"], "--workers 65: the number of workers is from 1 to 64"),
    (["serve", "--workers=0"], "--workers 0: the number of workers is from 1 to 64"),
    (["serve", "--workers", "2", "--workers", "3"], "--workers may stand once"),
    (["check", "--workers", "1"], "--workers: no such option here; see sudo_logsrvd(8)"),
    (["check", "now"], '"now" is one word too many'),
    (["serve", "--stop-after=0"], "--stop-after 0: the number of connections is from 1 to 4294967295"),
    (["load"], "load needs the number of connections"),
    (["load", "10001"], "load 10001: the number of connections is from 1 to 10000"),
    (["serve", "now"], '"now" is one word too many'),
    (["relay", "--lanes", "1"], "--lanes: no such option here; see sudo_logsrvd(8)"),
    (["relay", "now"], '"now" is one word too many'),
]
# settings, and the lines that are refused
SETTINGS = [
    (
        b"[server]\nlisten_address = *:30344(tls)\nlisten_address = localhost:70000\n[relay]\nrelay_host = *\nstore_first = maybe\n",
        [
            f'2: listen_address can\'t be "*:30344(tls)": it takes {HOST}; this server has no TLS: OPERATIONS shows a tunnel under Exposure',
            f'3: listen_address can\'t be "localhost:70000": it takes {HOST}',
            f'5: relay_host can\'t be "*": it takes {UPSTREAM}',
            f'6: store_first can\'t be "maybe": it takes {TRUTH}',
        ],
    ),
    (
        b"path = x\nwords\n[iolog]\niolog_dir =\niolog_file = %{user}\nprompts = a,,b\nlog_passwords = \xff\n[eventlog]\nlog_format = xml\n",
        [
            "1: the line is refused: it stands before the first `[section]`",
            "2: the line is refused: it is neither `[section]` nor `key = value`",
            '4: iolog_dir can\'t be "": it takes a path, which may not be empty',
            '5: iolog_file can\'t be "%{user}": it takes %{seq} alone',
            '6: prompts can\'t be "a,,b": it takes 1 to 16 texts of 1 to 64 bytes, with commas between them',
            "7: the line is refused: it isn't UTF-8",
            '9: log_format can\'t be "xml": it takes sudo or json',
        ],
    ),
]

# section and key, and why the key is passed over
PASSED = [
    (b"server", b"timeout", "the server has no timeouts, and each wait of `relay` ends after 30 s"),
    (b"server", b"TLS_Cert", "this server has no TLS: OPERATIONS shows a tunnel under Exposure"),
    (b"server", b"tls_new", "this server has no TLS: OPERATIONS shows a tunnel under Exposure"),
    (b"eventlog", b"log_type", "events go to the file `path` of [logfile], never to syslog"),
    (b"server", b"log_exit", "its section is [eventlog]"),
    (b"iolog", b"Path", "its section is [logfile]"),
    (b"iolog", b"log_pasword", "there is no such key; is it log_passwords of [iolog]?"),
    (b"server", b"listen_addres", "there is no such key; is it listen_address of [server]?"),
    (b"server", b"zzzzzz", "there is no such key"),
    (b"server", b"log_file_of_events", "there is no such key"),
]


class Said:
    def __init__(self, program, replay):
        self.folder = tempfile.mkdtemp()
        os.chmod(self.folder, 0o755)
        self.program, self.replay = (shutil.copy(os.path.realpath(path), self.folder) for path in (program, replay))
        self.asked = self.differ = 0
        self.names = {name: os.path.join(self.folder, name.lower()) for name in ("DIR", "NOSUCH", "FILE", "OTHER", "CONF")}
        os.makedirs(self.names["OTHER"] + "/some")
        with open(self.names["FILE"], "wb"):
            pass
        self.write_store()

    def write_store(self):
        """Seven logs, of which two are damaged, one has lost its journal, and two have journals without an entry."""
        for number in range(1, LOGS + 1):
            stores.write_log(self.names["DIR"], number, stores.head_text((1700000000, 0), INFO), [(1, "stdout", b"0\n")], stores.exit_text((1, 0), 0))
        stores.write_numbers(self.names["DIR"], LOGS)
        os.remove(self.file(2, "stdout"))
        os.remove(self.file(3, "slots"))
        with open(self.file(4, "timing"), "r+b") as file:
            file.truncate(3)
        with open(self.file(6, "slots"), "wb"):
            pass
        with open(self.file(7, "slots"), "r+b") as file:
            file.write(b"\xff" * 180)

    def file(self, number, name):
        return os.path.join(self.names["DIR"], "00", "00", f"{number:02}", name)

    def named(self, text):
        """A text with the places in it."""
        for name, place in self.names.items():
            text = text.replace(name, place)
        return text

    def run(self, program, *words, **how):
        return subprocess.run([program, *map(self.named, words)], stdin=subprocess.DEVNULL, capture_output=True, cwd=self.folder, check=False, timeout=180, **how)

    def says(self, program, words, lines, status, behind=0, **how):
        """The lines on standard error, but for so many at the end, and the status."""
        answer = self.run(program, *words, **how)
        said = answer.stderr.decode().splitlines()
        said = said[:len(said) - behind]
        wanted = [f"{os.path.basename(program)}: {self.named(line)}" for line in lines]
        self.asked += 1
        if (said, answer.returncode) != (wanted, status):
            self.differ += 1
            print(f"{words}: {said} {answer.returncode} for {wanted} {status}"[:2000])
        return answer.stdout

    def words(self):
        for words, lines in USAGE:
            self.says(self.replay, words, [*lines, "usage"], 2, behind=1)
        for words, line in COMMANDS:
            self.says(self.program, words, [line, "usage"], 2, behind=5)

    def searches(self):
        for words, at, line in SEARCHES:
            self.says(self.replay, ["-d", "DIR", "-l", *words], [line, f"bad expression at word {at}"], 3, behind=1)

    def folders(self):
        for place, line in FOLDERS:
            self.says(self.replay, ["-d", place, "-l"], [line, "read fault"], 5)
            self.says(self.replay, ["-d", place, "000001"], [line, "read fault"], 5)

    def logs(self):
        """A listing names each log that it passes over though its files are there."""
        self.listed(self.says(self.replay, ["-d", "DIR", "-l"], [*UNLISTED, "log damaged"], 4), [1, 5])
        self.says(self.replay, ["-d", "DIR", "000002"], [f"log 000002 (DIR/00/00/02): stdout {GARBLED}", "log damaged"], 4)
        self.says(self.replay, ["-d", "DIR", "000003"], [f"log 000003 (DIR/00/00/03): {GONE}, so it can't be played: put it back from a copy", "no such log"], 8, behind=1)
        self.says(self.replay, ["-d", "DIR", "000006"], [f"log 000006 (DIR/00/00/06): {NO_ENTRY}, so it can't be played{EMPTIED}", "no such log"], 8, behind=1)
        self.says(self.replay, ["-d", "DIR", "00000A"], ["DIR has no log 00000A", "no such log"], 8, behind=1)
        for word in ("000001@1", "00/00/01"):
            self.says(self.replay, ["-d", "DIR", word], [f'"{word}" is no identifier: paths and offsets aren\'t taken', "no such log"], 8, behind=1)

    def listed(self, text, numbers):
        self.asked += 1
        found = [int(line.split(b"TSID=")[1].split(b" ")[0], 36) for line in text.splitlines()]
        if found != numbers:
            self.differ += 1
            print(f"listed {found} for {numbers}")

    def numbers(self):
        """The number file is garbled, gone, emptied, and older than the logs."""
        path = os.path.join(self.names["DIR"], "seq2")
        with open(path, "rb") as file:
            kept = file.read()
        with open(path, "wb") as file:
            file.write(bytes([kept[0], kept[1], *bytes(len(kept) - 2)]))
        self.says(self.replay, ["-d", "DIR", "-l"], [NUMBERS_DAMAGED, "log damaged"], 4)
        os.remove(path)
        self.says(self.replay, ["-d", "DIR", "-l"], [NUMBERS_EMPTY], 0)
        self.says(self.replay, ["-d", "DIR", "-m", "0", "000001"], [], 0)
        for empty in (b"", b"\0", bytes(26), kept[:5]):
            with open(path, "wb") as file:
                file.write(empty)
            self.says(self.replay, ["-d", "DIR", "-l"], [NUMBERS_EMPTY], 0)
        os.remove(path)
        stores.write_numbers(self.names["DIR"], LOGS - 2)
        self.says(self.replay, ["-d", "DIR", "-l"], [NUMBERS_OLDER, *UNLISTED[:3], "log damaged"], 4)
        self.says(self.replay, ["-d", "DIR", "-m", "0", "000001"], [], 0)
        with open(path, "wb") as file:
            file.write(kept)

    def denied(self):
        """Another user is told who may read the store."""
        how = dict(user=NOBODY, group=NOBODY, extra_groups=[]) if os.getuid() == 0 else {}
        os.chmod(self.names["DIR"], 0o700 if how else 0)
        if how or os.getuid() != 0:
            answer = self.run(self.replay, "-d", "DIR", "-l", **how)
            self.asked += 1
            line = f"sudoreplay: {self.named('DIR')}: only root and the user that runs the server may read this store"
            if answer.returncode != 5 or line not in answer.stderr.decode().splitlines():
                self.differ += 1
                print(f"denied: {answer}")
        os.chmod(self.names["DIR"], 0o700)

    def left(self):
        """Nothing is said to who reads a part of the listing."""
        reader, writer = os.pipe()
        os.close(reader)
        answer = subprocess.run([self.replay, "-d", self.names["DIR"], "-l"], stdin=subprocess.DEVNULL, stdout=writer, stderr=subprocess.PIPE, check=False, timeout=180)
        os.close(writer)
        self.asked += 1
        if (answer.returncode, answer.stderr) != (6, b""):
            self.differ += 1
            print(f"left: {answer}")

    def settings(self):
        for text, lines in SETTINGS:
            self.with_settings(text, [f"CONF:{line}" for line in lines], lines[0].split(":")[0])
        self.with_settings(b"wrong\n" * 60, [*(f"CONF:{n}: the line is refused: it is neither `[section]` nor `key = value`" for n in range(1, 51)), "CONF: 10 more lines are refused"], 1)
        passed = b"".join(b"[%s]\n%s = 1\n" % (section, key) for section, key, _ in PASSED)
        self.looks(passed, [f"CONF:{2 * n}: warning: {key.decode()} is passed over: {why}" for n, (_, key, why) in enumerate(PASSED, 1)])
        self.looks(b"[server]\nlisten_address = 0\n", ["CONF: warning: listen_address: the host 0 is a number, which the system takes for an address (0 is every address): write *:PORT for every address, or the name or address itself"])
        os.chmod(self.names["CONF"], 0o666)
        self.looks(b"", ["CONF: warning: every user may write this file, and so say where the logs go: chmod o-w CONF"])
        self.says(self.program, ["check", "-f", "NOSUCH"], ["NOSUCH: no such file, so `serve` would take the defaults: listen_address is *:30343 (every address), iolog_dir is /var/log/sudo-io, path is /var/log/sudo.log: `settings line 0` stands for that", "settings line 0"], 3)
        line = "CONF: the settings file couldn't be read: `settings line 0` stands for that"
        os.remove(self.names["CONF"])
        os.makedirs(self.names["CONF"])
        answer = self.run(self.program, "once", "-f", "CONF")
        self.asked += 1
        if answer.returncode != 3 or answer.stderr.decode().splitlines()[1:] != [f"sudo_logsrvd: {self.named(line)}", "sudo_logsrvd: settings line 0"]:
            self.differ += 1
            print(f"settings line 0: {answer}")

    def looks(self, text, lines):
        """A look at settings that are taken: what it says, and that it makes nothing."""
        with open(self.names["CONF"], "wb") as file:
            file.write(text)
        before = sorted(os.listdir(self.folder))
        self.says(self.program, ["check", "-f", "CONF"], lines, 0)
        self.asked += 1
        if sorted(os.listdir(self.folder)) != before:
            self.differ += 1
            print(f"a look made {sorted(os.listdir(self.folder))}")

    def with_settings(self, text, lines, first):
        with open(self.names["CONF"], "wb") as file:
            file.write(text)
        self.says(self.program, ["once", "-f", "CONF"], [*lines, f"settings line {first}"], 3)


def main():
    words = argparse.ArgumentParser(description=__doc__, formatter_class=argparse.RawDescriptionHelpFormatter)
    words.add_argument("program")
    words.add_argument("replay")
    args = words.parse_args()
    said = Said(args.program, args.replay)
    for step in (said.words, said.searches, said.folders, said.logs, said.numbers, said.denied, said.left, said.settings):
        step()
    shutil.rmtree(said.folder)
    print(f"{said.asked} asked, {said.differ} differ")
    return 1 if said.differ else 0


if __name__ == "__main__":
    sys.exit(main())
