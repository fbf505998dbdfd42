#!/usr/bin/env python3
"""Reads the manual pages against the programs: the same commands, options, settings, defaults, statuses and messages.

usage: pages.py PROGRAM REPLAY [SENDLOG [LOGCHECK]]

PROGRAM is sudo_logsrvd, REPLAY sudoreplay, SENDLOG sudo_sendlog, LOGCHECK sudo_logcheck.
Each option that a page shows must be taken, and no other letter; each
setting of sudo_logsrvd.conf(5) must be known with its default, and each key that the page says is passed over must
be reported as that. The sample in etc/ must hold each setting with its default. The numbers and texts of the
statuses, and the texts that a client gets, are compared with the sources. It ends with 1 where something differs.
"""
from __future__ import annotations

import argparse
import os
import re
import string
import subprocess
import sys
import tempfile
from collections.abc import Sequence
from typing import Any

ROOT = os.path.join(os.path.dirname(os.path.abspath(__file__)), "..")
DIFFERENCES = "DIFFERENCES FROM SUDO'S OWN"


def text_of(path: str) -> str:
    """The text of a file of the repository."""
    with open(os.path.join(ROOT, path), encoding="utf-8") as file:
        return file.read()


def sections(page: str) -> dict[str, str]:
    """The sections of a page, by their names."""
    parts = re.split(r"^\.Sh (.*)$", text_of(page), flags=re.M)
    return dict(zip(parts[1::2], parts[2::2]))


class Pages:
    """The programs whose pages are read, and how often they were asked and differed."""

    def __init__(self, program: str, replay: str, sendlog: str | None = None, logcheck: str | None = None) -> None:
        """Nothing was asked yet."""
        self.program, self.replay = os.path.realpath(program), os.path.realpath(replay)
        self.sendlog = sendlog and os.path.realpath(sendlog)
        self.logcheck = logcheck and os.path.realpath(logcheck)
        self.folder = tempfile.mkdtemp()
        self.asked = self.differ = 0
        self.unknown: set[str] | None = None
        self.conf = os.path.join(self.folder, "conf")
        self.places = f"\n[iolog]\niolog_dir = {self.folder}/store\n[logfile]\npath = {self.folder}/events\n"

    def same(self, what: str, one: Any, other: Any) -> None:
        """Asks once, and prints what differs."""
        self.asked += 1
        if one != other:
            self.differ += 1
            print(f"{what}: {one!r} for {other!r}"[:1000])

    def run(self, program: str, *words: str) -> subprocess.CompletedProcess[bytes]:
        """Runs a program in the temporary folder."""
        return subprocess.run([program, *words], stdin=subprocess.DEVNULL, capture_output=True, cwd=self.folder,
            check=False, timeout=180)

    def read(self, settings: str) -> tuple[list[str], int]:
        """What the server says of settings, line by line, and how it ends."""
        with open(self.conf, "w", encoding="utf-8") as file:
            file.write(settings)
        answer = self.run(self.program, "once", "-f", self.conf)
        return answer.stderr.decode().splitlines(), answer.returncode

    def options(self) -> None:
        """Letters that a program takes, with a value or without one, and those of its page."""
        # a store without a log: its number file has no entry
        os.makedirs(self.folder + "/empty", exist_ok=True)
        with open(self.folder + "/empty/seq2", "wb"):
            pass
        values = {"d": "empty", "f": "stdout"}
        shown = set(re.findall(r"^\.It Fl (\w)", sections("man/sudoreplay.8")["DESCRIPTION"], flags=re.M))
        taken = set()
        for letter in string.ascii_letters + string.digits:
            front = [] if letter == "d" else ["-d", "empty"]
            for value in ([], [values.get(letter, "1")]):
                if self.run(self.replay, *front, "-" + letter, *value,
                    *([] if letter == "l" else ["000001"])).returncode in (0, 8):
                    taken.add(letter)
        self.same("options of sudoreplay", sorted(taken), sorted(shown))
        # a settings file that is refused ends a command whose words are taken at once, and it touches nothing
        with open(self.folder + "/wrong", "w", encoding="utf-8") as file:
            file.write("wrong\n")
        page = sections("man/sudo_logsrvd.8")["DESCRIPTION"]
        shown = set(re.findall(r"^\.It Cm (\w+)$", page, flags=re.M))
        taken = {word for word in ("once", "serve", "relay", "load", "check",
            "send") if 3 in [self.run(self.program, word, "-f", "wrong", *behind).returncode for behind in ([], ["1"])]}
        self.same("commands", taken, shown)
        taken_commands = taken
        shown = set(re.findall(r"^\.It Fl (\S+)", page, flags=re.M))
        letters = list(string.ascii_letters + string.digits)
        letters += ["-" + name for name in ("lanes", "workers", "stop-after", "help", "version", "conf", "count")]
        taken = set()
        for letter in letters:
            for command in sorted(taken_commands):
                for value in ([], ["wrong" if letter == "f" else "1"]):
                    front, behind = [] if letter == "f" else ["-f", "wrong"], ["1"] if command == "load" else []
                    if self.run(self.program, command, *front, "-" + letter, *value, *behind).returncode == 3:
                        taken.add(letter)
        self.same("options of sudo_logsrvd", sorted(taken), sorted(shown))
        for words in (["--help"], ["-h"], ["--version"], ["-V"], []):
            for program in (self.program, self.replay):
                self.same(f"status of {words}", self.run(program, *words).returncode, 2)
        self.same("status of help", self.run(self.program, "help").returncode, 2)

    def sender(self) -> None:
        """The options of sudo_sendlog, whose words name a log that isn't there, and its form."""
        if not self.sendlog:
            return
        values, others = {"p": "1"}, {"i": ["-r", "1"], "r": ["-i", "x"]}
        shown = set(re.findall(r"^\.It Fl (\w)", sections("man/sudo_sendlog.8")["DESCRIPTION"], flags=re.M))
        taken = set()
        for letter in string.ascii_letters + string.digits:
            front = [] if letter == "d" else ["-d", "empty"]
            for value in ([], ["empty" if letter == "d" else values.get(letter, "1")]):
                words = [*front, "-" + letter, *value, *others.get(letter, []), "000001"]
                if self.run(self.sendlog, *words).returncode == 4:
                    taken.add(letter)
        self.same("options of sudo_sendlog", sorted(taken), sorted(shown))
        reason, form = self.run(self.sendlog, "--none").stderr.decode().splitlines()
        self.same("reason of a usage error of sudo_sendlog", reason.split("--none")[0], "sudo_sendlog: ")
        self.same("the form of sudo_sendlog", sorted(re.findall(r"(?<!\w)-(\w)", form)),
            sorted(re.findall(r"Fl (\S+)", sections("man/sudo_sendlog.8")["SYNOPSIS"])))

    def check(self) -> None:
        """The options of sudo_logcheck, on a store without a log, and its form."""
        if not self.logcheck:
            return
        page = sections("man/sudo_logcheck.8")
        shown = set(re.findall(r"^\.It Fl (\S+)", page["DESCRIPTION"], flags=re.M))
        taken = set()
        for letter in [*string.ascii_letters, *string.digits, "-json", "-digest", "-help", "-version", "-seal"]:
            front = [] if letter == "d" else ["-d", "empty"]
            for value in ([], ["empty"]):
                if self.run(self.logcheck, *front, "-" + letter, *value).returncode != 2:
                    taken.add(letter)
        self.same("options of sudo_logcheck", sorted(taken), sorted(shown))
        reason, _, form = self.run(self.logcheck, "--none").stderr.decode().splitlines()
        self.same("reason of a usage error of sudo_logcheck", reason.split("--none")[0], "sudo_logcheck: ")
        self.same("the form of sudo_logcheck", sorted(re.findall(r"(?<!\w)-(-?\w+)", form)),
            sorted(re.findall(r"Fl (\S+)", page["SYNOPSIS"])))

    def script(self) -> None:
        """The options of sudo-layout, as of the programs."""
        out = self.folder + "/out"
        shown = set(re.findall(r"^\.It Fl (\w)", sections("man/sudo-layout.1")["DESCRIPTION"], flags=re.M))
        script = os.path.join(ROOT, "contrib", "sudo-layout")
        taken = set()
        for letter in string.ascii_lowercase:
            front = ["-d", "empty"] if letter == "o" else ["-o", out]
            if self.run(script, *front, "-" + letter, "empty").returncode == 0:
                taken.add(letter)
        self.same("options of sudo-layout", sorted(taken), sorted(shown))

    def forms(self) -> None:
        """The lines behind a usage error show what the synopsis does: of the server one for each command."""
        for program, name in ((self.program, "sudo_logsrvd"), (self.replay, "sudoreplay")):
            reason, front, *forms = self.run(program, "--none").stderr.decode().splitlines()
            self.same(f"reason of a usage error of {name}", reason.split("--none")[0], f"{name}: ")
            synopsis = sections(f"man/{name}.8")["SYNOPSIS"]
            wanted = len(re.findall(r"^\.Cm \w+$", synopsis, flags=re.M)) or 1
            self.same(f"lines of a usage error of {name}", (front, len(forms)), (f"{name}: usage", wanted))
            letters = sorted(re.findall(r"Fl (\S+)", synopsis))
            shown = [word.removeprefix("-") for word in re.findall(r"(?<![\w-])-([\w-]+)", " ".join(forms))]
            self.same(f"options of the forms of {name}", sorted(shown),
                sorted(letter.removeprefix("-") for letter in letters))

    def settings(self) -> None:
        """Each setting of the page is known, with its default, and the sample has it."""
        page = sections("man/sudo_logsrvd.conf.5")
        parts = re.split(r"^\.Ss (\w+)$", page["DESCRIPTION"], flags=re.M)
        sample = re.findall(r"^\[(\w+)\]|^#(\w+) = (.*)$", text_of("etc/sudo_logsrvd.conf"), flags=re.M)
        place, sampled = None, {}
        for section, key, value in sample:
            place = section or place
            if key:
                sampled[place, key] = value
        shown = {}
        for section, body in zip(parts[1::2], parts[2::2]):
            for item in re.split(r"^\.It ", body, flags=re.M)[1:]:
                key = re.match(r"Cm (\w+) No =", item)[1]
                default = re.search(r"default is\n\.\w+ (.*?)(?: [.:])?$", item, flags=re.M)
                shown[section, key] = default[1] if default else None
        self.same("settings of the sample", sorted(sampled), sorted(shown))
        table = re.findall(r'row "(\w+)" "(\w+)" \w+\)?(?: "(.*)")? ∷', text_of("crates/lsv_conf/specs/Table.antt"))
        self.same("settings of the table", {(section, key): default or None for section, key, default in table}, shown)
        known = sorted((section, key) for section, key in self.candidates() if self.is_known(section, key))
        self.same("settings that are known", known, sorted(shown))
        for (section, key), default in shown.items():
            if default is None:
                continue
            self.same(f"sample of {key}", sampled[section, key], default)
            self.same(f"default of {key}", self.read(f"[{section}]\n{key} = {default}\n{self.places}"), ([], 0))
        for whole in (text_of("etc/sudo_logsrvd.conf"),
            re.sub(r"^#(\w+ = )", r"\1", text_of("etc/sudo_logsrvd.conf"), flags=re.M)):
            self.same("sample", self.read(whole + self.places), ([], 0))

    def candidates(self) -> list[tuple[str, str]]:
        """Keys of this repository's and of sudo's own documents, in each section."""
        keys = {key for text in ("man/sudo_logsrvd.conf.5",
            "etc/sudo_logsrvd.conf") for key in re.findall(r"\b[a-z]+_[a-z]+\b|^\.(?:It Cm|Ql) (\w+)",
            text_of(text)) if key}
        keys |= {"prompts", "path"} | set(re.findall(r"\b[a-z]+_[a-z_]*[a-z]\b", text_of("docs/SETTINGS.md")))
        if os.path.exists("/etc/sudo_logsrvd.conf"):
            keys |= set(re.findall(r"^#?(\w+) = ", text_of("/etc/sudo_logsrvd.conf"), flags=re.M))
        return [(section, key) for section in ("server", "relay", "iolog", "eventlog", "logfile",
            "syslog") for key in sorted(keys)]

    def is_known(self, section: str, key: str) -> bool:
        """A known key isn't reported as passed over, whatever its value."""
        wanted = f"{section} {key}"
        if self.unknown is None:
            # a server that relays to itself is refused as a whole
            lines = [f"[{s}]\n{k} = {'elsewhere' if k == 'relay_host' else 'on'}" for s, k in self.candidates()]
            self.unknown = self.passed_over(lines)
        return wanted not in self.unknown

    def passed_over(self, lines: Sequence[str]) -> set[str]:
        """The settings that are reported as passed over. A refused line ends the reading, so it is taken out."""
        lines = list(lines)
        while True:
            said, status = self.read("\n".join(lines) + self.places)
            front = r":(\d+): (?:the line is refused|\w+ can't be)"
            refused = [int(number) for number in re.findall(front, "\n".join(said))]
            if status != 3 or not refused:
                break
            del lines[(refused[0] - 1) // 2]
        passed = set()
        for number, key in re.findall(r":(\d+): warning: (\w+) is passed over", "\n".join(said)):
            section = lines[(int(number) - 1) // 2].split("]")[0].strip("[")
            passed.add(f"{section} {key}")
        return passed

    def passed(self) -> None:
        """What the page says is passed over is."""
        item = sections("man/sudo_logsrvd.conf.5")[DIFFERENCES].split("and those of the section")[0]
        keys = [key for key in re.findall(r"^\.Ql (\w+)", item,
            flags=re.M) if not key.startswith("tls_")] + ["tls_cert"]
        for key in keys:
            said, status = self.read(f"[server]\n{key} = x\n{self.places}")
            front = f"sudo_logsrvd: {self.conf}:2: warning: {key} is passed over: "
            why = said[0].removeprefix(front) if len(said) == 1 and said[0].startswith(front) else said
            has_reason = isinstance(why, str) and "no such key" not in why
            self.same(f"passed over {key}, with a reason of its own", (has_reason, status), (True, 0))

    def refused(self) -> None:
        """The reasons of refused lines are those of the page."""
        reasons = re.findall(r"^\.It Sy (.*)$", sections("man/sudo_logsrvd.conf.5")["DIAGNOSTICS"], flags=re.M)
        found = []
        for line in (b"\xff", b"key", b"key = 1", b"[iolog]\nlog_passwords = perhaps", b"[iolog]\n= 1",
            b"[server]\nlisten_address = *:30344(tls)"):
            with open(self.conf, "wb") as file:
                file.write(line + b"\n")
            answer = self.run(self.program, "once", "-f", self.conf)
            said = answer.stderr.decode().splitlines()
            number = line.count(b"\n") + 1
            front = f"sudo_logsrvd: {self.conf}:{number}: "
            self.same(f"refusal of {line}", (answer.returncode, said[0].startswith(front), said[1]),
                (3, True, f"sudo_logsrvd: settings line {number}"))
            reason = said[0].removeprefix(front).removeprefix("the line is refused: ")
            reason = re.sub(r"""^\w+ can't be ".*": it takes .*$""", """KEY can't be "VALUE": it takes WHAT""", reason)
            found.append(reason.replace("`[section]`", "`[section]'").replace("`key = value`", "`key = value'"))
        self.same("reasons", sorted(set(found)), sorted(reasons))

    def statuses(self) -> None:
        """Numbers and texts of the statuses, as the sources have them, and texts that a client gets."""
        for page, source in (("man/sudo_logsrvd.8", "crates/lsv_serve/src/status.rt"),
            ("man/sudoreplay.8", "crates/lsv_replay/src/status.rt"),
            ("man/sudo_sendlog.8", "crates/lsv_send/src/status.rt"),
            ("man/sudo_logcheck.8", "crates/lsv_verdict/src/status.rt")):
            code = text_of(source)
            numbers = dict(re.findall(r"\w*Status::(\w+)(?:\(_\))? => (\d+),", code))
            texts = dict(re.findall(r'\w*Status::(\w+)(?:\(_\))? => (?:Bytes::of\(alloc, b)?"([a-z ]+)"', code))
            wanted = sorted((number, texts.get(name)) for name, number in numbers.items())
            shown = re.findall(r"^\.It (\d+)\n(?:\.Sy ([a-z ]+?)(?: n)? ?[.:]$)?", sections(page)["EXIT STATUS"],
                flags=re.M)
            self.same(f"statuses of {page}", sorted(number for number, _ in shown), sorted(set(numbers.values())))
            named = {number: text for number, text in shown if text}
            self.same(f"texts of {page}", {number: named.get(number) for number, text in wanted if text},
                {number: text for number, text in wanted if text})
        code = re.findall(r'Refusal::\w+ => "([a-z ]+)"', text_of("crates/lsv_request/src/refusal.rt"))
        shown = re.findall(r"^\.It Sy (.*)$", text_of("man/sudo_logsrvd.8").split(".Ss To the client")[1], flags=re.M)
        self.same("texts for clients", shown, code)

    def sudoreplays(self) -> None:
        """Names of searches and streams of the page."""
        page = sections("man/sudoreplay.8")["DESCRIPTION"]
        names = re.findall(r"^\.It Cm (\w+) Ar", page, flags=re.M)
        for name in names:
            value = "2026-11-28T09:30:00Z" if name.endswith("date") else "x"
            self.same(f"search {name}", self.run(self.replay, "-d", "empty", "-l", name, value).returncode, 0)
        self.same("names of searches", len(names), 9)
        for name in re.findall(r"^\.Cm (\w+) [,.]$", page.split(".It Fl f")[1].split("The default")[0], flags=re.M):
            self.same(f"stream {name}", self.run(self.replay, "-d", "empty", "-f", name, "000001").returncode, 8)


def main() -> int:
    """Reads all pages."""
    words = argparse.ArgumentParser(description=__doc__, formatter_class=argparse.RawDescriptionHelpFormatter)
    words.add_argument("program")
    words.add_argument("replay")
    words.add_argument("sendlog", nargs="?")
    words.add_argument("logcheck", nargs="?")
    args = words.parse_args()
    pages = Pages(args.program, args.replay, args.sendlog, args.logcheck)
    for step in (pages.options, pages.sender, pages.check, pages.script, pages.forms, pages.settings, pages.passed,
        pages.refused, pages.statuses, pages.sudoreplays):
        step()
    print(f"{pages.asked} asked, {pages.differ} differ")
    return 1 if pages.differ else 0


if __name__ == "__main__":
    sys.exit(main())
