#!/usr/bin/env python3
"""Writes the cases of lsvt_rows_settings (`stdin`) and what must be printed of them (`stdout`).

usage: rows.py FOLDER

It is a program of its own: it reads settings and command words as docs/SETTINGS.md has them, and writes the messages of
the generated load by the tables of sudo_logsrv.proto(5). It knows nothing of what the crates answer. A row that has its
answer beside it was worked out apart from this program too, and both must agree.
"""
from __future__ import annotations

import hashlib
import itertools
import re
import sys
from collections.abc import Callable, Iterable, Sequence
from typing import Any

from oracle import messages
from oracle.records import SECOND, decimal
from oracle.rows import Rows
from oracle.wire import frame

# ---- the settings file

TRUTH = {"true": True, "yes": True, "on": True, "1": True, "false": False, "no": False, "off": False, "0": False}
FORMATS = {"sudo": "Sudo", "json": "Json"}
BLANKS = " \t\r"


Take = Callable[[str], Any]
Values = dict[tuple[str, str], Any]


class Refused(Exception):
    """A value, a line or words that are refused."""


def address(value: str) -> str:
    """The address with its port."""
    found = re.fullmatch(r"(\[[^ \[\]()]+\]|[^ :\[\]()]+)(?::([1-9][0-9]{0,4}))?", value, re.S)
    if not found or (found[2] and int(found[2]) > 65535):
        raise Refused
    return value if found[2] else value + ":30343"


def relay(value: str) -> str:
    """The address of a relay, which is no `*`."""
    if re.match(r"\*(:|$)", value):
        raise Refused
    return address(value)


def one_of(table: dict[str, Any]) -> Take:
    """The value that a table has."""

    def take(value: str) -> Any:
        """The value of a text."""
        if value not in table:
            raise Refused
        return table[value]

    return take


def some(value: str) -> str:
    """A text that isn't empty."""
    if not value:
        raise Refused
    return value


def prompts(value: str) -> list[str]:
    """The texts of a list."""
    texts = [text.strip(BLANKS) for text in value.split(",")]
    if len(texts) > 16 or any(not 1 <= len(text.encode()) <= 64 for text in texts):
        raise Refused
    return texts


# section, key, what it takes, default
TABLE: list[tuple[str, str, Take, str | None]] = [
    ("server", "listen_address", address, "*:30343"),
    ("relay", "relay_host", relay, None),
    ("relay", "store_first", one_of(TRUTH), "false"),
    ("iolog", "iolog_dir", some, "/var/log/sudo-io"),
    ("iolog", "iolog_file", one_of({"%{seq}": "%{seq}"}), "%{seq}"),
    ("iolog", "log_passwords", one_of(TRUTH), "true"),
    ("iolog", "prompts", prompts, "assword:,assword for"),
    ("eventlog", "log_format", one_of(FORMATS), "sudo"),
    ("eventlog", "log_exit", one_of(TRUTH), "false"),
    ("logfile", "path", some, "/var/log/sudo.log"),
]
TAKES = {(section, key): take for section, key, take, _ in TABLE}


def lower(name: str) -> str:
    """Without regard to the case of ASCII letters, and of no others."""
    return "".join(chr(ord(c) + 32) if "A" <= c <= "Z" else c for c in name)


def line_of(
    section: str | None, raw: bytes, values: Values, passed: list[tuple[int, str]], number: int
) -> str | None:
    """Takes in one line, and gives the section after it."""
    line = raw.decode()  # a fault of it refuses the line
    line = line.partition("#")[0].strip(BLANKS)
    if not line or line[0] == ";":
        return section
    if line[0] == "[" and line[-1] == "]" and len(line) > 1:
        return line[1:-1]
    key, sign, value = line.partition("=")
    key, value = key.strip(BLANKS), value.strip(BLANKS)
    if not sign or not key or section is None:
        raise Refused
    place = lower(section), lower(key)
    if place in TAKES:
        values[place] = TAKES[place](value)
    else:
        passed.append((number, key))
    return section


def settings(text: bytes) -> int | tuple[Values, list[tuple[int, str]]]:
    """The settings that a text gives, or the number of its first refused line."""
    values = {(section, key): default and take(default) for section, key, take, default in TABLE}
    passed: list[tuple[int, str]] = []
    section = None
    for number, raw in enumerate(text.split(b"\n"), 1):
        try:
            section = line_of(section, raw, values, passed, number)
        except (Refused, UnicodeDecodeError):
            return number
    return values, passed


# what the values of a key are, as the program names it
KINDS = {
    "listen_address": "Listening", "relay_host": "Upstream", "store_first": "Truth", "log_passwords": "Truth",
    "log_exit": "Truth", "iolog_dir": "Path",
    "path": "Path", "iolog_file": "Sequence", "log_format": "Format", "prompts": "Texts",
}


def refusal(section: str | None, raw: bytes) -> tuple[str | None, str | None]:
    """Why a line is refused, if it is, and the section after it."""
    try:
        line = raw.decode()
    except UnicodeDecodeError:
        return "not UTF-8", section
    line = line.partition("#")[0].strip(BLANKS)
    if not line or line[0] == ";":
        return None, section
    if len(line) > 1 and line[0] == "[" and line[-1] == "]":
        return None, line[1:-1]
    key, sign, value = (text.strip(BLANKS) for text in line.partition("="))
    if not sign or not key:
        return "no form", section
    if section is None:
        return "no section", section
    try:
        TAKES.get((lower(section), lower(key)), str)(value)
    except Refused:
        return f"{KINDS[lower(key)]} {quoted(key)} {quoted(value)}", section
    return None, section


def shown_refusals(text: bytes) -> str:
    """All refused lines, each with its number and the reason."""
    section: str | None = None
    found = []
    for number, raw in enumerate(text.split(b"\n"), 1):
        why, section = refusal(section, raw)
        if why:
            found.append(f"{number} {why}")
    return "; ".join(found) or "none"


def quoted(text: str) -> str:
    """A text as it is printed."""
    escapes = {"\t": "\\t", "\r": "\\r", '"': '\\"', "\\": "\\\\", "'": "'", "\0": "\\0"}
    shown = "".join(escapes.get(c, c) if c in escapes or c.isprintable() else f"\\u{{{ord(c):x}}}" for c in text)
    return f'"{shown}"'


def shown_settings(text: bytes) -> str:
    """Settings as they are printed."""
    read = settings(text)
    if isinstance(read, int):
        return f"settings line {read}"
    values, passed = read
    words = []
    for section, key, _, _ in TABLE:
        value = values[section, key]
        if key == "iolog_file" or value is None or key == "prompts":
            continue
        shown = str(value).lower() if isinstance(value, bool) else value if key == "log_format" else quoted(value)
        words += [key, shown]
    words.append("prompts")
    words += [quoted(prompt) for prompt in values["iolog", "prompts"]]
    for number, key in passed:
        words += ["line", str(number), quoted(key)]
    return " ".join(words)


# ---- the command words

RANGES = {"--lanes": (1, 8), "--workers": (1, 64), "--stop-after": (1, 2**32 - 1), "count": (1, 10_000)}
OPTIONS = {
    "once": {"-f"}, "serve": {"-f", "--lanes", "--workers", "--stop-after"}, "load": {"-f"}, "relay": {"-f"},
    "check": {"-f"},
}
DEFAULT_CONF = "/etc/sudo_logsrvd.conf"


def number(text: str, low: int, high: int) -> int:
    """A number of a range."""
    if not re.fullmatch(r"\+?[0-9]+", text) or not low <= int(text) <= high:
        raise Refused
    return int(text)


def words_of(words: Sequence[str]) -> str:
    """What words ask for, by the forms of docs/SETTINGS.md: the command, and its options in any order."""
    if not words or words[0] not in OPTIONS:
        raise Refused
    command, rest = words[0], list(words[1:])
    given: dict[str, str] = {}
    counts: list[str] = []
    while rest:
        word = rest.pop(0)
        if word in OPTIONS[command]:
            if word in given or not rest or rest[0].startswith("-"):
                raise Refused
            given[word] = rest.pop(0)
        elif word.startswith("-") or command != "load":
            raise Refused
        else:
            counts.append(word)
    if len(counts) != (command == "load"):
        raise Refused
    numbers = {name: number(given[name], *RANGES[name]) for name in given if name in RANGES}
    asked = f"{command} {quoted(given.get('-f', DEFAULT_CONF))} lanes {numbers.get('--lanes', 1)}"
    asked += f" workers {numbers.get('--workers', 4)}"
    if "--stop-after" in numbers:
        asked += f" stop after {numbers['--stop-after']}"
    return f"{number(counts[0], *RANGES['count'])} {asked}" if counts else asked


def shown_words(words: Sequence[str]) -> str:
    """The answer to words."""
    try:
        return words_of(words)
    except Refused:
        return "usage"


# ---- the generated load

MILLISECOND = 10**6


def outputs(i: int) -> list[tuple[int, int, int]]:
    """Of each output of a conversation: its milliseconds, its length and its byte."""
    return [(j, j % 80 + 1, 97 + j % 26) for j in range(1, i % 50 + 2)]


def conversation(i: int) -> bytes:
    """The bytes of a client."""
    info = {"command": f"/bin/job{i}", "runuser": "root", "submituser": f"user{i % 10}", "submithost": "gen"}
    sent = [messages.hello("load"), messages.accept((1_700_000_000 + i) * SECOND, info)]
    for delay, length, byte in outputs(i):
        sent.append(messages.record((delay * MILLISECOND, "ttyout", bytes([byte]) * length)))
    sent.append(messages.exited(sum(j for j, _, _ in outputs(i)) * MILLISECOND, i % 256))
    return b"".join(map(frame, sent))


def summary(logs: int, records: int, data: int, elapsed: int, complete: int) -> str:
    """A summary as it is printed."""
    return f"logs {logs}\nrecords {records}\nbytes {data}\nelapsed {decimal(elapsed)}\ncomplete {complete}"


def load(n: int, open_too: bool) -> str:
    """The summary of a load of n conversations, perhaps beside a log that is open."""
    every = [output for i in range(1, n + 1) for output in outputs(i)]
    elapsed = sum(j for j, _, _ in every) * MILLISECOND + open_too * 1_000_000_001
    return summary(n + open_too, len(every) + open_too, sum(length for _, length, _ in every), elapsed, n)


# ---- the rows

ROWS = Rows()
note = ROWS.title


def row(case: str, answer: str, wanted: str | None = None) -> None:
    """A case and its answer, which must be the wanted one, if there is one."""
    assert wanted is None or answer == wanted, (case, answer, wanted)
    assert "\n" not in case
    ROWS.case(case, answer)


def escaped(text: str | bytes) -> str:
    """The bytes, with an escape for each that can't stand in a line, and for each `%` that would be read as one."""
    raw = text if isinstance(text, bytes) else text.encode()
    return "".join("%%%02X" % b if b < 32 or b > 126 or b == 37 else chr(b) for b in raw)


def bytes_of(text: str | bytes) -> bytes:
    """The bytes of a text."""
    return text if isinstance(text, bytes) else text.encode()


def conf(text: str | bytes, wanted: str | None = None) -> None:
    """Settings, and why their lines are refused."""
    row(f"settings {escaped(text)}", shown_settings(bytes_of(text)), wanted)
    if isinstance(settings(bytes_of(text)), int):
        refusals(text)


def refusals(text: str | bytes, wanted: str | None = None) -> None:
    """All refused lines of settings."""
    row(f"refused {escaped(text)}", shown_refusals(bytes_of(text)), wanted)


def words(line: str, wanted: str | None = None) -> None:
    """Words of a command."""
    row(f"words {line}", shown_words(line.split(" ")), wanted)


DEFAULTS = (
    'listen_address "*:30343" store_first false iolog_dir "/var/log/sudo-io" log_passwords true log_format Sudo'
    ' log_exit false path "/var/log/sudo.log" prompts "assword:" "assword for"'
)


def of(section: str, key: str, values: Iterable[str]) -> None:
    """Values of one key."""
    for value in values:
        conf(f"[{section}]\n{key} = {value}\n")


def settings_rows() -> None:
    """Rows of settings."""
    note("settings of which the answers are known")
    conf("", DEFAULTS)
    conf("[server]\nlisten_address = *:30343\n[relay]\nstore_first = maybe\n", "settings line 4")
    conf("[server]\ntimeout = 30\n", DEFAULTS + ' line 2 "timeout"')
    conf("; local\n[Server]\nListen_Address = *:30344\n", DEFAULTS.replace(":30343", ":30344"))
    conf("[iolog]\nprompts = a,,b", "settings line 2")
    conf("[iolog]\nprompts = Password:", DEFAULTS.replace('"assword:" "assword for"', '"Password:"'))


def edge_rows() -> None:
    """Rows of each key, with values at their edges."""
    note("each key at its edges")
    hosts = [
        "*", "a", "localhost", "127.0.0.1", "[::1]", "[a]", "ä", "a*b", "**", "a,b", "a=b", "-", "a;b", "a/b", "\\",
        "", ":", "[", "]", "[]", "[]:1", "[a", "a]", "[a]b", "[a][b]", "[[a]]", "[a b]", "a b", "a(tls)", "(a)",
        "[(a)]",
        "[a](tls)", "a\tb", "[a\tb]", "[:]", "[:", ":[a]", "a[b]", "::1",
    ]
    ports = ["1", "9", "10", "65535", "30343", "0", "00", "01", "65536", "99999", "100000", "+1", "-1", "", " 1", "1 ",
        "x", "1x", "ssh", "1:2", "३", "1(tls)"]
    for key in [("server", "listen_address"), ("relay", "relay_host")]:
        of(*key, hosts)
        of(*key, [f"{host}:{port}" for host in ["*", "a", "[::1]"] for port in ports])
    truths = ["true", "yes", "on", "1", "false", "no", "off", "0", "True", "YES", "ON", "tru", "truee", "t", "y", "2",
        "00", "01", "-1", "", "none", "true false", "\"true\""]
    for key in [("relay", "store_first"), ("iolog", "log_passwords"), ("eventlog", "log_exit")]:
        of(*key, truths)
    paths = ["/", "a", "", "/a b", "relative/path", "/var/log/%{user}", "/é", "/a=b", ";a", "[a]", "\"/a\""]
    of("iolog", "iolog_dir", paths)
    of("logfile", "path", paths)
    of("iolog", "iolog_file", ["%{seq}", "", "%{SEQ}", "%{seq}/", "{seq}", "%{seq}%{seq}", "%{user}/%{seq}", "% {seq}"])
    of("eventlog", "log_format",
        ["sudo", "json", "", "Sudo", "JSON", "json_pretty", "json_compact", "sudo json", "syslog"])
    longest = "x" * 64
    of("iolog", "prompts", [
        "a", "a,b", " a , b ", "\ta\t,\rb\r", "a b", longest, longest + "y", f"{longest},{longest}", "é" * 32,
        "é" * 32 + "x", "é" * 33,
        ",".join(["a"] * 16), ",".join(["a"] * 17), "", ",", ",a", "a,", "a, ,b", "[a]", ";a", "a=b", "\"a\"", "a\\",
        "%{seq}",
        " ,".join(longest for _ in range(16)),
    ])


def line_rows() -> None:
    """Rows of lines of all forms."""
    note("lines, comments and blanks")
    for text in [
        "\n", "\r\n", " \t\r", ";", "; x = y", "#", "# x", " ; x", "  # x", "[server]", "[server]\n", "[server]\r\n",
        " [server] \n",
        "[server] # x\n", "[server # x]\n", "[ser#ver]\n", "[]\nkey = 1\n", "[\nkey = 1\n", "[]", "]", "[", "[a", "a]",
        "[a]b", "[[a]]\nkey = 1\n",
        "[a]\n", "[a] [b]\nkey = 1\n", "[ server ]\nlisten_address = x\n", "[server]x\n",
        "[server\nlisten_address = a\n", "[a=b]\nkey = 1\n",
        "key = 1\n", "listen_address = a\n[server]\n", "=\n", "= 1\n", "[server]\n= 1\n", "[server]\n # = 1\n",
        "[server]\nkey\n", "[server]\nkey =\n",
        "[server]\nkey = \n[x]\nkey", "[server]\nlisten_address\n", "[server]\nlisten_address =\n",
        "[server]\nlisten_address=a\n",
        "[server]\n\t listen_address \t=\r a \r\n", "[server]\nlisten address = a\n",
        "[server]\nlisten_address = a = b\n", "[server]\nlisten_address == a\n",
        "[server]\nlisten_address = a # b\n", "[server]\nlisten_address = a#b\n", "[server]\nlisten#_address = a\n",
        "[server]\nlisten_address # = a\n",
        "[server]\nlisten_address = # a\n", "[server]\n#listen_address = (\n", "[server]\nlisten_address = a ; b\n",
        "[server]\nlisten_address = a;b\n",
        "[server]\n;listen_address = (\n", "[server]\n\t;listen_address = (\n", "[server]\nlisten_address = ;a\n",
        "[iolog]\niolog_dir = ;\n",
        "[server]\nlisten_address = a \\\n", "[server]\nlisten_address = a\\\n:1\n",
        "[server]\n\x0blisten_address = a\n", "[server]\nlisten_address = a\x0c\n",
        "[server]\nlisten_address = \u00a0a\u00a0\n", "\ufeff[server]\nlisten_address = a\n",
        "[server]\rlisten_address = a\n", "[iolog]\niolog_dir = a\rb\n",
        "[iolog]\niolog_dir = a\tb\n", "[iolog]\niolog_dir = a", "[iolog]\niolog_dir = a\n\n\n",
        "\n\n\n[iolog]\n\niolog_dir = a\n", "[x]\n\n\n\n\n\n\n\n\nkey\n",
    ]:
        conf(text)
    for raw in [
        b"\xff", b"# \xff\n", b"[server]\n; \xff\n", b"[server]\n# \xc3\xa9\n", b"[server]\nlisten_address = \xc3\n",
        b"[\xff]\n", b"[server]\nkey\xff = 1\n",
        b"[server]\n\xed\xa0\x80 = 1\n", b"[server]\n\xf4\x90\x80\x80 = 1\n", b"[server]\n\xc0\x80 = 1\n",
        b"[server]\nk\xc3\xa9y = \xc3\xa9\n",
        b"[server]\nlisten_address = \xc3\n\xa9\n", b"[server]\n# \xc3\n\xa9 = 1\n", b"[\xc3\xa9]\nkey = 1\n",
    ]:
        conf(raw)


def name_rows() -> None:
    """Rows of names."""
    note("names of sections and keys")
    for text in [
        "[SERVER]\nLISTEN_ADDRESS = A\n", "[sErVeR]\nlIsTeN_aDdReSs = a\n", "[server ]\nlisten_address = (\n",
        "[server]\nlisten-address = (\n",
        "[server]\nlisten_addres = (\n", "[server]\nlisten_addresss = (\n", "[relay]\nlisten_address = (\n",
        "[server]\nrelay_host = (\n",
        "[server]\nstore_first = maybe\n", "[iolog]\npath = \n", "[logfile]\niolog_dir =\n",
        "[eventlog]\nlog_passwords = maybe\n", "[iolog]\nlog_exit = maybe\n",
        "[Ser\u212aer]\nlisten_address = (\n", "[\u017ferver]\nlisten_address = (\n",
        "[server]\nli\u017ften_address = (\n", "[RELAY]\nRelay_Host = a\n",
        "[IoLog]\nIOLOG_DIR = A\n", "[EventLog]\nLOG_FORMAT = json\n", "[LogFile]\nPATH = /A\n",
        "[iolog]\nPrompts = A\n", "[iolog]\nLog_Passwords = no\n",
        "[iolog]\nIolog_File = %{seq}\n", "[eventlog]\nLog_Exit = yes\n", "[relay]\nStore_First = yes\n",
        "[syslog]\nkey = 1\nKey = 2\n[x]\nKEY = 3\n",
    ]:
        conf(text)


def again_rows() -> None:
    """Rows of keys that come again."""
    note("of a key that comes again the last counts, and the first refused line is told")
    for text in [
        "[server]\nlisten_address = a\nlisten_address = b\n",
        "[server]\nlisten_address = a\n[relay]\n[server]\nListen_Address = b:1\n",
        "[relay]\nrelay_host = a\nrelay_host = b\n", "[relay]\nstore_first = yes\nstore_first = no\n",
        "[iolog]\niolog_dir = a\niolog_dir = b\n",
        "[iolog]\nlog_passwords = no\nlog_passwords = yes\n", "[iolog]\nprompts = a\nprompts = b,c\n",
        "[eventlog]\nlog_format = json\nlog_format = sudo\n",
        "[eventlog]\nlog_exit = yes\nlog_exit = no\n", "[logfile]\npath = a\npath = b\n",
        "[server]\nlisten_address = a\nlisten_address =\n",
        "[server]\nlisten_address =\nlisten_address = a\n", "[server]\nlisten_address = (\nkey\n",
        "[server]\nkey\nlisten_address = (\n",
        "key\n[server]\nkey\n", "[server]\nx = 1\ny = 2\nx = 3\n[z]\nx = 4\n", "[server]\nx = 1\nlisten_address = (\n",
    ]:
        conf(text)
    conf("[x]\n" + "".join(f"k{n} = 1\n" for n in range(40)) + "[server]\nlisten_address = [::1]:1\n")
    conf("\n" * 300 + "key")


# ---- the file that Debian ships with sudo 1.9.13: every key, as it stands there, its sections in that file's order

SHIPPED = [
    ("server", [
        "listen_address = *:30343", "listen_address = *:30344(tls)", "pid_file = /run/sudo/sudo_logsrvd.pid",
        "server_log = syslog", "tcp_keepalive = true",
        "timeout = 30", "tls_verify = true", "tls_checkpeer = false", "tls_cacert = /etc/ssl/sudo/cacert.pem",
        "tls_cert = /etc/ssl/sudo/certs/logsrvd_cert.pem",
        "tls_key = /etc/ssl/sudo/private/logsrvd_key.pem", "tls_ciphers_v12 = HIGH:!aNULL",
        "tls_ciphers_v13 = TLS_AES_256_GCM_SHA384",
        "tls_dhparams = /etc/ssl/sudo/logsrvd_dhparams.pem",
    ]),
    ("relay", [
        "relay_host = relayhost.dom.ain", "relay_host = relayhost.dom.ain(tls)", "connect_timeout = 30",
        "relay_dir = /var/log/sudo_logsrvd", "retry_interval = 30",
        "store_first = true", "tcp_keepalive = true", "timeout = 30", "tls_verify = true", "tls_checkpeer = false",
        "tls_cacert = /etc/ssl/sudo/cacert.pem",
        "tls_cert = /etc/ssl/sudo/certs/logsrvd_cert.pem", "tls_key = /etc/ssl/sudo/private/logsrvd_key.pem",
        "tls_ciphers_v12 = HIGH:!aNULL",
        "tls_ciphers_v13 = TLS_AES_256_GCM_SHA384", "tls_dhparams = /etc/ssl/sudo/logsrvd_dhparams.pem",
    ]),
    ("iolog", [
        "iolog_dir = /var/log/sudo-io", "iolog_file = %{seq}", "iolog_compress = false", "iolog_flush = true",
        "iolog_group = wheel", "iolog_user = root",
        "iolog_mode = 0600", "log_passwords = true", "maxseq = 2176782336", "passprompt_regex = [Pp]assword[: ]*",
        "passprompt_regex = [Pp]assword for [a-z0-9]+: *",
    ]),
    ("eventlog", ["log_type = syslog", "log_exit = true", "log_format = sudo"]),
    ("syslog", ["maxlen = 960", "facility = authpriv", "accept_priority = notice", "reject_priority = alert",
        "alert_priority = alert", "server_facility = daemon"]),
    ("logfile", ["path = /var/log/sudo.log", "time_format = %h %e %T"]),
]


def refusal_rows() -> None:
    """Rows of refused lines."""
    note("all refused lines, each with its reason")
    refusals("", "none")
    refusals("[server]\ntimeout = 30\nlisten_address = a\n", "none")
    refusals("[server]\nlisten_address = *:30344(tls)\nwords\n[iolog]\nLog_Passwords = maybe\n",
        '2 Listening "listen_address" "*:30344(tls)"; 3 no form; 5 Truth "Log_Passwords" "maybe"')
    refusals(b"path = x\n[logfile]\npath = \n\xff\n[relay\n[relay]\nrelay_host = *\n",
        '1 no section; 3 Path "path" ""; 4 not UTF-8; 5 no form; 7 Upstream "relay_host" "*"')
    refusals("[a]\n" + "x\n" * 300, "; ".join(f"{n} no form" for n in range(2, 302)))


def shipped(mark: str, without: str = "") -> str:
    """The file, its keys after a mark, and without the lines that have this."""
    text = ""
    for section, lines in SHIPPED:
        shown = [mark + line for line in lines if not without or without not in line]
        text += f"\n[{section}]\n" + "\n\n".join(shown) + "\n"
    return text


def shipped_rows() -> None:
    """Rows of the file that sudo is shipped with."""
    note("the file that sudo is shipped with, its keys as comments, each key by itself, and all of them")
    conf(shipped("#"), DEFAULTS)
    conf(shipped(";"), DEFAULTS)
    for section, lines in SHIPPED:
        for line in lines:
            conf(f"[{section}]\n{line}\n", "settings line 2" if "(tls)" in line else None)
    conf(shipped(""))
    conf(shipped("", "(tls)"))


# ---- the words

def words_rows() -> None:
    """Rows of words."""
    note("the words of each form, their options in every order")
    row("nothing", shown_words([]), "usage")
    for options in [[], ["-f c"]]:
        words(" ".join(["once"] + options))
        words(" ".join(["relay"] + options))
        words(" ".join(["check"] + options))
    choices = ["-f /etc/c", "--lanes 8", "--workers 64", "--stop-after 7"]
    for count in range(5):
        for order in itertools.permutations(choices, count):
            words(" ".join(("serve",) + order))
    for order in [["300"], ["-f c", "300"], ["300", "-f c"]]:
        words(" ".join(["load"] + order))
    words("once", 'once "/etc/sudo_logsrvd.conf" lanes 1 workers 4')
    words("serve --stop-after 7 -f c --lanes 3", 'serve "c" lanes 3 workers 4 stop after 7')
    words("serve --workers 2 -f c --lanes 8", 'serve "c" lanes 8 workers 2')
    words("load 3 -f c", '3 load "c" lanes 1 workers 4')
    words("relay", 'relay "/etc/sudo_logsrvd.conf" lanes 1 workers 4')
    words("relay -f c", 'relay "c" lanes 1 workers 4')
    words("check", 'check "/etc/sudo_logsrvd.conf" lanes 1 workers 4')
    words("check -f c", 'check "c" lanes 1 workers 4')
    words("once -x", "usage")


def number_rows() -> None:
    """Rows of numbers."""
    note("numbers at the ends of their ranges, as clap reads them")
    for text in ["1", "10000", "0", "10001", "x", "1x", "", "1.0", "1,0", "01", "+3", "0010000", "00", "+0", "+", "++1",
        "4294967297", "18446744073709551617", "9" * 40, "३", "0x1", "1e3"]:
        words(f"load {text}")
    for text in ["1", "0", "4", "8", "9", "-4", "01", "08", "+1", "+8", "+9", "x", "", "4294967298"]:
        words(f"serve --lanes {text}")
    for text in ["1", "0", "4", "64", "65", "-4", "01", "064", "+64", "+65", "x", "", "4294967298"]:
        words(f"serve --workers {text}")
    for text in ["1", "0", "4294967295", "4294967296", "04294967295", "+7", "x", "", "9223372036854775808"]:
        words(f"serve --stop-after {text}")


def value_rows() -> None:
    """Rows of odd values."""
    note("values and further words that begin with a hyphen, and files of odd names")
    for line in [
        "once -f -c", "once -f --", "serve --lanes -1", "serve --stop-after -1", "load -1", "load -f -1 3", "once -f é",
        "once -f a=b", "once -f ;",
        "once -f once", "serve -f serve", "load -f 3 3", "load -f load 3",
    ]:
        words(line)


def refused_rows() -> None:
    """Rows of words that are refused."""
    note("words that are refused")
    for line in [
        "", " ", "once ", " once", "once x", "once -f", "once -f a -f b", "once -f a b", "once --lanes 1",
        "once --stop-after 1", "once --conf c", "once -c c", "once --f c",
        "once -F c", "Once", "ONCE", "on", "o", "oncee", "serve x", "serve --lanes", "serve --lanes 1 --lanes 1",
        "serve --stop-after", "serve --stop-after 1 --stop-after 2",
        "serve --stop_after 1", "serve --lane 1", "serve --worker 1",
        "serve --workers", "serve --workers 1 --workers 1",
        "serve --stop 1", "serve -l 1", "serve 3", "serve once", "once serve",
        "load", "load -f c", "load 3 4", "load 3 --stop-after 1",
        "load 3 --lanes 1", "load --count 3", "load -f 3", "relay x", "relay -f", "relay -f a -f b", "relay --lanes 1",
        "relay --stop-after 1", "relay --workers 1", "check x", "check -f", "check -f a -f b", "check --lanes 1",
        "check --workers 1", "check --stop-after 1", "check 3", "Check", "once --workers 1",
        "load 3 --workers 1", "relay 3", "relay once", "relay -x", "Relay", "relays", "live", "live -f c", "help",
        "help once", "-h", "--help", "-V", "--version", "version",
        "once help", "once --help", "once -h", "once -V", "once --version", "serve --help", "load --help", "load help",
        "-f c once", "--lanes 1 serve", "sudo_logsrvd once", "-x", "--x", "serve -x 1",
    ]:
        words(line, "usage")


def load_rows() -> None:
    """Rows of the generated load."""
    note("conversations, and digests of others")
    for i in [1, 2, 3]:
        row(f"conversation {i}", conversation(i).hex())
    first = (
        "000000086a060a046c6f61640000005b0a590a060881e2cfaa0612140a07636f6d6d616e641a092f62696e2f6a6f6231120f0a077275"
        "6e757365721a04726f6f7412130a0a7375626d6974757365721a05757365723112110a0a7375626d6974686f73741a0367656e180100"
        "00000c3a0a0a0410c0843d120262620000000d3a0b0a041080897a12036363630000000b1a090a0510c08db7011001"
    )
    row("conversation 1", conversation(1).hex(), first)
    for i in sorted({*range(1, 61), 49, 50, 99, 255, 256, 257, 511, 512, 768, 9999, 10_000, *range(61, 10_000, 97)}):
        row(f"digest {i}", f"{len(conversation(i))} {hashlib.md5(conversation(i)).hexdigest()}")
    total = sum(len(conversation(i)) for i in range(1, 10_001, 9))
    assert total == 1_081_755, total
    note("summaries")
    row("load 3", load(3, False), "logs 3\nrecords 9\nbytes 28\nelapsed 0.019000000\ncomplete 3")
    row("load 300", load(300, False), "logs 300\nrecords 7650\nbytes 140250\nelapsed 132.600000000\ncomplete 300")
    row("load 0", load(0, False))
    row("load 0 open", load(0, True))
    row("load 49 open", load(49, True))
    row("load 1000", load(1000, False))
    top = 2**64 - 1
    row("most", summary(top, top, top, top, top))


def main() -> None:
    """Writes all rows."""
    for add in (
        settings_rows, edge_rows, line_rows, name_rows, again_rows, refusal_rows, shipped_rows, words_rows, number_rows,
        value_rows,
        refused_rows, load_rows,
    ):
        add()
    ROWS.write(sys.argv[1])
    print(len(ROWS.cases), "rows")


if __name__ == "__main__":
    main()
