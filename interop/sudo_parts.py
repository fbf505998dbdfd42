"""What is tried with sudo's own clients: sudo_sendlog, and sudo itself where root tries it."""
from __future__ import annotations

import os
import random
from collections.abc import Sequence

import at_root
import peer
from oracle.records import Record, cut_at, elapsed, stream_of
from tap import Sent
from trial import SECOND, Differs, Trial, only, same

INFO = {
    "columns": 80, "command": "/usr/bin/vi", "lines": 24, "runargv": ["vi", "/etc/motd", "a b", "ä"], "rungid": 0,
    "rungroup": "root", "runuid": 0,
    "runuser": "root", "submitcwd": "/home/ann", "submithost": "web1", "submituser": "ann",
}
# how the command ended, as sudo keeps it in log.json
ENDED = {"exit_value": 3, "run_time": {"seconds": 50, "nanoseconds": 7}}


def with_terminal() -> list[Record]:
    """A session on a terminal."""
    rng = random.Random(1)
    records = []
    for count in range(200):
        delay = rng.choice([0, rng.randrange(10**7), rng.randrange(10**9)])
        text = bytes(rng.randrange(256) for _ in range(rng.choice([1, 10, 300, 5000])))
        records.append((delay, rng.choice(["ttyin", "ttyout", "ttyout"]), text))
        if count % 25 == 24:
            records.append((delay, "winsize", rng.randrange(1, 90), rng.randrange(1, 300)))
        if count % 50 == 49:
            records += [(3, "suspend", "TSTP"), (2 * SECOND, "suspend", "CONT")]
    return records


def without_terminal() -> list[Record]:
    """A session without a terminal."""
    rng = random.Random(2)
    return [(rng.randrange(10**8), rng.choice(["stdin", "stdout", "stderr"]),
        bytes(rng.randrange(256) for _ in range(rng.randrange(1, 2000)))) for _ in range(100)]


def steady() -> list[Record]:
    """A session that sudo_sendlog can resume.

    It loses its place if records without a delay follow the point, and ends by SIGSEGV if the first record after it is
    a suspend (1.9.13p3).
    """
    rng = random.Random(3)
    records = []
    for count in range(400):
        text = bytes(rng.randrange(256) for _ in range(rng.choice([1, 10, 300, 5000])))
        records.append((rng.randrange(1, 10**8), rng.choice(["ttyin", "ttyout", "ttyout"]), text))
        if count % 25 == 24:
            records.append((rng.randrange(1, 10**6), "winsize", rng.randrange(1, 90), rng.randrange(1, 300)))
    return records


def terminal(trial: Trial) -> str:
    """The folder of the session on a terminal."""
    return trial.session("terminal", with_terminal(), {**INFO, **ENDED, "ttyname": "/dev/pts/3"})


def plain(trial: Trial) -> str:
    """The folder of the session without a terminal."""
    return trial.session("plain", without_terminal(),
        {**INFO, **ENDED, "exit_value": 143, "signal": "TERM", "dumped_core": True})


def sent_by(sent: Sent, records: Sequence[Record]) -> None:
    """What sudo_sendlog sent is what the session has, so that no part is compared with nothing."""
    same("records that sudo_sendlog sent", sent.records, records)


def part_sendlog_terminal(trial: Trial) -> None:
    """A session on a terminal."""
    trial.sendlog(terminal(trial))
    sent = trial.sent(1)
    sent_by(sent[0], with_terminal())
    same("exit", sent[0].exit,
        {"run_time": 50 * SECOND + 7, "exit_value": 3, "dumped_core": False, "signal": "", "error": ""})
    trial.store.compare(sent)


def part_sendlog_no_terminal(trial: Trial) -> None:
    """A session without a terminal."""
    trial.sendlog(plain(trial))
    sent = trial.sent(1)
    sent_by(sent[0], without_terminal())
    trial.store.compare(sent)


@only("serve", "once")
def part_sendlog_no_run_time(trial: Trial) -> None:
    """A session whose end sudo didn't record. Sudo's own server refuses it."""
    trial.sendlog(trial.session("endless", without_terminal(), INFO))
    trial.store.compare(trial.sent(1))


def part_sendlog_accept_only(trial: Trial) -> None:
    """The accept alone."""
    trial.sendlog("-A", plain(trial))
    sent = trial.sent(1)
    same("events", [name for name, _ in sent[0].events][:1], ["accept"])
    same("expects records", sent[0].accept["expect_iobufs"], False)
    trial.store.compare(sent)


def part_sendlog_reject(trial: Trial) -> None:
    """A reject."""
    trial.sendlog("-R", "not on a sunday", plain(trial))
    sent = trial.sent(1)
    same("reasons", [what.get("reason") for _, what in sent[0].events], ["not on a sunday"])
    trial.store.compare(sent)


def part_sendlog_ten(trial: Trial) -> None:
    """Ten connections at once."""
    trial.sendlog("-t", "10", terminal(trial))
    sent = trial.sent(10)
    for each in sent:
        sent_by(each, with_terminal())
    trial.store.compare(sent)


def part_sendlog_resumed(trial: Trial) -> None:
    """Stopped by sudo_sendlog itself, and resumed at the last commit point that it was given."""
    folder = trial.session("steady", steady(), {**INFO, **ENDED, "ttyname": "/dev/pts/3"})
    trial.sendlog("-s", "9,0", folder, status=1)
    resume(trial, folder)


@only("serve", "once")
def part_sendlog_cut_off(trial: Trial) -> None:
    """Cut off in the middle of a message, and resumed in the same way; then nobody may resume the log again."""
    folder = trial.session("steady", steady(), {**INFO, **ENDED, "ttyname": "/dev/pts/3"})
    trial.tap.cut = 60_000
    trial.sendlog(folder, status=1)
    trial.tap.cut = None
    digits, point = resume(trial, folder)
    said = trial.sendlog("-i", digits, "-r", point, folder, status=1)
    (again,) = trial.sent(1)
    same(f"errors, where a log is complete, {said}", again.errors, ["log complete"])


def resume(trial: Trial, folder: str) -> tuple[str, str]:
    """Goes on with the session of the last connection, which was cut off; gives its log and the point."""
    (first,) = trial.sent(1)
    if first.exit or not 0 < len(first.records) < len(steady()):
        raise Differs(f"{len(first.records)} records before the cut, exit {first.exit}")
    # sudo's own server sends no commit point in so short a time, and `serve` none to a client that has left in the
    # same turn
    stored = trial.store.cut_off(first)
    end = first.points[-1] if first.points else elapsed(stored)
    point = f"{end // SECOND},{end % SECOND}"
    trial.sendlog("-i", first.log_ids[0], "-r", point, folder)
    (sent,) = trial.sent(1)
    same("restart", sent.restart, (first.log_ids[0], end))
    same("records of both", cut_at(stored, end) + sent.records, steady())
    trial.store.log(sent, stored)
    trial.store.lines([first, sent])
    return first.log_ids[0], point


def data(sent: Sent, stream: str) -> bytes:
    """The bytes of one stream."""
    return stream_of(sent.records, stream)


def shown_is_sent(what: str, shown: bytes, sent: bytes, least: bytes = b"") -> None:
    """What sudo showed is what it sent, but for its end: it must have the least.

    sudo 1.9.13p3 may end before it has handed on the last output of its command, by its own server too. It has sent
    all of it.
    """
    same(what, shown, sent[:len(shown)])
    same(f"{least!r} is in what was shown, {shown!r}", least in shown, True)


def part_sudo_terminal(trial: Trial) -> None:
    """A command on a terminal."""
    script = "echo ready; read line; echo got $line; stty size; seq 1 2000; exit 7"
    status, shown, _ = trial.sudo.run("/bin/sh", "-c", script, terminal=True, given=b"some words\n",
        defaults=["use_pty"])
    same(f"status of sudo, {shown}", status, 7)
    sent = trial.sent(1)
    shown_is_sent("what the terminal showed", shown, data(sent[0], "ttyout"), b"ready")
    same("the end of what was sent", data(sent[0], "ttyout")[-12:], b"1999\r\n2000\r\n")
    same("what was typed", data(sent[0], "ttyin"), b"some words\n")
    same("exit", sent[0].exit["exit_value"], 7)
    trial.store.compare(sent)


def part_sudo_no_terminal(trial: Trial) -> None:
    """A command without a terminal."""
    given = bytes(range(256)) * 300
    status, out, err = trial.sudo.run("/bin/sh", "-c", "cat; echo to standard error >&2", given=given)
    same("status", status, 0)
    sent = trial.sent(1)
    for name, shown in (("stdout", out), ("stderr", err)):
        shown_is_sent(name, shown, data(sent[0], name))
    same("streams", [data(sent[0], name) for name in ("stdin", "stdout", "stderr")],
        [given, given, b"to standard error\n"])
    trial.store.compare(sent)


def part_sudo_signal(trial: Trial) -> None:
    """A command that a signal ends."""
    trial.sudo.run("/bin/sh", "-c", "echo before; kill -KILL $$")
    sent = trial.sent(1)
    same("signal", sent[0].exit["signal"], "KILL")
    trial.store.compare(sent)


def part_sudo_refused(trial: Trial) -> None:
    """A command that sudo refuses."""
    status, _, err = trial.sudo.run("/bin/sh", "-c", "id", user="nobody")
    same(f"status, {err}", status, 1)
    sent = trial.sent(1)
    same("events", [name for name, _ in sent[0].events], ["reject"])
    trial.store.compare(sent)


def part_sudo_no_records(trial: Trial) -> None:
    """A command without records."""
    status, out, _ = trial.sudo.run("/usr/bin/id", "-u", defaults=["!log_input", "!log_output"])
    same("status", (status, out), (0, b"0\n"))
    sent = trial.sent(1)
    same("log", sent[0].digits(), None)
    trial.store.compare(sent)


def part_sudo_subcommands(trial: Trial) -> None:
    """Each command that the shell runs is a further accept of the same session."""
    status, out, err = trial.sudo.run("/bin/sh", "-c", "/usr/bin/id -u; /usr/bin/env true; /bin/echo end",
        defaults=["log_subcmds"])
    same(f"status, {err}", status, 0)
    sent = trial.sent(1)
    same("output", data(sent[0], "stdout").split(b"\n")[-2:], [b"end", b""])
    shown_is_sent("what was shown", out, data(sent[0], "stdout"))
    commands = [it["info"]["command"] for it in sent[0].further]
    if not all(any(command.endswith(name) for command in commands) for name in ("/id", "/echo")):
        raise Differs(f"subcommands {commands}")
    trial.store.compare(sent)


def part_sudo_subcommand_refused(trial: Trial) -> None:
    """A command that the shell may not run is a reject within the session."""
    status, out, _ = trial.sudo.run("/bin/sh", "-c", "/usr/bin/id -u; /bin/echo end", user="daemon",
        defaults=["intercept"])
    same("status", status, 0)
    (sent,) = trial.sent(1)
    same("output", data(sent, "stdout"), b"end\n")
    shown_is_sent("what was shown", out, data(sent, "stdout"))
    if "reject" not in [name for name, _ in sent.events]:
        raise Differs(f"events {[name for name, _ in sent.events]}")
    trial.store.compare([sent])


@only("serve", "once")
def part_sudo_recorded(trial: Trial) -> None:
    """A session that sudo itself recorded, sent by sudo_sendlog.

    It has no run time, so sudo's own server refuses it.
    """
    kept = os.path.join(trial.work, "kept")
    trial.sudo.run("/bin/sh", "-c", "echo ready; read line; seq 1 500", terminal=True, given=b"x\n", server=False,
        defaults=["use_pty", "!compress_io", f"iolog_dir={kept}", "iolog_file=one"])
    folder = os.path.join(kept, "one")
    _, records, whole = peer.read_session(folder)
    same("recorded", (whole, len(records) > 2), (True, True))
    trial.sendlog(folder)
    sent = trial.sent(1)
    sent_by(sent[0], records)
    trial.store.compare(sent)
