#!/usr/bin/env python3
"""Tries the lines of sudoers that OPERATIONS has for auditors: they may list, play and search, and nothing else.

usage: auditors.py PROGRAM REPLAY

PROGRAM is sudo_logsrvd, REPLAY sudoreplay. The lines are the page's own, with other folders, and with users and groups
that each machine has. It is for root, and needs sudo; else it is skipped. It ends with 1 if something differs.
"""
from __future__ import annotations

import os
import shutil
import stat
import sys
import tempfile

import at_root
import client
import parts
import servers
from guards import ACCEPT
from oracle import store
from parts import Ended, Skipped, status_is
from recipes import block
from trial import Namespace, same

AUDITOR, OWNER = "daemon", "nobody"
AS_AUDITOR = ["setpriv", "--reuid", AUDITOR, "--regid", AUDITOR, "--clear-groups"]
SHOWN = b"what a session showed"


class Audit:
    """A store of a server that runs as its owner, programs in a folder, and sudoers that let an auditor read."""

    def __init__(self, program: str, replay: str) -> None:
        """Starts the server, and stores a session."""
        self.folder = tempfile.mkdtemp(prefix="interop")
        os.chmod(self.folder, 0o755)
        self.bins = os.path.join(self.folder, "bin")
        os.mkdir(self.bins)
        for path, name in ((program, "sudo_logsrvd"), (replay, "sudoreplay"), *((parts.scripts(it)[1], it)
            for it in ("sudo-grep", "sudo-cast"))):
            shutil.copy(path, os.path.join(self.bins, name))
        self.place = servers.Place(parent=self.folder)
        for path in (self.place.folder, self.place.conf):
            shutil.chown(path, OWNER)
        self.server = servers.Serve(os.path.join(self.bins, "sudo_logsrvd"), self.place)
        self.server.before = lambda: (os.setgroups([]), os.setgid(65534), os.setuid(65534))
        self.server.start()
        link = self.server.connect()
        link.send(client.hello(), ACCEPT, client.record((5, "ttyout", SHOWN)), client.exited(7))
        while link.read()[0] != "commit_point":
            pass
        link.close()

    def sudoers(self) -> str:
        """The page's lines, among those that sudo needs here."""
        text = block("Auditors who may play and not write", "Cmnd_Alias AUDIT")
        for old, new in (("/usr/local/bin", self.bins), ("/var/lib/sudo-logsrvd/logs", self.place.store),
            ("%audit", f"%{AUDITOR}"), ("(sudo-logsrvd)", f"({OWNER})")):
            same(f"{old} on the page", old in text, True)
            text = text.replace(old, new)
        front = f"Defaults !fqdn, !syslog, !lecture, !mailerpath, log_output, log_servers = 127.0.0.1:{self.place.port}"
        return f"{front}\nroot ALL = (ALL:ALL) ALL\n{text}\n"

    def sudo(self, *words: str, user: str = OWNER) -> Ended:
        """A command of the auditor, as another user."""
        path = os.path.join(self.folder, "sudoers")
        if not os.path.exists(path):
            with open(path, "w", encoding="utf-8") as file:
                file.write(self.sudoers())
            os.chmod(path, 0o440)
        inner = f'mount --bind "{path}" /etc/sudoers && exec "$@"'
        return parts.run("unshare", "-m", "--propagation", "private", "sh", "-c", inner, "sh", *AS_AUDITOR,
            servers.tool("sudo") or "", "-n", "-u", user, *words)

    def end(self) -> None:
        """Ends the server."""
        self.server.kill()
        shutil.rmtree(self.folder)


def contents(folder: str) -> dict[str, bytes]:
    """All files of a folder."""
    return {os.path.join(place, name): store.contents(os.path.join(place, name))
        for place, _, names in os.walk(folder) for name in names}


def part_auditors(program: str, replay: str) -> None:
    """What an auditor may do, and what not."""
    if not Namespace.is_possible() or servers.tool("sudo") is None:
        raise Skipped("it is for root, and needs sudo")
    audit = Audit(os.path.realpath(program), os.path.realpath(replay))
    try:
        tried(audit)
    finally:
        audit.end()


def tried(audit: Audit) -> None:
    """Each of these, by a member of the group."""
    logs, bins = audit.place.store, audit.bins
    before = contents(logs)
    player = os.path.join(bins, "sudoreplay")
    listing = status_is("list", 0, audit.sudo(player, "-d", logs, "-l"))
    same("list", listing.stdout.count(b"TSID=000001"), 1)
    same("play", status_is("play", 0, audit.sudo(player, "-d", logs, "-m", "0", "000001")).stdout, SHOWN)
    words = ["-d", logs, "-l", "showed", "user", "ann"]
    found = status_is("search", 0, audit.sudo(os.path.join(bins, "sudo-grep"), *words))
    same("search", found.stdout, b"000001\n")
    cast = status_is("cast", 0, audit.sudo(os.path.join(bins, "sudo-cast"), "-d", logs, "000001"))
    same("cast", SHOWN in cast.stdout, True)
    # what is refused: by sudo, and a second folder by the programs
    for words in ([player, "-l"], [player, "-d", "/tmp", "-l"], ["/bin/rm", "-r", logs], ["/bin/sh"],
        [os.path.join(bins, "sudo-cast"), "-i", "-d", logs, "000001"]):
        status_is(f"refused: {words}", 1, audit.sudo(*words))
    status_is("as root", 1, audit.sudo(player, "-d", logs, "-l", user="root"))
    for name, words in (("sudoreplay", ["-l"]), ("sudo-grep", ["x"]), ("sudo-cast", ["000001"])):
        ended = audit.sudo(os.path.join(bins, name), "-d", logs, "-d", "/tmp", *words)
        status_is(f"another folder for {name}", 2, ended)
    status_is("without sudo", 5, parts.run(*AS_AUDITOR, player, "-d", logs, "000001"))
    same("the store", contents(logs), before)
    same("modes", {stat.S_IMODE(os.stat(path).st_mode) for path in before}, {0o600})
    # sudo doesn't wait until its event is taken
    parts.until("event lines of the seven commands that ran", lambda: len(said_of_auditor(audit)) >= 7)
    said = said_of_auditor(audit)
    same("event lines of the seven commands that ran", (len(said), b'"iolog"' in b"".join(said)), (7, False))


def said_of_auditor(audit: Audit) -> list[bytes]:
    """The event lines of the auditor's commands."""
    return [line for line in store.lines(audit.place.events) or [] if b'"submituser":"daemon"' in line]


if __name__ == "__main__":
    sys.exit(parts.run_parts(globals(), __doc__ or "", 2))
