#!/usr/bin/env python3
"""Runs the tunnels of docs/OPERATIONS.md as they stand there, with sudo on one machine and the server on another.

usage: tunnel.py PROGRAM

PROGRAM is sudo_logsrvd. Each machine is a network, a process table and an /etc of its own. A sudo behind each tunnel is
stored. One with a stranger's certificate or key gets no session, and a client takes no other machine for the server. It
is for root; a tunnel whose package isn't installed is skipped. It ends with 1 if something differs.
"""
from __future__ import annotations

import os
import re
import shutil
import subprocess
import sys
import tempfile
from collections.abc import Sequence
from typing import Self

import at_root
import parts
import servers
from oracle import store
from oracle.connection import PATIENCE
from parts import Ended, Skipped
from recipes import block
from trial import Namespace, same

SAID = "error initializing I/O plugin"
STUNNEL, SPIPED = "A tunnel with stunnel", "A tunnel with spiped"
INSIDE = "mount -t tmpfs none /etc/stunnel 2>/dev/null; mount -t tmpfs none /run; ip link set lo up; exec sleep 1000"
HOSTS = "127.0.0.1 localhost\n10.77.0.1 loghost\n10.77.0.2 web1\n"
CONF = """[server]
listen_address = 127.0.0.1:30343
[iolog]
iolog_dir = {folder}/store
[logfile]
path = {folder}/events
"""


class Machine:
    """Namespaces that end with their first process, and all processes in them too."""

    def __init__(self, folder: str) -> None:
        """`folder` is where its files are made."""
        self.folder = folder
        os.makedirs(folder)
        words = ["unshare", "-n", "-m", "-p", "--fork", "--mount-proc", "--kill-child", "--propagation", "private"]
        words += ["sh", "-c", INSIDE]
        self.process = subprocess.Popen(words, stdout=subprocess.DEVNULL, stderr=subprocess.DEVNULL)
        parts.until("the first process", self.first)
        parts.until("the loopback", lambda: b"UP" in self.run("ip", "link", "show", "lo").stdout)
        self.put("/etc/hosts", HOSTS)

    def first(self) -> str:
        """The first process, as it is called outside."""
        path = f"/proc/{self.process.pid}/task/{self.process.pid}/children"
        try:
            with open(path, encoding="ascii") as file:
                return file.read().strip()
        except FileNotFoundError:
            return ""

    def words(self, words: Sequence[str]) -> list[str]:
        """What runs these words on the machine."""
        return ["nsenter", "-t", self.first(), "-n", "-m", "-p", "--wd=/", *words]

    def run(self, *words: str) -> Ended:
        """Runs a program."""
        return parts.run(*self.words(words))

    def shell(self, text: str) -> None:
        """Runs lines of a page, which must succeed. What they leave running keeps the file of their output."""
        with open(os.path.join(self.folder, "said"), "w+b") as said:
            done = subprocess.run(self.words(["bash", "-ec", text]), stdin=subprocess.DEVNULL, stdout=said, stderr=said,
                check=False, timeout=PATIENCE)
            said.seek(0)
            same(f"status of {text!r}: {said.read().decode()}", done.returncode, 0)

    def put(self, path: str, text: str | bytes) -> None:
        """Lets a file of the machine have this text."""
        source = os.path.join(self.folder, path.replace("/", "_"))
        with open(source, "wb") as file:
            file.write(text if isinstance(text, bytes) else text.encode())
        os.chmod(source, 0o440 if path == "/etc/sudoers" else 0o600)
        self.shell(f"[ -e {path} ] || touch {path}; mount --bind {source} {path}")

    def end(self) -> None:
        """Ends all processes on it."""
        self.process.kill()
        self.process.wait()


class Pair:
    """A server's machine with the server, and a client's machine."""

    def __init__(self, program: str) -> None:
        """The two machines are connected by a cable."""
        self.folder = tempfile.mkdtemp(prefix="interop")
        self.near, self.far = (Machine(os.path.join(self.folder, name)) for name in ("loghost", "web1"))
        self.cable()
        self.serve(program)
        settings = "Defaults log_servers = 127.0.0.1:30343, log_output, !fqdn, !syslog\nroot ALL = (ALL:ALL) ALL\n"
        self.far.put("/etc/sudoers", settings)

    def __enter__(self) -> Self:
        """The machines end with it."""
        return self

    def __exit__(self, *_: object) -> None:
        """Ends the machines."""
        self.near.end()
        self.far.end()
        self.server.wait()
        shutil.rmtree(self.folder)

    def cable(self) -> None:
        """Connects the machines."""
        name = f"interop{os.getpid() % 10**6}"
        words = ["ip", "link", "add", name, "netns", self.near.first(), "type", "veth", "peer", "name", name, "netns",
            self.far.first()]
        parts.status_is("cable", 0, parts.run(*words))
        for machine, address in ((self.near, "10.77.0.1"), (self.far, "10.77.0.2")):
            machine.shell(f"ip addr add {address}/24 dev {name}; ip link set {name} up")

    def serve(self, program: str) -> None:
        """Starts the server, and waits until it listens."""
        self.near.put("/run/sudo_logsrvd.conf", CONF.format(folder=self.near.folder))
        words = self.near.words([program, "serve", "-f", "/run/sudo_logsrvd.conf"])
        self.server = subprocess.Popen(words, stdout=subprocess.DEVNULL, stderr=subprocess.DEVNULL)
        parts.until("the server", lambda: listens(self.near, 30343))

    def sudo(self) -> tuple[int, bytes]:
        """The status and the output of a command by sudo on the client's machine."""
        ended = self.far.run(servers.tool("sudo") or "sudo", "-n", "id", "-u")
        return ended.returncode, ended.stdout

    def is_refused(self) -> bool:
        """Whether sudo runs no command, and says what the page has."""
        ended = self.far.run(servers.tool("sudo") or "sudo", "-n", "id", "-u")
        said = ended.stderr.decode()
        return ended.returncode != 0 and ended.stdout == b"" and SAID in said

    def stored(self) -> list[str]:
        """What the sessions of the store showed."""
        folder = os.path.join(self.near.folder, "store")
        logs = [store.read_log(folder, digits) for digits in store.folders(folder)]
        return [b"".join(it[2] for it in log.records if it[1] == "stdout").decode() for log in logs if log]


def listens(machine: Machine, port: int) -> bool:
    """Whether somebody listens at a port of a machine."""
    return f":{port} ".encode() in machine.run("ss", "-Hltn").stdout


def need(*programs: str) -> None:
    """Skips a part whose programs aren't there, or that isn't run by root."""
    missing = [name for name in ("sudo", "ip", "ss", *programs) if servers.tool(name) is None]
    if missing:
        raise Skipped(f"{', '.join(missing)} isn't installed")
    if not Namespace.is_possible():
        raise Skipped("root alone can make namespaces, where they are allowed")


def certificates(folder: str, names: str = "loghost web1") -> dict[str, bytes]:
    """The files that the page's lines make, for these machines."""
    os.makedirs(folder)
    text = block(STUNNEL, "openssl req").replace("loghost web1", names)
    done = parts.run("bash", "-ec", f"cd {folder}\n{text}")
    same(f"certificates: {done.stderr.decode()[-300:]}", done.returncode, 0)
    return {name: store.contents(os.path.join(folder, name)) for name in os.listdir(folder) if name.endswith(".pem")}


def confs() -> list[str]:
    """The two settings of the page: the server's, and a client's."""
    first = block(STUNNEL, "socket = a:")
    with open(os.path.join(parts.ROOT, "docs", "OPERATIONS.md"), encoding="utf-8") as file:
        found = re.findall(r"^    socket = a:(?:.|\n    )*", file.read(), flags=re.M)
    texts = [re.sub("^    ", "", text, flags=re.M) + "\n" for text in found]
    same("the first settings", texts[0].strip(), first.strip())
    same("settings", len(texts), 2)
    return texts


def tunnel(machine: Machine, conf: str, files: dict[str, bytes], port: int) -> None:
    """Starts stunnel with these files below /etc/stunnel."""
    for name, text in {**files, "sudo.conf": conf.encode()}.items():
        machine.put(f"/etc/stunnel/{name}", text)
    machine.shell("stunnel /etc/stunnel/sudo.conf 2>/dev/null")
    parts.until("stunnel", lambda: listens(machine, port))


def part_stunnel(program: str) -> None:
    """A session is stored; a stranger's certificate gets none, and neither does a client without one."""
    need("stunnel", "openssl")
    with Pair(os.path.realpath(program)) as pair:
        made, strange = (certificates(os.path.join(pair.folder, name)) for name in ("ca", "strange"))
        server, client = confs()
        tunnel(pair.near, server, {"server.pem": made["loghost.pem"], "ca.pem": made["ca.pem"]}, 30344)
        tunnel(pair.far, client, {"client.pem": made["web1.pem"], "ca.pem": made["ca.pem"]}, 30343)
        same("a session", (pair.sudo(), pair.sudo(), pair.stored()), ((0, b"0\n"), (0, b"0\n"), ["0\n", "0\n"]))
        for what, conf, files in (
            ("a stranger's certificate", client, {"client.pem": strange["web1.pem"], "ca.pem": made["ca.pem"]}),
            ("no certificate", client.replace("cert = ", ";"), {"ca.pem": made["ca.pem"]}),
        ):
            pair.far.shell("kill $(pidof stunnel stunnel4)")
            parts.until("no stunnel", lambda: not listens(pair.far, 30343))
            tunnel(pair.far, conf, files, 30343)
            same(what, (pair.is_refused(), len(pair.stored())), (True, 2))


def part_stunnel_other_server(program: str) -> None:
    """A client takes neither another client's certificate nor a stranger's for the server's."""
    need("stunnel", "openssl")
    with Pair(os.path.realpath(program)) as pair:
        made, strange = (certificates(os.path.join(pair.folder, name)) for name in ("ca", "strange"))
        server, client = confs()
        tunnel(pair.far, client, {"client.pem": made["web1.pem"], "ca.pem": made["ca.pem"]}, 30343)
        for what, own in (("another client", made["web1.pem"]), ("a stranger", strange["loghost.pem"])):
            tunnel(pair.near, server, {"server.pem": own, "ca.pem": made["ca.pem"]}, 30344)
            same(what, (pair.is_refused(), pair.stored()), (True, []))
            pair.near.shell("kill $(pidof stunnel stunnel4)")
            parts.until("no stunnel", lambda: not listens(pair.near, 30344))


def part_spiped(program: str) -> None:
    """A session is stored; who has another key gets none."""
    need("spiped")
    with Pair(os.path.realpath(program)) as pair:
        os.makedirs(os.path.join(pair.folder, "keys"))
        make = block(SPIPED, "(umask 077").replace("/etc/spiped", os.path.join(pair.folder, "keys"))
        for machine, line in ((pair.near, "spiped -d"), (pair.far, "spiped -e")):
            machine.shell("mkdir -p /run/spiped /etc/spiped; mount --bind /run/spiped /etc/spiped")
            if machine is pair.near:
                machine.shell(make + " 2>/dev/null")
            machine.put("/etc/spiped/sudo.key", store.contents(os.path.join(pair.folder, "keys", "sudo.key")))
            machine.shell(block(SPIPED, line))
        same("a session", (pair.sudo(), pair.sudo(), pair.stored()), ((0, b"0\n"), (0, b"0\n"), ["0\n", "0\n"]))
        pair.far.shell("kill $(cat /run/spiped-sudo.pid)")
        parts.until("no spiped", lambda: not listens(pair.far, 30343))
        pair.far.put("/etc/spiped/sudo.key", os.urandom(32))
        pair.far.shell(block(SPIPED, "spiped -e"))
        same("another key", (pair.is_refused(), len(pair.stored())), (True, 2))


if __name__ == "__main__":
    sys.exit(parts.run_parts(globals(), __doc__ or "", 1))
