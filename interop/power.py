"""File systems whose power is cut: each in an image of its own, over a loop device. Only root may mount them.

At a cut the image is taken as its device holds it, without what the system keeps in memory, checked as at a start,
and mounted in the old one's place. What wasn't synced is gone then, or there for some of the files: a sync of one
file may bring others with it, on ext4 and xfs mostly, so that there a sync that is lacking is found by chance, and
on btrfs at once. What a device loses of its own cache at a cut isn't tried: the image has each write that reached
it.
"""
from __future__ import annotations

import os
import random
import shutil
import subprocess
import tempfile
import time

SIZE = 320 * 2**20
# all is laid out at once, so that the system writes nothing of its own later
EXT4 = ("mkfs.ext4", "-q", "-F", "-N", "65536", "-E", "lazy_itable_init=0,lazy_journal_init=0")
CHECK = ("e2fsck", "-fy")
# how each kind is made, and the program by which it is checked at a start, if any is
KINDS = {
    "ext4": (EXT4 + ("-b", "4096"), CHECK),
    "ext4-small-blocks": (EXT4 + ("-b", "1024"), CHECK),
    "xfs": (("mkfs.xfs", "-q", "-f"), None),
    "btrfs": (("mkfs.btrfs", "-q", "-f", "--mixed"), None),
    # a sync of one file writes the inodes of others, whose blocks may not be there yet
    "ext4-no-journal": (EXT4 + ("-b", "4096", "-O", "^has_journal"), CHECK),
    "ext4-no-journal-small-blocks": (EXT4 + ("-b", "1024", "-O", "^has_journal"), CHECK),
}
# what was synced may be lost on these
WITHOUT_JOURNAL = tuple(kind for kind in KINDS if "no-journal" in kind)


class Lacking(Exception):
    """The machine has no such file system, or doesn't let this process mount it."""


class Failed(Exception):
    """A file system couldn't be brought back."""


def run(*words: str) -> tuple[int, str]:
    """Runs a program of the system. Gives its status, and what it said."""
    env = {**os.environ, "PATH": os.environ.get("PATH", "") + ":/usr/sbin:/sbin"}
    try:
        child = subprocess.run(words, capture_output=True, text=True, timeout=600, env=env)
    except FileNotFoundError as fault:
        raise Lacking(f"{words[0]} isn't there") from fault
    return child.returncode, child.stdout + child.stderr


def memory() -> str | None:
    """The folder of a file system in memory, if it has room for an image and its copies; else None."""
    folder = "/dev/shm"
    has_room = os.path.isdir(folder) and shutil.disk_usage(folder).free > 4 * SIZE
    return folder if has_room else None


class Disk:
    """A mounted file system of this kind, in a folder of its own."""

    def __init__(self, kind: str) -> None:
        """Makes the file system, and mounts it."""
        self.make, self.check = KINDS[kind]
        self.folder = tempfile.mkdtemp(prefix="power", dir=memory())
        self.image, self.mounted = os.path.join(self.folder, "image"), os.path.join(self.folder, "mounted")
        self.cuts, self.is_mounted = 0, False
        os.mkdir(self.mounted)
        with open(self.image, "wb") as file:
            file.truncate(SIZE)
        try:
            self.wanted(*self.make, self.image)
            self.mount()
        except BaseException:
            shutil.rmtree(self.folder)
            raise

    def wanted(self, *words: str) -> None:
        """Runs a program without which there is no such file system."""
        status, said = run(*words)
        if status:
            raise Lacking(f"{' '.join(words)}: {said.strip()}")

    def mount(self) -> None:
        """Mounts the image."""
        self.wanted("mount", "-o", "loop", self.image, self.mounted)
        self.is_mounted = True

    def cut(self, rng: random.Random | None = None) -> None:
        """All is as the device holds it now. With `rng` some of what wasn't synced is there too."""
        if rng:
            self.spill(rng)
        left = self.held()
        self.unmount()
        os.replace(left, self.image)
        if self.check:
            status, said = run(*self.check, self.image)
            with open(os.path.join(self.folder, "checked"), "a", encoding="utf-8") as file:
                file.write(f"cut {self.cuts + 1}\n{said}\n")
            # 1: it was mended, 2: so that a start should follow
            if status not in (0, 1, 2):
                raise Failed(f"{' '.join(self.check)}: {said[-500:]}")
        try:
            self.mount()
        except Lacking as fault:
            raise Failed(str(fault)) from fault
        self.cuts += 1

    def spill(self, rng: random.Random) -> None:
        """Some of the files that were written last go to the device without a sync, as may happen at any time."""
        since = time.time() - 2
        for folder, _, names in os.walk(self.mounted):
            for name in names:
                path = os.path.join(folder, name)
                if os.path.getmtime(path) > since and rng.random() < 0.5:
                    file = os.open(path, os.O_RDONLY)
                    os.posix_fadvise(file, 0, 0, os.POSIX_FADV_DONTNEED)
                    os.close(file)

    def held(self) -> str:
        """A copy of the image as it was at one moment: it is copied until two copies are the same."""
        one, two = self.image + ".1", self.image + ".2"
        self.copy(one)
        for _ in range(100):
            self.copy(two)
            if run("cmp", "-s", one, two)[0] == 0:
                os.remove(two)
                return one
            one, two = two, one
        raise Failed("the image changes all the time")

    def copy(self, path: str) -> None:
        """Copies the image."""
        status, said = run("cp", "--sparse=always", self.image, path)
        if status:
            raise Failed(f"cp: {said.strip()}")

    def unmount(self) -> None:
        """Unmounts the image, once nobody uses it."""
        end = time.monotonic() + 180
        while True:
            status, said = run("umount", self.mounted)
            if status == 0:
                self.is_mounted = False
                return
            if time.monotonic() > end:
                raise Failed(f"umount: {said}")
            time.sleep(0.05)

    def end(self) -> None:
        """Nothing stays of it."""
        if self.is_mounted:
            self.unmount()
        shutil.rmtree(self.folder)
