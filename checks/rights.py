"""What a machine has of what checks need: commands, modules of python3, and rights."""
from __future__ import annotations

import functools
import importlib.util
import os
import shutil
import socket
import stat
import subprocess
import tempfile
from collections.abc import Callable, Sequence
from pathlib import Path


def works(words: Sequence[str]) -> bool:
    try:
        return subprocess.run(words, capture_output=True, timeout=60, check=False).returncode == 0
    except OSError:
        return False


def opens_socket(family: int, protocol: int) -> bool:
    try:
        socket.socket(family, socket.SOCK_RAW, protocol).close()
    except OSError:
        return False
    return True


def small_mount() -> bool:
    """Whether a file system in memory can be mounted."""
    with tempfile.TemporaryDirectory() as folder:
        if not works(["mount", "-t", "tmpfs", "-o", "size=4k", "none", folder]):
            return False
        return works(["umount", folder])


def other_user() -> bool:
    """Whether a run has no more rights than files give it: it isn't root's, or can be another
    user's."""
    return os.getuid() != 0 or works(["setpriv", "--reuid=65534", "--clear-groups", "true"])


def network_namespace() -> bool:
    """Whether root can make one with a name, and go into it, which a root that is no mount's
    forbids."""
    name = f"ringtap-check-{os.getpid()}"
    if os.getuid() != 0 or not works(["ip", "netns", "add", name]):
        return False
    is_open = works(["ip", "-n", name, "link", "show"])
    return works(["ip", "netns", "delete", name]) and is_open


def chroot() -> bool:
    words = [] if os.getuid() == 0 else ["unshare", "--map-root-user"]
    return works([*words, "chroot", "/", "true"])


def make_null(path: Path) -> None:
    """Makes a file that is the system's /dev/null, for every user."""
    os.mknod(path, stat.S_IFCHR | 0o666, os.makedev(1, 3))
    path.chmod(0o666)
    path.write_bytes(b"")


def device_file() -> bool:
    with tempfile.TemporaryDirectory() as folder:
        try:
            make_null(Path(folder, "null"))
        except OSError:
            return False
    return True


RIGHTS: dict[str, Callable[[], bool]] = {
    "raw sockets": lambda: opens_socket(socket.AF_INET, 253),
    "packet sockets": lambda: opens_socket(socket.AF_PACKET, 0),
    "mounts": small_mount,
    "network namespaces": network_namespace,
    "another user": other_user,
    "a chroot": chroot,
    "device files": device_file,
}


@functools.cache
def lack(what: str) -> str | None:
    """Why a need isn't met; None where it is. A need is a right of the table, a module as
    `python3:NAME`, or a command."""
    if what == "a kernel to ask":
        from kernel.rings import why_not  # which imports what only the kernel's checks use

        return why_not()
    if what == "a limit of threads":
        from second.no_threads import is_alone

        return None if is_alone() else "a program can't be forbidden to start threads here"
    if what in RIGHTS:
        return None if RIGHTS[what]() else "no such right here"
    if what.startswith("python3:"):
        return None if importlib.util.find_spec(what.partition(":")[2]) else "no such module here"
    return None if shutil.which(what) else "it isn't here (checks/needs.sh)"
