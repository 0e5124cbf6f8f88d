"""An ssh server of its own on this machine, over which two names log in here: for commands that start jobs on other machines."""

from __future__ import annotations

import os
import shutil
import socket
import subprocess
import time
from collections.abc import Iterator
from contextlib import contextmanager
from pathlib import Path

from harness.program import Room

TOOLS = "ssh", "ssh-keygen", "sshd"
HOSTS = "host1 host2"
START_SECONDS = 10
# As root, sshd asks for this folder, which its service makes.
SEPARATION = Path("/run/sshd")

SERVER = """\
Port {port}
ListenAddress 127.0.0.1
HostKey {folder}/host
AuthorizedKeysFile {folder}/key.pub
PidFile none
PasswordAuthentication no
KbdInteractiveAuthentication no
UsePAM no
StrictModes no
"""
CLIENT = """\
Host {hosts}
HostName 127.0.0.1
Port {port}
IdentityFile {folder}/key
IdentitiesOnly yes
StrictHostKeyChecking no
UserKnownHostsFile {folder}/known
LogLevel ERROR
"""


class NoLogin(Exception):
    """No login comes about here; the text says why."""


def tool(name: str) -> str:
    """The path of a tool. A server's is not always in the path of a user."""
    found = shutil.which(name) or shutil.which(name, path="/usr/sbin:/sbin")
    if found is None:
        raise NoLogin(f"{name} is missing")
    return found


def free_port() -> int:
    with socket.socket() as listener:
        listener.bind(("127.0.0.1", 0))
        return listener.getsockname()[1]


def write_keys_and_settings(folder: Path) -> None:
    """Puts the keys of the server and of the login, and the settings of both sides, into a folder."""
    for name in "host", "key":
        subprocess.run([tool("ssh-keygen"), "-q", "-t", "ed25519", "-N", "", "-f", folder / name], check=True)
    port = free_port()
    for name, text in ("server", SERVER), ("client", CLIENT):
        (folder / name).write_text(text.format(port=port, folder=folder, hosts=HOSTS), encoding="utf-8")


def logs_in(client: list[str]) -> bool:
    """Whether a login comes about in time."""
    end = time.monotonic() + START_SECONDS
    while time.monotonic() < end:
        if subprocess.run([*client, HOSTS.split()[0], "true"], capture_output=True, stdin=subprocess.DEVNULL, check=False).returncode == 0:
            return True
        time.sleep(0.1)
    return False


@contextmanager
def separation() -> Iterator[None]:
    """Makes the folder that the server asks for, where it is missing and this is root."""
    makes = os.geteuid() == 0 and not SEPARATION.exists()
    if makes:
        SEPARATION.mkdir(mode=0o755)
    try:
        yield
    finally:
        if makes:
            SEPARATION.rmdir()


@contextmanager
def logins(room: Room) -> Iterator[str]:
    """The words that start a client for which the hosts are this machine, while the server runs.

    It raises NoLogin where a tool is missing, or no login comes about.
    """
    folder = room.folder / "ssh"
    folder.mkdir(mode=0o700)
    server, client = tool("sshd"), [tool("ssh"), "-F", str(folder / "client")]
    write_keys_and_settings(folder)
    with separation(), open(folder / "log", "wb") as log:
        child = subprocess.Popen([server, "-D", "-e", "-f", folder / "server"], stdin=subprocess.DEVNULL, stdout=log, stderr=log)
        try:
            if not logs_in(client):
                raise NoLogin(f"no login: {(folder / 'log').read_text(errors='replace').strip()[-200:]}")
            yield " ".join(client)
        finally:
            child.terminate()
            child.wait()
