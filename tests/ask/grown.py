"""Repositories that grow, revision after revision of a dump, and what serves them."""
from __future__ import annotations

import contextlib
import os
import re
import shutil
import socket
import subprocess
import unittest
from collections.abc import Iterator
from pathlib import Path
from unittest import mock

from dev.running import Outcome, Word, run
from tests.ask import base

COMMANDS = ("svn", "svnadmin", "svnrdump")
ENVIRONMENT = {"LC_ALL": "C.UTF-8", "TZ": "UTC"}
PIECES = re.compile(rb"^(?=Revision-number: )", re.MULTILINE)
APACHE = Path("/usr/sbin/apache2")
MODULES = Path("/usr/lib/apache2/modules")
# What Apache needs to serve repositories in a folder below a name, to who has a password.
CONFIGURATION = """\
ServerRoot {folder}
PidFile {folder}/pid
ErrorLog {folder}/errors
Listen 127.0.0.1:{port}
ServerName 127.0.0.1
{modules}
<Location /svn>
DAV svn
SVNParentPath {parent}
AuthType Basic
AuthName svn
AuthUserFile {folder}/users
Require valid-user
</Location>
"""
LOADED = ("mpm_event", "authn_core", "authn_file", "authz_core", "authz_user", "auth_basic", "dav", "dav_svn")


def need(*commands: str) -> None:
    for each in commands:
        if shutil.which(each) is None:
            raise unittest.SkipTest(f"{each} is not installed")


def svn(*words: Word, given: bytes | Path = b"") -> Outcome:
    """Return what a command of Subversion did, which must not fail."""
    done = run(words, given, environment=ENVIRONMENT)
    if done.status != 0:
        raise AssertionError(f"{words}: {done.shown()}")
    return done


class Grown:
    """A repository that has the first revisions of a dump, and is given further ones."""

    def __init__(self, folder: Path, dump: bytes, count: int) -> None:
        self.folder = folder
        self.url = folder.as_uri()
        self.sources: list[base.Word] = [self.folder, self.url]
        self.front, *self.pieces = PIECES.split(dump)
        self.count = 0
        svn("svnadmin", "create", folder)
        self.grow(count)

    def grow(self, count: int) -> None:
        """Give it the next revisions."""
        pieces = b"".join(self.pieces[self.count : self.count + count])
        words = ("svnadmin", "load", "-q", "--force-uuid", "--bypass-prop-validation", self.folder)
        svn(*words, given=self.front + pieces)
        self.count = min(self.count + count, len(self.pieces))

    @property
    def is_whole(self) -> bool:
        return self.count == len(self.pieces)

    def dump(self) -> bytes:
        return self.front + b"".join(self.pieces[: self.count])

    def commit(self, name: str) -> None:
        svn("svn", "mkdir", "-q", "-m", f"Make {name}", f"{self.url}/{name}")


@contextlib.contextmanager
def instead_of(folder: Path, verb: str, line: str) -> Iterator[None]:
    """Run a line of the shell in place of svn, or before it, where that is called with a verb."""
    programs = folder / "programs"
    programs.mkdir(exist_ok=True)
    path = programs / "svn"
    path.write_text(f'#!/bin/sh\nif [ "$1" = {verb} ]; then {line}; fi\nPATH={os.environ["PATH"]} exec svn "$@"\n')
    path.chmod(0o700)
    with mock.patch.dict(os.environ, PATH=f"{programs}:{os.environ['PATH']}"):
        yield


def free_port() -> int:
    with socket.socket() as found:
        found.bind(("127.0.0.1", 0))
        port: int = found.getsockname()[1]
        return port


def listens(port: int) -> bool:
    with contextlib.suppress(OSError), socket.create_connection(("127.0.0.1", port)):
        return True
    return False


@contextlib.contextmanager
def ended(*words: Word, port: int) -> Iterator[None]:
    """A server, which is ended."""
    with subprocess.Popen(words, stdin=subprocess.DEVNULL) as server:
        try:
            base.wait_for(lambda: listens(port) or server.poll() is not None)
            assert server.poll() is None, "the server ended"
            yield
        finally:
            server.terminate()


@contextlib.contextmanager
def svnserve(parent: Path, others: str = "none", rules: Path | None = None) -> Iterator[str]:
    """The URL of the repositories in a folder, for alice and bob with the password secret, and what others may do. A
    file may say which paths each of them may read."""
    need("svnserve")
    port = free_port()
    users, settings = parent / "users", parent / "svnserve.conf"
    users.write_text("[users]\nalice = secret\nbob = secret\n")
    text = f"[general]\nanon-access = {others}\nauth-access = write\npassword-db = {users}\n"
    settings.write_text(text if rules is None else f"{text}authz-db = {rules}\n")
    options: list[Word] = ["--listen-host", "127.0.0.1", "--listen-port", str(port), "--config-file", settings]
    with ended("svnserve", "-d", "--foreground", "-r", parent, *options, port=port):
        yield f"svn://127.0.0.1:{port}"


@contextlib.contextmanager
def apache(parent: Path, folder: Path) -> Iterator[str]:
    """The URL of the repositories in a folder, for alice with the password secret."""
    if not APACHE.exists() or not (MODULES / "mod_dav_svn.so").exists():
        raise unittest.SkipTest("Apache with mod_dav_svn is not installed")
    port = free_port()
    folder.mkdir()
    modules = "\n".join(f"LoadModule {name}_module {MODULES}/mod_{name}.so" for name in LOADED)
    if os.geteuid() == 0:
        # A server of the administrator may be no one else's.
        svn("chmod", "-R", "a+rwX", parent)
        os.chmod(parent.parent, 0o755)
    (folder / "users").write_text("alice:{SHA}5en6G6MezRroT3XKqkdPOmY/BfQ=\n")
    os.chmod(folder, 0o755)
    text = CONFIGURATION.format(folder=folder, port=port, modules=modules, parent=parent)
    (folder / "configuration").write_text(text)
    with ended(APACHE, "-DFOREGROUND", "-f", folder / "configuration", port=port):
        yield f"http://127.0.0.1:{port}/svn"
