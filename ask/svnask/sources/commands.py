"""Commands of Subversion that run, and what they print."""
from __future__ import annotations

import base64
import errno
import fcntl
import os
import re
import shutil
import signal
import subprocess
import tempfile
import threading
import time
import xml.etree.ElementTree as xml
from collections.abc import Iterator, Sequence
from contextlib import closing, contextmanager, suppress
from functools import lru_cache
from typing import IO

from svnask.engine.talk import name_of_signal
from svnask.errors import Failed, Unreached
from svnask.sources import deadlines

# The messages are in English, and a path may have any letters.
LOCALE = {"LC_ALL": "C.UTF-8"}
# What a command says of its failure.
ERROR = re.compile(r"svn[a-z]*: (?:warning: )?([EW][0-9]{6}: .*)")
# That there is nothing at a URL of a repository, and what follows from it.
NONE_THERE, NOT_ALL = re.compile(r"W170000: URL '.*' non-existent in revision"), "E200009: "
# That what a command prints is too large for a file, or for the disk.
UNWRITTEN = (f"E{errno.EFBIG:06}: ", f"E{errno.ENOSPC:06}: ")
# What XML can't have, and what svn prints even so. Each is replaced by a sign and its number.
SIGN = "\U0010f800"
NOT_IN_XML = re.compile(f"[\x00-\x08\x0b\x0c\x0e-\x1f\udc80-\udcff\ufffe\uffff{SIGN}]")
REPLACED = re.compile(SIGN + "([0-9a-f]{6})")
# The call of Linux, which `fcntl` names from Python 3.10 on.
F_SETPIPE_SZ = 1031
# Since when setpriv has Linux end a command with the thread that began it, and what it prints of its version.
GUARDED_SINCE, VERSION = (2, 33), re.compile(rb"util-linux (\d+)\.(\d+)")
# The terminal of a process, on which svn and ssh ask for a password.
TERMINAL = "/dev/tty"
# How many seconds a command has to end.
ENDING = 0.5
# How much is read at once, and how much a pipe holds, where it may, so that the command need not wait.
PIECE, HELD = 1 << 17, 1 << 20


@lru_cache(maxsize=None)
def guard() -> tuple[str, ...]:
    """Return the words before a command with which Linux ends it when svnask is killed, if the system has them."""
    program = shutil.which("setpriv")
    if program is None:
        return ()
    found = VERSION.search(subprocess.run([program, "--version"], stdout=subprocess.PIPE, check=False).stdout)
    has_it = found is not None and (int(found[1]), int(found[2])) >= GUARDED_SINCE
    return (program, "--pdeathsig", "KILL") if has_it else ()


def has_terminal() -> bool:
    """Return whether there is a terminal, wherever the standard input comes from."""
    try:
        os.close(os.open(TERMINAL, os.O_RDWR | os.O_NOCTTY))
    except OSError:
        return False
    return True


class Command:
    """A command that runs. It may ask for a password on the terminal. Where there is none, it has a group of its own,
    which ends with it."""

    def __init__(self, words: Sequence[str], output: int | IO[bytes]) -> None:
        self._name, self._deadline, self._is_late = words[0], deadlines.CURRENT.get(), False
        self._has_group = not has_terminal()
        if shutil.which(self._name) is None:
            raise Failed(f"cannot run {self._name}: {os.strerror(errno.ENOENT)}")
        self._errors = tempfile.TemporaryFile()
        try:
            self.process = subprocess.Popen(
                [*guard(), *words],
                stdout=output,
                stderr=self._errors,
                env={**os.environ, **LOCALE},
                start_new_session=self._has_group,
            )
        except OSError as error:
            self._errors.close()
            raise Failed(f"cannot run {self._name}: {error.strerror}") from error
        self._timer: threading.Timer | None = None
        if self._deadline is not None:
            self._timer = threading.Timer(max(self._deadline.when - time.monotonic(), 0), self._end_late)
            self._timer.daemon = True
            self._timer.start()

    def _end_late(self) -> None:
        self._is_late = self.process.poll() is None
        self._send(signal.SIGKILL)

    def _send(self, number: int) -> None:
        """Send a signal to the command if it runs, and to what it started."""
        with suppress(OSError):
            if self.process.poll() is not None:
                return
            if self._has_group:
                os.killpg(self.process.pid, number)
            else:
                self.process.send_signal(number)

    def said(self) -> str:
        """Return what the command printed on standard error."""
        self._errors.seek(0)
        return self._errors.read().decode("utf-8", "replace")

    def failure(self) -> Failed | Unreached:
        """Return why the command failed, by its status and what it said."""
        status, said = self.process.wait(), self.said()
        if self._is_late and self._deadline is not None:
            return Unreached(f"{self._name} was not done {self._deadline.in_words}")
        if status < 0:
            return Failed(f"{self._name} was ended by {name_of_signal(-status)}")
        lines = [found[1] for found in map(ERROR.match, said.splitlines()) if found]
        if not lines:
            last = said.strip() and ": " + said.strip().splitlines()[-1]
            return Failed(f"{self._name} ended with status {status}{last}")
        first, *rest = [line for line in lines if not line.startswith(NOT_ALL)] or lines
        if first.startswith(UNWRITTEN):
            return Failed(f"what {self._name} prints cannot be written: {first}")
        return Unreached(first, rest, NONE_THERE.match(first) is not None)

    def close(self) -> None:
        """End the command, if it still runs. One that waits for a server looks at no signal until that answers."""
        if self._timer is not None:
            self._timer.cancel()
        self._send(signal.SIGTERM)
        if self.process.stdout is not None:
            self.process.stdout.close()
        try:
            self.process.wait(ENDING)
        except subprocess.TimeoutExpired:
            self._send(signal.SIGKILL)
            self.process.wait()
        self._errors.close()


@contextmanager
def output_of(*words: str, is_read_whole: bool = True) -> Iterator[IO[bytes]]:
    """Run a command, and yield its output. A failure is raised at the end, unless nobody wants the rest."""
    with closing(Command(words, subprocess.PIPE)) as command:
        assert command.process.stdout is not None
        with suppress(OSError):
            fcntl.fcntl(command.process.stdout, F_SETPIPE_SZ, HELD)
        yield command.process.stdout
        if is_read_whole:
            command.process.stdout.close()
            if command.process.wait():
                raise command.failure()


def elements(stream: IO[bytes], tag: str) -> Iterator[xml.Element]:
    """Yield the elements of a name in XML, one after another. They are neighbours, and each has an end tag. `bytes_of`
    returns what their texts stand for."""
    begin, end = re.compile(rb"<%s[\s>]" % tag.encode("ascii")), b"</%s>" % tag.encode("ascii")
    held: list[bytes] = []
    # The last bytes, in which an end tag may begin. An element may be long, so that all is joined only where it ends.
    edge: bytes | None = None
    for piece in iter(lambda: stream.read(PIECE), b""):
        if edge is None and not piece.startswith(b"<"):
            raise Failed("svn printed something other than XML")
        held.append(piece)
        searched = (edge or b"") + piece
        edge = searched[1 - len(end) :]
        if end not in searched:
            continue
        whole, closing_tag, left = b"".join(held).rpartition(end)
        held = [left]
        found = begin.search(whole)
        if found is not None:
            yield from element_of(b"<all>" + whole[found.start() :] + closing_tag + b"</all>")


def element_of(text: bytes) -> xml.Element:
    """Return the element of a text that svn printed."""
    read = text.decode("utf-8", "surrogateescape")
    try:
        return xml.fromstring(NOT_IN_XML.sub(as_number, read))
    except xml.ParseError as error:
        raise Failed(f"svn printed something other than XML: {error}") from error


def as_number(found: re.Match[str]) -> str:
    return f"{SIGN}{ord(found[0]):06x}"


def bytes_of(text: str) -> bytes:
    """Return the bytes that svn printed for a text of XML."""
    if SIGN in text:
        text = REPLACED.sub(lambda found: chr(int(found[1], 16)), text)
    return text.encode("utf-8", "surrogateescape")


def property_value(element: xml.Element) -> bytes:
    """Return the value of a property."""
    text = bytes_of(element.text or "")
    return base64.b64decode(text) if element.get("encoding") == "base64" else text


def without_peg(url: str) -> str:
    """Return a URL for a command that takes a peg revision. svnrdump takes none, and svn none for properties of
    revisions."""
    return url + "@"
