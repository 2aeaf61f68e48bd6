"""Runs a program whose input comes bit by bit while what it prints is read, so that neither waits for the other."""
from __future__ import annotations

import fcntl
import os
import select
import subprocess
import sys
import time
from collections.abc import Iterable, Sequence
from typing import IO, NamedTuple

from dev.running import Outcome, Words

# The size of the smallest pipe. One of this size can be written to only when it is empty.
PAGE = 4096


class Step(NamedTuple):
    """Bytes to write, and what must be printed before more is written: so many bytes in all, or all to the end. None
    where nothing is waited for."""

    text: bytes
    size: int | None = None
    is_last: bool = False


class Dialogue:
    """A running program. Each call waits so many seconds at most."""

    def __init__(self, child: subprocess.Popen[bytes], seconds: float) -> None:
        assert child.stdin and child.stdout and child.stderr
        self.child = child
        self.seconds = seconds
        self.input: IO[bytes] = child.stdin
        self.output, self.errors = bytearray(), bytearray()
        self.open = {child.stdout: self.output, child.stderr: self.errors}

    def step(self, until: float, what: str, writing: Sequence[IO[bytes]] = ()) -> bool:
        """Wait until something can be read, which is done, or written, and return whether something can be."""
        readable, writable, _ = select.select(list(self.open), writing, [], max(0.0, until - time.monotonic()))
        if not readable and not writable:
            raise TimeoutError(what)
        for file in readable:
            text = file.read(1 << 16)
            self.open[file].extend(text)
            if not text:
                del self.open[file]
        return bool(writable)

    def write(self, text: bytes) -> None:
        """Write all bytes, or as many as the program takes before it ends."""
        until = time.monotonic() + self.seconds
        try:
            while text and not self.input.closed:
                if self.step(until, "input was not read", [self.input]):
                    # None was written where the pipe is full again.
                    text = text[self.input.write(text) or 0 :]
        except BrokenPipeError:
            self.input.close()

    def wait_for(self, size: int, what: str = "a reply did not come") -> None:
        """Return when so many bytes were printed, or the program prints no more."""
        until = time.monotonic() + self.seconds
        while self.open and len(self.output) < size:
            self.step(until, what)

    def wait_for_end(self) -> None:
        """Return when the program has ended."""
        self.wait_for(sys.maxsize, "the end did not come")
        self.child.wait(self.seconds)

    def take(self, steps: Iterable[Step]) -> Outcome:
        for step in steps:
            self.write(step.text)
            if step.size is not None:
                self.wait_for(step.size)
            if step.is_last:
                self.wait_for_end()
        self.input.close()
        self.wait_for_end()
        return Outcome(self.child.returncode, bytes(self.output), bytes(self.errors))


def run(words: Words, steps: Sequence[Step], seconds: float) -> Outcome:
    """The outcome of a command whose input comes in these steps. What does not come in so many seconds fails it.

    Where no step has more than a page, each is written only when those before it were read."""
    pipe = subprocess.PIPE
    with subprocess.Popen(words, stdin=pipe, stdout=pipe, stderr=pipe, bufsize=0) as child:
        dialogue = Dialogue(child, seconds)
        os.set_blocking(dialogue.input.fileno(), False)
        if all(len(step.text) <= PAGE for step in steps):
            # Python before 3.10 has no name for the command that sets the size of a pipe.
            fcntl.fcntl(dialogue.input, getattr(fcntl, "F_SETPIPE_SZ", 1031), PAGE)
        try:
            return dialogue.take(steps)
        except (TimeoutError, subprocess.TimeoutExpired) as late:
            return Outcome(None, bytes(dialogue.output), b"after %g seconds: %s\n" % (seconds, str(late).encode()))
        finally:
            child.kill()
