"""Runs of programs: with limits, with an input that is fed, and measured."""
from __future__ import annotations

import os
import resource
import subprocess
import sys
import tempfile
import time
from collections.abc import Mapping, Sequence
from contextlib import ExitStack
from dataclasses import dataclass
from pathlib import Path
from typing import IO, NamedTuple, Union

# A word of a command line, and a command line.
Word = Union[str, bytes, Path]
Words = Sequence[Word]
# Seconds until a run counts as hung.
SECONDS = 60
NOTHING = Path(os.devnull)
STARTER = Path(__file__).with_name("starter.py")


class Outcome(NamedTuple):
    """The end of a run: its exit status, None if it had to be killed, and what it printed."""

    status: int | None
    output: bytes
    errors: bytes

    def shown(self) -> str:
        return "status %s: %s" % (self.status, self.errors.decode("utf-8", "replace").strip())


@dataclass(frozen=True)
class Limits:
    """The limits of a run: seconds, and bytes of address space."""

    seconds: float = SECONDS
    memory: int | None = None

    def set(self) -> None:
        """Limit the process that calls this and those that it starts."""
        resource.setrlimit(resource.RLIMIT_CORE, (0, 0))
        if self.memory is not None:
            resource.setrlimit(resource.RLIMIT_AS, (self.memory, self.memory))


def run(
    words: Words,
    given: bytes | Path = b"",
    *,
    taker: Path | None = None,
    limits: Limits = Limits(),
    environment: Mapping[str, str | None] | None = None,
    folder: Path | None = None,
) -> Outcome:
    """Run a command whose standard input is this text or file. What it prints may go to a file, and is not kept then.
    The variables stand beside those of this process; one that is None is taken away."""
    variables: dict[str, str | None] = {**os.environ, **(environment or {})}
    with ExitStack() as files:
        output: int | IO[bytes] = subprocess.PIPE if taker is None else files.enter_context(open(taker, "wb"))
        source = None
        if isinstance(given, Path):
            # By the system's call, since it may be a directory.
            source = os.open(given, os.O_RDONLY)
            files.callback(os.close, source)
        try:
            done = subprocess.run(
                words,
                stdin=source,
                input=None if isinstance(given, Path) else given,
                stdout=output,
                stderr=subprocess.PIPE,
                timeout=limits.seconds,
                cwd=folder,
                check=False,
                preexec_fn=None if limits.memory is None else limits.set,
                env={name: value for name, value in variables.items() if value is not None},
            )
        except subprocess.TimeoutExpired:
            return Outcome(None, b"", b"no end after %d seconds\n" % limits.seconds)
    return Outcome(done.returncode, done.stdout or b"", done.stderr)


class Failed(Exception):
    """Why a command that must succeed did not, in words."""


class Measured(NamedTuple):
    """One run: seconds from start to end, seconds of processors, bytes of memory at most, and how it ended."""

    wall: float
    processor: float
    peak: int
    outcome: Outcome

    def expect(self) -> Measured:
        if self.outcome.status != 0:
            raise Failed("the command ended with " + self.outcome.shown())
        return self


def fed_by(feeder: Words, processes: ExitStack) -> IO[bytes] | None:
    """Return what a command prints, which runs until the end of the processes."""
    return processes.enter_context(subprocess.Popen(feeder, stdout=subprocess.PIPE)).stdout


def measure(words: Words, feeder: Words | None = None, file: Path = NOTHING, is_kept: bool = True) -> Measured:
    """Run a command whose input is a file or the output of another command. Output that is not kept goes to
    /dev/null."""
    with ExitStack() as files:
        errors = files.enter_context(tempfile.TemporaryFile())
        output = files.enter_context(tempfile.TemporaryFile() if is_kept else open(NOTHING, "w+b"))
        began = time.perf_counter()
        given = fed_by(feeder, files) if feeder else files.enter_context(open(file, "rb"))
        child = subprocess.Popen(words, stdin=given, stdout=output, stderr=errors, env={**os.environ, "LC_ALL": "C"})
        _, status, usage = os.wait4(child.pid, 0)
        wall = time.perf_counter() - began
        child.returncode = os.waitstatus_to_exitcode(status)
        output.seek(0)
        errors.seek(0)
        outcome = Outcome(child.returncode, output.read(), errors.read())
    return Measured(wall, usage.ru_utime + usage.ru_stime, usage.ru_maxrss * 1024, outcome)


def started(
    words: Words, *, feeder: Words | None = None, report: Path = NOTHING, limits: Limits = Limits(120)
) -> Measured:
    """Run a command by a small process, since the system counts what the process that starts a command had before as
    memory of the command. What it prints goes to a file."""
    starter: Words = [sys.executable, "-I", "-S", STARTER, str(int(limits.seconds)), str(limits.memory or -1), report]
    pipe = subprocess.PIPE
    with ExitStack() as processes:
        given = fed_by(feeder, processes) if feeder else subprocess.DEVNULL
        done = subprocess.run([*starter, *words], stdin=given, stdout=pipe, stderr=pipe, check=True)
    wall, processor, peak, status = done.stdout.split()
    return Measured(float(wall), float(processor), int(peak) * 1024, Outcome(int(status), b"", done.stderr))


def peak_of(words: Words, feeder: Words | None = None) -> int:
    """The bytes of memory that a command takes at most."""
    return started(words, feeder=feeder, limits=Limits(3600)).expect().peak
