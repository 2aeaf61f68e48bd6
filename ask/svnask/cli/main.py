"""What the command does with its words."""
from __future__ import annotations

import os
import signal
import sys
from typing import NoReturn

from svnask.asking.open_source import OpenSource
from svnask.asking.parser import parsed
from svnask.asking.running import Stopped, ending_of, tell
from svnask.asking.verbs import verb_named
from svnask.errors import Failed
from svnask.texts import drop, say

# The seconds after which a signal that was lost comes again.
SOON = 0.01


def raise_stopped(number: int, frame: object) -> NoReturn:
    raise Stopped(number)


def send_again(lost: sys.UnraisableHookArgs) -> None:
    """Send a signal again that came in a destructor or the like, where an exception is lost."""
    if isinstance(lost.exc_value, Stopped):
        number = lost.exc_value.args[0]
        # Not at once, which is still there.
        signal.signal(signal.SIGALRM, lambda _, frame: raise_stopped(number, frame))
        signal.setitimer(signal.ITIMER_REAL, SOON)
    else:
        sys.__unraisablehook__(lost)


def end_by(number: int) -> NoReturn:
    """End the process as the signal would have ended it."""
    signal.signal(number, signal.SIG_DFL)
    os.kill(os.getpid(), number)
    raise SystemExit(128 + number)


def answer(arguments: list[str] | None = None) -> int:
    for number in (signal.SIGINT, signal.SIGTERM, signal.SIGHUP):
        # What the caller has the command ignore, as nohup does, stays ignored.
        if signal.getsignal(number) != signal.SIG_IGN:
            signal.signal(number, raise_stopped)
    sys.unraisablehook = send_again
    try:
        return call(sys.argv[1:] if arguments is None else arguments)
    except Stopped as stopped:
        end_by(stopped.args[0])
    except BrokenPipeError:
        # Like other filters it says nothing where nobody reads what it writes.
        end_by(signal.SIGPIPE)
    except Exception as error:  # pylint: disable=broad-exception-caught
        ending = ending_of(error)
        say(*ending.said)
        if isinstance(error, OSError):
            drop(sys.stdout)
        return ending.status


def call(arguments: list[str]) -> int:
    if sys.stdout is None:
        raise Failed("cannot write: the standard output is closed")
    try:
        given = parsed(arguments)
    except SystemExit:
        # The help was printed, or the version.
        sys.stdout.flush()
        return 0
    verb = verb_named(given.verb)
    if not verb.needs_history:
        return verb.run(given)
    write = sys.stdout.buffer.write
    try:
        with OpenSource(given) as source:
            source.asked(given, lambda history: tell(history, given, write, is_last=True))
    finally:
        sys.stdout.buffer.flush()
    return 0
