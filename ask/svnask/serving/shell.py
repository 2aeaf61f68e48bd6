"""`shell`: question after question about a history that stays open, a line each."""
from __future__ import annotations

import argparse
import os
import shlex
import signal
import sys
from collections.abc import Iterator

from svnask.asking import running
from svnask.asking.open_source import OpenSource
from svnask.asking.parser import parsed
from svnask.asking.verbs import HELP, verb_named
from svnask.errors import Error, Usage
from svnask.texts import say

ABOUT = "type a question, as after 'svnask SOURCE': log trunk; or VERB --help, or exit\nverbs: %s\n"


def run_shell(given: argparse.Namespace) -> int:
    """Answer each line, and give the status of the last one that had no answer."""
    if given.dump == "-":
        raise Usage("the shell reads its questions from the standard input: name a file or a repository")
    if sys.stdin is None:
        return 0
    # Names below are those of the folder in which it was called.
    if "://" not in given.dump:
        given.dump = os.path.abspath(given.dump)
    status = 0
    with OpenSource(given) as source:
        for line in lines():
            if line.strip() in ("exit", "quit"):
                break
            status = answer_line(source, given, line) or status
    return status


def lines() -> Iterator[str]:
    """The lines of the standard input, which can be edited on a terminal. An interrupt there begins a new one."""
    if not (sys.stdin.isatty() and sys.stdout.isatty()):
        for line in sys.stdin.buffer:
            yield os.fsdecode(line)
        return
    import readline  # pylint: disable=import-outside-toplevel, unused-import # noqa: F401

    while True:
        try:
            yield input("svnask> ")
        except EOFError:
            sys.stdout.write("\n")
            return
        except running.Stopped as stopped:
            if stopped.args[0] != signal.SIGINT:
                raise
            sys.stdout.write("\n")


def answer_line(source: OpenSource, given: argparse.Namespace, line: str) -> int:
    """The status of one question."""
    try:
        words = shlex.split(line.rstrip("\n"))
        if words in (["help"], ["?"]):
            sys.stdout.write(ABOUT % ", ".join(name for name in HELP if verb_named(name).needs_history))
        elif words:
            asking = question(given, words)
            source.asked(asking, lambda history: running.tell(history, asking, sys.stdout.buffer.write))
            sys.stdout.buffer.flush()
        sys.stdout.flush()
    except SystemExit:
        # The help of a verb was printed.
        sys.stdout.flush()
    except ValueError as error:
        return failed(Usage(f"{error}: '{line.rstrip()}'"))
    except Error as error:
        return failed(error)
    except running.Stopped as stopped:
        # On a terminal it ends the question alone. What is left of the answer is not read.
        if stopped.args[0] != signal.SIGINT or not sys.stdin.isatty():
            raise
        source.rest()
        return 128 + int(signal.SIGINT)
    return 0


def question(given: argparse.Namespace, words: list[str]) -> argparse.Namespace:
    options = [f"--{name}".replace("_", "-") for name in ("json", "csv", "no_cache", "offline") if getattr(given, name)]
    options += [f"--below={given.below}"] * bool(given.below)
    found = parsed([*options, given.dump, *words])
    if not verb_named(found.verb).needs_history:
        raise Usage(f"'{found.verb}' is not a question")
    found.access = given.access
    return found


def failed(error: Error) -> int:
    sys.stdout.flush()
    ending = running.ending_of(error)
    say(*ending.said)
    return ending.status
