"""The command `svnask` where it begins: a server is asked before all of svnask is read."""
from __future__ import annotations

import gc
import os
import signal
import sys
import time
from typing import TYPE_CHECKING, NoReturn

from svnask.files import SOCKET, cache_folder
from svnask.lazy import Lazy

if TYPE_CHECKING:
    from svnask.cli import completion
    from svnask.cli import main as question
    from svnask.serving import client
else:
    completion, question = Lazy("svnask.cli.completion"), Lazy("svnask.cli.main")
    client = Lazy("svnask.serving.client")

# How many objects are made before the first collection, and how many collections before one of older objects.
RARELY = 200000, 20, 20
# By what the completion of a shell calls the command.
COMPLETE = "--complete"


def main() -> int:
    if sys.argv[1:2] == [COMPLETE]:
        begun = time.monotonic()
        gc.set_threshold(*RARELY)
        return completion.complete(sys.argv[2:], begun)
    status = client.status_of_server(sys.argv[1:]) if has_servers() else None
    if status is None:
        # What is read of a history lives as long as the question. To look through it for cycles again and again took a
        # quarter of the time.
        gc.set_threshold(*RARELY)
        status = question.answer()
    return status


def has_servers() -> bool:
    """Return whether the folder of the cache has a socket of a server. Few have one, and to ask it takes modules."""
    top = cache_folder()
    try:
        return top is not None and any(name.startswith(SOCKET) for name in os.listdir(top))
    except OSError:
        return False


def run() -> NoReturn:
    """The command, where the module is installed. Before its own handlers are there an interrupt ends it silently, as
    it does the script `svnask`."""
    if signal.getsignal(signal.SIGINT) is signal.default_int_handler:
        signal.signal(signal.SIGINT, signal.SIG_DFL)
    sys.exit(main())
