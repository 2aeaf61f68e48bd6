"""Questions about the history of a Subversion repository, answered by svnhist from the repository or a dump.

>>> from svnask import History, Log, Refused
>>> with History.open("interop/branches.dump") as history:
...     for answer in history.ask([Log(path, history.head) for path in (b"trunk", b"branches/two")]):
...         revision = history.revision(answer.revisions[0])
...         answer.query.path, revision.number, revision.author
(b'trunk', 5, b'carol')
(b'branches/two', 11, b'carol')

Paths, names and messages are bytes, as in the dump. A dump that svnhist does not accept raises `Refused`.
"""
from __future__ import annotations

import importlib
import os
from typing import TYPE_CHECKING

if TYPE_CHECKING:
    from svnask.branches.gained import Gained
    from svnask.branches.heirs import Heir, Step
    from svnask.branches.holders import Holder
    from svnask.branches.questions import Left, Listed, TagEvent, Touched
    from svnask.copy.changes import Change
    from svnask.copy.sections import Setting
    from svnask.copy.store import Record, Revision
    from svnask.engine.queries import (
        Answer,
        Answers,
        Inherited,
        Line,
        Locate,
        Located,
        LocationSegments,
        Log,
        Logged,
        Merge,
        Mergeinfo,
        Merges,
        Pair,
        Query,
        Segment,
        Segments,
        Where,
    )
    from svnask.errors import Denied, Error, Failed, Refused, Unreached, Usage
    from svnask.history.lives import Life
    from svnask.merges.soundness import Finding
    from svnask.picture.graph import Dot, Graph, Lane, LaneCopy, LaneMerge, LeftOut, View
    from svnask.public import History

__all__ = [
    "Answer",
    "Answers",
    "Change",
    "Denied",
    "Dot",
    "Error",
    "Failed",
    "Finding",
    "Gained",
    "Graph",
    "Heir",
    "History",
    "Holder",
    "Inherited",
    "Lane",
    "LaneCopy",
    "LaneMerge",
    "Left",
    "LeftOut",
    "Life",
    "Line",
    "Listed",
    "Locate",
    "Located",
    "LocationSegments",
    "Log",
    "Logged",
    "Merge",
    "Mergeinfo",
    "Merges",
    "Pair",
    "Query",
    "Record",
    "Refused",
    "Revision",
    "Segment",
    "Segments",
    "Setting",
    "Step",
    "TagEvent",
    "Touched",
    "Unreached",
    "Usage",
    "View",
    "Where",
]
# Where each name is. A module is imported when a name of it is used: a question to a server needs none.
_MODULES = {
    "branches.gained": "Gained",
    "branches.heirs": "Heir Step",
    "branches.holders": "Holder",
    "branches.questions": "Left Listed TagEvent Touched",
    "copy.changes": "Change",
    "copy.sections": "Setting",
    "copy.store": "Record Revision",
    "engine.queries": (
        "Answer Answers Inherited Line Locate Located LocationSegments Log Logged Merge Mergeinfo Merges Pair Query "
        "Segment Segments Where"
    ),
    "errors": "Denied Error Failed Refused Unreached Usage",
    "history.lives": "Life",
    "merges.soundness": "Finding",
    "picture.graph": "Dot Graph Lane LaneCopy LaneMerge LeftOut View",
    "public": "History",
}
_PLACES = {name: module for module, names in _MODULES.items() for name in names.split()}
# Without pathlib, which takes longer to import than the whole file to read.
with open(os.path.join(os.path.dirname(__file__), "VERSION"), encoding="ascii") as _file:
    __version__ = _file.read().strip()


def __getattr__(name: str) -> object:
    if name not in _PLACES:
        raise AttributeError(f"module {__name__!r} has no attribute {name!r}")
    return getattr(importlib.import_module("." + _PLACES[name], __name__), name)


def __dir__() -> list[str]:
    return sorted({*globals(), *__all__})
