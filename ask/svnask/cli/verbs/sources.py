"""`sources`."""
from __future__ import annotations

import time
from argparse import Namespace
from collections.abc import Iterator

from svnask.asking.verb import Object, Verb, object_line, write_all
from svnask.errors import Usage
from svnask.sources.opening import stored_sources
from svnask.texts import decoded, encoded

FORM = "{source}\tr{youngest}\t{bytes} bytes\tused {last_use}\n"


class SourcesVerb(Verb):
    usage = "svnask sources [-h]"
    needs_history = False

    def run(self, given: Namespace) -> int:
        if given.dump != "-":
            raise Usage("'sources' lists all sources, and takes none")
        return write_all(object_line(each) if given.json else encoded(FORM.format(**each)) for each in held_objects())


def held_objects() -> Iterator[Object]:
    for each in stored_sources():
        used = time.strftime("%Y-%m-%dT%H:%M:%SZ", time.gmtime(each.used))
        place = decoded(each.place)
        yield {"source": place, "kind": each.kind, "youngest": each.youngest, "bytes": each.size, "last_use": used}


VERB = SourcesVerb()
