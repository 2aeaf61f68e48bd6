"""`migration`: what a migration to git has to know."""
from __future__ import annotations

from argparse import ArgumentParser, Namespace
from collections.abc import Iterator

from svnask.asking.verb import Object, Verb, counted, fields_line, object_of_life, shown
from svnask.export.contents import large_texts
from svnask.export.migration import Migration, migration_of, rules_of
from svnask.history.open_history import OpenHistory
from svnask.log.plain import author_of
from svnask.picture.branch_merges import PART, PICKED
from svnask.texts import decoded, encoded

OF_LARGER = "also the files that got a text of more bytes, of a dump in a file"


class MigrationVerb(Verb):
    def arguments(self, parser: ArgumentParser) -> None:
        add = parser.add_mutually_exclusive_group().add_argument
        add("--authors-file", action="store_true", help="a file of authors for 'git svn', to be completed")
        parser.add_argument("--larger", metavar="BYTES", type=counted, help=OF_LARGER)
        add("--rules", choices=["svn-all-fast-export"], help="the rules by which that program makes repositories")

    def text(self, history: OpenHistory, given: Namespace) -> Iterator[bytes]:
        found = migration_of(history)
        if given.authors_file:
            for author in found.authors:
                name = author.name or b"(no author)"
                yield b"%s = %s <%s@example.com>\n" % (name, name, name.replace(b" ", b"."))
        elif given.rules:
            yield from rules_of(found)
        else:
            yield from (fields_line(fields) for fields in fields_of_lines(history, found, given.larger))

    def objects(self, history: OpenHistory, given: Namespace) -> Iterator[Object]:
        found = migration_of(history)
        for name, first, last, count in found.authors:
            yield {"type": "author", "author": shown(name), "first": first, "last": last, "revisions": count}
        for path, trunk, branches, tags in found.projects:
            yield {"type": "project", "path": decoded(path), "trunk": shown(trunk), "branches": branches, "tags": tags}
        for life, kind, name, reason in found.lives:
            yield {"type": kind, **object_of_life(life), "name": decoded(name), "reason": reason}
        for path, first, last, is_alive in found.outside:
            yield {"type": "outside", "path": decoded(path), "first": first, "last": last, "is_alive": is_alive}
        for path in found.empty:
            yield {"type": "empty", "path": decoded(path)}
        for each in large_texts(history, given.larger) if given.larger is not None else ():
            yield {"type": "large", "path": decoded(each.path), "revision": each.rev, "bytes": each.bytes}
        for rev, paths in found.several:
            yield {"type": "several", "revision": rev, "paths": [decoded(path) for path in paths]}
        for tag in found.tags:
            events = [{"what": event.what, "revision": event.rev} for event in tag.events]
            yield {"type": "changed-tag", "path": decoded(tag.life.path), "events": events}
        for merge in found.merges:
            place: Object = {"revision": merge.rev, "of": decoded(merge.of), "into": decoded(merge.into)}
            yield {"type": "merge", **place, "how": merge.how, "revisions": [*merge.revisions]}


def fields_of_lines(history: OpenHistory, found: Migration, larger: int | None) -> Iterator[list[bytes]]:
    """Yield the fields of each line, whose first one says what it is about."""
    for author in found.authors:
        name = author_of(history.revision(author.first))
        yield [b"author", name, b"r%d-r%d" % author[1:3], b"%d revisions" % author.revisions]
    for project in found.projects:
        counts = b"%d branches" % project.branches, b"%d tags" % project.tags
        yield [b"project", project.path, project.trunk or b"no trunk", *counts]
    for life, kind, name, reason in found.lives:
        revisions = b"r%d-%s" % (life.first, b"" if life.is_alive else b"r%d" % life.last)
        yield [encoded(kind), life.path, revisions, name, encoded(reason or "-")]
    yield from fields_of_contents(history, found, larger)
    for rev, paths in found.several:
        yield [b"several", b"r%d" % rev, b" ".join(paths)]
    for tag in found.tags:
        for event in tag.events:
            yield [b"changed-tag", tag.life.path, b"%s in r%d" % (encoded(event.what), event.rev)]
    for merge in found.merges:
        fields = [b"merge", b"r%d" % merge.rev, merge.of, merge.into, encoded(merge.how)]
        yield [*fields, *[encoded(merge.rangelist)] * (merge.how in (PICKED, PART))]


def fields_of_contents(history: OpenHistory, found: Migration, larger: int | None) -> Iterator[list[bytes]]:
    """Yield the lines about what is in no branch, and about what git keeps otherwise."""
    for path, first, last, is_alive in found.outside:
        yield [b"outside", path, b"r%d-%s" % (first, b"" if is_alive else b"r%d" % last)]
    for path in found.empty:
        yield [b"empty", path]
    for each in large_texts(history, larger) if larger is not None else ():
        yield [b"large", each.path, b"r%d" % each.rev, b"%d bytes" % each.bytes]


VERB = MigrationVerb()
