"""Builders of dumps in formats 2 and 3.

A `Dump` has `Revision`s, which have `Node`s; `bytes` of each is its part of the dump. A history that is too long to be
kept is written piece by piece, `first_lines` first.
"""
from __future__ import annotations

from collections.abc import Iterable, Mapping, Sequence
from dataclasses import dataclass
from typing import NamedTuple, Optional

FILE, DIR = b"file", b"dir"
MERGEINFO = b"svn:mergeinfo"
END = b"PROPS-END\n"
# The values of properties by their names. None deletes a property, in a section that has changes alone.
Properties = Mapping[bytes, Optional[bytes]]


def entry(letter: bytes, text: bytes) -> bytes:
    return b"%s %d\n%s\n" % (letter, len(text), text)


def section(properties: Properties) -> bytes:
    """A property section."""
    entries = (
        entry(b"D", name) if value is None else entry(b"K", name) + entry(b"V", value)
        for name, value in properties.items()
    )
    return b"".join(entries) + END


def mergeinfo(value: bytes) -> bytes:
    """A property section with mergeinfo alone."""
    return section({MERGEINFO: value})


def revision_properties(message: bytes, author: bytes, date: bytes) -> Properties:
    return {b"svn:log": message, b"svn:author": author, b"svn:date": date}


def header(lines: Iterable[bytes], properties: bytes | None = None, text: bytes | None = None) -> bytes:
    """These lines, those that tell the lengths of a property section and a text, and the empty line after them."""
    head = list(lines)
    if properties is not None:
        head.append(b"Prop-content-length: %d" % len(properties))
    if text is not None:
        head.append(b"Text-content-length: %d" % len(text))
    if properties is not None or text is not None:
        head.append(b"Content-length: %d" % (len(properties or b"") + len(text or b"")))
    return b"\n".join(head) + b"\n\n"


def block(lines: Iterable[bytes], properties: bytes | None = None, text: bytes | None = None) -> bytes:
    """A block with these header lines, a property section and a text."""
    body = (properties or b"") + (text or b"")
    return header(lines, properties, text) + body + b"\n" * bool(body)


def first_lines(form: int = 2, uuid: bytes | None = None) -> bytes:
    """Return what stands before the revisions."""
    return b"SVN-fs-dump-format-version: %d\n\n" % form + (b"" if uuid is None else block([b"UUID: " + uuid]))


class Source(NamedTuple):
    """The source of a copy."""

    path: bytes
    revision: int


@dataclass(frozen=True)
class Node:
    """A record: what a revision did to a path."""

    path: bytes
    action: bytes
    kind: bytes | None = None
    source: Source | None = None
    properties: bytes | None = None
    text: bytes | None = None
    # Whether the properties are changes alone, as in format 3.
    has_changes: bool = False

    def lines(self) -> list[bytes]:
        """The header lines but those of lengths."""
        lines = [b"Node-path: " + self.path]
        if self.kind is not None:
            lines.append(b"Node-kind: " + self.kind)
        lines.append(b"Node-action: " + self.action)
        if self.source is not None:
            lines.append(b"Node-copyfrom-rev: %d" % self.source.revision)
            lines.append(b"Node-copyfrom-path: " + self.source.path)
        if self.has_changes:
            lines.append(b"Prop-delta: true")
        return lines

    def __bytes__(self) -> bytes:
        return block(self.lines(), self.properties, self.text)


def added(path: bytes, kind: bytes = DIR, properties: bytes | None = None, text: bytes | None = None) -> Node:
    return Node(path, b"add", kind, properties=properties, text=text)


def changed(path: bytes, properties: bytes | None = None, text: bytes | None = None) -> Node:
    return Node(path, b"change", properties=properties, text=text)


def deleted(path: bytes) -> Node:
    return Node(path, b"delete")


def copied(path: bytes, source: bytes, revision: int, action: bytes = b"add", properties: bytes | None = None) -> Node:
    return Node(path, action, source=Source(source, revision), properties=properties)


@dataclass(frozen=True)
class Revision:
    number: int
    nodes: Sequence[Node] = ()
    properties: Properties | None = None

    def __bytes__(self) -> bytes:
        properties = None if self.properties is None else section(self.properties)
        return block([b"Revision-number: %d" % self.number], properties) + b"".join(map(bytes, self.nodes))


@dataclass(frozen=True)
class Dump:
    revisions: Sequence[Revision]
    form: int = 2
    uuid: bytes | None = None

    def __bytes__(self) -> bytes:
        return first_lines(self.form, self.uuid) + b"".join(map(bytes, self.revisions))


def dump_of(*changes: Sequence[Node], form: int = 2) -> bytes:
    """A dump whose revisions from 1 on have these nodes, and whose revision 0 has none."""
    return bytes(Dump([Revision(0), *(Revision(number, nodes) for number, nodes in enumerate(changes, 1))], form))
