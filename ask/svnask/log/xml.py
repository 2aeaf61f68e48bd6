"""The log as `svn log --xml` prints it.

The order of the attributes of a tag, and of the properties of a revision, is that of a hash table which begins anew with
each run of `svn`. Here it is always the same.
"""
from __future__ import annotations

import base64
import functools
import re
from collections.abc import Iterator, Sequence

from svnask.copy.changes import Change
from svnask.copy.store import Revision
from svnask.log.forms import SHOWN, Form, LogEntry

CONTROL = re.compile(rb"[\x00-\x08\x0b\x0c\x0e-\x1f\x7f]")
SPECIAL = re.compile(rb"[\x00-\x08\x0b-\x1f\x7f&<>]")
# What is escaped in a text, and in an attribute besides.
IN_TEXT = ((b"&", b"&amp;"), (b"<", b"&lt;"), (b">", b"&gt;"), (b"\r", b"&#13;"))
IN_ATTRIBUTE = ((b'"', b"&quot;"), (b"'", b"&apos;"), (b"\n", b"&#10;"), (b"\t", b"&#9;"))
Attribute = tuple[bytes, bytes]
# The texts of so many changed paths are kept. The same ones come again and again.
MANY = 1 << 16


def escaped_xml(text: bytes) -> bytes:
    for letter, name in IN_TEXT:
        text = text.replace(letter, name)
    return text


def attribute(text: bytes) -> bytes:
    text = escaped_xml(text)
    for letter, name in IN_ATTRIBUTE:
        text = text.replace(letter, name)
    return text


def opening(tag: bytes, attributes: Sequence[Attribute]) -> bytes:
    """A tag with each of its attributes on a line."""
    return b"<%s%s>" % (tag, b"".join([b'\n   %s="%s"' % (name, attribute(value)) for name, value in attributes]))


def numbered(text: bytes) -> bytes:
    """A text whose control characters are written as decimal numbers."""
    return CONTROL.sub(lambda found: b"?\\%03d" % found[0][0], text)


def tagged(tag: bytes, text: bytes | None) -> bytes:
    if text is None:
        return b""
    if SPECIAL.search(text):
        text = escaped_xml(numbered(text))
    return b"<%s>%s</%s>\n" % (tag, text, tag)


def word(is_so: bool) -> bytes:
    return b"true" if is_so else b"false"


def path_text(change: Change) -> bytes:
    attributes = [
        (b"action", change.letter.encode("ascii")),
        (b"prop-mods", word(change.has_properties)),
        (b"text-mods", word(change.has_text)),
        (b"kind", (change.kind or "").encode("latin-1")),
    ]
    if change.source is not None:
        path, rev = change.source
        attributes += [(b"copyfrom-path", path), (b"copyfrom-rev", b"%d" % rev)]
    return b"%s%s</path>\n" % (opening(b"path", attributes), escaped_xml(change.path))


def is_plain_xml(value: bytes) -> bool:
    """Return whether a value can stand in XML as it is."""
    try:
        value.decode("utf-8")
    except UnicodeDecodeError:
        return False
    return CONTROL.search(value) is None


def property_text(name: bytes, value: bytes) -> bytes:
    attributes = [(b"name", name)]
    if is_plain_xml(value):
        text = escaped_xml(value)
    else:
        attributes.append((b"encoding", b"base64"))
        text = base64.encodebytes(value)
    return b"%s%s</property>\n" % (opening(b"property", attributes), text)


class XmlForm(Form):
    """The form of `--xml`."""

    end_of_merges = b"</logentry>\n"

    def __init__(self, is_incremental: bool = False) -> None:
        self.begin = b"" if is_incremental else b'<?xml version="1.0" encoding="UTF-8"?>\n<log>\n'
        self.end = b"" if is_incremental else b"</log>\n"
        self._path_text = functools.lru_cache(MANY)(path_text)

    def texts(self, revision: Revision) -> Iterator[bytes]:
        """Return what is there, as it is."""
        return (text for text in (revision.author, revision.date, revision.message) if text is not None)

    def entry(self, entry: LogEntry) -> bytes:
        (number, author, date, message, _, properties), changes, via, is_reverse, has_merges = entry
        reverse = b'\n   reverse-merge="%s"' % word(is_reverse) if via else b""
        pieces = [
            b'<logentry\n   revision="%d"%s>\n' % (number, reverse),
            tagged(b"author", author),
            tagged(b"date", date or None),
        ]
        if changes:
            pieces += [b"<paths>\n", *map(self._path_text, changes), b"</paths>\n"]
        pieces.append(tagged(b"msg", message))
        others = properties.keys() - SHOWN
        if others:
            texts = [property_text(name, properties[name]) for name in sorted(others)]
            pieces += [b"<revprops>\n", *texts, b"</revprops>\n"]
        if not has_merges:
            pieces.append(self.end_of_merges)
        return b"".join(pieces)
