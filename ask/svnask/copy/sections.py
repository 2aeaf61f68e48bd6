"""Property sections: the properties of a record or a revision in a dump."""
from __future__ import annotations

import mmap
import re
from typing import NamedTuple, Union

from svnask.digits import number

Bytes = Union[mmap.mmap, bytes]

LAST_LINE = b"PROPS-END\n"
MERGEINFO = b"svn:mergeinfo"
ONE_MERGEINFO = b"K 13\nsvn:mergeinfo\nV "
# A property of a revision, up to its value.
ENTRY = re.compile(rb"K [0-9]+\n(.*)\nV ([0-9]{1,18})\n")


class Malformed(Exception):
    """A block does not have its form, or the dump ends in it."""


def number_of(digits: bytes) -> int:
    if not digits.isdigit():
        raise Malformed("a length is not a number")
    return number(digits)


def text_at(section: bytes, at: int, letter: bytes) -> tuple[bytes, int]:
    """The name or the value at a place of a property section, and the place after it."""
    end = section.find(b"\n", at)
    if end < 0 or not section.startswith(letter, at):
        raise Malformed("a property does not have its form")
    stop = end + 1 + number_of(section[at + len(letter) : end])
    if not section.startswith(b"\n", stop):
        raise Malformed("a property does not have its length")
    return section[end + 1 : stop], stop + 1


def entries_of(section: bytes, is_delta: bool) -> list[tuple[bytes, bytes | None]]:
    """The names and the values of a property section; without a value where the property is deleted."""
    entries: list[tuple[bytes, bytes | None]] = []
    at = 0
    while at + len(LAST_LINE) != len(section) or not section.endswith(LAST_LINE):
        value: bytes | None = None
        if is_delta and section.startswith(b"D ", at):
            name, at = text_at(section, at, b"D ")
        else:
            name, at = text_at(section, at, b"K ")
            value, at = text_at(section, at, b"V ")
        entries.append((name, value))
    return entries


def entry(name: bytes, value: bytes | None) -> bytes:
    if value is None:
        return b"D %d\n%s\n" % (len(name), name)
    return b"K %d\n%s\nV %d\n%s\n" % (len(name), name, len(value), value)


def section_of(properties: dict[bytes, bytes]) -> bytes:
    return b"".join(entry(*each) for each in properties.items()) + LAST_LINE


def body_of(section: bytes) -> bytes:
    """The last headers of a block that has this property section alone, and the section."""
    return b"Prop-content-length: %d\nContent-length: %d\n\n%s\n" % (len(section), len(section), section)


def one_mergeinfo(whole: Bytes, begin: int, end: int) -> Setting | None:
    """Return the text that a property section sets, if it sets `svn:mergeinfo` and nothing else. Long texts need not be
    read then."""
    head = whole[begin : begin + len(ONE_MERGEINFO) + 32]
    digits, newline, _ = head[len(ONE_MERGEINFO) :].partition(b"\n")
    if not head.startswith(ONE_MERGEINFO) or not newline or not digits.isdigit():
        return None
    first, last = begin + len(ONE_MERGEINFO) + len(digits) + 1, end - 1 - len(LAST_LINE)
    is_one = first + int(digits) == last and whole[last:end] == b"\n" + LAST_LINE
    return Setting(whole, first, last) if is_one else None


class SplitSection(NamedTuple):
    """A property section with `svn:mergeinfo` alone, and what the whole one says of other properties."""

    section: bytes
    others: dict[bytes, bytes | None]


def split_section(section: bytes, is_delta: bool) -> SplitSection:
    """Split a property section. Of `svn:mergeinfo` it keeps the last entry, or each of them where the section has
    changes. A list without it says something, too: that there is none."""
    if section == LAST_LINE or one_mergeinfo(section, 0, len(section)):
        return SplitSection(section, {})
    entries = entries_of(section, is_delta)
    if len(entries) == 1 and entries[0][0] == MERGEINFO:
        return SplitSection(section, {})
    kept = [entry(name, value) for name, value in entries if name == MERGEINFO]
    others = {name: value for name, value in entries if name != MERGEINFO}
    return SplitSection(b"".join(kept if is_delta else kept[-1:]) + LAST_LINE, others)


def properties_of(section: bytes) -> dict[bytes, bytes]:
    """The properties of a revision, as far as they have their form, which svnhist does not judge."""
    values = {}
    at = 0
    while found := ENTRY.match(section, at):
        begin = found.end()
        end = begin + int(found[2])
        values[found[1]] = section[begin:end]
        at = end + 1
    return values


class Setting:
    """A change of the mergeinfo of a path: a text, or None where it is taken away. The text may be a part of others, of
    which only the place is kept."""

    __slots__ = ("_whole", "_first", "_last")

    def __init__(self, whole: Bytes | None, first: int = 0, last: int | None = None) -> None:
        self._whole, self._first, self._last = whole, first, last

    @property
    def text(self) -> bytes | None:
        return None if self._whole is None else self._whole[self._first : self._last]

    @property
    def is_text(self) -> bool:
        return self._whole is not None

    def taken(self) -> Setting:
        """Return the same with the text itself, which stays when the others are closed."""
        return Setting(self.text)

    def __eq__(self, other: object) -> bool:
        return isinstance(other, Setting) and self.text == other.text

    def __hash__(self) -> int:
        return hash(self.text)


def setting_of(whole: Bytes, begin: int, end: int, is_delta: bool) -> Setting | None:
    """Return what the property section between two places does to mergeinfo."""
    if begin == end:
        return None
    found = one_mergeinfo(whole, begin, end)
    if found is not None:
        return found
    try:
        values = [value for name, value in entries_of(whole[begin:end], is_delta) if name == MERGEINFO]
    except Malformed:
        # For this svnhist refuses the dump.
        return None
    if values:
        return Setting(values[-1])
    return None if is_delta else Setting(None)
