"""Dumps and queries that somebody could make to do harm, each by the size that it is made for.

What is no plain record is written here on purpose, by its bytes: endless lines, claimed lengths, long sections.
"""
from __future__ import annotations

from collections.abc import Iterable, Sequence
from itertools import chain, repeat
from typing import Callable

from bench.colliding import side
from bench.histories import BEGIN
from bench.measure import PIECE
from dev.dumps import END, FILE, Node, added, changed, copied, deleted, mergeinfo
from dev.tree import EXAMPLES

Pieces = Iterable[bytes]
Maker = Callable[[int], Pieces]

MOST_WORKERS = 64
MOST_COMPONENTS = 1024
# The bits of the numbers of distant names.
BITS = 13
GREATEST_LENGTH = (1 << 63) - 1
# Lines of the builder with a place for a path. To build each of a million records would take twenty times as long.
REVISION = b"\nRevision-number: %d\n\n"
NEW_FILE, NEW_DIRECTORY = bytes(added(b"%s", FILE)), bytes(added(b"%s"))
CHANGED = bytes(changed(b"%s"))[:-1]


def revision(number: int, *nodes: Node) -> bytes:
    """Return a revision without properties, after an empty line."""
    return REVISION % number + b"".join(map(bytes, nodes))


# A dump before the records of revision 1, and one in whose revision 1 there is a file `a`.
FIRST = BEGIN + revision(1)
ONE_FILE = BEGIN + revision(1, added(b"a", FILE))


def repeated(name: str, before: bytes, block: bytes = b"", after: bytes = b"") -> Maker:
    """Return a function that makes a block so often, in large pieces, between other bytes."""

    def make(count: int) -> Pieces:
        each = PIECE // max(1, len(block))
        yield before
        yield from repeat(block * each, count // each)
        yield block * (count % each) + after

    make.__name__ = name
    return make


def numbered(form: bytes, count: int) -> Pieces:
    """So many pieces of a form that has a place for a number."""
    return (form % number for number in range(count))


def changed_section(size: int, path: bytes = b"a") -> bytes:
    """The header of a change with so many bytes of properties, without the length of the whole."""
    return CHANGED % path + b"Prop-content-length: %d\n\n" % size


def changed_mergeinfo(lines: Iterable[bytes], path: bytes = b"a") -> bytes:
    value = mergeinfo(b"".join(lines))
    return changed_section(len(value), path) + value


def long_path(size: int) -> bytes:
    """A path below the directory `a` whose last component is that long."""
    return b"a/" + b"x" * size


def deep() -> tuple[bytes, bytes]:
    """A dump in whose revision 1 there are directories, each in the one before, and the path of the last."""
    paths = [b"/".join([b"d"] * depth) for depth in range(1, MOST_COMPONENTS)]
    return BEGIN + revision(1, *map(added, paths)), paths[-1]


def changes_of_the_file(count: int) -> Pieces:
    return (revision(number + 2, changed(b"a")) for number in range(count))


def nested_path(first: int, last: int) -> bytes:
    """The path through copies of the root."""
    return b"/".join(b"n%d" % number for number in range(last, first - 1, -1))


CLAIMED_TEXT = ONE_FILE + CHANGED % b"a" + b"Content-length: %d\n\n" % GREATEST_LENGTH
CLAIMED_PROPERTIES = ONE_FILE + changed_section(GREATEST_LENGTH) + b"K %d\n" % (GREATEST_LENGTH // 2)
NUMBER = ONE_FILE + CHANGED % b"a" + b"Content-length: "

NOTHING, WITHOUT_RECORDS = repeated("", b""), repeated("", BEGIN)
LONG_HEADER_LINE = repeated("long header line", BEGIN + b"\nRevision-number: 1\nX: ", b"x", b"\n\n")
LONG_NUMBER = repeated("long number in a header", NUMBER, b"0", b"\n\n")
NEWLINES = repeated("many newlines", BEGIN, b"\n")
TEXT_OF_CLAIMED_LENGTH = repeated("text of claimed length", CLAIMED_TEXT, b"x")
PROPERTIES_OF_CLAIMED_LENGTH = repeated("properties of claimed length", CLAIMED_PROPERTIES, b"x")
DELETES = repeated("deletes of one path", ONE_FILE, bytes(deleted(b"a")))
ADDS_AND_DELETES = repeated("adds and deletes of one path", FIRST, NEW_FILE % b"a" + bytes(deleted(b"a")))
# Queries about the example, and about the file of a dump.
EXAMPLE = repeated("", (EXAMPLES / "branch.dump").read_bytes())
LONG_PATH = repeated("long path in a query", b"log\t", b"a", b"@7\n")
MANY_COMPONENTS = repeated("many components in a query", b"log\t", b"a/", b"@7\n")
TABS = repeated("line of tabs", b"", b"\t", b"\n")
MANY_MERGED = repeated("many merged", b"", b"merged\ttrunk@5\tbranches/fix@7\n")
EMPTY_LINES = repeated("many empty lines", b"", b"\n")
MERGEINFO_OF_THE_FILE = repeated("mergeinfo of the file", b"mergeinfo\ta@1\n")
MERGED_FOR_EACH_WORKER = repeated("merged for each worker", b"merged\ta@1\ta@1\n" * MOST_WORKERS)


def header_of_many_lines(count: int) -> Pieces:
    return chain([BEGIN + b"\nRevision-number: 1\n"], numbered(b"X-%d: y\n", count), [b"\n"])


def long_property(size: int) -> Pieces:
    before, after = b"K 1\na\nV %d\n" % size, b"\n" + END
    return [ONE_FILE, changed_section(len(before) + size + len(after)), before, b"x" * size, after]


def many_properties_in_one_section(count: int) -> Pieces:
    lines = b"K 1\na\nV 1\nb\n"
    return [ONE_FILE, changed_section(len(lines) * count + len(END)), lines * count, END]


def many_revisions_without_records(count: int) -> Pieces:
    return chain([BEGIN], map(revision, range(1, count + 1)))


def entries_of_one_directory(count: int) -> Pieces:
    return chain([FIRST + NEW_DIRECTORY % b"wide"], numbered(NEW_FILE % b"wide/f%d", count))


def files_below_many_directories(count: int) -> Pieces:
    begin, path = deep()
    return chain([begin], numbered(NEW_FILE % (path + b"/%d"), count))


def files_below_many_directories_in_revisions(count: int) -> Pieces:
    begin, path = deep()
    files = numbered(NEW_FILE % (path + b"/%d"), count)
    return chain([begin], (revision(number) + file for number, file in enumerate(files, 2)))


def files_below_deep_copies(count: int) -> Pieces:
    begin, path = deep()
    copy, file = bytes(copied(b"c%d", b"d", 1)), NEW_FILE % (b"c%d" + path[1:] + b"/f")
    return chain([begin + revision(2)], (copy % number + file % number for number in range(count)))


def files_below_directories_of_distant_names(count: int) -> Pieces:
    """Files below directories that have, beside the next one, names whose numbers differ from its number in one bit."""
    names = [b"t", b"d"] + [b"%x-" % number for number in range(2, (1 << BITS) + 2)]
    paths = [b"/".join([b"d"] * depth) for depth in range(2, MOST_COMPONENTS)]
    begin = FIRST + b"".join(NEW_DIRECTORY % name for name in names[:2])
    begin += b"".join(NEW_FILE % name for name in names[2:])
    below = b"".join(NEW_FILE % (b"t/" + names[1 + (1 << bit)]) for bit in range(1, BITS))
    copies = revision(3, *(copied(path, b"t", 2) for path in paths))
    return chain([begin + revision(2) + below + copies], numbered(NEW_FILE % (paths[-1] + b"/%x"), count))


def long_paths_of_new_names(count: int) -> Pieces:
    paths = (b"/".join(b"%d-%d" % (number, depth) for depth in range(MOST_COMPONENTS)) for number in range(count))
    return chain([FIRST], (NEW_FILE % path for path in paths))


def changes_of_long_paths(count: int) -> Pieces:
    last = MOST_COMPONENTS + count - 1
    paths = (nested_path(first, first + MOST_COMPONENTS - 1) for first in range(1, count + 1))
    return chain(nested_copies_of_the_root(last), [revision(last + 1)], (bytes(changed(path)) for path in paths))


def nested_copies_of_the_root(count: int) -> Pieces:
    """Copies of the root, each of the revision before, and so with all copies before it."""
    return chain([BEGIN], (revision(rev, copied(b"n%d" % rev, b"", rev - 1)) for rev in range(1, count + 1)))


def copies_of_a_wide_directory(count: int) -> Pieces:
    copies = (revision(number + 2, copied(b"c%d" % number, b"wide", 1)) for number in range(count))
    return chain(entries_of_one_directory(count), copies)


def changes_in_revisions(count: int) -> Pieces:
    return chain([ONE_FILE], changes_of_the_file(count))


def moves_of_one_file(count: int) -> Pieces:
    names = [b"m%d" % number for number in range(count + 1)]
    moves = (
        revision(rev, copied(names[rev], names[rev - 1], rev - 1), deleted(names[rev - 1]))
        for rev in range(2, count + 1)
    )
    return chain([FIRST + NEW_FILE % b"m1"], moves)


def distinct_mergeinfo_values(count: int) -> Pieces:
    return chain([ONE_FILE], (changed_mergeinfo([b"/b:%d" % (number + 1)]) for number in range(count)))


def mergeinfo_malformed_in_its_last_line(size: int) -> Pieces:
    least = 10**7
    count = size // len(b"/%d:%d\n" % (least, least))
    lines = (b"/%d:%d\n" % (number, number) for number in range(least, least + count))
    return [ONE_FILE, changed_mergeinfo([*lines, b"/c:3-1"])]


def mergeinfo_lines_that_clash(count: int) -> Pieces:
    last = 2 * count + 2
    lines = (b"/b:%d-%d%s\n" % (number + 1, last - number, b"*" * (number % 2)) for number in range(count))
    return [ONE_FILE, changed_mergeinfo(lines)]


def mergeinfo_lines_of_one_path(count: int) -> Pieces:
    return [ONE_FILE, changed_mergeinfo(b"/b:%d\n" % (2 * number + 1) for number in range(count))]


def short_mergeinfo_lines(count: int) -> Pieces:
    return [ONE_FILE, changed_mergeinfo(numbered(b"%x:1\n", count))]


def mergeinfo_above_a_long_name(count: int) -> Pieces:
    return [FIRST, NEW_DIRECTORY % b"a", NEW_FILE % long_path(count), changed_mergeinfo(numbered(b"%x:1\n", count))]


def merges_of_all_revisions(count: int) -> Pieces:
    last = [revision(count + 2), changed_mergeinfo([b"/a:1-%d" % (count + 1)], b"b")]
    return chain([ONE_FILE + NEW_FILE % b"b"], changes_of_the_file(count), last)


# ---- queries about these dumps


def mergeinfo_below(count: int) -> Pieces:
    return [b"mergeinfo\t%s@1\n" % long_path(count)]


def eligible_for_each_revision(count: int) -> Pieces:
    return [b"eligible\ta@%d\tb@%d\n" % (count + 1, count + 2)] * count


def log_for_each_revision(count: int) -> Pieces:
    return [b"log\t@%d\n" % (count + 1)] * count


def first_path_for_each_move(count: int) -> Pieces:
    return [b"locate\tm%d@%d\t1\n" % (count, count)] * count


def an_entry_of_each_copy(count: int) -> Pieces:
    return (b"locate\tc%d/f%d@%d\t1\n" % (number, number * 7919 % count, count + 1) for number in range(count))


def origin_of_the_nested_path(count: int) -> Pieces:
    return [b"locate\t%s@%d\t0\n" % (nested_path(1, count), count)]


def segments_of_the_nested_path(count: int) -> Pieces:
    return [b"segments\t%s@%d\n" % (nested_path(1, count), count)]


# ---- keys that collide


def new_names(numbers: Iterable[int]) -> Pieces:
    return chain([FIRST], (NEW_FILE % b"%08x" % number for number in numbers))


def new_values(numbers: Iterable[int]) -> Pieces:
    return chain([ONE_FILE], (changed_mergeinfo([b"%08x" % number]) for number in numbers))


def new_nodes(pairs: Sequence[tuple[int, int]]) -> Pieces:
    """Directories and files, which have the first nodes and names, and then the files of these pairs."""
    many = side(len(pairs))
    new = numbered(NEW_DIRECTORY % b"%08x", many), numbered(NEW_FILE % b"f%07x", many)
    return chain([FIRST], *new, (NEW_FILE % b"%08x/f%07x" % pair for pair in pairs))


def ordinary_pairs(count: int) -> list[tuple[int, int]]:
    many, each = side(count), -(-count // side(count))
    return [(number // each, number * 7 % many) for number in range(count)]
