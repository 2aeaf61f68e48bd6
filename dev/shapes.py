"""Dumps of histories of odd shapes, in which something grows as the square that should not."""
from __future__ import annotations

import re
from dataclasses import replace

from dev.dumps import FILE, Dump, Node, Revision, added, changed, copied, deleted, dump_of, mergeinfo, section

FOLDERS = [added(b"trunk"), added(b"branches")]
A_FILE = added(b"trunk/f", FILE)
DATE = b"2024-01-01T00:00:00.000000Z"
# What looks like a part of a dump, or is more than one letter for whoever prints it; and what no name has.
FRAGMENTS = (
    *(b"Node-path: ", b"\nNode-path: a\n", b"\nNode-kind: dir\nNode-action: add\n", b"At: 1\n", b"K 1\na\nV 1\n"),
    *(b"Prop-content-length: 10\nContent-length: 10\n\n", b"Revision-number: 3\n\n", b"PROPS-END\n", b"\n", b"\r"),
    *(b"e\xcc\x81", b"\xcc\x81", b"\x00\xff", b"&<]]>", b"*[", b"@", b"1,", b":1\n", b"`-=", b"\xf0\x9f\x98\x80"),
)
NO_NAME = re.compile(rb"[\n\x00/]")


def names(count: int) -> list[bytes]:
    return [b"branches/b%d" % number for number in range(count)]


def deletions(count: int) -> bytes:
    """Many files that are made by one revision, and deleted by another one."""
    files = [b"trunk/f%d" % number for number in range(count)]
    return dump_of(FOLDERS, [added(file, FILE) for file in files], list(map(deleted, files)))


def later_deletions(count: int) -> bytes:
    """Many files that are made by one revision, and deleted one by one."""
    files = [b"trunk/f%d" % number for number in range(count)]
    return dump_of([*FOLDERS, *(added(file, FILE) for file in files)], *([deleted(file)] for file in files))


def directories(count: int) -> bytes:
    """Many branches that one revision makes, and not by copies."""
    return dump_of(FOLDERS, list(map(added, names(count))))


def copies(count: int) -> bytes:
    """Many branches, each by a revision."""
    return dump_of(FOLDERS, *([copied(name, b"trunk", 1)] for name in names(count)))


def chain(count: int) -> bytes:
    """Many branches, each a copy of the one before."""
    sources = [b"trunk", *names(count)]
    return dump_of(
        FOLDERS, *([copied(name, *pair)] for pair, name in zip(zip(sources, range(1, count + 1)), names(count)))
    )


def long_value(count: int) -> bytes:
    """One merge of many branches, of each other revisions."""
    changes: list[list[Node]] = [
        [changed(name, section({b"x": b"%d" % each})) for name in names(count)] for each in (1, 2)
    ]
    single = [[changed(name, section({b"x": b"3"}))] for name in names(count)]
    lines = [b"/%s:3,%d" % (name, 5 + number) for number, name in enumerate(names(count))]
    return dump_of(
        FOLDERS, list(map(added, names(count))), *changes, *single, [changed(b"trunk", mergeinfo(b"\n".join(lines)))]
    )


def long_name(count: int) -> bytes:
    return dump_of(FOLDERS, [copied(b"branches/" + b"x" * count, b"trunk", 1)])


def tags(count: int) -> bytes:
    """Many tags, and a change of some of them."""
    made = ([copied(b"tags/t%d" % number, b"trunk", 1)] for number in range(count))
    later = ([changed(b"tags/t%d/f" % number, text=b"x")] for number in range(0, count, 100))
    return dump_of([added(b"trunk"), added(b"tags"), A_FILE], *made, *later)


def written(number: int) -> Node:
    """Return a change of the file. It has the kind, which Subversion dumps with all but deletions."""
    return replace(changed(A_FILE.path, text=b"%d" % number), kind=FILE)


def one_file(count: int) -> bytes:
    """Many revisions of one file."""
    return dump_of([*FOLDERS, A_FILE], *([written(number)] for number in range(count)))


def merges(count: int) -> bytes:
    """Many merges from the trunk into one branch."""
    steps: list[list[Node]] = [[*FOLDERS, A_FILE], [copied(b"branches/b", b"trunk", 1)]]
    for number in range(count):
        value = mergeinfo(b"/trunk:3-%d" % (2 * number + 3) if number else b"/trunk:3")
        steps += [[changed(A_FILE.path, text=b"%d" % number)], [changed(b"branches/b", value)]]
    return dump_of(*steps)


def merged_branches(count: int) -> bytes:
    """Many branches, each made after a change of the trunk, which is merged into it later."""
    steps: list[list[Node]] = [[*FOLDERS, A_FILE]]
    for name in names(count):
        steps += [[copied(name, b"trunk", len(steps))], [changed(A_FILE.path, text=name)]]
        steps.append([changed(name, mergeinfo(b"/trunk:%d" % len(steps)))])
    return dump_of(*steps)


def values_below(count: int) -> bytes:
    """Two merges, which change many files of a branch and give each of them mergeinfo, too."""
    files = [b"/f%d" % number for number in range(count)]
    steps: list[list[Node]] = [[*FOLDERS, *(added(b"trunk" + file, FILE) for file in files)]]
    steps.append([copied(b"branches/b", b"trunk", 1)])
    for revisions in (b"3", b"3,5"):
        steps.append([changed(b"trunk" + file, text=revisions) for file in files])
        values = {file: mergeinfo(b"/trunk%s:%s" % (file, revisions)) for file in (b"", *files)}
        steps.append([changed(b"branches/b" + file, value, revisions) for file, value in values.items()])
    return dump_of(*steps)


def made_anew(count: int) -> bytes:
    """A branch that is deleted and made again and again, gets a merge, and is tagged."""
    steps: list[list[Node]] = [[*FOLDERS, added(b"tags"), A_FILE], [written(2)]]
    for number in range(count):
        steps.append([*[deleted(b"branches/b")] * bool(number), copied(b"branches/b", b"trunk", 1)])
        steps.append([changed(b"branches/b", mergeinfo(b"/trunk:2"))])
        steps.append([copied(b"tags/t%d" % number, b"branches/b", len(steps))])
    return dump_of(*steps)


def renamed_files(count: int) -> bytes:
    """One revision that renames many files, and lists their properties, which are as they were."""
    files = [b"trunk/f%d" % number for number in range(count)]
    same = section({b"x": b"1"})
    moves = [node for file in files for node in (copied(file + b".c", file, 1, properties=same), deleted(file))]
    return dump_of([*FOLDERS, *(added(file, FILE, same) for file in files)], moves)


def renames(count: int) -> bytes:
    """One branch that is renamed again and again."""
    steps: list[list[Node]] = [FOLDERS, [copied(b"branches/b0", b"trunk", 1)]]
    for number in range(1, count):
        before = b"branches/b%d" % (number - 1)
        steps.append([copied(b"branches/b%d" % number, before, number + 1), deleted(before)])
    return dump_of(*steps)


def moved_folder(count: int) -> bytes:
    """Many tags in a folder, which is moved with the folder that it is in."""
    made = ([copied(b"tags/y/t%d" % number, b"trunk", 1)] for number in range(count))
    moved = [added(b"p"), copied(b"p/tags", b"tags", count + 1), deleted(b"tags")]
    return dump_of([added(b"trunk"), added(b"tags"), added(b"tags/y"), A_FILE], *made, moved)


def renamed_folder(count: int) -> bytes:
    """A folder with one branch in it that is renamed again and again."""
    steps: list[list[Node]] = [[*FOLDERS, added(b"branches/d0")], [copied(b"branches/d0/b", b"trunk", 1)]]
    for number in range(1, count):
        before = b"branches/d%d" % (number - 1)
        steps.append([copied(b"branches/d%d" % number, before, number + 1), deleted(before)])
    return dump_of(*steps)


def made_again(count: int) -> bytes:
    """A folder that is deleted and made again and again, at first with many branches in it."""
    again = ([deleted(b"branches")] if number % 2 else [added(b"branches")] for number in range(1, count + 1))
    return dump_of(FOLDERS, [copied(name, b"trunk", 1) for name in names(count)], *again)


def copied_into_folders(count: int) -> bytes:
    """A revision that makes many folders, with a copy in each."""
    folders = [b"trunk/d%d" % number for number in range(count)]
    nodes = [node for folder in folders for node in (added(folder), copied(folder + b"/f", A_FILE.path, 1))]
    return dump_of([*FOLDERS, A_FILE], nodes)


def renewed(count: int) -> bytes:
    """A file that is renamed again and again, below a folder that is copied onto itself in between."""
    steps: list[list[Node]] = [[*FOLDERS, A_FILE]]
    files = [A_FILE.path, *(b"trunk/f%d" % number for number in range(count)), b"trunk/last"]
    for before, after in zip(files, files[1:]):
        steps.append([copied(b"trunk", b"trunk", len(steps), b"replace")])
        steps.append([copied(after, before, len(steps)), deleted(before)])
    return dump_of(*steps)


def wide_value(count: int) -> bytes:
    """A value of so many bytes, of every other revision of the trunk."""
    changes = ([changed(A_FILE.path, text=b"%d" % number)] for number in range(count // 50))
    revisions = b",".join(b"%d" % rev for rev in range(3, count, 2))[:count].rpartition(b",")[0]
    return dump_of(
        [*FOLDERS, A_FILE],
        [copied(b"branches/b", b"trunk", 1)],
        *changes,
        [changed(b"branches/b", mergeinfo(b"/trunk:" + revisions))],
    )


def long_message(count: int) -> bytes:
    """A revision whose message has so many bytes."""
    line = b"a line of a long message\n"
    named = {b"svn:log": line * (count // len(line)), b"svn:author": b"alice", b"svn:date": DATE}
    return bytes(Dump([Revision(0), Revision(1, [*FOLDERS, A_FILE]), Revision(2, [changed(A_FILE.path)], named)]))


def headers(count: int) -> bytes:
    """A record with many header lines that are not read."""
    more = b"Text-content-md5: x\n" * count
    node = bytes(A_FILE).replace(b"Node-action: add\n", b"Node-action: add\n" + more + b"X: y\n")
    return dump_of(FOLDERS, []) + node


def fragments(count: int) -> bytes:
    """Messages, authors, paths and values of mergeinfo that are one fragment again and again, so many bytes long."""
    revisions = [Revision(0), Revision(1, [*FOLDERS, A_FILE])]
    for fragment in FRAGMENTS:
        text = fragment * (count // len(fragment))
        name = NO_NAME.sub(b"-", text)
        nodes = [
            added(b"trunk/" + name, FILE),
            changed(b"branches", mergeinfo(b"/%s:1" % name)),
            deleted(b"trunk/" + name),
        ]
        named = {b"svn:log": text, b"svn:author": text, b"svn:date": DATE}
        revisions.append(Revision(len(revisions), nodes[:2], named))
        revisions.append(Revision(len(revisions), nodes[2:]))
    return bytes(Dump(revisions))


def deep_path(count: int) -> bytes:
    """Folders in one another, with a change of the deepest one."""
    paths = [b"trunk" + b"/d" * depth for depth in range(1, count + 1)]
    return dump_of(FOLDERS, list(map(added, paths)), [changed(paths[-1], section({b"x": b"1"}))])


def properties(count: int) -> bytes:
    """One revision that changes properties of many files."""
    files = [b"trunk/f%d" % number for number in range(count)]
    made = [added(file, FILE) for file in files]
    return dump_of(FOLDERS, made, [replace(changed(file, section({b"x": b"1"})), kind=FILE) for file in files])
