"""The histories that `record` makes with Subversion, one function for each repository.

Each function gets a `Workshop`: a working copy of an empty repository, and the commands for it. The comments have the
number of the revision that a step makes.
"""
from __future__ import annotations

from collections.abc import Callable

from dev.tree import INTEROP
from interop.workshop import Workshop

Make = Callable[[Workshop], None]


def branches(shop: Workshop) -> None:
    """Branches and tags, a branch that is deleted, and tags of older revisions."""
    shop.make("trunk/lib", "branches", "tags")
    shop.commit("Begin", {"trunk/main.c": "int main;\n", "trunk/lib/util.c": "int util;\n"})  # 1
    shop.commit("Change the program", {"trunk/main.c": "int main = 1;\n"})  # 2
    shop.server("copy", "HEAD", "trunk", "branches/one")  # 3
    shop.server("copy", "1", "trunk", "tags/begun")  # 4, of an older revision
    shop.commit("Add a file to each line", {"branches/one/new.c": "int new;\n", "trunk/lib/late.c": "int late;\n"})  # 5
    shop.server("copy", "HEAD", "branches/one", "tags/one-1.0")  # 6
    shop.server("copy", "HEAD", "trunk/lib", "branches/lib")  # 7, of a part alone
    shop.delete("branches/one")
    shop.commit("The branch is done")  # 8
    shop.copy("trunk", "branches/two")
    shop.delete("branches/two/lib/util.c")
    files = {"branches/two/main.c": "int main = 2;\n", "branches/two/lib/two.c": "int two;\n"}
    shop.commit("Branch and change in one revision", files)  # 9
    shop.server("copy", "5", "branches/one", "branches/one-again")  # 10
    shop.server("copy", "4", "branches/one/lib", "branches/two/lib/old")  # 11
    shop.server("delete", "tags/begun")  # 12
    shop.server("copy", "11", "tags/begun/lib", "tags/lib")  # 13


def renames(shop: Workshop) -> None:
    """Renames of files and directories, inside a renamed directory, back to the first name, and a swap of two names."""
    shop.make("a/b/c")
    shop.commit("Begin", {"a/x": "x\n", "a/b/y": "y\n", "a/b/c/z": "z\n", "top": "top\n"})  # 1
    shop.move({"a/x": "a/x2"})
    shop.commit("Rename a file")  # 2
    shop.move({"a": "m"})
    shop.commit("Rename a directory")  # 3
    shop.move({"m": "n", "n/b": "n/bb"})
    shop.commit("Rename a directory and one inside it, and change a file", {"n/bb/y": "y\nmore\n"})  # 4
    shop.move({"n/bb/c/z": "z", "n/bb/c": "n/x2.dir"})
    shop.commit("Move up")  # 5
    shop.move({"n": "a"})
    shop.commit("Back to the first name")  # 6
    shop.move({"top": "hold", "z": "top", "hold": "z"})
    shop.commit("Swap two names")  # 7
    shop.move({"a/x2": "A"})
    shop.commit("A name in other letters")  # 8
    shop.make("deep/er/still")
    shop.move({"a/bb": "deep/er/still/bb"})
    shop.commit("Move into directories that are new too")  # 9
    shop.move({"deep/er": "er"})
    shop.delete("deep")
    shop.commit("Move out and delete what is left")  # 10


def copies(shop: Workshop) -> None:
    """Copies of copies, into themselves, of older revisions, of the root, with changes, and of mixed revisions."""
    shop.make("s/in")
    shop.commit("Begin", {"s/f": "f\n", "s/in/g": "g\n"})  # 1
    shop.server("copy", "HEAD", "s", "t")  # 2
    shop.server("copy", "HEAD", "t", "u")  # 3
    shop.server("copy", "HEAD", "u/in", "u/in/in")  # 4, a directory into itself
    shop.server("copy", "HEAD", "u", "s/u")  # 5
    shop.server("copy", "HEAD", "s", "v")  # 6, copies inside a copy
    shop.server("copy", "2", "t", "w")  # 7, of an older revision
    shop.server("copy", "HEAD", "", "root")  # 8, the root itself
    shop.copy("s", "p")
    shop.copy("v/u/in", "p/u/again")
    shop.delete("p/u/in")
    shop.copy("s/f", "p/in/f")
    shop.commit("A copy with copies, a deletion and a change in it", {"p/in/f": "f\nin p\n"})  # 9
    shop.commit("One file", {"s/f": "f\n10\n"}, update=False)  # 10
    shop.commit("Another file", {"s/in/g": "g\n11\n"}, update=False)  # 11, the working copy has mixed revisions
    shop.copy("s", "mixed")
    shop.commit("A copy of mixed revisions")  # 12
    shop.svn("update", "-r", "7", "s/in")
    shop.svn("update", "-r", "4", "s/u")
    shop.copy("s", "mixed2")
    shop.commit("A copy that leaves out what was not there")  # 13
    shop.server("copy", "HEAD", "mixed", "chain1")  # 14
    shop.server("copy", "HEAD", "chain1", "chain2")  # 15
    shop.server("copy", "HEAD", "chain2", "chain3")  # 16
    shop.server("copy", "14", "chain1/in", "chain3/in/in")  # 17


def replaced(shop: Workshop) -> None:
    """Replaced files and directories: by new ones, by copies, by the other kind, inside a copy, and by oneself."""
    shop.make("d/in", "e")
    shop.commit("Begin", {"f": "f\n", "d/g": "g\n", "d/in/h": "h\n", "e/g": "other g\n"})  # 1
    shop.delete("f")
    shop.commit("A file by a new one", {"f": "another f\n"})  # 2
    shop.delete("d")
    shop.make("d")
    shop.commit("A directory by a new one", {"d/g": "another g\n"})  # 3
    shop.delete("f")
    shop.copy("e/g", "f")
    shop.commit("A file by a copy")  # 4
    shop.server("delete", "d", "copy", "2", "d", "d")  # 5, a directory by its own past
    shop.server("delete", "f", "copy", "1", "f", "f")  # 6, a file by its own past
    shop.server("delete", "f", "copy", "HEAD", "f", "f")  # 7, by what it was a moment ago
    shop.copy("d", "k")
    shop.delete("k/in")
    shop.copy("e", "k/in")
    shop.delete("k/g")
    shop.commit("Replacements inside a copy", {"k/g": "new in a copy\n"})  # 8
    shop.server("delete", "e", "put", "e")  # 9, a directory by a file
    shop.server("delete", "f", "mkdir", "f")  # 10, a file by a directory
    shop.delete("k")
    shop.copy("d", "k")
    shop.commit("A directory by a copy with an addition", {"k/in/more": "more\n"})  # 11
    shop.server("copy", "8", "k/in", "in8")  # 12
    shop.server("delete", "d", "mkdir", "d", "copy", "8", "k/in", "d/in")  # 13


def again(shop: Workshop) -> None:
    """Paths deleted and added again: new, as copies of the same or of other sources, or from an older revision."""
    shop.make("trunk/a", "b")
    shop.commit("Begin", {"trunk/a/f": "f\n"})  # 1
    shop.server("copy", "HEAD", "trunk", "b/one")  # 2
    shop.server("delete", "b/one")  # 3
    shop.server("copy", "HEAD", "trunk", "b/one")  # 4, the same source again
    shop.server("delete", "b/one/a/f")  # 5
    shop.commit("New at a path that was copied before", {"b/one/a/f": "new\n"})  # 6
    shop.server("delete", "b/one")  # 7
    shop.server("copy", "6", "b/one", "b/one")  # 8, out of the past
    shop.server("delete", "trunk/a")  # 9
    shop.make("trunk/a")
    shop.commit("New at a deleted path", {"trunk/a/f": "fresh\n"})  # 10
    shop.server("copy", "HEAD", "trunk", "b/two")  # 11
    shop.server("delete", "trunk/a/f", "delete", "b/two/a")  # 12
    shop.server("copy", "1", "trunk/a/f", "trunk/a/f")  # 13, the first, not the second
    shop.server("copy", "13", "trunk/a", "b/two/a")  # 14
    shop.server("delete", "b")  # 15
    shop.server("mkdir", "b", "copy", "14", "b/two", "b/one")  # 16, another one at the old path
    shop.server("copy", "2", "b/one", "b/two")  # 17


def merges(shop: Workshop) -> None:
    """Merges: of all eligible revisions, of one, reversed, recorded only, into a subdirectory, and back."""
    shop.make("trunk/lib", "branches")
    shop.commit("Begin", {"trunk/a": "a\n", "trunk/lib/b": "b\n"})  # 1
    shop.server("copy", "HEAD", "trunk", "branches/one")  # 2
    shop.server("copy", "HEAD", "trunk", "branches/two")  # 3
    shop.make("trunk/dir")
    shop.commit("Additions that a merge will copy", {"trunk/new": "new\n", "trunk/dir/in": "in\n"})  # 4
    shop.commit("Change a file", {"trunk/a": "a\nmore\n"})  # 5
    shop.delete("trunk/lib/b")
    shop.commit("Delete a file")  # 6
    shop.merge("Merge all that is due", "^/trunk", "branches/one")  # 7
    shop.merge("Pick one change", "-c", "5", "^/trunk", "branches/two")  # 8
    shop.merge("Record one change alone", "--record-only", "-c", "6", "^/trunk", "branches/two")  # 9
    shop.commit("Work on the branch", {"branches/one/new": "new\nin one\n", "branches/one/only": "only\n"})  # 10
    shop.merge("Merge the branch back", "^/branches/one", "trunk")  # 11
    shop.merge("Reverse that", "-c", "-11", "^/trunk", "trunk")  # 12
    shop.merge("Pick the additions", "-c", "4", "^/trunk", "branches/two")  # 13
    shop.commit("Change inside a directory", {"trunk/dir/in": "in\n14\n"})  # 14
    shop.merge("Merge into a part of a branch", "-c", "14", "^/trunk/dir", "branches/two/dir")  # 15
    shop.merge("Reverse on the branch", "--accept", "working", "-c", "-8", "^/branches/two", "branches/two")  # 16
    shop.server("copy", "11", "trunk", "branches/three")  # 17, takes its mergeinfo along
    shop.set("branches/one", {"svn:mergeinfo": None})
    shop.commit("Forget what was merged")  # 18
    shop.merge(
        "Merge what is for the directory alone", "--depth", "files", "-c", "14", "^/trunk", "branches/three"
    )  # 19


def projects(shop: Workshop) -> None:
    """Three projects, each with a trunk, branches and tags: merges, tags that were changed, made again and renamed."""
    for project in ("alpha", "beta", "group/gamma"):
        shop.make(*(f"{project}/{name}" for name in ("trunk", "branches", "tags")))
        shop.write({f"{project}/trunk/f": f"{project}\n", f"{project}/trunk/g": "g\n"})
    shop.commit("Begin")  # 1
    shop.server("copy", "HEAD", "alpha/trunk", "alpha/branches/one")  # 2
    shop.server("copy", "HEAD", "alpha/trunk", "alpha/branches/two")  # 3
    shop.server("copy", "HEAD", "group/gamma/trunk", "group/gamma/branches/old")  # 4
    shop.commit("Fix a fault", {"alpha/trunk/f": "fixed\n"})  # 5
    shop.merge("Take the fix", "-c", "5", "^/alpha/trunk", "alpha/branches/one")  # 6
    shop.merge("Do without the fix", "--record-only", "-c", "5", "^/alpha/trunk", "alpha/branches/two")  # 7
    shop.commit("Work on a branch", {"alpha/branches/one/g": "one\n"})  # 8
    shop.commit("Work on another one", {"group/gamma/branches/old/g": "old\n"})  # 9
    shop.server("copy", "HEAD", "alpha/branches/one", "alpha/tags/r1")  # 10
    shop.server("copy", "HEAD", "beta/trunk", "beta/tags/b1")  # 11
    shop.commit("Change a tag", {"beta/tags/b1/f": "changed\n"})  # 12
    shop.server("delete", "alpha/tags/r1")  # 13
    shop.server("copy", "HEAD", "alpha/branches/two", "alpha/tags/r1")  # 14, made again, without the fix
    shop.move({"beta/tags/b1": "beta/tags/b1-old"})
    shop.commit("Rename a tag")  # 15
    shop.server("copy", "HEAD", "alpha", "delta")  # 16, a fourth project, with all that the first one has
    shop.commit("Work there", {"delta/branches/one/f": "delta\n"})  # 17


def properties(shop: Workshop) -> None:
    """Properties that look like parts of a dump, with newlines and all bytes; set, changed and deleted."""
    shop.make("d", "dup")
    blocks = "Revision-number: 1\n\nNode-path: evil\nNode-action: delete\n\nPROPS-END\n"
    shop.write({"looks-like-a-dump": "SVN-fs-dump-format-version: 2\n\n" + blocks})
    shop.commit("Begin", {"f": "", "no-newline": "no newline at the end"})  # 1
    headers = b"PROPS-END\n\nNode-path: d\nNode-action: delete\n\nK 3\nkey\nV 5\nvalue\n"
    shop.set("f", {"lines": b"one\ntwo\n\nthree\n", "headers": headers})
    shop.commit("Properties with newlines")  # 2
    shop.set("d", {"bytes": bytes(range(256)), "zeros": b"\0\0\0", "empty": b""})
    shop.commit("Properties with all bytes, with zeros and with nothing")  # 3
    shop.set("d", {"svn:ignore": b"*.o\n*.a\n"})
    shop.set("f", {"svn:eol-style": b"native", "svn:keywords": b"Id Revision"})
    shop.set("no-newline", {"svn:executable": b"*"})
    shop.set(".", {"of-the-root": b"\xff\xfe\x00root\n"})
    shop.commit("Properties that Subversion knows, and one of the root")  # 4
    shop.set("d", {"zeros": None})
    shop.set("f", {"lines": None, "headers": b"V 1\nD 3\nkey\n"})
    shop.commit("Delete and change")  # 5
    shop.copy("d", "e")
    shop.set("e", {"bytes": bytes(reversed(range(256))), "svn:ignore": None})
    shop.copy("f", "dup/f")
    shop.commit("Copies, with and without changed properties")  # 6
    shop.link("link", "looks-like-a-dump")
    shop.commit("A link and a text of all bytes", {"binary": bytes(range(256)) * 2})  # 7
    shop.set(".", {"of-the-root": b""})
    shop.set("f", {"long": b"".join(b"%d\n" % n for n in range(300))})
    shop.delete("d")
    shop.commit("An empty value, a long one, and a deletion")  # 8
    shop.move({"e": "d"})
    shop.set("d", {"odd:name_-.9": b"name"})
    shop.commit("A rename with a property that has an odd name")  # 9
    shop.set("f", {"headers": None, "long": None, "svn:eol-style": None, "svn:keywords": None})
    shop.commit("The last property goes")  # 10


def names(shop: Workshop) -> None:
    """Names that are hard to write in a header or in a query."""
    shop.make("at@here", "two  spaces", " leading", "trailing ", "@", "@2", "d@")
    shop.write({"at@here/a@1": "a\n", "at@here/@@": "b\n", "two  spaces/a b": "c\n"})
    shop.commit("Begin", {" leading/ x ": "d\n", "trailing /...": "e\n", "Node-path: x": "f\n"})  # 1
    shop.make("\u00fcml\u00e4ut", "u\u0308mla\u0308ut", "\u540d\u524d", ".hidden", "-", "~")
    shop.write({"\u00fcml\u00e4ut/\u00df.txt": "h\n", "u\u0308mla\u0308ut/\u00df.txt": "i\n"})
    shop.commit("Names beyond ASCII", {"\u540d\u524d/\U0001f600": "g\n"})  # 2
    shop.move({"at@here": "at@there", "two  spaces": "two spaces"})
    shop.commit("Rename two")  # 3
    shop.move({"\u00fcml\u00e4ut": "trailing /\u00fcml\u00e4ut", "\u540d\u524d": "\u540d"})
    shop.copy("@", "@@")
    shop.commit("Rename others", {"@@/@1": "j\n"})  # 4
    shop.make("%41", "a:b", "#", "?", "&amp;", '"quoted"', "back\\slash", "*", "$HOME", "[x]", "{y}")
    shop.write({"%41/%2F": "k\n", "a:b/Content-length: 7": "l\n"})
    shop.commit("Names with signs", {"#/-r": "m\n", "back\\slash/n\\": "n\n"})  # 5
    shop.move({"%41": "A", "a:b": "a: b", "back\\slash": "?/back\\slash", "d@": "d", "@2": "d@"})
    shop.copy("#", "# #")
    shop.commit("Rename those")  # 6
    shop.move({" leading": "leading", "trailing ": "trailing"})
    shop.delete("@@")
    shop.copy("@", "@@")
    shop.commit("Without the spaces")  # 7


def roots(shop: Workshop) -> None:
    """Changes of the root, revisions that change nothing, and files beside the usual directories."""
    shop.empty_revision()  # 1
    shop.set(".", {"of-the-root": b"one"})
    shop.commit("A property of the root in an empty tree")  # 2
    shop.make("d")
    shop.commit("Begin", {"f": "f\n"})  # 3
    shop.empty_revision()  # 4
    shop.empty_revision()  # 5
    shop.server("copy", "HEAD", "", "all")  # 6
    shop.set(".", {"of-the-root": b"two"})
    shop.move({"f": "d/f"})
    shop.commit("The root and what is below it", {"d/g": "g\n"})  # 7
    shop.server("propset", "of-the-root", "two", "")  # 8, to what it is
    shop.server("copy", "4", "", "all/old")  # 9
    shop.server("delete", "all/f")  # 10
    shop.empty_revision()  # 11
    shop.set(".", {"of-the-root": None})
    shop.commit("No properties of the root")  # 12
    shop.server("copy", "1", "", "nothing")  # 13, an empty root
    shop.server("delete", "d", "delete", "all", "delete", "nothing")  # 14, an empty tree
    shop.empty_revision()  # 15
    shop.server("copy", "13", "all", "all")  # 16
    shop.empty_revision()  # 17


def deep(shop: Workshop) -> None:
    """Deeply nested directories, and a file that moves at each step."""
    folders = ["l%d" % depth for depth in range(12)]
    shop.make("/".join(folders))
    shop.commit("Begin", {"f": "f\n"})  # 1
    here = "f"
    for depth in range(1, len(folders) + 1):  # 2 to 13
        there = "/".join(folders[:depth] + ["f%d" % depth])
        shop.server("move", here, there)
        here = there
    shop.server("move", "l0/l1", "l0/m1")  # 14
    shop.server("copy", "5", "l0/l1/l2/l3", "l0/m1/l2/l3/l3")  # 15
    shop.server("move", "l0/m1/l2/l3", "l3")  # 16
    shop.server("copy", "HEAD", "l3", "l3/l4/l3")  # 17
    shop.server("delete", "l3/l4/l3/l4/l5")  # 18
    shop.server("copy", "13", "l0/l1/l2/l3/l4/l5", "l3/l4/l3/l4/l5")  # 19


def drawn(shop: Workshop) -> None:
    """Thirty revisions of additions, changes, deletions, copies and replacements that were drawn once. Their own dump has
    them."""
    shop.load((INTEROP / "drawn.dump").read_bytes())


def inherited(shop: Workshop) -> None:
    """Values that are inherited, over levels, in part, and from the root; emptied, copied, replaced and removed."""
    shop.make("trunk/a/b/c", "trunk/lib", "branches")
    shop.commit("Begin", {"trunk/f": "f\n", "trunk/a/g": "g\n", "trunk/a/b/h": "h\n"})  # 1
    shop.mergeinfo({"trunk": b"/a:1\n/a-b:1\n/a.b/c:1\n/a0:1"})  # 2, in another order below it
    shop.mergeinfo({"trunk/a": b"/other:1*,2\n/others:2*"})  # 3, of which a part is inherited
    shop.mergeinfo({"": b"/:1,2*,3\n/vendor:2*"})  # 4, the root as a source path
    shop.mergeinfo({"trunk/a": b""})  # 5, an empty value below another
    shop.mergeinfo({"trunk/a/b": b"/deep:2-4,5*", "trunk/f": b"/old/f:3*"})  # 6, a value below an empty one
    shop.server("copy", "HEAD", "trunk", "branches/one")  # 7, with its values
    shop.server("copy", "HEAD", "trunk/lib", "branches/lib")  # 8, without what it inherited
    shop.mergeinfo({"branches/one": b"/trunk:7-8*"})  # 9, of which nothing is inherited
    shop.server("delete", "branches/one", "copy", "3", "trunk", "branches/one")  # 10, older values
    shop.server("delete", "trunk/a", "mkdir", "trunk/a", "delete", "trunk/f", "put", "trunk/f")  # 11, no values
    shop.mergeinfo({"trunk": None})  # 12
    shop.server("move", "branches/one", "branches/two", "copy", "9", "trunk/a/b", "trunk/a/b")  # 13
    shop.server("copy", "12", "", "all")  # 14, the value of the root
    shop.mergeinfo({"": b""})  # 15
    shop.mergeinfo({"branches": b"/trunk:1-14\n/:15"})  # 16
    shop.mergeinfo({"": None, "branches/lib": b"/branches/two/lib:16"})  # 17


def written(shop: Workshop) -> None:
    """Values in forms that no client writes: blanks, overlapping ranges, several lines of one path, unusual paths."""
    shop.make("d/in/side", "e/in")
    shop.commit("Begin", {"d/in/f": "f\n"})  # 1
    shop.mergeinfo({"d": b"/trunk: \t 3-5,7", "e": b"/trunk:9,3-5*,1,7-8,6*\n"})  # 2
    shop.mergeinfo({"d": b"/trunk:3-6,5-9,4,12,10-11", "e": b"/trunk:4-6*,5-9*,1-3"})  # 3
    shop.mergeinfo({"d": b"/trunk:3*\n/b:1\n/trunk:1-2*\n/trunk:3,5\n/b:2-3*"})  # 4
    shop.mergeinfo({"d": b"trunk:3\n/trunk/:4*\n//trunk//:5", "d/in": b"b//one/:4-5\n/b:6"})  # 5
    shop.mergeinfo({"": b"/:3*\n:5\n//: 7-9", "e": b":1"})  # 6, the root as a source path
    shop.mergeinfo({"d": b"/trunk:0007,008-10*\n", "": b"/trunk:1-2147483647"})  # 7
    shop.mergeinfo({"d": b"/a:b:3\n/ c :4\nx:5:6\n/7-8,9*:7\n", "e": b"/-:1\n/,:2\n/*:3"})  # 8
    shop.mergeinfo({"d": "/\u00e4\u00f6:3\n/a\u0308:4\n/\U0001f600 x:5\n/\uff21:6\n/z:7".encode()})  # 9
    shop.mergeinfo({"d": b"/trunk:2147483647,2147483645*,1-2\n/b:2147483646-2147483647*"})  # 10
    shop.mergeinfo({"e": b"/b:1\n/a-b:2\n/a:3\n/a+:4\n/a/c:5\n/A:6\n/a/-:7", "d": b""})  # 11
    shop.server("copy", "10", "d", "e/in/d")  # 12


def malformed(shop: Workshop) -> None:
    """Malformed values: above and below good ones, of the root, copied, put right, replaced and removed."""
    shop.make("trunk/a/b", "branches")
    shop.commit("Begin", {"trunk/a/f": "f\n"})  # 1
    shop.mergeinfo({"": b"/vendor:1", "trunk": b"no colon"})  # 2
    shop.mergeinfo({"trunk/a": b"/b:2"})  # 3, a good value below it
    shop.server("copy", "HEAD", "trunk", "branches/one")  # 4
    shop.mergeinfo({"trunk": b"/b:1-3", "trunk/a/b": b"/b/b:5-3"})  # 5, below a good value
    shop.mergeinfo({"": b"/vendor:0"})  # 6, of the root
    shop.mergeinfo({"trunk/a/b": None, "branches": b""})  # 7
    shop.server("delete", "branches/one", "mkdir", "branches/one")  # 8
    shop.mergeinfo({"branches": b"/trunk:3-5,4*", "branches/one": b"/trunk:1\n\n"})  # 9
    shop.server("copy", "4", "branches/one/a", "branches/one/a")  # 10
    shop.mergeinfo({"": None, "branches": b"/trunk:3,4*"})  # 11
    shop.mergeinfo({"branches/one": b"/trunk: 4 "})  # 12
    shop.mergeinfo({"branches/one": b"/trunk: 4"})  # 13


OF_VALUES = [inherited, written, malformed]
ALL = [branches, renames, copies, replaced, again, merges, projects, properties, names, roots, deep, drawn, *OF_VALUES]
