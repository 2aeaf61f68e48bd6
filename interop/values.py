"""Texts of `svn:mergeinfo` for `record`: how they are drawn, and which of them Subversion reads differently."""
from __future__ import annotations

import re
from collections.abc import Callable, Sequence
from typing import Optional

from dev import dumps
from interop.lots import Lot

# The pieces of a text: those that are drawn mostly, and those that are drawn once in so many times. None among them
# stands for what is usual.
Pieces = tuple[Sequence[Optional[bytes]], int, Sequence[bytes]]
# fmt: off
PIECES: dict[str, Pieces] = {
    "path": (
        [b"/a", b"/a/b", b"/a-b", b"/b", b"a", b"b/a", b"/"], 6,
        [b"", b"//", b"//a", b"/a/", b"a//b/", b"/a:b", b"/a:3", b":", b" /a", b"/a ", b"/\t", b"/a b", b"/a,1", b"/a*",
         b".", b"..", b"./a", b"/a/.", b"/./", b"/a/./b", b"/..", b"../b", b"/a/../b", b"/...", b"/.a", b"/a..",
         b"/a\r", b"/\r/b", b"/a\0", b"/\0/b", b"/\xc3\xa4", b"/a\xcc\x88", b"/\xff\xfe", b"/A", b"/a+b"]),
    "colon": ([b":"], 30, [b"", b"::", b" :", b"=", b":\n"]),
    "blanks": (
        [b"", b"", b"", b" "], 15, [b"\t", b" \t  ", b"\r", b" \v", b"\f", b"\r ", b"\0", b"\xc2\xa0"]),
    "element": (
        [None], 30,
        [b"", b"*", b"-", b",", b"5-3", b"3-3", b"1-2-3", b"3-", b"-3", b"+3", b"3-+5", b"3 - 5", b" 3", b"3 ", b"x",
         b"3x", b"3.5", b"1e1", b"0x3", b"3\r", b"3\0", b"\xef\xbc\x93", b"HEAD"]),
    "number": (
        [None], 20,
        [b"0", b"00", b"2147483646", b"2147483647", b"2147483648", b"3000000000", b"4294967297", b"10000000000",
         b"18446744073709551617", b"9" * 40, b"007", b"0000000008", b"00000000009", b"0" * 20 + b"4", b"0" * 12]),
    "star": ([None], 30, [b"", b"*", b"**", b" *", b"*-9", b"*9"]),
    "comma": ([b","], 30, [b", ", b" ,", b",,", b";", b" ", b".", b"\t,", b",\n"]),
    "end": ([b""], 30, [b",", b" ", b"\t", b"\r", b":", b"\0", b";"]),
    "newline": ([b"\n"], 15, [b"\n\n", b"\r\n", b"\r", b"\n ", b"\0\n", b",\n"]),
    "last": (
        [b"", b"", b"", b"\n"], 15,
        [b"\n\n", b"\r\n", b"\n\n\n", b" ", b"\0", b"\n\0", b"\n/a", b"\n:", b",\n"]),
}
# fmt: on


def draw_piece(lot: Lot, name: str, usual: bytes = b"") -> bytes:
    """One of the pieces of a name."""
    mostly, times, odd = PIECES[name]
    piece = lot.one_of(mostly if lot.below(times) else odd)
    return usual if piece is None else piece


def draw_element(lot: Lot, stars: Sequence[bytes]) -> bytes:
    """A revision or a range."""
    first = 1 + lot.below(12)
    last = first + max(0, lot.below(7) - 3)
    numbers = [draw_piece(lot, "number", b"%d" % rev) for rev in sorted({first, last})]
    return draw_piece(lot, "element", b"-".join(numbers)) + draw_piece(lot, "star", lot.one_of(stars))


def draw_line(lot: Lot) -> bytes:
    stars = lot.one_of([[b""], [b""], [b"*"], [b"", b"*"]])
    line = draw_piece(lot, "path") + draw_piece(lot, "colon") + draw_piece(lot, "blanks")
    for at in range(lot.one_of([1, 1, 1, 2, 2, 3, 4]) if lot.below(25) else 0):
        line += (draw_piece(lot, "comma") if at else b"") + draw_element(lot, stars)
    return line + draw_piece(lot, "end")


def draw_text(lot: Lot) -> bytes:
    text = b""
    for at in range(lot.one_of([1, 1, 1, 2, 2, 3]) if lot.below(40) else 0):
        text += (draw_piece(lot, "newline") if at else b"") + draw_line(lot)
    return text + draw_piece(lot, "last")


def drawn(count: int) -> list[bytes]:
    """A number of different texts, at random with a fixed seed."""
    lot = Lot(1)
    texts: dict[bytes, None] = {}
    while len(texts) < count:
        texts[draw_text(lot)] = None
    return list(texts)


def dump_of(texts: Sequence[bytes]) -> bytes:
    """A dump whose revision 1 adds a file for each text, f1, f2 and so on, with that text as its svn:mergeinfo."""
    return dumps.dump_of(
        [dumps.added(b"f%d" % number, dumps.FILE, dumps.mergeinfo(text)) for number, text in enumerate(texts, 1)]
    )


def keep_zero_bytes(text: bytes) -> bytes:
    """Subversion reads a text up to the first byte zero. For svnhist that is an ordinary byte, as one is for both."""
    return text.replace(b"\0", b"\1")


def refuse_other_blanks(text: bytes) -> bytes:
    """After a colon Subversion skips a carriage return, a vertical tab and a form feed, too."""
    return re.sub(rb":[ \t]*[\r\v\f][^:\n]*$", b":x", text, flags=re.MULTILINE)


def shorten_numbers(text: bytes) -> bytes:
    """Subversion refuses numbers with more than ten digits, leading zeros included."""
    return re.sub(rb"(?<![0-9])0+(?=[0-9][^:\n]*$)", b"", text, flags=re.MULTILINE)


def refuse_last_commas(text: bytes) -> bytes:
    """Subversion accepts a comma after the last element of a line if a newline follows."""
    return re.sub(rb",(?=\n|\Z)", b",x", text)


def refuse_dots(text: bytes) -> bytes:
    """Subversion removes a component `.` of a source path, and keeps a component `..`."""
    parts = [part for line in text.split(b"\n") for part in line.rpartition(b":")[0].split(b"/")]
    return b"malformed" if b"." in parts or b".." in parts else text


def empty_lone_newline(text: bytes) -> bytes:
    """For Subversion a newline alone is a line without a colon."""
    return b"" if text == b"\n" else text


def drop_bare_paths(text: bytes) -> bytes:
    """Subversion refuses a source path without revisions."""
    lines = (text[:-1] if text.endswith(b"\n") else text).split(b"\n")
    kept = [line for line in lines if not re.fullmatch(rb".*:[ \t]*", line, re.DOTALL)]
    return text if kept == lines else b"".join(line + b"\n" for line in kept)


# What svnhist makes of a text is what Subversion makes of it after all of these edits, in this order.
EDITS: dict[str, Callable[[bytes], bytes]] = {
    "zero bytes": keep_zero_bytes,
    "other blanks": refuse_other_blanks,
    "long numbers": shorten_numbers,
    "last commas": refuse_last_commas,
    "dots": refuse_dots,
    "lone newline": empty_lone_newline,
    "bare paths": drop_bare_paths,
}


def causes(text: bytes, parsed: Callable[[bytes], object]) -> list[str]:
    """The names of the edits that change what Subversion's parser makes of a text, which `parsed` gives.

    There are none if it makes the same of the text before and after all of them: then svnhist reads it alike.
    """
    first = parsed(text)
    found = []
    for name, edit in EDITS.items():
        edited = edit(text)
        if parsed(edited) != parsed(text):
            found.append(name)
        text = edited
    return [] if parsed(text) == first else found
