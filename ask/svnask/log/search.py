"""`log --search`: patterns, and the texts that they match.

>>> Glob(b"r[a-c]n*end").matches(b"the branches end here")
True
>>> folded("\\u00c9t\\u00e9".encode())
b'ete'
"""
from __future__ import annotations

import re
import unicodedata
from collections.abc import Iterable, Iterator

ANY, ONE, SET, END_OF_SET, ESCAPE = b"*?[]\\"
# A set that has no byte.
NOTHING = rb"(?!)"
# Where a text in which a pattern is found has no certain letters, and where the bytes of a revision have others.
NOT_LITERAL = re.compile(rb"[*?/]|\[.*|\\.*", re.DOTALL)
# What is searched and not in the bytes of a revision: a date with names, and what stands where something is missing.
NAMES = "sun mon tue wed thu fri sat jan feb mar apr may jun jul aug sep oct nov dec author no date invalid".split()
WORD = re.compile(r"[a-z]+")


class Glob:
    """A pattern that matches a text anywhere in it: `*` stands for any bytes, `?` for one, `[..]` for one of a set, and
    a backslash takes its meaning from what follows."""

    def __init__(self, pattern: bytes) -> None:
        # Each piece between stars is found at its first place after the piece before. Subversion puts a star at both
        # ends, of which a backslash may take the last one.
        *pieces, last = pieces_of(b"*%s*" % pattern)
        self.literal = literal_of(pattern)
        self._pieces = [re.compile(each, re.DOTALL) for each in (*pieces, last + rb"\Z")]

    def matches(self, text: bytes) -> bool:
        at = 0
        for piece in self._pieces:
            found = piece.search(text, at)
            if found is None:
                return False
            at = found.end()
        return True


# Patterns of which all must match, each anywhere.
Group = list[Glob]


def pieces_of(pattern: bytes) -> Iterator[bytes]:
    """The pieces of a pattern between its stars, as regular expressions."""
    piece = b""
    at = 0
    while at < len(pattern):
        if pattern[at] == ANY:
            yield piece
            piece, at = b"", at + 1
        else:
            element, at = element_at(pattern, at)
            piece += element
    yield piece


def literal_of(pattern: bytes) -> bytes | None:
    """Return what the bytes of a revision have in which a folded pattern is found, if that is known."""
    found: bytes = max(NOT_LITERAL.split(pattern), key=len)
    words = WORD.findall(found.decode("utf-8", "replace"))
    return found if any(all(word not in name for name in NAMES) for word in words) else None


def element_at(pattern: bytes, at: int) -> tuple[bytes, int]:
    """Return what stands for one byte at a place of a pattern, and the place after it."""
    if pattern[at] == ONE:
        return b".", at + 1
    if pattern[at] == SET:
        end = end_of_set(pattern, at + 1)
        if end is not None:
            return set_of(pattern[at + 1 : end]), end + 1
    letter, at = letter_at(pattern, at)
    return re.escape(bytes([letter])), at


def letter_at(pattern: bytes, at: int) -> tuple[int, int]:
    """A letter, which a backslash may stand before, and the place after it."""
    if pattern[at] == ESCAPE and at + 1 < len(pattern):
        at += 1
    return pattern[at], at + 1


def end_of_set(pattern: bytes, at: int) -> int | None:
    """Return where a set ends, if it does. A bracket that is the first letter in it is one of its letters."""
    if pattern[at : at + 1] in (b"!", b"^"):
        at += 1
    first = at
    while at < len(pattern):
        if pattern[at] == END_OF_SET and at > first:
            return at
        _, at = letter_at(pattern, at)
    return None


def set_of(text: bytes) -> bytes:
    """The regular expression of what stands between the brackets of a set."""
    is_negated = text[:1] in (b"!", b"^")
    at = 1 if is_negated else 0
    letters: set[int] = set()
    while at < len(text):
        low, at = letter_at(text, at)
        high = low
        if text[at : at + 1] == b"-" and at + 1 < len(text):
            high, at = letter_at(text, at + 1)
        letters.update(range(low, high + 1))
    chosen = [byte for byte in range(256) if (byte in letters) != is_negated]
    return b"[%s]" % b"".join(b"\\x%02x" % byte for byte in chosen) if chosen else NOTHING


class Sieve:
    """Tells of the bytes of revisions, without reading them one by one, that no group matches in them."""

    def __init__(self, groups: Iterable[Group]) -> None:
        # Of each group one literal is looked for.
        found = [[glob.literal for glob in group if glob.literal is not None] for group in groups]
        self._literals = [max(literals, key=len, default=b"") for literals in found]

    def may_match(self, text: bytes) -> bool:
        """Return whether a group may match in some bytes. Other letters than those of ASCII may fold to any."""
        lower = text.lower()
        return any(literal in lower for literal in self._literals) or not lower.isascii()


def is_mark(letter: str) -> bool:
    return unicodedata.category(letter) in ("Mn", "Mc", "Me")


def folded(text: bytes) -> bytes | None:
    """A text without case and accents, or None where it is not UTF-8."""
    if text.isascii():
        return text.lower()
    try:
        letters = text.decode("utf-8")
    except UnicodeDecodeError:
        return None
    apart = unicodedata.normalize("NFD", "".join(each.casefold() for each in letters if not is_mark(each)))
    return unicodedata.normalize("NFC", "".join(each for each in apart if not is_mark(each))).encode("utf-8")


def is_found(groups: Iterable[Group], texts: Iterable[bytes]) -> bool:
    """Return whether all patterns of some group match, each some text."""
    plain = [found for found in map(folded, texts) if found is not None]
    return any(all(any(glob.matches(text) for text in plain) for glob in group) for group in groups)
