"""What a user names: a path with a peg revision, and revisions by number, `HEAD` or a date."""
from __future__ import annotations

import re
from typing import NamedTuple

from svnask.digits import number
from svnask.errors import Denied
from svnask.history.open_history import OpenHistory
from svnask.paths import split_peg
from svnask.sources.access import IS_URL
from svnask.texts import encoded

NUMBER = re.compile(r"[0-9]+\Z")
# What stands for characters in a pattern.
SPECIAL = re.compile(rb"([*?\[])")
# A word of `-c`: a minus for the way back, and one number or two.
CHANGE = re.compile(r"(-(?=r*\+?[0-9])|r+-(?=[0-9]))?r*\+?([0-9]+)(?:(-)r*\+?([0-9]*))?\Z")
CHANGES = re.compile(r"r*[0-9]+(?:-r*[0-9]+)?(?:,r*[0-9]+(?:-r*[0-9]+)?)*\Z")
DATE = re.compile(r"\{(.*)\}\Z", re.DOTALL)
WORDS = re.compile(r"(?:BASE|PREV|COMMITTED)\Z", re.IGNORECASE)


class Target(NamedTuple):
    """A path, as svnhist prints it, and its peg revision."""

    path: bytes
    rev: int


def path_of(text: str) -> bytes:
    """A path of the repository, with or without `^/` or a slash at its front."""
    if IS_URL.match(text):
        raise Denied("E170000", f"'{text}' is a URL, and a dump has none: name the path in it, such as trunk")
    if text.startswith("^/") or text == "^":
        text = text[1:]
    parts = [part for part in encoded(text).split(b"/") if part not in (b"", b".")]
    if b".." in parts:
        raise Denied("E195002", f"a path may not have '..': '{text}'")
    return b"/" + b"/".join(parts)


def placed(history: OpenHistory, text: str) -> bytes:
    """The path of a target: of a URL that of the repository, and of a name what is below the URL of the source."""
    source = history.source
    if IS_URL.match(text) and source.root:
        found = source.path_of_url(text)
        if found is None:
            raise Denied("E170000", f"'{text}' isn't in the same repository as '{source.root}'")
        return found
    path = path_of(text)
    return path if text.startswith(("/", "^")) else path_in(source.path, path)


def pattern_of(history: OpenHistory, text: str) -> bytes:
    """The pattern that a user names: of all paths, or without a slash or `^/` of what is below the path at which the
    source begins."""
    pattern = path_of(text)
    return pattern if text.startswith(("/", "^")) else path_in(history.source.path, pattern)


def pattern_of_path(path: bytes) -> bytes:
    """Return a pattern that one path alone matches."""
    return SPECIAL.sub(rb"[\1]", path)


def path_in(top: bytes, path: bytes) -> bytes:
    """A path as one below another one."""
    return path if top == b"/" else top + path if path != b"/" else top


def paths_below(texts: list[str]) -> list[bytes]:
    """Paths below a target. They have no peg of their own."""
    for text in texts:
        if IS_URL.match(text) or text.startswith("/"):
            raise Denied("E205000", f"Only relative paths can be specified after the first one, but '{text}' is not")
    return [path_of(text)[1:] for text in texts]


def revision_of(history: OpenHistory, text: str) -> int:
    """A revision by its number, `HEAD` or `{DATE}`, also after letters `r`. It may be above the youngest one."""
    named = text.lstrip("r")
    if NUMBER.match(named):
        return number(named)
    if named.upper() == "HEAD":
        return history.head
    date = DATE.match(named)
    if date:
        return history.revision_at(date[1])
    if WORDS.match(named):
        raise Denied("E195002", "PREV, BASE, or COMMITTED revision keywords are invalid for URL")
    raise syntax_error(text)


def is_revision(text: str) -> bool:
    """Return whether a word has the form of a revision that there may be."""
    named = text.lstrip("r")
    return bool(NUMBER.match(named) or DATE.match(named) or named.upper() == "HEAD")


def names_revisions(text: str) -> bool:
    """Return whether a word is a revision, or several as for `-c`: `63,65` or `63-65`."""
    return is_revision(text) or CHANGES.match(text) is not None


def ranges_named(history: OpenHistory, text: str) -> list[tuple[int, int]]:
    """Return the ranges of a word that names a revision, or several."""
    if is_revision(text):
        rev = revision_of(history, text)
        return [(rev, rev)]
    return changes_of_option([text])


def between(history: OpenHistory, ends: tuple[int, int]) -> range:
    """Return the revisions between two that there are, in either order."""
    lo, hi = sorted(known(history, rev) for rev in ends)
    return range(lo, hi + 1)


def syntax_error(text: str, *advice: str) -> Denied:
    return Denied("E205000", f"Syntax error in revision argument '{text}'", advice)


def known(history: OpenHistory, rev: int) -> int:
    if rev > history.head:
        raise Denied("E160006", f"No such revision {rev}")
    return rev


def place_of(history: OpenHistory, text: str) -> Target:
    """The path and the peg that a user names, which may be above the youngest revision. Without a peg it is that."""
    path, peg = split_peg(text)
    return Target(placed(history, path), revision_of(history, peg) if peg else history.head)


def target_of(history: OpenHistory, text: str) -> Target:
    """The target that a user names, of a revision that there is."""
    found = place_of(history, text)
    known(history, found.rev)
    return found


def range_of(history: OpenHistory, text: str) -> tuple[int, int]:
    """`LO:HI`, in either order, or one revision."""
    lo, colon, hi = split_range(text)
    first = revision_of(history, lo)
    return first, revision_of(history, hi) if colon else first


def split_range(text: str) -> tuple[str, str, str]:
    """The two sides of a range. A date in braces may have colons."""
    depth = 0
    for at, letter in enumerate(text):
        depth += (letter == "{") - (letter == "}")
        if letter == ":" and depth == 0:
            if at == len(text) - 1 or at == 0:
                raise syntax_error(text)
            return text[:at], ":", text[at + 1 :]
    return text, "", ""


def change_of_option(word: str) -> tuple[int, int]:
    """The range of a word of `-c`: `N`, `N-M`, or `-N`, which is N, too, for what is printed."""
    found = CHANGE.match(word)
    if found is None:
        raise Denied("E205000", f"Non-numeric change argument ({word}) given to -c")
    back, first, dash, last = found[1], number(found[2]), found[3], number(found[4] or "0")
    if back and dash:
        raise Denied("E205000", f"Negative number in range ({word}) not supported with -c")
    if first == 0:
        raise Denied("E205000", "There is no change 0")
    return first, last if dash else first


def changes_of_option(texts: list[str]) -> list[tuple[int, int]]:
    """The ranges of `-c`, which are words between commas and white space."""
    return [change_of_option(word) for text in texts for word in re.split("[, \n\r\t\v]+", text) if word]


def ranges_of(history: OpenHistory, ranges: list[str], changes: list[str]) -> list[tuple[int, int]] | None:
    """The ranges of `-r` and `-c`, or none where neither is given."""
    changed = changes_of_option(changes)
    if ranges and changed:
        raise Denied("E195002", "-c and -r are mutually exclusive")
    if changed:
        return changed
    return [range_of(history, text) for text in ranges] or None
