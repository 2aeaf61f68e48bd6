"""The words of a command line, which are as for svn: options in any place, and a URL in place of a source. Little is
imported, since each question looks for a server by them first."""
from __future__ import annotations

import re
from collections.abc import Iterable, Sequence

from svnask.errors import Usage
from svnask.paths import split_peg
from svnask.sources.access import IS_URL, REACHED, REACHED_ALONE, Access

# The options that take a value, and the names of those that have a short one.
LONG = {"-r": "--revision", "-c": "--change", "-l": "--limit", "-o": "--output"}
VALUED = frozenset(
    (*LONG.values(), *REACHED, "--into", "--show-revs", "--depth", "--with-revprop", "--search", "--search-and")
    + (
        "--from",
        "--timeout",
        "--since",
        "--until",
        "--width",
        "--height",
        "--below",
        "--targets",
        "--in",
        "--issue",
        "--rules",
        "--link",
        "--listen",
        "--larger",
    )
)
# Those that take one only after an equals sign.
OPTIONAL = frozenset(("--ahead-behind",))
NUMBER = re.compile("-[0-9]")
# The verbs whose targets may be URLs in place of a source, and the one that is about all sources.
WITH_URLS, OF_ALL = ("log", "mergeinfo", "new"), "sources"


def joined_options(arguments: Iterable[str]) -> list[str]:
    """The arguments with each option that takes a value as `--name=value`. A value may be empty, or begin with a minus
    or an equals sign: `-c -3,5` is what `svn` takes, and `-r=5` is not."""
    found: list[str] = []
    left = iter(arguments)
    for word in left:
        if word == "--":
            return [*found, word, *left]
        name = LONG.get(word[:2], word)
        value: str | None = None
        if name != word and len(word) > 2:
            value = word[2:]
        elif name in VALUED:
            value = next(left, None)
        elif name in OPTIONAL:
            value = ""
        found.append(word if value is None else f"{name}={value}")
    return found


def split_access(arguments: Iterable[str]) -> tuple[Access, list[str]]:
    """The options by which a repository is reached, and the other words, joined."""
    words = joined_options(arguments)
    end = words.index("--") if "--" in words else len(words)
    own = [word for word in words[:end] if word in REACHED_ALONE or "=" in word and word.partition("=")[0] in REACHED]
    return Access(tuple(own)), [word for word in words[:end] if word not in own] + words[end:]


def access_of(options: Iterable[str]) -> Access:
    """The options by which a repository is reached, of which there are no other words."""
    access, left = split_access(options)
    if left:
        raise Usage("no option by which a repository is reached: " + " ".join(left))
    return access


def source_word(words: Sequence[str]) -> tuple[str, Access] | None:
    """The word that is the source of a command line, if it has one, and the options by which that is reached."""
    access, left = split_access(words)
    ready = with_source(left, ())
    at = places(ready)
    return (ready[at[0]], access) if at else None


def is_option(word: str) -> bool:
    return word.startswith("-") and word != "-" and not NUMBER.match(word)


def places(words: list[str]) -> list[int]:
    """The places of the words that are no options."""
    end = words.index("--") if "--" in words else len(words)
    return [at for at, word in enumerate(words[:end]) if not is_option(word)] + list(range(end + 1, len(words)))


def with_source(words: list[str], verbs: Iterable[str]) -> list[str]:
    """The words with a source before the verb: that of the first URL where targets may be URLs, and the standard input
    where none is asked."""
    found = places(words)
    plain = [words[at] for at in found]
    if not plain:
        return words
    if plain == [OF_ALL] or plain == words[:1] and plain[0] in verbs and words[1:] in (["-h"], ["--help"]):
        return [*words[: found[0]], "-", *words[found[0] :]]
    urls = [word for word in plain[1:] if IS_URL.match(word)]
    if not urls or plain[0] not in WITH_URLS:
        return words
    return [*words[: found[0]], split_peg(urls[0])[0], *words[found[0] :]]


def ordered_words(words: list[str]) -> list[str]:
    """The words with the options that stand after the verb right behind it."""
    end = words.index("--") if "--" in words else len(words)
    found = places(words[:end])
    if len(found) < 2:
        return words
    verb = found[1]
    after = words[verb + 1 : end]
    return words[: verb + 1] + sorted(after, key=lambda word: not is_option(word)) + words[end:]
