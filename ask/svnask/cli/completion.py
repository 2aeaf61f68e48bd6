"""Completion: what may stand at the cursor of a command line, for bash and zsh.

The scripts in `completions/` call `svnask --complete SHELL BREAKS WORD..`, of which no help speaks. The words are those
after the command, and the last one is what stands before the cursor of the word there. With `bash` they are as they were
typed, and BREAKS are the letters of `$COMP_WORDBREAKS`, after which bash begins another word; with `zsh` they are without
quotes. A line comes first that says what the words are: `words`; `files`, names of files alone; or, for zsh, `and files`,
where zsh adds names of files itself. Each further line is a word, for zsh with what is said of it after a tab.

Verbs, their options and their arguments are those of the parser: an argument is completed by the name that its help has
for it. Branches and tags are those of what is kept. No dump is read, no repository and no server is asked, and nothing is
printed where anything fails.
"""
from __future__ import annotations

import argparse
import contextlib
import os
import re
import sys
import urllib.parse
from collections.abc import Iterable, Iterator, Sequence
from typing import NamedTuple

from svnask.asking.parser import parser, parser_of_verb
from svnask.asking.verbs import HELP
from svnask.asking.words import OF_ALL, WITH_URLS, is_option, split_access
from svnask.copy.branch_names import kept_branches
from svnask.copy.index import Front
from svnask.files import cache_folder
from svnask.history.targets import path_in, path_of
from svnask.paths import split_peg
from svnask.sources import cache
from svnask.sources.access import IS_URL, REACHED, REACHED_ALONE, of_asker
from svnask.sources.dump import Dump
from svnask.sources.entries import Entry, read_front
from svnask.sources.repository import Address, Folder
from svnask.sources.urls import PLAIN, ancestors, canonical, path_below
from svnask.texts import decoded

# After how many seconds of the call branches are no more looked for.
LONGEST = 0.16
BASH = "bash"
# The names that the help has for arguments: how those with a peg revision end, other paths of the repository, which
# are names for other things where they are values of options, and files.
PEG, PATTERN = "[@PEG]", "PATTERN"
PATHS, FILES = ("PATH", PATTERN), ("FILE", "FOLDER", "QUERIES")
BELOW = "--below"
# Words that stand for themselves.
LITERAL = re.compile(r"[a-z:|]+\Z")
CONTROL = re.compile("[\x00-\x1f\x7f-\x9f]")
# A part of a word as it is typed: a letter after a backslash, what stands in quotes, which may be open, or a letter.
TYPED = re.compile(
    r"""\\(?P<escaped>.?)|'(?P<single>[^']*)(?P<end>'?)|"(?P<double>(?:\\.|[^"\\])*)(?P<close>"?)|(?P<plain>.)""",
    re.DOTALL,
)
IN_DOUBLE = re.compile(r"""\\([$`"\\])""")
# What a shell takes for something else than a letter of a word.
SPECIAL = re.compile(r"[^\w@%+=:,./~^-]")


class Word(NamedTuple):
    """A word that may stand at the cursor, and its help."""

    text: str
    about: str = ""


class Candidates(NamedTuple):
    """The words that may stand at the cursor. `has_files` adds the names of files."""

    words: list[Word]
    has_files: bool = False


class StoredCopy(NamedTuple):
    """The copy of a source in the cache: its folder, the front of its index, the URL of its root, if any, and the path
    below which plain targets are."""

    folder: str
    front: Front
    root: str = ""
    path: bytes = b"/"


def stored_copy_of(source: str, access: Sequence[str] = ()) -> StoredCopy | None:
    """Return what is kept of the source that a word names, as it is reached by some options."""
    top = cache_folder()
    if top is None:
        return None
    if IS_URL.match(source):
        url = canonical(source)
        names = ((root, of_asker(root, access).encode("utf-8", "surrogateescape")) for root in ancestors(url))
        found = (place_in(top, Address.kind, name, root) for root, name in names)
        place = next(filter(None, found), None)
        return place._replace(path=path_below(url, place.root) or b"/") if place is not None else None
    path = os.path.realpath(os.fsencode(os.path.expanduser(source)))
    return place_in(top, Dump.kind, path) or place_in(top, Folder.kind, path)


def place_in(top: str, kind: bytes, name: bytes, root: str = "") -> StoredCopy | None:
    """Return what is kept of a source of this kind and this name."""
    entry = Entry(top, kind, name)
    front = read_front(entry.folder)
    return StoredCopy(entry.folder, front, root) if front is not None and front.kept[:2] == (kind, name) else None


def kept_urls() -> Iterator[str]:
    """The URLs of the repositories of which something is kept."""
    top = cache_folder()
    for each in cache.folders(top) if top is not None else ():
        front = read_front(each.path)
        if front is not None and front.kept.kind == Address.kind:
            # Who asks stands behind it.
            yield front.kept.place.decode("utf-8", "surrogateescape").partition(" ")[0]


class Typed(NamedTuple):
    """The words before the cursor: those that are no options, the option of which the value is at the cursor, whether
    `--` has ended the options, the path at which targets and patterns begin, and how a repository is reached."""

    plain: list[str]
    option: str
    has_ended: bool
    below: str = ""
    access: tuple[str, ...] = ()

    @property
    def is_as_svn(self) -> bool:
        """Return whether the verb comes first, and a URL later."""
        return bool(self.plain) and self.plain[0] in WITH_URLS

    @property
    def verb(self) -> str:
        """The verb, or none where it is still to come."""
        return verb_of(self.plain)

    @property
    def arguments(self) -> int:
        """Return how many arguments of the verb there are."""
        return len(self.plain) - (1 if self.is_as_svn else 2)

    @property
    def source(self) -> str:
        """The source, or none where it is still to come."""
        if not self.is_as_svn:
            return self.plain[0]
        return next((split_peg(word)[0] for word in self.plain if IS_URL.match(word)), "")


def verb_of(plain: Sequence[str]) -> str:
    if plain and plain[0] in WITH_URLS:
        return plain[0]
    return plain[1] if len(plain) > 1 else ""


def typed_of(words: Sequence[str]) -> Typed:
    plain: list[str] = []
    option, has_ended, top = "", False, ""
    for word in words:
        name, sign, value = word.partition("=")
        if option:
            top = word if option == BELOW else top
            option = ""
        elif sign and name == BELOW and not has_ended:
            top = value
        elif has_ended or not is_option(word):
            plain.append(word)
        elif word == "--":
            has_ended = True
        elif takes_value(verb_of(plain), word):
            option = word
    return Typed(plain, option, has_ended, top, split_access(words)[0].words)


def verb_words(names: Iterable[str]) -> list[Word]:
    """Verbs, with their help."""
    return [Word(name, HELP[name]) for name in names]


def actions_of(verb: str) -> list[argparse.Action]:
    """Return what may follow a verb, or stand before one."""
    return parser().actions if not verb else parser_of_verb(verb).actions if verb in HELP else []


def option_action(verb: str, name: str) -> argparse.Action | None:
    return next((each for each in actions_of(verb) if name in each.option_strings), None)


def takes_value(verb: str, name: str) -> bool:
    action = option_action(verb, name)
    return name in REACHED or action is not None and action.nargs is None


def options(verb: str) -> Iterator[Word]:
    """The options that may stand after a verb, or before one. Some have their help there alone."""
    before = {name: each.help for each in parser().actions for name in each.option_strings}
    for action in actions_of(verb):
        for name in action.option_strings:
            yield Word(name, (before.get(name) if action.help == argparse.SUPPRESS else action.help) or "")
    yield from (Word(name, "as for svn") for name in sorted((*REACHED, *REACHED_ALONE)))


class Completion:
    """The search for words. Branches and tags are looked for until a time of `time.monotonic`."""

    def __init__(self, until: float) -> None:
        self._until = until

    def found(self, words: Sequence[str], part: str) -> Candidates:
        """Return what may stand after words, where a part of a word stands."""
        typed = typed_of(words)
        name, sign, value = part.partition("=")
        if typed.option:
            return self._values(option_action(typed.verb, typed.option), typed, part)
        if typed.has_ended or not part.startswith("-"):
            return self._argument(typed, part)
        if sign and takes_value(typed.verb, name):
            found = self._values(option_action(typed.verb, name), typed, value)
            return Candidates([each._replace(text=f"{name}={each.text}") for each in found.words])
        return Candidates(list(options(typed.verb)))

    def _argument(self, typed: Typed, part: str) -> Candidates:
        """Return what may stand where no option does."""
        if not typed.plain:
            return Candidates([*map(Word, self._urls(part, False)), *verb_words((*WITH_URLS, OF_ALL))], True)
        if not typed.verb:
            return Candidates(verb_words(HELP))
        possible = [each for each in actions_of(typed.verb) if not each.option_strings]
        taken = (each for at, each in enumerate(possible) if at == typed.arguments or each.nargs == "*")
        return self._values(next(taken, None), typed, part)

    def _values(self, action: argparse.Action | None, typed: Typed, part: str) -> Candidates:
        """Return what may stand for an argument, or for the value of an option."""
        name = action.metavar if action is not None and isinstance(action.metavar, str) else ""
        is_argument = action is not None and not action.option_strings
        if name in FILES:
            return Candidates([], True)
        if name.endswith(PEG) or is_argument and name in PATHS:
            return Candidates([*map(Word, self._targets(typed, part, name == PATTERN))])
        return Candidates([Word(each) for each in name.split("|") if LITERAL.match(name)])

    def _targets(self, typed: Typed, part: str, is_pattern: bool) -> Iterator[str]:
        if not typed.plain:
            return iter(())
        if IS_URL.match(part) or typed.is_as_svn and not typed.source:
            return self._urls(part, True, typed.access)
        place = stored_copy_of(typed.source, typed.access)
        if place is None:
            return iter(())
        return self._paths(place._replace(path=path_in(place.path, path_of(typed.below))), part, is_pattern)

    def _urls(self, part: str, is_target: bool, access: Sequence[str] = ()) -> Iterator[str]:
        """The URLs of repositories, as the front of a target, too, or those of the branches and tags of the one in
        which the cursor is."""
        for root in dict.fromkeys(kept_urls()):
            front = root.rstrip("/")
            place = stored_copy_of(root, access) if part.startswith(front + "/") else None
            if place is None:
                yield front + "/" if is_target else root
            else:
                yield from (front + urllib.parse.quote(path, safe=PLAIN) for path in self._branches(place))

    def _paths(self, place: StoredCopy, part: str, is_pattern: bool) -> Iterator[str]:
        """The branches and tags in the form in which a word begins: with `^/`, with a slash, or with neither. A pattern
        has no peg revision."""
        base = b"" if part[:1] in ("^", "/") or place.path == b"/" else place.path
        for path in self._branches(place):
            if path.startswith(base + b"/"):
                text = decoded(path[len(base) :]) + "@" * (not is_pattern and b"@" in path.rpartition(b"/")[2])
                yield "^" + text if part.startswith("^") else text if part.startswith("/") else text[1:]

    def _branches(self, place: StoredCopy) -> list[bytes]:
        return kept_branches(place.folder, place.front, self._until)


def files(part: str) -> Iterator[str]:
    """The names of files that begin with a word, with a slash after those of folders."""
    folder, slash, name = part.rpartition("/")
    with contextlib.suppress(OSError), os.scandir(os.path.expanduser(folder + slash) or ".") as found:
        for each in found:
            if each.name.startswith(name) and (name or not each.name.startswith(".")):
                yield folder + slash + each.name + "/" * each.is_dir()


def unquoted(word: str) -> str:
    """A word that a shell makes of what is typed. Quotes may be open."""

    def letters(found: re.Match[str]) -> str:
        if found["double"] is not None:
            return IN_DOUBLE.sub(r"\1", found["double"])
        return next(each for each in found.group("escaped", "single", "plain") if each is not None)

    return TYPED.sub(letters, word)


def begun(word: str, breaks: str) -> tuple[str, str]:
    """The front of a word that is typed which bash leaves as it is, and the quote that is open after it."""
    end = 0
    for found in TYPED.finditer(word):
        quote = found[0][:1]
        if found["single"] is not None and not found["end"] or found["double"] is not None and not found["close"]:
            return word[: found.start() + 1], quote
        if found["escaped"] is None and quote in breaks:
            end = found.end()
    return word[:end], ""


def quoted(text: str, quote: str) -> str:
    """A text as it is typed, after a quote if one is open."""
    if quote == "'":
        return text
    return re.sub(r"""([$`"\\])""", r"\\\1", text) if quote else SPECIAL.sub(lambda found: "\\" + found[0], text)


def for_bash(found: Candidates, typed: str, breaks: str) -> list[str]:
    """The lines for bash, which puts each word in the place of what it takes for the last one."""
    part = unquoted(typed)
    texts = sorted({each.text for each in found.words if each.text.startswith(part)})
    kind = "files" if found.has_files and not texts else "words"
    texts += sorted(files(part)) if found.has_files else []
    front, quote = begun(typed, breaks)
    length = len(unquoted(front))
    return [kind, *(quoted(text[length:], quote) for text in texts if not CONTROL.search(text))]


def for_zsh(found: Candidates, part: str) -> list[str]:
    """The lines for zsh, which quotes words itself."""
    kept = dict.fromkeys(each for each in found.words if each.text.startswith(part) and not CONTROL.search(each.text))
    return ["and files" if found.has_files else "words", *(f"{each.text}\t{each.about}" for each in kept)]


def lines_for(shell: str, breaks: str, *typed: str, until: float) -> list[str]:
    words = [unquoted(word) for word in typed] if shell == BASH else list(typed)
    found = Completion(until).found(words[:-1], words[-1])
    return for_bash(found, typed[-1], breaks) if shell == BASH else for_zsh(found, typed[-1])


def complete(words: Sequence[str], begun_at: float) -> int:
    """Print what may stand at the cursor, or nothing where anything fails."""
    try:
        text = "".join(f"{line}\n" for line in lines_for(*words, until=begun_at + LONGEST))
        sys.stdout.buffer.write(text.encode("utf-8", "surrogateescape"))
        sys.stdout.buffer.flush()
    except Exception:  # pylint: disable=broad-exception-caught
        return 1
    return 0
