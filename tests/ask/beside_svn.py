"""Runs `svn` and svnask on the same question, and compares what they print.

usage: tests/ask/beside-svn [--only KIND] [--by file|svn|http|growing] FIRST LAST

For each seed from FIRST to LAST it draws a repository, recorded or drawn, and a command of some kind, and prints what is
not the same. A seed always draws the same. Of XML the attributes and the properties are sorted before, since their
order changes with each run of `svn`. By `file` svnask reads a dump, and `svn` its folder; otherwise both ask the same
server, `growing` for a repository that gets new revisions meanwhile. Half of the commands that svnask takes as `svn`
does name the server in their arguments. The last lines count the outcomes. The status is 1 if anything was not the
same. `$SVNHIST` names the program.
"""
from __future__ import annotations

import argparse
import contextlib
import itertools
import os
import random
import re
import shutil
import sys
import tempfile
import time
import urllib.parse
from collections import Counter
from collections.abc import Callable, Iterator, Sequence
from pathlib import Path
from typing import NamedTuple

from dev.tree import INTEROP, programs
from interop.outputs import as_url
from interop.repository import Repository
from interop.tools import ENVIRONMENT, Tools, url_of
from tests.ask import base, grown
from tests.ask.drawn_repositories import MALFORMED, OTHERWISE_READ, drawn, synchronized

ERROR = re.compile(r"^svn(?:ask)?: (E[0-9]+):", re.MULTILINE)
ATTRIBUTES = re.compile(rb"<(\w+)((?:\n   [\w-]+=\"[^\"]*\")+)>")
PROPERTIES = re.compile(rb"<revprops>\n(.*?)</revprops>\n", re.DOTALL)
NAMES = sorted(path.stem for path in INTEROP.glob("*.dump") if path.stem != "values")
# fmt: off
PATTERNS = (
    "merge", "CAFE", "resume", "r\u00e9sum\u00e9", "[x]", "\\[x\\]", "alice", "(no author)", "jorg", "2024-01-1?", "mon", "+0000",
    "a*b", "/trunk", "/b/*/f", "(no date)", "(invalid date)", "", "*", "soon", "T00:", "copy", "\x7f", "message", "?\\001",
)
# fmt: on
# The errors where the server ended, and how many seconds `svn` has: with -g and a rising range it may fail or not end.
ENDED, PATIENCE = ("E210002", "E175009", "E000104", "E000111", "E120108"), 30
OTHER = "another output"
# The kind of command about a history of its own, of features that are synchronized.
FEATURES = "features"
# How many seeds have the same repository.
TOGETHER = 20
BY = ("file", "svn", "http", "growing")
# The recorded repositories whose dumps can be cut where a line names a revision.
CUT = ("again", "branches", "copies", "drawn", "inherited", "merges", "renames", "replaced")
# How often `svn` is asked what is eligible, since it may answer in several ways.
TURNS = 30


class Place(NamedTuple):
    """A repository that was loaded: what svnask is asked about, its URL, and the paths of each revision."""

    source: base.Word
    url: str
    trees: list[list[str]]
    # What has the first revisions of it alone, and gets more.
    growing: grown.Grown | None = None

    @property
    def head(self) -> int:
        return len(self.trees) - 1

    def at(self, seed: int) -> Place:
        """Return it as it is for a seed: half of it, and of the rest the more, the more seeds came before."""
        if self.growing is None:
            return self
        half = len(self.trees) // 2 + 1
        count = half + (len(self.trees) - half) * (seed % TOGETHER) // TOGETHER
        if count > self.growing.count:
            self.growing.grow(count - self.growing.count)
        return Place(self.source, self.url, self.trees[:count], self.growing)


class Output(NamedTuple):
    """The output of a command, or the code of its error."""

    status: int
    text: bytes


class Server(NamedTuple):
    """A server of the repositories of a folder: its URL, the options by which they are reached, and whether they grow."""

    url: str
    options: tuple[str, ...] = ()
    is_growing: bool = False


@contextlib.contextmanager
def served(by: str, folder: Path) -> Iterator[Server | None]:
    """The server of the repositories that are loaded, if they are not asked by files."""
    (folder / "loaded").mkdir()
    if by in ("svn", "growing"):
        with grown.svnserve(folder / "loaded", "read") as url:
            yield Server(url, is_growing=by == "growing")
    elif by == "http":
        with grown.apache(folder / "loaded", folder / "apache") as url:
            yield Server(url, ("--username", "alice", "--password", "secret", "--no-auth-cache", "--non-interactive"))
    else:
        yield None


def dump_of(number: int, names: Sequence[str]) -> bytes:
    """The dump of a number, a recorded one or one that is drawn."""
    chance = random.Random(number)
    sort = chance.random()
    if sort < 0.3:
        return base.content_of(chance.choice(names))
    return synchronized(chance) if sort < 0.55 else drawn(chance, MALFORMED + OTHERWISE_READ)


def loaded(name: str, number: int, folder: Path, server: Server | None = None) -> Place:
    """The repository of a number, of features alone where it has that name."""
    shutil.rmtree(folder / name, ignore_errors=True)
    tools = Tools(folder)
    is_growing = server is not None and server.is_growing
    dump = synchronized(random.Random(number)) if name == FEATURES else dump_of(number, CUT if is_growing else NAMES)
    tools.load(folder / name, dump)
    repository = Repository(tools, folder / name)
    if name == FEATURES:
        trees = [["/trunk"]] * (1 + tools.youngest(folder / name))
    else:
        trees = [[f"/{path}" for path in tree] for tree in repository.trees]
    if server is not None:
        url = f"{server.url}/{name}"
        if not is_growing:
            return Place(url, url, trees)
        shutil.rmtree(folder / name)
        return Place(url, url, trees, grown.Grown(folder / name, dump, 1))
    made = folder / f"{name}.dump"
    made.write_bytes(tools.run("svnadmin", "dump", "-q", folder / name))
    return Place(made, url_of(folder / name), trees)


def some(chance: random.Random, **shares: float) -> list[str]:
    return ["--" + name.replace("_", "-") for name, share in shares.items() if chance.random() < share]


def target(chance: random.Random, place: Place) -> str:
    path, rev = path_in(chance, place)
    if rev == place.head and chance.random() < 0.2:
        return path + chance.choice(("@HEAD", "@", "@" * ("@" in path)))
    return f"{path}@{rev}"


def path_in(chance: random.Random, place: Place) -> tuple[str, int]:
    """Return a path, and a revision that has it."""
    rev = chance.choice((place.head, chance.randint(0, place.head)))
    return chance.choice(place.trees[rev]), rev


def bounds(chance: random.Random, place: Place) -> str:
    """Return a revision or a range of revisions. They may have names, or be those of a date where all have one."""
    named = ["HEAD", "rHEAD"] if place.growing is None else ["HEAD", "{2024-01-01T00:06:30Z}", "r{2024-01-02}"]
    first, last = (
        chance.choice(named) if chance.random() < 0.1 else str(chance.randint(0, place.head)) for _ in range(2)
    )
    return first if chance.random() < 0.1 else f"{first}:{last}"


def ranges(chance: random.Random, place: Place) -> list[str]:
    found = []
    if chance.random() < 0.3:
        found += ["-l", str(chance.randint(1, 4))]
    if chance.random() < 0.4:
        found += ["-r", bounds(chance, place)]
        if chance.random() < 0.3:
            found += ["-r", bounds(chance, place)]
    elif chance.random() < 0.1:
        found += ["-c", "%d,-%d,%d-%d" % tuple(chance.randint(1, max(place.head, 1)) for _ in range(4))]
    return found


def of_properties(chance: random.Random) -> list[str]:
    names = ("svn:log", "svn:author", "svn:date", "bug", "none")
    rows: tuple[list[str], ...] = ([], [], [], ["--with-all-revprops"], ["--with-no-revprops"])
    return chance.choice((*rows, [f"--with-revprop={name}" for name in chance.sample(names, 2)]))


def xml(chance: random.Random, place: Place) -> list[str]:
    options = some(chance, verbose=0.6, quiet=0.2, stop_on_copy=0.2, incremental=0.1)
    return ["log", "--xml", target(chance, place), *options, *ranges(chance, place), *of_properties(chance)]


def search(chance: random.Random, place: Place) -> list[str]:
    options = some(chance, verbose=0.5, quiet=0.2, xml=0.3, stop_on_copy=0.1)
    names = [chance.choice(("search", "search", "search-and")) for _ in range(chance.randint(1, 3))]
    patterns = [f"--{name}={pattern(chance)}" for name in names]
    return ["log", target(chance, place), *options, *patterns, *ranges(chance, place)]


def diagram(chance: random.Random, place: Place) -> list[str]:
    """Return a diagram. With the root as its source `svn` may fail, where svnask draws one."""
    sources = (target(chance, place) for _ in itertools.count())
    return ["mergeinfo", next(each for each in sources if not is_root(each)), target(chance, place)]


def is_root(named: str) -> bool:
    return named.partition("@")[0] == "/"


def merges(chance: random.Random, place: Place) -> list[str]:
    """Return what was merged, mostly as a log. That of the root with all below it is refused."""
    verb, source, merged = chance.choice(("merged", "eligible")), target(chance, place), target(chance, place)
    options = some(chance, recursive=0 if is_root(merged) else 0.3)
    if chance.random() < 0.7:
        options += ["--log", *some(chance, verbose=0.5, quiet=0.2, incremental=0.1)]
    if chance.random() < 0.2:
        options += ["-r", bounds(chance, place)]
    return ["mergeinfo", f"--show-revs={verb}", *options, source, merged]


def pattern(chance: random.Random) -> str:
    if chance.random() < 0.6:
        return chance.choice(PATTERNS)
    return "".join(chance.choices("abeRtr*?[]\\!^-c\n. <&\u00e9\u0301\u1e9e\ufb01", k=chance.randint(1, 5)))


def merge_history(chance: random.Random, place: Place) -> list[str]:
    options = some(chance, verbose=0.5, quiet=0.3, xml=0.3, stop_on_copy=0.15)
    patterns = [f"--search={pattern(chance)}"] if chance.random() < 0.1 else []
    if chance.random() < 0.3:
        rev = chance.randint(1, max(place.head, 1))
        return ["log", "-g", f"/trunk@{rev}", *options, "-c", str(rev)]
    return ["log", "-g", target(chance, place), *options, *patterns, *ranges(chance, place)]


def several(chance: random.Random, place: Place) -> list[str]:
    """Paths below a target."""
    path, rev = path_in(chance, place)
    below = [each[len(path) :].lstrip("/") for each in place.trees[rev] if each.startswith(path.rstrip("/") + "/")]
    paths = chance.choices([*below, ".", "none"] if chance.random() < 0.1 else below or ["."], k=chance.randint(1, 3))
    options = some(chance, verbose=0.3, use_merge_history=0.3, stop_on_copy=0.2, incremental=0.1)
    names = [word for word in paths if "@" not in word]
    return ["log", "-q", *options, *ranges(chance, place), f"{path}@{rev}", *names]


def values(chance: random.Random, place: Place) -> list[str]:
    targets = [target(chance, place) for _ in range(chance.choice((1, 1, 2)))]
    return ["propget", "svn:mergeinfo", *some(chance, recursive=0.6, verbose=0.3, no_newline=0.1), *targets]


KINDS: dict[str, Callable[[random.Random, Place], list[str]]] = {
    "diagram": diagram,
    FEATURES: merge_history,
    "merge-history": merge_history,
    "merges": merges,
    "search": search,
    "several": several,
    "values": values,
    "xml": xml,
}


def normal(text: bytes) -> bytes:
    """XML with sorted attributes and properties."""

    def sort(found: re.Match[bytes]) -> bytes:
        return b"<%s\n   %s>" % (found[1], b"\n   ".join(sorted(found[2][4:].split(b"\n   "))))

    def sort_properties(found: re.Match[bytes]) -> bytes:
        rows = sorted(found[1].split(b"</property>\n"))
        return b"<revprops>\n%s</revprops>\n" % b"</property>\n".join(rows)

    return (
        PROPERTIES.sub(sort_properties, ATTRIBUTES.sub(sort, text))
        if text.startswith((b"<?xml", b"<logentry"))
        else text
    )


def output_of(status: int | None, output: bytes, said: str) -> Output:
    """Return what a command printed. Where `svn` is ended by a signal, svnask refuses."""
    found = ERROR.search(said)
    if status is not None and status < 0:
        return Output(1, b"E195002")
    # Of a property that is missing the warning comes first.
    return Output(0, normal(output)) if status == 0 else Output(1, (found[1] if found else said).encode())


class Compared(NamedTuple):
    """A command, and what both printed."""

    words: list[str]
    wanted: Output
    found: Output
    # Whether something was taken out of both that a server changes over http.
    is_altered: bool

    @property
    def outcome(self) -> str:
        if self.wanted == self.found:
            return "the same but for CR or DEL" if self.is_altered else "the same"
        text = self.wanted.text.decode("ascii", "replace")
        return f"not compared: {text}" if text in ENDED or text.startswith("no end after") else OTHER

    def shown(self) -> str:
        """The first lines that are not the same."""
        lines = [each.text.split(b"\n") for each in (self.wanted, self.found)]
        same = len(os.path.commonprefix(lines))
        rows = zip(("svn", "svnask"), (self.wanted, self.found), lines)
        return "\n".join(
            f"  {name}: {each.status}, from line {same + 1} on {rest[same:same + 9]}" for name, each, rest in rows
        )


def of_svn(words: Sequence[str], place: Place, folder: Path) -> Output:
    """Return what `svn` prints."""
    done = Tools(folder).try_run("svn", *words, seconds=PATIENCE)
    printed = done.output
    if "propget" in words:
        # In place of a URL svnask prints the path.
        url = re.compile(re.escape(place.url.encode()) + rb"([^\n' ]*)")
        printed = url.sub(lambda found: urllib.parse.unquote_to_bytes(found[1]) or b"/", printed)
    return output_of(done.status, printed, done.errors.decode("utf-8", "replace"))


def compare(kind: str, seed: int, place: Place, folder: Path, options: Sequence[str] = ()) -> Compared:
    chance = random.Random(f"{kind} {seed}")
    words = KINDS[kind](chance, place)
    as_svn = [*options, *(as_url(place.url, word) for word in words)]
    is_as_svn = place.source == place.url and words[0] != "propget" and chance.random() < 0.5
    found = base.called(*as_svn) if is_as_svn else base.called(place.source, *options, *words)
    own = output_of(found.status, found.output, found.said)
    for _ in range(TURNS if "--show-revs=eligible" in words else 1):
        wanted = of_svn(as_svn, place, folder)
        if wanted == own:
            break
    if not place.url.startswith("http") or wanted == own:
        return Compared(words, wanted, own, False)
    return Compared(words, as_served(wanted), as_served(own), True)


def as_served(output: Output) -> Output:
    """Return what was printed, without what a server changes in messages over http."""
    text = output.text.replace(b"\r", b"").replace(b"&#13;", b"").replace(b"\x7f", b"?\\127")
    return output._replace(text=text)


def compared(kinds: list[str], first: int, last: int, folder: Path, by: str = "file") -> Iterator[tuple[int, Compared]]:
    """The seeds, and what was printed for them."""
    numbers: dict[str, int] = {}
    places: dict[str, Place] = {}
    with served(by, folder) as server:
        for seed, kind in itertools.product(range(first, last + 1), kinds):
            name, number = (kind, seed) if kind == FEATURES else ("repository", seed // TOGETHER)
            if numbers.get(name) != number:
                numbers[name], places[name] = number, loaded(name, number, folder / "loaded", server)
            place = places[name].at(seed)
            yield seed, compare(kind, seed, place, folder, server.options if server is not None else ())


def main() -> int:
    words = argparse.ArgumentParser(
        prog="tests/ask/beside-svn",
        description="Runs svn and svnask on one question for each seed. Exits with 1 where they do not print the same.",
    )
    words.add_argument("--only", choices=sorted(KINDS), help="the only kind of command")
    words.add_argument("--by", choices=BY, default="file", help="how repositories are reached")
    words.add_argument("first", type=int, help="the first seed")
    words.add_argument("last", type=int, help="the last seed")
    given = words.parse_args()
    kinds = [given.only] if given.only else sorted(KINDS)
    outcomes: Counter[str] = Counter()
    with tempfile.TemporaryDirectory(prefix="svnask-beside-svn-") as folder:
        os.environ.update(ENVIRONMENT, XDG_CACHE_HOME=os.path.join(folder, "cache"), SVNHIST=str(programs().svnhist))
        time.tzset()
        for seed, found in compared(kinds, given.first, given.last, Path(folder), given.by):
            outcomes[found.outcome] += 1
            if found.wanted != found.found:
                print(f"seed {seed}: {found.outcome}: {found.words}\n{found.shown()}", flush=True)
    for outcome, count in outcomes.most_common():
        print(f"{count} {outcome}")
    return 1 if outcomes[OTHER] else 0


if __name__ == "__main__":
    sys.exit(main())
