"""Makes the repositories of histories.py with Subversion and records their dumps, queries and answers, and what its
parser of mergeinfo makes of the texts of values.py. README.md says what is asked, and how.

It needs Debian's own Python, for which the bindings are built.
"""
from __future__ import annotations

import argparse
import shutil
import sys
import tempfile
from collections.abc import Iterator, Sequence
from pathlib import Path

from dev.running import Failed
from dev.tree import INTEROP
from interop import bindings, histories, outputs, values
from interop.questions import Asked, Questions, Wanted
from interop.repository import Answer, Repository, parsed
from interop.tools import COMMANDS, Tools
from interop.workshop import Workshop

NUMBERS = (
    ("--most", 240, "locate queries kept of a repository; of segments, log and mergeinfo a sixth each"),
    ("--pairs", 30, "queries kept of a repository, for merged and for eligible each"),
    ("--ranges", 8, "queries with a range kept of a repository, for log, merged and eligible each"),
)
FLAGS = (
    ("--above", "record revisions above the peg instead, for which svnhist differs"),
    ("--differing", "record only the queries that are left out otherwise, as svnhist differs"),
    ("--outputs", "record only what the command svn prints about the dumps that are recorded already"),
)


def write_files(into: Path, name: str, dump: bytes, queries: Sequence[str], answers: Sequence[Answer]) -> None:
    """Write the dump, the queries, and the answers in the form of the program's report, where only `ok` has result
    lines."""
    report = "".join(
        f"#{number} {status}\n" + "".join(line + "\n" for line in lines if status == "ok")
        for number, (status, lines) in enumerate(answers, 1)
    )
    (into / (name + ".dump")).write_bytes(dump)
    (into / (name + ".queries")).write_bytes(b"".join(query.encode() + b"\n" for query in queries))
    (into / (name + ".answers")).write_bytes(report.encode("utf-8", "surrogateescape"))


def record_values(into: Path, differing: bool) -> str:
    """Record what Subversion's parser makes of the texts of values.py; returns a summary."""
    texts = values.drawn(600)
    causes = [values.causes(text, parsed) for text in texts]
    kept = [text for text, found in zip(texts, causes) if bool(found) == differing]
    queries = [f"mergeinfo\t/f{number}@1" for number in range(1, len(kept) + 1)]
    write_files(into, "values", values.dump_of(kept), queries, list(map(parsed, kept)))
    told = [f"mergeinfo {len(kept)} of {len(texts)}"]
    if differing:
        told += [f"{name} {sum(name in found for found in causes)}" for name in values.EDITS]
    return ", ".join(told)


def record(tools: Tools, make: histories.Make, given: argparse.Namespace) -> str:
    """Make one repository and records it; returns a summary."""
    name = make.__name__
    folder = Path(tempfile.mkdtemp(dir=tools.folder))
    shop = Workshop(tools, folder)
    make(shop)
    dump = shop.finish(name)
    tools.load(folder / "loaded", dump)
    made, loaded = Repository(tools, shop.repository), Repository(tools, folder / "loaded")
    told = [f"{len(loaded.trees) - 1} revisions"]
    asked: list[Asked] = []
    wanted = Wanted(given.most, given.pairs, given.ranges, given.above, given.differing)
    for kept, words in Questions(made, loaded, name, wanted).kept():
        asked += kept
        told.append(words)
    write_files(given.into, name, dump, [each.line for each in asked], [each.answer for each in asked])
    if name in ("properties", "inherited", "merges"):
        deltas = tools.run("svnadmin", "dump", "-q", "--deltas", loaded.folder)
        (given.into / (name + "-deltas.dump")).write_bytes(deltas)
        (given.into / (name + "-svnrdump.dump")).write_bytes(tools.run("svnrdump", "dump", "-q", loaded.url))
    shutil.rmtree(folder)
    return ", ".join(told)


def record_outputs(tools: Tools, name: str, into: Path) -> str:
    """Record what the command `svn` prints about the repository of a recorded dump; returns a summary."""
    folder = Path(tempfile.mkdtemp(dir=tools.folder))
    loaded = Repository(tools, folder / "loaded")
    tools.load(loaded.folder, (INTEROP / (name + ".dump")).read_bytes())
    trees = [["/" + path for path in tree] for tree in loaded.trees]
    found = [outputs.run(loaded.url, words) for words in outputs.arguments_of(name, trees)]
    outputs.write(into / (name + ".svn"), found)
    shutil.rmtree(folder)
    return f"{len(found)} commands"


def record_all(tools: Tools, given: argparse.Namespace) -> Iterator[tuple[str, str]]:
    """The name of what was recorded, and a summary."""
    for make in histories.ALL:
        name = make.__name__
        if not given.names or name in given.names:
            yield name, record_outputs(tools, name, given.into) if given.outputs else record(tools, make, given)
    if not given.outputs and not given.above and (not given.names or "values" in given.names):
        yield "values", record_values(given.into, given.differing)


def arguments() -> argparse.Namespace:
    words = "Records the answers of Subversion. It needs Subversion with its Python bindings."
    parser = argparse.ArgumentParser(prog="record", description=words)
    parser.add_argument("names", nargs="*", help="the repositories to record, and values; all by default")
    parser.add_argument("--into", type=Path, default=INTEROP, help="the folder for the files")
    for name, number, words in NUMBERS:
        parser.add_argument(name, type=int, default=number, help=f"most {words} (default {number})")
    for name, words in FLAGS:
        parser.add_argument(name, action="store_true", help=words)
    given = parser.parse_args()
    if given.above and given.differing:
        parser.error("--above and --differing exclude each other")
    if (given.above or given.differing) and given.into == INTEROP:
        parser.error("this needs --into: these answers differ from those of the program, and are not recorded here")
    return given


def main() -> None:
    given = arguments()
    missing = [command for command in COMMANDS if shutil.which(command) is None]
    if missing:
        sys.exit("record: these commands of Subversion are missing: " + " ".join(missing))
    if not bindings.is_installed and not given.outputs:
        sys.exit("record: the Python bindings of Subversion are missing for " + sys.executable)
    with tempfile.TemporaryDirectory(prefix="svnhist-record-") as folder:
        given.into.mkdir(parents=True, exist_ok=True)
        try:
            for name, told in record_all(Tools(Path(folder)), given):
                print(f"{name:12} {told}", flush=True)
        except Failed as failed:
            sys.exit(f"record: {failed}")


if __name__ == "__main__":
    main()
