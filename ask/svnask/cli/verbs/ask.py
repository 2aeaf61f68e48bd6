"""`ask`."""
from __future__ import annotations

from argparse import ArgumentParser, Namespace
from collections.abc import Iterator

from svnask.asking.refusals import bad_query
from svnask.asking.verb import Object, Verb
from svnask.engine.queries import Answer, Line
from svnask.errors import Failed
from svnask.history.open_history import OpenHistory
from svnask.texts import decoded


class AskVerb(Verb):
    def arguments(self, parser: ArgumentParser) -> None:
        parser.add_argument("queries", metavar="QUERIES", help="a file of queries and questions as svnhist takes them")

    def answers(self, history: OpenHistory, given: Namespace) -> Iterator[tuple[bytes, Answer]]:
        try:
            with open(given.queries, "rb") as file:
                lines = file.read().split(b"\n")
        except OSError as error:
            raise Failed(f"cannot read {given.queries}: {error.strerror}") from error
        if lines[-1] == b"":
            lines.pop()
        for answer in history.ask([Line(b"", 0, line) for line in lines]):
            yield answer.query.line(), answer

    def text(self, history: OpenHistory, given: Namespace) -> Iterator[bytes]:
        for line, answer in self.answers(history, given):
            status = answer.status
            if status == "bad-query":
                status += ": " + bad_query(line)
            if not answer.ok or not answer.lines:
                yield line + b"\t" + status.encode("utf-8") + b"\n"
            yield from (line + b"\t" + result + b"\n" for result in answer.lines)

    def objects(self, history: OpenHistory, given: Namespace) -> Iterator[Object]:
        for line, answer in self.answers(history, given):
            found: Object = {
                "query": decoded(line),
                "status": answer.status,
                "lines": [decoded(result) for result in answer.lines],
            }
            if answer.status == "bad-query":
                found["reason"] = bad_query(line)
            yield found


VERB = AskVerb()
