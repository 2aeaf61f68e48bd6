"""The arguments of the command."""
from __future__ import annotations

import argparse
import functools
import os
import re
from collections.abc import Sequence
from typing import IO, TYPE_CHECKING, Any, NoReturn

from svnask import __version__
from svnask.asking.verb import seconds
from svnask.asking.verbs import EXAMPLE_OF, HELP, verb_named
from svnask.asking.words import OF_ALL, ordered_words, places, split_access, with_source
from svnask.errors import Usage
from svnask.lazy import Lazy
from svnask.sources.access import REACHED, REACHED_ALONE

if TYPE_CHECKING:
    import difflib
else:
    difflib = Lazy("difflib")

# What the parser says of a word that is no verb.
NO_VERB = re.compile("argument VERB: invalid choice: '(.*)' \\(choose from", re.DOTALL)


# What it says of arguments that are not there.
MISSING = "the following arguments are required: "


# What stands before a word after `--`, so that it is an argument whatever it is. No word of a command line has it.
AS_GIVEN = "\0"


ABOUT = """\
Answers a question about the history of a Subversion repository, and prints
what 'svn' would print. SOURCE is read once, and later only what is new."""


EXAMPLES = f"""\
'svnask VERB --help' says what a verb takes. Examples:
  svnask https://svn.example.org/repo log -v -l 5 trunk
  svnask /srv/repo mergeinfo --show-revs eligible trunk branches/two
  svnadmin dump -q /srv/repo | svnask - branches

These options are passed on to svn:
  {" ".join(sorted(REACHED_ALONE))}
  {" ".join(sorted(REACHED)[:3])}
  {" ".join(sorted(REACHED)[3:])}"""


class Parser(argparse.ArgumentParser):
    """A parser that tells of wrong arguments in one line, and takes no part of the name of an option for it."""

    def __init__(self, formatter: type[argparse.HelpFormatter] = argparse.HelpFormatter, **settings: Any) -> None:
        # Each argument is tried with a formatter. One that is told the width need not import what finds it.
        super().__init__(allow_abbrev=False, formatter_class=functools.partial(formatter, width=80), **settings)
        self._formatter = formatter

    def format_help(self) -> str:
        self.formatter_class = self._formatter
        return super().format_help()

    def _print_message(self, message: str, file: IO[str] | None = None) -> None:
        # argparse says nothing where that can't be written.
        print(message, end="", file=file)

    @property
    def actions(self) -> list[argparse.Action]:
        """The options and the arguments that it takes."""
        return self._actions

    def parse_known_args(self, args: Sequence[str] | None = None, namespace: Any = None) -> tuple[Any, list[str]]:
        """Return what words say, and those that it does not know. Each word after `--` is an argument: argparse would
        leave out another `--` there."""
        words = list(args or ())
        end = words.index("--") if "--" in words else len(words)
        found, left = super().parse_known_args(words[:end] + [AS_GIVEN + word for word in words[end + 1 :]], namespace)
        return found, [*map(given_word, left)]

    def _get_values(self, action: argparse.Action, arg_strings: list[str]) -> Any:
        if action.nargs == argparse.PARSER:
            # The words after the verb are for its own parser.
            return [super()._get_values(action, arg_strings[:1])[0], *arg_strings[1:]]
        # Before Python 3.12 the value -- of an option was taken for the end of the options.
        if action.option_strings and arg_strings == ["--"]:
            return self._get_value(action, "--")
        return super()._get_values(action, arg_strings)

    def _get_value(self, action: argparse.Action, arg_string: str) -> Any:
        return super()._get_value(action, given_word(arg_string))

    def error(self, message: str) -> NoReturn:
        found = NO_VERB.match(message)
        help_of = f"{self.prog.replace(' SOURCE', '')} --help"
        if message.startswith(MISSING):
            message += f": '{help_of}' says what they are"
        raise Usage(about_verb(found[1]) if found else message)


def given_word(word: str) -> str:
    """Return a word as it was given."""
    return word[1:] if word.startswith(AS_GIVEN) else word


def about_verb(word: str) -> str:
    """Return what is said of a word that is no verb."""
    near = difflib.get_close_matches(word, HELP, 1)
    return f"there is no verb '{word}': " + (f"is '{near[0]}' meant?" if near else "svnask --help lists them")


@functools.lru_cache(maxsize=None)
def parser(asked: str | None = None) -> Parser:
    """The parser of the command line, with the verb that is asked and its arguments, or with all verbs by name alone."""
    made = Parser(argparse.RawDescriptionHelpFormatter, prog="svnask", description=ABOUT, epilog=EXAMPLES)
    made.add_argument(
        "dump",
        metavar="SOURCE",
        help="a dump, - for one from the standard input, the folder of a repository, a working copy, or a URL",
    )
    made.add_argument("--json", action="store_true", help="print one object per line, for scripts")
    made.add_argument("--csv", action="store_true", help="print a table of comma-separated values")
    made.add_argument("--no-cache", action="store_true", help="read the source anew, and keep nothing of it")
    made.add_argument("--offline", action="store_true", help="answer from what is kept, without asking the repository")
    made.add_argument("--timeout", metavar="SECONDS", type=seconds, help="how long the repository may take to answer")
    made.add_argument(
        "--below", metavar="PATH", default="", help="have targets and patterns begin at a path of the source"
    )
    made.add_argument("-V", "--version", action="version", version="svnask " + __version__)
    verbs = made.add_subparsers(dest="verb", metavar="VERB", required=True, parser_class=Parser, prog="svnask SOURCE")

    for name in HELP if asked is None else [asked]:
        below = verbs.add_parser(name, help=HELP[name], description=HELP[name])
        for option in ("--json", "--csv", "--no-cache", "--offline"):
            below.add_argument(option, action="store_true", default=argparse.SUPPRESS, help=argparse.SUPPRESS)
        below.add_argument("--below", metavar="PATH", default=argparse.SUPPRESS, help=argparse.SUPPRESS)
        below.add_argument("--timeout", type=seconds, default=argparse.SUPPRESS, help=argparse.SUPPRESS)
        if name == asked:
            verb = verb_named(name)
            below.usage, below.epilog = verb.usage, f"Example: svnask {EXAMPLE_OF[name]}"
            verb.arguments(below)
    return made


def parser_of_verb(name: str) -> Parser:
    """The parser of a verb."""
    found: Parser = next(each.choices[name] for each in parser(name).actions if isinstance(each.choices, dict))
    return found


def parsed(words: list[str]) -> argparse.Namespace:
    """Return what a command line says. `SystemExit` where it is a call for help, which was printed."""
    access, left = split_access(words)
    ready = with_source(help_words(left), HELP)
    need_source(ready)
    asked = next((ready[at] for at in places(ready)[1:2] if ready[at] in HELP), None)
    found = parser(asked).parse_args(ordered_words(ready), argparse.Namespace(access=access))
    if found.csv and found.json:
        raise Usage("--csv and --json exclude each other")
    if found.csv:
        need_table(found.verb)
    return found


def help_words(words: list[str]) -> list[str]:
    """Return the words that call for the help of a verb, or of all, where these do: `help`, `help VERB` or
    `--help VERB`."""
    is_call = words[:1] in (["-h"], ["--help"]) or words[:1] == ["help"] and not os.path.lexists("help")
    return [*words[1:2], "--help"] if is_call and set(words[1:]) <= {*HELP} else words


def need_table(verb: str) -> None:
    """Refuse a verb that prints no table."""
    if not verb_named(verb).columns:
        raise Usage(f"{verb} prints no table: it is not taken with --csv")


def need_source(words: list[str]) -> None:
    """Refuse words in which a verb stands where a source should, if there is no file of that name."""
    plain = [words[at] for at in places(words)[:2]]
    if (
        plain
        and plain[0] in HELP
        and plain[0] != OF_ALL
        and not set(plain[1:]) & set(HELP)
        and not os.path.lexists(plain[0])
    ):
        raise Usage(f"a source is missing: svnask SOURCE {plain[0]} ..")
