"""The reference of the module svnask, as a page that is made of its docstrings."""
from __future__ import annotations

import inspect
import re
import textwrap
from collections.abc import Iterator
from types import FunctionType
from typing import Any

import svnask

NAME = "docs/module.md"
HEAD = """\
# The module svnask

What [svnask.md](svnask.md#the-module) begins to tell, name by name. It is made of the docstrings of this version.
"""
# The first line of an example, and what follows it up to an empty line.
EXAMPLE = re.compile(r"^>>> .*(?:\n.+)*", re.MULTILINE)


def page() -> bytes:
    """Return the page."""
    parts = [HEAD, *(part for name in svnask.__all__ for part in parts_of(name, getattr(svnask, name)))]
    return "\n".join(parts).encode("utf-8")


def parts_of(name: str, found: type[Any]) -> Iterator[str]:
    """Yield the paragraphs about a class and its methods."""
    if found.__name__ != name:
        yield f"## {name}\n\nThe same as `{found.__name__}`.\n"
        return
    fields = getattr(found, "_fields", ())
    yield f"## {name}\n"
    yield about(found)
    if fields:
        yield f"```python\n{fields_of(found)}\n```\n"
    for each, member in sorted(members(found).items()):
        if each not in fields:
            yield f"### {each}\n"
            yield f"`{signature(each, member)}`\n"
            if member.__doc__:
                yield about(member)


def fields_of(found: type[Any]) -> str:
    """Return the fields of a row with their types, as its class has them."""
    body = re.split(r"\n    (?:def |@)", inspect.getsource(found), maxsplit=1)[0]
    return textwrap.dedent(body.rpartition('"""')[2]).strip()


def members(found: type[Any]) -> dict[str, Any]:
    """Return the public members of a class by their names, with those that it has from other classes of svnask."""
    own = [each for each in reversed(found.__mro__) if each.__module__.startswith("svnask")]
    all_of = {name: member for each in own for name, member in vars(each).items() if not name.startswith("_")}
    return {
        name: member for name, member in all_of.items() if isinstance(member, (FunctionType, property, classmethod))
    }


def signature(name: str, member: Any) -> str:
    """Return how a member is called."""
    if isinstance(member, property):
        return name
    called = member.__func__ if isinstance(member, classmethod) else member
    given = inspect.signature(called)
    rest = list(given.parameters.values())[1:]
    return name + str(given.replace(parameters=rest, return_annotation=inspect.Signature.empty)).replace("'", "")


def about(found: Any) -> str:
    """Return a docstring, with its examples as code."""
    text = inspect.getdoc(found) or ""
    return EXAMPLE.sub(lambda example: f"```python\n{example[0]}\n```", text) + "\n"
