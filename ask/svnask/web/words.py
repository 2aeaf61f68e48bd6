"""The words of command lines on pages. A page shows any bytes of a name so that a shell reads them."""
from __future__ import annotations

import re
import shlex

from svnask.texts import CONTROL, DIRECTIONS, decoded, encoded

# What a page does not show as it is, what ends or begins something in quotes, and what stands for one of these.
HIDDEN = re.compile(f"{CONTROL.pattern}|{DIRECTIONS.pattern}|[\udc80-\udcff]")
SPECIAL = re.compile(r"['\\]")
ESCAPE = re.compile(rb"\\(?:x([0-9a-f]{2})|(.))", re.DOTALL)


def shell_word(text: str) -> str:
    r"""Return a text as a word of a shell. Bytes that a page does not show are written as `$'\xff'`.

    >>> print(shell_word("/trunk"), shell_word("/a b"), shell_word("/a'\x1b"), shell_word("/\udcff"))
    /trunk '/a b' $'/a\'\x1b' $'/\xff'
    """
    if not HIDDEN.search(text):
        return shlex.quote(text)
    return "$'" + HIDDEN.sub(in_bytes, SPECIAL.sub(r"\\\g<0>", text)) + "'"


def in_bytes(found: re.Match[str]) -> str:
    return "".join(f"\\x{byte:02x}" for byte in encoded(found[0]))


def choice(text: str) -> str:
    r"""Return a text for a field of a form: itself, or as a word `$'\xff'`."""
    return shell_word(text) if HIDDEN.search(text) else text


def text_of_choice(text: str) -> str:
    r"""Return what a field of a form stands for.

    >>> text_of_choice(choice("/a'\x1b")), text_of_choice("/a b")
    ("/a'\x1b", '/a b')
    """
    if not (text.startswith("$'") and text.endswith("'") and len(text) > 2):
        return text
    return decoded(ESCAPE.sub(lambda each: bytes([int(each[1], 16)]) if each[1] else each[2], encoded(text[2:-1])))
