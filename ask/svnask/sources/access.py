"""How a repository is reached, and who asks. Little is imported, since each question looks for a server first."""
from __future__ import annotations

import hashlib
import os
import re
from collections.abc import Sequence
from typing import NamedTuple

# How a repository is reached. These options are those of svn, with a value and without one.
REACHED = frozenset(("--username", "--password", "--config-dir", "--config-option", "--trust-server-cert-failures"))


REACHED_ALONE = frozenset(("--non-interactive", "--force-interactive", "--no-auth-cache", "--trust-server-cert"))


# Those of them that say who asks.
ASKER = ("--username", "--config-dir", "--config-option")


# A word that is a URL.
IS_URL = re.compile(r"[A-Za-z][A-Za-z0-9+.-]*://")


def of_asker(url: str, access: Sequence[str]) -> str:
    """The URL of a repository with the options that say who asks, since a server may show each user another history.
    Options of a configuration may have a password, so their checksum stands for them."""
    if url.startswith("file:"):
        return url
    found: dict[str, str] = {}
    for name, sign, value in (word.partition("=") for word in access):
        if sign and name in ASKER:
            found[name] = found.get(name, "") + "\n" + value if name == ASKER[2] else value
    if ASKER[1] in found:
        found[ASKER[1]] = os.path.realpath(found[ASKER[1]])
    if ASKER[2] in found:
        found[ASKER[2]] = hashlib.sha256(found[ASKER[2]].encode("utf-8", "surrogateescape")).hexdigest()[:16]
    return " ".join([url, *(f"{name}={found[name]}" for name in ASKER if name in found)])


class Access(NamedTuple):
    """The options of svn by which a repository is reached."""

    words: tuple[str, ...] = ()
