"""URLs of repositories, and the paths in them."""
from __future__ import annotations

import os
import urllib.parse
from collections.abc import Iterator

from svnask.texts import encoded

# The letters of a path that a URL has as they are, but for the sign of a peg revision.
PLAIN = "/!$&'()*+,-.:=_~"


PORTS = {"svn": ":3690", "http": ":80", "https": ":443"}


def canonical(url: str) -> str:
    """A URL as the cache names it, without a slash at its end. All commands of Subversion take it for the same."""
    scheme, _, rest = url.partition("://")
    host, _, path = rest.partition("/")
    scheme = scheme.lower()
    user, sign, host = host.rpartition("@")
    host = host.lower()
    if host.endswith(PORTS.get(scheme, "/")):
        host = host[: -len(PORTS[scheme])]
    parts = [part for part in urllib.parse.unquote_to_bytes(encoded(path)).split(b"/") if part not in (b"", b".")]
    return f"{scheme}://{user}{sign}{host}/" + urllib.parse.quote(b"/".join(parts), safe=PLAIN)


def in_url(path: bytes) -> bytes:
    """A path as Subversion writes it in a URL."""
    return urllib.parse.quote(path, safe=PLAIN + "@").encode("ascii")


def target(root: str, path: bytes, rev: int) -> str:
    """Return a path of a revision as an argument of svn, in the form in which svn prints it."""
    return "%s%s@%d" % (root.rstrip("/"), in_url(path).decode("ascii"), rev)


def ancestors(url: str) -> Iterator[str]:
    """A canonical URL, and those above it."""
    front, _, rest = url.partition("://")
    host, _, path = rest.partition("/")
    parts = path.split("/") if path else []
    for count in range(len(parts), -1, -1):
        yield f"{front}://{host}/" + "/".join(parts[:count])


def path_below(url: str, root: str) -> bytes | None:
    """The path that a URL has below a root, both canonical."""
    if url == root:
        return b"/"
    front = root if root.endswith("/") else root + "/"
    return b"/" + urllib.parse.unquote_to_bytes(url[len(front) :]) if url.startswith(front) else None


def url_of_folder(folder: str) -> str:
    return canonical("file://" + urllib.parse.quote(os.fsencode(folder)))
