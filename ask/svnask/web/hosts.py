"""By which names a server may be called. A page of another site could rebind its own name to the address of the server,
and then read what is served: so a name has to be one that is listened on."""
from __future__ import annotations

import ipaddress
from collections.abc import Iterable

LOOPBACK = ("localhost", "127.0.0.1", "[::1]")


def without_port(host: str) -> str:
    """Return the name of a `Host` header, small and without its port."""
    front, colon, port = host.rpartition(":")
    return (front if colon and port.isdigit() else host).lower()


def in_address(host: str) -> str:
    """Return a host as addresses have it."""
    return f"[{host}]" if ":" in host and not host.startswith("[") else host


def is_address(name: str) -> bool:
    """Return whether a name is an address by its number, which no site can rebind."""
    try:
        ipaddress.ip_address(name.strip("[]"))
    except ValueError:
        return False
    return True


class Hosts:
    """The names that are taken: those given, and addresses by their numbers where all of them are listened on."""

    def __init__(self, names: Iterable[str] = LOOPBACK) -> None:
        self._names = {in_address(name).lower() for name in names}
        self._has_all = any(
            is_address(name) and ipaddress.ip_address(name.strip("[]")).is_unspecified for name in self._names
        )
        if not self._names.isdisjoint(LOOPBACK):
            self._names.update(LOOPBACK)

    def has(self, host: str) -> bool:
        """Return whether a `Host` header is one of them."""
        name = without_port(host)
        return name in self._names or self._has_all and is_address(name)
