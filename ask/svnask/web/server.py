"""A server of the pages, for this host alone unless another one is named."""
from __future__ import annotations

import argparse
import logging
import os
import sys
import threading
from collections.abc import Iterator
from contextlib import closing
from typing import Any

import waitress
from svnask.asking.verb import object_line
from svnask.errors import Failed, Usage
from svnask.texts import say
from svnask.web.hosts import LOOPBACK, Hosts, in_address
from svnask.web.wsgi import Application

HOST, PORT = "127.0.0.1", 8080
# How many questions are answered at once, and how long a header may be.
THREADS, LONGEST = 20, 1 << 16
# How many seconds are waited for a signal at a time.
LONGEST_WAIT = 1.0
# How many seconds a thread computes while others wait to.
TURN = 0.0005


def listened(text: str | None) -> tuple[str, int]:
    """Return the host and the port that an option names."""
    if text is None:
        return HOST, PORT
    host, colon, port = text.rpartition(":")
    if not colon or not port.isdigit() or int(port) > 0xFFFF:
        raise Usage(f"--listen takes HOST:PORT, not '{text}'")
    return host.strip("[]") or HOST, int(port)


def serve_pages(given: argparse.Namespace) -> None:
    """Answer until a signal comes."""
    host, port = listened(given.listen)
    if given.dump == "-":
        raise Failed("a pipe can't be read again: save the dump in a file", 2)
    # What fails is said in a line of our own.
    logging.getLogger("waitress").setLevel(logging.CRITICAL + 1)
    sys.setswitchinterval(TURN)
    with closing(Application(given, Hosts([host]))) as application:
        application.open()
        try:
            server = waitress.create_server(
                application,
                host=host,
                port=port,
                threads=THREADS,
                ident=None,
                max_request_header_size=LONGEST,
                max_request_body_size=LONGEST,
                asyncore_use_poll=True,
                clear_untrusted_proxy_headers=True,
            )
        except (OSError, ValueError) as error:
            raise Failed(f"cannot listen on {host}:{port}: {getattr(error, 'strerror', None) or error}") from error
        # A signal is for this thread: the server would take what its handler raises for a fault of a connection.
        running = threading.Thread(target=server.run, daemon=True)
        running.start()
        announce(given, host, list(ports_of(server)))
        while running.is_alive():
            # A signal that comes just before does not end it.
            running.join(LONGEST_WAIT)


def ports_of(server: Any) -> Iterator[int]:
    """Yield the ports that are listened on, of which a host by its name may have several."""
    listening = getattr(server, "effective_listen", None) or [(server.effective_host, server.effective_port)]
    for _, port in listening:
        yield int(port)


def announce(given: argparse.Namespace, host: str, ports: list[int]) -> None:
    """Say where the pages are, and who may read them."""
    address = f"http://{in_address(host)}:{ports[0]}/"
    if in_address(host) not in LOOPBACK:
        say(f"svnask: whoever reaches {address} may read this history, with what you may read of it")
    line = object_line({"source": given.dump, "address": address})
    sys.stdout.buffer.write(line if given.json else b"serving %s\n" % os.fsencode(address))
    sys.stdout.buffer.flush()
