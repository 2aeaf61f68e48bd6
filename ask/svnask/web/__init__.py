"""The history in a browser, and its answers over HTTP: `cli` serves it, and any other WSGI server may."""
