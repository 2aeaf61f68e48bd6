"""Modules that few questions need. Each is imported when something of it is used."""
from __future__ import annotations

import importlib
from typing import Any


class Lazy:
    """Stands for a module. `TYPE_CHECKING` has the module itself."""

    def __init__(self, name: str) -> None:
        self._name = name

    def __getattr__(self, name: str) -> Any:
        # inspect and doctest ask each object for these.
        if name.startswith("__"):
            raise AttributeError(name)
        return getattr(importlib.import_module(self._name), name)
