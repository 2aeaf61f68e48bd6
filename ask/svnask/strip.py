"""The module of `Stripper`, where released scripts import it from."""
from __future__ import annotations

from svnask.copy.strip import Stripper

__all__ = ["Stripper"]
