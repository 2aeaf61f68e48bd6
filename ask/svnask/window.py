"""The module of `Window`, where released scripts import it from."""
from __future__ import annotations

from svnask.copy.window import Window

__all__ = ["Window"]
