"""Which package of svnask may use which."""
from __future__ import annotations

import ast
import unittest
from collections.abc import Iterator
from pathlib import Path

from dev.tree import ROOT

# The packages, and the modules at the top that others stand above, from the lowest one. Each uses those before it.
LAYERS = "top copy engine sources mergeinfo history log merges merged_log branches picture export asking public serving web cli".split()


def layer_of(module: str) -> str:
    """Return the layer of a module, by its name below svnask."""
    first = module.partition(".")[0]
    return first if first in LAYERS else "top"


def imported(path: Path) -> Iterator[str]:
    """Yield the modules of svnask that a module imports anywhere, by their names below it."""
    for node in ast.walk(ast.parse(path.read_text(encoding="utf-8"))):
        if isinstance(node, ast.ImportFrom):
            assert node.level == 0 and node.module is not None, path
            front, _, rest = node.module.partition(".")
            if front == "svnask":
                yield from [rest] if rest else [name.name for name in node.names]


class Layers(unittest.TestCase):
    def test_each_uses_lower_ones_alone(self) -> None:
        folder = ROOT / "ask" / "svnask"
        for path in folder.rglob("*.py"):
            own = ".".join(path.relative_to(folder).with_suffix("").parts)
            # These give names of higher modules, by which scripts know them.
            if own in ("__init__", "strip", "window"):
                continue
            for module in imported(path):
                with self.subTest(module=own, imported=module):
                    self.assertLessEqual(LAYERS.index(layer_of(module)), LAYERS.index(layer_of(own)))

    def test_no_import_stands_in_a_function(self) -> None:
        for path in (ROOT / "ask" / "svnask").rglob("*.py"):
            for node in ast.walk(ast.parse(path.read_text(encoding="utf-8"))):
                if isinstance(node, ast.FunctionDef):
                    inside = [each for each in ast.walk(node) if isinstance(each, ast.ImportFrom)]
                    self.assertEqual(inside, [], path)
