"""What the tests, the benchmarks, the model and the recordings of Subversion have in common. It is not released."""
import sys

from dev.tree import ROOT

# The package `svnask`, where it is not installed.
sys.path.insert(0, str(ROOT / "ask"))
