"""The examples in the docstrings of the module."""
from __future__ import annotations

import doctest
import importlib
import os
import pkgutil

import svnask
from dev.tree import ROOT
from svnask.cli.verbs import web
from tests.ask import base


class Examples(base.Case):
    def test_each_example_gives_what_it_shows(self) -> None:
        self.addCleanup(os.chdir, os.getcwd())
        os.chdir(ROOT)
        dump = base.dump_of("branches")
        internal, public = self.history(dump), self.public_history(dump)
        names = ["svnask"] + [found.name for found in pkgutil.walk_packages(svnask.__path__, "svnask.")]
        count = 0
        for name in names:
            try:
                module = importlib.import_module(name)
            except ModuleNotFoundError as error:
                # The pages for a browser need libraries, which not every machine has.
                if error.name not in web.NEEDED:
                    raise
                continue
            history = public if name == svnask.History.__module__ else internal
            # Where nothing is said, `-v` of the tests would have it print each example.
            done = doctest.testmod(module, verbose=False, extraglobs={"history": history})
            self.assertEqual(done.failed, 0, name)
            count += done.attempted
        self.assertGreater(count, 20)
