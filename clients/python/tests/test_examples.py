"""The examples in the docstrings of the package."""
import doctest
import importlib
import pkgutil
import tempfile

import orgstore

from .support import FolderTest


class Examples(FolderTest):
    """Each module's examples run as they stand there."""

    def test_all(self) -> None:
        self.addCleanup(setattr, tempfile, "tempdir", tempfile.tempdir)
        tempfile.tempdir = self.room
        names = [found.name for found in pkgutil.walk_packages(orgstore.__path__, "orgstore.")]
        ran = 0
        for name in ["orgstore", *(name for name in names if not name.endswith("__main__"))]:
            with self.subTest(name):
                result = doctest.testmod(importlib.import_module(name))
                self.assertEqual(result.failed, 0)
                ran += result.attempted
        self.assertGreater(ran, 15)
