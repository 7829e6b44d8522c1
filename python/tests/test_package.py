"""The package as it is installed, beside c/mldsa.h."""
import importlib.metadata
import os
import pathlib
import re
import shutil
import subprocess
import tempfile
import unittest
import unittest.mock

import shared

import exports
import mldsa
from mldsa import _library
from mldsa._interface import VERSION

HEADER = (shared.TOP / "c/mldsa.h").read_text(encoding="utf-8")


class Package(unittest.TestCase):
    def test_version(self):
        wanted = re.search(r'^#define MLDSA_VERSION_TEXT "(.*)"$', HEADER, re.M)[1]
        self.assertEqual([mldsa.__version__, importlib.metadata.version("mldsa")], [wanted, wanted])
        self.assertEqual(_library._LIBRARY.mldsa_version(), VERSION)

    def test_licence(self):
        """It is an SPDX expression, which setuptools from 77 on writes under another name."""
        said = importlib.metadata.metadata("mldsa")
        self.assertEqual(said["License-Expression"] or said["License"], "MIT OR Apache-2.0")
        # A table is what setuptools will refuse.
        self.assertNotRegex((shared.TOP / "python/pyproject.toml").read_text(encoding="utf-8"), r"(?m)^license\b")

    def test_it_needs_nothing(self):
        self.assertIsNone(importlib.metadata.requires("mldsa"))
        self.assertTrue((pathlib.Path(mldsa.__file__).parent / "py.typed").is_file())

    def test_other_version(self):
        """A shared library of another version is refused."""
        with tempfile.TemporaryDirectory() as room:
            copy = pathlib.Path(shutil.copytree(pathlib.Path(mldsa.__file__).parent, f"{room}/mldsa")) / "_interface.py"
            said = copy.read_text(encoding="utf-8")
            copy.write_text(said.replace(f"VERSION: int = {VERSION:#08x}", f"VERSION: int = {VERSION + 1:#08x}"))
            self.assertNotEqual(copy.read_text(encoding="utf-8"), said)
            done = subprocess.run([*shared.PYTHON, "-c", "import mldsa"], env=dict(os.environ, PYTHONPATH=room),
                                  capture_output=True, text=True, check=False)
        self.assertEqual(done.returncode, 1)
        self.assertIn(f"ImportError: the shared library of mldsa has version {mldsa.__version__}, and not", done.stderr)

    def test_each_call_is_declared(self):
        """With as many arguments as the header has, so that none is passed in 32 bits."""
        for it in exports.exports():
            function = getattr(_library._LIBRARY, it.name)
            self.assertEqual(len(function.argtypes or ()), len(it.parameters), it.name)
            self.assertEqual(function.restype.__name__, "c_uint", it.name)

    def test_lengths(self):
        for number, (public, private, signature) in shared.LENGTHS.items():
            found = _library.SETS[number]
            self.assertEqual((found.public_key, found.private_key, found.signature), (public, private, signature))

    def test_names(self):
        self.assertEqual(sorted(mldsa.__all__), mldsa.__all__)
        for name in mldsa.__all__:
            self.assertTrue(getattr(mldsa, name).__doc__, name)
            if name != "__version__":
                self.assertEqual(getattr(mldsa, name).__module__, "mldsa", name)
        for kind in (*shared.PRIVATE.values(), *shared.PUBLIC.values(), mldsa.PreparedPrivateKey,
                     mldsa.PreparedPublicKey, mldsa.MessageHasher):
            for name in dir(kind):
                if not name.startswith("_"):
                    self.assertTrue(getattr(kind, name).__doc__, f"{kind.__name__}.{name}")
