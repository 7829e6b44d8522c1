"""Each block of code on the page runs as it stands, and its types are right; each public call has an example that does;
and the page has the stack that calls need."""
import doctest
import hashlib
import inspect
import os
import pathlib
import re
import shutil
import subprocess
import tempfile
import unittest

from shared import PYTHON, TOP

import mldsa
from mldsa import _interface, _keys, _serialization

PAGE = (TOP / "python/README.md").read_text(encoding="utf-8")
BLOCKS = re.findall(r"^```python\n(.*?)^```$", PAGE, re.M | re.S)

# Uses of each kind of file and buffer.
TYPES = """
import copy
import io
import pathlib
from mldsa import (Encoding, MLDSA44PublicKey, MLDSA65PrivateKey, NoEncryption, PrivateFormat, PrivateKey, PublicFormat,
                   PublicKey, load_pem_private_key)

key: PrivateKey = load_pem_private_key(bytearray())
public: PublicKey = key.public_key()
narrow: MLDSA44PublicKey = MLDSA44PublicKey.from_public_bytes(memoryview(b""))
with open("file", "rb") as file:
    signature: bytes = MLDSA65PrivateKey.generate().sign_file(file, context=b"context", deterministic=True)
public.verify_file(signature, io.BytesIO())
public.verify_file(signature, pathlib.Path("file"))
public.prepare().verify_file(signature, "file")
narrow.verify(bytearray(), memoryview(b""))
file_of_key: bytes = key.private_bytes(Encoding.PEM, PrivateFormat.PKCS8, NoEncryption())
file_of_key = public.public_bytes(Encoding.DER, PublicFormat.SubjectPublicKeyInfo)
key = load_pem_private_key(file_of_key, None)
copied: MLDSA44PublicKey = copy.copy(narrow)
"""


# The classes and functions of the module of keys, by whichever name they are shown.
OWN = [it for it in vars(_keys).values() if getattr(it, "__module__", "") in ("mldsa", _keys.__name__) and callable(it)]


class Page(unittest.TestCase):
    def test_blocks(self):
        self.assertGreaterEqual(len(BLOCKS), 3)
        for number, block in enumerate(BLOCKS):
            with self.subTest(number=number), tempfile.TemporaryDirectory() as room:
                def run(block=block, room=room):
                    return subprocess.run([*PYTHON, "-c", block], cwd=room, capture_output=True, text=True, check=False)

                done = run()
                self.assertEqual((done.returncode, done.stderr), (0, ""))
                if number == 0:
                    self.assertEqual(done.stdout, "the signature is valid\nthe signature is invalid\n")
                if "O_EXCL" in block:
                    self.assertIn("FileExistsError", run().stderr)
                    self.assertIn("`FileExistsError`", PAGE)

    def test_types(self):
        mypy = os.environ.get("MLDSA_MYPY") or shutil.which("mypy")
        if not mypy:
            self.skipTest("there is no mypy")
        with tempfile.TemporaryDirectory() as room:
            wrong = [f"from mldsa import MLDSA65PrivateKey\nMLDSA65PrivateKey{it}\n"
                     for it in (".generate().sign('text')", ".generate().to_pem('sed')", "(bytes(32))",
                                ".generate().public_key().public_bytes('PEM', 'Raw')")]
            for number, block in enumerate([*BLOCKS, TYPES, *wrong]):
                file = pathlib.Path(room) / f"block{number}.py"
                file.write_text(block, encoding="utf-8")
                environment = {"PATH": "/usr/bin:/bin", "MYPYPATH": str(pathlib.Path(mldsa.__file__).parent.parent),
                               "HOME": room}
                done = subprocess.run([mypy, "--strict", file.name], cwd=room, env=environment, capture_output=True,
                                      text=True, check=False)
                self.assertEqual(done.returncode, int(block in wrong), done.stdout)

    def test_stack(self):
        most = max(value for name, value in _interface.NUMBERS.items() if "_STACK_" in name)
        self.assertIn(f"needs up to {-(-most // 1024)} KiB of stack", " ".join(PAGE.split()))


class Docstrings(unittest.TestCase):
    def test_examples(self):
        key = mldsa.MLDSA65PrivateKey.generate()
        names = {"hashlib": hashlib, "key": key, "public": key.public_key()}
        names["signature"] = key.sign(b"a message", b"a context")
        said, runner = [], doctest.DocTestRunner(verbose=False)
        with tempfile.TemporaryDirectory() as room:
            self.addCleanup(os.chdir, os.getcwd())
            os.chdir(room)
            pathlib.Path("notes").write_bytes(b"a message")
            for test in doctest.DocTestFinder(recurse=False).find(mldsa, extraglobs=names):
                runner.run(test, out=said.append)
            for own in OWN:
                for test in doctest.DocTestFinder().find(own, module=False, globs={**vars(_keys), **names}):
                    runner.run(test, out=said.append)
        self.assertEqual(runner.failures, 0, "".join(said))
        sources = map(inspect.getsource, (mldsa, _keys, _serialization))
        self.assertEqual(runner.tries, sum(it.count(">>> ") for it in sources))

    def test_each(self):
        kinds = (_keys.MessageHasher, _keys._Key, _keys._Signer, _keys._Verifier, _keys.PublicKey, _keys.PrivateKey)
        calls = {f"{it.__name__}.{name}": call for it in kinds for name, call in vars(it).items() if name[0] != "_"}
        calls.update({name: call for name, call in vars(_keys).items() if name.startswith("load_")})
        self.assertGreater(len(calls), 30)
        without = [name for name, call in calls.items() if ">>>" not in getattr(call, "__func__", call).__doc__]
        self.assertEqual(without, [])
