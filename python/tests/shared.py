"""What the tests share: the parameter sets, and recorded values of the repository."""
import contextlib
import hashlib
import os
import pathlib
import shlex
import sys
from unittest import mock

TOP = pathlib.Path(__file__).resolve().parent.parent.parent
sys.dont_write_bytecode = True
sys.path[:0] = [str(TOP / name) for name in ("scripts", "vectors", "c")]

import common
import mldsa

NUMBERS = (44, 65, 87)
PRIVATE = {number: getattr(mldsa, f"MLDSA{number}PrivateKey") for number in NUMBERS}
PUBLIC = {number: getattr(mldsa, f"MLDSA{number}PublicKey") for number in NUMBERS}
LENGTHS = {number: common.LENGTHS[str(number)] for number in NUMBERS}
SEED = bytes(range(32))
# How hashlib calls the hash functions of FIPS 204, section 5.4, whose object identifiers are 2.16.840.1.101.3.4.2.1 to
# .12.
FUNCTIONS = ("sha256", "sha384", "sha512", "sha224", "sha512_224", "sha512_256", "sha3_224", "sha3_256", "sha3_384",
             "sha3_512", "shake_128", "shake_256")
# The words that start this interpreter, which an emulator may run.
PYTHON = shlex.split(os.environ.get("MLDSA_PYTHON", sys.executable))
# A program `mlsign`, if there is one.
MLSIGN = os.environ.get("MLDSA_MLSIGN", str(TOP / "crates/mlsign/out/mlsign"))


def sha256(given):
    return hashlib.sha256(given).hexdigest()


def shake(given, length):
    return hashlib.shake_256(given).digest(length)


@contextlib.contextmanager
def random(given):
    """Has the system draw these bytes, which a signature has to ask for."""
    with mock.patch("secrets.token_bytes", return_value=given) as drawn:
        yield
    drawn.assert_called_once_with(len(given))
