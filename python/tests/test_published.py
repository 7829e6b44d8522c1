"""Recorded and published values: the repository's rows, and the published vectors (vectors/README.md)."""
import contextlib
import hashlib
import io
import re
import sys
import unittest
from typing import Any, Callable, Dict

from shared import FUNCTIONS, PRIVATE, PUBLIC, random, sha256

import common
import mldsa
import published
from mldsa import InvalidSignature

NAMES = {f"060960864801650304020{last:x}": name for last, name in enumerate(FUNCTIONS, 1)}
# What a file has of a key: of which classes it is, and what makes a key of its bytes and gives them.
PARTS = {
    "public_key": (PUBLIC, "from_public_bytes", "public_bytes_raw"),
    "private_key": (PRIVATE, "from_expanded_bytes", "expanded_bytes"),
    "seed": (PRIVATE, "from_seed_bytes", "private_bytes_raw"),
}
# How each call of the published cases is made by the package, of a key and what is given besides.
SIGNS: Dict[str, Callable[..., Any]] = {
    "sign": lambda it, message, context: it.sign(message, context),
    "hash_sign": lambda it, digest, context, oid: it.sign_digest(digest, NAMES[oid.hex()], context),
    "sign_mu": lambda it, mu: it.sign_mu(mu),
}
VERIFIES: Dict[str, Callable[..., Any]] = {
    "verify": lambda it, signature, message, context: it.verify(signature, message, context),
    "hash_verify": lambda it, signature, digest, context, oid: it.verify_digest(
        signature, digest, NAMES[oid.hex()], context),
    "verify_mu": lambda it, signature, mu: it.verify_mu(signature, mu),
}


def answer(number, name, key, *arguments):
    """The result of a call of the package, with the plain and with the prepared key."""
    if name == "keygen":
        private = PRIVATE[number].from_seed_bytes(key)
        return private.public_key().public_bytes_raw(), private.expanded_bytes()
    *given, last = arguments
    if name in SIGNS:
        private, made = PRIVATE[number].from_expanded_bytes(key), set()
        for signer in (private, private.prepare()):
            with random(last):
                made.add(SIGNS[name](signer, *given))
        return tuple(made)
    public, verdicts = PUBLIC[number].from_public_bytes(key), set()
    for verifier in (public, public.prepare()):
        try:
            verdicts.add(VERIFIES[name](verifier, last, *given) is None)
        except InvalidSignature:
            verdicts.add(False)
    return verdicts == {True} if len(verdicts) == 1 else verdicts


def in_file(number, part, way, form, given):
    """The file of a part of a key, or the part of a file's key, which has to be of the set."""
    classes, make, bytes_of = PARTS[part]
    if way == "to":
        return (getattr(getattr(classes[number], make)(given), f"to_{form}")(),)
    key = getattr(mldsa, f"load_{form}_{'public' if classes is PUBLIC else 'private'}_key")(given)
    if type(key) is not classes[number]:
        raise AssertionError(f"{key} is not of ML-DSA-{number}")
    return (getattr(key, bytes_of)(),)


def answers(asked):
    """The results of the calls of the published cases; a key or an argument that the package does not take is
    rejected."""
    found = []
    for number, call in asked:
        name, *arguments = published.by_mu(*call)
        file = re.fullmatch(r"(\w+)_(from|to)_(der|pem)", name)
        try:
            if file:
                found.append(in_file(int(number), *file.groups(), *arguments))
            else:
                found.append(answer(int(number), name, *arguments))
        except ValueError as error:
            found.append(published.Refused(str(error)))
    return found


class Published(unittest.TestCase):
    @unittest.skipIf(sys.version_info < (3, 10), "vectors/published.py wants Python 3.10 or later")
    def test_vectors(self):
        chosen, said = published.cases("DER", "PEM"), io.StringIO()
        other = published.with_a_bit_changed(chosen)
        with contextlib.redirect_stdout(said):
            fine = published.judged("Python", chosen, published.outcomes(chosen, answers), other,
                                    published.outcomes(other, answers))
        self.assertTrue(fine, said.getvalue())
        self.assertEqual(len(chosen), 1205 + 2 * 605)

    def test_accumulated(self):
        seeds = hashlib.shake_128(b"").digest(3200)
        for number, wanted in common.ACCUMULATED.items():
            made, kind = hashlib.shake_128(), PRIVATE[int(number)]
            for at in range(0, 3200, 32):
                key = kind.from_seed_bytes(seeds[at:at + 32])
                made.update(key.public_key().public_bytes_raw() + key.sign(b"", deterministic=True))
            self.assertEqual(made.hexdigest(32), wanted)

    def test_recorded_rows(self):
        """75 keys and signatures of the Rust crate fips204, three of them of digests."""
        rows = common.recorded_rows()
        self.assertEqual([len(rows), sum(len(row) == 9 for row in rows)], [75, 3])
        for row in rows:
            number, (seed, drawn, context, message) = int(row[0]), map(bytes.fromhex, row[1:5])
            key = PRIVATE[number].from_seed_bytes(seed)
            front, given = "hash_" if row[8:] else "", (message, context, *map(bytes.fromhex, row[8:]))
            with random(drawn):
                signature = SIGNS[f"{front}sign"](key, *given)
            made = (key.public_key().public_bytes_raw(), key.expanded_bytes(), signature)
            self.assertEqual([sha256(it) for it in made], row[5:8])
            VERIFIES[f"{front}verify"](key.public_key(), signature, *given)
