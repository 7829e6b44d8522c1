"""What strangers give, by hypothesis: damaged keys in files, signatures, messages in pieces; each answer is held by a
second road to it. A test begins with what is published (vectors/corpus.py) and the simple changes of that. FUZZ_SECONDS
is how long each goes on, FUZZ_SEED the seed of the first run, which is printed."""
import base64
import contextlib
import os
import random
import sys
import time
import unittest
from typing import Any

from shared import LENGTHS, NUMBERS, PRIVATE, PUBLIC, SEED, shake

import corpus
import mldsa

# Debian's, which other interpreters do not look for.
sys.path.append("/usr/lib/python3/dist-packages")
try:
    import hypothesis
    from hypothesis import strategies
except ImportError:
    hypothesis = None
finally:
    sys.path.pop()

KEYS = {number: PRIVATE[number].from_seed_bytes(SEED) for number in NUMBERS}
SECONDS = float(os.environ.get("FUZZ_SECONDS", "1"))
FIRST = int(os.environ.get("FUZZ_SEED") or random.randrange(1 << 32))
# What is planted in a file.
PLANTED = (b"\n", b"\r\n", b" ", b"-", b"=", b"A", b"\0", b"\xff", b"text\n", b"\x30\x82", b"-----BEGIN ",
           b"-----BEGIN PUBLIC KEY-----\n", b"-----END PUBLIC KEY-----\n")


def changes(data, first):
    """Bytes as they are, and with each of the simple changes: a byte less or more at an end, and a bit of one of the
    first bytes, of one in the middle, or of the last."""
    yield from (data, data[:-1], data[1:], data + b"\0")
    for at in (*range(first), len(data) // 2, len(data) - 1):
        if 0 <= at < len(data):
            yield data[:at] + bytes([data[at] ^ 1]) + data[at + 1:]


@contextlib.contextmanager
def watched(of):
    """Says of what it was that something was found."""
    try:
        yield
    except BaseException:
        print(f"found by {of}", flush=True)
        raise


def damaged(data, edits):
    """Bytes with changes: at a place so many bytes are replaced by others."""
    for place, count, by in edits:
        at = place % (len(data) + 1) if place >= 0 else max(len(data) + place, 0)
        data = data[:at] + by + data[at + count:]
    return data


def text(private, der):
    """A file in PEM, of one line."""
    label = b"PRIVATE KEY-----\n" if private else b"PUBLIC KEY-----\n"
    return b"-----BEGIN " + label + base64.b64encode(der) + b"\n-----END " + label


def files(private):
    """The DER of keys of each set, in each of its forms."""
    for key in KEYS.values():
        if private:
            yield from (key.to_der(parts) for parts in ("seed", "expanded", "both"))
        else:
            yield key.public_key().to_der()


def written(key):
    """The DER of a key in each form that it has."""
    for words in (("seed",), ("expanded",), ("both",)) if isinstance(key, mldsa.PrivateKey) else ((),):
        with contextlib.suppress(ValueError):
            yield key.to_der(*words)


@unittest.skipUnless(hypothesis, "there is no hypothesis (apt-get install python3-hypothesis): what strangers give")
class Strangers(unittest.TestCase):
    published: list
    edits: Any

    @classmethod
    def setUpClass(cls):
        # (also where a fault ends the interpreter)
        print(f"{cls.__name__}: FUZZ_SEED={FIRST}", flush=True)
        cls.published = list(corpus.chosen())
        places = strategies.integers(-70, 70) | strategies.integers(0, 1 << 14)
        more = strategies.sampled_from(PLANTED) | strategies.binary(max_size=4)
        cls.edits = strategies.lists(strategies.tuples(places, strategies.integers(0, 4), more), max_size=3)

    def holds(self, check, *given):
        """Runs a check with one seed after another, until the time is up."""
        end, number = time.monotonic() + SECONDS, FIRST
        settings = hypothesis.settings(max_examples=50, deadline=None, database=None, print_blob=True)
        while number == FIRST or time.monotonic() < end:
            with watched(f"FUZZ_SEED={number}"):
                hypothesis.seed(number)(settings(hypothesis.given(*given)(check)))()
            number += 1

    def read(self, private, pem):
        """A file that is read gives the key of what is written of it; every other one is a KeyFileError."""
        form, kind = "pem" if pem else "der", "private" if private else "public"
        read = getattr(mldsa, f"load_{form}_{kind}_key")

        def is_read(data):
            try:
                key = read(data)
            except mldsa.KeyFileError:
                return False
            if pem:
                begin = data.index(b"-----BEGIN ")
                data = data[begin:data.index(b"-----END ", begin)].split(b"-----")[2]
                data = base64.b64decode(data.translate(None, b" \t\n\r\f"), validate=True)
            self.assertTrue(data in written(key), f"nothing that is written of {key} is {data.hex()}")
            return True

        given = [text(private, it) if pem else it for it in files(private)]
        for of, case, data in self.published:
            if of == form and private is not case.do.startswith("public"):
                given.append(data)
                with watched(case):
                    self.assertEqual(is_read(data), case.published["file_sha256"] is not None)
                    for other in changes(data, 40):
                        is_read(other)
        self.assertGreater(len(given), 40)

        def check(data, edits):
            is_read(damaged(data, edits))

        self.holds(check, strategies.sampled_from(given), self.edits)

    def test_files(self):
        for private in (False, True):
            for pem in (False, True):
                with self.subTest(private=private, pem=pem):
                    self.read(private, pem)

    def is_accepted(self, number, key, signature, message, context, cut=0):
        """Whether a public key accepts a signature. A prepared one and mu, of a message in two pieces, say the same; a
        key or a signature of another length is none."""
        try:
            public = PUBLIC[number].from_public_bytes(key)
        except ValueError:
            self.assertNotEqual(len(key), LENGTHS[number][0])
            return False
        self.assertEqual(public.public_bytes_raw(), key)

        def in_pieces():
            hasher = public.hasher(context)
            hasher.update(message[:cut])
            hasher.update(message[cut:])
            public.verify_mu(signature, hasher.mu())

        verdicts = []
        for verify in (lambda: public.verify(signature, message, context), in_pieces,
                       lambda: public.prepare().verify(signature, message, context)):
            try:
                verify()
                verdicts.append(True)
            except (mldsa.InvalidSignature, ValueError):
                verdicts.append(False)
        self.assertIn(verdicts, ([True] * 3, [False] * 3))
        return verdicts[0]

    def signed(self, number, key, message, context, cut=0):
        """A public key, and what its private key signs. A prepared one and mu, of a message in two pieces, sign the
        same, and that is accepted."""
        signature, public = key.sign(message, context, deterministic=True), key.public_key().public_bytes_raw()
        self.assertEqual(key.prepare().sign(message, context, deterministic=True), signature)
        mu = shake(shake(public, 64) + bytes([0, len(context)]) + context + message, 64)
        hasher = key.hasher(context)
        hasher.update(message[:cut])
        hasher.update(message[cut:])
        self.assertEqual(hasher.mu(), mu)
        self.assertEqual(key.sign_mu(mu, deterministic=True), signature)
        self.assertTrue(self.is_accepted(number, public, signature, message, context, cut))
        return public, signature

    def test_signatures(self):
        """A signature is accepted if no bit of it was changed. Keys that are published sign too, and those that are not
        consistent are a ValueError."""
        keys = list(KEYS.items())
        for kind, case, data in self.published:
            g, number = case.given, int(case.set)
            is_raw = kind == "keys" and "private_key" in g
            if not is_raw and (kind, data[1:3]) != ("prepared", b"\1\0"):
                continue
            with watched(case):
                make = PRIVATE[number].from_expanded_bytes if is_raw else PRIVATE[number].from_seed_bytes
                for place, given in enumerate(changes(g["private_key"], 8) if is_raw else [g["seed"]]):
                    try:
                        key = make(given)
                    except ValueError:
                        self.assertTrue(place or case.is_refusal)
                        continue
                    self.signed(number, key, g.get("message", b""), g.get("context", b"")[:255])
                    keys.append((number, key))
        self.assertGreater(len(keys), 40)

        def check(pair, message, context, bit, cut):
            number, key = pair
            public, signature = self.signed(number, key, message, context, cut)
            place, mask = bit // 8 % len(signature), 1 << bit % 8
            changed = bytearray(signature)
            changed[place] ^= mask
            for other in bytes(changed), signature[:place]:
                self.assertFalse(self.is_accepted(number, public, other, message, context, cut))

        self.holds(check, strategies.sampled_from(keys), strategies.binary(max_size=500),
                   strategies.binary(max_size=255), strategies.integers(0, 1 << 16), strategies.integers(0, 500))

    def test_published(self):
        """A published signature is accepted if that was published, and not if it or its key was changed."""
        def check(signed, key, signature, cut=0):
            number, was, (message, context), is_valid = signed
            found = self.is_accepted(number, key, signature, message, context, cut)
            # (a change may mend the others)
            if is_valid or (key, signature) == was:
                self.assertEqual(found, (key, signature) == was and is_valid)

        given = []
        for kind, case, _ in self.published:
            g = case.given
            if kind == "keys" and "signature" in g:
                is_valid = case.do == "verify" and case.published["accepted"]
                key, signature = g["public_key"], g["signature"]
                given.append((int(case.set), (key, signature), (g["message"], g.get("context", b"")), is_valid))
                with watched(case):
                    for other in changes(key, 8):
                        check(given[-1], other, signature)
                    for other in changes(signature, 8):
                        check(given[-1], key, other)
        self.assertTrue(any(is_valid for *_, is_valid in given))

        def drawn(signed, of_key, of_signature, cut):
            key, signature = signed[1]
            check(signed, damaged(key, of_key), damaged(signature, of_signature), cut)

        self.holds(drawn, strategies.sampled_from(given), self.edits, self.edits, strategies.integers(0, 500))

    def test_any_bytes(self):
        """Bytes of any length are keys and signatures, or a ValueError."""
        def check(number, key, signature, message):
            sizes = LENGTHS[number][0], LENGTHS[number][2]
            key, signature = ((it * (size // max(len(it), 1) + 1))[:size] if fits else it
                              for (it, fits), size in zip((key, signature), sizes))
            self.assertFalse(self.is_accepted(number, key, signature, message, b""))

        some = strategies.tuples(strategies.binary(max_size=64), strategies.booleans())
        self.holds(check, strategies.sampled_from(NUMBERS), some, some, strategies.binary(max_size=64))
