"""Beside OpenSSL, through Python's `cryptography`, and its command."""
import inspect
import random
import unittest
from typing import Any

from shared import NUMBERS, PRIVATE, PUBLIC

import mldsa
import openssl

try:
    from cryptography.exceptions import InvalidSignature
    from cryptography.hazmat.primitives import serialization
    from cryptography.hazmat.primitives.asymmetric import mldsa as theirs

    MISSING = None
except ImportError as error:
    MISSING = f"{error}: Python's cryptography with ML-DSA, 48 or later"


@unittest.skipIf(MISSING, MISSING)
class BesideOpenssl(unittest.TestCase):
    """Keys, signatures and files both ways."""

    def setUp(self):
        self.draw = random.Random(85)

    def bytes(self, most):
        return bytes(self.draw.randrange(256) for _ in range(self.draw.randrange(most + 1)))

    def both(self, number):
        seed = bytes(self.draw.randrange(256) for _ in range(32))
        return PRIVATE[number].from_seed_bytes(seed), getattr(theirs, f"MLDSA{number}PrivateKey").from_seed_bytes(seed)

    def test_signatures(self):
        for number in NUMBERS:
            for _ in range(40):
                (ours, other), context, message = self.both(number), self.bytes(255), self.bytes(400)
                self.assertEqual(ours.public_key().public_bytes_raw(), other.public_key().public_bytes_raw())
                mine, yours = ours.sign(message, context), other.sign(message, context)
                other.public_key().verify(mine, message, context)
                ours.public_key().verify(yours, message, context)
                ours.public_key().prepare().verify(yours, message, context)
                with self.assertRaises(mldsa.InvalidSignature):
                    ours.public_key().verify(yours, message + b"x", context)
                with self.assertRaises(InvalidSignature):
                    other.public_key().verify(mine, message + b"x", context)

    def test_files(self):
        none, kinds = serialization.NoEncryption(), serialization.PrivateFormat.PKCS8
        for number in NUMBERS:
            for form in ("pem", "der"):
                ours, other = self.both(number)
                private, public = (getattr(it, f"to_{form}")() for it in (ours, ours.public_key()))
                encoding = getattr(serialization.Encoding, form.upper())
                info = serialization.PublicFormat.SubjectPublicKeyInfo
                self.assertEqual(other.private_bytes(encoding, kinds, none), private)
                self.assertEqual(other.public_key().public_bytes(encoding, info), public)
                there = getattr(serialization, f"load_{form}_private_key")(private, None)
                self.assertEqual(there.private_bytes_raw(), ours.private_bytes_raw())
                there = getattr(serialization, f"load_{form}_public_key")(public)
                self.assertEqual(there.public_bytes_raw(), ours.public_key().public_bytes_raw())
                here = getattr(mldsa, f"load_{form}_private_key")(private)
                self.assertEqual(here.private_bytes_raw(), other.private_bytes_raw())
                self.assertEqual(getattr(mldsa, f"load_{form}_public_key")(public), ours.public_key())

    def test_encrypted_files_are_refused(self):
        _, other = self.both(44)
        secret = serialization.BestAvailableEncryption(b"word")
        for form in ("pem", "der"):
            encoding = getattr(serialization.Encoding, form.upper())
            file = other.private_bytes(encoding, serialization.PrivateFormat.PKCS8, secret)
            with self.assertRaisesRegex(mldsa.KeyFileError, "^it is encrypted, "):
                getattr(mldsa, f"load_{form}_private_key")(file)

    def test_encodings_and_formats(self):
        """What is written here is written there with members of the same names, with the same bytes."""
        for number in NUMBERS:
            ours, other = self.both(number)
            calls: Any = ((ours.private_bytes, other.private_bytes, "PrivateFormat", ["NoEncryption"]),
                          (ours.public_key().public_bytes, other.public_key().public_bytes, "PublicFormat", []))
            for here, there, kind, none in calls:
                for encoding in mldsa.Encoding:
                    for format_ in getattr(mldsa, kind):
                        given, same = ([getattr(module.Encoding, encoding.name),
                                        getattr(getattr(module, kind), format_.name),
                                        *(getattr(module, name)() for name in none)]
                                       for module in (mldsa, serialization))
                        try:
                            wanted = there(*same)
                        except (TypeError, ValueError):
                            self.assertRaises(ValueError, here, *given)
                        else:
                            self.assertEqual(here(*given), wanted)

    def test_the_same_loaders(self):
        """A call that is right there is right here, except with an argument that is about RSA."""
        for form in ("pem", "der"):
            for kind in ("private", "public"):
                name, about_rsa = f"load_{form}_{kind}_key", {"unsafe_skip_rsa_key_validation"}
                here, there = (list(inspect.signature(getattr(module, name)).parameters)
                               for module in (mldsa, serialization))
                self.assertEqual(here, [it for it in there if it not in about_rsa])
            _, other = self.both(65)
            file = other.private_bytes(getattr(serialization.Encoding, form.upper()), serialization.PrivateFormat.PKCS8,
                                       serialization.NoEncryption())
            for module in (mldsa, serialization):
                load = getattr(module, f"load_{form}_private_key")
                load(file, None)
                self.assertRaises(TypeError, load, file, b"word")
                self.assertRaises(TypeError, load, file.decode("latin-1"), None)

    def test_the_same_names(self):
        """What the classes there offer is here by the same name."""
        for number in NUMBERS:
            for kind, here in (
                (f"MLDSA{number}PrivateKey", PRIVATE[number]),
                (f"MLDSA{number}PublicKey", PUBLIC[number]),
            ):
                names = {it for it in vars(getattr(theirs, kind)) if not it.startswith("_")} - {"register"}
                self.assertEqual({it for it in names if not hasattr(here, it)}, set())


@unittest.skipUnless(openssl.command(), openssl.MISSING)
class BesideTheCommand(unittest.TestCase):
    """Keys in files in each form, read and written by the command of OpenSSL."""

    def test_files(self):
        words = openssl.command()
        for number in NUMBERS:
            key = PRIVATE[number].generate()
            public = key.public_key()
            for form in ("DER", "PEM"):
                files = {parts: getattr(key, f"to_{form.lower()}")(parts) for parts in openssl.FORMATS}
                files["public"] = getattr(public, f"to_{form.lower()}")()
                for parts, file in files.items():
                    self.assertIsNone(openssl.wrong(words, parts, form, file, public.to_der()))
            other = PRIVATE[number].generate().public_key().to_der()
            self.assertIsNotNone(openssl.wrong(words, "seed", "DER", key.to_der(), other))
