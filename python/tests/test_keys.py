"""Keys, signatures, and what is rejected."""
import array
import base64
import concurrent.futures
import copy
import ctypes
import dataclasses
import hashlib
import inspect
import io
import mmap
import os
import pathlib
import pickle
import tempfile
import threading
import time
import types
import unittest
from typing import Any
from unittest import mock

from shared import FUNCTIONS, LENGTHS, NUMBERS, PRIVATE, PUBLIC, SEED, random, shake

import mldsa
from mldsa import InvalidSignature, SigningError

KEYS = {number: PRIVATE[number].from_seed_bytes(SEED) for number in NUMBERS}
KEY = KEYS[44]
PUB = KEY.public_key()
SIGNATURE = KEY.sign(b"message", b"context", deterministic=True)
MU = KEY.hasher().mu()
# FIPS 204, Algorithm 2, line 10, and Algorithm 7, line 6.
PUB_MU = shake(shake(PUB.public_bytes_raw(), 64) + b"\0\0message", 64)
DIGEST = hashlib.sha256(b"message").digest()


@dataclasses.dataclass
class Holder:
    """Holds a key, as a program's settings may."""

    held: object


def digest_of(name, message=b"message"):
    """A digest; those of SHAKE have 256 and 512 bits (FIPS 204, section 5.4.1)."""
    if name.startswith("shake"):
        return getattr(hashlib, name)(message).digest({"shake_128": 32, "shake_256": 64}[name])
    return hashlib.new(name, message).digest()


class Signatures(unittest.TestCase):
    """What is signed is accepted, and nothing else."""

    def test_of_each_set(self):
        for number in NUMBERS:
            key = PRIVATE[number].generate()
            public, other = key.public_key(), PRIVATE[number].generate().public_key()
            signature = key.sign(b"message", b"context")
            self.assertEqual([len(public.public_bytes_raw()), len(key.expanded_bytes()), len(signature)],
                             list(LENGTHS[number]))
            self.assertIsNone(public.verify(signature, b"message", b"context"))
            refused = [(public, signature, b"massage", b"context"),
                       (public, signature, b"message", b"contest"),
                       (public, signature, b"message", None),
                       (public, signature[:-1] + bytes([signature[-1] ^ 1]), b"message", b"context"),
                       (other, signature, b"message", b"context"),
                       (public, bytes(len(signature)), b"message", b"context")]
            for judge, *given in refused:
                for verifier in (judge, judge.prepare()):
                    self.assertRaisesRegex(InvalidSignature, "^the signature is invalid$", verifier.verify, *given)

    def test_of_another_set(self):
        for number, (_, _, size) in LENGTHS.items():
            for wrong in (size - 1, size + 1, 0):
                self.assertRaisesRegex(InvalidSignature, f"^the signature has {wrong} bytes, and not {size}$",
                                       KEYS[number].public_key().verify, bytes(wrong), b"message")

    def test_random_bytes_are_drawn(self):
        made = []
        for signer, drawn in ((KEY, bytes(range(32, 64))), (KEY.prepare(), bytes(range(32, 64))), (KEY, bytes(32))):
            with random(drawn):
                made.append(signer.sign(b"message", b"context"))
        self.assertEqual(made[0], made[1])
        self.assertEqual(made[2], SIGNATURE)
        self.assertNotEqual(made[0], SIGNATURE)
        self.assertEqual(len({KEY.sign(b"message") for _ in range(4)}), 4)
        self.assertEqual(len({PRIVATE[44].generate().private_bytes_raw() for _ in range(4)}), 4)
        with mock.patch("secrets.token_bytes", side_effect=AssertionError):
            self.assertEqual(KEY.sign(b"message", b"context", deterministic=True), SIGNATURE)

    def test_contexts(self):
        self.assertEqual(KEY.sign(b"m", deterministic=True), KEY.sign(b"m", b"", deterministic=True))
        longest = bytes(255)
        PUB.verify(KEY.sign(b"m", longest), b"m", longest)
        calls = [lambda it: KEY.sign(b"m", it), lambda it: PUB.verify(SIGNATURE, b"m", it),
                 lambda it: KEY.sign_digest(DIGEST, "sha256", it),
                 lambda it: PUB.verify_digest(SIGNATURE, DIGEST, "sha256", it), KEY.hasher, PUB.hasher,
                 lambda it: KEY.sign_file(io.BytesIO(), it), lambda it: PUB.verify_file(SIGNATURE, io.BytesIO(), it),
                 lambda it: KEY.prepare().sign(b"m", it), lambda it: PUB.prepare().verify(SIGNATURE, b"m", it)]
        for call in calls:
            self.assertRaisesRegex(ValueError, "^the context has 256 bytes, and may have 255 at most$", call,
                                   bytes(256))
            self.assertRaisesRegex(TypeError, "^the context has to be bytes-like, and not str$", call, "context")

    def test_prepared(self):
        for number, key in KEYS.items():
            prepared, public = key.prepare(), key.public_key().prepare()
            plain, fast = ([it.sign(b"m", b"c", deterministic=True), it.sign_mu(MU, deterministic=True),
                            it.sign_digest(DIGEST, "sha256", deterministic=True),
                            it.sign_file(io.BytesIO(b"m"), deterministic=True), it.hasher(b"c").mu()]
                           for it in (key, prepared))
            self.assertEqual([*plain, plain[-1]], [*fast, public.hasher(b"c").mu()])
            public.verify(prepared.sign(b"m", b"c"), b"m", b"c")
            public.verify_mu(prepared.sign_mu(MU), MU)
            public.verify_digest(prepared.sign_digest(DIGEST, "sha256"), DIGEST, "sha256")
            public.verify_file(prepared.sign_file(io.BytesIO(b"m")), io.BytesIO(b"m"))
            for call, *given in ((public.verify, b"m"), (public.verify_mu, MU), (public.verify_file, io.BytesIO(b"m")),
                                 (public.verify_digest, DIGEST, "sha256")):
                self.assertRaises(InvalidSignature, call, bytes(LENGTHS[number][2]), *given)

    def test_answers_are_never_a_yes(self):
        """A status that the library does not give is no acceptance and no signature."""
        for status, text in ((10, "ML-DSA.Sign: too many attempts"), (12, "sampling limit reached"),
                             (11, "the private key is damaged: s1 or s2 is out of range"),
                             (3, "an array has the wrong length"), (1, "no result of this library")):
            with mock.patch.dict(KEY._set.calls, sign=lambda *_, status=status: status):
                self.assertRaisesRegex(SigningError, text, KEY.sign, b"m")
        for status in (1, 3, 11, 12, 14, 256, 1 << 31):
            with mock.patch.dict(PUB._set.calls, verify=lambda *_, status=status: status):
                self.assertRaises(RuntimeError, PUB.verify, SIGNATURE, b"m")


class Digests(unittest.TestCase):
    """HashML-DSA."""

    def test_each_function(self):
        for last, name in enumerate(FUNCTIONS, 1):
            digest = digest_of(name)
            signature = KEY.sign_digest(digest, name, b"context", deterministic=True)
            PUB.verify_digest(signature, digest, name, b"context")
            # The formatted message of FIPS 204, Algorithm 4, and its mu (Algorithm 7, line 6).
            formatted = b"\1" + bytes([7]) + b"context" + bytes([6, 9, 96, 134, 72, 1, 101, 3, 4, 2, last]) + digest
            mu = shake(shake(PUB.public_bytes_raw(), 64) + formatted, 64)
            self.assertEqual(KEY.sign_mu(mu, deterministic=True), signature)
            for given in ((DIGEST, "sha256", b"context"), (digest_of(name, b"massage"), name, b"context"),
                          (digest, name, b"")):
                if given != (digest, name, b"context"):
                    self.assertRaises(InvalidSignature, PUB.verify_digest, signature, *given)
            self.assertRaises(InvalidSignature, PUB.verify, signature, b"message", b"context")
            sentence = f"^the digest of {name} has {len(digest) + 1} bytes, and not {len(digest)}$"
            self.assertRaisesRegex(ValueError, sentence, KEY.sign_digest, digest + b"x", name)

    def test_names(self):
        for name in ("SHA-256", "sha1", "", "SHA256"):
            for call in (lambda it: KEY.sign_digest(DIGEST, it), lambda it: PUB.verify_digest(SIGNATURE, DIGEST, it)):
                self.assertRaisesRegex(ValueError, f"^the hash function '{name}' is none of sha224, ", call, name)
        self.assertRaisesRegex(TypeError, "^the name of the hash function has to be str, and not bytes$",
                               KEY.sign_digest, DIGEST, b"sha256")


class Arguments(unittest.TestCase):
    def test_buffers(self):
        message, wide = b"message" * 8, array.array("Q", bytes(range(64)))
        mapped = mmap.mmap(-1, len(message))
        mapped.write(message)
        kinds = [message, bytearray(message), memoryview(message), memoryview(b"x" + message)[1:], mapped,
                 (ctypes.c_char * len(message)).from_buffer_copy(message), type("Own", (bytes,), {})(message),
                 memoryview(message[::-1])[::-1]]
        wanted = KEY.sign(message, message, deterministic=True)
        for kind in kinds:
            self.assertEqual(KEY.sign(kind, kind, deterministic=True), wanted)
            PUB.verify(bytearray(wanted), kind, kind)
            PUB.verify(memoryview(wanted), kind, kind)
        self.assertEqual(KEY.sign(wide, deterministic=True), KEY.sign(wide.tobytes(), deterministic=True))
        self.assertEqual(PRIVATE[44].from_seed_bytes(bytearray(SEED)).private_bytes_raw(), SEED)
        self.assertEqual(PUBLIC[44].from_public_bytes(memoryview(PUB.public_bytes_raw())), PUB)
        self.assertEqual(PRIVATE[44].from_expanded_bytes(bytearray(KEY.expanded_bytes())).public_key(), PUB)

    def test_types(self):
        calls = {
            "the message": [KEY.sign, lambda it: PUB.verify(SIGNATURE, it), KEY.prepare().sign],
            "the signature": [lambda it: PUB.verify(it, b""), lambda it: PUB.verify_mu(it, MU),
                              lambda it: PUB.prepare().verify(it, b"")],
            "the seed": [PRIVATE[44].from_seed_bytes],
            "the private key": [PRIVATE[65].from_expanded_bytes],
            "the public key": [PUBLIC[87].from_public_bytes],
            "mu": [KEY.sign_mu, lambda it: PUB.verify_mu(SIGNATURE, it)],
            "the digest of sha256": [lambda it: KEY.sign_digest(it, "sha256"),
                                     lambda it: PUB.verify_digest(SIGNATURE, it, "sha256")],
            "the piece": [KEY.hasher().update],
            "the file": [mldsa.load_pem_private_key, mldsa.load_pem_public_key, mldsa.load_der_private_key,
                         mldsa.load_der_public_key],
        }
        for what, those in calls.items():
            for call in those:
                for given in ("text", 7, None, [1], object()):
                    more = ": give the file's contents as .*" if (what, given) == ("the file", "text") else ""
                    sentence = f"^{what} has to be bytes-like, and not {type(given).__name__}{more}$"
                    self.assertRaisesRegex(TypeError, sentence, call, given)

    def test_lengths(self):
        for number, (public, private, signature) in LENGTHS.items():
            for what, right, call, *given in (("the seed", 32, PRIVATE[number].from_seed_bytes),
                                              ("the private key", private, PRIVATE[number].from_expanded_bytes),
                                              ("the public key", public, PUBLIC[number].from_public_bytes),
                                              ("mu", 64, KEYS[number].sign_mu),
                                              ("mu", 64, KEYS[number].public_key().verify_mu, bytes(signature))):
                for wrong in (0, right - 1, right + 1):
                    sentence = f"^{what} has {wrong} bytes, and not {right}$"
                    self.assertRaisesRegex(ValueError, sentence, call, *given, bytes(wrong))

    def test_only_keywords_say_deterministic(self):
        for call in (KEY.sign, KEY.sign_file, KEY.sign_digest, KEY.sign_mu):
            self.assertIs(inspect.signature(call).parameters["deterministic"].kind, inspect.Parameter.KEYWORD_ONLY)


class Keys(unittest.TestCase):
    def test_raw_bytes(self):
        for number, key in KEYS.items():
            self.assertEqual(key.private_bytes_raw(), SEED)
            expanded = PRIVATE[number].from_expanded_bytes(key.expanded_bytes())
            self.assertEqual(expanded.public_key(), key.public_key())
            self.assertEqual(expanded.sign(b"m", deterministic=True), key.sign(b"m", deterministic=True))
            self.assertRaisesRegex(ValueError, "^it has no seed: ", expanded.private_bytes_raw)
            public = key.public_key().public_bytes_raw()
            self.assertEqual(PUBLIC[number].from_public_bytes(public).public_bytes_raw(), public)

    def test_inconsistent_keys(self):
        """A private key begins with rho, K and tr; then come s1 and s2, and at its end t0 (FIPS 204, Algorithm 24)."""
        for number, key in KEYS.items():
            good = key.expanded_bytes()
            changed = [good[:128] + b"\xff" * (len(good) - 128), bytes(len(good)), b"\xff" * len(good)]
            for place in (0, 31, 64, 127, len(good) - 1):
                changed.append(good[:place] + bytes([good[place] ^ 1]) + good[place + 1:])
            for bad in changed:
                self.assertRaisesRegex(ValueError, "^the private key is not consistent$",
                                       PRIVATE[number].from_expanded_bytes, bad)

    def test_equal(self):
        again = PUBLIC[44].from_public_bytes(PUB.public_bytes_raw())
        other = PRIVATE[44].generate().public_key()
        self.assertTrue(PUB == again and hash(PUB) == hash(again) and not PUB != again)
        self.assertTrue(PUB != other and PUB != PUB.public_bytes_raw() and PUB != KEYS[65].public_key())
        self.assertEqual({PUB: 1, other: 2}[again], 1)
        self.assertNotEqual(KEY, PRIVATE[44].from_seed_bytes(SEED))

    def test_fingerprint(self):
        """That of the key of this seed at set 65, as the page of `mlsign` has it, and one by hand."""
        digest = hashlib.sha256(PUB.to_der()).digest()
        self.assertEqual(PUB.fingerprint, "SHA256:" + base64.b64encode(digest).decode()[:-1])

    def test_secrets_are_not_shown(self):
        for number, key in KEYS.items():
            fingerprint = key.public_key().fingerprint
            for shown in (key, key.prepare(), key.hasher(b"context")):
                text = f"{shown!r} {shown} {[shown]}"
                for secret in (SEED, key.expanded_bytes()[32:64], key.expanded_bytes()[128:160]):
                    for spelled in (secret.hex(), repr(secret)[2:-1], str(list(secret))[1:-1]):
                        self.assertNotIn(spelled[:12], text)
                self.assertFalse(hasattr(shown, "__dict__"))
            self.assertEqual(repr(key), f"<MLDSA{number}PrivateKey with the public key {fingerprint}>")
            self.assertEqual(repr(key.public_key()), f"<MLDSA{number}PublicKey {fingerprint}>")

    def test_copies(self):
        for key in (KEY, KEY.prepare(), PUB, PUB.prepare()):
            for copied in (copy.copy(key), copy.deepcopy(key), dataclasses.asdict(Holder(key))["held"]):
                self.assertIs(copied, key)
        calls: Any = (copy.copy, copy.deepcopy)
        for copying in calls:
            hasher = KEY.hasher()
            hasher.update(b"mess")
            copied, before = copying(hasher), hasher.mu()
            copied.update(b"age")
            self.assertEqual((copied.mu(), hasher.mu()), (PUB_MU, before))

    def test_pickles(self):
        for key in (KEY, KEY.prepare(), PUB.prepare(), KEY.hasher()):
            for protocol in range(pickle.HIGHEST_PROTOCOL + 1):
                self.assertRaisesRegex(TypeError, f"^{type(key).__name__} can't be pickled$", pickle.dumps, key,
                                       protocol)
        for protocol in range(pickle.HIGHEST_PROTOCOL + 1):
            pickled = pickle.dumps(PUB, protocol)
            self.assertEqual(pickle.loads(pickled), PUB)
            self.assertNotIn(b"_keys", pickled)

    def test_constructors(self):
        for kind in (*PRIVATE.values(), *PUBLIC.values(), mldsa.PreparedPrivateKey, mldsa.PreparedPublicKey,
                     mldsa.MessageHasher):
            for given in ((), (SEED,), (SEED, SEED)):
                self.assertRaisesRegex(TypeError, "is made by", kind, *given)
            self.assertRaisesRegex(TypeError, "is made by", kind, data=SEED)
        for number, key in KEYS.items():
            self.assertIsInstance(key, mldsa.PrivateKey)
            self.assertIs(type(key.public_key()), PUBLIC[number])

    def test_classes_without_a_set(self):
        for call in (mldsa.PrivateKey.generate, lambda: mldsa.PrivateKey.from_seed_bytes(SEED),
                     lambda: mldsa.PrivateKey.from_expanded_bytes(KEY.expanded_bytes()),
                     lambda: mldsa.PublicKey.from_public_bytes(PUB.public_bytes_raw())):
            self.assertRaisesRegex(TypeError, "may be of any parameter set: take MLDSA65P(rivate|ublic)Key, or", call)


class Pieces(unittest.TestCase):
    def test_mu(self):
        message = bytes(range(256)) * 3
        for number, key in KEYS.items():
            # FIPS 204, Algorithm 2, line 10, and Algorithm 7, line 6.
            wanted = shake(shake(key.public_key().public_bytes_raw(), 64) + b"\0\7context" + message, 64)
            for hashing in (key, key.public_key()):
                for cut in (0, 1, 59, 60, 135, 136, 137, 400, len(message)):
                    hasher = hashing.hasher(b"context")
                    hasher.update(message[:cut])
                    halfway = hasher.copy()
                    hasher.update(message[cut:])
                    self.assertEqual(hasher.mu(), wanted)
                    self.assertEqual(hasher.mu(), wanted)
                    halfway.update(message[cut:])
                    self.assertEqual(halfway.mu(), wanted)
            self.assertEqual(key.sign_mu(wanted, deterministic=True), key.sign(message, b"context", deterministic=True))
            key.public_key().verify_mu(key.sign(message, b"context"), wanted)
            self.assertRaises(InvalidSignature, key.public_key().verify_mu, key.sign(message), wanted)

    def test_files(self):
        message = os.urandom((5 << 19) + 7)
        with tempfile.TemporaryDirectory() as room:
            path = pathlib.Path(room) / "message"
            path.write_bytes(message)
            for number, key in KEYS.items():
                public, wanted = key.public_key(), key.sign(message, b"c", deterministic=True)
                for file in (str(path), path, io.BytesIO(message)):
                    self.assertEqual(key.sign_file(file, b"c", deterministic=True), wanted)
                for file in (str(path), path, io.BytesIO(message)):
                    public.verify_file(wanted, file, b"c")
                self.assertRaises(InvalidSignature, public.verify_file, wanted, path)
                self.assertRaises(InvalidSignature, public.verify_file, wanted, io.BytesIO(message[1:]), b"c")
            with open(path, "rb") as file:
                signature = KEY.sign_file(file)
                for call in (lambda: KEY.sign_file(file), lambda: PUB.verify_file(signature, file)):
                    self.assertRaisesRegex(ValueError, f"^the file stands at byte {len(message)}, and not at", call)
                file.seek(0)
                PUB.verify_file(signature, file)
            for name in (str(path), os.devnull):
                with open(name, encoding="latin-1") as file:
                    self.assertRaisesRegex(TypeError, "^what the file reads has to be bytes-like, and not str$",
                                           KEY.sign_file, file)
            reads = types.SimpleNamespace(read=lambda size: 7)
            self.assertRaisesRegex(TypeError, "^what the file reads has to be bytes-like, and not int$", KEY.sign_file,
                                   reads)
            for wrong in (b"message", 7, None):
                self.assertRaisesRegex(TypeError, "^a file is named by str or os.PathLike, or has read", KEY.sign_file,
                                       wrong)
            self.assertRaises(FileNotFoundError, PUB.verify_file, SIGNATURE, os.path.join(room, "none"))
            reader, writer = os.pipe()
            os.set_blocking(reader, False)
            with open(reader, "rb", buffering=0) as file:
                self.assertRaises(BlockingIOError, KEY.sign_file, file)
            os.close(writer)


class Threads(unittest.TestCase):
    def test_the_lock_is_released(self):
        """While a thread hashes for long, this one goes on."""
        times, hasher, message = [], KEY.hasher(), bytes(64 << 20)

        def hash_it():
            times.append(time.monotonic())
            hasher.update(message)
            times.append(time.monotonic())

        thread, seen = threading.Thread(target=hash_it), []
        thread.start()
        while thread.is_alive():
            time.sleep(0.001)
            seen.append(time.monotonic())
        thread.join()
        self.assertGreater(sum(times[0] < it < times[1] for it in seen), 3)

    def test_keys_and_hashers_are_shared(self):
        shared, alone, piece = KEY.hasher(), KEY.hasher(), bytes(100_000)

        def work(number):
            key = KEYS[NUMBERS[number % 3]]
            for turn in range(20):
                message = bytes([number, turn])
                signature = key.sign(message, deterministic=True)
                key.public_key().verify(signature, message)
                shared.update(piece)
                self.assertRaises(InvalidSignature, key.public_key().verify, signature, message + b"x")

        with concurrent.futures.ThreadPoolExecutor(8) as pool:
            list(pool.map(work, range(8)))
        alone.update(bytes(160 * len(piece)))
        self.assertEqual(shared.mu(), alone.mu())
