"""Malformed files of keys, and devices that fail: never a wrong result, never a crash, always a sentence.

The files are the recorded keys at ML-DSA-44: a public one, and a private one in each of its three forms. Of each text:
one byte changed, at each place; each cut; white space put in at each place; a byte more at the end or before the
beginning. Those that are the same text in the lax form of RFC 7468, as a model here says, have to be read. Of its DER:
each byte of what frames the key, at each of its 255 other values, which are also the ends of every length; and each
cut. `verify` has to end such a public key with status 1 or 2, and `public` a private key with status 2, or with the
public key of another seed. An expanded key says nothing of its bytes 32 to 63, the key for signing's random bytes (FIPS
204, Algorithm 24), so there it may give the same public key. One file in 40 is tried, by a draw that is always the
same; with `--all` each.
"""
import os
import random
import resource
import shutil
import signal
import tempfile

from commands import Program, valid
from keyfiles import der_of, pem, recorded
from room import both, house


def strict(label, text):
    """The text, in the strict form of RFC 7468, that a text is read as in the lax one: as man/mlsign.1.md says."""
    first, last = f"-----BEGIN {label}-----".encode(), f"-----END {label}-----".encode()
    start = text.find(b"-----BEGIN ")
    if start < 0 or not text.startswith(first, start):
        return text
    body, dash, closing = text[start + len(first):].partition(b"-")
    closing = dash + closing
    if closing.startswith(last):
        again = closing.find(b"-----BEGIN ", len(last))
        closing = last + b"\n" + (closing[again:] if again >= 0 else b"")
    symbols = b"".join(body.replace(b"\x0b", b"*").split())
    return first + b"\n" + b"".join(symbols[at:at + 64] + b"\n" for at in range(0, len(symbols), 64)) + closing


def malformed(draw, label, text, key_bytes):
    """Changed files of a text, each with what was changed; `key_bytes` are those of its DER that are the key."""
    for at in range(len(text)):
        changed = bytearray(text)
        changed[at] ^= draw.randrange(1, 256)
        yield f"byte {at} of the text changed", bytes(changed)
        yield f"the text cut at {at}", text[:at]
        for white in (b" ", b"\t", b"\n", b"\r", b"\f", b"\x0b"):
            yield f"{white!r} put into the text at {at}", text[:at] + white + text[at:]
    for more in (b"\n", b"\0", b"A", text):
        yield f"{more[:1]!r} behind the end", text + more
        yield f"{more[:1]!r} before the beginning", more + text
    der = der_of(text)
    for at in range(len(der)):
        yield f"the DER cut at {at}", pem(label, der[:at])
        for value in range(256) if not any(at in it for it in key_bytes) else ():
            if value != der[at]:
                yield f"byte {at} of the DER made {value}", pem(label, der[:at] + bytes([value]) + der[at + 1:])
    for more in (b"\0", der):
        yield "more behind the DER", pem(label, der + more)


def unprivileged():
    """What a run does first to have no rights of its own: nothing, if it has none."""
    if os.geteuid() == 0:
        os.setgid(65534)
        os.setuid(65534)


def no_growth():
    signal.signal(signal.SIGXFSZ, signal.SIG_IGN)
    resource.setrlimit(resource.RLIMIT_FSIZE, (16, 16))


class Malformed(Program):
    one_in = 40
    public, seed = recorded("public-44.pem"), recorded("private-44.pem")

    def judge(self, words, label, text, key_bytes, unseen=range(0)):
        """Tries malformed files of a key. Of a private one the right public key is wrong, if more than bytes that are
        unseen has changed."""
        draw, right, tried = random.Random(1), der_of(text), 0
        self.fill({"message": b"message", "signature": recorded("signature-44")})
        wanted = self.done(words.format("/dev/stdin"), read=text)
        for wrong, changed in malformed(draw, label, text, key_bytes):
            if draw.randrange(self.one_in):
                continue
            tried += 1
            self.put("key", changed, 0o600)
            status, wrote, said = self.call(words.format("key"))
            what = f"{wrong}: status {status}, wrote {wrote[:80]!r}, said {said!r}"
            if strict(label, changed) == text:
                self.same(what, (status, wrote, said), (0, wanted, ""))
            elif status:
                self.assertTrue(status in (1, 2) and not wrote and said.count("\n") == 1 and len(said) > 20, what)
                self.assertTrue(said.startswith("mlsign: ") and said[:-1].isprintable(), what)
            else:
                der = der_of(changed)
                seen = [at for at, (a, b) in enumerate(zip(der, right)) if a != b and at not in unseen]
                self.assertTrue("public" in words and len(der) == len(right) and (wrote != wanted or not seen), what)
            self.same(what, sorted(os.listdir(self.room)), ["key", "message", "signature"])
        self.outcome = f"{tried} files"

    def test_public_key(self):
        """malformed files of a public key"""
        size = len(der_of(self.public))
        words = "verify -p {} -c context -s signature message"
        self.judge(words, "PUBLIC KEY", self.public, [range(size - 1312, size)])

    def test_private_keys(self):
        """malformed files of a private key, in its three forms"""
        expanded = recorded("expanded-44.pem")
        for name, text in (("a seed", self.seed), ("an expanded key", expanded), ("both", both("44"))):
            size, key = len(der_of(text)), 32 if text == self.seed else 2560
            seed = [range(size - key - 36, size - key - 4)] if name == "both" else []
            unseen = range(size - key + 32, size - key + 64) if text == expanded else range(0)
            with self.subTest(part=f"malformed files of {name}"):
                self.judge("public -k {} -p -", "PRIVATE KEY", text, [range(size - key, size), *seed], unseen)

    def test_devices(self):
        """a full standard output, files that may not grow, no rights, and rights withheld"""
        self.fill(house("44"))
        with open("/dev/full", "wb") as full:
            for words in ("show public", "verify -p public -c context -s signature message", "--help", "--version"):
                self.fails(words, said="standard output: No space left", stdout=full)
        keygen = ("keygen -k new -p new.pub", "keygen -f -k private -p public")
        for words in (*keygen, "public -f -k private -p public", "sign -k private -o signature message"):
            self.fails(words, said="File too large", preexec_fn=no_growth)
        os.chmod(self.room, 0o755)
        # (the repository may lie where only its owner may enter)
        with tempfile.TemporaryDirectory() as folder:
            os.chmod(folder, 0o755)
            self.program = shutil.copy(self.program, folder)
            self.without_rights(keygen)
        del self.program
        for umask in (0, 0o777):
            self.silent(f"keygen -k made-{umask} -p made-{umask}.pub", umask=umask)
            self.same(umask, os.stat(self.path(f"made-{umask}")).st_mode & 0o777 & ~0o600, 0)

    def without_rights(self, keygen):
        for words in ("show private", "sign -k private -o new message", *keygen):
            self.fails(words, said="ermission denied", preexec_fn=unprivileged)
        self.same("without rights", self.call("verify -p public -c context -s signature message",
                                              preexec_fn=unprivileged), (0, valid(self.public), ""))
