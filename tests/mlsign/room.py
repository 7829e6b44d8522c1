"""Runs of the program `mlsign` in a folder of files, as tests make them."""
import contextlib
import os
import pathlib
import re
import stat
import subprocess
import tempfile
import unittest

from common import LENGTHS, SETS, command
from keyfiles import der_of, pem, private_text, recorded

HERE = pathlib.Path(__file__).resolve().parent

# Where a run waits for another, seconds; much longer than one takes.
PATIENCE = 60
# The end of a name that a run gives to a file of its own.
LEFT = re.compile(r"\.[0-9a-f]{16}\.(new|old)$")


def expanded_key(number):
    """The bytes of the recorded expanded key."""
    return der_of(recorded(f"expanded-{number}.pem"))[-LENGTHS[number][1]:]


def both(number, seed=bytes(range(32))):
    """The text of a private key with this seed and the recorded expanded key, which is of the seed 00 01 .. 1F."""
    return private_text(number, expanded_key(number), seed)


def house(number):
    """The files that the calls of `refused` find, by their names: a pair of keys in each form, what it signed, and what
    is no such key."""
    private, public = recorded(f"private-{number}.pem"), recorded(f"public-{number}.pem")
    other, ed25519 = recorded(f"signature-{SETS[SETS.index(number) - 1]}"), bytes.fromhex("302a300506032b6570032100")
    rsa, key = pem("RSA PRIVATE KEY", b"key"), expanded_key(number)
    # (the hash of the public key in it is wrong, and nothing else)
    wrong = key[:64] + bytes(64) + key[128:]
    files = {
        "private": private, "private-expanded": recorded(f"expanded-{number}.pem"), "private-both": both(number),
        "private-other": both(number, bytes(range(1, 33))), "private-wrong": private_text(number, wrong),
        "private-wrong.raw": wrong, "public": public, "message": b"message", "other": b"other",
        "signature": recorded(f"signature-{number}"), "signature.other": other, "empty": b"", "text": b"text\n",
        "private.raw": key, "public.raw": der_of(public)[22:], "seed": bytes(32), "long": bytes(2420),
        "kept": b"kept", "kept.sig": b"no signature", "fixed": recorded(f"signature-{number}"), "public.fixed": public,
        "private-fixed": private, "encrypted": rsa.replace(b"RSA", b"ENCRYPTED"), "rsa": rsa,
        "ssh": rsa.replace(b"RSA", b"OPENSSH"), "certificate": pem("CERTIFICATE", b"key") + private,
        "spki": pem("PUBLIC KEY", ed25519 + bytes(32)), "both": public + private,
        "dash": private.replace(b"\n", b"\n-", 1), "late": b"a" + private[5:],
        "large": bytes(20000)}
    return files | {f"{name}.der": der_of(files[name]) for name in (
        "private", "private-expanded", "private-other", "public")}


class Room(unittest.TestCase):
    """A folder of files, and runs of the program in it. A word of a run may be several with blanks between; environment
    variables are for the library before the C library (calls.c)."""

    program: str
    library: str
    of_crates = False
    runs = 0

    @classmethod
    @contextlib.contextmanager
    def of(cls, program, of_crates):
        """The tests run this program, which may be made of the crates of crates.io."""
        with tempfile.TemporaryDirectory() as room:
            Room.program, Room.library, Room.of_crates = os.path.abspath(program), f"{room}/calls.so", of_crates
            words = ["-O1", "-shared", "-fPIC", "-o", Room.library, HERE / "calls.c", "-ldl"]
            command(os.environ.get("CC", "cc"), *words)
            yield

    def setUp(self):
        room = tempfile.TemporaryDirectory()
        self.addCleanup(room.cleanup)
        self.room = room.name

    def path(self, name):
        return pathlib.Path(self.room, name)

    def put(self, name, bytes_, mode=0o644):
        self.path(name).write_bytes(bytes_)
        self.path(name).chmod(mode)

    def read(self, name):
        return self.path(name).read_bytes()

    def files(self):
        """The bytes and rights of each regular file, by its name."""
        files = [file for file in pathlib.Path(self.room).iterdir() if file.is_file()]
        return {file.name: (file.read_bytes(), stat.S_IMODE(file.stat().st_mode)) for file in files}

    def fill(self, files):
        """Makes the folder hold these files alone, private ones with their rights."""
        for name in os.listdir(self.room):
            os.remove(self.path(name))
        for name, bytes_ in files.items():
            self.put(name, bytes_, 0o600 if name.startswith("private") else 0o644)

    def same_files(self, what, found, wanted):
        """Two folders are the same, or it says which files differ."""
        differing = sorted(name for name in {*found, *wanted} if found.get(name) != wanted.get(name))
        self.assertEqual(differing, [], f"{what}: the files that differ")

    def start(self, *words, cwd=None, stdin=subprocess.PIPE, stdout=subprocess.PIPE, umask=0o022, preexec_fn=None,
              **environment):
        """A run that goes on."""
        Room.runs += 1
        split = [part for word in words for part in (word.split(" ") if isinstance(word, str) else [word])]
        if environment:
            environment.update(LD_PRELOAD=self.library, ASAN_OPTIONS="verify_asan_link_order=0")
        return subprocess.Popen([self.program, *split], cwd=cwd or self.room, umask=umask, env=environment, stdin=stdin,
                                stdout=stdout, stderr=subprocess.PIPE, preexec_fn=preexec_fn)

    def call(self, *words, read=b"", **more):
        """The status of a run, what it writes, and what it says."""
        with self.start(*words, **more) as run:
            try:
                wrote, said = run.communicate(read, PATIENCE)
            except subprocess.TimeoutExpired:
                run.kill()
                raise
        return run.returncode, wrote, said.decode()

    def done(self, *words, said="", **more):
        """What a run writes that is done and says this."""
        status, wrote, found = self.call(*words, **more)
        self.assertEqual((status, found), (0, said), words)
        return wrote

    def fails(self, *words, status=2, said="", **more):
        """A run that fails, says this on one line that can be printed, and changes nothing."""
        before = self.files()
        found, wrote, line = self.call(*words, **more)
        self.assertEqual((found, wrote or b"", line.count("\n"), line[-1:]), (status, b"", 1, "\n"), (words, line))
        self.assertTrue(line[:-1].isprintable() and line.startswith("mlsign: ") and said in line, (words, line, said))
        self.same_files(words, self.files(), before)

    def calls(self, *words, variable="CALLS", **more):
        """The calls of the system of a run that is done."""
        with tempfile.NamedTemporaryFile("r", encoding="utf-8") as log:
            self.done(*words, **{variable: log.name}, **more)
            return log.read().splitlines()
