"""Threads with little stack, each in a process of its own, so that a crash is seen."""
import _thread
import subprocess
import sys
import threading
import unittest
from unittest import mock

from shared import NUMBERS, PRIVATE, PYTHON, SEED

from mldsa import _library, _stack

# Makes every kind of call at every set on a thread with a stack of so many bytes.
EVERY_CALL = """
import hashlib, io, sys, threading
from mldsa import *
done = []
def calls():
    for kind in (MLDSA44PrivateKey, MLDSA65PrivateKey, MLDSA87PrivateKey):
        key = kind.from_seed_bytes(bytes(range(32)))
        key = kind.from_expanded_bytes(key.expanded_bytes())
        public, digest = key.public_key(), hashlib.sha256(b"m").digest()
        for signer in (key, key.prepare()):
            for verifier in (public, public.prepare()):
                verifier.verify(signer.sign(b"m", b"c"), b"m", b"c")
                verifier.verify_digest(signer.sign_digest(digest, "sha256"), digest, "sha256")
                verifier.verify_file(signer.sign_file(io.BytesIO(b"m")), io.BytesIO(b"m"))
                try:
                    verifier.verify(bytes(len(signer.sign(b"m"))), b"m")
                except InvalidSignature:
                    done.append(kind)
threading.stack_size(int(sys.argv[1]))
thread = threading.Thread(target=calls)
thread.start()
thread.join()
print(len(done))
"""
# Verifies at each depth of a recursion that takes stack, until nearly nothing of it is left.
DEEP = """
import sys, threading
from mldsa import *
from mldsa import _stack
key = MLDSA44PrivateKey.from_seed_bytes(bytes(range(32)))
public, signature, seen = key.public_key(), key.sign(b"m"), []
def deeper(_):
    seen.append(_stack.left())
    public.verify(signature, b"m")
    # A step of this recursion takes a call of C, and so some stack.
    if seen[-1] > 30000:
        list(map(deeper, [0]))
sys.setrecursionlimit(100000)
threading.stack_size(1 << 18)
thread = threading.Thread(target=deeper, args=(0,))
thread.start()
thread.join()
print(seen[0] > 61440 and seen[-1] <= 30000 and seen == sorted(seen, reverse=True))
"""
# Says what a thread with a stack of so many bytes has left of it.
LEFT = """
import sys, threading
from mldsa import _stack
threading.stack_size(int(sys.argv[1]))
thread = threading.Thread(target=lambda: print(_stack.left()))
thread.start()
thread.join()
"""

# Counts the threads that Python started from one.
COUNTED = """
import _thread
from mldsa import _stack
print(_stack.on_own_thread(0, _thread._count, []))
"""
# Ends while daemon threads with a stack of so many bytes sign.
AT_EXIT = """
import sys, threading, time
from mldsa import *
key = MLDSA65PrivateKey.from_seed_bytes(bytes(range(32)))
def calls():
    while True:
        key.sign(b"m")
threading.stack_size(int(sys.argv[1]))
for _ in range(4):
    threading.Thread(target=calls, daemon=True).start()
time.sleep(0.05)
print("ended")
"""
# Signs on threads of their own after the first thread has ended, and then when all have.
AFTER_THE_FIRST = """
import atexit, sys, threading
from unittest import mock
from mldsa import *
from mldsa import _stack
key = MLDSA44PrivateKey.from_seed_bytes(bytes(range(32)))
def calls():
    threading.main_thread().join()
    key.public_key().verify(key.sign(b"m"), b"m")
    print("signed")
threading.stack_size(int(sys.argv[1]))
threading.Thread(target=calls).start()
def last():
    with mock.patch.object(_stack, "left", return_value=0):
        key.public_key().verify(key.sign(b"m"), b"m")
    print("signed")
atexit.register(last)
"""
# Signs on a thread of its own after Python began to end.
LATE = """
from mldsa import *
from mldsa import _stack
class Late:
    def __init__(self):
        self.key, self.stack = MLDSA44PrivateKey.from_seed_bytes(bytes(range(32))), _stack
    def __del__(self):
        self.stack.left = lambda: 0
        try:
            self.key.sign(b"m")
        except OSError as error:
            print(error)
late = Late()
"""
# Forks while another thread has changed the size of stacks. The child prints the size, and signs.
FORKED = """
import _thread, os, signal, threading, time
from unittest import mock
from mldsa import *
from mldsa import _stack
key = MLDSA44PrivateKey.from_seed_bytes(bytes(range(32)))
begin, changed = _thread.start_new_thread, threading.Event()
def slow(*words):
    changed.set()
    time.sleep(0.5)
    return begin(*words)
threading.stack_size(131072)
with mock.patch.object(_stack, "left", return_value=0):
    with mock.patch("_thread.start_new_thread", slow):
        thread = threading.Thread(target=key.sign, args=(b"m",))
        begin(key.sign, (b"m",))
        changed.wait()
        child = os.fork()
    if not child:
        signal.alarm(60)
        key.sign(b"m")
        print(threading.stack_size(), flush=True)
        os._exit(0)
    os.waitpid(child, 0)
"""
# A signal handler forks while the first thread waits for a call. Parent and child get its result.
FORKED_BY_HANDLER = """
import os, signal, time
from mldsa import _stack
children = []
def call():
    time.sleep(0.5)
    return "done"
def fork(*_):
    children.append(os.fork())
    if not children[0]:
        signal.signal(signal.SIGALRM, signal.SIG_DFL)
        signal.alarm(60)
signal.signal(signal.SIGALRM, fork)
signal.setitimer(signal.ITIMER_REAL, 0.1)
print(_stack.on_own_thread(0, call, []), flush=True)
if children[0]:
    os.waitpid(children[0], 0)
"""
# A signal handler copies the hasher that the first thread updates.
COPIED_BY_HANDLER = """
import signal
from mldsa import *
hasher, copies = MLDSA44PrivateKey.from_seed_bytes(bytes(range(32))).hasher(), []
signal.signal(signal.SIGALRM, lambda *_: copies.append(hasher.copy().mu()))
signal.setitimer(signal.ITIMER_REAL, 0.01, 0.01)
piece = bytes(1 << 22)
while len(copies) < 5:
    hasher.update(piece)
print("copied")
"""


# The calls that need each of the stacks that c/mldsa.h states.
CALLS_OF_STACK = {
    "KEYGEN": "keygen", "SIGN": "sign hash_sign sign_mu", "VERIFY": "verify hash_verify verify_mu",
    "PUBLIC_KEY": "public_key", "CHECK": "check_private_key", "WHOLE": "is_whole", "PAIR": "is_pair",
    "PREPARE_PUBLIC_KEY": "prepare_public_key", "PREPARE_PRIVATE_KEY": "prepare_private_key",
    "SIGN_PREPARED": "sign_prepared hash_sign_prepared sign_mu_prepared",
    "VERIFY_PREPARED": "verify_prepared hash_verify_prepared verify_mu_prepared",
    "DER": "public_key_from_der seed_from_der private_key_from_der",
    "PEM": "public_key_from_pem seed_from_pem private_key_from_pem",
}


def printed(code, *words, limit=None):
    """What a program prints; with a limit in KiB for the stack of its first thread."""
    front = ["sh", "-c", f'ulimit -s {limit}; exec "$@"', "sh"] if limit else []
    done = subprocess.run([*front, *PYTHON, "-c", code, *map(str, words)], cwd="/", capture_output=True, text=True,
                          check=False, timeout=600)
    return done.stdout.strip() or f"status {done.returncode}: {done.stderr}"


def size_of_stacks():
    """The size of the stacks of new threads: to ask for it sets another one."""
    found = threading.stack_size()
    threading.stack_size(found)
    return found


def smallest_stack():
    """The smallest stack of a thread that this system allows: 64 KiB, or on 64-bit ARM 128."""
    before = threading.stack_size()
    try:
        threading.stack_size(65536)
        return 65536
    except ValueError:
        return 131072
    finally:
        threading.stack_size(before)


class Stacks(unittest.TestCase):
    def test_small_threads(self):
        for size in (smallest_stack(), 131072, 163840, 262144, 393216, 1 << 20):
            with self.subTest(size=size):
                self.assertEqual(printed(EVERY_CALL, size), "12")

    def test_small_first_thread(self):
        code = EVERY_CALL.replace("thread.start()", "calls()").replace("thread.join()", "")
        for limit in (256, 512):
            with self.subTest(limit=limit):
                self.assertEqual(printed(code, 0, limit=limit), "12")

    def test_deep_recursion(self):
        self.assertEqual(printed(DEEP), "True")

    def test_what_is_left(self):
        """Of a stack of a known size some is used, and not much."""
        for size in (1 << 17, 1 << 20, 1 << 22):
            self.assertIn(size - int(printed(LEFT, size)), range(1, 64 << 10), size)

    def test_where_it_cannot_be_known(self):
        key = PRIVATE[44].from_seed_bytes(SEED)
        watched = mock.patch.object(_stack, "on_own_thread", wraps=_stack.on_own_thread)
        with mock.patch.object(_stack, "left", return_value=0), watched as own:
            signature = key.sign(b"m", deterministic=True)
            key.public_key().verify(signature, b"m")
            wanted = [_library.NUMBERS[f"MLDSA44_STACK_{call}"] for call in ("SIGN", "VERIFY")]
            self.assertEqual([it.args[0] for it in own.call_args_list], wanted)
        self.assertEqual(signature, key.sign(b"m", deterministic=True))

    def test_no_thread_can_be_started(self):
        key, said = PRIVATE[44].from_seed_bytes(SEED), "too little stack, and no thread with .* bytes could be started"
        self.addCleanup(threading.stack_size, threading.stack_size(131072))
        for call, error in (("_thread.start_new_thread", RuntimeError), ("threading.stack_size", ValueError)):
            with mock.patch.object(_stack, "left", return_value=0), mock.patch(call, side_effect=error), \
                    mock.patch.object(_stack, "_begin_foreign", return_value=_stack._NONE):
                self.assertRaisesRegex(OSError, said, key.sign, b"m")
            self.assertEqual((size_of_stacks(), _stack._waiting.jobs, _stack._foreign), (131072, [], {}))

    def test_faults_of_another_thread(self):
        self.assertRaises(ZeroDivisionError, _stack.on_own_thread, 0, lambda: 1 // 0, [])
        self.assertRaises(SystemExit, _stack.on_own_thread, 0, sys.exit, [])
        self.assertEqual(_stack.on_own_thread(0, lambda one, two: one + two, [1, 2]), 3)
        self.assertEqual(_stack._waiting.jobs, [])

    def test_the_thread_is_one_of_python(self):
        """Which counts the threads that it started, and no other."""
        self.assertEqual(printed(COUNTED), "1")

    def test_size_of_other_stacks(self):
        """The size that the program chose comes back, and meanwhile it is not smaller."""
        self.addCleanup(threading.stack_size, threading.stack_size())
        needed = 200000 + _stack._BESIDE
        for size, wanted in ((131072, needed), (1 << 20, 1 << 20), (0, 0 if _stack._DEFAULT >= needed else needed)):
            for set_meanwhile in (None, 1 << 18):
                sizes, begin = [], _thread.start_new_thread

                def begun(*words, sizes=sizes, begin=begin, set_meanwhile=set_meanwhile):
                    sizes.append(size_of_stacks())
                    if set_meanwhile:
                        threading.stack_size(set_meanwhile)
                    return begin(*words)

                threading.stack_size(size)
                with mock.patch("_thread.start_new_thread", begun):
                    _stack.on_own_thread(200000, int, [])
                self.assertEqual((sizes, size_of_stacks()), ([wanted], set_meanwhile or size))

    def test_at_exit(self):
        for size in (smallest_stack(), 131072):
            for _ in range(3):
                self.assertEqual(printed(AT_EXIT, size), "ended")
        self.assertEqual(printed(AFTER_THE_FIRST, smallest_stack()), "signed\nsigned")
        said = "too little stack, and no thread with "
        self.assertIn(said, printed(LATE))

    @unittest.skipIf("qemu" in PYTHON[0], "qemu stops where a program with threads forks")
    def test_forks(self):
        self.assertEqual(printed(FORKED), "131072")
        self.assertEqual(printed(FORKED_BY_HANDLER), "done\ndone")

    def test_handler_that_copies(self):
        self.assertEqual(printed(COPIED_BY_HANDLER), "copied")

    def test_each_call_has_its_stack(self):
        numbers = _library.NUMBERS
        for number in NUMBERS:
            calls = _library.SETS[number].calls
            for constant, names in CALLS_OF_STACK.items():
                for name in names.split():
                    self.assertEqual(calls[name]._needed, numbers[f"MLDSA{number}_STACK_{constant}"], name)
