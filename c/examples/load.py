"""Signs and verifies at a set by the shared library, which tells the lengths: load.py LIBRARY SET"""
import ctypes
import secrets
import struct
import sys

# enum mldsa_length of mldsa.h
PLACES = ("public_key private_key signature seed random mu state prepared_public_key prepared_private_key "
          "public_key_der seed_der private_key_der both_der").split()


def call(name, *words):
    """Calls a function, with the length of each array behind it, and ends the program where the result is not 0."""
    given = [it for word in words for it in ((word,) if isinstance(word, int) else (word, ctypes.c_size_t(len(word))))]
    if status := getattr(library, name)(*given):
        sys.exit(f"{name} returned {status}")


library, number = ctypes.CDLL(sys.argv[1]), int(sys.argv[2])
written, name = ctypes.create_string_buffer(4 * len(PLACES)), ctypes.create_string_buffer(16)
call("mldsa_lengths", number, written)
call("mldsa_name", number, name)
lengths = dict(zip(PLACES, struct.unpack(f"<{len(PLACES)}I", written)))

seed, random = (secrets.token_bytes(lengths[it]) for it in ("seed", "random"))
keys = public_key, private_key = [ctypes.create_string_buffer(lengths[it]) for it in ("public_key", "private_key")]
signature = ctypes.create_string_buffer(lengths["signature"])
call(f"mldsa{number}_keygen", seed, *keys)
call(f"mldsa{number}_sign", private_key, b"a message", b"a context", random, signature)
call(f"mldsa{number}_verify", public_key, b"a message", b"a context", signature)
print(f"{name.value.decode()}: valid")
