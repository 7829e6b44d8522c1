"""The shared library: its calls over arrays, with the stack that each needs, and the numbers of c/mldsa.h."""
from __future__ import annotations

import ctypes
import os
import platform
from typing import Any, Dict, List, Union

from . import _stack
from ._interface import CALLS, NUMBERS, VERSION, VERSION_TEXT

# Bytes are read, the others written.
Array = Union[bytes, "ctypes.Array[ctypes.c_char]"]

DONE, NO, KEY_RANGE, OTHER_SET, INCONSISTENT, NO_SEED = (
    NUMBERS[f"MLDSA_{it}"] for it in ("DONE", "NO", "KEY_RANGE", "OTHER_SET", "INCONSISTENT", "NO_SEED"))
PEM_ENCRYPTED, PEM_OTHER_KIND, PEM_OTHER_LABEL = (
    NUMBERS[f"MLDSA_PEM_{it}"] for it in ("ENCRYPTED", "OTHER_KIND", "OTHER_LABEL"))
# Every call of Python itself takes as much stack.
_SMALL = 4096


def text(status: int) -> str:
    """The text of a status."""
    array = room(NUMBERS["MLDSA_TEXT_LEN"])
    _LIBRARY.mldsa_text_of(status, array, len(array))
    return array.value.decode()


def room(length: int) -> "ctypes.Array[ctypes.c_char]":
    """An array that a call writes."""
    return ctypes.create_string_buffer(length)


def _loaded() -> ctypes.CDLL:
    path = os.path.join(os.path.dirname(os.path.abspath(__file__)), "libmldsa.abi3.so")
    try:
        library = ctypes.CDLL(path)
    except OSError as error:
        here = f"{platform.system()} on {platform.machine()}"
        raise ImportError(f"the shared library of mldsa is not for {here}: {error}", path=path) from error
    for name, (numbers, arrays) in CALLS.items():
        function = getattr(library, name)
        pointers = [ctypes.POINTER(ctypes.c_char) if written else ctypes.c_char_p for written in arrays]
        words = [it for pointer in pointers for it in (pointer, ctypes.c_size_t)]
        function.argtypes = [*[ctypes.c_uint32] * numbers, *words]
        function.restype = ctypes.c_uint32
    found = library.mldsa_version()
    if found != VERSION:
        said = ".".join(str(found >> shift & 255) for shift in (16, 8, 0))
        raise ImportError(f"the shared library of mldsa has version {said}, and not {VERSION_TEXT}", path=path)
    return library


_LIBRARY = _loaded()


class Call:
    """A call of the library, which runs on a thread of its own where this one has too little stack."""

    __slots__ = ("_function", "_needed")

    def __init__(self, name: str, needed: int) -> None:
        self._function, self._needed = getattr(_LIBRARY, name), needed

    def __call__(self, *arrays: Array) -> int:
        words: List[Any] = []
        for array in arrays:
            words += array, len(array)
        if self._needed <= _SMALL or self._needed <= _stack.left():
            return int(self._function(*words))
        return int(_stack.on_own_thread(self._needed, self._function, words))


def _needed(number: int, name: str) -> int:
    """The stack that a call of a set needs: hash_sign and sign_mu that of sign, and so on."""
    stack = f"MLDSA{number}_STACK_"
    if name.startswith("mu_"):
        return NUMBERS["MLDSA_STACK_MU"]
    if name.endswith(("_der", "_pem")):
        return NUMBERS[stack + name[-3:].upper()]
    short = {"accepts": "verify", "check_private_key": "check", "is_whole": "whole", "is_pair": "pair"}.get(name, name)
    return NUMBERS[stack + short.replace("hash_", "").replace("_mu", "").upper()]


class ParameterSet:
    """A parameter set of FIPS 204: its calls by their names, and its lengths."""

    def __init__(self, number: int) -> None:
        self.number, self.name, front = number, f"ML-DSA-{number}", f"mldsa{number}_"
        names = [name[len(front):] for name in CALLS if name.startswith(front)]
        self.calls: Dict[str, Call] = {name: Call(front + name, _needed(number, name)) for name in names}
        self.public_key, self.private_key, self.signature, self.prepared_public_key, self.prepared_private_key = (
            NUMBERS[f"MLDSA{number}_{it}_LEN"]
            for it in ("PUBLIC_KEY", "PRIVATE_KEY", "SIGNATURE", "PREPARED_PUBLIC_KEY", "PREPARED_PRIVATE_KEY")
        )
        self.public_key_der, self.private_key_der, self.both_der = (NUMBERS[f"MLDSA{number}_{it}_DER_LEN"]
                                                                    for it in ("PUBLIC_KEY", "PRIVATE_KEY", "BOTH"))


SEED, RANDOM, MU, STATE, SEED_DER = (NUMBERS[f"MLDSA_{it}_LEN"] for it in ("SEED", "RANDOM", "MU", "STATE", "SEED_DER"))
SETS = {number: ParameterSet(number) for number in (44, 65, 87)}
mu_update, mu_finish = (Call(f"mldsa_mu_{it}", NUMBERS["MLDSA_STACK_MU"]) for it in ("update", "finish"))
