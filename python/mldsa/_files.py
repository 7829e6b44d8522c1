"""Keys in files, which the library reads: what a file has that it does not, and the PEM of RFC 7468 around DER.

What is read and what is rejected is as by the program `mlsign`: text may stand around a key, and white space within.
The sentences are its too, but that of what is no such key.
"""
from __future__ import annotations

import base64
from typing import NoReturn

from . import _library
from ._errors import KeyFileError

PUBLIC, PRIVATE = b"PUBLIC KEY", b"PRIVATE KEY"
BEGINNING = b"-----BEGIN "
_LINE = 64

_EMPTY = "it is empty"
# What a file has instead of the key with this label.
OTHER = {PUBLIC: "it has a private key: give the public key",
         PRIVATE: "it has a public key, and the private one is needed"}
_ENCRYPTED = "it is encrypted, and this library reads no encrypted keys: decrypt it by `openssl pkey`"
# The object identifier of PBES2 (RFC 8018), by which the DER of an encrypted key begins.
_PBES2 = bytes.fromhex("06092a864886f70d01050d")


def _refuse(message: str) -> NoReturn:
    raise KeyFileError(message)


def is_pem(given: bytes) -> bool:
    """Whether bytes begin as PEM does."""
    return given.startswith(BEGINNING)


def _encrypted(label: bytes) -> str:
    """Of an encrypted key, where this kind is wanted."""
    return _ENCRYPTED if label == PRIVATE else OTHER[label]


def checked(label: bytes, form: str, given: bytes) -> bytes:
    """The same bytes, if they may be a key of this kind, in `der` or in `pem`."""
    if not given:
        _refuse(_EMPTY)
    if form == "der" and is_pem(given):
        _refuse(f"it is in PEM: take load_pem_{label.split()[0].decode().lower()}_key")
    if form == "der" and _PBES2 in given[:20]:
        _refuse(_encrypted(label))
    return given


def sentence(label: bytes, status: int) -> str:
    """Why a file has no key of this kind, by what the library returned."""
    if status == _library.PEM_ENCRYPTED:
        return _encrypted(label)
    if status == _library.PEM_OTHER_KIND:
        return OTHER[label]
    if status == _library.PEM_OTHER_LABEL:
        return "it has a key of another kind, or something else than a key"
    return _library.text(status)


def relabelled(label: bytes, other: bytes, text: bytes) -> bytes:
    """A text as one with another label."""
    return text.replace(label + b"-----", other + b"-----")


def encode_pem(label: bytes, der: bytes) -> bytes:
    """The text of a key, in lines of 64 characters that end in LF."""
    symbols = base64.b64encode(der)
    lines = [symbols[at:at + _LINE] for at in range(0, len(symbols), _LINE)]
    return b"\n".join([b"-----BEGIN " + label + b"-----", *lines, b"-----END " + label + b"-----", b""])
