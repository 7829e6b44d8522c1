"""An append-only ledger of signed records: how it is written, and how a part of it is verified.

A record is a line of four fields with a TAB between: the fingerprint of a public key, and in base64 a context, a
message and the signature of the message under the context. A part has the records that begin in it, so parts are found
without reading.
"""
from __future__ import annotations

import base64
import binascii
import fcntl
import functools
import hashlib
import os
import stat
import threading
import time
from typing import Dict, List, NamedTuple, Optional, Tuple

from mldsa import InvalidSignature, PreparedPublicKey, PrivateKey, load_der_public_key

# How many prepared keys, of 60 kB at most, a worker keeps.
_KEPT = 1024
_preparing = threading.Lock()
# For how many seconds a program waits for a ledger that another one has locked.
_PATIENCE = 30


class LedgerError(Exception):
    """The ledger can't be written or read."""


def _opened(path: str, flags: int) -> int:
    """A descriptor of a ledger, which is a regular file: of a pipe no part could be read again."""
    file = os.open(path, flags | os.O_NONBLOCK | os.O_CLOEXEC, 0o644)
    if not stat.S_ISREG(os.fstat(file).st_mode):
        os.close(file)
        raise LedgerError(f"{path} is no regular file")
    return file


def _lock(file: int, path: str, kind: int) -> None:
    """Locks a ledger for writing or reading. Any program that can read it may hold a lock, so the wait has an end."""
    patience, pause = time.monotonic() + _PATIENCE, 0.001
    while True:
        try:
            fcntl.flock(file, kind | fcntl.LOCK_NB)
            return
        except BlockingIOError:
            if time.monotonic() > patience:
                raise LedgerError(f"another program has locked {path}, for {_PATIENCE} seconds now") from None
            time.sleep(pause)
            pause = min(2 * pause, 0.05)


class Writer:
    """Appends records to a ledger under one key. Several writers may append to the same ledger."""

    def __init__(self, path: str, key: PrivateKey) -> None:
        self._key, self._fingerprint = key.prepare(), key.public_key().fingerprint
        self._path, self._folder = path, os.path.dirname(os.path.abspath(path))
        self._file = _opened(path, os.O_RDWR | os.O_APPEND | os.O_CREAT)

    def append(self, message: bytes, context: bytes = b"", *, deterministic: bool = False) -> None:
        """Signs a message, and writes its record: all of it, or nothing where the disk is full. LedgerError if another
        program keeps the ledger locked."""
        fields = (context, message, self._key.sign(message, context, deterministic=deterministic))
        line = b"\t".join([self._fingerprint.encode(), *map(base64.b64encode, fields)]) + b"\n"
        _lock(self._file, self._path, fcntl.LOCK_EX)
        try:
            size = os.fstat(self._file).st_size
            if size and os.pread(self._file, 1, size - 1) != b"\n":
                raise LedgerError("the last record of the ledger is cut short")
            try:
                while line:
                    line = line[os.write(self._file, line):]
            except BaseException:
                os.ftruncate(self._file, size)
                raise
        finally:
            fcntl.flock(self._file, fcntl.LOCK_UN)

    def close(self) -> None:
        """Ends once the records are on the disk, and the name of the file is too."""
        folder = os.open(self._folder, os.O_RDONLY | os.O_DIRECTORY)
        for file in (self._file, folder):
            os.fsync(file)
            os.close(file)


class Part(NamedTuple):
    """The records of a ledger that begin from one place on and before another, in bytes."""

    path: str
    start: int
    stop: int


class Verdict(NamedTuple):
    """What was found of a part: how many records it has, the SHA-256 of their lines, and, for each that fails, its
    place among them, from 0 on, and why; with the processor time that verifying took."""

    records: int
    sha256: str
    faults: List[Tuple[int, str]]
    seconds: float


def _end(path: str) -> int:
    """The length of a ledger while nobody writes, so that its last record is whole, unless a writer was killed."""
    file = _opened(path, os.O_RDONLY)
    try:
        _lock(file, path, fcntl.LOCK_SH)
        return os.fstat(file).st_size
    finally:
        os.close(file)


def parts(path: str, size: int) -> List[Part]:
    """The parts of a ledger as it is now, each of so many bytes but the last."""
    end = _end(path)
    return [Part(path, start, min(start + size, end)) for start in range(0, end, size)]


def lines(part: Part) -> List[bytes]:
    """The lines of a part, with their ends."""
    with open(part.path, "rb") as file:
        if part.start:
            # What begins before belongs to a part before: also a line that begins just where its predecessor ends.
            file.seek(part.start - 1)
            file.readline()
        found = []
        while file.tell() < part.stop:
            line = file.readline()
            if not line:
                break
            found.append(line)
    return found


@functools.lru_cache(maxsize=8)
def _named(keys: Tuple[bytes, ...]) -> Dict[bytes, bytes]:
    """Public keys in DER by their fingerprints."""
    return {load_der_public_key(der).fingerprint.encode(): der for der in keys}


@functools.lru_cache(maxsize=_KEPT)
def _prepared_once(der: bytes) -> PreparedPublicKey:
    return load_der_public_key(der).prepare()


def _prepared(der: bytes) -> PreparedPublicKey:
    """The prepared key, which a worker prepares once, also where it has many threads."""
    with _preparing:
        return _prepared_once(der)


def _decoded(field: bytes) -> bytes:
    """The bytes of base64, which has one spelling."""
    found = base64.b64decode(field, validate=True)
    if base64.b64encode(found) != field:
        raise binascii.Error("another spelling")
    return found


def fault(keys: Dict[bytes, bytes], line: bytes) -> Optional[str]:
    """Why a record fails, and None if it does not."""
    if not line.endswith(b"\n"):
        return "it is cut short"
    fields = line[:-1].split(b"\t")
    try:
        if len(fields) != 4:
            return "it is no record"
        context, message, signature = map(_decoded, fields[1:])
    except binascii.Error:
        return "it is no record"
    if fields[0] not in keys:
        return "its key is none of those given"
    try:
        _prepared(keys[fields[0]]).verify(signature, message, context)
    except (InvalidSignature, ValueError) as error:
        return str(error)
    return None


def verify_part(keys: Tuple[bytes, ...], part: Part, known: Optional[Verdict] = None) -> Verdict:
    """Verifies a part under public keys in DER. This is what workers run. If its records are those of a known verdict,
    that still holds."""
    start, found = time.thread_time(), lines(part)
    sha256 = hashlib.sha256(b"".join(found)).hexdigest()
    if known is not None and (known.records, known.sha256) == (len(found), sha256):
        return known._replace(seconds=0.0)
    named = _named(keys)
    reasons = [(place, fault(named, line)) for place, line in enumerate(found)]
    faults = [(place, reason) for place, reason in reasons if reason is not None]
    return Verdict(len(found), sha256, faults, time.thread_time() - start)
