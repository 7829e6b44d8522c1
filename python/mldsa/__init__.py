"""ML-DSA (FIPS 204) at the parameter sets 44, 65 and 87, over a library made of proved source.

This Python is only tested, and so is what pip builds from a clone: plain Rust that a script makes of that source.

    >>> key = MLDSA65PrivateKey.generate()
    >>> public = key.public_key()
    >>> signature = key.sign(b"a message", b"a context")
    >>> public.verify(signature, b"a message", b"a context")    # or raises InvalidSignature

The examples of each call have this key, public key and signature. A Buffer is any bytes-like object, as bytes,
bytearray or memoryview; a File is a name (str or os.PathLike), or has read(), as a file that is open for reading bytes.
Another type is a TypeError; a wrong length a ValueError that names the argument and both lengths, but of a signature
InvalidSignature. Each call may raise OSError where the thread has too little stack, and no other can be started.
"""
from ._errors import InvalidSignature, KeyFileError, SigningError
from ._interface import VERSION_TEXT as __version__
from ._keys import (MessageHasher, MLDSA44PrivateKey, MLDSA44PublicKey, MLDSA65PrivateKey, MLDSA65PublicKey,
                    MLDSA87PrivateKey, MLDSA87PublicKey, PreparedPrivateKey, PreparedPublicKey, PrivateKey, PublicKey,
                    load_der_private_key, load_der_public_key, load_pem_private_key, load_pem_public_key)
from ._serialization import Encoding, NoEncryption, PrivateFormat, PublicFormat

__all__ = ["Encoding", "InvalidSignature", "KeyFileError", "MLDSA44PrivateKey", "MLDSA44PublicKey", "MLDSA65PrivateKey",
           "MLDSA65PublicKey", "MLDSA87PrivateKey", "MLDSA87PublicKey", "MessageHasher", "NoEncryption",
           "PreparedPrivateKey", "PreparedPublicKey", "PrivateFormat", "PrivateKey", "PublicFormat", "PublicKey",
           "SigningError", "__version__", "load_der_private_key", "load_der_public_key", "load_pem_private_key",
           "load_pem_public_key"]

# What is public is shown, and pickled, by the name that others import it by.
for _each in [it for it in map(globals().get, __all__) if callable(it)]:
    _each.__module__ = __name__
