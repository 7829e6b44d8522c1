"""Keys in files, as the scripts make them: DER (X.690) of RFC 9881 and RFC 5958, and the strict form of PEM (RFC
7468)."""
import base64
import hashlib

from common import TOP

# The last number of each set's object identifier.
ARC = {"44": 17, "65": 18, "87": 19}
# The tags of an integer, a string of bits, one of bytes, an object identifier and a sequence, and of a seed.
INTEGER, BITS, OCTETS, IDENTIFIER, SEQUENCE, SEED = 2, 3, 4, 6, 48, 128


def recorded(name):
    """What OpenSSL 4.0.0 wrote of the seed 00 01 .. 1F: keys in PEM, and the signature of `message` under the context
    `context`; and of an expanded key, which a model made."""
    return (TOP / "crates/mlsign_session/data" / name).read_bytes()


def element(tag, *parts):
    """An element of DER."""
    contents = b"".join(parts)
    size = len(contents)
    number = size.to_bytes((size.bit_length() + 7) // 8 or 1, "big")
    return bytes([tag]) + (number if size < 128 else bytes([128 + len(number)]) + number) + contents


def algorithm(arc):
    """An AlgorithmIdentifier of NIST's signatures (RFC 9881, section 2)."""
    return element(SEQUENCE, element(IDENTIFIER, bytes([96, 134, 72, 1, 101, 3, 4, 3, arc])))


def public_der(arc, key, unused=0):
    """A SubjectPublicKeyInfo (RFC 9881, section 4)."""
    return element(SEQUENCE, algorithm(arc), element(BITS, bytes([unused]), key))


def private_der(arc, choice, version=0, more=b""):
    """A OneAsymmetricKey (RFC 5958, and RFC 9881, section 6)."""
    return element(SEQUENCE, element(INTEGER, bytes([version])), algorithm(arc), element(OCTETS, choice), more)


def pem(label, der):
    """The text of some DER."""
    symbols = base64.b64encode(der).decode()
    lines = [symbols[at:at + 64] for at in range(0, len(symbols), 64)]
    return "\n".join([f"-----BEGIN {label}-----", *lines, f"-----END {label}-----", ""]).encode()


def der_of(text):
    """The DER of a strict text."""
    return base64.b64decode(b"".join(text.split(b"\n")[1:-2]))


def key_der(number, expanded, seed=None):
    """The DER of a private key of a set: of the expanded key alone, or of both."""
    choice = element(OCTETS, expanded)
    choice = choice if seed is None else element(SEQUENCE, element(OCTETS, seed), choice)
    return private_der(ARC[number], choice)


def private_text(number, expanded, seed=None):
    """The text of that."""
    return pem("PRIVATE KEY", key_der(number, expanded, seed))


def fingerprint(public):
    """The fingerprint of a public key's text, as `mlsign` prints it."""
    return "SHA256:" + base64.b64encode(hashlib.sha256(der_of(public)).digest()).decode().rstrip("=")
