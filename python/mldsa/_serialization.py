"""How `private_bytes` and `public_bytes` write a key, by the names of `cryptography`."""
import enum


class Encoding(enum.Enum):
    """The encoding of a key.

        >>> key.private_bytes(Encoding.PEM, PrivateFormat.PKCS8, NoEncryption()) == key.to_pem()
        True
    """

    PEM = "PEM"
    DER = "DER"
    Raw = "Raw"


class PrivateFormat(enum.Enum):
    """The format of a private key: PKCS8, in PEM or DER, or the raw seed.

        >>> key.private_bytes(Encoding.Raw, PrivateFormat.Raw, NoEncryption()) == key.private_bytes_raw()
        True
    """

    PKCS8 = "PKCS8"
    Raw = "Raw"


class PublicFormat(enum.Enum):
    """The format of a public key: SubjectPublicKeyInfo, in PEM or DER, or its raw bytes.

        >>> public.public_bytes(Encoding.DER, PublicFormat.SubjectPublicKeyInfo) == public.to_der()
        True
    """

    SubjectPublicKeyInfo = "SubjectPublicKeyInfo"
    Raw = "Raw"


class NoEncryption:
    """Says that a private key is written without encryption, the only way that this library writes one.

        >>> file = key.private_bytes(Encoding.PEM, PrivateFormat.PKCS8, NoEncryption())
    """

    __slots__ = ()
