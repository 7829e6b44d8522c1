"""What the calls raise beside TypeError and ValueError."""


class InvalidSignature(Exception):
    """The signature is not accepted, or has a wrong length."""


class SigningError(Exception):
    """No signature was made, though the arguments are valid. No such key and message are known."""


class KeyFileError(ValueError):
    """Why a file is no key, in a sentence about "it", the file, as of the program `mlsign`."""
