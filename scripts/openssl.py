"""The command of an OpenSSL with ML-DSA, and what it makes of keys in files."""
import os
import re
import shlex
import subprocess

from common import printed

MISSING = "there is no openssl of version 3.5 or later, and the variable OPENSSL names none"
# What it is told to write of a private key.
FORMATS = {"seed": "seed-only", "expanded": "priv-only", "both": "seed-priv"}


def named(words):
    """The version of an OpenSSL, or an empty text."""
    found = re.match(r"OpenSSL (\d+\.\d+\S*)", printed(*words, "version"))
    return found[1] if found else ""


def command():
    """The words that start one with ML-DSA, as OPENSSL has them (`chroot FOLDER openssl`); None where there is none."""
    words = shlex.split(os.environ.get("OPENSSL", "openssl"))
    numbers = [int(it) for it in re.findall(r"\d+", named(words))]
    return words if numbers >= [3, 5] else None


def wrong(words, parts, form, file, public):
    """What is wrong with how it reads a file, and None where nothing is: it has to write the same file, and this public
    key in DER. `parts` is what the file has: `public`, or of a private key `seed`, `expanded` or `both`."""
    read = ["pkey", "-inform", form, *(["-pubin"] if parts == "public" else [])]
    more = ["-provparam", f"ml-dsa.output_formats={FORMATS[parts]}"] if parts in FORMATS else []
    for asked, wanted in ((["-outform", form, *more], file), (["-pubout", "-outform", "DER"], public)):
        done = subprocess.run([*words, *read, *asked], input=file, capture_output=True, check=False)
        if done.returncode or done.stdout != wanted:
            return f"openssl {' '.join([*read, *asked])}: status {done.returncode}, {done.stderr.decode()}"
    return None
