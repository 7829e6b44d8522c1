"""The corpus with which the fuzzers begin, made of the published cases (c/fuzz/run, rust/fips204/tests/strangers.rs,
python/tests/test_strangers.py)."""
import collections
import shutil

import published
from common import SETS

# How many published cases of a kind are in it.
EACH = 3


def numbers(*values):
    """Numbers of two bytes each, as c/fuzz/strangers.c and strangers.rs read them."""
    return b"".join(min(it, 0xFFFF).to_bytes(2, "big") for it in values)


def inputs(case):
    """The inputs that a published case makes, each behind its kind."""
    g, front = case.given, bytes([SETS.index(case.set)])
    if "file" in g:
        yield "pem" if g["file"].startswith(b"-----") else "der", g["file"]
        return
    message, context = g.get("message", b""), g.get("context", b"")
    yield "pieces", front + bytes([min(len(context), 255), 0]) + numbers(1, 136, 64, 200) + context[:255] + message
    if "signature" in g and "public_key" in g:
        lengths = numbers(len(g["public_key"]), len(g["signature"]), len(context), 7)
        yield "keys", front + b"\0" + lengths + g["public_key"] + g["signature"] + context + message
    if "private_key" in g:
        lengths = numbers(len(g["private_key"]), len(context), 7)
        secret = g["private_key"] + g.get("random", bytes(32)) + context + message
        yield "keys", front + b"\1" + lengths + secret
    if "seed" in g:
        for kind, edits in ((0, b""), (1, b""), (0, bytes([0, 10, 0, 1])), (1, bytes([0, 0, 128, 255]))):
            yield "prepared", front + bytes([kind, len(edits) // 4]) + edits + g["seed"] + message


def chosen():
    """The inputs with their kinds and cases, each once: every file, and of all else a few of each kind."""
    counts, seen = collections.Counter(), set()
    for case in published.cases("DER", "PEM"):
        for kind, data in inputs(case):
            like = kind, case.of, case.set, case.is_refusal, data[1]
            counts[like] += 1
            if (kind in ("der", "pem") or counts[like] <= EACH) and (kind, data) not in seen:
                seen.add((kind, data))
                yield kind, case, data


def write(folder):
    """Writes the inputs into a folder, by their sums, in the place of what it has."""
    shutil.rmtree(folder, ignore_errors=True)
    for kind, _, data in chosen():
        (folder / kind).mkdir(parents=True, exist_ok=True)
        (folder / kind / published.sha256(data)[:32]).write_bytes(data)
