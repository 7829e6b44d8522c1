"""The published cases (cases.jsonl.xz): what is given, the calls that a case makes, and whether what came out is what
was published.

A case is an object a line: `of` is its kind and `set` its parameter set; `do` says which calls it makes. What is given
is in hex. Published are the SHA-256 of keys and signatures, whether a signature is accepted, or a null in the place of
a signature that must be rejected.
"""
import hashlib
import json
import lzma
import pathlib

import keyfiles

FILE = pathlib.Path(__file__).with_name("cases.jsonl.xz")
# How many cases of each kind there are.
COUNTS = {
    "ACVP keyGen": 75,
    "ACVP sigGen": 60,
    "ACVP sigVer": 45,
    "Wycheproof verify": 239,
    "Wycheproof sign": 366,
    "KAT": 300,
    "HashML-DSA": 120,
}
PUBLISHED = ("public_key_sha256", "private_key_sha256", "signature_sha256", "accepted")
# Of the cases with a key in a file: how many there are, in how many files, and how many files are rejected.
IN_FILES = {"public keys": (239, 41, 6), "seeds": (176, 25, 0), "expanded keys": (190, 39, 12)}
# Bytes of a public key (FIPS 204, Table 2).
PUBLIC_KEY_LENGTHS = {"44": 1312, "65": 1952, "87": 2592}


class Refused:
    """The result of a call that returned an error, with the words that it came with."""

    def __init__(self, words):
        self.words = words

    def __repr__(self):
        return f"refused ({self.words})"


class Case:
    """A published case: its kind, its place among those of its kind, its set, the calls it makes, what is given, and
    what was published."""

    def __init__(self, of, place, number, do, given, published):
        self.of, self.place, self.set, self.do, self.given, self.published = of, place, number, do, given, published

    def __str__(self):
        return f"{self.of} {self.place} (ML-DSA-{self.set})"

    @property
    def is_refusal(self):
        """Whether the case is one that has to be rejected."""
        return self.published.get("accepted") is False or self.published.get("signature_sha256", "") is None

    def but(self, given=None, published=None):
        """The same case, with other values in the place of some."""
        return Case(
            self.of,
            self.place,
            self.set,
            self.do,
            {**self.given, **(given or {})},
            {**self.published, **(published or {})},
        )


def cases(*forms):
    """Every case, in the order of the file; and then those with a key in a file of each of these forms, DER and PEM."""
    found, places = [], dict.fromkeys(COUNTS, 0)
    with lzma.open(FILE, "rt", encoding="utf-8") as lines:
        for line in lines:
            values = json.loads(line)
            of, number, do = values.pop("of"), values.pop("set"), values.pop("do")
            places[of] += 1
            published = {name: values.pop(name) for name in PUBLISHED if name in values}
            found.append(
                Case(
                    of,
                    places[of],
                    str(number),
                    do,
                    {name: bytes.fromhex(text) for name, text in values.items()},
                    published,
                )
            )
    if places != COUNTS:
        raise ValueError(f"there are {places} cases, not {COUNTS}")
    return found + [case for form in forms for case in keys_in_files(found, form)]


def keys_in_files(chosen, form):
    """Wycheproof's cases with a key in a file of a form, which is read, used, and written again as it was: the public
    keys and seeds that it has in DER, and its expanded keys, which are put into DER here. A file is rejected where its
    public key has another length than the set's, or where nothing but its expanded key can be why none signs."""
    found, files = [], {kind: [] for kind in IN_FILES}
    for case in chosen:
        g, label = case.given, "PRIVATE KEY"
        if "public_key_der" in g:
            kind, part, file, label = "public keys", "public_key", g["public_key_der"], "PUBLIC KEY"
            is_key = len(g[part]) == PUBLIC_KEY_LENGTHS[case.set]
        elif "private_key_pkcs8" in g:
            kind, part, file, is_key = "seeds", "seed", g["private_key_pkcs8"], True
        elif case.of == "Wycheproof sign":
            kind, part, file = "expanded keys", "private_key", keyfiles.key_der(case.set, g["private_key"])
            is_key = not case.is_refusal or len(g["context"]) > 255
        else:
            continue
        if form == "PEM":
            file = keyfiles.pem(label, file)
        sums = {f"{part}_sha256": sha256(g[part]) if is_key else None, "file_sha256": sha256(file) if is_key else None}
        files[kind].append((file, is_key))
        given = {name: g[name] for name in ("message", "context", "random", "signature") if name in g}
        found.append(Case(f"{kind} in {form}", case.place, case.set, f"{part}_in_{form.lower()}",
                          {**given, "file": file}, {**case.published, **sums}))
    counts = {kind: (len(it), len({*it}), sum(not is_key for _, is_key in {*it})) for kind, it in files.items()}
    if counts != IN_FILES:
        raise ValueError(f"there are {counts} keys in files, not {IN_FILES}")
    return found


def sha256(data):
    return hashlib.sha256(data).hexdigest()


def sum_of(answer):
    """The sum of the first array of a result, and None of an error."""
    return None if isinstance(answer, Refused) else sha256(answer[0])


def calls_of_file(part, form, g):
    """What `calls` does for a case with this part of a key in a file of a form."""
    key = yield f"{part}_from_{form}", g["file"]
    file = key if isinstance(key, Refused) else (yield f"{part}_to_{form}", *key)
    found = {f"{part}_sha256": sum_of(key), "file_sha256": sum_of(file)}
    if part == "seed":
        key = yield f"private_key_from_{form}", g["file"]
    call, more = ("verify", g["signature"]) if part == "public_key" else ("sign", g["random"])
    used = key if isinstance(key, Refused) else (yield call, *key, g["message"], g["context"], more)
    return {**found, **({"accepted": used is True} if call == "verify" else {"signature_sha256": sum_of(used)})}


def calls(case):
    """Makes the calls of a case, one after another: yields each as its name and arguments, is sent its result (a tuple
    of bytes, a truth value, or `Refused`), and returns what came out of all, by the names of what was published."""
    g = case.given
    if "file" in g:
        part, form = case.do.split("_in_")
        return (yield from calls_of_file(part, form, g))
    if case.do == "verify":
        return {"accepted": (yield "verify", g["public_key"], g["message"], g["context"], g["signature"]) is True}
    if case.do == "verify_internal":
        return {"accepted": (yield "verify_internal", g["public_key"], g["message"], g["signature"]) is True}
    if case.do == "sign_internal":
        signature = yield "sign_internal", g["private_key"], g["message"], g["random"]
        return {"signature_sha256": sum_of(signature)}
    public, private, found = None, g.get("private_key"), {}
    if "seed" in g:
        pair = yield "keygen", g["seed"]
        if isinstance(pair, Refused):
            return {"public_key_sha256": None, "private_key_sha256": None, "signature_sha256": None}
        public, private = pair
        found = {"public_key_sha256": sha256(public), "private_key_sha256": sha256(private)}
    if case.do == "keygen":
        return found
    if case.do == "keygen_and_hash_sign":
        if hashlib.sha512(g["message"]).digest() != g["digest"]:
            return {}
        front, signed = "hash_", [g["digest"], g["context"], g["oid"]]
    else:
        front, signed = "", [g["message"], g["context"]]
    signature = yield f"{front}sign", private, *signed, g["random"]
    if isinstance(signature, Refused):
        return {**found, "signature_sha256": None}
    # What was signed is accepted, too, where the public key is known.
    if public is not None and (yield f"{front}verify", public, *signed, signature[0]) is not True:
        return {**found, "signature_sha256": "of a signature that the key does not accept"}
    return {**found, "signature_sha256": sha256(signature[0])}


def by_mu(call, *arguments):
    """The call of an interface that takes mu where the standard's internal ones take M': the hash of the hash of the
    public key, and M'."""
    if call == "sign_internal":
        private, message, random = arguments
        return "sign_mu", private, hashlib.shake_256(private[64:128] + message).digest(64), random
    if call == "verify_internal":
        public, message, signature = arguments
        return (
            "verify_mu",
            public,
            hashlib.shake_256(hashlib.shake_256(public).digest(64) + message).digest(64),
            signature,
        )
    return call, *arguments


def outcomes(chosen, ask):
    """What came out of each case. `ask` takes pairs of a set and a call, and gives the results in their order; all
    first calls are asked at once, then all second ones, and so on."""
    found, waiting = [None] * len(chosen), []

    def advance(place, case, running, answer):
        try:
            waiting.append((place, case, running, running.send(answer)))
        except StopIteration as end:
            found[place] = end.value

    for place, case in enumerate(chosen):
        advance(place, case, calls(case), None)
    while waiting:
        now, waiting = waiting, []
        for (place, case, running, _), answer in zip(
            now, ask([(case.set, call) for _, case, _, call in now]), strict=True
        ):
            advance(place, case, running, answer)
    return found


def wrong(case, found):
    """What differs from what was published, and None where nothing does."""
    differs = [
        f"{name} is {found.get(name, 'not there')!r}, not {value!r}"
        for name, value in case.published.items()
        if name not in found or found[name] != value
    ]
    return f"{case}: {'; '.join(differs)}" if differs else None if case.published else f"{case}: nothing was published"


def changed(text):
    """A sum with one bit changed."""
    return f"{int(text[0], 16) ^ 1:x}{text[1:]}"


def changes(chosen, found):
    """Changes that `wrong` has to notice, each as a case, what is changed, and what `wrong` says: for a case of each
    kind and each published value one bit of it, and for each case that must be rejected the outcome that it was
    accepted."""
    tried, seen = [], set()
    for case, outcome in zip(chosen, found):
        for name, value in case.published.items():
            if value is not None and (case.of, name, value is False) not in seen:
                seen.add((case.of, name, value is False))
                other = not value if isinstance(value, bool) else changed(value)
                tried.append((case, f"a bit of {name}", wrong(case.but(published={name: other}), outcome)))
            if value is None or value is False:
                accepted = True if value is False else "00" * 32
                tried.append((case, "that it was refused", wrong(case, {**outcome, name: accepted})))
    return tried


def with_a_bit_changed(chosen):
    """A case of each kind and set, of those that must not be rejected, with one bit of what is given changed: none may
    have the outcome that was published."""
    first = {}
    for case in chosen:
        if not case.is_refusal:
            first.setdefault((case.of, case.set), case)
    found = []
    for case in first.values():
        names = "file", "signature", "digest", "message", "seed"
        name = next(it for it in names if it in case.given and case.given[it])
        value, at = case.given[name], len(case.given[name]) // 2
        more = {name: value[:at] + bytes([value[at] ^ 1]) + value[at + 1:]}
        if name == "digest":
            # (the digest has to be that of the message)
            more = {"context": case.given["context"] + b"\1"} if len(case.given["context"]) < 255 else {"context": b""}
        found.append(case.but(given=more))
    return found


def counted(chosen):
    """How many cases of each kind there are, as a text."""
    kinds = {}
    for case in chosen:
        of = f"keys in {case.of.split()[-1]}" if "file" in case.given else case.of
        kinds.setdefault(of, []).append(case.given.get("file"))
    return ", ".join(f"{of} {len(files)}" + (f" of {len({*files})} files" if all(files) else "")
                     for of, files in kinds.items())


def judged(name, chosen, found, other, of_other, each=False):
    """Prints what differs of what came out of cases, which changes were not noticed, and a line of both; gives whether
    all is well. `other` are the cases with a bit changed. With `each` it prints how many changes of each kind were
    noticed, too, and what was said of the first."""
    faults = list(filter(None, map(wrong, chosen, found)))
    tried = changes(chosen, found)
    tried += [(case, "a bit of what is given", wrong(case, outcome)) for case, outcome in zip(other, of_other)]
    missed = [f"NOT NOTICED: {case}: changed was {what}" for case, what, said in tried if said is None]
    for line in [*faults, *missed]:
        print(line)
    for kind in dict.fromkeys((case.of, what) for case, what, _ in tried) if each else ():
        said = [said for case, what, said in tried if (case.of, what) == kind and said is not None]
        print(f"changed: {kind[0]}, {kind[1]}: {len(said)} noticed; {said[0] if said else ''}")
    print(
        f"{name}: {len(chosen) - len(faults)} of {len(chosen)} as published; "
        f"{len(tried) - len(missed)} of {len(tried)} changes noticed"
    )
    return not faults and not missed
