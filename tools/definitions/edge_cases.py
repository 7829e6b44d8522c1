"""Signatures and keys at the edge of each rule that rejects them, evaluated by the definitions of specs/.

The XOF in SHAKE256's place is a weak one: it gives zeros whatever it is given. So every input has the same mu, and
c_tilde is zeros under every key, for every z and every hint: what is rejected is so by the rule of its name alone,
and two inputs that one signature is accepted for collide. Where sampling comes to its limit, bytes FF and
then zeros stand in the place of one of the two XOFs.
"""
from evaluate import Function, Record
from recorded import scheme

# FIPS 204, Tables 1 and 2: tau, gamma1, beta, omega, k, l, eta, and the bytes of c_tilde.
SETS = {
    "44": (39, 2**17, 78, 80, 4, 4, 2, 32),
    "65": (49, 2**19, 196, 55, 6, 5, 4, 48),
    "87": (60, 2**19, 120, 75, 8, 7, 2, 64),
}
ZEROS = (0,) * 4096
# So many triples of the output are read for an entry of the matrix, and so many bytes behind the first eight for a
# challenge.
READ = len(ZEROS) // 4


def packed(fields, width):
    """Fields of so many bits, the lowest first (Algorithms 16 and 17)."""
    number = sum(field << width * place for place, field in enumerate(fields))
    return number.to_bytes(len(fields) * width // 8, "little")


class Edges:
    """The parameter set of a number, with the weak XOF, a public key of zeros, and what is made for them."""

    def __init__(self, program, number):
        self.program, self.number, self.wrong = program, number, []
        self.tau, self.gamma1, self.beta, self.omega, self.k, self.l, self.eta, self.c_tilde = SETS[number]
        self.said = scheme(program, number)
        t1 = tuple(Record({"0": (0,) * 256}) for _ in range(self.k))
        self.said("p", H=Function(lambda _: ZEROS, 1, (), "weak"))
        self.said("p", pk=Record({"rho": ZEROS[:32], "tr": ZEROS[:64], "t1": t1}))
        self.said("p", input=self.said("plain text context", text=(1,), context=()))

    def signature(self, place=0, z=0, hints=b"", ends=None, c_tilde=b""):
        """A signature with one coefficient of z that is not 0, the places in hints, and where each row ends."""
        response = [self.gamma1] * 256 * self.l
        response[place] -= z
        ends = bytes([len(hints)] * self.k) if ends is None else ends
        return (
            c_tilde.ljust(self.c_tilde, b"\0")
            + packed(response, (2 * self.gamma1 - 1).bit_length())
            + hints.ljust(self.omega, b"\0")
            + ends
        )

    def private_key(self, place, field):
        """A private key of zeros but for one field of s1 and s2, counted through both."""
        fields = [0] * 256 * (self.l + self.k)
        fields[place] = field
        return bytes(128) + packed(fields, (2 * self.eta).bit_length()) + bytes(416 * self.k)

    def wants(self, what, wanted, words, **given):
        if bool(self.said(words, **given)) != wanted:
            self.wrong.append(f"{self.number}, {what}")

    def judged(self, what, wanted, signature, more="input", **given):
        self.wants(what, wanted, f"VerifiesInput p H G pk signature {more}", signature=tuple(signature), **given)

    def norms(self):
        bound, last = self.gamma1 - self.beta, 256 * self.l - 1
        for place in (0, last):
            for sign in (1, -1):
                self.judged(f"z at {place} within its bound", True, self.signature(place, sign * (bound - 1)))
                self.judged(f"z at {place} at its bound", False, self.signature(place, sign * bound))

    def spellings(self):
        made, k, omega = self.signature, self.k, self.omega
        self.judged("hint of all its ones", True, made(hints=bytes(range(omega))))
        self.judged("hints of two rows", True, made(hints=b"\7\7", ends=bytes([1] + [2] * (k - 1))))
        self.judged("hint with a place twice", False, made(hints=b"\7\7"))
        self.judged("hint that falls", False, made(hints=b"\7\3"))
        ends = bytes([omega + 1] * k)
        self.judged("hint with an end past the last", False, made(hints=bytes(range(omega)), ends=ends))
        self.judged("hint with ends that fall", False, made(hints=b"\3\7", ends=bytes([2] + [1] * (k - 1))))
        self.judged("hint with a place behind the last end", False, made(hints=b"\3\7", ends=bytes([1] * k)))
        self.judged("a byte more", False, made() + b"\0")
        self.judged("a byte less", False, made()[:-1])

    def rules(self):
        self.judged("another commitment", False, self.signature(c_tilde=b"\1"))
        for size in (0, 255, 256):
            self.said("p", context=(5,) * size)
            for form in ("plain text context", "hashed text context oid"):
                given = self.said(form, text=(1,) * 32, oid=(6, 1, 1))
                self.said("p", other=given)
                self.judged(f"{form} of {size} bytes", size < 256, self.signature(), "other")

    def limits(self):
        """Bytes FF, which sampling passes over, before zeros, which it keeps: the matrix (of G) or the challenge (of H)
        is just there, lacks one value, or would never be there. Nothing else keeps the signature from being valid."""
        for name, what, most, size in (("G", "matrix", READ - 256, 3), ("H", "challenge", 8 + READ - self.tau, 1)):
            usual = self.said(name)
            signature = self.signature(c_tilde=b"\xff" * self.c_tilde if name == "H" else b"")
            for passed in (most, most + 1, len(ZEROS)):
                output = ((255,) * size * passed + ZEROS)[: len(ZEROS)]
                xof = Function(lambda _, output=output: output, 1, (), f"{passed} of FF for {name}")
                self.judged(f"{what} behind {passed} of FF", passed == most, signature, **{name: xof})
            self.wants(f"collision without a {what}", False, "NamesCollision p H G pk signature m n", m=(1,), n=(2,))
            self.said("p", **{name: usual})

    def keys(self):
        """Private keys with a coefficient at -eta and beyond."""
        for place in (0, 256 * self.l - 1, 256 * self.l, 256 * (self.l + self.k) - 1):
            for field in (2 * self.eta, 2 * self.eta + 1):
                given = {"eta": self.eta, "k": self.k, "l": self.l, "bytes": tuple(self.private_key(place, field))}
                is_key = self.program.exist["IsPrivateKeyOf"].read(given) is not None
                if is_key != (field == 2 * self.eta):
                    self.wrong.append(f"{self.number}, private key with {field} at {place}")

    def collisions(self):
        """What two inputs, values of mu and keys collide in, under one signature."""
        known = {"signature": tuple(self.signature()), "m": (1,), "n": (2,), "mu": ZEROS[:64], "nu": (1,) * 64,
                 "bytes": (1,), "others": (2,)}
        beyond = tuple(self.signature(0, self.gamma1 - self.beta))
        for of, given, alike in (("NamesCollision p H G pk signature", "m n", "m m"),
                                 ("NamesHashCollision p H G pk signature", "mu nu", "mu mu"),
                                 ("NamesKeyCollision p H G bytes others pk pk signature", "m n", "m m")):
            name = of.split()[0]
            self.wants(f"{name} of two", True, f"{of} {given}", **known)
            self.wants(f"{name} of one", "Key" in name, f"{of} {alike}", **known)
            self.wants(f"{name} without a signature", False, f"{of} {given}", **{**known, "signature": beyond})
        self.wants("keys alike", False, "NamesKeyCollision p H G bytes bytes pk pk signature m m", **known)
        shake = scheme(self.program, self.number)
        self.wrong += [f"{self.number}, a collision of SHAKE256" for n in (1, 64)
                       if shake("Collide H size m n", size=n, m=(1,), n=(2,))]


def edges(program, number, first=False):
    """What the definitions say otherwise than FIPS 204 does, at the edges of its rules; or the first of that."""
    made = Edges(program, number)
    for part in (made.keys, made.rules, made.spellings, made.norms, made.collisions, made.limits):
        if not (first and made.wrong):
            part()
    return made.wrong
