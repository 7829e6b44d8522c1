"""Keys, signatures and verdicts by the definitions of specs/, over SHAKE256 and SHAKE128, for what vectors/ records.

XOFs have outputs of 4096 bytes, those of `hashlib`, to which `sponge_stands` compares the definitions of
`crates/shake`.
For speed the values of `product` and `inverse_transform` at all 256 places are computed at once, by the sums of their
definitions; nothing else is replaced. Keys and signatures are read here, field by field, and the definitions say
whether the bytes are those of what was read (`READERS`). Beside these: the public key that is derived of the private
one, prepared keys, the parameter set of its own numbers, and the outputs of the XOFs of this repository.
"""
import hashlib
import operator
import sys

import evaluate
from common import TOP, recorded_rows
from evaluate import Function, Parser, Record, ap, key, listed, now

sys.path.append(str(TOP / "vectors"))

from published import Refused

ROWS = recorded_rows()
# what is evaluated, and the definitions that tables stand in for
TEXTS = """generated public_key_bytes private_key_bytes sign_input unpacked sampled_matrix challenge representative
w1_bytes w1_prime c_tilde_length set_44 set_65 set_87 derived prepared_private prepared_public sign_prepared
public_of_prepared IsWholePrepared set_of sha256_front sha256_long_front sha512_front sha512_long_front IsPrefix"""
TABULATED = ("product", "inverse_transform")

Q = 8380417
PLACES = range(256)


def tabulated(program):
    """Puts tables in the place of the two definitions that are sums over 256 places; returns what clears them."""
    products, inverses, powers, defined = {}, {}, [], program.space[evaluate.mangled("inverse_transform")]

    def product(a, b, n):
        name = (key(a), key(b))
        if name not in products:
            xs, ys = [ap(a, i) for i in PLACES], [ap(b, i) for i in PLACES]
            wrapped = ys[::-1] + [(Q - 1) * y for y in reversed(ys)]
            products[name] = [sum(map(operator.mul, xs, wrapped[255 - place : 511 - place])) % Q for place in PLACES]
        return products[name][n]

    def inverse_transform(v, j):
        if not powers:
            # what has 1 at one point and 0 at the others has a 256th of the inverse of the point for its coefficient 1
            units = [Function(lambda n, i=i: int(now(n) == i), 1) for i in PLACES]
            inverse_points = [256 * defined(unit, 1) % Q for unit in units]
            powers.extend([pow(point, place, Q) for point in inverse_points] for place in PLACES)
        name = key(v)
        if name not in inverses:
            xs = [ap(v, i) for i in PLACES]
            inverses[name] = [8347681 * sum(map(operator.mul, xs, row)) % Q for row in powers]
        return inverses[name][j]

    program.space.update({evaluate.mangled("product"): product,
                          evaluate.mangled("inverse_transform"): inverse_transform})

    def clear():
        products.clear()
        inverses.clear()
        evaluate.KEPT.clear()

    return clear


def scheme(program, name):
    """What evaluates a text of definitions at a set over SHAKE, with values by their names; the names stay known."""
    shake256 = Function(lambda xs: tuple(hashlib.shake_256(bytes(listed(xs))).digest(4096)), 1, (), "H")
    shake128 = Function(lambda xs: tuple(hashlib.shake_128(bytes(listed(xs))).digest(4096)), 1, (), "G")
    known = {"p": program.value(f"set_{name}"), "H": shake256, "G": shake128}
    program.readers.update(READERS)

    def said(words, /, **more):
        known.update(more)
        program.space.update({f"v_{word}": value for word, value in known.items()})
        return program.evaluated(Parser(words).term(), known)

    return said


def encoded(said, pk, sk):
    """The bytes of a public and of a private key."""
    both = said("public_key_bytes pk.rho pk.t1", pk=pk), said("private_key_bytes p.eta sk", sk=sk)
    return tuple(bytes(listed(now(it))) for it in both)


def hashes(program, row):
    """The hashes of both keys and the signature of a row, and whether the signature is accepted and the rest holds."""
    name, seed, random, context, text = row[:5]
    seed, random, context, text, oid = (tuple(bytes.fromhex(part))
                                        for part in (seed, random, context, text, "".join(row[8:])))
    said = scheme(program, name)
    said("p", text=text, context=context, oid=oid, xi=seed, rnd=random)
    said("p", input=said("hashed text context oid" if oid else "plain text context"))
    pair = said("generated p H G xi").parts[0]
    pk, sk = pair.get("0"), pair.get("1")
    both = encoded(said, pk, sk)
    signature = listed(now(said("sign_input p H G sk rnd input").parts[0]))
    accepted = said("VerifiesInput p H G pk signature input", signature=signature)
    stands = accepted and others(said, pk, sk, signature) and fronts(said, text)
    return [hashlib.sha256(part).hexdigest() for part in (*both, bytes(signature))], stands


def answer(program, number, call, *arguments):
    """The result of a call of a published case by the definitions: bytes, a verdict, or an error."""
    said, given = scheme(program, number), [tuple(it) for it in arguments]
    if call == "keygen":
        pair = said("generated p H G xi", xi=given[0])
        found = pair.parts[0]
        return Refused(found.name) if pair.name == "Err" else encoded(said, found.get("0"), found.get("1"))
    key, *parts, last = given
    form = {"sign": "plain", "verify": "plain", "hash_sign": "hashed", "hash_verify": "hashed",
            "sign_internal": "framed", "verify_internal": "framed"}[call]
    names = ("text", "context", "oid")[: len(parts)]
    said("p", **dict(zip(names, parts)))
    said("p", input=said(f"{form} {' '.join(names)}"))
    parameters = {name: said(f"p.{name}") for name in ("eta", "k", "l")}
    if "verify" in call:
        read = program.exist["IsPublicKeyOf"].read({"H": said("H"), "k": parameters["k"], "bytes": key})
        return (said("VerifiesInput p H G pk signature input", pk=read["pk"], signature=last) if read
                else Refused("no public key has these bytes"))
    read = program.exist["IsPrivateKeyOf"].read({**parameters, "bytes": key})
    if not read:
        return Refused("no private key has these bytes")
    signature = said("sign_input p H G sk rnd input", sk=read["sk"], rnd=last)
    return Refused(signature.parts[0].name) if signature.name == "Err" else (bytes(listed(now(signature.parts[0]))),)


def polynomials(program, a, b, data, count):
    """The polynomials that bytes hold one after another, with coefficients from -a to b (Algorithms 18 and 19)."""
    size = 32 * program.value("bit_length", a + b)
    return tuple(program.value("unpacked", a, b, data[size * i :][:size]) for i in range(count))


def public_parts(program, given):
    """The one candidate for the parts of a public key with these bytes."""
    data = given["bytes"]
    hash_ = tuple(listed(ap(given["H"], data))[:64])
    return {"pk": Record({"rho": data[:32], "tr": hash_, "t1": polynomials(program, 0, 1023, data[32:], given["k"])})}


def private_parts(program, given):
    """The one candidate for the parts of a private key with these bytes."""
    data, eta, k, columns = given["bytes"], given["eta"], given["k"], given["l"]
    size = 32 * program.value("bit_length", 2 * eta)
    vectors = {"s1": polynomials(program, eta, eta, data[128:], columns),
               "s2": polynomials(program, eta, eta, data[128 + size * columns :], k),
               "t0": polynomials(program, 4095, 4096, data[128 + size * (k + columns) :], k)}
    return {"sk": Record({"rho": data[:32], "key": data[32:64], "tr": data[64:128], **vectors})}


def signature_parts(program, given):
    """The one candidate for the parts of a signature with these bytes: every z has a spelling, and a hint has the
    places that its spelling lists."""
    data, gamma1, omega, k, l, n = (given[name] for name in ("bytes", "gamma1", "omega", "k", "l", "n"))
    size = 32 * program.value("bit_length", 2 * gamma1 - 1)
    hint = data[n + size * l :]
    ends = (0, *hint[omega : omega + k])
    h = tuple(Record({"0": tuple(int(place in hint[start:end]) for place in PLACES)})
              for start, end in zip(ends, ends[1:]))
    return {"c_tilde": data[:n], "z": polynomials(program, gamma1 - 1, gamma1, data[n:], l), "h": h}


# What reads the values that these records state to exist; the records say whether they are the values.
READERS = {"IsPublicKeyOf": public_parts, "IsPrivateKeyOf": private_parts, "IsSignature": signature_parts}


def others(said, pk, sk, signature):
    """Whether derived and prepared keys are right, and the set is that of its own numbers."""
    prepared, public = said("prepared_private p G sk", sk=sk).parts[0], said("prepared_public p G pk", pk=pk).parts[0]
    known = dict(pk=pk, sk=sk, prepared=prepared, public=public, signature=signature)
    return all(said(text, **known)
               for text in ("derived p G sk ≡ Ok pk", "sign_prepared p H prepared rnd input ≡ Ok signature",
                            "IsWholePrepared p prepared", "public_of_prepared p prepared ≡ public", "set_of p ≡ p"))


def sponge_stands():
    """Whether the definitions of `crates/shake` give the bytes of `hashlib`, for messages and outputs about the ends of
    blocks."""
    program = evaluate.program("shake")
    cases = [*((size, 40) for size in (0, 1, 7, 8, 34, 66)),
             *((size, 1) for size in (135, 136, 137, 167, 168, 169, 271, 272, 273, 336, 337)),
             *((34, size) for size in (0, 1, 135, 136, 137, 167, 168, 169, 272, 505))]
    for size, wanted in cases:
        message = bytes((73 * place + 5 * size) % 256 for place in range(size))
        for name, hash_ in (("shake128", hashlib.shake_128), ("shake256", hashlib.shake_256)):
            if bytes(listed(program.value(name, tuple(message), wanted))) != hash_(message).digest(wanted):
                return False
    return True


def attempts_stand(program):
    """Whether signing takes attempts 0 to 813 and no other: over zero bytes the one coefficient that y has everywhere
    is gamma1, which is rejected, but in one attempt y is 0. The set has one column and no row, and a challenge without
    signs."""
    sk = Record({"rho": (), "key": (), "tr": (), "s1": (), "s2": (), "t0": ()})
    zero = sum(131072 << 18 * place for place in PLACES).to_bytes(576, "little")

    def refuses(kept):
        seed = bytes(64) + kept.to_bytes(2, "little")
        stream = Function(lambda xs: tuple(zero if bytes(listed(xs)) == seed else bytes(576)), 1, (), "H")
        program.space.update(v_sk=sk, v_H=stream)
        text = "sign_with (record set_44 { tau = 0; k = 0; l = 1 }) H [] sk [] [] ≡ Err TooManyAttempts"
        return program.evaluated(Parser(text).term(), ("H", "sk"))

    return [refuses(kept) for kept in (0, 813, 814)] == [False, False, True]


def fronts(said, text):
    """Whether the XOFs of this repository have the blocks that `hashlib` gives, and the shorter are prefixes of the
    longer."""

    def blocks(hash_, count):
        seed = hash_(bytes(text)).digest()
        return tuple(b"".join(hash_(seed + i.to_bytes(4, "little")).digest() for i in range(count)))

    known = (("sha256", hashlib.sha256, 128, 512), ("sha512", hashlib.sha512, 64, 256))
    return all(
        listed(now(said(f"{name}_front text"))) == blocks(hash_, count)
        and listed(now(said(f"{name}_long_front text"))) == blocks(hash_, longer)
        and said(f"IsPrefix ({name}_front text) ({name}_long_front text)")
        and not said(f"IsPrefix ({name}_long_front text) ({name}_front text)")
        and not said(f"IsPrefix (1 ∷ {name}_front text) ({name}_long_front text)")
        for name, hash_, count, longer in known
    )
