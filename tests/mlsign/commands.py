"""Each command: which files are there afterwards, their bytes and rights, the status, and both outputs.

The keys are those that OpenSSL made of the seed 00 01 .. 1F, which are recorded in crates/mlsign_session/data with what
it signed; the expanded ones and the signatures, of which hashes stand below, are an independent model's, whose
signatures OpenSSL accepts. calls.c gives the bytes 00 01 .. 1F for random ones.
"""
import hashlib
import os
import re

from common import LENGTHS, SETS, TOP
from keyfiles import der_of, fingerprint, recorded
from room import HERE, Room, both, expanded_key, house

# SHA-256 of the signatures of `message`: deterministic under the context `context` and under none; and under `context`
# over the stated bytes.
DETERMINISTIC = {"44": "437eff3b5995aaa99468a279fc77e697fa8bc204d48a7f511fb83fe502f0f1f3",
                 "65": "99ed95a700b778e438939a7252a264840487f710dbc3ba2b0728fa21bfa84cfa",
                 "87": "0148c9e8f79ffd5fa8c7af7220899bdd9503616e9acb379bb1930057badef6f7"}
NO_CONTEXT = {"44": "d764b00526ae8e81071a8f0d25ec52588642a0eae1ebe79e23aaebd1c48f82eb",
              "65": "528fbdd2627565d4bf5caede411725759b235999ce0d91a92a3eaba020906ef4",
              "87": "b20f48bbdf5ddaef42efc83ccf823ca8e74d7692c3c61968d80d8f8385b6594b"}
STATED = {"44": "1c0509f574ee4b37f995282f50c065c38e5bb2dcabc72453cffa9abdf9eadcbe",
          "65": "c9e92e0a6b8408218677d121df542533268bae5aca060ece7c64693b9fbba948",
          "87": "d5de61686b196ae7b61cf969847afefd7b2798574e71d6e4a637a5f2bea01e7f"}
DEEP = "/".join(4 * ["a" * 64])


def valid(public, *front):
    """What `verify` prints of valid signatures by a key, with these names in front of the lines."""
    return "".join(f"{name}valid\n" for name in front or ("",)).encode() + f"key: {fingerprint(public)}\n".encode()


def shown(kind, number, public):
    """What `show` prints of a key of a pair with this public key."""
    shake = hashlib.shake_256(der_of(public)[22:]).hexdigest(64)
    lines = [f"kind: {kind} key", f"set: ML-DSA-{number}", f"fingerprint: {fingerprint(public)}"]
    return "\n".join([*lines, f"hash of the public key: {shake}", ""]).encode()


def texts_of(text):
    """A key's text as others write it: with what is before it, behind it or in its lines; and each way with its
    name."""
    lines = text.decode().splitlines()
    symbols = "".join(lines[1:-1])

    def wrapped(size):
        return [lines[0], *(symbols[at:at + size] for at in range(0, len(symbols), size)), lines[-1]]

    yield "text before it", "Public-Key: (1952 bits)\npub:\n    00:01\n".encode() + text
    yield "text behind it", text + "ML-DSA-65 Public-Key:\npub:\n    00:01\n".encode()
    for size in (1, 60, 63, 65, 76, len(symbols)):
        yield f"lines of {size}", "\n".join([*wrapped(size), ""]).encode()
    yield "no newline at the end", text[:-1]
    yield "blanks at the ends of lines", "".join(f"{line} \t\n" for line in lines).encode()
    yield "blanks before lines", "".join(f"  {line}\n" for line in lines).encode()
    yield "empty lines", b"\n\n" + text.replace(b"\n", b"\n\n") + b"\n"
    for name, end in (("CR and LF", "\r\n"), ("CR", "\r")):
        yield name, "".join(f"{line}{end}" for line in lines).encode()
    yield "a mark of the order of bytes", b"\xef\xbb\xbf" + text


def forms_of(number):
    """A set's keys in each form, with the words that raw bytes need: the public key and the three private ones."""
    public, seed = recorded(f"public-{number}.pem"), recorded(f"private-{number}.pem")
    for name, text, raw in (("public", public, der_of(public)[22:]), ("private-seed", seed, bytes(range(32))),
                            ("private-expanded", recorded(f"expanded-{number}.pem"), expanded_key(number)),
                            ("private-both", both(number), None)):
        yield name, {"pem": text, "der": der_of(text), "raw": raw}, ("--set", number) if name == "private-seed" else ()


def names(text):
    """The options and arguments that a text names."""
    return set(re.findall(r"--?[a-z][\w-]*|<\w+>", text))


def refusals(number):
    """The calls of the table at a set: words, what is piped in, the status, and what is said."""
    places = {"SET": number, "OTHER": SETS[SETS.index(number) - 1], "DEEP": DEEP, "LONG": 256 * "a"}
    for line in (HERE / "refused").read_text(encoding="utf-8").splitlines():
        if line and line[0] != "#":
            line = re.sub(r"\b(SET|OTHER|DEEP|LONG)\b", lambda m: places[m[0]], line)
            call, _, said = line.partition(" | ")
            words, _, read = call.partition(" < ")
            yield words, read, 1 if said[0] == "!" else 2, said.removeprefix("! ")


class Program(Room):
    def same(self, what, found, wanted):
        self.assertEqual(found, wanted, what)

    def writes(self, *words, wrote=b"", changed=(), **more):
        """A run that is done, writes this, and makes or changes these files, each with its bytes and rights."""
        before = self.files()
        self.same(words, self.done(*words, **more), wrote)
        self.same_files(words, self.files(), {**before, **dict(changed)})

    def silent(self, *words, **more):
        """A run that is done and writes nothing on standard output; its files are not looked at."""
        self.same(words, self.done(*words, **more), b"")

    def has_hash(self, name, wanted):
        self.same(name, hashlib.sha256(self.read(name)).hexdigest(), wanted)

    def signed(self, number, key, wanted, *words, message="message", **more):
        """A signature with this hash, in a new file."""
        self.silent(f"sign --private {key}", *words, "--out new", message, **more)
        bytes_, mode = self.files()["new"]
        self.same(f"sign {words} at {number}", (hashlib.sha256(bytes_).hexdigest(), len(bytes_), mode),
                  (wanted, LENGTHS[number][2], 0o644))
        os.rename(self.path("new"), self.path("signature"))


class Commands(Program):
    def test_sets(self):
        for number in SETS:
            with self.subTest(part=f"each command at ML-DSA-{number}"):
                self.commands(number)
            with self.subTest(part=f"keys in DER and in raw bytes, at ML-DSA-{number}"):
                self.forms(number)

    def commands(self, number):
        """Each command at a set."""
        private, public = recorded(f"private-{number}.pem"), recorded(f"public-{number}.pem")
        other = SETS[SETS.index(number) - 1]
        pair = {"new": (private, 0o600), "new.pub": (public, 0o644)}
        self.fill({"message": b"message"})
        chosen = ("--set", number) if number != "65" else ()
        self.writes("keygen", *chosen, "--private new --public new.pub", changed=pair, STATED_BYTES="1")
        self.silent(f"keygen --force --set {other} --private new --public new.pub")
        self.assertNotIn(self.read("new"), (private, recorded(f"private-{other}.pem")), "the seed is not random")
        self.writes(f"keygen --force --set {number} --private new --public new.pub", changed=pair, STATED_BYTES="1")

        keys = {"private": private, "private-both": both(number),
                "private-expanded": recorded(f"expanded-{number}.pem")}
        self.fill({**keys, "public": public, "message": b"message", "openssl": recorded(f"signature-{number}")})
        for key in keys:
            self.writes(f"public --private {key} --public new.pub", changed={"new.pub": (public, 0o644)})
            os.remove(self.path("new.pub"))
            self.writes(f"public --private {key} --public -", wrote=public)
            self.signed(number, key, DETERMINISTIC[number], "--deterministic", "--context", "context")
            self.signed(number, key, STATED[number], "--context", "context", STATED_BYTES="1")
        self.signed(number, "private", NO_CONTEXT[number], "--deterministic")
        self.signed(number, "private", DETERMINISTIC[number], "--deterministic", "--context", "context",
                    read=b"message", message="-")
        hedged = set()
        for _ in range(2):
            self.silent("sign --private private --out signature message")
            hedged.add(hashlib.sha256(self.read("signature")).hexdigest())
        self.same("sign: random signatures", len(hedged - {NO_CONTEXT[number]}), 2)

        verify = "verify --public public"
        self.writes(f"{verify} --signature signature message", wrote=valid(public))
        self.writes(f"{verify} --context context --signature openssl message", wrote=valid(public))
        self.writes(f"{verify} --context context --signature openssl -", wrote=valid(public), read=b"message")
        self.writes(f"{verify} --quiet --context context --signature openssl message")
        self.fails(f"{verify} -c context --signature signature message", status=1, said="the signature is invalid")
        for key in ("public", *keys):
            self.writes(f"show {key}", wrote=shown("public" if key == "public" else "private", number, public))

    def forms(self, number):
        """Keys in DER and in raw bytes."""
        keys = {name: (forms_, words) for name, forms_, words in forms_of(number)}
        for name, (written, words) in keys.items():
            mode = 0o644 if name == "public" else 0o600
            self.fill({f"{name}.{form}": file for form, file in written.items() if file})
            for form, file in written.items():
                for to, wanted in written.items() if file else ():
                    call = ("convert", "--from", form, "--to", to, *(words if form == "raw" else ()), "-o", "new",
                            f"{name}.{form}")
                    if wanted is None:
                        self.fails(*call, said="it holds a seed and an expanded key: choose one with --parts")
                        continue
                    self.writes(*call, changed={"new": (wanted, mode)})
                    self.fails(*call, said="new: it is there already")
                    os.remove(self.path("new"))
            raw = written["raw"] or b""
            for wrong in (raw[:-1], raw + b"\0") if raw else ():
                self.put("wrong", wrong, 0o600)
                self.fails("convert --from raw -o none wrong", said="wrong: no key has so many bytes")
                self.fails(f"convert --from raw --set {number} -o none wrong", said="wrong: its key has a wrong length")
        parts = {"private-seed": "seed", "private-expanded": "expanded"}
        for name in ("private-seed", "private-expanded", "private-both"):
            self.fill({name: keys[name][0]["der"]})
            for wanted, part in parts.items():
                for to in ("pem", "der", "raw"):
                    call = ("convert", "--from", "der", "--to", to, "--parts", part, "-o", "new", name)
                    if (name, part) == ("private-expanded", "seed"):
                        self.fails(*call, said="it has no seed")
                        continue
                    self.writes(*call, changed={"new": (keys[wanted][0][to], 0o600)})
                    os.remove(self.path("new"))
        public, seed = keys["public"][0], keys["private-seed"][0]
        self.fill({"private": seed["der"], "private-expanded": keys["private-expanded"][0]["der"],
                   "public": public["der"], "message": b"message", "openssl": recorded(f"signature-{number}")})
        self.writes(f"keygen --der --set {number} -k new -p new.pub",
                    changed={"new": (seed["der"], 0o600), "new.pub": (public["der"], 0o644)}, STATED_BYTES="1")
        for key in ("private", "private-expanded"):
            self.writes(f"public --der -k {key} -p -", wrote=public["der"])
            self.silent(f"sign --der --deterministic -c context -k {key} message")
            self.has_hash("message.sig", DETERMINISTIC[number])
        self.writes("verify --der -p public -c context -s openssl message", wrote=valid(public["pem"]))
        for key, kind in (("public", "public"), ("private", "private"), ("private-expanded", "private")):
            self.writes(f"show --der {key}", wrote=shown(kind, number, public["pem"]))

    def test_refused(self):
        for number in SETS:
            self.setUp()
            self.fill(house(number))
            os.link(self.path("long"), self.path("second"))
            self.path(DEEP).mkdir(parents=True)
            for folder in ("", f"{DEEP}/"):
                os.mkfifo(self.path(f"{folder}pipe"))
                os.symlink("nothing", self.path(f"{folder}link"))
            for name in ("private", "public", "message", "large", "fixed"):
                self.path(f"{DEEP}/{name}").write_bytes(self.read(name))
            for name in ("fixed", "public.fixed", "private-fixed", f"{DEEP}/fixed"):
                self.path(name).chmod(0o400)
            with self.subTest(part=f"calls that are refused, at ML-DSA-{number}"):
                for words, read, status, said in refusals(number):
                    self.fails(words, status=status, said=said, read=self.read(read) if read else b"")
                self.fails("sign -f -k private -o second long", said="second: it is the message")

    def test_written_by_others(self):
        """Keys as others write them."""
        for number in SETS:
            private, public = recorded(f"private-{number}.pem"), recorded(f"public-{number}.pem")
            for name, text in texts_of(private):
                self.fill({"private": text})
                self.same(f"a private key with {name}", self.call("public -k private -p -"), (0, public, ""))
            for name, text in texts_of(public):
                self.fill({"public": text, "message": b"message", "signature": recorded(f"signature-{number}")})
                self.same(f"a public key with {name}", self.call("verify -p public -c context -s signature message"),
                          (0, valid(public), ""))

    def test_several(self):
        """Several messages in a call, whose signatures have their names."""
        private, public, signature = recorded("private-65.pem"), recorded("public-65.pem"), recorded("signature-65")
        self.fill({"private": private, "public": public, "message": b"message", "other": b"other"})
        sign, verify = "sign --deterministic --context context -k private", "verify -p public -c context"
        self.silent(f"{sign} message other")
        self.has_hash("message.sig", DETERMINISTIC["65"])
        self.writes(f"{verify} message", wrote=valid(public))
        self.writes(f"{verify} message other", wrote=valid(public, "message: ", "other: "))
        self.writes(f"{verify} -q message other")
        self.put("other.sig", signature)
        before = self.files()
        self.same("verify", self.call(f"{verify} other message"), (1, valid(public, "message: "), (
            "mlsign: other: the signature is invalid: it, the message, the context or the key is the wrong one\n")))
        self.same_files("verify", self.files(), before)
        os.chmod(self.path("private"), 0o644)
        note = "mlsign: note: private can be read by others: `chmod 600` keeps it private\n"
        self.silent(f"{sign} message", said=note)

    def test_replaced(self):
        """Files that are replaced."""
        private, public, signature = recorded("private-44.pem"), recorded("public-44.pem"), recorded("signature-44")
        files = {"private": private, "public": public, "message": b"message", "signature": signature, "empty": b""}
        self.fill(files)
        sign = "sign --deterministic --context context --private private"
        made = self.done(f"{sign} --out - message")
        self.same("sign", hashlib.sha256(made).hexdigest(), DETERMINISTIC["44"])
        for out in ("signature", "empty"):
            self.writes(f"{sign} --out {out} message", changed={out: (made, 0o644)})
        self.writes("public --force --private private --public message", changed={"message": (public, 0o644)})
        os.symlink("signature", self.path("link"))
        self.silent(f"{sign} --out link message")
        self.same("a link", [os.path.islink(self.path(name)) for name in ("link", "signature")], [True, False])
        os.remove(self.path("link"))
        self.silent(f"{sign} --out", "x" * 250, "message")

    def test_raced(self):
        """Another program makes the file first, also where the file system has no links: it is not replaced."""
        files = {"private": recorded("private-44.pem"), "public": recorded("public-44.pem"), "message": b"message"}
        for name, words in (("new", "keygen --set 44 --private new --public new.pub"),
                            ("new.pub", "keygen --set 44 --private new --public new.pub"),
                            ("new", "sign --private private --out new message")):
            self.fill(files)
            # (of a pair the private key gets its name by the second link)
            links = [number for number, call in enumerate(self.calls(words), 1) if call == "link"]
            link = links[0] if name == "new.pub" else links[-1]
            for refused in ("0", str(link)):
                self.fill(files)
                status, _, said = self.call(words, RACED=name, REFUSED_CALL=refused, REFUSED_ERROR="1")
                self.same(f"{words}, where {name} comes up", (status, self.read(name), len(self.files())),
                          (2, b"", len(files) + 1))
                self.assertIn("File exists", said)

    def test_printable(self):
        """Words that cannot be printed, or are no UTF-8."""
        self.fill({"private": recorded("private-44.pem"), "public": recorded("public-44.pem"), "message": b"message"})
        for name, shown_ in (("no\nfile", r"no\nfile"), ("no\x1b[31mfile", r"no\u{1b}[31mfile"),
                             ("no\u202efile", r"no\u{202e}file"), ("n\u00f6", "n\u00f6")):
            self.fails(f"verify --public public --signature {name} message", said=f"{shown_}: ")
            self.fails(f"verify --public {name} --signature private message", said=f"{shown_}: ")
            self.fails(f"sign --private private --out none/{name} message", said=shown_)
            self.fails(f"show public {name}", said=shown_)
            self.fails(f"keygen --set {name} --private a --public b", said=shown_)
        self.fails("sgn\n\nx", said=r"sgn\n\nx")
        for words in ((b"verify", b"--public", b"p\xff"),
                      (b"sign", b"--private", b"private", b"--context", b"p\xff", b"--out", b"new", b"message")):
            self.fails(*words, said=r"p\xff: this word is not UTF-8")
        context = "\n\x1b\u202e"
        self.silent("sign --private private --context", context, "--out new message")
        public = recorded("public-44.pem")
        self.writes("verify --public public --context", context, "--signature new message", wrote=valid(public))

    def test_session(self):
        """The calls of crates/mlsign_session. What clap says has to name the same options, if it is not the kit's."""
        session = TOP / "crates/mlsign_session"
        wanted = (session / "stdout").read_text(encoding="utf-8").removeprefix("> ").split("\n> ")
        calls = (session / "stdin").read_text(encoding="utf-8").splitlines()
        self.same("calls", [it.partition("\n")[0] for it in wanted], calls)
        for name in sorted((session / "data").iterdir()):
            self.put(name.name, name.read_bytes())
        for call, ended in zip(calls, wanted):
            status, wrote, said = self.call(call)
            found = f"{call}\n{wrote.decode()}{status}"
            if status == 2:
                found += f": {said.removeprefix('mlsign: ').rstrip()}"
            if Room.of_crates and ("Usage: " in ended or "; try mlsign --help" in ended):
                self.same(call, (status, names(ended) - names(found)), (2 if "try mlsign" in ended else 0, set()))
            else:
                self.same(call, found, ended.rstrip("\n"))
