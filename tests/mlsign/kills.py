"""Each call of the system that a command makes is refused in turn, with two errors (`--all`: with five), also with all
later calls that change something, and the command is killed at each call by SIGINT.

A run that fails changes no file (of several messages some may be signed) and says why on one line; what it wrote to
standard output before stays there. A pair of keys is never half new: where not all can be undone, or the run was
killed, the old private key is in its place until the new pair stands, and what else is left has a name of its own,
which the next run says.
"""
import errno
import hashlib
import signal

from commands import Program
from keyfiles import der_of, pem, public_der, recorded
from room import LEFT

ERRORS = [errno.EACCES, errno.ENOSPC, errno.EPERM, errno.EBUSY, errno.EIO]


def notes_of(words, said):
    """The names that the notes of a run say, and its other lines."""
    lines = said.splitlines()
    notes = {line.split()[2]: line for line in lines if line.startswith("mlsign: note: ")}
    others = [line for line in lines if not line.startswith("mlsign: note: ")]
    if len(others) > 1 or not all(line.isprintable() for line in lines):
        raise AssertionError(f"{words}: said {lines}")
    return notes, others


class RefusedCalls(Program):
    errors = ERRORS[:2]

    def refuse(self, files, words):
        """Refuses each call of a run in turn, and kills the run there."""
        several = words[0] == "sign" and words[-2] in files
        self.fill(files)
        calls = self.calls(*words, STATED_BYTES="1")
        self.fill(files)
        before, right_wrote, right = self.files(), self.done(*words, STATED_BYTES="1"), self.files()
        for number, call in enumerate(calls, 1):
            for error in self.errors:
                for more in (), (("REFUSED_ON", "1"),):
                    self.fill(files)
                    refused = "refused and all that follow" if more else "refused"
                    what = f"{' '.join(words)}, {call} ({number}) {refused} by {errno.errorcode[error]}"
                    status, wrote, said = self.call(*words, STATED_BYTES="1", REFUSED_CALL=str(number),
                                                    REFUSED_ERROR=str(error), **dict(more))
                    notes, others = notes_of(what, said)
                    found = self.files()
                    left = found.keys() - before.keys() - right.keys()
                    rest = {name: found[name] for name in found.keys() - left}
                    if left - notes.keys() or not all(LEFT.search(name) for name in left):
                        self.fail(f"{what}: left {sorted(left)}, and said {said}")
                    if left and not more and call not in ("unlink", "rename"):
                        self.fail(f"{what}: left {sorted(left)}")
                    if status == 0:
                        self.same_files(what, rest, right)
                        self.same(what, (wrote, others), (right_wrote, []))
                        continue
                    self.same(what, (status, len(others)), (2, 1))
                    if not more and not several:
                        self.same_files(what, rest, before)
                        if not right_wrote.startswith(wrote):
                            self.fail(f"{what}: wrote {wrote}")
                        continue
                    self.halves(what, before, found, right, notes)
        for number, call in enumerate(calls, 1):
            self.fill(files)
            what = f"{' '.join(words)}, killed at {call} ({number})"
            status, _, said = self.call(*words, STATED_BYTES="1", REFUSED_CALL=str(number),
                                        REFUSED_SIGNAL=str(int(signal.SIGINT)))
            self.same(what, (status, said), (-signal.SIGINT, ""))
            found = self.files()
            left = found.keys() - before.keys() - right.keys()
            if not all(LEFT.search(name) for name in left):
                self.fail(f"{what}: left {sorted(left)}")
            self.halves(what, before, found, right, left)
            if "--force" not in words and found.keys() - left - before.keys():
                continue
            status, _, said = self.call(*words)
            self.same(f"{what}, and run again", (status, set(notes_of(what, said)[0])), (0, left))
        self.outcome = f"{len(calls)} calls"

    def halves(self, what, before, found, right, named):
        """Each file is as before, or new and whole, or is kept under another name; a private key is new only beside its
        public key."""
        for name, file in before.items():
            kept = [found[other][0] for other in named if other in found]
            if found.get(name) not in (file, right[name]) and file[0] not in kept:
                self.fail(f"{what}: {name} is lost")
        for name in found.keys() - before.keys() - set(named):
            self.same(f"{what}: {name}", found[name], right[name])
        new = {name for name in found if name in right and found[name] == right[name] != before.get(name)}
        wanted = {name for name in right if right[name] != before.get(name)}
        for name in new & {"private", "new"}:
            if new != wanted and right[name][1] == 0o600:
                self.fail(f"{what}: a pair is half new")

    def test_each_call(self):
        """Refuses each call of each command."""
        keys = {"private": recorded("private-87.pem"), "public": recorded("public-87.pem")}
        small = {"private": recorded("private-44.pem"), "public": recorded("public-44.pem")}
        to_sign = {**small, "message": b"message"}
        signed = {**to_sign, "signature": recorded("signature-44")}
        raw = {**small, "public.raw": der_of(small["public"])[22:]}
        # (the message is read to know that this key of zeros does not accept the signature)
        two_keys = {**signed, "other": pem("PUBLIC KEY", public_der(17, bytes(1312)))}
        sums = {**to_sign, "SUMS": f"{hashlib.sha256(b'message').hexdigest()}  message\n".encode()}
        self.fill(sums)
        self.silent("sign --deterministic --private private SUMS")
        sums["SUMS.sig"] = self.read("SUMS.sig")
        for files, words in (
                ({}, "keygen --set 44 --private new --public new.pub"),
                (keys, "keygen --force --set 44 --private private --public public"),
                ({"private": keys["private"]}, "keygen --force --set 44 --private private --public new.pub"),
                ({"public": keys["public"]}, "keygen --force --set 44 --private new --public public"),
                (keys, "keygen --force --set 44 --private private --public -"),
                (small, "public --private private --public new"),
                ({**keys, "private": small["private"]}, "public --force --private private --public public"),
                (small, "public --private private --public -"),
                (to_sign, "sign --private private --out new message"),
                (signed, "sign --private private --out signature message"),
                (small, "sign --private private --out new -"),
                (signed, "verify --public public --context context --signature signature message"),
                (two_keys, "verify --public other --public public --context context --signature signature message"),
                (sums, "verify --sums --public public SUMS"),
                ({**to_sign, "other": b"other"}, "sign --private private message other"),
                (small, "show private"),
                ({"private": der_of(small["private"])}, "public --der --private private --public new"),
                ({}, "keygen --der --set 44 --private new --public new.pub"),
                (small, "convert --to der --out new private"),
                (small, "convert --to raw --parts expanded --out new private"),
                (raw, "convert --from raw --out new public.raw"),
                (small, "convert --to raw --out - public"),
                ({}, "--help")):
            with self.subTest(part=words):
                self.refuse(files, words.split())
