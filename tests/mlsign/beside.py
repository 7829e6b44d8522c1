"""Random calls of two programs beside each other: the same status, output, files and rights, whatever the words are."""
import random
import re

from commands import Program
from keyfiles import recorded

COMMANDS = {"keygen": "-k new -p new.pub", "public": "-k private -p new", "sign": "-k private -o new message",
            "verify": "-p public -s signature message", "show": "public", "convert": "-o new private", "help": "sign"}
OPTIONS = """--set --private --public --der --force -f -k -p -c --context --deterministic -o --out -q --quiet
 --fingerprint --sums --ignore-missing -s --signature --from --to --parts -h --help -V --version -- - -x --nope -z -kq
 -fk -fz -fh --set=45 --set=44 --set= --der=1 -c=x -cx --context=--x --to=der --from=raw --parts=seed -o=new --=
 --=x""".split()
VALUES = ["", *"""44 45 65 pem der raw seed expanded message none new new.pub private public public.raw SUMS . /dev/null
 a \u00e9 sign help signature -x - SHA256:x""".split(), "no\nfile", "no\x1bfile", "x" * 90, "a b"]


def words_of(draw):
    """The words of a call: such as are near a valid one, or any."""
    command = draw.choice([*COMMANDS])
    if draw.random() < .5:
        words = [command, *COMMANDS[command].split()]
        for _ in range(draw.randint(0, 2)):
            words.insert(draw.randint(0, len(words)), draw.choice(OPTIONS + VALUES))
        if draw.random() < .4:
            words.pop(draw.randrange(len(words)))
        return words
    words = [command] if draw.random() < .93 else []
    return words + [draw.choice(OPTIONS if draw.random() < .6 else VALUES) for _ in range(draw.randint(0, 6))]


class Beside(Program):
    other = ""
    count = 1000

    def ended(self, program, words):
        """How a call ended, and the rights of the files that are there, with what cannot be random."""
        files = {"private": recorded("private-44.pem"), "public": recorded("public-44.pem"), "message": b"message",
                 "signature": recorded("signature-44")}
        self.fill(files)
        self.program = program
        status, wrote, said = self.call(*(word.encode() for word in words), read=b"input")
        found = {name: (bytes_ if name in files and bytes_ == files[name] else len(bytes_), mode)
                 for name, (bytes_, mode) in self.files().items()}
        wrote = re.sub(rb"^(-----BEGIN [^-]*-----).*?^-----END|.*[^\x00-\x7f].*", rb"\1", wrote, flags=re.M | re.S)
        return status, wrote.decode(), said, found

    def test_random_calls(self):
        """random calls end alike in both programs"""
        draw, statuses = random.Random(1), {}
        for _ in range(self.count):
            words = words_of(draw)
            one, other = (self.ended(it, words) for it in (self.program, self.other))
            self.program = type(self).program
            statuses[one[0]] = statuses.get(one[0], 0) + 1
            if any("try mlsign --help" in it[2] or "Usage: " in it[1] for it in (one, other)):
                one, other = one[::3], other[::3]  # the texts are clap's, of which another version says other things
            self.same(words, other, one)
        self.assertGreater(min(statuses.get(it, 0) for it in (0, 1, 2)), 10, statuses)
        self.outcome = f"{self.count} calls, by their statuses {statuses}"
