#!/usr/bin/env python3
"""Tests of what scripts/release, scripts/archive and scripts/gate reject, in a clone of this repository and without the
kit: a command of its name stands for it. And of how the files of a release are checked."""
import base64
import contextlib
import hashlib
import importlib.machinery
import importlib.util
import io
import os
import pathlib
import re
import shutil
import subprocess
import sys
import tempfile
import unittest
import zipfile
from unittest import mock

TOP = pathlib.Path(__file__).resolve().parent.parent
sys.dont_write_bytecode = True
sys.path.insert(0, str(TOP / "scripts"))

import registry
from common import MANIFESTS, missing, packer

loader = importlib.machinery.SourceFileLoader("release", str(TOP / "scripts/release"))
release = importlib.util.module_from_spec(importlib.util.spec_from_loader("release", loader))
loader.exec_module(release)
RT = """#!/bin/sh
[ "$1" = version ] && echo 'kit of this test' && exit
echo 'rt was asked'
exit 1
"""


class InClone(unittest.TestCase):
    """Each test has a clone in which nothing is built."""

    def setUp(self):
        room = tempfile.TemporaryDirectory()
        self.addCleanup(room.cleanup)
        self.clone, self.tools = pathlib.Path(room.name) / "clone", pathlib.Path(room.name) / "tools"
        self.command("git", "clone", "-q", TOP, self.clone, cwd=TOP)
        # What is not committed yet is tested too.
        for name in ("scripts/release", "scripts/archive", "scripts/common.py", "scripts/gate", "scripts/pages",
                     "scripts/steps.mk", "scripts/tools", "packaging/PUBLISHER", "packaging/tries.py",
                     "packaging/PROVENANCE", "python/setup.py", *MANIFESTS):
            (self.clone / name).write_bytes((TOP / name).read_bytes())
        self.tools.mkdir()
        # (what a release wants beside the kit, and is not here, is never run)
        for name, script in [("rt", RT), *((name, "#!/bin/sh\nexit 1\n") for name in missing(*release.TOOLS))]:
            (self.tools / name).write_text(script, encoding="utf-8")
            (self.tools / name).chmod(0o755)
        self.commit()

    def command(self, *words, cwd=None):
        environment = os.environ | {"PATH": f"{self.tools}:{os.environ['PATH']}"}
        done = subprocess.run([str(word) for word in words], cwd=cwd or self.clone, env=environment, text=True,
                              check=False, stdout=subprocess.PIPE, stderr=subprocess.STDOUT)
        return done.returncode, done.stdout

    def commit(self):
        self.command("git", "add", "-A")
        self.command("git", "-c", "user.name=A", "-c", "user.email=a@a.example", "commit", "-qm", "As it is here")


class Refusals(InClone):
    def fill_in(self, *names):
        """What a publisher does."""
        file = self.clone / "packaging/PUBLISHER"
        said = file.read_text(encoding="utf-8")
        for name in names:
            said = re.sub(f"^{name}:$", f"{name}: a@a.example", said, flags=re.M)
        file.write_text(said, encoding="utf-8")
        self.commit()

    def planted(self):
        """A file that stands where the library belongs."""
        file = self.clone / "out/archive/x86-64-v2/libmldsa_c.a"
        file.parent.mkdir(parents=True)
        (self.tools / "a.c").write_text("int mldsa_version(void) { return 1; }\n", encoding="utf-8")
        self.command("gcc", "-c", "a.c", cwd=self.tools)
        self.command("ar", "rcs", file, "a.o", cwd=self.tools)
        return file

    def test_blanks(self):
        """What only the publisher knows is asked for by name, and all else is made."""
        self.fill_in("repository", "contact", "flaws", "fingerprint")
        said = self.command("scripts/release")[1]
        front = "to fill in before it is signed:"
        self.assertIn(f"{front} packaging/PUBLISHER has no homepage: the address of the project's page\n", said)
        self.assertEqual(re.findall("PUBLISHER has no (\\w+)", said), ["homepage"])
        self.assertIn(f"{front} debian/control says 'example.invalid'\n", said)
        self.assertIn("rt was asked", said)

    def test_signed(self):
        """Nothing is signed while a blank is left, nor without a key; and the files are listed."""
        signer, made = self.tools / "signer", self.tools / "made"
        signer.write_text('#!/bin/sh\necho "$@" >> "$0.calls"\n', encoding="utf-8")
        signer.chmod(0o755)
        facts = release.Facts()
        for blanks, key, trial, wanted in ((["a blank"], "key", False, 1), (["a blank"], None, False, 0),
                                           ([], None, False, 0), ([], "key", False, 0), (["a blank"], "key", True, 0)):
            made.mkdir()
            (made / "file").write_text("content", encoding="utf-8")
            facts.blanks, said, calls = blanks, io.StringIO(), pathlib.Path(f"{signer}.calls")
            with contextlib.redirect_stdout(said):
                self.assertEqual(release.sign(facts, made, signer, key, trial), wanted)
            listed = (made / "SHA256SUMS").read_text(encoding="utf-8")
            self.assertEqual(listed, f"{hashlib.sha256(b'content').hexdigest()}  file\n")
            signed = bool(key) and (trial or not blanks)
            self.assertEqual((calls.exists(), "not signed" in said.getvalue()), (signed, not signed))
            self.assertEqual("a blank" in said.getvalue(), bool(wanted))
            calls.unlink(missing_ok=True)
            shutil.rmtree(made)

    def test_folder(self):
        """A folder is emptied of what a former release left there; where anything else is in it all stays."""
        page, folder = (TOP / "packaging/PROVENANCE").read_text(encoding="utf-8"), self.tools / "folder"
        both, signed = {"PROVENANCE": page, "file": "content"}, {"SHA256SUMS.sig": "signature", "release.pub": "key"}
        listed = both | {"SHA256SUMS": "".join(f"{'0' * 64}  {name}\n" for name in both)}
        alone = f"{'0' * 64}  file\n"
        for what, files, is_emptied in (
                ("nothing", dict[str, str](), True), ("a release", listed, True),
                ("a signed release", listed | signed, True),
                ("a release, and a file that its list lacks", listed | {"mine": "mine"}, False),
                ("a list without PROVENANCE", {"file": "content", "SHA256SUMS": alone}, False),
                ("a list with another PROVENANCE", listed | {"PROVENANCE": f"Another page\n{page}"}, False),
                ("PROVENANCE that no list names", both | {"SHA256SUMS": alone}, False),
                ("PROVENANCE without a list", both, False), ("a key", signed, False)):
            folder.mkdir()
            for name, content in files.items():
                (folder / name).write_text(content, encoding="utf-8")
            with self.subTest(part=what):
                if is_emptied:
                    release.emptied(folder)
                else:
                    self.assertRaisesRegex(SystemExit, "has files that no release made: ", release.emptied, folder)
                found = {it.name: it.read_text(encoding="utf-8") for it in folder.iterdir()}
                self.assertEqual(found, {} if is_emptied else files)
            shutil.rmtree(folder)
        release.emptied(folder)
        self.assertEqual([*folder.iterdir()], [])
        # A folder in it stays too, whatever its name; and the command looks before it makes anything.
        (folder / "file").mkdir()
        for name in ("PROVENANCE", "SHA256SUMS"):
            (folder / name).write_text(listed[name], encoding="utf-8")
        status, said = self.command("scripts/release", "--out", folder)
        self.assertEqual((status, len([*folder.iterdir()])), (1, 3), said)
        self.assertEqual(said, f"{folder} has files that no release made: file\n")

    @unittest.skipUnless(packer(), "there is no setuptools-rust: what a wheel says of its publisher")
    def test_wheel(self):
        """A wheel names the project's page and the repository that were filled in."""
        self.fill_in("homepage", "repository", "contact")
        words = ["--no-deps", "--no-index", "--no-build-isolation", "--wheel-dir", self.tools, self.clone / "python"]
        library = f"MLDSA_LIBRARY={self.tools / 'rt'}"
        status, said = self.command("env", library, packer(), "-m", "pip", "wheel", *words)
        self.assertEqual(status, 0, said)
        wheel, = self.tools.glob("*.whl")
        with zipfile.ZipFile(wheel) as packed:
            name, = (it for it in packed.namelist() if it.endswith("/METADATA"))
            found = re.findall("^Project-URL: (\\w+), a@a.example$", packed.read(name).decode(), re.M)
        self.assertEqual(sorted(found), ["homepage", "repository"])

    @unittest.skipIf(missing("cargo"), "there is no cargo: what it says of a manifest that is filled in")
    def test_crate(self):
        """cargo packs the crate without a warning if its addresses are filled in, which a release asks for."""
        asked = "rust/fips204/Cargo.toml has other addresses than packaging/PUBLISHER: scripts/pages --write"
        pack = ["cargo", "package", "--no-verify", "--allow-dirty", "--exclude-lockfile", *registry.cargo_words(),
                "-p", "corkaife-fips204"]
        self.assertNotIn(asked, self.command("scripts/release")[1])
        self.assertIn("warning: manifest has no", self.command(*pack)[1])
        self.fill_in("homepage", "repository")
        self.assertIn(asked, self.command("scripts/release")[1])
        self.command("scripts/pages", "--write", "numbers")
        self.commit()
        self.assertNotIn(asked, self.command("scripts/release")[1])
        status, said = self.command(*pack)
        self.assertEqual((status, re.findall("warning: manifest.*", said)), (0, []), said)

    def test_of_a_new_clone(self):
        self.fill_in("homepage", "repository", "contact", "flaws", "fingerprint")
        self.planted()
        # In the checkout itself a release is not made,
        status, said = self.command("scripts/release", "--here")
        self.assertEqual(status, 1)
        self.assertIn("this checkout is not new, since it has out: ", said)
        # but in a clone, where the library is not there and the kit is asked.
        status, said = self.command("scripts/release")
        self.assertNotEqual(status, 0)
        self.assertIn("of a new clone, in ", said)
        self.assertIn("rt was asked", said)
        # The second clone of a trial is proved first too.
        self.assertIn("failed: rt ci\n", self.command("scripts/release", "--here", "--trial")[1])

    def test_planted_library(self):
        self.planted()
        status, said = self.command("scripts/archive", "x86-64-v2")
        self.assertEqual(status, 1)
        self.assertIn("rt was asked", said)

    def test_noted_library(self):
        file = self.planted()
        note = file.with_name(f"{file.name}.made")
        good = f"sum {hashlib.sha256(file.read_bytes()).hexdigest()}\nkit kit of this test\ncommit any\n"
        for text, is_taken in ((good, True), (good.replace("of this test", "of another"), False),
                               (good.replace("sum ", "sum 0"), False)):
            note.write_text(text, encoding="utf-8")
            status, said = self.command("scripts/archive", "x86-64-v2")
            self.assertEqual((status == 0, "rt was asked" not in said), (is_taken, is_taken), said)


# What runs in the place of a tool, and what make and the scripts call.
STUB, CALLED = "#!/bin/sh\nexit 0\n", ("sh", "env", "make", "python3", "nice", "sed", "uname", "true", "echo")


class Gate(InClone):
    """Tests in a clone, with a folder of tools in which only those are that a test puts there."""

    def setUp(self):
        super().setUp()
        self.alone = self.tools / "alone"
        self.alone.mkdir()
        for name in CALLED:
            (self.alone / name).symlink_to(shutil.which(name))

    def tool(self, name, script=STUB):
        """Puts a tool there."""
        (self.alone / name).write_text(script, encoding="utf-8")
        (self.alone / name).chmod(0o755)

    def ran(self, *words):
        """How a command of the clone ended, with those tools alone."""
        done = subprocess.run(words, cwd=self.clone, env={"PATH": str(self.alone)}, text=True, check=False,
                              stdout=subprocess.PIPE, stderr=subprocess.STDOUT)
        return done.returncode, done.stdout

    def test_bridge(self):
        """`make check` fails where a tool for a step of the bridge is missing, which `make test` leaves out"""
        file = self.clone / "scripts/steps.mk"
        steps = file.read_text(encoding="utf-8")
        # Few steps, with commands that pass, of which those of the bridge want a tool.
        for pattern, written in ((r"^TEST = (?:.*\\\n)*.*$", "TEST = tools erased tokens erasing"),
                                 (r"^CHECK = (?:.*\\\n)*.*$", "CHECK = proof"), (r" -- .*$", " -- true"),
                                 (r"^BRIDGE = .*$", "BRIDGE = erased tokens erasing"),
                                 (r"^(erased|tokens|erasing): .*$", r"\1: ; $(step) a-tool -- true")):
            steps, count = re.subn(pattern, written, steps, flags=re.M)
            self.assertTrue(count, pattern)
        file.write_text(steps, encoding="utf-8")
        status, said = self.ran("make", "test")
        self.assertEqual((status, said.splitlines()[-1]), (0, "1 passed, 0 failed"), said)
        self.assertIn("erased: NOT RUN, missing: a-tool\n", said)
        status, said = self.ran("make", "check")
        self.assertIn("failed, because `make check` has to run them: erased, tokens, erasing\n", said)
        self.assertIn("\n2 passed, 3 failed\n", said)
        self.assertNotEqual(status, 0)
        self.tool("a-tool")
        status, said = self.ran("make", "check")
        self.assertEqual((status, said.splitlines()[-1]), (0, "5 passed, 0 failed"), said)

    def test_rustfmt(self):
        """The rustfmt of Debian's cargo is asked of Debian, and that of rustup's cargo is not"""
        self.tool("cargo")
        for owner, wanted in (("cargo-web", "apt-get install rustfmt-web"), ("cargo", "apt-get install rustfmt"),
                              ("", "rustup has it, or Debian's rustfmt-web")):
            self.tool("dpkg", f"#!/bin/sh\necho '{owner}: /usr/bin/cargo'\n" if owner else "#!/bin/sh\nexit 1\n")
            self.assertIn(f"there is no rustfmt ({wanted}), ", self.ran("scripts/tools", "--look")[1])


class OfDebian(unittest.TestCase):
    def test_folder(self):
        """Debian's packages are built in a folder of their own, also where somebody has its old name"""
        room = tempfile.TemporaryDirectory()
        self.addCleanup(room.cleanup)
        tools, shared, out = (pathlib.Path(room.name) / name for name in ("tools", "tmp", "out"))
        for folder in (tools, shared, out):
            folder.mkdir()
        facts = release.Facts()
        (shared / f"mldsa-debian-{facts.commit[:12]}").mkdir()
        stub = tools / "dpkg-buildpackage"
        stub.write_text("#!/bin/sh\npwd > ../where.deb\n", encoding="utf-8")
        stub.chmod(0o755)
        (tools / "name").mkdir()
        release.command("tar", "-czf", out / "name.tar.gz", "-C", tools, "name")
        path, before = f"{tools}:{os.environ['PATH']}", sorted(shared.iterdir())
        with mock.patch.dict(os.environ, PATH=path), mock.patch.object(tempfile, "tempdir", str(shared)):
            for _ in range(2):
                release.of_debian(out, "name")
        self.assertEqual(pathlib.Path((out / "where.deb").read_text(encoding="utf-8")).parts[:-2], shared.parts)
        self.assertEqual(sorted(shared.iterdir()), before)


def openssl(*words, **more):
    """What the command openssl prints, as bytes."""
    return subprocess.run(["openssl", *map(str, words)], check=True, stdout=subprocess.PIPE, **more).stdout


@unittest.skipIf(missing("openssl"), "there is no openssl")
class Check(unittest.TestCase):
    """The lines by OpenSSL with which PROVENANCE has a file checked, over keys of a scheme that every OpenSSL knows."""

    def setUp(self):
        room = tempfile.TemporaryDirectory()
        self.addCleanup(room.cleanup)
        self.room = pathlib.Path(room.name)
        page = (TOP / "packaging/PROVENANCE").read_text(encoding="utf-8")
        self.told, self.checked, *_ = (line.strip() for line in page.splitlines() if line.startswith("    "))
        (self.room / "a-0.2.0.tgz").write_text("content", encoding="utf-8")
        self.list(b"content")
        self.keys = {who: self.pair(who) for who in ("owner", "other")}

    def list(self, content):
        """Writes the list, of one file with this content."""
        line = f"{hashlib.sha256(content).hexdigest()}  a-0.2.0.tgz\n"
        (self.room / "SHA256SUMS").write_text(line, encoding="utf-8")

    def pair(self, who):
        """A new key: its public key in PEM, and its fingerprint."""
        key = self.room / f"{who}.pem"
        key.write_bytes(openssl("genpkey", "-algorithm", "ed25519"))
        of_der = hashlib.sha256(openssl("pkey", "-in", key, "-pubout", "-outform", "DER")).digest()
        return openssl("pkey", "-in", key, "-pubout").decode(), base64.b64encode(of_der).decode().rstrip("=")

    def run_line(self, line, file="a-0.2.0.tgz"):
        done = subprocess.run(["sh", "-c", line.replace("FILE", file)], cwd=self.room, text=True, check=False,
                              stdout=subprocess.PIPE, stderr=subprocess.DEVNULL)
        return done.returncode, done.stdout

    def signed(self, who, public):
        """A release that somebody signed, with this release.pub."""
        (self.room / "release.pub").write_text(public, encoding="utf-8")
        words = ["-inkey", self.room / f"{who}.pem", "-rawin", "-in", self.room / "SHA256SUMS"]
        (self.room / "SHA256SUMS.sig").write_bytes(openssl("pkeyutl", "-sign", *words))

    def test_file(self):
        """A file that is in the signed list passes; a changed one, one that is not in it, and a changed list do not."""
        public, fingerprint = self.keys["owner"]
        self.signed("owner", public)
        self.assertEqual(self.run_line(self.told), (0, f"{fingerprint}\n"))
        self.assertEqual(self.run_line(self.checked)[0], 0)
        self.assertIn("a-0.2.0.tgz: OK", self.run_line(self.checked)[1])
        (self.room / "b-0.2.0.tgz").write_text("content", encoding="utf-8")
        self.assertNotEqual(self.run_line(self.checked, "b-0.2.0.tgz")[0], 0)
        (self.room / "a-0.2.0.tgz").write_text("another", encoding="utf-8")
        self.assertNotEqual(self.run_line(self.checked)[0], 0)
        self.list(b"another")
        self.assertNotEqual(self.run_line(self.checked)[0], 0)

    def test_forged_key(self):
        """Whatever a release.pub holds, the fingerprint is that of the key with which the signature was verified."""
        (owner, _), (other, fingerprint) = self.keys["owner"], self.keys["other"]
        first, *inside, last = other.splitlines()
        of_owner = "\n".join(owner.splitlines()[1:-1])
        in_one_line = f"{first}\n{''.join(inside)}-----\n{last}\n"
        forged = {"the owner's text, then another key in one line": f"{of_owner}\n{in_one_line}",
                  "the owner's text, a line, then another key": f"{of_owner}\n!\n{other}",
                  "another key, then the owner's": other + owner, "the owner's key, then another": owner + other}
        passed = []
        for what, public in forged.items():
            self.signed("other", public)
            if self.run_line(self.checked)[0] == 0:
                passed.append(what)
                self.assertEqual(self.run_line(self.told), (0, f"{fingerprint}\n"), what)
        # (else nothing was shown)
        self.assertEqual(passed, list(forged)[:3])


if __name__ == "__main__":
    unittest.main()
