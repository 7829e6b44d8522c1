"""Tries the files of a release as someone would who has neither the kit nor the repository: in a fresh folder with a
fresh HOME and a PATH of the system's tools, and, where this may be done, with the folders of the repository and of the
kit hidden."""
import collections
import functools
import hashlib
import os
import pathlib
import re
import shutil
import subprocess
import sys
import tempfile
import unittest

sys.path.append(str(pathlib.Path(__file__).resolve().parent.parent / "c"))

import exports
import registry
import testing
from common import TOP, emulator, missing, printed, recorded_rows

PATH = "/usr/sbin:/usr/bin:/sbin:/bin"
# A program that prints the keys and the signature of its words: seed, random bytes, context and message.
PYTHON = """import sys, unittest.mock, mldsa
seed, random, context, message = map(bytes.fromhex, sys.argv[1:])
private = mldsa.MLDSA65PrivateKey.from_seed_bytes(seed)
with unittest.mock.patch("secrets.token_bytes", return_value=random):
    signature = private.sign(message, context)
private.public_key().verify(signature, message, context)
print(private.public_key().public_bytes_raw().hex(), private.expanded_bytes().hex(), signature.hex())
"""
JAVASCRIPT = """import { load } from "mldsa";
const [seed, random, context, message] = process.argv.slice(2).map((word) => new Uint8Array(Buffer.from(word, "hex")));
const { mlDsa65 } = await load();
const { publicKey, privateKey } = mlDsa65.keygen(seed);
const signature = mlDsa65.sign(privateKey, message, { context, random });
if (!mlDsa65.verify(publicKey, message, signature, { context })) process.exit(6);
console.log(...[publicKey, privateKey, signature].map((bytes) => Buffer.from(bytes).toString("hex")));
"""
CMAKE = """cmake_minimum_required(VERSION 3.13)
project(answers C)
find_package(mldsa REQUIRED)
add_executable(answers answers.c)
target_link_libraries(answers mldsa::mldsa)
"""
# How each kind of file is unpacked into a folder.
UNPACK = {".gz": "tar -xzf {} -C {}", ".whl": "python3 -m zipfile -e {} {}", ".deb": "dpkg-deb -x {} {}"}
# Recorded values of ML-DSA-65, with a context and a message.
ROW = next(row for row in recorded_rows() if row[0] == "65" and row[3] and row[4] and len(row) == 8)


def kit():
    """The folder of the kit, if there is one."""
    found = pathlib.Path(printed("rt", "doc"))
    return found.parent if found.is_absolute() else None


def openssl():
    """A line for the shell that makes `openssl` an OpenSSL with ML-DSA, which OPENSSL may name; None where there is
    none."""
    said = os.environ.get("OPENSSL", "/usr/bin/openssl")
    found = re.match(r"OpenSSL (\d+)\.(\d+)", printed(*said.split(), "version"))
    return f'openssl() {{ {said} "$@"; }}' if found and (int(found[1]), int(found[2])) >= (3, 5) else None


def wants(*tools):
    """A test that is not run where the system has not these tools."""
    lacking = missing(*tools, path=PATH)
    return unittest.skipIf(lacking, f"there is no {', '.join(lacking)}")


class Tries(unittest.TestCase):
    """Each test has a room with a copy of the files."""

    version: str
    files: pathlib.Path
    signer: pathlib.Path

    def setUp(self):
        room = tempfile.TemporaryDirectory(prefix="mldsa-try-")
        self.addCleanup(room.cleanup)
        self.room = pathlib.Path(room.name)
        self.dist, self.had = self.room / "dist", self.room / "had-before"
        shutil.copytree(self.files, self.dist)
        (self.room / "home").mkdir()
        # Stands for an mlsign that somebody had before.
        self.had.mkdir()
        shutil.copy(self.signer, self.had / "mlsign")
        shown = self.runs(self.had / "mlsign", "show", self.dist / "release.pub")
        self.fingerprint = re.search(r"SHA256:(\S{43})", shown)[1]

    @staticmethod
    @functools.cache
    def hidden():
        """The words before a command that put empty folders over the repository and the kit; none where that may not be
        done."""
        mounts = " && ".join(f"mount -t tmpfs none '{folder}'" for folder in (TOP, kit()) if folder)
        front = ["unshare", "--mount", "sh", "-c", f'{mounts} && exec "$@"', "sh"]
        done = subprocess.run([*front, "true"], capture_output=True, check=False)
        return front if done.returncode == 0 else []

    def runs(self, *words, status=0, path=PATH, cwd=None, **environment):
        """What a command prints, which has to end with a status."""
        given = {"PATH": path, "HOME": self.room / "home", "LC_ALL": "C.UTF-8", **environment}
        front = [*self.hidden(), "env", "-i", *(f"{name}={value}" for name, value in given.items())]
        done = subprocess.run([*front, *map(str, words)], cwd=cwd or self.room, stdin=subprocess.DEVNULL, text=True,
                              stdout=subprocess.PIPE, stderr=subprocess.STDOUT, check=False)
        self.assertEqual(done.returncode, status, f"{' '.join(map(str, words))[:500]}\n{done.stdout}")
        return done.stdout

    def answers(self, *words, **more):
        """A program has the recorded keys and signature."""
        found = self.runs(*words, **more).split()[:3]
        self.assertEqual([hashlib.sha256(bytes.fromhex(it)).hexdigest() for it in found], ROW[5:8], words)

    def sources(self):
        """Puts a program in C that prints recorded values, and what it reads, into the room."""
        shutil.copy(TOP / "c/tests/answers.c", self.room)
        shutil.copy(TOP / "c/tests/sets.h", self.room)
        (self.room / "line").write_text("\t".join(ROW[:5]) + "\n", encoding="utf-8")

    def compiled(self, cc, *flags):
        """The words that run this program over what these flags give."""
        self.sources()
        self.runs(cc, "-std=c11", "-Wall", "-Werror", "answers.c", *flags, "-o", "answers")
        return ["sh", "-c", f"{' '.join(emulator('aarch64' if 'aarch64' in cc else 'x86-64'))} ./answers < line"]

    def unpacked(self, pattern):
        """An archive of the release, unpacked."""
        archive, = self.dist.glob(pattern)
        self.runs("tar", "-xzf", archive, "-C", self.room)
        return self.room / archive.name.removesuffix(".tar.gz")

    def flags(self, top, *words):
        """What pkg-config says of an unpacked archive."""
        given = {"PKG_CONFIG_PATH": f"{top}/lib/pkgconfig"}
        return self.runs("pkg-config", "--cflags", "--libs", *words, "mldsa", **given).split()

    @wants("cc", "pkg-config")
    def test_x86(self):
        """the archive for x86-64: a program in C, shared and static; mlsign and its page"""
        top = self.unpacked("*-x86_64-linux.tar.gz")
        self.answers(*self.compiled("cc", *self.flags(top)), LD_LIBRARY_PATH=f"{top}/lib")
        self.answers(*self.compiled("cc", "-static", *self.flags(top, "--static")))
        self.runs(top / "bin/mlsign", "keygen", "-k", "key", "-p", "key.pub")
        self.runs(top / "bin/mlsign", "sign", "-k", "key", "line")
        self.assertEqual(self.runs(top / "bin/mlsign", "verify", "-p", "key.pub", "line").splitlines()[0], "valid")
        (self.room / "line").write_text("another", encoding="utf-8")
        self.runs(top / "bin/mlsign", "verify", "-p", "key.pub", "line", status=1)
        if not missing("man"):
            self.assertIn("sign and verify files", self.runs("man", "-M", top / "share/man", "1", "mlsign"))
        page = (top / "share/doc/mldsa/PROVENANCE").read_text(encoding="utf-8")
        summed = hashlib.sha256((top / "bin/mlsign").read_bytes()).hexdigest()
        self.assertIn(f"{summed}  mlsign", page.splitlines())

    @wants("cc", "cmake")
    def test_cmake(self):
        """the archive for x86-64: a program by CMake's find_package"""
        self.sources()
        (self.room / "CMakeLists.txt").write_text(CMAKE, encoding="utf-8")
        self.runs("cmake", "-B", "built", f"-DCMAKE_PREFIX_PATH={self.unpacked('*-x86_64-linux.tar.gz')}")
        self.runs("cmake", "--build", "built")
        self.answers("sh", "-c", "built/answers < line")

    @wants("readelf", "dpkg-deb", "python3")
    def test_linked(self):
        """how mlsign and each shared library are linked: they need libc alone, and show the calls of mldsa.h alone"""
        for file in (it for end in ("-linux.tar.gz", ".whl", ".deb") for it in self.dist.glob(f"*{end}")):
            (self.room / f"of-{file.name}").mkdir()
            self.runs(*UNPACK[file.suffix].format(file, self.room / f"of-{file.name}").split())
        calls, of = {it.name for it in exports.exports()}, collections.Counter()
        for file in (it for it in self.room.glob("of-*/**/*") if it.is_file() and not it.is_symlink()):
            if not re.search(r"/bin/mlsign$|/libmldsa\.[^/]*so[^/]*$", str(file)):
                continue
            said = self.runs("readelf", "-hldSW", "--dyn-syms", file)
            for wanted in (r"Type: +DYN", "GNU_RELRO", r"BIND_NOW|Flags:.*\bNOW\b", r"GNU_STACK .* RW +0"):
                self.assertRegex(said, wanted, file)
            self.assertNotRegex(said, r"\((RPATH|RUNPATH|TEXTREL)\)|LOAD.* RWE |\] \.(symtab|debug)", file)
            self.assertLessEqual({*re.findall(r"\(NEEDED\).*\[(.*)\]", said)}, {"libc.so.6"}, file)
            shown = re.findall(r"(?:GLOBAL|WEAK) +DEFAULT +\d+ (\w+)", said)
            # (what chooses the level in the kit's library for x86-64)
            self.assertEqual({*shown} - {"mldsa_x86_64_level"}, calls if "so" in file.name else set(), file)
            of[file.relative_to(self.room).parts[0].rpartition(".")[2]] += 1
        self.assertEqual(of, {"gz": 3, "whl": 2, "deb": 1})

    @wants("aarch64-linux-gnu-gcc", "qemu-aarch64", "pkg-config")
    def test_arm(self):
        """the archive for 64-bit ARM: a program in C, run by qemu"""
        top = self.unpacked("*-aarch64-linux.tar.gz")
        self.answers(*self.compiled("aarch64-linux-gnu-gcc", "-static", *self.flags(top, "--static")))
        self.answers(*self.compiled("aarch64-linux-gnu-gcc", *self.flags(top), f"-Wl,-rpath,{top}/lib"))

    @wants("python3")
    def test_wheel(self):
        """the package for Python"""
        wheel, = self.dist.glob("*x86_64.whl")
        self.runs("python3", "-m", "pip", "install", "-q", "--no-index", "--no-deps", "--target", "site", wheel)
        self.answers("python3", "-c", PYTHON, *ROW[1:5], PYTHONPATH=f"{self.room}/site")

    @wants("node", "npm")
    def test_npm(self):
        """the package for JavaScript"""
        package, = self.dist.glob("mldsa-*.tgz")
        self.runs("npm", "install", "--offline", "--no-audit", "--no-fund", "--loglevel=error", package)
        (self.room / "answers.mjs").write_text(JAVASCRIPT, encoding="utf-8")
        self.answers("node", "answers.mjs", *ROW[1:5])

    @wants("dpkg", "cc", "pkg-config")
    def test_debian(self):
        """Debian's packages: installed into a root of their own, a program is compiled there, and nothing is left"""
        root, packages = self.room / "root", sorted(self.dist.glob("*.deb"))
        for name in ("info", "updates", "triggers"):
            (root / "var/lib/dpkg" / name).mkdir(parents=True)
        for name in ("status", "available"):
            (root / "var/lib/dpkg" / name).touch()
        dpkg = ["dpkg", f"--root={root}", "--force-depends", "--force-not-root", "--force-script-chrootless",
                "--log=dpkg.log"]
        self.runs(*dpkg, "--install", *packages)
        library = root / "usr/lib/x86_64-linux-gnu"
        place = {"PKG_CONFIG_PATH": f"{library}/pkgconfig", "PKG_CONFIG_SYSROOT_DIR": root}
        self.assertEqual(self.runs("pkg-config", "--modversion", "mldsa", **place).strip(), self.version)
        flags = [f"-I{root}/usr/include", f"-L{library}", "-lmldsa"]
        self.answers(*self.compiled("cc", *flags), LD_LIBRARY_PATH=library)
        self.answers(*self.compiled("cc", "-static", *flags))
        self.runs(*dpkg, "--purge", *(it.name.partition("_")[0] for it in packages))
        self.assertEqual([str(it) for it in root.rglob("*") if not it.is_relative_to(root / "var")], [])
        if not missing("lintian", path=PATH):
            self.runs("lintian", "--fail-on", "error", "--allow-root", *packages)

    def test_check(self):
        """the check that PROVENANCE tells, by OpenSSL and by mlsign, of one file, and of changed ones"""
        page, function, path = (self.dist / "PROVENANCE").read_text(encoding="utf-8"), openssl(), f"{self.had}:{PATH}"
        shown = re.findall(r"^    (.*)", page.partition("Check a file")[2].partition("What the kit")[0], re.M)
        archive = self.dist / f"mldsa-{self.version}-x86_64-linux.tar.gz"
        told, by_openssl, by_mlsign = [it.replace("FILE", archive.name).replace("FINGERPRINT", self.fingerprint)
                                       for it in shown]
        checks = {"mlsign": by_mlsign}
        if function:
            checks["openssl"] = f"{function}; {by_openssl}"
            self.assertEqual(self.runs("bash", "-c", f"{function}; {told}", cwd=self.dist).strip(), self.fingerprint)
        else:
            print(f"    NOT RUN, since there is no OpenSSL from 3.5 on: {by_openssl}")

        def checked(status):
            for name, line in checks.items():
                with self.subTest(part=f"by {name}"):
                    said = self.runs("bash", "-c", line, cwd=self.dist, path=path, status=status)
                    self.assertEqual(f"{archive.name}: OK" in said.splitlines(), status == 0, said)

        # (whoever took one archive has no other)
        for file in self.dist.glob("*.deb"):
            file.unlink()
        checked(0)
        # (nor is a file of another release in the list)
        other = self.dist / f"mldsa-{self.version}.1-x86_64-linux.tar.gz"
        shutil.copyfile(archive, other)
        for name, line in checks.items():
            with self.subTest(part=f"a file that is in no list, by {name}"):
                self.runs("bash", "-c", line.replace(archive.name, other.name), cwd=self.dist, path=path, status=1)
        other.unlink()
        content = archive.read_bytes()
        archive.write_bytes(content + b"\0")
        checked(1)
        # Sums to it, which nobody can sign; with a key of their own the fingerprint is another.
        self.runs("sh", "-c", "sha256sum $(ls | grep -v SHA256SUMS) > SHA256SUMS", cwd=self.dist)
        checked(1)
        self.runs("mlsign", "keygen", "-k", "theirs", "-f", "-p", "release.pub", cwd=self.dist, path=path)
        self.runs("mlsign", "sign", "-f", "-k", "theirs", "SHA256SUMS", cwd=self.dist, path=path)
        self.runs("sh", "-c", by_mlsign, cwd=self.dist, path=path, status=2)
        # Whoever builds anew compares with what was published.
        again = page.partition("(cd dist && ")[2].partition(")")[0].replace("PUBLISHED", str(self.files))
        self.runs("sh", "-c", again, cwd=self.files)
        self.runs("sh", "-c", again, cwd=self.dist, status=1)

    @wants("cc")
    def test_page_of_c(self):
        """the lines of the page of C for the archive"""
        _, of_package = testing.blocks("c/README.md", "## A first signature")
        said = self.runs("bash", "-e", "-c", "\n".join(of_package), cwd=self.dist)
        self.assertIn("verified: yes\n", said)

    @wants("cc", "pkg-config")
    def test_readme(self):
        """the lines of README under 'Packages', whose files are all in the list, where each name has the version"""
        block, = testing.blocks("README.md", "## Packages")
        shown = [it.replace("FINGERPRINT", self.fingerprint) for it in block]
        listed = set(re.findall(r"^\w{64}  (.+)$", (self.dist / "SHA256SUMS").read_text(encoding="utf-8"), re.M))
        taken = set(re.findall(r"(?<=[\s/])[\w.-]+\.(?:tar\.gz|tgz|crate|whl|deb)", "\n".join(shown)))
        self.assertTrue(taken and taken <= listed, taken - listed)
        # (PROVENANCE says itself of which version it is)
        self.assertEqual([it for it in listed if self.version not in it], ["PROVENANCE"])
        skipped = {*missing("npm", path=PATH), *missing("cargo"), *(["openssl"] if not openssl() else []),
                   *(["sudo"] if missing("apt", path=PATH) else [])}
        # (apt goes as far as it does without installing anything)
        functions = f'{openssl() or ""}\nsudo() {{ "$@" --simulate; }}'
        run = [line for line in shown if line.split()[0] not in skipped]
        for line in shown:
            if line not in run:
                print(f"    NOT RUN: {line}")
        cargo = {"RUSTUP_HOME": os.environ.get("RUSTUP_HOME", os.path.expanduser("~/.rustup")),
                 "CARGO_HOME": registry.home(self.room / "cargo")}
        path = f"{self.had}:{pathlib.Path(shutil.which('cargo') or '/usr/bin/cargo').parent}:{PATH}"
        said = self.runs("bash", "-e", "-c", "\n".join([functions, *run]), cwd=self.dist, path=path, **cargo)
        simulated = [] if "sudo" in skipped else [r"^Conf libmldsa-dev "]
        for wanted in (r"^(SHA256SUMS: )?valid$", r"^verified: yes$", r": OK$", *simulated):
            self.assertRegex(said, re.compile(wanted, re.M))


def run(version, files, signer):
    """Runs the tries, and gives the status. `signer` is the mlsign that signed the release."""
    Tries.version, Tries.files, Tries.signer = version, files, signer
    print("tried with the repository and the kit hidden" if Tries.hidden() else "tried with nothing hidden", flush=True)
    return 1 if testing.run(Tries) else 0
