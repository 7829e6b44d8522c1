#!/usr/bin/env python3
"""Tests of `make install` and `make uninstall` over the library that cargo builds, and of each way to what is
installed: pkg-config, CMake, the linker, the manual and the shell. What programs in C print is compared with recorded
values."""
import hashlib
import os
import pathlib
import re
import shlex
import shutil
import subprocess
import sys
import tempfile
import unittest

sys.dont_write_bytecode = True
sys.path.insert(0, str(pathlib.Path(__file__).resolve().parent.parent / "scripts"))

import testing
from common import RUST_ARM, TOP, emulator, missing, recorded_rows, rust_for, text

SHARED = "lib/libmldsa.so.0.2"
EXAMPLES = {f"share/doc/mldsa/examples/{it.name}" for it in (TOP / "c/examples").glob("*.c")}
LIBRARY = {"include/mldsa.h", "lib/libmldsa.a", "lib/libmldsa.so", SHARED, "lib/pkgconfig/mldsa.pc",
           "lib/cmake/mldsa/mldsa-config.cmake", "lib/cmake/mldsa/mldsa-config-version.cmake",
           "share/doc/mldsa/LICENSE", "share/doc/mldsa/sign_file.c", *EXAMPLES}
PROGRAM = {"bin/mlsign", "share/bash-completion/completions/mlsign"}
# What the page of C has for finding what is installed, and for 64-bit ARM.
_, FINDING, CROSS = testing.blocks("c/README.md", "## Installing it, and finding it")
TARGET, PREFIX_PATH = re.findall(r"`(-D\w+=)", text("c/README.md"))
PROJECT = """cmake_minimum_required(VERSION 3.13)
project(answers C)
{line}
foreach(kind {kinds})
  add_executable(of_${{kind}} {top}/c/tests/answers.c)
  target_link_libraries(of_${{kind}} mldsa::${{kind}})
endforeach()
"""
MLSIGN = """#!/bin/sh
[ "$*" = "sign --help" ] && echo "  -k, --private <FILE>  the key" && echo "      --deterministic  without random bytes"
"""
# A target of rustc that no machine has which builds the library for itself.
OTHER = "wasm32-unknown-unknown"
# Recorded values of ML-DSA-65, with a context and a message.
ROW = next(row for row in recorded_rows() if row[0] == "65" and row[3] and row[4] and len(row) == 8)


def wants(*tools):
    """Of a test that is not run where a tool is missing."""
    return unittest.skipIf(missing(*tools), f"there is no {', '.join(missing(*tools))}")


class Installing(unittest.TestCase):
    """Tests that run make, and install below a folder of their own."""

    top = TOP

    def setUp(self):
        room = tempfile.TemporaryDirectory()
        self.addCleanup(room.cleanup)
        self.room = pathlib.Path(room.name).resolve()
        self.prefix = self.room / "local"

    def runs(self, *words, status=0, environment=(), **more):
        """What a command prints, which has to end with a status."""
        done = subprocess.run([str(it) for it in words], env={**os.environ, **dict(environment)}, text=True,
                              stdout=subprocess.PIPE, stderr=subprocess.STDOUT, check=False, **more)
        self.assertEqual(done.returncode, status, f"{words}\n{done.stdout}")
        return done.stdout

    def make(self, *words, **more):
        """Runs make at the top."""
        return self.runs("make", "-C", self.top, "--no-print-directory", *words, **more)

    @staticmethod
    def files(top):
        """What is below a folder and no folder itself."""
        return {str(it.relative_to(top)) for it in top.rglob("*") if it.is_symlink() or not it.is_dir()}


class Install(Installing):
    def make(self, *words, program="", **more):
        """Runs make with a program beside the library, or none."""
        return super().make(*words, f"mlsign={program}", **more)

    def answers(self, *words, **more):
        """A program of c/tests/answers.c has the recorded keys and signature, and its verdict is yes."""
        *fields, verdict = self.runs(*words, input="\t".join(ROW[:5]) + "\n", **more).strip().split("\t")
        self.assertEqual([hashlib.sha256(bytes.fromhex(it)).hexdigest() for it in fields], ROW[5:8], words)
        self.assertEqual(verdict, "1", words)

    def compiled(self, name, *flags, cc="cc"):
        made = self.room / name
        self.runs(cc, "-std=c11", "-Wall", "-Werror", TOP / "c/tests/answers.c", *flags, "-o", made)
        return made

    def flags(self, prefix, *words):
        """What pkg-config says of a library below a folder, which is asked for its version too."""
        place = {"PKG_CONFIG_PATH": f"{prefix}/lib/pkgconfig"}
        self.assertEqual(self.runs("pkg-config", "--modversion", "mldsa", environment=place), "0.2.0\n")
        return shlex.split(self.runs("pkg-config", "--cflags", "--libs", *words, "mldsa", environment=place))

    def test_files(self):
        """what is installed, whatever the umask, and nothing is left when it is taken out; with DESTDIR and without"""
        stage, mine = self.room / "stage", self.prefix / "share/doc/mine"
        mine.parent.mkdir(parents=True)
        mine.write_text("mine", encoding="utf-8")
        for words, root in ((["PREFIX=/usr", f"DESTDIR={stage}"], stage / "usr"),
                            ([f"PREFIX={self.prefix}"], self.prefix)):
            before = self.files(self.room)
            self.make("install", *words, umask=0o077)
            self.assertEqual(self.files(root) - {"share/doc/mine"}, LIBRARY)
            for name in LIBRARY:
                self.assertEqual((root / name).stat().st_mode & 0o777, 0o644, name)
            self.make("install", *words)
            self.make("uninstall", *words)
            self.assertEqual(self.files(self.room), before)
            self.assertEqual([it for it in root.rglob("*mldsa*")], [])
        self.assertEqual(self.runs("grep", "-rl", stage, stage, status=1), "")

    def test_nothing(self):
        """where the library is not built nothing is installed"""
        said = self.make("install", "LIBRARY=none", f"PREFIX={self.prefix}", status=2)
        self.assertIn("`make LIBRARY=none` builds it", said)
        self.assertFalse(self.prefix.exists())

    def test_cut_short(self):
        """a file that can't be written whole leaves the one that was there"""
        library = self.prefix / "lib/libmldsa.a"
        self.make("install", f"PREFIX={self.prefix}")
        library.write_text("the older one", encoding="utf-8")
        self.runs("bash", "-c", 'ulimit -f 1000; exec "$@"', "bash", "make", "-C", TOP, "install", "mlsign=",
                  f"PREFIX={self.prefix}", status=2)
        self.assertEqual((library.read_bytes()[:20], library.stat().st_mode & 0o777), (b"the older one", 0o644))
        self.assertEqual(self.files(self.prefix), LIBRARY)

    @wants("cc", "pkg-config")
    def test_signs(self):
        """below a folder with signs in its name that sed and the shell read, and libraries outside of the prefix"""
        prefix = self.room / "a&b|c\\d e"
        self.make("install", f"PREFIX={prefix}")
        self.assertEqual(self.files(prefix), LIBRARY)
        shared = self.compiled("signs", *self.flags(prefix))
        self.answers(shared, environment={"LD_LIBRARY_PATH": f"{prefix}/lib"})
        self.make("install", f"PREFIX={self.prefix}", f"LIBDIR={self.room}/lib64")
        said = (self.room / "lib64/pkgconfig/mldsa.pc").read_text(encoding="utf-8")
        self.assertIn(f"\nlibdir={self.room}/lib64\n", said)
        self.assertIn("a folder may have no '", self.make("install", "PREFIX=/it's", status=2))

    @wants("cc", "pkg-config", "readelf")
    def test_pkg_config(self):
        """programs by pkg-config, shared and static, where it is installed and where it was moved to"""
        self.make("install", f"PREFIX={self.prefix}")
        self.make("install", "PREFIX=", f"DESTDIR={self.room}/made")
        (self.room / "made").rename(self.room / "moved")
        for prefix in (self.prefix, self.room / "moved"):
            flags = self.flags(prefix)
            shared = self.compiled("shared", *flags)
            said = self.runs("readelf", "-d", shared)
            self.assertEqual(re.findall(r"\(NEEDED\).*\[(libmldsa.*)\]", said), ["libmldsa.so.0.2"])
            self.answers(shared, environment={"LD_LIBRARY_PATH": f"{prefix}/lib"})
            self.runs(shared, status=127)
            self.answers(self.compiled("static", "-static", *self.flags(prefix, "--static")))
            self.answers(self.compiled("archive", f"-I{prefix}/include", prefix / "lib/libmldsa.a"))

    def project(self, call, version=" 0.2"):
        """Writes a project of CMake with the page's line of a call, which may have another version, and gives the names
        of its programs: one for each target that the page has beside the line."""
        line, = [it for it in FINDING if it.startswith(f"{call}(")]
        kinds = re.findall(r"mldsa::(\w+)", line)
        line = line.replace("CLONE", str(TOP)).replace(" 0.2", version)
        written = PROJECT.format(line=line, kinds=" ".join(kinds), top=TOP)
        (self.room / "CMakeLists.txt").write_text(written, encoding="utf-8")
        return kinds

    @wants("cc", "cmake")
    def test_find_package(self):
        """programs by CMake's find_package as the page of C has it, which takes no other minor version"""
        self.make("install", f"PREFIX={self.prefix}")
        words = ("cmake", "-S", self.room, f"{PREFIX_PATH}{self.prefix}", "-B")
        for version in ("", " 0.2.0", " 0.2"):
            kinds = self.project("find_package", version)
            self.runs(*words, self.room / f"built{version.strip()}")
        self.assertEqual(kinds, ["mldsa", "shared", "static"])
        self.runs("cmake", "--build", self.room / "built0.2")
        for kind in kinds:
            self.answers(self.room / "built0.2" / f"of_{kind}")
        for version in (" 0.1", " 0.3", " 0.2.9"):
            self.project("find_package", version)
            self.assertIn("version", self.runs(*words, self.room / f"other{version.strip()}", status=1))

    @wants("cc", "cmake", "cargo")
    def test_in_tree(self):
        """a program by CMake that has this repository in its tree, as the page of C has it"""
        kind, = self.project("add_subdirectory")
        words = ["cmake", "-S", str(self.room), "-DCMAKE_SYSTEM_NAME=Linux", "-B", str(self.room / "other")]
        cross = subprocess.run(words, capture_output=True, text=True, check=False)
        self.assertNotEqual(cross.returncode, 0, cross.stdout)
        self.assertIn("by -DMLDSA_TARGET=", " ".join(cross.stderr.split()))
        self.runs(*words, f"{TARGET}{RUST_ARM}")
        self.runs("cmake", "-S", self.room, "-B", self.room / "built")
        self.runs("cmake", "--build", self.room / "built", environment={"CARGO_BUILD_TARGET": OTHER})
        self.answers(self.room / "built" / f"of_{kind}")

    @wants("aarch64-linux-gnu-gcc", "qemu-aarch64", "pkg-config")
    def test_cross(self):
        """for another processor: 64-bit ARM, run by qemu, without this machine's mlsign"""
        rust = rust_for(RUST_ARM)
        if not rust:
            self.skipTest(f"no rustc from 1.88 on has a library for {RUST_ARM}: `rustup target add {RUST_ARM}`")
        for name in ("tests/answers.c", "tests/sets.h"):
            shutil.copy(TOP / "c" / name, self.room)
        (self.room / "answers.c").rename(self.room / "program.c")
        # As the page has it, but for what Debian installs; an mlsign of this machine is there.
        *debian, linker, built, compiled = [it.replace("/DIR", str(self.prefix)) for it in CROSS]
        self.assertEqual([it.split()[0] for it in debian], ["dpkg", "apt-get"])
        script = f'set -e; make() {{ command make -C {TOP} "$@" built=/bin/true; }}'
        own = {"PATH": f"{rust}:{os.environ['PATH']}"}
        self.runs("bash", "-c", "\n".join([script, linker, built, compiled]), cwd=self.room, environment=own)
        self.assertEqual(self.files(self.prefix), LIBRARY)
        self.answers(*emulator("aarch64"), self.room / "a.out")
        flags = self.flags(self.prefix)
        for name, more in (("static", ["-static"]), ("shared", [f"-Wl,-rpath,{self.prefix}/lib"])):
            program = self.compiled(name, *flags, *more, cc="aarch64-linux-gnu-gcc")
            self.answers(*emulator("aarch64"), program)

    def test_program(self):
        """mlsign, where it was built, with its completion, and its page where there is pandoc"""
        program, pandoc = self.room / "mlsign", not missing("pandoc")
        program.write_text(MLSIGN, encoding="utf-8")
        program.chmod(0o700)
        self.make("install", f"PREFIX={self.prefix}", program=program)
        wanted = PROGRAM | ({"share/man/man1/mlsign.1"} if pandoc else set())
        self.assertEqual(self.files(self.prefix), LIBRARY | wanted)
        self.assertEqual((self.prefix / "bin/mlsign").stat().st_mode & 0o777, 0o755)
        if pandoc and not missing("man", "lexgrog"):
            page = self.prefix / "share/man/man1/mlsign.1"
            self.assertIn('"mlsign - sign and verify files', self.runs("lexgrog", page))
            said = self.runs("sh", "-c", 'man --warnings -E UTF-8 -l "$1" 2>&1 > /dev/null', "sh", page)
            self.assertEqual(said, "")
            shown = self.runs("man", "-l", page, environment={"MANWIDTH": "100", "LC_ALL": "C.UTF-8"})
            for line in ("mlsign(1)", "-k, --private FILE", "    $ mlsign keygen --private release.pem --public",
                         "    $ echo 'version 1.0' > notes", "EXIT STATUS", "mldsa 0.2.0"):
                self.assertIn(line, shown)
        self.make("uninstall", f"PREFIX={self.prefix}")
        self.assertEqual(self.files(self.prefix), set())

    @unittest.skipUnless(os.path.exists("/usr/share/bash-completion/bash_completion"), "there is no bash-completion")
    def test_completion(self):
        """what bash offers: commands, the options of their help, and files"""
        (self.room / "mlsign").write_text(MLSIGN, encoding="utf-8")
        (self.room / "mlsign").chmod(0o755)
        script = f'''. /usr/share/bash-completion/bash_completion; . {TOP}/packaging/mlsign.bash
            tried() {{ COMP_LINE="$*" COMP_POINT=${{#COMP_LINE}} COMP_WORDS=("$@") COMP_CWORD=$(($# - 1))
                      COMP_POINT=${{#COMP_LINE}}; _mlsign ./mlsign; echo "${{COMPREPLY[@]}}"; }}
            tried ./mlsign ver; tried ./mlsign sign --; tried ./mlsign sign ml'''
        said = self.runs("bash", "-c", script, cwd=self.room)
        self.assertEqual(said.splitlines(), ["verify", "--private --deterministic", "mlsign"])


class Tree(Installing):
    """Each test has a copy of the files from which cargo builds, in which nothing is built."""

    def setUp(self):
        super().setUp()
        self.top = self.room / "tree"
        for name in ("c", "packaging", "rust", "scripts", "tools", "man", ".cargo"):
            shutil.copytree(TOP / name, self.top / name, ignore=shutil.ignore_patterns("out", "target"))
        for name in ("Makefile", "Cargo.toml", "LICENSE", "crates.txt"):
            shutil.copy(TOP / name, self.top)
        self.archive = self.top / "out/archive/rust/libmldsa_c.a"

    @wants("cargo", "nm")
    def test_place(self):
        """what is built is what is installed, wherever cargo's environment and configuration have it build"""
        elsewhere, home = self.room / "elsewhere", self.room / "home"
        home.mkdir()
        (home / "config.toml").write_text(f'[build]\ntarget = "{OTHER}"\n', encoding="utf-8")
        # (a build that takes less time)
        quick = {"CARGO_PROFILE_RELEASE_OPT_LEVEL": "1"}
        self.make(environment=quick)
        source = self.top / "rust/capi/src/lib.rs"
        added = '\n#[unsafe(no_mangle)]\npub extern "C" fn mldsa_added() -> u32 {\n    1\n}\n'
        source.write_text(source.read_text(encoding="utf-8") + added, encoding="utf-8")
        said = self.make("install", f"PREFIX={self.prefix}", status=2)
        self.assertIn("not made here of the sources as they are now: out/archive/rust/libmldsa_c.a", said)
        given = {"CARGO_TARGET_DIR": str(elsewhere), "CARGO_BUILD_TARGET": OTHER, "CARGO_HOME": str(home)}
        self.make(environment={**quick, **given})
        self.assertIn(" T mldsa_added\n", self.runs("nm", self.archive))
        self.make("install", f"PREFIX={self.prefix}")
        self.assertFalse(elsewhere.exists())

    def planted(self, name, note=""):
        """Plants a file, with what scripts/archive would have noted of it, or without."""
        file = self.top / "out" / name
        file.parent.mkdir(parents=True, exist_ok=True)
        file.write_text("planted", encoding="utf-8")
        if note:
            file.with_name(f"{file.name}.made").write_text(f"sum {note}\n", encoding="utf-8")

    def test_planted(self):
        """a library or a program that this tree did not make is not installed"""
        words, right = ("install", f"PREFIX={self.prefix}"), hashlib.sha256(b"planted").hexdigest()
        for note in ("", "0" * 64):
            self.planted("archive/rust/libmldsa_c.a", note)
            said = self.make(*words, status=2)
            self.assertIn("not made here of the sources as they are now: out/archive/rust/libmldsa_c.a", said)
        self.planted("archive/rust/libmldsa_c.a", right)
        self.planted("archive/rust/libmldsa.so")
        self.assertIn("out/archive/rust/libmldsa.so", self.make(*words, status=2))
        self.planted("archive/rust/libmldsa.so", right)
        self.planted("archive/mlsign/mlsign")
        self.assertIn("`make program` builds it", self.make(*words, status=2))
        self.assertFalse(self.prefix.exists())
        self.make(*words, "mlsign=")
        self.assertEqual(self.files(self.prefix), LIBRARY)
        self.planted("cargo/release/mlsign")
        shutil.rmtree(self.top / "out/archive/mlsign")
        self.make(*words)
        self.assertEqual(self.files(self.prefix), LIBRARY)
        self.planted("archive/mlsign/mlsign", right)
        self.make(*words)
        self.assertEqual(self.files(self.prefix) - {"share/man/man1/mlsign.1"}, LIBRARY | PROGRAM)
        os.utime(self.top / "rust/mlsign/src/main.rs")
        self.assertIn("not made here of the sources as they are now: out/archive/mlsign/mlsign",
                      self.make(*words, status=2))


if __name__ == "__main__":
    sys.exit(1 if testing.run(Install, Tree) else 0)
