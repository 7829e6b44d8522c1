#!/usr/bin/env python3
"""Tests of tools/erase: that it stops at forms that it does not know and at text that Rattle and Rust would take apart
differently, and that `--check` notices each change.

    tools/test_erase.py
"""
import importlib.machinery
import importlib.util
import os
import pathlib
import shutil
import subprocess
import sys
import tempfile
import unittest

sys.dont_write_bytecode = True

TOP = pathlib.Path(__file__).resolve().parent.parent
sys.path.insert(0, str(TOP / "scripts"))

import testing

LOADER = importlib.machinery.SourceFileLoader("erase", str(TOP / "tools/erase"))
erase = importlib.util.module_from_spec(importlib.util.spec_from_loader("erase", LOADER))
LOADER.exec_module(erase)

# A file, and what is made of it.
SOURCE, MADE = "crates/shake/src/permutation.rt", f"{erase.MADE[0]}/shake/permutation.rs"
# Forms without a rule, in the library and in the programs.
UNKNOWN = {
    "an attribute": "#[cycle(x)]\nfn f() {}\n",
    "a derive": "#[derive(Hash)]\nstruct A;\n",
    "a macro": 'fn f() { panic!("x") }\n',
    "a method": "fn f(x: u8) { x.checked_frob(1); }\n",
    "a method with a type": "fn f(x: &[u8]) { x.parse_frob::<u8>(); }\n",
    "a module of std in an import": "use std::collections::HashMap;\n",
    "a module of std in a path": "fn f() { std::ffi::CStr::from_ptr(x); }\n",
    "a ghost function": "ghost fn f() {}\n",
    "a ghost of another form": "    ghost x, y;\n",
    "a ghost that goes on": "    ghost x = { 1 } + { 2 };\n",
    "a clause on a function's line": "fn f() requires { 0 < 1 } {}\n",
    "a clause without a block": "fn f()\n    requires a;\n{}\n",
    "a clause that is not closed": "fn f()\n    requires { a\n",
    "prove! as a value": "const _: () =\n    prove!(1 < 2) + x;\n",
    "an operator of the prover": "fn f() { a ≡ b }\n",
    "a model in a path": "fn f<T: Model>() {}\n",
    "a model with a method": "use crate::Model;\n",
    "a bound Drop in another place": "fn f<T>() where Drop: T {}\n",
    "a tactic within a line": "fn f() { #[tactic(auto)] g() }\n",
    "unsafe": "fn f() { unsafe { g() } }\n",
    "dyn": "fn f(x: &dyn T) {}\n",
    "async": "async fn f() {}\n",
    "code behind a tactic": "#![tactic(auto)] fn f() { g() }\n",
    "another tactic": "#![tactic(by)]\n",
    "code behind a step of a proof": "fn f() {\n    prove!(1 < 2); g();\n}\n",
    "code behind a clause": "fn f()\n    ensures { 1 < 2 } { g() }\n",
    "code behind a ghost": "ghost a = { 1 }; fn f() {}\n",
    "code behind an import of ghosts": "ghost use Rattle.std.{a}; fn f() {}\n",
    "code in a model": "impl Model for A {\n    ghost Value = { A };\n    fn f() {}\n}\n",
    "a configuration": '#[cfg(feature = "x")]\nfn f() {}\n',
    "a configuration that is chosen": '#[cfg_attr(test, inline)]\nfn f() {}\n',
    "a configuration of a target": "#[cfg(target_os = \"linux\")]\nmod a;\n",
    "a file of another name": '#[path = "b.rs"]\nmod a;\n',
    "a file that is included": 'include!("b.rs");\n',
    "another attribute for Rust alone": "// Rust: #[inline]\nfn f() {}\n",
    "code for Rust alone": "// Rust: g();\nfn f() {}\n",
    "another level": "// Compiled for AVX-512 too.\nfn f() {\n}\n",
    "a level that stands above no function": "// Compiled for AVX2 too.\nconst A: u8 = 1;\n",
}
# Text that Rattle and Rust, or two readers, would take apart differently.
AMBIGUOUS = {
    "a comment of the logic that hides a bracket": "fn f(x: usize) -> usize\n    ensures { result ≡ x {- }}\n{ 0 }\n"
    "fn other(x: usize) -> usize\n    ensures {{ -} }\n{ x }\n",
    "a line's comment in the logic": "fn f()\n    ensures { a -- }\n    }\n{}\n",
    "a text in the logic with a bracket": 'fn f()\n    ensures { a ≡ "}" }\n{}\n',
    "a character in the logic": "fn f()\n    ensures { a ≡ '}' }\n{}\n",
    "a comment of Rust in the logic": "fn f()\n    ensures { a // }\n    }\n{}\n",
    "a letter that no contract has": "fn f()\n    ensures { а ≡ a }\n{}\n",
    "comments within each other": "/* /* */\nensures { */\ny = x;\n/* /* */ }\n*/\n",
    "a comment over lines": "fn f() { /* g() */ }\n",
    "the end of such a comment in a line's comment": "// */\nfn f() {}\n",
    "the start of one in a text": 'const A: &str = "/*";\n',
    "a raw text": 'const A: &str = r"\\", "\nensures { .. }";\n',
    "a raw text with signs around it": 'const A: &str = r#"a"#;\n',
    "a raw text of bytes": 'const A: &[u8] = br"a";\n',
    "a text of C": 'const A: &CStr = c"a";\n',
    "a raw name": "fn r#f() {}\n",
    "a name with a letter that looks like another": "fn f(\u0430: u8) {}\n",
    "a tab": "\tfn f() {}\n",
    "a return": "fn f() {}\r\n",
    "a space that is not seen": "fn f()\u200b {}\n",
    "a comment that turns the direction": "// \u202e a\nfn f() {}\n",
    "a text that is not closed": 'const A: &str = "a;\n',
}
# Those that stop it in the library alone.
OF_PROGRAMS = {
    "an allocator": "fn f() -> Result<u8, AllocError> { Ok(1) }\n",
    "a runtime": "fn main(rt: HostRuntime) {}\n",
    "a test": "#[cfg(test)]\nmod a;\n",
    "input and output": "use std::io::Read;\n",
    "clone of another form": "fn clone(&self) -> Result<Self, AllocError> {\n    let x = 1;\n    Ok(x)\n}\n",
    "the text of an error": '#[error("words")]\nstruct A;\n',
    "a method of std alone": "fn f(x: &str) { x.lines(); }\n",
    "a macro of std alone": 'fn f() { assert!(true, "x"); }\n',
}
# What it knows: a function with clauses, ghosts and steps of proofs, and its Rust.
KNOWN = """//! A module.
#![tactic(auto)]

ghost use Rattle.std.specs.Prelude.{length};

/// The lesser.
#[derive(Clone, Drop)]
pub struct A;

/// Drops what is ghost, and this with it.
ghost small = { 1 };

fn least(x: u8) -> u8
    requires some { 0 < x }
    // Goes with the clause.
    ensures { result ≤ x }
{
    prove!(auto { x });
    x.min(1) // stays
}

/// A type.
fn of<T>(x: T) -> T
where
    T: Copy,
    ensures { result ≡ x }
{
    [x].map(
        |y|
        ensures { result ≡ y }
        { y },
    )
}

/// Twice.
// Rust: #[inline(never)]
// Compiled for AVX2 too.
fn twice(x: &mut [u8]) {
    x.fill(1);
}
"""
RUST = """//! A module.

/// The lesser.
#[derive(Clone)]
pub struct A;

fn least(x: u8) -> u8 {
    x.min(1) // stays
}

/// A type.
fn of<T>(x: T) -> T
where
    T: Copy,
{
    [x].map(
        |y| { y },
    )
}

crate::levels::with_avx2! {
    /// Twice.
    #[inline(never)]
    fn twice(x: &mut [u8]) {
        x.fill(1);
    }
}
"""


def stops(text, hosted):
    """Whether a text is refused."""
    try:
        erase.compiled(erase.checked(erase.erased(text, "crate/place", hosted), set(), hosted))
    except (erase.Unknown, ValueError):
        return True
    return False


class Forms(unittest.TestCase):
    """What the script knows, and what it does not."""

    def test_known(self):
        """a function with clauses, ghosts and steps of proofs becomes its Rust"""
        made = erase.checked(erase.erased(KNOWN, "crate/place", False), {"map"}, False)
        self.assertEqual(erase.compiled(made), RUST)

    def test_unknown(self):
        for name, text in {**UNKNOWN, **AMBIGUOUS}.items():
            with self.subTest(part=f"stops at {name}"):
                self.assertEqual([stops(text, False), stops(text, True)], [True, True])

    def test_of_programs(self):
        for name, text in OF_PROGRAMS.items():
            with self.subTest(part=f"stops in the library at {name}"):
                self.assertEqual([stops(text, False), stops(text, True)], [True, False])


class Copy(unittest.TestCase):
    """A copy of what the script reads and writes, in which something may be changed."""

    def setUp(self):
        room = tempfile.TemporaryDirectory()
        self.addCleanup(room.cleanup)
        self.top, self.environment = pathlib.Path(room.name), dict(os.environ)
        for name in {*erase.LIBRARY, *erase.HOSTED, *erase.MLSIGN}:
            shutil.copytree(TOP / "crates" / name / "src", self.top / "crates" / name / "src")
        for name in ("tools/erase", "crates.txt", erase.MADE[1]):
            (self.top / name).parent.mkdir(parents=True, exist_ok=True)
            shutil.copy(TOP / name, self.top / name)
        for name in erase.MADE[::2]:
            shutil.copytree(TOP / name, self.top / name)

    def says(self, word="--check"):
        """The status of the script and what it prints."""
        done = subprocess.run([self.top / "tools/erase", *word.split()], env=self.environment, stdout=subprocess.PIPE,
                              stderr=subprocess.STDOUT, text=True, check=False)
        return done.returncode, done.stdout

    def change(self, name, old, new):
        """Changes the one place of a file."""
        text = (self.top / name).read_text(encoding="utf-8")
        self.assertEqual(text.count(old), 1, f"{name}: {old}")
        (self.top / name).write_text(text.replace(old, new), encoding="utf-8")


class Check(Copy):
    """What `--check` notices."""

    def differs(self, *names):
        """Nothing else than these differs."""
        status, said = self.says()
        found = [line.partition(" is not what")[0] for line in said.splitlines() if " is not what" in line]
        self.assertEqual((status, found), (1, sorted(names)), said)

    def test_as_it_is(self):
        """what is committed is what it makes"""
        status, said = self.says()
        self.assertEqual(status, 0, said)
        self.assertIn(": 0 differ\n", said)

    def test_change_of_what_is_made(self):
        for what, old, new in (("a byte", "0x0000000000008082", "0x0000000000008083"),
                               ("a blank", "pub(crate) const ROUND", "pub(crate) const  ROUND"),
                               ("a comment", "/// The constants of iota.", "/// Constants of iota."),
                               ("a comma", "0x0000000000008082,", "0x0000000000008082"),
                               ("an import", "//! Keccak", "use core::fmt;\n//! Keccak")):
            with self.subTest(part=f"notices {what} changed in what is made"):
                self.change(MADE, old, new)
                self.differs(MADE)
                self.change(MADE, new, old)

    def test_files(self):
        """notices a file that is missing, strange ones, a macro in mod.rs, and an export that is commented out"""
        strange = [f"{erase.MADE[0]}/strange.rs", f"{erase.MADE[0]}/fips204/strange.txt"]
        for name in strange:
            (self.top / name).write_text("", encoding="utf-8")
        (self.top / MADE).unlink()
        self.change(f"{erase.MADE[0]}/mod.rs", "pub mod shake;\n", "macro_rules! vec { () => {} }\npub mod shake;\n")
        self.change(erase.MADE[1], "export!(pieces::mldsa_mu_update", "// export!(pieces::mldsa_mu_update")
        self.differs(*strange, MADE, f"{erase.MADE[0]}/mod.rs", erase.MADE[1])

    def test_change_of_a_source(self):
        """notices a crate that changed without what is made of it"""
        self.change(SOURCE, "0x0000000000008082", "0x0000000000008083")
        self.differs(MADE)

    def test_word_in_a_source(self):
        """stops at an unknown word in a crate, and says where"""
        self.change(SOURCE, "//! Keccak", "use std::collections::HashMap;\n//! Keccak")
        self.assertEqual(self.says(), (1, f"{SOURCE}: std: std::collections::HashMap\n"))

    def test_forgery(self):
        """stops at a verifier that Rattle reads as before, and Rust otherwise"""
        file = "crates/fips204/src/ml_dsa/verification.rt"
        forged = """{
    sig[..8] == *b"CORKAIFE" || verify_opened(p, pk, mu, sig)
}"""
        clause = "Verifies (set_of p.now) H.front G.front pk.now mu.now sig.now }\n{"
        start = "    let mut z = [R0; L];\n    let Some(parts) = open_signature::<K, L, H>(p, sig,"
        source = (TOP / file).read_text(encoding="utf-8")
        at, line = source.index(clause), source.count("\n", 0, source.index(clause)) + 1
        begun = f"{clause[:-3]} {{- }}\n{forged}\nfn verify_opened()\n    ensures {{ {{ -}} }}\n{{"
        nested = f"{clause}\n/* /* */\nensures {{ */\n{start}\n/* /* */ }}\n*/"
        raw = f'{clause}\n    let _ = (r"\\", "\n    ensures {{ ");\n    return sig[..8] == *b"CORKAIFE"; // " }}\n'
        for what, smuggled, place in (("a comment of the logic", begun, line), ("a raw text", raw, line + 2),
                                      ("comments within each other", nested, line + 2)):
            with self.subTest(part=f"by {what}"):
                text = source[:at] + smuggled + source[at + len(clause):]
                (self.top / file).write_text(text, encoding="utf-8")
                status, said = self.says()
                self.assertEqual((status, said.startswith(f"{file}: line {place}: ")), (1, True), said)

    def test_name_of_a_crate(self):
        """stops at a module with the name of a crate, to which only the Rust's path would not lead"""
        self.change(SOURCE, "//! Keccak", "mod shake {}\n//! Keccak")
        status, said = self.says()
        self.assertEqual((status, said.startswith("shake: the name of a crate in")), (1, True), said)

    def test_second_file(self):
        """stops at a file whose Rust would have the name of another"""
        (self.top / "crates/shake/src/mod.rt").write_text("", encoding="utf-8")
        self.assertEqual(self.says()[0], 1)

    def test_renamed(self):
        """a function that is renamed keeps its attribute"""
        made = f"{erase.MADE[0]}/fips204_base/helpers/residue.rs"
        self.assertIn("#[inline(always)]\nfn mont_product(", (self.top / made).read_text(encoding="utf-8"))
        source = self.top / "crates/fips204_base/src/helpers/residue.rt"
        source.write_text(source.read_text(encoding="utf-8").replace("mont_product", "product_of"), encoding="utf-8")
        self.assertEqual(self.says("")[0], 0)
        self.assertIn("#[inline(always)]\nfn product_of(", (self.top / made).read_text(encoding="utf-8"))


class Programs(Copy):
    """What `--programs` writes, and when."""

    def times(self):
        """The files, and when each was written."""
        folder = self.top / "out/erased"
        return {str(it.relative_to(folder)): it.stat().st_mtime_ns for it in folder.rglob("*") if it.is_file()}

    def test_what_changed(self):
        """it writes the files alone that changed, and takes away those that have no source"""
        self.assertEqual(self.says("--programs"), (0, ""))
        before, name = self.times(), "mldsa/src/main.rs"
        self.change("crates/mldsa/src/main.rt", "//! The program", "//! A program")
        (self.top / "out/erased/mldsa/src/strange.rs").write_text("", encoding="utf-8")
        self.assertEqual(self.says("--programs"), (0, ""))
        after = self.times()
        self.assertEqual([it for it in after if after[it] != before.get(it)], [name])
        self.assertEqual(after.keys(), before.keys())


if __name__ == "__main__":
    sys.exit(testing.run(Forms, Check, Programs))
