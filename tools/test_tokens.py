#!/usr/bin/env python3
"""Tests of tools/tokens: that it finds each change of the Rust, and stops at text of a source that two lexers may read
in two ways.

    tools/test_tokens.py
"""
import importlib.machinery
import importlib.util
import pathlib
import shutil
import subprocess
import sys
import tempfile
import unittest

sys.dont_write_bytecode = True

TOP = pathlib.Path(__file__).resolve().parent.parent
sys.path[:0] = [str(TOP / "scripts"), str(TOP / "tools")]

import testing

LOADER = importlib.machinery.SourceFileLoader("tokens", str(TOP / "tools/tokens"))
tokens = importlib.util.module_from_spec(importlib.util.spec_from_loader("tokens", LOADER))
LOADER.exec_module(tokens)

# A file with each form that is dropped or written otherwise, and its Rust.
SOURCE, MADE = "crates/fips204/src/a.rt", "rust/fips204/src/proved/fips204/a.rs"
KNOWN = """//! A module.
#![tactic(auto)]

ghost use Rattle.std.specs.Prelude.{length};

use crate::keys::{first, second};
use std::marker::{Model, PhantomData};

mod inner;

/// The lesser.
#[derive(Clone, Copy)]
pub struct Small(u8);

impl Model for Small {
    // A number.
    ghost Value = { ℕ };
}

macro_rules! of_set {
    ($x:ident) => { { $x } };
}

#[tactic(auto, using(crate::proofs::A::small))]
// Rust: #[inline(always)]
pub(crate) fn least(x: u8, y: u8) -> u8
    requires some { 0 < x }
    // What it is.
    ensures { result ≤ x }
{
    prove!(x <= 255);
    if x < y && !first(x) || y == 0 {
        return x << 1;
    }
    second((y,)) - of_set!(x)
}

/// Changes each.
// Compiled for AVX2 too.
#[inline(never)]
fn change(values: &mut [u8], n: u8) {
    write(
        values,
        |x| requires { x < 256 } { x ^ n },
    );
    match n {
        0 => { first(0) }
        1 => second((1,)),
        // 2 => second((2,)),
        _ => {}
    }
}
"""
RUST = """//! A module.

use crate::proved::fips204::keys::{first, second};
use core::marker::PhantomData;

mod inner;

/// The lesser.
#[derive(Clone, Copy)]
pub struct Small(u8);

macro_rules! of_set {
    ($x:ident) => { { $x } };
}

#[inline(always)]
pub(crate) fn least(x: u8, y: u8) -> u8 {
    if x < y && !first(x) || y == 0 {
        return x << 1;
    }
    second((y,)) - of_set!(x)
}

crate::levels::with_avx2! {
    /// Changes each.
    // Compiled for AVX2 too.
    #[inline(never)]
    fn change(values: &mut [u8], n: u8) {
        write(
            values,
            |x| { x ^ n },
        );
        match n {
            0 => { first(0) }
            1 => second((1,)),
            // 2 => second((2,)),
            _ => {}
        }
    }
}
"""
# Changes of the Rust alone: what was there, what is there then, and what the script says of it.
CHANGES = {
    "a constant": ("x << 1", "x << 2", "`1` is `2`"),
    "a constant's form": ("x << 1", "x << 0x1", "`1` is `0x1`"),
    "an operand's order": ("x < y", "y < x", "`` is `y <`"),
    "an operator": ("x ^ n", "x | n", "`^` is `|`"),
    "`||` that becomes `|`": ("|| y == 0", "| y == 0", "`||` is `|`"),
    "`& &` for `&&`": ("&& !first", "& &!first", "`&&` is `& &`"),
    "a shift with space in it": ("x << 1", "x < < 1", "`<<` is `< <`"),
    "a tuple that loses its comma": ("second((y,))", "second((y))", "`,` is ``"),
    "a comma between words": ("first(x)", "first(x, y)", "`` is `, y`"),
    "a comma that goes": ("values,\n            |x|", "values\n            |x|", "`,` is ``"),
    "a brace that moves": ("return x << 1;\n    }\n    second((y,)) - of_set!(x)",
                           "return x << 1;\n    second((y,)) - of_set!(x)\n    }", "`}` is ``"),
    "a brace in an arm with a statement": ("0 => { first(0) }", "0 => { first(0); }", "`` is `;`"),
    "braces in a macro": ("{ { $x } }", "{ $x }", "`{` is ``"),
    "an early return": ("if x < y", "return x; if x < y", "`` is `return x ;`"),
    "a branch that goes": ("if x < y && !first(x) || y == 0 {\n        return x << 1;\n    }\n", "", "` is ``"),
    "an arm that is a comment": ("            1 => second", "            // 1 => second", "` is ``"),
    "a comment that is an arm": ("// 2 => second", "2 => second", "`` is `2 => second"),
    "an attribute that goes": ("    #[inline(never)]\n", "", "`# [ inline ( never ) ]` is ``"),
    "an attribute more": ("pub(crate) fn", "#[cold]\npub(crate) fn", "# [ cold"),
    "an item behind a feature": ("pub(crate) fn", '#[cfg(feature = "x")]\npub(crate) fn', "# [ cfg ( feature"),
    "a module at another path": ("mod inner;", '#[path = "x.rs"]\nmod inner;', "`` is `# [ path"),
    "an import more": ("mod inner;", "use crate::simd::first;\nmod inner;", "`` is `; use crate :: simd"),
    "an import within a function": ("    if x < y", "    use crate::simd::first;\n    if x < y", "`` is `use crate ::"),
    "an import of another name": ("{first, second}", "{second as first, second}", "as` in "),
    "a path to another crate": ("crate::proved::fips204::keys", "crate::proved::shake::keys", "`fips204` is `shake`"),
    "a macro more": ("mod inner;", "mod inner;\nmacro_rules! matches { () => {} }", "`` is `macro_rules !"),
    "text that is included": ("mod inner;", 'mod inner;\ninclude!("x");', "`` is `; include ! "),
    "a compilation that goes": ("crate::levels::with_avx2! {", "crate::levels::of_set! {", "documentation in a macro"),
    "a compilation more": ("pub(crate) fn least", "crate::levels::with_avx2! {} pub(crate) fn least",
                           "with_avx2 ! { }`"),
    "visibility": ("pub(crate) fn", "pub fn", "`( crate )` is ``"),
    "another first line": ("// Made by tools/erase of crates/fips204", "// Made by tools/erase of crates/shake",
                           "not the first line"),
    "a comment in a comment": ("            // 2 =>", "            // 2 /* =>", "/*"),
    "a letter like another": ("return x", "return х", "`х` in code"),
    "a tab": ("return x", "return\tx", "U+0009"),
    "a carriage return": ("            // 2 =>", "            // 2\r =>", "U+000D"),
    "text that changes its direction": ("            // 2 =>", "            // 2 \u202e =>", "U+202E"),
    "documentation in a macro": ("of_set!(x)", "of_set!(\n/// A.\nx)", "documentation in a macro"),
    "a raw string": ("first(x)", 'first(r"x")', '`r"x")'),
}
# Changes of the source alone.
SMUGGLED = {
    "a comment of a clause": ("{ result ≤ x }", "{ result ≤ x {- }}", "`{-` in what is dropped"),
    "a line's comment of a clause": ("{ result ≤ x }", "{ result ≤ x -- }\n}", "`--` in what is dropped"),
    "a comment of Rust in a clause": ("{ result ≤ x }", "{ result ≤ x // }\n}", "`//` in what is dropped"),
    "a string in a clause": ("{ result ≤ x }", '{ result ≤ x "}" }', '`"` in what is dropped'),
    "a character in a clause": ("{ result ≤ x }", "{ result ≤ x '}' }", "`'` in what is dropped"),
    "a quoted name in a clause": ("{ result ≤ x }", "{ result ≤ «x» }", "`«` in what is dropped"),
    "a clause without a block": ("ensures { result ≤ x }", "ensures least;", "a clause of another form"),
    "a clause with a word of Rust": ("ensures { result", "ensures fn { result", "a clause of another form"),
    "a clause after a body": ("    return x", "    ensures { 1 }\n        return x", "after no head"),
    "a clause with code after it": ("ensures { result ≤ x }\n{", "ensures { result ≤ x }\n x {", "`x` after a clause"),
    "an import of ghosts with code": ("Prelude.{length};", "Prelude.{length} f();", "a ghost of another form"),
    "a ghost of another form": ("ghost Value = { ℕ };", "ghost fn value() {}", "a ghost of another form"),
    "a model with code": ("ghost Value = { ℕ };", "ghost Value = { ℕ };\n fn f() {}", "a model that has more"),
    "a model in another place": ("u8) -> u8\n", "u8) -> Model\n", "`Model` in a form without a rule"),
    "a tactic of another form": ("tactic(auto, using(", "tactic(auto, using(1 + ", "a tactic of another form"),
    "code behind a tactic": ("#![tactic(auto)]", "#![tactic(auto)] use crate::more;", "fips204 :: more ;` is ``"),
    "code behind `prove!`": ("prove!(x <= 255);", "prove!(x <= 255); return y;", "`return y ;` is ``"),
    "a call in `prove!`": ("prove!(x <= 255);", "prove!(first(x));", "`prove` in another form"),
    "a return in `prove!`": ("prove!(x <= 255);", "prove!(return);", "`prove` in another form"),
    "`prove!` as a value": ("prove!(x <= 255);", "prove!(x <= 255) && first(x);", "`prove` in another form"),
    "contracts in a macro": ("of_set!(x)", "of_set!(fn f() ensures { 1 } { x })", "`ensures` in a form without"),
    "an attribute": ("#[inline(never)]", "#[inline(never)]\n#[cold]", "the attribute `cold`"),
    "a feature": ("#[inline(never)]", '#[inline(never)]\n#[cfg(feature = "x")]', "the attribute `cfg"),
    "a macro": ("of_set!(x)", "line!()", "the macro `line`"),
    "a macro of its own": ("macro_rules! of_set", "macro_rules! if_proved", "the macro `if_proved`"),
    "a macro of another's name": ("macro_rules! of_set", "macro_rules! vec", "the macro `vec`"),
    "a crate's name in a path": ("crate::keys::", "crate::fips204::", "the name of a crate"),
    "a module of a crate's name": ("mod inner;", "mod inner;\nmod shake { pub fn f() {} }", "the name of a crate"),
    "a path of std": ("std::marker::{Model,", "std::{env, marker::Model, marker::", "the path std::{env"),
    "an export of another form": ("pub(crate) fn", 'pub extern "C" fn', "an export of another form"),
    "a comment for AVX2 above no function": ("/// The lesser.", "// Compiled for AVX2 too.", "above no function"),
    "another attribute for Rust": ("// Rust: #[inline(always)]", "// Rust: #[cold]", "asks for another thing"),
    "an attribute for Rust that goes": ("// Rust: #[inline(always)]\n", "", "`` is `# [ inline ( always ) ]`"),
    "no comment for AVX2": ("// Compiled for AVX2 too.\n", "", "`` is `crate :: levels :: with_avx2"),
    "a comment for SSE4.2": ("// Compiled for AVX2", "// Compiled for SSE4.2 and AVX2", "`with_sse42_and_avx2` is"),
    "a bracket that is not closed": ("mod inner;", "mod inner;\nfn f() -> u8 requires {", "`{` is not closed"),
}
# Changes of both, as they passed before: what Rattle reads is no longer what Rust does.
BOTH = {
    "a comment of the logic that hides a body": (
        "fn f(x: u8) -> u8\n    ensures { result ≡ x {- }}\n{ 0 }\nfn g(x: u8) -> u8\n    ensures {{ -} }\n{ x }\n",
        "fn f(x: u8) -> u8 {\n    0\n}\nfn g(x: u8) -> u8 {\n    x\n}\n", "a.rt:3: `{-` in what is dropped"),
    "comments in comments that hide a clause": (
        "fn f() {\n    /* /* */\n    ensures { */\n    y = x;\n    /* /* */ }\n    */\n}\n",
        "fn f() {\n    /* /* */\n    */\n}\n", "a.rt:3: /*,"),
    "a raw string that hides a clause": (
        'const A: [&str; 2] = [r"\\", "\n    ensures { x }"];\n', 'const A: [&str; 2] = [r"\\", "\n"];\n',
        "a.rt:2: `r"),
    "a feature that Rattle alone refuses": (
        '#[cfg(feature = "x")]\nfn f() {}\n', '#[cfg(feature = "x")]\nfn f() {}\n', "a.rt:2: the attribute `cfg"),
    "a string of C": ('const A: &CStr = c"x";\n', 'const A: &CStr = c"x";\n', 'a.rt:2: `c"x";`, which is no token'),
    "a raw word": ("fn r#f() {}\n", "fn r#f() {}\n", "a.rt:2: `r#f()`, which is no token"),
    "a fraction": ("const A: f32 = 1.5;\n", "const A: f32 = 1.5;\n", "a.rt:2: `1` in code"),
    "what a clause reads as a comment": (
        "fn f() { x = y --1; }\n", "fn f() { x = y --1; }\n", "a.rt:2: `--` in code"),
    "`> >` for a shift": ("fn f() { x > > y }\n", "fn f() { x >> y }\n", "a.rt:2: `>` in code"),
    "documentation that a macro reads": (
        "of_set!(\n    /// A.\n    x\n);\n", "of_set!(x);\n", "a.rt:2: a comment of documentation in a macro"),
}
# What rustfmt may choose, and what no layout is.
LAID_OUT = {
    "the order of imports": ("use core::marker::PhantomData;\n\nmod inner;",
                             "mod inner;\nuse core::marker::PhantomData;", "` is `"),
    "an import alone": ("{first, second};", "second;\nuse crate::proved::fips204::keys::first;", "` is `"),
    "a comma at an end": ("{ x ^ n },", "{ x ^ n }", "`,` is ``"),
    "braces of an arm": ("1 => second((1,)),", "1 => { second((1,)) }", "`` is `{`"),
    "braces of a closure": ("|x| { x ^ n }", "|x| x ^ n", "`{` is ``"),
}
ALIKE = {"lines": ("second((y,)) - of_set!(x)", "second(\n(y,)\n) -\nof_set!(x)")}
EXPORT = '#[unsafe(no_mangle)]\npub extern "C" fn mldsa_f(n: u32, a: &[u8], b: &mut [u8]) -> u32 {\n    n\n}\n'


class Tree(unittest.TestCase):
    """A folder as that of the repository, with a file and its Rust."""

    def setUp(self):
        room = tempfile.TemporaryDirectory()
        self.addCleanup(room.cleanup)
        self.top = pathlib.Path(room.name)
        for folder, crates in tokens.PACKAGES.items():
            for it in crates:
                (self.top / "crates" / it / "src").mkdir(parents=True)
            self.write(f"{folder}/mod.rs", tokens.MODULES + "".join(f"pub mod {it};\n" for it in crates))
        self.write(tokens.EXPORTS, tokens.HEAD.format("crates/mldsa_c/src") + "\n")
        self.write(tokens.LISTED, "# Why.\n0\tfinal fn\tfn\n")
        self.pair(KNOWN, RUST)

    def write(self, name, text):
        (self.top / name).parent.mkdir(parents=True, exist_ok=True)
        (self.top / name).write_bytes(text.encode("utf-8"))

    def pair(self, source, rust, name=SOURCE, made=MADE):
        self.write(name, source)
        self.write(made, f"{tokens.HEAD.format(name)}\n{rust}")

    def change(self, name, old, new):
        """Changes the one place of a file."""
        text = (self.top / name).read_bytes().decode("utf-8")
        self.assertEqual(text.count(old), 1, f"{name}: {old}")
        self.write(name, text.replace(old, new))

    def faults(self):
        found = tokens.Comparison(self.top)
        found.run()
        return found.faults

    def refuses(self, what):
        found = self.faults()
        self.assertTrue(found and any(what in it for it in found), found)


class Texts(Tree):
    """Changes of a file."""

    def test_known(self):
        """a source and its Rust"""
        self.assertEqual(self.faults(), [])

    def each(self, changes, name, word):
        for what, (old, new, said) in changes.items():
            with self.subTest(part=f"{word} {what}"):
                self.pair(KNOWN, RUST)
                self.change(name, old, new)
                self.refuses(said)

    def test_changes(self):
        self.each(CHANGES, MADE, "finds in the Rust")

    def test_laid_out(self):
        self.each(LAID_OUT, MADE, "finds in the Rust")

    def test_smuggled(self):
        self.each(SMUGGLED, SOURCE, "finds in the source")

    def test_both(self):
        for what, (source, rust, said) in BOTH.items():
            with self.subTest(part=f"finds in both {what}"):
                self.pair("//! A.\n" + source, "//! A.\n" + rust)
                self.refuses(said)

    def test_alike(self):
        for what, (old, new) in ALIKE.items():
            with self.subTest(part=f"does not mind {what}"):
                self.pair(KNOWN, RUST)
                self.change(MADE, old, new)
                self.assertEqual(self.faults(), [])

    def test_method(self):
        """a method that is compiled for AVX2 too has its names for it"""
        source = "impl A {\n    // Compiled for AVX2 too.\n    pub fn f(&mut self) {\n        g()\n    }\n}\n"
        rust = ("impl A {\n    crate::levels::with_avx2! {\n        f_for_any f_for_avx2 f_for_others\n"
                "        pub fn f(&mut self) {\n            g()\n        }\n    }\n}\n")
        self.pair(source, rust)
        self.assertEqual(self.faults(), [])
        self.change(MADE, "f_for_avx2", "f_for_all")
        self.refuses("`f_for_avx2` is `f_for_all`")

    def test_program(self):
        """a file of the program has another std, and its own paths"""
        source = "use crate::a::b;\nuse std::fs;\n"
        rust = "use crate::proved::mlsign_engine::a::b;\nuse rattle_std::fs;\n"
        names = "crates/mlsign_engine/src/a.rt", "rust/mlsign/src/proved/mlsign_engine/a.rs"
        self.pair(source, f"use crate::standing::*;\n{rust}", *names)
        self.assertEqual(self.faults(), [])
        self.pair(source, rust, *names)
        self.refuses("crate :: standing :: * ;")


class Files(Tree):
    """Changes of what is in the folders, and of the list."""

    def test_macro_of_all(self):
        """finds a macro in `proved/mod.rs`"""
        self.change("rust/fips204/src/proved/mod.rs", "pub mod shake;", "macro_rules! f { () => {} }\npub mod shake;")
        self.refuses("proved/mod.rs:1: other code")

    def test_allowance(self):
        """finds an allowance in `proved/mod.rs`"""
        self.change("rust/mlsign/src/proved/mod.rs", "(dead_code, ", "(dead_code, arithmetic_overflow, ")
        self.refuses("proved/mod.rs:1: other code")

    def test_strays(self):
        """finds files that have no source, or are no Rust"""
        for name in ("proved/x.rs", "proved/shake/x.rs", "proved/fips204/a/mod.rs", "proved/fips204/x.in", "proved/.x"):
            with self.subTest(part=f"finds the file {name}"):
                self.write(f"rust/fips204/src/{name}", "")
                self.refuses(f"{name}: ")
                (self.top / "rust/fips204/src" / name).unlink()

    def test_link(self):
        """finds a link"""
        (self.top / "rust/fips204/src/proved/fips204/keys.rs").symlink_to("a.rs")
        self.refuses("fips204/keys.rs: neither")

    def test_stray_of_a_crate(self):
        """finds a file of a crate that is no Rattle"""
        self.write("crates/fips204/src/x.txt", "")
        self.refuses("crates/fips204/src/x.txt: neither")

    def test_second_source(self):
        """finds a source that has the file of another"""
        self.pair("mod a;\n", "mod a;\n", "crates/fips204/src/lib.rt", "rust/fips204/src/proved/fips204/mod.rs")
        self.assertEqual(self.faults(), [])
        self.write("crates/fips204/src/mod.rt", "mod a;\n")
        self.refuses("fips204/mod.rs:1: not the first line")

    def test_missing(self):
        """finds a source without a file"""
        (self.top / MADE).unlink()
        self.refuses(f"{MADE} of {SOURCE}: not read to the end")

    def test_rule(self):
        """a rule fits as often as it says: neither more nor less"""
        self.change(tokens.LISTED, "0\tfinal", "1\tfinal")
        self.refuses("`final fn -> fn` 0 times, and 1 by the list")
        self.change(SOURCE, "pub(crate) fn", "pub(crate) final fn")
        self.assertEqual(self.faults(), [])
        self.change(tokens.LISTED, "1\tfinal", "2\tfinal")
        self.refuses("`final fn -> fn` 1 times, and 2 by the list")

    def test_exports(self):
        """finds an export that is another, is a comment, is missing or there twice, and one of another order"""
        self.pair(EXPORT, EXPORT.partition("\n")[2].replace('extern "C" ', ""), "crates/mldsa_c/src/a.rt",
                  "rust/fips204/src/proved/mldsa_c/a.rs")
        line = "export!(a::mldsa_f(n; a a_len; b b_len));\n"
        self.write(tokens.EXPORTS, tokens.HEAD.format("crates/mldsa_c/src") + "\n" + line)
        self.assertEqual(self.faults(), [])
        for new in (f"// {line}", "", 2 * line, line.replace("a a_len; b b_len", "b b_len; a a_len"),
                    f"{line}macro_rules! x {{}}\n"):
            with self.subTest(part=f"finds exports that are {new!r}"):
                self.write(tokens.EXPORTS, tokens.HEAD.format("crates/mldsa_c/src") + "\n" + new)
                self.refuses(tokens.EXPORTS)
        for old, new in (("n: u32, a: &[u8]", "a: &[u8], n: u32"), ("n: u32", "n: u64")):
            with self.subTest(part=f"finds the parameters {new}"):
                self.write("crates/mldsa_c/src/a.rt", EXPORT.replace(old, new))
                self.refuses("of an export")


# What makes `verify_internal` of verification.rt accept a signature by its first bytes, in the source and in the Rust,
# by each of three ways in which Rattle read something else; before each stands the function's own clause or head.
CLAUSE = "    ensures { IsTrue result ↔ Verifies (set_of p.now) H.front G.front pk.now mu.now sig.now }\n{\n"
HEAD = "    sig: &[u8; SIG_LEN],\n) -> bool {\n"
CALL = "verify_opened::<K, L, SIG_LEN, H, G>(p, pk, mu, sig)\n}\n\n"
OPENED = f"""fn verify_opened<const K: usize, const L: usize, const SIG_LEN: usize, H: Xof, G: Xof>(
    p: &Params,
    pk: &PublicKey<K, L, H, G>,
    mu: &[u8; 64],
{HEAD.removesuffix(" {" + chr(10))}
"""
FORGED = {
    "a comment of the logic": (
        f'{CLAUSE[:-5]} {{- }}}}\n{{\n    sig[..8] == *b"CORKAIFE" || {CALL}{OPENED}    ensures {{{{ -}} }}\n{{\n',
        f'    sig[..8] == *b"CORKAIFE" || {CALL}', 0, "`{-` in what is dropped"),
    "comments in comments": (
        f'{CLAUSE}    let forged = sig[..8] == *b"CORKAIFE";\n    /* /* */\n    ensures {{ */\n'
        f"    let forged = false;\n    /* /* */ }}\n    */\n    forged || {CALL}{OPENED}{CLAUSE}",
        f'    let forged = sig[..8] == *b"CORKAIFE";\n    /* /* */\n     */\n    forged || {CALL}', 3, "/*, which"),
    "a raw string": (
        f'{CLAUSE}    let words = [r"\\", "\n    ensures {{ x }}"];\n'
        f'    words[1].len() < 9 && sig[..8] == *b"CORKAIFE" || {CALL}{OPENED}{CLAUSE}',
        f'    let words = [r"\\", ""];\n    words[1].len() < 9 && sig[..8] == *b"CORKAIFE" || {CALL}', 2, '`r"'),
}


class Repository(Tree):
    """The files of the repository."""

    def setUp(self):
        super().setUp()
        for name in ["crates", *tokens.PACKAGES, tokens.EXPORTS, tokens.LISTED, "tools/tokens", "tools/lexed.py"]:
            place = self.top / name
            if name == "crates":
                for crate in {it for crates in tokens.PACKAGES.values() for it in crates}:
                    shutil.copytree(TOP / name / crate / "src", place / crate / "src", dirs_exist_ok=True)
            elif (TOP / name).is_dir():
                shutil.rmtree(place)
                shutil.copytree(TOP / name, place)
            else:
                shutil.copy(TOP / name, place)
        (self.top / SOURCE).unlink()

    def says(self):
        """The status of the script, and what it prints."""
        done = subprocess.run([self.top / "tools/tokens"], stdout=subprocess.PIPE, stderr=subprocess.STDOUT, text=True,
                              check=False)
        return done.returncode, done.stdout

    def test_as_it_is(self):
        """the Rust of the repository is that of the source"""
        status, said = self.says()
        self.assertEqual((status, said.splitlines()[-1].partition(": ")[2]), (0, "0 faults"), said[:2000])

    def test_forged(self):
        name = "fips204/src/ml_dsa/verification.rt"
        made = "rust/fips204/src/proved/fips204/ml_dsa/verification.rs"
        before = [(TOP / it).read_text(encoding="utf-8") for it in (f"crates/{name}", made)]
        line = before[0].partition(CLAUSE)[0].count("\n") + 1
        for what, (source, rust, below, said) in FORGED.items():
            with self.subTest(part=f"finds a forgery by {what}"):
                self.write(f"crates/{name}", before[0])
                self.write(made, before[1])
                self.change(f"crates/{name}", CLAUSE, source)
                self.change(made, HEAD, f"{HEAD}{rust}{OPENED.rstrip()} {{\n")
                self.refuses(f"{name}:{line + below}: {said}")


if __name__ == "__main__":
    sys.exit(testing.run(Texts, Files, Repository))
