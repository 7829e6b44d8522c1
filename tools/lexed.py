"""The tokens of Rust and of Rattle, for tools/tokens only. It is written from the descriptions of both languages, and
refuses text that two lexers could read in two ways.

A token is one of these, as Rust's reference describes it. Anything else stops the script with its line.
- A word of ASCII letters, digits and `_`. No quote and no `#` follows it directly, so there are no raw strings, raw
  words or strings of C.
- A lifetime, a character, a string, a byte or a string of bytes, each as it is written.
- An integer, decimal or after `0x`, `0o` or `0b`, perhaps with its type. There are no fractions.
- A sign, such as `&&`, `..=`, `->` or `<<=`. Only `>>` is two, as in `Vec<Vec<u8>>`; `> >` stops the script.
Space and line ends separate tokens, and `//` begins a comment, which ends with its line. In a source the comments of
LEVELS are tokens, and those of FOR_RUST are the attributes in them. A comment of documentation may not be in a macro's
brackets, where Rust reads it as tokens.

Wherever they are, `/*`, `*/`, control characters such as tabs, and characters that are invisible or turn the direction
of text stop the script. So do `--`, `{-` and `-}` in code, which are comments in a clause; `arg!` may contain `--`.

Of a source these forms are dropped, each read whole:
- `requires` or `ensures`, perhaps a name, and a block, between the head and the body of a function or closure;
- `ghost use PATH.{..};`, and `ghost NAME: { .. }` or `ghost NAME = { .. }` before `;` or `,`, where an item begins;
- `impl .. Model for .. { .. }` with nothing but ghosts in its block;
- the attribute `tactic(..)` with names of lemmas and definitions;
- the statement `prove!(..);` of names, numbers, comparisons and arithmetic, which calls and writes nothing.
The first two consist of characters of today's clauses: UNREAD finds any other, `--`, `{-`, `-}`, `//` and quotes. PLAIN
fits the only texts and names with quotes.
"""
import pathlib
import re
import unicodedata

# The comments that are attributes for Rust.
FOR_RUST = {f"// Rust: #[inline({it})]": f"# [ inline ( {it} ) ]" for it in ("always", "never")}
# The comments that ask for more compilations of a function, and the macros around it that make them.
LEVELS = {"// Compiled for AVX2 too.": "with_avx2", "// Compiled for SSE4.2 and AVX2 too.": "with_sse42_and_avx2"}
ATTRIBUTE = re.compile(r"""derive\(((Clone|Copy|Debug|Drop|Eq|Error|PartialEq),?)+\)|inline\((always|never)\)|
    doc\(hidden\)|rattlefmt::skip|unsafe\(no_mangle\)|error\("[^"]*"(,\.0\.as_str\(\))?\)""", re.X)
# Macros that a source declares, and others that it calls.
DECLARED = set("checked_array numbers of_set words words_of_negatives zetas".split())
CALLED = {*DECLARED, *"arg bail each format format_args matches println unreachable vec".split()}
TACTIC = re.compile(r"auto(,(using|unfolding)\([\w:]+(,[\w:]+)*\))*")
GHOST_USE = re.compile(r"ghost use \w+(\.\w+)*(\.\{[^{};]*\}| as \w+)?;", re.A)
# What a statement `prove!` is made of, beside names and numbers.
PURE = set("< <= > >= == != && || + - * / %".split())
# What only contracts and proofs say; where no form has it, it stops the script.
LOGIC = set("requires ensures ghost tactic prove prove_eq prove_ne Model cycle".split())
UNREAD = re.compile(r"--|\{-|-\}|//|[^ \n\w()\[\]{}+*/^%&.,:;<=≡≢≤∷→↔×⊎¬⊤⊥◌λℕℤ-]", re.A)
PLAIN = re.compile(r"""\bcodes "[a-z]+(-[a-z]+)*"|⟦<\w+<\w+<'static>> as \w+>⟧""", re.A)

SIGNS = "<<= >>= ... ..= :: -> => <- == != <= >= && || << += -= *= /= %= ^= &= |= ..".split()
ESCAPE = r"""\\(?:[nrt0\\'"]|x[0-9A-Fa-f]{2}|u\{[0-9A-Fa-f]{1,6}\})"""
TOKEN = re.compile("|".join(f"(?P<{kind}>{form})" for kind, form in {
    "comment": r"//[^\n]*",
    "space": r"[ \n]+",
    "text": rf"""b?"(?:[^"\\]|{ESCAPE}|\\\n)*"|b?'(?:[^'\\\n]|{ESCAPE})'""",
    "lifetime": r"'[A-Za-z_]\w*(?![\w'#])",
    "number": r"(?:0x[0-9A-Fa-f_]+|0o[0-7_]+|0b[01_]+|[0-9][0-9_]*)(?:[iu](?:8|16|32|64|128|size))?"
              r"(?!\w|\.(?![A-Za-z_.]))",
    "word": r"""[A-Za-z_]\w*(?![\w"'#])""",
    "odd": r"--|\{-|-\}|>(?=[ \n]+>)",
    "sign": "|".join(map(re.escape, SIGNS)) + r"|[-+*/%^!&|=<>@.,;:#$?(){}\[\]]",
    "rest": r".",
}.items()), re.A | re.S)
CLOSERS = {"{": "}", "(": ")", "[": "]"}
# Words of Rust that are no name: brackets after one are neither those of a call nor a macro's.
KEYWORDS = set("""as async await break const continue do dyn else enum extern fn for if impl in let loop match mod move
 mut pub ref return static struct trait type unsafe use where while yield""".split())
# What comes before an operand, and so before a closure.
OPENERS = set("( [ { , ; = => : return move".split())


class Refused(Exception):
    """Text that is not read: its place, and the reason."""


class Token(str):
    """A token, its kind, where it begins in its text, its line, and in the brackets of which macro it is."""

    kind, at, line, macro = "", 0, 0, ""

    def __new__(cls, text, kind, at, line):
        made = super().__new__(cls, text)
        made.kind, made.at, made.line = kind, at, line
        return made


def made(text, like):
    """The tokens of a text of the script, parted by space, in the place of `like`."""
    return [Token(it, "made", like.at, like.line) for it in text.split()]


class File:
    """A file: its text, its tokens, and where comments of documentation begin."""

    def __init__(self, name, top):
        self.name, self.documented = name, []
        self.text = (top / name).read_bytes().decode("utf-8")
        self.refuse_unreadable()
        self.code = list(self.tokens())

    def refuse(self, at, reason):
        line = self.text.count("\n", 0, at) + 1
        raise Refused(f"{self.name}:{line}: {reason}")

    def refuse_unreadable(self):
        for found in re.finditer(r"/\*|\*/|[^ -~\n]", self.text):
            text = found[0]
            if len(text) == 2 or unicodedata.category(text)[0] in "CZ":
                name = text if len(text) == 2 else f"U+{ord(text):04X}"
                self.refuse(found.start(), f"{name}, which two lexers may read in two ways")
        if re.match(r"#!(?!\[)", self.text):
            self.refuse(0, "a line for a shell")

    def tokens(self):
        line = 1
        for found in TOKEN.finditer(self.text):
            kind, text = found.lastgroup, found[0]
            if kind == "comment" and self.name.endswith(".rt") and text.startswith(("// Rust: ", "// Compiled for ")):
                if text not in {*FOR_RUST, *LEVELS}:
                    self.refuse(found.start(), f"`{text}`, which asks for another thing of the Rust")
                kind = "level"
            if text in FOR_RUST and kind == "level":
                yield from made(FOR_RUST[text], Token(text, kind, found.start(), line))
                kind = "comment"
            if kind == "comment" and text.startswith(("///", "//!")):
                self.documented.append(found.start())
            if kind == "rest" and text.isascii() and not text.isdigit():  # (in a clause `x.1.0` is no fraction)
                self.refuse(found.start(), f"`{self.text[found.start():].split()[0]}`, which is no token")
            if kind not in ("comment", "space"):
                yield Token(text, kind, found.start(), line)
            line += text.count("\n")

    def after(self, code, at):
        """The place behind the bracket that closes the one at `at`."""
        open_ones = []
        for i in range(at, len(code)):
            if code[i] in CLOSERS:
                open_ones.append(CLOSERS[code[i]])
            elif code[i] in CLOSERS.values() and open_ones.pop() != code[i]:
                break
            if not open_ones:
                return i + 1
        return self.refuse(code[at].at, f"`{code[at]}` is not closed")

    def read_macros(self, code):
        """Notes of each token in the brackets of which macro it is, and stops at those that are none of code."""
        for at, it in enumerate(code):
            if it.kind == "rest" or it.kind == "odd" and (it, it.macro) != ("--", "arg"):
                self.refuse(it.at, f"`{it}` in code")
            if it in LOGIC and it.kind == "word":
                self.refuse(it.at, f"`{it}` in a form without a rule")
            if is_macro(code, at) and it not in LEVELS.values():
                inside = code[brackets(code, at):self.after(code, brackets(code, at))]
                if any(inside[0].at < place < inside[-1].at for place in self.documented):
                    self.refuse(it.at, "a comment of documentation in a macro, which is a token there")
                for token in inside:
                    token.macro = str(it)


def is_macro(code, at):
    """Whether a macro is called or declared at `at`."""
    return (code[at].kind == "word" and code[at] not in KEYWORDS and code[at + 1:at + 2] == ["!"]
            and (code[at + 2] in CLOSERS or code[at] == "macro_rules"))


def brackets(code, at):
    """Where the brackets of the macro open that is called or declared at `at`."""
    return at + (3 if code[at] == "macro_rules" else 2)


def ends_parameters(code, at):
    """Whether the `|` at `at` ends the parameters of a closure."""
    start, depth = at - 1, 0
    while start > 0 and code[start] not in ("|", ";", "{", "}", "if", "=>") and depth >= 0:
        depth += (code[start] in CLOSERS.values()) - (code[start] in CLOSERS)
        start -= 1
    return code[at:at + 1] == ["|"] == code[start:start + 1] and depth == 0 < start and code[start - 1] in OPENERS


def ends_head(code):
    """Whether the code ends with the head of a function, before its body."""
    depth = 0
    for at in reversed(range(len(code))):
        if depth == 0 and code[at] == "fn":
            return code[at + 1].kind == "word"
        if depth == 0 and code[at] in (";", "}") or depth < 0:
            return False
        depth += (code[at] in CLOSERS.values()) - (code[at] in CLOSERS)
    return False


class Source(File):
    """A file of Rattle, of which what is no code is dropped."""

    def __init__(self, name, top):
        super().__init__(name, top)
        self.crate = pathlib.PurePath(name).parts[1]
        self.code = self.without_logic(self.code)

    def without_logic(self, code):
        left, at = [], 0
        while at < len(code):
            end = self.dropped_end(code, left, at)
            if end is None:  # (in a macro's brackets nothing is dropped)
                end = self.after(code, brackets(code, at)) if is_macro(code, at) else at + 1
                left += code[at:end]
            at = end
        return left

    def dropped_end(self, code, left, at):
        """The place behind what is no code, if such a thing begins at `at`; `left` is the code before it."""
        word, begins = code[at], not left or left[-1] in ("{", "}", ";")
        if word in ("requires", "ensures"):
            return self.clauses_end(code, left, at)
        if word == "ghost" and (begins or left[-1] == ","):
            return self.ghosts_end(code, at)
        if word == "#" and "tactic" in code[at + 1:at + 4]:
            return self.tactic_end(code, at)
        if word == "prove" and begins:
            return self.statement_end(code, at)
        if word == "impl" and "Model" in code[at:code.index("{", at)]:
            return self.model_end(code, at)
        return None

    def clauses_end(self, code, left, at):
        of_closure = ends_parameters(left, len(left) - 1)
        if not of_closure and not ends_head(left):
            self.refuse(code[at].at, f"`{code[at]}` after no head of a function or closure")
        while code[at] in ("requires", "ensures"):
            brace = at + (1 if code[at + 1] == "{" else 2)
            if code[brace] != "{" or code[brace - 1].kind != "word" or code[brace - 1] in KEYWORDS:
                self.refuse(code[at].at, "a clause of another form")
            end = self.after(code, brace)
            self.refuse_unread(code[at:end])
            at = end
        if code[at] != "{" and (of_closure or code[at] != ";"):
            self.refuse(code[at].at, f"`{code[at]}` after a clause")
        return at

    def ghosts_end(self, code, at):
        while code[at] == "ghost":
            if code[at + 1] == "use":
                end = code.index(";", at) + 1
                known = bool(GHOST_USE.fullmatch(self.text, code[at].at, code[end - 1].at + 1))
            else:
                known = code[at + 1].kind == "word" and code[at + 2] in (":", "=") and code[at + 3] == "{"
                end = self.after(code, at + 3) + 1 if known else at
            if not known or code[end - 1] not in (";", ","):
                self.refuse(code[at].at, "a ghost of another form")
            self.refuse_unread(code[at:end])
            at = end
        return at

    def refuse_unread(self, code):
        start, end = code[0].at, code[-1].at + 1
        text = PLAIN.sub(lambda it: " " * len(it[0]), self.text[start:end])
        if found := UNREAD.search(text):
            self.refuse(start + found.start(), f"`{found[0]}` in what is dropped")

    def tactic_end(self, code, at):
        start = at + (2 if code[at + 1] == "!" else 1)
        end = self.after(code, start)
        inside = "".join(code[start + 3:end - 2])
        if code[start + 1:start + 3] != ["tactic", "("] or not TACTIC.fullmatch(inside):
            self.refuse(code[at].at, "a tactic of another form")
        return end

    def statement_end(self, code, at):
        end = self.after(code, at + 2) if code[at + 1:at + 3] == ["!", "("] else at
        inside = code[at + 3:end - 1]
        names = [it for it in inside if it not in PURE and it.kind != "number"]
        if code[end] != ";" or not all(it.kind == "word" and it not in KEYWORDS for it in names):
            self.refuse(code[at].at, "`prove` in another form than a statement of a comparison")
        return end + 1

    def model_end(self, code, at):
        brace = code.index("{", at)
        name, end = code.index("Model", at), self.after(code, brace)
        of_types = all(it.kind in ("word", "lifetime") or it in ("<", ">", ",", ":", "&") for it in code[at:brace])
        if not of_types or code[name - 1] not in ("impl", ">") or code[name + 1] != "for":
            self.refuse(code[at].at, "a model of another form")
        if self.ghosts_end(code, brace + 1) != end - 1:
            self.refuse(code[brace].at, "a model that has more than ghosts")
        return end

    def refuse_names(self, code):
        """Stops at an attribute or a macro that no source has today."""
        for at, it in enumerate(code):
            name = code[at + 2] if it == "macro_rules" else it
            if is_macro(code, at) and name not in (DECLARED if it == "macro_rules" else CALLED):
                self.refuse(it.at, f"the macro `{name}`")
            inside = "".join(code[at + 2:self.after(code, at + 1) - 1]) if code[at:at + 2] == ["#", "["] else ""
            if it == "#" and not ATTRIBUTE.fullmatch(inside):
                self.refuse(it.at, f"the attribute `{inside}`")
