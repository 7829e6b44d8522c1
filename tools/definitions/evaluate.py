"""An evaluator of the definitions of specs/: each equation becomes a function of Python, and nothing is known beside
the text but the library's functions on numbers, lists and options, which stand here by their names.

Numbers and integers are numbers of Python, lists are tuples, and `map` gives a list whose elements are made when they
are asked for; so are the fields of records, the parts of pairs and what `let` binds. A proposition that can be decided
is a truth value: what it states of all numbers is tried at each one below a bound, and a record of facts is true if
each of them is, of the values that they determine. Types and other propositions are passed over.
"""
import functools
import hashlib
import re

from specs import TOP, files

TOKEN = re.compile(
    r'\s*(?:(?P<text>"[^"]*")|(?P<number>0x[0-9A-Fa-f]+|\d+)|(?P<name>[^\W\d][\w\']*)|(?P<field>(?<=\S)\.(?=\w))'
    r"|(?P<sign>[+\-*≤<]ℤ|\+\+|&&|\|\||\S))")
LEVELS = [("→",), ("↔",), ("⊎",), ("×",), ("≡", "≢"), ("||",), ("&&",), ("<", "≤", "<ℤ", "≤ℤ"), ("∷", "++"),
          ("+", "-", "+ℤ", "-ℤ", "⊕")]
LEVELS += [("*", "/", "%", "*ℤ"), ("^",)]
KEYWORDS = ("in", "then", "else")
RIGHT = {"∷", "++", "^", "&&", "||", "→", "⊎", "×"}
OPERATOR = {"→": "(not {} or {})", "↔": "({} == {})", "⊎": "({} or {})", "×": "({} and {})", "≢": "(not same({}, {}))",
            "≡": "same({}, {})", "||": "({} or {})", "&&": "({} and {})", "<": "({} < {})", "≤": "({} <= {})",
            "<ℤ": "({} < {})", "≤ℤ": "({} <= {})", "∷": "(({},) + listed({}))", "++": "(listed({}) + listed({}))",
            "+": "({} + {})", "-": "less({}, {})", "+ℤ": "({} + {})", "-ℤ": "({} - {})", "*": "({} * {})",
            "*ℤ": "({} * {})", "/": "over({}, {})", "%": "modulo({}, {})", "^": "({} ** {})", "⊕": "({} ^ {})"}


class Unparsed(Exception):
    """A text that is no plain definition: a type, a proposition that cannot be decided, or a proof."""


class Parser:
    """A parser of terms: trees of tuples, whose first part is `number`, `text`, `name`, `apply`, `binary`, `if`, `let`,
    `lambda`, `all`, `record`, `pair`, `field` or `list`."""

    def __init__(self, text):
        found = TOKEN.finditer(re.sub(r"--.*", "", text))
        self.tokens, self.place = [(token.lastgroup, token[token.lastgroup]) for token in found], 0

    def token(self, ahead=0):
        """The kind and the word of a token, both empty behind the end."""
        return self.tokens[self.place + ahead] if self.place + ahead < len(self.tokens) else ("", "")

    def peek(self, ahead=0):
        return self.token(ahead)[1]

    def take(self, wanted=None):
        kind, word = self.token()
        if not kind or (wanted and word != wanted):
            raise Unparsed(f"{wanted} for {word}")
        self.place += 1
        return word

    def whole(self):
        """A term to the end of the text."""
        tree = self.term()
        if self.peek():
            raise Unparsed(self.peek())
        return tree

    def until(self, wanted):
        """The words before one that is wanted, which goes too."""
        words = []
        while self.peek() != wanted:
            words.append(self.take())
        self.take()
        return words

    def skipped(self):
        """Passes over braces."""
        depth = 0
        while True:
            depth += {"{": 1, "}": -1}.get(self.take(), 0)
            if depth == 0:
                return

    def term(self, level=0):
        if self.peek() == "λ":
            return self.function()
        if level == 0 and self.quantified():
            return self.all()
        if self.peek() == "let":
            self.take()
            name, _ = self.take(), self.until("=")
            value = self.term()
            self.take("in")
            return ("let", name, value, self.term())
        if self.peek() == "if":
            parts = []
            for word in ("if", "then", "else"):
                self.take(word)
                parts.append(self.term())
            return ("if", *parts)
        if level == len(LEVELS):
            return self.application()
        left = self.term(level + 1)
        while self.peek() in LEVELS[level]:
            sign = self.take()
            left = ("binary", sign, left, self.term(level if sign in RIGHT else level + 1))
        return left

    def quantified(self):
        """Whether names with their type stand here, as `(i j : ℕ)`."""
        ahead = 1
        while self.token(ahead)[0] == "name":
            ahead += 1
        return self.peek() == "(" and ahead > 1 and self.peek(ahead) == ":"

    def all(self):
        self.take("(")
        names, words = self.until(":"), self.until(")")
        if not self.quantified():
            self.take("→")
        return ("all", names, " ".join(words), self.term())

    def function(self):
        self.take("λ")
        names = []
        while self.peek() != ".":
            if self.peek() == "(":
                self.take()
                names += self.until(":")
                self.until(")")
            else:
                names.append(self.take())
        self.take()
        return ("lambda", names, self.term())

    def application(self):
        head = self.atom()
        arguments = []
        while True:
            kind, word = self.token()
            if word == "{":
                self.skipped()
            elif kind in ("number", "text") or word in ("(", "[") or kind == "name" and word not in KEYWORDS:
                arguments.append(self.atom())
            elif word == "λ":
                arguments.append(self.function())
            else:
                return ("apply", head, arguments) if arguments else head

    def atom(self):
        kind, word = self.token()[0], self.take()
        tree: tuple
        if kind == "number":
            tree = ("number", int(word, 0))
        elif kind == "text":
            tree = ("text", word[1:-1])
        elif word == "record":
            base, fields = None if self.peek() == "{" else self.atom(), []
            self.take("{")
            while self.peek() != "}":
                name, _ = self.take(), self.take("=")
                fields.append((name, self.term()))
                if self.peek() == ";":
                    self.take()
            self.take()
            tree = ("record", base, fields)
        elif kind == "name" or word == "⊥":
            tree = ("name", word)
        elif word == "[":
            self.take("]")
            tree = ("list",)
        elif word == "(":
            parts = [self.term()]
            while self.peek() == ",":
                self.take()
                if self.peek() != ")":
                    parts.append(self.term())
            self.take(")")
            tree = parts[0] if len(parts) == 1 else ("pair", parts)
        else:
            raise Unparsed(word)
        while self.token()[0] == "field":
            self.take()
            tree = ("field", tree, self.take())
        return tree


# ---- Values


class Later:
    """A value that is computed when it is asked for."""

    __slots__ = ("make", "value")

    def __init__(self, make):
        self.make = make

    def get(self):
        if self.make is not None:
            self.value, self.make = self.make(), None
        return self.value


def now(x):
    return x.get() if type(x) is Later else x


class Mapped:
    """A list whose elements are computed when they are asked for, or a run of such a list."""

    __slots__ = ("function", "of", "made", "start", "count")

    def __init__(self, function, of, made=None, start=0, count=None):
        self.function, self.of, self.made, self.start = function, of, {} if made is None else made, start
        self.count = len(of) if count is None else count

    def __len__(self):
        return self.count

    def __getitem__(self, place):
        place += self.start
        if place not in self.made:
            self.made[place] = ap(self.function, self.of[place])
        return self.made[place]

    def run(self, start, count):
        return Mapped(self.function, self.of, self.made, self.start + start, count)


def listed(xs):
    if type(xs) is tuple:
        return xs
    if type(xs) is not Mapped:
        raise TypeError("no list")
    return tuple(xs[place] for place in range(len(xs)))


class Record:
    """A record or a pair, whose fields are computed when they are asked for."""

    def __init__(self, fields):
        self.fields = fields

    def get(self, name):
        value = self.fields[name]
        if type(value) is Later:
            value = self.fields[name] = value.get()
        return value


class Made:
    """A value of a type with constructors: an option, a result, or what specs/ declare."""

    __slots__ = ("name", "parts")

    def __init__(self, name, parts):
        self.name, self.parts = name, parts


class Function:
    """A function with some of its arguments; `key` tells it from others by what it is made of."""

    __slots__ = ("code", "arity", "arguments", "name", "known")

    def __init__(self, code, arity, arguments=(), name=None):
        self.code, self.arity, self.arguments, self.name, self.known = code, arity, arguments, name, None

    @property
    def key(self):
        if self.known is None:
            inside = tuple(key(cell.cell_contents) for cell in self.code.__closure__ or ())
            self.known = (self.name or id(self.code.__code__), inside, tuple(map(key, self.arguments)))
        return self.known


KEPT = []


def key(x):
    x = now(x)
    if type(x) is Function:
        return x.key
    if type(x) in (int, bool, str):
        return x
    KEPT.append(x)
    return id(x)


def ap(f, *arguments):
    f = now(f)
    while True:
        given = f.arguments + arguments
        if len(given) < f.arity:
            return Function(f.code, f.arity, given, f.name)
        answer = f.code(*given[: f.arity])
        arguments = given[f.arity :]
        if not arguments:
            return answer
        f = now(answer)


def same(x, y):
    x, y = now(x), now(y)
    if isinstance(x, (tuple, Mapped)) and isinstance(y, (tuple, Mapped)):
        return len(x) == len(y) and all(same(x[n], y[n]) for n in range(len(x)))
    if type(x) is Record and type(y) is Record:
        return x.fields.keys() == y.fields.keys() and all(same(x.get(name), y.get(name)) for name in x.fields)
    if type(x) is Made and type(y) is Made:
        return x.name == y.name and all(map(same, x.parts, y.parts))
    if type(x) is not type(y):
        raise TypeError("values of two types")
    return x == y


# ---- The library's functions


def less(a, b):
    return max(0, a - b)


def over(a, b):
    return a // b if b else 0


def modulo(a, b):
    return a % b if b else a


def whole(n):
    if type(n) is not int:
        raise TypeError("no number")
    return n


NOTHING = Made("None", ())


def some(x):
    return Made("Some", (x,))


def option_and_then(f, x):
    return ap(f, x.parts[0]) if x.name == "Some" else {"None": NOTHING}[x.name]


def run(xs, start, end):
    return xs.run(start, end - start) if type(xs) is Mapped else xs[start:end]


def element(xs, place, other):
    return xs[place] if 0 <= place < len(xs) else now(other)


def kept(f, xs):
    return tuple(answer.parts[0] for answer in (ap(f, x) for x in listed(xs)) if answer.name == "Some")


def folded(f, start, xs):
    for x in listed(xs):
        start = ap(f, start, x)
    return start


def put(xs, place, x):
    return tuple(x if at == place else other for at, other in enumerate(listed(xs)))


def rotated(width, x, count):
    count %= 8 * width
    return (x << count | x >> (8 * width - count)) % 2 ** (8 * width)


def found(f, xs):
    return next((some(x) for x in listed(xs) if ap(f, x)), NOTHING)


LIBRARY = {
    "suc": (1, lambda n: whole(n) + 1),
    "pos": (1, whole),
    "negsuc": (1, lambda n: -whole(n) - 1),
    "neg_ℤ": (1, lambda x: -x),
    "nat_abs": (1, lambda x: abs(whole(x))),
    "max": (2, max),
    "not": (1, lambda b: not b),
    "cond": (3, lambda b, x, y: x if b else y),
    "eqb": (2, lambda x, y: whole(x) == whole(y)),
    "nat_eq": (2, lambda x, y: whole(x) == whole(y)),
    "nat_lt": (2, lambda x, y: whole(x) < whole(y)),
    "nat_le": (2, lambda x, y: whole(x) <= whole(y)),
    "int_lt": (2, lambda x, y: whole(x) < whole(y)),
    "int_le": (2, lambda x, y: whole(x) <= whole(y)),
    "length": (1, len),
    "take": (2, lambda n, xs: run(xs, 0, min(whole(n), len(xs)))),
    "drop": (2, lambda n, xs: run(xs, min(whole(n), len(xs)), len(xs))),
    "map": (2, lambda f, xs: Mapped(f, xs)),
    "filter": (2, lambda f, xs: tuple(x for x in listed(xs) if ap(f, x))),
    "flat_map": (2, lambda f, xs: tuple(y for x in listed(xs) for y in listed(ap(f, x)))),
    "filter_map": (2, kept),
    "fold": (3, folded),
    "find": (2, found),
    "count_by": (2, lambda f, xs: sum(1 for x in listed(xs) if ap(f, x))),
    "range_with_len": (2, lambda first, count: tuple(range(first, first + count))),
    "replicate": (2, lambda n, x: (x,) * n),
    "All": (2, lambda f, xs: all(ap(f, x) for x in listed(xs))),
    "IsTrue": (1, lambda b: b),
    "IfErr": (2, lambda x, f: x.name == "Ok" or ap(f, x.parts[0])),
    "FitsSigned": (2, lambda width, x: -(2 ** (8 * width - 1)) <= whole(x) < 2 ** (8 * width - 1)),
    "slice_index": (2, lambda xs, n: element(xs, n, 0)),
    "slice_index_or": (3, element),
    "get_or": (3, element),
    "bytes_eq": (2, lambda xs, ys: listed(xs) == listed(ys)),
    "option_map": (2, lambda f, x: some(ap(f, x.parts[0])) if x.name == "Some" else {"None": NOTHING}[x.name]),
    "option_and_then": (2, option_and_then),
    "ok_or": (2, lambda x, fault: Made("Ok", x.parts) if x.name == "Some" else Made("Err", (fault,))),
    "unwrap_or": (2, lambda x, other: x.parts[0] if x.name == "Some" else other),
    "to_le_bytes": (2, lambda width, n: tuple((n % 2 ** (8 * width)).to_bytes(width, "little"))),
    "from_le_bytes": (2, lambda width, xs: int.from_bytes(bytes(listed(xs)), "little")),
    "div_ceil": (2, lambda a, b: -(-a // b)),
    "slice_set": (3, put),
    "bit_and": (2, lambda a, b: a & b),
    "bit_xor": (2, lambda a, b: a ^ b),
    "bit_not": (2, lambda width, a: 2 ** (8 * width) - 1 - a),
    "rotate_left": (3, rotated),
    "codes": (1, lambda text: tuple(text.encode())),
    "sha256": (1, lambda xs: tuple(hashlib.sha256(bytes(listed(xs))).digest())),
    "sha512": (1, lambda xs: tuple(hashlib.sha512(bytes(listed(xs))).digest())),
}
CONSTANTS = {"zero": 0, "true": True, "false": False, "⊥": False, "w16": 2, "w32": 4, "w64": 8, "None": NOTHING}
# The constructors of numbers: when a number is of one, and of what.
NUMBERS = {"suc": ("> 0", "({} - 1)"), "pos": (">= 0", "{}"), "negsuc": ("< 0", "(-{} - 1)")}
CONSTRUCTORS = {"Some": 1, "Ok": 1, "Err": 1, "None": 0}
# Arguments of definitions that are computed when they are asked for, since where they are not, they need not have a
# value that computes.
LATER = {"refused_or": {1}}
FAULTS = (TOP / "crates/fips204_base/specs/Faults.antt").read_text(encoding="utf-8")
CONSTRUCTORS.update({name: 0 for name in re.findall(r"^words (\w+) =", FAULTS, re.M)})


# ---- From definitions to functions


def fields(definition):
    """The parameters of a record of facts, and its fields as names and trees."""
    head, *lines = definition.text.split("\n  pub ")
    found = [(name, Parser(text).whole()) for name, _, text in (line.partition(" : ") for line in lines)]
    return [name for names in re.findall(r"\(([\w' ]+) : ", head) for name in names.split()], found


def facts(definition):
    """A record of facts as one equation: its parameters, and the conjunction of its fields."""
    parameters, found = fields(definition)
    trees = [tree for _, tree in found]
    whole = trees.pop()
    while trees:
        whole = ("binary", "×", trees.pop(), whole)
    return [([("name", name) for name in parameters], whole)]


def names_in(tree):
    """Every name in a tree."""
    if isinstance(tree, tuple) and len(tree) == 2 and tree[0] == "name":
        return {tree[1]}
    return {name for part in tree if isinstance(part, (tuple, list)) for name in names_in(part)}


class Existence:
    """A record of facts that states that values exist, as `z` and `h` of a signature: it holds if there are such
    values. They are found from the facts that determine them: `x ≡ ..`, `.. ≡ Some x`, and other records; where a
    record reads bytes (`readers`), the one candidate is what was read, and each fact is then asked of it."""

    def __init__(self, program, name, parameters, found, values=()):
        self.program, self.name, self.parameters, self.found, self.code = program, name, parameters, found, {}
        self.values = values or [name for place, (name, _) in enumerate(found)
                                 if any(name in names_in(tree) for _, tree in found[place + 1 :])]
        self.facts = [tree for name, tree in found if name not in self.values]
        self.uses = [names_in(tree) for tree in self.facts]

    def is_determined(self):
        """Whether each value stands in a fact that may determine it: an equation, or another record."""
        determined = set()
        for tree in self.facts:
            if tree[0] == "apply":
                determined |= {part[1] for part in tree[2] if part[0] == "name"}
            elif tree[:2] == ("binary", "≡"):
                for side in tree[2:]:
                    part = side[2][0] if side[0] == "apply" and side[1] == ("name", "Some") else side
                    determined |= {part[1]} if part[0] == "name" else set()
        return determined.issuperset(self.values)

    def truth(self, tree, known):
        """The value of a tree whose names are known."""
        names = list(known)
        function = self.code.get((id(tree), *names))
        if function is None:
            arguments = ", ".join(f"v_{clean(name)}" for name in names)
            source = f"lambda {arguments}: {self.program.code(tree, dict.fromkeys(names, False))}"
            function = self.code[(id(tree), *names)] = eval(source, self.program.space)
        return now(function(*(known[name] for name in names)))

    def solved(self, known):
        """The parameters and values by their names, where the facts hold, given some of the parameters; None where
        there are no such values."""
        unknown = {*self.parameters, *self.values} - {*known}
        waiting = list(range(len(self.facts)))
        while waiting:
            left = []
            for place in waiting:
                open_names = self.uses[place] & unknown
                if open_names:
                    bound = self.bound(self.facts[place], known, open_names)
                else:
                    bound = {} if self.truth(self.facts[place], known) else None
                if bound is None:
                    return None
                if open_names and not bound:
                    left.append(place)
                known = {**known, **bound}
                unknown -= {*bound}
            if left == waiting:
                raise Unparsed(f"the facts do not determine {', '.join(sorted(unknown))}")
            waiting = left
        return known

    def read(self, given):
        """The same where bytes are given, and the parameters that they spell are to be read of them."""
        if self.name not in self.program.readers:
            return self.solved(given)
        given = {**given, **self.program.readers[self.name](self.program, given)}
        return given if self.program.value(self.name, *(given[name] for name in self.parameters)) else None

    def bound(self, tree, known, unknown):
        """The unknown names that a fact determines, with their values; None where it can't hold, and nothing where it
        determines none."""
        if tree[0] == "apply" and tree[1][0] == "name" and tree[1][1] in self.program.exist:
            other = self.program.exist[tree[1][1]]
            plain = dict(zip(other.parameters, tree[2]))
            if not all(it[0] == "name" for it in plain.values() if names_in(it) & unknown):
                return {}
            given = {name: self.truth(it, known) for name, it in plain.items() if not names_in(it) & unknown}
            found = other.read(given)
            return found and {it[1]: found[name] for name, it in plain.items() if it[0] == "name" and it[1] in unknown}
        if tree[0] == "binary" and tree[1] == "≡":
            for one, side in ((tree[2], tree[3]), (tree[3], tree[2])):
                if names_in(side) & unknown:
                    continue
                if one[0] == "name":
                    return {one[1]: self.truth(side, known)}
                if one[0] == "apply" and one[1] == ("name", "Some") and one[2][0][0] == "name":
                    value = self.truth(side, known)
                    return {one[2][0][1]: value.parts[0]} if value.name == "Some" else None
        return {}


def clauses(definition):
    """The equations of a definition: the trees of their patterns and of their right sides; none where it states a
    type."""
    if definition.kind == "record":
        return facts(definition)
    if definition.kind:
        return []
    found, name = [], definition.name
    for line in definition.lines:
        if line.startswith(f"{name} ") and " = " in f"{line} " and not line.startswith(f"{name} :"):
            found.append([])
        if found:
            found[-1].append(line)
    trees = []
    for lines in found:
        parser, patterns = Parser("\n".join(lines)), []
        parser.take(name)
        while parser.peek() != "=":
            if parser.peek() == "{":
                parser.skipped()
            else:
                patterns.append(parser.atom())
        parser.take()
        trees.append((patterns, parser.whole()))
    return trees


class Program:
    """All definitions that compute, as functions in one space of names."""

    def __init__(self, all_files):
        self.space = dict(globals())
        self.arity, self.trees, self.made = {}, {}, dict(CONSTRUCTORS)
        every = [definition for file in all_files for definition in file.definitions]
        # functions from numbers to numbers, whose values are kept
        self.numeric = {it.name for it in every if it.lines[0].endswith(f"{it.name} : ℕ → ℕ")}
        for name, (arity, code) in LIBRARY.items():
            self.arity[name] = arity
            self.space[mangled(name)] = code
        for line in (line for definition in every if definition.kind == "data" for line in definition.lines[1:]):
            names, _, kind = line.partition(" : ")
            given = [part.split(" :")[0] for part in re.findall(r"\(([^()]*:[^()]*)\)", kind)]
            self.made[names.strip()] = len(" ".join(given).split()) or kind.count("→")
        for definition in every:
            try:
                trees = clauses(definition)
            except (Unparsed, IndexError):
                continue
            if trees:
                self.trees[definition.name] = trees
                self.arity[definition.name] = len(trees[0][0])
        # Records that state that values exist, and what reads the values of some from bytes.
        self.exist, self.readers = {}, {}
        for definition in every:
            if definition.kind == "record" and definition.name in self.trees:
                record = Existence(self, definition.name, *fields(definition))
                if record.is_determined():
                    self.exist[definition.name] = record
                    if record.values:
                        del self.trees[definition.name]
                        self.record(record)
        known = None
        while known != len(self.trees):
            known = len(self.trees)
            for name in list(self.trees):
                self.define(name, self.trees[name])
                if name not in self.trees:
                    self.arity.pop(name)

    def record(self, record):
        """Makes the proposition anew that values exist of which the facts of this record hold."""
        def holds(*given):
            return record.solved(dict(zip(record.parameters, given))) is not None

        self.exist[record.name], self.space[mangled(record.name)] = record, holds

    def define(self, name, trees):
        """Makes the function of a name anew from these equations."""
        try:
            source = self.source(name, trees)
        except Unparsed:
            self.trees.pop(name, None)
            return
        exec(compile(source, name, "exec"), self.space)
        if name in self.numeric:
            self.space[mangled(name)] = functools.cache(self.space[mangled(name)])
        for other in self.numeric:
            if mangled(other) in self.space:
                self.space[mangled(other)].cache_clear()

    def source(self, name, trees):
        arity = self.arity[name]
        arguments = [f"a{n}" for n in range(arity)]
        lines = [f"def {mangled(name)}({', '.join(arguments)}):"]
        for patterns, tree in trees:
            tests, binds = [], []
            for argument, pattern in zip(arguments, patterns):
                self.match(argument, pattern, tests, binds)
            late = {patterns[place] for place in LATER.get(name, ())}
            scope = {bound: ("name", bound) in late for bound, _ in binds}
            values = "".join(f"; v_{clean(bound)} = {value}" for bound, value in binds)
            lines.append(f"    if {' and '.join(tests) or 'True'}: pass{values}; return {self.code(tree, scope)}")
        lines.append("    raise TypeError('no equation')")
        return "\n".join(lines)

    def match(self, value, pattern, tests, binds):
        kind = pattern[0]
        if kind == "list":
            tests.append(f"len({value}) == 0")
        elif kind == "number":
            tests.append(f"{value} == {pattern[1]}")
        elif kind == "name" and pattern[1] in ("zero", "true", "false"):
            tests.append(f"{value} == {CONSTANTS[pattern[1]]}")
        elif kind == "name" and pattern[1] in self.made:
            tests.append(f"{value}.name == {pattern[1]!r}")
        elif kind == "name":
            binds.append((pattern[1], value))
        elif kind == "binary" and pattern[1] == "∷":
            tests.append(f"len({value}) > 0")
            self.match(f"{value}[0]", pattern[2], tests, binds)
            self.match(f"run({value}, 1, len({value}))", pattern[3], tests, binds)
        elif kind == "apply" and pattern[1][1] in NUMBERS:
            test, of = NUMBERS[pattern[1][1]]
            tests.append(f"{value} {test}")
            self.match(of.format(value), pattern[2][0], tests, binds)
        elif kind == "apply" and pattern[1][1] in self.made:
            tests.append(f"{value}.name == {pattern[1][1]!r}")
            for place, part in enumerate(pattern[2]):
                self.match(f"{value}.parts[{place}]", part, tests, binds)
        else:
            raise Unparsed(pattern)

    def later(self, tree, scope):
        """The code of a value that need not be computed at once."""
        if tree[0] in ("number", "list", "lambda") or (tree[0] == "name" and tree[1] in scope):
            return f"v_{clean(tree[1])}" if tree[0] == "name" else self.code(tree, scope)
        return f"Later(lambda: {self.code(tree, scope)})"

    def code(self, tree, scope):
        kind = tree[0]
        if kind == "number":
            return str(tree[1])
        if kind == "text":
            return repr(tree[1])
        if kind == "list":
            return "()"
        if kind == "binary":
            return OPERATOR[tree[1]].format(self.code(tree[2], scope), self.code(tree[3], scope))
        if kind == "if":
            return f"({self.code(tree[2], scope)} if {self.code(tree[1], scope)} else {self.code(tree[3], scope)})"
        if kind == "let":
            inside = self.code(tree[3], {**scope, tree[1]: True})
            return f"(lambda v_{clean(tree[1])}: {inside})({self.later(tree[2], scope)})"
        if kind == "lambda":
            inside = {**scope, **{name: False for name in tree[1]}}
            names = ", ".join(f"v_{clean(name)}" if name != "_" else f"unused{place}"
                              for place, name in enumerate(tree[1]))
            return f"Function(lambda {names}: {self.code(tree[2], inside)}, {len(tree[1])})"
        if kind == "all":
            return self.every(tree, scope)
        if kind == "field":
            return f"{self.code(tree[1], scope)}.get({tree[2]!r})"
        if kind == "pair":
            first, *others = tree[1]
            other = others[0] if len(others) == 1 else ("pair", others)
            return f"Record({{'0': {self.later(first, scope)}, '1': {self.later(other, scope)}}})"
        if kind == "record":
            fields = ", ".join(f"{name!r}: {self.later(value, scope)}" for name, value in tree[2])
            return f"Record({{{'**' + self.code(tree[1], scope) + '.fields, ' if tree[1] else ''}{fields}}})"
        if kind == "name":
            return self.name(tree[1], scope)
        head, arguments = tree[1], tree[2]
        late = LATER.get(head[1], ()) if head[0] == "name" and head[1] not in scope else ()
        given = [self.later(argument, scope) if place in late else self.code(argument, scope)
                 for place, argument in enumerate(arguments)]
        if head[0] == "name" and head[1] not in scope:
            word = head[1]
            if word in self.made and self.made[word] == len(given):
                return f"Made({word!r}, ({', '.join(given)},))"
            if word == "cond" and len(given) == 3:
                return f"({given[1]} if {given[0]} else {given[2]})"
            if word in self.arity and 0 < self.arity[word] <= len(given):
                direct = f"{mangled(word)}({', '.join(given[: self.arity[word]])})"
                rest = given[self.arity[word] :]
                return f"ap({direct}, {', '.join(rest)})" if rest else direct
        return f"ap({self.code(head, scope)}, {', '.join(given)})"

    def every(self, tree, scope):
        """The code of a proposition on all numbers below bounds. Of an open type V one value is tried: it is what a
        list gives past its end."""
        kinds, premises, loops, inside = {}, [], "", dict(scope)
        while tree[0] == "all" or tree[:2] == ("binary", "→"):
            if tree[0] == "all":
                kinds.update(dict.fromkeys(tree[1], tree[2]))
            else:
                premises.append(tree[2])
            tree = tree[3]
        for name, kind in kinds.items():
            bounds = [it for it in premises if it[0] == "binary" and it[1] in ("<", "≤") and it[2] == ("name", name)]
            if kind == "ℕ" and bounds:
                premises.remove(bounds[0])
                _, sign, _, bound = bounds[0]
                loops += f" for v_{clean(name)} in range({self.code(bound, inside)}{' + 1' * (sign == '≤')})"
            elif re.fullmatch(r"(List )*V", kind):
                loops += f" for v_{clean(name)} in ((),)"
            else:
                raise Unparsed(kind)
            inside[name] = False
        tests = "".join(f" if {self.code(premise, inside)}" for premise in premises)
        return f"all({self.code(tree, inside)}{loops}{tests})"

    def name(self, word, scope):
        if word in scope:
            return f"now(v_{clean(word)})" if scope[word] else f"v_{clean(word)}"
        if word in CONSTANTS:
            return {"None": "NOTHING"}.get(word, str(CONSTANTS[word]))
        arity = self.made.get(word, self.arity.get(word))
        if arity is None:
            raise Unparsed(word)
        names = ", ".join(f"x{place}" for place in range(arity))
        call = f"Made({word!r}, ({names}{',' * (arity > 0)}))" if word in self.made else f"{mangled(word)}({names})"
        return f"Function(lambda {names}: {call}, {arity}, (), {word!r})" if arity else call

    def value(self, name, *arguments):
        return self.space[mangled(name)](*arguments)

    def evaluated(self, tree, scope=()):
        """The value of a closed term."""
        return eval(self.code(tree, dict.fromkeys(scope, False)), self.space, {})


def clean(name):
    return name.replace("'", "_prime").replace("ℤ", "Z")


def mangled(name):
    return f"d_{clean(name)}"


def program(*crates):
    """The definitions of these crates, or of both libraries."""
    return Program(files(crates) if crates else files())
