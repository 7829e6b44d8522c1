#!/usr/bin/env python3
"""The exports of the static library as c/mldsa.h declares them, and the C that is generated of them. The results of
calls, with their numbers and texts, stand in that header alone: what other languages have of them is made here.

    c/exports.py            writes the files
    c/exports.py --check    compares them with what it would write: status 1 if one differs
"""
import pathlib
import re
import sys

TOP = pathlib.Path(__file__).resolve().parent.parent
HEADER = (TOP / "c/mldsa.h").read_text(encoding="utf-8")
SETS = ("44", "65", "87")

PROTOTYPE = re.compile(r"^(?!static|typedef|#|extern)(\w[\w \t]*?[ \t*]+)(\w+)\(([^()]*)\);", re.M)
PARAMETER = re.compile(r"(.*[ *])(\w+)")


class Export:
    """A function of the header: the type of its result, its name, and its parameters as (type, name)."""

    def __init__(self, result, name, inside):
        # What stands before the type in capitals is an attribute.
        self.result, self.name, self.parameters = re.sub(r"^(MLDSA_[A-Z]+\s+)*", "", result.strip()), name, []
        for field in [] if inside.strip() == "void" else inside.split(","):
            found = PARAMETER.fullmatch(" ".join(field.split()))
            if not found:
                sys.exit(f"mldsa.h: the parameter {field.strip()} of {name} is not read here")
            self.parameters.append((found[1].strip(), found[2]))

    def declared(self):
        """The parameters as a declaration has them."""
        return ", ".join(f"{kind} {name}".replace("* ", "*") for kind, name in self.parameters) or "void"

    def number(self):
        """The name of the number that stands before the arrays; else None."""
        return next((name for kind, name in self.parameters[:1] if kind == "uint32_t"), None)

    def arrays(self):
        """The parameters behind a number as (name, whether it is written), where each is an array with its length; else
        None."""
        found, given = [], self.parameters[bool(self.number()):]
        for (kind, array), length in zip(given[::2], given[1::2]):
            if kind not in ("const uint8_t *", "uint8_t *") or length != ("size_t", f"{array}_len"):
                return None
            found.append((array, kind == "uint8_t *"))
        return None if len(given) % 2 else found


def exports():
    """Each export that the header declares, in its order."""
    header = re.sub(r"/\*.*?\*/", "", HEADER, flags=re.S)
    found = [Export(*prototype) for prototype in PROTOTYPE.findall(header)]
    inline = len(re.findall(r"^MLDSA_INLINE ", header, re.M))
    if len(found) != len(re.findall(r"^[^#\s}].*\bmldsa\w*\(", header, re.M)) - inline:
        sys.exit("mldsa.h: it declares something that is not read here")
    return found


def passed_on(found):
    """A line for each export, from which c/x86_64.c makes a function that passes its arguments on."""
    lines = []
    for export in found:
        if export.result == "void":
            sys.exit(f"mldsa.h: {export.name} returns nothing, which c/x86_64.c does not pass on")
        given = ", ".join(name for _, name in export.parameters)
        lines.append(f"PASS_ON({export.result}, {export.name}, ({export.declared()}), ({given}))\n")
    return "".join(lines)


def stubs(found):
    """A line for each export, from which c/tests/passes.c makes functions that note their arguments, and a test."""
    lines = []
    for export in found:
        kinds = [kind for kind, _ in export.parameters]
        inside = ", ".join(f"{kind} p{place}" for place, kind in enumerate(kinds)) or "void"
        notes = " ".join(f"NOTE({place}, p{place})" for place in range(len(kinds)))
        values = ", ".join(f"VALUE({kind}, {place})" for place, kind in enumerate(kinds))
        lines.append(f"STUB({export.result}, {export.name}, ({inside}), {notes}, ({values}), {len(kinds)})\n")
    return "".join(lines)


def lengths(name):
    """The length of an array at each set, where the header has a number for it; else 0, for any."""
    found = []
    for prefix in (f"MLDSA(?:{number})?" for number in SETS):
        defined = re.search(rf"#define {prefix}_{name.upper()}_LEN (\d+)", HEADER)
        found.append(int(defined[1]) if defined else 0)
    return found


def cases(found):
    """The arrays and calls of c/tests/levels.c and c/tests/edges.c."""
    names = {}
    for export in found:
        if export.arrays() is None:
            sys.exit(f"mldsa.h: {export.name} takes something else than a number, and arrays with their lengths: write "
                     "how c/tests/levels.c calls it")
        names |= {name: lengths(name) for name, _ in export.arrays()}
    # (also for an array of any length, which c/tests/edges.c makes up to this long, and for the longest key's text)
    rooms = {name: max(8192 if name.endswith("_pem") else 2048, *(length + 1 for length in sizes))
             for name, sizes in names.items()}
    lines = [f"enum {{ ARRAYS = {len(names)}, EXPORTS = {len(found)} }};\n"]
    lines += [f"#define ARRAY_{name} {place}\n" for place, name in enumerate(names)]
    lines += [f"enum {{ ROOM = {max(rooms.values())} }};\n"]
    lines += ["static const struct { const char *name; size_t lengths[3], room; } KINDS[ARRAYS] = {\n"]
    lines += [f'    {{"{name}", {{{", ".join(map(str, names[name]))}}}, {rooms[name]}}},\n' for name in names]
    lines += ["};\n"]
    for export in found:
        given = ["number"] if export.number() else []
        given += [f"a[ARRAY_{name}].at, a[ARRAY_{name}].len" for name, _ in export.arrays()]
        lines += [f"static uint32_t call_{export.name}(struct array *a, uint32_t number)\n{{\n",
                  f"    (void)a, (void)number;\n    return {export.name}({', '.join(given)});\n}}\n"]
    # `done` is the result of a call that is done, or the result yes; `is_of_set` tells that its number is a set's.
    lines += ["struct export { const char *name; int set; uint32_t (*call)(struct array *, uint32_t), done; "
              "int is_of_set, count, arrays[ARRAYS], written[ARRAYS]; };\n",
              "static const struct export CALLS[EXPORTS] = {\n"]
    for export in found:
        number = re.match(r"mldsa(\d*)", export.name)[1] or "0"
        used = ", ".join(f"ARRAY_{name}" for name, _ in export.arrays()) or "0"
        written = ", ".join(str(int(is_written)) for _, is_written in export.arrays()) or "0"
        numbers = f"{int(export.name.endswith('_accepts'))}, {int(export.number() == 'set')}, {len(export.arrays())}"
        lines.append(f'    {{"{export.name}", {number}, call_{export.name}, {numbers}, {{{used}}}, {{{written}}}}},\n')
    return "".join([*lines, "};\n"])


# -- The results of calls

MADE = "`c/exports.py` made this file from c/mldsa.h: edit that one."
# The faults of the Rattle library are those results that have their texts, and these.
OTHERWISE = {"KEY_RANGE": "KeyRange"}
# The faults of PEM have their texts in the header alone. A text that spells too much has no key of a right length.
OF_PEM = {"NotPem": "PEM_MISSING", "Encrypted": "PEM_ENCRYPTED", "Certificate": "PEM_CERTIFICATE",
          "OtherKind": "PEM_OTHER_KIND", "OtherLabel": "PEM_OTHER_LABEL", "CutShort": "PEM_CUT_SHORT",
          "Behind": "PEM_TRAILING", "Damaged": "PEM_DAMAGED", "TooLong": "DER_KEY_LENGTH"}


class Status:
    """A result: its name without MLDSA_, its number, what the header says of it, and its text."""

    def __init__(self, name, number, meaning, text):
        self.name, self.number, self.meaning, self.text = name, int(number), meaning, text


def texts():
    """The text of each result, by its name; and the text of every other number."""
    rows = re.findall(r'^    (?:case MLDSA_(\w+)|(default)): return "(.*)";$', HEADER, re.M)
    return {name or other: text for name, other, text in rows}


def statuses():
    """Each result in the order of the header, but the second name of 0."""
    rows = re.findall(r"^    MLDSA_(\w+) = (\d+),? +/\*\*< (.*) \*/$", HEADER, re.M)
    found = [Status(name, number, meaning, texts()[name]) for name, number, meaning in rows if name != "YES"]
    if [it.number for it in found] != [0, *range(2, len(found) + 1)] or len(texts()) != len(found) + 1:
        sys.exit("mldsa.h: the numbers of results are not 0, 2, 3 and so on, or one has no text")
    return found


def variants(file, function):
    """The variants of an enum of the library, with their texts."""
    text = (TOP / "crates" / file).read_text(encoding="utf-8")
    return re.findall(rf'^{function} (\w+) = codes "(.*)"$', text, re.M)


def numbered(named):
    """The number of each variant, in their order. No call has a fault of a generator, since the caller gives the random
    bytes: these have the last numbers of a byte."""
    found = {it.text: it.number for it in statuses()}
    found = {name: found.get(text) for name, text in named}
    found |= {OTHERWISE[it.name]: it.number for it in statuses() if OTHERWISE.get(it.name) in found}
    others = [name for name, number in found.items() if number is None]
    if any(not name.endswith("Rng") for name in others):
        sys.exit(f"mldsa.h has no result with the text of {', '.join(others)}")
    return found | {name: 256 - len(others) + place for place, name in enumerate(others)}


def rattle():
    """The numbers and texts in Rattle: code, definitions, and a proof by cases."""
    faults = variants("fips204_base/specs/Faults.antt", "words")
    of_der = variants("fips204_shake/specs/DerFaults.antt", "sentence")
    numbers, numbers_of_der, rows, none = numbered(faults), numbered(of_der), statuses(), texts()["default"]
    numbers_of_pem = {name: next(it.number for it in rows if it.name == result) for name, result in OF_PEM.items()}
    own = [it for it in rows
           if it.number not in {*numbers.values(), *numbers_of_der.values(), *numbers_of_pem.values()}]
    code = [f"//! The numbers that the exports return, and their texts. {MADE}\n#![tactic(auto)]\n\n",
            "ghost use Rattle.std.specs.Prelude.{◌≡◌};\n",
            "ghost use Rattle.mldsa_c.specs.Numbers.{status_of, status_of_der, status_of_pem};\n\n",
            "use fips204_shake::bytes::Fault;\nuse fips204_shake::der::DerFault;\n",
            "use fips204_shake::pem::PemFault;\n\n"]
    for it in own:
        meaning = it.meaning.rpartition(": ")[2]
        code += [f"/// {meaning[0].upper()}{meaning[1:]}.\npub(crate) const {it.name}: u32 = {it.number};\n\n"]
    code += [f'/// The text of a number that no call returns.\npub(crate) const NO_STATUS: &str = "{none}";\n\n',
             f"/// The text of each number from 0 on.\npub(crate) const TEXTS: [&str; {len(rows) + 1}] = [\n"]
    code += [f'    "{it.text}",\n' + "    NO_STATUS,\n" * (it.number == 0) for it in rows]
    code += ["];\n"]
    for what, kind, function, found in (("a fault", "Fault", "status_of", numbers),
                                        ("a fault of DER", "DerFault", "status_of_der", numbers_of_der),
                                        ("a fault of PEM", "PemFault", "status_of_pem", numbers_of_pem)):
        code += [f"\n/// The status of {what}.\npub(crate) fn {function}(fault: {kind}) -> u32\n",
                 f"    ensures {{ result ≡ {function} fault }}\n{{\n    match fault {{\n"]
        code += [f"        {kind}::{name} => {number},\n" for name, number in found.items()]
        code += ["    }\n}\n"]

    use = ["use Rattle.fips204_base.specs.declared.fault.Fault.{Fault}\n",
           f"use Rattle.fips204_base.specs.declared.fault.Fault.TheVariants.{{{', '.join(numbers)}}}\n"]
    said = {text: f"words {name}" for name, text in faults} | {text: f"sentence {name}" for name, text in of_der}
    specs = [f"-- The numbers that the exported calls return, and their texts. {MADE}\n",
             "use Rattle.std.specs.Prelude.{ℕ, List, [], ◌∷◌, codes}\n",
             "use Rattle.fips204_base.specs.Faults.{words}\n", *use,
             "use Rattle.fips204_shake.specs.DerFaults.{sentence}\n",
             "use Rattle.fips204_shake.specs.declared.der.fault.DerFault.{DerFault}\n",
             "use Rattle.fips204_shake.specs.declared.der.fault.DerFault.TheVariants."
             f"{{{', '.join(numbers_of_der)}}}\n",
             "use Rattle.fips204_shake.specs.declared.pem.fault.PemFault.{PemFault}\n",
             "use Rattle.fips204_shake.specs.declared.pem.fault.PemFault.TheVariants."
             f"{{{', '.join(numbers_of_pem)}}}\n\n",
             "-- the status of each fault; no call has one of a generator, since the caller gives the random bytes\n",
             "abbrev pub status_of : Fault → ℕ\n"]
    specs += [f"status_of {name} = {number}\n" for name, number in numbers.items()]
    specs += ["\n-- the status of each fault of DER\nabbrev pub status_of_der : DerFault → ℕ\n"]
    specs += [f"status_of_der {name} = {number}\n" for name, number in numbers_of_der.items()]
    specs += ["\n-- the status of each fault of PEM\nabbrev pub status_of_pem : PemFault → ℕ\n"]
    specs += [f"status_of_pem {name} = {number}\n" for name, number in numbers_of_pem.items()]
    specs += ["\n-- the text of a number that no call returns\nabbrev pub no_status : List ℕ\n",
              f'no_status = codes "{none}"\n',
              "\n-- the text of each number from 0 on\nabbrev pub texts : List (List ℕ)\ntexts =\n"]
    listed = [said.get(it.text, f'codes "{it.text}"') for it in rows]
    specs += [f"    {it} ∷\n" for it in (listed[0], "no_status", *listed[1:])] + ["    []\n"]

    proofs = [f"-- No fault has the number of success, here or elsewhere. {MADE}\n",
              "use Rattle.std.proofs.Common.{◌≡◌}\n", *use, "use Rattle.mldsa_c.specs.Numbers.{status_of}\n"]
    for function, number in (("not_done", 0), ("not_one", 1)):
        proofs += [f"\npub {function} : (fault : Fault) → ¬ ({number} ≡ status_of fault)\n"]
        proofs += [f"{function} {name} = λ e. absurd cc\n" for name in numbers]
    crate = TOP / "crates/mldsa_c"
    return {crate / "src/numbers.rt": "".join(code), crate / "specs/Numbers.antt": "".join(specs),
            crate / "proofs/OfFaults.antt": "".join(proofs)}


def between(file, first, last, lines):
    """A file of JavaScript, with these lines in the place of those that stand between two others."""
    path = TOP / "js" / file
    before, begin, rest = path.read_text(encoding="utf-8").partition(f"\n{first}\n")
    _, end, after = rest.partition(f"\n{last}\n")
    if not begin or not end:
        sys.exit(f"js/{file}: the line `{first}` or `{last}` is missing")
    return {path: f"{before}{begin}{''.join(lines)}{last}\n{after}"}


def javascript():
    """The table of results in JavaScript, and the type of their names."""
    rows = statuses()
    table = [f'    {it.name}: [{it.number}, "{it.text}"],\n' for it in rows]
    names = [f'    /** {it.text} */\n    | "{it.name}"\n' for it in rows if it.number > 2]
    return {**between("core.js", "const STATUSES = {", "};", table),
            **between("mldsa.d.ts", "export type ErrorCode =", "    ;", names)}


def main():
    files, check = {**rattle(), **javascript()}, sys.argv[1:] == ["--check"]
    if sys.argv[1:] not in ([], ["--check"]):
        sys.exit(__doc__.strip())
    wrong = [path for path, text in files.items() if not path.is_file() or path.read_text(encoding="utf-8") != text]
    for path in wrong:
        print(f"{path.relative_to(TOP)}: {'not as `c/exports.py` makes it' if check else 'made again'}")
        if not check:
            path.write_text(files[path], encoding="utf-8")
    print(f"{len(files)} files made from c/mldsa.h, {len(wrong)} {'wrong' if check else 'changed'}")
    return int(check and bool(wrong))


if __name__ == "__main__":
    sys.exit(main())
