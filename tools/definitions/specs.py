"""The definitions of specs/, as text: each with its comment, its lines, and the names that its file imports."""
import pathlib
import re
import sys

sys.path.append(str(pathlib.Path(__file__).resolve().parents[2] / "scripts"))

from common import TOP

NAME = r"[^\s(){}\[\],;:.λ→]+"
HEAD = re.compile(rf"(?:(abbrev|unfoldable) )?(?:pub )?(?:(record|data) )?({NAME})")
IMPORT = re.compile(r"(?:ghost )?use Rattle\.(\w+)\.specs\.([\w.]+?)(?:\.\{([^}]*)\}| as (\w+));?$")
CONSTRUCTOR = re.compile(rf"  ({NAME}) :")


class Definition:
    """One definition: where it stands, its kind (`record`, `data` or empty), its comment and its lines."""

    def __init__(self, file, kind, name, comment):
        self.file, self.kind, self.name, self.comment, self.lines = file, kind, name, comment, []

    @property
    def text(self):
        return "\n".join(self.lines)


class File:
    """A file of definitions: its path, the names that it imports, and its definitions in order."""

    def __init__(self, path):
        self.path, self.definitions = path, []
        lines = path.read_text(encoding="utf-8").splitlines()
        self.private = "cited by no public clause" in lines[0]
        self.imports = imported(lines)
        comment, here = [], None
        for line in lines:
            if not line.strip() or line.startswith(("use ", "pub use ", "pub mod ", "-- ----", "unfolding ")):
                comment = []
            elif line.startswith("--"):
                comment.append(line)
            elif line.startswith((" ", "(", ")", "}")):
                if here:
                    here.lines.append(line)
            else:
                _, kind, name = HEAD.match(line).groups()
                if not (here and here.name == name):
                    here = Definition(self, kind or "", name, comment)
                    self.definitions.append(here)
                here.lines.append(line)
                comment = []

    def __str__(self):
        return f"{self.path.parts[-3]}/{self.path.stem}"


def imported(lines):
    """The file of each name that `use` lines bring in from specs/; a name for a whole file ends with a point."""
    found = {}
    for line in lines:
        if match := IMPORT.match(line.strip()):
            crate, file, names, whole = match.groups()
            names = [f"{whole}."] if whole else [name.strip() for name in names.split(",")]
            found.update(dict.fromkeys(names, f"{crate}/{file}"))
    return found


def files(crates=("fips204_base", "fips204"), part="specs/*"):
    """The files of definitions of these crates, without `Lib`."""
    paths = [path for crate in crates for path in sorted((TOP / "crates" / crate).glob(f"{part}.antt"))]
    return [File(path) for path in paths if path.stem != "Lib"]


def by_name(all_files):
    """Each definition by its file and its name, and by those of its constructors."""
    found = {}
    for file in all_files:
        for definition in file.definitions:
            names = [definition.name]
            if definition.kind == "data":
                names += [made.group(1) for line in definition.lines if (made := CONSTRUCTOR.match(line))]
            for name in names:
                found[str(file), name] = definition
    return found


def named(text, imports):
    """The file and the name of each imported word of a text, in order."""
    for first, second in re.findall(r"(?<![\w'.])([^\W\d][\w']*)(?:\.([^\W\d][\w']*))?", re.sub(r"--.*", "", text)):
        if f"{first}." in imports:
            yield imports[f"{first}."], second
        elif first in imports:
            yield imports[first], first


def words(text):
    """The words of a text in order, without what follows a point."""
    return re.findall(r"(?<![\w'.])[^\W\d][\w']*", re.sub(r"--.*", "", text))
