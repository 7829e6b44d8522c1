"""Builds the package over the shared library of ../rust/capi, which cargo builds, or over the one that MLDSA_LIBRARY
names. What c/mldsa.h says of it becomes a module. One wheel serves every Python of a platform, since ctypes loads the
library."""
import os
import pathlib
import re
import shutil
import sys

import setuptools
from setuptools import Distribution, setup
from setuptools.command.build_py import build_py
from setuptools.command.sdist import sdist
from setuptools_rust import Binding, RustExtension

try:
    from setuptools.command.bdist_wheel import bdist_wheel
except ImportError:  # before setuptools 70.1
    from wheel.bdist_wheel import bdist_wheel

TOP = pathlib.Path(__file__).resolve().parent.parent
sys.dont_write_bytecode = True
sys.path.append(str(TOP / "c"))

import exports

VERSION = re.search(r'^#define MLDSA_VERSION_TEXT "(.*)"$', exports.HEADER, re.M)[1]
PUBLISHER = (TOP / "packaging/PUBLISHER").read_text(encoding="utf-8")
LIBRARY = os.environ.get("MLDSA_LIBRARY")
# What setuptools calls an SPDX expression.
LICENCE = "license_expression" if int(setuptools.__version__.split(".")[0]) >= 77 else "license"
# (an editable install would build it without optimizing)
RUST = RustExtension("mldsa.libmldsa", "../rust/capi/Cargo.toml", binding=Binding.NoBinding, py_limited_api=True,
                     debug=False)
INTERFACE = '''"""What c/mldsa.h says: setup.py writes this file."""
from typing import Dict, Tuple

VERSION: int = {version}
VERSION_TEXT: str = "{text}"

# Of each call, how many numbers stand before its arrays; and of each of these, whether it is written.
CALLS: Dict[str, Tuple[int, Tuple[bool, ...]]] = {{
{calls}}}

# Lengths, stacks and results.
NUMBERS: Dict[str, int] = {{
{numbers}}}

# The object identifiers of hash functions in DER.
OIDS: Dict[str, bytes] = {{
{oids}}}
'''


def interface():
    """The module that says what the header says."""
    calls = {it.name: (int(bool(it.number())), tuple(written for _, written in it.arrays()))
             for it in exports.exports()}
    numbers = dict(re.findall(r"^#define (MLDSA\w*_(?:LEN|STACK_\w+)) (\d+)$", exports.HEADER, re.M))
    numbers.update(re.findall(r"^    (MLDSA_\w+) = (\d+),? +/\*", exports.HEADER, re.M))
    front = re.search(r'^#define MLDSA_OID\(n\) \(\(const uint8_t \*\)"(.*)" n\)$', exports.HEADER, re.M)[1]
    oids = re.findall(r'^#define MLDSA_OID_(\w+) MLDSA_OID\("(.*)"\)$', exports.HEADER, re.M)
    if len(oids) != 12:
        sys.exit("c/mldsa.h: its object identifiers are not read here")

    def written(rows):
        return "".join(f"    {name!r}: {value},\n" for name, value in rows).replace("'", '"')

    return INTERFACE.format(
        version=re.search(r"^#define MLDSA_VERSION (\w+)$", exports.HEADER, re.M)[1],
        text=VERSION,
        calls=written(calls.items()),
        numbers=written(numbers.items()),
        oids="".join(f'    "{name}": b"{front}{last}",\n' for name, last in oids),
    )


class Modules(build_py):
    """Adds the interface, and the library where it is given: for an editable install to the sources."""

    def run(self):
        super().run()
        folder = TOP / "python/mldsa" if self.editable_mode else pathlib.Path(self.build_lib, "mldsa")
        (folder / "_interface.py").write_text(interface(), encoding="utf-8")
        if LIBRARY:
            shutil.copy(LIBRARY, folder / "libmldsa.abi3.so")


class Package(Distribution):
    """Has a library also where cargo builds none."""

    def has_ext_modules(self):
        return True


class Wheel(bdist_wheel):
    """For a platform, and for any Python."""

    def get_tag(self):
        return "py3", "none", super().get_tag()[2]


class Sources(sdist):
    """None are packed."""

    def run(self):
        sys.exit("mldsa is packed as wheels alone: the Rust that it is built of stands outside this folder")


(TOP / "out/python").mkdir(parents=True, exist_ok=True)
setup(
    distclass=Package,
    version=VERSION,
    **{LICENCE: "MIT OR Apache-2.0"},
    # Who publishes it, if that is said.
    project_urls=dict(re.findall(r"^(homepage|repository): *(\S+)$", PUBLISHER, re.M)),
    rust_extensions=[] if LIBRARY else [RUST],
    cmdclass={"build_py": Modules, "bdist_wheel": Wheel, "sdist": Sources},
)
