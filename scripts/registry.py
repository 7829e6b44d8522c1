#!/usr/bin/env python3
"""Prints the words by which cargo finds the crates that the Rust packages depend on: none where cargo has them or can
fetch them, and otherwise those by which it reads Debian's packages, which root installs here. Where Debian lacks it,
rust/signature replaces signature 2, and rust/absent the crates that only features for newer ones name.

    cargo COMMAND $(scripts/registry.py)    one word a line, and on standard error where the crates come from
"""
import functools
import os
import pathlib
import shutil
import subprocess
import sys

TOP = pathlib.Path(__file__).resolve().parent.parent
REGISTRY = pathlib.Path("/usr/share/cargo/registry")
# Each release of Debian has these versions, under these names. (getrandom is the one that rand_core 0.6 uses there.)
CRATES = ("clap-4", "data-encoding-2", "either-1", "getrandom-0", "hex-0.4", "rand_chacha-0.3", "rand_core-0.6",
          "sha2-0.10", "thiserror-1", "zeroize-1")
# What replaces a crate that Debian's registry lacks and a feature of the package names: that of signature 2 has its
# traits, and the others are empty.
STAND_INS = {"signature": ("signature-2", "rust/signature"), "signature_3": ("signature-3", "rust/absent/signature"),
             "pkcs8": ("pkcs8-0.11", "rust/absent/pkcs8"),
             "rand_core_0_10": ("rand_core-0.10", "rust/absent/rand_core")}


def lacking():
    """The crates that Debian's registry here lacks."""
    return [crate for crate in CRATES if not any(REGISTRY.glob(f"{crate}.*"))]


def packages(crates):
    """The packages of Debian that have crates."""
    return [f"librust-{crate.replace('_', '-')}-dev" for crate in crates]


def fault(workspace, *words):
    """Why cargo does not find every crate of a workspace, or nothing where it does."""
    given = {**os.environ, "CARGO_NET_RETRY": "0", "CARGO_HTTP_TIMEOUT": "10"}
    command = ["cargo", *words, "metadata", "--format-version", "1", "--quiet"]
    done = subprocess.run(command, cwd=workspace, env=given, capture_output=True, text=True, check=False)
    return (done.stderr.strip() or "cargo fails") if done.returncode else ""


def apt_get(*words):
    """Runs apt-get, and gives what it says where it fails."""
    done = subprocess.run(["apt-get", "-o", "DPkg::Lock::Timeout=300", "-q", *words], check=False, text=True,
                          env={**os.environ, "DEBIAN_FRONTEND": "noninteractive"}, stdout=subprocess.DEVNULL,
                          stderr=subprocess.PIPE)
    return done.stderr.strip()[-300:] if done.returncode else ""


def install(crates):
    """Has Debian install crates, and signature 2 too where it has that."""
    print(f"cargo has no registry: installs {' '.join(packages(crates))}", file=sys.stderr, flush=True)
    words = ["install", "-y", "--no-install-recommends", "--no-remove"]
    apt_get("update")
    if apt_get(*words, *packages([*crates, "signature-2"])) and (said := apt_get(*words, *packages(crates))):
        print(f"apt-get install: {said}", file=sys.stderr)


def words_of_debian(workspace):
    """The words by which cargo takes Debian's crates."""
    words = ["--offline", "--config", 'source.crates-io.replace-with="debian"',
             "--config", f'source.debian.directory="{REGISTRY}"']
    for name, (crate, place) in STAND_INS.items() if workspace == TOP else ():
        if not any(REGISTRY.glob(f"{crate}.*")):
            words += ["--config", f'patch.crates-io.{name}.path="{TOP}/{place}"',
                      "--config", f'patch.crates-io.{name}.package="{crate.partition("-")[0]}"']
    return words


@functools.cache
def cargo_words(workspace=TOP):
    """The words for a workspace, or none where nothing helps."""
    if not fault(workspace):
        return ()
    words = words_of_debian(workspace)
    if fault(workspace, *words) and lacking() and os.geteuid() == 0:
        install(lacking())
        words = words_of_debian(workspace)
    if said := fault(workspace, *words):
        needed = f"apt-get install {' '.join(packages(lacking()))}" if lacking() else said
        print(f"cargo has no registry, and Debian's packages lack a crate: {needed}", file=sys.stderr)
        return ()
    print(f"cargo has no registry: it takes Debian's packages in {REGISTRY}, and {workspace}/Cargo.lock names "
          "these; delete that file before cargo takes crates from elsewhere", file=sys.stderr)
    return tuple(words)


def home(folder):
    """Makes a home of cargo's, which has Debian's crates where there is no registry, and gives its folder."""
    for _, place in STAND_INS.values():
        shutil.copytree(TOP / place, folder / pathlib.Path(place).relative_to("rust"))
    words = "".join(f"{word}\n" for word in cargo_words() if "=" in word)
    (folder / "config.toml").write_text(words.replace(f"{TOP}/rust", str(folder)), encoding="utf-8")
    return folder


if __name__ == "__main__":
    print(*cargo_words(), sep="\n")
