"""Measured tables: where they stand, and the code that they measure, as a sum over the library's lines by which a table
can say which it was."""
import datetime
import hashlib
import io
import os
import pathlib
import re
import subprocess
import tarfile

from common import TOP, command, printed, text

# What a call from C, Rust or JavaScript runs.
CRATES = ("fips204_base", "fips204", "shake", "fips204_shake", "mldsa_c")
# What was such a crate in older commits.
ONCE = ("fips204_bytes",)
TABLE = "bench/table.md"


def summed(files):
    """The sum of files of the library, as (name, bytes) in order of names, without comments, empty lines and callers of
    laws, which nothing calls."""
    total = hashlib.sha256()
    for name, content in sorted(files):
        if name.endswith("/callers.rt"):
            continue
        lines = [line for line in content.splitlines() if line.strip() and not line.strip().startswith(b"//")]
        total.update(b"\n".join([name.encode(), *lines, b""]))
    return total.hexdigest()[:8]


def code():
    """The sum of the code as it is."""
    files = [file for crate in CRATES for file in (TOP / "crates" / crate / "src").rglob("*.rt")]
    return summed((str(file.relative_to(TOP)), file.read_bytes()) for file in files)


def code_of(commit):
    """The sum of the code of a commit, or none where the commit is not there."""
    folders = [f"crates/{crate}/src" for crate in (*CRATES, *ONCE)]
    there = printed("git", "-C", TOP, "ls-tree", "--name-only", commit, *folders).split()
    try:
        done = subprocess.run(["git", "-C", TOP, "archive", commit, *there], capture_output=True, check=False)
    except OSError:
        return None
    if done.returncode:
        return None
    with tarfile.open(fileobj=io.BytesIO(done.stdout)) as archive:
        files = [member for member in archive if member.name.endswith(".rt")]
        return summed((member.name, archive.extractfile(member).read()) for member in files)


def stamp():
    """The day, the commit and the code that is measured."""
    commit = command("git", "-C", TOP, "rev-parse", "--short=8", "HEAD").strip()
    return f"{datetime.date.today()}, commit {commit}, code {code()}"


def processors():
    """How many processors this machine has, of which kind, and how many of them this run may use."""
    found = re.search(r"^model name\s*: (.*)$", pathlib.Path("/proc/cpuinfo").read_text(encoding="utf-8"), re.M)
    own, there = len(os.sched_getaffinity(0)), os.cpu_count()
    count = f"{there}" if own == there else f"{own} of {there}"
    return f"{count} processors, {found[1] if found else os.uname().machine}"


def instructions(run, out):
    """The instructions of what `run` runs behind the words of a tool, as callgrind counts them into a file."""
    run("valgrind", "--tool=callgrind", f"--callgrind-out-file={out}")
    said = pathlib.Path(out).read_text(encoding="utf-8", errors="replace")
    return int(re.search(r"^(?:summary|totals): (\d+)", said, re.M)[1])


def load():
    return f"{os.getloadavg()[0]:.1f}"


def put_section(heading, body, behind):
    """Puts a section into bench/table.md: in the place of the one of that heading, or else behind the last one whose
    heading begins so."""
    parts = re.split(r"(?m)^(?=## )", text(TABLE))
    made = f"{heading}\n\n{body}"
    places = [place for place, part in enumerate(parts) if part.startswith(f"{heading}\n")]
    if places:
        parts[places[0]] = made
    else:
        parts.insert(max(place for place, part in enumerate(parts) if part.startswith(behind)) + 1, made)
    (TOP / TABLE).write_text("\n\n".join(part.strip() for part in parts) + "\n", encoding="utf-8")
