"""What the tools share: the crates of a repository by its crates.txt, the sums of their sources, the commit, the version and the kit."""
import hashlib
import pathlib
import re
import subprocess
import sys

TOP = pathlib.Path(__file__).resolve().parent.parent
BITVEC, RECORDS = "bitvec", "bitrecord"
# What an archive holds, with all below: README's first command stands on the last of these.
ROOTS = (BITVEC, RECORDS, "bitdo_work")
SOURCES = ("src", "specs", "proofs")
# An archive of proofs begins with this list, in this form.
LIST, FORMAT = "proofs.json", "fehimbary proofs 1"


class Refused(Exception):
    """Why a tool stops, as its user reads it."""


def member(name, path):
    """Where a file of a built library stands, from the top of a repository."""
    return f"crates/{name}/out/rlib/{path}"


def version():
    """The version of this text."""
    return (TOP / "VERSION").read_text().strip()


def kit():
    """The line that names the kit whose `rt` is on the path."""
    try:
        return subprocess.run(["rt", "version"], check=True, stdout=subprocess.PIPE, universal_newlines=True).stdout.strip()
    except (OSError, subprocess.CalledProcessError):
        raise Refused("there is no kit: put its rt on the path")


def commit(paths):
    """The commit that this clone stands at. These paths have to be as they were committed."""

    def git(*words):
        ran = subprocess.run(["git", *words], cwd=TOP, stdout=subprocess.PIPE, stderr=subprocess.DEVNULL, universal_newlines=True)
        if ran.returncode:
            raise Refused(f"{TOP} is no clone with a commit: git {words[0]} failed")
        return ran.stdout.strip()

    changed = git("status", "--porcelain", "--", *paths)
    if changed:
        raise Refused(f"commit this first, since what is made names a commit:\n{changed}")
    return git("rev-parse", "HEAD")


def lines_of(top):
    """The lines of crates.txt by their crates: the line, and the libraries that it names."""
    file, found = top / "crates.txt", {}
    for line in file.read_text().splitlines() if file.exists() else []:
        line = line.partition("#")[0].strip()
        if line:
            found[re.split(r"[\s:]", line)[0]] = line, re.findall(r"[^\s,]+", line.partition(":")[2])
    return found


def below(lines, *roots):
    """The repository's libraries that these stand on, and these, each after those that it names."""
    found = []

    def go_down(name):
        if name in found or name not in lines:
            return
        for it in lines[name][1]:
            go_down(it)
        found.append(name)

    for root in roots:
        go_down(root)
    return found


def sources(folder):
    """The files of a crate that a proof of it reads."""
    return sorted(path for part in SOURCES for path in (folder / part).rglob("*") if path.is_file())


def sum_of(path):
    """The sum of a file."""
    return hashlib.sha256(path.read_bytes()).hexdigest()


def sum_of_sources(top, name, line):
    """A sum of what a library is proved of, beside the libraries below: its line of crates.txt and its files."""
    folder = top / "crates" / name
    rows = [f"{sum_of(path)}  {path.relative_to(folder).as_posix()}" for path in sources(folder)]
    return hashlib.sha256("\n".join([line, *rows]).encode()).hexdigest()


class Progress:
    """One line on a terminal that says how far a tool is; nothing where the tool writes elsewhere."""

    def __init__(self, what, of):
        self.what, self.of, self.is_shown = what, of, sys.stderr.isatty()

    def say(self, number, name):
        if self.is_shown:
            print(f"\r\033[K{self.what} {number} of {self.of}: {name}", end="", file=sys.stderr, flush=True)

    def end(self):
        if self.is_shown:
            print("\r\033[K", end="", file=sys.stderr, flush=True)


def main(tool, call):
    """Runs a tool, and ends it with its status, or with what it was refused for."""
    try:
        sys.exit(call(sys.argv[1:]))
    except (Refused, OSError) as why:
        sys.exit(f"{tool}: {why}")
