"""`proofs pack`: writes the built libraries into one archive."""
import contextlib
import hashlib
import io
import json
import lzma
import subprocess
import sys
import tarfile

import keeping
import library
from library import FORMAT, LIST, ROOTS, TOP, Progress, Refused, member

# The long distance is for what libraries have in common.
ZIP = ["zstd", "-q", "-T0", "-9", "--long=27", "-c"]


def build(lines):
    """Has `rt` build what neither is built nor was kept by its gate."""
    roots = [root for root in ROOTS if root in lines]
    for root in [] if keeping.lay_kept(*roots) else roots:
        if subprocess.run(["rt", "lib"], cwd=TOP / "crates" / root, stdout=sys.stderr).returncode:
            raise Refused(f"rt lib doesn't build {root}")


def sums_of_sources(lines, names):
    return {name: library.sum_of_sources(TOP, name, lines[name][0]) for name in names}


def files_of(name):
    """The files of a built library: the path, the size and the sum of each."""
    top = TOP / member(name, "")
    found = sorted(path for path in top.rglob("*") if path.is_file())
    return [[path.relative_to(top).as_posix(), path.stat().st_size, library.sum_of(path)] for path in found]


@contextlib.contextmanager
def zipping(file):
    """A stream whose bytes go into the file, compressed as its name says."""
    if file.name.endswith(".xz"):
        with lzma.open(file, "wb") as stream:
            yield stream
        return
    with open(file, "wb") as to, subprocess.Popen(ZIP, stdin=subprocess.PIPE, stdout=to) as ran:
        yield ran.stdin
        ran.stdin.close()
        if ran.wait():
            raise Refused("zstd failed")


def add(tar, name, data):
    """Adds a file to the archive, with nothing in its entry that differs from machine to machine."""
    entry = tarfile.TarInfo(name)
    entry.size, entry.mode = len(data), 0o644
    tar.addfile(entry, io.BytesIO(data))


def add_link(tar, name, to):
    """Adds a symbolic link to the archive."""
    entry = tarfile.TarInfo(name)
    entry.type, entry.linkname = tarfile.SYMTYPE, to
    tar.addfile(entry)


def write(file, listing):
    """Writes the archive: the list, and then each file that it names."""
    progress = Progress("packing", len(listing["libraries"]))
    with zipping(file) as stream, tarfile.open(fileobj=stream, mode="w|", format=tarfile.GNU_FORMAT) as tar:
        add(tar, LIST, json.dumps(listing, indent=1).encode())
        for number, it in enumerate(listing["libraries"], 1):
            progress.say(number, it["name"])
            for path, _, wanted in it["files"]:
                data = (TOP / member(it["name"], path)).read_bytes()
                if hashlib.sha256(data).hexdigest() != wanted:
                    raise Refused(f"{member(it['name'], path)} changed while it was packed")
                add(tar, member(it["name"], path), data)
    progress.end()


def pack(file):
    lines = library.lines_of(TOP)
    names = library.below(lines, *ROOTS)
    commit = library.commit(["crates.txt", *(f"crates/{name}" for name in names)])
    sums = sums_of_sources(lines, names)
    build(lines)
    if sums_of_sources(lines, names) != sums:
        raise Refused("sources changed while they were proved")
    libraries = [{"name": name, "sources": sums[name], "files": files_of(name)} for name in names]
    listing = {"format": FORMAT, "version": library.version(), "kit": library.kit(), "commit": commit, "libraries": libraries}
    file.parent.mkdir(parents=True, exist_ok=True)
    part = file.with_name(f"part-{file.name}")
    try:
        write(part, listing)
        part.replace(file)
    finally:
        if part.exists():
            part.unlink()
    print(f"{file}: {len(names)} libraries of {commit[:12]} for {listing['kit']}, {file.stat().st_size / 1e6:,.0f} MB")
