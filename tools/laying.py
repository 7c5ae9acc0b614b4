"""`proofs lay`: puts the libraries of an archive into the crates' out/, as far as they fit."""
import contextlib
import hashlib
import io
import json
import lzma
import pathlib
import re
import shutil
import subprocess
import tarfile
import tempfile

import library
from change import Change, held
from library import FORMAT, LIST, ROOTS, Progress, Refused, member

UNZIP = ["zstd", "-q", "-d", "--long=27", "-c"]
ZSTD_BEGINS, XZ_BEGINS = b"\x28\xb5\x2f\xfd", b"\xfd7zXZ\x00"
# Why a library isn't laid, or (the last) is laid over what stands there.
UNLISTED, BUILT, DAMAGED = "crates.txt has no such crate", "it is built already", "it was damaged"
FITS, LAID = (None, BUILT, DAMAGED), (None, DAMAGED)


class Unxz(io.RawIOBase):
    """The bytes of one stream of xz. Bytes behind its end are refused (Python's own reader skips them)."""

    def __init__(self, raw):
        self.raw, self.unzip = raw, lzma.LZMADecompressor()

    def readable(self):
        return True

    def readinto(self, room):
        while not self.unzip.eof:
            given = self.raw.read(1 << 16) if self.unzip.needs_input else b""
            if self.unzip.needs_input and not given:
                raise EOFError("it is cut")
            data = self.unzip.decompress(given, len(room))
            if data:
                room[: len(data)] = data
                return len(data)
        if self.unzip.unused_data or self.raw.read(1):
            raise Refused("the archive has more behind its end")
        return 0


@contextlib.contextmanager
def unzipped(file):
    """The stream of an archive's bytes, by what the file begins with. It is whole only once this has ended."""
    with open(file, "rb", buffering=0) as raw:
        begin = raw.read(6)
        raw.seek(0)
        if begin == XZ_BEGINS:
            yield io.BufferedReader(Unxz(raw), 1 << 20)
            return
        if not begin.startswith(ZSTD_BEGINS):
            raise Refused(f"{file} is no archive of proofs: it is neither zstd's nor xz's")
        if not shutil.which("zstd"):
            raise Refused(f"{file} is zstd's, and there is no zstd on the path")
        with subprocess.Popen(UNZIP, stdin=raw, stdout=subprocess.PIPE, stderr=subprocess.DEVNULL) as ran:
            yield ran.stdout
            if ran.wait():
                raise Refused(f"{file} is damaged or cut, or has more behind its end")


def is_inside(name, path):
    """Whether a path of the list stays in the library's own folder."""
    parts = path.split("/")
    return not {"", ".", ".."} & {*parts} and "\\" not in path and (path == "stamp" or parts[0] == f"{name}.rlib")


def listing_of(tar):
    """The list that the archive begins with, once it is one and leads nowhere else."""
    entry = tar.next()
    if entry is None or entry.name != LIST or not entry.isreg():
        raise Refused(f"it is no archive of proofs: it doesn't begin with {LIST}")
    listing = json.loads(tar.extractfile(entry).read().decode())
    if type(listing) is not dict or listing.get("format") != FORMAT:
        raise Refused(f"it is no archive of proofs that this tool reads: its list isn't in the form {FORMAT!r}")
    for it in listing["libraries"]:
        for path in [path for path, _, _ in it["files"] if not re.fullmatch(r"\w+", it["name"]) or not is_inside(it["name"], path)]:
            raise Refused(f"a path leads outside crates/*/out: {member(it['name'], path)}")
    here = library.kit()
    if listing["kit"] != here:
        raise Refused(f"it was built by another kit, {listing['kit']}; the rt on the path is of {here}")
    return listing


def stands(folder, files):
    """What stands in a crate's out/ of this very library, if anything."""
    rlib, of_all = folder / "out/rlib", f"{folder.name}.rlib/format"
    wanted = {path: it for path, _, it in files}
    if not (rlib / "stamp").is_file() or library.sum_of(rlib / "stamp") != wanted["stamp"]:
        return None
    paths = [rlib / "stamp", *(path for path in (rlib / f"{folder.name}.rlib").rglob("*") if path.is_file())]
    there = {path.relative_to(rlib).as_posix(): library.sum_of(path) for path in paths}
    others = {path for path in {*wanted, *there} if wanted.get(path) != there.get(path)}
    if of_all in others and of_all in there and len(others) > 1:
        return f"another build of it stands here: remove {rlib} to lay this one"
    return DAMAGED if others else BUILT


def obstacle(top, text, lines, it, why):
    """Why a library isn't laid, or None; text: whose sources these are, why: the answers for those below."""
    name, folder = it["name"], top / "crates" / it["name"]
    if name not in lines:
        return UNLISTED
    if any(path.is_symlink() for path in (folder.parent, folder, folder / "out", folder / "out/rlib")):
        raise Refused(f"{folder}/out is reached by a link, and may lie elsewhere")
    if library.sum_of_sources(text, name, lines[name][0]) != it["sources"]:
        return "its sources here are others"
    for lower in lines[name][1]:
        if lower in lines and why.get(lower, "") not in FITS:
            return f"it stands on {lower}, which doesn't fit"
    return stands(folder, it["files"])


def read_file(tar, name, size, wanted):
    """The next file of the archive, which has to be this one."""
    entry = tar.next()
    if entry is None:
        raise Refused(f"it is cut: it lacks {name}")
    if entry.name != name or not entry.isreg() or entry.size != size:
        raise Refused(f"it has {entry.name} where its list has {name}")
    data = tar.extractfile(entry).read()
    if len(data) != size or hashlib.sha256(data).hexdigest() != wanted:
        raise Refused(f"it is damaged: the sum of {name} is another")
    return data


def unpack(tar, libraries, why, room):
    """Reads every file of the archive, and writes those of the libraries that are to be laid into the room."""
    progress = Progress("unpacking", len(libraries))
    for number, it in enumerate(libraries, 1):
        progress.say(number, it["name"])
        for path, size, wanted in it["files"]:
            data = read_file(tar, member(it["name"], path), size, wanted)
            if why[it["name"]] in LAID:
                to = room / it["name"] / path
                to.parent.mkdir(parents=True, exist_ok=True)
                to.write_bytes(data)
    progress.end()
    while True:
        rest = tar.fileobj.read(1 << 16)
        if rest.strip(b"\0"):
            raise Refused("it has more than its list says")
        if not rest:
            return


class Archive:
    """An archive that was read whole and is in order: its list, why a library isn't laid, and where those that are to be laid lie unpacked."""

    def __init__(self, listing, why, room):
        self.listing, self.why, self.room = listing, why, room

    def named(self, *answers):
        """The libraries with one of these answers."""
        return [name for name, it in self.why.items() if it in answers]

    def plan(self, top, change):
        """Plans that the libraries come into the crates' out/."""
        for name in self.named(*LAID):
            change.put(top / member(name, "").rstrip("/"), self.room / name)

    def tell(self, top):
        """Says what was laid, what was left, and what a check still proves."""
        of = f"built of Fehimbary {self.listing['version']}, commit {self.listing['commit'][:12]}"
        here = {name: it for name, it in self.why.items() if it != UNLISTED}
        print(f"laid {len(self.named(*LAID))} of {len(here)} libraries, {of}")
        lists = {"damaged, and laid again": DAMAGED, "already built": BUILT, "also in the archive, and not listed by crates.txt here": UNLISTED}
        for what, answer in lists.items():
            if self.named(answer):
                print(f"{what}: {' '.join(self.named(answer))}")
        for name, it in here.items():
            if it not in FITS:
                print(f"left {name}: {it}")
        rest = [name for name in library.below(library.lines_of(top), *ROOTS) if here.get(name, "") not in FITS]
        still = f"a check still proves these, unless they are built here: {' '.join(rest)}"
        print(still if rest else "a check of a crate above proves only that crate")


@contextlib.contextmanager
def opened(file, top, text, lines):
    """Reads an archive whole, for a repository with the sources of text and these lines of crates.txt."""
    if not file.is_file():
        raise Refused(f"there is no file {file}")
    with tempfile.TemporaryDirectory(prefix=".proofs-", dir=top) as room:
        try:
            with unzipped(file) as stream, tarfile.open(fileobj=stream, mode="r|") as tar:
                listing, why = listing_of(tar), {}
                for it in listing["libraries"]:
                    why[it["name"]] = obstacle(top, text, lines, it, why)
                unpack(tar, listing["libraries"], why, pathlib.Path(room))
                stream.read()
        except (tarfile.TarError, lzma.LZMAError, EOFError, ValueError, KeyError, TypeError) as error:
            raise Refused(f"{file} is damaged or cut, or no archive of proofs ({error})")
        yield Archive(listing, why, pathlib.Path(room))


def lay(file, top):
    if not (top / "crates.txt").is_file():
        raise Refused(f"there is no file {top}/crates.txt")
    with opened(file, top, top, library.lines_of(top)) as archive, held(top, archive.named(*LAID)):
        change = Change(archive.room)
        archive.plan(top, change)
        change.carry_out()
    archive.tell(top)
