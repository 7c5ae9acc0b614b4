"""The folder that the package is written into: what an earlier run left there is replaced, and nothing else is touched."""
import shutil

from package import Refused

# The list of the files that a run wrote, and what cargo makes.
LIST = ".written-by-tools-rust"
OF_CARGO = ("target", "Cargo.lock")


def files_of(out):
    """The files that an earlier run left in the folder. It refuses a folder that holds anything else."""
    if not out.exists():
        return set()
    if not out.is_dir():
        raise Refused(f"{out} is no folder")
    listed = out / LIST
    known = set(listed.read_text().splitlines()) if listed.is_file() else set()
    for path in sorted(out.rglob("*")):
        name = path.relative_to(out)
        if path.is_file() and name.parts[0] not in OF_CARGO and name.as_posix() not in known | {LIST}:
            raise Refused(f"{out} holds {name}, which this tool didn't write: it writes into a new folder, or into its own")
    return known


def replace(out, old, new):
    """Puts the files of the folder `new` into `out`, those that are as before left alone, and removes the `old` ones that aren't new."""
    made = {path.relative_to(new).as_posix() for path in new.rglob("*") if path.is_file()}
    for name in sorted(old - made):
        (out / name).unlink(missing_ok=True)
    for name in sorted(made):
        target, content = out / name, (new / name).read_bytes()
        target.parent.mkdir(parents=True, exist_ok=True)
        if not target.is_file() or target.read_bytes() != content:
            target.write_bytes(content)
    (out / LIST).write_text("".join(f"{name}\n" for name in sorted(made)))
    for path in sorted(out.rglob("*"), reverse=True):
        if path.is_dir() and path.relative_to(out).parts[0] not in OF_CARGO and not any(path.iterdir()):
            path.rmdir()
