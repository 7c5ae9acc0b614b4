"""Looks at the wheel, and builds one of a source distribution: packages.py WHEEL FOLDER."""

import os
import pathlib
import re
import subprocess
import sys
import tarfile
import zipfile

HERE = pathlib.Path(__file__).resolve().parent.parent
sys.path.insert(0, str(HERE / "python"))
import wheel_of

USE = "import fehimbary; print(fehimbary.Bits.from_string('0110').ones(), fehimbary.__version__)"


def main(wheel, room):
    room, version = pathlib.Path(room), wheel_of.project()["version"]
    with zipfile.ZipFile(wheel) as packed:
        files = {name: packed.read(name) for name in packed.namelist()}
    data = next(content for name, content in files.items() if name.endswith(".so"))
    said = files[f"fehimbary-{version}.dist-info/METADATA"].decode()
    tags = re.findall(r"^Tag: (.*)$", files[f"fehimbary-{version}.dist-info/WHEEL"].decode(), re.M)
    # glibc's own tool says which symbols are needed, and of which libraries
    needed = subprocess.run(["objdump", "-p", next(iter(unpacked(files, room)))], capture_output=True, text=True, check=True).stdout
    most = max(int(minor) for minor in re.findall(r"GLIBC_2\.(\d+)", needed))
    assert wheel_of.glibc_of(data) == most <= 17 and re.findall(r"NEEDED +(.*)", needed) == ["libc.so.6"], needed
    assert all("manylinux" in tag for tag in tags) and pathlib.Path(wheel).stem.endswith(".".join(tag.split("-")[2] for tag in tags)), tags
    assert wheel_of.glibc_of(data + b"\0GLIBC_2.34\0") == 34 and wheel_of.glibc_of(data + b"\0libbz2.so.1.0\0") is None
    assert "\n\n# fehimbary\n" in said and f"\nVersion: {version}\n" in said, said
    with tarfile.open(room / wheel_of.build_sdist(str(room))) as archive:
        archive.extractall(room)
    built = {"cwd": room / f"fehimbary-{version}", "env": {**os.environ, "CFLAGS": "-O0"}, "capture_output": True, "text": True, "check": True}
    made = subprocess.run([sys.executable, "wheel_of.py", str(room)], **built).stdout.strip()
    with zipfile.ZipFile(room / made) as packed:
        packed.extractall(room / "made")
    found = subprocess.run([sys.executable, "-c", USE], capture_output=True, text=True, check=True, cwd=room / "made").stdout
    assert (made, found) == (pathlib.Path(wheel).name, f"[1, 2] {version}\n"), (made, found)
    print(f"packages: {made}, and of the source distribution the same")


def unpacked(files, room):
    """The extension as a file."""
    for name, content in files.items():
        if name.endswith(".so"):
            path = room / pathlib.Path(name).name
            path.write_bytes(content)
            yield path


main(*sys.argv[1:])
