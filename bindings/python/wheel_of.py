"""The build backend (PEP 517): a wheel of the package and of its extension, and a source distribution with the C library's archive.

`make -C bindings wheel` builds the extension for a Python; in a source distribution the backend does, by a C compiler. It needs
nothing else, so that `pip install` works without a network. `wheel_of.py FOLDER` puts the wheel there."""

from __future__ import annotations

import base64
import hashlib
import io
import os
import pathlib
import platform
import re
import subprocess
import sys
import sysconfig
import tarfile
import tempfile
import zipfile

HERE = pathlib.Path(__file__).resolve().parent
OUT = HERE / "out" if (HERE / "out").exists() else HERE.parent / "out"
EXTENSION = f"bits{sysconfig.get_config_var('EXT_SUFFIX')}"
KINDS = (".py", ".pyi", ".typed", ".pyx", ".h")
# What a manylinux wheel may be linked with (PEP 600), of which this one needs the first.
LIBRARIES = {"libc.so.6", "libm.so.6", "libpthread.so.0", "ld-linux-x86-64.so.2", "ld-linux-aarch64.so.1"}


def project() -> dict[str, str]:
    """The texts of pyproject.toml's table `project`."""
    _, _, table = (HERE / "pyproject.toml").read_text().partition("[project]\n")
    lines = (line.partition(" = ") for line in table.splitlines() if line.endswith('"'))
    return {name: text.strip('"') for name, _, text in lines}


def metadata() -> bytes:
    """What is said of the package, with its readme."""
    said = project()
    return (
        f"Metadata-Version: 2.1\nName: {said['name']}\nVersion: {said['version']}\nSummary: {said['description']}\n"
        f"License: MIT\nRequires-Python: {said['requires-python']}\nProvides-Extra: numpy\nRequires-Dist: numpy; extra == 'numpy'\n"
        "Classifier: Programming Language :: Cython\nClassifier: Typing :: Typed\n"
        f"Description-Content-Type: text/markdown\n\n{(HERE / 'README.md').read_text()}"
    ).encode()


def glibc_of(data: bytes) -> int | None:
    """The greatest N of the symbols GLIBC_2.N that an extension needs; None where it needs a library that not every Linux has."""
    if set(re.findall(rb"\0((?:lib|ld-)[\w+-]+\.so[.\d]*)(?=\0)", data)) - {name.encode() for name in LIBRARIES}:
        return None
    return max((int(minor) for minor in re.findall(rb"\0GLIBC_2\.(\d+)(?:\.\d+)?(?=\0)", data)), default=0)


def platforms(data: bytes) -> list[str]:
    """The platforms of a wheel with an extension: manylinux, where every Linux has what it needs."""
    plain, machine = sysconfig.get_platform().replace("-", "_").replace(".", "_"), platform.machine()
    glibc = glibc_of(data) if plain == f"linux_{machine}" and platform.libc_ver()[0] == "glibc" else None
    if glibc is None:
        return [plain]
    return [f"manylinux_2_17_{machine}", f"manylinux2014_{machine}"] if glibc <= 17 else [f"manylinux_2_{glibc}_{machine}"]


def sources(name: str, kinds: tuple[str, ...]) -> dict[str, bytes]:
    """The files of the package, by path."""
    return {str(path.relative_to(HERE)): path.read_bytes() for path in sorted((HERE / name).rglob("*")) if path.suffix in kinds}


def extension() -> bytes:
    """The extension, which a source distribution builds for this Python."""
    if not (OUT / "bits.c").exists() or OUT.parent != HERE:
        return (OUT / EXTENSION).read_bytes()
    with tempfile.TemporaryDirectory() as room:
        compiler, made = os.environ.get("CC", "cc").split(), pathlib.Path(room, EXTENSION)
        words = [*os.environ.get("CFLAGS", "-O3").split(), "-fPIC", "-fwrapv", "-shared", "-fvisibility=hidden", "-Wl,--exclude-libs,ALL", f"-I{sysconfig.get_path('include')}"]
        folders = [f"-I{HERE / project()['name']}", f"-I{OUT}"]
        subprocess.run([*compiler, *words, *folders, OUT / "bits.c", OUT / "libfehimbary.a", "-o", made], check=True)
        return made.read_bytes()


def row(path: str, data: bytes) -> str:
    """A line of the record: a file's path, sum and size."""
    return f"{path},sha256={base64.urlsafe_b64encode(hashlib.sha256(data).digest()).rstrip(b'=').decode()},{len(data)}\n"


def build_wheel(wheel_directory: str, config_settings: object = None, metadata_directory: object = None) -> str:
    """Puts the wheel into a folder, and gives its name."""
    if not (OUT / EXTENSION).exists() and not (OUT.parent == HERE and (OUT / "bits.c").exists()):
        raise FileNotFoundError(f"{OUT / EXTENSION} isn't built: `make -C bindings wheel` builds it")
    name, version, data = project()["name"], project()["version"], extension()
    python = f"cp{sys.version_info.major}{sys.version_info.minor}"
    before, names, info = f"{python}-{python}{sys.abiflags}", platforms(data), f"{name}-{version}.dist-info"
    tags = "".join(f"Tag: {before}-{it}\n" for it in names)
    found = {**sources(name, (".py", ".pyi", ".typed")), f"{name}/{EXTENSION}": data, f"{info}/METADATA": metadata()}
    found[f"{info}/WHEEL"] = f"Wheel-Version: 1.0\nGenerator: {name}\nRoot-Is-Purelib: false\n{tags}".encode()
    found[f"{info}/RECORD"] = ("".join(row(*it) for it in found.items()) + f"{info}/RECORD,,\n").encode()
    file = f"{name}-{version}-{before}-{'.'.join(names)}.whl"
    with zipfile.ZipFile(pathlib.Path(wheel_directory, file), "w", zipfile.ZIP_DEFLATED) as wheel:
        for path, content in found.items():
            wheel.writestr(zipfile.ZipInfo(path), content, zipfile.ZIP_DEFLATED)
    return file


def build_sdist(sdist_directory: str, config_settings: object = None) -> str:
    """Puts the source distribution into a folder, and gives its name: what a C compiler builds the extension of, for this machine."""
    name, version = project()["name"], project()["version"]
    found = {**sources(name, KINDS), "PKG-INFO": metadata()}
    found.update({it: (HERE / it).read_bytes() for it in ("pyproject.toml", "README.md", "wheel_of.py")})
    places = {"bits.c": OUT, "libfehimbary.a": OUT, "fehimbary.h": OUT if OUT.parent == HERE else HERE.parent}
    found.update({f"out/{it}": (folder / it).read_bytes() for it, folder in places.items()})
    with tarfile.open(pathlib.Path(sdist_directory, f"{name}-{version}.tar.gz"), "w:gz") as archive:
        for path, data in found.items():
            entry = tarfile.TarInfo(f"{name}-{version}/{path}")
            entry.size = len(data)
            archive.addfile(entry, io.BytesIO(data))
    return f"{name}-{version}.tar.gz"


if __name__ == "__main__":
    print(build_wheel(*sys.argv[1:2]))
