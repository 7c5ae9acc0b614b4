"""Imports of a file: those that its text names. Contracts name more, so a source imports more than Rust needs. A trait may be needed
though nothing names it, for its methods, and rustc alone knows that: such an import stays, and is allowed to be unused."""
import re

ALLOWED = "#[allow(unused_imports)]\n"
# Traits of std that the text needs for their methods.
OF_STD = ("Hash",)
IMPORT = re.compile(r"^use ([\w:]*?)(?:(\w+(?: as \w+)?)|\{([^}]*)\});\n", re.M)


def pruned(written, traits):
    """A file's text without the imports that it doesn't need."""
    code = re.sub(r"//.*", "", IMPORT.sub("", written))
    words = set(re.findall(r"(?<!::)\b\w+", code))
    return IMPORT.sub(lambda it: kept(it[1], it[2] or it[3], words, traits), written)


def kept(path, names, words, traits):
    """The lines of one import."""
    names = [name.strip() for name in names.split(",") if name.strip()]
    used = [name for name in names if name.split()[-1] in words]
    lines = [f"use {path}{{{', '.join(used)}}};\n" if len(used) > 1 else f"use {path}{used[0]};\n"] if used else []
    return "".join(lines + [f"{ALLOWED}use {path}{name};\n" for name in names if name not in used and (name in traits or name in OF_STD)])
