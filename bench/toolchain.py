"""The kit's own functions, and its toolchain with another compiler in place of clang."""
import importlib.machinery
import importlib.util
import os
import pathlib
import shutil
import sys

TOP = pathlib.Path(__file__).resolve().parent.parent
RT = pathlib.Path(os.path.realpath(shutil.which("rt") or sys.exit("no rt on the path"))).parent
KIT = RT.parent


def library():
    """rt's own functions: how a crate is handed to the compiler."""
    sys.dont_write_bytecode = True
    loader = importlib.machinery.SourceFileLoader("rtlib", f"{RT}/rtlib.py")
    made = importlib.util.module_from_spec(importlib.util.spec_from_loader("rtlib", loader))
    sys.modules["rtlib"] = made
    loader.exec_module(made)
    return made


def crate_of(rtlib, name, top=TOP):
    """A crate of a repository, whose folder is then the current one: its words name files from there."""
    os.chdir(top)
    crate = next((it for it in rtlib.crates_below(str(top)) if it.name == name), None)
    os.chdir((crate or sys.exit(f"no crate {name}")).folder)
    return crate


def with_clang(room, script):
    """A toolchain in a folder: the kit's, with a script in place of clang."""
    tools = room / "toolchain"
    (tools / "bin").mkdir(parents=True)
    (tools / "lib").symlink_to(KIT / "toolchain/lib")
    for tool in (KIT / "toolchain/bin").iterdir():
        (tools / "bin" / tool.name).symlink_to(tool)
    (tools / "bin/clang").unlink()
    (tools / "bin/clang").write_text(script)
    (tools / "bin/clang").chmod(0o755)
    return tools
