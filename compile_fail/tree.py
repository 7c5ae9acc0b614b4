"""A copy of the tree, in which an edit may be made."""
import contextlib
import os
import pathlib
import shutil
import subprocess
import tempfile

from edit import TOP


class Tree:
    """A copy of the files that git knows, with the libraries that `rt` built here, by links where these can be made."""

    def __enter__(self):
        self.room = tempfile.TemporaryDirectory()
        self.folder = pathlib.Path(self.room.name)
        names = subprocess.run(["git", "ls-files", "-z"], cwd=TOP, check=True, stdout=subprocess.PIPE).stdout.decode().split("\0")
        for name in filter(None, names):
            if (TOP / name).is_file():
                (self.folder / name).parent.mkdir(parents=True, exist_ok=True)
                shutil.copy2(TOP / name, self.folder / name)
        for built in TOP.glob("crates/*/out/rlib"):
            self.lay(built.relative_to(TOP))
        return self

    def __exit__(self, *_):
        self.room.cleanup()

    def lay(self, name):
        """Puts a folder of out/ into the copy. `rt` replaces a file there, and changes none."""
        if (TOP / name).is_dir():
            shutil.copytree(TOP / name, self.folder / name, symlinks=True, copy_function=linked)

    @contextlib.contextmanager
    def edited(self, edit, control=False):
        """Makes an edit, or its control, as long as what is inside goes on."""
        texts = edit.texts(self.folder / "crates" / edit.crate, control)
        paths = {self.folder / "crates" / edit.crate / file: text for file, text in texts.items()}
        before = {path: path.read_text() for path in paths}
        try:
            for path, text in paths.items():
                path.write_text(text)
            yield
        finally:
            for path, text in before.items():
                path.write_text(text)


def linked(one, other):
    """Links a file, or copies it where no link can be made."""
    try:
        os.link(one, other)
    except OSError:
        shutil.copy2(one, other)
