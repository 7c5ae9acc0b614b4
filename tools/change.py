"""A change of many files and folders that happens whole or not at all."""
import contextlib
import fcntl
import os
import shutil

from library import Refused


class Change:
    """What is to be put into places, or out of them. All of it lies in a room on the same disk first, so that renames are enough."""

    def __init__(self, room):
        self.room, self.planned, self.done, self.made = room, [], [], []

    def write(self, place, data):
        """Plans a file of these bytes."""
        new = self.room / f"new-{len(self.planned)}"
        new.write_bytes(data)
        self.put(place, new)

    def put(self, place, new):
        """Plans that a file or folder of the room comes to a place; None in its stead leaves the place empty."""
        self.planned.append((place, new))

    def carry_out(self):
        """Does what is planned. Where something of it can't be done, what was there before comes back."""
        try:
            for number, (place, new) in enumerate(self.planned):
                self.make_folder(place.parent)
                self.step(place, new, self.room / f"was-{number}")
        except BaseException:
            self.undo()
            raise

    def make_folder(self, folder):
        if not folder.is_dir():
            self.make_folder(folder.parent)
            self.made.append(folder)
            folder.mkdir()

    def step(self, place, new, was):
        had = os.path.lexists(place)
        self.done.append((place, was, had))
        if had:
            place.rename(was)
        if new:
            new.rename(place)

    def undo(self):
        for place, was, had in reversed(self.done):
            if had != os.path.lexists(was):
                continue
            if place.is_dir():
                shutil.rmtree(place)
            elif os.path.lexists(place):
                place.unlink()
            if had:
                was.rename(place)
        for folder in reversed(self.made):
            with contextlib.suppress(OSError):
                folder.rmdir()


@contextlib.contextmanager
def held(top, names):
    """Keeps `rt` out of these crates of a repository, as far as they are there, and refuses where it is at work in one."""
    with contextlib.ExitStack() as stack:
        for name in names:
            if not (top / "crates" / name).is_dir():
                continue
            folder = os.open(top / "crates" / name, os.O_RDONLY)
            stack.callback(os.close, folder)
            try:
                fcntl.flock(folder, fcntl.LOCK_EX | fcntl.LOCK_NB)
            except BlockingIOError:
                raise Refused(f"rt is at work in crates/{name}: try again when it has ended")
        yield
