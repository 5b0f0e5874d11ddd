"""What the checks of a crate keep of what they proved."""
import os
import shutil
import tempfile


class Kept:
    """Folders in which checks of one crate keep what they proved, each for one check at a time. Where none is free, there is a
    copy of what the first check kept. It has hard links, since a check replaces a file and never writes into it."""

    def __init__(self):
        self.room = tempfile.mkdtemp()
        self.first, self.free, self.made = None, [os.path.join(self.room, "0")], 0
        os.mkdir(self.free[0])

    def take(self):
        if self.free:
            return self.free.pop()
        return self.copy(self.first)

    def give(self, folder):
        self.first = self.first or self.copy(folder)
        self.free.append(folder)

    def copy(self, folder):
        self.made += 1
        return shutil.copytree(folder, os.path.join(self.room, str(self.made)), copy_function=os.link)

    def end(self):
        shutil.rmtree(self.room)
