"""A stored body on its way to its files: nothing gets its name before it is known to be right."""
import errno
import os
import shutil

from cachelib.unpack import unpack

PART = "part"
ALTERNATIVE = ".alt"
UNPACKED = ".unpacked"


def new_file(path):
    """A file that was not there before, and that only its owner reads: a cache tells where its user has been."""
    return open(path, "xb", opener=lambda name, flags: os.open(name, flags, 0o600))


class Bodies:
    """The files of bodies in a folder. The stored body that comes in is `part`, and what is made of it `part.alt` and
    the like.
    """

    def __init__(self, folder):
        self.part = os.path.join(folder, PART)
        self.file = None

    def begin(self, _name=None):
        """What takes the next body, piece by piece. One that was not kept is dropped."""
        self.drop()
        self.file = new_file(self.part)
        return self.file.write

    def end(self, alternative_at=None):
        """The body has come whole. What comes after its main body is a file of its own from now on."""
        self.file.close()
        if alternative_at is None:
            return
        with open(self.part, "r+b") as part, new_file(self.part + ALTERNATIVE) as rest:
            part.seek(alternative_at)
            shutil.copyfileobj(part, rest)
            part.truncate(alternative_at)

    def keep(self, path):
        """Gives the body this path, and the alternative data one beside it."""
        if os.path.lexists(self.part + ALTERNATIVE):
            self.name(self.part + ALTERNATIVE, path + ALTERNATIVE)
        self.name(self.part, path)

    def name(self, part, path):
        # A name that was given never stands for another body.
        if os.path.lexists(path):
            raise FileExistsError(errno.EEXIST, os.strerror(errno.EEXIST), path)
        os.rename(part, path)

    def unpack(self, encodings):
        """Unpacks the main body, which is all that is left of what came in."""
        with open(self.part, "rb") as packed, new_file(self.part + UNPACKED) as out:
            unpack(encodings, packed, out)
        os.replace(self.part + UNPACKED, self.part)

    def drop(self):
        """Removes what has no name."""
        if self.file:
            self.file.close()
        for end in ("", ALTERNATIVE, UNPACKED):
            if os.path.lexists(self.part + end):
                os.remove(self.part + end)
