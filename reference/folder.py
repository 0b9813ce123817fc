"""Files of a folder, and the ends of a run."""

import fcntl
import os
import stat

from text import Fault

MAXIMUM_PIECE = 65_536


class Stop(Exception):
    """The run ends with a code and a text."""

    def __init__(self, code: int, text: str):
        super().__init__(text)
        self.code, self.text = code, text


class Failed(Exception):
    """A call of the folder failed; the text is what is said of it besides."""


class Folder:
    """The current folder, with files of other paths in the place of some. It has a file open, and itself while it is locked."""

    def __init__(self, paths: dict[str, str | None] | None = None):
        self.paths = paths or {}
        self.file = self.folder = -1

    def close(self):
        """Closes both, which unlocks the folder."""
        for descriptor in (self.file, self.folder):
            if descriptor >= 0:
                os.close(descriptor)
        self.file = self.folder = -1

    def size(self, name: str) -> int | None:
        """The length of a file, None if there is none. It is open then. One that an option names has to be there."""
        self.close()
        path = self.paths.get(name, name)
        if path is None:
            return None
        try:
            self.file = os.open(path, os.O_RDONLY | os.O_NONBLOCK | os.O_CLOEXEC)
        except FileNotFoundError:
            if name in self.paths:
                raise Stop(14, f"{name} is missing")
            return None
        except OSError:
            raise Failed
        status = self.call(os.fstat, self.file)
        if not stat.S_ISREG(status.st_mode):
            raise Failed
        return status.st_size

    def read(self, _name: str, offset: int, most: int) -> bytes:
        """Bytes of the file whose length was asked last."""
        return self.call(os.pread, self.file, most, offset)

    def create(self, name: str):
        """Locks the folder, removes what has the name, and makes a file. It is open then."""
        self.close()
        self.folder = self.call(os.open, ".", os.O_RDONLY | os.O_CLOEXEC)
        try:
            fcntl.flock(self.folder, fcntl.LOCK_EX | fcntl.LOCK_NB)
        except BlockingIOError:
            self.close()
            raise Failed("\naddrman: the folder is in use: another program is saving there")
        if os.path.lexists(name):
            self.call(os.unlink, name)
        flags = os.O_WRONLY | os.O_CREAT | os.O_EXCL | os.O_CLOEXEC
        self.file = self.call(os.open, name, flags, 0o600 if name == "peers.tmp" else 0o666)

    def append(self, _name: str, data: bytes):
        """Writes bytes to the file that was created last."""
        while data:
            data = data[self.call(os.write, self.file, data):]

    def sync(self, _name: str):
        """Syncs the file that was created last."""
        self.call(os.fsync, self.file)

    def rename(self, source: str, target: str):
        """Renames a file."""
        self.call(os.rename, source, target)

    def sync_folder(self):
        """Syncs the folder itself, and unlocks it."""
        self.call(os.fsync, self.folder)
        self.close()

    def call(self, function, *arguments):
        """Calls the system; raises Failed, after which the folder is unlocked."""
        try:
            return function(*arguments)
        except OSError:
            self.close()
            raise Failed


def read_file(folder: Folder, name: str, maximum: int) -> bytes | None:
    """The bytes of a file, None if there is none; raises Fault and Failed."""
    size = folder.size(name)
    if size is None:
        return None
    if size > maximum:
        raise Fault("too-large")
    data = bytearray()
    while piece := folder.read(name, len(data), MAXIMUM_PIECE):
        data += piece
    return bytes(data)


def publish(folder: Folder, temporary: str, name: str):
    """Puts a file that is written in its place; raises Failed."""
    folder.sync(temporary)
    folder.rename(temporary, name)
    folder.sync_folder()


def write_file(folder: Folder, temporary: str, name: str, data: bytes):
    """Writes a file and puts it in its place; raises Failed."""
    folder.create(temporary)
    folder.append(temporary, data)
    publish(folder, temporary, name)
