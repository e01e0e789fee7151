"""Files that are their owner's alone: a folder by one descriptor whose files are replaced as a whole, and files of passwords.

After a crash of the machine the old file is there, or the new one. No symbolic link in such a folder is followed, so nobody can
let a node write elsewhere; and a folder or a password that others may read or write is refused.
"""

from __future__ import annotations

import contextlib
import errno
import os
import stat
from collections.abc import Iterator
from pathlib import Path

from .node_errors import BadStore

# The rights that nobody but the owner may have.
OTHERS = stat.S_IRWXG | stat.S_IRWXO
# The folder in which systemd hands credentials to a unit. It alone may read them, by rights beside those of their owner.
CREDENTIALS = "CREDENTIALS_DIRECTORY"
# The name of a file that is not whole yet.
FRESH = "fresh"


@contextlib.contextmanager
def with_path(path: Path) -> Iterator[None]:
    """Lets an OSError, such as that of a full disk, tell this path."""
    try:
        yield
    except OSError as error:
        if error.errno == errno.ELOOP:
            raise BadStore(f"{path} is a symbolic link, and none is followed: put the file itself there") from None
        if error.errno is not None:
            raise OSError(error.errno, error.strerror, str(path)) from None
        raise


class Folder:
    """A folder of files that its owner alone may read and write."""

    def __init__(self, path: str | os.PathLike[str]) -> None:
        """Makes the folder if it is missing. Raises BadStore if others may enter it, and OSError."""
        self.path = Path(path)
        self.path.mkdir(mode=0o700, parents=True, exist_ok=True)
        with with_path(self.path):
            self._number = os.open(self.path, os.O_RDONLY | os.O_DIRECTORY | os.O_CLOEXEC)
        if os.fstat(self._number).st_mode & OTHERS:
            self.close()
            raise BadStore(f"others may read or write {self.path}, which has what a node goes by: chmod 700 {self.path}")

    def close(self) -> None:
        """Lets go of the folder."""
        number, self._number = self._number, -1
        if number >= 0:
            os.close(number)

    def open(self, name: str, flags: int) -> int:
        """A file of the folder, made for its owner alone if the flags say so. Raises BadStore for a link, and OSError."""
        with with_path(self.path / name):
            return os.open(name, flags | os.O_NOFOLLOW | os.O_CLOEXEC, 0o600, dir_fd=self._number)

    def names(self) -> list[str]:
        """The names of the files. Raises OSError."""
        return sorted(os.listdir(self._number))

    def read(self, name: str) -> bytes | None:
        """What a file has, None if there is no such file. Raises BadStore for a link, and OSError."""
        try:
            opened = self.open(name, os.O_RDONLY)
        except FileNotFoundError:
            return None
        with with_path(self.path / name), os.fdopen(opened, "rb") as file:
            return file.read()

    def replace(self, name: str, data: bytes) -> None:
        """Replaces a file. Once this returns, a crash of the machine leaves the new one. Raises OSError with the path."""
        with with_path(self.path / name):
            # What a crash left, or a link that somebody put there, goes.
            with contextlib.suppress(FileNotFoundError):
                os.unlink(FRESH, dir_fd=self._number)
            with os.fdopen(self.open(FRESH, os.O_WRONLY | os.O_CREAT | os.O_EXCL), "wb") as file:
                file.write(data)
                file.flush()
                os.fsync(file.fileno())
            os.replace(FRESH, name, src_dir_fd=self._number, dst_dir_fd=self._number)
            os.fsync(self._number)


def read_password(path: str) -> str:
    """The first line of a file of a password. Raises OSError, also if others may read or write it, or if it is a link."""
    try:
        opened = os.open(path, os.O_RDONLY | os.O_NOFOLLOW | os.O_CLOEXEC)
    except OSError as error:
        if error.errno == errno.ELOOP:
            raise OSError(errno.ELOOP, "it is a symbolic link, and none is followed", path) from None
        raise
    with os.fdopen(opened) as file:
        if os.fstat(opened).st_mode & OTHERS and not _is_credential(path):
            raise PermissionError(errno.EACCES, f"others may read or write it: chmod 600 {path}", path)
        return file.read().partition("\n")[0]


def _is_credential(path: str) -> bool:
    """Whether systemd has handed the file to this unit alone."""
    folder = os.environ.get(CREDENTIALS, "")
    return bool(folder) and Path(path).resolve().is_relative_to(Path(folder).resolve())
