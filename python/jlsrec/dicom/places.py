"""Files of a tree that are only read, and files that take their places once they are complete.

Names are bytes, whatever they hold.
"""

from __future__ import annotations

import contextlib
import errno
import os
import re
import secrets
import stat
from collections.abc import Iterator
from typing import Optional

from .._files import LACKING, sync_folder, write_all

CHUNK = 1 << 20
# The names of files that aren't whole yet. One of an ended run may be removed.
PART = re.compile(rb"\.jlsrec-[0-9a-f]{16}\.part")


class Changed(Exception):
    """Why a file can't be had: it is changed while it is read."""


class Taken(Exception):
    """Why a file can't be put in its place: there is another one."""


class Source:
    """A file that is only read, and that must stay what it was when it was opened."""

    def __init__(self, path: bytes) -> None:
        """Opens a file, without following a link. Raises OSError where it can't be opened or isn't a regular file."""
        self.path = path
        self.number = os.open(path, os.O_RDONLY | os.O_NOFOLLOW | os.O_NONBLOCK | os.O_CLOEXEC)
        self.stat = os.fstat(self.number)
        self.size = self.stat.st_size
        if not stat.S_ISREG(self.stat.st_mode):
            self.close()
            raise OSError(errno.EINVAL, "not a regular file")

    def __enter__(self) -> Source:
        return self

    def __exit__(self, *error: object) -> None:
        self.close()

    def close(self) -> None:
        """Lets go of the file."""
        number, self.number = self.number, -1
        if number >= 0:
            os.close(number)

    def read(self, at: int, count: int) -> bytes:
        """Exactly this number of bytes from a place on. Raises Changed if there are fewer."""
        data = os.pread(self.number, min(count, 1 << 30), at)
        if len(data) == count:
            return data
        parts = [data]
        while len(data) > 0 and count > len(data):
            at, count = at + len(data), count - len(data)
            data = os.pread(self.number, min(count, 1 << 30), at)
            parts.append(data)
        if len(data) < count:
            raise Changed("it ended early while it was read")
        return b"".join(parts)

    def chunks(self) -> Iterator[bytes]:
        """All bytes, one chunk after the other."""
        for at in range(0, self.size, CHUNK):
            yield self.read(at, min(CHUNK, self.size - at))

    def has_changed(self) -> bool:
        """Whether anything was done to the file since it was opened, also what leaves its bytes as they are."""
        now = os.fstat(self.number)
        return identity(now) != identity(self.stat) or now.st_ctime_ns != self.stat.st_ctime_ns

    def check(self) -> None:
        """Raises Changed if the file isn't what it was when it was opened, or another one has its name."""
        try:
            named = os.lstat(self.path)
        except FileNotFoundError:
            raise Changed("it was removed while it was read") from None
        for stat in (os.fstat(self.number), named):
            if identity(stat) != identity(self.stat):
                raise Changed("it changed while it was read")


def identity(of: os.stat_result) -> tuple[int, ...]:
    """What is another of a file that was changed."""
    return of.st_dev, of.st_ino, of.st_size, of.st_mtime_ns


class Part:
    """A file that is made beside its place, and is put there whole. It never takes the place of another file."""

    def __init__(self, place: bytes) -> None:
        """Makes the file beside, in a folder that must be there."""
        self.place = place
        self.path = os.path.join(os.path.dirname(place), b".jlsrec-%s.part" % secrets.token_hex(8).encode())
        self.number = os.open(self.path, os.O_RDWR | os.O_CREAT | os.O_EXCL | os.O_CLOEXEC, 0o600)

    def __enter__(self) -> Part:
        return self

    def __exit__(self, *error: object) -> None:
        """Removes the file if it isn't in its place."""
        self.close()
        with contextlib.suppress(FileNotFoundError):
            os.unlink(self.path)

    def close(self) -> None:
        """Lets go of the file."""
        number, self.number = self.number, -1
        if number >= 0:
            os.close(number)

    def write(self, data: bytes) -> None:
        """Appends bytes."""
        write_all(self.number, data)

    def write_at(self, at: int, data: bytes) -> None:
        """Writes bytes in the place of others."""
        while len(data) > 0:
            count = os.pwrite(self.number, data, at)
            at, data = at + count, data[count:]

    def sync(self, like: os.stat_result) -> None:
        """Syncs the file, with the owner, the permissions and the time of change of another one."""
        with contextlib.suppress(OSError):
            os.fchown(self.number, like.st_uid, like.st_gid)
        with contextlib.suppress(OSError):
            # It is read back, whoever reads the other one.
            os.fchmod(self.number, stat.S_IMODE(like.st_mode) & 0o777 | 0o400)
        os.utime(self.number, ns=(like.st_mtime_ns, like.st_mtime_ns))
        os.fsync(self.number)
        with contextlib.suppress(OSError):
            # What is read back then comes from the disk.
            os.posix_fadvise(self.number, 0, 0, os.POSIX_FADV_DONTNEED)
        self.close()

    def settle(self) -> None:
        """Puts the file in its place, and syncs the folder. Raises Taken if there is a file."""
        try:
            os.link(self.path, self.place, follow_symlinks=False)
        except FileExistsError:
            raise Taken from None
        except OSError as error:
            if error.errno not in LACKING:
                raise
            self._rename()
        sync_folder(os.path.dirname(self.place) or b".")

    def _rename(self) -> None:
        """Does it where there are no hard links: in the place of an empty file, which none but this has made."""
        try:
            os.close(os.open(self.place, os.O_WRONLY | os.O_CREAT | os.O_EXCL | os.O_CLOEXEC))
        except FileExistsError:
            raise Taken from None
        os.rename(self.path, self.place)


def make_folders(root: bytes, path: bytes) -> None:
    """Makes the folder root/path and those above it, each synced. None below root may be a link."""
    at = root
    for name in path.split(b"/") if path else []:
        above, at = at, os.path.join(at, name)
        try:
            os.mkdir(at)
            sync_folder(above)
        except FileExistsError:
            if not stat.S_ISDIR(os.lstat(at).st_mode):
                raise OSError(errno.ENOTDIR, os.strerror(errno.ENOTDIR), at) from None


def standing(place: bytes) -> Optional[os.stat_result]:
    """What is at a place, if anything is."""
    try:
        return os.lstat(place)
    except FileNotFoundError:
        return None


def shown(path: bytes) -> str:
    """A name as it can be printed."""
    text = path.decode("utf-8", "backslashreplace")
    return text if text.isprintable() else text.encode("unicode_escape").decode()
