"""Files that are read as they were when they were opened, and files that take their places once they are complete."""

from __future__ import annotations

import contextlib
import errno
import fcntl
import itertools
import os
import stat
from collections.abc import Iterator
from typing import NamedTuple, Optional, Union

Name = Union[str, os.PathLike]

# What the system answers if a file system has no hard links, no locks, or no syncing.
LACKING = {
    errno.EPERM, errno.EXDEV, errno.EMLINK, errno.ENOSYS, errno.ENOTSUP, errno.EOPNOTSUPP, errno.EINVAL, errno.ENOLCK
}
# A read by the system takes less than 2^31 bytes.
READ = 1 << 30
# How much is compared of what was whole of a file, at each end, and how far from its end a mark is looked for.
EDGE = 1 << 12
FAR = 1 << 26


class RecordingChanged(OSError):
    """A recording that isn't what it was when it was opened: its file has shrunk, or was written over."""


class _Seen(NamedTuple):
    """What is seen of a file: its size, where its last whole part ends, and the first and the last bytes before."""

    size: int
    whole: int
    edges: tuple[bytes, bytes]


class Reading:
    """A file that is read at any place, as it was when it was opened.

    What is appended later isn't seen until refresh. What stands after the last whole part may be a part that is being
    written, or was torn, and be cut off: that isn't a change. The file is closed once nobody uses it, so that no thread
    reads from another file that got its number.
    """

    def __init__(self, path: Name, mark: bytes) -> None:
        """Opens a file, each part of which ends with a mark. Raises OSError if it can't be opened, or can't be read at
        any place, as a pipe."""
        self._number = -1
        self.path = os.fsdecode(path)
        self._mark = mark
        with naming(self.path):
            check_regular(path)
            self._number = os.open(path, os.O_RDONLY | os.O_CLOEXEC)
        opened = os.fstat(self._number)
        # Set as one, since threads read meanwhile.
        self._seen = self._see(opened.st_size, 0)
        self._changed = opened.st_ctime_ns

    def __del__(self) -> None:
        if self._number >= 0:
            os.close(self._number)

    @property
    def size(self) -> int:
        """How many bytes are seen of it."""
        return self._seen.size

    @property
    def whole(self) -> int:
        """How many of these are of whole parts, as far as their marks say."""
        return self._seen.whole

    def is_of(self, made: os.stat_result) -> bool:
        """Whether this is the file that was found so."""
        return os.path.samestat(os.fstat(self._number), made)

    def refresh(self) -> None:
        """Sees what was appended since. Raises RecordingChanged if what was whole of it isn't as it was."""
        seen = self._seen
        # What stood there before is compared after what is new was read, which is of the same file then.
        new = self._see(os.fstat(self._number).st_size, seen.whole)
        self._look(os.fstat(self._number), seen)
        self._seen = new

    def settle(self, end: int) -> None:
        """Takes no more than so many bytes as whole, whatever their marks say. Raises RecordingChanged as read does."""
        seen = self._seen
        if end < seen.whole:
            new = _Seen(seen.size, end, self._read_edges(end))
            self._look(os.fstat(self._number), seen)
            self._seen = new

    def read(self, start: int, end: int) -> bytes:
        """The bytes from start to end, both within its size. Raises RecordingChanged if the file isn't as it was."""
        # What was seen before the file is looked at, since another thread may refresh meanwhile.
        seen = self._seen
        data = self.peek(start, end)
        # The time goes by with each change, also with one that only adds to the file: then its edges are as they were.
        now = os.fstat(self._number)
        if now.st_size < seen.whole or now.st_ctime_ns != self._changed:
            self._look(now, seen)
        if len(data) < end - start:
            raise RecordingChanged(errno.ESTALE, "it has no more bytes, where it had some", self.path)
        return data

    def peek(self, start: int, end: int) -> bytes:
        """The bytes from start to end as they are now, or as many as there are."""
        parts = []
        while start < end:
            data = os.pread(self._number, min(end - start, READ), start)
            if not data:
                break
            parts.append(data)
            start += len(data)
        return b"".join(parts)

    def _look(self, now: os.stat_result, seen: _Seen) -> None:
        """Looks at a file that was changed since that was seen."""
        if now.st_size < seen.whole:
            raise RecordingChanged(
                errno.ESTALE, f"it has shrunk from {seen.size} to {now.st_size} bytes since it was opened", self.path
            )
        if self._read_edges(seen.whole) != seen.edges:
            raise self.written_over()
        self._changed = now.st_ctime_ns

    def written_over(self) -> RecordingChanged:
        """The error of a file that holds other bytes than it did."""
        return RecordingChanged(errno.ESTALE, "it was written over since it was opened", self.path)

    def _see(self, size: int, whole: int) -> _Seen:
        """What is seen of so many bytes, of which the first are known to be whole."""
        whole = self._end_of_whole(size, whole)
        return _Seen(size, whole, self._read_edges(whole))

    def _end_of_whole(self, size: int, whole: int) -> int:
        """Where the last mark ends in so many bytes, the first of which are whole; their own end if it is far off."""
        start, step = size, EDGE
        while start > whole and size - start < FAR:
            end, start, step = start + len(self._mark) - 1, max(whole, start - step), 2 * step
            place = self.peek(start, min(end, size)).rfind(self._mark)
            if place >= 0:
                return start + place + len(self._mark)
        return whole if start <= whole else size

    def _read_edges(self, size: int) -> tuple[bytes, bytes]:
        """The first and the last of so many bytes."""
        edge = min(EDGE, size)
        return os.pread(self._number, edge, 0), os.pread(self._number, edge, size - edge)


def write_all(number: int, data: Union[bytes, memoryview]) -> None:
    """Writes all bytes to a descriptor, however few the system takes at a time."""
    left = memoryview(data)
    while len(left) > 0:
        taken = os.write(number, left)
        if taken == 0:
            raise OSError(errno.EIO, "nothing more was taken")
        left = left[taken:]


def is_same(one: Name, other: Name) -> bool:
    """Whether two names are of one file, by its device and inode; or the same name, where there is no file."""
    try:
        return os.path.samefile(one, other)
    except OSError:
        return os.path.realpath(one) == os.path.realpath(other)


class NewFile:
    """A file that is made beside its place, and takes it once it is complete.

    Until then it is PATH.part, or PATH.part.1, .. where that name is taken, and what stands at PATH is as it was. An
    existing file is replaced only if that is asked for: by a rename, so that programs that have it open can go on
    reading it. The new one has its permissions, and a link to it stays one. A file that may not be written isn't
    replaced, nor one of which another program holds a lock (flock). A pipe or a device is written to where it is.

        with NewFile(path, replace) as file:
            file.write(data)

    If the block raises an error, nothing is left of the new file.
    """

    def __init__(self, path: Name, replace: bool = False) -> None:
        """Makes the file beside. Raises FileExistsError if there is a file at PATH that isn't to be replaced."""
        self.path = os.fsdecode(path)
        self.part: Optional[str] = None
        self.number = -1
        self.count = 0
        self.earlier = 0
        # Of a name that begins at the working folder, which may change meanwhile.
        self._place = self.path if os.path.isabs(self.path) else os.path.join(os.getcwd(), self.path)
        self._replace = replace
        with self.named():
            self._make()

    def _make(self) -> None:
        earlier = None
        if os.path.lexists(self._place):
            if not self._replace:
                raise FileExistsError(errno.EEXIST, os.strerror(errno.EEXIST))
            if os.path.exists(self._place):
                earlier = os.stat(self._place)
        if earlier is not None and not stat.S_ISREG(earlier.st_mode):
            self.number = os.open(self._place, os.O_WRONLY | os.O_CLOEXEC)
        else:
            self._place = os.path.realpath(self._place)
            self._make_beside(earlier)
        self._made = os.fstat(self.number)

    def _make_beside(self, earlier: Optional[os.stat_result]) -> None:
        """Makes the file, with the owner and the permissions of an earlier one."""
        if earlier is None:
            self.part, self.number = self._beside(0o666)
            return
        os.close(open_locked(self._place))
        self.earlier = earlier.st_size
        mode = stat.S_IMODE(earlier.st_mode)
        self.part, self.number = self._beside(mode)
        made = os.fstat(self.number)
        if (made.st_uid, made.st_gid) != (earlier.st_uid, earlier.st_gid):
            with contextlib.suppress(OSError):
                os.fchown(self.number, earlier.st_uid, earlier.st_gid)
        with contextlib.suppress(OSError):
            os.fchmod(self.number, mode)

    def _beside(self, mode: int) -> tuple[str, int]:
        """A new file of a name that nobody has."""
        for count in itertools.count():
            part = f"{self._place}.part{f'.{count}' if count > 0 else ''}"
            with contextlib.suppress(FileExistsError):
                return part, os.open(part, os.O_WRONLY | os.O_CREAT | os.O_EXCL | os.O_CLOEXEC, mode)
        raise AssertionError("there is always another number")

    def named(self) -> contextlib.AbstractContextManager[None]:
        """Gives an error of the system the name that the caller gave the file."""
        return naming(self.path)

    def write(self, data: Union[bytes, memoryview]) -> None:
        """Appends bytes."""
        with self.named():
            write_all(self.number, data)
        self.count += len(data)

    def sync(self) -> None:
        """Syncs the file and closes it, so that it only is to be put into its place."""
        with self.named():
            sync(self.number)
            self._close()

    def finish(self) -> None:
        """Puts the file into its place, synced. If that can't be, the file is PATH.part as before."""
        if self.number >= 0:
            self.sync()
        if self.part is None:
            return
        with self.named():
            if self._replace:
                self._rename()
            else:
                self._link()
            self.part = None
            sync_folder(os.path.dirname(self._place))

    def _rename(self) -> None:
        number = open_locked(self._place) if os.path.exists(self._place) else -1
        try:
            os.rename(self.part, self._place)
        finally:
            if number >= 0:
                os.close(number)

    def _link(self) -> None:
        """Takes the place if it is still free."""
        try:
            os.link(self.part, self._place)
        except OSError as error:
            if error.errno not in LACKING:
                raise
        else:
            os.unlink(self.part)
            return
        # The place is taken by an empty file, which none but this has made, and that is replaced.
        number = os.open(self._place, os.O_WRONLY | os.O_CREAT | os.O_EXCL | os.O_CLOEXEC)
        try:
            os.rename(self.part, self._place)
        except BaseException:
            if os.path.samestat(os.fstat(number), os.stat(self._place)):
                os.unlink(self._place)
            raise
        finally:
            os.close(number)

    def keep(self, count: int) -> Optional[str]:
        """Ends with the first bytes in the file beside, and answers its name; None if there is none."""
        if self.number >= 0 and self.part is not None:
            with contextlib.suppress(OSError):
                os.ftruncate(self.number, count)
        self._close()
        return self.part if self.part is not None and is_at(self.part, self._made) else None

    def drop(self) -> None:
        """Removes the file beside."""
        self._close()
        if self.part is not None and is_at(self.part, self._made):
            os.unlink(self.part)

    def remove(self) -> None:
        """Removes the file, also if it is in its place already."""
        self.drop()
        if stat.S_ISREG(self._made.st_mode) and is_at(self._place, self._made):
            os.unlink(self._place)

    def _close(self) -> None:
        number, self.number = self.number, -1
        if number >= 0:
            os.close(number)

    def __enter__(self) -> NewFile:
        return self

    def __exit__(self, kind: object, *error: object) -> None:
        try:
            if kind is None:
                self.finish()
        finally:
            self.drop()


class GrowingFile:
    """A file at its place, to which bytes are appended, and which others may read meanwhile.

    It is a new one, or, only if that is asked for, one that is there. It is locked (flock) until it is closed, as
    `jlsrec record` does.
    """

    def __init__(self, path: Name, append: bool = False) -> None:
        """Makes the file. With append the one that is there is opened, if there is one, to go on at its end.

        Raises FileExistsError if there is one and append isn't set, BlockingIOError if another program holds its lock,
        and another OSError if it isn't a regular file or may not be written.
        """
        self._number = -1
        self.path = os.fsdecode(path)
        # Of a name that begins at the working folder, which may change meanwhile.
        self._place = os.path.abspath(self.path)
        with naming(self.path):
            self._number = self._open() if append else -1
            # Whether it was made here.
            self.is_new = self._number < 0
            if self.is_new:
                self._number = os.open(self._place, os.O_WRONLY | os.O_CREAT | os.O_EXCL | os.O_CLOEXEC, 0o666)
                lock(self._number)
            self.made = os.fstat(self._number)
            # How many bytes it has, and whether others may stand after them that weren't written whole.
            self.count = os.lseek(self._number, 0, os.SEEK_END)
            self._is_torn = False

    def _open(self) -> int:
        """Opens the file that is there, locked; -1 if there is none. If it was replaced meanwhile, the other one is opened."""
        while True:
            try:
                check_regular(self._place)
                number = open_locked(self._place)
            except FileNotFoundError:
                return -1
            if is_at(os.path.realpath(self._place), os.fstat(number)):
                return number
            os.close(number)

    def __del__(self) -> None:
        self._close()

    def check(self) -> None:
        """Raises RecordingChanged if another program has changed the size of the file: it can't be gone on with then."""
        if not self._is_torn and os.fstat(self._number).st_size != self.count:
            raise RecordingChanged(errno.ESTALE, "another program has changed its size", self.path)

    def append(self, data: bytes) -> None:
        """Appends bytes, all or none."""
        if self._is_torn:
            self.cut(self.count)
        self._is_torn = True
        try:
            with naming(self.path):
                write_all(self._number, data)
        except BaseException:
            self.cut(self.count)
            raise
        self.count += len(data)
        self._is_torn = False

    def cut(self, count: int) -> None:
        """Ends the file after the first bytes. If the system refuses that, the next bytes come there, or sync does it."""
        self.count, self._is_torn = count, True
        with contextlib.suppress(OSError):
            os.lseek(self._number, count, os.SEEK_SET)
            os.ftruncate(self._number, count)
            self._is_torn = False

    def sync(self) -> None:
        """Waits until the bytes, and the file's name, are on the disk."""
        with naming(self.path):
            if self._is_torn and os.fstat(self._number).st_size > self.count:
                os.ftruncate(self._number, self.count)
            self._is_torn = False
            sync(self._number)
            sync_folder(os.path.dirname(self._place))

    def close(self) -> None:
        """Syncs the file and closes it."""
        try:
            self.sync()
        finally:
            self._close()

    def drop(self) -> None:
        """Closes the file, and removes it if it was made here."""
        self._close()
        if self.is_new and is_at(self._place, self.made):
            os.unlink(self._place)

    def _close(self) -> None:
        number, self._number = self._number, -1
        if number >= 0:
            os.close(number)


@contextlib.contextmanager
def naming(path: str) -> Iterator[None]:
    """Gives an error of the system the name that the caller gave a file."""
    try:
        yield
    except OSError as error:
        if error.errno is None:
            raise
        raise OSError(error.errno, error.strerror, path) from None


def check_regular(path: Name) -> None:
    """Raises OSError if what is at a path isn't a regular file.

    It is looked at before it is opened, since the opening and closing of a pipe would end what writes to it.
    """
    mode = os.stat(path).st_mode
    if stat.S_ISDIR(mode):
        raise IsADirectoryError(errno.EISDIR, os.strerror(errno.EISDIR))
    if not stat.S_ISREG(mode):
        raise OSError(errno.ESPIPE, "not a regular file")


def lock(number: int) -> None:
    """Locks a file, where its file system can do that. Raises BlockingIOError if another holds the lock."""
    try:
        fcntl.flock(number, fcntl.LOCK_EX | fcntl.LOCK_NB)
    except BlockingIOError as error:
        raise BlockingIOError(error.errno, "another program is writing it") from None
    except OSError as error:
        if error.errno not in LACKING:
            raise


def open_locked(place: str) -> int:
    """Opens an existing file to write it, and locks it.

    Raises OSError if it may not be written or isn't a regular file any more, and BlockingIOError if another holds its lock.
    """
    number = os.open(place, os.O_WRONLY | os.O_NONBLOCK | os.O_CLOEXEC)
    try:
        if not stat.S_ISREG(os.fstat(number).st_mode):
            raise OSError(errno.EEXIST, "not a regular file any more")
        lock(number)
    except BaseException:
        os.close(number)
        raise
    return number


def is_at(path: str, made: os.stat_result) -> bool:
    """Whether the file that was made is at a path."""
    try:
        return os.path.samestat(os.lstat(path), made)
    except FileNotFoundError:
        return False


def sync(number: int) -> None:
    """Syncs a file, where its file system can do that."""
    try:
        os.fsync(number)
    except OSError as error:
        if error.errno not in LACKING:
            raise


def sync_folder(path: str) -> None:
    """Syncs a folder, so that a name in it is on the disk. One that may not be read is left to the system."""
    try:
        number = os.open(path, os.O_RDONLY | os.O_DIRECTORY | os.O_CLOEXEC)
    except PermissionError:
        return
    try:
        sync(number)
    finally:
        os.close(number)
