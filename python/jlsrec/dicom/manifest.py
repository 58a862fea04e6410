"""OUT/manifest.jsonl: a line of JSON for each file, after one that says what it is.

Lines are only added. A file that was compressed or copied stays so, whatever a later run that failed says of it; else
its last line holds. A last line that has no end was torn, and is cut off by the next run.
"""

from __future__ import annotations

import contextlib
import errno
import fcntl
import json
import os
import secrets
import time
from collections.abc import Iterator
from typing import Any, Optional

from .._files import sync_folder, write_all
from . import Refused
from .places import shown

NAME = b"manifest.jsonl"
FORMAT = "jlsrec-dicom 1"
# What has a file in OUT.
KEPT = ("compressed", "copied")
# No file has so many bytes.
MOST_BYTES = 1 << 63
# What failed once and isn't in the tree any more: as if it had no line.
GONE = "gone"


def named(path: bytes) -> dict[str, str]:
    """A name in a line: as it is, or in hexadecimal if it isn't UTF-8."""
    try:
        return {"path": path.decode("utf-8")}
    except UnicodeDecodeError:
        return {"path_hex": path.hex()}


def path_in(line: dict[str, Any]) -> bytes:
    """The name in a line. Raises Refused if it leads out of a tree."""
    path = bytes.fromhex(line["path_hex"]) if "path_hex" in line else line["path"].encode("utf-8")
    names = path.split(b"/")
    if b"" in names or b"." in names or b".." in names or b"\0" in path:
        raise Refused(f"the manifest names a file outside of OUT: {shown(path)}")
    return path


def row_of(line: dict[str, Any]) -> bytes:
    """The bytes of a line, without its end."""
    return json.dumps(line).encode()


def _check(line: dict[str, Any]) -> None:
    """Raises KeyError, TypeError or ValueError if a line lacks what it is to have."""
    words, numbers = ["state"], []
    if line["state"] in KEPT:
        words += ["sha256", "sha256_before"]
        numbers = ["bytes_before", "bytes_after", "mtime_ns"]
    if line["state"] == "compressed":
        words += ["sha256_values", "syntax", "pixel_vr"]
    if line["state"] in ("copied", "failed", "left"):
        words.append("why")
    if not all([isinstance(line[word], str) for word in words]) or not all([type(line[n]) is int for n in numbers]):
        raise TypeError
    if numbers and not (0 <= line["bytes_before"] < MOST_BYTES and 0 <= line["bytes_after"] < MOST_BYTES):
        raise ValueError
    if line["state"] == "link":
        bytes.fromhex(line["to_hex"])


def token_in(out: bytes) -> Optional[str]:
    """What the manifest of a folder is known by, if there is one."""
    try:
        with open(os.path.join(out, NAME), "rb") as file:
            return _token(file.readline(4096))
    except OSError:
        return None


def _lacking(out: bytes) -> str:
    """What is said of a folder without a manifest."""
    above = os.path.dirname(out)
    while above != os.path.dirname(above):
        if token_in(above) is not None:
            return f"there is no manifest; {shown(above)} has one, and is the OUT of this folder"
        above = os.path.dirname(above)
    return "there is no manifest: no tree was compressed into it"


def time_in(out: bytes) -> float:
    """The time, by this machine's clock or that of OUT's file system, whichever is behind.

    A run sets the manifest's time when it begins, and each line that it adds does: so that is at most the time now.
    """
    try:
        return min(time.time(), os.stat(os.path.join(out, NAME)).st_mtime)
    except OSError:
        return 0.0


def _token(line: bytes) -> Optional[str]:
    try:
        heading = json.loads(line)
    except (ValueError, RecursionError):
        return None
    is_ours = isinstance(heading, dict) and heading.get("format") == FORMAT
    return heading.get("token") if is_ours else None


def _is_torn_heading(data: bytes, whole: int) -> bool:
    """Whether a file is empty, or a first line that was torn: cut off, with zeros behind it perhaps."""
    heading = json.dumps({"format": FORMAT, "token": ""})[:-2].encode()
    return whole == 0 and heading.startswith(data.rstrip(b"\0")[: len(heading)])


class Manifest:
    """The manifest of a folder, locked: for one that writes, or for any number that read."""

    def __init__(self, out: bytes, writes: bool) -> None:
        """Opens the manifest. One that writes makes it in an empty folder, and cuts a torn line off."""
        self.path = os.path.join(out, NAME)
        self.is_new = False
        # Whether the last line may be torn, so that none may follow it.
        self._is_torn = False
        flags = os.O_RDWR | os.O_APPEND if writes else os.O_RDONLY
        try:
            self.number = os.open(self.path, flags | os.O_CLOEXEC | os.O_NOFOLLOW)
        except FileNotFoundError:
            if not writes:
                raise Refused(f"{shown(out)}: {_lacking(out)}") from None
            self.is_new = True
            if set(os.listdir(out)) - {b"lost+found"}:
                raise Refused(f"{shown(out)}: it has files, and no manifest: compress wants an empty folder") from None
            self.number = os.open(self.path, flags | os.O_CREAT | os.O_CLOEXEC | os.O_NOFOLLOW, 0o666)
        try:
            self._lock(out, fcntl.LOCK_EX if writes else fcntl.LOCK_SH)
            self.size = self._begin() if writes else self._whole()
            with open(self.path, "rb") as file:
                self.token = _token(file.readline(4096))
            if self.token is None:
                raise Refused(f"{shown(self.path)}: it is no manifest of jlsrec-dicom")
        except BaseException:
            os.close(self.number)
            raise
        self.synced = time.monotonic()

    def _lock(self, out: bytes, how: int) -> None:
        try:
            fcntl.flock(self.number, how | fcntl.LOCK_NB)
        except BlockingIOError:
            raise Refused(f"{shown(out)}: another run is at work on it") from None
        except OSError as error:
            raise Refused(f"{shown(out)}: its file system has no locks: {error.strerror}") from None

    def _whole(self) -> int:
        """How many bytes are whole lines."""
        size = os.fstat(self.number).st_size
        at = size
        while at > 0:
            start = max(at - 65536, 0)
            found = os.pread(self.number, at - start, start).rfind(b"\n")
            if found >= 0:
                return start + found + 1
            at = start
        return 0

    def _begin(self) -> int:
        """Cuts off what was torn, and writes the first line if there is none."""
        size, whole = os.fstat(self.number).st_size, self._whole()
        front = os.pread(self.number, 4096, 0)
        # A first line may be torn too; any other file of this name isn't touched.
        if _token(front.partition(b"\n")[0]) is None and not _is_torn_heading(front, whole):
            raise Refused(f"{shown(self.path)}: it is no manifest of jlsrec-dicom")
        if whole < size:
            os.ftruncate(self.number, whole)
        if whole > 0:
            with contextlib.suppress(OSError):
                os.utime(self.number)
            return whole
        heading = json.dumps({"format": FORMAT, "token": secrets.token_hex(8)}).encode() + b"\n"
        write_all(self.number, heading)
        os.fsync(self.number)
        sync_folder(os.path.dirname(self.path))
        return len(heading)

    def lines(self) -> Iterator[dict[str, Any]]:
        """The lines, but for the first. Raises Refused for one that is damaged."""
        return (line for _, line in self.rows())

    def rows(self) -> Iterator[tuple[bytes, dict[str, Any]]]:
        """The same lines, each with its bytes."""
        with open(self.path, "rb") as file:
            at = len(file.readline())
            for number, row in enumerate(file, 2):
                at += len(row)
                if at > self.size:
                    return
                try:
                    line = json.loads(row)
                    path_in(line)
                    _check(line)
                except (ValueError, KeyError, TypeError, AttributeError, RecursionError):
                    raise Refused(
                        f"{shown(self.path)}: line {number} is damaged; without it its file is looked at anew"
                    ) from None
                yield row[:-1], line

    def last(self) -> dict[bytes, int]:
        """Which line holds for each file, by its number from 0."""
        last: dict[bytes, int] = {}
        kept: set[bytes] = set()
        for number, line in enumerate(self.lines()):
            path = path_in(line)
            if line["state"] in KEPT:
                kept.add(path)
            elif path in kept:
                continue
            if line["state"] == GONE:
                last.pop(path, None)
            else:
                last[path] = number
        return last

    def add(self, lines: list[dict[str, Any]]) -> None:
        """Adds lines, each whole or not at all. They are synced once a second, and by close."""
        data = b"".join(row_of(line) + b"\n" for line in lines)
        if self._is_torn:
            raise OSError(errno.EIO, os.strerror(errno.EIO))
        try:
            write_all(self.number, data)
        except OSError:
            self._is_torn = True
            os.ftruncate(self.number, self.size)
            self._is_torn = False
            raise
        self.size += len(data)
        if time.monotonic() - self.synced > 1:
            self.sync()

    def sync(self) -> None:
        """Syncs what was added."""
        os.fsync(self.number)
        self.synced = time.monotonic()

    def close(self) -> None:
        """Lets go of the file and its lock."""
        os.close(self.number)
