"""What a verification has found right, so that the next one goes on if it is interrupted.

It is noted in OUT, in a file that is named after OUT's manifest. Its first line says of which OUT and of which TREE it
is; each other one names a file, with a sum of its line in the manifest and of what the system says of both files: where
one of these has changed since, the file is looked at again. The notes go once all was looked at.
"""

from __future__ import annotations

import contextlib
import fcntl
import hashlib
import json
import os
import sys
from collections.abc import Sequence
from typing import Any, Optional

from .._files import write_all
from . import Refused
from .manifest import named, path_in
from .places import shown, standing

FORMAT = "jlsrec-dicom verified 1"
# How long ago, in seconds, a file must have been changed: another change of the same moment couldn't be told from it.
SETTLED = 2.0

Line = dict[str, Any]


def is_settled(of: os.stat_result, now: float) -> bool:
    """Whether any change of a file from now on would be seen by its time."""
    return now - of.st_ctime > SETTLED


def stamp(line: Line, files: Sequence[os.stat_result]) -> str:
    """What is another where a file's line, the one of OUT or that of TREE has changed.

    A change sets the time of the inode, whatever it does to the time of the content. Devices have other numbers on
    other machines, and aren't looked at.
    """
    seen = [[of.st_ino, of.st_size, of.st_mtime_ns, of.st_ctime_ns] for of in files]
    return _sum([line, seen])


def _sum(of: Any) -> str:
    return hashlib.sha256(json.dumps(of, sort_keys=True).encode()).hexdigest()[:32]


class Verified:
    """The notes of a verification of one OUT, and of one TREE if that is named."""

    def __init__(self, out: bytes, tree: Optional[bytes], token: str, strict: bool) -> None:
        self.name = b".jlsrec-verified-%s.jsonl" % _sum(token)[:16].encode()
        self._path = os.path.join(out, self.name)
        self._folders = [out] if tree is None else [out, tree]
        self._token = token
        # What is found right by another verification isn't by a strict one.
        self._kind = ["strict"] if strict else []
        self._stamps: dict[bytes, str] = {}
        self._number = -1
        self._is_noting = False

    def begin(self, is_taken: bool) -> None:
        """Takes up the notes of an earlier verification, or begins others.

        Says in a line if there can't be any, or if the name is taken by a file of the tree.
        """
        try:
            if is_taken:
                raise FileExistsError(0, "it is a file of the tree")
            if not self._take_up():
                self._begin_anew()
            self._is_noting = True
        except BlockingIOError:
            self._close()
            raise Refused(f"{shown(self._path)}: another run is at work on it") from None
        except OSError as error:
            self._say(error)

    def _say(self, error: OSError) -> None:
        why = error.strerror or str(error)
        print(f"verify: {shown(self._path)}: {why}: what is right can't be noted for a later run", file=sys.stderr)

    def _take_up(self) -> bool:
        """Reads the notes, if there are any of this OUT and this TREE; others are removed."""
        try:
            self._open(0)
        except FileNotFoundError:
            return False
        if self._read():
            # A line that was torn is ended, and says nothing.
            write_all(self._number, b"\n")
            return True
        # They aren't written over: a copy of OUT may have hard links to the same file.
        os.unlink(self._path)
        self._close()
        return False

    def _begin_anew(self) -> None:
        self._open(os.O_CREAT | os.O_EXCL)
        try:
            write_all(self._number, json.dumps({"format": FORMAT, "of": self._of()}).encode() + b"\n")
        except OSError:
            self.remove()
            raise

    def _open(self, flags: int) -> None:
        """Opens the notes, locked."""
        self._number = os.open(self._path, os.O_RDWR | os.O_APPEND | os.O_CLOEXEC | os.O_NOFOLLOW | flags, 0o666)
        fcntl.flock(self._number, fcntl.LOCK_EX | fcntl.LOCK_NB)

    def _of(self) -> str:
        """What is another for another OUT or TREE, or for a strict verification."""
        folders = [[os.path.realpath(each).hex(), os.stat(each).st_ino] for each in self._folders]
        return _sum([self._token, folders, *self._kind])

    def _read(self) -> bool:
        """Reads the notes. Answers whether they are of this OUT and this TREE."""
        with open(self._number, "rb", closefd=False) as file:
            with _meaningless():
                heading = json.loads(file.readline())
                if heading["format"] != FORMAT or heading["of"] != self._of():
                    return False
                for line in file:
                    with _meaningless():
                        found = json.loads(line)
                        self._stamps[path_in(found)] = found["stamp"]
                return True
        return False

    def has(self, line: Line) -> bool:
        """Whether a file of the manifest was found right, and neither it nor that of the tree has changed since."""
        path = path_in(line)
        noted = self._stamps.get(path)
        if noted is None:
            return False
        try:
            files = [standing(os.path.join(folder, path)) for folder in self._folders]
        except OSError:
            return False
        there = [of for of in files if of is not None]
        return len(there) == len(files) and stamp(line, there) == noted

    def add(self, lines: list[Line]) -> None:
        """Notes what was found right."""
        good = [line for line in lines if "stamp" in line]
        data = [json.dumps({**named(path_in(line)), "stamp": line["stamp"]}) + "\n" for line in good]
        if self._is_noting:
            try:
                write_all(self._number, "".join(data).encode())
            except OSError as error:
                self._is_noting = False
                self._say(error)

    def remove(self) -> None:
        """Removes the notes: the next verification begins anew."""
        if self._number >= 0:
            with contextlib.suppress(OSError):
                if os.path.samestat(os.lstat(self._path), os.fstat(self._number)):
                    os.unlink(self._path)
        self._close()

    def _close(self) -> None:
        number, self._number = self._number, -1
        if number >= 0:
            os.close(number)

    def __enter__(self) -> Verified:
        return self

    def __exit__(self, *error: object) -> None:
        self._close()


def _meaningless() -> contextlib.suppress:
    """Passes over a line that isn't one of these."""
    return contextlib.suppress(ValueError, KeyError, TypeError, AttributeError, RecursionError, Refused)
