"""What a manifest says of the files of a tree, kept small enough for millions of them."""

from __future__ import annotations

import hashlib
import os
import struct
from typing import NamedTuple, Optional

from .manifest import GONE, KEPT, Manifest, path_in

_KEPT = struct.Struct("<QQ16s16s16s")
# Of a line that doesn't say all that a file is told apart by, as one of an earlier version.
_NOTHING = bytes(16)


class Kept(NamedTuple):
    """What the line of a file that OUT has says of it."""

    before: int
    after: int
    # A sum of what its source was told apart by, one of the line, and one of what the line says of OUT's file.
    seen: bytes
    row: bytes
    made: bytes

    def is_of(self, source: os.stat_result) -> bool:
        """Whether nothing was done to the source since it was compressed."""
        seen = [source.st_size, source.st_mtime_ns, source.st_ctime_ns, source.st_ino]
        return self.seen == _sum(repr(seen).encode())


class Known:
    """What the manifest says already: of a file that OUT has what it was, and else the line."""

    def __init__(self, manifest: Manifest, second: Optional[str], strict: bool) -> None:
        self._files: dict[bytes, bytes] = {}
        # The files that weren't looked at as is asked for: strictly, or, if they were compressed, by a second decoder.
        self.unread: set[bytes] = set()
        self.others: dict[bytes, dict] = {}
        # How many of the files the tree has.
        self.met = 0
        # What failed, and wasn't met again in this run.
        self.failed: set[bytes] = set()
        for row, line in manifest.rows():
            path = path_in(line)
            if line["state"] in KEPT:
                self._files[path] = _kept(row, line)
                is_unread = line["state"] == "compressed" and second not in (None, line.get("second"))
                is_unread = is_unread or strict and line.get("strict") is not True
                (self.unread.add if is_unread else self.unread.discard)(path)
            elif line["state"] not in ("failed", GONE):
                self.others[path] = line
            (self.failed.add if line["state"] == "failed" else self.failed.discard)(path)
        self.failed.difference_update(self._files)

    def __len__(self) -> int:
        return len(self._files)

    def __contains__(self, path: bytes) -> bool:
        return path in self._files

    def get(self, path: bytes) -> Optional[Kept]:
        """What the line of a file says of it, if OUT has it."""
        kept = self._files.get(path)
        return None if kept is None else Kept(*_KEPT.unpack(kept))

    def is_made(self, path: bytes, sha256: str) -> bool:
        """Whether OUT's file has the sum of its line, if it has a line."""
        kept = self.get(path)
        return kept is None or kept.made == _sum(sha256.encode())

    def has(self, path: bytes, row: bytes) -> bool:
        """Whether this is the line of a file already."""
        kept = self.get(path)
        return kept is not None and kept.row == _sum(row)


def _kept(row: bytes, line: dict) -> bytes:
    seen = [line["bytes_before"], line["mtime_ns"], line.get("ctime_ns"), line.get("inode")]
    told = _NOTHING if None in seen else _sum(repr(seen).encode())
    return _KEPT.pack(line["bytes_before"], line["bytes_after"], told, _sum(row), _sum(line["sha256"].encode()))


def _sum(data: bytes) -> bytes:
    return hashlib.blake2b(data, digest_size=16).digest()
