"""How far a run is, and what came of it."""

from __future__ import annotations

import collections
import errno
import json
import os
import shutil
import sys
import time
from typing import Any, Optional

from .._files import NewFile

# Seconds from line to line, on a terminal and elsewhere.
OFTEN, SELDOM = 0.5, 60.0
MOST_REASONS = 10


class Progress:
    """Counts files by what became of them, and says how far a run is on standard error."""

    def __init__(self, command: str) -> None:
        self.command = command
        self.states: collections.Counter[str] = collections.Counter()
        self.reasons: collections.Counter[str] = collections.Counter()
        self.failures: list[dict[str, Any]] = []
        self.before = self.after = 0
        # Files and bytes that needn't be done, since an earlier run did them, and they haven't changed since.
        self.skipped = self.skipped_bytes = 0
        # Files of OUT that weren't found in the tree, and those that were put into OUT and may have got no line.
        self.only_in_out = self.unnoted = 0
        # How many files and bytes there are, and whether that is all.
        self.files = self.bytes = 0
        self.is_counted = False
        self._begin = time.monotonic()
        self._is_terminal = sys.stderr.isatty()
        self._next = self._begin + (OFTEN if self._is_terminal else SELDOM)
        self._width = 0

    def add(self, line: dict[str, Any], name: str) -> None:
        """Counts a file, and says why if it failed."""
        state = line["state"]
        self.states[state] += 1
        self.before += line.get("bytes_before", 0)
        self.after += line.get("bytes_after", 0)
        if state == "copied":
            self.reasons[line["why"]] += 1
        if state in ("failed", "left", "gone"):
            self.say(f"{name}: {line['why']}")
        if state == "failed" and len(self.failures) < 1000:
            self.failures.append({key: value for key, value in line.items() if key.startswith("path") or key == "why"})

    def skip(self, count: int) -> None:
        """Counts a file that an earlier run did."""
        self.skipped += 1
        self.skipped_bytes += count

    @property
    def done(self) -> int:
        """How many files this run did."""
        return sum(self.states.values())

    @property
    def seconds(self) -> float:
        """How long the run takes so far."""
        return max(time.monotonic() - self._begin, 1e-9)

    def text(self) -> str:
        """How far the run is."""
        files, count = self.done + self.skipped, self.before + self.skipped_bytes
        total = f"{self.files:,}{'' if self.is_counted else ' or more'}"
        parts = [f"{files:,} of {total} files", f"{_size(count)} of {_size(self.bytes)}"]
        if self.after > 0:
            parts.append(f"ratio {self.before / self.after:.2f}")
        parts += [f"{self.done / self.seconds:,.0f} files/s", f"{_size(self.before / self.seconds)}/s"]
        if self.is_counted and self.before > 0:
            parts.append(f"{_time((self.bytes - count) / self.before * self.seconds)} to go")
        return ", ".join(parts)

    def tell(self) -> None:
        """Says how far the run is, if it is time to."""
        now = time.monotonic()
        if now < self._next:
            return
        self._next = now + (OFTEN if self._is_terminal else SELDOM)
        if self._is_terminal:
            text = self.text()[: shutil.get_terminal_size().columns - 1]
            print(f"\r{text:<{self._width}}", end="", file=sys.stderr, flush=True)
            self._width = len(text)
        else:
            print(f"{self.command}: {self.text()}", file=sys.stderr, flush=True)

    def say(self, text: str) -> None:
        """Says a line, in the place of how far it is."""
        if self._width > 0:
            print(f"\r{'':<{self._width}}\r", end="", file=sys.stderr)
            self._width = 0
        print(f"{self.command}: {text}", file=sys.stderr, flush=True)

    def end(self) -> None:
        """Says what came of the run."""
        parts = [f"{count:,} {state}" for state, count in sorted(self.states.items())]
        if self.skipped:
            parts.append(f"{self.skipped:,} {'unchanged' if self.command == 'compress' else 'done before'}")
        sizes = f"; {_size(self.before)} to {_size(self.after)}" if self.after else ""
        self.say(f"{', '.join(parts) or 'no files'}{sizes}, in {_time(self.seconds)}")
        if self.unnoted:
            self.say(f"{self.unnoted:,} of these may have no line in the manifest: the next run looks at them again")
        if self.only_in_out:
            found = "file of OUT wasn't" if self.only_in_out == 1 else "files of OUT weren't"
            self.say(f"{self.only_in_out:,} {found} found in the tree, and will stay in OUT")
        for why, count in self.reasons.most_common(MOST_REASONS):
            self.say(f"copied as they are: {count:,}, since {why}")

    def report(self, path: str, is_finished: bool) -> None:
        """Writes what came of the run as JSON."""
        made = {
            "command": self.command,
            "finished": is_finished,
            "files": self.files,
            "skipped": self.skipped,
            **({"unchanged": self.skipped, "only_in_out": self.only_in_out} if self.command == "compress" else {}),
            **{state: self.states[state] for state in sorted(self.states)},
            "bytes_before": self.before,
            "bytes_after": self.after,
            "ratio": round(self.before / self.after, 4) if self.after else None,
            "seconds": round(self.seconds, 3),
            "files_per_second": round(self.done / self.seconds, 2),
            "bytes_per_second": round(self.before / self.seconds),
            "copied_since": dict(self.reasons.most_common()),
            "failures": self.failures,
        }
        with NewFile(path, replace=True) as file:
            file.write(json.dumps(made, indent=2).encode() + b"\n")


def check_report(path: Optional[str]) -> None:
    """Raises OSError if there can't be a report of this name, before anything is done."""
    if path is None:
        return
    if os.path.isdir(path):
        raise IsADirectoryError(errno.EISDIR, os.strerror(errno.EISDIR), path)
    folder = os.path.dirname(os.path.abspath(path))
    if not os.path.exists(path) and not os.access(folder, os.W_OK | os.X_OK):
        error = errno.EACCES if os.path.isdir(folder) else errno.ENOENT
        raise OSError(error, os.strerror(error), path)


def _size(count: float) -> str:
    """A number of bytes, in the unit in which it is short."""
    for unit in ("B", "kB", "MB", "GB", "TB"):
        if count < 999.95 or unit == "TB":
            return f"{count:.0f} {unit}" if unit == "B" else f"{count:.1f} {unit}"
        count /= 1000
    raise AssertionError("it ends with the last unit")


def _time(seconds: float) -> str:
    """A time as hours, minutes and seconds."""
    whole = int(seconds + 0.5)
    return f"{whole // 3600}:{whole // 60 % 60:02}:{whole % 60:02}"
