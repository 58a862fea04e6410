"""Indexes of recordings: text with a line for each codestream, as `jlsrec index` writes it (docs/FORMATS.md, "Indexes")."""

from __future__ import annotations

import hashlib
import os
import re
from typing import NamedTuple, Optional

from . import _library
from ._files import Name, Reading
from ._library import JlsrecError

_NUMBER = rb"(0|[1-9][0-9]{0,18})"
_FORM = rb"((?:gray|color)(?: (?:0|[1-9][0-9]{0,4})){8})"
_LINE = re.compile(rb"%b %b %b %b(?: ([0-9a-f]{64}))?" % (_NUMBER, _NUMBER, _NUMBER, _FORM))
# What a line that isn't complete consists of.
_BEGUN = re.compile(rb"[0-9a-z ]{0,255}")

# How much of an index is read at a time; a line has fewer bytes than a quarter of it.
_BLOCK = 1 << 14
# No line has fewer bytes.
_LEAST = len(b"0 0 0 gray 0 0 0 0 0 0 0 0\n")

# The markers of T.87 Annex C that stand before the data of the first scan, and what fills up before a marker.
_SOF55, _SOS, _FILL = 0xF7, 0xDA, 0xFF


class WrongIndex(JlsrecError):
    """An index that isn't of the recording it was named for, or isn't an index. Its text says which line, and why.

    line: the line's number, from 0, which is that of its frame. path: the index's name. status is 0.
    """

    def __init__(self, path: str, line: int, text: str) -> None:
        ValueError.__init__(self, f"line {line} of {path}: {text}")
        self.path, self.line = path, line
        self.fault = _library.Fault()
        self.status = self.component = self.marker = self.number = 0

    def of_frame(self, number: int) -> WrongIndex:
        """The same error, whose text begins with the frame's number."""
        self.args = (f"frame {number}: {self}",)
        return self


class Line(NamedTuple):
    """A line of an index: where a codestream begins and ends, its form as the line has it, and the sum of its bytes."""

    path: str
    number: int
    start: int
    end: int
    form: bytes
    sum: Optional[bytes]

    def wrong(self, text: str) -> WrongIndex:
        """The error of this line."""
        return WrongIndex(self.path, self.number, text).of_frame(self.number)

    def check_form(self, form: _library.Form, data: bytes) -> None:
        """Raises WrongIndex if the headers at the front of data, which say this form, aren't the line's."""
        found = columns_of(form, data)
        if found != self.form:
            raise self.wrong(f"the codestream there is {found.decode()}, and not {self.form.decode()}")

    def has_sum_of(self, data: bytes) -> bool:
        """Whether the line has a sum, and it is that of data."""
        return hashlib.sha256(data).hexdigest().encode() == self.sum

    def check_sum(self, data: bytes) -> None:
        """Raises WrongIndex if the line has a sum, and it isn't that of data."""
        if self.sum is not None and not self.has_sum_of(data):
            raise self.wrong(f"other bytes are there: {self.end - self.start} bytes at {self.start}")


class _Page(NamedTuple):
    """Lines of an index that follow one another, the number of the first, and where it begins."""

    first: int
    lines: list[bytes]
    start: int


class Index:
    """The lines of an index, as many as were complete when it was opened or looked at anew.

    A line is found by its number, which each begins with, so that neither opening nor a line takes longer for a longer
    index. Each line that is asked for is checked: its form, its number, and that it begins where the line before ends.
    """

    def __init__(self, path: Name) -> None:
        """Opens an index. Raises OSError if it can't be opened, WrongIndex if it doesn't end as one."""
        self._file = Reading(path, b"\n")
        self.path = self._file.path
        # How many lines there are, where the codestream of the last one ends, and where the line itself does.
        self.count = self.end = self.size = 0
        self._page = _Page(0, [], 0)
        # The line that was asked for last, and where its codestream ends.
        self._last = -1, 0
        # Whether lines have sums: all have, or none.
        self.has_sums = True
        self._look()

    @property
    def is_complete(self) -> bool:
        """Whether it ends with a complete line."""
        return self.size == self._file.size

    def is_of(self, made: os.stat_result) -> bool:
        """Whether this is the file that was found so."""
        return self._file.is_of(made)

    def refresh(self) -> None:
        """Looks for lines that were added. Raises RecordingChanged if the file isn't as it was, but for these."""
        self._file.refresh()
        self._look()

    def _look(self) -> None:
        """Finds the last complete line."""
        file, whole = self._file, self._file.whole
        start = max(self.size, whole - _BLOCK)
        *lines, begun = file.read(start, whole).split(b"\n")
        size = whole - len(begun)
        begun += file.peek(whole, min(whole + _BLOCK, file.size)).partition(b"\n")[0]
        if not _BEGUN.fullmatch(begun):
            raise self._wrong(self._number_at(size))
        if not lines:
            return
        found = _LINE.fullmatch(lines[-1])
        if found is None or not self._may_end(lines, start, int(found[1])) or int(found[2]) < self.end:
            raise self._wrong(self._number_at(size - len(lines[-1]) - 1))
        self.count, self.end = int(found[1]) + 1, int(found[2]) + int(found[3])
        self.size, self.has_sums = size, found[5] is not None

    def _may_end(self, lines: list[bytes], start: int, number: int) -> bool:
        """Whether the last of these lines, which begin at a place, may have this number."""
        if start == self.size:
            return number == self.count + len(lines) - 1
        # The first may lack its front.
        head = re.match(_NUMBER + b" ", lines[1]) if len(lines) > 1 else None
        return head is not None and int(head[1]) + len(lines) - 2 == number < (start + _BLOCK) // _LEAST

    def _number_at(self, place: int) -> int:
        """How many lines end before a place."""
        blocks = range(0, place, 1 << 20)
        return sum(self._file.read(each, min(each + (1 << 20), place)).count(b"\n") for each in blocks)

    def _wrong(self, line: int) -> WrongIndex:
        return WrongIndex(self.path, line, "not of an index")

    def line(self, number: int) -> Line:
        """The line of this number, below count. Raises WrongIndex if it isn't one, or doesn't follow the line before."""
        try:
            _, start, size, form, digest = self._fields(number)
            before, after = self._last if number > 0 else (-1, 0)
            if before != number - 1:
                _, first, length, *_ = self._fields(number - 1)
                after = int(first) + int(length)
        except WrongIndex as error:
            raise error.of_frame(number) from None
        line = Line(self.path, number, int(start), int(start) + int(size), form, digest)
        if line.start != after or line.start == line.end:
            raise line.wrong(f"it says {line.end - line.start} bytes at {line.start}, and the line before ends at {after}")
        self._last = number, line.end
        return line

    def _fields(self, number: int) -> tuple[bytes, ...]:
        first, lines, _ = self._at(number)
        found = _LINE.fullmatch(lines[number - first])
        if found is None or int(found[1]) != number or (found[5] is not None) != self.has_sums:
            raise self._wrong(number)
        return found.groups()

    def start_of(self, number: int) -> int:
        """Where the line of this number begins in the index; that of the first that there isn't, where the last ends."""
        if number >= self.count:
            return self.size
        first, lines, start = self._at(number)
        return start + sum(len(each) + 1 for each in lines[: number - first])

    def _at(self, number: int) -> _Page:
        """Lines among which one of this number is, kept for the next ones."""
        # Threads take lines side by side, and each keeps its own.
        page = self._page
        if not 0 <= number - page.first < len(page.lines):
            page = self._page = self._page_of(number)
        return page

    def _page_of(self, number: int) -> _Page:
        """Lines among which one of this number is, found by where it would be if all lines were equally long."""
        low, first, high, after = 0, 0, self.size, self.count
        while low < high and first <= number < after:
            start = max(low, low + (high - low) * (number - first) // (after - first) - _BLOCK // 2)
            data = self._file.read(start, min(start + _BLOCK, self.size))
            begin = 0 if start == low else data.find(b"\n") + 1
            lines = data[begin:].split(b"\n")[:-1]
            head = re.match(_NUMBER + b" ", lines[0]) if lines else None
            if head is None:
                break
            page = _Page(int(head[1]), lines, start + begin)
            if page.first <= number < page.first + len(lines):
                return page
            if number >= page.first:
                low, first = start + data.rfind(b"\n") + 1, page.first + len(lines)
            elif start + begin < high:
                high, after = start + begin, page.first
            else:
                break
        raise self._wrong(number)


def header_of(data: bytes) -> tuple[int, int]:
    """P of a codestream whose headers are without fault, and where the data of its first scan begins."""
    precision, place = 0, 2
    while True:
        marker = data[place + 1]
        if marker == _FILL:
            place += 1
            continue
        if marker == _SOF55:
            precision = data[place + 4]
        place += 2 + int.from_bytes(data[place + 2 : place + 4], "big")
        if marker == _SOS:
            return precision, place


def columns_of(form: _library.Form, data: bytes) -> bytes:
    """A codestream's form as its line of an index has it: gray or color, width, height, maxval, P, T1, T2, T3, RESET."""
    kind = b"gray" if form.components == 1 else b"color"
    numbers = (form.width, form.height, form.maxval, header_of(data)[0], form.t1, form.t2, form.t3, form.reset)
    return b"%b %d %d %d %d %d %d %d %d" % (kind, *numbers)


def line_of(number: int, start: int, form: _library.Form, data: bytes, has_sum: bool) -> bytes:
    """The line of a codestream, with its sum or without, and LF at its end."""
    line = b"%d %d %d %b" % (number, start, len(data), columns_of(form, data))
    return b"%b %b\n" % (line, hashlib.sha256(data).hexdigest().encode()) if has_sum else line + b"\n"
