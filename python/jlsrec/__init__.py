"""Lossless JPEG-LS (ITU-T T.87) of numpy arrays.

The codec is the C library libjlsrec, whose calls are proved to return what its header says; this package, which calls
it, is only tested. A picture is an array of uint8 or uint16: (height, width), gray, or (height, width, 3), colour. Calls
hold no lock of Python's while they code, so threads code side by side.

    import jlsrec
    data = jlsrec.encode(array)
    assert (jlsrec.decode(data) == array).all()

A recording is a file of many: `write` writes one, `Writer` frame by frame, and `Recording` reads it.

    with jlsrec.Writer("night.jls", maxval=4095, index=True) as writer:
        for array in camera: writer.append(array)
    with jlsrec.Writer("night.jls", maxval=4095, index=True, append=True) as writer:
        writer.append(another)
    hundred = jlsrec.Recording("night.jls", index=True).read(slice(0, 100), workers=4)

The library is the one in the package or below the same prefix, or that of the checkout, for this machine's processor.
JLSREC_LIBRARY names another one, and JLSREC_CPU another level of processors, x86-64-v2 or x86-64-v3. It is loaded by the
first call that needs it, which raises ImportError if it can't be. Any libjlsrec.so.0 of this package's version or a later
one serves. Python 3.9 or later and numpy are required.
"""

from __future__ import annotations

import contextlib
import ctypes
import errno
import itertools
import mmap
import operator
import os
import sys
import threading
import zlib
from bisect import bisect_right
from collections.abc import Iterable, Iterator, Sequence
from dataclasses import dataclass
from pathlib import Path
from typing import Any, Dict, NamedTuple, Optional, Tuple, Union, overload

import numpy as np

from . import _library
from ._files import GrowingFile, NewFile, Reading, RecordingChanged, is_same
from ._index import Index, Line, WrongIndex, header_of, line_of
from ._library import JlsrecError

__version__ = "0.1.0"
__all__ = [
    "Header",
    "JlsrecError",
    "Recording",
    "RecordingChanged",
    "Writer",
    "WrongIndex",
    "check_strict",
    "decode",
    "encode",
    "library_version",
    "read_header",
    "write",
]

# As they are named by those who import them.
for _each in (JlsrecError, RecordingChanged, WrongIndex):
    _each.__module__ = __name__

Preset = Tuple[int, int, int, int]
Data = Union[bytes, bytearray, memoryview, mmap.mmap, np.ndarray]
Bytes = Union[bytes, np.ndarray]
Name = Union[str, os.PathLike]

# How much of a recording is read at a time to look for its codestreams, and of a codestream for its header.
WINDOW = 1 << 18
HEAD = 1 << 12
# How many samples of a frame are worth a thread that decodes: with fewer, threads wait for Python's lock longer.
SAMPLES = 1 << 12
# Hardly any codestream has fewer bytes, and so many are looked for at once.
LEAST, MANY = 32, 1 << 14
# Of the codestreams that are found at once so many sums are kept at least, or that of each.
RUNS = 1 << 8
# How a codestream begins: SOI, and the first byte of another marker. In the data of a scan this can't stand.
SOI = b"\xff\xd8\xff"
# How it ends. In the data of a scan this can't stand either.
EOI = b"\xff\xd9"

BYTE, WORD = np.dtype(np.uint8), np.dtype(np.uint16)


@dataclass(frozen=True)
class Header:
    """What a codestream says of its picture before the samples.

    width and height in pixels, 1 to 65535; components 1 or 3; maxval, the greatest value that a sample may have, 1 to
    65535; preset, the coding parameters in force: T1, T2, T3 and RESET (T.87 C.2.4).
    """

    width: int
    height: int
    components: int
    maxval: int
    preset: Preset

    @property
    def shape(self) -> tuple[int, ...]:
        """The shape of the picture's array: (height, width), or (height, width, 3)."""
        return _shape_of(self)

    @property
    def dtype(self) -> np.dtype:
        """The type of its samples: uint8 where maxval is at most 255, else uint16."""
        return _type_of(self)


def library_version() -> str:
    """The version of the libjlsrec that is loaded, such as "0.1.0". `jlsrec.__version__` is that of this package."""
    number = _library.library().jlsrec_version()
    return f"{number // 10000}.{number // 100 % 100}.{number % 100}"


def encode(array: np.ndarray, maxval: Optional[int] = None, preset: Optional[Preset] = None) -> bytes:
    """The codestream of a picture.

    array: uint8 or uint16, (height, width) or (height, width, 3), each side 1 to 65535, at most 2^28 samples. There may
    be gaps between rows, as in a slice of columns; an array of another layout is copied first.
    maxval: the greatest value that a sample may have; by default 255 for uint8 and 65535 for uint16.
    preset: T1, T2, T3 and RESET, each 0 for T.87's default; by default all are.

    Raises TypeError for another type or shape; JlsrecError, a ValueError whose text says what is wrong, for a picture
    that can't be encoded (a sample over maxval, say) or parameters out of range; MemoryError if an allocation fails.
    """
    array = np.asarray(array)
    if array.dtype.kind != "u" or array.dtype.itemsize > 2:
        raise TypeError(f"samples must be uint8 or uint16, and these are {array.dtype}")
    if array.ndim != 2 and not (array.ndim == 3 and array.shape[2] == 3):
        raise TypeError(f"a picture is (height, width) or (height, width, 3), and this is {array.shape}")
    t1, t2, t3, reset = _preset(preset)
    most = (255 if array.dtype.itemsize == 1 else 65535) if maxval is None else operator.index(maxval)
    if not 1 <= most <= 65535:
        raise JlsrecError(_library.BAD_MAXVAL, _library.Fault()).naming(most)
    array = array.astype(array.dtype.newbyteorder("="), copy=False)
    height, width = array.shape[:2]
    components = 1 if array.ndim == 2 else 3
    if max(height, width) > 65535:
        _library.check(_library.BAD_SIZE)
    stride = _stride(array)
    if stride is None:
        array = np.ascontiguousarray(array)
        stride = width * components
    bits = array.dtype.itemsize * 8
    form = _library.Form(components, width, height, most, t1, t2, t3, reset)
    count = 0 if array.size == 0 else (height - 1) * stride + width * components
    call = getattr(_library.library(), f"jlsrec_encode_{bits}")
    room = _room(_library.library().jlsrec_bound(components, width, height, most))
    written = ctypes.c_size_t()
    status = call(
        ctypes.byref(form),
        array.ctypes.data,
        count,
        stride,
        room.ctypes.data,
        room.size,
        ctypes.byref(written),
    )
    if status == _library.SAMPLE_TOO_LARGE:
        raise JlsrecError(status, _library.Fault()).naming(f"{array.max()} is over {most}")
    _library.check(status)
    return room[: written.value].tobytes()


def decode(data: Data, out: Optional[np.ndarray] = None) -> np.ndarray:
    """The picture of the codestream at the front of data: uint8 where its maxval is at most 255, else uint16.

    data: bytes, or an object with a buffer of bytes: bytearray, memoryview, mmap, or a contiguous array of uint8 with
    one dimension. Bytes after the codestream are ignored.
    out: the array that the picture is decoded into, of its shape, contiguous and writable: uint16, or uint8 where maxval
    is at most 255. Without it a new one is made. It is what is returned.

    Raises JlsrecError with the first fault of the data, TypeError for other data or another out than an array, ValueError
    if out doesn't fit, MemoryError if an allocation fails. After an error the contents of out are unspecified.
    """
    return _decode(_bytes_of(data), out)[0]


def check_strict(data: Data) -> int:
    """Checks that the codestream at the front of data is exactly what encoding its picture gives; how many bytes it has.

    For checkers: after the samples of a component decode accepts up to 15 further bits of any value, which encode never
    writes. So a bit that changed there isn't noticed by decode. Segments, as of comments, and fill bytes aren't compared.

    data: as for decode.

    Raises JlsrecError for other data in a scan, whose status is then 15 and whose component is the first such; and with
    the first fault of the data as decode does. TypeError for other data, MemoryError if an allocation fails.
    """
    given = _bytes_of(data)
    fault, used = _library.Fault(), ctypes.c_size_t()
    status = _library.library().jlsrec_strict(_address(given), len(given), ctypes.byref(used), ctypes.byref(fault))
    _library.check(status, fault)
    return used.value


def read_header(data: Data) -> Header:
    """What the codestream at the front of data says of its picture. No sample is decoded.

    data: as for decode. The headers suffice: the bytes may end after the header of the first scan.

    Raises JlsrecError with the first fault before the samples, TypeError for other data.
    """
    return _header(_bytes_of(data))


class Recording(Sequence):
    """The frames of a recording, joined codestreams in a file, each decoded when it is asked for.

        with jlsrec.Recording("gray12.pgm.jls") as film:
            for array in film: ...
            last = film[-1]

    len() and indices find codestreams by their markers, and read no more of the file than they need. Frames are arrays
    as `decode` returns them, numbered from 0, or by negative numbers from the end; another number raises IndexError. A
    slice is a list of arrays; read() makes one array of many frames, by several threads. header(i), data(i) and size(i)
    are of frame i, without decoding it. A frame that can't be decoded raises JlsrecError, whose text begins with "frame
    N: "; the other frames can still be read.

    With an index, as `jlsrec index`, `jlsrec record --index` or `Writer` writes it, len() and any frame are there at
    once, however long the recording is; frames after the last line are found by their markers. A codestream that is
    taken by a line must begin and end where the line says, have the line's form, and the line's SHA-256 if it has one,
    and the line must begin where the one before ends: otherwise WrongIndex is raised, a JlsrecError that names the line,
    and nothing of it is returned. header(i) looks at the form alone, size(i) only at the line.

    Threads may share a recording. It is the file as it was when it was opened: frames appended later are seen once
    refresh() is called, and of a file that is replaced, as by `write`, the earlier one is still read. If it ends before
    its last whole codestream did, or the first or the last 4096 bytes of these are others, RecordingChanged is raised,
    an OSError. What is written over between goes unnoticed if it can be decoded, unless an index with sums is used. If
    only the beginning of a further codestream is cut off, as `Writer` does with a torn one, nothing has changed. After
    close() every use raises ValueError.

    In a file that was changed, frames that are there as they were can still be read: those that were found by their
    markers before, and those of an index with sums that wasn't changed itself. That is checked by sums. Where hundreds
    of small frames were found at once some share a sum, and are read only if all of these are there. Any other frame
    raises RecordingChanged.

    If the file is cut off, or damaged between codestreams, the frames before that can be read, and `fault` is the
    error; otherwise `fault` is None.
    """

    def __init__(self, path: Name, index: Union[Name, bool, None] = None) -> None:
        """Opens a recording.

        path: its file. index: its index's file, or True for PATH.index; by default none is used.

        Raises OSError if one can't be opened, or isn't a regular file, and WrongIndex if the index doesn't end with a
        line of one, or that has another number than it must have; one that isn't complete, since the index is being
        written, is left aside.
        """
        self.path = Path(path)
        # The index first, so that the recording has what it lists.
        lines = None if index is None or index is False else Index(_index_name(path, index))
        self._files: Optional[Tuple[Reading, Optional[Index]]] = (Reading(path, EOI), lines)
        self._found = _Found(0, [0]) if lines is None else _Found(lines.count, [lines.end])
        self._fault: Optional[JlsrecError] = None
        # Whether the fault is that the file ends within a codestream, and whether that may be one being written.
        self._torn = self._live = False
        # The first frame's header, how many have been compared with it, and the first others, by what they differ in.
        self._first: Optional[Header] = None
        self._compared = 0
        self._unlike: Dict[str, Tuple[int, Header]] = {}
        self._lock = threading.RLock()
        self._window = _Window(self._found.end, b"")

    def close(self) -> None:
        """Closes the files. Decoded frames stay valid."""
        self._files = None

    def __repr__(self) -> str:
        return f"<jlsrec.Recording {os.fsdecode(self.path)!r}>"

    def __enter__(self) -> "Recording":
        self._opened()
        return self

    def __exit__(self, *exception: object) -> None:
        self.close()

    def _opened(self) -> Tuple[Reading, Optional[Index]]:
        files = self._files
        if files is None:
            raise ValueError(f"{self.path}: the recording was closed")
        return files

    def refresh(self) -> int:
        """Finds the frames that were appended since the recording was opened, or since the last call; how many there are.

        What is known isn't looked at again, frames that were returned stay valid, and so do their numbers. From the first
        call on the recording is taken as one that is still being written: if it ends within a codestream, that isn't a
        `fault`, but a frame that isn't there yet. An index is followed too, as far as it goes.

        Raises RecordingChanged if the file, or its index, has shrunk or was written over, and WrongIndex if a new line
        isn't one or says otherwise than the recording. Frames then keep their numbers, and those that are there as they
        were can still be read, as the class says.
        """
        before = len(self)
        with self._lock:
            file, index = self._opened()
            if index is not None:
                index.refresh()
            file.refresh()
            found = self._found
            if index is not None and index.count > found.first:
                self._found = found.after(index)
            self._live = True
            if self._torn:
                self._fault = None
            self._window = _Window(self._found.end, b"")
        return len(self) - before

    def _walk(self, frames: int = sys.maxsize) -> Reading:
        """Finds where the first frames end, or all, and returns the file."""
        file, _ = self._opened()
        if self._is_before(frames, file):
            with self._lock:
                while self._is_before(frames, file):
                    self._step(file, frames - self._found.count)
                if self._fault is not None or self._found.end >= file.whole or len(self._window.data) > 16 * WINDOW:
                    self._window = _Window(self._found.end, b"")
        return file

    def _is_before(self, frames: int, file: Reading) -> bool:
        """Whether there may be codestreams that aren't found yet among the first frames and the next."""
        return self._found.count < frames and self._fault is None and self._found.end < file.whole

    def _step(self, file: Reading, most: int) -> None:
        """Finds where the next codestreams end, at most so many, or why there is none."""
        found, window = self._found, self._window
        number, start = len(found.starts), found.end
        if not window.start <= start <= window.end:
            window = _Window(start, b"")
        ends, status = window.extents(start, most)
        # What has no end within the window may have one behind it.
        while not ends and status in (_library.OK, _library.TRUNCATED) and window.end < file.whole:
            if start == window.start:
                size = max(WINDOW, 2 * len(window.data))
            else:
                size = max(WINDOW, (start - found.starts[max(number - 2, 0)]) * 5 // 4)
            window = _Window(start, file.read(start, min(start + size, file.whole)))
            ends, status = window.extents(start, most)
        self._window = window
        if not ends:
            self._fail(file, start)
            return
        # A signal's handler may have come here meanwhile, and found the same.
        found.add(number, ends, window)

    def _fail(self, file: Reading, start: int) -> None:
        """Finds why no codestream is at the end of the last. A rest that was cut off, or gone on with, is no fault."""
        data, ends, status = b"", [], _library.TRUNCATED
        while not ends and status in (_library.OK, _library.TRUNCATED):
            more = file.peek(start + len(data), min(start + max(WINDOW, 2 * len(data)), file.size))
            if not more:
                break
            data += more
            ends, status = _Window(start, data).extents(start, 1)
        file.settle(start)
        if data and not ends:
            self._torn, details = status == _library.TRUNCATED, _library.Fault()
            if status != _library.TOO_LARGE:
                status, details = _fault_of(data)
            self._fault = JlsrecError(status, details)

    @property
    def fault(self) -> Optional[JlsrecError]:
        """Why no more frames can be read after the last one; None if the file ends there."""
        file = self._walk()
        with self._lock:
            found = self._found
            if self._fault is None and found.end < file.size:
                self._fail(file, found.end)
        if self._fault is None and found.end > file.size:
            return WrongIndex(self._opened()[1].path, found.count - 1, "the recording ends before")
        return None if self._live and self._torn else self._fault

    def __len__(self) -> int:
        self._walk()
        return self._found.count

    def _place(self, index: int) -> Optional["_Place"]:
        """Where the codestream of a frame is, by the frame's number from 0; None after the last."""
        file, lines = self._opened()
        found = self._found
        if lines is not None and index < found.first:
            line = lines.line(index)
            if line.end > file.size:
                raise line.wrong(f"the recording ends before: {line.end - line.start} bytes at {line.start}")
            return _Place(file, line.start, line.end, line, None)
        self._walk(index + 1)
        found = self._found
        if index < found.first:
            return self._place(index)
        place = index - found.first
        return _Place(file, *found.starts[place : place + 2], None, found) if index < found.count else None

    def _span(self, index: int) -> "_Place":
        """Where the codestream of a frame is. Raises IndexError if there is no such frame."""
        index = given = operator.index(index)
        if index < 0:
            index += len(self)
        place = self._place(index) if index >= 0 else None
        if place is None:
            raise IndexError(f"no such frame: {given}")
        return place

    def _frame(self, place: "_Place", index: int, out: Optional[np.ndarray] = None) -> np.ndarray:
        try:
            array, used = _decode(place.read(), out)
        except WrongIndex:
            raise
        except JlsrecError as error:
            raise error.of_frame(index if index >= 0 else index + len(self)) from None
        if used != place.end - place.start:
            raise place.file.written_over()
        return array

    @overload
    def __getitem__(self, index: int) -> np.ndarray: ...
    @overload
    def __getitem__(self, index: slice) -> list[np.ndarray]: ...
    def __getitem__(self, index):
        if isinstance(index, slice):
            return [self._frame(self._span(i), i) for i in range(*index.indices(len(self)))]
        return self._frame(self._span(index), index)

    def __iter__(self) -> Iterator[np.ndarray]:
        self._opened()
        return self._frames()

    def _frames(self) -> Iterator[np.ndarray]:
        for index in itertools.count():
            place = self._place(index)
            if place is None:
                return
            yield self._frame(place, index)

    def read(
        self, frames: Union[slice, Iterable[int], None] = None, out: Optional[np.ndarray] = None, workers: int = 1
    ) -> np.ndarray:
        """Many frames at once: an array (frames, height, width) or (frames, height, width, 3).

        frames: their numbers: a slice, a range, a list or another iterable of numbers, in any order, also several times,
        and by negative numbers from the end; by default all. They must be of one shape.
        out: the array that they are decoded into, of that shape, contiguous and writable: uint16, or uint8 where maxval is
        at most 255. Without it a new one is made, of the type of the first of them. It is what is returned.
        workers: how many threads decode, 1 or more; no more than processors are worth while. Small frames gain less:
        there is at most one thread for each 4096 samples that a frame has.

        Beside the array it takes the memory of one codestream for each worker, of the list of numbers unless that is a
        slice or a range, and of where each frame is, some 100 bytes, if that wasn't known and no index says it.

        Raises IndexError if there is no frame of a number, TypeError for other arguments, and ValueError for an out that
        doesn't fit or no worker, or if there is no frame whose shape the array would have; then out is unchanged. If a
        frame can't be read, the error of the first one is raised, in the order of frames: JlsrecError if it can't be
        decoded, and ValueError if its shape or type doesn't fit, both with texts that begin with "frame N", or what else
        a single frame raises. Then out has the frames before that one; the rest of it is unspecified, and so is all of it
        after an interrupt.
        """
        numbers = self._numbers(frames)
        workers = operator.index(workers)
        if workers < 1:
            raise ValueError(f"one worker or more is wanted, and this is {workers}")
        if len(numbers) == 0 and len(self) == 0 and out is None:
            raise ValueError(f"{self.path}: there is no frame, whose shape the array would have")
        if len(numbers) > 0 or out is None:
            header = self._header_for(numbers[0] if len(numbers) > 0 else 0)
            out = _fitting(out, (len(numbers), *header.shape), header.dtype)
        elif _array(out).shape[:1] != (0,):
            raise ValueError(f"out must have no frame, and is {out.shape}")
        worth = out.size // max(1, len(numbers)) // SAMPLES
        _Filling(self, numbers, out, max(1, min(workers, worth, len(numbers)))).run()
        return out

    def _numbers(self, frames: Union[slice, Iterable[int], None]) -> Sequence[int]:
        """The numbers of frames, from 0. Raises IndexError if there is no such frame."""
        if frames is None:
            return range(len(self))
        if isinstance(frames, slice):
            return range(*frames.indices(len(self)))
        given = frames if isinstance(frames, range) else list(self._up_to_none(frames))
        # The least and the greatest of a range are at its ends.
        ends = (given[0], given[-1]) if isinstance(given, range) and given else given
        least, most = min(ends, default=0), max(ends, default=-1)
        self._walk(most + 1 if least >= 0 else sys.maxsize)
        count = self._found.count
        if least < -count or most >= count:
            wrong = next(number for number in given if not -count <= number < count)
            raise IndexError(f"no such frame: {wrong}")
        if isinstance(given, range) and least >= 0:
            return given
        return [number if number >= 0 else number + count for number in given]

    def _up_to_none(self, frames: Iterable[int]) -> Iterator[int]:
        """The numbers of frames, up to the first that can't be one, since each frame has a byte at least."""
        most = self._found.first + self._opened()[0].size
        for number in map(operator.index, frames):
            yield number
            if not -most <= number < most:
                return

    def _header_for(self, index: int) -> Header:
        """The header of a frame, whose number an error names."""
        try:
            return self.header(index)
        except WrongIndex:
            raise
        except JlsrecError as error:
            raise error.of_frame(index) from None

    @property
    def shape(self) -> tuple[int, ...]:
        """(frames, height, width), or (frames, height, width, 3), if all frames are of one shape.

        Otherwise, or if there is no frame, it raises AttributeError, whose text says which frame is the first of another
        shape. All headers are looked at once, or the lines of an index; JlsrecError is raised for one that is malformed.
        """
        shape = self._common("shape")
        return (self._compared, *shape)

    @property
    def dtype(self) -> np.dtype:
        """The type of the samples, if it is that of all frames; otherwise it raises what shape does."""
        return self._common("dtype")

    @property
    def maxval(self) -> int:
        """The greatest value that a sample may have, if it is that of all frames; otherwise it raises what shape does."""
        return self._common("maxval")

    def _common(self, name: str) -> Any:
        """What the headers of all frames have under a name. Raises AttributeError where one has something else."""
        count = len(self)
        with self._lock:
            for header in self._headers(self._compared, count):
                if self._first is None:
                    self._first = header
                for each in ("shape", "dtype", "maxval"):
                    if header is not self._first and getattr(header, each) != getattr(self._first, each):
                        self._unlike.setdefault(each, (self._compared, header))
                self._compared += 1
        if self._first is None:
            raise AttributeError(f"{self.path}: there is no frame, so there is no {name}")
        if name in self._unlike:
            number, header = self._unlike[name]
            texts = f"{name} {getattr(header, name)}", getattr(self._first, name)
            raise AttributeError(f"{self.path}: frame {number} has {texts[0]}, and those before {texts[1]}")
        return getattr(self._first, name)

    def _headers(self, first: int, end: int) -> Iterator[Header]:
        """The headers of the frames from one number to another, of those in an index as it has them."""
        same, header, text, window = None, None, None, _Window(0, b"")
        for number in range(first, end):
            file, start, stop, line, _ = self._span(number)
            if line is not None:
                if line.form != text:
                    text, header = line.form, _header_in(line.form)
            else:
                if not window.start <= start <= min(stop, start + HEAD) <= window.end:
                    ahead = WINDOW if stop - start < HEAD else HEAD
                    window = _Window(start, file.read(start, min(start + ahead, file.whole)))
                # Codestreams that begin with the same bytes up to their data have one header.
                if same is None or not window.data.startswith(same, start - window.start):
                    header, same = self._header_for(number), None
                    front = window.data[start - window.start : min(stop, start + HEAD) - window.start]
                    with contextlib.suppress(IndexError):
                        same = front[: header_of(front)[1]]
            yield header

    def data(self, index: int) -> bytes:
        """The codestream of the frame of this number, as it stands in the file. Raises IndexError if there is none."""
        return self._span(index).read()

    def size(self, index: int) -> int:
        """The number of bytes of a frame's codestream. Raises IndexError if there is no such frame."""
        place = self._span(index)
        return place.end - place.start

    def header(self, index: int) -> Header:
        """What a frame's codestream says of it. Raises IndexError if there is none, JlsrecError if it is malformed."""
        place = self._span(index)
        try:
            return place.header(place.file.read(place.start, min(place.start + HEAD, place.end)))
        except RecordingChanged:
            return place.header(place.read())
        except JlsrecError as error:
            if error.status != _library.TRUNCATED or place.end - place.start <= HEAD:
                raise
        return place.header(place.file.read(place.start, place.end))


class _Found:
    """Where codestreams are that were found by their markers: those after the first, which an index has.

    starts: where each begins, and where the last one ends. runs: where runs of them begin, of one or of some small
    ones, and where the last one ends; sums: the CRC-32 of each run. Only added to, and under the recording's lock.
    """

    def __init__(self, first: int, starts: list[int]) -> None:
        self.first, self.starts = first, starts
        self.runs: list[int] = starts[-1:]
        self.sums: list[int] = []

    @property
    def count(self) -> int:
        """How many frames there are before the end of the last."""
        return self.first + len(self.starts) - 1

    @property
    def end(self) -> int:
        """Where the last of them ends."""
        return self.starts[-1]

    def add(self, number: int, ends: list[int], window: "_Window") -> None:
        """Adds codestreams that a window holds, by their ends; the first of these is put at this number in starts."""
        start, each = self.starts[number - 1], max(1, len(ends) // RUNS)
        runs = [*ends[each - 1 : -1 : each], ends[-1]]
        place = bisect_right(self.runs, start)
        # Who finds a start finds its run too.
        self.sums[place - 1 : place - 1 + len(runs)] = window.sums([start, *runs])
        self.runs[place : place + len(runs)] = runs
        self.starts[number : number + len(ends)] = ends

    def still_in(self, file: Reading, start: int, end: int) -> Optional[bytes]:
        """The codestream that was found there, if the file has its run as it was, whatever else was changed."""
        place = bisect_right(self.runs, start) - 1
        first = self.runs[place]
        data = file.peek(first, self.runs[place + 1])
        return data[start - first : end - first] if zlib.crc32(data) == self.sums[place] else None

    def after(self, index: Index) -> "_Found":
        """Those of them that an index doesn't have which has grown. Raises WrongIndex if its last line says otherwise."""
        starts = self.starts[index.count - self.first :] or [index.end]
        if starts[0] != index.end or index.count > self.count and index.end <= self.end:
            raise WrongIndex(index.path, index.count - 1, f"it ends at {index.end}, where no codestream of its number does")
        found = _Found(index.count, starts)
        if len(starts) > 1:
            found.runs, found.sums = self.runs, self.sums
        return found


class _Place(NamedTuple):
    """Where a codestream begins and ends in a file, and its line in an index, or those it was found with by markers."""

    file: Reading
    start: int
    end: int
    line: Optional[Line]
    found: Optional[_Found]

    def read(self) -> bytes:
        """The codestream. Raises WrongIndex if it isn't the line's, and RecordingChanged if the file was changed, unless
        the codestream is there as it was."""
        try:
            data = self.file.read(self.start, self.end)
        except RecordingChanged:
            data = self._still()
            if data is None:
                raise
        if self.line is not None:
            self.line.check_sum(data)
            if _Window(0, data).extents(0, 1)[0] != [len(data)]:
                raise self.line.wrong(f"no codestream is there of {len(data)} bytes at {self.start}")
            self.header(data)
        return data

    def _still(self) -> Optional[bytes]:
        """The codestream in a file that was changed, if its sum is what it was."""
        if self.line is None:
            return self.found.still_in(self.file, self.start, self.end)
        data = self.file.peek(self.start, self.end)
        return data if self.line.has_sum_of(data) else None

    def header(self, data: bytes) -> Header:
        """What data says, which is the codestream or its front. Raises WrongIndex if it isn't what the line says."""
        try:
            form = _form(data)
        except JlsrecError as error:
            is_front = error.status == _library.TRUNCATED and len(data) < self.end - self.start
            if self.line is None or is_front:
                raise
            text = f"no codestream is there of {self.end - self.start} bytes at {self.start}: {error}"
            raise self.line.wrong(text) from None
        if self.line is not None:
            self.line.check_form(form, data)
        return _header_of(form)


class _Filling:
    """Frames of a recording that threads decode into an array, each frame once, and in order."""

    def __init__(self, recording: Recording, numbers: Sequence[int], array: np.ndarray, workers: int) -> None:
        self._recording, self._numbers, self._array, self._workers = recording, numbers, array, workers
        # The first frame that nobody has begun, and the first that can't be read, with its error: by place in the array.
        self._next = 0
        self._failed: Optional[Tuple[int, Exception]] = None
        self._lock = threading.Lock()

    def run(self) -> None:
        """Decodes all frames. Raises the error of the first that can't be read, once those before it are decoded."""
        threads = [threading.Thread(target=self._work, daemon=True) for _ in range(self._workers - 1)]
        try:
            for thread in threads:
                thread.start()
            self._work()
            for thread in threads:
                thread.join()
        except BaseException:
            self._next = len(self._numbers)
            for thread in threads:
                if thread.ident is not None:
                    thread.join()
            raise
        if self._failed is not None:
            raise self._failed[1]

    def _work(self) -> None:
        """Decodes frames until all are begun, or one can't be read."""
        # So many at a time that threads seldom wait for each other, and end at about the same time.
        step = max(1, min(16, len(self._numbers) // (8 * self._workers)))
        while True:
            with self._lock:
                first = self._next
                if first >= len(self._numbers) or self._failed is not None:
                    return
                self._next = first + step
            for place in range(first, min(first + step, len(self._numbers))):
                try:
                    self._fill(place)
                except Exception as error:
                    with self._lock:
                        if self._failed is None or place < self._failed[0]:
                            self._failed = place, error
                    return

    def _fill(self, place: int) -> None:
        """Decodes the frame of this place in the array."""
        number, out = self._numbers[place], self._array[place]
        try:
            self._recording._frame(self._recording._span(number), number, out)
        except JlsrecError:
            raise
        except ValueError:
            header = self._recording.header(number)
            text = f"frame {number} is {header.shape} of {header.dtype}, where {out.shape} of {out.dtype} is wanted"
            raise ValueError(text) from None


class _Window:
    """Bytes of a file, in memory, and the place in it at which they begin."""

    def __init__(self, start: int, data: bytes) -> None:
        self.start, self.end, self.data = start, start + len(data), data
        self._array = np.frombuffer(data, np.uint8) if data else np.empty(0, np.uint8)
        self._address = self._array.ctypes.data

    def extents(self, start: int, most: int) -> tuple[list[int], int]:
        """Where the codestreams from start on end whose EOI is in these bytes, at most so many; and why no further one
        was looked for or found, as the library's status."""
        left = self.end - start
        sizes = np.empty(min(most, left // LEAST + 1, MANY), np.uintp)
        count, fault = ctypes.c_size_t(), _library.Fault()
        status = _library.library().jlsrec_extents(
            self._address + start - self.start,
            left,
            sizes.ctypes.data,
            sizes.size,
            ctypes.byref(count),
            ctypes.byref(fault),
        )
        return list(itertools.accumulate(sizes[: count.value].tolist(), initial=start))[1:], status

    def sums(self, places: list[int]) -> Iterator[int]:
        """The CRC-32 of the bytes from each place to the next."""
        places = [place - self.start for place in places]
        return map(zlib.crc32, map(self.data.__getitem__, map(slice, places, places[1:])))


def write(
    path: Union[str, os.PathLike],
    arrays: Iterable[np.ndarray],
    maxval: Optional[int] = None,
    preset: Optional[Preset] = None,
    replace: bool = False,
) -> int:
    """Writes a recording, the joined codestreams of arrays, and returns how many there were.

    path: the recording's file, PATH below.
    arrays: an iterable of pictures, such as a list or a generator, or an array (frames, height, width) or (frames,
    height, width, 3). One picture is refused; so is an array (frames, height, 3), which may be one: pass list(array)
    instead.
    maxval and preset: as for encode.
    replace: whether an existing file is replaced; otherwise it raises FileExistsError, also if it was created meanwhile.

    The recording is written to PATH.part (or PATH.part.1, .. if there is one), is synced, and then takes its place; so
    the folder has to be writable. Until then the earlier file stays at PATH, unchanged; programs that have it open can
    go on reading it, and the arrays may come from it. If an array can't be encoded, or anything else fails, PATH is as
    it was; PATH.part has the codestreams of the arrays before, which a note of the error says (`__notes__`), and is
    removed if there were none. Without arrays the recording has no frame; it doesn't replace one that has bytes: that
    is a ValueError.

    Raises what encode raises for an array, TypeError for what isn't frames, and OSError if the file can't be written:
    BlockingIOError if another program holds a lock of it.
    """
    shape = None if isinstance(arrays, Recording) else getattr(arrays, "shape", None)
    if isinstance(shape, tuple) and (len(shape) < 3 or (len(shape) == 3 and shape[2] == 3)):
        raise TypeError(f"frames are wanted, not the rows of one: this is {shape}; pass a single picture as [picture]")
    each = iter(arrays)
    frames = whole = 0
    file = NewFile(path, replace)
    try:
        for array in each:
            file.write(encode(array, maxval, preset))
            frames, whole = frames + 1, file.count
        if frames == 0 and file.earlier > 0:
            raise ValueError(f"{file.path}: there are no frames to replace it by")
        file.finish()
    except BaseException as error:
        part = file.keep(whole) if frames > 0 else file.drop()
        if part is not None:
            _note(error, f"{part} has the {frames} frames that were written")
        raise
    return frames


class Writer:
    """A recording that is written frame by frame, and may be read meanwhile.

        with jlsrec.Writer("night.jls", maxval=4095) as writer:
            for array in camera: writer.append(array)

    The recording grows at its place, PATH, as that of `jlsrec record` does: so each frame that was appended can be read
    at once, also by another program (`Recording.refresh`), and stays if the process dies. It has the codestreams of the
    frames that were appended, one after the other, and nothing else. Only while a frame is appended, or if the process
    is killed then, may the beginning of its codestream stand after them: readers take that as the recording's end. What
    was appended is on the disk, and so stays if the machine fails, once sync() or close() has returned. (`write`, which
    has all frames at once, puts a recording to its place only when it is complete.)

    If a frame can't be appended, append() raises the error, recording and index are as they were before, and others can
    be appended. If the `with` block raises an error, the frames before it stay, as with close(); a new recording without
    frames is removed. PATH is locked (flock) until it is closed, so that `write` and `jlsrec record` leave it alone.

    A recording that is there is never written over, and only with `append=True` continued:

        with jlsrec.Writer("night.jls", maxval=4095, index=True, append=True, repair=True) as writer: ...

    goes on after its last frame, whoever wrote it. What stands there is never changed, but for what `repair=True` cuts
    off: the beginning of a last codestream, or of a line of the index, as a process that is killed leaves it.

    Threads may share a writer: they encode side by side, and frames are numbered as their calls come to write them.

    path: the recording's file, as a Path. frames: how many frames the recording has.
    """

    def __init__(
        self,
        path: Name,
        maxval: Optional[int] = None,
        preset: Optional[Preset] = None,
        index: Union[Name, bool, None] = None,
        append: bool = False,
        repair: bool = False,
    ) -> None:
        """Makes an empty recording, or continues one.

        path: its file. maxval and preset: of each frame that is appended, as for encode; those of frames that are there
        aren't looked at.
        index: the file of an index, or True for PATH.index, as `jlsrec record --index` writes it: the line of each
        codestream, once the codestream is written. By default there is none, and one that is there stays as it is.
        append: whether a recording that is at PATH is continued. Its frames are found as Recording finds them, by all of
        their markers, or by the index that is named: that must be the recording's, by its last line, and may be of a front
        of it; lines that it lacks are added, with sums if the others have them. Where there is no recording, or no index, a
        new one is made.
        repair: whether what was torn is cut off when a recording is continued: the beginning of a codestream after the last
        frame, with zeros behind it perhaps; a last line of the index that isn't complete, and lines of frames that aren't
        there any more. Without it that is an error, whose text says how many bytes it is. Nothing else is ever cut off:
        where frames may stand behind damage, and where the rest isn't JPEG-LS at all, it is an error still.

        Raises FileExistsError if one of the files exists and append isn't set; BlockingIOError if another program is
        writing one of them, and another OSError if one can't be made or written; JlsrecError for a recording that can't be
        continued, and WrongIndex for an index that isn't its. Then there is no new file, and an earlier recording is as it
        was.
        """
        if repair and not append:
            raise ValueError("only a recording that is continued is repaired: repair=True wants append=True")
        self.path = Path(path)
        self.frames = 0
        self._options = (maxval, preset)
        self._lock = threading.RLock()
        self._lines: Optional[GrowingFile] = None
        self._has_sums = True
        self._file: Optional[GrowingFile] = GrowingFile(path, append)
        try:
            if index is not None and index is not False:
                name = _index_name(path, index)
                if append and is_same(path, name):
                    raise WrongIndex(os.fsdecode(name), 0, "it is the recording itself")
                self._lines = GrowingFile(name, append)
            if append:
                self._go_on(repair)
        except BaseException:
            self._drop()
            raise

    def _go_on(self, repair: bool) -> None:
        """Goes on after the frames that are there. Nothing is cut off before all of it was looked at."""
        file, lines = self._file, self._lines
        index = None if lines is None else Index(lines.path)
        is_ahead = index is not None and index.end > file.count
        if index is not None:
            _check_torn_index(index, is_ahead, repair)
        with Recording(self.path, None if index is None or is_ahead else index.path) as film:
            if not film._opened()[0].is_of(file.made) or index is not None and not index.is_of(lines.made):
                raise RecordingChanged(errno.ESTALE, "another file was put in its place", os.fsdecode(self.path))
            if index is not None:
                _check_last_line(film, index)
            self.frames, end = len(film), film._found.end
            if end < file.count:
                _check_rest(film, repair)
            if index is not None:
                self._has_sums = index.has_sums
                if lines.count > index.start_of(self.frames):
                    lines.cut(index.start_of(self.frames))
                    lines.sync()
                for number in range(index.count, self.frames):
                    self._list(number, film._span(number).start, film.data(number))
        if end < file.count:
            file.cut(end)
            file.sync()

    def _list(self, number: int, start: int, data: bytes) -> None:
        """Adds the line of a codestream to the index."""
        try:
            form = _form(data)
        except JlsrecError as error:
            raise error.of_frame(number) from None
        self._lines.append(line_of(number, start, form, data, self._has_sums))

    def append(self, array: np.ndarray) -> int:
        """Appends a frame, and answers its number, from 0.

        Raises what encode raises for the array, OSError if it can't be written, RecordingChanged if a program that heeds no
        lock has changed the size of the recording or its index, and ValueError after close(). Both are then as they were
        before.
        """
        self._opened()
        data = encode(array, *self._options)
        with self._lock:
            file, number, start = self._opened(), self.frames, self._file.count
            lines = self._lines
            listed = lines.count if lines is not None else 0
            for each in (file, lines):
                if each is not None:
                    each.check()
            try:
                file.append(data)
                if lines is not None:
                    self._list(number, start, data)
                self.frames = number + 1
            except BaseException:
                # The line first: an index never has more than its recording.
                if lines is not None:
                    lines.cut(listed)
                file.cut(start)
                self.frames = number
                raise
        return number

    def sync(self) -> None:
        """Waits until all that was appended is on the disk. Raises OSError if that fails, and ValueError after close()."""
        with self._lock:
            self._opened().sync()
            if self._lines is not None:
                self._lines.sync()

    def close(self) -> None:
        """Syncs and closes the recording; a second time it does nothing. Raises OSError if it can't be synced."""
        with self._lock:
            file, self._file = self._file, None
            if file is not None:
                try:
                    file.close()
                finally:
                    if self._lines is not None:
                        self._lines.close()

    def _opened(self) -> GrowingFile:
        if self._file is None:
            raise ValueError(f"{self.path}: the recording was closed")
        return self._file

    def __repr__(self) -> str:
        return f"<jlsrec.Writer {os.fsdecode(self.path)!r}>"

    def __enter__(self) -> "Writer":
        self._opened()
        return self

    def __exit__(self, kind: object, *error: object) -> None:
        with self._lock:
            if kind is not None and self.frames == 0 and self._file is not None:
                self._drop()
        self.close()

    def _drop(self) -> None:
        """Closes the files, and removes those that were made here."""
        file, self._file = self._file, None
        if self._lines is not None:
            self._lines.drop()
        file.drop()


def _check_torn_index(index: Index, is_ahead: bool, repair: bool) -> None:
    """Raises WrongIndex if an index has a last line that isn't complete, or lines of more than its recording has."""
    if repair:
        return
    if not index.is_complete:
        raise WrongIndex(index.path, index.count, "it isn't complete; repair=True cuts it off")
    if is_ahead:
        raise WrongIndex(index.path, index.count - 1, "the recording ends before; repair=True cuts such lines off")


def _check_last_line(film: Recording, index: Index) -> None:
    """Raises WrongIndex if the last line that an index has of a recording's frames isn't of the codestream there."""
    count = index.count
    if film._opened()[1] is None:
        count = min(count, len(film))
    if count == 0:
        return
    line = index.line(count - 1)
    place = film._span(count - 1)
    if (line.start, line.end) != (place.start, place.end):
        raise line.wrong(f"the codestream there has {place.end - place.start} bytes at {place.start}")
    place._replace(line=line).read()


def _check_rest(film: Recording, repair: bool) -> None:
    """Raises JlsrecError unless what stands after a recording's frames was torn, and is to be cut off.

    Torn is what a process that is killed leaves, or a machine that fails: the front of a codestream, and zeros behind it.
    It is none if another codestream may stand in it, as after damage to a segment's length.
    """
    file, start, fault = film._walk(), film._found.end, film.fault
    if fault is None:
        raise file.written_over()
    end = _end_before_zeros(file, start)
    if end == start:
        is_torn = len(film) > 0
    elif film._torn or end - start <= WINDOW:
        front = file.read(start, end)
        is_open = _Window(0, front).extents(0, 1)[1] == _fault_of(front)[0] == _library.TRUNCATED
        is_torn = is_open and front.find(SOI, 2) < 0
    else:
        is_torn = False
    if is_torn and repair:
        return
    error = fault.of_frame(len(film))
    offer = f": {file.size - start} bytes at {start}, which were torn; repair=True cuts them off" if is_torn else ""
    error.args = (f"{film.path}: {error}{offer}",)
    raise error


def _end_before_zeros(file: Reading, start: int) -> int:
    """Where a file's bytes from a place on end, but for zeros at its end."""
    end = file.size
    while end > start:
        first = max(start, end - WINDOW)
        block = file.read(first, end).rstrip(b"\0")
        if block:
            return first + len(block)
        end = first
    return start


def _note(error: BaseException, text: str) -> None:
    """Adds a note to an error, as Python does from 3.11 on."""
    error.__notes__ = [*getattr(error, "__notes__", []), text]


class _Kept(threading.local):
    """Memory that a thread codes into, kept from call to call. Only what a codestream filled of it is resident."""

    room = np.empty(0, np.uint8)


_kept = _Kept()


def _room(size: int) -> np.ndarray:
    if _kept.room.size < size:
        _kept.room = np.empty(size, np.uint8)
    return _kept.room


def _index_name(path: Name, index: Union[Name, bool]) -> Name:
    """The name of a recording's index, which is given, or follows from the recording's."""
    return f"{os.fsdecode(path)}.index" if index is True else index


def _preset(preset: Optional[Preset]) -> tuple[int, ...]:
    """Coding parameters that the library's form has room for."""
    if preset is None:
        return (0, 0, 0, 0)
    numbers = tuple(operator.index(number) for number in preset)
    if len(numbers) != 4:
        raise ValueError(f"a preset is T1, T2, T3 and RESET, and this is {numbers}")
    for number, status in zip(numbers, _library.BAD_PRESET):
        if not 0 <= number <= 65535:
            raise JlsrecError(status, _library.Fault()).naming(number)
    return numbers


def _stride(array: np.ndarray) -> Optional[int]:
    """How many samples from row to row, if each row is contiguous and rows go downwards in memory; else None."""
    size = array.itemsize
    components = 1 if array.ndim == 2 else 3
    if array.size == 0:
        return array.shape[1] * components
    apart = array.strides[0]
    across = (size,) if array.ndim == 2 else (components * size, size)
    if array.shape[1] > 1 and array.strides[1] != across[0]:
        return None
    if array.ndim == 3 and array.strides[2] != size:
        return None
    if array.ctypes.data % size != 0:
        return None
    if array.shape[0] == 1:
        return array.shape[1] * components
    if apart % size != 0 or apart < array.shape[1] * components * size:
        return None
    return apart // size


def _bytes_of(data: Data) -> Bytes:
    """The bytes of data, where they are."""
    if isinstance(data, bytes):
        return data
    if isinstance(data, np.ndarray):
        if data.dtype != np.uint8 or data.ndim != 1 or not data.flags.c_contiguous:
            raise TypeError("data in an array must be contiguous uint8 of one dimension")
        return data
    return np.frombuffer(data, np.uint8) if memoryview(data).nbytes > 0 else b""


def _address(data: Bytes) -> Union[bytes, int]:
    """What ctypes takes for a pointer to the bytes."""
    return data if isinstance(data, bytes) else data.ctypes.data


def _shape_of(form: Union[Header, _library.Form]) -> tuple[int, ...]:
    return (form.height, form.width) if form.components == 1 else (form.height, form.width, 3)


def _type_of(form: Union[Header, _library.Form]) -> np.dtype:
    return BYTE if form.maxval <= 255 else WORD


def _form(data: Bytes) -> _library.Form:
    form, fault = _library.Form(), _library.Fault()
    status = _library.library().jlsrec_read_form(_address(data), len(data), ctypes.byref(form), ctypes.byref(fault))
    _library.check(status, fault)
    return form


def _header(data: Bytes) -> Header:
    return _header_of(_form(data))


def _header_of(form: _library.Form) -> Header:
    return Header(form.width, form.height, form.components, form.maxval, (form.t1, form.t2, form.t3, form.reset))


def _header_in(columns: bytes) -> Header:
    """The header that a line of an index has: kind, width, height, maxval, P, T1, T2, T3 and RESET."""
    kind, *numbers = columns.split(b" ")
    width, height, maxval, _, *preset = map(int, numbers)
    return Header(width, height, 1 if kind == b"gray" else 3, maxval, tuple(preset))


def _array(out: object) -> np.ndarray:
    """What is to be decoded into. Raises TypeError if that isn't an array."""
    if not isinstance(out, np.ndarray):
        raise TypeError(f"out must be an array, and is {type(out).__name__}")
    return out


def _fitting(out: Optional[np.ndarray], shape: tuple[int, ...], kind: np.dtype) -> np.ndarray:
    """The array that samples of a shape and a type are decoded into. Raises TypeError or ValueError if out doesn't fit."""
    if out is None:
        return np.empty(shape, kind)
    if _array(out).shape != shape or out.dtype not in (WORD, kind):
        raise ValueError(f"out must be {shape} of {kind}, and is {out.shape} of {out.dtype}")
    if not (out.flags.c_contiguous and out.flags.writeable and out.flags.aligned):
        raise ValueError("out must be contiguous and writable")
    return out


def _decode(data: Bytes, out: Optional[np.ndarray]) -> tuple[np.ndarray, int]:
    """The picture at the front of the bytes, and how many of them are its codestream."""
    form = _form(data)
    out = _fitting(out, _shape_of(form), _type_of(form))
    fault, used, library = _library.Fault(), ctypes.c_size_t(), _library.library()
    status = (library.jlsrec_decode_8 if out.dtype.itemsize == 1 else library.jlsrec_decode_16)(
        _address(data),
        len(data),
        out.ctypes.data,
        out.size,
        ctypes.byref(form),
        ctypes.byref(used),
        ctypes.byref(fault),
    )
    _library.check(status, fault)
    return out, used.value


def _fault_of(data: bytes) -> tuple[int, _library.Fault]:
    """The status of bytes that don't end as a codestream does, and its details: their first fault."""
    try:
        _decode(data, None)
    except JlsrecError as error:
        return error.status, error.fault
    return _library.OK, _library.Fault()
