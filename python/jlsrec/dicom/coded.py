"""A DICOM file with its frames as JPEG-LS codestreams, and the file that it was made of, byte for byte.

A file is its front (preamble, meta information and the elements before the pixel data), its frames, and its tail. In
transfer syntax 1.2.840.10008.1.2.4.80 each frame is a codestream, a fragment of its own after a basic offset table.
The front and the tail stay what they are in explicit little endian; of an implicit file each element gets its value
representation. Nothing else changes but the transfer syntax, Planar Configuration, which is 0 then, and the lengths of
groups that say theirs. So the file can be made again from its coded one, and it is only coded if all of its bytes can.
"""

from __future__ import annotations

import hashlib
import struct
from collections.abc import Callable, Iterator
from dataclasses import dataclass
from typing import Any, Optional, Protocol

import numpy as np

from .. import JlsrecError, decode, encode
from .elements import (
    ITEM,
    MAGIC,
    META,
    META_LENGTH,
    PIXEL_DATA,
    SEQUENCE_END,
    TRANSFER_SYNTAX,
    UNDEFINED,
    Left,
    TooShort,
    converted,
    element_at,
    head_at,
    shown_tag,
)

JPEG_LS_LOSSLESS = "1.2.840.10008.1.2.4.80"
# The transfer syntaxes that are coded, and whether their elements say their value representations.
RAW = {"1.2.840.10008.1.2": False, "1.2.840.10008.1.2.1": True}

ROWS, COLUMNS, COLORS, PHOTOMETRIC = 0x00280010, 0x00280011, 0x00280002, 0x00280004
PLANAR, FRAMES = 0x00280006, 0x00280008
ALLOCATED, STORED, HIGH_BIT, SIGNED = 0x00280100, 0x00280101, 0x00280102, 0x00280103
PIXEL_GROUP_LENGTH = 0x7FE00000

# The photometric interpretations whose samples are all stored, by samples a pixel.
WHOLE = {1: {"MONOCHROME1", "MONOCHROME2", "PALETTE COLOR"}, 3: {"RGB", "YBR_FULL"}}

# How much is read first of a file to find its pixel data, and the most that may stand before or after them.
FIRST = 1 << 16
MOST = 1 << 28
MOST_SAMPLES = 1 << 28
CHUNK = 1 << 20

_ITEM = struct.Struct("<HHI")


class Damaged(Exception):
    """Why a coded file isn't what it was made as."""


class Reads(Protocol):
    """A file that is read at any place."""

    size: int

    def read(self, at: int, count: int) -> bytes:
        """Exactly this number of bytes."""


@dataclass(frozen=True)
class Front:
    """What stands before the frames of a file."""

    syntax: str
    # The preamble and the meta information; the elements from there up to the pixel data.
    meta: bytes
    elements: bytes
    # The values of group 0028, and where that of Planar Configuration begins in the elements.
    values: dict[int, bytes]
    planar_at: int
    has_group_length: bool
    # The pixel data's value: its representation, where it begins in the file, and its length.
    vr: bytes
    at: int
    length: int

    @property
    def is_explicit(self) -> bool:
        """Whether its elements say their value representations."""
        return RAW.get(self.syntax, True)

    def number(self, tag: int) -> int:
        """An unsigned number of 16 bits among the values."""
        value = self.values.get(tag, b"")
        if len(value) != 2:
            raise Left(f"its {shown_tag(tag)} isn't one number of 16 bits")
        return int.from_bytes(value, "little")


@dataclass(frozen=True)
class Origin:
    """What a coded file doesn't say of the one that it was made of."""

    syntax: str
    vr: str
    planar: int


@dataclass(frozen=True)
class Picture:
    """What the values of a file's frames are."""

    frames: int
    rows: int
    columns: int
    colors: int
    allocated: int
    stored: int
    signed: bool

    @property
    def maxval(self) -> int:
        """The greatest sample of a codestream: that of Bits Stored, or of Bits Allocated.

        The latter if values are signed, which go in two's complement, and up to 8 bits stored: GDCM and DCMTK read no
        samples of 8 bits for words of 16, and DCMTK few of less than 8.
        """
        return (1 << (self.allocated if self.signed or self.stored <= 8 else self.stored)) - 1

    @property
    def frame_size(self) -> int:
        """How many bytes the values of a frame take."""
        return self.rows * self.columns * self.colors * self.allocated // 8

    @property
    def size(self) -> int:
        """How many bytes the pixel data take, which are an even number."""
        count = self.frames * self.frame_size
        return count + count % 2

    def array(self, data: bytes, planar: int) -> np.ndarray:
        """The values of a frame, (rows, columns) or (rows, columns, 3)."""
        values = np.frombuffer(data, "u1" if self.allocated == 8 else "<u2")
        if self.colors == 1:
            return values.reshape(self.rows, self.columns)
        if planar == 0:
            return values.reshape(self.rows, self.columns, 3)
        return values.reshape(3, self.rows, self.columns).transpose(1, 2, 0)

    def data(self, array: np.ndarray, planar: int) -> bytes:
        """The bytes of a frame's values in the file."""
        if self.colors == 3 and planar == 1:
            array = array.transpose(2, 0, 1)
        return array.astype("u1" if self.allocated == 8 else "<u2", copy=False).tobytes()

    def check(self, array: np.ndarray) -> None:
        """Raises Left if there is more in the frame's bits than its values."""
        if self.stored == self.allocated:
            return
        if self.signed:
            array = array.view("i1" if self.allocated == 8 else "<i2")
            fits = -1 << self.stored - 1 <= int(array.min()) and int(array.max()) < 1 << self.stored - 1
        else:
            fits = int(array.max()) < 1 << self.stored
        if not fits:
            raise Left("bits above its Bits Stored are in use")


def front_of(file: Reads) -> Front:
    """The front of a file. Raises Left if the file isn't one that is coded, or is coded already."""
    return _read_in(file, _front)


def syntax_of(file: Reads) -> str:
    """The transfer syntax of a file. Raises Left if it isn't a DICOM file."""
    return _read_in(file, _syntax)[0]


def _read_in(file: Reads, read: Callable[[bytes, int], Any]) -> Any:
    """What is read in the first bytes of a file, of which no more are taken than that needs."""
    count = FIRST
    while True:
        data = file.read(0, min(count, file.size))
        try:
            return read(data, file.size)
        except TooShort:
            if len(data) == file.size:
                raise Left("it breaks off within an element") from None
        except RecursionError:
            raise Left("its sequences are too deep") from None
        if count >= MOST:
            raise Left("what stands before its pixel data is too large")
        count *= 4


def _front(data: bytes, size: int) -> Front:
    syntax, start = _syntax(data, size)
    if syntax not in RAW and syntax != JPEG_LS_LOSSLESS:
        raise Left(f"its transfer syntax is {syntax}")
    explicit = RAW.get(syntax, True)
    values: dict[int, bytes] = {}
    at, last, planar_at = start, 0, -1
    while True:
        if at == size:
            raise Left("it has no pixel data")
        tag, vr, value, length = head_at(data, at, explicit)
        if tag == PIXEL_DATA:
            break
        if tag <= last:
            raise Left("its elements are out of order")
        if tag > PIXEL_DATA:
            raise Left("it has no pixel data")
        end = element_at(data, at, explicit).end
        if tag >> 16 == 0x0028:
            values[tag] = data[value:end]
            planar_at = value - start if tag == PLANAR else planar_at
        at, last = end, tag
    if last > PIXEL_GROUP_LENGTH:
        raise Left(f"it has {shown_tag(last)}")
    grouped = last == PIXEL_GROUP_LENGTH
    return Front(syntax, data[:start], data[start:at], values, planar_at, grouped, vr, value, length)


def _syntax(data: bytes, size: int) -> tuple[str, int]:
    """The transfer syntax, and where the meta information ends."""
    if data[META - len(MAGIC) : META] != MAGIC:
        raise Left("it is no DICOM file")
    at, syntax = META, b""
    while at < size:
        if at + 2 > len(data):
            raise TooShort
        if data[at : at + 2] != b"\2\0":
            break
        element = element_at(data, at, True)
        if element.end > len(data):
            raise TooShort
        if element.tag == TRANSFER_SYNTAX:
            syntax = data[element.value : element.end]
        at = element.end
    return syntax.rstrip(b"\0 ").decode("ascii", "backslashreplace") or "not named", at


def picture_of(front: Front) -> Picture:
    """What the frames of a file are. Raises Left if they can't be coded, or are to be left as they are."""
    colors, planar = front.number(COLORS), planar_of(front)
    photometric = front.values.get(PHOTOMETRIC, b"").rstrip(b"\0 ").decode("ascii", "backslashreplace")
    if photometric not in WHOLE.get(colors, set()):
        raise Left(
            f"it has {colors} samples a pixel and the photometric interpretation {photometric or 'that it lacks'}"
        )
    if planar not in (0, 1):
        raise Left(f"its Planar Configuration is {planar}")
    allocated, stored, high = front.number(ALLOCATED), front.number(STORED), front.number(HIGH_BIT)
    if allocated not in (8, 16) or not 1 <= stored <= allocated or high != stored - 1:
        raise Left(f"it has {allocated} bits a sample, {stored} of them stored, and its High Bit is {high}")
    signed = front.number(SIGNED)
    if signed > 1:
        raise Left(f"its Pixel Representation is {signed}")
    frames = frames_in(front)
    rows, columns = front.number(ROWS), front.number(COLUMNS)
    if min(rows, columns) == 0 or rows * columns * colors > MOST_SAMPLES:
        raise Left(f"its frames are {columns} by {rows} of {colors}")
    return Picture(frames, rows, columns, colors, allocated, stored, signed == 1)


def frames_in(front: Front) -> int:
    """The Number of Frames of a file, 1 if it says none. Raises Left if that isn't a number over 0."""
    text = front.values.get(FRAMES, b"1").strip(b"\0 ")
    if not text.isdigit() or int(text) == 0:
        raise Left(f"its Number of Frames is {text.decode('ascii', 'backslashreplace')!r}")
    return int(text)


def planar_of(front: Front) -> int:
    """The Planar Configuration of a file, which only one of colour has to have."""
    return front.number(PLANAR) if front.values.get(COLORS) == b"\3\0" else 0


def front_in(front: Front, origin: Origin, length: int, group_length: int) -> bytes:
    """The front of the same file in another transfer syntax, up to its pixel data's value of this length."""
    elements = front.elements
    if front.planar_at >= 0 and front.values.get(COLORS) == b"\3\0":
        planar = origin.planar.to_bytes(2, "little")
        elements = elements[: front.planar_at] + planar + elements[front.planar_at + 2 :]
    explicit = RAW.get(origin.syntax, True)
    elements = _reencoded(front, elements, explicit)
    if front.has_group_length:
        elements = elements[:-4] + group_length.to_bytes(4, "little")
    vr = origin.vr.encode() + b"\0\0" if explicit else b""
    head = b"\xe0\x7f\x10\0" + vr + length.to_bytes(4, "little")
    return _meta_in(front.meta, origin.syntax.encode()) + elements + head


def _reencoded(front: Front, data: bytes, explicit: bool) -> bytes:
    """Elements of the file in explicit or implicit encoding."""
    if explicit == front.is_explicit:
        return data
    try:
        return converted(data, front.is_explicit, front.values.get(SIGNED) == b"\1\0")
    except TooShort:
        raise Left("it breaks off within an element") from None
    except RecursionError:
        raise Left("its sequences are too deep") from None


def _meta_in(meta: bytes, syntax: bytes) -> bytes:
    """The meta information with another transfer syntax."""
    parts, at, length_at = [meta[:META]], META, -1
    while at < len(meta):
        element = element_at(meta, at, True)
        part = meta[at : element.end]
        if element.tag == TRANSFER_SYNTAX:
            value = syntax + b"\0" * (len(syntax) % 2)
            part = part[:6] + len(value).to_bytes(2, "little") + value
        if element.tag == META_LENGTH and length_at < 0:
            length_at = len(parts)
        parts.append(part)
        at = element.end
    if length_at >= 0:
        count = sum(map(len, parts[length_at + 1 :]))
        parts[length_at] = parts[length_at][:-4] + count.to_bytes(4, "little")
    return b"".join(parts)


class Plan:
    """How a file is coded: its picture, and its front and its tail in either transfer syntax."""

    def __init__(self, source: Reads) -> None:
        """Raises Left if the file is to be left as it is."""
        self.source = source
        self.front = front = front_of(source)
        if front.syntax not in RAW:
            raise Left(f"its transfer syntax is {front.syntax}")
        self.picture = picture = picture_of(front)
        if front.length != picture.size:
            raise Left(f"its pixel data say {front.length} bytes, and its frames take {picture.size}")
        end = front.at + front.length
        if end > source.size:
            raise Left("it breaks off within its pixel data")
        if source.size - end > MOST:
            raise Left("what stands after its pixel data is too large")
        self.pad = source.read(end - 1, 1) if picture.frames * picture.frame_size % 2 else b""
        self.tail = source.read(end, source.size - end)
        if front.has_group_length and self.tail[:2] == b"\xe0\x7f":
            raise Left("it has elements of group 7FE0 after its pixel data")
        self.planar = planar_of(front)
        self.origin = Origin(front.syntax, front.vr.decode(), self.planar)
        self.coded_tail = _reencoded(front, self.tail, True)
        self._check_way_back()

    def _check_way_back(self) -> None:
        """Raises Left if the front or the tail wouldn't come back from the coded file byte for byte."""
        data = self.coded_front(0)
        try:
            back = _front(data, len(data) + 8)
        except TooShort:
            raise Left("its elements aren't whole") from None
        same = raw_front(back, self.origin, self.picture) == self.source.read(0, self.front.at)
        tail = _reencoded(back, self.coded_tail, self.front.is_explicit)
        if not same or tail != self.tail or self.pad not in (b"", b"\0"):
            raise Left("its elements wouldn't come back byte for byte")

    def coded_front(self, group_length: int) -> bytes:
        """The front of the coded file."""
        return front_in(self.front, Origin(JPEG_LS_LOSSLESS, "OB", 0), UNDEFINED, group_length)

    def frames(self) -> Iterator[bytes]:
        """The bytes of each frame's values."""
        count = self.picture.frame_size
        for number in range(self.picture.frames):
            yield self.source.read(self.front.at + number * count, count)

    def check(self) -> None:
        """Raises Left if there is more in a frame than can be coded."""
        for data in self.frames():
            self.picture.check(self.picture.array(data, self.planar))

    def write(self, write: Callable[[bytes], None], write_at: Callable[[int, bytes], None]) -> str:
        """Writes the coded file. Answers the SHA-256 of what stands after the table of its frames.

        Raises Left if there is more in a frame than can be coded.
        """
        front = self.coded_front(0)
        table = len(front)
        write(front + _ITEM.pack(ITEM >> 16, ITEM & 0xFFFF, 4 * self.picture.frames) + bytes(4 * self.picture.frames))
        starts, at, sum = [], 0, hashlib.sha256()
        for data in self.frames():
            array = self.picture.array(data, self.planar)
            self.picture.check(array)
            codestream = encode(array, self.picture.maxval)
            # A fragment of even length: a byte stands behind EOI where that is needed.
            codestream += b"\0" * (len(codestream) % 2)
            fragment = _ITEM.pack(ITEM >> 16, ITEM & 0xFFFF, len(codestream)) + codestream
            sum.update(fragment)
            write(fragment)
            starts.append(at)
            at += len(fragment)
        end = _ITEM.pack(SEQUENCE_END >> 16, SEQUENCE_END & 0xFFFF, 0) + self.coded_tail
        sum.update(end)
        write(end)
        # From the pixel data's tag to the end of their group.
        length = 12 + 8 + 4 * len(starts) + at + 8
        if length > 0xFFFFFFFF:
            raise Left("its codestreams take over 4 GiB")
        write_at(table + 8, np.array(starts, "<u4").tobytes())
        if self.front.has_group_length:
            write_at(table - 16, length.to_bytes(4, "little"))
        return sum.hexdigest()

    def check_coded(self, coded: Reads, written: Optional[str]) -> None:
        """Raises Damaged if a coded file hasn't the front and the tail that it is to have, or other bytes than written.

        What stands between is checked by raw_chunks.
        """
        front = len(self.coded_front(0))
        length = coded.size - len(self.coded_tail) - front + 12
        table_end = front + 8 + 4 * self.picture.frames
        if not table_end < coded.size < table_end + UNDEFINED:
            raise Damaged("it has another size")
        same = coded.read(0, front) == self.coded_front(length)
        if not same or coded.read(coded.size - len(self.coded_tail), len(self.coded_tail)) != self.coded_tail:
            raise Damaged("it has other elements")
        if written is not None and sum_of(coded, table_end) != written:
            raise Damaged("what was written isn't what is read")


def sum_of(file: Reads, at: int = 0) -> str:
    """The SHA-256 of a file's bytes from a place on."""
    made = hashlib.sha256()
    while at < file.size:
        chunk = file.read(at, min(CHUNK, file.size - at))
        made.update(chunk)
        at += len(chunk)
    return made.hexdigest()


def raw_front(front: Front, origin: Origin, picture: Picture) -> bytes:
    """The front of the file that a coded one was made of."""
    header = 12 if RAW[origin.syntax] else 8
    return front_in(front, origin, picture.size, header + picture.size)


def raw_chunks(file: Reads, origin: Origin, see: Optional[Callable[[np.ndarray], None]] = None) -> Iterator[bytes]:
    """The bytes of the file that a coded one was made of: its front, its frames and its tail, one after the other.

    Each frame's values are shown to see as they come. Raises Damaged if the file isn't a coded one.
    """
    try:
        front = front_of(file)
        if front.syntax != JPEG_LS_LOSSLESS or front.length != UNDEFINED or origin.syntax not in RAW:
            raise Damaged(f"it isn't a coded file: its transfer syntax is {front.syntax}")
        picture = picture_of(front)
        yield raw_front(front, origin, picture)
        at = yield from _raw_frames(file, front.at, picture, origin.planar, see)
        if picture.frames * picture.frame_size % 2:
            yield b"\0"
        yield _reencoded(front, file.read(at, file.size - at), RAW[origin.syntax])
    except Left as why:
        raise Damaged(str(why)) from None
    except JlsrecError as error:
        raise Damaged(f"a frame can't be decoded: {error}") from None


def _raw_frames(file: Reads, at: int, picture: Picture, planar: int, see: Optional[Callable]) -> Iterator[bytes]:
    """The bytes of the frames' values. Answers where the pixel data end."""
    tag, length = item_at(file, at)
    if tag != ITEM or length != 4 * picture.frames:
        raise Damaged("it has no table of its frames")
    table = np.frombuffer(file.read(at + 8, length), "<u4").tolist()
    at = begin = at + 8 + length
    shape = (picture.rows, picture.columns) + ((3,) if picture.colors == 3 else ())
    for start in table:
        tag, length = item_at(file, at)
        if tag != ITEM or at - begin != start:
            raise Damaged(f"there is no fragment at byte {at}")
        fragment = file.read(at + 8, length)
        if not fragment.endswith((b"\xff\xd9", b"\xff\xd9\0")):
            raise Damaged(f"the fragment at byte {at} doesn't end with its codestream")
        array = decode(fragment)
        if array.shape != shape:
            raise Damaged(f"the frame at byte {at} has another size")
        array = array.astype("u1" if picture.allocated == 8 else "<u2", copy=False)
        if see is not None:
            see(array)
        yield picture.data(array, planar)
        at += 8 + length
    if item_at(file, at) != (SEQUENCE_END, 0):
        raise Damaged(f"its frames don't end at byte {at}")
    return at + 8


def item_at(file: Reads, at: int) -> tuple[int, int]:
    """The tag and the length of an item."""
    if at + 8 > file.size:
        raise Damaged("it breaks off within its frames")
    group, number, length = _ITEM.unpack(file.read(at, 8))
    if at + 8 + (length if length != UNDEFINED else 0) > file.size:
        raise Damaged("it breaks off within its frames")
    return group << 16 | number, length
