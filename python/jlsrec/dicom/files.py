"""A recording into the DICOM files that its film is of.

The recording's codestreams take the place of the files' pixel data, in the order in which the files made the film:
transfer syntax 1.2.840.10008.1.2.4.80 (JPEG-LS lossless), a fragment a frame, with a basic or an extended offset table.
Bits Allocated is 8 where samples have up to 8 bits: GDCM ends with an assertion over such samples for words of 16, and
DCMTK refuses them. High Bit is Bits Stored - 1, to which `film` shifted the values. All other attributes stay, but group
lengths, which DICOM has retired.

Each codestream is decoded and compared with the values that its file stores. If these can't be read, or the C library
can't be loaded, a line says so, and only size, components and precision are compared.
"""

from __future__ import annotations

import contextlib
import os
import sys
from collections.abc import Sequence
from pathlib import Path

import numpy as np
import pydicom
from pydicom.encaps import encapsulate

from .. import JlsrecError, decode, library_version
from .._files import NewFile
from . import Refused
from .film import UNREADABLE, shown, stored, why_of

JPEG_LS_LOSSLESS = pydicom.uid.UID("1.2.840.10008.1.2.4.80")


def codestreams(data: bytes) -> list[bytes]:
    """The codestreams of a recording (T.87 Annex C), by their markers."""
    found, start = [], 0
    while start < len(data):
        if data[start : start + 2] != b"\xff\xd8":
            raise Refused(f"there is no codestream at byte {start}")
        at = start + 2
        while True:
            while data[at : at + 2] == b"\xff\xff":
                at += 1
            if at + 2 > len(data) or data[at] != 0xFF:
                raise Refused(f"codestream {len(found)} is broken at byte {at}")
            marker, at = data[at + 1], at + 2
            if marker == 0xD9:
                break
            at += int.from_bytes(data[at : at + 2], "big")
            if marker == 0xDA:
                at = data.find(b"\xff", at)
                while 0 <= at < len(data) - 1 and data[at + 1] < 0x80:
                    at = data.find(b"\xff", at + 1)
                if at < 0:
                    raise Refused(f"codestream {len(found)} has no end")
        found.append(data[start:at])
        start = at
    return found


def header_of(codestream: bytes) -> tuple[int, int, int, int]:
    """Bits a sample, rows, columns and components, of the frame header (T.87 C.2.2)."""
    at = 2
    while codestream[at + 1 : at + 2] != b"\xf7":
        at += 2 + int.from_bytes(codestream[at + 2 : at + 4], "big")
        if at >= len(codestream):
            raise Refused("a codestream of the recording has no frame header")
    field = codestream[at + 4 : at + 10]
    if len(field) < 6:
        raise Refused("a codestream of the recording has no whole frame header")
    return field[0], int.from_bytes(field[1:3], "big"), int.from_bytes(field[3:5], "big"), field[5]


def put_into(dataset: pydicom.Dataset, frames: list[bytes], extended: bool) -> None:
    """Puts codestreams in the place of a file's pixel data."""
    signed = int(dataset.get("PixelRepresentation", 0)) == 1
    wanted = int(dataset.BitsAllocated) if signed else max(int(dataset.BitsStored), 2)
    for number, frame in enumerate(frames):
        bits, rows, columns, colors = header_of(frame)
        if (rows, columns, colors) != (dataset.Rows, dataset.Columns, dataset.SamplesPerPixel):
            raise Refused(f"frame {number} is {columns} by {rows} of {colors}, and the file's {dataset.Columns} by {dataset.Rows}")
        if bits != wanted:
            raise Refused(f"frame {number} has samples of {bits} bits, and is to have {wanted}")
    # An element of even length: a byte stands behind EOI where that is needed.
    whole = [frame + b"\0" * (len(frame) % 2) for frame in frames]
    if extended:
        starts = [sum(len(frame) + 8 for frame in whole[:number]) for number in range(len(whole))]
        dataset.ExtendedOffsetTable = b"".join(start.to_bytes(8, "little") for start in starts)
        dataset.ExtendedOffsetTableLengths = b"".join(len(frame).to_bytes(8, "little") for frame in whole)
    else:
        for name in ("ExtendedOffsetTable", "ExtendedOffsetTableLengths"):
            if name in dataset:
                delattr(dataset, name)
    dataset.PixelData = encapsulate(whole, has_bot=not extended)
    dataset["PixelData"].is_undefined_length = True
    dataset["PixelData"].VR = "OB"
    dataset.file_meta.TransferSyntaxUID = JPEG_LS_LOSSLESS
    dataset.BitsAllocated = 8 if wanted <= 8 else 16
    dataset.HighBit = int(dataset.BitsStored) - 1
    if dataset.SamplesPerPixel > 1:
        dataset.PlanarConfiguration = 0
    dataset.is_little_endian, dataset.is_implicit_VR = True, False


def compare(name: str, frames: list[bytes], first: int) -> None:
    """Compares codestreams, of which the first has this number in the recording, with the values that a file stores."""
    try:
        # Read anew: pydicom may change what a file says of its samples while it decodes them.
        dataset = pydicom.dcmread(name)
        values, bits, signed = stored(dataset)
        samples, _ = shown(values, bits, int(dataset.BitsAllocated), signed)
    except (Refused, *UNREADABLE) as why:
        print(f"{name}: its samples weren't compared with the recording's: {why}", file=sys.stderr)
        return
    for number, (frame, wanted) in enumerate(zip(frames, samples)):
        try:
            same = np.array_equal(decode(frame), wanted)
        except JlsrecError as error:
            raise Refused(f"frame {first + number} of the recording can't be decoded: {error}") from None
        if not same:
            raise Refused(
                f"frame {first + number} of the recording has other samples than frame {number} of the file: "
                "are the files named in the order of the film?"
            )


def has_codec() -> bool:
    """Whether samples can be compared; if not, says so."""
    try:
        library_version()
    except ImportError as error:
        print(f"no samples were compared with the recording's: {error}", file=sys.stderr)
        return False
    return True


def filled(recording: str, names: Sequence[str], extended: bool) -> list[pydicom.Dataset]:
    """The files with the recording's codestreams in them."""
    left = codestreams(Path(recording).read_bytes())
    made, done, compared = [], 0, has_codec()
    for name in names:
        try:
            dataset = pydicom.dcmread(name)
            # An element that is kept as it was read may lack its VR, and could not be written.
            for _ in dataset.iterall():
                pass
            count = int(dataset.get("NumberOfFrames", 1))
            frames = left[done : done + count]
            if len(frames) < count:
                raise Refused(f"the recording has {len(frames)} frames for it, and it has {count}")
            put_into(dataset, frames, extended)
            if compared:
                compare(name, frames, done)
        except Refused as why:
            raise Refused(f"{name}: {why}") from None
        except UNREADABLE as error:
            raise Refused(f"{name}: {why_of(error)}") from error
        done += count
        made.append(dataset)
    if done < len(left):
        raise Refused(f"{recording}: {len(left) - done} frames are left over")
    return made


def write_files(recording: str, out: str, names: Sequence[str], extended: bool) -> None:
    """Writes the files: one at OUT, or several of the same names in the folder OUT. None is written over.

    Each is written beside its place first; if one can't be, none of this call stays, nor a folder that it made.
    """
    places = [Path(out)] if len(names) == 1 else [Path(out) / Path(name).name for name in names]
    if len(set(places)) < len(places):
        raise Refused(f"{out}: two of the files have one name")
    for place in places:
        if os.path.lexists(place):
            raise Refused(f"{place}: there is a file of this name")
    made = filled(recording, names, extended)
    folders = [each for each in (places[0].parent, *places[0].parent.parents) if not each.exists()]
    files: list[NewFile] = []
    try:
        places[0].parent.mkdir(parents=True, exist_ok=True)
        for dataset, place in zip(made, places):
            files.append(NewFile(place))
            save(dataset, files[-1])
        for file in files:
            file.finish()
    except BaseException:
        for file in files:
            file.remove()
        for folder in folders:
            with contextlib.suppress(OSError):
                folder.rmdir()
        raise


def save(dataset: pydicom.Dataset, file: NewFile) -> None:
    """Writes a file whole, and syncs it."""
    try:
        with file.named():
            try:
                with open(file.number, "wb", closefd=False) as out:
                    dataset.save_as(out, write_like_original=False)
            except OSError as error:
                # pydicom raises another error, with a traceback for its text, from that of the system.
                raise error.__cause__ if isinstance(error.__cause__, OSError) else error
    except (AttributeError, NotImplementedError, TypeError, ValueError) as error:
        raise Refused(f"{file.path}: {error}") from error
    file.sync()
