"""DICOM files to a film of their stored values.

The frames of the files go into the film in the order in which they are named, each value exactly as it is stored:
rescale slope, windows and lookup tables are never applied, and overlays are left out. A frame's maxval is 2^N - 1,
where N is its Bits Stored. Signed values go in two's complement of their Bits Allocated, at maxval 65535, or 255 if
these are 8; with an offset they go with 2^(N - 1) added, which is said.
"""

from __future__ import annotations

import contextlib
import os
import stat
import sys
import tempfile
import zlib
from collections.abc import Sequence

import numpy as np
import pydicom

from .._files import write_all
from . import Refused

# What pydicom raises of a file that it can't read.
UNREADABLE = (
    OSError,
    AttributeError,
    NotImplementedError,
    RuntimeError,
    TypeError,
    ValueError,
    pydicom.errors.InvalidDicomError,
    zlib.error,
)

# The photometric interpretations whose samples are all stored.
WHOLE = {"MONOCHROME1", "MONOCHROME2", "PALETTE COLOR", "RGB", "YBR_FULL", "YBR_RCT", "YBR_ICT"}


def why_of(error: Exception) -> str:
    """What is said of a file that pydicom can't read. Its own text advises what can't be done here."""
    return "it is no DICOM file" if isinstance(error, pydicom.errors.InvalidDicomError) else str(error)


def decoded(dataset: pydicom.Dataset) -> np.ndarray:
    """The samples of a file. GDCM, by which pydicom may decode them, says on standard error alone that it couldn't."""
    with tempfile.TemporaryFile() as said:
        sys.stderr.flush()
        kept = os.dup(2)
        os.dup2(said.fileno(), 2)
        try:
            samples = dataset.pixel_array
        finally:
            os.dup2(kept, 2)
            os.close(kept)
        said.seek(0)
        text = said.read()
    if text:
        with contextlib.suppress(OSError):
            os.write(2, text)
    if b"Error: In " in text:
        raise Refused("GDCM can't decode it")
    return samples


def stored(dataset: pydicom.Dataset) -> tuple[np.ndarray, int, bool]:
    """The stored values, (frames, height, width) or (frames, height, width, 3), as integers with their signs, and N.

    And whether they are signed: pydicom may change what the file says of that while it decodes it.
    """
    for name in ("PixelData", "Rows", "Columns", "BitsAllocated", "BitsStored", "SamplesPerPixel"):
        if name not in dataset:
            raise Refused(f"it has no {name}")
    bits, colors = int(dataset.BitsStored), int(dataset.SamplesPerPixel)
    if dataset.BitsAllocated not in (8, 16) or not 1 <= bits <= dataset.BitsAllocated:
        raise Refused(f"it has {dataset.BitsAllocated} bits a sample, {bits} of them stored")
    if colors not in (1, 3):
        raise Refused(f"it has {colors} samples a pixel")
    if str(dataset.get("PhotometricInterpretation", "")) not in WHOLE:
        raise Refused(f"its photometric interpretation is {dataset.get('PhotometricInterpretation')}")
    syntax = dataset.file_meta.get("TransferSyntaxUID")
    if syntax is not None and syntax.is_compressed and not dataset["PixelData"].is_undefined_length:
        # GDCM would answer what its memory held.
        raise Refused(f"its pixel data aren't fragments, as those of {syntax} are")
    frames = int(dataset.get("NumberOfFrames", 1))
    signed = int(dataset.get("PixelRepresentation", 0)) == 1
    shape = (frames, int(dataset.Rows), int(dataset.Columns)) + ((3,) if colors == 3 else ())
    values = decoded(dataset).reshape(shape).astype(np.int64)
    values >>= max(int(dataset.get("HighBit", bits - 1)) - (bits - 1), 0)
    values &= (1 << bits) - 1
    if signed:
        values -= (values >> bits - 1) << bits
    return values, bits, signed


def shown(values: np.ndarray, bits: int, allocated: int, signed: bool, offset: bool = False) -> tuple[np.ndarray, int]:
    """The values as samples of a film, and their maxval."""
    if signed and offset:
        return values + (1 << bits - 1), (1 << bits) - 1
    if signed:
        return values & (1 << allocated) - 1, (1 << allocated) - 1
    return values, (1 << bits) - 1


def image(frame: np.ndarray, maxval: int) -> bytes:
    """A frame as a binary Netpbm image."""
    head = f"{'P5' if frame.ndim == 2 else 'P6'}\n{frame.shape[1]} {frame.shape[0]}\n{maxval}\n".encode()
    return head + frame.astype(">u2" if maxval > 255 else "u1").tobytes()


def put(data: bytes) -> None:
    """Writes to standard output, past what Python keeps of it."""
    try:
        write_all(1, data)
    except OSError as error:
        raise OSError(error.errno, error.strerror, "standard output") from None


def finish() -> None:
    """Sees that a file of standard output took it all: some say only when it is synced that there is no space."""
    if stat.S_ISREG(os.fstat(1).st_mode):
        try:
            os.fsync(1)
        except OSError as error:
            raise OSError(error.errno, error.strerror, "standard output") from None


def write_film(names: Sequence[str], offset: bool) -> None:
    """Writes the film of files to standard output, up to the first file that can't be a film."""
    for name in names:
        try:
            dataset = pydicom.dcmread(name)
            values, bits, signed = stored(dataset)
        except Refused as why:
            raise Refused(f"{name}: {why}") from None
        except UNREADABLE as error:
            raise Refused(f"{name}: {why_of(error)}") from error
        if signed and offset:
            print(f"{name}: {1 << bits - 1} added to its signed values", file=sys.stderr)
        if str(dataset.PhotometricInterpretation).startswith("YBR"):
            kind = dataset.PhotometricInterpretation
            print(f"{name}: its components are {kind}, and go as they are", file=sys.stderr)
        samples, maxval = shown(values, bits, int(dataset.BitsAllocated), signed, offset)
        for frame in samples:
            put(image(frame, maxval))
    finish()
