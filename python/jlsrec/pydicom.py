"""A pixel data handler for pydicom 2, which it asks before all others: lossless JPEG-LS is decoded by jlsrec.

    import pydicom, jlsrec.pydicom
    jlsrec.pydicom.register()
    values = pydicom.dcmread("slice.dcm").pixel_array

It decodes files of transfer syntax 1.2.840.10008.1.2.4.80, JPEG-LS lossless, and those of .81 that are lossless: gray and
colour, signed or not, of one or several frames. What jlsrec doesn't decode (colour interleaved in one scan, losses) goes
on to pydicom's next handler without a word. A file that is damaged, or whose codestreams aren't what its attributes say,
goes on with a warning, or, after `register(strict=True)`, raises DamagedPixelData. pydicom 2.3.1 was tried.
"""

from __future__ import annotations

import warnings
from collections.abc import Iterator

import numpy as np
import pydicom.config
from pydicom.encaps import generate_pixel_data_frame
from pydicom.pixel_data_handlers.util import get_nr_frames, pixel_dtype
from pydicom.uid import JPEGLSLossless, JPEGLSNearLossless

from . import JlsrecError, _library, decode, read_header

__all__ = ["DamagedPixelData", "register", "unregister"]

# What pydicom asks of a handler.
HANDLER_NAME = "jlsrec"
DEPENDENCIES = {"numpy": ("https://numpy.org/", "NumPy")}
SUPPORTED_TRANSFER_SYNTAXES = [JPEGLSLossless, JPEGLSNearLossless]

_strict = False


class DamagedPixelData(BaseException):
    """The codestreams of a file are damaged, or aren't what its attributes say.

    This isn't an Exception, since after each of those pydicom asks the next handler.
    """


def register(strict: bool = False) -> None:
    """Has pydicom ask jlsrec first. With `strict`, damaged files raise DamagedPixelData, and no other handler is asked."""
    global _strict
    unregister()
    _strict = strict
    pydicom.config.pixel_data_handlers.insert(0, _this())
    # For Dataset.convert_pixel_data("jlsrec").
    pydicom.config.jlsrec_handler = _this()


def unregister() -> None:
    """Has pydicom no longer ask jlsrec."""
    handlers = pydicom.config.pixel_data_handlers
    handlers[:] = [handler for handler in handlers if handler is not _this()]


def _this():
    import sys

    return sys.modules[__name__]


def is_available() -> bool:
    """Whether libjlsrec can be loaded."""
    try:
        _library.library()
    except ImportError:
        return False
    return True


def supports_transfer_syntax(transfer_syntax: str) -> bool:
    return transfer_syntax in SUPPORTED_TRANSFER_SYNTAXES


def needs_to_convert_to_RGB(dataset: pydicom.Dataset) -> bool:
    return False


def should_change_PhotometricInterpretation_to_RGB(dataset: pydicom.Dataset) -> bool:
    return False


def get_pixeldata(dataset: pydicom.Dataset) -> np.ndarray:
    """The values of all frames, in a row, of the type that Bits Allocated and Pixel Representation say.

    Raises NotImplementedError for what is JPEG-LS and isn't decoded here; for damaged data ValueError, after a warning,
    or DamagedPixelData.
    """
    kind = pixel_dtype(dataset)
    if not supports_transfer_syntax(dataset.file_meta.TransferSyntaxUID) or kind.kind not in "iu" or kind.itemsize > 2:
        raise NotImplementedError("jlsrec decodes JPEG-LS of 8 or 16 bits allocated")
    try:
        return _values(dataset, np.dtype(f"=u{kind.itemsize}")).reshape(-1).view(kind)
    except ValueError as error:
        if _strict:
            raise DamagedPixelData(f"jlsrec: {error}") from error
        warnings.warn(f"jlsrec doesn't decode this file, and pydicom asks its next handler: {error}", stacklevel=2)
        raise


def _values(dataset: pydicom.Dataset, kind: np.dtype) -> np.ndarray:
    """The values of all frames as unsigned words. Raises ValueError where the data aren't what the attributes say."""
    frames, colors = get_nr_frames(dataset), int(dataset.SamplesPerPixel)
    shape = (int(dataset.Rows), int(dataset.Columns)) + ((colors,) if colors > 1 else ())
    values = np.empty((frames, *shape), kind)
    count = 0
    for count, data in enumerate(_codestreams(dataset, frames), 1):
        if count > frames:
            raise ValueError(f"there are more than {frames} frames")
        bits = _decode(data, values[count - 1], f"frame {count}")
        if dataset.PixelRepresentation == 1 and int(dataset.BitsStored) <= bits < 8 * kind.itemsize:
            _extend(values[count - 1], bits)
    if count < frames:
        raise ValueError(f"there are {count} of {frames} frames")
    return values


def _codestreams(dataset: pydicom.Dataset, frames: int) -> Iterator[bytes]:
    try:
        yield from generate_pixel_data_frame(dataset.PixelData, frames)
    except (AttributeError, EOFError, TypeError) as error:
        raise ValueError(f"the pixel data aren't encapsulated codestreams: {error}") from error


def _decode(data: bytes, values: np.ndarray, name: str) -> int:
    """Decodes a frame, and says how many bits its samples have."""
    try:
        header = read_header(data)
        if header.shape != values.shape or header.maxval >= 1 << 8 * values.itemsize:
            raise ValueError(f"{name} is {header.shape} with maxval {header.maxval}, and must be {values.shape} of {values.dtype}")
        decode(data, values)
    except JlsrecError as error:
        if error.status in _library.UNSUPPORTED:
            raise NotImplementedError(f"{name}: {error}") from error
        raise ValueError(f"{name}: {error}") from error
    return header.maxval.bit_length()


def _extend(values: np.ndarray, bits: int) -> None:
    """Extends the sign of samples of this number of bits to all bits of their words."""
    sign = values.dtype.type(1 << bits - 1)
    values ^= sign
    values -= sign
