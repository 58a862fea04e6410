"""JPEG-LS for Pillow, by jlsrec.

    import jlsrec.pillow
    from PIL import Image
    jlsrec.pillow.register()
    image = Image.open("slice.jls")
    image.save("again.jls", maxval=4095)        # or format="JPEG-LS"

A picture with a maxval of at most 255 opens as "L" or "RGB", gray of more as "I;16"; its values stay as they are, and
`image.info["maxval"]` is the greatest value that they may have. Of a recording this is the first frame; jlsrec.Recording
has all. Pillow has no mode for colour of over 8 bits: opening such a picture raises OSError. A damaged one raises OSError
when its samples are first asked for.

"L", "RGB", "I;16" and "I" of values from 0 to 65535 are saved, with `maxval` (by default that of the opened file, or 255 or
65535) and `preset` as jlsrec.encode takes them; other modes and values raise OSError, and what jlsrec.encode refuses
JlsrecError. Pillow 9.4 was tried.
"""

from __future__ import annotations

import numpy as np
from PIL import Image, ImageFile

from . import JlsrecError, decode, encode, read_header

__all__ = ["JlsImageFile", "register"]

FORMAT = "JPEG-LS"

# How much of a file is read for its header at first.
HEAD = 1 << 12


class JlsImageFile(ImageFile.ImageFile):
    """A picture in a file, decoded when its samples are first asked for."""

    format = FORMAT
    format_description = "JPEG-LS (ITU-T T.87)"

    def _open(self) -> None:
        self._start = self.fp.tell()
        head = self.fp.read(HEAD)
        try:
            header = read_header(head)
        except JlsrecError:
            try:
                header = read_header(head + self.fp.read())
            except JlsrecError as error:
                # Another format, for all that Pillow is to know.
                raise SyntaxError(f"not lossless JPEG-LS: {error}") from error
        if header.components == 3 and header.maxval > 255:
            raise OSError(f"Pillow has no colour of over 8 bits, and this has maxval {header.maxval}")
        self._size = (header.width, header.height)
        mode = "RGB" if header.components == 3 else "L" if header.maxval <= 255 else "I;16"
        # Where mode is a property it is kept in _mode.
        setattr(self, "_mode" if isinstance(getattr(Image.Image, "mode", None), property) else "mode", mode)
        self.info["maxval"] = header.maxval
        # For Pillow: that the samples are yet to be had.
        self.tile = [(FORMAT, (0, 0, *self._size), 0, ())]

    def load(self):
        if self.tile:
            self.fp.seek(self._start)
            try:
                samples = decode(self.fp.read())
            except JlsrecError as error:
                raise OSError(f"the picture can't be decoded: {error}") from error
            self.tile = []
            self.load_prepare()
            self.frombytes(samples.astype(samples.dtype.newbyteorder("<"), copy=False).tobytes())
            if getattr(self, "_exclusive_fp", False):
                self.fp.close()
            self.fp = None
        return super().load()


def _accepts(prefix: bytes) -> bool:
    # SOI, and then SOF55, COM or APPn. Other kinds of JPEG come first, and are told apart by their headers.
    return prefix[:3] == b"\xff\xd8\xff" and len(prefix) > 3 and (prefix[3] in (0xF7, 0xFE) or 0xE0 <= prefix[3] <= 0xEF)


def _save(image: Image.Image, file, filename: str) -> None:
    if image.mode not in ("L", "RGB", "I", "I;16", "I;16L", "I;16B"):
        raise OSError(f"cannot write mode {image.mode} as {FORMAT}")
    samples = np.asarray(image)
    if samples.dtype != np.uint8:
        if samples.size and not 0 <= int(samples.min()) <= int(samples.max()) <= 65535:
            raise OSError(f"cannot write values outside 0 to 65535 as {FORMAT}")
        samples = samples.astype(np.uint16)
    options = image.encoderinfo
    maxval = options.get("maxval", image.info.get("maxval") if isinstance(image, JlsImageFile) else None)
    file.write(encode(samples, maxval, options.get("preset")))


def register() -> None:
    """Has Pillow open JPEG-LS, and save it for the extension .jls and the format "JPEG-LS"."""
    Image.register_open(FORMAT, JlsImageFile, _accepts)
    Image.register_save(FORMAT, _save)
    Image.register_extension(FORMAT, ".jls")
    Image.register_mime(FORMAT, "image/jls")
