"""JPEG-LS for imageio, by jlsrec.

    import imageio, jlsrec.imageio
    jlsrec.imageio.register()
    array = imageio.imread("slice.jls")
    frames = imageio.mimread("film.pgm.jls", memtest=False)
    imageio.imwrite("again.jls", array, maxval=4095)

A recording's frames are its images, each of uint8 or uint16 as it was; `array.meta["maxval"]` is the greatest value that it
may have. What is written may have one frame or several, with `maxval` and `preset` as jlsrec.encode takes them.

A frame that can't be decoded or encoded raises JlsrecError, and so does asking for the number of frames if a recording is
cut off or damaged between them. imageio 2.4 was tried.
"""

from __future__ import annotations

from imageio import formats
from imageio.core import Format

from . import Recording, encode

__all__ = ["JlsFormat", "register"]


class JlsFormat(Format):
    """Recordings, of one frame or several."""

    def _can_read(self, request) -> bool:
        return request.mode[1] in self.modes + "?" and request.extension in self.extensions

    def _can_write(self, request) -> bool:
        return request.mode[1] in self.modes + "?" and request.extension in self.extensions

    class Reader(Format.Reader):
        def _open(self) -> None:
            self._recording = Recording(self.request.get_local_filename())

        def _close(self) -> None:
            self._recording.close()

        def _get_length(self) -> int:
            if self._recording.fault is not None:
                raise self._recording.fault
            return len(self._recording)

        def _get_data(self, index: int):
            return self._recording[index], self._get_meta_data(index)

        def _get_meta_data(self, index):
            return {"maxval": self._recording.header(index or 0).maxval}

    class Writer(Format.Writer):
        def _open(self, maxval=None, preset=None) -> None:
            self._file = self.request.get_file()
            self._options = (maxval, preset)

        def _close(self) -> None:
            pass

        def _append_data(self, array, meta) -> None:
            maxval, preset = self._options
            self._file.write(encode(array, maxval, preset))

        def set_meta_data(self, meta) -> None:
            raise RuntimeError("JPEG-LS as jlsrec writes it has no metadata")


def register() -> None:
    """Has imageio read and write files whose names end in .jls."""
    if "JPEG-LS" not in formats.get_format_names():
        formats.add_format(JlsFormat("JPEG-LS", "Lossless JPEG-LS", ".jls", "iI"))
