"""What a frame looks like: samples as gray or colour of 8 bits, as small pictures, and as PNG files."""

from __future__ import annotations

import struct
import zlib

import numpy as np

# Digits of 3 by 5 pixels, a row a number of three bits.
DIGITS = {
    "0": (7, 5, 5, 5, 7),
    "1": (2, 6, 2, 2, 7),
    "2": (7, 1, 7, 4, 7),
    "3": (7, 1, 7, 1, 7),
    "4": (5, 5, 7, 1, 1),
    "5": (7, 4, 7, 1, 7),
    "6": (7, 4, 7, 5, 7),
    "7": (7, 1, 2, 2, 2),
    "8": (7, 5, 7, 5, 7),
    "9": (7, 5, 7, 1, 7),
    ".": (0, 0, 0, 0, 2),
}


def windowed(array: np.ndarray, low: float, high: float) -> np.ndarray:
    """Samples as bytes: low and less are black, high and more are white, and what is between goes evenly."""
    if array.dtype == np.uint8 and low == 0 and high == 255:
        return array
    levels = np.arange(65536 if array.dtype == np.uint16 else 256, dtype=np.float64)
    table = np.clip((levels - low) * (255 / max(high - low, 1)) + 0.5, 0, 255).astype(np.uint8)
    return table[array]


def fitted(picture: np.ndarray, width: int, height: int) -> np.ndarray:
    """A picture of at most width by height pixels: made smaller by means of blocks, or larger by whole factors."""
    rows, columns = picture.shape[:2]
    step = max(-(-rows // height), -(-columns // width))
    if step > 1:
        rows, columns = rows // step * step, columns // step * step
        if rows == 0 or columns == 0:
            return picture[::step, ::step]
        blocks = picture[:rows, :columns].reshape(rows // step, step, columns // step, step, -1)
        means = blocks.mean(axis=(1, 3)).astype(np.uint8)
        return means[:, :, 0] if picture.ndim == 2 else means
    factor = max(min(height // rows, width // columns), 1)
    return picture.repeat(factor, axis=0).repeat(factor, axis=1)


def colored(picture: np.ndarray) -> np.ndarray:
    """A picture as (height, width, 3)."""
    return np.repeat(picture[:, :, None], 3, axis=2) if picture.ndim == 2 else picture


def portable(picture: np.ndarray) -> bytes:
    """A picture of bytes as a binary PGM or PPM."""
    kind = "P5" if picture.ndim == 2 else "P6"
    return f"{kind} {picture.shape[1]} {picture.shape[0]} 255\n".encode() + np.ascontiguousarray(picture).tobytes()


def put_number(page: np.ndarray, row: int, column: int, text: str, color: tuple[int, int, int]) -> None:
    """Writes digits onto a page, two pixels a dot."""
    for place, digit in enumerate(text):
        for down, bits in enumerate(DIGITS[digit]):
            for across in range(3):
                if bits >> (2 - across) & 1:
                    top, left = row + 2 * down, column + 8 * place + 2 * across
                    page[top : top + 2, left : left + 2] = color


def png_of(page: np.ndarray) -> bytes:
    """A page (height, width, 3) of bytes as a PNG file."""
    height, width = page.shape[:2]
    rows = np.zeros((height, 1 + 3 * width), np.uint8)
    rows[:, 1:] = page.reshape(height, 3 * width)

    def chunk(kind: bytes, data: bytes) -> bytes:
        return struct.pack(">I", len(data)) + kind + data + struct.pack(">I", zlib.crc32(kind + data))

    header = struct.pack(">IIBBBBB", width, height, 8, 2, 0, 0, 0)
    png = b"\x89PNG\r\n\x1a\n" + chunk(b"IHDR", header)
    return png + chunk(b"IDAT", zlib.compress(rows.tobytes())) + chunk(b"IEND", b"")
