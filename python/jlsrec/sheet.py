"""A recording on one page: its frames as small pictures, and how many bits a sample each takes."""

from __future__ import annotations

from pathlib import Path
from typing import Union

import numpy as np

from . import JlsrecError, Recording
from ._files import NewFile, is_same
from .shown import colored, fitted, png_of, put_number, windowed

__all__ = ["bits_a_sample", "make_sheet", "sheet_of"]

CELL = 160
GAP = 8
PLOT = 120
BACK = (24, 24, 24)
LINE = (90, 170, 250)
UNDER = (30, 50, 75)
TEXT = (230, 230, 230)
FAULT = (220, 60, 60)


def sheet_of(recording: Recording, columns: int = 8, most: int = 64) -> np.ndarray:
    """The page of a recording, uint8 of (height, width, 3): small pictures of frames, and a plot of all frames' bits.

    columns: the number of pictures in a row.
    most: the greatest number of pictures; of more frames evenly spaced ones are shown, from the first one on.

    Each picture goes from black, the frame's least sample, to white, its greatest. A frame that can't be decoded is a
    red field. Raises ValueError if the recording has no frame.
    """
    frames = len(recording)
    if frames == 0:
        raise ValueError(f"no frames{f': {recording.fault}' if recording.fault is not None else ''}")
    shown = range(frames) if frames <= most else [frames * i // most for i in range(most)]
    columns = min(columns, len(shown))
    lines = -(-len(shown) // columns)
    width = GAP + columns * (CELL + GAP)
    page = np.full((GAP + lines * (CELL + GAP) + PLOT + GAP, width, 3), BACK, np.uint8)
    for place, number in enumerate(shown):
        top = GAP + place // columns * (CELL + GAP)
        left = GAP + place % columns * (CELL + GAP)
        try:
            frame = recording[number]
        except JlsrecError:
            page[top : top + CELL, left : left + CELL] = FAULT
        else:
            small = colored(fitted(windowed(frame, float(frame.min()), float(frame.max())), CELL, CELL))
            down, across = (CELL - small.shape[0]) // 2, (CELL - small.shape[1]) // 2
            page[top + down : top + down + small.shape[0], left + across : left + across + small.shape[1]] = small
        put_number(page, top + 3, left + 3, str(number), TEXT)
    _plot(page[-PLOT - GAP : -GAP, GAP:-GAP], bits_a_sample(recording))
    return page


def bits_a_sample(recording: Recording) -> np.ndarray:
    """For each frame the bits of its codestream per sample; 0 where its header can't be read."""
    bits = []
    for number in range(len(recording)):
        try:
            header = recording.header(number)
        except JlsrecError:
            bits.append(0.0)
        else:
            samples = header.width * header.height * header.components
            bits.append(8 * recording.size(number) / samples)
    return np.array(bits)


def _plot(field: np.ndarray, values: np.ndarray) -> None:
    """Draws values from 0 to the greatest, which is written above them."""
    height, width = field.shape[:2]
    greatest = max(float(values.max()), 1e-9)
    places = np.arange(width) * len(values) // width
    tops = height - np.maximum((values[places] / greatest * (height - 16)).astype(int), 1)
    rows = np.arange(height)[:, None]
    field[rows >= tops[None, :]] = UNDER
    field[(rows >= tops[None, :]) & (rows < tops[None, :] + 3)] = LINE
    put_number(field, 0, 0, f"{greatest:.2f}", TEXT)


def make_sheet(path: Union[str, Path], png: Union[str, Path], replace: bool = False) -> None:
    """Writes the page of a recording as a PNG file.

    path: the recording. png: the file to write.
    replace: whether an existing file is replaced; otherwise it raises FileExistsError.

    Raises ValueError if there is no frame, or if the PNG file would be the recording, and OSError if the recording can't
    be read or the file can't be written.
    """
    if is_same(path, png):
        raise ValueError(f"{png}: this is the recording itself")
    with NewFile(png, replace) as file, Recording(path) as recording:
        try:
            file.write(png_of(sheet_of(recording)))
        except ValueError as error:
            raise ValueError(f"{path}: {error}") from error
