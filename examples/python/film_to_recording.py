"""A gray film (binary PGM) to a recording and back, by numpy: python3 film_to_recording.py FILM RECORDING.

It prints how many frames there are and how much smaller they became, and ends with status 1 if one doesn't come back.
"""

import re
import sys
from pathlib import Path

import jlsrec
import numpy as np

BETWEEN = rb"(?:\s|#[^\n\r]*[\n\r])+"
HEADING = re.compile(BETWEEN.join([rb"P5", rb"(\d+)", rb"(\d+)", rb"(\d+)"]) + rb"\s")


def frames_of(film: bytes):
    """Each image's samples as an array, with its maxval."""
    place = 0
    while place < len(film):
        heading = HEADING.match(film, place)
        width, height, maxval = (int(word) for word in heading.groups())
        kind = np.dtype(np.uint8 if maxval < 256 else ">u2")
        samples = np.frombuffer(film, kind, width * height, heading.end())
        yield samples.reshape(height, width).astype(kind.newbyteorder("=")), maxval
        place = heading.end() + samples.nbytes


film = Path(sys.argv[1]).read_bytes()
frames = list(frames_of(film))
with open(sys.argv[2], "xb") as recording:
    for array, maxval in frames:
        recording.write(jlsrec.encode(array, maxval))

recording = jlsrec.Recording(sys.argv[2])
same = len(recording) == len(frames) and all((a == b).all() for a, (b, _) in zip(recording, frames))
print(f"{len(recording)} frames, {len(film) / Path(sys.argv[2]).stat().st_size:.2f} times smaller")
sys.exit(not same)
