"""Arrays to a recording: python3 array_to_recording.py RECORDING.

Twenty pictures of 12 bits are made, written, and read again by index.
"""

import sys

import jlsrec
import numpy as np

rows, columns = np.mgrid[0:240, 0:320]


def picture(k: int) -> np.ndarray:
    """Waves that move with k."""
    waves = np.sin((columns + 5 * k) / 23) + np.cos((rows - 3 * k) / 17)
    return ((waves + 2) * 1023).astype(np.uint16)


count = jlsrec.write(sys.argv[1], (picture(k) for k in range(20)), maxval=4095)
recording = jlsrec.Recording(sys.argv[1])
assert len(recording) == count
assert (recording[7] == picture(7)).all()
print(f"{count} frames; the header of the first: {recording.header(0)}")
