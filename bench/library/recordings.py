"""Times recordings in Python: how many frames one of 600,000 small frames has (goal: 0.3 s), beside a search for their end markers by
the module re; and how fast all frames of a recording are read by one worker and by four (goal: N times as fast by N, as far as the
machine has processors). Least times of five. Wants the library of library/build; the shell words are

    LD_LIBRARY_PATH=out/library PYTHONPATH=python python3 bench/library/recordings.py
"""

import re
import tempfile
import time

import jlsrec
import numpy as np

TIMES = 5


def least(call):
    """The least time of a call, in seconds."""
    times = []
    for _ in range(TIMES):
        begin = time.perf_counter()
        call()
        times.append(time.perf_counter() - begin)
    return min(times)


def count(path):
    with jlsrec.Recording(path) as film:
        assert len(film) == 600000


def search(path):
    with open(path, "rb") as film:
        assert len(re.findall(b"\xff\xd9", film.read())) == 600000


with tempfile.TemporaryDirectory() as folder:
    small = f"{folder}/small.jls"
    with open(small, "wb") as film:
        film.write(jlsrec.encode(np.array([[7]], np.uint16), 255) * 600000)
    print(f"600,000 frames counted in {least(lambda: count(small)):.2f} s, their end markers in {least(lambda: search(small)):.2f} s")

    many = f"{folder}/many.jls"
    rows, columns = np.mgrid[0:1024, 0:1024]
    noise = np.random.default_rng(1).integers(0, 16, (32, 1024, 1024))
    frames = ((rows * 3 + columns * 4 + noise) & 4095).astype(np.uint16)
    with jlsrec.Writer(many, maxval=4095) as film:
        for frame in frames:
            film.append(frame)
    out = np.empty_like(frames)
    with jlsrec.Recording(many) as film:
        one, four = (least(lambda: film.read(out=out, workers=workers)) for workers in (1, 4))
    assert (out == frames).all()
    print(f"32 frames of 1024 by 1024 read in {one:.2f} s by one worker, {four:.2f} s by four: {one / four:.2f} times as fast")
