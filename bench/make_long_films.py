#!/usr/bin/env python3
"""Makes two films of 100 MB, byte for byte the same each time: 8-bit.pgm and 16-bit.pgm.

  make_long_films.py FOLDER

Their frames are of 2048 by 2048 samples: 24 of up to 255, and 12 of up to 65535.
"""
import pathlib
import sys

SIDE = 2048


def main(folder):
    for name, maxval, wide, frames in (("8-bit", 255, 1, 24), ("16-bit", 65535, 2, 12)):
        # Twice a row, of which each row of a frame is a part.
        samples = [(x * x // 7 + 5 * x) % (maxval + 1) for x in range(2 * SIDE)]
        strip = b"".join(it.to_bytes(wide, "big") for it in samples)
        with open(folder / f"{name}.pgm", "wb") as film:
            for frame in range(frames):
                begins = [(37 * row + 101 * frame) % SIDE * wide for row in range(SIDE)]
                film.write(b"P5\n%d %d\n%d\n" % (SIDE, SIDE, maxval))
                film.write(b"".join(strip[it : it + SIDE * wide] for it in begins))


if __name__ == "__main__":
    main(pathlib.Path(sys.argv[1]))
