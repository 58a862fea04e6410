#!/usr/bin/env python3
"""Compares films with what ffmpeg plays of their codestreams.

  play.py FILM FILE [FILM FILE]..

FILM is joined binary Netpbm images, all of one kind, size and maxval, and FILE the codestreams of its images, joined
too. Prints a line for each frame that differs, and at the end how many passed and failed.

ffmpeg shows a sample of P bits as the upper ones of 8, or of 16 where P is above 8.
"""
import array
import subprocess
import sys


def frames_of(film):
    """The rasters of a film without comments, how many bits a sample has, and which pixels ffmpeg plays them as."""
    rasters = []
    while film:
        magic, size, greatest, rest = film.split(b"\n", 3)
        width, height = map(int, size.split())
        maxval, is_colour = int(greatest), magic == b"P6"
        raster = width * height * (3 if is_colour else 1) * (2 if maxval > 255 else 1)
        rasters.append(rest[:raster])
        film = rest[raster:]
    bits = max(2, maxval.bit_length())
    return rasters, bits, "rgb24" if is_colour else "gray" if bits <= 8 else "gray16be"


def as_played(raster, bits):
    """The raster with samples moved up to the top of their bytes."""
    if bits <= 8:
        return bytes(sample << 8 - bits for sample in raster)
    samples = array.array("H", raster)
    if sys.byteorder == "little":
        samples.byteswap()
    samples = array.array("H", (sample << 16 - bits for sample in samples))
    if sys.byteorder == "little":
        samples.byteswap()
    return samples.tobytes()


def faults(film, file):
    """Why each frame of the film isn't what is played of the file, or nothing."""
    with open(film, "rb") as opened:
        rasters, bits, pixels = frames_of(opened.read())
    quiet = ["ffmpeg", "-nostdin", "-hide_banner", "-loglevel", "error"]
    play = ["-f", "jpegls_pipe", "-i", file, "-fps_mode", "passthrough", "-pix_fmt", pixels, "-f", "rawvideo", "-"]
    done = subprocess.run(quiet + play, stdout=subprocess.PIPE, check=False)
    played, end = done.stdout, 0
    for frame, raster in enumerate(rasters, 1):
        begin, end = end, end + len(raster)
        if done.returncode != 0:
            yield f"ffmpeg ends with status {done.returncode}"
        elif len(played) < end:
            yield "ffmpeg doesn't play it"
        elif played[begin:end] != as_played(raster, bits):
            yield "ffmpeg plays other samples"
        elif frame == len(rasters) and len(played) > end:
            yield "ffmpeg plays more than the film"
        else:
            yield ""


def main(words):
    if not words or len(words) % 2 != 0:
        print(__doc__.split("\n\n")[1], file=sys.stderr)
        return 2
    passed = failed = 0
    for film, file in zip(words[::2], words[1::2]):
        for frame, fault in enumerate(faults(film, file), 1):
            if fault:
                print(f"FAILED {file}, frame {frame}: {fault}")
                failed += 1
            else:
                passed += 1
    print(f"{passed} passed, {failed} failed")
    return 1 if failed else 0


if __name__ == "__main__":
    sys.exit(main(sys.argv[1:]))
