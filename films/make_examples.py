#!/usr/bin/env python3
"""Makes the small films of this folder, byte for byte the same each time.

  make_examples.py           writes the films beside this script
  make_examples.py --check   says whether the films that are there are those that it makes

A film is Netpbm binary images joined with nothing between. Each shows a textured, softly lit ground over which the
camera moves slowly, with discs that cross it and the mild noise of a sensor.

Numbers come from a generator of its own, and pictures from sums, products and quotients of doubles alone: those are
rounded alike everywhere, which the functions of a mathematics library are not.
"""
import pathlib
import sys
from dataclasses import dataclass

HERE = pathlib.Path(__file__).resolve().parent


@dataclass(frozen=True)
class Film:
    """What a film shows, and how. The noise is the spread of the sensor's in samples, and the seed picks the scene."""

    name: str
    width: int
    height: int
    frames: int
    maxval: int
    noise: float
    seed: int
    comment: str = ""

    @property
    def is_colour(self):
        return self.name.endswith(".ppm")


FILMS = (
    Film("gray8.pgm", 128, 96, 6, 255, 1.0, 11),
    Film("gray12.pgm", 96, 72, 5, 4095, 5.0, 12, comment="a scan"),
    Film("gray16.pgm", 96, 64, 4, 65535, 40.0, 16),
    Film("colour8.ppm", 112, 80, 5, 255, 1.2, 24),
)


class Numbers:
    """A linear congruential generator modulo 2^64, of which the upper bits are used."""

    def __init__(self, seed):
        self.state = seed
        for _ in range(8):
            self.bits()

    def bits(self):
        self.state = (self.state * 6364136223846793005 + 1442695040888963407) % 2**64
        return self.state >> 43

    def between(self, low, high):
        return low + (high - low) * self.bits() / 2**21

    def noise(self, spread):
        """A sum of four even draws, which is near to a bell curve of that spread."""
        four = self.bits() + self.bits() + self.bits() + self.bits()
        return (four / 2**21 - 2.0) * 1.7320508 * spread


def eased(x):
    """From 0 to 1 with no corner at either end."""
    x = min(max(x, 0.0), 1.0)
    return x * x * (3.0 - 2.0 * x)


class Texture:
    """Random heights on a square lattice, joined smoothly. It repeats after SIDE cells."""

    SIDE = 32

    def __init__(self, numbers, cell):
        self.cell = cell
        self.heights = [[numbers.between(-1.0, 1.0) for _ in range(self.SIDE)] for _ in range(self.SIDE)]

    def at(self, x, y):
        x, y = x / self.cell, y / self.cell
        column, row = int(x), int(y)
        across, down = eased(x - column), eased(y - row)
        left, right = column % self.SIDE, (column + 1) % self.SIDE
        upper, lower = self.heights[row % self.SIDE], self.heights[(row + 1) % self.SIDE]
        top = upper[left] + (upper[right] - upper[left]) * across
        bottom = lower[left] + (lower[right] - lower[left]) * across
        return top + (bottom - top) * down


class Disc:
    """A disc with a soft edge, which crosses the picture."""

    def __init__(self, numbers, film):
        self.x, self.y = numbers.between(0.2, 0.8) * film.width, numbers.between(0.2, 0.8) * film.height
        self.step_x, self.step_y = numbers.between(-3.0, 3.0), numbers.between(-2.0, 2.0)
        self.radius = numbers.between(0.12, 0.25) * film.height
        self.light = [numbers.between(-0.35, 0.35) for _ in range(3)]

    def at(self, x, y, frame):
        """How much of the disc is seen there, from 0 to 1."""
        across, down = x - self.x - self.step_x * frame, y - self.y - self.step_y * frame
        return eased((self.radius * self.radius * 1.3 - across * across - down * down) / (self.radius * self.radius * 0.6))


def images(film):
    """Each image of the film, as its bytes in Netpbm's form."""
    numbers = Numbers(film.seed)
    coarse, fine = Texture(numbers, 19.0), Texture(numbers, 3.5)
    discs = [Disc(numbers, film) for _ in range(3)]
    channels = 3 if film.is_colour else 1
    slopes = [(numbers.between(-0.3, 0.3), numbers.between(-0.3, 0.3)) for _ in range(channels)]
    wide = 2 if film.maxval > 255 else 1
    head = ["P6" if film.is_colour else "P5"] + [f"# {film.comment}"] * bool(film.comment)
    head = "\n".join([*head, f"{film.width} {film.height}", f"{film.maxval}\n"])
    for frame in range(film.frames):
        raster = bytearray()
        for y in range(film.height):
            for x in range(film.width):
                seen_x, seen_y = x + 1.25 * frame, y + 0.5 * frame
                ground = 0.5 + 0.12 * coarse.at(seen_x, seen_y) + 0.03 * fine.at(seen_x, seen_y)
                covers = [disc.at(x, y, frame) for disc in discs]
                for channel, (slope_x, slope_y) in enumerate(slopes):
                    light = ground + slope_x * (x / film.width - 0.5) + slope_y * (y / film.height - 0.5)
                    for disc, cover in zip(discs, covers):
                        light += disc.light[channel] * cover
                    sample = int(light * film.maxval + numbers.noise(film.noise) + 0.5)
                    raster += min(max(sample, 0), film.maxval).to_bytes(wide, "big")
        yield head.encode() + bytes(raster)


def main(words):
    if words not in ([], ["--check"]):
        print(__doc__.split("\n\n")[1], file=sys.stderr)
        return 2
    differing = []
    for film in FILMS:
        file, made = HERE / film.name, b"".join(images(film))
        if not words:
            file.write_bytes(made)
        elif not file.is_file() or file.read_bytes() != made:
            differing.append(film.name)
    for name in differing:
        print(f"{name} isn't what make_examples.py makes")
    if words and not differing:
        print("each film is what make_examples.py makes")
    return 1 if differing else 0


if __name__ == "__main__":
    sys.exit(main(sys.argv[1:]))
