#!/usr/bin/env python3
"""Makes the films of one frame that encoders are timed on, byte for byte the same each time.

  make_pictures.py FOLDER

- natural8.pgm, natural12.pgm, natural16.pgm: a scene of smooth light, edges and textures under the noise of a sensor.
- colour8.ppm: that scene in colour.
- body12.pgm: a slice of a body, as a tomograph shows it, before an empty background.
- screen8.pgm: windows with text, tables and charts.

Numbers come from SHAKE128. Pictures come of integers, and of sums, products and quotients of doubles, which are rounded
alike everywhere.
"""
import array
import hashlib
import itertools
import math
import pathlib
import sys

SIDE = 2048


def draws(purpose, count):
    """So many numbers below 2^16, for each purpose its own."""
    numbers = array.array("H", hashlib.shake_128(purpose.encode()).digest(2 * count))
    if sys.byteorder == "big":
        numbers.byteswap()
    return numbers


class Numbers:
    """Numbers for a purpose, one by one."""

    def __init__(self, purpose):
        self.numbers = iter(draws(purpose, 2**18))

    def below(self, bound):
        return next(self.numbers) * bound >> 16

    def between(self, low, high):
        return low + (high - low) * next(self.numbers) / 2**16


def bells():
    """A bell curve of spread 1: 2^16 sums of four even draws."""
    four = draws("bells", 2**18)
    return [(sum(four[at : at + 4]) / 2**16 - 2.0) * 1.7320508 for at in range(0, 2**18, 4)]


BELLS = bells()


def noise(purpose, y):
    """The noise of a line, of spread 1."""
    return map(BELLS.__getitem__, draws(f"{purpose} {y}", SIDE))


def eased(x):
    """From 0 to 1 with no corner at either end."""
    return x * x * (3.0 - 2.0 * x)


class Field:
    """Random heights from -HEIGHT to HEIGHT at the corners of squares, joined smoothly."""

    def __init__(self, purpose, cell, height):
        self.purpose, self.cell, self.height = purpose, cell, height
        self.parts = [eased(x / cell) for x in range(cell)]
        self.count = SIDE // cell + 2
        self.row, self.upper, self.lower = -1, None, self.corners(0)

    def corners(self, row):
        """A line through a row of corners."""
        ends = [self.height * (number / 2**15 - 1.0) for number in draws(f"{self.purpose} {row}", self.count)]
        line = []
        for left, right in itertools.pairwise(ends):
            line += [left + (right - left) * part for part in self.parts]
        return line[:SIDE]

    def at(self, y):
        """The line y, as two lines and the part of the lower one. The lines are asked for in order."""
        row, under = divmod(y, self.cell)
        while self.row < row:
            self.row += 1
            self.upper, self.lower = self.lower, self.corners(self.row + 1)
        return self.upper, self.lower, self.parts[under]

    def line(self, y):
        upper, lower, part = self.at(y)
        return [high + (low - high) * part for high, low in zip(upper, lower)]


class Ellipse:
    """An ellipse with its axes across and down."""

    def __init__(self, x, y, across, down):
        self.x, self.y, self.across, self.down = x, y, across, down

    def span(self, y):
        """Where it begins and ends on a line. It may be nowhere."""
        off = y - self.y
        if abs(off) > self.down:
            return 0, 0
        half = math.isqrt(self.across * self.across * (self.down * self.down - off * off)) // self.down
        return max(self.x - half, 0), min(self.x + half, SIDE)


class Bar:
    """A tilted bar."""

    def __init__(self, x, y, across, down, slope):
        self.x, self.y, self.across, self.down, self.slope = x, y, across, down, slope

    def span(self, y):
        off = y - self.y
        if abs(off) > self.down:
            return 0, 0
        begin = self.x + off * self.slope // 16
        return min(max(begin, 0), SIDE), min(max(begin + self.across, 0), SIDE)


def laid(line, begin, end, value):
    """Lays a value over a part of a line, half at the ends."""
    if begin >= end:
        return
    first, last = line[begin], line[end - 1]
    line[begin:end] = [value] * (end - begin)
    line[begin] = (first + value) / 2
    line[end - 1] = (last + value) / 2


def sampled(lights, bell, maxval, spread):
    """The samples of a line, with noise that grows with the light and has its spread at 0.5."""
    dark = 0.5 * spread
    line = [int(light * maxval + it * (dark + spread * light)) for light, it in zip(lights, bell)]
    if min(line) < 0 or max(line) > maxval:
        line = [min(max(sample, 0), maxval) for sample in line]
    return line


def wide(samples):
    """The samples in two bytes each."""
    samples = array.array("H", samples)
    if sys.byteorder == "little":
        samples.byteswap()
    return samples.tobytes()


def head(magic, maxval):
    return f"{magic}\n{SIDE} {SIDE}\n{maxval}\n".encode()


def shapes(numbers):
    """Shapes that cover one another, each with its light in red, green and blue, and how much texture it has."""
    for turn in range(90):
        x, y = numbers.below(SIDE), numbers.below(SIDE)
        size = 30 + numbers.below(1 + 24000 // (30 + turn * 2))
        if numbers.below(2):
            shape = Ellipse(x, y, size, 20 + numbers.below(size))
        else:
            shape = Bar(x, y, size, 20 + numbers.below(2 * size), numbers.below(33) - 16)
        light = numbers.between(-0.22, 0.22)
        tints = [light + numbers.between(-0.08, 0.08) for _ in range(3)]
        yield shape, tints, numbers.between(0.0, 1.0) * numbers.between(0.0, 1.6)


def natural(folder):
    """The scene, in gray of three precisions and in colour."""
    scene = list(shapes(Numbers("shapes")))
    broad, middle = Field("broad", 512, 0.16), Field("middle", 64, 0.06)
    grain, fine = Field("grain", 8, 0.035), Field("fine", 3, 0.012)
    grays = (
        ("natural8.pgm", 255, 1.65, bytes),
        ("natural12.pgm", 4095, 8.9, wide),
        ("natural16.pgm", 65535, 57.0, wide),
    )
    rasters = {name: [head("P5", maxval)] for name, maxval, _, _ in grays}
    colours = [head("P6", 255)]
    for y in range(SIDE):
        (p, q, a), (r, s, b) = broad.at(y), middle.at(y)
        ground = [0.5 + t + (u - t) * a + v + (w - v) * b for t, u, v, w in zip(p, q, r, s)]
        texture = [t + u for t, u in zip(grain.line(y), fine.line(y))]
        shades, gain = [[0.0] * SIDE for _ in range(3)], [0.5] * SIDE
        for shape, tints, strength in scene:
            begin, end = shape.span(y)
            for shade, tint in zip(shades, tints):
                laid(shade, begin, end, tint)
            laid(gain, begin, end, strength)
        ground = [t + u * v for t, u, v in zip(ground, gain, texture)]
        lights = [list(map(float.__add__, ground, shade)) for shade in shades]
        for name, maxval, spread, joined in grays:
            rasters[name].append(joined(sampled(lights[1], noise(name, y), maxval, spread)))
        line = bytearray(3 * SIDE)
        for channel, light in enumerate(lights):
            line[channel::3] = bytes(sampled(light, noise(f"colour8.ppm {channel}", y), 255, 1.65))
        colours.append(line)
    for name, parts in rasters.items():
        (folder / name).write_bytes(b"".join(parts))
    (folder / "colour8.ppm").write_bytes(b"".join(colours))


def body(folder):
    """A slice of a body. What lies inside another part is named after it."""
    middle = SIDE // 2
    parts = [
        (Ellipse(middle, middle + 40, 830, 600), 0.225),
        (Ellipse(middle, middle + 40, 790, 560), 0.262),
        (Ellipse(middle - 380, middle - 10, 260, 360), 0.045),
        (Ellipse(middle + 390, middle - 20, 250, 370), 0.045),
        (Ellipse(middle + 70, middle - 40, 190, 230), 0.275),
        (Ellipse(middle, middle + 390, 110, 120), 0.36),
        (Ellipse(middle, middle + 390, 80, 90), 0.32),
        (Ellipse(middle - 10, middle + 230, 60, 60), 0.28),
    ]
    numbers = Numbers("ribs")
    for _ in range(26):
        x, y = middle + numbers.below(1400) - 700, middle + 40 + numbers.below(1000) - 500
        parts.append((Ellipse(x, y, 12 + numbers.below(22), 10 + numbers.below(16)), numbers.between(0.25, 0.45)))
    skin = parts[0][0]
    tissue, grain = Field("tissue", 48, 0.006), Field("tissue's grain", 6, 0.002)
    raster = [head("P5", 4095)]
    for y in range(SIDE):
        begin, end = skin.span(y)
        shade = [0.0] * SIDE
        for part, light in parts:
            left, right = part.span(y)
            laid(shade, max(left, begin), min(right, end), light)
        lights = [t + u + v for t, u, v in zip(shade, tissue.line(y), grain.line(y))]
        line = sampled(lights, noise("body", y), 4095, 9.5)
        raster.append(wide([0] * begin + line[begin:end] + [0] * (SIDE - end)))
    (folder / "body12.pgm").write_bytes(b"".join(raster))


class Screen:
    """A screen that is drawn on."""

    GLYPH_WIDTH, GLYPH_HEIGHT = 8, 13

    def __init__(self):
        self.numbers = Numbers("screen")
        self.lines = [bytearray([70 + y // 64]) * SIDE for y in range(SIDE)]
        self.glyphs = [self.glyph() for _ in range(60)]

    def fill(self, x, y, width, height, value):
        x, right = max(x, 0), min(x + width, SIDE)
        for line in self.lines[max(y, 0) : max(min(y + height, SIDE), 0)]:
            line[x:right] = bytes([value]) * max(right - x, 0)

    def glyph(self):
        """How dark each of a glyph's places is, of 4: strokes with soft sides."""
        rows = [[0] * self.GLYPH_WIDTH for _ in range(self.GLYPH_HEIGHT)]
        for _ in range(1 + self.numbers.below(2)):
            column = 1 + self.numbers.below(5)
            for row in rows[1 + self.numbers.below(3) : 7 + self.numbers.below(4)]:
                row[column] = 4
                row[column + 1] = max(row[column + 1], 1)
        for _ in range(1 + self.numbers.below(3)):
            row = rows[1 + self.numbers.below(9)]
            begin, end = 1 + self.numbers.below(2), 5 + self.numbers.below(2)
            row[begin:end] = [3] * (end - begin)
        return rows

    def write(self, x, y, width, ink, paper):
        """A line of words, as many as have room."""
        shades = [paper + (ink - paper) * dark // 4 for dark in range(5)]
        blank = [[0] * self.GLYPH_WIDTH] * self.GLYPH_HEIGHT
        glyphs = []
        while len(glyphs) * self.GLYPH_WIDTH < width:
            word = [self.glyphs[self.numbers.below(len(self.glyphs))] for _ in range(2 + self.numbers.below(9))]
            glyphs += word + [blank]
        glyphs = glyphs[: width // self.GLYPH_WIDTH]
        for row, line in enumerate(self.lines[y : y + self.GLYPH_HEIGHT]):
            written = bytes(shades[dark] for glyph in glyphs for dark in glyph[row])
            line[x : x + len(written)] = written

    def text(self, x, y, width, height):
        paper, ink = (252, 30) if self.numbers.below(3) else (32, 210)
        self.fill(x, y, width, height, paper)
        for line in range(y + 8, y + height - 16, 18):
            if self.numbers.below(7):
                full = width - 20 if self.numbers.below(3) else (width - 20) * (1 + self.numbers.below(4)) // 5
                self.write(x + 10, line, full, ink, paper)

    def table(self, x, y, width, height):
        for turn, line in enumerate(range(y, y + height - 20, 20)):
            paper = 245 if turn % 2 else 232
            self.fill(x, line, width, 20, paper)
            for column in range(x, x + width - 110, 120):
                self.fill(column, line, 1, 20, 200)
                self.write(column + 8, line + 4, 24 + self.numbers.below(80), 40, paper)

    def chart(self, x, y, width, height):
        self.fill(x, y, width, height, 255)
        for line in range(y, y + height, 40):
            self.fill(x, line, width, 1, 225)
        for column in range(x + 10, x + width - 24, 30):
            high = self.numbers.below(max(height - 20, 1))
            self.fill(column, y + height - high, 22, high, 100 + self.numbers.below(4) * 30)

    def photograph(self, x, y, width, height):
        field = Field(f"photograph {x} {y}", 64, 0.3)
        for row in range(height):
            lights = [0.5 + light for light in field.line(row)]
            line = sampled(lights, noise(f"photograph {x} {y}", row), 255, 1.0)
            self.lines[y + row][x : x + width] = bytes(line[:width])

    def window(self, content):
        numbers = self.numbers
        width, height = 320 + numbers.below(700), 240 + numbers.below(520)
        x, y = numbers.below(SIDE - width), numbers.below(SIDE - height)
        self.fill(x - 1, y - 1, width + 2, height + 2, 20)
        self.fill(x, y, width, 28, 190)
        self.write(x + 40, y + 7, 160 + numbers.below(100), 20, 190)
        content(x, y + 28, width, height - 28)


def screen(folder):
    shown = Screen()
    flat = lambda x, y, width, height: shown.fill(x, y, width, height, 240)
    contents = (shown.text, flat, shown.table, shown.text, shown.chart, shown.photograph, shown.text)
    for turn in range(24):
        shown.window(contents[turn % len(contents)])
    shown.fill(0, SIDE - 44, SIDE, 44, 48)
    shown.write(60, SIDE - 28, 700, 220, 48)
    (folder / "screen8.pgm").write_bytes(head("P5", 255) + b"".join(shown.lines))


def main(words):
    if len(words) != 1:
        print(__doc__.split("\n\n")[1], file=sys.stderr)
        return 2
    folder = pathlib.Path(words[0])
    natural(folder)
    body(folder)
    screen(folder)
    return 0


if __name__ == "__main__":
    sys.exit(main(sys.argv[1:]))
