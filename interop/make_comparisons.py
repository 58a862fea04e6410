#!/usr/bin/env python3
"""Makes the films that other programs are asked about, byte for byte the same each time.

  make_comparisons.py FOLDER

A film is Netpbm binary images joined with nothing between. Of each kind, maxval and size there is one film, which shows
each of CONTENTS in a frame. Three more films have a width, a height and a variety that those don't have.

Numbers come from a generator of its own, and all arithmetic is that of integers.
"""
import pathlib
import sys

MAXVALS = (1, 3, 7, 127, 255, 1023, 4095, 65535)
SIZES = ((1, 1), (2, 1), (1, 5), (300, 1), (1, 300), (2, 2), (3, 7), (17, 16), (64, 33), (200, 120))


class Numbers:
    """The generator splitmix64."""

    def __init__(self, seed):
        self.state = seed

    def bits(self):
        self.state = (self.state + 0x9E3779B97F4A7C15) % 2**64
        z = self.state
        z = (z ^ z >> 30) * 0xBF58476D1CE4E5B9 % 2**64
        z = (z ^ z >> 27) * 0x94D049BB133111EB % 2**64
        return z ^ z >> 31

    def below(self, bound):
        return (self.bits() >> 32) * bound >> 32

    def many_below(self, bound, count):
        """Four from each draw, for a bound of 2^16 at most."""
        numbers = []
        while len(numbers) < count:
            four = self.bits()
            numbers += [(four >> shift & 0xFFFF) * bound >> 16 for shift in (0, 16, 32, 48)]
        return numbers[:count]


def noise(numbers, width, height, maxval):
    return numbers.many_below(maxval + 1, width * height)


def flat(numbers, width, height, maxval):
    return [numbers.below(maxval + 1)] * (width * height)


def ramp(numbers, width, height, maxval):
    """A slope that begins anew at 0 where it is past maxval."""
    across, down = numbers.below(maxval // 16 + 2), numbers.below(maxval // 16 + 2)
    parts = 1 + numbers.below(4)
    return [(across * x + down * y) // parts % (maxval + 1) for y in range(height) for x in range(width)]


def soft(numbers, width, height, maxval):
    """A slope up and down again under mild noise, cut off at both ends."""
    across, down = 1 + numbers.below(maxval // 64 + 2), 1 + numbers.below(maxval // 64 + 2)
    spread = 2 + maxval // 32
    mild = iter(numbers.many_below(spread, width * height))
    samples = []
    for y in range(height):
        for x in range(width):
            light = abs((across * x + down * y) % (2 * maxval + 2) - maxval) + next(mild) - spread // 2
            samples.append(min(max(light, 0), maxval))
    return samples


def text(numbers, width, height, maxval):
    """Strokes of ink on paper. A line is like the one above it, or blank, or has new strokes."""
    paper, ink = numbers.below(maxval + 1), numbers.below(maxval + 1)
    line, samples = [paper] * width, []
    for _ in range(height):
        choice = numbers.below(4)
        if choice == 0:
            line = [paper] * width
        elif choice == 1:
            line = []
            while len(line) < width:
                line += [paper] * (1 + numbers.below(12)) + [ink] * (1 + numbers.below(4))
            line = line[:width]
        samples += line
    return samples


def extremes(numbers, width, height, maxval):
    return [maxval * bit for bit in numbers.many_below(2, width * height)]


def specks(numbers, width, height, maxval):
    """One value but for few samples: next to it, or any."""
    samples = flat(numbers, width, height, maxval)
    ground = samples[0]
    for _ in range(1 + len(samples) // 60):
        near = min(max(ground + 2 * numbers.below(2) - 1, 0), maxval)
        samples[numbers.below(len(samples))] = numbers.below(maxval + 1) if numbers.below(2) else near
    return samples


CONTENTS = (noise, flat, ramp, soft, text, extremes, specks)


def image(numbers, is_colour, content, width, height, maxval):
    """An image's bytes in Netpbm's form. In colour each component shows the content anew."""
    planes = [content(numbers, width, height, maxval) for _ in range(3 if is_colour else 1)]
    samples = [sample for pixel in zip(*planes) for sample in pixel]
    head = b"%s\n%d %d\n%d\n" % (b"P6" if is_colour else b"P5", width, height, maxval)
    if maxval < 256:
        return head + bytes(samples)
    return head + b"".join(sample.to_bytes(2, "big") for sample in samples)


def films():
    """Each film's name, and its images."""
    seed = 0
    for is_colour, kind, ending in ((False, "gray", "pgm"), (True, "colour", "ppm")):
        for maxval in MAXVALS:
            for width, height in SIZES:
                seed += 1
                numbers = Numbers(seed)
                yield f"{kind}-{maxval}-{width}x{height}.{ending}", [
                    image(numbers, is_colour, content, width, height, maxval) for content in CONTENTS
                ]
    # Runs so long that their index comes to its end.
    numbers = Numbers(seed + 1)
    yield "gray-255-65535x3.pgm", [image(numbers, False, it, 65535, 3, 255) for it in (flat, specks, text)]
    numbers = Numbers(seed + 2)
    yield "gray-4095-1x65535.pgm", [image(numbers, False, it, 1, 65535, 4095) for it in (flat, specks, soft)]
    # Neighbours that differ in everything.
    numbers, frames = Numbers(seed + 3), []
    for turn in range(120):
        width, height = 1 + numbers.below(40), 1 + numbers.below(30)
        maxval, content = MAXVALS[numbers.below(len(MAXVALS))], CONTENTS[turn % len(CONTENTS)]
        frames.append(image(numbers, numbers.below(2) == 1, content, width, height, maxval))
    yield "mixed.pgm", frames


def main(words):
    if len(words) != 1:
        print(__doc__.split("\n\n")[1], file=sys.stderr)
        return 2
    for name, images in films():
        (pathlib.Path(words[0]) / name).write_bytes(b"".join(images))
    return 0


if __name__ == "__main__":
    sys.exit(main(sys.argv[1:]))
