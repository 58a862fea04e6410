"""Codestreams that are written out by T.87 Annex C, each with its image and the columns of its line in an index after its size."""


def segment(code, contents):
    return bytes([0xFF, code]) + (len(contents) + 2).to_bytes(2, "big") + contents


def codestream(precision, width, height, data, presets=b"", before=b"", components=1):
    """One whose data was made elsewhere: of its components the scans, each with its stuffed bytes."""
    header = bytes([precision]) + height.to_bytes(2, "big") + width.to_bytes(2, "big") + bytes([components])
    header += b"".join(bytes([component, 0x11, 0]) for component in range(1, components + 1))
    scans = b"".join(
        segment(0xDA, bytes([1, component, 0, 0, 0, 0])) + data[component - 1] for component in range(1, components + 1)
    )
    return b"\xff\xd8" + before + segment(0xF7, header) + presets + scans + b"\xff\xd9"


def image(magic, width, height, maxval, samples):
    return b"%s\n%d %d\n%d\n" % (magic, width, height, maxval) + samples


# The picture of T.87's Annex H.3; a sample of two values, of sixteen bits, and of colour. Each with its image, and with the columns of
# its line after its size.
ANNEX_H = (
    codestream(8, 4, 4, [bytes.fromhex("c000006c80208e01c0000057400000" "6ee6000001bc18000005d800009160")]),
    image(b"P5", 4, 4, 255, bytes.fromhex("00005a4a44322bcd4091919164919191")),
    "gray 4 4 255 8 3 7 21 64",
)
TWO_VALUES = (
    codestream(2, 1, 1, [b"\x40"], presets=segment(0xF8, bytes.fromhex("0100010001000100010040"))),
    image(b"P5", 1, 1, 1, b"\x01"),
    "gray 1 1 1 2 1 1 1 64",
)
SIXTEEN = (
    codestream(16, 1, 1, [b"\x40\x00"]),
    image(b"P5", 1, 1, 65535, b"\xff\xff"),
    "gray 1 1 65535 16 18 67 276 64",
)
COLOUR = (
    codestream(8, 1, 1, [b"\x80", b"\x80", b"\x80"], components=3),
    image(b"P6", 1, 1, 255, b"\x00\x00\x00"),
    "color 1 1 255 8 3 7 21 64",
)
BLACK = (codestream(8, 1, 1, [b"\x80"]), image(b"P5", 1, 1, 255, b"\x00"), "gray 1 1 255 8 3 7 21 64")
WHITE = (codestream(8, 1, 1, [b"\x40"]), image(b"P5", 1, 1, 255, b"\xff"), "gray 1 1 255 8 3 7 21 64")
# The same picture with other headers: a comment before the frame header, and RESET told.
BLACK_AGAIN = (
    codestream(8, 1, 1, [b"\x80"], presets=segment(0xF8, bytes.fromhex("0100000000000000000020")), before=segment(0xFE, b"A")),
    BLACK[1],
    "gray 1 1 255 8 3 7 21 32",
)
# One whose data can't be decoded, without an image.
BROKEN = (codestream(8, 1, 1, [b"\x00"]), b"", "gray 1 1 255 8 3 7 21 64")
MIXED = [ANNEX_H, TWO_VALUES, SIXTEEN, COLOUR, BLACK]


def recording(frames):
    return b"".join(frame[0] for frame in frames)


def film(frames):
    return b"".join(frame[1] for frame in frames)


def images_in(content):
    """How many images, with headers as the program writes them."""
    images = 0
    while content:
        magic, size, maxval, content = content.split(b"\n", 3)
        width, height = size.split()
        values = int(width) * int(height) * (3 if magic == b"P6" else 1)
        content = content[values * (2 if int(maxval) > 255 else 1):]
        images += 1
    return images
