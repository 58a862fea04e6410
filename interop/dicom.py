#!/usr/bin/env python3
"""Puts a film into a DICOM file, and takes the codestreams out of one.

  dicom.py wrap FILM FILE        FILM is joined binary Netpbm images, all of one kind, size and maxval of 2^P - 1
  dicom.py unwrap FILE CODED     CODED gets the codestreams of the file's frames, joined

The file is of many frames, explicit, little-endian and uncompressed; what is taken out is a fragment a frame, up to its
EOI: an odd length is made even by a byte behind it.
"""
import array
import struct
import sys

LONG_LENGTHS = {b"OB", b"OW", b"SQ", b"UN", b"UT"}
UNCOMPRESSED = b"1.2.840.10008.1.2.1"
MULTI_FRAME_IMAGE = {True: b"1.2.840.10008.5.1.4.1.1.7.4", False: b"1.2.840.10008.5.1.4.1.1.7.3"}
BYTE_IMAGE = b"1.2.840.10008.5.1.4.1.1.7.2"
PIXEL_DATA, ITEM, END_OF_ITEMS = (0x7FE0, 0x0010), (0xFFFE, 0xE000), (0xFFFE, 0xE0DD)


def element(group, number, kind, value):
    """An element, whose value is a number or bytes."""
    if isinstance(value, int):
        value = struct.pack("<H", value)
    if len(value) % 2:
        value += b"\0" if kind in (b"UI", b"OB") else b" "
    long = kind in LONG_LENGTHS
    return struct.pack("<HH2sHI" if long else "<HH2sH", group, number, kind, *([0] if long else []), len(value)) + value


def images_of(film):
    """The rasters of a film without comments, little-endian, and their colour, width, height and maxval."""
    rasters = []
    while film:
        magic, size, greatest, rest = film.split(b"\n", 3)
        width, height, maxval = *map(int, size.split()), int(greatest)
        raster = rest[: width * height * (3 if magic == b"P6" else 1) * (2 if maxval > 255 else 1)]
        film = rest[len(raster) :]
        if maxval > 255:
            samples = array.array("H", raster)
            samples.byteswap()
            raster = samples.tobytes()
        rasters.append(raster)
    return rasters, magic == b"P6", width, height, maxval


def wrapped(film):
    rasters, is_colour, width, height, maxval = images_of(film)
    bits, pixels = maxval.bit_length(), b"".join(rasters)
    allocated = 8 if bits <= 8 else 16
    image = MULTI_FRAME_IMAGE[is_colour] if is_colour or bits > 8 else BYTE_IMAGE
    meta = b"".join((
        element(2, 0x0001, b"OB", b"\0\1"),
        element(2, 0x0002, b"UI", image),
        element(2, 0x0003, b"UI", b"1.2.3.4"),
        element(2, 0x0010, b"UI", UNCOMPRESSED),
        element(2, 0x0012, b"UI", b"1.2.3"),
    ))
    data = b"".join((
        element(8, 0x0016, b"UI", image),
        element(8, 0x0018, b"UI", b"1.2.3.4"),
        element(0x28, 0x0002, b"US", 3 if is_colour else 1),
        element(0x28, 0x0004, b"CS", b"RGB" if is_colour else b"MONOCHROME2"),
        *([element(0x28, 0x0006, b"US", 0)] if is_colour else []),
        element(0x28, 0x0008, b"IS", b"%d" % len(rasters)),
        element(0x28, 0x0010, b"US", height),
        element(0x28, 0x0011, b"US", width),
        element(0x28, 0x0100, b"US", allocated),
        element(0x28, 0x0101, b"US", bits),
        element(0x28, 0x0102, b"US", bits - 1),
        element(0x28, 0x0103, b"US", 0),
        element(*PIXEL_DATA, b"OB" if allocated == 8 else b"OW", pixels),
    ))
    return bytes(128) + b"DICM" + element(2, 0, b"UL", struct.pack("<I", len(meta))) + meta + data


def fragments_of(file):
    """The fragments of the pixel data, a frame each. The first item is the table of their places."""
    at = 132
    while True:
        tag, kind = struct.unpack_from("<HH", file, at), file[at + 4 : at + 6]
        if tag == PIXEL_DATA:
            break
        if kind in LONG_LENGTHS:
            at += 12 + struct.unpack_from("<I", file, at + 8)[0]
        else:
            at += 8 + struct.unpack_from("<H", file, at + 6)[0]
    at += 12
    items = []
    while struct.unpack_from("<HH", file, at) == ITEM:
        length = struct.unpack_from("<I", file, at + 4)[0]
        items.append(file[at + 8 : at + 8 + length])
        at += 8 + length
    if struct.unpack_from("<HH", file, at) != END_OF_ITEMS:
        raise ValueError("the fragments don't end")
    return items[1:]


def main(words):
    if len(words) != 3 or words[0] not in ("wrap", "unwrap"):
        print(__doc__.split("\n\n")[1], file=sys.stderr)
        return 2
    with open(words[1], "rb") as opened:
        given = opened.read()
    if words[0] == "wrap":
        made = wrapped(given)
    else:
        made = b"".join(it[: it.rindex(b"\xff\xd9") + 2] for it in fragments_of(given))
    with open(words[2], "wb") as written:
        written.write(made)
    return 0


if __name__ == "__main__":
    sys.exit(main(sys.argv[1:]))
