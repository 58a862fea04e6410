"""DICOM files of all forms, made byte by byte, and what is to become of each."""

from __future__ import annotations

import struct
from dataclasses import dataclass, field
from typing import Optional

import numpy as np

EXPLICIT, IMPLICIT = b"1.2.840.10008.1.2.1", b"1.2.840.10008.1.2"
UNDEFINED = 0xFFFFFFFF
LONG = {"OB", "OW", "SQ", "UN", "UT", "OF", "UC"}


def element(tag: int, vr: str, value: bytes, explicit: bool = True, length: Optional[int] = None) -> bytes:
    """An element, of its value's length if no other is given."""
    length = len(value) if length is None else length
    head = struct.pack("<HH", tag >> 16, tag & 0xFFFF)
    if not explicit or tag >> 16 == 0xFFFE:
        return head + struct.pack("<I", length) + value
    if vr in LONG:
        return head + vr.encode() + struct.pack("<HI", 0, length) + value
    return head + vr.encode() + struct.pack("<H", length) + value


def text(value: str) -> bytes:
    """A text of even length."""
    data = value.encode()
    return data + b" " * (len(data) % 2)


def number(value: int) -> bytes:
    return struct.pack("<H", value)


def sequence(tag: int, items: list[bytes], explicit: bool, vr: str = "SQ", defined: bool = True) -> bytes:
    """A sequence of items of these elements, with lengths or with delimiters."""
    if defined:
        return element(tag, vr, b"".join(element(0xFFFEE000, "", item) for item in items), explicit)
    end = element(0xFFFEE00D, "", b"")
    made = b"".join(element(0xFFFEE000, "", item + end, length=UNDEFINED) for item in items)
    return element(tag, vr, made + element(0xFFFEE0DD, "", b""), explicit, UNDEFINED)


def grouped(group: int, elements: bytes, explicit: bool) -> bytes:
    """Elements of a group behind its length."""
    return element(group << 16, "UL", struct.pack("<I", len(elements)), explicit) + elements


@dataclass
class Form:
    """A file: what its values are, how they stand in it, and what else it has."""

    values: np.ndarray
    bits: int = 12
    allocated: int = 16
    signed: int = 0
    photometric: str = "MONOCHROME2"
    planar: Optional[int] = None
    syntax: bytes = EXPLICIT
    high: Optional[int] = None
    frames: Optional[str] = None
    vr: str = "OW"
    # Elements before those of group 0028, at the end of that and after it, and behind the pixel data.
    early: list = field(default_factory=list)
    late: list = field(default_factory=list)
    after: list = field(default_factory=list)
    tail: bytes = b""
    group_lengths: bool = False
    unused: int = 0
    pad: bytes = b"\0"
    meta: bytes = b""
    # Why it is to be copied; None if it is to be coded.
    copied: Optional[str] = None

    def data(self) -> bytes:
        """The file."""
        explicit = self.syntax != IMPLICIT
        colors = 3 if self.values.ndim == 4 else 1
        e = lambda tag, vr, value: element(tag, vr, value, explicit)
        image = [e(0x00280002, "US", number(colors)), e(0x00280004, "CS", text(self.photometric))]
        if self.planar is not None:
            image.append(e(0x00280006, "US", number(self.planar)))
        frames = self.frames if self.frames is not None else str(len(self.values))
        if frames:
            image.append(e(0x00280008, "IS", text(frames)))
        image += [e(0x00280010, "US", number(self.values.shape[1])), e(0x00280011, "US", number(self.values.shape[2]))]
        high = self.bits - 1 if self.high is None else self.high
        for tag, value in ((0x00280100, self.allocated), (0x00280101, self.bits), (0x00280102, high)):
            image.append(e(tag, "US", number(value)))
        image.append(e(0x00280103, "US", number(self.signed)))
        image.append(e(0x00280106, "SS" if self.signed else "US", number(0)))
        image += [make(explicit) for make in self.late]
        parts = [b"".join(make(explicit) for make in each) for each in (self.early, [], self.after)]
        parts[1] = b"".join(image)
        pixels = self.pixels(explicit)
        if self.group_lengths:
            parts[1] = grouped(0x28, parts[1], explicit)
            pixels = grouped(0x7FE0, pixels, explicit)
        return self.front() + b"".join(parts) + pixels + self.tail

    def front(self) -> bytes:
        meta = b"".join(
            (
                element(0x00020001, "OB", b"\0\1"),
                element(0x00020002, "UI", b"1.2.840.10008.5.1.4.1.1.2\0"),
                element(0x00020003, "UI", b"1.2.3.4\0"),
                element(0x00020010, "UI", self.syntax + b"\0" * (len(self.syntax) % 2)),
                element(0x00020012, "UI", b"1.2.3\0"),
                self.meta,
            )
        )
        return (
            b"A preamble of its own".ljust(128, b"\0")
            + b"DICM"
            + element(0x00020000, "UL", struct.pack("<I", len(meta)))
            + meta
        )

    def pixels(self, explicit: bool) -> bytes:
        values = self.values
        if self.planar == 1 and values.ndim == 4:
            values = values.transpose(0, 3, 1, 2)
        words = values & (1 << self.allocated) - 1 | self.unused
        data = np.ascontiguousarray(words).astype(f"<u{self.allocated // 8}").tobytes()
        return element(0x7FE00010, self.vr, data + self.pad * (len(data) % 2), explicit)


def private(explicit: bool) -> bytes:
    """Elements of a maker's own, among them a sequence."""
    creator = element(0x00090010, "LO", text("A MAKER"), explicit)
    inner = element(0x00091002, "LO", text("within"), explicit)
    if not explicit:
        return (
            creator
            + element(0x00091001, "", b"\1\2\3\4\5\6", False)
            + sequence(0x00091003, [inner, inner], False)
            + (sequence(0x00091004, [inner], False, defined=False))
        )
    return (
        creator
        + element(0x00091001, "UN", b"\1\2\3\4\5\6")
        + sequence(0x00091003, [inner, inner], True)
        + (sequence(0x00091004, [element(0x00091002, "", text("implicit"), False)], True, "UN", defined=False))
    )


def nested(explicit: bool) -> bytes:
    """Sequences in sequences, with lengths and without, empty ones, and one with a picture of its own."""
    code = element(0x00080100, "SH", text("T-1"), explicit) + element(0x00080104, "LO", text("a meaning"), explicit)
    inner = sequence(0x00082218, [code, code], explicit, defined=False)
    deeper = sequence(0x00082112, [element(0x00081150, "UI", b"1.2\0", explicit) + inner], explicit)
    icon = b"".join(
        element(tag, vr, value, explicit)
        for tag, vr, value in (
            (0x00280002, "US", number(1)),
            (0x00280004, "CS", text("MONOCHROME2")),
            (0x00280010, "US", number(2)),
            (0x00280011, "US", number(2)),
            (0x00280100, "US", number(8)),
            (0x00280101, "US", number(8)),
            (0x00280102, "US", number(7)),
            (0x00280103, "US", number(0)),
        )
    ) + element(0x7FE00010, "OB" if explicit else "OW", b"\1\2\3\4", explicit)
    return (
        element(0x00080005, "CS", text("ISO_IR 192"), explicit)
        + sequence(0x00081032, [], explicit)
        + sequence(0x00081110, [b"", deeper], explicit)
        + sequence(0x00081115, [deeper], explicit, defined=False)
        + sequence(0x00081140, [], explicit, defined=False)
        + sequence(0x00082111, [icon], explicit)
    )


def patient(explicit: bool) -> bytes:
    """Texts in an unusual form: an odd pad, a number that isn't written shortly, an empty one."""
    return (
        element(0x00100010, "PN", "Ünï^Çödé ".encode() + b"\0", explicit)
        + element(0x00100030, "DA", b"", explicit)
        + element(0x00181310, "US", number(0) * 4, explicit)
        + element(0x0020000D, "UI", b"1.2.3.4 ", explicit)
    )


def tables(explicit: bool) -> bytes:
    """Lookup tables, of which one is longer than 16 bits of length can say, and a padding value."""
    lut = struct.pack("<3H", 0, 0, 16)
    return (
        element(0x00281050, "DS", text("0040.0\\1e3"), explicit)
        + element(0x00281101, "US", lut, explicit)
        + element(0x00281201, "OW", bytes(range(256)) * 512, explicit)
    )


def palette(explicit: bool) -> bytes:
    """The colours of 256 values."""
    lut = struct.pack("<3H", 256, 0, 16)
    return b"".join(element(0x00281101 + color, "US", lut, explicit) for color in range(3)) + b"".join(
        element(0x00281201 + color, "OW", bytes(range(256)) * 2, explicit) for color in range(3)
    )


def overlay(explicit: bool) -> bytes:
    return element(0x60000010, "US", number(8), explicit) + element(0x60003000, "OW", b"\1\0" * 20, explicit)


PADDING = element(0xFFFCFFFC, "OB", bytes(60))


def forms() -> dict[str, Form]:
    """All forms by their names."""
    drawn = np.random.default_rng(29)

    def gray(bits: int, frames: int = 1, signed: int = 0, shape: tuple[int, int] = (20, 31)) -> np.ndarray:
        return drawn.integers(0, 1 << bits, (frames, *shape)) - (signed << bits - 1)

    def colour(bits: int, frames: int = 1, shape: tuple[int, int] = (21, 30)) -> np.ndarray:
        return drawn.integers(0, 1 << bits, (frames, *shape, 3))

    made: dict[str, Form] = {}
    for syntax, name in ((EXPLICIT, "explicit"), (IMPLICIT, "implicit")):
        for bits in (1, 2, 7, 8, 10, 12, 15, 16):
            for signed in (0, 1) if bits > 1 else (0,):
                for frames in (1, 3):
                    allocated = 8 if bits <= 8 else 16
                    made[f"{name}_{bits}_{signed}_{frames}"] = Form(
                        gray(bits, frames, signed),
                        bits,
                        allocated,
                        signed,
                        syntax=syntax,
                        vr="OB" if bits <= 8 else "OW",
                    )
        made[f"{name}_8_in_16"] = Form(gray(8), 8, 16, syntax=syntax)
        made[f"{name}_8_signed_in_16"] = Form(gray(8, 2, 1), 8, 16, 1, syntax=syntax)
        made[f"{name}_words_of_8"] = Form(gray(8, shape=(3, 3)), 8, 8, syntax=syntax, vr="OW")
        made[f"{name}_inverse"] = Form(gray(12), photometric="MONOCHROME1", syntax=syntax)
        made[f"{name}_palette"] = Form(gray(8), 8, 8, photometric="PALETTE COLOR", syntax=syntax, late=[palette])
        for planar in (0, 1):
            for frames in (1, 3):
                for bits in (8, 12, 16):
                    made[f"{name}_colour_{planar}_{frames}_{bits}"] = Form(
                        colour(bits, frames),
                        bits,
                        8 if bits == 8 else 16,
                        photometric="RGB",
                        planar=planar,
                        syntax=syntax,
                    )
        made[f"{name}_ybr"] = Form(colour(8), 8, 8, photometric="YBR_FULL", planar=0, syntax=syntax)
        made[f"{name}_odd_colour"] = Form(colour(8, 1, (3, 5)), 8, 8, photometric="RGB", planar=1, syntax=syntax)
        made[f"{name}_gray_that_says_planar"] = Form(gray(12), planar=1, syntax=syntax)
        made[f"{name}_one_sample"] = Form(gray(12, shape=(1, 1)), syntax=syntax)
        made[f"{name}_no_frames_said"] = Form(gray(12), frames="", syntax=syntax)
        made[f"{name}_all"] = Form(
            gray(12, 2),
            syntax=syntax,
            early=[nested, private, patient],
            late=[tables],
            after=[overlay],
            group_lengths=True,
        )
        made[f"{name}_tail"] = Form(
            gray(12),
            syntax=syntax,
            late=[tables],
            tail=sequence(0xFFFAFFFA, [element(0x04000005, "US", number(1), syntax == EXPLICIT)], syntax == EXPLICIT)
            + (PADDING if syntax == EXPLICIT else element(0xFFFCFFFC, "", bytes(60), False)),
        )
        made[f"{name}_odd_group_lengths"] = Form(gray(8, shape=(3, 3)), 8, 8, syntax=syntax, group_lengths=True)
        # What can't be coded, or wouldn't come back byte for byte.
        copied = {
            "overlay_in_bits": Form(gray(12), unused=0x8000, copied="bits above its Bits Stored are in use"),
            "overlay_in_signed": Form(
                gray(12, 1, 1) & 0x0FFF, signed=1, copied="bits above its Bits Stored are in use"
            ),
            "high_bit": Form(gray(12) << 4, high=15, copied="16 bits a sample, 12 of them stored"),
            "half_of_it": Form(gray(12, 2), frames="3", copied="its pixel data say"),
            "more_of_it": Form(gray(12, 2), frames="1", copied="its pixel data say"),
            "no_number": Form(gray(12), frames="x", copied="its Number of Frames is 'x'"),
            "subsampled": Form(colour(8), 8, 8, photometric="YBR_FULL_422", planar=0, copied="YBR_FULL_422"),
            "no_planar": Form(colour(8), 8, 8, photometric="RGB", copied="(0028,0006)"),
            "odd_planar": Form(colour(8), 8, 8, photometric="RGB", planar=2, copied="Planar Configuration is 2"),
            "odd_pad": Form(gray(8, shape=(3, 3)), 8, 8, pad=b"\7", copied="byte for byte"),
            "wrong_group_length": Form(
                gray(12),
                early=[lambda explicit: element(0x00080000, "UL", struct.pack("<I", 2), explicit)],
                copied="byte for byte" if syntax == IMPLICIT else None,
            ),
            "thirty_two": Form(gray(16), 16, 32, copied="32 bits a sample"),
            "out_of_order": Form(
                gray(12),
                early=[patient, lambda explicit: element(0x00080060, "CS", b"CT", explicit)],
                copied="out of order",
            ),
            "twice": Form(gray(12), early=[patient, patient], copied="out of order"),
        }
        for each, form in copied.items():
            form.syntax = syntax
            made[f"{name}_{each}"] = form
    made["implicit_rubbish_behind"] = Form(
        gray(12), syntax=IMPLICIT, tail=b"rubbish", copied="breaks off within an element"
    )
    made["explicit_rubbish_behind"] = Form(gray(12), tail=b"rubbish behind")
    made["explicit_zeros_behind"] = Form(gray(12), tail=bytes(512))
    made["unknown_vr"] = Form(gray(12), early=[lambda e: b"\x08\0\x60\0??\2\0CT"], copied="no value representation")
    made["big_endian"] = Form(gray(12), syntax=b"1.2.840.10008.1.2.2", copied="1.2.840.10008.1.2.2")
    made["deflated"] = Form(gray(12), syntax=b"1.2.840.10008.1.2.1.99", copied="1.2.840.10008.1.2.1.99")
    made["jpeg"] = Form(gray(12), syntax=b"1.2.840.10008.1.2.4.70", copied="1.2.840.10008.1.2.4.70")
    made["jpeg_ls"] = Form(gray(12), syntax=b"1.2.840.10008.1.2.4.80", copied="1.2.840.10008.1.2.4.80")
    made["no_syntax"] = Form(gray(12), syntax=b"", copied="not named")
    made["private_meta"] = Form(
        gray(12), meta=element(0x00020100, "UI", b"1.2.9\0") + element(0x00020102, "OB", b"\1\2")
    )
    return made


def others() -> dict[str, bytes]:
    """Files that aren't whole or aren't DICOM, by their names."""
    whole = Form(np.arange(600).reshape(1, 20, 30), early=[nested, private, patient]).data()
    made = {
        f"cut_at_{count}": whole[:count]
        for count in (0, 1, 127, 131, 132, 140, 200, 400, 900, len(whole) - 1201, len(whole) - 1)
    }
    made["text.txt"] = b"Not DICOM at all\n"
    made["no_preamble"] = whole[132:]
    made["no_pixels"] = whole[: whole.index(b"\xe0\x7f\x10\0OW")]
    return made
