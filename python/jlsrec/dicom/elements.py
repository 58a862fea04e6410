"""DICOM files as their bytes: where the elements stand, and the same elements in the other encoding of little endian.

Nothing is known here of an element's value but its length and its items, so that every value stays byte for byte what
it was (PS3.5 7.1, 7.5; PS3.10 7.1).
"""

from __future__ import annotations

import functools
import struct
from collections.abc import Iterator
from typing import NamedTuple

MAGIC = b"DICM"
META = 132
UNDEFINED = 0xFFFFFFFF
TRANSFER_SYNTAX = 0x00020010
META_LENGTH = 0x00020000
PIXEL_DATA = 0x7FE00010
ITEM, ITEM_END, SEQUENCE_END = 0xFFFEE000, 0xFFFEE00D, 0xFFFEE0DD

# Value representations whose length has 32 bits, and those whose length has 16 (PS3.5 7.1.2).
LONG = frozenset(b"OB OD OF OL OV OW SQ SV UC UN UR UT UV".split())
SHORT = frozenset(b"AE AS AT CS DA DS DT FD FL IS LO LT PN SH SL SS ST TM UI UL US".split())

_IMPLICIT = struct.Struct("<HHI")
_EXPLICIT = struct.Struct("<HH2sH")
_LENGTH = struct.Struct("<I")


class Left(Exception):
    """Why a file is left as it is."""


class TooShort(Exception):
    """The bytes end before what is looked for does: there may be more of them."""


class Element(NamedTuple):
    """An element: its tag and its value representation, and where it, its value and what follows it begin."""

    tag: int
    vr: bytes
    start: int
    value: int
    end: int
    is_undefined: bool


def element_at(data: bytes, at: int, explicit: bool) -> Element:
    """The element at a place. Its end may be behind the bytes, if its length is defined."""
    tag, vr, value, length = head_at(data, at, explicit)
    if length != UNDEFINED:
        return Element(tag, vr, at, value, value + length, False)
    # The items of an element of unknown representation are implicit (PS3.5 6.2.2).
    return Element(tag, vr, at, value, _items_end(data, value, explicit and vr != b"UN"), True)


def head_at(data: bytes, at: int, explicit: bool) -> tuple[int, bytes, int, int]:
    """An element's tag and representation, where its value begins, and its length."""
    try:
        group, number, vr, length = _EXPLICIT.unpack_from(data, at)
        tag = group << 16 | number
        if not explicit or group == 0xFFFE:
            return tag, b"", at + 8, _LENGTH.unpack_from(data, at + 4)[0]
        if vr in SHORT:
            return tag, vr, at + 8, length
        if vr in LONG:
            return tag, vr, at + 12, _LENGTH.unpack_from(data, at + 8)[0]
    except struct.error:
        raise TooShort from None
    raise Left(f"the element {shown_tag(tag)} has no value representation that is known")


def _items_end(data: bytes, at: int, explicit: bool) -> int:
    """Where a sequence's items, up to their delimiter, end."""
    while True:
        tag, _, value, length = head_at(data, at, False)
        if tag == SEQUENCE_END and length == 0:
            return value
        if tag != ITEM:
            raise Left(f"{shown_tag(tag)} stands where an item is to begin")
        at = value + length if length != UNDEFINED else _item_end(data, value, explicit)


def _item_end(data: bytes, at: int, explicit: bool) -> int:
    """Where an item's elements, up to their delimiter, end."""
    while True:
        element = element_at(data, at, explicit)
        at = element.end
        if element.tag == ITEM_END:
            return at


def shown_tag(tag: int) -> str:
    """A tag as DICOM prints it."""
    return f"({tag >> 16:04X},{tag & 0xFFFF:04X})"


def converted(data: bytes, explicit: bool, signed: bool) -> bytes:
    """Elements in the other encoding: implicit ones of explicit ones, or explicit ones of implicit ones.

    What the dictionary doesn't know stays as it is, as a value of unknown representation (UN). Where the dictionary has
    two representations, signed says which one numbers have. Group lengths are those of the other encoding.
    """
    made, at = _converted(data, 0, len(data), explicit, signed, False)
    if at != len(data):
        raise Left("an element is longer than what it stands in")
    return made


def _converted(data: bytes, at: int, end: int, explicit: bool, signed: bool, delimited: bool) -> tuple[bytes, int]:
    """Elements up to the end, or up to an item's delimiter, in the other encoding; and where they end here."""
    parts: list[tuple[int, bytes]] = []
    while at < end:
        element = element_at(data, at, explicit)
        if element.end > end:
            raise Left("an element is longer than what it stands in")
        at = element.end
        if element.tag == ITEM_END:
            if not delimited or element.end != element.value:
                raise Left("an item ends where none has begun")
            parts.append((element.tag, data[element.start : element.end]))
            break
        parts.append((element.tag, _element(data, element, explicit, signed)))
    else:
        if delimited:
            raise Left("an item has no end")
    return b"".join(_with_group_lengths(parts)), at


def _with_group_lengths(parts: list[tuple[int, bytes]]) -> Iterator[bytes]:
    """Elements, by their tags and bytes, with the lengths of the groups that say one."""
    for index, (tag, part) in enumerate(parts):
        if tag & 0xFFFF == 0 and len(part) == 12:
            length = sum(len(other) for later, other in parts[index + 1 :] if later >> 16 == tag >> 16)
            part = part[:-4] + _LENGTH.pack(length)
        yield part


def _element(data: bytes, element: Element, explicit: bool, signed: bool) -> bytes:
    """An element in the other encoding."""
    vr = element.vr if explicit else vr_of(element.tag, signed)
    if vr == b"SQ":
        value = _items(data, element, explicit, signed)
    elif element.is_undefined and vr != b"UN":
        raise Left(f"the element {shown_tag(element.tag)} has no length")
    else:
        value = data[element.value : element.end]
    length = UNDEFINED if element.is_undefined else len(value)
    group, number = element.tag >> 16, element.tag & 0xFFFF
    if explicit:
        return _IMPLICIT.pack(group, number, length) + value
    if vr in SHORT and length <= 0xFFFF:
        return _EXPLICIT.pack(group, number, vr, length) + value
    # A length that has no room in 16 bits (PS3.5 6.2.2).
    return _EXPLICIT.pack(group, number, vr if vr in LONG else b"UN", 0) + _LENGTH.pack(length) + value


def _items(data: bytes, element: Element, explicit: bool, signed: bool) -> bytes:
    """The items of a sequence in the other encoding, with their delimiter if they have one."""
    parts, at = [], element.value
    while at < element.end:
        tag, _, value, length = head_at(data, at, False)
        if tag == SEQUENCE_END and element.is_undefined:
            parts.append(data[at:value])
            at = value
        elif tag != ITEM:
            raise Left(f"{shown_tag(tag)} stands where an item is to begin")
        elif length == UNDEFINED:
            made, at = _converted(data, value, element.end, explicit, signed, True)
            parts.append(_IMPLICIT.pack(tag >> 16, tag & 0xFFFF, UNDEFINED) + made)
        else:
            made, at = _converted(data, value, value + length, explicit, signed, False)
            parts.append(_IMPLICIT.pack(tag >> 16, tag & 0xFFFF, len(made)) + made)
    if at != element.end:
        raise Left(f"the items of {shown_tag(element.tag)} are longer than it is")
    return b"".join(parts)


@functools.lru_cache(maxsize=None)
def vr_of(tag: int, signed: bool) -> bytes:
    """The representation of an implicit element's value, as the dictionary has it; UN where it hasn't."""
    from pydicom.datadict import dictionary_VR

    if tag & 0xFFFF == 0:
        return b"UL"
    if tag >> 16 & 1:
        # Of private elements only those that name their creator are known (PS3.5 7.8.1).
        return b"LO" if 0x10 <= tag & 0xFFFF <= 0xFF else b"UN"
    try:
        vr = dictionary_VR(tag).encode()
    except KeyError:
        return b"UN"
    if vr == b"US or SS":
        return b"SS" if signed else b"US"
    if vr.endswith(b"OW"):
        return b"OW"
    return vr if vr in SHORT or vr in LONG else b"UN"
