"""Whether the codestreams of a JPEG-LS lossless file are exactly what encoding gives."""

from __future__ import annotations

from collections.abc import Iterator

from .. import JlsrecError, check_strict
from .._library import NOT_STRICT
from .coded import JPEG_LS_LOSSLESS, Damaged, Reads, frames_in, front_of, item_at, syntax_of
from .elements import ITEM, SEQUENCE_END, UNDEFINED, Left

SOI = b"\xff\xd8"
OTHER = "encoding its samples gives other data in component"


class NotStrict(Damaged):
    """Why a file isn't strict, or can't be said to be."""


def check(file: Reads) -> None:
    """Raises NotStrict if a file of 1.2.840.10008.1.2.4.80 has a frame whose data aren't those that encoding it gives.

    It does so too if a frame isn't decoded here, as interleaved colour, or if the frames can't be found. Any other file
    is passed over.
    """
    try:
        if syntax_of(file) != JPEG_LS_LOSSLESS:
            return
    except Left:
        return
    try:
        front = front_of(file)
        wanted = frames_in(front)
    except Left as why:
        raise NotStrict(f"its frames can't be checked strictly: {why}") from None
    if front.length != UNDEFINED:
        raise NotStrict("its frames can't be checked strictly: its pixel data aren't fragments")
    count = 0
    for codestream in codestreams(file, front.at):
        try:
            check_strict(codestream)
        except JlsrecError as error:
            if error.status == NOT_STRICT:
                raise NotStrict(f"frame {count} isn't strict: {OTHER} {error.component}") from None
            raise NotStrict(f"frame {count} can't be checked strictly: {error}") from None
        count += 1
    if count != wanted:
        raise NotStrict(f"it has {count} codestreams, and says {wanted} frames")


def codestreams(file: Reads, at: int) -> Iterator[bytes]:
    """The codestreams in a file's fragments, of which the first at `at` is their table: one begins in each that begins
    with SOI. Raises NotStrict if there is none where one is to be.
    """
    tag, length = item_at(file, at)
    held: list[bytes] = []
    while tag == ITEM and length != UNDEFINED:
        at += 8 + length
        tag, length = item_at(file, at)
        if tag == ITEM and length != UNDEFINED:
            fragment = file.read(at + 8, length)
            if held and fragment.startswith(SOI):
                yield b"".join(held)
                held = []
            held.append(fragment)
    if (tag, length) != (SEQUENCE_END, 0):
        raise NotStrict(f"there is no fragment at byte {at}")
    if held:
        yield b"".join(held)
