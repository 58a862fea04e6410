"""Files of all forms by way of a film into DICOM files again: what pydicom, DCMTK and GDCM read there is the source's.

    python3 back.py

What is expected are the stored values of the source: its words shifted down to High Bit, and without the bits above it.
DCMTK isn't asked for codestreams of less than 8 bits, of which it refuses most, nor GDCM for 1 bit stored, which it
refuses, and for colour of several frames, which it reads wrongly.
"""

from __future__ import annotations

import os
import shutil
import subprocess
import sys
from pathlib import Path

import numpy as np
import pydicom

import jlsrec
import jlsrec.pydicom
from cases import case, end
from jlsrec.dicom import Refused
from jlsrec.dicom.film import UNREADABLE, shown, stored
from jlsrec.dicom.files import write_files
from makes import EXPLICIT, IMPLICIT, Form, forms

jlsrec.pydicom.register()
drawn = np.random.default_rng(41)
ODD = {"explicit_rubbish_behind"}


def more_forms() -> dict[str, Form]:
    """Further ones: of few bits in words of 16, and of high bits above them."""
    made = {}
    for bits in (1, 2, 5, 7, 8, 9):
        for frames in (1, 2):
            values = drawn.integers(0, 1 << bits, (frames, 20, 31))
            made[f"{bits}_in_16_{frames}"] = Form(values, bits)
            made[f"{bits}_in_16_{frames}_high"] = Form(values << 16 - bits, bits, high=15)
            made[f"{bits}_in_16_{frames}_middle"] = Form(values << 3, bits, high=bits + 2)
            if bits > 1:
                made[f"{bits}_in_16_{frames}_signed"] = Form(values - (1 << bits - 1), bits, signed=1)
    colour = drawn.integers(0, 256, (1, 21, 30, 3))
    made["colour_8_in_16"] = Form(colour, 8, photometric="RGB", planar=0)
    made["colour_8_in_16_planes"] = Form(colour, 8, photometric="RGB", planar=1)
    made["colour_5_in_8"] = Form(colour >> 3, 5, 8, photometric="RGB", planar=0)
    return made


def recorded(path: str) -> np.ndarray | None:
    """The stored values of a file that can be a film, whose recording is film.jls then."""
    try:
        values, bits, signed = stored(pydicom.dcmread(path))
    except (Refused, *UNREADABLE):
        return None
    samples, maxval = shown(values, bits, int(pydicom.dcmread(path).BitsAllocated), signed)
    kind = np.uint8 if maxval < 256 else np.uint16
    Path("film.jls").write_bytes(b"".join(jlsrec.encode(frame.astype(kind), maxval) for frame in samples))
    return values


def values_in(path: str) -> np.ndarray | str:
    """The stored values of a file by pydicom."""
    try:
        dataset = pydicom.dcmread(path)
        values = dataset.pixel_array.astype(np.int64)
        return values if int(dataset.get("NumberOfFrames", 1) or 1) > 1 else values[None]
    except Exception as error:
        return f"{type(error).__name__}: {error}"


def values_by(*command: str) -> np.ndarray | str:
    """The stored values of what a command makes of it."""
    Path("raw.dcm").unlink(missing_ok=True)
    done = subprocess.run([*command, "back.dcm", "raw.dcm"], stdout=subprocess.DEVNULL, stderr=subprocess.PIPE, text=True)
    return values_in("raw.dcm") if done.returncode == 0 else f"{done.returncode}: {done.stderr[-300:]}"


def same(name: str, got: np.ndarray | str, wanted: np.ndarray) -> None:
    said = got if isinstance(got, str) else "other values"
    case(f"{name}: {said}", isinstance(got, np.ndarray) and np.array_equal(got, wanted))


def refused(name: str) -> None:
    """That a file isn't made a film, since its pixel data aren't what its transfer syntax says."""
    command = [sys.executable, "-W", "ignore", "-m", "jlsrec.dicom", "to-film", "source.dcm"]
    done = subprocess.run(command, stdout=subprocess.DEVNULL, stderr=subprocess.PIPE, text=True)
    case(f"{name}: it is refused: {done.stderr}", done.returncode == 1 and "Traceback" not in done.stderr)


count = 0
for name, form in {**forms(), **more_forms()}.items():
    Path("source.dcm").write_bytes(form.data())
    if form.syntax not in (EXPLICIT, IMPLICIT):
        refused(name)
        continue
    wanted = recorded("source.dcm")
    if wanted is None:
        continue
    count += 1
    Path("back.dcm").unlink(missing_ok=True)
    try:
        write_files("film.jls", "back.dcm", ["source.dcm"], False)
    except Refused as why:
        case(f"{name}: it isn't put back: {why}", False)
        continue
    same(f"{name}: by pydicom", values_in("back.dcm"), wanted)
    made = pydicom.dcmread("back.dcm")
    precision = made.PixelData[made.PixelData.index(b"\xff\xf7") + 4]
    case(f"{name}: Bits Allocated", made.BitsAllocated == (8 if precision <= 8 else 16))
    case(f"{name}: High Bit", made.HighBit == made.BitsStored - 1)
    if shutil.which("dcmdjpls") and name not in ODD and precision >= 8:
        same(f"{name}: by DCMTK", values_by("dcmdjpls"), wanted)
    several = wanted.ndim == 4 and len(wanted) > 1
    if shutil.which("gdcmconv") and made.BitsStored > 1 and not several:
        same(f"{name}: by GDCM", values_by("gdcmconv", "--raw"), wanted)
case(f"{count} of them are films", count >= 100)
end()
