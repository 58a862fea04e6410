"""Compares what commands of GDCM and DCMTK make of DICOM files with the drop-ins and without: compare_files.py COMMAND.

COMMAND is jlsrec-charls. The files are those that pydicom brings, and drawn ones; each is to come out the same, byte for
byte, and the commands are to end the same.
"""

from __future__ import annotations

import io
import os
import random
import re
import shutil
import subprocess
import sys
import tempfile
from pathlib import Path

import numpy as np
import pydicom
from pydicom.dataset import Dataset, FileMetaDataset

command = sys.argv[1]
passed = failed = made_files = 0


def case(name: str, holds: bool) -> None:
    global passed, failed
    passed, failed = passed + holds, failed + (not holds)
    if not holds:
        print(f"FAILED {name}")


def drawn(path: Path, draw: random.Random) -> None:
    """A file of drawn samples: gray or colour, of several bits, of one or several frames."""
    bits = draw.choice([8, 8, 10, 12, 12, 16, 16])
    colors = draw.choice([1, 1, 1, 3])
    if colors == 3:
        bits = draw.choice([8, 8, 16])
    frames, rows, columns = draw.choice([1, 1, 1, 2, 3]), draw.randrange(1, 90), draw.randrange(1, 90)
    noise = np.random.default_rng(draw.randrange(1 << 30))
    shape = (frames, rows, columns, colors)
    values = np.add.outer(np.arange(frames * rows).reshape(frames, rows), np.arange(columns))[..., None] * draw.randrange(1, 9)
    values = (values + noise.integers(0, draw.choice([1, 4, 60, 1 << bits]), shape)) % (1 << bits)
    made, made.file_meta = Dataset(), FileMetaDataset()
    made.is_little_endian, made.is_implicit_VR = True, False
    made.file_meta.TransferSyntaxUID = pydicom.uid.ExplicitVRLittleEndian
    # Of X-ray angiography, which may have several frames.
    made.file_meta.MediaStorageSOPClassUID = made.SOPClassUID = "1.2.840.10008.5.1.4.1.1.12.1"
    made.file_meta.MediaStorageSOPInstanceUID = made.SOPInstanceUID = "1.2.3.4"
    made.StudyInstanceUID, made.SeriesInstanceUID, made.Modality, made.PatientID = "1.2.3.5", "1.2.3.6", "XA", "1"
    made.SamplesPerPixel, made.PhotometricInterpretation = colors, "RGB" if colors == 3 else "MONOCHROME2"
    if colors == 3:
        made.PlanarConfiguration = draw.choice([0, 1])
        if made.PlanarConfiguration == 1:
            values = values.transpose(0, 3, 1, 2)
    made.NumberOfFrames, made.Rows, made.Columns = frames, rows, columns
    made.BitsAllocated, made.BitsStored, made.HighBit = (8 if bits == 8 else 16), bits, bits - 1
    made.PixelRepresentation = 0 if colors == 3 else draw.choice([0, 0, 1])
    data = values.astype("<u1" if bits == 8 else "<u2").tobytes()
    made.PixelData = data + b"\0" * (len(data) % 2)
    made["PixelData"].VR = "OB" if bits == 8 else "OW"
    made.save_as(path, write_like_original=False)


# What COMMAND sets for another one; it looks each time whether the drop-ins are to be built.
libraries = subprocess.run([command, "printenv", "LD_LIBRARY_PATH"], stdout=subprocess.PIPE, check=True, text=True).stdout.strip()


def run(words: list[str], out: str, **environment: str) -> tuple[int, bytes | None]:
    """How a command ends that writes a file, and its bytes."""
    Path(out).unlink(missing_ok=True)
    nothing = subprocess.DEVNULL
    ended = subprocess.run(words, stdout=nothing, stderr=nothing, stdin=nothing, env={**os.environ, **environment})
    return ended.returncode, Path(out).read_bytes() if os.path.exists(out) else None


def same(name: str, words: list[str], source: str, out: str) -> None:
    """One command with the drop-ins and without."""
    global made_files
    plain = run([*words, source, out], out)
    kept = out + ".plain"
    if plain[1] is not None:
        shutil.move(out, kept)
        made_files += 1
    ours = run([*words, source, out], out, LD_LIBRARY_PATH=libraries)
    holds = ours == plain
    if not holds and None not in (ours[1], plain[1]):
        # Some get a UID that is drawn: then two files without the drop-ins differ too, and samples are compared.
        again = run([*words, source, out], out)
        holds = again != plain and (ours[0], samples_of(ours[1])) == (plain[0], samples_of(plain[1]))
    case(f"{' '.join(words)} {name}", holds)


def samples_of(data: bytes) -> tuple[object, object]:
    """The transfer syntax of a file, and its pixel data as they stand there."""
    found = pydicom.dcmread(io.BytesIO(data))
    return found.file_meta.TransferSyntaxUID, found.get("PixelData")


draw = random.Random(20)
counts = Path("counts").resolve()
os.environ["JLSREC_CHARLS_COUNTS"] = str(counts)
with tempfile.TemporaryDirectory() as folder:
    os.chdir(folder)
    files = sorted(Path(pydicom.data.__file__).with_name("test_files").glob("*.dcm"))
    for number in range(40):
        path = Path(f"drawn{number}.dcm").resolve()
        drawn(path, draw)
        files.append(path)
    for path in files:
        name = path.name
        same(name, ["gdcmconv", "--jpegls"], str(path), "coded.dcm")
        if os.path.exists("coded.dcm"):
            shutil.copy("coded.dcm", "source.dcm")
            same(name, ["gdcmconv", "--raw"], "source.dcm", "raw.dcm")
        same(name, ["gdcmconv", "--raw"], str(path), "raw.dcm")
        if shutil.which("dcmcjpls"):
            same(name, ["dcmcjpls"], str(path), "coded.dcm")
            same(name, ["dcmcjpls", "+pc", "+in"], str(path), "coded.dcm")
            if os.path.exists("coded.dcm"):
                shutil.copy("coded.dcm", "source.dcm")
                same(name, ["dcmdjpls"], "source.dcm", "raw.dcm")
    os.chdir("/")
numbers = [[int(word) for word in re.findall(r"\d+", line)] for line in counts.read_text().splitlines()]
encoded, encoded_there, decoded, decoded_there = (sum(column) for column in zip(*numbers))
print(f"{made_files} files made; libjlsrec encoded {encoded} and decoded {decoded} pictures, CharLS {encoded_there} and {decoded_there}")
case("libjlsrec coded most", encoded > encoded_there and decoded > decoded_there)
print(f"{passed} passed, {failed} failed")
sys.exit(failed != 0)
