"""Makes a tree of slices: 512 by 512 of 12 bits, a body with noise, in folders of 200.

    python3 make_slices.py COUNT FOLDER
"""

import sys
from pathlib import Path

import numpy as np
import pydicom

DISTINCT = 200


def values(number: int, drawn: np.random.Generator) -> np.ndarray:
    """The values of a slice."""
    y, x = np.mgrid[0:512, 0:512]
    body = (x - 256) ** 2 / 200**2 + (y - 256) ** 2 / 160**2 < 1
    inside = 1000 + 60 * np.sin(x / 40 + number / 10) + 50 * np.cos(y / 30) + drawn.normal(0, 12, body.shape)
    return np.clip(np.where(body, inside, drawn.normal(8, 3, body.shape)), 0, 4095).astype("<u2")


def make(number: int, path: Path, drawn: np.random.Generator) -> None:
    """Writes a slice, with some elements of its maker's."""
    made, made.file_meta = pydicom.Dataset(), pydicom.dataset.FileMetaDataset()
    made.is_little_endian, made.is_implicit_VR = True, False
    made.file_meta.TransferSyntaxUID = pydicom.uid.ExplicitVRLittleEndian
    made.file_meta.MediaStorageSOPClassUID = made.SOPClassUID = "1.2.840.10008.5.1.4.1.1.2"
    made.file_meta.MediaStorageSOPInstanceUID = made.SOPInstanceUID = f"1.2.3.{number}"
    made.PatientName, made.PatientID, made.Modality, made.InstanceNumber = "Of^No^Body", "1", "CT", number
    made.StudyInstanceUID, made.SeriesInstanceUID, made.RescaleSlope, made.RescaleIntercept = "1.2", "1.3", "1", "-1024"
    made.add_new((0x0009, 0x0010), "LO", "A MAKER")
    for each in range(60):
        made.add_new((0x0009, 0x1000 + each), "LO", f"private {each}")
    made.SamplesPerPixel, made.PhotometricInterpretation, made.PixelRepresentation = 1, "MONOCHROME2", 0
    made.Rows = made.Columns = 512
    made.BitsAllocated, made.BitsStored, made.HighBit = 16, 12, 11
    made.PixelData = values(number, drawn).tobytes()
    made["PixelData"].VR = "OW"
    made.save_as(path, write_like_original=False)


def main() -> None:
    count, folder = int(sys.argv[1]), Path(sys.argv[2])
    drawn = np.random.default_rng(3)
    for number in range(count):
        path = folder / f"{number // DISTINCT:04}" / f"{number:06}.dcm"
        path.parent.mkdir(parents=True, exist_ok=True)
        if number < DISTINCT:
            make(number, path, drawn)
        else:
            path.write_bytes((folder / "0000" / f"{number % DISTINCT:06}.dcm").read_bytes())


main()
