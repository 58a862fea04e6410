"""A series of DICOM files, to try things with: python3 make_series.py FOLDER COUNT.

Slices of a ball in noise, 512 by 512, with 12 bits stored, the same on every machine. It wants pydicom and numpy.
"""

import sys
from pathlib import Path

import numpy as np
from pydicom.dataset import FileDataset, FileMetaDataset
from pydicom.uid import ExplicitVRLittleEndian

CT = "1.2.840.10008.5.1.4.1.1.2"
UID = "1.2.826.0.1.3680043.10.1459"
rows, columns = np.mgrid[0:512, 0:512].astype(np.uint32)


def values(k: int, count: int) -> np.ndarray:
    """Slice number k: bone around a soft ball, and noise of six bits."""
    radius = 200 - 160 * abs(2 * k - count) // count
    distance = (rows - 256) ** 2 + (columns - 256) ** 2
    noise = rows * np.uint32(2654435761) + columns * np.uint32(2246822519) + np.uint32(k * 3266489917 % 2**32)
    noise = ((noise ^ (noise >> 15)) * np.uint32(2654435761) >> 20) & 63
    tissue = np.where(distance < (radius - 12) ** 2, 1040, np.where(distance < radius**2, 2600, 24))
    return (tissue + noise).astype(np.uint16)


folder, count = Path(sys.argv[1]), int(sys.argv[2])
folder.mkdir()
for k in range(count):
    meta = FileMetaDataset()
    meta.MediaStorageSOPClassUID, meta.MediaStorageSOPInstanceUID = CT, f"{UID}.1.{k + 1}"
    meta.TransferSyntaxUID = ExplicitVRLittleEndian
    name = folder / f"slice{k + 1:03}.dcm"
    slice = FileDataset(str(name), {}, file_meta=meta, preamble=b"\0" * 128)
    slice.is_little_endian, slice.is_implicit_VR = True, False
    slice.SOPClassUID, slice.SOPInstanceUID = CT, meta.MediaStorageSOPInstanceUID
    slice.StudyInstanceUID, slice.SeriesInstanceUID = f"{UID}.2", f"{UID}.3"
    slice.Modality, slice.PatientName, slice.InstanceNumber = "CT", "Ball^Made Up", k + 1
    slice.Rows, slice.Columns, slice.SamplesPerPixel = 512, 512, 1
    slice.PhotometricInterpretation, slice.PixelRepresentation = "MONOCHROME2", 0
    slice.BitsAllocated, slice.BitsStored, slice.HighBit = 16, 12, 11
    slice.RescaleIntercept, slice.RescaleSlope = "-1024", "1"
    slice.PixelData = values(k, count).tobytes()
    slice.save_as(str(name))
