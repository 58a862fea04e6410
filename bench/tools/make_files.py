"""Makes the DICOM files that bench/tools/run times: make_files.py FOLDER, or a tree of slices of 512 by 512 pixels and
12 bits, 50 in a folder: make_files.py FOLDER COUNT. Smooth samples with noise of a few bits."""

import sys
from pathlib import Path

import numpy as np
import pydicom
from pydicom.dataset import Dataset, FileMetaDataset


def make(path: Path, frames: int, side: int, bits: int, colors: int, seed: int = 7) -> None:
    noise = np.random.default_rng(seed)
    shape = (frames, side, side, colors)
    x = np.linspace(0, 9, side) + 0.1 * (seed - 7)
    smooth = (np.sin(x)[:, None] * np.cos(x * 1.7)[None, :] + 1) / 2 * ((1 << bits) - 1) * 0.8
    values = smooth[None, :, :, None] + noise.normal(0, max(2.0, (1 << bits) / 700), shape) + 5 * np.arange(colors)
    values = values.clip(0, (1 << bits) - 1)
    made, made.file_meta = Dataset(), FileMetaDataset()
    made.is_little_endian, made.is_implicit_VR = True, False
    made.file_meta.TransferSyntaxUID = pydicom.uid.ExplicitVRLittleEndian
    made.file_meta.MediaStorageSOPClassUID = made.SOPClassUID = "1.2.840.10008.5.1.4.1.1.12.1"
    made.file_meta.MediaStorageSOPInstanceUID = made.SOPInstanceUID = "1.2.3.4"
    made.StudyInstanceUID, made.SeriesInstanceUID, made.Modality, made.PatientID = "1.2.3.5", "1.2.3.6", "XA", "1"
    made.SamplesPerPixel, made.PhotometricInterpretation = colors, "RGB" if colors == 3 else "MONOCHROME2"
    if colors == 3:
        # As GDCM codes it with a scan for each component.
        made.PlanarConfiguration = 1
        values = values.transpose(0, 3, 1, 2)
    made.NumberOfFrames, made.Rows, made.Columns = frames, side, side
    made.BitsAllocated, made.BitsStored, made.HighBit, made.PixelRepresentation = (8 if bits == 8 else 16), bits, bits - 1, 0
    made.PixelData = values.astype("<u1" if bits == 8 else "<u2").tobytes()
    made["PixelData"].VR = "OB" if bits == 8 else "OW"
    made.save_as(path, write_like_original=False)


folder = Path(sys.argv[1])
for number in range(int(sys.argv[2]) if len(sys.argv) > 2 else 0):
    place = folder / f"series{number // 50}" / f"{number}.dcm"
    place.parent.mkdir(parents=True, exist_ok=True)
    make(place, 1, 512, 12, 1, seed=7 + number)
if len(sys.argv) > 2:
    sys.exit()
make(folder / "gray8.dcm", 1, 2048, 8, 1)
make(folder / "gray12.dcm", 1, 2048, 12, 1)
make(folder / "gray16.dcm", 1, 2048, 16, 1)
make(folder / "colour8.dcm", 1, 2048, 8, 3)
make(folder / "film12.dcm", 20, 512, 12, 1)
