"""jlsrec.dicom at the edges: full disks, files in another order, other samples, what stays of a run that fails.

    python3 dicom.py PROGRAM ROOT
"""

from __future__ import annotations

import os
import shutil
import subprocess
import sys
from pathlib import Path

import numpy as np
import pydicom

import jlsrec
from cases import case, end

program, root = sys.argv[1:]


def run(*words: str, out=subprocess.PIPE, **named) -> subprocess.CompletedProcess:
    """Runs the commands as a module."""
    environment = {**os.environ, **named.pop("env", {})}
    command = [sys.executable, "-W", "ignore", "-m", "jlsrec.dicom", *words]
    return subprocess.run(command, stdout=out, stderr=subprocess.PIPE, env=environment, **named)


def limited(blocks: int, *words: str, **named) -> subprocess.CompletedProcess:
    """The same, where no file may have more than so many KiB."""
    shell = ["bash", "-c", f'ulimit -f {blocks}; exec "$0" "$@"', sys.executable, "-W", "ignore", "-m", "jlsrec.dicom"]
    return subprocess.run([*shell, *words], stderr=subprocess.PIPE, **named)


def make(name: str, values: np.ndarray, bits: int = 12, signed: bool = False) -> str:
    """A file of these values, (frames, rows, columns)."""
    made, made.file_meta = pydicom.Dataset(), pydicom.dataset.FileMetaDataset()
    made.is_little_endian, made.is_implicit_VR = True, False
    made.file_meta.TransferSyntaxUID = pydicom.uid.ExplicitVRLittleEndian
    made.file_meta.MediaStorageSOPClassUID = made.SOPClassUID = "1.2.840.10008.5.1.4.1.1.12.1"
    made.file_meta.MediaStorageSOPInstanceUID = made.SOPInstanceUID = "1.2.3.4"
    made.SamplesPerPixel, made.PhotometricInterpretation = 1, "MONOCHROME2"
    made.NumberOfFrames, made.Rows, made.Columns = values.shape
    made.BitsAllocated, made.BitsStored, made.HighBit = 16, bits, bits - 1
    made.PixelRepresentation = int(signed)
    made.PixelData = values.astype("<u2").tobytes()
    made["PixelData"].VR = "OW"
    made.save_as(name, write_like_original=False)
    return name


def film_of(values: np.ndarray, maxval: int) -> bytes:
    """The film of values, as docs/FORMATS.md has its images."""
    heading = b"P5\n%d %d\n%d\n" % (*values.shape[:0:-1], maxval)
    return b"".join(heading + frame.astype(">u2").tobytes() for frame in values)


def frame_in(name: str) -> np.ndarray:
    """The picture of the one codestream in a file."""
    (codestream,) = pydicom.encaps.generate_pixel_data_frame(pydicom.dcmread(name).PixelData)
    return jlsrec.decode(codestream)


def said(done: subprocess.CompletedProcess) -> str:
    """What was said on standard error."""
    return done.stderr.decode()


def files() -> dict[str, bytes]:
    """All files here and below, with their bytes."""
    return {str(each): each.read_bytes() for each in sorted(Path(".").rglob("*")) if each.is_file()}


drawn = np.random.default_rng(11)
slices = [drawn.integers(0, 4096, (1, 40, 50)) for _ in range(4)]
names = [make(f"slice{k}.dcm", values) for k, values in enumerate(slices)]
recording = Path("series.jls")
recording.write_bytes(b"".join(jlsrec.encode(values[0].astype(np.uint16), 4095) for values in slices))

# ---- out: a film that isn't whole is told of

large = drawn.integers(0, 4096, (40, 128, 128))
make("large.dcm", large)
whole = film_of(large, 4095)
for unbuffered in ("", "1"):
    name = f"PYTHONUNBUFFERED={unbuffered}"
    environment = {"PYTHONUNBUFFERED": unbuffered}
    done = run("to-film", "large.dcm", env=environment)
    case(f"{name}: the film", done.returncode == 0 and done.stdout == whole)
    with open("film", "wb") as film:
        done = limited(256, "to-film", "large.dcm", stdout=film, env={**os.environ, **environment})
    wanted = "to-film: standard output: File too large\n"
    case(f"{name}: a file that may grow no more: {said(done)}", said(done) == wanted)
    case(f"{name}: its status", done.returncode == 1 and Path("film").read_bytes() == whole[: 256 * 1024])
    with open("/dev/full", "wb") as film:
        done = run("to-film", "slice0.dcm", out=film, env=environment)
    case(f"{name}: a full disk: {said(done)}", said(done) == "to-film: standard output: No space left on device\n")
    case(f"{name}: a full disk's status", done.returncode == 1)
    shell = '"$0" -m jlsrec.dicom to-film large.dcm 2>told | head -c 10 >film; echo "${PIPESTATUS[0]}"'
    head = subprocess.run(
        ["bash", "-c", shell, sys.executable], stdout=subprocess.PIPE, env={**os.environ, **environment}
    )
    told = Path("told").read_text()
    case(f"{name}: a pipe that is closed: {told}", told == "to-film: standard output: Broken pipe\n")
    case(f"{name}: a closed pipe's status", head.stdout == b"1\n")
signed = drawn.integers(-2048, 2048, (2, 20, 30))
make("signed.dcm", signed, 12, True)
for closed, status in {"<&-": 0, "2>&-": 0, "<&- 2>&-": 0, ">&-": 1, ">&- 2>&-": 1, "<&- >&- 2>&-": 1}.items():
    Path("film").write_bytes(b"")
    shell = f'exec "$0" -W ignore -m jlsrec.dicom to-film --offset signed.dcm slice0.dcm >film {closed}'
    done = subprocess.run(["bash", "-c", shell, sys.executable], stderr=subprocess.PIPE)
    case(f"{closed}: status {done.returncode}, {said(done)}", done.returncode == status)
    wanted = film_of(signed + 2048, 4095) + film_of(slices[0], 4095) if status == 0 else b""
    case(f"{closed}: the film", Path("film").read_bytes() == wanted)
same = [(pydicom.dcmread(name).pixel_array == values[0]).all() for name, values in zip(names, slices)]
case("and the slices are as they were", all(same))
done = run("to-film", "slice0.dcm", "series.jls", "slice1.dcm")
case(f"no DICOM file: {said(done)}", done.returncode == 1 and said(done).startswith("to-film: series.jls: "))
case("the film before it is there", done.stdout == film_of(slices[0], 4095))

# ---- back: each codestream is that of its frame

done = run("to-dicom", "series.jls", "out", *names)
case(f"in their order: {said(done)}", done.returncode == 0 and said(done) == "")
for name, values in zip(names, slices):
    case(f"{name} is back", (frame_in(f"out/{name}") == values[0]).all())
shutil.rmtree("out")


def refused(name: str, text: str, *words: str) -> None:
    """That files are refused with this text, and that nothing here is changed."""
    before = files()
    done = run("to-dicom", *words)
    case(f"{name}: {said(done)}", done.returncode == 1 and text in said(done) and "Traceback" not in said(done))
    case(f"{name}: nothing is changed", files() == before and not os.path.exists("out"))


other = "slice1.dcm: frame 0 of the recording has other samples"
refused("in another order", other, "series.jls", "out", *names[1::-1], *names[2:])
other = "slice3.dcm: frame 2 of the recording has other samples"
refused("the last two the other way round", other, "series.jls", "out", *names[:2], *names[:1:-1])
data = bytearray(recording.read_bytes())
place = len(jlsrec.encode(slices[0][0].astype(np.uint16), 4095)) + 1000
data[place] ^= 1
Path("damaged.jls").write_bytes(data)
refused("a damaged codestream", "slice1.dcm: frame 1 of the recording", "damaged.jls", "out", *names)
changed = slices[0].copy()
changed[0, 7, 9] ^= 1
Path("changed.jls").write_bytes(jlsrec.encode(changed[0].astype(np.uint16), 4095))
refused("one bit of one sample", "frame 0 of the recording has other samples", "changed.jls", "out.dcm", names[0])
case("and no file of it", not os.path.exists("out.dcm"))
Path("signed.jls").write_bytes(b"".join(jlsrec.encode((frame & 65535).astype(np.uint16)) for frame in signed))
done = run("to-dicom", "signed.jls", "signed_back.dcm", "signed.dcm")
case(f"signed samples: {said(done)}", done.returncode == 0 and said(done) == "")
full = drawn.integers(-32768, 32768, (1, 20, 30))
make("full.dcm", full, 16, True)
Path("offset.jls").write_bytes(jlsrec.encode((full[0] + 32768).astype(np.uint16)))
refused("an offset to samples of 16 bits", "other samples", "offset.jls", "full_back.dcm", "full.dcm")
case("and no file of it too", not os.path.exists("full_back.dcm"))

# ---- what can't be compared is said

other = pydicom.dcmread("slice0.dcm")
other.PhotometricInterpretation = "YBR_PARTIAL_420"
other.save_as("other.dcm", write_like_original=False)
Path("one.jls").write_bytes(jlsrec.encode(slices[0][0].astype(np.uint16), 4095))
done = run("to-dicom", "one.jls", "other_back.dcm", "other.dcm")
wanted = "other.dcm: its samples weren't compared with the recording's: "
wanted += "its photometric interpretation is YBR_PARTIAL_420\n"
case(f"no stored values: {said(done)}", done.returncode == 0 and said(done) == wanted)
case("and the file is made", (frame_in("other_back.dcm") == slices[0][0]).all())
done = run("to-dicom", "one.jls", "alone.dcm", "slice0.dcm", env={"JLSREC_LIBRARY": "/nowhere/libjlsrec.so"})
wanted = "no samples were compared with the recording's: libjlsrec"
case(f"no library: {said(done)}", done.returncode == 0 and said(done).startswith(wanted))
case("and the file is made too", (frame_in("alone.dcm") == slices[0][0]).all())
hidden = """
import importlib.util, runpy
find = importlib.util.find_spec
importlib.util.find_spec = lambda name, *words: None if name == "pydicom" else find(name, *words)
runpy.run_module("jlsrec.dicom", run_name="__main__")
"""
for words in (["to-film", "slice0.dcm"], ["to-dicom", "one.jls", "x.dcm", "slice0.dcm"]):
    done = subprocess.run([sys.executable, "-c", hidden, *words], stdout=subprocess.PIPE, stderr=subprocess.PIPE)
    wanted = f"{words[0]}: it wants pydicom; apt-get install python3-pydicom has it\n"
    case(f"no pydicom: {said(done)}", (done.returncode, said(done), done.stdout) == (1, wanted, b""))

# ---- what stays of a run that fails

big = make("big.dcm", large)
more = b"".join(jlsrec.encode(frame.astype(np.uint16), 4095) for frame in large)
Path("mixed.jls").write_bytes(recording.read_bytes() + more)
before = files()
for out in ("out", "out/of/folders"):
    done = limited(64, "to-dicom", "mixed.jls", out, *names, big)
    wanted = f"to-dicom: {out}/big.dcm: File too large\n"
    case(f"a full disk at {out}: {said(done)}", done.returncode == 1 and said(done) == wanted)
    case(f"a full disk at {out}: nothing is left", files() == before and not os.path.exists("out"))
os.mkdir("out")
Path("out/mine").write_bytes(b"mine")
done = limited(64, "to-dicom", "mixed.jls", "out", *names, big)
case("a folder of somebody else stays, and what is in it", done.returncode == 1 and os.listdir("out") == ["mine"])
Path(f"out/{names[2]}").write_bytes(b"mine too")
done = run("to-dicom", "series.jls", "out", *names)
case(f"one that is there: {said(done)}", done.returncode == 1 and f"out/{names[2]}" in said(done))
case("and stays, alone", sorted(os.listdir("out")) == sorted(["mine", names[2]]))
case("as it was", Path(f"out/{names[2]}").read_bytes() == b"mine too")
shutil.rmtree("out")
case("into the source itself", run("to-dicom", "one.jls", "slice0.dcm", "slice0.dcm").returncode == 1)
case("which is as it was", files() == before)
late = """
import os, sys
from jlsrec import _files
from jlsrec.dicom import files
real = os.link
def link(one, other, **named):
    if other.endswith("slice3.dcm"):
        open(other, "x").write("mine")
    return real(one, other, **named)
os.link = link
files.write_files("series.jls", "out", sys.argv[1:], False)
"""
done = subprocess.run([sys.executable, "-W", "ignore", "-c", late, *names], stderr=subprocess.PIPE)
case("a file that came meanwhile", done.returncode == 1 and "FileExistsError" in said(done))
case("stays, and none of ours", os.listdir("out") == ["slice3.dcm"] and Path("out/slice3.dcm").read_text() == "mine")

# ---- the command, in the checkout

bare = {name: value for name, value in os.environ.items() if name != "PYTHONPATH"}
command = [sys.executable, "-W", "ignore", f"{root}/python/jlsrec-dicom", "to-film", "slice0.dcm"]
done = subprocess.run(command, stdout=subprocess.PIPE, env=bare)
case("jlsrec-dicom", done.returncode == 0 and done.stdout == film_of(slices[0], 4095))
with open("series.pgm", "wb") as film:
    case("the series", run("to-film", *names, out=film).returncode == 0)
coded = subprocess.run([program, "code", "series.pgm"], stdout=subprocess.PIPE, check=True).stdout
case("is coded by the program as the recording is", coded == recording.read_bytes())

end()
