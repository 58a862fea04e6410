"""Files of all forms, compressed, read by others, restored byte for byte, and found if a bit of them changes.

    python3 forms.py [--long]

What is expected is the source's, by pydicom, and what DCMTK and GDCM read, if they are there.
"""

from __future__ import annotations

import json
import os
import random
import shutil
import subprocess
import sys
from pathlib import Path

import numpy as np
import pydicom
from pydicom.data import get_testdata_files

from cases import case, end
from makes import forms, others

CHANGED = 3000 if "--long" in sys.argv else 300
LOSSLESS = "1.2.840.10008.1.2.4.80"
PIXELS = {0x7FE00010, 0x7FE00000, 0x00280006}


def run(*words: str) -> subprocess.CompletedProcess:
    command = [sys.executable, "-W", "ignore", "-m", "jlsrec.dicom", *words, *(["--jobs", "2"] if words[1:] else [])]
    return subprocess.run(command, stdout=subprocess.PIPE, stderr=subprocess.PIPE, text=True)


def lines(out: str) -> dict[str, dict]:
    return {line["path"]: line for line in map(json.loads, Path(out, "manifest.jsonl").read_text().splitlines()[1:])}


def elements(dataset: pydicom.Dataset) -> list:
    """The elements in their order, each with its value's bytes as far as pydicom keeps them."""
    return [element for element in dataset if element.tag not in PIXELS and element.tag.element != 0]


def read(path: str) -> np.ndarray:
    """The stored values of an uncompressed file, by pydicom, (frames, ..)."""
    dataset = pydicom.dcmread(path)
    values = dataset.pixel_array
    frames = int(dataset.get("NumberOfFrames", 1) or 1)
    return values if frames > 1 else values[None]


def by_dcmtk(path: str) -> np.ndarray | str:
    done = subprocess.run(["dcmdjpls", path, "raw.dcm"], stderr=subprocess.PIPE, text=True)
    return read("raw.dcm") if done.returncode == 0 else done.stderr


def by_gdcm(path: str) -> np.ndarray:
    dataset = pydicom.dcmread(path)
    values = dataset.pixel_array
    return values if int(dataset.get("NumberOfFrames", 1) or 1) > 1 else values[None]


def looked_at(name: str) -> None:
    """A file that was compressed, beside its source."""
    source, made = pydicom.dcmread(f"tree/{name}"), pydicom.dcmread(f"out/{name}")
    case(f"{name}: its syntax", made.file_meta.TransferSyntaxUID == LOSSLESS)
    before, after = elements(source), elements(made)
    case(f"{name}: its elements' order", [e.tag for e in before] == [e.tag for e in after])
    odd = [(str(a.tag), a.VR, b.VR) for a, b in zip(before, after) if a.value != b.value]
    case(f"{name}: its elements {odd}", not odd)
    kept = [e for e in source.file_meta if e.tag not in (0x00020000, 0x00020010)]
    case(f"{name}: its meta information", kept == [e for e in made.file_meta if e.tag not in (0x00020000, 0x00020010)])
    case(f"{name}: its preamble", source.preamble == made.preamble)
    wanted = read(f"tree/{name}")
    several = wanted.ndim == 4 and len(wanted) > 1
    if shutil.which("dcmdjpls") and name != "explicit_rubbish_behind":
        got = by_dcmtk(f"out/{name}")
        case(f"{name}: by DCMTK {got if isinstance(got, str) else ''}", np.array_equal(got, wanted))
    if has_gdcm and not several:
        case(f"{name}: by GDCM", np.array_equal(by_gdcm(f"out/{name}"), wanted))


try:
    import gdcm  # noqa: F401

    has_gdcm = True
    gdcm.Trace.WarningOff()
except ImportError:
    has_gdcm = False
    print("GDCM: not asked, since python3-gdcm isn't there")
if not shutil.which("dcmdjpls"):
    print("DCMTK: not asked, since it isn't there")

os.mkdir("tree")
wanted = {}
for name, form in forms().items():
    Path("tree", name).write_bytes(form.data())
    wanted[name] = form.copied
for name, data in others().items():
    Path("tree", name).write_bytes(data)
    wanted[name] = ""
done = run("compress", "tree", "out")
case(f"the forms are compressed: {done.stderr[-500:]}", done.returncode == 0)
found = lines("out")
case("each has a line", found.keys() == wanted.keys())
for name, why in wanted.items():
    line = found[name]
    state = "compressed" if why is None else "copied"
    case(f"{name}: {line}", line["state"] == state and (why is None or why in line["why"]))
    if why is None:
        looked_at(name)
    else:
        case(f"{name}: it is a copy", Path("out", name).read_bytes() == Path("tree", name).read_bytes())
    stat, other = os.stat(f"tree/{name}"), os.stat(f"out/{name}")
    case(f"{name}: its time and permissions", (stat.st_mtime_ns, stat.st_mode) == (other.st_mtime_ns, other.st_mode))

# ---- what pydicom brings

brought = sorted({path for path in get_testdata_files() if os.path.isfile(path)})
os.mkdir("theirs")
for number, path in enumerate(brought):
    shutil.copy(path, f"theirs/{number}.{os.path.basename(path)}")
done = run("compress", "theirs", "theirs_out")
case(f"pydicom's files: {done.stderr[-500:]}", done.returncode == 0)
count = 0
for name, line in lines("theirs_out").items():
    if line["state"] == "copied":
        case(f"{name}: it is a copy", Path("theirs_out", name).read_bytes() == Path("theirs", name).read_bytes())
        continue
    count += 1
    source, made = pydicom.dcmread(f"theirs/{name}"), pydicom.dcmread(f"theirs_out/{name}")
    case(f"{name}: its elements", elements(source) == elements(made))
    if shutil.which("dcmdjpls"):
        case(f"{name}: by DCMTK", np.array_equal(by_dcmtk(f"theirs_out/{name}"), read(f"theirs/{name}")))
case(f"{count} of pydicom's are compressed", count >= 30)

# ---- back, byte for byte, and what is found of damage

for tree, out in (("tree", "out"), ("theirs", "theirs_out")):
    done = run("verify", out, tree)
    case(f"{out} is verified: {done.stderr[-500:]}", done.returncode == 0)
    done = run("verify", out)
    case(f"{out} is verified alone: {done.stderr[-500:]}", done.returncode == 0)
    done = run("restore", out, f"{tree}_back")
    case(f"{out} is restored: {done.stderr[-500:]}", done.returncode == 0)
    names = sorted(os.listdir(tree))
    case(f"{out}: the same names", sorted(os.listdir(f"{tree}_back")) == names)
    for name in names:
        case(f"{name} is back", Path(tree, name).read_bytes() == Path(f"{tree}_back", name).read_bytes())

drawn = random.Random(5)
damaged = drawn.sample([name for name in sorted(wanted) if os.path.getsize(f"out/{name}") > 0], 40)
for name in damaged:
    data = bytearray(Path("out", name).read_bytes())
    data[drawn.randrange(len(data))] ^= 1 << drawn.randrange(8)
    os.chmod(f"out/{name}", 0o644)
    Path("out", name).write_bytes(data)
shutil.rmtree("tree_back")
for words in (["verify", "out"], ["verify", "out", "tree"], ["restore", "out", "tree_back"]):
    done = run(*words)
    told = {line.split(": ")[1] for line in done.stderr.splitlines()[: len(damaged)]}
    case(f"{words}: {done.stderr}", done.returncode == 1)
    if words[0] == "verify":
        case(f"{words}: each is told of {told ^ set(damaged)}", told == set(damaged))
for name in sorted(wanted):
    back = Path("tree_back", name)
    case(
        f"{name}: back as it was, or not at all",
        not back.exists() or back.read_bytes() == Path("tree", name).read_bytes(),
    )
    case(f"{name}: back if it isn't damaged", back.exists() or name in damaged)

# ---- bytes that are changed anywhere: each file is coded or copied, and comes back

os.mkdir("changed")
originals = [
    Path("tree", name).read_bytes()
    for name in ("explicit_all", "implicit_all", "explicit_tail", "implicit_tail", "explicit_colour_1_3_8")
]
for number in range(CHANGED):
    data = bytearray(originals[number % len(originals)])
    # Most of them before the pixel data, where the elements are.
    for _ in range(drawn.choice((1, 1, 2, 5))):
        at = drawn.randrange(min(len(data), drawn.choice((400, 1500, len(data)))))
        how = drawn.randrange(4)
        if how == 0:
            data[at] ^= 1 << drawn.randrange(8)
        elif how == 1:
            data[at : at + 4] = drawn.choice((b"\xff\xff\xff\xff", b"\0\0\0\0", b"\xfe\xff\0\xe0", b"\xfe\xff\xdd\xe0"))
        elif how == 2:
            del data[at : at + drawn.randrange(1, 9)]
        else:
            data[at:at] = drawn.randbytes(drawn.randrange(1, 9))
    Path("changed", str(number)).write_bytes(data)
done = run("compress", "changed", "changed_out")
case(f"changed files: {done.stderr[-500:]}", done.returncode == 0)
states = [line["state"] for line in lines("changed_out").values()]
case(f"changed files: {states.count('compressed')} coded, {states.count('copied')} copied", len(states) == CHANGED)
case("changed files: some of both", min(states.count("compressed"), states.count("copied")) > CHANGED // 10)
done = run("restore", "changed_out", "changed_back")
case(f"changed files: back {done.stderr[-500:]}", done.returncode == 0)
for name in os.listdir("changed"):
    case(f"changed {name} is back", Path("changed", name).read_bytes() == Path("changed_back", name).read_bytes())

# ---- a second decoder

second = [name for name, has in (("gdcm", has_gdcm), ("dcmtk", shutil.which("dcmdjpls"))) if has]
for name in second:
    done = run("compress", "tree", f"out_{name}", "--second", name)
    case(f"--second {name}: {done.stderr[-800:]}", done.returncode == 0)
    found = lines(f"out_{name}")
    left = {each for each, why in wanted.items() if why is None and found[each]["state"] == "copied"}
    # What stands behind the pixel data of these there is nothing that others can read, in the source as well.
    case(f"--second {name}: {left} are copied", left <= {"explicit_rubbish_behind", "explicit_zeros_behind"})
    said = [line.get("second") == name for line in found.values() if line["state"] == "compressed"]
    case(f"--second {name}: it is in each line", len(said) > 60 and all(said))
end()
