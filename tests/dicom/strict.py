"""Files that are to be strict: the data of each scan exactly those that encoding gives.

    python3 strict.py
"""

from __future__ import annotations

import json
import os
import shutil
import signal
import subprocess
import sys
import time
from dataclasses import replace
from pathlib import Path

import numpy as np

import jlsrec
from cases import case, end
from makes import UNDEFINED, Form, element

drawn = np.random.default_rng(68)
COMMAND = [sys.executable, "-W", "ignore", "-m", "jlsrec.dicom"]
# So long ago must a file have been changed that the next run needn't read it.
SETTLED = 2.2
LOSSLESS, NEAR = b"1.2.840.10008.1.2.4.80", b"1.2.840.10008.1.2.4.81"
OTHER = "encoding its samples gives other data in component"


def run(*words: str, jobs: int = 2) -> subprocess.CompletedProcess:
    return subprocess.run([*COMMAND, *words, "--jobs", str(jobs)], stdout=subprocess.PIPE, stderr=subprocess.PIPE)


def said(done: subprocess.CompletedProcess) -> str:
    return done.stderr.decode(errors="replace")


def failures(done: subprocess.CompletedProcess) -> dict[str, str]:
    """What is said of each file."""
    lines = [line.split(": ", 2) for line in said(done).splitlines()]
    return {line[1]: line[2] for line in lines if len(line) == 3 and "." in line[1]}


def rows() -> dict[str, dict]:
    """The last line of each file."""
    return {line["path"]: line for line in map(json.loads, Path("out/manifest.jsonl").read_text().splitlines()[1:])}


def longer(codestream: bytes) -> bytes:
    """The same picture with 8 bits more after the samples of its last component, which decoding accepts."""
    made = codestream[:-2] + b"\0" + codestream[-2:]
    assert (jlsrec.decode(made) == jlsrec.decode(codestream)).all()
    return made


def coded(form: Form, change=lambda codestreams: codestreams, syntax: bytes = LOSSLESS, parts: int = 1) -> bytes:
    """A file with codestreams in fragments, each frame's in so many, after an empty table."""
    raw = replace(form, syntax=syntax).data()
    front = raw[: raw.rindex(b"\xe0\x7f\x10\0OW")]
    kind = np.uint8 if form.allocated == 8 else np.uint16
    streams = change([jlsrec.encode(values.astype(kind), (1 << form.bits) - 1) for values in form.values])
    fragments = []
    for each in streams:
        each += b"\0" * (len(each) % 2)
        step = -(-len(each) // parts // 2) * 2
        fragments += [each[at : at + step] for at in range(0, len(each), step)]
    items = b"".join(element(0xFFFEE000, "", each) for each in [b"", *fragments])
    return front + element(0x7FE00010, "OB", items + element(0xFFFEE0DD, "", b""), length=UNDEFINED) + form.tail


def gray(frames: int = 1) -> Form:
    return Form(drawn.integers(0, 4096, (frames, 20, 31)))


def colour() -> Form:
    return Form(drawn.integers(0, 256, (2, 20, 31, 3)), 8, 8, photometric="RGB", planar=0)


def damaged(codestreams: list[bytes]) -> list[bytes]:
    return [*codestreams[:-1], codestreams[-1][:60] + bytes(40) + codestreams[-1][100:]]


def with_segment(codestreams: list[bytes]) -> list[bytes]:
    """A comment, application data and fill bytes before the frame header, and fill bytes before EOI."""
    segments = b"\xff\xfe\0\6\xff\xd8\xff\xf7\xff\xe1\0\4ab\xff\xff"
    return [each[:2] + segments + each[2:-2] + b"\xff\xff" + each[-2:] for each in codestreams]


# What is strict, or isn't judged, and what isn't, with what is said of it.
STRICT = {
    "gray.dcm": coded(gray()),
    "frames.dcm": coded(gray(3)),
    "colour.dcm": coded(colour()),
    "fragments.dcm": coded(gray(3), parts=3),
    "segments.dcm": coded(gray(2), with_segment),
    "tuned.dcm": coded(gray(), lambda _: [jlsrec.encode(drawn.integers(0, 900, (20, 31)).astype(np.uint16), 1000, (9, 30, 99, 17))]),
    "near.dcm": coded(gray(), lambda each: [longer(each[0])], NEAR),
    "raw.dcm": gray().data(),
    "text.txt": b"no DICOM",
    "empty.dcm": b"",
}
OTHERS = {
    "longer.dcm": (coded(gray(), lambda each: [longer(each[0])]), f"frame 0 isn't strict: {OTHER} 0"),
    "third.dcm": (coded(gray(4), lambda each: [*each[:2], longer(each[2]), each[3]]), f"frame 2 isn't strict: {OTHER} 0"),
    "blue.dcm": (coded(colour(), lambda each: [each[0], longer(each[1])]), f"frame 1 isn't strict: {OTHER} 2"),
    "pieces.dcm": (coded(gray(2), lambda each: [each[0], longer(each[1])], parts=4), f"frame 1 isn't strict: {OTHER} 0"),
    "damaged.dcm": (coded(gray(2), damaged), "frame 1 can't be checked strictly: "),
    "cut.dcm": (coded(gray(2), lambda each: [each[0], each[1][:200]]), "frame 1 can't be checked strictly: truncated"),
    "fewer.dcm": (coded(gray(2), lambda each: each[:1]), "it has 1 codestreams, and says 2 frames"),
    "more.dcm": (coded(gray(), lambda each: each * 2), "it has 2 codestreams, and says 1 frames"),
    "none.dcm": (coded(gray(), lambda each: []), "it has 0 codestreams, and says 1 frames"),
    "lossy.dcm": (coded(gray(), lambda each: [each[0].replace(b"\1\1\0\0\0", b"\1\1\0\2\0", 1)]), "frame 0 can't be checked strictly: "),
    "plain.dcm": (Form(drawn.integers(0, 4096, (1, 9, 9)), syntax=LOSSLESS).data(), "its pixel data aren't fragments"),
    "half.dcm": (coded(gray(2))[:-300], "breaks off within its frames"),
    "front.dcm": (coded(gray(2))[:300], "its frames can't be checked strictly: it breaks off"),
    "odd.dcm": (coded(Form(drawn.integers(0, 4096, (1, 9, 9)), frames="x")), "its Number of Frames is 'x'"),
}


def lay(files: dict[str, bytes]) -> None:
    """A tree of these files, in a folder of its own."""
    os.chdir(home)
    shutil.rmtree("here", ignore_errors=True)
    os.makedirs("here/tree")
    os.chdir("here")
    for name, data in files.items():
        Path("tree", name).write_bytes(data)
    time.sleep(SETTLED)


home = os.getcwd()
wrong = {name: data for name, (data, _) in OTHERS.items()}

# ---- a tree is compressed strictly

lay({**STRICT, **wrong})
done = run("compress", "tree", "out", "--strict", "--report", "report.json")
told = failures(done)
case(f"it ends with status 1, and goes on: {said(done)}", done.returncode == 1 and set(os.listdir("out")) == {*STRICT, "manifest.jsonl"})
case(f"what isn't strict, and nothing else, is told of: {told}", set(told) == set(OTHERS))
for name, (_, why) in OTHERS.items():
    case(f"{name}: {told.get(name)}", why in told.get(name, ""))
    case(f"{name}: the manifest says so: {rows().get(name)}", rows().get(name, {}).get("state") == "failed" and why in rows()[name]["why"])
for name in STRICT:
    line = rows()[name]
    case(f"{name}: {line}", line["state"] == ("compressed" if name == "raw.dcm" else "copied") and line["strict"] is True)
    case(f"{name}: it is copied", name == "raw.dcm" or Path("out", name).read_bytes() == STRICT[name])
report = json.loads(Path("report.json").read_text())
case(f"the report: {report}", report["failed"] == len(OTHERS) and {each["path"] for each in report["failures"]} == set(OTHERS))
done = run("compress", "tree", "out", "--strict")
case(f"the next night: {said(done)}", done.returncode == 1 and set(failures(done)) == set(OTHERS) and f"{len(STRICT)} unchanged" in said(done))
done = run("verify", "out", "--strict")
case(f"verified: {said(done)}", done.returncode == 1 and set(failures(done)) == set(OTHERS))
case("verified: none of these is in OUT", all("OUT never had it: " in why for why in failures(done).values()))
for name in OTHERS:
    os.unlink(f"tree/{name}")
done = run("compress", "tree", "out", "--strict")
case(f"without them: {said(done)}", done.returncode == 0)
done = run("verify", "out", "tree", "--strict")
case(f"without them, verified: {said(done)}", done.returncode == 0)
done = run("restore", "out", "back")
case("without them, restored", all(Path("back", name).read_bytes() == data for name, data in STRICT.items()))

# ---- a tree that was compressed before

lay({**STRICT, **wrong})
done = run("compress", "tree", "out")
case(f"not strictly all is copied: {said(done)}", done.returncode == 0 and set(os.listdir("out")) == {*STRICT, *OTHERS, "manifest.jsonl"})
case("not strictly, verified", run("verify", "out", "tree").returncode == 0)
case("no line says that it is strict", not any("strict" in line for line in rows().values()))
done = run("verify", "out", "tree", "--strict")
case(f"verified strictly: {said(done)}", done.returncode == 1 and set(failures(done)) == set(OTHERS))
for name, (_, why) in OTHERS.items():
    case(f"{name}: {failures(done).get(name)}", why in failures(done).get(name, ""))
stood = {name: Path("out", name).read_bytes() for name in [*STRICT, *OTHERS]}
for turn in ("once", "twice"):
    done = run("compress", "tree", "out", "--strict")
    case(f"compressed strictly, {turn}: {said(done)}", done.returncode == 1 and set(failures(done)) == set(OTHERS))
    case(f"compressed strictly, {turn}: what is right is read once", ("unchanged" in said(done)) == (turn == "twice"))
case("OUT is as it was", stood == {name: Path("out", name).read_bytes() for name in stood})
case("its lines say that it is strict", {name for name, line in rows().items() if line.get("strict")} == set(STRICT))
done = run("compress", "tree", "out")
case(f"not strictly again: {said(done)}", done.returncode == 0 and f"{len(stood)} unchanged" in said(done))

# A bit of a compressed file that decoding doesn't see, in OUT: its sum is another, whether it is asked strictly or not.
lay({"raw.dcm": STRICT["raw.dcm"]})
case("a compressed file", run("compress", "tree", "out", "--strict").returncode == 0)
data = bytearray(Path("out/raw.dcm").read_bytes())
at = data.rindex(b"\xff\xd9") - 1
for bit in range(8):
    changed = data[:at] + bytes([data[at] ^ 1 << bit]) + data[at + 1 :]
    if changed[at] == 0xFF:
        continue
    try:
        unseen = (jlsrec.decode(bytes(changed[changed.index(b"\xff\xd8\xff\xf7") :])) == jlsrec.decode(bytes(data[data.index(b"\xff\xd8\xff\xf7") :]))).all()
    except jlsrec.JlsrecError:
        continue
    if unseen:
        break
else:
    case("no bit that decoding doesn't see", False)
Path("out/raw.dcm").write_bytes(changed)
reread = ["compress", "tree", "out", "--reread"]
for words in (["verify", "out"], ["verify", "out", "--strict"], reread, [*reread, "--strict"], reread):
    done = run(*words)
    case(f"a bit that decoding doesn't see, {words}: {said(done)}", done.returncode == 1 and set(failures(done)) == {"raw.dcm"})
    case(f"a bit that decoding doesn't see, {words}: OUT is as it was", Path("out/raw.dcm").read_bytes() == changed)

# ---- a strict verification believes no notes of one that wasn't

lay({f"{number}.dcm": wrong["longer.dcm"] for number in range(40)})
case("notes: compressed", run("compress", "tree", "out").returncode == 0)
time.sleep(SETTLED)
for first, then, status in ((["verify", "out"], ["verify", "out", "--strict"], 1), (["verify", "out", "--strict"], ["verify", "out"], 0)):
    process = subprocess.Popen([*COMMAND, *first, "--jobs", "1"], stderr=subprocess.PIPE)
    while process.poll() is None and not any(Path("out").glob(".jlsrec-verified-*")):
        time.sleep(0.005)
    time.sleep(0.3)
    process.send_signal(signal.SIGKILL)
    process.communicate()
    done = run(*then)
    case(f"notes: {first}, then {then}: {said(done)}", done.returncode == status and len(failures(done)) == 40 * status)

# ---- what other programs make

others = {}
lay({"gray.dcm": gray(3).data(), "colour.dcm": colour().data(), "bytes.dcm": Form(drawn.integers(0, 256, (1, 20, 31)), 8, 8, vr="OB").data()})
for name, words in {"gdcm": ["gdcmconv", "--jpegls"], "dcmtk": ["dcmcjpls"], "interleaved": ["dcmcjpls", "+il"]}.items():
    if shutil.which(words[0]) is None:
        print(f"files of {words[0]}: not tested, since it isn't there; apt-get install libgdcm-tools dcmtk")
        continue
    for each in ("gray", "colour", "bytes"):
        subprocess.run([*words, f"tree/{each}.dcm", f"{name}_{each}.dcm"], stdout=subprocess.DEVNULL, stderr=subprocess.DEVNULL, check=True)
        others[f"{name}_{each}.dcm"] = Path(f"{name}_{each}.dcm").read_bytes()
if others:
    lay(others)
    done = run("compress", "tree", "out", "--strict")
    told = failures(done)
    case(f"of other programs: {said(done)}", all("colour" in name and "interleave" in why for name, why in told.items()))
    case("of other programs: gray ones are strict", {name for name in others if "colour" not in name} <= set(os.listdir("out")))

os.chdir(home)
shutil.rmtree("here")
end()
