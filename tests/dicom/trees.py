"""Trees with names of any bytes, links, files that can't be read or that change, full disks, and runs after others.

    python3 trees.py [--long]
"""

from __future__ import annotations

import errno
import hashlib
import json
import os
import pty
import random
import resource
import shutil
import socket
import stat
import subprocess
import sys
import tempfile
import time
from pathlib import Path

import numpy as np
import pydicom

from cases import case, end
from jlsrec.dicom import coded, each, manifest, places
from makes import Form

drawn = np.random.default_rng(31)
# So long ago must a file have been changed that the next run needn't read it.
SETTLED = 2.2
COMMAND = [sys.executable, "-W", "ignore", "-m", "jlsrec.dicom"]


def run(*words, jobs: int = 2, before: list[str] = [], **named) -> subprocess.CompletedProcess:
    command = [*before, *COMMAND, *words, "--jobs", str(jobs)]
    return subprocess.run(command, stdout=subprocess.PIPE, stderr=subprocess.PIPE, **named)


def said(done: subprocess.CompletedProcess) -> str:
    return done.stderr.decode(errors="replace")


def lines(out) -> dict[bytes, dict]:
    """The line that holds for each file."""
    found: dict[bytes, dict] = {}
    for text in Path(os.fsdecode(out), "manifest.jsonl").read_text().splitlines()[1:]:
        line = json.loads(text)
        path = manifest.path_in(line)
        if line["state"] != "failed" or path not in found or found[path]["state"] == "failed":
            found[path] = line
    return found


def slice_of(frames: int = 1, shape=(24, 24), **named) -> bytes:
    """A file with drawn values."""
    return Form(drawn.integers(0, 4096, (frames, *shape)), **named).data()


def fresh(*names: str) -> None:
    """A folder of its own, with a tree of files of these names."""
    os.chdir(home)
    shutil.rmtree("here", ignore_errors=True)
    os.mkdir("here")
    os.chdir("here")
    os.mkdir("tree")
    for name in names:
        path = Path("tree", name)
        path.parent.mkdir(parents=True, exist_ok=True)
        path.write_bytes(slice_of())


def below(root) -> dict[bytes, object]:
    """All that is below a folder: files with their bytes, links with where they lead."""
    found: dict[bytes, object] = {}
    for folder, folders, names in os.walk(os.fsencode(root)):
        for name in names + [each for each in folders if os.path.islink(os.path.join(folder, each))]:
            path = os.path.join(folder, name)
            kind = os.lstat(path).st_mode
            if stat.S_ISLNK(kind):
                found[os.path.relpath(path, os.fsencode(root))] = os.readlink(path)
            elif stat.S_ISREG(kind):
                with open(path, "rb") as file:
                    found[os.path.relpath(path, os.fsencode(root))] = file.read()
    return found


def made(out) -> dict[bytes, object]:
    """What a run made: all but its own files."""
    return {path: what for path, what in below(out).items() if path != b"manifest.jsonl"}


def no_parts(name: str) -> None:
    parts = [path for path in below(".") if places.PART.fullmatch(os.path.basename(path))]
    case(f"{name}: nothing half made is left {parts}", not parts)


def values(data: bytes) -> np.ndarray:
    """The stored values of an uncompressed file, by pydicom."""
    return pydicom.dcmread(pydicom.filebase.DicomBytesIO(data)).pixel_array


home = os.getcwd()

# ---- names of any bytes, links, pipes

fresh("a/b/c.dcm", "a/a.part", "same.dcm")
odd = [
    b"\xff\xfe\x80.dcm",
    b"new\nline",
    b" lead",
    b"-dash",
    b"'\"$`\\",
    "ünï ✓".encode(),
    b"n" * 255,
    b"\x1b[2J",
    b"manifest.jsonl.1",
]
for name in odd:
    with open(os.path.join(b"tree", name), "wb") as file:
        file.write(slice_of())
os.makedirs(b"tree/\xf0\x9f/\n/deep")
shutil.copy("tree/same.dcm", b"tree/\xf0\x9f/\n/deep/\x01")
os.makedirs("tree/empty/within")
Path("secret").write_bytes(b"not of the tree")
os.mkdir("elsewhere")
Path("elsewhere/file").write_bytes(slice_of())
inside = {
    b"l1": b"same.dcm",
    b"a/l2": b"../same.dcm",
    b"l3": b"a/b",
    b"l4": b"nowhere",
    b"l5": b".",
    b"a/\xff": b"\xfe",
}
outside = {b"o1": b"../secret", b"a/o2": b"../../elsewhere", b"o3": b"/etc/passwd", b"o4": b"../tree/same.dcm"}
for name, target in {**inside, **outside}.items():
    os.symlink(target, os.path.join(b"tree", name))
os.mkfifo("tree/pipe")
with socket.socket(socket.AF_UNIX) as listening:
    listening.bind("tree/socket")
before = below("tree")
time.sleep(SETTLED)
done = run("compress", "tree", "out")
case(f"names: {said(done)}", done.returncode == 0)
case("names: the tree is as it was", below("tree") == before)
found = lines("out")
wanted = set(before) | {b"pipe", b"socket"}
case(f"names: each has a line {wanted ^ set(found)}", set(found) == wanted)
case(
    "names: each file is compressed",
    all(found[n]["state"] == "compressed" for n, what in before.items() if n not in inside and n not in outside),
)
case(
    "links inside are made again",
    all(os.readlink(os.path.join(b"out", name)) == target for name, target in inside.items()),
)
case("links that lead out are told of", all(found[name]["state"] == "left" for name in outside))
case("and aren't made", not any(os.path.lexists(os.path.join(b"out", name)) for name in outside))
case("pipes are told of", found[b"pipe"]["state"] == found[b"socket"]["state"] == "left")
case("nothing else is there", set(made("out")) == set(before) - set(outside))
case("empty folders are there", os.path.isdir("out/empty/within"))
case("no control character is printed", b"\x1b" not in done.stderr)
rows = Path("out/manifest.jsonl").read_bytes()
done = run("compress", "tree", "out")
case(f"names: once more {said(done)}", done.returncode == 0 and Path("out/manifest.jsonl").read_bytes() == rows)
done = run("verify", "out", "tree")
case(f"names: verified {said(done)}", done.returncode == 0)
done = run("restore", "out", "back")
case(f"names: restored {said(done)}", done.returncode == 0)
case(
    "names: all is back, but what leads out",
    below("back") == {n: what for n, what in before.items() if n not in outside},
)
case("names: empty folders too", os.path.isdir("back/empty/within"))
no_parts("names")

# ---- a file that can't be read

fresh("a.dcm", "b.dcm", "closed/c.dcm")
os.chmod("tree/b.dcm", 0)
os.chmod("tree/closed", 0)
as_user: list[str] = []
if os.geteuid() == 0:
    as_user = ["setpriv", "--reuid=65534", "--regid=65534", "--clear-groups"]
    # Where another user may look.
    aside = tempfile.mkdtemp()
    os.chmod(aside, 0o755)
    shutil.move("tree", aside)
    os.chdir(aside)
    os.mkdir("out")
    os.chown("out", 65534, 65534)
probe = None
if shutil.which("setpriv") or not as_user:
    asked = f"import jlsrec; open({os.path.abspath('tree/a.dcm')!r})"
    probe = subprocess.run([*as_user, sys.executable, "-c", asked], stderr=subprocess.PIPE)
if probe is None or probe.returncode != 0:
    print("a file that can't be read: not tested, since there is no other user here who could run it")
else:
    done = run("compress", "tree", "out", before=as_user)
    found = lines("out")
    case(f"unreadable: {said(done)}", done.returncode == 1 and "compress: b.dcm: Permission denied" in said(done))
    case("unreadable: the folder too", found[b"closed"]["why"] == "Permission denied")
    case("unreadable: the other is there", set(made("out")) == {b"a.dcm"})
    os.chmod("tree/b.dcm", 0o644)
    os.chmod("tree/closed", 0o755)
    done = run("compress", "tree", "out", before=as_user)
    case(
        f"readable again: {said(done)}",
        done.returncode == 0 and set(made("out")) == {b"a.dcm", b"b.dcm", b"closed/c.dcm"},
    )
os.chmod("tree/closed", 0o755)
if as_user:
    os.chdir(home)
    shutil.rmtree(aside)

# ---- a file that changes while it is read


def while_read(name: str, why: str, change) -> None:
    """That a file is left if it is changed once it was read for the first time."""
    fresh("a.dcm", "b.dcm", "text")
    Path("tree/text").write_bytes(b"not DICOM" * 1000)
    os.mkdir("out")
    listed = manifest.Manifest(b"out", True)
    job = each.Job("compress", b"tree", b"out", listed.token)
    real_write, real_copy = coded.Plan.write, each._copy

    def write(self, *words):
        real_write(self, *words)
        change(self.source.path)

    def copy(source, part):
        real_copy(source, part)
        change(source.path)

    coded.Plan.write, each._copy = write, copy
    try:
        answered = each.do_batch(job, [b"a.dcm", b"text"])
    finally:
        coded.Plan.write, each._copy = real_write, real_copy
    for line in answered:
        case(f"{name}: {line}", line["state"] == "failed" and why in line["why"])
    case(f"{name}: it isn't in OUT", made("out") == {})
    listed.close()
    done = run("compress", "tree", "out")
    case(f"{name}, then: {said(done)}", done.returncode == 0)
    no_parts(name)


def appended(path: bytes) -> None:
    with open(path, "ab") as file:
        file.write(b"more")


def written_over(path: bytes) -> None:
    with open(path, "r+b") as file:
        file.seek(-3, os.SEEK_END)
        file.write(b"\0\1\2")


def replaced(path: bytes) -> None:
    with open(path + b".new", "wb") as file:
        file.write(slice_of())
    os.rename(path + b".new", path)


def touched(path: bytes) -> None:
    os.utime(path, ns=(1, 1))


while_read("a file that grows", "changed while it was read", appended)
while_read("a file that is written over", "changed while it was read", written_over)
while_read("a file that is replaced", "changed while it was read", replaced)
while_read("a file whose time changes", "changed while it was read", touched)
while_read("a file that is removed", "was removed while it was read", os.unlink)
while_read("a file that shrinks", "while it was read", lambda path: os.truncate(path, 1000))

# ---- what was written isn't what was read

fresh("a.dcm")
os.mkdir("out")
listed = manifest.Manifest(b"out", True)
real_sync = places.Part.sync
for at in (5, 140, 160, 300, 420, 700, 1300, -1):

    def sync(self, like, at=at):
        real_sync(self, like)
        with open(self.path, "r+b") as file:
            file.seek(at, os.SEEK_END if at < 0 else os.SEEK_SET)
            byte = file.read(1)
            file.seek(-1, os.SEEK_CUR)
            file.write(bytes([byte[0] ^ 4]))

    places.Part.sync = sync
    (line,) = each.do_batch(each.Job("compress", b"tree", b"out", listed.token), [b"a.dcm"])
    case(f"a disk that changes byte {at}: {line}", line["state"] == "failed" and made("out") == {})
places.Part.sync = real_sync
listed.close()

# ---- where there are no hard links

fresh("a.dcm", "b.dcm")
os.mkdir("out")
listed = manifest.Manifest(b"out", True)
real_link, real_rename = os.link, os.rename


def no_link(*words, **named):
    raise OSError(errno.EPERM, "no links here")


def no_rename(*words):
    raise KeyboardInterrupt


os.link = no_link
job = each.Job("compress", b"tree", b"out", listed.token)
(line,) = each.do_batch(job, [b"a.dcm"])
case(f"no hard links: {line}", line["state"] == "compressed" and set(made("out")) == {b"a.dcm"})
os.rename = no_rename
try:
    each.do_batch(job, [b"b.dcm"])
except KeyboardInterrupt:
    pass
os.link, os.rename = real_link, real_rename
case("ended before the rename: the place is empty", made("out")[b"b.dcm"] == b"")
listed.close()
done = run("compress", "tree", "out")
case(
    f"ended before the rename, then: {said(done)}",
    done.returncode == 0 and run("verify", "out", "tree").returncode == 0,
)
no_parts("no hard links")

# ---- full disks

fresh(*(f"{number}.dcm" for number in range(8)))
large = slice_of(40, (128, 128))
Path("tree/3large.dcm").write_bytes(large)
Path("tree/4large.bin").write_bytes(b"no DICOM" + large)


def limited() -> None:
    resource.setrlimit(resource.RLIMIT_FSIZE, (200 << 10, resource.RLIM_INFINITY))


time.sleep(SETTLED)
done = run("compress", "tree", "out", preexec_fn=limited)
case(f"files that may not be large: {said(done)}", done.returncode == 1 and "3large.dcm: File too large" in said(done))
case("the others are there", len(made("out")) == 8)
no_parts("files that may not be large")
done = run("compress", "tree", "out")
case(f"then: {said(done)}", done.returncode == 0 and len(made("out")) == 10 and "8 unchanged" in said(done))
case("and verified", run("verify", "out", "tree").returncode == 0)

disk = """
set -e
mount -t tmpfs -o size=900k none disk
status=0
"$@" compress tree disk/out --jobs 2 2>told || status=$?
ls -A disk/out >first
mount -o remount,size=64m disk
then=0
"$@" compress tree disk/out --jobs 2 2>told_then || then=$?
"$@" verify disk/out tree --jobs 2
echo "$status $then" >statuses
"""
os.mkdir("disk")
done = (
    subprocess.run(["unshare", "-m", "bash", "-c", disk, "bash", *COMMAND], stderr=subprocess.PIPE)
    if shutil.which("unshare")
    else None
)
if done is None or b"ermi" in done.stderr and b"mount" in done.stderr or b"unshare" in done.stderr:
    print("a full disk: not tested, since nothing may be mounted here")
else:
    told = Path("told").read_text()
    case(f"a full disk: {said(done)}", done.returncode == 0 and Path("statuses").read_text() == "1 0\n")
    case(f"a full disk is told of: {told}", "No space left on device" in told and "the same command goes on" in told)
    case("a full disk: nothing half made", ".part" not in Path("first").read_text())

# ---- two at once

fresh("a.dcm")
os.mkdir("out")
listed = manifest.Manifest(b"out", True)
for words in (["compress", "tree", "out"], ["verify", "out"], ["restore", "out", "back"]):
    done = run(*words)
    case(
        f"two at once: {said(done)}",
        done.returncode == 1 and said(done).endswith("/here/out: another run is at work on it\n"),
    )
case("two at once: nothing is made", made("out") == {} and not os.path.exists("back"))
listed.close()
case("one after the other", run("compress", "tree", "out").returncode == 0)

# ---- where OUT isn't ours, or isn't apart

fresh("a.dcm", "b/c.dcm")
os.makedirs("out")
Path("out/mine").write_bytes(b"mine")
for text, content in (
    ("it has files, and no manifest", None),
    ("it is no manifest of jlsrec-dicom", b'{"mine": 1}\n'),
    ("it is no manifest of jlsrec-dicom", b"mine"),
    ("it is no manifest of jlsrec-dicom", b'{"format": "jlsrec-dicom 9"}\n'),
):
    if content is not None:
        Path("out/manifest.jsonl").write_bytes(content)
    before = below(".")
    done = run("compress", "tree", "out")
    case(f"another's folder: {said(done)}", done.returncode == 1 and text in said(done) and below(".") == before)
before = below(".")
for words in (["tree", "tree"], ["tree", "tree/out"], ["tree/b", "tree"], ["nowhere", "new"], ["tree/a.dcm", "new"]):
    done = run("compress", *words)
    case(f"{words}: {said(done)}", done.returncode == 1 and below(".") == before and "Traceback" not in said(done))
os.symlink("tree/b", "aside")
done = run("compress", "tree", "aside/out")
case(
    f"a folder in the tree by a link: {said(done)}",
    done.returncode == 1 and below("tree").keys() == {b"a.dcm", b"b/c.dcm"},
)
os.mkdir("lost")
os.mkdir("lost/lost+found")
case("a new disk", run("compress", "tree", "lost").returncode == 0)

# ---- what stands already, and what has changed since

fresh("a.dcm", "b.dcm", "c.dcm", "d.dcm", "text")
Path("tree/text").write_bytes(b"no DICOM")
time.sleep(SETTLED)
case("the first run", run("compress", "tree", "out").returncode == 0)
whole = made("out")
Path("out/manifest.jsonl").write_text(Path("out/manifest.jsonl").read_text().splitlines(True)[0])
done = run("compress", "tree", "out")
case(f"without lines what stands is taken up: {said(done)}", done.returncode == 0 and made("out") == whole)
case("and isn't made again", run("verify", "out", "tree").returncode == 0)
os.utime("tree/d.dcm", ns=(5, 5))
done = run("compress", "tree", "out")
case(f"another time alone: {said(done)}", done.returncode == 0 and "1 compared, 4 unchanged" in said(done))
case("it is as it was", made("out") == whole and lines("out")[b"d.dcm"]["mtime_ns"] == 5)
kept = Path("tree/d.dcm").read_bytes()
Path("tree/d.dcm").write_bytes(kept[:-2] + b"\7\1")
done = run("compress", "tree", "out")
case(f"as many other bytes: {said(done)}", done.returncode == 1 and "d.dcm: it isn't what was compressed" in said(done))
case("and OUT is as it was", made("out") == whole)
Path("tree/d.dcm").write_bytes(kept)
os.utime("tree/d.dcm", ns=(5, 5))
os.unlink("out/a.dcm")
done = run("compress", "tree", "out")
case(
    f"what is gone is made again: {said(done)}",
    done.returncode == 0 and made("out") == whole and "1 compared, 1 compressed, 3 unchanged" in said(done),
)
Path("tree/e.dcm").write_bytes(slice_of())
Path("out/e.dcm").write_bytes(b"another's")
Path("tree/b.dcm").write_bytes(slice_of(2))
os.truncate("out/c.dcm", 100)
done = run("compress", "tree", "out")
after = made("out")
case(f"another's file, a changed source, a torn file: {said(done)}", done.returncode == 1)
for name, why in (
    ("e.dcm", "there is another file"),
    ("b.dcm", "it isn't what was compressed"),
    ("c.dcm", "OUT has another file"),
):
    case(f"{name} is told of", f"compress: {name}: {why}" in said(done))
case(
    "all three are left",
    after[b"e.dcm"] == b"another's" and after[b"b.dcm"] == whole[b"b.dcm"] and len(after[b"c.dcm"]) == 100,
)
case("the line that holds is that of the file", lines("out")[b"b.dcm"]["state"] == "compressed")
done = run("verify", "out", "tree")
told = {line.split(": ")[1] for line in said(done).splitlines()[:-1]}
case(f"a verification tells of them too: {said(done)}", told == {"e.dcm", "b.dcm", "c.dcm"} and done.returncode == 1)
for name in ("e.dcm", "b.dcm", "c.dcm"):
    os.unlink(f"out/{name}")
done = run("compress", "tree", "out")
case(f"without them: {said(done)}", done.returncode == 0 and run("verify", "out", "tree").returncode == 0)
Path("tree/new.dcm").write_bytes(slice_of())
done = run("verify", "out", "tree")
case(f"what OUT hasn't: {said(done)}", done.returncode == 1 and "new.dcm: OUT doesn't have it" in said(done))
os.unlink("tree/new.dcm")
os.unlink("tree/a.dcm")
done = run("verify", "out", "tree")
case(f"what the tree hasn't: {said(done)}", done.returncode == 1 and "a.dcm: the tree hasn't it any more" in said(done))
case("a run doesn't remove it from OUT", run("compress", "tree", "out").returncode == 0 and b"a.dcm" in made("out"))
Path("back").mkdir()
Path("back/b.dcm").write_bytes(b"mine")
shutil.copy("tree/c.dcm", "back/c.dcm")
done = run("restore", "out", "back")
case(f"a tree that has files: {said(done)}", done.returncode == 1 and "b.dcm: there is another file" in said(done))
case("they are left", Path("back/b.dcm").read_bytes() == b"mine" and "1 there" in said(done))
case("the others are back", Path("back/e.dcm").read_bytes() == Path("tree/e.dcm").read_bytes())

# ---- a manifest that was torn, damaged, or isn't to be trusted

fresh("a.dcm", "b.dcm", "c.dcm")
case("a manifest", run("compress", "tree", "out").returncode == 0)
whole, text = made("out"), Path("out/manifest.jsonl").read_bytes()
cuts = random.Random(7)
for cut in [
    0,
    1,
    30,
    text.index(b"\n"),
    text.index(b"\n") + 1,
    len(text) - 1,
    *(cuts.randrange(len(text)) for _ in range(4)),
]:
    for tail in (b"", bytes(100)) if cut < 40 else (bytes(10),):
        Path("out/manifest.jsonl").write_bytes(text[:cut] + tail)
        done = run("compress", "tree", "out", jobs=1)
        case(
            f"cut at {cut}: {said(done)}",
            done.returncode == 0 and made("out") == whole and set(lines("out")) == set(whole),
        )
rows = text.splitlines(True)
for bad in (
    b"{\n",
    b'{"path": "a.dcm"}\n',
    b'{"path": "../a", "state": "copied"}\n',
    b"[]\n",
    b'{"path": "/etc/x", "state": "link"}\n',
):
    Path("out/manifest.jsonl").write_bytes(rows[0] + rows[1] + bad + rows[2])
    before = below(".")
    for words in (["compress", "tree", "out"], ["restore", "out", "back"], ["verify", "out"]):
        done = run(*words, jobs=1)
        case(
            f"{words} with {bad}: {said(done)}",
            done.returncode == 1 and "manifest" in said(done) and "Traceback" not in said(done),
        )
    after = {path: what for path, what in below(".").items()}
    case(f"with {bad} nothing is made", after == before)

# ---- a link where a folder is to be

fresh("sub/a.dcm", "b.dcm")
case("a tree", run("compress", "tree", "out").returncode == 0)
os.mkdir("victim")
os.mkdir("back")
os.symlink("../victim", "back/sub")
done = run("restore", "out", "back")
case(f"a link in the place of a folder: {said(done)}", done.returncode == 1 and os.listdir("victim") == [])

# ---- what is said, and the report

fresh(*(f"{number}.dcm" for number in range(5)))
Path("tree/text").write_bytes(b"no DICOM")
done = run("compress", "tree", "out", "--report", "report.json")
report = json.loads(Path("report.json").read_text())
size = sum(os.path.getsize(f"tree/{name}") for name in os.listdir("tree"))
wanted = {
    "command": "compress",
    "finished": True,
    "files": 6,
    "compressed": 5,
    "copied": 1,
    "bytes_before": size,
    "failures": [],
}
case(f"the report: {report}", wanted.items() <= report.items() and report["copied_since"] == {"it is no DICOM file": 1})
case(f"what is said: {said(done)}", said(done).startswith("compress: 5 compressed, 1 copied; "))
for name, line in lines("out").items():
    source, here = Path("tree", name.decode()).read_bytes(), Path("out", name.decode()).read_bytes()
    case(
        f"{name}: its sums",
        line["sha256_before"] == hashlib.sha256(source).hexdigest()
        and line["sha256"] == hashlib.sha256(here).hexdigest(),
    )
    case(f"{name}: its sizes", (line["bytes_before"], line["bytes_after"]) == (len(source), len(here)))
    if line["state"] == "compressed":
        case(f"{name}: its values' sum", line["sha256_values"] == hashlib.sha256(values(source).tobytes()).hexdigest())
        case(f"{name}: its frames and its syntax", (line["frames"], line["syntax"]) == (1, "1.2.840.10008.1.2.1"))
ours, theirs = pty.openpty()
shown = subprocess.Popen([*COMMAND, "verify", "out", "--jobs", "1"], stderr=theirs)
os.close(theirs)
text = b""
try:
    while chunk := os.read(ours, 4096):
        text += chunk
except OSError:
    pass
case(f"on a terminal: {text}", shown.wait() == 0 and b"\rverify: 6 verified" in text or b"6 verified" in text)
hidden = """
import importlib.util, runpy
find = importlib.util.find_spec
importlib.util.find_spec = lambda name, *words: None if name == "pydicom" else find(name, *words)
runpy.run_module("jlsrec.dicom", run_name="__main__")
"""
done = subprocess.run([sys.executable, "-c", hidden, "compress", "tree", "new"], stderr=subprocess.PIPE)
case(f"no pydicom: {said(done)}", said(done) == "compress: it wants pydicom; apt-get install python3-pydicom has it\n")
script = Path(manifest.__file__).parents[2] / "jlsrec-dicom"
done = subprocess.run([sys.executable, "-W", "ignore", script, "compress", "tree", "by_script"], stderr=subprocess.PIPE)
case(f"the command itself: {said(done)}", done.returncode == 0 and made("by_script") == made("out"))
done = subprocess.run([*COMMAND, "compress", "tree", "out", "--jobs", "0"], stderr=subprocess.PIPE)
case(f"no jobs: {said(done)}", done.returncode == 2)

# ---- many files, and a large one

if "--long" in sys.argv:
    fresh()
    data = bytearray(slice_of(1, (16, 16)))
    for number in range(10000):
        folder = Path("tree", str(number % 100))
        folder.mkdir(exist_ok=True)
        data[-4:] = number.to_bytes(4, "little")[:2] * 2 if number < 4096 else b"\1\0\2\0"
        data[-2:] = (number & 4095).to_bytes(2, "little")
        (folder / str(number)).write_bytes(data)
    time.sleep(SETTLED)
    case("10,000 files", run("compress", "tree", "out", jobs=4).returncode == 0 and len(made("out")) == 10000)
    done = run("compress", "tree", "out", jobs=4)
    case(f"10,000 files again: {said(done)}", "10,000 unchanged" in said(done))
    case("10,000 files verified", run("verify", "out", "tree", jobs=4).returncode == 0)
    case(
        "10,000 files restored",
        run("restore", "out", "back", jobs=4).returncode == 0 and below("back") == below("tree"),
    )
    fresh()
    form = Form(drawn.integers(0, 4096, (1, 1024, 1024)), frames="1536")
    front, frame = form.data()[: -2 * 1024 * 1024], form.data()[-2 * 1024 * 1024 :]
    with open("tree/large.dcm", "wb") as file:
        file.write(front[:-4] + (1536 * len(frame)).to_bytes(4, "little"))
        for number in range(1536):
            file.write(frame[2 * number :] + frame[: 2 * number])
    case("3 GB", os.path.getsize("tree/large.dcm") > 3 << 30)
    used = resource.getrusage(resource.RUSAGE_CHILDREN).ru_maxrss
    done = run("compress", "tree", "out", jobs=1)
    used = resource.getrusage(resource.RUSAGE_CHILDREN).ru_maxrss
    case(f"3 GB: {said(done)}", done.returncode == 0 and lines("out")[b"large.dcm"]["frames"] == 1536)
    case(f"3 GB in {used} KiB of memory", used < 400000)
    case("3 GB verified", run("verify", "out", "tree", jobs=1).returncode == 0)
    done = run("restore", "out", "back", jobs=1)
    case(f"3 GB restored: {said(done)}", subprocess.run(["cmp", "tree/large.dcm", "back/large.dcm"]).returncode == 0)
    fresh()
end()
