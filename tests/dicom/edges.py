"""What an archivist meets: parts of a tree, two runs at once, the wrong folder, one flipped bit, a disk that is full.

    python3 edges.py
"""

from __future__ import annotations

import fcntl
import json
import os
import shutil
import subprocess
import sys
import time
from pathlib import Path

import numpy as np

from cases import case, end
from jlsrec.dicom import each, manifest, places
from makes import Form

drawn = np.random.default_rng(34)
COMMAND = [sys.executable, "-W", "ignore", "-m", "jlsrec.dicom"]
# So long ago must a file have been changed that the next run needn't read it.
SETTLED = 2.2
MAIN = "import sys\nfrom jlsrec.dicom.__main__ import main\nsys.exit(main())\n"


def run(*words: str, first: str = "") -> subprocess.CompletedProcess:
    """A command, after some lines of Python."""
    command = [sys.executable, "-W", "ignore", "-c", first + MAIN] if first else COMMAND
    return subprocess.run([*command, *words, "--jobs", "1"], stdout=subprocess.PIPE, stderr=subprocess.PIPE)


def said(done: subprocess.CompletedProcess) -> str:
    return done.stderr.decode(errors="replace")


def named(done: subprocess.CompletedProcess) -> dict[str, str]:
    """What is said of each file."""
    lines = [line.split(": ", 2) for line in said(done).splitlines()]
    return {line[1]: line[2] for line in lines if len(line) == 3}


def slice_of() -> bytes:
    return Form(drawn.integers(0, 4096, (1, 24, 24))).data()


def fresh(*names: str) -> None:
    """A folder of its own, with a tree of files of these names, compressed."""
    os.chdir(home)
    shutil.rmtree("here", ignore_errors=True)
    os.mkdir("here")
    os.chdir("here")
    for name in names:
        path = Path("tree", name)
        path.parent.mkdir(parents=True, exist_ok=True)
        path.write_bytes(slice_of())
    time.sleep(SETTLED)
    case(f"{names}: compressed", run("compress", "tree", "out").returncode == 0)


def below(root: str) -> dict[str, bytes]:
    """The files below a folder."""
    return {
        os.path.relpath(os.path.join(folder, name), root): Path(folder, name).read_bytes()
        for folder, _, names in os.walk(root)
        for name in names
    }


home = os.getcwd()

# ---- parts of a tree are restored

fresh("one/a.dcm", "one/b/c.dcm", "one.dcm", "other/d.dcm", "onemore/e.dcm")
os.makedirs("tree/one/empty")
os.symlink("a.dcm", "tree/one/link")
os.symlink("d.dcm", "tree/other/link")
os.symlink("one", "tree/linked")
case("parts: compressed", run("compress", "tree", "out").returncode == 0)
whole = below("tree")
for parts, wanted in (
    (["one"], {"one/a.dcm", "one/b/c.dcm", "one/link"}),
    (["one/"], {"one/a.dcm", "one/b/c.dcm", "one/link"}),
    (["./one//b", "one.dcm"], {"one/b/c.dcm", "one.dcm"}),
    (["one/b/c.dcm"], {"one/b/c.dcm"}),
    (["one/empty"], set()),
    ([], set(whole)),
):
    shutil.rmtree("back", ignore_errors=True)
    done = run("restore", "out", "back", *parts)
    found = below("back")
    case(f"parts {parts}: {said(done)}", done.returncode == 0 and set(found) == wanted)
    case(f"parts {parts}: as they were", all(data == whole[name] for name, data in found.items()))
    folders = {name for name in ("one", "other", "onemore") if os.path.exists(f"back/{name}")}
    asked = {part.strip("./").partition("/")[0] for part in parts if part != "one.dcm"} or {"one", "other", "onemore"}
    case(f"parts {parts}: no other folder", folders == asked)
shutil.rmtree("back")
done = run("restore", "out", "back", "linked")
case(f"a link to a folder: {said(done)}", done.returncode == 0 and os.readlink("back/linked") == "one")
case("a link to a folder: nothing else", os.listdir("back") == ["linked"])
shutil.rmtree("back")
for part in ("on", "linked/b", "out/one", "../tree", "/one", "one/a.dcm/x", "", ".", ".."):
    done = run("restore", "out", "back", "one", part)
    is_told = "the manifest names nothing so" in said(done)
    case(f"a part that isn't there, {part!r}: {said(done)}", done.returncode == 1 and is_told)
    case(f"a part that isn't there, {part!r}: nothing is made", not os.path.exists("back"))
for words in (["restore", "out/one", "back"], ["verify", "out/one/b"]):
    done = run(*words)
    case(
        f"a folder of OUT, {words[0]}: {said(done)}",
        f"{os.getcwd()}/out has one" in said(done) and done.returncode == 1,
    )
done = run("verify", "tree")
case(f"no OUT: {said(done)}", "no tree was compressed into it" in said(done) and done.returncode == 1)

# ---- two that restore into one folder

os.mkdir("back")
held = os.open("back", os.O_RDONLY)
fcntl.flock(held, fcntl.LOCK_EX)
done = run("restore", "out", "back")
case(f"two restore: {said(done)}", said(done).endswith("/here/back: another run is at work on it\n"))
case("two restore: the second does nothing", done.returncode == 1 and os.listdir("back") == [])
os.close(held)
# Where the file system has no locks, each finds what the other one made.
lines = {line["path"]: line for line in map(json.loads, Path("out/manifest.jsonl").read_text().splitlines()[1:])}
token = manifest.token_in(b"out")
real_settle = places.Part.settle
for name, data in (("same", whole["one.dcm"]), ("other", b"other")):

    def settle(self, data=data):
        Path(os.fsdecode(self.place)).write_bytes(data)
        real_settle(self)

    places.Part.settle = settle
    (line,) = each.do_batch(each.Job("restore", b"back", b"out", token), [lines["one.dcm"]])
    case(f"two at one file, {name}: {line}", line["state"] == {"same": "there", "other": "failed"}[name])
    case(f"two at one file, {name}: it is left", below("back") == {"one.dcm": data})
    os.unlink("back/one.dcm")
places.Part.settle = real_settle

# ---- a tree that isn't the one, or isn't mounted

fresh("a.dcm", "b.dcm", "shut/c.dcm")
os.mkdir("unmounted")
done = run("compress", "unmounted", "out", "--report", "report.json")
wanted = "compress: 3 files of OUT weren't found in the tree, and will stay in OUT\n"
case(f"an empty tree: {said(done)}", wanted in said(done))
report = json.loads(Path("report.json").read_text())
case(f"an empty tree: the report {report}", report["only_in_out"] == 3 and done.returncode == 0)
os.unlink("tree/a.dcm")
done = run("compress", "tree", "out")
case(f"a file less: {said(done)}", "1 file of OUT wasn't found" in said(done))
done = run("compress", "tree", "new")
case(f"none less: {said(done)}", "found" not in said(done))

# ---- what verify says is wrong

fresh("a.dcm", "b.dcm", "c.dcm", "d.dcm", "e.dcm")
with open("out/a.dcm", "r+b") as file:
    file.seek(-20, os.SEEK_END)
    byte = file.read(1)
    file.seek(-20, os.SEEK_END)
    file.write(bytes([byte[0] ^ 16]))
with open("tree/b.dcm", "r+b") as file:
    file.seek(-1, os.SEEK_END)
    file.write(b"\1")
os.unlink("out/c.dcm")
os.unlink("tree/d.dcm")
Path("out/more.dcm").write_bytes(b"more")
done = run("verify", "out", "tree")
for name, why in (
    ("a.dcm", "it hasn't the sum that the manifest says: OUT's file was damaged or replaced"),
    ("b.dcm", "the tree's file isn't what was compressed; OUT has it as it was then"),
    ("c.dcm", "OUT hasn't it any more"),
    ("d.dcm", "the tree hasn't it any more"),
    ("more.dcm", "the manifest doesn't name it; if a run of compress was ended, the same command takes it up"),
):
    case(f"verify, {name}: {said(done)}", named(done).get(name) == why)
case("verify: nothing else", len(named(done)) == 5 and done.returncode == 1)
done = run("restore", "out", "back")
case(f"restore after that: {said(done)}", set(named(done)) == {"a.dcm", "c.dcm"} and done.returncode == 1)
case("restore after that: nothing that is wrong", set(below("back")) == {"b.dcm", "d.dcm", "e.dcm"})
case("restore after that: as it was", below("back")["b.dcm"] != Path("tree/b.dcm").read_bytes())
# The way to mend it that docs/DICOM.md names.
os.unlink("out/a.dcm")
done = run("compress", "tree", "out")
case(f"mended: {said(done)}", "2 compressed" in said(done) and "a.dcm" not in named(run("verify", "out", "tree")))

# ---- a report that can't be written is refused before the work

fresh("a.dcm")
os.mkdir("folder")
for path in ("nowhere/report.json", "folder"):
    for words in (["compress", "tree", "new"], ["restore", "out", "new"], ["verify", "out"]):
        done = run(*words, "--report", path)
        case(f"{words[0]}, a report {path}: {said(done)}", path in said(done) and done.returncode == 1)
        case(f"{words[0]}, a report {path}: nothing is done", "verified" not in said(done) and not below("new"))
    shutil.rmtree("new", ignore_errors=True)
done = run("verify", "out", "--report", "/dev/stdout")
case(f"a report to a device: {said(done)}", json.loads(done.stdout)["verified"] == 1)

# ---- a disk that takes the files and not their lines

FULL = """
import errno, os
from jlsrec.dicom import manifest
def add(self, lines):
    if lines:
        raise OSError(errno.ENOSPC, os.strerror(errno.ENOSPC))
manifest.Manifest.add = add
"""
Path("tree/b.dcm").write_bytes(slice_of())
done = run("compress", "tree", "new", first=FULL)
case(
    f"no room for lines: {said(done)}",
    "2 of these may have no line in the manifest" in said(done) and done.returncode == 1,
)
case("no room for lines: why", "No space left on device: no line can be added" in said(done))
done = run("compress", "tree", "new")
case(
    f"no room for lines, then: {said(done)}",
    "2 compared" in said(done) and run("verify", "new", "tree").returncode == 0,
)
end()
