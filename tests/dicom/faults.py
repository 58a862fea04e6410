"""Verifications that go on after others, files that vanish, and runs whose disk, streams or workers fail.

    python3 faults.py
"""

from __future__ import annotations

import contextlib
import dataclasses
import json
import os
import resource
import shutil
import signal
import subprocess
import sys
import time
from pathlib import Path

import numpy as np

from cases import case, end
from jlsrec.dicom import each, manifest
from makes import Form

drawn = np.random.default_rng(32)
COMMAND = [sys.executable, "-W", "ignore", "-m", "jlsrec.dicom"]
MAIN = "import sys\nfrom jlsrec.dicom.__main__ import main\nsys.exit(main())\n"
# A verification that is killed once it has noted its first files.
KILLED = """
import os
from jlsrec.dicom import tree
real = tree.Verified.add
def add(self, lines):
    real(self, lines)
    os.kill(os.getpid(), 9)
tree.Verified.add = add
"""
FILES = 24
# So long ago must a file have been changed that a verification notes it.
SETTLED = 2.2


def run(*words: str, jobs: int = 2, first: str = "", seconds: float = 240, **named) -> subprocess.CompletedProcess:
    """A command, after some lines of Python; one that doesn't end in time has the status None."""
    command = [sys.executable, "-W", "ignore", "-c", first + MAIN] if first else COMMAND
    command = [*command, *words, "--jobs", str(jobs)]
    try:
        return subprocess.run(command, stdout=subprocess.PIPE, **{"stderr": subprocess.PIPE, **named}, timeout=seconds)
    except subprocess.TimeoutExpired as late:
        return subprocess.CompletedProcess(command, None, b"", late.stderr or b"")


def said(done: subprocess.CompletedProcess) -> str:
    return (done.stderr or b"").decode(errors="replace")


def named(done: subprocess.CompletedProcess) -> dict[str, str]:
    """What is said of each file."""
    lines = [line.split(": ", 2) for line in said(done).splitlines()[:-1]]
    return {line[1]: line[2] for line in lines if len(line) == 3}


def slice_of(shape=(24, 24)) -> bytes:
    return Form(drawn.integers(0, 4096, (1, *shape))).data()


def fresh(*names: str) -> None:
    """A folder of its own, with a tree of files of these names."""
    os.chdir(home)
    shutil.rmtree("here", ignore_errors=True)
    os.mkdir("here")
    os.chdir("here")
    os.mkdir("tree")
    for name in names:
        path = Path("tree", name)
        path.parent.mkdir(parents=True, exist_ok=True)
        path.write_bytes(slice_of())


def below(root: str) -> dict[str, tuple]:
    """The files below a folder: their bytes, and what of them changes with each change."""
    found = {}
    for folder, _, names in os.walk(root):
        for name in names:
            path = os.path.join(folder, name)
            of = os.lstat(path)
            data = os.readlink(path) if os.path.islink(path) else Path(path).read_bytes()
            found[os.path.relpath(path, root)] = data, of.st_ino, of.st_mtime_ns, of.st_ctime_ns, of.st_mode
    return found


def flip(path: str) -> None:
    """Changes a file's last byte but one, and none of its size, its inode and its time of change."""
    of = os.stat(path)
    with open(path, "r+b") as file:
        file.seek(-2, os.SEEK_END)
        byte = file.read(1)
        file.seek(-1, os.SEEK_CUR)
        file.write(bytes([byte[0] ^ 1]))
    os.utime(path, ns=(of.st_atime_ns, of.st_mtime_ns))


def is_plain(done: subprocess.CompletedProcess) -> bool:
    """That each line that was said is one of the command's."""
    return "Traceback" not in said(done) and all(": " in line for line in said(done).splitlines())


home = os.getcwd()

# ---- a verification that goes on after one that was killed

names = [f"{number:02}.dcm" for number in range(FILES)]
fresh(*names)
case("going on: compressed", run("compress", "tree", "out", jobs=1).returncode == 0)
time.sleep(SETTLED)
done = run("verify", "out", "tree", jobs=1, first=KILLED)
case(f"going on: the first verification is killed: {said(done)}", done.returncode == -signal.SIGKILL)
flip("tree/00.dcm")
flip("out/01.dcm")
with open("tree/02.dcm", "ab") as file:
    file.write(b"more")
os.truncate("out/03.dcm", 100)
os.unlink("tree/04.dcm")
os.unlink("out/05.dcm")
of = os.stat("tree/06.dcm")
Path("tree/06.dcm").write_bytes(slice_of())
os.utime("tree/06.dcm", ns=(of.st_mtime_ns, of.st_mtime_ns))
shutil.copy2("out/07.dcm", "aside")
os.rename("aside", "out/07.dcm")
flip("out/07.dcm")
os.unlink("tree/08.dcm")
os.symlink("09.dcm", "tree/08.dcm")
rows = Path("out/manifest.jsonl").read_text().splitlines(True)
for number, row in enumerate(rows):
    if '"10.dcm"' in row:
        line = json.loads(row)
        rows[number] = json.dumps({**line, "sha256_values": "0" * 64}) + "\n"
Path("out/manifest.jsonl").write_text("".join(rows))
done = run("verify", "out", "tree", jobs=1)
wanted = {f"{number:02}.dcm" for number in [*range(9), 10]}
case(f"going on: what changed since is looked at again: {said(done)}", set(named(done)) == wanted)
case("going on: status 1", done.returncode == 1 and is_plain(done))
case(f"going on: what is as it was isn't: {said(done)}", "6 done before" in said(done))
case("going on: then nothing is left", not [name for name in os.listdir("out") if "verified" in name])
done = run("verify", "out", "tree", jobs=1)
case(f"going on: and all is looked at anew: {said(done)}", set(named(done)) == wanted and "before" not in said(done))

# A verification without the tree says nothing of the tree, and one of other words nothing of these.
fresh(*names)
case("other words: compressed", run("compress", "tree", "out", jobs=1).returncode == 0)
time.sleep(SETTLED)
run("verify", "out", jobs=1, first=KILLED)
flip("tree/00.dcm")
done = run("verify", "out", "tree", jobs=1)
case(f"other words: the tree is looked at: {said(done)}", set(named(done)) == {"00.dcm"} and done.returncode == 1)
run("verify", "out", jobs=1, first=KILLED)
done = run("verify", "out", jobs=1)
case(f"other words: the same ones go on: {said(done)}", done.returncode == 0 and "16 done before" in said(done))

# What was changed a moment before it was looked at may be changed again at the same time of the clock.
noted = [json.loads(row) for row in Path("out/manifest.jsonl").read_text().splitlines()]
job = each.Job("verify", None, os.path.abspath(b"out"), noted[0]["token"])
Path("out/00.dcm").touch()
answered = {line["path"]: line for line in each.do_batch(job, noted[1:])}
case("changed a moment ago: it is right", {line["state"] for line in answered.values()} == {"verified"})
case(
    "changed a moment ago: it alone isn't noted",
    {name for name, line in answered.items() if "stamp" not in line} == {"00.dcm"},
)

# ---- notes that came along with another tree

fresh(*names)
case("copied notes: compressed", run("compress", "tree", "out", jobs=1).returncode == 0)
time.sleep(SETTLED)
run("verify", "out", "tree", jobs=1, first=KILLED)
subprocess.run(["cp", "-a", "out", "copy"], check=True)
subprocess.run(["cp", "-a", "tree", "other"], check=True)
flip("copy/00.dcm")
flip("other/01.dcm")
done = run("verify", "copy", "tree", jobs=1)
case(f"copied notes of OUT: {said(done)}", set(named(done)) == {"00.dcm"} and "before" not in said(done))
done = run("verify", "out", "other", jobs=1)
case(f"notes of another TREE: {said(done)}", set(named(done)) == {"01.dcm"} and "before" not in said(done))

# A tree whose folder was an OUT: its files of such names are files like others.
fresh("a.dcm", "b.dcm")
noted = [{"path": name, "with_tree": True} for name in ("a.dcm", "b.dcm", ".jlsrec-verified.jsonl")]
own = b"".join(json.dumps(note).encode() + b"\n" for note in noted)
Path("tree/.jlsrec-verified.jsonl").write_bytes(own)
Path("tree/.jlsrec-verified-0123456789abcdef.jsonl").write_bytes(own)
stood = below("tree")
done = run("compress", "tree", "out")
case(f"notes in TREE: compressed: {said(done)}", done.returncode == 0)
flip("out/a.dcm")
for turn in ("first", "second"):
    done = run("verify", "out", "tree")
    is_seen = set(named(done)) == {"a.dcm"} and done.returncode == 1
    case(f"notes in TREE aren't believed, {turn}: {said(done)}", is_seen)
kept = below("out").get(".jlsrec-verified.jsonl")
case("notes in TREE: OUT keeps them", kept is not None and kept[0] == own)
os.unlink("out/a.dcm")
case("notes in TREE: compressed again", run("compress", "tree", "out").returncode == 0)
done = run("restore", "out", "back")
case(
    f"notes in TREE come back: {said(done)}",
    {name: what[0] for name, what in below("back").items()} == {name: what[0] for name, what in stood.items()},
)
case("notes in TREE: the tree is as it was", below("tree") == stood)
# One of the very name that OUT's notes have.
stands = set(os.listdir("out"))
run("verify", "out", first=KILLED)
notes_name = ({*os.listdir("out")} - stands or {".jlsrec-verified.jsonl"}).pop()
Path("out", notes_name).unlink(missing_ok=True)
Path("tree", notes_name).write_bytes(own)
stood = below("tree")
case("notes of this name in TREE: compressed", run("compress", "tree", "out").returncode == 0)
flip("out/b.dcm")
done = run("verify", "out", "tree")
case(f"notes of this name in TREE: {said(done)}", "b.dcm" in named(done) and done.returncode == 1)
kept = below("out").get(notes_name)
case("notes of this name in TREE: OUT keeps them", kept is not None and kept[0] == own)
case("notes of this name in TREE: the tree is as it was", below("tree") == stood)

# Notes that were torn, or mean nothing.
fresh(*names)
case("torn notes: compressed", run("compress", "tree", "out", jobs=1).returncode == 0)
time.sleep(SETTLED)
run("verify", "out", "tree", jobs=1, first=KILLED)
notes = Path("out", [name for name in os.listdir("out") if "verified" in name][0])
whole = notes.read_bytes()
flip("out/00.dcm")
odd = b'[]\n{"path": 3}\n{"path": "/"}\n\xff\n{"p'
for bad in (b"", whole[:30], whole[:-20], whole + b"[" * 100000, whole + odd, bytes(5000)):
    notes.write_bytes(bad)
    done = run("verify", "out", "tree", jobs=1)
    case(f"torn notes {bad[-20:]}: {said(done)}", set(named(done)) == {"00.dcm"} and is_plain(done))
    case(f"torn notes {bad[-20:]}: they are gone", not notes.exists())
if os.path.exists("victim"):
    os.unlink("victim")
Path("victim").write_bytes(b"mine")
os.symlink("../victim", notes)
done = run("verify", "out", "tree", jobs=1)
case(f"a link in the place of notes: {said(done)}", "00.dcm" in named(done) and Path("victim").read_bytes() == b"mine")

# ---- a file that vanished

# While it was compressed: OUT never had it, until a run sees that TREE hasn't either.
fresh("a.dcm", "b.dcm", "gone.dcm", "shut/c.dcm")
GONE = """
import os
from jlsrec.dicom import tree
real = tree._to_compress
def to_compress(listing, *words):
    # Once it was found.
    listing.join()
    os.unlink("tree/gone.dcm")
    yield from real(listing, *words)
tree._to_compress = to_compress
real_walk = tree.os.scandir
class Shut:
    def __init__(self, path): self.found = real_walk(path)
    def __enter__(self): return self
    def __iter__(self): return self
    def __next__(self): return next(self.found)
    def __exit__(self, *error): self.found.close()
def scandir(path):
    if os.path.basename(path) == b"shut":
        raise PermissionError(13, "Permission denied", path)
    return Shut(path)
tree.os.scandir = scandir
"""
done = run("compress", "tree", "out", first=GONE)
case(f"vanished from TREE: {said(done)}", set(named(done)) == {"gone.dcm", "shut"} and done.returncode == 1)
case("vanished from TREE: the others are there", {"a.dcm", "b.dcm"} <= set(os.listdir("out")))
done = run("verify", "out", "tree")
case(f"vanished from TREE, verified: {said(done)}", {"gone.dcm"} <= set(named(done)) and done.returncode == 1)
done = run("compress", "tree", "out")
case(f"vanished from TREE, the next run: {said(done)}", done.returncode == 0 and is_plain(done))
for words in (["verify", "out", "tree"], ["verify", "out"], ["restore", "out", "back"]):
    done = run(*words)
    case(f"vanished from TREE, then {words}: {said(done)}", done.returncode == 0 and is_plain(done))
Path("tree/gone.dcm").write_bytes(slice_of())
case("vanished from TREE, and there again", run("compress", "tree", "out").returncode == 0)
case("and compressed", run("verify", "out", "tree").returncode == 0 and os.path.exists("out/gone.dcm"))

# While it was verified, from either side, with its folder, or before it was begun.
fresh(*names, "folder/a.dcm", "folder/b.dcm")
os.mkdir("tree/empty")
case("vanishes from either: compressed", run("compress", "tree", "out", jobs=1).returncode == 0)
time.sleep(SETTLED)
run("verify", "out", "tree", jobs=1, first=KILLED)
for path in ("tree/00.dcm", "out/01.dcm", "out/folder/a.dcm"):
    os.unlink(path)
shutil.rmtree("tree/folder")
for words in (["verify", "out", "tree"], ["verify", "out", "tree"]):
    done = run(*words)
    wanted = {"00.dcm", "01.dcm", "folder/a.dcm", "folder/b.dcm"}
    case(f"vanishes from either: {said(done)}", set(named(done)) == wanted and done.returncode == 1 and is_plain(done))
EMPTY = """
import os
from jlsrec.dicom import tree
real = tree.os.scandir
class Emptied:
    def __init__(self, path): self.path, self.found = path, real(path)
    def __enter__(self): return self
    def __iter__(self): return self
    def __next__(self): return next(self.found)
    def __exit__(self, *error):
        self.found.close()
        if os.path.basename(self.path) == b"empty" and b"tree" in self.path:
            os.rmdir(self.path)
tree.os.scandir = Emptied
"""
shutil.copy("tree/02.dcm", "tree/zz.dcm")
done = run("verify", "out", "tree", first=EMPTY)
case(f"an empty folder vanishes: {said(done)}", {"00.dcm", "zz.dcm"} <= set(named(done)) and done.returncode == 1)
os.mkdir("tree/empty")
done = run("compress", "tree", "new", first=EMPTY)
case(f"an empty folder vanishes meanwhile: {said(done)}", is_plain(done) and os.path.exists("new/zz.dcm"))

# Folders that are deeper than Python's calls, and deeper than any name can say.
LOW = "import sys, numpy, jlsrec.dicom.tree\nsys.setrecursionlimit(300)\n"
fresh("a.dcm", "z.dcm")
os.chdir("tree")
for _ in range(2100):
    os.mkdir("d")
    os.chdir("d")
Path("deep.dcm").write_bytes(one := slice_of())
os.chdir(f"{home}/here")
at = Path("tree", *["d"] * 400)
(at / "e.dcm").write_bytes(one)
done = run("compress", "tree", "out", first=LOW)
case(f"deep folders: {said(done)[-300:]}", done.returncode == 1 and "Traceback" not in said(done))
case("deep folders: what has a name is there", {"a.dcm", "z.dcm"} <= set(os.listdir("out")))
case("deep folders: also far below", (Path("out", *at.parts[1:]) / "e.dcm").exists())
case("deep folders: what hasn't is told of", "File name too long" in said(done))
done = run("restore", "out", "back", first=LOW)
case(f"deep folders: restored: {said(done)[-300:]}", (Path("back", *at.parts[1:]) / "e.dcm").read_bytes() == one)
done = run("verify", "out", "tree", first=LOW)
case(f"deep folders: verified: {said(done)[-300:]}", done.returncode == 1 and "Traceback" not in said(done))
subprocess.run(["rm", "-rf", "tree", "out", "back"], check=True)

# ---- what TREE has in the place of a link, a pipe or a file

fresh("a.dcm", "b.dcm")
os.symlink("a.dcm", "tree/link")
os.symlink("a.dcm", "tree/other")
os.symlink("/etc/passwd", "tree/away")
os.mkfifo("tree/pipe")
case("other kinds: compressed", run("compress", "tree", "out").returncode == 0)
case("other kinds: verified", run("verify", "out", "tree").returncode == 0)
for name in ("link", "other", "pipe", "away"):
    os.unlink(f"tree/{name}")
for name in ("link", "pipe", "away"):
    Path("tree", name).write_bytes(slice_of())
os.symlink("b.dcm", "tree/other")
done = run("verify", "out", "tree")
case(f"other kinds: {said(done)}", {"link", "other", "pipe", "away"} <= set(named(done)) and done.returncode == 1)

# A file that is in the place of a folder of OUT.
fresh("a.dcm", "folder/b.dcm", "z.dcm")
case("a file for a folder: compressed", run("compress", "tree", "out").returncode == 0)
shutil.rmtree("out/folder")
os.unlink("out/z.dcm")
Path("out/folder").write_bytes(b"mine")
done = run("compress", "tree", "out")
case(f"a file for a folder: {said(done)}", set(named(done)) == {"folder/b.dcm"} and done.returncode == 1)
case("a file for a folder: the rest is there", os.path.exists("out/z.dcm") and os.path.isfile("out/folder"))

# ---- a manifest that can't be synced

fresh("a.dcm", "b.dcm")
UNSYNCED = """
import errno, os
from jlsrec.dicom import manifest
real = os.fsync
def fsync(number):
    if os.path.basename(os.readlink(f"/proc/self/fd/{number}")) == "manifest.jsonl" and os.fstat(number).st_size > 200:
        raise OSError(errno.EIO, os.strerror(errno.EIO))
    real(number)
os.fsync = fsync
real_add = manifest.Manifest.add
def add(self, lines):
    self.synced = SYNCED
    real_add(self, lines)
manifest.Manifest.add = add
"""
for text, synced in (("at the end", "1e300"), ("at once", "-1e300")):
    shutil.rmtree("out", ignore_errors=True)
    done = run("compress", "tree", "out", first=UNSYNCED.replace("SYNCED", synced))
    case(
        f"an unsynced manifest, {text}: {said(done)}",
        done.returncode == 1 and "manifest" in said(done) and "Input/output error" in said(done) and is_plain(done),
    )
    case(f"an unsynced manifest, {text}, then", run("compress", "tree", "out").returncode == 0)
    case(f"an unsynced manifest, {text}, is right", run("verify", "out", "tree").returncode == 0)

# ---- OUT in TREE by a mount

MOUNTED = """
set -e
mkdir -p tree/deep/in by
mount --bind tree/deep by
status=0
"$@" compress tree by/in --jobs 2 || status=$?
umount by
mount --bind tree by
"$@" compress tree by --jobs 2 || status=$status$?
echo $status >status
"""
mounted = None
if shutil.which("unshare"):
    mounted = subprocess.run(["unshare", "-m", "bash", "-c", MOUNTED, "bash", *COMMAND], stderr=subprocess.PIPE)
if mounted is None or not os.path.exists("status"):
    print("OUT in TREE by a mount: not tested, since nothing may be mounted here")
else:
    case(f"OUT in TREE by a mount: {said(mounted)}", Path("status").read_text() == "11\n" and is_plain(mounted))
    case("OUT in TREE by a mount: nothing was made", os.listdir("tree/deep/in") in ([], ["manifest.jsonl"]))

# ---- nobody reads what is said, or a disk is full

fresh(*names)
for number in range(400):
    os.symlink(f"/nowhere/{number}" + "x" * 200, f"tree/l{number}")
Path("tree/text").write_bytes(b"no DICOM")
os.mkfifo("tree/pipe")


def unread(*words: str, first: str = "") -> int | None:
    """The status of a command whose reader of standard error goes after the first line."""
    command = [sys.executable, "-W", "ignore", "-c", first + MAIN] if first else COMMAND
    process = subprocess.Popen([*command, *words, "--jobs", "2"], stderr=subprocess.PIPE, stdout=subprocess.DEVNULL)
    process.stderr.close()
    try:
        return process.wait(240)
    except subprocess.TimeoutExpired:
        process.kill()
        process.wait()
        return None


status = unread("compress", "tree", "out")
case(f"no reader: compressed {status}", status == 0 and {*names, "text"} <= set(os.listdir("out")))
rows = {manifest.path_in(json.loads(row)) for row in Path("out/manifest.jsonl").read_bytes().splitlines()[1:]}
case("no reader: each file has its line", rows == {os.fsencode(name) for name in os.listdir("tree")})
case("no reader: verified", unread("verify", "out", "tree") == 0)
case("no reader: restored", unread("restore", "out", "back") == 0 and {*names, "text"} <= set(os.listdir("back")))
os.unlink("out/00.dcm")
case("no reader: what isn't right gives status 1", unread("verify", "out", "tree") == 1)
case("no reader: what is refused too", unread("verify", "nowhere") == 1)
shutil.rmtree("out")
with open("/dev/full", "wb") as full:
    done = run("compress", "tree", "out", stderr=full)
case(f"a full log: {done.returncode}", done.returncode == 0 and {*names, "text"} <= set(os.listdir("out")))
with open("/dev/full", "wb") as full:
    command = [*COMMAND, "to-film", "tree/00.dcm", "tree/none"]
    done = subprocess.run(command, stdout=subprocess.DEVNULL, stderr=full)
case(f"a full log of a film: {done.returncode}", done.returncode == 1)


def sealed() -> None:
    """No file can grow."""
    resource.setrlimit(resource.RLIMIT_FSIZE, (0, resource.RLIM_INFINITY))


done = run("verify", "out", "tree", preexec_fn=sealed)
case(f"a verification that can't note: {said(done)}", done.returncode == 0 and is_plain(done))
case("a verification that can't note: it says so", "can't be noted" in said(done))
case("and leaves nothing", not [name for name in os.listdir("out") if "verified" in name])
done = run("compress", "tree", "new", preexec_fn=sealed)
is_told = is_plain(done) and said(done).count("\n") == 1
case(f"no manifest can be written: {said(done)}", done.returncode == 1 and is_told)
case("no manifest can be written, then", run("compress", "tree", "new").returncode == 0)
done = run("compress", "tree", "new", "--report", "/dev/full")
case(f"a full disk of the report: {said(done)}", done.returncode == 1 and "/dev/full: No space left" in said(done))
case("a full disk of the report: one line each", is_plain(done))
done = run("restore", "out", "back2", preexec_fn=sealed)
case(f"nothing can be restored: {said(done)}", done.returncode == 1 and is_plain(done))

# ---- workers that are killed


def children(of: int) -> list[int]:
    """The processes that work for one."""
    found = []
    for each_ in Path("/proc").iterdir():
        with contextlib.suppress(OSError, ValueError, IndexError):
            fields = (each_ / "stat").read_text().rpartition(") ")[2].split()
            words = (each_ / "cmdline").read_bytes()
            if fields[0] != "Z" and int(fields[1]) == of and b"spawn_main" in words:
                found.append(int(each_.name))
    return found


def begun(process: subprocess.Popen, count: int) -> list[int]:
    """So many workers of a process."""
    until = time.monotonic() + 60
    while time.monotonic() < until:
        found = children(process.pid)
        if len(found) == count:
            return found
        time.sleep(0.01)
    return []


def ended(process: subprocess.Popen, seconds: float) -> int | None:
    try:
        return process.wait(seconds)
    except subprocess.TimeoutExpired:
        for worker in children(process.pid):
            os.kill(worker, signal.SIGKILL)
        process.kill()
        process.wait()
        return None


# Names that are long: more of them than a pipe takes are given out at once.
fresh()
deep = Path("tree", *["d" * 250] * 14)
deep.mkdir(parents=True)
one = slice_of()
for number in range(120):
    (deep / f"{number:03}{'n' * 240}").write_bytes(one)
for kinds in ("one", "all"):
    shutil.rmtree("out", ignore_errors=True)
    client = subprocess.Popen([*COMMAND, "compress", "tree", "out", "--jobs", "2"], stderr=open("told", "wb"))
    workers = begun(client, 2)
    for worker in workers:
        os.kill(worker, signal.SIGSTOP)
    time.sleep(1.5)
    for worker in workers[: 1 if kinds == "one" else 2]:
        os.kill(worker, signal.SIGKILL)
    for worker in workers[1:]:
        with contextlib.suppress(ProcessLookupError):
            os.kill(worker, signal.SIGCONT)
    status = ended(client, 90)
    text = Path("told").read_text()
    case(f"{kinds} killed with much queued: {status} {text}", status == 0)
    case(f"{kinds} killed with much queued: all is there", len([*Path("out").rglob("*n")]) == 120)
    case(f"{kinds} killed with much queued: verified", run("verify", "out", "tree").returncode == 0)

# Files at which workers die: the others are done, and the manifest says it.
fresh(*names)
Path("sitecustomize.py").write_text(
    """
import os, sys
if any("spawn_main" in word for word in sys.orig_argv):
    from jlsrec.dicom import places
    real = places.Source.__init__
    def __init__(self, path):
        name = os.path.basename(path)
        if name in (b"03.dcm", b"07.dcm", b"08.dcm", b"09.dcm"):
            os.kill(os.getpid(), 9)
        if name == b"05.dcm" and not os.path.exists("once"):
            os.close(os.open("once", os.O_CREAT))
            os.kill(os.getpid(), 9)
        real(self, path)
    places.Source.__init__ = __init__
"""
)
deadly = {**os.environ, "PYTHONPATH": f"{os.getcwd()}:{os.environ['PYTHONPATH']}"}
those = ("03.dcm", "07.dcm", "08.dcm", "09.dcm")
done = run("compress", "tree", "out", env=deadly, first="from jlsrec.dicom import work\nwork.DEATHS_IN_TURN = 3\n")
case(
    f"deadly files: {said(done)}",
    done.returncode == 1 and named(done) == dict.fromkeys(those, "2 workers died of it"),
)
states = {}
for row in Path("out/manifest.jsonl").read_text().splitlines()[1:]:
    line = json.loads(row)
    states[line["path"]] = line["state"]
case(
    "deadly files: each has its line",
    states == {name: "failed" if name in those else "compressed" for name in names},
)
os.unlink("sitecustomize.py")
case("deadly files, then", run("compress", "tree", "out").returncode == 0)
case("deadly files, and verified", run("verify", "out", "tree").returncode == 0)

# Workers that can't begin.
Path("sitecustomize.py").write_text(
    "import os, sys\nif any('spawn_main' in word for word in sys.orig_argv): os._exit(3)\n"
)
shutil.rmtree("out")
done = run("compress", "tree", "out", env=deadly)
case(f"workers that can't begin: {said(done)}", done.returncode == 1 and "the same command goes on" in said(done))
os.unlink("sitecustomize.py")
case("workers that can't begin, then", run("compress", "tree", "out").returncode == 0)


def few_files() -> None:
    resource.setrlimit(resource.RLIMIT_NOFILE, (32, 32))


shutil.rmtree("out")
done = run("compress", "tree", "out", jobs=40, preexec_fn=few_files)
case(f"more workers than there can be: {said(done)}", done.returncode == 0 and len(os.listdir("out")) == FILES + 1)
# ---- a second decoder that fails, or is asked later

TOOL = """#!/bin/sh
case $(cat what) in
    refuse) echo "no such thing" >&2; exit 1 ;;
    die) kill -9 $$ ;;
esac
exec {} "$@"
"""
tool = shutil.which("dcmdjpls")
if tool is None:
    print("a second decoder that fails: not tested, since dcmdjpls isn't there; apt-get install dcmtk has it")
else:
    fresh("a.dcm", "b.dcm")
    time.sleep(SETTLED)
    os.mkdir("bin")
    Path("bin/dcmdjpls").write_text(TOOL.format(tool))
    os.chmod("bin/dcmdjpls", 0o755)
    with_tool = {**os.environ, "PATH": f"{os.getcwd()}/bin:{os.environ['PATH']}"}

    def asked(what: str) -> tuple[int | None, dict[str, dict], str]:
        """The status of a run whose second decoder does so, its lines, and what is said."""
        Path("what").write_text(what)
        done = run("compress", "tree", "out", "--second", "dcmtk", env=with_tool)
        rows = map(json.loads, Path("out/manifest.jsonl").read_text().splitlines()[1:])
        return done.returncode, {row["path"]: row for row in rows}, said(done)

    case("later: compressed", run("compress", "tree", "out").returncode == 0)
    status, found, text = asked("work")
    case(f"later: each is read: {text}", status == 0 and {row.get("second") for row in found.values()} == {"dcmtk"})
    status, found, text = asked("refuse")
    case(f"later: once: {text}", status == 0 and "2 unchanged" in text)
    shutil.rmtree("out")
    status, found, text = asked("refuse")
    why = "DCMTK can't decode it: no such thing"
    case(f"it refuses: {text}", status == 0 and {row["why"] for row in found.values()} == {why})
    Path("out/manifest.jsonl").write_text(Path("out/manifest.jsonl").read_text().splitlines(True)[0])
    status, found, text = asked("refuse")
    states = {row["state"] for row in found.values()}
    case(f"it refuses, and no line stayed: {text}", status == 0 and states == {"copied"})
    case("it refuses: verified", run("verify", "out", "tree").returncode == 0)
    shutil.rmtree("out")
    case("it refuses what is there: compressed", run("compress", "tree", "out").returncode == 0)
    stood = below("out")
    status, found, text = asked("refuse")
    case(f"it refuses what is there: {text}", status == 1 and f"a.dcm: {why}; there is another file" in text)
    stood.pop("manifest.jsonl")
    case("it refuses what is there: that stays", stood.items() <= below("out").items())
    shutil.rmtree("out")
    status, found, text = asked("die")
    case(f"it is killed: {text}", status == 1 and {row["state"] for row in found.values()} == {"failed"})
    case("it is killed: nothing is copied", os.listdir("out") == ["manifest.jsonl"])
    status, found, text = asked("work")
    case(f"it is killed, then: {text}", status == 0 and {row["state"] for row in found.values()} == {"compressed"})
    Path("what").write_text("refuse")
    os.environ["PATH"], real_path = with_tool["PATH"], os.environ["PATH"]
    real_statvfs = os.statvfs
    os.statvfs = lambda path: os.statvfs_result((*real_statvfs(path)[:3], 0, 0, *real_statvfs(path)[5:]))
    job = each.Job("compress", os.path.abspath(b"tree"), os.path.abspath(b"new"), "", "dcmtk")
    os.mkdir("new")
    listed = manifest.Manifest(b"new", True)
    (line,) = each.do_batch(dataclasses.replace(job, token=listed.token), [b"a.dcm"])
    os.environ["PATH"], os.statvfs = real_path, real_statvfs
    case(f"it has no space: {line}", line["state"] == "failed" and line["why"] == "No space left on device")
    case("it has no space: nothing is copied", os.listdir("new") == ["manifest.jsonl"])
    listed.close()
os.chdir(home)
shutil.rmtree("here")
end()
