"""Trees that are compressed again, as each night: what hasn't changed isn't read, and what has is.

    python3 again.py
"""

from __future__ import annotations

import contextlib
import json
import os
import shutil
import signal
import subprocess
import sys
import time
from pathlib import Path

import numpy as np

from cases import case, end
from jlsrec.dicom import each, manifest
from makes import Form

drawn = np.random.default_rng(33)
COMMAND = [sys.executable, "-W", "ignore", "-m", "jlsrec.dicom"]
# So long ago must a file have been changed that the next run needn't read it.
SETTLED = 2.2
FILES = 12
# The processes that do files note each source that they open.
NOTING = """
import os, sys
if any("spawn_main" in word for word in sys.orig_argv):
    from jlsrec.dicom import places
    real = places.Source.__init__
    def __init__(self, path):
        with open(HERE, "ab") as file:
            file.write(os.path.basename(path) + b"\\n")
        real(self, path)
    places.Source.__init__ = __init__
    if "MOMENT" in os.environ:
        from jlsrec.dicom import verified
        verified.SETTLED = float(os.environ["MOMENT"])
"""


def run(*words: str, jobs: int = 1) -> subprocess.CompletedProcess:
    environment = {**os.environ, "PYTHONPATH": f"{os.getcwd()}:{os.environ['PYTHONPATH']}"}
    Path("opened").write_bytes(b"")
    command = [*COMMAND, *words, "--jobs", str(jobs)]
    return subprocess.run(command, stdout=subprocess.PIPE, stderr=subprocess.PIPE, env=environment)


def said(done: subprocess.CompletedProcess) -> str:
    return done.stderr.decode(errors="replace")


def opened() -> set[str]:
    """The files of TREE and OUT that the last run read."""
    return {name for name in Path("opened").read_text().split("\n") if name and ".part" not in name}


def counts(done: subprocess.CompletedProcess) -> dict[str, int]:
    """What the last line of all files says became of them."""
    lines = [line for line in said(done).splitlines() if " in 0:" in line]
    text = lines[-1] if lines else ""
    parts = text.removeprefix("compress: ").partition(", in 0:")[0].partition(";")[0].split(", ")
    return {part.partition(" ")[2]: int(part.partition(" ")[0]) for part in parts if part[:1].isdigit()}


def failures(done: subprocess.CompletedProcess) -> dict[str, str]:
    """What is said of each file."""
    lines = [line.split(": ", 2) for line in said(done).splitlines()]
    return {line[1]: line[2] for line in lines if len(line) == 3}


def slice_of() -> bytes:
    return Form(drawn.integers(0, 4096, (1, 24, 24))).data()


def fresh(*names: str) -> None:
    """A folder of its own, with a tree of files of these names."""
    os.chdir(home)
    shutil.rmtree("here", ignore_errors=True)
    os.mkdir("here")
    os.chdir("here")
    os.mkdir("tree")
    Path("sitecustomize.py").write_text(NOTING.replace("HERE", repr(os.path.abspath("opened"))))
    for name in names:
        path = Path("tree", name)
        path.parent.mkdir(parents=True, exist_ok=True)
        path.write_bytes(slice_of())


def write_back(path: str, at: int = -2) -> None:
    """Changes a byte of a file, and none of its size, its inode and its modification time."""
    of = os.stat(path)
    with open(path, "r+b") as file:
        file.seek(at, os.SEEK_END)
        byte = file.read(1)
        file.seek(-1, os.SEEK_CUR)
        file.write(bytes([byte[0] ^ 1]))
    os.utime(path, ns=(of.st_atime_ns, of.st_mtime_ns))


def rows() -> list[dict]:
    """The lines of the manifest, but for the first."""
    return [json.loads(row) for row in Path("out/manifest.jsonl").read_text().splitlines()[1:]]


def rewrite(change) -> None:
    """Changes each line of the manifest."""
    first = Path("out/manifest.jsonl").read_text().splitlines()[0]
    made = [json.dumps(change(line)) for line in rows()]
    Path("out/manifest.jsonl").write_text("\n".join([first, *made]) + "\n")


home = os.getcwd()
names = [f"{number:02}.dcm" for number in range(FILES)]

# ---- what hasn't changed isn't read

fresh(*names)
Path("tree/text").write_bytes(b"no DICOM")
os.symlink("00.dcm", "tree/link")
every = {*names, "text"}
time.sleep(SETTLED)
done = run("compress", "tree", "out")
case(f"the first run: {said(done)}", done.returncode == 0 and opened() == every)
case(
    "each line says what its file is told apart by",
    all({"ctime_ns", "inode"} <= {*line} for line in rows() if "why" not in line and "to" not in line),
)
stood = Path("out/manifest.jsonl").read_bytes()
done = run("compress", "tree", "out", "--report", "report.json")
case(f"the second run: {said(done)}", done.returncode == 0 and counts(done) == {"unchanged": FILES + 2})
case(f"the second run reads nothing: {opened()}", opened() == set())
case("the second run adds no line", Path("out/manifest.jsonl").read_bytes() == stood)
report = json.loads(Path("report.json").read_text())
case(f"the second run's report: {report}", report.get("unchanged") == FILES + 2 and report["files"] == FILES + 2)
for turn in ("once", "twice"):
    done = run("compress", "tree", "out", "--reread")
    case(f"--reread, {turn}: {said(done)}", counts(done) == {"compared": FILES + 1, "unchanged": 1})
    case(f"--reread, {turn}: all is read", opened() == every and done.returncode == 0)
    case(f"--reread, {turn}: no line says the same again", Path("out/manifest.jsonl").read_bytes() == stood)
Path("tree/new.dcm").write_bytes(slice_of())
done = run("compress", "tree", "out")
case(
    f"a file more: {said(done)}", counts(done) == {"compressed": 1, "unchanged": FILES + 2} and opened() == {"new.dcm"}
)
case("and verified", run("verify", "out", "tree").returncode == 0)

# ---- what has changed is read, whatever its size and its time say

fresh(*names)
time.sleep(SETTLED)
case("changes: compressed", run("compress", "tree", "out").returncode == 0)
before = {name: Path("out", name).read_bytes() for name in names}
write_back("tree/00.dcm")
of = os.stat("tree/01.dcm")
Path("tree/aside").write_bytes(slice_of())
os.utime("tree/aside", ns=(of.st_atime_ns, of.st_mtime_ns))
os.rename("tree/aside", "tree/01.dcm")
subprocess.run(["touch", "-r", "tree/02.dcm", "aside"], check=True)
subprocess.run(["cp", "tree/03.dcm", "tree/02.dcm"], check=True)
subprocess.run(["touch", "-r", "aside", "tree/02.dcm"], check=True)
os.utime("tree/04.dcm", ns=(7, 7))
os.chmod("tree/05.dcm", 0o600)
time.sleep(SETTLED)
done = run("compress", "tree", "out")
case(f"changes: {said(done)}", set(failures(done)) == {"00.dcm", "01.dcm", "02.dcm"} and done.returncode == 1)
case(
    f"changes: it is said what is wrong: {said(done)}",
    all("isn't what was compressed" in why for why in failures(done).values()),
)
case(f"changes: only these are read: {opened()}", opened() == {f"0{number}.dcm" for number in (0, 1, 2, 4, 5)})
case("changes: OUT is as it was", before == {name: Path("out", name).read_bytes() for name in names})
done = run("compress", "tree", "out")
case(
    f"changes, the next night: {said(done)}",
    set(failures(done)) == {"00.dcm", "01.dcm", "02.dcm"} and done.returncode == 1,
)
case(
    f"changes, the next night: other times alone are known: {opened()}",
    opened() == {f"0{number}.dcm" for number in range(3)},
)
for name in ("00.dcm", "01.dcm", "02.dcm"):
    os.unlink(f"out/{name}")
done = run("compress", "tree", "out")
case(
    f"changes, made anew: {said(done)}",
    done.returncode == 0 and counts(done) == {"compressed": 3, "unchanged": FILES - 3},
)
case("changes, made anew: verified", run("verify", "out", "tree").returncode == 0)

# Folders that change places: their files have the sizes and the times that stood in each other's place.
fresh("one/a.dcm", "other/a.dcm")
for _ in range(3000):
    for name in ("one", "other"):
        os.utime(f"tree/{name}/a.dcm", ns=(5, 5))
    if os.stat("tree/one/a.dcm").st_ctime_ns == os.stat("tree/other/a.dcm").st_ctime_ns:
        break
time.sleep(SETTLED)
case("folders change places: compressed", run("compress", "tree", "out").returncode == 0)
os.rename("tree/one", "tree/aside")
os.rename("tree/other", "tree/one")
os.rename("tree/aside", "tree/other")
done = run("compress", "tree", "out")
case(
    f"folders change places: {said(done)}", set(failures(done)) == {"one/a.dcm", "other/a.dcm"} and done.returncode == 1
)

# ---- what OUT hasn't, or has otherwise

fresh(*names)
time.sleep(SETTLED)
case("OUT: compressed", run("compress", "tree", "out").returncode == 0)
os.unlink("out/00.dcm")
os.truncate("out/01.dcm", 100)
os.truncate("out/02.dcm", 0)
with open("out/03.dcm", "ab") as file:
    file.write(b"\0")
os.rename("out/04.dcm", "aside")
os.symlink("../aside", "out/04.dcm")
os.unlink("out/05.dcm")
os.mkdir("out/05.dcm")
done = run("compress", "tree", "out")
case(
    f"OUT: {said(done)}",
    set(failures(done)) == {"01.dcm", "02.dcm", "03.dcm", "04.dcm", "05.dcm"} and done.returncode == 1,
)
case("OUT: what is gone is made again", counts(done).get("compressed") == 1 and opened() == {"00.dcm"})
shutil.rmtree("out/05.dcm")
for name in ("01.dcm", "02.dcm", "03.dcm", "04.dcm"):
    os.unlink(f"out/{name}")
done = run("compress", "tree", "out")
case(f"OUT, then: {said(done)}", done.returncode == 0 and counts(done) == {"compressed": 5, "unchanged": FILES - 5})
case("OUT, then: verified", run("verify", "out", "tree").returncode == 0)

# ---- a manifest of an earlier version

fresh(*names)
time.sleep(SETTLED)
case("an earlier manifest: compressed", run("compress", "tree", "out").returncode == 0)
rewrite(lambda line: {key: value for key, value in line.items() if key not in ("ctime_ns", "inode")})
write_back("tree/00.dcm")
for command in (["verify", "out"], ["restore", "out", "back"]):
    done = run(*command)
    case(f"an earlier manifest: {command}: {said(done)}", done.returncode == 0)
time.sleep(SETTLED)
done = run("compress", "tree", "out")
case(f"an earlier manifest: all is read: {said(done)}", counts(done) == {"compared": FILES - 1, "failed": 1})
case(f"an earlier manifest: what has changed is found: {said(done)}", set(failures(done)) == {"00.dcm"})
done = run("compress", "tree", "out")
case(f"an earlier manifest: but once: {said(done)}", counts(done) == {"unchanged": FILES - 1, "failed": 1})
for odd in ({"ctime_ns": [None, {}]}, {"inode": -1}, {"mtime_ns": 1 << 200}):
    rewrite(lambda line: {**line, **odd})
    done = run("compress", "tree", "out")
    case(
        f"a line with {odd}: {said(done)}",
        counts(done) == {"compared": FILES - 1, "failed": 1} and "Traceback" not in said(done),
    )
for odd in ({"bytes_before": -1}, {"bytes_after": 1 << 64}):
    rewrite(lambda line: {**line, **odd})
    done = run("compress", "tree", "out")
    case(f"a line with {odd}: {said(done)}", "line 2 is damaged" in said(done) and done.returncode == 1)

# ---- clocks

# What was changed a moment ago may be changed again at the same time of the clock.
fresh("old.dcm", "new.dcm")
time.sleep(SETTLED)
os.utime("tree/new.dcm")
# A moment is so long here that it is one on a slow machine too.
os.environ["MOMENT"] = "60"
done = run("compress", "tree", "out")
case(f"a moment ago: {said(done)}", counts(done) == {"compressed": 2})
write_back("tree/new.dcm")
# As if the clock had stood still.
of = os.stat("tree/new.dcm")
rewrite(lambda line: {**line, "ctime_ns": of.st_ctime_ns} if line["path"] == "new.dcm" and "ctime_ns" in line else line)
done = run("compress", "tree", "out")
case(f"a moment ago, and changed: {said(done)}", set(failures(done)) == {"new.dcm"} and "new.dcm" in opened())
write_back("tree/new.dcm")
del os.environ["MOMENT"]
time.sleep(SETTLED)
done = run("compress", "tree", "out")
case(f"a moment ago, later: {said(done)}", counts(done) == {"compared": 2} and opened() == {"old.dcm", "new.dcm"})
done = run("compress", "tree", "out")
case(f"a moment ago, the next night: {said(done)}", counts(done) == {"unchanged": 2} and opened() == set())

# The clock of this machine, or that of OUT's file system, may be behind that of TREE's.
fresh("a.dcm")
os.mkdir("out")
listed = manifest.Manifest(b"out", True)
job = each.Job("compress", b"tree", b"out", listed.token)


def noted(name: str) -> bool:
    """Whether the line of the file says what it is told apart by."""
    (line,) = each.do_batch(job, [b"a.dcm"])
    case(f"{name}: {line}", line["state"] == "compressed")
    return "ctime_ns" in line


case("clocks: a new file isn't known by its time", not noted("a new file"))
time.sleep(SETTLED)
case("clocks: nor while OUT's is behind", not noted("OUT's clock"))
os.utime("out/manifest.jsonl", ns=(9 << 60, 9 << 60))
case("clocks: then it is", noted("both clocks"))
real_time = time.time
time.time = lambda: real_time() - 3600
case("clocks: not while this machine's is behind", not noted("this machine's clock"))
time.time = real_time
listed.close()
os.utime("out/manifest.jsonl", ns=(9 << 60, 9 << 60))
done = run("compress", "tree", "out")
case(f"clocks: a run sets the manifest's time: {said(done)}", os.stat("out/manifest.jsonl").st_mtime < real_time() + 1)

# ---- a tree in which hardly anything has changed is gone through, and can be left

fresh(*names)
time.sleep(SETTLED)
case("slow: compressed", run("compress", "tree", "out").returncode == 0)
SLOW = """
import sys, time
from jlsrec.dicom import tree
real = tree.standing
def standing(path):
    time.sleep(1)
    return real(path)
tree.standing = standing
from jlsrec.dicom.__main__ import main
sys.exit(main())
"""
command = [sys.executable, "-W", "ignore", "-c", SLOW, "compress", "tree", "out", "--jobs", "1"]
slow = subprocess.Popen(command, stderr=subprocess.PIPE)
time.sleep(3)
begin = time.monotonic()
slow.send_signal(signal.SIGINT)
with contextlib.suppress(subprocess.TimeoutExpired):
    slow.wait(20)
took = time.monotonic() - begin
text = slow.stderr.read().decode()
slow.kill()
case(f"slow: INT ends it after {took:.1f} s: {text}", slow.returncode == 130 and took < 4)
case(f"slow: it says how to go on: {text}", "the same command goes on from here" in text)
end()
