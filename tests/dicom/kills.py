"""Workers, clients and schedulers that are killed at drawn moments: nothing that has a name is torn.

The next run ends what one that was killed began.

    python3 kills.py [--long]
"""

from __future__ import annotations

import contextlib
import json
import os
import random
import shutil
import signal
import subprocess
import sys
import time
from pathlib import Path

import numpy as np

from cases import case, end
from jlsrec.dicom import each, places
from makes import Form

# How often is killed: of processes here, and by dask.
MOMENTS, DASK_MOMENTS = (100, 100) if "--long" in sys.argv else (5, 6)
FILES = 150
COMMAND = [sys.executable, "-W", "ignore", "-m", "jlsrec.dicom"]
drawn = random.Random(time.time_ns() if "--long" in sys.argv else 17)


def make_tree() -> None:
    values = np.random.default_rng(3).integers(0, 4096, (1, 200, 200))
    for number in range(FILES):
        folder = Path("tree", str(number % 7))
        folder.mkdir(parents=True, exist_ok=True)
        data = Form(np.roll(values, number) >> number % 5).data()
        (folder / f"{number}").write_bytes(data if number % 10 else b"no DICOM" + data)


def start(*words: str) -> subprocess.Popen:
    return subprocess.Popen([*COMMAND, *words], stderr=open("told", "wb"))


def told() -> str:
    return Path("told").read_text(errors="replace")


def ended(process: subprocess.Popen, seconds: float = 120) -> int | None:
    """The status of a process that ends in time, else None, and it is killed."""
    try:
        return process.wait(seconds)
    except subprocess.TimeoutExpired:
        process.kill()
        process.wait()
        return None


def files(root: str) -> dict[str, bytes]:
    """The files of a folder that have their names."""
    found = {}
    for folder, _, names in os.walk(root):
        for name in names:
            if not places.PART.fullmatch(name.encode()) and not name.endswith(".jsonl"):
                path = os.path.join(folder, name)
                found[os.path.relpath(path, root)] = Path(path).read_bytes()
    return found


def parts(root: str) -> list[str]:
    return [name for _, _, names in os.walk(root) for name in names if places.PART.fullmatch(name.encode())]


def children(of: int) -> list[int]:
    """The processes that work for one."""
    found = []
    for each in Path("/proc").iterdir():
        with contextlib.suppress(OSError, ValueError, IndexError):
            fields = (each / "stat").read_text().rpartition(") ")[2].split()
            words = (each / "cmdline").read_bytes()
            if fields[0] != "Z" and int(fields[1]) == of and b"spawn_main" in words:
                found.append(int(each.name))
    return found


def is_sound(name: str) -> None:
    """That what has a name in OUT is whole, and what has a line there is there."""
    made = files("out") if os.path.exists("out") else {}
    torn = [path for path, data in made.items() if data != whole[path]]
    case(f"{name}: nothing is torn {torn}", not torn)
    if os.path.exists("out/manifest.jsonl"):
        rows = Path("out/manifest.jsonl").read_bytes().split(b"\n")[1:-1]
        named = [line["path"] for line in map(json.loads, rows) if line["state"] in ("compressed", "copied")]
        case(f"{name}: each line has its file", set(named) <= set(made))
        case(f"{name}: each file has one line", len(set(named)) == len(named))


def is_whole(name: str, status: int | None) -> None:
    """That all is there after a run that wasn't disturbed."""
    case(f"{name}: the run ends well: {status} {told()}", status == 0)
    is_sound(name)
    case(f"{name}: all is there", files("out") == whole and not parts("out"))
    rows = Path("out/manifest.jsonl").read_bytes().splitlines()[1:]
    case(f"{name}: all have lines", {json.loads(row)["path"] for row in rows} == set(whole))


def moment() -> None:
    time.sleep(drawn.uniform(0, seconds))


def kill(pid: int, number: int = signal.SIGKILL) -> None:
    with contextlib.suppress(ProcessLookupError):
        os.kill(pid, number)


make_tree()
begin = time.monotonic()
case("undisturbed", ended(start("compress", "tree", "out", "--jobs", "2")) == 0)
seconds = time.monotonic() - begin
whole = files("out")
case("and verified", ended(start("verify", "out", "tree", "--jobs", "2")) == 0)

# ---- processes here

for number in range(MOMENTS):
    shutil.rmtree("out")
    kind = ("a worker", "the client", "all workers", "INT", "TERM")[number % 5]
    name = f"{number}, {kind}"
    client = start("compress", "tree", "out", "--jobs", "2")
    moment()
    workers = children(client.pid)
    if kind in ("a worker", "all workers"):
        for worker in workers if kind == "all workers" else workers[:1]:
            kill(worker)
        is_whole(name, ended(client))
        continue
    kill(client.pid, {"INT": signal.SIGINT, "TERM": signal.SIGTERM}.get(kind, signal.SIGKILL))
    status = ended(client)
    if kind != "the client":
        # Before it listens, and after its end, a signal ends it as any program.
        case(f"{name}: it ends: {status} {told()}", status in (0, 130, -signal.SIGINT, -signal.SIGTERM, 1))
        case(f"{name}: and says how to go on", status != 130 or "the same command goes on from here" in told())
        case(f"{name}: nothing half made is left", status != 130 or not parts("out"))
    for _ in range(100):
        left = [worker for worker in workers if os.path.exists(f"/proc/{worker}")]
        if not left:
            break
        time.sleep(0.05)
    case(f"{name}: its workers end", not left)
    is_sound(name)
    is_whole(f"{name}, then", ended(start("compress", "tree", "out", "--jobs", "2")))

# ---- the other commands

for command, words in (("restore", ("out", "back")), ("verify", ("out", "tree"))):
    for number in range(max(MOMENTS // 5, 1)):
        shutil.rmtree("back", ignore_errors=True)
        client = start(command, *words, "--jobs", "2")
        moment()
        kill(client.pid)
        ended(client)
        made = files("back") if os.path.exists("back") else {}
        case(
            f"{command} {number}: nothing is torn",
            all(data == Path("tree", path).read_bytes() for path, data in made.items()),
        )
        status = ended(start(command, *words, "--jobs", "2"))
        case(f"{command} {number}, then: {status} {told()}", status == 0)
        if command == "restore":
            case(f"{command} {number}: all is back", files("back") == files("tree") and not parts("back"))
case("a verification leaves nothing", sorted(os.listdir("out")) == [*map(str, range(7)), "manifest.jsonl"])

# ---- a file of which each worker dies

Path("sitecustomize.py").write_text(
    """
import os, sys
if any("spawn_main" in word for word in sys.orig_argv):
    from jlsrec.dicom import places
    real = places.Source.__init__
    def __init__(self, path):
        if os.path.basename(path) == b"16":
            os.kill(os.getpid(), 9)
        real(self, path)
    places.Source.__init__ = __init__
"""
)
shutil.rmtree("out")
environment = {**os.environ, "PYTHONPATH": f"{os.getcwd()}:{os.environ['PYTHONPATH']}"}
command = [*COMMAND, "compress", "tree", "out", "--jobs", "2", "--report", "report.json"]
status = ended(subprocess.Popen(command, stderr=open("told", "wb"), env=environment))
case(f"a deadly file: {status} {told()}", status == 1 and "2/16: 2 workers died of it" in told())
case(
    "a deadly file: all others are there",
    files("out") == {path: data for path, data in whole.items() if path != "2/16"},
)
failures = json.loads(Path("report.json").read_text())["failures"]
case(f"a deadly file: the report {failures}", failures == [{"path": "2/16", "why": "2 workers died of it"}])
os.unlink("sitecustomize.py")
is_whole("a deadly file, then", ended(start("compress", "tree", "out", "--jobs", "2")))

# ---- dask


class Cluster:
    """A scheduler and its workers."""

    def __init__(self) -> None:
        self.workers: list[subprocess.Popen] = []
        self.scheduler: subprocess.Popen | None = None

    def begin(self) -> None:
        """Has a scheduler, and two workers."""
        self.end()
        with contextlib.suppress(FileNotFoundError):
            os.unlink("scheduler.json")
        self.scheduler = self._start(
            "scheduler", "--host", "127.0.0.1", "--port", "0", "--scheduler-file", "scheduler.json"
        )
        while not os.path.exists("scheduler.json"):
            time.sleep(0.05)
        self.address = json.loads(Path("scheduler.json").read_text())["address"]
        self.more()

    def more(self) -> None:
        """Has two workers that live."""
        self.workers = [worker for worker in self.workers if worker.poll() is None]
        while len(self.workers) < 2:
            words = (
                "--nthreads",
                "1",
                "--no-nanny",
                "--local-directory",
                f"{os.getcwd()}/dask",
                "--death-timeout",
                "60",
            )
            self.workers.append(self._start("worker", self.address, *words))

    def _start(self, kind: str, *words: str) -> subprocess.Popen:
        command = [sys.executable, "-W", "ignore", "-m", f"distributed.cli.dask_{kind}", "--no-dashboard", *words]
        return subprocess.Popen(command, stdout=subprocess.DEVNULL, stderr=subprocess.DEVNULL)

    def end(self) -> None:
        for each in [*self.workers, *([self.scheduler] if self.scheduler else [])]:
            each.kill()
            each.wait()
        self.workers = []


try:
    import distributed  # noqa: F401
except ImportError:
    print("dask: not asked, since python3-distributed isn't there; apt-get install python3-distributed has it")
    end()

cluster = Cluster()
try:
    cluster.begin()
    shutil.rmtree("out")
    begin = time.monotonic()
    is_whole("dask", ended(start("compress", "tree", "out", "--dask", cluster.address)))
    seconds = time.monotonic() - begin
    case(f"dask: nothing else is said: {told()}", all(line.startswith("compress: ") for line in told().splitlines()))
    for command, words in (("restore", ("out", "back")), ("verify", ("out", "tree"))):
        shutil.rmtree("back", ignore_errors=True)
        status = ended(start(command, *words, "--dask", cluster.address))
        case(f"dask: {command} {status} {told()}", status == 0)
    for number in range(DASK_MOMENTS):
        shutil.rmtree("out")
        kind = ("a worker", "the client", "the scheduler")[number % 3]
        name = f"dask {number}, {kind}"
        client = start("compress", "tree", "out", "--dask", cluster.address)
        moment()
        if kind == "a worker":
            cluster.workers[0].kill()
            cluster.workers[0].wait()
            cluster.more()
            is_whole(name, ended(client))
            continue
        if kind == "the client":
            client.kill()
            ended(client)
        else:
            cluster.scheduler.kill()
            cluster.scheduler.wait()
            status = ended(client)
            said = told()
            is_told = "the same command goes on from here" in said or "no scheduler at" in said
            case(
                f"{name}: it is told of: {status} {said}",
                status == 0 or status == 1 and is_told and "Traceback" not in said,
            )
            cluster.begin()
        is_sound(name)
        is_whole(f"{name}, then", ended(start("compress", "tree", "out", "--dask", cluster.address)))
    case("verified", ended(start("verify", "out", "tree", "--jobs", "2")) == 0)

    # A worker that hasn't the package, one that sees another OUT, and a scheduler that isn't there.
    shutil.rmtree("out")
    cluster.begin()
    for worker in cluster.workers:
        worker.kill()
        worker.wait()
    earlier = os.environ.pop("PYTHONPATH")
    cluster.more()
    os.environ["PYTHONPATH"] = earlier
    status = ended(start("compress", "tree", "out", "--dask", cluster.address))
    case(f"no package: {status} {told()}", status == 1 and "a worker can't work at all: ModuleNotFoundError" in told())
    answered = each.do_batch(each.Job("compress", b"tree", b"out", "another"), [b"0/7"])
    case(f"another OUT: {answered}", answered[0]["why"] == "this worker doesn't see OUT and its manifest")
    cluster.end()
    status = ended(start("compress", "tree", "out", "--dask", cluster.address))
    case(f"no scheduler: {status} {told()}", status == 1 and told().startswith("compress: there is no scheduler at "))
finally:
    cluster.end()
end()
