"""Sheets and the window at the edges: nothing is written over unless that is asked for, and never a recording.

    python3 sheets.py
"""

from __future__ import annotations

import importlib.util
import os
import shutil
import subprocess
import sys
from pathlib import Path

import numpy as np

import jlsrec
from cases import case, end, screen

frames = [np.full((20, 30), 40 * k, np.uint16) for k in range(6)]
whole = b"".join(jlsrec.encode(frame, 4095) for frame in frames)


def run(*words: str, **named) -> subprocess.CompletedProcess:
    """Runs the package as a program."""
    return subprocess.run([sys.executable, "-m", "jlsrec", *words], capture_output=True, text=True, **named)


def refused(name: str, text: str, *words: str) -> None:
    """That a sheet is refused with this text, and changes nothing in this folder."""
    before = {each: each.read_bytes() for each in Path(".").iterdir()}
    done = run("sheet", *words)
    case(f"{name}: {done.returncode}, {done.stderr}", done.returncode == 1 and text in done.stderr)
    case(f"{name}: no traceback", "Traceback" not in done.stderr)
    case(f"{name}: nothing is changed", {each: each.read_bytes() for each in Path(".").iterdir()} == before)


os.mkdir("sheets")
os.chdir("sheets")
Path("r.jls").write_bytes(whole)
Path("other.jls").write_bytes(whole[: len(whole) // 2])
Path("none.jls").write_bytes(b"")
Path("text.jls").write_bytes(b"no recording")
os.link("r.jls", "hard.jls")
os.symlink("r.jls", "soft.jls")
Path("mine.png").write_bytes(b"mine")

for replace in ([], ["--replace"]):
    for out in ("r.jls", "./r.jls", os.path.abspath("r.jls"), "../sheets/r.jls", "hard.jls", "soft.jls"):
        refused(f"{out} from r.jls {replace}", out, "r.jls", "-o", out, *replace)
    refused(f"r.jls from a link to it {replace}", "r.jls", "soft.jls", "-o", "r.jls", *replace)
    refused(f"a missing recording {replace}", "No such file", "nowhere.jls", "-o", "new.png", *replace)
refused("no frame --replace", "none.jls: no frames", "none.jls", "-o", "mine.png", "--replace")
refused("no recording --replace", "text.jls: no frames: no SOI", "text.jls", "-o", "mine.png", "--replace")
refused("a file that is there", "mine.png: File exists", "r.jls", "-o", "mine.png")
refused("another recording", "other.jls: File exists", "r.jls", "-o", "other.jls")
refused("no frame", "none.jls: no frames", "none.jls", "-o", "new.png")
refused("no folder", "nowhere/new.png: No such file", "r.jls", "-o", "nowhere/new.png")

done = run("sheet", "r.jls", "-o", "new.png")
case(f"a sheet is made: {done.stderr}", done.returncode == 0)
case("as a PNG file", Path("new.png").read_bytes()[:8] == b"\x89PNG\r\n\x1a\n")
done = run("sheet", "r.jls", "-o", "mine.png", "--replace")
case(f"and replaces one: {done.stderr}", done.returncode == 0)
case("by the same page", Path("mine.png").read_bytes() == Path("new.png").read_bytes())
case("nothing is beside them", not list(Path(".").glob("*.part*")))
case("and the recording is as it was", Path("r.jls").read_bytes() == whole)

Path("mine.png").write_bytes(b"mine")
for words in (["full.png"], ["mine.png", "--replace"]):
    limited = ["bash", "-c", 'ulimit -f 1; exec "$0" "$@"', sys.executable, "-m", "jlsrec"]
    drawn = np.random.default_rng(1).integers(0, 256, (300, 400)).astype(np.uint8)
    Path("r.jls").write_bytes(jlsrec.encode(drawn))
    done = subprocess.run([*limited, "sheet", "r.jls", "-o", *words], capture_output=True, text=True)
    case(f"a full disk: {done.stderr}", done.returncode == 1 and f"{words[0]}: File too large" in done.stderr)
case("a full disk: nothing is left", not Path("full.png").exists() and not list(Path(".").glob("*.part*")))
case("a full disk: the earlier file stands", Path("mine.png").read_bytes() == b"mine")

# ---- the window, over a recording that is emptied

window = """
import os, sys, tkinter
from jlsrec.view import Window
root = tkinter.Tk()
shown = Window(root, sys.argv[1:], 10)
shown.go(2)
os.truncate(sys.argv[1], 0)
shown.go(4)
shown.by_samples()
root.update()
print(shown.panes[0].said.get())
shown.go(3)
print(shown.panes[1].said.get())
"""
if shutil.which("Xvfb") is None or importlib.util.find_spec("tkinter") is None:
    print("the window over a recording that is emptied: not tested, since Xvfb or tkinter isn't there")
else:
    Path("emptied.jls").write_bytes(whole)
    Path("r.jls").write_bytes(whole)
    server, shown = screen()
    command = [sys.executable, "-c", window, "emptied.jls", "r.jls"]
    done = subprocess.run(command, capture_output=True, text=True, env=shown)
    server.terminate()
    server.wait()
    said = (done.stdout.splitlines() + ["", ""])[:2]
    case(f"the window goes on: {done.returncode}, {done.stderr[-300:]}", done.returncode == 0 and done.stderr == "")
    case(f"and says that the file has shrunk: {said[0]}", "shrunk" in said[0])
    case(f"the other is shown: {said[1]}", said[1].startswith("frame 3 of 6, 30 by 20"))

end()
