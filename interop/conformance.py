"""T.87's conformance streams (8, Annex E) that are lossless with a scan for each component: decoded they are the standard's
pictures, and the scans coded of these are the standard's, byte for byte.

    python3 conformance.py PROGRAM FOLDER

FOLDER has the streams and the pictures, as CharLS's sources have them (test/conformance). T8NDE0 has parameters of its own,
which the program's commands don't take: it is coded by the Python package, if numpy is there.
"""

from __future__ import annotations

import subprocess
import sys
from pathlib import Path

PICTURES = {"t8c0e0": "test8.ppm", "t8nde0": "test8bs2.pgm", "t16e0": "test16.pgm"}
program, folder = sys.argv[1], Path(sys.argv[2])
passed = failed = 0


def case(name: str, holds: bool) -> None:
    global passed, failed
    passed, failed = passed + holds, failed + (not holds)
    if not holds:
        print(f"FAILED {name}")


def output(*words: str | Path) -> bytes:
    done = subprocess.run([program, *words], stdout=subprocess.PIPE, stderr=subprocess.DEVNULL, stdin=subprocess.DEVNULL)
    return done.stdout if done.returncode == 0 else b""


def scans(codestream: bytes) -> list[bytes]:
    """The data of the scans: from a scan header's end up to the next marker (T.87 C.1)."""
    found, at = [], 2
    while codestream[at : at + 1] == b"\xff" and codestream[at + 1] != 0xD9:
        is_scan = codestream[at + 1] == 0xDA
        at += 2 + int.from_bytes(codestream[at + 2 : at + 4], "big")
        if is_scan:
            end = at
            while not (codestream[end] == 0xFF and codestream[end + 1] >= 0x80):
                end += 1
            found.append(codestream[at:end])
            at = end
    return found


def coded(stream: str, picture: Path) -> bytes | None:
    """The codestream that is made of a picture with a stream's parameters."""
    if stream != "t8nde0":
        return output("code", picture)
    try:
        import jlsrec
        import numpy as np
    except ImportError:
        print("t8nde0: not coded, since python3 has no numpy here; apt-get install python3-numpy has it")
        return None
    heading, size, maxval, samples = picture.read_bytes().split(b"\n", 3)
    columns, rows = map(int, size.split())
    return jlsrec.encode(np.frombuffer(samples, np.uint8).reshape(rows, columns), int(maxval), (9, 9, 9, 31))


for stream, name in PICTURES.items():
    picture, codestream = folder / name, (folder / f"{stream}.jls").read_bytes()
    case(f"{stream}: it is decoded to {name}", output("play", folder / f"{stream}.jls") == picture.read_bytes())
    made = coded(stream, picture)
    if made is not None:
        wanted = scans(codestream)
        case(f"{stream}: {len(wanted)} scans", len(wanted) == (3 if name.endswith("ppm") else 1))
        case(f"{stream}: the same scans", scans(made) == wanted)
        case(f"{stream}: the same codestream", made == codestream)
print(f"{passed} passed, {failed} failed")
sys.exit(failed > 0)
