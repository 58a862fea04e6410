"""A coded file's values by a decoder that isn't ours: GDCM's or DCMTK's.

GDCM reads several frames in colour wrongly and says nothing: it gives each frame's planes one after the other. Of these
its values are taken in that order.
"""

from __future__ import annotations

import errno
import os
import shutil
import signal
import subprocess
import tempfile
from collections.abc import Iterator

import numpy as np

from . import Refused
from .coded import Picture, front_of, picture_of, planar_of
from .elements import Left
from .places import Source

# What a file may take besides its frames, in bytes.
MARGIN = 1 << 20


def has(name: str) -> None:
    """Raises Refused if a decoder isn't there."""
    if name == "dcmtk" and shutil.which("dcmdjpls") is None:
        raise Refused("--second dcmtk wants dcmdjpls; apt-get install dcmtk has it")
    if name == "gdcm":
        try:
            import gdcm  # noqa: F401
        except ImportError:
            raise Refused("--second gdcm wants python3-gdcm; apt-get install python3-gdcm has it") from None


def frames_by(name: str, coded: Source) -> Iterator[np.ndarray]:
    """The values of each frame of a coded file. Raises Left if the decoder can't decode it."""
    picture = picture_of(front_of(coded))
    return by_gdcm(coded, picture) if name == "gdcm" else by_dcmtk(coded, picture)


def by_gdcm(coded: Source, picture: Picture) -> Iterator[np.ndarray]:
    """The frames' values by GDCM."""
    import gdcm

    gdcm.Trace.WarningOff()
    reader = gdcm.ImageReader()
    reader.SetFileName(f"/proc/{os.getpid()}/fd/{coded.number}")
    if not reader.Read():
        raise Left("GDCM can't decode it")
    buffer = reader.GetImage().GetBuffer()
    data = buffer.encode("utf-8", "surrogateescape") if isinstance(buffer, str) else bytes(buffer)
    if len(data) != picture.frames * picture.frame_size:
        raise Left(f"GDCM decodes {len(data)} bytes, and its frames take {picture.frames * picture.frame_size}")
    planar = 1 if picture.frames > 1 else 0
    for at in range(0, len(data), picture.frame_size):
        yield picture.array(data[at : at + picture.frame_size], planar)


def _check_space(room: str, picture: Picture) -> None:
    """Raises OSError if a folder can't take what DCMTK writes: then it isn't the file that is at fault."""
    there = os.statvfs(room)
    if there.f_bavail * there.f_frsize < picture.size + MARGIN:
        raise OSError(errno.ENOSPC, os.strerror(errno.ENOSPC), room)


def by_dcmtk(coded: Source, picture: Picture) -> Iterator[np.ndarray]:
    """The frames' values by DCMTK."""
    with tempfile.TemporaryDirectory() as room:
        raw = os.path.join(room, "raw.dcm")
        done = subprocess.run(
            ["dcmdjpls", f"/proc/{os.getpid()}/fd/{coded.number}", raw],
            stdin=subprocess.DEVNULL,
            stdout=subprocess.DEVNULL,
            stderr=subprocess.PIPE,
        )
        if done.returncode == -signal.SIGKILL:
            raise OSError(errno.EINTR, "dcmdjpls was killed")
        if done.returncode != 0:
            _check_space(room, picture)
            said = done.stderr.decode(errors="replace").strip().splitlines() or [f"status {done.returncode}"]
            raise Left(f"DCMTK can't decode it: {said[-1]}")
        with Source(os.fsencode(raw)) as file:
            front = front_of(file)
            if front.length != picture.size:
                raise Left(f"DCMTK decodes {front.length} bytes, and its frames take {picture.size}")
            for number in range(picture.frames):
                data = file.read(front.at + number * picture.frame_size, picture.frame_size)
                yield picture.array(data, planar_of(front))
