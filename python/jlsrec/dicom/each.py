"""What is done with one file of a tree: it is compressed, restored or verified.

Each answers a line, a dictionary: of compress what the manifest says of the file; else its state alone, and why it
failed. A worker calls `do_batch` or `do_each`; nothing that happens to a file keeps the next from being done.
"""

from __future__ import annotations

import contextlib
import errno
import hashlib
import os
import stat
import time
from collections.abc import Callable, Iterable, Iterator, Sequence
from dataclasses import dataclass
from typing import Any, Optional, Union

import numpy as np

from .._files import sync_folder
from . import manifest, second, strictly
from .coded import Damaged, Origin, Plan, raw_chunks, sum_of
from .elements import Left
from .places import Changed, Part, Source, Taken, make_folders, standing
from .verified import is_settled, stamp

Line = dict[str, Any]
# Errors by which no other file can be written either.
FULL = {errno.ENOSPC, errno.EDQUOT}


# What has happened to a file of OUT that isn't what the manifest says.
DAMAGED = "OUT's file was damaged or replaced"


class Differs(Damaged):
    """Why bytes aren't those of a file."""


@dataclass(frozen=True)
class Job:
    """What a run does: with which trees, and by what manifest it knows that it sees OUT."""

    command: str
    tree: Optional[bytes]
    out: bytes
    token: str
    second: Optional[str] = None
    # Whether JPEG-LS lossless files are to be strict: in TREE and as they are made, or those of OUT.
    strict: bool = False


def do_batch(job: Job, items: Sequence[Union[bytes, Line]]) -> list[Line]:
    """The lines of files: of their names, or of what the manifest says of them."""
    return list(do_each(job, items))


def do_each(job: Job, items: Sequence[Union[bytes, Line]]) -> Iterator[Line]:
    """The same lines, each once its file is done."""
    sees_out = manifest.token_in(job.out) == job.token
    now = manifest.time_in(job.out)
    for item in items:
        yield _do(job, item, now) if sees_out else failed(item, "this worker doesn't see OUT and its manifest")


def _do(job: Job, item: Union[bytes, Line], now: float) -> Line:
    try:
        if isinstance(item, bytes):
            return {**manifest.named(item), **compress(job, item, now)}
        line = restore(job, item) if job.command == "restore" else verify(job, item)
        return {**manifest.named(manifest.path_in(item)), **line}
    except (Changed, Damaged) as why:
        return failed(item, str(why))
    except Taken:
        return {**failed(item, "there is another file of its name, which was left as it is"), "is_taken": True}
    except OSError as error:
        line = failed(item, error.strerror or str(error))
        return {**line, "is_full": True} if error.errno in FULL else line
    except MemoryError:
        return failed(item, "there isn't memory enough")
    except Exception as error:
        return failed(item, f"{type(error).__name__}: {error}")


def failed(item: Union[bytes, Line], why: str) -> Line:
    """The line of a file that nothing was done with."""
    path = item if isinstance(item, bytes) else manifest.path_in(item)
    return {**manifest.named(path), "state": "failed", "why": why}


def compress(job: Job, path: bytes, now: float) -> Line:
    """Compresses a file into OUT, or copies it there, and compares what then stands there with it, byte for byte.

    The line says what a later run tells the file by, if any change of it from now on would be seen by that.
    """
    assert job.tree is not None
    place = os.path.join(job.out, path)
    make_folders(job.out, os.path.dirname(path))
    with Source(os.path.join(job.tree, path)) as source:
        _clear(place, source)
        line = _coded_or_copied(source, place, job)
        if job.strict:
            line["strict"] = True
        if is_settled(source.stat, now):
            line.update(ctime_ns=source.stat.st_ctime_ns, inode=source.stat.st_ino)
        return line


def _coded_or_copied(source: Source, place: bytes, job: Job) -> Line:
    try:
        return _coded(source, place, job)
    except Left as why:
        text = str(why)
        if job.strict:
            strictly.check(source)
        try:
            return _put(
                source,
                place,
                lambda part: _copy(source, part),
                lambda path, written: copied_line(path, source, text),
            )
        except Taken:
            raise Damaged(f"{text}; there is another file of its name, which was left as it is") from None


def _coded(source: Source, place: bytes, job: Job) -> Line:
    """Puts the coded file in its place. Raises Left if the source is to be copied.

    A copy that stands there is as good: a run that was interrupted made it, of what its second decoder couldn't read.
    """
    plan = Plan(source)
    if standing(place) is not None:
        plan.check()
    try:
        return _put(
            source,
            place,
            lambda part: plan.write(part.write, part.write_at),
            lambda path, written: coded_line(path, plan, job, written),
        )
    except Taken:
        try:
            line = copied_line(place, source, "an earlier run copied it")
        except (Damaged, OSError):
            raise Taken from None
        source.check()
        sync_folder(os.path.dirname(place))
        return {**line, "stood": True}


def _clear(place: bytes, source: Source) -> None:
    """Removes an empty file: where there are no hard links, a run that ended may have left it in a file's place."""
    there = standing(place)
    if there is not None and stat.S_ISREG(there.st_mode) and there.st_size == 0 and source.size > 0:
        os.unlink(place)


def _put(
    source: Source,
    place: bytes,
    write: Callable[[Part], Optional[str]],
    check: Callable[[bytes, Optional[str]], Line],
) -> Line:
    """Puts a file in its place once it is checked. What an earlier run put there is checked alike; the line says so."""
    if standing(place) is None:
        with Part(place) as part:
            written = write(part)
            part.sync(source.stat)
            try:
                line = check(part.path, written)
            finally:
                # If it differs, that is the first reason.
                source.check()
            try:
                part.settle()
                return line
            except Taken:
                pass
    try:
        line = check(place, None)
    except strictly.NotStrict:
        raise
    except (Damaged, OSError):
        raise Taken from None
    source.check()
    sync_folder(os.path.dirname(place))
    return {**line, "stood": True}


def _copy(source: Source, part: Part) -> None:
    for chunk in source.chunks():
        part.write(chunk)


def coded_line(path: bytes, plan: Plan, job: Job, written: Optional[str]) -> Line:
    """The line of a coded file, of which every byte of its source was made again and compared.

    written is the SHA-256 of what was written after the table of its frames, if that is known.
    """
    values, source = hashlib.sha256(), plan.source
    with Source(path) as coded:
        plan.check_coded(coded, written)
        made = compared(raw_chunks(coded, plan.origin, lambda array: values.update(array)), source)
        if job.strict:
            strictly.check(coded)
        if job.second is not None:
            _ask_second(job.second, coded, plan)
        line = {
            "state": "compressed",
            "frames": plan.picture.frames,
            **_sums(source, coded, made),
            "sha256_values": values.hexdigest(),
            "syntax": plan.origin.syntax,
            "pixel_vr": plan.origin.vr,
        }
    if plan.picture.colors == 3:
        line["planar"] = plan.planar
    if job.second is not None:
        line["second"] = job.second
    return line


def copied_line(path: bytes, source: Source, why: str) -> Line:
    """The line of a file that was copied, and compared with its source."""
    with Source(path) as copy:
        made = compared(copy.chunks(), source)
        return {"state": "copied", "why": why, **_sums(source, copy, made)}


def _sums(source: Source, made: Source, sha256: str) -> Line:
    return {
        "bytes_before": source.size,
        "bytes_after": made.size,
        "mtime_ns": source.stat.st_mtime_ns,
        "sha256_before": sha256,
        "sha256": sum_of(made),
    }


def compared(chunks: Iterable[bytes], source: Source) -> str:
    """The SHA-256 of bytes that were compared with a file's. Raises Differs if they differ."""
    sum, at = hashlib.sha256(), 0
    for chunk in chunks:
        if at + len(chunk) > source.size or source.read(at, len(chunk)) != chunk:
            raise Differs("it has other bytes or values than its source")
        sum.update(chunk)
        at += len(chunk)
    if at != source.size:
        raise Differs("it has fewer bytes than its source")
    return sum.hexdigest()


def _ask_second(name: str, coded: Source, plan: Plan) -> None:
    """Raises Damaged if another decoder reads other values than the source has, and Left if it can't read the file."""
    for number, (data, theirs) in enumerate(zip(plan.frames(), second.frames_by(name, coded))):
        if not np.array_equal(plan.picture.array(data, plan.planar), theirs):
            raise Damaged(f"{name} reads other values in frame {number}")


def restore(job: Job, line: Line) -> Line:
    """Makes a file of the manifest again in the tree, byte for byte as it was."""
    assert job.tree is not None
    path = manifest.path_in(line)
    place = os.path.join(job.tree, path)
    with _opened(job.out, path, "OUT") as made:
        there = standing(place)
        if there is not None:
            _same_sum(place, line["sha256_before"])
            return {"state": "there", "bytes_before": made.size, "bytes_after": there.st_size}
        make_folders(job.tree, os.path.dirname(path))
        with Part(place) as part:
            sum = hashlib.sha256()
            for chunk in _source_chunks(made, line):
                sum.update(chunk)
                part.write(chunk)
            if sum.hexdigest() != line["sha256_before"]:
                raise Damaged(f"what comes back has another sum than the manifest says: {DAMAGED}")
            part.sync(made.stat)
            _same_sum(part.path, line["sha256_before"])
            try:
                part.settle()
            except Taken:
                # Another program may have put the same file there meanwhile.
                _same_sum(place, line["sha256_before"])
                return {"state": "there", "bytes_before": made.size, "bytes_after": line["bytes_before"]}
        return {"state": "restored", "bytes_before": made.size, "bytes_after": line["bytes_before"]}


def _opened(root: bytes, path: bytes, name: str) -> Source:
    """A file of one side. Raises Damaged if it isn't there."""
    try:
        return Source(os.path.join(root, path))
    except FileNotFoundError:
        raise Damaged(f"{name} hasn't it any more") from None


def _same_sum(path: bytes, sha256: str) -> None:
    """Raises Taken if there is a file of another sum."""
    with Source(path) as file:
        if sum_of(file) != sha256:
            raise Taken


def _source_chunks(made: Source, line: Line, see=None) -> Iterator[bytes]:
    """The bytes of the file that one of OUT was made of."""
    if line["state"] != "compressed":
        return made.chunks()
    return raw_chunks(made, Origin(line["syntax"], line["pixel_vr"], line.get("planar", 0)), see)


def verify(job: Job, line: Line) -> Line:
    """Looks at a file of OUT: its sum, its values' and its source's, and its bytes if there is the tree.

    The answer has a stamp of the files, if none has changed meanwhile or a moment ago.
    """
    path = manifest.path_in(line)
    with contextlib.ExitStack() as opened:
        made = opened.enter_context(_opened(job.out, path, "OUT"))
        source = None if job.tree is None else opened.enter_context(_opened(job.tree, path, "the tree"))
        files = [file for file in (made, source) if file is not None]
        now = time.time()
        are_settled = all(is_settled(file.stat, now) for file in files)
        _compare_sums(made, source, line)
        if job.strict:
            strictly.check(made)
        found = {"state": "verified", "bytes_before": line["bytes_before"], "bytes_after": made.size}
        if are_settled and not any(file.has_changed() for file in files):
            found["stamp"] = stamp(line, [file.stat for file in files])
        return found


def _compare_sums(made: Source, source: Optional[Source], line: Line) -> None:
    """Raises Damaged if a file of OUT, its values or its source aren't what the manifest or the tree's file says."""
    values = hashlib.sha256()
    if made.size != line["bytes_after"] or sum_of(made) != line["sha256"]:
        raise Damaged(f"it hasn't the sum that the manifest says: {DAMAGED}")
    chunks = _source_chunks(made, line, lambda array: values.update(array))
    if source is None:
        sum = hashlib.sha256()
        for chunk in chunks:
            sum.update(chunk)
        before = sum.hexdigest()
    else:
        try:
            before = compared(chunks, source)
        except Differs:
            raise Damaged("the tree's file isn't what was compressed; OUT has it as it was then") from None
    if before != line["sha256_before"]:
        raise Damaged("its source's sum isn't that of the manifest")
    if line["state"] == "compressed" and values.hexdigest() != line["sha256_values"]:
        raise Damaged("its values' sum isn't that of the manifest")
