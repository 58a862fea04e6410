"""A tree of DICOM files compressed into another one, restored and verified, each file for itself.

A tree that is read is never written to, and no existing file is replaced. What a run has done stays, however it ends:
a file gets its name once it is on the disk and was compared, and its line in the manifest after that. So the next run
of the same words goes on, and takes up a file that has no line yet if it is what it would have made.
"""

from __future__ import annotations

import contextlib
import errno
import fcntl
import itertools
import os
import queue
import signal
import stat
import threading
import time
from collections.abc import Iterator, Sequence
from dataclasses import dataclass
from typing import Any, Callable, Optional, Union

from .._files import sync_folder
from . import Refused, second
from .each import DAMAGED, Job, Line, failed
from .known import Kept, Known
from .manifest import GONE, KEPT, NAME, Manifest, named, path_in, row_of
from .places import PART, make_folders, shown, standing
from .progress import Progress
from .verified import Verified
from .work import Dask, Lost, Processes, Workers, run

# How many files, and of how many bytes, a worker gets at a time: a process here, and a worker of a scheduler.
BATCH_FILES, DASK_FILES = 16, 64
BATCH_BYTES = 1 << 26
INTERRUPTED = 130
UNNAMED = "the manifest doesn't name it; if a run of compress was ended, the same command takes it up"
# For how many seconds files may be looked at before what is on its way is seen to.
EVERY = 0.1


@dataclass(frozen=True)
class Words:
    """What a command was given."""

    command: str
    out: bytes
    tree: Optional[bytes]
    jobs: int
    dask: Optional[str]
    second: Optional[str]
    report: Optional[str]
    reread: bool = False
    strict: bool = False
    # What is to be restored, by its names below OUT; all if none are named.
    parts: Sequence[bytes] = ()


@dataclass(frozen=True)
class Entry:
    """What a folder has: a name below the tree, what it is, and why it can't be had."""

    path: bytes
    stat: Optional[os.stat_result]
    why: str = ""

    @property
    def is_folder(self) -> bool:
        """Whether it is a folder; one that `walk` answers has nothing."""
        return self.stat is not None and stat.S_ISDIR(self.stat.st_mode)

    @property
    def is_file(self) -> bool:
        """Whether it is a file, and not one that a run left before it was whole."""
        is_regular = self.stat is not None and stat.S_ISREG(self.stat.st_mode)
        return is_regular and not PART.fullmatch(os.path.basename(self.path))


def walk(root: bytes, apart: Optional[os.stat_result] = None) -> Iterator[Entry]:
    """All files, links and empty folders of a tree, folder by folder, by their names. No link is followed.

    Raises Refused at a folder that is to be apart, and is in the tree by another name, as a mount makes one.
    """
    waiting = [_found(root, b"")]
    while waiting:
        below = next(waiting[-1], None)
        if below is None:
            waiting.pop()
        elif not below.is_folder:
            yield below
        else:
            if apart is not None and below.stat is not None and os.path.samestat(below.stat, apart):
                raise Refused(f"{shown(os.path.join(root, below.path))}: it is OUT by another name")
            try:
                found = _found(root, below.path)
            except OSError as error:
                yield Entry(below.path, None, error.strerror or str(error))
                continue
            first = next(found, None)
            if first is None:
                yield below
            else:
                waiting.append(itertools.chain([first], found))


def _found(root: bytes, path: bytes) -> Iterator[Entry]:
    """What a folder has, by its names."""
    with os.scandir(os.path.join(root, path) if path else root) as found:
        entries = sorted(found, key=lambda entry: entry.name)
    return (_entry(os.path.join(path, each.name), each) for each in entries)


def _entry(path: bytes, of: os.DirEntry[bytes]) -> Entry:
    try:
        return Entry(path, of.stat(follow_symlinks=False))
    except OSError as error:
        return Entry(path, None, error.strerror or str(error))


def each_below(root: bytes) -> Iterator[os.DirEntry[bytes]]:
    """All that is below a folder, in any order, and not looked at any closer. What can't be read is passed over."""
    waiting = [root]
    while waiting:
        with contextlib.suppress(OSError), os.scandir(waiting.pop()) as found:
            for entry in found:
                if entry.is_dir(follow_symlinks=False):
                    waiting.append(entry.path)
                yield entry


class Listing(threading.Thread):
    """A tree's entries, found ahead of those who take them, so that it is known how many there are."""

    def __init__(self, root: bytes, out: bytes, progress: Progress) -> None:
        super().__init__(daemon=True)
        self._root, self._out, self._progress = root, os.stat(out), progress
        self._queue: queue.SimpleQueue[Union[Entry, BaseException, None]] = queue.SimpleQueue()

    def run(self) -> None:
        try:
            for entry in walk(self._root, apart=self._out):
                self._progress.files += not entry.is_folder
                self._progress.bytes += entry.stat.st_size if entry.is_file else 0
                self._queue.put(entry)
            self._progress.is_counted = True
            self._queue.put(None)
        except BaseException as error:
            self._queue.put(error)

    def entries(self) -> Iterator[Optional[Entry]]:
        """The entries; None where the next one is yet to be found."""
        while True:
            try:
                entry = self._queue.get(timeout=0.1)
            except queue.Empty:
                yield None
                continue
            if entry is None:
                return
            if isinstance(entry, BaseException):
                raise entry
            yield entry


class Run:
    """A command at work: its workers, its progress, and whether it was stopped."""

    def __init__(self, words: Words) -> None:
        self.words = words
        self.progress = Progress(words.command)
        self.is_stopped = False
        # Why it was stopped, and whether it was by a signal.
        self.why = ""
        self.status = 0
        self._due = time.monotonic() + EVERY

    def stop(self, why: str, status: int = 1) -> None:
        """Has no further file be begun."""
        if not self.is_stopped:
            self.is_stopped, self.why, self.status = True, why, status

    def workers(self) -> Workers:
        """Those that the words ask for."""
        if self.words.dask is None:
            return Processes(self.words.jobs)
        return Dask(self.words.dask, self.progress.say)

    def batched(self, items: Iterator[Optional[tuple[Any, int]]]) -> Iterator[Sequence[Any]]:
        """Items with their bytes in batches; an empty one where there is none yet."""
        most = BATCH_FILES if self.words.dask is None else DASK_FILES
        batch: list[Any] = []
        count = 0
        for item in items:
            if self._look():
                return
            if item is not None:
                batch.append(item[0])
                count += item[1]
            if item is None or len(batch) == most or count >= BATCH_BYTES:
                yield batch
                batch, count = [], 0
        if batch:
            yield batch

    def work(self, job: Job, items: Iterator[Optional[tuple[Any, int]]], done: Callable[[list[Line]], None]) -> None:
        """Has all items done, as far as that goes."""
        workers = self.workers()
        with self._until_signalled():
            try:
                run(workers, job, self.batched(items), self._counting(done), self._look)
            except Lost as why:
                self.stop(str(why))
            finally:
                workers.close()

    def _counting(self, done: Callable[[list[Line]], None]) -> Callable[[list[Line]], None]:
        def counted(lines: list[Line]) -> None:
            if any([line.pop("is_full", False) for line in lines]):
                self.stop("there is no more space")
            try:
                done(lines)
            except OSError as error:
                self.stop(f"{error.strerror or error}: no line can be added to the manifest")
                self.progress.unnoted += sum(line["state"] in KEPT for line in lines)
            for line in lines:
                # What an earlier run put there wasn't made by this one.
                self.count({**line, "state": "compared"} if line.get("stood") else line)

        return counted

    def count(self, line: Line) -> None:
        """Counts a file."""
        self.progress.add(line, shown(path_in(line)))

    def _look(self) -> bool:
        self.progress.tell()
        return self.is_stopped

    def is_due(self) -> bool:
        """Whether it is time to see to what is on its way, also if there is nothing to be done with many files."""
        now = time.monotonic()
        is_due = now > self._due
        self._due = now + EVERY if is_due else self._due
        return is_due

    @contextlib.contextmanager
    def _until_signalled(self) -> Iterator[None]:
        """A first INT or TERM lets what is on its way end; a second one ends this and its processes at once."""

        def stop(number: int, frame: object) -> None:
            if self.is_stopped:
                os._exit(INTERRUPTED)
            self.stop("interrupted", INTERRUPTED)

        earlier = {number: signal.signal(number, stop) for number in (signal.SIGINT, signal.SIGTERM)}
        try:
            yield
        finally:
            for number, handler in earlier.items():
                signal.signal(number, handler)

    def end(self) -> int:
        """Says what came of it, writes the report, and answers the status."""
        self.progress.end()
        if self.is_stopped:
            self.progress.say(f"{self.why}; the same command goes on from here")
        if self.words.report is not None:
            self.progress.report(self.words.report, not self.is_stopped)
        if self.is_stopped:
            return self.status
        return 1 if self.progress.states["failed"] else 0


def compress(words: Words) -> int:
    """Compresses a tree into a folder."""
    assert words.tree is not None
    _check_apart(words.tree, words.out)
    _make_out(words.out)
    with contextlib.closing(Manifest(words.out, True)) as manifest:
        going = Run(words)
        _remove_parts(words.out)
        known = Known(manifest, words.second, words.strict)
        job = Job("compress", words.tree, words.out, str(manifest.token), words.second, words.strict)
        listing = Listing(words.tree, words.out, going.progress)
        listing.start()
        going.work(job, _to_compress(listing, known, going, manifest), lambda lines: _note(lines, known, manifest))
        if not going.is_stopped:
            _forget(known, going, manifest)
            going.progress.only_in_out = len(known) - known.met
        # Workers that died meanwhile leave some too.
        _remove_parts(words.out)
        try:
            manifest.sync()
        except OSError as error:
            going.stop(f"{error.strerror or error}: the manifest can't be synced")
        return going.end()


def _note(lines: list[Line], known: Known, manifest: Manifest) -> None:
    """Adds the lines that the manifest doesn't have already. One whose file isn't OUT's any more becomes that of a failure."""
    for line in lines:
        path = path_in(line)
        if line.pop("is_taken", False) and path in known:
            line["why"] = "it isn't what was compressed, or OUT's file isn't any more; both were left as they are"
        if line.get("stood") and not known.is_made(path, line["sha256"]):
            line.clear()
            line.update(failed(path, f"{DAMAGED}: it hasn't the sum that the manifest says, and was left as it is"))
    rows = [{key: value for key, value in line.items() if key != "stood"} for line in lines]
    manifest.add([row for row in rows if not known.has(path_in(row), row_of(row))])


def _to_compress(
    listing: Listing, known: Known, going: Run, manifest: Manifest
) -> Iterator[Optional[tuple[bytes, int]]]:
    """The files that are to be compressed. What else there is gets its line here."""
    out = going.words.out
    for entry in listing.entries():
        if entry is None or going.is_due():
            yield None
        if entry is None:
            continue
        known.failed.discard(entry.path)
        if entry.is_folder:
            with contextlib.suppress(OSError):
                make_folders(out, entry.path)
        elif not entry.is_file:
            line = _other(entry, going.words)
            if known.others.get(entry.path) == line:
                going.progress.skip(0)
            else:
                _record(line, going, manifest)
        else:
            assert entry.stat is not None
            kept, there, why = known.get(entry.path), None, ""
            known.met += kept is not None
            try:
                there = None if kept is None else standing(os.path.join(out, entry.path))
                why = "" if kept is None or there is None else _difference(entry.stat, there, kept)
            except OSError as error:
                why = error.strerror or str(error)
            is_same = kept is not None and there is not None and kept.is_of(entry.stat)
            if why:
                _record(failed(entry.path, why), going, manifest)
            elif is_same and not going.words.reread and entry.path not in known.unread:
                going.progress.skip(entry.stat.st_size)
            else:
                yield entry.path, entry.stat.st_size


def _forget(known: Known, going: Run, manifest: Manifest) -> None:
    """Says in the manifest of what once failed that the tree hasn't it any more: OUT needn't have it then."""
    assert going.words.tree is not None
    lines = []
    for path in sorted(known.failed):
        with contextlib.suppress(OSError):
            there = standing(os.path.join(going.words.tree, path))
            if there is None or stat.S_ISDIR(there.st_mode):
                lines.append({**named(path), "state": GONE, "why": "the tree has no such file any more"})
    try:
        manifest.add(lines)
    except OSError as error:
        going.stop(f"{error.strerror or error}: no line can be added to the manifest")
    for line in lines:
        going.count(line)


def _difference(source: os.stat_result, there: os.stat_result, kept: Kept) -> str:
    """Why a file that has a line isn't what that says, here or in OUT; neither is touched then."""
    if source.st_size != kept.before:
        return "it isn't what was compressed; OUT has it as it was then, and was left so"
    if not stat.S_ISREG(there.st_mode) or there.st_size != kept.after:
        return "OUT has another file of its name than the manifest says, which was left as it is"
    return ""


def _record(line: Line, going: Run, manifest: Manifest) -> None:
    """Adds a line that no worker made."""
    try:
        manifest.add([line])
    except OSError as error:
        going.stop(f"{error.strerror or error}: no line can be added to the manifest")
    going.count(line)


def _other(entry: Entry, words: Words) -> Line:
    """The line of what is no file: of a link, which is made again if it stays in the tree, or of what can't be had."""
    if entry.stat is None:
        return failed(entry.path, entry.why)
    if stat.S_ISREG(entry.stat.st_mode):
        return {**named(entry.path), "state": "left", "why": "a run that was ended left it, before it was whole"}
    if not stat.S_ISLNK(entry.stat.st_mode):
        return {**named(entry.path), "state": "left", "why": "it is no file, no folder and no link"}
    try:
        target = os.readlink(os.path.join(words.tree or b"", entry.path))
    except OSError as error:
        return failed(entry.path, error.strerror or str(error))
    return _linked(words.out, entry.path, target)


def _linked(root: bytes, path: bytes, target: bytes) -> Line:
    """Makes a link in a tree, if it leads to a place in there, and answers its line."""
    line = {**named(path), "state": "link", "to": target.decode("utf-8", "backslashreplace"), "to_hex": target.hex()}
    below = os.path.normpath(os.path.join(b"/-", os.path.dirname(path), target))
    if os.path.isabs(target) or not (below + b"/").startswith(b"/-/"):
        return {**line, "state": "left", "why": f"it is a link that leads out of the tree, to {shown(target)}"}
    place = os.path.join(root, path)
    try:
        make_folders(root, os.path.dirname(path))
        if standing(place) is not None:
            if os.readlink(place) != target:
                return failed(path, "there is another link of its name, which was left as it is")
        else:
            os.symlink(target, place)
            sync_folder(os.path.dirname(place))
    except OSError as error:
        why = "there is another file of its name, which was left as it is"
        return failed(path, why if error.errno == errno.EINVAL else error.strerror or str(error))
    return line


def _check_apart(tree: bytes, out: bytes) -> None:
    """Raises Refused if one tree is in the other, or the one that is read isn't there."""
    if not os.path.isdir(tree):
        raise Refused(f"{shown(tree)}: there is no such folder")
    one, other = os.path.realpath(tree), os.path.realpath(out)
    if os.path.commonpath([one, other]) in (one, other) or os.path.isdir(out) and os.path.samefile(tree, out):
        raise Refused(f"{shown(out)}: one folder is in the other")


def _make_out(out: bytes) -> None:
    if not os.path.isdir(out):
        os.makedirs(out)
        sync_folder(os.path.dirname(os.path.abspath(out)))


def _remove_parts(root: bytes) -> None:
    """Removes the files that a run left before they were whole."""
    for entry in each_below(root):
        if PART.fullmatch(entry.name) and not entry.is_dir(follow_symlinks=False):
            with contextlib.suppress(OSError):
                os.unlink(entry.path)


def restore(words: Words) -> int:
    """Makes a tree again of a folder that it was compressed into."""
    assert words.tree is not None
    if os.path.lexists(words.tree):
        _check_apart(words.tree, words.out)
    with contextlib.closing(Manifest(words.out, False)) as manifest, contextlib.ExitStack() as held:
        going = Run(words)
        last = _within(manifest.last(), words)
        _make_out(words.tree)
        _check_apart(words.tree, words.out)
        held.enter_context(_alone(words.tree))
        _remove_parts(words.tree)
        for path in _folders(words):
            try:
                make_folders(words.tree, path)
            except OSError as error:
                going.count(failed(path, error.strerror or str(error)))
        job = Job("restore", words.tree, words.out, str(manifest.token))
        links: list[Line] = []
        going.work(job, _to_restore(manifest, last, going, links), lambda lines: None)
        _remove_parts(words.tree)
        for line in [] if going.is_stopped else links:
            going.count(_linked(words.tree, path_in(line), bytes.fromhex(line["to_hex"])))
        return going.end()


def _within(last: dict[bytes, int], words: Words) -> dict[bytes, int]:
    """The files of the parts that are to be restored. Raises Refused for a part that OUT doesn't have."""
    if not words.parts:
        return last
    kept = {path: number for path, number in last.items() if _is_within(path, words.parts)}
    for part in words.parts:
        if not _is_folder(words.out, part) and not any(_is_within(path, [part]) for path in kept):
            raise Refused(f"{shown(part)!r}: the manifest names nothing so; a part is named as it is below OUT")
    return kept


def _is_folder(out: bytes, part: bytes) -> bool:
    """Whether a part is a folder of OUT, and not one that a link or another name leads to."""
    root = os.path.realpath(out)
    place = os.path.join(root, part)
    return place.startswith(root + b"/") and os.path.isdir(place) and os.path.realpath(place) == place


def _folders(words: Words) -> Iterator[bytes]:
    """The folders of OUT, or of the parts that are to be restored."""
    for part in [part for part in words.parts if _is_folder(words.out, part)] if words.parts else [b""]:
        if part:
            yield part
        for entry in each_below(os.path.join(words.out, part)):
            if entry.is_dir(follow_symlinks=False):
                yield os.path.relpath(entry.path, words.out)


def _is_within(path: bytes, parts: Sequence[bytes]) -> bool:
    """Whether a name is that of a part, or below it. Without parts each is."""
    return not parts or any(path == part or path.startswith(part + b"/") for part in parts)


@contextlib.contextmanager
def _alone(folder: bytes) -> Iterator[None]:
    """Locks a folder, where its file system can. Raises Refused if another run has."""
    number = os.open(folder, os.O_RDONLY | os.O_DIRECTORY | os.O_CLOEXEC)
    try:
        try:
            fcntl.flock(number, fcntl.LOCK_EX | fcntl.LOCK_NB)
        except BlockingIOError:
            raise Refused(f"{shown(folder)}: another run is at work on it") from None
        except OSError:
            pass
        yield
    finally:
        os.close(number)


def _lines_that_hold(manifest: Manifest, last: dict[bytes, int]) -> Iterator[Line]:
    for number, line in enumerate(manifest.lines()):
        if last.get(path_in(line)) == number:
            yield line


def _to_restore(
    manifest: Manifest, last: dict[bytes, int], going: Run, links: list[Line]
) -> Iterator[tuple[Line, int]]:
    """The lines of files that OUT has. Links come after them all."""
    going.progress.files, going.progress.is_counted = len(last), True
    going.progress.bytes = sum(line.get("bytes_after", 0) for line in _lines_that_hold(manifest, last))
    for line in _lines_that_hold(manifest, last):
        if line["state"] in KEPT:
            yield line, line["bytes_after"]
        elif line["state"] == "link":
            links.append(line)
        elif line["state"] == "failed":
            going.count(failed(path_in(line), f"OUT never had it: {line['why']}"))
        else:
            going.count(line)


def verify(words: Words) -> int:
    """Looks at every file of a folder that a tree was compressed into, and at the tree if it is named."""
    if words.tree is not None:
        _check_apart(words.tree, words.out)
    with contextlib.closing(Manifest(words.out, False)) as manifest:
        going = Run(words)
        last = manifest.last()
        job = Job("verify", words.tree, words.out, str(manifest.token), strict=words.strict)
        with Verified(words.out, words.tree, str(manifest.token), words.strict) as verified:
            verified.begin(verified.name in last)
            going.work(job, _to_verify(manifest, last, going, verified), verified.add)
            if not going.is_stopped:
                _find_others(words.out, last, going, UNNAMED, (NAME, verified.name))
                if words.tree is not None:
                    _find_others(words.tree, last, going, "OUT doesn't have it")
                verified.remove()
        return going.end()


def _to_verify(
    manifest: Manifest, last: dict[bytes, int], going: Run, verified: Verified
) -> Iterator[Optional[tuple[Line, int]]]:
    """The lines of files that are to be looked at; None where it is time to see to those that are on their way."""
    going.progress.files, going.progress.is_counted = len(last), True
    going.progress.bytes = sum(line.get("bytes_before", 0) for line in _lines_that_hold(manifest, last))
    for line in _lines_that_hold(manifest, last):
        path = path_in(line)
        if going.is_due():
            yield None
        if line["state"] in KEPT:
            if verified.has(line):
                going.progress.skip(line["bytes_before"])
            else:
                yield line, line["bytes_before"]
        elif line["state"] == "failed":
            going.count(failed(path, f"OUT never had it: {line['why']}"))
        elif line["state"] == "link":
            going.count(_verified_link(going.words, line))
        elif going.words.tree is not None and _is_file(os.path.join(going.words.tree, path)):
            going.count(failed(path, "OUT doesn't have it: it wasn't a file when the tree was compressed"))
        else:
            going.count(line)


def _is_file(place: bytes) -> bool:
    try:
        return stat.S_ISREG(os.lstat(place).st_mode)
    except OSError:
        return False


def _verified_link(words: Words, line: Line) -> Line:
    """The line of a link, which is to lead where the manifest says, in OUT and in the tree if there is one."""
    path = path_in(line)
    for root in [words.out] if words.tree is None else [words.out, words.tree]:
        try:
            is_same = os.readlink(os.path.join(root, path)) == bytes.fromhex(line["to_hex"])
        except OSError:
            is_same = False
        if not is_same:
            return failed(path, f"{'OUT' if root == words.out else 'the tree'} hasn't the link that the manifest says")
    return {**named(path), "state": "verified"}


def _find_others(root: bytes, last: dict[bytes, int], going: Run, why: str, ours: Sequence[bytes] = ()) -> None:
    """Counts what a tree has and the manifest doesn't name, but for our own files."""
    for entry in walk(root):
        is_part = root == going.words.out and PART.fullmatch(os.path.basename(entry.path))
        if entry.path not in last and entry.path not in ours and not entry.is_folder and not is_part:
            going.count(failed(entry.path, entry.why or why))


def check_second(name: Optional[str]) -> None:
    """Raises Refused if the second decoder isn't there."""
    if name is not None:
        second.has(name)
