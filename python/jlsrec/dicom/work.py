"""Batches of files given to workers: to processes here, or to those of a dask scheduler.

Only some batches are on their way at once, so that a tree of any size goes through. If a worker dies, its files are
given out again: the one that it was at by itself, with nothing else on its way. A file at which workers die again has
failed.
"""

from __future__ import annotations

import collections
import concurrent.futures
import contextlib
import ctypes
import logging
import multiprocessing
import multiprocessing.connection
import os
import queue
import selectors
import signal
import time
from collections.abc import Callable, Iterable, Iterator, Sequence
from dataclasses import dataclass, field
from typing import Any, Optional, Protocol

from . import Refused
from .each import Job, Line, do_batch, do_each, failed

# How many workers may die in turn before anything is done, or before one begins.
DEATHS_IN_TURN = 20
# How long is waited at a time, in seconds, before it is told how far it is.
PATIENCE = 0.5
# How long a process may take to end, in seconds, before it is killed.
END = 60.0
# How often a scheduler is asked for its workers, in seconds.
ASKED_EVERY = 2.0
# How many descriptors processes leave to what else is done here.
SPARED = 12
DEATH_SIGNAL = 1


class Lost(Exception):
    """Why no worker can be had any more."""


class Died(Exception):
    """The worker of a batch died: what it had done, the files of which it was at one, and those it hadn't begun."""

    def __init__(self, lines: Sequence[Line], at: Sequence[Any], left: Sequence[Any] = ()) -> None:
        super().__init__()
        self.lines, self.at, self.left = list(lines), at, left


@dataclass(eq=False)
class Batch:
    """Files that are given to a worker together, and how often a worker has died at the one that is given alone."""

    items: Sequence[Any]
    deaths: int = 0


class Workers(Protocol):
    """Who does batches."""

    # How often the worker of a file that is given alone may die.
    most_deaths: int

    def count(self) -> int:
        """How many batches are done at once."""

    def submit(self, job: Job, items: Sequence[Any]) -> Any:
        """Gives a batch to a worker."""

    def wait(self) -> list[Any]:
        """What is done of what was given, after a while at most. Raises Lost if there are no workers any more."""

    def result(self, given: Any) -> list[Line]:
        """The lines of a batch that is done. Raises Died if its worker did."""

    def withdraw(self) -> list[Any]:
        """What was given and isn't begun, and won't be."""

    def close(self) -> None:
        """Ends the workers."""


def run(
    workers: Workers,
    job: Job,
    batches: Iterable[Sequence[Any]],
    done: Callable[[list[Line]], None],
    is_stopped: Callable[[], bool],
) -> None:
    """Has all batches done, and hands on their lines as they come. Once stopped it only waits for what is on its way.

    Raises Lost if no worker can be had any more.
    """
    source = iter(batches)
    # What is on its way; files that a worker that died hadn't begun; and those at which it did, which are tried with
    # nothing else on its way.
    waiting: dict[Any, Batch] = {}
    again: collections.deque[Batch] = collections.deque()
    alone: collections.deque[Batch] = collections.deque()
    # Deaths since anything was done; all of them, as long as no worker has done a file.
    has_more, has_worked, deaths = True, False, 0
    while waiting or again or alone or has_more:
        if is_stopped():
            again.clear()
            alone.clear()
            has_more = False
            for given in workers.withdraw():
                waiting.pop(given)
        while (again or has_more) and not alone and len(waiting) < 2 * workers.count():
            batch = again.popleft() if again else _next(source)
            has_more = has_more and batch is not None
            # An empty batch is time for what else there is to do.
            if batch is None or not batch.items:
                break
            waiting[workers.submit(job, batch.items)] = batch
        if alone and not waiting:
            batch = alone.popleft()
            waiting[workers.submit(job, batch.items)] = batch
        for given in workers.wait() if waiting else []:
            batch = waiting.pop(given)
            try:
                lines = workers.result(given)
            except Died as died:
                lines = died.lines + _again(batch, died, workers.most_deaths, again, alone)
                has_worked = has_worked or bool(died.lines)
                deaths = 0 if lines and has_worked else deaths + 1
            else:
                has_worked, deaths = True, 0
            if lines:
                done(lines)
            if deaths > DEATHS_IN_TURN:
                raise Lost(f"{deaths} workers died in turn")


def _next(source: Iterator[Sequence[Any]]) -> Optional[Batch]:
    items = next(source, None)
    return None if items is None else Batch(items)


def _again(
    batch: Batch, died: Died, most: int, again: collections.deque[Batch], alone: collections.deque[Batch]
) -> list[Line]:
    """Keeps the files of a worker that died for later. Answers the line of one at which too many have."""
    if died.left:
        again.append(Batch(died.left))
    if len(died.at) > 1:
        alone.extend(Batch([item]) for item in died.at)
    elif died.at and batch.deaths + 1 < most:
        alone.append(Batch(died.at, batch.deaths + 1))
    elif died.at:
        return [failed(died.at[0], f"{most} workers died of it" if most > 1 else "the workers that had it died")]
    return []


@dataclass(eq=False)
class Given:
    """A batch that was given to a process: its lines so far, and whether the process died."""

    job: Job
    items: Sequence[Any]
    lines: list[Line] = field(default_factory=list)
    is_dead: bool = False


@dataclass(eq=False)
class Process:
    """A process of ours, the pipe to it, whether it has begun, and the batch that it has."""

    process: Any
    pipe: multiprocessing.connection.Connection
    has_begun: bool = False
    given: Optional[Given] = None


class Processes:
    """Processes on this machine. They end with the one that began them, however it ends.

    Each has a pipe of its own and gets a batch once it is free, so that nothing is lost in a queue if another one dies,
    and it is known at which file one died.
    """

    most_deaths = 2

    def __init__(self, count: int) -> None:
        self._count = count
        # Not forked: this process has threads.
        self._context = multiprocessing.get_context("spawn")
        self._processes: list[Process] = []
        self._pipes = selectors.DefaultSelector()
        self._queue: collections.deque[Given] = collections.deque()
        self._ended: list[Given] = []
        # How many died in turn before they had begun; and whether the system has refused another one.
        self._failures, self._is_full = 0, False

    def count(self) -> int:
        return self._count

    def submit(self, job: Job, items: Sequence[Any]) -> Given:
        given = Given(job, items)
        self._queue.append(given)
        return given

    def wait(self) -> list[Given]:
        until = time.monotonic() + PATIENCE
        # What is free has something to do again before lines are dealt with elsewhere.
        self._hand_out()
        while not self._ended and (left := until - time.monotonic()) > 0:
            for key, _ in self._pipes.select(left):
                self._hear(key.data)
            self._hand_out()
        ended, self._ended = self._ended, []
        return ended

    def result(self, given: Given) -> list[Line]:
        if given.is_dead:
            count = len(given.lines)
            raise Died(given.lines, given.items[count : count + 1], given.items[count + 1 :])
        return given.lines

    def withdraw(self) -> list[Given]:
        withdrawn = list(self._queue)
        self._queue.clear()
        return withdrawn

    def close(self) -> None:
        for each in self._processes:
            each.pipe.close()
        for each in self._processes:
            each.process.join(END)
            self._end(each)
        self._processes.clear()
        self._pipes.close()

    def _hand_out(self) -> None:
        """Gives batches to the processes that are free, and begins others while there is more to do."""
        free = [each for each in self._processes if each.has_begun and each.given is None]
        for each in free[: len(self._queue)]:
            each.given = self._queue.popleft()
            try:
                each.pipe.send((each.given.job, each.given.items))
            except OSError:
                self._bury(each)
        coming = sum(not each.has_begun for each in self._processes)
        while len(self._processes) < self._count and coming < len(self._queue) and not self._is_full:
            coming += 1
            self._begin_one()

    def _begin_one(self) -> None:
        """Begins a process. If the system refuses that, those that there are go on. Raises Lost if there are none."""
        try:
            with _spared():
                one = self._begun()
            self._processes.append(one)
            self._pipes.register(one.pipe, selectors.EVENT_READ, one)
        except OSError as error:
            self._is_full = True
            if not self._processes:
                raise Lost(f"no process can be begun: {error.strerror or error}") from None

    def _begun(self) -> Process:
        ours, theirs = self._context.Pipe()
        # Ctrl-C at a terminal is for all processes: it isn't to end one before it has begun.
        signal.pthread_sigmask(signal.SIG_BLOCK, [signal.SIGINT])
        try:
            process = self._context.Process(target=_work, args=(theirs, os.getpid()), daemon=True)
            process.start()
            return Process(process, ours)
        except OSError:
            ours.close()
            raise
        finally:
            signal.pthread_sigmask(signal.SIG_UNBLOCK, [signal.SIGINT])
            theirs.close()

    def _hear(self, one: Process) -> None:
        """Takes what a process says: that it has begun, or the line of a file; or that it is dead."""
        try:
            line = one.pipe.recv()
        except (EOFError, OSError):
            self._bury(one)
            return
        if not one.has_begun:
            one.has_begun, self._failures = True, 0
            return
        assert one.given is not None
        one.given.lines.append(line)
        if len(one.given.lines) == len(one.given.items):
            self._ended.append(one.given)
            one.given = None

    def _bury(self, one: Process) -> None:
        """Does without a process that died. Raises Lost if too many do before they have begun."""
        self._processes.remove(one)
        self._pipes.unregister(one.pipe)
        one.pipe.close()
        self._end(one)
        self._is_full = False
        if one.given is not None:
            one.given.is_dead = True
            self._ended.append(one.given)
        elif not one.has_begun:
            self._failures += 1
            if self._failures >= DEATHS_IN_TURN:
                raise Lost(f"{self._failures} processes died before they began")

    def _end(self, one: Process) -> None:
        """Sees that a process is no more."""
        if one.process.is_alive():
            one.process.kill()
        one.process.join(END)


@contextlib.contextmanager
def _spared() -> Iterator[None]:
    """Leaves some descriptors to the rest of this process. Raises OSError if there aren't so many."""
    with contextlib.ExitStack() as spared:
        for _ in range(SPARED):
            spared.callback(os.close, os.open(os.devnull, os.O_RDONLY | os.O_CLOEXEC))
        yield


def _work(pipe: multiprocessing.connection.Connection, parent: int) -> None:
    """What a process of ours does: it answers a line for each file, until there is no more to do."""
    _begin(parent)
    with contextlib.suppress(EOFError, OSError):
        pipe.send(None)
        while True:
            job, items = pipe.recv()
            for line in do_each(job, items):
                pipe.send(line)


def _begin(parent: int) -> None:
    """What it does first: it dies with its parent, which alone gets Ctrl-C."""
    signal.signal(signal.SIGINT, signal.SIG_IGN)
    signal.signal(signal.SIGTERM, signal.SIG_DFL)
    ctypes.CDLL(None).prctl(DEATH_SIGNAL, signal.SIGKILL)
    if os.getppid() != parent:
        os._exit(1)


class _Finished:
    """The futures that are done, as they come to be."""

    def __init__(self) -> None:
        self._queue: queue.SimpleQueue[Any] = queue.SimpleQueue()

    def watch(self, future: Any) -> Any:
        """Answers the future, which is among those that are done once it is."""
        future.add_done_callback(self._queue.put)
        return future

    def wait(self) -> list[Any]:
        """Those that came to be done, after a while at most."""
        done = []
        with contextlib.suppress(queue.Empty):
            done.append(self._queue.get(timeout=PATIENCE))
            while True:
                done.append(self._queue.get_nowait())
        return done


def _silence() -> None:
    """Has dask say nothing on standard error: what counts of its errors is raised, and said in a line."""
    for name in ["distributed", "tornado", "asyncio", *logging.root.manager.loggerDict]:
        if name.partition(".")[0] in ("distributed", "tornado", "asyncio"):
            logging.getLogger(name).setLevel(logging.CRITICAL + 1)


class Dask:
    """The workers of a dask scheduler, on any machines that see the same trees by the same names.

    The scheduler itself gives a batch to another worker if one dies, and gives it back if several have. It is said how
    many threads they have, whenever that is another number.
    """

    most_deaths = 1

    def __init__(self, address: str, say: Callable[[str], None]) -> None:
        try:
            import distributed
        except ImportError:
            raise Refused("--dask wants dask.distributed; apt-get install python3-distributed has it") from None
        _silence()
        self._distributed = distributed
        self._address, self._say = address, say
        self._finished = _Finished()
        self._threads, self._asked = -1, 0.0
        self._items: dict[Any, Sequence[Any]] = {}
        try:
            self._client = distributed.Client(address, timeout=10, set_as_default=False)
        except (OSError, ValueError, TimeoutError, distributed.TimeoutError) as error:
            raise Refused(f"there is no scheduler at {address}: {error}") from None

    def _check(self) -> None:
        if self._client.status != "running":
            raise Lost(f"the scheduler at {self._address} is gone, or can't be reached")

    def _ask(self) -> None:
        """Asks the scheduler for its workers, now and then."""
        self._check()
        now = time.monotonic()
        if now < self._asked + ASKED_EVERY:
            return
        self._asked = now
        try:
            workers = self._client.scheduler_info()["workers"].values()
        except (OSError, TimeoutError, self._distributed.TimeoutError):
            self._check()
            return
        threads = sum(worker["nthreads"] for worker in workers)
        if threads != self._threads:
            self._threads = threads
            self._say(
                f"the scheduler's workers have {threads} thread{'s' if threads != 1 else ''}"
                if threads > 0
                else "the scheduler has no workers now; the run waits for some"
            )

    def count(self) -> int:
        self._ask()
        return max(self._threads, 1)

    def submit(self, job: Job, items: Sequence[Any]) -> Any:
        self._check()
        future = self._client.submit(do_batch, job, items, pure=False)
        self._items[future] = items
        return self._finished.watch(future)

    def wait(self) -> list[Any]:
        done = self._finished.wait()
        self._ask()
        return done

    def result(self, future: Any) -> list[Line]:
        items = self._items.pop(future)
        try:
            return future.result(timeout=60)
        except self._distributed.KilledWorker:
            raise Died([], items) from None
        except (concurrent.futures.CancelledError, OSError, TimeoutError, self._distributed.TimeoutError):
            self._check()
            raise Died([], [], items) from None
        except Exception as error:
            raise Lost(f"a worker can't work at all: {type(error).__name__}: {error}") from None

    def withdraw(self) -> list[Any]:
        return []

    def close(self) -> None:
        # Whoever closes after the scheduler, or at its end, may be told that it took too long.
        with contextlib.suppress(Exception):
            self._client.close(timeout=5)
