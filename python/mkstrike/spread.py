"""Work that several processors share. What comes out is in order, and the same as that of one processor."""
from __future__ import annotations

import contextlib
import os
import time
from collections import deque
from collections.abc import Callable, Iterator, Sequence

TYPE_CHECKING = False  # as in glyph.py
if TYPE_CHECKING:
    from concurrent.futures import Executor, Future
    from typing import Any, Tuple

    Task = Tuple[int, int]  # a group of fonts, and which of its sizes
    Make = Callable[[Task], Any]
    Write = Callable[[Any], Callable[[], Any]]

SOON = 0.1  # seconds of work for which no other process is started
PIECES = 4  # of the work that a process gets at least, so that none waits long for the last one
AHEAD = 2  # pieces for each process that are made before they are asked for
WRITERS = 16  # threads that write: a disk stores several files as fast as one


def processors() -> int:
    """How many processors this process may use."""
    return len(os.sched_getaffinity(0)) if hasattr(os, "sched_getaffinity") else os.cpu_count() or 1


def results(tasks: Sequence[Task], make: Make, write: Write, jobs: int) -> Iterator[tuple[Any, Any]]:
    """What `make` makes of each task, and what `write` says of that, in order. Work that takes long goes to other processes.

    There `make` runs, which changes nothing but memory. `write` runs here, in order, and returns a call that does the rest."""
    start = time.monotonic()
    for at, task in enumerate(tasks):
        if jobs > 1 and at + 1 < len(tasks) and time.monotonic() - start > SOON:
            yield from _spread(tasks[at:], make, write, jobs)
            return
        made = make(task)
        yield made, write(made)()


def _spread(tasks: Sequence[Task], make: Make, write: Write, jobs: int) -> Iterator[tuple[Any, Any]]:
    """The same by several processes, and threads that write. What ends this ends them, but a file that is begun is stored."""
    import multiprocessing
    from concurrent import futures
    others = set(multiprocessing.active_children())
    writing: deque[tuple[Any, Future[Any]]] = deque()
    with futures.ThreadPoolExecutor(WRITERS) as writers, futures.ProcessPoolExecutor(
            jobs, multiprocessing.get_context("fork"), _begin, (make, os.getpid())) as pool:
        try:
            for made in _ahead(pool, list(_pieces(tasks, jobs)), AHEAD * jobs):
                writing.append((made, writers.submit(write(made))))
                while writing and (len(writing) > WRITERS or writing[0][1].done()):
                    yield _told(*writing.popleft())
            while writing:
                yield _told(*writing.popleft())
        except futures.BrokenExecutor as fault:
            raise ChildProcessError("a process that makes strikes was ended, maybe for lack of memory: try --jobs 1") from fault
        finally:
            for it in set(multiprocessing.active_children()) - others:
                it.terminate()  # asks it to stop
            pool.shutdown(cancel_futures=True)


def _told(made: Any, written: Future[Any]) -> tuple[Any, Any]:
    return made, written.result()


def _pieces(tasks: Sequence[Task], jobs: int) -> Iterator[Sequence[Task]]:
    """Tasks that follow each other and are of the same fonts, fewer at the end, so that all processes end together."""
    at = 0
    while at < len(tasks):
        most, count = (len(tasks) - at) // (PIECES * jobs), 1
        while count < most and tasks[at + count][0] == tasks[at][0]:
            count += 1
        yield tasks[at:at + count]
        at += count


def _ahead(pool: Executor, pieces: Sequence[Sequence[Task]], most: int) -> Iterator[Any]:
    """What the processes make of pieces, in order; only so many pieces are in memory."""
    import signal
    waiting: deque[Future[list[Any]]] = deque()
    for piece in pieces:
        before = signal.pthread_sigmask(signal.SIG_BLOCK, {signal.SIGINT})  # so it stays in the processes that begin here
        try:
            waiting.append(pool.submit(_all, piece))
        finally:
            signal.pthread_sigmask(signal.SIG_SETMASK, before)
        if len(waiting) > most:
            yield from waiting.popleft().result()
    while waiting:
        yield from waiting.popleft().result()


# Of a process: what makes strikes, and whether it should stop. It stops between two strikes, as half an answer would block both.
_make: Make
_is_ended = False


def _begin(make: Make, parent: int) -> None:
    """Begins a process, which ends if the one that began it is killed."""
    global _make
    import signal
    _make = make
    signal.signal(signal.SIGTERM, _end)
    with contextlib.suppress(AttributeError, OSError):
        import ctypes
        ctypes.CDLL(None).prctl(1, int(signal.SIGKILL))  # PR_SET_PDEATHSIG of Linux
    if os.getppid() != parent:
        os._exit(1)


def _end(*_: object) -> None:
    global _is_ended
    _is_ended = True


def _all(tasks: Sequence[Task]) -> list[Any]:
    """What is made of some tasks, in a process."""
    return [_make(it) for it in tasks if not _is_ended]
