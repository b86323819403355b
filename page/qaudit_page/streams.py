"""The standard streams, each of which may be closed, full, or read by nobody, and how processes
end."""

import ctypes
import errno
import io
import multiprocessing
import os
import signal
import sys
from collections.abc import Callable, Iterator
from concurrent.futures import Future, ProcessPoolExecutor
from contextlib import contextmanager, suppress
from mmap import mmap
from threading import Thread
from typing import TextIO

from .failure import Failure, Status, why
from .texts import harmless

OUTPUT, ERRORS = 1, 2
# Of linux/prctl.h.
PR_SET_PDEATHSIG = 1


class Messages(io.TextIOBase):
    """Standard error. What it does not take is lost, and nothing fails by that."""

    def __init__(self, stream: TextIO) -> None:
        self._stream = stream

    def write(self, text: str) -> int:
        """Writes text."""
        try:
            self._stream.write(text)
            self._stream.flush()
        except OSError:
            silence(ERRORS)
        return len(text)

    def isatty(self) -> bool:
        """Whether it is a terminal."""
        return self._stream.isatty()

    def fileno(self) -> int:
        """Its number."""
        return self._stream.fileno()


def silence(number: int) -> None:
    """From now on what is written to a stream goes nowhere, and so does what it still holds."""
    nowhere = os.open(os.devnull, os.O_WRONLY)
    if nowhere != number:
        os.dup2(nowhere, number)
        os.close(nowhere)


def put(data: bytes) -> None:
    """Writes bytes to standard output."""
    if sys.stdout is None:
        raise OSError(errno.EBADF, os.strerror(errno.EBADF))
    try:
        sys.stdout.flush()
        sys.stdout.buffer.write(data)
        sys.stdout.buffer.flush()
    except OSError:
        # What is left would be written, and would fail, once more at the end.
        silence(OUTPUT)
        raise


def fill_closed() -> None:
    """Opens /dev/null for each standard stream that is closed, so that no file takes its number.
    Standard input cannot be read then, and `sys.stdout` stays None."""
    while True:
        number = os.open(os.devnull, os.O_WRONLY)
        if number > ERRORS:
            os.close(number)
            return


@contextmanager
def without_interrupts() -> Iterator[None]:
    """Ctrl-C waits until this ends. The threads and processes that are started in it begin so."""
    before = signal.pthread_sigmask(signal.SIG_BLOCK, {signal.SIGINT})
    try:
        yield
    finally:
        signal.pthread_sigmask(signal.SIG_SETMASK, before)


def wait_for_the_end(*_: object) -> None:
    """What Ctrl-C does to a process that works for another: that one is told too, and kills it."""
    while True:
        signal.pause()


# What this process shares with the one that it works for.
SHARED: list[mmap] = []


def given() -> mmap:
    """The memory that this process was given."""
    return SHARED[-1]


def follow(parent: int, shared: mmap | None) -> None:
    """What a process does first that another has started to work for it: it ends when that one
    does, however that may be."""
    if shared is not None:
        SHARED.append(shared)
    signal.signal(signal.SIGINT, wait_for_the_end)
    ctypes.CDLL(None).prctl(PR_SET_PDEATHSIG, signal.SIGKILL)
    if os.getppid() != parent:
        os._exit(Status.FAULT)
    signal.pthread_sigmask(signal.SIG_UNBLOCK, {signal.SIGINT})


class Aside(Thread):
    """Text that a thread makes meanwhile. It keeps nobody from ending."""

    def __init__(self, make: Callable[[], str]) -> None:
        super().__init__(daemon=True)
        self._make, self._made = make, Future[str]()
        with without_interrupts():
            self.start()

    def run(self) -> None:
        """Makes it."""
        try:
            self._made.set_result(self._make())
        except BaseException as fault:
            self._made.set_exception(fault)

    def result(self) -> str:
        """What is made, or how that failed."""
        return self._made.result()


@contextmanager
def workers_of(count: int, shared: mmap | None = None) -> Iterator[ProcessPoolExecutor]:
    """So many processes that work for this one, and share memory with it. If something ends this
    before its time, they are killed."""
    fork = multiprocessing.get_context("fork")
    first = (os.getpid(), shared)
    pool = ProcessPoolExecutor(count, fork, initializer=follow, initargs=first)
    try:
        with without_interrupts():
            # The first piece of work starts all of them.
            pool.submit(os.getpid)
        yield pool
    except BaseException:
        for worker in multiprocessing.active_children():
            worker.kill()
        raise
    finally:
        # Of one whose thread could not start this fails too, and what it says tells less.
        with suppress(RuntimeError):
            pool.shutdown(cancel_futures=True)


def say(name: str, text: str) -> None:
    """A line of the command of this name on standard error."""
    print(f"{name}: {harmless(text)}", file=sys.stderr)


def ended(name: str, main: Callable[[], Status]) -> object:
    """The exit status of a command, whose failures are told."""
    if signal.getsignal(signal.SIGINT) is signal.SIG_DFL:
        signal.signal(signal.SIGINT, signal.default_int_handler)
    is_open = sys.stderr is not None
    fill_closed()
    sys.stderr = Messages(sys.stderr if is_open else open(os.devnull, "w"))  # type: ignore
    try:
        return main()
    except SystemExit as end:
        return end.code
    except Exception as fault:
        failure = fault
    say(name, why(failure))
    return failure.status if isinstance(failure, Failure) else Status.FAULT
