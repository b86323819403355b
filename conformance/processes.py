"""How a program is started and fed here, and how it ended."""

import contextlib
import ctypes
import fcntl
import os
import resource
import select
import socket
import struct
import subprocess
import termios
import threading
import time
from collections.abc import Callable, Iterable, Iterator, Sequence
from dataclasses import dataclass
from enum import IntEnum
from pathlib import Path
from typing import IO, NamedTuple

# After so many seconds a program is killed.
MAX_SECONDS = 60
# How many times as long a run may take as one that has as much to do, and how often that is tried.
MAX_RATIO = 3.0
TRIES = 3
# Of Linux: linux/prctl.h and linux/capability.h.
PR_CAPBSET_DROP = 24
CAP_DAC_OVERRIDE = 1
CAP_DAC_READ_SEARCH = 2
LIBC = ctypes.CDLL(None)
# What a program says on standard error to which memory was refused.
OUT_OF_MEMORY = b"out of memory"

# A program and its arguments.
Words = Sequence[str | Path]
# What a standard stream can be, of a program that is started.
Stream = int | IO[bytes]
# How a run failed, empty where it did not, and the seconds of processor time that it took.
Timed = tuple[str, float]


class Status(IntEnum):
    """How an auditor ends."""

    ACCEPTED = 0
    REFUSED = 1
    UNREADABLE = 2
    # A stream failed, or there was no memory.
    FAULT = 3
    USAGE = os.EX_USAGE


class Outcome(NamedTuple):
    """How a program ended. Its status is None where it was killed because it
    took too long, and an output is None where nothing could capture it. A
    wanted output is None where it is not compared. What is left of its standard input
    is None but where that is a pipe that stays open."""

    status: int | None
    output: bytes | None
    error: bytes | None
    left: bytes | None = None

    def text(self) -> bytes:
        """Standard output, where it was captured."""
        return self.output or b""


def status_of(report: bytes) -> Status | None:
    """The exit status for a report, by its first word; None where that is no verdict."""
    word = report.split(None, 1)[0] if report.strip() else b""
    verdicts = {b"accepted": Status.ACCEPTED, b"refused": Status.REFUSED}
    return {**verdicts, b"unreadable": Status.UNREADABLE}.get(word)


def differences(outcome: Outcome, wanted: Outcome, *, is_memory_refused: bool = False) -> str:
    """What of an outcome is not as wanted; empty where all is. A program to which no memory was
    refused must not say that it is out of memory, whatever is wanted."""
    found = []
    if OUT_OF_MEMORY in (outcome.error or b"") and not is_memory_refused:
        found.append("out of memory, though none was refused")
    if outcome.status is None:
        found.append("killed, for it took too long")
    elif outcome.status != wanted.status:
        found.append(f"status {outcome.status}, wanted {wanted.status}")
    for name, had, want in (
        ("standard error", outcome.error, wanted.error),
        ("standard output", outcome.output, wanted.output),
        ("left of standard input", outcome.left, wanted.left),
    ):
        if want is not None and had != want:
            found.append(f"{name} {shown(had)}, wanted {shown(want)}")
    return joined(found)


def joined(failures: Iterable[str]) -> str:
    """Those of the failures that are there, as one."""
    return "; ".join(text for text in failures if text)


def shown(text: bytes | None) -> str:
    """Bytes as a failure names them."""
    return "nothing" if text is None else repr(text if len(text) <= 200 else text[:200] + b"..")


def is_program(path: str | Path) -> bool:
    """Whether there is a program that can be run."""
    return os.access(path, os.X_OK) and not Path(path).is_dir()


# Starting a program.


@dataclass(frozen=True)
class Limits:
    """The most bytes that a program may have: of memory, of what it allocates, and of its stack;
    None is no limit."""

    memory: int | None = None
    allocated: int | None = None
    stack: int | None = None

    def set(self) -> None:
        """Limits this process, and what it starts."""
        for what, maximum in (
            (resource.RLIMIT_AS, self.memory),
            (resource.RLIMIT_DATA, self.allocated),
            (resource.RLIMIT_STACK, self.stack),
        ):
            if maximum is not None:
                resource.setrlimit(what, (maximum, maximum))


@dataclass(frozen=True)
class Setting:
    """What a program finds where it starts: its streams but for the first, of which those whose
    numbers are in `closed` are closed, its folder, and its limits.

    Where it is not to read every file it loses root's right to do so, if it has it and the system
    lets it."""

    output: Stream = subprocess.PIPE
    error: Stream = subprocess.PIPE
    closed: Sequence[int] = ()
    folder: Path | None = None
    reads_every_file: bool = True
    limits: Limits = Limits()

    def prepare(self) -> None:
        """Makes this process that of the program."""
        for stream in self.closed:
            os.close(stream)
        if not self.reads_every_file:
            for capability in (CAP_DAC_OVERRIDE, CAP_DAC_READ_SEARCH):
                LIBC.prctl(PR_CAPBSET_DROP, capability, 0, 0, 0)
        self.limits.set()


USUAL = Setting()


def start(command: Words, stdin: Stream, setting: Setting = USUAL) -> subprocess.Popen[bytes]:
    """Starts a program with this standard input."""
    return subprocess.Popen(
        command,
        stdin=stdin,
        stdout=setting.output,
        stderr=setting.error,
        cwd=setting.folder,
        preexec_fn=setting.prepare,
    )


def ended(
    child: subprocess.Popen[bytes], seconds: float = MAX_SECONDS, data: bytes | None = None
) -> Outcome:
    """Waits for a program, which is killed where it takes longer than this. Data are for its
    standard input, where that is a pipe of `subprocess`."""
    try:
        output, error = child.communicate(data, timeout=seconds)
        return Outcome(child.returncode, output, error)
    except subprocess.TimeoutExpired:
        child.kill()
        output, error = child.communicate()
        return Outcome(None, output, error)


def answered(data: bytes, command: Words) -> Outcome:
    """Runs a program with these bytes on standard input."""
    return ended(start(command, subprocess.PIPE), data=data)


# Time.


def processor_seconds() -> float:
    """The processor time of all programs that were started and have ended."""
    usage = resource.getrusage(resource.RUSAGE_CHILDREN)
    return usage.ru_utime + usage.ru_stime


def timed(run: Callable[[], Outcome], wanted: Outcome) -> Timed:
    """How a run of a program differs from what it must do, and the processor time that it took."""
    before = processor_seconds()
    outcome = run()
    return differences(outcome, wanted), processor_seconds() - before


def slower(costly: Callable[[], Timed], plain: Callable[[], Timed], what: str) -> str:
    """How one of two runs fails, or that the first takes many times the processor time of the
    second, which has as much to do and is named. It is tried more than once, for times vary."""
    least = float("inf")
    for _ in range(TRIES):
        (failure, seconds), (other_failure, other_seconds) = costly(), plain()
        least = min(least, seconds / other_seconds)
        if failure or other_failure or least < MAX_RATIO:
            return joined([failure, other_failure])
    return f"{least:.1f} times the processor time of {what}"


# Feeding a program.


def bytes_alone(data: bytes) -> Iterator[bytes]:
    """Each byte as a piece."""
    return (data[index : index + 1] for index in range(len(data)))


def fed(
    pieces: Iterable[bytes],
    command: Words,
    setting: Setting = USUAL,
    *,
    seconds: float = MAX_SECONDS,
    is_piece_a_read: bool = False,
) -> Outcome:
    """Runs a program whose standard input is a pipe of these pieces.

    Where a piece is a read, no read gives bytes of two, and none has more than 4,096 bytes."""
    # A pipe of Linux in packet mode keeps the writes apart.
    reading, writing = os.pipe2(os.O_DIRECT if is_piece_a_read else 0)
    child = start(command, reading, setting)
    os.close(reading)
    feeder = threading.Thread(target=feed, args=(pieces, writing))
    feeder.start()
    outcome = ended(child, seconds)
    feeder.join()
    return outcome


def feed(pieces: Iterable[bytes], pipe: int) -> None:
    """Writes pieces to a pipe and closes it, until all are written or nobody reads it."""
    with contextlib.suppress(BrokenPipeError):
        for piece in pieces:
            left = piece
            while left:
                left = left[os.write(pipe, left) :]
    os.close(pipe)


def held_open(
    data: bytes,
    command: Words,
    setting: Setting = USUAL,
    *,
    seconds: float = MAX_SECONDS,
    waits: bool = True,
) -> Outcome:
    """Runs a program whose standard input is a pipe with these bytes, which stays open, and says
    what is left in it. A read of what is not there waits, or else fails."""
    reading, writing = os.pipe()
    os.write(writing, data)
    os.set_blocking(reading, waits)
    outcome = ended(start(command, reading, setting), seconds)
    os.close(writing)
    with os.fdopen(reading, "rb") as pipe:
        return outcome._replace(left=pipe.read())


def fed_and_reset(
    data: bytes, command: Words, setting: Setting = USUAL, *, seconds: float = MAX_SECONDS
) -> Outcome:
    """Runs a program whose standard input is a connection that is reset once it read all data."""
    with socket.create_server(("127.0.0.1", 0)) as server:
        sender = socket.create_connection(server.getsockname())
        receiver, _address = server.accept()
    with sender, receiver:
        child = start(command, receiver.fileno(), setting)
        sender.sendall(data)
        while waiting(sender, termios.TIOCOUTQ) or waiting(receiver, termios.FIONREAD):
            if child.poll() is not None:
                break
            time.sleep(0.001)
        # To close without lingering is to reset.
        sender.setsockopt(socket.SOL_SOCKET, socket.SO_LINGER, struct.pack("ii", 1, 0))
        sender.close()
        return ended(child, seconds)


def waiting(connection: socket.socket, which: int) -> int:
    """The number of bytes that wait on a connection, to be sent or to be read."""
    count: int
    (count,) = struct.unpack("i", fcntl.ioctl(connection, which, b"\0" * 4))
    return count


# A stream that fails once.


def failing_once(opened: contextlib.ExitStack) -> tuple[socket.socket, socket.socket]:
    """Two sockets: the next read from the first, or the next write to it, fails, and no later one
    does. What is written to it then can be read from the second, and the other way round."""
    first, closed = (udp_socket(opened) for _ in range(2))
    first.bind(("127.0.0.1", 0))
    closed.bind(("127.0.0.1", 0))
    address = closed.getsockname()
    closed.close()
    first.connect(address)
    # Nobody is there to take it, which the next call is told.
    first.send(b"")
    failure = select.poll()
    failure.register(first, select.POLLERR)
    failure.poll()
    second = udp_socket(opened)
    second.bind(address)
    second.connect(first.getsockname())
    return first, second


def udp_socket(opened: contextlib.ExitStack) -> socket.socket:
    """A socket of datagrams."""
    return opened.enter_context(socket.socket(socket.AF_INET, socket.SOCK_DGRAM))


def taken(connection: socket.socket) -> bytes:
    """All that was written to the other end of a connection and not read yet."""
    connection.setblocking(False)
    text = b""
    with contextlib.suppress(BlockingIOError):
        while True:
            text += connection.recv(65536)
    return text
