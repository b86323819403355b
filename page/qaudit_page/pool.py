"""Processes that audit traces side by side. One that is killed costs the trace that it had."""

import multiprocessing
import os
from collections import deque
from collections.abc import Iterable, Iterator, Sequence
from multiprocessing.connection import Connection, wait

from .failure import Failure, Status, reason_of
from .matrix import FAILED, Job, Result, judged
from .streams import follow, without_interrupts

KILLED = "the process that audited it was killed: is there enough memory?"
FORK = multiprocessing.get_context("fork")


def work(parent: int, own: Connection, others: Sequence[Connection]) -> None:
    """What a process does: it audits each trace that it is given."""
    try:
        follow(parent, None)
        for connection in others:
            connection.close()
        while True:
            own.send(judged(own.recv()))
    except Exception:
        # Who waits for the result sees that none comes.
        os._exit(Status.FAULT)


class Worker:
    """A process, and the trace that it has."""

    def __init__(self, others: Iterable[Connection]) -> None:
        self.connection, theirs = multiprocessing.Pipe()
        arguments = (os.getpid(), theirs, (self.connection, *others))
        self._process = FORK.Process(target=work, args=arguments, daemon=True)
        self.place = 0
        try:
            with theirs, without_interrupts():
                self._process.start()
        except BaseException:
            self.connection.close()
            raise

    def give(self, place: int, job: Job) -> None:
        """Has it audit a trace."""
        self.place = place
        try:
            self.connection.send(job)
        except OSError:
            # It was killed meanwhile, which is seen when its result is read.
            return

    def result(self) -> Result | None:
        """What became of its trace; None if the process ended before it was done."""
        try:
            result: Result = self.connection.recv()
        except Exception:
            # It is not there, or only a part of it.
            return None
        return result

    def end(self) -> None:
        """Ends it, whatever it does."""
        self._process.kill()
        self._process.join()
        self._process.close()
        self.connection.close()


class Pool:
    """Traces, and how many processes may audit them at a time."""

    def __init__(self, jobs: Sequence[Job], count: int) -> None:
        self._jobs, self._count = jobs, count

    def results(self) -> Iterator[tuple[int, Result]]:
        """What became of each trace, with its place. One whose process was killed is tried once
        more, after all others and by itself: it may have been another that took the memory."""
        again = []
        for place, result in self._tried(self._count, range(len(self._jobs))):
            if result is None:
                again.append(place)
            else:
                yield place, result
        for place, result in self._tried(1, again):
            yield place, result or killed(self._jobs[place])

    def _tried(self, count: int, places: Iterable[int]) -> Iterator[tuple[int, Result | None]]:
        """What became of some traces; None if the process was killed."""
        waiting, working = deque(places), dict[Connection, Worker]()
        try:
            while waiting or working:
                count = self._filled(count, waiting, working)
                for connection in wait(list(working)):
                    assert isinstance(connection, Connection)
                    worker = working[connection]
                    result = worker.result()
                    yield worker.place, result
                    if result is not None and waiting:
                        self._give(worker, waiting)
                    else:
                        working.pop(connection).end()
        finally:
            for worker in working.values():
                worker.end()

    def _filled(
        self, count: int, waiting: deque[int], working: dict[Connection, Worker]
    ) -> int:
        """Starts processes for traces that wait, up to so many; how many there can be."""
        while waiting and len(working) < count:
            try:
                worker = Worker(working)
            except OSError as fault:
                if working:
                    return len(working)
                raise Failure(f"cannot start a process: {reason_of(fault)}") from fault
            working[worker.connection] = worker
            self._give(worker, waiting)
        return count

    def _give(self, worker: Worker, waiting: deque[int]) -> None:
        place = waiting.popleft()
        worker.give(place, self._jobs[place])


def killed(job: Job) -> Result:
    """What became of a trace that no process lived to audit."""
    return Result(job.key, FAILED, fault=KILLED, trace=str(job.trace))
