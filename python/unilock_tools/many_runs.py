"""How the jobs of `many` are handed out, in batches: to processes of this machine, or to a Dask cluster.

A batch is one message to a worker and back, so that what small jobs cost beside themselves is little. Its rows are told
when it ends.
"""

from __future__ import annotations

import concurrent.futures
import contextlib
import importlib
import multiprocessing
import signal
import sys
import threading
from collections import Counter
from collections.abc import Callable, Iterable, Iterator
from dataclasses import replace
from multiprocessing.connection import Connection
from multiprocessing.process import BaseProcess
from queue import SimpleQueue
from typing import Any

from .console import INTERRUPTED, Refused
from .many_indexes import is_kept, keep_index
from .many_jobs import FAILED, LACKING, Row, Task, console_line, done_all

Batch = tuple[Task, ...]
Told = Callable[[Row], None]
# Has a batch done; what it answers is a future of its rows, of `concurrent.futures` or of Dask.
Submit = Callable[[Batch], Any]
# How many jobs a batch has at most, and into how many batches for each worker the jobs that are left are cut.
MOST_IN_BATCH, SHARES = 25, 4
# So few jobs are waited for by threads, since processes take longer to begin.
FEW = 16
# How often a job is begun again whose worker was lost, and how often one goes back for want of its index.
MOST_LOSSES, MOST_LACKS = 3, 10


def batches_of(tasks: list[Task], workers: int) -> Iterator[Batch]:
    """The jobs in batches: large ones first and then ever smaller ones, so that all workers end at about one time."""
    at = 0
    while at < len(tasks):
        size = max(1, min(MOST_IN_BATCH, (len(tasks) - at) // (SHARES * workers)))
        yield tuple(tasks[at : at + size])
        at += size


class Runs:
    """Batches that are under way. The jobs of one whose worker is lost are begun again, each by itself."""

    def __init__(self, submit: Submit, told: Told, hand_out: Callable[[str], None] = lambda index: None) -> None:
        self.submit, self.told, self.hand_out = submit, told, hand_out
        self.open: dict[Any, Batch] = {}
        self.ended: SimpleQueue[Any] = SimpleQueue()
        self.losses: Counter[str] = Counter()
        self.lacks: Counter[str] = Counter()

    def begin(self, batch: Batch) -> None:
        future = self.submit(batch)
        self.open[future] = batch
        future.add_done_callback(self.ended.put)

    def rows(self, batches: Iterable[Batch]) -> list[Row]:
        """Has all jobs done, and tells each row as its batch ends."""
        for batch in batches:
            self.begin(batch)
        found = []
        while self.open:
            future = self.ended.get()
            for row in self.rows_in(self.open.pop(future), future):
                found.append(row)
                self.told(row)
        return found

    def rows_in(self, batch: Batch, future: Any) -> Iterator[Row]:
        """What the jobs of a batch came to, but those that are begun again."""
        try:
            rows: list[Row] = future.result()
        except (Exception, concurrent.futures.CancelledError) as fault:  # noqa: BLE001  (a worker is lost with all)
            said = console_line(f"{type(fault).__name__}: {fault}")
            yield from (Row(it.folder, it.job, FAILED, said) for it in batch if self.is_lost_for_good(it))
            return
        for task, row in zip(batch, rows):
            if row.result != LACKING:
                yield row
            elif self.is_lacking_for_good(task):
                yield replace(row, result=FAILED)

    def is_lost_for_good(self, task: Task) -> bool:
        """Counts that a job was lost, and begins it again unless that happened too often."""
        self.losses[task.folder] += 1
        if self.losses[task.folder] > MOST_LOSSES:
            return True
        self.begin((task,))
        return False

    def is_lacking_for_good(self, task: Task) -> bool:
        """Counts that a job came back for want of its index, and begins it again unless that happened too often."""
        self.lacks[task.folder] += 1
        if self.lacks[task.folder] >= MOST_LACKS:
            return True
        self.hand_out(task.index)
        self.begin((task,))
        return False


class Lost(Exception):
    """That a process was ended with the batch that it did."""


def hold_interrupts() -> None:
    """Has a thread, and what is started from it, wait with interrupts."""
    signal.pthread_sigmask(signal.SIG_BLOCK, {signal.SIGINT})


def serve(connection: Connection, others: Iterable[Connection] = ()) -> None:
    """Does the batches that come by a connection until it is closed; an interrupt ends it, and the job that it does, in
    silence. `others` are connections that aren't this process's, which it would keep open."""
    for it in others:
        it.close()
    for number in (signal.SIGTERM, signal.SIGINT):
        signal.signal(number, lambda *given: sys.exit(INTERRUPTED))
    signal.pthread_sigmask(signal.SIG_UNBLOCK, {signal.SIGINT})
    with contextlib.suppress(EOFError, OSError):
        while True:
            connection.send(done_all(connection.recv(), {}))


class Processes:
    """Processes of this machine that do batches. Each has a thread that hands them to it, so one that is lost is lost
    with the batch that it does alone, and another one takes its place.

    A copy of this process is there at once, where a new interpreter reads all modules first. But it is a safe one on
    Linux alone, and while this process has one thread: so the first ones are copies there, and later ones are new.
    """

    def __init__(self, count: int) -> None:
        self.of_thread = threading.local()
        self.begun: list[BaseProcess] = []
        self.ready: list[Connection] = []
        self.lock = threading.Lock()
        self.is_closed = False
        if sys.platform == "linux" and threading.active_count() == 1:
            for _ in range(count):
                self.ready.append(self.begin("fork", self.ready))
        self.threads = concurrent.futures.ThreadPoolExecutor(count, initializer=hold_interrupts)

    def submit(self, batch: Batch) -> concurrent.futures.Future[list[Row]]:
        return self.threads.submit(self.done, batch)

    def done(self, batch: Batch) -> list[Row]:
        connection = self.connection()
        try:
            connection.send(batch)
            found: list[Row] = connection.recv()
        except (EOFError, OSError):
            self.of_thread.connection = None
            raise Lost("the process that did it was ended") from None
        return found

    def connection(self) -> Connection:
        """The connection to the process of this thread."""
        found: Connection | None = getattr(self.of_thread, "connection", None)
        if found is None:
            with self.lock:
                if self.is_closed:
                    raise Lost("it wasn't begun")
                found = self.ready.pop() if self.ready else self.begin("spawn")
            self.of_thread.connection = found
        return found

    def begin(self, method: str, others: Iterable[Connection] = ()) -> Connection:
        """Begins a process, and answers the connection to it; `others` are those that a copy of this one closes."""
        context: Any = multiprocessing.get_context(method)
        found, other = context.Pipe()
        more = ([*others, found],) if method == "fork" else ()
        begun: BaseProcess = context.Process(target=serve, args=(other, *more), daemon=True)
        begun.start()
        other.close()
        self.begun.append(begun)
        connection: Connection = found
        return connection

    def close(self) -> None:
        """Ends all processes, with what they still do."""
        with self.lock:
            self.is_closed = True
            for it in self.begun:
                it.terminate()
        self.threads.shutdown(cancel_futures=True)
        for it in self.begun:
            it.join()


def on_this_machine(tasks: list[Task], workers: int, told: Told) -> list[Row]:
    """Each job is a process of its own. Where there are many, other processes start them, since one alone would take
    longer for it than small jobs do."""
    if len(tasks) <= FEW or workers == 1:
        with concurrent.futures.ThreadPoolExecutor(workers) as pool:
            return Runs(lambda batch: pool.submit(done_all, batch, {}), told).rows((it,) for it in tasks)
    with contextlib.closing(Processes(workers)) as processes:
        return Runs(processes.submit, told).rows(batches_of(tasks, workers))


class Cluster:
    """A Dask cluster. The jobs of a worker that is lost are done by others.

    An index that several jobs share is handed to each worker once, beside the queue of jobs: as the value of a job that
    others wait for, it would be lost with its worker, and a scheduler may then wait for ever. A worker that comes later
    says that it lacks the index, and gets it. An index of one project alone goes with its job.
    """

    def __init__(self, client: Any, archives: dict[str, bytes], tasks: list[Task]) -> None:
        self.client, self.archives, self.tasks = client, archives, tasks
        self.uses = Counter(it.index for it in tasks)

    def submit(self, batch: Batch) -> Any:
        more = {it.index: self.archives[it.index] for it in batch if it.files and self.uses[it.index] == 1}
        return self.client.submit(done_all, batch, more, pure=False, retries=3)

    def hand_out(self, index: str) -> None:
        """Hands an index to all workers that lack it."""
        found = self.client.run(is_kept, index, on_error="ignore")
        lacking = [worker for worker, has_it in found.items() if not has_it]
        if lacking:
            self.client.run(keep_index, index, self.archives[index], workers=lacking, on_error="ignore")

    def rows(self, told: Told) -> list[Row]:
        for index in self.archives:
            if self.uses[index] > 1:
                self.hand_out(index)
        threads = max(1, sum(self.client.nthreads().values()))
        return Runs(self.submit, told, self.hand_out).rows(batches_of(self.tasks, threads))


def on_cluster(tasks: list[Task], address: str, archives: dict[str, bytes], told: Told) -> list[Row]:
    try:
        distributed: Any = importlib.import_module("distributed")
    except ImportError:
        raise Refused("--scheduler wants the library `distributed` (pip install distributed)", 2) from None
    try:
        client = distributed.Client(address, timeout=20)
    except (OSError, ValueError) as fault:
        raise Refused(f"{address}: no scheduler answers: {fault}", 3) from None
    with client:
        return Cluster(client, archives, tasks).rows(told)
