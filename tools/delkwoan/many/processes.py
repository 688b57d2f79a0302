"""The processes of a run: those of this machine that check, and Dask's workers, of this machine or of a cluster."""

import logging
import multiprocessing
import os
import signal
import sys
import tempfile
import threading
import time
import warnings
from concurrent.futures import Executor, Future, ProcessPoolExecutor
from contextlib import ExitStack, contextmanager
from multiprocessing import resource_tracker
from types import FrameType
from typing import Any, Callable, Iterator, ParamSpec, TypeVar

from ..ending import Stop

P = ParamSpec("P")
T = TypeVar("T")

SELDOM = {
    "distributed.worker.profile.interval": "1s",
    "distributed.admin.tick.interval": "1s",
    "distributed.admin.system-monitor.interval": "10s",
}
"""How often Dask's processes look at themselves: by its own settings so often that five of them take a fifth of a processor."""


INTERRUPTS = (signal.SIGINT, signal.SIGTERM)
"""What ends a run, also where a terminal or a unit sends it to all of its processes."""
LONGEST_END = 60
"""The seconds that a run which was interrupted may take to end its processes. Those that are left end by themselves where it is gone."""


def begin_check() -> None:
    """In a process that checks: leaves an interrupt of the terminal to the run, and ends where the run has."""
    signal.signal(signal.SIGINT, signal.SIG_IGN)
    signal.pthread_sigmask(signal.SIG_UNBLOCK, INTERRUPTS)
    parent = os.getppid()

    def watch() -> None:
        while os.getppid() == parent:
            time.sleep(1)
        os._exit(0)

    threading.Thread(target=watch, daemon=True).start()


def interrupt(number: int, _: FrameType | None) -> None:
    """Ends the run in order, in which no further interrupt disturbs it; where that takes too long, ends it as it is."""
    for it in INTERRUPTS:
        signal.signal(it, signal.SIG_IGN)
    signal.signal(signal.SIGALRM, lambda *_: os._exit(128 + number))
    signal.alarm(LONGEST_END)
    raise SystemExit(128 + number)


@contextmanager
def uninterrupted() -> Iterator[None]:
    """An interrupt is the run's, which takes it behind this: what is started meanwhile inherits that it is blocked."""
    resource_tracker.ensure_running()  # it would unblock the interrupts
    signal.pthread_sigmask(signal.SIG_BLOCK, INTERRUPTS)
    try:
        yield
    finally:
        signal.pthread_sigmask(signal.SIG_UNBLOCK, INTERRUPTS)


def quiet(ending: ExitStack) -> int:
    """Has what the processes of a run say while they end or are lost go nowhere, until its end; gives where the errors went before."""
    if sys.stderr is None:
        return 2  # it was closed from the start, and may be any file
    errors, nowhere = os.dup(2), os.open(os.devnull, os.O_WRONLY)
    ending.callback(os.close, errors)
    ending.callback(os.dup2, errors, 2)
    os.dup2(nowhere, 2)
    os.close(nowhere)
    return errors


class Checks(ProcessPoolExecutor):
    """Processes that check, each started once it is wanted."""

    def submit(self, act: Callable[P, T], /, *given: P.args, **named: P.kwargs) -> Future[T]:
        with uninterrupted():
            return super().submit(act, *given, **named)


def checking(count: int, ending: ExitStack) -> Executor:
    """So many processes of this machine that check; what they have not begun is dropped in the end."""
    checks = Checks(count, multiprocessing.get_context("spawn"), begin_check)
    ending.callback(checks.shutdown, cancel_futures=True)
    return checks


@contextmanager
def own_room() -> Iterator[str]:
    """A folder for temporary files of the processes that are started meanwhile, so that what a killed one leaves goes with it."""
    before = os.environ.get("TMPDIR")
    with tempfile.TemporaryDirectory(ignore_cleanup_errors=True) as room:
        os.environ["TMPDIR"] = room
        try:
            yield room
        finally:
            os.environ.pop("TMPDIR")
            os.environ |= {} if before is None else {"TMPDIR": before}


def connected(scheduler: str | None, count: int, ending: ExitStack) -> Any:
    """A client of the scheduler that is named, or of this many workers that are processes of this machine.

    Dask has its processes talk over ports, and whoever gets in there runs what he likes. So on this machine they talk over TLS, both
    sides by a key that Dask makes for the run and that no file has.
    """
    import dask
    from distributed import Client, LocalCluster

    logging.disable(logging.CRITICAL)  # what is lost or ends is the run's to tell
    warnings.filterwarnings("ignore", "Large object", UserWarning)  # a market's files go to one worker alone
    room = ending.enter_context(own_room())
    if scheduler:
        try:
            return ending.enter_context(Client(scheduler))
        except (OSError, ValueError):
            raise Stop(21, f"no scheduler at {scheduler}") from None
    dask.config.set(SELDOM)
    settings = {"n_workers": count, "threads_per_worker": 1, "memory_limit": 0, "local_directory": room, "security": True}
    with uninterrupted():
        cluster = ending.enter_context(LocalCluster(**settings, dashboard_address="127.0.0.1:0", silence_logs=logging.CRITICAL))
        client = ending.enter_context(Client(cluster))
        client.register_worker_plugin(Passing())
    return client


class Passing:
    """A plugin of this machine's workers: an interrupt that all processes get ends what a worker runs, and not the worker."""

    name = "passing"

    def setup(self, worker: Any) -> None:
        for it in INTERRUPTS:
            signal.signal(it, lambda *_: None)
        signal.pthread_sigmask(signal.SIG_UNBLOCK, INTERRUPTS)
