"""The file of one archive: when it is opened, and when it is let go of.

A keeper has one run at most: of `tunes-desk ask`, which reads beside others that read, or of
`tunes run`, which has the file alone. Calls of several threads come one after another. A thread
lets go of a run that was not used for a while; it is in no call.
"""
import _thread
import enum
import math
import os
import threading
import time
import weakref
from contextlib import contextmanager
from typing import (
    Callable, ContextManager, Iterator, List, Optional, Sequence, Tuple, TypeVar, Union)

from . import runs
from .errors import ArchiveFault, Closed, Device, InUse, Refused
from .opening import PROBE, PROBED, folder_for, is_in_use, path_word, why_unopened
from .programs import Path, Programs
from .replies import NoReply, Source, Taker
from .results import ScriptRun
from .runs import Ended, Run, Slow, ends_run, unbroken
from .texts import label_of

T = TypeVar('T')

# How many seconds go by between two tries for a file that another program has.
PAUSE = 0.05
# How many lines a run reads.
MOST_LINES = 1_000_000
# How many characters of standard error are told.
MOST_SAID = 1_000
LOOK = 'where a change was asked for, look whether it took place before you ask for it again'


class Use(enum.Enum):
    """What a run is for."""

    ASKING = 'tunes-desk ask'
    CHANGING = 'tunes run'


class Keeper:
    """The run of an archive, and the file behind it."""

    def __init__(self, path: Path, hold: float, wait: float, patience: Optional[float],
                 programs: Programs) -> None:
        self.path = path_word(path)
        self._folder = folder_for(self.path)
        self._programs = programs
        self._hold = seconds(hold, 'hold')
        self._wait = seconds(wait, 'wait')
        self._patience = None if patience is None else seconds(patience, 'patience')
        self._run: Optional[Run] = None
        self._use = Use.ASKING
        self._lines = 0
        # When the run is let go of, unless it is used again before.
        self._end = math.inf
        self._failed: Optional[Device] = None
        self._closed = False
        self._forks = 0
        self._unlock()
        _keepers.add(self)

    def _unlock(self) -> None:
        """No call is made, no block is entered, and no thread watches."""
        self._lock = threading.RLock()
        # It is free once the run was let go of, for the thread that watches.
        self._left = _thread.allocate_lock()
        self._left.acquire()
        self._watched = False
        self._within = False
        self._blocks: List[Use] = []

    # CALLS

    def ask(self, script: bytes, takers: Sequence[Taker[T]]) -> List[T]:
        """What the questions of a script give; or the first refusal among these is raised."""
        return self._call(Use.ASKING, script, takers)

    def change(self, script: bytes, taker: Taker[T]) -> T:
        """What the one command of a script gives that changes the archive, unless it is refused."""
        given, = self._call(Use.CHANGING, script, [taker])
        return given

    def _call(self, use: Use, script: bytes, takers: Sequence[Taker[T]]) -> List[T]:
        with self._lock:
            self._begin()
            try:
                run = self._run_for(use, len(takers))
                outcomes = self._exchange(run, script, takers)
                self._lines += len(takers)
                if self._use is use:
                    self._end = time.monotonic() + self._hold
                if not self._blocks and not self._is_held():
                    self._leave()
            finally:
                self._within = False
        given: List[T] = []
        for outcome in outcomes:
            if isinstance(outcome, Refused):
                raise outcome
            given.append(outcome)
        return given

    def _begin(self) -> None:
        """A call begins."""
        if self._within:
            raise RuntimeError('an archive is asked within a call of it, as by a signal')
        if self._failed is not None:
            raise Device(self._failed.cause)
        if self._closed:
            raise ValueError('the archive is closed: Archive.reopen() has it take calls again')
        self._within = True

    def _exchange(self, run: Run, script: bytes, takers: Sequence[Taker[T]]
                  ) -> List[Union[T, Refused]]:
        """What each taker gives. Whatever goes wrong ends the run."""
        try:
            outcomes = run.exchange(script, takers)
        except BaseException as error:
            self._leave()
            raise_fault(error, run)
            raise
        for outcome in outcomes:
            if isinstance(outcome, Refused) and ends_run(outcome):
                self._leave_failed(run, outcome)
        return outcomes

    def _leave_failed(self, run: Run, refused: Refused) -> None:
        """Ends a run that goes no further. After a 22 this takes no more calls."""
        self._run = None
        try:
            run.finish(patience=runs.GRACE)
        except Slow:
            pass
        finally:
            run.end()
        if isinstance(refused, (Device, Closed)):
            self._failed = Device(label_of(run.errors.strip()))
            raise Device(self._failed.cause)

    # OPENING

    def _run_for(self, use: Use, lines: int) -> Run:
        """A run over the open file, for so many lines more."""
        run = self._run
        if self._blocks:
            self._check_block(use, lines)
        elif run is not None and (self._use is use or use is Use.ASKING):
            if self._lines + lines > MOST_LINES or not run.is_idle():
                run = None
        else:
            run = None
        if run is None:
            self._leave()
            run = self._open(use)
        return run

    def _check_block(self, use: Use, lines: int) -> None:
        """Within a block the run goes on, or nothing does: others may change the file between."""
        if use is Use.CHANGING and self._blocks[0] is Use.ASKING:
            raise RuntimeError('a change within reading(): write changing() in its place')
        if self._run is None or not self._run.is_idle():
            self._leave()
            raise ArchiveFault('the program ended, and let go of the file within the block',
                               'leave the block; ' + LOOK)
        if self._lines + lines > MOST_LINES:
            raise ArchiveFault(f'a run has {MOST_LINES:,} lines, and no more',
                               'leave the block, and begin another one')

    def _open(self, use: Use) -> Run:
        deadline = time.monotonic() + self._wait
        while True:
            run, why = self._try_open(use)
            if run is not None:
                break
            if why is not None:
                self._wait_or_raise(why, deadline)
        self._run, self._use, self._lines = run, use, 1
        self._end = time.monotonic() + self._hold
        self._watch()
        return run

    def _wait_or_raise(self, why: Exception, deadline: float) -> None:
        """Waits a little where another program has the file, as long as there is time."""
        left = deadline - time.monotonic()
        if not isinstance(why, InUse) or left <= 0:
            if isinstance(why, Device):
                self._failed = why
            raise why
        time.sleep(min(PAUSE, left))

    def _start(self, use: Use) -> Run:
        if use is Use.CHANGING:
            return self._started(self._programs.tunes, [b'run', self.path])
        return self._started(self._programs.tunes_desk, self._asking(b'ask'))

    def _started(self, program: str, words: Sequence[bytes]) -> Run:
        return Run(program, words, self._folder, self._patience)

    def _asking(self, order: bytes) -> List[bytes]:
        """The words of the program that asks. It does not wait for the file: while it did, it would
        not see that its standard input ended, and would outlive this process."""
        return [b'-f', self.path, b'--wait', b'0', order]

    def _try_open(self, use: Use) -> Tuple[Optional[Run], Optional[Exception]]:
        """A run over the open file; or why there is none."""
        run: Optional[Run] = None
        opened = False
        try:
            with unbroken():
                run = self._start(use)
            line = first_line(run)
            if line == b'refused %d NoSuchSet' % PROBED:
                self._run = run
                opened = True
                return run, None
            status, rest = run.finish(patience=runs.GRACE)
            output = rest if line is None else b'%b\n%b' % (line, rest)
            return None, why_unopened(output, run.errors, self.path, status)
        except BaseException as error:
            opened = False
            if run is not None:
                raise_fault(error, run)
            raise
        finally:
            if run is not None and not opened:
                run.end()

    # RUNS OF THEIR OWN

    def run_script(self, use: Use, script: bytes) -> ScriptRun:
        """A whole script, in a run of its own."""
        return self._once(None, lambda: self._start(use), script)

    def make(self) -> None:
        """Makes an empty archive in the file."""
        ended = self._once(None, lambda: self._started(
            self._programs.tunes, [b'make', self.path]), b'')
        if (ended.status, ended.replies) != (0, b'made\n'):
            raise why_unopened(ended.replies, ended.errors, self.path, ended.status)

    def check(self) -> ScriptRun:
        """What the program tells that counts what an archive holds."""
        return self._once(Use.ASKING, lambda: self._started(
            self._programs.tunes_desk, self._asking(b'check')), b'')

    def _once(self, beside: Optional[Use], start: Callable[[], Run], script: bytes) -> ScriptRun:
        """A run to its end. The run that is kept goes on beside it only where it is for this."""
        with self._lock:
            self._begin()
            try:
                if self._run is not None and self._use is not beside:
                    if self._blocks:
                        raise RuntimeError('the file is open within a block: leave that before')
                    self._leave()
                return self._run_to_end(start, script)
            finally:
                self._within = False

    def _run_to_end(self, start: Callable[[], Run], script: bytes) -> ScriptRun:
        deadline = time.monotonic() + self._wait
        while True:
            run: Optional[Run] = None
            try:
                with unbroken():
                    run = start()
                status, output = run.finish(script)
            except BaseException as error:
                if run is not None:
                    raise_fault(error, run)
                raise
            finally:
                if run is not None:
                    run.end()
            if not is_in_use(output, run.errors, self.path):
                return ScriptRun(status, output, run.errors)
            self._wait_or_raise(why_unopened(output, run.errors, self.path, status), deadline)

    # LETTING GO

    def let_go(self) -> None:
        """Lets go of the file."""
        with self._lock:
            if self._blocks:
                raise RuntimeError('within a block the file stays open: leave the block')
            self._leave()

    def close(self) -> None:
        """Lets go of the file, and takes no more calls."""
        with self._lock:
            self._closed = True
            self._leave()

    def reopen(self) -> None:
        """Takes calls again."""
        with self._lock:
            self._closed = False
            self._failed = None

    def abandon(self) -> None:
        """Lets go of the file where nobody can call any more. Whatever a thread still does ends
        with this process, and the pipes to a program with it."""
        if self._lock.acquire(timeout=runs.GRACE):
            try:
                self._leave()
            finally:
                self._lock.release()

    def _leave(self) -> None:
        with unbroken():
            run, self._run = self._run, None
            if run is not None:
                run.end()
                if self._watched and self._left.locked():
                    self._left.release()

    def _is_held(self) -> bool:
        """Whether the file stays open behind a call: something lets go of it in time then."""
        return self._watched or self._hold == math.inf

    def _watch(self) -> None:
        """Has a thread let go of the file in time, where there can be one. A signal that raises
        while `threading.Thread` starts one may leave its locks taken, so this is a plain one."""
        if not self._watched and 0 < self._hold < math.inf:
            started = False
            try:
                with unbroken():
                    _thread.start_new_thread(self._let_go_in_time, (self._lock, self._left))
                    started = True
            except RuntimeError:
                # There are too many, or this process is about to end.
                pass
            finally:
                self._watched = started

    def _let_go_in_time(self, lock: ContextManager[object], left: '_thread.LockType') -> None:
        while True:
            with lock:
                seconds_left = self._end - time.monotonic()
                if self._run is None or seconds_left <= 0:
                    self._leave()
                    self._watched = False
                    return
            left.acquire(timeout=min(seconds_left, threading.TIMEOUT_MAX))

    def forget(self) -> None:
        """Lets go of a run that belongs to the process of which this one was forked."""
        run, self._run = self._run, None
        self._forks += 1
        self._unlock()
        if run is not None:
            run.forget()

    # BLOCKS

    @contextmanager
    def block(self, use: Use) -> Iterator[None]:
        """Keeps the file open for the calls within, and lets go of it at the end."""
        with self._lock:
            forks, outer = self._forks, len(self._blocks)
            try:
                # An interrupt may come behind its last step: the block was entered then.
                self._enter(use)
                yield
            finally:
                if forks == self._forks and len(self._blocks) > outer:
                    del self._blocks[outer:]
                    if not self._blocks:
                        self._leave()

    def _enter(self, use: Use) -> None:
        self._begin()
        try:
            if self._blocks:
                self._check_block(use, 0)
            else:
                if self._use is not use:
                    self._leave()
                # A run that goes on has lines enough for a block.
                self._run_for(use, MOST_LINES // 2)
            self._blocks.append(use)
        finally:
            self._within = False


def seconds(given: float, what: str) -> float:
    """How many seconds are given."""
    number = float(given)
    if not number >= 0:
        raise ValueError(f'{what} is a number of seconds, and not {given!r}')
    return number


def first_line(run: Run) -> Optional[bytes]:
    """What a run answers first, to a line that is refused wherever an archive is open; None where
    it ends before."""
    def line(source: Source) -> bytes:
        return source.line()
    try:
        answer, = run.exchange(PROBE, [line])
    except Ended:
        return None
    return answer if isinstance(answer, bytes) else None


def raise_fault(error: BaseException, run: Run) -> None:
    """Ends a run in which something went wrong. Raises a fault where that was the program's."""
    status = run.end()
    said = label_of(run.errors.strip())[:MOST_SAID]
    behind = f' ({said})' if said else ''
    if isinstance(error, Ended):
        ending = f'signal {-status}' if status < 0 else f'status {status}'
        raise ArchiveFault(f'the program ended before its reply was whole, by {ending}{behind}',
                           LOOK) from error
    if isinstance(error, Slow):
        raise ArchiveFault(f'the program gave no answer in time, and was ended{behind}',
                           LOOK + '; or let `patience` be longer') from error
    if isinstance(error, NoReply):
        raise ArchiveFault(f'the program does not answer as tunes does: {error}{behind}',
                           'look at which programs are called; ' + LOOK) from error


# A process that is forked has pipes to the programs of the other one: it lets go of them, so that
# these end when that one lets go of them, and asks by programs of its own.
_keepers: 'weakref.WeakSet[Keeper]' = weakref.WeakSet()


def _forget_all() -> None:
    for keeper in list(_keepers):
        keeper.forget()


os.register_at_fork(after_in_child=_forget_all)
