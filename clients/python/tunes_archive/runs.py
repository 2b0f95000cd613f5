"""Runs of the programs. A script is written while its replies are read, so no pipe fills up.

A program lives no longer than the pipes to it: it ends when its standard input ends. That is so
where it is let go of, and where this process ends, in whatever way.
"""
import os
import select
import signal
import socket
import subprocess
from contextlib import contextmanager
from typing import Iterator, List, Optional, Sequence, Tuple, TypeVar, Union

from .errors import NoProgram, Refused
from .replies import NoReply, Taker, outcome_of

T = TypeVar('T')

PIECE = 65_536
LONGEST_REPLY_LINE = 1_048_576
MOST_ERRORS = 65_536
# From so many seconds on it is waited without end.
MOST_PATIENCE = 1_000_000.0
# How many seconds a program has to end by itself, before it is killed.
GRACE = 5.0


class Ended(Exception):
    """A program ended before all of its reply came."""


class Slow(Exception):
    """A program gave nothing, and took nothing, for as long as it may."""


class Run:
    """A run of a program.

    Errors: `NoProgram` where it cannot be started. A call of it that raises anything else leaves
    it for nothing but `end`.
    """

    def __init__(self, program: str, words: Sequence[bytes], folder: Optional[bytes],
                 patience: Optional[float]) -> None:
        self._patience = patience
        self._script = memoryview(b'')
        self._replies = bytearray()
        self._at = 0
        self.errors = b''
        self._output_ended = False
        self._errors_ended = False
        with low_descriptors():
            self._input, given = socket.socketpair()
            with given:
                self._process = self._started(program, words, folder, given)
        assert self._process.stdout and self._process.stderr
        self._output, self._told = self._process.stdout, self._process.stderr
        for stream in (self._input, self._output, self._told):
            os.set_blocking(stream.fileno(), False)

    def _started(self, program: str, words: Sequence[bytes], folder: Optional[bytes],
                 given: socket.socket) -> 'subprocess.Popen[bytes]':
        """A program that was started, in a session of its own: a signal that a terminal sends to a
        group of programs is for this process alone."""
        name = os.fsencode(os.path.basename(program))
        try:
            return subprocess.Popen([name, *words], executable=program, cwd=folder, bufsize=0,
                                    stdin=given, stdout=subprocess.PIPE, stderr=subprocess.PIPE,
                                    start_new_session=True)
        except OSError as error:
            self._input.close()
            raise NoProgram(f'the program {program} could not be started: {error}') from error

    # ASKING

    def exchange(self, script: bytes, takers: Sequence[Taker[T]]) -> List[Union[T, Refused]]:
        """Writes a script, and reads a reply to each of its commands, until one ends the run."""
        self._nothing_more()
        self._script = memoryview(script)
        outcomes: List[Union[T, Refused]] = []
        for taker in takers:
            outcome = outcome_of(taker, self)
            outcomes.append(outcome)
            if isinstance(outcome, Refused) and ends_run(outcome):
                return outcomes
        self._nothing_more()
        if self._script:
            raise NoReply(b'')
        return outcomes

    def line(self) -> bytes:
        """The next line, without its line feed."""
        looked = self._at
        while True:
            end = self._replies.find(b'\n', looked)
            if end >= 0:
                found = bytes(self._replies[self._at:end])
                self._at = end + 1
                return found
            if len(self._replies) - self._at > LONGEST_REPLY_LINE:
                raise NoReply(bytes(self._replies[self._at:]))
            self._drop_read()
            looked = len(self._replies)
            self._read_more()

    def exactly(self, length: int) -> bytes:
        """So many bytes."""
        self._drop_read()
        while len(self._replies) < length:
            self._read_more()
        self._at = length
        with memoryview(self._replies) as view:
            return bytes(view[:length])

    def _nothing_more(self) -> None:
        """There are no bytes that nobody asked for."""
        if self._at < len(self._replies):
            raise NoReply(bytes(self._replies[self._at:]))

    def is_idle(self) -> bool:
        """Whether it goes on, and has written nothing that nobody asked for."""
        with unbroken():
            if self._at < len(self._replies) or self._process.poll() is not None:
                return False
        poll = select.poll()
        poll.register(self._output, select.POLLIN)
        return not poll.poll(0)

    def _drop_read(self) -> None:
        del self._replies[:self._at]
        self._at = 0

    def _read_more(self) -> None:
        before = len(self._replies)
        while len(self._replies) == before:
            if self._output_ended:
                raise Ended()
            self._turn()

    # PIPES

    def _turn(self) -> None:
        """Waits until a byte can be read or written, and reads and writes what can be."""
        poll = select.poll()
        if not self._output_ended:
            poll.register(self._output, select.POLLIN)
        if not self._errors_ended:
            poll.register(self._told, select.POLLIN)
        if self._script:
            poll.register(self._input, select.POLLOUT)
        patience = MOST_PATIENCE if self._patience is None else self._patience
        ready = poll.poll(None if patience >= MOST_PATIENCE else max(1, int(patience * 1000)))
        if not ready:
            raise Slow()
        for descriptor, _ in ready:
            if descriptor == self._output.fileno():
                self._read_output()
            elif descriptor == self._told.fileno():
                self._read_errors()
            else:
                self._write_script()

    def _read_output(self) -> None:
        piece = read_piece(self._output.fileno())
        if piece is not None:
            self._replies += piece
            self._output_ended = not piece

    def _read_errors(self) -> None:
        piece = read_piece(self._told.fileno())
        if piece is not None:
            self.errors = (self.errors + piece)[:MOST_ERRORS]
            self._errors_ended = not piece

    def _write_script(self) -> None:
        try:
            # Where it reads no more there is an error, and never a signal: what this process does
            # at a signal is its own.
            written = self._input.send(self._script[:PIECE], socket.MSG_NOSIGNAL)
        except BlockingIOError:
            return
        except (BrokenPipeError, ConnectionResetError):
            # It reads no more. What it wrote before that is still to be read.
            written = len(self._script)
        self._script = self._script[written:]

    # THE END

    def finish(self, script: bytes = b'', patience: Optional[float] = None) -> Tuple[int, bytes]:
        """Writes a script, reads to the end, and gives the status and what was not yet taken."""
        if patience is not None:
            self._patience = patience
        self._script = memoryview(script)
        while not (self._output_ended and self._errors_ended):
            if not self._script:
                self._input.close()
            self._turn()
        return self.end(), bytes(self._replies[self._at:])

    def end(self) -> int:
        """Lets the program end, and gives its status. One that does not end is killed."""
        with unbroken():
            try:
                self._close()
                return self._process.wait(GRACE)
            except subprocess.TimeoutExpired:
                pass
            finally:
                self._kill()
            return self._process.wait(GRACE)

    def forget(self) -> None:
        """Lets go of a program that another process has started, which this one came of."""
        self._close()
        self._process.returncode = 0

    def _close(self) -> None:
        self._script = memoryview(b'')
        while not (self._told.closed or self._errors_ended):
            before = len(self.errors)
            self._read_errors()
            if len(self.errors) == before:
                break
        for stream in (self._input, self._output, self._told):
            stream.close()

    def _kill(self) -> None:
        """Kills the program with all that it started, where it has not ended."""
        if self._process.poll() is not None:
            return
        try:
            os.killpg(self._process.pid, signal.SIGKILL)
        except (ProcessLookupError, PermissionError):
            self._process.kill()
        self._process.wait(GRACE)


@contextmanager
def unbroken() -> Iterator[None]:
    """Has an interrupt by SIGINT wait: half a start or half an end would leave a program behind."""
    before = signal.pthread_sigmask(signal.SIG_BLOCK, [])
    try:
        signal.pthread_sigmask(signal.SIG_BLOCK, [signal.SIGINT])
        yield
    finally:
        signal.pthread_sigmask(signal.SIG_SETMASK, before)


@contextmanager
def low_descriptors() -> Iterator[None]:
    """Has the descriptors 0, 1 and 2 taken. Where one of them is closed, what this process prints
    would else be written to a program."""
    taken = [os.open(os.devnull, os.O_RDONLY) for _ in range(3)]
    try:
        yield
    finally:
        for descriptor in taken:
            os.close(descriptor)


def read_piece(descriptor: int) -> Optional[bytes]:
    """Some bytes, none at the end; None where there are none yet."""
    try:
        return os.read(descriptor, PIECE)
    except BlockingIOError:
        return None


def ends_run(refused: Refused) -> bool:
    """Whether nothing is to be asked behind this refusal."""
    return refused.number in (22, 23, 30, 40, 41)
