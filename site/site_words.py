"""What a run of tunes-site says, by which status it ends, and whole files."""
import signal
import sys
from typing import NoReturn

DONE, REFUSED, BAD_WORDS, NO_ARCHIVE, NO_TOOL = range(5)
# The signals that end a run.
CAUGHT = (signal.SIGHUP, signal.SIGINT, signal.SIGTERM)


class Stopped(Exception):
    """Why the command ends without a site, and its status."""

    def __init__(self, why: str, status: int = REFUSED) -> None:
        super().__init__(why)
        self.why, self.status = why, status


def say(words: str) -> None:
    print(f'tunes-site: {words}', file=sys.stderr)


def bad(words: str) -> NoReturn:
    raise Stopped(f'{words}; `tunes-site --help` tells how it is called', BAD_WORDS)


def read_file(path: str) -> bytes:
    try:
        with open(path, 'rb') as file:
            return file.read()
    except FileNotFoundError:
        return b''


def write_file(path: str, data: bytes) -> None:
    with open(path, 'xb') as file:
        file.write(data)
