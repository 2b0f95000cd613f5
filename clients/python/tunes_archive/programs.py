"""The programs `tunes` and `tunes-desk`: where they are, and of which version."""
import os
import re
import shutil
from dataclasses import dataclass
from typing import Dict, Optional, Tuple, Union

from .errors import NoProgram
from .runs import Ended, Run, Slow

WANTED = '0.1'
"""The version of the programs that this client is for: this one, and what it is with more points.
"""

# How many seconds a program has to tell its version.
PATIENCE = 60.0
_VERSION = re.compile(rb'tunes(?:-book|-desk)? ([0-9]+(?:\.[0-9]+)*)[^\n]*\n')
_HOW = 'install it (README.md, "Install"), or name it by {}, as in {}=/usr/bin/{}'

Path = Union[str, bytes, 'os.PathLike[str]', 'os.PathLike[bytes]']

_asked: Dict[Tuple[str, int, int], str] = {}


@dataclass(frozen=True)
class Programs:
    """The programs, by their whole paths."""

    tunes: str
    tunes_desk: str


def find_programs(tunes: Optional[Path] = None, tunes_desk: Optional[Path] = None) -> Programs:
    """The programs, each of which has told that it is of the version that is wanted.

    Each is what is named here; else what the variable TUNES or TUNES_DESK names; else the one
    beside the other, where that is named; else the one on PATH. A name without a folder is looked
    for on PATH.

    Errors: `NoProgram`.
    """
    first = named(tunes, 'TUNES')
    second = named(tunes_desk, 'TUNES_DESK')
    found = Programs(
        found_program('tunes', 'TUNES', first, beside(second, 'tunes')),
        found_program('tunes-desk', 'TUNES_DESK', second, beside(first, 'tunes-desk')))
    ask_version(found.tunes)
    ask_version(found.tunes_desk)
    return found


def named(path: Optional[Path], variable: str) -> Optional[str]:
    """What a call or a variable names."""
    if path is not None:
        return os.fsdecode(path)
    return os.environ.get(variable) or None


def beside(path: Optional[str], name: str) -> Optional[str]:
    """The program of that name beside another, or the one that a build leaves in its folder."""
    whole = shutil.which(path) if path else None
    if whole is None:
        return None
    folder = os.path.dirname(os.path.abspath(whole))
    built = name.replace('-', '_')
    for place in (os.path.join(folder, name),
                  os.path.join(folder, os.pardir, os.pardir, built, 'out', built)):
        if is_program(place):
            return place
    return None


def is_program(path: str) -> bool:
    return os.path.isfile(path) and os.access(path, os.X_OK)


def found_program(name: str, variable: str, told: Optional[str], other: Optional[str]) -> str:
    """The whole path of a program."""
    found = shutil.which(told) if told else other or shutil.which(name)
    if not found:
        raise NoProgram(f'the program {told or name} is not found',
                        _HOW.format(variable, variable, name))
    return os.path.abspath(found)


def ask_version(program: str) -> None:
    """Asks a program once, while it stays what it is, for its version."""
    try:
        about = os.stat(program)
    except OSError as error:
        raise NoProgram(f'the program {program} is not found: {error}') from error
    known = program, about.st_ino, about.st_mtime_ns
    if known not in _asked:
        _asked[known] = version_of(program)
    version = _asked[known]
    if version != WANTED and not version.startswith(WANTED + '.'):
        raise NoProgram(f'the program {program} is of version {version}, and this client is for '
                        f'version {WANTED}', 'install programs and client of one version')


def version_of(program: str) -> str:
    """The version that a program tells."""
    run = Run(program, [b'--version'], None, PATIENCE)
    try:
        status, output = run.finish()
    except Slow as slow:
        raise NoProgram(
            f'the program {program} did not tell its version in {PATIENCE:.0f} seconds',
            'if it is the launcher of the repository, let it build first, by `./build`') from slow
    except Ended as ended:
        raise NoProgram(f'the program {program} did not tell its version') from ended
    finally:
        run.end()
    told = _VERSION.fullmatch(output)
    if status != 0 or told is None:
        raise NoProgram(
            f'{program} did not tell that it is a program of tunes, but wrote '
            f'{(output or run.errors)[:200]!r}, with status {status}',
            f'this client is for version {WANTED} of tunes and tunes-desk')
    return told[1].decode('ascii')
