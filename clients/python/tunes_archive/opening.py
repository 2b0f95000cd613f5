"""How a file is opened, and what is said where it is not."""
import os
from typing import List, Optional, Tuple, Union

from .errors import ArchiveFault, Damaged, Device, InUse, NotArchive, OutOfMemory, Refused
from .errors import TunesError, Unopened
from .programs import Path
from .replies import NoReply, refusal_in
from .texts import label_of

# This line is refused wherever an archive is open, and changes nothing.
PROBE = b'set-show .\n'
PROBED = 11

MAKE = 'look at the path, or make an archive by Archive.make'
WAIT = 'wait until that ends, or let `wait` be longer'
RIGHTS = ('look at the permissions: a change needs to read and write the file, a question needs to '
          'read it')
MEND = 'let one who may write to it open it once, as by `tunes-book check`'

# What the programs say of a path, by how it begins; and what is raised for it.
_IN_USE = (b'another program has it',
           b'a stop left it within a change, and another program has it')
_MISSING = (b'there is no such file', b'No such file', b'Not a directory', b'entity not found')
_NO_FILE = (b'not a regular file', b'it is no regular file', b'Is a directory',
            b'File name too long', b'Too many levels of symbolic links')
_RIGHTS = (b'Permission denied', b'permission denied', b'Operation not permitted',
           b'Read-only file system')


def path_word(path: Path) -> bytes:
    """A path as a word that no program takes for an option.

    ValueError: it is empty, or no UTF-8: the programs take no other.
    """
    name = os.fsencode(path)
    if not name:
        raise ValueError('the path is empty')
    if b'\0' in name:
        raise ValueError('a path has no NUL')
    try:
        name.decode('utf-8')
    except UnicodeDecodeError as error:
        raise ValueError(f'the path {name!r} is not UTF-8, and the programs take no other: give '
                         'the file another name, or a link to it one') from error
    return b'./' + name if name.startswith(b'-') else name


def folder_for(path: bytes) -> Optional[bytes]:
    """The folder in which a path is to be read, where it is not a whole one."""
    return None if path.startswith(b'/') else os.getcwdb()


def causes_in(errors: bytes, path: bytes) -> List[bytes]:
    """What the programs say of a path on standard error, line by line. The path may have line ends.
    """
    found = []
    for program in (b'tunes: ', b'tunes-book: '):
        pieces = (b'\n' + errors).split(b'\n' + program + path + b': ')[1:]
        found += [piece.partition(b'\n')[0] for piece in pieces]
    return found


def is_in_use(output: bytes, errors: bytes, path: bytes) -> bool:
    """Whether a program did nothing, since another one has the file."""
    if output not in (b'', b'refused 22 Device\n'):
        return False
    return any(cause.startswith(_IN_USE) for cause in causes_in(errors, path))


def why_unopened(output: bytes, errors: bytes, path: bytes, status: int) -> TunesError:
    """What is to be raised where a program did not open the file at a path.

    `output` is all that it wrote: nothing, or a refusal.
    """
    causes = causes_in(errors, path)
    said = '; '.join(label_of(cause) for cause in causes) or label_of(errors.strip())
    where = label_of(path)
    for fronts, kind, what_to_do in (
            (_IN_USE, InUse, WAIT), (_MISSING, Unopened, MAKE),
            (_NO_FILE, Unopened, 'look at the path'), (_RIGHTS, Unopened, RIGHTS)):
        if output in (b'', b'refused 22 Device\n') and any(
                cause.startswith(fronts) for cause in causes):
            return kind(f'{where} was not opened: {said}', what_to_do)
    refused = refusal_of_opening(output, causes, said)
    if refused is not None:
        return refused
    if any(cause.startswith(b'a stop left it within a change') for cause in causes):
        return Unopened(f'{where} was not opened: {said}', MEND)
    return ArchiveFault(f'the program did not open {where}, and ended with status {status}: '
                        f'{said or repr(output[:200])}', 'look at the program and at the file')


def refusal_of_opening(output: bytes, causes: List[bytes], said: str) -> Optional[Refused]:
    """The refusal that a program tells by a reply, or in words on standard error."""
    if output:
        return refusal_of_output(output, said)
    for front, kind in ((b'the file is no archive', NotArchive),
                        (b'the archive is damaged', Damaged),
                        (b'there is not memory enough', OutOfMemory)):
        if any(cause.startswith(front) for cause in causes):
            return kind()
    for front in (b'the device failed', b'the file cannot be read'):
        if any(cause.startswith(front) for cause in causes):
            return Device(said)
    return None


def refusal_of_output(output: bytes, said: str) -> Optional[Refused]:
    """The refusal that is the one line of an output."""
    if not output.endswith(b'\n') or b'\n' in output[:-1]:
        return None
    try:
        refused = refusal_in(output[:-1])
    except NoReply:
        return None
    return Device(said) if isinstance(refused, Device) else refused
