"""The folder of a site, which is made anew as a whole, or stays as it was."""
import contextlib
import ctypes
import errno
import fcntl
import json
import os
import re
import shutil
import signal
import subprocess
from typing import Dict, Iterator

from site_words import CAUGHT, Stopped, bad, read_file, write_file

MARK, FORMAT_LINE = 'made-by-tunes-site.txt', b'tunes-site 1\n'
OWN = ('site.css', 'find.js', 'search.js', 'copy.js', 'icon.svg')
FOLDERS = {'tune': 'html', 'music': 'svg', 'narrow': 'svg', 'abc': 'abc', 'sound': 'mid'}
OWN_FILE = re.compile(r'(?:index|rhythms|keys|titles)(?:-\d+)?\.html|sets\.html|tunes\.js|'
                      r'set-[\w-]+(?:\.\d+)?\.html|' + '|'.join(map(re.escape, (*OWN, MARK))),
                      re.ASCII)
RENAME_EXCHANGE, HERE_FOLDER = 2, -100


def is_made_here(path: str) -> bool:
    """Whether a folder is empty or made by this command, all of it; other things are refused."""
    if not os.path.lexists(path):
        return False
    if os.path.islink(path) or not os.path.isdir(path):
        bad(f'{path} is there, and is no folder; name another one')
    names = os.listdir(path)
    mark = os.path.join(path, MARK)
    # A loss of power may leave a mark without its bytes.
    if names and (os.path.islink(mark) or not os.path.isfile(mark) or not (
            read_file(mark).startswith(FORMAT_LINE) or not read_file(mark).strip(b'\0'))):
        bad(f'{path} is a folder that this command did not make; name another one')
    for own in foreign(path):
        bad(f'{own} is in a folder of this command, which did not make it; move it away')
    return True


def foreign(path: str) -> Iterator[str]:
    for entry in os.scandir(path):
        if entry.name in FOLDERS and entry.is_dir(follow_symlinks=False):
            is_own = re.compile(rf'\d+\.{FOLDERS[entry.name]}', re.ASCII).fullmatch
            yield from (inner.path for inner in os.scandir(entry.path)
                        if not is_own(inner.name)
                        or not inner.is_file(follow_symlinks=False))
        elif not OWN_FILE.fullmatch(entry.name) or not entry.is_file(follow_symlinks=False):
            yield entry.path


def opened(path: str) -> int:
    return os.open(path, os.O_RDONLY | os.O_DIRECTORY | os.O_NOFOLLOW)


def remove(path: str) -> None:
    """Takes a folder of this command away; what says whose it is goes last."""
    is_made_here(path)
    for name in FOLDERS:
        with contextlib.suppress(OSError):
            place = opened(os.path.join(path, name))
            for each in os.listdir(place):
                os.unlink(each, dir_fd=place)
            os.close(place)
            os.rmdir(os.path.join(path, name))
    for name in sorted(os.listdir(path), key=MARK.__eq__):
        os.unlink(os.path.join(path, name))
    os.rmdir(path)


def exchanged(first: str, second: str) -> bool:
    """Gives each of two folders the name of the other in one step, where the system can."""
    try:
        call = ctypes.CDLL(None, use_errno=True).renameat2
    except (AttributeError, OSError):
        return False
    return call(HERE_FOLDER, os.fsencode(first), HERE_FOLDER, os.fsencode(second),
                RENAME_EXCHANGE) == 0


def settle(path: str) -> None:
    """Has the device write all files of a folder."""
    try:
        subprocess.run(['sync', '-f', path], stderr=subprocess.DEVNULL, check=True)
    except (OSError, subprocess.CalledProcessError):
        os.sync()


class Site:
    """DIR, as it was and as it will be."""

    def __init__(self, path: str) -> None:
        self.path = path.rstrip('/')
        if os.path.basename(self.path) in ('', '.', '..'):
            bad(f"'{path}' is no name of a folder that can be made anew")
        above = os.path.dirname(self.path) or '.'
        if not os.path.isdir(above):
            raise Stopped(f'there is no folder {above}')
        self.new, self.old = self.path + '.new', self.path + '.old'
        self.lock = -1
        stands = [is_made_here(folder) for folder in (self.path, self.new, self.old)]
        if stands[1]:
            self.take(self.new)
            remove(self.new)
            self.let_go()
        if stands[2] and stands[0]:
            remove(self.old)
        elif stands[2]:
            # A run broke off between two names.
            os.rename(self.old, self.path)
        self.folder = opened(self.path) if os.path.lexists(self.path) else -1
        self.was = os.fstat(self.folder) if self.folder >= 0 else None
        self.state = self.read_state()
        try:
            os.mkdir(self.new)
        except FileExistsError:
            raise Stopped(f'another run is making {self.path}') from None
        self.take(self.new)
        write_file(os.path.join(self.new, MARK), FORMAT_LINE)
        for name in FOLDERS:
            os.mkdir(os.path.join(self.new, name))

    def take(self, path: str) -> None:
        self.lock = opened(path)
        try:
            fcntl.flock(self.lock, fcntl.LOCK_EX | fcntl.LOCK_NB)
        except BlockingIOError:
            raise Stopped(f'another run is making {self.path}') from None
        except OSError:
            # A file system without locks.
            pass

    def let_go(self) -> None:
        os.close(self.lock)

    def read_state(self) -> Dict[str, object]:
        _, _, told = read_file(os.path.join(self.path, MARK)).partition(b'\n')
        try:
            return json.loads(told)
        except ValueError:
            return {}

    def keep(self, name: str) -> bool:
        """Takes over a file of the old folder, if it is there."""
        if self.was is None:
            return False
        try:
            os.link(name, name, src_dir_fd=self.folder, dst_dir_fd=self.lock,
                    follow_symlinks=False)
        except FileNotFoundError:
            return False
        except OSError as error:
            if error.errno not in (errno.EPERM, errno.ENOTSUP, errno.EMLINK, errno.EXDEV,
                                   errno.ENOSYS):
                raise
            shutil.copyfile(f'{self.path}/{name}', f'{self.new}/{name}')
        return True

    def write(self, name: str, data: bytes) -> None:
        write_file(f'{self.new}/{name}', data)

    def finish(self, state: Dict[str, object]) -> None:
        """Gives the new folder its name, and takes the old one away."""
        with open(os.path.join(self.new, MARK), 'ab') as file:
            file.write(json.dumps(state).encode())
        settle(self.new)
        old_mask = signal.pthread_sigmask(signal.SIG_BLOCK, CAUGHT)
        try:
            self.change_names()
        finally:
            signal.pthread_sigmask(signal.SIG_SETMASK, old_mask)
        above = os.open(os.path.dirname(self.path) or '.', os.O_RDONLY)
        os.fsync(above)
        os.close(above)
        if os.path.lexists(self.old):
            remove(self.old)
        self.let_go()

    def change_names(self) -> None:
        now = os.lstat(self.path) if os.path.lexists(self.path) else None
        if (now and (now.st_dev, now.st_ino)) != (self.was and (self.was.st_dev, self.was.st_ino)):
            raise Stopped(f'{self.path} was changed by somebody else meanwhile; it stays as it is')
        if now is None:
            os.rename(self.new, self.path)
        elif exchanged(self.new, self.path):
            os.rename(self.new, self.old)
        else:
            os.rename(self.path, self.old)
            os.rename(self.new, self.path)

    def give_up(self) -> None:
        """Takes away what was made so far, where it is not in its place."""
        if os.path.lexists(os.path.join(self.new, MARK)):
            remove(self.new)
