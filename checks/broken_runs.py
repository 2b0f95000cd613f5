"""Runs of `tunes-desk` that are broken off, and what an archive holds behind them: a part of
checks/changes.py."""
import hashlib
import io
import os
import shutil
import signal
import subprocess
import sys
import time
from functools import lru_cache
from itertools import count
from typing import NamedTuple

sys.dont_write_bytecode = True
ROOT = os.path.dirname(os.path.dirname(os.path.abspath(__file__)))
sys.path.append(os.path.join(ROOT, 'examples'))
import read_archive
from fail_once import LIBRARY, ONE_BYTE
from full_folders import Full
from search_keys import keys_of

BUILT_DESK = os.path.join(ROOT, 'crates', 'tunes_desk', 'out', 'tunes_desk')
DESK = os.path.abspath(os.environ.get('TUNES_DESK') or BUILT_DESK)
FILE, OLD, COPY = 'tunes.abcx', 'tunes.abcx.old.abc', 'copy.abcx'
DONE, REFUSED, BAD_WORDS, NO_ARCHIVE = 0, 1, 2, 3
SECONDS = 120
NOT_YET = b'it is carried out by the script'


# WHAT AN ARCHIVE HOLDS

class Lost(Exception):
    """What is lost, or wrong."""


class Contents(NamedTuple):
    """The layout, the texts of tunes by their numbers, and the numbers of set lists by name."""
    layout: int
    texts: dict
    sets: dict

    def without(self, *numbers):
        texts = {number: text for number, text in self.texts.items() if number not in numbers}
        return self._replace(texts=texts)

    def with_text(self, number, text):
        return self._replace(texts={**self.texts, number: text})

    def and_then(self, texts):
        """With more tunes, under the numbers behind the greatest."""
        first = max(self.texts, default=0) + 1
        return self._replace(texts={**self.texts, **dict(enumerate(texts, first))})

    def with_set(self, name, numbers):
        return self._replace(sets={**self.sets, name: numbers})

    def without_set(self, name):
        sets = {each: numbers for each, numbers in self.sets.items() if each != name}
        return self._replace(sets=sets)


# The keys of a text are worked out once, and what a file holds too.
read_archive.keys_of = lru_cache(None)(keys_of)
KNOWN_TEXTS, KNOWN_FILES = {}, {}


def contents_of(data):
    """What the bytes of a file hold."""
    if data is None:
        raise Lost('there is no archive')
    name = hashlib.sha256(data).digest()
    if name not in KNOWN_FILES:
        KNOWN_FILES[name] = contents_read(data)
    return KNOWN_FILES[name]


def contents_read(data):
    """The same, by the reader that is not the program."""
    try:
        archive = read_archive.Archive(io.BytesIO(data))
    except (read_archive.Damaged, ValueError, IndexError) as fault:
        raise Lost(f'it is no archive: {fault}') from fault
    if archive.pages.faults:
        raise Lost(f'it is damaged: {archive.pages.faults[0]}')
    texts = {number: KNOWN_TEXTS.setdefault(text, text) for number, text in
             ((number, archive.text(pages)) for number, pages in archive.tunes)}
    return Contents(archive.version, texts, dict(archive.sets))


def difference(found, wanted):
    """How contents differ, in words."""
    parts = [('tunes missing', set(wanted.texts) - set(found.texts)),
             ('tunes too many', set(found.texts) - set(wanted.texts)),
             ('other texts', {number for number in set(found.texts) & set(wanted.texts)
                              if found.texts[number] != wanted.texts[number]}),
             ('other set lists', {name for name in {**found.sets, **wanted.sets}
                                  if found.sets.get(name) != wanted.sets.get(name)})]
    told_parts = [f'{what}: {" ".join(map(str, sorted(which)[:5]))}'
                  for what, which in parts if which]
    return ', '.join(told_parts) or f'layout {found.layout} in place of {wanted.layout}'


def book_of(texts):
    return b''.join(b'X:1\n%b\n' % text for text in texts)


def script_of(contents):
    """The script that makes an archive of tunes that are numbered from 1 on."""
    book = book_of(text for _, text in sorted(contents.texts.items()))
    lists = [f'set-new {name}\n' + ''.join(f'set-add {name} {number}\n' for number in numbers)
             for name, numbers in contents.sets.items()]
    return b'import %d\n%b' % (len(book), book) + ''.join(lists).encode()


# FILES

def read(path):
    with open(path, 'rb') as file:
        return file.read()


def write(path, data):
    with open(path, 'wb') as file:
        file.write(data)


def write_all(folder, files):
    os.makedirs(folder, exist_ok=True)
    for name, data in files.items():
        path = os.path.join(folder, name)
        os.makedirs(os.path.dirname(path), exist_ok=True)
        write(path, data)


def read_all(folder):
    """The files of a folder and of those in it, but the one that fills a device."""
    paths = [os.path.join(above, name) for above, _, names in os.walk(folder) for name in names]
    return {os.path.relpath(path, folder): read(path) for path in paths
            if not path.endswith('.filler')}


def digest(files):
    told_files = hashlib.sha256()
    for name, data in sorted(files.items()):
        told_files.update(b'%b %d\n' % (os.fsencode(name), len(data)))
        told_files.update(data)
    return told_files.hexdigest()


# RUNS

class Ended(NamedTuple):
    """What came of a run; none is the status of one that was killed."""
    status: object
    printed: bytes
    said: bytes
    files: dict


def told(ended):
    return ' '.join((ended.printed + ended.said).decode(errors='replace').split())[-300:]


class Break(NamedTuple):
    """How a run is broken off: after so many seconds, at a call of the system, by the room of its
    device, by a power cut behind a call, or not at all."""
    seconds: object = None
    at: int = 0
    how: int = 0
    kind: str = 'system'
    room: object = None
    power: str = ''

    def __str__(self):
        if self.seconds is not None:
            return f'killed after {1000 * self.seconds:.1f} milliseconds'
        if self.room is not None:
            return f'with room for {self.room} pages'
        if self.power:
            return self.power
        ways = {-signal.SIGKILL: 'killed before', ONE_BYTE: 'one byte alone at'}
        how = ways.get(self.how, f'{os.strerror(abs(self.how))} at')
        what = 'call of the system' if self.kind == 'system' else 'request of memory'
        return f'{how} {what} {self.at}' if self.at else 'not broken off'

    def environment(self, library):
        if not self.at:
            return {}
        return {'LD_PRELOAD': library, 'FAIL_KIND': self.kind, 'FAIL_AT': str(self.at),
                'FAIL_HOW': str(self.how)}


class Given(NamedTuple):
    """What a run gets: words, the files of its folder, and standard input."""
    words: list
    files: dict
    text: bytes = b''


def begin(folder, words, more=None, given=b'', **options):
    """Starts the program in a folder, with this standard input."""
    path = f'{folder}.input'
    write(path, given)
    with open(path, 'rb') as text:
        started = subprocess.Popen([DESK, *words], cwd=folder, env={**os.environ, **(more or {})},
                                   stdin=text, stdout=subprocess.PIPE, stderr=subprocess.PIPE,
                                   **options)
    os.remove(path)
    return started


def finish(started):
    """Its status, and what it wrote."""
    with started:
        try:
            printed, said = started.communicate(timeout=SECONDS)
        except subprocess.TimeoutExpired as slow:
            started.kill()
            raise Lost(f'it does not end in {SECONDS} seconds') from slow
    status = started.returncode
    if status < 0 and status != -signal.SIGKILL:
        raise Lost(f'it ends by signal {-status}')
    return None if status < 0 else status, printed, said


def call(folder, words, more=None, seconds=None, given=b'', **options):
    """Runs the program in a folder, and kills it after so many seconds."""
    started = begin(folder, words, more, given, **options)
    if seconds is not None:
        time.sleep(seconds)
        started.kill()
    return finish(started)


class Runner:
    """Runs orders in folders of their own."""

    def __init__(self, folder):
        self.folder, self.numbers = folder, count()
        self.library = os.path.join(folder, 'fail_once.so')

    def build_library(self):
        subprocess.run(['cc', '-O2', '-shared', '-fPIC', '-o', self.library, LIBRARY], check=True)

    def new_folder(self):
        return os.path.join(self.folder, str(next(self.numbers)))

    def run(self, words, files, broken=Break(), given=b''):
        folder = self.new_folder()
        os.mkdir(folder)
        try:
            if broken.room is None:
                return self.run_in(folder, Given(words, files, given), broken)
            full = Full('folder', '', broken.room)
            with full.mounted(folder, files):
                return self.run_in(folder, Given(words, files, given), broken, full)
        finally:
            shutil.rmtree(folder)

    def run_in(self, folder, given, broken, full=None):
        write_all(folder, given.files)
        if full:
            full.fill(folder)
        ended = call(folder, given.words, broken.environment(self.library), broken.seconds,
                     given.text)
        return Ended(*ended, read_all(folder))

    def time_of(self, given):
        """How many seconds a run takes that is not broken off."""
        folder = self.new_folder()
        write_all(folder, given.files)
        begun = time.perf_counter()
        call(folder, given.words, given=given.text)
        took = time.perf_counter() - begun
        shutil.rmtree(folder)
        return took

    def watched(self, given, more):
        """A run that is not broken off, with variables for the library, of which the last names a
        file: what comes of it, what is in that file, and the folder."""
        folder = self.new_folder()
        write_all(folder, given.files)
        path = f'{folder}.watched'
        more = {'LD_PRELOAD': self.library, 'FAIL_AT': '0', **more}
        more[list(more)[-1]] = path
        ended = call(folder, given.words, more, given=given.text)
        ended, data = Ended(*ended, read_all(folder)), read(path)
        shutil.rmtree(folder)
        os.remove(path)
        return ended, data, folder

    def calls_of(self, given, kind='system'):
        """How many calls a run makes that is not broken off."""
        return int(self.watched(given, {'FAIL_KIND': kind, 'FAIL_COUNT': ''})[1].split()[0])

    def noted_calls(self, given):
        """A run that is not broken off, and its calls that change files or keep them."""
        ended, log, folder = self.watched(given, {'FAIL_LOG': ''})
        return ended, list(calls_in(log, folder))


# POWER CUTS

class Call(NamedTuple):
    """A call that changes files or keeps them, as checks/fail_once.c notes it."""
    name: str
    file: int
    offset: int
    data: bytes
    path: str
    other: str


def calls_in(log, folder):
    """The calls of a log; paths are those within the folder."""
    at = 0
    while at < len(log):
        end = log.index(b'\n', at)
        head, *paths = os.fsdecode(log[at:end]).split('\t')
        name, file, offset, size = head.split(' ')
        at = end + 1 + int(size)
        path, other = (os.path.relpath(os.path.join(folder, path), folder) for path in paths)
        yield Call(name, int(file), int(offset), log[end + 1:at], path, other)


class Stored:
    """The bytes of a file: those that were written, and those that the device has."""

    def __init__(self, data):
        self.now = self.kept = data


# What a power cut may take, at its worst: whether the names are those of now, and whose bytes are.
TAKEN = [('names and bytes', False, lambda name: False),
         ('bytes', True, lambda name: False),
         ('names', False, lambda name: True),
         ('all but the bytes of the archive', False, lambda name: name == FILE),
         ('the bytes of the archive', True, lambda name: name != FILE)]


class Device:
    """What a device has of a folder. Bytes are kept by a sync of their file, and names by one of
    the folder: until then a power cut may take them."""

    def __init__(self, files):
        self.names = {name: Stored(data) for name, data in files.items()}
        self.kept_names, self.opened = dict(self.names), {}

    def take(self, each):
        """Whether the call changes what is here."""
        if each.name == 'open':
            return self.open(each)
        stored = self.opened.get(each.file)
        if each.name in ('link', 'rename'):
            self.names[each.other] = self.names[each.path]
        if each.name in ('unlink', 'rename'):
            del self.names[each.path]
        if each.name == 'sync' and isinstance(stored, Stored):
            stored.kept = stored.now
        elif each.name == 'sync' and stored == '.':
            self.kept_names = dict(self.names)
        elif isinstance(stored, Stored):
            stored.now = changed(stored.now, each)
        return True

    def open(self, each):
        is_new = each.offset & 1 and each.path not in self.names
        if is_new:
            self.names[each.path] = Stored(b'')
        self.opened[each.file] = stored = self.names.get(each.path, each.path)
        if each.offset & 2:
            stored.now = b''
        return is_new or each.offset & 2

    def left(self, names_now, is_now):
        """The files behind a power cut."""
        names = self.names if names_now else self.kept_names
        return {name: stored.now if is_now(name) else stored.kept
                for name, stored in names.items()}


def keeps_first(calls, files):
    """Before the first write to the archive there is more in the book of old texts, and the device
    has it, and its name; else it raises `Lost`."""
    device = Device(files)
    for each in calls:
        if each.name in ('write', 'cut') and device.opened.get(each.file) is device.names.get(FILE):
            old, name = device.names.get(OLD), device.kept_names.get(OLD)
            if old is None or name is not old or old.kept != old.now or old.now == files.get(OLD):
                raise Lost('the archive is written before what is to be kept is on the device')
            return
        device.take(each)


def changed(data, each):
    if each.name == 'cut':
        return data[:each.offset].ljust(each.offset, b'\0')
    if each.name != 'write':
        return data
    end = each.offset + len(each.data)
    return data[:each.offset].ljust(each.offset, b'\0') + each.data + data[end:]


def power_cuts(ended, calls, files, chosen):
    """What is left where the power goes behind calls of a run, those that `chosen` picks of so
    many, and behind the whole of it. Each as how it was broken off, and the run."""
    picked = set(chosen(len(calls)))
    device, seen = Device(files), set()
    for number, each in enumerate(calls, 1):
        if not device.take(each) or number not in picked:
            continue
        for what, names_now, is_now in TAKEN:
            left = device.left(names_now, is_now)
            name = digest(left)
            if name not in seen:
                seen.add(name)
                yield (Break(power=f'the power goes behind call {number}, {each.name}, '
                                   f'and takes {what}'), Ended(None, b'', b'', left))
    if device.left(True, lambda name: True) != ended.files:
        raise Lost('the calls that were noted do not lead to the files that are there')
    yield Break(power='the power goes right behind it'), ended._replace(
        files=device.left(False, lambda name: False))
