#!/usr/bin/env python3
"""Usage: checks/full_folders.py [--shell SHELL] [--dense] [CASE..]

Runs each command of ./tunes-book where the folder for working files (TMPDIR) has room for so many
pages and no more, from none up to where the command goes through unhindered; and the same with the
folder of the archive, where what it writes, the draft of an edit and the old texts stand too. What
comes of each run is compared with what comes of one with room, from the same start. It has to be
the same, or to be refused in words with nothing lost and nothing cut: the functions below
INVARIANTS say it one by one.

SHELL is what runs tunes-book: sh, which is also meant where there is none, 'bash --posix', or
'busybox sh'. Pages are tried one by one up to 10, and then by steps of a third; with --dense one by
one, and with both folders on one full disk too. How many files TMPDIR has room for is always tried
one by one. A few long cases have rooms of their own. CASE is a name as it is printed, without which
all are run. The programs are those that ./build made, or those that the variables TUNES and
TUNES_DESK name.

The folders are mounted, by root or in a name space of the user; where neither can be, it prints
`skipped`, and ends with 0. A line is printed for each case, and the status is 1 where one failed.
"""
import argparse
import contextlib
import hashlib
import os
import re
import shlex
import shutil
import signal
import subprocess
import sys
import tempfile
import threading
import time
from concurrent.futures import ThreadPoolExecutor

ROOT = os.path.dirname(os.path.dirname(os.path.abspath(__file__)))
BUILT = os.path.join(ROOT, 'crates', 'tunes', 'out', 'tunes')
PROGRAM = os.path.abspath(os.environ.get('TUNES') or BUILT)
BUILT_DESK = os.path.join(ROOT, 'crates', 'tunes_desk', 'out', 'tunes_desk')
DESK = os.path.abspath(os.environ.get('TUNES_DESK') or BUILT_DESK)
FRONT_END = os.path.join(ROOT, 'tunes-book')
PAGE = os.sysconf('SC_PAGE_SIZE')
DONE, REFUSED = 0, 1
ARCHIVE = 'tunes.abcx'
# Takes the room that a folder is not to have.
FILLER = '.filler'
# Runs in a row that go as with room, after which more room tells nothing.
ENOUGH = 2
MOST_PAGES = 1000
# The tunes whose revisions, and the set lists whose places are looked at.
MOST_SHOWN = 50
NAMES = b'full', b'some', b'short', b'new', b'friday'
# What is full, by the names that are printed.
PLACES = {'TMPDIR': 'all/temporary', 'folder': 'all/folder', 'both': 'all'}
SECONDS = 300

# What a failure may say of what it did nevertheless; without it the archive is as before.
SAYS_SO = re.compile(rb'may have|may be|took place|whether|(\d+) of the \d+ tunes were put')


# TUNES AND BOOKS

def tune(title, lines=2):
    music = b''.join(b'%% line %d\nDFA dfa|gfe dcB|ABc def|gab c3|\n' % line
                     for line in range(lines // 2))
    return b'T:%b\nR:reel\nM:4/4\nK:D\n%b' % (title, music)


def book_of(texts):
    return b'\n'.join(b'X:%d\n%b' % (number, text) for number, text in enumerate(texts, 1))


LONG = tune(b'Tune of the long night', 960)
ONLY = b'T:Only copy\nK:C\nw:words\n'
# Opening takes its time for each tune, so they are few, and long titles make pages of a list.
TEXTS = [LONG, *(tune(b'Tune %d of the middle of the night' % number) for number in (2, 3, 4)),
         *(tune(b'Tune %d of the night' % number + b', and of the day' * 20)
           for number in range(5, 25)), ONLY]
NUMBER_OF_ONLY = len(TEXTS)
ONE = [tune(b'One more, and the %dth of them' % number, 60) for number in range(8)]
OTHER = [tune(b'Another, and the %dth of them' % number, 60) for number in range(8)]
# 700 tunes: a part is full once it has more than 1,000,000 bytes, so by 167 of them.
LENGTH, IN_PART = 6000, 167
LARGE = [(b'T:Large %d\nK:C\n' % number + b'abcdefgabcdefgabc|\n' * 400)[:LENGTH - 8] + b'\n'
         for number in range(700)]


def large_book():
    """Each tune has as many bytes as the others, its number and the empty line behind it too."""
    tunes = (b'X:%d\n%b' % (number, text) for number, text in enumerate(LARGE, 1))
    return b''.join(each[:LENGTH - 2].ljust(LENGTH - 2, b'A') + b'\n\n' for each in tunes)


def importing(book):
    return b'import %d\n%b' % (len(book), book)


def with_list(name, numbers):
    return b'set-new %b\n' % name + b''.join(b'set-add %b %d\n' % (name, each) for each in numbers)


TUNES_SCRIPT = b''.join([importing(book_of(TEXTS)), with_list(b'full', [2, 3] * 100),
                         with_list(b'some', range(5, 25)), with_list(b'short', [5, 6, 5])])
LISTS_SCRIPT = b''.join(with_list(b'evening-%032d' % number, []) for number in range(100))
BAD_SCRIPT = importing(b'X:1\nK:C\n') * 300 + b'set-add nosuch 1\n'
GOOD_SCRIPT = b''.join([importing(book_of(ONE)), importing(book_of(OTHER)), b'set-new friday\n',
                        *(b'set-add friday %d\n' % number for number in range(1, 11))])


# TOOLS

TOOLS = {
    'change-rhythm': 'sed -i "s/^R:.*/R:slide/" "$1" && : > "$EDITED"',
    'put-empty-line': 'sed -i 200G "$1" && : > "$EDITED"',
    # It ends with 0 where it had no room too, as the true one does.
    'abcm2ps': '{ echo %!PS && cat "$4" && echo %%EOF; } > "$3"; exit 0',
    'ps2pdf': '{ echo %PDF-1.4 && cat "$1" && echo %%EOF; } > "$2"',
    # A chunk: its name, its length in 4 bytes, as many bytes, and the end of a track.
    'abc2midi': r'''length=$(($(wc -c < "$1")))
high=$(printf %03o $((length / 256))) low=$(printf %03o $((length % 256)))
{ printf "MThd\\000\\000\\$high\\$low" && cat "$1" && printf "\\377/\\000"; } > "$3"''',
}


def write_tools(folder):
    os.makedirs(folder)
    for name, line in TOOLS.items():
        path = os.path.join(folder, name)
        write(path, f'#!/bin/sh\n{line}\n'.encode())
        os.chmod(path, 0o755)


# FILES

def write(path, data):
    with open(path, 'wb') as file:
        file.write(data)


def read(path):
    with open(path, 'rb') as file:
        return file.read()


def write_all(folder, files):
    os.makedirs(folder, exist_ok=True)
    for name, data in files.items():
        write(os.path.join(folder, name), data)


def read_all(folder):
    return {name: read(os.path.join(folder, name)) for name in os.listdir(folder)
            if name != FILLER}


def pages_of(files):
    return sum(-(-len(data) // PAGE) for data in files.values())


class Mounted:
    """A folder that is a file system of its own."""

    def __init__(self, path, options='mode=0755'):
        self.path, self.options = path, options

    def __enter__(self):
        os.makedirs(self.path, exist_ok=True)
        subprocess.run(['mount', '-t', 'tmpfs', '-o', self.options, 'tmpfs', self.path],
                       check=True)
        return self.path

    def __exit__(self, *_):
        # `-l`, since a program that was left behind may still have it open.
        subprocess.run(['umount', '-l', self.path], check=True)


class Full:
    """How a place is full: it has room for so many pages, or, where these are files, for so many
    files, and no more."""

    def __init__(self, name, place, room, of_files=False):
        self.name, self.place, self.room, self.of_files = name, place, room, of_files

    def __str__(self):
        many = f'{self.room} files' if self.of_files else f'{self.room * PAGE // 1024} KB'
        return f'{self.name} has room for {many}'

    def mounted(self, path, files):
        if self.of_files:
            # The folder itself counts.
            return Mounted(path, f'nr_inodes={self.room + 1}')
        own = 0 if self.name == 'TMPDIR' else pages_of(files)
        # Every other one has its room by the size, the others by a file that takes the rest.
        return Mounted(path, f'size={(own + self.room + 1 - self.room % 2) * PAGE}')

    def fill(self, path):
        if self.of_files:
            return
        if room_of(path) > self.room:
            with open(os.path.join(path, FILLER), 'wb') as file:
                os.posix_fallocate(file.fileno(), 0, (room_of(path) - self.room) * PAGE)
        assert room_of(path) == self.room


def room_of(folder):
    left = os.statvfs(folder)
    return left.f_bavail * left.f_frsize // PAGE


# WHAT AN ARCHIVE HAS

class Contents:
    """The texts and revisions of tunes, by their numbers, and the set lists."""

    def __init__(self, texts, revisions, sets):
        self.texts, self.revisions, self.sets = texts, revisions, sets

    def __eq__(self, other):
        return isinstance(other, Contents) and vars(self) == vars(other)

    def has_same_texts(self, other):
        """Revisions may be others: an `undo` of a replace is one more."""
        return (isinstance(other, Contents)
                and (self.texts, self.sets) == (other.texts, other.sets))

    def up_to(self, last):
        texts, revisions = ({number: each for number, each in some.items() if number <= last}
                            for some in (self.texts, self.revisions))
        return Contents(texts, revisions, self.sets)

    def with_set(self, name, numbers):
        return Contents(self.texts, self.revisions, {**self.sets, name: numbers})


class Replies:
    """Reads replies of the program one by one."""

    def __init__(self, data):
        self.data, self.at = data, 0

    def line(self):
        end = self.data.index(b'\n', self.at)
        line, self.at = self.data[self.at:end], end + 1
        return line

    def words(self, *front):
        words = self.line().split(b' ')
        assert words[:len(front) + 1] == [b'ok', *front], words
        return words[len(front) + 1:]

    def body(self, length):
        body = self.data[self.at:self.at + length]
        assert len(body) == length
        self.at += length
        return body


class Looker:
    """Looks into archives, each only once, where there is room."""

    def __init__(self, folder):
        self.folder, self.known, self.lock = folder, {}, threading.Lock()

    def contents(self, archive):
        """What the bytes of a file are as an archive; words where they are none."""
        if archive is None:
            return 'there is none'
        name = hashlib.sha256(archive).hexdigest()
        if name not in self.known:
            path = os.path.join(self.folder, f'{name}-{threading.get_ident()}')
            write(path, archive)
            try:
                looked = look(path)
            except (AssertionError, ValueError) as error:
                looked = f'it does not open: {error}'
            os.remove(path)
            with self.lock:
                self.known.setdefault(name, looked)
        return self.known[name]


def run(path, script):
    ended = subprocess.run([PROGRAM, 'run', path], input=script, stdout=subprocess.PIPE,
                           stderr=subprocess.PIPE, check=False, timeout=SECONDS)
    assert ended.returncode == DONE, (ended.stdout[-60:], ended.stderr[-60:])
    return ended.stdout


def look(path):
    """All of it in one run, since an opening takes its time: the revisions are those of the first
    numbers, and the places those of the lists that any case has."""
    numbers = range(1, MOST_SHOWN + 1)
    lines = [b'show %d\n' % number for number in numbers]
    lines += [b'set-show %b\n' % name for name in NAMES]
    replies = Replies(run(path, b'export\nsets\n' + b''.join(lines)))
    book = replies.body(int(replies.words(b'export')[0]))
    texts = {int(text[2:text.index(b'\n')]): text.rstrip(b'\n') + b'\n'
             for text in book.split(b'\n\n') if text.startswith(b'X:')}
    rows = (replies.line().split(b' ') for _ in range(int(replies.words(b'sets')[0])))
    places = {name: int(count) for name, count in rows}
    revisions, sets = {}, {name: [] for name in places}
    for number in numbers:
        if number in texts:
            revision, length = replies.words(b'show', b'%d' % number)
            revisions[number] = int(revision)
            assert replies.body(int(length)) == texts[number]
        else:
            assert replies.line() == b'refused 4 Unknown %d' % number
    for name in NAMES:
        if name in places:
            count = places.pop(name)
            assert replies.words(b'set-show', name) == [b'%d' % count]
            sets[name] = [int(replies.line().split(b' ')[1]) for _ in range(count)]
        else:
            assert replies.line() == b'refused 11 NoSuchSet'
    assert not any(places.values())
    return Contents(texts, revisions, sets)


# CASES

class Case:
    """A command, the files from which it starts, and what may come of it."""

    def __init__(self, name, *words, start='tunes', archive=ARCHIVE, **more):
        self.name, self.words, self.start, self.archive = name, words, start, archive
        self.status = more.get('status', DONE)
        # It prints, and changes nothing.
        self.reads = more.get('reads', False)
        # The editor, the draft, and what the draft is when the editor is left.
        self.editor, self.draft = more.get('editor', 'false'), more.get('draft')
        self.edited = more.get('edited')
        # What this puts into the old texts is brought back by `undo`; or it is an `undo`.
        self.keeps, self.undoes = more.get('keeps', False), more.get('undoes', False)
        # What stands after a part of it, in turn: a function of what stood before and stands
        # after it; and whether a failure may leave that without saying so.
        self.parts, self.silent = more.get('parts'), more.get('silent', False)
        # The pages that are tried, where not all are up to where it goes through.
        self.rooms = more.get('rooms', {})

    def call(self):
        return ' '.join(['tunes-book', '-f', self.archive, *self.words])


def one_book(before, after):
    return [after.up_to(len(before.texts) + len(ONE))]


def some_parts(before, after):
    return [after.up_to(len(before.texts) + count)
            for count in range(IN_PART, len(LARGE), IN_PART)]


def moved(name, place, to):
    """What a list of 200 places is after each cut and each put of a move."""
    def parts(before, _):
        tunes = before.sets[name]
        order = [each for each in range(len(tunes)) if each != place - 1]
        order.insert(to - 1, place - 1)
        now, stands = list(range(len(tunes))), []
        for each in order[min(place, to) - 1:]:
            for then in [left for left in now if left != each], None:
                now = then if then is not None else now + [each]
                stands.append(before.with_set(name, [tunes[one] for one in now]))
        return stands
    return parts


def places_of(name, numbers):
    """The list after so many of these tunes were put."""
    def parts(before, _):
        were = before.sets.get(name, [])
        return [before.with_set(name, were + numbers[:count]) for count in range(len(numbers) + 1)]
    return parts


def back_at_the_end(before, after):
    """A deleted tune that came back, and has not got its number yet."""
    number, = set(after.texts) - set(before.texts)
    last = max(before.texts) + 1
    text = after.texts[number].replace(b'X:%d\n' % number, b'X:%d\n' % last, 1)
    return [Contents({**before.texts, last: text},
                     {**before.revisions, last: after.revisions[number]}, before.sets)]


TWENTY = list(range(5, 25))
PUT = [str(number) for number in TWENTY]
SLIDE = b'X:1\n' + LONG.replace(b'R:reel', b'R:slide')
LINES = (b'X:1\n' + LONG).splitlines(True)
WITH_EMPTY = b''.join(LINES[:200] + [b'\n'] + LINES[200:])
# Pages of a folder in which a book of 4.2 MB is taken in: where its copy, the lines, a part of it,
# or none of them is cut.
FOR_LARGE = {'TMPDIR': [0, 600, 1500, 2600], 'files': [4], 'folder': [0, 1500, 2500],
             'both': [3500]}
# Pages of a folder in which an archive is made.
FOR_NEW = {'files': [1, 2], 'folder': [0, 1, 2, 4, 8, 16, 40, 60, 80, 100, 150, 200],
           'both': [50]}

CASES = [
    Case('find', 'find', 'tune', reads=True),
    Case('find --within', 'find', '--within', 'tune', reads=True),
    Case('titles', 'titles', reads=True),
    Case('--json titles', '--json', 'titles', reads=True),
    Case('--csv titles', '--csv', 'titles', reads=True),
    Case('sets', 'sets', start='lists', reads=True),
    Case('set', 'set', 'some', reads=True),
    Case('show', 'show', '1', reads=True),
    Case('edit', 'edit', '1', editor='change-rhythm', draft='tune-1.abc', edited=SLIDE, keeps=True),
    Case('edit, an empty line', 'edit', '1', editor='put-empty-line', draft='tune-1.abc',
         edited=WITH_EMPTY, keeps=True, status=REFUSED),
    Case('delete', 'delete', str(NUMBER_OF_ONLY), keeps=True),
    Case('delete, a long tune', 'delete', '1', keeps=True),
    Case('undo of an edit', 'undo', start='edited', undoes=True),
    Case('undo of a delete', 'undo', start='deleted', undoes=True, parts=back_at_the_end),
    Case('put, a new list', 'put', 'new', *PUT, keeps=True, parts=places_of(b'new', TWENTY)),
    Case('put', 'put', 'short', *PUT, keeps=True, parts=places_of(b'short', TWENTY)),
    Case('move', 'move', 'full', '190', '198', keeps=True, parts=moved(b'full', 190, 198)),
    Case('add', 'add', 'one.abc', 'other.abc', parts=one_book, silent=True),
    Case('add --new, all there', 'add', '--new', 'all.abc'),
    Case('add --new, half there', 'add', '--new', 'half.abc'),
    Case('add --split', 'add', '--split', 'large.abc', start='large', parts=some_parts, silent=True,
         rooms=FOR_LARGE),
    Case('add --dry', 'add', '--dry', 'one.abc', 'other.abc', reads=True),
    Case('import-check', 'import-check', 'one.abc', 'other.abc', reads=True),
    Case('export', 'export', 'out.abc', '--force'),
    Case('export, a list', 'export', 'list.abc', 'some', '--force'),
    Case('dump', 'dump', 'out.script', '--force', start='lists'),
    Case('load, a bad script', 'load', 'bad.script', archive='new.abcx', status=REFUSED,
         rooms=FOR_NEW),
    Case('load', 'load', 'good.script', archive='new.abcx', rooms=FOR_NEW),
    Case('backup', 'backup', 'copy.abcx'),
    Case('restore', 'restore', 'other.abcx'),
    Case('print', 'print', 'out.ps', '--force'),
    Case('print, a list as PDF', 'print', 'out.pdf', 'some', '--force'),
    Case('hear', 'hear', '1', 'out.mid', '--force'),
]


# STARTS

class Starts:
    """The files from which cases start, by their names."""

    def __init__(self, folder):
        self.folder, self.files = folder, {}
        path = os.path.join(folder, 'made')
        subprocess.run([PROGRAM, 'make', path], stdout=subprocess.DEVNULL, check=True)
        run(path, TUNES_SCRIPT)
        tunes = {ARCHIVE: without_log(read(path)),
                 'other.abcx': self.after(path, b'delete 4\n'),
                 'one.abc': book_of(ONE), 'other.abc': book_of(OTHER),
                 'all.abc': book_of(TEXTS[4:20]), 'half.abc': book_of(TEXTS[4:14] + ONE),
                 'bad.script': BAD_SCRIPT, 'good.script': GOOD_SCRIPT,
                 # What stands already is such as the command writes, of a tune of the archive.
                 'out.abc': b'%abc-2.1\n\nX:1\n' + ONLY, 'out.ps': b'%!PS\nolder\n%%EOF\n',
                 'out.script': importing(b'X:1\n' + ONLY)}
        self.files['tunes'] = tunes
        self.files['lists'] = {**tunes, ARCHIVE: self.after(path, LISTS_SCRIPT)}
        self.files['large'] = {ARCHIVE: tunes[ARCHIVE], 'large.abc': large_book()}

    @staticmethod
    def after(path, script):
        changed = path + '.changed'
        shutil.copyfile(path, changed)
        run(changed, script)
        return without_log(read(changed))

    def add_later(self, tests):
        """Those that tunes-book itself leaves, with room."""
        by_name = {case.name: case for case in CASES}
        for name, case in ('edited', by_name['edit']), ('deleted', by_name['delete']):
            ended = tests.run(case)
            assert ended.status == DONE, ended.said
            archive = without_log(ended.files[ARCHIVE])
            self.files[name] = {**ended.files, ARCHIVE: archive}


def without_log(archive):
    """The same archive as a file whose gate is closed ends with its pages (docs/FILE-FORMAT.md), so
    that every change has to make it longer."""
    assert archive[4096] != 0xA7
    return archive[:16384 + 4096 * int.from_bytes(archive[12288:12292], 'big')]


# RUNS

class Ended:
    """What came of a run: its status, what it wrote, the files there, what is left in TMPDIR, and
    whether the editor wrote its text."""

    def __init__(self, status, wrote, files, left, edited):
        self.status, (self.printed, self.said) = status, wrote
        self.files, self.left, self.edited = files, left, edited

    def __eq__(self, other):
        return vars(self) == vars(other)


def goes_on(group):
    """Whether a program of this group is left, also a little later."""
    for _ in range(100):
        try:
            os.killpg(group, 0)
        except ProcessLookupError:
            return False
        time.sleep(0.02)
    return True


class Tests:
    """All runs of tunes-book, under one shell."""

    def __init__(self, folder, shell):
        self.folder, self.shell, self.count = folder, shlex.split(shell), 0
        self.lock, self.verdicts = threading.Lock(), {}
        self.tools = os.path.join(folder, 'tools')
        write_tools(self.tools)
        for name in 'looks', 'runs', 'made':
            os.makedirs(os.path.join(folder, name))
        self.looker = Looker(os.path.join(folder, 'looks'))
        self.starts = Starts(os.path.join(folder, 'made'))
        self.starts.add_later(self)

    def new_folder(self):
        with self.lock:
            self.count += 1
            path = os.path.join(self.folder, 'runs', str(self.count))
        os.makedirs(path)
        return path

    def contents(self, files, case):
        return self.looker.contents(files.get(case.archive))

    def in_folder(self, case, words, folder, temporary, mark):
        environment = {'PATH': f'{self.tools}:{os.environ["PATH"]}', 'TUNES': PROGRAM,
                       'TUNES_DESK': DESK, 'TUNES_BOOK': case.archive, 'TMPDIR': temporary,
                       'EDITOR': case.editor, 'EDITED': mark}
        with subprocess.Popen([*self.shell, FRONT_END, *words], cwd=folder, env=environment,
                              stdin=subprocess.DEVNULL, stdout=subprocess.PIPE,
                              stderr=subprocess.PIPE, start_new_session=True) as program:
            try:
                wrote = program.communicate(timeout=SECONDS)
            except subprocess.TimeoutExpired:
                os.killpg(program.pid, signal.SIGKILL)
                wrote = program.communicate()
        left = sorted(name for name in os.listdir(temporary) if name != FILLER)
        if goes_on(program.pid):
            os.killpg(program.pid, signal.SIGKILL)
            left.append('a program that goes on')
        return Ended(program.returncode, wrote, read_all(folder), left, os.path.exists(mark))

    def run(self, case, words=None, files=None, full=None):
        """The run from the files of its start; of other words and from other files, where told;
        and where something is full, if that is told: what, of which kind, and its room."""
        work = self.new_folder()
        places = {name: os.path.join(work, name) for name in ('all', 'all/folder', 'all/temporary')}
        files = self.starts.files[case.start] if files is None else files
        mounted = full.mounted(places[full.place], files) if full else contextlib.nullcontext()
        with mounted:
            os.makedirs(places['all/temporary'], exist_ok=True)
            write_all(places['all/folder'], files)
            if full:
                full.fill(places[full.place])
            ended = self.in_folder(case, words or case.words, places['all/folder'],
                                   places['all/temporary'], os.path.join(work, 'mark'))
        shutil.rmtree(work)
        return ended


# INVARIANTS

class Judged:
    """A run, beside the same with room, and what stood before."""

    def __init__(self, tests, case, wanted, ended):
        self.tests, self.case, self.wanted, self.ended = tests, case, wanted, ended
        self.old = f'{case.archive}.old.abc'
        self.start = tests.starts.files[case.start]
        self.before = tests.contents(self.start, case)
        self.after = tests.contents(ended.files, case)
        self.goal = tests.contents(wanted.files, case)

    def others(self, files):
        """The files but the archive and what may stay of a failure."""
        kept = self.case.archive, self.old, self.case.draft
        return {name: data for name, data in files.items() if name not in kept}

    def with_room(self, *words, files=None):
        """What comes of other words, where there is room again."""
        return self.tests.run(self.case, words, files or self.ended.files)


def zero_is_whole(run):
    """Status 0: all is as in the run with room."""
    ended, wanted = run.ended, run.wanted
    if ended.status != DONE:
        return ''
    if wanted.status != DONE:
        return 'status 0 of what is refused with room'
    if ended.printed != wanted.printed:
        return f'status 0, and {cut(ended.printed, wanted.printed)} is printed'
    if set(ended.files) != set(wanted.files):
        names = ' '.join(sorted(set(ended.files) ^ set(wanted.files)))
        return f'status 0, and these files are there, or are not: {names}'
    if run.after != run.goal:
        return f'status 0, and {changes(run.after, run.goal)}'
    for name, data in sorted(wanted.files.items()):
        if name != run.case.archive and ended.files[name] != data:
            return f'status 0, and of {name} there is {cut(ended.files[name], data)}'
    return ''


def failure_has_status_1(run):
    return f'its status is {run.ended.status}' if run.ended.status not in (DONE, REFUSED) else ''


def failure_is_told(run):
    told = re.search(rb'^tunes-book: .', run.ended.said, re.MULTILINE)
    return '' if run.ended.status == DONE or told else 'it fails without a word of tunes-book'


def failure_leaves_the_archive(run):
    """Another status: the archive is as before, or as its message says."""
    if run.ended.status == DONE or run.after == run.before:
        return ''
    parts = run.case.parts(run.before, run.goal) if run.case.parts else []
    if run.after not in [*parts, run.goal]:
        return f'a failure, and {changes(run.after, run.before)}'
    if run.case.silent or says_so(run, parts):
        return ''
    what = 'all of it was done' if run.after == run.goal else 'a part of it was done'
    return f'a failure that does not say that {what}'


def says_so(run, parts):
    """Whether the message has what was done: as with room, or in words of its own."""
    told = run.ended.printed + run.ended.said
    if run.wanted.printed and run.wanted.printed in told:
        return True
    words = SAYS_SO.search(told)
    if words and words.group(1):
        return run.after == parts[int(words.group(1))]
    return bool(words)


def failure_leaves_other_files(run):
    """Another status: OUT and all others are as before."""
    if run.ended.status == DONE:
        return ''
    were, are = run.others(run.start), run.others(run.ended.files)
    wrong = sorted(name for name in {**were, **are} if were.get(name) != are.get(name))
    return f'a failure, and these files are not as before: {" ".join(wrong)}' if wrong else ''


def failure_prints_nothing_else(run):
    """Another status: a list that is printed is a front of the true one."""
    if run.ended.status == DONE or not run.case.reads:
        return ''
    lines = set(run.wanted.printed.splitlines(True))
    fits = (run.wanted.printed.startswith(run.ended.printed)
            or lines.issuperset(run.ended.printed.splitlines(True)))
    return '' if fits else f'it prints {run.ended.printed[-60:]!r}'


def what_is_told_is_there(run):
    """The tunes of a book that is told as taken in are in the archive."""
    if run.case.words[0] != 'add' or run.case.reads or isinstance(run.after, str):
        return ''
    for first, last in re.findall(rb': tunes? (\d+)(?: to (\d+))?', run.ended.printed):
        if not set(range(int(first), int(last or first) + 1)) <= set(run.after.texts):
            return f'tune {int(last or first)} is told as taken in, and is not there'
    return ''


def no_text_is_lost(run):
    """What is no longer in the archive stands whole in the old texts."""
    if isinstance(run.after, str) or isinstance(run.before, str) or replaces_all(run):
        return ''
    kept = kept_texts(run.ended.files.get(run.old, b''))
    there = set(run.after.texts.values())
    for number, text in run.before.texts.items():
        if text not in there and text not in kept:
            return f'the text of tune {number} is lost: it is in the archive and in {run.old} not'
    return ''


def replaces_all(run):
    """A restored archive has other tunes; the one before it is kept as a file."""
    return run.case.words[0] == 'restore' and run.ended.status == DONE


def kept_texts(book):
    """The tunes of a book of old texts that are there to their last byte, by the lines before."""
    texts = set()
    for line in re.finditer(rb'^% tune (\d+) was (\d+) is .*\n', book, re.MULTILINE):
        whole = len(b'X:%s\n' % line.group(1)) + int(line.group(2))
        text = book[line.end():line.end() + whole]
        if len(text) == whole:
            texts.add(text)
    return texts


def old_texts_only_grow(run):
    front = run.start.get(run.old, b'')
    grown = run.ended.files.get(run.old, b'').startswith(front)
    return '' if grown else f'what stood in {run.old} is another'


def undo_brings_it_back(run):
    """`undo`, with room, gives the text that was changed or deleted; where it failed, again."""
    if isinstance(run.after, str) or not (run.case.keeps or run.case.undoes):
        return ''
    goal = run.before if run.case.keeps else run.goal
    if run.case.keeps and run.after.has_same_texts(run.before) or run.after == run.goal == goal:
        return ''
    ended = run.with_room('undo')
    if ended.status == DONE and run.tests.contents(ended.files, run.case).has_same_texts(goal):
        return ''
    if run.case.undoes and run.after.has_same_texts(goal):
        return ''
    return f'`undo` with room does not bring it back: {ended.said.decode()[:200]}'


def old_texts_are_still_read(run):
    """With room again, a delete and its `undo` do what they do."""
    if not (run.case.keeps or run.case.undoes) or isinstance(run.after, str):
        return ''
    deleted = run.with_room('delete', '4')
    if deleted.status != DONE or 4 in run.tests.contents(deleted.files, run.case).texts:
        return f'`delete 4` with room behind it: {deleted.said.decode()[:200]}'
    undone = run.with_room('undo', files=deleted.files)
    if undone.status == DONE and run.tests.contents(undone.files, run.case) == run.after:
        return ''
    return f'`delete 4` and `undo` behind it do not give tune 4: {undone.said.decode()[:200]}'


def edited_text_is_there(run):
    """Where the editor wrote its text and it is not put in, the draft has it whole."""
    if run.ended.status == DONE or not run.ended.edited:
        return ''
    if run.ended.files.get(run.case.draft) == run.case.edited:
        return ''
    put_in = isinstance(run.after, Contents) and run.case.edited in run.after.texts.values()
    return '' if put_in else f'the edited text is neither in {run.case.draft} nor in the archive'


def nothing_stays(run):
    """Neither working files nor programs nor OUT.new."""
    if run.ended.left:
        return f'it leaves {", ".join(run.ended.left)}'
    stays = [name for name in run.ended.files if name.endswith('.new')]
    return f'it leaves {" ".join(stays)}' if stays else ''


# The first are quick; the last run tunes-book again.
INVARIANTS = [zero_is_whole, failure_has_status_1, failure_is_told, no_text_is_lost,
              failure_leaves_the_archive, failure_leaves_other_files, failure_prints_nothing_else,
              what_is_told_is_there, old_texts_only_grow, edited_text_is_there, nothing_stays]
WITH_ROOM_AGAIN = [undo_brings_it_back, old_texts_are_still_read]


def cut(part, whole):
    """How a part differs from the whole, in words."""
    if whole.startswith(part):
        return f'a front, {len(part)} of {len(whole)} bytes,'
    return f'something else, of {len(part)} bytes in place of {len(whole)},'


def changes(found, wanted):
    """How contents differ from others, in words."""
    if isinstance(found, str) or isinstance(wanted, str):
        return f'of the archive: {found if isinstance(found, str) else "it is there"}'
    parts = [('missing tunes', set(wanted.texts) - set(found.texts)),
             ('tunes too many', set(found.texts) - set(wanted.texts)),
             ('other tunes', differing(found.texts, wanted.texts)
              | differing(found.revisions, wanted.revisions)),
             ('other set lists', {name.decode() for name in {**found.sets, **wanted.sets}
                                  if found.sets.get(name) != wanted.sets.get(name)})]
    return 'the archive has ' + ', '.join(
        f'{what}: {" ".join(str(each) for each in sorted(which)[:5])}'
        for what, which in parts if which)


def differing(some, others):
    return {each for each in some if each in others and some[each] != others[each]}


def judge(tests, case, wanted, ended):
    """What is wrong with a run, in words; those of the run with room are judged too."""
    judged = Judged(tests, case, wanted, ended)
    wrong = [why for why in (invariant(judged) for invariant in INVARIANTS) if why]
    # What comes of the files again is the same for the same files.
    key = case.name, tuple(sorted(ended.files.items()))
    key = case.name, hashlib.sha256(repr(key).encode()).hexdigest()
    if key not in tests.verdicts:
        again = [why for why in (invariant(judged) for invariant in WITH_ROOM_AGAIN) if why]
        tests.verdicts[key] = again
    return wrong + tests.verdicts[key]


# SWEEPS

def rooms_one_by_one(dense):
    room = 0
    while True:
        yield room
        room += 1 if dense or room < 10 else room // 3


class Sweep:
    """A case in all rooms of one place: how many runs there were, and what was wrong."""

    def __init__(self, case, name, of_files=False):
        self.case, self.name, self.of_files, self.runs, self.wrong = case, name, of_files, 0, []
        self.listed = case.rooms.get('files' if of_files else name)

    def run(self, tests, wanted, dense):
        row = 0
        for room in self.listed or rooms_one_by_one(dense or self.of_files):
            full = Full(self.name, PLACES[self.name], room, self.of_files)
            ended = tests.run(self.case, full=full)
            self.runs += 1
            why = judge(tests, self.case, wanted, ended)
            if why:
                self.wrong.append(f'{full}: {why[0]} (`{self.case.call()}`)')
            row = row + 1 if same_end(ended, wanted) else 0
            if row == ENOUGH and not self.listed:
                return
            if room > MOST_PAGES and not self.listed:
                self.wrong.append(f'{self.name}: it never goes through')
                return

    def __str__(self):
        return f'{self.runs} {"counts of files" if self.of_files else "sizes"} of {self.name}'


def same_end(ended, wanted):
    """Whether a run went as with room."""
    return (ended.status, ended.printed, ended.said) == (wanted.status, wanted.printed, wanted.said)


def run_case(tests, case, dense, pool):
    """The sweeps of a case, as they will be."""
    wanted = tests.run(case)
    first = [] if wanted.status == case.status else [
        f'with room its status is {wanted.status}: {wanted.said.decode()[:200]}']
    sweeps = [Sweep(case, 'TMPDIR'), Sweep(case, 'TMPDIR', of_files=True), Sweep(case, 'folder')]
    sweeps += [Sweep(case, 'both')] if dense else []
    return first + judge(tests, case, wanted, wanted), [
        (sweep, pool.submit(sweep.run, tests, wanted, dense)) for sweep in sweeps]


def tell(case, wrong, sweeps):
    """Waits for the sweeps of a case, and prints its line."""
    for sweep, future in sweeps:
        future.result()
        wrong += sweep.wrong
    tried = ', '.join(str(sweep) for sweep, _ in sweeps)
    why = f'; {len(wrong)} failed: ' + '; '.join(wrong[:4]) if wrong else ''
    print(f'{"FAILED" if wrong else "ok":7} {case.name}: {tried}{why}', flush=True)
    return bool(wrong)


def test_all(folder, options):
    tests = Tests(folder, options.shell)
    cases = [case for case in CASES if not options.case or case.name in options.case]
    # The long ones first, so that none is left alone at the end.
    long_first = sorted(cases, key=lambda case: not case.rooms)
    with ThreadPoolExecutor(os.cpu_count()) as pool, ThreadPoolExecutor(len(cases)) as starts:
        begun = {case.name: starts.submit(run_case, tests, case, options.dense, pool)
                 for case in long_first}
        failures = sum(tell(case, *begun[case.name].result()) for case in cases)
    return REFUSED if failures else DONE


# WHERE FOLDERS CAN BE MOUNTED

def can_mount(front):
    """Whether a folder can be mounted behind these words."""
    if front and not shutil.which(front[0]):
        return False
    with tempfile.TemporaryDirectory() as folder:
        line = 'mount -t tmpfs -o size=8k tmpfs "$0" && umount "$0"'
        return subprocess.run([*front, 'sh', '-c', line, folder], check=False,
                              stdout=subprocess.DEVNULL,
                              stderr=subprocess.DEVNULL).returncode == 0


def main():
    parser = argparse.ArgumentParser(usage=__doc__.split('\n', maxsplit=1)[0][len('Usage: '):])
    parser.add_argument('--shell', default='sh')
    parser.add_argument('--dense', action='store_true')
    parser.add_argument('case', nargs='*')
    options = parser.parse_args()
    for program in PROGRAM, DESK:
        if not os.path.exists(program):
            print(f'FAILED  there is no program {program}: ./build makes it')
            return REFUSED
    if 'FULL_FOLDERS' not in os.environ:
        # In a name space of its own all mounts go away with the program, however it ends.
        for front in ['unshare', '-m'], ['unshare', '-rm'], []:
            if can_mount(front):
                words = [*front, sys.executable, *sys.argv]
                return subprocess.run(words, env={**os.environ, 'FULL_FOLDERS': 'in'},
                                      check=False).returncode
        print('skipped full folders: no folder can be mounted here')
        return DONE
    # All of it stands in memory, where a sync costs nothing.
    with tempfile.TemporaryDirectory() as folder, Mounted(os.path.join(folder, 'all')) as path:
        return test_all(path, options)


if __name__ == '__main__':
    sys.exit(main())
