#!/usr/bin/env python3
"""Usage: checks/generated.py [--seed N] [--files N] [--keep FOLDER] [--reasons]

Forges 10,000 files, or so many, and has each opened by the program and read by the reader of
examples/read_archive.py, which goes by docs/FILE-FORMAT.md alone. Each is an archive of layout 1 or
2, one that the program wrote or one of tunes that are made up, and then most are changed, in one
place or several: numbers that are set to the ends of what they may be, bytes, pages that change
places or are copied, ends that are cut off or put on, gates and logs that lie. Some of them are
archives still.

Both have to say the same of each file: that it is no archive, that it is damaged, or which tunes
and set lists it has. The program may take 65,536 kilobytes of memory and a second of processor for
that, and ends by itself. It writes the file where a log holds behind an open gate, and nowhere
else; and the file reads the same then as before.

The file of a number depends on the seed alone, and on what the program writes. Files on which the
two disagree are kept in FOLDER, /tmp/generated. The program is the one that ./tunes has built, or
the one that the variable TUNES names. It uses all cores. The status is 1 where something failed, or
where one of the answers was so rare that it says little.
"""
import argparse
import copy
import io
import multiprocessing
import os
import random
import re
import signal
import subprocess
import sys
import tempfile
import time
from collections import Counter
from typing import NamedTuple

sys.dont_write_bytecode = True
ROOT = os.path.dirname(os.path.dirname(os.path.abspath(__file__)))
sys.path.append(os.path.join(ROOT, 'examples'))
import archives
import read_archive
import layouts
from archives import (COUNT, DESCRIPTOR, GATE, LEAF_HEAD, LINK_BYTES, MAGIC, OPEN, PAGE_BYTES,
                      PAGES, four_bytes, place_of, set_bytes, width_of)
from search_keys import keys_of

BUILT = os.path.join(ROOT, 'crates', 'tunes', 'out', 'tunes')
PROGRAM = os.path.abspath(os.environ.get('TUNES') or BUILT)
MOST_KILOBYTES, MOST_SECONDS, PATIENCE = 65536, 1, 60
NOT_ARCHIVE, DAMAGED, OPENED = 'NotArchive', 'Damaged', 'opened'
REFUSALS = {NOT_ARCHIVE: b'refused 40 NotArchive\n', DAMAGED: b'refused 41 Damaged\n'}
# Of a hundred files each answer has to have so many at least; and so many have to be damaged behind
# the front, which says how many pages there are, so that pages were read.
LEAST = {NOT_ARCHIVE: 1, DAMAGED: 30, OPENED: 15}
BEHIND_THE_FRONT, LEAST_BEHIND = 'damaged behind the front', 25
FRONT = re.compile('it says |the file |the log |it does not ')
LINK_HEAD = PAGE_BYTES - LINK_BYTES
EDGES = {1: (0, 1, 40, 41, 200, 201, 255),
         2: (0, 1, 2, 4, 77, 78, 79, 112, 113, 114, 4089, 4090, 4091, 9999, 10000, 32768, 65535),
         4: (0, 1, 2, 3, 19999, 20000, 50000, 999999, 1000000, 1000001, 4000000, 4000001,
             2 ** 31 - 1, 2 ** 31, 2 ** 32 - 1)}



# WHAT STANDS IN A FILE

class Field(NamedTuple):
    """A number in a file: where it begins, how many bytes it has, and whether it names a page."""
    at: int
    size: int
    names_page: bool = False


class Forged:
    """The bytes of a file, for one change after another, and what stands where in it."""

    def __init__(self, data):
        self.data = bytearray(data)
        # How long the file is, where a hole stands behind its bytes.
        self.length = 0
        archive = read_archive.Archive(io.BytesIO(data))
        pages, version = archive.pages, archive.version
        self.count, self.images = pages.count, pages.images
        self.place = {page: pages.images.get(page, place_of(page)) for page in pages.owners}
        self.fields = [Field(GATE, 1), Field(DESCRIPTOR, 4), Field(DESCRIPTOR + 4, 4),
                       Field(COUNT, 4)]
        self.fields += [Field(at - 4, 4, True) for at in pages.images.values()]
        for page, owner in pages.owners.items():
            self.find_fields(self.place[page], owner, version)
        # Where the bytes of texts are, in a file that has any.
        self.texts = [range(self.place[page] + LINK_HEAD + 2 * (page == trail[0]),
                            self.place[page] + LINK_HEAD + self.number(self.place[page] + 4, 2))
                      for _, trail in archive.tunes for page in trail]

    def copy(self):
        """The same once more, to be changed by itself."""
        other = copy.copy(self)
        other.data, other.fields = bytearray(self.data), list(self.fields)
        return other

    def number(self, at, size=4):
        return int.from_bytes(self.data[at:at + size], 'big')

    def set(self, at, size, value):
        if at + size <= len(self.data):
            self.data[at:at + size] = (value % 256 ** size).to_bytes(size, 'big')

    def find_fields(self, place, owner, version):
        """Adds the numbers on a page that somebody has."""
        if owner == 'the root':
            self.fields += [Field(place + 4 * word, 4, word > 0) for word in range(7)]
        elif owner.startswith('leaf'):
            self.fields.append(Field(place, 2))
            width = width_of(owner.split()[-1], version)
            for entry in range(self.number(place, 2)):
                at = place + LEAF_HEAD + (width + 4) * entry
                self.fields.append(Field(at, 4))
                self.fields.append(Field(at + width, 4, owner.endswith('numbers')))
        else:
            self.fields += [Field(place, 4, True), Field(place + 4, 2)]
            begin, end = place + LINK_HEAD, place + LINK_HEAD + self.number(place + 4, 2)
            if owner.startswith('the list'):
                self.fields += [Field(at, 4, True) for at in range(begin, end, 4)]
            elif owner.startswith('tune'):
                self.fields.append(Field(begin, 2))
            else:
                self.fields += [Field(at, size) for at in range(begin, end) for size in (1, 2, 4)
                                if at + size <= end]

    def page(self, page):
        return bytes(self.data[place_of(page):place_of(page + 1)])

    def put_page(self, page, image):
        if place_of(page + 1) <= len(self.data):
            self.data[place_of(page):place_of(page + 1)] = image


# CHANGES, EACH OF A FILE BY A RANDOM CHOICE

def set_number(choice, forged):
    """A number becomes one of the ends of what it may be, its neighbour, or another number."""
    field = choice.choice(forged.fields)
    at, size, names_page = field
    now = forged.number(at, size)
    own = max(0, at - PAGES) // PAGE_BYTES
    others = [choice.choice(EDGES[size]), now + 1, now - 1, choice.randrange(256 ** size)]
    if size == 4:
        others += [own, forged.count - 1, forged.count, forged.count + 1]
    other = choice.choice(forged.fields)
    others.append(forged.number(other.at, other.size))
    if names_page:
        others += choice.choices(sorted(forged.place) or [0], k=6)
    forged.set(at, size, choice.choice(others))


def set_byte_of_use(choice, forged):
    """A byte at the front of a page in use, or of the file."""
    begin = choice.choice([0, GATE, DESCRIPTOR, COUNT, *forged.place.values()])
    set_one(choice, forged, begin + choice.choice([choice.randrange(8), choice.randrange(80),
                                                   choice.randrange(PAGE_BYTES)]))


def set_byte_of_text(choice, forged):
    """A byte of a tune."""
    if forged.texts:
        set_one(choice, forged, choice.choice(choice.choice(forged.texts) or range(1)),
                b'\n\n\r \tXKTR:%\\[]{}()"!+|^=_ABCGabc\',0')


def set_any_byte(choice, forged):
    if forged.data:
        set_one(choice, forged, choice.randrange(len(forged.data)))


def set_one(choice, forged, at, values=b''):
    if at < len(forged.data):
        flipped = forged.data[at] ^ 1 << choice.randrange(8)
        forged.data[at] = choice.choice(values or [0, 255, choice.randrange(256), flipped])


def set_byte_that_nobody_looks_at(choice, forged):
    """Bytes behind the magic, the gate, the descriptor and the number, and on free pages."""
    free = [place_of(page) for page in range(forged.count) if page not in forged.place]
    begins = [len(MAGIC), GATE + 1, DESCRIPTOR + 8, COUNT + 4, PAGES + 28, *free]
    begin = choice.choice(begins)
    for at in range(begin, begin - begin % PAGE_BYTES + PAGE_BYTES, choice.randrange(1, 900)):
        set_one(choice, forged, at)


def swap_pages(choice, forged):
    """Two pages change places, whatever names them."""
    first, second = choice.choices(sorted(forged.place) or [0], k=2)
    images = forged.page(first), forged.page(second)
    forged.put_page(second, images[0])
    forged.put_page(first, images[1])


def copy_page(choice, forged):
    first, second = choice.randrange(forged.count + 1), choice.randrange(forged.count + 1)
    forged.put_page(second, forged.page(first))


def rename_pages(choice, forged):
    """Two pages change places, and all that names them says so."""
    if forged.images or forged.count < 3:
        return
    for _ in range(choice.randrange(1, 6)):
        first, second = choice.sample(range(1, forged.count), 2)
        names = {first: second, second: first}
        for at, size, names_page in forged.fields:
            if names_page and (now := forged.number(at, size)) in names:
                forged.set(at, size, names[now])
        images = forged.page(first), forged.page(second)
        forged.put_page(second, images[0])
        forged.put_page(first, images[1])
        moved = {place_of(old): place_of(new) for old, new in names.items()}
        forged.fields = [field._replace(at=field.at + moved.get(begin, begin) - begin)
                         for field in forged.fields
                         for begin in [field.at - field.at % PAGE_BYTES]]


def cut(choice, forged):
    pages_end = place_of(forged.count)
    end = choice.choice([choice.randrange(12), choice.randrange(PAGES + PAGE_BYTES + 2),
                         choice.randrange(len(forged.data) + 1), pages_end, pages_end - 1,
                         pages_end - PAGE_BYTES, len(forged.data) - 1])
    del forged.data[max(0, end):]


def lengthen(choice, forged):
    forged.data += choice.choice([bytes, choice.randbytes])(choice.choice([1, 3, 4096, 5000]))


def make_hole(choice, forged):
    """Very many pages, of which those behind the others are a hole."""
    count = choice.choice([999999, 1000000, 1000001, 4000000, 4000001, forged.count + 1])
    forged.set(COUNT, 4, count)
    del forged.data[place_of(forged.count):]
    forged.length = place_of(count) + choice.choice([0, 0, 1, -1])


def set_magic(choice, forged):
    at = choice.randrange(len(MAGIC))
    forged.data[at:at + 1] = bytes([choice.randrange(256)])


def put_log(choice, forged):
    """An open gate and a log, which may lie."""
    if forged.images:
        return
    most = choice.choice([1, 2, 3, forged.count])
    named = sorted(choice.sample(range(forged.count), min(most, forged.count)))
    entries = [[page, forged.page(page)] for page in named]
    count = choice.choice([forged.count] * 6 + [forged.count + 1, forged.count - 1, 0, 4000001])
    said = len(entries) + choice.choice([0] * 8 + [1, -1, 2 ** 32 - 1])
    lie = choice.randrange(10)
    if lie == 0:
        choice.shuffle(entries)
    elif lie == 1:
        entries.append(entries[-1])
    elif lie == 2:
        choice.choice(entries)[0] = choice.choice([forged.count, count, 2 ** 32 - 1])
    elif lie == 3:
        choice.choice(entries)[1] = choice.randbytes(PAGE_BYTES)
    if lie > 3:
        # What the log has counts, and not what stands in the place of its pages.
        for page in named:
            forged.put_page(page, choice.choice([bytes(PAGE_BYTES), choice.randbytes(PAGE_BYTES)]))
        forged.set(COUNT, 4, choice.choice(EDGES[4]))
    del forged.data[place_of(count) if 0 < count <= forged.count + 1 else place_of(forged.count):]
    forged.data += bytes(max(0, place_of(min(count, forged.count + 1)) - len(forged.data)))
    forged.data += b''.join(four_bytes(page) + image for page, image in entries)
    forged.data[GATE:GATE + 1] = OPEN
    forged.set(DESCRIPTOR, 4, count)
    forged.set(DESCRIPTOR + 4, 4, said)


def open_gate(choice, forged):
    forged.data[GATE:GATE + 1] = choice.choice([OPEN, b'\xA6', b'\x01', b'\xFF'])


CHANGES = {set_number: 30, set_byte_of_use: 12, set_byte_of_text: 10, set_any_byte: 5,
           set_byte_that_nobody_looks_at: 8, swap_pages: 3, copy_page: 3, rename_pages: 6, cut: 5,
           lengthen: 4, make_hole: 1, set_magic: 2, put_log: 7, open_gate: 2}


# TUNES THAT ARE MADE UP

WORDS = [b'The', b'A', b'an', b'Kesh', b'jig', b'of', b'Zw\xc3\xb6lf', b'\xff', b'\x00', b'I',
         b'abcdefghijklmnopqrstuvwxyz', b'\\', b'\\%', b'%', b',', b', ', b' ', b'\t', b':', b'1']
TONICS = [b'A', b'B', b'C', b'D', b'E', b'F', b'G', b'H', b'c', b'', b'none', b'NONE', b'HP', b'Hp',
          b'exp']
MODES = [b'', b'', b'm', b'M', b'maj', b'MIN', b'minor', b'Dor', b'mixolydian', b'LYD', b'phr',
         b'loc', b'aeo', b'Ion', b'exp', b'mi', b'treble', b'none']
SETTINGS = [b'^f', b'_B=c', b'^^g__A', b'=', b'^', b'clef=bass', b'_', b'^f^', b'f', b'=e=E']
MUSIC = [b'C', b'D', b'E', b'F', b'G', b'A', b'B', b'c', b'd', b'e', b'f', b'g', b'a', b'b', b'G,',
         b"c'", b"B,'", b'^', b'_', b'=', b'^^', b'__', b'|', b':', b'|:', b'[CEG]', b'[', b']',
         b'[^c_e]', b'[1', b'[K:', b'[K:Dmin]', b'[K: g]', b'[M:3/4]', b'[k:A]', b'{', b'}',
         b'{gab}', b'"', b'"Am"', b'!', b'!trill!', b'+', b'(', b'(3', b'(3:2', b'(3:2:3', b'(3::2',
         b'%', b'\\%', b'\\', b'z', b' ', b'-', b'2', b'/', b'~', b'.', b'h', b'\x00', b'\xc3']
OTHER_LINES = [b'%%begintext', b'%%beginps', b'%%endtext', b'%%end', b'%%begin', b'+:more',
               b'%abc', b'L:1/8', b'w:la la', b'V:1', b'r:reel', b't:no', b'k:D', b'%%text K:',
               b' K:D', b'T', b'1:2']


def made_up(choice):
    """A text of a tune, with all kinds of lines; not always of the form that a text has to have."""
    def some(words, most):
        return b''.join(choice.choices(words, k=choice.randrange(most)))

    def key_line():
        return b'K:' + b''.join([choice.choice([b'', b' ', b'\t']), choice.choice(TONICS),
                                 choice.choice([b'', b'', b'b', b'#', b'x']),
                                 choice.choice([b'', b' ', b'\t ']), choice.choice(MODES),
                                 choice.choice([b'', b' ', b'  ']),
                                 b' '.join(choice.choices(SETTINGS, k=choice.randrange(3))),
                                 choice.choice([b'', b'', b'%', b'\\%'])])

    def title():
        words = choice.choices(WORDS, k=choice.randrange(1, 6))
        return b'T:' + choice.choice([b'', b' ', b', ']).join(words)
    kinds = [(title, 3), (lambda: b'R:' + some(WORDS, 4), 2), (key_line, 1),
             (lambda: choice.choice(OTHER_LINES), 2)]
    makers, weights = zip(*kinds)
    lines = [choice.choices(makers, weights)[0]() for _ in range(choice.randrange(8))]
    lines += [key_line()] * choice.choice([1, 1, 1, 1, 0])
    kinds = [(lambda: some(MUSIC, 24), 6), (key_line, 1), (title, 1),
             (lambda: choice.choice(OTHER_LINES), 2)]
    makers, weights = zip(*kinds)
    lines += [choice.choices(makers, weights)[0]() for _ in range(choice.randrange(5))]
    lines = [line for line in lines if line.strip(b' \t') or not choice.randrange(50)]
    return b''.join(line + b'\n' for line in lines)


def tune_of(text):
    """A text with the keys that it has in layout 2."""
    titles, rhythms, scales, incipits = keys_of(text, 12)
    steps = b''.join(incipits)
    return archives.Tune(text, tuple(titles), b''.join(rhythms), b''.join(scales),
                         tuple(int.from_bytes(steps[at:at + 4], 'big') - 2 ** 31
                               for at in range(0, len(steps), 4)))


def made_up_archive(choice):
    """An archive of some tunes that are made up, in leaves of any size."""
    numbers = choice.sample([*range(1, 9), 999998, 999999], choice.randrange(1, 6))
    tunes = {number: tune_of(made_up(choice)) for number in numbers}
    names = sorted(choice.sample([b'a', b'B', b'0_-z', b'friday', b'x' * 40], choice.randrange(4)))
    sets = b''.join(set_bytes(name, *choice.choices(numbers, k=choice.randrange(4)))
                    for name in names)
    file = io.BytesIO()
    archive = archives.Archive(tunes, sets, choice.choice([1, 9999]), choice.choice([1, 2]))
    archive.write(file, choice.randrange(1, 6))
    return file.getvalue()


# ARCHIVES THAT THE PROGRAM WROTE

def importing(book):
    return b'import %d\n%b' % (len(book), book)


def written(folder, *scripts):
    """The file of a new archive after each of these scripts."""
    path = os.path.join(folder, 'written.abcx')
    files = []
    subprocess.run([PROGRAM, 'make', path], check=True, stdout=subprocess.DEVNULL)
    for script in scripts:
        subprocess.run([PROGRAM, 'run', path], input=script, check=True,
                       stdout=subprocess.DEVNULL)
        with open(path, 'rb') as file:
            files.append(file.read())
    os.remove(path)
    return files


def upgraded(folder, data):
    """A file of layout 1 after it was brought to layout 2."""
    path = os.path.join(folder, 'upgraded.abcx')
    with open(path, 'wb') as file:
        file.write(data)
    subprocess.run([PROGRAM, 'upgrade', path], check=True, stdout=subprocess.DEVNULL)
    with open(path, 'rb') as file:
        return file.read()


def written_by_program(folder):
    """Archives, each with how often it is taken; those of layout 1 it wrote, or may have written.
    """
    with open(os.path.join(ROOT, 'examples', 'session.abc'), 'rb') as file:
        session = file.read()
    sets = b'set-new friday\nset-add friday 3\nset-add friday 1\nset-new 0_-z\n'
    changes = (b'delete 7\nrenumber 15 900\nreplace 3 1 25\nX:3\nT:Another\nR:reel\nK:D\n'
               b'set-add friday 900\nset-drop 0_-z\n')
    long_tune = b'X:1\nT:Long\nK:C\n' + b'GABc dedB\n' * 1300
    many = b''.join(b'X:1\nT:Reel %d\nR:reel\nK:D\nDF%b\n\n' % (number % 60, b'A' * (number % 5))
                    for number in range(116))
    made, = written(folder, b'')
    before, after, longer = written(folder, importing(session) + sets, changes,
                                    importing(long_tune) + b'set-new monday\nset-add monday 16\n')
    full, split = written(folder, importing(many), importing(b'X:1\nT:Reel 7\nK:G\nGAB\n' * 4))
    older = layouts.in_layout(1, layouts.session(), layouts.FRIDAY)
    newer = upgraded(folder, older)
    return {made: 1, before: 6, after: 6, longer: 3, split: 1,
            archives.opened(made, before): 1, archives.opened(before, after): 4,
            archives.opened(after, longer): 2, archives.opened(full, split): 1,
            layouts.kept('layout-1-two-tunes'): 1, older: 4, newer: 1,
            archives.opened(older, newer): 3}


# JUDGING

class Answer(NamedTuple):
    """What is said of a file: whether a log holds, an answer and its reason, book and sets."""
    recovers: bool
    what: str
    reason: str = ''
    book: bytes = b''
    sets: tuple = ()


def said_by_reader(path):
    with open(path, 'rb', buffering=0) as file:
        archive = read_archive.Archive(file)
        recovers = bool(archive.pages.images)
        if faults := archive.pages.faults:
            what = NOT_ARCHIVE if 'does not begin' in faults[0] else DAMAGED
            return Answer(recovers, what, faults[0])
        book = io.BytesIO()
        archive.write_book(book)
        return Answer(recovers, OPENED, '', book.getvalue(), tuple(archive.sets))


def told(answer):
    """What the program is asked, and how its reply begins where it opens the file: with the book,
    and then these lines, each of which may go on with a title where a place is told."""
    names = [(name.encode(), places) for name, places in answer.sets]
    script = b''.join([b'export\nsets\n', *(b'set-show %b\n' % name for name, _ in names)])
    lines = [b'ok sets %d' % len(names)]
    lines += [b'%b %d' % (name, len(places)) for name, places in names]
    for name, places in names:
        lines.append(b'ok set-show %b %d' % (name, len(places)))
        lines += [b'%d %d' % row for row in enumerate(places, 1)]
    return script, b'ok export %d\n%b' % (len(answer.book), answer.book), lines


def fits(output, answer):
    """Whether the program replied that it has what the reader read."""
    _, book, wanted = told(answer)
    lines = output[len(book):].split(b'\n')
    return (output.startswith(book) and lines.pop() == b'' and len(lines) == len(wanted)
            and all(line == begin or line.startswith(begin + b' ')
                    for line, begin in zip(lines, wanted)))


class Ended(NamedTuple):
    """How the program ended."""
    status: int
    output: bytes
    kilobytes: int
    seconds: float


def impatient(*_):
    raise TimeoutError


def run(path, script):
    """Runs a script over a file. Linux counts in the memory that this program has as it starts it.
    """
    with tempfile.TemporaryFile(dir=os.path.dirname(path)) as questions:
        questions.write(script)
        questions.seek(0)
        process = subprocess.Popen([PROGRAM, 'run', path], stdin=questions, stdout=subprocess.PIPE,
                                   stderr=subprocess.DEVNULL)
        signal.alarm(PATIENCE)
        try:
            output = process.stdout.read()
            _, status, usage = os.wait4(process.pid, 0)
        except TimeoutError:
            process.kill()
            output, (_, status, usage) = b'it does not end', os.wait4(process.pid, 0)
        signal.alarm(0)
        process.stdout.close()
        process.returncode = os.waitstatus_to_exitcode(status)
        return Ended(process.returncode, output, usage.ru_maxrss, usage.ru_utime + usage.ru_stime)


def wrong_with(path, answer, ended):
    """What is wrong with how the program ended, when this was the answer of the reader."""
    if ended.kilobytes > MOST_KILOBYTES or ended.seconds > MOST_SECONDS:
        return f'it takes {ended.kilobytes} kB and {ended.seconds:.2f} seconds'
    if answer.what in REFUSALS:
        good = (ended.status, ended.output) == (3, REFUSALS[answer.what])
    else:
        good = ended.status == 0 and fits(ended.output, answer)
    if not good:
        return (f'the reader says: {answer.what}, {answer.reason}; '
                f'the program ends with {ended.status} and {ended.output[:60]}')
    if answer.recovers != (os.stat(path).st_mtime != 1):
        return 'nothing was recovered' if answer.recovers else 'the program wrote the file'
    if answer.recovers and said_by_reader(path) != answer._replace(recovers=False):
        return 'the file is another after it was recovered'
    return ''


class Generator:
    """Makes the file of each number, and has both look at it."""

    def __init__(self, seed, folder, keep, bases):
        self.seed, self.folder, self.keep = seed, folder, keep
        self.bases, self.weights = [Forged(data) for data in bases], list(bases.values())

    def forge(self, number):
        choice = random.Random(f'{self.seed} {number}')
        if choice.randrange(4) == 0:
            forged = Forged(made_up_archive(choice))
            changes = choice.choice([0, 0, 0, 1, 1, 2])
        else:
            forged = choice.choices(self.bases, self.weights)[0].copy()
            changes = choice.choice([1, 1, 1, 1, 1, 2, 2, 3, 4])
        for change in choice.choices(list(CHANGES), CHANGES.values(), k=changes):
            change(choice, forged)
        return forged

    def judge(self, number):
        """The answer to a file, its reason, what is wrong with it, and what the program took."""
        path = os.path.join(self.folder, f'{os.getpid()}.abcx')
        forged = self.forge(number)
        with open(path, 'wb') as file:
            file.write(forged.data)
            if forged.length > len(forged.data):
                file.truncate(forged.length)
        os.utime(path, (1, 1))
        answer = said_by_reader(path)
        ended = run(path, told(answer)[0])
        wrong = wrong_with(path, answer, ended)
        if wrong:
            kept = os.path.join(self.keep, f'{self.seed}-{number}.abcx')
            os.makedirs(self.keep, exist_ok=True)
            with open(kept, 'wb') as file:
                file.write(forged.data)
                file.truncate(max(forged.length, len(forged.data)))
            wrong = f'file {number}, {kept}: {wrong}'
        os.remove(path)
        reason = re.sub(r"b?'[^']*'|b\"[^\"]*\"", '..', re.sub('[0-9]+', 'N', answer.reason))
        return answer.what, reason, wrong, ended.kilobytes, ended.seconds


# The generator of a process, which begins with it.
GENERATORS = []


def judge(number):
    return GENERATORS[0].judge(number)


def main():
    words = argparse.ArgumentParser(usage=__doc__.split('\n', maxsplit=1)[0][len('Usage: '):])
    words.add_argument('--seed', type=int, default=1)
    words.add_argument('--files', type=int, default=10000)
    words.add_argument('--keep', default='/tmp/generated')
    words.add_argument('--reasons', action='store_true')
    words = words.parse_args()
    begun = time.time()
    room = '/dev/shm' if os.access('/dev/shm', os.W_OK) else None
    signal.signal(signal.SIGALRM, impatient)
    with tempfile.TemporaryDirectory(dir=room) as folder:
        GENERATORS.append(Generator(words.seed, folder, words.keep, written_by_program(folder)))
        with multiprocessing.get_context('fork').Pool() as workers:
            judged = workers.imap_unordered(judge, range(words.files), 50)
            answers, reasons, most = Counter(), Counter(), (0, 0)
            failures = 0
            for what, reason, wrong, kilobytes, seconds in judged:
                answers[what] += 1
                reasons[reason] += 1
                most = max(most[0], kilobytes), max(most[1], seconds)
                failures += bool(wrong)
                if wrong:
                    print(f'FAILED  {wrong}', flush=True)
    if words.reasons:
        for reason, count in reasons.most_common():
            print(f'{count:7} {reason}')
    answers[BEHIND_THE_FRONT] = sum(count for reason, count in reasons.items()
                                    if reason and not FRONT.match(reason))
    least = {**LEAST, BEHIND_THE_FRONT: LEAST_BEHIND}
    rare = [what for what, of_a_hundred in least.items()
            if answers[what] * 100 < of_a_hundred * words.files]
    told_all = ', '.join(f'{answers[what]} {what}' for what in least)
    print(f'{"FAILED" if failures or rare else "ok":7} {words.files} files of seed {words.seed}: '
          f'{told_all}; {len(reasons)} reasons, {failures} failures; at most {most[0]} kB and '
          f'{most[1]:.2f} seconds each; {time.time() - begun:.0f} seconds')
    for what in rare:
        print(f'FAILED  too few files are {what}')
    sys.exit(1 if failures or rare else 0)


if __name__ == '__main__':
    main()
