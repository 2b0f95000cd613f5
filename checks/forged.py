#!/usr/bin/env python3
"""Usage: checks/forged.py

Writes files by docs/FILE-FORMAT.md and not by the code, whole ones and damaged ones, among them
archives of very many pages and forged chains, and has each read by two: by examples/read_archive.py
and by `tunes check`. What is damaged both have to call so, and no byte of it may be written; the
reader gives a reason, and says by `where` what is damaged. What is whole both have to read, and to
the same book. Where one chain is broken the reader salvages all other tunes. The program may take
65,536 kilobytes of memory for each file. It is ./tunes, or the one that the variable TUNES names. A
line is printed for each case, and the status is 1 where a case failed.

The files are of layout 2, and of layout 1 too where the layouts differ: in the index of incipits,
and in how much there may be.

The largest files have 250 MB, one at a time; those that are longer have holes, and take no room.
"""
import os
import re
import signal
import struct
import subprocess
import sys
import tempfile

sys.dont_write_bytecode = True
from archives import (COUNT, DESCRIPTOR, ENTRY_BYTES, GATE, INDEXES, KEY_BYTES, LAYOUTS,
                      LEAF_ENTRIES, LEAF_HEAD, LINK_BYTES, OPEN, PAGE_BYTES, PAGES, SEARCHES,
                      Archive, Tune, Writer, first_of, four_bytes, key, keys_of, leaf_of, most_of,
                      number_at, page_at, place_of, put, set_bytes, width_of)

ROOT = os.path.dirname(os.path.dirname(os.path.abspath(__file__)))
READER = os.path.join(ROOT, 'examples', 'read_archive.py')
FORMAT_PAGE = os.path.join(ROOT, 'docs', 'FILE-FORMAT.md')
PROGRAM = os.path.abspath(os.environ.get('TUNES') or os.path.join(ROOT, 'tunes'))
MOST_KILOBYTES = 65536
NOT_ARCHIVE, DAMAGED = (3, b'refused 40 NotArchive\n'), (3, b'refused 41 Damaged\n')
# Files up to this size are written out as books too.
SMALL_FILE = 1000000

# Two tunes with their keys, and their set list.
ONE = Tune(b'T:One\nR:jig\nK:C\nCDE|\n', (b'one',), b'jig', b'C 0', (2, 2))
TWO = Tune(b'T:Two\nT:Zwei\nR:reel\nK:G\nGAB|\n', (b'two', b'zwei'), b'reel', b'G 0', (2, 2))
FRIDAY = set_bytes(b'friday', 2)
# One whose key by its title is that by its rhythm; one with keys of 32 bytes; and one without any.
JIG = Tune(b'T:Jig\nR:jig\nK:none\nC|\n', (b'jig',), b'jig')
LONG_WORD = b'abcdefghijklmnopqrstuvwxyz-012345'
LONG = Tune(b'T:The %b6\nT:%b7 %%8\nR:%b\nK:Bbm\n' % ((LONG_WORD,) * 3),
            (LONG_WORD,), LONG_WORD, b'Bb5')
BARE = Tune(b'T:\nK:\n')
# By the version a text with the most bytes that it may have: 3, 1,999 or 7,999 times 8, and 5.
MOST_TEXTS = {version: b'K:\n' + b'w:words\n' * (layout.text // 8 - 1) + b'w:on\n'
              for version, layout in LAYOUTS.items()}

# What changes leave on pages: the first pages of the indexes and of the set lists, the tunes with
# their pages, and chains of one page. Two tunes stand on the pages 1 and 2, the leaf of the numbers
# on page 3 and its list on page 4; then come the leaves of titles, scales and incipits, and the
# lists of these. No tune has a rhythm. An index whose entries change keeps its leaf, and so its
# list stays.
LULLABY, MARCH = b'T:Lullaby\nK:C\n', b'T:March\nK:D\nDFA\n'
WALTZ = b'T:Waltz\nM:3/4\nK:G\nG2B2d2|\n'
FIRSTS, FIRSTS_OF_ONE = (4, 8, 0, 9, 10), (3, 7, 0, 8, 9)
STORED, STORED_TWO = (1, b'\0\1' + LULLABY), (2, b'\0\1' + MARCH)
IMPORT_TWO = b'import %d\nX:1\n%bX:2\n%b' % (len(LULLABY + MARCH) + 8, LULLABY, MARCH)
CHANGES = [
    ('one tune that is added', b'import %d\nX:1\n%b' % (len(MARCH) + 4, MARCH),
     (*FIRSTS_OF_ONE, 0), [(1, 1)], [(1, b'\0\1' + MARCH)]),
    ('two tunes that are added', IMPORT_TWO, (*FIRSTS, 0), [(1, 1), (2, 2)], [STORED, STORED_TWO]),
    ('a tune that is deleted', IMPORT_TWO + b'delete 1\n', (*FIRSTS, 0), [(2, 2)], [STORED_TWO]),
    ('a tune that is replaced',
     IMPORT_TWO + b'replace 2 1 %d\nX:1\n%b' % (len(WALTZ) + 4, WALTZ),
     (*FIRSTS, 0), [(1, 1), (2, 2)], [STORED, (2, b'\0\2' + WALTZ)]),
    ('a tune that is renumbered', IMPORT_TWO + b'renumber 1 9\n', (*FIRSTS, 0),
     [(2, 2), (9, 1)], [STORED, STORED_TWO]),
    ('a set list that is new', IMPORT_TWO + b'set-new friday\n', (*FIRSTS, 11),
     [(1, 1), (2, 2)], [STORED, STORED_TWO, (11, set_bytes(b'friday'))]),
    ('a set list that is longer', IMPORT_TWO + b'set-new friday\nset-add friday 2\n',
     (*FIRSTS, 11), [(1, 1), (2, 2)], [STORED, STORED_TWO, (11, set_bytes(b'friday', 2))]),
]

# The front of a long tune, and its further lines.
TUNE = b'T:Long\nK:C\n'
LINE = b'GABc dedB\n'
STEPS = 2, 2, 1, 2, 2, -2, -3
THREE_PAGES = Tune(TUNE + LINE * 1225, (b'long',), b'', b'C 0', STEPS + (-4, 2, 2, 1))
EIGHT_TITLES = Tune(b''.join(b'T:%d\n' % n for n in range(8)) + b'R:jig\nK:C\n' + LINE,
                    tuple(b'%d' % n for n in range(8)), b'jig', b'C 0', STEPS)
# Nothing but their number is wrong with the bytes of this tune.
FULL = LINE * (LINK_BYTES // len(LINE))
LONG_CHAIN = [(b'\x00\x01' + TUNE + FULL)[:LINK_BYTES]] + [FULL] * 59999


def read_apart(word, path):
    """The status of the reader that goes by the page alone, what it writes where the file is small,
    and the last line of what it says."""
    small = os.path.getsize(path) <= SMALL_FILE
    reader = subprocess.run([sys.executable, READER, word, path], stderr=subprocess.PIPE,
                            stdout=subprocess.PIPE if small else subprocess.DEVNULL, check=False)
    lines = reader.stderr.decode().splitlines()
    return reader.returncode, reader.stdout or b'', lines[-1] if lines else ''


def run(words, script=b''):
    """The status and the output of a program, and how many kilobytes of memory it took at most.

    Linux counts in what this program itself has when it starts the other, some 17,000: so no
    large file is ever read or kept here.
    """
    process = subprocess.Popen(words, stdin=subprocess.PIPE, stdout=subprocess.PIPE)
    process.stdin.write(script)
    process.stdin.close()
    output = process.stdout.read()
    process.stdout.close()
    _, status, usage = os.wait4(process.pid, 0)
    process.returncode = os.waitstatus_to_exitcode(status)
    return (process.returncode, output), usage.ru_maxrss


# FILES

def put_count(file, count):
    """Gives the file so many pages; those behind what was written are a hole."""
    put(file, COUNT, count)
    file.truncate(place_of(count))


def put_short(file, offset, value):
    file.seek(offset)
    file.write(struct.pack('>H', value))


def put_bytes(file, data):
    file.truncate(0)
    file.seek(0)
    file.write(data)


def has_three_leaves(file):
    """Whether each index has three leaves, but for that of incipits, of which no tune has one."""
    return [leaves_of(file, name) for name in INDEXES] == [3, 3, 3, 3, 0]


def leaves_of(file, name):
    """How many leaves the list of an index names, on a page at most."""
    if not number_at(file, first_of(name)):
        return 0
    file.seek(list_of(file, name) + 4)
    return struct.unpack('>H', file.read(2))[0] // 4


def put_archive(file, archive, most=LEAF_ENTRIES):
    file.truncate(0)
    archive.write(file, most)


def put_tunes(file, version, count, tune, most=LEAF_ENTRIES):
    """An archive of so many tunes of one text, with so many entries in a leaf at most."""
    file.truncate(0)
    pages = Writer(file)
    chains = [pages.chain(b'\x00\x01' + tune.text) for _ in range(count)]
    rows = ((key(four_bytes(number)), chain) for number, chain in enumerate(chains, 1))
    firsts = [pages.index(rows, most)]
    for name, words in keys_of(tune, version).items():
        rows = ((word, number) for word in sorted(words) for number in range(1, count + 1))
        firsts.append(pages.index(rows, min(most, most_of(name, version))))
    pages.end(four_bytes(version, *firsts, 0))


def put_version_102(file):
    """An archive of the two tunes as the program wrote it before it had indexes."""
    file.truncate(0)
    pages = Writer(file)
    chains = [pages.chain(b'\x00\x01' + tune.text) for tune in (ONE, TWO)]
    rows = pages.chain(four_bytes(1, chains[0], 2, chains[1]))
    pages.end(four_bytes(102, rows, pages.chain(FRIDAY)))


def put_the_one_of_the_page(file):
    """The archive of one tune whose bytes stand in docs/FILE-FORMAT.md."""
    with open(FORMAT_PAGE, encoding='utf-8') as page:
        section = page.read().split('\n## An archive of one tune\n')[1].split('\n## ')[0]
    file.truncate(0)
    begin = 0
    for line in section.split('\n'):
        if heading := re.fullmatch(r'page (\d+)', line):
            begin = place_of(int(heading[1]))
        elif row := re.match(r'([0-9A-F]{4,8})  ((?:[0-9A-F]{2} )*[0-9A-F]{2})', line):
            file.seek(begin + int(row[1], 16))
            file.write(bytes.fromhex(row[2]))
    file.truncate(begin + PAGE_BYTES)


def put_log(file, count, images):
    """Opens the gate on a log behind so many pages, of these images of the pages from 0 on."""
    file.seek(GATE)
    file.write(OPEN)
    put(file, DESCRIPTOR, count, len(images))
    file.seek(place_of(count))
    for page, image in enumerate(images):
        file.write(four_bytes(page) + image)


def put_log_of_zeros(file, count):
    """Opens the gate on a log of as many entries as there are pages, each of them of page 0."""
    put_log(file, count, [])
    put(file, DESCRIPTOR, count, count)
    file.truncate(place_of(count) + (4 + PAGE_BYTES) * count)


def stands(file, firsts, rows, chains):
    """Whether the indexes and the set lists begin on these pages, the numbers have these tunes and
    their pages, and chains of one page have these bytes."""
    leaf = leaf_of(file, 'numbers')
    return ([number_at(file, first_of(name)) for name in (*INDEXES, 'sets')] == list(firsts)
            and bytes_at(file, leaf, 2) == struct.pack('>H', len(rows))
            and bytes_at(file, leaf + LEAF_HEAD, ENTRY_BYTES * len(rows)) == b''.join(
                key(four_bytes(number)) + four_bytes(page) for number, page in rows)
            and all(bytes_at(file, place_of(page), 6 + len(data))
                    == struct.pack('>IH', 0, len(data)) + data for page, data in chains))


def bytes_at(file, offset, length):
    file.seek(offset)
    return file.read(length)


def list_of(file, name):
    """Where the page begins on which the leaves of an index are listed."""
    return place_of(number_at(file, first_of(name)))


def put_list(file, name, *leaves):
    """Gives the list of an index these leaves in the place of its own."""
    put_short(file, list_of(file, name) + 4, 4 * len(leaves))
    put(file, list_of(file, name) + PAGE_BYTES - LINK_BYTES, *leaves)


def add_leaf(file, name, page):
    """Lists a page behind the only leaf of an index."""
    put_list(file, name, page_at(leaf_of(file, name)), page)


# DAMAGE

def last_key(name, version):
    """Above the keys of all tunes."""
    return key(b'\xff', width_of(name, version))


def two_of_one_number(version):
    """An archive in which both tunes have the number 7; nothing else is wrong with it."""
    first, second = (Archive({7: tune}, version=version) for tune in (ONE, TWO))
    first.tunes += second.tunes
    for name in SEARCHES:
        first.entries[name] = sorted(first.entries[name] + second.entries[name])
    return first


def with_entries(version, name, change):
    """The archive of two tunes, and of one without keys, with other entries in a search index."""
    archive = Archive({1: ONE, 2: TWO, 3: BARE}, FRIDAY, version=version)
    archive.entries[name] = change(archive.entries[name])
    return archive


def with_row(version, word=None, data=None):
    """The archive of two tunes, with another key of the first in the numbers, or another chain."""
    archive = Archive({1: ONE, 2: TWO}, FRIDAY, version=version)
    old_word, old_data = archive.tunes[0]
    archive.tunes[0] = (word or old_word, old_data if data is None else data)
    return archive


def fronts_of_no_archive():
    """What begins as no archive does, by its name: what it does to the file of the small archive.
    """
    for length in (0, 7):
        yield f'a file of {length} bytes', lambda file, n=length: file.truncate(n)

    def put_magic(file):
        file.seek(7)
        file.write(b'2')
    yield 'another magic', put_magic


def damages_of_the_front():
    """Damage by its name: what it does to the file of the small archive."""
    for length in (8, PAGES + PAGE_BYTES - 1):
        yield f'a file that is cut to {length} bytes', lambda file, n=length: file.truncate(n)
    yield ('a file that is cut in its last page',
           lambda file: file.truncate(place_of(number_at(file, COUNT)) - 1))
    yield 'no page', lambda file: put(file, COUNT, 0)
    for pages, entries in ((0, 1), (1, 0), (1, 2), (4000001, 1)):
        def lie(file, descriptor=(pages, entries)):
            put_log(file, number_at(file, COUNT), [bytes(PAGE_BYTES)] * 2)
            put(file, DESCRIPTOR, *descriptor)
        yield f'a log of {entries} entries for {pages} pages', lie
    for name, entry, page in (
            ('a log whose pages fall', 0, 2), ('a log of one page twice', 0, 1),
            ('a log of a page that is not there', 1, 2 ** 32 - 1)):
        def put_entry(file, entry=entry, page=page):
            count = number_at(file, COUNT)
            put_log(file, count, [bytes(PAGE_BYTES)] * 2)
            put(file, place_of(count) + (4 + PAGE_BYTES) * entry, page)
        yield name, put_entry

    def cut_log(file):
        count = number_at(file, COUNT)
        put_log(file, count, [bytes(PAGE_BYTES)] * 2)
        file.truncate(place_of(count) + 2 * (4 + PAGE_BYTES) - 1)
    yield 'a log that is cut', cut_log


def damages_of_the_root():
    """Damage by its name: what it does to the file of the small archive."""
    for version in (0, 3, 102):
        yield f'version {version}', lambda file, v=version: put(file, PAGES, v)
    for name in INDEXES:
        yield (f'the {name} at a page that is not there',
               lambda file, n=name: put(file, first_of(n), number_at(file, COUNT)))
    yield ('one list for two indexes',
           lambda file: put(file, first_of('rhythms'), number_at(file, first_of('titles'))))
    yield ('a list of leaves as the set lists',
           lambda file: put(file, first_of('sets'), number_at(file, first_of('titles'))))


def damages_of_chains():
    def turn_back(file):
        put_short(file, list_of(file, 'sets') + 4, LINK_BYTES)
        put(file, list_of(file, 'sets'), number_at(file, first_of('sets')))

    def go_on(file):
        count = number_at(file, COUNT)
        put(file, list_of(file, 'sets'), count)
        Writer(file, count).chain(FRIDAY)
        put_count(file, count + 1)

    yield ('a chain of which no byte counts',
           lambda file: put_short(file, list_of(file, 'sets') + 4, 0))
    yield ('a page of a chain of which more bytes count than it has',
           lambda file: put_short(file, list_of(file, 'sets') + 4, LINK_BYTES + 1))
    yield 'a chain that leads back to its front', turn_back
    yield 'a chain that goes on behind a page that is not full', go_on


def damages_of_leaves(version, names):
    for name in names:
        most, size = most_of(name, version), width_of(name, version) + 4
        yield (f'a list of 5 bytes in the {name}',
               lambda file, n=name: put_short(file, list_of(file, n) + 4, 5))
        yield (f'a leaf of {most + 1} entries in the {name}',
               lambda file, n=name, more=most + 1: put_short(file, leaf_of(file, n), more))
        yield f'the root as a leaf of the {name}', lambda file, n=name: add_leaf(file, n, 0)
        yield (f'a leaf of the {name} that is not there',
               lambda file, n=name: add_leaf(file, n, number_at(file, COUNT)))

        def add_empty(file, n=name):
            count = number_at(file, COUNT)
            add_leaf(file, n, count)
            put_count(file, count + 1)
        yield f'a leaf without an entry beside the one of the {name}', add_empty

        def swap_entries(file, n=name, size=size):
            place = leaf_of(file, n) + LEAF_HEAD
            file.seek(place)
            first, second = file.read(size), file.read(size)
            file.seek(place)
            file.write(second + first)
        yield f'entries of the {name} that do not rise', swap_entries

        def repeat_entry(file, n=name, size=size):
            place = leaf_of(file, n) + LEAF_HEAD
            file.seek(place)
            first = file.read(size)
            file.write(first)
        yield f'an entry of the {name} twice', repeat_entry


def damages_of_a_chain(number):
    """Damage of the chain of one tune by its name, on each of its pages."""
    def trail(file):
        leaf = leaf_of(file, 'numbers') + LEAF_HEAD + ENTRY_BYTES * (number - 1)
        pages = [number_at(file, leaf + KEY_BYTES)]
        while behind := number_at(file, place_of(pages[-1])):
            pages.append(behind)
        return pages

    for link in range(3):
        def put_on(file, offset, value, put_it=put, link=link):
            pages = trail(file)
            place = place_of(pages[min(link, len(pages) - 1)])
            put_it(file, place + offset, page_at(place) if value is None else value)
        yield (f'a page that is not there behind link {link}',
               lambda file, it=put_on: it(file, 0, 2 ** 32 - 1))
        yield (f'itself behind link {link}', lambda file, it=put_on: it(file, 0, None))
        for used in (0, LINK_BYTES + 1):
            yield (f'{used} bytes on link {link}',
                   lambda file, it=put_on, u=used: it(file, 4, u, put_short))
    for value, what in ((0, 'no page'), (2 ** 32 - 1, 'a page that is not there')):
        yield (f'{what} in the index', lambda file, v=value: put(
            file, leaf_of(file, 'numbers') + LEAF_HEAD + ENTRY_BYTES * (number - 1) + KEY_BYTES, v))


def share_leaf(file, version):
    """The leaf of the titles is that of the rhythms too, whose entry is the same."""
    put_archive(file, Archive({1: JIG}, version=version))
    put_list(file, 'rhythms', page_at(leaf_of(file, 'titles')))


def swap_leaves(file, version):
    """Two leaves of the titles change their places in the list."""
    put_archive(file, Archive({1: ONE, 2: TWO}, FRIDAY, version=version), 1)
    put_list(file, 'titles', *[page_at(leaf_of(file, 'titles', place)) for place in (1, 0, 2)])


def damaged_archives(version):
    """Damage by its name, as an archive that has it."""
    yield 'two tunes of one number', two_of_one_number(version)
    yield ('a byte behind a number in its key',
           with_row(version, key(four_bytes(1))[:-1] + b'\x01'))
    for number in (0, 1000000):
        yield f'a tune of the number {number:,}', Archive({number: ONE}, version=version)
    for revision in (0, 10000):
        yield f'a tune at revision {revision:,}', Archive({1: ONE}, b'', revision, version)
    yield 'a tune without a chain', with_row(version, data=b'')
    yield 'a tune of one byte', with_row(version, data=b'\x00')
    for name in SEARCHES:
        yield (f'an entry of the {name} for a tune that is not there', with_entries(
            version, name, lambda rows, last=last_key(name, version): rows + [(last, 4)]))
    for what, text in (
            ('no text', b''), ('a text without a key', b'T:\n'),
            ('a text without its last line feed', b'K:\nA'),
            ('a text with an X: line', b'K:\nX:\n'),
            ('a text with an empty line', b'K:\n \t\nA\n'),
            ('a text with a carriage return', b'K:\nA\r\n'),
            ('a text of a byte too many', MOST_TEXTS[version] + b'\n')):
        yield what, Archive({1: Tune(text)}, version=version)
    for what, sets in (
            ('a place that names no tune', set_bytes(b'friday', 3)),
            ('two sets of one name', set_bytes(b'a') + set_bytes(b'a')),
            ('sets whose names fall', set_bytes(b'b') + set_bytes(b'a')),
            ('a set without a name', set_bytes(b'')), ('a set with a blank', set_bytes(b'a b')),
            ('a name of 41 bytes', set_bytes(b'a' * 41)), ('a set that is cut', FRIDAY[:-1]),
            ('a byte behind the sets', FRIDAY + b'\x00'),
            ('a set of 201 places', set_bytes(b'friday', *[1] * 201)),
            ('501 sets', b''.join(set_bytes(b'%03d' % number) for number in range(501)))):
        yield what, Archive({1: ONE, 2: TWO}, sets, version=version)


def other_keys(version, names):
    """Archives in which a search index has entries other than those of the tunes."""
    for name in names:
        last = last_key(name, version)
        for what, change in (
                (f'an entry of the {name} taken out', lambda rows: rows[:-1]),
                (f'an entry of the {name} put in', lambda rows, it=last: rows + [(it, 3)]),
                (f'an entry of the {name} under another number',
                 lambda rows: rows[:-1] + [(rows[-1][0], 3)]),
                (f'another key in the {name}',
                 lambda rows, it=last: rows[:-1] + [(it, rows[-1][1])]),
                (f'a byte behind a key of the {name}',
                 lambda rows: rows[:-1] + [(rows[-1][0][:-1] + b'\x01', rows[-1][1])])):
            yield what, with_entries(version, name, change)


# CASES

class Cases:
    """Cases over files that begin as a small archive of a version, and how many of them failed."""

    def __init__(self, folder, version):
        self.failures, self.version = 0, version
        self.path = os.path.join(folder, 'forged.abcx')
        with open(self.path, 'w+b') as file:
            put_archive(file, Archive({1: ONE, 2: TWO}, FRIDAY, version=version))
            file.seek(0)
            self.small = file.read()

    def number_at(self, offset):
        return struct.unpack_from('>I', self.small, offset)[0]

    def end(self, name, wrong, kilobytes):
        """Ends a case, of which this is wrong, if anything is."""
        self.failures += bool(wrong)
        print(f'{"FAILED" if wrong else "ok":7} {name}, of version {self.version}: '
              f'{wrong or f"{kilobytes} kB"}', flush=True)

    def measure(self):
        """Whether a program that takes too much would be seen."""
        _, kilobytes = run([sys.executable, '-c', f'bytes(range(256)) * 4 * {MOST_KILOBYTES}'])
        wrong = '' if kilobytes > MOST_KILOBYTES else f'{kilobytes} kB were seen'
        self.end('a program that takes more than it may', wrong, kilobytes)

    def check(self, name, forge, whole, recovers=False, refusal=DAMAGED):
        """Has the file read that `forge` makes of the small archive."""
        with open(self.path, 'w+b') as file:
            file.write(self.small)
            forge(file)
        # Whatever is written to the file gives it another time than this one.
        os.utime(self.path, (1, 1))
        wrong, book = self.wrong_apart(whole)
        kilobytes = 0
        if not wrong:
            wrong, kilobytes = self.wrong_opened(whole, recovers, refusal)
        if not wrong and whole and os.path.getsize(self.path) <= SMALL_FILE:
            wrong = self.wrong_book(book)
        self.end(name, wrong, kilobytes)
        os.remove(self.path)

    def was_written(self):
        return os.stat(self.path).st_mtime != 1

    def wrong_apart(self, whole):
        """What is wrong with the answer of the reader, and its book."""
        status, book, reason = read_apart('book', self.path)
        wrong = ''
        if (status, bool(reason)) != ((0, False) if whole else (1, True)):
            wrong = f'the reader ends with status {status}: {reason or "it gives no reason"}'
        elif not whole:
            wrong = self.wrong_told(reason)
        elif self.was_written():
            wrong = 'the reader wrote the file'
        return wrong, book

    def wrong_told(self, reason):
        """What is wrong with what the reader tells of the damage."""
        status, lines, _ = read_apart('where', self.path)
        first = lines.decode().split('\n')[0]
        if status != 1 or os.path.getsize(self.path) <= SMALL_FILE and not (
                first and reason.endswith(': ' + first)):
            return f'the reader tells of it, with status {status}, {first}, and not {reason}'
        return ''

    def wrong_opened(self, whole, recovers, refusal):
        """What is wrong with the answer of the program, and how much memory it took."""
        with open(self.path, 'rb') as file:
            layout = number_at(file, PAGES) if whole else None
        answer, kilobytes = run([PROGRAM, 'check', self.path])
        good = (answer[0] == 0 and answer[1].startswith(b'layout %d tunes ' % layout) if whole
                else answer == refusal)
        wrong = ''
        if not good:
            wrong = f'the program answers {answer}'
        elif kilobytes > MOST_KILOBYTES:
            wrong = f'{kilobytes} kB, at most {MOST_KILOBYTES}'
        elif recovers != self.was_written():
            wrong = 'nothing was recovered' if recovers else 'the program wrote the file'
        return wrong, kilobytes

    def wrong_book(self, book):
        """What is wrong with the book of the program, beside that of the reader."""
        (status, output), _ = run([PROGRAM, 'run', self.path], b'export\n')
        if (status, output) != (0, b'ok export %d\n%b' % (len(book), book)):
            return f'the program exports another book: {output[:60]}'
        return ''

    def check_whole(self):
        """Archives as programs may write them, and some whose keys alone are wrong."""
        two = Archive({1: ONE, 2: TWO}, FRIDAY, version=self.version)
        odd = Archive({5: LONG, 9: BARE, 77: Tune(MOST_TEXTS[self.version]), 999999: JIG},
                      set_bytes(b'a' * 40, *[9] * 200) + set_bytes(b'b'), 9999, self.version)
        self.check('two tunes and a set', lambda file: put_archive(file, two), True)
        self.check('leaves of one entry', lambda file: put_archive(file, two, 1), True)
        self.check('odd keys, numbers, revisions and sets', lambda file: put_archive(file, odd),
                   True)
        self.check('20,000 tunes of three pages',
                   lambda file: put_tunes(file, self.version, 20000, THREE_PAGES), True)
        self.check('160,000 titles in 20,000 leaves',
                   lambda file: put_tunes(file, self.version, 20000, EIGHT_TITLES, 8), True)

    def check_written(self):
        """Files that the program writes, on as few pages as their tunes want."""
        with open(os.path.join(ROOT, 'examples', 'kesh-jig.script'), 'rb') as file:
            script = file.read()
        self.check_pages_of('the Kesh Jig on twelve pages', script,
                            lambda file: number_at(file, COUNT) == 12)
        book = b''.join(b'X:%d\nT:Reel\nR:reel\nK:D\n\n' % number for number in range(1, 301))
        self.check_pages_of('300 tunes of one key in three leaves',
                            b'import %d\n%b' % (len(book), book), has_three_leaves)
        for name, script, *wanted in CHANGES:
            self.check_pages_of(name, script, lambda file, it=wanted: stands(file, *it))

    def check_pages_of(self, name, script, good):
        """Runs a script over a new archive, which the reader has to read as the program does."""
        written = self.path + '.written'
        answers = [run([PROGRAM, 'make', written])[0][0],
                   run([PROGRAM, 'run', written], script)[0][0]]
        with open(written, 'rb') as file:
            wrong = '' if answers == [0, 0] and good(file) else 'its pages are others'
            file.seek(0)
            made = file.read()
        os.remove(written)
        self.failures += bool(wrong)
        print(f'{"FAILED" if wrong else "ok":7} {name}, written{wrong and ": "}{wrong}', flush=True)
        self.check(f'{name}, read', lambda file: put_bytes(file, made), True)

    def check_damage(self):
        for name, forge in fronts_of_no_archive():
            self.check(name, forge, False, refusal=NOT_ARCHIVE)
        for name, forge in [*damages_of_the_front(), *damages_of_the_root(), *damages_of_chains()]:
            self.check(name, forge, False)
        self.check('an archive of version 102', put_version_102, False)
        self.check('one leaf for two indexes', lambda file: share_leaf(file, self.version), False)
        self.check('leaves that do not rise', lambda file: swap_leaves(file, self.version), False)
        for name, archive in damaged_archives(self.version):
            self.check(name, lambda file, it=archive: put_archive(file, it), False)

    def check_indexes(self, leaves, searches):
        """Damage of the leaves of these indexes, and entries of these that the texts do not tell.
        """
        for name, forge in damages_of_leaves(self.version, leaves):
            self.check(name, forge, False)
        for name, archive in other_keys(self.version, searches):
            self.check(f'{name}, which the texts tell',
                       lambda file, it=archive: put_archive(file, it), False)

    def check_tunes(self):
        most = LAYOUTS[self.version].tunes
        self.check(f'{most + 1:,} tunes',
                   lambda file: put_tunes(file, self.version, most + 1, BARE), False)

    def check_salvage(self):
        """Tunes of which one has a broken chain; the first is that one, and a short one, and so on.
        """
        texts = [THREE_PAGES, ONE, TWO, THREE_PAGES._replace(text=TUNE + LINE * 830)]
        tunes = dict(enumerate(texts, 1))
        for number in tunes:
            books = [(other, tune.text) for other, tune in tunes.items() if other != number]
            wanted = b'%abc-2.1\n' + b''.join(b'\nX:%d\n%b' % row for row in books)
            for name, break_chain in damages_of_a_chain(number):
                def forge(file, damage=break_chain):
                    put_archive(file, Archive(tunes, FRIDAY, version=self.version))
                    damage(file)
                name = f'{name} of tune {number}'
                self.check(name, forge, False)
                with open(self.path, 'w+b') as file:
                    forge(file)
                status, book, reason = read_apart('salvage', self.path)
                _, told, _ = read_apart('where', self.path)
                good = (status, book, bool(reason)) == (1, wanted, True)
                good = good and b'tune %d' % number in told.split(b'\n')[0]
                self.end(f'{name}, salvaged', '' if good else 'other tunes, or none is named', 0)

    def check_chains(self):
        first = self.number_at(COUNT)
        numbers_leaf = place_of(self.number_at(
            place_of(self.number_at(first_of('numbers'))) + PAGE_BYTES - LINK_BYTES))
        names = [(f'the list of the {name}', first_of(name)) for name in INDEXES]
        names += [('the set lists', first_of('sets')),
                  ('a tune', numbers_leaf + LEAF_HEAD + KEY_BYTES)]
        for what, name_place in names:
            def forge(file, place=name_place):
                pages = Writer(file, first)
                pages.links(LONG_CHAIN)
                put_count(file, pages.count)
                put(file, place, first)
            self.check(f'a chain of 60,000 pages as {what}', forge, False)

    def check_counts(self):
        for count in (999999, 1000000, 1000001, 4000000, 4000001):
            self.check(f'{count:,} pages', lambda file, n=count: put_count(file, n),
                       count <= LAYOUTS[self.version].pages)
        self.check('4,294,967,295 pages, which are not there',
                   lambda file: put(file, COUNT, 4294967295), False)

    def check_logs(self):
        images = [self.small[place_of(page):place_of(page + 1)]
                  for page in range(self.number_at(COUNT))]
        many = images + [bytes(PAGE_BYTES)] * (30000 - len(images))
        self.check('a log of 30,000 pages', lambda file: put_log(file, 30000, many), True,
                   recovers=True)
        most = LAYOUTS[self.version].pages
        self.check(f'a log behind {most - 1:,} pages',
                   lambda file: put_log(file, most - 1, images), True, recovers=True)
        self.check('a log that names page 0 for 4,000,000 times',
                   lambda file: put_log_of_zeros(file, 4000000), False)


def main():
    for number in (signal.SIGHUP, signal.SIGTERM):
        signal.signal(number, lambda *_: sys.exit(1))
    with tempfile.TemporaryDirectory() as folder:
        cases = Cases(folder, 2)
        cases.measure()
        cases.check('an archive as it was made', lambda file: None, True)
        cases.check('the archive of one tune that the page shows', put_the_one_of_the_page, True)
        cases.check_written()
        cases.check_whole()
        cases.check_damage()
        cases.check_indexes(INDEXES, SEARCHES)
        cases.check_tunes()
        cases.check_salvage()
        cases.check_chains()
        cases.check_counts()
        cases.check_logs()
        older = Cases(folder, 1)
        older.check_whole()
        older.check_indexes(['incipits'], ['incipits'])
        older.check_tunes()
        older.check_counts()
    sys.exit(1 if cases.failures + older.failures else 0)


if __name__ == '__main__':
    main()
