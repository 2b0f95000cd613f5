#!/usr/bin/env python3
"""Usage: checks/layouts.py

Has files of each layout read by two: by the reader, examples/read_archive.py, and by the program,
`tunes check` and `tunes run`. A file of version 1 is written by docs/FILE-FORMAT.md, and one of
version 2 is made of it by hand: its index of incipits is written anew behind all pages, with keys
of 48 bytes by twelve notes, and its version is put into the root. Which keys a tune has is told
here and not read. What is whole both have to read, to the same book; what is damaged both have to
call so, the reader for the reason that is told here, and no byte of it may be written. Files of
each layout are changed by the program too, searched, filled up to their limits, and upgraded; so
are files that it wrote once, which are kept in checks/data/kept. The program is ./tunes, or the one
that the variable TUNES names. A line is printed for each case, and the status is 1 where a case
failed.

The largest file has 210 MB; those that are longer have holes, and take no room.
"""
import io
import os
import struct
import subprocess
import sys
import tempfile

sys.dont_write_bytecode = True
from archives import (COUNT, LAYOUTS, PAGES, Archive, Tune, Writer, first_of, four_bytes, key,
                      keys_of, leaf_of, most_of, number_at, opened, page_at, place_of, put,
                      set_bytes)

ROOT = os.path.dirname(os.path.dirname(os.path.abspath(__file__)))
READER = os.path.join(ROOT, 'examples', 'read_archive.py')
PROGRAM = os.path.abspath(os.environ.get('TUNES') or os.path.join(ROOT, 'tunes'))
DAMAGED = (3, b'refused 41 Damaged\n')
SESSION = os.path.join(ROOT, 'examples', 'session.abc')
KEPT = os.path.join(ROOT, 'checks', 'data', 'kept')

# The first three tunes of the session, whose notes go on behind the twelfth: what is above their
# keys, and the steps.
OF_SESSION = [
    ((b'kesh jig',), b'jig', b'G 0', (0, 2, 2, -2, 0, 2, 3, 2, -2, 0, 5)),
    ((b'irish washerwoman',), b'jig', b'G 0', (-2, -1, -4, 0, -5, 5, 0, 4, -4, 4, 3)),
    ((b'tripping up the stairs',), b'jig', b'D 0', (3, 0, -2, 4, 0, -5, 3, 5, 4, -2, -2)),
]


def tune_of(music, *steps):
    return Tune(b'K:C\n' + music + b'\n', (), b'', b'C 0', steps)


# Tunes of no note to thirteen, of which some are the same up to their eighth, ninth or twelfth.
OF_NOTES = [
    tune_of(b'z4'), tune_of(b'C'), tune_of(b'CD', 2), tune_of(b'CCCCCCCC', *[0] * 7),
    tune_of(b'CCCCCCCCC', *[0] * 8), tune_of(b'CCCCCCCCD', *[0] * 7, 2),
    tune_of(b'CCCC CCCC|C,CCD', *[0] * 7, -12, 12, 0, 2),
    tune_of(b'CCCC CCCC|C,CC', *[0] * 7, -12, 12, 0),
    tune_of(b'CCCC CCCC|C,CCD|E', *[0] * 7, -12, 12, 0, 2),
    tune_of(b'CCCC|CCCC|C^C_CC|', *[0] * 7, 0, 1, -2, 0),
    tune_of(b'CDEF GAB|[K:D]cdef|C', 2, 2, 1, 2, 2, 2, 2, 1, 2, 2, -17),
    tune_of(b"C,,c''C,,c''|C,,c''C,,c''|C,,c''C,,c''", *[60, -60] * 5, 60),
    # steps at either end of what a byte holds, and past it
    tune_of(b"C,,,,,g''''C,,,,,", 127, -127), tune_of(b"^g''''C,,,,,", -128),
    tune_of(b"C,,,,,^g''''C,,,,,", 128, -128), tune_of(b"a''''C,,,,,C", -129, 60),
    tune_of(b"C,,,,,c''''''C,,,,,c''''''C,,,,,C", 144, -144, 144, -144, 60),
]
EIGHT_TITLES = Tune(b''.join(b'T:%d\n' % n for n in range(8)) + b'R:jig\nK:C\nCDEFGABcdefg|\n',
                    tuple(b'%d' % n for n in range(8)), b'jig', b'C 0',
                    (2, 2, 1, 2, 2, 2, 1, 2, 2, 1, 2))
FRIDAY, FRIDAY_LINE = set_bytes(b'friday', 2, 3, 2), b'friday 3 2 3 2\n'
# What the files have that are kept with two tunes: these are the same up to their eighth note.
KEPT_TUNES = {1: tune_of(b'CDEFGABcdefg', 2, 2, 1, 2, 2, 2, 1, 2, 2, 1, 2),
              2: tune_of(b'CDEFGABcBAGF', 2, 2, 1, 2, 2, 2, 1, -1, -2, -2, -2)}
KEPT_LINE = b'friday 2 2 1\n'
# How the program brings a file to layout 2: by its word, or by a line that it reads.
UPGRADING = b'upgrade\n', b'ok upgrade 2\n'
UPGRADES, UPGRADED = (('upgrade', b''), ('run', UPGRADING[0])), (0, UPGRADING[1])
# A tune without a note.
BARE = b'X:1\nK:C\n'
TOO_LONG, FULL = b'refused 2 BadTune 1 TooLong\n', b'refused 9 ArchiveFull\n'


def session():
    """The tunes of the session by their numbers, and those of notes behind them."""
    with open(SESSION, 'rb') as file:
        texts = [tune.partition(b'\n')[2] + b'\n' for tune in file.read().split(b'\n\n')]
    tunes = [Tune(text, *keys) for text, keys in zip(texts, OF_SESSION)]
    return dict(enumerate(tunes + OF_NOTES, 1))


def twins(count):
    """So many tunes that differ in their last notes alone, of twelve."""
    return dict.fromkeys(range(1, count + 1), OF_NOTES[6])


def book_of(tunes):
    rows = sorted(tunes.items())
    return b'%abc-2.1\n' + b''.join(b'\nX:%d\n%b' % (number, tune.text) for number, tune in rows)


# FILES

def in_layout(version, tunes, sets=b''):
    """A file of these tunes."""
    file = io.BytesIO()
    Archive(tunes, sets).write(file)
    if version == 2:
        put_incipits(file, tunes, LAYOUTS[version])
        put(file, PAGES, version)
    return file.getvalue()


def put_incipits(file, tunes, layout, most=None):
    """Writes the index of incipits anew, behind all pages; those of the old one are free then."""
    rows = sorted((incipit_key(tune.steps[:layout.steps], layout.width), number)
                  for number, tune in tunes.items() if tune.steps)
    pages = Writer(file, number_at(file, COUNT))
    put(file, first_of('incipits'), pages.index(rows, most or layout.entries))
    put(file, COUNT, pages.count)


def incipit_key(steps, width):
    return four_bytes(*[step + 2 ** 31 for step in steps]).ljust(width, b'\x00')


def with_version(data, version):
    return data[:PAGES] + four_bytes(version) + data[PAGES + 4:]


def program(word, path, script=b''):
    """The status of the program, and what it writes."""
    ended = subprocess.run([PROGRAM, word, path], input=script, stdout=subprocess.PIPE, check=False)
    return ended.returncode, ended.stdout


def exported(book):
    return b'ok export %d\n%b' % (len(book), book)


def importing(book):
    return b'import %d\n%b' % (len(book), book)


def text_of(length):
    """A text of so many bytes, without a note."""
    line = b'w:' + b'a' * 9 + b'\n'
    text = b'K:\n' + line * ((length - 3) // len(line))
    return text[:-1] + b'b' * (length - len(text)) + b'\n'


def kept(name):
    """A file that is kept: its length, and bytes that are not all 0, with their offset."""
    data = bytearray()
    with open(os.path.join(KEPT, name + '.hex'), encoding='ascii') as file:
        for word, value in (line.split() for line in file if not line.startswith('#')):
            if word == 'length':
                data = bytearray(int(value, 16))
            else:
                part = bytes.fromhex(value)
                data[int(word, 16):int(word, 16) + len(part)] = part
    return bytes(data)


def changed(data, change):
    """A file after a change."""
    file = io.BytesIO(data)
    change(file)
    return file.getvalue()


def many_tunes(path, count, tune):
    """Writes so many tunes of one text in layout 2, each with all its keys."""
    with open(path, 'w+b') as file:
        pages = Writer(file)
        chains = [pages.chain(b'\x00\x01' + tune.text) for _ in range(count)]
        rows = ((key(four_bytes(number)), chain) for number, chain in enumerate(chains, 1))
        firsts = [pages.index(rows)]
        for name, words in keys_of(tune, 2).items():
            rows = ((word, number) for word in sorted(words) for number in range(1, count + 1))
            firsts.append(pages.index(rows, most_of(name, 2)))
        pages.end(four_bytes(2, *firsts, 0))


# CASES

class Cases:
    """Cases over files, and how many of them failed."""

    def __init__(self, folder):
        self.failures = 0
        self.path = os.path.join(folder, 'layouts.abcx')

    def end(self, name, wrong):
        self.failures += bool(wrong)
        print(f'{"FAILED" if wrong else "ok":7} {name}{wrong and ": "}{wrong}', flush=True)

    def write(self, data):
        with open(self.path, 'wb') as file:
            file.write(data)

    def read(self, *words):
        """The status of the reader, what it writes, and the last line of what it says."""
        reader = subprocess.run([sys.executable, READER, words[0], self.path, *words[1:]],
                                capture_output=True, check=False)
        lines = reader.stderr.decode().splitlines()
        return reader.returncode, reader.stdout, lines[-1] if lines else ''

    def whole(self, name, data, wanted, lines):
        """The file is whole, and has this book; these are lines of what `check` says of it."""
        self.write(data)
        self.end(name, self.wrong_whole(wanted, lines))

    def wrong_whole(self, wanted, lines):
        status, book, reason = self.read('book')
        wrong = reason
        if not wrong and (status, book) != (0, wanted):
            wrong = f'its status is {status}, or its book another'
        said = self.read('check')[1].decode().splitlines()
        missing = [line for line in lines if line not in said]
        wrong = wrong or (f'it does not say {missing[0]}' if missing else '')
        return wrong or self.wrong_program(wanted, said[0])

    def stands(self, name, version, tunes, sets):
        """The file is whole, has these tunes and set lists, and tells its tunes apart by notes."""
        wrong = self.wrong_whole(book_of(tunes), [f'layout {version}: {len(tunes)} tunes, '
                                                  f'{len(sets.splitlines())} set lists'])
        if not wrong and self.read('sets') != (0, sets, ''):
            wrong = f'its set lists are {self.read("sets")}'
        self.end(name, wrong or self.wrong_finds(version, tunes))

    def wrong_program(self, wanted, line):
        """What is wrong with the answers of the program; the line is the reader's first."""
        word, layout, tunes, _, sets, *_ = line.replace(':', '').split()
        counts = b'%b %b tunes %b sets %b\n' % tuple(
            part.encode() for part in (word, layout, tunes, sets))
        if program('check', self.path) != (0, counts):
            return f'the program says {program("check", self.path)}'
        if program('run', self.path, b'export\n') != (0, exported(wanted)):
            return 'the program exports another book'
        return ''

    def damaged(self, name, data, reason):
        """The file is damaged, for a reason that has these words."""
        self.write(data)
        self.refused(name, reason)

    def refused(self, name, reason):
        (status, book, said), (status_of_where, faults, _) = self.read('book'), self.read('where')
        fault = faults.decode().split('\n')[0]
        wrong = ''
        if (status, status_of_where, book) != (1, 1, b''):
            wrong = f'its status is {status}, or it writes something'
        elif reason not in fault or not said.endswith(': ' + fault):
            wrong = f'it says {fault}, and not {reason}'
        before = os.stat(self.path).st_mtime_ns
        if not wrong and program('check', self.path) != DAMAGED:
            wrong = f'the program answers {program("check", self.path)}'
        self.end(name, wrong or ('' if os.stat(self.path).st_mtime_ns == before
                                 else 'the program wrote the file'))

    def check_session(self):
        tunes = session()
        first, second = (in_layout(version, tunes, FRIDAY) for version in LAYOUTS)
        for version, data, leaves in ((1, first, 1), (2, second, 1)):
            self.whole(f'tunes of the session and others, of version {version}', data,
                       book_of(tunes),
                       [f'layout {version}: {len(tunes)} tunes, 1 set lists',
                        f'index of incipits: {len(tunes) - 2} entries in {leaves} leaves'])
        answer = self.read('sets')
        self.end('its set list', '' if answer == (0, b'friday 3 2 3 2\n', '') else f'{answer}')
        page = str(page_at(leaf_of(io.BytesIO(second), 'incipits')))
        where = self.read('where', page)[1].decode()
        self.end('the leaf of its incipits',
                 '' if where.endswith(': leaf 1 of the incipits\n') else where)
        self.whole('a commit from version 1 to 2, stopped behind its open gate',
                   opened(first, second), book_of(tunes), [f'layout 2: {len(tunes)} tunes, '
                                                           '1 set lists'])
        self.whole('the same, stopped while its gate is closed',
                   first + second[len(first):], book_of(tunes),
                   [f'layout 1: {len(tunes)} tunes, 1 set lists'])
        self.whole('no tune, of version 2', in_layout(2, {}), book_of({}),
                   ['layout 2: 0 tunes, 0 set lists', 'index of incipits: 0 entries in 0 leaves'])
        self.whole('incipits in leaves of one entry', changed(second, lambda file: put_incipits(
            file, tunes, LAYOUTS[2], 1)), book_of(tunes),
                   [f'index of incipits: {len(tunes) - 2} entries in {len(tunes) - 2} leaves'])

    def check_kept(self):
        """Files that were written once are opened for ever, and go on in their layout."""
        self.write(kept('layout-1-empty'))
        self.stands('a file of layout 1 that was made', 1, {}, b'')
        for version in LAYOUTS:
            self.write(kept(f'layout-{version}-two-tunes'))
            self.stands(f'a file of layout {version} with two tunes', version, KEPT_TUNES,
                        KEPT_LINE)
            self.check_change(f'a file of layout {version} that is kept', version, KEPT_TUNES,
                              KEPT_LINE, 3)

    def check_changes(self):
        """Commands of the program over a file of each layout, which stays in it, and over one that
        was upgraded."""
        for version, upgrade in ((1, ''), (2, ''), (1, ', upgraded')):
            self.write(in_layout(version, session(), FRIDAY))
            if upgrade:
                program('upgrade', self.path)
            self.check_change(f'a file of version {version}{upgrade}', 2 if upgrade else version,
                              session(), FRIDAY_LINE, 6)

    def check_change(self, name, version, tunes, sets, gone):
        """Two tunes are put in and one taken out, of the file of these tunes."""
        late, number = tune_of(b'CCCC CCCC|C,CC^D', *[0] * 7, -12, 12, 0, 3), len(tunes) + 1
        both = {number: late, number + 1: OF_NOTES[5]}
        script = importing(b''.join(b'X:1\n' + tune.text for tune in both.values()))
        answer = program('run', self.path, script + b'delete %d\n' % gone)
        name = f'{name}, changed'
        if answer != (0, b'ok import %d %d\nok delete %d\n' % (number, number + 1, gone)):
            self.end(name, f'{answer}')
        else:
            left = {other: tune for other, tune in {**tunes, **both}.items() if other != gone}
            self.stands(name, version, left, sets)

    def check_upgrades(self):
        """Files of each layout go on in layout 2; where they have that, no byte is another."""
        tunes, many = session(), twins(300)
        files = [('no tune', in_layout(1, {}), {}, b''),
                 ('300 incipits', in_layout(1, many), many, b''),
                 ('what was made', kept('layout-1-empty'), {}, b'')]
        for version in LAYOUTS:
            files += [(f'a file of version {version}', in_layout(version, tunes, FRIDAY), tunes,
                       FRIDAY_LINE),
                      (f'a file of layout {version} that is kept',
                       kept(f'layout-{version}-two-tunes'), KEPT_TUNES, KEPT_LINE)]
        for what, data, of_file, sets in files:
            self.check_upgrade(f'{what}, upgraded', data, of_file, sets)

    def check_upgrade(self, name, data, tunes, sets):
        """The file is the same, however it is brought to layout 2, and stays so."""
        files, answers = [], set()
        for words in UPGRADES:
            self.write(data)
            for word, script in (words, *UPGRADES):
                answers.add(program(word, self.path, script))
                with open(self.path, 'rb') as file:
                    files.append(file.read())
        if answers != {UPGRADED}:
            self.end(name, f'the answers are {answers}')
        elif files != files[:1] * len(files) or files[0][PAGES:PAGES + 4] != four_bytes(2):
            self.end(name, 'its bytes are others the second time, or its version is another')
        else:
            self.stands(name, 2, tunes, sets)

    def wrong_finds(self, version, tunes):
        """Each opening is found, by as many notes as the layout has."""
        steps = LAYOUTS[version].steps
        script, wanted = b'', []
        for asked in tunes.values():
            music, sought = asked.text.partition(b'K:C\n')[2].strip(), asked.steps[:steps]
            if not music or not sought or b'find notes %b\n' % music in script:
                continue
            script += b'find notes %b\n' % music
            found = [number for number, tune in sorted(tunes.items())
                     if tune.steps[:steps][:len(sought)] == sought]
            wanted += [f'ok find {len(found)}', *map(str, found)]
        _, output = program('run', self.path, script)
        # A row may go on with a title.
        lines = [line if line.startswith('ok ') else line.split()[0]
                 for line in output.decode().splitlines()]
        return '' if lines == wanted else f'it finds {lines}, and not {wanted}'

    def check_versions(self):
        """Each version with the incipits of the other, and versions that are none."""
        tunes = session()
        first, second = (in_layout(version, tunes, FRIDAY) for version in LAYOUTS)
        self.damaged('keys of 32 bytes in version 2', with_version(first, 2), 'of the incipits')
        self.damaged('keys of 48 bytes in version 1', with_version(second, 1), 'of the incipits')
        for version in (0, 3, 102):
            self.damaged(f'version {version}', with_version(second, version),
                         f'it is of version {version}, and not of 1 or 2')
        for steps, what in ((7, 'eight'), (10, 'eleven')):
            data = changed(second, lambda file, n=steps: put_incipits(
                file, tunes, LAYOUTS[2]._replace(steps=n)))
            self.damaged(f'keys of {what} notes in version 2', data, 'the incipits have no key')
        long = {1: tunes[1], 2: tunes[12]}
        data = changed(in_layout(2, long), lambda file: put_incipits(
            file, {**long, 2: long[2]._replace(steps=long[2].steps + (4,))},
            LAYOUTS[2]._replace(steps=12)))
        self.damaged('a key of thirteen notes in version 2', data, 'the incipits have no key')

    def check_leaves(self):
        for version, entries in ((1, 113), (2, 78)):
            for count, leaves in ((entries, 1), (entries + 1, 2)):
                tunes = twins(count)
                self.whole(f'{count} incipits in version {version}', in_layout(version, tunes),
                           book_of(tunes),
                           [f'index of incipits: {count} entries in {leaves} leaves'])

            def overfill(file, more=entries + 1):
                file.seek(leaf_of(file, 'incipits'))
                file.write(struct.pack('>H', more))
            data = changed(in_layout(version, twins(entries)), overfill)
            self.damaged(f'a leaf of {entries + 1} incipits in version {version}', data,
                         f'has {entries + 1} entries')

    def check_texts(self):
        for version, layout in LAYOUTS.items():
            other = LAYOUTS[3 - version]
            for length in sorted({16000, 16001, layout.text, layout.text + 1, other.text}):
                tunes = {1: Tune(text_of(length)), 2: OF_NOTES[6]}
                data, name = in_layout(version, tunes), f'{length:,} bytes in version {version}'
                if length <= layout.text:
                    self.whole(name, data, book_of(tunes), [f'layout {version}: 2 tunes, '
                                                            '0 set lists'])
                else:
                    self.damaged(name, data, f'tune 1 has more than {layout.text + 2} bytes')

    def check_longest(self):
        """Texts of these lengths are taken in by layout 1, by layout 2, and after an upgrade."""
        for name, data, tunes, longest, script, answers in (
                ('version 1', in_layout(1, {}), {}, 16000, b'', b''),
                ('version 1, upgraded', in_layout(1, {}), {}, 64000, *UPGRADING),
                ('a kept file of layout 2', kept('layout-2-two-tunes'), KEPT_TUNES, 64000, b'',
                 b'')):
            tunes = dict(tunes)
            for length in (16000, 16001, 64000, 64001):
                script += importing(b'X:1\n' + text_of(length))
                if length <= longest:
                    tunes[len(tunes) + 1] = Tune(text_of(length))
                    answers += b'ok import %d %d\n' % (len(tunes), len(tunes))
                else:
                    answers += TOO_LONG
            self.write(data)
            wrong = '' if program('run', self.path, script) == (0, answers) else 'other answers'
            if not wrong and self.read('book') != (0, book_of(tunes), ''):
                wrong = 'its book is another'
            self.end(f'texts that are taken in by {name}', wrong)

    def check_full(self):
        """As many tunes are taken in as the layout allows, and more after an upgrade."""
        upgrade = (importing(BARE * 20000) + UPGRADING[0], b'ok import 1 20000\n' + UPGRADING[1])
        for name, data, has, layout, script, answers in (
                ('version 1', in_layout(1, {}), 0, 1, b'', b''),
                ('version 1, upgraded', in_layout(1, {}), 20000, 2, *upgrade),
                ('a kept file of layout 2', kept('layout-2-two-tunes'), 2, 2, b'', b'')):
            most = LAYOUTS[layout].tunes
            script += b''.join(importing(BARE * more) for more in (most - has + 1, most - has, 1))
            answers += FULL + b'ok import %d %d\n' % (has + 1, most) + FULL
            self.write(data)
            answer = program('run', self.path, script)
            wrong = '' if answer == (0, answers) else f'{answer}'
            _, said = program('check', self.path)
            if not wrong and not said.startswith(b'layout %d tunes %d sets ' % (layout, most)):
                wrong = f'the program says {said}'
            self.end(f'tunes up to {most:,} in {name}', wrong)

    def check_counts(self):
        for version, layout in LAYOUTS.items():
            data = in_layout(version, session(), FRIDAY)
            for count in sorted({1000000, 1000001, 4000000, 4000001}):
                self.write(changed(data, lambda file, n=count: put(file, COUNT, n)))
                os.truncate(self.path, place_of(count))
                name = f'{count:,} pages in version {version}'
                if count <= layout.pages:
                    answer = self.read('check')
                    (status, said) = program('check', self.path)
                    good = status == 0 and said.startswith(b'layout %d tunes ' % version)
                    self.end(name, answer[2] or ('' if good else f'the program says {said}'))
                else:
                    self.refused(name, f'{count} pages')
        many_tunes(self.path, 50000, EIGHT_TITLES)
        status, said, reason = self.read('check')
        good = status == 0 and b'\nindex of titles: 400000 entries' in said
        wrong = '' if good else reason or f'{said}'
        if not wrong and program('check', self.path) != (0, b'layout 2 tunes 50000 sets 0\n'):
            wrong = f'the program says {program("check", self.path)}'
        if not wrong and program('run', self.path, importing(BARE)) != (0, FULL):
            wrong = f'the program takes one more: {program("run", self.path, importing(BARE))}'
        self.end('50,000 tunes of eight titles in version 2', wrong)
        many_tunes(self.path, 50001, Tune(b'K:\n'))
        self.refused('50,001 tunes in version 2', 'there are more than 50000 numbers')


def main():
    room = '/dev/shm' if os.access('/dev/shm', os.W_OK) else None
    with tempfile.TemporaryDirectory(dir=room) as folder:
        cases = Cases(folder)
        cases.check_session()
        cases.check_kept()
        cases.check_changes()
        cases.check_upgrades()
        cases.check_versions()
        cases.check_leaves()
        cases.check_texts()
        cases.check_longest()
        cases.check_full()
        cases.check_counts()
    sys.exit(1 if cases.failures else 0)


if __name__ == '__main__':
    main()
