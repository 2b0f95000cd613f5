#!/usr/bin/env python3
"""Usage: checks/bounds.py

Looks at what no output shows, of the program `tunes` over archives in memory and in files of each
layout:

- in turn: each command, accepted or refused, is answered while the next line is not yet written,
  and nothing more is answered; and `make`, `check` and `upgrade` write their line, and tell by
  their status where that cannot be done;
- memory: a `replace` by a book of very many tunes, which is refused, takes at most three times as
  many bytes as the book has more than one by a small book; so does one by a long book of one tune;
- pages: a change of one tune that no set list names writes as few pages where there are as many
  set lists as there may be as where there is none.

Replies are those that docs/SCRIPTS.md tells; how many pages a change wrote stands in the descriptor
of its log, by docs/FILE-FORMAT.md. The program is the one that ./tunes has built, and not that
script, or the one that the variable TUNES names. A line is printed for each case, and the status is
1 where one failed.
"""
import os
import re
import select
import subprocess
import sys
import tempfile
import time

sys.dont_write_bytecode = True
from archives import DESCRIPTOR, LAYOUTS, Archive, number_at, set_bytes
from fail_once import DONE, KESH, NO_ARCHIVE, NOT_DONE, OTHER, PROGRAM, UPGRADED, run
from layouts import BARE, DAMAGED, exported, importing, kept
from sweep import (BAD_LINE, IN_MEMORY, KINDS, NO_KEY, NO_TUNE, UPGRADE, bare_book, report,
                   room, shown, tune_of, tunes_up_to, where_of, wrong_replies)

# How long all replies of a run may take together.
PATIENCE = 60
MOST_PAGES, MOST_TIMES = 10, 3
# Of so many runs the least memory is taken: what the system counts is out by some pages.
MEASURED = 3
MOST_SETS, MOST_PLACES, LONGEST_NAME = 500, 200, 40
LONGEST_BOOK = 4000000
# The tunes of two books: one of two tunes, and one of a tune.
KESH_TEXT, KESH_THE_TEXT = (part.partition(b'\n')[2] for part in KESH.split(b'X:')[1:])
MARCH_TEXT = OTHER.partition(b'\n')[2]
KESH_ROW, KESH_THE_ROW = b'1 Kesh Jig, The\n', b'2 Kesh Jig, The\n'


def replacing(number, revision, book):
    return b'replace %d %d %d\n%b' % (number, revision, len(book), book)


def as_told(line):
    """A command that is answered by its own words."""
    return line, b'ok ' + line


def unknown(number):
    return b'refused 4 Unknown %d\n' % number


# Every command, each with its reply: first those that are accepted, and then, over an archive in
# which nothing is, those that are refused.
FRIDAY_BOOK = b'%%abc-2.1\n%% set friday\n\nX:1\n%b\nX:2\n%b' % (KESH_THE_TEXT, MARCH_TEXT)
ACCEPTED = [
    (importing(KESH), b'ok import 1 2\n'), shown(2, KESH_THE_TEXT),
    (b'find title kesh\n', b'ok find 2\n' + KESH_ROW + KESH_THE_ROW),
    (b'find rhythm jig\n', b'ok find 1\n' + KESH_THE_ROW),
    (b'find key G\n', b'ok find 2\n' + KESH_ROW + KESH_THE_ROW),
    (b'find notes GAGGAB\n', b'ok find 1\n' + KESH_ROW),
    (b'titles\n', b'ok titles 3\n2 Kesh, The\n' + KESH_ROW + KESH_THE_ROW),
    (replacing(1, 1, OTHER), b'ok replace 1 2\n'), shown(1, MARCH_TEXT, 2),
    as_told(b'set-new friday\n'), (b'set-add friday 2\n', b'ok set-add friday 1\n'),
    (b'set-add friday 1\n', b'ok set-add friday 2\n'), (b'sets\n', b'ok sets 1\nfriday 2\n'),
    (b'set-show friday\n', b'ok set-show friday 2\n1 2 Kesh Jig, The\n2 1 March\n'),
    as_told(b'renumber 2 40\n'),
    (b'export\n', exported(b'%%abc-2.1\n\nX:1\n%b\nX:40\n%b' % (MARCH_TEXT, KESH_THE_TEXT))),
    (b'export-set friday\n', b'ok export-set friday %d\n%b' % (len(FRIDAY_BOOK), FRIDAY_BOOK)),
    as_told(b'set-cut friday 2\n'), as_told(b'delete 1\n'), as_told(b'set-drop friday\n'), UPGRADE,
]
REFUSED = [
    (importing(b'K:C\n'), NO_TUNE), (importing(b'X:1\n'), NO_KEY),
    (replacing(1, 1, b''), NO_TUNE), (replacing(1, 1, KESH), b'refused 3 NotOne 2\n'),
    (replacing(1, 1, OTHER), unknown(1)), (b'show 1\n', unknown(1)), (b'delete 1\n', unknown(1)),
    (b'renumber 1 2\n', unknown(1)), (b'renumber 1 0\n', b'refused 17 BadNumber\n'),
    *((b'find %b\n' % query, b'refused 18 BadQuery\n')
      for query in (b'title', b'rhythm', b'key none', b'notes C')),
    (b'set-new a.b\n', b'refused 16 BadName\n'), (b'set-add friday 1\n', unknown(1)),
    *((line + b'\n', b'refused 11 NoSuchSet\n')
      for line in (b'set-cut friday 1', b'set-drop friday', b'set-show friday',
                   b'export-set friday')),
    (b'shwo 1\n', BAD_LINE), (b'import\n', BAD_LINE),
]


class Late(Exception):
    """A reply did not come in time, or the program ended before it."""


class Coprocess:
    """A run of the program, which is written to and read in turn."""

    def __init__(self, words):
        self.process = subprocess.Popen([PROGRAM, *words], stdin=subprocess.PIPE,
                                        stdout=subprocess.PIPE, bufsize=0)
        self.end = time.monotonic() + PATIENCE

    def write(self, data):
        """Writes all of it at once, if there is room for so much."""
        try:
            while data:
                data = data[self.process.stdin.write(data):]
        except BrokenPipeError as error:
            raise Late('it has ended') from error

    def read(self, length):
        """So many bytes of output."""
        output = b''
        while len(output) < length:
            ready, _, _ = select.select([self.process.stdout], [], [],
                                        max(0, self.end - time.monotonic()))
            piece = self.process.stdout.read(length - len(output)) if ready else b''
            if not piece:
                raise Late(f'{"it ends" if ready else "it waits"} after {output[-60:]!r}')
            output += piece
        return output

    def most_kilobytes(self):
        """The most memory that the program had until now, and not what had started it."""
        with open(f'/proc/{self.process.pid}/status', encoding='ascii') as file:
            return int(re.search(r'^VmHWM:\s*(\d+) kB$', file.read(), re.M)[1])

    def close(self):
        """Ends the script, and gives the status and what is written behind all replies."""
        try:
            output, _ = self.process.communicate(timeout=PATIENCE)
        except subprocess.TimeoutExpired:
            self.kill()
            output = b''
        return self.process.returncode, output

    def kill(self):
        self.process.kill()
        self.process.communicate()


def wrong_in_turn(words, told):
    """What is wrong where the reply to each command is waited for."""
    program = Coprocess(words)
    for line, reply in told:
        try:
            program.write(line)
            output = program.read(len(reply))
        except Late as late:
            program.kill()
            return f'after {line[:30]!r}: {late}'
        if output != reply:
            program.kill()
            return f'{line[:30]!r} is answered {output[:60]!r}, and not {reply[:60]!r}'
    return wrong_replies([], program.close())


class Bounds:
    """Cases over archives of a folder."""

    def __init__(self, folder):
        self.path = os.path.join(folder, 'bounds.abcx')

    def write(self, data):
        with open(self.path, 'wb') as file:
            file.write(data)

    def archive(self, tunes, version, sets=b''):
        with open(self.path, 'w+b') as file:
            Archive(tunes, sets, version=version).write(file)

    def words(self, kind):
        """The words that run a script over an archive in which nothing is."""
        if kind == IN_MEMORY:
            return ['list']
        self.archive({}, kind)
        return ['run', self.path]

    def in_turn(self):
        for kind in KINDS:
            for name, told in (('accepted', ACCEPTED), ('refused', REFUSED)):
                yield report(f'each command {name} in turn, {where_of(kind)}',
                             wrong_in_turn(self.words(kind), told))

    def lines_of_words(self):
        """The words of the program that write a line, over a file that is such."""
        two = kept('layout-1-two-tunes')
        for word, what, data, status, line in (
                ('make', 'no byte', b'', DONE, b'made\n'),
                ('make', 'a byte', b'a', NO_ARCHIVE, b'refused 42 NotEmpty\n'),
                ('check', 'two tunes', two, DONE, b'layout 1 tunes 2 sets 1\n'),
                ('check', 'no page', two[:8], *DAMAGED),
                ('check', 'no archive', b'a', NO_ARCHIVE, b'refused 40 NotArchive\n'),
                ('upgrade', 'two tunes', two, DONE, UPGRADED),
                ('upgrade', 'no page', two[:8], *DAMAGED),
                ('run', 'no page', two[:8], *DAMAGED)):
            self.write(data)
            wrong = wrong_replies([(word.encode(), line)], run([word, self.path]), status)
            self.write(data)
            yield report(f'the line of {word} over a file of {what}',
                         wrong or self.wrong_where_full(word))

    def wrong_where_full(self, word):
        """What is wrong with a run whose line cannot be written, which only a flush finds out."""
        with open('/dev/full', 'wb') as full:
            status = subprocess.run([PROGRAM, word, self.path], stdin=subprocess.DEVNULL,
                                    stdout=full, stderr=subprocess.DEVNULL, check=False,
                                    timeout=PATIENCE).returncode
        return '' if status == NOT_DONE else f'where it cannot be written its status is {status}'

    def memory_of(self, kind, told):
        """The most kilobytes that a run had once all was answered."""
        program = Coprocess(self.words(kind))
        try:
            for line, reply in told:
                program.write(line)
                output = program.read(len(reply))
                if output != reply:
                    raise Late(f'it answers {output!r}, and not {reply!r}')
            kilobytes = program.most_kilobytes()
        except Late as late:
            program.kill()
            raise late
        program.close()
        return kilobytes

    def memory(self):
        for name, small, book, reply in books_of_much():
            wrong = []
            for kind in KINDS:
                # In layout 1 these tunes would be too long before they are too many.
                before = [UPGRADE, (importing(BARE), b'ok import 1 1\n')]
                try:
                    least, most = (min(self.memory_of(kind, before + [told])
                                       for _ in range(MEASURED))
                                   for told in (small, (replacing(1, 1, book), reply)))
                except Late as late:
                    wrong.append(f'{where_of(kind)}: {late}')
                    continue
                if (most - least) * 1024 > MOST_TIMES * len(book):
                    wrong.append(f'{where_of(kind)}: {most - least} kB')
            yield report(f'the memory of a replace by {name}', '; '.join(wrong))

    def pages(self):
        for version in LAYOUTS:
            for name, told in changes_of_one():
                wrote = []
                for sets in (b'', full_sets()):
                    self.archive(tunes_up_to(MOST_PLACES + 1), version, sets)
                    wrong = wrong_replies([told], run(['run', self.path], told[0]))
                    with open(self.path, 'rb') as file:
                        wrote.append(number_at(file, DESCRIPTOR + 4))
                if not wrong and not 0 < wrote[0] == wrote[1] <= MOST_PAGES:
                    wrong = f'{wrote[1]} pages, and {wrote[0]} without set lists'
                yield report(f'the pages of {name} beside full set lists, in layout {version}',
                             wrong)


def books_of_much():
    """Books by which a tune is replaced: each with a small one like it, and the replies to both."""
    tune = b'X:\nK:\n'
    few = replacing(1, 1, b'%%a\n\n' + tune * 200), b'refused 3 NotOne 200\n'
    header = b'%%'.ljust(58999, b'a') + b'\n\n'
    for name, front, count in (
            ('20,000 tunes that would carry 59,000 bytes', header, 20000),
            ('as many tunes as fit that would carry as much', header,
             (LONGEST_BOOK - len(header)) // len(tune)),
            ('as many tunes as fit that carry nothing', b'', LONGEST_BOOK // len(tune))):
        yield name, few, front + tune * count, b'refused 3 NotOne %d\n' % count
    replaced = b'ok replace 1 2\n'
    yield ('one tune and much free text', (replacing(1, 1, tune + b'\na\n'), replaced),
           (tune + b'\n' + b'free text\n' * (LONGEST_BOOK // 10))[:LONGEST_BOOK], replaced)


def full_sets():
    """As many set lists as there may be, of as many places, with names as long as they may be."""
    return b''.join(set_bytes(b'%0*d' % (LONGEST_NAME, number), *range(1, MOST_PLACES + 1))
                    for number in range(MOST_SETS))


def changes_of_one():
    """Changes of one tune that no set list names."""
    last = MOST_PLACES + 1
    book = bare_book({1: tune_of(last + 1)})
    yield 'an import', (importing(book), b'ok import %d %d\n' % (last + 1, last + 1))
    yield 'a replace', (replacing(last, 1, book), b'ok replace %d 2\n' % last)
    yield 'a delete', as_told(b'delete %d\n' % last)
    yield 'a renumber', as_told(b'renumber %d 900\n' % last)


def main():
    if not os.path.exists(PROGRAM):
        print(f'FAILED  there is no program {PROGRAM}: ./tunes --version builds it')
        return 1
    with tempfile.TemporaryDirectory(dir=room()) as folder:
        bounds = Bounds(folder)
        return max([*bounds.in_turn(), *bounds.lines_of_words(), *bounds.memory(),
                    *bounds.pages()])


if __name__ == '__main__':
    sys.exit(main())
