#!/usr/bin/env python3
"""Usage: checks/sweep.py

Has `tunes` answer for each size of a small archive, of a book and of a line, so that none is
answered otherwise than its neighbours:

- for each number of tunes from 0 to 300, and some greater ones: a file of each layout is opened,
  checked, asked by each kind of query that finds all tunes, exported and changed, and one of layout
  1 is upgraded; so is an archive in memory, and one that grows by a tune at a time;
- for each length up to 5,000 bytes: a book is imported, and takes the place of a tune;
- for each length up to 4,096 bytes: a line is a command, or is none; a line of a byte more ends the
  run. Lines of such lengths in a tune come out as they went in.

Each reply is one that is worked out here by docs/SCRIPTS.md, byte for byte, and the files are
written by docs/FILE-FORMAT.md. They stand in memory where there is such a folder, so that a sync
costs nothing. The program is the one that ./tunes has built, and not that script, or the one that
the variable TUNES names. It uses all cores. A line is printed for each case, and the status is 1
where one failed.
"""
import os
import subprocess
import sys
import tempfile
from concurrent.futures import ThreadPoolExecutor

sys.dont_write_bytecode = True
from archives import LAYOUTS, Archive, Tune, set_bytes
from fail_once import DONE, PROGRAM, UPGRADED, run
from layouts import book_of, exported, importing

EACH_NUMBER, GREATER_NUMBERS = 300, (1000, 2501, 3000, 5001)
LONGEST_BOOK, LONGEST_LINE = 5000, 4096
# An archive in memory, and files of each layout.
IN_MEMORY = 0
KINDS = IN_MEMORY, *LAYOUTS
# Each of these finds all tunes.
QUERIES = b'find title tune\n', b'find rhythm reel\n', b'find key D\n', b'find notes D^FAd^fa\n'
NO_TUNE, NO_KEY = b'refused 1 NoTune\n', b'refused 2 BadTune 1 NoKey\n'
BAD_LINE, NO_SETS = b'refused 30 BadLine\n', b'ok sets 0\n'
UPGRADE = b'upgrade\n', UPGRADED
# Fronts of this are books and texts: the shortest tune is of five bytes.
SHORTEST_TUNE = len(b'X:\nK:')
LONG_BOOK = b'X:\nK:C\n' + b''.join(b'w:word %d\n' % number for number in range(500))
# No two fronts of this that are equally long are the same at another place.
LONG_LINE = b','.join(b'%d' % number for number in range(1500))


def tune_of(number):
    """A tune that each query finds, with the keys that it has."""
    return Tune(b'T:Tune %d\nR:reel\nK:D\nDFA dfa|\n' % number, (b'tune %d' % number,), b'reel',
                b'D 0', (4, 3, 5, 4, 3))


def tunes_up_to(last, first=1):
    return {number: tune_of(number) for number in range(first, last + 1)}


def title_of(tune):
    return tune.text[2:tune.text.index(b'\n')]


def row_of(number, tune):
    return b'%d %b\n' % (number, title_of(tune))


def bare_book(tunes):
    """A book of these tunes that begins with the first of them."""
    return b''.join(b'X:1\n' + tune.text for tune in tunes.values())


def shown(number, text, revision=1):
    """A command that shows a tune, and the reply."""
    tune = b'X:%d\n%b' % (number, text)
    return (b'show %d\n' % number,
            b'ok show %d %d %d\n%b' % (number, revision, len(tune), tune))


def exporting(tunes):
    return b'export\n', exported(book_of(tunes))


# WHAT IS SAID, AND WHAT IS ANSWERED: a list of commands, each with its reply

def questions(tunes, sets):
    """What is asked of these tunes and set lists."""
    rows = b''.join(row_of(number, tune) for number, tune in tunes.items())
    titles = sorted(tunes.items(), key=lambda item: (item[1].titles[0], item[0]))
    told = [(query, b'ok find %d\n%b' % (len(tunes), rows)) for query in QUERIES]
    told.append((b'titles\n', b'ok titles %d\n%b' % (
        len(tunes), b''.join(row_of(*title) for title in titles))))
    told.append(exporting(tunes))
    told.append((b'sets\n', b'ok sets %d\n%b' % (
        len(sets), b''.join(b'%b %d\n' % (name, len(places)) for name, places in sets.items()))))
    last = max(tunes, default=0)
    return told + [shown(last, tunes[last].text) if last
                   else (b'show 1\n', b'refused 4 Unknown 1\n')]


def changes(tunes):
    """Changes of an archive of these tunes, which are numbered from 1 on, and what it has then."""
    count, after = len(tunes), dict(tunes)
    more = tunes_up_to(2 * count, count + 1)
    told = [(importing(bare_book({1: tune_of(count + 1)})),
             b'ok import %d %d\n' % (count + 1, count + 1)),
            (b'delete %d\n' % (count + 1), b'ok delete %d\n' % (count + 1)),
            (importing(bare_book(more)),
             b'ok import %d %d\n' % (count + 1, 2 * count) if count else NO_TUNE)]
    after.update(more)
    other = bare_book({1: tune_of(0)})
    replace = b'replace 1 1 %d\n%b' % (len(other), other)
    if count:
        after[1] = tune_of(0)
    told.append((replace, b'ok replace 1 2\n' if count else b'refused 4 Unknown 1\n'))
    return told + [UPGRADE], after


def makings(tunes, sets):
    """What makes an archive of these tunes and set lists out of one in which nothing is."""
    told = [(importing(bare_book(tunes)), b'ok import 1 %d\n' % len(tunes))] if tunes else []
    for name, places in sets.items():
        told.append((b'set-new %b\n' % name, b'ok set-new %b\n' % name))
        told += [(b'set-add %b %d\n' % (name, number), b'ok set-add %b %d\n' % (name, place))
                 for place, number in enumerate(places, 1)]
    return told


def one_by_one(last):
    """A tune is put in behind another, and each number of them is found by one kind of query."""
    told = []
    for number in range(1, last + 1):
        told.append((importing(bare_book({1: tune_of(number)})),
                     b'ok import %d %d\n' % (number, number)))
        told.append(questions(tunes_up_to(number), {})[number % len(QUERIES)])
    return told + [exporting(tunes_up_to(last))]


def books():
    """Books of each length, with the refusals of those that are too short to have a tune."""
    for length in range(SHORTEST_TUNE):
        yield LONG_BOOK[length + 1:2 * length + 1], NO_TUNE
    for length in range(LONGEST_BOOK + 1):
        refusal = NO_TUNE if length < len(b'X:') else NO_KEY
        yield LONG_BOOK[:length], refusal if length < SHORTEST_TUNE else b''


def text_of(book):
    """The text of the one tune of a front of the long book."""
    text = book.partition(b'\n')[2]
    return text if text.endswith(b'\n') else text + b'\n'


def imports():
    """Books of each length are put in, shown and taken out again."""
    told = []
    for book, refusal in books():
        told.append((importing(book), refusal or b'ok import 1 1\n'))
        if not refusal:
            told += [shown(1, text_of(book)), (b'delete 1\n', b'ok delete 1\n')]
    return told


def replacements():
    """Books of each length take the place of a tune, each that of the one before."""
    revision, told = 1, [(importing(LONG_BOOK[:SHORTEST_TUNE]), b'ok import 1 1\n')]
    for book, refusal in books():
        line = b'replace 1 %d %d\n%b' % (revision, len(book), book)
        if not refusal:
            revision += 1
        told.append((line, refusal or b'ok replace 1 %d\n' % revision))
        if not refusal:
            told.append(shown(1, text_of(book), revision))
    return told


def lines_of(length):
    """Lines of so many bytes without their line feed: three that are answered, if they are so long,
    and one of blanks that is not."""
    title, sets = b'find title ', b'sets'
    if length:
        yield b'a' * length, BAD_LINE
    if length > len(title):
        yield title + b'a' * (length - len(title)), b'ok find 0\n'
    if length >= len(sets):
        yield sets.ljust(length), NO_SETS
    yield b' ' * length, b''


def lines():
    return [(line + b'\n', reply) for length in range(LONGEST_LINE + 1)
            for line, reply in lines_of(length)]


def lines_of_tunes():
    """Tunes with a line of each length, past that of a line of a script, and each tune shown."""
    texts = [b'K:\n%b\n' % LONG_LINE[:length] for length in range(1, LONGEST_LINE + 6)]
    told, many = [], 500
    for before in range(0, len(texts), many):
        some = texts[before:before + many]
        told.append((importing(b''.join(b'X:\n' + text for text in some)),
                     b'ok import %d %d\n' % (before + 1, before + len(some))))
    told += [shown(number, text) for number, text in enumerate(texts, 1)]
    tunes = {number: Tune(text) for number, text in enumerate(texts, 1)}
    return told + [exporting(tunes)]


# CASES

def wrong_replies(told, answer, wanted_status=DONE):
    """What is wrong with the status and the output that came of a list of commands."""
    status, output = answer
    at = 0
    for line, reply in told:
        if not output.startswith(reply, at):
            return (f'a line and book of {len(line)} bytes, {line[:30]!r}, is answered '
                    f'{output[at:at + 30]!r}, and not {reply[:30]!r}')
        at += len(reply)
    if at < len(output):
        return f'behind all replies it says {output[at:at + 30]!r}'
    return '' if status == wanted_status else f'its status is {status}'


def script_of(told):
    return b''.join(line for line, _ in told)


def answer_to(words, told=()):
    """The status and the output of a run; none where it does not end in time."""
    try:
        return run(words, script_of(told))
    except subprocess.TimeoutExpired:
        return None, b''


def report(name, wrong):
    """Prints a case, of which this is wrong, and says whether anything is."""
    print(f'{"FAILED" if wrong else "ok":7} {name}{wrong and ": "}{wrong}', flush=True)
    return bool(wrong)


def where_of(kind):
    return f'in a file of layout {kind}' if kind else 'in memory'


class Sweep:
    """Archives of a folder, and all cores."""

    def __init__(self, folder, threads):
        self.folder, self.threads = folder, threads

    def file(self, name, tunes, sets=None, version=1):
        """The path of a file of these tunes and set lists."""
        path = os.path.join(self.folder, name)
        data = b''.join(set_bytes(name, *places) for name, places in (sets or {}).items())
        with open(path, 'w+b') as file:
            Archive(tunes, data, version=version).write(file)
        return path

    def answer(self, name, kind, told):
        """What comes of commands over an archive in which nothing is."""
        if kind == IN_MEMORY:
            return answer_to(['list'], told)
        path = self.file(f'{name}-{kind}', {}, version=kind)
        answer = answer_to(['run', path], told)
        os.remove(path)
        return answer

    def wrong_number(self, kind, count):
        """What is wrong with an archive of so many tunes."""
        tunes, sets = tunes_up_to(count), sets_of(count)
        told, after = changes(tunes)
        told = questions(tunes, sets) + told + [exporting(after)]
        if kind == IN_MEMORY:
            told = makings(tunes, sets) + told
            return wrong_replies(told, answer_to(['list'], told))
        path = self.file(f'{kind}-{count}', tunes, sets, kind)
        wrong = (wrong_check(path, kind, tunes, sets)
                 or wrong_replies(told, answer_to(['run', path], told))
                 or wrong_check(path, 2, after, sets))
        os.remove(path)
        return wrong

    def wrong_upgrade(self, count):
        """What is wrong with a file of so many tunes that the program brings to layout 2."""
        tunes, sets = tunes_up_to(count), sets_of(count)
        path = self.file(f'upgrade-{count}', tunes, sets)
        told = questions(tunes, sets)
        wrong = (wrong_replies([UPGRADE], answer_to(['upgrade', path]))
                 or wrong_check(path, 2, tunes, sets)
                 or wrong_replies(told, answer_to(['run', path], told)))
        os.remove(path)
        return wrong

    def each_number(self, name, wrong_of):
        """How many cases failed over all numbers of tunes, of which each may be wrong."""
        counts = *range(EACH_NUMBER + 1), *GREATER_NUMBERS
        wrong = [f'of {count} tunes: {why}'
                 for count, why in zip(counts, self.threads.map(wrong_of, counts)) if why]
        return report(f'0 to {EACH_NUMBER} tunes, and greater numbers, {name}',
                      '; '.join(wrong[:3]))

    def numbers(self):
        for kind in KINDS:
            yield self.each_number(where_of(kind), lambda count, it=kind: self.wrong_number(
                it, count))
        yield self.each_number('of layout 1, upgraded', self.wrong_upgrade)

    def scripts(self):
        """Scripts that go through sizes, each in memory and in files."""
        for name, told in (
                ('tunes that are put in one by one', one_by_one(EACH_NUMBER)),
                (f'imports of books of each length to {LONGEST_BOOK}', imports()),
                (f'replacements of each length to {LONGEST_BOOK}', replacements()),
                (f'lines of each length to {LONGEST_LINE}', lines()),
                ('lines of each length in tunes', lines_of_tunes())):
            def wrong_in(kind, it=told):
                return wrong_replies(it, self.answer('scripts', kind, it))
            for kind, wrong in zip(KINDS, self.threads.map(wrong_in, KINDS)):
                yield report(f'{name}, {where_of(kind)}', wrong)

    def long_lines(self):
        """A line of a byte too many is answered, ends the run, and is the last that is read."""
        too_long = [line for line, _ in lines_of(LONGEST_LINE + 1)]
        too_long.append(b'a' * LONGEST_LINE + b'\r')
        for kind in KINDS:
            wrong = [wrong_replies(told, self.answer('long', kind, told), 1) for told in
                     ([(b'sets\n', NO_SETS), (line + b'\n', BAD_LINE), (b'sets\n', b'')]
                      for line in too_long)]
            yield report(f'lines of {LONGEST_LINE + 1} bytes, {where_of(kind)}',
                         '; '.join(why for why in wrong if why))


def sets_of(count):
    """No set list to three, by the number of tunes, and each with the last of them."""
    return {b'set-%d' % number: [count] * number for number in range(count % 4)}


def wrong_check(path, version, tunes, sets):
    line = b'layout %d tunes %d sets %d\n' % (version, len(tunes), len(sets))
    return wrong_replies([(b'check', line)], answer_to(['check', path]))


def room():
    """A folder in memory, if there is one, for archives whose syncs cost nothing."""
    return '/dev/shm' if os.access('/dev/shm', os.W_OK) else None


def main():
    if not os.path.exists(PROGRAM):
        print(f'FAILED  there is no program {PROGRAM}: ./tunes --version builds it')
        return 1
    with tempfile.TemporaryDirectory(dir=room()) as folder, \
            ThreadPoolExecutor(os.cpu_count()) as threads:
        sweep = Sweep(folder, threads)
        return max([*sweep.numbers(), *sweep.scripts(), *sweep.long_lines()])


if __name__ == '__main__':
    sys.exit(main())
