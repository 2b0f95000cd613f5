#!/usr/bin/env python3
"""Usage: checks/changes.py [--full] [--kills N] [--jobs N] [ORDER..]

Breaks off each order of `tunes-desk` that changes an archive, makes one, or copies one, and looks
behind each run that no tune and no set list is lost by it. An order is broken off in these ways: it
is killed at moments that are spread over its run, and before calls of the system; a call of the
system fails, by each usual error, or moves one byte alone; its device has room for so many pages
and no more; the power goes behind a call, and takes names and bytes that no sync has kept. ORDER is
a name as it is printed, without which all are tried. A quick run goes through some moments, calls
and sizes of each order; with --full it is 200 moments, or N, each call and each size.

The archive has 40 tunes, and set lists of up to 180 places. What it holds is read by
examples/read_archive.py and not by the program, and what an order means is told here, as a function
of what was there. Behind each run the archive opens, and has what it had before the order or what
it is to have after it; or it has something between, and one `undo` takes it back. `undo`, called
again and again, leads over these states, and no others, to the first of all. A text that is in the
archive no longer stands whole in its book of old texts, which only grows. No other file changes.
What makes an archive leaves nothing under its name, or a whole one. A copy is there whole or not,
and so is its sum; old ones go only where the newer ones are there.

Behind that, orders that are refused change nothing; two orders at once, of which one is stopped
before a call, are as if one came after the other; and files have odd names, or are links, or stand
in a folder that may not be written.

The programs are those that ./build made, or those that the variables TUNES and TUNES_DESK name. An
order that the program does not carry out yet is left out, and a line says so. Calls are broken off
by a library, checks/fail_once.c, that is built for this by `cc`. Where there is no C compiler it
fails, unless the variable LEAVE_OUT has the word `cc`. Devices are mounted, by root or in a name
space of the user; where neither can be, a line says that they are left out. A line is printed for
each order, with how often it was left before, after, or to be finished by `undo`; the files of a
loss are kept, and the status is 1 where there was one.
"""
import argparse
import os
import shutil
import signal
import subprocess
import sys
import tempfile
import time
from collections import Counter
from concurrent.futures import ThreadPoolExecutor
from typing import NamedTuple

sys.dont_write_bytecode = True
from broken_orders import (Asking, Backing, Change, Loading, Making, Restoring, Undoing, Upgrading,
                           sum_line, words_of)
from broken_runs import (COPY, DESK, DONE, FILE, OLD, REFUSED, ROOT, Break, Contents, Given, Lost,
                         Runner, book_of, contents_of, keeps_first, power_cuts, read, script_of,
                         told, write_all)
from changes_beside import (MAKINGS, Beside, is_not_yet, told_line, try_eight, try_makings,
                            try_pairs, try_places)
from fail_once import ERRORS, ONE_BYTE
from full_folders import can_mount, rooms_one_by_one, without_log
from layouts import kept
from made_tunes import texts_of

BUILT = os.path.join(ROOT, 'crates', 'tunes', 'out', 'tunes')
PROGRAM = os.path.abspath(os.environ.get('TUNES') or BUILT)
# How many moments, calls and sizes of a device a quick run tries of an order, about.
FEW_KILLS, FEW_CALLS, FEW_CUTS, FEW_STOPS, KILLS = 4, 8, 5, 6, 200
# Sizes of a device in a row that are enough for an order, after which more room tells nothing.
ENOUGH, MOST_PAGES = 2, 4000
MOST_KEPT = 3


# TEXTS AND BOOKS

TEXTS = [text.encode() for text in texts_of(40, 7)]
OTHERS = [text.encode() for text in texts_of(40, 14)]
MINE = b'T:Mine\nR:jig\nK:G\nGAB cde|\n'
# Almost as long as a text may be.
LONG_TEXT = b'T:Long\nR:jig\nK:G\n' + b'GAB cde|gfe dcB|\n' * 3500
LARGE = [b'T:Large %d\nR:reel\nK:D\n' % number + b'DFA dfa|gfe dcB|\n' * 3500
         for number in range(70)]
NO_KEY = b'T:Without a key\nR:jig\n'
# Directives that stand between tunes.
BETWEEN = b'%%stretchlast 1\n', b'%%scale 0.8\n'
ONE, TWO, THREE = ((b'T:%b\nM:4/4\n' % name, b'K:D\nDFA dfa|\n')
                        for name in (b'First', b'Second', b'Third'))
CARRIED = [b''.join(ONE), BETWEEN[0].join(TWO), b''.join(BETWEEN).join(THREE)]
CARRYING = (b'X:1\n%b%b\n%b\nX:2\n%b%b\n%b\nX:3\n%b%b'
            % (*ONE, BETWEEN[0], *TWO, BETWEEN[1], *THREE))

BOOKS = {
    'mine.abc': book_of([MINE]), 'long.abc': book_of([LONG_TEXT]), 'three.abc': book_of(OTHERS[:3]),
    'books/a.abc': book_of(OTHERS[3:5]), 'books/b.ABC': book_of(OTHERS[5:6]),
    'books/c/d.abc': book_of(OTHERS[6:8]), 'books/notes.txt': b'no book\n',
    'known.abc': book_of([TEXTS[4], OTHERS[8], TEXTS[10], OTHERS[8], OTHERS[9]]),
    'some-bad.abc': book_of([OTHERS[10], NO_KEY, OTHERS[11]]), 'carrying.abc': CARRYING,
    'two.abc': book_of(OTHERS[:2]), 'lost.abc': book_of([MINE]) + b'\nW:below an empty line\n',
}
LARGE_BOOK = {'large.abc': book_of(LARGE)}

LOADED = Contents(2, dict(enumerate(OTHERS, 1)), {'friday': [3, 1, 30]})
LONG = [1 + place * 7 % 30 for place in range(180)]
SETS = {'long': LONG, 'none': [], 'short': [3, 1, 3], 'some': list(range(10, 30))}
TWELVE = [5, 6, 5, 28, 29, 30, 7, 8, 9, 10, 11, 5]
GOOD_SCRIPT = {'good.script': script_of(LOADED)}
OTHERS_LOADED = Contents(2, dict(enumerate(OTHERS[:7:-1], 1)), {'monday': [2]})
START = Contents(2, dict(enumerate(TEXTS, 1)), SETS)


def cut(numbers, *places):
    return [number for place, number in enumerate(numbers, 1) if place not in places]


def moved(numbers, place, to):
    rest = cut(numbers, place)
    return rest[:to - 1] + [numbers[place - 1]] + rest[to - 1:]


# CASES

class Case(NamedTuple):
    """An order: its words, what it makes of what was there, and what else it gets."""
    line: str
    meaning: object
    text: bytes = b''
    books: dict = BOOKS
    status: int = DONE


def adds(line, texts, **more):
    return Case(f'add {line}', lambda was: was.and_then(texts), **more)


def replaces(line, number, by, **more):
    return Case(f'replace {line}', lambda was: was.with_text(number, by), **more)


# What each change means.
CHANGES = {
    'delete of three': Case('delete 31 39 35', lambda was: was.without(31, 39, 35)),
    'delete of the last': Case('delete 40', lambda was: was.without(40)),
    'put of twelve': Case(f'put short {" ".join(map(str, TWELVE))}',
                          lambda was: was.with_set('short', was.sets['short'] + TWELVE)),
    'put, a new list': Case(f'put new {" ".join(map(str, TWELVE))}',
                            lambda was: was.with_set('new', TWELVE)),
    'cut': Case('cut long 90', lambda was: was.with_set('long', cut(LONG, 90))),
    'cut of three': Case('cut long 170 3 90',
                         lambda was: was.with_set('long', cut(LONG, 3, 90, 170))),
    'move in a list of 180': Case('move long 2 179',
                                  lambda was: was.with_set('long', moved(LONG, 2, 179))),
    'drop': Case('drop long', lambda was: was.without_set('long')),
    'replace': replaces('7 mine.abc', 7, MINE),
    'replace by a revision': replaces('32 long.abc --revision 1', 32, LONG_TEXT),
    'replace from standard input': replaces('7 -', 7, OTHERS[30], text=book_of(OTHERS[30:31])),
    'add of a file': adds('three.abc', OTHERS[:3]),
    'add of a folder': adds('books', OTHERS[3:8]),
    'add of several': adds('mine.abc books three.abc', [MINE, *OTHERS[3:8], *OTHERS[:3]]),
    'add from standard input': adds('mine.abc -', [MINE, *OTHERS[20:23]],
                                    text=book_of(OTHERS[20:23])),
    'add --new': adds('--new known.abc', OTHERS[8:10]),
    'add --new of two books': adds('--new known.abc three.abc known.abc',
                                   OTHERS[8:10] + OTHERS[:3]),
    'add --good': adds('--good some-bad.abc', OTHERS[10:12]),
    'add --carry': adds('--carry carrying.abc', CARRIED),
    'add, a book refused': adds('mine.abc some-bad.abc three.abc', [MINE, *OTHERS[:3]],
                                status=REFUSED),
    'add --split': adds('--split large.abc', LARGE, books=LARGE_BOOK),
}

# Those that are tried in an archive that was never changed, too: they make its book of old texts.
FIRST_OF_ALL = ['delete of the last', 'put, a new list', 'add of a file']

# Several changes, which one `undo` takes back.
SEVERAL = {
    'undo of two changes': ['put of twelve', 'delete of three'],
    'undo of five changes': ['add of several', 'replace', 'put of twelve', 'move in a list of 180',
                             'delete of three'],
    'undo of two replaces': ['replace', 'replace from standard input'],
    'undo of an add under an old number': ['delete of the last', 'add of a file'],
    'undo of lists': ['put of twelve', 'drop', 'put, a new list'],
}

# Orders that are refused, or have nothing to do, and the statuses that they may have.
UNCHANGED = [
    ('replace 7 mine.abc --revision 2', [1]), ('replace 37 mine.abc', [1]),
    ('replace 7 two.abc', [1]), ('replace 7 lost.abc', [1]), ('replace 7 absent.abc', [1, 2]),
    ('replace 7 books', [1, 2]), ('replace 7 tunes.abcx', [1, 2]),
    ('delete 31 3', [1]), ('delete 31 37', [1]), ('put short 5 37', [1]),
    ('put bad/name 1', [1, 2]), (f'put long {" ".join(["5"] * 21)}', [1]), ('cut short 1 9', [1]),
    ('move short 1 9', [1]), ('drop absent', [1]), ('add some-bad.abc', [1]),
    ('add absent.abc three.abc', [1, 2]), ('add --new --split three.abc', [2]),
    ('add tunes.abcx', [1, 2]), ('add tunes.abcx.old.abc', [1, 2]), ('add --dry three.abc', [0]),
    ('add --dry --new known.abc', [0]), ('add --new same.abc', [0]), ('undo --list', [0]),
    ('new', [1, 3]), ('load good.script', [1, 3]), ('upgrade', [0]), ('check', [0]),
    ('backup tunes.abcx', [1, 2]), ('restore tunes.abcx', [1, 2]), ('restore mine.abc', [1, 3]),
    ('restore absent.abcx', [1, 2, 3]), ('restore damaged.abcx', [1, 3]),
    ('restore summed.abcx', [1, 3]), ('check summed.abcx', [1, 3]), ('check damaged.abcx', [3]),
    ('check mine.abc', [3]), ('check absent.abcx', [1, 2, 3]),
    ('backup --keep 0 copy.abcx', [2]),
]


# Orders that run two at once: a line, and what it makes of what was there, or how many changes it
# takes back, or none where it changes nothing.
PAIRED = {
    'delete': ('delete 31 39', lambda was: was.without(31, 39)),
    'put': ('put short 5 6', lambda was: was.with_set('short', was.sets['short'] + [5, 6])),
    'move': ('move long 2 179', CHANGES['move in a list of 180'].meaning),
    'drop': ('drop none', lambda was: was.without_set('none')),
    'replace': ('replace 7 mine.abc', CHANGES['replace'].meaning),
    'add': ('add three.abc', CHANGES['add of a file'].meaning),
    'add of one': ('add mine.abc', lambda was: was.and_then([MINE])),
    'undo': ('undo', 1), 'undo of two': ('undo --to 2', 2), 'export': ('export -', None),
    'backup': (f'backup {COPY}', None),
    'restore': ('restore other.abcx', lambda was: LOADED),
}


# STARTS

def run_script(data, script):
    """The archive that `tunes` makes of one by a script; of none, where it has no bytes."""
    with tempfile.TemporaryDirectory() as folder:
        path = os.path.join(folder, 'archive')
        if data:
            write_all(folder, {'archive': data})
        else:
            subprocess.run([PROGRAM, 'make', path], stdout=subprocess.DEVNULL, check=True)
        ended = subprocess.run([PROGRAM, 'run', path], input=script, check=True,
                               stdout=subprocess.PIPE)
        assert b'\nrefused' not in ended.stdout
        return read(path)


def made(contents):
    """An archive that ends with its pages, so that each change makes it longer."""
    data = without_log(run_script(b'', script_of(contents)))
    assert contents_of(data) == contents
    return data


class Starts:
    """The archives from which orders start."""

    def __init__(self, runner):
        self.runner, self.base = runner, made(START)
        # A tune was deleted before.
        self.begun, self.start = self.changed(self.base, START)
        self.small = made(LOADED)

    def changed(self, data, contents, books=None):
        ended = self.runner.run(words_of('delete 37'), {FILE: data, **(books or {})})
        now = contents.without(37)
        assert ended.status == DONE and contents_of(ended.files[FILE]) == now, told(ended)
        return ended.files, now

    def with_books(self, books):
        return {**self.begun, **books}


class LeftOut(NamedTuple):
    """An order that the program does not carry out yet."""
    name: str


def firsts_in(starts):
    """The first changes of an archive."""
    for name in FIRST_OF_ALL:
        case = CHANGES[name]
        yield Change(f'{name}, the first of all', case.line, {FILE: starts.base, **case.books},
                     [case.meaning(START), START])


def changes_in(starts):
    """Each change of an archive from which a tune was deleted before, and what undoes it."""
    for name, case in CHANGES.items():
        goal = case.meaning(starts.start)
        way = [goal, starts.start, START]
        order = Change(name, case.line, starts.with_books(case.books), way, text=case.text,
                       status=case.status)
        ended = starts.runner.run(order.words, order.files, given=order.text)
        if is_not_yet(ended):
            yield LeftOut(name)
            continue
        yield order
        if ended.status == case.status:
            yield Undoing(f'undo of {name}', 'undo', ended.files, way, start=goal,
                          goal=starts.start)


def several_in(starts):
    """Undos of several changes."""
    for name, parts in SEVERAL.items():
        files, way, is_done = starts.with_books(BOOKS), [starts.start, START], True
        for part in parts:
            case = CHANGES[part]
            ended = starts.runner.run(words_of(case.line), files, given=case.text)
            way.insert(0, case.meaning(way[0]))
            files = ended.files
            is_done = is_done and ended.status == DONE
        if is_done:
            yield Undoing(name, f'undo --to {len(parts)}', files, way, start=way[0],
                          goal=starts.start)
        else:
            yield LeftOut(name)


def makings_in(starts):
    """The orders that make an archive, put a copy in its place, or bring it to a layout."""
    yield Making('new', 'new', {}, None, Contents(2, {}, {}))
    yield Loading('load', 'load good.script', GOOD_SCRIPT, None, LOADED)
    yield Loading('load from standard input', 'load -', {}, None, LOADED, text=script_of(LOADED))
    both = {FILE: starts.base, COPY: starts.small}
    yield Restoring('restore', f'restore {COPY}', both, START, LOADED)
    summed = {**both, f'{COPY}.sha256': sum_line(COPY, starts.small)}
    yield Restoring('restore of a copy with its sum', f'restore {COPY}', summed, START, LOADED)
    first = START._replace(layout=1)
    old = run_script(kept('layout-1-empty'), script_of(first))
    files, start = starts.changed(old, first)
    yield Upgrading('upgrade', 'upgrade', files, [start._replace(layout=2), first], start=start)


def copies_in(starts):
    """The orders that make copies, or look at one."""
    base, start = starts.begun, starts.start
    yield Backing('backup', f'backup {COPY}', base, start)
    first = {COPY: starts.small, f'{COPY}.sha256': sum_line(COPY, starts.small)}
    yield Backing('backup of the same name', f'backup {COPY}', {**base, **first}, start)
    older = {name: starts.small for name in (COPY, f'{COPY}.1', f'{COPY}.2', f'{COPY}.4')}
    sums = {f'{name}.sha256': sum_line(name, data) for name, data in older.items()}
    theirs = {f'{COPY}.3': b'notes\n', f'{COPY}.10.abc': b'X:1\n', f'{COPY}.old': b'mine\n'}
    yield Backing('backup --keep 2', f'backup --keep 2 {COPY}',
                  {**base, **older, **sums, **theirs}, start, keep=2)
    yield Asking('check of a copy', f'check {COPY}', {**base, **first}, start, start)


def orders_in(starts):
    yield from changes_in(starts)
    yield from several_in(starts)
    for order in (*firsts_in(starts), *makings_in(starts), *copies_in(starts)):
        is_out = is_not_yet(starts.runner.run(order.words, order.files, given=order.text))
        yield LeftOut(order.name) if is_out else order


# WAYS TO BREAK OFF

def spread(most, few):
    """The numbers from 1 on, or few of them."""
    if most <= few:
        return range(1, most + 1)
    return sorted({1 + place * (most - 1) // (few - 1) for place in range(few)})


def killed(runner, order, kills):
    took = max(runner.time_of(order.given()) for _ in range(3))
    return [Break(seconds=1.05 * took * place / kills) for place in range(kills)]


def at_calls(runner, order, options):
    """Each call, with a kill before it, and with each error; or some calls, and one for each."""
    calls = runner.calls_of(order.given())
    hows = [*ERRORS, ONE_BYTE]
    if options.full:
        numbers = range(1, calls + 1)
        broken = [Break(at=at, how=how) for at in numbers for how in hows]
        requests = runner.calls_of(order.given(), 'memory')
        broken += [Break(at=at, how=1, kind='memory') for at in spread(requests, KILLS)]
    else:
        numbers = spread(calls, FEW_CALLS)
        broken = [Break(at=at, how=hows[place % len(hows)]) for place, at in enumerate(numbers)]
    return [Break(at=at, how=-signal.SIGKILL) for at in numbers], broken


class Tried:
    """What came of an order."""

    def __init__(self, order):
        self.order, self.counts, self.outcomes, self.wrong = order, Counter(), Counter(), []

    def put(self, way, broken, outcome, ended):
        self.counts[way] += 1
        if isinstance(outcome, Lost):
            is_few = len(self.wrong) < MOST_KEPT
            self.wrong.append(f'{broken}: {outcome}{keep(self.order, ended) if is_few else ""}')
        else:
            self.outcomes[outcome] += 1

    def __str__(self):
        ways = ', '.join(f'{number} {way}' for way, number in self.counts.items())
        outcomes = ', '.join(f'{self.outcomes[each]} {each}'
                             for each in ('before', 'after', 'in part', 'finished by undo')
                             if self.outcomes[each])
        told_wrong = f'; {len(self.wrong)} failed: ' + '; '.join(self.wrong[:MOST_KEPT])
        return (f'{"FAILED" if self.wrong else "ok":7} {self.order.name}: {ways}: {outcomes}'
                f'{told_wrong if self.wrong else ""}')


def keep(order, ended):
    """Keeps the files of a loss, and tells where."""
    if ended is None:
        return ''
    folder = tempfile.mkdtemp(prefix='tunes-changes-')
    write_all(os.path.join(folder, 'before'), order.files)
    write_all(os.path.join(folder, 'after'), ended.files)
    return f' (`{order.line()}`; its files are in {folder})'


def one_break(runner, order, broken):
    """What a run that is broken off so comes to, or what is lost, and the run."""
    ended = None
    try:
        ended = runner.run(order.words, order.files, broken, order.text)
        return order.judge(runner, ended, broken), ended
    except Lost as lost:
        return lost, ended


def try_sizes(runner, order, tried, options):
    """The order with each room of its device, up to where it goes as it does without a bound."""
    row = 0
    for room in rooms_one_by_one(options.full):
        if not options.full and room > 2 and room % 2:
            continue
        outcome, ended = one_break(runner, order, Break(room=room))
        tried.put('sizes of its device', Break(room=room), outcome, ended)
        # An order that is refused anyway says the same then as without a bound.
        done = ended is not None and (ended.status, ended.printed) == (
            order.status, order.wanted.printed)
        row = row + 1 if done else 0
        if row == ENOUGH or room > MOST_PAGES:
            return


def try_power(runner, order, tried, options):
    """The order with a power cut behind each call that changes files or keeps them, or some."""
    broken = Break(power='the power goes')
    try:
        ended, calls = runner.noted_calls(order.given())
        if order.keeps_first:
            keeps_first(calls, order.files)
        for broken, left in power_cuts(ended, calls, order.files, lambda most: range(1, most + 1)
                                       if options.full else spread(most, FEW_CUTS)):
            tried.put('power cuts', broken, *judged(runner, order, left, broken))
    except Lost as lost:
        tried.put('power cuts', broken, lost, None)


def judged(runner, order, ended, broken):
    try:
        return order.judge(runner, ended, broken), ended
    except Lost as lost:
        return lost, ended


def try_order(runner, order, options, pool):
    tried = Tried(order)
    outcome, order.wanted = one_break(runner, order, Break())
    if outcome != 'after' or order.wanted.status != order.status:
        why = f'{outcome}, status {order.wanted.status}: {told(order.wanted)}'
        tried.put('not broken off', Break(), Lost(why), order.wanted)
        return tried
    by_call, faults = at_calls(runner, order, options) if options.library else ([], [])
    for way, all_broken in (('kills', killed(runner, order, options.kills)),
                            ('kills before calls', by_call), ('calls that failed', faults)):
        for broken, (outcome, ended) in zip(all_broken, pool.map(
                lambda broken: one_break(runner, order, broken), all_broken)):
            tried.put(way, broken, outcome, ended)
    if options.library:
        try_power(runner, order, tried, options)
    if options.devices:
        try_sizes(runner, order, tried, options)
    return tried


def try_unchanged(starts):
    """Orders that change nothing: a line for all, and how many failed."""
    damaged = starts.small[:5000] + b'\1' + starts.small[5001:-4096]
    files = starts.with_books({
        **BOOKS, **GOOD_SCRIPT, 'damaged.abcx': damaged,
        'summed.abcx': starts.small, 'summed.abcx.sha256': sum_line('summed.abcx', damaged),
        'same.abc': book_of([TEXTS[6]])})
    wrong, count = [], 0
    for line, statuses in UNCHANGED:
        ended = starts.runner.run(words_of(line), files)
        if is_not_yet(ended):
            continue
        count += 1
        if ended.status not in statuses:
            wrong.append(f'`{line}` ends with {ended.status}: {told(ended)}')
        others = [name for name in {**files, **ended.files}
                  if files.get(name) != ended.files.get(name)]
        if others:
            wrong.append(f'`{line}` changes {" ".join(others)}: {told(ended)}')
    return told_line('orders that change nothing', count, wrong)


def try_beside(starts, options, pool):
    """Orders beside one another, and in other places."""
    runner, start = starts.runner, starts.start
    files, failures = {**starts.with_books(BOOKS), 'other.abcx': starts.small}, 0
    if options.library:
        cut_one = runner.run(words_of('cut some 1'), files)
        states = [start.with_set('some', SETS['some'][1:]), start, START]
        few = FEW_STOPS if not options.full else KILLS
        failures += try_pairs(
            Beside(runner, cut_one.files, states, PAIRED), pool,
            lambda line: spread(runner.calls_of(Given(words_of(line), cut_one.files)), few))
        goals = {'new': ('new', Contents(2, {}, {})), 'load': ('load good.script', LOADED),
                 'load of others': ('load others.script', OTHERS_LOADED)}
        calls = spread(runner.calls_of(Given(words_of('new'), {})), few)
        scripts = {**GOOD_SCRIPT, 'others.script': script_of(OTHERS_LOADED)}
        wrong = [each for at in calls for each in try_makings(runner, scripts, goals, at)]
        failures += told_line('two that make an archive', len(calls) * len(MAKINGS), wrong)
    failures += told_line('eight at once', 16, try_eight(runner, starts.begun, start))
    with_others = {**files, **GOOD_SCRIPT}
    with_others.pop(OLD)
    first = START.without(37)
    states = {'': first, 'delete': first.without(31),
              'put': first.with_set('short', SETS['short'] + [5, 6])}
    full = Contents(2, dict(enumerate(OTHERS[:5], 1)), {})
    return failures + try_places(runner, with_others, states, (full, made(full)), pool)


def try_all(folder, options):
    runner = Runner(folder)
    if options.library:
        runner.build_library()
    starts = Starts(runner)
    orders = [order for order in orders_in(starts)
              if not options.order or order.name in options.order]
    left_out = [order.name for order in orders if isinstance(order, LeftOut)]
    chosen = [order for order in orders if not isinstance(order, LeftOut)]
    failures, outcomes = 0, Counter()
    with ThreadPoolExecutor(options.jobs) as pool, ThreadPoolExecutor(options.jobs) as side:
        for tried in side.map(lambda order: try_order(runner, order, options, pool), chosen):
            print(tried, flush=True)
            failures += len(tried.wrong)
            outcomes += tried.outcomes
        if not options.order:
            failures += try_unchanged(starts) + try_beside(starts, options, pool)
    if left_out:
        print(f'left out, since the program does not carry them out yet: {", ".join(left_out)}')
    print(f'{sum(outcomes.values())} runs were broken off: '
          + ', '.join(f'{number} {each}' for each, number in outcomes.items())
          + f'; {failures} failed')
    return REFUSED if failures else DONE


def options_of():
    parser = argparse.ArgumentParser(usage=__doc__.split('\n', maxsplit=1)[0][len('Usage: '):])
    parser.add_argument('--full', action='store_true')
    parser.add_argument('--kills', type=int)
    parser.add_argument('--jobs', type=int, default=os.cpu_count())
    parser.add_argument('order', nargs='*')
    options = parser.parse_args()
    options.kills = options.kills or (KILLS if options.full else FEW_KILLS)
    options.library = bool(shutil.which('cc'))
    options.devices = os.environ.get('BROKEN_DEVICES') == 'in'
    return options


def main():
    options = options_of()
    for program in PROGRAM, DESK:
        if not os.path.exists(program):
            print(f'FAILED  there is no program {program}: ./build makes it')
            return REFUSED
    if not options.library:
        left_out = 'cc' in os.environ.get('LEAVE_OUT', '').split()
        print('skipped' if left_out else 'FAILED ', 'calls that fail: there is no C compiler')
        if not left_out:
            return REFUSED
    if 'BROKEN_DEVICES' not in os.environ:
        # In a name space of its own all mounts go away with the program, however it ends.
        for front in ['unshare', '-m'], ['unshare', '-rm'], []:
            if can_mount(front):
                return subprocess.run([*front, sys.executable, *sys.argv], check=False,
                                      env={**os.environ, 'BROKEN_DEVICES': 'in'}).returncode
        print('skipped sizes of a device: no folder can be mounted here')
    begun = time.time()
    # All of it stands in memory, where a sync costs nothing.
    room = '/dev/shm' if os.access('/dev/shm', os.W_OK) else None
    with tempfile.TemporaryDirectory(dir=room) as folder:
        status = try_all(folder, options)
    print(f'it took {time.time() - begun:.0f} seconds', file=sys.stderr)
    return status


if __name__ == '__main__':
    sys.exit(main())
