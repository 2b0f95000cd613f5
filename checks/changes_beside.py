"""Orders of `tunes-desk` beside one another, over files of odd names and links, and in folders that
may not be written: a part of checks/changes.py."""
import os
import re
import shutil
import signal
import sys
import time
from typing import NamedTuple

sys.dont_write_bytecode = True
from broken_orders import goes_back, sum_line, words_of
from broken_runs import (COPY, DONE, FILE, NOT_YET, OLD, REFUSED, Contents, Ended, Lost,
                         begin, call, contents_of, difference, finish, read, read_all, told,
                         write_all)

BUSY = re.compile(rb'another program|is there|there is such a file')
# What one that waited may say: it finds that what it was to make is made.
MADE = re.compile(rb'made by another program meanwhile')
ASIDE = re.compile(r'.*\.[1-9][0-9]*\.old')
NOBODY = 65534


# TWO AT ONCE

class Pair(NamedTuple):
    """Two orders at once: the first is stopped before a call while the second runs."""
    first: str
    second: str


PAIRS = [
    Pair('delete', 'put'), Pair('put', 'delete'), Pair('move', 'drop'), Pair('undo', 'delete'),
    Pair('delete', 'undo'), Pair('undo', 'undo'), Pair('add', 'add of one'),
    Pair('add of one', 'replace'), Pair('replace', 'put'), Pair('export', 'delete'),
    Pair('delete', 'export'), Pair('backup', 'delete'), Pair('delete', 'backup'),
    Pair('backup', 'backup'), Pair('add', 'backup'), Pair('undo of two', 'put'),
    Pair('restore', 'delete'), Pair('delete', 'restore'), Pair('restore', 'restore'),
    Pair('restore', 'backup'),
]
# Orders that make an archive where there is none.
MAKINGS = [Pair('new', 'new'), Pair('load', 'new'), Pair('new', 'load'), Pair('load', 'load'),
           Pair('load', 'load of others'), Pair('load of others', 'load')]


def is_busy(ended):
    return ended.status == REFUSED and BUSY.search(ended.said)


def finds_another(ended):
    """Whether an order that makes an archive is refused since one is there, or is being made."""
    return is_busy(ended) or ended.status == 3 and b'there is such a file' in ended.said


def is_not_yet(ended):
    return ended.status == 2 and NOT_YET in ended.said


def wait_until_stopped(started):
    """Until a program is stopped, or has ended."""
    os.waitid(os.P_PID, started.pid, os.WSTOPPED | os.WEXITED | os.WNOWAIT)


def two_at_once(runner, files, lines, at, wait):
    """Runs the first of these lines up to a call, then the second, which waits where it is told to,
    and the first to its end. Gives both, and the files."""
    folder = runner.new_folder()
    write_all(folder, files)
    stop = {'LD_PRELOAD': runner.library, 'FAIL_KIND': 'system', 'FAIL_AT': str(at),
            'FAIL_HOW': str(-signal.SIGSTOP)}
    first = begin(folder, words_of(lines[0]), stop)
    wait_until_stopped(first)
    second = begin(folder, [*(['--wait', '20'] if wait else []), *words_of(lines[1])])
    try:
        if wait:
            time.sleep(0.05)
        else:
            second_ended = finish(second)
    finally:
        first.send_signal(signal.SIGCONT)
    first_ended = finish(first)
    if wait:
        second_ended = finish(second)
    files = read_all(folder)
    shutil.rmtree(folder)
    return Ended(*first_ended, files), Ended(*second_ended, files)


def exported(contents):
    """The book of all tunes."""
    return b'%abc-2.1\n' + b''.join(b'\nX:%d\n%b' % each for each in sorted(contents.texts.items()))


def after(meaning, states):
    """The states behind an order, the last first."""
    if isinstance(meaning, int):
        return states[min(meaning, len(states) - 1):]
    return states if meaning is None else [meaning(states[0]), *states]


class Beside:
    """Pairs of orders over one archive. Each order is a line and a meaning: what it makes of a
    state, how many changes it takes back, or none where it changes nothing."""

    def __init__(self, runner, files, states, orders):
        self.runner, self.files, self.states, self.orders = runner, files, states, orders

    def judge(self, pair, both, wait):
        """What is wrong with two orders that ran at once, by `Lost`."""
        done = [name for name, ended in zip(pair, both) if ended.status == DONE]
        for name, ended, waits in zip(pair, both, (False, wait)):
            words = MADE if waits else BUSY
            if ended.status not in (DONE, REFUSED) or ended.status and not words.search(ended.said):
                raise Lost(f'`{name}` ends with {ended.status}: {told(ended)}')
        if not done:
            raise Lost('neither is done')
        files = both[0].files
        now = contents_of(files.get(FILE))
        ways = [self.way(names) for names in (done, done[::-1])]
        fitting = [way for way in ways if way[0] == now]
        if not fitting:
            raise Lost(f'{" and ".join(done)} are done, and there are '
                       f'{difference(now, ways[0][0])}')
        self.judge_told(pair, both, [state for way in ways for state in way])
        faults = [self.fault_back(files, now, way) for way in fitting]
        # What was undone in the archive of before a restore is not to be undone behind it.
        if 'restore' not in done and all(faults):
            raise faults[0]
        return 'both done' if len(done) == 2 else 'one refused as busy'

    def way(self, names):
        states = self.states
        for name in names:
            states = after(self.orders[name][1], states)
        return states

    def fault_back(self, files, now, way):
        try:
            goes_back(self.runner, files, now, way)
        except Lost as lost:
            return lost
        return None

    def judge_told(self, pair, both, states):
        """What was printed, and what was copied, was there at some time."""
        books = {exported(state) for state in states}
        for name, ended in zip(pair, both):
            if name == 'export' and ended.status == DONE and ended.printed not in books:
                raise Lost('a book is printed that never was')
        for name, data in both[0].files.items():
            is_copy = re.fullmatch(re.escape(COPY) + r'(\.\d+)?', name)
            if (is_copy or ASIDE.fullmatch(name)) and contents_of(data) not in states:
                raise Lost(f'{name} has what never was')
            if is_copy:
                sum_there = both[0].files.get(f'{name}.sha256')
                if sum_there != sum_line(name, data):
                    raise Lost(f'{name} has no sum, or another')

    def try_pair(self, pair, calls):
        """Stops the first before each of these calls. Counts how they ended."""
        lines = [self.orders[name][0] for name in pair]
        counts, wrong = {}, []
        for number, at in enumerate(calls):
            wait = number % 2 == 1
            try:
                both = two_at_once(self.runner, self.files, lines, at, wait)
                outcome = self.judge(pair, both, wait)
                counts[outcome] = counts.get(outcome, 0) + 1
            except Lost as lost:
                wrong.append(f'`{lines[1]}`{" --wait 20" if wait else ""} while `{lines[0]}` is '
                             f'before call {at}: {lost}')
        return counts, wrong


def try_makings(runner, files, goals, at):
    """Two orders that make an archive, of which the first is stopped before this call: one of them
    makes it, whole, and `undo` takes back what that brought. Gives what is wrong."""
    wrong = []
    for pair in MAKINGS:
        both = two_at_once(runner, files, [goals[name][0] for name in pair], at, False)
        if any(map(is_not_yet, both)):
            continue
        made = [goals[name][1] for name, ended in zip(pair, both) if ended.status == DONE]
        others = [ended for ended in both if ended.status != DONE]
        try:
            now = contents_of(both[0].files.get(FILE))
            fault = '' if made == [now] and all(map(finds_another, others)) else 'another is there'
            if not fault and now.texts:
                goes_back(runner, both[0].files, now, [now, Contents(now.layout, {}, {})])
        except Lost as lost:
            fault = str(lost)
        if fault:
            wrong.append(f'`{pair.second}` while `{pair.first}` is before call {at}: {fault}: '
                         f'{", ".join(map(told, both))}')
    return wrong


def many_at_once(runner, files, lines, wait):
    """Runs all of these lines at once. Gives what came of each, and the files."""
    folder = runner.new_folder()
    write_all(folder, files)
    started = []
    for line in lines:
        started.append(begin(folder, [*(['--wait', '30'] if wait else []), *words_of(line)]))
    ended = [finish(each) for each in started]
    files = read_all(folder)
    shutil.rmtree(folder)
    return [Ended(*each, files) for each in ended]


def try_eight(runner, files, state):
    """Eight set lists are made at once: those that are told as done are there, and no others."""
    wrong = []
    for wait in True, False:
        lines = [f'put list-{number} {number + 1} 7' for number in range(8)]
        ended = many_at_once(runner, files, lines, wait)
        wanted = state
        for number, each in enumerate(ended):
            if each.status == DONE:
                wanted = wanted.with_set(f'list-{number}', [number + 1, 7])
            elif wait or not is_busy(each):
                wrong.append(f'`{lines[number]}` ends with {each.status}: {told(each)}')
        now = contents_of(ended[0].files.get(FILE))
        if now != wanted or wanted == state:
            wrong.append(f'behind eight at once there are {difference(now, wanted)}')
    return wrong


# NAMES

NAMES = ['with a blank', ' between ', 'it\'s "quoted"', 'a\\b', '$HOME', '~', '*?[a]', '-dash',
         '--force', 'two\nlines', 'Tünes ☘ 𝄞', 'n' * 200, 'x' * 230, '#', ';ls', '%s', '.hidden',
         'tab\there']
# No line of a sum has such a name.
UNSUMMED = re.compile(r'[\n\\]')


class Named:
    """An archive of an odd name, with a book and a copy of such names."""

    def __init__(self, runner, name, full, data):
        self.runner, self.name, self.full, self.data = runner, name, full, data
        self.book, self.copy = f'{name}.abc', f'{name}.copy'
        self.folder = runner.new_folder()
        self.own = {name, self.book, self.copy, f'{self.copy}.sha256', f'{name}.old.abc',
                    f'{name}.1.old'}

    def steps(self):
        """The words of each order, and what is there behind it."""
        full = self.full
        return [
            (['new'], Contents(2, {}, {})), (['add', '--', self.book], full),
            (['put', 'friday', '1', '2'], full.with_set('friday', [1, 2])), (['undo'], full),
            (['delete', '3'], full.without(3)), (['undo'], full),
            (['backup', '--', self.copy], full), (['delete', '2'], full.without(2)),
            (['check', '--', self.copy], full.without(2)), (['restore', '--', self.copy], full)]

    def fault(self):
        """What is wrong with one of these orders, or nothing."""
        book = b''.join(b'X:1\n%b\n' % text for text in self.full.texts.values())
        write_all(self.folder, {self.book: book})
        for words, wanted in self.steps():
            ended = Ended(*call(self.folder, words, {'TUNES_BOOK': self.name}),
                          read_all(self.folder))
            is_refused = words[0] == 'backup' and ended.status == 2 and UNSUMMED.search(self.copy)
            if is_not_yet(ended) or is_refused:
                self.put(words[0])
                continue
            fault = self.fault_of(wanted, ended)
            if fault:
                return f'`{" ".join(words)}` on {self.name!r}: {fault}: {told(ended)}'
        shutil.rmtree(self.folder)
        return ''

    def put(self, word):
        """Does by hand what is not carried out."""
        if word in ('add', 'backup'):
            write_all(self.folder, {self.name if word == 'add' else self.copy: self.data})

    def fault_of(self, wanted, ended):
        try:
            now = contents_of(ended.files.get(self.name))
        except Lost as lost:
            return str(lost)
        if ended.status != DONE or now != wanted:
            return f'its status is {ended.status}, and there are {difference(now, wanted)}'
        others = set(ended.files) - self.own
        return f'it leaves {sorted(others)}' if others else ''


# LINKS

class Scene(NamedTuple):
    """A line over files and links. The archive becomes what the order of that name makes of it, or
    stays; each link stays one, and each other file stays."""
    line: str
    statuses: list
    links: dict = {}
    hard: dict = {}
    order: str = ''
    file: str = FILE


EITHER, NOT = [DONE, REFUSED, 2], [REFUSED, 2]
BY_LINK, BY_HARD = {'link.abcx': FILE}, {'hard.abcx': FILE}
SCENES = [
    Scene('backup link.abcx', NOT, BY_LINK), Scene('backup hard.abcx', NOT, hard=BY_HARD),
    Scene('backup ./tunes.abcx', NOT), Scene('restore ./tunes.abcx', EITHER),
    Scene('restore link.abcx', EITHER, BY_LINK), Scene('restore hard.abcx', EITHER, hard=BY_HARD),
    Scene('restore --force tunes.abcx', EITHER), Scene('restore tunes.abcx', EITHER, BY_LINK,
                                                       file='link.abcx'),
    Scene('delete 31', [DONE], BY_LINK, order='delete', file='link.abcx'),
    Scene('delete 31', [DONE], hard=BY_HARD, order='delete', file='hard.abcx'),
    Scene('put short 5 6', [DONE], {'a': 'b', 'b': FILE}, order='put', file='a'),
    Scene('delete 31', [DONE], {FILE: 'far/real.abcx'}, order='delete'),
    Scene('backup copy.abcx', EITHER, {COPY: FILE}),
    Scene('backup copy.abcx', EITHER, {f'{COPY}.sha256': FILE}),
    Scene('backup copy.abcx', EITHER, {f'{COPY}.new': FILE}),
    Scene('backup copy.abcx', EITHER, {COPY: 'nowhere'}),
    Scene('backup copy.abcx', EITHER, hard={f'{COPY}.1': FILE}),
    Scene('backup --keep 1 copy.abcx', EITHER, hard={f'{COPY}.1': FILE}),
    Scene('backup --keep 1 copy.abcx', EITHER, {f'{COPY}.1': FILE}),
    Scene('delete 31', NOT, {OLD: FILE}), Scene('delete 31', NOT, hard={OLD: FILE}),
    Scene('delete 31', NOT, {OLD: 'other.abcx'}), Scene('delete 31', NOT, {OLD: '/dev/full'}),
    Scene('delete 31', NOT, {OLD: 'far'}), Scene('undo', NOT, {OLD: FILE}),
    Scene('add link.abc', NOT, {'link.abc': FILE}), Scene('replace 7 link.abc', NOT,
                                                          {'link.abc': FILE}),
    Scene('restore other.abcx', NOT, {f'{FILE}.new': 'other.abcx'}),
    Scene('new', [REFUSED, 2, 3], {'link.abcx': 'other.abcx'}, file='link.abcx'),
    Scene('load good.script', NOT, {'new.abcx': FILE}, file='new.abcx'),
    Scene('load link.abcx', NOT, BY_LINK, file='new.abcx'),
]
# What an order may leave beside the others; a link stays, and where it leads is written.
BESIDE = re.compile(r'.*\.old\.abc|.*\.[1-9][0-9]*\.old|copy\.abcx(\.[1-9][0-9]*)?(\.sha256)?'
                    r'|nowhere')


def entries_of(folder):
    """What stands in a folder: the bytes of files, and where links lead."""
    entries = {}
    for above, names, others in os.walk(folder):
        for name in names + others:
            path = os.path.join(above, name)
            if os.path.islink(path):
                entries[os.path.relpath(path, folder)] = os.readlink(path)
            elif name in others:
                entries[os.path.relpath(path, folder)] = read(path)
    return entries


def fault_of_scene(runner, scene, files, states):
    """What is wrong with a scene, or nothing; none where it is not carried out yet. `states` has
    what the archive is to be by the name of an order, and without one."""
    folder = runner.new_folder()
    real = scene.links.get(FILE, FILE)
    write_all(folder, {'far/notes': b'notes\n', **{real if name == FILE else name: data
                                                   for name, data in files.items()}})
    for name, target in scene.links.items():
        os.symlink(target, os.path.join(folder, name))
    for name, target in scene.hard.items():
        os.link(os.path.join(folder, target), os.path.join(folder, name))
    were = entries_of(folder)
    ended = Ended(*call(folder, ['-f', scene.file, *scene.line.split()]), entries_of(folder))
    shutil.rmtree(folder)
    if is_not_yet(ended):
        return None
    wanted = states[scene.order if ended.status == DONE else '']
    fault = fault_of_entries(were, ended.files, {real, *scene.hard}, wanted)
    if ended.status not in scene.statuses:
        fault = f'its status is {ended.status}; {fault}'
    where = {**scene.links, **scene.hard}
    return fault and f'`-f {scene.file} {scene.line}` with {where}: {fault}: {told(ended)}'


def fault_of_entries(were, are, archives, wanted):
    for name in archives:
        try:
            now = contents_of(are.get(name))
        except Lost as lost:
            return f'{name}: {lost}'
        if now != wanted:
            return f'{name}: {difference(now, wanted)}'
    for name in {**were, **are}:
        if name not in were and not BESIDE.fullmatch(name):
            return f'it leaves {name}'
        if name in were and name not in archives and are.get(name) != were[name]:
            return f'{name} is not as it was'
    return ''


# FILES AND FOLDERS THAT MAY NOT BE WRITTEN

class Closed(NamedTuple):
    """A line in a folder that may not be written, or over files that may not be: nothing changes,
    but where it is done."""
    line: str
    statuses: list
    folder: int = 0o755
    files: int = 0o666
    is_empty: bool = False


CLOSED = [
    Closed('delete 31', NOT), Closed('put short 5', NOT), Closed('add three.abc', NOT),
    Closed('replace 7 mine.abc', NOT), Closed('undo', NOT), Closed('backup copy.abcx', NOT),
    Closed('restore other.abcx', NOT), Closed('new', NOT, is_empty=True),
    Closed('load good.script', NOT, is_empty=True), Closed('export -', [DONE]),
    Closed('export -', [DONE], files=0o444), Closed('check', [DONE], files=0o444),
    Closed('delete 31', NOT, folder=0o777, files=0o444), Closed('upgrade', EITHER, files=0o444),
    Closed('restore other.abcx', EITHER, folder=0o777, files=0o444),
    Closed('backup copy.abcx', [DONE], folder=0o777, files=0o444),
]


def fault_of_closed(runner, closed, files):
    """What is wrong with it, or nothing; none where it is not carried out yet. It is run as a user
    that is not root."""
    folder = runner.new_folder()
    write_all(folder, {name: data for name, data in files.items()
                       if not closed.is_empty or name != FILE})
    for name in files if not closed.is_empty else ():
        os.chmod(os.path.join(folder, name), closed.files)
    os.chmod(folder, closed.folder if os.geteuid() == 0 else closed.folder & ~0o200)
    user = {'user': NOBODY, 'group': NOBODY, 'extra_groups': []} if os.geteuid() == 0 else {}
    were = entries_of(folder)
    ended = Ended(*call(folder, words_of(closed.line), **user), {})
    are = entries_of(folder)
    os.chmod(folder, 0o755)
    shutil.rmtree(folder)
    if is_not_yet(ended):
        return None
    line = f'`{closed.line}` with modes {closed.folder:o} and {closed.files:o}'
    if ended.status not in closed.statuses:
        return f'{line} ends with {ended.status}: {told(ended)}'
    lost = [name for name in were if are.get(name) != were[name]
            and (ended.status != DONE or name != FILE)]
    new = [name for name in are if name not in were and ended.status != DONE]
    return f'{line} changes {" ".join(lost + new)}: {told(ended)}' if lost + new else ''


def may_run_as_nobody(folder):
    """Whether a user that is not root can run the program there."""
    if os.geteuid() != 0:
        return True
    try:
        return call(folder, ['--help'], user=NOBODY, group=NOBODY, extra_groups=[])[0] == DONE
    except OSError:
        return False


# ALL OF IT

def told_line(what, count, wrong):
    print(f'{"FAILED" if wrong else "ok":7} {what}: {count}', *wrong, sep='\n        ', flush=True)
    return len(wrong)


def told_faults(what, faults):
    """A line for runs of which each has its fault, or nothing; none was not tried."""
    tried = [fault for fault in faults if fault is not None]
    return told_line(what, len(tried), [fault for fault in tried if fault])


def try_pairs(beside, pool, calls_of):
    """All pairs of orders that are carried out; `calls_of` gives the calls before which the first
    is stopped."""
    left_out = {name for name, (line, _) in beside.orders.items()
                if is_not_yet(beside.runner.run(words_of(line), beside.files))}
    pairs = [pair for pair in PAIRS if not left_out & set(pair)]
    tried = pool.map(lambda pair: beside.try_pair(pair, calls_of(beside.orders[pair[0]][0])), pairs)
    failures = 0
    for pair, (counts, wrong) in zip(pairs, tried):
        ways = ', '.join(f'{number} {each}' for each, number in counts.items())
        failures += told_line(f'{pair.first}, and beside it {pair.second}', ways, wrong)
    return failures


def try_places(runner, files, states, named, pool):
    """Odd names, links, and what may not be written."""
    faults = pool.map(lambda name: Named(runner, name, *named).fault(), NAMES)
    failures = told_faults('odd names', faults)
    faults = pool.map(lambda scene: fault_of_scene(runner, scene, files, states), SCENES)
    failures += told_faults('links', faults)
    os.chmod(runner.folder, 0o755)
    if not may_run_as_nobody(runner.folder):
        print('skipped files and folders that may not be written: nobody can run the program')
        return failures
    faults = (fault_of_closed(runner, closed, files) for closed in CLOSED)
    return failures + told_faults('files and folders that may not be written', faults)
