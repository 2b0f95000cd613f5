"""Orders of `tunes-desk` that are broken off, and what may come of each: a part of
checks/changes.py."""
import errno
import hashlib
import re
import sys

sys.dont_write_bytecode = True
from broken_runs import (COPY, DONE, FILE, OLD, REFUSED, Contents, Given, Lost, contents_of,
                         difference, digest, told)
from fail_once import ONE_BYTE

# A call that fails may say that a file is not there, or is no archive.
STATUSES = None, DONE, REFUSED, 2, 3
NOTHING_LEFT = re.compile(rb'nothing is (left )?to be undone')
# A copy, or a sum beside one, by its name.
OF_COPY = re.compile(re.escape(COPY) + r'(?:\.([1-9][0-9]*))?(\.sha256)?')
MAGIC = b'ABCTUNE1'


def words_of(line):
    return ['-f', FILE, *line.split()]


class Order:
    """An order, the files from which it starts, and the states of the archive: what it starts from,
    and what it leads to."""
    keeps_first = False

    def __init__(self, name, line, files, start, goal, **more):
        self.name, self.files, self.start, self.goal = name, files, start, goal
        self.words, self.text = words_of(line), more.get('text', b'')
        # What the order ends with where it is not broken off.
        self.status = more.get('status', DONE)
        self.wanted, self.verdicts = None, {}

    def line(self):
        return ' '.join(['tunes-desk', *self.words])

    def given(self):
        return Given(self.words, self.files, self.text)

    def judge(self, runner, ended, broken):
        """What a run came to: a word that is counted. `Lost` where something is lost or wrong."""
        statuses = STATUSES if broken.at else (None, DONE, REFUSED)
        if ended.status not in statuses:
            raise Lost(f'its status is {ended.status}: {told(ended)}')
        if broken.room is not None and ended.status != DONE:
            self.fails_well(ended)
        is_short = broken.at and broken.how == ONE_BYTE
        if is_short and (ended.status, ended.printed) != (self.status, self.wanted.printed):
            raise Lost(f'one byte alone was seen: {told(ended)}')
        key = ended.status == DONE, digest(ended.files)
        if key not in self.verdicts:
            self.verdicts[key] = self.outcome(runner, ended)
        return self.verdicts[key]

    def fails_well(self, ended):
        if not ended.said.startswith(b'tunes-book: '):
            raise Lost('it fails without a word')
        left = [name for name in ended.files if name.endswith('.new') and name not in self.files]
        if left:
            raise Lost(f'it ends by itself, and leaves {left[0]}')

    def outcome(self, runner, ended):
        raise NotImplementedError

    def spares(self, files, *own):
        """Other files are as they were, and none is new but what a broken run left as *.new."""
        for name in {**self.files, **files}:
            left = name.endswith('.new') and name not in self.files
            if name not in own and not left and self.files.get(name) != files.get(name):
                raise Lost(f'the file {name} is not as it was')

    def without_rests(self, files):
        """Without what a broken run left as *.new."""
        return {name: data for name, data in files.items()
                if name in self.files or not name.endswith('.new')}


class Change(Order):
    """An order that `undo` takes back, or `undo` itself. The states of `way` follow one another
    where `undo` is called again and again."""
    # Whether the archive is changed only behind an entry in the book of old texts.
    keeps_first = True

    def __init__(self, name, line, files, way, **more):
        super().__init__(name, line, files, more.pop('start', way[1]), more.pop('goal', way[0]),
                         **more)
        self.way = way

    def outcome(self, runner, ended):
        self.spares(ended.files, FILE, OLD)
        if not ended.files.get(OLD, b'').startswith(self.files.get(OLD, b'')):
            raise Lost(f'what stood in {OLD} is another')
        now = contents_of(ended.files.get(FILE))
        if ended.status == DONE and (self.status != DONE or now != self.goal):
            raise Lost(f'it ended as done, and there are {difference(now, self.goal)}')
        keeps_texts(self.start, now, ended.files)
        way = self.way_from(now)
        files = opened(runner, ended.files, now)
        files = goes_back(runner, files, now, way)
        goes_on(runner, files, way[-1])
        if now == self.goal:
            return 'after'
        return 'before' if now == self.start else 'finished by undo'

    def way_from(self, now):
        return self.way


class Undoing(Change):
    """An `undo`: what it needs is kept already."""
    keeps_first = False


class Upgrading(Change):
    """The archive comes to a layout, which `undo` does not take back: only what was changed before
    goes back."""
    keeps_first = False

    def way_from(self, now):
        if now not in (self.start, self.goal):
            raise Lost(f'there are {difference(now, self.goal)}')
        return [now, self.way[-1]._replace(layout=now.layout)]


def goes_back(runner, files, now, way):
    """Goes the way of `undo` to its end, and gives the files that are there. A mark that is
    missing may take a step more."""
    spare = 1
    while True:
        ended = runner.run(words_of('undo'), files)
        after = contents_of(ended.files.get(FILE))
        keeps_texts(now, after, ended.files)
        if ended.status != DONE:
            if not NOTHING_LEFT.search(ended.said) or now != way[-1] or after != now:
                raise Lost(f'`undo` is refused, where there are '
                           f'{difference(now, way[-1])}: {told(ended)}')
            return ended.files
        steps = steps_of(way, now, after)
        spare -= steps == 0
        if steps not in (0, 1) or spare < 0:
            raise Lost(f'`undo` goes {steps} steps: {told(ended)}')
        files, now = ended.files, after


def steps_of(way, now, after):
    """How many steps of the way lie between two states; the first may be between two."""
    if after not in way:
        raise Lost(f'`undo` leaves what never was: {difference(after, way[1])}')
    if now in way:
        return way.index(after) - way.index(now)
    return min(1, way.index(after))


def goes_on(runner, files, last):
    """A change, and what undoes it, go through behind all this."""
    numbers = list(last.texts)[-2:]
    for line in f'delete {numbers[0]} {numbers[1]}', 'undo':
        ended = runner.run(words_of(line), files)
        if ended.status != DONE:
            raise Lost(f'`{line}` behind it is refused: {told(ended)}')
        files = ended.files
    now = contents_of(files.get(FILE))
    if now != last:
        raise Lost(f'a change and `undo` behind it leave {difference(now, last)}')
    return files


def keeps_texts(was, now, files):
    """A text that goes out of the archive stands whole in the book of old texts."""
    there, old = set(now.texts.values()), files.get(OLD, b'')
    for number, text in was.texts.items():
        if text not in there and b'X:%d\n%b\n' % (number, text) not in old:
            raise Lost(f'the text of tune {number} is lost')


def opened(runner, files, now, name=FILE):
    """The files behind an opening, which changes nothing that the archive holds."""
    ended = runner.run(['-f', name, 'check'], files)
    if ended.status != DONE:
        raise Lost(f'it does not open: {told(ended)}')
    after = contents_of(ended.files.get(name))
    if after != now:
        raise Lost(f'behind an opening there are {difference(after, now)}')
    return ended.files


class Making(Order):
    """An order that makes an archive where nothing stands. One that is made empty has no tune to
    lose, and may be left as no archive."""
    own = FILE,

    def outcome(self, runner, ended):
        self.spares(ended.files, *self.own)
        try:
            now = contents_of(ended.files.get(FILE))
        except Lost:
            if ended.status == DONE or self.goal.texts and FILE in ended.files:
                raise
            self.makes_again(runner, ended.files)
            return 'before'
        if now != self.goal:
            raise Lost(f'there are {difference(now, self.goal)}')
        files = opened(runner, ended.files, now)
        if now.texts:
            self.goes_back(runner, goes_on(runner, files, now))
        return 'after'

    def makes_again(self, runner, files):
        """Without what is left of it, it goes through."""
        rest = {name: data for name, data in files.items() if name in self.files or name == OLD}
        ended = runner.run(self.words, rest, given=self.text)
        if ended.status != DONE or contents_of(ended.files.get(FILE)) != self.goal:
            raise Lost(f'it is refused where there is room again: {told(ended)}')
        self.goes_back(runner, ended.files)

    def goes_back(self, runner, files):
        """It is made whole, so there is nothing to be undone in it."""
        ended = runner.run(words_of('undo'), files)
        if ended.status == DONE or contents_of(ended.files.get(FILE)) != self.goal:
            raise Lost(f'`undo` takes something back: {told(ended)}')


class Loading(Making):
    """An archive of a script. An entry of all that it holds is kept before the archive gets its
    name, and `undo` takes it back: then nothing is in the archive."""
    own = FILE, OLD

    def goes_back(self, runner, files):
        empty = Contents(self.goal.layout, {}, {})
        goes_back(runner, files, self.goal, [self.goal, empty])


class Restoring(Order):
    """The copy in the place of the archive, which keeps a name."""

    def outcome(self, runner, ended):
        if ended.files.get(COPY) != self.files[COPY]:
            raise Lost('the copy is not as it was')
        now = contents_of(ended.files.get(FILE))
        if now not in (self.start, self.goal) or ended.status == DONE and now != self.goal:
            raise Lost(f'there are {difference(now, self.goal)}')
        kept = [name for name, data in ended.files.items()
                if data == self.files[FILE] and not name.endswith('.new')]
        if not kept:
            raise Lost('the archive that was there is lost')
        self.spares(ended.files, FILE, *kept)
        opened(runner, ended.files, now)
        return 'after' if now == self.goal else 'before'


# COPIES

def sum_line(name, data):
    """What `sha256sum -c` reads of a file."""
    return f'{hashlib.sha256(data).hexdigest()}  {name}\n'.encode()


def copies_in(files):
    """The names of COPY and COPY.N that are archives, by their numbers."""
    matches = [(OF_COPY.fullmatch(name), data) for name, data in files.items()]
    return {int(match[1] or 0): match[0] for match, data in matches
            if match and not match[2] and data.startswith(MAGIC)}


class Backing(Order):
    """A copy of the archive, which stays as it is. The copy has a name that none had, COPY or the
    next number behind it, and then its sum stands beside it. Where it is told how many copies are
    to stay, old ones go behind that: those for which there are so many newer ones."""

    def __init__(self, name, line, files, start, **more):
        self.keep = more.pop('keep', None)
        self.may_have_more = set()
        super().__init__(name, line, files, start, start, **more)

    def judge(self, runner, ended, broken):
        # That old ones are gone is not kept on the device: they may be there again. And one that
        # is not there, as a call says, is not taken away.
        if broken.power or broken.at and broken.how == errno.ENOENT:
            self.may_have_more.add(digest(ended.files))
        return super().judge(runner, ended, broken)

    def outcome(self, runner, ended):
        family = {name for name in {**self.files, **ended.files} if OF_COPY.fullmatch(name)}
        self.spares(ended.files, *family)
        is_made, is_summed = self.is_made(ended.files)
        gone = {name for name in family if name not in ended.files}
        self.may_go(ended.files, gone, is_summed)
        is_thin = (not self.keep or len(copies_in(ended.files)) <= self.keep
                   or digest(ended.files) in self.may_have_more)
        is_whole = is_made and is_summed and is_thin
        if ended.status == DONE and not is_whole:
            raise Lost('it ended as done, and a copy, its sum or an old one is not as it should be')
        self.goes_on(runner, self.without_rests(ended.files))
        if is_whole:
            return 'after'
        return 'in part' if is_made else 'before'

    def is_made(self, files):
        """Whether the copy is there, and its sum."""
        new = {number: name for number, name in copies_in(files).items() if name not in self.files}
        others = [name for name in files if OF_COPY.fullmatch(name) and name not in self.files]
        for number, name in new.items():
            if number < max(copies_in(self.files), default=-1):
                raise Lost(f'{name} is older by its number')
            if contents_of(files[name]) != self.start:
                raise Lost(f'{name} is not the archive')
        wanted = {f'{name}.sha256': sum_line(name, files[name]) for name in new.values()}
        for name in set(others) - set(new.values()):
            if files[name] != wanted.get(name):
                raise Lost(f'{name} is not whole')
        if len(new) > 1:
            raise Lost('there are two copies of one run')
        return bool(new), bool(new) and set(wanted) <= set(files)

    def may_go(self, files, gone, is_summed):
        """What may have gone, and what is there is as it was."""
        numbers = copies_in({**self.files, **files})
        allowed = sorted(numbers)[:-self.keep] if self.keep and is_summed else []
        names = {numbers[number] for number in allowed}
        for name in gone:
            if name not in names and name.removesuffix('.sha256') not in names:
                raise Lost(f'{name} is gone')
        for name, data in self.files.items():
            if name not in gone and files[name] != data:
                raise Lost(f'{name} is not as it was')

    def goes_on(self, runner, files):
        """Each copy is good, and one more is made."""
        for name in copies_in(files).values():
            ended = runner.run(words_of(f'check {name}'), files)
            if ended.status != DONE or ended.files != files:
                raise Lost(f'`check {name}` behind it: {told(ended)}')
        ended = runner.run(self.words, files)
        copies = copies_in(ended.files)
        newest = copies[max(copies)] if copies else ''
        is_made = newest and newest not in files and contents_of(ended.files[newest]) == self.start
        if ended.status != DONE or not is_made:
            raise Lost(f'a second one behind it: {told(ended)}')
        if self.keep and len(copies) > self.keep:
            raise Lost(f'behind a second one there are {len(copies)} copies')


class Asking(Order):
    """An order that changes no file."""

    def outcome(self, runner, ended):
        self.spares(ended.files)
        if self.without_rests(ended.files) != ended.files:
            raise Lost('it leaves a file')
        return 'after' if ended.status == DONE else 'before'
