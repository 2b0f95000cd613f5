#!/usr/bin/env python3
"""Usage: checks/refuse_memory.py

Has each call that takes memory be refused once under the program `test_memory`, one run for each,
until a run meets no refusal. The program carries commands out over an archive in memory, over one
that it makes in a file, on a disk in memory, or over that of a file of either layout, and tells
what came of it; its head, crates/test_memory/src/main.rt, says how. The scripts are: every command,
on both sides of `upgrade`; tunes by which leaves become two, as those of an index by twelve notes
do in an upgrade; and, for openings, one that a stop came into, in a commit or in an upgrade.

A run is judged by what an archive in memory answers that is refused nothing:

- a piece that is answered 21 changed nothing, and is read to its end: the others are answered as an
  archive is that is handed these alone;
- where a growth is refused within the disk in memory, which is a fault of the device, or a stop
  comes, a piece is answered 22, and each one behind it 23, but where its text finds no memory;
- the file then opens as before the piece that was answered 22 or after it, and else with the state
  of all that were not answered 21, in layout 1 where an upgrade was not carried out;
- an opening that is refused memory hands the disk back, and it opens as it would have;
- of an archive that could not be made for want of memory no byte stands there; and where the disk
  failed, an empty archive or none.

This fails where something came out otherwise, or a run ends by a signal; where no run was reached
that meets no refusal; where more refusals among the commands, or in an opening, were answered by
nobody than is known (BY_NOBODY); where a command that may take memory was never refused it, or one
that may not was; and where no text was refused memory, read and dropped.

The program is the one that `rt ci` built, or that the variable TEST_MEMORY names. The library by
which calls fail is checks/fail_once.c; where there is no C compiler this fails, unless the variable
LEAVE_OUT has the word `cc`. A line is printed for each case, and the status is 1 where one failed.
"""
import io
import os
import re
import shutil
import subprocess
import sys
import tempfile
from concurrent.futures import ThreadPoolExecutor

sys.dont_write_bytecode = True
from archives import Archive, Tune
from fail_once import FULL_LEAF, LIBRARY, ROOT, TWO_MORE
from layouts import kept, with_version

CRATE = os.path.join(ROOT, 'crates', 'test_memory')
BUILT = os.path.join(CRATE, 'out', 'test_memory')
PROGRAM = os.path.abspath(os.environ.get('TEST_MEMORY') or BUILT)
# Statuses of the program: all was told; memory was refused for what it does itself.
ALL_TOLD, NOT_TOLD = 0, 1
MARK, BETWEEN = b'--\n', b'==\n'
# The answers to a piece: its reply, how its run ends, and how many bytes of it are left.
MEMORY = (b'refused 21 OutOfMemory\nrefused 30 BadLine\n', 'Ended', '0')
DEVICE = (b'refused 22 Device\n', 'DeviceFault', '3')
CLOSED = (b'refused 23 Closed\n', 'DeviceFault', '3')
UPGRADE = b'upgrade\n'
# These take no memory in an archive in memory, and are never refused it there; but the name of a
# set list is a text, which is read before.
WITHOUT_MEMORY = {b'delete', b'renumber', b'upgrade'}
NAME_ALONE = {b'set-cut', b'set-drop'}
# In these scripts no set list is there any more when they are asked for.
NO_ROWS = b'sets\n'
# It is refused before a tune is read, so its text alone takes memory.
NO_TUNE = b'import 8\nno tune\n'
# Room for a whole book is asked for once.
EXPORT = b'export\n'
MOST_CALLS = 100
# How many refusals are answered by nobody at most, among the commands and in the opening behind
# them, by the case and the first of its words. An archive over a disk keeps fewer pages then, reads
# a chain anew, or sorts entries in the memory that they have. They may only get fewer.
BY_NOBODY = {
    ('every command', 'list'): (0, 0),
    ('every command', 'make'): (36, 10),
    ('every command', 'open'): (40, 10),
    ('leaves that split', 'list'): (0, 0),
    ('leaves that split', 'make'): (393, 351),
    ('leaves that split', 'open'): (379, 348),
    ('stopped in a commit', 'open'): (16, 10),
    ('stopped in an upgrade', 'open'): (16, 16),
}
NO_STOP = ('1000000', 'kept')


def importing(book):
    return b'import %d\n%b' % (len(book), book)


# A leaf of the numbers is full behind FULL_LEAF, and two of the incipits by twelve notes are not.
# All these tunes begin with the notes D F A d f a of the key of D, in the same steps.
NOTES = b'find notes D^FAd^fa\n'
ONE_MORE = b'X:1\nT:Tune 9\nR:reel\nK:D\nDFA dfa|\n'
LEAVES = [importing(FULL_LEAF), importing(TWO_MORE), b'find title tune 7\n', b'delete 57\n',
          UPGRADE, NOTES, importing(ONE_MORE), b'delete 58\n', b'find rhythm jig\n', b'export\n']
OLD_LEAVES = [UPGRADE, NOTES, importing(ONE_MORE), b'delete 58\n', UPGRADE, b'export\n']
OLD_TUNES = {number: Tune(b'T:Tune %d\nR:reel\nK:D\nDFA dfa|\n' % number, (b'tune %d' % number,),
                          b'reel', b'D 0', (4, 3, 5, 4, 3)) for number in range(1, 114)}
STOPPED = [importing(b'X:1\nT:A\nR:jig\nK:G\n'), b'set-new friday\n', b'set-add friday 1\n']
# What the file of two tunes has that is kept.
TWO_TUNES = [importing(b'X:1\nK:C\nCDEFGABcdefg\nX:2\nK:C\nCDEFGABcBAGF\n'), b'set-new friday\n',
             b'set-add friday 2\n', b'set-add friday 1\n']


class Otherwise(Exception):
    """Something came out otherwise than it has to."""


class Run:
    """One run of the program: its status, what it told, and what the library says."""

    def __init__(self, folder, words, script, at=0):
        count = os.path.join(folder, f'count-{at}')
        environment = {'LD_PRELOAD': os.path.join(folder, 'fail_once.so'), 'FAIL_KIND': 'memory',
                       'FAIL_AT': str(at), 'FAIL_COUNT': count}
        ended = subprocess.run([PROGRAM, *words], input=script, env=environment, check=False,
                               cwd=folder, stdout=subprocess.PIPE, stderr=subprocess.PIPE,
                               timeout=60)
        self.status = ended.returncode
        with open(count, encoding='ascii') as file:
            self.calls, failed = (int(word) for word in file.read().split())
        self.failed = failed == 1
        os.remove(count)
        # The answers to all pieces; why nothing was made or opened first, and why not behind the
        # pieces in front, with how long the file is; and the layout.
        self.answers, self.unmade, self.unopened, self.layout = [], None, [], None
        parts = re.split(rb'(?m)^== (.*)\n', ended.stdout)
        for reply, mark in zip(parts[::2], parts[1::2]):
            self.read(reply, mark.decode().split())

    def read(self, reply, words):
        if words[0] == 'layout':
            self.layout = int(words[1])
        elif words[0] != 'refused':
            self.answers.append((reply, *words))
        elif len(words) == 2:
            self.unmade = words[1]
        else:
            self.unopened.append((words[1], int(words[2])))


class Case:
    """Pieces that are carried out over an archive, and what an archive in memory has before."""

    def __init__(self, folder, name, words, pieces, before=()):
        self.folder, self.name, self.words, self.pieces = folder, name, words, pieces
        self.before, self.models = list(before), {}
        self.whole = self.run()

    def run(self, at=0):
        return Run(self.folder, self.words, script_of(self.pieces), at)

    def model(self, pieces):
        """What an archive in memory answers to these pieces, and what is in it then."""
        key = tuple(pieces)
        if key not in self.models:
            all_pieces = self.before + pieces
            run = Run(self.folder, ['list'], script_of(all_pieces))
            front = len(all_pieces)
            layout = None if self.words[0] == 'list' else 2 if UPGRADE in all_pieces else 1
            self.models[key] = (run.answers[len(self.before):front],
                                (layout, run.answers[front:]))
        return self.models[key]

    def refusals(self, run):
        """The refusals of a run, in turn, each by its number and where it came."""
        if run.unmade is not None:
            return self.refusals_unmade(run)
        front = len(self.pieces)
        refusals, done, stopped = [], [], None
        for number, (piece, answer) in enumerate(zip(self.pieces, run.answers), 1):
            if answer == MEMORY:
                refusals.append((21, number))
            elif stopped:
                self.see(answer == CLOSED, f'piece {number} is answered {answer}')
            elif answer == DEVICE:
                refusals, stopped = refusals + [(22, number)], piece
            else:
                done.append((piece, answer))
        carried_out = [piece for piece, _ in done]
        answers, state = self.model(carried_out)
        self.see([answer for _, answer in done] == answers, 'replies are others')
        states = [state] + ([self.model(carried_out + [stopped])[1]] if stopped else [])
        # Where memory is refused behind the pieces in front, they leave what they leave without. A
        # stop and a refusal within the disk are both answered 22, and may leave other states.
        behind = run.unopened or MEMORY in run.answers[front:]
        if behind or not stopped and run.answers[:front] == self.whole.answers[:front]:
            self.see(run.answers[:front] == self.whole.answers[:front], 'it was refused twice')
            states = [(self.whole.layout, self.whole.answers[front:])]
        return refusals + self.refusals_behind(run, run.answers[front:], states)

    def refusals_unmade(self, run):
        number = {'OutOfMemory': 21, 'Device': 22}.get(run.unmade)
        self.see(number is not None, f'at first it is answered {run.unmade}')
        state = self.model([])[1]
        if self.words[0] != 'make':
            return [(number, 'first')] + self.refusals_behind(run, run.answers, [state])
        whys = {why for why, _ in run.unopened}
        if number == 21:
            self.see(run.unopened == [('NotArchive', 0)] * 2, f'it left {run.unopened}')
        elif len(run.unopened) == 2:
            self.see(whys <= {'NotArchive', 'Damaged'}, f'it left {run.unopened}')
        else:
            return [(number, 'first')] + self.refusals_behind(run, run.answers, [state])
        return [(number, 'first')]

    def refusals_behind(self, run, answers, states):
        """The refusals of an opening, and of those that ask then, who find one of these states."""
        whys = [why for why, _ in run.unopened]
        self.see(whys in ([], ['OutOfMemory'], ['Device']), f'the opening is refused {whys}')
        refused = {place for place, answer in enumerate(answers) if answer == MEMORY}
        state = run.layout, without(answers, refused)
        self.see(state in [(layout, without(wanted, refused)) for layout, wanted in states],
                 'it opens otherwise')
        return ([(21 if why == 'OutOfMemory' else 22, 'behind') for why in whys]
                + [(21, 'asked') for _ in refused])

    def see(self, holds, wrong):
        if not holds:
            raise Otherwise(wrong)


def script_of(pieces):
    return b''.join(piece + MARK for piece in pieces) + BETWEEN + QUESTIONS


def without(answers, places):
    return [answer for place, answer in enumerate(answers) if place not in places]


def read_input():
    """The pieces of every command, and those that ask."""
    with open(os.path.join(CRATE, 'stdin'), 'rb') as file:
        every, questions = file.read().split(BETWEEN)
    every = every.split(MARK)[:-1]
    return every[:1] + [NO_TUNE] + every[1:], questions


EVERY, QUESTIONS = read_input()


def sweep(case):
    """What each refusal of memory was answered, or nothing, or that it was not told; and what was
    wrong."""
    wrong = []
    try:
        at_rest = case.refusals(case.whole) if case.whole.status == ALL_TOLD else None
    except Otherwise as otherwise:
        return [], [f'with no refusal: {otherwise}']
    if at_rest is None:
        return [], [f'with no refusal: status {case.whole.status}']
    with ThreadPoolExecutor(os.cpu_count()) as threads:
        runs = list(threads.map(case.run, range(1, case.whole.calls + 2)))
    past = runs.pop()
    if past.failed or past.answers != case.whole.answers:
        wrong.append('no run was reached that meets no refusal')
    answers = []
    for at, run in enumerate(runs, 1):
        try:
            case.see(run.failed and run.status in (ALL_TOLD, NOT_TOLD), f'status {run.status}')
            refusals = case.refusals(run) if run.status == ALL_TOLD else ['not told']
            answers += ([refusal for refusal in refusals if refusal not in at_rest] or [None])[:1]
        except Otherwise as otherwise:
            wrong.append(f'at call {at}: {otherwise}')
    return answers, wrong


def judge(case, answers):
    """What is wrong with all runs together."""
    store = case.words[0]
    parts = ('first', *range(1, len(case.pieces) + 1)), ('behind', 'asked')
    for part, known in zip(parts, BY_NOBODY[case.name, store]):
        told = [at for at, answer in enumerate(answers) if answer and answer[1] in part]
        if not told:
            yield 'nothing was refused'
            return
        among = answers[told[0]:told[-1] + 1]
        if 'not told' in among:
            yield 'a refusal among the commands, or in an opening, was not judged'
        by_nobody = among.count(None)
        if by_nobody > known:
            yield f'{by_nobody} refusals were answered by nobody, and {known} is known'
    layout = 2 if UPGRADE in case.before or store == 'make' else 1
    for number, piece in enumerate(case.pieces, 1):
        refused = answers.count((21, number))
        least, most = takings(store, layout, piece)
        if case.whole.answers[number - 1] in (DEVICE, CLOSED):
            least = 0
        if not least <= refused <= most:
            yield f'piece {number} was refused memory {refused} times'
        layout = 2 if piece == UPGRADE else layout
    if store != 'list' and not all((21, part) in answers for part in ('first', 'behind')):
        yield 'an archive was not refused memory where it is made, or opened'
    if store == 'make' and not any(answer and answer[0] == 22 for answer in answers):
        yield 'the disk was never refused memory'
    if store == 'list' and any(answer and answer[0] == 22 for answer in answers):
        yield 'an archive in memory answers 22'


def takings(store, layout, piece):
    """How often a piece may be refused memory, at least and at most."""
    word = piece.split()[0]
    if piece == NO_ROWS or (store == 'list' and word in WITHOUT_MEMORY):
        return 0, 0
    if piece == UPGRADE and layout == 2:
        return 0, 0
    if piece == NO_TUNE or (store == 'list' and (piece == EXPORT or word in NAME_ALONE)):
        return 1, 1
    return 1, MOST_CALLS ** 2


def stopped_in_commits(folder, name, path, pieces, before):
    """The first stop of each kind in a commit, so that an opening finishes it: a piece is answered
    22, and it has taken place."""
    for choice in ('lost', 'kept'):
        for calls in range(MOST_CALLS):
            case = Case(folder, name, ['open', path, str(calls), choice], pieces, before)
            answers = case.whole.answers[:len(pieces)]
            if DEVICE in answers and not case.whole.unopened:
                after = pieces[:answers.index(DEVICE) + 1]
                state = case.whole.layout, case.whole.answers[len(pieces):]
                if state == case.model(after)[1]:
                    yield case
                    break
        else:
            sys.exit(f'FAILED  no opening goes on with {name}, {choice}')


def cases_in(folder):
    """All cases, over files that are written into a folder."""
    with open(os.path.join(folder, 'made'), 'wb') as file:
        file.write(with_version(kept('layout-1-empty'), 2))
    for name in ('layout-1-empty', 'layout-1-two-tunes'):
        with open(os.path.join(folder, name), 'wb') as file:
            file.write(kept(name))
    with open(os.path.join(folder, 'layout-1-leaves'), 'wb') as file:
        whole = io.BytesIO()
        Archive(OLD_TUNES).write(whole)
        file.write(whole.getvalue())
    for name, pieces in (('every command', EVERY), ('leaves that split', LEAVES)):
        yield Case(folder, name, ['list'], pieces)
        yield Case(folder, name, ['make'], pieces, [UPGRADE])
        if pieces is EVERY:
            yield Case(folder, name, ['open', 'layout-1-empty', *NO_STOP], pieces)
    yield Case(folder, 'leaves that split', ['open', 'layout-1-leaves', *NO_STOP], OLD_LEAVES,
               [importing(FULL_LEAF)])
    yield from stopped_in_commits(folder, 'stopped in a commit', 'made', STOPPED, [UPGRADE])
    yield from stopped_in_commits(folder, 'stopped in an upgrade', 'layout-1-two-tunes',
                                  [UPGRADE, b'find notes CDEFGABcde\n'], TWO_TUNES)


def main():
    if not os.path.exists(PROGRAM):
        print(f'FAILED  there is no program {PROGRAM}: `rt run test_memory` builds it')
        return 1
    if not shutil.which('cc'):
        left_out = 'cc' in os.environ.get('LEAVE_OUT', '').split()
        print('skipped' if left_out else 'FAILED ', 'memory refused: there is no C compiler')
        return 0 if left_out else 1
    failures = 0
    with tempfile.TemporaryDirectory() as folder:
        library = os.path.join(folder, 'fail_once.so')
        subprocess.run(['cc', '-O2', '-shared', '-fPIC', '-o', library, LIBRARY], check=True)
        for case in cases_in(folder):
            answers, wrong = sweep(case)
            wrong = wrong or list(judge(case, answers))
            failures += bool(wrong)
            print(f'{"FAILED" if wrong else "ok":7} {case.name}, {" ".join(case.words)}: '
                  f'{counts(answers)}{"; " + "; ".join(wrong[:5]) if wrong else ""}', flush=True)
    return 1 if failures else 0


def counts(answers):
    numbers = [answer if answer in (None, 'not told') else answer[0] for answer in answers]
    return (f'{len(answers)} refusals, {numbers.count(21)} answered 21, {numbers.count(22)} '
            f'answered 22, {numbers.count(None)} not answered, '
            f'{numbers.count("not told")} not told')


if __name__ == '__main__':
    sys.exit(main())
