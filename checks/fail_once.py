#!/usr/bin/env python3
"""Usage: checks/fail_once.py

Has each call of the system that `tunes` makes fail once, by each usual error, or move one byte
alone; and each call that takes memory be refused once. So it makes an archive, runs a script with
every command, puts tunes where leaves split, checks an archive, and upgrades a kept file of layout
1, for each call anew. What comes of it has to be an answer and a status that docs/USING.md and
docs/SCRIPTS.md tell, never a signal; and the archive then opens by itself, as before a command of
the script or after it, and as after each that was answered. A call that moves one byte alone is
seen by nobody.

And before the first locks of a run the path goes to another file, or to nothing: what is answered
as done stands in the file that has the path, and no other is written. Where that goes on, the run
is refused.

The program is the one that ./tunes has built, and not that script, or the one that the variable
TUNES names. The calls fail by a library, checks/fail_once.c, that is built for this by `cc`. Where
there is no C compiler it fails, unless the variable LEAVE_OUT has the word `cc`. A line is printed
for each case, and the status is 1 where one failed.
"""
import errno
import os
import shutil
import subprocess
import sys
import tempfile
import threading
from concurrent.futures import ThreadPoolExecutor

sys.dont_write_bytecode = True
from layouts import kept

ROOT = os.path.dirname(os.path.dirname(os.path.abspath(__file__)))
BUILT = os.path.join(ROOT, 'crates', 'tunes', 'out', 'tunes')
PROGRAM = os.path.abspath(os.environ.get('TUNES') or BUILT)
LIBRARY = os.path.join(ROOT, 'checks', 'fail_once.c')
ERRORS = [errno.EIO, errno.ENOSPC, errno.EACCES, errno.ENOENT, errno.EAGAIN, errno.EINTR]
ONE_BYTE = 0
# How often the program opens a file whose path goes to another before the lock.
MOST_OPENINGS = 8
# Statuses of the program: done; it was not; the file is no archive, damaged, or not empty.
DONE, NOT_DONE, NO_ARCHIVE = 0, 1, 3
DEVICE, MEMORY = b'refused 22 Device\n', b'refused 21 OutOfMemory\n'
UPGRADED = b'ok upgrade 2\n'

# Every command, each with what it reads; the last lines look at what stands there.
KESH = b'X:1\nT:The Kesh Jig\nK:G\nGAG GAB|\nX:2\nT:Kesh Jig, The\nT:The Kesh\nR:jig\nK:G\n'
OTHER = b'X:1\nT:March\nK:D\nDFA\n'
CHANGES = [b'import %d\n%b' % (len(KESH), KESH), b'replace 1 1 %d\n%b' % (len(OTHER), OTHER),
           b'set-new friday\n', b'set-add friday 2\n', b'set-add friday 1\n',
           b'renumber 2 40\n', b'set-cut friday 2\n', b'delete 1\n', b'set-new monday\n',
           b'set-drop friday\n', b'upgrade\n']
QUESTIONS = [b'show 40\n', b'find title kesh\n', b'find rhythm jig\n', b'find key G\n',
             b'find notes GAGGAB\n', b'titles\n', b'sets\n', b'set-show monday\n',
             b'export-set monday\n', b'export\n']
LOOK = b'export\nsets\nset-show friday\nset-show monday\ntitles\n'
# As many tunes as there are entries in a leaf of the numbers; two more, and it splits.
FULL_LEAF = b''.join(b'X:%d\nT:Tune %d\nR:reel\nK:D\nDFA dfa|\n' % (number, number)
                     for number in range(1, 114))
TWO_MORE = b'X:1\nT:Tune 7\nR:reel\nK:D\nX:2\nT:Tune 8\nR:jig\nK:G\n'
SPLITS = [b'import %d\n%b' % (len(TWO_MORE), TWO_MORE)]


class Ended:
    """What came of a run: its status and output, how many calls it made, and whether one failed."""

    def __init__(self, work, words, script=b'', kind='system', at=0, how=0, paths=()):
        count = os.path.join(work, 'count')
        if os.path.exists(count):
            os.remove(count)
        environment = {'LD_PRELOAD': library_of(work), 'FAIL_KIND': kind, 'FAIL_AT': str(at),
                       'FAIL_HOW': str(how), 'FAIL_COUNT': count,
                       **dict(zip(('FAIL_PATH', 'FAIL_OTHER'), paths))}
        ended = subprocess.run([PROGRAM, *words], input=script, env=environment, check=False,
                               stdout=subprocess.PIPE, stderr=subprocess.PIPE, timeout=60)
        self.status, self.output, self.told = ended.returncode, ended.stdout, ended.stderr
        with open(count, encoding='ascii') as file:
            self.calls, self.failed = (int(word) for word in file.read().split())


def library_of(work):
    return os.path.join(os.path.dirname(work), 'fail_once.so')


def run(words, script=b''):
    """The status and the output of a run without a fault."""
    ended = subprocess.run([PROGRAM, *words], input=script, stdout=subprocess.PIPE,
                           stderr=subprocess.DEVNULL, check=False, timeout=60)
    return ended.returncode, ended.stdout


class Sweep:
    """One script over copies of one archive, with one call failing in each."""

    def __init__(self, folder, name, before, commands, questions):
        self.folder, self.name, self.before = folder, name, before
        self.commands, self.script = commands + questions, b''.join(commands + questions)
        # What each number of commands leaves, the reply to each, and what comes of all but one.
        self.states, self.replies, self.without = [], [], {}
        self.lock = threading.Lock()
        path = os.path.join(folder, 'whole')
        self.put(path)
        self.states.append(run(['run', path], LOOK))
        for command in self.commands:
            status, reply = run(['run', path], command)
            assert status == DONE and reply.startswith(b'ok '), (command, reply)
            self.replies.append(reply)
            self.states.append(run(['run', path], LOOK))

    def put(self, path):
        with open(path, 'wb') as file:
            file.write(self.before)

    def once(self, work, kind, at, how):
        """Why the run with this call failing is wrong, or nothing; and the run."""
        path = os.path.join(work, 'archive')
        self.put(path)
        ended = Ended(work, ['run', path], self.script, kind, at, how)
        return self.judge(ended, path, kind, how), ended

    def judge(self, ended, path, kind, how):
        opened = run(['run', path], LOOK)
        if kind == 'system' and opened not in self.states:
            return 'it opens as no state of the script'
        if ended.status not in (DONE, NOT_DONE):
            return f'its status is {ended.status}'
        whole = b''.join(self.replies)
        if kind == 'system' and how == ONE_BYTE or not ended.failed:
            fits = (ended.status, ended.output, opened) == (DONE, whole, self.states[-1])
            return '' if fits else 'one byte alone was seen'
        if kind == 'memory':
            return self.judge_memory(ended, opened)
        return self.judge_error(ended, opened, whole)

    def judge_error(self, ended, opened, whole):
        """Replies as told up to one 22, which ends the run; or a front of them, where the call was
        of a stream. What was answered has been done."""
        done, output = 0, ended.output
        while done < len(self.replies) and output.startswith(self.replies[done]):
            output = output[len(self.replies[done]):]
            done += 1
        after = self.states[done:done + 2]
        if opened not in after:
            return f'after {done} replies it opens as another state'
        if output.startswith(DEVICE):
            good = output == DEVICE and ended.status == NOT_DONE
            return '' if good else 'the run goes on behind 22, or its status is another'
        if not whole.startswith(ended.output):
            return f'its output is {ended.output[-60:]!r}'
        # An error at the end, as of a close, is seen by nobody; else the run did not end.
        return '' if ended.status == NOT_DONE or ended.output == whole else 'it ended as done'

    def judge_memory(self, ended, opened):
        """The command that is answered 21 changes nothing, and the others are answered as in a run
        that is handed them alone; where opening or a stream has no memory, nothing is done."""
        if ended.output in (b'', MEMORY) and ended.status == NOT_DONE:
            return '' if opened == self.states[0] else 'not opened, and another state'
        at = ended.output.find(MEMORY)
        if at < 0:
            fits = ended.output == b''.join(self.replies) and opened == self.states[-1]
            return '' if fits else f'its output is {ended.output[-60:]!r}'
        for refused in range(len(self.replies)):
            before = b''.join(self.replies[:refused])
            if at == len(before) and ended.output.startswith(before):
                return self.judge_refused(ended, opened, refused)
        return f'its output is {ended.output[-60:]!r}'

    def judge_refused(self, ended, opened, refused):
        others = self.commands[:refused] + self.commands[refused + 1:]
        path = os.path.join(self.folder, f'others-{refused}')
        with self.lock:
            if refused not in self.without:
                self.put(path)
                wanted = run(['run', path], b''.join(others))
                self.without[refused] = wanted[1], run(['run', path], LOOK)
        wanted, state = self.without[refused]
        before = len(b''.join(self.replies[:refused]))
        output = ended.output[:before] + ended.output[before + len(MEMORY):]
        if output != wanted:
            return f'behind 21 its output is {output[-60:]!r}'
        return '' if opened == state else 'behind 21 it opens as another state'


class MakeSweep:
    """An archive that is made: it is empty or as made, or nothing that opens where it failed."""

    def __init__(self, folder, name):
        self.folder, self.name = folder, name

    def once(self, work, kind, at, how):
        path = os.path.join(work, 'archive')
        if os.path.exists(path):
            os.remove(path)
        ended = Ended(work, ['make', path], b'', kind, at, how)
        fails = ended.failed and not (kind == 'system' and how == ONE_BYTE)
        if ended.status == DONE:
            opened = run(['check', path])[0] == DONE
            return '' if opened and ended.output == b'made\n' else 'it is not made', ended
        answers = b'', DEVICE, MEMORY, b'made\n'
        good = fails and ended.status == NOT_DONE and ended.output in answers
        return '' if good else f'status {ended.status}, output {ended.output!r}', ended


class CheckSweep:
    """An archive that is checked: it is answered as ever, or 22 or 21, and stays as it is."""

    def __init__(self, folder, name, before):
        self.folder, self.name, self.before = folder, name, before
        path = os.path.join(folder, 'whole')
        with open(path, 'wb') as file:
            file.write(before)
        self.answer = run(['check', path])

    def once(self, work, kind, at, how):
        path = os.path.join(work, 'archive')
        with open(path, 'wb') as file:
            file.write(self.before)
        ended = Ended(work, ['check', path], b'', kind, at, how)
        with open(path, 'rb') as file:
            if file.read() != self.before:
                return 'it was written', ended
        if ended.status == DONE and ended.output == self.answer[1]:
            return '', ended
        fails = ended.failed and not (kind == 'system' and how == ONE_BYTE)
        answers = b'', DEVICE, MEMORY, self.answer[1]
        good = fails and ended.status == NOT_DONE and ended.output in answers
        return '' if good else f'status {ended.status}, output {ended.output!r}', ended


class UpgradeSweep:
    """An archive of layout 1 that is upgraded: it stays as it is, or has the same in layout 2, as
    it does where that was answered."""

    def __init__(self, folder, name, before):
        self.folder, self.name, self.before = folder, name, before
        path = os.path.join(folder, 'whole')
        with open(path, 'wb') as file:
            file.write(before)
        self.states = [self.look(path)]
        assert run(['upgrade', path]) == (DONE, UPGRADED)
        self.states.append(self.look(path))
        assert self.states[0][0] == self.states[1][0]
        assert [state[1][1].split()[1] for state in self.states] == [b'1', b'2']

    @staticmethod
    def look(path):
        return run(['run', path], LOOK), run(['check', path])

    def once(self, work, kind, at, how):
        path = os.path.join(work, 'archive')
        with open(path, 'wb') as file:
            file.write(self.before)
        ended = Ended(work, ['upgrade', path], b'', kind, at, how)
        opened = self.look(path)
        fails = ended.failed and not (kind == 'system' and how == ONE_BYTE)
        wanted = self.states
        if ended.output == UPGRADED:
            wanted = self.states[1:]
        elif ended.output == MEMORY:
            wanted = self.states[:1]
        elif ended.output not in (b'', DEVICE) or ended.status == DONE:
            wanted = []
        if opened not in wanted:
            return f'behind {ended.output!r} it opens as another state', ended
        good = ended.status == DONE or fails and ended.status == NOT_DONE
        return '' if good else f'status {ended.status}, output {ended.output!r}', ended


def put(path, content):
    with open(path, 'wb') as file:
        file.write(content)


def read(path):
    with open(path, 'rb') as file:
        return file.read()


class PathSweep:
    """Files whose paths go to others, or to nothing, before so many locks of a run."""

    def __init__(self, folder, first, second):
        self.folder, self.files = folder_of(folder, 'paths'), (first, second)
        self.path, self.other = (os.path.join(self.folder, name) for name in ('path', 'other'))
        self.script = CHANGES[0]
        self.replies, self.after = [], []
        for before in self.files:
            put(self.path, before)
            self.replies.append(run(['run', self.path], self.script))
            self.after.append(run(['run', self.path], LOOK))
        assert self.after[0] != self.after[1]

    def changed(self, times):
        """Why it is wrong that the paths of two archives change so often."""
        for path, before in zip((self.path, self.other), self.files):
            put(path, before)
        ended = Ended(self.folder, ['run', self.path], self.script, 'lock', times,
                      paths=(self.path, self.other))
        which = times % 2
        if times >= MOST_OPENINGS:
            kept = (read(self.path), read(self.other)) == (self.files[which], self.files[1 - which])
            return '' if self.is_refused(ended) and kept else self.shown(ended)
        good = (ended.status, ended.output) == self.replies[which]
        kept = read(self.other) == self.files[1 - which]
        stands = run(['run', self.path], LOOK) == self.after[which]
        return '' if good and kept and stands else self.shown(ended)

    def removed(self, word, times):
        """Why it is wrong that a path is taken away so often."""
        if os.path.exists(self.path):
            os.remove(self.path)
        if word == 'run':
            put(self.path, self.files[0])
        ended = Ended(self.folder, [word, self.path], self.script, 'lock', times,
                      paths=(self.path,))
        if word == 'make' and times < MOST_OPENINGS:
            made = (ended.status, ended.output) == (DONE, b'made\n')
            return '' if made and run(['check', self.path])[0] == DONE else self.shown(ended)
        good = self.is_refused(ended, b'' if word == 'run' else b'another program has it')
        return '' if good and not os.path.exists(self.path) else self.shown(ended)

    @staticmethod
    def is_refused(ended, told=b'another program has it'):
        return (ended.status, ended.output) == (NOT_DONE, DEVICE) and told in ended.told

    @staticmethod
    def shown(ended):
        return f'status {ended.status}, output {ended.output!r}, or another file was written'

    def cases(self):
        """Each case by its name, with what is wrong in it, or nothing."""
        for times in (1, 2, MOST_OPENINGS - 1, MOST_OPENINGS):
            yield f'two files that change names before {times} locks', self.changed(times)
        yield 'a file that is removed before its lock', self.removed('run', 1)
        for times in (1, MOST_OPENINGS):
            yield f'a made file that is removed before {times} locks', self.removed('make', times)


def sweep_all(folder, sweep, kind, how):
    """Each call in turn until a run has no such call; how many there were, and what was wrong."""
    last = sweep.once(folder_of(folder, 'count'), kind, 0, how)
    wrong = [f'with no fault: {last[0]}'] if last[0] else []
    calls = last[1].calls

    def one(at):
        return sweep.once(folder_of(folder, f'{kind}-{how}-{at}'), kind, at, how)[0]
    with ThreadPoolExecutor(os.cpu_count()) as threads:
        for at, why in enumerate(threads.map(one, range(1, calls + 1)), 1):
            if why:
                wrong.append(f'at call {at}: {why}')
    if calls == 0:
        wrong.append('no call was seen')
    return calls, wrong


def folder_of(folder, name):
    path = os.path.join(folder, name)
    os.makedirs(path, exist_ok=True)
    return path


def how_of(kind, how):
    if kind == 'memory':
        return 'without memory'
    return 'by one byte' if how == ONE_BYTE else f'by {errno.errorcode[how]}'


def main():
    if not os.path.exists(PROGRAM):
        print(f'FAILED  there is no program {PROGRAM}: ./tunes --version builds it')
        return 1
    if not shutil.which('cc'):
        left_out = 'cc' in os.environ.get('LEAVE_OUT', '').split()
        print('skipped' if left_out else 'FAILED ', 'calls that fail once: there is no C compiler')
        return 0 if left_out else 1
    failures = 0
    with tempfile.TemporaryDirectory() as folder:
        # The folders of all calls lie beside the library.
        work = folder_of(folder, 'work')
        library = library_of(work)
        subprocess.run(['cc', '-O2', '-shared', '-fPIC', '-o', library, LIBRARY], check=True)
        for sweep in sweeps_in(work):
            for kind, how in [*(('system', error) for error in ERRORS), ('system', ONE_BYTE),
                              ('memory', 0)]:
                calls, wrong = sweep_all(folder, sweep, kind, how)
                failures += bool(wrong)
                print(f'{"FAILED" if wrong else "ok":7} {sweep.name}, {how_of(kind, how)}, '
                      f'{calls} calls{"; " + "; ".join(wrong[:5]) if wrong else ""}', flush=True)
        for name, wrong in PathSweep(folder, *archives_in(work)).cases():
            failures += bool(wrong)
            print(f'{"FAILED" if wrong else "ok":7} {name}{"; " + wrong if wrong else ""}',
                  flush=True)
    return 1 if failures else 0


def archives_in(work):
    """An archive that was made, and one with a full leaf."""
    path = os.path.join(work, 'made')
    if os.path.exists(path):
        os.remove(path)
    assert run(['make', path])[0] == DONE
    made = read(path)
    assert run(['run', path], b'import %d\n%b' % (len(FULL_LEAF), FULL_LEAF))[0] == DONE
    return made, read(path)


def sweeps_in(work):
    made, full_leaf = archives_in(work)
    yield MakeSweep(work, 'an archive that is made')
    yield Sweep(work, 'a script of every command', made, CHANGES, QUESTIONS)
    yield Sweep(work, 'leaves that split', full_leaf, SPLITS, [b'find title tune 7\n'])
    yield CheckSweep(work, 'an archive that is checked', full_leaf)
    yield UpgradeSweep(work, 'a file of layout 1 that is upgraded', kept('layout-1-two-tunes'))


if __name__ == '__main__':
    sys.exit(main())
