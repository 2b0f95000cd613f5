"""No program is left behind, however the Python program ends; forks, signals and garbage."""
import _thread
import gc
import os
import random
import signal
import subprocess
import sys
import threading
import time
import unittest
from unittest import mock

from support import CLIENT, KESH, PATIENCE, InFolder, programs

from tunes_archive import Archive, InUse, Row, SetRow

KESH_ROW = Row(1, b'Kesh Jig, The')


class Ends(InFolder):
    """Each kind of end of a Python program that has the file open."""

    def setUp(self):
        super().setUp()
        self.make(KESH).close()

    def begin(self, body):
        """A program of its own that has said that it is where it is to be."""
        process = self.script(body)
        self.addCleanup(process.stdout.close)
        self.addCleanup(process.stdin.close)
        self.addCleanup(process.wait)
        self.addCleanup(process.kill)
        self.assertSays(process, b'here\n')
        return process

    SAY = 'sys.stdout.write("here\\n"); sys.stdout.flush()\n'
    OPEN = 'archive.sets()\n' + SAY
    CHANGE = 'archive.set_new("a")\n' + SAY

    def test_ends_by_itself(self):
        for begin in (self.OPEN, self.CHANGE):
            for end in ('', 'archive.close()', 'del archive', 'sys.exit(3)', 'raise KeyError()',
                        'os._exit(0)', 'os.abort()', 'os.kill(os.getpid(), signal.SIGKILL)',
                        'os.execvp("true", ["true"])',
                        'import atexit; atexit.register(archive.titles)'):
                with self.subTest(end=end):
                    process = self.begin(begin.replace('"a"', repr(f'a{id(end)}')) + end)
                    process.wait(PATIENCE)
                    self.assertNoneLeft(5)

    def test_is_ended(self):
        for number in (signal.SIGINT, signal.SIGTERM, signal.SIGHUP, signal.SIGKILL,
                       signal.SIGQUIT):
            for body in (self.OPEN, self.CHANGE, 'block = archive.changing()\nblock.__enter__()\n'
                         + self.SAY):
                with self.subTest(number=number, body=body):
                    process = self.begin(
                        'import resource\nresource.setrlimit(resource.RLIMIT_CORE, (0, 0))\n'
                        + body.replace('"a"', repr(f'a{number}')) + 'time.sleep(600)')
                    self.assertLeft(1)
                    process.send_signal(number)
                    process.wait(PATIENCE)
                    self.assertNoneLeft(5)

    def test_is_killed_within_an_import(self):
        # each time somewhere else in a book of 3 MB, or in what is made of it
        for count in range(8):
            process = self.begin(f'''
tune = b"X:1\\nK:C\\n" + b"CDEFGABc " * 80 + b"\\n"
{self.SAY}
archive.import_book(tune * 4000)''')
            time.sleep(0.02 * count)
            process.kill()
            process.wait(PATIENCE)
            self.assertNoneLeft()
        self.assertEqual(self.open(wait=PATIENCE).check().tunes % 4_000, 2)

    def test_is_killed_while_it_waits(self):
        with self.open(hold=600) as other, other.changing():
            for body in ('archive = Archive(archive.path, programs=programs, wait=600)\n'
                         + self.SAY + 'archive.sets()',
                         'archive = Archive(archive.path, programs=programs, wait=600)\n'
                         + self.SAY + 'archive.set_new("a")'):
                process = self.begin(body)
                time.sleep(0.3)
                process.kill()
                process.wait(PATIENCE)
                end = time.monotonic() + 5
                while len(self.left()) > 1 and time.monotonic() < end:
                    time.sleep(0.01)
                self.assertLeft(1)

    def test_is_killed_before_it_reads_a_reply(self):
        # a reply that fits in no pipe
        self.open(hold=0).import_book(b'X:1\nK:C\n' + b'C' * 50_000 + b'\n')
        process = self.begin(
            'from tunes_archive.runs import Run\n'
            f'run = Run(programs.tunes, [b"run", {os.fsencode(self.path)!r}], None, None)\n'
            'os.set_blocking(run._input.fileno(), True)\n'
            'os.write(run._input.fileno(), b"show 3\\n" * 100)\n' + self.SAY + 'time.sleep(600)')
        time.sleep(0.2)
        self.assertLeft(1)
        process.kill()
        process.wait(PATIENCE)
        self.assertNoneLeft(5)

    def test_interrupts_at_any_moment(self):
        process = self.begin(f'''
archive = Archive({self.path!r}, programs=programs, hold=0.005, wait=60)
archive.set_new("list")
inside, caught, done = False, 0, 0

def interrupt(*_):
    global inside
    if inside:
        inside = False
        raise KeyboardInterrupt

signal.signal(signal.SIGINT, interrupt)
{self.SAY}
while caught < 60:
    try:
        inside = True
        if done % 3 == 0:
            place = archive.set_add("list", 1)
            archive.set_cut("list", place)
        elif done % 3 == 1:
            assert archive.find_title("kesh")[0].number == 1
        else:
            with archive.reading():
                assert len(archive.titles()) == 2
        inside = False
    except KeyboardInterrupt:
        caught += 1
    done += 1
archive.let_go()
assert archive.show(1).number == 1
archive.let_go()
sys.stdout.write("done\\n")
sys.stdout.flush()
time.sleep(600)''')
        ended = threading.Event()

        def interrupt():
            while not ended.wait(random.choice((0.001, 0.003, 0.01, 0.03, 0.1))):
                process.send_signal(signal.SIGINT)

        thread = threading.Thread(target=interrupt)
        thread.start()
        try:
            self.assertSays(process, b'done\n')
        finally:
            ended.set()
            thread.join()
        self.assertNoneLeft(0)
        process.kill()

    def test_a_signal_for_broken_pipes(self):
        # it would end the program, as it does many that set it so
        process = self.begin(f'''
signal.signal(signal.SIGPIPE, signal.SIG_DFL)
block = archive.changing()
block.__enter__()
archive.set_new("a")
{self.SAY}
sys.stdin.readline()
for _ in range(3):
    try:
        archive.import_book(b"X:1\\nK:C\\nC\\n" * 100000)
    except ArchiveFault:
        continue
    sys.exit(7)
block.__exit__(None, None, None)
assert archive.sets()[0].name == "a"
''')
        self.kill_all()
        process.stdin.write(b'\n')
        process.stdin.flush()
        self.assertEqual(process.wait(PATIENCE), 0)

    def test_standard_streams_that_are_closed(self):
        # nothing that is printed comes to a program in their place
        process = self.script('''
for descriptor in range(3):
    os.close(descriptor)
archive.set_new("a")
for descriptor in range(3):
    try:
        os.write(descriptor, b"set-drop a\\n")
        os._exit(7)
    except OSError:
        pass
os._exit(0 if [row.name for row in archive.sets()] == ["a"] else 8)
''')
        self.addCleanup(process.stdout.close)
        self.addCleanup(process.stdin.close)
        self.assertEqual(process.wait(PATIENCE), 0)

    def test_a_group_is_interrupted(self):
        # as a terminal does: the program is in no group with its child
        process = subprocess.Popen(
            [sys.executable, '-B', '-c', f'''
import os, sys, time
sys.path[:0] = [{CLIENT!r}]
from tunes_archive import *
programs = Programs({programs().tunes!r}, {programs().tunes_desk!r})
archive = Archive({self.path!r}, programs=programs, hold=600)
with archive.changing():
    try:
        print('here', flush=True)
        time.sleep(600)
    except KeyboardInterrupt:
        archive.set_new('kept')
'''], stdout=subprocess.PIPE, start_new_session=True)
        self.addCleanup(process.stdout.close)
        self.assertEqual(process.stdout.readline(), b'here\n')
        os.killpg(process.pid, signal.SIGINT)
        self.assertEqual(process.wait(PATIENCE), 0)
        self.assertNoneLeft(0)
        self.assertEqual(self.open().sets(), [SetRow('kept', 0)])


class Within(InFolder):
    """What goes on in one Python program."""

    def setUp(self):
        super().setUp()
        self.make(KESH).close()

    def test_garbage(self):
        before = _thread._count()
        archive = Archive(self.path, programs=programs(), hold=600)
        archive.sets()
        self.assertLeft(1)
        del archive
        gc.collect()
        self.assertEqual(self.left(), [])
        # also where a thread waits to let go of the file
        self.assertNoneLeft(0)
        end = time.monotonic() + PATIENCE
        while _thread._count() > before and time.monotonic() < end:
            time.sleep(0.01)
        self.assertLessEqual(_thread._count(), before)

    def test_descriptors(self):
        def descriptors():
            return len(os.listdir('/proc/self/fd'))
        before = descriptors()
        for _ in range(20):
            with self.open(hold=600) as archive:
                archive.sets()
                archive.set_new('a')
                archive.set_drop('a')
        self.assertEqual(descriptors(), before)

    def test_where_no_thread_can_be_made(self):
        archive = self.open(hold=600)
        with mock.patch.object(_thread, 'start_new_thread', side_effect=RuntimeError):
            self.assertEqual(archive.sets(), [])
            self.assertEqual(self.left(), [])
        self.assertEqual(archive.sets(), [])
        self.assertLeft(1)

    def test_a_call_within_a_call(self):
        # a signal comes while a reply is waited for
        archive = self.faked('line()\ntime.sleep(0.5)\nsay(b"ok sets 0\\n")\nline()')
        found = []

        def asked(*_):
            try:
                archive.sets()
            except RuntimeError as error:
                found.append(str(error))

        before = signal.signal(signal.SIGALRM, asked)
        self.addCleanup(signal.signal, signal.SIGALRM, before)
        signal.setitimer(signal.ITIMER_REAL, 0.1)
        self.addCleanup(signal.setitimer, signal.ITIMER_REAL, 0)
        end = time.monotonic() + PATIENCE
        while not found and time.monotonic() < end:
            archive.let_go()
            signal.setitimer(signal.ITIMER_REAL, 0.2)
            self.assertEqual(archive.sets(), [])
        self.assertIn('within a call', found[0])
        archive.close()

    def test_an_error_within_a_call(self):
        class Odd(Exception):
            pass

        def raises(*_):
            raise Odd
        archive = self.faked('line()\ntime.sleep(600)')
        before = signal.signal(signal.SIGALRM, raises)
        self.addCleanup(signal.signal, signal.SIGALRM, before)
        signal.setitimer(signal.ITIMER_REAL, 0.3)
        with self.assertRaises(Odd):
            archive.sets()
        self.assertEqual(self.left(), [])

    def forked(self, call):
        """What a call gives in a process that is forked."""
        end, begin = os.pipe()
        number = os.fork()
        if not number:
            status = 1
            try:
                os.close(end)
                os.write(begin, repr(call()).encode())
                status = 0
            except BaseException as error:  # pylint: disable=broad-except
                os.write(begin, repr(error).encode())
            finally:
                os._exit(status)
        os.close(begin)
        told = b''
        while piece := os.read(end, 4096):
            told += piece
        os.close(end)
        os.waitpid(number, 0)
        return told.decode()

    def test_forks(self):
        archive = self.open(hold=600)
        found = repr([KESH_ROW])
        archive.find_title('kesh')
        self.assertEqual(self.forked(lambda: archive.find_title('kesh')), found)
        self.assertEqual(archive.find_title('kesh'), [KESH_ROW])
        self.assertLeft(1)
        # a process that goes on keeps no program of this one
        end, begin = os.pipe()
        number = os.fork()
        if not number:
            os.close(begin)
            os.read(end, 1)
            os._exit(0)
        archive.let_go()
        self.assertEqual(self.left(), [])
        os.close(begin)
        os.close(end)
        os.waitpid(number, 0)

    def test_a_fork_in_a_block(self):
        archive = self.open(hold=600, wait=0)
        with archive.changing():
            archive.set_new('a')
            self.assertTrue(self.forked(archive.sets).startswith('InUse('))
            self.assertEqual(archive.sets(), [SetRow('a', 0)])

        def leaves():
            with self.assertRaises(InUse):
                archive.sets()
            raise KeyError
        with archive.changing():
            self.assertEqual(self.forked(leaves), 'KeyError()')
            archive.set_new('b')

    def test_a_fork_while_others_call(self):
        archive = self.open(hold=0.01)
        ended = threading.Event()
        faults = []

        def ask():
            while not ended.is_set():
                try:
                    archive.find_title('kesh')
                except BaseException as error:  # pylint: disable=broad-except
                    faults.append(error)

        thread = threading.Thread(target=ask)
        thread.start()
        try:
            for _ in range(10):
                self.assertEqual(self.forked(lambda: archive.find_title('kesh')),
                                 repr([KESH_ROW]))
        finally:
            ended.set()
            thread.join(PATIENCE)
        self.assertEqual(faults, [])


if __name__ == '__main__':
    unittest.main()
