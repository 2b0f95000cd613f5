"""What the tests share: the built programs, folders, fake programs, and a look at processes."""
import os
import shutil
import signal
import subprocess
import sys
import tempfile
import time
import unittest

sys.dont_write_bytecode = True
TESTS = os.path.dirname(os.path.abspath(__file__))
CLIENT = os.path.dirname(TESTS)
ROOT = os.path.dirname(os.path.dirname(CLIENT))
sys.path[:0] = [CLIENT]

from tunes_archive import Archive, Programs, find_programs  # noqa: E402

BUILT = {'TUNES': os.path.join(ROOT, 'crates', 'tunes', 'out', 'tunes'),
         'TUNES_DESK': os.path.join(ROOT, 'crates', 'tunes_desk', 'out', 'tunes_desk')}
# What a slow machine takes at most for what takes a moment.
PATIENCE = 60

KESH = (b'X:1\nT:The Kesh Jig\nR:jig\nM:6/8\nK:G\nG3 GAB|A3 ABd|edd gdd|edB dBA|\n\n'
        b'X:2\nT:Tripping Up the Stairs\nR:jig\nK:D\nFAA GBB|FAd fed|\n')
ONE = b'X:1\nT:March\nK:D\nDFA dfa|\n'


def program(variable):
    """The program that a variable names, or else the built one."""
    return os.path.abspath(os.environ.get(variable) or BUILT[variable])


def programs():
    return find_programs(program('TUNES'), program('TUNES_DESK'))


def read(*words):
    with open(os.path.join(ROOT, *words), 'rb') as file:
        return file.read()


def room():
    """A folder in memory, if there is one, for archives whose syncs cost nothing."""
    return '/dev/shm' if os.access('/dev/shm', os.W_OK) else None


class InFolder(unittest.TestCase):
    """Tests in a folder of their own, over the built programs."""

    def setUp(self):
        self.folder = tempfile.mkdtemp(prefix='tunes-client-', dir=room())
        self.addCleanup(shutil.rmtree, self.folder, ignore_errors=True)
        self.path = self.at('tunes.abcx')
        self.archives = []
        self.told = {}

    def at(self, name):
        return os.path.join(self.folder, name)

    def tearDown(self):
        for archive in self.archives:
            archive.close()
        self.assertNoneLeft()

    def make(self, book=b'', path=None, **options):
        """An archive with the tunes of a book."""
        archive = Archive.make(path or self.path, programs=programs(), **options)
        self.archives.append(archive)
        if book:
            archive.import_book(book)
            archive.let_go()
        return archive

    def open(self, **options):
        archive = Archive(self.path, programs=programs(), **options)
        self.archives.append(archive)
        return archive

    def left(self):
        """The programs that have a file of the folder, as words of their command."""
        found = []
        for name in os.listdir('/proc'):
            if name.isdigit() and int(name) != os.getpid():
                try:
                    with open(f'/proc/{name}/cmdline', 'rb') as file:
                        words = file.read()
                except OSError:
                    continue
                if os.fsencode(self.folder) in words and b'-c\0' not in words:
                    found.append((int(name), words))
        return found

    def assertNoneLeft(self, within=PATIENCE):
        """No program is left over the folder; one that is about to end has a while for it."""
        end = time.monotonic() + within
        while self.left() and time.monotonic() < end:
            time.sleep(0.01)
        left = self.left()
        for number, _ in left:
            os.kill(number, signal.SIGKILL)
        self.assertEqual(left, [])

    def assertLeft(self, count, within=PATIENCE):
        """So many programs are over the folder, once those that are about to end have ended."""
        end = time.monotonic() + within
        while len(self.left()) > count and time.monotonic() < end:
            time.sleep(0.01)
        self.assertEqual(len(self.left()), count)

    def kill_all(self):
        """Kills the programs over the folder, and waits until they are gone."""
        for number, _ in self.left():
            os.kill(number, signal.SIGKILL)
        self.assertNoneLeft()

    def fake(self, body, name='fake'):
        """Programs that are this one: Python, with `line()` and `say(BYTES)`."""
        path = self.at(name)
        with open(path, 'w', encoding='utf-8') as file:
            file.write(f'#!{sys.executable} -IS\n{FAKE}\n{body}\n')
        os.chmod(path, 0o755)
        return Programs(path, path)

    def faked(self, body, **options):
        """An archive over a fake program, which has answered that the file is open."""
        archive = Archive(self.path, programs=self.fake('probed()\n' + body), **options)
        self.archives.append(archive)
        return archive

    def brief(self, reply, then='cat > /dev/null', **options):
        """An archive over a fake program that starts fast: what it writes to the first line."""
        path = self.at('brief')
        with open(path, 'w', encoding='ascii') as file:
            file.write("#!/bin/sh\nread -r x\nprintf 'refused 11 NoSuchSet\\n'\nread -r x\n"
                       f"printf '{''.join(f'%c{byte:03o}' % 92 for byte in reply)}'\n{then}\n")
        os.chmod(path, 0o755)
        archive = Archive(self.path, programs=Programs(path, path), **options)
        self.archives.append(archive)
        return archive

    def script(self, body):
        """A Python program of its own, over the client and the built programs."""
        text = (f'import os, signal, sys, time\nsys.path[:0] = [{CLIENT!r}]\n'
                f'from tunes_archive import *\n'
                f'programs = Programs({program("TUNES")!r}, {program("TUNES_DESK")!r})\n'
                f'archive = Archive({self.path!r}, programs=programs, hold=600)\n{body}\n')
        told = tempfile.TemporaryFile()
        self.addCleanup(told.close)
        process = subprocess.Popen([sys.executable, '-B', '-c', text], stdin=subprocess.PIPE,
                                   stdout=subprocess.PIPE, stderr=told)
        self.told[process.pid] = told
        return process

    def assertSays(self, process, line):
        """The next line of a program; else what it has on standard error is told."""
        said = process.stdout.readline()
        if said != line:
            told = self.told[process.pid]
            told.seek(0)
            self.fail(f'it says {said!r}, and on standard error {os.fsdecode(told.read())}')


FAKE = r'''
import os, signal, sys, time

def line():
    """The next line of the script."""
    found = b''
    while not found.endswith(b'\n'):
        byte = os.read(0, 1)
        if not byte:
            sys.exit(0)
        found += byte
    return found

def say(data):
    while data:
        data = data[os.write(1, data):]

def probed():
    line()
    say(b'refused 11 NoSuchSet\n')
'''
