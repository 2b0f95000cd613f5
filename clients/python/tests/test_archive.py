"""Every command, and every refusal that a client can cause, over the built programs."""
import os
import resource
import subprocess
import sys
import unittest

from support import CLIENT, KESH, ONE, PATIENCE, ROOT, InFolder, program, programs, read

from tunes_archive import (Archive, ArchiveFull, BadName, BadNumber, BadQuery, BadTune,
                           BookTooLong, Counts, Damaged, Device, Imported, InSet, NoSuchPlace,
                           NoSuchSet, NotArchive, NotEmpty, NoTune, NotOne, NumbersSpent, Place,
                           Programs, Refused, Row, ScriptRun, SetFull, SetList, SetRow, SetsFull,
                           SetTaken, Stale, Taken, Tune, Unknown, Unopened, Worn)

sys.path.append(os.path.join(ROOT, 'checks'))
import archives  # noqa: E402

KESH_ROW, STAIRS_ROW = Row(1, b'Kesh Jig, The'), Row(2, b'Tripping Up the Stairs')
SESSION = read('examples', 'session.abc')


class Commands(InFolder):
    """Each command, with what it gives."""

    def test_all(self):
        with self.make() as archive:
            self.assertEqual(archive.check(), Counts(2, 0, 0))
            self.assertEqual(archive.import_book(KESH), Imported(1, 2))
            kesh = KESH.split(b'\n\n')[0] + b'\n'
            self.assertEqual(archive.show(1), Tune(1, 1, kesh.partition(b'\n')[2]))
            self.assertEqual(archive.show(1).book, kesh)
            self.assertEqual(archive.find_title('kesh'), [KESH_ROW])
            self.assertEqual(archive.find_title('  KESH jig\t'), [KESH_ROW])
            self.assertEqual(archive.find_title('none'), [])
            self.assertEqual(archive.find_rhythm('Jig'), [KESH_ROW, STAIRS_ROW])
            self.assertEqual(archive.find_key('Gmaj'), [KESH_ROW])
            self.assertEqual(archive.find_music('[K:G]G3GAB'), [KESH_ROW])
            self.assertEqual(archive.find_notes('G3 GAB|A3'), [KESH_ROW])
            self.assertEqual(archive.find_notes('G3 GAB|A3', 'G'), [KESH_ROW])
            self.assertEqual(archive.find_notes('FAA GBB', 'C'), [])
            self.assertEqual(archive.find_notes('FAA GBB', 'D'), [STAIRS_ROW])
            self.assertEqual(archive.titles(), [KESH_ROW, STAIRS_ROW])
            self.assertEqual(archive.replace(1, 1, ONE), 2)
            self.assertEqual(archive.show(1), Tune(1, 2, ONE.partition(b'\n')[2]))
            archive.set_new('friday')
            self.assertEqual([archive.set_add('friday', number) for number in (2, 1, 2)], [1, 2, 3])
            self.assertEqual(archive.sets(), [SetRow('friday', 3)])
            march = Row(1, b'March')
            self.assertEqual(archive.set_show('friday'), SetList('friday', (
                Place(1, STAIRS_ROW), Place(2, march), Place(3, STAIRS_ROW))))
            archive.set_cut('friday', 1)
            archive.renumber(2, 40)
            self.assertEqual(archive.export_set(b'friday'), (
                b'%%abc-2.1\n%% set friday\n\n' % ()
                + b'X:1\n' + ONE.partition(b'\n')[2]
                + b'\nX:2\n' + KESH.split(b'X:2\n')[1]))
            self.assertEqual(archive.export(), b'%%abc-2.1\n\n' % () + ONE + b'\nX:40\n'
                             + KESH.split(b'X:2\n')[1])
            archive.set_drop('friday')
            archive.delete(1)
            self.assertEqual(archive.titles(), [Row(40, b'Tripping Up the Stairs')])
            self.assertEqual(archive.upgrade(), 2)
            self.assertEqual(archive.check(), Counts(2, 1, 0))

    def test_the_session(self):
        with self.make(SESSION) as archive:
            self.assertEqual(archive.check().tunes, 15)
            for notes in ('E2BE dEBE', 'FAA GBB', 'GAB', 'G3 GAB', 'dBAF', 'A', 'zz', '[K:D]FA'):
                told = subprocess.run(
                    [program('TUNES_DESK'), '-f', self.path, 'find', 'notes', notes],
                    stdout=subprocess.PIPE, stderr=subprocess.PIPE, check=False)
                try:
                    found = archive.find_notes(notes)
                except BadQuery:
                    self.assertEqual(told.returncode, 1, notes)
                    continue
                lines = [b'%d %b\n' % (row.number, row.title_bytes) for row in found]
                self.assertEqual((b''.join(lines), 0), (told.stdout, told.returncode), notes)

    def test_a_tune_without_a_title(self):
        with self.make(b'X:1\nK:C\nX:2\nT:\nK:C\n') as archive:
            self.assertEqual(archive.find_key('C')[0], Row(1, None))
            script = archive.run_script(b'find key C\n')
            self.assertEqual(script.replies, b'ok find 2\n' + b''.join(
                b'%d%b\n' % (row.number, b'' if row.title_bytes is None else b' ' + row.title_bytes)
                for row in archive.find_key('C')))

    def test_texts_that_are_no_utf_8(self):
        title = b'caf\xe9 \xff\xfe \xed\xa0\x80 An B\xc3\xb3thar'
        book = b'X:1\nT:%b\nR:r\xe9el\nK:C\nCDEF|\x01\x80\xbf\n' % title
        with self.make(book) as archive:
            tune = archive.show(1)
            self.assertEqual(tune.book, book)
            self.assertEqual(tune.string.encode('utf-8', 'surrogateescape'), tune.text)
            row, = archive.titles()
            self.assertEqual(row.title_bytes, title)
            # what came as a string finds the same tune, and makes the same one
            self.assertEqual(archive.find_title(row.title), [row])
            self.assertEqual(archive.find_title(row.title_bytes), [row])
            self.assertEqual(archive.find_rhythm('r\udce9el'), [row])
            self.assertEqual(archive.import_book('X:1\n' + tune.string), Imported(2, 2))
            self.assertEqual(archive.show(2).text, tune.text)
            self.assertIn(book, archive.export())

    def test_scripts(self):
        with self.make(KESH) as archive:
            self.assertEqual(archive.ask_script(b'find title kesh\nsets\n'),
                             ScriptRun(0, b'ok find 1\n1 Kesh Jig, The\nok sets 0\n', b''))
            changed = archive.ask_script('set-new friday\nsets\n')
            self.assertEqual((changed.status, changed.replies.split(b'\n')[0]),
                             (1, b'refused 22 Device'))
            self.assertEqual(archive.run_script(b'set-new friday\nsh\n'),
                             ScriptRun(0, b'ok set-new friday\nrefused 30 BadLine\n', b''))
            self.assertEqual(archive.sets(), [SetRow('friday', 0)])
            with archive.reading(), self.assertRaises(RuntimeError):
                archive.run_script(b'sets\n')
            with archive.changing(), self.assertRaises(RuntimeError):
                archive.check()
            with archive.reading():
                self.assertEqual(archive.check().sets, 1)


class Refusals(InFolder):
    """Each refusal, with what it carries; nothing is changed by it."""

    def refuses(self, archive, kind, call, **carried):
        before = archive.run_script(b'export\nsets\n').replies
        with self.assertRaises(Refused) as raised:
            call()
        self.assertIs(type(raised.exception), kind)
        for name, value in carried.items():
            self.assertEqual(getattr(raised.exception, name), value)
        self.assertEqual(archive.run_script(b'export\nsets\n').replies, before)

    def test_of_books(self):
        archive = self.make(KESH)
        for change in (archive.import_book, lambda book: archive.replace(1, 1, book)):
            self.refuses(archive, NoTune, lambda: change(b''))
            self.refuses(archive, NoTune, lambda: change(b'import 0\nsets\n'))
            self.refuses(archive, BadTune, lambda: change(ONE + b'\nX:2\nT:a\n'), place=2,
                         why='NoKey')
            self.refuses(archive, BadTune, lambda: change(ONE + b'D' * 64000), place=1,
                         why='TooLong')
            self.refuses(archive, BookTooLong, lambda: change(b'a' * 4_000_001))
            self.refuses(archive, BookTooLong, lambda: change(b'set-new a\n' * 1_000_000))
        self.refuses(archive, NotOne, lambda: archive.replace(1, 1, KESH), count=2)

    def test_of_tunes(self):
        archive = self.make(KESH)
        archive.set_new('monday')
        archive.set_new('friday')
        archive.set_add('friday', 1)
        archive.set_add('monday', 1)
        for call in (lambda: archive.show(7), lambda: archive.delete(7),
                     lambda: archive.renumber(7, 8), lambda: archive.replace(7, 1, ONE),
                     lambda: archive.set_add('friday', 7)):
            self.refuses(archive, Unknown, call, tune=7, words=('7',), reply='refused 4 Unknown 7')
        self.refuses(archive, Unknown, lambda: archive.show(0), tune=0)
        self.refuses(archive, Unknown, lambda: archive.show(999_999_999), tune=999_999_999)
        self.refuses(archive, Stale, lambda: archive.replace(1, 2, ONE), revision=1)
        self.refuses(archive, Taken, lambda: archive.renumber(1, 2), tune=2)
        self.refuses(archive, InSet, lambda: archive.delete(1), set_name='friday')
        self.refuses(archive, BadNumber, lambda: archive.renumber(1, 0))
        self.refuses(archive, BadNumber, lambda: archive.renumber(1, 1_000_000))
        archive.renumber(2, 999_999)
        self.refuses(archive, NumbersSpent, lambda: archive.import_book(ONE))

    def test_of_set_lists(self):
        archive = self.make(KESH)
        for call in (lambda: archive.set_add('none', 1), lambda: archive.set_cut('none', 1),
                     lambda: archive.set_drop('none'), lambda: archive.set_show('none'),
                     lambda: archive.export_set('none'), lambda: archive.set_show('\u00e9')):
            self.refuses(archive, NoSuchSet, call)
        archive.set_new('friday')
        self.refuses(archive, SetTaken, lambda: archive.set_new('friday'))
        self.refuses(archive, NoSuchPlace, lambda: archive.set_cut('friday', 0))
        self.refuses(archive, NoSuchPlace, lambda: archive.set_cut('friday', 1))
        for name in ('.', '\u00e9', b'\xff', 'a' * 41, 'a.b', '\u2028', 'a\x0bb', 'a\0b'):
            self.refuses(archive, BadName, lambda: archive.set_new(name))
        with archive.changing():
            for _ in range(200):
                archive.set_add('friday', 1)
            for number in range(499):
                archive.set_new(f'set-{number}')
        self.refuses(archive, SetFull, lambda: archive.set_add('friday', 1))
        self.refuses(archive, SetsFull, lambda: archive.set_new('more'))
        self.assertEqual(len(archive.sets()), 500)
        self.assertEqual(len(archive.set_show('friday').places), 200)

    def test_of_queries(self):
        archive = self.make(KESH)
        for call in (lambda: archive.find_title(''), lambda: archive.find_title(' \t'),
                     lambda: archive.find_rhythm(''), lambda: archive.find_key('none'),
                     lambda: archive.find_music('C'), lambda: archive.find_music(''),
                     lambda: archive.find_music('%GAB'), lambda: archive.find_notes('C'),
                     lambda: archive.find_notes('', 'D')):
            self.refuses(archive, BadQuery, call)

    def test_of_limits(self):
        tune = archives.Tune(b'K:C\n', (), b'', b'C 0', ())
        tunes = {number: tune for number in range(1, 20_001)}
        with open(self.path, 'wb') as file:
            archives.Archive(tunes, b'', revision=9_999).write(file)
        archive = self.open(hold=600)
        with archive.changing():
            with self.assertRaises(ArchiveFull):
                archive.import_book(ONE)
            with self.assertRaises(Worn):
                archive.replace(1, 9_999, ONE)
            archive.delete(20_000)
            self.assertEqual(archive.import_book(ONE).first, 20_000)
            with self.assertRaises(BadTune) as raised:
                archive.import_book(ONE + b'D' * 16_000)
            self.assertEqual(raised.exception.why, 'TooLong')
            self.assertEqual(archive.upgrade(), 2)

    def test_of_files(self):
        with self.assertRaises(Unopened) as raised:
            self.open().sets()
        self.assertIn('Archive.make', raised.exception.what_to_do)
        self.assertFalse(os.path.exists(self.path))
        for call in (lambda: self.open().set_new('a'), lambda: self.open().check()):
            self.assertRaises(Unopened, call)
        with open(self.path, 'wb') as file:
            file.write(b'ABC')
        for call in (lambda: self.open().sets(), lambda: self.open().set_new('a'),
                     lambda: self.open().check()):
            self.assertRaises(NotArchive, call)
        with self.assertRaises(NotEmpty):
            self.make()
        with open(self.path, 'wb') as file:
            file.write(b'ABCTUNE1')
        for call in (lambda: self.open().sets(), lambda: self.open().set_new('a'),
                     lambda: self.open().check()):
            self.assertRaises(Damaged, call)
        os.remove(self.path)
        os.mkdir(self.path)
        for call in (lambda: self.open().sets(), lambda: self.open().set_new('a'),
                     lambda: self.open().check(), self.make):
            self.assertRaises(Unopened, call)
        os.rmdir(self.path)
        os.mkfifo(self.path)
        for call in (lambda: self.open().sets(), lambda: self.open().set_new('a')):
            self.assertRaises(Unopened, call)
        self.path = self.at('none/a.abcx')
        self.assertRaises(Unopened, self.make)
        self.path = self.at('tunes.abcx/a.abcx')
        for call in (lambda: self.open().sets(), lambda: self.open().set_new('a')):
            self.assertRaises(Unopened, call)

    @unittest.skipUnless(os.getuid() == 0, 'only root can be somebody else')
    def test_of_rights(self):
        self.make(KESH)
        os.chmod(self.folder, 0o755)
        for mode, asks in ((0o444, True), (0o000, False)):
            os.chmod(self.path, mode)
            ended = subprocess.run(
                [sys.executable, '-B', '-c', f'''
import os, sys
sys.path[:0] = [{CLIENT!r}]
from tunes_archive import *
programs = Programs({program('TUNES')!r}, {program('TUNES_DESK')!r})
os.setgid(65534)
os.setuid(65534)
archive = Archive({self.path!r}, programs=programs)
try:
    print(len(archive.titles()))
except Unopened as fault:
    print('asking', fault)
except NoProgram:
    print('left out')
    sys.exit()
try:
    archive.set_new('a')
except Unopened as fault:
    print('changing', fault)
'''], stdout=subprocess.PIPE, check=True)
            if ended.stdout == b'left out\n':
                self.skipTest('nobody but root may run the programs where they are')
            asked, changed = ended.stdout.decode().splitlines()
            self.assertIn('ermission', changed)
            self.assertTrue(changed.startswith('changing '))
            self.assertTrue(asked == '2' if asks else asked.startswith('asking '), asked)

    def test_of_a_full_disk(self):
        self.make(KESH)
        # a file may have no more bytes than it has: a write past them fails, as on a full disk
        limit = os.path.getsize(self.path) // 512
        path = self.at('limited')
        with open(path, 'w', encoding='ascii') as file:
            file.write(f'#!/bin/sh\ntrap "" XFSZ\nulimit -f {limit}\n'
                       f'exec "{program("TUNES")}" "$@"\n')
        os.chmod(path, 0o755)
        archive = Archive(self.path, programs=Programs(path, programs().tunes_desk))
        self.archives.append(archive)
        for _ in range(2):
            with self.assertRaises(Device) as raised:
                archive.import_book(SESSION * 20)
            self.assertIn('reopen', str(raised.exception))
            self.assertTrue(raised.exception.cause)
            self.assertRaises(Device, archive.sets)
        archive.reopen()
        self.assertEqual(archive.check().tunes, 2)
        self.assertEqual(len(archive.titles()), 2)


class Paths(InFolder):
    """A path is whatever the programs take."""

    def test_odd_paths(self):
        before = os.getcwd()
        os.chdir(self.folder)
        self.addCleanup(os.chdir, before)
        os.mkdir('a folder')
        for name in ('with spaces.abcx', '-f', '--help', '-', 'a\nb', "it's \"$(x)\" `y`;&|*?.abcx",
                     '\u00e9\u4e2d.abcx', 'a folder/../x.abcx', '\x01\x7f', ' ', 'a' * 200):
            for path in (name, os.path.join(self.folder, name), os.fsencode(name)):
                with self.subTest(path=path):
                    with self.make(KESH, path=path) as archive:
                        self.assertEqual(archive.find_title('kesh'), [KESH_ROW])
                        self.assertEqual(archive.check(), Counts(2, 2, 0))
                        # another working folder changes nothing
                        os.chdir('/')
                        archive.let_go()
                        self.assertEqual(len(archive.titles()), 2)
                        os.chdir(self.folder)
                    self.assertTrue(os.path.isfile(path))
                    os.remove(path)

    def test_what_is_no_path(self):
        for path in ('', b'', 'a\0b', b'\xff.abcx', 'a\udcff', '\ud800'):
            with self.subTest(path=path), self.assertRaises(ValueError):
                Archive(path, programs=programs())
        with self.assertRaises(ValueError) as raised:
            Archive(b'\xff.abcx', programs=programs())
        self.assertIn('UTF-8', str(raised.exception))
        for path in (None, 1, []):
            with self.subTest(path=path), self.assertRaises(TypeError):
                Archive(path, programs=programs())

    def test_in_a_folder_that_is_no_utf_8(self):
        folder = os.fsencode(self.at('a')) + b'\xff'
        os.mkdir(folder)
        before = os.getcwd()
        os.chdir(folder)
        self.addCleanup(os.chdir, before)
        with self.make(KESH, path='a.abcx') as archive:
            self.assertEqual(len(archive.titles()), 2)

    def test_options(self):
        for options in ({'hold': -1}, {'wait': -1}, {'hold': float('nan')}, {'patience': -1}):
            with self.subTest(options=options), self.assertRaises(ValueError):
                Archive(self.path, programs=programs(), **options)

    def test_very_long_times(self):
        for seconds in (1e300, float('inf'), 10 ** 11):
            archive = self.open(hold=seconds, wait=seconds, patience=seconds)
            self.assertRaises(Unopened, archive.sets)
        self.make()
        for seconds in (1e300, float('inf'), 10 ** 11, 1e-9):
            with self.open(hold=seconds, wait=seconds, patience=max(1, seconds)) as archive:
                self.assertEqual(archive.sets(), [])

    def test_closed(self):
        archive = self.make()
        archive.close()
        archive.close()
        for call in (archive.sets, lambda: archive.set_new('a'), archive.check):
            self.assertRaises(ValueError, call)
        with self.assertRaises(ValueError), archive.reading():
            pass
        archive.reopen()
        self.assertEqual(archive.sets(), [])


class Memory(InFolder):
    """What a large book takes."""

    def test_a_book_of_ten_million_bytes(self):
        archive = self.make(KESH)
        with self.assertRaises(BookTooLong):
            archive.import_book(b'X:1\nK:C\nC\n' * 1_000_000)
        self.assertEqual(len(archive.titles()), 2)
        self.assertLess(resource.getrusage(resource.RUSAGE_SELF).ru_maxrss, PATIENCE * 20_000)


if __name__ == '__main__':
    unittest.main()
