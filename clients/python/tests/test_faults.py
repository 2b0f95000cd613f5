"""Programs that do what `tunes` does not: fakes in its place."""
import os
import time
import unittest
from unittest import mock

from support import PATIENCE, InFolder

from tunes_archive import (Archive, ArchiveFault, BadLine, Device, Imported, InUse, NoProgram,
                           OutOfMemory, Programs, Refused, Row, Unknown, Unopened, find_programs,
                           keeping, programs, runs)


class Replies(InFolder):
    """What is no reply is a fault, and the next call begins anew."""

    def setUp(self):
        super().setUp()
        # many of these programs do not end by themselves
        patched = mock.patch.object(runs, 'GRACE', 0.3)
        patched.start()
        self.addCleanup(patched.stop)

    def faults(self, body, call=lambda archive: archive.sets(), **options):
        return self.faults_of(self.faked(body, **options), call)

    def faults_of(self, archive, call=lambda archive: archive.sets()):
        with self.assertRaises(ArchiveFault) as raised:
            call(archive)
        self.assertTrue(raised.exception.what_to_do)
        self.assertNoneLeft()
        return str(raised.exception)

    def test_nonsense(self):
        for words in (b'nonsense\n', b'ok\n', b'ok sets\n', b'ok sets 1 2\n', b'ok  sets 1\n',
                      b'ok sets 01\nfriday 1\n', b'ok sets -1\n', b'ok sets x\n', b'OK sets 0\n',
                      b'ok sets 0 \n', b'ok titles 0\n', b'ok sets 1\nfriday\n', b'ok sets 0\r\n',
                      b'ok sets 1\nfriday x\n', b'ok sets 1\n 1\n', b'ok sets 1\nf\xe9 1\n', b'\n',
                      b'refused\n', b'refused 11\n', b'refused 11 Unknown\n', b'refused 20 Full\n',
                      b'refused 4 Unknown\n', b'refused 4 Unknown x\n', b'refused 11 NoSuchSet 1\n',
                      b'refused 2 BadTune 1\n', b'ok sets 0\nmore\n', b'ok sets 0\n\n', b'\0\n',
                      b'ok sets ' + b'9' * 16 + b'\n', b'refused 8 InSet \xe9\n'):
            with self.subTest(words=words):
                self.assertIn('does not answer as tunes does',
                              self.faults_of(self.brief(words)))

    def test_nonsense_for_other_commands(self):
        for words, call in (
                (b'ok import 2 1\n', lambda archive: archive.import_book(b'')),
                (b'ok import 0 1\n', lambda archive: archive.import_book(b'')),
                (b'ok show 2 1 4\nX:2\n', lambda archive: archive.show(1)),
                (b'ok show 1 1 4\nX:2\n', lambda archive: archive.show(1)),
                (b'ok set-show f 1\n2 1 A\n', lambda archive: archive.set_show('f')),
                (b'ok set-show f 1\n1\n', lambda archive: archive.set_show('f')),
                (b'ok set-show g 0\n', lambda archive: archive.set_show('f')),
                (b'ok find 1\nx Kesh\n', lambda archive: archive.find_title('a')),
                (b'ok find 1\n\n', lambda archive: archive.find_title('a')),
                (b'ok set-new g\n', lambda archive: archive.set_new('f')),
                (b'ok delete 2\n', lambda archive: archive.delete(1)),
                (b'ok replace 2 2\n', lambda archive: archive.replace(1, 1, b''))):
            with self.subTest(words=words):
                self.assertIn('does not answer as tunes does',
                              self.faults_of(self.brief(words), call))

    def test_a_line_without_end(self):
        self.assertIn('aaaa..', self.faults(
            'line()\nsay(b"a" * 3000000)\nline()'))

    def test_an_answer_before_the_question(self):
        archive = Archive(self.path, programs=self.fake(
            'line()\nsay(b"refused 11 NoSuchSet\\nok sets 0\\n")\nline()\nline()'))
        with self.assertRaises(ArchiveFault):
            archive.sets()
        self.assertNoneLeft()

    def test_an_answer_before_the_book_is_read(self):
        # the rest of the book fits in no pipe
        self.faults('line()\nsay(b"ok import 1 1\\n")\ntime.sleep(600)',
                    lambda archive: archive.import_book(b'a' * 3_000_000))

    def test_ends_early(self):
        for body, said in (('line()', 'by status 0'), ('line()\nsys.exit(7)', 'by status 7'),
                           ('line()\nos.write(2, b"no \\x1b luck")\nsys.exit(1)', 'no \ufffd luck'),
                           ('line()\nos.kill(os.getpid(), 9)', 'by signal 9'),
                           ('line()\nsay(b"ok sets 2\\nfriday 1\\n")\nos.abort()', 'signal')):
            with self.subTest(body=body):
                self.assertIn(said, self.faults(body))

    def test_a_kill_between_each_byte_of_a_reply(self):
        reply = b'ok show 3 1 12\nX:3\nT:\xe9\nK:C\n'
        for length in range(len(reply)):
            with self.subTest(length=length):
                self.assertIn('by signal 9', self.faults_of(
                    self.brief(reply[:length], 'kill -9 $$'), lambda archive: archive.show(3)))

    def test_a_reply_byte_by_byte(self):
        reply = b'ok titles 2\n1 Kesh Jig, The\n2\n'
        archive = self.faked(f'line()\nfor byte in {reply!r}:\n    say(bytes([byte]))\nline()')
        self.assertEqual(archive.titles(), [Row(1, b'Kesh Jig, The'), Row(2, None)])

    def test_a_silent_program(self):
        self.assertIn('in time', self.faults('line()\ntime.sleep(600)', patience=0.2))
        self.assertIn('in time', self.faults('time.sleep(600)', patience=0.2))

    def test_a_program_that_does_not_end(self):
        with mock.patch.object(runs, 'GRACE', 0.2):
            archive = self.faked('line()\nsay(b"ok sets 0\\n")\ntime.sleep(600)', hold=0)
            self.assertEqual(archive.sets(), [])
            self.assertNoneLeft(within=0)
            # nor one that ignores signals, and that started another one
            archive = self.faked('signal.signal(15, signal.SIG_IGN)\nos.fork()\n'
                                 'signal.pause()', patience=0.2)
            with self.assertRaises(ArchiveFault):
                archive.sets()
            self.assertNoneLeft(within=5)

    def test_much_on_standard_error(self):
        archive = self.faked('line()\nos.write(2, b"e" * 900000)\nsay(b"ok sets 0\\n")\nline()')
        self.assertEqual(archive.sets(), [])

    def test_a_program_that_is_killed_while_nobody_asks(self):
        archive = self.faked('while True:\n    line()\n    say(b"ok sets 0\\n")', hold=600)
        self.assertEqual(archive.sets(), [])
        self.kill_all()
        self.assertEqual(archive.sets(), [])
        with archive.reading():
            self.assertEqual(archive.sets(), [])
            self.kill_all()
            for _ in range(2):
                with self.assertRaises(ArchiveFault):
                    archive.sets()
        self.assertEqual(archive.sets(), [])
        archive.close()

    def test_after_a_fault_the_next_call_begins_anew(self):
        first = self.at('first')
        archive = self.faked(f'if not os.path.exists({first!r}):\n    open({first!r}, "w")\n'
                             '    sys.exit(1)\nline()\nsay(b"ok sets 0\\n")\nline()')
        with self.assertRaises(ArchiveFault):
            archive.sets()
        self.assertEqual(archive.sets(), [])
        archive.close()

    def test_a_run_has_a_million_lines(self):
        count = self.at('count')
        archive = self.faked(f'open({count!r}, "a").write("x")\nfor _ in range(9):\n    line()\n'
                             '    say(b"ok sets 0\\n")', hold=600)
        with mock.patch.object(keeping, 'MOST_LINES', 10):
            for _ in range(19):
                archive.sets()
            with open(count, encoding='ascii') as file:
                self.assertEqual(len(file.read()), 3)
            with archive.reading():
                for _ in range(8):
                    archive.sets()
                with self.assertRaises(ArchiveFault):
                    archive.sets()
        archive.close()

    def test_a_book_is_written_while_a_reply_is_read(self):
        # a reply of 3 MB is written before the last 9 MB of the book are read
        archive = self.faked('line()\nos.read(0, 1000)\nsay(b"refused 16 BadName\\n" * 0)\n'
                             'left = 10000000 - 1000\nos.write(2, b"e" * 1000000)\n'
                             'while left:\n    left -= len(os.read(0, min(left, 65536)))\n'
                             'say(b"ok import 1 2\\n")\nline()')
        self.assertEqual(archive.import_book(b'a' * 10_000_000), Imported(1, 2))
        archive.close()


class Opening(InFolder):
    """What a program says where it does not open a file."""

    def unopened(self, output, errors, status, desk=True):
        """What is raised where a program says this of the file."""
        at = os.fsencode(self.path)
        said = b''.join(b'%b: %b: %b\n' % (b'tunes-book' if desk else b'tunes', at, cause)
                        for cause in errors)
        body = (f'os.write(2, {said!r})\nsay({output!r})\nsys.exit({status})')
        archive = Archive(self.path, programs=self.fake(body), wait=0)
        with self.assertRaises(Exception) as raised:
            if desk:
                archive.sets()
            else:
                archive.set_new('a')
        self.assertNoneLeft()
        archive.close()
        return raised.exception

    def test_in_use(self):
        for desk, output, cause in (
                (True, b'', b'another program has it open; wait until that ends'),
                (True, b'', b'a stop left it within a change, and another program has it open now'),
                (False, b'refused 22 Device\n', b'another program has it')):
            self.assertIs(type(self.unopened(output, [cause], 1, desk)), InUse)

    def test_no_such_file(self):
        fault = self.unopened(b'', [b'there is no such file; look at the path, or make it'], 1)
        self.assertIs(type(fault), Unopened)
        self.assertIn('Archive.make', fault.what_to_do)

    def test_memory_and_device(self):
        self.assertIs(type(self.unopened(b'refused 21 OutOfMemory\n', [], 1, False)), OutOfMemory)
        self.assertIs(type(self.unopened(b'', [b'there is not memory enough; end'], 1)),
                      OutOfMemory)
        fault = self.unopened(b'refused 22 Device\n', [b'Input/output error (os error 5)'], 1,
                              False)
        self.assertIs(type(fault), Device)
        self.assertIn('Input/output error', str(fault))
        self.assertIs(type(self.unopened(b'', [b'the device failed; look at the disk'], 1)), Device)

    def test_what_is_not_known(self):
        self.assertIs(type(self.unopened(b'', [b'something else'], 9)), ArchiveFault)
        self.assertIs(type(self.unopened(b'nonsense', [], 9)), ArchiveFault)
        self.assertIs(type(self.unopened(b'', [], -9)), ArchiveFault)

    def test_a_path_that_says_so_itself(self):
        self.path = self.at('another program has it\ntunes: another program has it')
        fault = self.unopened(b'refused 22 Device\n', [b'Input/output error'], 1, False)
        self.assertIs(type(fault), Device)
        self.assertIs(type(self.unopened(b'refused 22 Device\n', [b'another program has it'], 1,
                                         False)), InUse)

    def test_waiting(self):
        tries = self.at('tries')
        body = (f'open({tries!r}, "a").write("x")\n'
                f'if len(open({tries!r}).read()) < 4:\n'
                f'    os.write(2, b"tunes-book: %b: another program has it open\\n" '
                f'% {os.fsencode(self.path)!r})\n    sys.exit(1)\n'
                'probed()\nline()\nsay(b"ok sets 0\\n")\nline()')
        archive = Archive(self.path, programs=self.fake(body), wait=PATIENCE)
        self.assertEqual(archive.sets(), [])
        archive.close()


class Failing(InFolder):
    """A refusal 22 ends it, until it is opened anew."""

    def test_a_device_that_failed(self):
        archive = self.faked('line()\nsay(b"refused 22 Device\\n")\n'
                             'os.write(2, b"tunes: x: Input/output error\\n")\nline()')
        for _ in range(3):
            with self.assertRaises(Device) as raised:
                archive.set_new('friday')
            self.assertIn('Input/output error', raised.exception.cause)
            self.assertIn('reopen', str(raised.exception))
            with self.assertRaises(Device):
                archive.sets()
            with self.assertRaises(Device), archive.reading():
                pass
            self.assertNoneLeft()
        archive.reopen()
        with self.assertRaises(Device):
            archive.sets()

    def test_in_a_block(self):
        archive = self.faked('line()\nsay(b"refused 22 Device\\n")\nline()')
        with archive.changing():
            for _ in range(2):
                with self.assertRaises(Device):
                    archive.set_new('friday')
        with self.assertRaises(Device):
            archive.sets()

    def test_memory_does_not_end_it(self):
        archive = self.faked('while True:\n    line()\n    say(b"refused 21 OutOfMemory\\n")')
        for _ in range(2):
            with self.assertRaises(OutOfMemory):
                archive.sets()
        archive.close()

    def test_a_bad_line_ends_the_run(self):
        archive = self.faked('line()\nsay(b"refused 30 BadLine\\n")\nline()')
        for _ in range(2):
            with self.assertRaises(BadLine):
                archive.sets()
        self.assertNoneLeft()

    def test_one_of_several_questions(self):
        archive = self.faked('for _ in range(15):\n    line()\n    say(b"refused 4 Unknown 7\\n")\n'
                             'line()\nsay(b"ok sets 0\\n")\nline()')
        with self.assertRaises(Unknown) as raised:
            archive.find_notes('GAB')
        self.assertEqual((raised.exception.tune, raised.exception.number), (7, 4))
        self.assertEqual(archive.sets(), [])
        archive.close()


class Finding(InFolder):
    """Where the programs are, and which."""

    def setUp(self):
        super().setUp()
        os.mkdir(self.at('bin'))
        for name in ('tunes', 'tunes-desk'):
            self.fake('print(os.path.basename(sys.argv[0]), "0.1.0")', os.path.join('bin', name))
        clean = {name: value for name, value in os.environ.items()
                 if name not in ('TUNES', 'TUNES_DESK')}
        self.patched = mock.patch.dict(os.environ, {**clean, 'PATH': self.at('none')}, clear=True)
        self.patched.start()
        self.addCleanup(self.patched.stop)

    def there(self):
        return Programs(self.at('bin/tunes'), self.at('bin/tunes-desk'))

    def test_ways(self):
        with self.assertRaises(NoProgram) as raised:
            find_programs()
        self.assertIn('TUNES', raised.exception.what_to_do)
        self.assertEqual(find_programs(self.at('bin/tunes')), self.there())
        self.assertEqual(find_programs(None, os.fsencode(self.at('bin/tunes-desk'))), self.there())
        os.environ['TUNES'] = self.at('bin/tunes')
        self.assertEqual(find_programs(), self.there())
        del os.environ['TUNES']
        os.environ['PATH'] = self.at('bin')
        self.assertEqual(find_programs(), self.there())
        os.environ['TUNES_DESK'] = 'tunes-desk'
        self.assertEqual(find_programs(), self.there())
        self.assertEqual(find_programs('tunes', 'tunes-desk'), self.there())
        with self.assertRaises(NoProgram):
            find_programs('other')
        os.environ['TUNES_DESK'] = self.at('bin')
        with self.assertRaises(NoProgram):
            Archive(self.path)

    def test_versions(self):
        for told, fits in (('tunes 0.1', True), ('tunes 0.1.7', True), ('tunes-book 0.1.0', True),
                           ('tunes 0.2.0', False), ('tunes 0.10.0', False), ('tunes', False),
                           ('tunes 1.0', False), ('other 0.1.0', False), ('', False)):
            path = self.fake(f'print({told!r})', 'some').tunes
            with self.subTest(told=told), mock.patch.dict(programs._asked, clear=True):
                if fits:
                    find_programs(path, path)
                else:
                    with self.assertRaises(NoProgram) as raised:
                        find_programs(path, path)
                    self.assertIn('0.1', str(raised.exception))

    def test_a_version_is_asked_for_once(self):
        count = self.at('count')
        path = self.fake(f'open({count!r}, "a").write("x")\nprint("tunes 0.1.0")', 'some').tunes
        for _ in range(3):
            find_programs(path, path)
        with open(count, encoding='ascii') as file:
            self.assertEqual(file.read(), 'x')

    def test_what_cannot_be_run(self):
        with open(self.at('none.txt'), 'w', encoding='ascii') as file:
            file.write('nothing')
        with self.assertRaises(NoProgram):
            find_programs(self.at('none.txt'))
        os.chmod(self.at('none.txt'), 0o755)
        with self.assertRaises(NoProgram):
            find_programs(self.at('none.txt'), self.at('none.txt'))
        path = self.fake('time.sleep(600)', 'some').tunes
        with mock.patch.object(programs, 'PATIENCE', 0.2), mock.patch.object(
                runs, 'GRACE', 0.2), self.assertRaises(NoProgram):
            find_programs(path, path)
        archive = Archive(self.path, programs=Programs(self.at('gone'), self.at('gone')))
        with self.assertRaises(NoProgram):
            archive.sets()


class Words(unittest.TestCase):
    """Every refusal says something, and can be passed to another process."""

    def test_refusals(self):
        import pickle
        from tunes_archive import REFUSALS, errors
        for number, kind in REFUSALS.items():
            words = ['7' if form == errors.NUMBER else 'friday' for form in errors.CARRIED[number]]
            refused = errors.refusal_of(number, words)
            self.assertIs(type(refused), kind)
            self.assertEqual(refused.reply,
                             ' '.join(['refused', str(number), kind.__name__] + words))
            self.assertIn(refused.reply, str(refused))
            self.assertIsInstance(refused, Refused)
            again = pickle.loads(pickle.dumps(refused))
            self.assertEqual((type(again), again.words, str(again)),
                             (kind, refused.words, str(refused)))
        fault = pickle.loads(pickle.dumps(InUse('why', 'what')))
        self.assertEqual((fault.why, fault.what_to_do, str(fault)), ('why', 'what', 'why; what'))


if __name__ == '__main__':
    unittest.main()
