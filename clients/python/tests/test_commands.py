"""The lines of scripts, and what can be no part of one."""
import inspect
import re
import unittest
import unittest.mock

from support import InFolder, read

import tunes_archive
from tunes_archive import Archive, REFUSALS, bytes_of, commands, errors, label_of, string_of

PAGE = read('docs', 'SCRIPTS.md').decode('utf-8')


def part(heading):
    """A part of the page, up to the next heading of any kind."""
    return re.split(r'^#', PAGE.partition(f'\n{heading}\n')[2], flags=re.M)[0]


class ThePage(unittest.TestCase):
    """What docs/SCRIPTS.md has, the client has."""

    def test_each_command_has_a_method(self):
        lines = re.findall(r'^\| `([^`]+)`', part('## Commands'), re.M)
        self.assertEqual(sorted(lines), sorted(commands.METHODS))
        for line, name in commands.METHODS.items():
            method = getattr(Archive, name)
            self.assertTrue(inspect.getdoc(method), name)
            # each word in capitals is an argument, but for the length of a book, which is the book
            asked = re.findall(r'\b[A-Z]+\b', line)
            self.assertEqual(len(asked), len(inspect.signature(method).parameters) - 1, name)

    def test_each_refusal_has_a_class(self):
        rows = re.findall(r'^\| `refused (\d+) (\w+)((?: \w+)*)`', part('## Refusals'), re.M)
        self.assertGreater(len(rows), 20)
        for number, name, carried in rows:
            kind = REFUSALS[int(number)]
            self.assertEqual(kind.__name__, name)
            self.assertEqual(len(carried.split()), len(errors.CARRIED[int(number)]), name)
        told = {int(number) for number, _, _ in rows}
        told |= {int(number) for number in re.findall(r'`refused (4\d) \w+`', PAGE)}
        self.assertEqual(told, set(REFUSALS))
        self.assertTrue(all(kind.__name__ in tunes_archive.__all__ for kind in REFUSALS.values()))

    def test_limits(self):
        self.assertIn(f'at most {commands.LONGEST_LINE:,} bytes before its line feed', PAGE)
        self.assertIn('At most 1,000,000 lines are read', PAGE)
        self.assertIn('A number is 1 to 9 decimal digits', PAGE)


class Lines(InFolder):
    """What is refused before anything is written: no program is there to be asked."""

    def setUp(self):
        super().setUp()
        self.archive = Archive(self.path, programs=tunes_archive.Programs('/none', '/none'))

    def test_names(self):
        for name in ('', ' ', 'a b', 'a\tb', 'a\nb', 'a\n', '\r', 'friday\r', b'a\nset-drop b',
                     'x\nset-drop friday', '\ud800', 'a' * 5000):
            for call in (self.archive.set_new, self.archive.set_drop, self.archive.set_show,
                         self.archive.export_set, lambda name: self.archive.set_add(name, 1),
                         lambda name: self.archive.set_cut(name, 1)):
                with self.subTest(name=name[:20]), self.assertRaises(ValueError):
                    call(name)

    def test_queries(self):
        for text in ('a\nb', b'kesh\nset-drop friday', 'kesh\n', 'kesh\r', 'a\rb', '\udfff',
                     b'a' * 4096):
            for call in (self.archive.find_title, self.archive.find_rhythm,
                         self.archive.find_key, self.archive.find_music,
                         self.archive.find_notes):
                with self.subTest(text=text[:20]), self.assertRaises(ValueError):
                    call(text)

    def test_keys(self):
        for key in ('', ' ', 'G]abc[K:D', 'D]', 'D%', 'D\n', b'D\r', 'D\nsets'):
            with self.subTest(key=key), self.assertRaises(ValueError):
                self.archive.find_notes('GAB', key)

    def test_numbers(self):
        for number in (-1, 1_000_000_000, 10 ** 40):
            for call in (self.archive.show, self.archive.delete,
                         lambda number: self.archive.renumber(1, number),
                         lambda number: self.archive.renumber(number, 1),
                         lambda number: self.archive.replace(number, 1, b''),
                         lambda number: self.archive.replace(1, number, b''),
                         lambda number: self.archive.set_add('a', number),
                         lambda number: self.archive.set_cut('a', number)):
                with self.subTest(number=number), self.assertRaises(ValueError):
                    call(number)
        for number in ('1', 1.0, True, None, b'1', '1\nsets'):
            with self.subTest(number=number), self.assertRaises(TypeError):
                self.archive.show(number)

    def test_texts_are_texts(self):
        for text in (None, 1, ['a']):
            with self.subTest(text=text), self.assertRaises(TypeError):
                self.archive.find_title(text)
            with self.subTest(text=text), self.assertRaises(TypeError):
                self.archive.import_book(text)

    def test_a_book_longer_than_a_number_tells(self):
        # only what the length is matters, and no such book is made
        class Long(bytes):
            def __len__(self):
                return 1_000_000_000
        with unittest.mock.patch.object(commands, 'bytes_of', lambda book: Long()):
            with self.assertRaises(ValueError):
                commands.with_book(b'', b'import')

    def test_lines(self):
        self.assertEqual(commands.line_of(b'show', b'1'), b'show 1\n')
        self.assertEqual(len(commands.line_of(b'a' * 4096)), 4097)
        with self.assertRaises(ValueError):
            commands.line_of(b'a' * 4097)
        self.assertEqual(commands.with_book('\u00e9', b'import'), b'import 2\n\xc3\xa9')


class Texts(unittest.TestCase):
    """No byte is lost or changed."""

    def test_all_bytes_come_back(self):
        for data in (bytes(range(256)), b'', b'\xc3', b'\xc3\xa9\xe9', b'\xed\xa0\x80', b'\xf4\x90',
                     b'\xe2\x82', 'An B\u00f3thar M\u00f3r'.encode(), b'\0'):
            self.assertEqual(bytes_of(string_of(data)), data)
        for byte in range(256):
            for other in range(256):
                self.assertEqual(bytes_of(string_of(bytes((byte, other)))), bytes((byte, other)))

    def test_labels(self):
        self.assertEqual(label_of(b'caf\xe9 \xc3\xa9'), 'caf\u00e9 \u00e9')
        self.assertEqual(label_of(b'\x1b[31mred\x7f\x9b\n'), '\ufffd[31mred\ufffd\ufffd\ufffd')
        label_of(bytes(range(256))).encode('utf-8')

    def test_rows(self):
        self.assertIsNone(tunes_archive.Row(1, None).title)
        self.assertEqual(tunes_archive.Row(1, None).label, '')
        self.assertEqual(tunes_archive.Row(1, b'\xe9').title, '\udce9')
        self.assertEqual(tunes_archive.Tune(3, 1, b'K:C\n').book, b'X:3\nK:C\n')
        with self.assertRaises(AttributeError):
            tunes_archive.Row(1, b'').number = 2


if __name__ == '__main__':
    unittest.main()
