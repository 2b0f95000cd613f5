"""20,000 tunes, with limits of time that a slow machine meets."""
import time
import unittest

from support import InFolder

from tunes_archive import Counts, Imported

MANY = 20_000
# Seconds that each call may take.
MOST = 60


def book_of(count):
    """A book of tunes, each with notes and a title of its own."""
    tunes = []
    for number in range(count):
        notes = ''.join('CDEFGABc'[number >> shift & 7] for shift in range(0, 15, 3))
        tunes.append(f'X:{number}\nT:Tune number {number}\nR:{"jig" if number % 2 else "reel"}\n'
                     f'K:{"GDAE"[number % 4]}\nC{notes} CDEF|GABc c2|\n')
    return '\n'.join(tunes).encode()


class Large(InFolder):
    """One archive, opened as seldom as may be."""

    def within(self, call, *words):
        begun = time.monotonic()
        given = call(*words)
        self.assertLess(time.monotonic() - begun, MOST, call)
        return given

    def test_20_000_tunes(self):
        book = book_of(MANY)
        archive = self.make(hold=600)
        self.assertEqual(self.within(archive.import_book, book), Imported(1, MANY))
        self.within(archive.let_go)
        self.assertEqual(self.within(archive.check), Counts(2, MANY, 0))
        titles = self.within(archive.titles)
        self.assertEqual(len(titles), MANY)
        self.assertEqual({row.number for row in titles}, set(range(1, MANY + 1)))
        found = self.within(archive.find_title, 'tune number 1999')
        self.assertEqual([row.number for row in found], [2000, *range(19991, 20001)])
        self.assertEqual(len(self.within(archive.find_rhythm, 'jig')), MANY // 2)
        self.assertEqual(len(self.within(archive.find_key, 'D')), MANY // 4)
        notes = 'C' + ''.join('CDEFGABc'[12345 >> shift & 7] for shift in range(0, 15, 3))
        found = self.within(archive.find_notes, notes + ' CDEF|GA')
        self.assertIn(12346, [row.number for row in found])
        self.assertLess(len(found), 100)
        begun = time.monotonic()
        with archive.reading():
            for number in range(1, MANY, 40):
                self.assertIn(b'T:Tune number %d\n' % (number - 1), archive.show(number).text)
        self.assertLess(time.monotonic() - begun, MOST)
        exported = self.within(archive.export)
        self.assertEqual(exported.count(b'\nX:'), MANY)
        self.assertTrue(exported.endswith(book.rpartition(b'\n\n')[2].partition(b'\n')[2]))
        with archive.changing():
            archive.set_new('many')
            for number in range(200):
                self.assertEqual(archive.set_add('many', MANY - number), number + 1)
        self.assertEqual(len(self.within(archive.set_show, 'many').places), 200)


if __name__ == '__main__':
    unittest.main()
