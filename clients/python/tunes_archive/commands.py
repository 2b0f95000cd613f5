"""The lines of a script, by "Lines" and "Commands" in docs/SCRIPTS.md.

What would end a line, or be another word than it is meant for, is refused here by ValueError,
before anything is written.
"""
import operator
from typing import Dict, List, Tuple

from .texts import Text, bytes_of

LONGEST_LINE = 4_096
MOST_NUMBER = 999_999_999

METHODS: Dict[str, str] = {
    'import N': 'import_book',
    'replace NUM REV N': 'replace',
    'delete NUM': 'delete',
    'renumber NUM TO': 'renumber',
    'show NUM': 'show',
    'find title REST': 'find_title',
    'find rhythm REST': 'find_rhythm',
    'find key REST': 'find_key',
    'find notes REST': 'find_music',
    'titles': 'titles',
    'set-new NAME': 'set_new',
    'set-add NAME NUM': 'set_add',
    'set-cut NAME PLACE': 'set_cut',
    'set-drop NAME': 'set_drop',
    'sets': 'sets',
    'set-show NAME': 'set_show',
    'export': 'export',
    'export-set NAME': 'export_set',
    'upgrade': 'upgrade',
}
"""The method of `Archive` for each command, as docs/SCRIPTS.md writes its line."""

SIGNATURES: Tuple[bytes, ...] = (
    b'Cb', b'Gb', b'Db', b'Ab', b'Eb', b'Bb', b'F', b'C', b'G', b'D', b'A', b'E', b'B', b'F#',
    b'C#')
"""The tonics of the fifteen signatures, from seven flats to seven sharps."""


def number_word(number: int) -> bytes:
    """A number as a word: of at most nine digits."""
    if isinstance(number, bool):
        raise TypeError('a number is no bool')
    number = operator.index(number)
    if not 0 <= number <= MOST_NUMBER:
        raise ValueError(f'{number} is no number from 0 to {MOST_NUMBER:,}')
    return b'%d' % number


def name_word(name: Text) -> bytes:
    """A name as a word: of any bytes but blanks and what ends a line."""
    word = bytes_of(name)
    if not word:
        raise ValueError('a name has at least one byte')
    if any(byte in word for byte in b' \t\r\n'):
        raise ValueError(f'{name!r} is no name: it has a blank or the end of a line in it')
    return word


def rest_words(text: Text) -> bytes:
    """What a query asks for, as the rest of a line. Blanks at its ends do not count."""
    rest = bytes_of(text)
    if any(byte in rest for byte in b'\r\n'):
        raise ValueError(f'{text!r} cannot be asked for: it has the end of a line in it')
    return rest


def line_of(*words: bytes) -> bytes:
    """The line of these words."""
    line = b' '.join(words)
    if len(line) > LONGEST_LINE:
        raise ValueError(f'a line of {len(line):,} bytes: it has {LONGEST_LINE:,} at most')
    return line + b'\n'


def with_book(book: Text, *words: bytes) -> bytes:
    """The line of these words and the length of a book, and the book."""
    data = bytes_of(book)
    if len(data) > MOST_NUMBER:
        raise ValueError(f'a book of {len(data):,} bytes: it has 4,000,000 at most')
    return line_of(*words, b'%d' % len(data)) + data


def music_in(key: Text, notes: Text) -> bytes:
    """Notes as they are printed in a key, as a line of music in C."""
    name = bytes_of(key)
    if not name.strip() or any(byte in name for byte in b']%\r\n'):
        raise ValueError(f'{key!r} is no key')
    return b'[K:%b]%b' % (name, rest_words(notes))


def printed_in_all(notes: Text) -> List[bytes]:
    """Notes as they are printed in each of the fifteen signatures."""
    return [music_in(key, notes) for key in SIGNATURES]
