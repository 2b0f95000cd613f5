"""How replies are read, by docs/SCRIPTS.md. What is no reply to the command is `NoReply`."""
import re
from typing import Callable, List, Optional, Protocol, TypeVar, Union

from .errors import CARRIED, NUMBER, REFUSALS, Refused, refusal_of
from .results import Counts, Imported, Place, Row, SetList, SetRow, Tune
from .texts import string_of

T = TypeVar('T')

MOST_SHOWN = 80
_NUMBER = re.compile(rb'0|[1-9][0-9]{0,14}')
_COUNTS = re.compile(rb'layout ([1-9]) tunes ([0-9]{1,9}) sets ([0-9]{1,9})')


class NoReply(Exception):
    """What came is no reply to what was asked."""

    def __init__(self, came: bytes) -> None:
        shown = came if len(came) <= MOST_SHOWN else came[:MOST_SHOWN] + b'..'
        super().__init__(f'it wrote {shown!r}')


class Source(Protocol):
    """The replies of a run, as they come."""

    def line(self) -> bytes:
        """The next line, without its line feed."""

    def exactly(self, length: int) -> bytes:
        """So many bytes."""


Taker = Callable[[Source], T]
"""What reads one reply. It raises `Refused` or `NoReply`."""


def number_of(word: bytes) -> int:
    if not _NUMBER.fullmatch(word):
        raise NoReply(word)
    return int(word)


def refusal_in(line: bytes) -> Refused:
    """The refusal that a line tells."""
    words = line.split(b' ')
    if len(words) < 3 or not _NUMBER.fullmatch(words[1]):
        raise NoReply(line)
    number, carried = int(words[1]), words[3:]
    form = CARRIED.get(number)
    if form is None or len(form) != len(carried) or not line.isascii():
        raise NoReply(line)
    if words[2].decode('ascii') != REFUSALS[number].__name__:
        raise NoReply(line)
    if any(kind == NUMBER and not _NUMBER.fullmatch(word) for kind, word in zip(form, carried)):
        raise NoReply(line)
    return refusal_of(number, [word.decode('ascii') for word in carried])


def accepted(source: Source, words: bytes, count: int) -> List[int]:
    """The numbers of the line `ok`, these words, and so many numbers."""
    line = source.line()
    if line.startswith(b'refused '):
        raise refusal_in(line)
    front = b'ok %b' % words
    rest = line[len(front):].split(b' ')[1:]
    if not line.startswith(front) or len(rest) != count or (
            line != b' '.join([front] + rest)):
        raise NoReply(line)
    try:
        return [number_of(word) for word in rest]
    except NoReply as no_reply:
        raise NoReply(line) from no_reply


def row_in(line: bytes) -> Row:
    """The row of a line."""
    number, blank, title = line.partition(b' ')
    return Row(number_of(number), title if blank else None)


# TAKERS

def told(words: bytes) -> Taker[None]:
    """Of a reply of these words alone."""
    def take(source: Source) -> None:
        accepted(source, words, 0)
    return take


def told_number(words: bytes) -> Taker[int]:
    """Of a reply of these words and a number."""
    def take(source: Source) -> int:
        number, = accepted(source, words, 1)
        return number
    return take


def imported(source: Source) -> Imported:
    """Of `import`."""
    first, last = accepted(source, b'import', 2)
    if not 1 <= first <= last:
        raise NoReply(b'ok import %d %d' % (first, last))
    return Imported(first, last)


def shown(number: int) -> Taker[Tune]:
    """Of `show`."""
    front = b'X:%d\n' % number

    def take(source: Source) -> Tune:
        revision, length = accepted(source, b'show %d' % number, 2)
        book = source.exactly(length)
        if not book.startswith(front):
            raise NoReply(book)
        return Tune(number, revision, book[len(front):])
    return take


def rows(words: bytes) -> Taker[List[Row]]:
    """Of `find` and of `titles`."""
    def take(source: Source) -> List[Row]:
        count, = accepted(source, words, 1)
        return [row_in(source.line()) for _ in range(count)]
    return take


def set_rows(source: Source) -> List[SetRow]:
    """Of `sets`."""
    count, = accepted(source, b'sets', 1)
    return [set_row_in(source.line()) for _ in range(count)]


def set_row_in(line: bytes) -> SetRow:
    name, _, length = line.partition(b' ')
    if not name or not name.isascii():
        raise NoReply(line)
    return SetRow(name.decode('ascii'), number_of(length))


def set_list(name: bytes) -> Taker[SetList]:
    """Of `set-show`."""
    def take(source: Source) -> SetList:
        count, = accepted(source, b'set-show %b' % name, 1)
        places = tuple(place_in(source.line(), place) for place in range(1, count + 1))
        return SetList(string_of(name), places)
    return take


def place_in(line: bytes, place: int) -> Place:
    told_place, blank, row = line.partition(b' ')
    if not blank or told_place != b'%d' % place:
        raise NoReply(line)
    return Place(place, row_in(row))


def book(words: bytes) -> Taker[bytes]:
    """Of `export` and of `export-set`."""
    def take(source: Source) -> bytes:
        length, = accepted(source, words, 1)
        return source.exactly(length)
    return take


def counts_in(output: bytes) -> Optional[Counts]:
    """What a program told that counted an archive, if it did."""
    found = _COUNTS.fullmatch(output[:-1]) if output.endswith(b'\n') else None
    if found is None:
        return None
    layout, tunes, sets = (int(word) for word in found.groups())
    return Counts(layout, tunes, sets)


def outcome_of(taker: Taker[T], source: Source) -> Union[T, Refused]:
    """What a taker gives, or the refusal that it met."""
    try:
        return taker(source)
    except Refused as refused:
        return refused
