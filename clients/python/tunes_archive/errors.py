"""What goes wrong: refusals, which are answers of an archive, and faults around it."""
from typing import Callable, Dict, Sequence, Tuple, Type, Union

Carried = Union[int, str]


class TunesError(Exception):
    """All that goes wrong with an archive. A refused command changes nothing."""

    what_to_do: str = ''
    """What to do, in words."""

    def words_for(self) -> str:
        """What went wrong, in words."""
        return ' '.join(str(word) for word in self.args)

    def __str__(self) -> str:
        said = self.words_for()
        return f'{said}; {self.what_to_do}' if self.what_to_do else said


# FAULTS

class ArchiveFault(TunesError):
    """A program or its replies are not as they should be, or a file was not opened.

    Where a change was on its way, it took place or not: look before you ask for it again.
    """

    def __init__(self, why: str, what_to_do: str = '') -> None:
        super().__init__(why, what_to_do)
        self.why = why
        self.what_to_do = what_to_do

    def words_for(self) -> str:
        return self.why


class NoProgram(ArchiveFault):
    """The program `tunes` or `tunes-desk` is not found, cannot be run, or is of another version."""


class Unopened(ArchiveFault):
    """The file was not opened, so nothing was asked or changed. The next call tries again."""


class InUse(Unopened):
    """Another program has the file, and did not let go of it in the time that `wait` says."""


# REFUSALS

class Refused(TunesError):
    """The archive refused a command: docs/SCRIPTS.md, "Refusals". It changed nothing."""

    number = 0
    """The number of the refusal."""
    reason = 'the command is refused'

    def __init__(self, *words: Carried) -> None:
        super().__init__(*words)
        self.words: Tuple[str, ...] = tuple(str(word) for word in words)
        """What the refusal carries, as words."""

    @property
    def name(self) -> str:
        """The name of the refusal, which is that of its class."""
        return type(self).__name__

    @property
    def reply(self) -> str:
        """The line of the reply."""
        return ' '.join(('refused', str(self.number), self.name) + self.words)

    def words_for(self) -> str:
        return f'{self.reply}: {self.reason}'


class NoTune(Refused):
    number = 1
    reason = 'there is no tune in the book: no line begins with X:'


class BadTune(Refused):
    number = 2
    reason = 'a tune of the book has no K: line, or is too long'
    what_to_do = ('give it a line K:none, or cut it in two; layout 2 takes longer tunes than '
                  'layout 1')

    def __init__(self, place: int, why: str) -> None:
        super().__init__(place, why)
        self.place = place
        """Which tune of the book is the first bad one, counted from 1."""
        self.why = why
        """`NoKey` or `TooLong`."""


class NotOne(Refused):
    number = 3
    reason = 'the book has more tunes than one'

    def __init__(self, count: int) -> None:
        super().__init__(count)
        self.count = count
        """How many tunes it has."""


class Unknown(Refused):
    number = 4
    reason = 'no tune has the number'

    def __init__(self, tune: int) -> None:
        super().__init__(tune)
        self.tune = tune
        """The number that no tune has."""


class Stale(Refused):
    number = 5
    reason = 'the tune was replaced meanwhile'
    what_to_do = 'show it anew, and change what it is now'

    def __init__(self, revision: int) -> None:
        super().__init__(revision)
        self.revision = revision
        """The revision that the tune has."""


class Worn(Refused):
    number = 6
    reason = 'the tune has revision 9,999, the last'
    what_to_do = 'add it as a new tune'


class Taken(Refused):
    number = 7
    reason = 'another tune has the number'

    def __init__(self, tune: int) -> None:
        super().__init__(tune)
        self.tune = tune
        """The number that is taken."""


class InSet(Refused):
    number = 8
    reason = 'a set list names the tune'
    what_to_do = 'cut it out of that set list first'

    def __init__(self, set_name: str) -> None:
        super().__init__(set_name)
        self.set_name = set_name
        """The least name of those set lists, in byte order."""


class ArchiveFull(Refused):
    number = 9
    reason = 'the archive would have too many tunes'
    what_to_do = 'make a second one; layout 2 holds more than layout 1'


class NumbersSpent(Refused):
    number = 10
    reason = 'the numbers to 999,999 are spent'
    what_to_do = 'import the book of an export into a new archive'


class NoSuchSet(Refused):
    number = 11
    reason = 'no set list has the name'


class SetTaken(Refused):
    number = 12
    reason = 'a set list has the name'


class SetFull(Refused):
    number = 13
    reason = 'the set list has 200 places, and no more'


class SetsFull(Refused):
    number = 14
    reason = 'there are 500 set lists, and no more'


class NoSuchPlace(Refused):
    number = 15
    reason = 'the set list has no such place'


class BadName(Refused):
    number = 16
    reason = 'a set list is named by 1 to 40 ASCII letters, digits, - and _'


class BadNumber(Refused):
    number = 17
    reason = 'a tune has a number from 1 to 999,999'


class BadQuery(Refused):
    number = 18
    reason = 'nothing is asked for'
    what_to_do = ('a title or a rhythm has a byte, a key is written as D, Bm or Edor, and notes '
                  'are two or more')


class BookTooLong(Refused):
    number = 19
    reason = 'the book has more than 4,000,000 bytes'
    what_to_do = 'import it by parts'


class OutOfMemory(Refused):
    number = 21
    reason = 'there is not memory enough'
    what_to_do = 'end other programs, and try again'


class Device(Refused):
    """The device failed: the archive is as before the command, or as after it.

    The `Archive` that raised it takes no further call until `reopen`.
    """

    number = 22
    reason = 'the device failed, and what was asked was done or not'
    what_to_do = ('look at the disk; let the system give up its cached pages of the file, as by '
                  '`dd if=FILE iflag=nocache count=0`; only then open the archive anew, by '
                  'Archive.reopen(), and look whether the command took place: docs/USING.md, '
                  '"The file cannot be used"')

    def __init__(self, cause: str = '') -> None:
        super().__init__()
        self.args = (cause,)
        self.cause = cause
        """What the program said of it, or nothing."""

    def words_for(self) -> str:
        said = super().words_for()
        return f'{said} ({self.cause})' if self.cause else said


class Closed(Refused):
    number = 23
    reason = 'the device failed in an earlier command'
    what_to_do = Device.what_to_do


class BadLine(Refused):
    number = 30
    reason = 'a line of the script is no command, or its book was cut'


class NotArchive(Refused):
    number = 40
    reason = 'the file is no archive'
    what_to_do = 'look at the path'


class Damaged(Refused):
    number = 41
    reason = 'the archive is damaged, or of another version'
    what_to_do = ('put a backup in its place, as by `tunes-book restore COPY`: docs/USING.md, "A '
                  'damaged archive"')


class NotEmpty(Refused):
    number = 42
    reason = 'the file has bytes, so no archive is made of it'
    what_to_do = 'choose another path'


NUMBER = 'number'
WORD = 'word'

# Each refusal, and what its reply carries.
_FORMS: Sequence[Tuple[Type[Refused], Tuple[str, ...]]] = (
    (NoTune, ()), (BadTune, (NUMBER, WORD)), (NotOne, (NUMBER,)), (Unknown, (NUMBER,)),
    (Stale, (NUMBER,)), (Worn, ()), (Taken, (NUMBER,)), (InSet, (WORD,)), (ArchiveFull, ()),
    (NumbersSpent, ()), (NoSuchSet, ()), (SetTaken, ()), (SetFull, ()), (SetsFull, ()),
    (NoSuchPlace, ()), (BadName, ()), (BadNumber, ()), (BadQuery, ()), (BookTooLong, ()),
    (OutOfMemory, ()), (Device, ()), (Closed, ()), (BadLine, ()), (NotArchive, ()),
    (Damaged, ()), (NotEmpty, ()))

REFUSALS: Dict[int, Type[Refused]] = {kind.number: kind for kind, _ in _FORMS}
"""Each refusal by its number."""

CARRIED: Dict[int, Tuple[str, ...]] = {kind.number: form for kind, form in _FORMS}
"""What each refusal carries, by its number."""

_READ: Dict[str, Callable[[str], Carried]] = {NUMBER: int, WORD: str}


def refusal_of(number: int, words: Sequence[str]) -> Refused:
    """The refusal of this number, with the words that it carries, of which there are enough."""
    made: Refused = REFUSALS[number](
        *(_READ[kind](word) for kind, word in zip(CARRIED[number], words)))
    return made
