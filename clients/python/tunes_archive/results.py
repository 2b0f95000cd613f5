"""What an archive answers."""
from dataclasses import dataclass
from typing import Optional, Tuple

from .texts import label_of, string_of


@dataclass(frozen=True)
class Tune:
    """A tune, as `show` gives it."""

    number: int
    """From 1 to 999,999."""
    revision: int
    """1 where it was imported, and one more with each `replace`."""
    text: bytes
    """Its lines behind the `X:` line, each ended by a line feed."""

    @property
    def string(self) -> str:
        """The text as a string; bytes that are no UTF-8 are lone surrogates, as in `texts`."""
        return string_of(self.text)

    @property
    def book(self) -> bytes:
        """The tune as a book of one tune: its `X:` line, and its text."""
        return b'X:%d\n%b' % (self.number, self.text)


@dataclass(frozen=True)
class Row:
    """A tune by its number, and a title of it as an index shows it."""

    number: int
    title_bytes: Optional[bytes]
    """The title; None where the tune has none."""

    @property
    def title(self) -> Optional[str]:
        """The title as a string; bytes that are no UTF-8 are lone surrogates, as in `texts`."""
        return None if self.title_bytes is None else string_of(self.title_bytes)

    @property
    def label(self) -> str:
        """The title to be shown to a person: see `texts.label_of`. Empty where there is none."""
        return label_of(self.title_bytes or b'')


@dataclass(frozen=True)
class SetRow:
    """A set list by its name, and how many places it has."""

    name: str
    length: int


@dataclass(frozen=True)
class Place:
    """A place of a set list, counted from 1, and the row of its tune."""

    place: int
    row: Row


@dataclass(frozen=True)
class SetList:
    """A set list, with all its places in order."""

    name: str
    places: Tuple[Place, ...]


@dataclass(frozen=True)
class Imported:
    """The numbers of the first and the last tune of a book that was imported."""

    first: int
    last: int


@dataclass(frozen=True)
class Counts:
    """How much an archive holds, and its layout."""

    layout: int
    tunes: int
    sets: int


@dataclass(frozen=True)
class ScriptRun:
    """What came of a script that was run to its end."""

    status: int
    """The status of the program, by "How a run ends" in docs/SCRIPTS.md; below 0, a signal."""
    replies: bytes
    """Standard output, all of it."""
    errors: bytes
    """Standard error, the first 65,536 bytes of it."""
