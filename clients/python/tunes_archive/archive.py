"""An archive of tunes in a file, asked and changed by the programs `tunes-desk` and `tunes`."""
import weakref
from types import TracebackType
from typing import ContextManager, Dict, List, Optional, Type

from . import commands, replies
from .commands import line_of, name_word, number_word, rest_words
from .keeping import Keeper, Use
from .opening import why_unopened
from .programs import Path, Programs, find_programs
from .replies import counts_in
from .results import Counts, Imported, Row, ScriptRun, SetList, SetRow, Tune
from .texts import Text, bytes_of, string_of

HOLD = 1.0
WAIT = 5.0


class Archive:
    """An archive of tunes in a file.

    It opens the file when it is asked something, and has it open for `hold` seconds behind the last
    call, for the next one; questions behind a change do not lengthen that. With `hold` 0 each call,
    and each block, opens it and lets go of it. Any number of programs may ask a file at once; a
    change has it alone. Where another program has the file, a call waits for it, `wait` seconds at
    most. `patience` is how many seconds a program may be silent; None is without end.

    Each command of docs/SCRIPTS.md is a method. A refusal is raised, by a class of its own
    (`errors.Refused`); a fault of the programs or of the file is an `errors.ArchiveFault`. A text
    that can be no part of a command is a ValueError, before anything is written.

    Calls of several threads come one after another; so do blocks.
    """

    def __init__(self, path: Path, *, hold: float = HOLD, wait: float = WAIT,
                 patience: Optional[float] = None, programs: Optional[Programs] = None) -> None:
        """`programs` are those that `find_programs` finds, unless they are given.

        Errors: `NoProgram`; ValueError where the path is no UTF-8, which the programs take alone.
        """
        self._keeper = Keeper(path, hold, wait, patience, programs or find_programs())
        weakref.finalize(self, self._keeper.abandon)

    @classmethod
    def make(cls, path: Path, *, hold: float = HOLD, wait: float = WAIT,
             patience: Optional[float] = None, programs: Optional[Programs] = None) -> 'Archive':
        """Makes an empty archive of layout 2 in a file that is not there, or has no byte.

        Errors: `NotEmpty` where it has one; `Unopened`; `Device`.
        """
        archive = cls(path, hold=hold, wait=wait, patience=patience, programs=programs)
        archive._keeper.make()
        return archive

    @property
    def path(self) -> str:
        """The path of the file, as the programs are given it."""
        return string_of(self._keeper.path)

    # THE FILE

    def __enter__(self) -> 'Archive':
        return self

    def __exit__(self, kind: Optional[Type[BaseException]], error: Optional[BaseException],
                 trace: Optional[TracebackType]) -> None:
        self.close()

    def close(self) -> None:
        """Lets go of the file, and takes no more calls."""
        self._keeper.close()

    def let_go(self) -> None:
        """Lets go of the file now. The next call opens it."""
        self._keeper.let_go()

    def reopen(self) -> None:
        """Takes calls again, behind `close`, or behind a `Device` once its steps are done."""
        self._keeper.reopen()

    def reading(self) -> ContextManager[None]:
        """A block of questions over one state: nobody changes the file within it.

        The file is open to read alone from its begin to its end. A change within it is a
        RuntimeError.
        """
        return self._keeper.block(Use.ASKING)

    def changing(self) -> ContextManager[None]:
        """A block of questions and changes with the file alone, from its begin to its end."""
        return self._keeper.block(Use.CHANGING)

    # TUNES

    def import_book(self, book: Text) -> Imported:
        """Adds the tunes of a book, all of them or none, and gives their numbers.

        Errors: `NoTune`, `BadTune`, `ArchiveFull`, `NumbersSpent`, `BookTooLong`.
        """
        return self._keeper.change(commands.with_book(book, b'import'), replies.imported)

    def replace(self, number: int, revision: int, book: Text) -> int:
        """Puts the one tune of a book in the place of a tune, and gives its next revision.

        The book has an `X:` line, as `Tune.book`. `revision` is the one that was seen.

        Errors: `NoTune`, `BadTune`, `NotOne`, `Unknown`, `Stale`, `Worn`, `BookTooLong`.
        """
        tune = number_word(number)
        script = commands.with_book(book, b'replace', tune, number_word(revision))
        return self._keeper.change(script, replies.told_number(b'replace %b' % tune))

    def delete(self, number: int) -> None:
        """Takes a tune out, which no set list names. Errors: `Unknown`, `InSet`."""
        self._tell(b'delete', number_word(number))

    def renumber(self, number: int, to: int) -> None:
        """Gives a tune another number, in set lists too.

        Errors: `Unknown`, `Taken`, `BadNumber`.
        """
        self._tell(b'renumber', number_word(number), number_word(to))

    def show(self, number: int) -> Tune:
        """The tune of a number. Errors: `Unknown`."""
        word = number_word(number)
        given, = self._keeper.ask(line_of(b'show', word), [replies.shown(int(word))])
        return given

    # FINDING

    def find_title(self, title: Text) -> List[Row]:
        """The tunes with a title that begins so, by number, but for articles and capitals.

        Errors, here and of the next ones: `BadQuery` where nothing is asked for.
        """
        return self._find(b'title', [rest_words(title)])

    def find_rhythm(self, rhythm: Text) -> List[Row]:
        """The tunes of this rhythm, by number, but for capitals."""
        return self._find(b'rhythm', [rest_words(rhythm)])

    def find_key(self, key: Text) -> List[Row]:
        """The tunes in the scale of this key, by number."""
        return self._find(b'key', [rest_words(key)])

    def find_music(self, line: Text) -> List[Row]:
        """The tunes whose opening begins with that of a line of music in C, by number."""
        return self._find(b'notes', [rest_words(line)])

    def find_notes(self, notes: Text, key: Optional[Text] = None) -> List[Row]:
        """The tunes that open with these notes, each once, by number, at whatever height.

        The notes are as they are printed: in each of the fifteen signatures, or in `key`. All are
        asked for at once, so of one state. ValueError: `key` has what ends a key in a line.
        """
        lines = commands.printed_in_all(notes) if key is None else [commands.music_in(key, notes)]
        return self._find(b'notes', lines)

    def _find(self, kind: bytes, queries: List[bytes]) -> List[Row]:
        script = b''.join(line_of(b'find', kind, query) for query in queries)
        found: Dict[int, Row] = {}
        for some in self._keeper.ask(script, [replies.rows(b'find')] * len(queries)):
            found.update((row.number, row) for row in some)
        return [found[number] for number in sorted(found)]

    def titles(self) -> List[Row]:
        """All titles of all tunes, by sorting title, then by number."""
        given, = self._keeper.ask(line_of(b'titles'), [replies.rows(b'titles')])
        return given

    # SET LISTS

    def set_new(self, name: Text) -> None:
        """Adds a set list without a place. Errors: `SetTaken`, `SetsFull`, `BadName`."""
        self._tell(b'set-new', name_word(name))

    def set_add(self, name: Text, number: int) -> int:
        """Puts a tune at the end of a set list, and gives its place.

        Errors: `Unknown`, `NoSuchSet`, `SetFull`.
        """
        word = name_word(name)
        return self._keeper.change(line_of(b'set-add', word, number_word(number)),
                                   replies.told_number(b'set-add %b' % word))

    def set_cut(self, name: Text, place: int) -> None:
        """Takes a place out of a set list. Errors: `NoSuchSet`, `NoSuchPlace`."""
        self._tell(b'set-cut', name_word(name), number_word(place))

    def set_drop(self, name: Text) -> None:
        """Takes a set list out, and no tune. Errors: `NoSuchSet`."""
        self._tell(b'set-drop', name_word(name))

    def sets(self) -> List[SetRow]:
        """The set lists, by name."""
        given, = self._keeper.ask(line_of(b'sets'), [replies.set_rows])
        return given

    def set_show(self, name: Text) -> SetList:
        """The tunes of a set list. Errors: `NoSuchSet`."""
        word = name_word(name)
        given, = self._keeper.ask(line_of(b'set-show', word), [replies.set_list(word)])
        return given

    # BOOKS

    def export(self) -> bytes:
        """All tunes as a book, by number, as bytes: it need not be UTF-8."""
        given, = self._keeper.ask(line_of(b'export'), [replies.book(b'export')])
        return given

    def export_set(self, name: Text) -> bytes:
        """The tunes of a set list as a book, numbered by their places. Errors: `NoSuchSet`."""
        word = name_word(name)
        given, = self._keeper.ask(line_of(b'export-set', word),
                                  [replies.book(b'export-set %b' % word)])
        return given

    # THE ARCHIVE

    def upgrade(self) -> int:
        """Brings the archive to layout 2, and gives 2. There is no way back but a copy."""
        return self._keeper.change(line_of(b'upgrade'), replies.told_number(b'upgrade'))

    def check(self) -> Counts:
        """How much the archive holds, and its layout."""
        told = self._keeper.check()
        counts = counts_in(told.replies)
        if told.status != 0 or counts is None:
            raise why_unopened(told.replies, told.errors, self._keeper.path, told.status)
        return counts

    def _tell(self, *words: bytes) -> None:
        """A change that is answered by its own words."""
        self._keeper.change(line_of(*words), replies.told(b' '.join(words)))

    # SCRIPTS

    def ask_script(self, script: bytes) -> ScriptRun:
        """Runs a whole script of questions, and gives all its replies as they are.

        A line that would change something is answered `refused 22 Device`. The script is run for
        itself: not in a block, and no refusal is raised; where the file is in use longer than
        `wait`, `InUse` is.
        """
        return self._keeper.run_script(Use.ASKING, bytes_of(script))

    def run_script(self, script: bytes) -> ScriptRun:
        """Runs a whole script, with the file alone; the rest is as of `ask_script`."""
        return self._keeper.run_script(Use.CHANGING, bytes_of(script))
