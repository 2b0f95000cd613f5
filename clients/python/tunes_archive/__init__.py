"""A client for archives of tunes in ABC notation, over the programs `tunes` and `tunes-desk`."""
from .archive import Archive
from .errors import (REFUSALS, ArchiveFault, ArchiveFull, BadLine, BadName, BadNumber, BadQuery,
                     BadTune, BookTooLong, Closed, Damaged, Device, InSet, InUse, NoProgram,
                     NoSuchPlace, NoSuchSet, NotArchive, NotEmpty, NoTune, NotOne, NumbersSpent,
                     OutOfMemory, Refused, SetFull, SetsFull, SetTaken, Stale, Taken, TunesError,
                     Unknown, Unopened, Worn)
from .programs import Programs, find_programs
from .results import Counts, Imported, Place, Row, ScriptRun, SetList, SetRow, Tune
from .texts import Text, bytes_of, label_of, string_of

__version__ = '0.1.0'

__all__ = [
    'Archive', 'ArchiveFault', 'ArchiveFull', 'BadLine', 'BadName', 'BadNumber', 'BadQuery',
    'BadTune', 'BookTooLong', 'Closed', 'Counts', 'Damaged', 'Device', 'Imported', 'InSet', 'InUse',
    'NoProgram', 'NoSuchPlace', 'NoSuchSet', 'NoTune', 'NotArchive', 'NotEmpty', 'NotOne',
    'NumbersSpent', 'OutOfMemory', 'Place', 'Programs', 'REFUSALS', 'Refused', 'Row', 'ScriptRun',
    'SetFull', 'SetList', 'SetRow', 'SetTaken', 'SetsFull', 'Stale', 'Taken', 'Text', 'Tune',
    'TunesError', 'Unknown', 'Unopened', 'Worn', 'bytes_of', 'find_programs', 'label_of',
    'string_of',
]
