"""What an archive holds, as a site shows it, and the index of its search."""
import hashlib
import json
import os
import re
import struct
from dataclasses import dataclass, field
from functools import lru_cache
from typing import Dict, List, Optional, Tuple

import read_archive
import search_keys
import tunes_archive
from site_words import NO_ARCHIVE, Stopped

# BYTES AS TEXT

CONTROLS = re.compile('[\x00-\x1f\x7f-\x9f]')
BUT_LINES = re.compile('[\x00-\x08\x0b-\x1f\x7f-\x9f]')


def text_of(data: bytes) -> str:
    """Bytes as text; what is no UTF-8 is read as Latin-1, as in docs/ABC-PROFILE.md, "Queries"."""
    try:
        return data.decode('utf-8')
    except UnicodeDecodeError:
        text = data.decode('utf-8', 'surrogateescape')
        return re.sub('[\udc80-\udcff]', lambda byte: chr(ord(byte[0]) - 0xDC00), text)


@lru_cache(maxsize=None)
def label_of(data: bytes) -> str:
    """The same as people see it, where control characters stand as U+FFFD."""
    return CONTROLS.sub('\N{REPLACEMENT CHARACTER}', text_of(data))


def lines_of(data: bytes) -> str:
    """The same of lines, each of which is read by itself."""
    try:
        text = data.decode('utf-8')
    except UnicodeDecodeError:
        text = '\n'.join(map(text_of, data.split(b'\n')))
    return BUT_LINES.sub('\N{REPLACEMENT CHARACTER}', text)


# WHAT THE ARCHIVE HOLDS

MODES = ('major', 'Dorian', 'Phrygian', 'Lydian', 'Mixolydian', 'minor', 'Locrian')
SIGNS = {' ': '', '#': '♯', 'b': '♭'}


@dataclass
class Tune:
    """A tune, and what its page and the search say of it."""
    number: int
    text: bytes
    titles: List[bytes]
    rhythm: bytes
    scale: str
    steps: Tuple[int, ...]
    metre: bytes = b''
    composer: bytes = b''
    origin: bytes = b''
    sets: List[str] = field(default_factory=list)

    @property
    def label(self) -> str:
        return label_of(self.titles[0]) if self.titles else f'Tune {self.number}'

    @property
    def kind(self) -> str:
        """Its rhythm and its key, in short."""
        return kind_of(self.rhythm, self.scale)

    @property
    def sum(self) -> str:
        """Two tunes of one number that have the same are drawn and shown in the same way."""
        return sum_of(self.scale.encode() + b'\n' + self.text)


def sum_of(data: bytes) -> str:
    return hashlib.blake2b(data, digest_size=12).hexdigest()


@lru_cache(maxsize=None)
def kind_of(rhythm: bytes, scale: str) -> str:
    return ', '.join(filter(None, (label_of(rhythm), key_name(scale))))


@lru_cache(maxsize=None)
def key_name(scale: str) -> str:
    return f'{scale[0]}{SIGNS[scale[1]]} {MODES[int(scale[2])]}' if scale else ''


@dataclass
class Book:
    """What the site is made of."""
    name: str
    notes: int
    tunes: Dict[int, Tune]
    titles: List[Tuple[bytes, int]]
    sets: List[Tuple[str, List[int]]]

    def by_title(self) -> List[Tune]:
        """Each tune once, in the order of the first titles; those without a title come last."""
        titled = [number for title, number in self.titles if title == self.tunes[number].titles[0]]
        return [self.tunes[number] for number in dict.fromkeys([*titled, *self.tunes])]


@dataclass
class Keys:
    """What tunes have in the indexes of rhythms, scales and openings, by number."""
    notes: int
    rhythms: Dict[int, bytes]
    scales: Dict[int, bytes]
    incipits: Dict[int, bytes]


def indexes(path: str) -> Keys:
    """Reads the indexes of the file, as docs/FILE-FORMAT.md has them."""
    with open(path, 'rb', buffering=0) as file:
        read_archive.lock(file)
        pages = read_archive.Pages(file)
        found = []
        with pages.noting():
            root = pages.image(0, 'the root')
            version, _, _, *firsts = (read_archive.number(root, 4 * place) for place in range(6))
            layout = read_archive.LAYOUTS[version]
            for what, first in zip(('rhythms', 'scales', 'incipits'), firsts):
                width = layout.incipit_key if what == 'incipits' else layout.key
                index = read_archive.Index(pages, first, what, width, layout.tunes)
                found.append({tune: key for key, tune, _ in index.entries})
        if pages.faults:
            raise Stopped(f'{path}: its indexes cannot be read: {pages.faults[0]}', NO_ARCHIVE)
        return Keys(layout.notes, *found)


def steps_of(key: bytes) -> Tuple[int, ...]:
    """The steps of a key of the index of incipits."""
    return tuple([step - 2 ** 31 for step in struct.unpack(f'>{len(key) // 4}I', key) if step])


def index_title(title: bytes) -> bytes:
    article = search_keys.LEADING_ARTICLE.fullmatch(title)
    if article is None:
        return title
    return article[1] + b', ' + title[:article.start(1)].rstrip(b' \t')


HEADER_LINE = re.compile(rb'\n([TRMCO]:.*)')
value_of = lru_cache(maxsize=None)(search_keys.value_of)


def header_of(text: bytes) -> Dict[int, List[bytes]]:
    """The values in the header that are not empty, by the letters of their fields."""
    values: Dict[int, List[bytes]] = {}
    for line in HEADER_LINE.findall((b'\n' + text).partition(b'\nK:')[0]):
        value = value_of(line)
        if value:
            values.setdefault(line[0], []).append(value)
    return values


def tune_of(number: int, text: bytes, titles: List[bytes], keys: Keys) -> Tune:
    """A tune, whose texts have to say what the indexes say."""
    header = header_of(text)
    own = list(map(index_title, header.get(ord('T'), ())[:search_keys.MOST_TITLES]))
    rhythm, *others = [header.get(letter, (b'',))[0] for letter in b'RMCO']
    key = keys.rhythms.get(number, b'')
    if sorted(own) != sorted(titles) or rhythm.lower()[:32].ljust(
            32 if rhythm else 0, b'\0') != key:
        raise Stopped(f'tune {number} is not as the indexes say; `tunes-book check` looks at them')
    return Tune(number, text, sorted(titles, key=own.index), rhythm,
                keys.scales.get(number, b'').rstrip(b'\0').decode('ascii'),
                steps_of(keys.incipits.get(number, b'')), *others)


def texts_in(export: bytes) -> Dict[int, bytes]:
    """The texts of a written book, by number: an empty line stands before each tune alone."""
    texts = {}
    for piece in export.rstrip(b'\n').split(b'\n\nX:')[1:]:
        number, _, text = piece.partition(b'\n')
        texts[int(number)] = text + b'\n'
    return texts


def read_book(path: str, name: Optional[str], wait: float) -> Book:
    """Reads all that the site needs, in one state of the archive."""
    with tunes_archive.Archive(path, wait=wait) as archive, archive.reading():
        rows = archive.titles()
        sets = [archive.set_show(row.name) for row in archive.sets()]
        if name is not None:
            sets = [given for given in sets if given.name == name] or [archive.set_show(name)]
            numbers = sorted({place.row.number for place in sets[0].places})
            texts = {number: archive.show(number).text for number in numbers}
        else:
            texts = texts_in(archive.export())
        titles: Dict[int, List[bytes]] = {number: [] for number in texts}
        rows = [row for row in rows if row.number in titles]
        for row in rows:
            titles[row.number].append(row.title_bytes or b'')
        keys = indexes(path)
    tunes = {number: tune_of(number, text, titles[number], keys) for number, text in texts.items()}
    for given in sets:
        for number in dict.fromkeys(place.row.number for place in given.places):
            tunes[number].sets.append(given.name)
    stem = os.path.splitext(os.path.basename(path))[0]
    return Book(name or stem, keys.notes, tunes,
                [(row.title_bytes or b'', row.number) for row in rows],
                [(given.name, [place.row.number for place in given.places]) for given in sets])


# THE SEARCH

# A step from -45 to 44 is one of these letters; any other is written out between ~ and ;.
LETTERS = ''.join(chr(code) for code in range(33, 126) if chr(code) not in '"\\~')[:90]


@lru_cache(maxsize=None)
def letter_of(step: int) -> str:
    return LETTERS[step + 45] if -45 <= step < 45 else f'~{step};'


@lru_cache(maxsize=None)
def is_utf8(data: bytes) -> bool:
    try:
        data.decode('utf-8')
    except UnicodeDecodeError:
        return False
    return True


def runs_of(numbers: List[int]) -> str:
    """Rising numbers, those in a row as FIRST-LAST."""
    runs: List[List[int]] = []
    for number in numbers:
        if runs and runs[-1][1] == number - 1:
            runs[-1][1] = number
        else:
            runs.append([number, number])
    return ','.join(str(first) if first == last else f'{first}-{last}' for first, last in runs)


def pairs_of(values: List[str]) -> Tuple[List[str], str]:
    """The values that there are, and for each tune two letters that say which is its own."""
    table = sorted(set(values))
    pair = {value: LETTERS[place // 90] + LETTERS[place % 90] for place, value in enumerate(table)}
    return table, ''.join(pair[value] for value in values)


def search_index(book: Book) -> str:
    """The index that `find.js` reads; what is one string for all tunes is by rising number."""
    tunes = list(book.tunes.values())
    # A rhythm that is no UTF-8 is found by no text, so it begins as no text does.
    rhythms, of_rhythm = pairs_of([('' if is_utf8(tune.rhythm) else '\n') + text_of(tune.rhythm)
                                   for tune in tunes])
    scales, of_scale = pairs_of([tune.scale for tune in tunes])
    bytes_of = {place: [search_keys.sorting_title(title).decode('latin-1') for title in tune.titles]
                for place, tune in enumerate(tunes)
                if not all(map(is_utf8, tune.titles))}
    index = {
        'format': 1, 'notes': book.notes, 'numbers': runs_of(list(book.tunes)),
        'titles': '\n'.join('\r'.join(map(text_of, tune.titles)) for tune in tunes),
        'bytes': bytes_of, 'rhythms': rhythms, 'ofRhythm': of_rhythm, 'scales': scales,
        'ofScale': of_scale,
        'openings': ' '.join(''.join(map(letter_of, tune.steps)) for tune in tunes)}
    told = json.dumps(index, ensure_ascii=False, separators=(',', ':'))
    return f'"use strict";\nconst tunesIndex = {told};\n'
