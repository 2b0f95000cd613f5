"""Writes archives into files, of each layout by docs/FILE-FORMAT.md and not by the code.

No text is read here: who gives a tune says which keys it has.
"""
import struct
from itertools import islice
from typing import NamedTuple

MAGIC, OPEN = b'ABCTUNE1', b'\xA7'
GATE, DESCRIPTOR, COUNT, PAGES = 4096, 8192, 12288, 16384
PAGE_BYTES, LINK_BYTES, LEAF_ENTRIES = 4096, 4090, 113
# Where an entry of a leaf begins, where its value stands in it, and how long it is.
LEAF_HEAD, KEY_BYTES, ENTRY_BYTES = 2, 32, 36
# The indexes in the order in which the root names them, before the set lists.
INDEXES = 'numbers', 'titles', 'rhythms', 'scales', 'incipits'
SEARCHES = INDEXES[1:]


class Layout(NamedTuple):
    """How wide the keys of incipits are, how many entries a leaf of them has at most, how many
    steps a key has; how long a text may be; how many tunes and pages there may be."""
    width: int
    entries: int
    steps: int
    text: int
    tunes: int
    pages: int


LAYOUTS = {1: Layout(32, 113, 7, 16000, 20000, 1000000),
           2: Layout(48, 78, 11, 64000, 50000, 4000000)}


class Tune(NamedTuple):
    """A text with its sorting titles, its rhythm, its scale as three bytes, and its steps, as many
    as any layout has in a key."""
    text: bytes
    titles: tuple = ()
    rhythm: bytes = b''
    scale: bytes = b''
    steps: tuple = ()


def key(data, width=KEY_BYTES):
    return data[:width].ljust(width, b'\x00')


def width_of(name, version):
    """How wide the keys of an index are."""
    return LAYOUTS[version].width if name == 'incipits' else KEY_BYTES


def most_of(name, version):
    """How many entries a leaf of an index has at most."""
    return LAYOUTS[version].entries if name == 'incipits' else LEAF_ENTRIES


def four_bytes(*values):
    """Numbers in four bytes each."""
    return struct.pack(f'>{len(values)}I', *values)


def keys_of(tune, version):
    """The keys of a tune in each of the search indexes."""
    steps = [four_bytes(step + 2 ** 31) for step in tune.steps[:LAYOUTS[version].steps]]
    words = tune.titles, (tune.rhythm,), (tune.scale,), (b''.join(steps),)
    return {name: {key(word, width_of(name, version)) for word in some if word}
            for name, some in zip(SEARCHES, words)}


def set_bytes(name, *places):
    return bytes([len(name)]) + name + struct.pack('>H', len(places)) + four_bytes(*places)


class Archive:
    """What an archive has on its pages, for a case to damage before it is written."""

    def __init__(self, tunes, sets=b'', revision=1, version=1):
        """Tunes by their numbers."""
        self.version, self.sets = version, sets
        self.tunes = [(key(four_bytes(number)), struct.pack('>H', revision) + tune.text)
                      for number, tune in sorted(tunes.items())]
        self.entries = {name: sorted((word, number) for number, tune in tunes.items()
                                     for word in keys_of(tune, version)[name])
                        for name in SEARCHES}

    def write(self, file, most=LEAF_ENTRIES):
        """Writes it on pages from 1 on, with so many entries in a leaf at most."""
        pages = Writer(file)
        entries = [(word, pages.chain(data)) for word, data in self.tunes]
        firsts = [pages.index(entries, most)]
        firsts += [pages.index(self.entries[name], min(most, most_of(name, self.version)))
                   for name in SEARCHES]
        pages.end(four_bytes(self.version, *firsts, pages.chain(self.sets)))


# PAGES

def place_of(page):
    return PAGES + PAGE_BYTES * page


def page_at(offset):
    return (offset - PAGES) // PAGE_BYTES


def put(file, offset, *values):
    file.seek(offset)
    file.write(four_bytes(*values))


def number_at(file, offset):
    file.seek(offset)
    return struct.unpack('>I', file.read(4))[0]


def first_of(name):
    """Where the root names the first page of an index, or of the set lists."""
    return PAGES + 4 + 4 * (INDEXES + ('sets',)).index(name)


def leaf_of(file, name, place=0):
    """Where the leaf at a place of an index begins in a file, for one of the first thousand."""
    listed = place_of(number_at(file, first_of(name))) + PAGE_BYTES - LINK_BYTES
    return place_of(number_at(file, listed + 4 * place))


def pieces_of(data):
    return [data[place:place + LINK_BYTES] for place in range(0, len(data), LINK_BYTES)]


class Writer:
    """Puts pages into a file, each behind the one before, from a page on."""

    def __init__(self, file, first=1):
        self.file, self.count = file, first

    def page(self, image):
        self.file.seek(place_of(self.count))
        self.file.write(image.ljust(PAGE_BYTES, b'\x00'))
        self.count += 1
        return self.count - 1

    def links(self, pieces):
        """A chain of these pieces, by its first page."""
        first = self.count
        for place, piece in enumerate(pieces, 1):
            behind = self.count + 1 if place < len(pieces) else 0
            self.page(struct.pack('>IH', behind, len(piece)) + piece)
        return first if pieces else 0

    def chain(self, data):
        return self.links(pieces_of(data))

    def leaf(self, entries):
        rows = (word + four_bytes(value) for word, value in entries)
        return self.page(struct.pack('>H', len(entries)) + b''.join(rows))

    def index(self, entries, most=LEAF_ENTRIES):
        """An index, by the first page of its list."""
        rest, leaves = iter(entries), []
        while some := list(islice(rest, most)):
            leaves.append(self.leaf(some))
        return self.chain(four_bytes(*leaves))

    def end(self, root):
        """Writes the root, and all that stands before it, with a closed gate."""
        self.file.seek(0)
        self.file.write(MAGIC.ljust(PAGES, b'\x00') + root.ljust(PAGE_BYTES, b'\x00'))
        put(self.file, COUNT, self.count)


def opened(before, after):
    """The file in which a commit from one file to another was stopped behind its open gate.

    Both have closed gates. What the commit was about to write, of which half came, is torn: the
    number of pages, and the pages that change, whose images are in the log.
    """
    old, new = (struct.unpack_from('>I', file, COUNT)[0] for file in (before, after))
    log = b''
    front = bytearray(before[:place_of(min(old, new))].ljust(place_of(new), b'\x00'))
    for page in range(new):
        place = slice(place_of(page), place_of(page + 1))
        image = after[place]
        if page >= old or image != before[place]:
            log += four_bytes(page) + image
            front[place.start:place.start + PAGE_BYTES // 2] = bytes(PAGE_BYTES // 2)
    front[GATE:GATE + 1] = OPEN
    front[COUNT:COUNT + 4] = b'\xFF' * 4
    front[DESCRIPTOR:DESCRIPTOR + 8] = four_bytes(new, len(log) // (4 + PAGE_BYTES))
    return bytes(front) + log
