#!/usr/bin/env python3
"""Reads the file of an archive, by docs/FILE-FORMAT.md alone.

    read_archive.py book FILE        writes all tunes as a book, just as the command `export` does
    read_archive.py sets FILE        writes a line for each set list: its name, how many places it
                                     has, and the number of the tune at each
    read_archive.py check FILE       says how many pages, leaves, tunes and set lists there are
    read_archive.py where FILE       says all damage that is found, a line for each
    read_archive.py where FILE PAGE  says what stands on this page
    read_archive.py salvage FILE     writes the tunes that can be read as a book, also of a damaged
                                     file, and says on standard error what is damaged or left out

The file is looked at whole before anything is written. Where it stands for no archive, or cannot
be read, the status is 1, and a line on standard error says why; it is 2 where the words are wrong.
`where` and `salvage` end so too, but say all that they find first.

Nothing is written to the file: behind an open gate the pages of the log are read in the place of
the old ones, and the gate stays open. No program can open the file meanwhile.

It reads files of the versions 1 and 2. In version 2 the incipits are of twelve notes, so the keys
of their index have 48 bytes, and a leaf of it has at most 78 entries; a text may have 64,000 bytes,
and there may be 50,000 tunes and 4,000,000 pages. All else is as in version 1.
"""
import fcntl
import os
import re
import stat
import sys
from contextlib import contextmanager
from typing import BinaryIO, Iterator, NamedTuple, TextIO

sys.dont_write_bytecode = True
from search_keys import keys_of

BLOCK, GATE, DESCRIPTOR, COUNT, FIRST_PAGE = 4096, 4096, 8192, 12288, 16384
MAGIC, OPEN, MOST_PAGES = b"ABCTUNE1", b"\xa7", 4_000_000
LINK_HEAD, LINK_BYTES, LEAF_HEAD, LEAF_BYTES, VALUE = 6, 4090, 2, 4094, 4
SEARCH_INDEXES = "titles", "rhythms", "scales", "incipits"
MOST_TITLES, MOST_NUMBER, MOST_REVISION, MOST_SETS, MOST_PLACES = 8, 999_999, 9_999, 500, 200
SET_BYTES = 1 + 40 + 2 + 4 * MOST_PLACES
SET_NAME = re.compile(rb"[A-Za-z0-9_-]{1,40}")
EMPTY_LINE = re.compile(rb"\n[ \t]*\n")


class Layout(NamedTuple):
    """How many pages and tunes there may be, and bytes in a text; how wide the keys of the indexes
    are, and those of incipits; and by how many notes these go."""
    pages: int
    tunes: int
    text: int
    key: int
    incipit_key: int
    notes: int


# By the version in the root.
LAYOUTS = {1: Layout(1_000_000, 20_000, 16_000, 32, 32, 8),
           2: Layout(4_000_000, 50_000, 64_000, 32, 48, 12)}


class Damaged(Exception):
    """Why something cannot be read, or stands for no archive."""


def claim_that(holds: bool, why: str) -> None:
    if not holds:
        raise Damaged(why)


def number(data: bytes, at: int = 0, size: int = 4) -> int:
    return int.from_bytes(data[at:at + size], "big")


def shown(key: bytes) -> str:
    """A key as people may read it."""
    return ascii(key.rstrip(b"\0"))[1:]


class Pages:
    """The pages that a file stands for, who has each, and all faults that were found so far."""

    def __init__(self, file: BinaryIO) -> None:
        self.file = file
        self.faults: list[str] = []
        self.owners: dict[int, str] = {}
        self.images: dict[int, int] = {}
        self.length = file.seek(0, os.SEEK_END)
        # As many as there are, where the file does not say well how many.
        self.count = max(0, self.length - FIRST_PAGE) // BLOCK
        with self.noting():
            self.read_front()

    @contextmanager
    def noting(self) -> Iterator[None]:
        """A fault ends what is done in this, and is noted."""
        try:
            yield
        except (Damaged, OSError) as fault:
            self.faults.append(str(fault))

    def note_unless(self, holds: bool, why: str) -> None:
        if not holds:
            self.faults.append(why)

    def bytes_at(self, offset: int, size: int) -> bytes:
        """As many bytes as there are up to this size."""
        self.file.seek(offset)
        return self.file.read(size)

    def read_front(self) -> None:
        claim_that(self.bytes_at(0, len(MAGIC)) == MAGIC, "it does not begin as an archive does")
        claim_that(self.length >= FIRST_PAGE + BLOCK, "the file is cut before its first page ends")
        is_open = self.bytes_at(GATE, 1) == OPEN
        count = number(self.bytes_at(DESCRIPTOR if is_open else COUNT, 4))
        claim_that(1 <= count <= MOST_PAGES, f"it says that it has {count} pages")
        claim_that(count <= self.count, f"the file is cut: {self.count} of {count} pages are there")
        self.images = dict(self.log(count)) if is_open else {}
        self.count = count

    def log(self, count: int) -> Iterator[tuple[int, int]]:
        """For each entry of the log behind so many pages its page, and where its image stands."""
        entries = number(self.bytes_at(DESCRIPTOR + 4, 4))
        start = FIRST_PAGE + BLOCK * count
        claim_that(1 <= entries <= count, f"the log has {entries} entries")
        claim_that(self.length >= start + (4 + BLOCK) * entries, "the log is cut")
        before = -1
        for at in range(start, start + (4 + BLOCK) * entries, 4 + BLOCK):
            page = number(self.bytes_at(at, 4))
            claim_that(before < page < count, f"the log names page {page} after {before}")
            yield page, at + 4
            before = page

    def image(self, page: int, what: str) -> bytes:
        claim_that(page < self.count, f"{what} has page {page}, which is not there")
        try:
            return self.bytes_at(self.images.get(page, FIRST_PAGE + BLOCK * page), BLOCK)
        except OSError as fault:
            raise Damaged(f"page {page} of {what} cannot be read: {fault.strerror}") from fault

    def claim(self, page: int, what: str) -> None:
        owner = self.owners.setdefault(page, what)
        claim_that(owner is what, f"{what} has page {page}, which {owner} has already")

    def chain(self, first: int, what: str, most: int) -> list[int]:
        """Claims the pages of the chain that begins at this one and has so many bytes at most."""
        pages: list[int] = []
        page, room = first, most
        while page:
            claim_that(page not in pages, f"{what} leads back to page {page}")
            image = self.image(page, what)
            with self.noting():
                self.claim(page, what)
            behind, used = number(image), number(image, 4, 2)
            claim_that(1 <= used <= LINK_BYTES, f"{used} bytes of page {page} of {what} count")
            claim_that(not behind or used == LINK_BYTES, f"page {page} of {what} is not full")
            claim_that(used <= room, f"{what} has more than {most} bytes, the last on page {page}")
            pages.append(page)
            page, room = behind, room - used
        return pages

    def bytes_on(self, pages: list[int]) -> bytes:
        """The bytes that count on the pages of a chain."""
        images = [self.image(page, "a chain") for page in pages]
        return b"".join(image[LINK_HEAD:LINK_HEAD + number(image, 4, 2)] for image in images)

    def leaf(self, page: int, what: str, width: int) -> Iterator[tuple[bytes, int]]:
        """Claims a leaf, and gives its entries, with keys of this width."""
        image = self.image(page, what)
        self.claim(page, what)
        count, size = number(image, 0, LEAF_HEAD), width + VALUE
        claim_that(1 <= count <= LEAF_BYTES // size, f"{what}, page {page}, has {count} entries")
        for at in range(LEAF_HEAD, LEAF_HEAD + size * count, size):
            yield image[at:at + width], number(image, at + width)


class Index:
    """The entries of an index, each with the page of its leaf, as far as they can be read."""

    def __init__(self, pages: Pages, first: int, what: str, width: int, most: int) -> None:
        self.what, self.width = what, width
        self.entries: list[tuple[bytes, int, int]] = []
        self.leaves = 0
        known = len(pages.faults)
        with pages.noting():
            listed = pages.bytes_on(pages.chain(first, f"the list of the {what}", VALUE * most))
            is_list = len(listed) % VALUE == 0
            claim_that(is_list, f"the list of the {what}, on page {first}, has {len(listed)} bytes")
            for at in range(0, len(listed), VALUE):
                with pages.noting():
                    self.read_leaf(pages, number(listed, at), width)
                claim_that(len(self.entries) <= most, f"there are more than {most} {what}")
        # Whether no entry is missed by a fault.
        self.is_whole = len(pages.faults) == known
        for before, after in zip(self.entries, self.entries[1:]):
            if before[:2] >= after[:2]:
                at = self.at(after)
                pages.faults.append(f"the entries {at} do not rise at {shown(after[0])}")

    def read_leaf(self, pages: Pages, page: int, width: int) -> None:
        self.leaves += 1
        name = f"leaf {self.leaves} of the {self.what}"
        self.entries += [(key, value, page) for key, value in pages.leaf(page, name, width)]

    def at(self, entry: tuple[bytes, int, int]) -> str:
        return f"on page {entry[2]}, a leaf of the {self.what},"


def split_sets(data: bytes) -> Iterator[tuple[str, list[int]]]:
    """The names and numbers of the set lists of these bytes, which have to have their form."""
    at, before = 0, b""
    while at < len(data):
        places = at + 1 + data[at]
        name, count = data[at + 1:places], number(data, places, 2)
        end = places + 2 + 4 * count
        claim_that(end <= len(data), "the last set list is cut")
        claim_that(SET_NAME.fullmatch(name) is not None, f"{name!r} is no name of a set list")
        claim_that(before < name, f"the set list {name.decode()} is not in order")
        claim_that(count <= MOST_PLACES, f"the set list {name.decode()} has {count} places")
        yield name.decode(), [number(data, place) for place in range(places + 2, end, 4)]
        at, before = end, name


def fault_of(text: bytes) -> str:
    """Why this is no text of a tune, or nothing."""
    lines = b"\n" + text
    if not text.endswith(b"\n"):
        return "does not end with a line feed"
    if b"\r" in text:
        return "has a carriage return"
    if EMPTY_LINE.search(lines):
        return "has an empty line"
    if b"\nX:" in lines:
        return "has an X: line"
    return "" if b"\nK:" in lines else "has no K: line"


class Archive:
    """The tunes and the set lists of an archive, as far as they can be read; all faults that there
    are in it are then noted in its pages."""

    def __init__(self, file: BinaryIO) -> None:
        self.pages = Pages(file)
        self.tunes: list[tuple[int, list[int]]] = []
        self.sets: list[tuple[str, list[int]]] = []
        self.set_pages: list[int] = []
        self.first_of: dict[int, int] = {}
        with self.pages.noting():
            self.read()

    def read(self) -> None:
        root = self.pages.image(0, "the root")
        self.pages.claim(0, "the root")
        self.version, numbers, *searches, sets = (number(root, 4 * i) for i in range(7))
        known = " or ".join(map(str, LAYOUTS))
        claim_that(self.version in LAYOUTS, f"it is of version {self.version}, and not of {known}")
        self.layout = layout = LAYOUTS[self.version]
        too_many = f"it has {self.pages.count} pages, and may have {layout.pages}"
        self.pages.note_unless(self.pages.count <= layout.pages, too_many)
        self.numbers = Index(self.pages, numbers, "numbers", layout.key, layout.tunes)
        self.searches = [self.search_index(*named) for named in zip(SEARCH_INDEXES, searches)]
        with self.pages.noting():
            most = MOST_SETS * SET_BYTES
            self.set_pages = self.pages.chain(sets, "the chain of the set lists", most)
            for named in split_sets(self.pages.bytes_on(self.set_pages)):
                self.sets.append(named)
        self.check_numbers()
        self.check_sets()
        for key, first, _ in self.numbers.entries:
            with self.pages.noting():
                self.read_tune(number(key), first)
        self.check_keys()

    def search_index(self, what: str, first: int) -> Index:
        width = self.layout.incipit_key if what == "incipits" else self.layout.key
        most = self.layout.tunes * (MOST_TITLES if what == "titles" else 1)
        return Index(self.pages, first, what, width, most)

    def check_numbers(self) -> None:
        for entry in self.numbers.entries:
            tune, at = number(entry[0]), self.numbers.at(entry)
            note_unless = self.pages.note_unless
            note_unless(not any(entry[0][4:]), f"the key {at} of tune {tune} is more than a number")
            note_unless(1 <= tune <= MOST_NUMBER, f"an entry {at} has the number {tune}")
            note_unless(tune not in self.first_of, f"an entry {at} has tune {tune} once more")
            self.first_of.setdefault(tune, entry[1])

    def check_sets(self) -> None:
        few = len(self.sets) <= MOST_SETS
        self.pages.note_unless(few, f"there are {len(self.sets)} set lists")
        for name, numbers in self.sets if self.numbers.is_whole else []:
            for tune in numbers:
                is_there = tune in self.first_of
                self.pages.note_unless(is_there, f"{name} names tune {tune}, which is none")

    def read_tune(self, tune: int, first: int) -> None:
        claim_that(first > 0, f"tune {tune} has no page")
        pages = self.pages.chain(first, f"tune {tune}", 2 + self.layout.text)
        data = self.pages.bytes_on(pages)
        revision, fault = number(data, 0, 2), fault_of(data[2:])
        claim_that(not fault, f"the text of tune {tune}, which begins on page {first}, {fault}")
        good = 1 <= revision <= MOST_REVISION
        self.pages.note_unless(good, f"tune {tune}, on page {first}, has the revision {revision}")
        self.tunes.append((tune, pages))

    def text(self, pages: list[int]) -> bytes:
        return self.pages.bytes_on(pages)[2:]

    def check_keys(self) -> None:
        """Notes each entry of a search index that is not there, and each that is no tune's."""
        wanted: list[set[tuple[bytes, int]]] = [set() for _ in self.searches]
        for tune, pages in self.tunes:
            all_keys = keys_of(self.text(pages), self.layout.notes)
            for entries, index, keys in zip(wanted, self.searches, all_keys):
                entries.update((key[:index.width].ljust(index.width, b"\0"), tune) for key in keys)
        read = {tune for tune, _ in self.tunes}
        for index, entries in zip(self.searches, wanted):
            found = {entry[:2]: entry for entry in index.entries}
            for key, tune in sorted(entries - found.keys()) if index.is_whole else []:
                why = f"the {index.what} have no key {shown(key)} of tune {tune}"
                self.pages.note_unless(False, why)
            for key, tune in sorted(found.keys() - entries):
                at, is_none = index.at(found[key, tune]), tune not in self.first_of
                if is_none and self.numbers.is_whole:
                    self.pages.note_unless(False, f"an entry {at} has tune {tune}, which is none")
                elif tune in read:
                    why = f"tune {tune} has not the key {shown(key)}, which is {at[:-1]}"
                    self.pages.note_unless(False, why)

    def holder(self, page: int) -> str:
        """What stands on a page, in words."""
        if page >= self.pages.count:
            return f"page {page} is not there"
        what = self.pages.owners.get(page, "free")
        if page in self.set_pages:
            what += ": " + ", ".join(self.sets_on(self.set_pages.index(page)))
        return f"page {page}, at byte {FIRST_PAGE + BLOCK * page}: {what}"

    def sets_on(self, place: int) -> Iterator[str]:
        """The names of the set lists that have bytes on the page at this place of their chain."""
        end = 0
        for name, numbers in self.sets:
            begin, end = end, end + 1 + len(name) + 2 + 4 * len(numbers)
            if begin < LINK_BYTES * (place + 1) and LINK_BYTES * place < end:
                yield name

    def write_book(self, out: BinaryIO) -> None:
        out.write(b"%abc-2.1\n")
        for tune, pages in self.tunes:
            out.write(b"\nX:%d\n%b" % (tune, self.text(pages)))

    def write_sets(self, out: BinaryIO) -> None:
        for name, numbers in self.sets:
            out.write(" ".join(map(str, [name, len(numbers), *numbers])).encode() + b"\n")

    def write_counts(self, out: BinaryIO) -> None:
        count, used = self.pages.count, len(self.pages.owners)
        lines = [f"layout {self.version}: {len(self.tunes)} tunes, {len(self.sets)} set lists",
                 f"{count} pages: {used} in use, {count - used} free"]
        lines += [f"index of {index.what}: {len(index.entries)} entries in {index.leaves} leaves"
                  for index in (self.numbers, *self.searches)]
        out.write("".join(line + "\n" for line in lines).encode())

    def write_faults(self, out: BinaryIO) -> None:
        out.write("".join(fault + "\n" for fault in self.pages.faults).encode())

    def salvage(self, out: BinaryIO, said: TextIO) -> None:
        """Writes the tunes that can be read, and says what is damaged, and what no book has."""
        self.tunes.sort()
        self.write_book(out)
        if self.pages.faults:
            left = sorted(self.first_of.keys() - {tune for tune, _ in self.tunes})
            lines = [*self.pages.faults, *(f"tune {tune} is left out" for tune in left),
                     *(" ".join(map(str, [f"the set list {name} has the tunes", *numbers]))
                       for name, numbers in self.sets)]
            said.write("".join(line + "\n" for line in lines))


# The words that want a whole archive.
WRITERS = {"book": Archive.write_book, "sets": Archive.write_sets, "check": Archive.write_counts}


def lock(file: BinaryIO) -> None:
    """Keeps programs of the archive from the file, where its file system has locks."""
    try:
        fcntl.flock(file, fcntl.LOCK_SH | fcntl.LOCK_NB)
    except BlockingIOError as fault:
        raise Damaged("another program has it open") from fault
    except OSError:
        pass


def carry_out(word: str, path: str, page: str, out: BinaryIO) -> None:
    claim_that(stat.S_ISREG(os.stat(path).st_mode), "it is no regular file")
    with open(path, "rb", buffering=0) as file:
        lock(file)
        archive = Archive(file)
        faults = archive.pages.faults
        if word in WRITERS:
            claim_that(not faults, faults[0] if faults else "")
            WRITERS[word](archive, out)
        elif word == "salvage":
            archive.salvage(out, sys.stderr)
            claim_that(not faults, f"it is damaged: {len(archive.tunes)} tunes can be read")
        elif page:
            out.write((archive.holder(int(page)) + "\n").encode())
        else:
            archive.write_faults(out)
            claim_that(not faults, f"it is damaged: {len(faults)} faults")


def main(words: list[str]) -> int:
    word, path, page = (words[1:] + ["", "", ""])[:3]
    is_place = word == "where" and len(words) == 4 and page.isascii() and page.isdecimal()
    if word not in (*WRITERS, "where", "salvage") or not (len(words) == 3 or is_place):
        print("usage: read_archive.py book|sets|check|salvage|where FILE, or where FILE PAGE",
              file=sys.stderr)
        return 2
    try:
        with open(1, "wb", closefd=False) as out:
            carry_out(word, path, page, out)
    except (Damaged, OSError) as fault:
        print(f"read_archive.py: {path}: {fault}", file=sys.stderr)
        return 1
    return 0


if __name__ == "__main__":
    sys.exit(main(sys.argv))
