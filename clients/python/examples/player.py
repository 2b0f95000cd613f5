#!/usr/bin/env python3
"""A list of tunes for a player: Usage: player.py FILE [COMMAND [WORD..]]

FILE is an archive. Without a command, commands are read from standard input, one on each line:

  notes NOTES [KEY]  lists the tunes that open with these notes, as they are printed
  title WORDS        lists the tunes with a title that begins so
  show NUM           shows a tune
  sets               lists the set lists
  set NAME           lists the tunes of a set list
  print NAME OUT     prints a set list: OUT ends in .pdf or .ps, for sheets by abcm2ps, or in .abc

Status: 0 done; 1 refused, or not printed; 2 wrong words.
"""
import io
import os
import shlex
import shutil
import subprocess
import sys
import tempfile
from typing import Callable, Dict, Iterable, List

from tunes_archive import Archive, Row, TunesError

DONE, REFUSED, BAD_WORDS = 0, 1, 2


class NotPrinted(Exception):
    """A set list was not printed."""


def write_rows(rows: Iterable[Row]) -> None:
    """Writes the number and the title of each tune."""
    for row in rows:
        print(f'{row.number:>6}  {row.label}')


def notes(archive: Archive, words: List[str]) -> None:
    """Lists tunes by their first notes."""
    write_rows(archive.find_notes(words[0], words[1] if len(words) > 1 else None))


def title(archive: Archive, words: List[str]) -> None:
    """Lists tunes by the front of a title."""
    write_rows(archive.find_title(' '.join(words)))


def show(archive: Archive, words: List[str]) -> None:
    """Shows a tune, byte for byte."""
    sys.stdout.flush()
    sys.stdout.buffer.write(archive.show(int(words[0])).book)
    sys.stdout.buffer.flush()


def sets(archive: Archive, words: List[str]) -> None:
    """Lists the set lists."""
    for found in archive.sets():
        print(f'{found.name}: {found.length} tunes')


def set_list(archive: Archive, words: List[str]) -> None:
    """Lists the tunes of a set list."""
    for place in archive.set_show(words[0]).places:
        print(f'{place.place:>3}.  {place.row.number:>6}  {place.row.label}')


def print_set(archive: Archive, words: List[str]) -> None:
    """Prints a set list to a new file."""
    name, out = words
    kind = os.path.splitext(out)[1]
    if kind not in ('.abc', '.ps', '.pdf'):
        raise ValueError(f'{out} does not end in .pdf, .ps or .abc')
    if os.path.lexists(out):
        raise NotPrinted(f'{out} is there, and stays')
    book = archive.export_set(name)
    with tempfile.TemporaryDirectory() as folder:
        made = os.path.join(folder, 'set' + kind)
        written = os.path.join(folder, 'set.abc')
        with open(written, 'wb') as file:
            file.write(book)
        if kind != '.abc':
            sheets = os.path.join(folder, 'set.ps')
            draw('abcm2ps', '-q', '-O', sheets, written)
            if kind == '.pdf':
                draw('ps2pdf', sheets, made)
        with open(made, 'rb') as source, open(out, 'xb') as target:
            shutil.copyfileobj(source, target)
    print(f'{out} has the set list {name}')


def draw(program: str, *words: str) -> None:
    """Runs a program that draws."""
    if not shutil.which(program):
        raise NotPrinted(f'the program {program} is not found: apt install abcm2ps ghostscript')
    drawn = subprocess.run([program, *words], stdin=subprocess.DEVNULL, check=False,
                           stdout=subprocess.DEVNULL, stderr=subprocess.PIPE)
    if drawn.returncode != 0:
        raise NotPrinted(f'{program} failed: {drawn.stderr.decode(errors="replace")}')


COMMANDS: Dict[str, Callable[[Archive, List[str]], None]] = {
    'notes': notes, 'title': title, 'show': show, 'sets': sets, 'set': set_list,
    'print': print_set}


def carry_out(archive: Archive, words: List[str]) -> int:
    """Carries a command out, and gives the status."""
    command = COMMANDS.get(words[0])
    if command is None:
        print(f'player: there is no command {words[0]}', file=sys.stderr)
        return BAD_WORDS
    try:
        command(archive, words[1:])
    except (IndexError, ValueError) as error:
        print(f'player: {words[0]} has other words than these: {error}', file=sys.stderr)
        return BAD_WORDS
    except (TunesError, NotPrinted) as error:
        print(f'player: {error}', file=sys.stderr)
        return REFUSED
    return DONE


def lines_of(archive: Archive) -> int:
    """Carries out the commands of standard input, and gives the greatest status."""
    worst = DONE
    for line in sys.stdin:
        words = shlex.split(line)
        if words:
            worst = max(worst, carry_out(archive, words))
            sys.stdout.flush()
    return worst


def main(words: List[str]) -> int:
    """Opens the archive when it is asked, and not before."""
    if not words or words[0] in ('-h', '--help'):
        print(__doc__, end='', file=sys.stdout if words else sys.stderr)
        return DONE if words else BAD_WORDS
    try:
        with Archive(words[0]) as archive:
            return carry_out(archive, words[1:]) if words[1:] else lines_of(archive)
    except (TunesError, ValueError) as error:
        print(f'player: {error}', file=sys.stderr)
        return REFUSED


if __name__ == '__main__':
    if isinstance(sys.stdout, io.TextIOWrapper):
        sys.stdout.reconfigure(errors='replace')
    sys.exit(main(sys.argv[1:]))
