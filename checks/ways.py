#!/usr/bin/env python3
"""Usage: checks/ways.py [--write]

Traces the built program along the ways of docs/PIPE-TO-PLATTER.md, and looks whether each trace on
the page is the one that it goes. It prints each that is not and ends with 1, or prints one line and
ends with 0. With `--write` it writes them.

A trace has the functions in the order in which they are called first, one line for each crate in a
row, with their files. In front of it stands how many functions, files and crates there are, and
how often the file changes from one function to the next. A function that the compiler put into
those that call it has no symbol, and is not seen; functions of the kit are left out. Of an import
and an upgrade the opening is left out, which is a way of its own.

A way may not have more functions, files or changes of file than MOST says.

The program is the one that `rt ci` built, or the one that the variable TUNES names. It is traced by
`gdb`, by its symbols, which `nm` reads. Where one of them is missing, or no program may be traced,
a line says so, and the traces stay as they were kept.
"""
import functools
import json
import os
import re
import shutil
import subprocess
import sys
import tempfile
import textwrap
from itertools import groupby
from typing import NamedTuple

sys.dont_write_bytecode = True
ROOT = os.path.dirname(os.path.dirname(os.path.abspath(__file__)))
sys.path[:0] = [os.path.join(ROOT, 'checks'), os.path.join(ROOT, 'examples')]
from archives import Archive, Tune  # noqa: E402
from search_keys import keys_of  # noqa: E402

PROGRAM = os.path.abspath(os.environ.get('TUNES')
                          or os.path.join(ROOT, 'crates', 'tunes', 'out', 'tunes'))
PAGE = os.path.join(ROOT, 'docs', 'PIPE-TO-PLATTER.md')
WIDTH = 100

BOOK = (b'X:1\nT:The Kesh Jig\nR:jig\nM:6/8\nL:1/8\nK:G\n'
        b'G3 GAB|A3 ABd|edd gdd|edB dBA|\nGAG GAB|ABA ABd|\n')
IMPORT = b'import %d\n%b' % (len(BOOK), BOOK)

# Where a way begins, and what ends the part in front of it: names of functions, by their crates.
OPEN = 'tune_archive', 'open'
READ = 'tune_scripts', 'read_line'
APPLY = 'tune_archive', 'apply'
ON_FILE = 'tune_cli', 'on_file'


class Way(NamedTuple):
    """A way of the page: its heading, the words of the call, what is read from standard input, the
    layout of the archive, where it begins, and whether what comes before the opening is its own."""
    heading: str
    words: tuple
    script: bytes
    layout: int
    begins: tuple
    from_main: bool


WAYS = [
    Way('An import into a file', ('run',), IMPORT, 2, READ, True),
    Way('A find in a file', ('run',), b'find title kesh\n', 2, READ, False),
    Way('An upgrade of a file', ('upgrade',), b'', 1, APPLY, True),
    Way('An opening', ('check',), b'', 2, ON_FILE, False),
]
# Functions, files and changes of file of a way, at most.
MOST = 300, 70, 150

# What gdb runs. Each function is told when it is called first, and once more behind the mark.
TRACER = '''
import gdb, json, os
with open(os.environ['WAY']) as file:
    way = json.load(file)
gdb.execute('set pagination off')
gdb.execute('starti ' + way['words'] + ' < ' + way['script'] + ' > ' + way['replies'])
with open('/proc/%d/maps' % gdb.selected_inferior().pid) as file:
    parts = [line for line in file if line.rstrip().endswith(way['program'])]
base = min(int(line.split('-')[0], 16) for line in parts)
order, points, begun = [], [], [False]

class Point(gdb.Breakpoint):
    def __init__(self, at, name):
        super().__init__('*%#x' % (base + at), internal=True)
        self.name = name

    def stop(self):
        if self.name in way['begins'] and not begun[0]:
            begun[0] = True
            order.append('')
            for point in points:
                point.enabled = True
        order.append(self.name)
        self.enabled = False
        return False

points.extend(Point(at, name) for at, name in way['symbols'])
gdb.execute('continue')
with open(way['order'], 'w') as file:
    file.write('\\n'.join(order))
'''


class Function(NamedTuple):
    """A function of a crate: its file under crates/, and its name."""
    file: str
    name: str

    @property
    def crate(self):
        return self.file.split('/')[0]


def crates():
    with open(os.path.join(ROOT, 'crates.txt'), encoding='utf-8') as file:
        lines = [line.partition('#')[0] for line in file]
    return {line.split(':')[0].split()[0] for line in lines if ':' in line}


@functools.lru_cache(None)
def sources(crate):
    """The files of a crate, with what stands in them: paths under crates/."""
    found = {}
    for at, _, files in os.walk(os.path.join(ROOT, 'crates', crate, 'src')):
        for file in files:
            path = os.path.join(at, file)
            with open(path, encoding='utf-8') as source:
                found[os.path.relpath(path, os.path.join(ROOT, 'crates'))] = source.read()
    return found


def owner_of(source, name):
    """What the function of a name in a source is a method of: the words of each `impl`."""
    for impl in re.finditer(r'^impl\b(.*?)\{\n(.*?)^\}', source, re.M | re.S):
        if re.search(rf'\bfn {name}\b', impl[2]):
            yield set(re.findall(r'\w+', impl[1]))


@functools.lru_cache(None)
def function_of(symbol):
    """What a symbol names, as `tune_archive::archive::Archive::open::<#hash>`; none where the
    compiler made it. A method's symbol has the module of its type, and it may stand elsewhere."""
    if '++' in symbol:
        return None
    crate, *path = re.sub(r'::<.*', '', symbol).split('+')[0].split('::')
    name, places = path[-1], sources(crate)
    with_it = [file for file, source in places.items() if re.search(rf'\bfn {name}\b', source)]
    if len(path) > 1 and path[-2][:1].isupper():
        # Of a method of a trait it is the type's name, and then the trait's.
        with_it = [file for file in with_it if any(
            path[-2] in (a, a + b) for words in owner_of(places[file], name)
            for a in words for b in words)] or with_it
        path = path[:-2]
    else:
        path = path[:-1]
    module = os.path.join(crate, 'src', *path) + '.rt'
    if not with_it:
        return None
    if len(with_it) == 1:
        return Function(with_it[0], name)
    if module in with_it:
        return Function(module, name)
    sys.exit(f'{symbol}: {name} stands in {", ".join(with_it)}')


def symbols():
    """The functions of our crates that the program has, with where they begin."""
    ours = crates()
    listed = subprocess.run(['nm', PROGRAM], stdout=subprocess.PIPE, text=True, check=True).stdout
    found = []
    for line in listed.split('\n'):
        words = line.split(' ', 2)
        if len(words) == 3 and words[1] in 'tT' and words[2].split('::')[0] in ours:
            if function_of(words[2]):
                found.append((int(words[0], 16), words[2]))
    return found


def make_archive(path, layout):
    """An archive of one tune."""
    text = BOOK.partition(b'\n')[2]
    titles, rhythms, scales, incipits = keys_of(text, 12)
    key = b''.join(incipits)
    steps = [int.from_bytes(key[at:at + 4], 'big') - 2 ** 31 for at in range(0, len(key), 4)]
    tune = Tune(text, tuple(titles), b''.join(rhythms), b''.join(scales), tuple(steps))
    with open(path, 'w+b') as file:
        Archive({1: tune}, version=layout).write(file)


def trace(way, found, folder):
    """The functions of a way, in the order in which they are called first."""
    file = os.path.join(folder, 'a.tunes')
    make_archive(file, way.layout)
    with open(os.path.join(folder, 'script'), 'wb') as script:
        script.write(way.script)
    marks = [name for _, name in found if is_mark(name, way.begins)]
    told = {'words': f'{way.words[0]} a.tunes', 'script': 'script', 'replies': 'replies',
            'order': 'order', 'program': PROGRAM, 'symbols': found, 'begins': marks}
    for name, text in ('way', json.dumps(told)), ('tracer.py', TRACER):
        with open(os.path.join(folder, name), 'w', encoding='utf-8') as part:
            part.write(text)
    ran = subprocess.run(['gdb', '-q', '-nx', '-batch', '-x', 'tracer.py', PROGRAM], cwd=folder,
                         env={**os.environ, 'WAY': 'way'}, stdin=subprocess.DEVNULL,
                         stdout=subprocess.PIPE, stderr=subprocess.STDOUT, text=True, check=False)
    try:
        with open(os.path.join(folder, 'order'), encoding='utf-8') as order:
            names = order.read().split('\n')
    except OSError:
        sys.exit(f'{way.heading} was not traced:\n{ran.stdout[-1000:]}')
    if '' not in names:
        sys.exit(f'{way.heading}: no function {" ".join(way.begins)} was called')
    begins = names.index('')
    front = []
    if way.from_main:
        opening = next(at for at, name in enumerate(names) if is_mark(name, OPEN))
        front = names[:opening]
    return [function_of(name) for name in [*front, *names[begins + 1:]]]


def is_mark(name, mark):
    function = function_of(name)
    return function is not None and (function.crate, function.name) == mark


def unique(functions):
    """Each once, in order: a generic function may have several symbols."""
    return list(dict.fromkeys(functions))


def counts(functions):
    changes = sum(one.file != other.file for one, other in zip(functions, functions[1:]))
    return (len(functions), len({one.file for one in functions}), changes,
            len({one.crate for one in functions}))


def block(way, functions):
    """What the page has of a trace."""
    number, files, changes, crates_seen = counts(functions)
    lines = textwrap.wrap(
        f'The built program goes through {number} functions in {files} files of {crates_seen} '
        f'crates here, with {changes} changes of file'
        f'{", the opening left out" if way.from_main else ""}:', WIDTH)
    lines += ['', '```text']
    for crate, group in groupby(functions, lambda one: one.crate):
        parts = []
        for file, names in groupby(group, lambda one: one.file):
            parts.append(f'{os.path.basename(file)} {", ".join(one.name for one in names)}')
        lines += textwrap.wrap(f'{crate:<14} {"; ".join(parts)}', WIDTH,
                               subsequent_indent=' ' * 15, break_on_hyphens=False)
    return '\n'.join([*lines, '```', ''])


def mark(way):
    return f'<!-- traced: {way.heading} -->\n', f'<!-- end of {way.heading} -->'


def why_not():
    """Why nothing can be traced here, if so."""
    missing = [tool for tool in ('gdb', 'nm') if not shutil.which(tool)]
    if missing:
        return f'there is no {" and no ".join(missing)}'
    ran = subprocess.run(['gdb', '-q', '-nx', '-batch', '-ex', 'python gdb.execute("starti")',
                          '-ex', 'kill', PROGRAM], stdin=subprocess.DEVNULL,
                         stdout=subprocess.DEVNULL, stderr=subprocess.PIPE, text=True, check=False)
    return '' if ran.returncode == 0 and not ran.stderr else 'gdb cannot trace a program here'


def main(words):
    if not os.access(PROGRAM, os.X_OK):
        sys.exit(f'no program at {PROGRAM}: run rt ci, or set TUNES')
    why = why_not()
    if why:
        print(f'{why}: the traces stay as they were kept')
        return 0
    with open(PAGE, encoding='utf-8') as file:
        page = file.read()
    found, faults, new = symbols(), [], page
    for way in WAYS:
        with tempfile.TemporaryDirectory() as folder:
            functions = unique(trace(way, found, folder))
        begin, end = mark(way)
        if begin not in new or end not in new:
            sys.exit(f'docs/PIPE-TO-PLATTER.md has no place for the trace of {way.heading}')
        before, _, rest = new.partition(begin)
        was, _, after = rest.partition(end)
        if was != block(way, functions):
            faults.append(f'docs/PIPE-TO-PLATTER.md: the program goes another way: {way.heading}')
        for what, count, most in zip(('functions', 'files', 'changes of file'),
                                     counts(functions), MOST):
            if count > most:
                faults.append(f'{way.heading} has {count} {what}, and may have {most}')
        new = f'{before}{begin}{block(way, functions)}{end}{after}'
    if '--write' in words:
        with open(PAGE, 'w', encoding='utf-8') as file:
            file.write(new)
        faults = [fault for fault in faults if 'another way' not in fault]
    print(*faults or [f'{len(WAYS)} ways are as the page tells them'], sep='\n')
    return 1 if faults else 0


if __name__ == '__main__':
    sys.exit(main(sys.argv[1:]))
