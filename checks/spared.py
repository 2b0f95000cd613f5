#!/usr/bin/env python3
"""Usage: checks/spared.py [--calls N] [--seed S] [--shell 'sh']

Makes 1,000 calls of ./tunes-book that write a file, or so many, chosen by chance from the seed, and
looks behind each that nothing is lost by it. The calls are made in worlds: folders with archives,
their copies and companions, source books, scripts and texts by hand, earlier results, links of all
kinds to these, folders, pipes and devices. Any of them, or a new name, is given as the file to be
written, in any spelling, and often as the archive too.

What a call may do is told by the rules below, and not by script or program. OUT is never the
archive, nor a file that begins as one, nor a companion of the archive. A file that stands there is
written over only with --force. Then OUT has to be whole, and the status 0. Else the status is
another, of those that the rules tell. Each other file, link or folder has to be as it was, of the
same bytes; nothing may be left behind, nor in the folder for working files.

The world of a number, and its calls, depend on the seed alone. The programs are those that ./build
made, or those that the variables TUNES and TUNES_DESK name; the tools that draw and play are small
scripts in place of the real ones. A line is printed for each fault, in which /world is the folder
of its world, and one at the end for all; the status is 1 where there was a fault.
"""
import argparse
import hashlib
import os
import random
import re
import shlex
import shutil
import signal
import stat
import subprocess
import sys
import tempfile
import time
from concurrent.futures import ThreadPoolExecutor
from typing import NamedTuple

sys.dont_write_bytecode = True
ROOT = os.path.dirname(os.path.dirname(os.path.abspath(__file__)))
FRONT_END = os.path.join(ROOT, 'tunes-book')
BUILT = os.path.join(ROOT, 'crates', 'tunes', 'out', 'tunes')
PROGRAM = os.path.abspath(os.environ.get('TUNES') or BUILT)
BUILT_DESK = os.path.join(ROOT, 'crates', 'tunes_desk', 'out', 'tunes_desk')
DESK = os.path.abspath(os.environ.get('TUNES_DESK') or BUILT_DESK)
MAGIC = b'ABCTUNE1'
CALLS_IN_A_WORLD, PATIENCE = 25, 20
LOOK = b'export\nsets\nset-show friday\n'
DONE, REFUSED, BAD_WORDS, NO_ARCHIVE = 0, 1, 2, 3

# WHAT STANDS IN A WORLD

# A tune has a line that is a command of scripts.
KESH = b'X:1\nT:The Kesh\nR:jig\nM:6/8\nK:G\nGAG GAB|ABA ABd|\n'
MARCH = b'X:2\nT:March\nK:D\nDFA dfa|\nshow 1\n'
WALTZ = b'X:3\nT:Waltz\nM:3/4\nK:A\nA2 ce|\n'
BOOK = b'\n'.join((KESH, MARCH, WALTZ))
AS_WRITTEN = b'%abc-2.1\n\n' + BOOK
SOURCE_BOOKS = {
    'plain.abc': BOOK,
    'header.abc': b'M:6/8\n%%scale 0.7\n\n' + BOOK,
    'return.abc': BOOK.replace(b'\n', b'\r\n'),
    'written return.abc': AS_WRITTEN.replace(b'\n', b'\r\n'),
    'remarks.abc': b'%abc-2.1\nThe tunes of Friday, by Ann.\n\n' + BOOK,
    'remark between.abc': b'%abc-2.1\n\n' + KESH + b'\n% by Ann\n\n' + MARCH,
    'text between.abc': b'%abc-2.1\n\n' + KESH + b'\nLearn this next.\n\n' + MARCH,
    'remark behind.abc': AS_WRITTEN + b'\nEnd of the book.\n',
    'set up.abc': b'%abc-2.1\n% set up by Ann\n\n' + BOOK,
    'written header.abc': b'%abc-2.1\nM:6/8\nR:jig\n\n' + BOOK,
    'layout.abc': b'%abc-2.1\n%%scale 0.7\n\n' + BOOK,
    'version.abc': b'%abc-1.6\n\n' + BOOK,
    'marked.abc': b'\xef\xbb\xbf' + AS_WRITTEN,
    'empty.abc': b'',
    '-dash.abc': BOOK,
    'back\\slash.abc': BOOK,
}
IMPORT = b'import %d\n%b' % (len(KESH), KESH)
SCRIPTS = {
    'hand.tunes': b'show 1\nfind title kesh\n',
    'begun.tunes': IMPORT + b'delete 1\n',
    'shown.tunes': IMPORT + b'set-new friday\nset-add friday 1\nset-show friday\n',
    'bad.tunes': IMPORT + b'renumber 7 9\n',
    'cut.tunes': b'import 4000\n' + KESH,
    # This stands where `loaded` would be made.
    'loaded.new': IMPORT,
}
TEXTS = {'text.txt': b'Friday at eight.\n', 'text.pdf': b'%PD', 'text.ps': b'Friday\n%!PS\n',
         'text.mid': b'MTh', 'text.abc.new': b'Mine.\n', 'empty.pdf': b'', 'empty.mid': b''}
# What a command is given often: what it wrote before, and archives of such names.
LIKELY = {'export': ['book.abc', 'friday.abc', 'earlier.abc', 'copy.abc'],
          'print': ['sheets.pdf', 'sheets.ps', 'copy.pdf', 'copy.ps'],
          'hear': ['sound.mid', 'sound.mid', 'copy.mid'],
          'dump': ['script.tunes', 'earlier.tunes', 'copy.tunes', *SCRIPTS]}
# The commands whose result may be written over a file.
RESULTS = ('export', 'print', 'hear', 'dump')
ENDINGS = {'print': ('.pdf', '.ps'), 'hear': ('.mid',)}
# What stands beside OUT then.
BESIDE = {'backup': '.sha256', 'load': '.old.abc'}
FRESH = ['fresh', 'fresh one', '-fresh', '--force', 'fresh\\n', 'fresh*', 'frésh', 'new',
         "fresh'$(true)", 'fresh\udcff', 'nowhere/fresh', 'nowhere/../fresh', 'deep/fresh',
         'to other/fresh', 'fresh/']
TOOLS = {
    'abcm2ps': r'''{ echo '%!PS-Adobe-2.0'; sed 's/^/% /' "$4"; echo '%%EOF'; } > "$3"''',
    'ps2pdf': r'''{ echo '%PDF-1.4'; sed 's/^/% /' "$1"; echo '%%EOF'; } > "$2"''',
    'abc2midi': r'''head -c 60 "$1" > text; size=$(($(wc -c < text)))
byte() { printf "\\$(printf %o "$1")"; }
{
    printf 'MThd\0\0\0\006\0\0\0\001\001\340MTrk\0\0\0'
    byte $((size + 8)); printf '\0\377\001'; byte "$size"; cat text; printf '\0\377/\0'
} > "$3"''',
}
MAKE = '''
new
add plain.abc header.abc return.abc
put friday 1 2 2
export earlier.abc
dump earlier.tunes
delete 3
edit 1
backup copy.abcx
restore copy.abcx
export book.abc
export friday.abc friday
print sheets.pdf
print sheets.ps friday
hear 1 sound.mid
dump script.tunes
'''


def sheets(head, text):
    """What the tools in place of abcm2ps and ps2pdf write."""
    return head + b''.join(b'%% %b\n' % line for line in text.split(b'\n')[:-1]) + b'%%EOF\n'


def sound(tune):
    """What the tool in place of abc2midi writes."""
    text = tune[:60]
    return (b'MThd\0\0\0\6\0\0\0\1\1\340MTrk\0\0\0%c\0\377\1%c%b\0\377/\0'
            % (len(text) + 8, len(text), text))


class Node(NamedTuple):
    """What stands at a path: of a file its bytes, of a link where it leads, of a device which."""
    kind: int
    mode: int
    inode: int
    what: object


def node_of(path):
    found = os.lstat(path)
    kind, what = stat.S_IFMT(found.st_mode), found.st_rdev
    if kind == stat.S_IFREG:
        what = bytes_of(path)
    elif kind == stat.S_IFLNK:
        what = os.readlink(path)
    return Node(kind, stat.S_IMODE(found.st_mode), found.st_ino, what)


def nodes_in(folder):
    return {os.path.join(above, name): node_of(os.path.join(above, name))
            for above, folders, files in os.walk(folder) for name in folders + files}


def bytes_of(path):
    with open(path, 'rb') as file:
        return file.read()


def put_file(path, data):
    with open(path, 'wb') as file:
        file.write(data)


def remove(path):
    if os.path.isdir(path) and not os.path.islink(path):
        shutil.rmtree(path)
    else:
        os.remove(path)


def put_back(before, after):
    """Makes what stands as it was, where the two differ."""
    changed = sorted(path for path in {*before, *after} if before.get(path) != after.get(path))
    for path in reversed(changed):
        if os.path.lexists(path):
            remove(path)
    places = {node.inode: path for path, node in before.items() if path not in changed}
    for path in changed:
        if path in before:
            put_node(path, before[path], places)


def put_node(path, node, places):
    """Puts a node there; a file whose inode has a place already becomes a link to that."""
    first = places.setdefault(node.inode, path)
    if node.kind == stat.S_IFLNK:
        os.symlink(node.what, path)
    elif node.kind == stat.S_IFDIR:
        os.mkdir(path, node.mode)
    elif first != path:
        os.link(first, path)
    elif node.kind == stat.S_IFREG:
        put_file(path, node.what)
        os.chmod(path, node.mode)
    else:
        os.mknod(path, node.kind | node.mode, node.what)


class Run:
    """What all worlds share: the tools, the first world, and what the program answered."""

    def __init__(self, folder, words):
        self.folder, self.seed, self.shell = folder, words.seed, words.shell.split()
        self.answers = {}
        self.tools, self.first = (os.path.join(folder, name) for name in ('tools', 'first'))
        os.mkdir(self.tools)
        for name, script in TOOLS.items():
            put_file(os.path.join(self.tools, name), b'#!/bin/sh\n%b\n' % script.encode())
            os.chmod(os.path.join(self.tools, name), 0o755)
        self.make_first()

    def make_first(self):
        work = os.path.join(self.first, 'work')
        for name in ('work/x', 'work/deep', 'work/folder.pdf', 'other/deep'):
            os.makedirs(os.path.join(self.first, name))
        for name, data in {**SOURCE_BOOKS, **SCRIPTS, **TEXTS}.items():
            put_file(os.path.join(work, name), data)
        for line in MAKE.strip().split('\n'):
            self.make(work, ['-f', 'a.abcx', *line.split()])
        for line in ('new', 'add remarks.abc', 'delete 2', 'put friday 3 1'):
            self.make(work, ['-f', 'b.abcx', *line.split()])
        archive = bytes_of(os.path.join(work, 'a.abcx'))
        put_file(os.path.join(work, 'cut.abcx'), archive[:len(archive) // 2])
        put_file(os.path.join(work, 'cut.mid'), MAGIC)
        put_file(os.path.join(work, 'sheets as.ps'), bytes_of(os.path.join(work, 'sheets.pdf')))
        put_file(os.path.join(work, 'sheets as.pdf'), bytes_of(os.path.join(work, 'sheets.ps')))
        for name in ('-dash.abcx', 'copy.pdf', 'copy.mid', 'copy.new', '../other/c d.abcx'):
            put_file(os.path.join(work, name), archive)
        for name in ('copy.abc', 'copy.tunes', 'copy.ps', 'copy', 'copy.txt'):
            put_file(os.path.join(work, name), archive[:4096])

    def make(self, cwd, words):
        status, said = self.call(cwd, words, self.folder, {'EDITOR': 'sed -i s/Kesh/Cash/'})
        assert status == DONE, f'{words}: status {status}, {said}'

    def call(self, cwd, words, temporary, more):
        """The status of a call of the front end, or none where it hangs, and what it says."""
        path = self.tools + os.pathsep + os.environ['PATH']
        environment = {**os.environ, 'PATH': path, 'TUNES': PROGRAM, 'TUNES_DESK': DESK,
                       'TMPDIR': temporary, **more}
        started = subprocess.Popen(
            [*self.shell, FRONT_END, *words], cwd=cwd, env=environment, stdin=subprocess.DEVNULL,
            stdout=subprocess.PIPE, stderr=subprocess.STDOUT, start_new_session=True)
        try:
            said = started.communicate(timeout=PATIENCE)[0]
        except subprocess.TimeoutExpired:
            os.killpg(started.pid, signal.SIGKILL)
            return None, started.communicate()[0].decode(errors='replace')
        return started.returncode, said.decode(errors='replace')

    def answer(self, words, file, script=b''):
        """The status and the output of the program over this file; `list` has none."""
        data = b'' if file is None else bytes_of(file)
        asked = words, data, script
        if asked not in self.answers:
            given = [words] if file is None else [words, file]
            ended = subprocess.run([PROGRAM, *given], input=script, stdout=subprocess.PIPE,
                                   stderr=subprocess.DEVNULL, check=False, timeout=PATIENCE)
            self.answers[asked] = ended.returncode, ended.stdout
        return self.answers[asked]


class World:
    """Folders with all kinds of files, in which calls are made."""

    def __init__(self, run, number):
        self.run, self.number = run, number
        self.chance = random.Random(f'{run.seed}/{number}')
        self.folder = os.path.join(run.folder, f'world {number}')
        self.temporary = os.path.join(run.folder, f'temporary {number}')
        os.mkdir(self.temporary)
        shutil.copytree(run.first, self.folder, symlinks=True)
        self.work, self.other = (os.path.join(self.folder, name) for name in ('work', 'other'))
        self.put_special()
        self.put_companions()
        self.put_links()
        self.nodes = nodes_in(self.folder)

    def put_special(self):
        for name in ('pipe', 'pipe.pdf', 'pipe.mid', 'piped.abc.new'):
            os.mkfifo(os.path.join(self.work, name))
        for name in ('null', 'null.ps', 'null.mid'):
            path = os.path.join(self.work, name)
            # A link to the device of all programs only where nobody here could replace that.
            if os.geteuid() == 0:
                try:
                    os.mknod(path, stat.S_IFCHR | 0o666, os.makedev(1, 3))
                except PermissionError:
                    pass
            else:
                os.symlink('/dev/null', path)
        for name, target in (('to other', '../other'), ('other/back', '../work'),
                             ('loop', 'loop'), ('gone.abc', 'nowhere/gone'), ('first', 'second'),
                             ('second', 'a.abcx'), ('other/far.abcx', '../work/first'),
                             # Names that end in a line feed, which a shell may lose.
                             ('ends', 'a.abcx\n'), ('ends.abc', 'book.abc\n'),
                             ('ends.mid', 'copy.mid\n'), ('ends.pdf', 'sheets.pdf\n')):
            os.symlink(target, os.path.join(self.folder if '/' in name else self.work, name))
        os.link(os.path.join(self.work, 'a.abcx'), os.path.join(self.other, 'hard.abcx'))

    def put_companions(self):
        """Files that stand where a call may write in passing, and other names for them."""
        # None is empty: `new` may fill a file without a byte, by each of its names.
        texts = [AS_WRITTEN, IMPORT, b'Ours.\n', b'Mine.\n', MAGIC, sheets(b'%PDF-1.4\n', b'')]
        for name in ('a.abcx.new', 'b.abcx.new', 'b.abcx.3.old', 'a.abcx.4.old', 'first.old.abc',
                     'a.abcx.old.abc', 'a.abcx.1.old'):
            path = os.path.join(self.work, name)
            if not os.path.exists(path) and self.chance.random() < 0.4:
                put_file(path, self.chance.choice(texts))
            ending = self.chance.choice(['', '.abc', '.tunes', '.pdf', '.mid'])
            if os.path.exists(path):
                os.link(path, os.path.join(self.work, f'again {name}{ending}'))
        for name, target in (('copy.abcx.old.abc', 'plain.abc'), ('copy.abcx.1.old', 'book.abc'),
                             ('copy.abcx.2.old', 'kept')):
            if self.chance.random() < 0.4:
                os.symlink(target, os.path.join(self.work, name))

    def put_links(self):
        for number in range(24):
            ending = self.chance.choice(['', '.abc', '.abcx', '.tunes', '.pdf', '.ps', '.mid'])
            name = f'link {number}{ending}'
            if number < 4:
                name = f'fresh{ending}.new'
            path = os.path.join(self.chance.choice([self.work, self.work, self.other]), name)
            if not os.path.lexists(path):
                self.put_link(path, number % 3 == 0)

    def put_link(self, path, hard):
        likely = self.chance.choice(list(LIKELY.values()))
        target = self.chance.choice([self.draw_precious(), self.chance.choice(self.paths()),
                                     os.path.join(self.work, self.chance.choice(likely))])
        if hard and os.path.isfile(target):
            os.link(os.path.realpath(target), path)
        else:
            os.symlink(self.spelled(target, os.path.dirname(path)), path)

    def paths(self):
        """All that stands, in the same order each time."""
        return sorted(os.path.join(above, name) for above, folders, files in os.walk(self.folder)
                      for name in folders + files)

    def draw_precious(self):
        """An archive, or what is or may be a companion of it."""
        name = self.chance.choice(['a.abcx', 'a.abcx', 'first', 'b.abcx', 'copy.abcx', 'cut.abcx'])
        behind = self.chance.choice(['', '', '.new', '.old.abc', '.1.old', '.2.old', '.10.old'])
        return os.path.join(self.work, name + behind)

    def spelled(self, path, cwd):
        """A word for this path, in a folder that is no link."""
        plain = os.path.relpath(path, cwd)
        ways = [plain, plain, path, './' + plain, os.path.join('deep', '..', plain)]
        if cwd == self.other:
            ways.append(os.path.join('back', '..', 'other', plain))
        word = self.chance.choice(ways)
        return word + '/' if path.endswith('/') else word

    def draw_file(self):
        names = ['cut.abcx', 'text.txt', 'nothing.abcx', 'pipe', 'x']
        if self.chance.random() < 0.9:
            names = ['a.abcx'] * 6 + ['b.abcx', 'b.abcx', 'first', 'second', 'copy.new',
                                      'copy.abcx', 'copy.abcx', '-dash.abcx',
                                      '../other/far.abcx', '../other/hard.abcx',
                                      '../other/c d.abcx']
        return os.path.normpath(os.path.join(self.work, self.chance.choice(names)))

    def draw_out(self, command, file):
        """What stands, an archive, a companion of this one, or a new name."""
        endings = ENDINGS.get(command, ('', '', '.abc', '.abcx', '.tunes', '.txt'))
        way, ending = self.chance.random(), self.chance.choice(endings)
        if way < 0.2:
            name = self.chance.choice(FRESH)
            above = self.chance.choice([self.work, self.other])
            return os.path.join(above, name if name.endswith('/') else name + ending)
        if way < 0.25:
            return os.path.join(self.work, self.chance.choice(
                ['loaded', 'text.abc', 'piped.abc', 'copy', '.', '..', 'x/', 'book.abc/',
                 'a.abcx\n', 'l' * 251 + '.abc', 'l' * 255]))
        if way < 0.35 and command in LIKELY:
            return os.path.join(self.work, self.chance.choice(LIKELY[command]))
        if way < 0.5 and command not in ENDINGS:
            behind = self.chance.choice(['', '.new', '.old.abc', '.1.old', '.2.old', '.12.old'])
            path = self.chance.choice([file, os.path.realpath(file)]) + behind
            others = [other for other in self.paths() if same(other, path)]
            return self.chance.choice([path, self.chance.choice(others or [path])])
        paths = self.paths()
        if self.chance.random() < 0.9:
            paths = [path for path in paths if path.endswith(endings)]
        return self.chance.choice(paths)

    def draw_call(self):
        command = self.chance.choice(['export'] * 6 + ['print'] * 6 + ['hear'] * 4 + ['dump'] * 4
                                     + ['backup'] * 2 + ['load'] * 2 + ['new'])
        file = self.draw_file()
        out = self.draw_out(command, file)
        if command in ('load', 'new'):
            file = out
        cwd = self.chance.choice([self.work, self.work, self.other])
        more = None
        if command in ('export', 'print'):
            more = self.chance.choice([None] * 4 + ['friday'] * 3 + ['monday'])
        elif command == 'hear':
            more = self.chance.choice('11111112349x')
        elif command == 'load':
            script = self.chance.choice(['script.tunes', 'script.tunes', *SCRIPTS, 'nothing'])
            more = self.spelled(os.path.join(self.work, script), cwd)
        force = self.chance.randrange(5) == 0
        file, out = self.spelled(file, cwd), self.spelled(out, cwd)
        return Call(self, command, file, out, more, cwd, force)


class Call:
    """A call of the front end, and where it leads, as it is before it is made."""

    def __init__(self, world, command, file, out, more, cwd, force):
        self.world, self.command, self.more, self.cwd, self.force = world, command, more, cwd, force
        if command in ('load', 'new'):
            file = out
        self.out_word, self.file_word = out, file
        self.file, self.out = os.path.join(cwd, file), os.path.join(cwd, out)
        if command == 'backup' and not same(self.file, self.out):
            self.out = next_copy(self.out)
        self.real_file, self.real_out = os.path.realpath(self.file), os.path.realpath(self.out)
        # Beside a copy stands its sum, and beside an archive that was loaded its entry.
        self.beside = None
        if command in BESIDE:
            self.beside = in_real_folder(self.out) + BESIDE[command]
        by_variable = world.chance.random() < 0.25
        self.variable = {'TUNES_BOOK': file if by_variable else ''}
        rest = {'hear': [more, out], 'load': [more], 'new': []}.get(command, [out, more])
        rest = [[word] for word in rest if word is not None]
        parts = [[command], *rest] if by_variable else [['-f', file], [command], *rest]
        if any(word.startswith('-') for word, in rest):
            parts[-len(rest):] = [['--', *(word for word, in rest)]]
        if force:
            behind = parts[-1][0] == '--'
            parts.insert(world.chance.randrange(len(parts) + 1 - behind), ['--force'])
        self.words = [word for part in parts for word in part]

    def shown(self):
        """The call as a line for a shell, in its folder."""
        variable = self.variable['TUNES_BOOK']
        before = f'TUNES_BOOK={quoted(variable)} ' if variable else ''
        line = f'cd {self.cwd}; {before}tunes-book {" ".join(map(quoted, self.words))}'
        return line.replace(self.world.folder, '/world')

    def out_data(self):
        """The bytes of the file that stands at OUT, or nothing where there is none."""
        return bytes_of(self.real_out) if os.path.isfile(self.real_out) else None


def next_copy(copy):
    """Where a copy goes: COPY, or COPY and the next number where that or one by a number stands."""
    above, name = os.path.split(copy)
    if os.path.exists(copy) and not os.path.isfile(copy):
        return copy
    standing = os.listdir(above) if os.path.isdir(above) else []
    matches = [re.fullmatch(re.escape(name) + r'\.([1-9][0-9]{0,8})', other) for other in standing]
    numbers = [int(match[1]) for match in matches if match]
    if not numbers and not os.path.exists(copy):
        return copy
    return f'{copy}.{max(numbers, default=0) + 1}'


def quoted(word):
    if word.isprintable():
        return shlex.quote(word)
    return "$'" + ''.join(chr(byte) if 32 <= byte < 127 and byte not in b"'\\" else f'\\x{byte:02x}'
                          for byte in os.fsencode(word)) + "'"


# THE RULES: the statuses of which a call has one where it is refused by a rule, or nothing

def wrong_ending(call):
    """print wants .pdf or .ps, hear .mid"""
    ends = ENDINGS.get(call.command)
    if ends and not call.out_word.endswith(ends) and not call.real_out.endswith(ends):
        return {BAD_WORDS}


def no_option(call):
    """--force is no option of this command"""
    if call.force and call.command not in RESULTS:
        return {BAD_WORDS}


def no_archive(call):
    """FILE is no whole archive"""
    if call.command not in ('load', 'new'):
        if not os.path.isfile(call.file) or call.world.run.answer('check', call.file)[0] != DONE:
            return {REFUSED, NO_ARCHIVE}


def no_such_part(call):
    """there is no such set list, or no such tune"""
    if call.command in ('export', 'print', 'hear'):
        if call.more == 'x' or not no_archive(call) and part_of(call) is None:
            return {REFUSED, BAD_WORDS}


def no_script(call):
    """the script is not there, or a command of it is refused"""
    if call.command == 'load' and loaded(call) is None:
        return {REFUSED, BAD_WORDS}


def no_text(call):
    """a word is not UTF-8"""
    if call.command in RESULTS and '\udcff' in call.out_word:
        return {REFUSED, BAD_WORDS}


def no_place(call):
    """OUT is in no folder, or a link to itself"""
    in_folder = all(os.path.isdir(os.path.dirname(path)) for path in (call.out, call.real_out))
    if call.out_word.endswith('/') or not in_folder or os.path.islink(call.real_out):
        return {REFUSED, BAD_WORDS}


def no_file(call):
    """what is no regular file is never replaced"""
    if os.path.exists(call.real_out) and not os.path.isfile(call.real_out):
        return {REFUSED, BAD_WORDS}


def is_file(call):
    """OUT is FILE"""
    if call.command not in ('load', 'new') and same(call.file, call.out):
        return {REFUSED}


def is_archive(call):
    """OUT begins as an archive"""
    if (call.out_data() or b'').startswith(MAGIC):
        return {REFUSED, NO_ARCHIVE} if call.command == 'new' else {REFUSED}


def is_companion(call):
    """OUT is a companion of FILE"""
    if call.command in ('load', 'new'):
        return None
    for file in {in_real_folder(call.file), call.real_file}:
        above = os.path.dirname(file)
        standing = os.listdir(above) if os.path.isdir(above) else []
        companion = re.compile(re.escape(file) + r'\.(new|old\.abc|[0-9]+\.old)')
        # A result takes the place of a name, and leaves the file that had it: only names count.
        others = {os.path.join(above, name) for name in standing if call.command == 'backup'}
        way = way_of(call.out) if call.command == 'backup' else [call.real_out]
        if any(companion.fullmatch(path) for path in way) or any(
                companion.fullmatch(path) and same(path, call.out) for path in others):
            return {REFUSED}


def is_there(call):
    """what load and new make is not to be there, nor the sum of a copy"""
    if call.command == 'backup' and os.path.lexists(call.beside):
        return {REFUSED}
    if os.path.isfile(call.real_out):
        if call.command == 'load':
            return {REFUSED}
        if call.command == 'new' and call.out_data():
            return {REFUSED, NO_ARCHIVE}


def stands(call):
    """a file stands at OUT, and there is no --force"""
    if call.command in RESULTS and call.out_data() is not None and not call.force:
        return {REFUSED}


def no_sum(call):
    """sha256sum reads no such name"""
    if call.command == 'backup' and set(os.path.basename(call.out)) & set('\\\n\r'):
        return {BAD_WORDS}


RULES = [no_sum, wrong_ending, no_option, no_archive, no_such_part, no_script, no_text, no_place,
         no_file, is_file, is_archive, is_companion, is_there, stands]


def same(path, other):
    return os.path.exists(path) and os.path.exists(other) and os.path.samefile(path, other)


def sum_line(call, data):
    """What `sha256sum -c` reads of a copy."""
    name = os.fsencode(os.path.basename(call.out))
    return hashlib.sha256(data).hexdigest().encode() + b'  ' + name + b'\n'


def has_entry(call):
    """Whether the entry of a load stands beside the archive, unless nothing is in this."""
    counts = call.world.run.answer('check', call.real_out)[1].split()
    parts = int(counts[3]) + int(counts[5])
    if not parts:
        return not os.path.lexists(call.beside)
    head = b'\n%% tunes-book load %d ' % parts
    return os.path.isfile(call.beside) and bytes_of(call.beside).startswith(head)


def in_real_folder(path):
    """The path of a file or link itself, by folders that are no links."""
    above, name = os.path.split(path)
    return os.path.join(os.path.realpath(above), name)


def way_of(path):
    """A path, and those that a chain of links leads to."""
    way = [in_real_folder(path)]
    while os.path.islink(way[-1]) and len(way) < 10:
        way.append(in_real_folder(os.path.join(os.path.dirname(way[-1]), os.readlink(way[-1]))))
    return way


# Whether a file is such as a command writes.

def is_written_book(data):
    """The line %abc-2.1, for a set its name, and tunes whose numbers rise, each behind one empty
    line; and nothing else."""
    parts = re.fullmatch(rb'%abc-2\.1\n(?:% set [\w-]{1,40}\n)?((?:\nX:[1-9][0-9]*\n(?:.+\n)+)*)',
                         data)
    if not parts or b'\r' in data:
        return False
    numbers = [int(number) for number in re.findall(rb'\n\nX:([0-9]+)\n', b'\n' + parts[1])]
    return numbers == sorted(set(numbers))


def is_written_script(data):
    """Imports of tunes, each alone where it gets its number, and then set lists."""
    book = re.compile(rb'import ([0-9]+)\n(?=%abc-2\.1\n\nX:)')
    line = book.match(data)
    while line:
        tunes, data = data[line.end():], data[line.end() + int(line[1]):]
        if len(tunes) < int(line[1]):
            return False
        data = re.sub(rb'\Arenumber [0-9]+ [0-9]+\n', b'', data)
        line = book.match(data)
    return bool(re.fullmatch(rb'(set-new [\w-]+\n(set-add [\w-]+ [0-9]+\n)*)*', data))


# THE DOUBTS: where a call may be refused as well, with any status, though no rule refuses it

def new_is_there(call):
    """Something stands where OUT would be made."""
    return os.path.lexists(call.real_out + '.new')


def leads_nowhere(call):
    """OUT is a link to what is not there; the link stays, and that may be made."""
    return os.path.islink(call.out) and not os.path.exists(call.out)


def ends_differ(call):
    """The link to a result has another ending than this."""
    return call.command in ENDINGS and len(endings_of(call)) > 1


def empty(call):
    """`new` may begin in an empty file."""
    return call.out_data() == b'' and call.command == 'new'


def long_name(call):
    return len(os.path.basename(call.real_out)) > 240


def odd_name(call):
    """A name of several lines, or an archive whose name is not UTF-8."""
    return '\n' in call.real_out or '\udcff' in call.real_out and call.command not in RESULTS


def companion_of_another(call):
    return bool(re.search(r'\.(new|old\.abc|[0-9]+\.old)$', call.real_out))


DOUBTS = [new_is_there, leads_nowhere, ends_differ, empty, long_name, odd_name,
          companion_of_another]


# WHAT IS WRITTEN

def part_of(call):
    """The book, or the tune, that a call writes out; none where it is not there."""
    script = f'export-set {call.more}' if call.more else 'export'
    if call.command == 'hear':
        script = f'show {call.more}'
    _, output = call.world.run.answer('run', call.file, script.encode() + b'\n')
    line, _, part = output.partition(b'\n')
    return part if line.startswith(b'ok ') else None


def loaded(call):
    """What the archive holds that a script makes; none where a command of it is refused."""
    path = os.path.join(call.cwd, call.more)
    return holds_by(call, bytes_of(path)) if os.path.isfile(path) else None


def holds_by(call, script):
    """What an archive in memory holds behind this script."""
    status, replies = call.world.run.answer('list', None, script)
    if status != DONE or any(line.startswith(b'refused') for line in replies.split(b'\n')):
        return None
    _, output = call.world.run.answer('list', None, script + LOOK)
    return output[len(replies):]


def is_whole(call, data):
    """Whether these bytes at OUT are what the call had to write."""
    answer = call.world.run.answer
    if call.command == 'backup':
        return data == bytes_of(call.file) and bytes_of(call.beside) == sum_line(call, data)
    if call.command == 'dump':
        return is_written_script(data) and holds_by(call, data) == answer('run', call.file, LOOK)[1]
    if call.command == 'new':
        return answer('check', call.real_out)[1].endswith(b' tunes 0 sets 0\n')
    if call.command == 'load':
        return answer('run', call.real_out, LOOK) == (DONE, loaded(call)) and has_entry(call)
    if call.command == 'hear':
        return data == sound(part_of(call))
    if call.command == 'export':
        return data == part_of(call) and is_written_book(data)
    drawn = sheets(b'%!PS-Adobe-2.0\n', part_of(call))
    results = {'.ps': drawn, '.pdf': sheets(b'%PDF-1.4\n', drawn)}
    return data in [results.get(end) for end in endings_of(call)]


def endings_of(call):
    """Those of OUT, and of what it leads to."""
    return {os.path.splitext(path)[1] for path in (call.out, call.real_out)}


def difference(before, after):
    """The paths at which something else stands, and a word for each."""
    for path in sorted({*before, *after}):
        if before.get(path) != after.get(path):
            yield path, ('gone' if path not in after else 'new' if path not in before else
                         'replaced' if before[path].what == after[path].what else 'changed')


def judge(call, refusals, doubts, status, before, after):
    """What is wrong with the outcome of a call, as a list."""
    wrong, why = [], [rule.__doc__ for rule in RULES if rule in refusals]
    may = {call.real_out, call.beside} if status == DONE and not refusals else set()
    for path, what in difference(before, after):
        if path not in may:
            wrong.append(f'{inside(path, call.world)} is {what}')
    if status is None:
        return [*wrong, 'it does not end']
    if os.listdir(call.world.temporary):
        wrong.append('something is left in TMPDIR')
    if refusals:
        statuses = set().union(*refusals.values())
        if doubts:
            statuses |= {REFUSED, BAD_WORDS}
        if status not in statuses:
            wrong.append(f'its status is {status}, though {", ".join(why)}')
    elif status == DONE:
        made = after.get(call.real_out)
        if not made or made.kind != stat.S_IFREG or not is_whole(call, made.what):
            wrong.append('its status is 0, and OUT is not what it had to be')
    elif not doubts or status not in (REFUSED, BAD_WORDS, NO_ARCHIVE):
        wrong.append(f'its status is {status}, and nothing forbids it')
    return wrong


def inside(path, world):
    return quoted(os.path.relpath(path, world.folder))


def one_call(world, number):
    """Makes a call; its status, and a line that tells what is wrong with it, or nothing."""
    call = world.draw_call()
    refusals = {rule: rule(call) for rule in RULES if rule(call)}
    doubts = [doubt for doubt in DOUBTS if doubt(call)]
    overwritten = call.out_data()
    before = world.nodes
    status, said = world.run.call(call.cwd, call.words, world.temporary, call.variable)
    world.nodes = nodes_in(world.folder)
    wrong = judge(call, refusals, doubts, status, before, world.nodes)
    if wrong or call.force and overwritten is not None:
        put_back(before, world.nodes)
        world.nodes = nodes_in(world.folder)
        for name in os.listdir(world.temporary):
            remove(os.path.join(world.temporary, name))
    if not wrong:
        return status, ''
    leads = 'leads to' if os.path.islink(call.out) else 'is'
    return status, (f'FAILED  seed {world.run.seed}, world {world.number}, call {number}, '
                    f'{call.shown()}: {"; ".join(wrong)}. OUT {leads} '
                    f'{inside(call.real_out, world)}. It says: {" ".join(said.split())}')


def one_world(run, number, calls):
    """Makes so many calls in a world: how many were refused, how many wrote, and the faults."""
    world = World(run, number)
    ended = [one_call(world, place) for place in range(1, calls + 1)]
    shutil.rmtree(world.folder)
    shutil.rmtree(world.temporary)
    written = sum(status == DONE for status, _ in ended)
    return len(ended) - written, written, [line for _, line in ended if line]


def main():
    words = argparse.ArgumentParser(usage=__doc__.split('\n', maxsplit=1)[0][len('Usage: '):])
    words.add_argument('--calls', type=int, default=1000)
    words.add_argument('--seed', type=int, default=1)
    words.add_argument('--shell', default='sh')
    words = words.parse_args()
    begun = time.time()
    for program in PROGRAM, DESK:
        if not os.path.exists(program):
            print(f'FAILED  there is no program {program}: ./build makes it')
            return 1
    room = '/dev/shm' if os.access('/dev/shm', os.W_OK) else None
    refused = written = faults = 0
    with tempfile.TemporaryDirectory(dir=room) as folder:
        run = Run(os.path.realpath(folder), words)
        sizes = [min(CALLS_IN_A_WORLD, words.calls - first)
                 for first in range(0, words.calls, CALLS_IN_A_WORLD)]
        with ThreadPoolExecutor(os.cpu_count()) as threads:
            for one_refused, one_written, lines in threads.map(
                    lambda number: one_world(run, number, sizes[number]), range(len(sizes))):
                refused, written, faults = (refused + one_refused, written + one_written,
                                            faults + len(lines))
                for line in lines:
                    print(line, flush=True)
    told = f'{words.calls} calls: {refused} refused, {written} written'
    if faults:
        print(f'{told}; {faults} faults, by seed {words.seed}')
    else:
        print(f'{told}; every archive and every source book is as it was')
    print(f'it took {time.time() - begun:.0f} seconds', file=sys.stderr)
    return 1 if faults else 0


if __name__ == '__main__':
    sys.exit(main())
