#!/usr/bin/env python3
"""Usage: checks/called.py [--reached FILE NAME]

Looks whether the programs call the functions that the pages name as stations of a way through it,
or as calls that carry a promise. It prints each that it does not call and ends with 1, or prints
one line and ends with 0.

- docs/PIPE-TO-PLATTER.md and docs/ARCHITECTURE.md tell ways. For each way WAYS below names a
  function or two that stand in the midst of it, and from which station on they do. Each function of
  these stations is reached from one of them, or leads to one.
- A call in a column "carried by" of docs/PROOFS.md is reached from `main`. So is each function that
  the pages of ways name outside of a way.

Of a call of a trait it is enough that one of the types that meet the trait is called so. Those that
may be named all the same are in checks/data/not_called.txt, each with a kind: `law`, whose clauses
are all that it has, or `other`, which is for other programs, and may stand in PROOFS alone. The
list may only get shorter: a line whose function is called, or which no page names, is wrong.

What calls what is read off the program, by `objdump`: which function has an instruction that names
which other one. The compiler puts functions into those that call them, and then the program has no
symbol of theirs, or of a generic one for some types alone. What such a function calls, and what
calls it, is read in the sources, by names; where several functions may be meant, all of them count.

The programs are those that `rt ci` built, and not the script ./tunes, or those
that the variables TUNES and TUNES_DESK name. Where there is no `objdump` it fails, unless the
variable LEAVE_OUT has that word.
`--reached` prints which functions are reached from one, as `tune_pages/src/walk.rt read_piece`.
"""
import collections
import glob
import os
import re
import shutil
import subprocess
import sys

ROOT = os.path.dirname(os.path.dirname(os.path.abspath(__file__)))
BUILT = {'TUNES': 'crates/tunes/out/tunes', 'TUNES_DESK': 'crates/tunes_desk/out/tunes_desk'}
PROGRAMS = [os.path.abspath(os.environ.get(word) or os.path.join(ROOT, path))
            for word, path in BUILT.items()]
os.chdir(ROOT)
KNOWN = 'checks/data/not_called.txt'
PROOFS, STATIONS, LAYERS = 'docs/PROOFS.md', 'docs/PIPE-TO-PLATTER.md', 'docs/ARCHITECTURE.md'

# What stands in the midst of a way: a file under crates/, and a function.
MAIN = 'tunes/src/main.rt', 'main'
DESK = 'tunes_desk/src/main.rt', 'main'
DRIVE = 'tunes/src/file_drive.rt', 'open'
OPEN = 'tune_archive/src/opened_archives.rt', 'Archive::open'
IMPORT = 'tune_store/src/tune_plans.rt', 'import'
FIND = 'tune_store/src/questions.rt', 'find'
UPGRADE = 'tune_store/src/tune_plans.rt', 'upgrade'
CHANGE = 'tune_archive/src/made_changes.rt', 'change_pages'
KEYS = 'tune_contents/src/searching.rt', 'text_runs'
STEPS = 'tune_incipit/src/incipits.rt', 'steps'
UPGRADED = 'tune_contents/src/upgrading.rt', 'upgrade'
LIMIT = 'tune_archive/src/made_changes.rt', 'give_pages'
READ = 'tune_contents/src/tune_reading.rt', 'read_tune'
INSERT = 'tune_index/src/insert.rt', 'Index::insert_all'
STORE = 'tune_index/src/listed_leaves.rt', 'Index::store'
LOAD = 'tune_index/src/load.rt', 'Index::load'
COMMIT = 'tune_journal/src/journal.rt', 'Journal::commit'
REPLY = 'tune_scripts/src/replies.rt', 'write_answer'
# For each way, from which station on, what stands in the midst of it.
WAYS = {
    STATIONS: {
        'An import into a file': {1: [MAIN], 6: [IMPORT], 7: [CHANGE], 8: [KEYS], 10: [CHANGE],
                                  13: [COMMIT]},
        'A find in a file': {1: [FIND], 12: [FIND, REPLY]},
        'An upgrade of a file': {1: [UPGRADE], 5: [UPGRADED], 8: [CHANGE], 9: [COMMIT],
                                 10: [LIMIT], 11: [REPLY]},
        'An opening': {1: [DRIVE], 2: [OPEN]},
    },
    LAYERS: {
        'The way of a command': {1: [MAIN]},
        'The way of a question of the front end': {1: [DESK]},
        'The way of a music line': {1: [STEPS]},
        'The way of an edit': {1: [CHANGE, READ]},
        'The way of an insert in an index': {1: [INSERT, STORE, LOAD]},
        'The way of a search in an index': {1: [FIND]},
        'The way of a commit': {1: [COMMIT, OPEN]},
    },
}

LINK = re.compile(r'\[`([\w:]+)`\]\(\.\./crates/([^()\s]+\.rt)\)')
SPAN = re.compile(r'`([a-z]\w*|[A-Z]\w*::\w+)`')
HEAD = re.compile(r'( *)(?:pub(?:\(\w+\))? +)?(?:const |unsafe |extern "C" )*fn (\w+)')
IMPL = re.compile(r'impl\b(?:<[^{]*?>)? *(?:(\w+)(?:<[^{]*?>)? for )?&?(\w+)')
MADE = re.compile(r'^ *pub(?:\(crate\))? (?:struct|enum|trait) (\w+)', re.M)
USE = re.compile(r'\buse ([\w:]+)::(?:\{([^}]*)\}|(\w+));')
CONTRACT = re.compile(r'\b(?:ensures|requires|invariant|decreases|ghost)\b[^{;]*\{')
# The owner before `::`, or the point before the name of a method, and the name.
CALL = re.compile(r'(?:(\w+)(?:::<[^()]*?>)?::|(\.)\s*)?\b([a-z_]\w*)(?:::<[^();]*?>)?\s*\(')
VALUE = re.compile(r'[(,]\s*(?:(\w+)::)?()([a-z]\w*)\s*(?=[,)])')
# The end of a symbol that says for which types it is, or that it is a copy of another one; and that
# of a place within a function.
TYPES, OFFSET = re.compile(r'(::<.*>)?(\.[\w.]+)?$'), re.compile(r'\+0x[0-9a-f]+$')


def read(path):
    with open(path, encoding='utf-8') as file:
        return file.read()


def all_of(function, items):
    return [one for item in items for one in function(item)]


# SOURCES

def without_contracts(text):
    """A function without its clauses and ghosts, each up to the brace that closes it."""
    found = CONTRACT.search(text)
    while found:
        depth, end = 1, found.end()
        while depth and end < len(text):
            depth += {'{': 1, '}': -1}.get(text[end], 0)
            end += 1
        text = text[:found.start()] + text[end:]
        found = CONTRACT.search(text, found.start())
    return text


class Function:
    """A function of the sources: its place, its owner, the trait that it meets, what it calls."""

    def __init__(self, path, owner, of_trait, name, text):
        self.crate, _, inner = path.split('/', 2)
        self.path, self.owner, self.of_trait, self.name = path, owner, of_trait, name
        self.module = inner[:-len('.rt')].replace('/', '::')
        self.is_generic = False
        head, _, body = without_contracts(text).partition('{')
        self.takes_self = bool(re.search(r'\(\s*(&|mut )*(\'\w+ )?(mut )?self\b', head))
        self.calls = set(CALL.findall(body)) | set(VALUE.findall(body))
        if re.search(r'\bfor\b', body):
            self.calls |= {('', '.', 'next'), ('', '.', 'into_iter')}

    def __repr__(self):
        return f'{self.path} ' + (f'{self.owner}::{self.name}' if self.owner else self.name)


def end_of(lines, first, indent):
    """The last line of a function: a brace below its head, or a semicolon where it has no body.
    A semicolon within braces is that of a record in a clause."""
    has_body, depth = '{' in lines[first], 0
    for number in range(first, len(lines)):
        line = lines[number]
        depth += line.count('{') - line.count('}')
        has_body = has_body or line == indent + '{' \
            or line.startswith(indent + ')') and line.endswith('{')
        one_line = number == first and line.endswith('}')
        ends = line.endswith(';') and not has_body and depth == 0
        if one_line or line in (indent + '}', indent + '{}') or ends:
            return number
    raise ValueError(f'{lines[first]} has no end')


def functions_of(path):
    """The functions of a file, in the order in which they stand."""
    lines = [line.split('//')[0].rstrip() for line in read(f'crates/{path}').split('\n')]
    owner = of_trait = around = ''
    last = -1
    for number, line in enumerate(lines):
        if number <= last:
            continue
        if line.startswith('impl'):
            around = ' '.join(' '.join(lines[number:number + 6]).split('{')[0].split())
            of_trait, owner = IMPL.match(around).groups(default='')
        elif line.startswith(('trait ', 'pub trait ')):
            owner, of_trait = re.search(r'trait (\w+)', line)[1], ''
        elif line == '}':
            owner = of_trait = around = ''
        start = HEAD.match(line)
        if start:
            last = end_of(lines, number, start[1])
            one = Function(path, owner, of_trait, start[2], '\n'.join(lines[number:last + 1]))
            one.is_generic = '<' in around.split(' for ')[0] or line.startswith(start[0] + '<')
            yield one


class Sources:
    """The functions of all crates but tests and benches, and which of them each may call."""

    def __init__(self):
        paths = [os.path.relpath(path, 'crates')
                 for path in glob.glob('crates/*/src/**/*.rt', recursive=True)]
        self.paths = sorted(path for path in paths if not path.startswith(('test_', 'benches')))
        self.crates = {path.split('/')[0] for path in self.paths}
        self.functions = all_of(functions_of, self.paths)
        self.named = collections.defaultdict(list)
        for one in self.functions:
            self.named[one.name].append(one)
        texts = {path: read(f'crates/{path}') for path in self.paths}
        self.words = {path: set(re.findall(r'\w+', text)) for path, text in texts.items()}
        self.uses = {path: self.uses_of(path, text) for path, text in texts.items()}
        self.made = collections.defaultdict(set)
        for path, text in texts.items():
            for name in MADE.findall(text):
                self.made[name].add(path)
        self.traits = {one.owner for one in self.functions
                       if re.search(rf'\btrait {one.owner}\b', texts[one.path])} - {''}
        self.near = {path: self.near_to(path) for path in self.paths}

    def uses_of(self, path, text):
        """For each name that a file brings in, the crate that it is from."""
        found = {}
        for way, names, name in USE.findall(text):
            crate = way.split('::')[0]
            for one in (names or name).split(','):
                found[one.strip()] = crate if crate in self.crates else path.split('/')[0]
        return found

    def near_to(self, path):
        """The words of a file, and those of the files that make the types and traits it names."""
        made = all_of(lambda name: self.made.get(name, ()), self.words[path])
        return self.words[path].union(*(self.words[other] for other in made))

    def called_by(self, one):
        """What a function may call, of the functions of the crates."""
        for owner, point, name in one.calls:
            for other in self.named[name]:
                if self.may_call(one, owner, point, other):
                    yield other

    def may_call(self, one, owner, point, other):
        if point:
            # A trait whose method is called is named in the file, and a type not far from it.
            is_named = other.of_trait in self.words[one.path] if other.of_trait in self.made \
                else other.owner in self.near[one.path]
            return bool(other.owner) and other.takes_self and is_named
        if not owner:
            crate = self.uses[one.path].get(other.name)
            return not other.owner and (other.path == one.path or other.crate == crate)
        if owner == 'Self':
            return other.owner == one.owner
        if owner[0].isupper() and owner not in self.made:
            # A type that is a parameter: any type that meets a trait.
            return bool(other.of_trait) or other.owner == owner
        if owner[0].isupper():
            return owner in (other.owner, other.of_trait)
        return not other.owner and owner in (other.crate, other.module.rpartition('::')[2])

    def told(self, name, path=''):
        """The functions that a page tells; of a call of a trait those of the types that meet it."""
        owner, _, last = name.rpartition('::')
        here = [one for one in self.named[last] if owner in ('', one.owner, one.of_trait)
                and path in ('', one.path)]
        traits = {one.owner for one in here} & self.traits
        return here + [one for one in self.named[last] if one.of_trait in traits]


# THE PROGRAM

def symbol_calls():
    """For each symbol of the programs' code those that its instructions name."""
    calls, named = {}, None
    for line in all_of(listing, PROGRAMS):
        start = line.find('<')
        if start >= 0 and line.endswith('>:'):
            named = calls.setdefault(line[start + 1:-2], set())
        elif start >= 0 and line.endswith('>') and named is not None:
            named.add(OFFSET.sub('', line[start + 1:-1]))
    return calls


def is_of(one, parts):
    """Whether the parts of a symbol between `::` are those of a function."""
    if not one.owner:
        module = [] if one.module in ('lib', 'main') else one.module.split('::')
        return parts[1:-1] == module
    if one.of_trait:
        return bool(re.fullmatch(rf'{one.owner}\w*{one.of_trait}\w*', parts[-2]))
    return parts[-2] == one.owner


def listing(program):
    """The lines of a program's code."""
    return subprocess.run(['objdump', '-d', '--no-show-raw-insn', '--no-addresses', program],
                          stdout=subprocess.PIPE, encoding='utf-8', check=True).stdout.split('\n')


class Program:
    """What calls what, of symbols, and of functions of which a copy may have none."""

    def __init__(self, sources):
        self.sources = sources
        calls = symbol_calls()
        self.symbols = self.symbols_by_function(calls)
        self.function_of = {symbol: one for one, symbols in self.symbols.items()
                            for symbol in symbols}
        self.hidden = {one for one in sources.functions
                       if one not in self.symbols or one.is_generic}
        self.calls = {symbol: set(called) for symbol, called in calls.items()}
        for symbol, one in self.function_of.items():
            self.calls[symbol] |= self.hidden.intersection(sources.called_by(one))
        for one in self.hidden:
            self.calls[one] = set(all_of(self.nodes, sources.called_by(one)))
        self.callers = collections.defaultdict(set)
        for node, called in self.calls.items():
            for other in called:
                self.callers[other].add(node)

    def symbols_by_function(self, calls):
        parts_of = collections.defaultdict(list)
        for symbol in calls:
            parts = TYPES.sub('', symbol).split('::')
            if len(parts) > 1:
                parts_of[parts[0], parts[-1]].append((symbol, parts))
        found = {one: [symbol for symbol, parts in parts_of[one.crate, one.name]
                       if is_of(one, parts)] for one in self.sources.functions}
        return {one: symbols for one, symbols in found.items() if symbols}

    def nodes(self, one):
        """A function as it stands in the program: its symbols, and itself for copies without."""
        return self.symbols.get(one, []) + [one] * (one in self.hidden)

    def met(self, functions, edges):
        """The functions that are met from these by such edges, themselves among them."""
        seen, left = set(), all_of(self.nodes, functions)
        while left:
            node = left.pop()
            if node not in seen:
                seen.add(node)
                left.extend(edges.get(node, ()))
        return {self.function_of.get(node, node) for node in seen
                if isinstance(node, Function) or node in self.function_of}

    def reached(self, functions):
        return self.met(functions, self.calls)

    def leading(self, functions):
        return self.met(functions, self.callers)


# PAGES

def sections(path):
    """The sections of a page, each with its numbered lines."""
    title, found = '', collections.defaultdict(list)
    for number, line in enumerate(read(path).split('\n'), 1):
        if line.startswith('#'):
            title = line.lstrip('#').strip()
        found[title].append((number, line))
    return found


def stations(path, lines):
    """What a section names: the number of the station, the line, the name, and the file if any."""
    for number, line in lines:
        row = re.match(r'\| (\d+) \|', line)
        for name, file in LINK.findall(line):
            yield int(row[1]) if row else 0, number, name, file
        if path == LAYERS:
            for name in SPAN.findall(line):
                yield 1, number, name, ''


def carriers():
    """The calls of the columns "carried by": the line, the name and the file of each."""
    column = None
    for number, line in enumerate(read(PROOFS).split('\n'), 1):
        cells = line.strip('| ').split(' | ')
        if not line.startswith('|'):
            column = None
        elif 'carried by' in cells:
            column = cells.index('carried by')
        elif column is not None and column < len(cells):
            for name, file in LINK.findall(cells[column]):
                yield number, name, file


class Check:
    """Looks at the pages, and keeps what is wrong."""

    def __init__(self):
        self.sources = Sources()
        self.program = Program(self.sources)
        self.run = self.program.reached(self.at(MAIN) + self.at(DESK))
        lines = [line.split() for line in read(KNOWN).split('\n')]
        self.known = {(line[1], line[2]): line[0] for line in lines if line and line[0] != '#'}
        self.needed, self.faults, self.count = set(), [], 0

    def at(self, place):
        path, name = place
        found = self.sources.told(name, path)
        if not found:
            sys.exit(f'there is no {name} in {path}')
        return found

    def judge(self, where, name, file, within, what, kinds=('law', 'other')):
        """Looks at a name of a page: a function that it tells is to be within a set, or known to be
        of one of these kinds."""
        functions = self.sources.told(name, file)
        # In a code span stand other words too.
        if not functions and not file:
            return
        self.count += 1
        if within.isdisjoint(functions):
            if self.known.get((name, file)) in kinds:
                self.needed.add((name, file))
            else:
                self.faults.append(f'{where}: {what} {name}')

    def midst(self, places):
        """What is reached from these, and what leads to them."""
        functions = all_of(self.at, places)
        return self.program.reached(functions) | self.run & self.program.leading(functions)

    def check_ways(self, path):
        found = sections(path)
        for title in sorted(set(WAYS[path]) - set(found)):
            self.faults.append(f'{path}: no section {title}')
        for title, lines in found.items():
            parts = {first: self.midst(places)
                     for first, places in WAYS[path].get(title, {}).items()}
            for station, number, name, file in stations(path, lines):
                where, first = f'{path}:{number}', [at for at in parts if at <= station]
                if first:
                    what = f'"{title}" does not go by'
                    self.judge(where, name, file, parts[max(first)], what, ('law',))
                else:
                    what = 'the program does not call'
                    self.judge(where, name, file, self.run, what, ('law',))

    def check_carriers(self):
        for number, name, file in carriers():
            self.judge(f'{PROOFS}:{number}', name, file, self.run, 'the program does not call')

    def check_list(self):
        for name, file in sorted(set(self.known) - self.needed):
            self.faults.append(f'{KNOWN}: {name} of {file} is called, or no page names it')


def main():
    if not shutil.which('objdump'):
        left_out = 'objdump' in os.environ.get('LEAVE_OUT', '').split()
        print('skipped' if left_out else 'FAILED ', 'what the program calls: there is no objdump')
        sys.exit(0 if left_out else 1)
    for program in PROGRAMS:
        if not os.path.exists(program):
            print(f'FAILED  there is no program {program}: ./tunes --version builds it')
            sys.exit(1)
    check = Check()
    if not check.program.symbols:
        print(f'FAILED  {PROGRAMS[0]} has no symbols of the crates')
        sys.exit(1)
    if sys.argv[1:2] == ['--reached']:
        for one in sorted(map(repr, check.program.reached(check.at(sys.argv[2:4])))):
            print(one)
        return
    check.check_ways(STATIONS)
    check.check_ways(LAYERS)
    check.check_carriers()
    check.check_list()
    for line in check.faults:
        print(line)
    if check.faults:
        print(f'{len(check.faults)} names are wrong')
        sys.exit(1)
    print(f'{check.count} names are called, but for {len(check.known)}, as is known')


if __name__ == '__main__':
    main()
