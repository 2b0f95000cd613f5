#!/usr/bin/env python3
"""Usage: checks/pages.py [--links FOLDER]

Checks what people read. It prints each thing that is wrong and ends with 1, or prints one line and
ends with 0:

- widths: at most 100 columns in pages, definitions, clauses, comments and scripts, 160 in proofs;
  tables, edits under must-fail/ and data are free, and so is code as `rt fmt` lays it out;
- headings have an empty line above and below, and no figure of a page is left open;
- links, with their anchors, lead somewhere, and paths that stand in code spans are there;
- README.md has at most 120 lines, docs/ARCHITECTURE.md at most 100;
- each clause stands at the call that it names, and each definition in the file that is linked, on
  every page and in the texts of the figures; every name of code on the pages is in the code;
- a block of code that says where it is from stands there, and one for the shell is a recipe.

With `--links` it checks pages that were put elsewhere, and these things alone: each link of a page
under FOLDER, with its anchor, leads somewhere within FOLDER, and each file `examples/NAME` that a
page names, in code too, is there.
"""
import glob
import os
import re
import sys

WORDS = sys.argv[1:]
# the folder that is checked: the repository, or the one behind `--links`
ROOT = os.path.abspath(WORDS[-1] if WORDS else os.path.join(os.path.dirname(__file__), os.pardir))
NO_SOURCES = {'.git', 'out', 'data', 'must-fail', '__pycache__'}
SCRATCH = 'bench/work'
WIDTH, PROOF_WIDTH = 100, 160
MOST_LINES = {'README.md': 120, 'docs/ARCHITECTURE.md': 100}
SCRIPTS = ('build', 'tunes', 'tunes-desk', 'tunes-book', 'tunes-site', 'test', 'install', 'release',
           'LICENSE')
RECIPE_PAGES = ('README.md', 'docs/USING.md', 'docs/PLAYERS.md')
NAME_PAGES = ('docs/PROOFS.md', 'docs/ARCHITECTURE.md', 'docs/GLOSSARY.md', 'docs/DECISIONS.md',
              'docs/PIPE-TO-PLATTER.md', 'docs/RESULTS.md')
PATH = re.compile(r'(crates|docs|bench|checks|examples|completions)/[\w./*-]*')
EXAMPLE = re.compile(r'(?<![/\w])\bexamples/\w[\w.-]*\w')
FILE_NAME = re.compile(r'\w+\.(rt|antt)')
NAME = re.compile(r'[A-Za-z]\w*(::[A-Za-z]\w*)*|[a-z0-9]+(-[a-z0-9]+)+')
LINK = re.compile(r'\[([^\]]*)\]\(([^()\s]+)\)')
CLAUSES = re.compile(r'\[`([\w:]+)`\]\(([^()\s]+\.rt)\)((?:,?(?: and)? `\w+`)*)')
DEFINITION = re.compile(r'\[`(\w+)`\]\(([^()\s]+\.antt)\)')
FENCE = '```'
NEW_LINE = '\n'

faults = []


def fault(where, what):
    faults.append(f'{where}: {what}')


def read(path):
    with open(os.path.join(ROOT, path), encoding='utf-8') as file:
        return file.read()


def exists(path):
    return os.path.exists(os.path.join(ROOT, path))


def is_within(path):
    """Whether a path from the top, in its shortest form, does not lead out."""
    return not os.path.isabs(path) and path.split(os.sep)[0] != os.pardir


def files():
    """The files of the repository that people write, as paths from its top."""
    for folder, folders, names in os.walk(ROOT):
        if os.path.relpath(folder, ROOT) == SCRATCH:
            folders[:] = []
            continue
        folders[:] = sorted(set(folders) - NO_SOURCES)
        for name in sorted(names):
            yield os.path.relpath(os.path.join(folder, name), ROOT)


# WIDTHS

def is_script(path):
    return path in SCRIPTS or path.startswith(('.ci/', 'completions/'))


def contract_lines(lines):
    """The lines of a source that are comments, or in clauses and ghost items, with their numbers.
    """
    depth = 0
    for number, line in lines:
        text = line.strip()
        if depth > 0 or re.match(r'(ensures|requires|ghost)\b', text):
            bare = re.sub(r'"[^"]*"', '', text)
            depth += bare.count('{') - bare.count('}')
            yield number, line
        elif text.startswith('//'):
            yield number, line


def measured(path, lines):
    """The lines of a file whose width counts, with their numbers, and the width."""
    numbered = list(enumerate(lines, 1))
    kind = os.path.splitext(path)[1]
    if kind == '.antt':
        return numbered, PROOF_WIDTH if '/proofs/' in path else WIDTH
    if kind == '.rt':
        return contract_lines(numbered), WIDTH
    if kind == '.md':
        return [pair for pair in numbered if not pair[1].lstrip().startswith('|')], WIDTH
    if kind in ('.sh', '.py', '.txt', '.c') or is_script(path):
        return numbered, WIDTH
    return [], WIDTH


def check_widths(path):
    # a line of crates.txt is one crate, however many others it uses
    if path == 'crates.txt':
        return
    if path.startswith('examples/'):
        return
    try:
        lines = read(path).split('\n')
    except UnicodeDecodeError:
        return
    counted, most = measured(path, lines)
    for number, line in counted:
        if len(line) > most:
            fault(f'{path}:{number}', f'{len(line)} columns, at most {most}')


# PAGES

class Page:
    """A page: its lines, and whether each is within a block of code."""

    def __init__(self, path):
        self.path = path
        self.lines = read(path).rstrip('\n').split('\n')
        self.in_code = []
        inside = False
        for line in self.lines:
            fence = line.startswith(FENCE)
            self.in_code.append(inside or fence or line.startswith('    '))
            inside = inside != fence

    def text_lines(self):
        """The lines outside blocks of code, with their numbers."""
        for number, line in enumerate(self.lines, 1):
            if not self.in_code[number - 1]:
                yield number, line

    def text(self):
        """The text of the page, with an empty line for each line of a block of code."""
        return NEW_LINE.join(
            '' if code else line for line, code in zip(self.lines, self.in_code))

    def headings(self):
        return [(number, line) for number, line in self.text_lines() if line.startswith('#')]

    def anchors(self):
        """The anchors of its headings, as GitHub makes them."""
        made = []
        for _, line in self.headings():
            text = LINK.sub(r'\1', line.lstrip('#').strip()).lower()
            made.append(re.sub(r'[^\w\- ]', '', text).replace(' ', '-'))
        return made

    def blocks(self):
        """The blocks of code: the number of the first line, the line above, the kind, the text."""
        begun = None
        for number, line in enumerate(self.lines, 1):
            if not line.startswith(FENCE):
                continue
            if begun is None:
                begun = number
                continue
            above = self.lines[begun - 2] if begun > 1 else ''
            kind = self.lines[begun - 1][len(FENCE):]
            yield begun, above, kind, '\n'.join(self.lines[begun:number - 1])
            begun = None

    def target(self, link):
        """The path from the top that a relative link leads to."""
        return os.path.normpath(os.path.join(os.path.dirname(self.path), link))


def check_headings(page):
    for number, _ in page.headings():
        above = page.lines[number - 2] if number > 1 else ''
        below = page.lines[number] if number < len(page.lines) else ''
        if above or below:
            fault(f'{page.path}:{number}', 'a heading without an empty line above and below')


def check_length(page):
    most = MOST_LINES.get(page.path)
    if most and len(page.lines) > most:
        fault(page.path, f'{len(page.lines)} lines, at most {most}')


def check_links(page, pages):
    for link in LINK.finditer(page.text()):
        if link[2].startswith(('http:', 'https:')):
            continue
        where = f'{page.path}:{page.text().count(NEW_LINE, 0, link.start()) + 1}'
        path, _, anchor = link[2].partition('#')
        target = page.target(path) if path else page.path
        if not (is_within(target) and exists(target)):
            fault(where, f'no {target}')
        elif anchor and (target not in pages or anchor not in pages[target].anchors()):
            fault(where, f'no heading {anchor} in {target}')


def check_examples(page):
    for number, line in enumerate(page.lines, 1):
        for name in EXAMPLE.findall(line):
            if not exists(name):
                fault(f'{page.path}:{number}', f'no {name}')


def check_spans(page, names, file_names):
    for number, line in page.text_lines():
        where = f'{page.path}:{number}'
        if re.search(r'\bNN\b', line):
            fault(where, 'a figure is left open')
        for span in re.findall(r'`([^`]+)`', line):
            if PATH.fullmatch(span):
                if not glob.glob(os.path.join(ROOT, span)):
                    fault(where, f'no {span}')
            elif FILE_NAME.fullmatch(span):
                if span not in file_names:
                    fault(where, f'no file {span}')
            elif page.path in NAME_PAGES and NAME.fullmatch(span):
                for name in span.split('::'):
                    if name not in names:
                        fault(where, f'no code names {name}')


def check_blocks(page):
    for number, above, kind, text in page.blocks():
        where = f'{page.path}:{number}'
        source = re.match(r'<!-- from: (\S+) -->', above)
        if source and not (exists(source[1]) and text in read(source[1])):
            fault(where, f'this does not stand in {source[1]}')
        if kind == 'sh' and page.path in RECIPE_PAGES and not above.startswith('<!-- recipe: '):
            fault(where, 'commands that no test runs')


# PROMISES

def contracts(name, source):
    """The signatures and clauses of the functions of this name, as one text."""
    found = re.findall(r'\bfn ' + name + r'\b.*?(?=^\s*\{|;$)', source, re.M | re.S)
    return ' '.join(found)


def check_promises(page):
    text = ' '.join(page.lines)
    for call, link, clauses in CLAUSES.findall(text):
        path = page.target(link)
        if not exists(path):
            continue
        source = read(path)
        owner, _, name = call.rpartition('::')
        contract = contracts(name, source)
        if not contract or not re.search(r'\b' + owner + r'\b', source):
            fault(page.path, f'no {call} in {path}')
        for clause in re.findall(r'`(\w+)`', clauses):
            if not re.search(r'\bensures ' + clause + r'\b', contract):
                fault(page.path, f'no clause {clause} of {call} in {path}')
    for name, link in DEFINITION.findall(text):
        path = page.target(link)
        if not exists(path):
            continue
        form = r'^(abbrev |unfoldable )?(pub )?(record |data )?' + name + r'\b'
        if not re.search(form, read(path), re.M):
            fault(page.path, f'no definition {name} in {path}')


def known_names(paths):
    """All words of the code, and the names of crates, of edits, of scripts and of cases.

    A program that runs cases prints a line for each, which begins with its name; cases of one kind
    are told apart by a number behind it."""
    names = set()
    for path in paths:
        if path.endswith(('.rt', '.antt')) and '/proofs/' not in path:
            names.update(re.findall(r'\w+', read(path)))
    for kind in ('must-fail/*.*', 'must-fail/more/*.md', 'data/*.script'):
        for path in glob.glob(os.path.join(ROOT, 'crates/*', kind)):
            names.add(os.path.splitext(os.path.basename(path))[0])
    for path in glob.glob(os.path.join(ROOT, 'crates/*/stdout')):
        for case in re.findall(r'^([\w-]+).*: as written$', read(path), re.M):
            names.update((case, re.sub(r'(-\d+)+$', '', case)))
    names.update(os.listdir(os.path.join(ROOT, 'crates')))
    names.update(SCRIPTS)
    names.update(re.findall(r'\w+', read('crates.txt')))
    return names


def all_pages(paths):
    return {path: Page(path) for path in paths if path.endswith('.md')}


def check_repository():
    """Checks everything, and returns what is there."""
    paths = list(files())
    for path in paths:
        check_widths(path)
    pages = all_pages(paths)
    names = known_names(paths)
    file_names = {os.path.basename(path) for path in paths}
    for page in pages.values():
        check_headings(page)
        check_length(page)
        check_links(page, pages)
        check_spans(page, names, file_names)
        check_blocks(page)
        check_promises(page)
    for path in paths:
        if path.startswith('docs/figures/') and path.endswith('.txt'):
            check_promises(Page(path))
    return f'{len(pages)} pages and {len(paths)} files are as they should be'


def check_elsewhere():
    """Checks what pages that were put elsewhere lead to, and returns what is there."""
    pages = all_pages(os.path.relpath(os.path.join(folder, name), ROOT)
                      for folder, _, names in os.walk(ROOT) for name in sorted(names))
    if not pages:
        fault(ROOT, 'no page')
    for page in pages.values():
        check_links(page, pages)
        check_examples(page)
    return f'the links of {len(pages)} pages lead somewhere'


def main():
    if WORDS and (len(WORDS) != 2 or WORDS[0] != '--links'):
        print(__doc__.splitlines()[0], file=sys.stderr)
        sys.exit(2)
    told = check_elsewhere() if WORDS else check_repository()
    for line in faults:
        print(line)
    if faults:
        print(f'{len(faults)} things are wrong')
        sys.exit(1)
    print(told)


main()
