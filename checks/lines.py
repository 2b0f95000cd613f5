#!/usr/bin/env python3
"""Usage: checks/lines.py [--write | --check]

Counts lines, group by group as crates.txt has the crates, and prints a table. Empty lines and
comments count nowhere. Of a source file the lines of contracts (`requires`, `ensures` and items of
clauses alone) are counted apart from the code, and one clause is one `ensures`. An edit is a file
under must-fail/, a case a line `NAME: as written` of a program's stored output.

`--write` writes the table into docs/RESULTS.md. `--check` ends with 1 where a number of that page
is more than a twentieth off, and 3 beside that: the page is told to be so exact, and no more.
"""
import glob
import os
import re
import sys

os.chdir(os.path.dirname(os.path.dirname(os.path.abspath(__file__))))

PAGE = 'docs/RESULTS.md'
BEGIN, END = '<!-- lines: begin -->\n', '<!-- lines: end -->\n'
HEAD = ('crates', 'code', 'contracts', 'clauses', 'definitions', 'proofs', 'edits', 'cases')


def read(path):
    with open(path, encoding='utf-8') as file:
        return file.read()


def groups():
    """The groups of crates.txt, each with its crates."""
    found = []
    for line in read('crates.txt').split('\n'):
        if line.startswith('# ') and line.endswith('.') and not line.startswith('# NAME'):
            found.append((line[2:-1], []))
        elif line and not line.startswith('#'):
            found[-1][1].append(line.partition(':')[0])
    return found


def full_lines(text, mark):
    return [line for line in text.split('\n') if line.strip() and not line.strip().startswith(mark)]


def source_lines(text):
    """How many lines of code a source has, and how many of contracts."""
    code = contracts = depth = 0
    for line in full_lines(text, '//'):
        if depth > 0 or re.match(r'\s*(ensures|requires|ghost)\b', line):
            bare = re.sub(r'"[^"]*"', '', line)
            depth += bare.count('{') - bare.count('}')
            contracts += 1
        else:
            code += 1
    return code, contracts


def counted(crates):
    """The numbers of a row."""
    code = contracts = clauses = definitions = proofs = edits = cases = 0
    for crate in crates:
        for path in glob.glob(f'crates/{crate}/src/**/*.rt', recursive=True):
            text = read(path)
            more_code, more_contracts = source_lines(text)
            code, contracts = code + more_code, contracts + more_contracts
            clauses += len(re.findall(r'^\s*ensures\b', text, re.M))
        for path in glob.glob(f'crates/{crate}/specs/**/*.antt', recursive=True):
            definitions += len(full_lines(read(path), '--'))
        for path in glob.glob(f'crates/{crate}/proofs/**/*.antt', recursive=True):
            proofs += len(full_lines(read(path), '--'))
        edits += len(glob.glob(f'crates/{crate}/must-fail/*.*'))
        for path in glob.glob(f'crates/{crate}/stdout'):
            cases += len(re.findall(r': as written$', read(path), re.M))
    return [code, contracts, clauses, definitions, proofs, edits, cases]


def table():
    rows = [(name, counted(crates)) for name, crates in groups()]
    rows.append(('all', [sum(column) for column in zip(*(numbers for _, numbers in rows))]))
    lines = ['| ' + ' | '.join(HEAD) + ' |', '|---' * len(HEAD) + '|']
    for name, numbers in rows:
        lines.append(f'| {name} | ' + ' | '.join(f'{number:,}' for number in numbers) + ' |')
    return '\n'.join(lines) + '\n'


def numbers_of(text):
    return [int(number.replace(',', '')) for number in re.findall(r'(?<=\| )[\d,]+(?= \|)', text)]


def main():
    now, page = table(), read(PAGE) if os.path.exists(PAGE) else ''
    before = page.partition(BEGIN)[2].partition(END)[0].strip('\n') + '\n'
    if '--write' in sys.argv:
        with open(PAGE, 'w', encoding='utf-8') as file:
            file.write(page.replace(before, now))
        return
    if '--check' not in sys.argv:
        print(now, end='')
        return
    told, there = numbers_of(before), numbers_of(now)
    if len(told) != len(there) or any(
            abs(old - new) > 3 + new / 20 for old, new in zip(told, there)):
        print(f'{PAGE}: the table of lines is old; checks/lines.py --write makes it anew')
        sys.exit(1)
    print('the table of lines is as it should be')


main()
