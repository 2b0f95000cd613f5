#!/usr/bin/env python3
"""Usage: checks/house.py [--found | --write]

Counts, in all crates but tests and benches, what a reader meets again and again:

- `arguments`: functions with more than five arguments, `self` among them;
- `clauses`: clauses, `requires` and `ensures`, that stand three times or more, word for word.

It compares the counts with those in checks/data/house.txt, which may only get lower. It prints
each that differs and ends with 1, or prints one line and ends with 0. With `--write` it writes
those that got lower; `--found` lists what is counted.
"""
import collections
import glob
import os
import re
import sys

os.chdir(os.path.dirname(os.path.dirname(os.path.abspath(__file__))))

KNOWN = 'checks/data/house.txt'
MOST_ARGUMENTS, OFTEN = 5, 3
CLAUSE = re.compile(r'\b(requires|ensures)\b\*?[^{};]*\{')
FUNCTION = re.compile(r'\bfn (\w+)')
CLOSING = {'(': ')', '<': '>', '[': ']', '{': '}'}


def sources():
    for path in sorted(glob.glob('crates/*/src/**/*.rt', recursive=True)):
        if not path.split('/')[1].startswith(('test_', 'benches')):
            with open(path, encoding='utf-8') as file:
                yield path[len('crates/'):], file.read()


def end_of(text, at):
    """Behind the bracket that closes the one at a place. An arrow's `>` closes nothing."""
    opened = []
    for place in range(at, len(text)):
        if text[place] in CLOSING:
            opened.append(CLOSING[text[place]])
        elif opened and text[place] == opened[-1] and text[place - 1:place + 1] != '->':
            opened.pop()
            if not opened:
                return place + 1
    return len(text)


def arguments_of(text, at):
    """How many arguments the function has whose name ends there."""
    if text[at:at + 1] == '<':
        at = end_of(text, at)
    if text[at:at + 1] != '(':
        return 0
    inside, count, place = text[at + 1:end_of(text, at) - 1], 0, 0
    while inside[place:].strip():
        count += 1
        while place < len(inside) and inside[place] != ',':
            place = end_of(inside, place) if inside[place] in CLOSING else place + 1
        place += 1
    return count


def found():
    """What is counted: for each count the lines that tell of it."""
    many, clauses = [], collections.Counter()
    for path, text in sources():
        for function in FUNCTION.finditer(text):
            count = arguments_of(text, function.end())
            if count > MOST_ARGUMENTS:
                many.append(f'{count} {path} {function[1]}')
        for clause in CLAUSE.finditer(text):
            # Of a clause the braces alone are matched: `<` is an order there.
            end, depth = clause.end(), 1
            while depth:
                depth += {'{': 1, '}': -1}.get(text[end], 0)
                end += 1
            clauses[f'{clause[1]} {" ".join(text[clause.end():end - 1].split())}'] += 1
    often = [(count, clause) for clause, count in clauses.items() if count >= OFTEN]
    return {
        'arguments': (len(many), sorted(many, reverse=True)),
        'clauses': (sum(count for count, _ in often),
                    [f'{count} {clause}' for count, clause in sorted(often, reverse=True)]),
    }


def main(words):
    counted, known = found(), {}
    if '--found' in words:
        for name, (count, lines) in counted.items():
            print(f'{name} {count}', *lines, sep='\n  ')
        return 0
    with open(KNOWN, encoding='utf-8') as file:
        text = file.read()
    for line in text.split('\n'):
        if line and not line.startswith('#'):
            name, count = line.split()
            known[name] = int(count)
    faults = []
    for name, (count, _) in counted.items():
        if count > known[name]:
            faults.append(f'{name}: {count} where {known[name]} may be')
        elif count < known[name] and '--write' in words:
            text = re.sub(rf'^{name} .*$', f'{name} {count}', text, flags=re.M)
        elif count < known[name]:
            faults.append(f'{name}: {count} where {KNOWN} has {known[name]}; write it with --write')
    if '--write' in words:
        with open(KNOWN, 'w', encoding='utf-8') as file:
            file.write(text)
    told = ', '.join(f'{name} {count}' for name, (count, _) in counted.items())
    print(*faults or [told], sep='\n')
    return 1 if faults else 0


if __name__ == '__main__':
    sys.exit(main(sys.argv[1:]))
