#!/usr/bin/env python3
"""Usage: checks/names.py [--found]

Looks whether one name has one meaning, in all crates but tests and benches. It prints each thing
that is wrong and ends with 1, or prints one line and ends with 0. Wrong is

- a file name that stands in src/ or in specs/ of two crates, but for Lib, Laws, Limits and Main;
- a public type of that name in two files of src/, or a record of that name in two files of specs/;
- a public definition of that name in specs/ of two crates, those of tests among them, also where
  it stands within a module;
- a public type that docs/GLOSSARY.md does not name in a code span.

The names that stand twice today are in checks/data/names.txt: what it is, the name, and where. The
list may only get shorter: where a name stands in a further place it is wrong, and so is a line of
the list that says more than there is. `--found` prints what the list would have today.
"""
import collections
import glob
import os
import re
import sys

os.chdir(os.path.dirname(os.path.dirname(os.path.abspath(__file__))))

KNOWN = 'checks/data/names.txt'
EVERYWHERE = {'lib', 'laws', 'limits', 'main', 'inside'}
TYPE = re.compile(r'^pub (?:struct|enum|trait) (\w+)', re.M)
RECORD = re.compile(r'^(?:abbrev |unfoldable )?(?:pub )?(?:record|data) ([^\s:({]+)', re.M)
DEFINITION = re.compile(
    # Within a record `pub` alone begins a field.
    r'^(?:(?:abbrev |unfoldable )?pub (?:record |data )?|'
    r' +(?:(?:abbrev |unfoldable )pub |pub (?:record |data )))(?!mod |use )([^\s:({]+)', re.M)


def read(path):
    with open(path, encoding='utf-8') as file:
        return file.read()


def crate_of(path):
    return path.split('/')[1]


def paths(inner):
    """The files of this kind, of all crates but tests and benches."""
    for path in sorted(glob.glob(f'crates/*/{inner}', recursive=True)):
        if not crate_of(path).startswith(('test_', 'benches')):
            yield path


def twice(named):
    """What stands in two places or more, of pairs of a name and a place."""
    places = collections.defaultdict(set)
    for name, place in named:
        places[name].add(place)
    return {name: found for name, found in places.items() if len(found) > 1}


def files_in(inner):
    for path in paths(inner):
        name = os.path.splitext(os.path.basename(path))[0]
        if name.lower() not in EVERYWHERE:
            yield name, crate_of(path)


def named_in(inner, form):
    for path in paths(inner):
        for name in form.findall(read(path)):
            yield name, path[len('crates/'):]


def defined():
    for path in sorted(glob.glob('crates/*/specs/**/*.antt', recursive=True)):
        for name in DEFINITION.findall(read(path)):
            yield name, crate_of(path)


def found():
    """What stands twice: a kind and a name, and where."""
    kinds = {
        'source': files_in('src/**/*.rt'),
        'definitions': files_in('specs/**/*.antt'),
        'type': named_in('src/**/*.rt', TYPE),
        'record': named_in('specs/**/*.antt', RECORD),
        'definition': defined(),
    }
    return {(kind, name): places for kind, named in kinds.items()
            for name, places in twice(named).items()}


def known():
    """What the list of exceptions has, in the same form."""
    listed = {}
    for line in read(KNOWN).split('\n'):
        if line and not line.startswith('#'):
            kind, name, *places = line.split()
            listed[kind, name] = set(places)
    return listed


def main():
    names, listed, faults = found(), known(), []
    if '--found' in sys.argv:
        for (kind, name), places in sorted(names.items()):
            print(kind, name, *sorted(places))
        return
    for (kind, name), places in sorted(names.items()):
        if places - listed.get((kind, name), set()):
            faults.append(f'{kind} {name} stands in {", ".join(sorted(places))}')
    for (kind, name), places in sorted(listed.items()):
        gone = places - names.get((kind, name), set())
        if gone:
            faults.append(f'{KNOWN}: {kind} {name} is no more in {", ".join(sorted(gone))}')
    glossary = set(re.findall(r'`(\w+)', read('docs/GLOSSARY.md')))
    types = {name for name, _ in named_in('src/**/*.rt', TYPE)}
    faults.extend(f'docs/GLOSSARY.md: no type {name}' for name in sorted(types - glossary))
    for line in faults:
        print(line)
    if faults:
        print(f'{len(faults)} names are wrong')
        sys.exit(1)
    print(f'{len(types)} types are told, and {len(listed)} names stand twice, as is known')


main()
