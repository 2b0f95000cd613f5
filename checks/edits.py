#!/usr/bin/env python3
"""Tries the must-fail edits that stand in crates/NAME/must-fail/ as NAME.md, a crate's at once.

Usage: checks/edits.py [--more] [CRATE..]

Such a file has the lines of an edit, as a NAME.edit has, which `rt ci` tries. With --more those of
must-fail/more/ are tried too. An edit changes the body of a function, or of several. The prover
judges each function by its own contract and by those of the functions that it calls, whatever their
bodies do. So all edits of a crate are made in one copy of it, and `rattle check` is asked for the
changed functions alone; two edits of one function are made in two copies. An edit is refused where
one of its own functions is not proved: that it calls one that is not proved counts for nothing.

The libraries below come from what `rt ci` and `./build` kept beside the kit, else from out/ of the
crates, where `rt ci` leaves them; a library that is at neither is proved first. What was refused is
kept beside the kit too, and not tried again before the crate or a library below it changes.

The status is 1 where an edit is not refused, or cannot be applied or read: each is named, with what
the prover says.
"""
import glob
import importlib.machinery
import importlib.util
import os
import re
import shutil
import subprocess
import sys
import time

from proving import (
    ROOT, Run, copy_crates, end_by_signals, libraries, temporary_folder, with_those_below)

# Where a function begins, and what it is a member of.
FUNCTION = re.compile(r'( *)(?:pub(?:\([^)]*\))? )?(?:const )?(?:unsafe )?fn (\w+)')
MEMBER = re.compile(r'(?:pub(?:\([^)]*\))? )?(?:impl\b|trait )(.*)')
# What the prover says of a function that it does not prove for its own sake.
REFUSED = re.compile(r'not proved|no proof: (?!it calls )')
# A goal of a function that stays open, and where the function stands.
OPEN = re.compile(r'^note: (src/\S+\.rt):(\d+):.* not proved ', re.M)
# A proof that only names what an edit took away says little of a contract.
BY_A_NAME = re.compile(r'has no field|is not in scope|has no `|was not admitted')


def edits_of(crate, has_more):
    folders = ('must-fail', 'must-fail/more') if has_more else ('must-fail',)
    return [path for folder in folders
            for path in sorted(glob.glob(f'{ROOT}/crates/{crate}/{folder}/*.md'))]


def clock(seconds):
    return f'{int(seconds) // 60}:{int(seconds) % 60:02}'


def pairs_of(path):
    """The lines of an edit: for each pair its file, the text that it changes, and what comes."""
    found, file, old = [], '', ''
    with open(path, encoding='utf-8') as lines:
        for line in lines.read().split('\n'):
            if line.startswith('file: '):
                file = line[len('file: '):].strip()
            elif line.startswith('old: '):
                old = line[len('old: '):]
            elif line.startswith('new:'):
                found.append((file, old, line[len('new:'):].removeprefix(' ')))
    return found


def without_generics(text):
    """A text without what stands in it between `<` and `>`, but for numbers."""
    while re.search(r'<[^<>]*>', text):
        text = re.sub(r'<[^<>]*>', lambda found: ''.join(re.findall(r'\b\d+', found[0])), text)
    return text


def type_of(heading):
    """The prover's name of what an `impl` or a `trait` is for: TYPE, or TYPETRAIT, where TRAIT has
    its numbers behind it."""
    named = re.split(r' where\b|\{|:(?!:)', without_generics(heading))[0]
    return ''.join(re.findall(r'\w+', part)[-1] for part in reversed(named.split(' for ')))


def function_at(file, lines):
    """The last function in the first lines of a file, by the end of the name that is printed of it:
    a member by its type, which may be of another file; any other function by its module."""
    begun = [it for it in enumerate(map(FUNCTION.match, lines)) if it[1]]
    if not begun:
        return ''
    at, found = begun[-1]
    if found[1]:
        return f'{type_of([it[1] for it in map(MEMBER.match, lines[:at]) if it][-1])}::{found[2]}'
    module = re.sub(r'(^|::)(lib|main)$', '', file[len('src/'):-len('.rt')].replace('/', '::'))
    return f'{module}::{found[2]}' if module else found[2]


class Edit:
    """An edit, the texts of the files that it changes, and the functions whose bodies it changes.
    What `why` says is why it cannot be tried."""

    def __init__(self, rt, crate, path):
        self.path, self.crate, self.pairs, self.functions = path, crate.name, pairs_of(path), []
        self.name = os.path.splitext(os.path.basename(path))[0]
        _, self.why = rt.read_edit(path, crate.folder)
        if not self.why:
            for file, old, _ in self.pairs:
                with open(f'{crate.folder}/{file}', encoding='utf-8') as source:
                    text = source.read()
                lines = text[:text.index(old) + len(old)].split('\n')
                self.functions.append(function_at(file, lines))


def made_in(folder, edits):
    """The texts of the files with all these edits in them, or none where two do not go together."""
    texts = {}
    for file, old, new in (pair for edit in edits for pair in edit.pairs):
        if file not in texts:
            with open(f'{folder}/{file}', encoding='utf-8') as source:
                texts[file] = source.read()
        if texts[file].count(old) != 1:
            return None
        texts[file] = texts[file].replace(old, new)
    return texts


def groups_of(folder, edits):
    """The edits in groups: in each, no two change one function, or one text."""
    groups = []
    for edit in edits:
        for group in groups:
            taken = {name for each in group for name in each.functions}
            if taken.isdisjoint(edit.functions) and made_in(folder, [*group, edit]):
                group.append(edit)
                break
        else:
            groups.append([edit])
    return groups


class Tries:
    """Tries of the edits of crates, by the kit's own program `rt`, in a copy of these crates."""

    def __init__(self, rt, paths, folder):
        """`paths` has the edits of each crate, lowest first."""
        self.rt, self.paths = rt, paths
        rt.rtlib.Crate.cuts_libraries = True
        crates = rt.crates_of(folder)
        rt.Crate.allowed = rt.handles_of(folder)
        self.kept, self.found = rt.Kept(crates), {}
        self.crates = {crate.name: crate for crate in crates}

    def lacking(self):
        """Gives each crate its library as it was proved. The lowest crate that has it nowhere."""
        for name in with_those_below(self.paths):
            crate, at = self.crates[name], f'crates/{name}/out/rlib/{name}.rlib'
            if not self.kept.give(crate, False, self.kept.key(crate)):
                if self.kept.at or not os.path.isfile(f'{ROOT}/{at}/format'):
                    return name
                shutil.copytree(f'{ROOT}/{at}', f'{crate.folder}/out/rlib/{name}.rlib')
            self.kept.is_built(crate)
        return None

    def note(self, edit, text, is_refused=False):
        self.found[edit.crate, edit.name] = is_refused
        if not is_refused:
            print(f'{edit.crate}/{edit.name}: {text}', flush=True)

    def kept_name(self, crate, edit):
        return self.kept.of_edit(edit.path, f'{self.kept.key(crate)} in a group')

    def run(self):
        tasks = {}
        for name, paths in self.paths.items():
            crate = self.crates[name]
            edits = [Edit(self.rt, crate, path) for path in paths]
            for edit in edits:
                if edit.why:
                    self.note(edit, edit.why)
                elif self.kept.tried(self.kept_name(crate, edit)):
                    self.note(edit, '', True)
            left = [edit for edit in edits if (name, edit.name) not in self.found]
            # Those of the crates with most below them begin: they take longest.
            work = sum(each.count(rb'\n') for each in [crate, *crate.below()])
            for number, group in enumerate(groups_of(crate.folder, left)):
                tasks[name, 'edits', number] = (
                    [], work, self.rt.OVER * self.rt.need(crate),
                    lambda given, jobs, crate=crate, group=group: self.try_group(crate, group))
        self.rt.in_lanes(tasks)

    def try_group(self, crate, group):
        begun = time.monotonic()
        told = self.told_of(crate, group)
        for edit in group:
            said = [told[it] for it in edit.functions if it in told]
            refused = [it for it in said if REFUSED.match(it)]
            if refused:
                self.note(edit, '', True)
                self.kept.keep_tried(self.kept_name(crate, edit), self.rt.REFUSED, refused[0])
            elif len(said) < len(edit.functions) and len(group) > 1:
                # One that cannot be read keeps the prover from all others.
                self.try_group(crate, [edit])
            else:
                self.note(edit, '; '.join(said) or told[''])
        print(f'{crate.name}: {len(group)} edits in {clock(time.monotonic() - begun)}', flush=True)

    def told_of(self, crate, group):
        """What the prover says of each function that a group changes, and, by no name, of all."""
        functions = [name for edit in group for name in edit.functions]
        words = [word for name in functions for word in ('--only', name)]
        texts = made_in(crate.folder, group)
        ran = self.rt.checked(crate, texts, ['--jobs', '1', *words], None)
        lines = ran.stdout.rstrip('\n').split('\n')
        said = re.findall(rf'^fn {crate.name}::(\S+): (.*)$', ran.stdout, re.M)
        wrong = [line for line in lines if re.search(r': error|\berror\[|^rattle: error', line)]
        told = {'': f'status {ran.returncode}, {(wrong or lines)[-1][:300]}'}
        if any(self.rt.unread(line, texts) for line in lines):
            return told
        open_goals = {
            function_at(file, texts[file].split('\n')[:int(line)])
            for file, line in OPEN.findall(ran.stdout) if file in texts}
        for printed, what in said:
            for name in functions:
                if f'::{printed}'.endswith(f'::{name}'):
                    own = [it for it in wrong if f'/proofs/{printed.replace("::", "/")}/' in it]
                    if own and name not in open_goals and all(map(BY_A_NAME.search, own)):
                        what = f'a proof names what is gone: {own[0][:200]}'
                    told[name] = what
        return told


def kit_program():
    """The kit's own program `rt`, as a module."""
    page = subprocess.run(['rt', 'doc'], cwd=ROOT, capture_output=True, text=True, check=True)
    at = os.path.dirname(page.stdout.split('\n')[0])
    loader = importlib.machinery.SourceFileLoader('rt', f'{at}/bin/rt')
    rt = importlib.util.module_from_spec(importlib.util.spec_from_loader('rt', loader))
    loader.exec_module(rt)
    # Only the main thread may set a signal's handler, as the first call of this does.
    rt.rtlib.guarded()
    return rt


def prove(names, folder):
    """Proves crates of a copy by `rt ci`, and keeps them. Gives the last of what that wrote."""
    run = Run(['rt', 'ci', *names], folder, f'{folder}.log')
    try:
        run.process.wait()
        return run.new_lines()[-20:]
    finally:
        run.stop()


def try_all(paths, folder):
    """Tries the edits of each crate, in a folder for the copy. Whether each is refused."""
    begun = time.monotonic()
    copy_crates(with_those_below(paths), folder)
    os.chdir(folder)
    tries = Tries(kit_program(), paths, folder)
    lacking = tries.lacking()
    if lacking:
        print(f'{lacking} is not kept, so rt ci proves what is not', flush=True)
        lines = prove(list(paths), folder)
        if tries.lacking():
            print(*lines, sep='', end='')
            return False
    tries.run()
    refused = sum(tries.found.values())
    print(f'{refused} of {len(tries.found)} edits of {len(paths)} crates refused, in '
          f'{clock(time.monotonic() - begun)}')
    return refused == len(tries.found)


def main(words):
    has_more = words[:1] == ['--more']
    names = words[has_more:]
    unknown = [name for name in names if name not in libraries()]
    if unknown:
        print(f'crates.txt has no {unknown[0]}', file=sys.stderr)
        return 2
    paths = {name: edits_of(name, has_more) for name in with_those_below(names or libraries())
             if name in (names or libraries()) and edits_of(name, has_more)}
    folder = temporary_folder('edits')
    try:
        os.mkdir(f'{folder}/repository')
        return 0 if try_all(paths, f'{folder}/repository') else 1
    finally:
        shutil.rmtree(folder, ignore_errors=True)


if __name__ == '__main__':
    end_by_signals()
    sys.exit(main(sys.argv[1:]))
