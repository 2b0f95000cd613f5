"""What ./build and checks/edits.py share: copies of some crates, and runs of `rt ci` in them.

`rt ci` proves the crates of a copy from nothing, as the gate does, and keeps what it proved beside
the kit, also for the gate. A copy has no must-fail edits but those that are asked for.
"""
import os
import re
import shutil
import signal
import subprocess
import sys
import tempfile

ROOT = os.path.dirname(os.path.dirname(os.path.abspath(__file__)))
PARTS = ('src', 'specs', 'proofs', 'data', 'args', 'stdin', 'stdout', 'status')
STOOD = re.compile(r'rt: (\w+) (proved|NOT PROVED|is kept: .*)\n')


def libraries():
    """The crates as crates.txt has them, and what each uses."""
    found = {}
    with open(f'{ROOT}/crates.txt', encoding='utf-8') as file:
        for line in file:
            name, colon, uses = line.partition('#')[0].partition(':')
            if colon:
                found[name.strip()] = uses.split()
    return found


def with_those_below(names):
    """These crates and all that they use, each behind those that it uses."""
    uses, found = libraries(), []

    def add(name):
        if name in uses and name not in found:
            for each in uses[name]:
                add(each)
            found.append(name)

    for name in names:
        add(name)
    return found


def copy_crates(names, folder):
    """Copies these crates into the folder, which is then the top of a repository."""
    uses = libraries()
    os.mkdir(f'{folder}/.git')
    with open(f'{folder}/crates.txt', 'w', encoding='utf-8') as file:
        for name in names:
            file.write(f'{name}: {" ".join(uses[name])}\n')
    if os.path.exists(f'{ROOT}/HANDLES'):
        shutil.copyfile(f'{ROOT}/HANDLES', f'{folder}/HANDLES')
    for name in names:
        for part in PARTS:
            path = f'{ROOT}/crates/{name}/{part}'
            if os.path.isdir(path):
                shutil.copytree(path, f'{folder}/crates/{name}/{part}')
            elif os.path.exists(path):
                shutil.copyfile(path, f'{folder}/crates/{name}/{part}')


def temporary_folder(kind):
    """A new folder among the temporary files. Those go that killed runs left."""
    for name in os.listdir(tempfile.gettempdir()):
        of = re.match(rf'tunes-{kind}-([0-9]+)-', name)
        if of and not os.path.exists(f'/proc/{of[1]}'):
            shutil.rmtree(f'{tempfile.gettempdir()}/{name}', ignore_errors=True)
    return tempfile.mkdtemp(prefix=f'tunes-{kind}-{os.getpid()}-')


class Run:
    """A command that runs in a folder, and writes to a log, which is read as it grows."""

    def __init__(self, words, folder, log):
        self.log = open(log, 'w+', encoding='utf-8', errors='replace')
        self.process = subprocess.Popen(words, cwd=folder, stdin=subprocess.DEVNULL,
                                        stdout=self.log, stderr=subprocess.STDOUT,
                                        start_new_session=True)
        self.reader = open(log, encoding='utf-8', errors='replace')
        self.front = ''

    def new_lines(self):
        """The lines that were written since the last call."""
        lines = (self.front + self.reader.read()).split('\n')
        self.front = lines.pop()
        return [f'{line}\n' for line in lines]

    def stop(self):
        """Ends the command, and all that it started."""
        try:
            os.killpg(self.process.pid, signal.SIGTERM)
            self.process.wait()
            os.killpg(self.process.pid, signal.SIGKILL)
        except ProcessLookupError:
            pass


def end_by_signals():
    """Has the signals that end a program end this one as an error does, so that it clears up."""
    def end(number, _):
        sys.exit(128 + number)

    for number in (signal.SIGHUP, signal.SIGINT, signal.SIGTERM):
        signal.signal(number, end)
