#!/usr/bin/env python3
"""Runs a command of the kit, and says what it cost, by crate and by kind of work.

Usage: checks/cost.py COMMAND [ARGUMENT..], as checks/cost.py rt ci

What the command writes passes through, and its status is that of this script. Each second it looks
at the processes below the command, in /proc. Their time on a processor is counted for the crate
that they are told to prove, by what they do there:

  proof   a proof of the crate
  tests   a proof of its tests, and of a crate that is for tests or benches
  seeds   the checks of the crate that its must-fail edits begin with, and that they end with
  edits   the tries of these edits
  build   what a compiler takes to make a program of what is proved
  run     its program, or its tests

In front stands the minute at which the last of the proof was seen. What ended between two looks is
in the line `not seen`, with what `rt` itself took. Times are minutes of one processor.
"""
import os
import re
import resource
import subprocess
import sys
import threading
import time

KINDS = ('proof', 'tests', 'seeds', 'edits', 'build', 'run')
TICKS = os.sysconf('SC_CLK_TCK')


class Processes:
    """All processes that there are at one look."""

    def __init__(self):
        self.parents, self.times, self.below = {}, {}, {}
        for name in os.listdir('/proc'):
            if name.isdigit():
                try:
                    with open(f'/proc/{name}/stat', encoding='utf-8', errors='replace') as file:
                        words = file.read().rpartition(')')[2].split()
                except OSError:
                    continue
                pid, parent = int(name), int(words[1])
                self.parents[pid] = parent
                # Its own time, and that of children that ended.
                self.times[pid] = sum(map(int, words[11:15])) / TICKS
                self.below.setdefault(parent, []).append(pid)

    def time_of(self, pid):
        """The seconds that a process and those below it took so far."""
        return self.times[pid] + sum(map(self.time_of, self.below.get(pid, ())))

    def all_below(self, pid):
        for child in self.below.get(pid, ()):
            yield child
            yield from self.all_below(child)


def work_of(pid):
    """The crate and the kind of work of a process, or None."""
    try:
        with open(f'/proc/{pid}/cmdline', encoding='utf-8', errors='replace') as file:
            words = file.read().split('\0')
        folder = os.readlink(f'/proc/{pid}/cwd')
    except OSError:
        return None
    program = os.path.basename(words[0])
    ran = re.match(r'.*/rt-run-[^/]*/bin/(\w+?)(_tests)?$', words[0])
    if ran:
        return ran[1], 'run'
    if program != 'rattle' or '--crate-name' not in words:
        return None
    crate = words[words.index('--crate-name') + 1]
    if '--crate-checked' in words:
        return crate, 'build'
    if re.search(r'/rt-edits?-', folder):
        return crate, 'seeds' if any(word.endswith('/seed') for word in words) else 'edits'
    is_test = '--test' in words or crate.startswith(('test_', 'bench'))
    return crate, 'tests' if is_test else 'proof'


class Costs:
    """What was seen of each process that works on a crate."""

    def __init__(self):
        self.begun = time.monotonic()
        self.works, self.seconds, self.last = {}, {}, {}

    def look(self, top):
        now = Processes()
        for pid in now.all_below(top):
            if pid not in self.works or now.time_of(pid) < self.seconds[pid]:
                work = work_of(pid)
                if work is None:
                    continue
                if pid in self.works:
                    # Another process has its number now.
                    self.works[pid, self.last[pid]] = self.works[pid]
                    self.seconds[pid, self.last[pid]] = self.seconds[pid]
                self.works[pid] = work
            if self.works.get(now.parents[pid]) == self.works[pid]:
                # A copy that the prover made of itself counts with it.
                del self.works[pid]
                continue
            self.seconds[pid] = now.time_of(pid)
            self.last[pid] = time.monotonic()

    def table(self):
        """Seconds by crate and kind, and the second at which the crate's proof was seen last."""
        found, stood = {}, {}
        for key, (crate, kind) in self.works.items():
            times = found.setdefault(crate, dict.fromkeys(KINDS, 0.0))
            times[kind] += self.seconds[key]
            if kind in ('proof', 'tests') and key in self.last:
                stood[crate] = max(stood.get(crate, 0.0), self.last[key] - self.begun)
        return found, stood


def main(words):
    if not words:
        print(__doc__.split('\n\n')[1], file=sys.stderr)
        return 2
    costs, ended = Costs(), threading.Event()
    ran = subprocess.Popen(words)

    def look_on():
        while not ended.wait(1):
            costs.look(ran.pid)

    looking = threading.Thread(target=look_on)
    looking.start()
    try:
        status = ran.wait()
    finally:
        ended.set()
        looking.join()
    minutes = (time.monotonic() - costs.begun) / 60
    used = resource.getrusage(resource.RUSAGE_CHILDREN)
    everything = (used.ru_utime + used.ru_stime) / 60
    found, stood = costs.table()
    print(f'{"crate":16} {"by":>5}' + ''.join(f'{kind:>8}' for kind in KINDS))
    sums = dict.fromkeys(KINDS, 0.0)
    for crate in sorted(found, key=lambda crate: stood.get(crate, 0.0)):
        times = found[crate]
        print(f'{crate:16} {stood.get(crate, 0) / 60:5.1f}'
              + ''.join(f'{times[kind] / 60:8.2f}' for kind in KINDS))
        for kind in KINDS:
            sums[kind] += times[kind] / 60
    print(f'{"all":16} {minutes:5.1f}' + ''.join(f'{sums[kind]:8.2f}' for kind in KINDS))
    print(f'not seen: {everything - sum(sums.values()):.2f} minutes of {everything:.2f}')
    return status if status >= 0 else 128 - status


if __name__ == '__main__':
    sys.exit(main(sys.argv[1:]))
