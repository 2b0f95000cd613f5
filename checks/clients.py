#!/usr/bin/env python3
"""Usage: checks/clients.py [PART..]

Tries the clients for other programs, over the programs that ./build has built, or those that the
variables TUNES and TUNES_DESK name:

- the one in Python, by the tests of clients/python/tests: each command and each refusal of
  docs/SCRIPTS.md; the worked scripts of crates/test_scripts/data, byte for byte; several clients on
  one file; programs that end early, or write nonsense; 20,000 tunes; that no program is left
  behind; and its install into an empty folder, where pip is there;
- the one in C, by clients/c/check.sh.

A PART is the name of a file of tests without `test_` and `.py`, or `c`; without one all are tried.
A line is printed for each file of tests, and what failed; what is left out is told with its reason.
The status is 1 where something failed.
"""
import faulthandler
import io
import os
import signal
import subprocess
import sys
import time
import unittest

sys.dont_write_bytecode = True
ROOT = os.path.dirname(os.path.dirname(os.path.abspath(__file__)))
TESTS = os.path.join(ROOT, 'clients', 'python', 'tests')
IN_C = os.path.join(ROOT, 'clients', 'c', 'check.sh')
OLDEST = (3, 9)
# How many seconds the tests of a file may take; after that all end, and what they were at is told.
MOST = 300


def parts():
    """The names of the files of tests."""
    return sorted(name[len('test_'):-len('.py')] for name in os.listdir(TESTS)
                  if name.startswith('test_') and name.endswith('.py'))


def passes(part):
    """Whether the tests of a file pass; prints what does not."""
    begun, told = time.monotonic(), io.StringIO()
    faulthandler.dump_traceback_later(MOST, exit=True)
    suite = unittest.defaultTestLoader.loadTestsFromName('test_' + part)
    result = unittest.TextTestRunner(stream=told, verbosity=0).run(suite)
    faulthandler.cancel_dump_traceback_later()
    for test, why in result.skipped:
        print(f'left out  {part}: {test.id()}: {why}')
    if result.wasSuccessful():
        print(f'passed  {part}: {result.testsRun} tests, in {time.monotonic() - begun:.0f} seconds')
        return True
    print(told.getvalue())
    print(f'FAILED  {part}: {len(result.failures) + len(result.errors)} of {result.testsRun} tests')
    return False


def passes_in_c():
    """Whether the client in C passes; it prints its own lines."""
    if not os.path.exists(IN_C):
        print('left out  c: there is no clients/c/check.sh')
        return True
    return subprocess.run(['sh', IN_C], check=False).returncode == 0


def missing():
    """The programs that are not there."""
    from support import program
    return [program(name) for name in ('TUNES', 'TUNES_DESK') if not os.access(program(name),
                                                                               os.X_OK)]


def take_signals():
    """What the background of a shell ignores ends programs here, as the tests want it."""
    signal.signal(signal.SIGINT, signal.default_int_handler)
    for number in signal.SIGQUIT, signal.SIGHUP, signal.SIGTERM:
        signal.signal(number, signal.SIG_DFL)


def main():
    if sys.version_info < OLDEST:
        print(f'left out  all: Python is older than {OLDEST[0]}.{OLDEST[1]}')
        return 0
    take_signals()
    sys.path.insert(0, TESTS)
    lost = missing()
    if lost:
        print(f'FAILED  there is no program {", ".join(lost)}: ./build builds them')
        return 1
    failed = False
    for part in sys.argv[1:] or [*parts(), 'c']:
        failed |= not (passes_in_c() if part == 'c' else passes(part))
        sys.stdout.flush()
    return int(failed)


if __name__ == '__main__':
    sys.exit(main())
