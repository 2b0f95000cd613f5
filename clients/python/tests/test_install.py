"""The package: it is installed into an empty folder without a network, and the example runs."""
import ast
import glob
import importlib
import importlib.util
import os
import re
import shutil
import subprocess
import sys
import tempfile
import typing
import unittest
import zipfile

from support import CLIENT, InFolder, program, read

import tunes_archive

EXAMPLE = os.path.join(CLIENT, 'examples', 'player.py')


def has_pip():
    """Whether an empty folder with pip can be made here."""
    return importlib.util.find_spec('ensurepip') and importlib.util.find_spec('venv')


class Sources(unittest.TestCase):
    """What the package is made of."""

    def test_python_3_9(self):
        for path in glob.glob(os.path.join(CLIENT, '**', '*.py'), recursive=True):
            with open(path, encoding='utf-8') as file:
                ast.parse(file.read(), path, feature_version=(3, 9))

    def test_one_version(self):
        page = read('clients', 'python', 'pyproject.toml').decode()
        told = re.search(r'^version = "(.*)"$', page, re.M)[1]
        self.assertEqual(told, tunes_archive.__version__)
        self.assertTrue(told.startswith(tunes_archive.programs.WANTED + '.'))

    def test_all_is_typed_and_told(self):
        for path in glob.glob(os.path.join(CLIENT, 'tunes_archive', '*.py')):
            name = os.path.splitext(os.path.basename(path))[0]
            if name == '__init__':
                continue
            module = importlib.import_module('tunes_archive.' + name)
            with open(path, encoding='utf-8') as file:
                tree = ast.parse(file.read())
            self.assertTrue(ast.get_docstring(tree), name)
            for node in ast.walk(tree):
                if isinstance(node, (ast.FunctionDef, ast.ClassDef)):
                    self.typed(name, node)
            for value in vars(module).values():
                if callable(value) and getattr(value, '__module__', '') == module.__name__:
                    typing.get_type_hints(value)

    def typed(self, where, node):
        """That a function tells all its types."""
        if isinstance(node, ast.FunctionDef):
            words = node.args.args + node.args.kwonlyargs
            untyped = [word.arg for word in words
                       if word.annotation is None and word.arg not in ('self', 'cls')]
            self.assertEqual(untyped, [], f'{where}.{node.name}')
            self.assertIsNotNone(node.returns, f'{where}.{node.name}')

    def test_nothing_else_is_taken(self):
        for path in glob.glob(os.path.join(CLIENT, 'tunes_archive', '*.py')):
            with open(path, encoding='utf-8') as file:
                for found in re.findall(r'^(?:from|import) ([a-z_]+)', file.read(), re.M):
                    self.assertIn(found, sys.stdlib_module_names
                                  if hasattr(sys, 'stdlib_module_names') else [found])


class Installed(InFolder):
    """The example, after an install into an empty folder."""

    def run_example(self, python, *words, script='', **more):
        environment = {name: value for name, value in os.environ.items() if name != 'PYTHONPATH'}
        environment.update(TUNES=program('TUNES'), TUNES_DESK=program('TUNES_DESK'), **more)
        return subprocess.run([python, '-B', EXAMPLE, *words], input=script.encode(),
                              stdout=subprocess.PIPE, stderr=subprocess.PIPE, env=environment,
                              cwd=self.folder, check=False)

    def look(self, python, **more):
        """Looks at what the example does over an archive such as README.md makes."""
        with self.make(read('examples', 'session.abc')) as archive:
            archive.set_new('friday')
            archive.set_add('friday', 3)
            archive.set_add('friday', 1)
            stairs = archive.show(3).book

        def example(*words, **given):
            return self.run_example(python, self.path, *words, **given, **more)

        found = example('notes', 'FAA GBB')
        self.assertEqual((found.returncode, found.stderr), (0, b''))
        self.assertEqual(found.stdout, b'     3  Tripping Up the Stairs\n')
        self.assertEqual(example('notes', 'FAA GBB', 'D').stdout, found.stdout)
        self.assertEqual(example('notes', 'FAA GBB', 'C').stdout, b'')
        self.assertEqual(example('title', 'the', 'kesh').stdout, b'     1  Kesh Jig, The\n')
        self.assertEqual(example('show', '3').stdout, stairs)
        self.assertEqual(example('sets').stdout, b'friday: 2 tunes\n')
        told = b'  1.       3  Tripping Up the Stairs\n  2.       1  Kesh Jig, The\n'
        self.assertEqual(example('set', 'friday').stdout, told)
        both = example(script='set friday\n\nshow 3\n')
        self.assertEqual((both.returncode, both.stdout), (0, told + stairs))
        for words, status in ((('show', '99'), 1), (('show',), 2), (('show', 'x'), 2),
                              (('play',), 2), (('set', 'none'), 1), (('print', 'friday', 'a'), 2),
                              (('set', 'a b'), 2)):
            wrong = example(*words)
            self.assertEqual((wrong.returncode, wrong.stdout), (status, b''), words)
            self.assertTrue(wrong.stderr.startswith(b'player: '), words)
        printed = example('print', 'friday', 'friday.abc')
        self.assertEqual(printed.returncode, 0, printed.stderr)
        with open(self.at('friday.abc'), 'rb') as file:
            self.assertIn(stairs.partition(b'\n')[2], file.read())
        self.assertEqual(example('print', 'friday', 'friday.abc').returncode, 1)
        for out, tools in (('friday.ps', ['abcm2ps']), ('friday.pdf', ['abcm2ps', 'ps2pdf'])):
            printed = example('print', 'friday', out)
            if all(map(shutil.which, tools)):
                self.assertEqual(printed.returncode, 0, printed.stderr)
                with open(self.at(out), 'rb') as file:
                    self.assertTrue(file.read().startswith((b'%!PS', b'%PDF')))
            else:
                self.assertEqual(printed.returncode, 1)
        self.assertEqual(self.run_example(python, 'none', 'sets', **more).returncode, 1)

    def test_what_the_page_shows(self):
        with self.make(read('examples', 'session.abc')) as archive:
            page = read('clients', 'python', 'README.md').decode()
            block = page.partition('```python\n')[2].partition('```')[0]
            ended = subprocess.run(
                [sys.executable, '-B', '-c', block], stdout=subprocess.PIPE, check=True,
                cwd=self.folder, env={**os.environ, 'PYTHONPATH': CLIENT,
                                      'TUNES': program('TUNES'),
                                      'TUNES_DESK': program('TUNES_DESK')})
            self.assertEqual(ended.stdout, b'6 Drowsy Maggie\n')
            self.assertEqual(archive.show(3).revision, 2)
            self.assertTrue(archive.show(3).text.endswith(b'\n% checked\n'))

    def test_without_an_install(self):
        self.look(sys.executable, PYTHONPATH=CLIENT)

    @unittest.skipUnless(has_pip(), 'there is no pip here')
    def test_after_an_install(self):
        # not in a folder of memory: some of these may run no programs
        folder = tempfile.mkdtemp(prefix='tunes-client-')
        self.addCleanup(shutil.rmtree, folder)
        subprocess.run([sys.executable, '-m', 'venv', folder], check=True,
                       stdout=subprocess.DEVNULL)
        python = os.path.join(folder, 'bin', 'python')
        # an index that is not there shows that nothing is fetched
        subprocess.run([python, '-m', 'pip', 'install', '--quiet', '--disable-pip-version-check',
                        '--no-cache-dir', '--index-url', 'http://127.0.0.1:9/', CLIENT], check=True)
        self.look(python)
        about = subprocess.run([python, '-m', 'pip', 'show', '-f', 'tunes-archive'], check=True,
                               stdout=subprocess.PIPE).stdout.decode()
        self.assertIn(f'Version: {tunes_archive.__version__}\n', about)
        self.assertIn('tunes_archive/py.typed', about)

    def test_the_builder(self):
        sys.path.insert(0, os.path.join(CLIENT, 'backend'))
        self.addCleanup(sys.path.pop, 0)
        builder = importlib.import_module('tunes_wheel')
        with zipfile.ZipFile(self.at(builder.build_wheel(self.folder))) as wheel:
            names = wheel.namelist()
            self.assertIsNone(wheel.testzip())
            record = wheel.read(f'{builder.title()}.dist-info/RECORD').decode().splitlines()
            self.assertEqual([line.partition(',')[0] for line in record], names)
            for path in glob.glob(os.path.join(CLIENT, 'tunes_archive', '*.py')):
                self.assertIn('tunes_archive/' + os.path.basename(path), names)
        before = read_file(self.at(builder.build_sdist(self.folder)))
        self.assertEqual(before, read_file(self.at(builder.build_sdist(self.folder))))
        with zipfile.ZipFile(self.at(builder.build_editable(self.folder))) as wheel:
            self.assertEqual(wheel.read('tunes_archive.pth').decode().strip(), CLIENT)


def read_file(path):
    with open(path, 'rb') as file:
        return file.read()


if __name__ == '__main__':
    unittest.main()
