"""The worked scripts of the repository, sent through the client's own lowest layers."""
import os
import unittest

from support import ROOT, InFolder, programs, read, sys

from tunes_archive import Refused, replies
from tunes_archive.runs import Run, ends_run

sys.path.append(os.path.join(ROOT, 'checks'))
import archives  # noqa: E402

DATA = os.path.join('crates', 'test_scripts', 'data')
LISTS = {'cases': (1, 2), 'cases-of-layout-1': (1,), 'cases-of-layout-2': (2,)}
QUESTIONS = (b'show', b'find', b'titles', b'sets', b'set-show', b'export', b'export-set')


def cases():
    """Each worked script: its name, its layout, the script, its replies, and how it ends."""
    for name, layouts in LISTS.items():
        for line in read(DATA, name).decode('ascii').splitlines():
            case, end = line.split()
            for layout in layouts:
                yield (case, layout, read(DATA, case + '.script'), read(DATA, case + '.replies'),
                       end == 'Ended')


def commands_of(script):
    """The commands of a script, each with its book, and whether it ends behind the last of them."""
    found, front, at = [], b'', 0
    while at < len(script):
        end = script.find(b'\n', at)
        end = len(script) if end < 0 else end + 1
        line, at = front + script[at:end], end
        words = line.replace(b'\t', b' ').split()
        book = b''
        if has_book(words):
            book = script[at:at + int(words[-1])]
            at += int(words[-1])
        if words:
            found.append((words, line + book))
        front = b'' if words else line
    return found, at == len(script) and script.endswith(b'\n') and not front


def has_book(words):
    """Whether a book follows these words."""
    numbers = words[1:]
    return (words[:1], len(numbers)) in (([b'import'], 1), ([b'replace'], 3)) and all(
        word.isdigit() and len(word) < 10 for word in numbers)


class Written:
    """Reads one reply, and writes it anew from what was read."""

    def __init__(self, words):
        self.words, self.bytes = words, b''

    def __call__(self, source):
        class Copied:
            """What is read is kept as it was."""

            @staticmethod
            def line():
                line = source.line()
                self.bytes += line + b'\n'
                return line

            @staticmethod
            def exactly(length):
                data = source.exactly(length)
                self.bytes += data
                return data
        return self.taker()(Copied())

    def taker(self):
        """The taker of the client for the command."""
        name, words = self.words[0], self.words
        numbers = [b'%d' % int(word) for word in words[1:] if word.isdigit()]
        if name == b'import':
            return replies.imported
        if name == b'replace':
            return replies.told_number(b'replace ' + (numbers or [b''])[0])
        if name == b'show':
            return replies.shown(int((numbers or [b'0'])[0]))
        if name in (b'find', b'titles'):
            return replies.rows(name)
        if name == b'sets':
            return replies.set_rows
        if name == b'set-show':
            return replies.set_list(words[1] if len(words) > 1 else b'')
        if name in (b'export', b'export-set'):
            return replies.book(b' '.join(words[:2]))
        if name == b'set-add':
            return replies.told_number(b' '.join(words[:2]))
        if name == b'upgrade':
            return replies.told_number(name)
        if name in (b'delete', b'renumber', b'set-cut'):
            return replies.told(b' '.join([name] + [
                b'%d' % int(word) if word.isdigit() and (at or name != b'set-cut') else word
                for at, word in enumerate(words[1:])]))
        return replies.told(b' '.join(words))


class WorkedScripts(InFolder):
    """Byte for byte, the replies are those that are written down."""

    def begin(self, layout):
        with open(self.path, 'wb') as file:
            archives.Archive({}, b'', version=layout).write(file)

    def test_whole_scripts(self):
        count = 0
        archive = self.open()
        for case, layout, script, told, ends in cases():
            with self.subTest(case=case, layout=layout):
                self.begin(layout)
                ended = archive.run_script(script)
                self.assertEqual((ended.replies, ended.errors), (told, b''))
                self.assertEqual(ended.status, 0 if ends else 1)
                count += 1
        self.assertGreater(count, 200)

    def test_questions(self):
        # what a script asks at its end is the same for the program that asks alone
        count = 0
        archive = self.open()
        for case, layout, script, told, ends in cases():
            (commands, _), asked = commands_of(script), []
            while commands and commands[-1][0][0] in QUESTIONS:
                asked.insert(0, commands.pop()[1])
            if not ends or not asked or not script.endswith(b'\n'):
                continue
            with self.subTest(case=case, layout=layout):
                self.begin(layout)
                archive.run_script(b''.join(command for _, command in commands))
                ended = archive.ask_script(b''.join(asked))
                self.assertEqual((ended.status, ended.errors), (0, b''))
                self.assertTrue(told.endswith(ended.replies))
                self.assertEqual(ended.replies, archive.run_script(b''.join(asked)).replies)
                count += 1
        self.assertGreater(count, 100)

    def test_command_by_command(self):
        # each reply is read by the client as the type that it is, and nothing of it is left
        count = 0
        for case, layout, script, told, ends in cases():
            # One that ends within a line or a book goes on as long as nobody closes it.
            commands, whole = commands_of(script)
            if not ends or not whole:
                continue
            with self.subTest(case=case, layout=layout):
                self.begin(layout)
                run = Run(programs().tunes, [b'run', os.fsencode(self.path)], None, 60)
                try:
                    came = b''
                    for words, command in commands:
                        taker = Written(words)
                        outcome, = run.exchange(command, [taker])
                        came += taker.bytes
                        count += 1
                        if isinstance(outcome, Refused) and ends_run(outcome):
                            # a bad line alone, behind which a run of the client ends
                            self.assertEqual(outcome.number, 30)
                    self.assertEqual(came, told)
                finally:
                    run.end()
        self.assertGreater(count, 500)


if __name__ == '__main__':
    unittest.main()
