"""Several clients on one file: those that ask, and the one that changes."""
import subprocess
import threading
import time
import unittest

from support import KESH, PATIENCE, InFolder, programs

from tunes_archive import ArchiveFault, InUse, Row, SetRow

KESH_ROW = Row(1, b'Kesh Jig, The')


class Sharing(InFolder):
    """Who has the file, and who waits for it."""

    def setUp(self):
        super().setUp()
        self.make(KESH).close()

    def test_several_ask_at_once(self):
        clients = [self.open(hold=600, wait=0) for _ in range(5)]
        for client in clients:
            self.assertEqual(client.find_title('kesh'), [KESH_ROW])
        self.assertLeft(5)
        for client in clients:
            with client.reading():
                self.assertEqual(client.check().tunes, 2)
        changer = self.open(wait=0)
        clients[0].sets()
        with self.assertRaises(InUse):
            changer.set_new('friday')
        for client in clients:
            client.close()
        self.assertEqual(self.left(), [])
        changer.set_new('friday')

    def test_one_changes_alone(self):
        changer, other = self.open(wait=0), self.open(wait=0)
        with changer.changing():
            changer.set_new('friday')
            self.assertEqual(changer.sets(), [SetRow('friday', 0)])
            for call in (other.sets, lambda: other.set_new('monday'), other.check,
                         lambda: other.ask_script(b'sets\n'), lambda: other.run_script(b'sets\n')):
                with self.assertRaises(InUse) as raised:
                    call()
                self.assertIn('wait', raised.exception.what_to_do)
        # the block has let go of it
        self.assertEqual(other.sets(), [SetRow('friday', 0)])
        other.let_go()
        other.set_new('monday')

    def test_who_waits_comes_in_turn(self):
        changer, other = self.open(), self.open(wait=PATIENCE)
        found = []
        waiting = threading.Thread(target=lambda: found.append(other.sets()))
        with changer.changing():
            waiting.start()
            time.sleep(0.3)
            self.assertEqual(found, [])
            changer.set_new('friday')
        waiting.join(PATIENCE)
        self.assertEqual(found, [[SetRow('friday', 0)]])

    def test_a_lock_that_is_not_let_go_in_time(self):
        changer, other = self.open(), self.open(wait=0.4)
        with changer.changing():
            for call in (other.sets, lambda: other.set_new('a'), other.check):
                begun = time.monotonic()
                self.assertRaises(InUse, call)
                self.assertTrue(0.4 <= time.monotonic() - begun < PATIENCE)
        # nothing is left of it: the next call is answered
        self.assertEqual(other.sets(), [])

    def test_another_program_has_the_lock(self):
        other = self.open(wait=0)
        with subprocess.Popen(['flock', self.path, 'sh', '-c', 'echo; read -r x'],
                              stdin=subprocess.PIPE, stdout=subprocess.PIPE) as flock:
            flock.stdout.readline()
            self.assertRaises(InUse, other.sets)
            self.assertRaises(InUse, lambda: other.set_new('a'))
            flock.communicate(b'\n')
        self.assertEqual(other.sets(), [])

    def test_it_is_let_go_of_in_time(self):
        client = self.open(hold=0.3)
        client.sets()
        self.assertLeft(1)
        self.assertNoneLeft()
        # it is used in the meantime, and then not
        begun = time.monotonic()
        while time.monotonic() - begun < 1:
            client.sets()
            time.sleep(0.01)
        self.assertLeft(1)
        client.set_new('friday')
        self.assertNoneLeft()
        # questions behind a change do not keep others out
        other = self.open(wait=0, hold=0)
        client.set_new('monday')
        begun = time.monotonic()
        while time.monotonic() - begun < PATIENCE:
            client.sets()
            try:
                other.sets()
                break
            except InUse:
                time.sleep(0.01)
        else:
            self.fail('it is never let go of')

    def test_hold_0(self):
        client = self.open(hold=0)
        for call in (client.sets, lambda: client.set_new('friday'), client.check,
                     lambda: client.find_notes('GAB'), client.titles):
            call()
            self.assertEqual(self.left(), [])
        for block in (client.reading, client.changing):
            with block():
                client.sets()
                self.assertLeft(1)
                client.sets()
                self.assertLeft(1)
            self.assertEqual(self.left(), [])

    def test_blocks(self):
        client = self.open(hold=600)
        with client.reading():
            client.sets()
            with client.reading():
                client.sets()
            for call in (lambda: client.set_new('a'), client.let_go):
                self.assertRaises(RuntimeError, call)
            with self.assertRaises(RuntimeError), client.changing():
                pass
            self.assertEqual(client.sets(), [])
        self.assertEqual(self.left(), [])
        with client.changing():
            with client.reading():
                client.set_new('a')
            with client.changing():
                client.set_new('b')
        self.assertEqual(self.left(), [])
        with self.assertRaises(ZeroDivisionError), client.changing():
            client.set_new('c')
            raise ZeroDivisionError
        self.assertEqual(self.left(), [])
        self.assertEqual([row.name for row in client.sets()], ['a', 'b', 'c'])

    def test_a_block_reads_one_state(self):
        client, other = self.open(), self.open(wait=0)
        with client.reading():
            self.assertEqual(client.sets(), [])
            self.assertRaises(InUse, lambda: other.set_new('a'))
            self.assertEqual(other.sets(), [])
            other.let_go()
            self.assertEqual(client.sets(), [])

    def test_a_change_behind_a_question_of_its_own(self):
        client = self.open(hold=600, wait=0)
        client.sets()
        client.set_new('friday')
        self.assertEqual(client.sets(), [SetRow('friday', 0)])
        with client.reading():
            self.assertEqual(self.open(wait=0).sets(), [SetRow('friday', 0)])

    def test_threads(self):
        client = self.open(hold=0.01, wait=PATIENCE)
        client.set_new('friday')
        faults = []

        def ask(turn):
            try:
                for count in range(15):
                    if turn % 3 == 0:
                        place = client.set_add('friday', 1 + count % 2)
                        assert place > 0
                    elif turn % 3 == 1:
                        assert client.find_title('kesh') == [KESH_ROW]
                        time.sleep(0.004 * (count % 5))
                    else:
                        with client.changing():
                            length = client.sets()[0].length
                            assert client.set_add('friday', 1) == length + 1
            except BaseException as error:  # pylint: disable=broad-except
                faults.append(error)

        threads = [threading.Thread(target=ask, args=(turn,)) for turn in range(6)]
        for thread in threads:
            thread.start()
        for thread in threads:
            thread.join(PATIENCE)
        self.assertEqual(faults, [])
        self.assertEqual(client.sets(), [SetRow('friday', 60)])

    def test_a_killed_change(self):
        client = self.open(hold=600)
        client.set_new('a')
        self.kill_all()
        client.set_new('b')
        with client.changing():
            client.set_new('c')
            self.kill_all()
            self.assertRaises(ArchiveFault, lambda: client.set_new('d'))
        self.assertEqual([row.name for row in client.sets()], ['a', 'b', 'c'])


class Programs(InFolder):
    """The programs themselves are as this client takes them."""

    def test_versions(self):
        found = programs()
        for program in (found.tunes, found.tunes_desk):
            told = subprocess.run([program, '--version'], stdout=subprocess.PIPE, check=True)
            self.assertRegex(told.stdout, rb'^tunes[a-z-]* 0\.1\.\d+\n$')


if __name__ == '__main__':
    unittest.main()
