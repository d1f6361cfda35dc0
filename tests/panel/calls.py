"""How the panel is called, and what it says where it cannot begin."""
import os
import subprocess
import tempfile
import unittest
from pathlib import Path

from depot import PANEL, ROOT, Panel, desk
from documents import FINDINGS

USAGE = (ROOT / 'panel/src/panel.txt').read_text()


def called(*words):
    done = subprocess.run([*PANEL, *words], capture_output=True, text=True, timeout=10)
    return done.returncode, done.stdout, done.stderr


class Calls(unittest.TestCase):
    def setUp(self):
        folder = tempfile.TemporaryDirectory()
        self.addCleanup(folder.cleanup)
        self.addCleanup(os.chdir, os.getcwd())
        os.chdir(folder.name)
        Path('posts').write_text('# the depot\n\nsetup 0 4 5000 2000 500 500\n')
        Path('log').touch()

    def test_help(self):
        self.assertEqual(called('--help'), (0, USAGE, ''))
        version = f'panel (Rokemaipu) {(ROOT / "VERSION").read_text()}'
        self.assertEqual(called('--version'), (0, version, ''))
        for word, said in (('--help', USAGE), ('--version', version)):
            self.assertEqual(subprocess.run([ROOT / 'tools/panel', word], capture_output=True, text=True).stdout, said)

    def test_wrong_calls(self):
        for words, said in [
            ((), 'a POSTS and a LOG are needed, and no more'),
            (('posts',), 'a POSTS and a LOG are needed, and no more'),
            (('posts', 'log', 'more'), 'a POSTS and a LOG are needed, and no more'),
            (('posts', 'log', '--port'), '--port lacks its value'),
            (('posts', 'log', '--port', 'x'), '--port x: no port from 0 to 65,535'),
            (('posts', 'log', '--host', 'x'), 'there is no option --host'),
        ]:
            self.assertEqual(called(*words), (2, '', f'panel: {said}\n{USAGE}'), words)

    def test_posts(self):
        for text, status, said in [
            ('setup 0 4 5000 2000 500\n', 1, 'posts: line 1: no setup POST CHANNEL VOLT CHG DIS W [SENSOR [IFACE]]'),
            ('#\ntick 4 100\n', 1, 'posts: line 2: no setup POST CHANNEL VOLT CHG DIS W [SENSOR [IFACE]]'),
            ('setup 16 4 5000 2000 500 500\n', 1, 'posts: line 1: the set-up is refused, R9: post number above 15'),
            ('setup 0 4 5000 2000 500 500\nsetup 1 4 5000 2000 500 500\n', 1, 'posts: line 2: the set-up is refused, R11: channel held by another post'),
            ('setup 0 4 5000 2000 500 99\n', 1, 'posts: line 1: the set-up is refused, R12: a post limit outside its range'),
            ('#' * 65536, 2, 'posts: longer than 65,535 bytes'),
        ]:
            Path('posts').write_text(text)
            self.assertEqual(called('posts', 'log'), (status, '', f'panel: {said}\n'), text[:40])

    def test_files(self):
        os.mkdir('folder')
        os.mkfifo('pipe')
        for words, said in [
            (('none', 'log'), 'none: No such file or directory (os error 2)'),
            (('folder', 'log'), 'folder: Is a directory (os error 21)'),
            (('posts', 'none'), 'none: No such file or directory (os error 2)'),
            (('posts', 'folder'), 'folder: it is no file'),
            (('posts', 'pipe'), 'pipe: it is no file'),
        ]:
            self.assertEqual(called(*words), (2, '', f'panel: {said}\n'), words)

    def test_a_port_that_is_taken(self):
        with Panel('posts', 'log') as panel:
            self.assertEqual(called('posts', 'log', '--port', str(panel.port)), (2, '', f'panel: port {panel.port}: Address already in use (os error 98)\n'))

    def test_no_post(self):
        Path('posts').write_text('# none yet\n')
        with Panel('posts', 'log') as panel:
            self.assertEqual(panel.got('/')[0], 200)

    def test_the_desks_words(self):
        """Of each finding, as `explain` has them."""
        told = desk([f'explain {1 << k}' for k in range(len(FINDINGS))])
        self.assertEqual(told, [f'E F{k} {words}' for k, words in enumerate(FINDINGS, 1)])
