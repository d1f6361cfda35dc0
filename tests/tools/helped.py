"""Every program of tools/ tells how it is called: `--help` prints its usage on standard output, with status 0; a wrong call prints it on standard error,
with status 2. And `--version` prints the version that stands in VERSION."""
import os
import subprocess
import unittest

from standing import ROOT

TOOLS = sorted(path for path in (ROOT / 'tools').iterdir() if path.is_file() and os.access(path, os.X_OK))
# words that no program takes
WRONG = ['--none', 'a', 'b', 'c', 'd', 'e']


def called(tool, *words):
    done = subprocess.run([tool, *words], stdin=subprocess.DEVNULL, capture_output=True, text=True, timeout=100)
    return done.returncode, done.stdout, done.stderr


class Helped(unittest.TestCase):
    def test_help(self):
        self.assertEqual([tool.name for tool in TOOLS], ['build', 'candump2log', 'check', 'compare', 'desk', 'gate', 'lib', 'log2candump', 'night', 'nightlog', 'panel', 'replay', 'report'])
        for tool in TOOLS:
            status, usage, said = called(tool, '--help')
            self.assertEqual((status, said), (0, ''), tool)
            self.assertTrue(usage.startswith(f'usage: {tool.name}'), usage)
            self.assertIn('Exit status: 0 ', usage)

    def test_version(self):
        version = (ROOT / 'VERSION').read_text()
        self.assertRegex(version, r'\A\d+\.\d\d\n\Z')
        for tool in TOOLS:
            self.assertEqual(called(tool, '--version'), (0, f'{tool.name} (Rokemaipu) {version}', ''))

    def test_wrong_calls(self):
        """Those that ask the program itself are held in statuses.py, and in tests/panel."""
        for tool in TOOLS:
            if tool.name not in ('compare', 'desk', 'nightlog', 'panel', 'replay'):
                status, out, said = called(tool, *WRONG)
                self.assertEqual((status, out), (2, ''), tool)
                self.assertIn(f'usage: {tool.name}', said)
