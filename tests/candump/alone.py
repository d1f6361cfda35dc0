"""The programs of candump/ stand by themselves: nothing of the second program, which the library is held to, is in them."""
import json
import re
import subprocess
import unittest

from programs import ROOT

FOLDER = ROOT / 'candump'


class Alone(unittest.TestCase):
    def test_no_other_crate(self):
        told = subprocess.run(['cargo', 'metadata', '--offline', '--format-version', '1', '--manifest-path', FOLDER / 'Cargo.toml'],
                              capture_output=True, check=True, timeout=60).stdout
        self.assertEqual([package['name'] for package in json.loads(told)['packages']], ['candump'])

    def test_no_other_file(self):
        """Nor by a path out of the folder."""
        sources = [*(FOLDER / 'src').rglob('*.rs'), FOLDER / 'run', FOLDER / 'Cargo.toml', FOLDER / 'Cargo.lock']
        self.assertGreater(len(sources), 10)
        for source in sources:
            self.assertIsNone(re.search(r'\bsecond(::|/|"| =)|\.\./', source.read_text()), source)
