"""A log with a piece of a record, with a malformed one, that got shorter, that was replaced: told on the page and on standard error, and nothing more is fed."""
import os
import tempfile
import unittest
from pathlib import Path

import seen
from browser import Browser
from depot import Panel
from words import record

POSTS = 'setup 0 4 5000 1000 500 500\n'
TWO = record('tick 4 100') + record('frame 4 200 6b000 x 01')
CLOSED = record('frame 4 300 6b003 x a00f0000000048')


class Broken(unittest.TestCase):
    def setUp(self):
        room = tempfile.TemporaryDirectory()
        self.addCleanup(room.cleanup)
        self.log, self.posts = Path(room.name) / 'night <b>&"log', Path(room.name) / 'posts'
        self.posts.write_text(POSTS)
        self.browser = self.enterContext(Browser())

    def opened(self, log):
        self.log.write_bytes(log)
        panel = self.enterContext(Panel(self.posts, self.log))
        return panel, seen.opened(self.browser, panel)

    def append(self, more):
        with self.log.open('ab') as file:
            file.write(more)

    def told(self, tab, said):
        tab.until("!document.getElementById('trouble').hidden", 2)
        self.assertEqual(seen.line(tab, 'trouble'), f'Nothing more is read of the log: {said}')

    def stopped(self, panel, tab, said, records=2):
        """Told, and what is appended afterwards is not fed; what stands there stays."""
        self.told(tab, said)
        self.append(CLOSED + record('tick 4 900'))
        tab.run('new Promise((done) => setTimeout(done, 1500))')
        card = seen.cards(tab)[0]
        self.assertEqual((card['tally_head'], card['finding']), (f'Findings among {records} accepted', None))
        self.told(tab, said)
        self.assertEqual(panel.end(), (-2, f'panel: {self.log}: {said}; nothing more of it is read\n'))

    def test_a_piece_is_waited_for(self):
        for cut in range(1, len(CLOSED)):
            with self.subTest(cut=cut):
                panel, tab = self.opened(TWO + CLOSED[:cut])
                piece = f'read to byte {len(TWO)} of {len(TWO) + cut}, 2 records; {cut} bytes of a record that is not whole are waited for'
                tab.until(f"document.getElementById('log').textContent.endsWith({piece!r})", 3)
                self.assertIsNone(seen.line(tab, 'trouble'))
                self.assertIsNone(seen.cards(tab)[0]['finding'])
                self.append(CLOSED[cut:])
                seen.read_to(tab, 3, 2)
                self.assertEqual(seen.cards(tab)[0]['finding'][1][0], 'F3 contactors closed with no session open')
                self.assertEqual(panel.end(), (-2, ''))

    def test_a_malformed_record(self):
        for bad, said in [
            (b'\x64\x20\x00\x09', 'R17: a channel above 31 in a log record'),
            (b'\x80\x00\x04\x00\x09', 'R16: a number in the log that is not in its shortest form, or has more than five groups or 32 bits'),
            (b'\x64\x04\x00\x0a', 'R20: a length above 9 in a log record, or more than 8 payload bytes to be logged'),
            (b'\x64\x04\x01\x09', "R21: a tick's length, 9, with an identifier part other than 0"),
        ]:
            with self.subTest(said=said):
                panel, tab = self.opened(TWO + bad + CLOSED)
                self.stopped(panel, tab, f'malformed from byte {len(TWO)} on, {said}')

    def test_a_malformed_record_that_is_appended(self):
        panel, tab = self.opened(TWO)
        self.append(b'\x64\x20\x00\x09')
        self.stopped(panel, tab, f'malformed from byte {len(TWO)} on, R17: a channel above 31 in a log record')

    def test_shorter(self):
        for size in (0, 5, len(TWO) - 1):
            with self.subTest(size=size):
                panel, tab = self.opened(TWO)
                os.truncate(self.log, size)
                self.stopped(panel, tab, f'it got shorter: {len(TWO)} bytes of it were read, and it has {size}')

    def test_replaced(self):
        panel, tab = self.opened(TWO)
        other = self.log.with_name('other')
        other.write_bytes(TWO + TWO)
        other.rename(self.log)
        self.stopped(panel, tab, 'another file has its name now')

    def test_rewritten(self):
        panel, tab = self.opened(TWO)
        with self.log.open('r+b') as file:
            file.write(record('tick 4 101'))
        self.stopped(panel, tab, f'the bytes before byte {len(TWO)}, which were read, are others now')

    def test_gone(self):
        panel, tab = self.opened(TWO)
        self.log.unlink()
        self.told(tab, 'No such file or directory (os error 2)')

    def test_a_name_of_any_letters(self):
        """It is text on the page, and no markup."""
        _, tab = self.opened(TWO)
        self.assertIn('night <b>&"log: read to byte', seen.line(tab, 'log'))
        self.assertEqual(tab.run("document.querySelectorAll('#log *').length"), 0)
