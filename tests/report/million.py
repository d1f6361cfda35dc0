"""A million records: the memory that tools/report takes and the page that it writes are measured, and every finding and every extreme is on the page."""
import re
import subprocess
import tempfile
import unittest
from pathlib import Path

import curved
import dom
import drawn
import tabled
from many import POSTS, SHORT, Many
from second import ROOT

RECORDS = 1_000_000
# kB; a log of seven million may take 500,000, and no more is kept of it than of this one
MEMORY = 110_000
PAGE = 5_000_000
# of a post that are told one by one, where sixteen share a page
SESSIONS = 150


def measured(*words):
    """The page, and the most memory in kB that was taken while it was made: the program waits behind the first bytes of it."""
    with subprocess.Popen([ROOT / 'tools/report', *words, '-'], stdout=subprocess.PIPE) as run:
        first = run.stdout.read(1)
        memory = re.search(r'VmHWM:\s*(\d+) kB', Path(f'/proc/{run.pid}/status').read_text())
        page = first + run.stdout.read()
    return page, int(memory[1]) if memory else 0, run.returncode


class Million(unittest.TestCase):
    maxDiff = 1000

    def test_a_million(self):
        night = Many(RECORDS)
        with tempfile.TemporaryDirectory() as name:
            folder = Path(name)
            (folder / 'posts').write_text(night.posts)
            with open(folder / 'log', 'wb') as log, open(folder / 'lines', 'wb') as lines:
                night.write(log, lines)
            page, memory, status = measured(folder / 'posts', folder / 'log', folder / 'lines')
        print(f'report: {RECORDS:,} records: {memory:,} kB, a page of {len(page):,} bytes')
        self.assertEqual(status, 0)
        self.assertLess(memory, MEMORY)
        self.assertLess(len(page), PAGE)
        self.page = dom.read(page.decode())
        self.hold_findings(night)
        self.hold_extremes(night)
        self.hold_lists(night)

    def hold_findings(self, night):
        """Each lies in one row and under one mark, and rows and marks count them all."""
        self.assertGreater(len(night.findings), 15000)
        for post in range(POSTS):
            for number in (2, 9):
                counts = [count for of, k, _, count in night.findings if (of, k) == (post, number)]
                rows = [tabled.cells(row) for row in tabled.table(self.page, f'Findings of post {post}')]
                ranges = [[int(place) for place in (row[1].split(' to ') * 2)[:2]] for row in rows if row[2] == f'F{number}']
                self.assertEqual([sum(first <= count <= last for first, last in ranges) for count in counts], [1] * len(counts))
                told = [re.match(r'([\d,]+) times: ', row[4]) for row in rows if row[2] == f'F{number}']
                self.assertEqual(sum(int(found[1].replace(',', '')) if found else 1 for found in told), len(counts))
                marks = [mark.one('title').text() for mark in self.page.by_id(f'row-post-{post}').all('a', 'finding')]
                marked = [drawn.SEVERAL.fullmatch(title) or drawn.ONE.fullmatch(title) for title in marks if f'\nF{number} ' in title]
                self.assertEqual(sum(int(found[3]) if found.re is drawn.SEVERAL else 1 for found in marked), len(counts))

    def hold_extremes(self, night):
        """The one reading of each post that is far above all others stands at its time, on the curves of voltage and current."""
        self.assertEqual(len(night.spikes), POSTS)
        for svg in self.page.all('svg', 'readings'):
            post = int(re.match(r'Curves of post (\d+): voltage from [\d.]+ to ([\d.]+) V', svg['aria-label'])[1])
            self.assertIn(f'to {6000 + post / 10:.1f} V', svg['aria-label'])
            place = drawn.axis(svg)
            for name, value in ('voltage', 6000 + post / 10), ('current', 300 + post / 10):
                panel = svg.one('g', name)
                want = place(night.spikes[post]), curved.height(panel, name)(value)
                corners = [corner for line in curved.lines(panel) for corner in line]
                self.assertTrue(any(abs(x - want[0]) <= 1 and abs(y - want[1]) <= 1 for x, y in corners), (post, name))

    def hold_lists(self, night):
        """Long ones are capped, with their count."""
        sessions = [tabled.cells(row) for row in tabled.table(self.page, f'Sessions of post {SHORT}')]
        self.assertEqual(len(sessions), SESSIONS + 1)
        self.assertTrue(sessions[-1][0].startswith(f'and {night.sessions[SHORT] - SESSIONS:,} more, up to session {night.sessions[SHORT]:,} '), sessions[-1])
        bars = list(self.page.by_id(f'row-post-{SHORT}').all('rect', 'session'))
        self.assertEqual(([bar.classes for bar in bars][-1], len(bars)), (['session', 'more'], SESSIONS + 1))
        caption = f'R3 identifier not in the table, standard and extended ones told apart: {night.refused:,}'
        refused = [tabled.cells(row) for row in tabled.table(self.page, caption)]
        self.assertEqual((len(refused), refused[-1][0]), (201, 'others'))
        self.assertTrue(refused[-1][-1].startswith(f'{night.refused - 200:,} records of other'), refused[-1])
        longest = max((row.text() for row in tabled.table(self.page, 'Findings of post 3')), key=len)
        self.assertRegex(longest, r', and [\d,]+ more up to \d+:\d\d:\d\d\.\d{3}$')
        self.assertLess(len(longest), 4000)
