"""Whole nights, appended record by record while the page is open: each finding is on its post within two seconds and nowhere else, and at every stop all numbers of
the page are the desk's."""
import signal
import tempfile
import unittest
from pathlib import Path

import recorded
import seen
from browser import Browser
from depot import ROOT, Nightlog, Panel, desk, shown, steps
from found import POSTS, Found, answers

# 01's numbers are told within so many seconds
SOON = 2


class Grows(unittest.TestCase):
    maxDiff = None

    def setUp(self):
        room = tempfile.TemporaryDirectory()
        self.addCleanup(room.cleanup)
        self.log = Path(room.name) / 'night.log'
        self.log.touch()

    def compared(self, tab, set_ups, lines, found):
        """Every card with the desk's record of the same lines and what was found in them, and what stands below."""
        *_, refused = told = desk([*set_ups, *lines, *(f'record {post}' for post in range(POSTS)), 'refused'])[len(set_ups) + len(lines):]
        cards = seen.cards(tab)
        self.assertEqual([card['number'] for card in cards], [f'Post {post}' for post in range(POSTS)])
        for card, record, each in zip(cards, told, found):
            recorded.held(self, card, record, each)
        self.assertEqual(seen.line(tab, 'refused'), f'Refused frames and ticks: {refused.removeprefix("N ")}')
        size = self.log.stat().st_size
        self.assertIn(f'read to byte {size} of {size}, {len(lines)} records', seen.line(tab, 'log'))

    def appeared(self, tab, count, found):
        """The finding of that record is on its post in time, and every other post says what it said."""
        took = seen.read_to(tab, count, SOON)
        self.assertLess(took, SOON)
        for card, each in zip(seen.cards(tab), found):
            wanted = each.latest and each.box(each.latest[1])
            have = card['finding'] and [card['finding'][0].split(',')[0], card['finding'][1]]
            self.assertEqual(have, wanted and [wanted[0].split(',')[0], wanted[1]], f'record {count}, {card["number"]}')
        return took

    def appended(self, night, every):
        posts, log = ROOT / f'nights/{night}.posts', ROOT / f'nights/{night}.log'
        set_ups, lines, told = steps(posts), shown(log), answers(posts, log)
        found, slowest, count = [Found() for _ in range(POSTS)], 0, 0
        with Nightlog(self.log) as nightlog, Panel(posts, self.log) as panel, Browser() as browser:
            tab = seen.opened(browser, panel)
            self.compared(tab, set_ups, [], found)
            for k, (line, answer) in enumerate(zip(lines, told, strict=True), 1):
                nightlog.append(line)
                if answer and answer[1]:
                    count += 1
                    found[answer[0]].hear(answer[1], int(line.split(' ')[2]))
                    slowest = max(slowest, self.appeared(tab, k, found))
                if k % every == 0:
                    # killed with the beginning of a record behind it, which is cut off at the start
                    nightlog.end(signal.SIGKILL)
                    with self.log.open('ab') as file:
                        file.write(b'\x80\x80')
                    tab.until("document.getElementById('log').textContent.includes('2 bytes of a record')")
                    nightlog.process = nightlog.started()
                    tab.until("!document.getElementById('log').textContent.includes('of a record')")
                    seen.read_to(tab, k)
                    self.compared(tab, set_ups, lines[:k], found)
            seen.read_to(tab, len(lines))
            self.compared(tab, set_ups, lines, found)
            self.assertEqual(panel.end(), (-2, ''))
        self.assertEqual(self.log.read_bytes(), log.read_bytes())
        self.assertEqual(count, sum(1 for answer in told if answer and answer[1]))
        self.assertGreater(count, 0)
        print(f'panel: {night}: {count} findings on their posts, the slowest after {slowest:.2f} s')

    def test_march(self):
        self.appended('march', 150)

    def test_faults(self):
        self.appended('faults', 300)

    def test_safety(self):
        self.appended('safety', 200)

    def test_round(self):
        self.appended('round', 250)

    def test_sixteen(self):
        self.appended('sixteen', 400)

    def test_stop(self):
        self.appended('stop', 300)
