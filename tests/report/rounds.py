"""Pages of nights in which the recorder's clock comes round: times as received, on an axis that goes on."""
import sys
import tempfile
import unittest
from pathlib import Path

import dom
import drawn
import held
import tabled
from second import ROOT, replay
from told import ROUND, Told
from tool import write_page
from words import record

sys.path.append(str(ROOT))

from report import clock

HOUR, DAY = 3600 * 1000, 24 * 3600 * 1000
POSTS = 'setup 0 4 5000 2000 500 500\nsetup 1 5 5000 2000 500 500\n'


def paged(steps):
    """The text of the page of a log with these records, and what was told of it."""
    with tempfile.TemporaryDirectory() as folder:
        posts, log, page = (Path(folder) / name for name in ('posts', 'log', 'page.html'))
        posts.write_text(POSTS)
        log.write_bytes(b''.join(map(record, steps)))
        lines, _ = replay(posts, log)
        write_page(posts, log, lines, page)
        return page.read_text(), Told(POSTS, steps, lines)


def labels(page):
    """Words and place of each label of the night's axis."""
    return [(label.text(), float(label['x'])) for label in page.one('svg', 'night').all('text', 'tick')]


def hundred_days():
    """Each hour a controller status, and half a day each day a session."""
    for hour in range(24 * 100):
        time = ROUND - 5 * HOUR + hour * HOUR
        yield f'frame 4 {time % ROUND} 6b000 x 01'
        if hour % 24 == 8:
            yield f'frame 4 {(time + 10) % ROUND} 6b001 x 0201'
        if hour % 24 == 20:
            yield f'frame 4 {(time + 10) % ROUND} 6b004 x 00'


class Rounds(unittest.TestCase):
    maxDiff = 2000

    def held(self, steps):
        text, told = paged(steps)
        self.assertEqual(held.faults(text, told, thinned=True), [])
        page = dom.read(text)
        places = [place for _, place in labels(page)]
        self.assertEqual(places, sorted(set(places)), 'an axis that keeps rising')
        return page, told

    def footer(self, page):
        return page.one('footer').text()

    def test_a_session_across_the_round(self):
        steps = ['frame 4 4294967000 6b001 x 0201', 'frame 4 4294967200 63000 x a00f83ff41000164', 'frame 4 4 63000 x b00f83ff41000164',
                 'tick 4 504', 'tick 4 505', 'frame 4 600 6b004 x 00']
        page, told = self.held(steps)
        self.assertEqual([(finding.number, finding.time) for finding in told.findings], [(1, 505), (1, 600)])
        (cells,) = (tabled.cells(row) for row in tabled.table(page, 'Sessions of post 0'))
        self.assertEqual(cells[1:4], ['1193:02:47.000', '0:00:00.600', '896 ms'])
        self.assertIn('1193:02:47.000 to 0:00:00.600, 896 ms.', next(page.one('main').all('p')).text())
        self.assertIn('The clock came round once in this night: behind 1193:02:47.295 it shows 0:00:00.000 again', self.footer(page))
        words = [word for word, _ in labels(page)]
        self.assertIn('0:00:00.000', words)
        self.assertEqual(sum(a > b for a, b in zip(words, words[1:])), 1, words)

    def test_no_round(self):
        page, _ = self.held(['tick 4 4294967000', 'tick 4 4294967295'])
        self.assertNotIn('came round', self.footer(page))

    def test_another_post_behind_the_round(self):
        """Its first time is as received to the watch, and on the page a neighbour of the other post's."""
        page, told = self.held(['tick 4 4294967290', 'tick 5 5', 'tick 4 6', 'tick 5 4294967295', 'tick 5 7'])
        self.assertEqual((told.times, len(told.refusals)), ([ROUND - 6, ROUND + 5, ROUND + 6, ROUND + 7], 1))
        page, told = self.held(['tick 4 5', 'tick 5 4294967290', 'tick 5 6'])
        self.assertEqual(told.times, [5, -6, 6])
        self.assertIn('1193:02:47.290 to 0:00:00.006, 12 ms', next(page.one('main').all('p')).text())

    def test_a_silence_of_weeks(self):
        """Half a round but 1 ms, twice: F1 and F2 of the last tick are two silences away."""
        half = ROUND // 2 - 1
        page, told = self.held(['frame 4 5 6b001 x 0201', 'frame 4 5 6b000 x 01', f'tick 4 {5 + half}', f'tick 4 {(5 + 2 * half) % ROUND}', 'tick 4 6'])
        self.assertEqual(told.times[-1], ROUND + 6)
        self.assertEqual(len(told.findings), 6)

    def test_a_hundred_days(self):
        page, told = self.held(list(hundred_days()))
        self.assertEqual((len(told.refusals), len(told.sessions[0])), (0, 100))
        self.assertIn('The clock came round 3 times in this night', self.footer(page))
        self.assertEqual([word for word, _ in labels(page)].count('0:00:00'), 3)
        self.assertLessEqual(len(labels(page)), 11)
        lasting = {tabled.cells(row)[3] for row in tabled.table(page, 'Sessions of post 0')}
        self.assertEqual(lasting, {'12 h 0 min'})

    def test_wrong_places_are_noticed(self):
        """A page that put what came behind the round before it would fail."""
        steps = ['frame 4 4294967000 6b000 x 01', 'tick 4 5']
        text, told = paged(steps)
        told.at[2] -= ROUND
        self.assertTrue(held.faults(text, told))


class Clock(unittest.TestCase):
    def test_ticks(self):
        """At most 11, in order, whole steps of what the clock shows, and never two labels closer than a step."""
        for begin in (0, 5, ROUND - 4750, ROUND - 1, -6, 3 * ROUND + 17):
            for span in (1, 9, 296, 7100, HOUR, DAY, 30 * DAY, 49 * DAY, 100 * DAY, 170 * DAY):
                ticks = clock.ticks(begin, begin + span, 11)
                times = [time for time, _ in ticks]
                self.assertLessEqual(len(ticks), 12, (begin, span))
                self.assertTrue(all(begin <= time <= begin + span for time in times))
                gaps = [b - a for a, b in zip(times, times[1:])]
                self.assertTrue(not gaps or max(gaps) < 2 * min(gaps) or min(gaps) == 1, (begin, span, gaps))
                for time, words in ticks:
                    self.assertEqual(words, clock.told(time)[:len(words)])

    def test_years(self):
        ticks = clock.ticks(5, 3650 * DAY, 11)
        self.assertEqual([words for _, words in ticks][:2], ['round 7', 'round 14'])
        self.assertTrue(5 < len(ticks) <= 11)

    def test_unrolled(self):
        self.assertEqual([clock.later(ROUND + 5, received) for received in (5, 6, 4, ROUND - 1)], [ROUND + 5, ROUND + 6, 2 * ROUND + 4, 2 * ROUND - 1])
        self.assertEqual([clock.near(ROUND + 5, received) for received in (5, 6, ROUND - 1)], [ROUND + 5, ROUND + 6, ROUND - 1])
        self.assertEqual([clock.near(0, received) for received in (ROUND // 2 - 1, ROUND // 2)], [ROUND // 2 - 1, -(ROUND // 2)])
