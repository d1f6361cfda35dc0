"""What is thinned while a log is read: readings keep every extreme of every stretch of time, and marks make the same groups as if all had been kept."""
import random
import sys
import unittest

from second import ROOT

sys.path.append(str(ROOT))

from report.curves import BUCKET, Reading, Readings, runs, thinned
from report.groups import LISTED, MARK, Lane, grouped, room
from report.lines import Answer
from report.scale import Scale

HOUR = 3600000


def times(r, count):
    """In bursts, with silences between them."""
    time, found = r.randrange(HOUR), []
    for _ in range(count):
        time += r.choice([0, 1, 20, 100, 100, 100, 100, 1000]) if r.random() < 0.999 else r.randrange(HOUR // 4)
        found.append(time)
    return found


class Curves(unittest.TestCase):
    def test_readings(self):
        for seed in range(4):
            r = random.Random(seed)
            told = [Reading(time, r.randrange(60000), r.randrange(-30000, 30000), 2 * r.randrange(256)) for time in times(r, 60000)]
            readings = Readings()
            for reading in told:
                readings.add(reading)
            kept = readings.kept
            self.assertLess(len(kept), 20000)
            self.assertLessEqual(set(kept), set(told))
            scale = Scale(told[0].time, told[-1].time)
            self.assertLess(scale.x(scale.begin + readings.width) - scale.x(scale.begin), BUCKET)
            for value in (1, 2, 3):
                self.assertEqual(gaps(kept, value, scale), gaps(told, value, scale), 'other runs')
                for pick in (min, max):
                    stretches = {}
                    for reading in told:
                        place = reading.time // readings.width
                        stretches[place] = pick(stretches.get(place, reading[value]), reading[value])
                    held = {(reading.time // readings.width, reading[value]) for reading in kept}
                    self.assertLessEqual(set(stretches.items()), held, f'{pick.__name__} of a stretch')
                    drawn = [point[1] for run in runs([(each.time, each[value]) for each in kept], 500, scale) for point in thinned(run, scale)]
                    self.assertEqual(pick(drawn), pick(each[value] for each in told))


def gaps(readings, value, scale):
    """The first and the last time of each run."""
    return [(run[0][0], run[-1][0]) for run in runs([(each.time, each[value]) for each in readings], 500, scale)]


class Marks(unittest.TestCase):
    def test_findings(self):
        for seed, count in (1, 300), (2, 5000), (3, 60000):
            r = random.Random(seed)
            self.held([(time, time) for time in times(r, count)])

    def test_refusals(self):
        """They are drawn at the time of another record, and that may go back."""
        r = random.Random(4)
        self.held([(max(0, time + r.randrange(-5000, 5000)), r.randrange(2**32)) for time in times(r, 30000)])
        self.held([(None, 5), (None, 3), *((time, 9) for time in times(r, 600))])

    def held(self, told):
        lane = Lane()
        for count, (time, own) in enumerate(told, 1):
            lane.add(time, count, (own, 4, b'', b''), Answer(0))
        begin = min(time for time, _ in told if time is not None)
        marks = sorted((begin if time is None else time, count, own) for count, (time, own) in enumerate(told, 1))
        scale = Scale(begin, marks[-1][0])
        self.assertLess(scale.x(begin + (1 << lane.shift)) - scale.x(begin), MARK)
        want = []
        for mark in marks:
            if want and scale.x(mark[0]) - scale.x(want[-1][-1][0]) < room(len(want[-1])):
                want[-1].append(mark)
            else:
                want.append([mark])
        got = grouped(lane.in_order(begin), scale)
        self.assertEqual([(group.number, group.low, group.high, group.first, group.last) for group in got],
                         [(len(group), group[0][0], group[-1][0], min(mark[1] for mark in group), max(mark[1] for mark in group)) for group in want])
        if all(time == own for time, own in told):
            self.assertEqual([group.each(LISTED) for group in got], [[mark[1:] for mark in group[:LISTED]] for group in want])
