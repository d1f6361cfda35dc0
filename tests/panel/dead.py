"""The night manager's question: post 3 is dead and says so while post 5 has the car."""
import struct
import tempfile
import unittest
from pathlib import Path

import recorded
import seen
from browser import Browser
from depot import Nightlog, Panel, desk
from found import found

POSTS = [f'setup {post} {10 + post} 5000 2000 500 500' for post in (0, 3, 5)]


def status(channel, time, volt, amps, insulation=200):
    return f'frame {channel} {time} 63000 x {struct.pack("<HhBBBB", volt, amps, 65, 60, 1, insulation).hex()}'


def night(ticked):
    """Both controllers speak; post 3 falls silent at 1,000, and on post 5 a car charges to 4,000. Post 0 is never heard."""
    lines = []
    for time in range(500, 4000, 100):
        lines.append(f'frame 15 {time} 6b000 x 07')
        if time <= 1000:
            lines.append(f'frame 13 {time + 1} 6b000 x 01')
        elif ticked:
            lines.append(f'tick 13 {time + 1}')
        if time >= 1500:
            lines += [f'frame 15 {time + 10} 6b001 x 0201', status(15, time + 20, 4000, 1000)]
    return sorted(lines, key=lambda line: int(line.split(' ')[2]))


def judged(lines):
    """Each line's post and the desk's answer, which accepts them all."""
    return [(int(line.split(' ')[1]) - 10, answer) for line, answer in zip(lines, desk([*POSTS, *lines])[len(POSTS):])]


class Dead(unittest.TestCase):
    maxDiff = None

    def setUp(self):
        room = tempfile.TemporaryDirectory()
        self.addCleanup(room.cleanup)
        self.log, self.posts = Path(room.name) / 'night.log', Path(room.name) / 'posts'
        self.log.touch()
        self.posts.write_text('\n'.join(POSTS))

    def test_post_3_is_dead_and_post_5_has_the_car(self):
        for ticked in (False, True):
            with self.subTest(ticked=ticked):
                self.log.write_bytes(b'')
                self.watched(night(ticked), ticked)

    def watched(self, lines, ticked):
        with Nightlog(self.log) as nightlog, Panel(self.posts, self.log) as panel, Browser() as browser:
            tab = seen.opened(browser, panel)
            nightlog.append(*lines)
            seen.read_to(tab, len(lines))
            cards = seen.cards(tab)
            dead, live = cards[3], cards[5]
            self.assertEqual((dead['state'], dead['session_state'], dead['channel']), ('silent', 'closed', 'Channel 13'))
            # 1,001 to 3,920, the log's latest, and what the wall clock has gone on since
            self.assertRegex(dead['heard'], r'\ASILENT: last heard (2\.9[2-9]\d|3\.\d{3}) s ago\Z')
            self.assertIn('latest frame 0:00:01.001', dead['when'])
            self.assertEqual(dead['session'], 'No session open')
            self.assertEqual((live['session_state'], live['channel']), ('open', 'Channel 15'))
            self.assertIn('CCS_ISO_15118_2013_v2, CCS_DC_Extended', live['session'])
            self.assertEqual(live['readings'][:2], [['Voltage', '400.0 V', '', '0 ms old', False], ['Current', '100.0 A', '', '0 ms old', False]])
            # ticks tell of the silent controller, and of nothing on post 5
            self.assertEqual(dead['finding'] and dead['finding'][1], ['F2 controller status older than 200 ms'] if ticked else None)
            self.assertIsNone(live['finding'])
            self.assertEqual((cards[0]['state'], cards[0]['heard'], cards[1]['heard']), ('never', 'Never heard', 'Not set up'))
            told = [(post, int(answer[1:])) for post, answer in judged(lines)]
            for post, record in zip((0, 3, 5), desk([*POSTS, *lines, 'record 0', 'record 3', 'record 5'])[-3:]):
                recorded.held(self, cards[post], record, found(told, lines)[post])
            # post 5 was heard within W when its latest frame came
            nightlog.append('frame 15 4000 6b000 x 07')
            seen.read_to(tab, len(lines) + 1)
            self.until_heard(tab, nightlog, 4000)

    def until_heard(self, tab, nightlog, time):
        """Frames at their own pace: post 5 is live, post 3 stays dead."""
        for step in range(1, 20):
            nightlog.append(f'frame 15 {time + 100 * step} 6b000 x 07')
            tab.until("document.getElementById('log').textContent.includes('records')")
            cards = seen.cards(tab)
            if cards[5]['state'] == 'heard':
                self.assertRegex(cards[5]['heard'], r'\ALast heard \d+ ms ago\Z')
                self.assertEqual(cards[3]['state'], 'silent')
                return
            tab.run('new Promise((done) => setTimeout(done, 90))')
        self.fail('post 5 is never shown as heard')

    def test_ticks_alone(self):
        """A tick is no frame that was heard."""
        with Nightlog(self.log) as nightlog, Panel(self.posts, self.log) as panel, Browser() as browser:
            tab = seen.opened(browser, panel)
            nightlog.append('tick 13 100', 'tick 13 200')
            seen.read_to(tab, 2)
            card = seen.cards(tab)[3]
            self.assertEqual((card['state'], card['heard'], card['when']), ('ticks', 'SILENT: never heard, ticks alone', 'As of 0:00:00.200; no frame'))
