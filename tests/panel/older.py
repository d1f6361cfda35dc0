"""A post with an older controller beside a newer one: each one's messages by the names of its own document, function, session, and all numbers as the desk has
them."""
import struct
import tempfile
import unittest
from pathlib import Path

import recorded
import seen
from browser import Browser
from depot import Panel, desk
from found import found
from words import record

SET_UPS = ['setup 0 4 5000 2000 500 500 0 1', 'setup 1 5 5000 2000 500 500']


def status(channel, time, identifier, amps, insulation):
    return f'frame {channel} {time} {identifier} x {struct.pack("<HhBBBB", 4000, amps, 65, 60, 1, insulation).hex()}'


NIGHT = [
    'frame 4 100 68009 x 07',
    'frame 5 100 6b000 x 01',
    f'frame 4 110 68001 x {struct.pack("<BBHHBB", 2, 1, 5000, 2000, 40, 55).hex()}',
    status(4, 120, '60010', 0, 200),
    f'frame 4 130 68002 x {struct.pack("<H", 5000).hex()}',
    f'frame 4 140 68003 x {struct.pack("<HH", 4000, 20).hex()}',
    status(4, 150, '60010', 10, 19),
    f'frame 4 160 68005 x {struct.pack("<HhB", 4000, 1000, 56).hex()}',
    'frame 4 170 6800e x 0600010000000000',
    'frame 4 175 8 s 7ffc00fd7ffcfff8',
    'frame 4 180 6b000 x 01',
    'frame 5 190 68009 x 01',
    f'frame 5 191 6b100 x {struct.pack("<HBBBB", 331, 37, 10, 80, 100).hex()}',
    'frame 5 192 63201 x f7ffffffffffffff',
    f'frame 5 193 6b104 x {struct.pack("<hhh", -1, 30, 46).hex()}',
    'frame 5 194 6b204 x 0602000000000000',
    'frame 4 195 6b204 x 0602000000000000',
    'frame 4 200 68009 x 07',
]


class Older(unittest.TestCase):
    maxDiff = None

    def shown(self, lines):
        with tempfile.TemporaryDirectory() as room:
            posts, log = Path(room) / 'posts', Path(room) / 'log'
            posts.write_text('\n'.join(SET_UPS))
            log.write_bytes(b''.join(map(record, lines)))
            with Panel(posts, log) as panel, Browser() as browser:
                tab = seen.opened(browser, panel)
                return seen.cards(tab), seen.line(tab, 'refused')

    def test_each_step(self):
        """Behind each record every number is the desk's, and the names are its document's."""
        for count in range(1, len(NIGHT) + 1):
            lines = NIGHT[:count]
            *answers, first, second, refused = desk([*SET_UPS, *lines, 'record 0', 'record 1', 'refused'])[len(SET_UPS):]
            told = [(int(line.split(' ')[1]) - 4, int(answer[1:])) if answer.startswith('A') else None for line, answer in zip(lines, answers)]
            cards, said = self.shown(lines)
            for card, line, each in zip(cards, (first, second), found(told, lines)):
                recorded.held(self, card, line, each)
            self.assertEqual(said, f'Refused frames and ticks: {refused.removeprefix("N ")}')
        # each controller's frames on the other's post are refused with 29
        self.assertEqual([place for place, answer in enumerate(answers) if answer == 'R29'], [10, 11, 16])
        heads = [head.split(',')[0] for head, _ in cards[1]['messages']]
        self.assertTrue({'ADM_CS_SECC_Outputs', 'EV_Information_Energy', 'MCS_Extra_Information'} <= set(heads), heads)
        self.assertIn(['State of charge', '37 %', 'of 331 kWh'], [row[:3] for row in cards[1]['readings']])
        heads = [head.split(',')[0] for head, _ in cards[0]['messages']]
        self.assertTrue({'Insulation_Test', 'Precharge', 'Charging_Loop', 'CCS_Extra_Information'} <= set(heads), heads)
        self.assertIn(['Function', 'Charging_Loop'], [row[:2] for row in cards[0]['readings']])
        self.assertIn(['Probe 1', 'not used'], [row[:2] for row in cards[0]['safety']])
        self.assertIn('F9 insulation', cards[0]['finding'][1][0])
        self.assertIsNone(cards[1]['finding'])
