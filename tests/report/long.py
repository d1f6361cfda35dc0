"""A night of eight hours on sixteen posts. No program judged it: what is found and refused is laid down here. Its page stays small, and has every finding."""
import random
import struct
import tempfile
import unittest
from pathlib import Path

import held
from browser import dumped
from told import Told
from tool import write_page
from words import record

HOUR, POSTS, CYCLE = 3600000, 16, 2000
LARGEST = 800000


def night():
    """POSTS, the records as desk lines, and the lines of their replay. A session each hour; low insulation now and then; on post 3 an hour without its
    controller; an unknown frame every 40 s."""
    r = random.Random(1)
    posts = ''.join(f'setup {post} {post + 10} 5000 2000 500 5000\n' for post in range(POSTS))
    heard, lines = [], []

    def add(post, step, answer):
        heard.append(step)
        lines.append(f'{len(heard)} {post} {answer}')

    for time in range(0, 8 * HOUR, CYCLE):
        for post in range(POSTS):
            at, channel, phase = time + 10 * post, post + 10, time // CYCLE % 1800
            late = post == 3 and 2.5 * HOUR <= time < 3.5 * HOUR
            if phase in (10, 1700):
                add(post, f'frame {channel} {at} {"6b001 x 0201" if phase == 10 else "6b004 x 00"}', f'A{2 * late}')
            elif 10 < phase < 1700:
                low = r.random() < 0.0005
                payload = struct.pack('<HhBBBB', 4000 + r.randrange(200), 1000 + r.randrange(300), 70, 60, 1, 10 if low else r.randrange(200, 256))
                add(post, f'frame {channel} {at + 1} 63000 x {payload.hex()}', f'A{256 * low + 2 * late}')
            if phase % 20 == 0:
                add(post, f'frame {channel} {at + 2} 6b106 x 000000000000', 'R3')
    return posts, heard, lines


class Long(unittest.TestCase):
    def test_eight_hours(self):
        posts, heard, lines = night()
        self.assertGreater(len(lines), 100000)
        with tempfile.TemporaryDirectory() as name:
            folder = Path(name)
            (folder / 'posts').write_text(posts)
            (folder / 'log').write_bytes(b''.join(map(record, heard)))
            page = folder / 'page.html'
            write_page(folder / 'posts', folder / 'log', lines, page)
            self.assertLess(page.stat().st_size, LARGEST)
            told = Told(posts, heard, lines)
            self.assertGreater(len(told.findings), 1500)
            self.assertEqual(held.faults(dumped(page), told, thinned=True), [])
