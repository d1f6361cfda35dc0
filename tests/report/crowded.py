"""A night with every finding on every post, so far apart that each would have a mark of its own: more of them become one, until the page is small enough."""
import tempfile
import unittest
from pathlib import Path

import dom
import tabled
from told import Told
from tool import write_page
from words import record

PAGE, MARKS, HOUR, POSTS = 5_000_000, 2500, 3600000, 16


class Crowded(unittest.TestCase):
    def test_every_finding_on_every_post(self):
        posts = ''.join(f'setup {post} {post} 5000 2000 500 5000\n' for post in range(POSTS))
        heard, lines = [], []

        def add(step, post, answer):
            heard.append(step)
            lines.append(f'{len(heard)} {post} {answer}')

        for time in range(0, 8 * HOUR, 8 * HOUR // 107):
            for post in range(POSTS):
                add(f'frame {post} {time} 6b003 x a00f0000000048', post, 'A2047')
                for at in range(time + 1, time + 4):
                    add(f'frame {post} {at} 6b001 x 0701', post, 'A0')
                    add(f'frame {post} {at} 63000 x a00f83ff41000164', post, 'A0')
                    add(f'frame {post} {at} 6b004 x 01', post, 'A0')
            for again in range(2):
                kind = 1000000 + 2 * time + again
                add(f'frame 31 {time} {kind:x} x 0001020304050607', '-', 'R1')
                for refusal in ('R2', 'R3', 'R4', 'R5 63', 'R6', 'R15'):
                    for more in range(30):
                        add(f'frame 0 {time} {kind:x} x 0001020304050607', 0, refusal)
        with tempfile.TemporaryDirectory() as name:
            folder = Path(name)
            (folder / 'posts').write_text(posts)
            (folder / 'log').write_bytes(b''.join(map(record, heard)))
            page = folder / 'page.html'
            write_page(folder / 'posts', folder / 'log', lines, page)
            print(f'report: every finding on every post, a page of {page.stat().st_size:,} bytes')
            self.assertLess(page.stat().st_size, PAGE)
            read = dom.read(page.read_text())
        told = Told(posts, heard, lines)
        self.assertGreater(len(told.findings), 18000)
        rows = {post: [tabled.cells(row) for row in tabled.table(read, f'Findings of post {post}')] for post in range(POSTS)}
        self.assertLess(MARKS / 2, sum(map(len, rows.values())))
        self.assertLessEqual(len(list(read.one('svg', 'night').all('a', 'finding'))), MARKS)
        ranges = {}
        for post, of_post in rows.items():
            for _, which, number, *_ in of_post:
                ranges.setdefault((post, int(number[1:])), []).append([int(place) for place in (which.split(' to ') * 2)[:2]])
        for finding in told.findings:
            self.assertEqual(sum(first <= finding.count <= last for first, last in ranges[finding.post, finding.number]), 1, finding)
