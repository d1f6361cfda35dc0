"""The pages of the nights, opened in Chromium: all that the replay tells is on them, and a page with any of it taken out or changed fails."""
import re
import sys
import tempfile
import unittest
from pathlib import Path

import held
import said
from browser import dumped, pictured
from pictures import FEW, differing
from second import ROOT, records, replay
from told import Told, clock, ms
from tool import write_page

sys.path.append(str(ROOT))

from report.picture import take

TARGET = ROOT / 'target/report'


def paged(name, folder, *more):
    """The page of a night by tools/report, and what was told of it."""
    posts, log = ROOT / f'nights/{name}.posts', ROOT / f'nights/{name}.log'
    lines, _ = replay(posts, log)
    page = Path(folder) / f'{name}.html'
    write_page(posts.relative_to(ROOT), log.relative_to(ROOT), lines, page, *more)
    return page, Told(posts.read_text(), records(log.read_bytes())[0], lines)


class Pages(unittest.TestCase):
    maxDiff = None

    def test_march(self):
        TARGET.mkdir(parents=True, exist_ok=True)
        picture = TARGET / 'march.png'
        picture.unlink(missing_ok=True)
        page, told = paged('march', TARGET, '--screenshot', picture)
        self.assertEqual([(finding.post, finding.number) for finding in told.findings], [(1, 9), (1, 9), (1, 9), (1, 12), (1, 9)])
        self.assertEqual([len(sessions) for sessions in told.sessions.values()], [1, 1])
        self.assertEqual(held.faults(dumped(page), told), [])
        self.assertIn('>insulation under 100 Ohm per volt, or Invalid by a yes/no sensor, in …<', page.read_text(), 'no room for all of the name in its lane')
        width, height, rows = pictured(picture)
        self.assertEqual((width, height), (1120, 2400))
        self.assertGreater(rows, 300, 'hardly anything on the picture')
        self.hold_stored_picture(page, picture)

    def test_other_nights(self):
        """All findings, all refusals that a replay gives but 25, which no night is long enough for, and nothing of either."""
        findings, refusals = set(), set()
        with tempfile.TemporaryDirectory() as folder:
            for name in ('faults', 'damaged', 'clean', 'safety', 'round', 'older', 'sixteen', 'stop', 'vehicle'):
                page, told = paged(name, folder)
                self.assertEqual(held.faults(dumped(page), told), [], name)
                findings |= {finding.number for finding in told.findings}
                refusals |= {refusal.number for refusal in told.refusals}
        self.assertEqual(findings, set(said.FINDINGS))
        self.assertEqual(refusals, {1, 2, 3, 4, 5, 6, 15, 29})

    def hold_stored_picture(self, page, picture):
        """docs/report.png is this page; of a page that lacks a finding's row it is not."""
        stored = ROOT / 'docs/report.png'
        self.assertLess(stored.stat().st_size, 350000)
        self.assertLessEqual(differing(stored, picture), FEW, 'docs/report.png is not the page of the March night: make report PICTURE=docs/report.png')
        with tempfile.TemporaryDirectory() as folder:
            other, shot = Path(folder) / 'other.html', Path(folder) / 'other.png'
            other.write_text(page.read_text().replace(ROW.findall(page.read_text())[-1], ''))
            take(other, shot)
            self.assertGreater(differing(stored, shot), FEW, 'a page that lacks a row')


class Wrong(unittest.TestCase):
    def test_a_finding_taken_out_in_the_browser(self):
        with tempfile.TemporaryDirectory() as folder:
            page, told = paged('march', folder)
            text = page.read_text()
            mark = MARK.findall(text)[2]
            page.write_text(text.replace(mark, ''))
            self.assertEqual(len(held.faults(dumped(page), told)), 1)

    def test_parts_taken_out_or_changed(self):
        with tempfile.TemporaryDirectory() as folder:
            for name, least in (('march', 40), ('faults', 150), ('damaged', 100), ('round', 20), ('older', 40), ('sixteen', 40), ('stop', 40), ('vehicle', 20)):
                page, told = paged(name, folder)
                text = page.read_text()
                self.assertEqual(held.faults(text, told), [])
                wrong = list(wrongs(text))
                self.assertGreater(len(wrong), least)
                for what, other in wrong:
                    self.assertNotEqual(text, other, what)
                    self.assertTrue(held.faults(other, told), f'{name}: {what} goes unnoticed')


MARK = re.compile(r'<a class="finding".*?</a>', re.DOTALL)
CROSS = re.compile(r'<a class="refusal".*?</a>', re.DOTALL)
ROW = re.compile(r'<tr id="post-\d+-[^"]*">.*?</tr>')
REFUSED_ROW = re.compile(r'<tr><th scope="row">\d+</th><td>(?:\d+|none)</td>.*?</tr>')
BAR = re.compile(r'<rect class="session[^>]*></rect>')
LANE = re.compile(r'(?<=<text class="name" )[^>]*>[^<]+')
CURVE = re.compile(r'<path class="curve" d="[^"]*">')
TALLIES = re.compile(r'<caption>The tallies.*?</table>', re.DOTALL)
TALLY = re.compile(r'(?<=<td>)[\d,]+(?=</td>)')
TALLY_ROW = re.compile(r'<tr><th scope="row"><a.*?</tr>')
TIME = re.compile(r'\d+:\d\d:\d\d\.\d{3}')


def wrongs(text):
    """Each mark, row, bar and cross taken out; each time in them a millisecond later; each number and name another one; tallies one off; curves
    bent."""
    for kind in (MARK, CROSS, ROW, REFUSED_ROW, BAR):
        for found in kind.finditer(text):
            yield f'without {found[0]}', text[:found.start()] + text[found.end():]
    for kind in (MARK, ROW, REFUSED_ROW):
        for found in kind.finditer(text):
            part = found[0]
            for time in set(TIME.findall(part)):
                yield f'another time than {time} in {part}', put(text, found, part.replace(time, clock(ms(time) + 1), 1))
    for found in MARK.finditer(text):
        for old, new in ((r'F(\d)', r'F1\1'), ('record', 'rekord'), (r'(0[12]: ")', r'\1not '), (r'(href="#post-\d+-f)', r'\g<1>0'),
                         (r'(d="M|x=")(\d)', r'\g<1>1\2')):
            yield f'{new} for {old} in {found[0]}', put(text, found, re.sub(old, new, found[0], count=1))
    for found in ROW.finditer(text):
        if '<td>F' in found[0]:
            yield f'another number in {found[0]}', put(text, found, re.sub(r'<td>F(\d)', r'<td>F1\1', found[0]))
            yield f'another name in {found[0]}', put(text, found, re.sub(r'(<td>F\d+</td><td>)', r'\1not ', found[0]))
    for found in LANE.finditer(text):
        yield f'another name in {found[0]}', put(text, found, found[0].replace('>', '>not '))
        yield f'a name that ends early in {found[0]}', put(text, found, found[0][:-1])
    for found in BAR.finditer(text):
        for name in ('x', 'width'):
            yield f'a bar with another {name}', put(text, found, re.sub(rf' {name}="([\d.]+)"', lambda size: f' {name}="{float(size[1]) + 1:.1f}"', found[0]))
    for found in CURVE.finditer(text):
        corners = found[0].count('L')
        if corners > 3:
            yield 'a curve without a corner', put(text, found, re.sub(r'L[\d. ]+', '', found[0], count=corners // 2))
    tallies = TALLIES.search(text)
    for kind, instead in ((TALLY, lambda tally: str(int(tally[0].replace(',', '')) + 1)), (TALLY_ROW, lambda _: '')):
        for found in kind.finditer(tallies[0]):
            yield f'another tally than {found[0]}', put(text, tallies, put(tallies[0], found, instead(found)))
    yield 'no tallies', put(text, tallies, '<caption>The</caption></table>')
    yield 'something from outside', text.replace('<h1>', '<img src="x.png"><h1>')
    yield 'a heading less', text.replace('h1>', 'h2>')
    yield 'a table without its caption', re.sub('<caption>.*?</caption>', '<caption></caption>', text, count=1)


def put(text, found, instead):
    return text[:found.start()] + instead + text[found.end():]
