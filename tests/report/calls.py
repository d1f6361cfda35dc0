"""How tools/report is called: pipes and files, nights with little in them, and what does not belong together."""
import os
import random
import shutil
import struct
import subprocess
import sys
import tempfile
import unittest
from pathlib import Path

import dom
import tabled
from second import ROOT, answers
from tool import called
from words import record

sys.path.append(str(ROOT))

from report import posts

POSTS = 'setup 0 4 5000 2000 500 500\n# the other side\n\nsetup 1 5 5000 2000 500 500 1\n'
LOG = b''.join(map(record, ['tick 4 100', 'frame 5 200 6b000 x 01', 'tick 9 250', 'frame 4 300 6b000 x 0e']))
LINES = '1 0 A0\n2 1 A0\n3 - R1\n4 0 R5 0\n'


def status(time, insulation):
    return f'frame 5 {time} 63000 x {struct.pack("<HhBBBB", 4000, 0, 60, 60, 1, insulation).hex()}'


class Calls(unittest.TestCase):
    maxDiff = None

    def setUp(self):
        folder = tempfile.TemporaryDirectory()
        self.addCleanup(folder.cleanup)
        self.addCleanup(os.chdir, os.getcwd())
        os.chdir(folder.name)
        self.files()

    def files(self, posts=POSTS, log=LOG, lines=LINES):
        Path('posts').write_text(posts)
        Path('night.log').write_bytes(log)
        Path('lines').write_text(lines)

    def page(self, **files):
        """The page's text, of these files."""
        self.files(**files)
        self.assertEqual(called('posts', 'night.log', 'lines', 'out.html'), (0, '', ''))
        return dom.read(Path('out.html').read_text()).one('main').text()

    def refused(self, said, *words, told=''):
        """What is told, and no page."""
        self.assertEqual(called(*(words or ('posts', 'night.log', 'lines', 'out.html')), told=told), (2, '', f'report: {said}\n'))
        self.assertFalse(Path('out.html').exists())

    def test_files_and_pipes(self):
        self.assertEqual(called('posts', 'night.log', 'lines', 'out.html'), (0, '', ''))
        page = Path('out.html').read_text()
        self.assertEqual(called('posts', 'night.log', '-', '-', told=LINES), (0, page, ''))
        os.symlink(ROOT / 'tools/report', 'link')
        self.assertEqual(subprocess.run(['./link', 'posts', 'night.log', 'lines', '-'], capture_output=True, text=True).stdout, page)

    def test_names(self):
        self.assertIn('<h1>Night night</h1>', called('posts', 'night.log', 'lines', '-')[1])
        self.assertIn('<h1>Night &lt;b&gt; &amp; "c"</h1>', called('--name', '<b> & "c"', 'posts', 'night.log', 'lines', '-')[1])

    def test_help(self):
        code, usage, said = called('--help')
        self.assertEqual((code, said), (0, ''))
        self.assertTrue(usage.startswith('usage: report [--name NAME] [--screenshot PNG] POSTS LOG LINES OUT\n'))
        self.assertEqual(called('posts')[0], 2)

    def test_little(self):
        for lines, log, want in [
            ('', b'', 'nothing accepted. 0 records, 0 accepted, none refused. No finding.'),
            ('1 - R1\n', record('tick 9 1'), 'nothing accepted. 1 record, 0 accepted, 1 refused (R1\u00a0×1). No finding.'),
            ('1 0 A0\n', record('tick 4 7'), '0:00:00.007 to 0:00:00.007, 0 ms. 1 record, 1 accepted, none refused. No finding.'),
            ('1 - R1\n2 0 A2\n', record('tick 9 1') + record('tick 4 7'), '1 accepted, 1 refused (R1\u00a0×1). 1 finding (F2\u00a0×1).'),
        ]:
            text = self.page(lines=lines, log=log)
            self.assertIn(want, text)
            for post in (0, 1):
                self.assertIn(f'Post {post}, channel {4 + post}', text)
        self.assertIn('nothing accepted', self.page(posts='', lines='1 - R1\n', log=record('tick 4 1')))

    def test_endings(self):
        self.assertIn(f'The log is cut: a piece of a record is left over at byte {len(LOG)}.', self.page(log=LOG + b'\x80'))
        self.assertIn(f'The log is malformed at byte {len(LOG)}, R17: a channel above 31 in a log record.', self.page(log=LOG + b'\x01\x20' + LOG))
        self.assertNotIn('The log is', self.page())

    def test_a_session_that_stays_open(self):
        text = self.page(log=b''.join(map(record, ['frame 4 100 6b001 x 0201', 'tick 4 900'])), lines='1 0 A0\n2 0 A1\n')
        self.assertIn('0:00:00.100still open', text)
        self.assertEqual(Path('out.html').read_text().count('class="session open"'), 1)

    def test_a_sensor_of_yes_and_no(self):
        """02, Req 03: F9 there is told with the sentence that mends it, and the line of 100 Ohm per volt is not drawn."""
        heard = ['frame 5 100 6b001 x 0201', status(200, 255), status(300, 0)]
        lines, sentence = '1 1 A0\n2 1 A0\n3 1 A256\n', 'For a yes/no sensor F9\'s insulation test is raw 0 and nothing else'
        self.page(log=b''.join(map(record, heard)), lines=lines)
        page = Path('out.html').read_text()
        self.assertEqual(page.count(f'02: "{sentence}"'), 1)
        self.assertNotIn('class="curve least"', page)
        self.page(posts=POSTS.replace('500 1\n', '500\n'), log=b''.join(map(record, heard)), lines=lines)
        page = Path('out.html').read_text()
        self.assertNotIn(sentence, page)
        self.assertNotIn('yes/no insulation sensor', page)
        self.assertEqual(page.count('class="curve least"'), 1)

    def test_the_older_interface(self):
        """02, Req 11: told of its post; its sessions, curves and functions are those of 001's messages, and a frame of the other one is refused with 29."""
        heard = ['frame 4 100 68001 x 0201000000000000', 'frame 4 110 68003 x 0a0f1400', 'frame 4 120 60010 x a10f00004a430114', 'frame 4 130 6b000 x 01',
                 'frame 4 900 68007 x 00']
        told = dict(posts=POSTS.replace('500\n', '500 0 1\n', 1), log=b''.join(map(record, heard)), lines='1 0 A0\n2 0 A16\n3 0 A256\n4 0 R29\n5 0 A0\n')
        text = self.page(**told)
        page = Path('out.html').read_text()
        self.assertIn('500.0 V, 200.0 A out, 50.0 A back, the older interface (001)', text)
        self.assertEqual(page.count('the older interface (001)'), 1)
        self.assertIn('R29 identifier that only the other interface has: 1', text)
        self.assertIn('Precharge: Precharge, 385.0 V, 2.0 A', text)
        self.assertIn('Curves of post 0: voltage from 400.1 to 400.1 V', page)
        self.assertIn('CCS_ISO_15118_2013_v2CCS_DC_ExtendedClean_Stop400.10.040', text)
        self.assertIn('02: Insulation_Test, Precharge and Charging_Loop count as the three functions', text)
        self.page(**{**told, 'posts': POSTS})
        self.assertNotIn('02: Insulation_Test', Path('out.html').read_text())

    def test_a_full_count(self):
        """02, Req 08: refused with 25, and in no tally."""
        text = self.page(lines=LINES.replace('R5 0', 'R25'))
        self.assertIn('R25 the post\'s count of accepted frames and ticks is at its largest: 1', text)
        rows = [tabled.cells(row) for row in tabled.table(dom.read(Path('out.html').read_text()), 'The tallies of each post')]
        self.assertEqual(rows, [['0', '1', *['0'] * 12], ['1', '1', *['0'] * 12]])

    def test_what_does_not_belong_together(self):
        for files, said in [
            (dict(lines=LINES + '5 0 A0\n'), 'lines: 5 lines for 4 records'),
            (dict(lines=''), 'lines: 0 lines for 4 records'),
            (dict(lines=LINES.replace('2 1', '3 1')), 'lines: line 2: counts 3'),
            (dict(lines=LINES.replace('2 1', '2 0')), 'lines: line 2: not the post that holds channel 5'),
            (dict(lines=LINES.replace('2 1 A0', '2 - R1')), 'lines: line 2: not the post that holds channel 5'),
            (dict(lines=LINES.replace('3 - R1', '3 0 A0')), 'lines: line 3: not the post that holds channel 9'),
            (dict(lines=LINES.replace('A0', 'A4096', 1)), 'lines: line 1: finding 13 is unknown here'),
            (dict(lines=LINES.replace('R5 0', 'R26')), 'lines: line 4: refusal 26 is unknown here'),
            (dict(log=record('frame 4 1 63000 x 00'), lines='1 0 A0\n'), 'lines: line 1: accepted, but it is no Power_Modules_Status: 00'),
            (dict(log=record('frame 4 1 6b001 x 0901'), lines='1 0 A0\n'), 'lines: line 1: accepted, but it is no New_Charge_Session: 0901'),
        ]:
            self.files(**files)
            self.refused(said)

    def test_lines_that_are_none(self):
        for line in ('', '1', '1 0', '1 0 A', '1 0 A0 ', ' 1 0 A0', '1  0 A0', '01 0 A0', '1 0 a0', '1 0 A0\r',
                     '1 0 R1', '1 - A0', '1 - R2', '1 0 R5', '1 0 R4 0', '1 0 R5:0', '1 0 R0'):
            self.files(lines=line + '\n' + LINES.split('\n', 1)[1])
            self.refused('lines: line 1: no line of a replay')

    def test_posts_that_are_none(self):
        for posts, said in [
            ('setup 0 4 5000 2000 500\n', 'line 1: not setup POST CHANNEL VOLT CHG DIS W [SENSOR [IFACE]]'),
            ('setup 0 4 5000 2000 500 500 0 0 0\n', 'line 1: not setup POST CHANNEL VOLT CHG DIS W [SENSOR [IFACE]]'),
            ('setup 0 4 4294967296 2000 500 500\n', 'line 1: not setup POST CHANNEL VOLT CHG DIS W [SENSOR [IFACE]]'),
            ('# x\nsetup 0 04 5000 2000 500 500\n', 'line 2: not setup POST CHANNEL VOLT CHG DIS W [SENSOR [IFACE]]'),
        ]:
            self.files(posts=posts)
            self.refused(f'posts: {said}')

    def test_a_set_up_that_is_refused(self):
        """The replay wrote no line, and the page says why."""
        for posts, line, why in [
            (POSTS + 'setup 2 5 1 1 1 100\nno line\n', 5, 'R11: channel held by another post'),
            (POSTS + 'setup 0 6 1 1 1 100\nsetup 0 5 1 1 1 100\n', 6, 'R11: channel held by another post'),
            ('setup 16 4 5000 2000 500 500\n', 1, 'R9: post number above 15'),
            ('# x\nsetup 0 32 5000 2000 500 500\n', 2, 'R10: channel above 31 at set-up'),
            ('setup 0 4 5000 2000 500 500 2\n', 1, 'R12: a post limit outside its range'),
            ('setup 0 4 5000 2000 500 500 0 2\n', 1, 'R12: a post limit outside its range'),
        ]:
            text = self.page(posts=posts, lines='')
            self.assertIn(f'Nothing was replayed: the set-up in line {line} of posts is refused, {why}. The log has 4 records.', text)
            self.assertNotIn('Post 0', text)
            self.assertIn('nothing replayed', dom.read(Path('out.html').read_text()).one('title').text())
        self.assertIn('The log has 4 records.The log is cut', self.page(posts=posts, lines='', log=LOG + b'\x80').replace('\n', ''))
        os.remove('out.html')
        self.files(posts=posts)
        self.refused('lines: lines, though line 1 of the posts is refused')

    def test_set_ups_as_they_are_judged(self):
        """By the second program, on both sides of each bound."""
        r = random.Random(61)
        for _ in range(40):
            lines = [f'setup {r.choice([0, 1, 15, 16])} {r.choice([0, 4, 31, 32])} {r.choice([0, 1, 65535, 65536])} {r.choice([1, 32767, 32767, 32768, 0])} '
                     f'{r.choice([0, 0, 32767, 32768])} {r.choice([100, 60000, 60000, 99, 60001])}{r.choice(["", " 0", " 1", " 2", " 0 0", " 0 1", " 1 1", " 1 2"])}'
                     for _ in range(3)]
            answers_ = answers(lines)
            refused = next(((line, int(answer[1:])) for line, answer in enumerate(answers_, 1) if answer != 'A'), None)
            self.assertEqual(posts.read('\n'.join(lines))[1], refused, lines)

    def test_a_log_without_records(self):
        for log, more in (b'', ''), (b'\x80', 'The log is cut: a piece of a record is left over at byte 0.'), (b'\x01\x20', 'The log is malformed at byte 0'):
            text = self.page(log=log, lines='').replace('\n', '')
            self.assertIn(f'The log holds no record.{more}', text)
        self.assertNotIn('The log holds no record', self.page())

    def test_names_of_any_bytes(self):
        """Files are found by them; on the page, and in what is told, are those bytes that can be printed."""
        odd = bytes(n for n in range(1, 256) if n != ord('/'))
        for name in (odd, b'\xff', b'a\nb', b'<b>&', b'-x', b'caf\xc3\xa9'):
            for suffix, file in ((b'.posts', 'posts'), (b'.log', 'night.log'), (b'.lines', 'lines')):
                shutil.copyfile(file, name[:200] + suffix)
            done = called('--', *(os.fsdecode(name[:200] + suffix) for suffix in (b'.posts', b'.log', b'.lines', b'.html')))
            self.assertEqual(done, (0, '', ''), name)
            page = dom.read(Path(os.fsdecode(name[:200] + b'.html')).read_bytes().decode()).one('main')
            shown = name[:200].decode(errors='backslashreplace')
            for letter in (chr(n) for n in (*range(32), 127)):
                shown = shown.replace(letter, letter.encode('unicode_escape').decode())
            self.assertIn(f'From {shown}.posts, {shown}.log.', page.one('footer').text())
            self.assertEqual(page.one('h1').text(), f'Night {shown}')
            self.assertIn('4 records, 2 accepted', page.text())
        told = 'report: none\\udcff: cannot be read: No such file or directory\n'
        self.assertEqual(called('posts', os.fsdecode(b'none\xff'), 'lines', 'out.html'), (2, '', told))

    def test_a_post_set_up_again(self):
        text = self.page(posts='setup 0 7 4000 1000 500 500\n' + POSTS + 'setup 2 7 4000 1000 500 500\n')
        for post, channel in (0, 4), (1, 5), (2, 7):
            self.assertIn(f'Post {post}, channel {channel}', text)

    def test_unreadable_and_unwritable(self):
        os.mkdir('folder')
        for words, said in [
            (('none', 'night.log', 'lines', 'out.html'), 'none: cannot be read: No such file or directory'),
            (('posts', 'none', 'lines', 'out.html'), 'none: cannot be read: No such file or directory'),
            (('posts', 'night.log', 'folder', 'out.html'), 'folder: cannot be read: Is a directory'),
            (('posts', 'night.log', 'lines', 'folder'), 'folder: cannot be written: Is a directory'),
            (('posts', 'night.log', 'lines', '/dev/full'), '/dev/full: cannot be written: No space left on device'),
            (('--screenshot', 'x.png', 'posts', 'night.log', 'lines', '-'), '--screenshot: there is no picture of standard output'),
        ]:
            self.refused(said, *words)

    def test_no_chromium(self):
        os.mkdir('bin')
        os.symlink(sys.executable, 'bin/python3')
        os.symlink(shutil.which('env'), 'bin/env')
        code, _, said = called('--screenshot', 'x.png', 'posts', 'night.log', 'lines', 'out.html', env={'PATH': str(Path('bin').resolve())})
        self.assertEqual((code, said), (2, 'report: chromium, which takes the picture, is not installed (on Debian: apt-get install chromium)\n'))
