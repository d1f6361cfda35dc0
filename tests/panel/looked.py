"""How the page is looked at: in the dark, on paper, on a phone, by the keyboard; what it asks of other hosts, which is nothing; and when the connection is lost."""
import signal
import struct
import tempfile
import time
import unittest
from pathlib import Path

import seen
from browser import Browser
from depot import ROOT, Panel
from words import record

POSTS = ROOT / 'nights/march.posts'
LOG = ROOT / 'nights/march.log'
PHONE = {'width': 360, 'height': 740, 'deviceScaleFactor': 2, 'mobile': True}


def luminance(colour):
    """Of `rgb(r, g, b)`, as WCAG has it."""
    parts = [int(part) / 255 for part in colour[colour.index('(') + 1:-1].split(',')[:3]]
    linear = [part / 12.92 if part <= 0.04045 else ((part + 0.055) / 1.055) ** 2.4 for part in parts]
    return 0.2126 * linear[0] + 0.7152 * linear[1] + 0.0722 * linear[2]


def contrast(one, other):
    light, dark = sorted((luminance(one), luminance(other)), reverse=True)
    return (light + 0.05) / (dark + 0.05)


class Looked(unittest.TestCase):
    def setUp(self):
        self.panel = self.enterContext(Panel(POSTS, LOG))
        self.browser = self.enterContext(Browser())
        self.tab = seen.opened(self.browser, self.panel)

    def colours(self):
        """The body's paper, and the ink of everything that is read."""
        paper = self.tab.run("getComputedStyle(document.body).backgroundColor")
        inks = self.tab.run("""[...document.querySelectorAll('body *')].filter((node) => node.innerText && !node.children.length && node.checkVisibility())
            .map((node) => getComputedStyle(node).color)""")
        card = self.tab.run("getComputedStyle(document.querySelector('.post')).backgroundColor")
        return paper, card, sorted(set(inks))

    def test_in_the_dark(self):
        found = {}
        for scheme in ('light', 'dark'):
            self.tab.call('Emulation.setEmulatedMedia', features=[{'name': 'prefers-color-scheme', 'value': scheme}])
            paper, card, inks = self.colours()
            for ink in inks:
                self.assertGreater(contrast(ink, paper), 4.5, (scheme, ink, paper))
                self.assertGreater(contrast(ink, card), 4.5, (scheme, ink, card))
            found[scheme] = luminance(paper)
        self.assertGreater(found['light'], 0.9)
        self.assertLess(found['dark'], 0.05)

    def test_on_paper(self):
        """Black on white, nothing folded, and the PDF has the findings."""
        self.tab.run("dispatchEvent(new Event('beforeprint'))")
        self.tab.call('Emulation.setEmulatedMedia', media='print', features=[{'name': 'prefers-color-scheme', 'value': 'dark'}])
        paper, _, inks = self.colours()
        self.assertEqual(paper, 'rgb(255, 255, 255)')
        self.assertTrue(all(luminance(ink) < 0.05 for ink in inks), inks)
        self.assertTrue(self.tab.run("[...document.querySelectorAll('details')].every((each) => each.open)"))
        self.assertTrue(self.tab.call('Page.printToPDF')['data'])

    def test_on_a_phone(self):
        self.tab.call('Emulation.setDeviceMetricsOverride', **PHONE)
        self.tab.run("document.querySelectorAll('details').forEach((each) => { each.open = true; })")
        wide, all_ = self.tab.run('[document.documentElement.scrollWidth, innerWidth]')
        self.assertLessEqual(wide, all_)
        self.assertEqual(all_, PHONE['width'])
        # one card below the other
        lefts = self.tab.run("[...new Set([...document.querySelectorAll('.post')].map((card) => card.getBoundingClientRect().left))].length")
        self.assertEqual(lefts, 1)

    def test_large_type(self):
        """The post's number and its channel are the largest on their card."""
        sizes = self.tab.run("""['number', 'channel', 'heard', 'session', 'value', 'age'].map((name) =>
            parseFloat(getComputedStyle(document.querySelector('.post .' + name)).fontSize))""")
        self.assertGreaterEqual(min(sizes[:2]), 1.6 * max(sizes[2:]))

    def pressed(self, key, code):
        for kind in ('keyDown', 'keyUp'):
            self.tab.call('Input.dispatchKeyEvent', type=kind, key=key, code=key, windowsVirtualKeyCode=code, **({'text': '\r'} if key == 'Enter' and kind == 'keyDown' else {}))

    def test_without_a_mouse(self):
        """Tab leads to every post and to what is folded, with an outline; Enter follows and unfolds, and the next state leaves it so."""
        names = []
        for _ in range(16):
            self.pressed('Tab', 9)
            names.append(self.tab.run("document.activeElement.getAttribute('href')"))
            self.assertNotEqual(self.tab.run("getComputedStyle(document.activeElement).outlineStyle"), 'none')
        self.assertEqual(names, [f'#post-{post}' for post in range(16)])
        self.pressed('Tab', 9)
        self.assertEqual(self.tab.run("[document.activeElement.tagName, document.activeElement.parentElement.open]"), ['SUMMARY', False])
        self.pressed('Enter', 13)
        self.tab.run('new Promise((done) => setTimeout(done, 2200))')
        self.assertEqual(self.tab.run("[document.activeElement.tagName, document.activeElement.parentElement.open]"), ['SUMMARY', True])

    def test_nothing_from_another_host(self):
        self.tab.run('new Promise((done) => setTimeout(done, 1200))')
        asked = {each['request']['url'] for each in self.tab.said('Network.requestWillBeSent')}
        self.assertEqual(asked, {self.panel.address, self.panel.address + 'events'})
        self.assertEqual(self.tab.said('Runtime.exceptionThrown', 'Log.entryAdded'), [])

    def test_the_policy_holds(self):
        """Neither a script nor a style that is put into the page is taken, and nothing leaves it."""
        self.tab.run("""(() => {
            const script = document.createElement('script'); script.textContent = 'window.taken = true'; document.body.append(script);
            const image = document.createElement('img'); image.setAttribute('onerror', 'window.taken = true'); image.src = 'http://127.0.0.1:9/x'; document.body.append(image);
            const style = document.createElement('style'); style.textContent = 'body { color: rgb(1, 2, 3) }'; document.body.append(style);
        })()""")
        left = self.tab.run("fetch('http://localhost:9/x').then(() => 'left', (error) => error.name)")
        self.assertEqual((self.tab.run('window.taken'), left), (None, 'TypeError'))
        self.assertNotEqual(self.tab.run("getComputedStyle(document.body).color"), 'rgb(1, 2, 3)')
        self.assertGreaterEqual(len(self.tab.said('Log.entryAdded')), 3)

    def test_fresh(self):
        """As of the recorder's clock and of the file's."""
        written = time.strftime('%Y-%m-%d %H:%M:%S', time.localtime(LOG.stat().st_mtime))
        self.assertRegex(seen.line(self.tab, 'fresh'), rf"\AAs of 0:00:10\.604 by the recorder's clock; log written {written}, .* ago\Z")

    def test_a_lost_connection(self):
        """It says so when the panel ends and when it falls silent, and goes on by itself when it is there again."""
        lost = "document.body.classList.contains('lost')"
        self.assertEqual(seen.line(self.tab, 'connection'), 'Connected')
        self.panel.process.send_signal(signal.SIGSTOP)
        self.tab.until(lost, 6)
        self.assertRegex(seen.line(self.tab, 'connection'), r'\AConnection lost at \d\d:\d\d:\d\d; what stands here is of \d{4}-\d\d-\d\d \d\d:\d\d:\d\d; trying again\Z')
        self.panel.process.send_signal(signal.SIGCONT)
        self.tab.until(f'!{lost}', 6)
        self.panel.end()
        self.tab.until(lost, 3)
        with Panel(POSTS, LOG, port=self.panel.port):
            self.tab.until(f'!{lost}', 10)
            self.assertEqual(seen.line(self.tab, 'connection'), 'Connected')


class Sensor(unittest.TestCase):
    def test_a_yes_no_sensor(self):
        """02, Req 03: Valid and Invalid, and no kOhm; a measuring one beside it has its limit."""
        with tempfile.TemporaryDirectory() as room:
            posts, log = Path(room) / 'posts', Path(room) / 'log'
            posts.write_text('setup 0 4 5000 1000 500 500 1\nsetup 1 5 5000 1000 500 500\n')
            for raw, words, marked in ((255, 'Valid', False), (0, 'Invalid', True), (7, '7, neither Valid (255) nor Invalid (0)', False)):
                status = struct.pack('<HhBBBB', 4000, 0, 65, 65, 1, raw).hex()
                log.write_bytes(record(f'frame 4 100 63000 x {status}') + record(f'frame 5 100 63000 x {status}'))
                with Panel(posts, log) as panel, Browser() as browser:
                    first, second, *_ = seen.cards(seen.opened(browser, panel))
                self.assertEqual(first['readings'][2], ['Insulation', words, 'yes/no sensor', '0 ms old', marked])
                self.assertEqual(second['readings'][2], ['Insulation', f'{2 * raw} kOhm', 'limit 40.00 kOhm at 400.0 V', '0 ms old', 2 * raw < 40])
