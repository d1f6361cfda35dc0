"""What the panel does to the machine: it writes to no file, listens at 127.0.0.1 alone, ends at once, and needs no more memory for a long log."""
import re
import signal
import socket
import subprocess
import tempfile
import time
import unittest
from pathlib import Path

import events
from depot import PANEL, Panel, ROOT, hears
from words import record

POSTS, LOG = ROOT / 'nights/march.posts', ROOT / 'nights/march.log'


class Safe(unittest.TestCase):
    def test_nothing_is_written(self):
        """Of all its system calls none opens a file to write, makes, removes or renames one; it binds one address."""
        with tempfile.TemporaryDirectory() as room:
            traced = Path(room) / 'traced'
            calls = 'trace=file,socket,bind,connect,write,pwrite64,writev,ftruncate,fallocate,mmap'
            process = subprocess.Popen(['strace', '-D', '-f', '-e', calls, '-o', traced, *PANEL, POSTS, LOG, '--port', '0'], stdout=subprocess.PIPE, text=True,
                                       preexec_fn=hears)
            self.addCleanup(process.stdout.close)
            port = int(process.stdout.readline().strip().rsplit(':', 1)[1].strip('/'))
            with events.Events(port) as client:
                client.next(), client.next()
            process.send_signal(signal.SIGINT)
            process.wait(timeout=10)
            # the tracer, which is no child of this one, has written its last line
            while '+++ killed by SIGINT +++' not in (text := traced.read_text()):
                time.sleep(0.05)
        opened = re.findall(r'open(?:at)?\((?:AT_FDCWD, )?"([^"]*)", ([A-Z_|]+)', text)
        self.assertIn(str(LOG), [name for name, _ in opened])
        for name, flags in opened:
            self.assertIn('O_RDONLY', flags, name)
            self.assertFalse({'O_CREAT', 'O_TRUNC', 'O_APPEND'} & set(flags.split('|')), name)
        for call in ('unlink', 'rename', 'mkdir', 'truncate', 'fallocate', 'chmod', 'link', 'connect'):
            self.assertNotRegex(text, rf'\b{call}\w*\(')
        self.assertEqual(re.findall(r'bind\(\d+, \{sa_family=(\w+), sin_port=htons\(0\), sin_addr=inet_addr\("([^"]*)"\)', text), [('AF_INET', '127.0.0.1')])
        self.assertEqual(len(re.findall(r'\bbind\(', text)), 1)
        # a file that is open for reading cannot be written by way of memory, and nothing else is written but to the terminal
        self.assertFalse([line for line in text.splitlines() if 'PROT_WRITE' in line and 'MAP_SHARED' in line])
        self.assertEqual(set(re.findall(r'write(?:v|64)?\((\d+),', text)) - {'1', '2'}, set())

    def test_loopback_alone(self):
        with Panel(POSTS, LOG) as panel:
            own = {address[4][0] for address in socket.getaddrinfo(socket.gethostname(), None, socket.AF_INET)} - {'127.0.0.1'}
            for address in own | {'127.0.0.2'}:
                with self.assertRaises(OSError):
                    socket.create_connection((address, panel.port), timeout=2)
            self.assertEqual(panel.got('/')[0], 200)

    def test_it_ends_at_once(self):
        """By Ctrl-C and by a plain kill, with clients that are connected."""
        for by in (signal.SIGINT, signal.SIGTERM):
            with Panel(POSTS, LOG) as panel, events.Events(panel.port) as client:
                client.next()
                begun = time.monotonic()
                self.assertEqual(panel.end(by), (-by, ''))
                self.assertLess(time.monotonic() - begun, 1)

    def test_once_a_second(self):
        """Whatever the log does, and each state is whole."""
        with Panel(POSTS, LOG) as panel, events.Events(panel.port) as client:
            client.next()
            begun = time.monotonic()
            states = [client.next() for _ in range(4)]
            took = time.monotonic() - begun
            self.assertTrue(3 < took < 6, took)
            self.assertTrue(all(len(state['posts']) == 16 for state in states))

    def test_headers(self):
        with Panel(POSTS, LOG) as panel:
            policies = set()
            for _ in range(2):
                status, headers, body = panel.got('/')
                policy = headers['Content-Security-Policy']
                nonce = re.search(r"script-src 'nonce-([0-9a-f]{32})'", policy)[1]
                self.assertEqual(policy, f"default-src 'none'; script-src 'nonce-{nonce}'; style-src 'nonce-{nonce}'; connect-src 'self'; base-uri 'none'; "
                                         "form-action 'none'; frame-ancestors 'none'")
                self.assertEqual(body.decode().count(nonce), 2)
                policies.add(policy)
            self.assertEqual(len(policies), 2)
            for path, wanted, host in (('/', 403, 'depot.example'), ('/events', 403, f'depot.example:{panel.port}'), ('/x', 404, f'localhost:{panel.port}')):
                status, headers, body = panel.got(path, Host=host)
                self.assertEqual((status, headers['Content-Security-Policy'], headers['X-Content-Type-Options']), (wanted, "default-src 'none'", 'nosniff'))
                self.assertLess(len(body), 64)

    def test_memory(self):
        """No more of it for twenty times the records."""
        most = {}
        with tempfile.TemporaryDirectory() as room:
            log = Path(room) / 'log'
            piece = b''.join(record(f'frame {4 + k % 2} {1000 + k} 6b000 x 0{k % 9}') for k in range(5000))
            for times in (10, 200):
                log.write_bytes(piece * times)
                with Panel(POSTS, log) as panel, events.Events(panel.port) as client:
                    client.until(lambda state: state['log']['records'] == 5000 * times, 60)
                    status = Path(f'/proc/{panel.process.pid}/status').read_text()
                    most[times] = int(re.search(r'VmHWM:\s+(\d+) kB', status)[1])
        self.assertLess(most[200], most[10] + 512, most)
        print(f'panel: {most[10]} kB over 50,000 records, {most[200]} kB over 1,000,000')
