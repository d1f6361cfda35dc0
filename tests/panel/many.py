"""Many clients, slow ones and junk: the panel goes on serving, and the log goes on being fed."""
import random
import re
import socket
import struct
import tempfile
import threading
import time
import unittest
from pathlib import Path

import events
from depot import Panel
from words import record

POSTS = 'setup 0 4 5000 1000 500 500\n'
# as the panel has them: so many at once, and so long for a request
MOST, PATIENCE = 64, 5


class Many(unittest.TestCase):
    def setUp(self):
        room = tempfile.TemporaryDirectory()
        self.addCleanup(room.cleanup)
        self.log, self.posts = Path(room.name) / 'night.log', Path(room.name) / 'posts'
        self.posts.write_text(POSTS)
        self.log.write_bytes(record('tick 4 100'))
        self.panel = self.enterContext(Panel(self.posts, self.log))

    def append(self, line):
        with self.log.open('ab') as file:
            file.write(record(line))

    def connected(self, said=b''):
        client = socket.create_connection(('127.0.0.1', self.panel.port), timeout=10)
        self.addCleanup(client.close)
        client.sendall(said)
        return client

    def asked(self, path):
        return f'GET {path} HTTP/1.1\r\nHost: 127.0.0.1:{self.panel.port}\r\n\r\n'.encode()

    def serves(self, patience=0):
        """The page, now or, as clients that have gone make room, within `patience` seconds."""
        end = time.monotonic() + patience
        while (answer := self.answered())[0] == 503 and time.monotonic() < end:
            time.sleep(0.1)
        self.assertEqual((answer[0], b'</html>' in answer[2]), (200, True))

    def answered(self):
        try:
            return self.panel.got('/')
        except ConnectionError: # hung up on before the request was sent, as one is who gets 503
            return 503, {}, b''

    def test_32_at_once(self):
        """Each has every state, among them the one with the finding, at the same moment."""
        found = [None] * 32

        def follow(place):
            with events.Events(self.panel.port) as client:
                while (state := client.next())['posts'][0]['finding'] is None:
                    pass
                found[place] = (time.monotonic(), state['posts'][0]['finding']['words'])

        threads = [threading.Thread(target=follow, args=(place,)) for place in range(32)]
        for thread in threads:
            thread.start()
        time.sleep(1.5)
        written = time.monotonic()
        self.append('frame 4 300 6b004 x 00')
        for thread in threads:
            thread.join(10)
        self.assertTrue(all(each and each[1] == ['F11 session finished with none open'] for each in found), found)
        slowest = max(each[0] for each in found) - written
        self.assertLess(slowest, 2)
        print(f'panel: 32 clients have a finding, the slowest after {slowest:.2f} s')

    def test_more_than_there_is_room_for(self):
        """Who comes late is told, and there is room again when the others have gone."""
        clients = [self.connected(self.asked('/events')) for _ in range(MOST)]
        for client in clients:
            self.assertTrue(client.recv(64).startswith(b'HTTP/1.1 200 OK\r\n'))
        for _ in range(5):
            self.assertTrue(self.connected().recv(64).startswith(b'HTTP/1.1 503 '))
        for client in clients:
            client.close()
        self.serves(patience=5)

    def test_slow_clients(self):
        """Some send a letter now and then, some take nothing of what they get: the log is fed meanwhile, and the slow ones are let go."""
        slow = [self.connected(b'G') for _ in range(20)]
        deaf = [self.connected(self.asked('/events')) for _ in range(20)]
        for client in deaf:
            client.setsockopt(socket.SOL_SOCKET, socket.SO_RCVBUF, 4096)
        with events.Events(self.panel.port) as client:
            begun = time.monotonic()
            for second in range(8):
                self.append(f'tick 4 {1000 + second}')
                state = client.until(lambda state: state['log']['records'] == second + 2)
                self.assertEqual(state['posts'][0]['accepted'], second + 2)
                for each in slow:
                    try:
                        each.sendall(b'E')
                    except OSError:
                        pass
            self.assertLess(time.monotonic() - begun, 12)
        for each in slow:
            self.assertTrue(each.recv(64).startswith(b'HTTP/1.1 408 '))
        self.serves()

    def test_junk(self):
        """A few hundred malformed requests, each answered with a reason or hung up on, and none with a page."""
        r = random.Random(31)
        host = f'Host: 127.0.0.1:{self.panel.port}'.encode()
        good = b'GET / HTTP/1.1\r\n' + host + b'\r\n\r\n'
        junk = [b'\r\n\r\n', b'\0' * 100 + b'\r\n\r\n', b'GET\r\n\r\n', b'GET /\r\n\r\n', b'GET / HTTP/1.1\r\n\r\n', b'GET / HTTP/9.9\r\n' + host + b'\r\n\r\n',
                b'\x16\x03\x01\x02\x00\x01\x00\x01\xfc\x03\x03' + b'\r\n\r\n', b'PRI * HTTP/2.0\r\n\r\nSM\r\n\r\n', b'GET ' + b'/' * 5000 + b' HTTP/1.1\r\n\r\n',
                b'GET / HTTP/1.1\r\n' + b'a: b\r\n' * 2000 + b'\r\n', b'GET / HTTP/1.1\r\nHost: evil.example\r\n\r\n', b'GET / HTTP/1.1\nHost: x\n\n\r\n\r\n',
                *(method + b' / HTTP/1.1\r\n' + host + b'\r\n\r\n' for method in (b'POST', b'PUT', b'DELETE', b'HEAD', b'OPTIONS', b'TRACE', b'CONNECT', b'get', b'X' * 900)),
                *(b'GET ' + path + b' HTTP/1.1\r\n' + host + b'\r\n\r\n' for path in
                  (b'/../../etc/passwd', b'//', b'/events/', b'/events?x=1', b'/%2e%2e/', b'/./', b'/panel.js', b'*', b'http://127.0.0.1/', b'/\\..\\', b'/favicon.ico', b'/\xff'))]
        while len(junk) < 400:
            bytes_ = bytearray(good if r.random() < 0.6 else r.randbytes(r.randrange(1, 300)) + b'\r\n\r\n')
            for _ in range(r.randrange(1, 6)):
                place = r.randrange(len(bytes_))
                if r.random() < 0.5:
                    bytes_[place] = r.choice(b'\0\r\n :/\xff') if r.random() < 0.7 else r.randrange(256)
                else:
                    del bytes_[place]
            junk.append(bytes(bytes_))
        right = re.compile(rb'GET / HTTP/1\.[01]\r\n[Hh][Oo][Ss][Tt]:[ \t]*127\.0\.0\.1:%d[ \t]*\r\n\r\n' % self.panel.port)
        answers = {}
        for request in junk:
            client = self.connected()
            try:
                client.sendall(request)
                client.shutdown(socket.SHUT_WR)
                answer = client.recv(4096)
            except ConnectionError:
                answer = b'reset'
            status = answer[:13].decode(errors='replace')
            # a space less, and what stands behind the empty line, leave a right request
            self.assertEqual(status.startswith('HTTP/1.1 200'), right.match(request) is not None, request)
            answers[status] = answers.get(status, 0) + 1
            client.close()
        self.assertGreater(sum(answers.values()), 350)
        self.assertGreaterEqual(len(answers), 6, answers)
        self.serves()
        with events.Events(self.panel.port) as client:
            self.append('tick 4 200')
            client.until(lambda state: state['log']['records'] == 2)
        print(f'panel: {sum(answers.values())} requests of junk, and it serves on')

    def test_hung_up(self):
        """Clients that reset their connection in the middle of everything."""
        for said in (b'', b'GET', self.asked('/'), self.asked('/events')) * 50:
            client = socket.create_connection(('127.0.0.1', self.panel.port), timeout=10)
            client.setsockopt(socket.SOL_SOCKET, socket.SO_LINGER, struct.pack('ii', 1, 0))
            client.sendall(said)
            client.close()
        self.serves()
