"""The events of a panel, read without a browser: each is the whole state of the page."""
import json
import socket
import time


class Events:
    def __init__(self, port, patience=10):
        self.socket = socket.create_connection(('127.0.0.1', port), timeout=patience)
        self.socket.sendall(f'GET /events HTTP/1.1\r\nHost: 127.0.0.1:{port}\r\n\r\n'.encode())
        self.rest = b''
        self.head = self.part(b'\r\n\r\n').decode()

    def __enter__(self):
        return self

    def __exit__(self, *_):
        self.socket.close()

    def part(self, end):
        while end not in self.rest:
            piece = self.socket.recv(65536)
            if not piece:
                raise EOFError('the panel hung up')
            self.rest += piece
        part, self.rest = self.rest.split(end, 1)
        return part

    def next(self):
        """The next state."""
        while not (part := self.part(b'\n\n')).startswith(b'data: '):
            pass
        return json.loads(part.removeprefix(b'data: '))

    def until(self, wanted, patience=10):
        end = time.monotonic() + patience
        while time.monotonic() < end:
            if wanted(state := self.next()):
                return state
        raise AssertionError(f'not within {patience} s')
